// A text as a byte vector with a screen of classes, and what is known at the start of each line: its place, and the grammar's
// state there. An edit moves what stands behind it, and lexes from the line's start on until a line begins in the state it had.

use crate::grammar::{colour, Grammar, MARK};

// At the start of a line that has yet to be lexed.
const NO_STATE: u8 = 255;

pub struct LineCache<G> {
    grammar: G,
    pub text: Vec<u8>,
    pub screen: Vec<u8>,
    starts: Vec<u32>,
    states: Vec<u8>,
}

// Puts values in the place of a range: what stands behind it moves once.
fn replace<T: Copy + Default>(list: &mut Vec<T>, from: usize, to: usize, values: &[T]) {
    let old = list.len();
    let behind = from + values.len();
    let new = old - (to - from) + values.len();
    if new > old {
        list.resize(new, T::default());
    }
    list.copy_within(to..old, behind);
    list.truncate(new);
    list[from..behind].copy_from_slice(values);
}

// The starts of lines behind the line ends of bytes that stand at a place.
fn starts_of(place: usize, bytes: &[u8]) -> Vec<u32> {
    let ends = bytes.iter().enumerate().filter(|(_, byte)| **byte == b'\n');
    ends.map(|(index, _)| (place + index + 1) as u32).collect()
}

impl<G: Grammar> LineCache<G> {
    pub fn new(grammar: G, text: &[u8], room: usize) -> LineCache<G> {
        let mut cache = LineCache {
            grammar,
            text: Vec::with_capacity(room),
            screen: Vec::with_capacity(room),
            starts: vec![0],
            states: vec![0],
        };
        cache.edit(0, 0, text);
        cache
    }

    // Puts bytes in the place of a range, and brings screen, line index and states up to date.
    pub fn edit(&mut self, from: usize, to: usize, bytes: &[u8]) {
        let first = self.starts.partition_point(|start| *start as usize <= from);
        let kept = self.starts.partition_point(|start| *start as usize <= to);
        replace(&mut self.text, from, to, bytes);
        replace(&mut self.screen, from, to, bytes);
        let moved = (bytes.len() as u32).wrapping_sub((to - from) as u32);
        for start in &mut self.starts[kept..] {
            *start = start.wrapping_add(moved);
        }
        let fresh = starts_of(from, bytes);
        if first != kept || !fresh.is_empty() {
            let states = vec![NO_STATE; fresh.len()];
            replace(&mut self.starts, first, kept, &fresh);
            replace(&mut self.states, first, kept, &states);
        }
        self.lex_from(first - 1);
    }

    // Lexes whole lines, until one begins in the state that it had.
    fn lex_from(&mut self, line: usize) {
        let mut state = self.states[line];
        for line in line..self.starts.len() {
            let next = self.starts.get(line + 1);
            let start = self.starts[line] as usize;
            let end = next.map_or(self.text.len(), |next| *next as usize);
            let cells = &mut self.screen[start..end];
            state = colour(self.grammar, state, &self.text[start..end], cells);
            match self.states.get_mut(line + 1) {
                Some(had) if *had != state => *had = state,
                _ => break,
            }
        }
    }

    // The partner of an opening, sought byte by byte. Brackets count where the screen says that they are marks.
    pub fn partner(&self, place: usize) -> Option<usize> {
        let mut depth = 0usize;
        for (index, byte) in self.text.iter().enumerate().skip(place) {
            match byte {
                b'(' | b'[' | b'{' if self.screen[index] == MARK => depth += 1,
                b')' | b']' | b'}' if self.screen[index] == MARK => {
                    depth -= 1;
                    if depth == 0 {
                        return Some(index);
                    }
                }
                _ => {}
            }
        }
        None
    }
}
