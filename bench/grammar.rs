// The grammars of docs/RULES.md, written as layers: scene words, comments, strings and regions; and a grammar as a table.

pub const BLANK: u8 = 0;
pub const WORD: u8 = 1;
pub const NUMBER: u8 = 2;
pub const MARK: u8 = 3;
pub const COMMENT: u8 = 4;
pub const STRING: u8 = 5;
pub const ESCAPE: u8 = 6;
pub const BORDER: u8 = 7;

// A grammar with states below its count.
pub trait Grammar: Copy {
    const COUNT: u8;

    // The state behind a byte, and the byte's class.
    fn read(&self, state: u8, byte: u8) -> (u8, u8);

    fn is_open(&self, state: u8) -> bool;
}

#[derive(Clone, Copy)]
pub struct Words;

impl Grammar for Words {
    const COUNT: u8 = 3;

    #[inline]
    fn read(&self, state: u8, byte: u8) -> (u8, u8) {
        match byte {
            b'\t' | b'\n' | b'\r' | b' ' => (0, BLANK),
            b'A'..=b'Z' | b'a'..=b'z' | b'_' | 0x80..=0xFF => (1, WORD),
            b'0'..=b'9' if state == 1 => (1, WORD),
            b'0'..=b'9' => (2, NUMBER),
            b'.' if state == 2 => (2, NUMBER),
            _ => (0, MARK),
        }
    }

    #[inline]
    fn is_open(&self, _state: u8) -> bool {
        true
    }
}

#[derive(Clone, Copy)]
pub struct Comment<G>(pub G);

impl<G: Grammar> Grammar for Comment<G> {
    const COUNT: u8 = 2 * G::COUNT;

    #[inline]
    fn read(&self, state: u8, byte: u8) -> (u8, u8) {
        let n = G::COUNT;
        if state >= n {
            return match byte {
                b'\n' => self.0.read(state - n, byte),
                _ => (state, COMMENT),
            };
        }
        let (below, class) = self.0.read(state, byte);
        if byte == b'#' && self.0.is_open(state) {
            (n + below, COMMENT)
        } else {
            (below, class)
        }
    }

    #[inline]
    fn is_open(&self, state: u8) -> bool {
        state < G::COUNT && self.0.is_open(state)
    }
}

#[derive(Clone, Copy)]
pub struct Quoted<G>(pub G);

impl<G: Grammar> Grammar for Quoted<G> {
    const COUNT: u8 = 3 * G::COUNT;

    #[inline]
    fn read(&self, state: u8, byte: u8) -> (u8, u8) {
        let n = G::COUNT;
        if state < n {
            let (below, class) = self.0.read(state, byte);
            return if byte == b'"' && self.0.is_open(state) {
                (n + below, STRING)
            } else {
                (below, class)
            };
        }
        let waiting = if state < 2 * n {
            state - n
        } else {
            state - 2 * n
        };
        match byte {
            b'\n' => self.0.read(waiting, byte),
            _ if state >= 2 * n => (n + waiting, ESCAPE),
            b'"' => (waiting, STRING),
            b'\\' => (2 * n + waiting, ESCAPE),
            _ => (state, STRING),
        }
    }

    #[inline]
    fn is_open(&self, state: u8) -> bool {
        state < G::COUNT && self.0.is_open(state)
    }
}

#[derive(Clone, Copy)]
pub struct Region<G, H>(pub G, pub H);

impl<G: Grammar, H: Grammar> Grammar for Region<G, H> {
    const COUNT: u8 = G::COUNT + G::COUNT * H::COUNT;

    #[inline]
    fn read(&self, state: u8, byte: u8) -> (u8, u8) {
        let n = G::COUNT;
        let m = H::COUNT;
        if state < n {
            let (below, class) = self.0.read(state, byte);
            return if byte == b'`' && self.0.is_open(state) {
                (n + m * below, BORDER)
            } else {
                (below, class)
            };
        }
        let waiting = (state - n) / m;
        let inner = (state - n) % m;
        if byte == b'`' && self.1.is_open(inner) {
            return (waiting, BORDER);
        }
        let (behind, class) = self.1.read(inner, byte);
        (n + m * waiting + behind, class)
    }

    #[inline]
    fn is_open(&self, state: u8) -> bool {
        let n = G::COUNT;
        if state < n {
            self.0.is_open(state)
        } else {
            self.1.is_open((state - n) % H::COUNT)
        }
    }
}

// What a grammar answers, for each of 64 states and each byte.
pub type Table = [[(u8, u8); 256]; 64];

pub fn table_of<G: Grammar>(grammar: G) -> Box<Table> {
    let mut table = Box::new([[(0, 0); 256]; 64]);
    for state in 0..G::COUNT {
        for byte in 0..=255 {
            table[state as usize][byte as usize] = grammar.read(state, byte);
        }
    }
    table
}

// Colours the bytes, read from a state on; gives the state behind them.
#[inline]
pub fn colour<G: Grammar>(grammar: G, state: u8, bytes: &[u8], cells: &mut [u8]) -> u8 {
    let mut now_in = state;
    for (byte, cell) in bytes.iter().zip(cells) {
        (now_in, *cell) = grammar.read(now_in, *byte);
    }
    now_in
}

// The same by a table.
pub fn colour_by_table(table: &Table, state: u8, bytes: &[u8], cells: &mut [u8]) -> u8 {
    let mut now_in = state;
    for (byte, cell) in bytes.iter().zip(cells) {
        (now_in, *cell) = table[now_in as usize & 63][*byte as usize];
    }
    now_in
}
