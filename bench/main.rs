// Plain Rust beside the server: a line-state cache, full lexing, a scan for a partner, and the move of a screen's tail.
//
//     rustc -O --edition 2021 main.rs -o NAME && ./NAME
//
// Writes one line for each thing measured: the text's size, what was done, and the median of the samples in nanoseconds.

mod grammar;
mod line_cache;
mod scenes;
mod timing;

use grammar::{colour, colour_by_table, table_of, Comment, Grammar, Quoted, Region, Words};
use line_cache::LineCache;
use std::hint::black_box;
use timing::{median_of, Samples};

const SIZES: [usize; 3] = [4_096, 32_768, 260_096];

// How many letters are typed in a row, and taken out again.
const ROW: usize = 32;

const ROOM: usize = 262_144;

const SCENE: Quoted<Comment<Words>> = Quoted(Comment(Words));

const REGION: Region<Words, Words> = Region(Words, Words);

// The start of the first line that begins behind the middle.
fn middle_line(text: &[u8]) -> usize {
    let middle = text.len() / 2;
    let ends = text[middle..].iter().position(|byte| *byte == b'\n');
    ends.map_or(middle, |behind| middle + behind + 1)
}

fn report(size: usize, what: &str, nanoseconds: u64) {
    println!("{size} {what} {nanoseconds}");
}

// The screen shows what lexing from the start gives.
fn check<G: Grammar>(grammar: G, cache: &LineCache<G>) {
    let mut cells = vec![0; cache.text.len()];
    colour(grammar, 0, &cache.text, &mut cells);
    assert!(cells == cache.screen);
}

// Letters typed in a row and taken out again, from the last one back.
fn measure_letters(text: &[u8], place: usize) -> u64 {
    let mut cache = LineCache::new(SCENE, text, ROOM);
    let mut samples = Samples::new();
    for round in 0..200 {
        samples.add(ROW as u64, || {
            for k in 0..ROW {
                cache.edit(place + k, place + k, b"x");
            }
        });
        if round == 0 {
            check(SCENE, &cache);
        }
        samples.add(ROW as u64, || {
            for k in (0..ROW).rev() {
                cache.edit(place + k, place + k + 1, b"");
            }
        });
    }
    check(SCENE, &cache);
    samples.median()
}

// Bytes put in at a place, and taken out again, so many times.
fn measure_pair<G: Grammar>(
    grammar: G,
    text: &[u8],
    place: usize,
    bytes: &[u8],
    rounds: u32,
) -> u64 {
    let mut cache = LineCache::new(grammar, text, ROOM);
    let mut samples = Samples::new();
    for round in 0..rounds {
        samples.add(1, || cache.edit(place, place, bytes));
        if round == 0 {
            check(grammar, &cache);
        }
        samples.add(1, || cache.edit(place, place + bytes.len(), b""));
    }
    check(grammar, &cache);
    samples.median()
}

// 1,024 bytes of the text itself, from its second byte on, pasted at a place; only the paste is timed.
fn measure_paste(text: &[u8], place: usize) -> u64 {
    let mut cache = LineCache::new(SCENE, text, ROOM);
    let pasted = &text[1..1025];
    let mut samples = Samples::new();
    for _ in 0..400 {
        samples.add(1, || cache.edit(place, place, pasted));
        cache.edit(place, place + pasted.len(), b"");
    }
    check(SCENE, &cache);
    samples.median()
}

fn measure_delete_all(text: &[u8]) -> u64 {
    let mut cache = LineCache::new(SCENE, text, ROOM);
    let mut samples = Samples::new();
    for _ in 0..21 {
        samples.add(1, || cache.edit(0, text.len(), b""));
        cache.edit(0, 0, text);
    }
    check(SCENE, &cache);
    samples.median()
}

// The whole text lexed from its start, by the layers and by a table of them.
fn report_lexing<G: Grammar>(grammar: G, text: &[u8], name: &str) {
    let table = table_of(grammar);
    let mut cells = vec![0; text.len()];
    let layers = median_of(101, 1, || colour(grammar, 0, black_box(text), &mut cells));
    let by_table = median_of(101, 1, || {
        colour_by_table(&table, 0, black_box(text), &mut cells)
    });
    report(text.len(), &format!("lex-{name}"), layers);
    report(text.len(), &format!("lex-{name}-by-table"), by_table);
}

// The tail of a screen moved by one cell, as a letter in the middle moves it.
fn measure_tail(size: usize) -> u64 {
    let mut screen = vec![1u8; size + 1];
    median_of(201, 32, || {
        black_box(&mut screen).copy_within(size / 2..size, size / 2 + 1)
    })
}

fn measure_scan(text: &[u8]) -> u64 {
    let cache = LineCache::new(SCENE, text, ROOM);
    assert!(cache.partner(0) == Some(text.len() - 1));
    median_of(101, 1, || black_box(&cache).partner(0))
}

fn main() {
    for size in SIZES {
        let text = scenes::scene(size);
        let middle = middle_line(&text);
        println!("{size} checksum {}", scenes::checksum(&text));
        report(size, "letter", measure_letters(&text, middle));
        report(
            size,
            "quote",
            measure_pair(SCENE, &text, middle, b"\"", 1_000),
        );
        report(size, "region", measure_pair(REGION, &text, 0, b"`", 50));
        report(size, "paste", measure_paste(&text, middle));
        report(size, "delete-all", measure_delete_all(&text));
        report(size, "scan", measure_scan(&text));
        report(size, "tail", measure_tail(size));
        report_lexing(SCENE, &text, "scene");
        report_lexing(REGION, &text, "region");
    }
}
