//! Many lines and many bytes in one call, against a line and a byte at a time by the independent implementation.

use crate::calls::{self, List};
use crate::generate::{self, Random};
use crate::{growing, random_words};
use foamlattice::slices::MOST_RECORD_BYTES;

/// Where a line ends: at a 10, or at a 13 that stands directly before one.
fn end_at(text: &[u8], place: usize) -> Option<usize> {
    match (text[place], text.get(place + 1)) {
        (b'\n', _) => Some(1),
        (b'\r', Some(b'\n')) => Some(2),
        _ => None,
    }
}

/// The lines of a text, walked byte by byte.
pub fn lines(text: &[u8]) -> Vec<Vec<u8>> {
    let (mut lines, mut line, mut place) = (vec![], vec![], 0);
    while place < text.len() {
        match end_at(text, place) {
            Some(size) => {
                lines.push(std::mem::take(&mut line));
                place += size;
            }
            None => {
                line.push(text[place]);
                place += 1;
            }
        }
    }
    if !line.is_empty() {
        lines.push(line);
    }
    lines
}

const ENDS: [&[u8]; 5] = [b"\n", b"\r\n", b"\r\r\n", b"\r", b""];

/// Lines in, near or far from the language of an expression, with ends of all kinds, the last one's sometimes left out.
fn random_text(r: &mut Random, e: &[u8], most: usize) -> Vec<u8> {
    let mut text = vec![];
    for _ in 0..r.below(most) {
        text.extend(if r.one_in(2) { generate::text(r, e, 20) } else { r.bytes(4, b"ab\r") });
        text.extend(ENDS[[0, 0, 0, 1, 1, 2, 3, 4][r.below(8)]]);
    }
    text
}

/// An expression's list; one time in ten damaged.
fn random_list(r: &mut Random, size: usize) -> Option<(Vec<u8>, List)> {
    let mut e = vec![];
    generate::expression(r, size, 6, b"ab", &mut e);
    let mut list = calls::read(&e, MOST_RECORD_BYTES)?;
    if r.one_in(10) {
        let mut bytes = list.bytes.clone();
        generate::damage_list(r, &mut bytes);
        list = List::new(bytes, vec![]);
    }
    Some((e, list))
}

/// Lines of random texts, in buffers that just fit, have bytes to spare, or are a byte or more too short.
pub fn random_lines(r: &mut Random) -> usize {
    let rounds = 60_000;
    for round in 0..rounds {
        let size = growing(r, if round % 9 == 0 { 200 } else { 30 }, round, rounds);
        let Some((e, list)) = random_list(r, size) else { continue };
        let text = random_text(r, &e, 12);
        let count = lines(&text).len();
        let room = [count, count, count + r.below(9), text.len(), text.len() + 3, count.saturating_sub(1), r.below(count + 1)];
        list.compare_lines(&text, room[r.below(room.len())]);
    }
    rounds
}

/// All texts of at most 6 bytes that are in ends or in none, in buffers that just fit and are a byte too short.
pub fn short_texts(_: &mut Random) -> usize {
    let list = calls::read(b"a*\r*", MOST_RECORD_BYTES).expect("good");
    let all = crate::all_rows(b"a\r\n", 6);
    for text in &all {
        let count = lines(text).len();
        list.compare_lines(text, count);
        if count > 0 {
            list.compare_lines(text, count - 1);
        }
    }
    2 * all.len()
}

/// Both sides of 65,536 bytes: one line, only empty lines, lines that end by two bytes; class records enough and too few.
pub fn long_texts(_: &mut Random) -> usize {
    let mut count = 0;
    for length in [65_535, 65_536, 65_537] {
        let pairs = b"a\r\n".iter().cycle().copied().take(length).collect();
        for text in [vec![b'a'; length], vec![b'\n'; length], pairs] {
            for e in [&b"a*"[..], b"[ab]*"] {
                let list = calls::read_second(e, [MOST_RECORD_BYTES, 32]).expect("good");
                let lines = lines(&text).len();
                for room in [lines, lines - 1, 65_537] {
                    list.compare_lines(&text, room);
                    list.lent(vec![0; 31]).compare_lines(&text, room);
                    count += 2;
                }
            }
        }
    }
    count
}

/// Steps along rows of bytes, no byte too, from the marks of a start or from random words, sometimes with a word too few.
pub fn steps_along(r: &mut Random) -> usize {
    let rounds = 60_000;
    for round in 0..rounds {
        let size = growing(r, if round % 5 == 0 { 200 } else { 40 }, round, rounds);
        let Some((e, list)) = random_list(r, size) else { continue };
        let mut words = list.compare_start(list.pieces() + r.below(3));
        if list.pieces() > 0 && r.one_in(2) {
            words = random_words(r, &list);
        }
        if r.one_in(9) {
            words.pop();
        }
        let bytes = if r.one_in(3) { generate::text(r, &e, 20) } else { r.bytes(6, b"abc") };
        list.compare_steps(&words, &bytes);
    }
    rounds
}

/// A table of any entries that lie near its heading, so that many lead somewhere; one time in nine too short.
fn random_table(r: &mut Random) -> Vec<u16> {
    let states = 2 + r.below(6);
    let columns = 1 + r.below(4);
    let mut table: Vec<u16> = (0..257).map(|_| (257 + states * r.below(columns + 1)) as u16).collect();
    table.extend((0..states * columns).map(|_| if r.one_in(2) { 1 } else { r.below(states) as u16 }));
    if r.one_in(9) {
        table.truncate(r.below(table.len()));
    }
    table
}

/// Lines of random texts by random tables, in buffers of several lengths; and texts round the limit of 65,536 bytes.
pub fn by_tables(r: &mut Random) -> usize {
    let rounds = 60_000;
    for _ in 0..rounds {
        let table = random_table(r);
        let text = random_text(r, b"(a|b)*", 12);
        let count = lines(&text).len();
        let room = [count, count + r.below(9), text.len(), count.saturating_sub(1)];
        calls::lines_by_table(&table, &text, room[r.below(room.len())]);
    }
    for length in [65_535, 65_536, 65_537] {
        for text in [vec![b'a'; length], vec![b'\n'; length]] {
            calls::lines_by_table(&random_table(r), &text, length);
        }
    }
    rounds + 6
}
