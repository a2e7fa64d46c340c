//! Tables of steps: made again from the uncut automaton, and any numbers as a table, run by a plain interpreter.

use crate::calls::{self, List};
use crate::expected::Automaton;
use crate::generate::{self, Random};
use foamlattice::slices::{MOST_CLASS_BYTES, MOST_RECORD_BYTES};
use std::collections::HashMap;

/// The entries that say where the columns begin.
pub const HEADING: usize = 257;

/// No table has more entries.
const MOST_ENTRIES: usize = 65_536;

/// What a table should hold, and how many words of room its making takes.
pub struct Table {
    pub states: usize,
    pub entries: Vec<u16>,
    pub room: usize,
}

/// The state of a set of marks: which starts of leaves are marked, the empty text's aside, and whether the root's accepting state
/// is. `None` where nothing is marked.
fn state_of(automaton: &Automaton, marks: &[bool]) -> Option<Vec<bool>> {
    let starts = automaton.leaf_starts().map(|start| marks[start]);
    marks.contains(&true).then(|| starts.chain([marks[marks.len() - 1]]).collect())
}

/// For each byte the number of its column, and the first byte of each column: bytes that every leaf takes alike share one.
fn columns(automaton: &Automaton) -> (Vec<usize>, Vec<u8>) {
    let mut firsts = vec![];
    let mut seen = HashMap::new();
    let column = |byte: u8| {
        *seen.entry(automaton.taken_by(byte)).or_insert_with(|| {
            firsts.push(byte);
            firsts.len() - 1
        })
    };
    let columns = (0..=255).map(column).collect();
    (columns, firsts)
}

/// The table of an automaton, if it has at most so many entries and takes at most so many words of room.
pub fn table(automaton: &Automaton, most_entries: usize, most_room: usize) -> Option<Table> {
    let (columns, firsts) = columns(automaton);
    let room_of = |states: usize| (1 + automaton.widths.len() + firsts.len()) * (states - 1);
    let length = |states: usize| HEADING + (firsts.len() + 1) * states;
    let fits = |states: usize| length(states) <= most_entries.min(MOST_ENTRIES) && room_of(states) <= most_room;
    let start = automaton.start();
    let mut numbers = HashMap::from([(state_of(automaton, &start)?, 1)]);
    let mut sets = vec![start];
    let mut rows = vec![];
    while rows.len() < sets.len() {
        if !fits(1 + sets.len()) {
            return None;
        }
        let row = firsts.iter().map(|&byte| {
            let marks = automaton.step(&sets[rows.len()], byte);
            let Some(state) = state_of(automaton, &marks) else { return 0 };
            *numbers.entry(state).or_insert_with(|| {
                sets.push(marks);
                sets.len()
            })
        });
        let row: Vec<usize> = row.collect();
        rows.push(row);
    }
    let states = 1 + sets.len();
    let begin = |column: usize| HEADING + column * states;
    let heading = columns.iter().map(|&column| begin(column)).chain([begin(firsts.len())]);
    let steps = (0..firsts.len()).flat_map(|column| [0].into_iter().chain(rows.iter().map(move |row| row[column])));
    let accepting = [0].into_iter().chain(sets.iter().map(|marks| marks[marks.len() - 1] as usize));
    let entries: Vec<u16> = heading.chain(steps).chain(accepting).map(|entry| entry as u16).collect();
    fits(states).then_some(Table { states, entries, room: room_of(states) })
}

/// Whether any numbers, taken as a table, accept a text. An entry past the end is 0, and from state 0 nothing is accepted.
pub fn accepts(table: &[u16], text: &[u8]) -> bool {
    let at = |index: usize| table.get(index).copied().unwrap_or(0) as usize;
    let mut state = 1;
    for &byte in text {
        if state > 0 {
            state = at(at(byte as usize) + state);
        }
    }
    state > 0 && at(at(256) + state) == 1
}

/// Tables in buffers that just fit, and with one entry of the table or one word of the room too few.
fn compare_sizes(list: &List) {
    let Some(table) = table(list.automaton(), MOST_ENTRIES, usize::MAX) else { return };
    list.compare_table(table.entries.len(), table.room);
    list.compare_table(table.entries.len() + 3, table.room + 5);
    list.compare_table(table.entries.len() - 1, table.room);
    list.compare_table(table.entries.len(), table.room - 1);
    list.compare_table(0, 0);
}

/// Expressions of the second syntax, with tables in buffers round the sizes that fit.
pub fn sizes(r: &mut Random) -> usize {
    let rounds = 5_000;
    for round in 0..rounds {
        let mut e = vec![];
        let size = 1 + r.below(1 + 40 * round / rounds);
        generate::expression(r, size, 6, b"abc.\x00\xff", &mut e);
        if let Some(list) = calls::read_second(&e, [MOST_RECORD_BYTES, MOST_CLASS_BYTES]) {
            compare_sizes(&list);
        }
    }
    rounds
}

/// Expressions whose tables double with each letter: the last ones do not fit in any table.
pub fn growing(_: &mut Random) -> usize {
    let letters = 1..=16;
    for count in letters.clone() {
        let e = [&b"(a|b)*a"[..], &b"(a|b)".repeat(count)].concat();
        let list = calls::read(&e, MOST_RECORD_BYTES).expect("good");
        list.compare_table(MOST_ENTRIES, 1 << 20);
        list.compare_table(70_000, 1 << 12);
        list.compare_table(1_000, 1 << 20);
    }
    letters.count()
}

/// A table whose numbers need not be those of any list: small ones, which lead to entries that are there, or any.
fn any_table(r: &mut Random) -> Vec<u16> {
    let length = if r.one_in(8) { r.below(260) } else { HEADING + r.below(700) };
    let most = [8, length + 2, 65_536][r.below(3)];
    let mut table: Vec<u16> = (0..length).map(|_| r.below(most) as u16).collect();
    for begin in table.iter_mut().take(HEADING) {
        *begin = (if r.one_in(9) { r.below(65_536) } else { HEADING + r.below(length + 1) }) as u16;
    }
    table
}

/// Tables of any numbers on any texts.
pub fn any_tables(r: &mut Random) -> usize {
    let rounds = 100_000;
    for _ in 0..rounds {
        let table = any_table(r);
        let length = r.below(12);
        let text: Vec<u8> = (0..length).map(|_| r.below(256) as u8).collect();
        calls::match_table(&table, &text);
    }
    rounds
}

/// Tables that were made, with some entries changed.
pub fn damaged_tables(r: &mut Random) -> usize {
    let rounds = 50_000;
    let list = calls::read_second(b"[0-9]{4,4}-[0-9]{2,2}-(a|[bc]d*)+", [MOST_RECORD_BYTES, MOST_CLASS_BYTES]).expect("good");
    let made = table(list.automaton(), MOST_ENTRIES, usize::MAX).expect("it fits").entries;
    for _ in 0..rounds {
        let mut damaged = made.clone();
        for _ in 0..=r.below(4) {
            let at = r.below(damaged.len());
            damaged[at] = if r.one_in(3) { r.below(65_536) } else { r.below(made.len()) } as u16;
        }
        damaged.truncate(made.len() - if r.one_in(4) { r.below(300) } else { 0 });
        calls::match_table(&damaged, &generate::text(r, b"2028-02-abdcd", 16));
    }
    rounds
}
