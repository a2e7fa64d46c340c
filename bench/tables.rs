//! Matches by a table of steps, and what making one costs: where it fits, and where it gives up.

use crate::engines::{self, Matcher};
use crate::workloads::{self, Syntax};
use crate::{quickest, ROUNDS};
use foamlattice::slices;
use foamlattice::Expression;

/// As many words of room as any of the rules here takes.
const ROOM: usize = 1 << 20;

/// An expression by its table alone.
pub struct ByTable {
    table: Vec<u16>,
}

impl Matcher for ByTable {
    fn is_match(&mut self, text: &[u8]) -> Option<bool> {
        slices::is_full_match_by_table(&self.table, text).ok()
    }
    /// A table says nothing of parts.
    fn find(&mut self, _: &[u8]) -> Option<Option<(usize, usize)>> {
        None
    }
}

/// The states and the entries of a table, where it fits in what is lent.
fn make(read: &Expression, table: &mut [u16], room: &mut [u64]) -> Option<(usize, usize)> {
    let made = slices::table(read.records(), read.classes(), table, room).ok()?;
    made.map(|counts| (counts.states, counts.entries))
}

/// The table of an expression, where it fits.
pub fn made(expression: &[u8], syntax: Syntax) -> Option<Vec<u16>> {
    let mut table = vec![0; slices::MOST_TABLE];
    let (_, entries) = make(&engines::read(expression, syntax)?, &mut table, &mut vec![0; ROOM])?;
    table.truncate(entries);
    Some(table)
}

pub fn prepare(expression: &[u8], syntax: Syntax) -> Option<Box<dyn Matcher>> {
    Some(Box::new(ByTable { table: made(expression, syntax)? }))
}

/// How many states a rule's table has, its bytes, the words of room that are enough, and how long making it takes in them.
fn print_row(name: &str, expression: &[u8], syntax: Syntax) {
    let read = engines::read(expression, syntax).expect("a good expression");
    let mut table = vec![0; slices::MOST_TABLE];
    let made = make(&read, &mut table, &mut vec![0; ROOM]);
    let columns = made.map_or(0, |(states, entries)| (entries - 257) / states - 1);
    let room = made.map_or(ROOM, |(states, _)| (states - 1) * (1 + read.pieces() + columns));
    let mut words = vec![0; room];
    let time = (0..ROUNDS).map(|_| quickest(|| Some((make(&read, &mut table, &mut words).is_some() as usize, 0, 0))).1).min();
    let time = time.map_or(0.0, |time| time.as_nanos() as f64 / 1_000.0);
    match made {
        None => println!("  {name:<56}{:>46}{time:>12.1}", "does not fit"),
        Some((states, entries)) => {
            println!("  {name:<56}{states:>10}{columns:>10}{:>12}{:>14}{time:>12.1}", 2 * entries, 8 * room)
        }
    }
}

pub fn print() {
    println!("\nmaking a table of steps: its size, the room that is enough, and how long it takes, in microseconds");
    println!("  {:<56}{:>10}{:>10}{:>12}{:>14}{:>12}", "", "states", "columns", "bytes", "room, bytes", "time");
    for load in workloads::all() {
        let name = load.name.split(':').next().unwrap_or("");
        for (number, expression) in load.expressions.iter().enumerate() {
            print_row(&format!("{name}, rule {}", number + 1), expression, load.syntax);
        }
    }
    for letters in 4..=16 {
        let expression = [&b"(a|b)*a"[..], &b"(a|b)".repeat(letters)].concat();
        print_row(&format!("(a|b)*a and {letters} times (a|b)"), &expression, Syntax::First);
    }
}
