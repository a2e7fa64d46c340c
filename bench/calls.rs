//! What a call costs by itself, on a few bytes: a match, a search, a start and a step; and what checking and reading cost, up
//! to the largest trees that counts stand for.

use crate::{expected, quickest, workloads, ROUNDS};
use foamlattice::slices::{self, MOST_CLASS_BYTES, MOST_RECORD_BYTES, MOST_WORDS};

/// How often a call is made for one figure: a clock is too coarse for a single one.
const REPEATS: usize = 1_000;

/// Nanoseconds for each call, the quickest of the rounds.
fn nanoseconds(mut call: impl FnMut() -> bool) -> f64 {
    let mut round = || {
        let (_, time) = quickest(|| Some(((0..REPEATS).filter(|_| call()).count(), 0, 0)));
        time.as_nanos() as f64 / REPEATS as f64
    };
    (0..ROUNDS).map(|_| round()).fold(f64::MAX, f64::min)
}

fn print_row(name: &str, expression: &[u8], text: &[u8]) {
    let list = expected::records(&expected::read(expression).expect("a good expression"));
    let mut first = vec![0; MOST_WORDS];
    slices::start(&list, &[], &mut first).expect("a good list");
    let mut words = first.clone();
    let figures = [
        nanoseconds(|| slices::is_full_match(&list, &[], text).is_ok_and(|yes| yes)),
        nanoseconds(|| slices::find(&list, &[], text).is_ok_and(|part| part.is_some())),
        nanoseconds(|| slices::start(&list, &[], &mut words).is_ok()),
        nanoseconds(|| {
            words.copy_from_slice(&first);
            slices::step(&list, &[], &mut words, text[0]).is_ok()
        }),
    ];
    let cells: String = figures.iter().map(|figure| format!("{figure:>10.0}")).collect();
    println!("  {name:<28}{cells}");
}

/// What an expression of the second syntax is read as, or by which number it is refused; a check's time and a reading's.
fn print_reading(name: &str, expression: &[u8]) {
    let mut records = vec![0; MOST_RECORD_BYTES];
    let mut classes = vec![0; MOST_CLASS_BYTES];
    let answer = match slices::check2(expression) {
        Ok(counts) => format!("{} records, {} pieces", counts.records, counts.pieces),
        Err(refusal) => format!("refused by {}", refusal.number()),
    };
    let figures = [
        nanoseconds(|| slices::check2(expression).is_ok()),
        nanoseconds(|| slices::read2(expression, &mut records, &mut classes).is_ok()),
    ];
    println!("  {name:<44}{answer:>28}{:>10.0}{:>10.0}", figures[0], figures[1]);
}

fn print_readings() {
    println!("\nwhat reading the second syntax costs, in nanoseconds");
    println!("  {:<72}{:>10}{:>10}", "", "check", "read");
    let explosion = [b"a", &b"{16,16}".repeat(146)[..]].concat();
    let rows: [(&str, &[u8]); 9] = [
        ("a", b"a"),
        ("[0-9]{4,4}-[0-9]{2,2}-[0-9]{2,2}", b"[0-9]{4,4}-[0-9]{2,2}-[0-9]{2,2}"),
        ("897 letters", &[b'a'; 897]),
        ("897 dots", &[b'.'; 897]),
        ("a{8,8}{15,15}{8,8}", b"a{8,8}{15,15}{8,8}"),
        (".{8,8}{15,15}{8,8}", b".{8,8}{15,15}{8,8}"),
        ("((a{16,16}){16,16}){4,4}", b"((a{16,16}){16,16}){4,4}"),
        ("((a{16,16}){16,16}){4,4}*", b"((a{16,16}){16,16}){4,4}*"),
        ("a and 146 times {16,16}", &explosion),
    ];
    rows.iter().for_each(|(name, expression)| print_reading(name, expression));
}

pub fn print() {
    print_readings();
    println!("\nwhat a call costs by itself, in nanoseconds");
    println!("  {:<28}{:>10}{:>10}{:>10}{:>10}", "", "match", "search", "start", "step");
    print_row("`ab` on two bytes", b"ab", b"ab");
    print_row("the dates on one, 49 pieces", &workloads::date_expression(), b"02-29");
}
