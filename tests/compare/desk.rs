//! The date expressions of the desk: each matches all 366 dates, whichever end the lines have, and each but the first needs
//! one top bit for 29 February.

use crate::calls;
use crate::expected::{self, Automaton, Tree};
use foamlattice::slices::{MOST_OUTPUT, MOST_RECORD_BYTES};

const EXPRESSIONS: &str = include_str!("../../crates/desk/stdin");
const LEAP_DAY: &str = "02-29";
const END_OF_FEBRUARY: [&str; 3] = ["02-28", LEAP_DAY, "03-01"];
const NO_DATES: [&str; 7] = ["02-30", "04-31", "13-01", "00-10", "2-29", "02-299", ""];
const DAYS: [usize; 12] = [31, 29, 31, 30, 31, 30, 31, 31, 30, 31, 30, 31];

fn dates() -> impl Iterator<Item = String> {
    (1..=12).flat_map(|month| (1..=DAYS[month - 1]).map(move |day| format!("{month:02}-{day:02}")))
}

fn is_match(automaton: &Automaton, text: &str) -> bool {
    automaton.ends(text.as_bytes()).last() == Some(&text.len())
}

/// Whether some piece with this top bit is such that 29 February does not match without the state of that bit; if `alone`,
/// such that all other dates do.
fn loses_leap_day(tree: &Tree, bit: usize, alone: bool) -> bool {
    let whole = expected::automaton(tree, vec![]);
    (0..whole.widths.len()).filter(|&piece| whole.widths[piece] == bit + 1).any(|piece| {
        let state = whole.bits.iter().position(|bits| bits.contains(&(piece, bit))).unwrap();
        let rest = whole.without(state);
        !is_match(&rest, LEAP_DAY) && (!alone || dates().all(|date| date == LEAP_DAY || is_match(&rest, &date)))
    })
}

/// The date table in one call, with this end at each line: every date is a yes line, 29 February the 60th and 1 March the
/// 61st.
fn compare_table(e: &str, end: &str) {
    let lines: Vec<String> = std::iter::once(e.into()).chain(dates()).map(|line| line + end).collect();
    assert_eq!((&lines[60], &lines[61]), (&format!("{LEAP_DAY}{end}"), &format!("03-01{end}")));
    let output: String = (1..=366).map(|rank| format!("{rank} yes {rank}\n")).collect();
    calls::pick(lines.concat().as_bytes(), MOST_OUTPUT, (output + "total 366 yes 366 no 0\n").as_bytes());
}

/// The date with one bit changed, in each of its bytes.
fn changed(date: &str, bit: u8) -> impl Iterator<Item = Vec<u8>> + '_ {
    (0..date.len()).map(move |at| {
        let mut text = date.as_bytes().to_vec();
        text[at] ^= bit;
        text
    })
}

/// Line 0 is the plain expression. Line n is there for the top bit 9 + 2 n. A piece below another has at least 8 nodes, so
/// lines 1 and 2 are about the root's piece, through which all dates pass.
pub fn compare() -> usize {
    let mut count = 0;
    for (line, e) in EXPRESSIONS.lines().enumerate() {
        let tree = expected::read(e.as_bytes()).expect("a good expression");
        assert!(line == 0 || loses_leap_day(&tree, 9 + 2 * line, line > 2), "line {line} is not for its bit");
        let list = calls::read(e.as_bytes(), MOST_RECORD_BYTES).expect("a good expression");
        for date in END_OF_FEBRUARY.map(String::from).into_iter().chain(dates()) {
            assert!(is_match(list.automaton(), &date), "line {line} does not match {date}");
            list.compare_text(date.as_bytes());
            changed(&date, 1).for_each(|text| list.compare_text(&text));
            count += 6;
        }
        for end in ["\n", "\r\n"] {
            compare_table(e, end);
        }
        for text in NO_DATES {
            assert!(line > 0 || !is_match(list.automaton(), text), "the plain expression matches {text}");
            list.compare_text(text.as_bytes());
        }
        for text in END_OF_FEBRUARY.iter().flat_map(|date| changed(date, 128)) {
            list.compare_text(&text);
        }
        count += NO_DATES.len() + 15;
    }
    assert_eq!(count, 27 * (6 * 369 + 7 + 15), "27 expressions, the same texts for each");
    count
}
