//! Lines in one call, against whole-text matches of each line.

use foamlattice::slices;
use foamlattice::{Expression, Reason};

fn read(rule: &str) -> Expression {
    Expression::new(rule).expect("a good rule")
}

/// The lines of a text: cut at each 10, and a 13 taken from the end of each that had a 10; what is left is a line if it has a byte.
fn lines_of(text: &[u8]) -> Vec<&[u8]> {
    let mut lines: Vec<&[u8]> = text.split(|byte| *byte == b'\n').collect();
    let last = lines.pop().filter(|line| !line.is_empty());
    let ended = lines.into_iter().map(|line| line.strip_suffix(b"\r").unwrap_or(line));
    ended.chain(last).collect()
}

fn compare(rule: &Expression, text: &[u8]) {
    let expected: Vec<bool> = lines_of(text).iter().map(|line| rule.is_full_match(line)).collect();
    assert_eq!(rule.lines(text), expected, "{rule:?} on {} bytes", text.len());
}

#[test]
fn short_texts_of_all_kinds() {
    let letters = b"a\r\nb";
    let text = |length: u32, number: usize| (0..length).map(|i| letters[number >> (2 * i) & 3]).collect::<Vec<u8>>();
    for rule in ["a", "a*", "(a|b)*b", "a\r", "[^a]+"].map(read) {
        (0..=5).for_each(|length| (0..1 << (2 * length)).for_each(|number| compare(&rule, &text(length, number))));
    }
}

#[test]
fn texts_longer_than_one_call_takes() {
    let rule = read("(ab)*");
    compare(&rule, &b"ab\nabab\r\nb\n\n".repeat(6_000));
    let long = b"ab".repeat(40_000);
    for end in ["", "\n", "\r\n", "\r", "b\n"] {
        let text = [b"ab\n", &long[..], end.as_bytes(), b"ab\nb"].concat();
        compare(&rule, &text);
        compare(&rule, &[&long[..], end.as_bytes()].concat());
    }
    for length in 65_533..65_540 {
        let text = [&long[..length], b"\nab\r\n"].concat();
        compare(&rule, &text);
        compare(&rule, &[b"ab\n", &text[..]].concat());
    }
}

#[test]
fn the_call_refuses_what_it_cannot_answer() {
    let rule = read("a");
    let list = rule.records();
    let mut answers = [7; 3];
    let counts = slices::lines(list, b"", b"a\nb\na", &mut answers).expect("room for three");
    assert_eq!((counts.lines, counts.yes, answers), (3, 2, [1, 0, 1]));
    let short = slices::lines(list, b"", b"a\nb\na", &mut answers[1..]).unwrap_err();
    let long = slices::lines(list, b"", &[b'a'; 65_537], &mut answers).unwrap_err();
    let bad = slices::lines(&list[1..], b"", b"a", &mut answers).unwrap_err();
    assert_eq!([short, long, bad].map(|refusal| refusal.reason()), [Reason::BufferShort, Reason::TextTooLong, Reason::List]);
    assert_eq!(answers, [1, 0, 1]);
}

#[test]
fn steps_are_a_step_for_each_byte() {
    let rule = read("(ab|b){1,3}");
    for text in ["", "a", "ab", "bb", "abab", "aa", "bbbb"] {
        let (mut at_once, mut one_by_one) = (rule.marks(), rule.marks());
        at_once.steps(text.as_bytes());
        text.bytes().for_each(|byte| one_by_one.step(byte));
        assert_eq!(at_once, one_by_one, "{text}");
    }
}
