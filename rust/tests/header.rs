//! The crate has the numbers, words and sizes of the C header.

use foamlattice::slices;
use foamlattice::Reason;

const HEADER: &str = include_str!("../../include/foamlattice.h");

/// What stands after `before` in a line of the header, without spaces and what ends the line.
fn after(before: &str) -> impl Iterator<Item = &str> {
    HEADER.lines().filter_map(move |line| line.trim().strip_prefix(before)).map(|rest| rest.trim().trim_end_matches([',', ';']))
}

#[test]
fn refusals_have_the_words_of_the_header() {
    let mut compared = 0;
    for line in after("FOAM_REFUSAL_") {
        let (name, number) = line.split_once(" = ").expect("a name and a number");
        let words = after("case FOAM_REFUSAL_").find_map(|case| case.strip_prefix(name)?.strip_prefix(": return "));
        let reason = Reason::from_number(number.parse().expect("a number"));
        if number != "0" {
            assert_eq!(words.map(|words| words.replace("\\\\", "\\")), Some(format!("\"{}\"", reason.words())), "{name}");
            assert!(!matches!(reason, Reason::Other(_)), "{name} has no reason");
            compared += 1;
        }
    }
    assert!(compared >= 17);
}

#[test]
fn a_number_that_has_no_name_keeps_its_number() {
    let reason = Reason::from_number(200);
    assert_eq!((reason, reason.number(), reason.words()), (Reason::Other(200), 200, "no such refusal"));
}

#[test]
fn sizes_are_those_of_the_header() {
    let sizes = [
        ("RECORD_SIZE", slices::RECORD_SIZE),
        ("OLD_RECORD_SIZE", slices::OLD_RECORD_SIZE),
        ("CLASS_SIZE", slices::CLASS_SIZE),
        ("MOST_RECORD_BYTES", slices::MOST_RECORD_BYTES),
        ("MOST_CLASS_BYTES", slices::MOST_CLASS_BYTES),
        ("MOST_WORDS", slices::MOST_WORDS),
        ("MOST_EXPRESSION", slices::MOST_EXPRESSION),
        ("MOST_TEXT", slices::MOST_TEXT),
        ("MOST_INPUT", slices::MOST_INPUT),
        ("MOST_OUTPUT", slices::MOST_OUTPUT),
    ];
    for (name, size) in sizes {
        let define = format!("#define FOAM_{name} ");
        let defined: Vec<&str> = HEADER.lines().filter_map(|line| line.strip_prefix(&define)).collect();
        assert_eq!(defined, [size.to_string()], "{name}");
    }
}
