//! An expression with its table answers as it does without.

use foamlattice::slices::{self, MOST_TABLE};
use foamlattice::{Expression, Reason};

const RULES: [&str; 7] =
    ["a", "a*", "(a|b)*abb", "[^a]+", "a{2,4}b?", "abab(ab|ba)(a|b)(ab|a)", "(0[1-9]|1[0-2])-([0-2][0-9]|3[01])"];

fn read(rule: &str) -> Expression {
    Expression::new(rule).expect("a good rule")
}

/// All texts of at most so many of these letters.
fn texts(letters: &'static [u8], most: u32) -> impl Iterator<Item = Vec<u8>> {
    let text = |length, number: usize| (0..length).map(|i| letters[number / letters.len().pow(i) % letters.len()]).collect();
    (0..=most).flat_map(move |length| (0..letters.len().pow(length)).map(move |number| text(length, number)))
}

#[test]
fn matches_and_lines_are_the_same_by_table() {
    for rule in RULES.map(read) {
        let with_table = rule.clone().with_table();
        assert_eq!(with_table, rule);
        assert!(with_table.table().is_some_and(|table| table.states() >= 2 && table.entries().len() >= 257));
        for text in texts(b"ab0", 6) {
            assert_eq!(with_table.is_full_match(&text), rule.is_full_match(&text), "{rule:?} on {}", text.escape_ascii());
        }
        let lines: Vec<u8> = texts(b"ab-1\n", 4).flat_map(|text| [&text[..], b"\r\n"].concat()).collect();
        assert_eq!(with_table.lines(&lines), rule.lines(&lines));
    }
}

#[test]
fn texts_of_any_length() {
    let rule = read("(ab)*").with_table();
    let long = b"ab".repeat(40_000);
    assert!(rule.is_full_match(&long) && !rule.is_full_match(&long[1..]));
    assert_eq!(rule.lines(&[&long[..], b"\nab\nb"].concat()), [true, true, false]);
}

#[test]
fn a_table_that_does_not_fit_leaves_the_expression_as_it_was() {
    let rule = read("(a|b)*a(a|b){16,16}").with_table();
    assert!(rule.table().is_none());
    assert!(rule.is_full_match(&[b'a'; 17]) && !rule.is_full_match(&[b'a'; 16]));
}

#[test]
fn the_calls_on_slices() {
    let rule = read("a*b");
    let (mut table, mut room) = (vec![7; MOST_TABLE], vec![0; MOST_TABLE]);
    let made = slices::table(rule.records(), b"", &mut table, &mut room).expect("a good list").expect("a small table");
    assert!(table[made.entries..].iter().all(|entry| *entry == 7));
    assert_eq!(slices::is_full_match_by_table(&table[..made.entries], b"aab"), Ok(true));
    assert_eq!(slices::is_full_match_by_table(&table[..made.entries], b"aa"), Ok(false));
    let short = slices::is_full_match_by_table(&table[..256], b"").unwrap_err();
    assert_eq!((short.reason(), short.number()), (Reason::TableShort, 28));
    let mut small = vec![7; made.entries - 1];
    assert_eq!(slices::table(rule.records(), b"", &mut small, &mut room), Ok(None));
    assert!(small.iter().all(|entry| *entry == 7) && room.iter().all(|word| *word == 0));
    let bad = slices::table(&rule.records()[1..], b"", &mut table, &mut room).unwrap_err();
    assert_eq!(bad.reason(), Reason::List);
}
