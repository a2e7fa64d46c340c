//! What `Expression`, `Marks`, `Matches` and `Refusal` add to the calls: held against the calls themselves and against the words
//! of docs/REFERENCE.md.

use foamlattice::slices;
use foamlattice::{Expression, Kind, Marks, Reason, Refusal};
use std::error::Error;
use std::ops::Range;

const RULES: [&str; 12] =
    ["a", "a*", "a?b", "ab|b", "(ab)*", "[ab]+", "a{2,3}", "b(a|b)*", ".", "(a|b){0,2}", "a*b*", "abab(ab|ba)(a|b)(ab|a)"];

/// All texts of at most so many letters `a` and `b`.
fn texts(most: u32) -> impl Iterator<Item = Vec<u8>> {
    let text = |length, number: usize| (0..length).map(|i| b"ab"[number >> i & 1]).collect();
    (0..=most).flat_map(move |length| (0..1 << length).map(move |number| text(length, number)))
}

fn read(rule: &str) -> Expression {
    Expression::new(rule).expect("a good rule")
}

/// Whether the part of the text is in the language, by the call for whole texts.
fn matches(rule: &Expression, text: &[u8], part: Range<usize>) -> bool {
    rule.is_full_match(&text[part])
}

/// The part that starts at `from` or later, earliest, and of those ends furthest: all parts are tried.
fn first_part(rule: &Expression, text: &[u8], from: usize) -> Option<Range<usize>> {
    let starts = from..=text.len();
    starts.flat_map(|start| (start..=text.len()).rev().map(move |end| start..end)).find(|part| matches(rule, text, part.clone()))
}

/// Every part that is found, told in another way than `Matches` does: an empty part is dropped where the part before ends.
fn all_parts(rule: &Expression, text: &[u8]) -> Vec<Range<usize>> {
    let mut parts: Vec<Range<usize>> = vec![];
    let mut from = 0;
    while let Some(part) = first_part(rule, text, from) {
        from = if part.is_empty() { part.end + 1 } else { part.end };
        if !part.is_empty() || parts.last().is_none_or(|before| before.end != part.start) {
            parts.push(part);
        }
        if from > text.len() {
            break;
        }
    }
    parts
}

#[test]
fn found_parts_are_those_of_all_parts_tried() {
    for rule in RULES.map(read) {
        for text in texts(6) {
            let all = all_parts(&rule, &text);
            assert_eq!(rule.find(&text), Ok(all.first().cloned()));
            assert_eq!(rule.is_match(&text), Ok(!all.is_empty()));
            let found: Vec<_> = rule.find_iter(&text).expect("a short text").collect();
            assert_eq!(found, all, "{rule:?} on {}", text.escape_ascii());
        }
    }
}

#[test]
fn empty_parts_as_in_the_regex_crate() {
    let parts = |rule, text: &'static str| read(rule).find_iter(text).expect("a short text").collect::<Vec<_>>();
    assert_eq!(parts("a*", "b"), [0..0, 1..1]);
    assert_eq!(parts("a*", "aab"), [0..2, 3..3]);
    assert_eq!(parts("a*", "baaac"), [0..0, 1..4, 5..5]);
    assert_eq!(parts("a?", "aa"), [0..1, 1..2]);
    assert_eq!(parts("b", "aa"), []);
}

#[test]
fn marks_tell_of_each_beginning_what_a_match_does() {
    for rule in RULES.map(read) {
        for text in texts(7) {
            let mut marks = rule.marks();
            for end in 0..=text.len() {
                assert_eq!(marks.is_full_match(), rule.is_full_match(&text[..end]));
                let mut at_once = rule.marks();
                at_once.steps(&text[..end]);
                assert_eq!(at_once, marks);
                text.get(end).into_iter().for_each(|byte| marks.step(*byte));
            }
        }
    }
}

#[test]
fn full_matches_and_marks_take_texts_without_limit() {
    let rule = read("(ab)*");
    let text = b"ab".repeat(40_000);
    assert!(rule.is_full_match(&text));
    assert!(!rule.is_full_match(&text[1..]));
    let mut marks = rule.marks();
    marks.steps(&text);
    assert!(marks.is_full_match());
    marks.step(b'b');
    assert!(marks.nothing_left());
}

#[test]
fn a_search_refuses_a_text_too_long_and_not_one_as_long_as_allowed() {
    let rule = read("a*");
    let long = vec![b'a'; 65_537];
    let refusals = [rule.is_match(&long).unwrap_err(), rule.find(&long).unwrap_err(), rule.find_iter(&long).unwrap_err()];
    assert!(refusals.iter().all(|refusal| refusal.reason() == Reason::TextTooLong));
    assert_eq!(rule.find(&long[1..]), Ok(Some(0..65_536)));
    assert_eq!(rule.find_iter(&long[1..]).map(Iterator::count), Ok(1));
}

#[test]
fn a_refusal_is_an_error_in_words() {
    fn fails() -> Result<Expression, Box<dyn Error + Send + Sync>> {
        Ok("a|".parse::<Expression>()?)
    }
    assert_eq!(fails().unwrap_err().to_string(), "refused 3 at 2: a character, a class or a group has to begin here");
    let words = |rule: &str| Expression::new(rule).unwrap_err().to_string();
    assert_eq!(words(""), "refused 1 at 0: the expression is empty");
    assert_eq!(words("[b-a]"), "refused 14 at 0: this is no class of the form [a-z] or [^a-z]");
    assert_eq!(words(&"a".repeat(898)), "refused 8 at 0: too large: the tree has more than 128 pieces");
}

/// A call that is refused by each number from 1 to 17, with the reason's name.
#[test]
fn every_reason_has_its_number_and_name() {
    let rule = |rule: &str| Expression::new(rule).unwrap_err();
    let ab = read("ab");
    let refusals: [(Refusal, Reason); 17] = [
        (rule(""), Reason::EmptyExpression),
        (rule(&"a".repeat(1_025)), Reason::ExpressionTooLong),
        (rule("*"), Reason::OperandDue),
        (rule("(a"), Reason::GroupOpen),
        (rule("a)"), Reason::NoGroup),
        (rule(&"(".repeat(33)), Reason::TooDeep),
        (rule("\\a"), Reason::Escape),
        (rule(&"a".repeat(898)), Reason::TooManyPieces),
        (slices::read(b"a", &mut []).unwrap_err(), Reason::BufferShort),
        (Expression::from_records(b"", b"").unwrap_err(), Reason::List),
        (ab.find(&[0; 65_537]).unwrap_err(), Reason::TextTooLong),
        (slices::start(ab.records(), b"", &mut []).unwrap_err(), Reason::WordsShort),
        (slices::step(ab.records(), b"", &mut [1 << 63], 0).unwrap_err(), Reason::Marks),
        (rule("[a"), Reason::Class),
        (slices::read2(b".", &mut [0; 12], &mut []).unwrap_err(), Reason::ClassesShort),
        (rule("a{2}"), Reason::Count),
        (rule("a{16,16}{16,16}{16,16}"), Reason::TooManyNodes),
    ];
    for (number, (refusal, reason)) in (1..).zip(refusals) {
        assert_eq!((refusal.reason(), refusal.number(), reason.number()), (reason, number, number));
        assert!(refusal.to_string().starts_with(&format!("refused {number} at {}: ", refusal.place())));
    }
}

#[test]
fn an_expression_is_made_again_from_its_records() {
    for rule in RULES.map(read) {
        let with_more = [rule.classes(), &[1; 40]].concat();
        let again = Expression::from_records(rule.records(), &with_more).expect("a good list");
        assert_eq!(again, rule);
    }
    let dot = read(".");
    assert_eq!(Expression::from_records(dot.records(), &dot.classes()[1..]).unwrap_err().reason(), Reason::ClassesShort);
}

#[test]
fn nodes_are_the_tree_of_the_expression() {
    let rule = read("a([bc]|d)*.?");
    let kinds: Vec<Kind> = rule.nodes().map(|node| node.kind).collect();
    let expected = [
        Kind::Character(b'a'),
        Kind::Class(0),
        Kind::Character(b'd'),
        Kind::Union { left: 1, right: 2 },
        Kind::Star { operand: 3 },
        Kind::Catenation { left: 0, right: 4 },
        Kind::Class(1),
        Kind::Empty,
        Kind::Union { left: 6, right: 7 },
        Kind::Catenation { left: 5, right: 8 },
    ];
    assert_eq!(kinds, expected);
    assert!(rule.places().eq([0, 2, 7, 6, 9, 1, 10, 11, 11, 10]));
    let class = rule.class(0).expect("the class of b and c");
    assert!((0..=255).filter(|&byte| class.contains(byte)).eq(*b"bc"));
    assert!(rule.class(1).is_some_and(|dot| (0..=255).all(|byte| dot.contains(byte) != (byte == b'\n'))));
    assert_eq!(rule.class(2), None);
}

#[test]
fn expressions_and_marks_go_between_threads() {
    fn shared<T: Send + Sync>() {}
    shared::<Expression>();
    shared::<Marks<'_>>();
    shared::<Refusal>();
}
