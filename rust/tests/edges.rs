//! The crate on edges of docs/REFERENCE.md: what it makes of answers, of refusals and of their places.

use foamlattice::slices::{
    is_full_match, pick, read, read2, start, step, widen, Counts, Told, MOST_CLASS_BYTES, MOST_OUTPUT, MOST_RECORD_BYTES,
    MOST_WORDS, OLD_RECORD_SIZE, RECORD_SIZE,
};
use foamlattice::{Expression, Refusal};

fn first(e: &[u8]) -> Expression {
    Expression::plain(e).expect("a good expression")
}

fn second(e: &[u8]) -> Expression {
    Expression::new(e).expect("a good expression")
}

fn told(accepting: bool, nothing_left: bool) -> Told {
    Told { accepting, nothing_left }
}

/// Asserts that an answer is this refusal, at this place.
#[track_caller]
fn refused<T: std::fmt::Debug>(answer: Result<T, Refusal>, number: u8, place: usize) {
    let refusal = answer.expect_err("a refusal");
    assert_eq!((refusal.number(), refusal.place()), (number, place));
}

#[test]
fn reading_the_first_syntax() {
    let mut buffer = vec![0; MOST_RECORD_BYTES];
    let faults: [(&[u8], u8, usize); 8] = [
        (b"", 1, 0),
        (b"a|", 3, 2),
        (b"()", 3, 1),
        (b"((a)", 4, 0),
        (b"a)", 5, 1),
        (b")", 3, 0),
        (b"a\\b", 7, 1),
        (b"(a\\b", 7, 2),
    ];
    for (e, number, place) in faults {
        refused(read(e, &mut buffer), number, place);
    }
    refused(read(&[b'a'; 1_025], &mut buffer), 2, 1_024);
    refused(read(&[b'('; 33], &mut buffer), 6, 32);
    refused(read(&[b'a'; 898], &mut buffer), 8, 0);
    refused(read(&[b'a'; 897], &mut buffer[..21_515]), 9, 0);
    assert_eq!(read(&[b'a'; 897], &mut buffer[..21_516]), Ok(Counts { records: 1_793, pieces: 128, classes: 0 }));
}

#[test]
fn starts_and_steps() {
    let mut words = [0; MOST_WORDS];
    let steps = first(b"a*b");
    let list = steps.records();
    assert_eq!((start(list, b"", &mut words), words[0]), (Ok(told(false, false)), 55));
    for (byte, yes, word) in [(b'a', false, 60), (b'b', true, 192), (b'a', false, 0), (b'b', false, 0)] {
        assert_eq!((step(list, b"", &mut words, byte), words[0]), (Ok(told(yes, word == 0)), word));
    }
    refused(start(list, b"", &mut []), 12, 0);
    refused(step(list, b"", &mut [256], b'a'), 13, 0);
}

#[test]
fn matches_and_searches() {
    let union = first(b"ac|a*b");
    let texts: [(&[u8], bool); 3] = [(b"ac", true), (b"b", true), (b"a", false)];
    for (text, yes) in texts {
        assert_eq!(union.is_full_match(text), yes);
    }
    refused(is_full_match(&union.records()[1..], b"", b""), 10, 0);
    refused(is_full_match(union.records(), b"", &[b'a'; 65_537]), 11, 0);
    assert_eq!(first(b"ab*").find(b"xabbab"), Ok(Some(1..4)));
    assert_eq!(first(b"a*").find(b"b"), Ok(Some(0..0)));
    assert_eq!(first(b"b").find(b""), Ok(None));

    let letters = b"abcdefghijklmnop";
    assert!(first(b"(abcdefgh(ijklmnop))*").is_full_match(&letters.repeat(2)));
}

#[test]
fn picking() {
    let mut output = vec![0; MOST_OUTPUT];
    let lines = pick(b"02-2(8|9)\n02-28\n02-29\n03-01\n", &mut output);
    assert_eq!(lines, Some(&b"1 yes 1\n2 yes 2\n3 no -\ntotal 3 yes 2 no 1\n"[..]));
    assert_eq!(pick(b"a|\na", &mut output), Some(&b"refused 3 at 2\n"[..]));
    assert_eq!(pick(b"a\na\n", &mut output[1..]), None);
}

/// Expressions of the second syntax with a fault, its number and its place.
const FAULTS: [(&[u8], u8, usize); 55] = [
    (b"", 1, 0),
    (b"[]", 14, 0),
    (b"[^]", 14, 0),
    (b"[]a]", 14, 0),
    (b"[^]]", 14, 0),
    (b"[a", 14, 0),
    (b"b[", 14, 1),
    (b"[a\\", 14, 0),
    (b"[a\\]", 14, 0),
    (b"[b-a]", 14, 0),
    (b"[a^]", 14, 0),
    (b"[^^]", 14, 0),
    (b"[-a]", 14, 0),
    (b"[a-]", 14, 0),
    (b"[a-c-e]", 14, 0),
    (b"[^-a]", 14, 0),
    (b"[a-^]", 14, 0),
    (b"[--a]", 14, 0),
    (b"[a--]", 14, 0),
    (b"[\\a]", 14, 0),
    (b"[\\[]", 14, 0),
    (b"[\\.]", 14, 0),
    (b"]", 14, 0),
    (b"a]", 14, 1),
    (b"a|]", 14, 2),
    (b"(]", 14, 1),
    (b"[a)(", 14, 0),
    (b"[abcdefghijklmnopq]", 14, 0),
    (b".*)", 5, 2),
    (b"(.", 4, 0),
    (b".|", 3, 2),
    (b"a\\-", 7, 1),
    (b"a\\^", 7, 1),
    (b"a\\,", 7, 1),
    (b"(a\\b[", 7, 2),
    (b"a|*[", 3, 2),
    (b"+", 3, 0),
    (b"(?", 3, 1),
    (b"a|{1,2}", 3, 2),
    (b"{", 3, 0),
    (b"a{", 16, 1),
    (b"a{}", 16, 1),
    (b"a{3}", 16, 1),
    (b"a{3,}", 16, 1),
    (b"a{,3}", 16, 1),
    (b"a{2,1}", 16, 1),
    (b"a{0,0}", 16, 1),
    (b"a{01,2}", 16, 1),
    (b"a{1,17}", 16, 1),
    (b"a{1,2", 16, 1),
    (b"a{1,\\b}", 16, 1),
    (b"}", 16, 0),
    (b"a}", 16, 1),
    (b"a{1,2}}", 16, 6),
    (b"a{16,16}{16,16}{16,16}{16,16})", 5, 29),
];

/// An expression, its records and classes, a text of it and one that is none.
type Good = (&'static [u8], usize, usize, &'static [u8], &'static [u8]);

/// Expressions of the second syntax, all of one piece.
const GOOD: [Good; 25] = [
    (b".", 1, 1, b"\r", b"\n"),
    (b"\\.", 1, 0, b".", b"a"),
    (b"\\[\\]", 3, 0, b"[]", b"["),
    (b"[a]", 1, 1, b"a", b"b"),
    (b"[^a]", 1, 1, b"\n", b"a"),
    (b"[[]", 1, 1, b"[", b"]"),
    (b"[[-a]", 1, 1, b"]", b"b"),
    (b"[\\]]", 1, 1, b"]", b"\\"),
    (b"[\\^a]", 1, 1, b"^", b"b"),
    (b"[\\--a]", 1, 1, b"a", b","),
    (b"[+-\\-]", 1, 1, b",", b"."),
    (b"[a-a]", 1, 1, b"a", b"`"),
    (b"[.*()|\n]", 1, 1, b"\n", b"a"),
    (b"[aaaaaaaaaaaaaaaa]", 1, 1, b"a", b"b"),
    (b"[^\x00-\xff]*", 2, 1, b"", b"a"),
    (b"-^\\+\\{\\}", 9, 0, b"-^+{}", b"-^+{"),
    (b"a+", 4, 0, b"aaa", b""),
    (b"a?", 3, 0, b"", b"aa"),
    (b"a{1,1}", 1, 0, b"a", b""),
    (b"a{0,1}", 3, 0, b"", b"aa"),
    (b"a{2,3}", 7, 0, b"aa", b"a"),
    (b"(ab){1,1}", 3, 0, b"ab", b"a"),
    (b"[a]+?", 6, 2, b"", b"b"),
    (b"[+?{}]", 1, 1, b"}", b"a"),
    (b"[01][0-9]-[0-3][0-9]", 9, 4, b"02-29", b"02-49"),
];

#[test]
fn second_syntax() {
    let mut buffers = (vec![0; MOST_RECORD_BYTES], vec![0; MOST_CLASS_BYTES]);
    for (e, number, place) in FAULTS {
        refused(read2(e, &mut buffers.0, &mut buffers.1), number, place);
    }
    for (e, records, classes, text, other) in GOOD {
        let counts = Counts { records, pieces: 1, classes };
        assert_eq!(read2(e, &mut buffers.0, &mut buffers.1), Ok(counts), "{}", e.escape_ascii());
        assert_eq!((second(e).is_full_match(text), second(e).is_full_match(other)), (true, false), "{}", e.escape_ascii());
    }
    refused(read2(&[b'.'; 1_025], &mut buffers.0, &mut buffers.1), 2, 1_024);
    refused(read2(&[b'.'; 898], &mut buffers.0, &mut buffers.1), 8, 0);
    refused(read2(b"((a{16,16}){16,16}){4,4}", &mut buffers.0, &mut buffers.1), 8, 0);
    refused(read2(b"((a{16,16}){16,16}){4,4}*", &mut buffers.0, &mut buffers.1), 17, 0);
    refused(read2(b".", &mut buffers.0[..11], &mut buffers.1[..31]), 9, 0);
    refused(read2(b".", &mut buffers.0[..12], &mut buffers.1[..31]), 15, 0);
    let dots = Counts { records: 1_793, pieces: 128, classes: 897 };
    assert_eq!(read2(&[b'.'; 897], &mut buffers.0[..21_516], &mut buffers.1[..28_704]), Ok(dots));

    let dot = second(b".");
    assert_eq!(dot.records(), [5, 0, 0, 0, 255, 255, 0, 0, 0, 0, 0, 0]);
    assert_eq!((dot.classes()[0], dot.classes()[1], dot.pieces()), (255, 251, 1));
    refused(is_full_match(dot.records(), &dot.classes()[1..], b"a"), 15, 0);
    refused(start(dot.records(), b"", &mut []), 15, 0);
    refused(step(dot.records(), b"", &mut [256], b'a'), 15, 0);
    assert_eq!(second(b"[b-d][b-d]*").find(b"abcda"), Ok(Some(1..4)));
    let perhaps = second(b"a?");
    assert_eq!(perhaps.records()[12..24], [6, 0, 255, 255, 255, 255, 0, 0, 1, 0, 0, 0]);
    assert_eq!(second(b"[0-9]{2,4}").find(b"in 2028"), Ok(Some(3..7)));
}

/// Old lists through the wrapper: turned into one of today, refused, and with too little room.
#[test]
fn old_lists() {
    let old = [1, 97, 255, 255, 255, 255, 0, 0];
    let mut records = [7; 13];
    assert_eq!(widen(&old, &mut records), Ok(1));
    assert_eq!(records, [1, 97, 255, 255, 255, 255, 0, 0, 0, 0, 0, 0, 7]);
    refused(widen(&old, &mut records[..11]), 9, 0);
    refused(widen(&old[..7], &mut records), 10, 0);

    let letters = first(&[b'a'; 897]);
    let records = letters.records().chunks(RECORD_SIZE);
    let old: Vec<u8> = records.flat_map(|record| &record[..OLD_RECORD_SIZE]).copied().collect();
    let archived = Expression::from_old_records(&old, b"").expect("a good list");
    assert_eq!((archived.pieces(), archived.places().max()), (128, Some(0)));
    assert!(archived.is_full_match(&[b'a'; 897]));
    assert_eq!(letters.places().max(), Some(896));
    let dot = [5, 0, 0, 0, 255, 255, 0, 0];
    refused(Expression::from_old_records(&dot, b""), 15, 0);
    refused(Expression::from_old_records(&[], b""), 10, 0);
    let places: Vec<usize> = second(b"a(b\\|[cd]){1,2}").places().collect();
    assert_eq!(places, [0, 2, 3, 3, 5, 5, 2, 3, 3, 5, 5, 10, 10, 10, 1]);
}
