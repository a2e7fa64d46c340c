//! Inputs with `+`, `?` and counts: expressions of the second syntax, lists with leaves of the empty text, and expressions of
//! the first syntax, where these bytes are characters.

use crate::calls::{self, List};
use crate::classes::{compare_rooms, need, ENOUGH};
use crate::expected;
use crate::generate::{self, Random};
use crate::written::{self, MOST_NODES};
use crate::{all_rows, compare_list, growing, steps};
use foamlattice::slices::MOST_RECORD_BYTES;

fn count(fewest: usize, most: usize) -> Vec<u8> {
    format!("{{{fewest},{most}}}").into_bytes()
}

/// Each count of 0 to 17 and 0 to 17 behind operands of several kinds, on rows of each number of texts from none to 18.
pub fn all_counts(r: &mut Random) -> usize {
    let operands: [(&[u8], &[u8]); 8] = [
        (b"a", b"a"),
        (b"[ab]", b"b"),
        (b".", b"a"),
        (b"(ab)", b"ab"),
        (b"(a|bc)", b"bc"),
        (b"a*", b"aa"),
        (b"a?", b"a"),
        (b"\\+", b"+"),
    ];
    let mut compared = 0;
    for (operand, text) in operands {
        for (fewest, most) in (0..18).flat_map(|fewest| (0..18).map(move |most| (fewest, most))) {
            let e = [operand, &count(fewest, most)].concat();
            compared += 1;
            let Some(list) = compare_rooms(&e) else { continue };
            for times in 0..=18 {
                list.compare_text(&text.repeat(times));
                list.compare_text(&[b"x", &text.repeat(times)[..], b"x"].concat());
            }
            steps(r, &list);
            compared += 2 * 19;
        }
    }
    compared
}

/// All that can stand behind a `{`, of at most 5 bytes over digits and the signs round them: closed, left open, before a
/// fault further right, and where an operand has to begin.
pub fn spellings_of_counts(_: &mut Random) -> usize {
    let bodies = all_rows(b"0127,} \\", 5);
    for body in &bodies {
        for (front, back) in [(&b"a{"[..], &b"}"[..]), (b"(b|a{", b""), (b"a{", b"}*)"), (b"{", b"}")] {
            let e = [front, body, back].concat();
            if let Some(list) = compare_rooms(&e) {
                list.compare_text(b"aa");
            }
        }
    }
    4 * bodies.len()
}

/// All pairs of numbers of at most three digits as a count, and each with one byte put before it, between or behind.
pub fn numbers_of_counts(_: &mut Random) -> usize {
    let numbers = all_rows(b"0156", 3);
    let others = b" +-,.{}a0*\x00\n\xb2";
    let mut compared = 0;
    for (first, last) in numbers.iter().flat_map(|first| numbers.iter().map(move |last| (first, last))) {
        let body = [&first[..], b",", last].concat();
        compare_rooms(&[b"a{", &body[..], b"}"].concat());
        let other = others[compared % others.len()];
        for at in [0, first.len(), first.len() + 1, body.len()] {
            let mut changed = body.clone();
            changed.insert(at, other);
            calls::read_second(&[b"a{", &changed[..], b"}"].concat(), [12, 32]);
        }
        compared += 5;
    }
    compared
}

/// All expressions of at most 5 bytes over the signs, digits and a letter, each in buffers that just fit and too short ones.
pub fn short_expressions(_: &mut Random) -> usize {
    let all = all_rows(b"a()|*+?{},1\\", 5);
    for e in &all {
        if let Some(list) = compare_rooms(e) {
            for text in [&b""[..], b"a", b"aa", b"1,a"] {
                list.compare_text(text);
            }
        }
    }
    all.len()
}

/// All rows of at most 4 signs, counts and operands, on a few texts.
pub fn rows_of_signs(_: &mut Random) -> usize {
    let parts: [&[u8]; 16] = [
        b"a", b"b", b"[ab]", b"(", b")", b"|", b"*", b"+", b"?", b"{0,1}", b"{1,1}", b"{2,2}", b"{1,2}", b"{0,3}", b"{16,16}",
        b"\\?",
    ];
    let numbers: Vec<u8> = (0..parts.len() as u8).collect();
    let all = all_rows(&numbers, 4);
    for row in &all {
        let e = row.iter().map(|&part| parts[part as usize]).collect::<Vec<_>>().concat();
        if let Some(list) = compare_rooms(&e) {
            for text in [&b""[..], b"a", b"ab", b"aab", b"bab?", b"aaaaaaa"] {
                list.compare_text(text);
            }
        }
    }
    all.len()
}

/// Counts of counts, and of those, on operands of one and of several nodes: up to far more nodes than a tree may have.
pub fn counts_of_counts(r: &mut Random) -> usize {
    let numbers = [0, 1, 2, 3, 15, 16];
    let pairs = || numbers.iter().flat_map(|&most| numbers.iter().map(move |&fewest| (fewest.min(most), most.max(1))));
    let mut compared = 0;
    for operand in [&b"a"[..], b"[ab]", b"(ab)", b"a+"] {
        for ((fewest, most), outer) in pairs().flat_map(|inner| pairs().map(move |outer| (inner, outer))) {
            let e = [operand, &count(fewest, most), &count(outer.0, outer.1)].concat();
            if let Some(list) = calls::read_second(&e, need(&e)) {
                let text = generate::short_sample(r, list.written());
                list.compare_text(&text);
            }
            let third = r.below(numbers.len());
            calls::read_second(&[&e[..], &count(0, numbers[third].max(1))].concat(), ENOUGH);
            compared += 2;
        }
    }
    compared
}

/// Expressions of each number of nodes near 2,047 and near those of 128 pieces: counts of some operand, then letters and a
/// star.
pub fn sizes(r: &mut Random) -> usize {
    let rounds = 2_400;
    for round in 0..rounds {
        let goal = if round % 2 == 0 { 2_043 + r.below(9) } else { 1_786 + r.below(20) };
        let mut e = vec![];
        loop {
            e.clear();
            e.push(b'(');
            let size = 1 + r.below(12);
            generate::expression_with_signs(r, size, 3, b"ab", &mut e);
            e.push(b')');
            e.extend(count(r.below(17), 16));
            if r.one_in(2) {
                e.extend(count(r.below(9), 8));
            }
            let nodes = written::read(&e).map_or(usize::MAX, |written| written.nodes());
            if nodes < goal && goal - nodes < 1_500 {
                e.extend(b"c".repeat((goal - nodes) / 2));
                e.extend(b"*".repeat((goal - nodes) % 2));
                break;
            }
        }
        let nodes = written::read(&e).map_or(goal, |written| written.nodes());
        assert_eq!(nodes, goal);
        if let Some(list) = calls::read_second(&e, need(&e)) {
            list.compare_text(&r.bytes(20, b"abc"));
        }
    }
    rounds
}

/// Counts on counts, and groups in groups, that stand for more nodes than any number here can hold, some with a fault of
/// form far behind.
pub fn explosions(r: &mut Random) -> usize {
    let rounds = 12_000;
    for round in 0..rounds {
        let depth = growing(r, 30, round, rounds);
        let mut e = [&b"(".repeat(depth)[..], b"a"].concat();
        for _ in 0..depth {
            e.push(b')');
            (0..1 + r.below(3)).for_each(|_| e.extend(count(r.below(17), [2, 15, 16][r.below(3)].max(1))));
        }
        // A count whose first number is above its last is a fault of form too.
        if r.one_in(3) {
            e.extend([&b")"[..], b"{2,1}", b"\\b", b"|", b"}", b"]", b"(", b"[", b"{", b"a{1,2"][r.below(10)]);
        }
        calls::read_second(&e, [0, 0]);
    }
    let longest = [b"a", &b"{16,16}".repeat(146)[..]].concat();
    for (more, behind) in [(0, &b""[..]), (1, b""), (1, b")"), (0, b"{"), (0, b"b"), (0, b"}")] {
        calls::read_second(&[&b"b".repeat(more)[..], &longest, behind].concat(), ENOUGH);
    }
    rounds + 6
}

/// Expressions with all signs, over the signs or over all bytes, well-formed or damaged, in buffers of several lengths.
pub fn random_expressions(r: &mut Random) -> usize {
    let rounds = 70_000;
    let every = generate::all_bytes();
    let signs = b"ab()|*+?{},0123\\.[]^-";
    for round in 0..rounds {
        let size = growing(r, 30, round, rounds);
        let letters: &[u8] = if r.one_in(2) { &every } else { b"ab+?{}\\,.\n" };
        let mut e = vec![];
        match round % 4 {
            0 => e = r.bytes(size, signs),
            _ => generate::expression_with_signs(r, size, 6, letters, &mut e),
        }
        if round % 4 > 1 {
            generate::damage(r, &mut e, signs);
        }
        let rooms = need(&e).map(|need| [0, need.saturating_sub(1), need, need, need + 9][r.below(5)]);
        calls::read_second(&e, rooms);
    }
    rounds
}

/// Expressions with all signs, with texts that lie in the language, or near it, or anywhere.
pub fn matches(r: &mut Random) -> usize {
    let rounds = 60_000;
    let every = generate::all_bytes();
    for round in 0..rounds {
        let letters: &[u8] = if round % 5 == 0 { &every } else { b"abc\n" };
        let size = growing(r, if round % 7 == 0 { 60 } else { 15 }, round, rounds);
        let mut e = vec![];
        generate::expression_with_signs(r, size, 8, letters, &mut e);
        let Some(list) = calls::read_second(&e, need(&e)) else { continue };
        let text = match r.below(3) {
            0 => r.bytes(12, letters),
            _ => generate::short_sample(r, list.written()),
        };
        list.compare_text(&text);
    }
    rounds
}

/// Starts and steps from closed marks and any others, over trees with leaves of the empty text.
pub fn runs_of_steps(r: &mut Random) -> usize {
    let rounds = 15_000;
    for round in 0..rounds {
        let size = growing(r, if round % 5 == 0 { 60 } else { 20 }, round, rounds);
        let mut e = vec![];
        generate::expression_with_signs(r, size, 8, b"abc\n", &mut e);
        if let Some(list) = calls::read_second(&e, need(&e)) {
            steps(r, &list);
        }
    }
    rounds
}

/// Trees that no expression gives, with leaves of the empty text anywhere and class records of any bytes.
pub fn trees(r: &mut Random) -> usize {
    let rounds = 4_000;
    for round in 0..rounds {
        let nodes = growing(r, if round % 10 == 0 { 2_000 } else { 120 }, round, rounds);
        let mut tree = vec![];
        let lean = r.below(3);
        generate::tree(r, nodes, lean, b"abc", &mut tree);
        generate::put_empty_texts(r, &mut tree);
        let count = generate::put_classes(r, &mut tree, 2);
        generate::put_places(r, &mut tree);
        let list = List::new(expected::records(&tree), generate::class_records(r, count));
        list.compare_text(&r.bytes(30, b"abc"));
        if list.pieces() > 0 {
            steps(r, &list);
        }
    }
    rounds
}

/// Lists with leaves of the empty text, with each byte changed to each other value, in all four calls.
pub fn changed_lists(_: &mut Random) -> usize {
    let mut compared = 0;
    for e in [&b"a?"[..], b"[a]{0,2}b", b"(ab?c+d)?(e|f{1,2})"] {
        let list = calls::read_second(e, ENOUGH).expect("good");
        for at in 0..list.bytes.len() {
            for value in generate::all_bytes() {
                let mut bytes = list.bytes.clone();
                bytes[at] = value;
                compare_list(&List::new(bytes, list.classes.clone()), b"ab");
                compared += 1;
            }
        }
    }
    compared
}

/// Lists with leaves of the empty text, with records or bytes changed, taken out, put in or cut off.
pub fn damaged_lists(r: &mut Random) -> usize {
    let rounds = 15_000;
    for round in 0..rounds {
        let size = growing(r, 20, round, rounds);
        let mut e = vec![];
        generate::expression_with_signs(r, size, 6, b"ab", &mut e);
        let Some(list) = calls::read_second(&e, need(&e)) else { continue };
        let mut bytes = list.bytes.clone();
        for _ in 0..=r.below(2) {
            generate::damage_list(r, &mut bytes);
        }
        let classes = generate::class_records(r, list.class_count());
        compare_list(&List::new(bytes, classes), &r.bytes(6, b"abc"));
    }
    rounds
}

/// The first syntax, where these bytes are characters: all expressions of at most 5 of them, and counts behind an operand.
pub fn first_syntax(_: &mut Random) -> usize {
    let all = all_rows(b"a+?{}(*\\", 5);
    for e in &all {
        if let Some(list) = calls::read(e, MOST_RECORD_BYTES) {
            list.compare_text(e);
        }
    }
    for (fewest, most) in (0..18).flat_map(|fewest| (0..18).map(move |most| (fewest, most))) {
        let e = [b"a", &count(fewest, most)[..]].concat();
        let list = calls::read(&e, MOST_RECORD_BYTES).expect("characters are good");
        list.compare_text(&e);
        list.compare_text(b"a");
    }
    all.len() + 18 * 18
}

/// Trees of at most 2,047 nodes and the first that are larger, each by the number of its nodes alone: the same row of
/// letters and stars in both syntaxes.
pub fn largest(_: &mut Random) -> usize {
    let full = b"((a{16,16}){16,16}){4,4}";
    let nodes = |e: &[u8]| written::read(e).map_or(0, |written| written.nodes());
    assert_eq!(nodes(full), MOST_NODES);
    let behind: [&[u8]; 12] = [b"", b"*", b"+", b"?", b"b", b"{1,1}", b"{0,1}", b"|b", b")", b"{", b"*{1,1}", b"{1,1}{1,1}{1,1}"];
    for more in behind {
        calls::read_second(&[&full[..], more].concat(), ENOUGH);
        calls::read_second(&[b"(", &full[..], more, b")"].concat(), ENOUGH);
        calls::read_second(&[b"c|", &full[..], more].concat(), ENOUGH);
    }
    3 * behind.len()
}
