//! Inputs with classes and the dot: expressions of the second syntax, lists with class leaves, and class buffers of all
//! lengths round those that are needed.

use crate::calls::{self, List};
use crate::expected::{self, CLASS_SIZE, RECORD_SIZE};
use crate::generate::{self, Random};
use crate::written::{self, MOST_NODES};
use crate::{all_rows, compare_list, growing, steps};
use foamlattice::slices::{MOST_CLASS_BYTES, MOST_RECORD_BYTES};

/// Buffers that are long enough for every expression.
pub const ENOUGH: [usize; 2] = [MOST_RECORD_BYTES, MOST_CLASS_BYTES];

/// The bytes that an expression's records and classes need; some numbers for one that is refused.
pub fn need(e: &[u8]) -> [usize; 2] {
    match written::read(e) {
        Ok(written) if written.nodes() <= MOST_NODES => [RECORD_SIZE * written.nodes(), CLASS_SIZE * written.classes()],
        _ => [RECORD_SIZE, CLASS_SIZE],
    }
}

/// Reads into buffers that just fit, after both a byte too short.
pub fn compare_rooms(e: &[u8]) -> Option<List> {
    let [records, classes] = need(e);
    calls::read_second(e, [records - 1, classes.saturating_sub(1)]);
    calls::read_second(e, [records, classes])
}

/// All class bodies of at most 5 bytes over the signs of a class and three others, closed and left open, alone and inside an
/// expression; those of at most 3 bytes on each byte as a text.
pub fn class_bodies(_: &mut Random) -> usize {
    let mut count = 0;
    for body in all_rows(b"ab^-]\\[\n", 5) {
        let class = [b"[", &body[..], b"]"].concat();
        if let Some(list) = compare_rooms(&class) {
            let texts = if body.len() <= 3 { generate::all_bytes() } else { body };
            texts.into_iter().for_each(|byte| list.compare_text(&[byte]));
        }
        calls::read_second(&class[..class.len() - 1], ENOUGH);
        calls::read_second(&[b"(a|", &class[..], b")*)"].concat(), ENOUGH);
        count += 3;
    }
    count
}

/// All expressions of at most 5 bytes over the signs of both syntaxes, each in buffers that just fit and too short ones.
pub fn short_expressions(_: &mut Random) -> usize {
    let all = all_rows(b"a-^.[](|*\\", 5);
    for e in &all {
        if let Some(list) = compare_rooms(e) {
            for text in [&b""[..], b"a", b"^", b"aa\n", b"-^a]"] {
                list.compare_text(text);
            }
        }
    }
    all.len()
}

/// Each byte as an item, with `^` and without, with `\` and without, and alone outside a class, on each byte as a text.
pub fn all_items(_: &mut Random) -> usize {
    let every = generate::all_bytes();
    for &b in &every {
        let mut written = vec![];
        generate::write_member(b, &mut written);
        let mut expressions = vec![vec![b], vec![b'\\', b]];
        for item in [&[b][..], &[b'\\', b], &written] {
            expressions.extend([[b"[", item, b"]"].concat(), [b"[^", item, b"]"].concat()]);
        }
        for e in expressions {
            let Some(list) = calls::read_second(&e, ENOUGH) else { continue };
            let start = list.compare_start(1);
            for &c in &every {
                list.compare_text(&[c]);
                list.compare_step(&start, c);
            }
        }
    }
    let dot = calls::read_second(b".", ENOUGH).expect("the dot is good");
    every.iter().for_each(|&c| dot.compare_text(&[c]));
    every.len() * every.len() + every.len()
}

/// Each pair of bytes as the ends of a range, on the bytes next to them.
pub fn all_ranges(_: &mut Random) -> usize {
    let every = generate::all_bytes();
    for &first in &every {
        for &last in &every {
            let mut e = b"[".to_vec();
            generate::write_member(first, &mut e);
            e.push(b'-');
            generate::write_member(last, &mut e);
            e.push(b']');
            if let Some(list) = calls::read_second(&e, ENOUGH) {
                let texts = [first.wrapping_sub(1), first, last, last.wrapping_add(1)];
                texts.into_iter().for_each(|byte| list.compare_text(&[byte]));
            }
        }
    }
    every.len() * every.len()
}

/// Expressions over the signs or over all bytes, well-formed or damaged, in buffers of several lengths.
pub fn random_expressions(r: &mut Random) -> usize {
    let rounds = 80_000;
    let every = generate::all_bytes();
    let signs = b"ab()|*\\.[]^-";
    for round in 0..rounds {
        let size = growing(r, 40, round, rounds);
        let letters: &[u8] = if r.one_in(2) { &every } else { b"ab-]^\\[.\x00\n" };
        let mut e = vec![];
        match round % 4 {
            0 => e = r.bytes(size, signs),
            _ => generate::expression_with_classes(r, size, 6, letters, &mut e),
        }
        if round % 4 > 1 {
            generate::damage(r, &mut e, signs);
        }
        let rooms = need(&e).map(|need| [0, need.saturating_sub(1), need, need, need + 9][r.below(5)]);
        calls::read_second(&e, rooms);
    }
    rounds
}

/// Expressions with texts that lie in the language, or near it, or anywhere.
pub fn matches(r: &mut Random) -> usize {
    let rounds = 70_000;
    let every = generate::all_bytes();
    for round in 0..rounds {
        let letters: &[u8] = if round % 5 == 0 { &every } else { b"abc\n" };
        let size = growing(r, if round % 7 == 0 { 120 } else { 25 }, round, rounds);
        let mut e = vec![];
        generate::expression_with_classes(r, size, 8, letters, &mut e);
        let Some(list) = calls::read_second(&e, ENOUGH) else { continue };
        let mut text = r.bytes(3, letters);
        match r.below(3) {
            0 => text = r.bytes(12, letters),
            which => {
                text.truncate(which - 1);
                generate::sample(r, list.written(), 40, &mut text);
            }
        }
        list.compare_text(&text);
    }
    rounds
}

/// Starts and steps from closed marks and any others, with classes as they were read or of any bytes.
pub fn runs_of_steps(r: &mut Random) -> usize {
    let rounds = 20_000;
    for round in 0..rounds {
        let size = growing(r, if round % 5 == 0 { 150 } else { 40 }, round, rounds);
        let mut e = vec![];
        generate::expression_with_classes(r, size, 8, b"abc\n", &mut e);
        let Some(mut list) = calls::read_second(&e, ENOUGH) else { continue };
        if r.one_in(4) {
            let classes = generate::class_records(r, list.class_count());
            list = list.lent(classes);
        }
        steps(r, &list);
    }
    rounds
}

/// Lists with class leaves that need not come from an expression, with class records of any bytes.
pub fn trees(r: &mut Random) -> usize {
    let rounds = 4_000;
    for round in 0..rounds {
        let nodes = growing(r, if round % 10 == 0 { 2_000 } else { 120 }, round, rounds);
        let mut tree = vec![];
        let lean = r.below(3);
        generate::tree(r, nodes, lean, b"abc", &mut tree);
        let count = generate::put_classes(r, &mut tree, 2);
        generate::put_places(r, &mut tree);
        let classes = generate::class_records(r, count);
        let list = List::new(expected::records(&tree), classes);
        list.compare_text(&r.bytes(30, b"abc"));
        if list.pieces() > 0 {
            steps(r, &list);
        }
    }
    rounds
}

/// Lists with one, two and four classes with each byte changed to each other value, in all four calls.
pub fn changed_lists(_: &mut Random) -> usize {
    let mut count = 0;
    for e in [&b"[a]"[..], b".*[^b]", b"([ab]cd.)*(e[f]g.)*"] {
        let list = calls::read_second(e, ENOUGH).expect("good");
        for at in 0..list.bytes.len() {
            for value in generate::all_bytes() {
                let mut bytes = list.bytes.clone();
                bytes[at] = value;
                compare_list(&List::new(bytes, list.classes.clone()), b"ab");
                count += 1;
            }
        }
    }
    count
}

/// Lists with class leaves, with records or bytes changed, taken out, put in or cut off, and with class records too.
pub fn damaged_lists(r: &mut Random) -> usize {
    let rounds = 20_000;
    for round in 0..rounds {
        let size = growing(r, 40, round, rounds);
        let mut e = vec![];
        generate::expression_with_classes(r, size, 6, b"ab", &mut e);
        let Some(list) = calls::read_second(&e, ENOUGH) else { continue };
        let mut bytes = list.bytes.clone();
        for _ in 0..=r.below(2) {
            generate::damage_list(r, &mut bytes);
        }
        let classes = generate::class_records(r, list.class_count());
        compare_list(&List::new(bytes, classes), &r.bytes(6, b"abc"));
    }
    rounds
}

/// Every length of the class buffer up to past its need: in reading, beside a record buffer that fits and one that is a byte
/// too short, and in the four calls that take a list, beside words too few, words that are no marks and texts too long.
pub fn lengths_of_classes(_: &mut Random) -> usize {
    let mut count = 0;
    let too_long = vec![b'a'; 65_537];
    for e in [&b"a*b"[..], b".", b"[a]*|b", b".[^b].", b"([ab]cd.)*(e[f]g.)*"] {
        let list = calls::read_second(e, ENOUGH).expect("good");
        let [records, classes] = need(e);
        for room in 0..=classes + CLASS_SIZE + 1 {
            calls::read_second(e, [records, room]);
            calls::read_second(e, [records - 1, room]);
            let mut lent = list.classes.clone();
            lent.resize(room, 0xa5);
            let list = list.lent(lent);
            compare_list(&list, b"ab");
            list.compare_text(&too_long);
            list.compare_start(0);
            list.compare_step(&[], b'a');
            list.compare_step(&vec![u64::MAX; list.pieces()], b'a');
            count += 8;
        }
        let mut not_good = list.bytes.clone();
        not_good.push(0);
        for room in [0, classes, classes + 1] {
            compare_list(&List::new(not_good.clone(), vec![0; room]), b"ab");
            count += 1;
        }
    }
    count
}

/// Both sides of 16 items, of 1,024 bytes, 32 groups and 128 pieces, with classes.
pub fn long_expressions(r: &mut Random) -> usize {
    let mut expressions: Vec<Vec<u8>> = vec![];
    for items in 0..=40 {
        let item = |range: &[u8]| [b"[", &range.repeat(items)[..], b"]"].concat();
        expressions.extend([item(b"a"), item(b"a-b"), item(b"\\]"), item(b"\\--a"), [b"[^", &item(b"a-z")[1..]].concat()]);
    }
    for dots in [895, 896, 897, 898, 899, 1_023, 1_024, 1_025] {
        expressions.extend([b".".repeat(dots), [&b".".repeat(dots - 1)[..], b"]"].concat()]);
    }
    for classes in [340, 341, 342] {
        expressions.extend([b"[a]".repeat(classes), [b"[a]", &b"[b]".repeat(classes)[..]].concat()]);
    }
    for groups in 30..=34 {
        let open = b"(".repeat(groups);
        expressions.extend([[&open[..], b"[()]", &b")".repeat(groups)[..]].concat(), [b"[", &open[..]].concat()]);
        expressions.extend([[&open[..], b"]"].concat(), [b".", &open[..], b"[]"].concat()]);
    }
    for size in 0..300 {
        let mut e = vec![];
        generate::expression_with_classes(r, 50 + 2 * size, 20, b"abcd\n", &mut e);
        expressions.push(e);
    }
    for e in &expressions {
        if let Some(list) = compare_rooms(e) {
            list.compare_text(&r.bytes(40, b"ab\n"));
            steps(r, &list);
        }
    }
    expressions.len()
}
