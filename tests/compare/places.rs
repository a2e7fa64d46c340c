//! Inputs with places: lists with other places than those that were read, places that no record may have, and lists of the old
//! layout, which has none.

use crate::calls::{self, List};
use crate::classes::{need, ENOUGH};
use crate::expected::{self, OLD_RECORD_SIZE, RECORD_SIZE};
use crate::generate::{self, Random};
use crate::{compare_list, growing, steps};

/// Expressions for the records and places of which every sign, copy and kind of leaf has its part.
const EXPRESSIONS: [&[u8]; 6] =
    [b"a*b", b"a?", b"(ab|c)(\\*d)*", b"[a]{0,2}b", b"([ab]cd.)*(e[f]g.)*", b"((ab+c){2,3}|d)?(e(fg))"];

/// Good lists with any places: matched, searched, started and stepped as before.
pub fn other_places(r: &mut Random) -> usize {
    let rounds = 10_000;
    for round in 0..rounds {
        let size = growing(r, 20, round, rounds);
        let mut e = vec![];
        generate::expression_with_signs(r, size, 6, b"abc", &mut e);
        let Some(list) = calls::read_second(&e, need(&e)) else { continue };
        let text = generate::short_sample(r, list.written());
        let list = List::new(generate::with_places(r, &list.bytes), list.classes);
        list.compare_text(&text);
        steps(r, &list);
    }
    rounds
}

/// Each record's last four bytes with each value in one of them, and with each place from 0 to 1,100 and some beyond.
pub fn changed_places(_: &mut Random) -> usize {
    let mut compared = 0;
    for e in EXPRESSIONS {
        let list = calls::read_second(e, ENOUGH).expect("good");
        for record in (0..list.bytes.len()).step_by(RECORD_SIZE) {
            let mut compare = |at: usize, put: &[u8]| {
                let mut bytes = list.bytes.clone();
                bytes[record + at..record + at + put.len()].copy_from_slice(put);
                compare_list(&List::new(bytes, list.classes.clone()), b"ab");
                compared += 1;
            };
            (8..RECORD_SIZE).for_each(|at| (0..=255).for_each(|value| compare(at, &[value])));
            let places = (0..=1_100).chain([2_047, 2_048, 4_096, 65_535]);
            places.for_each(|place: u16| compare(8, &place.to_le_bytes()));
        }
    }
    compared
}

/// An old list into buffers that just fit, are a byte too short, have bytes to spare, and have none.
fn compare_old(old: &[u8]) -> usize {
    let need = old.len() / OLD_RECORD_SIZE * RECORD_SIZE;
    [need, need.saturating_sub(1), need + 7, 0].iter().for_each(|&room| calls::widen(old, room));
    4
}

/// Lists of expressions of both syntaxes and of trees that none gives, in the old layout; up to the longest and past it.
pub fn old_lists(r: &mut Random) -> usize {
    let rounds = 8_000;
    let mut compared = 0;
    for round in 0..rounds {
        let size = growing(r, 40, round, rounds);
        let mut tree = vec![];
        let list = match round % 3 {
            0 => {
                let mut e = vec![];
                generate::expression_with_signs(r, size, 6, b"abc", &mut e);
                calls::read_second(&e, need(&e)).map_or(vec![], |list| list.bytes)
            }
            _ => {
                let nodes = if round % 50 == 1 { 1_900 + r.below(40) } else { size };
                let lean = r.below(3);
                generate::tree(r, nodes, lean, b"abc", &mut tree);
                generate::put_empty_texts(r, &mut tree);
                generate::put_classes(r, &mut tree, 2);
                expected::records(&tree)
            }
        };
        compared += compare_old(&expected::old_layout(&list));
    }
    for stars in [0, 13, 14, 15, 1_918, 1_919, 1_920, 1_921, 2_500] {
        compared += compare_old(&expected::old_layout(&expected::records(&generate::chain(stars))));
    }
    compared
}

/// Old lists with each byte changed to each other value, and of each length.
pub fn changed_old_lists(_: &mut Random) -> usize {
    let mut compared = 0;
    for e in EXPRESSIONS {
        let list = calls::read_second(e, ENOUGH).expect("good");
        let old = expected::old_layout(&list.bytes);
        for (at, value) in (0..old.len()).flat_map(|at| (0..=255).map(move |value| (at, value))) {
            let mut changed = old.clone();
            changed[at] = value;
            calls::widen(&changed, list.bytes.len());
            compared += 1;
        }
        (0..=old.len()).for_each(|length| compared += compare_old(&old[..length]));
        (1..=12).for_each(|more| compared += compare_old(&[&old[..], &vec![0; more]].concat()));
        compared += compare_old(&list.bytes);
    }
    compared
}

/// Old lists with records or bytes changed, taken out, put in or cut off.
pub fn damaged_old_lists(r: &mut Random) -> usize {
    let rounds = 10_000;
    for round in 0..rounds {
        let size = growing(r, 20, round, rounds);
        let mut e = vec![];
        generate::expression_with_signs(r, size, 6, b"ab", &mut e);
        let Some(list) = calls::read_second(&e, need(&e)) else { continue };
        let mut old = expected::old_layout(&list.bytes);
        for _ in 0..=r.below(2) {
            generate::damage(r, &mut old, &[0, 1, 2, 3, 4, 5, 6, 254, 255]);
        }
        compare_old(&old);
    }
    4 * rounds
}
