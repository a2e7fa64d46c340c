//! Inputs of chosen sizes: lists with as many class leaves as there can be; lists on both sides of the numbers of records and
//! of pieces at which the library takes larger tables; lists of one piece, whose steps it remembers, on long texts.

use crate::calls::{self, List};
use crate::classes::ENOUGH;
use crate::expected::{self, Automaton, Kind, Tree, CLASS_SIZE};
use crate::generate::{self, Random, FULL_PIECE, SMALL_PIECE};
use crate::{compare_list, steps};
use foamlattice::slices::MOST_RECORD_BYTES;

/// The most class leaves of a list.
const MOST_CLASSES: usize = 960;

/// Steps from the words in which all states are marked: each leaf shows whether it takes the byte.
fn steps_of_all(list: &List, bytes: &[u8]) {
    let all = list.all_marked();
    bytes.iter().for_each(|&byte| drop(list.compare_step(&all, byte)));
}

/// A list of so many records in the fewest pieces, with one in so many of its leaves a class of any bytes and the others
/// characters, the first and the last byte among them.
fn list_of_classes(r: &mut Random, nodes: usize, one_in: usize) -> List {
    let mut tree = vec![];
    generate::full_tree(r, nodes, false, b"\x00\x01ab\xfe\xff", &mut tree);
    let count = generate::put_classes(r, &mut tree, one_in);
    let list = List::new(expected::records(&tree), r.row(CLASS_SIZE * count, &generate::all_bytes()));
    assert_eq!((list.class_count(), list.pieces()), (count, nodes.div_ceil(FULL_PIECE)));
    list
}

/// Lists with up to 960 class leaves, with all of their leaves classes or with characters between.
pub fn many_classes(r: &mut Random) -> usize {
    let every = generate::all_bytes();
    let mut compared = 0;
    for nodes in [511, 513, 1_023, 1_025, 1_535, 1_793, 1_905, 1_919, 1_920] {
        for one_in in [1, 1, 1, 2, 2, 3] {
            let list = list_of_classes(r, nodes, one_in);
            assert!(nodes < 1_919 || one_in > 1 || list.class_count() == MOST_CLASSES);
            let bytes = [&b"\x00\x01\xfe\xff"[..], &r.row(4, &every)].concat();
            steps_of_all(&list, &bytes);
            steps(r, &list);
            list.compare_text(&r.row(1, &every));
            list.compare_text(&r.bytes(12, &every));
            compared += bytes.len() + 3;
        }
    }
    compared
}

/// A union of 960 classes of which one alone takes a byte, for the classes next to each number where another bit is needed.
pub fn one_of_many_classes(r: &mut Random) -> usize {
    let mut tree: Tree = vec![];
    generate::full_tree(r, 2 * MOST_CLASSES - 1, false, b"a", &mut tree);
    generate::put_classes(r, &mut tree, 1);
    tree.iter_mut().filter(|node| node.kind == Kind::Catenation).for_each(|node| node.kind = Kind::Union);
    let records = expected::records(&tree);
    let edges = (0..MOST_CLASSES).step_by(64).flat_map(|class| [class, class + 1, class + 62, class + 63]);
    let mut compared = 0;
    for class in edges {
        let (byte, other) = (r.word() as u8, r.word() as u8);
        let mut classes = vec![0; CLASS_SIZE * MOST_CLASSES];
        classes[CLASS_SIZE * class + byte as usize / 8] = 1 << (byte % 8);
        let list = List::new(records.clone(), classes);
        list.compare_text(&[byte]);
        list.compare_text(&[other, other, byte, other]);
        steps_of_all(&list, &[byte, other]);
        compared += 4;
    }
    compared
}

/// Trees of so many nodes: as they come and leaning to each side, in the fewest pieces with stars and without, in the most
/// pieces, and a chain of stars.
fn shapes(r: &mut Random, nodes: usize) -> Vec<Tree> {
    let letters = b"abc";
    let [mut full, mut without_stars, mut sparse] = [vec![], vec![], vec![]];
    generate::full_tree(r, nodes, true, letters, &mut full);
    generate::full_tree(r, nodes, false, letters, &mut without_stars);
    generate::sparse_tree(r, nodes, letters, &mut sparse);
    let pieces = [&full, &without_stars, &sparse].map(|tree| expected::pieces(tree).1);
    assert_eq!(pieces, [nodes.div_ceil(FULL_PIECE), nodes.div_ceil(FULL_PIECE), nodes / SMALL_PIECE]);
    let mut trees = vec![full, without_stars, sparse, generate::chain(nodes - 1)];
    for lean in 0..3 {
        let mut tree = vec![];
        generate::tree(r, nodes, lean, letters, &mut tree);
        trees.push(tree);
    }
    trees
}

/// A list in all calls, stepped from all marks too where it is good. How many inputs that is.
fn compare_records(r: &mut Random, list: &List, text: &[u8]) -> usize {
    compare_list(list, text);
    list.compare_text(&r.bytes(6, b"abc"));
    if list.pieces() == 0 {
        return 2;
    }
    steps(r, list);
    steps_of_all(list, b"abc\x00");
    7
}

/// Lists on both sides of each number of records at which larger tables are taken, of several shapes, with characters alone
/// and with classes and empty texts; some have as many pieces as so many records can have, or more than a good list.
pub fn numbers_of_records(r: &mut Random) -> usize {
    let mut compared = 0;
    for nodes in [15, 16, 127, 128, 129, 511, 512, 513, 1_023, 1_024, 1_031, 1_032, 1_919, 1_920, 1_921] {
        for mut tree in shapes(r, nodes) {
            let text = generate::leaves(r, &tree, 20);
            compared += compare_records(r, &List::new(expected::records(&tree), vec![]), &text);
            generate::put_empty_texts(r, &mut tree);
            let classes = generate::put_classes(r, &mut tree, 2);
            let classes = r.row(CLASS_SIZE * classes, &generate::all_bytes());
            compared += compare_records(r, &List::new(expected::records(&tree), classes), &text);
        }
    }
    compared
}

/// Few bytes, of which the texts for lists of one piece are made; others are made of all.
const ALPHABETS: [&[u8]; 5] = [b"ab", b"abc\n", b"\x00\xff", b"\x00\x01a\xff", b"abcdefghijklmnop"];

/// What is written before an expression and behind it.
type Frame = (&'static [u8], &'static [u8]);

/// Any number of them in a row, so that a text can go on for ever.
const ANY_NUMBER: Frame = (b"(", b")*");
/// Behind anything, so that it may begin at every byte.
const ANYWHERE: Frame = (b"[\x00-\xff]*(", b")");
/// Before one more byte, which may be nowhere in a text, so that all starts are tried.
const BEFORE_LAST: Frame = (b"(", &[b')', LAST]);
const LAST: u8 = b'z';

/// How expressions are written, the first of them in the first syntax.
const WRITERS: [fn(&mut Random, usize, usize, &[u8], &mut Vec<u8>); 4] =
    [generate::expression, generate::expression_with_classes, generate::expression_with_signs, generate::row_of_classes];

/// The list of a random expression by this writer in its frame, of one piece.
fn one_piece(r: &mut Random, (before, behind): Frame, writer: usize, letters: &[u8]) -> List {
    loop {
        let mut e = before.to_vec();
        let size = 2 + r.below(9);
        WRITERS[writer](r, size, 4, letters, &mut e);
        e.extend(behind);
        let list = if writer == 0 { calls::read(&e, MOST_RECORD_BYTES) } else { calls::read_second(&e, ENOUGH) };
        if let Some(list) = list.filter(|list| list.pieces() == 1) {
            return list;
        }
    }
}

/// A text of 2,000 to 8,000 of these bytes: one that some marked leaf takes, and where there is none, any, and from the start
/// again.
fn text_along(r: &mut Random, automaton: &Automaton, letters: &[u8]) -> Vec<u8> {
    let taken: Vec<Vec<u128>> = letters.iter().map(|&byte| automaton.taken_by(byte)).collect();
    let mut marks = automaton.start();
    let mut text = vec![];
    for _ in 0..2_000 + r.below(6_001) {
        let first = r.below(letters.len());
        let takes = |at: usize, node: usize| taken[at][node / 128] >> (node % 128) & 1 == 1;
        let leads_on = |&at: &usize| (0..marks.len() / 2).any(|node| marks[2 * node] && takes(at, node));
        let going_on = (first..letters.len()).chain(0..first).find(leads_on);
        text.push(letters[going_on.unwrap_or(first)]);
        marks = going_on.map_or_else(|| automaton.start(), |at| automaton.step(&marks, letters[at]));
    }
    text
}

/// The bytes of a round: one of the alphabets, or all.
fn alphabet(round: usize) -> Vec<u8> {
    ALPHABETS.get(round % (ALPHABETS.len() + 1)).map_or_else(generate::all_bytes, |letters| letters.to_vec())
}

/// Lists of one piece on texts of 2,000 to 8,000 bytes along which marks are left: matched and searched, many beginnings
/// matched, and stepped along.
pub fn long_texts(r: &mut Random) -> usize {
    let (rounds, beginnings) = (240, 50);
    for round in 0..rounds {
        let letters = alphabet(round);
        let (frame, writer) = if r.one_in(3) { (ANY_NUMBER, r.below(3)) } else { (ANYWHERE, 1 + r.below(3)) };
        let list = one_piece(r, frame, writer, &letters);
        let mut text = text_along(r, list.automaton(), &letters);
        // Where no part starts at 0, a search may take a time that grows as the square of the length.
        if list.automaton().ends(&text).is_empty() {
            text.truncate(1_000);
        }
        list.compare_text(&text);
        let lengths: Vec<usize> = (0..beginnings).map(|_| r.below(text.len() + 1)).collect();
        list.compare_beginnings(&text, &lengths);
        if round % 4 == 0 {
            list.compare_steps(&list.compare_start(1), &text);
        }
    }
    rounds * (1 + beginnings)
}

/// Searches by lists of one piece that fail at most starts of a text of 2,000 to 8,000 bytes: what they look for ends by a byte
/// that is nowhere, or near the end. Every now and then a byte stands there that no leaf takes, so that no start is followed far.
pub fn many_starts(r: &mut Random) -> usize {
    let rounds = 300;
    for round in 0..rounds {
        let letters = alphabet(round);
        let writer = r.below(WRITERS.len());
        let list = one_piece(r, BEFORE_LAST, writer, &letters);
        let others: Vec<u8> = letters.into_iter().filter(|&byte| byte != LAST).collect();
        let mut text = text_along(r, list.automaton(), &others);
        match generate::all_bytes().into_iter().find(|&byte| list.automaton().taken_by(byte).iter().all(|&word| word == 0)) {
            Some(stop) => text.iter_mut().for_each(|byte| *byte = if r.one_in(40) { stop } else { *byte }),
            None => text.truncate(500),
        }
        if r.one_in(2) {
            let at = text.len() - r.below(60);
            text.insert(at, LAST);
        }
        list.compare_text(&text);
    }
    rounds
}
