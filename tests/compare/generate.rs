//! Inputs for the comparison, from a fixed seed: valid and damaged, long and short.

use crate::expected::{Kind, Node, Tree, CLASS_SIZE, MOST_PLACE, NONE, RECORD_SIZE};
use crate::written::Written;

pub struct Random(u64);

impl Random {
    pub fn new(seed: u64) -> Random {
        Random(seed)
    }
    /// SplitMix64.
    pub fn word(&mut self) -> u64 {
        self.0 = self.0.wrapping_add(0x9e37_79b9_7f4a_7c15);
        let mut z = self.0;
        z = (z ^ (z >> 30)).wrapping_mul(0xbf58_476d_1ce4_e5b9);
        z = (z ^ (z >> 27)).wrapping_mul(0x94d0_49bb_1331_11eb);
        z ^ (z >> 31)
    }
    pub fn below(&mut self, n: usize) -> usize {
        (self.word() % n as u64) as usize
    }
    pub fn one_in(&mut self, n: usize) -> bool {
        self.below(n) == 0
    }
    pub fn pick(&mut self, from: &[u8]) -> u8 {
        from[self.below(from.len())]
    }
    /// So many of these bytes.
    pub fn row(&mut self, length: usize, from: &[u8]) -> Vec<u8> {
        (0..length).map(|_| self.pick(from)).collect()
    }
    pub fn bytes(&mut self, most: usize, from: &[u8]) -> Vec<u8> {
        let length = self.below(most + 1);
        self.row(length, from)
    }
}

pub fn all_bytes() -> Vec<u8> {
    (0..=255).collect()
}

/// One character as an expression writes it.
pub fn write_character(b: u8, out: &mut Vec<u8>) {
    if b"()|*\\".contains(&b) {
        out.push(b'\\');
    }
    out.push(b);
}

/// One character as the second syntax writes it, outside a class.
pub fn write_second_character(b: u8, out: &mut Vec<u8>) {
    if b"()|*\\.[]+?{}".contains(&b) {
        out.push(b'\\');
    }
    out.push(b);
}

/// One byte as it is written inside a class.
pub fn write_member(b: u8, out: &mut Vec<u8>) {
    if b"\\]^-".contains(&b) {
        out.push(b'\\');
    }
    out.push(b);
}

/// A class over these letters, with now and then any byte; mostly of few items, sometimes of all that there can be.
fn write_class(r: &mut Random, letters: &[u8], out: &mut Vec<u8>) {
    out.push(b'[');
    if r.one_in(3) {
        out.push(b'^');
    }
    let items = if r.one_in(12) { 14 + r.below(3) } else { 1 + r.below(3) };
    for _ in 0..items {
        let mut member = || if r.one_in(5) { r.word() as u8 } else { r.pick(letters) };
        let ends = [member(), member()];
        write_member(ends[0].min(ends[1]), out);
        if r.one_in(2) {
            out.push(b'-');
            write_member(ends[0].max(ends[1]), out);
        }
    }
    out.push(b']');
}

/// A character, a class or a dot.
fn write_leaf(r: &mut Random, letters: &[u8], out: &mut Vec<u8>) {
    match r.below(6) {
        0 | 1 => write_class(r, letters, out),
        2 => out.push(b'.'),
        _ => write_second_character(r.pick(letters), out),
    }
}

/// A sign behind an operand: a star, `+`, `?`, or a count, mostly of few.
fn write_sign(r: &mut Random, out: &mut Vec<u8>) {
    match r.below(6) {
        0 => out.push(b'*'),
        1 => out.push(b'+'),
        2 | 3 => out.push(b'?'),
        _ => {
            let largest = if r.one_in(10) { 16 } else { 3 };
            let ends = [r.below(largest + 1), 1 + r.below(largest)];
            out.extend(format!("{{{},{}}}", ends[0].min(ends[1]), ends[1].max(ends[0])).bytes());
        }
    }
}

/// Writes one operand with no sign after it.
type WriteLeaf = fn(&mut Random, &[u8], &mut Vec<u8>);

/// Writes one sign behind an operand.
type WriteSign = fn(&mut Random, &mut Vec<u8>);

/// How an expression's operands and the signs behind them are written.
#[derive(Clone, Copy)]
struct Style {
    leaf: WriteLeaf,
    sign: WriteSign,
}

/// A written expression of about `size` operands and signs with at most `depth` groups open at once.
fn expression_of(style: Style, r: &mut Random, size: usize, depth: usize, letters: &[u8], out: &mut Vec<u8>) {
    if size <= 1 {
        return (style.leaf)(r, letters, out);
    }
    match r.below(8) {
        0 | 1 if depth > 0 => {
            out.push(b'(');
            expression_of(style, r, size - 1, depth - 1, letters, out);
            out.push(b')');
            if r.one_in(2) {
                (style.sign)(r, out);
            }
        }
        2 => {
            let cut = r.below(size - 1) + 1;
            expression_of(style, r, cut, depth, letters, out);
            out.push(b'|');
            expression_of(style, r, size - cut, depth, letters, out);
        }
        3 => {
            expression_of(style, r, size - 1, depth, letters, out);
            (style.sign)(r, out);
        }
        _ => {
            let cut = r.below(size - 1) + 1;
            expression_of(style, r, cut, depth, letters, out);
            expression_of(style, r, size - cut, depth, letters, out);
        }
    }
}

fn write_star(_: &mut Random, out: &mut Vec<u8>) {
    out.push(b'*');
}

/// An expression of the first syntax.
pub fn expression(r: &mut Random, size: usize, depth: usize, letters: &[u8], out: &mut Vec<u8>) {
    let style = Style { leaf: |r, letters, out| write_character(r.pick(letters), out), sign: write_star };
    expression_of(style, r, size, depth, letters, out);
}

/// An expression of the second syntax, with classes and stars.
pub fn expression_with_classes(r: &mut Random, size: usize, depth: usize, letters: &[u8], out: &mut Vec<u8>) {
    expression_of(Style { leaf: write_leaf, sign: write_star }, r, size, depth, letters, out);
}

/// An expression of the second syntax, with classes and all signs and counts.
pub fn expression_with_signs(r: &mut Random, size: usize, depth: usize, letters: &[u8], out: &mut Vec<u8>) {
    expression_of(Style { leaf: write_leaf, sign: write_sign }, r, size, depth, letters, out);
}

/// An expression of the second syntax that is a row of so many classes.
pub fn row_of_classes(r: &mut Random, size: usize, _: usize, letters: &[u8], out: &mut Vec<u8>) {
    (0..size).for_each(|_| write_class(r, letters, out));
}

/// One random change: a byte changed, taken out, put in, or the end cut off.
pub fn damage(r: &mut Random, bytes: &mut Vec<u8>, from: &[u8]) {
    if bytes.is_empty() {
        return bytes.push(r.pick(from));
    }
    let at = r.below(bytes.len());
    match r.below(4) {
        0 => bytes[at] = r.pick(from),
        1 => {
            bytes.remove(at);
        }
        2 => bytes.insert(at, r.pick(from)),
        _ => bytes.truncate(at),
    }
}

/// A text that often lies in or near the language: bytes of the expression in their order, some repeated or left out.
pub fn text(r: &mut Random, expression: &[u8], most: usize) -> Vec<u8> {
    let mut out = vec![];
    for &b in expression {
        if out.len() >= most {
            break;
        }
        if (b"()|*\\".contains(&b) && !r.one_in(8)) || r.one_in(6) {
            continue;
        }
        for _ in 0..=r.below(2) {
            out.push(b);
        }
    }
    out.truncate(most);
    out
}

/// A text of about `most` bytes at most in the language of what is written, with now and then a byte that is not.
pub fn sample(r: &mut Random, written: &Written, most: usize, out: &mut Vec<u8>) {
    if out.len() >= most {
        return;
    }
    match written {
        _ if r.one_in(60) => out.push(r.word() as u8),
        Written::Byte(byte, _) => out.push(*byte),
        Written::OneOf(set, _) => {
            let members: Vec<u8> = all_bytes().into_iter().filter(|&byte| set[byte as usize]).collect();
            if !members.is_empty() {
                out.push(r.pick(&members));
            }
        }
        Written::InARow(parts) => parts.iter().for_each(|part| sample(r, &part.1, most, out)),
        Written::AnyOf(parts) => {
            let chosen = r.below(parts.len());
            sample(r, &parts[chosen].1, most, out);
        }
        Written::Star(operand, _) => (0..r.below(4)).for_each(|_| sample(r, operand, most, out)),
        Written::OneOrMore(operand, _) => (0..1 + r.below(3)).for_each(|_| sample(r, operand, most, out)),
        Written::NoneOrOne(operand, _) => (0..r.below(2)).for_each(|_| sample(r, operand, most, out)),
        Written::Between(fewest, times, operand, _) => {
            // One time in eight a part too many or too few.
            let [fewest, times] = if r.one_in(8) { [fewest.saturating_sub(1), times + 1] } else { [*fewest, *times] };
            (0..fewest + r.below(times - fewest + 1)).for_each(|_| sample(r, operand, most, out));
        }
    }
}

/// A text of about 40 bytes at most, in the language of what is written or near it, now and then with bytes before it.
pub fn short_sample(r: &mut Random, written: &Written) -> Vec<u8> {
    let most = [0, 0, 2][r.below(3)];
    let mut text = r.bytes(most, b"abc");
    sample(r, written, 40, &mut text);
    text
}

/// One random change to a list: to some byte, to a byte by a little, or the last records cut off.
pub fn damage_list(r: &mut Random, list: &mut Vec<u8>) {
    match r.below(3) {
        1 => list.truncate(r.below(list.len() / RECORD_SIZE + 1) * RECORD_SIZE),
        2 if !list.is_empty() => {
            let at = r.below(list.len());
            list[at] = list[at].wrapping_add(r.below(3) as u8);
        }
        _ => damage(r, list, &[0, 1, 2, 3, 4, 5, 6, 254, 255]),
    }
}

fn leaf(kind: Kind) -> Node {
    Node { kind, left: NONE, right: NONE, place: 0 }
}

/// Turns one in so many leaves of a tree into class leaves; answers how many.
pub fn put_classes(r: &mut Random, tree: &mut Tree, one_in: usize) -> usize {
    let mut count = 0;
    for node in tree {
        if matches!(node.kind, Kind::Character(_)) && r.one_in(one_in) {
            node.kind = Kind::Class(count);
            count += 1;
        }
    }
    count
}

/// Gives each node of a tree some place; one tree in eight gets one that no record may have.
pub fn put_places(r: &mut Random, tree: &mut Tree) {
    for node in &mut *tree {
        node.place = [r.below(MOST_PLACE + 1), MOST_PLACE, 0][r.below(3)];
    }
    if r.one_in(8) {
        let at = r.below(tree.len());
        tree[at].place = MOST_PLACE + 1 + r.below(3);
    }
}

/// The same list with other places in its records, all that a record may have.
pub fn with_places(r: &mut Random, list: &[u8]) -> Vec<u8> {
    let mut list = list.to_vec();
    for record in list.chunks_mut(RECORD_SIZE) {
        record[8..10].copy_from_slice(&(r.below(MOST_PLACE + 1) as u16).to_le_bytes());
    }
    list
}

/// Turns some leaves of a tree into leaves of the empty text.
pub fn put_empty_texts(r: &mut Random, tree: &mut Tree) {
    for node in tree {
        if matches!(node.kind, Kind::Character(_)) && r.one_in(3) {
            node.kind = Kind::Empty;
        }
    }
}

/// So many class records of any bytes, one time in four with a few bytes more or less.
pub fn class_records(r: &mut Random, count: usize) -> Vec<u8> {
    let length = CLASS_SIZE * count;
    let length = if r.one_in(4) { (length + r.below(34)).saturating_sub(r.below(34)) } else { length };
    (0..length).map(|_| (r.word() & r.word()) as u8).collect()
}

/// A star over the last node.
fn push_star(out: &mut Tree) {
    let left = out.len() - 1;
    out.push(Node { kind: Kind::Star, left, right: NONE, place: 0 });
}

/// A catenation or a union of a node and the last one.
fn push_joined(r: &mut Random, left: usize, out: &mut Tree) {
    let right = out.len() - 1;
    let kind = if r.one_in(3) { Kind::Union } else { Kind::Catenation };
    out.push(Node { kind, left, right, place: 0 });
}

/// A tree of exactly `nodes` nodes, added to `out`: with its operands as it comes (lean 0), most of it to the left (1) or
/// most of it to the right (2).
pub fn tree(r: &mut Random, nodes: usize, lean: usize, letters: &[u8], out: &mut Tree) {
    if nodes == 1 {
        return out.push(leaf(Kind::Character(r.pick(letters))));
    }
    if nodes == 2 || r.one_in(6) {
        tree(r, nodes - 1, lean, letters, out);
        return push_star(out);
    }
    let small = 1 + r.below((nodes - 2).min(9));
    let left_nodes = [1 + r.below(nodes - 2), nodes - 1 - small, small][lean];
    tree(r, left_nodes, lean, letters, out);
    let left = out.len() - 1;
    tree(r, nodes - 1 - left_nodes, lean, letters, out);
    push_joined(r, left, out);
}

/// The most nodes of a piece, and the fewest of one that lies below another.
pub const FULL_PIECE: usize = 15;
pub const SMALL_PIECE: usize = 8;

/// A tree of exactly `nodes` nodes in the fewest pieces, added to `out`: each but the root's is full. It has stars as they come,
/// or else one, at the top, where there would be one node too few without.
pub fn full_tree(r: &mut Random, nodes: usize, stars: bool, letters: &[u8], out: &mut Tree) {
    let below = (nodes - 1) / FULL_PIECE;
    full_pieces(r, nodes - FULL_PIECE * below, below, stars, letters, out);
}

/// A tree with `own` nodes in its root's piece, and `below` full pieces below that; of no node of its own, it is one of those
/// pieces with the others below it. A tree without stars has an odd number of nodes, and so have both sides of its root.
fn full_pieces(r: &mut Random, own: usize, below: usize, stars: bool, letters: &[u8], out: &mut Tree) {
    match (own, below) {
        (0, _) => return full_pieces(r, FULL_PIECE, below - 1, stars, letters, out),
        (1, 0) => return out.push(leaf(Kind::Character(r.pick(letters)))),
        _ => {}
    }
    let is_odd = |(own, below): (usize, usize)| (own + FULL_PIECE * below) % 2 == 1;
    let (left, right) = loop {
        let left = (r.below(own), r.below(below + 1));
        let right = (own - 1 - left.0, below - left.1);
        if stars || !is_odd((own, below)) || is_odd(left) && is_odd(right) {
            break (left, right);
        }
    };
    let by_star = if stars { left == (0, 0) || right == (0, 0) } else { !is_odd((own, below)) };
    if by_star {
        full_pieces(r, own - 1, below, stars, letters, out);
        return push_star(out);
    }
    full_pieces(r, left.0, left.1, stars, letters, out);
    let root_of_left = out.len() - 1;
    full_pieces(r, right.0, right.1, stars, letters, out);
    push_joined(r, root_of_left, out);
}

/// A tree of exactly `nodes` nodes, at least those of a small piece, in the most pieces, added to `out`: small pieces, each with
/// the one below it to the left or to the right, and stars above them for the nodes that are left.
pub fn sparse_tree(r: &mut Random, nodes: usize, letters: &[u8], out: &mut Tree) {
    if nodes % SMALL_PIECE > 0 {
        sparse_tree(r, nodes - 1, letters, out);
        return push_star(out);
    }
    if nodes == SMALL_PIECE {
        return tree(r, nodes, 0, letters, out);
    }
    let side = |r: &mut Random, has_pieces: bool, out: &mut Tree| match has_pieces {
        true => sparse_tree(r, nodes - SMALL_PIECE, letters, out),
        false => tree(r, SMALL_PIECE - 1, 0, letters, out),
    };
    let to_the_left = r.one_in(2);
    side(r, to_the_left, out);
    let left = out.len() - 1;
    side(r, !to_the_left, out);
    push_joined(r, left, out);
}

/// A character below so many stars.
pub fn chain(stars: usize) -> Tree {
    let star = |left| Node { kind: Kind::Star, left, right: NONE, place: 0 };
    std::iter::once(leaf(Kind::Character(b'a'))).chain((0..stars).map(star)).collect()
}

/// A text of the characters of a tree in their order, some left out.
pub fn leaves(r: &mut Random, tree: &Tree, most: usize) -> Vec<u8> {
    let characters = tree.iter().filter_map(|n| if let Kind::Character(c) = n.kind { Some(c) } else { None });
    characters.filter(|_| !r.one_in(6)).take(most).collect()
}
