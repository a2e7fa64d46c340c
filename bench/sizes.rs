//! How the cost of a byte grows: not with the text, and with the pieces of the expression as their number does.

use crate::expected::{self, Kind, Tree};
use crate::generate::Random;
use crate::{quickest, workloads, ROUNDS};
use foamlattice::slices;

/// A list, the number of its pieces, and a text in its language.
struct Size {
    list: Vec<u8>,
    pieces: usize,
    text: Vec<u8>,
}

impl Size {
    fn new(tree: &Tree, text: Vec<u8>) -> Size {
        Size { list: expected::records(tree), pieces: expected::pieces(tree).1, text }
    }
}

/// Words under a star, so many of them long, on 64 KB of these words.
fn words(long: usize) -> Size {
    let mut r = Random::new(1);
    let (expression, words) = workloads::word_expression(&mut r, long);
    let tree = expected::read(&expression).expect("a good expression");
    Size::new(&tree, workloads::word_text(&mut r, &words))
}

/// The tree of an expression with a union in the place of each catenation and with `a` and `b` by turns as its letters, on
/// 64 KB of these two: below a star every state that takes a byte is then marked after each byte.
fn busy(expression: &[u8]) -> Size {
    let mut tree = expected::read(expression).expect("a good expression");
    let mut letters = 0;
    for node in &mut tree {
        match &mut node.kind {
            Kind::Character(letter) => {
                *letter = b"ab"[letters % 2];
                letters += 1;
            }
            Kind::Catenation => node.kind = Kind::Union,
            Kind::Union | Kind::Star | Kind::Class(_) | Kind::Empty => {}
        }
    }
    let mut r = Random::new(4);
    Size::new(&tree, (0..65_536).map(|_| r.pick(b"ab")).collect())
}

fn busy_words(long: usize) -> Size {
    let (expression, _) = workloads::word_expression(&mut Random::new(1), long);
    busy(&expression)
}

/// So many groups of 14 nodes under a star: with the node before it each fills a piece, and the pieces stand one below the
/// other.
fn busy_groups(groups: usize) -> Size {
    busy(&[b"(", &b"(aaaaaaa)*".repeat(groups)[..], b")*"].concat())
}

/// Nanoseconds for each byte of the text, in one call for a match and in one for a search. Both have to take the whole text.
fn measure(list: &[u8], text: &[u8]) -> [f64; 2] {
    let whole = quickest(|| slices::is_full_match(list, &[], text).ok()?.then_some((1, 0, text.len())));
    let part = quickest(|| slices::find(list, &[], text).ok()?.map(|part| (1, part.start, part.end)));
    [whole, part].map(|(answers, time)| {
        assert_eq!(answers, Some((1, 0, text.len())), "the whole text is in the language");
        time.as_nanos() as f64 / text.len() as f64
    })
}

/// The same for each list and text, the quickest of the rounds.
fn measure_all(calls: &[(&[u8], &[u8])]) -> Vec<[f64; 2]> {
    let mut best = vec![[f64::MAX; 2]; calls.len()];
    for _ in 0..ROUNDS {
        for (best, (list, text)) in best.iter_mut().zip(calls) {
            let [whole, part] = measure(list, text);
            *best = [best[0].min(whole), best[1].min(part)];
        }
    }
    best
}

fn print_texts(size: &Size) {
    println!("the words of the table above, {} pieces, by the length of the text", size.pieces);
    println!("  {:<16}{:>12} {:>9} {:>13}", "KB", "match", "", "search");
    let lengths = [1, 2, 4, 8, 16, 32, 64];
    let calls = lengths.map(|kilobytes| (&size.list[..], &size.text[..1_024 * kilobytes]));
    for (kilobytes, [whole, part]) in lengths.into_iter().zip(measure_all(&calls)) {
        println!("  {kilobytes:<16}{whole:>12.1} {:>9} {part:>13.1}", "");
    }
}

fn print_pieces(name: &str, sizes: impl Iterator<Item = Size>) {
    println!("{name}");
    println!("  {:<16}{:>12} {:>9} {:>13} {:>9}", "pieces", "match", "a piece", "search", "a piece");
    let sizes: Vec<Size> = sizes.collect();
    let calls: Vec<_> = sizes.iter().map(|size| (&size.list[..], &size.text[..])).collect();
    for (size, [whole, part]) in sizes.iter().zip(measure_all(&calls)) {
        let [whole_piece, part_piece] = [whole, part].map(|time| time / size.pieces as f64);
        println!("  {:<16}{whole:>12.1} {whole_piece:>9.1} {part:>13.1} {part_piece:>9.1}", size.pieces);
    }
}

pub fn print() {
    println!("\nhow the cost of a byte grows: ns/byte, and that for each piece");
    let long = [0, 6, 13, 28, 58, 88, 110];
    print_texts(&words(110));
    print_pieces("words under a star, on 64 KB, by the number of pieces", long.into_iter().map(words));
    print_pieces("the same trees with all pieces busy", long.into_iter().map(busy_words));
    print_pieces("all pieces busy, one below the other", [1, 7, 15, 31, 63, 95, 101].into_iter().map(busy_groups));
}
