//! Compares the proved library, through its C interface, with an independent implementation: on all short expressions, all
//! bytes, all lists with one byte changed, and on inputs from a fixed seed, the small ones first. Prints how many inputs of
//! each kind agreed; the first difference ends the run with status 1, and so do fewer inputs than 2,890,000.

mod calls;
mod classes;
mod desk;
mod expected;
mod generate;
mod lines;
mod pick;
mod places;
mod program;
mod signs;
mod sizes;
mod tables;
mod written;

use calls::List;
use expected::RECORD_SIZE;
use foamlattice::slices::{MOST_RECORD_BYTES, MOST_WORDS};
use generate::Random;
use std::sync::atomic::{AtomicUsize, Ordering::Relaxed};

const SIGNS: &[u8] = b"ab()|*\\";

/// A run that compares fewer inputs fails: something was left out.
const FEWEST_INPUTS: usize = 2_890_000;

/// The bytes that an expression's records need; some number for one that is refused.
fn need(e: &[u8]) -> usize {
    expected::read(e).map_or(RECORD_SIZE, |tree| RECORD_SIZE * tree.len())
}

/// A size that grows with the rounds, so that the first difference is met on a small input.
fn growing(r: &mut Random, most: usize, round: usize, rounds: usize) -> usize {
    1 + r.below(1 + most * round / rounds)
}

/// All rows of at most so many of these bytes, the short ones first.
fn all_rows(from: &[u8], most: u32) -> Vec<Vec<u8>> {
    let row = |length: u32, number: usize| (0..length).map(|i| from[number / from.len().pow(i) % from.len()]).collect();
    (0..=most).flat_map(|length| (0..from.len().pow(length)).map(move |number| row(length, number))).collect()
}

/// All expressions of at most 6 of the signs, each with a buffer that is just long enough and one that is a byte too short;
/// the good ones are tried on a few texts.
fn short_expressions(_: &mut Random) -> usize {
    let all = all_rows(SIGNS, 6);
    for e in &all {
        let need = need(e);
        calls::read(e, need - 1);
        if let Some(list) = calls::read(e, need) {
            for text in [&b""[..], b"a", b"b", b"ab", b"bab", b"aabb", b"(*"] {
                list.compare_text(text);
            }
        }
    }
    all.len()
}

/// Expressions over the signs or over all bytes, well-formed or damaged, in buffers of several lengths.
fn random_expressions(r: &mut Random) -> usize {
    let rounds = 60_000;
    let every = generate::all_bytes();
    for round in 0..rounds {
        let size = growing(r, 60, round, rounds);
        let mut e = vec![];
        match round % 4 {
            0 => e = r.bytes(size, SIGNS),
            1 => e = r.bytes(size, &every),
            _ => generate::expression(r, size, 6, b"abc\\*(\x00\n\xff", &mut e),
        }
        if round % 4 == 3 {
            generate::damage(r, &mut e, SIGNS);
        }
        let need = need(&e);
        calls::read(&e, [0, need - 1, need, need + 9, MOST_RECORD_BYTES][r.below(5)]);
    }
    rounds
}

/// Long expressions, round the limits of bytes, groups and pieces.
fn long_expressions(r: &mut Random) -> usize {
    let rounds = 3_000;
    for round in 0..rounds {
        let mut e = vec![];
        match round % 5 {
            0 => e = vec![b'a'; [895 + r.below(5), 1_022 + r.below(5)][r.below(2)]],
            1 => {
                let groups = 29 + r.below(6);
                e.extend(vec![b'('; groups]);
                e.push(b'x');
                e.extend(vec![b')'; groups - r.below(2)]);
            }
            2 => {
                e.push(b'a');
                e.extend(vec![b'*'; r.below(1_030)]);
            }
            _ => {
                let size = 200 + r.below(1_000);
                generate::expression(r, size, 20, b"abcd", &mut e);
            }
        }
        let need = need(&e);
        calls::read(&e, [0, need - 1][r.below(2)]);
        if let Some(list) = calls::read(&e, need) {
            list.compare_text(&generate::text(r, &e, 60));
        }
    }
    rounds
}

/// Each byte as an expression, and a child piece between two of each byte, on each byte as a text.
fn all_bytes(_: &mut Random) -> usize {
    let every = generate::all_bytes();
    for &b in &every {
        let mut e = vec![];
        generate::write_character(b, &mut e);
        let list = calls::read(&e, RECORD_SIZE).expect("one character is good");
        let start = list.compare_start(1);
        for &c in &every {
            list.compare_text(&[c]);
            list.compare_step(&start, c);
        }
        let middle = e.repeat(9);
        let list = calls::read(&[&e[..], b"((", &middle, b")*|", &middle, b")"].concat(), MOST_RECORD_BYTES).expect("good");
        assert!(list.pieces() > 2);
        let all = list.all_marked();
        for &c in &every {
            list.compare_step(&all, c);
        }
    }
    every.len() * every.len()
}

/// Expressions with a text that lies in the language, or near it, or anywhere.
fn matches(r: &mut Random) -> usize {
    let rounds = 60_000;
    let every = generate::all_bytes();
    for round in 0..rounds {
        let letters: &[u8] = if round % 5 == 0 { &every } else { b"ab" };
        let size = growing(r, if round % 7 == 0 { 200 } else { 30 }, round, rounds);
        let mut e = vec![];
        generate::expression(r, size, 8, letters, &mut e);
        if let Some(list) = calls::read(&e, MOST_RECORD_BYTES) {
            let text = if r.one_in(2) { generate::text(r, &e, 40) } else { r.bytes(12, letters) };
            list.compare_text(&text);
        }
    }
    rounds
}

/// Words that hold a random set of states and one word more; one time in three with a bit changed.
fn random_words(r: &mut Random, list: &List) -> Vec<u64> {
    let marks: Vec<bool> = (0..2 * list.bytes.len() / RECORD_SIZE).map(|_| r.one_in(3)).collect();
    let mut words = list.automaton().words(&marks);
    words.push(r.word());
    if r.one_in(3) {
        let piece = r.below(words.len());
        words[piece] ^= 1 << r.below(64);
    }
    words
}

/// A start and some steps, from the words left by the last one or from others, sometimes with a word too few.
fn steps(r: &mut Random, list: &List) {
    let mut words = list.compare_start(list.pieces() - r.below(2) + r.below(3));
    for _ in 0..4 {
        if r.one_in(2) {
            words = random_words(r, list);
        }
        if r.one_in(6) {
            words.truncate(list.pieces() - 1);
        }
        words = list.compare_step(&words, r.pick(b"abcd"));
    }
}

fn runs_of_steps(r: &mut Random) -> usize {
    let rounds = 20_000;
    for round in 0..rounds {
        let size = growing(r, if round % 5 == 0 { 300 } else { 60 }, round, rounds);
        let mut e = vec![];
        generate::expression(r, size, 8, b"abc", &mut e);
        if let Some(list) = calls::read(&e, MOST_RECORD_BYTES) {
            steps(r, &list);
        }
    }
    rounds
}

/// Trees that need not come from an expression: any shape, any depth, up to some nodes more than a good list can have.
fn trees(r: &mut Random) -> usize {
    let rounds = 4_000;
    for round in 0..rounds {
        let nodes = growing(r, if round % 10 == 0 { 2_000 } else { 200 }, round, rounds);
        let mut tree = vec![];
        let lean = r.below(3);
        generate::tree(r, nodes, lean, b"abc", &mut tree);
        generate::put_places(r, &mut tree);
        let list = List::new(expected::records(&tree), vec![]);
        let text = generate::leaves(r, &tree, 60);
        list.compare_text(&text);
        if list.pieces() > 0 {
            steps(r, &list);
        }
    }
    rounds
}

/// A list in all four calls that take one: matched and searched, started and stepped from the words of nothing.
fn compare_list(list: &List, text: &[u8]) {
    list.compare_text(text);
    list.compare_start(MOST_WORDS);
    list.compare_step(&[0; MOST_WORDS], b'a');
}

/// Lists of one, two and three pieces with each byte changed to each other value.
fn changed_lists(_: &mut Random) -> usize {
    let mut count = 0;
    for e in [&b"a*b"[..], b"(abcd)*(efgh)*", b"(abcdefgh(ijklmnop))*"] {
        let list = calls::read(e, MOST_RECORD_BYTES).expect("good");
        for at in 0..list.bytes.len() {
            for value in generate::all_bytes() {
                let mut bytes = list.bytes.clone();
                bytes[at] = value;
                compare_list(&List::new(bytes, vec![]), b"ab");
                count += 1;
            }
        }
    }
    count
}

/// Lists with records or bytes changed, taken out, put in or cut off; words too few and texts too long beside them.
fn damaged_lists(r: &mut Random) -> usize {
    let rounds = 20_000;
    let too_long = vec![b'a'; 65_537];
    for round in 0..rounds {
        let size = growing(r, 60, round, rounds);
        let mut e = vec![];
        generate::expression(r, size, 6, b"ab", &mut e);
        let Some(list) = calls::read(&e, MOST_RECORD_BYTES) else { continue };
        let mut bytes = list.bytes;
        for _ in 0..=r.below(2) {
            generate::damage_list(r, &mut bytes);
        }
        let list = List::new(bytes, vec![]);
        compare_list(&list, &generate::text(r, &e, 10));
        if r.one_in(20) {
            list.compare_text(&too_long);
            list.compare_start(0);
            list.compare_step(&[], b'a');
        }
    }
    rounds
}

/// Lists that no expression of 1,024 bytes gives: chains of stars up to the longest good list and past it.
fn chains_of_stars(r: &mut Random) -> usize {
    let lengths = [0, 13, 14, 15, 29, 30, 1_000, 1_918, 1_919, 1_920, 1_921, 2_500];
    for stars in lengths {
        let list = List::new(expected::records(&generate::chain(stars)), vec![]);
        for text in [&b""[..], b"a", b"aaab", b"baa"] {
            compare_list(&list, text);
        }
        if list.pieces() > 0 {
            steps(r, &list);
        }
    }
    lengths.len()
}

/// Texts past 127 bytes, where another method is compared with, and round the limit of 65,536 bytes. In the long ones the
/// part found starts at 0, since a search may take a time that grows as the square of the length.
fn long_texts(_: &mut Random) -> usize {
    let lengths = [128, 1_000, 65_535, 65_536, 65_537, 70_000];
    for length in lengths {
        let mut text = vec![b'a'; length];
        text[length - 1] = b'c';
        for e in [&b"(a|b)*c"[..], b"(a*b*)*", b"c", b"c*(a|c)c"] {
            if length <= 1_000 || length > 65_536 || e[0] == b'(' {
                calls::read(e, MOST_RECORD_BYTES).expect("good").compare_text(&text);
            }
        }
    }
    lengths.len()
}

/// Compares inputs of one kind, and says how many.
type Compare = fn(&mut Random) -> usize;

/// Compares all kinds, as many at a time as there are processors, each from a seed of its own. How many inputs there were.
fn compare_all(kinds: &[(&str, Compare)]) -> usize {
    let (next, total) = (AtomicUsize::new(0), AtomicUsize::new(0));
    let work = || {
        while let Some((seed, (what, compare))) = kinds.iter().enumerate().nth(next.fetch_add(1, Relaxed)) {
            let count = compare(&mut Random::new(0x2902_2028_0301_0366 + seed as u64));
            println!("{count} {what} agree");
            total.fetch_add(count, Relaxed);
        }
    };
    let workers = std::thread::available_parallelism().map_or(1, |count| count.get());
    std::thread::scope(|scope| (0..workers).for_each(|_| drop(scope.spawn(work))));
    total.into_inner()
}

fn main() {
    let kinds: [(&str, Compare); 62] = [
        ("short expressions", short_expressions),
        ("pairs of bytes", all_bytes),
        ("random expressions", random_expressions),
        ("matches and searches", matches),
        ("runs of starts and steps", runs_of_steps),
        ("lines of short texts", lines::short_texts),
        ("lines of random texts", lines::random_lines),
        ("lines of long texts", lines::long_texts),
        ("lines by tables", lines::by_tables),
        ("steps along rows of bytes", lines::steps_along),
        ("lists with one byte changed", changed_lists),
        ("damaged lists", damaged_lists),
        ("dates", |_| desk::compare()),
        ("trees", trees),
        ("chains of stars", chains_of_stars),
        ("long expressions", long_expressions),
        ("long texts", long_texts),
        ("class bodies", classes::class_bodies),
        ("short expressions with classes", classes::short_expressions),
        ("pairs of an item and a byte", classes::all_items),
        ("ranges", classes::all_ranges),
        ("random expressions with classes", classes::random_expressions),
        ("matches and searches with classes", classes::matches),
        ("runs of starts and steps with classes", classes::runs_of_steps),
        ("lists with classes and one byte changed", classes::changed_lists),
        ("damaged lists with classes", classes::damaged_lists),
        ("trees with classes", classes::trees),
        ("lengths of class buffers", classes::lengths_of_classes),
        ("long expressions with classes", classes::long_expressions),
        ("counts of 0 to 17 and 0 to 17, with texts", signs::all_counts),
        ("spellings of counts", signs::spellings_of_counts),
        ("numbers of counts", signs::numbers_of_counts),
        ("short expressions with signs", signs::short_expressions),
        ("rows of signs and counts", signs::rows_of_signs),
        ("counts of counts", signs::counts_of_counts),
        ("numbers of nodes", signs::sizes),
        ("largest trees", signs::largest),
        ("explosions", signs::explosions),
        ("random expressions with signs", signs::random_expressions),
        ("matches and searches with signs", signs::matches),
        ("runs of starts and steps with signs", signs::runs_of_steps),
        ("lists with empty texts and one byte changed", signs::changed_lists),
        ("damaged lists with empty texts", signs::damaged_lists),
        ("trees with empty texts", signs::trees),
        ("signs in the first syntax", signs::first_syntax),
        ("lists with other places", places::other_places),
        ("places and last bytes changed", places::changed_places),
        ("old lists of expressions and trees", places::old_lists),
        ("old lists with one byte changed", places::changed_old_lists),
        ("damaged old lists", places::damaged_old_lists),
        ("sizes of tables", tables::sizes),
        ("tables that grow", tables::growing),
        ("tables of any numbers", tables::any_tables),
        ("damaged tables", tables::damaged_tables),
        ("runs of pick", pick::compare_runs),
        ("runs of pick in parts", pick::compare_runs_in_parts),
        ("calls of pick", pick::compare_calls),
        ("lists of many classes", sizes::many_classes),
        ("classes that take a byte among many", sizes::one_of_many_classes),
        ("numbers of records", sizes::numbers_of_records),
        ("long texts on lists of one piece", sizes::long_texts),
        ("searches from many starts", sizes::many_starts),
    ];
    let total = compare_all(&kinds);
    if total < FEWEST_INPUTS {
        println!("only {total} inputs compared, fewer than {FEWEST_INPUTS}");
        std::process::exit(1);
    }
    println!("{total} inputs compared, no difference");
}
