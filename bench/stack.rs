//! The stack that each call of the library needs: the most over expressions that are large or deep, and over short lists.

use crate::generate::{self, Random};
use crate::{expected, workloads, written};
use foamlattice::slices::{self, MOST_CLASS_BYTES, MOST_OUTPUT, MOST_RECORD_BYTES, MOST_TABLE, MOST_WORDS, RECORD_SIZE};
use std::ffi::c_void;

extern "C" {
    fn stack_used(call: unsafe extern "C" fn(*mut c_void), argument: *mut c_void) -> usize;
}

unsafe extern "C" fn run<F: FnMut()>(call: *mut c_void) {
    (*call.cast::<F>())()
}

/// The stack of a call, without what the thread itself takes.
fn used<F: FnMut()>(mut call: F) -> usize {
    // SAFETY: `run::<F>` is handed the closure that it expects, and the thread has ended when `stack_used` returns.
    let bytes = unsafe { stack_used(run::<F>, (&mut call as *mut F).cast()) };
    bytes - idle()
}

fn idle() -> usize {
    extern "C" fn nothing(_: *mut c_void) {}
    // SAFETY: nothing is done with the argument.
    unsafe { stack_used(nothing, std::ptr::null_mut()) }
}

fn expressions() -> Vec<Vec<u8>> {
    let deep = ["(".repeat(32), "a".into(), ")*".repeat(32)].concat().into_bytes();
    let (words, _) = workloads::word_expression(&mut Random::new(1), 110);
    vec![workloads::date_expression(), words, vec![b'a'; 897], vec![b'a'; 1_025], deep]
}

/// Expressions of the second syntax: those of the first, which have no dot and no class, and some with many classes.
fn expressions_with_classes() -> Vec<Vec<u8>> {
    let deep = ["(".repeat(32), "[^a-z]".into(), ")*".repeat(32)].concat().into_bytes();
    let all = [vec![b'.'; 897], b"[a]".repeat(341), b"[a-zA-Z0-9_.:,;+=/%&]".repeat(48), deep];
    expressions().into_iter().chain(all).collect()
}

/// The lists of the expressions with their classes, and the list with the most pieces below one another.
fn lists() -> Vec<(Vec<u8>, Vec<u8>)> {
    let list = |e: &Vec<u8>| written::read(e).ok().map(|read| read.laid_out());
    let chain = (expected::records(&generate::chain(1_919)), vec![]);
    let read =
        expressions_with_classes().iter().filter_map(list).map(|l| (expected::records(&l.tree), l.class_records())).collect();
    [read, vec![chain]].concat()
}

/// How many records a short list has at most.
const SHORT: usize = 120;

/// Short lists: a line of characters, branches, stars, classes and nested groups; and a list of pieces below one another.
fn short_lists() -> Vec<(Vec<u8>, Vec<u8>)> {
    let nested = ["(".repeat(30), "[^a-z]".into(), "b)*".repeat(30)].concat().into_bytes();
    let branches = [&b"a|".repeat(59)[..], b"b"].concat();
    let written = [b"ab".to_vec(), vec![b'a'; 60], branches, b"(a|b)*c".repeat(13), b"[a-c]x*".repeat(20), nested];
    let list = |e: &Vec<u8>| written::read(e).ok().map(|read| read.laid_out());
    let read = written.iter().filter_map(list).map(|l| (expected::records(&l.tree), l.class_records()));
    let chain = (expected::records(&generate::chain(SHORT - 1)), vec![]);
    read.chain([chain]).filter(|(list, _)| list.len() <= RECORD_SIZE * SHORT).collect()
}

fn ignore<T>(_: T) {}

/// How many bytes a record of the old layout has: the first of today's.
const OLD_RECORD_SIZE: usize = 8;

/// A list in the layout that had no places.
fn old(list: &[u8]) -> Vec<u8> {
    list.chunks(RECORD_SIZE).flat_map(|record| &record[..OLD_RECORD_SIZE]).copied().collect()
}

const TEXT: &[u8] = b"02-29 and a longer text aaaaaaaaaaaaaaaa";

/// The most that each call over a list needs.
fn of_lists(lists: &[(Vec<u8>, Vec<u8>)]) -> [(&'static str, usize); 10] {
    let mut words = vec![0; MOST_WORDS];
    let mut records = vec![0; MOST_RECORD_BYTES];
    let mut answers = vec![0; TEXT.len()];
    let mut table = vec![0; MOST_TABLE];
    let mut room = vec![0; 1 << 20];
    let widens = lists.iter().map(|(list, _)| old(list)).map(|old| used(|| ignore(slices::widen(&old, &mut records)))).max();
    let most = |call: &mut dyn FnMut(&[u8], &[u8])| lists.iter().map(|(l, c)| used(|| call(l, c))).max().unwrap_or(0);
    [
        ("match", most(&mut |list, classes| ignore(slices::is_full_match(list, classes, TEXT)))),
        ("search", most(&mut |list, classes| ignore(slices::find(list, classes, TEXT)))),
        ("start", most(&mut |list, classes| ignore(slices::start(list, classes, &mut words)))),
        ("step", most(&mut |list, classes| ignore(slices::step(list, classes, &mut words, b'a')))),
        (
            "steps",
            most(&mut |list, classes| {
                ignore((slices::start(list, classes, &mut words), slices::steps(list, classes, &mut words, TEXT)))
            }),
        ),
        ("lines", most(&mut |list, classes| ignore(slices::lines(list, classes, TEXT, &mut answers)))),
        ("table", most(&mut |list, classes| ignore(slices::table(list, classes, &mut table, &mut room)))),
        ("match by table", used(|| ignore(slices::is_full_match_by_table(&table, TEXT)))),
        ("lines by table", used(|| ignore(slices::lines_by_table(&table, TEXT, &mut answers)))),
        ("widen", widens.unwrap_or(0)),
    ]
}

fn print_rows(name: &str, rows: &[(&str, usize)]) {
    println!("\nbytes of stack that a call needs at most, over {name}");
    for (name, bytes) in rows {
        println!("  {name:<16}{bytes:>12}");
    }
}

pub fn print() {
    let mut buffer = vec![0; MOST_RECORD_BYTES];
    let mut class_buffer = vec![0; MOST_CLASS_BYTES];
    let reads = expressions().iter().map(|e| used(|| ignore(slices::read(e, &mut buffer)))).max();
    let mut second = |e: &[u8]| used(|| ignore(slices::read2(e, &mut buffer, &mut class_buffer)));
    let second_reads = expressions_with_classes().iter().map(|e| second(e)).max();
    let checks = expressions().iter().map(|e| used(|| ignore(slices::check(e)))).max();
    let second_checks = expressions_with_classes().iter().map(|e| used(|| ignore(slices::check2(e)))).max();
    let mut output = vec![0; MOST_OUTPUT];
    let mut pick = |e: &[u8], texts: &[u8]| {
        let input = [e, b"\n", texts].concat();
        used(|| ignore(slices::pick(&input, &mut output)))
    };
    let picks = expressions().iter().map(|e| pick(e, TEXT)).max();
    let long_texts = [TEXT, b"\n"].concat().repeat(1_000);
    let long_picks = expressions().iter().map(|e| pick(e, &long_texts)).max();
    let reading = [
        ("read", reads),
        ("read2", second_reads),
        ("check", checks),
        ("check2", second_checks),
        ("pick", picks),
        ("pick, long texts", long_picks),
    ]
    .map(|(name, most)| (name, most.unwrap_or(0)));
    print_rows("large and deep lists", &[&reading[..], &of_lists(&lists())[..]].concat());
    print_rows("lists of up to 120 records", &of_lists(&short_lists()));
}
