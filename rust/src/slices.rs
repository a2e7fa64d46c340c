//! The calls of the library on slices of the caller's, for those who keep the buffers themselves: nothing is allocated.
//!
//! [`Expression`](crate::Expression) and [`Marks`](crate::Marks) stand on these, and are what most programs want. Each call checks
//! all that is lent to it, so none of them can be misused; a call that is refused changes nothing.

use crate::ffi::{self, Answer};
use crate::refusal::Refusal;
use std::ops::Range;

/// Bytes of a record.
pub const RECORD_SIZE: usize = 12;

/// Bytes of a record in the layout that had no places.
pub const OLD_RECORD_SIZE: usize = 8;

/// Bytes of a class record.
pub const CLASS_SIZE: usize = 32;

/// The longest list that a call can write or take: 15 nodes for each of 128 pieces.
pub const MOST_RECORD_BYTES: usize = 15 * 128 * RECORD_SIZE;

/// The class records of the longest list: half of its nodes are leaves.
pub const MOST_CLASS_BYTES: usize = 15 * 128 / 2 * CLASS_SIZE;

/// One word for each piece that a list can have.
pub const MOST_WORDS: usize = 128;

/// The most entries of a table of steps.
pub const MOST_TABLE: usize = 65_536;

/// The longest expression, in bytes.
pub const MOST_EXPRESSION: usize = 1_024;

/// The longest text that [`is_full_match`] and [`find`] take, in bytes.
pub const MOST_TEXT: usize = 65_536;

/// The longest input that [`pick`] has an answer for, in bytes: for more it prints `input too long`.
pub const MOST_INPUT: usize = 65_536;

/// The shortest buffer that [`pick`] takes: no output is longer than this.
pub const MOST_OUTPUT: usize = 1_048_575;

/// How many records an expression has, how many pieces its tree is cut into, and how many class records it has: none in the
/// first syntax.
#[derive(Clone, Copy, Debug, PartialEq, Eq, Hash)]
pub struct Counts {
    /// Records, one for each node of its tree.
    pub records: usize,
    /// Pieces that its tree is cut into.
    pub pieces: usize,
    /// Class records.
    pub classes: usize,
}

/// What a start or a step tells.
#[derive(Clone, Copy, Debug, PartialEq, Eq, Hash)]
pub struct Told {
    /// Whether the root's accepting state is marked: after a start and a step for each byte of a text, whether that text is in
    /// the language.
    pub accepting: bool,
    /// Whether no state is marked: then no later byte marks one, so that a caller may stop with the answer no.
    pub nothing_left: bool,
}

/// How many lines a text has, and how many of them are in the language.
#[derive(Clone, Copy, Debug, PartialEq, Eq, Hash)]
pub struct LineCounts {
    /// All lines.
    pub lines: usize,
    /// Those in the language.
    pub yes: usize,
}

/// How many states a table of steps has, and how many entries.
#[derive(Clone, Copy, Debug, PartialEq, Eq, Hash)]
pub struct TableCounts {
    /// Its states; that in which nothing is left is one of them.
    pub states: usize,
    /// Its entries.
    pub entries: usize,
}

fn line_counts(answer: Answer) -> LineCounts {
    LineCounts { lines: answer.x, yes: answer.y }
}

fn counts(answer: Answer) -> Counts {
    Counts { records: answer.x, pieces: answer.y % 256, classes: answer.y / 256 }
}

fn told(answer: Answer) -> Told {
    Told { accepting: answer.flag, nothing_left: answer.x == 1 }
}

/// Checks an expression of the first syntax: its counts, or every refusal that [`read`] has but 9. Nothing is lent.
pub fn check(expression: &[u8]) -> Result<Counts, Refusal> {
    // SAFETY: the slice is valid for its length for the call.
    let packed = unsafe { ffi::foam_check(expression.as_ptr(), expression.len()) };
    Answer::of(packed).map(counts)
}

/// Checks an expression of the second syntax: its counts, those of copies that `+` and counts make included, or every refusal
/// that [`read2`] has but 9 and 15.
pub fn check2(expression: &[u8]) -> Result<Counts, Refusal> {
    // SAFETY: the slice is valid for its length for the call.
    let packed = unsafe { ffi::foam_check2(expression.as_ptr(), expression.len()) };
    Answer::of(packed).map(counts)
}

/// Reads an expression of the first syntax into `records`.
pub fn read(expression: &[u8], records: &mut [u8]) -> Result<Counts, Refusal> {
    // SAFETY: both slices are valid for their lengths for the call, and `records` is lent to it alone.
    let packed = unsafe { ffi::foam_read(expression.as_ptr(), expression.len(), records.as_mut_ptr(), records.len()) };
    Answer::of(packed).map(counts)
}

/// Reads an expression of the second syntax into `records` and `classes`. Beside those of [`read`] it has the refusals 14 (a class
/// that is not of the form), 15 (`classes` is too short), 16 (a count that is not of the form) and 17 (more than 2,047 nodes).
pub fn read2(expression: &[u8], records: &mut [u8], classes: &mut [u8]) -> Result<Counts, Refusal> {
    let (expression, length) = (expression.as_ptr(), expression.len());
    // SAFETY: the slices are valid for their lengths for the call, and the last two are lent to it alone.
    let packed =
        unsafe { ffi::foam_read2(expression, length, records.as_mut_ptr(), records.len(), classes.as_mut_ptr(), classes.len()) };
    Answer::of(packed).map(counts)
}

/// Whether the whole text is in the language of the list with these class records.
pub fn is_full_match(records: &[u8], classes: &[u8], text: &[u8]) -> Result<bool, Refusal> {
    let (list, length) = (records.as_ptr(), records.len());
    // SAFETY: the slices are valid for their lengths for the call.
    let packed = unsafe { ffi::foam_match(list, length, classes.as_ptr(), classes.len(), text.as_ptr(), text.len()) };
    Answer::of(packed).map(|answer| answer.flag)
}

/// The part of the text that starts earliest and then ends furthest, if any part is in the language.
pub fn find(records: &[u8], classes: &[u8], text: &[u8]) -> Result<Option<Range<usize>>, Refusal> {
    let (list, length) = (records.as_ptr(), records.len());
    // SAFETY: the slices are valid for their lengths for the call.
    let packed = unsafe { ffi::foam_search(list, length, classes.as_ptr(), classes.len(), text.as_ptr(), text.len()) };
    Answer::of(packed).map(|answer| answer.flag.then_some(answer.x..answer.y))
}

/// Writes the marks to start with into `words`, one for each piece. The root's accepting state is marked where the empty text
/// is in the language, and something is always left. Words past the pieces are neither read nor written.
pub fn start(records: &[u8], classes: &[u8], words: &mut [u64]) -> Result<Told, Refusal> {
    let (list, length) = (records.as_ptr(), records.len());
    // SAFETY: the slices are valid for their lengths for the call, and `words` is lent to it alone.
    let packed = unsafe { ffi::foam_start(list, length, classes.as_ptr(), classes.len(), words.as_mut_ptr(), words.len()) };
    Answer::of(packed).map(told)
}

/// Moves the marks in `words` along one byte. Any marks are taken that are not refused; only after a [`start`] and a step for each
/// byte of a text does the answer say whether the text is in the language. Words past the pieces are neither read nor written.
pub fn step(records: &[u8], classes: &[u8], words: &mut [u64], byte: u8) -> Result<Told, Refusal> {
    let (list, length) = (records.as_ptr(), records.len());
    // SAFETY: the slices are valid for their lengths for the call, and `words` is lent to it alone.
    let packed = unsafe { ffi::foam_step(list, length, classes.as_ptr(), classes.len(), words.as_mut_ptr(), words.len(), byte) };
    Answer::of(packed).map(told)
}

/// Moves the marks in `words` along these bytes, one after the other: the answer and the words are those of a [`step`] for each. With
/// no bytes it tells of the marks as they are.
pub fn steps(records: &[u8], classes: &[u8], words: &mut [u64], bytes: &[u8]) -> Result<Told, Refusal> {
    let (list, length, words_length) = (records.as_ptr(), records.len(), words.len());
    let (classes, classes_length, words) = (classes.as_ptr(), classes.len(), words.as_mut_ptr());
    // SAFETY: the slices are valid for their lengths for the call, and `words` is lent to it alone.
    let packed =
        unsafe { ffi::foam_steps(list, length, classes, classes_length, words, words_length, bytes.as_ptr(), bytes.len()) };
    Answer::of(packed).map(told)
}

/// Writes one byte for each line of the text to the front of `answers`: 1 where the line is in the language, else 0. A line ends at
/// byte 10, or at 13 and 10; bytes after the last end are a line too. It is refused by 10, 15 and 11 as [`is_full_match`], then by 9
/// where there are more lines than `answers` has bytes.
pub fn lines(records: &[u8], classes: &[u8], text: &[u8], answers: &mut [u8]) -> Result<LineCounts, Refusal> {
    let (list, length, answers_length) = (records.as_ptr(), records.len(), answers.len());
    let (classes, classes_length, answers) = (classes.as_ptr(), classes.len(), answers.as_mut_ptr());
    // SAFETY: the slices are valid for their lengths for the call, and `answers` is lent to it alone.
    let packed =
        unsafe { ffi::foam_lines(list, length, classes, classes_length, text.as_ptr(), text.len(), answers, answers_length) };
    Answer::of(packed).map(line_counts)
}

/// Makes the table of steps of a list, at the front of `table`, in the room lent. `None` where it does not fit: it would have more
/// than [`MOST_TABLE`] entries, or `table` or `room` is too short; then no entry is changed. The words of `room` are 0 afterwards. It
/// is refused by 10 and 15 as [`is_full_match`].
pub fn table(records: &[u8], classes: &[u8], table: &mut [u16], room: &mut [u64]) -> Result<Option<TableCounts>, Refusal> {
    let (list, length, table_length) = (records.as_ptr(), records.len(), table.len());
    let (classes, classes_length, table) = (classes.as_ptr(), classes.len(), table.as_mut_ptr());
    // SAFETY: the slices are valid for their lengths for the call, and the last two are lent to it alone.
    let packed =
        unsafe { ffi::foam_table(list, length, classes, classes_length, table, table_length, room.as_mut_ptr(), room.len()) };
    Answer::of(packed).map(|answer| answer.flag.then_some(TableCounts { states: answer.x, entries: answer.y }))
}

/// Whether the table accepts the whole text. Any slice is a table; one of fewer than 257 entries is refused by 28.
pub fn is_full_match_by_table(table: &[u16], text: &[u8]) -> Result<bool, Refusal> {
    // SAFETY: the slices are valid for their lengths for the call.
    let packed = unsafe { ffi::foam_match_table(table.as_ptr(), table.len(), text.as_ptr(), text.len()) };
    Answer::of(packed).map(|answer| answer.flag)
}

/// As [`lines`], by a table of steps. It is refused by 28, 11 and 9.
pub fn lines_by_table(table: &[u16], text: &[u8], answers: &mut [u8]) -> Result<LineCounts, Refusal> {
    let (entries, length) = (table.as_ptr(), table.len());
    // SAFETY: the slices are valid for their lengths for the call, and `answers` is lent to it alone.
    let packed =
        unsafe { ffi::foam_lines_table(entries, length, text.as_ptr(), text.len(), answers.as_mut_ptr(), answers.len()) };
    Answer::of(packed).map(line_counts)
}

/// Turns a good list of the layout that had no places, of 8 bytes a record, into one of today with the place 0 in every
/// record, at the front of `records`, and tells how many records it has. It is refused by 10 where the old list is not good, then
/// by 9 where `records` has fewer than 12 bytes for each of its records.
pub fn widen(old: &[u8], records: &mut [u8]) -> Result<usize, Refusal> {
    // SAFETY: both slices are valid for their lengths for the call, and `records` is lent to it alone.
    let packed = unsafe { ffi::foam_widen(old.as_ptr(), old.len(), records.as_mut_ptr(), records.len()) };
    Answer::of(packed).map(|answer| answer.x)
}

/// Which later lines of an input match its first one: the lines that the program `pick` prints, at the front of `output`. `None`,
/// with no byte changed, where `output` is shorter than [`MOST_OUTPUT`].
pub fn pick<'o>(input: &[u8], output: &'o mut [u8]) -> Option<&'o [u8]> {
    // SAFETY: both slices are valid for their lengths for the call, and `output` is lent to it alone.
    let packed = unsafe { ffi::foam_pick(input.as_ptr(), input.len(), output.as_mut_ptr(), output.len()) };
    let answer = Answer::of(packed).ok()?;
    answer.flag.then_some(&output[..answer.x])
}
