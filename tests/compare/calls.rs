//! One call of the library, held against what is expected: its answer, and every byte and word that was lent to it.

use crate::expected::{self, Automaton, Tree, CLASS_SIZE, RECORD_SIZE};
use crate::lines;
use crate::tables::{self, Table, HEADING};
use crate::written::{self, LaidOut, Written, MOST_NODES};
use foamlattice::slices::MOST_OUTPUT;
use std::cell::OnceCell;
use std::fmt::Debug;

// SAFETY of every call below: each pointer and length is that of one whole slice, and what is written to is lent alone.
unsafe extern "C" {
    fn foam_read(expression: *const u8, expression_length: usize, records: *mut u8, records_length: usize) -> u64;
    fn foam_check(expression: *const u8, expression_length: usize) -> u64;
    fn foam_check2(expression: *const u8, expression_length: usize) -> u64;
    fn foam_read2(
        expression: *const u8,
        expression_length: usize,
        records: *mut u8,
        records_length: usize,
        classes: *mut u8,
        classes_length: usize,
    ) -> u64;
    fn foam_match(
        records: *const u8,
        records_length: usize,
        classes: *const u8,
        classes_length: usize,
        text: *const u8,
        text_length: usize,
    ) -> u64;
    fn foam_search(
        records: *const u8,
        records_length: usize,
        classes: *const u8,
        classes_length: usize,
        text: *const u8,
        text_length: usize,
    ) -> u64;
    fn foam_start(
        records: *const u8,
        records_length: usize,
        classes: *const u8,
        classes_length: usize,
        words: *mut u64,
        words_length: usize,
    ) -> u64;
    fn foam_step(
        records: *const u8,
        records_length: usize,
        classes: *const u8,
        classes_length: usize,
        words: *mut u64,
        words_length: usize,
        byte: u8,
    ) -> u64;
    fn foam_steps(
        records: *const u8,
        records_length: usize,
        classes: *const u8,
        classes_length: usize,
        words: *mut u64,
        words_length: usize,
        bytes: *const u8,
        bytes_length: usize,
    ) -> u64;
    fn foam_lines(
        records: *const u8,
        records_length: usize,
        classes: *const u8,
        classes_length: usize,
        text: *const u8,
        text_length: usize,
        answers: *mut u8,
        answers_length: usize,
    ) -> u64;
    fn foam_lines_table(
        table: *const u16,
        table_length: usize,
        text: *const u8,
        text_length: usize,
        answers: *mut u8,
        answers_length: usize,
    ) -> u64;
    fn foam_widen(old: *const u8, old_length: usize, records: *mut u8, records_length: usize) -> u64;
    fn foam_pick(input: *const u8, input_length: usize, output: *mut u8, output_length: usize) -> u64;
    fn foam_table(
        records: *const u8,
        records_length: usize,
        classes: *const u8,
        classes_length: usize,
        table: *mut u16,
        table_length: usize,
        room: *mut u64,
        room_length: usize,
    ) -> u64;
    fn foam_match_table(table: *const u16, table_length: usize, text: *const u8, text_length: usize) -> u64;
}

const FILL: u8 = 0xa5;
const FILL_ENTRY: u16 = 0xa5a5;
const FILL_WORD: u64 = 0xa5a5_a5a5_a5a5_a5a5;

/// All 64 bits of an answer.
#[derive(Clone, Copy, Debug, PartialEq)]
struct Answer {
    refusal: u8,
    flag: u8,
    x: usize,
    y: usize,
}

impl Answer {
    fn of(bits: u64) -> Answer {
        Answer { refusal: bits as u8, flag: (bits >> 8) as u8, x: (bits >> 16) as usize & 0xff_ffff, y: (bits >> 40) as usize }
    }
    fn refused(refusal: u8, place: usize) -> Answer {
        Answer { refusal, flag: 0, x: place, y: 0 }
    }
    fn counts(records: usize, pieces: usize, classes: usize) -> Answer {
        Answer { refusal: 0, flag: 0, x: records, y: pieces + 256 * classes }
    }
    fn yes_or_no(yes: bool) -> Answer {
        Answer { refusal: 0, flag: yes as u8, x: 0, y: 0 }
    }
    /// Of a start or a step: whether the last state, the root's accepting one, is marked, and whether none is.
    fn marked(marks: &[bool]) -> Answer {
        Answer { refusal: 0, flag: marks[marks.len() - 1] as u8, x: !marks.contains(&true) as usize, y: 0 }
    }
    fn found(part: Option<std::ops::Range<usize>>) -> Answer {
        part.map_or(Answer::yes_or_no(false), |part| Answer { refusal: 0, flag: 1, x: part.start, y: part.end })
    }
    fn made(table: &Table) -> Answer {
        Answer { refusal: 0, flag: 1, x: table.states, y: table.entries.len() }
    }
    fn written(length: usize) -> Answer {
        Answer { refusal: 0, flag: 1, x: length, y: 0 }
    }
}

/// Ends the run with status 1 at the first difference, and says what it is.
fn hold<T: PartialEq + Debug>(what: &str, input: impl Fn() -> String, ours: T, theirs: T) {
    if ours != theirs {
        println!("{what} differs on {}\n  the library:  {ours:x?}\n  the expected: {theirs:x?}", input());
        std::process::exit(1);
    }
}

/// What a check should answer, and the records to write where it does not refuse.
fn expected_check(e: &[u8]) -> (Answer, Vec<u8>) {
    let tree = match expected::read(e) {
        Err((number, place)) => return (Answer::refused(number, place), vec![]),
        Ok(tree) => tree,
    };
    let pieces = expected::pieces(&tree).1;
    hold("the fewest pieces", || e.escape_ascii().to_string(), pieces, expected::fewest_pieces(&tree));
    if pieces > 128 {
        return (Answer::refused(8, 0), vec![]);
    }
    (Answer::counts(tree.len(), pieces, 0), expected::records(&tree))
}

/// One write, held against its answer and every byte of its buffer; `written` stands at the front of that.
fn compare_write(e: &[u8], room: usize, expected: Answer, written: &[u8]) {
    let input = || format!("\"{}\" with a buffer of {room} bytes", e.escape_ascii());
    let mut buffer = vec![FILL; room];
    let answer = Answer::of(unsafe { foam_read(e.as_ptr(), e.len(), buffer.as_mut_ptr(), buffer.len()) });
    let mut after = vec![FILL; room];
    after[..written.len()].copy_from_slice(written);
    hold("reading", input, answer, expected);
    hold("the record buffer", input, buffer, after);
}

/// Checks an expression, and reads it into a buffer of `room` bytes; where the check does not refuse, also into one that just
/// fits and one that is a byte too short. The list, if this reading is not refused.
pub fn read(e: &[u8], room: usize) -> Option<List> {
    let (checked, list) = expected_check(e);
    let answer = Answer::of(unsafe { foam_check(e.as_ptr(), e.len()) });
    hold("checking", || e.escape_ascii().to_string(), answer, checked);
    let good = checked.refusal == 0;
    if good {
        compare_write(e, list.len(), checked, &list);
        compare_write(e, list.len() - 1, Answer::refused(9, 0), &[]);
    }
    match room < list.len() {
        true => compare_write(e, room, Answer::refused(9, 0), &[]),
        false => compare_write(e, room, checked, &list),
    }
    (good && room >= list.len()).then(|| List::new(list, vec![]))
}

/// What a check in the second syntax should answer; the records and class records to write, and what was written, where it
/// does not refuse.
fn expected_second(e: &[u8]) -> (Answer, [Vec<u8>; 2], Option<Written>) {
    let refused = |number, place| (Answer::refused(number, place), [vec![], vec![]], None);
    let written = match written::read(e) {
        Err((number, place)) => return refused(number, place),
        Ok(written) => written,
    };
    if written.nodes() > MOST_NODES {
        return refused(17, 0);
    }
    let laid_out: LaidOut = written.laid_out();
    let pieces = expected::pieces(&laid_out.tree).1;
    let input = || e.escape_ascii().to_string();
    hold("the fewest pieces", input, pieces, expected::fewest_pieces(&laid_out.tree));
    hold("the fewest pieces of what is written", input, pieces, written.fewest_pieces());
    let [laid, counted] = [[laid_out.tree.len(), laid_out.sets.len()], [written.nodes(), written.classes()]];
    hold("the nodes and classes of what is written", input, laid, counted);
    if pieces > 128 {
        return refused(8, 0);
    }
    let counts = Answer::counts(laid_out.tree.len(), pieces, laid_out.sets.len());
    (counts, [expected::records(&laid_out.tree), laid_out.class_records()], Some(written))
}

/// One write in the second syntax into buffers of these lengths, held against its answer and every byte of both buffers.
fn compare_second_write(e: &[u8], rooms: [usize; 2], checked: Answer, stored: &[Vec<u8>; 2]) -> bool {
    let input = || format!("\"{}\" in the second syntax with buffers of {rooms:?} bytes", e.escape_ascii());
    let [mut records, mut classes] = rooms.map(|room| vec![FILL; room]);
    // SAFETY: as above.
    let answer = Answer::of(unsafe {
        let (records_start, classes_start) = (records.as_mut_ptr(), classes.as_mut_ptr());
        foam_read2(e.as_ptr(), e.len(), records_start, records.len(), classes_start, classes.len())
    });
    let expected = match (rooms[0] < stored[0].len(), rooms[1] < stored[1].len()) {
        (true, _) => Answer::refused(9, 0),
        (false, true) => Answer::refused(15, 0),
        (false, false) => checked,
    };
    hold("reading", input, answer, expected);
    for (what, buffer, front) in [("the record buffer", records, &stored[0]), ("the class buffer", classes, &stored[1])] {
        let mut after = vec![FILL; buffer.len()];
        if expected.refusal == 0 {
            after[..front.len()].copy_from_slice(front);
        }
        hold(what, input, buffer, after);
    }
    expected.refusal == 0
}

/// Checks an expression of the second syntax, and reads it into buffers of these lengths, for records and for classes; where
/// the check does not refuse, also into buffers that just fit and with each of them a byte too short. The list with its
/// classes, if this reading is not refused.
pub fn read_second(e: &[u8], rooms: [usize; 2]) -> Option<List> {
    let (checked, stored, meant) = expected_second(e);
    // SAFETY: as above.
    let answer = Answer::of(unsafe { foam_check2(e.as_ptr(), e.len()) });
    hold("checking in the second syntax", || e.escape_ascii().to_string(), answer, checked);
    if checked.refusal == 0 {
        let [enough, enough_classes] = [stored[0].len(), stored[1].len()];
        compare_second_write(e, [enough, enough_classes], checked, &stored);
        compare_second_write(e, [enough - 1, enough_classes], checked, &stored);
        if enough_classes > 0 {
            compare_second_write(e, [enough, enough_classes - 1], checked, &stored);
        }
    }
    let good = compare_second_write(e, rooms, checked, &stored);
    let [list, classes] = stored;
    meant.filter(|_| good).map(|meant| List { written: Some(meant), ..List::new(list, classes) })
}

/// Turns a list of the old layout into one of today, in a buffer of `room` bytes, held against its answer and every byte.
pub fn widen(old: &[u8], room: usize) {
    let input = || format!("the old list {old:x?} with a buffer of {room} bytes");
    let mut buffer = vec![FILL; room];
    let mut after = buffer.clone();
    // SAFETY: as above.
    let answer = Answer::of(unsafe { foam_widen(old.as_ptr(), old.len(), buffer.as_mut_ptr(), buffer.len()) });
    let expected = match expected::widened(old) {
        None => Answer::refused(10, 0),
        Some(list) if room < list.len() => Answer::refused(9, 0),
        Some(list) => {
            after[..list.len()].copy_from_slice(&list);
            Answer::counts(list.len() / RECORD_SIZE, 0, 0)
        }
    };
    hold("widening", input, answer, expected);
    hold("the record buffer", input, buffer, after);
}

/// Picks in one call, into a buffer of `room` bytes, where `output` is to be printed.
pub fn pick(input: &[u8], room: usize, output: &[u8]) {
    let shown = || format!("the input \"{}\" with a buffer of {room} bytes", input.escape_ascii());
    let mut buffer = vec![FILL; room];
    let answer = Answer::of(unsafe { foam_pick(input.as_ptr(), input.len(), buffer.as_mut_ptr(), buffer.len()) });
    let (expected, written) = match room {
        MOST_OUTPUT.. => (Answer::written(output.len()), output),
        _ => (Answer::yes_or_no(false), &[][..]),
    };
    hold("picking", shown, answer, expected);
    let (front, past) = buffer.split_at(written.len());
    hold("the output", shown, front.escape_ascii().to_string(), written.escape_ascii().to_string());
    hold("the first byte changed past the output", shown, past.iter().position(|&b| b != FILL), None);
}

/// Matches a text by any table.
pub fn match_table(table: &[u16], text: &[u8]) {
    let input = || format!("the table {table:?} and the text \"{}\"", text.escape_ascii());
    // SAFETY: as above.
    let answer = Answer::of(unsafe { foam_match_table(table.as_ptr(), table.len(), text.as_ptr(), text.len()) });
    let expected = match table.len() {
        HEADING.. => Answer::yes_or_no(tables::accepts(table, text)),
        _ => Answer::refused(28, 0),
    };
    hold("matching by a table", input, answer, expected);
}

/// Answers all lines of a text by a table of steps, in a buffer of `room` bytes.
pub fn lines_by_table(table: &[u16], text: &[u8], room: usize) {
    let input = || format!("the table {table:x?}, the lines of \"{}\" and {room} bytes", text.escape_ascii());
    let mut answers = vec![FILL; room];
    let mut after = answers.clone();
    // SAFETY: as above.
    let answer = unsafe {
        let (start, count) = (answers.as_mut_ptr(), answers.len());
        foam_lines_table(table.as_ptr(), table.len(), text.as_ptr(), text.len(), start, count)
    };
    let lines = lines::lines(text);
    let expected = match room < lines.len() {
        _ if table.len() < HEADING => Answer::refused(28, 0),
        _ if text.len() > 65_536 => Answer::refused(11, 0),
        true => Answer::refused(9, 0),
        false => {
            let bytes: Vec<u8> = lines.iter().map(|line| tables::accepts(table, line) as u8).collect();
            after[..bytes.len()].copy_from_slice(&bytes);
            Answer { refusal: 0, flag: 0, x: lines.len(), y: bytes.iter().filter(|&&byte| byte == 1).count() }
        }
    };
    hold("answering lines by a table", input, Answer::of(answer), expected);
    hold("the answers by a table", input, &answers, &after);
}

/// A record list and the class records lent with it, with what the list holds if it is good.
pub struct List {
    pub bytes: Vec<u8>,
    pub classes: Vec<u8>,
    good: Option<(Tree, Automaton)>,
    /// What it was read from, where that is known: its language is then taken from there.
    written: Option<Written>,
    /// Its table of steps, once it is asked for, where it is small.
    table: OnceCell<Option<Vec<u16>>>,
}

/// The table and the room that a list is given where its texts are also matched by a table.
const SMALL_TABLE: usize = 1_500;
const SMALL_ROOM: usize = 4_000;

impl List {
    pub fn new(bytes: Vec<u8>, classes: Vec<u8>) -> List {
        let good = expected::decode(&bytes).map(|tree| {
            let sets = expected::sets(&classes, expected::class_count(&tree));
            let automaton = expected::automaton(&tree, sets);
            (tree, automaton)
        });
        List { bytes, classes, good, written: None, table: OnceCell::new() }
    }
    pub fn written(&self) -> &Written {
        self.written.as_ref().expect("only asked of a list that was read in the second syntax")
    }
    pub fn automaton(&self) -> &Automaton {
        &self.good.as_ref().expect("only asked of a good list").1
    }
    /// The number of pieces; of a list that is not good, 0.
    pub fn pieces(&self) -> usize {
        self.good.as_ref().map_or(0, |(_, automaton)| automaton.widths.len())
    }
    /// The words in which all states are marked.
    pub fn all_marked(&self) -> Vec<u64> {
        self.automaton().words(&vec![true; 2 * self.bytes.len() / RECORD_SIZE])
    }
    /// The number of class leaves; of a list that is not good, 0.
    pub fn class_count(&self) -> usize {
        self.good.as_ref().map_or(0, |(tree, _)| expected::class_count(tree))
    }
    /// The same list with other bytes lent as class records.
    pub fn lent(&self, classes: Vec<u8>) -> List {
        List::new(self.bytes.clone(), classes)
    }

    /// The tree and the automaton, or the refusal that every call with this list and these classes gives first.
    fn usable(&self) -> Result<&(Tree, Automaton), Answer> {
        let good = self.good.as_ref().ok_or(Answer::refused(10, 0))?;
        if self.classes.len() < CLASS_SIZE * self.class_count() {
            Err(Answer::refused(15, 0))
        } else {
            Ok(good)
        }
    }

    fn expected_answers(&self, text: &[u8]) -> (Answer, Answer) {
        let (tree, automaton) = match self.usable() {
            Err(refused) => return (refused, refused),
            Ok(good) => good,
        };
        if text.len() > 65_536 {
            return (Answer::refused(11, 0), Answer::refused(11, 0));
        }
        if let (0..=127, Some(written)) = (text.len(), &self.written) {
            return (Answer::yes_or_no(written.is_match(text)), Answer::found(written.find(text)));
        }
        if text.len() <= 127 {
            let parts = expected::parts(tree, &automaton.sets, text);
            return (Answer::yes_or_no(expected::is_match(&parts)), Answer::found(expected::find(&parts)));
        }
        let furthest = |from: usize| automaton.ends(&text[from..]).last().map(|end| from..from + end);
        let yes = furthest(0) == Some(0..text.len());
        (Answer::yes_or_no(yes), Answer::found(automaton.earliest_start(text).and_then(furthest)))
    }

    fn matched(&self, text: &[u8]) -> Answer {
        let (list, length, classes, classes_length) = self.slices();
        // SAFETY: as above.
        Answer::of(unsafe { foam_match(list, length, classes, classes_length, text.as_ptr(), text.len()) })
    }

    /// Matches the beginnings of these lengths of a text, held against the ends that one run along all of it meets.
    pub fn compare_beginnings(&self, text: &[u8], lengths: &[usize]) {
        let ends = self.automaton().ends(text);
        for &length in lengths {
            let beginning = &text[..length];
            let input = || format!("the list {} and the text \"{}\"", self.show(), beginning.escape_ascii());
            hold("matching", input, self.matched(beginning), Answer::yes_or_no(ends.contains(&length)));
        }
    }

    /// Matches and searches one text.
    pub fn compare_text(&self, text: &[u8]) {
        let input = || format!("the list {} and the text \"{}\"", self.show(), text.escape_ascii());
        let (matched, found) = self.expected_answers(text);
        hold("matching", input, self.matched(text), matched);
        let (list, length, classes, classes_length) = self.slices();
        let answer = unsafe { foam_search(list, length, classes, classes_length, text.as_ptr(), text.len()) };
        hold("searching", input, Answer::of(answer), found);
        if let (true, Some(table)) = (text.len() <= 65_536, self.table.get_or_init(|| self.compare_table(SMALL_TABLE, SMALL_ROOM))) {
            // SAFETY: as above.
            let answer = unsafe { foam_match_table(table.as_ptr(), table.len(), text.as_ptr(), text.len()) };
            hold("matching by a table", input, Answer::of(answer), matched);
        }
    }

    /// Makes a table in buffers of these lengths, held against its answer, every entry and every word. The table, if it is made.
    pub fn compare_table(&self, length: usize, room: usize) -> Option<Vec<u16>> {
        let input = || format!("the list {}, a table of {length} entries and {room} words of room", self.show());
        let mut entries = vec![FILL_ENTRY; length];
        let mut words = vec![FILL_WORD; room];
        let (mut entries_after, mut words_after) = (entries.clone(), words.clone());
        let (list, list_length, classes, classes_length) = self.slices();
        let (table, scratch) = (entries.as_mut_ptr(), words.as_mut_ptr());
        // SAFETY: as above.
        let answer = unsafe { foam_table(list, list_length, classes, classes_length, table, length, scratch, room) };
        let expected = self.usable().map(|(_, automaton)| {
            words_after.fill(0);
            tables::table(automaton, length, room).inspect(|table| entries_after[..table.entries.len()].copy_from_slice(&table.entries))
        });
        let expected = expected.map(|table| table.map_or(Answer::yes_or_no(false), |table| Answer::made(&table)));
        hold("making a table", input, Answer::of(answer), expected.unwrap_or_else(|refused| refused));
        hold("the table", input, &entries, &entries_after);
        hold("the room", input, &words, &words_after);
        (expected.is_ok_and(|answer| answer.flag == 1)).then_some(entries)
    }

    /// Starts in `room` words; gives back what they hold afterwards.
    pub fn compare_start(&self, room: usize) -> Vec<u64> {
        let input = || format!("the list {} and {room} words", self.show());
        let mut words = vec![FILL_WORD; room];
        let mut after = words.clone();
        let (list, length, classes, classes_length) = self.slices();
        let answer = unsafe { foam_start(list, length, classes, classes_length, words.as_mut_ptr(), words.len()) };
        let expected = match self.usable() {
            Err(refused) => refused,
            Ok(_) if room < self.pieces() => Answer::refused(12, 0),
            Ok((_, automaton)) => {
                let marks = automaton.start();
                after[..self.pieces()].copy_from_slice(&automaton.words(&marks));
                Answer::marked(&marks)
            }
        };
        hold("starting", input, Answer::of(answer), expected);
        hold("the words after a start", input, &words, &after);
        words
    }

    /// One step from any words; gives back what they hold afterwards.
    pub fn compare_step(&self, before: &[u64], byte: u8) -> Vec<u64> {
        let input = || format!("the list {}, the words {before:x?} and the byte {byte}", self.show());
        let mut words = before.to_vec();
        let mut after = before.to_vec();
        let (list, length, classes, classes_length) = self.slices();
        let answer = unsafe { foam_step(list, length, classes, classes_length, words.as_mut_ptr(), words.len(), byte) };
        let expected = match self.usable() {
            Err(refused) => refused,
            Ok(_) if before.len() < self.pieces() => Answer::refused(12, 0),
            Ok((_, automaton)) => match automaton.marks(before) {
                None => Answer::refused(13, 0),
                Some(marks) => {
                    let marks = automaton.step(&marks, byte);
                    after[..self.pieces()].copy_from_slice(&automaton.words(&marks));
                    Answer::marked(&marks)
                }
            },
        };
        hold("stepping", input, Answer::of(answer), expected);
        hold("the words after a step", input, &words, &after);
        words
    }

    /// Steps along all bytes in one call, held against one step after the other, and against the words as they are where there
    /// is no byte.
    pub fn compare_steps(&self, before: &[u64], bytes: &[u8]) {
        let input = || format!("the list {}, the words {before:x?} and the bytes \"{}\"", self.show(), bytes.escape_ascii());
        let mut words = before.to_vec();
        let mut after = before.to_vec();
        let (list, length, classes, classes_length) = self.slices();
        let (start, count) = (words.as_mut_ptr(), words.len());
        // SAFETY: as above.
        let answer = unsafe { foam_steps(list, length, classes, classes_length, start, count, bytes.as_ptr(), bytes.len()) };
        let expected = match self.usable() {
            Err(refused) => refused,
            Ok(_) if before.len() < self.pieces() => Answer::refused(12, 0),
            Ok((_, automaton)) => match automaton.marks(before) {
                None => Answer::refused(13, 0),
                Some(marks) => {
                    let marks = bytes.iter().fold(marks, |marks, &byte| automaton.step(&marks, byte));
                    after[..self.pieces()].copy_from_slice(&automaton.words(&marks));
                    Answer::marked(&marks)
                }
            },
        };
        hold("stepping along bytes", input, Answer::of(answer), expected);
        hold("the words after steps along bytes", input, &words, &after);
        let mut single = before.to_vec();
        bytes.iter().for_each(|&byte| single = self.compare_step(&single, byte));
        hold("the words after one step for each byte", input, &words, &single);
    }

    /// Answers all lines of a text in one call, in a buffer of `room` bytes.
    pub fn compare_lines(&self, text: &[u8], room: usize) {
        let input = || format!("the list {}, the lines of \"{}\" and {room} bytes", self.show(), text.escape_ascii());
        let mut answers = vec![FILL; room];
        let mut after = answers.clone();
        let (list, length, classes, classes_length) = self.slices();
        let (start, count) = (answers.as_mut_ptr(), answers.len());
        // SAFETY: as above.
        let answer = unsafe { foam_lines(list, length, classes, classes_length, text.as_ptr(), text.len(), start, count) };
        let lines = lines::lines(text);
        let expected = match self.usable() {
            Err(refused) => refused,
            Ok(_) if text.len() > 65_536 => Answer::refused(11, 0),
            Ok(_) if room < lines.len() => Answer::refused(9, 0),
            Ok(_) => {
                let bytes: Vec<u8> = lines.iter().map(|line| self.expected_answers(line).0.flag).collect();
                after[..bytes.len()].copy_from_slice(&bytes);
                Answer { refusal: 0, flag: 0, x: lines.len(), y: bytes.iter().filter(|&&byte| byte == 1).count() }
            }
        };
        hold("answering lines", input, Answer::of(answer), expected);
        hold("the answers", input, &answers, &after);
    }

    fn slices(&self) -> (*const u8, usize, *const u8, usize) {
        (self.bytes.as_ptr(), self.bytes.len(), self.classes.as_ptr(), self.classes.len())
    }

    fn show(&self) -> String {
        let record = |r: &[u8]| r.iter().map(|b| format!("{b:02x}")).collect::<String>();
        let [list, classes] =
            [self.bytes.chunks(RECORD_SIZE), self.classes.chunks(CLASS_SIZE)].map(|rs| rs.map(record).collect::<Vec<_>>());
        format!("{} with {} bytes of classes {}", list.join(" "), self.classes.len(), classes.join(" "))
    }
}
