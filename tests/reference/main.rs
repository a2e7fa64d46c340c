//! Tries the examples of docs/REFERENCE.md on the library: each row of a table whose head is known here. Prints how many
//! examples were tried; one that the library answers otherwise, or fewer than 280 of them, ends the run with status 1.

use foamlattice::slices::{self, Counts, MOST_CLASS_BYTES, MOST_RECORD_BYTES, RECORD_SIZE};
use foamlattice::{Expression, Reason, Refusal};
use std::fs;
use std::process::exit;

/// The cells of a row, with `\|` read as the sign.
fn cells(row: &str) -> Vec<String> {
    let inner = row.trim().trim_start_matches('|').trim_end_matches('|').replace("\\|", "\u{1}");
    inner.split('|').map(|cell| cell.trim().replace('\u{1}', "|")).collect()
}

/// The examples of a cell, which `;` divides.
fn examples(cell: &str) -> impl Iterator<Item = &str> {
    cell.split(';').map(str::trim).filter(|e| !e.is_empty())
}

/// What stands in backquotes.
fn quoted(example: &str) -> Vec<&str> {
    example.split('`').skip(1).step_by(2).collect()
}

/// A number, written with commas, after a word.
fn after(example: &str, word: &str) -> Option<usize> {
    number(example.split(word).nth(1)?)
}

/// The number that a text begins with.
fn number(text: &str) -> Option<usize> {
    let digits: String = text.trim().chars().take_while(|c| c.is_ascii_digit() || *c == ',').filter(|c| *c != ',').collect();
    digits.parse().ok()
}

/// The expression that an example writes or describes.
fn expression(example: &str) -> Vec<u8> {
    let given = quoted(example).first().map_or(vec![], |q| q.as_bytes().to_vec());
    let count = number(example).unwrap_or(0);
    if example.contains(" letters") {
        let mut letters = vec![b'a'; count];
        letters.extend(given);
        letters
    } else if example.contains(" pairs round ") {
        [vec![b'('; count], given, vec![b')'; count]].concat()
    } else if let Some(times) = example.split("` ").nth(1).filter(|rest| rest.contains(" times")).and_then(number) {
        given.repeat(times)
    } else {
        given
    }
}

/// What reading an example answers, into a buffer of the length that it names.
fn read(example: &str) -> Result<Counts, Refusal> {
    let mut records = vec![0; after(example, " into ").unwrap_or(MOST_RECORD_BYTES)];
    slices::read(&expression(example), &mut records)
}

/// What reading an example in the second syntax answers, into a class buffer of the length that it names.
fn read_second(example: &str) -> Result<Counts, Refusal> {
    let mut records = vec![0; MOST_RECORD_BYTES];
    let mut classes = vec![0; after(example, " into ").unwrap_or(MOST_CLASS_BYTES)];
    slices::read2(&expression(example), &mut records, &mut classes)
}

/// What a match with an example's list answers, with as many bytes of its classes, or more, as it names.
fn match_with_classes(example: &str, length: usize) -> Result<bool, Refusal> {
    let read = Expression::new(&expression(example)).expect("an expression that is read");
    let mut classes = read.classes().to_vec();
    classes.resize(length, 0);
    slices::is_full_match(read.records(), &classes, b"a")
}

/// The bytes that an example writes in hexadecimal.
fn hexadecimal(example: &str) -> Vec<u8> {
    let digits = quoted(example).first().copied().unwrap_or("");
    digits.split(' ').filter_map(|b| u8::from_str_radix(b, 16).ok()).collect()
}

/// Whether the bytes that an example writes in hexadecimal are a good list.
fn good(example: &str) -> bool {
    slices::is_full_match(&hexadecimal(example), b"", b"").err().is_none_or(|refusal| refusal.reason() != Reason::List)
}

/// What an example's expression is read as: in the second syntax where it says so.
fn list(example: &str) -> Expression {
    let second = example.contains("of the second syntax");
    let read = if second { Expression::new } else { Expression::plain };
    read(&expression(example)).expect("an expression that is read")
}

/// The words that an example names: `with 2 words` to start in, `from words 2, 0` to step from.
fn words(example: &str) -> Vec<u64> {
    let named = example.split(" from word").nth(1).map(|rest| rest.trim_start_matches('s'));
    let count = after(example, " with ").unwrap_or(0);
    named.map_or(vec![0; count], |rest| rest.split(", ").map(|w| w.trim().parse().expect("a word")).collect())
}

/// The refusal's number that an example of a match, a start or a step is answered with, or 0.
fn refusal(example: &str) -> u8 {
    let list = list(example);
    let answer = match after(example, " on ") {
        Some(length) => slices::is_full_match(list.records(), list.classes(), &vec![b'a'; length]).err(),
        None if example.contains(" from ") => slices::step(list.records(), list.classes(), &mut words(example), b'a').err(),
        None => slices::start(list.records(), list.classes(), &mut words(example)).err(),
    };
    answer.map_or(0, |refused| refused.number())
}

/// The words and the flag after a start and a step for each byte of a text.
fn marks(list: &Expression, text: &str) -> (Vec<usize>, bool) {
    let mut marks = list.marks();
    marks.steps(text.as_bytes());
    (marks.words().iter().map(|w| *w as usize).collect(), marks.is_full_match())
}

/// What `pick` prints for an example's input.
fn picked(example: &str) -> String {
    let input = quoted(example).first().map_or(String::new(), |q| q.replace('⏎', "\n").replace('␍', "\r"));
    String::from_utf8_lossy(&foamlattice::pick(&input)).into_owned()
}

/// Whether an example that is read has the counts that it names.
fn counts_fit(example: &str, answer: Result<Counts, Refusal>) -> bool {
    let Some((_, counts)) = example.split_once(": ") else { return answer.is_ok() };
    let named = |word| counts.split(", ").find(|c| c.contains(word)).and_then(number);
    answer.is_ok_and(|c| named("record").is_none_or(|n| n == c.records) && named("piece").is_none_or(|n| n == c.pieces))
}

/// The number and the place of a refusal.
fn fault<T>(answer: Result<T, Refusal>) -> Option<(u8, usize)> {
    answer.err().map(|refusal| (refusal.number(), refusal.place()))
}

/// Whether an example of the refusal `no` is answered so; one of writing in both syntaxes.
fn refused(no: u8, example: &str) -> bool {
    let there = Some((no, after(example, " at ").unwrap_or(0)));
    match no {
        1..=8 => fault(read(example)) == there && fault(read_second(example)) == there,
        9 => fault(read(example)) == there,
        10 => !good(example),
        _ => refusal(example) == no,
    }
}

/// Whether the nearest example that is not refused by `no` is not.
fn taken(no: u8, example: &str) -> bool {
    match no {
        1..=8 => counts_fit(example, read(example)) && read_second(example) == read(example),
        9 => counts_fit(example, read(example)),
        10 => good(example),
        _ => refusal(example) == 0,
    }
}

/// The refusal, if any, that an example of the second syntax is answered with: by reading or, where bytes of classes are
/// lent with its list, by a match.
fn answered_second(example: &str) -> Option<(u8, usize)> {
    match after(example, " with ") {
        Some(length) => fault(match_with_classes(example, length)),
        None => fault(read_second(example)),
    }
}

/// Tries a row of a table with this head, below a line of text: its examples, and whether the library answers so.
fn try_row(above: &str, head: &[String], row: &[String]) -> Vec<(String, bool)> {
    let column = |name: &str| head.iter().position(|h| h.starts_with(name)).map(|i| row[i].as_str());
    let mut tried = vec![];
    let mut note = |example: &str, fits: bool| tried.push((example.to_string(), fits));
    if let (Some(no), Some(gives), Some(nearest)) = (column("No."), column("Gives it in the second"), column("Nearest")) {
        let number = number(no).expect("a refusal's number") as u8;
        let there = |example| (number, after(example, " at ").unwrap_or(0));
        examples(gives).for_each(|example| note(example, answered_second(example) == Some(there(example))));
        examples(nearest).for_each(|example| note(example, answered_second(example).is_none()));
    } else if let (Some(example), Some(nodes), Some(classes)) = (column("Expression of the"), column("Nodes"), column("Classes"))
    {
        let counts = read_second(example).map(|c| (Some(c.records), Some(c.classes)));
        note(example, counts == Ok((number(nodes), number(classes))));
    } else if let (Some(no), Some(gives), Some(nearest)) = (column("No."), column("Gives it"), column("Nearest")) {
        let no = number(no).expect("a refusal's number") as u8;
        examples(gives).for_each(|example| note(example, refused(no, example)));
        examples(nearest).for_each(|example| note(example, taken(no, example)));
    } else if let (Some(example), Some(nodes)) = (column("Expression"), column("Nodes")) {
        note(example, read(example).is_ok_and(|c| Some(c.records) == number(nodes)));
    } else if let (Some(example), Some(pieces)) = (column("Expression"), column("Pieces")) {
        note(example, read(example).is_ok_and(|c| Some(c.pieces) == number(pieces)));
    } else if let Some(list) = column("List that is not good") {
        examples(list).filter(|e| e.starts_with('`')).for_each(|example| note(example, !good(example)));
    } else if let (Some(record), Some(bytes)) = (column("Record"), column("Bytes")) {
        let at = number(record).expect("a record's number") * RECORD_SIZE;
        note(bytes, list(above).records()[at..at + RECORD_SIZE] == hexadecimal(bytes));
    } else if let (Some(text), Some(accepting)) = (column("After"), column("Accepting")) {
        let words = head.iter().zip(row).filter(|(h, _)| h.starts_with("Word")).filter_map(|(_, w)| number(w));
        let words: Vec<usize> = words.collect();
        let text = quoted(text).first().copied().unwrap_or("");
        note(text, marks(&list(above), text) == (words, accepting == "yes"));
    } else if let (Some(inputs), Some(printed)) = (column("Input, with"), column("Printed")) {
        let lines: String = quoted(printed).iter().map(|line| format!("{line}\n")).collect();
        examples(inputs).for_each(|example| note(example, picked(example) == lines));
    }
    tried
}

fn main() {
    let page = fs::read_to_string("docs/REFERENCE.md").expect("docs/REFERENCE.md");
    let mut head: Vec<String> = vec![];
    let mut above = "";
    let mut count = 0;
    for line in page.lines() {
        if !line.starts_with('|') {
            head.clear();
            above = if line.is_empty() { above } else { line };
        } else if head.is_empty() {
            head = cells(line);
        } else if !line.starts_with("|---") {
            for (example, fits) in try_row(above, &head, &cells(line)) {
                count += 1;
                if !fits {
                    println!("docs/REFERENCE.md: the library answers otherwise: {example}\n{line}");
                    exit(1);
                }
            }
        }
    }
    println!("{count} examples of docs/REFERENCE.md tried");
    exit(i32::from(count < 280));
}
