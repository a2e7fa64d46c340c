//! Measures match and search, in nanoseconds for each byte, beside other matchers and on growing sizes, what each call costs
//! by itself, and the stack that it needs.

mod calls;
mod engines;
#[path = "../tests/compare/expected.rs"]
#[allow(dead_code)]
mod expected;
#[path = "../tests/compare/generate.rs"]
#[allow(dead_code)]
mod generate;
mod plain;
mod sizes;
mod stack;
mod tables;
mod workloads;
#[path = "../tests/compare/written.rs"]
#[allow(dead_code)]
mod written;

use engines::{Engine, Matcher};
use foamlattice::slices::{self, MOST_OUTPUT};
use foamlattice::Expression;
use std::time::{Duration, Instant};
use workloads::Workload;

/// What a run over all texts answered: how many were found, and the sums of starts and ends. `None` where it gave up.
type Answers = Option<(usize, usize, usize)>;

/// A run of matchers over all texts.
type Run = fn(&mut [Box<dyn Matcher>], &[Vec<u8>]) -> Answers;

fn match_all(matchers: &mut [Box<dyn Matcher>], texts: &[Vec<u8>]) -> Answers {
    let mut yes = 0;
    for matcher in matchers {
        for text in texts {
            yes += matcher.is_match(text)? as usize;
        }
    }
    Some((yes, 0, 0))
}

fn search_all(matchers: &mut [Box<dyn Matcher>], texts: &[Vec<u8>]) -> Answers {
    let mut sums = (0, 0, 0);
    for matcher in matchers {
        for text in texts {
            if let Some((start, end)) = matcher.find(text)? {
                sums = (sums.0 + 1, sums.1 + start, sums.2 + end);
            }
        }
    }
    Some(sums)
}

/// How often each figure is taken, with the others of its table in between: what disturbs the machine for a while spares one.
const ROUNDS: usize = 4;

/// The quickest of as many runs as an eighth of a second has room for, at least one.
fn quickest(mut run: impl FnMut() -> Answers) -> (Answers, Duration) {
    let begin = Instant::now();
    let mut best = Duration::MAX;
    loop {
        let before = Instant::now();
        let answers = run();
        best = best.min(before.elapsed());
        if answers.is_none() || begin.elapsed() > Duration::from_millis(125) {
            return (answers, best);
        }
    }
}

struct Measured {
    answers: Answers,
    nanoseconds_per_byte: f64,
}

impl Measured {
    fn or_quicker(self, other: Measured) -> Measured {
        if other.nanoseconds_per_byte < self.nanoseconds_per_byte {
            other
        } else {
            self
        }
    }
}

fn measure(engine: &Engine, load: &Workload, run: Run) -> Measured {
    let bytes = load.expressions.len() * load.texts.iter().map(Vec::len).sum::<usize>();
    let prepared: Option<Vec<_>> = load.expressions.iter().map(|e| (engine.prepare)(e, load.syntax)).collect();
    let Some(mut matchers) = prepared else { return Measured { answers: None, nanoseconds_per_byte: f64::NAN } };
    let (answers, time) = quickest(|| run(&mut matchers, &load.texts));
    Measured { answers, nanoseconds_per_byte: time.as_nanos() as f64 / bytes as f64 }
}

/// How many lines are yes in each of so many equal parts of an input, by the last line of its output: `total T yes Y no N`.
fn pick_all(input: &[u8], parts: usize, output: &mut [u8]) -> Answers {
    let printed = std::str::from_utf8(slices::pick(input, output)?).ok()?;
    let yes: usize = printed.lines().next_back()?.split(' ').nth(3)?.parse().ok()?;
    (yes % parts == 0).then_some((yes / parts, 0, 0))
}

/// The expression and all texts, as often as there is room for, as the lines of one input: for each byte of the texts.
fn measure_pick(load: &Workload) -> Measured {
    let first = [&load.expressions[0][..], b"\n"].concat();
    let lines: Vec<u8> = load.texts.iter().flat_map(|text| [text, &b"\n"[..]].concat()).collect();
    let parts = (65_536 - first.len()) / lines.len();
    let input = [first, lines.repeat(parts)].concat();
    let bytes = parts * load.texts.iter().map(Vec::len).sum::<usize>();
    let mut output = vec![0; MOST_OUTPUT];
    let (answers, time) = quickest(|| pick_all(&input, parts, &mut output));
    Measured { answers, nanoseconds_per_byte: time.as_nanos() as f64 / bytes as f64 }
}

/// The texts as the lines of as few blocks as take them, each of at most 65,536 bytes.
fn blocks(texts: &[Vec<u8>]) -> Vec<Vec<u8>> {
    let mut blocks = vec![vec![]];
    for text in texts {
        if blocks[blocks.len() - 1].len() + text.len() + 1 > 65_536 {
            blocks.push(vec![]);
        }
        let last = blocks.len() - 1;
        blocks[last].extend([text, &b"\n"[..]].concat());
    }
    blocks
}

/// How many lines of a block are yes, by a list or by a table.
type YesLines<L> = fn(&L, &[u8], &mut [u8]) -> Option<usize>;

/// All texts as lines, one call for each expression and block: for each byte of the texts.
fn measure_lines<L>(load: &Workload, lists: Option<Vec<L>>, yes_lines: YesLines<L>) -> Measured {
    let Some(lists) = lists else { return Measured { answers: None, nanoseconds_per_byte: f64::NAN } };
    let blocks = blocks(&load.texts);
    let bytes = lists.len() * load.texts.iter().map(Vec::len).sum::<usize>();
    let mut answers = vec![0; 65_536];
    let (answers, time) = quickest(|| {
        let pairs = lists.iter().flat_map(|list| blocks.iter().map(move |block| (list, block)));
        let yes: Option<usize> = pairs.map(|(list, block)| yes_lines(list, block, &mut answers)).sum();
        Some((yes?, 0, 0))
    });
    Measured { answers, nanoseconds_per_byte: time.as_nanos() as f64 / bytes as f64 }
}

fn lines_by_marks(load: &Workload) -> Measured {
    let lists = load.expressions.iter().map(|e| engines::read(e, load.syntax)).collect();
    let yes_lines: YesLines<Expression> =
        |list, block, answers| slices::lines(list.records(), list.classes(), block, answers).ok().map(|counts| counts.yes);
    measure_lines(load, lists, yes_lines)
}

/// By tables that are made outside the measured time.
fn lines_by_table(load: &Workload) -> Measured {
    let tables = load.expressions.iter().map(|e| tables::made(e, load.syntax)).collect();
    let yes_lines: YesLines<Vec<u16>> =
        |table, block, answers| slices::lines_by_table(table, block, answers).ok().map(|counts| counts.yes);
    measure_lines(load, tables, yes_lines)
}

struct Row {
    name: &'static str,
    whole: Measured,
    part: Option<Measured>,
}

/// One cell of the table: the time, its ratio to the plain simulation's, and a sign where the answers differ.
fn cell(here: &Measured, plain: &Measured) -> String {
    if here.answers.is_none() {
        return format!("{:>12} {:>10}", "gave up", "");
    }
    let sign = if here.answers == plain.answers { ' ' } else { '!' };
    let ratio = here.nanoseconds_per_byte / plain.nanoseconds_per_byte;
    format!("{:>12.1} {:>8.2}x{sign}", here.nanoseconds_per_byte, ratio)
}

impl Row {
    fn or_quicker(self, other: Row) -> Row {
        let part = self.part.zip(other.part).map(|(here, there)| here.or_quicker(there));
        Row { name: self.name, whole: self.whole.or_quicker(other.whole), part }
    }
}

fn measure_all(load: &Workload) -> Vec<Row> {
    let measured = |engine: Engine| {
        let [whole, part] = [match_all as Run, search_all].map(|run| measure(&engine, load, run));
        Row { name: engine.name, whole, part: Some(part) }
    };
    let mut rows: Vec<Row> = engines::all().into_iter().map(measured).collect();
    // A landing that had no classes yet has no row where there are some.
    rows.retain(|row| row.name != "before" || row.whole.answers.is_some());
    let by_table = Engine { name: "foamlattice table", prepare: tables::prepare };
    let whole = measure(&by_table, load, match_all);
    if whole.answers.is_some() {
        rows.insert(2, Row { name: by_table.name, whole, part: None });
    }
    let after_library = rows.iter().position(|row| row.name == "plain, made anew").expect("it is there");
    if load.texts.len() > 1 {
        rows.insert(after_library, Row { name: "foamlattice lines by table", whole: lines_by_table(load), part: None });
        rows.insert(after_library, Row { name: "foamlattice lines", whole: lines_by_marks(load), part: None });
    }
    if load.as_lines {
        rows.insert(after_library, Row { name: "foamlattice pick", whole: measure_pick(load), part: None });
    }
    rows
}

fn compare(load: &Workload) {
    let mut rows = measure_all(load);
    for _ in 1..ROUNDS {
        rows = rows.into_iter().zip(measure_all(load)).map(|(here, there)| here.or_quicker(there)).collect();
    }
    let Row { whole: plain_match, part: Some(plain_search), .. } = &rows[0] else {
        unreachable!("the plain simulation searches")
    };
    println!("{}", load.name);
    for Row { name, whole, part } in &rows {
        let searched = part.as_ref().map_or(format!("{:>12}", "-"), |part| cell(part, plain_search));
        println!("  {name:<26}{} {searched}", cell(whole, plain_match));
        let same = whole.answers == plain_match.answers && part.as_ref().is_none_or(|part| part.answers == plain_search.answers);
        assert!(same || !name.starts_with("foamlattice"), "the library's answers are not those of the plain simulation");
    }
}

fn main() {
    println!("ns/byte, and the ratio to the plain lists; ! where the answers are not those of the plain lists");
    println!("{:<28}{:>12} {:>9} {:>13} {:>9}", "", "match", "ratio", "search", "ratio");
    for load in workloads::all() {
        compare(&load);
    }
    tables::print();
    calls::print();
    sizes::print();
    stack::print();
}
