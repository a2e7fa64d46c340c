//! What is measured: expressions, and the texts on which each of them is tried. All of it comes from fixed seeds.

use crate::generate::Random;

/// Which of the two readers an expression is for.
#[derive(Clone, Copy, PartialEq)]
pub enum Syntax {
    First,
    Second,
}

pub struct Workload {
    pub name: &'static str,
    pub syntax: Syntax,
    pub expressions: Vec<Vec<u8>>,
    pub texts: Vec<Vec<u8>>,
    /// Whether the texts are also measured as the lines of one input of `pick`.
    pub as_lines: bool,
}

const DAYS: [usize; 12] = [31, 29, 31, 30, 31, 30, 31, 31, 30, 31, 30, 31];

/// The days of a year, each month with a branch of its own: 708 bytes.
pub fn date_expression() -> Vec<u8> {
    let first = "(1|2|3|4|5|6|7|8|9)";
    let digit = "(0|1|2|3|4|5|6|7|8|9)";
    let days = |month: usize| match DAYS[month - 1] {
        29 => format!("0{first}|1{digit}|2{digit}"),
        30 => format!("0{first}|(1|2){digit}|30"),
        _ => format!("0{first}|(1|2){digit}|30|31"),
    };
    let months: Vec<String> = (1..=12).map(|month| format!("{month:02}-({})", days(month))).collect();
    months.join("|").into_bytes()
}

/// The 366 lines of a leap year.
fn date_lines() -> Vec<Vec<u8>> {
    let date = |month: usize, day: usize| format!("{month:02}-{day:02}").into_bytes();
    (1..=12).flat_map(|month| (1..=DAYS[month - 1]).map(move |day| date(month, day))).collect()
}

fn dates() -> Workload {
    Workload {
        name: "dates: 708 bytes, 49 pieces, on 366 lines of 5 bytes",
        syntax: Syntax::First,
        expressions: vec![date_expression()],
        texts: date_lines(),
        as_lines: true,
    }
}

/// So many words of 8 letters and one of 7 under a star; and the words for its texts, all of one length: the long ones, or
/// the one of 7 letters alone. With 110 long ones it has 1,000 bytes.
pub fn word_expression(r: &mut Random, long: usize) -> (Vec<u8>, Vec<Vec<u8>>) {
    let mut word = |letters: usize| (0..letters).map(|_| b'a' + r.below(26) as u8).collect::<Vec<u8>>();
    let mut words: Vec<Vec<u8>> = (0..long).map(|_| word(8)).collect();
    words.push(word(7));
    let expression = [b"(", &words.join(&b'|')[..], b")*"].concat();
    if long > 0 {
        words.pop();
    }
    (expression, words)
}

/// As many of the words, all of one length, as 64 KB have room for.
pub fn word_text(r: &mut Random, words: &[Vec<u8>]) -> Vec<u8> {
    (0..65_536 / words[0].len()).flat_map(|_| words[r.below(words.len())].clone()).collect()
}

fn words() -> Workload {
    let mut r = Random::new(1);
    let (expression, words) = word_expression(&mut r, 110);
    let text = word_text(&mut r, &words);
    Workload {
        name: "words: 1,000 bytes, 119 pieces, on 64 KB",
        syntax: Syntax::First,
        expressions: vec![expression],
        texts: vec![text],
        as_lines: false,
    }
}

fn stars() -> Workload {
    let mut r = Random::new(2);
    let text = (0..20 * 1024).map(|_| r.pick(b"abc")).collect();
    Workload {
        name: "nested stars: ((a*b*)*c*)* on 20 KB",
        syntax: Syntax::First,
        expressions: vec![b"((a*b*)*c*)*".to_vec()],
        texts: vec![text],
        as_lines: false,
    }
}

fn log_line(r: &mut Random) -> Vec<u8> {
    let time = format!("2028-02-29 {:02}:{:02}:{:02}", r.below(24), r.below(60), r.below(60));
    let host = ["mail", "desk", "gate", "shelf"][r.below(4)];
    let level = ["info", "info", "info", "info", "warning", "error"][r.below(6)];
    let what = ["login", "logout", "read", "written", "refused"][r.below(5)];
    let (number, user, lines, time_taken, port) = (r.below(100), r.below(10_000), r.below(1_000), r.below(500), r.below(65_536));
    format!("{time} {host}-{number} {level}: user {user} {what} {lines} lines in {time_taken} ms, port {port}").into_bytes()
}

fn log() -> Workload {
    let mut r = Random::new(3);
    let digit = "(0|1|2|3|4|5|6|7|8|9)";
    let rules = ["error|warning".into(), format!("user {digit}{digit}* (login|logout)"), format!("(1|2|3|4){digit}{digit} ms")];
    Workload {
        name: "log: 3 short rules on 2,000 lines of some 80 bytes",
        syntax: Syntax::First,
        expressions: rules.into_iter().map(String::into_bytes).collect(),
        texts: (0..2_000).map(|_| log_line(&mut r)).collect(),
        as_lines: false,
    }
}

fn dates_by_classes() -> Workload {
    Workload {
        name: "dates by classes: [01][0-9]-[0-3][0-9] on 366 lines of 5 bytes",
        syntax: Syntax::Second,
        expressions: vec![b"[01][0-9]-[0-3][0-9]".to_vec()],
        texts: date_lines(),
        as_lines: false,
    }
}

fn log_by_classes() -> Workload {
    let mut r = Random::new(3);
    let rules = [
        "(error|warning): user [0-9]*",
        "user [0-9][0-9]* (login|logout)",
        "[1-4][0-9][0-9] ms",
        "[0-9]*-[0-9]*-[0-9]* [0-9:]* [a-z]*-[0-9]* [a-z]*: .*",
    ];
    Workload {
        name: "log by classes: 4 short rules on 2,000 lines of some 80 bytes",
        syntax: Syntax::Second,
        expressions: rules.map(|rule| rule.as_bytes().to_vec()).to_vec(),
        texts: (0..2_000).map(|_| log_line(&mut r)).collect(),
        as_lines: false,
    }
}

/// The days of a leap year with the year before them, and as many texts that are no dates.
fn dates_by_counts() -> Workload {
    let with_year = |year: &str| date_lines().into_iter().map(|date| [year.as_bytes(), b"-", &date].concat()).collect::<Vec<_>>();
    Workload {
        name: "dates by counts: [0-9]{4,4}-[0-9]{2,2}-[0-9]{2,2} on 732 lines of 9 or 10 bytes",
        syntax: Syntax::Second,
        expressions: vec![b"[0-9]{4,4}-[0-9]{2,2}-[0-9]{2,2}".to_vec()],
        texts: [with_year("2028"), with_year("202")].concat(),
        as_lines: false,
    }
}

fn log_by_signs() -> Workload {
    let mut r = Random::new(3);
    let rules = [
        "[0-9]+-[0-9]+-[0-9]+ [0-9:]+ [a-z]+(-[0-9]+)? (error|warning): .+",
        "user [0-9]{1,5} log(in|out)",
        "(in [0-9]+ ms, )?port [0-9]+",
    ];
    Workload {
        name: "log by signs: 3 rules with +, ? and a count on 2,000 lines of some 80 bytes",
        syntax: Syntax::Second,
        expressions: rules.map(|rule| rule.as_bytes().to_vec()).to_vec(),
        texts: (0..2_000).map(|_| log_line(&mut r)).collect(),
        as_lines: false,
    }
}

/// One rule that most of a long text keeps busy: words of letters between anything.
fn words_by_classes() -> Workload {
    let mut r = Random::new(5);
    let text = (0..20 * 1024).map(|_| r.pick(b"abcxyz 0189.:")).collect();
    Workload {
        name: "letters by classes: ([a-z]*[^a-z].)*[0-9]* on 20 KB",
        syntax: Syntax::Second,
        expressions: vec![b"([a-z]*[^a-z].)*[0-9]*".to_vec()],
        texts: vec![text],
        as_lines: false,
    }
}

/// A text of this length that fails at its third byte, of which a match need not read more.
fn early(name: &'static str, length: usize) -> Workload {
    let mut text = b"02x".to_vec();
    text.resize(length, b'2');
    Workload { name, syntax: Syntax::First, expressions: vec![b"02-2(8|9)2*".to_vec()], texts: vec![text], as_lines: false }
}

pub fn all() -> Vec<Workload> {
    let early_failures = [early("fails at its third byte: 10 bytes", 10), early("fails at its third byte: 60,000 bytes", 60_000)];
    let mut all = vec![dates(), words(), stars(), log(), dates_by_classes(), log_by_classes(), words_by_classes()];
    all.extend([dates_by_counts(), log_by_signs()]);
    all.extend(early_failures);
    all
}
