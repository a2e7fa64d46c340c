//! The program `pick` and the library's call of it, against the output as docs/REFERENCE.md describes it.

use crate::generate::{self, Random};
use crate::{calls, expected, growing, program};
use foamlattice::slices::MOST_OUTPUT;
use std::process::Output;
use std::time::Duration;

/// The lines of an input: cut at each byte 10, and then a byte 13 taken from the end of each that had a 10; what follows the
/// last 10 is a line as it stands, if there is a byte.
fn lines(input: &[u8]) -> Vec<&[u8]> {
    let mut lines: Vec<&[u8]> = input.split(|&b| b == b'\n').collect();
    let last = lines.pop().filter(|line| !line.is_empty());
    lines.iter_mut().for_each(|line| *line = line.strip_suffix(b"\r").unwrap_or(line));
    lines.extend(last);
    lines
}

fn expected_output(input: &[u8]) -> String {
    if input.len() > 65_536 {
        return "input too long\n".into();
    }
    let lines = lines(input);
    let (expression, texts) = lines.split_first().map_or((&b""[..], &[][..]), |(first, rest)| (*first, rest));
    let tree = match expected::read(expression) {
        Err((number, place)) => return format!("refused {number} at {place}\n"),
        Ok(tree) if expected::pieces(&tree).1 > 128 => return "refused 8 at 0\n".into(),
        Ok(tree) => tree,
    };
    let automaton = expected::automaton(&tree, vec![]);
    let is_match = |text: &[u8]| match text.len() {
        0..=127 => expected::is_match(&expected::parts(&tree, &[], text)),
        length => automaton.ends(text).last() == Some(&length),
    };
    let mut out = String::new();
    let mut yes = 0;
    for (number, text) in texts.iter().enumerate() {
        if is_match(text) {
            yes += 1;
            out += &format!("{} yes {yes}\n", number + 1);
        } else {
            out += &format!("{} no -\n", number + 1);
        }
    }
    out + &format!("total {} yes {yes} no {}\n", texts.len(), texts.len() - yes)
}

/// The exit status of the script for an output: 1 where the expression or the whole input is refused.
fn script_status(output: &str) -> i32 {
    i32::from(output.starts_with("refused") || output == "input too long\n")
}

/// Holds what was printed, and the exit status, against what they should be for all parts of the input together.
fn hold(parts: &[&[u8]], output: Output, status: fn(&str) -> i32) {
    let input = parts.concat();
    let expected = expected_output(&input);
    if output.stdout != expected.as_bytes() || output.status.code() != Some(status(&expected)) {
        let sent: Vec<usize> = parts.iter().map(|part| part.len()).collect();
        println!("pick differs on \"{}\", sent in parts of {sent:?} bytes", input.escape_ascii());
        println!(
            "  it printed: \"{}\", {}\n  expected:   \"{}\"",
            output.stdout.escape_ascii(),
            output.status,
            expected.escape_default()
        );
        std::process::exit(1);
    }
}

fn compare_parts(parts: &[&[u8]], pause: Duration) {
    hold(parts, program::run_in_parts(parts, pause), script_status);
}

fn compare_run(input: &[u8]) {
    compare_parts(&[input], Duration::ZERO);
}

/// An expression, a damaged one time in five.
fn random_expression(r: &mut Random, size: usize, letters: &[u8]) -> Vec<u8> {
    let mut e = vec![];
    generate::expression(r, size, 6, letters, &mut e);
    if r.one_in(5) {
        generate::damage(r, &mut e, b"ab()|*\\\n");
    }
    e
}

/// The ends of an input's lines: all 10, all 13 and 10, or mixed, with a 13 to spare too.
const ENDS: [&[&[u8]]; 3] = [&[b"\n"], &[b"\r\n"], &[b"\n", b"\r\n", b"\r\r\n"]];

fn add_end(r: &mut Random, ends: &[&[u8]], input: &mut Vec<u8>) {
    input.extend(ends[r.below(ends.len())]);
}

/// Adds a line that is in or near the language of an expression, or one of any letters, after the end of the line before.
fn add_line(r: &mut Random, e: &[u8], letters: &[u8], ends: &[&[u8]], input: &mut Vec<u8>) {
    add_end(r, ends, input);
    input.extend(if r.one_in(2) { generate::text(r, e, 20) } else { r.bytes(4, letters) });
}

/// An expression and some lines, with and without a last end.
fn random_input(r: &mut Random, size: usize, letters: &[u8]) -> Vec<u8> {
    let e = random_expression(r, size, letters);
    let ends = ENDS[r.below(ENDS.len())];
    let mut input = e.clone();
    for _ in 0..r.below(20) {
        add_line(r, &e, letters, ends, &mut input);
    }
    if r.one_in(2) {
        add_end(r, ends, &mut input);
    }
    input
}

/// An expression and lines, so many that the input has just this length.
fn long_input(r: &mut Random, length: usize) -> Vec<u8> {
    let e = random_expression(r, 12, b"ab\r");
    let ends = ENDS[r.below(ENDS.len())];
    let mut input = e.clone();
    while input.len() < length {
        add_line(r, &e, b"ab\r", ends, &mut input);
    }
    input.truncate(length);
    input
}

/// Inputs with bytes 13: before a 10, before another 13, before another byte, last of all, alone; in the expression's line
/// and in those of texts.
fn edges_of_ends() -> Vec<Vec<u8>> {
    let mut inputs = [
        &b"02-2(8|9)\r\n02-28\r\n02-29\n03-01\r\n"[..],
        b"a\r\na\r\n",
        b"a\r\na\r\r\na\rb\na\r",
        b"a\r\r\na\r\r\na\r",
        b"a\rb\r\na\rb\n",
        b"\r*\n\r\r\r\n\n\r",
        b"\r\n\r\n",
        b"\r\r\n\r",
    ]
    .map(<[u8]>::to_vec)
    .to_vec();
    // 1,023 to 1,026 bytes of an expression that is not too large, with each end and with a last 13 that is none
    let most = "\\(".repeat(512);
    for e in [&most[1..], &most, &format!("{most}a"), &format!("{most}\\(")] {
        inputs.extend(["\n", "\r\n", "\r\r\n", "\r"].map(|end| format!("{e}{end}").into_bytes()));
    }
    for length in 65_533..=65_539 {
        let mut one_line = b"(a|b|\r)*\r\n".to_vec();
        one_line.resize(length, b'a');
        let pairs = b"\r*\n".iter().chain(b"\r\n".iter().cycle()).copied().take(length).collect();
        inputs.extend([[&one_line[..length - 2], b"\r\n"].concat(), [&one_line[..length - 1], b"\r"].concat(), pairs]);
    }
    inputs
}

/// The sample of the reference, inputs with no line or one, expressions refused for their size, both sides of 65,536 bytes,
/// and all kinds of ends.
fn edges() -> Vec<Vec<u8>> {
    let mut inputs: Vec<Vec<u8>> = vec![b"02-2(8|9)\n02-28\n02-29\n03-01\n".to_vec()];
    inputs.extend([&b""[..], b"\n", b"\n\n", b"a", b"a\n", b"a\n\n", b"a*\n\n", b"a)\na\n"].map(<[u8]>::to_vec));
    let (groups, letters) = (["(".repeat(33), "a".into(), ")".repeat(33)].concat(), "a".repeat(898));
    inputs.extend([groups, letters].map(|e| format!("{e}\na\n").into_bytes()));
    for length in [65_535, 65_536, 65_537, 200_000] {
        let mut one_line = b"(a|b)*\n".to_vec();
        one_line.resize(length, b'a');
        let mut empty_lines = b"a*".to_vec();
        empty_lines.resize(length, b'\n');
        inputs.extend([one_line, empty_lines, vec![b'a'; length]]);
    }
    inputs.extend(edges_of_ends());
    inputs
}

/// The program on the edges and on random inputs.
pub fn compare_runs(r: &mut Random) -> usize {
    let edges = edges();
    edges.iter().for_each(|input| compare_run(input));
    let rounds = 200;
    for _ in 0..rounds {
        let size = 1 + r.below(30);
        compare_run(&random_input(r, size, b"ab\r\x00"));
    }
    edges.len() + rounds + program::compare_failures()
}

/// The input cut at these places, those that lie inside it.
fn cut<'a>(input: &'a [u8], places: &[usize]) -> Vec<&'a [u8]> {
    let mut parts = vec![];
    let mut from = 0;
    for &place in places.iter().filter(|&&place| place < input.len()) {
        parts.push(&input[from..place]);
        from = place;
    }
    parts.push(&input[from..]);
    parts
}

/// Cuttings of an input of this length: near its ends, into parts of a page, of a byte more and less and of two pages, round
/// each multiple of 4,096, and anywhere.
fn cuttings(r: &mut Random, length: usize) -> Vec<Vec<usize>> {
    let mut cuttings =
        vec![vec![1], vec![length / 2], vec![length - 1], vec![4_096], vec![65_535], vec![65_536], vec![1, length - 1]];
    cuttings.extend([4_095, 4_096, 4_097, 8_192].map(|size| (1..=length / size).map(|i| i * size).collect()));
    for _ in 0..4 {
        let mut places: Vec<usize> = (0..1 + r.below(12)).map(|_| 1 + r.below(length - 1)).collect();
        places.sort();
        places.dedup();
        cuttings.push(places);
    }
    cuttings
}

/// The program on inputs that come in parts: short ones byte by byte, with pauses and with an interrupted read between the
/// bytes, with and without a last end; others of 4,096, 65,536 and 65,537 bytes and those beside them, in several cuttings.
pub fn compare_runs_in_parts(r: &mut Random) -> usize {
    let mut count = 0;
    let sample = b"02-2(8|9)\n02-28\n02-29\n03-01\n";
    for input in [&sample[..], b"a*b\naab\nb\nba", b"a|\na", b"(a|b)*\n\n\nab", b"a*b\r\nab\r\n\r\nb\r\r\nb\r"] {
        let bytes: Vec<&[u8]> = input.chunks(1).collect();
        for pause in [0, 1, 20] {
            compare_parts(&bytes, Duration::from_millis(pause));
        }
        // The program itself has no exit status but 0.
        hold(&bytes, program::run_interrupted(&bytes), |_| 0);
        count += 4;
    }
    for length in [4_095, 4_096, 4_097, 8_192, 65_535, 65_536, 65_537] {
        let mut one_line = b"(a|b)*\n".to_vec();
        one_line.resize(length, b'a');
        for input in [one_line, long_input(r, length)] {
            for places in cuttings(r, length) {
                compare_parts(&cut(&input, &places), Duration::ZERO);
                count += 1;
            }
        }
    }
    count
}

/// An expression and lines over its letters, with so many bytes of texts.
fn input_of_texts(r: &mut Random, e: &[u8], bytes: usize) -> Vec<u8> {
    let mut texts = vec![];
    while texts.len() < bytes {
        texts.extend(if r.one_in(2) { generate::text(r, e, 40) } else { r.bytes(20, b"ab") });
        texts.push(b'\n');
    }
    [e, b"\n", &texts[..bytes]].concat()
}

/// Inputs on both sides of the 4,000 and 8,000 bytes of texts from which on there is room for a table of steps: of
/// expressions with 2 to the n + 1 states, for n = 8 too many for the small room, from n = 9 on for the large one, of one with
/// too many pieces for both, and of random ones.
fn inputs_for_tables(r: &mut Random) -> Vec<Vec<u8>> {
    let growing = [1, 4, 8, 9, 12].map(|n| ["(a|b)*a", &"(a|b)".repeat(n)].concat().into_bytes());
    let mut expressions = [&growing[..], &[vec![b'a'; 897], b"(a|\0|\xff)*b".to_vec()]].concat();
    expressions.extend((0..20).map(|_| random_expression(r, 30, b"ab\xff")));
    let sizes = [3_999, 4_000, 7_999, 8_000, 20_000];
    expressions.iter().flat_map(|e| sizes.map(|bytes| input_of_texts(r, e, bytes))).collect()
}

fn compare_call(input: &[u8], room: usize) {
    calls::pick(input, room, expected_output(input).as_bytes());
}

/// The library's call on the edges and all beginnings of the short ones, on random inputs over a few bytes and over all, and
/// on long ones, with and without a table of steps; in buffers that just fit, have bytes to spare, or are too short.
pub fn compare_calls(r: &mut Random) -> usize {
    let mut count = 0;
    for input in edges() {
        let shortest = if input.len() > 100 { input.len() } else { 0 };
        for end in shortest..=input.len() {
            for room in [0, MOST_OUTPUT - 1, MOST_OUTPUT, MOST_OUTPUT + 9] {
                compare_call(&input[..end], room);
                count += 1;
            }
        }
    }
    let every = generate::all_bytes();
    let in_lines: Vec<u8> = every.iter().copied().filter(|&b| b != b'\n').collect();
    let rounds = 6_000;
    for round in 0..rounds {
        let letters: &[u8] = [&b"ab\r\x00"[..], b"ab", &in_lines, &every][round % 4];
        let size = growing(r, if round % 9 == 0 { 400 } else { 40 }, round, rounds);
        let input = random_input(r, size, letters);
        compare_call(&input, if r.one_in(8) { MOST_OUTPUT - 1 - r.below(2_000) } else { MOST_OUTPUT + r.below(3) });
    }
    let mut long = inputs_for_tables(r);
    long.extend([60_000, 65_535, 65_536, 65_536, 65_536, 65_537].map(|length| long_input(r, length)));
    long.iter().for_each(|input| compare_call(input, MOST_OUTPUT));
    count + rounds + long.len()
}
