//! Runs `explain`, the program that the first argument names, on rules of every kind, and compares each output with one that
//! is made here from the nodes of the Rust crate: by a walk down the tree, where the program goes through the records.

use foamlattice::{Expression, Kind, Node};
use std::io::Write;
use std::process::{Command, Stdio, exit};

/// A byte as it is shown.
fn shown(byte: u8) -> String {
    match byte {
        b' '..=b'~' => char::from(byte).to_string(),
        _ => format!("\\x{byte:02x}"),
    }
}

/// Bytes as they are shown.
fn all_shown(bytes: &[u8]) -> String {
    bytes.iter().copied().map(shown).collect()
}

/// The line and the caret of a refused rule: whole where it has at most 78 columns, else 36 on each side of the place.
fn marked(rule: &[u8], place: usize) -> String {
    let (mut start, mut end) = (0, rule.len());
    if all_shown(rule).len() > 78 {
        start = (0..=place).find(|&s| all_shown(&rule[s..place]).len() <= 36).unwrap();
        end = (place..=rule.len()).rev().find(|&e| all_shown(&rule[place..e]).len() <= 36).unwrap();
    }
    let dots = |cut| if cut { "..." } else { "" };
    let before = format!("{}{}", dots(start > 0), all_shown(&rule[start..place]));
    let behind = format!("{}{}", all_shown(&rule[place..end]), dots(end < rule.len()));
    format!("{before}{behind}\n{}^\n", " ".repeat(before.len()))
}

/// What a node is and what it holds.
fn described(kind: Kind) -> String {
    match kind {
        Kind::Character(byte) => format!("character {}", shown(byte)),
        Kind::Catenation { left, right } => format!("catenation of {left} and {right}"),
        Kind::Union { left, right } => format!("union of {left} and {right}"),
        Kind::Star { operand } => format!("star of {operand}"),
        Kind::Class(number) => format!("class {number}"),
        Kind::Empty => "empty text".to_string(),
    }
}

/// The lines of a subtree: its root, then its children from right to left.
fn walk(nodes: &[Node], root: usize, level: usize, above: &mut usize, out: &mut String) {
    let node = nodes[root];
    if node.piece != *above {
        out.push('\n');
    }
    *above = node.piece;
    let indent = " ".repeat(2 * level.min(20));
    out.push_str(&format!("{root:<7}{:<7}{:<7}{indent}{}\n", node.piece, node.place, described(node.kind)));
    for child in node.kind.children().rev() {
        walk(nodes, child, level + 1, above, out);
    }
}

/// What `explain` should print for a rule.
fn expected(rule: &[u8]) -> String {
    let expression = match Expression::new(rule) {
        Ok(expression) => expression,
        Err(refusal) => return format!("{}{refusal}\n", marked(rule, refusal.place())),
    };
    let nodes: Vec<Node> = expression.nodes().collect();
    let mut marks = String::new();
    for (place, &byte) in rule.iter().enumerate() {
        marks.push(if nodes.iter().any(|node| node.place == place) { '^' } else { ' ' });
        marks.push_str(&" ".repeat(shown(byte).len() - 1));
    }
    let mut out = format!("{}\n{marks}\n\nrecord piece  place  node\n", all_shown(rule));
    walk(&nodes, nodes.len() - 1, 0, &mut 0, &mut out);
    out
}

/// What the program prints for an input.
fn printed(program: &str, input: &[u8]) -> String {
    let mut child = Command::new(program).stdin(Stdio::piped()).stdout(Stdio::piped()).spawn().unwrap();
    child.stdin.take().unwrap().write_all(input).unwrap();
    String::from_utf8(child.wait_with_output().unwrap().stdout).unwrap()
}

/// The rules that are tried.
fn rules() -> Vec<Vec<u8>> {
    let short = [
        "a", "ab*", "a|b|c", "((a))", "a*b", "[0-9]+", "a{2,4}(b|[^x-z])*", "a?b", ".", r"\.\*\\", "(abcdefgh(ijklmnop))*",
        "abcdefghi", "[0-9]{4,4}-[0-9]{2,2}-[0-9]{2,2}", "\t\u{7f}[\u{1}-\u{2}]", "a~ b", "", "a)", "(a", "02-2(8|9", "a{2,1}",
        "[b-a]", "a]", r"a\b", "*", "a|", "a{8,8}{15,15}{8,8}", ".{8,8}{15,15}{8,8}b", "a{16,16}{16,16}{5,5}", "\u{1}\u{2}(",
    ];
    let mut rules: Vec<Vec<u8>> = short.iter().map(|rule| rule.as_bytes().to_vec()).collect();
    rules.push(vec![b'x'; 897]);
    rules.push(vec![b'x'; 898]);
    rules.push(vec![b'x'; 1025]);
    rules.push([vec![b'a'; 77], vec![b')']].concat());
    rules.push([vec![b'a'; 78], vec![b')']].concat());
    rules.push([vec![b'a'; 200], b"|*".to_vec(), vec![b'b'; 200]].concat());
    rules.push([vec![200; 40], b"(".to_vec(), vec![201; 40]].concat());
    rules.push([vec![b'('; 32], vec![b'a'], vec![b')'; 32], vec![b'*'; 60]].concat());
    rules.push((0..=255).filter(|byte| ![b'\n', b'\r'].contains(byte)).flat_map(|byte| [b'[', b'a', b']', byte]).take(40).collect());
    rules
}

fn main() {
    let program = std::env::args().nth(1).expect("the program's name");
    let mut tried = 0;
    for rule in rules() {
        for end in ["", "\n", "\r\n", "\nfurther\nlines\n"] {
            let found = printed(&program, &[&rule[..], end.as_bytes()].concat());
            if found != expected(&rule) {
                println!("explain, {:?}: expected, and found:\n{}----\n{found}", String::from_utf8_lossy(&rule), expected(&rule));
                exit(1);
            }
            tried += 1;
        }
    }
    if printed(&program, &[b'a'; 65537]) != "input too long\n" {
        println!("explain, 65,537 bytes: not `input too long`");
        exit(1);
    }
    println!("explain: {} outputs are what the formatter says", tried + 1);
}
