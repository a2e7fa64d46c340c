//! Draws an expression's tree as SVG: its nodes, its pieces as shaded regions with their stand-ins, and the numbers of all states.
//! `cargo run --example picture -- 'RULE' > rule.svg`; the rule is of the second syntax.

mod drawing;
mod layout;
mod own_trees;
mod written;

use foamlattice::{Expression, Refusal};
use std::env;
use std::process::ExitCode;

/// The picture of a rule.
fn picture(rule: &str) -> Result<String, Refusal> {
    let expression = Expression::new(rule)?;
    let root = own_trees::root(&expression);
    let written = written::bytes(rule.as_bytes(), &expression);
    Ok(drawing::draw(&written, &layout::place(&root, rule.as_bytes())))
}

fn main() -> ExitCode {
    let arguments: Vec<String> = env::args().skip(1).collect();
    let [rule] = &arguments[..] else {
        eprintln!("usage: picture RULE");
        return ExitCode::from(2);
    };
    match picture(rule) {
        Ok(svg) => {
            print!("{svg}");
            ExitCode::SUCCESS
        }
        Err(refusal) => {
            eprintln!("{}\n{refusal}", written::with_caret(rule.as_bytes(), refusal.place()));
            ExitCode::FAILURE
        }
    }
}
