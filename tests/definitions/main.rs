//! The definitions that the public contracts rest on, found by following names, with their lines counted; then those that the
//! theorems cited in docs/PROMISES.md add. Writes both tables into that page, or with `--check` compares them. Fails where the
//! page or docs/DECISIONS.md cites a name that is not in its file, or where the must-fail edits that it lists are not those of
//! the crates.

mod specs;

use specs::{Name, Specs};
use std::collections::BTreeSet;
use std::fs;
use std::process::exit;

const PAGE: &str = "docs/PROMISES.md";
const DECISIONS: &str = "docs/DECISIONS.md";
const BEGIN: &str = "<!-- made by tests/definitions/run -->\n";
const END: &str = "<!-- end -->\n";

/// The calls of the outside interface, which are exported under these names.
const CALLS: [&str; 15] = [
    "foam_check",
    "foam_check2",
    "foam_read",
    "foam_read2",
    "foam_match",
    "foam_search",
    "foam_start",
    "foam_step",
    "foam_steps",
    "foam_lines",
    "foam_lines_table",
    "foam_table",
    "foam_match_table",
    "foam_widen",
    "foam_pick",
];

/// The functions that make up the product, by their source files.
const ENTRY_POINTS: [(&str, &[&str]); 15] = [
    ("deciding/src/good.rt", &["decide"]),
    ("widen/src/lib.rt", &["widen"]),
    ("checker/src/lib.rt", &["check", "check_second"]),
    ("reader/src/lib.rt", &["read", "read_second"]),
    ("marks/src/lib.rt", &["start", "step", "steps"]),
    ("finder/src/lib.rt", &["is_match", "search"]),
    ("lines/src/lib.rt", &["lines"]),
    ("running/src/lib.rt", &["match_table"]),
    ("table_lines/src/lib.rt", &["lines_by_table"]),
    ("making/src/lib.rt", &["make_table"]),
    ("picker/src/lib.rt", &["pick"]),
    ("showing/src/lib.rt", &["refusal"]),
    ("explaining/src/lib.rt", &["explain"]),
    ("foamlattice/src/lib.rt", &CALLS),
    ("foamlattice_c/src/lib.rt", &CALLS),
];

/// The crates, lowest first.
fn crates() -> Vec<String> {
    let text = fs::read_to_string("crates.txt").expect("crates.txt");
    text.lines().filter(|l| !l.starts_with('#')).filter_map(|l| l.split([' ', ':']).next()).map(str::to_string).collect()
}

/// The files below a folder in the order in which a file lists them, each followed by those that it lists itself.
fn listed(list: &str, folder: &str) -> Vec<String> {
    let text = fs::read_to_string(format!("crates/{list}")).unwrap_or_default();
    let modules = text.lines().filter_map(|l| l.strip_prefix("pub mod ").or(l.strip_prefix("mod ")));
    let files = modules.map(|m| format!("{folder}/{}", m.trim()));
    files.flat_map(|f| [vec![format!("{f}.antt")], listed(&format!("{f}.antt"), &f)].concat()).collect()
}

/// The files of a crate in the order in which its two Libs list them.
fn reading_order(name: &str) -> Vec<String> {
    ["specs", "proofs"].map(|part| listed(&format!("{name}/{part}/Lib.antt"), &format!("{name}/{part}"))).concat()
}

/// What stands in backquotes in the last cell of a row.
fn last_cell(row: &str) -> impl Iterator<Item = &str> {
    row.trim_end_matches(" |").rsplit(" | ").next().unwrap_or("").split('`').skip(1).step_by(2)
}

/// The pairs of names and files that a row of the page cites: names, then the file that they stand in.
fn cited(row: &str) -> Vec<Name> {
    let mut names: Vec<&str> = vec![];
    let mut pairs = vec![];
    for word in last_cell(row) {
        if word.ends_with(".antt") {
            pairs.extend(names.drain(..).map(|n| (word.to_string(), n.to_string())));
        } else if !word.contains("::") && !word.starts_with("foam_") {
            names.push(word);
        }
    }
    pairs
}

/// The edits that a row of the page lists: `NAME: edit`, then others of the same crate.
fn listed_edits(row: &str) -> Vec<String> {
    let mut name = None;
    let mut edits = vec![];
    for word in last_cell(row) {
        let edit = word.split_once(": ").map_or(word, |(of, edit)| {
            name = Some(of);
            edit
        });
        edits.extend(name.map(|n| format!("{n}/must-fail/{edit}.edit")));
    }
    edits
}

/// The edits that there are.
fn edits() -> BTreeSet<String> {
    let entries = crates().into_iter().filter_map(|c| Some((fs::read_dir(format!("crates/{c}/must-fail")).ok()?, c)));
    entries.flat_map(|(d, c)| d.flatten().map(move |e| format!("{c}/must-fail/{}", e.file_name().to_string_lossy()))).collect()
}

/// A table of definitions, file by file in reading order, and how many lines they have together.
fn table(specs: &Specs, names: &BTreeSet<Name>) -> String {
    let mut text = String::from("| File | Definitions | Lines | Lines of lemmas beside them |\n|---|---|---|---|\n");
    let (mut total, mut beside) = (0, 0);
    for path in crates().iter().flat_map(|c| reading_order(c)) {
        let Some(file) = specs.file(&path) else { continue };
        let here: Vec<&String> = file.order.iter().filter(|n| names.contains(&(path.clone(), n.to_string()))).collect();
        let lines: usize = here.iter().map(|n| file.items[*n].lines.len()).sum();
        if lines > 0 {
            let list: Vec<String> = here.iter().map(|n| format!("`{n}`")).collect();
            let lemmas: usize = file.items.values().filter(|i| !i.is_definition).map(|i| i.lines.len()).sum();
            text += &format!("| `{path}` | {} | {lines} | {lemmas} |\n", list.join(", "));
            total += lines;
            beside += lemmas;
        }
    }
    text + &format!("| together | | {total} | {beside} |\n")
}

fn main() {
    let specs = Specs::load(&crates());
    let page = fs::read_to_string(PAGE).expect(PAGE);
    let mut wrong = vec![];

    let mut roots = vec![];
    for (source, function) in ENTRY_POINTS.iter().flat_map(|(s, fs)| fs.iter().map(move |f| (s, f))) {
        match specs.contract(source, function) {
            Some(names) => roots.extend(names),
            None => wrong.push(format!("no function {function} in {source}")),
        }
    }
    let contracts = specs.reached(roots);

    let (before, rest) = page.split_once(BEGIN).expect("the page has a place for the tables");
    let (_, after) = rest.split_once(END).expect("the place has an end");
    let rows = || before.lines().chain(after.lines()).filter(|l| l.starts_with('|'));
    let listed: BTreeSet<String> = rows().flat_map(listed_edits).collect();
    wrong.extend(edits().symmetric_difference(&listed).map(|e| format!("not both there and listed: {e}")));
    let pairs: Vec<Name> = rows().flat_map(cited).collect();
    let decisions = fs::read_to_string(DECISIONS).expect(DECISIONS);
    let elsewhere: Vec<Name> = decisions.lines().filter(|l| l.starts_with('|')).flat_map(cited).collect();
    let missing = pairs.iter().chain(&elsewhere).filter(|p| specs.item(p).is_none());
    wrong.extend(missing.map(|(path, name)| format!("no {name} in {path}")));
    let theorems = pairs.into_iter().filter(|p| specs.item(p).is_some_and(|item| !item.is_definition));
    let added = specs.reached(theorems).difference(&contracts).cloned().collect();

    let tables = format!("{}\nThe theorems cited on this page add:\n\n{}", table(&specs, &contracts), table(&specs, &added));
    let made = format!("{before}{BEGIN}{tables}{END}{after}");
    if std::env::args().any(|a| a == "--check") {
        if made != page {
            wrong.push("its tables of definitions are not those of the crates: tests/definitions/run writes them".into());
        }
    } else {
        fs::write(PAGE, made).expect(PAGE);
    }
    for problem in &wrong {
        println!("docs: {problem}");
    }
    exit(i32::from(!wrong.is_empty()));
}
