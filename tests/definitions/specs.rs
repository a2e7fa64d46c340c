//! The files of definitions and lemmas below `crates/*/specs/` and `crates/*/proofs/`, and the contracts in `crates/*/src/`, as
//! far as names go.

use std::collections::{BTreeMap, BTreeSet};
use std::fs;

/// A definition or a lemma: its lines of code, without comments, and the parameters of the modules that it stands in.
pub struct Item {
    pub is_definition: bool,
    pub lines: Vec<String>,
    parameters: Vec<String>,
}

/// A file: its items in their order, the item that each constructor belongs to, and what each name brought in stands for.
#[derive(Default)]
pub struct File {
    pub order: Vec<String>,
    pub items: BTreeMap<String, Item>,
    constructors: BTreeMap<String, String>,
    brought: BTreeMap<String, Name>,
}

/// A name in a file, which is told by its path below `crates/`.
pub type Name = (String, String);

/// The words of a line that can be names.
fn words(line: &str) -> impl Iterator<Item = &str> {
    line.split(|c: char| c.is_whitespace() || "(){}[],;.".contains(c)).filter(|w| !w.is_empty())
}

/// The names that `use Rattle.CRATE.specs.FILE.{a, b as c}`, or the same of proofs, brings in, under the names that they get.
fn brought(text: &str) -> BTreeMap<String, Name> {
    let mut names = BTreeMap::new();
    for part in text.split("use Rattle.").skip(1) {
        let Some((from, list)) = part.split('}').next().and_then(|p| p.split_once(".{")) else { continue };
        if from.contains(char::is_whitespace) {
            continue;
        }
        let path = from.replace('.', "/") + ".antt";
        for name in list.split(',').map(str::trim).filter(|n| !n.is_empty()) {
            let (here, there) = name.split_once(" as ").map_or((name, name), |(there, here)| (here, there));
            names.insert(here.to_string(), (path.clone(), there.to_string()));
        }
    }
    names
}

/// The name that a line gives to a new item, and whether that is a definition.
fn head(line: &str) -> Option<(&str, bool)> {
    let mut rest = line;
    let mut is_definition = false;
    while let Some(after) = ["abbrev ", "unfoldable ", "data ", "record ", "pub "].iter().find_map(|k| rest.strip_prefix(k)) {
        is_definition = is_definition || !rest.starts_with("pub ");
        rest = after.trim_start();
    }
    let name = rest.split([' ', ':']).next()?;
    let signed = rest[name.len()..].trim_start().starts_with(':');
    (!name.starts_with(['(', '{']) && (signed || is_definition)).then_some((name, is_definition))
}

fn parse(text: &str) -> File {
    let mut file = File { brought: brought(text), ..File::default() };
    let mut current: Option<(String, usize)> = None;
    let mut modules: Vec<(usize, String)> = vec![];
    let (mut in_use, mut in_module) = (false, false);
    for line in text.lines().filter(|l| !l.trim().is_empty() && !l.trim().starts_with("--")) {
        let code = line.trim();
        let depth = line.len() - line.trim_start().len();
        if in_use || code.starts_with("use ") || code.starts_with("pub use ") {
            in_use = !code.contains('}') && (in_use || code.contains('{'));
            continue;
        }
        if !in_module {
            modules.retain(|(d, _)| *d < depth);
        }
        if in_module || code.starts_with("module ") {
            let begun = if in_module { modules.last().map_or(depth, |(d, _)| *d) } else { depth };
            modules.push((begun, code.to_string()));
            in_module = !code.ends_with("where");
            current = None;
            continue;
        }
        let inside = current.as_ref().is_some_and(|(_, d)| depth > *d);
        if let Some((name, is_definition)) = head(code).filter(|_| !inside) {
            file.order.push(name.to_string());
            let parameters = modules.iter().map(|(_, head)| head.clone()).collect();
            file.items.insert(name.to_string(), Item { is_definition, lines: vec![code.to_string()], parameters });
            current = Some((name.to_string(), depth));
        } else if let Some((name, _)) = &current {
            let item = file.items.get_mut(name).expect("an item is entered when it begins");
            item.lines.push(code.to_string());
            let signed = code.split_once(" :").filter(|(before, _)| !before.contains(['(', '{', '→']));
            if let Some((constructors, _)) = signed.filter(|_| item.lines[0].contains("data ")) {
                file.constructors.extend(words(constructors).map(|c| (c.to_string(), name.clone())));
            }
        }
    }
    file
}

/// All files, by their paths.
pub struct Specs(BTreeMap<String, File>);

impl Specs {
    pub fn load(crates: &[String]) -> Specs {
        let mut files = BTreeMap::new();
        let mut folders: Vec<String> = crates.iter().flat_map(|c| [format!("{c}/specs"), format!("{c}/proofs")]).collect();
        while let Some(folder) = folders.pop() {
            let Ok(entries) = fs::read_dir(format!("crates/{folder}")) else { continue };
            for entry in entries.flatten() {
                let path = format!("{folder}/{}", entry.file_name().to_string_lossy());
                if entry.path().is_dir() {
                    folders.push(path);
                } else if let Ok(text) = fs::read_to_string(entry.path()) {
                    files.insert(path, parse(&text));
                }
            }
        }
        Specs(files)
    }

    pub fn file(&self, path: &str) -> Option<&File> {
        self.0.get(path)
    }

    pub fn item(&self, name: &Name) -> Option<&Item> {
        self.0.get(&name.0)?.items.get(&name.1)
    }

    /// The item that a word in a file stands for, followed to where it is defined.
    fn resolve(&self, path: &str, word: &str) -> Option<Name> {
        let file = self.0.get(path)?;
        if let Some(owner) = file.constructors.get(word) {
            return Some((path.to_string(), owner.clone()));
        }
        if file.items.contains_key(word) {
            return Some((path.to_string(), word.to_string()));
        }
        let (there, name) = file.brought.get(word)?;
        self.resolve(there, name)
    }

    /// The items that an item's lines name; of a lemma, those that its statement names.
    fn named_by(&self, name: &Name) -> Vec<Name> {
        let Some(item) = self.item(name) else { return vec![] };
        let clause = |l: &String| !item.is_definition && (l.starts_with("unfolding ") || words(l).next() == Some(&name.1));
        let statement = item.lines.iter().enumerate().take_while(|(i, l)| *i == 0 || !clause(l)).map(|(_, l)| l);
        item.parameters.iter().chain(statement).flat_map(|l| words(l)).filter_map(|w| self.resolve(&name.0, w)).collect()
    }

    /// All definitions that can be reached from these items through definitions.
    pub fn reached(&self, from: impl IntoIterator<Item = Name>) -> BTreeSet<Name> {
        let mut todo: Vec<Name> = from.into_iter().flat_map(|n| self.with_named(n)).collect();
        let mut reached = BTreeSet::new();
        while let Some(name) = todo.pop() {
            if self.item(&name).is_some_and(|item| item.is_definition) && reached.insert(name.clone()) {
                todo.extend(self.named_by(&name));
            }
        }
        reached
    }

    fn with_named(&self, name: Name) -> Vec<Name> {
        let mut names = self.named_by(&name);
        names.push(name);
        names
    }

    /// What the contract of a function names; `None` where the file has no such function.
    pub fn contract(&self, source: &str, function: &str) -> Option<Vec<Name>> {
        let text = fs::read_to_string(format!("crates/{source}")).ok()?;
        let names = brought(&text);
        let at = text.find(&format!("fn {function}("))?;
        let contract = text[at..].split("\n{\n").next()?;
        let named = words(contract).filter_map(|w| names.get(w)).filter_map(|(path, name)| self.resolve(path, name));
        Some(named.collect())
    }
}
