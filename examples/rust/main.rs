//! Reads expressions of both syntaxes, matches some dates, searches a text, steps through another, answers for lines, makes a
//! table of steps, shows places, takes an old list, picks lines, and checks rules as an editor would.

use foamlattice::slices::{CLASS_SIZE, OLD_RECORD_SIZE, RECORD_SIZE};
use foamlattice::{Expression, Refusal};

fn yes_or_no(yes: bool) -> &'static str {
    if yes {
        "yes"
    } else {
        "no"
    }
}

fn main() -> Result<(), Refusal> {
    // An expression that was read owns its records and its classes.
    let written = "02-[0-2][0-9]";
    let february = Expression::new(written)?;
    let (records, classes) = (february.nodes().len(), february.classes().len() / CLASS_SIZE);
    println!("{written} has records: {records}, pieces: {}, classes: {classes}", february.pieces());

    // A full match: whole lines.
    for line in ["02-28", "02-29", "03-01"] {
        println!("{line} {}", yes_or_no(february.is_full_match(line)));
    }

    // Search: the earliest start, then the furthest end; and all parts, one after the other.
    let text = "from 02-28 to 03-01, not 02-29";
    if let Some(part) = february.find(text)? {
        println!("found {} from {} to {}", &text[part.clone()], part.start, part.end);
    }
    let all: Vec<&str> = february.find_iter(text)?.map(|part| &text[part]).collect();
    println!("found {}", all.join(" and "));

    // Step: each step says whether the bytes so far match, and whether nothing is left: then no text that begins so matches,
    // and the rest need not be read.
    for text in ["02-29", "03-01"] {
        let mut marks = february.marks();
        for byte in text.bytes() {
            marks.step(byte);
            println!("after {}: {}", byte as char, yes_or_no(marks.is_full_match()));
            if marks.nothing_left() {
                println!("nothing is left");
                break;
            }
        }
    }

    // Lines: many of them in one call.
    let answers: Vec<&str> = february.lines("02-28\n02-29\r\n03-01\n").into_iter().map(yes_or_no).collect();
    println!("lines: {}", answers.join(" "));

    // A table of steps, made once and kept, for many texts: the answers are the same.
    let quick = february.clone().with_table();
    let states = quick.table().map_or(0, |table| table.states());
    println!("a table of {states} states: 02-29 {}", yes_or_no(quick.is_full_match("02-29")));

    // The first syntax has no classes.
    let first = Expression::plain("02-2(8|9)")?;
    println!("02-2(8|9) in the first syntax: 02-29 {}", yes_or_no(first.is_full_match("02-29")));

    // Places: which byte of the expression made each node, in the order of the records.
    let places: Vec<String> = february.places().map(|place| place.to_string()).collect();
    println!("places of its nodes: {}", places.join(" "));

    // A list of the layout that had no places, as an archive may hold it: each of its records was the first 8 bytes of today's.
    let old: Vec<u8> = february.records().chunks(RECORD_SIZE).flat_map(|record| &record[..OLD_RECORD_SIZE]).copied().collect();
    let archived = Expression::from_old_records(&old, february.classes())?;
    println!("an old list of {} bytes: 02-29 {}", old.len(), yes_or_no(archived.is_full_match("02-29")));

    // Pick: an expression of the first syntax and its texts, a line each, in one call.
    print!("{}", String::from_utf8_lossy(&foamlattice::pick("02-2(8|9)\n02-28\n02-29\n03-01\n")));

    // A rule editor: a refusal has the place of the fault, to be shown under it, and says in words what it is.
    for rule in ["02-2[89]", "02-2(8|9", "02-[9-0]"] {
        println!("{rule}");
        match Expression::new(rule) {
            Ok(read) => println!("good, pieces: {}", read.pieces()),
            Err(refusal) => println!("{:>1$}\n{refusal}", '^', refusal.place() + 1),
        }
    }
    Ok(())
}
