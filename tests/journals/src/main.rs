//! Compares the program's listings with those that are due by a model over the source's rope.
//!
//! journals [--short] [--seed N] -- WORDS...    WORDS are the command that runs the program

mod fields;
mod kinds;
mod model;
mod program;
mod tally;

use std::fs::{self, File};
use std::process::ExitCode;

use notes::texts::Random;

use fields::Fields;
use model::Due;
use program::{Feed, Program, Wrote};
use tally::Tally;

/// Where a journal lies while it is run, and stays if its listing differs.
const FILE: &str = "target/journals/journal";

/// Short journals that are cut at every byte, journals of each kind, those that fill the output, and
/// those of very many fields.
struct Extent {
    cut: usize,
    each: usize,
    brimful: usize,
    numerous: usize,
}

const FULL: Extent = Extent {
    cut: 20,
    each: 150,
    brimful: 10,
    numerous: 3,
};

const SHORT: Extent = Extent {
    cut: 1,
    each: 5,
    brimful: 1,
    numerous: 0,
};

type Kind = fn(&mut Random) -> Fields;

const KINDS: [Kind; 6] = [
    kinds::mixed,
    kinds::full,
    kinds::marked,
    kinds::long,
    kinds::sized,
    kinds::many,
];

fn main() -> ExitCode {
    let words: Vec<String> = std::env::args().skip(1).collect();
    let split = words.iter().position(|word| word == "--");
    let split = split.expect("-- and the program's command");
    let program = Program {
        words: words[split + 1..].to_vec(),
    };
    let options: Vec<&str> = words[..split].iter().map(String::as_str).collect();
    let (extent, seed) = match options[..] {
        [] => (&FULL, Some(0)),
        ["--short"] => (&SHORT, Some(0)),
        ["--seed", seed] => (&FULL, seed.parse().ok()),
        ["--short", "--seed", seed] => (&SHORT, seed.parse().ok()),
        _ => (&FULL, None),
    };
    let seed = match seed {
        Some(seed) => seed,
        None => {
            eprintln!("usage: journals.sh [--short] [--seed N]");
            return ExitCode::from(2);
        }
    };

    println!("journals: seed {seed}");
    let mut tally = Tally::default();
    let compared = compare_all(extent, &mut Random::row(seed), &program, &mut tally);
    tally.print();
    match compared.and_then(|()| tally.hold()) {
        Ok(()) => {
            println!("journals: no difference");
            ExitCode::SUCCESS
        }
        Err(what) => {
            println!("journals: {what}");
            ExitCode::FAILURE
        }
    }
}

fn compare_all(
    extent: &Extent,
    random: &mut Random,
    program: &Program,
    tally: &mut Tally,
) -> Result<(), String> {
    hold_failures(program)?;
    for _ in 0..extent.cut {
        let journal = kinds::short(random);
        for len in 0..=journal.len() {
            let feed = Feed::any(random, len);
            compare(&journal[..len], &feed, program, tally)?;
        }
    }
    for bad in fields::BAD {
        let journal = kinds::spoilt(random, bad);
        let feed = Feed::any(random, journal.len());
        compare(&journal, &feed, program, tally)?;
    }
    // As a file, so that all of it can be listed in one turn.
    for _ in 0..extent.brimful {
        for journal in kinds::brimful(random) {
            compare(&journal, &Feed::File, program, tally)?;
        }
    }
    let each = (0..extent.each).flat_map(|_| KINDS);
    let numerous = (0..extent.numerous).map(|_| kinds::numerous as Kind);
    for kind in each.chain(numerous) {
        let fields = kind(random);
        let journal = kinds::ended(random, fields);
        let feed = Feed::any(random, journal.len());
        compare(&journal, &feed, program, tally)?;
    }
    Ok(())
}

/// Runs the program over a journal and holds it to the listing that is due.
fn compare(
    journal: &[u8],
    feed: &Feed,
    program: &Program,
    tally: &mut Tally,
) -> Result<(), String> {
    let due = model::due(journal);
    tally.add(journal, &due, feed);
    fs::write(FILE, journal).map_err(|e| format!("{FILE}: {e}"))?;
    let wrote = program.run(journal, FILE, feed, due.listing.len() + 1_000);
    wrote
        .and_then(|wrote| hold(&wrote, &due))
        .map_err(|what| format!("{what}\n  the journal is {FILE}, fed by {feed:?}"))
}

fn hold(wrote: &Wrote, due: &Due) -> Result<(), String> {
    let is_listed = wrote.out == due.listing.as_bytes();
    if is_listed && wrote.said.is_empty() && wrote.end.success() {
        return Ok(());
    }
    let ours = String::from_utf8_lossy(&wrote.out);
    let said = String::from_utf8_lossy(&wrote.said);
    let lines = ours.split('\n').zip(due.listing.split('\n'));
    let differs = lines.clone().position(|(ours, due)| ours != due);
    let number = differs.unwrap_or(lines.count());
    let line = |listing: &str| listing.split('\n').nth(number).map(str::to_string);
    Err(format!(
        "line {}: wrote {:?}, due {:?}; says {said:?}, {}",
        number + 1,
        line(&ours),
        line(&due.listing),
        wrote.end
    ))
}

/// An input that cannot be read, a folder, and an output that cannot be written: the program must say
/// so, and write nothing else.
fn hold_failures(program: &Program) -> Result<(), String> {
    let open = |name: &str| File::open(name).map_err(|e| format!("{name}: {e}"));
    let make = |name: &str| File::create(name).map_err(|e| format!("{name}: {e}"));
    let listing = format!("{FILE}.listing");
    let said = program.said(open("target")?, make(&listing)?)?;
    if said != b"recorder: the journal cannot be read\n" {
        return Err(format!(
            "of a folder it says {:?}",
            String::from_utf8_lossy(&said)
        ));
    }
    match fs::metadata(&listing) {
        Ok(file) if file.len() == 0 => {}
        _ => return Err("of a folder it lists something".to_string()),
    }
    let said = program.said(open("/dev/null")?, make("/dev/full")?)?;
    if said != b"recorder: the listing cannot be written\n" {
        return Err(format!(
            "of a full output it says {:?}",
            String::from_utf8_lossy(&said)
        ));
    }
    Ok(())
}
