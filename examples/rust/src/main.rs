//! `find FILE KEY`: prints a compiled program file's node count and where its node entries lie,
//! its root nodes with their children, and the values of KEY in its advice map, or `absent`.
//! KEY is 64 hexadecimal digits in the order of the file's bytes, or four decimal numbers with
//! commas between them. Status 1 with the reason on standard error if anything is refused.

use std::error::Error;
use std::process::ExitCode;
use vekalumist::{Facts, Forest, ScanOptions, Word};

fn main() -> ExitCode {
    match find() {
        Ok(()) => ExitCode::SUCCESS,
        Err(reason) => {
            eprintln!("find: {reason}");
            ExitCode::FAILURE
        }
    }
}

fn find() -> Result<(), Box<dyn Error>> {
    let mut args = std::env::args().skip(1);
    let (Some(path), Some(key), None) = (args.next(), args.next(), args.next()) else {
        return Err("usage: find FILE KEY".into());
    };
    let key: Word = key.parse()?;
    let file = std::fs::read(&path).map_err(|reason| format!("{path}: {reason}"))?;
    let options = ScanOptions::new().allow_hashless();
    let forest = Forest::scan(&file, &Facts::STAND_IN, options)?;

    // Sections lie end to end: the entries end where the digests of external nodes start.
    let layout = forest.layout();
    let (start, end) = (layout.node_entry_offset, layout.external_digest_offset);
    let count = layout.node_count;
    println!("{count} nodes, entries at bytes {start} to {end}");
    for root in forest.roots() {
        let root = root?;
        let entry = forest.entry(root)?;
        println!("root: node {root}, {entry}");
        for child in entry.children() {
            println!("  child: node {child}, {}", forest.entry(child)?);
        }
    }

    let mut keys = vec![0; forest.key_places()];
    let map = forest.advice(&mut keys)?;
    match map.get(key)? {
        Some(values) => values.iter().for_each(|value| println!("{value}")),
        None => println!("absent"),
    }
    Ok(())
}
