//! `mast layout`: the page that the small program prints and how many counts are long, and in JSON every field of the layout.

use std::io::{self, Write};

use vekalumist::{AdviceMap, Forest};

use crate::args::Run;
use crate::tell::Value::{None, Number};
use crate::tell::{table, Stop, Tell};

pub fn run(run: &Run, bytes: &[u8], tell: &mut Tell<'_>) -> Result<(), Stop> {
    let mut keys = Vec::new();
    match scanned_and_walked(run, bytes, &mut keys) {
        Ok((forest, map)) if tell.json => fields(&forest, &map, tell),
        Ok((forest, map)) => {
            page(&forest, &map, tell.out)?;
            let [all, scan, map] = long_counts(&forest, &map);
            Ok(writeln!(tell.out, "long counts {all} scan {scan} map {map}")?)
        }
        Err(Stop::Refused(refusal)) if !tell.json => {
            writeln!(tell.out, "refused {} at {}", refusal.kind.number(), refusal.place.number())?;
            Err(Stop::Refused(refusal))
        }
        Err(stop) => Err(stop),
    }
}

fn scanned_and_walked<'a, 'k>(run: &Run, bytes: &'a [u8], keys: &'k mut Vec<u64>) -> Result<(Forest<'a>, AdviceMap<'a, 'k>), Stop> {
    let forest = run.scan(bytes)?;
    *keys = table(forest.key_places())?;
    let map = forest.advice(keys)?;
    Ok((forest, map))
}

/// How many counts are long: of all, of those that the scan reads, and of the map's.
fn long_counts(forest: &Forest<'_>, map: &AdviceMap<'_, '_>) -> [usize; 3] {
    let scan = forest.long_counts().unwrap_or(0); // a scan made it, so it has the number
    [scan + map.long_counts(), scan, map.long_counts()]
}

fn page(forest: &Forest<'_>, map: &AdviceMap<'_, '_>, out: &mut dyn Write) -> io::Result<()> {
    let at = forest.layout();
    writeln!(out, "nodes {} internal {} external {}", at.node_count, at.internal_node_count, at.external_node_count)?;
    writeln!(out, "roots {} at {}", at.roots_count, at.roots_offset)?;
    writeln!(out, "blocks {} at {}", at.basic_block_len, at.basic_block_offset)?;
    writeln!(out, "entries at {}", at.node_entry_offset)?;
    writeln!(out, "external digests at {}", at.external_digest_offset)?;
    match at.node_hash_offset() {
        Some(at) => writeln!(out, "node hashes at {at}")?,
        Option::None => writeln!(out, "node hashes none")?,
    }
    writeln!(out, "advice at {} end {}", at.advice_map_offset, map.end())
}

fn fields(forest: &Forest<'_>, map: &AdviceMap<'_, '_>, tell: &mut Tell<'_>) -> Result<(), Stop> {
    let at = forest.layout();
    let [all_long, scan_long, map_long] = long_counts(forest, map);
    Ok(tell.record(&[
        ("bytes", "", Number(forest.bytes().len())),
        ("flags", "", Number(forest.flags()?.into())),
        ("node_count", "", Number(at.node_count)),
        ("internal_node_count", "", Number(at.internal_node_count.0)),
        ("external_node_count", "", Number(at.external_node_count.0)),
        ("roots_count", "", Number(at.roots_count)),
        ("roots_offset", "", Number(at.roots_offset.0)),
        ("basic_block_offset", "", Number(at.basic_block_offset.0)),
        ("basic_block_len", "", Number(at.basic_block_len)),
        ("node_entry_offset", "", Number(at.node_entry_offset.0)),
        ("external_digest_offset", "", Number(at.external_digest_offset.0)),
        ("node_hash_offset", "", at.node_hash_offset().map_or(None, |at| Number(at.0))),
        ("advice_map_offset", "", Number(at.advice_map_offset.0)),
        ("advice_map_entries", "", Number(map.len())),
        ("advice_map_end", "", Number(map.end().0)),
        ("trailing", "", Number(map.trailing())),
        ("long_counts", "", Number(all_long)),
        ("scan_long_counts", "", Number(scan_long)),
        ("advice_map_long_counts", "", Number(map_long)),
    ])?)
}
