//! What the published code answers, in document 01's numbers and places.
//!
//! The number comes from the error's kind and text. The place: for SHORT in the scan, the offset
//! at which the published `TrackingReader` stood; for TAG and PAYLOAD in the scan and for the map,
//! where the read in question began, as noted by the shim reader; for a check over the nodes, how
//! many entries were read; else the start of the field that the text names.
use std::panic;

use super::{
    MastNodeEntry,
    direct::{self, Forest, Map, Scanned},
};
use crate::{Error, Layout, Word, shims::trace};

/// A refusal of the published code.
#[derive(Debug, Clone, PartialEq, Eq)]
pub struct Refused {
    /// Document 01's number; none where it has no such refusal, or the error does not decide.
    pub number: Option<u8>,
    pub place: Option<usize>,
    pub text: String,
    /// The slot table of all nodes, which the published code builds first, was refused.
    pub building_table: bool,
}

/// An accepted file: its flags byte, its layout, and where its four counts began.
#[derive(Debug, Clone, Copy, PartialEq, Eq)]
pub struct File {
    pub flags: u8,
    pub layout: Layout,
    pub counts: [usize; 4],
}

/// One entry of a walked map.
#[derive(Debug, Clone, Copy, PartialEq, Eq)]
pub struct Row {
    pub key: [u64; 4],
    pub key_at: usize,
    pub values_at: usize,
    pub len: usize,
}

// REFUSALS
// ================================================================================================

/// Pieces of the published texts; those marked are the shims'.
const TEXTS: [(&str, u8); 24] = [
    ("Invalid magic bytes", 2),
    ("Unsupported version", 3),
    ("Unknown flags set", 4),
    ("HASHLESS flag is set", 5),
    ("node count overflow", 6),
    ("roots length overflow", 6),
    ("core payload length overflow", 6),
    ("offset overflow", 6),
    ("root length overflow", 6),
    ("node entry length overflow", 6),
    ("digest length overflow", 6),
    ("advice value length overflow", 6),
    ("exceeds maximum allowed", 7),
    ("exceeds reader allocation bound", 8),
    ("exceeds budget", 8), // shim
    ("Invalid tag for MAST node", 9),
    ("Invalid payload", 10),
    ("header external node count", 11),
    ("Invalid deserialized MAST node ID", 13),
    ("hash-backed digest lookup", 14),
    ("forward reference from node", 16),
    ("in dense MAST forest", 17),
    ("is not a field element", 18), // shim
    ("duplicate advice key", 19),
];

fn number(e: &Error) -> Option<u8> {
    let Error::InvalidValue(text) = e else {
        return Some(1);
    };
    let by_text = TEXTS.iter().find(|(piece, _)| text.contains(piece)).map(|&(_, n)| n);
    by_text.or_else(|| text.contains("out of bounds for").then(|| out_of_bounds(text))?)
}

fn out_of_bounds(text: &str) -> Option<u8> {
    match () {
        _ if text.starts_with("child id") => Some(15),
        _ if text.ends_with("digest slots") => Some(20),
        _ if text.starts_with("root index") || text.starts_with("node index") => Some(12),
        _ => None,
    }
}

fn refused(e: Error, place: Option<usize>) -> Refused {
    Refused { number: number(&e), place, text: e.to_string(), building_table: false }
}

/// An address noted by the shim reader, as an offset in the file.
fn offset_in(bytes: &[u8], address: Option<usize>) -> Option<usize> {
    address.map(|a| a - bytes.as_ptr() as usize)
}

// CODEC AND SCAN
// ================================================================================================

pub fn decode(bytes: &[u8]) -> Result<MastNodeEntry, Refused> {
    direct::decode(bytes).map_err(|e| refused(e, Some(0)))
}

/// Nothing where the published code panics.
pub fn encode(entry: MastNodeEntry) -> Option<u64> {
    panic::catch_unwind(|| direct::encode(entry)).ok()
}

pub fn scan(bytes: &[u8], allow_hashless: bool, bound: Option<usize>) -> Result<File, Refused> {
    trace::reset();
    match direct::scan_at(bytes, allow_hashless, bound) {
        Ok((flags, scanned)) => {
            Ok(File { flags, layout: scanned.fields(), counts: counts_read(bytes) })
        }
        Err((e, stood_at)) => {
            let place = scan_place(&e, stood_at, bytes);
            Err(refused(e, place))
        }
    }
}

/// Where the counts of the scan just done began.
fn counts_read(bytes: &[u8]) -> [usize; 4] {
    let began: Vec<usize> =
        trace::noted(|t| t.counts.iter().map(|a| a - bytes.as_ptr() as usize).collect());
    began.try_into().expect("an accepted scan reads four counts")
}

fn scan_place(e: &Error, stood_at: usize, bytes: &[u8]) -> Option<usize> {
    let count = |i: usize| trace::noted(|t| offset_in(bytes, t.counts.get(i).copied()));
    let Error::InvalidValue(text) = e else {
        return Some(stood_at);
    };
    match number(e)? {
        2 => Some(0),
        3 => Some(5),
        4 | 5 => Some(4),
        6..=8 if text.starts_with("root") => count(2),
        6..=8 if text.starts_with("core payload") => count(3),
        6..=8 => Some(8),
        9 | 10 => trace::noted(|t| offset_in(bytes, t.last)),
        11 => count(1),
        _ => None,
    }
}

// BY INDEX
// ================================================================================================

pub fn root(bytes: &[u8], layout: &Layout, index: usize) -> Result<u32, Refused> {
    Scanned::of_fields(layout).root(bytes, index).map_err(|e| refused(e, Some(index)))
}

pub fn entry(bytes: &[u8], layout: &Layout, index: usize) -> Result<MastNodeEntry, Refused> {
    Scanned::of_fields(layout).entry(bytes, index).map_err(|e| refused(e, Some(index)))
}

/// The table, and what is left of the bound.
pub fn slots(
    bytes: &[u8],
    layout: &Layout,
    bound: Option<usize>,
) -> Result<(Vec<u32>, Option<usize>), Refused> {
    let mut left = bound;
    trace::reset();
    match Scanned::of_fields(layout).slots(bytes, left.as_mut()) {
        Ok(table) => Ok((table, left)),
        Err(e) => {
            let place = node_reached(&e);
            Err(Refused { building_table: true, ..refused(e, place) })
        }
    }
}

/// The slot builder reads one entry a node, in turn.
fn node_reached(e: &Error) -> Option<usize> {
    let done = trace::noted(|t| t.eights);
    match number(e)? {
        1 | 6 => Some(done),           // refused before the read
        9 | 10 => done.checked_sub(1), // refused after it
        8 => Some(0),
        _ => None,
    }
}

/// The slot table of all nodes, then `node_digest_at` over it; no hash is rebuilt.
pub fn digest(bytes: &[u8], layout: &Layout, index: usize) -> Result<[u64; 4], Refused> {
    let (table, _) = slots(bytes, layout, None)?;
    digest_over(bytes, layout, table, index)
}

/// `node_digest_at` over a lent table.
pub fn digest_over(
    bytes: &[u8],
    layout: &Layout,
    table: Vec<u32>,
    index: usize,
) -> Result<[u64; 4], Refused> {
    let forest = Scanned::of_fields(layout).over_table(bytes, table);
    forest.digest(index).map_err(|e| refused(e, Some(index)))
}

/// The digest by the published constructor, which rebuilds missing hashes (here stubs).
pub fn digest_constructed(
    bytes: &[u8],
    layout: &Layout,
    index: usize,
) -> Result<[u64; 4], Refused> {
    let forest = Forest::new(bytes, Scanned::of_fields(layout))
        .map_err(|e| Refused { building_table: true, ..refused(e, None) })?;
    forest.digest(index).map_err(|e| refused(e, Some(index)))
}

// CHECKS OVER THE NODES
// ================================================================================================

/// The published order check works on a forest whose slot table stands; so where the check itself
/// refuses, every entry was readable, and the node is that of the latest entry read.
pub fn order(bytes: &[u8], layout: &Layout) -> Result<(), Refused> {
    let (table, _) = slots(bytes, layout, None)?;
    let forest = Scanned::of_fields(layout).over_table(bytes, table);
    trace::reset();
    forest.order().map_err(|e| refused(e, trace::noted(|t| t.eights).checked_sub(1)))
}

/// The published child checks stand inside the rebuilding of hashes, which also reads the block
/// section's bounds first, and each external digest.
pub fn children(bytes: &[u8], layout: &Layout) -> Result<(), Refused> {
    let scanned = Scanned::of_fields(layout);
    trace::reset();
    scanned.children(bytes).map_err(|e| {
        let (done, digests) = trace::noted(|t| (t.eights, t.words.len()));
        // SHORT does not say of what; an external digest was wanted if more were met than read.
        let external = |&i: &usize| scanned.entry(bytes, i) == Ok(MastNodeEntry::External);
        let of_digest = (0..done).filter(external).count() > digests;
        let before_entry = matches!(number(&e), Some(1 | 6)) && !of_digest;
        refused(e, if before_entry { Some(done) } else { done.checked_sub(1) })
    })
}

/// The child checks as the published constructor runs them: for files without hashes only.
pub fn children_constructed(bytes: &[u8], layout: &Layout) -> Result<(), Refused> {
    let forest = Forest::new(bytes, Scanned::of_fields(layout));
    forest.map(|_| ()).map_err(|e| refused(e, None))
}

// THE MAP
// ================================================================================================

/// The entries, keys rising, and the end.
pub fn walk(bytes: &[u8], at: usize) -> Result<(Vec<Row>, usize), Refused> {
    trace::reset();
    match Map::walk(bytes, at) {
        Ok(map) => Ok((rows(bytes, &map), map.end())),
        Err(e) => {
            let place = map_place(&e, bytes, at);
            Err(refused(e, place))
        }
    }
}

fn map_place(e: &Error, bytes: &[u8], at: usize) -> Option<usize> {
    let number = number(e)?;
    let address = trace::noted(|t| match number {
        6 => t.counts.last().copied(),
        19 => t.words.last().copied(),
        _ => t.last,
    });
    // No read was tried: the offset is beyond the file.
    Some(offset_in(bytes, address).unwrap_or(at))
}

/// The published map keeps no key's offset; the reads of the walk just done have them.
fn rows(bytes: &[u8], map: &Map<'_>) -> Vec<Row> {
    let mut read: Vec<(Word, usize)> = trace::noted(|t| {
        t.words.iter().map(|&a| key_read(bytes, a - bytes.as_ptr() as usize)).collect()
    });
    read.sort();
    let key_at = |key: Word| read.binary_search_by_key(&key, |r| r.0).map(|i| read[i].1);
    let row = |(key, values_at, len): (Word, usize, usize)| Row {
        key: key.numbers(),
        key_at: key_at(key).unwrap_or(usize::MAX),
        values_at,
        len,
    };
    map.0.rows().map(row).collect()
}

fn key_read(bytes: &[u8], at: usize) -> (Word, usize) {
    (Word::of_bytes(bytes[at..at + 32].try_into().expect("a key that was read")), at)
}

/// A walked map, to be asked for keys.
pub struct Walked<'a> {
    bytes: &'a [u8],
    map: Map<'a>,
}

impl<'a> Walked<'a> {
    pub fn new(bytes: &'a [u8], at: usize) -> Option<Self> {
        Map::walk(bytes, at).ok().map(|map| Self { bytes, map })
    }

    /// The values of a key, if it is there.
    pub fn get(&self, key: [u64; 4]) -> Result<Option<Vec<u64>>, Refused> {
        trace::reset();
        match self.map.get(key) {
            Ok(found) => Ok(found.map(|values| values.numbers().collect())),
            Err(e) => {
                let place = trace::noted(|t| offset_in(self.bytes, t.last));
                Err(refused(e, place))
            }
        }
    }
}
