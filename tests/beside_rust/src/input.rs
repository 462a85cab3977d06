//! What a call was given, as far as predicates and messages need it.
use std::fmt;

use crate::told::{Entry, Facts, Layout, Parts};

#[derive(Debug, Clone, Copy, Default)]
pub struct Input<'a> {
    pub facts: Option<&'a Facts>,
    pub bytes: &'a [u8],
    /// Hashless files are allowed.
    pub allow: bool,
    pub layout: Option<&'a Layout>,
    /// The index asked for, or the place.
    pub index: Option<usize>,
    /// None: no bound was given or the call has none.
    pub bound: Option<usize>,
    pub slots: Option<&'a [u32]>,
    pub entry: Option<Entry>,
    /// A kind and two numbers, which may be no entry.
    pub row: Option<[u64; 3]>,
    /// How many places were lent.
    pub places: Option<usize>,
    /// A number to be written or decoded, or the n of a lookup.
    pub number: Option<u64>,
    pub keys: Option<&'a [u64]>,
    pub key: Option<[u64; 4]>,
    pub parts: Option<&'a Parts>,
    /// The orders of the keys that the writer is told.
    pub claims: &'a [Vec<u64>],
}

impl fmt::Display for Input<'_> {
    fn fmt(&self, f: &mut fmt::Formatter<'_>) -> fmt::Result {
        if let Some(entry) = self.entry {
            write!(f, "{entry:?} ")?;
        }
        if let Some(row) = self.row {
            write!(f, "row {row:?} ")?;
        }
        if let Some(n) = self.number {
            write!(f, "number {n} ")?;
        }
        if let Some(n) = self.places {
            write!(f, "{n} places ")?;
        }
        if let Some(index) = self.index {
            write!(f, "at {index} ")?;
        }
        if self.allow {
            write!(f, "hashless allowed ")?;
        }
        if let Some(n) = self.bound {
            write!(f, "bound {n} ")?;
        }
        if let Some(l) = self.layout {
            write!(f, "record {} ", fields(l))?;
        }
        if let Some(table) = self.slots {
            write!(f, "slots {table:?} ")?;
        }
        if let Some(keys) = self.keys {
            write!(f, "keys {keys:?} ")?;
        }
        if let Some(key) = self.key {
            write!(f, "key {key:?} ")?;
        }
        if let Some(parts) = self.parts {
            write!(f, "{parts:?} ")?;
        }
        if !self.claims.is_empty() {
            write!(f, "claims {:?} ", self.claims)?;
        }
        write!(f, "bytes {}", hex(self.bytes))?;
        match self.facts {
            Some(facts) if *facts != published::PLACEHOLDER => write!(f, " facts {}", short(facts)),
            _ => Ok(()),
        }
    }
}

/// The eleven fields in their order, `-` for no hashes.
fn fields(l: &Layout) -> String {
    let hashes = l.node_hash_offset.map_or("-".to_string(), |at| at.to_string());
    let numbers = [
        l.node_count,
        l.internal_node_count,
        l.external_node_count,
        l.roots_count,
        l.roots_offset,
        l.basic_block_offset,
        l.basic_block_len,
        l.node_entry_offset,
        l.external_digest_offset,
    ];
    let numbers: String = numbers.iter().map(|n| format!("{n},")).collect();
    format!("{numbers}{hashes},{}", l.advice_map_offset)
}

fn short(f: &Facts) -> String {
    let (magic, version) = (hex(&f.magic), hex(&f.version));
    format!("{magic} {version} {:02x} {:02x} {}", f.hashless, f.reserved, f.max_nodes)
}

/// `.` for none; long runs of zero bytes are written as `<0*n>`.
fn hex(bytes: &[u8]) -> String {
    if bytes.is_empty() {
        return ".".into();
    }
    let mut out = String::new();
    let mut rest = bytes;
    while let Some(&first) = rest.first() {
        let zeros = rest.iter().take_while(|&&b| b == 0).count();
        if zeros > 7 {
            out += &format!("<0*{zeros}>");
            rest = &rest[zeros..];
        } else {
            out += &format!("{first:02x}");
            rest = &rest[1..];
        }
    }
    out
}
