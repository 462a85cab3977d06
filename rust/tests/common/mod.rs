//! The facts that samples/ is written under, the samples, and files made of parts.
#![allow(dead_code, unused_imports)] // each test file uses some of it

use vekalumist::*;

pub use vekalumist::Place::{Bytes, Key, Node, Number, Part, Root, Rows};

pub const FACTS: Facts = Facts::STAND_IN;

pub const JOIN_0_1: u64 = 1;
pub const BLOCK_0: u64 = 0x3000000000000000;
pub const DYN: u64 = 0x6000000000000000;
pub const EXTERNAL: u64 = 0x8000000000000000;

pub const NOT_AN_ELEMENT: u64 = 18446744069414584321;

pub fn sample(name: &str) -> Vec<u8> {
    let path = format!("{}/../samples/{name}.mast", env!("CARGO_MANIFEST_DIR"));
    std::fs::read(&path).unwrap_or_else(|error| panic!("{path}: {error}"))
}

pub fn scanned(file: &[u8]) -> Layout {
    scan(file, &FACTS, true, None).unwrap()
}

/// A refusal by kind and place, for short comparisons.
pub fn no<T>(kind: Kind, place: Place) -> Result<T, Refusal> {
    Err(Refusal { kind, place })
}

/// The place that is a byte.
pub fn byte(at: usize) -> Place {
    Place::Byte(ByteOffset(at))
}

/// What a walk says: entries, end, and the bytes that follow.
pub fn walked(walked: Result<Walked, Refusal>) -> Result<(usize, usize, usize), Refusal> {
    walked.map(|map| (map.entries, map.end.0, map.trailing))
}

/// A layout like another, but for what is changed in it.
pub fn with(mut layout: Layout, change: impl FnOnce(&mut Layout)) -> Layout {
    change(&mut layout);
    layout
}

/// The file of some parts, in just the room that it needs.
pub fn made(parts: &Parts<'_>) -> Vec<u8> {
    let needed = write(&FACTS, parts, &mut []).unwrap_err();
    let Refusal { kind: Kind::Room, place: Bytes(needed) } = needed else { panic!("{needed}") };
    let mut out = vec![0; needed];
    assert_eq!(write(&FACTS, parts, &mut out), Ok(needed));
    out
}

/// Bytes of 32 for each number: a digest whose first element it is.
pub fn digests(numbers: &[u64]) -> Vec<u8> {
    numbers.iter().flat_map(|number| [*number, 0, 0, 0]).flat_map(u64::to_le_bytes).collect()
}

/// A hashless file of these entries, its external digests zero.
pub fn of_words(words: &[u64]) -> Vec<u8> {
    let external = words.iter().filter(|word| **word >> 60 == 8).count();
    made(&Parts { flags: 2, words, external: &vec![0; 32 * external], ..Parts::default() })
}

/// A layout whose every number is the largest.
pub fn far() -> Layout {
    let (most, far) = (Slot(usize::MAX), ByteOffset(usize::MAX));
    with(Layout::default(), |layout| {
        (layout.node_count, layout.internal_node_count, layout.external_node_count) = (usize::MAX, most, most);
        (layout.roots_count, layout.roots_offset) = (usize::MAX, far);
        (layout.basic_block_offset, layout.basic_block_len) = (far, usize::MAX);
        (layout.node_entry_offset, layout.external_digest_offset) = (far, far);
        (layout.node_hashes, layout.advice_map_offset) = (HashSection::at(far), far);
    })
}
