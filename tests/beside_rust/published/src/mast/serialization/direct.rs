//! The published functions handed through: nothing is added to a call but the wrapping of its
//! types, so these are the ones to time (without the feature `trace`).
use super::{
    MastNodeEntry,
    layout::{ForestLayout, OffsetTrackingReader, TrackingReader, read_header_and_scan_layout},
    resolved::{self, ResolvedSerializedForest},
    view::{AdviceMapView, AdviceValueView, WireAdviceMapView},
};
use crate::{
    Error, Layout, Word,
    serde::{BudgetedReader, ByteReader, Deserializable, EightBytes, Serializable, SliceReader},
};

/// The published layout record, as a scan made it or from fields.
#[derive(Debug, Clone, Copy)]
pub struct Scanned(pub(super) ForestLayout);

/// `read_header_and_scan_layout`; with no bound over the plain reader.
pub fn scan(bytes: &[u8], allow_hashless: bool, bound: Option<usize>) -> Result<Scanned, Error> {
    scan_at(bytes, allow_hashless, bound).map(|(_, scanned)| scanned).map_err(|(e, _)| e)
}

/// The flags byte too; a refusal comes with the offset at which the published reader stood.
pub(super) fn scan_at(
    bytes: &[u8],
    allow_hashless: bool,
    bound: Option<usize>,
) -> Result<(u8, Scanned), (Error, usize)> {
    let reader = SliceReader::new(bytes);
    match bound {
        None => scan_over(reader, allow_hashless),
        Some(n) => scan_over(BudgetedReader::new(reader, n), allow_hashless),
    }
}

fn scan_over<R: ByteReader>(
    mut inner: R,
    allow_hashless: bool,
) -> Result<(u8, Scanned), (Error, usize)> {
    let mut reader = TrackingReader::new(&mut inner);
    match read_header_and_scan_layout(&mut reader, allow_hashless) {
        Ok((flags, layout)) => Ok((flags.bits(), Scanned(layout))),
        Err(e) => Err((e, reader.offset())),
    }
}

impl Scanned {
    /// A record that no scan made.
    pub fn of_fields(fields: &Layout) -> Self {
        Self(ForestLayout::of_fields(fields))
    }

    pub fn fields(&self) -> Layout {
        self.0.fields()
    }

    /// `read_procedure_root_at`.
    #[inline]
    pub fn root(&self, bytes: &[u8], index: usize) -> Result<u32, Error> {
        self.0.read_procedure_root_at(bytes, index).map(u32::from)
    }

    /// `read_node_entry_at`.
    #[inline]
    pub fn entry(&self, bytes: &[u8], index: usize) -> Result<MastNodeEntry, Error> {
        self.0.read_node_entry_at(bytes, index)
    }

    /// `build_digest_slot_by_node`, which makes the table itself; the bound falls.
    #[inline]
    pub fn slots(&self, bytes: &[u8], bound: Option<&mut usize>) -> Result<Vec<u32>, Error> {
        resolved::slots(bytes, &self.0, bound)
    }

    /// A forest over this slot table, without rebuilt hashes.
    pub fn over_table(self, bytes: &[u8], table: Vec<u32>) -> Forest<'_> {
        Forest(resolved::over_table(bytes, self.0, table))
    }

    /// `recompute_hash_table`, which holds the child checks; the hashes in it are stubs.
    #[inline]
    pub fn children(&self, bytes: &[u8]) -> Result<(), Error> {
        resolved::children(bytes, &self.0)
    }
}

/// `ResolvedSerializedForest`.
pub struct Forest<'a>(ResolvedSerializedForest<'a>);

impl<'a> Forest<'a> {
    /// The published constructor: slot table, then rebuilt (stub) hashes where there are none.
    pub fn new(bytes: &'a [u8], scanned: Scanned) -> Result<Self, Error> {
        ResolvedSerializedForest::new(bytes, scanned.0).map(Self)
    }

    /// `node_digest_at`.
    #[inline]
    pub fn digest(&self, index: usize) -> Result<[u64; 4], Error> {
        self.0.node_digest_at(index).map(Word::numbers)
    }

    /// `validate_dense_node_order`.
    pub fn order(&self) -> Result<(), Error> {
        self.0.validate_dense_node_order()
    }
}

/// `WireAdviceMapView`.
pub struct Map<'a>(pub(super) WireAdviceMapView<'a>);

impl<'a> Map<'a> {
    /// `WireAdviceMapView::new`, which makes its `BTreeMap` itself.
    #[inline]
    pub fn walk(bytes: &'a [u8], at: usize) -> Result<Self, Error> {
        WireAdviceMapView::new(bytes, at).map(Self)
    }

    pub fn len(&self) -> usize {
        self.0.entry_count()
    }

    pub fn end(&self) -> usize {
        self.0.end_offset()
    }

    /// `AdviceMapView::get`, which makes the `Vec` of the values itself.
    #[inline]
    pub fn get(&self, key: [u64; 4]) -> Result<Option<Values<'_>>, Error> {
        let found = AdviceMapView::wire(&self.0).get(&Word::of_numbers(key))?;
        Ok(found.map(Values))
    }
}

/// `AdviceValueView`.
pub struct Values<'a>(AdviceValueView<'a>);

impl Values<'_> {
    pub fn len(&self) -> usize {
        self.0.len()
    }

    pub fn numbers(&self) -> impl Iterator<Item = u64> {
        self.0.as_slice().iter().map(|f| f.0)
    }
}

/// `MastNodeEntry::read_from`, the bytes' first eight.
#[inline]
pub fn decode(bytes: &[u8]) -> Result<MastNodeEntry, Error> {
    MastNodeEntry::read_from(&mut SliceReader::new(bytes))
}

/// `MastNodeEntry::write_into`; panics as it does.
#[inline]
pub fn encode(entry: MastNodeEntry) -> u64 {
    let mut out = EightBytes::default();
    entry.write_into(&mut out);
    out.number()
}

/// The shim's `read_usize` at a place, and the place after it.
#[inline]
pub fn read_count(bytes: &[u8], at: usize) -> Result<(usize, usize), Error> {
    let mut reader = SliceReader::new(bytes.get(at..).ok_or(Error::UnexpectedEOF)?);
    let value = reader.read_usize()?;
    Ok((value, at + reader.position()))
}
