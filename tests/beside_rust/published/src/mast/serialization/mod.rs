//! Stands where mast/serialization/mod.rs does (that file is not at hand).
//!
//! Each published file is `include!`d whole. Below each stands its *door*: a few lines in the same
//! module that reach private items, and decide nothing.
use crate::{
    mast::node::BasicBlockNode,
    serde::DeserializationError,
    shims::{format, stubs},
};

// Names that the published files take from `super`.
use super::{MastForest, MastNodeId};
use crate::advice::AdviceMap;
pub use info::MastNodeEntry;
use info::MastNodeInfo;
use layout::ForestLayout;
use stubs::basic_blocks;

type NodeDataOffset = u32;

const MAGIC: format::Magic = format::Magic;
const VERSION: format::Version = format::Version;
const FLAG_HASHLESS: format::HashlessMask = format::HashlessMask;
const FLAGS_RESERVED_MASK: format::ReservedMask = format::ReservedMask;

pub mod answers;
pub mod direct;

pub(super) mod info {
    include!(concat!(env!("OUT_DIR"), "/info.rs"));
}

pub(super) mod layout {
    include!(concat!(env!("OUT_DIR"), "/layout.rs"));

    // DOOR
    use crate::Layout;

    impl ForestLayout {
        pub(super) fn of_fields(f: &Layout) -> Self {
            Self {
                node_count: f.node_count,
                internal_node_count: f.internal_node_count,
                external_node_count: f.external_node_count,
                roots_count: f.roots_count,
                roots_offset: f.roots_offset,
                basic_block_offset: f.basic_block_offset,
                basic_block_len: f.basic_block_len,
                node_entry_offset: f.node_entry_offset,
                external_digest_offset: f.external_digest_offset,
                node_hash_offset: f.node_hash_offset,
                advice_map_offset: f.advice_map_offset,
            }
        }

        pub(super) fn fields(&self) -> Layout {
            Layout {
                node_count: self.node_count,
                internal_node_count: self.internal_node_count,
                external_node_count: self.external_node_count,
                roots_count: self.roots_count,
                roots_offset: self.roots_offset,
                basic_block_offset: self.basic_block_offset,
                basic_block_len: self.basic_block_len,
                node_entry_offset: self.node_entry_offset,
                external_digest_offset: self.external_digest_offset,
                node_hash_offset: self.node_hash_offset,
                advice_map_offset: self.advice_map_offset,
            }
        }
    }
}

pub(super) mod resolved {
    include!(concat!(env!("OUT_DIR"), "/resolved.rs"));

    // DOOR
    pub(super) fn slots(
        bytes: &[u8],
        layout: &ForestLayout,
        budget: Option<&mut usize>,
    ) -> Result<Vec<u32>, DeserializationError> {
        build_digest_slot_by_node(bytes, layout, budget)
    }

    /// A forest over any slot table, and without rebuilt hashes. The published constructor never
    /// makes this for a hashless file; over it, `digest_at` gives the refusal that document 01
    /// calls NO-HASH.
    pub(super) fn over_table<'a>(
        bytes: &'a [u8],
        layout: ForestLayout,
        slot_by_node: Vec<u32>,
    ) -> ResolvedSerializedForest<'a> {
        let digests = ForestDigests { slot_by_node, hash_table: None };
        ResolvedSerializedForest { bytes, layout, digests }
    }

    /// Runs the loop that holds `checked_child_index`; the hashes in it are stubs.
    pub(super) fn children(
        bytes: &[u8],
        layout: &ForestLayout,
    ) -> Result<(), DeserializationError> {
        recompute_hash_table(bytes, layout, None).map(|_| ())
    }
}

pub(super) mod view {
    include!(concat!(env!("OUT_DIR"), "/view.rs"));

    // DOOR
    impl WireAdviceMapView<'_> {
        pub(super) fn entry_count(&self) -> usize {
            self.len()
        }

        /// (key, values' offset, length), keys rising as `BTreeMap` has them.
        pub(super) fn rows(&self) -> impl Iterator<Item = (Word, usize, usize)> {
            self.entries.iter().map(|(k, r)| (*k, r.offset, r.len))
        }
    }
}

// SHIMS of functions of the missing file
// ================================================================================================

/// Document 01, "Slot table": BUDGET if n < size x count; the bound falls by size x count.
fn reserve_allocation<T>(
    left: &mut usize,
    count: usize,
    label: &str,
) -> Result<(), DeserializationError> {
    let refused = || {
        DeserializationError::InvalidValue(format!("shim: {label} of {count} rows exceeds budget"))
    };
    let need = count.checked_mul(size_of::<T>()).ok_or_else(refused)?;
    *left = left.checked_sub(need).ok_or_else(refused)?;
    Ok(())
}

fn basic_block_data_len(_: &BasicBlockNode) -> usize {
    unreachable!("shim: block data is never laid out")
}
