//! layout.rs, info.rs, view.rs and resolved.rs of miden-core 0.36.3, byte for byte as published,
//! compiled over shims for what the copies lack. The files themselves stay where
//! VEKALUMIST_PUBLISHED says (see build.rs).
//!
//! - oracle: the published files, reached through `mast::serialization`;
//! - NOT oracle: `shims`. They follow document 01 and only stand in for missing files.
//!
//! [`direct`] hands calls through, for timing; [`answers`] gives document 01's number and, where
//! the Rust has one, the place.
#![allow(dead_code, clippy::all)]

#[macro_use]
extern crate alloc;

mod mast;
mod shims;

// The crate paths that the published files name.
use shims::field::{Felt, Word};
use shims::serde;
use shims::stubs::{advice, chiplets, utils};

pub use mast::serialization::{MastNodeEntry as Entry, answers, direct};
pub use shims::format::{Facts, PLACEHOLDER, set_facts};
pub use shims::serde::DeserializationError as Error;

/// The fields of the published `ForestLayout`, in its order.
#[derive(Debug, Clone, Copy, PartialEq, Eq)]
pub struct Layout {
    pub node_count: usize,
    pub internal_node_count: usize,
    pub external_node_count: usize,
    pub roots_count: usize,
    pub roots_offset: usize,
    pub basic_block_offset: usize,
    pub basic_block_len: usize,
    pub node_entry_offset: usize,
    pub external_digest_offset: usize,
    pub node_hash_offset: Option<usize>,
    pub advice_map_offset: usize,
}
