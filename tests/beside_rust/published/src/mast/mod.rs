//! Stands where mast/mod.rs does. Of that file, the section "MAST NODE ID" and the value of
//! `MAX_NODES` are taken unchanged (see build.rs); the rest is SHIM.
use alloc::collections::BTreeMap;
use core::fmt;

use crate::{
    Word,
    advice::AdviceMap,
    serde::{ByteWriter, Deserializable, DeserializationError, Serializable},
    shims::format::MaxNodes,
    utils::{Idx, IndexVec},
};

pub mod serialization;
pub use crate::shims::stubs::node::{
    self, CallNode, DynNode, JoinNode, LoopNode, MastForestContributor, MastNode, SplitNode,
};

// PUBLISHED, unchanged: `MastNodeId` with `from_u32_with_node_count`.
include!(concat!(env!("OUT_DIR"), "/mast_node_id.rs"));

/// Carries the published `MAX_NODES`.
pub struct Published;
include!(concat!(env!("OUT_DIR"), "/max_nodes.rs"));

impl Published {
    pub const fn max_nodes() -> usize {
        Self::MAX_NODES
    }
}

/// SHIM. `nodes` is read by the published `MastNodeId::from_u32_safe`.
#[derive(Debug, Clone)]
pub struct MastForest {
    nodes: IndexVec<MastNodeId, MastNode>,
}

impl MastForest {
    /// The node maximum of the format record in force; by default the published value.
    const MAX_NODES: MaxNodes = MaxNodes;

    fn from_trusted_deserialization_parts(
        _: MastForestParts,
    ) -> Result<Self, DeserializationError> {
        unreachable!("shim: forests are never materialized")
    }
}

/// SHIM.
pub(crate) struct MastForestParts {
    pub nodes: IndexVec<MastNodeId, MastNode>,
    pub roots: Vec<MastNodeId>,
    pub advice_map: AdviceMap,
}
