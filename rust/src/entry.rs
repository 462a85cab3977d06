//! A node entry.

use core::iter::Take;
use core::{array, fmt};

use crate::NodeId;

/// A node entry, as its 64-bit word says it. It lies as its kind, 0 to 8, and up to two numbers. The format has these nine kinds and no
/// others, so a `match` may name them all.
#[derive(Clone, Copy, Debug, PartialEq, Eq, Hash)]
#[repr(u32)]
pub enum Entry {
    /// Both children in turn. Each id is below 2^30.
    Join {
        /// The first child.
        left_child_id: NodeId,
        /// The second child.
        right_child_id: NodeId,
    },
    /// One of two children. Each id is below 2^30.
    Split {
        /// The child for one.
        if_branch_id: NodeId,
        /// The child for zero.
        else_branch_id: NodeId,
    },
    /// A loop.
    Loop {
        /// The repeated child.
        body_id: NodeId,
    },
    /// A basic block.
    Block {
        /// Where its operations start in the block data. It is not judged.
        ops_offset: u32,
    },
    /// A call.
    Call {
        /// The called node.
        callee_id: NodeId,
    },
    /// A system call.
    SysCall {
        /// The called node.
        callee_id: NodeId,
    },
    /// A dynamic execution.
    Dyn,
    /// A dynamic call.
    Dyncall,
    /// A node of another forest, known by its digest.
    External,
}

impl Entry {
    /// The kind's name, as its variant is named.
    #[must_use]
    pub const fn name(self) -> &'static str {
        match self {
            Entry::Join { .. } => "Join",
            Entry::Split { .. } => "Split",
            Entry::Loop { .. } => "Loop",
            Entry::Block { .. } => "Block",
            Entry::Call { .. } => "Call",
            Entry::SysCall { .. } => "SysCall",
            Entry::Dyn => "Dyn",
            Entry::Dyncall => "Dyncall",
            Entry::External => "External",
        }
    }

    /// Whether the node is external: its digest is then among the external digests, and else among the hashes.
    #[must_use]
    pub const fn is_external(self) -> bool {
        matches!(self, Entry::External)
    }

    /// The node's children, the left one first. They are not judged: [`children`](crate::children()) checks those of all nodes.
    ///
    /// ```
    /// use vekalumist::{Entry, NodeId};
    ///
    /// let join = Entry::Join { left_child_id: NodeId(4), right_child_id: NodeId(2) };
    /// assert!(join.children().eq([NodeId(4), NodeId(2)]));
    /// assert_eq!(Entry::Block { ops_offset: 9 }.children().len(), 0);
    /// ```
    pub fn children(self) -> Children {
        let (ids, number) = match self {
            Entry::Join { left_child_id: a, right_child_id: b } | Entry::Split { if_branch_id: a, else_branch_id: b } => ([a, b], 2),
            Entry::Loop { body_id: a } | Entry::Call { callee_id: a } | Entry::SysCall { callee_id: a } => ([a; 2], 1),
            Entry::Block { .. } | Entry::Dyn | Entry::Dyncall | Entry::External => ([NodeId(0); 2], 0),
        };
        Children(ids.into_iter().take(number))
    }
}

/// The kind and its numbers: `Join 0 1`, `Block 7`, `Dyn`.
impl fmt::Display for Entry {
    fn fmt(&self, f: &mut fmt::Formatter<'_>) -> fmt::Result {
        f.write_str(self.name())?;
        if let Entry::Block { ops_offset } = self {
            write!(f, " {ops_offset}")?;
        }
        self.children().try_for_each(|child| write!(f, " {child}"))
    }
}

/// The children of a node, none, one or two, the left one first.
#[derive(Clone, Debug)]
#[must_use]
pub struct Children(Take<array::IntoIter<NodeId, 2>>);

impl Iterator for Children {
    type Item = NodeId;

    fn next(&mut self) -> Option<NodeId> {
        self.0.next()
    }

    fn size_hint(&self) -> (usize, Option<usize>) {
        self.0.size_hint()
    }
}

impl DoubleEndedIterator for Children {
    fn next_back(&mut self) -> Option<NodeId> {
        self.0.next_back()
    }
}

impl ExactSizeIterator for Children {}

impl core::iter::FusedIterator for Children {}
