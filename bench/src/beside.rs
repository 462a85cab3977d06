//! The published Rust's side, over the crate `published`.
use std::{cell::RefCell, hint::black_box};

use published::{Entry as Theirs, Error, direct};
use vekalumist::{Entry, Facts, Layout, NodeId};

use crate::measure::Side;

pub use direct::{Forest, Map, Scanned, read_count};

pub fn set_facts(facts: &Facts) {
    let Facts { magic, version, hashless, reserved, max_nodes } = *facts;
    published::set_facts(published::Facts { magic, version, hashless, reserved, max_nodes });
}

/// The scan, which must take the file as ours does: the layouts are held against each other.
pub fn same_layout(bytes: &[u8], ours: &Layout) -> Scanned {
    let scanned = direct::scan(bytes, true, None).expect("own file");
    let theirs = published::Layout {
        node_count: ours.node_count,
        internal_node_count: ours.internal_node_count.0,
        external_node_count: ours.external_node_count.0,
        roots_count: ours.roots_count,
        roots_offset: ours.roots_offset.0,
        basic_block_offset: ours.basic_block_offset.0,
        basic_block_len: ours.basic_block_len,
        node_entry_offset: ours.node_entry_offset.0,
        external_digest_offset: ours.external_digest_offset.0,
        node_hash_offset: ours.node_hash_offset().map(|at| at.0),
        advice_map_offset: ours.advice_map_offset.0,
    };
    assert_eq!(scanned.fields(), theirs, "layout");
    scanned
}

pub fn scan(bytes: &[u8]) -> Result<Scanned, Error> {
    direct::scan(bytes, true, None)
}

/// Their entry as ours.
pub fn ours(entry: Theirs) -> Entry {
    match entry {
        Theirs::Join { left_child_id, right_child_id } => Entry::Join {
            left_child_id: NodeId(left_child_id),
            right_child_id: NodeId(right_child_id),
        },
        Theirs::Split { if_branch_id, else_branch_id } => Entry::Split {
            if_branch_id: NodeId(if_branch_id),
            else_branch_id: NodeId(else_branch_id),
        },
        Theirs::Loop { body_id } => Entry::Loop { body_id: NodeId(body_id) },
        Theirs::Block { ops_offset } => Entry::Block { ops_offset },
        Theirs::Call { callee_id } => Entry::Call { callee_id: NodeId(callee_id) },
        Theirs::SysCall { callee_id } => Entry::SysCall { callee_id: NodeId(callee_id) },
        Theirs::Dyn => Entry::Dyn,
        Theirs::Dyncall => Entry::Dyncall,
        Theirs::External => Entry::External,
    }
}

/// The walk, which makes a `BTreeMap`. It is dropped after each run with the clock stopped.
pub fn walk_side(bytes: &[u8], at: usize) -> Side<'_> {
    let made = std::rc::Rc::new(RefCell::new(None));
    let last = made.clone();
    Side {
        run: Box::new(move || {
            *made.borrow_mut() = Some(black_box(Map::walk(black_box(bytes), at)))
        }),
        after: Some(Box::new(move || drop(last.take()))),
    }
}
