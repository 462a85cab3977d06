//! SHIM for the constants of serialization/mod.rs. Their true values are not in the copies, and
//! document 01 makes them a record; so each "constant" is a unit value that reads the record in
//! force. The published code compiles over them unchanged.
use std::{
    cell::Cell,
    cmp::Ordering,
    fmt,
    ops::{BitAnd, Deref},
};

/// The format facts of document 01.
#[derive(Debug, Clone, Copy, PartialEq, Eq)]
pub struct Facts {
    pub magic: [u8; 4],
    pub version: [u8; 3],
    pub hashless: u8,
    pub reserved: u8,
    pub max_nodes: usize,
}

/// PLACEHOLDERS, except `max_nodes`, which is the published one.
pub const PLACEHOLDER: Facts = Facts {
    magic: *b"MAST",
    version: [0, 0, 1],
    hashless: 0x01,
    reserved: 0xfe,
    max_nodes: crate::mast::Published::max_nodes(),
};

static DEFAULT: Facts = PLACEHOLDER;

thread_local!(static IN_FORCE: Cell<&'static Facts> = const { Cell::new(&DEFAULT) });

/// Puts a record in force for this thread until the next call. Each new record is leaked: the
/// "constants" lend references into it.
pub fn set_facts(facts: Facts) {
    if facts != *in_force() {
        IN_FORCE.set(Box::leak(Box::new(facts)));
    }
}

fn in_force() -> &'static Facts {
    IN_FORCE.get()
}

pub struct Magic;
impl Deref for Magic {
    type Target = [u8; 4];
    fn deref(&self) -> &[u8; 4] {
        &in_force().magic
    }
}

pub struct Version;
impl PartialEq<Version> for [u8; 3] {
    fn eq(&self, _: &Version) -> bool {
        *self == in_force().version
    }
}
impl fmt::Debug for Version {
    fn fmt(&self, f: &mut fmt::Formatter<'_>) -> fmt::Result {
        in_force().version.fmt(f)
    }
}

pub struct HashlessMask;
impl BitAnd<HashlessMask> for u8 {
    type Output = u8;
    fn bitand(self, _: HashlessMask) -> u8 {
        self & in_force().hashless
    }
}

pub struct ReservedMask;
impl BitAnd<ReservedMask> for u8 {
    type Output = u8;
    fn bitand(self, _: ReservedMask) -> u8 {
        self & in_force().reserved
    }
}

pub struct MaxNodes;
impl PartialEq<MaxNodes> for usize {
    fn eq(&self, _: &MaxNodes) -> bool {
        *self == in_force().max_nodes
    }
}
impl PartialOrd<MaxNodes> for usize {
    fn partial_cmp(&self, _: &MaxNodes) -> Option<Ordering> {
        self.partial_cmp(&in_force().max_nodes)
    }
}
impl fmt::Display for MaxNodes {
    fn fmt(&self, f: &mut fmt::Formatter<'_>) -> fmt::Result {
        in_force().max_nodes.fmt(f)
    }
}
