//! A proved reader and writer for compiled program files (serialized MAST forests of the Miden VM), called from Rust.
//!
//! Every answer here is that of one function of the proved archive (the repository's `crates/vekalumist`), with its numbers turned into
//! types; nothing is judged on this side. ([`Forest::check_roots`] asks it for each root; [`Layout::root_offset`], [`Layout::entry_offset`]
//! and [`key_order`] are sums and a sort of this crate's own.) Any bytes, any place, any hand-made [`Layout`] and any table get an answer, or a [`Refusal`] with
//! its number and its place, and nothing panics on them.
//!
//! ```
//! use vekalumist::{Facts, Forest, ScanOptions};
//!
//! # fn shown(file: &[u8]) -> Result<(), vekalumist::Refusal> {
//! let facts = Facts::STAND_IN; // name your own: the published magic, version and masks are not at hand
//! let forest = Forest::scan(file, &facts, ScanOptions::new().allow_hashless())?;
//! for root in forest.roots() {
//!     let root = root?;
//!     println!("{root}: {}, digest {}", forest.entry(root)?, forest.digest(root)?);
//! }
//! let mut keys = vec![0; forest.key_places()]; // lent: a place for each entry of the map
//! for entry in &forest.advice(&mut keys)? {
//!     let entry = entry?;
//!     println!("{}: {} values at byte {}", entry.key, entry.values.len(), entry.values.offset());
//! }
//! # Ok(())
//! # }
//! # let mut file = b"MAST\x00\x00\x00\x02\x01\x03\x03\0\0\0\0\x01\0\0\0\0\0\0\0\x80".to_vec();
//! # file.extend([0; 32]);
//! # file.push(1);
//! # shown(&file).unwrap();
//! ```
//!
//! # Where to begin
//!
//! - [`Forest`] is a file and its layout: roots, nodes, entries, digests, children, checks.
//! - [`AdviceMap`] is the file's map over a lent table of keys; [`SlotTable`] is for many digests.
//! - `write` makes a file of [`Parts`], the shortest one that shows them.
//! - [`Facts`] are the format's magic, version, masks and node maximum, which the caller names.
//! - The functions below are the archive's own calls, one each: over any bytes, any layout, any table and any index.
//!
//! # Units
//!
//! A [`ByteOffset`] counts bytes of the file, a [`Slot`] counts rows of a section, a [`NodeId`] numbers nodes. No function takes one for
//! another, and a refusal's [`Place`] says which it counts.
//!
//! # Features
//!
//! `std`, on by default: `write`, which sorts keys in memory of its own, and [`Refusal`] as an I/O error. Without it the crate is
//! `no_std` and allocates nothing: what a call needs is lent.

#![no_std]
#![deny(missing_docs)]
#![deny(unsafe_code)]

#[cfg(not(target_pointer_width = "64"))]
compile_error!("vekalumist is for 64-bit machines: its lengths and places are 64-bit numbers");

#[cfg(any(feature = "std", test))]
extern crate std;

mod advice;
mod calls;
mod entry;
mod facts;
mod forest;
mod in_turn;
mod layout;
mod refusal;
mod rows;
mod sys;
mod units;
mod writer;

pub use advice::{AdviceEntry, AdviceIter, AdviceMap, Values, ValuesIter};
pub use calls::*;
pub use entry::{Children, Entry};
pub use facts::{Facts, ScanOptions};
pub use forest::{Forest, Nodes, Roots, SlotTable};
pub use layout::{HashSection, Layout, Scanned};
pub use refusal::{Kind, Place, Refusal};
pub use units::{ByteOffset, NodeId, ParseError, Slot, Word};
#[cfg(feature = "std")]
pub use writer::write;
pub use writer::{key_order, write_with_order, Parts};
