//! SHIMS: not published source, and no oracle. Each stands in for a file that is not at hand.
//!
//! | module   | stands in for                                          | follows                 |
//! |----------|--------------------------------------------------------|-------------------------|
//! | `serde`  | miden-serde-utils: reader, writer, errors, vint64       | document 01, "Counts"   |
//! | `field`  | miden-crypto: `Felt`, `Word`                            | document 01, "Units"    |
//! | `format` | serialization/mod.rs: MAGIC, VERSION, flag masks        | a record, set by a call |
//! | `stubs`  | nodes, builders, hasher, decoder, `IndexVec`, AdviceMap | nothing: never observed |
//! | `trace`  | (new) notes where reads began, so a place can be told   | -                       |
pub mod field;
pub mod format;
pub mod serde;
pub mod stubs;
pub mod trace;
