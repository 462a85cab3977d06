//! SHIM. Notes the address at which each read of a [`super::serde::SliceReader`] began. The
//! published errors carry no place; with the file's own address these give one.

#[derive(Default, Debug)]
pub struct Trace {
    /// Where the latest read, tried or done, began.
    pub last: Option<usize>,
    /// Where each count began (`peek_u8` is called by the count reader only).
    pub counts: Vec<usize>,
    /// Where each word read (an array of 32 bytes) began.
    pub words: Vec<usize>,
    /// How many arrays of 8 bytes were read (entries; in map lookup, elements).
    pub eights: usize,
}

#[cfg(feature = "trace")]
mod imp {
    use super::Trace;
    use std::cell::RefCell;

    thread_local!(static TRACE: RefCell<Trace> = RefCell::default());

    pub fn reset() {
        TRACE.with_borrow_mut(|t| {
            t.last = None;
            t.counts.clear();
            t.words.clear();
            t.eights = 0;
        });
    }
    pub fn noted<T>(look: impl FnOnce(&Trace) -> T) -> T {
        TRACE.with_borrow(look)
    }
    pub fn note_peek(at: usize) {
        TRACE.with_borrow_mut(|t| {
            t.last = Some(at);
            t.counts.push(at);
        });
    }
    /// A read is about to be tried.
    pub fn note_read(at: usize) {
        TRACE.with_borrow_mut(|t| t.last = Some(at));
    }
    /// An array of this length was read.
    pub fn note_array(at: usize, len: usize) {
        TRACE.with_borrow_mut(|t| match len {
            8 => t.eights += 1,
            32 => t.words.push(at),
            _ => {}
        });
    }
}

#[cfg(not(feature = "trace"))]
mod imp {
    pub fn reset() {}
    pub fn noted<T>(look: impl FnOnce(&super::Trace) -> T) -> T {
        look(&super::Trace::default())
    }
    #[inline(always)]
    pub fn note_peek(_: usize) {}
    #[inline(always)]
    pub fn note_read(_: usize) {}
    #[inline(always)]
    pub fn note_array(_: usize, _: usize) {}
}

pub use imp::{note_array, note_peek, note_read, noted, reset};
