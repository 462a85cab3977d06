//! The reader of counts of the published Rust's shims as a C function, so that a count costs it one
//! call, as it does the archive.
use published::direct;

/// The count at a place: 0 with its value and the place after it, or 1 with neither.
///
/// # Safety
/// `s` must lead to `len` bytes.
#[unsafe(no_mangle)]
pub unsafe extern "C" fn published_read_count(
    s: *const u8,
    len: usize,
    at: usize,
    value: &mut u64,
    next: &mut u64,
) -> u64 {
    // SAFETY: by the caller.
    let bytes = unsafe { std::slice::from_raw_parts(s, len) };
    match direct::read_count(bytes, at) {
        Ok(read) => {
            (*value, *next) = (read.0 as u64, read.1 as u64);
            0
        }
        Err(_) => 1,
    }
}
