//! Plain reads of the same memory: the least that any reader of these bytes must do.
fn word(bytes: &[u8], at: usize) -> u64 {
    u64::from_le_bytes(bytes[at..at + 8].try_into().expect("8 bytes"))
}

/// The sum of all words, from first to last. Eight sums side by side, so that it runs at the speed
/// of memory and not of one addition after the other.
#[inline(never)]
pub fn sum(bytes: &[u8]) -> u64 {
    let mut sums = [0u64; 8];
    let mut rows = bytes.chunks_exact(64);
    for row in &mut rows {
        for (k, sum) in sums.iter_mut().enumerate() {
            *sum = sum.wrapping_add(word(row, 8 * k));
        }
    }
    let rest = rows.remainder().iter().map(|&b| u64::from(b)).sum::<u64>();
    sums.iter().fold(rest, |a, &b| a.wrapping_add(b))
}

/// The sum of the words at these places, in their order.
#[inline(never)]
pub fn gather(bytes: &[u8], places: &[usize]) -> u64 {
    places.iter().fold(0, |a, &at| a.wrapping_add(word(bytes, at)))
}

/// The sum of the four words at each of these places.
#[inline(never)]
pub fn gather_rows(bytes: &[u8], places: &[usize]) -> u64 {
    places.iter().fold(0, |a, &at| (0..4).fold(a, |a, k| a.wrapping_add(word(bytes, at + 8 * k))))
}

/// A slice of numbers as bytes.
pub fn bytes_of(words: &[u64]) -> &[u8] {
    // SAFETY: any 8 bytes are a u64 and the other way round; the length is in bytes.
    unsafe { std::slice::from_raw_parts(words.as_ptr().cast(), 8 * words.len()) }
}
