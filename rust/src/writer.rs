//! Parts to write, and the order of keys that the writer is told, so that no keys take it more than n log n comparisons. It checks what it is
//! told, and answers the same without it.

use crate::{sys, Facts, NodeId, Refusal};

/// The parts that a file is written of. The default is a file without nodes.
#[derive(Clone, Copy, Debug, Default, PartialEq, Eq, Hash)]
pub struct Parts<'a> {
    /// The flags byte. Bits in neither mask are kept.
    pub flags: u8,
    /// The roots. They are not judged.
    pub roots: &'a [NodeId],
    /// The block data.
    pub blocks: &'a [u8],
    /// A word for each node. It is written in its canonical form.
    pub words: &'a [u64],
    /// 32 bytes for each external node, in node order. They are not judged.
    pub external: &'a [u8],
    /// 32 bytes for each internal node, in node order; none in a hashless file. They are not judged.
    pub hashes: &'a [u8],
    /// Four numbers for each key of the map. In rising order they are checked fastest; else their numbers are sorted first.
    pub keys: &'a [u64],
    /// For each key the number of its values.
    pub lengths: &'a [u64],
    /// The values, one key's after the other's. They are not judged.
    pub values: &'a [u64],
}

/// Writes the file of some parts at the start of the output, and gives its length in bytes. Bytes past it stay as they were.
///
/// Where the keys do not rise strictly, their numbers are sorted first (a number of memory for each), so that n keys in any order take
/// n log n comparisons. Without the feature `std` there is [`write_with_order`], which allocates nothing.
///
/// # Errors
/// As [`write_with_order`].
///
/// ```
/// use vekalumist::{write, Facts, Kind, NodeId, Parts, Place, Refusal};
///
/// let facts = Facts::STAND_IN;
/// let parts = Parts { flags: 2, words: &[0x3000000000000000], roots: &[NodeId(0)], blocks: b"\xAB", ..Parts::default() };
/// let needed = write(&facts, &parts, &mut []).unwrap_err();
/// assert_eq!(needed, Refusal { kind: Kind::Room, place: Place::Bytes(26) });
/// let mut out = vec![0; needed.place.number()];
/// assert_eq!(write(&facts, &parts, &mut out)?, 26);
/// assert_eq!(out, b"MAST\x02\x00\x00\x02\x03\x01\x03\x00\x00\x00\x00\x03\xAB\0\0\0\0\0\0\0\x30\x01");
/// # Ok::<(), vekalumist::Refusal>(())
/// ```
#[cfg(feature = "std")]
pub fn write(facts: &Facts, parts: &Parts<'_>, out: &mut [u8]) -> Result<usize, Refusal> {
    let mut order = std::vec![0; if needs_order(parts) { parts.lengths.len() } else { 0 }];
    write_with_order(facts, parts, key_order(parts.keys, &mut order), out)
}

/// Whether sorting can spare comparisons: not where the keys rise strictly, or are not four numbers for each length, which is refused before
/// they are compared.
#[cfg(feature = "std")]
fn needs_order(parts: &Parts<'_>) -> bool {
    let (keys, rest) = parts.keys.as_chunks::<4>();
    rest.is_empty() && keys.len() == parts.lengths.len() && !keys.is_sorted_by(|a, b| a < b)
}

/// As `write`, with a claim on the order of the keys: their numbers in rising order of the keys, equal keys by rising number.
/// [`key_order`] makes it in lent memory. A claim changes the time and no answer: with a true one, or with keys that rise, n keys take n
/// comparisons; else up to n * n / 2.
///
/// # Errors
/// `Format`, place: `Number(0)`; `Flags`, place: `Byte(4)`; `TooMany`, place: `Number(0)`; `Tag`, `Payload`, place: the `Node`; `Parts`,
/// place: which `Part` ([`Kind::Parts`](crate::Kind::Parts)); `Element`, `Duplicate`, place: the `Key`, by its number from 0; `Overflow`,
/// place: `Number(0)`; `Room`, place: the `Bytes` that the file needs. The output is as it was.
///
/// ```
/// use vekalumist::{key_order, write_with_order, Facts, Parts};
///
/// let parts = Parts { keys: &[8, 0, 0, 0, 5, 0, 0, 0], lengths: &[0, 0], ..Parts::default() };
/// let mut order = [0; 2];
/// let order = key_order(parts.keys, &mut order);
/// assert_eq!(order, [1, 0]);
/// assert_eq!(write_with_order(&Facts::STAND_IN, &parts, order, &mut [0; 100])?, 79);
/// # Ok::<(), vekalumist::Refusal>(())
/// ```
pub fn write_with_order(facts: &Facts, parts: &Parts<'_>, order: &[u64], out: &mut [u8]) -> Result<usize, Refusal> {
    sys::write(facts, parts, order, out).map(|size| size as usize)
}

/// Sorts the numbers of keys, four numbers each, by their keys, equal keys by number, into the first places of a lent table, and gives those.
/// The others stay as they were. A table with too few places gives none, which is no claim. It takes n log n comparisons whatever the keys
/// are, and no memory of its own.
pub fn key_order<'t>(keys: &[u64], table: &'t mut [u64]) -> &'t [u64] {
    let (keys, _) = keys.as_chunks::<4>();
    let Some(numbers) = table.get_mut(..keys.len()) else { return &[] };
    for (number, place) in (0..).zip(&mut *numbers) {
        *place = number;
    }
    numbers.sort_unstable_by_key(|&number| (&keys[number as usize], number));
    numbers
}

#[cfg(test)]
mod tests {
    use super::*;
    use std::vec::Vec;

    fn of(first_elements: &[u64], table: &mut [u64]) -> Vec<u64> {
        let keys: Vec<u64> = first_elements.iter().flat_map(|&a| [a, 0, 0, 0]).collect();
        key_order(&keys, table).to_vec()
    }

    #[test]
    fn numbers_are_sorted_by_key_and_equal_ones_by_number() {
        assert_eq!(of(&[], &mut []), []);
        assert_eq!(of(&[2, 1], &mut [9; 2]), [1, 0]);
        assert_eq!(of(&[7, 7], &mut [9; 2]), [0, 1]);
        assert_eq!(of(&[3, 1, 3, 2, 1], &mut [9; 5]), [1, 4, 3, 0, 2]);
        assert_eq!(key_order(&[0, 0, 0, 1, 0, 0, 0, 0], &mut [9; 2]), [1, 0]); // the last element decides
    }

    #[test]
    fn a_table_is_used_as_far_as_needed() {
        let mut table = [9; 3];
        assert_eq!(of(&[2, 1], &mut table), [1, 0]);
        assert_eq!(table, [1, 0, 9]);
        assert_eq!(of(&[2, 1, 0, 0], &mut table), []);
        assert_eq!(table, [1, 0, 9]);
        assert_eq!(key_order(&[2, 0, 0, 0, 1], &mut table), [0]); // the last key is not whole
    }

    #[cfg(feature = "std")]
    #[test]
    fn keys_that_rise_or_are_refused_need_no_order() {
        let needs = |keys: &[u64], lengths: &[u64]| needs_order(&Parts { keys, lengths, ..Parts::default() });
        assert!(!needs(&[], &[]) && !needs(&[5, 0, 0, 0], &[0]) && !needs(&[1, 0, 0, 0, 2, 0, 0, 0], &[0; 2]));
        assert!(!needs(&[2, 0, 0, 0, 1], &[0; 2]) && !needs(&[2, 0, 0, 0, 1, 0, 0, 0], &[0]));
        assert!(needs(&[2, 0, 0, 0, 1, 0, 0, 0], &[0; 2]) && needs(&[1, 0, 0, 0, 1, 0, 0, 0], &[0; 2]));
    }
}
