//! The advice map of a file, held with the table of its keys.

use core::fmt;
use core::iter::FusedIterator;
use core::slice;

use crate::in_turn::in_turn;
use crate::{key, lookup, map_entry, rows, sys, walk_map, ByteOffset, Lookup, Refusal, Walked, Word};

/// A walked map: the file beside the table of its keys, so that a lookup cannot be given another file's.
/// [`Forest::advice`](crate::Forest::advice) makes it, and [`AdviceMap::walk`] of a file's map alone.
///
/// ```
/// use vekalumist::{AdviceMap, ByteOffset, Lookup, Word};
///
/// let mut map = vec![5]; // the count 2
/// for (key, value) in [(8_u64, 80_u64), (5, 50)] {
///     for number in [key, 0, 0, 0] {
///         map.extend(number.to_le_bytes());
///     }
///     map.push(3); // the count 1
///     map.extend(value.to_le_bytes());
/// }
/// let mut keys = [0; 8]; // one place for each entry, at least
/// let advice = AdviceMap::walk(&map, ByteOffset(0), &mut keys)?;
/// assert_eq!(advice.len(), 2);
/// let values = advice.get(Word([5, 0, 0, 0]))?.expect("the key is there");
/// assert!(values.iter().eq([50]));
/// assert_eq!(advice.get(Word([6, 0, 0, 0]))?, None);
/// assert_eq!(advice.lookup(Word([6, 0, 0, 0]))?, Lookup::Absent { compared: 2 });
/// for entry in &advice { // keys rise
///     let entry = entry?;
///     println!("{} has {} values at byte {}", entry.key, entry.values.len(), entry.values.offset());
/// }
/// # Ok::<(), vekalumist::Refusal>(())
/// ```
#[derive(Clone, Copy)]
#[must_use]
pub struct AdviceMap<'a, 'k> {
    file: &'a [u8],
    /// The places that the walk filled.
    keys: &'k [u64],
    walked: Walked,
}

impl<'a, 'k> AdviceMap<'a, 'k> {
    /// As [`walk_map`]; the table stays lent as long as the map is used.
    ///
    /// # Errors
    /// As [`walk_map`]; the whole table is zero then.
    pub fn walk(s: &'a [u8], at: ByteOffset, keys: &'k mut [u64]) -> Result<AdviceMap<'a, 'k>, Refusal> {
        let walked = walk_map(s, at, keys)?;
        // an accepted walk has filled so many places of the table
        let keys = keys.get(..walked.entries).ok_or_else(|| rows::unknown(walked.entries as u64))?;
        Ok(AdviceMap { file: s, keys, walked })
    }

    /// The number of entries.
    #[must_use]
    pub const fn len(&self) -> usize {
        self.walked.entries
    }

    /// Whether there is no entry.
    #[must_use]
    pub const fn is_empty(&self) -> bool {
        self.walked.entries == 0
    }

    /// The place after the map.
    #[must_use]
    pub const fn end(&self) -> ByteOffset {
        self.walked.end
    }

    /// The number of bytes that follow the map: 0 exactly if nothing does.
    #[must_use]
    pub const fn trailing(&self) -> usize {
        self.walked.trailing
    }

    /// How many of the map's counts are long, which have more bytes than their value's shortest form: its own, and the length of each entry.
    ///
    /// ```
    /// use vekalumist::{AdviceMap, ByteOffset};
    ///
    /// assert_eq!(AdviceMap::walk(&[0x01], ByteOffset(0), &mut [])?.long_counts(), 0); // the count 0
    /// assert_eq!(AdviceMap::walk(&[0x02, 0x00], ByteOffset(0), &mut [])?.long_counts(), 1); // in two bytes
    /// # Ok::<(), vekalumist::Refusal>(())
    /// ```
    #[must_use]
    pub const fn long_counts(&self) -> usize {
        self.walked.long_counts
    }

    /// A key's values; none exactly if no entry has the key.
    ///
    /// # Errors
    /// `Element`, place: the `Byte` of a value that is no element.
    #[inline]
    pub fn get(&self, key: impl Into<Word>) -> Result<Option<Values<'a>>, Refusal> {
        match sys::values(self.file, self.keys, self.keys.len(), &key.into().0)? {
            [0, _, _] => Ok(None),
            [_, at, bytes] => Values::of(self.file, ByteOffset(at as usize), bytes as usize).map(Some),
        }
    }

    /// Where a key's values lie, or absent exactly if no entry has the key; and how many keys were compared.
    ///
    /// # Errors
    /// As [`AdviceMap::get`].
    #[inline]
    pub fn lookup(&self, key: impl Into<Word>) -> Result<Lookup, Refusal> {
        lookup(self.file, self.keys, self.keys.len(), key.into())
    }

    /// The key at a place, keys rising.
    ///
    /// # Errors
    /// `Index`, place: the `Key` asked for, where there are not so many entries.
    #[inline]
    pub fn key(&self, index: usize) -> Result<Word, Refusal> {
        key(self.file, self.keys, index)
    }

    /// The entry at a place, keys rising. Its values are not judged: [`AdviceMap::get`] does that.
    ///
    /// # Errors
    /// As [`AdviceMap::key`].
    #[inline]
    pub fn entry(&self, index: usize) -> Result<AdviceEntry<'a>, Refusal> {
        let entry = map_entry(self.file, self.keys, index)?;
        let key_offset = self.keys.get(index).ok_or_else(|| rows::unknown(index as u64))?;
        let values = Values::of(self.file, entry.values, entry.len.saturating_mul(8))?;
        Ok(AdviceEntry { key: entry.key, key_offset: ByteOffset(*key_offset as usize), values })
    }

    /// All entries, keys rising; each as [`AdviceMap::entry`], which refuses none of them.
    pub fn iter(&self) -> AdviceIter<'a, 'k> {
        AdviceIter { over: *self, left: 0..self.len() }
    }
}

/// What the walk said; neither the file nor the table, which may be large.
impl fmt::Debug for AdviceMap<'_, '_> {
    fn fmt(&self, f: &mut fmt::Formatter<'_>) -> fmt::Result {
        f.debug_tuple("AdviceMap").field(&self.walked).finish()
    }
}

impl<'a, 'k> IntoIterator for &AdviceMap<'a, 'k> {
    type Item = Result<AdviceEntry<'a>, Refusal>;
    type IntoIter = AdviceIter<'a, 'k>;

    fn into_iter(self) -> AdviceIter<'a, 'k> {
        self.iter()
    }
}

/// An entry of the map.
#[derive(Clone, Copy, Debug, PartialEq, Eq, Hash)]
#[non_exhaustive]
pub struct AdviceEntry<'a> {
    /// Its key.
    pub key: Word,
    /// Where the key lies.
    pub key_offset: ByteOffset,
    /// Its values.
    pub values: Values<'a>,
}

/// The values of a key, as a part of the file.
#[derive(Clone, Copy, PartialEq, Eq, Hash)]
#[must_use]
pub struct Values<'a> {
    offset: ByteOffset,
    numbers: &'a [[u8; 8]],
}

impl<'a> Values<'a> {
    fn of(s: &'a [u8], offset: ByteOffset, bytes: usize) -> Result<Values<'a>, Refusal> {
        match rows::part(s, offset.0, bytes)?.as_chunks() {
            (numbers, []) => Ok(Values { offset, numbers }),
            _ => Err(rows::unknown(bytes as u64)),
        }
    }

    /// The first value; each has 8 bytes.
    #[must_use]
    pub const fn offset(&self) -> ByteOffset {
        self.offset
    }

    /// How many there are.
    #[must_use]
    pub const fn len(&self) -> usize {
        self.numbers.len()
    }

    /// Whether there is none.
    #[must_use]
    pub const fn is_empty(&self) -> bool {
        self.numbers.is_empty()
    }

    /// Their bytes, as the file has them.
    #[must_use]
    pub fn as_bytes(&self) -> &'a [u8] {
        self.numbers.as_flattened()
    }

    /// One of them; none where there are not so many.
    #[must_use]
    pub fn get(&self, index: usize) -> Option<u64> {
        self.numbers.get(index).copied().map(u64::from_le_bytes)
    }

    /// All of them in turn.
    pub fn iter(&self) -> ValuesIter<'a> {
        ValuesIter(self.numbers.iter())
    }
}

impl<'a> IntoIterator for Values<'a> {
    type Item = u64;
    type IntoIter = ValuesIter<'a>;

    fn into_iter(self) -> ValuesIter<'a> {
        self.iter()
    }
}

impl<'a> IntoIterator for &Values<'a> {
    type Item = u64;
    type IntoIter = ValuesIter<'a>;

    fn into_iter(self) -> ValuesIter<'a> {
        self.iter()
    }
}

/// The values of a key in turn, as numbers.
#[derive(Clone, Debug)]
#[must_use]
pub struct ValuesIter<'a>(slice::Iter<'a, [u8; 8]>);

impl Iterator for ValuesIter<'_> {
    type Item = u64;

    fn next(&mut self) -> Option<u64> {
        self.0.next().copied().map(u64::from_le_bytes)
    }

    fn nth(&mut self, n: usize) -> Option<u64> {
        self.0.nth(n).copied().map(u64::from_le_bytes)
    }

    fn size_hint(&self) -> (usize, Option<usize>) {
        self.0.size_hint()
    }
}

impl DoubleEndedIterator for ValuesIter<'_> {
    fn next_back(&mut self) -> Option<u64> {
        self.0.next_back().copied().map(u64::from_le_bytes)
    }
}

impl ExactSizeIterator for ValuesIter<'_> {}

impl FusedIterator for ValuesIter<'_> {}

impl fmt::Debug for Values<'_> {
    fn fmt(&self, f: &mut fmt::Formatter<'_>) -> fmt::Result {
        write!(f, "{:?} ", self.offset)?;
        f.debug_list().entries(self.iter()).finish()
    }
}

in_turn! {
    /// The entries of a map, keys rising.
    AdviceIter<'a, 'k> of AdviceMap<'a, 'k>, AdviceMap::entry, giving AdviceEntry<'a>
}
