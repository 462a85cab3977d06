//! The units: places count bytes, slots count rows, ids number nodes; none is another. And the word of four elements.

use core::fmt;
use core::str::FromStr;

/// A place in a file, counted in bytes from its start.
#[derive(Clone, Copy, Debug, Default, PartialEq, Eq, PartialOrd, Ord, Hash)]
#[repr(transparent)]
pub struct ByteOffset(pub usize);

/// A row of a section, counted in rows from the section's start; as a count, the slot past its last row.
#[derive(Clone, Copy, Debug, Default, PartialEq, Eq, PartialOrd, Ord, Hash)]
#[repr(transparent)]
pub struct Slot(pub usize);

/// A node, by its number in the file. Roots and children are such ids; what they name may not be there, which is judged where they are used.
#[derive(Clone, Copy, Debug, Default, PartialEq, Eq, PartialOrd, Ord, Hash)]
#[repr(transparent)]
pub struct NodeId(pub u32);

impl NodeId {
    /// The same number as an index, for the functions that take any.
    #[inline]
    #[must_use]
    pub const fn index(self) -> usize {
        self.0 as usize
    }
}

impl From<u32> for NodeId {
    fn from(id: u32) -> NodeId {
        NodeId(id)
    }
}

impl From<NodeId> for u32 {
    fn from(id: NodeId) -> u32 {
        id.0
    }
}

/// An index as an id; an index of more than 32 bits names no node of a file.
impl TryFrom<usize> for NodeId {
    type Error = core::num::TryFromIntError;

    fn try_from(index: usize) -> Result<NodeId, Self::Error> {
        index.try_into().map(NodeId)
    }
}

impl From<ByteOffset> for usize {
    fn from(at: ByteOffset) -> usize {
        at.0
    }
}

impl From<Slot> for usize {
    fn from(slot: Slot) -> usize {
        slot.0
    }
}

macro_rules! shown_as_numbers {
    ($($unit:ident),*) => {$(
        impl fmt::Display for $unit {
            fn fmt(&self, f: &mut fmt::Formatter<'_>) -> fmt::Result {
                self.0.fmt(f)
            }
        }
    )*};
}

shown_as_numbers!(ByteOffset, Slot, NodeId);

/// Four numbers, 32 bytes in a file: a digest, or a key of the advice map. Words are ordered as keys are: first element first, as numbers.
///
/// It is shown as `0x` and the 64 hexadecimal digits of its bytes as the file has them, and read from that (the `0x` may be missing) or from
/// four decimal numbers with commas between them. Numbers that are no field elements are words too: what asks for elements judges them.
///
/// ```
/// use vekalumist::Word;
///
/// let word: Word = "0x0100000000000000000000000000000000000000000000000002000000000000".parse()?;
/// assert_eq!(word, Word([1, 0, 0, 512]));
/// assert_eq!("1,0,0,512".parse(), Ok(word));
/// assert_eq!(word.to_string(), "0x0100000000000000000000000000000000000000000000000002000000000000");
/// # Ok::<(), vekalumist::ParseError>(())
/// ```
#[derive(Clone, Copy, Debug, Default, PartialEq, Eq, PartialOrd, Ord, Hash)]
#[repr(transparent)]
pub struct Word(pub [u64; 4]);

impl Word {
    /// The word that 32 bytes of a file are.
    #[must_use]
    pub fn from_bytes(bytes: &[u8; 32]) -> Word {
        let (numbers, _) = bytes.as_chunks::<8>();
        Word(core::array::from_fn(|i| u64::from_le_bytes(numbers[i])))
    }

    /// Its bytes, as a file has them.
    #[must_use]
    pub fn to_bytes(self) -> [u8; 32] {
        let mut bytes = [0; 32];
        let (numbers, _) = bytes.as_chunks_mut::<8>();
        for (eight, number) in numbers.iter_mut().zip(self.0) {
            *eight = number.to_le_bytes();
        }
        bytes
    }
}

impl From<[u64; 4]> for Word {
    fn from(numbers: [u64; 4]) -> Word {
        Word(numbers)
    }
}

impl From<Word> for [u64; 4] {
    fn from(word: Word) -> [u64; 4] {
        word.0
    }
}

impl fmt::Display for Word {
    fn fmt(&self, f: &mut fmt::Formatter<'_>) -> fmt::Result {
        f.write_str("0x")?;
        self.to_bytes().iter().try_for_each(|byte| write!(f, "{byte:02x}"))
    }
}

impl FromStr for Word {
    type Err = ParseError;

    fn from_str(text: &str) -> Result<Word, ParseError> {
        let wrong = ParseError("a word is 64 hexadecimal digits, or four decimal numbers below 2^64 with commas between them");
        if text.contains(',') {
            let mut numbers = text.split(',').map(decimal);
            let word = core::array::from_fn(|_| numbers.next().flatten());
            return match (word, numbers.next()) {
                ([Some(a), Some(b), Some(c), Some(d)], None) => Ok(Word([a, b, c, d])),
                _ => Err(wrong),
            };
        }
        hexadecimal(text.strip_prefix("0x").unwrap_or(text)).map(|bytes| Word::from_bytes(&bytes)).ok_or(wrong)
    }
}

/// A text that says nothing of what was asked for; what it says itself is what would.
#[derive(Clone, Copy, Debug, PartialEq, Eq, Hash)]
pub struct ParseError(pub(crate) &'static str);

impl fmt::Display for ParseError {
    fn fmt(&self, f: &mut fmt::Formatter<'_>) -> fmt::Result {
        f.write_str(self.0)
    }
}

impl core::error::Error for ParseError {}

/// A number below 2^64 in decimal digits alone.
pub(crate) fn decimal(text: &str) -> Option<u64> {
    // a sign is no digit, and parse takes one
    text.bytes().all(|byte| byte.is_ascii_digit()).then(|| text.parse().ok())?
}

/// N bytes in just 2 N hexadecimal digits of either case.
pub(crate) fn hexadecimal<const N: usize>(text: &str) -> Option<[u8; N]> {
    let (pairs, []) = text.as_bytes().as_chunks::<2>() else { return None };
    if pairs.len() != N {
        return None;
    }
    let digit = |byte: u8| char::from(byte).to_digit(16);
    let mut bytes = [0; N];
    for (byte, [high, low]) in bytes.iter_mut().zip(pairs) {
        *byte = (16 * digit(*high)? + digit(*low)?) as u8;
    }
    Some(bytes)
}

#[cfg(test)]
mod tests {
    use super::*;
    use std::format;
    use std::string::ToString;

    #[test]
    fn a_word_is_its_bytes() {
        let word = Word([1, 0xFF00, 0, u64::MAX]);
        assert_eq!(Word::from_bytes(&word.to_bytes()), word);
        assert_eq!(word.to_bytes()[8..10], [0, 0xFF]);
        assert_eq!(word.to_string().parse(), Ok(word));
        assert_eq!(word.to_string()[2..].to_uppercase().parse(), Ok(word));
        assert!(Word([0, 1, 0, 0]) < Word([1, 0, 0, 0])); // the first element decides
    }

    #[test]
    fn what_is_no_word() {
        let good = "0".repeat(64);
        assert_eq!(good.parse(), Ok(Word::default()));
        let wrong =
            ["", "0x", &good[1..], &format!("{good}0"), &format!("g{}", &good[1..]), &format!("0X{good}"), &format!("é{}", &good[2..])];
        for text in wrong {
            assert!(text.parse::<Word>().is_err(), "{text}");
        }
        for text in ["1,2,3", "1,2,3,4,5", "1,2,3,", "1,2,3,+4", "1,2,3, 4", "1,2,3,18446744073709551616", ",,,"] {
            assert!(text.parse::<Word>().is_err(), "{text}");
        }
        assert_eq!("0,01,2,18446744073709551615".parse(), Ok(Word([0, 1, 2, u64::MAX])));
    }
}
