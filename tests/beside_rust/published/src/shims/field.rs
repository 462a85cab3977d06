//! SHIM for miden-crypto's `Felt` and `Word`. Document 01: an element is a number below the
//! modulus, a word is four elements, 32 bytes, little-endian; words compare first element first.
use super::serde::{ByteReader, Deserializable, DeserializationError};

const MODULUS: u64 = 18_446_744_069_414_584_321;

/// Holds the number as given. A lookup key may hold numbers not below the modulus (document 01:
/// keys are compared as numbers and not judged); the real `Felt` may not.
#[derive(Debug, Clone, Copy, Default, PartialEq, Eq, PartialOrd, Ord)]
pub struct Felt(pub u64);

#[derive(Debug, Clone, Copy, Default, PartialEq, Eq, PartialOrd, Ord)]
pub struct Word(pub [Felt; 4]);

#[inline]
fn element(value: u64) -> Result<Felt, DeserializationError> {
    if value < MODULUS { Ok(Felt(value)) } else { Err(no_element(value)) }
}

#[cold]
fn no_element(value: u64) -> DeserializationError {
    DeserializationError::InvalidValue(format!("shim: {value} is not a field element"))
}

impl Deserializable for Felt {
    fn read_from<R: ByteReader>(source: &mut R) -> Result<Self, DeserializationError> {
        element(source.read_u64()?)
    }
}

impl Word {
    /// Four numbers, not judged.
    pub fn of_numbers(numbers: [u64; 4]) -> Self {
        Self(numbers.map(Felt))
    }

    pub fn numbers(self) -> [u64; 4] {
        self.0.map(|f| f.0)
    }

    pub fn of_bytes(bytes: [u8; 32]) -> Self {
        Self(core::array::from_fn(|i| {
            Felt(u64::from_le_bytes(bytes[8 * i..8 * i + 8].try_into().expect("8 bytes")))
        }))
    }
}

impl Deserializable for Word {
    /// All 32 bytes first, then the elements in turn.
    fn read_from<R: ByteReader>(source: &mut R) -> Result<Self, DeserializationError> {
        let word = Self::of_bytes(source.read_array()?);
        word.0.iter().try_for_each(|f| element(f.0).map(|_| ()))?;
        Ok(word)
    }
}
