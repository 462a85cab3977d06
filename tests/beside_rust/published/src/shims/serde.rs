//! SHIM for `crate::serde` (miden-serde-utils). The names and signatures are those that the
//! published files call; the behaviour is document 01's.
use super::trace;
use std::fmt;

#[derive(Debug, Clone, PartialEq, Eq)]
pub enum DeserializationError {
    InvalidValue(String),
    UnexpectedEOF,
}

impl fmt::Display for DeserializationError {
    fn fmt(&self, f: &mut fmt::Formatter<'_>) -> fmt::Result {
        match self {
            Self::InvalidValue(text) => f.write_str(text),
            Self::UnexpectedEOF => f.write_str("unexpected EOF"),
        }
    }
}

// READING
// ================================================================================================

pub trait ByteReader {
    fn read_u8(&mut self) -> Result<u8, DeserializationError>;
    fn peek_u8(&self) -> Result<u8, DeserializationError>;
    fn read_slice(&mut self, len: usize) -> Result<&[u8], DeserializationError>;
    fn read_array<const N: usize>(&mut self) -> Result<[u8; N], DeserializationError>;
    fn check_eor(&self, num_bytes: usize) -> Result<(), DeserializationError>;
    fn has_more_bytes(&self) -> bool;

    /// The largest count of elements of this size that the reader allows; no bound by default.
    fn max_alloc(&self, _element_size: usize) -> usize {
        usize::MAX
    }

    fn read_u32(&mut self) -> Result<u32, DeserializationError> {
        Ok(u32::from_le_bytes(self.read_array()?))
    }

    fn read_u64(&mut self) -> Result<u64, DeserializationError> {
        Ok(u64::from_le_bytes(self.read_array()?))
    }

    /// Document 01, "Counts": vint64. The whole count is one read, so SHORT falls on its start.
    fn read_usize(&mut self) -> Result<usize, DeserializationError> {
        let len = self.peek_u8()?.trailing_zeros() as usize + 1;
        let bytes = self.read_slice(len)?;
        let mut raw = [0u8; 8];
        let value = if len == 9 {
            raw.copy_from_slice(&bytes[1..]);
            u64::from_le_bytes(raw)
        } else {
            raw[..len].copy_from_slice(bytes);
            u64::from_le_bytes(raw) >> len
        };
        Ok(value as usize) // 64-bit machine
    }
}

const _: () = assert!(usize::BITS == 64, "document 01 asks for a 64-bit machine");

pub struct SliceReader<'a> {
    source: &'a [u8],
    pos: usize,
}

impl<'a> SliceReader<'a> {
    pub fn new(source: &'a [u8]) -> Self {
        Self { source, pos: 0 }
    }

    /// How many bytes were read.
    pub fn position(&self) -> usize {
        self.pos
    }

    fn here(&self) -> usize {
        self.source.as_ptr() as usize + self.pos
    }

    #[inline]
    fn take(&mut self, len: usize) -> Result<&'a [u8], DeserializationError> {
        let rest = &self.source[self.pos..];
        trace::note_read(self.here());
        let part = rest.get(..len).ok_or(DeserializationError::UnexpectedEOF)?;
        self.pos += len;
        Ok(part)
    }
}

impl ByteReader for SliceReader<'_> {
    fn read_u8(&mut self) -> Result<u8, DeserializationError> {
        Ok(self.take(1)?[0])
    }

    #[inline]
    fn peek_u8(&self) -> Result<u8, DeserializationError> {
        trace::note_peek(self.here());
        self.source.get(self.pos).copied().ok_or(DeserializationError::UnexpectedEOF)
    }

    #[inline]
    fn read_slice(&mut self, len: usize) -> Result<&[u8], DeserializationError> {
        self.take(len)
    }

    #[inline]
    fn read_array<const N: usize>(&mut self) -> Result<[u8; N], DeserializationError> {
        let at = self.here();
        let array = self.take(N)?.try_into().expect("N bytes");
        trace::note_array(at, N);
        Ok(array)
    }

    fn check_eor(&self, num_bytes: usize) -> Result<(), DeserializationError> {
        let left = self.source.len() - self.pos;
        if num_bytes <= left { Ok(()) } else { Err(DeserializationError::UnexpectedEOF) }
    }

    fn has_more_bytes(&self) -> bool {
        self.pos < self.source.len()
    }
}

/// Document 01: the same n serves every check, floor(n / size).
pub struct BudgetedReader<R> {
    inner: R,
    bound: usize,
}

impl<R> BudgetedReader<R> {
    pub fn new(inner: R, bound: usize) -> Self {
        Self { inner, bound }
    }
}

impl<R: ByteReader> ByteReader for BudgetedReader<R> {
    fn read_u8(&mut self) -> Result<u8, DeserializationError> {
        self.inner.read_u8()
    }

    fn peek_u8(&self) -> Result<u8, DeserializationError> {
        self.inner.peek_u8()
    }

    fn read_slice(&mut self, len: usize) -> Result<&[u8], DeserializationError> {
        self.inner.read_slice(len)
    }

    fn read_array<const N: usize>(&mut self) -> Result<[u8; N], DeserializationError> {
        self.inner.read_array()
    }

    fn check_eor(&self, num_bytes: usize) -> Result<(), DeserializationError> {
        self.inner.check_eor(num_bytes)
    }

    fn has_more_bytes(&self) -> bool {
        self.inner.has_more_bytes()
    }

    fn max_alloc(&self, element_size: usize) -> usize {
        self.bound / element_size
    }
}

pub trait Deserializable: Sized {
    fn read_from<R: ByteReader>(source: &mut R) -> Result<Self, DeserializationError>;

    fn min_serialized_size() -> usize {
        size_of::<Self>()
    }
}

impl Deserializable for u32 {
    fn read_from<R: ByteReader>(source: &mut R) -> Result<Self, DeserializationError> {
        source.read_u32()
    }
}

// WRITING
// ================================================================================================

pub trait ByteWriter {
    fn write_bytes(&mut self, bytes: &[u8]);

    fn write_u32(&mut self, value: u32) {
        self.write_bytes(&value.to_le_bytes());
    }

    fn write_u64(&mut self, value: u64) {
        self.write_bytes(&value.to_le_bytes());
    }
}

impl ByteWriter for Vec<u8> {
    fn write_bytes(&mut self, bytes: &[u8]) {
        self.extend_from_slice(bytes);
    }
}

/// Room for one entry, so that writing one takes no allocation.
#[derive(Default)]
pub struct EightBytes {
    bytes: [u8; 8],
    len: usize,
}

impl EightBytes {
    pub fn number(&self) -> u64 {
        assert_eq!(self.len, 8, "shim: an entry is 8 bytes");
        u64::from_le_bytes(self.bytes)
    }
}

impl ByteWriter for EightBytes {
    fn write_bytes(&mut self, bytes: &[u8]) {
        self.bytes[self.len..self.len + bytes.len()].copy_from_slice(bytes);
        self.len += bytes.len();
    }
}

pub trait Serializable {
    fn write_into<W: ByteWriter>(&self, target: &mut W);
}

impl Serializable for u32 {
    fn write_into<W: ByteWriter>(&self, target: &mut W) {
        target.write_u32(*self);
    }
}
