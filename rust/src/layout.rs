//! Where the sections of a file lie.

use core::fmt;
use core::hash::{Hash, Hasher};

use crate::{ByteOffset, NodeId, Slot};

/// Where the hashes of the internal nodes lie, or that there are none: a number that is 0 exactly if there are none, and the place. Two of
/// them are equal if they mean the same.
#[derive(Clone, Copy, Default)]
#[repr(C)]
pub struct HashSection {
    pub(crate) has_node_hashes: u64,
    pub(crate) node_hash_offset: ByteOffset,
}

impl HashSection {
    /// There are no hashes.
    pub const ABSENT: HashSection = HashSection { has_node_hashes: 0, node_hash_offset: ByteOffset(0) };

    /// The first hash.
    #[must_use]
    pub const fn at(first: ByteOffset) -> HashSection {
        HashSection { has_node_hashes: 1, node_hash_offset: first }
    }

    /// The place of the first hash, if there are any.
    #[inline]
    #[must_use]
    pub const fn offset(self) -> Option<ByteOffset> {
        match self.has_node_hashes {
            0 => None,
            _ => Some(self.node_hash_offset),
        }
    }
}

impl PartialEq for HashSection {
    fn eq(&self, other: &HashSection) -> bool {
        self.offset() == other.offset()
    }
}

impl Eq for HashSection {}

impl Hash for HashSection {
    fn hash<H: Hasher>(&self, state: &mut H) {
        self.offset().hash(state);
    }
}

impl fmt::Debug for HashSection {
    fn fmt(&self, f: &mut fmt::Formatter<'_>) -> fmt::Result {
        match self.offset() {
            Some(at) => f.debug_tuple("At").field(&at).finish(),
            None => f.write_str("Absent"),
        }
    }
}

/// Where the sections of a file lie. A scan makes it, and so may anyone, from the default on: every reader checks again what it reads by it.
/// It is the archive's own row of twelve numbers, and handed over as it lies. Later versions have more fields.
///
/// ```
/// use vekalumist::{ByteOffset, Layout};
///
/// let mut layout = Layout::default(); // as from a store's own records
/// layout.node_count = 1;
/// layout.node_entry_offset = ByteOffset(17);
/// ```
#[derive(Clone, Copy, Debug, Default, PartialEq, Eq, Hash)]
#[non_exhaustive]
#[repr(C)]
pub struct Layout {
    /// The number of nodes, internal and external.
    pub node_count: usize,
    /// The number of internal nodes, which is the number of rows of the hashes where there are any.
    pub internal_node_count: Slot,
    /// The number of external nodes, which is the number of rows of the external digests.
    pub external_node_count: Slot,
    /// The number of roots.
    pub roots_count: usize,
    /// The first root; each has 4 bytes.
    pub roots_offset: ByteOffset,
    /// The first byte of block data.
    pub basic_block_offset: ByteOffset,
    /// The number of bytes of block data.
    pub basic_block_len: usize,
    /// The first node entry; each has 8 bytes.
    pub node_entry_offset: ByteOffset,
    /// The first external digest; each has 32 bytes.
    pub external_digest_offset: ByteOffset,
    /// The hashes of the internal nodes; each has 32 bytes. Absent in a hashless file.
    pub node_hashes: HashSection,
    /// The advice map, for [`walk_map`](crate::walk_map).
    pub advice_map_offset: ByteOffset,
}

impl Layout {
    /// The first hash of an internal node; none in a hashless file.
    #[inline]
    #[must_use]
    pub const fn node_hash_offset(&self) -> Option<ByteOffset> {
        self.node_hashes.offset()
    }

    /// Where a root lies; none where that is above 2^64 - 1. Whether there is such a root is not asked.
    #[must_use]
    pub const fn root_offset(&self, index: usize) -> Option<ByteOffset> {
        row(self.roots_offset, 4, index)
    }

    /// Where a node's entry lies; none where that is above 2^64 - 1. Whether there is such a node is not asked.
    #[must_use]
    pub const fn entry_offset(&self, id: NodeId) -> Option<ByteOffset> {
        row(self.node_entry_offset, 8, id.index())
    }
}

/// What a scan gives of an accepted file: its layout, and how many of the counts that it read are long. A count is long if it has more bytes
/// than its value's shortest form ([`shortest_len`](crate::shortest_len)). It is the archive's own row of thirteen numbers, and taken as it
/// lies. Later versions have more fields. [`scan_counting`](crate::scan_counting) gives it.
///
/// ```
/// use vekalumist::{scan_counting, Facts};
///
/// // no node, no root, no block data; the counts of the last two have two bytes
/// let file = b"MAST\x00\x00\x00\x02\x01\x01\x02\x00\x02\x00\x01";
/// let scanned = scan_counting(file, &Facts::STAND_IN, false, None)?;
/// assert_eq!((scanned.layout.roots_count, scanned.long_counts), (0, 2));
/// # Ok::<(), vekalumist::Refusal>(())
/// ```
#[derive(Clone, Copy, Debug, Default, PartialEq, Eq, Hash)]
#[non_exhaustive]
#[repr(C)]
pub struct Scanned {
    /// Where the sections lie.
    pub layout: Layout,
    /// How many of its four counts are long, 0 to 4: internal nodes, external nodes, roots, bytes of block data. The map's are not among
    /// them: see [`Walked::long_counts`](crate::Walked::long_counts).
    pub long_counts: usize,
}

/// Where row `index` of a section lies.
const fn row(section: ByteOffset, size: usize, index: usize) -> Option<ByteOffset> {
    let Some(rows) = size.checked_mul(index) else { return None };
    match section.0.checked_add(rows) {
        Some(at) => Some(ByteOffset(at)),
        None => None,
    }
}
