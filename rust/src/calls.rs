//! The archive's calls, one function each, and what they answer.

use crate::{rows, sys, ByteOffset, Entry, Facts, Layout, NodeId, Refusal, Scanned, Word};

/// A count that was read. Later versions say more of it.
#[derive(Clone, Copy, Debug, PartialEq, Eq, Hash)]
#[non_exhaustive]
pub struct Count {
    /// The number.
    pub value: u64,
    /// Its bytes, 1 to 9. Longer forms than needed are read.
    pub len: usize,
    /// The place after it.
    pub next: ByteOffset,
    /// Whether its value has no shorter form. If it has one, the count is long.
    pub shortest: bool,
}

/// An accepted map. Later versions say more of it.
#[derive(Clone, Copy, Debug, PartialEq, Eq, Hash)]
#[non_exhaustive]
pub struct Walked {
    /// The number of entries, which is the number of places that the walk filled.
    pub entries: usize,
    /// The place after the map. What follows is not looked at.
    pub end: ByteOffset,
    /// The number of bytes that follow the map: 0 exactly if nothing does.
    pub trailing: usize,
    /// How many of the map's counts are long: its own, and the length of each entry.
    pub long_counts: usize,
}

/// An entry of the map, at a place of a key table.
#[derive(Clone, Copy, Debug, PartialEq, Eq, Hash)]
pub struct MapEntry {
    /// Its key.
    pub key: Word,
    /// The number of its values.
    pub len: usize,
    /// The first value; each has 8 bytes. They are not judged.
    pub values: ByteOffset,
}

/// Whether a key is in the map.
#[derive(Clone, Copy, Debug, PartialEq, Eq, Hash)]
pub enum Lookup {
    /// It is.
    Found {
        /// The first value; each has 8 bytes.
        values: ByteOffset,
        /// The number of values.
        len: usize,
        /// The number of keys that were compared.
        compared: usize,
    },
    /// It is not.
    Absent {
        /// The number of keys that were compared.
        compared: usize,
    },
}

/// The version of the archive that is linked: major * 10000 + minor * 100 + patch.
#[must_use]
pub fn version() -> u64 {
    sys::version()
}

/// Reads the count (vint64) at a place.
///
/// # Errors
/// `Short`, place: the `Byte` asked for.
///
/// ```
/// use vekalumist::{read_count, ByteOffset};
///
/// let count = read_count(&[0x01], ByteOffset(0))?; // 0, in one byte
/// assert_eq!((count.value, count.len, count.shortest), (0, 1, true));
/// let count = read_count(&[0x02, 0x00], ByteOffset(0))?; // 0 again, in two: a long count
/// assert_eq!((count.value, count.len, count.shortest), (0, 2, false));
/// # Ok::<(), vekalumist::Refusal>(())
/// ```
#[inline]
pub fn read_count(s: &[u8], at: ByteOffset) -> Result<Count, Refusal> {
    sys::read_count(s, at.0)
}

/// The number of bytes of a number's shortest form, 1 to 9.
#[inline]
#[must_use]
pub fn shortest_len(v: u64) -> usize {
    sys::shortest_len(v) as usize
}

/// Stores a number in its shortest form at a place of the output, and gives the place after it.
///
/// # Errors
/// `Room`, place: the `Byte` of the output asked for; the output is as it was.
#[inline]
pub fn write_count(out: &mut [u8], at: ByteOffset, v: u64) -> Result<ByteOffset, Refusal> {
    sys::write_count(out, at.0, v).map(|next| ByteOffset(next as usize))
}

/// The entry that a word says.
///
/// # Errors
/// `Tag`, `Payload`, place: `Number(0)`.
#[inline]
pub fn decode_entry(word: u64) -> Result<Entry, Refusal> {
    sys::decode_entry(word)
}

/// The canonical word of an entry.
///
/// # Errors
/// `Payload`, place: `Number(0)`, where an id of Join or Split is 2^30 or more.
#[inline]
pub fn encode_entry(entry: Entry) -> Result<u64, Refusal> {
    sys::encode_entry(&rows::of_entry(entry))
}

/// The flags byte of a file, byte 4. No other byte is looked at.
///
/// # Errors
/// `Short`, place: `Byte(4)`.
#[inline]
pub fn flags(s: &[u8]) -> Result<u8, Refusal> {
    sys::flags(s)
}

/// Where a file's sections lie. The map is not looked at: see [`walk_map`]. [`Forest::scan`](crate::Forest::scan) has its options by name,
/// and [`scan_counting`] also says how many counts are long.
///
/// `bound` is how many bytes a reader of the file may have to allocate: with n, a count above n / size is `Budget`.
///
/// # Errors
/// `Format`, `Short`, `Magic`, `Version`, `Flags`, `Hashless` (unless allowed), `Overflow`, `TooMany`, `Budget`, `Tag`,
/// `Payload`, `Externals`; place: a `Byte`.
///
/// ```
/// use vekalumist::{scan, ByteOffset, Facts, Kind, Place};
///
/// let file = b"MAST\x00\x00\x00\x02\x01\x01\x01\x01\x01"; // no node, no root, no block data
/// let layout = scan(file, &Facts::STAND_IN, false, None)?;
/// assert_eq!(layout.node_count, 0);
/// assert_eq!(layout.advice_map_offset, ByteOffset(12));
///
/// let refusal = scan(&file[..7], &Facts::STAND_IN, false, None).unwrap_err();
/// assert_eq!(refusal.kind, Kind::Short); // the version is cut off
/// assert_eq!(refusal.place, Place::Byte(ByteOffset(5)));
/// # Ok::<(), vekalumist::Refusal>(())
/// ```
pub fn scan(s: &[u8], facts: &Facts, allow_hashless: bool, bound: Option<usize>) -> Result<Layout, Refusal> {
    scan_counting(s, facts, allow_hashless, bound).map(|scanned| scanned.layout)
}

/// As [`scan`], and beside the layout how many of the counts that it read are long. Long counts are accepted. The map's are not among them:
/// [`walk_map`] gives those, and a file's number is the sum of the two.
///
/// # Errors
/// As [`scan`].
///
/// ```
/// use vekalumist::{scan, scan_counting, walk_map, Facts};
///
/// // no node, no root, no block data, an empty map; the first count has two bytes
/// let file = b"MAST\x00\x00\x00\x02\x02\x00\x01\x01\x01\x01";
/// let scanned = scan_counting(file, &Facts::STAND_IN, false, None)?;
/// assert_eq!(scanned.long_counts, 1);
/// assert_eq!(scanned.layout, scan(file, &Facts::STAND_IN, false, None)?);
/// assert_eq!(walk_map(file, scanned.layout.advice_map_offset, &mut [])?.long_counts, 0);
/// # Ok::<(), vekalumist::Refusal>(())
/// ```
pub fn scan_counting(s: &[u8], facts: &Facts, allow_hashless: bool, bound: Option<usize>) -> Result<Scanned, Refusal> {
    sys::scan(s, facts, allow_hashless, &rows::of_bound(bound))
}

/// The node of a root.
///
/// # Errors
/// `Index`, `Overflow`, `Short`, `RootId` (not below the node count); place: the `Root` asked for.
#[inline]
pub fn root(s: &[u8], layout: &Layout, index: usize) -> Result<NodeId, Refusal> {
    sys::root(s, layout, index)
}

/// The entry of a node.
///
/// # Errors
/// `Index`, `Overflow`, `Short`, `Tag`, `Payload`; place: the `Node` asked for.
#[inline]
pub fn entry(s: &[u8], layout: &Layout, index: usize) -> Result<Entry, Refusal> {
    sys::entry(s, layout, index)
}

/// Checks that every child is a node and comes before its parent, so that no node reaches itself.
///
/// # Errors
/// [`entry`]'s refusals, `ChildRange`, `Forward`; place: the `Node`, which is the parent.
pub fn children(s: &[u8], layout: &Layout) -> Result<(), Refusal> {
    sys::children(s, layout)
}

/// Checks that external nodes come first, then blocks, then all others.
///
/// # Errors
/// [`entry`]'s refusals, `Order`; place: the `Node`.
pub fn order(s: &[u8], layout: &Layout) -> Result<(), Refusal> {
    sys::order(s, layout)
}

/// Checks that every entry's bytes are its canonical form.
///
/// # Errors
/// [`entry`]'s refusals, `NotCanonical`; place: the `Node`.
pub fn strict(s: &[u8], layout: &Layout) -> Result<(), Refusal> {
    sys::strict(s, layout)
}

/// The digest of a node. Its slot is counted from node 0 on; for many digests see [`digest_with_table`].
///
/// # Errors
/// `Index`, `NoHash`, `Overflow`, `Short`, `Element`, place: the `Node` asked for; [`entry`]'s refusals of nodes 0 to the
/// index, place: that `Node`.
#[inline]
pub fn digest(s: &[u8], layout: &Layout, index: usize) -> Result<Word, Refusal> {
    sys::digest(s, layout, index)
}

/// The digest of a node whose slot is taken from a table that [`slots`] filled for the same file and layout.
///
/// # Errors
/// `Index`, `Room` (the table is shorter than the node count), [`entry`]'s refusals of this node, `NoHash`, `Overflow`,
/// `Short`, `Element`; place: the `Node` asked for.
#[inline]
pub fn digest_with_table(s: &[u8], layout: &Layout, index: usize, table: &[u32]) -> Result<Word, Refusal> {
    sys::digest_with_table(s, layout, index, table)
}

/// Fills a table with each node's slot: its row among the external digests if it is external, else among the hashes. Gives what is
/// left of the bound, which is 4 bytes a node less. Places past the node count stay as they were.
///
/// # Errors
/// `TooMany` (above 2^30 nodes), `Budget`, `Room`, place: `Number(0)`; [`entry`]'s refusals, place: the `Node`. The table is as it was.
///
/// ```
/// # use vekalumist::{scan, slots, Facts};
/// // a hashless file of an external node, a block and another external node
/// let mut file = b"MAST\x02\x00\x00\x02\x03\x05\x01\x01".to_vec();
/// for word in [0x8000000000000000_u64, 0x3000000000000000, 0x8000000000000000] {
///     file.extend(word.to_le_bytes());
/// }
/// file.extend([0; 64]);
/// let layout = scan(&file, &Facts::STAND_IN, true, None)?;
/// let mut table = [9; 4];
/// assert_eq!(slots(&file, &layout, Some(100), &mut table)?, Some(88));
/// assert_eq!(table, [0, 0, 1, 9]);
/// # Ok::<(), vekalumist::Refusal>(())
/// ```
pub fn slots(s: &[u8], layout: &Layout, bound: Option<usize>, table: &mut [u32]) -> Result<Option<usize>, Refusal> {
    sys::slots(s, layout, &rows::of_bound(bound), table)
}

/// How many places of a key table are enough for the map at a place: a [`walk_map`] with so many never says `Room`. As many as the map says
/// it has entries, or one more than have room in the file, at 33 bytes each, whichever is less; 0 where it has no count.
///
/// ```
/// use vekalumist::{places, ByteOffset};
///
/// assert_eq!(places(&[1], ByteOffset(0)), 0); // a map without entries
/// assert_eq!(places(&[0xFF; 100], ByteOffset(0)), 4); // it says 127 entries, and 99 bytes follow
/// ```
#[inline]
#[must_use]
pub fn places(s: &[u8], at: ByteOffset) -> usize {
    sys::places(s, at.0) as usize
}

/// Walks the map at a place, and fills the first places of the lent table with the byte offsets of its keys, keys rising; the other
/// places stay as they were. [`AdviceMap`](crate::AdviceMap) holds file and table together.
///
/// # Errors
/// `Short`, `Room` (the table is used up), `Element` (of a key), `Overflow`, `Duplicate`; place: a `Byte`. The whole
/// table is zero then.
///
/// ```
/// use vekalumist::{walk_map, ByteOffset};
///
/// let mut map = vec![0x06, 0x00]; // the count 1 in two bytes: it is long
/// map.extend([0; 32]); // the key
/// map.extend([0x04, 0x00, 0x00]); // the count 0 in three: no values
/// let mut keys = [9; 2];
/// let walked = walk_map(&map, ByteOffset(0), &mut keys)?;
/// assert_eq!((walked.entries, walked.end, walked.trailing), (1, ByteOffset(37), 0));
/// assert_eq!(walked.long_counts, 2);
/// assert_eq!(keys, [2, 9]);
/// # Ok::<(), vekalumist::Refusal>(())
/// ```
pub fn walk_map(s: &[u8], at: ByteOffset, keys: &mut [u64]) -> Result<Walked, Refusal> {
    sys::walk(s, at.0, keys)
}

/// Looks a key up among the first `n` places of a table that [`walk_map`] filled for the same file.
///
/// # Errors
/// `Room` (n is above the table's length), place: n `Rows`; `Short`, `Overflow`, `Element` (of a value), place: a `Byte`.
///
/// ```
/// use vekalumist::{lookup, walk_map, ByteOffset, Lookup, Word};
///
/// let mut map = vec![3]; // the count 1
/// for number in [5_u64, 0, 0, 0] {
///     map.extend(number.to_le_bytes());
/// }
/// map.push(5); // the count 2
/// for value in [70_u64, 80] {
///     map.extend(value.to_le_bytes());
/// }
/// let mut keys = [0; 8];
/// let walked = walk_map(&map, ByteOffset(0), &mut keys)?;
/// let found = lookup(&map, &keys, walked.entries, Word([5, 0, 0, 0]))?;
/// assert_eq!(found, Lookup::Found { values: ByteOffset(34), len: 2, compared: 1 });
/// assert_eq!(lookup(&map, &keys, walked.entries, Word([6, 0, 0, 0]))?, Lookup::Absent { compared: 1 });
/// # Ok::<(), vekalumist::Refusal>(())
/// ```
#[inline]
pub fn lookup(s: &[u8], keys: &[u64], n: usize, key: Word) -> Result<Lookup, Refusal> {
    sys::lookup(s, keys, n, &key.0)
}

/// The values of a key as a part of the file, 8 bytes each; none where the key is absent.
///
/// # Errors
/// What [`lookup`] of the same input refuses.
#[inline]
pub fn values<'a>(s: &'a [u8], keys: &[u64], n: usize, key: Word) -> Result<Option<&'a [u8]>, Refusal> {
    match sys::values(s, keys, n, &key.0)? {
        [0, _, _] => Ok(None),
        [_, at, bytes] => rows::part(s, at as usize, bytes as usize).map(Some),
    }
}

/// The key at a place of a key table.
///
/// # Errors
/// `Index` (the table has no such place), place: the `Key` asked for; `Short`, `Element`, place: the key's `Byte`.
#[inline]
pub fn key(s: &[u8], keys: &[u64], index: usize) -> Result<Word, Refusal> {
    sys::key(s, keys, index)
}

/// The entry of the map at a place of a key table. Its values are not judged.
///
/// # Errors
/// What [`key()`] refuses; `Short`, `Overflow`, place: the `Byte` of the length; `Short`, place: that of the values.
#[inline]
pub fn map_entry(s: &[u8], keys: &[u64], index: usize) -> Result<MapEntry, Refusal> {
    sys::map_entry(s, keys, index)
}
