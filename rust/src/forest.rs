//! A file and its layout together.

use core::fmt;
use core::hash::{Hash, Hasher};

use crate::in_turn::in_turn;
use crate::{
    children, digest, digest_with_table, entry, flags, order, places, root, scan_counting, slots, strict, AdviceMap, Children, Entry,
    Facts, Layout, NodeId, Refusal, ScanOptions, Slot, Word,
};

/// A file and its layout together: what to begin with. [`Forest::scan`] makes it of a file's bytes, or refuses.
///
/// It is two borrowed words, the layout and a number, and is copied freely; it keeps nothing but what it was given and what the scan said. Two
/// are equal if their files and their layouts are. A scanned file's nodes all read; its roots may name no node, and its digests may be no
/// words of elements, which is told where they are asked for.
///
/// ```
/// use vekalumist::{Entry, Facts, Forest, NodeId, ScanOptions};
///
/// // two internal nodes, one external, one root (node 2), one byte of block data, and no hashes
/// let mut file = b"MAST\x02\x00\x00\x02\x05\x03\x03\x02\x00\x00\x00\x03\xAB".to_vec();
/// for word in [0x8000000000000000_u64, 0x3000000000000000, 1] {
///     file.extend(word.to_le_bytes());
/// }
/// file.extend([0; 32]); // the external node's digest
/// file.push(1); // a map without entries
///
/// let forest = Forest::scan(&file, &Facts::STAND_IN, ScanOptions::new().allow_hashless())?;
/// for root in forest.roots() {
///     let root = root?;
///     assert_eq!(forest.entry(root)?, Entry::Join { left_child_id: NodeId(0), right_child_id: NodeId(1) });
///     assert!(forest.children(root)?.eq([NodeId(0), NodeId(1)]));
/// }
/// assert_eq!(forest.nodes().len(), 3);
/// forest.check_children()?; // every child is a node and comes before its parent
///
/// let mut keys = vec![0; forest.key_places()];
/// let advice = forest.advice(&mut keys)?;
/// assert_eq!((advice.len(), advice.trailing()), (0, 0));
/// # Ok::<(), vekalumist::Refusal>(())
/// ```
#[derive(Clone, Copy)]
#[must_use]
pub struct Forest<'a> {
    bytes: &'a [u8],
    layout: Layout,
    /// None where the layout was given, and no scan was made.
    long_counts: Option<usize>,
}

impl<'a> Forest<'a> {
    /// Scans a file. Its map is not looked at: see [`Forest::advice`].
    ///
    /// # Errors
    /// As [`scan`](crate::scan); place: a `Byte`.
    pub fn scan(bytes: &'a [u8], facts: &Facts, options: ScanOptions) -> Result<Forest<'a>, Refusal> {
        let scanned = scan_counting(bytes, facts, options.allow_hashless, options.bound)?;
        Ok(Forest { bytes, layout: scanned.layout, long_counts: Some(scanned.long_counts) })
    }

    /// A file under any layout, as one that was kept from an earlier scan. Nothing is judged yet: each reader checks what it reads.
    pub const fn with_layout(bytes: &'a [u8], layout: Layout) -> Forest<'a> {
        Forest { bytes, layout, long_counts: None }
    }

    /// The file.
    #[must_use]
    pub const fn bytes(&self) -> &'a [u8] {
        self.bytes
    }

    /// Where its sections lie.
    #[must_use]
    pub const fn layout(&self) -> &Layout {
        &self.layout
    }

    /// How many of the four counts that the scan read are long, which have more bytes than their value's shortest form: of internal nodes,
    /// external nodes, roots, bytes of block data. The map's are not among them: see [`AdviceMap::long_counts`]. None where the layout was
    /// given ([`Forest::with_layout`]): its counts were not read.
    ///
    /// ```
    /// use vekalumist::{Facts, Forest, ScanOptions};
    ///
    /// // no node, no root, no block data, an empty map; the first count has two bytes
    /// let file = b"MAST\x00\x00\x00\x02\x02\x00\x01\x01\x01\x01";
    /// let forest = Forest::scan(file, &Facts::STAND_IN, ScanOptions::new())?;
    /// assert_eq!(forest.long_counts(), Some(1));
    /// assert_eq!(forest.advice(&mut [])?.long_counts(), 0);
    /// assert_eq!(Forest::with_layout(file, *forest.layout()).long_counts(), None);
    /// # Ok::<(), vekalumist::Refusal>(())
    /// ```
    #[must_use]
    pub const fn long_counts(&self) -> Option<usize> {
        self.long_counts
    }

    /// The flags byte.
    ///
    /// # Errors
    /// As [`flags()`]; of a scanned file none.
    pub fn flags(&self) -> Result<u8, Refusal> {
        flags(self.bytes)
    }

    /// The node of a root.
    ///
    /// # Errors
    /// As [`root()`]; place: the `Root` asked for. Of a scanned file `Index` and `RootId` alone.
    #[inline]
    pub fn root(&self, index: usize) -> Result<NodeId, Refusal> {
        root(self.bytes, &self.layout, index)
    }

    /// The node of each root in turn; each as [`Forest::root`].
    pub fn roots(&self) -> Roots<'a> {
        Roots { over: *self, left: 0..self.layout.roots_count }
    }

    /// The entry of a node.
    ///
    /// # Errors
    /// As [`entry()`]; place: the `Node` asked for. Of a scanned file `Index` alone.
    #[inline]
    pub fn entry(&self, id: NodeId) -> Result<Entry, Refusal> {
        entry(self.bytes, &self.layout, id.index())
    }

    /// Each node with its entry, in turn; each as [`Forest::entry`]. Ids have 32 bits, so of a layout that says more nodes, which no scan
    /// gives, there are 2^32.
    pub fn nodes(&self) -> Nodes<'a> {
        Nodes { over: *self, left: 0..self.layout.node_count.min(1 << 32) }
    }

    /// The children of a node, the left one first. They are not judged: see [`Forest::check_children`].
    ///
    /// # Errors
    /// As [`Forest::entry`].
    pub fn children(&self, id: NodeId) -> Result<Children, Refusal> {
        self.entry(id).map(Entry::children)
    }

    /// The digest of a node. Its slot is counted from node 0 on; for many digests see [`Forest::slots`].
    ///
    /// # Errors
    /// As [`digest()`]; place: a `Node`. Of a scanned file `Index`, `NoHash` (an internal node of a hashless file) and `Element` alone.
    #[inline]
    pub fn digest(&self, id: NodeId) -> Result<Word, Refusal> {
        digest(self.bytes, &self.layout, id.index())
    }

    /// Fills a lent table, a place for each node at least, with the slots of all nodes, for digests without counting.
    ///
    /// # Errors
    /// As [`slots`](fn@slots) with no bound; the table is as it was. Of a scanned file `Room` alone.
    pub fn slots<'t>(&self, table: &'t mut [u32]) -> Result<SlotTable<'a, 't>, Refusal> {
        slots(self.bytes, &self.layout, None, table)?;
        Ok(SlotTable { forest: *self, table })
    }

    /// Checks that every child is a node and comes before its parent, so that no node reaches itself.
    ///
    /// # Errors
    /// As [`children()`]; place: the parent's `Node`. Of a scanned file `ChildRange` and `Forward` alone.
    pub fn check_children(&self) -> Result<(), Refusal> {
        children(self.bytes, &self.layout)
    }

    /// Checks that external nodes come first, then blocks, then all others.
    ///
    /// # Errors
    /// As [`order()`]; place: the `Node`. Of a scanned file `Order` alone.
    pub fn check_order(&self) -> Result<(), Refusal> {
        order(self.bytes, &self.layout)
    }

    /// Checks that every entry's bytes are its canonical form.
    ///
    /// # Errors
    /// As [`strict()`]; place: the `Node`. Of a scanned file `NotCanonical` alone.
    pub fn check_strict(&self) -> Result<(), Refusal> {
        strict(self.bytes, &self.layout)
    }

    /// Checks that every root names a node.
    ///
    /// # Errors
    /// As [`Forest::root`] of the first root that does not; of a scanned file `RootId` alone.
    pub fn check_roots(&self) -> Result<(), Refusal> {
        self.roots().try_for_each(|root| root.map(|_| ()))
    }

    /// How many places of a key table are enough for [`Forest::advice`], which then never says `Room`: as many as the map says it has
    /// entries, or one more than have room in the file, whichever is less.
    #[must_use]
    pub fn key_places(&self) -> usize {
        places(self.bytes, self.layout.advice_map_offset)
    }

    /// Walks the advice map over a lent key table.
    ///
    /// # Errors
    /// As [`walk_map`](crate::walk_map); place: a `Byte`; the whole table is zero then.
    pub fn advice<'k>(&self, keys: &'k mut [u64]) -> Result<AdviceMap<'a, 'k>, Refusal> {
        AdviceMap::walk(self.bytes, self.layout.advice_map_offset, keys)
    }
}

/// A layout that was kept serves as well as a new one, so what else the scan said is not compared.
impl PartialEq for Forest<'_> {
    fn eq(&self, other: &Self) -> bool {
        (self.bytes, self.layout) == (other.bytes, other.layout)
    }
}

impl Eq for Forest<'_> {}

impl Hash for Forest<'_> {
    fn hash<H: Hasher>(&self, state: &mut H) {
        (self.bytes, self.layout).hash(state);
    }
}

/// The layout and the long counts, and of the file, which may be large, its length.
impl fmt::Debug for Forest<'_> {
    fn fmt(&self, f: &mut fmt::Formatter<'_>) -> fmt::Result {
        let mut shown = f.debug_struct("Forest");
        shown.field("bytes", &self.bytes.len()).field("layout", &self.layout).field("long_counts", &self.long_counts).finish()
    }
}

in_turn! {
    /// The node of each root in turn.
    Roots<'a> of Forest<'a>, Forest::root, giving NodeId
}

in_turn! {
    /// Each node with its entry, in turn.
    Nodes<'a> of Forest<'a>, numbered, giving (NodeId, Entry)
}

fn numbered(forest: &Forest<'_>, index: usize) -> Result<(NodeId, Entry), Refusal> {
    let id = NodeId(index as u32); // the range ends at 2^32
    forest.entry(id).map(|entry| (id, entry))
}

/// The slots of a file's nodes, held with the file, so that a digest cannot be read by another file's.
///
/// ```
/// use vekalumist::{Facts, Forest, NodeId, ScanOptions, Slot, Word};
///
/// // one external node, whose digest is 7, 0, 0, 0
/// let mut file = b"MAST\x00\x00\x00\x02\x01\x03\x01\x01\0\0\0\0\0\0\0\x80\x07".to_vec();
/// file.extend([0; 31]);
/// file.push(1);
/// let forest = Forest::scan(&file, &Facts::STAND_IN, ScanOptions::new())?;
/// let mut table = vec![0; forest.layout().node_count];
/// let slots = forest.slots(&mut table)?;
/// assert_eq!(slots.slot(NodeId(0)), Some(Slot(0)));
/// assert_eq!(slots.digest(NodeId(0))?, Word([7, 0, 0, 0]));
/// assert_eq!(forest.digest(NodeId(0))?, Word([7, 0, 0, 0])); // the same, by counting
/// # Ok::<(), vekalumist::Refusal>(())
/// ```
#[derive(Clone, Copy)]
#[must_use]
pub struct SlotTable<'a, 't> {
    forest: Forest<'a>,
    table: &'t [u32],
}

impl SlotTable<'_, '_> {
    /// The node's row: among the external digests if it is external, else among the hashes. None where there is no such node.
    #[inline]
    #[must_use]
    pub fn slot(&self, id: NodeId) -> Option<Slot> {
        let index = id.index();
        let slot = self.table.get(index).filter(|_| index < self.forest.layout.node_count)?;
        Some(Slot(*slot as usize))
    }

    /// The digest of a node.
    ///
    /// # Errors
    /// As [`digest_with_table`]; place: the `Node` asked for. Of a scanned file `Index`, `NoHash` and `Element` alone.
    #[inline]
    pub fn digest(&self, id: NodeId) -> Result<Word, Refusal> {
        digest_with_table(self.forest.bytes, &self.forest.layout, id.index(), self.table)
    }
}

/// The file and its layout; not the table, which may be large.
impl fmt::Debug for SlotTable<'_, '_> {
    fn fmt(&self, f: &mut fmt::Formatter<'_>) -> fmt::Result {
        f.debug_tuple("SlotTable").field(&self.forest).finish()
    }
}
