//! The archive's functions, as C declares them (include/vekalumist_raw.h), and the only unsafe calls of this crate.
#![allow(unsafe_code)]

use core::mem::{self, offset_of, size_of, MaybeUninit};
use core::{array, ptr};

use crate::rows::{self, places};
use crate::{
    ByteOffset, Count, Entry, Facts, HashSection, Kind, Layout, Lookup, MapEntry, NodeId, Parts, Place, Refusal, Scanned, Walked, Word,
};

// A slice crosses as a pointer, which is never null, and its number of elements; a row of numbers and a single number as a pointer. The
// return is 0 and the answer is stored, or it is a refusal's number and its place is.
extern "C" {
    fn veka_version() -> u64;
    fn veka_raw_read_count(s: *const u8, s_len: usize, at: usize, count: *mut [u64; 4], place: *mut u64) -> u64;
    fn veka_shortest_len(v: u64) -> u64;
    fn veka_raw_write_count(out: *mut u8, out_len: usize, at: usize, v: u64, next: *mut u64, place: *mut u64) -> u64;
    fn veka_decode_entry(word: u64, entry: *mut [u64; 3], place: *mut u64) -> u64;
    fn veka_encode_entry(entry: *const [u64; 3], word: *mut u64, place: *mut u64) -> u64;
    fn veka_raw_flags(s: *const u8, s_len: usize, flags: *mut u8, place: *mut u64) -> u64;
    fn veka_raw_scan(
        s: *const u8,
        s_len: usize,
        marks: *const [u8; 9],
        max_nodes: usize,
        allow: bool,
        bound: *const [u64; 2],
        scanned: *mut Scanned,
        place: *mut u64,
    ) -> u64;
    fn veka_raw_root(s: *const u8, s_len: usize, layout: *const Layout, index: usize, root: *mut u32, place: *mut u64) -> u64;
    fn veka_raw_entry(s: *const u8, s_len: usize, layout: *const Layout, index: usize, entry: *mut [u64; 3], place: *mut u64) -> u64;
    fn veka_raw_children(s: *const u8, s_len: usize, layout: *const Layout, place: *mut u64) -> u64;
    fn veka_raw_order(s: *const u8, s_len: usize, layout: *const Layout, place: *mut u64) -> u64;
    fn veka_raw_strict(s: *const u8, s_len: usize, layout: *const Layout, place: *mut u64) -> u64;
    fn veka_raw_digest(s: *const u8, s_len: usize, layout: *const Layout, index: usize, digest: *mut [u64; 4], place: *mut u64) -> u64;
    fn veka_raw_digest_with_table(
        s: *const u8,
        s_len: usize,
        layout: *const Layout,
        index: usize,
        table: *const u32,
        table_len: usize,
        digest: *mut [u64; 4],
        place: *mut u64,
    ) -> u64;
    fn veka_raw_slots(
        s: *const u8,
        s_len: usize,
        layout: *const Layout,
        bound: *const [u64; 2],
        table: *mut u32,
        table_len: usize,
        left: *mut [u64; 2],
        place: *mut u64,
    ) -> u64;
    fn veka_raw_places(s: *const u8, s_len: usize, at: usize) -> u64;
    fn veka_raw_walk(s: *const u8, s_len: usize, at: usize, keys: *mut u64, keys_len: usize, walked: *mut [u64; 4], place: *mut u64)
        -> u64;
    fn veka_raw_key(
        s: *const u8,
        s_len: usize,
        keys: *const u64,
        keys_len: usize,
        index: usize,
        key: *mut [u64; 4],
        place: *mut u64,
    ) -> u64;
    fn veka_raw_map_entry(
        s: *const u8,
        s_len: usize,
        keys: *const u64,
        keys_len: usize,
        index: usize,
        entry: *mut [u64; 6],
        place: *mut u64,
    ) -> u64;
    fn veka_raw_lookup(
        s: *const u8,
        s_len: usize,
        keys: *const u64,
        keys_len: usize,
        n: usize,
        key: *const [u64; 4],
        looked: *mut [u64; 4],
        place: *mut u64,
    ) -> u64;
    fn veka_raw_values(
        s: *const u8,
        s_len: usize,
        keys: *const u64,
        keys_len: usize,
        n: usize,
        key: *const [u64; 4],
        part: *mut [u64; 3],
        place: *mut u64,
    ) -> u64;
    fn veka_raw_write(
        marks: *const [u8; 9],
        max_nodes: usize,
        flags: u8,
        roots: *const u32,
        roots_len: usize,
        blocks: *const u8,
        blocks_len: usize,
        words: *const u64,
        words_len: usize,
        external: *const u8,
        external_len: usize,
        hashes: *const u8,
        hashes_len: usize,
        keys: *const u64,
        keys_len: usize,
        lengths: *const u64,
        lengths_len: usize,
        values: *const u64,
        values_len: usize,
        order: *const u64,
        order_len: usize,
        out: *mut u8,
        out_len: usize,
        size: *mut u64,
        place: *mut u64,
    ) -> u64;
}

// A layout crosses as it lies: the row's twelve numbers in their order, of which any bits are one. What the scan gives has one more.
const _: () = assert!(size_of::<Layout>() == 12 * 8 && size_of::<HashSection>() == 2 * 8 && size_of::<ByteOffset>() == 8);
const _: () = assert!(offset_of!(Layout, node_hashes) == 9 * 8 && offset_of!(Layout, advice_map_offset) == 11 * 8);
const _: () = assert!(size_of::<Scanned>() == 13 * 8 && offset_of!(Scanned, long_counts) == 12 * 8);

/// What an answer may be stored into.
///
/// # Safety
/// Any bits are a value of such a type.
unsafe trait Row: Copy {
    /// The value that was stored.
    ///
    /// # Safety
    /// All of it was.
    unsafe fn taken(row: &MaybeUninit<Self>) -> Self {
        row.assume_init_read()
    }
}

// SAFETY: numbers, and a struct of numbers.
unsafe impl Row for u8 {}
unsafe impl Row for u32 {}
unsafe impl Row for u64 {}
unsafe impl Row for Scanned {}

/// The numbers of a row were stored one by one, and are read one by one: a compiler would read two at once, and such a read waits until both
/// stores are done (10 ns and more).
// SAFETY: numbers.
unsafe impl<const N: usize> Row for [u64; N] {
    #[inline(always)]
    unsafe fn taken(row: &MaybeUninit<Self>) -> Self {
        let first = row.as_ptr().cast::<u64>();
        array::from_fn(|i| ptr::read_volatile(first.add(i)))
    }
}

/// Lends memory for the answer and for a refusal's place, and reads the one that was stored. `placed` says what the place counts.
///
/// # Safety
/// The call stores a whole answer and gives 0, or stores a place and gives another number.
#[inline(always)]
unsafe fn told<R: Row>(placed: impl FnOnce(Kind, usize) -> Place, call: impl FnOnce(*mut R, *mut u64) -> u64) -> Result<R, Refusal> {
    let mut row = MaybeUninit::<R>::uninit();
    held(placed, |place| call(row.as_mut_ptr(), place))?;
    Ok(R::taken(&row))
}

/// The same of a call that answers nothing but that it holds.
///
/// # Safety
/// The call gives 0, or stores a place and gives another number.
#[inline(always)]
unsafe fn held(placed: impl FnOnce(Kind, usize) -> Place, call: impl FnOnce(*mut u64) -> u64) -> Result<(), Refusal> {
    let mut place = MaybeUninit::<u64>::uninit();
    match call(place.as_mut_ptr()) {
        0 => Ok(()),
        number => {
            let kind = Kind::of_number(number);
            Err(Refusal { kind, place: placed(kind, place.assume_init() as usize) })
        }
    }
}

// SAFETY of each call below: pointer and length are of one slice that is borrowed for the call, mutably where the function writes, and every
// other pointer is of one value that is borrowed likewise; the archive reads and writes inside the lengths only, keeps no pointer, and stores an
// answer or a place. That is so of the archive of this version: the build script takes no other.
//
// What answers for one count, word, row or key is inlined into its caller, here and in calls.rs: the answer is then made where it is used.

/// The entry of a row. It is made without a branch on its kind: the archive has just taken one, and entries in any order let a second one guess
/// wrong as often (4 ns).
#[inline]
fn entry_of([kind, first, second]: [u64; 3]) -> Result<Entry, Refusal> {
    if kind > 8 || (first | second) > u64::from(u32::MAX) {
        return Err(rows::unknown(kind));
    }
    // SAFETY: of an enum that is repr(u32) the tag lies first, 0 to 8 in the order of the variants, and a variant's own numbers follow it.
    Ok(unsafe { mem::transmute::<[u32; 3], Entry>([kind as u32, first as u32, second as u32]) })
}

pub(crate) fn version() -> u64 {
    unsafe { veka_version() }
}

#[inline]
pub(crate) fn read_count(s: &[u8], at: usize) -> Result<Count, Refusal> {
    unsafe { told(places::bytes, |row, place| veka_raw_read_count(s.as_ptr(), s.len(), at, row, place)) }.map(rows::count)
}

#[inline]
pub(crate) fn shortest_len(v: u64) -> u64 {
    unsafe { veka_shortest_len(v) }
}

#[inline]
pub(crate) fn write_count(out: &mut [u8], at: usize, v: u64) -> Result<u64, Refusal> {
    unsafe { told(places::bytes, |row, place| veka_raw_write_count(out.as_mut_ptr(), out.len(), at, v, row, place)) }
}

#[inline]
pub(crate) fn decode_entry(word: u64) -> Result<Entry, Refusal> {
    unsafe { told(places::of_a_word, |row, place| veka_decode_entry(word, row, place)) }.and_then(entry_of)
}

#[inline]
pub(crate) fn encode_entry(entry: &[u64; 3]) -> Result<u64, Refusal> {
    unsafe { told(places::of_a_word, |row, place| veka_encode_entry(entry, row, place)) }
}

#[inline]
pub(crate) fn flags(s: &[u8]) -> Result<u8, Refusal> {
    unsafe { told(places::bytes, |row, place| veka_raw_flags(s.as_ptr(), s.len(), row, place)) }
}

pub(crate) fn scan(s: &[u8], facts: &Facts, allow: bool, bound: &[u64; 2]) -> Result<Scanned, Refusal> {
    let marks = rows::marks(facts);
    unsafe { told(places::bytes, |row, place| veka_raw_scan(s.as_ptr(), s.len(), &marks, facts.max_nodes, allow, bound, row, place)) }
}

#[inline]
pub(crate) fn root(s: &[u8], layout: &Layout, index: usize) -> Result<NodeId, Refusal> {
    unsafe { told(places::roots, |row, place| veka_raw_root(s.as_ptr(), s.len(), layout, index, row, place)) }.map(NodeId)
}

#[inline]
pub(crate) fn entry(s: &[u8], layout: &Layout, index: usize) -> Result<Entry, Refusal> {
    unsafe { told(places::nodes, |row, place| veka_raw_entry(s.as_ptr(), s.len(), layout, index, row, place)) }.and_then(entry_of)
}

pub(crate) fn children(s: &[u8], layout: &Layout) -> Result<(), Refusal> {
    unsafe { held(places::nodes, |place| veka_raw_children(s.as_ptr(), s.len(), layout, place)) }
}

pub(crate) fn order(s: &[u8], layout: &Layout) -> Result<(), Refusal> {
    unsafe { held(places::nodes, |place| veka_raw_order(s.as_ptr(), s.len(), layout, place)) }
}

pub(crate) fn strict(s: &[u8], layout: &Layout) -> Result<(), Refusal> {
    unsafe { held(places::nodes, |place| veka_raw_strict(s.as_ptr(), s.len(), layout, place)) }
}

#[inline]
pub(crate) fn digest(s: &[u8], layout: &Layout, index: usize) -> Result<Word, Refusal> {
    unsafe { told(places::nodes, |row, place| veka_raw_digest(s.as_ptr(), s.len(), layout, index, row, place)) }.map(Word)
}

#[inline]
pub(crate) fn digest_with_table(s: &[u8], layout: &Layout, index: usize, table: &[u32]) -> Result<Word, Refusal> {
    unsafe {
        told(places::nodes, |row, place| {
            veka_raw_digest_with_table(s.as_ptr(), s.len(), layout, index, table.as_ptr(), table.len(), row, place)
        })
    }
    .map(Word)
}

pub(crate) fn slots(s: &[u8], layout: &Layout, bound: &[u64; 2], table: &mut [u32]) -> Result<Option<usize>, Refusal> {
    unsafe {
        told(places::of_slots, |row, place| veka_raw_slots(s.as_ptr(), s.len(), layout, bound, table.as_mut_ptr(), table.len(), row, place))
    }
    .map(rows::bound)
}

#[inline]
pub(crate) fn places(s: &[u8], at: usize) -> u64 {
    unsafe { veka_raw_places(s.as_ptr(), s.len(), at) }
}

pub(crate) fn walk(s: &[u8], at: usize, keys: &mut [u64]) -> Result<Walked, Refusal> {
    unsafe { told(places::bytes, |row, place| veka_raw_walk(s.as_ptr(), s.len(), at, keys.as_mut_ptr(), keys.len(), row, place)) }
        .map(rows::walked)
}

#[inline]
pub(crate) fn key(s: &[u8], keys: &[u64], index: usize) -> Result<Word, Refusal> {
    unsafe { told(places::of_a_key, |row, place| veka_raw_key(s.as_ptr(), s.len(), keys.as_ptr(), keys.len(), index, row, place)) }
        .map(Word)
}

#[inline]
pub(crate) fn map_entry(s: &[u8], keys: &[u64], index: usize) -> Result<MapEntry, Refusal> {
    unsafe { told(places::of_a_key, |row, place| veka_raw_map_entry(s.as_ptr(), s.len(), keys.as_ptr(), keys.len(), index, row, place)) }
        .map(rows::map_entry)
}

#[inline]
pub(crate) fn lookup(s: &[u8], keys: &[u64], n: usize, key: &[u64; 4]) -> Result<Lookup, Refusal> {
    unsafe { told(places::of_a_lookup, |row, place| veka_raw_lookup(s.as_ptr(), s.len(), keys.as_ptr(), keys.len(), n, key, row, place)) }
        .map(rows::looked)
}

/// Whether the key is there, and the place and the bytes of its values.
#[inline]
pub(crate) fn values(s: &[u8], keys: &[u64], n: usize, key: &[u64; 4]) -> Result<[u64; 3], Refusal> {
    unsafe { told(places::of_a_lookup, |row, place| veka_raw_values(s.as_ptr(), s.len(), keys.as_ptr(), keys.len(), n, key, row, place)) }
}

pub(crate) fn write(facts: &Facts, parts: &Parts<'_>, order: &[u64], out: &mut [u8]) -> Result<u64, Refusal> {
    let marks = rows::marks(facts);
    unsafe {
        told(places::of_the_writer, |row, place| {
            veka_raw_write(
                &marks,
                facts.max_nodes,
                parts.flags,
                parts.roots.as_ptr().cast(), // a NodeId is its number
                parts.roots.len(),
                parts.blocks.as_ptr(),
                parts.blocks.len(),
                parts.words.as_ptr(),
                parts.words.len(),
                parts.external.as_ptr(),
                parts.external.len(),
                parts.hashes.as_ptr(),
                parts.hashes.len(),
                parts.keys.as_ptr(),
                parts.keys.len(),
                parts.lengths.as_ptr(),
                parts.lengths.len(),
                parts.values.as_ptr(),
                parts.values.len(),
                order.as_ptr(),
                order.len(),
                out.as_mut_ptr(),
                out.len(),
                row,
                place,
            )
        })
    }
}

#[cfg(test)]
mod tests {
    use super::*;

    const WORD: u64 = 0x3000000000000000; // a Block

    /// A record of one internal node at byte 0, whose hash is the next 32 bytes.
    fn one_node(hashes: HashSection) -> Layout {
        Layout { node_count: 1, internal_node_count: crate::Slot(1), node_hashes: hashes, ..Layout::default() }
    }

    // No function above hands over a row of its own; this is what is stored and what is not.
    #[test]
    fn an_answer_or_a_place_is_stored_and_not_both() {
        let (mut row, mut place) = ([77; 3], 77);
        unsafe {
            assert_eq!(veka_decode_entry(WORD | 5, &mut row, &mut place), 0);
            assert_eq!((row, place), ([3, 5, 0], 77));
            assert_eq!(veka_decode_entry(9 << 60, &mut row, &mut place), 9);
            assert_eq!((row, place), ([3, 5, 0], 0));
            let mut count = [77; 4];
            place = 77;
            assert_eq!(veka_raw_read_count([2, 0].as_ptr(), 2, 0, &mut count, &mut place), 0);
            assert_eq!((count, place), ([0, 2, 2, 0], 77));
            assert_eq!(veka_raw_read_count([2, 0].as_ptr(), 2, 5, &mut count, &mut place), 1);
            assert_eq!((count, place), ([0, 2, 2, 0], 5));
        }
    }

    // The row of a refused scan or walk is as it was, the number of long counts too.
    #[test]
    fn a_refusal_stores_no_number_of_long_counts() {
        let (marks, most) = (rows::marks(&Facts::STAND_IN), Facts::STAND_IN.max_nodes);
        let file = b"MAST\x00\x00\x00\x02\x02\x00\x01\x01\x02\x00\x04\x00\x00"; // two of the scan's are long, and the map's own
        let marked = Scanned { layout: Layout { node_count: 77, ..Layout::default() }, long_counts: 77 };
        let (mut scanned, mut walked, mut place) = (marked, [77; 4], 77);
        unsafe {
            for len in 0..14 {
                assert_ne!(veka_raw_scan(file.as_ptr(), len, &marks, most, false, &[0, 0], &mut scanned, &mut place), 0);
                assert_eq!(scanned, marked);
            }
            assert_eq!(veka_raw_walk(file.as_ptr(), 16, 14, [].as_mut_ptr(), 0, &mut walked, &mut place), 1);
            assert_eq!((walked, place), ([77; 4], 14));
            assert_eq!(veka_raw_scan(file.as_ptr(), 14, &marks, most, false, &[0, 0], &mut scanned, &mut place), 0);
            assert_eq!((scanned.layout.advice_map_offset, scanned.long_counts), (ByteOffset(14), 2));
            assert_eq!(veka_raw_walk(file.as_ptr(), 17, 14, [].as_mut_ptr(), 0, &mut walked, &mut place), 0);
            assert_eq!((walked, place), ([0, 17, 0, 1], 14));
        }
    }

    #[test]
    fn an_entry_is_its_row() {
        for row in [[0, 1, 2], [1, 3, 4], [2, 5, 0], [3, 6, 0], [4, 7, 0], [5, 8, 0], [6, 0, 0], [7, 0, 0], [8, 0, 0]] {
            assert_eq!(entry_of(row).map(rows::of_entry), Ok(row));
        }
        let most = NodeId(u32::MAX);
        assert_eq!(entry_of([1, u32::MAX.into(), 7]), Ok(Entry::Split { if_branch_id: most, else_branch_id: NodeId(7) }));
        assert_eq!(entry_of([5, u32::MAX.into(), 7]), Ok(Entry::SysCall { callee_id: most }));
    }

    #[test]
    fn a_row_that_no_archive_of_this_version_stores_is_an_error() {
        for row in [[9, 0, 0], [u64::MAX, 0, 0], [2, 0, 1 << 32], [2, 1 << 32, 0]] {
            assert_eq!(entry_of(row), Err(rows::unknown(row[0])));
        }
    }

    #[test]
    fn a_number_that_no_archive_of_this_version_returns_is_an_error() {
        let call = |row: *mut u64, place: *mut u64| unsafe {
            *row = 5;
            *place = 6;
            99
        };
        assert_eq!(unsafe { told(places::bytes, call) }, Err(Refusal { kind: Kind::Unknown(99), place: Place::Byte(ByteOffset(6)) }));
        assert_eq!(unsafe { told(places::of_the_writer, call) }, Err(Refusal { kind: Kind::Unknown(99), place: Place::Number(6) }));
    }

    // The kinds and numbers that an Entry cannot hold.
    #[test]
    fn a_wide_number_or_another_kind_is_refused() {
        let (mut word, mut place) = (77, 77);
        let mut of = |entry: [u64; 3]| {
            let number = unsafe { veka_encode_entry(&entry, &mut word, &mut place) };
            (number, if number == 0 { word } else { place })
        };
        assert_eq!(of([9, 0, 0]), (12, 9));
        assert_eq!(of([u64::MAX, 0, 0]), (12, u64::MAX));
        assert_eq!(of([2, 1 << 32, 0]), (10, 0));
        assert_eq!(of([2, (1 << 32) - 1, u64::MAX]), (0, 2 << 60 | 0xFFFFFFFF)); // Loop has no second number
        assert_eq!(of([0, 1 << 30, 0]), (10, 0));
        assert_eq!(of([0, 1 << 63, 0]), (10, 0));
        assert_eq!(of([8, u64::MAX, u64::MAX]), (0, 8 << 60));
    }

    #[test]
    fn any_flag_but_0_is_hashes() {
        let mut file = WORD.to_le_bytes().to_vec();
        file.extend([7; 32]);
        for flag in [1, 2, 1 << 63, u64::MAX] {
            let layout = one_node(HashSection { has_node_hashes: flag, node_hash_offset: ByteOffset(8) });
            assert_eq!(layout.node_hash_offset(), Some(ByteOffset(8)));
            assert_eq!(layout, one_node(HashSection::at(ByteOffset(8))));
            assert_eq!(digest(&file, &layout, 0), Ok(Word([0x0707070707070707; 4])));
        }
        let none = one_node(HashSection { has_node_hashes: 0, node_hash_offset: ByteOffset(8) });
        assert_eq!((none.node_hash_offset(), none), (None, one_node(HashSection::ABSENT)));
        assert!(digest(&file, &none, 0).is_err());
    }
}
