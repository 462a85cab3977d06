//! The exported functions as they are (include/vekalumist_raw.h), beside the wrapper's. What may be written is marked before each call: of
//! the answer and the place one is stored, and the other must still be the mark, as must the numbers behind both.
use crate::told::*;

unsafe extern "C" {
    fn veka_raw_read_count(
        s: *const u8,
        s_len: usize,
        at: usize,
        count: *mut [u64; 4],
        place: *mut u64,
    ) -> u64;
    fn veka_shortest_len(v: u64) -> u64;
    fn veka_raw_write_count(
        out: *mut u8,
        out_len: usize,
        at: usize,
        v: u64,
        next: *mut u64,
        place: *mut u64,
    ) -> u64;
    fn veka_decode_entry(word: u64, entry: *mut [u64; 3], place: *mut u64) -> u64;
    fn veka_encode_entry(entry: *const [u64; 3], word: *mut u64, place: *mut u64) -> u64;
    fn veka_raw_flags(s: *const u8, s_len: usize, flags: *mut u8, place: *mut u64) -> u64;
    fn veka_raw_scan(
        s: *const u8,
        s_len: usize,
        marks: *const [u8; 9],
        max_nodes: usize,
        allow: bool,
        bound: *const [u64; 2],
        scanned: *mut [u64; 13],
        place: *mut u64,
    ) -> u64;
    fn veka_raw_root(
        s: *const u8,
        s_len: usize,
        layout: *const [u64; 12],
        index: usize,
        root: *mut u32,
        place: *mut u64,
    ) -> u64;
    fn veka_raw_entry(
        s: *const u8,
        s_len: usize,
        layout: *const [u64; 12],
        index: usize,
        entry: *mut [u64; 3],
        place: *mut u64,
    ) -> u64;
    fn veka_raw_children(
        s: *const u8,
        s_len: usize,
        layout: *const [u64; 12],
        place: *mut u64,
    ) -> u64;
    fn veka_raw_order(s: *const u8, s_len: usize, layout: *const [u64; 12], place: *mut u64)
    -> u64;
    fn veka_raw_strict(
        s: *const u8,
        s_len: usize,
        layout: *const [u64; 12],
        place: *mut u64,
    ) -> u64;
    fn veka_raw_digest(
        s: *const u8,
        s_len: usize,
        layout: *const [u64; 12],
        index: usize,
        digest: *mut [u64; 4],
        place: *mut u64,
    ) -> u64;
    fn veka_raw_digest_with_table(
        s: *const u8,
        s_len: usize,
        layout: *const [u64; 12],
        index: usize,
        table: *const u32,
        table_len: usize,
        digest: *mut [u64; 4],
        place: *mut u64,
    ) -> u64;
    fn veka_raw_slots(
        s: *const u8,
        s_len: usize,
        layout: *const [u64; 12],
        bound: *const [u64; 2],
        table: *mut u32,
        table_len: usize,
        left: *mut [u64; 2],
        place: *mut u64,
    ) -> u64;
    fn veka_raw_places(s: *const u8, s_len: usize, at: usize) -> u64;
    fn veka_raw_walk(
        s: *const u8,
        s_len: usize,
        at: usize,
        keys: *mut u64,
        keys_len: usize,
        walked: *mut [u64; 4],
        place: *mut u64,
    ) -> u64;
    fn veka_raw_key(
        s: *const u8,
        s_len: usize,
        keys: *const u64,
        keys_len: usize,
        index: usize,
        key: *mut [u64; 4],
        place: *mut u64,
    ) -> u64;
    fn veka_raw_map_entry(
        s: *const u8,
        s_len: usize,
        keys: *const u64,
        keys_len: usize,
        index: usize,
        entry: *mut [u64; 6],
        place: *mut u64,
    ) -> u64;
    fn veka_raw_lookup(
        s: *const u8,
        s_len: usize,
        keys: *const u64,
        keys_len: usize,
        n: usize,
        key: *const [u64; 4],
        looked: *mut [u64; 4],
        place: *mut u64,
    ) -> u64;
    fn veka_raw_values(
        s: *const u8,
        s_len: usize,
        keys: *const u64,
        keys_len: usize,
        n: usize,
        key: *const [u64; 4],
        part: *mut [u64; 3],
        place: *mut u64,
    ) -> u64;
    fn veka_raw_write(
        marks: *const [u8; 9],
        max_nodes: usize,
        flags: u8,
        roots: *const u32,
        roots_len: usize,
        blocks: *const u8,
        blocks_len: usize,
        words: *const u64,
        words_len: usize,
        external: *const u8,
        external_len: usize,
        hashes: *const u8,
        hashes_len: usize,
        keys: *const u64,
        keys_len: usize,
        lengths: *const u64,
        lengths_len: usize,
        values: *const u64,
        values_len: usize,
        order: *const u64,
        order_len: usize,
        out: *mut u8,
        out_len: usize,
        size: *mut u64,
        place: *mut u64,
    ) -> u64;
}

/// What an answer is stored into.
trait Row: Copy + PartialEq {
    const MARKED: Self;
}

impl Row for u8 {
    const MARKED: Self = MARK as u8;
}

impl Row for u32 {
    const MARKED: Self = MARK as u32;
}

impl Row for u64 {
    const MARKED: Self = MARK;
}

impl<const N: usize> Row for [u64; N] {
    const MARKED: Self = [MARK; N];
}

/// Memory lent for an answer, and some behind it that is not.
#[derive(Clone, Copy)]
#[repr(C)]
struct Lent<R> {
    row: R,
    behind: [u8; 32],
}

impl<R: Row> Lent<R> {
    const MARKED: Self = Self { row: R::MARKED, behind: [MARK as u8; 32] };
}

fn told<R: Row>(call: impl FnOnce(*mut R, *mut u64) -> u64) -> Told<R> {
    let (mut row, mut place) = (Lent::<R>::MARKED, Lent::<u64>::MARKED);
    let number = call((&raw mut row).cast(), (&raw mut place).cast());
    let kept = row.behind == Lent::<R>::MARKED.behind && place.behind == Lent::<u64>::MARKED.behind;
    match number {
        0 if kept && place.row == MARK => Ok(row.row),
        number @ 1..=255 if kept && row.row == R::MARKED => {
            refuse(number as u8, place.row as usize)
        }
        _ => refuse(MEMORY, 0),
    }
}

/// The same of a call that answers nothing but that it holds.
fn held(call: impl FnOnce(*mut u64) -> u64) -> Told<()> {
    told(|_: *mut u8, place| call(place)).map(|_| ())
}

fn marks(f: &Facts) -> [u8; 9] {
    let bytes = [&f.magic[..], &f.version, &[f.hashless, f.reserved]].concat();
    bytes.try_into().expect("nine bytes")
}

fn bound_row(bound: Option<usize>) -> [u64; 2] {
    bound.map_or([0, MARK], |bytes| [1 + bytes as u64 % 3, bytes as u64])
}

/// Any flag but 0 says that there are hashes; without them the next number is not looked at.
fn layout_row(l: &Layout) -> [u64; 12] {
    let hashes = match l.node_hash_offset {
        Some(at) => [[1, 2, 1 << 63, u64::MAX][at % 4], at as u64],
        None => [0, l.node_count as u64],
    };
    [
        l.node_count as u64,
        l.internal_node_count as u64,
        l.external_node_count as u64,
        l.roots_count as u64,
        l.roots_offset as u64,
        l.basic_block_offset as u64,
        l.basic_block_len as u64,
        l.node_entry_offset as u64,
        l.external_digest_offset as u64,
        hashes[0],
        hashes[1],
        l.advice_map_offset as u64,
    ]
}

/// An answer's layout: 1 and a place, or twice 0.
fn layout_of(row: [u64; 12]) -> Told<Layout> {
    let n = row.map(|n| n as usize);
    let node_hash_offset = match (n[9], n[10]) {
        (1, at) => Some(at),
        (0, 0) => None,
        _ => return refuse(MEMORY, 9),
    };
    Ok(Layout {
        node_count: n[0],
        internal_node_count: n[1],
        external_node_count: n[2],
        roots_count: n[3],
        roots_offset: n[4],
        basic_block_offset: n[5],
        basic_block_len: n[6],
        node_entry_offset: n[7],
        external_digest_offset: n[8],
        node_hash_offset,
        advice_map_offset: n[11],
    })
}

/// An answer's entry; a number that the kind has not is 0.
fn entry_of([kind, first, second]: [u64; 3]) -> Told<Entry> {
    let (Ok(a), Ok(b)) = (u32::try_from(first), u32::try_from(second)) else {
        return refuse(MEMORY, 1);
    };
    match (kind, a, b) {
        (0, a, b) => Ok(Entry::Join { left_child_id: a, right_child_id: b }),
        (1, a, b) => Ok(Entry::Split { if_branch_id: a, else_branch_id: b }),
        (2, a, 0) => Ok(Entry::Loop { body_id: a }),
        (3, a, 0) => Ok(Entry::Block { ops_offset: a }),
        (4, a, 0) => Ok(Entry::Call { callee_id: a }),
        (5, a, 0) => Ok(Entry::SysCall { callee_id: a }),
        (6, 0, 0) => Ok(Entry::Dyn),
        (7, 0, 0) => Ok(Entry::Dyncall),
        (8, 0, 0) => Ok(Entry::External),
        _ => refuse(MEMORY, 2),
    }
}

// SAFETY, of each call: pointer and length are of one slice that is borrowed for the call, mutably where
// the function writes; every other pointer is of one value that is borrowed likewise.

/// Whether it is the shortest is said by 1 and 0 alone.
pub fn read_count(s: &[u8], at: usize) -> Told<Count> {
    let [value, len, next, shortest] =
        told(|row, place| unsafe { veka_raw_read_count(s.as_ptr(), s.len(), at, row, place) })?;
    let shortest = match shortest {
        0 => false,
        1 => true,
        _ => return refuse(MEMORY, 3),
    };
    Ok(Count { value, len: len as usize, next: next as usize, shortest })
}

pub fn shortest_len(v: u64) -> usize {
    unsafe { veka_shortest_len(v) as usize }
}

pub fn write_count(out: &mut [u8], at: usize, v: u64) -> Told<usize> {
    let next: u64 = told(|row, place| unsafe {
        veka_raw_write_count(out.as_mut_ptr(), out.len(), at, v, row, place)
    })?;
    Ok(next as usize)
}

pub fn decode_entry(word: u64) -> Told<Entry> {
    entry_of(told(|row, place| unsafe { veka_decode_entry(word, row, place) })?)
}

pub fn encode_row(entry: [u64; 3]) -> Told<u64> {
    told(|row, place| unsafe { veka_encode_entry(&entry, row, place) })
}

pub fn flags(s: &[u8]) -> Told<u8> {
    told(|row, place| unsafe { veka_raw_flags(s.as_ptr(), s.len(), row, place) })
}

pub fn scan(s: &[u8], f: &Facts, allow: bool, bound: Option<usize>) -> Told<Scanned> {
    let (marks, bound) = (marks(f), bound_row(bound));
    let [layout @ .., long] = told(|row, place| unsafe {
        veka_raw_scan(s.as_ptr(), s.len(), &marks, f.max_nodes, allow, &bound, row, place)
    })?;
    Ok(Scanned { layout: layout_of(layout)?, long: long as usize })
}

pub fn root(s: &[u8], l: &Layout, index: usize) -> Told<u32> {
    let l = layout_row(l);
    told(|row, place| unsafe { veka_raw_root(s.as_ptr(), s.len(), &l, index, row, place) })
}

pub fn entry(s: &[u8], l: &Layout, index: usize) -> Told<Entry> {
    let l = layout_row(l);
    entry_of(told(|row, place| unsafe {
        veka_raw_entry(s.as_ptr(), s.len(), &l, index, row, place)
    })?)
}

pub fn children(s: &[u8], l: &Layout) -> Told<()> {
    let l = layout_row(l);
    held(|place| unsafe { veka_raw_children(s.as_ptr(), s.len(), &l, place) })
}

pub fn order(s: &[u8], l: &Layout) -> Told<()> {
    let l = layout_row(l);
    held(|place| unsafe { veka_raw_order(s.as_ptr(), s.len(), &l, place) })
}

pub fn strict(s: &[u8], l: &Layout) -> Told<()> {
    let l = layout_row(l);
    held(|place| unsafe { veka_raw_strict(s.as_ptr(), s.len(), &l, place) })
}

pub fn digest(s: &[u8], l: &Layout, index: usize) -> Told<[u64; 4]> {
    let l = layout_row(l);
    told(|row, place| unsafe { veka_raw_digest(s.as_ptr(), s.len(), &l, index, row, place) })
}

pub fn digest_with_table(s: &[u8], l: &Layout, index: usize, table: &[u32]) -> Told<[u64; 4]> {
    let l = layout_row(l);
    told(|row, place| unsafe {
        veka_raw_digest_with_table(
            s.as_ptr(),
            s.len(),
            &l,
            index,
            table.as_ptr(),
            table.len(),
            row,
            place,
        )
    })
}

pub fn slots(s: &[u8], l: &Layout, bound: Option<usize>, table: &mut [u32]) -> Told<Option<usize>> {
    let (l, bound) = (layout_row(l), bound_row(bound));
    let left = told(|row, place| unsafe {
        veka_raw_slots(s.as_ptr(), s.len(), &l, &bound, table.as_mut_ptr(), table.len(), row, place)
    })?;
    match left {
        [1, bytes] => Ok(Some(bytes as usize)),
        [0, 0] => Ok(None),
        _ => refuse(MEMORY, 0),
    }
}

pub fn places(s: &[u8], at: usize) -> usize {
    unsafe { veka_raw_places(s.as_ptr(), s.len(), at) as usize }
}

/// How many, the end, how many bytes follow, and how many counts are long.
pub fn walk(s: &[u8], at: usize, keys: &mut [u64]) -> Told<[usize; 4]> {
    let walked: [u64; 4] = told(|row, place| unsafe {
        veka_raw_walk(s.as_ptr(), s.len(), at, keys.as_mut_ptr(), keys.len(), row, place)
    })?;
    Ok(walked.map(|n| n as usize))
}

pub fn key(s: &[u8], keys: &[u64], index: usize) -> Told<[u64; 4]> {
    told(|row, place| unsafe {
        veka_raw_key(s.as_ptr(), s.len(), keys.as_ptr(), keys.len(), index, row, place)
    })
}

pub fn map_entry(s: &[u8], keys: &[u64], index: usize) -> Told<MapEntry> {
    let [a, b, c, d, len, values] = told(|row, place| unsafe {
        veka_raw_map_entry(s.as_ptr(), s.len(), keys.as_ptr(), keys.len(), index, row, place)
    })?;
    Ok(MapEntry { key: [a, b, c, d], len: len as usize, values: values as usize })
}

/// The values' place and number where the key is found, and the number of keys compared.
pub fn lookup(
    s: &[u8],
    keys: &[u64],
    n: usize,
    key: [u64; 4],
) -> Told<(Option<(usize, usize)>, usize)> {
    let looked = told(|row, place| unsafe {
        veka_raw_lookup(s.as_ptr(), s.len(), keys.as_ptr(), keys.len(), n, &key, row, place)
    })?;
    match looked.map(|n| n as usize) {
        [1, values, len, compared] => Ok((Some((values, len)), compared)),
        [0, 0, 0, compared] => Ok((None, compared)),
        _ => refuse(MEMORY, 0),
    }
}

/// The place and the bytes of the part, if the key is there.
pub fn values(s: &[u8], keys: &[u64], n: usize, key: [u64; 4]) -> Told<Option<(usize, usize)>> {
    let part = told(|row, place| unsafe {
        veka_raw_values(s.as_ptr(), s.len(), keys.as_ptr(), keys.len(), n, &key, row, place)
    })?;
    match part.map(|n| n as usize) {
        [1, at, bytes] => Ok(Some((at, bytes))),
        [0, 0, 0] => Ok(None),
        _ => refuse(MEMORY, 0),
    }
}

pub fn write(f: &Facts, p: &Parts, order: &[u64], out: &mut [u8]) -> Told<usize> {
    let marks = marks(f);
    let size: u64 = told(|row, place| unsafe {
        veka_raw_write(
            &marks,
            f.max_nodes,
            p.flags,
            p.roots.as_ptr(),
            p.roots.len(),
            p.blocks.as_ptr(),
            p.blocks.len(),
            p.words.as_ptr(),
            p.words.len(),
            p.external.as_ptr(),
            p.external.len(),
            p.hashes.as_ptr(),
            p.hashes.len(),
            p.keys.as_ptr(),
            p.keys.len(),
            p.lengths.as_ptr(),
            p.lengths.len(),
            p.values.as_ptr(),
            p.values.len(),
            order.as_ptr(),
            order.len(),
            out.as_mut_ptr(),
            out.len(),
            row,
            place,
        )
    })?;
    Ok(size as usize)
}
