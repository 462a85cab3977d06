//! Document 01 written down once more, from the paper and its readings, with true numbers (u128)
//! where the code must watch for overflow; and request 2, long counts. It is asked where the published
//! Rust has no such check, and whenever the two part: a listed difference counts only if the proved
//! code says what this says.
use std::collections::BTreeSet;

use crate::told::*;

pub const MODULUS: u64 = 18_446_744_069_414_584_321;
const TOP: u128 = u64::MAX as u128;

fn need(holds: bool, number: u8, place: usize) -> Told<()> {
    if holds { Ok(()) } else { refuse(number, place) }
}

// COUNTS AND ENTRIES
// ================================================================================================

/// It is the shortest if its number, written again, gives the very same bytes.
pub fn read_count(bytes: &[u8], at: usize) -> Told<Count> {
    let rest = bytes.get(at..).unwrap_or_default();
    let Some(&first) = rest.first() else {
        return refuse(SHORT, at);
    };
    let len = (0..8).find(|bit| first >> bit & 1 == 1).map_or(9, |zeros| zeros + 1);
    let Some(whole) = rest.get(..len) else {
        return refuse(SHORT, at);
    };
    let number = whole.iter().rev().fold(0u128, |n, &b| n << 8 | b as u128);
    // Of nine bytes the first is no part of the number; of fewer, the low bits tell the length.
    let value = (if len == 9 { number >> 8 } else { number >> len }) as u64;
    Ok(Count { value, len, next: at + len, shortest: shortest_form(value) == whole })
}

/// How many of some counts are long.
fn long(counts: &[Count]) -> usize {
    counts.iter().filter(|count| !count.shortest).count()
}

pub fn shortest_len(v: u64) -> usize {
    (1..=8).find(|&len| (v as u128) < 1 << (7 * len)).unwrap_or(9)
}

pub fn shortest_form(v: u64) -> Vec<u8> {
    count_of_len(v, shortest_len(v))
}

/// A form of `len` bytes. Of a number that is too large the upper bits are lost.
pub fn count_of_len(v: u64, len: usize) -> Vec<u8> {
    let number = if len == 9 { (v as u128) << 8 } else { (v as u128) << len | 1 << (len - 1) };
    number.to_le_bytes()[..len].to_vec()
}

/// The output after the call, and the place after the count.
pub fn write_count(out: &[u8], at: usize, v: u64) -> Told<(Vec<u8>, usize)> {
    let form = shortest_form(v);
    need(at as u128 + form.len() as u128 <= out.len() as u128, ROOM, at)?;
    let mut after = out.to_vec();
    after[at..at + form.len()].copy_from_slice(&form);
    Ok((after, at + form.len()))
}

pub fn decode_entry(word: u64, place: usize) -> Told<Entry> {
    let (tag, payload) = (word >> 60, word & ((1 << 60) - 1));
    let (left, right) = ((payload >> 30) as u32, (payload & ((1 << 30) - 1)) as u32);
    let one = payload as u32;
    need(tag <= 8, TAG, place)?;
    need(!(2..=5).contains(&tag) || payload < 1 << 32, PAYLOAD, place)?;
    Ok(match tag {
        0 => Entry::Join { left_child_id: left, right_child_id: right },
        1 => Entry::Split { if_branch_id: left, else_branch_id: right },
        2 => Entry::Loop { body_id: one },
        3 => Entry::Block { ops_offset: one },
        4 => Entry::Call { callee_id: one },
        5 => Entry::SysCall { callee_id: one },
        6 => Entry::Dyn,
        7 => Entry::Dyncall,
        _ => Entry::External,
    })
}

/// The word of a kind and two numbers, of which those that the kind has not are not looked at.
pub fn encode_row([kind, first, second]: [u64; 3]) -> Told<u64> {
    need(kind <= 8, INDEX, kind as usize)?;
    let limit: u64 = if kind <= 1 { 1 << 30 } else { 1 << 32 };
    let payload = match kind {
        0 | 1 => {
            need(first < limit && second < limit, PAYLOAD, 0)?;
            first << 30 | second
        }
        2..=5 => {
            need(first < limit, PAYLOAD, 0)?;
            first
        }
        _ => 0,
    };
    Ok(kind << 60 | payload)
}

pub fn encode_entry(entry: Entry) -> Told<u64> {
    let pair = |tag: u64, left: u32, right: u32| {
        need(left < 1 << 30 && right < 1 << 30, PAYLOAD, 0)?;
        Ok(tag << 60 | (left as u64) << 30 | right as u64)
    };
    match entry {
        Entry::Join { left_child_id, right_child_id } => pair(0, left_child_id, right_child_id),
        Entry::Split { if_branch_id, else_branch_id } => pair(1, if_branch_id, else_branch_id),
        Entry::Loop { body_id } => Ok(2 << 60 | body_id as u64),
        Entry::Block { ops_offset } => Ok(3 << 60 | ops_offset as u64),
        Entry::Call { callee_id } => Ok(4 << 60 | callee_id as u64),
        Entry::SysCall { callee_id } => Ok(5 << 60 | callee_id as u64),
        Entry::Dyn => Ok(6 << 60),
        Entry::Dyncall => Ok(7 << 60),
        Entry::External => Ok(8 << 60),
    }
}

// THE SCAN
// ================================================================================================

pub fn is_format(f: &Facts) -> bool {
    f.hashless.count_ones() == 1 && f.hashless & f.reserved == 0 && f.max_nodes <= 1 << 30
}

/// The byte after the magic; nothing else is looked at.
pub fn flags(bytes: &[u8]) -> Told<u8> {
    need(bytes.len() > 4, SHORT, 4)?;
    Ok(bytes[4])
}

pub fn scan(bytes: &[u8], f: &Facts, allow: bool, bound: Option<usize>) -> Told<Scanned> {
    need(is_format(f), FORMAT, 0)?;
    scan_unjudged(bytes, f, allow, bound)
}

/// The scan under facts that may be no format.
pub fn scan_unjudged(bytes: &[u8], f: &Facts, allow: bool, bound: Option<usize>) -> Told<Scanned> {
    let there = |at: usize, len: u128| need(at as u128 + len <= bytes.len() as u128, SHORT, at);
    let within = |count: u128, size: usize, place: usize| {
        need(bound.is_none_or(|n| count <= (n / size) as u128), BUDGET, place)
    };
    there(0, 4)?;
    need(bytes[..4] == f.magic, MAGIC, 0)?;
    there(4, 1)?;
    there(5, 3)?;
    need(bytes[5..8] == f.version, VERSION, 5)?;
    need(bytes[4] & f.reserved == 0, FLAGS, 4)?;
    let hashless = bytes[4] & f.hashless != 0;
    need(allow || !hashless, HASHLESS, 4)?;

    let internal_count = read_count(bytes, 8)?;
    let external_count_at = internal_count.next;
    let external_count = read_count(bytes, external_count_at)?;
    let (internal, external) = (internal_count.value, external_count.value);
    let nodes = internal as u128 + external as u128;
    need(nodes <= TOP, OVERFLOW, 8)?;
    need(nodes <= f.max_nodes as u128, TOO_MANY, 8)?;
    within(nodes, 8, 8)?;
    within(external as u128, 32, 8)?;
    if !hashless {
        within(internal as u128, 32, 8)?;
    }

    let roots_count_at = external_count.next;
    let roots_count = read_count(bytes, roots_count_at)?;
    let (roots, roots_at) = (roots_count.value, roots_count.next);
    within(roots as u128, 4, roots_count_at)?;
    need(4 * roots as u128 <= TOP, OVERFLOW, roots_count_at)?;
    there(roots_at, 4 * roots as u128)?;
    let length_at = roots_at + 4 * roots as usize;
    let length = read_count(bytes, length_at)?;
    let (blocks, blocks_at) = (length.value, length.next);
    let hashes = if hashless { 0 } else { 32 * internal as u128 };
    let sections = blocks as u128 + 8 * nodes + 32 * external as u128 + hashes;
    need(sections <= TOP, OVERFLOW, length_at)?;
    within(sections, 1, length_at)?;
    there(blocks_at, sections)?;

    let entries_at = blocks_at + blocks as usize;
    let nodes = nodes as usize;
    let mut externals = 0;
    for i in 0..nodes {
        let at = entries_at + 8 * i;
        externals += (decode_entry(le64(&bytes[at..at + 8]), at)? == Entry::External) as u64;
    }
    need(externals == external, EXTERNALS, external_count_at)?;
    let externals_at = entries_at + 8 * nodes;
    let layout = Layout {
        node_count: nodes,
        internal_node_count: internal as usize,
        external_node_count: external as usize,
        roots_count: roots as usize,
        roots_offset: roots_at,
        basic_block_offset: blocks_at,
        basic_block_len: blocks as usize,
        node_entry_offset: entries_at,
        external_digest_offset: externals_at,
        node_hash_offset: (!hashless).then_some(externals_at + 32 * external as usize),
        advice_map_offset: blocks_at + sections as usize,
    };
    Ok(Scanned { layout, long: long(&[internal_count, external_count, roots_count, length]) })
}

// BY INDEX
// ================================================================================================

/// The bytes of a row; OVERFLOW and SHORT have the index as place.
fn row(bytes: &[u8], at: usize, size: usize, row: usize, index: usize) -> Told<&[u8]> {
    let end = at as u128 + size as u128 * (row as u128 + 1);
    need(end <= TOP, OVERFLOW, index)?;
    need(end <= bytes.len() as u128, SHORT, index)?;
    Ok(&bytes[end as usize - size..end as usize])
}

pub fn root(bytes: &[u8], l: &Layout, index: usize) -> Told<u32> {
    need(index < l.roots_count, INDEX, index)?;
    let four = row(bytes, l.roots_offset, 4, index, index)?;
    let id = u32::from_le_bytes(four.try_into().expect("4 bytes"));
    need((id as usize) < l.node_count, ROOT_ID, index)?;
    Ok(id)
}

pub fn entry(bytes: &[u8], l: &Layout, index: usize) -> Told<Entry> {
    need(index < l.node_count, INDEX, index)?;
    decode_entry(le64(row(bytes, l.node_entry_offset, 8, index, index)?), index)
}

fn is_external(bytes: &[u8], l: &Layout, index: usize) -> Told<bool> {
    Ok(entry(bytes, l, index)? == Entry::External)
}

pub fn digest(bytes: &[u8], l: &Layout, index: usize) -> Told<[u64; 4]> {
    need(index < l.node_count, INDEX, index)?;
    let mut met = [0usize; 2];
    for earlier in 0..index {
        met[is_external(bytes, l, earlier)? as usize] += 1;
    }
    let external = is_external(bytes, l, index)?;
    digest_in_slot(bytes, l, index, external, met[external as usize])
}

pub fn digest_with_table(bytes: &[u8], l: &Layout, index: usize, t: &[u32]) -> Told<[u64; 4]> {
    need(index < l.node_count, INDEX, index)?;
    need(l.node_count <= t.len(), ROOM, index)?;
    let external = is_external(bytes, l, index)?;
    digest_in_slot(bytes, l, index, external, t[index] as usize)
}

pub fn digest_in_slot(
    bytes: &[u8],
    l: &Layout,
    index: usize,
    external: bool,
    slot: usize,
) -> Told<[u64; 4]> {
    let section = if external { Some(l.external_digest_offset) } else { l.node_hash_offset };
    let Some(section) = section else {
        return refuse(NO_HASH, index);
    };
    let word = word_of(row(bytes, section, 32, slot, index)?);
    need(word.iter().all(|&e| e < MODULUS), ELEMENT, index)?;
    Ok(word)
}

pub fn word_of(bytes: &[u8]) -> [u64; 4] {
    std::array::from_fn(|k| le64(&bytes[8 * k..8 * k + 8]))
}

pub fn slots(bytes: &[u8], l: &Layout, bound: Option<usize>, places: usize) -> Told<Slots> {
    need(l.node_count <= 1 << 30, TOO_MANY, 0)?;
    let bytes_needed = 4 * l.node_count;
    need(bound.is_none_or(|n| n >= bytes_needed), BUDGET, 0)?;
    need(l.node_count <= places, ROOM, 0)?;
    let mut met = [0u32; 2];
    let mut table = Vec::new();
    for index in 0..l.node_count {
        let kind = is_external(bytes, l, index)? as usize;
        table.push(met[kind]);
        met[kind] += 1;
    }
    Ok(Slots { table, left: bound.map(|n| n - bytes_needed) })
}

// CHECKS OVER THE NODES
// ================================================================================================

/// The children of an entry, left first.
pub fn children_of(entry: Entry) -> Vec<u32> {
    match entry {
        Entry::Join { left_child_id, right_child_id } => vec![left_child_id, right_child_id],
        Entry::Split { if_branch_id, else_branch_id } => vec![if_branch_id, else_branch_id],
        Entry::Loop { body_id } => vec![body_id],
        Entry::Call { callee_id } | Entry::SysCall { callee_id } => vec![callee_id],
        Entry::Block { .. } | Entry::Dyn | Entry::Dyncall | Entry::External => vec![],
    }
}

pub fn children(bytes: &[u8], l: &Layout) -> Told<()> {
    for index in 0..l.node_count {
        for child in children_of(entry(bytes, l, index)?) {
            need((child as usize) < l.node_count, CHILD_RANGE, index)?;
            need((child as usize) < index, FORWARD, index)?;
        }
    }
    Ok(())
}

pub fn class_of(entry: Entry) -> u8 {
    match entry {
        Entry::External => 0,
        Entry::Block { .. } => 1,
        _ => 2,
    }
}

pub fn order(bytes: &[u8], l: &Layout) -> Told<()> {
    let mut before = 0;
    for index in 0..l.node_count {
        let class = class_of(entry(bytes, l, index)?);
        need(class >= before, ORDER, index)?;
        before = class;
    }
    Ok(())
}

pub fn strict(bytes: &[u8], l: &Layout) -> Told<()> {
    for index in 0..l.node_count {
        let written = encode_entry(entry(bytes, l, index)?).expect("ids that were read fit");
        let at = l.node_entry_offset + 8 * index;
        need(written == le64(&bytes[at..at + 8]), NOT_CANONICAL, index)?;
    }
    Ok(())
}

// THE MAP
// ================================================================================================

/// The length at a place: its number is how many values there are, and the place after it where they
/// begin. They are whole in the file.
fn length_at(bytes: &[u8], at: usize) -> Told<Count> {
    let length = read_count(bytes, at)?;
    let size = 8 * length.value as u128;
    need(size <= TOP, OVERFLOW, at)?;
    need(length.next as u128 + size <= bytes.len() as u128, SHORT, length.next)?;
    Ok(length)
}

pub fn walk_map(bytes: &[u8], offset: usize, places: usize) -> Told<Walked> {
    let count = read_count(bytes, offset)?;
    let (mut counts, mut at) = (vec![count], count.next);
    let mut keys = BTreeSet::new();
    let mut read: Vec<([u64; 4], u64)> = Vec::new();
    for i in 0..count.value {
        need(i < places as u64, ROOM, at)?;
        need(at + 32 <= bytes.len(), SHORT, at)?;
        let key = word_of(&bytes[at..at + 32]);
        need(key.iter().all(|&e| e < MODULUS), ELEMENT, at)?;
        let length = length_at(bytes, at + 32)?;
        need(keys.insert(key), DUPLICATE, at)?;
        read.push((key, at as u64));
        counts.push(length);
        at = length.next + 8 * length.value as usize;
    }
    read.sort();
    let keys = read.into_iter().map(|(_, at)| at).collect();
    Ok(Walked { keys, end: at, trailing: bytes.len() - at, long: long(&counts) })
}

/// An entry has a key of 32 bytes and a count, so of the bytes left each 33 are at most one; the next
/// is refused by SHORT or by ROOM, and with a place for it by SHORT.
pub fn places(bytes: &[u8], at: usize) -> usize {
    match read_count(bytes, at) {
        Ok(count) => (count.value as usize).min((bytes.len() - count.next) / 33 + 1),
        Err(_) => 0,
    }
}

/// The place of the key at a place of the table, and the key.
fn key_placed(bytes: &[u8], keys: &[u64], index: usize) -> Told<(usize, [u64; 4])> {
    let Some(&at) = keys.get(index) else {
        return refuse(INDEX, index);
    };
    need(at as u128 + 32 <= bytes.len() as u128, SHORT, at as usize)?;
    let key = word_of(&bytes[at as usize..at as usize + 32]);
    need(key.iter().all(|&e| e < MODULUS), ELEMENT, at as usize)?;
    Ok((at as usize, key))
}

pub fn key(bytes: &[u8], keys: &[u64], index: usize) -> Told<[u64; 4]> {
    key_placed(bytes, keys, index).map(|(_, key)| key)
}

pub fn map_entry(bytes: &[u8], keys: &[u64], index: usize) -> Told<MapEntry> {
    let (at, key) = key_placed(bytes, keys, index)?;
    let length = length_at(bytes, at + 32)?;
    Ok(MapEntry { key, len: length.value as usize, values: length.next })
}

pub fn lookup(bytes: &[u8], keys: &[u64], n: usize, key: [u64; 4]) -> Told<Looked> {
    need(n <= keys.len(), ROOM, n)?;
    let (mut low, mut size, mut compared) = (0, n, 0);
    while size > 0 {
        let middle = low + size / 2;
        let at = keys[middle] as usize;
        need(at as u128 + 32 <= bytes.len() as u128, SHORT, at)?;
        compared += 1;
        match key.cmp(&word_of(&bytes[at..at + 32])) {
            std::cmp::Ordering::Equal => {
                let values = read_values(bytes, at + 32)?;
                return Ok(Looked { found: Some(values), compared });
            }
            std::cmp::Ordering::Less => size /= 2,
            std::cmp::Ordering::Greater => (low, size) = (middle + 1, size - size / 2 - 1),
        }
    }
    Ok(Looked { found: None, compared })
}

fn read_values(bytes: &[u8], at: usize) -> Told<(usize, Vec<u64>)> {
    let length = length_at(bytes, at)?;
    let first = length.next;
    let part = &bytes[first..first + 8 * length.value as usize];
    let values: Vec<u64> = part.chunks(8).map(le64).collect();
    match values.iter().position(|&v| v >= MODULUS) {
        Some(i) => refuse(ELEMENT, first + 8 * i),
        None => Ok((first, values)),
    }
}

/// The part of the file and its place in it; none where the key is absent.
pub fn values(bytes: &[u8], keys: &[u64], n: usize, key: [u64; 4]) -> Told<Part> {
    let found = lookup(bytes, keys, n, key)?.found;
    Ok(found.map(|(at, values)| (at, bytes[at..at + 8 * values.len()].to_vec())))
}

// THE WRITER
// ================================================================================================

pub fn write(f: &Facts, p: &Parts, places: usize) -> Told<Vec<u8>> {
    need(is_format(f), FORMAT, 0)?;
    need(p.flags & f.reserved == 0, FLAGS, 4)?;
    need(p.words.len() <= f.max_nodes, TOO_MANY, 0)?;
    let entries: Vec<Entry> =
        (0..).zip(&p.words).map(|(node, &word)| decode_entry(word, node)).collect::<Told<_>>()?;
    let external = entries.iter().filter(|&&e| e == Entry::External).count();
    let internal = entries.len() - external;
    let hash_rows = if p.flags & f.hashless == 0 { internal } else { 0 };
    need(p.external.len() == 32 * external, PARTS, 1)?;
    need(p.hashes.len() == 32 * hash_rows, PARTS, 2)?;
    need(p.keys.len() == 4 * p.lengths.len(), PARTS, 3)?;
    let sum: u128 = p.lengths.iter().map(|&l| l as u128).sum();
    need(p.values.len() as u128 == sum, PARTS, 4)?;
    let mut met = BTreeSet::new();
    for (number, key) in p.keys.chunks(4).enumerate() {
        need(key.iter().all(|&e| e < MODULUS), ELEMENT, number)?;
        need(met.insert(key), DUPLICATE, number)?;
    }
    // OVERFLOW of the total needs more lent bytes than a machine has.
    let file = rendered(f, p, &entries, internal, external);
    need(file.len() <= places, ROOM, file.len())?;
    Ok(file)
}

fn rendered(f: &Facts, p: &Parts, entries: &[Entry], internal: usize, external: usize) -> Vec<u8> {
    let mut out = f.magic.to_vec();
    out.push(p.flags);
    out.extend(f.version);
    out.extend(shortest_form(internal as u64));
    out.extend(shortest_form(external as u64));
    out.extend(shortest_form(p.roots.len() as u64));
    out.extend(p.roots.iter().flat_map(|r| r.to_le_bytes()));
    out.extend(shortest_form(p.blocks.len() as u64));
    out.extend(&p.blocks);
    out.extend(entries.iter().flat_map(|&e| encode_entry(e).expect("ids fit").to_le_bytes()));
    out.extend(&p.external);
    out.extend(&p.hashes);
    out.extend(shortest_form(p.lengths.len() as u64));
    let mut values = p.values.iter();
    for (key, &len) in p.keys.chunks(4).zip(&p.lengths) {
        out.extend(key.iter().flat_map(|k| k.to_le_bytes()));
        out.extend(shortest_form(len));
        out.extend(values.by_ref().take(len as usize).flat_map(|v| v.to_le_bytes()));
    }
    out
}
