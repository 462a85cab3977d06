//! The proved code's answers, by the wrapper's functions and by the exported ones, in the common
//! shape. The two must agree, and lent memory is held against the promise: a breach answers with the
//! number MEMORY, which agrees with nothing.
use vekalumist as proved;

use crate::{
    raw,
    told::{
        Count, Entry, Facts, Layout, Looked, MARK, MEMORY, MapEntry, Part, Parts, Refusal, Scanned,
        Slots, Told, Walked, le64, refuse,
    },
};

/// A number that is none of document 01's is a breach too.
fn told<T>(answer: Result<T, proved::Refusal>) -> Told<T> {
    answer.map_err(|r| Refusal {
        number: r.kind.number().try_into().unwrap_or(MEMORY),
        place: r.place.number(),
    })
}

/// The wrapper's answer, which is that of the function it calls.
fn both<T: PartialEq>(wrapper: Told<T>, raw: Told<T>) -> Told<T> {
    if wrapper == raw { wrapper } else { refuse(MEMORY, 0) }
}

fn facts_given(f: &Facts) -> proved::Facts {
    proved::Facts {
        magic: f.magic,
        version: f.version,
        hashless: f.hashless,
        reserved: f.reserved,
        max_nodes: f.max_nodes,
    }
}

fn layout_given(l: &Layout) -> proved::Layout {
    let mut given = proved::Layout::default();
    given.node_count = l.node_count;
    given.internal_node_count = proved::Slot(l.internal_node_count);
    given.external_node_count = proved::Slot(l.external_node_count);
    given.roots_count = l.roots_count;
    given.roots_offset = proved::ByteOffset(l.roots_offset);
    given.basic_block_offset = proved::ByteOffset(l.basic_block_offset);
    given.basic_block_len = l.basic_block_len;
    given.node_entry_offset = proved::ByteOffset(l.node_entry_offset);
    given.external_digest_offset = proved::ByteOffset(l.external_digest_offset);
    given.node_hashes = match l.node_hash_offset {
        Some(at) => proved::HashSection::at(proved::ByteOffset(at)),
        None => proved::HashSection::ABSENT,
    };
    given.advice_map_offset = proved::ByteOffset(l.advice_map_offset);
    given
}

/// The wrapper's file with its layout, which is asked wherever it can be: it calls the wrapper's function over plain bytes.
fn forest<'a>(bytes: &'a [u8], layout: &Layout) -> proved::Forest<'a> {
    proved::Forest::with_layout(bytes, layout_given(layout))
}

/// A node by its id; an index that is none is asked for by the wrapper's function over plain bytes.
fn by_id<T>(
    bytes: &[u8],
    layout: &Layout,
    index: usize,
    held: impl FnOnce(proved::Forest<'_>, proved::NodeId) -> Result<T, proved::Refusal>,
    plain: fn(&[u8], &proved::Layout, usize) -> Result<T, proved::Refusal>,
) -> Told<T> {
    told(match u32::try_from(index) {
        Ok(id) => held(forest(bytes, layout), proved::NodeId(id)),
        Err(_) => plain(bytes, &layout_given(layout), index),
    })
}

fn layout_shown(l: proved::Layout) -> Layout {
    Layout {
        node_count: l.node_count,
        internal_node_count: l.internal_node_count.0,
        external_node_count: l.external_node_count.0,
        roots_count: l.roots_count,
        roots_offset: l.roots_offset.0,
        basic_block_offset: l.basic_block_offset.0,
        basic_block_len: l.basic_block_len,
        node_entry_offset: l.node_entry_offset.0,
        external_digest_offset: l.external_digest_offset.0,
        node_hash_offset: l.node_hash_offset().map(|at| at.0),
        advice_map_offset: l.advice_map_offset.0,
    }
}

fn entry_shown(e: proved::Entry) -> Entry {
    use proved::{Entry as P, NodeId as Id};
    match e {
        P::Join { left_child_id: Id(left_child_id), right_child_id: Id(right_child_id) } => {
            Entry::Join { left_child_id, right_child_id }
        }
        P::Split { if_branch_id: Id(if_branch_id), else_branch_id: Id(else_branch_id) } => {
            Entry::Split { if_branch_id, else_branch_id }
        }
        P::Loop { body_id: Id(body_id) } => Entry::Loop { body_id },
        P::Block { ops_offset } => Entry::Block { ops_offset },
        P::Call { callee_id: Id(callee_id) } => Entry::Call { callee_id },
        P::SysCall { callee_id: Id(callee_id) } => Entry::SysCall { callee_id },
        P::Dyn => Entry::Dyn,
        P::Dyncall => Entry::Dyncall,
        P::External => Entry::External,
    }
}

fn entry_given(e: Entry) -> proved::Entry {
    use proved::{Entry as P, NodeId as Id};
    match e {
        Entry::Join { left_child_id, right_child_id } => {
            P::Join { left_child_id: Id(left_child_id), right_child_id: Id(right_child_id) }
        }
        Entry::Split { if_branch_id, else_branch_id } => {
            P::Split { if_branch_id: Id(if_branch_id), else_branch_id: Id(else_branch_id) }
        }
        Entry::Loop { body_id } => P::Loop { body_id: Id(body_id) },
        Entry::Block { ops_offset } => P::Block { ops_offset },
        Entry::Call { callee_id } => P::Call { callee_id: Id(callee_id) },
        Entry::SysCall { callee_id } => P::SysCall { callee_id: Id(callee_id) },
        Entry::Dyn => P::Dyn,
        Entry::Dyncall => P::Dyncall,
        Entry::External => P::External,
    }
}

fn count_shown(c: proved::Count) -> Count {
    Count { value: c.value, len: c.len, next: c.next.0, shortest: c.shortest }
}

pub fn read_count(bytes: &[u8], at: usize) -> Told<Count> {
    let count = told(proved::read_count(bytes, proved::ByteOffset(at)));
    both(count.map(count_shown), raw::read_count(bytes, at))
}

pub fn shortest_len(v: u64) -> Told<usize> {
    both(Ok(proved::shortest_len(v)), Ok(raw::shortest_len(v)))
}

/// The output after the call, and the place after the count.
pub fn write_count(out: &[u8], at: usize, v: u64) -> Told<(Vec<u8>, usize)> {
    let written = |call: &dyn Fn(&mut [u8]) -> Told<usize>| {
        let mut after = out.to_vec();
        match call(&mut after) {
            Ok(next) => Ok((after, next)),
            Err(r) if after == out => Err(r),
            Err(_) => refuse(MEMORY, 0),
        }
    };
    both(
        written(&|out| {
            told(proved::write_count(out, proved::ByteOffset(at), v)).map(|next| next.0)
        }),
        written(&|out| raw::write_count(out, at, v)),
    )
}

pub fn decode_entry(word: u64) -> Told<Entry> {
    both(told(proved::decode_entry(word)).map(entry_shown), raw::decode_entry(word))
}

pub fn encode_entry(entry: Entry, row: [u64; 3]) -> Told<u64> {
    both(told(proved::encode_entry(entry_given(entry))), raw::encode_row(row))
}

/// Any three numbers, which no `Entry` of the wrapper may be.
pub fn encode_row(row: [u64; 3]) -> Told<u64> {
    raw::encode_row(row)
}

pub fn flags(bytes: &[u8]) -> Told<u8> {
    both(told(proved::flags(bytes)), raw::flags(bytes))
}

/// A scanned file of the wrapper has its number of long counts.
pub fn scan(bytes: &[u8], facts: &Facts, allow: bool, bound: Option<usize>) -> Told<Scanned> {
    let mut options = proved::ScanOptions::new();
    (options.allow_hashless, options.bound) = (allow, bound);
    let forest = told(proved::Forest::scan(bytes, &facts_given(facts), options));
    let scanned = forest.and_then(|f| match f.long_counts() {
        Some(long) => Ok(Scanned { layout: layout_shown(*f.layout()), long }),
        None => refuse(MEMORY, 12),
    });
    both(scanned, raw::scan(bytes, facts, allow, bound))
}

pub fn root(bytes: &[u8], layout: &Layout, index: usize) -> Told<u32> {
    let root = told(forest(bytes, layout).root(index));
    both(root.map(|id| id.0), raw::root(bytes, layout, index))
}

pub fn entry(bytes: &[u8], layout: &Layout, index: usize) -> Told<Entry> {
    let entry = by_id(bytes, layout, index, |forest, id| forest.entry(id), proved::entry);
    both(entry.map(entry_shown), raw::entry(bytes, layout, index))
}

pub fn children(bytes: &[u8], layout: &Layout) -> Told<()> {
    both(told(forest(bytes, layout).check_children()), raw::children(bytes, layout))
}

pub fn order(bytes: &[u8], layout: &Layout) -> Told<()> {
    both(told(forest(bytes, layout).check_order()), raw::order(bytes, layout))
}

pub fn strict(bytes: &[u8], layout: &Layout) -> Told<()> {
    both(told(forest(bytes, layout).check_strict()), raw::strict(bytes, layout))
}

pub fn digest(bytes: &[u8], layout: &Layout, index: usize) -> Told<[u64; 4]> {
    let digest = by_id(bytes, layout, index, |forest, id| forest.digest(id), proved::digest);
    both(digest.map(|word| word.0), raw::digest(bytes, layout, index))
}

pub fn digest_with_table(
    bytes: &[u8],
    layout: &Layout,
    index: usize,
    table: &[u32],
) -> Told<[u64; 4]> {
    let digest = told(proved::digest_with_table(bytes, &layout_given(layout), index, table));
    both(digest.map(|word| word.0), raw::digest_with_table(bytes, layout, index, table))
}

pub fn slots(bytes: &[u8], layout: &Layout, bound: Option<usize>, places: usize) -> Told<Slots> {
    let kept = |rest: &[u32]| rest.iter().all(|&p| p == MARK as u32);
    let filled = |call: &dyn Fn(&mut [u32]) -> Told<Option<usize>>| {
        let mut table = vec![MARK as u32; places];
        match call(&mut table) {
            Ok(left) if layout.node_count <= places && kept(&table[layout.node_count..]) => {
                table.truncate(layout.node_count);
                Ok(Slots { table, left })
            }
            Err(r) if kept(&table) => Err(r),
            _ => refuse(MEMORY, 0),
        }
    };
    both(
        filled(&|table| told(proved::slots(bytes, &layout_given(layout), bound, table))),
        filled(&|table| raw::slots(bytes, layout, bound, table)),
    )
}

pub fn places(bytes: &[u8], at: usize) -> Told<usize> {
    both(Ok(proved::places(bytes, proved::ByteOffset(at))), Ok(raw::places(bytes, at)))
}

pub fn walk_map(bytes: &[u8], at: usize, places: usize) -> Told<Walked> {
    let walked = |call: &dyn Fn(&mut [u64]) -> Told<[usize; 4]>| {
        let mut keys = vec![MARK; places];
        match call(&mut keys) {
            Ok([n, end, trailing, long]) if n <= places && keys[n..].iter().all(|&p| p == MARK) => {
                keys.truncate(n);
                Ok(Walked { keys, end, trailing, long })
            }
            Err(r) if keys.iter().all(|&p| p == 0) => Err(r),
            _ => refuse(MEMORY, 0),
        }
    };
    let shown = |w: proved::Walked| [w.entries, w.end.0, w.trailing, w.long_counts];
    both(
        walked(&|keys| told(proved::walk_map(bytes, proved::ByteOffset(at), keys)).map(shown)),
        walked(&|keys| raw::walk(bytes, at, keys)),
    )
}

pub fn key(bytes: &[u8], keys: &[u64], index: usize) -> Told<[u64; 4]> {
    both(told(proved::key(bytes, keys, index)).map(|word| word.0), raw::key(bytes, keys, index))
}

fn map_entry_shown(e: proved::MapEntry) -> MapEntry {
    MapEntry { key: e.key.0, len: e.len, values: e.values.0 }
}

pub fn map_entry(bytes: &[u8], keys: &[u64], index: usize) -> Told<MapEntry> {
    let entry = told(proved::map_entry(bytes, keys, index)).map(map_entry_shown);
    both(entry, raw::map_entry(bytes, keys, index))
}

pub fn lookup(bytes: &[u8], keys: &[u64], n: usize, key: [u64; 4]) -> Told<Looked> {
    both(
        looked(bytes, looked_shown(proved::lookup(bytes, keys, n, proved::Word(key)))),
        looked(bytes, raw::lookup(bytes, keys, n, key)),
    )
}

fn looked_shown(
    answer: Result<proved::Lookup, proved::Refusal>,
) -> Told<(Option<(usize, usize)>, usize)> {
    Ok(match told(answer)? {
        proved::Lookup::Absent { compared } => (None, compared),
        proved::Lookup::Found { values, len, compared } => (Some((values.0, len)), compared),
    })
}

/// The values are read here, from the place and number that the lookup gives.
fn looked(bytes: &[u8], answer: Told<(Option<(usize, usize)>, usize)>) -> Told<Looked> {
    let (found, compared) = answer?;
    let Some((values, len)) = found else {
        return Ok(Looked { found: None, compared });
    };
    let Some(part) = len.checked_mul(8).and_then(|l| bytes.get(values..)?.get(..l)) else {
        return refuse(MEMORY, values);
    };
    Ok(Looked { found: Some((values, part.chunks(8).map(le64).collect())), compared })
}

/// The wrapper's map over a file.
pub struct HeldMap<'a> {
    bytes: &'a [u8],
    map: proved::AdviceMap<'a, 'a>,
}

impl<'a> HeldMap<'a> {
    pub fn walk(bytes: &'a [u8], at: usize, places: &'a mut [u64]) -> Told<Self> {
        let map = told(proved::AdviceMap::walk(bytes, proved::ByteOffset(at), places))?;
        Ok(Self { bytes, map })
    }

    pub fn lookup(&self, key: [u64; 4]) -> Told<Looked> {
        looked(self.bytes, looked_shown(self.map.lookup(key)))
    }

    pub fn values(&self, key: [u64; 4]) -> Told<Part> {
        let values = told(self.map.get(key))?;
        let part = placed(self.bytes, values.map(|v| v.as_bytes()));
        match (&part, values) {
            (Some((at, _)), Some(v)) if *at != v.offset().0 => refuse(MEMORY, *at),
            _ => Ok(part),
        }
    }

    /// The entry at a place: its key is the key there and stands where it says, its values are a part of the file, and the entries in turn
    /// have it at this place.
    pub fn entry(&self, index: usize) -> Told<MapEntry> {
        let entry = told(self.map.entry(index));
        match (entry, told(self.map.key(index)), self.map.iter().nth(index)) {
            (Ok(e), Ok(key), Some(Ok(in_turn)))
                if e.key == key
                    && in_turn == e
                    && self.bytes[e.key_offset.0..].starts_with(&key.to_bytes())
                    && placed(self.bytes, Some(e.values.as_bytes())).map(|(at, _)| at)
                        == Some(e.values.offset().0) =>
            {
                Ok(MapEntry { key: key.0, len: e.values.len(), values: e.values.offset().0 })
            }
            (Err(entry), Err(key), None) if entry == key => Err(entry),
            _ => refuse(MEMORY, index),
        }
    }

    /// How many, the end, how many bytes follow, and how many counts are long.
    pub fn whole(&self) -> [usize; 4] {
        [self.map.len(), self.map.end().0, self.map.trailing(), self.map.long_counts()]
    }
}

pub fn values(bytes: &[u8], keys: &[u64], n: usize, key: [u64; 4]) -> Told<Part> {
    let wrapper = told(proved::values(bytes, keys, n, proved::Word(key)));
    let wrapper = wrapper.map(|part| placed(bytes, part));
    let raw = match raw::values(bytes, keys, n, key) {
        Ok(Some((at, len))) => match bytes.get(at..).and_then(|from| from.get(..len)) {
            Some(part) => Ok(Some((at, part.to_vec()))),
            None => refuse(MEMORY, at),
        },
        Ok(None) => Ok(None),
        Err(r) => Err(r),
    };
    both(wrapper, raw)
}

/// A part of the file, and its place in it.
fn placed(bytes: &[u8], part: Option<&[u8]>) -> Part {
    part.map(|part| (part.as_ptr() as usize - bytes.as_ptr() as usize, part.to_vec()))
}

/// The file that was written: by the wrapper, and under each of these claims.
pub fn write(facts: &Facts, parts: &Parts, claims: &[Vec<u64>], places: usize) -> Told<Vec<u8>> {
    let kept = |rest: &[u8]| rest.iter().all(|&b| b == MARK as u8);
    let written = |call: &dyn Fn(&mut [u8]) -> Told<usize>| {
        let mut out = vec![MARK as u8; places];
        match call(&mut out) {
            Ok(len) if len <= places && kept(&out[len..]) => {
                out.truncate(len);
                Ok(out)
            }
            Err(r) if kept(&out) => Err(r),
            _ => refuse(MEMORY, 0),
        }
    };
    let roots: Vec<_> = parts.roots.iter().copied().map(proved::NodeId).collect();
    let lent = proved::Parts {
        flags: parts.flags,
        roots: &roots,
        blocks: &parts.blocks,
        words: &parts.words,
        external: &parts.external,
        hashes: &parts.hashes,
        keys: &parts.keys,
        lengths: &parts.lengths,
        values: &parts.values,
    };
    let wrapper = written(&|out| told(proved::write(&facts_given(facts), &lent, out)));
    claims.iter().fold(wrapper, |answer, claim| {
        both(answer, written(&|out| raw::write(facts, parts, claim, out)))
    })
}
