//! Made-up files. They are written here and not by the writer under test, so that the writer's own
//! output can be held against them.
use vekalumist::{Facts, NodeId};

pub const FACTS: Facts =
    Facts { magic: *b"MAST", version: [0, 0, 1], hashless: 1, reserved: 0xfe, max_nodes: 1 << 30 };

const MODULUS: u64 = 0xffff_ffff_0000_0001;

/// A fixed sequence of numbers (xorshift), so that every run has the same files.
pub struct Numbers(u64);

impl Numbers {
    pub fn new(seed: u64) -> Self {
        Self(0x9e37_79b9_7f4a_7c15 ^ seed.wrapping_mul(0xbf58_476d_1ce4_e5b9))
    }

    pub fn next(&mut self) -> u64 {
        self.0 ^= self.0 << 13;
        self.0 ^= self.0 >> 7;
        self.0 ^= self.0 << 17;
        self.0
    }

    pub fn below(&mut self, n: usize) -> usize {
        (self.next() >> 11) as usize % n
    }

    fn element(&mut self) -> u64 {
        self.next() % MODULUS
    }

    pub fn shuffle<T>(&mut self, items: &mut [T]) {
        for i in (1..items.len()).rev() {
            items.swap(i, self.below(i + 1));
        }
    }
}

/// A count in so many bytes. Of a number that is too large the upper bits are lost.
pub fn push_form(len: u32, value: u64, out: &mut Vec<u8>) {
    if len == 9 {
        out.push(0);
        out.extend_from_slice(&value.to_le_bytes());
    } else {
        let raw = ((value as u128) << len) as u64 | 1 << (len - 1);
        out.extend_from_slice(&raw.to_le_bytes()[..len as usize]);
    }
}

fn shortest_len(value: u64) -> u32 {
    (1..=8).find(|len| value >> (7 * len) == 0).unwrap_or(9)
}

/// A count in its shortest form.
fn push_count(value: u64, out: &mut Vec<u8>) {
    push_form(shortest_len(value), value, out);
}

/// The parts of a file, as the writer takes them.
#[derive(Default)]
pub struct Parts {
    pub flags: u8,
    pub roots: Vec<NodeId>,
    pub blocks: Vec<u8>,
    pub words: Vec<u64>,
    pub external: Vec<u8>,
    pub hashes: Vec<u8>,
    pub keys: Vec<u64>,
    pub lengths: Vec<u64>,
    pub values: Vec<u64>,
}

/// How the nodes of a file lie.
#[derive(Clone, Copy, PartialEq)]
pub enum Order {
    /// As in a stored program: externals, blocks, all others.
    Classes,
    /// The same kinds in disorder, which the scan takes too, and which no branch predictor learns.
    Disorder,
}

/// How the keys of a map lie.
#[derive(Clone, Copy, PartialEq)]
pub enum Keys {
    Rising,
    Falling,
    Shuffled,
}

/// The entry of node i: a tenth External, half of them Block, of the rest mostly Join.
fn word(i: usize, nodes: usize, numbers: &mut Numbers) -> u64 {
    let child = |numbers: &mut Numbers| numbers.below(i.max(1)) as u64;
    let part = i * 10 / nodes;
    if part < 1 {
        return 8 << 60;
    }
    if part < 6 {
        return 3 << 60 | ((i as u64 * 24) & 0xffff_ffff);
    }
    match numbers.below(20) {
        0 => 6 << 60,
        1 => 7 << 60,
        2 => 2 << 60 | child(numbers),
        3..=5 => 4 << 60 | child(numbers),
        6 => 5 << 60 | child(numbers),
        7..=8 => 1 << 60 | child(numbers) << 30 | child(numbers),
        _ => child(numbers) << 30 | child(numbers),
    }
}

fn digests(n: usize, numbers: &mut Numbers) -> Vec<u8> {
    (0..4 * n).flat_map(|_| numbers.element().to_le_bytes()).collect()
}

/// A forest of so many nodes, with an empty map.
pub fn forest(nodes: usize, hashes: bool, order: Order) -> Parts {
    let mut numbers = Numbers::new(nodes as u64);
    let mut words: Vec<u64> = (0..nodes).map(|i| word(i, nodes, &mut numbers)).collect();
    if order == Order::Disorder {
        numbers.shuffle(&mut words);
    }
    let externals = words.iter().filter(|w| *w >> 60 == 8).count();
    Parts {
        flags: u8::from(!hashes),
        roots: vec![NodeId(nodes as u32 - 1)],
        blocks: vec![0xab; 7],
        external: digests(externals, &mut numbers),
        hashes: digests(if hashes { nodes - externals } else { 0 }, &mut numbers),
        words,
        ..Parts::default()
    }
}

/// A file of three nodes and a map of so many entries, of 0 to 8 values each.
pub fn map(entries: usize, order: Keys) -> Parts {
    let mut numbers = Numbers::new(entries as u64);
    let mut keys: Vec<[u64; 4]> =
        (0..entries).map(|_| std::array::from_fn(|_| numbers.element())).collect();
    keys.sort_unstable();
    match order {
        Keys::Rising => {}
        Keys::Falling => keys.reverse(),
        Keys::Shuffled => numbers.shuffle(&mut keys),
    }
    let lengths: Vec<u64> = (0..entries).map(|_| numbers.below(9) as u64).collect();
    let total = lengths.iter().sum::<u64>();
    Parts {
        keys: keys.concat(),
        values: (0..total).map(|_| numbers.element()).collect(),
        lengths,
        ..forest(3, false, Order::Classes)
    }
}

/// The same with the first key once more at the end.
pub fn doubled(mut parts: Parts) -> Parts {
    parts.keys.extend_from_within(..4);
    parts.lengths.push(0);
    parts
}

/// The file of these parts.
pub fn render(parts: &Parts) -> Vec<u8> {
    let mut out = render_forest(parts);
    push_map(parts, push_count, &mut out);
    out
}

/// The same with each count of the map in 1 to 9 bytes, and how many of them are long.
pub fn render_padded(parts: &Parts) -> (Vec<u8>, usize) {
    let mut out = render_forest(parts);
    let (mut numbers, mut long) = (Numbers::new(parts.lengths.len() as u64), 0);
    let push_padded = |value: u64, out: &mut Vec<u8>| {
        let least = shortest_len(value);
        let len = least + numbers.below(10 - least as usize) as u32;
        long += usize::from(len > least);
        push_form(len, value, out);
    };
    push_map(parts, push_padded, &mut out);
    (out, long)
}

/// All before the map.
fn render_forest(parts: &Parts) -> Vec<u8> {
    let externals = parts.external.len() / 32;
    let mut out = Vec::new();
    out.extend(FACTS.magic);
    out.push(parts.flags);
    out.extend(FACTS.version);
    push_count((parts.words.len() - externals) as u64, &mut out);
    push_count(externals as u64, &mut out);
    push_count(parts.roots.len() as u64, &mut out);
    out.extend(parts.roots.iter().flat_map(|r| r.0.to_le_bytes()));
    push_count(parts.blocks.len() as u64, &mut out);
    out.extend(&parts.blocks);
    out.extend(parts.words.iter().flat_map(|w| w.to_le_bytes()));
    out.extend(&parts.external);
    out.extend(&parts.hashes);
    out
}

fn push_map(parts: &Parts, mut push_count: impl FnMut(u64, &mut Vec<u8>), out: &mut Vec<u8>) {
    push_count(parts.lengths.len() as u64, out);
    let mut values = &parts.values[..];
    for (key, &n) in parts.keys.chunks_exact(4).zip(&parts.lengths) {
        let (own, rest) = values.split_at(n as usize);
        values = rest;
        out.extend(key.iter().flat_map(|x| x.to_le_bytes()));
        push_count(n, out);
        out.extend(own.iter().flat_map(|x| x.to_le_bytes()));
    }
}
