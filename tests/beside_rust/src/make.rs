//! Makes inputs: files, maps, records, and damaged copies of them.
use crate::{
    model::{MODULUS, count_of_len, encode_entry, shortest_len},
    rng::Rng,
    told::{Entry, Facts, Layout, Parts},
};

/// Makes a form of a count.
pub type MakeCount = fn(&mut Rng, u64) -> Vec<u8>;

/// Mostly the shortest form; longer forms are read too.
pub fn count(rng: &mut Rng, v: u64) -> Vec<u8> {
    if rng.percent(10) { any_form(rng, v) } else { count_of_len(v, shortest_len(v)) }
}

/// Any form that holds the number.
pub fn any_form(rng: &mut Rng, v: u64) -> Vec<u8> {
    let len = rng.between(shortest_len(v), 9);
    count_of_len(v, len)
}

/// The shortest form as often as any.
pub fn half_padded(rng: &mut Rng, v: u64) -> Vec<u8> {
    if rng.percent(50) { any_form(rng, v) } else { count_of_len(v, shortest_len(v)) }
}

fn id(rng: &mut Rng, node: usize, nodes: usize) -> u32 {
    match rng.below(10) {
        0 => (rng.number() & ((1 << 30) - 1)) as u32,
        1 | 2 => rng.between(0, nodes) as u32,
        _ if node > 0 => rng.below(node) as u32,
        _ => 0,
    }
}

/// The word of an entry of this tag; the payload of Dyn, Dyncall and External is ignored.
fn word(rng: &mut Rng, tag: u64, node: usize, nodes: usize) -> u64 {
    let (a, b) = (id(rng, node, nodes), id(rng, node, nodes));
    let ignored = if rng.percent(4) { rng.number() >> 4 } else { 0 };
    match tag {
        0 => encode_entry(Entry::Join { left_child_id: a, right_child_id: b }).expect("30 bits"),
        1 => encode_entry(Entry::Split { if_branch_id: a, else_branch_id: b }).expect("30 bits"),
        2..=5 => tag << 60 | a as u64,
        _ => tag << 60 | ignored,
    }
}

/// Now and then one word says something else.
fn words(rng: &mut Rng, tags: &[u64]) -> Vec<u64> {
    let nodes = tags.len();
    let mut words: Vec<u64> =
        tags.iter().enumerate().map(|(node, &tag)| word(rng, tag, node, nodes)).collect();
    if nodes > 0 && rng.percent(10) {
        let node = rng.below(nodes);
        words[node] = [rng.number(), words[node] ^ 1 << rng.between(30, 63)][rng.below(2)];
    }
    words
}

fn element(rng: &mut Rng, below: u64) -> u64 {
    if rng.percent(1) { MODULUS - 1 } else { rng.number() % below }
}

fn no_element(rng: &mut Rng) -> u64 {
    MODULUS + rng.number() % (u64::MAX - MODULUS + 1)
}

pub fn digest(rng: &mut Rng) -> [u64; 4] {
    std::array::from_fn(|_| element(rng, 3))
}

/// Now and then one element is none.
fn spoil_an_element(rng: &mut Rng, rows: &mut [[u64; 4]], share: usize) {
    if !rows.is_empty() && rng.percent(share) {
        rows[rng.below(rows.len())][rng.below(4)] = no_element(rng);
    }
}

fn bytes_of<'a>(words: impl IntoIterator<Item = &'a u64>) -> Vec<u8> {
    words.into_iter().flat_map(|w| w.to_le_bytes()).collect()
}

/// Keys rising, falling or in no order; now and then one twice, or one that is no word.
fn keys(rng: &mut Rng, entries: usize) -> Vec<[u64; 4]> {
    let range = 2 + entries as u64;
    let mut keys: Vec<[u64; 4]> =
        (0..entries).map(|_| std::array::from_fn(|_| element(rng, range))).collect();
    match rng.below(3) {
        0 => keys.sort(),
        1 => keys.sort_by(|a, b| b.cmp(a)),
        _ => rng.shuffle(&mut keys),
    }
    if entries > 1 && rng.percent(8) {
        keys[rng.below(entries)] = keys[rng.below(entries)];
    }
    spoil_an_element(rng, &mut keys, 6);
    keys
}

/// Claims of the order in which some keys rise, equal keys by their number: the true one, none, and two that are mostly wrong.
pub fn claims(rng: &mut Rng, keys: &[u64]) -> Vec<Vec<u64>> {
    let mut numbered: Vec<(&[u64], u64)> = keys.chunks(4).zip(0..).collect();
    numbered.sort();
    let right: Vec<u64> = numbered.iter().map(|&(_, number)| number).collect();
    let wrong = [wrong_claim(rng, &right, &numbered), wrong_claim(rng, &right, &numbered)];
    [vec![right, Vec::new()], wrong.to_vec()].concat()
}

fn wrong_claim(rng: &mut Rng, right: &[u64], numbered: &[(&[u64], u64)]) -> Vec<u64> {
    let n = right.len();
    let mut claim = right.to_vec();
    let (one, other) = (rng.below(n.max(1)), rng.below(n.max(1)));
    match rng.below(10) {
        _ if n == 0 => claim.push(rng.wide() as u64),
        0 => claim = (0..n as u64).collect(),
        1 => rng.shuffle(&mut claim),
        2 => claim.reverse(),
        3 => claim.swap(one, (one + 1) % n),
        4 => claim[one] = claim[other], // a number twice, and another not
        5 => claim[one] = n as u64 + rng.below(2) as u64,
        6 => claim[one] = rng.wide() as u64,
        7 => drop(claim.remove(one)),
        8 => claim.push(rng.wide() as u64),
        // equal keys by falling number
        _ => {
            let mut falling = numbered.to_vec();
            falling.sort_by(|a, b| a.0.cmp(b.0).then(b.1.cmp(&a.1)));
            claim = falling.iter().map(|&(_, number)| number).collect();
        }
    }
    claim
}

/// Parts of a file without nodes whose keys are often there twice and sometimes no words, in any order.
pub fn parts_of_keys(rng: &mut Rng, facts: &Facts, entries: usize) -> Parts {
    let range = [1, 2, 1 + entries as u64, 1 << 40][rng.below(4)];
    let mut keys: Vec<[u64; 4]> = (0..entries)
        .map(|_| std::array::from_fn(|k| if k < 2 { 5 } else { rng.number() % range }))
        .collect();
    match rng.below(4) {
        0 => keys.sort(),
        1 => keys.sort_by(|a, b| b.cmp(a)),
        2 => keys.sort_by_key(|key| key[3]),
        _ => {}
    }
    if entries > 1 && rng.percent(40) {
        keys[rng.below(entries)] = keys[rng.below(entries)];
    }
    spoil_an_element(rng, &mut keys, 10);
    let lengths: Vec<u64> = (0..entries).map(|_| rng.below(3) as u64).collect();
    let values = (0..lengths.iter().sum()).map(|_| rng.number()).collect();
    Parts {
        flags: rng.one_of(&[0, facts.hashless]),
        keys: keys.concat(),
        lengths,
        values,
        ..Parts::default()
    }
}

/// Any kind and numbers, mostly near what is allowed.
pub fn row(rng: &mut Rng) -> [u64; 3] {
    let kind = if rng.percent(90) { rng.below(10) } else { rng.wide() };
    let mut number = || match rng.below(5) {
        0 => (1 << 30) - 2 + rng.below(4) as u64,
        1 => (1 << 32) - 2 + rng.below(4) as u64,
        2 => rng.wide() as u64,
        _ => rng.below(9) as u64,
    };
    [kind as u64, number(), number()]
}

/// A map of so many entries, which is mostly accepted.
pub fn map(rng: &mut Rng, entries: usize) -> Vec<u8> {
    map_with(rng, entries, count)
}

/// The same with its counts made so.
pub fn map_with(rng: &mut Rng, entries: usize, count: MakeCount) -> Vec<u8> {
    let said = if rng.percent(92) { entries } else { rng.wide() };
    let mut out = count(rng, said as u64);
    let wrong_length = if rng.percent(10) { rng.below(entries + 1) } else { entries };
    let no_elements = rng.percent(20);
    for (number, key) in keys(rng, entries).iter().enumerate() {
        let len = rng.below(4);
        let said = if number == wrong_length { rng.wide() } else { len };
        out.extend(bytes_of(key));
        out.extend(count(rng, said as u64));
        for _ in 0..len {
            let bad = no_elements && rng.percent(30);
            let value = if bad { no_element(rng) } else { rng.number() % MODULUS };
            out.extend(value.to_le_bytes());
        }
    }
    out
}

/// The tags of some nodes, mostly in the order of the published check.
fn tags(rng: &mut Rng, nodes: usize) -> Vec<u64> {
    let mut tags: Vec<u64> =
        (0..nodes).map(|_| [8, 8, 3, 3, rng.number() % 9][rng.below(5)]).collect();
    if rng.percent(60) {
        tags.sort_by_key(|&tag| match tag {
            8 => 0,
            3 => 1,
            _ => 2,
        });
    }
    tags
}

/// What the header says of internal nodes, external nodes, roots and block data: mostly the truth.
fn said(rng: &mut Rng, truth: [usize; 4]) -> [usize; 4] {
    let mut said = truth;
    match rng.below(100) {
        0..=7 => said[rng.below(4)] = rng.wide(),
        8..=9 => (said[0], said[1]) = (rng.wide(), rng.wide()),
        10..=11 => said[3] = usize::MAX - rng.below(40 * (truth[0] + truth[1]) + 40),
        _ => {}
    }
    said
}

/// A file that is mostly accepted under these facts.
pub fn file(rng: &mut Rng, facts: &Facts, most_nodes: usize) -> Vec<u8> {
    file_with(rng, facts, most_nodes, count)
}

/// The same with its counts made so.
pub fn file_with(rng: &mut Rng, facts: &Facts, most_nodes: usize, count: MakeCount) -> Vec<u8> {
    let nodes = rng.between(0, most_nodes);
    let tags = tags(rng, nodes);
    let external = tags.iter().filter(|&&tag| tag == 8).count();
    let flags = match rng.below(100) {
        0..=3 => rng.byte(),
        4..=43 => facts.hashless,
        _ => 0,
    };
    let (roots, blocks) = (rng.below(4), rng.below(4));
    let [internal_said, external_said, roots_said, blocks_said] =
        said(rng, [nodes - external, external, roots, blocks]);

    let mut out = facts.magic.to_vec();
    out.push(flags);
    out.extend(facts.version);
    for n in [internal_said, external_said, roots_said] {
        out.extend(count(rng, n as u64));
    }
    for _ in 0..roots {
        out.extend(id(rng, nodes, nodes).to_le_bytes());
    }
    out.extend(count(rng, blocks_said as u64));
    out.extend(rng.bytes(blocks));
    out.extend(bytes_of(&words(rng, &tags)));
    out.extend(digests(rng, external));
    if flags & facts.hashless == 0 {
        out.extend(digests(rng, nodes - external));
    }
    let entries = rng.below(5);
    out.extend(map_with(rng, entries, count));
    out
}

/// A good header and then bytes of a few values, so that counts are mostly small.
pub fn noise(rng: &mut Rng, facts: &Facts) -> Vec<u8> {
    let mut out = facts.magic.to_vec();
    out.push(if rng.percent(50) { facts.hashless } else { 0 });
    out.extend(facts.version);
    let few = [0, 1, 1, 1, 3, 3, 5, 2, 0x30, 0x80, rng.byte()];
    out.extend((0..rng.below(100)).map(|_| rng.one_of(&few)).collect::<Vec<u8>>());
    out
}

/// Any entry; ids small, near 2^30, or anything.
pub fn entry(rng: &mut Rng) -> Entry {
    let mut id = || match rng.below(4) {
        0 => (1 << 30) - 2 + rng.below(4) as u32,
        1 => rng.number() as u32,
        _ => rng.below(9) as u32,
    };
    let (a, b) = (id(), id());
    match rng.below(9) {
        0 => Entry::Join { left_child_id: a, right_child_id: b },
        1 => Entry::Split { if_branch_id: a, else_branch_id: b },
        2 => Entry::Loop { body_id: a },
        3 => Entry::Block { ops_offset: a },
        4 => Entry::Call { callee_id: a },
        5 => Entry::SysCall { callee_id: a },
        6 => Entry::Dyn,
        7 => Entry::Dyncall,
        _ => Entry::External,
    }
}

/// Mostly rising, as the published order check asks of external digests.
fn digests(rng: &mut Rng, rows: usize) -> Vec<u8> {
    let range = 2 + rows as u64;
    let mut words: Vec<[u64; 4]> =
        (0..rows).map(|_| std::array::from_fn(|_| element(rng, range))).collect();
    if rng.percent(70) {
        words.sort();
    }
    spoil_an_element(rng, &mut words, 8);
    bytes_of(words.iter().flatten())
}

/// One change: cut, a byte changed, inserted or removed, or bytes put after the end.
pub fn damaged(rng: &mut Rng, bytes: &[u8]) -> Vec<u8> {
    let mut out = bytes.to_vec();
    let at = rng.below(out.len().max(1));
    match rng.below(8) {
        _ if out.is_empty() => out = rng.bytes(3),
        0 | 1 => out.truncate(at),
        2 => out[at] = rng.byte(),
        3 => out[at] ^= 1 << rng.below(8),
        4 => out.insert(at, rng.byte()),
        5 => drop(out.remove(at)),
        6 => out[rng.below(at.min(19) + 1)] = rng.byte(),
        _ => {
            let more = rng.between(1, 40);
            out.extend(rng.bytes(more));
        }
    }
    out
}

/// A record that no scan made: some fields of another one changed.
pub fn record(rng: &mut Rng, near: &Layout) -> Layout {
    let mut l = *near;
    for _ in 0..rng.between(1, 3) {
        let n = if rng.percent(60) { rng.below(120) } else { rng.wide() };
        match rng.below(12) {
            0 | 11 => l.node_count = if rng.percent(70) { n.min(9) } else { n },
            1 => l.internal_node_count = n,
            2 => l.external_node_count = n,
            3 => l.roots_count = n,
            4 => l.roots_offset = n,
            5 => l.basic_block_offset = n,
            6 => l.basic_block_len = n,
            7 => l.node_entry_offset = n,
            8 => l.external_digest_offset = n,
            9 => l.node_hash_offset = rng.percent(60).then_some(n),
            _ => l.advice_map_offset = n,
        }
    }
    l
}

/// Facts that are a format but for a few.
pub fn facts(rng: &mut Rng) -> Facts {
    let hashless = 1 << rng.below(8);
    let mut facts = Facts {
        magic: std::array::from_fn(|_| rng.byte()),
        version: std::array::from_fn(|_| rng.byte()),
        hashless,
        reserved: rng.byte() & !hashless,
        max_nodes: [(1 << 30) - 1, 1 << 30, rng.below(8), rng.wide() % (1 << 30)][rng.below(4)],
    };
    match rng.below(40) {
        0 => facts.hashless = rng.byte(),
        1 => facts.reserved = rng.byte(),
        2 => facts.max_nodes = rng.wide(),
        _ => {}
    }
    facts
}
