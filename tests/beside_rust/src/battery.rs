//! Everything that can be asked of one file, one record or one map.
use crate::{
    calls::{MapOfRust, published_parts},
    make, model,
    rng::Rng,
    run::Run,
    told::{Layout, Parts, Walked},
};

/// Stands in where no scan gave a record.
const NO_SCAN: Layout = Layout {
    node_count: 2,
    internal_node_count: 1,
    external_node_count: 1,
    roots_count: 1,
    roots_offset: 8,
    basic_block_offset: 12,
    basic_block_len: 0,
    node_entry_offset: 12,
    external_digest_offset: 28,
    node_hash_offset: Some(60),
    advice_map_offset: 92,
};

impl Run {
    /// Scans, then all that a record serves: its own if it is accepted, and a made-up one.
    pub fn whole_file(&mut self, bytes: &[u8]) {
        self.flags(bytes);
        let layout = self.scans(bytes);
        if let Some(l) = &layout {
            self.by_record(bytes, l);
            self.by_constructor(bytes, l);
            self.map_at(bytes, l.advice_map_offset);
            self.write_again(bytes);
        }
        let made_up = make::record(&mut self.rng, &layout.unwrap_or(NO_SCAN));
        self.by_record(bytes, &made_up);
    }

    /// Hashless files allowed and not; with no bound, the least that serves, one less, and others.
    pub fn scans(&mut self, bytes: &[u8]) -> Option<Layout> {
        self.scan(bytes, false, None);
        let layout = self.scan(bytes, true, None);
        let exact = layout.map_or(bytes.len(), |l| least_bound(&l));
        let any = self.rng.wide();
        for bound in [0, exact.wrapping_sub(1), exact, self.rng.below(exact.saturating_add(9)), any]
        {
            self.scan(bytes, true, Some(bound));
        }
        layout
    }

    /// The readers and checks over a record, of a scan or made up.
    pub fn by_record(&mut self, bytes: &[u8], l: &Layout) {
        let any = self.rng.wide();
        for index in (0..=l.roots_count.min(4)).chain([any]) {
            self.root(bytes, l, index);
        }
        let one = self.rng.below(l.node_count.clamp(1, 1000));
        for index in (0..=l.node_count.min(6)).chain([one, l.node_count.wrapping_sub(1), any]) {
            self.entry(bytes, l, index);
            self.digest(bytes, l, index);
        }
        self.children(bytes, l);
        self.order(bytes, l);
        self.strict(bytes, l);
        self.slot_tables(bytes, l);
        self.digests_with_tables(bytes, l);
    }

    fn slot_tables(&mut self, bytes: &[u8], l: &Layout) {
        let places = l.node_count.min(4096);
        let need = l.node_count.wrapping_mul(4);
        let any = self.rng.wide();
        for bound in [None, Some(0), Some(need), Some(need.wrapping_sub(1)), Some(any)] {
            self.slots(bytes, l, bound, places);
        }
        self.slots(bytes, l, None, places + 3);
        self.slots(bytes, l, Some(any), places.saturating_sub(1));
    }

    fn digests_with_tables(&mut self, bytes: &[u8], l: &Layout) {
        let places = l.node_count.min(64);
        let built = model::slots(bytes, l, None, places).map(|s| s.table);
        let mut table = built.unwrap_or_else(|_| any_table(&mut self.rng, places));
        for index in (0..=places.min(4)).chain([self.rng.wide()]) {
            self.digest_with_table(bytes, l, index, &table);
        }
        table = any_table(&mut self.rng, places);
        for lent in [places, places + 2, places.saturating_sub(1), 0] {
            table.resize(lent, 0);
            let index = self.rng.below(places + 1);
            self.digest_with_table(bytes, l, index, &table);
        }
    }

    /// The published constructor, on files that a scan accepts.
    fn by_constructor(&mut self, bytes: &[u8], l: &Layout) {
        self.children_constructed(bytes, l);
        let index = self.rng.below(l.node_count + 1);
        self.digest_constructed(bytes, l, index);
    }

    /// A walk with places enough and with too few, then lookups.
    pub fn map_at(&mut self, bytes: &[u8], at: usize) {
        let Some(walked) = self.walk_enough(bytes, at) else {
            let few = self.rng.below(bytes.len() / 33 + 2);
            self.walk_map(bytes, at, few);
            return;
        };
        let n = walked.keys.len();
        for places in [n, n + 2, n.saturating_sub(1), self.rng.below(n + 1)] {
            self.walk_map(bytes, at, places);
        }
        self.lookups(bytes, at, &walked);
    }

    fn lookups(&mut self, bytes: &[u8], at: usize, walked: &Walked) {
        let Some(map) = MapOfRust::walk(bytes, at) else {
            return;
        };
        let present: Vec<[u64; 4]> = map.keys().collect();
        let mut asked = vec![[0; 4], [u64::MAX; 4], make::digest(&mut self.rng)];
        let most = present.len().min(8);
        for i in 0..most {
            let key = if most == present.len() { present[i] } else { self.rng.one_of(&present) };
            asked.extend([key, neighbour(&mut self.rng, key)]);
        }
        for &key in &asked {
            self.lookup_walked(bytes, &map, &walked.keys, key);
        }
        self.held_map(bytes, at, &map, &asked);
        self.foreign_lookups(bytes, walked, &present);
    }

    /// Tables that no walk of these bytes filled, and n of any size.
    fn foreign_lookups(&mut self, bytes: &[u8], walked: &Walked, present: &[[u64; 4]]) {
        let mut keys = walked.keys.clone();
        keys.push(self.rng.wide() as u64);
        keys.push(self.rng.below(bytes.len() + 2) as u64);
        self.rng.shuffle(&mut keys);
        let key = match present {
            [] => [0; 4],
            _ => self.rng.one_of(present),
        };
        let any = self.rng.wide();
        for n in [keys.len(), keys.len() + 1, self.rng.below(keys.len()), any] {
            self.lookup_foreign(bytes, &keys, n, key);
        }
        for index in [0, 1, 2, keys.len(), any] {
            self.at_place(bytes, &keys, index);
        }
        let damaged = make::damaged(&mut self.rng, bytes);
        self.lookup_foreign(&damaged, &walked.keys, walked.keys.len(), key);
        for index in 0..walked.keys.len().min(4) {
            self.at_place(&damaged, &walked.keys, index);
        }
    }

    /// The writer on an accepted file's parts; then the published readers on what it wrote.
    fn write_again(&mut self, bytes: &[u8]) {
        let Ok((parts, _)) = published_parts(bytes) else {
            return;
        };
        let facts = self.facts;
        let Some(file) = self.write(&facts, &parts, bytes.len() + 9) else {
            return;
        };
        self.written_shows(&file, &parts);
        self.write(&facts, &parts, file.len());
        self.write(&facts, &parts, file.len() - 1);
        let spoilt = spoilt_parts(&mut self.rng, &parts);
        self.write(&facts, &spoilt, bytes.len() + 99);
        let other_facts = make::facts(&mut self.rng);
        self.write(&other_facts, &parts, bytes.len() + 9);
    }
}

/// The least bound with which a scan of the same file is accepted.
fn least_bound(l: &Layout) -> usize {
    let hashes = if l.node_hash_offset.is_some() { 32 * l.internal_node_count } else { 0 };
    let sections = l.advice_map_offset - l.basic_block_offset;
    let needs = [8 * l.node_count, 32 * l.external_node_count, hashes, 4 * l.roots_count, sections];
    needs.into_iter().max().unwrap_or(0)
}

fn any_table(rng: &mut Rng, places: usize) -> Vec<u32> {
    (0..places)
        .map(|_| if rng.percent(80) { rng.below(4) as u32 } else { rng.number() as u32 })
        .collect()
}

/// A key just beside another.
fn neighbour(rng: &mut Rng, mut key: [u64; 4]) -> [u64; 4] {
    let element = &mut key[rng.below(4)];
    *element = if rng.percent(50) { element.wrapping_add(1) } else { element.wrapping_sub(1) };
    key
}

/// One part changed so that the writer mostly refuses.
fn spoilt_parts(rng: &mut Rng, parts: &Parts) -> Parts {
    let mut p = parts.clone();
    match rng.below(10) {
        0 => p.flags = rng.byte(),
        1 => p.words.push(rng.number()),
        2 => p.external.push(0),
        3 => p.hashes.extend([0; 32]),
        4 => p.keys.push(0),
        5 => p.lengths.push(rng.wide() as u64),
        6 => p.values.push(0),
        7 => (p.keys.extend([model::MODULUS; 4]), p.lengths.push(0)).1,
        8 if !p.lengths.is_empty() => (p.keys.extend_from_within(..4), p.lengths.push(0)).1,
        _ if !p.words.is_empty() => {
            let node = rng.below(p.words.len());
            p.words[node] ^= 1 << rng.between(30, 63);
        }
        _ => p.roots.push(rng.number() as u32),
    }
    p
}
