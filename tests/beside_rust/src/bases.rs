//! The good files and maps that are changed at every place, under the placeholder facts; and the
//! listed differences at their smallest.
use crate::{
    model::count_of_len,
    run::Run,
    told::{Entry, Layout},
};

pub const EXTERNAL: u64 = 8 << 60;
const BLOCK: u64 = 3 << 60;
pub const DYN: u64 = 6 << 60;
const LOOP_9: u64 = 2 << 60 | 9;
const BAD_TAG: u64 = 9 << 60;
const JOIN_0_1: u64 = 1;

pub fn header(hashless: u8) -> Vec<u8> {
    [&b"MAST"[..], &[hashless, 0, 0, 1]].concat()
}

pub fn words(words: &[u64]) -> Vec<u8> {
    words.iter().flat_map(|w| w.to_le_bytes()).collect()
}

pub const FILES: [fn() -> Vec<u8>; 5] =
    [empty, example, example_with_hashes, two_externals, long_counts];
pub const MAPS: [fn() -> Vec<u8>; 3] = [two_keys, falling_keys, long_map];

fn empty() -> Vec<u8> {
    [header(0), vec![1, 1, 1, 1, 1]].concat()
}

/// Document 01's P10.
fn example() -> Vec<u8> {
    let counts = vec![5, 3, 3, 2, 0, 0, 0, 3, 0xAB];
    [header(1), counts, words(&[EXTERNAL, BLOCK, JOIN_0_1]), vec![0; 32], vec![1]].concat()
}

fn example_with_hashes() -> Vec<u8> {
    let counts = vec![5, 3, 3, 2, 0, 0, 0, 3, 0xAB];
    let nodes = words(&[EXTERNAL, BLOCK, JOIN_0_1]);
    [header(0), counts, nodes, words(&[7; 12]), two_keys()].concat()
}

/// Hashless; digests that rise; two roots; no blocks; a Loop of node 1.
fn two_externals() -> Vec<u8> {
    let counts = vec![5, 5, 5, 1, 0, 0, 0, 2, 0, 0, 0, 1];
    let nodes = words(&[EXTERNAL, EXTERNAL, DYN, 2 << 60 | 1]);
    [header(1), counts, nodes, words(&[1, 2, 3, 4, 1, 2, 3, 5]), vec![1]].concat()
}

/// Every count in a longer form than needed.
fn long_counts() -> Vec<u8> {
    let mut out = header(0);
    for (v, len) in [(1, 2), (1, 3), (0, 9)] {
        out.extend(count_of_len(v, len));
    }
    out.extend(count_of_len(2, 8));
    out.extend([0xAA, 0xBB]);
    out.extend(words(&[EXTERNAL, DYN | 5]));
    out.extend(words(&[3; 8]));
    out.extend(count_of_len(0, 4));
    out
}

fn two_keys() -> Vec<u8> {
    [vec![5], words(&[7; 4]), vec![5], words(&[70, 80]), words(&[0; 4]), vec![1]].concat()
}

fn falling_keys() -> Vec<u8> {
    let entry = |k: u64| [words(&[1, 2, 3, k]), vec![3], words(&[k])].concat();
    [vec![7], entry(9), entry(8), entry(7)].concat()
}

/// Counts in long forms, and bytes after the end.
fn long_map() -> Vec<u8> {
    let mut out = count_of_len(1, 9);
    out.extend(words(&[1, 1, 1, 1]));
    out.extend(count_of_len(1, 5));
    out.extend(words(&[6]));
    out.extend([0xEE; 3]);
    out
}

/// A record of so many nodes whose sections all begin at byte 0.
fn record(nodes: usize) -> Layout {
    Layout {
        node_count: nodes,
        internal_node_count: 0,
        external_node_count: 0,
        roots_count: 0,
        roots_offset: 0,
        basic_block_offset: 0,
        basic_block_len: 0,
        node_entry_offset: 0,
        external_digest_offset: 0,
        node_hash_offset: None,
        advice_map_offset: 0,
    }
}

impl Run {
    /// Every listed difference at its smallest, so that a run meets each.
    pub fn known_differences(&mut self) {
        self.encode_entry(Entry::Join { left_child_id: 1 << 30, right_child_id: 0 });
        self.differences_of_files();
        self.differences_of_records();
        self.difference_of_facts();
    }

    fn differences_of_files(&mut self) {
        let one_external = |digest: u64| {
            let rows = words(&[digest, 0, 0, 0]);
            [header(1), vec![1, 3, 1, 1], words(&[EXTERNAL]), rows].concat()
        };
        let equal_digests =
            [header(0), vec![1, 5, 1, 1], words(&[EXTERNAL; 2]), vec![0; 64]].concat();
        let one_node = |word: u64| [header(1), vec![3, 1, 1, 1], words(&[word])].concat();
        let hashed_loop = [header(0), vec![3, 1, 1, 1], words(&[LOOP_9]), vec![0; 32]].concat();
        let join_then_block = [header(1), vec![5, 1, 1, 1], words(&[0, BLOCK])].concat();
        let external_then_loop =
            [header(1), vec![3, 3, 1, 1], words(&[EXTERNAL, LOOP_9]), vec![0; 32]].concat();
        let files = [
            equal_digests,
            one_external(u64::MAX),
            one_node(0),
            one_node(LOOP_9),
            one_node(DYN),
            hashed_loop,
            join_then_block,
            external_then_loop,
        ];
        for file in files {
            self.whole_file(&file);
            if let Some(l) = self.scan(&file, true, None) {
                self.digest_constructed(&file, &l, 0);
            }
        }
    }

    fn differences_of_records(&mut self) {
        let digest_row_outside = words(&[EXTERNAL]);
        self.by_record(&digest_row_outside, &record(1));
        self.by_record(&words(&[BLOCK, EXTERNAL, BAD_TAG]), &record(3));
        self.by_record(&words(&[EXTERNAL, BAD_TAG, 0, 0]), &record(2));
        self.by_record(&words(&[EXTERNAL, EXTERNAL, 0, 0]), &record(2));
        self.by_record(&[], &record(1));
        self.by_record(&[], &Layout { basic_block_len: 1, ..record(0) });
        let overflows = Layout { basic_block_len: 1, basic_block_offset: usize::MAX, ..record(0) };
        self.by_record(&[], &overflows);
        self.by_record(&[], &record((1 << 30) + 1));
        self.by_record(&words(&[DYN]), &record(usize::MAX));
        self.digest_with_table(&[], &record(1), 0, &[]);
    }

    fn difference_of_facts(&mut self) {
        let facts = self.facts;
        self.set_facts(published::Facts { hashless: 3, reserved: 0, ..facts });
        self.scan(&[], true, None);
        self.scan(&empty(), true, None);
        self.set_facts(facts);
    }
}
