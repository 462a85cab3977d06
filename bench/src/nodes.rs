//! The operations over nodes: scan, slot table, entries and digests by index.
use std::hint::black_box;

use vekalumist::{Forest as Ours, Layout, NodeId, Word, digest_with_table, entry, scan, slots};

use crate::{
    beside::{self, Forest, Scanned},
    input::{self, FACTS, Numbers, Order},
    measure::Side,
    plain,
    table::{Row, Table},
};

/// A file with what the readers by index need.
struct Made {
    nodes: usize,
    bytes: Vec<u8>,
    layout: Layout,
    table: Vec<u32>,
    /// Where each node's digest lies.
    digests: Vec<usize>,
}

impl Made {
    fn new(nodes: usize, hashes: bool, order: Order) -> Self {
        let bytes = input::render(&input::forest(nodes, hashes, order));
        let layout = scan(&bytes, &FACTS, true, None).expect("own file");
        let mut table = vec![0; nodes];
        slots(&bytes, &layout, None, &mut table).expect("own file");
        let digests = digest_places(&bytes, &layout, &table);
        Self { nodes, bytes, layout, table, digests }
    }

    fn entries(&self) -> &[u8] {
        let first = self.layout.node_entry_offset.0;
        &self.bytes[first..first + 8 * self.nodes]
    }

    fn all_digests(&self) -> &[u8] {
        &self.bytes[self.layout.external_digest_offset.0..self.layout.advice_map_offset.0]
    }

    /// Both sides give the same layout, slots, entries and digests.
    fn check(&self) -> (Scanned, Forest<'_>) {
        let scanned = beside::same_layout(&self.bytes, &self.layout);
        let table = scanned.slots(&self.bytes, None).expect("own file");
        assert!(table == self.table, "slots");
        let forest = scanned.over_table(&self.bytes, table);
        for i in 0..self.nodes {
            let theirs = scanned.entry(&self.bytes, i).expect("own file");
            assert_eq!(entry(&self.bytes, &self.layout, i), Ok(beside::ours(theirs)), "entry {i}");
            let digest = digest_with_table(&self.bytes, &self.layout, i, &self.table).ok();
            assert_eq!(digest, forest.digest(i).ok().map(Word), "digest {i}");
        }
        (scanned, forest)
    }
}

fn digest_places(bytes: &[u8], layout: &Layout, table: &[u32]) -> Vec<usize> {
    let hashes = layout.node_hash_offset().map_or(layout.external_digest_offset.0, |at| at.0);
    let place = |(i, &slot): (usize, &u32)| {
        let external = bytes[layout.node_entry_offset.0 + 8 * i + 7] >> 4 == 8;
        let section = if external { layout.external_digest_offset.0 } else { hashes };
        section + 32 * slot as usize
    };
    table.iter().enumerate().map(place).collect()
}

fn each<T>(order: &[usize], mut f: impl FnMut(usize) -> T) {
    for &i in order {
        black_box(f(i));
    }
}

fn scan_row(table: &mut Table, made: &Made, name: &'static str) {
    let s = &made.bytes[..];
    table.add(
        Row::new(name, made.nodes),
        [
            Side::new(|| scan(black_box(s), &FACTS, true, None)),
            Side::new(|| beside::scan(black_box(s))),
            Side::new(|| plain::sum(black_box(made.entries()))),
        ],
    );
}

fn slots_row(table: &mut Table, made: &Made, scanned: &Scanned, name: &'static str) {
    let s = &made.bytes[..];
    let mut own = vec![0u32; made.nodes];
    table.add(
        Row::new(name, made.nodes),
        [
            Side::new(move || slots(black_box(s), &made.layout, None, black_box(&mut own))),
            Side::new(|| scanned.slots(black_box(s), None)),
            Side::new(|| plain::sum(black_box(made.entries()))),
        ],
    );
}

fn entry_rows(table: &mut Table, made: &Made, scanned: &Scanned, turn: &[usize], random: &[usize]) {
    let s = &made.bytes[..];
    let places: Vec<usize> = random.iter().map(|i| 8 * i).collect();
    let whole = || plain::sum(black_box(made.entries()));
    let picked = || plain::gather(black_box(made.entries()), &places);
    let held = Ours::with_layout(s, made.layout);
    let ours = |order| Side::new(move || each(order, |i| held.entry(NodeId(i as u32))));
    let rust = |order| Side::new(move || each(order, |i| scanned.entry(s, i)));
    table.add(Row::new("entry, in turn", made.nodes), [ours(turn), rust(turn), Side::new(whole)]);
    table.add(
        Row::new("entry, random", made.nodes),
        [ours(random), rust(random), Side::new(picked)],
    );
}

fn digest_rows(table: &mut Table, made: &Made, forest: &Forest, turn: &[usize], random: &[usize]) {
    let s = &made.bytes[..];
    let places: Vec<usize> = random.iter().map(|i| 8 * i).collect();
    let rows: Vec<usize> = random.iter().map(|&i| made.digests[i]).collect();
    let whole = || plain::sum(black_box(made.entries())) ^ plain::sum(made.all_digests());
    let picked =
        || plain::gather(black_box(made.entries()), &places) ^ plain::gather_rows(s, &rows);
    let mut own = made.table.clone();
    let held = Ours::with_layout(s, made.layout).slots(&mut own).expect("own file");
    let ours = |order| Side::new(move || each(order, |i| held.digest(NodeId(i as u32))));
    let rust = |order| Side::new(move || each(order, |i| forest.digest(i)));
    table.add(Row::new("digest, in turn", made.nodes), [ours(turn), rust(turn), Side::new(whole)]);
    table.add(
        Row::new("digest, random", made.nodes),
        [ours(random), rust(random), Side::new(picked)],
    );
}

/// All rows of files of so many nodes.
pub fn rows(table: &mut Table, nodes: usize) {
    let turn: Vec<usize> = (0..nodes).collect();
    let mut random = turn.clone();
    Numbers::new(7).shuffle(&mut random);

    let made = Made::new(nodes, true, Order::Classes);
    let (scanned, forest) = made.check();
    scan_row(table, &made, "scan, hashes");
    slots_row(table, &made, &scanned, "slots");
    entry_rows(table, &made, &scanned, &turn, &random);
    digest_rows(table, &made, &forest, &turn, &random);

    let made = Made::new(nodes, false, Order::Classes);
    made.check();
    scan_row(table, &made, "scan, hashless");

    let made = Made::new(nodes, true, Order::Disorder);
    let (scanned, _) = made.check();
    scan_row(table, &made, "scan, disorder");
    slots_row(table, &made, &scanned, "slots, disorder");
}
