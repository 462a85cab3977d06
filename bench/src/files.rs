//! The writer. The published copies have none, so it stands beside a plain read of its parts only.
use std::hint::black_box;

use vekalumist::{Kind, Place, Refusal, write};

use crate::{
    input::{self, FACTS, Keys, Order, Parts},
    measure::Side,
    plain::{bytes_of, sum},
    table::{Row, Table},
};

fn lent(parts: &Parts) -> vekalumist::Parts<'_> {
    vekalumist::Parts {
        flags: parts.flags,
        roots: &parts.roots,
        blocks: &parts.blocks,
        words: &parts.words,
        external: &parts.external,
        hashes: &parts.hashes,
        keys: &parts.keys,
        lengths: &parts.lengths,
        values: &parts.values,
    }
}

fn read(parts: &Parts) -> u64 {
    let numbers = [&parts.words, &parts.keys, &parts.lengths, &parts.values];
    let digests = sum(&parts.external) ^ sum(&parts.hashes);
    numbers.into_iter().fold(digests, |a, n| a ^ sum(bytes_of(n)))
}

fn write_row(table: &mut Table, n: usize, parts: &Parts, name: &'static str) {
    let want = input::render(parts);
    let mut out = vec![0u8; want.len()];
    assert_eq!(write(&FACTS, &lent(parts), &mut out), Ok(want.len()));
    assert!(out == want, "the writer's file is another");
    timed(table, n, parts, name, out);
}

/// Parts whose last key is there before: all keys are looked at, and nothing is written.
fn refused_row(table: &mut Table, n: usize, parts: &Parts, name: &'static str) {
    let mut out = vec![0u8; 8 * (parts.keys.len() + parts.lengths.len() + parts.values.len()) + 99];
    let twice = Refusal { kind: Kind::Duplicate, place: Place::Key(parts.lengths.len() - 1) };
    assert_eq!(write(&FACTS, &lent(parts), &mut out), Err(twice));
    timed(table, n, parts, name, out);
}

fn timed(table: &mut Table, n: usize, parts: &Parts, name: &'static str, mut out: Vec<u8>) {
    table.add_alone(
        Row::new(name, n),
        [
            Side::new(move || write(&FACTS, &lent(black_box(parts)), black_box(&mut out))),
            Side::new(|| read(black_box(parts))),
        ],
    );
}

/// All rows of files of so many nodes, and of maps of so many entries.
pub fn rows(table: &mut Table, n: usize) {
    write_row(table, n, &input::forest(n, true, Order::Classes), "write, hashes");
    write_row(table, n, &input::forest(n, false, Order::Classes), "write, hashless");
    write_row(table, n, &input::map(n, Keys::Rising), "write, rising");
    write_row(table, n, &input::map(n, Keys::Falling), "write, falling");
    write_row(table, n, &input::map(n, Keys::Shuffled), "write, shuffled");
    refused_row(table, n, &input::doubled(input::map(n, Keys::Shuffled)), "write, doubled");
}
