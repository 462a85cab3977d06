//! What lent memory holds afterwards: beside what is written all stays, a refusal writes nothing, and a refused walk zeroes its table.
#![cfg(feature = "std")] // the writer that sorts makes the files

mod common;
use common::*;
use vekalumist::*;

#[test]
fn a_count_touches_its_own_bytes() {
    let mut out = [0xEE; 6];
    assert_eq!(write_count(&mut out, ByteOffset(1), 16384), Ok(ByteOffset(4)));
    assert_eq!(out, [0xEE, 0x04, 0x00, 0x02, 0xEE, 0xEE]);
    assert_eq!(write_count(&mut out, ByteOffset(4), 16384), no(Kind::Room, byte(4)));
    assert_eq!(out, [0xEE, 0x04, 0x00, 0x02, 0xEE, 0xEE]);
}

#[test]
fn a_slot_table_is_filled_or_as_it_was() {
    let file = of_words(&[EXTERNAL, BLOCK_0, EXTERNAL, DYN]);
    let layout = scanned(&file);
    let mut table = [77; 6];
    assert_eq!(slots(&file, &layout, Some(16), &mut table), Ok(Some(0)));
    assert_eq!(table, [0, 0, 1, 1, 77, 77]);

    let mut table = [77; 6];
    assert_eq!(slots(&file, &layout, Some(15), &mut table), no(Kind::Budget, Number(0)));
    assert_eq!(slots(&file, &layout, None, &mut table[..3]), no(Kind::Room, Number(0)));
    let mut bad = file.clone();
    bad[layout.node_entry_offset.0 + 8 * 2 + 7] = 0x90; // node 2: refused half-way
    assert_eq!(slots(&bad, &layout, None, &mut table), no(Kind::Tag, Node(2)));
    assert_eq!(slots(&file[..file.len() - 66], &layout, None, &mut table), no(Kind::Short, Node(3)));
    assert_eq!(slots(&file, &far(), None, &mut table), no(Kind::TooMany, Number(0)));
    assert_eq!(table, [77; 6]);
}

#[test]
fn a_walk_fills_or_zeroes_its_table() {
    let file = sample("advice");
    let at = ByteOffset(137);
    let mut keys = [77; 4];
    assert!(walk_map(&file, at, &mut keys).is_ok());
    assert_eq!(keys, [195, 138, 77, 77]);

    let refused = |file: &[u8], at, expected: Result<Walked, Refusal>| {
        let mut keys = [77; 4];
        assert_eq!(walk_map(file, at, &mut keys), expected);
        assert_eq!(keys, [0; 4]);
    };
    refused(&file, ByteOffset(1000), no(Kind::Short, byte(1000)));
    refused(&file[..227], at, no(Kind::Short, byte(227))); // the second entry has no length
    refused(&sample("twice"), ByteOffset(73), no(Kind::Duplicate, byte(107)));
    let mut bad = file.clone();
    bad[219..227].copy_from_slice(&NOT_AN_ELEMENT.to_le_bytes());
    refused(&bad, at, no(Kind::Element, byte(195)));

    let mut keys = [77; 3];
    assert_eq!(walk_map(&file, at, &mut keys[..1]), no(Kind::Room, byte(195)));
    assert_eq!(keys, [0, 77, 77]); // what was not lent stays
}

#[test]
fn the_output_is_written_or_as_it_was() {
    let p10 = sample("p10");
    let parts = Parts {
        flags: 2,
        roots: &[NodeId(2)],
        blocks: &[0xAB],
        words: &[EXTERNAL, BLOCK_0, JOIN_0_1],
        external: &[0; 32],
        ..Parts::default()
    };
    let mut out = [0xEE; 80];
    assert_eq!(write(&FACTS, &parts, &mut out), Ok(74));
    assert_eq!(out[..74], p10);
    assert_eq!(out[74..], [0xEE; 6]);

    let mut out = [0xEE; 80];
    assert_eq!(write(&FACTS, &parts, &mut out[..73]), no(Kind::Room, Bytes(74)));
    assert_eq!(write(&FACTS, &Parts { flags: 0, ..parts }, &mut out), no(Kind::Parts, Part(2)));
    assert_eq!(write(&FACTS, &Parts { keys: &[0; 8], lengths: &[0; 2], ..parts }, &mut out), no(Kind::Duplicate, Key(1)));
    assert_eq!(out, [0xEE; 80]);
}

/// A file of a map whose keys have these first elements.
fn of_keys(firsts: &[u64]) -> Result<Vec<u8>, Refusal> {
    let keys: Vec<u64> = firsts.iter().flat_map(|&first| [first, 0, 0, 0]).collect();
    let mut out = vec![0; 40 * firsts.len() + 40];
    let size = write(&FACTS, &Parts { keys: &keys, lengths: &vec![0; firsts.len()], ..Parts::default() }, &mut out)?;
    out.truncate(size);
    Ok(out)
}

#[test]
fn many_keys_in_any_order_are_written_as_they_come() {
    let n = 60_000; // by search alone 1.8 * 10^9 comparisons
    let orders: [&dyn Fn(u64) -> u64; 3] = [&|i| i, &|i| n - i, &|i| i * 2654435761 % n];
    for order in orders {
        let mut firsts: Vec<u64> = (0..n).map(order).collect();
        let file = of_keys(&firsts).unwrap();
        let first_at = |i: usize| u64::from_le_bytes(file[file.len() - 33 * (n as usize - i)..][..8].try_into().unwrap());
        assert!(firsts.iter().enumerate().all(|(i, first)| first_at(i) == *first));
        firsts.push(firsts[7]);
        assert_eq!(of_keys(&firsts), no(Kind::Duplicate, Key(n as usize)));
        firsts.insert(3, firsts[2]);
        assert_eq!(of_keys(&firsts), no(Kind::Duplicate, Key(3))); // the first in turn, not the first in order
    }
}
