//! Whole files: what the samples hold, and that their parts make them again.
#![cfg(feature = "std")] // the writer that sorts makes the files

mod common;
use common::*;
use vekalumist::*;

#[test]
fn p10_has_the_known_layout() {
    let file = sample("p10");
    let layout = with(Layout::default(), |layout| {
        layout.node_count = 3;
        layout.internal_node_count = Slot(2);
        layout.external_node_count = Slot(1);
        layout.roots_count = 1;
        layout.roots_offset = ByteOffset(11);
        layout.basic_block_offset = ByteOffset(16);
        layout.basic_block_len = 1;
        layout.node_entry_offset = ByteOffset(17);
        layout.external_digest_offset = ByteOffset(41);
        layout.node_hashes = HashSection::ABSENT;
        layout.advice_map_offset = ByteOffset(73);
    });
    assert_eq!(scan(&file, &FACTS, true, None), Ok(layout));
    assert_eq!(scan(&file, &FACTS, true, Some(57)), Ok(layout)); // 1 of blocks, 24 of entries, 32 of digests
    assert_eq!(scan(&file, &FACTS, true, Some(56)), no(Kind::Budget, byte(15)));
    assert_eq!(scan(&file, &FACTS, false, None), no(Kind::Hashless, byte(4)));
}

#[test]
fn p10_has_the_known_nodes() {
    let file = sample("p10");
    let layout = scanned(&file);
    assert_eq!(root(&file, &layout, 0), Ok(NodeId(2)));
    assert_eq!(entry(&file, &layout, 0), Ok(Entry::External));
    assert_eq!(entry(&file, &layout, 1), Ok(Entry::Block { ops_offset: 0 }));
    assert_eq!(entry(&file, &layout, 2), Ok(Entry::Join { left_child_id: NodeId(0), right_child_id: NodeId(1) }));
    assert_eq!(children(&file, &layout), Ok(()));
    assert_eq!(order(&file, &layout), Ok(()));
    assert_eq!(strict(&file, &layout), Ok(()));
    assert_eq!(digest(&file, &layout, 0), Ok(Word([0; 4])));
    assert_eq!(digest(&file, &layout, 1), no(Kind::NoHash, Node(1)));
    assert_eq!(digest(&file, &layout, 2), no(Kind::NoHash, Node(2)));
    let mut table = [7; 3];
    assert_eq!(slots(&file, &layout, None, &mut table), Ok(None));
    assert_eq!(table, [0, 0, 1]);
    assert_eq!(walked(walk_map(&file, layout.advice_map_offset, &mut [])), Ok((0, 74, 0)));
}

#[test]
fn p10_with_hashes_has_them_before_the_map() {
    let file = sample("p10-hashes");
    let layout = scan(&file, &FACTS, false, None).unwrap();
    assert_eq!(layout.node_hash_offset(), Some(ByteOffset(73)));
    assert_eq!(layout.node_hashes, HashSection::at(ByteOffset(73)));
    assert_eq!(layout.advice_map_offset, ByteOffset(137));
    assert_eq!(digest(&file, &layout, 2), Ok(Word([0; 4])));
}

#[test]
fn digests_lie_in_node_order_within_their_kind() {
    let file = made(&Parts {
        words: &[BLOCK_0, EXTERNAL, BLOCK_0, EXTERNAL],
        external: &digests(&[10, 11]),
        hashes: &digests(&[20, 21]),
        ..Parts::default()
    });
    let layout = scanned(&file);
    let first = |index| digest(&file, &layout, index).map(|word| word.0[0]);
    assert_eq!([first(0), first(1), first(2), first(3)], [Ok(20), Ok(10), Ok(21), Ok(11)]);
}

#[test]
fn the_sample_map_is_walked_and_looked_up() {
    let file = sample("advice");
    let layout = scanned(&file);
    let mut keys = [9; 4];
    assert_eq!(walked(walk_map(&file, layout.advice_map_offset, &mut keys)), Ok((2, file.len(), 0)));
    assert_eq!(keys, [195, 138, 9, 9]); // the second key is the lower one
    let look = |key| lookup(&file, &keys, 2, Word(key));
    assert_eq!(look([1, 0, 0, 0]), Ok(Lookup::Found { values: ByteOffset(171), len: 3, compared: 1 }));
    assert_eq!(look([0, 2, 0, 0]), Ok(Lookup::Found { values: ByteOffset(228), len: 0, compared: 2 }));
    assert_eq!(look([0, 1, 0, 0]), Ok(Lookup::Absent { compared: 2 }));
    assert_eq!(look([u64::MAX; 4]), Ok(Lookup::Absent { compared: 1 }));
}

/// Reads a file's parts with the readers alone, and writes them.
fn written_again(file: &[u8]) -> Vec<u8> {
    let forest = Forest::scan(file, &FACTS, ScanOptions::new().allow_hashless()).unwrap();
    let layout = forest.layout();
    let roots: Vec<NodeId> = forest.roots().map(Result::unwrap).collect();
    let words: Vec<u64> = forest.nodes().map(|node| encode_entry(node.unwrap().1).unwrap()).collect();
    let part = |from: ByteOffset, to: ByteOffset| &file[from.0..to.0];
    let hashes_at = layout.node_hash_offset().unwrap_or(layout.advice_map_offset);
    let mut table = vec![0; forest.key_places()];
    let map = forest.advice(&mut table).unwrap();
    let mut entries: Vec<AdviceEntry<'_>> = map.iter().map(Result::unwrap).collect();
    entries.sort_by_key(|entry| entry.key_offset); // the order in the file
    let (mut keys, mut lengths, mut values) = (vec![], vec![], vec![]);
    for entry in entries {
        keys.extend(entry.key.0);
        lengths.push(entry.values.len() as u64);
        values.extend(entry.values.iter());
    }
    made(&Parts {
        flags: forest.flags().unwrap(),
        roots: &roots,
        blocks: &file[layout.basic_block_offset.0..][..layout.basic_block_len],
        words: &words,
        external: part(layout.external_digest_offset, hashes_at),
        hashes: part(hashes_at, layout.advice_map_offset),
        keys: &keys,
        lengths: &lengths,
        values: &values,
    })
}

#[test]
fn the_parts_of_a_sample_make_it_again() {
    for name in ["p10", "p10-hashes", "advice", "empty"] {
        let file = sample(name);
        assert_eq!(written_again(&file), file, "{name}");
    }
}

#[test]
fn long_counts_are_written_shortest_and_entries_canonical() {
    // no internal node and one external, in two bytes each; the entry has a payload that is not looked at
    let mut long = b"MAST\x00\x00\x00\x02\x02\x00\x06\x00\x01\x01".to_vec();
    long.extend((EXTERNAL | 5).to_le_bytes());
    long.extend([0; 32]);
    long.push(1);
    let mut shortest = b"MAST\x00\x00\x00\x02\x01\x03\x01\x01".to_vec();
    shortest.extend(EXTERNAL.to_le_bytes());
    shortest.extend([0; 32]);
    shortest.push(1);
    assert_eq!(written_again(&long), shortest);
    assert_eq!(strict(&long, &scanned(&long)), no(Kind::NotCanonical, Node(0)));
    assert_eq!(strict(&shortest, &scanned(&shortest)), Ok(()));
}

#[test]
fn counts_of_the_worked_examples() {
    let cases: [(u64, &[u8]); 9] = [
        (0, &[0x01]),
        (127, &[0xFF]),
        (128, &[0x02, 0x02]),
        (16383, &[0xFE, 0xFF]),
        (16384, &[0x04, 0x00, 0x02]),
        ((1 << 56) - 1, &[0x80, 0xFF, 0xFF, 0xFF, 0xFF, 0xFF, 0xFF, 0xFF]),
        (1 << 56, &[0, 0, 0, 0, 0, 0, 0, 0, 1]),
        (u64::MAX, &[0, 0xFF, 0xFF, 0xFF, 0xFF, 0xFF, 0xFF, 0xFF, 0xFF]),
        (1, &[0x03]),
    ];
    for (value, bytes) in cases {
        assert_eq!(shortest_len(value), bytes.len(), "{value}");
        let mut out = [0xEE; 12];
        assert_eq!(write_count(&mut out, ByteOffset(2), value), Ok(ByteOffset(2 + bytes.len())));
        assert_eq!(&out[2..2 + bytes.len()], bytes, "{value}");
        let next = ByteOffset(2 + bytes.len());
        let count = read_count(&out, ByteOffset(2)).unwrap();
        assert_eq!((count.value, count.len, count.next, count.shortest), (value, bytes.len(), next, true));
    }
    let long = read_count(&[2, 0], ByteOffset(0)).unwrap();
    assert_eq!((long.value, long.len, long.next, long.shortest), (0, 2, ByteOffset(2), false));
}

#[test]
fn entries_of_every_kind() {
    let (most, id) = (NodeId((1 << 30) - 1), NodeId);
    let cases = [
        (0x40000002, Entry::Join { left_child_id: id(1), right_child_id: id(2) }),
        (0x0FFFFFFFFFFFFFFF, Entry::Join { left_child_id: most, right_child_id: most }),
        (0x1000000000000003, Entry::Split { if_branch_id: id(0), else_branch_id: id(3) }),
        (0x20000000FFFFFFFF, Entry::Loop { body_id: id(u32::MAX) }),
        (0x3000000000000007, Entry::Block { ops_offset: 7 }),
        (0x4000000000000007, Entry::Call { callee_id: id(7) }),
        (0x5000000000000007, Entry::SysCall { callee_id: id(7) }),
        (0x6000000000000000, Entry::Dyn),
        (0x7000000000000000, Entry::Dyncall),
        (0x8000000000000000, Entry::External),
    ];
    for (word, entry) in cases {
        assert_eq!(decode_entry(word), Ok(entry), "{word:x}");
        assert_eq!(encode_entry(entry), Ok(word), "{entry:?}");
    }
    assert_eq!(decode_entry(0x6000000000000001), Ok(Entry::Dyn)); // a payload that is not looked at
    assert_eq!(decode_entry(0x2000000100000000), no(Kind::Payload, Number(0)));
    assert_eq!(decode_entry(0x9000000000000000), no(Kind::Tag, Number(0)));
    assert_eq!(encode_entry(Entry::Split { if_branch_id: id(0), else_branch_id: id(1 << 30) }), no(Kind::Payload, Number(0)));
}

#[test]
fn the_flags_byte_of_a_file() {
    assert_eq!((flags(&sample("p10")), flags(&sample("p10-hashes"))), (Ok(2), Ok(0)));
    assert_eq!((flags(&[7; 4]), flags(&[7; 5])), (no(Kind::Short, byte(4)), Ok(7)));
    // nothing else is looked at
}

#[test]
fn the_linked_version_is_this_crate_s() {
    let [major, minor, patch] = [env!("CARGO_PKG_VERSION_MAJOR"), env!("CARGO_PKG_VERSION_MINOR"), env!("CARGO_PKG_VERSION_PATCH")]
        .map(|part| part.parse::<u64>().unwrap());
    assert_eq!(version(), 10000 * major + 100 * minor + patch);
}

#[test]
fn layouts_are_equal_if_they_mean_the_same() {
    let (with, without) = (HashSection::at(ByteOffset(0)), HashSection::ABSENT);
    assert_ne!(with, without);
    assert_eq!((with.offset(), without.offset()), (Some(ByteOffset(0)), None));
    assert_eq!((format!("{with:?}"), format!("{without:?}")), ("At(ByteOffset(0))".to_string(), "Absent".to_string()));
    assert_eq!(Layout::default().node_hash_offset(), None);
}
