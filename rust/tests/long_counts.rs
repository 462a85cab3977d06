//! Long counts: which calls say how many, of which counts, and that they change nothing else.
#![cfg(feature = "std")] // the writer that sorts makes the files

mod common;
use common::*;
use vekalumist::*;

const HASHLESS: ScanOptions = ScanOptions::new().allow_hashless();

/// The form of a number in so many bytes, which have room for it.
fn form(value: u64, len: usize) -> Vec<u8> {
    match len {
        9 => [&[0][..], &value.to_le_bytes()].concat(),
        _ => ((2 * value + 1) << (len - 1)).to_le_bytes()[..len].to_vec(),
    }
}

/// A hashless file of an external node and a Dyn, with one root, three bytes of block data and a map of one entry with two values. Its six
/// counts have these lengths: internal nodes, external nodes, roots, block data, entries, values.
fn of_lengths([internal, external, roots, blocks, entries, values]: [usize; 6]) -> Vec<u8> {
    [
        b"MAST\x02\x00\x00\x02".to_vec(),
        [form(1, internal), form(1, external), form(1, roots), vec![1, 0, 0, 0], form(3, blocks), vec![0xAB; 3]].concat(),
        [EXTERNAL.to_le_bytes().to_vec(), DYN.to_le_bytes().to_vec(), digests(&[5])].concat(),
        [form(1, entries), digests(&[9]), form(2, values), [70_u64, 80].map(u64::to_le_bytes).concat()].concat(),
    ]
    .concat()
}

/// What scan and walk say of an accepted file, by each way to ask, which agree.
fn said(file: &[u8]) -> (usize, usize) {
    let forest = Forest::scan(file, &FACTS, HASHLESS).unwrap();
    let scanned = scan_counting(file, &FACTS, true, None).unwrap();
    assert_eq!((scanned.layout, Some(scanned.long_counts)), (*forest.layout(), forest.long_counts()));
    assert_eq!(scan(file, &FACTS, true, None), Ok(scanned.layout));
    let (mut keys, mut others) = (vec![0; forest.key_places()], vec![0; forest.key_places()]);
    let map = forest.advice(&mut keys).unwrap();
    let walked = walk_map(file, scanned.layout.advice_map_offset, &mut others).unwrap();
    assert_eq!((walked.entries, walked.end, walked.long_counts), (map.len(), map.end(), map.long_counts()));
    (scanned.long_counts, walked.long_counts)
}

#[test]
fn the_shortest_file_has_none() {
    assert_eq!(said(&of_lengths([1; 6])), (0, 0));
    assert_eq!(said(b"MAST\x00\x00\x00\x02\x01\x01\x01\x01\x01"), (0, 0));
    for name in ["p10", "p10-hashes", "advice", "empty", "digests", "trailing", "root-beyond", "forward", "disorder", "not-canonical"] {
        assert_eq!(said(&sample(name)), (0, 0), "{name}");
    }
    // more bytes than one are not long where the value needs them
    let file = made(&Parts { flags: 2, blocks: &[7; 128], words: &[DYN; 200], roots: &[NodeId(3); 20000], ..Parts::default() });
    assert_eq!(said(&file), (0, 0));
}

#[test]
fn each_count_is_counted_where_it_is_read() {
    let shortest = of_lengths([1; 6]);
    let plain = scanned(&shortest);
    for place in 0..6 {
        for len in 2..=9 {
            let mut lengths = [1; 6];
            lengths[place] = len;
            let file = of_lengths(lengths);
            assert_eq!(said(&file), if place < 4 { (1, 0) } else { (0, 1) }, "count {place} in {len} bytes");
            // nothing else is another, but for the places behind it
            let layout = scanned(&file);
            assert_eq!((layout.node_count, layout.roots_count, layout.basic_block_len), (2, 1, 3));
            let moved = if place < 4 { len - 1 } else { 0 };
            assert_eq!(layout.advice_map_offset.0, plain.advice_map_offset.0 + moved);
            let forest = Forest::with_layout(&file, layout);
            assert_eq!((forest.root(0), forest.digest(NodeId(0))), (Ok(NodeId(1)), Ok(Word([5, 0, 0, 0]))));
            let mut keys = [0];
            assert!(forest.advice(&mut keys).unwrap().get([9, 0, 0, 0]).unwrap().unwrap().iter().eq([70, 80]));
        }
    }
    assert_eq!(said(&of_lengths([9; 6])), (4, 2));
    assert_eq!(said(&of_lengths([2, 1, 3, 1, 4, 1])), (2, 1));
    assert_eq!(said(&of_lengths([1, 8, 1, 5, 1, 6])), (2, 1));
    // the count 0, five times
    assert_eq!(said(b"MAST\x00\x00\x00\x02\x02\x00\x01\x01\x01\x01"), (1, 0));
    assert_eq!(said(b"MAST\x00\x00\x00\x02\x01\x01\x01\x01\x02\x00"), (0, 1));
}

#[test]
fn every_length_of_a_map_is_counted() {
    for n in [0, 1, 2, 50, 300] {
        for long in [0, 1, 7] {
            // every entry's length in one byte, but for the first ones
            let long = long.min(n);
            let mut map = form(n, 9);
            for i in 0..n {
                map.extend(digests(&[1000 - i])); // keys fall
                map.extend(form(i % 3, if i < long { 2 + i as usize } else { 1 }));
                map.extend(vec![0; 8 * (i as usize % 3)]);
            }
            let mut keys = vec![0; n as usize];
            let walked = walk_map(&map, ByteOffset(0), &mut keys).unwrap();
            assert_eq!((walked.entries, walked.long_counts, walked.trailing), (n as usize, 1 + long as usize, 0));
        }
    }
}

#[test]
fn a_count_says_whether_its_length_is_the_shortest() {
    let edges = (0..=9).flat_map(|n| [(1_u64 << (7 * n)) - 1, 1 << (7 * n), (1 << (7 * n)) + 1]);
    for value in edges.chain([2, 63, 64, 300, u64::MAX - 1, u64::MAX]) {
        let mut shortest = 0;
        for len in 1..=9 {
            if len < 9 && value >> (7 * len) != 0 {
                continue; // it has no room
            }
            for after in [0, 1, 20] {
                let bytes = [vec![0xEE; 3], form(value, len), vec![0xEE; after]].concat();
                let count = read_count(&bytes, ByteOffset(3)).unwrap();
                assert_eq!((count.value, count.len, count.next), (value, len, ByteOffset(3 + len)));
                assert_eq!(count.shortest, len == shortest_len(value), "{value} in {len} bytes");
                shortest += usize::from(count.shortest && after == 0);
            }
        }
        assert_eq!(shortest, 1, "{value}"); // just one of its forms is
    }
}

#[test]
fn a_refused_file_has_no_number() {
    let file = of_lengths([9; 6]);
    let map = scanned(&file).advice_map_offset;
    for end in 0..file.len() {
        let (cut, mut keys) = (&file[..end], [0; 1]);
        assert_eq!(scan_counting(cut, &FACTS, true, None).map(|scanned| scanned.layout), scan(cut, &FACTS, true, None));
        assert_eq!(scan_counting(cut, &FACTS, true, None).is_ok(), end >= map.0, "{end}");
        assert_eq!(walk_map(cut, map, &mut keys).err().map(|refusal| refusal.kind), Some(Kind::Short), "{end}");
    }
    // padding makes nothing acceptable that was not, and the other way round
    let mut bad = file.clone();
    let entries = scanned(&file).node_entry_offset.0;
    bad[entries + 7] = 0x90;
    assert_eq!(scan_counting(&bad, &FACTS, true, None), no(Kind::Tag, byte(entries)));
    assert_eq!(scan_counting(&file, &FACTS, false, None), no(Kind::Hashless, byte(4)));
    let sections = 3 + 2 * 8 + 32;
    assert_eq!(scan_counting(&file, &FACTS, true, Some(sections)).map(|scanned| scanned.long_counts), Ok(4));
    assert_eq!(scan_counting(&file, &FACTS, true, Some(sections - 1)), no(Kind::Budget, byte(8 + 3 * 9 + 4)));
    assert_eq!(walk_map(&file, map, &mut []), no(Kind::Room, byte(map.0 + 9)));
}

#[test]
fn what_follows_the_map_is_not_counted() {
    let mut file = of_lengths([1, 2, 1, 1, 2, 2]);
    file.extend([0x02, 0x00, 0x04, 0x00, 0x00]);
    assert_eq!(said(&file), (1, 2));
}

#[test]
fn what_is_written_has_none() {
    let parts = Parts {
        flags: 2,
        roots: &[NodeId(1)],
        blocks: &[0xAB; 3],
        words: &[EXTERNAL, DYN],
        external: &digests(&[5]),
        keys: &[9, 0, 0, 0],
        lengths: &[2],
        values: &[70, 80],
        ..Parts::default()
    };
    assert_eq!(made(&parts), of_lengths([1; 6]));
    assert_eq!(said(&made(&parts)), (0, 0));
}

#[test]
fn a_given_layout_tells_nothing_of_the_counts() {
    let file = of_lengths([2; 6]);
    let forest = Forest::scan(&file, &FACTS, HASHLESS).unwrap();
    let kept = Forest::with_layout(&file, *forest.layout());
    assert_eq!((forest.long_counts(), kept.long_counts()), (Some(4), None));
    assert_eq!(kept, forest); // and serves as well
    let mut keys = [0];
    assert_eq!(kept.advice(&mut keys).unwrap().long_counts(), 2); // the walk reads the map's own
    assert!(format!("{forest:?}").ends_with("long_counts: Some(4) }"));
}
