//! Digests with a lent slot table, the key table's places, and values as a part of the file.
#![cfg(feature = "std")] // the writer that sorts makes the files

mod common;
use common::*;
use vekalumist::*;

#[test]
fn a_table_is_taken_as_it_is() {
    let file = sample("p10-hashes");
    let layout = scanned(&file);
    let of = |layout: &Layout, index, table: &[u32]| digest_with_table(&file, layout, index, table);
    assert_eq!(of(&layout, 0, &[0; 2]), no(Kind::Room, Node(0))); // shorter than the node count, though the row is there
    assert_eq!(of(&layout, 3, &[]), no(Kind::Index, Node(3)));
    assert_eq!(of(&layout, 1, &[0, u32::MAX, 0]), no(Kind::Short, Node(1)));
    assert_eq!(of(&layout, 1, &[0, 1, 0]), Ok(Word([0; 4])));
    assert_eq!(of(&with(layout, |l| l.node_hashes = HashSection::ABSENT), 1, &[0; 3]), no(Kind::NoHash, Node(1)));
    let over = with(layout, |l| l.external_digest_offset = ByteOffset(usize::MAX - 31));
    assert_eq!(of(&over, 0, &[0; 3]), no(Kind::Overflow, Node(0)));
    assert_eq!(of(&far(), 0, &[0; 3]), no(Kind::Room, Node(0)));
}

#[test]
fn values_are_a_part_of_the_file() {
    let file = sample("advice");
    let mut keys = [0; 2];
    walk_map(&file, ByteOffset(137), &mut keys).unwrap();
    let of = |file, n, first| values(file, &keys, n, Word([first, 0, 0, 0]));
    let part = of(&file, 2, 1).unwrap().unwrap();
    assert_eq!(part.as_ptr(), file[171..].as_ptr());
    assert_eq!(part, [7_u64, 8, 9].map(u64::to_le_bytes).concat());
    assert_eq!(values(&file, &keys, 2, Word([0, 2, 0, 0])), Ok(Some(&[][..]))); // found, without values
    assert_eq!(of(&file, 2, 3), Ok(None)); // absent
    assert_eq!(of(&file, 3, 1), no(Kind::Room, Rows(3)));
    assert_eq!(of(&file[..194], 2, 1), no(Kind::Short, byte(171)));
    let mut bad = file.clone();
    bad[171..179].copy_from_slice(&NOT_AN_ELEMENT.to_le_bytes());
    assert_eq!(of(&bad, 2, 1), no(Kind::Element, byte(171)));
}

#[test]
fn the_key_and_the_entry_at_a_place() {
    let file = sample("advice");
    let mut keys = [0; 3];
    walk_map(&file, ByteOffset(137), &mut keys).unwrap();
    let (first, second) = (Word([0, 2, 0, 0]), Word([1, 0, 0, 0]));
    assert_eq!((key(&file, &keys, 0), key(&file, &keys, 1)), (Ok(first), Ok(second)));
    let entry = |file: &[u8], index| map_entry(file, &keys, index);
    assert_eq!(entry(&file, 0), Ok(MapEntry { key: first, len: 0, values: ByteOffset(228) }));
    assert_eq!(entry(&file, 1), Ok(MapEntry { key: second, len: 3, values: ByteOffset(171) }));
    // no such place
    assert_eq!((key(&file, &keys, 3), entry(&file, 3)), (no(Kind::Index, Key(3)), no(Kind::Index, Key(3))));
    assert_eq!(key(&file, &[], usize::MAX), no(Kind::Index, Key(usize::MAX)));
    // a place that leads out of the file, or to no word
    for at in [file.len() - 31, file.len(), usize::MAX] {
        assert_eq!(key(&file, &[at as u64], 0), no(Kind::Short, byte(at)));
        assert_eq!(map_entry(&file, &[at as u64], 0), no(Kind::Short, byte(at)));
    }
    let mut bad = file.clone();
    bad[162..170].copy_from_slice(&NOT_AN_ELEMENT.to_le_bytes()); // the key's last element
    assert_eq!((key(&bad, &keys, 1), entry(&bad, 1)), (no(Kind::Element, byte(138)), no(Kind::Element, byte(138))));
    // the key is there, and the length or the values are not
    assert_eq!((key(&file[..170], &keys, 1), entry(&file[..170], 1)), (Ok(second), no(Kind::Short, byte(170))));
    assert_eq!(entry(&file[..194], 1), no(Kind::Short, byte(171)));
    let mut wide = file.clone();
    wide[170..179].copy_from_slice(&[0, 0, 0, 0, 0, 0, 0, 0, 0x20]); // 2^61 values
    assert_eq!(entry(&wide, 1), no(Kind::Overflow, byte(170)));
    // values are not judged
    let mut bad = file.clone();
    bad[171..179].copy_from_slice(&NOT_AN_ELEMENT.to_le_bytes());
    assert_eq!(entry(&bad, 1), entry(&file, 1));
}

#[test]
fn so_many_places_are_enough() {
    let file = sample("advice");
    let at = ByteOffset(137);
    assert_eq!(places(&file, at), 2); // as the count says
    assert_eq!(places(&file[..171], at), 2); // 33 bytes follow it: one entry has room, and ROOM is said before SHORT of the next
    assert_eq!(places(&file[..170], at), 1);
    assert_eq!((places(&file[..137], at), places(&[], ByteOffset(usize::MAX))), (0, 0)); // no count
    for end in 0..=file.len() {
        for at in [0, 73, 137, 138, 195, usize::MAX] {
            let mut keys = vec![0; places(&file[..end], ByteOffset(at))];
            let walked = walk_map(&file[..end], ByteOffset(at), &mut keys);
            assert!(!walked.is_err_and(|refusal| refusal.kind == Kind::Room), "{end} {at}");
        }
    }
}

#[test]
fn what_follows_a_map_is_counted() {
    let mut file = sample("advice");
    let at = ByteOffset(137);
    for more in 0..3 {
        assert_eq!(walked(walk_map(&file, at, &mut [0; 2])), Ok((2, 228, more)));
        assert_eq!(AdviceMap::walk(&file, at, &mut [0; 2]).unwrap().trailing(), more);
        file.push(0xEE);
    }
}
