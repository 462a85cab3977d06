//! Refusals by number and place, over files, hand-made layouts and tables.
#![cfg(feature = "std")] // the writer that sorts makes the files

mod common;
use common::*;
use std::collections::BTreeSet;
use vekalumist::*;

/// P10 with other bytes at a place.
fn changed(at: usize, bytes: &[u8]) -> Vec<u8> {
    let mut file = sample("p10");
    file[at..at + bytes.len()].copy_from_slice(bytes);
    file
}

fn scan_of(file: &[u8]) -> Option<Refusal> {
    scan(file, &FACTS, true, None).err()
}

/// The refusal of a reader over a file that the scan accepts.
fn read<T>(file: &[u8], reader: impl FnOnce(&[u8], &Layout) -> Result<T, Refusal>) -> Option<Refusal> {
    reader(file, &scanned(file)).err()
}

#[test]
fn every_number_is_met_at_its_place() {
    let p10 = sample("p10");
    let sum_above = [&p10[..8], &[0], &[0xFF; 8], &[3]].concat();
    let many = [&p10[..8], &[0, 0, 0, 0, 0x40, 0, 0, 0, 0], &[1]].concat();
    let cases = [
        (1, byte(0), scan_of(&[])),
        (1, byte(4), scan_of(b"MAST")),
        (1, byte(73), walk_map(&p10[..73], ByteOffset(73), &mut []).err()),
        (1, byte(4), flags(&p10[..4]).err()),
        (2, byte(0), scan_of(b"XXXX")),
        (3, byte(5), scan_of(b"MAST\xFF\x00\x00\x03")), // before the flags
        (4, byte(4), scan_of(b"MAST\xFF\x00\x00\x02")),
        (5, byte(4), scan(&p10, &FACTS, false, None).err()),
        (6, byte(8), scan_of(&sum_above)),
        (7, byte(8), scan_of(&many)),
        (7, byte(8), scan(&p10, &Facts { max_nodes: 2, ..FACTS }, true, None).err()),
        (8, byte(8), scan(&p10, &FACTS, true, Some(0)).err()),
        (9, byte(17), scan_of(&sample("bad-tag"))),
        (10, byte(25), scan_of(&changed(25, &[0, 0, 0, 0, 1]))), // a Block of 2^32
        (11, byte(9), scan_of(&changed(24, &[0x30]))),           // no External where the header says one
        (12, Root(1), read(&p10, |s, l| root(s, l, 1))),
        (12, Node(3), read(&p10, |s, l| entry(s, l, 3))),
        (12, Node(3), read(&p10, |s, l| digest(s, l, 3))),
        (13, Root(0), read(&changed(11, &[3]), |s, l| root(s, l, 0))),
        (14, Node(2), read(&p10, |s, l| digest(s, l, 2))),
        (15, Node(2), read(&changed(33, &[3]), children)),
        (16, Node(2), read(&changed(33, &[2]), children)),
        (17, Node(1), read(&of_words(&[BLOCK_0, EXTERNAL]), order)),
        (18, Node(0), read(&changed(41, &NOT_AN_ELEMENT.to_le_bytes()), |s, l| digest(s, l, 0))),
        (19, byte(107), walk_map(&sample("twice"), ByteOffset(73), &mut [0; 2]).err()),
        (20, byte(138), walk_map(&sample("advice"), ByteOffset(137), &mut []).err()),
        (20, Rows(1), lookup(&p10, &[], 1, Word([0; 4])).err()),
        (
            20,
            Bytes(74),
            write(&FACTS, &Parts { words: &[BLOCK_0, DYN], flags: 2, blocks: &[0; 45], ..Parts::default() }, &mut [0; 73]).err(),
        ),
        (21, byte(0), scan(&p10, &Facts { hashless: 3, ..FACTS }, true, None).err()),
        (21, byte(0), scan(&p10, &Facts { reserved: 2, ..FACTS }, true, None).err()),
        (21, byte(0), scan(&p10, &Facts { max_nodes: (1 << 30) + 1, ..FACTS }, true, None).err()),
        (22, Node(0), read(&changed(17, &[1]), strict)),
        (23, Part(1), write(&FACTS, &Parts { words: &[EXTERNAL], ..Parts::default() }, &mut []).err()),
    ];
    let mut met = BTreeSet::new();
    for (line, (number, place, refusal)) in cases.into_iter().enumerate() {
        let refusal = refusal.unwrap_or_else(|| panic!("case {line} is not refused"));
        assert_eq!((refusal.kind.number(), refusal.place), (number, place), "case {line}: {refusal}");
        met.insert(number);
    }
    assert_eq!(met, Kind::ALL.iter().map(|kind| kind.number()).collect());
}

#[test]
fn the_writer_says_which_part_and_which_key() {
    let of = |parts: Parts<'_>| write(&FACTS, &parts, &mut [0; 400]);
    let keys = [5, 0, 0, 0, 5, 0, 0, 0];
    let bad = [5, 0, 0, 0, 0, 0, 0, NOT_AN_ELEMENT];
    let parts = Parts::default();
    assert_eq!(of(Parts { flags: 4, ..parts }), no(Kind::Flags, byte(4)));
    assert_eq!(of(Parts { words: &[DYN, 0x2000000100000000], ..parts }), no(Kind::Payload, Node(1)));
    assert_eq!(of(Parts { words: &[DYN, DYN, 0xF000000000000000], ..parts }), no(Kind::Tag, Node(2)));
    assert_eq!(of(Parts { external: &[0], ..parts }), no(Kind::Parts, Part(1)));
    assert_eq!(of(Parts { words: &[DYN], ..parts }), no(Kind::Parts, Part(2)));
    assert_eq!(of(Parts { flags: 2, words: &[DYN], hashes: &[0; 32], ..parts }), no(Kind::Parts, Part(2)));
    assert_eq!(of(Parts { keys: &keys, lengths: &[0], ..parts }), no(Kind::Parts, Part(3)));
    assert_eq!(of(Parts { keys: &keys, lengths: &[0, 1], ..parts }), no(Kind::Parts, Part(4)));
    assert_eq!(of(Parts { keys: &keys, lengths: &[1 << 63, 1 << 63], ..parts }), no(Kind::Parts, Part(4)));
    assert_eq!(of(Parts { keys: &keys, lengths: &[0, 0], ..parts }), no(Kind::Duplicate, Key(1)));
    assert_eq!(of(Parts { keys: &bad, lengths: &[0, 0], ..parts }), no(Kind::Element, Key(1)));
    assert_eq!(write(&Facts { max_nodes: 0, ..FACTS }, &Parts { words: &[DYN], ..parts }, &mut []), no(Kind::TooMany, Number(0)));
    assert_eq!(write(&Facts { hashless: 0, ..FACTS }, &parts, &mut []), no(Kind::Format, Number(0)));
}

#[test]
fn any_layout_gets_an_answer() {
    let file = sample("p10-hashes");
    let most = usize::MAX;
    assert_eq!(root(&file, &far(), 0), no(Kind::Overflow, Root(0)));
    assert_eq!(root(&file, &far(), most), no(Kind::Index, Root(most)));
    assert_eq!(entry(&file, &far(), most - 1), no(Kind::Overflow, Node(most - 1)));
    assert_eq!(digest(&file, &far(), 5), no(Kind::Overflow, Node(0))); // the entry of node 0 is read first
    assert_eq!(children(&file, &far()), no(Kind::Overflow, Node(0)));
    assert_eq!(order(&file, &far()), no(Kind::Overflow, Node(0)));
    assert_eq!(strict(&file, &far()), no(Kind::Overflow, Node(0)));
    assert_eq!(slots(&file, &far(), None, &mut []), no(Kind::TooMany, Number(0)));

    // a row that ends at 2^64 - 1 is not there; one that ends a byte later does not exist
    let layout = scanned(&file);
    let entries_at = |at| with(layout, |l| l.node_entry_offset = ByteOffset(at));
    assert_eq!(entry(&file, &entries_at(most - 8), 0), no(Kind::Short, Node(0)));
    assert_eq!(entry(&file, &entries_at(most - 7), 0), no(Kind::Overflow, Node(0)));
    let digests_at = |at| with(layout, |l| l.external_digest_offset = ByteOffset(at));
    assert_eq!(digest(&file, &digests_at(most - 32), 0), no(Kind::Short, Node(0)));
    assert_eq!(digest(&file, &digests_at(most - 31), 0), no(Kind::Overflow, Node(0)));
    let hashes_at = |node_hashes| with(layout, |l| l.node_hashes = node_hashes);
    assert_eq!(
        digest(&file, &hashes_at(HashSection::at(ByteOffset(0))), 1),
        Ok(Word([0x020000005453414D, 0x0300000002030305, 0xAB, 0x80]))
    );
    assert_eq!(digest(&file, &hashes_at(HashSection::ABSENT), 1), no(Kind::NoHash, Node(1)));

    // a record's own counts are held against, not the file's
    assert_eq!(root(&file, &with(layout, |l| l.node_count = 2), 0), no(Kind::RootId, Root(0)));
    assert_eq!(entry(&file, &with(layout, |l| l.node_count = 2), 2), no(Kind::Index, Node(2)));
    assert_eq!(digest(&file, &with(layout, |l| l.external_node_count = Slot(0)), 0), Ok(Word([0; 4])));
}

#[test]
fn any_place_and_table_get_an_answer() {
    let file = sample("advice");
    let most = usize::MAX;
    for at in [file.len(), most - 8, most] {
        assert_eq!(read_count(&file, ByteOffset(at)), no(Kind::Short, byte(at)));
        assert_eq!(write_count(&mut [0; 4], ByteOffset(at), 0), no(Kind::Room, byte(at)));
        assert_eq!(walk_map(&file, ByteOffset(at), &mut [0; 4]), no(Kind::Short, byte(at)));
        assert_eq!(lookup(&file, &[at as u64], 1, Word([0; 4])), no(Kind::Short, byte(at)));
    }
    assert_eq!(lookup(&file, &[0; 3], 4, Word([0; 4])), no(Kind::Room, Rows(4)));
    assert_eq!(lookup(&file, &[0; 3], most, Word([0; 4])), no(Kind::Room, Rows(most)));
    // a value that is no element, which the walk does not judge: by its own place
    let mut file = file;
    file[179..187].copy_from_slice(&NOT_AN_ELEMENT.to_le_bytes());
    let mut keys = [0; 2];
    let walked = walk_map(&file, ByteOffset(137), &mut keys).unwrap();
    assert_eq!(lookup(&file, &keys, walked.entries, Word([1, 0, 0, 0])), no(Kind::Element, byte(179)));
}

#[test]
fn empty_slices_are_input_too() {
    assert_eq!(read_count(&[], ByteOffset(0)), no(Kind::Short, byte(0)));
    assert_eq!(write_count(&mut [], ByteOffset(0), 0), no(Kind::Room, byte(0)));
    assert_eq!(scan(&[], &FACTS, true, None), no(Kind::Short, byte(0)));
    assert_eq!(walk_map(&[], ByteOffset(0), &mut []), no(Kind::Short, byte(0)));
    assert_eq!(walked(walk_map(&[1], ByteOffset(0), &mut [])), Ok((0, 1, 0)));
    assert_eq!(lookup(&[], &[], 0, Word([0; 4])), Ok(Lookup::Absent { compared: 0 }));
    assert_eq!(values(&[], &[], 0, Word([0; 4])), Ok(None));
    assert_eq!((flags(&[]), places(&[], ByteOffset(0))), (no(Kind::Short, byte(4)), 0));
    assert_eq!((key(&[], &[], 0), map_entry(&[], &[], 0)), (no(Kind::Index, Key(0)), no(Kind::Index, Key(0))));
    assert_eq!(write(&FACTS, &Parts::default(), &mut []), no(Kind::Room, Bytes(13)));
    assert_eq!(made(&Parts::default()), sample("empty"));
    let nothing = with(far(), |l| l.node_count = 0);
    assert_eq!(slots(&[], &nothing, Some(3), &mut []), Ok(Some(3)));
    assert_eq!((children(&[], &nothing), order(&[], &nothing), strict(&[], &nothing)), (Ok(()), Ok(()), Ok(())));
    assert_eq!(root(&[], &scanned(&sample("p10")), 0), no(Kind::Short, Root(0)));
}

#[test]
fn refusals_read_as_text() {
    let text = |kind, place| Refusal { kind, place }.to_string();
    assert_eq!(text(Kind::Tag, byte(17)), "refused 9 (TAG) at byte 17: no such node kind");
    assert_eq!(text(Kind::Forward, Node(4)), "refused 16 (FORWARD) at node 4: a child does not come before its parent");
    assert_eq!(text(Kind::Index, Root(9)), "refused 12 (INDEX) at root 9: no such root, node or place of a table");
    assert_eq!(text(Kind::Duplicate, Key(1)), "refused 19 (DUPLICATE) at key 1: the key was there before");
    assert_eq!(text(Kind::Parts, Part(3)), "refused 23 (PARTS) at part 3: two parts do not fit each other");
    assert_eq!(text(Kind::Room, Rows(5)), "refused 20 (ROOM) at 5 rows: lent memory has too few places");
    assert_eq!(text(Kind::Room, Bytes(26)), "refused 20 (ROOM) at 26 bytes: lent memory has too few places");
    assert_eq!(text(Kind::Format, Number(0)), "refused 21 (FORMAT) at 0: the format facts contradict each other");
    assert!(text(Kind::Unknown(99), Number(0)).starts_with("refused 99 (UNKNOWN) at 0: a number that is not known here"));
    let error: Box<dyn std::error::Error> = Box::new(Refusal { kind: Kind::NotCanonical, place: Node(1) });
    assert!(error.to_string().starts_with("refused 22 (NOT-CANONICAL) at node 1: "));
    let error = std::io::Error::from(Refusal { kind: Kind::Short, place: byte(4) });
    assert_eq!((error.kind(), error.to_string()), (std::io::ErrorKind::InvalidData, text(Kind::Short, byte(4))));
}
