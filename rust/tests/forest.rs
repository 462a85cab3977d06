//! A file and its layout held together: what the readers by index say, by node ids, in turn and by table.
#![cfg(feature = "std")] // the writer that sorts makes the files

mod common;
use common::*;
use vekalumist::*;

const HASHLESS: ScanOptions = ScanOptions::new().allow_hashless();

fn forest(file: &[u8]) -> Forest<'_> {
    Forest::scan(file, &FACTS, HASHLESS).unwrap()
}

#[test]
fn options_are_the_scan_s() {
    let file = sample("p10");
    let of = |options| Forest::scan(&file, &FACTS, options).map(|forest| *forest.layout());
    assert_eq!(of(HASHLESS), Ok(scanned(&file)));
    assert_eq!(of(ScanOptions::new()), no(Kind::Hashless, byte(4)));
    assert_eq!(of(ScanOptions::default()), of(ScanOptions::new()));
    assert_eq!(of(HASHLESS.bound(57)), Ok(scanned(&file)));
    assert_eq!(of(HASHLESS.bound(56)), no(Kind::Budget, byte(15)));
    assert_eq!(Forest::scan(&file, &Facts { hashless: 3, ..FACTS }, HASHLESS), no(Kind::Format, byte(0)));
}

#[test]
fn roots_and_nodes_come_in_turn() {
    let file = made(&Parts {
        flags: 2,
        roots: &[NodeId(2), NodeId(3), NodeId(0)],
        words: &[EXTERNAL, BLOCK_0 | 7, JOIN_0_1],
        external: &digests(&[5]),
        ..Parts::default()
    });
    let forest = forest(&file);
    let roots: Vec<_> = forest.roots().collect();
    assert_eq!(roots, [Ok(NodeId(2)), no(Kind::RootId, Root(1)), Ok(NodeId(0))]);
    assert_eq!((forest.root(0), forest.root(3)), (Ok(NodeId(2)), no(Kind::Index, Root(3))));
    let entries = [Entry::External, Entry::Block { ops_offset: 7 }, Entry::Join { left_child_id: NodeId(0), right_child_id: NodeId(1) }];
    let nodes: Vec<_> = forest.nodes().map(Result::unwrap).collect();
    assert_eq!(nodes, [(NodeId(0), entries[0]), (NodeId(1), entries[1]), (NodeId(2), entries[2])]);
    assert!(forest.nodes().rev().map(Result::unwrap).eq(nodes.iter().rev().copied()));
    assert_eq!((forest.nodes().len(), forest.nodes().nth(2), forest.nodes().nth(3)), (3, Some(Ok(nodes[2])), None));
    assert_eq!((forest.nodes().count(), forest.nodes().last(), forest.nodes().nth_back(1)), (3, Some(Ok(nodes[2])), Some(Ok(nodes[1]))));
    assert_eq!((forest.entry(NodeId(1)), forest.entry(NodeId(3))), (Ok(entries[1]), no(Kind::Index, Node(3))));
    assert!(forest.children(NodeId(2)).unwrap().eq([NodeId(0), NodeId(1)]));
    assert_eq!(forest.children(NodeId(9)).err(), forest.entry(NodeId(9)).err());
    assert_eq!(forest.check_roots(), no(Kind::RootId, Root(1)));
    assert_eq!((forest.flags(), forest.bytes()), (Ok(2), &file[..]));
}

#[test]
fn entries_say_their_children_and_their_names() {
    let (a, b) = (NodeId(4), NodeId(9));
    let cases: [(Entry, &[NodeId], &str); 9] = [
        (Entry::Join { left_child_id: a, right_child_id: b }, &[a, b], "Join 4 9"),
        (Entry::Split { if_branch_id: b, else_branch_id: a }, &[b, a], "Split 9 4"),
        (Entry::Loop { body_id: b }, &[b], "Loop 9"),
        (Entry::Block { ops_offset: 6 }, &[], "Block 6"),
        (Entry::Call { callee_id: a }, &[a], "Call 4"),
        (Entry::SysCall { callee_id: a }, &[a], "SysCall 4"),
        (Entry::Dyn, &[], "Dyn"),
        (Entry::Dyncall, &[], "Dyncall"),
        (Entry::External, &[], "External"),
    ];
    for (entry, children, text) in cases {
        assert!(entry.children().eq(children.iter().copied()), "{entry:?}");
        assert!(entry.children().rev().eq(children.iter().rev().copied()), "{entry:?}");
        assert_eq!(entry.children().len(), children.len());
        assert_eq!(entry.to_string(), text);
        assert_eq!(entry.name(), text.split(' ').next().unwrap());
        assert_eq!(entry.is_external(), entry == Entry::External);
    }
}

#[test]
fn digests_by_counting_and_by_table_agree() {
    let file = made(&Parts {
        words: &[BLOCK_0, EXTERNAL, BLOCK_0, EXTERNAL, DYN],
        external: &digests(&[10, 11]),
        hashes: &digests(&[20, 21, NOT_AN_ELEMENT]),
        ..Parts::default()
    });
    let forest = forest(&file);
    let mut table = [77; 7];
    let slots = forest.slots(&mut table).unwrap();
    let first = |id| slots.digest(NodeId(id)).map(|word| word.0[0]);
    assert_eq!([first(0), first(1), first(2), first(3)], [Ok(20), Ok(10), Ok(21), Ok(11)]);
    for id in (0..7).map(NodeId) {
        assert_eq!(slots.digest(id), forest.digest(id), "node {id}");
    }
    assert_eq!((forest.digest(NodeId(4)), forest.digest(NodeId(5))), (no(Kind::Element, Node(4)), no(Kind::Index, Node(5))));
    let rows: Vec<_> = (0..7).map(|id| slots.slot(NodeId(id))).collect();
    assert_eq!(rows, [Some(Slot(0)), Some(Slot(0)), Some(Slot(1)), Some(Slot(1)), Some(Slot(2)), None, None]); // none past the nodes
    assert_eq!(table[5..], [77, 77]);
    let mut short = [77; 4];
    assert_eq!(forest.slots(&mut short).err(), no::<()>(Kind::Room, Number(0)).err());
    assert_eq!(short, [77; 4]);
}

#[test]
fn a_map_is_held_with_its_table() {
    let file = sample("advice");
    let forest = forest(&file);
    assert_eq!(forest.key_places(), 2);
    let values = {
        let mut keys = [9; 4];
        let map = forest.advice(&mut keys).unwrap();
        assert_eq!((map.len(), map.is_empty(), map.end(), map.trailing()), (2, false, ByteOffset(228), 0));
        let (first, second) = (Word([0, 2, 0, 0]), Word([1, 0, 0, 0]));
        assert_eq!((map.key(0), map.key(1), map.key(2)), (Ok(first), Ok(second), no(Kind::Index, Key(2))));
        assert_eq!(map.entry(2).err(), map.key(2).err());
        let entries: Vec<_> = map.iter().map(Result::unwrap).collect();
        assert_eq!(entries.iter().map(|entry| (entry.key, entry.key_offset.0)).collect::<Vec<_>>(), [(first, 195), (second, 138)]);
        assert!(map.iter().rev().map(Result::unwrap).eq(entries.iter().rev().copied()));
        assert_eq!((map.iter().len(), map.iter().nth(1)), (2, Some(Ok(entries[1]))));
        assert_eq!((map.get(first), map.get(second)), (Ok(Some(entries[0].values)), Ok(Some(entries[1].values))));
        assert_eq!((map.get([3, 0, 0, 0]), map.lookup([3, 0, 0, 0])), (Ok(None), Ok(Lookup::Absent { compared: 1 })));
        assert_eq!(map.lookup(second), Ok(Lookup::Found { values: ByteOffset(171), len: 3, compared: 1 }));
        map.get(second).unwrap().unwrap()
    }; // the values outlive the table
    assert_eq!((values.offset(), values.len(), values.is_empty()), (ByteOffset(171), 3, false));
    assert!(values.iter().eq([7, 8, 9]) && values.iter().rev().eq([9, 8, 7]) && values.into_iter().eq([7, 8, 9]));
    assert_eq!((values.get(2), values.get(3)), (Some(9), None));
    assert_eq!(values.as_bytes(), &file[171..195]);
    assert_eq!(format!("{values:?}"), "ByteOffset(171) [7, 8, 9]");
}

#[test]
fn a_refused_map_zeroes_its_table() {
    let file = sample("twice");
    let mut keys = [9; 3];
    assert_eq!(forest(&file).advice(&mut keys).err(), no::<()>(Kind::Duplicate, byte(107)).err());
    assert_eq!(keys, [0; 3]);
    // a value that is no element: the walk and the entries let it pass, and what gets it refuses
    let mut bad = sample("advice");
    bad[179..187].copy_from_slice(&NOT_AN_ELEMENT.to_le_bytes());
    let map = forest(&bad).advice(&mut keys).unwrap();
    assert!(map.entry(1).unwrap().values.iter().eq([7, NOT_AN_ELEMENT, 9]));
    assert_eq!(map.get([1, 0, 0, 0]), no(Kind::Element, byte(179)));
    assert_eq!(map.lookup([1, 0, 0, 0]), no(Kind::Element, byte(179)));
}

#[test]
fn the_checks_name_the_node() {
    let of = |name: &str| {
        let file = sample(name);
        let forest = forest(&file);
        [forest.check_roots(), forest.check_children(), forest.check_order(), forest.check_strict()]
    };
    let held = Ok(());
    assert_eq!(of("p10"), [held; 4]);
    assert_eq!(of("root-beyond"), [no(Kind::RootId, Root(1)), held, held, held]);
    assert_eq!(of("forward"), [held, no(Kind::Forward, Node(2)), held, held]);
    assert_eq!(of("disorder"), [held, held, no(Kind::Order, Node(3)), held]);
    assert_eq!(of("not-canonical"), [held, held, held, no(Kind::NotCanonical, Node(3))]);
}

#[test]
fn a_kept_layout_serves_as_well_as_a_new_one_and_any_gets_an_answer() {
    let file = sample("p10");
    let layout = scanned(&file);
    assert_eq!(Forest::with_layout(&file, layout), forest(&file));
    let most = NodeId(u32::MAX);
    let far = Forest::with_layout(&file, far());
    assert_eq!((far.root(usize::MAX), far.root(0)), (no(Kind::Index, Root(usize::MAX)), no(Kind::Overflow, Root(0))));
    assert_eq!((far.entry(most), far.digest(most)), (no(Kind::Overflow, Node(u32::MAX as usize)), no(Kind::Overflow, Node(0))));
    assert_eq!((far.nodes().len(), far.nodes().next_back()), (1 << 32, Some(no(Kind::Overflow, Node(u32::MAX as usize)))));
    assert_eq!((far.roots().count(), far.roots().last()), (usize::MAX, Some(no(Kind::Overflow, Root(usize::MAX - 1))))); // at once
    assert_eq!((far.roots().next(), far.check_roots()), (Some(no(Kind::Overflow, Root(0))), no(Kind::Overflow, Root(0))));
    assert_eq!(far.slots(&mut []).err(), no::<()>(Kind::TooMany, Number(0)).err());
    assert_eq!((far.key_places(), far.advice(&mut []).err()), (0, no::<()>(Kind::Short, byte(usize::MAX)).err()));
    assert_eq!(far.check_children(), no(Kind::Overflow, Node(0)));
    // a layout's own counts are held against
    let two = Forest::with_layout(&file, with(layout, |layout| layout.node_count = 2));
    assert_eq!((two.nodes().len(), two.root(0)), (2, no(Kind::RootId, Root(0))));
}

#[test]
fn large_files_and_tables_are_not_shown() {
    let file = made(&Parts { blocks: &[7; 100_000], ..Parts::default() });
    let forest = forest(&file);
    let (mut table, mut keys) = (vec![0; 100_000], vec![0; 100_000]);
    let texts = [format!("{forest:?}"), format!("{:?}", forest.slots(&mut table)), format!("{:?}", forest.advice(&mut keys))];
    assert!(texts.iter().all(|text| text.len() < 1000), "{texts:?}");
}

#[test]
fn indexes_are_ids_where_they_have_32_bits() {
    assert_eq!(NodeId::try_from(u32::MAX as usize), Ok(NodeId(u32::MAX)));
    assert!(NodeId::try_from(1_usize << 32).is_err());
    assert_eq!((usize::from(ByteOffset(7)), usize::from(Slot(8)), u32::from(NodeId(9)), NodeId::from(9)), (7, 8, 9, NodeId(9)));
}

#[test]
fn rows_have_their_places() {
    let file = sample("p10");
    let layout = scanned(&file);
    assert_eq!((layout.root_offset(0), layout.root_offset(2)), (Some(ByteOffset(11)), Some(ByteOffset(19))));
    assert_eq!((layout.entry_offset(NodeId(0)), layout.entry_offset(NodeId(2))), (Some(ByteOffset(17)), Some(ByteOffset(33))));
    assert_eq!(
        (layout.root_offset(usize::MAX), far().entry_offset(NodeId(1)), far().root_offset(0)),
        (None, None, Some(ByteOffset(usize::MAX)))
    );
}

#[test]
fn a_claim_changes_no_answer() {
    let keys = [5, 0, 0, 0, 3, 0, 0, 0, 4, 0, 0, 0];
    let twice = [5, 0, 0, 0, 3, 0, 0, 0, 5, 0, 0, 0];
    let claims: [&[u64]; 7] = [&[], &[1, 2, 0], &[0, 1, 2], &[1, 1, 0], &[1, 2], &[1, 2, 3], &[u64::MAX; 3]];
    let parts = Parts { keys: &keys, lengths: &[0; 3], ..Parts::default() };
    let mut want = [0; 120];
    let size = write(&FACTS, &parts, &mut want).unwrap();
    for claim in claims {
        let mut out = [0; 120];
        assert_eq!((write_with_order(&FACTS, &parts, claim, &mut out), out), (Ok(size), want), "{claim:?}");
        let refused = write_with_order(&FACTS, &Parts { keys: &twice, ..parts }, claim, &mut out);
        assert_eq!((refused, out), (no(Kind::Duplicate, Key(2)), want), "{claim:?}");
    }
}
