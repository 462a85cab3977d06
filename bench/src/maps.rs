//! The operations over the advice map: walk and lookup.
use std::hint::black_box;

use vekalumist::{Layout, Lookup, Word, lookup, scan, values, walk_map};

use crate::{
    beside::{self, Map},
    input::{self, FACTS, Keys, Numbers, Parts},
    measure::Side,
    plain,
    table::{Row, Table},
};

struct Made {
    entries: usize,
    bytes: Vec<u8>,
    layout: Layout,
    keys: Vec<[u64; 4]>,
    /// The key table of the walk.
    table: Vec<u64>,
}

impl Made {
    fn new(entries: usize, order: Keys) -> Self {
        let parts = input::map(entries, order);
        let bytes = input::render(&parts);
        Self::of(&parts, bytes, 0)
    }

    /// Keys rise, and each count has 1 to 9 bytes.
    fn padded(entries: usize) -> Self {
        let parts = input::map(entries, Keys::Rising);
        let (bytes, long) = input::render_padded(&parts);
        Self::of(&parts, bytes, long)
    }

    /// The file of some parts, whose map has so many long counts.
    fn of(parts: &Parts, bytes: Vec<u8>, long: usize) -> Self {
        let entries = parts.lengths.len();
        let keys = parts.keys.chunks_exact(4).map(|k| k.try_into().expect("four")).collect();
        let layout = scan(&bytes, &FACTS, true, None).expect("own file");
        let mut table = vec![0; entries];
        let walked = walk_map(&bytes, layout.advice_map_offset, &mut table).expect("own file");
        assert_eq!((walked.entries, walked.end.0), (entries, bytes.len()));
        assert_eq!(walked.long_counts, long, "long counts");
        Self { entries, bytes, layout, keys, table }
    }

    fn map_bytes(&self) -> &[u8] {
        &self.bytes[self.layout.advice_map_offset.0..]
    }

    /// Both sides have the same keys in the same order, and the same values of each.
    fn check(&self) {
        let s = &self.bytes[..];
        let map = Map::walk(s, self.layout.advice_map_offset.0).expect("own file");
        assert_eq!((map.len(), map.end()), (self.entries, s.len()), "entries and end");
        let key_at = |&place: &u64| words(&s[place as usize..][..32]);
        assert!(self.table.iter().map(key_at).is_sorted(), "keys rise");
        for &key in &self.keys {
            let theirs = map.get(key).expect("own file").expect("own key");
            let part = values(s, &self.table, self.entries, Word(key))
                .expect("own file")
                .expect("own key");
            assert!(words(part).into_iter().eq(theirs.numbers()), "values of {key:?}");
        }
    }
}

fn words(s: &[u8]) -> Vec<u64> {
    s.chunks_exact(8).map(|x| u64::from_le_bytes(x.try_into().expect("8 bytes"))).collect()
}

fn walk_row(table: &mut Table, made: &Made, name: &'static str) {
    let s = &made.bytes[..];
    let at = made.layout.advice_map_offset;
    let mut keys = vec![0u64; made.entries];
    table.add(
        Row::new(name, made.entries),
        [
            Side::new(move || walk_map(black_box(s), at, black_box(&mut keys))),
            beside::walk_side(s, at.0),
            Side::new(|| plain::sum(black_box(made.map_bytes()))),
        ],
    );
}

/// The places of the keys asked for, and of their values, in the order in which they are asked for.
fn places(made: &Made, order: &[usize]) -> (Vec<usize>, Vec<usize>) {
    let found =
        |&i: &usize| match lookup(&made.bytes, &made.table, made.entries, Word(made.keys[i])) {
            Ok(Lookup::Found { values, len, .. }) => (values.0, len),
            _ => panic!("own key"),
        };
    let rows: Vec<(usize, usize)> = order.iter().map(found).collect();
    let keys = rows.iter().map(|(at, _)| at - 33).collect();
    let values = rows.iter().flat_map(|&(at, n)| (0..n).map(move |k| at + 8 * k)).collect();
    (keys, values)
}

fn lookup_row(table: &mut Table, made: &Made) {
    let s = &made.bytes[..];
    let mut order: Vec<usize> = (0..made.entries).collect();
    Numbers::new(11).shuffle(&mut order);
    let map = Map::walk(s, made.layout.advice_map_offset.0).expect("own file");
    let asked: Vec<[u64; 4]> = order.iter().map(|&i| made.keys[i]).collect();
    let (key_places, value_places) = places(made, &order);
    table.add(
        Row::new("lookup", made.entries),
        [
            Side::new(|| {
                for key in &asked {
                    black_box(lookup(s, &made.table, made.entries, Word(*key)).is_ok());
                }
            }),
            Side::new(|| {
                for key in &asked {
                    black_box(map.get(*key).is_ok());
                }
            }),
            Side::new(|| plain::gather_rows(s, &key_places) ^ plain::gather(s, &value_places)),
        ],
    );
}

/// All rows of maps of so many entries.
pub fn rows(table: &mut Table, entries: usize) {
    for (name, order) in [
        ("walk, rising", Keys::Rising),
        ("walk, falling", Keys::Falling),
        ("walk, shuffled", Keys::Shuffled),
    ] {
        let made = Made::new(entries, order);
        made.check();
        walk_row(table, &made, name);
        if order == Keys::Rising {
            lookup_row(table, &made);
        }
    }
    let made = Made::padded(entries);
    made.check();
    walk_row(table, &made, "walk, padded");
}
