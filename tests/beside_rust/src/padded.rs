//! Counts in all their forms: by themselves, and each of those that a file and a map have.
use crate::{
    bases::{DYN, EXTERNAL, header, words},
    make,
    model::{count_of_len, shortest_len},
    run::Run,
};

/// A form has 1 to 9 bytes.
const LENGTHS: std::ops::RangeInclusive<usize> = 1..=9;

/// As many things as make a count need one byte more, and their neighbours.
const LIMITS: [usize; 9] = [0, 1, 126, 127, 128, 129, 16_383, 16_384, 16_385];

/// Bytes of block data are few enough in a file for one limit more.
const BLOCK_LIMITS: [usize; 3] = [(1 << 21) - 1, 1 << 21, (1 << 21) + 1];

/// So many bytes follow what ends with a count.
const TRAILING: std::ops::RangeInclusive<usize> = 0..=9;

impl Run {
    pub fn all_forms(&mut self) {
        self.counts_in_every_form();
        self.files_in_every_form();
        self.files_at_limits();
        self.maps_in_every_form();
        self.maps_at_limits();
    }

    /// Each of the edges in each of its forms, behind 0 to 2 bytes and before 0 to 12 of three kinds, and cut.
    fn counts_in_every_form(&mut self) {
        for v in edges() {
            for len in shortest_len(v)..=9 {
                for before in 0..3 {
                    let bytes = [self.rng.bytes(before), count_of_len(v, len)].concat();
                    for after in 0..=12 {
                        for behind in [vec![0; after], vec![0xFF; after], self.rng.bytes(after)] {
                            self.read_count(&[&bytes[..], &behind].concat(), before);
                        }
                    }
                    for cut in 1..=len {
                        self.read_count(&bytes[..bytes.len() - cut], before);
                    }
                }
            }
        }
    }

    /// All forms of the four counts together, of a file with one of each thing and of one with nothing:
    /// accepted, cut, and refused after all counts were read.
    fn files_in_every_form(&mut self) {
        for lens in tuples::<4>() {
            let file = file([1, 1, 1, 1], lens);
            self.scan(&file, true, None);
            self.scan(&file, true, Some(file.len()));
            self.scan(&file, false, None);
            self.scan(&file[..file.len() - 1], true, None);
            self.scan(&refused_last(&file), true, None);
            for more in TRAILING {
                let behind = self.rng.bytes(more);
                self.scan(&[self::file([0; 4], lens), behind].concat(), true, None);
            }
        }
    }

    /// Each count in each form, where its number is at a limit.
    fn files_at_limits(&mut self) {
        for counted in 0..4 {
            let more = if counted == 3 { &BLOCK_LIMITS[..] } else { &[] };
            for &n in LIMITS.iter().chain(more) {
                for len in shortest_len(n as u64)..=9 {
                    let (mut numbers, mut lens) = ([0; 4], [1; 4]);
                    (numbers[counted], lens[counted]) = (n, len);
                    let file = file(numbers, lens);
                    self.scan(&file, true, None);
                    self.scan(&file, true, Some(n));
                    self.scan(&file[..file.len() - 1], true, None);
                }
            }
        }
    }

    /// All forms of a map's count and of its two lengths together: accepted, cut, with too few places, and
    /// with the same key twice. And the count of a map without entries.
    fn maps_in_every_form(&mut self) {
        for [count, first, second] in tuples::<3>() {
            let map = |key: u64| {
                let entries = [entry(7, 1, first), entry(key, 0, second)].concat();
                [count_of_len(2, count), entries].concat()
            };
            for more in TRAILING {
                let behind = self.rng.bytes(more);
                self.map_at(&[map(3), behind].concat(), 0);
            }
            self.map_at(&map(9), 0);
            self.map_at(&map(7), 0);
            self.map_at(&map(9)[..map(9).len() - 1], 0);
        }
        for len in LENGTHS {
            for more in TRAILING {
                let behind = self.rng.bytes(more);
                self.map_at(&[count_of_len(0, len), behind].concat(), 0);
            }
        }
    }

    /// The count and the length in each form, where the number is at a limit.
    fn maps_at_limits(&mut self) {
        for n in LIMITS {
            for len in shortest_len(n as u64)..=9 {
                let entries: Vec<u8> = (0..n as u64).flat_map(|key| entry(key, 0, 1)).collect();
                let many = [count_of_len(n as u64, len), entries].concat();
                self.walk_enough(&many, 0);
                self.walk_map(&many, 0, n.saturating_sub(1));
                self.walk_map(&many[..many.len() - 1], 0, n);
                let long = [count_of_len(1, 1), entry(5, n, len)].concat();
                self.map_at(&long, 0);
                self.map_at(&long[..long.len() - 1], 0);
            }
        }
    }

    /// Made-up inputs, whole and damaged, of the calls that tell of long counts.
    pub fn padded(&mut self, rounds: u64) {
        for round in 0..rounds {
            self.padded_count();
            let facts = self.facts;
            let most_nodes = if round.is_multiple_of(100) { 200 } else { 4 };
            let file = make::file_with(&mut self.rng, &facts, most_nodes, make::half_padded);
            let damaged = make::damaged(&mut self.rng, &file);
            for file in [&file, &damaged] {
                self.scan(file, true, None);
                let (allow, bound) = (self.rng.percent(50), self.rng.below(file.len() + 9));
                self.scan(file, allow, Some(bound));
            }
            let entries = self.rng.below(if round.is_multiple_of(100) { 300 } else { 6 });
            let at = self.rng.below(4);
            let before = self.rng.bytes(at);
            let map = make::map_with(&mut self.rng, entries, make::half_padded);
            let map = [before, map].concat();
            let damaged = make::damaged(&mut self.rng, &map);
            for map in [&map, &damaged] {
                self.walk_enough(map, at);
                let places = self.rng.below(entries + 2);
                self.walk_map(map, at, places);
            }
        }
    }

    /// A number of any size in any form that holds it, among any bytes; and a damaged copy.
    fn padded_count(&mut self) {
        let v = self.rng.number() >> self.rng.below(64);
        let (at, behind) = (self.rng.below(4), self.rng.below(12));
        let form = make::any_form(&mut self.rng, v);
        let bytes = [self.rng.bytes(at), form, self.rng.bytes(behind)].concat();
        self.read_count(&bytes, at);
        let damaged = make::damaged(&mut self.rng, &bytes);
        self.read_count(&damaged, at);
    }
}

/// 2^(7 k) for k from 0 on, its neighbours, and the largest number.
fn edges() -> impl Iterator<Item = u64> {
    (0..10)
        .flat_map(|k| [-1, 0, 1].map(|by| (1u64 << (7 * k)).wrapping_add_signed(by)))
        .chain([u64::MAX])
}

/// All choices of N lengths.
fn tuples<const N: usize>() -> impl Iterator<Item = [usize; N]> {
    (0..9usize.pow(N as u32)).map(|n| std::array::from_fn(|k| 1 + n / 9usize.pow(k as u32) % 9))
}

/// A hashless file of so many internal nodes, external nodes, roots and bytes of block data, and no map. The
/// counts have so many bytes.
fn file([internal, external, roots, block]: [usize; 4], lens: [usize; 4]) -> Vec<u8> {
    let form = |n: usize, len| count_of_len(n as u64, len);
    let mut out = header(1);
    out.extend([form(internal, lens[0]), form(external, lens[1]), form(roots, lens[2])].concat());
    out.resize(out.len() + 4 * roots, 0);
    out.extend(form(block, lens[3]));
    out.resize(out.len() + block, 0xAB);
    out.extend(words(&[vec![EXTERNAL; external], vec![DYN; internal]].concat()));
    out.resize(out.len() + 32 * external, 0);
    out
}

/// The same file of one external and one internal node with a second External: EXTERNALS is the last refusal.
fn refused_last(file: &[u8]) -> Vec<u8> {
    let mut out = file.to_vec();
    let top = out.len() - 32 - 1;
    out[top] = (EXTERNAL >> 56) as u8;
    out
}

/// An entry of a map: its key's last element, and so many values, the length in so many bytes.
fn entry(key: u64, values: usize, len: usize) -> Vec<u8> {
    [words(&[0, 0, 0, key]), count_of_len(values as u64, len), vec![0; 8 * values]].concat()
}
