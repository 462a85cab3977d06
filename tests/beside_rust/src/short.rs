//! Short inputs, all of them: counts, words, and files and maps changed at every place.
use crate::{
    bases::{FILES, MAPS},
    run::Run,
    told::Entry,
};

/// First bytes of counts of each length, kinds' words, and bytes that are none of these.
const BYTES: [u8; 12] = [0, 1, 2, 3, 4, 5, 7, 9, 0x10, 0x80, 0xFE, 0xFF];

/// So many counts of each length with each number of bytes left: 1,134,000 in all.
const COUNTS_OF_EACH: usize = 6_000;

impl Run {
    pub fn all_short(&mut self) {
        self.short_counts();
        self.long_counts();
        self.counts_among_bytes();
        self.written_counts();
        self.words();
        self.entries_written();
        self.known_differences();
        for file in FILES.iter().map(|make| make()) {
            self.file_at_its_boundaries(&file);
            self.file_under_every_bound(&file);
            self.file_changed_everywhere(&file);
        }
        for map in MAPS.iter().map(|make| make()) {
            self.map_changed_everywhere(&map);
        }
    }

    /// All strings of 0 to 2 bytes, and many of 3, behind 0 to 2 others.
    fn short_counts(&mut self) {
        for before in 0..3 {
            let mut bytes = vec![0xFF; before];
            self.read_count(&bytes, before);
            for first in 0..=255u8 {
                bytes.push(first);
                self.read_count(&bytes, before);
                for second in 0..=255u8 {
                    bytes.push(second);
                    self.read_count(&bytes, before);
                    if BYTES.contains(&first) {
                        self.third_bytes(&mut bytes, before);
                    }
                    bytes.pop();
                }
                bytes.pop();
            }
        }
    }

    fn third_bytes(&mut self, bytes: &mut Vec<u8>, at: usize) {
        for third in BYTES {
            bytes.push(third);
            self.read_count(bytes, at);
            bytes.pop();
        }
    }

    /// Every first byte, 0 to 10 bytes after it; and places at and beyond the end.
    fn long_counts(&mut self) {
        for first in 0..=255u8 {
            for fill in BYTES {
                for more in 0..=10 {
                    let mut bytes = vec![first];
                    bytes.resize(1 + more, fill);
                    self.read_count(&bytes, 0);
                    self.read_count(&bytes, more);
                    self.read_count(&bytes, more + 1);
                    self.read_count(&bytes, usize::MAX - more);
                }
            }
        }
    }

    /// Every length behind and before any bytes, with 0 to 20 left at the count's start: eight are read
    /// together where so many are left, and what stands behind the count must not count.
    fn counts_among_bytes(&mut self) {
        for len in 1..=9 {
            for left in 0..=20 {
                for _ in 0..COUNTS_OF_EACH {
                    let at = self.rng.below(10);
                    let mut bytes = self.rng.bytes(at + left);
                    if let Some(first) = bytes.get_mut(at) {
                        *first = first_byte(len, *first);
                    }
                    self.read_count(&bytes, at);
                }
            }
        }
    }

    fn written_counts(&mut self) {
        for v in near_powers() {
            self.shortest_len(v);
            for places in 0..12 {
                for at in [0, 1, 2, places, places + 1, usize::MAX] {
                    self.write_count(places, at, v);
                }
            }
        }
    }

    /// Every high byte before patterns of the seven others.
    fn words(&mut self) {
        for high in 0..=255u64 {
            for low in near_powers() {
                self.decode_entry(high << 56 | low & ((1 << 56) - 1));
            }
            for _ in 0..3000 {
                let low = self.rng.number() >> self.rng.between(8, 63);
                self.decode_entry(high << 56 | low);
            }
        }
    }

    fn entries_written(&mut self) {
        let ids: Vec<u32> = near_powers().filter_map(|v| v.try_into().ok()).collect();
        for &a in &ids {
            for entry in one_id(a) {
                self.encode_entry(entry);
            }
            for &b in &ids {
                self.encode_entry(Entry::Join { left_child_id: a, right_child_id: b });
                self.encode_entry(Entry::Split { if_branch_id: a, else_branch_id: b });
            }
        }
        for entry in [Entry::Dyn, Entry::Dyncall, Entry::External] {
            self.encode_entry(entry);
        }
        for kind in (0..12).chain(near_powers()) {
            for number in near_powers() {
                self.encode_row([kind, number, 0]);
                self.encode_row([kind, 0, number]);
                self.encode_row([kind, number, number]);
            }
        }
    }

    /// At each section's start, all strings of up to 3 of some bytes: as the file's end, over what
    /// was there, and before it; at counts also all strings of 2 bytes.
    fn file_at_its_boundaries(&mut self, file: &[u8]) {
        for at in boundaries(self, file) {
            each_string(&mut |string| {
                for changed in put_at(file, at, string) {
                    self.scan(&changed, false, None);
                    self.scan(&changed, true, None);
                    self.scan(&changed, true, Some(file.len()));
                }
            });
            for pair in 0..=u16::MAX {
                let [end, over, _] = put_at(file, at, &pair.to_le_bytes());
                self.scan(&end, true, None);
                self.scan(&over, true, None);
            }
        }
    }

    fn file_under_every_bound(&mut self, file: &[u8]) {
        for bound in 0..=400 {
            self.scan(file, false, Some(bound));
            if let Some(l) = self.scan(file, true, Some(bound)) {
                self.slots(file, &l, Some(bound), l.node_count);
            }
        }
    }

    /// Every prefix, every byte removed, every byte inserted or changed to many others.
    fn file_changed_everywhere(&mut self, file: &[u8]) {
        for at in 0..=file.len() {
            self.whole_file(&file[..at]);
            for value in 0..=255u8 {
                let [_, over, before] = put_at(file, at, &[value]);
                self.whole_file(&over);
                if BYTES.contains(&value) {
                    self.whole_file(&before);
                }
            }
        }
        for at in 0..file.len() {
            let mut removed = file.to_vec();
            removed.remove(at);
            self.whole_file(&removed);
        }
    }

    fn map_changed_everywhere(&mut self, map: &[u8]) {
        for at in 0..=map.len() {
            self.map_at(&map[..at], 0);
            self.map_at(map, at);
            for value in 0..=255u8 {
                for changed in put_at(map, at, &[value]) {
                    self.map_at(&changed, 0);
                }
            }
        }
    }
}

/// The first byte of a count of so many bytes; its other bits are those of `any`.
fn first_byte(len: u32, any: u8) -> u8 {
    if len == 9 { 0 } else { (u16::from(any) << len | 1 << (len - 1)) as u8 }
}

/// 0, and each power of two with its neighbours.
fn near_powers() -> impl Iterator<Item = u64> {
    (0..64)
        .flat_map(|bit| [-2i128, -1, 0, 1, 2].map(|by| (1i128 << bit) + by))
        .filter_map(|v| v.try_into().ok())
        .chain([u64::MAX])
}

fn one_id(id: u32) -> [Entry; 4] {
    [
        Entry::Loop { body_id: id },
        Entry::Block { ops_offset: id },
        Entry::Call { callee_id: id },
        Entry::SysCall { callee_id: id },
    ]
}

/// Each string of up to 3 of the chosen bytes.
fn each_string(give: &mut impl FnMut(&[u8])) {
    give(&[]);
    for a in BYTES {
        give(&[a]);
        for b in BYTES {
            give(&[a, b]);
            for c in BYTES {
                give(&[a, b, c]);
            }
        }
    }
}

/// The string as the file's end, over what was there, and before it.
fn put_at(file: &[u8], at: usize, string: &[u8]) -> [Vec<u8>; 3] {
    let after = file.get(at + string.len()..).unwrap_or_default();
    [
        [&file[..at], string].concat(),
        [&file[..at], string, after].concat(),
        [&file[..at], string, &file[at..]].concat(),
    ]
}

/// Where the parts of an accepted file begin.
fn boundaries(run: &mut Run, file: &[u8]) -> Vec<usize> {
    let l = run.scan(file, true, None).expect("a good file");
    let next = |at: usize| crate::model::read_count(file, at).expect("a good file").next;
    let (external, roots) = (next(8), next(next(8)));
    let length = l.roots_offset + 4 * l.roots_count;
    let mut all = vec![0, 4, 5, 8, external, roots, l.roots_offset, length, l.basic_block_offset];
    all.extend([l.node_entry_offset, l.external_digest_offset, l.advice_map_offset]);
    all.extend(l.node_hash_offset);
    all.sort();
    all.dedup();
    all
}
