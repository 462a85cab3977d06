//! Made-up inputs of every length around each boundary.
use crate::{make, run::Run};

/// So many rounds go by under one record of format facts.
const ROUNDS_PER_FACTS: u64 = 50;

/// For so many rounds there is one large file and map.
const ROUNDS_PER_LARGE: u64 = 2_000;

impl Run {
    pub fn made_up(&mut self, rounds: u64) {
        for round in 0..rounds {
            if round.is_multiple_of(ROUNDS_PER_FACTS) {
                let facts = match round / ROUNDS_PER_FACTS % 3 {
                    0 => published::PLACEHOLDER,
                    _ => make::facts(&mut self.rng),
                };
                self.set_facts(facts);
            }
            self.one_round(round);
        }
        self.set_facts(published::PLACEHOLDER);
        for _ in 0..rounds / ROUNDS_PER_LARGE {
            self.large();
        }
    }

    /// A file of some thousand nodes and a map of some thousand entries.
    fn large(&mut self) {
        let facts = self.facts;
        let file = make::file(&mut self.rng, &facts, 5000);
        self.whole_file(&file);
        let entries = self.rng.below(5000);
        let map = make::map(&mut self.rng, entries);
        self.map_at(&map, 0);
    }

    fn one_round(&mut self, round: u64) {
        let (facts, most_nodes) = (self.facts, if round.is_multiple_of(100) { 200 } else { 5 });
        let file = make::file(&mut self.rng, &facts, most_nodes);
        self.whole_file(&file);
        let damaged = make::damaged(&mut self.rng, &file);
        self.whole_file(&damaged);
        let noise = make::noise(&mut self.rng, &facts);
        self.whole_file(&noise);
        self.made_up_map(round);
        self.made_up_keys(round);
        self.made_up_numbers();
    }

    /// A map behind a few bytes, whole and damaged, at its place and at others.
    fn made_up_map(&mut self, round: u64) {
        let entries = if round.is_multiple_of(100) { 300 } else { 6 };
        let entries = self.rng.below(entries);
        let before = self.rng.below(4);
        let mut bytes = self.rng.bytes(before);
        bytes.extend(make::map(&mut self.rng, entries));
        self.map_at(&bytes, before);
        let damaged = make::damaged(&mut self.rng, &bytes);
        self.map_at(&damaged, before);
        let elsewhere = if self.rng.percent(70) { self.rng.below(80) } else { self.rng.wide() };
        self.map_at(&bytes, elsewhere);
    }

    /// The writer on keys in any order, with and without doubles.
    fn made_up_keys(&mut self, round: u64) {
        let facts = self.facts;
        let entries = self.rng.below(if round.is_multiple_of(100) { 300 } else { 9 });
        let parts = make::parts_of_keys(&mut self.rng, &facts, entries);
        self.write(&facts, &parts, 64 * entries + 30);
    }

    fn made_up_numbers(&mut self) {
        let v = self.rng.number() >> self.rng.below(64);
        self.shortest_len(v);
        let (places, at) = (self.rng.below(14), self.rng.below(6));
        self.write_count(places, at, v);
        let bytes = make::count(&mut self.rng, v);
        let end = self.rng.between(0, bytes.len());
        self.read_count(&bytes[..end], 0);
        self.read_count(&bytes, 0);
        for _ in 0..4 {
            let word = self.rng.number() >> self.rng.below(20);
            self.decode_entry(word);
        }
        let entry = make::entry(&mut self.rng);
        self.encode_entry(entry);
        let row = make::row(&mut self.rng);
        self.encode_row(row);
        let start = self.rng.below(9);
        let start = self.rng.bytes(start);
        self.flags(&start);
    }
}
