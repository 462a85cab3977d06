//! One call of each entry point, and the answer it is held against.
use published::answers::{self, Refused, Walked as PublishedMap};

use crate::{
    forms::{Form, Place},
    input::Input,
    make, model, ours,
    points::Point,
    run::Run,
    told::*,
};

impl Run {
    // COUNTS: the shim's vint64 is no oracle, so these are held against the model's.

    pub fn read_count(&mut self, bytes: &[u8], at: usize) {
        let input = Input { bytes, index: Some(at), ..Input::default() };
        let document = model::read_count(bytes, at);
        if let Ok(Count { value, len, .. }) = document {
            self.forms.note(&Form { place: Place::Alone, value, len, left: bytes.len() - at });
        }
        self.beside_model(Point::ReadCount, &input, ours::read_count(bytes, at), document);
    }

    pub fn shortest_len(&mut self, v: u64) {
        let input = Input { number: Some(v), ..Input::default() };
        let document = Ok(model::shortest_len(v));
        self.beside_model(Point::ShortestLen, &input, ours::shortest_len(v), document);
    }

    pub fn write_count(&mut self, places: usize, at: usize, v: u64) {
        let out: Vec<u8> = (0..places).map(|i| 0xC0 | i as u8).collect();
        let document = model::write_count(&out, at, v);
        let ours = ours::write_count(&out, at, v);
        let input = Input { bytes: &out, index: Some(at), number: Some(v), ..Input::default() };
        self.beside_model(Point::WriteCount, &input, ours, document);
    }

    // THE CODEC

    pub fn decode_entry(&mut self, word: u64) {
        let input = Input { number: Some(word), ..Input::default() };
        let rust = answers::decode(&word.to_le_bytes());
        let document = || model::decode_entry(word, 0);
        self.beside_rust(Point::DecodeEntry, &input, ours::decode_entry(word), rust, document);
    }

    pub fn encode_entry(&mut self, entry: Entry) {
        let input = Input { entry: Some(entry), ..Input::default() };
        let rust = answers::encode(entry).ok_or_else(panics);
        let document = || model::encode_entry(entry);
        let ours = ours::encode_entry(entry, row_of(entry));
        self.beside_rust(Point::EncodeEntry, &input, ours, rust, document);
    }

    /// Any kind and numbers, as C may hand them over.
    pub fn encode_row(&mut self, row: [u64; 3]) {
        let input = Input { row: Some(row), ..Input::default() };
        let document = model::encode_row(row);
        self.beside_model(Point::EncodeRow, &input, ours::encode_row(row), document);
    }

    // THE SCAN

    pub fn flags(&mut self, bytes: &[u8]) {
        let input = Input { bytes, ..Input::default() };
        self.beside_model(Point::Flags, &input, ours::flags(bytes), model::flags(bytes));
    }

    /// The layout, if the proved code accepts. The number of long counts is held against the model's too.
    pub fn scan(&mut self, bytes: &[u8], allow: bool, bound: Option<usize>) -> Option<Layout> {
        let facts = self.facts;
        let input = Input { facts: Some(&facts), bytes, allow, bound, ..Input::default() };
        let ours = ours::scan(bytes, &facts, allow, bound);
        let document = || model::scan(bytes, &facts, allow, bound);
        let rust = answers::scan(bytes, allow, bound).map(|file| {
            let forms = forms_of_file(bytes, &file);
            if ours.is_ok() {
                self.forms.note_file(&forms);
            }
            Scanned { layout: file.layout, long: long(&forms) }
        });
        self.beside_rust(Point::Scan, &input, ours, rust, document);
        if let Ok(Scanned { long, .. }) = ours {
            let document = document().map(|scanned| scanned.long);
            self.beside_model(Point::ScanLong, &input, Ok(long), document);
        }
        ours.ok().map(|scanned| scanned.layout)
    }

    // BY INDEX

    pub fn root(&mut self, bytes: &[u8], l: &Layout, index: usize) {
        let input = Input { bytes, layout: Some(l), index: Some(index), ..Input::default() };
        let rust = answers::root(bytes, l, index);
        let document = || model::root(bytes, l, index);
        self.beside_rust(Point::Root, &input, ours::root(bytes, l, index), rust, document);
    }

    pub fn entry(&mut self, bytes: &[u8], l: &Layout, index: usize) {
        let input = Input { bytes, layout: Some(l), index: Some(index), ..Input::default() };
        let rust = answers::entry(bytes, l, index);
        let document = || model::entry(bytes, l, index);
        self.beside_rust(Point::Entry, &input, ours::entry(bytes, l, index), rust, document);
    }

    pub fn digest(&mut self, bytes: &[u8], l: &Layout, index: usize) {
        let input = Input { bytes, layout: Some(l), index: Some(index), ..Input::default() };
        let rust = answers::digest(bytes, l, index);
        let document = || model::digest(bytes, l, index);
        self.beside_rust(Point::Digest, &input, ours::digest(bytes, l, index), rust, document);
    }

    pub fn digest_constructed(&mut self, bytes: &[u8], l: &Layout, index: usize) {
        let input = Input { bytes, layout: Some(l), index: Some(index), ..Input::default() };
        let rust = answers::digest_constructed(bytes, l, index);
        let document = || model::digest(bytes, l, index);
        let ours = ours::digest(bytes, l, index);
        self.beside_rust(Point::DigestConstructed, &input, ours, rust, document);
    }

    pub fn digest_with_table(&mut self, bytes: &[u8], l: &Layout, index: usize, table: &[u32]) {
        let slots = Some(table);
        let input = Input { bytes, layout: Some(l), index: Some(index), slots, ..Input::default() };
        let rust = answers::digest_over(bytes, l, table.to_vec(), index);
        let document = || model::digest_with_table(bytes, l, index, table);
        let ours = ours::digest_with_table(bytes, l, index, table);
        self.beside_rust(Point::DigestWithTable, &input, ours, rust, document);
    }

    /// The Rust makes its table itself; so it is asked only where ROOM is not the answer.
    pub fn slots(&mut self, bytes: &[u8], l: &Layout, bound: Option<usize>, places: usize) {
        let lent = Some(places);
        let input = Input { bytes, layout: Some(l), bound, places: lent, ..Input::default() };
        let document = || model::slots(bytes, l, bound, places);
        let ours = ours::slots(bytes, l, bound, places);
        if document().is_err_and(|r| r.number == ROOM) {
            self.beside_model(Point::Slots, &input, ours, document());
        } else {
            let rust = answers::slots(bytes, l, bound).map(|(table, left)| Slots { table, left });
            self.beside_rust(Point::Slots, &input, ours, rust, document);
        }
    }

    // CHECKS OVER THE NODES

    pub fn children(&mut self, bytes: &[u8], l: &Layout) {
        let input = Input { bytes, layout: Some(l), ..Input::default() };
        let rust = answers::children(bytes, l);
        let document = || model::children(bytes, l);
        self.beside_rust(Point::Children, &input, ours::children(bytes, l), rust, document);
    }

    pub fn children_constructed(&mut self, bytes: &[u8], l: &Layout) {
        let input = Input { bytes, layout: Some(l), ..Input::default() };
        let rust = answers::children_constructed(bytes, l);
        let document = || model::children(bytes, l);
        let ours = ours::children(bytes, l);
        self.beside_rust(Point::ChildrenConstructed, &input, ours, rust, document);
    }

    pub fn order(&mut self, bytes: &[u8], l: &Layout) {
        let input = Input { bytes, layout: Some(l), ..Input::default() };
        let rust = answers::order(bytes, l);
        let document = || model::order(bytes, l);
        self.beside_rust(Point::Order, &input, ours::order(bytes, l), rust, document);
    }

    pub fn strict(&mut self, bytes: &[u8], l: &Layout) {
        let input = Input { bytes, layout: Some(l), ..Input::default() };
        let document = || model::strict(bytes, l);
        let ours = ours::strict(bytes, l);
        self.beside_rust(Point::Strict, &input, ours, published_strict(bytes, l), document);
    }

    // THE MAP

    /// How many places are enough, as the proved code says.
    pub fn places(&mut self, bytes: &[u8], at: usize) -> usize {
        let input = Input { bytes, index: Some(at), ..Input::default() };
        let ours = ours::places(bytes, at);
        self.beside_model(Point::Places, &input, ours, Ok(model::places(bytes, at)));
        ours.unwrap_or(0)
    }

    /// A walk with the places that are enough: the Rust, which has no ROOM, is asked.
    pub fn walk_enough(&mut self, bytes: &[u8], at: usize) -> Option<Walked> {
        let places = self.places(bytes, at);
        let (index, lent) = (Some(at), Some(places));
        let input = Input { bytes, index, places: lent, ..Input::default() };
        let ours = ours::walk_map(bytes, at, places);
        let walked = ours.clone().ok();
        let rust = self.published_walk(bytes, at);
        let document = model::walk_map(bytes, at, places);
        self.beside_rust(Point::Walk, &input, ours, rust, || document.clone());
        self.walk_long(&input, walked.as_ref(), &document);
        walked
    }

    /// With any number of places. Where ROOM is not the answer, the Rust is asked.
    pub fn walk_map(&mut self, bytes: &[u8], at: usize, places: usize) {
        let (index, lent) = (Some(at), Some(places));
        let input = Input { bytes, index, places: lent, ..Input::default() };
        let ours = ours::walk_map(bytes, at, places);
        let document = model::walk_map(bytes, at, places);
        self.walk_long(&input, ours.as_ref().ok(), &document);
        if document.as_ref().is_err_and(|r| r.number == ROOM) {
            self.beside_model(Point::Walk, &input, ours, document);
        } else {
            let rust = self.published_walk(bytes, at);
            self.beside_rust(Point::Walk, &input, ours, rust, || document.clone());
        }
    }

    /// The number of long counts of an accepted map, held against the model's.
    fn walk_long(&mut self, input: &Input, ours: Option<&Walked>, document: &Told<Walked>) {
        if let Some(Walked { long, .. }) = ours {
            let document = document.as_ref().map(|walked| walked.long).map_err(|r| *r);
            self.beside_model(Point::WalkLong, input, Ok(*long), document);
        }
    }

    fn published_walk(&mut self, bytes: &[u8], at: usize) -> Result<Walked, Refused> {
        let (rows, end) = answers::walk(bytes, at)?;
        let forms = forms_of_map(bytes, at, &rows, end);
        forms.iter().for_each(|form| self.forms.note(form));
        let keys = rows.iter().map(|r| r.key_at as u64).collect();
        Ok(Walked { keys, end, trailing: bytes.len() - end, long: long(&forms) })
    }

    /// The key and the entry at a place of any table.
    pub fn at_place(&mut self, bytes: &[u8], keys: &[u64], index: usize) {
        let (lent, asked) = (Some(keys), Some(index));
        let input = Input { bytes, keys: lent, index: asked, ..Input::default() };
        let document = model::key(bytes, keys, index);
        self.beside_model(Point::Key, &input, ours::key(bytes, keys, index), document);
        let document = model::map_entry(bytes, keys, index);
        self.beside_model(Point::MapEntry, &input, ours::map_entry(bytes, keys, index), document);
    }

    /// Those of a table that the walk filled from the same bytes, and the wrapper's map: they are the
    /// published map's.
    fn at_place_walked(&mut self, bytes: &[u8], map: &MapOfRust, keys: &[u64], index: usize) {
        let (lent, asked) = (Some(keys), Some(index));
        let input = Input { bytes, keys: lent, index: asked, ..Input::default() };
        let Some(row) = map.rows.get(index) else {
            return self.at_place(bytes, keys, index);
        };
        let document = || model::key(bytes, keys, index);
        let ours = ours::key(bytes, keys, index);
        self.beside_rust(Point::Key, &input, ours, Ok(row.key), document);
        let document = || model::map_entry(bytes, keys, index);
        let ours = ours::map_entry(bytes, keys, index);
        self.beside_rust(Point::MapEntry, &input, ours, Ok(entry_of_row(row)), document);
    }

    /// Over a table that the walk filled from the same bytes.
    pub fn lookup_walked(&mut self, bytes: &[u8], map: &MapOfRust, keys: &[u64], key: [u64; 4]) {
        let (keys_lent, key_asked) = (Some(keys), Some(key));
        let input = Input { bytes, keys: keys_lent, key: key_asked, ..Input::default() };
        let document = || model::lookup(bytes, keys, keys.len(), key);
        let ours = ours::lookup(bytes, keys, keys.len(), key);
        let rust = map.looked_up(key, compared_by_halving(bytes, keys, key));
        self.beside_rust(Point::Lookup, &input, ours, rust, document);
        self.values_walked(&input, map, keys, key);
    }

    fn values_walked(&mut self, input: &Input, map: &MapOfRust, keys: &[u64], key: [u64; 4]) {
        let ours = ours::values(input.bytes, keys, keys.len(), key);
        let document = || model::values(input.bytes, keys, keys.len(), key);
        self.beside_rust(Point::Values, input, ours, map.part(key), document);
    }

    /// The wrapper's map, which holds file and table together, on the same questions.
    pub fn held_map(&mut self, bytes: &[u8], at: usize, map: &MapOfRust, asked: &[[u64; 4]]) {
        let keys: Vec<u64> = map.rows.iter().map(|r| r.key_at as u64).collect();
        let mut places = vec![0; keys.len() + 1];
        let held = ours::HeldMap::walk(bytes, at, &mut places);
        for &key in asked {
            let input = Input { bytes, index: Some(at), key: Some(key), ..Input::default() };
            let document = || model::lookup(bytes, &keys, keys.len(), key);
            let rust = map.looked_up(key, compared_by_halving(bytes, &keys, key));
            let looked = held.as_ref().map_err(|r| *r).and_then(|h| h.lookup(key));
            self.beside_rust(Point::HeldMap, &input, looked, rust, document);
            let part = held.as_ref().map_err(|r| *r).and_then(|h| h.values(key));
            let document = || model::values(bytes, &keys, keys.len(), key);
            self.beside_rust(Point::HeldValues, &input, part, map.part(key), document);
        }
        let input = Input { bytes, index: Some(at), ..Input::default() };
        let whole = held.as_ref().map_err(|r| *r).map(|h| h.whole());
        let forms = forms_of_map(bytes, at, &map.rows, map.end);
        let rust = Ok([map.rows.len(), map.end, bytes.len() - map.end, long(&forms)]);
        self.beside_rust(Point::HeldWhole, &input, whole, rust, || {
            let walked = model::walk_map(bytes, at, keys.len())?;
            Ok([walked.keys.len(), walked.end, walked.trailing, walked.long])
        });
        for index in (0..=keys.len().min(3)).chain([self.rng.below(keys.len() + 1)]) {
            self.at_place_walked(bytes, map, &keys, index);
            let input = Input { bytes, index: Some(index), ..Input::default() };
            let document = || model::map_entry(bytes, &keys, index);
            let entry = held.as_ref().map_err(|r| *r).and_then(|h| h.entry(index));
            match map.rows.get(index) {
                Some(row) => {
                    let rust = Ok(entry_of_row(row));
                    self.beside_rust(Point::HeldEntry, &input, entry, rust, document);
                }
                None => self.beside_model(Point::HeldEntry, &input, entry, document()),
            }
        }
    }

    /// Over any table and any n.
    pub fn lookup_foreign(&mut self, bytes: &[u8], keys: &[u64], n: usize, key: [u64; 4]) {
        let (keys_lent, key_asked) = (Some(keys), Some(key));
        let number = Some(n as u64);
        let input = Input { bytes, keys: keys_lent, key: key_asked, number, ..Input::default() };
        let document = model::lookup(bytes, keys, n, key);
        self.beside_model(Point::Lookup, &input, ours::lookup(bytes, keys, n, key), document);
        let document = model::values(bytes, keys, n, key);
        self.beside_model(Point::Values, &input, ours::values(bytes, keys, n, key), document);
    }

    // THE WRITER

    /// Any parts, held against document 01's file or refusal: whatever order of the keys is claimed.
    pub fn write(&mut self, facts: &Facts, parts: &Parts, places: usize) -> Option<Vec<u8>> {
        let claims = make::claims(&mut self.rng, &parts.keys);
        let (lent, room) = (Some(parts), Some(places));
        let facts_given = Some(facts);
        let input = Input {
            facts: facts_given,
            parts: lent,
            places: room,
            claims: &claims,
            ..Input::default()
        };
        let ours = ours::write(facts, parts, &claims, places);
        let file = ours.clone().ok();
        self.beside_model(Point::Write, &input, ours, model::write(facts, parts, places));
        file
    }

    /// What the published scan and walk show of a written file are the parts it was written from.
    pub fn written_shows(&mut self, file: &[u8], parts: &Parts) {
        let facts = self.facts;
        let input = Input { facts: Some(&facts), bytes: file, ..Input::default() };
        let canonical = |&word: &u64| model::encode_entry(model::decode_entry(word, 0)?);
        let words = parts.words.iter().map(canonical).collect::<Told<_>>().expect("accepted words");
        let lent = Parts { words, ..parts.clone() };
        let rust = published_parts(file).and_then(|(shown, end)| match end == file.len() {
            true => Ok(shown),
            false => Err(Refused { text: "the map does not end the file".into(), ..panics() }),
        });
        self.beside_rust(Point::Write, &input, Ok(lent.clone()), rust, || Ok(lent.clone()));
    }
}

fn row_of(entry: Entry) -> [u64; 3] {
    let (kind, a, b) = match entry {
        Entry::Join { left_child_id, right_child_id } => (0, left_child_id, right_child_id),
        Entry::Split { if_branch_id, else_branch_id } => (1, if_branch_id, else_branch_id),
        Entry::Loop { body_id } => (2, body_id, 0),
        Entry::Block { ops_offset } => (3, ops_offset, 0),
        Entry::Call { callee_id } => (4, callee_id, 0),
        Entry::SysCall { callee_id } => (5, callee_id, 0),
        Entry::Dyn => (6, 0, 0),
        Entry::Dyncall => (7, 0, 0),
        Entry::External => (8, 0, 0),
    };
    [kind, a.into(), b.into()]
}

fn entry_of_row(row: &answers::Row) -> MapEntry {
    MapEntry { key: row.key, len: row.len, values: row.values_at }
}

fn panics() -> Refused {
    Refused { number: None, place: None, text: "panics".into(), building_table: false }
}

/// The strict check of document 01 over the published reads and writes of entries; the loop is ours.
fn published_strict(bytes: &[u8], l: &Layout) -> Result<(), Refused> {
    for node in 0..l.node_count {
        let entry = answers::entry(bytes, l, node)?;
        let at = l.node_entry_offset + 8 * node;
        if answers::encode(entry).map(u64::to_le_bytes).as_ref().map(|w| &w[..])
            != bytes.get(at..at + 8)
        {
            let number = Some(NOT_CANONICAL);
            return Err(Refused { number, place: Some(node), ..panics() });
        }
    }
    Ok(())
}

// The Rust has no number of long counts. Where its reads began tells how many bytes each count has, and
// its answers tell the number of each.

fn long(forms: &[Form]) -> usize {
    forms.iter().filter(|form| form.is_long()).count()
}

fn forms_of_file(bytes: &[u8], file: &answers::File) -> [Form; 4] {
    let (l, [internal, external, roots, block]) = (&file.layout, file.counts);
    let form = |place, value: usize, at: usize, end: usize| Form {
        place,
        value: value as u64,
        len: end - at,
        left: bytes.len() - at,
    };
    [
        form(Place::Internal, l.internal_node_count, internal, external),
        form(Place::External, l.external_node_count, external, roots),
        form(Place::Roots, l.roots_count, roots, l.roots_offset),
        form(Place::Block, l.basic_block_len, block, l.basic_block_offset),
    ]
}

/// The map's own count ends where its first key begins, or the map ends.
fn forms_of_map(bytes: &[u8], at: usize, rows: &[answers::Row], end: usize) -> Vec<Form> {
    let first = rows.iter().map(|r| r.key_at).min().unwrap_or(end);
    let (value, left) = (rows.len() as u64, bytes.len() - at);
    let own = Form { place: Place::Entries, value, len: first - at, left };
    let length = |r: &answers::Row| {
        let at = r.key_at + 32;
        let (len, left) = (r.values_at - at, bytes.len() - at);
        Form { place: Place::Values, value: r.len as u64, len, left }
    };
    [own].into_iter().chain(rows.iter().map(length)).collect()
}

/// The published map over some bytes, with the places of its values.
pub struct MapOfRust<'a> {
    rows: Vec<answers::Row>,
    end: usize,
    map: PublishedMap<'a>,
}

impl<'a> MapOfRust<'a> {
    pub fn walk(bytes: &'a [u8], at: usize) -> Option<Self> {
        let (rows, end) = answers::walk(bytes, at).ok()?;
        Some(Self { rows, end, map: PublishedMap::new(bytes, at)? })
    }

    pub fn keys(&self) -> impl Iterator<Item = [u64; 4]> {
        self.rows.iter().map(|r| r.key)
    }

    /// The values' part of the file and its place in it.
    fn part(&self, key: [u64; 4]) -> Result<Part, Refused> {
        let found = self.looked_up(key, 0)?.found;
        let bytes = |values: Vec<u64>| values.iter().flat_map(|v| v.to_le_bytes()).collect();
        Ok(found.map(|(at, values)| (at, bytes(values))))
    }

    /// The Rust counts no comparisons; that number is handed in.
    fn looked_up(&self, key: [u64; 4], compared: usize) -> Result<Looked, Refused> {
        let found = self.map.get(key)?;
        let row = self.rows.binary_search_by_key(&key, |r| r.key);
        let values_at = row.map_or(usize::MAX, |i| self.rows[i].values_at);
        Ok(Looked { found: found.map(|values| (values_at, values)), compared })
    }
}

/// Document 01's number of keys compared, whatever the values are.
fn compared_by_halving(bytes: &[u8], keys: &[u64], key: [u64; 4]) -> usize {
    model::lookup(bytes, keys, keys.len(), key).map_or(0, |looked| looked.compared)
}

/// The parts of a file, by the published scan, entry reads and walk, with the map's entries in file
/// order; and the map's end.
pub fn published_parts(file: &[u8]) -> Result<(Parts, usize), Refused> {
    let answers::File { flags, layout: l, .. } = answers::scan(file, true, None)?;
    let (mut rows, end) = answers::walk(file, l.advice_map_offset)?;
    rows.sort_by_key(|r| r.key_at);
    let entries = (0..l.node_count)
        .map(|i| {
            answers::entry(file, &l, i).map(|e| answers::encode(e).expect("ids that were read"))
        })
        .collect::<Result<Vec<u64>, _>>()?;
    let hashes_at = l.node_hash_offset.unwrap_or(l.advice_map_offset);
    let values = |r: &answers::Row| file[r.values_at..r.values_at + 8 * r.len].chunks(8).map(le64);
    let parts = Parts {
        flags,
        roots: file[l.roots_offset..][..4 * l.roots_count]
            .chunks(4)
            .map(|b| u32::from_le_bytes(b.try_into().expect("4 bytes")))
            .collect(),
        blocks: file[l.basic_block_offset..][..l.basic_block_len].to_vec(),
        words: entries,
        external: file[l.external_digest_offset..hashes_at].to_vec(),
        hashes: file[hashes_at..l.advice_map_offset].to_vec(),
        keys: rows.iter().flat_map(|r| r.key).collect(),
        lengths: rows.iter().map(|r| r.len as u64).collect(),
        values: rows.iter().flat_map(values).collect(),
    };
    Ok((parts, end))
}
