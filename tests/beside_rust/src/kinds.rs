//! The kinds of input on which the published Rust and document 01 part. A difference is listed only
//! if the proved code answers as the model of document 01 does, and one of these recognises why the
//! Rust does not. Each must be met in a run.
use published::answers::Refused;

use crate::{input::Input, model, points::Point, told::*};

pub struct Kind {
    pub name: &'static str,
    pub points: &'static [Point],
    pub reason: &'static str,
    pub recognises: fn(&Input, &Answers) -> bool,
}

/// The two answers, as far as a predicate needs them.
pub struct Answers<'a> {
    /// The proved code's refusal, or none if it accepts.
    pub ours: Option<Refusal>,
    /// The published Rust's refusal, or none if it accepts.
    pub rust: Option<&'a Refused>,
}

impl Answers<'_> {
    fn ours_is(&self, number: u8) -> bool {
        self.ours.is_some_and(|r| r.number == number)
    }

    fn rust_is(&self, number: Option<u8>, text: &str) -> bool {
        self.rust.is_some_and(|r| r.number == number && r.text.contains(text))
    }

    fn rust_at(&self, place: usize) -> bool {
        self.rust.is_some_and(|r| r.place.is_none_or(|p| p == place))
    }

    fn while_building(&self) -> bool {
        self.rust.is_some_and(|r| r.building_table)
    }

    fn no_room(&self) -> bool {
        self.rust_is(None, "failed to reserve")
    }
}

pub const KINDS: &[Kind] = &[
    Kind {
        name: "E  writing an id of 2^30 or more panics",
        points: &[Point::EncodeEntry],
        reason: "nothing panics here: PAYLOAD [0]",
        recognises: |input, a| {
            let pair = matches!(input.entry, Some(Entry::Join { .. } | Entry::Split { .. }));
            let wide = input.entry.map(model::children_of).unwrap_or_default();
            let wide = wide.iter().any(|&id| id >= 1 << 30);
            pair && wide && a.ours_is(PAYLOAD) && a.rust_is(None, "panics")
        },
    },
    Kind {
        name: "F  facts that are no format",
        points: &[Point::Scan],
        reason: "the facts are constants in the Rust, which does not judge them: FORMAT [0]",
        recognises: |input, a| {
            let Some(f) = input.facts.filter(|f| !model::is_format(f)) else {
                return false;
            };
            let unjudged = model::scan_unjudged(input.bytes, f, input.allow, input.bound);
            // Above 2^30 nodes the Rust meets overflows that document 01 does not have.
            a.ours_is(FORMAT) && (f.max_nodes > 1 << 30 || rust_says(a, unjudged.err()))
        },
    },
    Kind {
        name: "A1 order: external digests that do not rise",
        points: &[Point::Order],
        reason: "the Rust's order check asks for rising digests; document 01's for classes only, so that text has no number",
        recognises: |input, a| {
            matches!(order_trouble(input), Some(Trouble::NotRising(node)) if a.rust_at(node))
                && a.rust_is(None, "must be strictly increasing")
        },
    },
    Kind {
        name: "A2 order: an external digest that is no element",
        points: &[Point::Order],
        reason: "the Rust's order check reads the external digests",
        recognises: |input, a| {
            matches!(order_trouble(input), Some(Trouble::Digest(Refusal { number: ELEMENT, place }))
                if a.rust_at(place))
                && a.rust_is(Some(ELEMENT), "")
        },
    },
    Kind {
        name: "A3 order: a child not below its parent",
        points: &[Point::Order],
        reason: "the Rust's order check asks for it too, in a text without a number; document 01 has it in the child check",
        recognises: |input, a| {
            matches!(order_trouble(input), Some(Trouble::Forward(node)) if a.rust_at(node))
                && a.rust_is(None, "which comes after it")
        },
    },
    Kind {
        name: "A6 order: an external digest row outside the file",
        points: &[Point::Order],
        reason: "a made-up record, whose digests the Rust's order check reads",
        recognises: |input, a| {
            let Some(Trouble::Digest(r)) = order_trouble(input) else {
                return false;
            };
            matches!(r.number, SHORT | OVERFLOW)
                && a.rust_is(Some(r.number), "")
                && a.rust_at(r.place)
                && !a.while_building()
        },
    },
    Kind {
        name: "A7 order: an entry refused after the first node out of order",
        points: &[Point::Order],
        reason: "the Rust builds the slot table of all nodes before it looks at the order",
        recognises: |input, a| {
            let refused = first_refused_entry(input);
            a.while_building()
                && rust_says(a, refused)
                && a.ours.is_some_and(|o| {
                    o.number == ORDER && refused.is_some_and(|r| o.place < r.place)
                })
        },
    },
    Kind {
        name: "B1 children: an external digest that is no element",
        points: &[Point::Children, Point::ChildrenConstructed],
        reason: "the Rust's child checks stand inside the rebuilding of hashes, which reads digests",
        recognises: |input, a| {
            matches!(digest_trouble(input), Some(Refusal { number: ELEMENT, place })
                if a.rust_at(place))
                && a.rust_is(Some(ELEMENT), "")
        },
    },
    Kind {
        name: "B2 children: block data outside the file",
        points: &[Point::Children],
        reason: "a made-up record: the rebuilding of hashes takes the block data first; where its end overflows, the text has no number",
        recognises: |input, a| {
            let end =
                input.layout.map(|l| l.basic_block_offset as u128 + l.basic_block_len as u128);
            let overflows = end.is_some_and(|e| e > u64::MAX as u128);
            let outside = end.is_some_and(|e| e > input.bytes.len() as u128);
            overflows && a.rust_is(None, "basic-block data overflow")
                || outside && !overflows && a.rust_is(Some(SHORT), "unexpected EOF")
        },
    },
    Kind {
        name: "B3 children: an external digest row outside the file",
        points: &[Point::Children],
        reason: "a made-up record, whose digests the rebuilding of hashes reads",
        recognises: |input, a| {
            let Some(r) = digest_trouble(input) else {
                return false;
            };
            matches!(r.number, SHORT | OVERFLOW)
                && a.rust_is(Some(r.number), "")
                && a.rust_at(r.place)
        },
    },
    Kind {
        name: "B5 children: files with hashes are not checked",
        points: &[Point::ChildrenConstructed],
        reason: "the published constructor rebuilds hashes, and so looks at children, only where there are none",
        recognises: |input, a| {
            input.layout.is_some_and(|l| l.node_hash_offset.is_some())
                && a.rust.is_none()
                && (a.ours_is(CHILD_RANGE) || a.ours_is(FORWARD))
        },
    },
    Kind {
        name: "C1 digest: a missing hash is rebuilt",
        points: &[Point::DigestConstructed],
        reason: "hash recomputation is out of scope: NO-HASH",
        recognises: |input, a| {
            input.layout.is_some_and(|l| l.node_hash_offset.is_none())
                && a.rust.is_none()
                && a.ours_is(NO_HASH)
        },
    },
    Kind {
        name: "C2 digest: a hashless file refused whole",
        points: &[Point::DigestConstructed],
        reason: "rebuilding all hashes meets a bad child or digest that the node asked for does not need",
        recognises: |input, a| {
            let meets = [Some(CHILD_RANGE), Some(FORWARD), Some(ELEMENT)];
            input.layout.is_some_and(|l| l.node_hash_offset.is_none())
                && a.while_building()
                && a.rust.is_some_and(|r| meets.contains(&r.number))
                && rust_children_trouble(input).is_some_and(|t| a.rust_is(Some(t.number), ""))
        },
    },
    Kind {
        name: "C3 digest: an entry refused before INDEX",
        points: &[Point::Digest],
        reason: "a made-up record: the Rust builds the slot table before it looks at the index",
        recognises: |input, a| {
            let beyond = input.index.zip(input.layout).is_some_and(|(i, l)| i >= l.node_count);
            beyond
                && a.ours_is(INDEX)
                && a.while_building()
                && rust_says(a, first_refused_entry(input))
        },
    },
    Kind {
        name: "C4 digest: a later entry is refused",
        points: &[Point::Digest],
        reason: "a made-up record: the Rust reads all entries, document 01 those up to the index",
        recognises: |input, a| {
            let refused = first_refused_entry(input);
            a.while_building()
                && rust_says(a, refused)
                && refused.zip(input.index).is_some_and(|(r, index)| r.place > index)
        },
    },
    Kind {
        name: "C6 digest_with_table: a table shorter than the node count",
        points: &[Point::DigestWithTable],
        reason: "ROOM by document 01, even where the row is there; the Rust reads the entry first and asks for the row only",
        recognises: |input, a| {
            let (Some(l), Some(t), Some(i)) = (input.layout, input.slots, input.index) else {
                return false;
            };
            let short = t.len() < l.node_count && i < l.node_count;
            short
                && a.ours == Some(Refusal { number: ROOM, place: i })
                && rust_says(a, row_asked(input.bytes, l, i, t))
        },
    },
    Kind {
        name: "D1 slots: more than 2^30 nodes",
        points: &[Point::Slots],
        reason: "a made-up record: TOO-MANY [0]; the Rust asks for the memory, or for the bound, and goes on",
        recognises: |input, a| {
            let Some(l) = input.layout.filter(|l| l.node_count > 1 << 30) else {
                return false;
            };
            let over_bound = input.bound.is_some_and(|n| (n as u128) < 4 * l.node_count as u128);
            let goes_on = a.no_room() || rust_says(a, first_refused_entry(input));
            a.ours_is(TOO_MANY) && if over_bound { a.rust_is(Some(BUDGET), "") } else { goes_on }
        },
    },
    Kind {
        name: "G  memory for all nodes is asked first and can't be had",
        points: &[Point::Order, Point::Children, Point::Digest],
        reason: "a made-up record: the Rust's table has no place for its nodes; document 01 has no such refusal",
        recognises: |input, a| input.layout.is_some_and(|l| l.node_count > 1 << 24) && a.no_room(),
    },
];

// WHAT THE RUST MEETS FIRST, by the model's readers
// ================================================================================================

/// The Rust refuses so; with none, it accepts.
fn rust_says(a: &Answers, refused: Option<Refusal>) -> bool {
    match refused {
        Some(r) => a.rust_is(Some(r.number), "") && a.rust_at(r.place),
        None => a.rust.is_none(),
    }
}

/// The digest's refusal if only the row asked for is looked at, after the entry.
fn row_asked(bytes: &[u8], l: &Layout, index: usize, table: &[u32]) -> Option<Refusal> {
    let entry = match model::entry(bytes, l, index) {
        Ok(entry) => entry,
        Err(refusal) => return Some(refusal),
    };
    let slot = *table.get(index)? as usize;
    model::digest_in_slot(bytes, l, index, entry == Entry::External, slot).err()
}

/// The slot table's first refusal.
fn first_refused_entry(input: &Input) -> Option<Refusal> {
    let l = input.layout?;
    (0..l.node_count).find_map(|i| model::entry(input.bytes, l, i).err())
}

#[derive(Debug, PartialEq)]
enum Trouble {
    NotRising(usize),
    Digest(Refusal),
    Forward(usize),
}

/// What the published order check finds, beyond classes, at the first node where it finds anything.
fn order_trouble(input: &Input) -> Option<Trouble> {
    let l = input.layout?;
    let mut before = 0;
    let mut digests = Vec::new();
    for node in 0..l.node_count {
        let entry = model::entry(input.bytes, l, node).ok()?;
        if model::class_of(entry) < before {
            return None; // ORDER, as here
        }
        before = model::class_of(entry);
        if entry == Entry::External {
            match model::digest_in_slot(input.bytes, l, node, true, digests.len()) {
                Err(refusal) => return Some(Trouble::Digest(refusal)),
                Ok(digest) if digests.last().is_some_and(|last| *last >= digest) => {
                    return Some(Trouble::NotRising(node));
                }
                Ok(digest) => digests.push(digest),
            }
        }
        if model::children_of(entry).iter().any(|&c| c as usize >= node) {
            return Some(Trouble::Forward(node));
        }
    }
    None
}

/// The first refusal of the loop that holds the published child checks.
fn rust_children_trouble(input: &Input) -> Option<Refusal> {
    let l = input.layout?;
    let mut externals = 0;
    for node in 0..l.node_count {
        let entry = match model::entry(input.bytes, l, node) {
            Ok(entry) => entry,
            Err(refusal) => return Some(refusal),
        };
        for child in model::children_of(entry) {
            if child as usize >= node {
                let beyond = child as usize >= l.node_count;
                let number = if beyond { CHILD_RANGE } else { FORWARD };
                return Some(Refusal { number, place: node });
            }
        }
        if entry == Entry::External {
            let digest = model::digest_in_slot(input.bytes, l, node, true, externals);
            if let Err(refusal) = digest {
                return Some(refusal);
            }
            externals += 1;
        }
    }
    None
}

/// The same, if it is a refusal of an external digest.
fn digest_trouble(input: &Input) -> Option<Refusal> {
    let trouble = rust_children_trouble(input)?;
    let entry = model::entry(input.bytes, input.layout?, trouble.place);
    (entry == Ok(Entry::External)).then_some(trouble)
}
