//! Slips put into the proved code's answers on purpose, to see that the comparison notices: one
//! answer of one entry point is spoilt, and the run must then fail.
use crate::{
    points::Point,
    told::{
        Count, Entry, Looked, MapEntry, Part, Parts, Refusal, Scanned, Slots, Told, Walked, refuse,
    },
};

/// Which suited answer is spoilt: not the first, which may be a special case.
const NTH: u64 = 100;

/// No refusal's number, so that the published Rust cannot give it too.
const NO_REFUSAL: u8 = 99;

#[derive(Debug, Clone, Copy, PartialEq, Eq)]
pub enum What {
    /// An accepted answer's value; where it has none, it becomes a refusal.
    Value,
    /// What an accepted answer says of long counts: one more, or of one count the other.
    Long,
    /// A refusal's number, one more.
    Number,
    /// A refusal's place, one more.
    Place,
}

impl What {
    pub const ALL: [What; 4] = [What::Value, What::Long, What::Number, What::Place];

    pub fn label(self) -> &'static str {
        match self {
            What::Value => "value",
            What::Long => "long",
            What::Number => "number",
            What::Place => "place",
        }
    }
}

#[derive(Debug, Clone, Copy)]
pub struct Slip {
    pub point: Point,
    pub what: What,
    met: u64,
}

impl Slip {
    pub fn new(point: Point, what: What) -> Self {
        Self { point, what, met: 0 }
    }

    pub fn done(&self) -> bool {
        self.met >= NTH
    }

    /// Spoils the answer if it is the one.
    pub fn spoil<T: Spoil>(&mut self, point: Point, answer: &mut Told<T>) {
        let suited = match self.what {
            What::Value => answer.is_ok(),
            What::Long => answer.is_ok() && T::LONG.is_some(),
            What::Number | What::Place => answer.is_err(),
        };
        if point != self.point || !suited {
            return;
        }
        self.met += 1;
        if self.met == NTH {
            self.spoil_now(answer);
        }
    }

    fn spoil_now<T: Spoil>(&self, answer: &mut Told<T>) {
        match (self.what, &mut *answer) {
            (What::Value, Ok(value)) => {
                let changed = value.spoil();
                if !changed {
                    *answer = refuse(NO_REFUSAL, 0);
                }
            }
            (What::Long, Ok(value)) => {
                if let Some(spoil) = T::LONG {
                    spoil(value);
                }
            }
            (What::Number, Err(Refusal { number, .. })) => *number += 1,
            (_, Err(Refusal { place, .. })) => *place = place.wrapping_add(1),
            _ => {}
        }
    }
}

pub trait Spoil {
    /// A change of what the value says of long counts; none where it says nothing.
    const LONG: Option<fn(&mut Self)> = None;

    /// A small change of another part of it; false where there is nothing to change.
    fn spoil(&mut self) -> bool;
}

macro_rules! spoil {
    ($($of:ty: |$value:ident| $change:expr $(, long: $long:expr)?;)*) => {
        $(impl Spoil for $of {
            $(const LONG: Option<fn(&mut Self)> = Some(|$value| $long);)?

            fn spoil(&mut self) -> bool {
                let $value = self;
                $change;
                true
            }
        })*
    };
}

spoil! {
    u8: |n| *n ^= 1;
    u32: |n| *n ^= 1;
    u64: |n| *n ^= 1;
    usize: |n| *n ^= 1;
    [u64; 4]: |word| word[3] ^= 1;
    Count: |count| count.value ^= 1, long: count.shortest = !count.shortest;
    (Vec<u8>, usize): |written| written.1 += 1;
    [usize; 4]: |whole| whole[2] += 1, long: whole[3] += 1;
    MapEntry: |e| e.values += 1;
    Part: |part| *part = if part.is_none() { Some((0, Vec::new())) } else { None };
    Vec<u8>: |file| file.push(0);
    Scanned: |s| s.layout.external_digest_offset += 1, long: s.long += 1;
    Entry: |e| *e = if *e == Entry::Dyn { Entry::Dyncall } else { Entry::Dyn };
    Looked: |l| l.compared += 1;
    Parts: |p| p.flags ^= 1;
    Walked: |w| w.trailing += 1, long: w.long += 1;
    Slots: |s| match s.table.last_mut() {
        Some(slot) => *slot += 1,
        None => s.table.push(0),
    };
}

impl Spoil for () {
    fn spoil(&mut self) -> bool {
        false
    }
}
