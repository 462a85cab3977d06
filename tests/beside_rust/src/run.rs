//! One run: what was compared, what agreed, which listed differences were met.
use std::fmt::Debug;

use published::answers::Refused;

use crate::{
    forms::Forms,
    input::Input,
    kinds::{Answers, KINDS},
    points::Point,
    rng::Rng,
    slip::{Slip, Spoil},
    told::{Facts, NAMES, Told},
};

#[derive(Debug, Default, Clone, Copy)]
pub struct Tally {
    pub rust: u64,
    pub rust_agreed: u64,
    pub rust_listed: u64,
    pub model: u64,
    pub model_agreed: u64,
    /// The proved code's answers by number, 0 for those that are no refusal.
    pub answers: [u64; NAMES.len()],
}

#[derive(Debug, Default, Clone)]
pub struct Seen {
    pub times: u64,
    /// (bytes of input, the input and both answers), the smallest so far.
    pub smallest: Option<(usize, String)>,
}

pub struct Run {
    pub rng: Rng,
    pub facts: Facts,
    pub tally: Vec<Tally>,
    pub seen: Vec<Seen>,
    pub forms: Forms,
    pub unlisted: u64,
    pub slip: Option<Slip>,
    quiet: bool,
}

const SHOWN: u64 = 10;

impl Run {
    pub fn new(seed: u64, slip: Option<Slip>, quiet: bool) -> Self {
        published::set_facts(published::PLACEHOLDER);
        Self {
            rng: Rng::new(seed),
            facts: published::PLACEHOLDER,
            tally: vec![Tally::default(); Point::ALL.len()],
            seen: vec![Seen::default(); KINDS.len()],
            forms: Forms::default(),
            unlisted: 0,
            slip,
            quiet,
        }
    }

    /// Puts format facts in force for all sides.
    pub fn set_facts(&mut self, facts: Facts) {
        published::set_facts(facts);
        self.facts = facts;
    }

    /// Compares with the published Rust. `document` is asked only where the two part, and for the
    /// place where the Rust has none.
    pub fn beside_rust<T: PartialEq + Debug + Spoil>(
        &mut self,
        point: Point,
        input: &Input,
        mut ours: Told<T>,
        rust: Result<T, Refused>,
        document: impl Fn() -> Told<T>,
    ) {
        self.spoil(point, &mut ours);
        self.count(point, &ours);
        self.tally[point as usize].rust += 1;
        if agree(&ours, &rust, &document) {
            self.tally[point as usize].rust_agreed += 1;
            return;
        }
        let kind = if ours == document() { listed(point, input, &ours, &rust) } else { None };
        match kind {
            Some(kind) => {
                self.tally[point as usize].rust_listed += 1;
                self.note(kind, input, || format!("ours {ours:?}, the Rust {}", shown(&rust)));
            }
            None => self.complain(point, input, &ours, &shown(&rust), &document()),
        }
    }

    /// Compares with the model of document 01, where the published Rust has no such check.
    pub fn beside_model<T: PartialEq + Debug + Spoil>(
        &mut self,
        point: Point,
        input: &Input,
        mut ours: Told<T>,
        document: Told<T>,
    ) {
        self.spoil(point, &mut ours);
        self.count(point, &ours);
        self.tally[point as usize].model += 1;
        if ours == document {
            self.tally[point as usize].model_agreed += 1;
        } else {
            self.complain(point, input, &ours, "not asked", &document);
        }
    }

    fn spoil<T: Spoil>(&mut self, point: Point, ours: &mut Told<T>) {
        if let Some(slip) = &mut self.slip {
            slip.spoil(point, ours);
        }
    }

    fn count<T>(&mut self, point: Point, ours: &Told<T>) {
        let number = ours.as_ref().err().map_or(0, |r| r.number as usize);
        if let Some(times) = self.tally[point as usize].answers.get_mut(number) {
            *times += 1;
        }
    }

    fn note(&mut self, kind: usize, input: &Input, answers: impl Fn() -> String) {
        let seen = &mut self.seen[kind];
        seen.times += 1;
        let size = input.bytes.len();
        if seen.smallest.as_ref().is_some_and(|(least, _)| *least < size) {
            return;
        }
        let text = format!("{input}: {}", answers());
        let smaller = |(least, other): &(usize, String)| (size, text.len()) < (*least, other.len());
        if seen.smallest.as_ref().is_none_or(smaller) {
            seen.smallest = Some((size, text));
        }
    }

    fn complain<T: Debug>(
        &mut self,
        point: Point,
        input: &Input,
        ours: &Told<T>,
        rust: &str,
        document: &Told<T>,
    ) {
        self.unlisted += 1;
        if self.unlisted <= SHOWN && !self.quiet {
            println!("UNLISTED DIFFERENCE: {}", point.label());
            println!("   input: {input}");
            println!("   ours: {ours:?}\n   the Rust: {rust}\n   document 01: {document:?}");
        }
    }
}

fn agree<T: PartialEq>(
    ours: &Told<T>,
    rust: &Result<T, Refused>,
    document: impl Fn() -> Told<T>,
) -> bool {
    match (ours, rust) {
        (Ok(ours), Ok(rust)) => ours == rust,
        (Err(ours), Err(rust)) if rust.number == Some(ours.number) => match rust.place {
            Some(place) => place == ours.place,
            None => document().err().is_some_and(|d| d.place == ours.place),
        },
        _ => false,
    }
}

fn listed<T>(
    point: Point,
    input: &Input,
    ours: &Told<T>,
    rust: &Result<T, Refused>,
) -> Option<usize> {
    let answers = Answers { ours: ours.as_ref().err().copied(), rust: rust.as_ref().err() };
    KINDS.iter().position(|k| k.points.contains(&point) && (k.recognises)(input, &answers))
}

fn shown<T: Debug>(rust: &Result<T, Refused>) -> String {
    match rust {
        Ok(value) => format!("Ok({value:?})"),
        Err(r) => {
            let number = r.number.map_or("no number".into(), |n| n.to_string());
            let place = r.place.map_or("no place".into(), |p| p.to_string());
            format!("{number} [{place}] ({})", r.text)
        }
    }
}
