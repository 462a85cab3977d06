//! Which forms of counts a run has met, by what they count: a run that has not met them all fails.
use crate::model::{count_of_len, read_count};

/// What a count counts.
#[derive(Debug, Clone, Copy, PartialEq, Eq)]
pub enum Place {
    /// It was read by itself.
    Alone,
    Internal,
    External,
    Roots,
    Block,
    /// The entries of a map.
    Entries,
    /// The values of one.
    Values,
}

use Place::*;

impl Place {
    const ALL: [Place; 7] = [Alone, Internal, External, Roots, Block, Entries, Values];

    fn label(self) -> &'static str {
        match self {
            Alone => "read by itself",
            Internal => "internal count",
            External => "external count",
            Roots => "roots count",
            Block => "block length",
            Entries => "count of a map",
            Values => "length in a map",
        }
    }

    /// The least number of bytes behind it in an accepted file: those of the counts that follow.
    fn behind(self) -> usize {
        match self {
            Internal => 3,
            External => 2,
            Roots => 1,
            Alone | Block | Entries | Values => 0,
        }
    }

    /// The longest shortest form that is asked for. In a file what is counted must be there, and then
    /// it lies behind the count.
    fn longest_shortest(self, left: Left) -> usize {
        match (self, left) {
            (Alone, _) => 9,
            (Block, Left::More) => 4,
            (_, Left::More) => 3,
            _ => 1,
        }
    }
}

/// How many bytes are left from a count's start on: eight are read together where they are left, and
/// the longest form has nine.
#[derive(Debug, Clone, Copy, PartialEq, Eq)]
enum Left {
    Fewer,
    Eight,
    Nine,
    More,
}

impl Left {
    const ALL: [Left; 4] = [Left::Fewer, Left::Eight, Left::Nine, Left::More];

    fn of(bytes: usize) -> Self {
        match bytes {
            0..8 => Left::Fewer,
            8 => Left::Eight,
            9 => Left::Nine,
            _ => Left::More,
        }
    }

    fn label(self) -> &'static str {
        match self {
            Left::Fewer => "fewer than eight",
            Left::Eight => "eight",
            Left::Nine => "nine",
            Left::More => "more",
        }
    }

    /// The most bytes that a count can have of these.
    fn most(self) -> usize {
        match self {
            Left::Fewer => 7,
            Left::Eight => 8,
            Left::Nine | Left::More => 9,
        }
    }
}

/// A count that was read and where it stands.
#[derive(Debug, Clone, Copy)]
pub struct Form {
    pub place: Place,
    pub value: u64,
    pub len: usize,
    /// How many bytes are left from its start on.
    pub left: usize,
}

impl Form {
    /// Some form of fewer bytes reads as the same number.
    pub fn is_long(&self) -> bool {
        (1..self.len).any(|len| {
            let shorter = read_count(&count_of_len(self.value, len), 0);
            shorter.is_ok_and(|count| count.value == self.value)
        })
    }
}

/// How often each was met: by what is counted, the bytes left, the bytes, and whether it is long.
#[derive(Debug, Default, Clone)]
pub struct Forms {
    times: [[[[u64; 2]; 10]; 4]; 7],
    /// Files by the number of their long counts.
    files: [u64; 5],
}

impl Forms {
    pub fn note(&mut self, form: &Form) {
        let left = Left::of(form.left) as usize;
        self.times[form.place as usize][left][form.len][form.is_long() as usize] += 1;
    }

    pub fn note_file(&mut self, forms: &[Form; 4]) {
        forms.iter().for_each(|form| self.note(form));
        self.files[forms.iter().filter(|form| form.is_long()).count()] += 1;
    }

    /// Prints what was met; true if all was that is asked for.
    pub fn all_met(&self) -> bool {
        println!();
        println!("counts that were read, by their bytes, those of accepted files and maps:");
        for place in Place::ALL {
            for (long, label) in [(0, "shortest"), (1, "long")] {
                let met = |len: usize| self.of_all(place, |left| left[len][long]);
                let times: String =
                    (1..=9).map(met).zip(1..).map(|(n, len)| format!(" {len}: {n}")).collect();
                println!("{:26}{times}", format!("{}, {label}:", place.label()));
            }
        }
        let files: String =
            self.files.iter().enumerate().map(|(n, times)| format!(" {n}: {times}")).collect();
        println!("accepted files by their number of long counts:{files}");
        let files_met = self.files.iter().all(|&times| times > 0);
        if !files_met {
            println!("   A NUMBER OF LONG COUNTS WAS NEVER MET");
        }
        Place::ALL.into_iter().fold(files_met, |met, place| self.met_at(place) && met)
    }

    fn of_all(&self, place: Place, times: impl Fn(&[[u64; 2]; 10]) -> u64) -> u64 {
        self.times[place as usize].iter().map(times).sum()
    }

    /// Every length that the bytes left allow: as the shortest form where it can be, and as a long one.
    fn met_at(&self, place: Place) -> bool {
        let mut all = true;
        for left in Left::ALL {
            let most = match left {
                Left::More => 9,
                _ => left.most() - place.behind(),
            };
            let shortest = (1..=most.min(place.longest_shortest(left))).map(|len| (len, false));
            for (len, long) in shortest.chain((2..=most).map(|len| (len, true))) {
                if self.times[place as usize][left as usize][len][long as usize] == 0 {
                    let (place, left) = (place.label(), left.label());
                    let form = if long { "long" } else { "shortest" };
                    println!("   NEVER MET: {place}, {form}, {len} bytes where {left} are left");
                    all = false;
                }
            }
        }
        all
    }
}
