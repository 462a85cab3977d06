//! Counts by their place, in random order.
use std::hint::black_box;

use vekalumist::{ByteOffset, read_count, shortest_len};

use crate::{
    beside,
    input::{self, Numbers},
    measure::Side,
    plain,
    table::{Row, Table},
};

/// The bytes and the number of a count. A number that needs fewer bytes makes it long; a random one hardly ever does.
type Form = fn(&mut Numbers) -> (usize, u64);

/// A count of any length, 1 to 9 bytes.
fn any(numbers: &mut Numbers) -> (usize, u64) {
    (1 + numbers.below(9), numbers.next())
}

/// The same of small numbers, so that all but those of one byte are long.
fn long(numbers: &mut Numbers) -> (usize, u64) {
    (1 + numbers.below(9), numbers.below(128) as u64)
}

/// A count of a map, as in pair.c: assumed, and not taken from stored files.
fn of_map(numbers: &mut Numbers) -> (usize, u64) {
    let len = match numbers.below(100) {
        0..70 => 1,
        70..97 => 2,
        _ => 3,
    };
    (len, numbers.next())
}

/// Counts end to end, with bytes behind the last as in a file, and their places in random order.
struct Made {
    bytes: Vec<u8>,
    places: Vec<usize>,
}

impl Made {
    fn new(n: usize, form: Form) -> Self {
        let mut numbers = Numbers::new(n as u64);
        let (mut bytes, mut places) = (Vec::new(), Vec::new());
        for _ in 0..n {
            places.push(bytes.len());
            let (len, value) = form(&mut numbers);
            input::push_form(len as u32, value, &mut bytes);
        }
        bytes.extend([0; 8]);
        numbers.shuffle(&mut places);
        Self { bytes, places }
    }

    /// Both sides read the same numbers, to the same places; and ours says which are long.
    fn check(&self) {
        for &at in &self.places {
            let ours = read_count(&self.bytes, ByteOffset(at)).expect("own count");
            let theirs = beside::read_count(&self.bytes, at).expect("own count");
            assert_eq!((ours.value as usize, ours.next.0), theirs, "count at {at}");
            assert_eq!(ours.next.0 - at, ours.len, "length of the count at {at}");
            let shortest = ours.len == shortest_len(ours.value);
            assert_eq!(ours.shortest, shortest, "form of the count at {at}");
        }
    }
}

fn each<T>(places: &[usize], mut f: impl FnMut(usize) -> T) {
    for &at in places {
        black_box(f(at));
    }
}

fn row(table: &mut Table, n: usize, name: &'static str, form: Form) {
    let made = Made::new(n, form);
    made.check();
    let (s, places) = (&made.bytes[..], &made.places[..]);
    table.add(
        Row::new(name, n),
        [
            Side::new(|| each(places, |at| read_count(s, ByteOffset(at)))),
            Side::new(|| each(places, |at| beside::read_count(s, at))),
            Side::new(|| plain::gather(black_box(s), places)),
        ],
    );
}

/// All rows of so many counts.
pub fn rows(table: &mut Table, n: usize) {
    row(table, n, "count, any length", any);
    row(table, n, "count, long", long);
    row(table, n, "count, map", of_map);
}
