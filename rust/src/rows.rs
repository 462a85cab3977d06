//! Types as rows of numbers, and back; and what the places of each function count. The archive's promises say which numbers a row can hold. A
//! number that no type can hold means another archive, and becomes [`Kind::Unknown`].

use crate::{ByteOffset, Count, Entry, Facts, Kind, Lookup, MapEntry, Place, Refusal, Walked, Word};

/// An answer that holds a number which no answer of this version holds.
#[cold]
pub(crate) fn unknown(number: u64) -> Refusal {
    Refusal { kind: Kind::Unknown(number), place: Place::Number(0) }
}

#[inline]
pub(crate) fn count([value, len, next, shortest]: [u64; 4]) -> Count {
    Count { value, len: len as usize, next: ByteOffset(next as usize), shortest: shortest != 0 }
}

#[inline]
pub(crate) fn of_entry(entry: Entry) -> [u64; 3] {
    let (kind, a, b) = match entry {
        Entry::Join { left_child_id, right_child_id } => (0, left_child_id.0, right_child_id.0),
        Entry::Split { if_branch_id, else_branch_id } => (1, if_branch_id.0, else_branch_id.0),
        Entry::Loop { body_id } => (2, body_id.0, 0),
        Entry::Block { ops_offset } => (3, ops_offset, 0),
        Entry::Call { callee_id } => (4, callee_id.0, 0),
        Entry::SysCall { callee_id } => (5, callee_id.0, 0),
        Entry::Dyn => (6, 0, 0),
        Entry::Dyncall => (7, 0, 0),
        Entry::External => (8, 0, 0),
    };
    [kind, a.into(), b.into()]
}

/// The facts that are bytes.
pub(crate) fn marks(facts: &Facts) -> [u8; 9] {
    let ([a, b, c, d], [e, f, g]) = (facts.magic, facts.version);
    [a, b, c, d, e, f, g, facts.hashless, facts.reserved]
}

// a flag of 0 where there is no bound

pub(crate) fn bound([flag, bytes]: [u64; 2]) -> Option<usize> {
    (flag != 0).then_some(bytes as usize)
}

pub(crate) fn of_bound(bound: Option<usize>) -> [u64; 2] {
    bound.map_or([0, 0], |bytes| [1, bytes as u64])
}

pub(crate) fn walked([entries, end, trailing, long_counts]: [u64; 4]) -> Walked {
    Walked { entries: entries as usize, end: ByteOffset(end as usize), trailing: trailing as usize, long_counts: long_counts as usize }
}

#[inline]
pub(crate) fn map_entry([a, b, c, d, len, values]: [u64; 6]) -> MapEntry {
    MapEntry { key: Word([a, b, c, d]), len: len as usize, values: ByteOffset(values as usize) }
}

#[inline]
pub(crate) fn looked([there, values, len, compared]: [u64; 4]) -> Lookup {
    let compared = compared as usize;
    match there {
        0 => Lookup::Absent { compared },
        _ => Lookup::Found { values: ByteOffset(values as usize), len: len as usize, compared },
    }
}

/// A part of the file by its place and its bytes.
#[inline]
pub(crate) fn part(s: &[u8], at: usize, bytes: usize) -> Result<&[u8], Refusal> {
    s.get(at..).and_then(|from| from.get(..bytes)).ok_or_else(|| unknown(at as u64))
}

/// What the places of each function count, by kind where it is not one for all.
pub(crate) mod places {
    use super::{ByteOffset, Kind, Place};

    #[inline]
    pub(crate) fn bytes(_: Kind, at: usize) -> Place {
        Place::Byte(ByteOffset(at))
    }

    #[inline]
    pub(crate) fn nodes(_: Kind, index: usize) -> Place {
        Place::Node(index)
    }

    #[inline]
    pub(crate) fn roots(_: Kind, index: usize) -> Place {
        Place::Root(index)
    }

    #[inline]
    pub(crate) fn of_a_word(_: Kind, number: usize) -> Place {
        Place::Number(number)
    }

    pub(crate) fn of_slots(kind: Kind, number: usize) -> Place {
        match kind {
            Kind::TooMany | Kind::Budget | Kind::Room => Place::Number(number),
            _ => Place::Node(number),
        }
    }

    #[inline]
    pub(crate) fn of_a_lookup(kind: Kind, number: usize) -> Place {
        match kind {
            Kind::Room => Place::Rows(number),
            _ => bytes(kind, number),
        }
    }

    #[inline]
    pub(crate) fn of_a_key(kind: Kind, number: usize) -> Place {
        match kind {
            Kind::Index => Place::Key(number),
            _ => bytes(kind, number),
        }
    }

    pub(crate) fn of_the_writer(kind: Kind, number: usize) -> Place {
        match kind {
            Kind::Flags => bytes(kind, number),
            Kind::Tag | Kind::Payload => Place::Node(number),
            Kind::Parts => Place::Part(number),
            Kind::Element | Kind::Duplicate => Place::Key(number),
            Kind::Room => Place::Bytes(number),
            _ => Place::Number(number),
        }
    }
}

#[cfg(test)]
mod tests {
    use super::*;

    #[test]
    fn facts_stand_in_their_order() {
        let facts = Facts { magic: [1, 2, 3, 4], version: [5, 6, 7], hashless: 8, reserved: 9, max_nodes: 10 };
        assert_eq!(marks(&facts), [1, 2, 3, 4, 5, 6, 7, 8, 9]);
    }

    #[test]
    fn a_part_outside_the_file_is_an_error() {
        assert_eq!(part(&[1, 2, 3], 1, 2), Ok(&[2, 3][..]));
        for (at, bytes) in [(1, 3), (4, 0), (usize::MAX, 1), (0, usize::MAX)] {
            assert_eq!(part(&[1, 2, 3], at, bytes), Err(unknown(at as u64)));
        }
    }
}
