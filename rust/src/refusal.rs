//! Refusals: their numbers, their names, their places, and what they say.

use core::fmt;

use crate::ByteOffset;

macro_rules! kinds {
    ($($(#[$said:meta])* $kind:ident $number:literal $name:literal $words:literal,)*) => {
        /// Why input was refused. Later versions have more kinds.
        #[derive(Clone, Copy, Debug, PartialEq, Eq, PartialOrd, Ord, Hash)]
        #[non_exhaustive]
        pub enum Kind {
            $($(#[$said])* $kind,)*
            /// A number that this version of the crate does not know, of a refusal or in an answer: the linked archive is of another version,
            /// or broken ([`version`](crate::version) says which it is). No call gives it with a number that has a kind above.
            Unknown(u64),
        }

        impl Kind {
            /// All that this version knows, by number, the first having number 1.
            pub const ALL: &'static [Kind] = &[$(Kind::$kind),*];

            /// The refusal's number.
            #[must_use]
            pub const fn number(self) -> u64 {
                match self {
                    $(Kind::$kind => $number,)*
                    Kind::Unknown(number) => number,
                }
            }

            /// The refusal of a number; `Unknown` where it has none.
            #[must_use]
            pub const fn of_number(number: u64) -> Kind {
                match number {
                    $($number => Kind::$kind,)*
                    other => Kind::Unknown(other),
                }
            }

            /// The refusal's name, as the table of numbers has it.
            #[must_use]
            pub const fn name(self) -> &'static str {
                match self {
                    $(Kind::$kind => $name,)*
                    Kind::Unknown(_) => "UNKNOWN",
                }
            }

            const fn words(self) -> &'static str {
                match self {
                    $(Kind::$kind => $words,)*
                    Kind::Unknown(_) => "a number that is not known here: the linked archive is of another version, or broken",
                }
            }
        }
    };
}

kinds! {
    /// Bytes are missing.
    Short 1 "SHORT" "bytes are missing",
    /// The first four bytes are others.
    Magic 2 "MAGIC" "the magic is another",
    /// The version is another.
    Version 3 "VERSION" "the version is another",
    /// A reserved flag bit is set.
    Flags 4 "FLAGS" "a reserved flag bit is set",
    /// The file has no hashes, which was not allowed.
    Hashless 5 "HASHLESS" "a file without hashes is not allowed",
    /// A length or the end of a row is above 2^64 - 1.
    Overflow 6 "OVERFLOW" "a length or an end is above 2^64 - 1",
    /// There are more nodes than the maximum.
    TooMany 7 "TOO-MANY" "more nodes than the maximum",
    /// A count is above what the bound allows.
    Budget 8 "BUDGET" "more than the bound allows",
    /// There is no such node kind.
    Tag 9 "TAG" "no such node kind",
    /// A number does not fit its node kind.
    Payload 10 "PAYLOAD" "a number that does not fit its node kind",
    /// The external nodes are not as many as the header says.
    Externals 11 "EXTERNALS" "not as many external nodes as the header says",
    /// There is no such root, node or place of a table.
    Index 12 "INDEX" "no such root, node or place of a table",
    /// A root is not below the node count.
    RootId 13 "ROOT-ID" "the root is not below the node count",
    /// The digest of an internal node was asked for, and there are no hashes.
    NoHash 14 "NO-HASH" "the file has no hashes",
    /// A child is not below the node count.
    ChildRange 15 "CHILD-RANGE" "a child is not below the node count",
    /// A child does not come before its parent.
    Forward 16 "FORWARD" "a child does not come before its parent",
    /// A node's class comes before its predecessor's.
    Order 17 "ORDER" "the node's class comes before its predecessor's",
    /// A number is not below 18446744069414584321.
    Element 18 "ELEMENT" "a number that is no field element",
    /// A key of the map was there before.
    Duplicate 19 "DUPLICATE" "the key was there before",
    /// Lent memory has too few places.
    Room 20 "ROOM" "lent memory has too few places",
    /// The format facts contradict each other.
    Format 21 "FORMAT" "the format facts contradict each other",
    /// An entry's bytes are not its canonical form.
    NotCanonical 22 "NOT-CANONICAL" "the entry is not in its canonical form",
    /// Two parts of a file to write do not fit each other. The place says which: 1, external digests are not 32 bytes for each external
    /// node; 2, hashes are not 32 bytes for each internal node, or not none in a hashless file; 3, keys are not four numbers for each
    /// length; 4, values are not as many as the lengths' sum.
    Parts 23 "PARTS" "two parts do not fit each other",
}

/// The name, as the table of numbers has it.
impl fmt::Display for Kind {
    fn fmt(&self, f: &mut fmt::Formatter<'_>) -> fmt::Result {
        f.pad(self.name())
    }
}

/// Where something was refused, by what is counted. Which of them a refusal has depends on the function alone, or on the function and the
/// kind, and is said there.
#[derive(Clone, Copy, Debug, PartialEq, Eq, Hash)]
#[non_exhaustive]
pub enum Place {
    /// A byte of the file, or of the output.
    Byte(ByteOffset),
    /// A node: the index that was asked for, or that was reached.
    Node(usize),
    /// A root, by its number from 0.
    Root(usize),
    /// A key: its number among the keys to write, or its place in a key table.
    Key(usize),
    /// One of the parts to write: see [`Kind::Parts`].
    Part(usize),
    /// So many rows of a lent table were asked for.
    Rows(usize),
    /// So many bytes are needed.
    Bytes(usize),
    /// A number that counts nothing: 0 where a refusal is of the call as a whole.
    Number(usize),
}

impl Place {
    /// The place as the plain number that it is in C, and in `refused 9 at 17`.
    #[must_use]
    pub const fn number(self) -> usize {
        match self {
            Place::Byte(ByteOffset(n))
            | Place::Node(n)
            | Place::Root(n)
            | Place::Key(n)
            | Place::Part(n)
            | Place::Rows(n)
            | Place::Bytes(n)
            | Place::Number(n) => n,
        }
    }

    /// What it counts, in one word: `byte`, `node`, `root`, `key`, `part`, `rows`, `bytes` or `number`.
    #[must_use]
    pub const fn unit(self) -> &'static str {
        match self {
            Place::Byte(_) => "byte",
            Place::Node(_) => "node",
            Place::Root(_) => "root",
            Place::Key(_) => "key",
            Place::Part(_) => "part",
            Place::Rows(_) => "rows",
            Place::Bytes(_) => "bytes",
            Place::Number(_) => "number",
        }
    }
}

impl fmt::Display for Place {
    fn fmt(&self, f: &mut fmt::Formatter<'_>) -> fmt::Result {
        let (number, unit) = (self.number(), self.unit());
        match self {
            Place::Rows(_) | Place::Bytes(_) => write!(f, "{number} {unit}"),
            Place::Number(_) => write!(f, "{number}"),
            _ => write!(f, "{unit} {number}"),
        }
    }
}

/// A refusal: what is wrong, and where. Nothing else is told, and lent memory is as each function says.
///
/// ```
/// use vekalumist::{ByteOffset, Kind, Place, Refusal};
///
/// let tag = Refusal { kind: Kind::Tag, place: Place::Byte(ByteOffset(17)) };
/// assert_eq!(tag.to_string(), "refused 9 (TAG) at byte 17: no such node kind");
/// assert_eq!((tag.kind.number(), tag.place.number()), (9, 17));
/// ```
#[derive(Clone, Copy, Debug, PartialEq, Eq, Hash)]
pub struct Refusal {
    /// What is wrong.
    pub kind: Kind,
    /// Where.
    pub place: Place,
}

impl fmt::Display for Refusal {
    fn fmt(&self, f: &mut fmt::Formatter<'_>) -> fmt::Result {
        let Refusal { kind, place } = *self;
        write!(f, "refused {} ({}) at {place}: {}", kind.number(), kind.name(), kind.words())
    }
}

impl core::error::Error for Refusal {}

/// As invalid data, so that `?` works where files are read.
#[cfg(feature = "std")]
impl From<Refusal> for std::io::Error {
    fn from(refusal: Refusal) -> std::io::Error {
        std::io::Error::new(std::io::ErrorKind::InvalidData, refusal)
    }
}

#[cfg(test)]
mod tests {
    use super::*;

    #[test]
    fn each_number_is_one_kind() {
        for (i, &kind) in Kind::ALL.iter().enumerate() {
            assert_eq!(kind.number(), i as u64 + 1);
            assert_eq!(Kind::of_number(kind.number()), kind);
        }
        for number in [0, Kind::ALL.len() as u64 + 1, u64::MAX] {
            assert_eq!(Kind::of_number(number), Kind::Unknown(number));
            assert_eq!(Kind::Unknown(number).number(), number);
        }
    }
}
