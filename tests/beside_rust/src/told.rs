//! What an entry point answers, in one shape for the proved code, the published Rust and the model.
pub use published::{Entry, Facts, Layout};

/// Document 01's number and place.
#[derive(Debug, Clone, Copy, PartialEq, Eq)]
pub struct Refusal {
    pub number: u8,
    pub place: usize,
}

pub type Told<T> = Result<T, Refusal>;

/// The number of a refusal that nobody gives: lent memory was not left as promised, or the wrapper says other than the function that it calls.
pub const MEMORY: u8 = 0;

/// Fills what may be written before a call; what must stay must still be this.
pub const MARK: u64 = 0xA5A5_5A5A_A5A5_5A5A;

pub const SHORT: u8 = 1;
pub const MAGIC: u8 = 2;
pub const VERSION: u8 = 3;
pub const FLAGS: u8 = 4;
pub const HASHLESS: u8 = 5;
pub const OVERFLOW: u8 = 6;
pub const TOO_MANY: u8 = 7;
pub const BUDGET: u8 = 8;
pub const TAG: u8 = 9;
pub const PAYLOAD: u8 = 10;
pub const EXTERNALS: u8 = 11;
pub const INDEX: u8 = 12;
pub const ROOT_ID: u8 = 13;
pub const NO_HASH: u8 = 14;
pub const CHILD_RANGE: u8 = 15;
pub const FORWARD: u8 = 16;
pub const ORDER: u8 = 17;
pub const ELEMENT: u8 = 18;
pub const DUPLICATE: u8 = 19;
pub const ROOM: u8 = 20;
pub const FORMAT: u8 = 21;
pub const NOT_CANONICAL: u8 = 22;
pub const PARTS: u8 = 23;

/// By number; 0 stands for an answer that is no refusal.
pub const NAMES: [&str; 24] = [
    "accepted",
    "SHORT",
    "MAGIC",
    "VERSION",
    "FLAGS",
    "HASHLESS",
    "OVERFLOW",
    "TOO-MANY",
    "BUDGET",
    "TAG",
    "PAYLOAD",
    "EXTERNALS",
    "INDEX",
    "ROOT-ID",
    "NO-HASH",
    "CHILD-RANGE",
    "FORWARD",
    "ORDER",
    "ELEMENT",
    "DUPLICATE",
    "ROOM",
    "FORMAT",
    "NOT-CANONICAL",
    "PARTS",
];

pub fn refuse<T>(number: u8, place: usize) -> Told<T> {
    Err(Refusal { number, place })
}

/// A count that was read: its number, its bytes, the place after it, and whether no form has fewer bytes.
#[derive(Debug, Clone, Copy, PartialEq, Eq)]
pub struct Count {
    pub value: u64,
    pub len: usize,
    pub next: usize,
    pub shortest: bool,
}

/// An accepted file's layout, and how many of its four counts are long.
#[derive(Debug, Clone, Copy, PartialEq, Eq)]
pub struct Scanned {
    pub layout: Layout,
    pub long: usize,
}

/// A slot table that was filled, and what is left of the bound.
#[derive(Debug, Clone, PartialEq, Eq)]
pub struct Slots {
    pub table: Vec<u32>,
    pub left: Option<usize>,
}

/// The key offsets of a walked map, keys rising, its end, how many bytes follow it, and how many of its
/// counts are long.
#[derive(Debug, Clone, PartialEq, Eq)]
pub struct Walked {
    pub keys: Vec<u64>,
    pub end: usize,
    pub trailing: usize,
    pub long: usize,
}

/// An entry of a map: its key, how many values it has, and where they begin.
#[derive(Debug, Clone, Copy, PartialEq, Eq)]
pub struct MapEntry {
    pub key: [u64; 4],
    pub len: usize,
    pub values: usize,
}

/// A key's values as a part of the file, with its place; none where the key is absent.
pub type Part = Option<(usize, Vec<u8>)>;

/// The place and the values of a key that was found, and how many keys were compared.
#[derive(Debug, Clone, PartialEq, Eq)]
pub struct Looked {
    pub found: Option<(usize, Vec<u64>)>,
    pub compared: usize,
}

/// The parts of a file, owned: what the writer is lent, and what readers show of what it wrote.
#[derive(Debug, Clone, Default, PartialEq, Eq)]
pub struct Parts {
    pub flags: u8,
    pub roots: Vec<u32>,
    pub blocks: Vec<u8>,
    pub words: Vec<u64>,
    pub external: Vec<u8>,
    pub hashes: Vec<u8>,
    pub keys: Vec<u64>,
    pub lengths: Vec<u64>,
    pub values: Vec<u64>,
}

pub fn le64(bytes: &[u8]) -> u64 {
    u64::from_le_bytes(bytes.try_into().expect("8 bytes"))
}
