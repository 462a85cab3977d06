//! The entry points that are compared.
use crate::told::*;

macro_rules! points {
    ($($name:ident $label:literal,)*) => {
        #[derive(Debug, Clone, Copy, PartialEq, Eq)]
        pub enum Point { $($name),* }

        impl Point {
            pub const ALL: &[Point] = &[$(Point::$name),*];

            pub fn label(self) -> &'static str {
                match self { $(Point::$name => $label),* }
            }
        }
    };
}

points! {
    ReadCount "read_count",
    ShortestLen "shortest_len",
    WriteCount "write_count",
    DecodeEntry "decode_entry",
    EncodeEntry "encode_entry",
    EncodeRow "encode_entry, any row",
    Flags "flags",
    Scan "scan",
    ScanLong "scan, long counts",
    Root "root",
    Entry "entry",
    Children "children",
    ChildrenConstructed "children, constructor",
    Order "order",
    Strict "strict",
    Digest "digest",
    DigestConstructed "digest, constructor",
    DigestWithTable "digest_with_table",
    Slots "slots",
    Places "places",
    Walk "walk_map",
    WalkLong "walk_map, long counts",
    Key "key",
    MapEntry "map_entry",
    Lookup "lookup",
    Values "values",
    HeldMap "AdviceMap::lookup",
    HeldValues "AdviceMap::values",
    HeldEntry "AdviceMap::entry",
    HeldWhole "AdviceMap::trailing",
    Write "write",
}

impl Point {
    /// The refusals of document 01 that a run must have met here. The writer's OVERFLOW needs more
    /// lent bytes than a machine has.
    pub fn refusals(self) -> &'static [u8] {
        match self {
            Point::ReadCount => &[SHORT],
            Point::ShortestLen | Point::Places | Point::HeldWhole => &[],
            // of accepted answers alone
            Point::ScanLong | Point::WalkLong => &[],
            Point::WriteCount => &[ROOM],
            Point::DecodeEntry => &[TAG, PAYLOAD],
            Point::EncodeEntry => &[PAYLOAD],
            Point::EncodeRow => &[INDEX, PAYLOAD],
            Point::Flags => &[SHORT],
            Point::Scan => &[
                FORMAT, SHORT, MAGIC, VERSION, FLAGS, HASHLESS, OVERFLOW, TOO_MANY, BUDGET, TAG,
                PAYLOAD, EXTERNALS,
            ],
            Point::Root => &[INDEX, OVERFLOW, SHORT, ROOT_ID],
            Point::Entry => &[INDEX, OVERFLOW, SHORT, TAG, PAYLOAD],
            Point::Children => &[OVERFLOW, SHORT, TAG, PAYLOAD, CHILD_RANGE, FORWARD],
            Point::ChildrenConstructed => &[CHILD_RANGE, FORWARD],
            Point::Order => &[OVERFLOW, SHORT, TAG, PAYLOAD, ORDER],
            Point::Strict => &[OVERFLOW, SHORT, TAG, PAYLOAD, NOT_CANONICAL],
            Point::Digest => &[INDEX, TAG, PAYLOAD, NO_HASH, OVERFLOW, SHORT, ELEMENT],
            Point::DigestConstructed => &[INDEX, NO_HASH, ELEMENT],
            Point::DigestWithTable => {
                &[INDEX, ROOM, TAG, PAYLOAD, NO_HASH, OVERFLOW, SHORT, ELEMENT]
            }
            Point::Slots => &[TOO_MANY, BUDGET, ROOM, OVERFLOW, SHORT, TAG, PAYLOAD],
            Point::Walk => &[SHORT, ROOM, ELEMENT, OVERFLOW, DUPLICATE],
            Point::Key => &[INDEX, SHORT, ELEMENT],
            Point::MapEntry => &[INDEX, SHORT, ELEMENT, OVERFLOW],
            Point::Lookup | Point::Values => &[ROOM, SHORT, OVERFLOW, ELEMENT],
            Point::HeldMap | Point::HeldValues => &[ELEMENT],
            Point::HeldEntry => &[INDEX],
            Point::Write => {
                &[FORMAT, FLAGS, TOO_MANY, TAG, PAYLOAD, PARTS, ELEMENT, DUPLICATE, ROOM]
            }
        }
    }
}
