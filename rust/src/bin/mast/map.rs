//! `mast map` and `mast lookup`.

use vekalumist::{Lookup, Word};

use crate::args::Run;
use crate::tell::Value::{self, Element, Number};
use crate::tell::{table, Stop, Tell};

pub fn map(run: &Run, bytes: &[u8], tell: &mut Tell<'_>) -> Result<(), Stop> {
    let forest = run.scan(bytes)?;
    let mut keys = table(forest.key_places())?;
    let map = forest.advice(&mut keys)?;
    tell.records(&[], "map", |rows| {
        for entry in &map {
            let entry = entry?;
            rows.row(&[
                ("key", "key", Value::Word(entry.key)),
                ("at", "at", Number(entry.key_offset.0)),
                ("length", "values", Number(entry.values.len())),
                ("values_at", "at", Number(entry.values.offset().0)),
            ])?;
        }
        Ok(())
    })
}

pub fn lookup(run: &Run, bytes: &[u8], tell: &mut Tell<'_>) -> Result<(), Stop> {
    let forest = run.scan(bytes)?;
    let mut keys = table(forest.key_places())?;
    let map = forest.advice(&mut keys)?;
    let key: Word = run.key;
    match map.lookup(key)? {
        Lookup::Absent { compared } => Ok(tell.record(&[
            ("key", "key", Value::Word(key)),
            ("found", "absent", Value::Truth(false)),
            ("compared", "compared", Number(compared)),
        ])?),
        Lookup::Found { values, len, compared } => {
            let found = map.get(key)?;
            let header = [
                ("key", "key", Value::Word(key)),
                ("found", "found", Value::Truth(true)),
                ("length", "values", Number(len)),
                ("values_at", "at", Number(values.0)),
                ("compared", "compared", Number(compared)),
            ];
            tell.records(&header, "values", |rows| {
                for (i, value) in found.iter().flat_map(|values| values.iter()).enumerate() {
                    rows.row(&[("value", "value", Element(value)), ("at", "at", Number(values.0 + 8 * i))])?;
                }
                Ok(())
            })
        }
    }
}
