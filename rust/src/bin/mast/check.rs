//! `mast check`: what the scan lets pass.

use vekalumist::{Forest, Refusal};

use crate::args::Run;
use crate::tell::Value::{Number, Refused, Text, Truth};
use crate::tell::{table, Stop, Tell};

type Check = fn(&Forest<'_>) -> Result<(), Refusal>;

const CHECKS: [(&str, Check); 4] = [
    ("roots", |forest| forest.check_roots()),
    ("children", |forest| forest.check_children()),
    ("order", |forest| forest.check_order()),
    ("strict", |forest| forest.check_strict()),
];

pub fn check(run: &Run, bytes: &[u8], tell: &mut Tell<'_>) -> Result<(), Stop> {
    let forest = run.scan(bytes)?;
    let mut keys = table(forest.key_places())?;
    let map = forest.advice(&mut keys);
    tell.records(&[], "checks", |rows| {
        let mut said = |name: &'static str, held: Result<(), Refusal>| match held {
            Ok(()) => rows.row(&[("check", "", Text(name)), ("ok", "ok", Truth(true))]),
            Err(refusal) => rows.row(&[("check", "", Text(name)), ("ok", "", Truth(false)), ("refused", "", Refused(refusal))]),
        };
        for (name, check) in CHECKS {
            said(name, check(&forest))?;
        }
        said("map", map.map(|_| ()))?;
        match map {
            Ok(map) if map.trailing() > 0 => {
                let (bytes, at) = (("bytes", "found", Number(map.trailing())), ("at", "at", Number(map.end().0)));
                rows.row(&[("check", "", Text("trailing")), ("ok", "", Truth(false)), bytes, at])?;
                let follow = if map.trailing() == 1 { "byte follows" } else { "bytes follow" };
                Ok(rows.why(&format_args!("{} {follow} the map, the first at byte {}", map.trailing(), map.end()))?)
            }
            Ok(_) => Ok(said("trailing", Ok(()))?),
            Err(_) => Ok(()),
        }
    })
}
