//! `mast roots` and `mast nodes`.

use vekalumist::{ByteOffset, Entry, Forest, Kind, Layout, NodeId, Slot, SlotTable};

use crate::args::Run;
use crate::tell::Value::{Ids, None, Number, Refused, Text, Word};
use crate::tell::{table, Field, Stop, Tell};

pub fn roots(run: &Run, bytes: &[u8], tell: &mut Tell<'_>) -> Result<(), Stop> {
    let forest = run.scan(bytes)?;
    let mut table = table(forest.layout().node_count)?;
    let slots = forest.slots(&mut table)?;
    tell.records(&[], "roots", |rows| {
        for (i, root) in forest.roots().enumerate() {
            let mut row = vec![("root", "root", Number(i))];
            row.extend(placed(forest.layout().root_offset(i)));
            match root.and_then(|id| Ok((id, forest.entry(id)?))) {
                Ok((id, entry)) => {
                    row.push(("node", "node", Number(id.index())));
                    row.push(("kind", "", Text(entry.name())));
                    add_digest(&mut row, &forest, &slots, id, entry);
                }
                Err(refusal) => row.push(("refused", "", Refused(refusal))),
            }
            rows.row(&row)?;
        }
        Ok(())
    })
}

pub fn nodes(run: &Run, bytes: &[u8], tell: &mut Tell<'_>) -> Result<(), Stop> {
    let forest = run.scan(bytes)?;
    let count = forest.layout().node_count;
    let (from, to) = (run.range.from, run.range.to.unwrap_or(count.try_into().unwrap_or(u32::MAX)));
    if from < to {
        forest.entry(NodeId(to - 1))?; // INDEX where there are not so many
    }
    let mut table = table(count)?;
    let slots = forest.slots(&mut table)?;
    tell.records(&[], "nodes", |rows| {
        for node in forest.nodes().skip(from as usize).take(to.saturating_sub(from) as usize) {
            let (id, entry) = node?;
            let mut row = vec![("node", "node", Number(id.index()))];
            row.extend(placed(forest.layout().entry_offset(id)));
            row.push(("kind", "", Text(entry.name())));
            match entry {
                Entry::Block { ops_offset } => row.push(("ops_offset", "", Number(ops_offset as usize))),
                _ => row.push(("children", "", Ids(entry.children()))),
            }
            if let Some(Slot(slot)) = slots.slot(id) {
                row.push(("slot", "slot", Number(slot)));
            }
            add_digest(&mut row, &forest, &slots, id, entry);
            rows.row(&row)?;
        }
        Ok(())
    })
}

fn placed(at: Option<ByteOffset>) -> Option<Field<'static>> {
    at.map(|at| ("at", "at", Number(at.0)))
}

/// The digest and its place, that there is none, or why it is refused.
fn add_digest(row: &mut Vec<Field<'_>>, forest: &Forest<'_>, slots: &SlotTable<'_, '_>, id: NodeId, entry: Entry) {
    match slots.digest(id) {
        Ok(digest) => {
            row.push(("digest", "digest", Word(digest)));
            let at = slots.slot(id).and_then(|slot| digest_offset(forest.layout(), entry, slot));
            row.extend(at.map(|at| ("digest_at", "at", Number(at.0))));
        }
        Err(refusal) if refusal.kind == Kind::NoHash => row.push(("digest", "digest", None)),
        Err(refusal) => row.push(("refused", "digest", Refused(refusal))),
    }
}

/// Where a node's digest lies: its slot is a row of 32 bytes, of the external digests or of the hashes. Here alone a slot becomes an offset.
fn digest_offset(layout: &Layout, entry: Entry, slot: Slot) -> Option<ByteOffset> {
    let section = if entry.is_external() { Some(layout.external_digest_offset) } else { layout.node_hash_offset() };
    Some(ByteOffset(section?.0.checked_add(slot.0.checked_mul(32)?)?))
}
