//! Places that a comparison is worth little without: how often calls came by each.

use crate::paper;
use calls::{Call, Counts, MOST, Record, Said};
use ours::Ours;

pub const EDGES: [&str; 29] = [
    "a call with heap = limit",
    "a call with heap = limit - 1",
    "a call with heap past the limit",
    "a call with 62,500,000 atoms",
    "a call with 62,499,999 atoms",
    "a call with 62,500,000 pairs",
    "a call with 62,499,999 pairs",
    "new_atom up to the heap limit exactly",
    "new_atom one byte past the heap limit",
    "savings of 1023",
    "savings of 1024",
    "maybe_restore: NoReplace, small node",
    "maybe_restore: NoReplace, older pair or Bytes",
    "maybe_restore: Aborted for a pair",
    "maybe_restore: Aborted for 49 bytes",
    "maybe_restore: Aborted for more",
    "maybe_restore: Replace, the same range in a new slot",
    "maybe_restore: Replace, 48 bytes copied",
    "maybe_restore: Replace, Bytes copied",
    "maybe_restore: Replace, Bytes come back small",
    "new_substr of a small atom, stored",
    "new_concat of two or more, result would fit as small",
    "restore to a live checkpoint of a fresh allocator, plain",
    "restore to a live checkpoint of a fresh allocator, transparent",
    "restore to a live checkpoint of a fresh allocator, with a node",
    "restore to another checkpoint, accepted, plain",
    "restore to another checkpoint, accepted, transparent",
    "restore to another checkpoint, accepted, with a node",
    "restore to another checkpoint, 11 or 12",
];

/// Counts the edges that a call came by: the record before it, what our side said, and our side after it. `live`: it names a
/// checkpoint that is live in a run from a fresh allocator.
pub fn count(edges: &mut [u64; EDGES.len()], call: &Call, before: &Record, said: &Said, after: &Ours, live: bool) {
    let mut met = |edge: usize, holds: bool| edges[edge] += holds as u64;
    let (heap, limit) = (paper::heap(before), before.limit as u128);
    let most = MOST as u128;
    met(0, heap == limit);
    met(1, heap + 1 == limit);
    met(2, heap > limit);
    met(3, paper::atoms(before) == most);
    met(4, paper::atoms(before) + 1 == most);
    met(5, paper::pairs(before) == most);
    met(6, paper::pairs(before) + 1 == most);
    let restored = match call {
        Call::RestoreCheckpoint(_) => Some(0),
        Call::RestoreTransparentCheckpoint(_) => Some(1),
        Call::MaybeRestoreWithNode(..) => Some(2),
        _ => None,
    };
    if let Some(sort) = restored {
        let accepted = said.accepted() && *said != Said::Aborted;
        met(22 + sort, live && accepted);
        met(25 + sort, !live && accepted);
        met(28, !live && matches!(said.code(), 11 | 12));
    }
    match call {
        Call::NewAtom(v) => {
            met(7, said.accepted() && heap + v.len() as u128 == limit);
            met(8, said.code() == 2 && heap + v.len() as u128 == limit + 1);
        }
        Call::MaybeRestoreWithNode(cp, n) if said.accepted() => restore(&mut met, *cp, *n, before, said, after),
        Call::NewSubstr(n, ..) => met(20, paper::kind(*n) == 2 && matches!(said, Said::Made(made) if paper::kind(*made) == 1)),
        Call::NewConcat(_, nodes) if nodes.len() > 1 => {
            let Said::Made(n) = said else { return };
            if paper::kind(*n) != 1 {
                return;
            }
            let i = paper::index(*n);
            let part = &after.bytes[after.starts[i] as usize..after.ends[i] as usize];
            met(21, paper::fits(part));
        }
        _ => {}
    }
}

fn restore(met: &mut impl FnMut(usize, bool), cp: Counts, n: u32, before: &Record, said: &Said, after: &Ours) {
    let saved = paper::savings(cp, before.used);
    met(9, saved == 1023);
    met(10, saved == 1024);
    if saved < 1024 {
        return;
    }
    let i = paper::index(n);
    match said {
        Said::NoReplace => met(if paper::kind(n) == 2 { 11 } else { 12 }, true),
        Said::Aborted if paper::kind(n) == 0 => met(13, true),
        Said::Aborted => met(if after.ends[i] - after.starts[i] == 49 { 14 } else { 15 }, true),
        Said::Replace(new) if paper::kind(*new) == 2 => met(19, true),
        Said::Replace(_) if after.record.used.bytes == cp.bytes => met(16, true),
        Said::Replace(_) => met(if after.record.used.bytes == cp.bytes + 48 { 17 } else { 18 }, true),
        _ => {}
    }
}
