//! Five deliberate faults in our side, each of which a run must find.

use crate::paper;
use calls::{Call, Said};
use ours::Ours;

pub const FAULTS: [&str; 6] = [
    "none",
    "a small atom raises no ghost heap",
    "a part of a small atom is always made small",
    "maybe_restore_with_node wants savings of 1025",
    "a transparent restore adds nothing to the ghosts",
    "a concat result that fits is made small",
];

/// The call by our side, with a fault.
pub fn call(fault: usize, ours: &mut Ours, call: &Call) -> Said {
    let before = ours.record;
    let said = ours.call(call);
    match (fault, call, &said) {
        (1, Call::NewAtom(_) | Call::NewSmallNumber(_), Said::Made(n)) if paper::kind(*n) == 2 => {
            ours.record.ghosts.bytes = before.ghosts.bytes;
        }
        (2, Call::NewSubstr(n, start, end), Said::Made(made)) if paper::kind(*n) == 2 && paper::kind(*made) == 1 => {
            let value = n & 0x3ffffff;
            let len = paper::small_len(value);
            let part = &value.to_be_bytes()[4 - len..][*start as usize..*end as usize];
            let value = part.iter().fold(0, |sum, b| sum << 8 | *b as u32);
            ours.record = before;
            ours.record.ghosts.atoms += 1;
            return Said::Made(2 << 26 | value);
        }
        (3, Call::MaybeRestoreWithNode(cp, _), Said::NoReplace) if paper::savings(*cp, before.used) == 1024 => {
            ours.record = before;
            return Said::Aborted;
        }
        (4, Call::RestoreTransparentCheckpoint(_), Said::Done) => ours.record.ghosts = before.ghosts,
        (5, Call::NewConcat(size, nodes), Said::Made(n)) if nodes.len() > 1 => {
            let Said::Value(Some(value)) = ours.call(&Call::SmallNumber(*n)) else {
                return said;
            };
            ours.record = before;
            ours.record.ghosts.atoms += 1;
            ours.record.ghosts.bytes += size;
            return Said::Made(2 << 26 | value);
        }
        _ => {}
    }
    said
}
