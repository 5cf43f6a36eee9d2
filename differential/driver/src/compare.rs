//! Both sides in the same state, and one call made on both.

use crate::{fault, paper};
use calls::{Call, Record, Said, State};
use checked::Theirs;
use ours::{Lent, Ours};
use std::cell::RefCell;
use std::fmt;
use std::panic::{AssertUnwindSafe, catch_unwind};

thread_local! {
    static MESSAGE: RefCell<String> = const { RefCell::new(String::new()) };
}

/// Panics of the original are answers here: keep their message, print nothing.
pub fn silence() {
    let usual = std::panic::take_hook();
    std::panic::set_hook(Box::new(move |info| {
        let place = info.location().map(|l| l.file()).unwrap_or("");
        if place.starts_with("differential") || place.starts_with("driver") {
            usual(info);
        }
        let payload = info.payload();
        let text = payload.downcast_ref::<&str>().map(|s| s.to_string());
        let text = text.or_else(|| payload.downcast_ref::<String>().cloned()).unwrap_or_default();
        MESSAGE.with(|m| *m.borrow_mut() = text);
    }));
}

/// What a call of the original says, a panic included.
pub fn caught(call: impl FnOnce() -> Said) -> Said {
    catch_unwind(AssertUnwindSafe(call)).unwrap_or_else(|_| Said::Panicked(MESSAGE.with(|m| m.borrow().clone())))
}

/// What the Rust does where our side refuses.
#[derive(Clone, Copy, PartialEq, Eq, PartialOrd, Ord)]
pub enum Otherwise {
    Panics,
    Accepts,
    Refuses(u32),
    /// it refuses as ours does, but has changed the allocator by then
    Changes(u32),
}

impl fmt::Display for Otherwise {
    fn fmt(&self, f: &mut fmt::Formatter<'_>) -> fmt::Result {
        match self {
            Otherwise::Panics => write!(f, "panics"),
            Otherwise::Accepts => write!(f, "goes on"),
            Otherwise::Refuses(code) => write!(f, "refuses with {code}"),
            Otherwise::Changes(code) => write!(f, "refuses with {code}, changed"),
        }
    }
}

/// A kind of listed difference: what it is, in which call, and what the Rust does instead.
#[derive(Clone, Copy, PartialEq, Eq, PartialOrd, Ord)]
pub struct Kind {
    pub what: &'static str,
    pub call: usize,
    pub theirs: Otherwise,
}

pub enum Verdict {
    Same,
    Listed(Kind),
    Failed(String),
}

/// The listed differences, each by its predicate on the input and both answers; ours has been refused with `code`, which is
/// what document 01 says of this input.
fn listed(call: &Call, before: &Record, code: u32, theirs: &Said) -> Option<&'static str> {
    let panicked = matches!(theirs, Said::Panicked(_));
    match (code, call) {
        (1, Call::NewLimited(_)) if panicked => Some("new_limited above 4,294,967,295"),
        (1, Call::NewLimited(_)) => None,
        (1, _) => Some("1: unsound record or slot"),
        (2, Call::NewConcat(size, _)) if panicked && paper::heap(before) + *size as u128 >= 1 << 64 => {
            Some("2: a sum past 2^64")
        }
        (2 | 12, Call::MaybeRestoreWithNode(..)) if theirs.code() == code => {
            Some("2, 12: maybe_restore changes the allocator before it fails")
        }
        (5, _) => Some("5: node not valid"),
        (6, Call::Atom(..) | Call::AtomLen(_) | Call::AtomEq(..)) if panicked => Some("6 where the Rust panics"),
        (6, Call::NewConcat(_, nodes)) if panicked && nodes.len() == 1 => Some("6 where the Rust panics"),
        (11, Call::RestoreCheckpoint(_)) => Some("11: checkpoint not usable, plain"),
        (11, _) => Some("11: checkpoint not usable, transparent"),
        (13, _) if panicked => Some("13: small number above 67,108,863"),
        (14, _) if panicked => Some("14: more ghost pairs removed than there are"),
        (15, _) if theirs.accepted() => Some("15: the lent slices are full"),
        _ => None,
    }
}

/// A record in a line: atoms, pairs, bytes.
pub fn numbers(r: &Record) -> String {
    let (u, g) = (r.used, r.ghosts);
    format!("used {} {} {} ghosts {} {} {} limit {}", u.atoms, u.pairs, u.bytes, g.atoms, g.pairs, g.bytes, r.limit)
}

pub struct Sides {
    pub theirs: Theirs,
    pub ours: Ours,
    /// ours as the last call left it, so that a write out of place is seen
    kept: Ours,
    fault: usize,
}

impl Sides {
    pub fn of(state: &State, lent: Lent, fault: usize) -> Self {
        let ours = Ours::of(state, lent);
        Sides { theirs: Theirs::of(state), kept: ours.clone(), ours, fault }
    }

    /// One call on both sides: what ours said, and how the two compare.
    pub fn step(&mut self, call: &Call) -> (Said, Verdict) {
        let before = self.ours.record;
        let paper = paper::refusal(call, &self.ours);
        let theirs = caught(|| self.theirs.call(call));
        let ours = fault::call(self.fault, &mut self.ours, call);
        let verdict = match paper {
            Ok(()) => self.accepted(&before, &theirs, &ours),
            Err((code, node)) => self.refused(call, &before, code, node, &theirs, &ours),
        };
        (ours, verdict)
    }

    fn accepted(&mut self, before: &Record, theirs: &Said, ours: &Said) -> Verdict {
        if ours != theirs {
            return Verdict::Failed(format!("the Rust says {theirs:?}, ours {ours:?}"));
        }
        let (a, b) = (self.theirs.record(), self.ours.record);
        if a != b {
            return Verdict::Failed(format!("both say {ours:?}, then the Rust has {}, ours {}", numbers(&a), numbers(&b)));
        }
        if !self.same_slots() {
            return Verdict::Failed(format!("both say {ours:?}, then a used byte or slot differs"));
        }
        if !self.free_slots_kept(before) {
            return Verdict::Failed(format!("both say {ours:?}, but ours wrote a slot past those in use"));
        }
        Verdict::Same
    }

    fn refused(&mut self, call: &Call, before: &Record, code: u32, node: u32, theirs: &Said, ours: &Said) -> Verdict {
        if *ours != Said::Refused(code, node) {
            return Verdict::Failed(format!(
                "document 01 refuses with {code} and {node}, ours says {ours:?}, the Rust {theirs:?}"
            ));
        }
        if self.ours.record != *before {
            return Verdict::Failed(format!("refused with {code}, yet ours has another record"));
        }
        if !self.slots_kept() {
            return Verdict::Failed(format!("refused with {code}, yet ours wrote a slot"));
        }
        let same_state = self.theirs.record() == *before && self.same_slots();
        if theirs == ours && same_state {
            return Verdict::Same;
        }
        let Some(what) = listed(call, before, code, theirs) else {
            return Verdict::Failed(format!(
                "ours says {ours:?}, as document 01, the Rust {theirs:?}: not a listed difference"
            ));
        };
        let otherwise = match theirs {
            Said::Panicked(_) => Otherwise::Panics,
            Said::Refused(c, _) if theirs == ours => Otherwise::Changes(*c),
            Said::Refused(c, _) => Otherwise::Refuses(*c),
            _ => Otherwise::Accepts,
        };
        Verdict::Listed(Kind { what, call: call.number(), theirs: otherwise })
    }

    /// After a listed difference the Rust goes on from the state in which ours is.
    pub fn again(&mut self, state: &State) {
        self.theirs = Theirs::of(state);
    }

    fn same_slots(&self) -> bool {
        let o = &self.ours;
        self.theirs.holds(&o.bytes, &o.starts, &o.ends, &o.firsts, &o.rests)
    }

    fn slots_kept(&self) -> bool {
        let (o, k) = (&self.ours, &self.kept);
        o.bytes == k.bytes && o.starts == k.starts && o.ends == k.ends && o.firsts == k.firsts && o.rests == k.rests
    }

    /// Whether nothing past the used slots, before and after, was written; what is used is then kept for the next call.
    fn free_slots_kept(&mut self, before: &Record) -> bool {
        let (was, is) = (before.used, self.ours.record.used);
        let (o, k) = (&self.ours, &mut self.kept);
        let atoms = was.atoms.max(is.atoms);
        let pairs = was.pairs.max(is.pairs);
        free(&o.bytes, &mut k.bytes, was.bytes.max(is.bytes))
            && free(&o.starts, &mut k.starts, atoms)
            && free(&o.ends, &mut k.ends, atoms)
            && free(&o.firsts, &mut k.firsts, pairs)
            && free(&o.rests, &mut k.rests, pairs)
    }
}

fn free<T: Copy + PartialEq>(now: &[T], kept: &mut [T], used: usize) -> bool {
    let used = used.min(now.len());
    kept[..used].copy_from_slice(&now[..used]);
    now[used..] == kept[used..]
}
