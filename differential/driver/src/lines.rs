//! Calls, answers and slots as lines: crates/answers/FORMAT.md says how they are written.

use calls::{Call, Checkpoint, Counts, NIL, Record, Said, State};
use ours::Lent;
use std::ops::Range;

/// What a list holds where nothing was laid, and each byte of a scratch before the call.
const BYTE: u8 = 165;
const SLOT: u32 = 2779096485;
const UNTOUCHED: u8 = 170;

/// How many nodes a line of new_concat has at most.
pub const MOST_NODES: usize = 16;

/// So many equal bytes between two that changed don't make a line of their own.
const GAP: usize = 24;

fn spaced(numbers: &[u64]) -> String {
    let words: Vec<String> = numbers.iter().map(u64::to_string).collect();
    words.join(" ")
}

fn counts(c: &Counts) -> [u64; 3] {
    [c.atoms as u64, c.pairs as u64, c.bytes as u64]
}

fn plain(cp: &Checkpoint) -> Vec<u64> {
    [counts(&cp.used), counts(&cp.ghosts)].concat()
}

/// The seven numbers of a record.
pub fn record(r: &Record) -> String {
    spaced(&[&counts(&r.used)[..], &counts(&r.ghosts), &[r.limit as u64]].concat())
}

/// Bytes as two words: how many, and the shortest pattern that gives them all.
fn pattern(v: &[u8]) -> String {
    if v.is_empty() {
        return "0 -".to_string();
    }
    let period = (1..v.len()).find(|p| v[*p..] == v[..v.len() - p]).unwrap_or(v.len());
    let digits: Vec<String> = v[..period].iter().map(|b| format!("{b:02x}")).collect();
    format!("{} {}", v.len(), digits.concat())
}

/// The arguments of a call.
fn arguments(call: &Call) -> String {
    match call {
        Call::NewLimited(n) | Call::AddGhostPair(n) | Call::RemoveGhostPair(n) | Call::AddGhostAtom(n) => n.to_string(),
        Call::ObjectType(n)
        | Call::Index(n)
        | Call::IsAtom(n)
        | Call::IsPair(n)
        | Call::LenForValue(n)
        | Call::NewSmallNumber(n)
        | Call::AtomLen(n)
        | Call::SmallNumber(n)
        | Call::Node(n)
        | Call::Sexp(n)
        | Call::Next(n) => n.to_string(),
        Call::RestoreCheckpoint(cp) => spaced(&plain(cp)),
        Call::RestoreTransparentCheckpoint(cp) => spaced(&counts(cp)),
        Call::CheckpointNodeStatus(cp, n) | Call::MaybeRestoreWithNode(cp, n) => format!("{} {n}", spaced(&counts(cp))),
        Call::NewAtom(v) | Call::FitsInSmallAtom(v) => pattern(v),
        Call::NewU64(x) => x.to_string(),
        Call::NewI64(x) => format!("{} {}", u64::from(*x < 0), x.unsigned_abs()),
        Call::NewPair(a, b) | Call::AtomEq(a, b) => format!("{a} {b}"),
        Call::NewSubstr(n, start, end) => format!("{n} {start} {end}"),
        Call::NewConcat(size, nodes) => {
            spaced(&std::iter::once(*size as u64).chain(nodes.iter().map(|n| *n as u64)).collect::<Vec<_>>())
        }
        Call::Atom(n, scratch) => format!("{n} {scratch}"),
        _ => String::new(),
    }
}

/// How many values a call's answer has.
fn width(call: &Call) -> usize {
    match call {
        Call::Checkpoint => 6,
        Call::Atom(..) => 4,
        Call::TransparentCheckpoint | Call::CheckpointNodeStatus(..) => 3,
        Call::Node(_) | Call::Sexp(_) | Call::Next(_) => 3,
        Call::FitsInSmallAtom(_) | Call::SmallNumber(_) => 2,
        Call::RestoreCheckpoint(_) | Call::RestoreTransparentCheckpoint(_) => 0,
        Call::NewLimited(_) | Call::NewAtom(_) | Call::NewSmallNumber(_) | Call::NewU64(_) | Call::NewI64(_) => 0,
        Call::NewPair(..) | Call::NewSubstr(..) | Call::NewConcat(..) => 0,
        Call::AddGhostPair(_) | Call::RemoveGhostPair(_) | Call::AddGhostAtom(_) => 0,
        _ => 1,
    }
}

/// The values that an answer gives; those behind them are 0.
fn given(said: &Said) -> Vec<u64> {
    match said {
        Said::Number(x) => vec![*x],
        Said::Value(Some(v)) => vec![1, *v as u64],
        Said::Buffer(start, end) => vec![1, *start as u64, *end as u64],
        Said::U32(v) => vec![2, *v as u64],
        Said::Pair(first, rest) => vec![0, *first as u64, *rest as u64],
        Said::Children(Some((first, rest))) => vec![1, *first as u64, *rest as u64],
        Said::Borrowed(offset, part) => vec![0, *offset as u64, part.len() as u64],
        Said::Scratch(_, len) => vec![1, 4 - *len as u64, *len as u64],
        Said::AfterNewBytes => vec![1],
        Said::AfterOldBytes(start, end) => vec![2, *start as u64, *end as u64],
        Said::Plain(cp) => plain(cp),
        Said::Transparent(cp) => counts(cp).to_vec(),
        Said::Replace(_) => vec![1],
        Said::Aborted => vec![2],
        Said::Panicked(_) | Said::Odd(_) => unreachable!("our side says neither in a run that passes"),
        _ => Vec::new(),
    }
}

/// All values: for `atom` the last is what the scratch holds.
fn values(call: &Call, said: &Said) -> Vec<u64> {
    let mut values = given(said);
    values.resize(width(call), 0);
    if let Call::Atom(_, scratch) = call {
        values[3] = match said {
            Said::Scratch(bytes, _) => u32::from_be_bytes(*bytes) as u64,
            _ => (0..*scratch).fold(0, |n, _| n << 8 | UNTOUCHED as u64),
        };
    }
    values
}

/// A call with its answer, and a line with the record that the driver goes on with, where that isn't the library's.
pub fn call(call: &Call, said: &Said, before: &Record, after: &Record) -> String {
    let (code, node) = match said {
        Said::Refused(code, node) => (*code, *node),
        Said::Made(node) | Said::Replace(node) => (0, *node),
        _ => (0, NIL),
    };
    let mut words = vec![call.name().to_string(), arguments(call), format!("= {code} {node}"), spaced(&values(call, said))];
    if before != after {
        words.push(format!("| {}", record(after)));
    }
    words.retain(|word| !word.is_empty());
    let mut text = words.join(" ") + "\n";
    if matches!(call, Call::NewLimited(_)) && code != 0 && before != after {
        text += &format!("record {}\n", record(before));
    }
    text
}

/// Where two lists differ, as ranges; those with at most `gap` equal entries between them are one.
fn changed<T: PartialEq>(old: &[T], new: &[T], gap: usize) -> Vec<Range<usize>> {
    let mut ranges: Vec<Range<usize>> = Vec::new();
    for i in (0..old.len().min(new.len())).filter(|i| old[*i] != new[*i]) {
        match ranges.last_mut() {
            Some(last) if i - last.end <= gap => last.end = i + 1,
            _ => ranges.push(i..i + 1),
        }
    }
    ranges
}

/// All that the lists hold which are lent, as the lines so far say.
pub struct Shadow {
    bytes: Vec<u8>,
    atoms: Vec<(u32, u32)>,
    pairs: Vec<(u32, u32)>,
}

impl Shadow {
    /// Nothing is laid yet.
    pub fn of(lent: Lent) -> Self {
        let slots = |one: usize, other: usize| vec![(SLOT, SLOT); one.min(other)];
        Shadow { bytes: vec![BYTE; lent[0]], atoms: slots(lent[1], lent[2]), pairs: slots(lent[3], lent[4]) }
    }

    /// `put` or `now` lines for what the state holds otherwise.
    pub fn tell(&mut self, word: &str, state: &State, text: &mut String) {
        for range in changed(&self.bytes, &state.bytes, GAP) {
            let new = &state.bytes[range.clone()];
            *text += &format!("{word} bytes {} {}\n", range.start, pattern(new));
            self.bytes[range].copy_from_slice(new);
        }
        tell_slots(word, "atoms", &mut self.atoms, &state.atoms, text);
        tell_slots(word, "pairs", &mut self.pairs, &state.pairs, text);
    }
}

/// The same for slots, in stretches with even steps.
fn tell_slots(word: &str, name: &str, old: &mut [(u32, u32)], new: &[(u32, u32)], text: &mut String) {
    for range in changed(old, new, 0) {
        let mut left = &new[range.clone()];
        while let [(one, other), ..] = left {
            let (n, steps) = stretch(left);
            let at = range.end - left.len();
            *text += &format!("{word} {name} {at} {n} {one} {} {other} {}\n", steps.0, steps.1);
            left = &left[n..];
        }
        old[range.clone()].copy_from_slice(&new[range]);
    }
}

/// How many slots from the first on have even steps, and these; one by itself, where it is fewer than three.
fn stretch(slots: &[(u32, u32)]) -> (usize, (u32, u32)) {
    let step = |i: usize| (slots[i].0.wrapping_sub(slots[i - 1].0), slots[i].1.wrapping_sub(slots[i - 1].1));
    let n = 2 + (2..slots.len()).take_while(|i| step(*i) == step(1)).count();
    if n < 3 || slots.len() < 3 { (1, (0, 0)) } else { (n, step(1)) }
}
