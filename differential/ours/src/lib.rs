//! Our library with the slices that it is lent, driven by calls given as data. The functions that lend them are the host's; but
//! nothing grows here, where a test chooses how much is lent.

use calls::{Call, Checkpoint, Counts, NIL, Record, Said, State};
pub use clvm_allocator::ffi;
use ffi::*;
use std::ops::{Deref, DerefMut};

/// How many elements are lent: bytes, starts, ends, firsts, rests.
pub type Lent = [usize; 5];

/// The record and the slots, with the host's functions for the calls.
#[derive(Clone)]
pub struct Ours(Held);

impl Deref for Ours {
    type Target = Held;

    #[inline(always)]
    fn deref(&self) -> &Held {
        &self.0
    }
}

impl DerefMut for Ours {
    #[inline(always)]
    fn deref_mut(&mut self) -> &mut Held {
        &mut self.0
    }
}

/// What stands in slots that nobody has used.
const FILL: u32 = 0xdddddddd;

/// What stands in a record or a checkpoint before a call writes it.
const UNWRITTEN: Counts = Counts { atoms: FILL as usize, pairs: FILL as usize, bytes: FILL as usize };

impl Ours {
    /// The slots of a state, with slices of the lengths lent (longer or shorter than what is used).
    pub fn of(state: &State, lent: Lent) -> Self {
        let column = |slots: &[(u32, u32)], second: bool, length: usize| {
            let mut column: Vec<u32> = slots.iter().map(|slot| if second { slot.1 } else { slot.0 }).collect();
            column.resize(length, FILL);
            column
        };
        let mut bytes = state.bytes.clone();
        bytes.resize(lent[0], FILL as u8);
        Ours(Held {
            record: state.record(),
            bytes,
            starts: column(&state.atoms, false, lent[1]),
            ends: column(&state.atoms, true, lent[2]),
            firsts: column(&state.pairs, false, lent[3]),
            rests: column(&state.pairs, true, lent[4]),
        })
    }

    /// The used part as a state; none where less is lent than is used.
    pub fn state(&self) -> Option<State> {
        let used = self.record.used;
        let zip = |a: &[u32], b: &[u32]| a.iter().copied().zip(b.iter().copied()).collect();
        Some(State {
            ghosts: self.record.ghosts,
            limit: self.record.limit,
            bytes: self.bytes.get(..used.bytes)?.to_vec(),
            atoms: zip(self.starts.get(..used.atoms)?, self.ends.get(..used.atoms)?),
            pairs: zip(self.firsts.get(..used.pairs)?, self.rests.get(..used.pairs)?),
        })
    }

    /// The call by our library's function.
    pub fn call(&mut self, call: &Call) -> Said {
        match call {
            Call::NewLimited(limit) => self.renewed(*limit),
            Call::ObjectType(n) => number(clvm_object_type(*n)),
            Call::Index(n) => number(clvm_index(*n)),
            Call::IsAtom(n) => number(clvm_is_atom(*n)),
            Call::IsPair(n) => number(clvm_is_pair(*n)),
            Call::FitsInSmallAtom(v) => value(fits_in_small_atom(v)),
            Call::LenForValue(v) => Said::Number(clvm_len_for_value(*v) as u64),
            Call::AtomCount => number(self.atom_count()),
            Call::AllocatedAtomCount => number(self.allocated_atom_count()),
            Call::PairCount => number(self.pair_count()),
            Call::AllocatedPairCount => number(self.allocated_pair_count()),
            Call::HeapSize => number(self.heap_size()),
            Call::AllocatedHeapSize => number(self.allocated_heap_size()),
            Call::Checkpoint => {
                let mut taken = Checkpoint { used: UNWRITTEN, ghosts: UNWRITTEN };
                let kept = taken;
                let o = self.checkpoint(&mut taken);
                read(o.code, o.node, taken == kept, || Said::Plain(taken))
            }
            Call::TransparentCheckpoint => {
                let mut taken = UNWRITTEN;
                let o = self.transparent_checkpoint(&mut taken);
                read(o.code, o.node, taken == UNWRITTEN, || Said::Transparent(taken))
            }
            Call::RestoreCheckpoint(cp) => done(self.restore_checkpoint(cp)),
            Call::RestoreTransparentCheckpoint(cp) => done(self.restore_transparent_checkpoint(cp)),
            Call::CheckpointNodeStatus(cp, n) => status(self.checkpoint_node_status(cp, *n)),
            Call::MaybeRestoreWithNode(cp, n) => restored(self.maybe_restore_with_node(cp, *n)),
            Call::NewAtom(v) => made(self.new_atom(v)),
            Call::NewSmallNumber(v) => made(self.new_small_number(*v)),
            Call::NewU64(x) => made(self.new_u64(*x)),
            Call::NewI64(x) => made(self.new_i64(*x)),
            Call::NewPair(first, rest) => made(self.new_pair(*first, *rest)),
            Call::AddGhostPair(amount) => done(self.add_ghost_pair(*amount)),
            Call::RemoveGhostPair(amount) => done(self.remove_ghost_pair(*amount)),
            Call::AddGhostAtom(amount) => done(self.add_ghost_atom(*amount)),
            Call::NewSubstr(n, start, end) => made(self.new_substr(*n, *start, *end)),
            Call::NewConcat(size, nodes) => made(self.new_concat(*size, nodes)),
            Call::AtomEq(lhs, rhs) => number(self.atom_eq(*lhs, *rhs)),
            Call::Atom(n, scratch) => {
                let mut lent = vec![FILL as u8; *scratch];
                let o = self.atom(&mut lent, *n);
                self.part(o, &lent)
            }
            Call::AtomLen(n) => number(self.atom_len(*n)),
            Call::SmallNumber(n) => value(self.small_number(*n)),
            Call::Node(n) => visited(self.node(*n)),
            Call::Sexp(n) => children(self.sexp(*n)),
            Call::Next(n) => children(self.next(*n)),
        }
    }

    /// new_limited writes a record of its own, so that a refusal, which writes that for limit 0, changes nothing here.
    fn renewed(&mut self, limit: usize) -> Said {
        let mut record = Record { used: UNWRITTEN, ghosts: UNWRITTEN, limit: FILL as usize };
        let o = clvm_new_limited(&mut record, limit);
        if o.code == 0 {
            self.record = record;
        } else if record != State::fresh(0).record() {
            return Said::Odd(format!("new_limited refused with {record:?}"));
        }
        done(o)
    }

    /// The part that atom answers. The scratch is left alone but for a small atom.
    fn part(&self, o: Part, scratch: &[u8]) -> Said {
        let untouched = scratch.iter().all(|b| *b == FILL as u8);
        match (o.code, o.place, o.offset, o.length) {
            (0, 0, offset, length) if untouched && offset + length <= self.bytes.len() => {
                Said::Borrowed(offset, self.bytes[offset..offset + length].to_vec())
            }
            (0, 1, offset, length) if scratch.len() == 4 && offset + length == 4 => {
                Said::Scratch([scratch[0], scratch[1], scratch[2], scratch[3]], length)
            }
            (code, 0, 0, 0) if untouched && code != 0 => Said::Refused(code, o.node),
            odd => Said::Odd(format!("part {odd:?} with scratch {scratch:?}")),
        }
    }
}

fn made(o: Answer) -> Said {
    if o.code == 0 { Said::Made(o.node) } else { Said::Refused(o.code, o.node) }
}

fn done(o: Answer) -> Said {
    match (o.code, o.node) {
        (0, NIL) => Said::Done,
        (0, node) => Said::Odd(format!("done with node {node}")),
        (code, node) => Said::Refused(code, node),
    }
}

fn restored(o: Restored) -> Said {
    match (o.code, o.outcome, o.node) {
        (0, 0, NIL) => Said::NoReplace,
        (0, 1, node) => Said::Replace(node),
        (0, 2, NIL) => Said::Aborted,
        (code, 0, node) if code != 0 => Said::Refused(code, node),
        odd => Said::Odd(format!("code, outcome, node {odd:?}")),
    }
}

/// An answer of a call that makes no node: accepted it names nil, refused it gives nothing, that is its values are 0, or what
/// it is to write is as it was.
fn read(code: u32, node: u32, nothing: bool, accepted: impl FnOnce() -> Said) -> Said {
    match code {
        0 if node == NIL => accepted(),
        0 => Said::Odd(format!("accepted with node {node}")),
        _ if nothing => Said::Refused(code, node),
        _ => Said::Odd(format!("refused with {code}, and a value")),
    }
}

fn number(o: Number) -> Said {
    read(o.code, o.node, o.value == 0, || Said::Number(o.value as u64))
}

fn value(o: Optional) -> Said {
    read(o.code, o.node, (o.some, o.value) == (0, 0), || match (o.some, o.value) {
        (0, 0) => Said::Value(None),
        (1, value) => Said::Value(Some(value)),
        odd => Said::Odd(format!("option {odd:?}")),
    })
}

fn children(o: Children) -> Said {
    read(o.code, o.node, (o.is_pair, o.first, o.rest) == (0, 0, 0), || match (o.is_pair, o.first, o.rest) {
        (0, 0, 0) => Said::Children(None),
        (1, first, rest) => Said::Children(Some((first, rest))),
        odd => Said::Odd(format!("children {odd:?}")),
    })
}

fn status(o: Status) -> Said {
    read(o.code, o.node, (o.status, o.start, o.end) == (0, 0, 0), || match (o.status, o.start, o.end) {
        (0, 0, 0) => Said::Before,
        (1, 0, 0) => Said::AfterNewBytes,
        (2, start, end) => Said::AfterOldBytes(start, end),
        odd => Said::Odd(format!("status {odd:?}")),
    })
}

fn visited(o: Visited) -> Said {
    read(o.code, o.node, (o.kind, o.first, o.second) == (0, 0, 0), || match (o.kind, o.first, o.second) {
        (0, first, rest) => Said::Pair(first as u32, rest as u32),
        (1, start, end) => Said::Buffer(start, end),
        (2, value, 0) => Said::U32(value as u32),
        odd => Said::Odd(format!("visited {odd:?}")),
    })
}
