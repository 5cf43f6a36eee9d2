//! Drives the unchanged allocator by calls given as data, and shows all that it holds.

use super::*;
use calls::{Call, Counts, Record, Said, State};

pub struct Theirs {
    pub a: Allocator,
}

impl Theirs {
    /// An allocator in any state. (new_limited isn't used: it reserves a mebibyte.)
    pub fn of(state: &State) -> Self {
        let node = |&(first, rest): &(u32, u32)| IntPair { first: NodePtr(first), rest: NodePtr(rest) };
        Theirs {
            a: Allocator {
                u8_vec: state.bytes.clone(),
                pair_vec: state.pairs.iter().map(node).collect(),
                atom_vec: state.atoms.iter().map(|&(start, end)| AtomBuf { start, end }).collect(),
                heap_limit: state.limit,
                ghost_atoms: state.ghosts.atoms,
                ghost_pairs: state.ghosts.pairs,
                ghost_heap: state.ghosts.bytes,
                validated_g1_points: HashSet::new(),
                validated_g2_points: HashSet::new(),
            },
        }
    }

    pub fn record(&self) -> Record {
        let a = &self.a;
        Record {
            used: Counts { atoms: a.atom_vec.len(), pairs: a.pair_vec.len(), bytes: a.u8_vec.len() },
            ghosts: Counts { atoms: a.ghost_atoms, pairs: a.ghost_pairs, bytes: a.ghost_heap },
            limit: a.heap_limit,
        }
    }

    /// Whether every used byte and slot that is lent to our side is the one held here.
    pub fn holds(&self, bytes: &[u8], starts: &[u32], ends: &[u32], firsts: &[u32], rests: &[u32]) -> bool {
        let used = &self.a.u8_vec;
        let lent = used.len().min(bytes.len());
        let atoms = &self.a.atom_vec;
        let pairs = &self.a.pair_vec;
        used[..lent] == bytes[..lent]
            && atoms.iter().zip(starts).all(|(slot, start)| slot.start == *start)
            && atoms.iter().zip(ends).all(|(slot, end)| slot.end == *end)
            && pairs.iter().zip(firsts).all(|(slot, first)| slot.first.0 == *first)
            && pairs.iter().zip(rests).all(|(slot, rest)| slot.rest.0 == *rest)
    }

    /// The call by the original's own function; it may panic.
    pub fn call(&mut self, call: &Call) -> Said {
        let a = &mut self.a;
        match call {
            Call::NewLimited(limit) => {
                self.a = Allocator::new_limited(*limit);
                Said::Done
            }
            Call::ObjectType(n) => number(NodePtr(*n).object_type() as usize),
            Call::Index(n) => number(NodePtr(*n).index() as usize),
            Call::IsAtom(n) => number(NodePtr(*n).is_atom() as usize),
            Call::IsPair(n) => number(NodePtr(*n).is_pair() as usize),
            Call::FitsInSmallAtom(v) => Said::Value(fits_in_small_atom(v)),
            Call::LenForValue(v) => number(len_for_value(*v)),
            Call::AtomCount => number(a.atom_count()),
            Call::AllocatedAtomCount => number(a.allocated_atom_count()),
            Call::PairCount => number(a.pair_count()),
            Call::AllocatedPairCount => number(a.allocated_pair_count()),
            Call::HeapSize => number(a.heap_size()),
            Call::AllocatedHeapSize => number(a.allocated_heap_size()),
            Call::Checkpoint => {
                let cp = a.checkpoint();
                let ghosts = Counts { atoms: cp.ghost_atoms, pairs: cp.ghost_pairs, bytes: cp.ghost_heap };
                Said::Plain(calls::Checkpoint { used: counts(&cp.inner), ghosts })
            }
            Call::TransparentCheckpoint => Said::Transparent(counts(&a.transparent_checkpoint())),
            Call::RestoreCheckpoint(cp) => {
                a.restore_checkpoint(&Checkpoint {
                    inner: mark(cp.used),
                    ghost_atoms: cp.ghosts.atoms,
                    ghost_pairs: cp.ghosts.pairs,
                    ghost_heap: cp.ghosts.bytes,
                });
                Said::Done
            }
            Call::RestoreTransparentCheckpoint(cp) => {
                a.restore_transparent_checkpoint(&mark(*cp));
                Said::Done
            }
            Call::CheckpointNodeStatus(cp, n) => match a.checkpoint_node_status(&mark(*cp), NodePtr(*n)) {
                NodeStatus::Before => Said::Before,
                NodeStatus::AfterNewBytes => Said::AfterNewBytes,
                NodeStatus::AfterOldBytes { start, end } => Said::AfterOldBytes(start as usize, end as usize),
            },
            Call::MaybeRestoreWithNode(cp, n) => match a.maybe_restore_with_node(&mark(*cp), NodePtr(*n)) {
                Ok(MaybeRestore::NoReplace) => Said::NoReplace,
                Ok(MaybeRestore::Replace(n)) => Said::Replace(n.0),
                Ok(MaybeRestore::Aborted) => Said::Aborted,
                Err(e) => refusal(e),
            },
            Call::NewAtom(v) => made(a.new_atom(v)),
            Call::NewSmallNumber(v) => made(a.new_small_number(*v)),
            Call::NewU64(v) => made(a.new_u64(*v)),
            Call::NewI64(v) => made(a.new_i64(*v)),
            Call::NewPair(first, rest) => made(a.new_pair(NodePtr(*first), NodePtr(*rest))),
            Call::AddGhostPair(amount) => done(a.add_ghost_pair(*amount)),
            Call::RemoveGhostPair(amount) => done(a.remove_ghost_pair(*amount)),
            Call::AddGhostAtom(amount) => done(a.add_ghost_atom(*amount)),
            Call::NewSubstr(n, start, end) => made(a.new_substr(NodePtr(*n), *start, *end)),
            Call::NewConcat(size, nodes) => {
                let nodes: Vec<NodePtr> = nodes.iter().map(|n| NodePtr(*n)).collect();
                made(a.new_concat(*size, &nodes))
            }
            Call::AtomEq(lhs, rhs) => number(a.atom_eq(NodePtr(*lhs), NodePtr(*rhs)) as usize),
            Call::Atom(n, _) => match a.atom(NodePtr(*n)) {
                Atom::Borrowed(part) => Said::Borrowed(offset(a, part), part.to_vec()),
                Atom::U32(bytes, len) => Said::Scratch(bytes, len),
            },
            Call::AtomLen(n) => number(a.atom_len(NodePtr(*n))),
            Call::SmallNumber(n) => Said::Value(a.small_number(NodePtr(*n))),
            Call::Node(n) => match a.node(NodePtr(*n)) {
                NodeVisitor::Buffer(part) => {
                    let start = offset(a, part);
                    Said::Buffer(start, start + part.len())
                }
                NodeVisitor::U32(value) => Said::U32(value),
                NodeVisitor::Pair(first, rest) => Said::Pair(first.0, rest.0),
            },
            Call::Sexp(n) => match a.sexp(NodePtr(*n)) {
                SExp::Pair(first, rest) => Said::Children(Some((first.0, rest.0))),
                SExp::Atom => Said::Children(None),
            },
            Call::Next(n) => Said::Children(a.next(NodePtr(*n)).map(|(first, rest)| (first.0, rest.0))),
        }
    }
}

/// A node by its number, and its number.
pub fn node(n: u32) -> NodePtr {
    NodePtr(n)
}

pub fn bits(n: NodePtr) -> u32 {
    n.0
}

pub fn mark(cp: Counts) -> TransparentCheckpoint {
    TransparentCheckpoint { u8s: cp.bytes as u32, pairs: cp.pairs as u32, atoms: cp.atoms as u32 }
}

fn counts(cp: &TransparentCheckpoint) -> Counts {
    Counts { atoms: cp.atoms as usize, pairs: cp.pairs as usize, bytes: cp.u8s as usize }
}

/// Where a part of the byte store begins in it.
fn offset(a: &Allocator, part: &[u8]) -> usize {
    part.as_ptr() as usize - a.u8_vec.as_ptr() as usize
}

fn number(n: usize) -> Said {
    Said::Number(n as u64)
}

fn made(r: Result<NodePtr>) -> Said {
    match r {
        Ok(n) => Said::Made(n.0),
        Err(e) => refusal(e),
    }
}

fn done(r: Result<()>) -> Said {
    match r {
        Ok(()) => Said::Done,
        Err(e) => refusal(e),
    }
}

/// Document 01's code for an error, by its variant and the beginning of its text.
fn refusal(e: EvalErr) -> Said {
    let code = match &e {
        EvalErr::OutOfMemory => 2,
        EvalErr::TooManyAtoms => 3,
        EvalErr::TooManyPairs => 4,
        EvalErr::InternalError(_, text) | EvalErr::InvalidAllocArg(_, text) => match text.as_str() {
            "substr expected atom, got pair" | "concat expected atom, got pair" => 6,
            "concat passed invalid new_size" => 10,
            "invalid atom byte range" => 12,
            text if text.starts_with("substr start out of bounds") => 7,
            text if text.starts_with("substr end out of bounds") => 8,
            text if text.starts_with("substr invalid bounds") => 9,
            _ => 0,
        },
        _ => 0,
    };
    match code {
        0 => Said::Odd(e.to_string()),
        _ => Said::Refused(code, e.node_ptr().0),
    }
}
