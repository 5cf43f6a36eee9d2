//! The calls of document 01, and what either side says and holds, as plain data.

pub const NIL: u32 = 134217728;
pub const TOP: usize = 4294967295;
pub const MOST: usize = 62500000;

/// The counts (also a transparent checkpoint), the seven numbers and a plain checkpoint, as our library has them.
pub use clvm_allocator::ffi::{Counts, Plain as Checkpoint, Record};

/// All that an allocator holds: the used counts are the lengths.
#[derive(Clone, Debug, Default, PartialEq, Eq)]
pub struct State {
    pub ghosts: Counts,
    pub limit: usize,
    pub bytes: Vec<u8>,
    pub atoms: Vec<(u32, u32)>,
    pub pairs: Vec<(u32, u32)>,
}

impl State {
    /// What new_limited makes.
    pub fn fresh(limit: usize) -> Self {
        State { ghosts: Counts { atoms: 2, pairs: 0, bytes: 1 }, limit, ..State::default() }
    }

    pub fn record(&self) -> Record {
        let used = Counts { atoms: self.atoms.len(), pairs: self.pairs.len(), bytes: self.bytes.len() };
        Record { used, ghosts: self.ghosts, limit: self.limit }
    }
}

/// A call with its arguments. Checkpoints are given by their numbers, so that any may be tried.
#[derive(Clone, Debug, PartialEq, Eq)]
pub enum Call {
    NewLimited(usize),
    ObjectType(u32),
    Index(u32),
    IsAtom(u32),
    IsPair(u32),
    FitsInSmallAtom(Vec<u8>),
    LenForValue(u32),
    AtomCount,
    AllocatedAtomCount,
    PairCount,
    AllocatedPairCount,
    HeapSize,
    AllocatedHeapSize,
    Checkpoint,
    TransparentCheckpoint,
    RestoreCheckpoint(Checkpoint),
    RestoreTransparentCheckpoint(Counts),
    CheckpointNodeStatus(Counts, u32),
    MaybeRestoreWithNode(Counts, u32),
    NewAtom(Vec<u8>),
    NewSmallNumber(u32),
    NewU64(u64),
    NewI64(i64),
    NewPair(u32, u32),
    AddGhostPair(usize),
    RemoveGhostPair(usize),
    AddGhostAtom(usize),
    NewSubstr(u32, u32, u32),
    NewConcat(usize, Vec<u32>),
    AtomEq(u32, u32),
    /// the node, and the length of the scratch that is lent to our side
    Atom(u32, usize),
    AtomLen(u32),
    SmallNumber(u32),
    Node(u32),
    Sexp(u32),
    Next(u32),
}

/// The names, in the order of the numbers that `Call::number` gives.
pub const NAMES: [&str; 36] = [
    "new_limited",
    "object_type",
    "index",
    "is_atom",
    "is_pair",
    "fits_in_small_atom",
    "len_for_value",
    "atom_count",
    "allocated_atom_count",
    "pair_count",
    "allocated_pair_count",
    "heap_size",
    "allocated_heap_size",
    "checkpoint",
    "transparent_checkpoint",
    "restore_checkpoint",
    "restore_transparent_checkpoint",
    "checkpoint_node_status",
    "maybe_restore_with_node",
    "new_atom",
    "new_small_number",
    "new_u64",
    "new_i64",
    "new_pair",
    "add_ghost_pair",
    "remove_ghost_pair",
    "add_ghost_atom",
    "new_substr",
    "new_concat",
    "atom_eq",
    "atom",
    "atom_len",
    "small_number",
    "node",
    "sexp",
    "next",
];

impl Call {
    pub fn number(&self) -> usize {
        match self {
            Call::NewLimited(_) => 0,
            Call::ObjectType(_) => 1,
            Call::Index(_) => 2,
            Call::IsAtom(_) => 3,
            Call::IsPair(_) => 4,
            Call::FitsInSmallAtom(_) => 5,
            Call::LenForValue(_) => 6,
            Call::AtomCount => 7,
            Call::AllocatedAtomCount => 8,
            Call::PairCount => 9,
            Call::AllocatedPairCount => 10,
            Call::HeapSize => 11,
            Call::AllocatedHeapSize => 12,
            Call::Checkpoint => 13,
            Call::TransparentCheckpoint => 14,
            Call::RestoreCheckpoint(_) => 15,
            Call::RestoreTransparentCheckpoint(_) => 16,
            Call::CheckpointNodeStatus(..) => 17,
            Call::MaybeRestoreWithNode(..) => 18,
            Call::NewAtom(_) => 19,
            Call::NewSmallNumber(_) => 20,
            Call::NewU64(_) => 21,
            Call::NewI64(_) => 22,
            Call::NewPair(..) => 23,
            Call::AddGhostPair(_) => 24,
            Call::RemoveGhostPair(_) => 25,
            Call::AddGhostAtom(_) => 26,
            Call::NewSubstr(..) => 27,
            Call::NewConcat(..) => 28,
            Call::AtomEq(..) => 29,
            Call::Atom(..) => 30,
            Call::AtomLen(_) => 31,
            Call::SmallNumber(_) => 32,
            Call::Node(_) => 33,
            Call::Sexp(_) => 34,
            Call::Next(_) => 35,
        }
    }

    pub fn name(&self) -> &'static str {
        NAMES[self.number()]
    }
}

/// What a side says to a call.
#[derive(Clone, Debug, PartialEq, Eq)]
pub enum Said {
    /// document 01's code and node
    Refused(u32, u32),
    /// accepted, with nothing to hand back
    Done,
    /// the node that was made
    Made(u32),
    /// a number; 1 for yes and 0 for no; a kind
    Number(u64),
    /// a value that may be missing
    Value(Option<u32>),
    /// node: where the bytes are, or the value, or the two nodes
    Buffer(usize, usize),
    U32(u32),
    Pair(u32, u32),
    /// sexp, next: the two nodes; none for an atom
    Children(Option<(u32, u32)>),
    /// atom: where the bytes are, and the bytes
    Borrowed(usize, Vec<u8>),
    /// atom: the four bytes of a small atom, and how many of them count
    Scratch([u8; 4], usize),
    Before,
    AfterNewBytes,
    AfterOldBytes(usize, usize),
    Plain(Checkpoint),
    Transparent(Counts),
    NoReplace,
    Replace(u32),
    Aborted,
    /// the Rust only
    Panicked(String),
    /// an answer that the side's interface doesn't allow
    Odd(String),
}

impl Said {
    /// Document 01's code: 0 is accepted.
    pub fn code(&self) -> u32 {
        match self {
            Said::Refused(code, _) => *code,
            _ => 0,
        }
    }

    pub fn accepted(&self) -> bool {
        !matches!(self, Said::Refused(..) | Said::Panicked(_) | Said::Odd(_))
    }
}
