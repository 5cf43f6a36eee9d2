//! The allocator: the library's record, and the slots that are lent with it to the library's calls. What a program calls often is
//! inlined there, so that it pays for the library's call and no other.
use crate::error::{accepted, Code, EvalErr, LoadErr, Result};
use crate::ffi::{self, Counts, Held, Plain};
use crate::node::{Atom, MaybeRestore, NodePtr, NodeStatus, NodeVisitor, SExp};

/// The most bytes, and the largest heap limit.
const MOST_BYTES: usize = u32::MAX as usize;
/// The most atoms, and the most pairs.
const MOST_SLOTS: usize = 62_500_000;
/// Slots grow to this length at once.
const LEAST: usize = 64;
/// An integer's atom has at most so many bytes.
const INTEGER: usize = 9;
/// A small atom has at most so many bytes.
const SMALL: usize = 4;
/// What a pair starts with in a file.
const PAIR_MARK: u8 = 0xff;
/// The most levels of a file.
const LEVELS: usize = 4096;
/// Slots for a file that needs more grow by this length, or by all that it could need.
const FILE_STEP: usize = 1 << 16;

/// A former state of an allocator, to which [`Allocator::restore_checkpoint`] goes back with all its counters.
#[derive(Clone, Copy, Debug, PartialEq, Eq)]
pub struct Checkpoint(Plain);

/// A former state of an allocator, to which a restore cuts while everything made stays counted.
#[derive(Clone, Copy, Debug, PartialEq, Eq)]
pub struct TransparentCheckpoint(Counts);

impl Checkpoint {
    /// The same state as a transparent checkpoint.
    #[inline]
    pub fn transparent(&self) -> TransparentCheckpoint {
        TransparentCheckpoint(self.0.used)
    }
}

/// Atoms and pairs, with the limits that consensus sets on how many are made.
#[derive(Clone, Debug)]
pub struct Allocator {
    held: Held,
}

impl Default for Allocator {
    fn default() -> Self {
        Self::new()
    }
}

/// Makes a slice at least so long, and twice as long as it was, but never longer than the most; whether it became longer.
/// Memory that cannot be had is no panic: the call then stays refused.
fn grow<T: Clone + Default>(slots: &mut Vec<T>, needed: usize, most: usize) -> bool {
    let needed = needed.min(most);
    let old = slots.len();
    if needed <= old {
        return false;
    }
    let len = needed.max(old.saturating_mul(2)).max(LEAST).min(most);
    if slots.try_reserve_exact(len - old).is_err() {
        return false;
    }
    slots.resize(len, T::default());
    true
}

/// Makes a slice longer for more of a file, which could fill no more than the whole beyond what is used: four times as much as was
/// free, and a step at least. So a short file gets all it could need at once; a long one that is refused early costs little; and
/// the loads that were full read, all in all, about as much as the one that is not.
fn grow_for_file<T: Clone + Default>(
    slots: &mut Vec<T>,
    used: usize,
    whole: usize,
    most: usize,
) -> bool {
    let free = slots.len().saturating_sub(used);
    let more = free.saturating_mul(4).max(FILE_STEP).min(whole);
    grow(slots, used.saturating_add(more), most)
}

/// What a call that makes a node answers.
#[inline]
fn made(answer: ffi::Answer) -> Result<NodePtr> {
    accepted(answer).map(|made| NodePtr::of(made.node))
}

/// What a call that makes no node answers.
#[inline]
fn done(answer: ffi::Answer) -> Result<()> {
    accepted(answer).map(|_| ())
}

impl Allocator {
    /// An allocator with the largest heap limit.
    pub fn new() -> Self {
        let mut held = Held::default();
        ffi::clvm_new_limited(&mut held.record, MOST_BYTES);
        Self { held }
    }

    /// An allocator with a heap limit of at most 4,294,967,295 bytes.
    pub fn new_limited(heap_limit: usize) -> Result<Self> {
        let mut held = Held::default();
        accepted(ffi::clvm_new_limited(&mut held.record, heap_limit))?;
        Ok(Self { held })
    }

    /// Whether record and slots are sound. Every call keeps them so: this is for tests.
    pub fn well_formed(&self) -> bool {
        self.held.well_formed()
    }

    // ---- growth: a refusal for lack of slots is asked again with longer ones

    /// Makes room for an atom of so many bytes more.
    fn grow_store(&mut self, bytes: usize) -> bool {
        let held = &mut self.held;
        let end = held.record.used.bytes.saturating_add(bytes);
        let atoms = held.record.used.atoms.saturating_add(1);
        let store = grow(&mut held.bytes, end, MOST_BYTES);
        let starts = grow(&mut held.starts, atoms, MOST_SLOTS);
        let ends = grow(&mut held.ends, atoms, MOST_SLOTS);
        store || starts || ends
    }

    /// Makes room for a pair more.
    fn grow_pairs(&mut self) -> bool {
        let held = &mut self.held;
        let pairs = held.record.used.pairs.saturating_add(1);
        let firsts = grow(&mut held.firsts, pairs, MOST_SLOTS);
        let rests = grow(&mut held.rests, pairs, MOST_SLOTS);
        firsts || rests
    }

    /// Makes room for more of a file, after a load that was full at the item at a place: a pair lacks pair slots, an atom bytes or
    /// atom slots. A file has one atom more than pairs, and each takes a byte: that bounds both by half its length. At any time a
    /// load has made at most as many atoms as pairs, and one for each level: more slots than that would be for nothing.
    #[cold]
    fn grow_file(&mut self, file: &[u8], at: usize) -> bool {
        let held = &mut self.held;
        let used = held.record.used;
        let half = file.len() / 2 + 1;
        if file.get(at) == Some(&PAIR_MARK) {
            let firsts = grow_for_file(&mut held.firsts, used.pairs, half, MOST_SLOTS);
            let rests = grow_for_file(&mut held.rests, used.pairs, half, MOST_SLOTS);
            return firsts || rests;
        }
        let pairs = held.firsts.len().saturating_sub(used.pairs);
        let atoms = used.atoms.saturating_add(half.min(pairs + LEVELS));
        let store = grow_for_file(&mut held.bytes, used.bytes, file.len(), MOST_BYTES);
        let starts = grow(&mut held.starts, atoms, MOST_SLOTS);
        let ends = grow(&mut held.ends, atoms, MOST_SLOTS);
        store || starts || ends
    }

    /// A creating call, asked again as long as it is full and there is room to be made. It changes the record in place, and a
    /// refusal leaves it as it was.
    #[inline]
    fn make(
        &mut self,
        call: impl Fn(&mut Held) -> ffi::Answer,
        room: impl Fn(&mut Self) -> bool,
    ) -> Result<NodePtr> {
        match made(call(&mut self.held)) {
            Ok(node) => Ok(node),
            Err(refused) => self.make_again(refused, call, room),
        }
    }

    /// The same after a refusal; apart, so that the way of an accepted call is short.
    #[cold]
    #[inline(never)]
    fn make_again(
        &mut self,
        mut refused: EvalErr,
        call: impl Fn(&mut Held) -> ffi::Answer,
        room: impl Fn(&mut Self) -> bool,
    ) -> Result<NodePtr> {
        while refused.code == Code::Full && room(self) {
            match made(call(&mut self.held)) {
                Ok(node) => return Ok(node),
                Err(again) => refused = again,
            }
        }
        Err(refused)
    }

    /// A creating call that may store an atom of so many bytes.
    #[inline]
    fn make_atom(
        &mut self,
        bytes: usize,
        call: impl Fn(&mut Held) -> ffi::Answer,
    ) -> Result<NodePtr> {
        self.make(call, |a| a.grow_store(bytes))
    }

    // ---- checkpoints and restores: a record that the calls made is sound, so that no checkpoint of it is refused

    /// The present state, with its counters.
    #[inline]
    pub fn checkpoint(&self) -> Checkpoint {
        let mut taken = Plain::default();
        self.held.checkpoint(&mut taken);
        Checkpoint(taken)
    }

    /// Goes back to a checkpoint: all that was made since is gone, and the counters are as they were.
    #[inline]
    pub fn restore_checkpoint(&mut self, cp: &Checkpoint) -> Result<()> {
        done(self.held.restore_checkpoint(&cp.0))
    }

    /// The present state, without its counters.
    #[inline]
    pub fn transparent_checkpoint(&self) -> TransparentCheckpoint {
        let mut taken = Counts::default();
        self.held.transparent_checkpoint(&mut taken);
        TransparentCheckpoint(taken)
    }

    /// Goes back to a checkpoint: all that was made since is gone, but it stays counted.
    #[inline]
    pub fn restore_transparent_checkpoint(&mut self, cp: &TransparentCheckpoint) -> Result<()> {
        done(self.held.restore_transparent_checkpoint(&cp.0))
    }

    /// Whether a node outlives a restore to the checkpoint, and if not whether its bytes do.
    #[inline]
    pub fn checkpoint_node_status(
        &self,
        checkpoint: &TransparentCheckpoint,
        node: NodePtr,
    ) -> Result<NodeStatus> {
        let found = self.held.checkpoint_node_status(&checkpoint.0, node.bits());
        let found = accepted(found)?;
        Ok(match found.status {
            ffi::BEFORE => NodeStatus::Before,
            ffi::AFTER_NEW_BYTES => NodeStatus::AfterNewBytes,
            _ => NodeStatus::AfterOldBytes {
                start: ffi::low(found.start),
                end: ffi::low(found.end),
            },
        })
    }

    /// Restores to the checkpoint if that is worth it and the node's value can be kept; see [`MaybeRestore`].
    #[inline]
    pub fn maybe_restore_with_node(
        &mut self,
        checkpoint: &TransparentCheckpoint,
        ret: NodePtr,
    ) -> Result<MaybeRestore> {
        let restored = self.held.maybe_restore_with_node(&checkpoint.0, ret.bits());
        let restored = accepted(restored)?;
        Ok(match restored.outcome {
            ffi::NO_REPLACE => MaybeRestore::NoReplace,
            ffi::REPLACE => MaybeRestore::Replace(NodePtr::of(restored.node)),
            _ => MaybeRestore::Aborted,
        })
    }

    // ---- creation

    /// A new atom of these bytes.
    #[inline]
    pub fn new_atom(&mut self, v: &[u8]) -> Result<NodePtr> {
        self.make_atom(v.len(), |held| held.new_atom(v))
    }

    /// A new small atom of a value up to 67,108,863.
    #[inline]
    pub fn new_small_number(&mut self, v: u32) -> Result<NodePtr> {
        made(self.held.new_small_number(v))
    }

    /// A new atom of a number: its shortest bytes.
    #[inline]
    pub fn new_u64(&mut self, val: u64) -> Result<NodePtr> {
        self.make_atom(INTEGER, |held| held.new_u64(val))
    }

    /// A new atom of a signed number: its shortest bytes.
    #[inline]
    pub fn new_i64(&mut self, val: i64) -> Result<NodePtr> {
        self.make_atom(INTEGER, |held| held.new_i64(val))
    }

    /// A new pair of two nodes.
    #[inline]
    pub fn new_pair(&mut self, first: NodePtr, rest: NodePtr) -> Result<NodePtr> {
        self.make(
            |held| held.new_pair(first.bits(), rest.bits()),
            Self::grow_pairs,
        )
    }

    /// Counts pairs that the caller keeps elsewhere.
    #[inline]
    pub fn add_ghost_pair(&mut self, amount: usize) -> Result<()> {
        done(self.held.add_ghost_pair(amount))
    }

    /// Takes such pairs back, when they are made after all.
    #[inline]
    pub fn remove_ghost_pair(&mut self, amount: usize) -> Result<()> {
        done(self.held.remove_ghost_pair(amount))
    }

    /// Counts atoms that are not stored.
    #[inline]
    pub fn add_ghost_atom(&mut self, amount: usize) -> Result<()> {
        done(self.held.add_ghost_atom(amount))
    }

    /// A new atom that is the part of an atom from start up to end.
    #[inline]
    pub fn new_substr(&mut self, node: NodePtr, start: u32, end: u32) -> Result<NodePtr> {
        self.make_atom(SMALL, |held| held.new_substr(node.bits(), start, end))
    }

    /// A new atom that joins atoms, whose lengths must sum up to the size.
    #[inline]
    pub fn new_concat(&mut self, new_size: usize, nodes: &[NodePtr]) -> Result<NodePtr> {
        let nodes = ffi::numbers(nodes);
        self.make_atom(new_size, |held| held.new_concat(new_size, nodes))
    }

    // ---- program files

    /// The tree of a program file: `ff`, first, rest for a pair; `80` for the empty atom; a byte below `80` for itself; else a
    /// prefix with the length, and the bytes. The whole file must be one item, of at most 4,096 levels. Prefixes need not be the
    /// shortest.
    ///
    /// Atoms and pairs are made as by [`Allocator::new_atom`] and [`Allocator::new_pair`], in the order of the file, and meet
    /// their limits. A refusal is the first fault in that order, and takes back all that was made.
    ///
    /// ```
    /// use clvm_allocator::{Allocator, Code};
    ///
    /// let mut a = Allocator::new();
    /// let refused = a.load(b"\xff\x85hello").unwrap_err();
    /// assert_eq!((refused.code, refused.at), (Code::BadEncoding, 7));
    /// assert_eq!(refused.to_string(), "bad encoding at byte 7");
    /// assert_eq!(a.allocated_atom_count(), 0);
    /// ```
    pub fn load(&mut self, file: &[u8]) -> std::result::Result<NodePtr, LoadErr> {
        loop {
            let loaded = self.held.load(file);
            let refused = match accepted(loaded) {
                Ok(_) => return Ok(NodePtr::of(loaded.node)),
                Err(refused) => refused,
            };
            if refused.code != Code::Full || !self.grow_file(file, loaded.at) {
                return Err(LoadErr {
                    code: refused.code,
                    at: loaded.at,
                });
            }
        }
    }

    /// Writes a node's program file to the front of a slice, by the shortest prefixes; how many bytes it has. A refused write
    /// changes no byte: [`Code::NoSpace`] where the slice is too short, [`Code::TooDeep`] above 4,096 levels.
    ///
    /// A node that is met twice is written twice, so that the file of a small store can be of any length. The slice bounds the
    /// time too.
    pub fn save(&self, node: NodePtr, file: &mut [u8]) -> Result<usize> {
        Ok(accepted(self.held.save(node.bits(), file))?.value)
    }

    /// A node's program file, if it has at most so many bytes; else, or if this machine's memory cannot hold it,
    /// [`Code::NoSpace`].
    pub fn save_to_vec(&self, node: NodePtr, most: usize) -> Result<Vec<u8>> {
        let mut file = Vec::new();
        loop {
            match self.save(node, &mut file) {
                Ok(length) => {
                    file.truncate(length);
                    return Ok(file);
                }
                Err(refused) => {
                    let longer = file.len().saturating_add(1);
                    if refused.code != Code::NoSpace || !grow(&mut file, longer, most) {
                        return Err(refused);
                    }
                }
            }
        }
    }

    // ---- reads

    /// Whether two atoms have the same bytes.
    #[inline]
    pub fn atom_eq(&self, lhs: NodePtr, rhs: NodePtr) -> Result<bool> {
        let found = accepted(self.held.atom_eq(lhs.bits(), rhs.bits()))?;
        Ok(found.value == 1)
    }

    /// The bytes of an atom.
    #[inline]
    pub fn atom(&self, node: NodePtr) -> Result<Atom<'_>> {
        let mut scratch = [0; 4];
        let part = accepted(self.held.atom(&mut scratch, node.bits()))?;
        Ok(match part.place {
            ffi::IN_SCRATCH => Atom::U32(scratch, part.length),
            _ => Atom::Borrowed(&self.held.bytes[part.offset..part.offset + part.length]),
        })
    }

    /// How many bytes an atom has.
    #[inline]
    pub fn atom_len(&self, node: NodePtr) -> Result<usize> {
        Ok(accepted(self.held.atom_len(node.bits()))?.value)
    }

    /// The value of an atom whose bytes are those of a small one, whatever its kind. A pair has none.
    #[inline]
    pub fn small_number(&self, node: NodePtr) -> Result<Option<u32>> {
        Ok(accepted(self.held.small_number(node.bits()))?.get())
    }

    /// What a node holds.
    #[inline]
    pub fn node(&self, node: NodePtr) -> Result<NodeVisitor<'_>> {
        let found = accepted(self.held.node(node.bits()))?;
        let bits = |value| NodePtr::of(ffi::low(value));
        Ok(match found.kind as usize {
            ffi::PAIR => NodeVisitor::Pair(bits(found.first), bits(found.second)),
            ffi::BYTES => NodeVisitor::Buffer(&self.held.bytes[found.first..found.second]),
            _ => NodeVisitor::U32(ffi::low(found.first)),
        })
    }

    /// Whether a node is an atom, or its two nodes.
    #[inline]
    pub fn sexp(&self, node: NodePtr) -> Result<SExp> {
        let found = accepted(self.held.sexp(node.bits()))?;
        Ok(match found.get() {
            Some((first, rest)) => SExp::Pair(first, rest),
            None => SExp::Atom,
        })
    }

    /// The two nodes of a pair, for a walk along a list: `while let Some((item, rest)) = a.next(node)? { node = rest; .. }`.
    #[inline]
    pub fn next(&self, n: NodePtr) -> Result<Option<(NodePtr, NodePtr)>> {
        Ok(accepted(self.held.next(n.bits()))?.get())
    }

    /// The empty atom.
    #[inline]
    pub fn nil(&self) -> NodePtr {
        NodePtr::NIL
    }

    /// The atom 1.
    #[inline]
    pub fn one(&self) -> NodePtr {
        NodePtr::ONE
    }

    // ---- counts: a record that the calls made is sound, so none of these is refused

    /// How many atoms were made, ghosts among them.
    #[inline]
    pub fn atom_count(&self) -> usize {
        self.held.atom_count().value
    }

    /// How many atoms are stored.
    #[inline]
    pub fn allocated_atom_count(&self) -> usize {
        self.held.allocated_atom_count().value
    }

    /// How many pairs were made, ghosts among them.
    #[inline]
    pub fn pair_count(&self) -> usize {
        self.held.pair_count().value
    }

    /// How many pairs are stored.
    #[inline]
    pub fn allocated_pair_count(&self) -> usize {
        self.held.allocated_pair_count().value
    }

    /// How many bytes the atoms made have, ghosts among them.
    #[inline]
    pub fn heap_size(&self) -> usize {
        self.held.heap_size().value
    }

    /// How many bytes are stored.
    #[inline]
    pub fn allocated_heap_size(&self) -> usize {
        self.held.allocated_heap_size().value
    }
}

#[cfg(test)]
mod tests {
    use super::grow;

    #[test]
    fn slots_grow_up_to_the_most() {
        let mut slots: Vec<u32> = Vec::new();
        assert!(grow(&mut slots, 1, 200) && slots.len() == 64);
        assert!(!grow(&mut slots, 64, 200));
        assert!(grow(&mut slots, 65, 200) && slots.len() == 128);
        assert!(grow(&mut slots, 500, 200) && slots.len() == 200);
        assert!(!grow(&mut slots, usize::MAX, 200));
    }
}
