//! Nodes, and what the reading calls answer.
use crate::error::accepted;
use crate::ffi;
use std::borrow::Borrow;
use std::fmt;
use std::hash::{Hash, Hasher};
use std::ops::Deref;

/// A node of an [`crate::Allocator`]: an atom or a pair.
#[derive(Clone, Copy, PartialEq, Eq, PartialOrd, Ord, Hash)]
#[repr(transparent)]
pub struct NodePtr(u32);

/// The kind of a node.
#[derive(Debug, Clone, Copy, PartialEq, Eq, PartialOrd, Ord, Hash)]
pub enum ObjectType {
    /// The index is that of a pair.
    Pair,
    /// The index is that of a stored atom.
    Bytes,
    /// The index is the atom's value itself.
    SmallAtom,
}

impl NodePtr {
    /// The empty atom.
    pub const NIL: NodePtr = NodePtr(134217728);

    /// The small atom 1.
    pub(crate) const ONE: NodePtr = NodePtr(134217729);

    /// A node that the library answered.
    #[inline]
    pub(crate) fn of(bits: u32) -> NodePtr {
        NodePtr(bits)
    }

    /// The node of these bits, if they have a kind. Whether it is valid depends on the state it is used in.
    #[inline]
    pub fn from_bits(bits: u32) -> Option<NodePtr> {
        accepted(ffi::clvm_object_type(bits))
            .ok()
            .map(|_| NodePtr(bits))
    }

    /// The node as a number: the kind in the top 6 bits, the index in the low 26.
    #[inline]
    pub fn bits(self) -> u32 {
        self.0
    }

    /// Whether the node is an atom.
    #[inline]
    pub fn is_atom(self) -> bool {
        ffi::clvm_is_atom(self.0).value == 1
    }

    /// Whether the node is a pair.
    #[inline]
    pub fn is_pair(self) -> bool {
        ffi::clvm_is_pair(self.0).value == 1
    }

    /// The node's kind.
    #[inline]
    pub fn object_type(self) -> ObjectType {
        match ffi::clvm_object_type(self.0).value {
            ffi::PAIR => ObjectType::Pair,
            ffi::BYTES => ObjectType::Bytes,
            _ => ObjectType::SmallAtom,
        }
    }

    /// The node's index among those of its kind; of a small atom, its value.
    #[inline]
    pub fn index(self) -> u32 {
        ffi::low(ffi::clvm_index(self.0).value)
    }
}

impl Default for NodePtr {
    fn default() -> Self {
        Self::NIL
    }
}

impl fmt::Debug for NodePtr {
    fn fmt(&self, f: &mut fmt::Formatter<'_>) -> fmt::Result {
        f.debug_tuple("NodePtr")
            .field(&self.object_type())
            .field(&self.index())
            .finish()
    }
}

/// What a node is: an atom, or a pair of two nodes.
#[derive(Debug, Clone, Copy, PartialEq, Eq)]
pub enum SExp {
    /// An atom, of either kind.
    Atom,
    /// A pair: its first node and its rest.
    Pair(NodePtr, NodePtr),
}

/// What a node holds.
#[derive(Debug, Clone, Copy, PartialEq, Eq)]
pub enum NodeVisitor<'a> {
    /// The bytes of a stored atom.
    Buffer(&'a [u8]),
    /// The value of a small atom.
    U32(u32),
    /// The two nodes of a pair.
    Pair(NodePtr, NodePtr),
}

/// Whether a node outlives a restore to a checkpoint.
#[derive(Debug, Clone, Copy, PartialEq, Eq)]
pub enum NodeStatus {
    /// The node is older than the checkpoint, and stays valid.
    Before,
    /// The node is younger than the checkpoint, and so are its bytes.
    AfterNewBytes,
    /// The node is younger than the checkpoint, but its bytes begin before it.
    AfterOldBytes {
        /// Where its bytes begin.
        start: u32,
        /// Where its bytes end.
        end: u32,
    },
}

/// What a restore with a node did.
#[derive(Debug, Clone, Copy, PartialEq, Eq)]
pub enum MaybeRestore {
    /// It restored, and the node is still valid.
    NoReplace,
    /// It restored, and this node stands for the one given.
    Replace(NodePtr),
    /// It did not restore; the checkpoint is as usable as it was.
    Aborted,
}

/// The bytes of an atom.
#[derive(Debug, Clone, Copy, Eq)]
pub enum Atom<'a> {
    /// Those of a stored atom.
    Borrowed(&'a [u8]),
    /// Those of a small atom: four bytes, and how many of the last ones are meant.
    U32([u8; 4], usize),
}

impl AsRef<[u8]> for Atom<'_> {
    #[inline]
    fn as_ref(&self) -> &[u8] {
        match self {
            Self::Borrowed(bytes) => bytes,
            Self::U32(bytes, len) => &bytes[4_usize.saturating_sub(*len)..],
        }
    }
}

impl Deref for Atom<'_> {
    type Target = [u8];

    #[inline]
    fn deref(&self) -> &[u8] {
        self.as_ref()
    }
}

impl Borrow<[u8]> for Atom<'_> {
    fn borrow(&self) -> &[u8] {
        self.as_ref()
    }
}

impl PartialEq for Atom<'_> {
    fn eq(&self, other: &Atom<'_>) -> bool {
        self.as_ref() == other.as_ref()
    }
}

impl Hash for Atom<'_> {
    fn hash<H: Hasher>(&self, state: &mut H) {
        self.as_ref().hash(state);
    }
}

/// The value of bytes that are the shortest form of a number below 2^26.
#[inline]
pub fn fits_in_small_atom(v: &[u8]) -> Option<u32> {
    ffi::fits_in_small_atom(v).get()
}

/// How many bytes the shortest form of a value takes.
#[inline]
pub fn len_for_value(val: u32) -> usize {
    ffi::clvm_len_for_value(val)
}
