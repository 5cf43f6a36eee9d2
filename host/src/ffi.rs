//! The library's types, as include/clvm_allocator.h declares them; ffi/held.rs has its calls. All unsafe code of this crate is
//! here and there. The record is never copied for a call: the library reads it, and changes it in place, behind a reference.
use crate::NodePtr;

mod held;

pub use held::*;

/// How many atoms, pairs and bytes.
#[derive(Clone, Copy, Debug, Default, PartialEq, Eq)]
#[repr(C)]
pub struct Counts {
    pub atoms: usize,
    pub pairs: usize,
    pub bytes: usize,
}

/// The library's record of seven numbers.
#[derive(Clone, Copy, Debug, Default, PartialEq, Eq)]
#[repr(C)]
pub struct Record {
    pub used: Counts,
    pub ghosts: Counts,
    pub limit: usize,
}

/// A plain checkpoint.
#[derive(Clone, Copy, Debug, Default, PartialEq, Eq)]
#[repr(C)]
pub struct Plain {
    pub used: Counts,
    pub ghosts: Counts,
}

/// What every answer begins with.
pub trait Coded {
    fn code(&self) -> u32;
    fn node(&self) -> u32;
}

/// An answer of the library: the code, the node, and what else it holds.
macro_rules! answers {
    ($(struct $name:ident { $($field:ident: $type:ty),* })*) => {
        $(
            #[derive(Clone, Copy, Debug)]
            #[repr(C)]
            pub struct $name {
                pub code: u32,
                pub node: u32,
                $(pub $field: $type),*
            }

            impl Coded for $name {
                #[inline]
                fn code(&self) -> u32 {
                    self.code
                }

                #[inline]
                fn node(&self) -> u32 {
                    self.node
                }
            }
        )*
    };
}

answers! {
    struct Number { value: usize }
    struct Optional { some: u32, value: u32 }
    struct Visited { kind: u32, first: usize, second: usize }
    struct Children { is_pair: u32, first: u32, rest: u32 }
    struct Part { place: u32, offset: usize, length: usize }
    struct Status { status: u32, start: usize, end: usize }
    struct Answer {}
    struct Restored { outcome: u32 }
    struct Loaded { at: usize }
}

pub const PAIR: usize = 0;
pub const BYTES: usize = 1;
pub const IN_SCRATCH: u32 = 1;
pub const BEFORE: u32 = 0;
pub const AFTER_NEW_BYTES: u32 = 1;
pub const NO_REPLACE: u32 = 0;
pub const REPLACE: u32 = 1;

/// A number that the library keeps within 32 bits.
#[inline]
pub fn low(value: usize) -> u32 {
    value as u32
}

impl Optional {
    #[inline]
    pub fn get(&self) -> Option<u32> {
        (self.some == 1).then_some(self.value)
    }
}

impl Children {
    #[inline]
    pub fn get(&self) -> Option<(NodePtr, NodePtr)> {
        (self.is_pair == 1).then(|| (NodePtr::of(self.first), NodePtr::of(self.rest)))
    }
}

/// What a byte string is as a small atom.
#[inline]
pub fn fits_in_small_atom(v: &[u8]) -> Optional {
    Held::fits_in_small_atom(v)
}

/// Nodes as the library numbers them.
#[inline]
pub fn numbers(nodes: &[NodePtr]) -> &[u32] {
    // SAFETY: a NodePtr is a transparent u32, so that a slice of the one has the layout of a slice of the other.
    unsafe { std::slice::from_raw_parts(nodes.as_ptr().cast(), nodes.len()) }
}
