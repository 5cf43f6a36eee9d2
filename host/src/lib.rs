//! A safe [`Allocator`] over the proved library: the names and types of clvm_rs's, so that it can stand where that stood.
//!
//! The library decides every call; this crate owns the slots that it lends, makes them longer when the library says that they
//! are full (code 15), and turns its numbers into Rust's types. A refusal is an [`EvalErr`]: a [`Code`] and the node that goes
//! with it. A refused call changes nothing.
//!
//! # Where clvm_rs panics
//!
//! This crate never does. It answers `Err` where clvm_rs panics, and for that these calls answer a `Result` here:
//!
//! | call | where clvm_rs panics | error here |
//! |---|---|---|
//! | [`Allocator::new_limited`] | a limit above 4,294,967,295 | [`Code::Unsound`] |
//! | [`Allocator::atom`], [`Allocator::atom_len`], [`Allocator::atom_eq`] | a pair | [`Code::ExpectedAtom`] |
//! | [`Allocator::new_concat`] | one node, a pair | [`Code::ExpectedAtom`] |
//! | all calls that read a node's slot | a node that has no slot: another allocator's, or one that a restore took away | [`Code::NotValid`] |
//! | [`Allocator::new_small_number`] | a value above 67,108,863 (release builds: a wrong node) | [`Code::TooLarge`] |
//! | [`Allocator::remove_ghost_pair`] | more than there are (release builds: it wraps) | [`Code::TooFewGhosts`] |
//! | [`Allocator::restore_checkpoint`], [`Allocator::restore_transparent_checkpoint`], [`Allocator::maybe_restore_with_node`] | a checkpoint that lies ahead | [`Code::NotUsable`] |
//!
//! The calls that read a slot are [`Allocator::atom`], [`Allocator::atom_len`], [`Allocator::atom_eq`], [`Allocator::small_number`],
//! [`Allocator::node`], [`Allocator::sexp`], [`Allocator::next`], [`Allocator::checkpoint_node_status`], [`Allocator::new_substr`],
//! [`Allocator::new_concat`] and [`Allocator::maybe_restore_with_node`]. All of them, and [`Allocator::new_pair`], refuse a node
//! without a slot here also where clvm_rs does not come to read it, as `sexp` of such an atom. And a restore is refused
//! ([`Code::NotUsable`]) after which a slot that is kept would reach past what is kept.
//!
//! # Program files
//!
//! [`Allocator::load`] reads a tree from the serialised form of the public CLVM documentation; [`Allocator::save`] and
//! [`Allocator::save_to_vec`] write it, with the shortest prefixes. A file that is not loaded is refused by a [`LoadErr`], which
//! says where the fault lies. A file has at most 4,096 levels, and these calls go down level by level: the deepest one takes
//! less than 2 MB of stack, so that a thread of the standard size (2 MiB) can load it.
//!
//! # Example
//!
//! ```
//! # fn main() -> clvm_allocator::Result<()> {
//! let mut a = clvm_allocator::Allocator::new();
//! let atom = a.new_atom(b"hello")?;
//! let pair = a.new_pair(atom, a.nil())?;
//! assert_eq!(&*a.atom(atom)?, b"hello");
//! assert_eq!(a.next(pair)?, Some((atom, a.nil())));
//!
//! let file = a.save_to_vec(pair, 1000)?;
//! assert_eq!(file, b"\xff\x85hello\x80");
//! let again = a.load(&file)?;
//! assert_eq!(a.save_to_vec(again, 1000)?, file);
//! # Ok(())
//! # }
//! ```
#![forbid(unsafe_op_in_unsafe_fn)]
#![deny(unsafe_code)]

mod allocator;
mod error;
// Hidden: no part of what this crate offers. The comparison with the Rust (differential, bench) makes the library's calls by it.
#[allow(unsafe_code)]
#[doc(hidden)]
pub mod ffi;
mod node;

pub use allocator::{Allocator, Checkpoint, TransparentCheckpoint};
pub use error::{Code, EvalErr, LoadErr, Result};
pub use node::{
    fits_in_small_atom, len_for_value, Atom, MaybeRestore, NodePtr, NodeStatus, NodeVisitor,
    ObjectType, SExp,
};
