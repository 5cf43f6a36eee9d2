//! The record with the lists beside it, and the table of the library's calls: it declares each of them, and gives [`Held`] the
//! functions that make them. All of these are inlined always: one call of the library is all that a call costs.
use super::*;

/// All that an allocator holds. A slot that is not used holds anything.
#[derive(Clone, Debug, Default)]
pub struct Held {
    pub record: Record,
    pub bytes: Vec<u8>,
    pub starts: Vec<u32>,
    pub ends: Vec<u32>,
    pub firsts: Vec<u32>,
    pub rests: Vec<u32>,
}

impl Held {
    /// Whether the record and all used slots are sound. In C that is a number.
    #[inline(always)]
    pub fn well_formed(&self) -> bool {
        self.sound() == 1
    }
}

// The table stands at the end of this file. It has one line for each call of include/clvm_allocator.h, with the arguments in
// the same order:
//
//     clvm_new_atom as new_atom(&mut record, &mut store, v: &[u8]) -> Answer;
//
//     clvm_new_atom as new_atom   the call, and the function of `Held` that makes it; without `as`, the call is only declared
//     &mut record, &mut store     what is lent of `Held`, the record or a group of lists: & for reading, &mut for writing
//     v: &[u8]                    what the function is given besides: a value, a reference or a slice
//     Answer                      what both answer
//
// In C a slice, and so each list, is two arguments: a pointer, and the length. From the line above come these two:
//
//     fn clvm_new_atom(&mut Record, *mut u8, usize, *mut u32, usize, *mut u32, usize, *const u8, usize) -> Answer;
//     pub fn new_atom(&mut self, v: &[u8]) -> Answer
macro_rules! calls {
    ($($call:ident $(as $function:ident)? ($($argument:tt)*) -> $answer:ty;)*) => {
        $(call! { [self [$call $(as $function)? -> $answer] [pub safe]] $($argument)*, })*
    };
}

// One line of the table: in brackets what is known of it, then the arguments that are left. Each rule takes the first of these,
// and adds to the brackets what becomes of it, `{ (GIVEN) PASSED => TYPE, .. }`: what the function is given for it, what the
// function passes to the call, and which type that has in C. A slice also takes `pub safe` away. `self` is handed from rule to
// rule, since one that a later rule writes anew would not be that of the method.
//
// SAFETY, of the declarations: they have the types of include/clvm_allocator.h, for which include/check.c stands. A call that
// takes no slice may be made with anything: a reference is to a whole record or checkpoint, and one for writing is to nothing
// else that is lent.
//
// SAFETY, of the calls that take a slice: each pointer is that of a live slice and stands before that slice's own length; a
// slice that is written is borrowed for writing, and so is a record: it is no part of anything else that is lent. The calls ask
// for nothing else: they are proved to read and write within the lengths given, whatever the record, the nodes and the contents
// are, and they keep no pointer.
macro_rules! call {
    // Something of `Held`: how it is lent goes in brackets, so that the rules of the groups serve reading and writing.
    ($line:tt &mut $held:ident, $($more:tt)*) => {
        call! { $line [&mut] $held, $($more)* }
    };
    ($line:tt &$held:ident, $($more:tt)*) => {
        call! { $line [&] $held, $($more)* }
    };

    // A group: its lists, and what they hold.
    ($line:tt $lent:tt store, $($more:tt)*) => {
        call! { $line $lent bytes: u8, $lent atoms, $($more)* }
    };
    ($line:tt $lent:tt atoms, $($more:tt)*) => {
        call! { $line $lent starts: u32, $lent ends: u32, $($more)* }
    };
    ($line:tt $lent:tt pairs, $($more:tt)*) => {
        call! { $line $lent firsts: u32, $lent rests: u32, $($more)* }
    };

    // The record, by which the function becomes a method.
    ([$self:ident $call:tt $safe:tt $($done:tt)*] [$($lent:tt)*] record, $($more:tt)*) => {
        call! {
            [$self $call $safe $($done)*
                { ($($lent)* $self,) $($lent)* $self.record => $($lent)* Record }]
            $($more)*
        }
    };

    // A list that is read, and one that is written.
    ([$self:ident $call:tt $safe:tt $($done:tt)*] [&] $list:ident: $type:ty, $($more:tt)*) => {
        call! {
            [$self $call [] $($done)*
                { () $self.$list.as_ptr() => *const $type, $self.$list.len() => usize }]
            $($more)*
        }
    };
    ([$self:ident $call:tt $safe:tt $($done:tt)*] [&mut] $list:ident: $type:ty, $($more:tt)*) => {
        call! {
            [$self $call [] $($done)*
                { () $self.$list.as_mut_ptr() => *mut $type, $self.$list.len() => usize }]
            $($more)*
        }
    };

    // A slice besides that is read, and one that is written.
    ([$self:ident $call:tt $safe:tt $($done:tt)*] $name:ident: &[$type:ty], $($more:tt)*) => {
        call! {
            [$self $call [] $($done)*
                { ($name: &[$type],) $name.as_ptr() => *const $type, $name.len() => usize }]
            $($more)*
        }
    };
    ([$self:ident $call:tt $safe:tt $($done:tt)*] $name:ident: &mut [$type:ty], $($more:tt)*) => {
        call! {
            [$self $call [] $($done)*
                { ($name: &mut [$type],) $name.as_mut_ptr() => *mut $type, $name.len() => usize }]
            $($more)*
        }
    };

    // A value or a reference, which is passed as it is.
    ([$self:ident $call:tt $safe:tt $($done:tt)*] $name:ident: $type:ty, $($more:tt)*) => {
        call! {
            [$self $call $safe $($done)*
                { ($name: $type,) $name => $type }]
            $($more)*
        }
    };

    // No argument is left: the call is declared.
    ([
        $self:ident [$call:ident -> $answer:ty] [$($safe:tt)*]
        $({ $given:tt $($passed:expr => $type:ty),* })*
    ]) => {
        unsafe extern "C" {
            $($safe)* fn $call($($(_: $type,)*)*) -> $answer;
        }
    };
    // The same with a function that makes the call.
    ([
        $self:ident [$call:ident as $function:ident -> $answer:ty] $safe:tt
        $({ ($($given:tt)*) $($passed:expr => $type:ty),* })*
    ]) => {
        call! { [$self [$call -> $answer] $safe $({ () $($passed => $type),* })*] }

        impl Held {
            #[inline(always)]
            #[allow(unused_unsafe)] // a call without a slice is safe
            pub fn $function($($($given)*)*) -> $answer {
                unsafe { $call($($($passed,)*)*) }
            }
        }
    };
}

calls! {
    // ---- the record
    clvm_new_limited(a: &mut Record, limit: usize) -> Answer;
    clvm_atom_count as atom_count(&record) -> Number;
    clvm_allocated_atom_count as allocated_atom_count(&record) -> Number;
    clvm_pair_count as pair_count(&record) -> Number;
    clvm_allocated_pair_count as allocated_pair_count(&record) -> Number;
    clvm_heap_size as heap_size(&record) -> Number;
    clvm_allocated_heap_size as allocated_heap_size(&record) -> Number;
    clvm_checkpoint_of as checkpoint(&record, k: &mut Plain) -> Answer;
    clvm_transparent_checkpoint as transparent_checkpoint(&record, k: &mut Counts) -> Answer;
    clvm_well_formed as sound(&record, &store, &pairs) -> u32;

    // ---- a node's bits, and bytes alone
    clvm_object_type(n: u32) -> Number;
    clvm_index(n: u32) -> Number;
    clvm_is_atom(n: u32) -> Number;
    clvm_is_pair(n: u32) -> Number;
    clvm_fits_in_small_atom as fits_in_small_atom(v: &[u8]) -> Optional;
    clvm_len_for_value(v: u32) -> usize;

    // ---- reads
    clvm_node as node(&record, &atoms, &pairs, n: u32) -> Visited;
    clvm_sexp as sexp(&record, &pairs, n: u32) -> Children;
    clvm_next as next(&record, &pairs, n: u32) -> Children;
    clvm_atom as atom(&record, &store, scratch: &mut [u8], n: u32) -> Part;
    clvm_atom_len as atom_len(&record, &atoms, n: u32) -> Number;
    clvm_small_number as small_number(&record, &store, n: u32) -> Optional;
    clvm_atom_eq as atom_eq(&record, &store, lhs: u32, rhs: u32) -> Number;
    clvm_checkpoint_node_status as checkpoint_node_status(&record, &atoms, k: &Counts, n: u32) -> Status;

    // ---- creation
    clvm_new_atom as new_atom(&mut record, &mut store, v: &[u8]) -> Answer;
    clvm_new_small_number as new_small_number(&mut record, v: u32) -> Answer;
    clvm_new_u64 as new_u64(&mut record, &mut store, x: u64) -> Answer;
    clvm_new_i64 as new_i64(&mut record, &mut store, x: i64) -> Answer;
    clvm_new_pair as new_pair(&mut record, &mut pairs, first: u32, rest: u32) -> Answer;
    clvm_add_ghost_pair as add_ghost_pair(&mut record, amount: usize) -> Answer;
    clvm_remove_ghost_pair as remove_ghost_pair(&mut record, amount: usize) -> Answer;
    clvm_add_ghost_atom as add_ghost_atom(&mut record, amount: usize) -> Answer;
    clvm_new_substr as new_substr(&mut record, &mut store, n: u32, start: u32, end: u32) -> Answer;
    clvm_new_concat as new_concat(&mut record, &mut store, new_size: usize, nodes: &[u32]) -> Answer;

    // ---- restores
    clvm_restore_checkpoint as restore_checkpoint(&mut record, &atoms, &pairs, k: &Plain) -> Answer;
    clvm_restore_transparent_checkpoint as restore_transparent_checkpoint(&mut record, &atoms, &pairs, k: &Counts) -> Answer;
    clvm_maybe_restore_with_node as maybe_restore_with_node(&mut record, &mut store, &pairs, k: &Counts, n: u32) -> Restored;

    // ---- program files
    clvm_load as load(&mut record, &mut store, &mut pairs, file: &[u8]) -> Loaded;
    clvm_save as save(&record, &store, &pairs, n: u32, file: &mut [u8]) -> Number;
}
