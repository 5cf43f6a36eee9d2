//! Runs of the host's allocator: growth from empty slots, the cases that the rules name, restores, and what is refused.
use clvm_allocator::{
    fits_in_small_atom, len_for_value, Allocator, Atom, Code, EvalErr, MaybeRestore, NodePtr,
    NodeStatus, NodeVisitor, ObjectType, Result, SExp,
};
use std::collections::HashSet;

/// Atoms, pairs and heap, ghosts among them.
fn totals(a: &Allocator) -> (usize, usize, usize) {
    (a.atom_count(), a.pair_count(), a.heap_size())
}

/// What is stored.
fn stored(a: &Allocator) -> (usize, usize, usize) {
    (
        a.allocated_atom_count(),
        a.allocated_pair_count(),
        a.allocated_heap_size(),
    )
}

fn node(bits: u32) -> NodePtr {
    NodePtr::from_bits(bits).expect("a kind")
}

fn refusal(code: Code, node: NodePtr) -> EvalErr {
    EvalErr { code, node }
}

#[test]
fn fresh() -> Result<()> {
    for a in [
        Allocator::new(),
        Allocator::default(),
        Allocator::new_limited(u32::MAX as usize)?,
    ] {
        assert_eq!(totals(&a), (2, 0, 1));
        assert_eq!(stored(&a), (0, 0, 0));
        assert!(a.well_formed());
    }
    let over = Allocator::new_limited(u32::MAX as usize + 1);
    assert_eq!(over.err(), Some(refusal(Code::Unsound, NodePtr::NIL)));
    Ok(())
}

#[test]
fn example_trace() -> Result<()> {
    let mut a = Allocator::new();
    let atom = a.new_atom(&[0x00, 0x80])?;
    assert_eq!((atom.bits(), totals(&a)), (134217856, (3, 0, 3)));
    let part = a.new_substr(atom, 1, 2)?;
    assert_eq!((part.bits(), totals(&a)), (67108864, (4, 0, 4)));
    let pair = a.new_pair(part, a.nil())?;
    assert_eq!((pair.bits(), totals(&a)), (0, (4, 1, 4)));

    assert_eq!(&*a.atom(part)?, [0x80]);
    assert_eq!(&*a.atom(atom)?, [0x00, 0x80]);
    assert_eq!(a.atom_len(atom)?, 2);
    assert_eq!(a.small_number(atom)?, Some(128));
    assert_eq!(a.small_number(part)?, None);
    assert_eq!(a.small_number(pair)?, None);
    assert!(a.atom_eq(part, part)?);
    assert!(!a.atom_eq(part, atom)?);
    assert_eq!(a.node(pair)?, NodeVisitor::Pair(part, a.nil()));
    assert_eq!(a.node(part)?, NodeVisitor::Buffer(&[0x80]));
    assert_eq!(a.node(atom)?, NodeVisitor::U32(128));
    assert_eq!(a.sexp(pair)?, SExp::Pair(part, a.nil()));
    assert_eq!(a.sexp(atom)?, SExp::Atom);
    assert_eq!(a.next(pair)?, Some((part, a.nil())));
    assert_eq!(a.next(a.nil())?, None);
    assert!(a.well_formed());
    Ok(())
}

#[test]
fn grows_from_empty_slots() -> Result<()> {
    let mut a = Allocator::new();
    let mut list = a.nil();
    let mut expected = Vec::new();
    for i in 0..5000_u32 {
        let bytes = [0xff, 0xee]
            .into_iter()
            .chain(i.to_be_bytes())
            .collect::<Vec<_>>();
        let atom = a.new_atom(&bytes)?;
        list = a.new_pair(atom, list)?;
        expected.push(bytes);
    }
    assert_eq!(totals(&a), (5002, 5000, 30001));
    assert_eq!(stored(&a), (5000, 5000, 30000));
    assert!(a.well_formed());

    let mut at = list;
    while let Some((item, rest)) = a.next(at)? {
        assert_eq!(a.atom(item)?.as_ref(), expected.pop().expect("as many"));
        at = rest;
    }
    assert_eq!((at, expected.len()), (NodePtr::NIL, 0));

    let large = a.new_atom(&[0xaa; 1_000_000])?;
    assert_eq!(a.atom_len(large)?, 1_000_000);
    let twice = a.new_concat(2_000_000, &[large, large])?;
    assert!(a.atom(twice)?.iter().all(|&b| b == 0xaa));
    let part = a.new_substr(twice, 999_999, 1_000_001)?;
    assert_eq!(&*a.atom(part)?, [0xaa, 0xaa]);
    assert!(a.well_formed());
    Ok(())
}

#[test]
fn integers() -> Result<()> {
    let mut a = Allocator::new();
    let cases: [(i64, &[u8]); 8] = [
        (0, &[]),
        (127, &[0x7f]),
        (128, &[0x00, 0x80]),
        (-1, &[0xff]),
        (-128, &[0x80]),
        (-129, &[0xff, 0x7f]),
        (i64::MAX, &[0x7f, 0xff, 0xff, 0xff, 0xff, 0xff, 0xff, 0xff]),
        (i64::MIN, &[0x80, 0, 0, 0, 0, 0, 0, 0]),
    ];
    for (number, bytes) in cases {
        let made = a.new_i64(number)?;
        assert_eq!(a.atom(made)?.as_ref(), bytes, "{number}");
    }
    let most = a.new_u64(u64::MAX)?;
    assert_eq!(
        &*a.atom(most)?,
        [0, 0xff, 0xff, 0xff, 0xff, 0xff, 0xff, 0xff, 0xff]
    );
    let small = a.new_u64(67_108_863)?;
    assert_eq!(small.object_type(), ObjectType::SmallAtom);
    assert_eq!(small, a.new_small_number(67_108_863)?);
    let over = a.new_small_number(67_108_864);
    assert_eq!(over, Err(refusal(Code::TooLarge, NodePtr::NIL)));
    Ok(())
}

#[test]
fn small_atoms() {
    let cases: [(&[u8], Option<u32>); 8] = [
        (&[], Some(0)),
        (&[0x00], None),
        (&[0x7f], Some(127)),
        (&[0x80], None),
        (&[0x00, 0x7f], None),
        (&[0x00, 0x80], Some(128)),
        (&[0x03, 0xff, 0xff, 0xff], Some(67_108_863)),
        (&[0x04, 0x00, 0x00, 0x00], None),
    ];
    for (bytes, value) in cases {
        assert_eq!(fits_in_small_atom(bytes), value, "{bytes:?}");
    }
    assert_eq!([0, 127, 128, u32::MAX].map(len_for_value), [0, 1, 2, 5]);
}

#[test]
fn concat() -> Result<()> {
    let mut a = Allocator::new();
    let nil = a.nil();
    let empty = a.new_concat(0, &[nil, nil])?;
    assert_eq!(empty.object_type(), ObjectType::Bytes);
    assert_eq!(a.atom_len(empty)?, 0);
    assert_eq!(a.new_concat(0, &[])?, nil);
    let wrong = a.new_concat(1, &[]);
    assert_eq!(wrong, Err(refusal(Code::InvalidSize, nil)));
    let stored = a.new_atom(b"stored")?;
    let small = a.new_atom(b"foo")?;
    assert_eq!(a.new_concat(6, &[stored])?, stored);
    let joined = a.new_concat(9, &[small, stored])?;
    assert_eq!(&*a.atom(joined)?, b"foostored");
    let before = totals(&a);
    let past = a.new_concat(8, &[small, stored]);
    assert_eq!(past, Err(refusal(Code::InvalidSize, stored)));
    let past = a.new_concat(8, &[stored, small]);
    assert_eq!(past, Err(refusal(Code::InvalidSize, nil)));
    let near = a.new_concat(usize::MAX, &[stored, small]);
    assert_eq!(near, Err(refusal(Code::OutOfMemory, nil)));
    assert_eq!(totals(&a), before);
    Ok(())
}

#[test]
fn limit_three() -> Result<()> {
    let mut a = Allocator::new_limited(3)?;
    let atom = a.new_atom(&[0x00, 0x80])?;
    a.new_substr(atom, 1, 2)?;
    assert_eq!(a.heap_size(), 4);
    let empty = a.new_atom(&[]);
    assert_eq!(empty, Err(refusal(Code::OutOfMemory, NodePtr::NIL)));
    assert_eq!(totals(&a), (4, 0, 4));
    assert!(a.well_formed());
    Ok(())
}

/// A checkpoint, two atoms of so many bytes, and a restore that is to keep the second.
fn restore_of(first: usize, second: usize) -> Result<(Allocator, MaybeRestore)> {
    let mut a = Allocator::new();
    let mark = a.transparent_checkpoint();
    a.new_atom(&vec![0xee; first])?;
    let ret = a.new_atom(&vec![0xdd; second])?;
    assert_eq!(
        a.checkpoint_node_status(&mark, ret)?,
        NodeStatus::AfterNewBytes
    );
    let done = a.maybe_restore_with_node(&mark, ret)?;
    Ok((a, done))
}

#[test]
fn savings() -> Result<()> {
    let (a, done) = restore_of(959, 48)?;
    assert_eq!((done, stored(&a)), (MaybeRestore::Aborted, (2, 0, 1007)));
    let (a, done) = restore_of(960, 48)?;
    assert_eq!(done, MaybeRestore::Replace(node(67108864)));
    assert_eq!((stored(&a), totals(&a)), ((1, 0, 48), (4, 0, 1009)));
    assert_eq!(&*a.atom(node(67108864))?, [0xdd; 48]);
    assert!(a.well_formed());
    let (_, done) = restore_of(960, 49)?;
    assert_eq!(done, MaybeRestore::Aborted);
    Ok(())
}

#[test]
fn restores() -> Result<()> {
    let mut a = Allocator::new();
    let kept = a.new_atom(&[0xcc; 100])?;
    let plain = a.checkpoint();
    let mark = a.transparent_checkpoint();
    assert_eq!(plain.transparent(), mark);
    let before = (stored(&a), totals(&a));

    let part = a.new_substr(kept, 10, 20)?;
    let status = a.checkpoint_node_status(&mark, part)?;
    assert_eq!(status, NodeStatus::AfterOldBytes { start: 10, end: 20 });
    assert_eq!(a.checkpoint_node_status(&mark, kept)?, NodeStatus::Before);
    a.new_atom(&[0xbb; 2000])?;
    let pair = a.new_pair(part, kept)?;
    let after = totals(&a);
    let done = a.maybe_restore_with_node(&mark, pair)?;
    assert_eq!(done, MaybeRestore::Aborted);
    let done = a.maybe_restore_with_node(&mark, part)?;
    let MaybeRestore::Replace(part) = done else {
        panic!("{done:?}");
    };
    assert_eq!(&*a.atom(part)?, [0xcc; 10]);
    assert_eq!((stored(&a), totals(&a)), ((2, 0, 100), after));
    assert_eq!(a.sexp(pair), Err(refusal(Code::NotValid, NodePtr::NIL)));

    a.restore_checkpoint(&plain)?;
    assert_eq!((stored(&a), totals(&a)), before);
    a.new_atom(&[0xbb; 2000])?;
    let done = a.maybe_restore_with_node(&mark, kept)?;
    assert_eq!(done, MaybeRestore::NoReplace);
    a.new_atom(&[0xbb; 7])?;
    a.restore_transparent_checkpoint(&mark)?;
    assert_eq!(stored(&a), before.0);
    assert_eq!(totals(&a), (before.1 .0 + 2, 0, before.1 .2 + 2007));
    assert!(a.well_formed());
    Ok(())
}

#[test]
fn dead_checkpoint() -> Result<()> {
    let mut a = Allocator::new();
    let first = a.checkpoint();
    a.new_atom(&[0xee; 100])?;
    let second = a.checkpoint();
    a.restore_checkpoint(&first)?;
    let ahead = a.restore_checkpoint(&second);
    assert_eq!(ahead, Err(refusal(Code::NotUsable, NodePtr::NIL)));
    a.new_atom(&[0xee; 50])?;
    let last = a.new_atom(&[0xee; 2000])?;
    let before = (stored(&a), totals(&a));
    let across = a.maybe_restore_with_node(&second.transparent(), last);
    assert_eq!(across, Err(refusal(Code::InvalidRange, NodePtr::NIL)));
    assert_eq!((stored(&a), totals(&a)), before);
    Ok(())
}

#[test]
fn ghosts() -> Result<()> {
    let mut a = Allocator::new();
    a.add_ghost_pair(62_500_000)?;
    let nil = a.nil();
    let many = a.new_pair(nil, nil);
    assert_eq!(many, Err(refusal(Code::TooManyPairs, nil)));
    let more = a.add_ghost_pair(usize::MAX);
    assert_eq!(more, Err(refusal(Code::TooManyPairs, nil)));
    a.remove_ghost_pair(62_500_000)?;
    let fewer = a.remove_ghost_pair(1);
    assert_eq!(fewer, Err(refusal(Code::TooFewGhosts, nil)));
    a.add_ghost_atom(62_499_998)?;
    let many = a.new_atom(&[]);
    assert_eq!(many, Err(refusal(Code::TooManyAtoms, nil)));
    assert_eq!(totals(&a), (62_500_000, 0, 1));
    Ok(())
}

#[test]
fn refused_where_rust_panics() -> Result<()> {
    let mut a = Allocator::new();
    let nil = a.nil();
    let pair = a.new_pair(nil, nil)?;
    let expected = refusal(Code::ExpectedAtom, pair);
    assert_eq!(a.atom(pair).err(), Some(expected));
    assert_eq!(a.atom_len(pair), Err(expected));
    assert_eq!(a.atom_eq(pair, nil), Err(expected));
    assert_eq!(a.atom_eq(nil, pair), Err(expected));
    assert_eq!(a.new_concat(0, &[pair]), Err(expected));

    let mark = a.transparent_checkpoint();
    let not_valid = refusal(Code::NotValid, nil);
    for absent in [node(1), node(67108864)] {
        assert_eq!(a.atom(absent).err(), Some(not_valid));
        assert_eq!(a.small_number(absent), Err(not_valid));
        assert_eq!(a.node(absent).err(), Some(not_valid));
        assert_eq!(a.sexp(absent), Err(not_valid));
        assert_eq!(a.next(absent), Err(not_valid));
        assert_eq!(a.checkpoint_node_status(&mark, absent), Err(not_valid));
        assert_eq!(a.new_pair(absent, nil), Err(not_valid));
        assert_eq!(a.new_substr(absent, 0, 0), Err(not_valid));
    }
    assert_eq!(totals(&a), (2, 1, 1));
    Ok(())
}

#[test]
fn nodes() -> Result<()> {
    assert_eq!(NodePtr::from_bits(u32::MAX), None);
    assert_eq!(NodePtr::default(), NodePtr::NIL);
    let atom = node(67108864 + 9);
    assert_eq!((atom.object_type(), atom.index()), (ObjectType::Bytes, 9));
    assert!(atom.is_atom() && !atom.is_pair());
    assert!(node(3).is_pair() && !node(3).is_atom());
    assert_eq!(format!("{:?}", node(3)), "NodePtr(Pair, 3)");

    let mut a = Allocator::new();
    assert_eq!(a.small_number(a.one())?, Some(1));
    let stored = a.new_atom(&[0x80])?;
    let seen = HashSet::from([a.atom(a.one())?, a.atom(stored)?]);
    assert!(seen.contains([1].as_slice()) && seen.contains([0x80].as_slice()));
    assert_eq!(a.atom(stored)?, Atom::Borrowed(&[0x80]));
    Ok(())
}

#[test]
fn errors_say_why() {
    let words = refusal(Code::OutOfMemory, NodePtr::NIL).to_string();
    assert_eq!(words, "Out of Memory");
    assert_eq!(Code::Full.number(), 15);
}
