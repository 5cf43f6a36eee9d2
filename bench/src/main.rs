//! Times each call on the Rust original and on our library, in one program, with the same inputs. Every row is prepared
//! before the clock starts, and both sides write into memory that they already have.

mod table;

use calls::{Call, Checkpoint, Counts, Said, State, TOP};
use ours::Ours;
use ours::ffi::{clvm_is_pair, clvm_len_for_value, fits_in_small_atom};
use plain::Theirs;
use plain::allocator::{self, NodeVisitor, inside::bits, inside::mark, inside::node};
use std::hint::black_box;
use table::{Both, Table};

const SMALL: u32 = 2 << 26;
const BYTES: u32 = 1 << 26;

/// 1,000 atoms of 32 bytes, no two alike, and 1,000 pairs in a list; then one more atom, equal to the last.
fn usual() -> State {
    let mut s = State::fresh(TOP);
    for i in 0..1001u32 {
        let at = s.bytes.len() as u32;
        s.bytes.extend_from_slice(&[0x55; 28]);
        s.bytes.extend_from_slice(&i.min(999).to_be_bytes());
        s.atoms.push((at, at + 32));
        s.pairs.push((BYTES | i, if i == 0 { SMALL } else { i - 1 }));
    }
    s
}

/// So many slots of each sort: a list of one-byte atoms.
fn slots(n: usize) -> State {
    let mut s = State::fresh(TOP);
    for i in 0..n as u32 {
        s.bytes.push(0x80);
        s.atoms.push((i, i + 1));
        s.pairs.push((BYTES | i, if i == 0 { SMALL } else { i - 1 }));
    }
    s
}

/// One or two atoms of 1,000 bytes.
fn long() -> State {
    let mut s = State::fresh(TOP);
    s.bytes = vec![0x80; 2000];
    s.atoms = vec![(0, 1000), (1000, 2000)];
    s
}

/// The i-th of a thousand, hidden from the compiler, which must not work answers out beforehand.
#[inline(always)]
fn nth(i: usize) -> u32 {
    black_box(i as u32 % 1000)
}

/// What a slice is made of.
#[inline(always)]
fn place(part: &[u8]) -> (*const u8, usize) {
    (part.as_ptr(), part.len())
}

#[inline(always)]
fn buffer(found: NodeVisitor) -> (*const u8, usize) {
    if let NodeVisitor::Buffer(part) = found { place(part) } else { place(&[]) }
}

#[inline(always)]
fn children(found: NodeVisitor) -> Option<(u32, u32)> {
    if let NodeVisitor::Pair(first, rest) = found { Some((bits(first), bits(rest))) } else { None }
}

fn reads(t: &Table) {
    let b = &mut Both::of(&usual());
    let three = [1, 2, 3];
    let mut scratch = [0; 4];
    t.row(b, "len_for_value", |_, i| allocator::len_for_value(nth(i)), |_, i| clvm_len_for_value(nth(i)));
    t.row(b, "heap_size", |a, _| a.heap_size(), |o, _| o.heap_size());
    t.row(b, "is_pair", |_, i| node(nth(i)).is_pair(), |_, i| clvm_is_pair(nth(i)));
    t.row(
        b,
        "fits_in_small_atom, 3 bytes",
        |_, _| allocator::fits_in_small_atom(black_box(&three)),
        |_, _| fits_in_small_atom(black_box(&three)),
    );
    t.row(b, "node of Bytes", |a, i| buffer(a.node(node(BYTES | nth(i)))), |o, i| o.node(BYTES | nth(i)));
    t.row(b, "node of a pair", |a, i| children(a.node(node(nth(i)))), |o, i| o.node(nth(i)));
    t.row(b, "sexp of a pair", |a, i| a.sexp(node(nth(i))), |o, i| o.sexp(nth(i)));
    t.row(b, "next of a pair", |a, i| a.next(node(nth(i))), |o, i| o.next(nth(i)));
    t.row(b, "atom of Bytes", |a, i| place(&a.atom(node(BYTES | nth(i)))), |o, i| o.atom(&mut scratch, BYTES | nth(i)));
    t.row(b, "atom of a small atom", |a, i| a.atom(node(SMALL | nth(i))).len(), |o, i| o.atom(&mut scratch, SMALL | nth(i)));
    t.row(b, "atom_len of Bytes", |a, i| a.atom_len(node(BYTES | nth(i))), |o, i| o.atom_len(BYTES | nth(i)));
    t.row(b, "small_number of Bytes", |a, i| a.small_number(node(BYTES | nth(i))), |o, i| o.small_number(BYTES | nth(i)));
    t.row(
        b,
        "small_number of a small atom",
        |a, i| a.small_number(node(SMALL | nth(i))),
        |o, i| o.small_number(SMALL | nth(i)),
    );
    eq(t, b, "atom_eq, 32 equal bytes", |_| (BYTES | 999, BYTES | 1000));
    eq(t, b, "atom_eq, 32 bytes, the last differs", |i| (BYTES | nth(i), BYTES | 7));
    eq(t, b, "atom_eq, small and Bytes", |i| (SMALL | nth(i), BYTES | nth(i)));
    eq(t, b, "atom_eq, both small", |i| (SMALL | nth(i), SMALL | 7));
    eq(t, &mut Both::of(&long()), "atom_eq, 1,000 equal bytes", |_| (BYTES, BYTES | 1));
}

fn eq(t: &Table, b: &mut Both, name: &str, of: impl Fn(usize) -> (u32, u32)) {
    let theirs = |(l, r): (u32, u32)| (node(l), node(r));
    t.row(
        b,
        name,
        |a, i| {
            let (l, r) = theirs(black_box(of(i)));
            a.atom_eq(l, r)
        },
        |o, i| {
            let (l, r) = black_box(of(i));
            o.atom_eq(l, r)
        },
    );
}

fn atom(t: &Table, b: &mut Both, name: &str, v: &[u8]) {
    t.row(b, name, |a, _| a.new_atom(black_box(v)).is_ok(), |o, _| o.new_atom(black_box(v)));
}

fn substr(t: &Table, b: &mut Both, name: &str, n: u32, start: u32, end: u32) {
    let theirs = |a: &mut allocator::Allocator, _| a.new_substr(node(black_box(n)), start, end).is_ok();
    t.row(b, name, theirs, |o, _| o.new_substr(black_box(n), start, end));
}

fn concat(t: &Table, b: &mut Both, name: &str, size: usize, nodes: &[u32]) {
    let theirs: Vec<_> = nodes.iter().map(|n| node(*n)).collect();
    let ours = |o: &mut Ours, _| o.new_concat(black_box(size), nodes);
    t.row(b, name, |a, _| a.new_concat(black_box(size), &theirs).is_ok(), ours);
}

fn creates(t: &Table) {
    let b = &mut Both::of(&usual());
    atom(t, b, "new_atom, small, 3 bytes", &[1, 2, 3]);
    atom(t, b, "new_atom, stored, 1 byte", &[0x80]);
    atom(t, b, "new_atom, stored, 32 bytes", &[0x80; 32]);
    atom(t, b, "new_atom, stored, 1,000 bytes", &[0x80; 1000]);
    let small = |i: usize| nth(i) * 60000;
    t.row(b, "new_small_number", |a, i| a.new_small_number(small(i)).is_ok(), |o, i| o.new_small_number(small(i)));
    for (name, base) in [("small", 1000), ("8 bytes", 1 << 60), ("9 bytes", 1 << 63)] {
        let x = |i| base | nth(i) as u64;
        t.row(b, &format!("new_u64, {name}"), |a, i| a.new_u64(x(i)).is_ok(), |o, i| o.new_u64(x(i)));
    }
    for (name, base) in [("2 bytes", -2000), ("8 bytes", i64::MIN)] {
        let x = |i| base + nth(i) as i64;
        t.row(b, &format!("new_i64, negative, {name}"), |a, i| a.new_i64(x(i)).is_ok(), |o, i| o.new_i64(x(i)));
    }
    let first = |i| BYTES | nth(i);
    let theirs = |a: &mut allocator::Allocator, i| a.new_pair(node(first(i)), node(SMALL)).is_ok();
    t.row(b, "new_pair", theirs, |o, i| o.new_pair(first(i), SMALL));
    substr(t, b, "new_substr of Bytes", BYTES | 5, 4, 20);
    substr(t, b, "new_substr of a small atom, small", SMALL | 0x10203, 0, 1);
    substr(t, b, "new_substr of a small atom, stored", SMALL | 0x80, 1, 2);
    let eight: Vec<u32> = (0..8).map(|i| BYTES | i).collect();
    concat(t, b, "new_concat of one atom", 32, &eight[..1]);
    concat(t, b, "new_concat of 2 times 32 bytes", 64, &eight[..2]);
    concat(t, b, "new_concat of 8 times 32 bytes", 256, &eight);
    concat(t, b, "new_concat of 8 small atoms", 8, &[SMALL | 5; 8]);
    concat(t, &mut Both::of(&long()), "new_concat of 2 times 1,000 bytes", 2000, &[BYTES, BYTES]);
    let three = || black_box(3);
    t.row(b, "add_ghost_atom", |a, _| a.add_ghost_atom(three()).is_ok(), |o, _| o.add_ghost_atom(three()));
    t.row(b, "add_ghost_pair", |a, _| a.add_ghost_pair(three()).is_ok(), |o, _| o.add_ghost_pair(three()));
    let mut ghosts = usual();
    ghosts.ghosts.pairs = 10000;
    let b = &mut Both::of(&ghosts);
    t.row(b, "remove_ghost_pair", |a, _| a.remove_ghost_pair(three()).is_ok(), |o, _| o.remove_ghost_pair(three()));
}

fn restores(t: &Table) {
    let b = &mut Both::of(&usual());
    // the library writes a checkpoint where its host keeps it
    let (mut taken, mut counts) = (Checkpoint::default(), Counts::default());
    t.row(b, "checkpoint", |a, _| a.checkpoint(), |o, _| o.checkpoint(black_box(&mut taken)));
    t.row(
        b,
        "transparent_checkpoint",
        |a, _| a.transparent_checkpoint(),
        |o, _| o.transparent_checkpoint(black_box(&mut counts)),
    );
    let cp = Counts { atoms: 500, pairs: 500, bytes: 16000 };
    let n = |i| BYTES | nth(i);
    let theirs = |a: &mut allocator::Allocator, i| a.checkpoint_node_status(&mark(cp), node(n(i)));
    t.row(b, "checkpoint_node_status", theirs, |o, i| o.checkpoint_node_status(&cp, n(i)));
    for kept_slots in [0, 10, 1000, 10_000, 100_000, 1_000_000] {
        // to the state as it is, so that it can be made again and again
        let state = slots(kept_slots);
        let cp = black_box(state.record().used);
        let plain = Checkpoint { used: cp, ghosts: state.ghosts };
        let b = &mut Both::of(&state);
        let theirs = b.theirs.a.checkpoint();
        let name = |call: &str| format!("{call}, {} kept slots of each sort", thousands(kept_slots));
        t.row(
            b,
            &name("restore_checkpoint"),
            |a, _| a.restore_checkpoint(black_box(&theirs)),
            |o, _| o.restore_checkpoint(&plain),
        );
        t.row(
            b,
            &name("restore_transparent_checkpoint"),
            |a, _| a.restore_transparent_checkpoint(&mark(black_box(cp))),
            |o, _| o.restore_transparent_checkpoint(&cp),
        );
        t.row(
            b,
            &name("maybe_restore_with_node, Aborted"),
            |a, _| a.maybe_restore_with_node(&mark(black_box(cp)), node(SMALL)).is_ok(),
            |o, _| o.maybe_restore_with_node(&cp, SMALL),
        );
    }
    for kept_slots in [0, 1000] {
        let mut state = slots(kept_slots);
        let cp = state.record().used;
        for _ in 0..20 {
            let at = state.bytes.len() as u32;
            state.bytes.extend_from_slice(&[0x80; 60]);
            state.atoms.push((at, at + 60));
        }
        state.atoms.push((cp.bytes as u32, cp.bytes as u32 + 32));
        let last = BYTES | (state.atoms.len() - 1) as u32;
        for (what, n) in [("NoReplace", SMALL), ("a copy of 32 bytes", last)] {
            let name = format!("maybe_restore_with_node, {what}, {} kept slots of each sort", thousands(kept_slots));
            let theirs = |a: &mut allocator::Allocator| a.maybe_restore_with_node(&mark(cp), node(n)).is_ok();
            t.once(&name, &state, theirs, |o| o.maybe_restore_with_node(&cp, n));
        }
    }
}

fn thousands(n: usize) -> String {
    if n < 1000 { n.to_string() } else { format!("{},{:03}", thousands(n / 1000), n % 1000) }
}

/// A run as a program makes it: atoms, pairs, parts, joins, reads, and, where it restores, a restore after every hundred calls.
fn trace(restores: bool) -> Vec<Call> {
    let mut calls = Vec::new();
    let mut side = Theirs::of(&State::fresh(TOP));
    let mut cp = Counts::default();
    let (mut list, mut last) = (SMALL, SMALL);
    for i in 0..10_000u32 {
        let length = side.a.atom_len(node(last));
        let call = match i % 10 {
            0 => Call::NewAtom(vec![0x80 | i as u8; 20 + i as usize % 20]),
            1 => Call::NewU64(i as u64 * 0x1234567),
            2 => Call::NewSmallNumber(i),
            3 => Call::NewConcat(2 * length, vec![last, last]),
            4 => Call::NewSubstr(last, 0, length as u32 / 2),
            5 => Call::AtomEq(last, SMALL | 5),
            6 => Call::AtomLen(last),
            7 | 8 => Call::NewPair(last, list),
            _ if i % 100 == 9 => Call::TransparentCheckpoint,
            _ if restores && i % 100 == 99 => Call::MaybeRestoreWithNode(cp, last),
            _ => Call::Next(list),
        };
        match side.call(&call) {
            Said::Made(n) if n >> 26 == 0 => list = n,
            Said::Made(n) => last = n,
            Said::Transparent(taken) => cp = taken,
            Said::Replace(n) => (last, list) = (n, SMALL),
            Said::NoReplace => list = SMALL,
            _ => {}
        }
        calls.push(call);
    }
    calls
}

fn main() {
    let mut words = std::env::args().skip(1);
    let rounds = match words.next().as_deref() {
        None => Some(15),
        Some("--rounds") => words.next().and_then(|w| w.parse().ok()),
        _ => None,
    };
    let Some(rounds) = rounds else {
        eprintln!("bench [--rounds N]");
        std::process::exit(2);
    };
    let t = &Table::new(rounds);
    reads(t);
    creates(t);
    restores(t);
    t.list("a whole trace of 10,000 calls, no restore, per call", &trace(false));
    t.list("a whole trace of 10,000 calls, with 100 restores, per call", &trace(true));
}
