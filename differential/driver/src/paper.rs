//! Document 01 read a third time: when a call is refused, with which code and node. The comparison uses it to know a listed
//! difference by the input, and to hold our side to the exact code there. Sums are in u128, so that they are exact.

use calls::{Call, Checkpoint, Counts, MOST, NIL, Record, TOP};
use ours::Ours;

pub type Test<T> = Result<T, (u32, u32)>;

fn need(holds: bool, code: u32, node: u32) -> Test<()> {
    if holds { Ok(()) } else { Err((code, node)) }
}

fn sum(a: usize, b: usize) -> u128 {
    a as u128 + b as u128
}

pub fn heap(r: &Record) -> u128 {
    sum(r.used.bytes, r.ghosts.bytes)
}

pub fn atoms(r: &Record) -> u128 {
    sum(r.used.atoms, r.ghosts.atoms)
}

pub fn pairs(r: &Record) -> u128 {
    sum(r.used.pairs, r.ghosts.pairs)
}

pub fn limits_sound(r: &Record) -> bool {
    r.used.bytes <= TOP
        && r.limit <= TOP
        && atoms(r) <= MOST as u128
        && pairs(r) <= MOST as u128
        && heap(r) <= r.limit as u128 + 3 * atoms(r)
}

fn bytes_fit(r: &Record, s: &Ours) -> bool {
    r.used.bytes <= s.bytes.len()
}

fn atoms_fit(r: &Record, s: &Ours) -> bool {
    r.used.atoms <= s.starts.len() && r.used.atoms <= s.ends.len()
}

fn pairs_fit(r: &Record, s: &Ours) -> bool {
    r.used.pairs <= s.firsts.len() && r.used.pairs <= s.rests.len()
}

pub fn kind(n: u32) -> u32 {
    n >> 26
}

pub fn index(n: u32) -> usize {
    (n & 0x3ffffff) as usize
}

pub fn valid(atoms: usize, pairs: usize, n: u32) -> bool {
    match kind(n) {
        0 => index(n) < pairs,
        1 => index(n) < atoms,
        2 => true,
        _ => false,
    }
}

fn atom_slot_sound(bytes: usize, s: &Ours, i: usize) -> bool {
    s.starts[i] <= s.ends[i] && s.ends[i] as usize <= bytes
}

fn pair_slot_sound(atoms: usize, s: &Ours, i: usize) -> bool {
    valid(atoms, i, s.firsts[i]) && valid(atoms, i, s.rests[i])
}

fn slots_sound(used: Counts, s: &Ours) -> bool {
    (0..used.atoms).all(|i| atom_slot_sound(used.bytes, s, i)) && (0..used.pairs).all(|i| pair_slot_sound(used.atoms, s, i))
}

pub fn well_formed(s: &Ours) -> bool {
    let r = &s.record;
    limits_sound(r) && bytes_fit(r, s) && atoms_fit(r, s) && pairs_fit(r, s) && slots_sound(r.used, s)
}

pub fn usable(cp: Counts, s: &Ours) -> bool {
    let used = s.record.used;
    cp.bytes <= used.bytes && cp.atoms <= used.atoms && cp.pairs <= used.pairs && slots_sound(cp, s)
}

pub fn savings(cp: Counts, used: Counts) -> usize {
    (used.bytes - cp.bytes) + 8 * ((used.atoms - cp.atoms) + (used.pairs - cp.pairs))
}

/// A node argument after 5 and 1.
enum Arg {
    Pair,
    Bytes(usize, usize),
    Small(u32),
}

fn arg(s: &Ours, n: u32) -> Test<Arg> {
    let used = s.record.used;
    need(valid(used.atoms, used.pairs, n), 5, NIL)?;
    let i = index(n);
    match kind(n) {
        0 => Ok(Arg::Pair),
        1 => {
            need(atom_slot_sound(used.bytes, s, i), 1, NIL)?;
            Ok(Arg::Bytes(s.starts[i] as usize, s.ends[i] as usize))
        }
        _ => Ok(Arg::Small(i as u32)),
    }
}

/// The length of an atom argument, after 6 too.
fn atom_arg(s: &Ours, n: u32) -> Test<usize> {
    match arg(s, n)? {
        Arg::Pair => Err((6, n)),
        Arg::Bytes(start, end) => Ok(end - start),
        Arg::Small(v) => Ok(small_len(v)),
    }
}

/// How many bytes a small value has: enough that the first is below 80.
pub fn small_len(v: u32) -> usize {
    (0..6).find(|n| (v as u64) < (1u64 << (8 * n)).div_ceil(2)).expect("five are enough")
}

/// The shortest two's complement bytes.
pub fn int_bytes(v: i128) -> Vec<u8> {
    let n = (0..17).find(|n| *n == 0 && v == 0 || *n > 0 && (v >> (8 * n - 1) == 0 || v >> (8 * n - 1) == -1));
    v.to_be_bytes()[16 - n.expect("at most nine")..].to_vec()
}

/// Whether these bytes become a small atom: they are the shortest form of a number of 26 bits.
pub fn fits(v: &[u8]) -> bool {
    let value = v.iter().take(5).fold(0u64, |sum, b| sum << 8 | *b as u64);
    v.len() <= 4 && value <= 0x3ffffff && int_bytes(value as i128) == v
}

fn store_sound(s: &Ours) -> Test<()> {
    let r = &s.record;
    need(limits_sound(r) && atoms_fit(r, s) && bytes_fit(r, s), 1, NIL)
}

fn atoms_sound(s: &Ours) -> Test<()> {
    need(limits_sound(&s.record) && atoms_fit(&s.record, s), 1, NIL)
}

fn pairs_sound(s: &Ours) -> Test<()> {
    need(limits_sound(&s.record) && pairs_fit(&s.record, s), 1, NIL)
}

fn heap_holds(s: &Ours, len: usize) -> Test<()> {
    need(heap(&s.record) + len as u128 <= s.record.limit as u128, 2, NIL)
}

fn atoms_left(s: &Ours) -> Test<()> {
    need(atoms(&s.record) < MOST as u128, 3, NIL)
}

fn slot_room(s: &Ours) -> Test<()> {
    let i = s.record.used.atoms;
    need(i < s.starts.len() && i < s.ends.len(), 15, NIL)
}

fn store_room(s: &Ours, len: usize) -> Test<()> {
    let end = sum(s.record.used.bytes, len);
    need(end <= TOP as u128 && end <= s.bytes.len() as u128, 15, NIL)?;
    slot_room(s)
}

fn new_atom(s: &Ours, v: &[u8]) -> Test<()> {
    store_sound(s)?;
    heap_holds(s, v.len())?;
    atoms_left(s)?;
    if fits(v) { Ok(()) } else { store_room(s, v.len()) }
}

fn new_substr(s: &Ours, n: u32, start: u32, end: u32) -> Test<()> {
    store_sound(s)?;
    atoms_left(s)?;
    let len = atom_arg(s, n)?;
    need(start as usize <= len, 7, n)?;
    need(end as usize <= len, 8, n)?;
    need(start <= end, 9, n)?;
    match arg(s, n)? {
        Arg::Small(v) => {
            let part = &v.to_be_bytes()[4 - len..][start as usize..end as usize];
            if fits(part) { Ok(()) } else { store_room(s, part.len()) }
        }
        _ => slot_room(s),
    }
}

fn new_concat(s: &Ours, size: usize, nodes: &[u32]) -> Test<()> {
    store_sound(s)?;
    atoms_left(s)?;
    heap_holds(s, size)?;
    match nodes {
        [] => need(size == 0, 10, NIL),
        [n] => need(atom_arg(s, *n)? == size, 10, NIL),
        _ => {
            let mut total = 0;
            for n in nodes {
                total += atom_arg(s, *n)?;
                need(kind(*n) == 2 || total <= size, 10, *n)?;
            }
            need(total == size, 10, NIL)?;
            store_room(s, size)
        }
    }
}

fn restore(s: &Ours, cp: Counts) -> Test<()> {
    atoms_sound(s)?;
    pairs_sound(s)?;
    need(usable(cp, s), 11, NIL)
}

fn restore_plain(s: &Ours, cp: Checkpoint) -> Test<()> {
    restore(s, cp.used)?;
    let cut = Record { used: cp.used, ghosts: cp.ghosts, limit: s.record.limit };
    need(limits_sound(&cut), 11, NIL)
}

fn maybe_restore(s: &Ours, cp: Counts, n: u32) -> Test<()> {
    store_sound(s)?;
    restore(s, cp)?;
    if savings(cp, s.record.used) < 1024 {
        return Ok(());
    }
    match arg(s, n)? {
        Arg::Bytes(start, end) if index(n) >= cp.atoms && start < cp.bytes => need(end <= cp.bytes, 12, NIL),
        Arg::Bytes(start, end) if index(n) >= cp.atoms && end - start <= 48 => heap_holds(s, 0),
        _ => Ok(()),
    }
}

/// The children of a pair are read: its slot for 1.
fn branch(s: &Ours, n: u32) -> Test<()> {
    need(kind(n) != 0 || pair_slot_sound(s.record.used.atoms, s, index(n)), 1, NIL)
}

fn sexp(s: &Ours, n: u32) -> Test<()> {
    pairs_sound(s)?;
    need(valid(s.record.used.atoms, s.record.used.pairs, n), 5, NIL)?;
    branch(s, n)
}

fn node_status(s: &Ours, cp: Counts, n: u32) -> Test<()> {
    atoms_sound(s)?;
    let used = s.record.used;
    need(valid(used.atoms, used.pairs, n), 5, NIL)?;
    let read = kind(n) == 1 && index(n) >= cp.atoms;
    need(!read || atom_slot_sound(used.bytes, s, index(n)), 1, NIL)
}

/// Ok where document 01 accepts the call.
pub fn refusal(call: &Call, s: &Ours) -> Test<()> {
    let r = &s.record;
    match call {
        Call::NewLimited(limit) => need(*limit <= TOP, 1, NIL),
        Call::ObjectType(n) | Call::Index(n) | Call::IsAtom(n) | Call::IsPair(n) => need(kind(*n) <= 2, 5, NIL),
        Call::FitsInSmallAtom(_) | Call::LenForValue(_) => Ok(()),
        Call::AtomCount
        | Call::AllocatedAtomCount
        | Call::PairCount
        | Call::AllocatedPairCount
        | Call::HeapSize
        | Call::AllocatedHeapSize
        | Call::Checkpoint
        | Call::TransparentCheckpoint => need(limits_sound(r), 1, NIL),
        Call::RestoreCheckpoint(cp) => restore_plain(s, *cp),
        Call::RestoreTransparentCheckpoint(cp) => restore(s, *cp),
        Call::CheckpointNodeStatus(cp, n) => node_status(s, *cp, *n),
        Call::MaybeRestoreWithNode(cp, n) => maybe_restore(s, *cp, *n),
        Call::NewAtom(v) => new_atom(s, v),
        Call::NewSmallNumber(v) => {
            need(limits_sound(r), 1, NIL)?;
            need(*v <= 67108863, 13, NIL)?;
            heap_holds(s, small_len(*v))?;
            atoms_left(s)
        }
        Call::NewU64(x) => new_atom(s, &int_bytes(*x as i128)),
        Call::NewI64(x) => new_atom(s, &int_bytes(*x as i128)),
        Call::NewPair(first, rest) => {
            pairs_sound(s)?;
            need(valid(r.used.atoms, r.used.pairs, *first), 5, NIL)?;
            need(valid(r.used.atoms, r.used.pairs, *rest), 5, NIL)?;
            need(pairs(r) < MOST as u128, 4, NIL)?;
            need(r.used.pairs < s.firsts.len() && r.used.pairs < s.rests.len(), 15, NIL)
        }
        Call::AddGhostPair(amount) => {
            need(limits_sound(r), 1, NIL)?;
            need(pairs(r) + *amount as u128 <= MOST as u128, 4, NIL)
        }
        Call::RemoveGhostPair(amount) => {
            need(limits_sound(r), 1, NIL)?;
            need(*amount <= r.ghosts.pairs, 14, NIL)
        }
        Call::AddGhostAtom(amount) => {
            need(limits_sound(r), 1, NIL)?;
            need(atoms(r) + *amount as u128 <= MOST as u128, 3, NIL)
        }
        Call::NewSubstr(n, start, end) => new_substr(s, *n, *start, *end),
        Call::NewConcat(size, nodes) => new_concat(s, *size, nodes),
        Call::AtomEq(lhs, rhs) => {
            store_sound(s)?;
            arg(s, *lhs)?;
            arg(s, *rhs)?;
            atom_arg(s, *lhs)?;
            atom_arg(s, *rhs).map(|_| ())
        }
        Call::Atom(n, scratch) => {
            store_sound(s)?;
            atom_arg(s, *n)?;
            need(kind(*n) != 2 || *scratch == 4, 15, NIL)
        }
        Call::AtomLen(n) => {
            atoms_sound(s)?;
            atom_arg(s, *n).map(|_| ())
        }
        Call::SmallNumber(n) => {
            store_sound(s)?;
            arg(s, *n).map(|_| ())
        }
        Call::Node(n) => {
            atoms_sound(s)?;
            pairs_sound(s)?;
            arg(s, *n)?;
            branch(s, *n)
        }
        Call::Sexp(n) | Call::Next(n) => sexp(s, *n),
    }
}
