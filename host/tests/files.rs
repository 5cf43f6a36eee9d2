//! Program files: what loads and what is refused where, the shortest form that is written, and what a refusal leaves.
use clvm_allocator::ffi::{Held, Record};
use clvm_allocator::{Allocator, Code, EvalErr, LoadErr, NodePtr, NodeVisitor, ObjectType, Result};
use std::thread;

/// The standard stack of a thread: enough to read or write a file of the most levels.
const STACK: usize = 2 << 20;
/// The most levels of a file, the root being level 1.
const LEVELS: usize = 4096;
/// Files in these tests are shorter, but for the few that say so.
const MOST: usize = 1 << 21;

/// Runs on a stack of that size.
fn deep<T: Send>(run: impl FnOnce() -> T + Send) -> T {
    thread::scope(|scope| {
        let spawned = thread::Builder::new()
            .stack_size(STACK)
            .spawn_scoped(scope, run);
        spawned.expect("a thread").join().expect("no panic")
    })
}

// ---- the form, written and read once more here, without the library

#[derive(Clone, Debug, PartialEq, Eq)]
enum Tree {
    Atom(Vec<u8>),
    Pair(Box<Tree>, Box<Tree>),
}

fn atom(bytes: &[u8]) -> Tree {
    Tree::Atom(bytes.to_vec())
}

fn pair(first: Tree, rest: Tree) -> Tree {
    Tree::Pair(Box::new(first), Box::new(rest))
}

/// A length behind a prefix of so many bytes, if it fits: the first byte starts with as many ones as there are bytes, and a zero.
fn prefix(bytes: u32, length: usize) -> Option<Vec<u8>> {
    let ones = 0xff_u64 << (8 - bytes) & 0xff;
    let bits = 7 - bytes + 8 * (bytes - 1);
    let whole = ones << (8 * (bytes - 1)) | length as u64;
    (length < 1 << bits).then(|| whole.to_be_bytes()[8 - bytes as usize..].to_vec())
}

/// All prefixes that an atom may have: none for a byte below 80.
fn prefixes(bytes: &[u8]) -> Vec<Vec<u8>> {
    let none = matches!(bytes, [0..=0x7f]).then(Vec::new);
    let some = (1..=5).filter_map(|size| prefix(size, bytes.len()));
    none.into_iter().chain(some).collect()
}

/// Writes a tree by a choice of prefixes.
fn encode(tree: &Tree, choose: &mut impl FnMut(Vec<Vec<u8>>) -> Vec<u8>, file: &mut Vec<u8>) {
    match tree {
        Tree::Atom(bytes) => {
            file.extend(choose(prefixes(bytes)));
            file.extend(bytes);
        }
        Tree::Pair(first, rest) => {
            file.push(0xff);
            encode(first, choose, file);
            encode(rest, choose, file);
        }
    }
}

/// By the shortest of all.
fn encoded(tree: &Tree) -> Vec<u8> {
    let mut file = Vec::new();
    let mut shortest = |all: Vec<Vec<u8>>| all.into_iter().min_by_key(Vec::len).expect("a prefix");
    encode(tree, &mut shortest, &mut file);
    file
}

/// The item at a place and where the next one starts, or what is at fault and where, whatever the memory.
fn decode(
    file: &[u8],
    at: usize,
    level: usize,
) -> std::result::Result<(Tree, usize), (Code, usize)> {
    if level > LEVELS {
        return Err((Code::TooDeep, at));
    }
    let bad = (Code::BadEncoding, at);
    let start = *file.get(at).ok_or(bad)?;
    match start {
        0..=0x7f => Ok((atom(&[start]), at + 1)),
        0xff => {
            let (first, next) = decode(file, at + 1, level + 1)?;
            let (rest, next) = decode(file, next, level + 1)?;
            Ok((pair(first, rest), next))
        }
        0xfc.. => Err(bad),
        _ => {
            let size = start.leading_ones() as usize;
            let from = at + size;
            let given = file.get(at..from).ok_or(bad)?;
            let length = given.iter().fold(0, |n, &byte| n << 8 | u64::from(byte));
            let ones = 0xff_u64 << (8 - size) & 0xff;
            let length = (length - (ones << (8 * (size - 1)))) as usize;
            let bytes = file.get(from..).and_then(|left| left.get(..length));
            Ok((atom(bytes.ok_or(bad)?), from + length))
        }
    }
}

fn decoded(file: &[u8]) -> std::result::Result<Tree, LoadErr> {
    match decode(file, 0, 1) {
        Ok((tree, next)) if next == file.len() => Ok(tree),
        Ok((_, at)) => Err(refusal(Code::BadEncoding, at)),
        Err((code, at)) => Err(refusal(code, at)),
    }
}

// ---- trees in an allocator

fn build(a: &mut Allocator, tree: &Tree) -> Result<NodePtr> {
    match tree {
        Tree::Atom(bytes) => a.new_atom(bytes),
        Tree::Pair(first, rest) => {
            let first = build(a, first)?;
            let rest = build(a, rest)?;
            a.new_pair(first, rest)
        }
    }
}

fn shown(a: &Allocator, node: NodePtr) -> Result<Tree> {
    Ok(match a.node(node)? {
        NodeVisitor::Pair(first, rest) => pair(shown(a, first)?, shown(a, rest)?),
        _ => atom(&a.atom(node)?),
    })
}

/// Pairs along first, or along rest, down to an atom at a level; every other atom is nil.
fn chain(a: &mut Allocator, level: usize, along_first: bool) -> Result<NodePtr> {
    let mut node = a.one();
    for _ in 1..level {
        node = match along_first {
            true => a.new_pair(node, NodePtr::NIL)?,
            false => a.new_pair(NodePtr::NIL, node)?,
        };
    }
    Ok(node)
}

/// The file of such a chain.
fn chain_file(level: usize, along_first: bool) -> Vec<u8> {
    let pairs = level - 1;
    match along_first {
        true => [vec![0xff; pairs], vec![1], vec![0x80; pairs]].concat(),
        false => [[0xff, 0x80].repeat(pairs), vec![1]].concat(),
    }
}

fn refusal(code: Code, at: usize) -> LoadErr {
    LoadErr { code, at }
}

fn refused(code: Code) -> EvalErr {
    EvalErr {
        code,
        node: NodePtr::NIL,
    }
}

/// What is stored, and what is counted.
fn counts(a: &Allocator) -> [usize; 6] {
    [
        a.allocated_atom_count(),
        a.allocated_pair_count(),
        a.allocated_heap_size(),
        a.atom_count(),
        a.pair_count(),
        a.heap_size(),
    ]
}

/// Loads a file that must be refused; it must leave everything as it was.
fn refuses(a: &mut Allocator, file: &[u8]) -> LoadErr {
    let before = (counts(a), a.checkpoint());
    let refused = a.load(file).expect_err("a refusal");
    assert_eq!((counts(a), a.checkpoint()), before);
    refused
}

// ---- what a user does first

#[test]
fn there_and_back() -> Result<()> {
    let mut a = Allocator::new();
    // (7f . (8080 . "hello")): a small atom, and two that are stored
    let file = b"\xff\x7f\xff\x82\x80\x80\x85hello";
    let root = a.load(file)?;
    assert_eq!(counts(&a), [2, 2, 7, 5, 2, 9]);
    assert!(a.well_formed());

    let (first, rest) = a.next(root)?.expect("a pair");
    assert_eq!(a.small_number(first)?, Some(127));
    let (stored, last) = a.next(rest)?.expect("a pair");
    assert_eq!(stored.object_type(), ObjectType::Bytes);
    assert_eq!(
        (&*a.atom(stored)?, &*a.atom(last)?),
        (&b"\x80\x80"[..], &b"hello"[..])
    );

    let mut written = [0xdd; 20];
    assert_eq!(a.save(root, &mut written)?, file.len());
    assert_eq!(written[..file.len()], file[..]);
    assert_eq!(written[file.len()..], [0xdd; 8]);
    assert_eq!(a.save_to_vec(root, MOST)?, file);
    assert_eq!(a.save_to_vec(last, MOST)?, b"\x85hello");
    assert_eq!(a.save_to_vec(a.nil(), MOST)?, [0x80]);
    Ok(())
}

/// A load counts as the calls that it stands for.
#[test]
fn as_the_calls() -> Result<()> {
    let tree = pair(
        pair(atom(b"hello"), atom(&[])),
        pair(atom(&[0]), atom(&[0; 70])),
    );
    let (mut by_load, mut by_calls) = (Allocator::new(), Allocator::new());
    let loaded = by_load.load(&encoded(&tree))?;
    assert_eq!(loaded, build(&mut by_calls, &tree)?);
    assert_eq!(by_load.checkpoint(), by_calls.checkpoint());
    Ok(())
}

// ---- prefixes

/// An atom of so many bytes, whose prefix is to have so many.
fn prefixed(length: usize, prefix: usize) -> Result<()> {
    let bytes = vec![0xa5; length];
    let mut a = Allocator::new();
    let made = a.new_atom(&bytes)?;
    let mut file = a.save_to_vec(made, prefix + length)?;
    assert_eq!(file.len(), prefix + length);
    assert_eq!(file[0].leading_ones() as usize, prefix);
    assert!(file[prefix..] == bytes);
    drop(a);

    let mut a = Allocator::new();
    let loaded = a.load(&file)?;
    assert!(*a.atom(loaded)? == bytes);
    file.pop();
    assert_eq!(refuses(&mut a, &file), refusal(Code::BadEncoding, 0));
    Ok(())
}

#[test]
fn prefix_limits() -> Result<()> {
    prefixed(2, 1)?;
    prefixed(63, 1)?;
    prefixed(64, 2)?;
    prefixed(8191, 2)?;
    prefixed(8192, 3)?;
    prefixed(1_048_575, 3)?;
    prefixed(1_048_576, 4)
}

#[test]
#[ignore = "files of 128 MiB: half a gigabyte, and minutes on a slow machine"]
fn long_prefix_limits() -> Result<()> {
    prefixed(134_217_727, 4)?;
    prefixed(134_217_728, 5)
}

#[test]
fn one_byte() -> Result<()> {
    for byte in 0..=0xff {
        let mut a = Allocator::new();
        let made = a.new_atom(&[byte])?;
        let file = a.save_to_vec(made, 2)?;
        assert_eq!(
            file,
            if byte < 0x80 {
                vec![byte]
            } else {
                vec![0x81, byte]
            }
        );
        let loaded = a.load(&file)?;
        assert!(a.atom_eq(made, loaded)?);
        // a file of one byte is that byte's atom, the empty one, or none
        let alone = a
            .load(&[byte])
            .and_then(|node| Ok(a.atom_len(node).expect("an atom")));
        assert_eq!(
            alone,
            match byte {
                0..=0x7f => Ok(1),
                0x80 => Ok(0),
                0xff => Err(refusal(Code::BadEncoding, 1)),
                _ => Err(refusal(Code::BadEncoding, 0)),
            }
        );
    }
    Ok(())
}

#[test]
fn longer_prefixes_are_read() -> Result<()> {
    let mut a = Allocator::new();
    for bytes in [
        &b""[..],
        b"\x05",
        b"\x00",
        b"\xff",
        b"abc",
        &[7; 63],
        &[7; 64],
        &[7; 9000],
    ] {
        let prefixes = prefixes(bytes);
        assert!(prefixes.len() >= 3);
        for prefix in &prefixes {
            let node = a.load(&[prefix, bytes].concat())?;
            assert_eq!(&*a.atom(node)?, bytes);
            assert_eq!(a.save_to_vec(node, MOST)?, encoded(&atom(bytes)));
        }
    }
    Ok(())
}

#[test]
fn no_prefix() {
    let mut a = Allocator::new();
    for start in 0xfc..=0xfe_u8 {
        for length in 0..20 {
            let file = [vec![start], vec![0; length]].concat();
            assert_eq!(refuses(&mut a, &file), refusal(Code::BadEncoding, 0));
            let file = [vec![0xff, 0x81, 0x80], file].concat();
            assert_eq!(refuses(&mut a, &file), refusal(Code::BadEncoding, 3));
        }
    }
    // the longest length that a prefix can have, 2^34 - 1
    let longest = [0xfb, 0xff, 0xff, 0xff, 0xff, 0];
    assert_eq!(refuses(&mut a, &longest), refusal(Code::BadEncoding, 0));
}

// ---- files that end too early or too late

#[test]
fn truncated() -> Result<()> {
    let long = pair(atom(&[1; 64]), pair(atom(&[2; 8192]), atom(&[])));
    let tree = pair(pair(atom(b"a"), atom(b"hello")), pair(long, atom(&[0x80])));
    let file = encoded(&tree);
    let mut a = Allocator::new();
    for length in 0..file.len() {
        let cut = &file[..length];
        let expected = decoded(cut).expect_err("cut short");
        assert_eq!(expected.code, Code::BadEncoding);
        assert_eq!(refuses(&mut a, cut), expected, "{length} bytes");
    }
    let root = a.load(&file)?;
    assert_eq!(shown(&a, root)?, tree);
    Ok(())
}

#[test]
fn empty() {
    assert_eq!(
        refuses(&mut Allocator::new(), &[]),
        refusal(Code::BadEncoding, 0)
    );
}

#[test]
fn bytes_after_the_root() {
    let mut a = Allocator::new();
    for root in [
        &b"\x05"[..],
        b"\x80",
        b"\x85hello",
        b"\xff\x85hello\xff\x01\x80",
    ] {
        for after in 0..=0xff {
            let file = [root, &[after]].concat();
            assert_eq!(
                refuses(&mut a, &file),
                refusal(Code::BadEncoding, root.len())
            );
        }
    }
}

// ---- levels

#[test]
fn openings_alone() {
    deep(|| {
        let mut a = Allocator::new();
        for openings in [1, 2, LEVELS - 1] {
            let found = refuses(&mut a, &vec![0xff; openings]);
            assert_eq!(found, refusal(Code::BadEncoding, openings));
        }
        for openings in [LEVELS, LEVELS + 1, MOST] {
            let found = refuses(&mut a, &vec![0xff; openings]);
            assert_eq!(found, refusal(Code::TooDeep, LEVELS));
        }
    });
}

#[test]
fn most_levels_are_read() -> Result<()> {
    deep(|| {
        for along_first in [true, false] {
            let mut a = Allocator::new();
            let file = chain_file(LEVELS, along_first);
            let root = a.load(&file)?;
            assert_eq!((a.pair_count(), a.atom_count()), (LEVELS - 1, LEVELS + 2));
            assert!(a.well_formed());
            let mut node = root;
            while let Some((first, rest)) = a.next(node)? {
                node = if along_first { first } else { rest };
            }
            assert_eq!(node, a.one());
            assert_eq!(a.save_to_vec(root, MOST)?, file);
        }
        Ok(())
    })
}

/// The most atoms that wait for their pairs: one stored on each level, before the first pair is made.
#[test]
fn most_levels_of_stored_atoms() -> Result<()> {
    deep(|| {
        let file = [
            [0xff, 0x00].repeat(LEVELS - 1),
            vec![0xc0, 0xc8],
            vec![0x80; 200],
        ]
        .concat();
        let mut a = Allocator::new();
        let root = a.load(&file)?;
        assert_eq!(
            (a.allocated_atom_count(), a.pair_count()),
            (LEVELS, LEVELS - 1)
        );
        assert!(a.save_to_vec(root, MOST)? == file);
        Ok(())
    })
}

#[test]
fn one_level_more_is_not_read() {
    deep(|| {
        let mut a = Allocator::new();
        let found = refuses(&mut a, &chain_file(LEVELS + 1, true));
        assert_eq!(found, refusal(Code::TooDeep, LEVELS));
        // along rest, the first atom of the last pair is where level 4,097 is entered
        let found = refuses(&mut a, &chain_file(LEVELS + 1, false));
        assert_eq!(found, refusal(Code::TooDeep, 2 * LEVELS - 1));
        // a level too many comes before what stands there
        let file = [vec![0xff; LEVELS], vec![0xfc]].concat();
        assert_eq!(refuses(&mut a, &file), refusal(Code::TooDeep, LEVELS));
    });
}

#[test]
fn one_level_more_is_not_written() -> Result<()> {
    deep(|| {
        for along_first in [true, false] {
            let mut a = Allocator::new();
            let node = chain(&mut a, LEVELS, along_first)?;
            assert_eq!(a.save_to_vec(node, MOST)?, chain_file(LEVELS, along_first));
            let over = a.new_pair(node, NodePtr::NIL)?;
            assert_eq!(a.save_to_vec(over, MOST), Err(refused(Code::TooDeep)));
            let over = a.new_pair(NodePtr::NIL, node)?;
            assert_eq!(a.save_to_vec(over, MOST), Err(refused(Code::TooDeep)));
        }
        Ok(())
    })
}

/// Where the slice ends before the level that is too deep, that is the first fault.
#[test]
fn too_short_before_too_deep() -> Result<()> {
    deep(|| {
        let mut a = Allocator::new();
        let node = chain(&mut a, LEVELS + 1, true)?;
        let mut file = [0xdd; LEVELS];
        let found = a.save(node, &mut file[..LEVELS - 1]);
        assert_eq!(found, Err(refused(Code::NoSpace)));
        assert_eq!(a.save(node, &mut file), Err(refused(Code::TooDeep)));
        assert_eq!(file, [0xdd; LEVELS]);
        Ok(())
    })
}

// ---- limits met within a file

/// A list of so many atoms of 40 bytes; each takes 42 bytes of the file.
fn forties(items: u8) -> Vec<u8> {
    let items = (0..items).flat_map(|i| [vec![0xff, 0xa8], vec![i; 40]].concat());
    items.chain([0x80]).collect()
}

#[test]
fn heap_limit_within_a_file() -> Result<()> {
    let mut a = Allocator::new_limited(1000)?;
    let kept = a.new_atom(&[0xee; 100])?;
    let list = a.new_pair(kept, kept)?;
    let plain = a.checkpoint();
    let mark = a.transparent_checkpoint();
    let saved = a.save_to_vec(list, MOST)?;

    // 899 bytes are left: room for 22 atoms of 40 bytes
    let found = refuses(&mut a, &forties(23));
    assert_eq!(found, refusal(Code::OutOfMemory, 22 * 42 + 1));
    assert_eq!(a.save_to_vec(list, MOST)?, saved);
    assert!(a.well_formed());

    let more = a.new_atom(&[0x99; 300])?;
    assert_eq!(&*a.atom(more)?, [0x99; 300]);
    assert_eq!(refuses(&mut a, &forties(23)).at, 14 * 42 + 1);
    assert_eq!(&*a.atom(more)?, [0x99; 300]);
    a.restore_transparent_checkpoint(&mark)?;
    assert_eq!((a.allocated_heap_size(), a.heap_size()), (100, 401));
    a.restore_checkpoint(&plain)?;
    assert_eq!(counts(&a), [1, 1, 100, 3, 1, 101]);
    assert_eq!(a.save_to_vec(list, MOST)?, saved);

    let root = a.load(&forties(22))?;
    assert_eq!((a.heap_size(), a.pair_count()), (981, 23));
    assert_eq!(a.save_to_vec(root, MOST)?, forties(22));
    a.restore_checkpoint(&plain)?;
    assert_eq!(a.save_to_vec(list, MOST)?, saved);
    assert!(a.well_formed());
    Ok(())
}

#[test]
fn atoms_and_pairs_run_out() -> Result<()> {
    let mut a = Allocator::new();
    a.add_ghost_atom(62_500_000 - 2 - 3)?;
    // small atoms count as well: the fourth atom is one too many
    let file = b"\xff\x01\xff\x85hello\xff\x02\xff\x03\x80";
    assert_eq!(refuses(&mut a, file), refusal(Code::TooManyAtoms, 12));
    let mut a = Allocator::new();
    a.add_ghost_pair(62_500_000 - 3)?;
    // the innermost pair is made first, the root last
    assert_eq!(refuses(&mut a, file), refusal(Code::TooManyPairs, 0));
    a.add_ghost_pair(1)?;
    assert_eq!(refuses(&mut a, file), refusal(Code::TooManyPairs, 2));
    a.remove_ghost_pair(2)?;
    a.load(file)?;
    // the first fault of a file is told, here the pair before the bytes that follow it
    let two = b"\xff\xff\x01\x02\xfc";
    assert_eq!(refuses(&mut a, two), refusal(Code::TooManyPairs, 1));
    Ok(())
}

// ---- what cannot be written

#[test]
fn every_room() -> Result<()> {
    let tree = pair(
        pair(atom(b"a"), atom(&[0x80])),
        pair(atom(&[3; 70]), atom(b"hello")),
    );
    let file = encoded(&tree);
    let mut a = Allocator::new();
    let node = build(&mut a, &tree)?;
    for room in 0..file.len() + 3 {
        let mut written = vec![0xdd; file.len() + 3];
        let found = a.save(node, &mut written[..room]);
        let length = if room < file.len() { 0 } else { file.len() };
        assert_eq!(
            found,
            if length == 0 {
                Err(refused(Code::NoSpace))
            } else {
                Ok(length)
            }
        );
        assert_eq!(written[..length], file[..length]);
        assert!(written[length..].iter().all(|&byte| byte == 0xdd));
        assert_eq!(a.save_to_vec(node, room).is_ok(), length > 0);
    }
    Ok(())
}

#[test]
fn nodes_that_are_gone() -> Result<()> {
    let mut a = Allocator::new();
    let start = a.checkpoint();
    let root = a.load(b"\xff\x85hello\x80")?;
    let (stored, _) = a.next(root)?.expect("a pair");
    a.restore_checkpoint(&start)?;
    for gone in [root, stored] {
        assert_eq!(a.save(gone, &mut []), Err(refused(Code::NotValid)));
        assert_eq!(a.save_to_vec(gone, MOST), Err(refused(Code::NotValid)));
    }
    Ok(())
}

/// A shared node is written wherever it is met: 100 pairs can be a file that no disk holds. The room bounds the time.
#[test]
fn shared() -> Result<()> {
    let mut a = Allocator::new();
    let mut node = a.new_atom(b"hello")?;
    for doubled in 1..=100 {
        node = a.new_pair(node, node)?;
        let length = (1_u128 << doubled) * 7 - 1;
        match a.save_to_vec(node, 1 << 16) {
            Ok(file) => assert_eq!(file.len() as u128, length),
            Err(found) => {
                assert_eq!(found, refused(Code::NoSpace));
                assert!(length > 1 << 16);
            }
        }
    }
    let twice = pair(atom(b"hello"), atom(b"hello"));
    let root = a.load(&encoded(&twice))?;
    let (first, rest) = a.next(root)?.expect("a pair");
    assert_ne!(first, rest);
    Ok(())
}

// ---- any bytes, any trees: by a generator that gives the same each time

struct Random(u64);

impl Random {
    fn new() -> Random {
        Random(88_172_645_463_325_252)
    }

    fn next(&mut self) -> u64 {
        self.0 ^= self.0 << 13;
        self.0 ^= self.0 >> 7;
        self.0 ^= self.0 << 17;
        self.0
    }

    fn below(&mut self, bound: usize) -> usize {
        (self.next() >> 8) as usize % bound
    }

    /// A few bytes: any, or mostly starts of items, so that many are read far.
    fn bytes(&mut self) -> Vec<u8> {
        let length = self.below(30);
        let items = self.below(2) == 0;
        (0..length)
            .map(|_| match (items, self.below(8)) {
                (true, 0..=2) => 0xff,
                (true, 3..=4) => 0x80 + self.below(4) as u8,
                (true, 5) => [0xc0, 0xe0, 0xf0, 0xf8, 0xfc][self.below(5)],
                (true, 6) => self.below(0x80) as u8,
                _ => self.next() as u8,
            })
            .collect()
    }

    /// A tree by any prefixes.
    fn form(&mut self, tree: &Tree) -> Vec<u8> {
        let mut file = Vec::new();
        let mut any = |mut all: Vec<Vec<u8>>| all.swap_remove(self.below(all.len()));
        encode(tree, &mut any, &mut file);
        file
    }

    /// A few bytes as above, or a tree with up to two bytes changed.
    fn file(&mut self) -> Vec<u8> {
        if self.below(3) > 0 {
            return self.bytes();
        }
        let tree = self.tree(3, 8);
        let mut file = self.form(&tree);
        for _ in 0..self.below(3) {
            let at = self.below(file.len());
            file[at] = [0xff, 0x80, self.next() as u8][self.below(3)];
        }
        file
    }

    /// An atom, now and then as long as a prefix's limit, but not longer than that.
    fn atom(&mut self, longest: usize) -> Tree {
        let length = match self.below(200) {
            0 => 8190 + self.below(4),
            1..=9 => 62 + self.below(4),
            10..=29 => self.below(300),
            _ => self.below(6),
        };
        let length = length.min(longest);
        Tree::Atom((0..length).map(|_| self.next() as u8).collect())
    }

    fn tree(&mut self, levels: usize, longest: usize) -> Tree {
        if levels == 1 || self.below(4) == 0 {
            return self.atom(longest);
        }
        let first = self.tree(levels - 1, longest);
        pair(first, self.tree(levels - 1, longest))
    }
}

/// The parts of the slots that a record counts as used.
fn used(held: &Held, record: Record) -> [Vec<u8>; 5] {
    let slots = |slots: &[u32], length| {
        slots[..length]
            .iter()
            .flat_map(|slot| slot.to_be_bytes())
            .collect()
    };
    let counts = record.used;
    [
        held.bytes[..counts.bytes].to_vec(),
        slots(&held.starts, counts.atoms),
        slots(&held.ends, counts.atoms),
        slots(&held.firsts, counts.pairs),
        slots(&held.rests, counts.pairs),
    ]
}

/// Slots that do not grow, with a few trees in them.
fn lent(each: usize) -> Held {
    let mut held = Held {
        record: Record::default(),
        bytes: vec![0xdd; each],
        starts: vec![0xdddd_dddd; each],
        ends: vec![0xdddd_dddd; each],
        firsts: vec![0xdddd_dddd; each],
        rests: vec![0xdddd_dddd; each],
    };
    clvm_allocator::ffi::clvm_new_limited(&mut held.record, u32::MAX as usize);
    for file in [&b"\x85hello"[..], b"\xff\x81\x80\xff\x82\xff\x00\x80"] {
        assert_eq!(held.load(file).code, 0);
    }
    held
}

/// Whatever the bytes: the answer is the one worked out here, a refusal leaves record and used slots as they were, and what was
/// read is written in a form that reads back to an equal tree.
#[test]
fn any_bytes() -> Result<()> {
    let mut random = Random::new();
    let mut a = Allocator::new();
    let kept = a.load(b"\xff\x85hello\xff\x01\x80")?;
    let saved = a.save_to_vec(kept, MOST)?;
    let start = a.checkpoint();
    let mut read = 0;
    for _ in 0..100_000 {
        let file = random.file();
        let before = (counts(&a), a.checkpoint());
        match (a.load(&file), decoded(&file)) {
            (Ok(root), Ok(tree)) => {
                read += 1;
                assert_eq!(shown(&a, root)?, tree, "{file:02x?}");
                let written = a.save_to_vec(root, MOST)?;
                assert_eq!(written, encoded(&tree), "{file:02x?}");
                assert!(written.len() <= file.len());
                let again = a.load(&written)?;
                assert_eq!(shown(&a, again)?, tree, "{file:02x?}");
            }
            (found, expected) => {
                assert_eq!(found.err(), expected.err(), "{file:02x?}");
                assert_eq!((counts(&a), a.checkpoint()), before);
            }
        }
        if random.below(100) == 0 {
            assert!(a.well_formed());
            assert_eq!(a.save_to_vec(kept, MOST)?, saved);
            a.restore_checkpoint(&start)?;
        }
    }
    assert!(read > 15_000, "{read} files were read");
    Ok(())
}

/// The same over slots that do not grow, in which every slot can be looked at.
#[test]
fn any_bytes_in_few_slots() {
    let mut random = Random::new();
    let mut met = [0; 20];
    for _ in 0..20_000 {
        let mut held = lent(9 + random.below(8));
        let file = random.file();
        let record = held.record;
        let before = used(&held, record);
        let loaded = held.load(&file);
        met[loaded.code as usize] += 1;
        assert_eq!(used(&held, record), before, "{file:02x?}");
        assert!(held.well_formed());
        if loaded.code == 0 {
            assert_eq!(loaded.at, file.len());
            continue;
        }
        assert_eq!((held.record, loaded.node), (record, NodePtr::NIL.bits()));
        assert!(loaded.at <= file.len());
        // without room the fault comes no later than it would with it, and at the same place if it is the same
        if let Err(expected) = decoded(&file) {
            assert!(
                loaded.code == 15
                    || (loaded.code, loaded.at) == (expected.code.number(), expected.at)
            );
        } else {
            assert_eq!(loaded.code, 15);
        }
    }
    assert!([0, 15, 17].iter().all(|&code| met[code] > 500), "{met:?}");
}

#[test]
fn any_tree() -> Result<()> {
    let mut random = Random::new();
    for _ in 0..2_000 {
        let levels = 1 + random.below(9);
        let tree = random.tree(levels, MOST);
        let file = encoded(&tree);
        let mut a = Allocator::new();
        let built = build(&mut a, &tree)?;
        let written = a.save_to_vec(built, file.len())?;
        assert!(written == file, "{tree:02x?}");
        let loaded = a.load(&written)?;
        assert!(shown(&a, loaded)? == tree, "{tree:02x?}");
        assert!(a.well_formed());

        // and by other forms than the shortest
        let loaded = a.load(&random.form(&tree))?;
        assert!(a.save_to_vec(loaded, file.len())? == file, "{tree:02x?}");
    }
    Ok(())
}

// ---- growth

/// Files longer than one step of growth: many pairs of small atoms, many short atoms, and long ones.
#[test]
fn long_files() -> Result<()> {
    let rows = |row: &[u8], rows: usize| [row.repeat(rows), vec![0x80]].concat();
    // lists of 1,000 items in a list, so that no level is too deep
    let nested = |item: &[u8], lists: usize| {
        let list = rows(&[&[0xff], item].concat(), 1000);
        rows(&[&[0xff], list.as_slice()].concat(), lists)
    };
    let long = [&[0xe0 | 1, 0x11, 0x70], vec![5; 70_000].as_slice()].concat();
    for (file, pairs, stored) in [
        (nested(&[5], 150), 150_150, 0),
        (nested(&[0], 150), 150_150, 150_000),
        (nested(&[0x82, 0x80, 0x80], 70), 70_070, 70_000),
        (rows(&[&[0xff], long.as_slice()].concat(), 30), 30, 30),
    ] {
        let mut a = Allocator::new();
        let older = a.new_atom(b"older")?;
        let root = a.load(&file)?;
        assert_eq!(
            (a.pair_count(), a.allocated_atom_count()),
            (pairs, stored + 1)
        );
        assert!(a.well_formed());
        assert!(a.save_to_vec(root, file.len())? == file);
        assert_eq!(&*a.atom(older)?, b"older");
        let cut = &file[..file.len() - 1];
        assert_eq!(refuses(&mut a, cut), refusal(Code::BadEncoding, cut.len()));
        // once more, behind what was loaded
        let again = a.load(&file)?;
        assert!(a.save_to_vec(again, file.len())? == file);
        assert!(a.well_formed());
    }
    Ok(())
}

#[test]
fn refusals_say_why() {
    let found = Allocator::new().load(b"\xff\x01").unwrap_err();
    assert_eq!(found.to_string(), "bad encoding at byte 2");
    assert_eq!(EvalErr::from(found), refused(Code::BadEncoding));
    assert_eq!(refused(Code::TooDeep).to_string(), "more than 4,096 levels");
    let codes = [Code::BadEncoding, Code::TooDeep, Code::NoSpace];
    assert_eq!(codes.map(Code::number), [17, 18, 19]);
}
