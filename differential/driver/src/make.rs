//! Random states and calls. Both lean to the edges: limits, thresholds, savings, lengths, dead checkpoints, bad nodes.

use crate::paper;
use crate::rng::Rng;
use calls::{Call, Checkpoint, Counts, MOST, Record, Said, State, TOP};
use ours::{Lent, Ours};

#[derive(Clone, Copy, PartialEq, Eq, PartialOrd, Ord, Debug)]
pub enum Family {
    /// from new_limited on
    Fresh,
    /// from a random well-formed state
    State,
    /// the same, with thousands of slots
    Large,
    /// from a state with one unsound number or slot, or with less lent than is used
    Unsound,
}

/// Of a thousand runs, so many are of each family; Large is counted by itself.
pub fn family(run: u64) -> Family {
    match run * 617 % 1000 {
        0..2 => Family::Large,
        2..450 => Family::Fresh,
        450..920 => Family::State,
        _ => Family::Unsound,
    }
}

/// The values at which something changes: small atoms, and the byte counts of integers.
fn value(r: &mut Rng) -> u64 {
    let k = r.below(8);
    match r.below(6) {
        0 => r.below(4) as u64,
        1 | 2 => (128u64 << (8 * k)).wrapping_add(r.below(4) as u64).wrapping_sub(2),
        3 => ((1u128 << (8 * k + 8)) as u64).wrapping_add(r.below(3) as u64).wrapping_sub(1),
        4 => 67108862 + r.below(4) as u64,
        _ => r.word() >> r.below(64),
    }
}

fn byte(r: &mut Rng) -> u8 {
    if r.percent(70) { r.pick(&[0, 0, 1, 3, 4, 0x7f, 0x80, 0x81, 0xff]) } else { r.word() as u8 }
}

fn bytes(r: &mut Rng, len: usize) -> Vec<u8> {
    (0..len).map(|_| byte(r)).collect()
}

/// Ghosts and a limit with which the record is sound: few, many, or up to the last one that fits; heap at, below and past the
/// limit.
fn numbers(r: &mut Rng, used: Counts) -> (Counts, usize) {
    let ghosts = |r: &mut Rng, used: usize, least: usize| match r.below(6) {
        0 => 0,
        1 => least,
        2 => least + r.below(100),
        3 => r.below(MOST - used),
        _ => MOST - used - r.below(5),
    };
    let atoms = ghosts(r, used.atoms, 2);
    let pairs = ghosts(r, used.pairs, 0);
    let over = 3 * (used.atoms + atoms);
    // the least limit with which the used bytes are sound, and what more there may be
    let least = used.bytes.saturating_sub(over);
    let limit = match r.below(7) {
        0 => least,
        1 => least + r.below(5),
        2 => used.bytes + r.below(64),
        3 => used.bytes + r.below(4096),
        4 => TOP,
        5 => TOP - r.below(3),
        _ => r.below(TOP),
    };
    let limit = limit.clamp(least, TOP);
    let most = limit + over - used.bytes;
    let room = limit.saturating_sub(used.bytes);
    let heap = match r.below(9) {
        0 => 0,
        1 => 1,
        2 => room,
        3 => room + 1,
        4 | 5 => room.saturating_sub(r.below(60)),
        6 => most,
        7 => most - r.below(4).min(most),
        _ => r.below(most + 1),
    };
    (Counts { atoms, pairs, bytes: heap.min(most) }, limit)
}

/// A node that is valid beside these counts.
fn valid_node(r: &mut Rng, atoms: usize, pairs: usize) -> u32 {
    match r.below(4) {
        0 if pairs > 0 => r.below(pairs) as u32,
        1 | 2 if atoms > 0 => 1 << 26 | r.below(atoms) as u32,
        _ => 2 << 26 | value(r) as u32 & 0x3ffffff,
    }
}

/// A well-formed state made in layers, each of bytes, slots over bytes so far, and pairs over nodes so far; where a layer ends
/// a checkpoint may have been taken.
pub fn state(r: &mut Rng, large: bool) -> (State, Vec<Checkpoint>) {
    let mut s = State::default();
    let mut marks = Vec::new();
    let size = if large { 30000 } else { r.pick(&[3, 8, 8, 40, 40, 150, 900]) };
    for _ in 0..r.from(1, 3) {
        let more = r.below(size + 1);
        s.bytes.extend(bytes(r, more));
        for _ in 0..r.below(size.min(140 + size / 50) + 1) {
            let start = r.below(s.bytes.len() + 1);
            let left = s.bytes.len() - start;
            let len = match r.below(4) {
                0 => r.below(6).min(left),
                1 => r.about(48).min(left),
                _ => r.below(left + 1),
            };
            s.atoms.push((start as u32, (start + len) as u32));
        }
        for _ in 0..r.below(size.min(140 + size / 50) + 1) {
            let (atoms, pairs) = (s.atoms.len(), s.pairs.len());
            s.pairs.push((valid_node(r, atoms, pairs), valid_node(r, atoms, pairs)));
        }
        marks.push(Checkpoint { used: s.record().used, ghosts: Counts::default() });
    }
    (s.ghosts, s.limit) = numbers(r, s.record().used);
    for mark in &mut marks {
        mark.ghosts = s.ghosts;
    }
    (s, marks)
}

/// One number or slot made unsound.
pub fn spoil(r: &mut Rng, s: &mut State) {
    let (atoms, pairs) = (s.atoms.len(), s.pairs.len());
    match r.below(8) {
        0 => s.limit = r.pick(&[TOP + 1, usize::MAX]),
        1 => s.ghosts.atoms = r.pick(&[MOST - atoms + 1, usize::MAX, usize::MAX - atoms + 1]),
        2 => s.ghosts.pairs = r.pick(&[MOST - pairs + 1, usize::MAX, usize::MAX - pairs + 1]),
        3 => {
            let most = (s.limit + 3 * (atoms + s.ghosts.atoms)).saturating_sub(s.bytes.len());
            s.ghosts.bytes = r.pick(&[most + 1, usize::MAX, usize::MAX - s.bytes.len() + 1]);
        }
        4 | 5 if atoms > 0 => {
            let i = r.below(atoms);
            let used = s.bytes.len() as u32;
            s.atoms[i] = r.pick(&[(1, 0), (0, used + 1), (used + 1, used + 1), (u32::MAX, u32::MAX), (u32::MAX, 0)]);
        }
        _ if pairs > 0 => {
            let i = r.below(pairs);
            let bad = r.pick(&[i as u32, 1 << 26 | atoms as u32, 3 << 26, u32::MAX]);
            let slot = &mut s.pairs[i];
            if r.percent(50) { slot.0 = bad } else { slot.1 = bad }
        }
        _ => s.limit = TOP + 1,
    }
}

/// Lent lengths: roomy, or (in some runs) with little left of one or more.
pub fn lent(r: &mut Rng, used: Counts) -> Lent {
    let mut lent = [used.bytes + 6000, used.atoms + 300, used.atoms + 300, used.pairs + 300, used.pairs + 300];
    if r.percent(15) {
        let used = [used.bytes, used.atoms, used.atoms, used.pairs, used.pairs];
        for (lent, used) in lent.iter_mut().zip(used) {
            if r.percent(60) {
                *lent = used + r.below(5);
            }
        }
    }
    lent
}

/// Less lent than is used, for one or more of the slices.
pub fn short(r: &mut Rng, used: Counts) -> Lent {
    let mut lent = [used.bytes, used.atoms, used.atoms, used.pairs, used.pairs];
    let i = r.below(5);
    lent[i] = lent[i].saturating_sub(1 + r.below(2));
    lent
}

pub struct Maker {
    pub r: Rng,
    /// checkpoints taken so far, the dead ones too
    pub marks: Vec<Checkpoint>,
    /// which of them are live: a restore kills those taken after the one it goes to
    live: Vec<bool>,
    /// the one that the last call names, unaltered
    named: Option<usize>,
    /// whether every restore so far named a live one
    clean: bool,
    /// the one whose savings the last atom brought to about 1024
    aim: Option<usize>,
}

impl Maker {
    pub fn new(r: Rng, marks: Vec<Checkpoint>) -> Self {
        let live = vec![true; marks.len()];
        Maker { r, marks, live, named: None, clean: true, aim: None }
    }

    /// Whether the call names a live checkpoint, unaltered, in a run whose restores so far did.
    pub fn names_live(&self) -> bool {
        self.clean && self.named.is_some_and(|i| self.live[i])
    }

    /// Keeps the books on what our side said to a call.
    pub fn said(&mut self, call: &Call, said: &Said) {
        if let Said::Plain(mark) = said {
            self.marks.push(*mark);
            self.live.push(true);
        }
        let restores = matches!(call, Call::RestoreCheckpoint(_) | Call::RestoreTransparentCheckpoint(_));
        if restores && said.accepted() || matches!(said, Said::NoReplace | Said::Replace(_)) {
            self.clean = self.names_live();
            if let Some(i) = self.named {
                self.live[i + 1..].fill(false);
            }
        }
    }
}

impl Maker {
    fn node(&mut self, s: &Record) -> u32 {
        let r = &mut self.r;
        let (atoms, pairs) = (s.used.atoms, s.used.pairs);
        match r.below(100) {
            0 => atoms as u32 | 1 << 26,
            1 => pairs as u32,
            2 => r.pick(&[3u32 << 26, 3 << 26 | 1, 63 << 26, u32::MAX]),
            3 => (atoms + r.below(1000)) as u32 | 1 << 26,
            // the newest, which a restore cuts
            4..25 if atoms > 0 => (atoms - 1 - r.below(atoms.min(3))) as u32 | 1 << 26,
            25..30 if pairs > 0 => pairs as u32 - 1,
            _ => valid_node(r, atoms, pairs),
        }
    }

    /// Mostly an atom: what substr, concat and the like are for.
    fn atom(&mut self, s: &Record) -> u32 {
        let n = self.node(s);
        if paper::kind(n) == 0 && self.r.percent(85) { 2 << 26 | value(&mut self.r) as u32 & 0x3ffffff } else { n }
    }

    fn mark(&mut self, s: &Record) -> Checkpoint {
        let r = &mut self.r;
        if self.marks.is_empty() || r.percent(3) {
            let used =
                Counts { atoms: r.below(s.used.atoms + 2), pairs: r.below(s.used.pairs + 2), bytes: r.below(s.used.bytes + 2) };
            return Checkpoint { used, ghosts: numbers(r, used).0 };
        }
        let i = r.below(self.marks.len());
        let mut mark = self.marks[i];
        self.named = None;
        match r.below(60) {
            0 => mark.used.atoms += 1,
            1 => mark.used.pairs += 1,
            2 => mark.used.bytes += 1,
            3 => mark.used.bytes = mark.used.bytes.saturating_sub(1),
            4 => mark.used.atoms = mark.used.atoms.saturating_sub(1),
            5 => mark.ghosts = numbers(r, mark.used).0,
            6 => mark.ghosts.atoms = r.pick(&[MOST - mark.used.atoms.min(MOST), MOST + 1, usize::MAX]),
            7 => mark.ghosts.bytes = r.pick(&[s.limit, usize::MAX]),
            _ => self.named = Some(i),
        }
        mark
    }

    /// How long a new atom is: short, at 48, up to the heap limit, or such that a restore saves about 1024 bytes.
    fn length(&mut self, s: &Record) -> usize {
        let room = s.limit.saturating_sub((paper::heap(s)).min(usize::MAX as u128) as usize);
        let wish = match self.r.below(12) {
            0..5 => self.r.below(6),
            5 => self.r.from(46, 50),
            6 => room + self.r.below(2),
            7 => room.saturating_sub(1),
            8 | 9 if !self.marks.is_empty() => {
                let i = self.r.below(self.marks.len());
                let mark = self.marks[i].used;
                let used = s.used;
                let least = mark.atoms <= used.atoms && mark.pairs <= used.pairs && mark.bytes <= used.bytes;
                let saved = if least { paper::savings(mark, used) + 8 } else { 0 };
                let wish = 1024usize.saturating_sub(saved);
                self.aim = Some(i);
                self.r.about(wish)
            }
            10 => self.r.below(1200),
            _ => self.r.below(60),
        };
        if wish <= 1300 { wish } else { self.r.below(60) }
    }

    fn amount(&mut self, room: usize, there: usize) -> usize {
        match self.r.below(8) {
            0 => 0,
            1 => room,
            2 => room.wrapping_add(1),
            3 => there,
            4 => there.wrapping_add(1),
            5 => r_top(&mut self.r),
            _ => self.r.below(20),
        }
    }

    fn size(&mut self, s: &Ours, nodes: &[u32]) -> usize {
        let record = &s.record;
        let length = |n: &u32| match paper::kind(*n) {
            1 if paper::index(*n) < record.used.atoms.min(s.starts.len()).min(s.ends.len()) => {
                let i = paper::index(*n);
                s.ends[i].wrapping_sub(s.starts[i]) as usize
            }
            2 => paper::small_len(*n & 0x3ffffff),
            _ => 0,
        };
        let exact: usize = nodes.iter().map(length).sum();
        let heap = paper::heap(record).min(usize::MAX as u128) as usize;
        match self.r.below(40) {
            0 => exact + 1,
            1 => exact.saturating_sub(1),
            2 => 0,
            3 => self.r.below(exact + 1),
            4 => record.limit.saturating_sub(heap),
            5 => record.limit.saturating_sub(heap).wrapping_add(1),
            6 => 0usize.wrapping_sub(heap).wrapping_sub(self.r.below(3)),
            7 => usize::MAX - self.r.below(3),
            8 => 0usize.wrapping_sub(heap).wrapping_add(exact),
            _ => exact,
        }
    }

    /// The next call, for the state that both sides are in.
    pub fn call(&mut self, ours: &Ours) -> Call {
        let s = &ours.record;
        self.named = None;
        if let Some(i) = self.aim.take()
            && self.r.percent(60)
        {
            self.named = Some(i);
            let mark = self.marks[i].used;
            let newer = mark.atoms < s.used.atoms && self.r.percent(60);
            let n = if newer { 1 << 26 | self.r.from(mark.atoms, s.used.atoms - 1) as u32 } else { self.node(s) };
            return Call::MaybeRestoreWithNode(mark, n);
        }
        match self.r.below(128) {
            0..16 => {
                let len = self.length(s);
                Call::NewAtom(bytes(&mut self.r, len))
            }
            16..20 => Call::NewSmallNumber(match self.r.below(6) {
                0 => r_top(&mut self.r) as u32,
                _ => value(&mut self.r) as u32 & 0x7ffffff,
            }),
            20..24 => Call::NewU64(value(&mut self.r)),
            24..29 => {
                let v = value(&mut self.r) as i64;
                Call::NewI64(if self.r.percent(50) { v } else { v.wrapping_neg() })
            }
            29..39 => Call::NewPair(self.node(s), self.node(s)),
            39..41 => {
                let room = MOST.saturating_sub(paper::pairs(s) as usize);
                Call::AddGhostPair(self.amount(room, s.ghosts.pairs))
            }
            41..43 => {
                let room = MOST.saturating_sub(paper::pairs(s) as usize);
                Call::RemoveGhostPair(self.amount(room, s.ghosts.pairs))
            }
            43..45 => {
                let room = MOST.saturating_sub(paper::atoms(s) as usize);
                Call::AddGhostAtom(self.amount(room, s.ghosts.atoms))
            }
            45..57 => self.substr(ours),
            57..69 => {
                let n = self.r.pick(&[0, 1, 1, 2, 2, 2, 3, 4, 9]);
                let nodes: Vec<u32> = (0..n).map(|_| self.atom(s)).collect();
                Call::NewConcat(self.size(ours, &nodes), nodes)
            }
            69..75 => Call::Checkpoint,
            75..76 => Call::TransparentCheckpoint,
            76..79 => Call::RestoreCheckpoint(self.mark(s)),
            79..82 => Call::RestoreTransparentCheckpoint(self.mark(s).used),
            82..86 => Call::CheckpointNodeStatus(self.mark(s).used, self.node(s)),
            86..95 => Call::MaybeRestoreWithNode(self.mark(s).used, self.node(s)),
            95..100 => {
                let left = self.atom(s);
                let right = if self.r.percent(15) { left } else { self.atom(s) };
                Call::AtomEq(left, right)
            }
            100..103 => {
                let scratch = if self.r.percent(90) { 4 } else { self.r.pick(&[0, 3, 5]) };
                Call::Atom(self.node(s), scratch)
            }
            103..106 => Call::AtomLen(self.node(s)),
            106..109 => Call::SmallNumber(self.node(s)),
            109..112 => Call::Node(self.node(s)),
            112 => Call::Sexp(self.node(s)),
            113 => Call::Next(self.node(s)),
            114..117 => {
                let len = self.r.below(6);
                Call::FitsInSmallAtom(bytes(&mut self.r, len))
            }
            117 => Call::LenForValue(value(&mut self.r) as u32),
            118 => Call::ObjectType(self.node(s)),
            119 => Call::Index(self.node(s)),
            120 => Call::IsAtom(self.node(s)),
            121 => Call::IsPair(self.node(s)),
            122 => Call::AtomCount,
            123 => Call::AllocatedAtomCount,
            124 => Call::PairCount,
            125 => Call::AllocatedPairCount,
            126 => Call::HeapSize,
            _ => Call::AllocatedHeapSize,
        }
    }

    fn substr(&mut self, ours: &Ours) -> Call {
        let n = self.atom(&ours.record);
        let len = self.size(ours, &[n]).min(5000);
        let r = &mut self.r;
        let start = r.below(len + 1);
        let end = start + r.below(len - start + 1);
        match r.below(16) {
            0 => Call::NewSubstr(n, len as u32 + 1, end as u32),
            1 => Call::NewSubstr(n, start as u32, len as u32 + 1),
            2 => Call::NewSubstr(n, end as u32, start as u32),
            3 => Call::NewSubstr(n, r.pick(&[0, u32::MAX]), r.pick(&[0, u32::MAX])),
            4 => Call::NewSubstr(n, 0, len as u32),
            _ => Call::NewSubstr(n, start as u32, end as u32),
        }
    }
}

/// Near the top of the machine's numbers.
fn r_top(r: &mut Rng) -> usize {
    r.pick(&[usize::MAX, usize::MAX - 1, 1 << 63, 1 << 32, TOP, 67108864])
}

/// The limits that fresh allocators start with.
pub fn limit(r: &mut Rng) -> usize {
    match r.below(10) {
        0..3 => r.below(12),
        3 => r.below(200),
        4 | 5 => 1000 + r.below(3000),
        6 => r.pick(&[TOP, TOP + 1, usize::MAX, TOP - 1]),
        _ => TOP,
    }
}
