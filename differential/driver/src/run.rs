//! One run: a start, calls made up on the way, a comparison after each, and a shorter run where one fails.

use crate::compare::{Kind, Sides, Verdict, numbers};
use crate::edges::{self, EDGES};
use crate::make::{self, Family, Maker};
use crate::paper;
use crate::rng::Rng;
use calls::{Call, NAMES, Said, State};
use ours::{Lent, Ours};
use std::collections::BTreeMap;

/// A run that can be made again.
#[derive(Clone)]
pub struct Run {
    pub family: Family,
    pub start: State,
    pub lent: Lent,
    pub calls: Vec<Call>,
}

#[derive(Default)]
pub struct Tally {
    pub passed: u64,
    pub failed: u64,
    pub runs: BTreeMap<Family, (u64, u64)>,
    codes: BTreeMap<(usize, u32), u64>,
    edges: [u64; EDGES.len()],
    listed: BTreeMap<Kind, u64>,
}

impl Tally {
    fn call(&mut self, family: Family, call: &Call, said: &Said) {
        *self.codes.entry((call.number(), said.code())).or_default() += 1;
        self.runs.entry(family).or_default().1 += 1;
        self.passed += 1;
    }

    /// A run is over; where it failed its last call didn't pass.
    fn end(&mut self, family: Family, passed: bool) {
        self.runs.entry(family).or_default().0 += 1;
        if !passed {
            self.passed -= 1;
            self.failed += 1;
        }
    }

    /// How often each call gave each code.
    pub fn print_codes(&self) {
        let codes: Vec<u32> = (0..16).filter(|code| self.codes.keys().any(|key| key.1 == *code)).collect();
        let row = |name: &str, cells: Vec<String>| println!("{name:31}{}", cells.concat());
        row("call \\ code", codes.iter().map(|code| format!("{code:>9}")).collect());
        for (call, name) in NAMES.iter().enumerate() {
            let cell = |code: &u32| match self.codes.get(&(call, *code)) {
                Some(times) => format!("{times:>9}"),
                None => format!("{:>9}", "."),
            };
            row(name, codes.iter().map(cell).collect());
        }
    }

    pub fn print_edges(&self) {
        for (name, times) in EDGES.iter().zip(self.edges) {
            println!("{times:>9}  {name}");
        }
    }

    /// How often each kind of listed difference was met: by call, and by what the Rust does there.
    pub fn print_listed(&self) {
        let mut lines: BTreeMap<&str, (u64, BTreeMap<usize, Vec<String>>)> = BTreeMap::new();
        for (kind, times) in &self.listed {
            let line = lines.entry(kind.what).or_default();
            line.0 += times;
            line.1.entry(kind.call).or_default().push(format!("{} {times}", kind.theirs));
        }
        for (what, (times, calls)) in lines {
            println!("{times:>9}  {what}");
            for (call, theirs) in calls {
                println!("{:11}{}: the Rust {}", "", NAMES[call], theirs.join(", "));
            }
        }
    }
}

/// A state in a line: atoms, pairs, bytes used; the ghosts; the limit; the contents, where they are short.
pub fn text(s: &State) -> String {
    let mut text = numbers(&s.record());
    if s.bytes.len() <= 80 {
        text += &format!(" bytes {:02x?}", s.bytes);
    }
    if s.atoms.len() <= 20 {
        text += &format!(" atoms {:?}", s.atoms);
    }
    if s.pairs.len() <= 20 {
        text += &format!(" pairs {:?}", s.pairs);
    }
    text
}

/// A call in a line: a long atom by its length and first bytes.
pub fn brief(call: &Call) -> String {
    match call {
        Call::NewAtom(v) if v.len() > 16 => format!("NewAtom({} bytes, {:02x?} ..)", v.len(), &v[..8]),
        _ => format!("{call:?}"),
    }
}

/// Where a run starts, and the maker of its calls.
fn start(seed: u64, number: u64) -> (Run, Maker, usize) {
    let mut r = Rng::of(seed, number);
    let family = make::family(number);
    let mut calls = Vec::new();
    let (start, marks, steps) = match family {
        Family::Fresh => {
            calls.push(Call::NewLimited(make::limit(&mut r)));
            let steps = r.pick(&[3, 10, 30, 30, 60, 120]);
            (State::fresh(0), Vec::new(), steps)
        }
        Family::State | Family::Unsound => {
            let (start, marks) = make::state(&mut r, false);
            let steps = r.pick(&[1, 5, 20, 40, 60]);
            (start, marks, steps)
        }
        Family::Large => {
            let (start, marks) = make::state(&mut r, true);
            (start, marks, 40)
        }
    };
    let used = start.record().used;
    let mut run = Run { family, lent: make::lent(&mut r, used), start, calls };
    if family == Family::Unsound {
        if r.percent(25) {
            run.lent = make::short(&mut r, used);
        } else {
            make::spoil(&mut r, &mut run.start);
        }
    }
    (run, Maker::new(r, marks), steps)
}

/// A run that passes, with its calls.
pub fn again(seed: u64, number: u64, tally: &mut Tally) -> Run {
    run(seed, number, 0, tally).0
}

/// Makes a run; and why it fails, if it does, at its last call.
pub fn run(seed: u64, number: u64, fault: usize, tally: &mut Tally) -> (Run, Option<String>) {
    let (mut run, mut maker, steps) = start(seed, number);
    let mut sides = Sides::of(&run.start, run.lent, fault);
    for step in 0..steps {
        if run.calls.len() == step {
            run.calls.push(maker.call(&sides.ours));
        }
        let call = &run.calls[step];
        let before = sides.ours.record;
        let (said, verdict) = sides.step(call);
        tally.call(run.family, call, &said);
        let live = maker.names_live() && run.family == Family::Fresh;
        let mut failed = None;
        match verdict {
            Verdict::Same => {}
            Verdict::Listed(kind) => {
                *tally.listed.entry(kind).or_default() += 1;
                let Some(state) = sides.ours.state() else {
                    // less is lent than is used: one difference ends the run
                    tally.end(run.family, true);
                    return (run, None);
                };
                sides.again(&state);
            }
            Verdict::Failed(why) => failed = Some(why),
        }
        if failed.is_none() && live && matches!(said.code(), 11 | 12) {
            failed = Some(format!("{said:?} for a live checkpoint of a fresh allocator"));
        }
        if failed.is_some() {
            tally.end(run.family, false);
            return (run, failed);
        }
        edges::count(&mut tally.edges, call, &before, &said, &sides.ours, live);
        maker.said(call, &said);
    }
    let failed = ended(&sides);
    tally.end(run.family, failed.is_none());
    (run, failed)
}

/// At the end of a run: the public check agrees with document 01.
fn ended(sides: &Sides) -> Option<String> {
    let (ours, paper) = (sides.ours.well_formed(), paper::well_formed(&sides.ours));
    if ours == paper { None } else { Some(format!("well_formed says {ours}, document 01 {paper}")) }
}

/// The calls of a run again: where it fails, and why.
fn fails(run: &Run, fault: usize) -> Option<(usize, String)> {
    let mut sides = Sides::of(&run.start, run.lent, fault);
    for (step, call) in run.calls.iter().enumerate() {
        match sides.step(call).1 {
            Verdict::Same => {}
            Verdict::Listed(_) => sides.again(&sides.ours.state()?),
            Verdict::Failed(why) => return Some((step, why)),
        }
    }
    ended(&sides).map(|why| (run.calls.len(), why))
}

/// A shorter run that still fails: calls are left out, many at a time and then one by one, as long as it does; then so is what
/// the start holds.
pub fn shrink(run: Run, why: String, fault: usize) -> (Run, String) {
    let mut best = (run, why);
    let mut chunk = best.0.calls.len();
    while chunk > 0 {
        let mut at = 0;
        while at < best.0.calls.len() {
            let mut less = best.0.clone();
            less.calls.drain(at..(at + chunk).min(less.calls.len()));
            if !fails_too(less, &mut best, fault) {
                at += chunk;
            }
        }
        chunk /= 2;
    }
    while simpler(&best.0.start).into_iter().any(|start| {
        let less = Run { start, ..best.0.clone() };
        fails_too(less, &mut best, fault)
    }) {}
    best
}

/// Takes a run for the best one if it fails.
fn fails_too(mut run: Run, best: &mut (Run, String), fault: usize) -> bool {
    let Some((step, why)) = fails(&run, fault) else { return false };
    run.calls.truncate(step + 1);
    *best = (run, why);
    true
}

/// States with less in them, those that leave out most first: only well-formed ones, if this one is.
fn simpler(s: &State) -> Vec<State> {
    let mut less = Vec::new();
    for part in [1, 2, 8, 64, usize::MAX] {
        let cut = |n: usize| n - n.div_ceil(part);
        for i in 0..3 {
            let mut t = s.clone();
            match i {
                0 => t.pairs.truncate(cut(s.pairs.len())),
                1 => t.atoms.truncate(cut(s.atoms.len())),
                _ => t.bytes.truncate(cut(s.bytes.len())),
            }
            less.push(t);
        }
    }
    let fresh = State::fresh(calls::TOP);
    less.push(State { ghosts: fresh.ghosts, ..s.clone() });
    less.push(State { limit: fresh.limit, ..s.clone() });
    let sound = |s: &State| {
        let used = s.record().used;
        paper::well_formed(&Ours::of(s, [used.bytes, used.atoms, used.atoms, used.pairs, used.pairs]))
    };
    less.retain(|t| t != s && (sound(t) || !sound(s)));
    less
}

/// How much there is to read in a run that fails.
pub fn length(run: &Run) -> (usize, usize) {
    let s = &run.start;
    let long = |call: &Call| match call {
        Call::NewAtom(v) => v.len(),
        Call::NewConcat(_, nodes) => nodes.len(),
        _ => 0,
    };
    (run.calls.len(), s.bytes.len() + s.atoms.len() + s.pairs.len() + run.calls.iter().map(long).sum::<usize>())
}
