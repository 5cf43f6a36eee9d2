//! Both sides in one state, and the clock.

use calls::{Call, State, TOP};
use ours::Ours;
use plain::Theirs;
use plain::allocator::{Allocator, Checkpoint};
use std::hint::black_box;
use std::time::Instant;

pub struct Both {
    pub theirs: Theirs,
    pub ours: Ours,
    start: Checkpoint,
}

fn lend(state: &State) -> Ours {
    let used = state.record().used;
    let (bytes, atoms, pairs) = (used.bytes + 4_000_000, used.atoms + 20_000, used.pairs + 20_000);
    Ours::of(state, [bytes, atoms, atoms, pairs, pairs])
}

impl Both {
    pub fn of(state: &State) -> Self {
        let theirs = Theirs::of(state);
        let start = theirs.a.checkpoint();
        Both { theirs, ours: lend(state), start }
    }

    /// Back to the start; the memory that was grown into stays.
    fn reset(&mut self, start: calls::Record) {
        self.theirs.a.restore_checkpoint(&self.start);
        self.ours.record = start;
    }
}

pub struct Table {
    rounds: usize,
}

impl Table {
    pub fn new(rounds: usize) -> Self {
        println!("| call | Rust, ns | Rust behind a call, ns | ours, ns | ratio |\n|---|---:|---:|---:|---:|");
        Table { rounds }
    }

    /// 1,000 calls on each side by turns, or 10 where they are slow; the first round only warms up.
    pub fn row<T, U>(
        &self,
        b: &mut Both,
        name: &str,
        mut theirs: impl FnMut(&mut Allocator, usize) -> T,
        mut ours: impl FnMut(&mut Ours, usize) -> U,
    ) {
        let start = b.ours.record;
        let n = if start.used.atoms < 10_000 { 1000 } else { 10 };
        let mut times = (Vec::new(), Vec::new());
        let mut behind = Vec::new();
        for _ in 0..=self.rounds {
            b.reset(start);
            times.0.push(time(n, |i| theirs(&mut b.theirs.a, i)));
            times.1.push(time(n, |i| ours(&mut b.ours, i)));
            b.reset(start);
            behind.push(time(n, |i| called(&mut theirs, &mut b.theirs.a, i)));
        }
        b.reset(start);
        print(name, times, &format!("{:.1}", median(behind)));
    }

    /// A call that spends its state: on 50 copies, made before the clock starts.
    pub fn once<T, U>(&self, name: &str, state: &State, theirs: impl Fn(&mut Allocator) -> T, ours: impl Fn(&mut Ours) -> U) {
        const COPIES: usize = 50;
        let used = state.record().used;
        let lent = [used.bytes, used.atoms, used.atoms, used.pairs, used.pairs];
        let mut times = (Vec::new(), Vec::new());
        for _ in 0..=self.rounds {
            let mut copies: Vec<Theirs> = (0..COPIES).map(|_| Theirs::of(state)).collect();
            times.0.push(time(COPIES, |i| theirs(&mut copies[i].a)));
            let mut copies: Vec<Ours> = (0..COPIES).map(|_| Ours::of(state, lent)).collect();
            times.1.push(time(COPIES, |i| ours(&mut copies[i])));
        }
        print(name, times, "");
    }

    /// A list of calls, made whole on each side; nanoseconds per call.
    pub fn list(&self, name: &str, calls: &[Call]) {
        let mut b = Both::of(&State::fresh(TOP));
        let start = b.ours.record;
        let mut times = (Vec::new(), Vec::new());
        for _ in 0..=self.rounds {
            b.reset(start);
            times.0.push(time(calls.len(), |i| b.theirs.call(&calls[i])));
            times.1.push(time(calls.len(), |i| b.ours.call(&calls[i])));
        }
        print(name, times, "");
    }
}

/// The Rust's call behind a call that is not inlined: a library's calls cannot be, the Rust's own often are.
#[inline(never)]
fn called<T>(call: &mut impl FnMut(&mut Allocator, usize) -> T, a: &mut Allocator, i: usize) -> T {
    call(a, i)
}

/// Nanoseconds per call; the compiler must think that every answer is used.
fn time<T>(n: usize, mut call: impl FnMut(usize) -> T) -> f64 {
    let clock = Instant::now();
    for i in 0..n {
        black_box(call(i));
    }
    clock.elapsed().as_nanos() as f64 / n as f64
}

fn median(mut times: Vec<f64>) -> f64 {
    times.remove(0);
    times.sort_by(f64::total_cmp);
    times[times.len() / 2]
}

fn print(name: &str, times: (Vec<f64>, Vec<f64>), behind: &str) {
    let (theirs, ours) = (median(times.0), median(times.1));
    println!("| {name} | {theirs:.1} | {behind} | {ours:.1} | {:.2} |", ours / theirs);
}
