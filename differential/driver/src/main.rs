//! Drives the Rust original and our library with the same seeded calls, and compares after every call the answer, the seven
//! numbers, every used byte and every used slot. See ../run.

mod compare;
mod edges;
mod fault;
mod lines;
mod listed;
mod make;
mod paper;
mod record;
mod rng;
mod run;

use run::{Run, Tally};
use std::path::PathBuf;
use std::time::Instant;

const USAGE: &str = "driver [--seed N] [--calls N] [--fault 1..5] [--only RUN] [--smallest] [--record DIR]";

struct Options {
    seed: u64,
    calls: u64,
    fault: usize,
    only: Option<u64>,
    smallest: bool,
    record: Option<PathBuf>,
}

fn options() -> Option<Options> {
    let mut o = Options { seed: 59, calls: 3_000_000, fault: 0, only: None, smallest: false, record: None };
    let mut words = std::env::args().skip(1);
    while let Some(word) = words.next() {
        match word.as_str() {
            "--seed" => o.seed = words.next()?.parse().ok()?,
            "--calls" => o.calls = words.next()?.parse().ok()?,
            "--fault" => o.fault = words.next()?.parse().ok().filter(|k| (1..=5).contains(k))?,
            "--only" => o.only = Some(words.next()?.parse().ok()?),
            "--smallest" => o.smallest = true,
            "--record" => o.record = Some(words.next()?.into()),
            _ => return None,
        }
    }
    Some(o)
}

fn main() {
    let Some(o) = options() else {
        eprintln!("{USAGE}");
        std::process::exit(2);
    };
    compare::silence();
    if o.smallest {
        std::process::exit(if listed::print() { 0 } else { 1 });
    }
    if let Some(folder) = &o.record {
        if let Err(e) = record::record(o.seed, folder) {
            eprintln!("{}: {e}", folder.display());
            std::process::exit(2);
        }
        return;
    }
    let began = Instant::now();
    let mut tally = Tally::default();
    if o.fault > 0 {
        println!("fault {} in our side: {}", o.fault, fault::FAULTS[o.fault]);
    }
    let mut number = o.only.unwrap_or(0);
    let mut smallest: Option<(Run, String, u64)> = None;
    while tally.passed < o.calls && tally.failed < 20 {
        if let (run, Some(why)) = run::run(o.seed, number, o.fault, &mut tally) {
            if smallest.is_none() {
                println!(
                    "FAILED, first in family {:?}, seed {}, run {number}, call {}: {why}",
                    run.family,
                    o.seed,
                    run.calls.len()
                );
            }
            let (run, why) = run::shrink(run, why, o.fault);
            if smallest.as_ref().is_none_or(|(least, ..)| run::length(&run) < run::length(least)) {
                smallest = Some((run, why, number));
            }
        }
        number += 1;
        if o.only.is_some() {
            break;
        }
    }
    if let Some((run, why, number)) = smallest {
        println!(
            "The smallest input found that fails, of {} calls, from family {:?}, run {number}:",
            run.calls.len(),
            run.family
        );
        println!("    start  {} lent {:?}", run::text(&run.start), run.lent);
        for call in &run.calls {
            println!("    call   {}", run::brief(call));
        }
        println!("    {why}");
    }
    println!("seed {}, {} runs, {:.1} s", o.seed, number, began.elapsed().as_secs_f64());
    for (family, (runs, calls)) in &tally.runs {
        println!("    {family:?}: {runs} runs, {calls} calls");
    }
    println!("\ncalls and codes (0 is accepted)");
    tally.print_codes();
    println!("\nedges");
    tally.print_edges();
    println!("\nlisted differences, met and recognised");
    tally.print_listed();
    println!("{} passed, {} failed", tally.passed, tally.failed);
    if tally.failed > 0 {
        std::process::exit(1);
    }
}
