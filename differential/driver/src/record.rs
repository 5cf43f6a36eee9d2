//! Writes a sample of runs as lines, for a program that replays them without Rust: crates/answers/FORMAT.md says how they are
//! written.

use crate::compare::{Sides, Verdict};
use crate::lines::{self, Shadow};
use crate::make::{self, Family};
use crate::run::{self, Run, Tally};
use calls::{Call, Said, State};
use std::collections::BTreeMap;
use std::fs;
use std::io;
use std::path::Path;

/// How much a run of the sample may be lent.
const ROOM: [usize; 5] = [8192, 512, 512, 512, 512];

/// How many short runs are chosen whatever they bring.
const FIRST: usize = 150;

/// How long a run's lines may be, if it brings an answer that the sample has fewer times than this.
const CHOICE: [(usize, u64); 3] = [(2600, 10), (6400, 4), (12000, 2)];

const HEAD: &str = "\
# Calls with the answers that the Rust original gave; where a listed difference is said, document 01's.
# Written by `differential/run --record crates/answers/data`; FORMAT.md says how to read it. A case is a run of the driver, by its
# number: fresh from a fresh allocator, state from a random well-formed state, unsound from a state that is not.
";
const THEIRS: &str = "# the Rust's answer";
const PAPER: &str = "# document 01's answer; the Rust's is a listed difference";

/// An answer as the sample counts it: call, code, and what sort of answer it is.
type Answer = (usize, u32, String);

fn sort(said: &Said) -> String {
    let said = format!("{said:?}");
    said.split(['(', ' ']).next().unwrap_or_default().to_string()
}

/// What a run begins with.
fn start(name: &str, run: &Run, shadow: &mut Shadow, text: &mut String) {
    let lent: Vec<String> = run.lent.iter().map(usize::to_string).collect();
    *text += &format!("case {name}\nlent {} 0\nrecord {}\n", lent.join(" "), lines::record(&run.start.record()));
    shadow.tell("put", &run.start, text);
}

/// A run as lines, and which answers it has; none where it doesn't fit the sample.
fn written(name: &str, run: &Run) -> Option<(String, Vec<Answer>)> {
    if run.lent.iter().zip(ROOM).any(|(lent, room)| *lent > room) {
        return None;
    }
    let (mut text, mut met) = (String::new(), Vec::new());
    let mut shadow = Shadow::of(run.lent);
    start(name, run, &mut shadow, &mut text);
    let mut sides = Sides::of(&run.start, run.lent, 0);
    let mut sentence = "";
    for call in &run.calls {
        if matches!(call, Call::NewConcat(_, nodes) if nodes.len() > lines::MOST_NODES) {
            return None;
        }
        let before = sides.ours.record;
        let (said, verdict) = sides.step(call);
        let listed = matches!(verdict, Verdict::Listed(_));
        let held = sides.ours.state()?;
        if listed {
            sides.again(&held);
        }
        let whose = if listed { PAPER } else { THEIRS };
        if sentence != whose {
            sentence = whose;
            text += &format!("{sentence}\n");
        }
        text += &lines::call(call, &said, &before, &after(call, &said, &held));
        shadow.tell("now", &held, &mut text);
        met.push((call.number(), said.code(), sort(&said)));
    }
    Some((text, met))
}

/// The record that the library leaves. The driver goes on with the old one where new_limited is refused; the library's call
/// writes that for limit 0.
fn after(call: &Call, said: &Said, held: &State) -> calls::Record {
    match (call, said) {
        (Call::NewLimited(_), Said::Refused(..)) => State::fresh(0).record(),
        _ => held.record(),
    }
}

/// Chooses runs of a seed, one by one: the first short ones, and each that brings an answer (call, code and sort) of which the
/// sample has few; the longer the run, the fewer.
pub fn record(seed: u64, folder: &Path) -> io::Result<()> {
    let mut out = HEAD.to_string();
    let mut met: BTreeMap<Answer, u64> = BTreeMap::new();
    let (mut chosen, mut calls) = (0, 0);
    for number in 0..40_000 {
        let family = make::family(number);
        if family == Family::Large {
            continue;
        }
        let run = run::again(seed, number, &mut Tally::default());
        let name = format!("{family:?}-{number}").to_lowercase();
        let Some((text, answers)) = written(&name, &run) else { continue };
        let brings = |times| answers.iter().any(|a| met.get(a).copied().unwrap_or(0) < times);
        let short = text.len() < CHOICE[0].0;
        if short && chosen < FIRST || CHOICE.iter().any(|(length, times)| text.len() < *length && brings(*times)) {
            chosen += 1;
            calls += answers.len();
            for a in answers {
                *met.entry(a).or_default() += 1;
            }
            out += &text;
        }
    }
    fs::create_dir_all(folder)?;
    fs::write(folder.join("rust.txt"), &out)?;
    println!("{}: {chosen} runs, {calls} calls, {} bytes", folder.join("rust.txt").display(), out.len());
    Ok(())
}
