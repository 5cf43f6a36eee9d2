//! The smallest input of each listed difference, chosen by hand and run: what our side says and what both builds of the Rust do.

use crate::compare::{Sides, Verdict, caught, numbers};
use crate::run::brief;
use calls::{Call, Checkpoint, Counts, MOST, NIL, Record, Said, State, TOP};
use ours::Lent;

const BYTES: u32 = 1 << 26;
const BAD: u32 = 3 << 26;
const ROOM: Lent = [4000, 4, 4, 4, 4];

/// Where the call is made, what was called before it, and the call.
struct Case(State, Lent, Vec<Call>, Call);

fn used(atoms: usize, pairs: usize, bytes: usize) -> Counts {
    Counts { atoms, pairs, bytes }
}

fn plain(used: Counts) -> Checkpoint {
    Checkpoint { used, ghosts: State::fresh(0).ghosts }
}

fn atom(len: usize) -> Call {
    Call::NewAtom(vec![0x80; len])
}

fn cases() -> Vec<Case> {
    let fresh = || State::fresh(TOP);
    let first = |call| Case(fresh(), ROOM, vec![], call);
    let after = |before: Vec<Call>, call| Case(fresh(), ROOM, before, call);
    let full = |call| Case(fresh(), [0; 5], vec![], call);
    let bytes = |bytes: &[u8], slot| State { bytes: bytes.to_vec(), atoms: vec![slot], ..fresh() };
    let mut cases = vec![
        first(Call::NewLimited(TOP + 1)),
        Case(State { limit: TOP + 1, ..fresh() }, ROOM, vec![], Call::AtomCount),
        Case(bytes(&[], (0, 1)), ROOM, vec![], Call::AtomLen(BYTES)),
        Case(bytes(&[], (0, 1)), ROOM, vec![], Call::Atom(BYTES, 4)),
        Case(bytes(&[0], (1, 0)), ROOM, vec![], Call::AtomLen(BYTES)),
        Case(State { pairs: vec![(0, NIL)], ..fresh() }, ROOM, vec![], Call::Next(0)),
        first(Call::NewConcat(usize::MAX, vec![])),
        first(Call::NewConcat(usize::MAX, vec![NIL, NIL])),
        // heap past the limit, by one substr
        Case(
            State::fresh(1008),
            ROOM,
            vec![atom(1007), Call::NewSubstr(NIL | 0x80, 1, 2)],
            Call::MaybeRestoreWithNode(used(0, 0, 0), BYTES | 1),
        ),
        // a checkpoint after an atom of 2 bytes, dead since the restore to the start
        after(
            vec![atom(2), Call::RestoreCheckpoint(plain(used(0, 0, 0))), atom(1), atom(1017)],
            Call::MaybeRestoreWithNode(used(1, 0, 2), BYTES | 1),
        ),
    ];
    for call in [Call::ObjectType(BAD), Call::Index(BAD), Call::IsAtom(BAD), Call::IsPair(BAD)] {
        cases.push(first(call));
    }
    for n in [0, BYTES, BAD] {
        for call in [
            Call::NewPair(n, NIL),
            Call::NewSubstr(n, 0, 0),
            Call::NewConcat(0, vec![n]),
            Call::NewConcat(0, vec![n, NIL]),
            Call::AtomEq(n, NIL),
            Call::Atom(n, 4),
            Call::AtomLen(n),
            Call::SmallNumber(n),
            Call::Node(n),
            Call::Sexp(n),
            Call::Next(n),
            Call::CheckpointNodeStatus(used(0, 0, 0), n),
        ] {
            cases.push(first(call));
        }
        let n = if n == BYTES { n | 1 } else { n };
        cases.push(after(vec![atom(1016)], Call::MaybeRestoreWithNode(used(0, 0, 0), n)));
    }
    for call in [Call::Atom(0, 4), Call::AtomLen(0), Call::AtomEq(0, NIL), Call::AtomEq(NIL, 0), Call::NewConcat(0, vec![0])] {
        cases.push(after(vec![Call::NewPair(NIL, NIL)], call));
    }
    for cp in [used(1, 0, 0), used(0, 1, 0), used(0, 0, 1)] {
        cases.push(first(Call::RestoreCheckpoint(plain(cp))));
        cases.push(first(Call::RestoreTransparentCheckpoint(cp)));
        cases.push(first(Call::MaybeRestoreWithNode(cp, NIL)));
    }
    // a checkpoint after an atom of 1 byte, dead since the restore to the start: its slot is another atom's now
    let dead = used(1, 0, 1);
    let before = || vec![atom(1), Call::RestoreCheckpoint(plain(used(0, 0, 0))), atom(2)];
    cases.push(after(before(), Call::RestoreCheckpoint(plain(dead))));
    cases.push(after(before(), Call::RestoreTransparentCheckpoint(dead)));
    cases.push(after(before(), Call::MaybeRestoreWithNode(dead, NIL)));
    let mut unsound = plain(used(0, 0, 0));
    unsound.ghosts.atoms = MOST + 1;
    cases.push(first(Call::RestoreCheckpoint(unsound)));
    cases.push(first(Call::NewSmallNumber(67108864)));
    cases.push(first(Call::RemoveGhostPair(1)));
    for call in [
        atom(1),
        Call::NewU64(1 << 26),
        Call::NewI64(-1),
        Call::NewPair(NIL, NIL),
        Call::NewSubstr(NIL | 0x80, 1, 2),
        Call::NewConcat(0, vec![NIL, NIL]),
    ] {
        cases.push(full(call));
    }
    cases.push(first(Call::Atom(NIL, 3)));
    cases
}

/// What a side says, and its numbers where the call changed them.
fn told(said: Said, before: &Record, after: &Record) -> String {
    let said = match said {
        Said::Panicked(text) => format!("panics: {text}"),
        said => format!("{said:?}"),
    };
    if before == after { said } else { format!("{said}, then {}", numbers(after)) }
}

/// Prints a line for each; false if one of them isn't a listed difference.
pub fn print() -> bool {
    let mut all = true;
    for Case(start, lent, before, call) in cases() {
        let mut sides = Sides::of(&start, lent, 0);
        let same = before.iter().all(|call| matches!(sides.step(call).1, Verdict::Same));
        let state = sides.ours.state().expect("enough is lent");
        let (ours, verdict) = sides.step(&call);
        let what = match verdict {
            Verdict::Listed(kind) if same => kind.what.to_string(),
            _ => "NOT A LISTED DIFFERENCE".to_string(),
        };
        all &= what != "NOT A LISTED DIFFERENCE";
        let calls: Vec<String> = before.iter().chain([&call]).map(brief).collect();
        println!("{what}\n    {}", calls.join("; "));
        if lent != ROOM {
            println!("    with nothing lent");
        }
        if start != State::fresh(TOP) {
            println!("    from {}", crate::run::text(&start));
        }
        println!("    ours     {ours:?}");
        let now = state.record();
        let mut theirs = checked::Theirs::of(&state);
        let said = caught(|| theirs.call(&call));
        println!("    checked  {}", told(said, &now, &theirs.record()));
        let mut theirs = ::plain::Theirs::of(&state);
        let said = caught(|| theirs.call(&call));
        println!("    release  {}", told(said, &now, &theirs.record()));
    }
    all
}
