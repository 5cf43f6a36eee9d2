//! Prints a panel of the counts (atoms, pairs, heap: used, ghost, total) along a short run with a restore; or, given a program
//! file, after it is loaded.
use clvm_allocator::{Allocator, MaybeRestore, Result};
use std::process::ExitCode;

/// A row for each count: what is stored, what is counted beside it, and both.
fn panel(step: &str, a: &Allocator) {
    let rows = [
        ("atoms", a.allocated_atom_count(), a.atom_count()),
        ("pairs", a.allocated_pair_count(), a.pair_count()),
        ("heap", a.allocated_heap_size(), a.heap_size()),
    ];
    println!("{step}");
    println!("         used  ghost  total");
    for (name, used, total) in rows {
        println!("  {name:<6}{used:>5}{:>7}{total:>7}", total - used);
    }
}

/// The panel of a program file, or why there is none.
fn loaded(path: &str) -> std::result::Result<(), Box<dyn std::error::Error>> {
    let file = std::fs::read(path)?;
    let mut a = Allocator::new();
    let root = a.load(&file)?;
    let shortest = a.save_to_vec(root, file.len())?.len();
    println!("{root:?} of {} bytes, {shortest} if saved", file.len());
    panel("a new allocator into which the file was loaded", &a);
    Ok(())
}

fn run() -> Result<()> {
    let mut a = Allocator::new();
    panel("a new allocator: nil and one are counted", &a);

    let name = a.new_atom(b"environment")?;
    let list = a.new_pair(name, a.nil())?;
    panel("an atom of 11 bytes, and a pair", &a);

    let mark = a.transparent_checkpoint();
    let mut last = a.one();
    let mut trail = a.nil();
    for byte in 0..100_u8 {
        last = a.new_atom(&[byte; 16])?;
        trail = a.new_pair(last, trail)?;
    }
    let ret = a.new_substr(last, 0, 4)?;
    panel(
        "a list of 100 atoms of 16 bytes, and a part of the last",
        &a,
    );

    match a.maybe_restore_with_node(&mark, ret)? {
        MaybeRestore::Replace(node) => {
            println!(
                "restored; {ret:?} is now {node:?}, {:02x?}",
                &*a.atom(node)?
            )
        }
        MaybeRestore::NoReplace => println!("restored; {ret:?} stays"),
        MaybeRestore::Aborted => println!("not restored"),
    }
    panel("after the restore: the totals are as before", &a);

    assert!(a.next(list)?.is_some() && a.well_formed());
    Ok(())
}

fn main() -> ExitCode {
    let done = match std::env::args().nth(1) {
        Some(path) => loaded(&path).map_err(|why| format!("{path}: {why}")),
        None => run().map_err(|why| why.to_string()),
    };
    if let Err(why) = done {
        eprintln!("{why}");
        return ExitCode::FAILURE;
    }
    ExitCode::SUCCESS
}
