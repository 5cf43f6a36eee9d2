//! Times load and save on files of two lengths: nested lists down to the deepest level, of small atoms, of atoms of 2 bytes and of
//! 40. Prints a table of nanoseconds per byte and megabytes per second; the two lengths side by side show whether time grows with
//! the length alone.
//!
//!     cargo run --offline --release --example load_speed [-- ROUNDS]
use clvm_allocator::{Allocator, Result};
use std::time::Instant;

/// The most levels of a file.
const LEVELS: usize = 4096;
const LENGTHS: [usize; 2] = [1_000_000, 10_000_000];

/// A list of lists, each of which goes down to the deepest level: no longer than that many bytes, and shorter by an item at most.
fn file(item: &[u8], length: usize) -> Vec<u8> {
    let mut file = Vec::with_capacity(length);
    // each list ends in an empty atom, and so does the list of lists
    let room = |file: &[u8], more: usize| file.len() + more < length;
    for outer in 1.. {
        // the outer list's pairs stand on levels 1, 2 and so on, those of an inner one below
        if outer + 2 > LEVELS || !room(&file, 2 + item.len() + 2) {
            break;
        }
        file.push(0xff);
        for _ in outer + 1..LEVELS {
            if !room(&file, 1 + item.len() + 1) {
                break;
            }
            file.push(0xff);
            file.extend_from_slice(item);
        }
        file.push(0x80);
    }
    file.push(0x80);
    file
}

/// The nanoseconds that a call takes.
fn timed<T>(call: impl FnOnce() -> T) -> (f64, T) {
    let clock = Instant::now();
    let answer = call();
    (clock.elapsed().as_nanos() as f64, answer)
}

fn median(mut times: Vec<f64>) -> f64 {
    times.sort_by(f64::total_cmp);
    times[times.len() / 2]
}

/// The first load, for which the slots grow; then the medians of a load into slots that are there, and of a save.
fn row(name: &str, file: &[u8], rounds: usize) -> Result<()> {
    let mut a = Allocator::new();
    let start = a.checkpoint();
    let (first, root) = timed(|| a.load(file));
    let mut root = root?;
    let mut written = vec![0; file.len()];
    let (mut loads, mut saves) = (Vec::new(), Vec::new());
    for _ in 0..rounds {
        a.restore_checkpoint(&start)?;
        let (time, loaded) = timed(|| a.load(file));
        loads.push(time);
        root = loaded?;
        let (time, saved) = timed(|| a.save(root, &mut written));
        saves.push(time);
        assert_eq!(saved?, file.len());
    }
    assert!(written == file && root.is_pair());
    let bytes = file.len() as f64;
    print!(
        "| {name} | {} | {} | {:.2} ",
        file.len(),
        a.pair_count(),
        first / bytes
    );
    for time in [median(loads), median(saves)] {
        print!("| {:.2} | {:.1} ", time / bytes, bytes * 1000.0 / time);
    }
    println!("|");
    Ok(())
}

fn main() -> Result<()> {
    let rounds = std::env::args().nth(1).map_or(Ok(9), |word| word.parse());
    let Ok(rounds @ 1..) = rounds else {
        eprintln!("load_speed [ROUNDS]");
        std::process::exit(2);
    };
    println!("| items | bytes | pairs | first load, ns/byte | load, ns/byte | load, MB/s | save, ns/byte | save, MB/s |");
    println!("|---|---:|---:|---:|---:|---:|---:|---:|");
    let stored = |length: u8| [vec![0x80 + length], vec![0x80; length.into()]].concat();
    for (name, item) in [
        ("small atoms", vec![5]),
        ("atoms of 2 bytes", stored(2)),
        ("atoms of 40 bytes", stored(40)),
    ] {
        for length in LENGTHS {
            row(name, &file(&item, length), rounds)?;
        }
    }
    Ok(())
}
