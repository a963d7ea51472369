//! Compares the proved code with the second program, with fixed seeds; counts what was met, and ends with 1 at the first
//! difference.

use compare::tally::Tally;
use compare::{captures, frames, histories};
use second::random::Random;
use std::sync::atomic::{AtomicUsize, Ordering};
use std::sync::Mutex;
use std::time::Instant;

/// A kind of comparison: handed the counts, numbers from a seed of its own, the first index and how many.
type Kind = fn(&mut Tally, &mut Random, usize, usize);

/// Each kind, how many, and how many go in one block.
const PLAN: [(Kind, usize, usize); 7] = [
    (
        |tally, random, _, count| frames::lines(tally, random, count),
        500_000,
        5_000,
    ),
    (frames::frames, 200_000, 4_000),
    (histories::histories, 20_000, 250),
    (
        |tally, random, _, count| frames::controls(tally, random, count),
        100_000,
        5_000,
    ),
    (
        |tally, random, _, count| frames::messages(tally, random, count),
        100_000,
        10_000,
    ),
    (
        |tally, random, _, count| captures::records(tally, random, count),
        100_000,
        10_000,
    ),
    (
        |tally, random, _, count| captures::listings(tally, random, count),
        20_000,
        2_000,
    ),
];

/// One block of a kind: its first index and how many.
type Block = (Kind, usize, usize);

fn blocks() -> Vec<Block> {
    let mut blocks = Vec::new();
    for (kind, total, part) in PLAN {
        blocks.extend((0..total / part).map(|block| (kind, block * part, part)));
    }
    blocks
}

/// Takes blocks until none is left. Each has its own seed, so the counts don't depend on how many work.
fn work(blocks: &[Block], next: &AtomicUsize, total: &Mutex<Tally>) {
    let mut tally = Tally::default();
    loop {
        let index = next.fetch_add(1, Ordering::Relaxed);
        let Some((kind, first, count)) = blocks.get(index) else {
            break;
        };
        let mut random = Random::new(0x0B17_B050 + index as u64);
        kind(&mut tally, &mut random, *first, *count);
    }
    total.lock().expect("no worker ended early").add(&tally);
}

fn main() {
    let begin = Instant::now();
    let blocks = blocks();
    let (next, total) = (AtomicUsize::new(0), Mutex::new(Tally::default()));
    let workers = std::thread::available_parallelism().map_or(1, |count| count.get());
    std::thread::scope(|scope| {
        for _ in 0..workers {
            scope.spawn(|| work(&blocks, &next, &total));
        }
    });
    let total = total.into_inner().expect("no worker ended early");
    total.print();
    let faults = total.faults();
    for fault in &faults {
        println!("compare: {fault}");
    }
    if !faults.is_empty() {
        std::process::exit(1);
    }
    println!();
    println!(
        "compare: no difference, every number of every call met, in {} s",
        begin.elapsed().as_secs()
    );
}
