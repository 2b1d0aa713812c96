#!/usr/bin/env python3
"""Times the crate word_pool, and measures its memory.

The program below is written into a temporary copy of the crate, proved and built there by `rt run`, and run once
for each row. It is no part of the gate. It needs the kit's `rt` and Linux.
"""

import pathlib
import tempfile

from timing import built, facts_of, peak_of, with_program

PROGRAM = """\
// Times a pool of words. The argument names the way in which the words come.
#![tactic(auto)]

use std::alloc::AllocError;
use std::env;
use std::fs;
use std::io;
use std::process::Abort;
use std::time::Instant;
use word_pool::Pool;

// The number of a word that is followed by a letter.
fn enter(rt: &impl Abort, pool: &mut Pool, number: usize, letter: u16) -> Result<usize, AllocError> {
    assert!(rt; number < pool.words());
    assert!(rt; pool.words() < 100_000_000);
    let id = pool.extend(pool.word(number), letter)?;
    Ok(pool.number(id))
}

// A million words of three letters in ascending order, each from its prefix.
fn ascending(rt: &impl Abort, pool: &mut Pool) -> Result<(), AllocError> {
    for a in 0u16..100 {
        let first = enter(rt, pool, 0, a)?;
        for b in 0u16..100 {
            let second = enter(rt, pool, first, b)?;
            for c in 0u16..100 {
                let _third = enter(rt, pool, second, c)?;
            }
        }
    }
    Ok(())
}

// The same words in a shuffled order, each from the empty word.
fn shuffled(rt: &impl Abort, pool: &mut Pool) -> Result<(), AllocError> {
    let mut at = 0u64;
    for _ in 0..1_000_000 {
        at = at.wrapping_add(618_033) % 1_000_000;
        let first = enter(rt, pool, 0, (at / 10_000 % 100) as u16)?;
        let second = enter(rt, pool, first, (at / 100 % 100) as u16)?;
        let _third = enter(rt, pool, second, (at % 100) as u16)?;
    }
    Ok(())
}

// The letters below 4,096 after each of some words, `step` apart from one to the next, `calls` times.
fn children(rt: &impl Abort, pool: &mut Pool, words: u16, step: u64, calls: u64) -> Result<(), AllocError> {
    for a in 0..words {
        let first = enter(rt, pool, 0, a)?;
        let mut at = 0u64;
        for _ in 0..calls {
            let _child = enter(rt, pool, first, (at % 4096) as u16)?;
            at = at.wrapping_add(step) % 4096;
        }
    }
    Ok(())
}

fn prepare(rt: &impl Abort, pool: &mut Pool, mode: &str) -> Result<(), AllocError> {
    match mode {
        "reserved" => pool.reserve(1_010_100),
        "again" | "walk" => ascending(rt, pool),
        "walk-shuffled" => shuffled(rt, pool),
        "children-between" => children(rt, pool, 244, 64, 64),
        _ => Ok(()),
    }
}

fn measure(rt: &impl Abort, pool: &mut Pool, mode: &str) -> Result<(), AllocError> {
    match mode {
        "ascending" | "reserved" | "again" => ascending(rt, pool),
        "shuffled" => shuffled(rt, pool),
        "children" | "children-between" => children(rt, pool, 244, 1, 4096),
        "children-shuffled" => children(rt, pool, 16, 2531, 4096),
        _ => Ok(()),
    }
}

fn main(rt: HostRuntime) -> io::Result<()> {
    let mut args = env::args(&rt)?;
    let _program = args.next();
    let Some(mode) = args.next() else {
        return Ok(());
    };
    let mut pool = Pool::new(rt.alloc())?;
    prepare(&rt, &mut pool, mode.as_str())?;
    let start = Instant::now(&rt)?;
    if mode.as_str() == "walk" || mode.as_str() == "walk-shuffled" {
        let ids = pool.walk(rt.alloc())?;
        let ends = ids.len();
        println!(rt; "ends {ends}")?;
    } else {
        measure(&rt, &mut pool, mode.as_str())?;
    }
    let nanos = start.elapsed(&rt)?.as_nanos();
    let words = pool.words();
    println!(rt; "words {words}")?;
    println!(rt; "nanos {nanos}")?;
    let status = fs::read_to_string(&rt, "/proc/self/status")?;
    println!(rt; "{status}")
}
"""

# mode, calls (0: one for each end that the walk gives), what the row shows
ROWS = [
    ("none", 1, "an empty pool"),
    ("ascending", 1_010_100, "a million words, ascending"),
    ("reserved", 1_010_100, "the same after one reservation"),
    ("again", 1_010_100, "the same where all are there"),
    ("shuffled", 3_000_000, "a million words, shuffled, each from the empty word"),
    ("children", 999_668, "4,096 children under each of 244 words, ascending"),
    ("children-between", 999_668, "the same where each 64th child is there"),
    ("children-shuffled", 65_552, "4,096 children under each of 16 words, shuffled"),
    ("walk", 0, "walk over the million, entered ascending"),
    ("walk-shuffled", 0, "walk over the million, entered shuffled"),
]


def main() -> None:
    with tempfile.TemporaryDirectory() as folder:
        program = built(with_program(pathlib.Path(folder), "word_pool", PROGRAM))
        print(f"{'':52} {'words':>9} {'ns a call':>9} {'peak KiB':>8} {'bytes a word':>12}")
        base = 0
        for mode, calls, text in ROWS:
            facts = facts_of(program, mode)
            words, nanos, peak = int(facts["words"]), int(facts["nanos"]), peak_of(facts)
            base = base or peak
            calls = calls or int(facts["ends"])
            print(f"{text:52} {words:9} {nanos / calls:9.1f} {peak:8} {(peak - base) * 1024 / words:12.1f}")


if __name__ == "__main__":
    main()
