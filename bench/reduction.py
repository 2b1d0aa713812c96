#!/usr/bin/env python3
"""Times the crate reduction, and measures its memory.

The program below is written into a temporary copy of the crate and of those below it, proved and built there by
`rt run`, and run once for each row. It is no part of the gate. It needs the kit's `rt` and Linux.
"""

import pathlib
import tempfile

from timing import built, facts_of, peak_of, with_program

PROGRAM = """\
// Times the reduction of a machine of 1,024 states. The arguments name the machine and give its number of letters.
#![tactic(auto)]

use fsm_core::Fsm;
use lin_form::Reply;
use reduction::reduce;
use std::alloc::{AllocError, Global};
use std::env;
use std::fs;
use std::io;
use std::process::Abort;
use std::time::Instant;

// The row of a state and a letter.
fn row(kind: &str, state: usize, letter: usize) -> (usize, usize) {
    let turned = state.wrapping_add(1) % 1024;
    let last = if state == 1023 { 1 } else { 0 };
    let mixed = state.wrapping_mul(5).wrapping_add(letter.wrapping_mul(3)) % 1024;
    let down = 1023usize.saturating_sub(state);
    let half = if state.wrapping_add(letter) % 512 == 511 { 1 } else { 0 };
    let fallen = match state {
        1 => 1023,
        2 => 0,
        _ => state.saturating_sub(1),
    };
    let whole = if state.wrapping_add(letter) % 1024 == 1023 { 1 } else { 0 };
    match kind {
        "one" => (mixed, 0),
        "half" => (mixed, half),
        "whole" => (mixed, whole),
        "ring" => (turned, last),
        "fall" if state == 0 => (letter % 1024, 1),
        "fall" if letter == 4095 => (fallen, 0),
        "falls" if state != 0 => (fallen, 0),
        "falls" => (letter % 1024, 1),
        "turn-first" if letter == 0 => (turned, last),
        "turn-last" if letter == 4095 => (turned, last),
        "chain-up" if letter == state => (turned, last),
        "chain-down" if letter == down => (turned, last),
        _ => (state, 0),
    }
}

fn machine(rt: &impl Abort, alloc: Global, kind: &str, letters: usize) -> Result<Fsm, AllocError> {
    let mut rows = Vec::new(alloc);
    for state in 0..1024 {
        for letter in 0..letters {
            rows.push(row(kind, state, letter))?;
        }
    }
    let mut replies = Vec::new(alloc);
    for number in 0..2 {
        replies.push(Reply::from_slice(&[number]))?;
    }
    assert!(rt; Fsm::is_machine(letters, rows.as_slice(), replies.as_slice()));
    Ok(Fsm::new(letters, rows, replies))
}

fn main(rt: HostRuntime) -> io::Result<()> {
    let mut args = env::args(&rt)?;
    let _program = args.next();
    let Some(kind) = args.next() else {
        return Ok(());
    };
    let letters = if kind.as_str() == "ring" { 1 } else { 4096 };
    let fsm = machine(&rt, rt.alloc(), kind.as_str(), letters)?;
    assert!(rt; fsm.all_reached(rt.alloc())?);
    if args.next().is_some() {
        let start = Instant::now(&rt)?;
        let reduced = reduce(rt.alloc(), &fsm)?;
        let millis = start.elapsed(&rt)?.as_millis();
        let states = reduced.fsm.states();
        println!(rt; "states {states}")?;
        println!(rt; "millis {millis}")?;
    }
    let status = fs::read_to_string(&rt, "/proc/self/status")?;
    println!(rt; "{status}")
}
"""

# kind, what the row shows
ROWS = [
    ("one", "4,096 letters, one state remains"),
    ("half", "4,096 letters, 512 states remain"),
    ("whole", "4,096 letters, all states remain"),
    ("ring", "one letter, which turns a ring"),
    ("turn-first", "4,096 letters, of which the first turns a ring"),
    ("turn-last", "4,096 letters, of which the last turns a ring"),
    ("chain-up", "each state is left by its own letter, in order"),
    ("chain-down", "the same against the order"),
    ("fall", "the last letter leads each state to the one before it"),
    ("falls", "each letter does so"),
]


def main() -> None:
    with tempfile.TemporaryDirectory() as folder:
        program = built(with_program(pathlib.Path(folder), "reduction fsm_core lin_form", PROGRAM))
        print(f"{'':48} {'states':>6} {'ms':>8} {'peak KiB':>9} {'without':>9}")
        for kind, text in ROWS:
            before = facts_of(program, kind)
            facts = facts_of(program, kind, "reduce")
            print(f"{text:48} {facts['states']:>6} {facts['millis']:>8} {peak_of(facts):>9} {peak_of(before):>9}")


if __name__ == "__main__":
    main()
