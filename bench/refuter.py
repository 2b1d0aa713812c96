#!/usr/bin/env python3
"""Times the crates linear_refuter and witness_pick.

The program below is written into a temporary copy of the crates and of those below them, proved and built there by
`rt run` once for each rule, which is an edit of what is guessed, and run for each row. It prints a table of milliseconds
for each rule, of the processor's time in user mode, so that other work on the machine counts little, with the number of
splits where the literals are refuted. It is no part of the gate. It needs the kit's `rt` and Linux.
"""

import pathlib
import random
import resource
import shutil
import subprocess
import tempfile

from timing import built, with_program

PROGRAM = """\
// Times `decide` or `least`. The arguments are numbers: 0 for `decide` or 1 for `least`, how often the call is made, the
// number of inputs, their bounds, the number of literals, and for each its coefficients, its constant, and 1 where it
// holds or 0 where it does not.
#![tactic(auto)]

mod making;

use lin_form::{Bounds, Literal};
use linear_refuter::{Answer, Tree, decide};
use making::{are_shaped, bounds, literal};
use std::alloc::{AllocError, Global};
use std::env;
use std::io;
use std::process::Abort;
use std::time::Instant;
use witness_pick::{Pick, least};

fn splits(tree: &Tree) -> usize {
    match tree {
        Tree::Sum(_) => 0,
        Tree::Split {
            variable: _,
            at: _,
            low,
            high,
        } => splits(low).wrapping_add(splits(high)).wrapping_add(1),
    }
}

fn pick(rt: &impl Abort, alloc: Global, find_least: bool, literals: &[Literal], range: &Bounds) -> Result<Pick, AllocError> {
    assert!(rt; literals.len() <= 160);
    assert!(rt; are_shaped(literals, range));
    if find_least {
        return least(alloc, literals, range);
    }
    match decide(alloc, literals, range)? {
        Answer::Point(vector) => Ok(Pick::Least(vector)),
        Answer::Refuted(tree) => Ok(Pick::None(tree)),
    }
}

fn main(rt: HostRuntime) -> io::Result<()> {
    let mut numbers = Vec::new(rt.alloc());
    for arg in env::args(&rt)? {
        numbers.push(arg.as_str().parse::<i64>().unwrap_or(0))?;
    }
    let mut numbers = numbers.as_slice().iter().copied();
    let _program = numbers.next();
    let find_least = numbers.next() == Some(1);
    let times = numbers.next().unwrap_or(1);
    let inputs = numbers.next().unwrap_or(1);
    let mut ranges = Vec::new(rt.alloc());
    for _ in 0..inputs {
        let low = numbers.next().unwrap_or(0);
        ranges.push((low, numbers.next().unwrap_or(0)))?;
    }
    let range = bounds(&rt, rt.alloc(), ranges.as_slice())?;
    let mut literals = Vec::new(rt.alloc());
    for _ in 0..numbers.next().unwrap_or(0) {
        let mut coefficients = Vec::new(rt.alloc());
        for _ in 0..inputs {
            coefficients.push(numbers.next().unwrap_or(0))?;
        }
        let constant = numbers.next().unwrap_or(0);
        let holds = numbers.next() == Some(1);
        literals.push(literal(&rt, rt.alloc(), coefficients.as_slice(), constant, holds))?;
    }
    let start = Instant::now(&rt)?;
    for _ in 1..times {
        let _pick = pick(&rt, rt.alloc(), find_least, literals.as_slice(), &range)?;
    }
    let answer = pick(&rt, rt.alloc(), find_least, literals.as_slice(), &range)?;
    let nanos = start.elapsed(&rt)?.as_nanos();
    match answer {
        Pick::Least(vector) => println!(rt; "vector {vector:?}")?,
        Pick::None(tree) => {
            let splits = splits(&tree);
            println!(rt; "splits {splits}")?;
        }
    }
    println!(rt; "nanos {nanos}")
}
"""

GUESS = "crates/linear_refuter/src/guess.rt"
CLOSER = "None => look_closer(&mut relaxation, part, wants_trim, &mut hint),"
SHARE = "let mut most = if wants_trim { 0.25 } else { 2.0 };"
SMALL = "const FEW_VECTORS: f64 = 100.0;"
THINNEST = "if least < greatest && greatest - least < thinnest {"

# name, and the edits of what is guessed
RULES = [
    ("as built", []),
    ("the relaxation on small boxes too", [(SMALL, SMALL.replace("100.0", "0.0"))]),
    ("no tightening", [(SHARE, SHARE.replace("0.25", "2.0"))]),
    ("widest in the relaxation", [(THINNEST, "if thinnest > 1e299 || greatest - least > thinnest {")]),
    ("first in order", [(THINNEST, "if least < greatest && thinnest > 1e299 {")]),
    ("widest range of the box, no closer look", [(CLOSER, "None => {}")]),
    ("no relaxation", [("match relaxation.repair() {\n        Repaired::Stuck(row) => hint", "match Repaired::Unknown {\n        Repaired::Stuck(row) => hint")]),
]

MILLION = 1_000_000
LIMIT = 10


def equation(coefficients, number):
    """Two literals that say that a sum of products has a value."""
    return [(coefficients, -number, True), (coefficients, -number - 1, False)]


def around(seed, count, inputs, most, reach, room):
    """Literals that hold on one vector, whose sides are at most `room` away from it."""
    dice = random.Random(seed)
    vector = [dice.randint(-reach, reach) for _ in range(inputs)]
    rows = []
    while len(rows) < count:
        coefficients = [dice.randint(-most, most) for _ in range(inputs)]
        if any(coefficients):
            constant = dice.randint(-room, room) - sum(a * x for a, x in zip(coefficients, vector))
            constant = max(-10**9, min(10**9, constant))
            value = constant + sum(a * x for a, x in zip(coefficients, vector))
            rows.append((coefficients, constant, value >= 0))
    return rows


def cuts():
    return [([int(i == j) for j in range(6)], -cut, cut <= 4) for i in range(6) for cut in (2, 4, 6, 8)]


THREE = [(-MILLION, MILLION)] * 3
SIX = [(-MILLION, MILLION)] * 6
FOUR = [((1, 1, -1), -1, True), ((1, 1, -2), 0, False), ((3, -1, 1), -5, True), ((1, -1, 0), 70_000, False)]
OVER = (1, -1)
SLOPE = (1000, -1001)
PARITY = equation((1, 1, -2, 0), 0) + equation((1, -1, 0, -2), 1)
# name, ranges, literals
ROWS = [
    ("four inequalities, three inputs of 2,000,001", THREE, FOUR),
    ("a + b - c >= 1 and not >= 0, the same box", THREE, [((1, 1, -1), -1, True), ((1, 1, -1), 0, False)]),
    ("v - lim >= 101, two inputs of 4,001", [(0, 4000)] * 2, [(OVER, -101, True)]),
    ("v - lim >= 101 and v <= 100, the same box", [(0, 4000)] * 2, [(OVER, -101, True), ((1, 0), -101, False)]),
    ("four cuts of each of six inputs of ten", [(0, 9)] * 6, cuts()),
    ("16 literals, six inputs of 2,000,001", SIX, around(16, 16, 6, 10, 100_000, 1000)),
    ("64 literals, the same box", SIX, around(64, 64, 6, 10, 100_000, 1000)),
    ("128 literals, the same box", SIX, around(128, 128, 6, 10, 100_000, 1000)),
    ("128 literals, coefficients to 1,000,000", SIX, around(132, 128, 6, MILLION, 400, 100_000)),
    ("1000a - 1001b = 500, 0 to 1,000,000", [(0, MILLION)] * 2, equation(SLOPE, 500)),
    ("the same with a <= 500 (refuted)", [(0, 500), (0, MILLION)], equation(SLOPE, 500)),
    ("99991a - 100000b = 1, 0 to 200,000", [(0, 200_000)] * 2, equation((99991, -100000), 1)),
    ("three equations, six inputs of 2,001", [(-1000, 1000)] * 6,
     equation((3, -5, 7, 11, -13, 17), 1) + equation((8, 9, -10, 11, 12, -13), 50) + equation((1, 2, 3, 4, 5, 6), 77)),
    ("x + y even and x - y odd, 0 to 8 (refuted)", [(0, 8)] * 4, PARITY),
    ("the same, 0 to 64 (refuted)", [(0, 64)] * 4, PARITY),
    ("the same, 0 to 256 (refuted)", [(0, 256)] * 4, PARITY),
    ("91x - 77y + 13z = 7, 55x + 79y - 33z = 100 (refuted)", [(-100_000, 100_000)] * 3,
     equation((91, -77, 13), 7) + equation((55, 79, -33), 100)),
]


def time_of(program, find_least, ranges, literals):
    """Milliseconds of one call, and what it answers."""
    numbers = [len(ranges)] + [bound for pair in ranges for bound in pair] + [len(literals)]
    for coefficients, constant, holds in literals:
        numbers += [*coefficients, constant, int(holds)]
    times, before = 1, resource.getrusage(resource.RUSAGE_CHILDREN).ru_utime
    words = [program, str(find_least), "1"] + [str(number) for number in numbers]
    try:
        told = subprocess.run(words, capture_output=True, text=True, check=True, timeout=LIMIT).stdout.split("\n")
    except subprocess.TimeoutExpired:
        return f"> {LIMIT:,} s", ""
    took = (resource.getrusage(resource.RUSAGE_CHILDREN).ru_utime - before) * 1000
    if took < 20:
        times, before = 100, resource.getrusage(resource.RUSAGE_CHILDREN).ru_utime
        words[2] = str(times)
        subprocess.run(words, capture_output=True, text=True, check=True)
        took = (resource.getrusage(resource.RUSAGE_CHILDREN).ru_utime - before) * 1000 / times
    splits = [line.split()[1] for line in told if line.startswith("splits")]
    return f"{took:,.2f}", f" ({int(splits[0]):,} splits)" if splits else ""


def main() -> None:
    with tempfile.TemporaryDirectory() as folder:
        top = pathlib.Path(folder)
        here = with_program(top, "witness_pick linear_refuter lin_form", PROGRAM)
        witness_pick = top / "crates" / "witness_pick"
        shutil.copy(witness_pick / "src" / "making.rt", here / "src")
        shutil.copytree(witness_pick / "proofs" / "making", here / "proofs" / "making")
        for path in (here / "proofs").rglob("*.antt"):
            path.write_text(path.read_text().replace("witness_pick.proofs.making", "timing.proofs.making"))
        plain = (top / GUESS).read_text()
        for rule, edits in RULES:
            text = plain
            for old, new in edits:
                assert text.count(old) == 1, old
                text = text.replace(old, new)
            (top / GUESS).write_text(text)
            program = built(here)
            print(f"\n{rule}\n\n| literals | decide, ms | least, ms |\n|---|---|---|", flush=True)
            for name, ranges, literals in ROWS:
                decided, splits = time_of(program, 0, ranges, literals)
                found, _ = time_of(program, 1, ranges, literals)
                print(f"| {name} | {decided}{splits} | {found} |", flush=True)


if __name__ == "__main__":
    main()
