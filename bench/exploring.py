#!/usr/bin/env python3
"""Times how the machine of a chart is found and reduced: python3 bench/exploring.py

The program below is written into a temporary copy of the crates that it stands on, proved and built there by `rt run`,
and run three times for each row on a chart and cuts that are made here; the best time counts. It is no part of the gate.
It needs the kit's `rt` and Linux.
"""

import pathlib
import tempfile
from collections.abc import Callable

from timing import built, facts_of, peak_of, with_program

PROGRAM = """\
// Times exploration and reduction. The arguments name the files of a chart and of cuts.
#![tactic(auto)]

ghost use Rattle.std.specs.Prelude.{◌≡◌, length, All, IfSome};
ghost use Rattle.lin_form.specs.Signature.{ranges_of};

use abstract_machine::explore;
use chart_meaning::ChartPlan;
use chart_model::{Chart, Cuts};
use chart_syntax::read_chart;
use class_split::{Partition, split};
use cut_syntax::read_cuts;
use guard_atoms::{assumed, atoms_of};
use lin_form::Bounds;
use reduction::reduce;
use std::alloc::Global;
use std::env;
use std::fs;
use std::io;
use std::time::Instant;

fn classes_of(alloc: Global, chart: &Chart, cuts: &Cuts) -> Option<Partition>
    requires { All (λ cut. length cut.form.inputs ≡ length chart.now.signature.inputs) cuts.now }
    ensures { IfSome result (λ r. r.ranges ≡ ranges_of chart.now.signature.inputs) }
{
    let Ok(atoms) = atoms_of(alloc, chart, cuts) else {
        return None;
    };
    let Ok(literals) = assumed(alloc, chart) else {
        return None;
    };
    let Ok(bounds) = Bounds::of(alloc, &chart.signature) else {
        return None;
    };
    match split(alloc, atoms, bounds, literals) {
        Ok(partition) => Some(partition),
        Err(_) => None,
    }
}

fn main(rt: HostRuntime) -> io::Result<()> {
    let alloc = rt.alloc();
    let mut args = env::args(&rt)?;
    let _program = args.next();
    let (Some(name), Some(name_of_cuts)) = (args.next(), args.next()) else {
        return Ok(());
    };
    let text = fs::read(&rt, name.as_str())?;
    let Ok(chart) = read_chart(alloc, text.as_slice()) else {
        return println!(rt; "no chart");
    };
    let text = fs::read(&rt, name_of_cuts.as_str())?;
    let Ok(cuts) = read_cuts(alloc, text.as_slice(), &chart.signature) else {
        return println!(rt; "no cuts");
    };
    let Some(partition) = classes_of(alloc, &chart, &cuts) else {
        return println!(rt; "no classes");
    };
    let classes = partition.classes().len();
    println!(rt; "classes {classes}")?;
    let plan = ChartPlan::new(alloc, chart)?;
    let start = Instant::now(&rt)?;
    let Ok(explored) = explore(alloc, &plan, &partition) else {
        return println!(rt; "too many");
    };
    let micros = start.elapsed(&rt)?.as_micros();
    let states = explored.configurations;
    println!(rt; "configurations {states}")?;
    println!(rt; "explore {micros}")?;
    let start = Instant::now(&rt)?;
    let reduced = reduce(alloc, &explored.fsm)?;
    let micros = start.elapsed(&rt)?.as_micros();
    let states = reduced.fsm.states();
    println!(rt; "states {states}")?;
    println!(rt; "reduce {micros}")?;
    let status = fs::read_to_string(&rt, "/proc/self/status")?;
    println!(rt; "{status}")
}
"""
USES = "reduction abstract_machine fsm_core chart_meaning chart_syntax chart_model cut_syntax guard_atoms class_split lin_form"

NAMES = "abcdef"


def signature(names: str, most: int) -> list[str]:
    return ["chart 1"] + [f"input {name} 0 {most}" for name in names] + ["output o 0"]


def text_of(lines: list[str]) -> str:
    return "\n".join(lines) + "\n"


def cuts(**points: range) -> str:
    """Cuts at each point of each input."""
    return text_of(["cuts 1"] + [f"cut {name} >= {point}" for name, each in points.items() for point in each])


def six_inputs() -> str:
    """Cuts of six inputs into four parts each: 4,096 classes."""
    return cuts(**{name: range(210000, 800000, 200000) for name in NAMES})


def counters() -> str:
    """Four states and two memories of 16 values each, whose guards speak of the memories: one state remains."""
    lines = signature("xyz", 100) + ["memory m 0 15 0", "memory n 0 15 0", "state S0 start"]
    lines += [f"state S{i}" for i in range(1, 4)]
    for i in range(4):
        lines += [f"on S{i} when x >= 50 and (y >= 3*m or n >= 3) do n = n + 1",
                  f"on S{i} when x >= 20 and y - z < 5*m - 40 do m = m + 1",
                  f"on S{i} when x >= 20 and n + m >= 5 and z >= 7 do n = n - 2",
                  f"on S{i} when x >= 10 go S{(i + 1) % 4}",
                  f"on S{i} when x >= 5 do m = m - 1"]
    return text_of(lines)


def greatest() -> str:
    """Four states and a memory of 128 values that turns up in a reply at its end, so half of the states remain."""
    lines = signature(NAMES, 1000000) + ["memory n 0 127 0", "state S0 start"] + [f"state S{i}" for i in range(1, 4)]
    for i in range(4):
        lines += [f"on S{i} when a >= 610000 and b >= 610000 do n = n + 1",
                  f"on S{i} when c >= 610000 and (d < 210000 or e < 210000) go S{(i + 1) % 4}",
                  f"on S{i} when f >= 410000 and not (a >= 210000) do n = n - 1"]
    return text_of(lines + ["on S0 when n >= 127 and f < 210000 do o = 1"])


def ring() -> str:
    """Four states and a memory of 128 values; the guards name six values of one input."""
    lines = ["chart 1", "input x 0 9", "input y 0 1000", "output o 0", "memory n 0 127 0", "state S0 start"]
    lines += [f"state S{i}" for i in range(1, 4)]
    for i in range(4):
        lines += [f"on S{i} when x = 0 do n = n + 1", f"on S{i} when x = 1 go S{(i + 1) % 4}",
                  f"on S{i} when x = 2 do n = n - 1", f"on S{i} when x = 3 do n = 0 go S0"]
    lines.append("on S0 when x = 9 and n >= 127 do o = 1")
    return text_of(lines)


def counting(states: int, values: int) -> str:
    """States in a ring, with so many values of a memory in each: one state remains."""
    lines = signature("x", 1) + [f"memory n 0 {values - 1} 0", "state S0 start"]
    lines += [f"state S{i}" for i in range(1, states)]
    for i in range(states):
        lines += [f"on S{i} when x = 1 go S{(i + 1) % states}", f"on S{i} do n = n + 1"]
    return text_of(lines)


def deep(source: Callable[[int], int], values: int) -> str:
    """64 states, of which the active ones are 8 deep, and 256 transitions from them or others; of 64 comparisons in a guard
    the first alone is false, which is looked at last, and of the guards the last alone is true. A memory counts."""
    lines = signature(NAMES, 1000000) + [f"memory z 0 {values - 1} 0", "state S0 start"]
    lines += [f"state S{i} in S{min(i - 1, 6)}" + (" start" if i <= 7 else "") for i in range(1, 64)]
    closed = " and ".join(["a+b+c<0"] + ["a+b+c>=0"] * 63)
    lines += [f"on S{source(number)} when {closed} do o = 1" for number in range(1, 256)]
    return text_of(lines + ["on S0 when " + " and ".join(["a+b+c>=0"] * 64) + " do z = z + 1"])


# what the row shows, the chart, the cuts
ROWS = [
    ("4 leaves and 256 values of memories", counters(), cuts()),
    ("the greatest machine", greatest(), six_inputs()),
    ("600 letters, 513 blocks", ring(), cuts(y=range(1, 100))),
    ("a ring of 4 states, 256 values each", counting(4, 256), cuts()),
    ("a ring of 5 states, 256 values each", counting(5, 256), cuts()),
    ("64 states, 8 deep, 64 comparisons a guard, 32 guards a step", deep(lambda number: number // 4, 4), six_inputs()),
    ("the same with 256 guards a step", deep(lambda number: number % 8, 4), six_inputs()),
]


def main() -> None:
    with tempfile.TemporaryDirectory() as name:
        folder = pathlib.Path(name)
        program = built(with_program(folder, USES, PROGRAM))
        print("| chart | configurations | classes | explore ms | ns a step | states | reduce ms | peak KiB |")
        print("|---|---|---|---|---|---|---|---|")
        for text, chart, cut in ROWS:
            (folder / "chart").write_text(chart)
            (folder / "cuts").write_text(cut)
            runs = [facts_of(program, str(folder / "chart"), str(folder / "cuts")) for _ in range(3)]
            facts = runs[0]
            if "explore" not in facts:
                print(f"| {text} | {' '.join(facts)} {facts.get('too', '')} | {facts.get('classes')} | | | | | |")
                continue
            explore, reduce = [min(int(run[call]) for run in runs) / 1e3 for call in ("explore", "reduce")]
            steps = int(facts["configurations"]) * int(facts["classes"])
            print(f"| {text} | {facts['configurations']} | {facts['classes']} | {explore:.1f} | {explore * 1e6 / steps:.1f} "
                  f"| {facts['states']} | {reduce:.1f} | {peak_of(facts):,} |", flush=True)


if __name__ == "__main__":
    main()
