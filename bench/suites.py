#!/usr/bin/env python3
"""Times how a suite is made and written: python3 bench/suites.py

The program below is written into a temporary copy of the crates that it stands on, proved and built there by `rt run`,
and run for each row on a chart and cuts that are made here. It is no part of the gate. It needs the kit's `rt` and Linux.
"""

import pathlib
import subprocess
import tempfile

from timing import built, peak_of, with_program

PROGRAM = """\
// Times the stages of a suite. The arguments name a chart, give the bound and name cuts; the suite goes to standard
// output, and what it took, in microseconds, to standard error.
#![tactic(auto)]

use abstract_machine::explore;
use chart_meaning::ChartPlan;
use chart_syntax::read_chart;
use class_stages::classes_over;
use cut_syntax::read_cuts;
use reduction::reduce;
use std::env;
use std::fs;
use std::io;
use std::time::Instant;
use suite_model::Scratch;
use suite_stages::suite_over;
use suite_text::write_suite;
use test_world::{Sink, StdSink};

fn main(rt: HostRuntime) -> io::Result<()> {
    let alloc = rt.alloc();
    let mut args = env::args(&rt)?;
    let _program = args.next();
    let (Some(name), Some(bound), Some(name_of_cuts)) = (args.next(), args.next(), args.next()) else {
        return Ok(());
    };
    let text = fs::read(&rt, name.as_str())?;
    let Ok(chart) = read_chart(alloc, text.as_slice()) else {
        return Ok(());
    };
    let text = fs::read(&rt, name_of_cuts.as_str())?;
    let Ok(cuts) = read_cuts(alloc, text.as_slice(), &chart.signature) else {
        return Ok(());
    };
    let Ok(bound) = bound.as_str().parse::<usize>() else {
        return Ok(());
    };
    assert!(&rt; bound <= 1024);
    let start = Instant::now(&rt)?;
    let Ok(partition) = classes_over(alloc, 0, &chart, &cuts) else {
        return Ok(());
    };
    let micros = start.elapsed(&rt)?.as_micros();
    let classes = partition.classes().len();
    eprintln!(rt; "classes {classes} {micros}")?;
    let plan = ChartPlan::new(alloc, chart)?;
    let start = Instant::now(&rt)?;
    let Ok(explored) = explore(alloc, &plan, &partition) else {
        return Ok(());
    };
    let micros = start.elapsed(&rt)?.as_micros();
    let states = explored.configurations;
    eprintln!(rt; "explore {states} {micros}")?;
    let start = Instant::now(&rt)?;
    let reduced = reduce(alloc, &explored.fsm)?;
    let micros = start.elapsed(&rt)?.as_micros();
    let states = reduced.fsm.states();
    eprintln!(rt; "reduce {states} {micros}")?;
    let start = Instant::now(&rt)?;
    let Ok(suite) = suite_over(alloc, bound, &plan, &partition) else {
        return Ok(());
    };
    let micros = start.elapsed(&rt)?.as_micros();
    let tests = suite.tests();
    eprintln!(rt; "make {tests} {micros}")?;
    let start = Instant::now(&rt)?;
    let mut scratch = Scratch::for_suite(alloc, &suite)?;
    let mut out = StdSink::output(rt.stdout());
    let _told = write_suite(&suite, &mut scratch, &mut out);
    let _flushed = out.flush();
    let micros = start.elapsed(&rt)?.as_micros();
    eprintln!(rt; "write {tests} {micros}")?;
    let status = fs::read_to_string(&rt, "/proc/self/status")?;
    eprintln!(rt; "{status}")
}
"""
USES = "suite_stages suite_text suite_model reduction abstract_machine chart_meaning chart_syntax chart_model"
MORE = "cut_syntax class_stages test_world"

SMALL = """chart 1
input v 0 10
output alarm 0
state Low start
state High
on Low when v >= 8 do alarm = 1 go High
on High when v <= 5 do alarm = 0 go Low
"""

FLAT = """chart 1
input a 0 60
input b 0 60
output o 0
state S start
on S when a >= 61 do o = 1
"""

LINE = """chart 1
input a 0 9
output o 0
state S start
on S when a >= 5 do o = 1
on S do o = 0
"""


def cuts(**last: int) -> str:
    """Cuts at each number from 1 on to the last of each input."""
    return "cuts 1\n" + "".join(f"cut {name} >= {n}\n" for name, most in last.items() for n in range(1, most + 1))


def stairs(states: int) -> str:
    """A chart that goes up and down between levels, with a band between them."""
    lines = ["chart 1", f"input v 0 {10 * states}", "output o 0", "state s0 start"]
    lines += [f"state s{i}" for i in range(1, states)]
    for i in range(states):
        if i > 0:
            lines.append(f"on s{i} when v < {10 * i - 2} do o = {i - 1} go s{i - 1}")
        if i + 1 < states:
            lines.append(f"on s{i} when v >= {10 * i + 10} do o = {i + 1} go s{i + 1}")
    return "\n".join(lines) + "\n"


def counters() -> str:
    """Four states and two memories of 16 values each, whose guards speak of the memories: one state remains."""
    lines = ["chart 1", "input x 0 100", "input y 0 100", "input z 0 100", "output o 0", "memory m 0 15 0",
             "memory n 0 15 0", "state S0 start", "state S1", "state S2", "state S3"]
    for i in range(4):
        lines += [f"on S{i} when x >= 50 and (y >= 3*m or n >= 3) do n = n + 1",
                  f"on S{i} when x >= 20 and y - z < 5*m - 40 do m = m + 1",
                  f"on S{i} when x >= 20 and n + m >= 5 and z >= 7 do n = n - 2",
                  f"on S{i} when x >= 10 go S{(i + 1) % 4}",
                  f"on S{i} when x >= 5 do m = m - 1"]
    return "\n".join(lines) + "\n"


# what the row shows, the chart, the bound, the cuts
ROWS = [
    ("1,024 configurations, 1,235 classes, rank 1", counters(), 1, cuts()),
    ("two states and 3 classes, bound 12", SMALL, 12, cuts()),
    ("18 states and 35 classes, bound 19", stairs(18), 19, cuts()),
    ("one state and 2,562 classes, bound 2", FLAT, 2, cuts(a=60, b=41)),
    ("one state and 6 classes, bound 8", LINE, 8, cuts(a=4)),
]


def measured(program: str, folder: pathlib.Path, chart: str, bound: int, text: str) -> dict[str, str]:
    """What the program tells of a chart, a bound and cuts, by the first word of its lines."""
    (folder / "chart").write_text(chart)
    (folder / "cuts").write_text(text)
    words = [program, str(folder / "chart"), str(bound), str(folder / "cuts")]
    told = subprocess.run(words, stdout=subprocess.DEVNULL, stderr=subprocess.PIPE, text=True, check=True).stderr
    lines = [line.split() for line in told.splitlines()]
    return {line[0].rstrip(":"): " ".join(line[1:]) for line in lines if line}


def main() -> None:
    with tempfile.TemporaryDirectory() as name:
        folder = pathlib.Path(name)
        program = built(with_program(folder, f"{USES} {MORE}", PROGRAM))
        print("| suite | tests | explore ms | reduce ms | make ms, in all | write ms | peak KiB |")
        print("|---|---|---|---|---|---|---|")
        for text, chart, bound, cut in ROWS:
            runs = [measured(program, folder, chart, bound, cut) for _ in range(3)]
            best = [min(int(run[stage].split()[1]) for run in runs) / 1e3 for stage in ("explore", "reduce", "make", "write")]
            tests = int(runs[0]["write"].split()[0])
            print(f"| {text} | {tests:,} | " + " | ".join(f"{ms:.1f}" for ms in best) + f" | {peak_of(runs[0]):,} |")


if __name__ == "__main__":
    main()
