#!/usr/bin/env python3
"""Times the atoms of a chart with 256 guards of 64 comparisons each, for all 256 values of its memory:
python3 bench/atoms.py

The program below is written into a temporary copy of the crates guard_atoms and chart_syntax and of those below them,
proved and built there by `rt run`. Each row is run ten times; the best time counts. It is no part of the gate. It needs
the kit's `rt` and Linux.
"""

import pathlib
import tempfile

from timing import built, facts_of, peak_of, with_program

PROGRAM = """\
// Times the atoms of the chart in a file.
#![tactic(auto)]

use chart_model::Cuts;
use chart_syntax::read_chart;
use guard_atoms::atoms_of;
use std::env;
use std::fs;
use std::io;
use std::time::Instant;

fn main(rt: HostRuntime) -> io::Result<()> {
    let mut args = env::args(&rt)?;
    let _program = args.next();
    let Some(file) = args.next() else {
        return Ok(());
    };
    let text = fs::read(&rt, file.as_str())?;
    let Ok(chart) = read_chart(rt.alloc(), text.as_slice()) else {
        return println!(rt; "answer no chart");
    };
    let cuts = Cuts::none(rt.alloc());
    let start = Instant::now(&rt)?;
    let answer = atoms_of(rt.alloc(), &chart, &cuts);
    let nanos = start.elapsed(&rt)?.as_nanos();
    match answer {
        Ok(atoms) => {
            let count = atoms.as_slice().len();
            println!(rt; "answer {count} atoms")?;
        }
        Err(error) => println!(rt; "answer {error}")?,
    }
    println!(rt; "nanos {nanos}")?;
    let status = fs::read_to_string(&rt, "/proc/self/status")?;
    println!(rt; "{status}")
}
"""

RUNS = 10
USES = (
    "guard_atoms chart_meaning subject input_classes chart_syntax chart_model line_forms line_tokens lin_form"
    " sqlite_items"
)
FRONT = "chart 1\ninput v 0 9\ninput w 0 9\noutput o 0\nmemory z 0 255 0\nstate S start\n"


def guards(comparison, each=64, count=256):
    """So many transitions, each with so many of a comparison."""
    line = "on S when " + " or ".join([comparison] * each) + "\n"
    return FRONT + line * count


def charts():
    """The comparison of each row: with the memory, with `=`, whose atoms are two, and without the memory."""
    yield "256 values, >=", guards("9*v+z>=0")
    yield "256 values, =", guards("9*v+z=0")
    yield "no memory", guards("9*v+w>=0")
    yield "129th atom", guards("v+z>=0")


def main():
    with tempfile.TemporaryDirectory() as folder:
        top = pathlib.Path(folder)
        program = built(with_program(top, USES, PROGRAM))
        for name, text in charts():
            file = top / "chart"
            file.write_text(text)
            runs = [facts_of(program, str(file)) for _ in range(RUNS)]
            best = min(int(run.get("nanos", 0)) for run in runs)
            print(f"{name:16} {runs[0]['answer']:24} {best / 1e6:10.3f} ms {peak_of(runs[0]):8} KiB")


if __name__ == "__main__":
    main()
