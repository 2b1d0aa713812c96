#!/usr/bin/env python3
"""Times the steps of charts: python3 bench/steps.py

The program below is written into a temporary copy of the crates chart_meaning and chart_syntax and of those below them,
proved and built there by `rt run`. It goes round a word of a chart again and again, and is run in four ways for each row:
a new configuration for each step (`step`), the same one changed in place (`go_on`), and all vectors from one configuration,
with `==` against the configuration and reply before (`alike`), and with a look in the tables of configurations and replies
(`entered`, which hashes both). Each is timed in many short bursts, of which the best counts, so that other work on the
machine matters little. It is no part of the gate. It needs the kit's `rt` alone; `python3 bench/steps.py PROGRAM` runs a
program that was built before.
"""

import pathlib
import subprocess
import sys
import tempfile

from timing import built, with_program

PROGRAM = """\
// Times the steps of a chart in 2000 bursts. The arguments are the way, the chart's file, the word's file and the number of
// rounds in a burst.
#![tactic(auto)]

ghost use Rattle.std.specs.List.{All};
ghost use Rattle.lin_form.specs.Signature.{IsInInputRanges};
ghost use Rattle.chart_meaning.specs.IsConfiguration.{IsConfiguration};

use chart_meaning::{ChartPlan, Config};
use chart_syntax::{read_chart, read_word};
use indexmap::IndexSet;
use lin_form::{Reply, Vector};
use std::alloc::Global;
use std::env;
use std::fs;
use std::io;
use std::time::Instant;

// Steps, each to a new configuration.
fn step(plan: &ChartPlan, config: &Config, word: &[Vector]) -> Config
    requires configuration { IsConfiguration plan.now config.now }
    requires word { All (IsInInputRanges plan.now.signature.inputs) word.now }
    ensures { IsConfiguration plan.now result }
{
    let mut config = *config;
    for vector in word {
        config = plan.step(&config, vector).state;
    }
    config
}

// The same in place.
fn go_on(plan: &ChartPlan, config: &mut Config, word: &[Vector])
    requires configuration { IsConfiguration plan.now config.old }
    requires word { All (IsInInputRanges plan.now.signature.inputs) word.now }
    ensures { IsConfiguration plan.now config.new }
{
    for vector in word {
        plan.go_on(config, vector);
    }
}

// All vectors from one configuration: how often the step is as the one before.
fn alike(plan: &ChartPlan, config: &Config, word: &[Vector]) -> u64
    requires configuration { IsConfiguration plan.now config.now }
    requires word { All (IsInInputRanges plan.now.signature.inputs) word.now }
{
    let mut count: u64 = 0;
    let Some(first) = word.first() else {
        return 0;
    };
    let mut before = plan.step(config, first);
    for vector in word {
        let step = plan.step(config, vector);
        if step.state == before.state && step.reply == before.reply {
            count = count.wrapping_add(1);
        }
        before = step;
    }
    count
}

// All vectors from one configuration, with configurations and replies in tables.
fn entered(
    plan: &ChartPlan,
    config: &Config,
    word: &[Vector],
    states: &mut IndexSet<Config>,
    replies: &mut IndexSet<Reply>,
) -> io::Result<()>
    requires configuration { IsConfiguration plan.now config.now }
    requires word { All (IsInInputRanges plan.now.signature.inputs) word.now }
{
    for vector in word {
        let step = plan.step(config, vector);
        states.insert_full(step.state)?;
        replies.insert_full(step.reply)?;
    }
    Ok(())
}

fn run_steps(plan: &ChartPlan, word: &[Vector], rounds: u64) -> Config
    requires word { All (IsInInputRanges plan.now.signature.inputs) word.now }
{
    let mut config = plan.start();
    for _ in 0..rounds {
        config = step(plan, &config, word);
    }
    config
}

fn run_on(plan: &ChartPlan, word: &[Vector], rounds: u64) -> Config
    requires word { All (IsInInputRanges plan.now.signature.inputs) word.now }
{
    let mut config = plan.start();
    for _ in 0..rounds {
        go_on(plan, &mut config, word);
    }
    config
}

fn run_alike(plan: &ChartPlan, word: &[Vector], rounds: u64) -> u64
    requires word { All (IsInInputRanges plan.now.signature.inputs) word.now }
{
    let config = plan.start();
    let mut count: u64 = 0;
    for _ in 0..rounds {
        count = count.wrapping_add(alike(plan, &config, word));
    }
    count
}

fn run_entered(alloc: Global, plan: &ChartPlan, word: &[Vector], rounds: u64) -> io::Result<u64>
    requires word { All (IsInInputRanges plan.now.signature.inputs) word.now }
{
    let config = plan.start();
    let mut states = IndexSet::new(alloc);
    let mut replies = IndexSet::new(alloc);
    for _ in 0..rounds {
        entered(plan, &config, word, &mut states, &mut replies)?;
    }
    Ok(states.len() as u64)
}

fn run(alloc: Global, way: &str, plan: &ChartPlan, word: &[Vector], rounds: u64) -> io::Result<u64>
    requires word { All (IsInInputRanges plan.now.signature.inputs) word.now }
{
    if way == "alike" {
        return Ok(run_alike(plan, word, rounds));
    }
    if way == "entered" {
        return run_entered(alloc, plan, word, rounds);
    }
    let config = if way == "step" { run_steps(plan, word, rounds) } else { run_on(plan, word, rounds) };
    Ok(if config == plan.start() { 1 } else { 0 })
}

fn time(rt: &HostRuntime, way: &str, plan: &ChartPlan, word: &[Vector], rounds: u64) -> io::Result<()>
    requires word { All (IsInInputRanges plan.now.signature.inputs) word.now }
{
    for _ in 0..2000 {
        let start = Instant::now(rt)?;
        let count = run(rt.alloc(), way, plan, word, rounds)?;
        let nanos = start.elapsed(rt)?.as_nanos();
        println!(rt; "{nanos} {count}")?;
    }
    Ok(())
}

fn read_and_time(rt: &HostRuntime, way: &str, chart: &str, word: &str, rounds: u64) -> io::Result<()> {
    let alloc = rt.alloc();
    let text = fs::read(rt, chart)?;
    let Ok(chart) = read_chart(alloc, text.as_slice()) else {
        return println!(rt; "no chart");
    };
    let text = fs::read(rt, word)?;
    let Ok(word) = read_word(alloc, text.as_slice(), &chart) else {
        return println!(rt; "no word");
    };
    let plan = ChartPlan::new(alloc, chart)?;
    time(rt, way, &plan, word.as_slice(), rounds)
}

fn main(rt: HostRuntime) -> io::Result<()> {
    let mut args = env::args(&rt)?;
    let _program = args.next();
    let (Some(way), Some(chart), Some(word), Some(rounds)) = (args.next(), args.next(), args.next(), args.next()) else {
        return Ok(());
    };
    let Ok(rounds) = rounds.as_str().parse::<u64>() else {
        return Ok(());
    };
    read_and_time(&rt, way.as_str(), chart.as_str(), word.as_str(), rounds)
}
"""

INVARIANTS = """use Rattle.chart_meaning.specs.IsConfiguration.{{IsConfiguration}}
use Rattle.timing.proofs.{name}.Given as goal

abbrev pub invariant-{loop} : goal.invariant-{loop}
invariant-{loop} l = IsConfiguration l.plan l.config
"""

USES = (
    "chart_meaning subject chart_syntax chart_model line_forms line_tokens lin_form input_classes sqlite_items indexmap"
)

WAYS = ("step", "go_on", "alike", "entered")

FRONT = "chart 1\ninput v 0 300\ninput w 0 300\noutput warn 0\noutput brake 0\nmemory z 0 0 0\n"

# v is the speed and w the limit
MONITOR = """chart 1
input v 0 300
input w 0 300
output warn 0
output brake 0
state Off start
state Above
state Warning
state Braking
on Off when v - w > 100 do warn = 1, brake = 1 go Braking
on Off when v - w > 50 do warn = 1 go Warning
on Off when v - w > 0 go Above
on Above when v - w > 100 do warn = 1, brake = 1 go Braking
on Above when v - w > 50 do warn = 1 go Warning
on Above when v - w <= 0 go Off
on Warning when v - w > 100 do brake = 1 go Braking
on Warning when v - w <= 0 do warn = 0 go Off
on Braking when v = 0 do warn = 0, brake = 0 go Off
"""

WORD = "200 50\n0 50\n51 50\n50 50\n"

# tests over both inputs and the memory, of which the first is always true and the other never is
ALWAYS = "v + w + z >= 0"
NEVER = "v + w + z < 0"


def ends(kind: str, number: int) -> tuple[int, int]:
    """The source and the target of a transition in a chart of 64 states."""
    state = number // 4 % 64
    if kind == "busy":
        return 0, 0
    if kind == "ring":
        return state, (state + 1) % 64
    if kind == "deep":
        return state, state
    return number // 32 % 8, number // 32 % 8


def large(kind: str) -> str:
    """64 states with 256 transitions. Those of the state 0 come last of all, and of these the last alone is enabled; of a
    ring each state's last is. Of a guard of 64 comparisons the last alone is not true, which is looked at last."""
    deep = kind in ("deep", "chain")
    text = FRONT
    for state in range(64):
        inside = "" if state == 0 or not deep else f" in S{min(state - 1, 6)}"
        text += f"state S{state}{inside}" + (" start\n" if state == 0 or deep and state <= 7 else "\n")
    for state in range(64):
        text += f"entry S{state} do warn = z + 1\nexit S{state} do brake = z\n"
    for number in reversed(range(256)):
        source, target = ends(kind, number)
        enabled = number == 0 or kind == "ring" and number % 4 == 0
        tests = [ALWAYS] * (63 if deep else 0) + [ALWAYS if enabled else NEVER]
        text += f"on S{source} when {' and '.join(tests)} do brake = z go S{target}\n"
    return text


def wide() -> str:
    """64 states with 4 memories and 8 outputs: each step goes to the next state, counts in each memory, and gives each
    output a sum of them."""
    text = "chart 1\n" + "".join(f"input i{k} 0 300\n" for k in range(6)) + "".join(f"output o{k} 0\n" for k in range(8))
    text += "".join(f"memory m{k} 0 {3 if k else 2} 0\n" for k in range(4))
    text += "".join(f"state S{state}" + (" start\n" if state == 0 else "\n") for state in range(64))
    some = " + ".join(f"i{k}" for k in range(6)) + " + m0 + m1 + m2 + m3"
    acts = [f"m{k} = m{k} + 1" for k in range(4)] + [f"o{k} = {k}*m0 + m1 - m2 + m3" for k in range(8)]
    for state in range(64):
        text += f"on S{state} when {some} >= 0 do {', '.join(acts)} go S{(state + 1) % 64}\n"
    return text


def history() -> str:
    """64 states, of which 28 remember their last child: a ring of two children in each of them, and a way out and back."""
    text = "chart 3\ninput v 0 300\ninput w 0 300\noutput o 0\n"
    text += "".join(f"state P{p}" + (" start\n" if p == 0 else "\n") for p in range(21))
    for p in range(21):
        text += f"state A{p} in P{p} start\nstate B{p} in P{p}\n"
    for p in range(21):
        text += f"on A{p} when v > w go B{p}\non B{p} when v > w go A{p}\n"
        text += f"on P{p} when v <= w do o = {p} go P{(p + 1) % 21} history\n"
    return text


def rows():
    """The chart, the word, the number of rounds and what the row shows."""
    yield MONITOR, WORD, 300, "the speed monitor, two guards a step"
    yield large("ring"), WORD, 300, "flat, 64 states with 4 transitions each"
    yield large("busy"), WORD, 10, "flat, one state with 256 transitions, of which the last is enabled"
    yield wide(), "1 2 3 4 5 6\n" * 4, 100, "flat, 6 inputs, 64 states, 4 memories and 8 outputs, 12 actions a step"
    yield history(), WORD, 300, "63 states, 21 of them with history"
    yield large("deep"), WORD, 10, "64 states at depth 8, 256 transitions, 64 comparisons a guard: 32 guards a step"
    yield large("chain"), WORD, 1, "the same with all transitions from the active states: 256 guards a step"


def program_in(top: pathlib.Path) -> str:
    """Builds the program in a folder, and gives its path."""
    here = with_program(top, USES, PROGRAM)
    for name, loop in (("step", "loop-vector"), ("go_on", "loop-vector"), ("run_steps", "loop"), ("run_on", "loop")):
        (here / "proofs" / name).mkdir(parents=True)
        (here / "proofs" / name / "Invariants.antt").write_text(INVARIANTS.format(name=name, loop=loop))
    return built(here)


def best(program: str, way: str, top: pathlib.Path, rounds: int, steps: int) -> float:
    """The nanoseconds of a step in the best of many bursts."""
    words = [program, way, str(top / "chart"), str(top / "word"), str(rounds)]
    told = subprocess.run(words, capture_output=True, text=True, check=True).stdout
    return min(int(line.split()[0]) for line in told.splitlines()) / (steps * rounds)


def main() -> None:
    with tempfile.TemporaryDirectory() as folder:
        top = pathlib.Path(folder)
        program = sys.argv[1] if len(sys.argv) > 1 else program_in(top)
        print("| chart | " + " | ".join(WAYS) + " |")
        print("|---|" + "---|" * len(WAYS))
        for chart, word, rounds, text in rows():
            (top / "chart").write_text(chart)
            (top / "word").write_text(word)
            steps = len(word.splitlines())
            cells = [best(program, way, top, rounds, steps) for way in WAYS]
            print(f"| {text} | " + " | ".join(f"{cell:,.1f}" for cell in cells) + " |", flush=True)


if __name__ == "__main__":
    main()
