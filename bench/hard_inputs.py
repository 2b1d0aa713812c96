#!/usr/bin/env python3
"""The dearest accepted texts that are known for each command, with what they take.

    bench/hard_inputs.py PROGRAM [STACK_KIB]

Each row is one run of the built program: its status, its time and its peak memory, in the form of a table. With a number the
program gets a stack of so many KiB (`ulimit -s`). A run is ended after 300 seconds, with the status -9. It is no part of the
gate. It needs Linux.
"""
import itertools
import os
import pathlib
import random
import resource
import subprocess
import sys
import tempfile
import threading
import time

LIMIT = 262_144
SUITE_LIMIT = 16_777_216
SECONDS = 300

SMALL = """chart 1
input v 0 10
output alarm 0
state Low start
state High
on Low when v >= 8 do alarm = 1 go High
on High when v <= 5 do alarm = 0 go Low
"""


def cuts(lines) -> str:
    return "cuts 1\n" + "".join(f"cut {line}\n" for line in lines)


def one_state(inputs: str, low: int, high: int) -> str:
    """A chart of one state whose reply never changes."""
    named = "".join(f"input {name} {low} {high}\n" for name in inputs)
    return f"chart 1\n{named}output o 0\nstate S start\n"


def scanned_word() -> str:
    """The longest word: a vector of one number on each line."""
    return "9\n" * (LIMIT // 2)


def flat_chart(transitions: int) -> str:
    """One state whose last transition alone is enabled."""
    lines = "".join(f"on S when v = {k + 10} do o = {k}\n" for k in range(transitions - 1))
    return f"chart 1\ninput v 0 9\noutput o 0\nstate S start\n{lines}on S do o = 1\n"


def deep_chart() -> str:
    """64 states at depth 8 and 249 transitions, of which 192 have a guard of 64 comparisons, false at the one looked at last."""
    head = "chart 1\n" + "".join(f"input {name} 0 1000000\n" for name in "abcdef") + "output o 0\n"
    states = ["state S0 start"] + [f"state S{i} in S{i - 1} start" for i in range(1, 8)]
    states += [f"state S{i} in S6" for i in range(8, 64)]
    guard = "a < 0" + "".join(f" and {'abcdef'[k % 6]} >= 0" for k in range(63))
    lines = [f"on S{k % 8} when {guard} do o = {k}" for k in range(192)]
    lines += [f"on S{k} when a >= {210000 if k % 2 else 390000} go S{7 + (k - 6) % 57}" for k in range(7, 64)]
    return head + "\n".join(states + lines) + "\n"


def ladder(states: int) -> str:
    """A chart of one input whose states are told apart by words of many letters: only the last one replies otherwise."""
    lines = ["chart 1", "input v 0 0", "output o 0", "state s0 start"] + [f"state s{i}" for i in range(1, states)]
    lines += [f"on s{i} do o = 0 go s{i + 1}" for i in range(states - 1)] + [f"on s{states - 1} do o = 1 go s0"]
    return "\n".join(lines) + "\n"


def memory_ring(values: int, last: int) -> str:
    """Four states with a memory of so many values: the configurations of a ring, of which only one replies otherwise."""
    lines = ["chart 1", "input x 0 9", "output o 0", f"memory n 0 {values - 1} 0", "state S0 start"]
    lines += [f"state S{i}" for i in range(1, 4)]
    for i in range(4):
        lines += [f"on S{i} when x = 0 do n = n + 1", f"on S{i} when x = 1 go S{(i + 1) % 4}"]
    return "\n".join(lines + [f"on S0 when x = 9 and n >= {last} do o = 1"]) + "\n"


def greatest(last: int) -> str:
    """1,024 configurations over six inputs; with the cuts below, 4,096 classes."""
    text = "chart 1\n" + "".join(f"input {name} 0 1000000\n" for name in "abcdef")
    text += "output o 0\nmemory n 0 127 0\nstate S0 start\n" + "".join(f"state S{i}\n" for i in range(1, 4))
    for i in range(4):
        text += f"on S{i} when a >= 610000 and b >= 610000 do n = n + 1\n"
        text += f"on S{i} when c >= 610000 and (d < 210000 or e < 210000) go S{(i + 1) % 4}\n"
        text += f"on S{i} when f >= 390000 and not (a >= 210000) do n = n - 1\n"
    return text + f"on S0 when n >= {last} and f < 210000 do o = 1\n"


def stairs(states: int, step: int) -> str:
    """The chart that `gen` makes, with so many states."""
    lines = ["chart 1", f"input v 0 {10 * states}", "output o 0", "state s0 start"] + [f"state s{i}" for i in range(1, states)]
    for i in range(states - 1):
        lines.append(f"on s{i} when v >= {10 * (i + 1)} do o = {i + 1} go s{i + 1}")
        lines.append(f"on s{i + 1} when v < {10 * (i + 1) - step} do o = {i} go s{i}")
    return "\n".join(lines) + "\n"


def wide_table() -> str:
    """A table of 1,024 states and 4,096 rows that answers as the chart of one state below does."""
    lines = ["table 1", "input a 0 9", "output o"] + [f"state T{i} gives 0" for i in range(1024)]
    for i in range(1024):
        high, low = (2 * i + 1) % 1024, 2 * i % 1024
        lines += [f"row T{i} when a >= 9 gives 1 go T{high}", f"row T{i} when a >= 5 gives 1 go T{high}",
                  f"row T{i} when a >= 2 gives 0 go T{low}", f"row T{i} gives 0 go T{low}"]
    return "\n".join(lines) + "\n"


def suite_of_small(shuffled: bool) -> str:
    """A suite's text of nearly 16 MB for the alarm, with its tests in order or in none."""
    vectors = [0, 6, 8]
    head = ("suite 1\ninput v 0 10\noutput alarm\nbound 12\nstates 2\nclass 0\nclass 6\nclass 8\ncover\ncover 3\nmark 2\n")
    size, tests = len(head), []
    for word in itertools.product((0, 1, 2), repeat=12):
        state, lines = 0, ["test " + " ".join(str(letter + 1) for letter in word + (1,))]
        for letter in word + (1,):
            vector = vectors[letter]
            state = 1 if vector >= 8 else 0 if vector <= 5 else state
            lines.append(f"{vector} / {state}")
        text = "\n".join(lines) + "\n"
        if size + len(text) > SUITE_LIMIT - 20:
            break
        size += len(text)
        tests.append(text)
    if shuffled:
        random.Random(7).shuffle(tests)
    return head + "".join(tests) + f"end {len(tests)}\n"


FLAT_CUTS = cuts([f"a >= {k}" for k in range(1, 61)] + [f"b >= {k}" for k in range(1, 42)])
SIX_CUTS = cuts(f"{name} >= {k}" for name in "abcdef" for k in (210000, 390000, 610000))
PAIRS = cuts([f"a - b >= {8700 * k}" for k in range(-30, 31)] + [f"c - d >= {8700 * k}" for k in range(-30, 31)])
PARITY = cuts(["a + b - 2*c = 0", "a - b - 2*d = 1"])
EQUATIONS = cuts(["91*a - 77*b + 13*c = 7", "55*a + 79*b - 33*c = 100"])
ONE_LINE = ("chart 1\ninput a 0 9\noutput o 0\nstate S start\non S when a >= 5 do o = 1\non S do o = 0\n")

TEXTS = {
    "flat.chart": lambda: flat_chart(256), "long.word": scanned_word, "small.chart": lambda: SMALL,
    "deep.chart": deep_chart, "six.cuts": lambda: SIX_CUTS, "six.chart": lambda: one_state("abcdef", 0, 1_000_000),
    "pairs.cuts": lambda: PAIRS, "parity.chart": lambda: one_state("abcd", 0, 256), "parity.cuts": lambda: PARITY,
    "far.chart": lambda: one_state("abcd", 0, 1_000_000),
    "wide.chart": lambda: one_state("abc", -1_000_000, 1_000_000), "equations.cuts": lambda: EQUATIONS,
    "greatest.chart": lambda: greatest(127), "ring.chart": lambda: memory_ring(256, 255), "ladder.chart": lambda: ladder(64),
    "plane.chart": lambda: "chart 1\ninput a 0 60\ninput b 0 60\noutput o 0\nstate S start\non S when a >= 61 do o = 1\n",
    "plane.cuts": lambda: FLAT_CUTS, "line.chart": lambda: ONE_LINE, "wide.table": wide_table,
    "in_order.suite": lambda: suite_of_small(False), "shuffled.suite": lambda: suite_of_small(True),
    "stairs.chart": lambda: stairs(39, 1),
}

# what the row shows, the words
ROWS = [
    ("131,072 steps of a chart with 256 transitions, of which the last is enabled", "play flat.chart long.word"),
    ("4,096 classes of six inputs", "classes six.chart six.cuts"),
    ("122 atoms in two families of differences", "classes six.chart pairs.cuts"),
    ("what only parity refutes, numbers to 256", "classes parity.chart parity.cuts"),
    ("the same, numbers to 1,000,000", "classes far.chart parity.cuts"),
    ("two equations over three wide inputs", "classes wide.chart equations.cuts"),
    ("64 states at depth 8, 192 guards of 64 comparisons, 4,096 classes", "suite deep.chart 1 six.cuts"),
    ("1,024 configurations and 4,096 classes", "suite greatest.chart 1 six.cuts"),
    ("a ring of 1,024 configurations, told apart by one of them", "suite ring.chart 1 none"),
    ("a ring of 64 states, whose marks are longest", "suite ladder.chart 64 none"),
    ("2,562 classes and the bound 2, nearly 20,000,000 steps", "suite plane.chart 2 plane.cuts"),
    ("the same, run against itself", "run plane.chart 2 plane.cuts plane.chart"),
    ("the same as JSON", "json plane.chart 2 plane.cuts plane.chart"),
    ("the bound 18 against 1,024 states and 4,096 rows", "run line.chart 18 none wide.table"),
    ("the generated chart of 39 states against itself", "run stairs.chart 39 none stairs.chart"),
    ("a suite of 16 MB in order", "replay in_order.suite small.chart"),
    ("the same, shuffled", "replay shuffled.suite small.chart"),
    ("the chart made from 37", "gen 37"),
]


def run(program: str, words: list[str], folder: pathlib.Path, stack: int | None) -> tuple[int, float, int]:
    """The status of a run, its seconds, and its peak memory in MiB."""
    def limited() -> None:
        if stack is not None:
            resource.setrlimit(resource.RLIMIT_STACK, (stack * 1024, stack * 1024))
    start = time.perf_counter()
    child = subprocess.Popen([program] + words, cwd=folder, stdin=subprocess.DEVNULL, stdout=subprocess.DEVNULL,
                             stderr=subprocess.DEVNULL, preexec_fn=limited)
    killer = threading.Timer(SECONDS, child.kill)
    killer.start()
    _, status, used = os.wait4(child.pid, 0)
    killer.cancel()
    child.returncode = os.waitstatus_to_exitcode(status)
    return child.returncode, time.perf_counter() - start, used.ru_maxrss // 1024


def main() -> None:
    program = str(pathlib.Path(sys.argv[1]).resolve())
    stack = int(sys.argv[2]) if len(sys.argv) > 2 else None
    with tempfile.TemporaryDirectory() as name:
        folder = pathlib.Path(name)
        for text, made in TEXTS.items():
            (folder / text).write_text(made())
        print("| text | words | status | seconds | peak MiB |")
        print("|---|---|---|---|---|")
        for shown, words in ROWS:
            status, seconds, peak = run(program, words.split(), folder, stack)
            print(f"| {shown} | `{words}` | {status} | {seconds:.2f} | {peak} |", flush=True)


if __name__ == "__main__":
    main()
