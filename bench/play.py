#!/usr/bin/env python3
"""Measures `classtest play` on large flat charts and words: python3 bench/play.py

It builds the program once (rt run in crates/classtest, with all proofs), makes its charts and words in a temporary
folder, and prints a table of whole runs of the program, reading and printing included. It needs the kit alone.
"""
import subprocess
import sys
import tempfile
import time
from pathlib import Path

TOP = Path(__file__).resolve().parent.parent
CRATE = TOP / "crates" / "classtest"
MOST_BYTES = 262_144


def chart(transitions):
    """A flat chart of one busy state: only the last written of its transitions is ever enabled."""
    lines = ["chart 1", "input v 0 9", "output o 0", "state S start"]
    lines += ["on S when v > 9 do o = 1"] * (transitions - 1)
    lines += ["on S when v >= 0 do o = 2"]
    return "\n".join(lines) + "\n"


def ring(states):
    """A flat chart whose states go round, with as many transitions in each state as fit."""
    lines = ["chart 1", "input v 0 9", "output o 0", "state s0 start"]
    lines += [f"state s{i}" for i in range(1, states)]
    for i in range(states):
        lines += [f"on s{i} when v > 9 do o = 1"] * (256 // states - 1)
        lines += [f"on s{i} do o = {i} go s{(i + 1) % states}"]
    return "\n".join(lines) + "\n"


def seconds(program, chart_file, word_file):
    best, out = None, b""
    for _ in range(5):
        start = time.monotonic()
        done = subprocess.run([program, "play", chart_file, word_file], capture_output=True, check=True)
        took = time.monotonic() - start
        best, out = (took if best is None else min(best, took)), done.stdout
    return best, out


def main():
    subprocess.run(["rt", "run", "--", "play", "data/speed.chart", "data/speed.word"], cwd=CRATE, check=True,
                   stdout=sys.stderr)
    program = str(CRATE / "out" / "classtest")
    rows = [("1 transition", chart(1)), ("16 transitions", chart(16)), ("256 transitions", chart(256)),
            ("64 states, 256 transitions", ring(64))]
    print("| chart | steps | milliseconds | ns a step |")
    print("|---|---|---|---|")
    with tempfile.TemporaryDirectory() as folder:
        for name, text in rows:
            for steps in (8_192, 65_536, MOST_BYTES // 2):
                chart_file, word_file = Path(folder) / "chart", Path(folder) / "word"
                chart_file.write_text(text)
                word_file.write_text("5\n" * steps)
                took, out = seconds(program, str(chart_file), str(word_file))
                assert out.count(b"\n") == steps
                print(f"| {name} | {steps:,} | {took * 1e3:.1f} | {took * 1e9 / steps:.0f} |")


main()
