#!/usr/bin/env python3
"""A small test bench: runs a printed suite against a program of yours, and prints the verdict as `replay` does.

    examples/bench.py SUITE COMMAND...

COMMAND is started anew for each test; that is the reset. On standard input it gets the test's vectors, one a line, and on
standard output it gives one reply a line. For another device write `replies` anew. To try it, with the program itself:

    classtest suite monitor.chart 3 none > monitor.suite
    examples/bench.py monitor.suite classtest play wrong_brake.chart -

The status is 0 for a pass, 1 where a reply differs, 3 where the suite cannot be read or is not whole, and 5 where the
device failed: it did not start, did not end within a minute, ended with a status other than 0, or did not give a line of
numbers for each vector.
"""
import pathlib, subprocess, sys


def replies(command, vectors):
    """Resets the device, feeds it the vectors in order, and gives its replies, each a list of numbers."""
    text = "".join(" ".join(map(str, v)) + "\n" for v in vectors)
    out = subprocess.run(command, input=text, stdout=subprocess.PIPE, text=True, check=True, timeout=60).stdout
    return [numbers(line) for line in out.splitlines()]


def numbers(text):
    return [int(word) for word in text.split()]


def run(suite, command):
    try:
        lines = pathlib.Path(suite).read_text().splitlines()
    except (OSError, ValueError) as fault:
        print(fault, file=sys.stderr)
        return 3
    tests = []
    for line in lines:
        if line.startswith("test "):
            tests.append([])
        elif " / " in line:
            tests[-1].append([numbers(part) for part in line.split(" / ")])
    if not tests or lines[-1] != f"end {len(tests)}":
        print(f"{suite}: no whole suite", file=sys.stderr)
        return 3
    for number, test in enumerate(tests, 1):
        try:
            given = replies(command, [vector for vector, _ in test])
            if len(given) != len(test):
                raise ValueError(f"{len(given)} replies to {len(test)} vectors")
        except (OSError, ValueError, subprocess.SubprocessError) as fault:
            print(f"test {number}: {fault}", file=sys.stderr)
            return 5
        for step, ((_, expected), got) in enumerate(zip(test, given), 1):
            if got != expected:
                print(f"fail test {number} step {step}")
                for vector, _ in test[:step]:
                    print("in", *vector)
                print("expected", *expected)
                print("got", *got)
                return 1
    print("pass")
    return 0


if len(sys.argv) < 3:
    print(__doc__, file=sys.stderr)
    sys.exit(2)
sys.exit(run(sys.argv[1], sys.argv[2:]))
