#!/usr/bin/env python3
"""The classes of two and three equations over wide inputs, with what they take.

    bench/equations.py PROGRAM

Each of the 21 lists is drawn from a seed. Of each class that the program prints, the witness is looked at here: it lies in
the box and has the pattern. Of each other pattern that fixes so many forms that the vectors left lie on a line, in a point or
nowhere, it is found out here by whole numbers whether it is empty. The rest of the patterns are counted as `open`: that they
are empty is what the program's proof says. A run is ended after 60 seconds. It is no part of the gate.
"""
import itertools
import math
import pathlib
import random
import subprocess
import sys
import tempfile
import time

REACH = 1_000_000
SECONDS = 60
# equations, inputs, the greatest coefficient
KINDS = [(3, 3, 999), (3, 4, 99), (2, 4, 999), (3, 6, 9), (3, 2, 999_999), (2, 3, 999_999), (2, 5, 99)]
NAMES = "abcdef"


def drawn(kind: tuple[int, int, int], seed: int) -> list[tuple[list[int], int]]:
    """Coefficients and a number for each equation."""
    equations, inputs, most = kind
    dice = random.Random(f"{kind} {seed}")
    rows = []
    while len(rows) < equations:
        row = [dice.randint(-most, most) for _ in range(inputs)]
        if any(row):
            rows.append((row, dice.randint(-50, 50)))
    return rows


def sides(rows: list[tuple[list[int], int]], vector: list[int]) -> tuple[int, ...]:
    """For each equation whether the left side is below (-1), equal (0) or above (1)."""
    values = [sum(a * x for a, x in zip(row, vector)) - number for row, number in rows]
    return tuple((value > 0) - (value < 0) for value in values)


def solved(rows: list[tuple[list[int], int]], inputs: int) -> tuple[list[int], list[list[int]]] | None:
    """One vector of whole numbers on which all equations hold, and a basis of the differences; none if there is none."""
    columns = [[row[place] for row, _ in rows] + [int(place == k) for k in range(inputs)] for place in range(inputs)]
    left = [number for _, number in rows]
    start, first = [0] * inputs, 0
    for k in range(len(rows)):
        while sum(column[k] != 0 for column in columns[first:]) > 1:
            least = min((c for c in columns[first:] if c[k] != 0), key=lambda c: abs(c[k]))
            for column in columns[first:]:
                if column is not least and column[k] != 0:
                    times = column[k] // least[k]
                    column[:] = [x - times * y for x, y in zip(column, least)]
        place = next((i for i in range(first, inputs) if columns[i][k] != 0), None)
        if place is None:
            if left[k] != 0:
                return None
            continue
        columns[first], columns[place] = columns[place], columns[first]
        times, rest = divmod(left[k], columns[first][k])
        if rest != 0:
            return None
        left = [number - times * x for number, x in zip(left, columns[first])]
        start = [x + times * y for x, y in zip(start, columns[first][len(rows):])]
        first += 1
    return start, [column[len(rows):] for column in columns[first:]]


def is_empty(rows: list[tuple[list[int], int]], pattern: tuple[int, ...], inputs: int) -> bool | None:
    """Whether no vector of the box has these sides, where that is a question of one number."""
    found = solved([row for row, side in zip(rows, pattern) if side == 0], inputs)
    if found is None:
        return True
    start, basis = found
    if len(basis) > 1:
        return None
    step = basis[0] if basis else [0] * inputs
    low, high = -10**30, 10**30
    # constant + slope * t >= 0
    bounds = [(x + REACH, s) for x, s in zip(start, step)] + [(REACH - x, -s) for x, s in zip(start, step)]
    for (row, number), side in zip(rows, pattern):
        if side != 0:
            value = sum(a * x for a, x in zip(row, start)) - number
            bounds.append((side * value - 1, side * sum(a * s for a, s in zip(row, step))))
    for constant, slope in bounds:
        if slope == 0 and constant < 0:
            return True
        if slope > 0:
            low = max(low, -(constant // slope))
        if slope < 0:
            high = min(high, constant // -slope)
    return low > high


def main() -> None:
    program = str(pathlib.Path(sys.argv[1]).resolve())
    print("| equations, inputs, coefficients to | seed | seconds | classes | empty by whole numbers | open |")
    print("|---|---|---|---|---|---|")
    with tempfile.TemporaryDirectory() as name:
        folder = pathlib.Path(name)
        for seed, kind in itertools.product(range(3), KINDS):
            rows, inputs = drawn(kind, seed), kind[1]
            named = "".join(f"input {NAMES[k]} {-REACH} {REACH}\n" for k in range(inputs))
            (folder / "wide.chart").write_text(f"chart 1\n{named}output o 0\nstate S start\n")
            lines = []
            for row, number in rows:
                terms = [f"{'-' if a < 0 else '+'} {abs(a)}*{NAMES[k]}" for k, a in enumerate(row) if a]
                lines.append(f"cut {' '.join(terms).removeprefix('+ ')} = {number}\n")
            (folder / "some.cuts").write_text("cuts 1\n" + "".join(lines))
            began = time.perf_counter()
            try:
                told = subprocess.run([program, "classes", "wide.chart", "some.cuts"], cwd=folder, text=True,
                                      capture_output=True, check=True, timeout=SECONDS).stdout
            except subprocess.TimeoutExpired:
                print(f"| {kind} | {seed} | > {SECONDS} | | | |", flush=True)
                continue
            took = time.perf_counter() - began
            witnesses = [[int(x) for x in line.split()[2:]] for line in told.splitlines() if line.startswith("class ")]
            seen = {sides(rows, vector) for vector in witnesses}
            assert all(-REACH <= x <= REACH for vector in witnesses for x in vector)
            assert len(seen) == len(witnesses)
            empty = opened = 0
            for pattern in itertools.product((-1, 0, 1), repeat=len(rows)):
                if pattern not in seen:
                    known = is_empty(rows, pattern, inputs)
                    assert known is not False, f"{rows} {pattern}"
                    empty += known is True
                    opened += known is None
            assert math.prod([3] * len(rows)) == len(seen) + empty + opened
            print(f"| {kind[0]}, {kind[1]}, {kind[2]:,} | {seed} | {took:.2f} | {len(seen)} | {empty} | {opened} |", flush=True)


if __name__ == "__main__":
    main()
