#!/usr/bin/env python3
"""Runs a large suite in parts, side by side, and names the first failing test by its number in the whole suite.

    examples/in_parts.py cut SUITE PARTS FOLDER            writes the suite as so many suites, FOLDER/part.0001 and on
    examples/in_parts.py run PROGRAM SUITE PARTS IMPL      cuts it in a folder of its own, runs `PROGRAM replay` on each part,
                                                           and prints the verdict of the whole

Each part is a suite of its own: the whole's first lines, some of its tests in their order, and an `end` line with their
number. IMPL is the name of a file, not `-`. So `replay` takes a part, and any runner of jobs can do the same: an array of
a cluster with `cut` before it and one `replay` a job, or a matrix of a service for continuous integration. GNU parallel
runs the parts where it is installed. The status is that of `replay`; 5 also where SUITE cannot be read or
PROGRAM is not there.
"""
import concurrent.futures, os, pathlib, shutil, subprocess, sys, tempfile


def cut(suite, parts, folder):
    """Writes the parts, and gives how many tests stand before each."""
    lines = pathlib.Path(suite).read_text().splitlines(True)
    starts = [i for i, line in enumerate(lines) if line.startswith("test ")]
    if parts < 1 or not starts or lines[-1] != f"end {len(starts)}\n":
        print(f"{suite}: no whole suite, or no parts", file=sys.stderr)
        sys.exit(3)
    head, end = lines[:starts[0]], len(lines) - 1
    parts = min(parts, len(starts))
    bounds = [len(starts) * k // parts for k in range(parts + 1)]
    for k in range(parts):
        first, last = bounds[k], bounds[k + 1]
        body = lines[starts[first]:(starts[last] if last < len(starts) else end)]
        text = "".join(head + body) + f"end {last - first}\n"
        (folder / f"part.{k + 1:04}").write_text(text)
    return bounds[:-1]


def run(program, suite, parts, implementation):
    with tempfile.TemporaryDirectory() as name:
        folder = pathlib.Path(name)
        before = cut(suite, parts, folder)
        texts = sorted(folder.glob("part.*"))
        if shutil.which("parallel"):
            log = folder / "log"
            subprocess.run(["parallel", "--joblog", str(log), program, "replay", "{}", implementation, ">", "{}.out",
                            "2>&1", ":::"] + [str(t) for t in texts])
            status = {row.split("\t")[0]: int(row.split("\t")[6]) for row in log.read_text().splitlines()[1:]}
            answers = [(status[str(k + 1)], pathlib.Path(f"{t}.out").read_text()) for k, t in enumerate(texts)]
        else:
            def one(text):
                done = subprocess.run([program, "replay", str(text), implementation], capture_output=True, text=True)
                return done.returncode, done.stdout + done.stderr
            with concurrent.futures.ThreadPoolExecutor(os.cpu_count()) as pool:
                answers = list(pool.map(one, texts))
    for count, (status, text) in zip(before, answers):
        if status == 1:
            words = text.split(" ", 3)
            print(f"{words[0]} {words[1]} {int(words[2]) + count} {words[3]}", end="")
            return 1
        if status != 0:
            print(text, end="")
            return status
    print("pass")
    return 0


try:
    if len(sys.argv) == 5 and sys.argv[1] == "cut":
        pathlib.Path(sys.argv[4]).mkdir(parents=True, exist_ok=True)
        cut(sys.argv[2], int(sys.argv[3]), pathlib.Path(sys.argv[4]))
    elif len(sys.argv) == 6 and sys.argv[1] == "run":
        if not shutil.which(sys.argv[2]):
            raise OSError(f"{sys.argv[2]}: no such program")
        sys.exit(run(sys.argv[2], sys.argv[3], int(sys.argv[4]), sys.argv[5]))
    else:
        print(__doc__, file=sys.stderr)
        sys.exit(2)
except OSError as fault:
    print(fault, file=sys.stderr)
    sys.exit(5)
