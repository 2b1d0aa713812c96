#!/usr/bin/env python3
"""Runs the examples and compares what each command prints with expected.txt beside it.

    examples/compare.py PROGRAM            compares, and prints what differs
    examples/compare.py PROGRAM --write    writes expected.txt anew

A folder's `commands` has one command a line, run in the folder; `expected.txt` is the transcript: `$` and the
command, what it printed on standard output and on standard error, and its status in brackets. A command that the
program does not have (status 2) is passed over.
"""
import difflib, pathlib, subprocess, sys

program = str(pathlib.Path(sys.argv[1]).resolve())
write = "--write" in sys.argv[2:]
differ = passed_over = 0
for folder in sorted(p.parent for p in pathlib.Path(__file__).resolve().parent.glob("*/commands")):
    expected = folder / "expected.txt"
    parts = {}
    if expected.exists():
        for part in ("\n" + expected.read_text()).split("\n$ ")[1:]:
            parts[part.split("\n", 1)[0]] = "$ " + part.rstrip("\n") + "\n"
    transcript = ""
    for command in (folder / "commands").read_text().splitlines():
        run = subprocess.run([program] + command.split(), cwd=folder, capture_output=True, text=True, timeout=120)
        text = f"$ {command}\n{run.stdout}{run.stderr}[{run.returncode}]\n"
        transcript += text + "\n"
        if run.returncode == 2:
            passed_over += 1
        elif not write and text != parts.get(command, ""):
            differ += 1
            print(f"{folder.name}: {command}")
            before = parts.get(command, "")
            print("".join(difflib.unified_diff(before.splitlines(True), text.splitlines(True), "expected", "printed")))
    if write:
        expected.write_text(transcript)
print(f"{differ} differ, {passed_over} commands that the program does not have")
sys.exit(1 if differ else 0)
