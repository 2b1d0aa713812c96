"""What the benches share: a program that times crates, beside a copy of them, proved and built there by `rt run`."""

import pathlib
import shutil
import subprocess
import sys

OURS = pathlib.Path(__file__).resolve().parent.parent


def lines_of(uses: str) -> dict[str, str]:
    """What each of these crates and of those below them stands on, lowest first, as crates.txt of the repository says."""
    lines = (OURS / "crates.txt").read_text().splitlines()
    stands = dict(line.split(":", 1) for line in lines if ":" in line and not line.startswith("#"))
    wanted = set(uses.split())
    for name in reversed(stands):
        if name in wanted:
            wanted.update(stands[name].split())
    return {name: below.strip() for name, below in stands.items() if name in wanted}


def with_program(top: pathlib.Path, uses: str, program: str) -> pathlib.Path:
    """Copies the crates that a program uses, and those below them, into a folder, with the program as the crate `timing`
    above them. Gives the folder of that crate."""
    crates = lines_of(uses)
    for name in crates:
        for part in ("src", "specs", "proofs"):
            shutil.copytree(OURS / "crates" / name / part, top / "crates" / name / part)
    here = top / "crates" / "timing"
    (here / "src").mkdir(parents=True)
    (here / "src" / "main.rt").write_text(program)
    lines = [f"{name}: {below}" for name, below in crates.items()] + [f"timing: {uses}"]
    (top / "crates.txt").write_text("\n".join(lines) + "\n")
    return here


def built(here: pathlib.Path) -> str:
    """Builds the program of this folder, and gives its path; ends where it cannot be built."""
    program = here / "out" / "timing"
    program.unlink(missing_ok=True)
    told = subprocess.run(["rt", "run"], cwd=here, capture_output=True, text=True)
    if not program.exists():
        sys.exit(told.stdout + told.stderr)
    return str(program)


def facts_of(*words: str) -> dict[str, str]:
    """Runs a program, and gives what each of its lines says after the line's first word."""
    told = subprocess.run(words, capture_output=True, text=True, check=True).stdout
    lines = [line.split() for line in told.splitlines()]
    return {line[0].rstrip(":"): " ".join(line[1:]) for line in lines if line}


def peak_of(facts: dict[str, str]) -> int:
    """The peak memory of a program that tells its status, in KiB."""
    return int(facts["VmHWM"].split()[0])
