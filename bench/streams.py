#!/usr/bin/env python3
"""The built program with real files and devices for its three streams, compared byte by byte with what each must get.

    bench/streams.py PROGRAM

What is proved of the program ends at the shelf and the sinks; that `-` is standard input, that texts go to standard output
and lines to standard error, that a full device is a failed write, and that a little stack is enough, is shown here.
"""
import pathlib, resource, subprocess, sys, tempfile

root = pathlib.Path(__file__).resolve().parent.parent
program = str(pathlib.Path(sys.argv[1]).resolve())
failed = 0

ALARM = (root / "examples/alarm/alarm.chart").read_bytes()
WORD = b"3\n9\n7\n5\n"
REPLIES = b"0\n1\n1\n0\n"
TABLE = (root / "examples/alarm/right.table").read_bytes()


def run(name, words, texts, status, out, err, standard_input=b"", device=None, stack=None):
    """One run in a folder of its own with files for the three streams."""
    global failed
    with tempfile.TemporaryDirectory() as folder:
        folder = pathlib.Path(folder)
        for key, text in texts.items():
            (folder / key).write_bytes(text)
        (folder / "stdin").write_bytes(standard_input)
        limit = (lambda: resource.setrlimit(resource.RLIMIT_STACK, (stack, stack))) if stack else None
        with open(folder / "stdin", "rb") as i, open(folder / "stderr", "wb") as e:
            with open(device or folder / "stdout", "wb") as o:
                done = subprocess.run([program] + words, cwd=folder, stdin=i, stdout=o, stderr=e, timeout=120,
                                      preexec_fn=limit)
        got_out = b"" if device else (folder / "stdout").read_bytes()
        got = (done.returncode, got_out, (folder / "stderr").read_bytes())
        out = out(got_out) if callable(out) else out
        if got != (status, out, err):
            failed += 1
            print(f"{name}: {got[0]} {got[1][:80]!r} {got[2][:80]!r}, not {status} {out[:80]!r} {err!r}")


both = {"a.chart": ALARM, "a.word": WORD}
run("files", ["play", "a.chart", "a.word"], both, 0, REPLIES, b"")
run("the chart from standard input", ["play", "-", "a.word"], {"a.word": WORD}, 0, REPLIES, b"", ALARM)
run("the word from standard input", ["play", "a.chart", "-"], {"a.chart": ALARM}, 0, REPLIES, b"", WORD)
run("a file named ./-", ["play", "./-", "a.word"], {"-": ALARM, "a.word": WORD}, 0, REPLIES, b"")
run("a table from standard input", ["run", "a.chart", "2", "none", "-"], {"a.chart": ALARM}, 0, b"pass\n", b"", TABLE)
run("two from standard input", ["play", "-", "-"], both, 2, b"", b"classtest: no such command\n", ALARM)
run("a refused chart", ["play", "a.chart", "a.word"], {"a.chart": b"chart 4\n", "a.word": WORD}, 3, b"",
    b"classtest: a.chart:1: version\n")
run("a refused chart does not wait for the word", ["play", "a.chart", "-"], {"a.chart": b"chart 4\n"}, 3, b"",
    b"classtest: a.chart:1: version\n")
run("no such file", ["play", "b.chart", "a.word"], both, 5, b"", b"classtest: b.chart: read fault\n")
run("a folder", ["play", "..", "a.word"], both, 5, b"", b"classtest: ..: read fault\n")
run("a full device", ["play", "a.chart", "a.word"], both, 5, b"", b"classtest: write fault\n", device="/dev/full")
run("a large text on a full device", ["suite", "a.chart", "9", "none"], both, 5, b"", b"classtest: write fault\n",
    device="/dev/full")
run("a large text", ["suite", "a.chart", "9", "none"], both, 0,
    lambda o: o if o.endswith(b"\nend 10935\n") else b"end?", b"")
long = b"".join(b"%d\n" % (k % 11) for k in range(100000))
run("a word of 100,000 vectors, a stack of 1 MiB", ["play", "a.chart", "a.word"], {"a.chart": ALARM, "a.word": long}, 0,
    lambda o: o if o.count(b"\n") == 100000 else b"?", b"", stack=1 << 20)
deep = b"chart 1\ninput v 0 10\noutput o 0\nstate S start\non S when " + b"(" * 64 + b"v = 1" + b")" * 64 + b" do o = 1\n"
run("64 parentheses, a stack of 1 MiB", ["play", "a.chart", "a.word"], {"a.chart": deep, "a.word": b"1\n"}, 0, b"1\n", b"",
    stack=1 << 20)
print(f"{failed} differ")
sys.exit(1 if failed else 0)
