#!/usr/bin/env python3
"""Random charts, cuts, words, tables and suites, whole and damaged, are given to the built program.

    bench/random_texts.py COUNT SEED PROGRAM [PROGRAM]

Each run must end with status 0 or 1, with nothing on standard error, or with 3 or 4, with nothing on standard output and
one line on standard error; and within a minute. Where a second program is given (the same, built by the other compiler),
both must answer alike. Where a suite is as it was printed, its replay must say what the run says. COUNT is how many texts
are made; each is part of one run or more. What differs or ends otherwise is kept in a folder that is named, and the
counts are printed.
"""
import collections, concurrent.futures, os, pathlib, random, shutil, subprocess, sys, tempfile

ODD = ["9999999", "-1", "(", "not", "start", "007", "", "1000001", "x" * 33]
NAMES = ["v", "x", "lim", "o", "p", "n", "m", "A", "B", "C", "D", "E"]


class Maker:
    """Random texts over one signature."""

    def __init__(self, seed):
        r = self.r = random.Random(seed)
        self.inputs = [(n, lo, lo + r.randint(0, 12)) for n in NAMES[:r.randint(1, 2)] for lo in [r.randint(-3, 3)]]
        self.outputs = NAMES[3:3 + r.randint(1, 2)]
        memories = NAMES[5:5 + r.randint(0, 1)]
        self.memories = [(n, lo, lo + r.randint(0, 3)) for n in memories for lo in [r.randint(-1, 1)]]
        self.states = NAMES[7:7 + r.randint(1, 5)]
        self.version = r.choice([1, 1, 2, 3])

    def term(self, names):
        r = self.r
        name, number = r.choice(names), str(r.randint(0, 9))
        return r.choice([name, number, f"{r.randint(0, 3)}*{name}", f"{name}*{r.randint(0, 3)}"])

    def sum(self, names):
        r = self.r
        text = r.choice(["", "", "-"]) + self.term(names)
        for _ in range(r.choice([0, 0, 1, 2])):
            text += r.choice([" + ", " - "]) + self.term(names)
        return text

    def test(self, names):
        return f"{self.sum(names)} {self.r.choice(['<', '<=', '>', '>=', '=', '!='])} {self.sum(names)}"

    def guard(self, names, depth=0):
        r = self.r
        kind = r.randint(0, 6) if depth < 2 else 0
        if kind == 4:
            return f"{self.guard(names, depth + 1)} {r.choice(['and', 'or'])} {self.guard(names, depth + 1)}"
        if kind == 5:
            return f"not ({self.guard(names, depth + 1)})"
        if kind == 6:
            return f"({self.guard(names, depth + 1)})"
        return self.test(names)

    def actions(self):
        r = self.r
        places = self.outputs + [m[0] for m in self.memories]
        readable = [m[0] for m in self.memories]
        return ", ".join(f"{r.choice(places)} = {self.sum(readable) if readable else r.randint(-3, 9)}"
                         for _ in range(r.randint(1, 2)))

    def chart(self):
        r = self.r
        lines = [f"chart {self.version}"]
        lines += [f"input {n} {lo} {hi}" for n, lo, hi in self.inputs]
        over = [i[0] for i in self.inputs]
        if self.version >= 2:
            lines += [f"assume {self.test(over)}" for _ in range(r.choice([0, 1, 1, 2]))]
        lines += [f"output {n} {r.randint(0, 3)}" for n in self.outputs]
        lines += [f"memory {n} {lo} {hi} {r.randint(lo, hi)}" for n, lo, hi in self.memories]
        parents, started = {}, set()
        for k, s in enumerate(self.states):
            parent = r.choice([None, None] + self.states[:k])
            parents[s] = parent
            start = parent not in started
            started.add(parent)
            lines.append(f"state {s}" + (f" in {parent}" if parent else "") + (" start" if start else ""))
        for s in self.states:
            if r.random() < 0.2:
                lines.append(f"{r.choice(['entry', 'exit'])} {s} do {self.actions()}")
        over += [m[0] for m in self.memories]
        with_children = {p for p in parents.values() if p}
        for _ in range(r.randint(0, 7)):
            line = f"on {r.choice(self.states)}"
            if r.random() < 0.8:
                line += f" when {self.guard(over)}"
            if r.random() < 0.6:
                line += f" do {self.actions()}"
            if r.random() < 0.6:
                target = r.choice(self.states)
                line += f" go {target}"
                if self.version >= 3 and target in with_children and r.random() < 0.5:
                    line += " history"
            if line.count(" do ") + line.count(" go ") == 0:
                line += f" go {r.choice(self.states)}"
            lines.append(line)
        return "\n".join(lines) + "\n"

    def changed(self, chart):
        """The chart with one number of its transitions changed, or as it is."""
        lines = chart.split("\n")
        places = [(k, i) for k, line in enumerate(lines) if line.startswith("on ")
                  for i, c in enumerate(line) if c.isdigit()]
        if not places:
            return chart
        k, i = self.r.choice(places)
        lines[k] = lines[k][:i] + str(self.r.randint(0, 9)) + lines[k][i + 1:]
        return "\n".join(lines)

    def cuts(self):
        over = [i[0] for i in self.inputs]
        return "\n".join(["cuts 1"] + [f"cut {self.test(over)}" for _ in range(self.r.randint(0, 3))]) + "\n"

    def word(self):
        r = self.r
        vector = lambda: " ".join(str(r.randint(lo, hi)) for _, lo, hi in self.inputs) + "\n"
        return "".join(vector() for _ in range(r.randint(0, 9)))

    def table(self):
        r = self.r
        lines = ["table 1"] + [f"input {n} {lo} {hi}" for n, lo, hi in self.inputs]
        lines += [f"output {n}" for n in self.outputs]
        reply = lambda: " ".join(str(r.randint(0, 3)) for _ in self.outputs)
        lines += [f"state {s} gives {reply()}" for s in self.states]
        over = [i[0] for i in self.inputs]
        for _ in range(r.randint(0, 7)):
            when = f" when {self.guard(over)}" if r.random() < 0.9 else ""
            lines.append(f"row {r.choice(self.states)}{when} gives {reply()} go {r.choice(self.states)}")
        return "\n".join(lines) + "\n"

    def damaged(self, text):
        r = self.r
        for _ in range(r.randint(1, 3)):
            kind = r.randint(0, 6)
            lines = text.split("\n")
            k = r.randrange(len(lines))
            if kind == 0 and len(lines) > 1:
                del lines[k]
            elif kind == 1:
                lines.insert(k, r.choice(lines))
            elif kind == 2:
                words = lines[k].split(" ")
                words[r.randrange(len(words))] = r.choice(NAMES + ODD)
                lines[k] = " ".join(words)
            elif kind == 3:
                words = lines[k].split(" ")
                r.shuffle(words)
                lines[k] = " ".join(words)
            text = "\n".join(lines)
            if kind == 4:
                at = r.randint(0, len(text))
                text = text[:at] + r.choice(["\n", " ", "#", "\r", "\0", "é", "-", "=", "1", "\t"]) + text[at:]
            elif kind == 5 and text:
                text = text[:r.randint(0, len(text))]
            elif kind == 6 and text:
                at = r.randrange(len(text))
                text = text[:at] + text[at + 1:]
        return text


def answer(program, words, folder):
    try:
        done = subprocess.run([program] + words, cwd=folder, capture_output=True, timeout=60)
        return done.returncode, done.stdout, done.stderr
    except subprocess.TimeoutExpired:
        return "a minute", b"", b""


def is_well(status, out, err):
    if status in (0, 1):
        return err == b""
    is_line = err.startswith(b"classtest: ") and err.count(b"\n") == 1 and err.endswith(b"\n")
    return status in (3, 4) and out == b"" and is_line


def one(seed, programs, kept):
    """The runs over the texts of one seed: how many texts, the statuses, and the runs that are not well."""
    m = Maker(seed)
    r = m.r
    chart = m.chart()
    other = r.choice([chart, m.changed(chart), m.changed(chart), m.chart()])
    texts = {"a.chart": chart, "b.chart": other, "a.cuts": m.cuts(), "a.word": m.word(), "a.table": m.table()}
    for name in list(texts):
        if r.random() < 0.25:
            texts[name] = m.damaged(texts[name])
    statuses, bad = collections.Counter(), []
    with tempfile.TemporaryDirectory() as name:
        folder = pathlib.Path(name)
        for key, text in texts.items():
            (folder / key).write_bytes(text.encode("utf-8", "surrogateescape"))
        cuts, bound = r.choice(["none", "a.cuts"]), str(r.randint(1, 4))
        runs = [["play", "a.chart", "a.word"], ["classes", "a.chart", cuts], ["suite", "a.chart", bound, cuts],
                ["run", "a.chart", bound, cuts, "b.chart"], ["run", "a.chart", bound, cuts, "a.table"],
                ["json", "a.chart", bound, cuts, "a.table"]]
        status, suite, _ = answer(programs[0], runs[2], folder)
        if status == 0 and len(suite) < 200000:
            text = whole = suite.decode()
            if r.random() < 0.6:
                text = m.damaged(text)
            texts["a.suite"] = text
            (folder / "a.suite").write_bytes(text.encode("utf-8", "surrogateescape"))
            runs += [["replay", "a.suite", "b.chart"], ["replay", "a.suite", "a.table"]]
        for words in runs:
            answers = [answer(p, words, folder) for p in programs]
            if words[0] == "replay" and text == whole and answers[0][0] in (0, 1):
                answers.append(answer(programs[0], ["run", "a.chart", bound, cuts, words[2]], folder))
            if any(a[0] == 2 for a in answers):
                continue
            statuses[(words[0], answers[0][0])] += 1
            if not all(is_well(*a) for a in answers) or any(a != answers[0] for a in answers):
                bad.append((seed, words, answers))
                target = pathlib.Path(kept) / f"{seed}"
                if not target.exists():
                    shutil.copytree(folder, target)
    return len(texts), statuses, bad


def main():
    count, seed, programs = int(sys.argv[1]), int(sys.argv[2]), [str(pathlib.Path(p).resolve()) for p in sys.argv[3:5]]
    kept = tempfile.mkdtemp(prefix="random-texts-")
    made, statuses, bad = 0, collections.Counter(), 0
    with concurrent.futures.ThreadPoolExecutor(max(1, (os.cpu_count() or 2) - 1)) as pool:
        while made < count:
            batch = [pool.submit(one, seed + k, programs, kept) for k in range(256)]
            seed += 256
            for future in batch:
                texts, counts, wrong = future.result()
                made += texts
                statuses += counts
                bad += len(wrong)
                for s, words, answers in wrong[:1]:
                    told = " / ".join(f"{a[0]} {a[1][:60]!r} {a[2][:80]!r}" for a in answers)
                    print(f"seed {s}: {' '.join(words)}: {told}", flush=True)
    for (verb, status), number in sorted(statuses.items()):
        print(f"{verb} {status}: {number}")
    print(f"{made} texts, {sum(statuses.values())} runs, {bad} not as they must be, kept in {kept}")
    sys.exit(1 if bad else 0)


if len(sys.argv) < 4:
    sys.exit(__doc__)
main()
