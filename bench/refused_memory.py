#!/usr/bin/env python3
"""Each allocation of the built program is refused in turn.

    bench/refused_memory.py PROGRAM

A small library stands between the program and the C library, and refuses the N-th allocation, for N = 1, 2, 3 and on up to
the number that the run makes, or every K-th where it makes very many. Each run must give its own result, as without a
refusal, or status 6 with nothing on standard output and the line `classtest: no memory`, or status 8 where the words could
not be gathered. A C compiler is needed, and a program that asks the C library for its memory.
"""
import collections, os, pathlib, subprocess, sys, tempfile

root = pathlib.Path(__file__).resolve().parent.parent
program = str(pathlib.Path(sys.argv[1]).resolve())
examples = root / "examples"

SHIM = r"""
#define _GNU_SOURCE
#include <dlfcn.h>
#include <errno.h>
#include <stdio.h>
#include <stdlib.h>
#include <string.h>
#include <unistd.h>
static long count, at;
static int ready;
static void start(void) { if (!ready) { ready = 1; char *s = getenv("REFUSE_AT"); at = s ? atol(s) : 0; } }
static int refuse(void) { start(); return ++count == at; }
extern void *__libc_malloc(size_t); extern void *__libc_calloc(size_t, size_t);
extern void *__libc_realloc(void *, size_t); extern void *__libc_memalign(size_t, size_t);
#define OR_REFUSE if (refuse()) { errno = ENOMEM; return 0; }
void *malloc(size_t n) { OR_REFUSE return __libc_malloc(n); }
void *calloc(size_t n, size_t m) { OR_REFUSE return __libc_calloc(n, m); }
void *realloc(void *p, size_t n) { OR_REFUSE return __libc_realloc(p, n); }
void *aligned_alloc(size_t a, size_t n) { OR_REFUSE return __libc_memalign(a, n); }
int posix_memalign(void **p, size_t a, size_t n) {
    if (refuse()) return ENOMEM;
    *p = __libc_memalign(a, n);
    return *p ? 0 : ENOMEM;
}
__attribute__((destructor)) static void tell(void) {
    char *s = getenv("COUNT_TO");
    if (s) { FILE *f = fopen(s, "w"); if (f) { fprintf(f, "%ld", count); fclose(f); } }
}
"""

CASES = [
    ("play alarm.chart levels.word", "alarm"),
    ("play misspelled.chart drive.word", "speed_monitor"),
    ("classes monitor.chart saturation.cuts", "speed_monitor"),
    ("suite alarm.chart 2 none", "alarm"),
    ("suite monitor.chart 2 none", "speed_monitor"),
    ("suite alarm.chart 9 none", "alarm"),
    ("run alarm.chart 3 none third_alarm_lost.table", "alarm"),
    ("run monitor.chart 3 none wrong_brake.chart", "speed_monitor"),
    ("json alarm.chart 3 none third_alarm_lost.table", "alarm"),
    ("gen 38", "alarm"),
    ("replay SUITE alarm.chart", "alarm"),
]


def run(words, folder, preload, **env):
    done = subprocess.run([program] + words, cwd=folder, capture_output=True, timeout=120,
                          env={**os.environ, "LD_PRELOAD": preload, **{k: str(v) for k, v in env.items()}})
    return done.returncode, done.stdout, done.stderr


bad = 0
with tempfile.TemporaryDirectory() as name:
    tools = pathlib.Path(name)
    (tools / "shim.c").write_text(SHIM)
    subprocess.run(["cc", "-O2", "-shared", "-fPIC", "-o", tools / "shim.so", tools / "shim.c", "-ldl"], check=True)
    shim = str(tools / "shim.so")
    suite = subprocess.run([program, "suite", "alarm.chart", "4", "none"], cwd=examples / "alarm", capture_output=True)
    (tools / "SUITE").write_bytes(suite.stdout)
    print("| call | allocations | refused | own result | status 6 | status 8 |\n|---|---|---|---|---|---|")
    for case, folder in CASES:
        words = [str(tools / "SUITE") if w == "SUITE" else w for w in case.split()]
        own = run(words, examples / folder, shim, COUNT_TO=tools / "count")
        if own[0] == 2:
            continue
        allocations = int((tools / "count").read_text())
        step = max(1, allocations // 2000)
        counts = collections.Counter()
        for at in range(1, allocations + 1, step):
            got = run(words, examples / folder, shim, REFUSE_AT=at)
            kind = "own" if got == own else "8" if got[:2] == (8, b"") else "bad"
            if got == (6, b"", b"classtest: no memory\n"):
                kind = "6"
            counts[kind] += 1
            if kind == "bad":
                bad += 1
                print(f"{case}: refused {at}: {got[0]} {got[1][:60]!r} {got[2][:60]!r}")
        row = [allocations, sum(counts.values()), counts["own"], counts["6"], counts["8"]]
        print(f"| `{case}` | " + " | ".join(map(str, row)) + " |", flush=True)
print(f"{bad} not as they must be")
sys.exit(1 if bad else 0)
