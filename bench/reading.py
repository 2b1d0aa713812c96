#!/usr/bin/env python3
"""Times the readers of charts and words on texts of 262,144 bytes, and measures their memory: python3 bench/reading.py

The program below is written into a temporary copy of the crate chart_syntax and of those below it, proved and built there
by `rt run`. For each row it is run without reading, for the memory, and then thirty times with it; the best time counts.
It is no part of the gate. It needs the kit's `rt` and Linux.
"""

import pathlib
import tempfile

from timing import built, facts_of, peak_of, with_program

PROGRAM = """\
// Times a reader. The arguments are `load`, `chart` or `word`, the file of a chart and the file of a word.
#![tactic(auto)]

use chart_syntax::{ChartError, read_chart, read_word};
use std::env;
use std::fs;
use std::io;
use std::time::Instant;

fn line_of(error: &ChartError) -> usize {
    match error {
        ChartError::Fault { line, .. } => *line,
        ChartError::Limit { line, .. } => *line,
        ChartError::Memory => 0,
    }
}

fn main(rt: HostRuntime) -> io::Result<()> {
    let mut args = env::args(&rt)?;
    let _program = args.next();
    let (Some(mode), Some(chart_file), Some(word_file)) = (args.next(), args.next(), args.next()) else {
        return Ok(());
    };
    let chart_text = fs::read(&rt, chart_file.as_str())?;
    let word_text = fs::read(&rt, word_file.as_str())?;
    if mode.as_str() != "load" {
        let start = Instant::now(&rt)?;
        let answer = read_chart(rt.alloc(), chart_text.as_slice());
        let mut nanos = start.elapsed(&rt)?.as_nanos();
        match answer {
            Ok(chart) => {
                if mode.as_str() == "word" {
                    let start = Instant::now(&rt)?;
                    let answer = read_word(rt.alloc(), word_text.as_slice(), &chart);
                    nanos = start.elapsed(&rt)?.as_nanos();
                    match answer {
                        Ok(vectors) => {
                            let count = vectors.len();
                            println!(rt; "answer {count} vectors")?;
                        }
                        Err(error) => {
                            let line = line_of(&error);
                            println!(rt; "answer refused {line}")?;
                        }
                    }
                } else {
                    let count = chart.transitions.len();
                    println!(rt; "answer {count} transitions")?;
                }
            }
            Err(error) => {
                let line = line_of(&error);
                println!(rt; "answer refused {line}")?;
            }
        }
        println!(rt; "nanos {nanos}")?;
    }
    let status = fs::read_to_string(&rt, "/proc/self/status")?;
    println!(rt; "{status}")
}
"""

MOST_BYTES = 262_144
RUNS = 30
SMALL = "chart 1\ninput v 0 9\noutput o 0\nstate S start\n"
FRONT = "chart 3\ninput v 0 9\ninput w 0 9\noutput o 0\nmemory m 0 9 0\nstate S start\n"


def whole(text):
    """The text with a comment to the most bytes."""
    return text + "#" * (MOST_BYTES - len(text))


def filled(front, line, most=MOST_BYTES):
    """The front and the line as often as it fits, at most so often."""
    return whole(front + line * min((MOST_BYTES - len(front)) // len(line), most))


def nested():
    """64 states in chains of 8, each with a line on entry and one on exit that fill the text."""
    names = [f"s{i}" for i in range(64)]
    text = "chart 1\ninput v 0 9\noutput o 0\nmemory m 0 9 0\n"
    for i, name in enumerate(names):
        inside = "" if i % 8 == 0 else f" in {names[i - 1]}"
        text += f"state {name}{inside}{' start' if i % 8 or i == 0 else ''}\n"
    each = (MOST_BYTES - len(text)) // 128
    for name in names:
        for word in ("entry", "exit"):
            line = f"{word} {name} do o = m"
            text += line + " + m" * min((each - len(line) - 1) // 4, 508) + "\n"
    return whole(text)


def long_names():
    """Names of 32 bytes in sums over all inputs and memories."""
    name = "abcdefghijklmnopqrstuvwxyz_0123"
    text = "chart 1\n" + "".join(f"input {name}{i} 0 9\n" for i in range(6)) + "output o 0\n"
    text += "".join(f"memory {name}{i} 0 3 0\n" for i in range(6, 10)) + "state S start\n"
    return filled(text, "on S when 0<" + "+".join(f"{name}{i % 10}" for i in range(30)) + "\n", 256)


def usual():
    """A chart as people write them: 64 states in chains of 4, 4 transitions from each, each under a comment."""
    text = "chart 1\ninput speed 0 400\ninput door 0 1\noutput alarm 0\noutput brake 0\nmemory count 0 15 0\n"
    names = [f"state_{i}" for i in range(64)]
    for i, name in enumerate(names):
        text += f"state {name}" + ("" if i % 4 == 0 else f" in {names[i - 1]}") + (" start\n" if i % 4 or i == 0 else "\n")
    lines = [
        f"on {name} when speed >= {10 * k + i} and ( door = 0 or count < {k + 3} ) do alarm = {k}, count = {k} go {names[(5 * i + k) % 64]}\n"
        for i, name in enumerate(names)
        for k in range(4)
    ]
    comment = (MOST_BYTES - len(text) - sum(map(len, lines))) // 256 - 1
    return whole(text + "".join("#" * comment + "\n" + line for line in lines))


def rows():
    guard = " and ".join(f"v + {i} <= w" for i in range(64))
    deep = "( " * 64 + "v = 0" + " )" * 64 + "".join(f" or v = {i}" for i in range(63))
    tokens = "on S do o=m" + "+m" * 509 + "\n"
    numbers = "on S do o=100000" + "+100000" * 145 + "\n"
    effects = "on S do o=1" + ",o=1" * 254 + "\n"
    blank = "\n" * (MOST_BYTES - len(SMALL))
    return [
        ("chart", "64 states, 256 transitions with a guard and two actions each, comments", usual(), ""),
        ("chart", "guards of 64 comparisons", filled(FRONT, f"on S when {guard}\n", 256), ""),
        ("chart", "guards of 64 parentheses and 64 comparisons", filled(FRONT, f"on S when {deep}\n", 256), ""),
        ("chart", "lines of 1,024 tokens, the sum of a name", filled(FRONT, tokens, 256), ""),
        ("chart", "lines of long numbers", filled(FRONT, numbers, 256), ""),
        ("chart", "lines of 255 actions", filled(FRONT, effects, 256), ""),
        ("chart", "sums of names of 32 bytes", long_names(), ""),
        ("chart", "64 states, 8 deep, long lines on entry and exit", nested(), ""),
        ("chart", "one long comment", whole(SMALL), ""),
        ("chart", "3,744 lines of comments", filled(SMALL, "#" + " a comment" * 6 + "        \n"), ""),
        ("chart", "262,098 blank lines", SMALL + blank, ""),
        ("chart", "one line of 262,098 tokens, refused", SMALL + "+" * (MOST_BYTES - len(SMALL)), ""),
        ("word", "131,072 vectors of one number", SMALL, "5\n" * (MOST_BYTES // 2)),
        ("word", "65,536 vectors of two numbers", FRONT, "5 3\n" * (MOST_BYTES // 4)),
        ("word", "29,127 vectors of two numbers with a sign and zeros", FRONT, whole("-00 0003\n" * (MOST_BYTES // 9))),
        ("word", "32,768 vectors, the last refused", FRONT, "5 3    \n" * (MOST_BYTES // 8 - 1) + "5 3   5\n"),
    ]


def main() -> None:
    with tempfile.TemporaryDirectory() as folder:
        top = pathlib.Path(folder)
        uses = "chart_syntax chart_model line_forms line_tokens lin_form sqlite_items"
        program = built(with_program(top, uses, PROGRAM))
        print("| text | answer | ms | ns a byte | KiB beside the texts |")
        print("|---|---|---|---|---|")
        for mode, name, chart, word in rows():
            chart_file, word_file = top / "chart", top / "word"
            chart_file.write_text(chart)
            word_file.write_text(word)
            files = (str(chart_file), str(word_file))
            before = facts_of(program, "load", *files)
            told = [facts_of(program, mode, *files) for _ in range(RUNS)]
            nanos = min(int(facts["nanos"]) for facts in told)
            memory = max(peak_of(facts) for facts in told) - peak_of(before)
            size = len(chart if mode == "chart" else word)
            assert size == MOST_BYTES, size
            print(f"| {name} | {told[0]['answer']} | {nanos / 1e6:.2f} | {nanos / size:.1f} | {memory:,} |")


if __name__ == "__main__":
    main()
