#!/usr/bin/env python3
"""Times the calls over finite machines: python3 bench/machines.py

The program below is written into a temporary copy of the crates that it stands on, proved and built there by `rt run`,
and run three times for each row; the best time counts. It is no part of the gate. It needs the kit's `rt` and Linux.
"""

import pathlib
import tempfile

from timing import built, facts_of, peak_of, with_program

PROGRAM = """\
// Times reduction, cover, marks and the words of a suite. The arguments name the machine and give its numbers of states
// and letters and a bound; with the bound 0 no suite is built.
#![tactic(auto)]

ghost use Rattle.std.specs.Prelude.{◌≡◌, [], ◌∷◌, IfOk};
ghost use Rattle.fsm_core.specs.Answers.{AllReached, IsReduced};

use charset::charset;
use fsm_core::Fsm;
use lin_form::Reply;
use reduction::reduce;
use state_cover::cover;
use std::alloc::{AllocError, Global};
use std::env;
use std::fs;
use std::io;
use std::process::Abort;
use std::time::Instant;
use suite_build::build;
use word_pool::Pool;

// The row of a state and a letter.
fn row(kind: &str, states: usize, state: usize, letter: usize) -> (usize, usize) {
    let up = state.wrapping_add(1);
    let turned = if up < states { up } else { 0 };
    let last = if turned == 0 { 1 } else { 0 };
    let kept = if letter == 0 { turned } else { state };
    let mixed = state.wrapping_mul(5).wrapping_add(letter.wrapping_mul(3)).wrapping_add(1) % states.max(1);
    match kind {
        "ring" => (turned, last),
        "marks" => (kept, if letter == 1 { last } else { 0 }),
        "own" => (kept, if state == letter { 1 } else { 0 }),
        "mixed" => (mixed, if state.wrapping_add(letter) % 1024 == 1023 { 1 } else { 0 }),
        "rare" => (mixed, if state == letter && state % 64 == 1 { 1 } else { 0 }),
        "alarm" => match letter {
            0 => (0, 0),
            1 => (state, state),
            _ => (1, 1),
        },
        "stairs" if letter > state.saturating_mul(2) => (up, up),
        "stairs" if letter.saturating_add(1) < state.saturating_mul(2) => (state.saturating_sub(1), state.saturating_sub(1)),
        "stairs" => (state, state),
        _ => (0, 0),
    }
}

fn machine(
    rt: &impl Abort,
    alloc: Global,
    kind: &str,
    states: usize,
    letters: usize,
) -> Result<Fsm, AllocError> {
    let mut rows = Vec::new(alloc);
    for state in 0..states {
        for letter in 0..letters {
            rows.push(row(kind, states, state, letter))?;
        }
    }
    let mut replies = Vec::new(alloc);
    for number in 0..32 {
        replies.push(Reply::from_slice(&[number]))?;
    }
    assert!(rt; Fsm::is_machine(letters, rows.as_slice(), replies.as_slice()));
    Ok(Fsm::new(letters, rows, replies))
}

fn reduced(rt: &HostRuntime, alloc: Global, fsm: &Fsm) -> io::Result<Fsm>
    requires { AllReached fsm.now }
    ensures reached { IfOk result (λ m. AllReached m) }
    ensures reduced { IfOk result (λ m. IsReduced m) }
{
    let start = Instant::now(rt)?;
    let reduced = reduce(alloc, fsm)?;
    let micros = start.elapsed(rt)?.as_micros();
    println!(rt; "reduce {micros}")?;
    Ok(reduced.fsm)
}

fn words(rt: &HostRuntime, alloc: Global, fsm: &Fsm, bound: usize, pool: &mut Pool) -> io::Result<()>
    requires reached { AllReached fsm.now }
    requires reduced { IsReduced fsm.now }
    requires empty { pool.old.words ≡ [] ∷ [] }
{
    let _states = fsm.states();
    let start = Instant::now(rt)?;
    let words = cover(alloc, fsm, pool)?;
    let micros = start.elapsed(rt)?.as_micros();
    println!(rt; "cover {micros}")?;
    let start = Instant::now(rt)?;
    let marks = charset(alloc, fsm, &words, pool)?;
    let micros = start.elapsed(rt)?.as_micros();
    let count = marks.words().len();
    println!(rt; "marks {count}")?;
    println!(rt; "charset {micros}")?;
    if bound == 0 || bound > 1024 {
        return Ok(());
    }
    let start = Instant::now(rt)?;
    let Ok(built) = build(alloc, fsm, words, marks, bound, pool) else {
        return println!(rt; "refused");
    };
    let micros = start.elapsed(rt)?.as_micros();
    let tests = built.tests.len();
    let count = pool.words();
    println!(rt; "build {micros}")?;
    println!(rt; "tests {tests}")?;
    println!(rt; "words {count}")
}

fn number(word: Option<String>) -> usize {
    let Some(word) = word else {
        return 0;
    };
    match word.as_str().parse::<usize>() {
        Ok(number) => number,
        Err(_) => 0,
    }
}

fn main(rt: HostRuntime) -> io::Result<()> {
    let alloc = rt.alloc();
    let mut args = env::args(&rt)?;
    let _program = args.next();
    let Some(kind) = args.next() else {
        return Ok(());
    };
    let states = number(args.next());
    let letters = number(args.next());
    let bound = number(args.next());
    let fsm = machine(&rt, alloc, kind.as_str(), states, letters)?;
    assert!(rt; fsm.all_reached(alloc)?);
    let fsm = reduced(&rt, alloc, &fsm)?;
    let states = fsm.states();
    println!(rt; "states {states}")?;
    let status = fs::read_to_string(&rt, "/proc/self/status")?;
    println!(rt; "{status}")?;
    let mut pool = Pool::new(alloc)?;
    words(&rt, alloc, &fsm, bound, &mut pool)?;
    let status = fs::read_to_string(&rt, "/proc/self/status")?;
    println!(rt; "{status}")
}
"""

PROOF = """\
use Rattle.std.proofs.Common.{ℕ, List, ◌++◌, sym, subst, arith}
use Rattle.state_cover.specs.Cover.{IsCover}
use Rattle.suite_build.proofs.CallerLemmas.{new_pool, prefixes_of_both}
use Rattle.word_pool.specs.Words.{words_at, ArePrefixesOf}
use Rattle.word_pool.proofs.CallerLemmas.{ids_kept, words_kept}
use Rattle.timing.proofs.words.Goals as goal

pub build-requires-clause-cover_ids : goal.build-requires-clause-cover_ids
build-requires-clause-cover_ids c = ids_kept c.cover.new.pool.words c.charset.new.pool.words c.in_ok-marks.ensures.keeps
    c.in_ok-words.words c.in_ok-words.ensures.ids

pub build-requires-clause-cover : goal.build-requires-clause-cover
build-requires-clause-cover c = subst (IsCover c.args.fsm.now) (sym (words_kept c.cover.new.pool.words
    c.charset.new.pool.words c.in_ok-marks.ensures.keeps c.in_ok-words.words c.in_ok-words.ensures.ids))
    c.in_ok-words.ensures.cover

pub build-requires-clause-front : goal.build-requires-clause-front
build-requires-clause-front c =
    let covered = c.cover.new.pool.words in
    let marked = c.charset.new.pool.words in
    let cover = c.in_ok-words.words in
    let keeps = c.in_ok-marks.ensures.keeps in
    subst (λ (ws : List (List ℕ)). ArePrefixesOf marked (ws ++ words_at marked c.in_ok-marks.marks))
    (sym (words_kept covered marked keeps cover c.in_ok-words.ensures.ids))
    (prefixes_of_both (words_at covered cover) (words_at marked c.in_ok-marks.marks) c.args.pool.now.words covered marked
    (subst (λ (ws : List (List ℕ)). ArePrefixesOf ws (words_at covered cover)) (sym c.requires.empty)
    (new_pool (words_at covered cover)
        (omega (arith, c.states-states.ensures.sound.some_states, c.in_ok-words.ensures.cover.size))))
    c.in_ok-words.ensures.keeps c.in_ok-words.ensures.only keeps c.in_ok-marks.ensures.only)
"""

# kind, states, letters, bound, what the row shows
ROWS = [
    ("ring", 170, 1, 0, "170 states and one letter, which turns a ring"),
    ("mixed", 50, 77, 0, "50 states and 77 letters, mixed"),
    ("marks", 50, 77, 0, "50 states and 77 letters, 49 marks of up to 49 letters"),
    ("own", 50, 77, 0, "50 states and 77 letters, 49 marks of one letter"),
    ("mixed", 1024, 600, 0, "1,024 states and 600 letters, mixed, many replies"),
    ("rare", 1024, 600, 0, "1,024 states and 600 letters, mixed, ten replies"),
    ("own", 1024, 1023, 0, "1,024 states and 1,023 letters, as many marks of one letter"),
    ("ring", 1024, 1, 0, "1,024 states in a ring, one mark of 1,023 letters"),
    ("marks", 1024, 2, 0, "1,024 states in a ring, 1,023 marks of up to 1,023 letters"),
    ("alarm", 2, 3, 12, "two states and 3 letters, bound 12"),
    ("stairs", 18, 35, 19, "18 states and 35 letters, bound 19"),
    ("one", 1, 2562, 2, "one state and 2,562 letters, bound 2"),
]


def best_of(program: str, *words: str) -> dict[str, str]:
    """What the program tells, with the least of three times for each call."""
    runs = [facts_of(program, *words) for _ in range(3)]
    facts = runs[0]
    for call in ("reduce", "cover", "charset", "build"):
        if call in facts:
            facts[call] = str(min(int(run[call]) for run in runs))
    return facts


def per_word(facts: dict[str, str], before: dict[str, str]) -> str:
    """The words that `build` entered, and what each took, if it was called."""
    if "build" not in facts:
        return "| | | |"
    words = int(facts["words"])
    nanos = int(facts["build"]) * 1e3 / words
    size = (peak_of(facts) - peak_of(before)) * 1024 / words
    return f"| {words:,} | {nanos:.1f} | {size:.1f} |"


def main() -> None:
    with tempfile.TemporaryDirectory() as folder:
        uses = "suite_build charset state_cover reduction fsm_core word_pool lin_form"
        here = with_program(pathlib.Path(folder), uses, PROGRAM)
        (here / "proofs" / "words").mkdir(parents=True)
        (here / "proofs" / "words" / "Answers.antt").write_text(PROOF)
        program = built(here)
        print("| machine | reduce ms | cover ms | marks | charset ms | words of build | ns a word | bytes a word |")
        print("|---|---|---|---|---|---|---|---|")
        for kind, states, letters, bound, text in ROWS:
            before = facts_of(program, kind, str(states), str(letters), "0")
            facts = best_of(program, kind, str(states), str(letters), str(bound))
            times = [int(facts[call]) / 1e3 for call in ("reduce", "cover", "charset")]
            front = f"| {text} | {times[0]:.2f} | {times[1]:.2f} | {facts['marks']} | {times[2]:.2f} "
            print(front + per_word(facts, before), flush=True)


if __name__ == "__main__":
    main()
