#!/usr/bin/env python3
"""Tries siman under hostile use: refused memory, spoilt bytes, full limits.

It runs the built programs siman, siman_cases and siman_hostile, crates/NAME/out/NAME, which `rt run` in their folders
proves and builds, and tries

- the worked examples of each command with memory refused at each allocation in turn, to that one alone and to it and all
  after it: the answer is the usual one or `memory` (tools/cases/rows.py);
- the calls of the library that take memory, with each allocation refused in turn: the call says `Memory`, what it was
  lent is as before, and made again it answers as usual (tools/cases/calls.py);
- a datagram of each kind, cut to every length (tools/cases/cuts.py), and each read and each write of `check` and of a
  trial failed in turn (tools/cases/failing.py); both stand as cases in crates/siman_cases/data too, where the gate runs
  them, and have to stand there as they are made here;
- inputs that are made up and spoilt, in one process: datagrams, recordings with certificates, scripts and command lines
  (crates/siman_hostile/src/inputs.rt says what is asked of each answer);
- a recording with as many entries as there can be, a long exercise with 100,000 calls of each machine behind it, and the
  program at each of its limits, one below and one above, with the time and the memory that each run takes
  (tools/cases/limits.py).

Each wrong case is told in one line; the last line is `N tried, M wrong`, and the status is 1 if any is wrong. It is no
part of the gate.
"""
import argparse
import os
import re
import subprocess
import sys
import tempfile
import time
from pathlib import Path

sys.dont_write_bytecode = True

from cases import calls, cuts, failing, limits, memory, rows, stations
from cases.examples import TOP, made_examples
from cases.trials import Trials, Verdict, described

DATA = TOP / "crates" / "siman_cases" / "data"
PATIENCE = 1200  # seconds for one run of siman_cases or siman_hostile
LOAD = b"""world records=102000 sent=51000
explained, and its trial says the same: true
101999 sent 1 stamp=0 acknowledge version=7 exercise=1 stamp=0 status=0 from=2:3:7 to=1:1:0 flag=3 response=1 request=1
entity 2:3:7 running
no step=102000 cause=13 wrong-state
blocked stations=1
blocked 2:3 record=102000 cause=13 wrong-state
orders: 100000
requests: 100000
served: 100000, issued: 100000, nudged: 100000
on the line: 300000
"""
FULL = b"""push of one entry more: count
told of one entry more: count
finish: 6291478 bytes
read: 1048576 entries
seen: 1048576 entries
read: count at 6291473
seen: count at 6291473
recording: read
certificate: read
output: write
memory
"""


def arguments():
    form = argparse.RawDescriptionHelpFormatter
    parser = argparse.ArgumentParser(description=__doc__, formatter_class=form)
    crates = TOP / "crates"
    parser.add_argument("--program", type=Path, default=crates / "siman" / "out" / "siman")
    parser.add_argument("--cases", type=Path, default=crates / "siman_cases" / "out" / "siman_cases")
    parser.add_argument("--hostile", type=Path, default=crates / "siman_hostile" / "out" / "siman_hostile")
    parser.add_argument("--inputs", type=int, default=100_000, help="how many inputs are made up (100000)")
    parser.add_argument("--first", type=int, default=0, help="the number of the first of them: the same number, the same input")
    parser.add_argument("--parts", default="memory,calls,cuts,inputs,full,load,limits", help="which parts, commas between")
    given = parser.parse_args()
    for program in (given.program, given.cases, given.hostile):
        if not os.access(program, os.X_OK):
            parser.error(f"there is no program {program}: rt run in its crate's folder builds it")
    return given


def told(program, *words):
    """The status and the output of a program for these words, run beside the data of the cases, and how long it took."""
    started, before = time.monotonic(), os.times()
    try:
        done = subprocess.run([program, *words], cwd=DATA, capture_output=True, timeout=PATIENCE, check=False)
        status, out = done.returncode, done.stdout
    except subprocess.TimeoutExpired:
        status, out = f"none in {PATIENCE} seconds", b""
    used = os.times()
    spent = used.children_user + used.children_system - before.children_user - before.children_system
    return status, out, f"{time.monotonic() - started:.1f} seconds, {spent:.1f} of the processor"


def try_data(program):
    """The cases of the gate that are made here."""
    for name, made in (("cut.cases", cuts.cases()), ("failing.cases", failing.cases())):
        text = "\n".join(made) + "\n"
        yield Verdict(f"{name} is as it is made", (True,), text == (DATA / name).read_text(encoding="utf-8"))
        status, out, _ = told(program, name)
        otherwise = re.search(rb", (\d+) otherwise", out)
        yield Verdict(f"the cases of {name}", ((0, 0),), (status, int(otherwise.group(1)) if otherwise else None))


def try_inputs(program, count, first):
    status, out, took = told(program, f"inputs:{count}:{first}")
    sys.stdout.write(out.decode(errors="backslashreplace"))
    print(f"{count} inputs from number {first} on took {took}")
    otherwise = re.search(rb"\notherwise (\d+)\n", out)
    yield Verdict(f"{count} inputs", ((0, 0),), (status, int(otherwise.group(1)) if otherwise else None))


def verdicts(given, folder):
    trials = Trials(str(given.program.resolve()), folder)
    examples = made_examples(folder)
    parts, cases, hostile = given.parts.split(","), str(given.cases.resolve()), str(given.hostile.resolve())
    counts = {}
    if "memory" in parts:
        memory.try_answers(trials, rows.rows(trials))
        stations.try_memory(trials)
    if "calls" in parts:
        counts = calls.try_calls(trials, hostile)
    if "cuts" in parts:
        cuts.try_all(trials)
    yield from trials.verdicts()
    for line, count in sorted(counts.items()):
        print(f"{line} in {count} runs")
    if "cuts" in parts:
        yield from try_data(cases)
    for word, text in (("full", FULL), ("load", LOAD)):
        if word in parts:
            status, out, took = told(hostile, word)
            print(f"{word} took {took}")
            yield Verdict(word, ((0, text),), (status, out))
    if "inputs" in parts:
        yield from try_inputs(hostile, given.inputs, given.first)
    if "limits" in parts:
        tried, lines = limits.try_all(trials)
        print("\n".join(lines))
        yield from tried
    for skipped in trials.skipped:
        print(f"skipped: {skipped}")


def main():
    given = arguments()
    tried = wrong = 0
    started = time.monotonic()
    with tempfile.TemporaryDirectory() as folder:
        for verdict in verdicts(given, Path(folder).resolve()):
            tried += 1
            if verdict.came not in verdict.expected:
                wrong += 1
                expected = " or ".join(map(described, verdict.expected))
                print(f"wrong: {verdict.told}: expected {expected}; came {described(verdict.came)}")
    print(f"in {time.monotonic() - started:.0f} seconds", file=sys.stderr)
    print(f"{tried} tried, {wrong} wrong")
    return 1 if wrong else 0


if __name__ == "__main__":
    sys.exit(main())
