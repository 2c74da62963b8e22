#!/usr/bin/env python3
"""Tries the built program siman from outside, as a user would.

It runs every command on good and bad words, input and files, with streams that are full, closed or not read, and with
memory refused at each allocation in turn, and compares the exit status and both streams with what the pages README.md,
READING.md, SCRIPTS.md and NETWORK.md of docs/staff/ and docs/integrators/FORMATS.md say. What they say is computed in
pages/, which knows nothing of the program; the cases stand in cases/. The scripts of examples/ and tools/ that write
recordings are tried with it. It is no part of the gate.

Each wrong case is told in one line; the last line is `N tried, M wrong`, and the status is 1 if any is wrong.
"""
import argparse
import contextlib
import os
import sys
import tempfile
import time
from pathlib import Path

sys.dont_write_bytecode = True

from cases import (
    audits, charts, converts, counts, datagrams, exports, files, folders, histories, joins, lives, logs, memory, mends, plans, reasons,
    reviews, saving, scripts, sizes, sockets, stations, streams, whys, words, worlds,
)  # fmt: skip
from cases.examples import TOP, made_examples
from cases.trials import Trials, described


def arguments():
    form = argparse.RawDescriptionHelpFormatter
    parser = argparse.ArgumentParser(description=__doc__, formatter_class=form)
    default = TOP / "crates" / "siman" / "out" / "siman"
    parser.add_argument("program", nargs="?", type=Path, default=default, help="crates/siman/out/siman if not given")
    parser.add_argument("--folder", type=Path, help="a new folder for the files of the cases, which are kept there")
    given = parser.parse_args()
    if not os.access(given.program, os.X_OK):
        parser.error(f"there is no program {given.program}: ./siman --build builds it")
    return given.program.resolve(), given.folder


def try_program(program, folder):
    """How many cases were tried and how many were wrong, which are told."""
    tried = wrong = 0
    trials = Trials(str(program), folder)
    examples = made_examples(folder)
    parts = (
        words, datagrams, files, histories, audits, converts, mends, joins, exports, reviews, logs, counts, whys, charts, scripts, worlds, plans,
        lives, sockets, stations, sizes, saving, folders, reasons,
        streams, memory,
    )  # fmt: skip
    for part in parts:
        part.try_all(trials, examples)
    for verdict in trials.verdicts():
        tried += 1
        if verdict.came not in verdict.expected:
            wrong += 1
            expected = " or ".join(map(described, verdict.expected))
            print(f"wrong: {verdict.told}: expected {expected}; came {described(verdict.came)}")
    for skipped in trials.skipped:
        print(f"skipped: {skipped}")
    return tried, wrong


def main():
    program, kept = arguments()
    if kept:
        kept.mkdir(parents=True)
    started = time.monotonic()
    with contextlib.nullcontext(kept) if kept else tempfile.TemporaryDirectory() as folder:
        tried, wrong = try_program(program, Path(folder).resolve())
    print(f"in {time.monotonic() - started:.0f} seconds", file=sys.stderr)
    print(f"{tried} tried, {wrong} wrong")
    return 1 if wrong else 0


if __name__ == "__main__":
    sys.exit(main())
