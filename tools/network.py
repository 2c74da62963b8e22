#!/usr/bin/env python3
"""Tries the command `station` of the built program over UDP, as machines of an exercise would use it.

    python3 tools/network.py [--program PROGRAM] [--seeds N] [--folder FOLDER] [PART ..]

The parts, all of them if none is named:

- exercises: two and four processes, each with its own recording, and a proxy between them that loses, copies and swaps
  datagrams by a seed. In some seeds one process is killed and its file mended; in some a datagram is forged in the name of
  a station; in some all go by the system's clock and repeat by themselves. Each piece alone, read as open, and all
  joined, closed, are searched, checked and reviewed: a recording is explained unless a station recorded what its sender
  never sent, and what is printed is what tools/pages computes of it.
- peers: a station among peers that are not siman, whose datagrams are damaged, foreign, of another version, too long or
  in its own name. What it sends, records, prints and tells is what tools/pages computes, byte by byte; only where the notes
  of strangers stand is left open.
- calls: in order of its calls of the system, each datagram that it sends stands whole in its file before its first sendto.
- waiting: what comes while nobody types, at a pipe and a terminal, is answered and printed within 50 ms; files and
  /dev/null; an idle station; 2,000 Entity States a second beside 50 orders; and more than the socket holds, which is
  counted, and noted, as the system counts it.
- clock: a station by the system's clock (`clock=system`): its stamps and timestamps, orders that are sent again by
  themselves within 50 ms of their time, while nobody types, in the middle of a line, beside traffic and after a
  standstill, and given up at last; what is answered is not sent again; `at` is refused; idle stations. What it records,
  prints and sends is what tools/pages computes of a clock that shows the stamps of its entries.
- flood: 100,000 datagrams as fast as a peer can send them: what came is recorded and answered, or was thrown away by the
  system; what is passed over takes no memory, and what is recorded its bytes and some more.

PROGRAM is crates/siman/out/siman if not given. Each wrong case is told in one line; the last line is `N tried, M wrong`,
and the status is 1 if any is wrong. It is no part of the gate.
"""
import argparse
import contextlib
import os
import sys
import tempfile
import time
from pathlib import Path

sys.dont_write_bytecode = True

from cases import clocked, exercises, floods, hostile_peer, waiting
from cases.examples import TOP
from cases.trials import Trials, described

PARTS = ("exercises", "peers", "calls", "waiting", "clock", "flood")


def arguments():
    form = argparse.RawDescriptionHelpFormatter
    parser = argparse.ArgumentParser(description=__doc__, formatter_class=form)
    parser.add_argument("--program", type=Path, default=TOP / "crates" / "siman" / "out" / "siman")
    parser.add_argument("--seeds", type=int, default=200, help="how many seeds of the first two parts")
    parser.add_argument("--first", type=int, default=0, help="the first seed")
    parser.add_argument("--folder", type=Path, help="a new folder for the files, which are kept there")
    parser.add_argument("parts", nargs="*", metavar="PART", help=", ".join(PARTS))
    given = parser.parse_args()
    if not os.access(given.program, os.X_OK):
        parser.error(f"there is no program {given.program}: ./siman --build builds it")
    if not set(given.parts) <= set(PARTS):
        parser.error(f"the parts are {', '.join(PARTS)}")
    return given


def add_tasks(trials, given):
    parts, seeds = given.parts or PARTS, range(given.first, given.first + given.seeds)
    if "exercises" in parts:
        for seed in seeds:
            for count in (2, 4):
                how = {"kills": seed % 3 == 1, "forges": seed % 5 == 2, "by_system": seed % 4 == 3}
                trials.tasks.append(lambda count=count, seed=seed, how=how: exercises.try_exercise(trials, count, seed, **how))
    if "peers" in parts:
        trials.tasks += [lambda seed=seed: hostile_peer.try_seed(trials, seed) for seed in seeds]
    if "calls" in parts:
        trials.tasks.append(lambda: floods.try_order_of_calls(trials))


def told(trials):
    tried = wrong = 0
    for verdict in trials.verdicts():
        tried += 1
        if verdict.came not in verdict.expected:
            wrong += 1
            expected = " or ".join(map(described, verdict.expected))
            print(f"wrong: {verdict.told}: expected {expected}; came {described(verdict.came)}")
    return tried, wrong


def main():
    given = arguments()
    if given.folder:
        given.folder.mkdir(parents=True)
    started = time.monotonic()
    with contextlib.nullcontext(given.folder) if given.folder else tempfile.TemporaryDirectory() as folder:
        trials = Trials(str(given.program.resolve()), Path(folder).resolve())
        add_tasks(trials, given)
        tried, wrong = told(trials)
        # With nothing else at work, so that their figures say something.
        alone = list(waiting.TRIES) if "waiting" in (given.parts or PARTS) else []
        alone += clocked.TRIES if "clock" in (given.parts or PARTS) else []
        alone += [floods.try_orders, floods.try_foreign] if "flood" in (given.parts or PARTS) else []
        for one in alone:
            trials.tasks = [lambda one=one: one(trials)]
            more, worse = told(trials)
            tried, wrong = tried + more, wrong + worse
    if exercises.FATES:
        print("exercises and orders:", *(f"{name}={count}" for name, count in sorted(exercises.FATES.items())))
    for skipped in trials.skipped:
        print(f"skipped: {skipped}")
    print(f"in {time.monotonic() - started:.0f} seconds", file=sys.stderr)
    print(f"{tried} tried, {wrong} wrong")
    return 1 if wrong else 0


if __name__ == "__main__":
    sys.exit(main())
