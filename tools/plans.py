#!/usr/bin/env python3
"""Tries what `siman plan` says of sources, alone and on as many as you like.

    python3 tools/plans.py [PROGRAM] [--sources N] [--first N] [--folder FOLDER]

It makes the tries of tools/cases/plans.py, which tools/outside.py makes too, and then those of so many further made-up
sources, of which every fourth has no mistake. Each is held against what tools/pages works out of the page alone: the lines in both
spellings, or the fault with its line; the plain script, to the byte. Of the script that the program wrote, `world` and
`show` have to have the sends, answers and states that the lines say, and `plan` has to write it again as it is. The same
numbers make the same sources; a source in a FOLDER that is given stays there. It is no part of the gate.

Each wrong case is told in one line; the last line is `N tried, M wrong`, and the status is 1 if any is wrong.
"""
import argparse
import contextlib
import os
import sys
import tempfile
import time
from pathlib import Path

sys.dont_write_bytecode = True

from cases import plans
from cases.examples import TOP, made_examples
from cases.trials import Trials, described

AT_ONCE = 1000  # sources that are made before they are tried


def arguments():
    form = argparse.RawDescriptionHelpFormatter
    parser = argparse.ArgumentParser(description=__doc__, formatter_class=form)
    default = TOP / "crates" / "siman" / "out" / "siman"
    parser.add_argument("program", nargs="?", type=Path, default=default, help="crates/siman/out/siman if not given")
    parser.add_argument("--sources", type=int, default=0, help="how many further sources are made up (0)")
    parser.add_argument("--first", type=int, default=100_000, help="the number of the first of them (100000)")
    parser.add_argument("--folder", type=Path, help="a new folder for the files of the cases, which are kept there")
    given = parser.parse_args()
    if not os.access(given.program, os.X_OK):
        parser.error(f"there is no program {given.program}: ./siman --build builds it")
    return given


def tries(program, folder, given):
    """Each part of the tries, made when it is their turn."""
    trials = Trials(program, folder)
    plans.try_all(trials, made_examples(folder))
    yield trials
    past = given.first + given.sources
    for first in range(given.first, past, AT_ONCE):
        numbers = range(first, min(first + AT_ONCE, past))
        more = Trials(program, folder / str(first))
        more.folder.mkdir()
        plans.try_made_up(more, set(), [it for it in numbers if it % 4 == 0], [it for it in numbers if it % 4])
        yield more


def main():
    given = arguments()
    if given.folder:
        given.folder.mkdir(parents=True)
    started, tried, wrong = time.monotonic(), 0, 0
    with contextlib.nullcontext(given.folder) if given.folder else tempfile.TemporaryDirectory() as folder:
        for trials in tries(str(given.program.resolve()), Path(folder).resolve(), given):
            for verdict in trials.verdicts():
                tried += 1
                if verdict.came not in verdict.expected:
                    wrong += 1
                    expected = " or ".join(map(described, verdict.expected))
                    print(f"wrong: {verdict.told}: expected {expected}; came {described(verdict.came)}", flush=True)
    print(f"in {time.monotonic() - started:.0f} seconds", file=sys.stderr)
    print(f"{tried} tried, {wrong} wrong")
    return 1 if wrong else 0


if __name__ == "__main__":
    sys.exit(main())
