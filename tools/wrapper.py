#!/usr/bin/env python3
"""Tries the wrapper ./siman from outside, with a stand-in for rt (tools/stand_in), in clones of its own.

It tries a fresh clone, no toolchain, an interrupted build and an interrupted first answer, two calls at once, a
read-only clone, a full disk, a newer source, odd words and streams (cases/wrapper_situations.py,
cases/wrapper_words.py). The stand-in has a program whose answers tell what it was given: from the sources they must be
what the built program answers. The two situations that mount something are skipped where that is not allowed.

With --real it tries the first answers of a fresh clone with the real rt in their place (cases/wrapper_real.py), a
minute or two each, and compares them with what the pages say. It is no part of the gate.

Each wrong case is told in one line; the last line is `N tried, M wrong`, and the status is 1 if any is wrong.
"""
import argparse
import subprocess
import sys
import tempfile
import time
from pathlib import Path

sys.dont_write_bytecode = True

from cases.trials import first_lines
from cases.wrapper_real import REAL
from cases.wrapper_situations import SITUATIONS, TOP, Clone, of_program


def with_stand_in(only):
    """What was tried, and whether it went well."""
    for situation in SITUATIONS:
        if only and situation.__name__ not in only:
            continue
        with tempfile.TemporaryDirectory(prefix="siman-wrapper-") as folder:
            for tried in situation(Clone(Path(folder).resolve())):
                if isinstance(tried, str):
                    print(f"skipped: {tried}")
                else:
                    yield f"{situation.__name__}: {tried[0]}", tried[1]


def real_answer(clone, words, script):
    """What ./siman answers: its status, both streams, and how long it took."""
    given = b""
    if script is not None:
        given = (clone / script).read_bytes() if script.startswith("examples/") else script.encode()
    started = time.monotonic()
    done = subprocess.run([clone / "siman", *words], cwd=clone, input=given, capture_output=True, check=False)
    wrote, said = done.stdout.decode(), of_program(first_lines(done.stderr).decode())
    return done.returncode, wrote, said, time.monotonic() - started


def with_real_rt(count):
    with tempfile.TemporaryDirectory(prefix="siman-wrapper-") as folder:
        clone = Path(folder).resolve() / "clone"
        subprocess.run(["git", "clone", "-q", "--no-hardlinks", TOP, clone], check=True)
        subprocess.run(["sh", "examples/make"], cwd=clone, check=True)
        for words, script, out, errors, status in REAL[:count]:
            came = real_answer(clone, words, script)
            print(f"{words}: {came[3]:.0f} seconds", file=sys.stderr, flush=True)
            whole = came[1] == out if out.endswith("running\n") or words[0:1] == ["pdus"] else came[1].startswith(out)
            yield f"{words}: {came}", came[0] == status and whole and came[2].startswith(errors)


def main():
    form = argparse.RawDescriptionHelpFormatter
    parser = argparse.ArgumentParser(description=__doc__, formatter_class=form)
    parser.add_argument("--real", action="store_true", help="try first answers with the real rt")
    parser.add_argument("--count", type=int, help="of --real, so many of the first cases alone")
    parser.add_argument("--only", nargs="+", metavar="SITUATION", help="these situations alone")
    given = parser.parse_args()
    tried = wrong = 0
    for told, is_well in with_real_rt(given.count) if given.real else with_stand_in(given.only):
        tried += 1
        if not is_well:
            wrong += 1
            print(f"wrong: {' '.join(told.splitlines())}", flush=True)
    print(f"{tried} tried, {wrong} wrong")
    return 1 if wrong else 0


if __name__ == "__main__":
    sys.exit(main())
