#!/usr/bin/env python3
"""Times the commands of two built programs side by side, on recordings of each kind of tools/kinds.py.

The programs are two of siman, built of two trees, or the plain program of tools/plain and siman, or any that take the
words `check RECORDING CERTIFICATE` and `audit RECORDING NEW`, and others that --commands names: `show`, `log` and
`review RECORDING`, `convert RECORDING NEW`. Both run on the same files in turn, and in the other order the next time, so
that what else the machine does falls on both; both have to end with the same status and, where they say something, say
the same. To stand siman beside the plain program:

    rustc -O --edition 2021 -o /tmp/plain tools/plain/plain.rs
    python3 tools/beside.py /tmp/plain crates/siman/out/siman --commands check,audit,show,convert,log,review

For each kind it prints of each command the seconds of processor time (user and system time, the least of the runs) and
the peak memory in MiB, before and after, and how many times the one least is the other: below 1 is faster or smaller.
With --instructions it counts the instructions instead, by valgrind, which are the same each time whatever else the
machine does, and with --misses also how often the last cache missed, as valgrind reckons it; a run takes some 50 times
as long so, and fewer entries do: --power 16. It is no part of the gate.
"""
import argparse
import hashlib
import os
import re
import subprocess
import sys
import tempfile
from pathlib import Path

import kinds
from growth import MOST, run

COMMANDS = ("check", "audit", "show", "convert", "log", "review")
MAKING = {"audit": "dsct", "convert": "dsrc"}


def words_of(program, command, folder, name):
    """A command of a program over the files of a kind; what it makes is a file of the program's own."""
    words = [str(program), command, str(folder / "kind.dsrc")]
    if command == "check":
        words.append(str(folder / "kind.dsct"))
    if command in MAKING:
        words.append(str(folder / f"{name}-{command}.{MAKING[command]}"))
    return words


def measured(words, out, given):
    """The status, and the seconds and MiB of one run."""
    if words[1] in MAKING:
        Path(words[-1]).unlink(missing_ok=True)  # no program replaces what an earlier run made
    status, _, memory, seconds = run(words, out, given.seconds)
    return status, (seconds, memory)


def counted(words, out, given):
    """The status, and how many instructions one run takes, in millions, and how many misses of the last cache."""
    with tempfile.TemporaryDirectory() as folder:
        tool = ["valgrind", "--tool=callgrind", f"--callgrind-out-file={folder}/counts"]
        tool += ["--cache-sim=yes"] * given.misses
        with open(out, "wb") as file:
            ended = subprocess.run([*tool, *words], stdout=file, stderr=subprocess.PIPE, text=True, check=False)
    found = re.findall(r"(?:I +refs|LL misses): +([\d,]+)", ended.stderr)
    if len(found) < 1 + given.misses:
        sys.exit(f"beside: valgrind did not run:\n{ended.stderr}")
    return ended.returncode, tuple(int(number.replace(",", "")) / 1e6 for number in found[: 1 + given.misses])


def sum_of(file):
    """A sum of what was said. It is not kept: a program that starts is as large as this script at first."""
    said = hashlib.sha256()
    with open(file, "rb") as it:
        while piece := it.read(1 << 20):
            said.update(piece)
    return said.digest()


def taken_by(programs, command, folder, given):
    """What each program takes in each turn."""
    taken, said = {name: [] for name in programs}, set()
    for turn in range(given.runs):
        order = list(programs) if turn % 2 == 0 else list(programs)[::-1]
        for name in order:
            out = folder / f"{name}.out"
            measure = counted if given.instructions else measured
            status, numbers = measure(words_of(programs[name], command, folder, name), out, given)
            said.add((status, sum_of(out)))
            taken[name].append(numbers)
    if len(said) > 1:
        sys.exit(f"beside: the programs differ in {command}")
    return taken


def line_of(kind, command, taken):
    """A line of the table."""
    cells = []
    for before, after in zip(zip(*taken["before"]), zip(*taken["after"])):
        times = min(after) / min(before) if min(before) else 0
        cells.append(f"{min(before):10.3f} {min(after):10.3f} {times:7.3f}")
    return f"{kind:<10} {command:<8}" + "  ".join(cells)


def words_given():
    form = argparse.RawDescriptionHelpFormatter
    parser = argparse.ArgumentParser(description=__doc__, formatter_class=form)
    parser.add_argument("before", type=Path, help="a built program")
    parser.add_argument("after", type=Path, help="another one")
    parser.add_argument("kinds", metavar="KIND", nargs="*", help="only these kinds (all)")
    parser.add_argument("--commands", default="check,audit", help="of these commands (check,audit)")
    parser.add_argument("--power", type=int, default=20, help="2 to this power are the entries (20)")
    parser.add_argument("--runs", type=int, help="how often each runs (5; 1 of instructions)")
    parser.add_argument("--seconds", type=float, default=60, help="the most that a run may take (60)")
    parser.add_argument("--instructions", action="store_true", help="count instructions, in millions, by valgrind")
    parser.add_argument("--misses", action="store_true", help="with them the misses of the last cache, in millions")
    given = parser.parse_intermixed_args()
    given.runs = given.runs or (1 if given.instructions else 5)
    given.instructions |= given.misses
    given.commands = given.commands.split(",")
    for command in given.commands:
        if command not in COMMANDS:
            parser.error(f"{command!r} is none of {', '.join(COMMANDS)}")
    for kind in given.kinds:
        if kind not in kinds.KINDS:
            parser.error(f"{kind!r} is no kind: {', '.join(kinds.KINDS)}")
    for program in (given.before, given.after):
        if not os.access(program, os.X_OK):
            parser.error(f"{program} is not built")
    return given


def main():
    given = words_given()
    programs = {"before": given.before.resolve(), "after": given.after.resolve()}
    columns = ("instructions", "misses")[: 1 + given.misses] if given.instructions else ("seconds", "MiB")
    print(f"{'kind':<10} {'':<8}" + "  ".join(f"{name + ' before':>10} {'after':>10} {'times':>7}" for name in columns))
    with tempfile.TemporaryDirectory() as made:
        folder = Path(made)
        for kind in given.kinds or kinds.KINDS:
            power = min(given.power, MOST.get(kind, 20))
            files = [folder / "kind.dsrc", folder / "kind.dsct"]
            subprocess.run([sys.executable, kinds.__file__, kind, str(2**power), *files], check=True)
            for command in given.commands:
                print(line_of(kind, command, taken_by(programs, command, folder, given)), flush=True)


if __name__ == "__main__":
    main()
