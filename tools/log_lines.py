#!/usr/bin/env python3
"""Reads what `log --json` says of made-up recordings of many entries, line by line, with Python's json.

For each kind of tools/kinds.py it runs the program on a recording of so many entries, 1,048,576 if not given, and asks of
each line: that it is one object of ASCII; that no key comes twice; that its first key is `line`; that no clock is
anything but a string of digits; and of the lines together that the `entry` lines have each number once, rising, and that
records and changes follow the entry that they name. It prints a line a kind, and ends with status 1 where something is
wrong. It is no part of the gate.
"""
import argparse
import json
import subprocess
import sys
import tempfile
from pathlib import Path

import kinds

NAMES = {"entry", "fixed", "variable", "change"}
# What the datagrams leave room for in 268,435,456 bytes.
MOST = {"large": 32_768}
CLOCKS = ("clock", "since", "until", "took")
DEFAULT = Path(__file__).resolve().parent.parent / "crates" / "siman" / "out" / "siman"


class Wrong(Exception):
    """What is wrong with a line."""


def object_of(pairs):
    values = dict(pairs)
    if len(values) != len(pairs):
        raise Wrong("a key comes twice")
    if not pairs or pairs[0][0] != "line" or values["line"] not in NAMES:
        raise Wrong("the first key is not that of the line")
    for clock in CLOCKS:
        if clock in values and not (isinstance(values[clock], str) and values[clock].isdigit()):
            raise Wrong(f"{clock} is no string of digits")
    return values


def read_lines(lines):
    """How many lines there are, and how many entries; a Wrong where something is."""
    count, entry = 0, -1
    for count, line in enumerate(lines, 1):
        values = json.loads(line.decode("ascii"), object_pairs_hook=object_of)
        if values["line"] == "entry":
            if values["entry"] != entry + 1:
                raise Wrong(f"entry {values['entry']} stands behind entry {entry}")
            entry += 1
        elif values["entry"] != entry:
            raise Wrong(f"a {values['line']} of entry {values['entry']} stands behind entry {entry}")
    return count, entry + 1


def try_kind(program, kind, count, folder):
    recording = Path(folder) / "kind.dsrc"
    text = kinds.texts_of(kind, count)[0]
    recording.write_bytes(text)
    with subprocess.Popen([program, "log", str(recording), "--json"], stdout=subprocess.PIPE) as running:
        try:
            lines, entries = read_lines(running.stdout)
        except (Wrong, ValueError) as wrong:
            running.kill()
            return f"{kind}: wrong: {wrong}", False
    told = int.from_bytes(text[-4:], "big")
    good = running.returncode == 0 and entries == told
    return f"{kind}: {lines} lines of {entries} entries, status {running.returncode}", good


def main():
    parser = argparse.ArgumentParser(description=__doc__, formatter_class=argparse.RawDescriptionHelpFormatter)
    parser.add_argument("kinds", nargs="*", default=list(kinds.KINDS), help="all if none is given")
    parser.add_argument("--program", default=DEFAULT, type=Path)
    parser.add_argument("--entries", default=kinds.MOST_ENTRIES, type=int)
    given = parser.parse_args()
    good = True
    with tempfile.TemporaryDirectory() as folder:
        for kind in given.kinds:
            line, right = try_kind(given.program, kind, min(given.entries, MOST.get(kind, given.entries)), folder)
            print(line, flush=True)
            good = good and right
    sys.exit(not good)


if __name__ == "__main__":
    main()
