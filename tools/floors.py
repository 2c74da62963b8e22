#!/usr/bin/env python3
"""Prints on which floor each crate stands, and on which crates of the repository: floors.py [--judge]

A crate's floor is one above the highest crate that it stands on, by `crates.txt`. With --judge it prints instead where that
table and the sources differ: a crate that is named there and nowhere in `src`, `specs` and `proofs`, or the other way
round. The status is 1 if there is such a place.
"""
import re
import sys
from pathlib import Path

TOP = Path(__file__).resolve().parent.parent
# What the files of a crate name: `crate::name` in code, `Rattle.crate.` in definitions and proofs.
NAMED = re.compile(r"\bRattle\.(\w+)\.|(?<![\w.:])(\w+)::")


def table():
    """The crates in their order, each with what it stands on."""
    rows = (TOP / "crates.txt").read_text(encoding="utf-8").splitlines()
    return {
        name.split()[0]: libraries.split()
        for name, libraries in (row.split(":") for row in rows if row.strip() and not row.startswith("#"))
    }


def floors(crates):
    """The floor of each crate, from 1."""
    found = {}
    for name, libraries in crates.items():
        found[name] = 1 + max((found[it] for it in libraries if it in crates), default=0)
    return found


def named(name, libraries):
    """Those of the libraries that the files of a crate name."""
    texts = [
        path.read_text(encoding="utf-8")
        for part in ("src", "specs", "proofs")
        for path in (TOP / "crates" / name / part).rglob("*")
        if path.suffix in (".rt", ".antt")
    ]
    words = {word for text in texts for pair in NAMED.findall(text) for word in pair}
    return words & libraries


def differences(crates):
    """A line for each place where the table and the sources differ."""
    every = {it for libraries in crates.values() for it in libraries} | set(crates)
    for name, libraries in crates.items():
        words = named(name, every - {name})
        yield from (f"{name}: crates.txt names {it}, and no file does" for it in libraries if it not in words)
        yield from (f"{name}: its files name {it}, and crates.txt does not" for it in sorted(words - set(libraries)))


def main(words):
    if words not in ([], ["--judge"]):
        print(__doc__.split("\n", 1)[0], file=sys.stderr)
        return 2
    crates = table()
    if words:
        found = list(differences(crates))
        print("\n".join(found + [f"{len(crates)} crates, {len(found)} differences"]))
        return 1 if found else 0
    numbers = floors(crates)
    for name in sorted(crates, key=lambda it: numbers[it]):
        print(numbers[name], f"{name}:", *(it for it in crates[name] if it in crates))
    return 0


if __name__ == "__main__":
    sys.exit(main(sys.argv[1:]))
