#!/usr/bin/env python3
"""Tries what `import` and `export` make of captures and recordings.

    python3 tools/captures.py [--program PROGRAM] [--count N] [--first N] [--hostile N] [--folder FOLDER] [PART ..]
    python3 tools/captures.py --write

What they have to make is computed by an independent reading, tools/pages/. With a PROGRAM, each part runs it too and
compares what it prints, makes and takes of memory. The parts, all of them but `speed` if none is named:

- cases: import.cases and export.cases of siman_cases are as they are made of the reading, where siman_cases tries them;
  --write makes those.
- words: a program with good and bad words, files under several names, pipes, streams that fail.
- worked: the captures of examples/captures/, and what has to come of them to the byte.
- made: captures that are made up by a seed, of both formats, all byte orders and links: what is kept of each frame is
  what tshark shows with port, host and family, but for what stands below. Recordings that are exported and read back, one
  in ten of them also by tshark.
- networks: two hosts in namespaces of their own with a wire between them; tcpdump and dumpcap in both, on the interface
  and on `any`, while datagrams go to one, to a group and to all, some in fragments. Needs root, ip, tcpdump, dumpcap.
- hostile: captures that are made up and spoilt: lengths, options, blocks, fragments; for a program also records and blocks
  of 4 GiB, and recordings that are full.
- speed: `import` beside tcpdump and tshark, on a capture of 1 GiB in which one packet in a thousand is kept.

tshark reads these otherwise, and they are left out, and counted where it makes a difference: fragments that overlap (it
takes the first bytes) or come late (it waits for ever); a packet of IP longer than its frame, and one with a total length
of 0 (it shows what is there); a UDP length of 0; a packet in a packet; names of interfaces in a later section (it takes
those of the first). A simple block has no stamp there; stamps finer than 2^-33 seconds run over there.

Each wrong case is told in one line; the last line is `N tried, M wrong`, and the status is 1 if any is wrong. It is no
part of the gate.
"""
import argparse
import os
import sys
import tempfile
import time
from pathlib import Path

sys.dont_write_bytecode = True

from cases import captured, exports, import_words, imports, large_captures, speeds, spoilt_captures, wires
from cases.examples import TOP

PARTS = ("cases", "words", "worked", "made", "networks", "hostile", "speed")
DATA = TOP / "crates" / "siman_cases" / "data"
CASES = {"import.cases": imports.cases, "export.cases": exports.cases}


def arguments():
    form = argparse.RawDescriptionHelpFormatter
    parser = argparse.ArgumentParser(description=__doc__, formatter_class=form)
    parser.add_argument("--program", type=Path, help="a program with `import` and `export`; without it the reading is tried alone")
    parser.add_argument("--count", type=int, default=1000, help="how many captures are made up")
    parser.add_argument("--first", type=int, default=0, help="the first seed")
    parser.add_argument("--hostile", type=int, default=100_000, help="how many captures are spoilt")
    parser.add_argument("--folder", type=Path, help="a folder for the files, which is there")
    parser.add_argument("--write", action="store_true", help="writes the files of cases, and tries nothing")
    parser.add_argument("parts", nargs="*", metavar="PART", help=", ".join(PARTS))
    given = parser.parse_args()
    if not set(given.parts) <= set(PARTS):
        parser.error(f"the parts are {', '.join(PARTS)}")
    if given.program and not os.access(given.program, os.X_OK):
        parser.error(f"there is no program {given.program}")
    return given


def made_cases():
    """The files of cases that siman_cases tries, and their texts."""
    tried = (DATA.parent / "args").read_text(encoding="utf-8").split()
    return {DATA / name: "\n".join(made()) + "\n" for name, made in CASES.items() if name in tried}


def try_cases(trial):
    made = made_cases()
    for path, text in made.items():
        trial.state(f"{path.name} is as it is made", path.is_file() and path.read_text(encoding="utf-8") == text)
    trial.skipped += [f"{name}, which siman_cases has not" for name in CASES if DATA / name not in made]


def try_parts(trial, given):
    parts = given.parts or PARTS[:-1]
    if "cases" in parts:
        try_cases(trial)
    if "words" in parts:
        import_words.try_all(trial)
    if "worked" in parts:
        captured.try_worked(trial)
    if "made" in parts:
        captured.try_made(trial, range(given.first, given.first + given.count))
    if "networks" in parts:
        wires.try_networks(trial)
    if "hostile" in parts:
        spoilt_captures.try_spoilt(trial, given.hostile, given.first)
        large_captures.try_all(trial)
    trial.run()
    if "speed" in parts:
        speeds.try_speed(trial)


def main():
    given = arguments()
    if given.write:
        for path, text in made_cases().items():
            path.write_text(text, encoding="utf-8")
        return 0
    started = time.monotonic()
    with tempfile.TemporaryDirectory(dir=given.folder) as folder:
        trial = captured.Trial(given.program and str(given.program.resolve()), folder)
        try_parts(trial, given)
    for name, count in sorted(trial.counts.items()):
        print(f"{name}: {count}")
    for skipped in trial.skipped:
        print(f"skipped: {skipped}")
    if trial.program:
        print(f"peak memory: {trial.most[1]} KiB, {trial.most[0]} KiB without twice what was made")
    print(f"in {time.monotonic() - started:.0f} seconds", file=sys.stderr)
    print(f"{trial.tried} tried, {trial.wrong} wrong")
    return 1 if trial.wrong or not trial.tried else 0


if __name__ == "__main__":
    sys.exit(main())
