#!/usr/bin/env python3
"""Times `join` beside `convert`: the same entries in pieces, and in one recording of the first format.

It makes a recording of 1,048,576 entries at 256 stations, cut into 2 and into 256 pieces, and runs the built program on
each in turn, so many times over; the runs of all of them follow each other in each round. Of each it prints the least
time of the processor and the peak memory, and how many times those of `convert` they are. The joined files have to be the
bytes that `convert` makes. With --judge the status is 1 where either is more than 1.3 times that of `convert`.
"""
import argparse
import os
import subprocess
import sys
import tempfile
from pathlib import Path

sys.dont_write_bytecode = True

TOP = Path(__file__).resolve().parent.parent
STATIONS, ENTRIES, MOST = 256, 1_048_576, 1.3
DATAGRAM = bytes.fromhex("07010B0500000000001C000000010001000000020003000700000001")


def entry(index, number):
    """A datagram that was received, or a state that was told."""
    if number % 4 == 3:
        return b"\3" + index.to_bytes(2, "big") + b"\0\7\0"
    return b"\2" + index.to_bytes(2, "big") + number.to_bytes(8, "big") + len(DATAGRAM).to_bytes(2, "big") + DATAGRAM


def recording(stations, logs):
    """A recording of these stations, by their numbers from 0, with a log each of so many entries."""
    head = b"DSRC0001\1" + len(stations).to_bytes(2, "big")
    lines = b"".join((station + 1).to_bytes(2, "big") + b"\0\1\0\0" for station in stations)
    entries = b"".join(entry(index, number) for index in range(len(stations)) for number in range(logs))
    return head + lines + entries + b"\0" + (len(stations) * logs).to_bytes(4, "big")


def make(folder, names):
    """Makes the files of so many pieces."""
    size = STATIONS // len(names)
    for piece, name in enumerate(names):
        text = recording(range(piece * size, (piece + 1) * size), ENTRIES // STATIONS)
        (folder / name).write_bytes(text)


def made(folder, count):
    """The names of so many pieces. They are made by a process of its own, since the peak memory of a program counts
    that of the one that started it."""
    names = [f"{count}.{piece}.dsrc" for piece in range(count)]
    child = os.fork()
    if child == 0:
        make(folder, names)
        os._exit(0)
    if os.waitpid(child, 0)[1]:
        sys.exit("the pieces could not be made")
    return names


def same(folder, name):
    """Whether a joined file has the bytes of the converted one."""
    return subprocess.run(["cmp", "-s", name, "converted"], cwd=folder, check=False).returncode == 0


def run(program, folder, words):
    """The seconds of the processor and the peak memory in KiB of a run."""
    done = subprocess.Popen([program, *words], cwd=folder, stdout=subprocess.DEVNULL)
    _, status, used = os.wait4(done.pid, 0)
    done.returncode = os.waitstatus_to_exitcode(status)
    if done.returncode:
        sys.exit(f"siman {words[0]}: status {done.returncode}")
    return used.ru_utime + used.ru_stime, used.ru_maxrss


def main():
    parser = argparse.ArgumentParser(description=__doc__, formatter_class=argparse.RawDescriptionHelpFormatter)
    parser.add_argument("--program", type=Path, default=TOP / "crates" / "siman" / "out" / "siman")
    parser.add_argument("--rounds", type=int, default=5)
    parser.add_argument("--judge", action="store_true")
    given = parser.parse_args()
    with tempfile.TemporaryDirectory() as name:
        folder = Path(name)
        whole = made(folder, 1)[0]
        ways = {"convert": ["convert", whole, "converted", "--force"]}
        for count in (2, 256):
            ways[f"join of {count}"] = ["join", *made(folder, count), f"joined.{count}", "--force"]
        best = {}
        for _ in range(given.rounds):
            for way, words in ways.items():
                took = run(given.program.resolve(), folder, words)
                best[way] = tuple(map(min, best.get(way, took), took))
        wrong = [count for count in (2, 256) if not same(folder, f"joined.{count}")]
    seconds, memory = best["convert"]
    print("| | seconds | of `convert` | MiB | of `convert` |\n|---|---|---|---|---|")
    for way, (took, peak) in best.items():
        print(f"| {way} | {took:.2f} | {took / seconds:.2f} | {peak / 1024:.0f} | {peak / memory:.2f} |")
    for count in wrong:
        print(f"wrong: the bytes of {count} pieces")
    over = any(took > MOST * seconds or peak > MOST * memory for took, peak in best.values())
    return 1 if wrong or (given.judge and over) else 0


if __name__ == "__main__":
    sys.exit(main())
