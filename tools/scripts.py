#!/usr/bin/env python3
"""Times `siman world` over scripts of growing size, up to the largest that is read.

    python3 tools/scripts.py [PROGRAM]

Of three kinds: `moves`, in which sixteen stations order, deliver, tick and tell in turn (of each four moves one is an
order to the next station, one brings that order to it, one brings its answer back, and one is a tick or a tell);
`ticks`, in which a manager makes so many orders and then as many ticks, each of which repeats one of them; `datums`,
in which a station with so many datums is asked for 1,000 of them, 60 times. It prints a line for each kind and size:
moves, bytes of the script, what `world` says, seconds of wall time (the least of three runs), seconds for a thousand
moves, and the most memory that the program held so far, in MiB. PROGRAM is crates/siman/out/siman if left out.
"""
import os
import resource
import subprocess
import sys
import tempfile
import time

LARGEST_SCRIPT = 1_048_576
STATIONS = [(1, number) for number in range(1, 17)]


def script(moves):
    """The text of a script of so many moves, or of as many as fit."""
    lines = ["exercise 1"]
    lines += [f"station {site}:{application} first=1 tries=1000000 wait=1000000" for site, application in STATIONS]
    lines += [f"opening {site}:{application} 7 stopped" for site, application in STATIONS]
    size = sum(len(line) + 1 for line in lines)
    sent = 0
    made = 0
    for turn in range(moves):
        at = turn % len(STATIONS)
        one = "%d:%d" % STATIONS[at]
        other = "%d:%d" % STATIONS[(at + 1) % len(STATIONS)]
        order = ("start", "stop")[turn // len(STATIONS) % 2]
        last = (f"tick {one}", f"tell {other} 7")[turn % 2]
        four = [f"{order} {one} {other}:7", f"deliver {sent} {other}", f"deliver {sent + 1} {one}", last]
        sent += 2
        for line in four:
            size += len(line) + 1
            if made == moves or size > LARGEST_SCRIPT:
                return "\n".join(lines) + "\n", made
            lines.append(line)
            made += 1
    return "\n".join(lines) + "\n", made


def ticks(orders):
    """A script of so many orders that nothing answers, and as many ticks when all of them are due."""
    lines = ["exercise 1", "station 1:1", "station 2:3"] + ["create 1:1 2:3:7"] * orders
    lines += ["at 100"] + ["tick 1:1"] * orders
    return "\n".join(lines) + "\n", 2 * orders


def datums(held):
    """A script in which a station that holds so many datums is asked for 1,000 of them, 60 times."""
    lines = ["exercise 1", "station 1:1", "station 2:3"] + [f"fixed 2:3 {name} {name}" for name in range(held)]
    step = held // 1000
    for query in range(60):
        lines.append("query 1:1 2:3:0 " + " ".join(str(name * step + query % step) for name in range(1000)))
    lines += [f"deliver {query} 2:3" for query in range(60)]
    return "\n".join(lines) + "\n", 120


def run(program, text, folder):
    """Seconds of the fastest of three runs, and the line of the program."""
    name = os.path.join(folder, "script")
    with open(name, "w", encoding="ascii") as file:
        file.write(text)
    least = None
    for _ in range(3):
        begun = time.perf_counter()
        done = subprocess.run([program, "world", name, os.path.join(folder, "rec"), "--force"], capture_output=True, check=False)
        took = time.perf_counter() - begun
        if done.returncode != 0:
            sys.exit(f"status {done.returncode}: {done.stderr.decode().strip()}")
        least = took if least is None else min(least, took)
    return least, done.stdout.decode().strip()


def main():
    if len(sys.argv) > 2 or sys.argv[1:2] == ["--help"]:
        sys.exit(__doc__.strip())
    here = os.path.dirname(os.path.abspath(__file__))
    program = sys.argv[1] if len(sys.argv) == 2 else os.path.join(here, "..", "crates", "siman", "out", "siman")
    if not os.access(program, os.X_OK):
        sys.exit(f"no program: {program}")
    kinds = {
        "moves": (script, (1_000, 2_000, 5_000, 10_000, 20_000, 40_000, 1_000_000)),
        "ticks": (ticks, (1_000, 5_000, 10_000, 20_000, 35_000)),
        "datums": (datums, (1_000, 2_000, 5_000, 10_000, 20_000)),
    }
    with tempfile.TemporaryDirectory() as folder:
        for kind, (make, sizes) in kinds.items():
            for size in sizes:
                text, made = make(size)
                seconds, line = run(program, text, folder)
                memory = resource.getrusage(resource.RUSAGE_CHILDREN).ru_maxrss / 1024
                each = 1000 * seconds / made
                print(
                    f"{kind} of={size} moves={made} bytes={len(text)} {line}"
                    f" seconds={seconds:.3f} per-1000={each:.4f} MiB={memory:.0f}"
                )


if __name__ == "__main__":
    main()
