#!/usr/bin/env python3
"""Runs the gate, `tools/gate`, and tells where its time goes: by crate, and by kind.

    python3 tools/gate.py [FOLDER]        FOLDER: the repository; this one, if left out

What the gate prints goes to standard output as it comes. Behind it stand its minutes of the clock,
its processor minutes, and two tables. Each process is looked at twice a second until it ends, so
what begins and ends between two looks stands under `other`. For two processors:

    taskset -c 0,1 python3 tools/gate.py

A figure is worth its name on a machine that does nothing else: the load before it is told too.
"""
import collections
import os
import re
import resource
import subprocess
import sys
import threading
import time

TICKS = os.sysconf("SC_CLK_TCK")
EVERY = 0.5


def words_of(pid):
    """The words of a process's command line."""
    with open(f"/proc/{pid}/cmdline", "rb") as it:
        return it.read().decode(errors="replace").split("\0")


def seconds_of(pid):
    """The processor seconds that a process has taken itself, and when it began."""
    with open(f"/proc/{pid}/stat") as it:
        fields = it.read().rpartition(")")[2].split()
    return (int(fields[11]) + int(fields[12])) / TICKS, fields[19]


def kind_of(pid, words):
    """The crate that a process of the gate works on, and what it does there; nothing for another process."""
    program = next((it for it in words if os.path.basename(it) in ("rattle", "rattle-link")), None)
    if program is None:
        return None
    if "--crate-name" not in words:
        return "", "link"
    crate = words[words.index("--crate-name") + 1]
    if os.path.basename(os.readlink(f"/proc/{pid}/cwd")).startswith("rt-edit-"):
        return crate, "edits"
    if "--test" in words:
        return crate, "tests"
    if "--crate-checked" in words:
        return crate, f"code by {words[words.index('--backend') + 1]}"
    return crate, "proof"


def parents():
    """The parent of each process."""
    found = {}
    for pid in filter(str.isdigit, os.listdir("/proc")):
        try:
            with open(f"/proc/{pid}/stat") as it:
                found[pid] = it.read().rpartition(")")[2].split()[1]
        except (OSError, IndexError):
            continue
    return found


def is_ours(pid, above):
    """Whether a process stands below this one."""
    while pid in above:
        pid = above[pid]
        if pid == str(os.getpid()):
            return True
    return False


def look(seen):
    """Adds what each process of the gate has taken so far."""
    above = parents()
    for pid in above:
        try:
            kind = is_ours(pid, above) and kind_of(pid, words_of(pid))
            if kind:
                spent, began = seconds_of(pid)
                seen[pid, began] = kind, spent
        except (OSError, IndexError, ValueError):
            continue


def watch(seen, ended):
    """Looks at the processes until the gate has ended."""
    while not ended.wait(EVERY):
        look(seen)


def tell(heading, sums):
    """Prints a table of processor seconds, the most first."""
    print(f"\n| {heading} | Processor seconds |\n|---|---|")
    for name, spent in sums.most_common():
        print(f"| {name} | {spent:.0f} |")


def tell_crates(crates, both):
    """Prints a table of processor seconds by crate, the most first, with those of its proofs, tests and edits."""
    print("\n| Crate | Processor seconds | proof | tests | edits |\n|---|---|---|---|---|")
    for name, spent in crates.most_common():
        parts = " | ".join(f"{both[name, kind]:.0f}" for kind in ("proof", "tests", "edits"))
        print(f"| {name} | {spent:.0f} | {parts} |")


def main(folder="."):
    load = os.getloadavg()[0]
    seen, ended, began = {}, threading.Event(), time.monotonic()
    watcher = threading.Thread(target=watch, args=(seen, ended))
    watcher.start()
    status = subprocess.run([os.path.join(folder, "tools", "gate")], stdin=subprocess.DEVNULL).returncode
    ended.set()
    watcher.join()
    clock, used = time.monotonic() - began, resource.getrusage(resource.RUSAGE_CHILDREN)
    whole = used.ru_utime + used.ru_stime
    crates, kinds, both = collections.Counter(), collections.Counter(), collections.Counter()
    for (crate, kind), spent in seen.values():
        name = f"`{crate}`" if crate else "linking"
        crates[name] += spent
        both[name, kind] += spent
        kinds[re.sub("^code by (.*)$", r"code, by \1", kind)] += spent
    rest = whole - sum(kinds.values())
    crates["other"] += rest
    kinds["other: the runs, what was too short to be seen"] += rest
    print(f"\n{clock / 60:.1f} minutes of the clock, {whole / 60:.1f} processor minutes, ", end="")
    print(f"{len(os.sched_getaffinity(0))} processors, load {load:.2f} before")
    tell_crates(crates, both)
    tell("Kind", kinds)
    return status


if __name__ == "__main__":
    sys.exit(main(*sys.argv[1:]))
