#!/usr/bin/env python3
"""Times `siman check`, `audit` and `review` on recordings of growing size, of each kind of tools/kinds.py.

Beside them stand the plain sum of a recording's bytes and a plain program of the same work without proofs
(tools/plain/plain.rs), which is built where there is a rustc; where there is none, its columns are left out. Where the
plain program is there, the two have to answer the same bytes.

For each kind and size it prints the seconds of processor time in the program itself (user time, the least of the runs),
the peak memory in MiB, and how each grows: the exponent from the size before, so 1.0 is in step with the entries and
2.0 with their square; and last how many times the plain program's time and memory check and audit take, and how many
times the time of audit review takes, with system time too. Memory below some 16 MiB is not seen: so much this script has itself; and times of a few milliseconds are rough. A command that takes
longer than --seconds is not timed at the sizes above. The built program is taken as it is: `./siman --build` proves
and builds it first. It is no part of the gate.

With --judge, `check`, `audit` and `review` may grow with an exponent of 1.4 at most, in time and in memory, from the
first size that takes 0.02 seconds or 32 MiB to the last, two doublings further at least: what lies nearer says little.
`check` and `audit` may take 5 times what the plain program takes, where that is there and takes 0.05 seconds, `review`
2.5 times what `audit` takes of the same file in the same run, where that is 0.2 seconds; and none longer than
--seconds. What is more is told on standard error, and the status is 1. A review of more lines than it may have is
refused with status 2, and is not timed.
"""
import argparse
import math
import os
import shutil
import signal
import subprocess
import sys
import tempfile
from pathlib import Path

import kinds

TOP = Path(__file__).resolve().parent.parent
PROGRAM = TOP / "crates" / "siman" / "out" / "siman"
PLAIN = TOP / "tools" / "plain" / "plain.rs"
# What the datagrams leave room for in 268,435,456 bytes.
MOST = {"large": 15}
# What is judged: the largest exponent, from so many seconds and MiB on and over so many doublings; and how many times
# the plain program's time, from so many seconds on.
MOST_GROWTH, LEAST_JUDGED, LEAST_DOUBLINGS = 1.4, (0.02, 32), 2
MOST_TIMES, LEAST_PLAIN = 5, 0.05
MOST_REVIEW, LEAST_AUDIT = 2.5, 0.2
JUDGED = ("check", "audit", "review")


def find_rustc():
    found = shutil.which("rustc")
    home = Path.home() / ".cargo" / "bin" / "rustc"
    return found or (str(home) if home.exists() else None)


def built_plain(folder):
    """The plain program, built in a folder; None where that is not to be had."""
    rustc = find_rustc()
    if rustc is None:
        print("growth: there is no rustc, so the plain program is left out", file=sys.stderr)
        return None
    plain = folder / "plain"
    built = subprocess.run([rustc, "-O", "--edition", "2021", "-o", plain, PLAIN], check=False)
    if built.returncode != 0:
        print("growth: the plain program could not be built and is left out", file=sys.stderr)
        return None
    return plain


class Slow(Exception):
    """A command took longer than it may."""


def run(words, out, seconds):
    """Runs a command, its output into a file: its status, user seconds, peak memory in MiB, and seconds with system time."""
    with open(out, "wb") as file:
        process = subprocess.Popen(words, stdout=file)
        signal.signal(signal.SIGALRM, lambda *_: process.kill())
        signal.setitimer(signal.ITIMER_REAL, seconds)
        try:
            _, status, used = os.wait4(process.pid, 0)
        finally:
            signal.setitimer(signal.ITIMER_REAL, 0)
    process.returncode = os.waitstatus_to_exitcode(status)
    if process.returncode == -signal.SIGKILL:
        raise Slow
    return process.returncode, used.ru_utime, used.ru_maxrss / 1024, used.ru_utime + used.ru_stime


def timed(words, out, given):
    """The least of some runs: the status, the seconds, the memory, and the seconds with system time."""
    runs = [run(words, out, given.seconds) for _ in range(given.runs)]
    return runs[0][0], *(min(used[place] for used in runs) for place in (1, 2, 3))


def exponent(now, before, doublings, least=0.005):
    """The exponent of a growth over so many doublings of the entries, or None where one of them is too small to tell."""
    if not now or before is None or before < least:
        return None
    return math.log2(now / before) / doublings


def growth(now, before, doublings):
    """The same, as it is printed."""
    found = exponent(now, before, doublings)
    return "   " if found is None else f"{found:.1f}"


def excesses(name, seen):
    """What of a command is more than it may be, by the sizes that were measured: each power with what was taken."""
    for place, what in enumerate(("time", "memory")):
        rows = [(power, taken[name][place]) for power, taken in seen if name in taken]
        rows = [(power, much) for power, much in rows if much >= LEAST_JUDGED[place]]
        if rows and rows[-1][0] - rows[0][0] >= LEAST_DOUBLINGS:
            found = exponent(rows[-1][1], rows[0][1], rows[-1][0] - rows[0][0])
            if found > MOST_GROWTH:
                yield f"the {what} of {name} grows by {found:.2f} from 2^{rows[0][0]} to 2^{rows[-1][0]}"
    for power, taken in seen:
        own, plain = taken.get(name, (0,))[0], taken.get("plain " + name, (0,))[0]
        if plain >= LEAST_PLAIN and own > MOST_TIMES * plain:
            yield f"{name} takes {own / plain:.1f} times the plain program's time at 2^{power}"


def times_of_audit(taken):
    """How many times the time of audit review takes, or None where that is too small to tell."""
    own, audit = taken.get("review", (0, 0, 0))[2], taken.get("audit", (0, 0, 0))[2]
    return own / audit if own > 0 and audit >= LEAST_AUDIT else None


def judge(kind, seen, given, slow):
    """Tells what of siman's own commands is more than it may be."""
    told = [f"{name} takes more than {given.seconds} seconds" for name in JUDGED if name in slow]
    for name in JUDGED:
        told += excesses(name, seen)
    for power, taken in seen:
        times = times_of_audit(taken)
        if times is not None and times > MOST_REVIEW:
            told.append(f"review takes {times:.1f} times the time of audit at 2^{power}")
    for line in told:
        print(f"growth: {kind}: {line}", file=sys.stderr)
    given.wrong += len(told)


def commands_of(plain, folder, given):
    """The commands by their columns, over the files of a kind."""
    files = [str(folder / "kind.dsrc"), str(folder / "kind.dsct")]
    found = {"check": str(folder / "found.dsct"), "plain check": str(folder / "plain.dsct")}
    commands = {
        "check": [str(given.program), "check", *files],
        "audit": [str(given.program), "audit", files[0], found["check"], "--force"],
        "review": [str(given.program), "review", files[0]],
    }
    if plain:
        commands["sum"] = [str(plain), "sum", files[0]]
        commands["plain check"] = [str(plain), "check", *files]
        commands["plain audit"] = [str(plain), "audit", files[0], found["plain check"]]
    return commands


def answers_agree(folder):
    """Whether the plain program answered what siman did, in each command that both were run on."""
    for name in ("check", "audit"):
        own, other = folder / f"{name}.out", folder / f"plain {name}.out"
        if own.exists() and other.exists() and own.read_bytes() != other.read_bytes():
            return False
    return True


def measure(kind, power, plain, folder, given, slow):
    """What each command takes on a kind at 2 to the power; None for one that is too slow."""
    # A process of its own makes the files, since what this one needs at most counts as the memory of those it starts.
    files = [folder / "kind.dsrc", folder / "kind.dsct"]
    subprocess.run([sys.executable, kinds.__file__, kind, str(2**power), *files], check=True)
    taken = {}
    for name, words in commands_of(plain, folder, given).items():
        out = folder / f"{name}.out"
        out.unlink(missing_ok=True)
        if name in slow:
            continue
        try:
            status, *used = timed(words, out, given)
            if status == 0:
                taken[name] = used
            else:
                print(f"growth: {kind} 2^{power}: {name} ended with status {status}", file=sys.stderr)
        except Slow:
            slow.add(name)
            out.unlink(missing_ok=True)
    if not answers_agree(folder):
        print(f"growth: {kind} 2^{power}: the answers differ", file=sys.stderr)
        given.wrong += 1
    return taken


def line_of(kind, power, taken, before, step, columns):
    parts = [f"{kind:10} {'2^' + str(power):>5}"]
    for name in columns:
        seconds, memory = taken.get(name, (None, None))[:2]
        last = before.get(name, (None, None))
        if seconds is None:
            parts.append(f"{'-':>8} {'':3} {'':6} {'':3}")
        else:
            exponents = growth(seconds, last[0], step), growth(memory, last[1], step)
            parts.append(f"{seconds:8.3f} {exponents[0]:>3} {memory:6.0f} {exponents[1]:>3}")
    for name in ("check", "audit"):
        own, other = taken.get(name), taken.get("plain " + name)
        if own and other and other[0] >= 0.005:
            parts.append(f"{own[0] / other[0]:6.2f} {own[1] / other[1]:5.2f}")
        else:
            parts.append(f"{'':12}")
    times = times_of_audit(taken)
    parts.append("" if times is None else f"{times:6.2f}")
    return " |".join(parts).rstrip()


def print_head(columns):
    head = [f"{'kind':10} {'size':>5}"] + [f"{name:>11} {'MiB':>11}" for name in columns]
    print(" |".join(head + [f"{'check, times':12}", f"{'audit, times':12}", "review, of audit"]).rstrip(), flush=True)


def words_given():
    form = argparse.RawDescriptionHelpFormatter
    parser = argparse.ArgumentParser(description=__doc__, formatter_class=form)
    parser.add_argument("kinds", metavar="KIND", nargs="*", help="the kinds, all of them without a word")
    for word, usual, what in [
        ("least", 10, "from 2 to the power N on"),
        ("most", 20, "up to 2 to the power N"),
        ("step", 1, "so many powers further each time"),
        ("runs", 3, "the least of so many runs"),
        ("seconds", 60, "the longest that a run may take"),
    ]:
        parser.add_argument(f"--{word}", metavar="N", type=int, default=usual, help=f"{what}; {usual} without the word")
    parser.add_argument("--program", metavar="FILE", default=PROGRAM, help="another built program in place of siman's")
    parser.add_argument("--judge", action="store_true", help=f"status 1 where it grows by more than {MOST_GROWTH}")
    given = parser.parse_args()
    unknown = [kind for kind in given.kinds if kind not in kinds.KINDS]
    if unknown:
        parser.error(f"no kind {unknown[0]!r}; the kinds are " + ", ".join(kinds.KINDS))
    if not (0 <= given.least <= given.most <= 20 and given.step > 0 and given.runs > 0):
        parser.error("powers are 0 to 20 and rise, and a run is one at least")
    if not os.access(given.program, os.X_OK):
        parser.error(f"{given.program} is not built; ./siman --build builds it")
    return given


def main():
    given = words_given()
    given.wrong = 0
    with tempfile.TemporaryDirectory() as made:
        folder = Path(made)
        plain = built_plain(folder)
        columns = list(commands_of(plain, folder, given))
        print_head(columns)
        for kind in given.kinds or kinds.KINDS:
            before, slow, seen = {}, set(), []
            for power in range(given.least, min(given.most, MOST.get(kind, 20)) + 1, given.step):
                taken = measure(kind, power, plain, folder, given, slow)
                print(line_of(kind, power, taken, before, given.step, columns), flush=True)
                seen.append((power, taken))
                before = taken
            if given.judge:
                judge(kind, seen, given, slow)
    sys.exit(1 if given.wrong else 0)


if __name__ == "__main__":
    main()
