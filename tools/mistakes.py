#!/usr/bin/env python3
"""Tries what `siman world` tells of scripts with mistakes, on made-up scripts.

It makes valid scripts of some stations, what they open with, hold and know, and moves, and plants one to three mistakes in
each (tools/cases/made_scripts.py): a tab, two blanks, a blank at the begin or the end of a line, a carriage return, a byte
order mark, bytes that are not ASCII, a name that no line has, too few or too many words, a word of another kind, addresses
or entities that do not rise, a line out of its part, a second exercise line, a comment behind a line, an address without a
station, a line that is gone, too many stations, a text that is too long. Of each it looks

- that the two lines on standard error are the fault and the first reason, to the byte, as tools/pages works them out of
  docs/staff/SCRIPTS.md, and that nothing is on standard output and no file is made;
- that the script, mended as the reason says and in no other way (tools/cases/mended_scripts.py), is right up to a later
  place: it goes on with what is refused there, until the script is taken;
- that what is made of the script then, or told of a move that cannot be made, is what the pages say.

    tools/mistakes.py [PROGRAM] [--scripts N] [--seed N] [--first N]

The same seed and number make the same script. It is no part of the gate. It prints how often each reason came, by the form
of the line. Each wrong answer is told in one line, and so is a reason that never came; the last line is `N tried, M wrong`,
where each answer counts, and the status is 1 if any is wrong or never came.
"""
import argparse
import os
import random
import subprocess
import sys
import tempfile
import time
from collections import Counter
from functools import partial
from multiprocessing import Pool
from pathlib import Path
from typing import NamedTuple

sys.dont_write_bytecode = True

from cases.made_scripts import spoilt_script
from cases.mended_scripts import mended
from cases.trials import described, short
from pages import Outcome, Stopped, World, all_reasons, answer_to_world, line_of_move, reason_of_script, script_fault, warning_of_script

TOP = Path(__file__).resolve().parent.parent
PATIENCE = 20  # seconds for one run
MOST_ROUNDS = 1000  # of mending one script
AT_ONCE = 25  # scripts that a process takes at once


class Tried(NamedTuple):
    """What came of some scripts: how many answers were judged, what is wrong, and how often each reason came."""

    answers: int
    wrong: list
    reasons: Counter


def run(program, folder, text):
    """How the program ends for a script, and what it made."""
    script, made = folder / "script", folder / "new"
    script.write_bytes(text)
    made.unlink(missing_ok=True)
    words = [program, "world", "script", "new"]
    try:
        done = subprocess.run(words, cwd=folder, capture_output=True, timeout=PATIENCE, check=False)
    except subprocess.TimeoutExpired:
        return Outcome(f"none in {PATIENCE} seconds", b"", b""), None
    return Outcome(done.returncode, done.stdout, done.stderr), made.read_bytes() if made.exists() else None


# What is right.

def expected_refusal(text, reason):
    """How the program ends for a script that is refused."""
    return Outcome(2, b"", f"script: {script_fault(text)}\n  {reason.told()}\n".encode())


def sends_before_stop(text):
    """The number of the move that cannot be made, and how many datagrams were sent before it."""
    world, moves = World(), 0
    for line in text.decode("ascii").split("\n"):
        try:
            moves += bool(line and not line.startswith("#")) and world.take_line(line)
        except Stopped:
            break
    return moves, len(world.sent)


def is_right_stop(text, expected, came):
    """Whether a move that cannot be made is told with its line, and of a delivery with what may be delivered."""
    move, sent = sends_before_stop(text)
    begin = expected.errors + f"  line {line_of_move(text, move)}: ".encode()
    is_told = came.errors.startswith(begin) and came.errors.count(b"\n") == 2 and came.errors.endswith(b"\n")
    if b"no-such-send" in expected.errors:
        known = f"only the datagrams 0 to {sent - 1} were sent before it\n" if sent else "no datagram was sent before it\n"
        is_told = came.errors == begin + known.encode()
    return is_told and came._replace(errors=b"") == expected._replace(errors=b"")


def fault_of_taken(text, came, made):
    """What is wrong with an answer to a script that is taken, or None."""
    expected, recording = answer_to_world(text)
    if expected.status == 0:
        expected = expected._replace(errors=warning_of_script(text).encode())
    is_right = is_right_stop(text, expected, came) if b" at move " in expected.errors else came == expected
    if is_right and made == recording:
        return None
    return f"expected {described(expected)}; came {described(came)}, and what was made {'is' if made == recording else 'is not'} as it should be"


def fault_of_refused(text, reason, came, made):
    """What is wrong with an answer to a script that is refused, or None."""
    expected = expected_refusal(text, reason)
    if came == expected and made is None:
        return None
    return f"expected {described(expected)}; came {described(came)}{', and a file was made' if made is not None else ''}"


# How far a script is right.

def place(text, reason):
    """How far a script is right, by its first reason: the lines behind, and in a line first its bytes, then its words,
    then the lines before it; of each what stands behind it. What was mended by leaving out bytes leaves fewer."""
    lines = text.split(b"\n")
    count = len(lines) - (not lines[-1])
    line = lines[reason.line - 1] if 0 < reason.line <= count else b""
    kind = reason.which.partition(": ")[0]
    stage = {"order": 3, "text": 4}.get(kind, 2)
    if kind == "bytes" and reason.which != "bytes: unknown name":
        stage = 0 if reason.which in ("bytes: byte order mark", "bytes: not ASCII") else 1
    return reason.line - count, stage, reason.column - len(line), -len(line), reason.which == "text: no station"


def is_later(before, reason, after, further, number):
    """Whether a script that was mended is right up to a later place: behind the line, or further on in it, where it then
    stands."""
    old, new = place(before, reason), place(after, further)
    return new > old or further.line == number and new[1:] > old[1:]


def try_script(program, folder, seed, number):
    """One script, mended until it is taken: how many answers were judged, what is wrong, and the reasons that came."""
    chance = random.Random(f"{seed}:{number}")
    text, planted = spoilt_script(chance)
    reasons, told = Counter(), f"script {number} ({', '.join(planted)})"
    for answers in range(1, MOST_ROUNDS + 1):
        came, made = run(program, folder, text)
        reason = reason_of_script(text)
        wrong = fault_of_refused(text, reason, came, made) if reason else fault_of_taken(text, came, made)
        if wrong or not reason:
            return Tried(answers, [f"{told}, answer {answers}: {wrong}"] if wrong else [], reasons)
        reasons[reason.which] += 1
        mending = mended(text, came.errors.decode().split("\n")[1][2:], chance)
        if mending is None:
            return Tried(answers, [f"{told}, answer {answers}: nothing says what to do of {described(came)}"], reasons)
        before, (text, line) = text, mending
        further = reason_of_script(text)
        if further and not is_later(before, reason, text, further, line):
            wrong = f"mended as told by {short(reason.told(), 150)!r}, it is right up to {short(further.told(), 150)!r}, which is no later"
            return Tried(answers, [f"{told}, answer {answers}: {wrong}"], reasons)
    return Tried(MOST_ROUNDS, [f"{told}: not taken, mended {MOST_ROUNDS} times"], reasons)


def try_scripts(program, seed, numbers):
    with tempfile.TemporaryDirectory() as folder:
        tried = [try_script(program, Path(folder), seed, number) for number in numbers]
    reasons = sum((it.reasons for it in tried), Counter())
    return Tried(sum(it.answers for it in tried), [wrong for it in tried for wrong in it.wrong], reasons)


def arguments():
    form = argparse.RawDescriptionHelpFormatter
    parser = argparse.ArgumentParser(description=__doc__, formatter_class=form)
    default = TOP / "crates" / "siman" / "out" / "siman"
    parser.add_argument("program", nargs="?", type=Path, default=default, help="crates/siman/out/siman if not given")
    parser.add_argument("--scripts", type=int, default=10_000, help="how many scripts are made up (10000)")
    parser.add_argument("--seed", type=int, default=1, help="1 if not given")
    parser.add_argument("--first", type=int, default=0, help="the number of the first script (0)")
    given = parser.parse_args()
    if not os.access(given.program, os.X_OK):
        parser.error(f"there is no program {given.program}: ./siman --build builds it")
    return given


def main():
    given = arguments()
    started, answers, wrong, reasons = time.monotonic(), 0, 0, Counter()
    past = given.first + given.scripts
    parts = [range(at, min(at + AT_ONCE, past)) for at in range(given.first, past, AT_ONCE)]
    with Pool(os.cpu_count() or 1) as pool:
        for tried in pool.imap(partial(try_scripts, str(given.program.resolve()), given.seed), parts):
            answers += tried.answers
            wrong += len(tried.wrong)
            reasons += tried.reasons
            for told in tried.wrong:
                print(f"wrong: {told}")
    groups = {}
    for which in all_reasons():
        group, _, rest = which.partition(": ")
        groups.setdefault(group, []).append(f"{rest} {reasons[which]}")
    for group, counts in groups.items():
        print(f"{group}: {', '.join(counts)}")
    never = [which for which in all_reasons() if not reasons[which]]
    for which in never:
        print(f"never came: {which}")
    print(f"in {time.monotonic() - started:.0f} seconds", file=sys.stderr)
    print(f"{answers} tried, {wrong} wrong ({given.scripts} scripts, {sum(reasons.values())} refused)")
    return 1 if wrong or never else 0


if __name__ == "__main__":
    sys.exit(main())
