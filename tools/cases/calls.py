"""Calls of the library that take memory, each allocation refused in turn.

`siman_hostile calls` makes the calls, each on what a worked example lends it, and prints a line for each: what it says,
and, where memory was refused to it, what it says when it is made again.
"""
import os
import subprocess
from collections import Counter

from cases.memory import MOST_ALLOCATIONS, refusing_library
from cases.trials import Verdict

# What a line may say where one allocation is refused; the calls at a line may say too that it had no room.
ALLOWED = ("usual", "memory, then usual", "not begun")
AT_A_LINE = ("serve", "issue", "nudge")
NO_ROOM = "send, then usual"
CALLS = 46


def run_once(program, library, refused):
    """The lines of a run with one allocation refused, its status, and whether there was such an allocation."""
    reader, writer = os.pipe()
    refuse = {"LD_PRELOAD": str(library), "REFUSE_MARK": str(writer)}
    refuse |= {"REFUSE_FIRST": str(refused), "REFUSE_LAST": str(refused)}
    done = subprocess.run(
        [program, "calls"], env={**os.environ, **refuse}, pass_fds=[writer], capture_output=True, timeout=60, check=False
    )
    os.close(writer)
    is_refused = os.read(reader, 1) != b""
    os.close(reader)
    return done.stdout.decode().splitlines(), done.returncode, is_refused


def is_right(lines, status, is_refused):
    """Whether every line says what it may, and no more of them than one is touched by the refusal."""
    says = [line.rpartition(": ")[::2] for line in lines]
    touched = [said for _, said in says if said != "usual"]
    if not is_refused:
        return status == 0 and len(says) == CALLS and not touched
    whole = status == 0 and len(says) == CALLS or status == 2 and not touched
    allowed = all(said in ALLOWED or call in AT_A_LINE and said == NO_ROOM for call, said in says)
    return whole and len(touched) <= 1 and allowed


def verdicts(program, library, counts):
    for refused in range(1, MOST_ALLOCATIONS):
        lines, status, is_refused = run_once(program, library, refused)
        told = f"calls, allocation {refused} refused: {'; '.join(line for line in lines if ': usual' not in line)}"
        yield Verdict(told, (True,), is_right(lines, status, is_refused))
        counts.update(line for line in lines if line.endswith(", then usual"))
        if not is_refused:
            names = [line.rpartition(": ")[0] for line in lines]
            for name in names:
                yield Verdict(f"{name}: refused at least once", (True,), counts[f"{name}: memory, then usual"] > 0)
            return
    yield Verdict("calls", (f"fewer than {MOST_ALLOCATIONS} allocations",), "more")


def try_calls(trials, program):
    """All of it; how often each call was refused memory is told at the end."""
    counts = Counter()
    library = refusing_library(trials)
    if library is not None:
        trials.tasks.append(lambda: list(verdicts(program, library, counts)))
    return counts
