"""What `import` and `export` leave: by the independent reading, and by a program where there is one."""
import os
import signal
import subprocess
import sys
from pathlib import Path

import pages
from cases.trials import first_lines
from pages import Outcome

ADDRESS = "2:3"
PATIENCE = 60  # seconds for runs, and one more for each
MOST_MEMORY = 16_384  # KiB, beside twice what NEW takes
# Runs a program again and again: each line has the names of its standard output and error, and its words; of each run its
# status, its peak memory in KiB and its seconds by the clock are printed. It is a small process, since the peak memory of a program
# counts that of the one that started it.
RUNNER = """
import os, sys, time
for line in sys.stdin:
    out, errors, *words = line[:-1].split("\\t")
    flags = os.O_WRONLY | os.O_CREAT | os.O_TRUNC
    actions = [(os.POSIX_SPAWN_OPEN, 0, "/dev/null", 0, 0), (os.POSIX_SPAWN_OPEN, 1, out, flags, 384), (os.POSIX_SPAWN_OPEN, 2, errors, flags, 384)]
    began = time.monotonic()
    _, status, used = os.wait4(os.posix_spawn(words[0], words, {}, file_actions=actions), 0)
    print(os.waitstatus_to_exitcode(status), used.ru_maxrss, time.monotonic() - began, flush=True)
"""


def is_told(errors, answer, warned):
    """Whether standard error says what it has to: the fault, or a line for each warning."""
    if answer is None:
        return errors != b""
    lines = errors.decode(errors="replace").splitlines()
    warnings = [line for line in lines if line.startswith("warning: ")]
    rest = "".join(f"{line}\n" for line in lines if line not in warnings).encode()
    return first_lines(rest) == answer.errors and warnings == [f"warning: {why}" for why in warned]


class Batch:
    """Runs of a program on captures, each in files of its own in a folder."""

    def __init__(self, program, folder):
        self.program, self.folder, self.lines, self.runs = program, Path(folder), [], []

    def path(self, name):
        return str(self.folder / name)

    def add(self, number, setup, words, text):
        """A capture; the words are ADDRESS, HOST and those behind NEW."""
        (self.folder / f"{number}.setup").write_bytes(setup)
        (self.folder / f"{number}.cap").write_bytes(text)
        files = [self.path(f"{number}.setup"), *words[:2], self.path(f"{number}.cap"), self.path(f"{number}.new"), *words[2:]]
        self.add_words(number, ["import", *files])

    def add_words(self, number, words):
        line = [self.path(f"{number}.out"), self.path(f"{number}.errors"), self.program, *words]
        self.lines.append("\t".join(line))
        self.runs.append(number)

    def run(self):
        """Of each run its number, its outcome, what it made or None, its peak memory in KiB and its seconds."""
        runs, lines, self.runs, self.lines = self.runs, self.lines, [], []
        for number, (status, memory, seconds) in zip(runs, self.ended(lines), strict=True):
            out, errors, made = (self.taken(f"{number}.{part}") for part in ("out", "errors", "new"))
            yield number, Outcome(status, out or b"", errors or b""), made, memory, seconds
            for part in ("setup", "cap"):
                self.taken(f"{number}.{part}")

    def ended(self, lines):
        """The status, the peak memory and the seconds of each run; those that did not end in time are ended."""
        words, patience = [sys.executable, "-I", "-S", "-c", RUNNER], PATIENCE + len(lines)
        with subprocess.Popen(words, stdin=subprocess.PIPE, stdout=subprocess.PIPE, start_new_session=True) as runner:
            try:
                said = runner.communicate("".join(f"{line}\n" for line in lines).encode(), timeout=patience)[0]
            except subprocess.TimeoutExpired:
                os.killpg(runner.pid, signal.SIGKILL)
                said = runner.communicate()[0]
        found = [(int(status), int(memory), float(seconds)) for status, memory, seconds in map(bytes.split, said.splitlines())]
        return found + [(f"none in {patience} seconds", 0, 0.0)] * (len(lines) - len(found))

    def taken(self, name):
        """The bytes of a file that is removed, or None."""
        path = self.folder / name
        if not path.exists():
            return None
        text = path.read_bytes()
        os.unlink(path)
        return text


def difference(answer, left, warned, came, made):
    """How what a program left differs from the independent reading, or None."""
    if answer is None:
        is_right = came.status == 2 and came.out == b"" and came.errors != b"" and made is None
        return None if is_right else f"usage, but came {came}"
    if (came.status, came.out) != (answer.status, answer.out) or not is_told(came.errors, answer, warned):
        return f"expected {answer} with warnings {warned}, came {came}"
    return None if made == left else f"another file: expected {short(left)}, came {short(made)}"


def is_like(came, wanted):
    """Whether an outcome is this one, but for warnings and the reasons of faults."""
    errors = b"".join(line for line in came.errors.splitlines(keepends=True) if not line.startswith(b"warning: "))
    return (came.status, came.out, first_lines(errors)) == tuple(wanted)


def short(text):
    return "none" if text is None else f"{len(text)} bytes {text[:200].hex()}"
