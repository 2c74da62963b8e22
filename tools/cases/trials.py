"""Cases, how they are run, and what is told of them."""
import os
import re
import shlex
import subprocess
from collections import namedtuple
from concurrent.futures import ThreadPoolExecutor

from pages import Outcome

PATIENCE = 20  # seconds for one run
UNWRITTEN = Outcome(2, b"", b"output: write\n")
# The first line of each fault: what it is about, and what there is to say.
SUBJECTS = rb"hex|file|recording|certificate|join|import|capture|script|plan|world|live|station|line \d+|filter|view|chart|output|words"
FAULT = re.compile(rb"(" + SUBJECTS + rb"): .*|memory")
# How the program is called: its words, what it is given on standard input, and what stands before and behind it in a
# line of the shell; then the outcomes that the pages allow.
Case = namedtuple("Case", "words accepted given before behind", defaults=(b"", "", ""))
Verdict = namedtuple("Verdict", "told expected came")


def steady(out):
    """What a station printed, with `buffer=N` for what the system gives, in its first and in its last line."""
    out = re.sub(rb"^(# station \d+:\d+) buffer=\d+\n", rb"\1 buffer=N\n", out)
    return re.sub(rb" buffer=\d+\n$", b" buffer=N\n", out)


def first_lines(errors):
    """What is told on standard error, without the second lines of faults and without warnings.

    A second line begins with two blanks and stands right behind a fault; one behind each. Whatever else begins so stays,
    and is found where the text is compared; a tip of the usage stands behind an empty line, and is none. A warning begins
    with `warning: `, and is the last line.
    """
    lines = errors.split(b"\n")
    if lines[-1] == b"" and len(lines) > 1 and lines[-2].startswith(b"warning: "):
        del lines[-2]
    return without_reasons(b"\n".join(lines))


def without_reasons(errors):
    """What is told on standard error, with its warnings, without the second lines of faults."""
    lines = errors.split(b"\n")
    before = [b"", *lines]
    return b"\n".join(line for above, line in zip(before, lines) if not (line.startswith(b"  ") and FAULT.fullmatch(above)))


def has_second_lines(outcome):
    return isinstance(outcome, Outcome) and isinstance(outcome.errors, bytes) and first_lines(outcome.errors) != outcome.errors


class Some:
    """Any text that is not empty."""

    def __eq__(self, text):
        return len(text) > 0

    def __repr__(self):
        return "some text"


class Prefix:
    """Any prefix of a text."""

    def __init__(self, whole):
        self.whole = whole

    def __eq__(self, text):
        return self.whole.startswith(text)

    def __repr__(self):
        return f"a prefix of {self.whole!r}"


class Trials:
    """The cases to try of a program, and the files that they need, in a folder of its own."""

    def __init__(self, program, folder):
        self.program, self.folder = program, folder
        self.tasks, self.skipped, self.files = [], [], 0

    def expect(self, words, *accepted, given=b"", before="", behind=""):
        case = Case(words, accepted, given, before, behind)
        self.tasks.append(lambda: [self.verdict(case)])

    def state(self, told, expected, came):
        """A comparison of this script's own: of what it computes with what a page states."""
        self.tasks.append(lambda: [Verdict(told, (expected,), came)])

    def file(self, text):
        self.files += 1
        name = f"{self.files}.file"
        (self.folder / name).write_bytes(text)
        return name

    def command(self, case):
        words = [self.program, *case.words]
        in_shell = ["sh", "-c", f'{case.before}"$0" "$@" {case.behind}']
        return in_shell + words if case.before or case.behind else words

    def run(self, case, stdout=subprocess.PIPE, **more):
        """How a case ends: with the second lines of its faults where an accepted outcome has some, else without them."""
        try:
            done = subprocess.run(
                self.command(case), input=case.given, stdout=stdout, stderr=subprocess.PIPE,
                cwd=self.folder, timeout=PATIENCE, check=False, **more,
            )  # fmt: skip
        except subprocess.TimeoutExpired:
            return Outcome(f"none in {PATIENCE} seconds", b"", b"")
        is_whole = any(map(has_second_lines, case.accepted))
        return Outcome(done.returncode, steady(done.stdout or b""), done.stderr if is_whole else first_lines(done.stderr))

    def verdict(self, case):
        return Verdict(told(case), case.accepted, self.run(case))

    def verdicts(self):
        """The verdicts of all tasks, some of which are worked on at once."""
        with ThreadPoolExecutor(max_workers=os.cpu_count() or 1) as pool:
            for verdicts in pool.map(lambda task: task(), self.tasks):
                yield from verdicts


def short(text, most):
    return text if len(text) <= most else f"{text[: most // 2]}..{text[-most // 2 :]}"


def told(case, more=""):
    """A case in one line."""
    words = [word if isinstance(word, str) else word.decode(errors="backslashreplace") for word in case.words]
    line = " ".join([f"{case.before}siman", *(short(shlex.quote(word), 150) for word in words), case.behind]).strip()
    given = f" with {short(repr(case.given), 100)} on standard input" if case.given else ""
    return line.encode("unicode_escape").decode() + given + more


def described(outcome):
    if not isinstance(outcome, Outcome):
        return short(repr(outcome), 200)
    out, errors = (short(repr(text), 200) for text in outcome[1:])
    return f"status {outcome.status}, output {out}, errors {errors}"
