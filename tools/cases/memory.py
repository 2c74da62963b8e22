"""Memory refused at each allocation in turn."""
import os
import shutil
import subprocess

import pages
from cases import texts
from cases.examples import TOP
from cases.streams import answers, faults
from cases.trials import Case, Prefix, Some, Verdict, told
from pages import Outcome

MOST_ALLOCATIONS = 5000
LATER = 1 << 40  # later than the last allocation of any run


# Commands that make a file; `live` makes none where one stands, and takes no --force. `plan` makes one where it is named.
MAKING = (["world"], ["live"], ["audit"], ["convert"], ["mend"], ["join"], ["import"], ["export"], ["chart"])
BEHIND = ("form=", "parts=", "from=", "to=", "--")  # how words begin that may stand behind the name of the new file


def is_making(words):
    return words[:1] in MAKING or words[:1] == ["plan"] and len(words) == 3 and "--json" not in words


def new_at(words):
    """At which of the words of a command that makes a file the name of that file stands."""
    return max(at for at, word in enumerate(words) if not word.startswith(BEHIND))


def making(words, alone):
    """Words of a command under a new name of their own: where none stands, or with --force where one stands."""
    if not is_making(words):
        return words
    at = new_at(words)
    own = [*words[:at], f"{words[at]}.{alone}", *words[at + 1 :]]
    return own if alone or words[0] == "live" else [*own, "--force"]


def refusing_library(trials):
    """The library that refuses memory to a program into which it is preloaded; None where it can't be made."""
    library = trials.folder / "refuse.so"
    compiler = shutil.which("cc")
    if compiler is None:
        trials.skipped.append("refused memory: no C compiler")
        return None
    subprocess.run([compiler, "-shared", "-fPIC", "-o", library, TOP / "tools" / "refuse.c"], check=True)
    return library


def try_all(trials, examples):
    """Memory refused at each allocation in turn: to that one alone, and to it and all after it."""
    text = texts.recording_text(texts.told_often(4000))
    long = (["show", trials.file(text)], b"", pages.answer_to_show(text))
    helped = (["--help"], b"", Outcome(0, Some(), b""))
    try_answers(trials, [*answers(trials, examples), long, *faults(examples), helped])


class Wanting:
    """What `live` tells where memory runs out: of its file too, where that was made before."""

    def __init__(self, name):
        self.told = [b"memory\n", f"memory\nmend {name} NEW\n".encode()]

    def __eq__(self, errors):
        return errors in self.told

    def __repr__(self):
        return f"one of {self.told!r}"


def try_answers(trials, rows):
    """The same for words and what is given on standard input, each with the usual outcome."""
    library = refusing_library(trials)
    if library is None:
        return
    for words, given, usual in rows:
        out = Prefix(usual.out) if words[:1] == ["show"] else b""
        for alone in (True, False):
            own = making(words, alone)
            errors = Wanting(own[2]) if own[:1] == ["live"] else b"memory\n"
            case = Case(own, (Outcome(3, out, errors), usual), given)
            trials.tasks.append(lambda case=case, alone=alone: refusals(trials, library, case, alone))


def refusals(trials, library, case, alone):
    """The verdicts of a case with each of its allocations refused, until a run has none left to refuse."""
    verdicts = []
    for first in range(1, MOST_ALLOCATIONS):
        last = first if alone else LATER
        which = f", allocation {first}{'' if alone else ' and all later'} refused"
        came, is_refused = run_refused(trials, library, case, first, last)
        accepted = case.accepted if is_refused else case.accepted[1:]
        verdicts.append(Verdict(told(case, which), accepted, came))
        if not is_refused:
            enough = first > 1
            return verdicts + ([] if enough else [Verdict(told(case), ("an allocation to refuse",), "none")])
    return verdicts + [Verdict(told(case), (f"fewer than {MOST_ALLOCATIONS} allocations",), "more")]


def run_refused(trials, library, case, first, last):
    """The outcome of a run with these allocations refused, and whether there was one of them."""
    if is_making(case.words) and "--force" not in case.words:
        (trials.folder / case.words[new_at(case.words)]).unlink(missing_ok=True)
    reader, writer = os.pipe()
    refuse = {"REFUSE_FIRST": str(first), "REFUSE_LAST": str(last), "REFUSE_MARK": str(writer)}
    environment = {**os.environ, "LD_PRELOAD": str(library), **refuse}
    came = trials.run(case, env=environment, pass_fds=[writer])
    os.close(writer)
    is_refused = os.read(reader, 1) != b""
    os.close(reader)
    return came, is_refused
