"""Scripts that are made over sockets of the loopback, and the files of what their stations recorded."""
import re

import pages
from cases.examples import TOP, WORKED_SCRIPT
from cases.trials import UNWRITTEN, Case
from cases.worlds import HEAD, after, changed_scripts
from pages import Outcome

LINE = b"live records=13\n"


def torn(fault, name):
    """A fault after the file of this name was made, and how that is mended."""
    return pages.fault(f"{fault}\nmend {name} NEW")


def try_worked(trials):
    """The script of the page, what its stations recorded, the order that explains it, and its report."""
    page = (TOP / "docs" / "staff" / "NETWORK.md").read_text(encoding="utf-8")
    report = re.search(r"(?s)check exercise.dsrc exercise.dsct\n(yes.*?)```", page).group(1).encode()

    def tried():
        made, found = "lived.dsrc", "lived.dsct"
        return [
            trials.verdict(Case(["live", WORKED_SCRIPT, made], (Outcome(0, LINE, b""),))),
            trials.verdict(Case(["audit", made, found], (Outcome(0, b"explained steps=13\n", b""),))),
            trials.verdict(Case(["check", made, found], (Outcome(0, report, b""),))),
        ]

    trials.tasks.append(tried)


def is_whole(left):
    shown = pages.answer_to_show(left) if left is not None else None
    return shown is not None and shown.out.startswith(b"exercise=1 stations=2 records=13\n")


def is_none(left):
    return left is None


def try_streams(trials):
    for behind in [">/dev/full", ">&-"]:
        name = f"unheard.live.{len(behind)}.dsrc"
        after(trials, ["live", WORKED_SCRIPT, name], (torn("output: write", name),), name, is_whole, behind=behind)
    for name in ["examples", "none/there.dsrc", ""]:
        trials.expect(["live", WORKED_SCRIPT, name], UNWRITTEN)
    trials.expect(["live", WORKED_SCRIPT, "/dev/full"], torn("output: write", "/dev/full"))
    trials.expect(["live", WORKED_SCRIPT, "/dev/null"], Outcome(0, LINE, b""))


def try_sockets(trials):
    """Descriptors for one of the two sockets alone, and for the two but not for the file."""
    refused, unwritten = (pages.fault("live: line"),), (UNWRITTEN,)
    for most, accepted in [(7, refused), (8, unwritten)]:
        name = f"descriptors.{most}.dsrc"
        after(trials, ["live", WORKED_SCRIPT, name], accepted, name, is_none, before=f"ulimit -n {most}; ")


def try_faults(trials):
    for number, (text, fault, is_right) in enumerate([
        (b"", "script: bad-line at line 1", is_none),
        (HEAD + b"tick 3:3\n", "script: unknown-station at line 4", is_none),
        (HEAD + b"".join(b"opening 1:1 %d running\n" % number for number in range(1, 4098)), "world: stations", is_none),
        (HEAD + b"at 3\ntell 1:1 0\n", "world: no-such-entity at move 0", is_begun),
        (HEAD + b"deliver 9 2:3\ntell 1:1 65534\n", "world: no-such-entity at move 1", is_begun),
        (HEAD + b"query 1:1 2:3:0" + b" 9" * 2039 + b"\n", "world: too-long at move 0", is_begun),
        (b"exercise 1\nstation 1:1 first=4294967295 tries=1 wait=0\n" + b"create 1:1 2:3:7\n" * 2,
         "world: ids-spent at move 1", is_begun),
    ]):  # fmt: skip
        name = f"refused.live.{number}.dsrc"
        accepted = torn(fault, name) if is_right is is_begun else pages.fault(fault)
        after(trials, ["live", trials.file(text), name], (accepted,), name, is_right)
    trials.expect(["live", "none", "new"], pages.unopened("none"))
    trials.expect(["live", "examples", "new"], pages.unopened("examples", "is a directory"))


def is_begun(left):
    """The recording of stations of an exercise, which has no end."""
    return left is not None and left.startswith(b"DSRC0001\x01") and b"truncated" in pages.answer_to_show(left).errors


class Lived:
    """Moves that were made, or one that was refused, or stations."""

    def __eq__(self, came):
        lived = came.status == 0 and re.fullmatch(rb"live records=\d+\n", came.out) and came.errors == b""
        stopped = came.status == 2 and came.out == b"" and re.fullmatch(rb"world: (stations|[a-z-]+ at move \d+\nmend \S+ NEW)\n", came.errors)
        return bool(lived or stopped)

    def __repr__(self):
        return "the line of moves that were made, or why they stopped"


def try_changed(trials):
    for number, lines in enumerate(changed_scripts()):
        text = b"".join(lines)
        fault = pages.script_fault(text)
        refused = pages.fault(f"script: {fault}")
        trials.expect(["live", trials.file(text), f"changed.live.{number}.dsrc"], refused if fault else Lived())


def try_all(trials, _):
    try_worked(trials)
    try_streams(trials)
    try_sockets(trials)
    try_faults(trials)
    try_changed(trials)
