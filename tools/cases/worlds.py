"""Scripts that are run, and the files of the recordings that they make."""
import os
import random
import re

import pages
from cases.examples import TOP, WORKED_ANSWER, WORKED_LINE, WORKED_SCRIPT
from cases.trials import UNWRITTEN, Case, Verdict, told
from pages import Outcome

HEAD = b"exercise 1\nstation 1:1\nstation 2:3\n"
MADE_UP = 400
ENTITIES, IDENTIFIERS = (0, 1, 2, 7, 7, 7, 65533, 65534, 65535), (0, 1, 2, 3, 4294967295)
ORDERS = ("create", "create", "start", "stop", "remove", "do", "query", "set")


def after(trials, words, accepted, name, is_right, **more):
    """A run, and then whether what stands under a name, if anything does, is right."""

    def tried():
        verdict = trials.verdict(Case(words, accepted, **more))
        path = trials.folder / name
        left = path.read_bytes() if path.exists() else None
        return [verdict, Verdict(told(Case(words, (), **more), f", what it left in {name}"), (True,), is_right(left))]

    trials.tasks.append(tried)


def try_worked(trials):
    """The script of the page, its recording shown, and that of other names for the file."""
    page = (TOP / "docs" / "staff" / "SCRIPTS.md").read_text(encoding="utf-8")
    shown = re.search(r"\$ \./siman show .*\n(exercise=(?:.*\n)*?)```", page).group(1).encode()

    def is_worked(left):
        return left is not None and pages.answer_to_show(left) == Outcome(0, shown, b"")

    usual = (Outcome(0, WORKED_LINE, b""),)
    after(trials, ["world", WORKED_SCRIPT, "worked.dsrc"], usual, "worked.dsrc", is_worked)
    longer = trials.file(b"x" * 100_000)
    after(trials, ["world", WORKED_SCRIPT, longer, "--force"], usual, longer, is_worked)
    for behind in [">/dev/full", ">&-"]:
        name = f"unheard.{len(behind)}.dsrc"
        after(trials, ["world", WORKED_SCRIPT, name], (UNWRITTEN,), name, lambda left: left is None, behind=behind)
    trials.expect(["world", WORKED_SCRIPT, "/dev/null"], *usual)
    trials.expect(["world", "/dev/stdin", "/dev/null"], *usual, given=(TOP / WORKED_SCRIPT).read_bytes())


def try_refused(trials, text, fault, name=None):
    """A script that is refused, with a new name for its recording and with one that stands there."""
    script, stands = name or trials.file(text), trials.file(b"stays")
    new = f"{stands}.new"
    after(trials, ["world", script, new], (pages.fault(fault),), new, lambda left: left is None)
    after(trials, ["world", script, stands, "--force"], (pages.fault(fault),), stands, lambda left: left == b"stays")


def try_faults(trials):
    for text, fault in [
        (b"", "script: bad-line at line 1"), (HEAD + b"fly 1:1\n", "script: bad-line at line 4"),
        (HEAD + b"tick 1:1\r\n", "script: bad-line at line 4"), (HEAD + b"# \xc3\xa9\n", "script: bad-line at line 4"),
        (HEAD + b"tick 3:3\n", "script: unknown-station at line 4"), (b"#" * 1_048_577, "script: bad-line at line 0"),
        (HEAD + b"tick 1:1\ndeliver 0 2:3\n", "world: no-such-send at move 1"),
        (HEAD + b"at 3\ntell 1:1 0\n", "world: no-such-entity at move 0"),
        (HEAD + b"tell 1:1 65534\n", "world: no-such-entity at move 0"),
        (HEAD + b"query 1:1 2:3:0" + b" 9" * 2039 + b"\n", "world: too-long at move 0"),
        (b"exercise 1\nstation 1:1 first=4294967295 tries=1 wait=0\n" + b"create 1:1 2:3:7\n" * 2,
         "world: ids-spent at move 1"),
        (HEAD + b"".join(b"opening 1:1 %d running\n" % number for number in range(1, 4098)), "world: stations"),
    ]:  # fmt: skip
        try_refused(trials, text, fault)
    try_refused(trials, None, "file: none: no such file", "none")
    try_refused(trials, None, "file: examples: is a directory", "examples")
    for name in ["examples", "none/there.dsrc", "", "x" * 300]:
        trials.expect(["world", WORKED_SCRIPT, name], UNWRITTEN)
    trials.expect(["world", WORKED_SCRIPT, "/dev/full"], UNWRITTEN)
    trials.expect(["world", "/dev/zero", "new"], pages.fault("script: bad-line at line 0"))


def changed_scripts():
    """The script of the page with a line left out, given twice, moved to an end, or with a byte changed."""
    lines = (TOP / WORKED_SCRIPT).read_bytes().splitlines(keepends=True)
    for place, line in enumerate(lines):
        rest = lines[:place] + lines[place + 1 :]
        yield from (rest, [*lines[:place], line, *lines[place:]], [line, *rest], [*rest, line])
        for old, new in [(b" ", b"  "), (b":", b" "), (b"1", b"0"), (b"1", b"65535"), (b"2:3", b"2:4"), (b"\n", b"")]:
            yield [*lines[:place], line.replace(old, new), *lines[place + 1 :]]


def try_script(trials, text, name):
    """A script: the line or the fault that it comes to, and its recording to the byte; then its trial."""
    answer, recording = pages.answer_to_world(text)
    after(trials, ["world", trials.file(text), name], (answer,), name, lambda left: left == recording)
    trials.expect([], pages.answer_to_trial(text), given=text)


def try_changed(trials):
    for number, lines in enumerate(changed_scripts()):
        try_script(trials, b"".join(lines), f"changed.{number}.dsrc")


def setting_lines(chance, stations):
    """The exercise, its stations, and what these open with, hold and know."""
    yield f"exercise {chance.randrange(256)}"
    for station in stations:
        first, tries, wait = chance.choice((1, 9, 4294967290)), chance.randint(1, 3), chance.choice((0, 5, 10))
        yield f"station {station}" + chance.choice(("", f" first={first} tries={tries} wait={wait}"))
    for station in stations:
        for entity in sorted(chance.sample((1, 2, 7, 65533), chance.randrange(3))):
            yield f"opening {station} {entity} {chance.choice(('stopped', 'running'))}"
        yield f"fixed {station} {chance.choice(IDENTIFIERS)} {chance.randrange(9)}"
        yield f"action {station} {chance.choice(IDENTIFIERS)}"


def move_line(chance, stations, sent):
    """A move that may follow where so many datagrams were sent."""
    names = ("at", "tell", "tick", "order", "order", *(("deliver",) * 4 if sent else ()))
    name = chance.choice(names)
    station, other = chance.choice(stations), chance.choice([*stations, "65535:65535", "2:65535", "9:9"])
    if name == "at":
        return f"at {chance.choice((0, 3, 10, 20, 40, 2**31, 2**64 - 1))}"
    if name == "deliver":
        return f"deliver {chance.randrange(sent + (chance.random() < 0.03))} {station}"
    if name == "tell":
        return f"tell {station} {chance.choice((1, 2, 7, 65533))}"
    if name == "tick":
        return f"tick {station}"
    order = chance.choice(ORDERS)
    numbers = {"do": 1, "query": chance.randint(1, 4), "set": 2}.get(order, 0)
    values = "".join(f" {chance.choice(IDENTIFIERS)}" for _ in range(numbers))
    return f"{order} {station} {other}:{chance.choice(ENTITIES)}{values}"


def made_up_script(chance):
    """A script whose moves are of every kind, and mostly can be made."""
    stations = sorted(chance.sample(["1:1", "1:2", "2:3", "2:4", "65534:65534"], chance.randint(1, 4)))
    lines, world = list(setting_lines(chance, stations)), pages.World()
    for line in lines:
        world.take_line(line)
    try:
        for _ in range(chance.randint(5, 60)):
            lines.append(move_line(chance, stations, len(world.sent)))
            world.take_line(lines[-1])
    except pages.Stopped:
        pass  # the last move cannot be made
    return "".join(f"{line}\n" for line in lines).encode()


def try_made_up(trials):
    chance = random.Random(1278)
    for number in range(MADE_UP):
        try_script(trials, made_up_script(chance), f"made-up.{number}.dsrc")


def try_trials(trials):
    """Scripts on standard input: the one of the page, and another whose last lines are known."""
    worked = (TOP / WORKED_SCRIPT).read_bytes()
    trials.expect([], Outcome(0, WORKED_ANSWER, b""), given=worked)
    other = worked.replace(b"deliver 5 1:1\n", b"deliver 7 1:1\n")
    trials.expect([], Outcome(0, WORKED_ANSWER, b""), given=other)


def try_unwritable(trials):
    if os.geteuid() == 0:
        trials.skipped.append("files that may not be written: root writes them anyway")
        return
    shut = trials.file(b"stays")
    os.chmod(trials.folder / shut, 0o400)
    after(trials, ["world", WORKED_SCRIPT, shut, "--force"], (UNWRITTEN,), shut, lambda left: left == b"stays")


def try_all(trials, _):
    try_worked(trials)
    try_faults(trials)
    try_changed(trials)
    try_made_up(trials)
    try_trials(trials)
    try_unwritable(trials)
