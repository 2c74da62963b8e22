"""Pieces of a recording that are brought together: each station's log from a machine of its own, or in parts.

    cd tools && python3 -m cases.joins > ../crates/siman_cases/data/joins.cases
"""
import itertools
import os
import random
from collections import namedtuple

import pages
from cases import texts
from cases.examples import FORMATS_RECORDING, JOINED_REPORT, WORKED_SCRIPT
from cases.failing import hexes
from cases.trials import UNWRITTEN, Some
from cases.worlds import after
from pages import (
    ABLE, ABSENT, ACKNOWLEDGE, CLOSED, CREATE, FIRST, OPEN, REMOVE, RUNNING, START, STOP, STOPPED, TOLD, UNABLE, Course, Outcome, Recording,
    Station, meaning_of,
)  # fmt: skip

MANAGER, SEVEN, NINE = (1, 1, 0), (2, 3, 7), (4, 2, 9)
STATIONS = [Station(1, 1, []), Station(2, 3, []), Station(4, 2, [(5, STOPPED)])]


def answered(origin, flag, request, version=7):
    return texts.pdu(15, origin, MANAGER, flag=flag, response=1, request=request, version=version)


# 1:1 creates 2:3:7 and 4:2:9, and starts 2:3:7; the second Create is lost, and is sent again.
MAKE_SEVEN, MADE_SEVEN = texts.pdu(11, MANAGER, SEVEN, request=1), answered(SEVEN, 1, 1)
MAKE_NINE, MADE_NINE = texts.pdu(11, MANAGER, NINE, request=2, version=6), answered(NINE, 1, 2, version=6)
START_SEVEN, STARTED_SEVEN = texts.pdu(13, MANAGER, SEVEN, request=3), answered(SEVEN, 3, 3)
LOGS = [
    [
        texts.sent(0, MAKE_SEVEN, 1), texts.sent(0, MAKE_NINE, 2), texts.received(0, MADE_SEVEN, 3), texts.sent(0, START_SEVEN, 4),
        texts.sent(0, MAKE_NINE, 5), texts.received(0, MADE_NINE, 6), texts.received(0, STARTED_SEVEN, 7),
    ],
    [
        texts.received(0, MAKE_SEVEN, 10), texts.sent(0, MADE_SEVEN, 11), texts.told(0, 7, STOPPED),
        texts.received(0, START_SEVEN, 12), texts.sent(0, STARTED_SEVEN, 13), texts.told(0, 7, RUNNING),
    ],
    [texts.received(0, MAKE_NINE, 20), texts.sent(0, MADE_NINE, 21), texts.told(0, 9, STOPPED), texts.told(0, 5, STOPPED)],
]  # fmt: skip
NAMES = ["manager", "seven", "nine"]
# 2:3 tells that it runs before it is started.
WRONG = [*LOGS[1][:2], texts.told(0, 7, RUNNING), *LOGS[1][3:]]


def piece(number, entries=None, form=FIRST, exercise=1):
    return texts.recording_text(Recording(exercise, [STATIONS[number]], LOGS[number] if entries is None else entries, form))


def part(number, entries, opening=(), form=FIRST, exercise=1):
    """A part of the log of a station, which opens there with these entities."""
    return texts.recording_text(Recording(exercise, [STATIONS[number]._replace(opening=list(opening))], entries, form))


def stations_alone(first, count):
    """A piece with so many stations, and no entries."""
    return texts.recording_text(Recording(1, [Station(site, 1, []) for site in range(first, first + count)], []))


def stations_many(count):
    """So many pieces, the later ones of lower stations, each of which told a state."""
    return [texts.recording_text(Recording(1, [Station(count - at, 1, [(7, STOPPED)])], [texts.told(0, 7, STOPPED)])) for at in range(count)]


# ---- cases of siman_cases


class Cases:
    """The lines of cases; a file stays for the cases behind it."""

    def __init__(self):
        self.lines, self.files, self.calls, self.kept = [], {}, {}, set()

    def spelled(self, text):
        """The lines that fill a file."""
        return hexes(text)

    def case(self, name, files=()):
        self.lines.append(f"\ncase {name}")
        for file, text in dict(files).items():
            if self.files.get(file) != text:
                self.lines += [f"file {file}", *self.spelled(text)]
                self.files[file] = text

    def replaces(self, words):
        """Whether a file that an earlier case left stands under the name of the one that the words make."""
        names = [word for word in words[1:] if not word.startswith(("form=", "parts=", "--"))]
        return words[0] in ("join", "audit", "convert") and names[-1:] and names[-1] in {*self.files, *self.kept} - set(names[:-1])

    def told(self, words, asked, outcome, left=None, keep=None):
        force = ["--force"] if self.replaces(words) else []
        self.lines.append(f"words {' '.join([*words, *force])}")
        self.lines += [f"asked {name}" for name in asked]
        if keep:
            self.lines.append(f"keep {keep}")
            self.kept.add(keep)
        if outcome.status:
            self.lines.append(f"status {outcome.status}")
        for part, text in (("out", outcome.out), ("errors", outcome.errors)):
            if text:
                self.lines += [part, *(f"text {line}" if line else "text" for line in text.decode().splitlines())]
        if left is not None:
            self.lines += ["left", *self.spelled(left)]

    def joined(self, name, files, form=None, keep=None, new="new", parts=False, turned=False):
        """Pieces that are joined, or not: all are opened in the order of the words, and then the new one is made."""
        self.case(name, files)
        answer, left = pages.answer_to_join(list(files), form, parts)
        asked = form or (CLOSED if len(files) == 1 else None)  # of one piece a form is asked for
        behind = ([f"form={asked}"] if asked else []) + (["parts=yes"] if parts else [])
        words = ["join", *(file for file, _ in files), new, *(reversed(behind) if turned else behind)]
        made = [f"make {new}"] if left is not None else []
        self.told(words, [*(file for file, _ in files), *made], answer, None if keep else left, keep)
        if keep:
            self.files[keep] = left
        return left


def is_explained(text):
    """What `audit` and `check` say of a recording that some order explains."""
    course = pages.Course(pages.read_recording(text))
    while pages.go_on(course):
        pass
    assert len(course.taken) == len(course.entries)
    return course.report().encode()


def orders(cases):
    files = [(NAMES[number], piece(number)) for number in range(3)]
    for order in itertools.permutations(files):
        name = "-".join(file for file, _ in order)
        cases.joined(f"{name}-to-the-byte", order)
        text = cases.joined(name, order, keep="new")
        cases.case(f"{name}-is-explained")
        audit = pages.answer_to_audit(text)
        cases.told(["audit", "new", "steps"], ["new", "make steps"], audit, keep="steps")
        cases.case(f"{name}-is-checked")
        cases.told(["check", "new", "steps"], ["new", "steps"], Outcome(0, is_explained(text), b""))


def audited(cases, name, files, form):
    text = cases.joined(f"{name}-joined", files, form, keep="new")
    cases.case(f"{name}-audited")
    answer = pages.answer_to_audit(text)
    cases.told(["audit", "new", "steps"], ["new", "make steps"] if answer.status == 0 else ["new"], answer, keep="steps" if answer.status == 0 else None)
    return answer.status


def alone(cases):
    files = [(NAMES[number], piece(number)) for number in range(3)]
    for file in files:
        assert audited(cases, f"{file[0]}-alone-open", [file], OPEN) == 0
    for file in files:
        assert audited(cases, f"{file[0]}-alone-closed", [file], CLOSED) == 1
    wrong = ("wrong", piece(1, WRONG))
    assert audited(cases, "a-wrong-state-alone-open", [wrong], OPEN) == 1
    for form in (None, OPEN):
        assert audited(cases, f"a-wrong-state-among-others-{form}", [files[0], wrong, files[2]], form) == 1
    assert audited(cases, "two-of-three-open", files[:2], OPEN) == 0
    assert audited(cases, "two-of-three-closed", files[1:], None) == 1


def forms(cases):
    for first, second in itertools.product((FIRST, CLOSED, OPEN), repeat=2):
        files = [("one", piece(0, form=first)), ("two", piece(1, form=second))]
        for form in (None, CLOSED, OPEN):
            cases.joined(f"{first}-and-{second}-as-{form}", files, form)
    cases.lines += BY_HAND.splitlines()
    cases.joined("one-piece-of-the-first-form-is-its-conversion", [("one", FORMATS_RECORDING)])
    cases.case("which-is-this")
    converted = b"DSRC0002" + FORMATS_RECORDING[8:9] + b"\0" + FORMATS_RECORDING[9:]
    cases.told(["convert", "one", "new"], ["one", "make new"], Outcome(0, b"converted records=3\n", b""), left=converted)


def refusals(cases):
    manager, seven, nine = ((NAMES[number], piece(number)) for number in range(3))
    cases.joined("a-piece-twice", [manager, seven, ("seven-again", seven[1]), nine])
    cases.case("a-piece-twice-by-one-name")
    cases.told(["join", "seven", "seven", "new"], ["seven", "seven"], pages.fault("join: station 2:3 in seven"))
    both = texts.recording_text(Recording(1, [STATIONS[1], STATIONS[2]], []))
    cases.joined("two-stations-of-earlier-ones", [seven, nine, ("both", both)])
    cases.joined("the-first-of-two-stations-is-new", [nine, ("both", both)])
    other = ("other", piece(1, exercise=2))
    cases.joined("another-exercise", [manager, other])
    cases.joined("another-exercise-with-the-station-of-an-earlier-one", [manager, seven, other])
    cases.joined("two-of-another-exercise", [other, manager, nine])
    for size in (0, 7, 9, 60, len(seven[1]) - 1):
        cases.joined(f"the-second-cut-at-{size}", [manager, ("cut", seven[1][:size]), nine])
    cases.joined("two-are-damaged", [("trailing", manager[1] + b"\0"), ("cut", seven[1][:60])])
    cases.joined("a-damaged-one-before-one-of-another-exercise", [manager, ("cut", seven[1][:60]), other])
    cases.joined("one-of-another-exercise-before-a-damaged-one", [manager, other, ("cut", seven[1][:60])])
    cases.joined("the-first-is-damaged", [("flag", b"DSRC0002\1\2" + seven[1][9:]), manager])


def limits(cases):
    for first, second in ((1, 254), (127, 128), (128, 128), (128, 129), (1, 256), (256, 256)):
        cases.joined(f"{first}-and-{second}-stations", [("low", stations_alone(1, first)), ("high", stations_alone(300, second))])


def files(cases):
    cases.case("a-piece-that-is-not-there", [("manager", piece(0)), ("seven", piece(1)), ("nine", piece(2)), ("cut", piece(1)[:60])])
    cases.told(["join", "manager", "nowhere", "nine", "new"], ["manager", "nowhere"], pages.unopened("nowhere"))
    cases.case("the-last-is-not-there-and-the-first-is-damaged")
    cases.told(["join", "cut", "seven", "nowhere", "new"], ["cut", "seven", "nowhere"], pages.unopened("nowhere"))
    for number, name in enumerate(NAMES):
        cases.case(f"the-new-one-is-{name}")
        cases.told(["join", *NAMES, name], NAMES[: number + 1], pages.fault(f"output: same as {name}"))
    cases.case("the-new-one-is-the-second-and-the-first-is-damaged")
    cases.told(["join", "cut", "seven", "seven"], ["cut", "seven"], pages.fault("output: same as seven"))
    for kind, status, line in (("shut", 2, "file: barred: permission denied"), ("full", 3, "memory")):
        cases.case(f"a-piece-that-is-{kind}")
        cases.lines.append(f"{kind} barred")
        cases.told(["join", "manager", "barred", "nine", "new"], ["manager", "barred"], Outcome(status, b"", f"{line}\n".encode()))
    for kind, status, line in (("shut", 2, "output: write"), ("full", 3, "memory")):
        cases.case(f"the-new-one-is-{kind}")
        cases.lines.append(f"{kind} barred")
        cases.told(["join", "manager", "seven", "barred"], ["manager", "seven", "make barred"], Outcome(status, b"", f"{line}\n".encode()))


def failing(cases):
    """Each read of the second of three pieces fails, and then each write."""
    manager, seven, nine = piece(0), piece(1), piece(2)
    reads = -(-len(seven) // 40) + 1
    for call in range(1, reads + 1):
        for kind in ("other", "interrupted"):
            cases.case(f"the-second-piece-fails-at-read-{call}-{kind}")
            cases.lines += ["file failing", f"calls 40 {call} {kind}", *hexes(seven)]
            answer, left = pages.answer_to_join([("manager", manager), ("failing", seven), ("nine", nine)])
            if kind == "other":
                cases.told(["join", "manager", "failing", "nine", "new"], ["manager", "failing", "nine"], pages.fault("recording: read in failing"))
            else:
                cases.told(["join", "manager", "failing", "nine", "new"], ["manager", "failing", "nine", "make new"], answer, left)
    for most in (1, 3):
        cases.case(f"the-second-piece-in-parts-of-{most}")
        cases.lines += ["file failing", f"calls {most} 0 other", *hexes(seven)]
        answer, left = pages.answer_to_join([("manager", manager), ("failing", seven), ("nine", nine)])
        cases.told(["join", "manager", "failing", "nine", "new"], ["manager", "failing", "nine", "make new"], answer, left)
    answer, left = pages.answer_to_join([("manager", manager), ("seven", seven)])
    for byte in (0, 1, 8, 9, 10, 12, 13, 23, 24, 60, len(manager) + 15, len(left) - 6, len(left) - 1):
        cases.case(f"the-new-one-fails-at-byte-{byte}")
        cases.told(["join", "manager", "seven", "new"], ["manager", "seven", "make new"], Outcome(2, b"", b"output: write\n"))
        cases.lines += ["discarded", *hexes(left[:byte]), f"calls 1 {byte + 1} other"]
    for byte in (0, 1, len(answer.out) - 1):
        cases.case(f"the-line-fails-at-byte-{byte}")
        cases.lines += ["words join manager seven new --force", "asked manager", "asked seven", "asked make new", "status 2", "out"]
        cases.lines += [f"piece {answer.out[:byte].decode()}"] if byte else []
        cases.lines += [f"calls 1 {byte + 1} other", "errors", "text output: write", "discarded", *hexes(left)]


# Cases that were written by hand.
BY_HAND = """
# A simulator's log of the first format, and a manager's, open: datagrams of one and of two bytes, and a state that is
# told.

case a-simulators-log-before-a-managers
file simulators
hex 4453524330303031 01 0001
# station 2:3, with 7 stopped
hex 000200030001000701
hex 02 0000 0000000000000005 0002 ABCD
hex 01 0000 0000000000000100 0001 EF
hex 03 0000 000702
hex 00 00000003
file managers
hex 4453524330303032 01 01 0001
# station 1:1
hex 000100010000
hex 01 0000 0000000000000003 0002 ABCD
hex 02 0000 0000000000000004 0001 EF
hex 00 00000002
words join simulators managers new --force
asked simulators
asked managers
asked make new
out
text joined pieces=2 stations=2 records=5 form=open
left
hex 4453524330303032 01 01 0002
# station 1:1
hex 000100010000
# station 2:3, with 7 stopped
hex 000200030001000701
hex 02 0001 0000000000000005 0002 ABCD
hex 01 0001 0000000000000100 0001 EF
hex 03 0001 000702
hex 01 0000 0000000000000003 0002 ABCD
hex 02 0000 0000000000000004 0001 EF
hex 00 00000005

case a-simulators-log-before-a-managers-as-open
words join simulators managers new form=open --force
out
text joined pieces=2 stations=2 records=5 form=open
left
hex 4453524330303032 01 01 0002
# station 1:1
hex 000100010000
# station 2:3, with 7 stopped
hex 000200030001000701
hex 02 0001 0000000000000005 0002 ABCD
hex 01 0001 0000000000000100 0001 EF
hex 03 0001 000702
hex 01 0000 0000000000000003 0002 ABCD
hex 02 0000 0000000000000004 0001 EF
hex 00 00000005

case a-managers-log-before-a-simulators-as-closed
words join managers simulators new form=closed --force
out
text joined pieces=2 stations=2 records=5 form=closed
left
hex 4453524330303032 01 00 0002
# station 1:1
hex 000100010000
# station 2:3, with 7 stopped
hex 000200030001000701
hex 01 0000 0000000000000003 0002 ABCD
hex 02 0000 0000000000000004 0001 EF
hex 02 0001 0000000000000005 0002 ABCD
hex 01 0001 0000000000000100 0001 EF
hex 03 0001 000702
hex 00 00000005
"""
HELP = """Joins the recordings of one exercise that several recorders made

Usage: siman join <PIECE>... <NEW> [form=open|form=closed] [parts=yes] [--force]

Arguments:
  <PIECE>...  The file of a recording, of stations that no other piece has
  <NEW>       The file of the joined recording; it must not be there yet, or be empty. Behind it form=open or form=closed may stand: the form that it is to have. Of one piece a recording is made in such a form alone. With parts=yes, too, pieces may be parts of one log, in the order of time

Options:
      --force  Replaces a file that has the name of the one that is made
  -h, --help   Print help

Example:
  siman join manager.dsrc simulator.dsrc exercise.dsrc
"""


def helped(cases):
    cases.case("help-by-join-help")
    cases.told(["join", "--help"], [], Outcome(0, HELP.encode(), b""))


# ---- cases of parts of one log

# The log of 2:3 in two parts and in three, that of 1:1 in two, and that of 4:2 in two.
SEVENS = [("seven-1", part(1, LOGS[1][:3])), ("seven-2", part(1, LOGS[1][3:], [(7, STOPPED)]))]
THIRDS = [("first", part(1, LOGS[1][:1])), ("second", part(1, LOGS[1][1:4])), ("third", part(1, LOGS[1][4:], [(7, STOPPED)]))]
MANAGERS = [("manager-1", part(0, LOGS[0][:4])), ("manager-2", part(0, LOGS[0][4:]))]
NINES = [("nine-1", part(2, LOGS[2][:3], [(5, STOPPED)])), ("nine-2", part(2, LOGS[2][3:], [(5, STOPPED), (9, STOPPED)]))]
WHOLE = [(NAMES[number], piece(number)) for number in range(3)]


def mixed(logs, order):
    """What logs have, in the order of these numbers of logs; what each has stays in its own order."""
    left = [list(log) for log in logs]
    return [left[number].pop(0) for number in order]


def second(entries):
    """Entries of the second station of a piece."""
    return [entry._replace(station=1) for entry in entries]


def entity_lines(report):
    return [line for line in report.splitlines() if line.startswith(b"entity ")]


def stated(cases, name, files, fault=None):
    """Parts that are joined, or not for the fault that is stated here."""
    cases.joined(name, files, parts=True)
    answer = pages.answer_to_join(files, parts=True)[0]
    assert answer == pages.fault(fault) if fault else answer.status == 0, (name, answer)


def explained_so(cases, name, files):
    """Parts that are joined to the byte, and then judged as the logs that were not cut."""
    cases.joined(f"{name}-to-the-byte", files, parts=True)
    text = cases.joined(f"{name}-joined", files, parts=True, keep="new")
    audit, report = pages.answer_to_audit(text), is_explained(text)
    whole = pages.answer_to_join(WHOLE)[1]
    assert audit == pages.answer_to_audit(whole) and entity_lines(report) == entity_lines(is_explained(whole))
    cases.case(f"{name}-is-explained")
    cases.told(["audit", "new", "steps"], ["new", "make steps"], audit, keep="steps")
    cases.case(f"{name}-is-checked")
    cases.told(["check", "new", "steps"], ["new", "steps"], Outcome(0, report, b""))
    return text


def parts_in_orders(cases):
    """Logs that were cut, in several orders of the words, among logs that were not."""
    manager, nine = WHOLE[:1], WHOLE[2:]
    for name, logs, orders_of in (
        ("seven-in-two", (manager, SEVENS, nine), ("0112", "1012", "1201", "2110")),
        ("seven-in-three", (manager, THIRDS, nine), ("01112", "10121", "21011", "11120")),
        ("two-in-two", (MANAGERS, SEVENS, nine), ("00112", "01012", "11002", "01210")),
        ("three-in-two", (MANAGERS, SEVENS, NINES), ("001122", "012012", "210210")),
    ):
        for order in orders_of:
            text = explained_so(cases, f"{name}-in-the-order-{order}", mixed(logs, map(int, order)))
            assert (text == pages.answer_to_join(WHOLE)[1]) == (list(order) == sorted(order))
    openings_of = [[], [], [(7, STOPPED)], [(7, STOPPED)], [(7, STOPPED)], [(7, RUNNING)]]
    sixths = [(f"seven-{number}", part(1, [LOGS[1][number]], openings_of[number])) for number in range(6)]
    text = explained_so(cases, "seven-in-six", [*manager, *sixths, *nine])
    assert text == pages.answer_to_join(WHOLE)[1]


def parts_of_two(cases):
    """Pieces in which the logs of two stations go on, or one that goes on and a new one."""
    manager, seven, nine = WHOLE
    stopped, ended = STATIONS[1]._replace(opening=[(7, STOPPED)]), STATIONS[2]._replace(opening=[(5, STOPPED), (9, STOPPED)])
    log = mixed([LOGS[1][:3], second(LOGS[2][:3])], [0, 0, 1, 0, 1, 1])
    begun = ("begun", texts.recording_text(Recording(1, STATIONS[1:], log)))
    gone_on = ("gone-on", texts.recording_text(Recording(1, [stopped, ended], [*second(LOGS[2][3:]), *LOGS[1][3:]])))
    log = mixed([LOGS[1][3:], second(LOGS[2])], [1, 1, 0, 0, 1, 0, 1])
    fresh = ("fresh", texts.recording_text(Recording(1, [stopped, STATIONS[2]], log)))
    below = ("below", texts.recording_text(Recording(1, [STATIONS[0], stopped], [*LOGS[0], *second(LOGS[1][3:])])))
    for name, files in (
        ("two-go-on", [manager, begun, gone_on]), ("two-go-on-before-another", [begun, gone_on, manager]),
        ("two-go-on-apart", [begun, NINES[1], manager, SEVENS[1]]), ("two-come-together", [NINES[0], SEVENS[0], gone_on, manager]),
        ("one-goes-on-and-one-is-new", [manager, SEVENS[0], fresh]), ("one-goes-on-behind-a-new-one", [SEVENS[0], below, nine]),
    ):  # fmt: skip
        explained_so(cases, name, files)
    empty, running = ("empty", part(1, [])), ("running", part(1, [], [(7, RUNNING)]))
    stated(cases, "parts-of-logs-that-are-whole", [manager, seven, nine])
    stated(cases, "parts-of-no-entries", [empty, ("empty-again", empty[1])])
    stated(cases, "parts-of-no-entries-before-a-log", [empty, seven])
    stated(cases, "parts-of-no-entries-behind-a-log", [seven, running])


def forms_of_parts(cases):
    for first, last in itertools.product((FIRST, CLOSED, OPEN), repeat=2):
        files = [("one", part(1, LOGS[1][:3], form=first)), ("two", part(1, LOGS[1][3:], [(7, STOPPED)], last))]
        stated(cases, f"parts-{first}-and-{last}", files)
        for form in (CLOSED, OPEN) if first != last else ():
            cases.joined(f"parts-{first}-and-{last}-as-{form}", files, form, parts=True)
            cases.joined(f"parts-{first}-and-{last}-as-{form}-behind-the-word", files, form, parts=True, turned=True)
    for form, turned in itertools.product((CLOSED, OPEN), (False, True)):
        cases.joined(f"parts-of-one-piece-as-{form}{'-behind-the-word' if turned else ''}", WHOLE[1:2], form, parts=True, turned=turned)


def copies(cases):
    """A piece that is given twice, and parts that are given in another order."""
    manager, seven, nine = WHOLE
    again, begun_again = ("seven-again", seven[1]), ("seven-1-again", SEVENS[0][1])
    stated(cases, "a-copy-among-parts", [manager, seven, nine, again], "join: time 2:3 in seven-again")
    cases.joined("a-copy-without-parts", [manager, seven, nine, again])
    stated(cases, "a-copy-of-a-part", [manager, *SEVENS, begun_again, nine], "join: time 2:3 in seven-1-again")
    stated(cases, "a-copy-of-a-part-before-the-next", [SEVENS[0], begun_again, SEVENS[1]], "join: time 2:3 in seven-1-again")
    cases.joined("a-copy-of-a-part-without-parts", [SEVENS[0], begun_again, SEVENS[1]])
    stated(cases, "parts-in-the-wrong-order", [manager, *SEVENS[::-1]], "join: time 2:3 in seven-1")
    cases.joined("parts-without-the-word", [manager, *SEVENS, nine])
    for name, words, fault in (("with-parts", ["parts=yes"], "time"), ("in-a-form", ["form=open"], "station")):
        cases.case(f"a-copy-by-one-name-{name}")
        cases.told(["join", "seven", "seven", "new", *words], ["seven", "seven"], pages.fault(f"join: {fault} 2:3 in seven"))
    still = part(1, [texts.told(0, 7, STOPPED)], [(7, STOPPED)], OPEN)
    stated(cases, "a-copy-of-a-state", [("still", still), ("still-again", still)])
    cases.joined("a-copy-of-a-state-without-parts", [("still", still), ("still-again", still)])
    once = part(1, [texts.told(0, 7, ABSENT), texts.received(0, MAKE_SEVEN, 9)])
    stated(cases, "a-copy-of-one-datagram", [("once", once), ("once-again", once)])


def clocked(stamps):
    """Entries with these stamps; where there is none, a state is told."""
    return [texts.told(0, 7, ABSENT) if stamp is None else texts.received(0, b"\xab", stamp) for stamp in stamps]


# What is tried, the stamps of the parts of one log, and the number of the part in which it goes back in time, or none.
TIMES = [
    ("equal-stamps", [(5,), (5,)], None), ("a-higher-stamp", [(5,), (6,)], None), ("a-lower-stamp", [(5,), (4,)], 2),
    ("below-the-last-and-above-the-first", [(3, 9), (5, 20)], 2), ("the-last-is-below-the-greatest", [(10, 20, 5), (6,)], None),
    ("at-the-last-that-is-the-least", [(10, 20, 5), (5,)], None), ("below-the-last-that-is-the-least", [(10, 20, 5), (4,)], 2),
    ("the-first-is-above-the-least", [(5,), (7, 1)], None), ("the-first-is-below-the-greatest", [(5,), (4, 9)], 2),
    ("states-before", [(None, None), (0,)], None), ("states-behind", [(9,), (None,)], None), ("states-alone", [(None,), (None,)], None),
    ("states-between", [(9,), (None,), (9,)], None), ("states-between-and-below", [(9,), (None,), (8,)], 3),
    ("states-at-the-cut", [(9, None), (None, 9)], None), ("states-at-the-cut-and-below", [(9, None), (None, 8)], 2),
    ("nothing-before", [(), (0,), (1,)], None), ("nothing-between-and-below", [(9,), (), (8,)], 3),
    ("the-last-of-the-second", [(9,), (20, 3), (4,)], None), ("below-the-last-of-the-second", [(9,), (20, 3), (2,)], 3),
    ("below-the-second-alone", [(9,), (30,), (29,)], 3), ("in-the-second-and-the-third", [(9,), (8,), (7,)], 2),
    ("the-greatest-twice", [(2**64 - 1,), (2**64 - 1,)], None), ("the-least-behind-the-greatest", [(2**64 - 1,), (0,)], 2),
    ("into-the-upper-half", [(2**63 - 1,), (2**63,)], None), ("out-of-the-upper-half", [(2**63,), (2**63 - 1,)], 2),
    ("into-the-fifth-byte", [(2**32 - 1,), (2**32,)], None), ("out-of-the-fifth-byte", [(2**32,), (2**32 - 1,)], 2),
]  # fmt: skip


def times(cases):
    for name, stamps, late in TIMES:
        files = [(f"part-{number}", part(1, clocked(some))) for number, some in enumerate(stamps, 1)]
        stated(cases, f"time-{name}", files, late and f"join: time 2:3 in part-{late}")
    for name, first, last in (("sent", texts.sent, texts.received), ("received", texts.received, texts.sent)):
        for stamp in (8, 9):
            files = [("one", part(1, [first(0, b"\xab", 9)])), ("two", part(1, [last(0, MAKE_SEVEN, stamp)]))]
            stated(cases, f"time-{name}-at-9-and-then-at-{stamp}", files, "join: time 2:3 in two" if stamp == 8 else None)


def times_of_two(cases):
    """Two stations in the same pieces: each has a clock of its own, and the first that goes back is named."""
    stations = [STATIONS[1], STATIONS[2]._replace(opening=[])]

    def both(seven, nine, order=(0, 1)):
        return texts.recording_text(Recording(1, stations, mixed([clocked([seven]), second(clocked([nine]))], order)))

    for name, stamps, late in (
        ("each-goes-on", (10, 1000), None), ("the-first-goes-back", (9, 1000), "2:3"), ("the-second-goes-back", (10, 999), "4:2"),
        ("both-go-back", (9, 999), "2:3"), ("both-go-back-turned", (9, 999, (1, 0)), "2:3"), ("one-is-between", (500, 1001), None),
    ):  # fmt: skip
        files = [("both", both(10, 1000)), ("both-again", both(*stamps))]
        stated(cases, f"time-of-two-{name}", files, late and f"join: time {late} in both-again")
    nine = ("nine", texts.recording_text(Recording(1, stations[1:], clocked([1000]))))
    stated(cases, "time-of-the-second-behind-a-new-station", [nine, ("both", both(0, 999))], "join: time 4:2 in both")
    stated(cases, "time-of-another-station", [("seven", part(1, clocked([5]))), nine, ("both", both(5, 1000))])


# What is tried, what a later part of 2:3 opens with, whose 7 was stopped, and the entity that is named, or none.
OPENINGS = [
    ("right", [(7, STOPPED)], None), ("nothing", [], 7), ("another-state", [(7, RUNNING)], 7), ("another-entity", [(8, STOPPED)], 7),
    ("one-too-many", [(7, STOPPED), (8, RUNNING)], 8), ("one-too-many-below", [(6, STOPPED), (7, STOPPED)], 6),
    ("another-state-and-one-too-many", [(7, RUNNING), (9, STOPPED)], 7), ("the-least-and-the-greatest", [(1, RUNNING), (7, STOPPED), (65533, RUNNING)], 1),
    ("the-greatest", [(7, STOPPED), (65533, STOPPED)], 65533),
]  # fmt: skip
# The same of 4:2, whose 5 and 9 were stopped, and whose 12 ran.
MORE_OPENINGS = [
    ("all", [(5, STOPPED), (9, STOPPED), (12, RUNNING)], None), ("without-the-first", [(9, STOPPED), (12, RUNNING)], 5),
    ("without-the-second", [(5, STOPPED), (12, RUNNING)], 9), ("without-the-third", [(5, STOPPED), (9, STOPPED)], 12),
    ("the-last-alone", [(12, RUNNING)], 5), ("the-third-stopped", [(5, STOPPED), (9, STOPPED), (12, STOPPED)], 12),
    ("all-states-turned", [(5, RUNNING), (9, RUNNING), (12, STOPPED)], 5), ("one-between", [(5, STOPPED), (9, STOPPED), (10, STOPPED), (12, RUNNING)], 10),
    ("the-second-running-and-none-behind", [(5, STOPPED), (9, RUNNING)], 9), ("one-behind", [(5, STOPPED), (9, STOPPED), (12, RUNNING), (13, RUNNING)], 13),
]  # fmt: skip


def openings(cases):
    for form in (FIRST, CLOSED, OPEN):
        for name, opening, entity in OPENINGS:
            is_asked = entity and (opening or form != OPEN)
            files = [SEVENS[0], ("seven-2", part(1, LOGS[1][3:], opening, form))]
            stated(cases, f"opening-{name}-{form}", files, f"join: opening 2:3:{entity} in seven-2" if is_asked else None)
    for name, opening, entity in MORE_OPENINGS:
        files = [("nine-1", part(2, LOGS[2], [(5, STOPPED), (12, RUNNING)])), ("nine-2", part(2, [], opening, CLOSED))]
        stated(cases, f"opening-of-three-{name}", files, entity and f"join: opening 4:2:{entity} in nine-2")


def openings_of_two(cases):
    """Pieces in which two stations go on: the first that opens otherwise is named."""
    right, wrong, ended = [(7, STOPPED)], [(7, RUNNING)], [(5, STOPPED), (9, STOPPED)]
    for name, seven, nine, form, entity in (
        ("both-right", right, ended, CLOSED, None), ("both-right-open", right, ended, OPEN, None), ("both-wrong", wrong, ended[:1], CLOSED, "2:3:7"),
        ("the-first-wrong", wrong, ended, CLOSED, "2:3:7"), ("the-second-wrong", right, ended[:1], CLOSED, "4:2:9"),
        ("both-with-nothing", [], [], CLOSED, "2:3:7"), ("both-with-nothing-open", [], [], OPEN, None),
        ("the-first-with-nothing-and-the-second-wrong-open", [], ended[1:], OPEN, "4:2:5"),
        ("the-first-wrong-and-the-second-with-nothing-open", wrong, [], OPEN, "2:3:7"),
        ("the-first-right-and-the-second-with-nothing-open", right, [], OPEN, None),
        ("the-first-right-and-the-second-with-nothing", right, [], CLOSED, "4:2:5"),
    ):  # fmt: skip
        stations = [STATIONS[1]._replace(opening=seven), STATIONS[2]._replace(opening=nine)]
        both = texts.recording_text(Recording(1, stations, [], form))
        stated(cases, f"opening-of-two-{name}", [SEVENS[0], NINES[0], ("both", both)], entity and f"join: opening {entity} in both")


def openings_in_turn(cases):
    """Which of several parts is named."""
    right, wrong, ran = [(7, STOPPED)], [(7, RUNNING)], [(7, RUNNING)]
    silent, half = ("silent", part(1, [], form=OPEN)), ("half", part(1, LOGS[1][3:], form=OPEN))
    opened = ("opened", part(1, [], [(3, RUNNING)], OPEN))
    for name, files, fault in (
        ("of-the-third-right", [*SEVENS, ("third", part(1, [], ran))], None),
        ("of-the-third-wrong", [*SEVENS, ("third", part(1, [], right))], "2:3:7 in third"),
        ("of-the-second-and-the-third-wrong", [SEVENS[0], ("second", part(1, [], wrong)), ("third", part(1, []))], "2:3:7 in second"),
        ("behind-one-with-nothing-right", [SEVENS[0], half, ("third", part(1, [], ran))], None),
        ("behind-one-with-nothing-wrong", [SEVENS[0], half, ("third", part(1, []))], "2:3:7 in third"),
        ("behind-one-without-entries-right", [SEVENS[0], silent, ("third", part(1, LOGS[1][3:], right))], None),
        ("behind-one-without-entries-wrong", [SEVENS[0], silent, ("third", part(1, LOGS[1][3:]))], "2:3:7 in third"),
        ("by-pieces-and-not-by-stations", [SEVENS[0], NINES[0], ("later", part(2, [])), ("third", part(1, [], wrong))], "4:2:5 in later"),
        ("as-in-the-first-part", [opened, silent, ("third", part(1, [], [(3, RUNNING)]))], None),
        ("other-than-in-the-first-part", [opened, silent, ("third", part(1, []))], "2:3:3 in third"),
        ("of-a-second-behind-nothing", [silent, ("second", part(1, [], right))], "2:3:7 in second"),
        ("of-a-new-station", [SEVENS[0], ("fresh", part(2, LOGS[2], [(1, RUNNING), (5, STOPPED)]))], None),
    ):
        stated(cases, f"opening-{name}", files, fault and f"join: opening {fault}")


def ask(kind, request, entity=7, origin=MANAGER, target=(2, 3), **more):
    """An order that 2:3 received."""
    return texts.received(0, texts.pdu(kind, origin, (*target, entity), request=request, **more))


def reply(kind, request, entity=7, response=ABLE, origin=(2, 3), target=MANAGER, **more):
    """The Acknowledge that 2:3 sent of an order of this kind."""
    flag = [CREATE, REMOVE, START, STOP].index(kind) + 1
    return texts.sent(0, texts.pdu(ACKNOWLEDGE, (*origin, entity), target, flag=flag, response=response, request=request, **more))


MADE, STARTED = [ask(CREATE, 1), reply(CREATE, 1)], [ask(START, 2), reply(START, 2)]
REFUSED = [MADE[0], reply(CREATE, 1, response=UNABLE)]
SOME = [(5, STOPPED), (8, RUNNING)]
# What is tried, what 2:3 opens with, its log, the states that the log leaves, and those that another reading would leave.
CHANGES = [
    ("a-state-that-is-told", [(7, STOPPED)], [texts.told(0, 7, RUNNING)], [(7, STOPPED)], [(7, RUNNING)]),
    ("created", [], MADE, [(7, STOPPED)], []),
    ("created-and-started", [], MADE + STARTED, [(7, RUNNING)], [(7, STOPPED)]),
    ("stopped", [(7, RUNNING)], [ask(STOP, 1), reply(STOP, 1)], [(7, STOPPED)], [(7, RUNNING)]),
    ("removed", [(7, RUNNING), (8, STOPPED)], [ask(REMOVE, 1), reply(REMOVE, 1)], [(8, STOPPED)], [(7, RUNNING), (8, STOPPED)]),
    ("removed-and-created", [(7, RUNNING)], [ask(REMOVE, 2), reply(REMOVE, 2), *MADE], [(7, STOPPED)], []),
    ("an-order-alone", [], MADE[:1], [], [(7, STOPPED)]),
    ("an-answer-alone", [], MADE[1:], [], [(7, STOPPED)]),
    ("an-answer-before-its-order", [], MADE[::-1], [], [(7, STOPPED)]),
    ("an-answer-before-its-order-and-again", [], [*MADE[::-1], MADE[1]], [], [(7, STOPPED)]),
    ("unable", [], REFUSED, [], [(7, STOPPED)]),
    ("pending", [], [MADE[0], reply(CREATE, 1, response=3)], [], [(7, STOPPED)]),
    ("able-behind-unable", [], [*REFUSED, MADE[1]], [(7, STOPPED)], []),
    ("a-repeat", [], MADE + STARTED + MADE, [(7, RUNNING)], [(7, STOPPED)]),
    ("a-repeat-of-the-answer", [], [*MADE, *STARTED, MADE[1]], [(7, RUNNING)], [(7, STOPPED)]),
    ("a-repeat-from-entity-0", [], [*MADE, *STARTED, reply(CREATE, 1, 0)], [(7, STOPPED)], [(7, RUNNING)]),
    ("another-entity-answers", [], [MADE[0], reply(CREATE, 1, 8)], [], [(8, STOPPED)]),
    ("an-entity-of-its-choice", [], [ask(CREATE, 1, 65534), reply(CREATE, 1, 8)], [(8, STOPPED)], []),
    ("another-kind-is-answered", [(7, STOPPED)], [ask(STOP, 1), reply(START, 1)], [(7, STOPPED)], [(7, RUNNING)]),
    ("all-started", SOME, [ask(START, 1, 65535), reply(START, 1, 0)], [(5, RUNNING), (8, RUNNING)], SOME),
    ("all-stopped", SOME, [ask(STOP, 1, 0), reply(STOP, 1, 65535)], [(5, STOPPED), (8, STOPPED)], SOME),
    ("all-removed", SOME, [ask(REMOVE, 1, 65535), reply(REMOVE, 1, 65535)], [], SOME),
    ("one-of-all-stopped", [(5, RUNNING), (8, RUNNING)], [ask(STOP, 1, 65535), reply(STOP, 1, 5)], SOME, [(5, STOPPED), (8, STOPPED)]),
    ("one-for-all-stopped", [(7, RUNNING), (8, RUNNING)], [ask(STOP, 1), reply(STOP, 1, 0)], [(7, STOPPED), (8, RUNNING)], [(7, STOPPED), (8, STOPPED)]),
    ("an-absent-one-started", [], STARTED, [], [(7, RUNNING)]),
    ("an-absent-one-stopped", [(8, RUNNING)], [ask(STOP, 1), reply(STOP, 1)], [(8, RUNNING)], [(7, STOPPED), (8, RUNNING)]),
    ("one-that-runs-created", [(7, RUNNING)], MADE, [(7, STOPPED)], [(7, RUNNING)]),
    ("an-order-of-another-exercise", [], [ask(CREATE, 1, exercise=2), MADE[1]], [], [(7, STOPPED)]),
    ("an-answer-of-another-exercise", [], [MADE[0], reply(CREATE, 1, exercise=2)], [], [(7, STOPPED)]),
    ("an-order-for-another-station", [], [ask(CREATE, 1, target=(2, 4)), MADE[1]], [], [(7, STOPPED)]),
    ("an-order-for-all-stations", [], [ask(CREATE, 1, target=(65535, 65535)), MADE[1]], [(7, STOPPED)], []),
    ("an-answer-in-another-name", [], [MADE[0], reply(CREATE, 1, origin=(2, 4))], [], [(7, STOPPED)]),
    ("an-answer-in-another-name-to-all", [], [ask(CREATE, 1, target=(65535, 65535)), reply(CREATE, 1, origin=(2, 4))], [(7, STOPPED)], []),
    ("an-answer-to-another-manager", [], [MADE[0], reply(CREATE, 1, target=(1, 2, 0))], [], [(7, STOPPED)]),
    ("an-answer-to-an-entity-of-the-manager", [], [MADE[0], reply(CREATE, 1, target=(1, 1, 4))], [(7, STOPPED)], []),
    ("the-first-order-of-an-identifier", [(7, STOPPED)], [ask(STOP, 1), ask(START, 1), reply(START, 1)], [(7, STOPPED)], [(7, RUNNING)]),
    ("two-managers", [], [*MADE, ask(START, 1, origin=(1, 2, 0)), reply(START, 1, target=(1, 2, 0))], [(7, RUNNING)], [(7, STOPPED)]),
    ("an-order-that-was-sent", [], [texts.sent(0, MADE[0].datagram), MADE[1]], [], [(7, STOPPED)]),
    ("an-answer-that-was-received", [], [MADE[0], texts.received(0, MADE[1].datagram)], [], [(7, STOPPED)]),
    ("version-6", [], [ask(CREATE, 1, version=6), reply(CREATE, 1, version=6)], [(7, STOPPED)], []),
    ("two-versions", [], [*MADE, *STARTED, reply(CREATE, 1, version=6)], [(7, RUNNING)], [(7, STOPPED)]),
]  # fmt: skip


def changes(cases):
    """The states that a log leaves, which it leaves in two parts as well; others are refused."""
    for name, opening, log, left, other in CHANGES:
        files = [("begun", part(1, log[:1], opening)), ("gone-on", part(1, log[1:], form=OPEN)), ("ended", part(1, [], left))]
        stated(cases, f"changes-{name}", files)
        fault = f"join: opening 2:3:{min(dict(set(left) ^ set(other)))} in ended"
        stated(cases, f"changes-{name}-otherwise", [("begun", part(1, log, opening)), ("ended", part(1, [], other))], fault)
    begun = ("begun", part(1, [ask(CREATE, 1, 65535), reply(CREATE, 1, 65535)]))
    ended = ("ended", part(1, [], [(1, STOPPED), (2, STOPPED)]))
    stated(cases, "changes-all-numbers-created", [begun, ended], "join: opening 2:3:3 in ended")


def faults_in_turn(cases):
    """Which fault of parts comes first."""
    manager, nine, begun = WHOLE[0], WHOLE[2], SEVENS[0]
    wrong, back = ("wrong", part(1, LOGS[1][3:], [(7, RUNNING)])), ("back", part(1, LOGS[1][:1], [(7, RUNNING)]))
    other, cut = ("other", part(1, LOGS[1][:1], exercise=2)), ("cut", SEVENS[1][1][:60])
    for name, files, fault in (
        ("another-exercise-that-goes-back", [begun, other], "join: exercise in other"),
        ("another-exercise-behind-one-that-goes-back", [begun, back, other], "join: time 2:3 in back"),
        ("another-exercise-before-one-that-goes-back", [begun, manager, other, back], "join: exercise in other"),
        ("another-exercise-behind-an-opening", [begun, wrong, other], "join: exercise in other"),
        ("damage-before-one-that-goes-back", [begun, cut, back], "recording: truncated at 60 in cut"),
        ("damage-behind-one-that-goes-back", [begun, back, cut], "join: time 2:3 in back"),
        ("damage-behind-an-opening", [begun, wrong, cut], "recording: truncated at 60 in cut"),
        ("damage-first", [cut, begun], "recording: truncated at 60 in cut"),
        ("an-opening-before-one-that-goes-back", [begun, wrong, back], "join: time 2:3 in back"),
        ("an-opening-of-one-that-goes-back", [begun, back], "join: time 2:3 in back"),
        ("an-opening-before-others", [begun, wrong, manager, nine], "join: opening 2:3:7 in wrong"),
    ):
        stated(cases, f"fault-{name}", files, fault)
    low, again = ("low", stations_alone(1, 128)), ("again", texts.recording_text(Recording(1, [Station(1, 1, [(7, STOPPED)])], [])))
    for count, fault in ((128, None), (129, "join: stations")):
        high = ("high", stations_alone(300, count))
        stated(cases, f"stations-of-parts-{128 + count}", [low, high, ("high-again", high[1])], fault)
        stated(cases, f"fault-an-opening-of-{128 + count}-stations", [low, high, again], fault or "join: opening 1:1:7 in again")
    timed_parts = [("one", part(1, clocked([5]))), ("high", stations_alone(300, 256)), ("two", part(1, clocked([4])))]
    stated(cases, "fault-one-that-goes-back-behind-257-stations", timed_parts, "join: time 2:3 in two")


def files_of_parts(cases):
    cases.case("a-part-that-is-not-there", SEVENS)
    cases.told(["join", "seven-2", "seven-1", "nowhere", "new", "parts=yes"], ["seven-2", "seven-1", "nowhere"], pages.unopened("nowhere"))
    for number, (name, _) in enumerate(SEVENS):
        cases.case(f"the-new-one-is-{name}")
        asked = ["seven-1", "seven-2"][: number + 1]
        cases.told(["join", "seven-1", "seven-2", name, "parts=yes", "form=open"], asked, pages.fault(f"output: same as {name}"))
    cases.case("force-between-the-words")
    answer, left = pages.answer_to_join(SEVENS, OPEN, True)
    words = ["join", "seven-1", "seven-2", "made", "parts=yes", "--force", "form=open"]
    cases.told(words, ["seven-1", "seven-2", "make made"], answer, left)
    stated(cases, "parts-of-files-with-names-of-words", [("./parts=yes", SEVENS[0][1]), ("./form=open", SEVENS[1][1])])


# ---- parts that are made up

MADE_UP, MORE_MADE_UP = 60, 500
EVERY = 0xFFFF
Part = namedtuple("Part", "station opening entries")


class Exercise:
    """An exercise that is made up, each entry allowed behind those before it, with the states behind each."""

    def __init__(self, stations):
        self.course, self.states = Course(Recording(1, stations, [])), []

    def add(self, entry):
        """Adds an entry if it is allowed, and tells whether it is."""
        course = self.course
        course.entries.append(entry)
        course.meanings.append(None if entry.kind == TOLD else meaning_of(1, entry.datagram))
        if course.cause_of_event(len(self.states)):
            course.entries.pop()
            course.meanings.pop()
            return False
        course.take(len(self.states))
        self.states.append(dict(course.states))
        return True

    def opening(self, station, before):
        """What a part of a station's log opens with that stands behind these entries of it."""
        states = self.states[before[-1]] if before else Course(Recording(1, self.course.stations, [])).states
        return sorted((entity, state) for (at, entity), state in states.items() if at == station)


def obeyed(chance, exercise, station, request):
    """An order to a station, most often with its answer and a state that is told; some come twice."""
    address, entity = exercise.course.address(station), chance.choice((7, 7, 8, EVERY))
    kind = chance.choice((CREATE, CREATE, START, STOP, REMOVE))
    asked = texts.pdu(kind, MANAGER, (*address, entity), request=request)
    exercise.add(texts.sent(0, asked))
    for _ in range(chance.choice((0, 1, 1, 1, 1, 2))):
        exercise.add(texts.received(station, asked))
        said = [reply(kind, request, 0 if entity == EVERY else entity, response, address).datagram for response in (ABLE, UNABLE)]
        answers = [datagram for datagram in said if exercise.add(texts.sent(station, datagram))][:1]
        if answers and chance.random() < 0.5:
            exercise.add(texts.received(0, answers[0]))
    told = chance.choice((7, 8))
    if chance.random() < 0.5:
        for state in (ABSENT, STOPPED, RUNNING):
            exercise.add(texts.told(station, told, state))


def made_up_exercise(chance):
    """What two or three stations record of some orders."""
    opening = [(entity, chance.choice((STOPPED, RUNNING))) for entity in (7, 8) if chance.random() < 0.5]
    exercise = Exercise([Station(1, 1, []), Station(2, 3, opening), Station(4, 2, [])][: chance.choice((2, 3))])
    for request in range(1, chance.choice((4, 5, 6))):
        obeyed(chance, exercise, chance.randrange(1, len(exercise.course.stations)), request)
    return exercise


def timed(chance, entries):
    """Entries of one station with stamps of its clock, which may stand still."""
    stamp, found = chance.randrange(9), []
    for entry in entries:
        stamp += chance.choice((0, 1, 1, 7))
        found.append(entry if entry.kind == TOLD else entry._replace(stamp=stamp))
    return found


def cut_log(chance, exercise, station, cuts):
    """The log of a station, cut so often."""
    own = [index for index, entry in enumerate(exercise.course.entries) if entry.station == station]
    log = timed(chance, [exercise.course.entries[index] for index in own])
    places = sorted(chance.choices(range(len(own) + 1), k=cuts))
    return [Part(station, exercise.opening(station, own[:start]), log[start:end]) for start, end in zip([0, *places], [*places, len(own)])]


def restamped(entries, stamps):
    """Entries of which the first datagrams have other stamps."""
    left = list(stamps)
    return [entry if entry.kind == TOLD or not left else entry._replace(stamp=left.pop(0)) for entry in entries]


def spoilt(chance, part_of):
    """A part that is spoilt in some way; in the last of them it is none the worse."""
    station, opening, entries = part_of
    stamps = [entry.stamp for entry in entries if entry.kind != TOLD]
    at = chance.randrange(len(opening)) if opening else 0
    turned = [(entity, STOPPED + RUNNING - state) for entity, state in opening[at : at + 1]]
    return chance.choice([
        Part(station, opening[:at] + turned + opening[at + 1 :], entries), Part(station, opening[:at] + opening[at + 1 :], entries),
        Part(station, sorted([*opening, (chance.choice((6, 9)), STOPPED)]), entries), Part(station, opening, restamped(entries, [0])),
        Part(station, opening, restamped(entries, [stamp + 1000 for stamp in stamps[:-1]])),
    ])  # fmt: skip


def later_parts(parts_of):
    """The places of the parts whose station an earlier part has."""
    return [at for at, one in enumerate(parts_of) if one.station in [earlier.station for earlier in parts_of[:at]]]


def made_up_parts(chance, exercise):
    """The logs of an exercise, cut, in an order of the words, and whether none of them is spoilt."""
    stations = range(len(exercise.course.stations))
    cuts = [chance.randrange(3) for _ in stations]
    cuts[chance.choice(stations)] = chance.choice((1, 2))
    logs = [cut_log(chance, exercise, station, cuts[station]) for station in stations]
    order = [station for station in stations for _ in logs[station]]
    chance.shuffle(order)
    parts_of = mixed(logs, order)
    if chance.random() < 0.25:
        return parts_of, True
    at = chance.choice(later_parts(parts_of))
    return [*parts_of[:at], spoilt(chance, parts_of[at]), *parts_of[at + 1 :]], False


def made_up_pieces(chance, exercise):
    """The parts of an exercise as pieces, some of which have two stations, and whether none is spoilt."""
    parts_of, is_sound = made_up_parts(chance, exercise)
    later, groups = later_parts(parts_of), []
    for at, one in enumerate(parts_of):
        if not groups or chance.random() < 0.7 or one.station in [parts_of[before].station for before in groups[-1]]:
            groups.append([])
        groups[-1].append(at)
    pieces_of = []
    for group in groups:
        form = chance.choice((FIRST, CLOSED, OPEN, OPEN))
        silent = [at for at in group if form == OPEN and at in later and chance.random() < 0.5]
        some = sorted(parts_of[at]._replace(opening=[] if at in silent else parts_of[at].opening) for at in group)
        pieces_of.append(recorded(chance, exercise.course.stations, some, form))
    return pieces_of, is_sound


def recorded(chance, stations, parts_of, form):
    """A piece of these parts, whose entries are mixed."""
    order = [index for index, one in enumerate(parts_of) for _ in one.entries]
    chance.shuffle(order)
    logs = [[entry._replace(station=index) for entry in one.entries] for index, one in enumerate(parts_of)]
    opened = [stations[one.station]._replace(opening=one.opening) for one in parts_of]
    return texts.recording_text(Recording(1, opened, mixed(logs, order), form))


def made_up(seed):
    """Pieces of an exercise by a seed, the form that is asked for, and whether that stands behind `parts=yes`."""
    chance = random.Random(seed)
    exercise = made_up_exercise(chance)
    pieces_of, is_sound = made_up_pieces(chance, exercise)
    form, turned = chance.choice((None, None, CLOSED, OPEN)), chance.random() < 0.5
    if is_sound:
        text = pages.answer_to_join(list(zip("abcdefghi", pieces_of)), form, True)[1]
        assert entity_lines(is_explained(text)) == entity_lines(exercise.course.report().encode())
    return pieces_of, form, turned


def parts_made_up(cases):
    for seed in range(MADE_UP):
        pieces_of, form, turned = made_up(seed)
        files = [(f"piece-{number}", text) for number, text in enumerate(pieces_of, 1)]
        cases.joined(f"parts-made-up-{seed}", files, form, parts=True, turned=turned)


def cases():
    made = Cases()
    for some in (
        helped, orders, alone, forms, refusals, limits, files, failing, parts_in_orders, parts_of_two, forms_of_parts, copies, times, times_of_two,
        openings, openings_of_two, openings_in_turn, changes, faults_in_turn, files_of_parts, parts_made_up,
    ):  # fmt: skip
        some(made)
    yield "# Pieces of a recording that are brought together: an exercise of three stations, each recorded on its own machine."
    yield "# The lines were made by tools/cases/joins.py."
    yield from made.lines


if __name__ == "__main__":
    print("\n".join(cases()))


# ---- from outside


def try_pieces(trials, pieces_of, form=None, parts=False, turned=False):
    """Pieces that are joined to a new name, and to one that stands there, which is kept without --force."""
    named = [(trials.file(text), text) for text in pieces_of]
    answer, left = pages.answer_to_join(named, form, parts)
    behind = ([f"form={form or CLOSED}"] if form or len(named) == 1 else []) + (["parts=yes"] if parts else [])
    words = behind[::-1] if turned else behind
    files, kept = [file for file, _ in named], b"stays" * 20_000
    stands, replaced = trials.file(kept), trials.file(kept)  # one for each run: runs go on at once
    after(trials, ["join", *files, stands, *words], (pages.fault("output: exists"),), stands, lambda came: came == kept)
    for name, there, force in [(f"{stands}.new", None, []), (replaced, kept, ["--force"])]:
        wanted = there if left is None else left
        after(trials, ["join", *files, name, *words, *force], (answer,), name, lambda came, wanted=wanted: came == wanted)


def try_many(trials):
    """As many pieces as there can be stations, and one more."""
    for count in (255, 256, 257):
        try_pieces(trials, stations_many(count))


def try_numbers(trials):
    """As many entries as there can be, one below and one above, in two pieces of two stations, and in two parts of one log."""
    half, entries = pages.MOST_ENTRIES // 2, [texts.told(0, 7, STOPPED)]
    for more, first in itertools.product((-1, 0, 1), (2, 1)):
        made = [texts.recording_text(Recording(1, [Station(site, 1, [(7, STOPPED)])], entries * count)) for site, count in ((first, half), (1, half + more))]
        try_pieces(trials, made, parts=first == 1)


def try_sizes(trials):
    """As large a file as there can be, one byte less and one more, of two pieces, or of two parts of one log."""
    full = texts.received(0, b"\xee" * 8192)
    size_of = len(texts.entry_text(full))
    for more, first in ((-1, 2), (0, 2), (1, 2), (0, 1), (1, 1)):
        bare = len(texts.recording_text(Recording(1, [Station(site, 1, []) for site in sorted({1, first})], [], CLOSED)))
        count, rest = divmod(pages.LARGEST_RECORDING + more - bare, size_of)
        last = texts.received(0, b"\xee" * (rest - len(texts.entry_text(texts.received(0, b"")))))
        logs = [(first, [full] * (count // 2)), (1, [full] * (count - count // 2) + [last])]
        made = [texts.recording_text(Recording(1, [Station(site, 1, [])], entries)) for site, entries in logs]
        try_pieces(trials, made, parts=first == 1)


def try_parts(trials):
    """Parts that are made up, and as many of one log as there can be stations, and more."""
    for seed in range(MADE_UP, MORE_MADE_UP):
        pieces_of, form, turned = made_up(seed)
        try_pieces(trials, pieces_of, form, True, turned)
    for count in (255, 256, 257):
        try_pieces(trials, [part(1, clocked([number])) for number in range(count)], parts=True)


def try_usage(trials):
    usage = Outcome(2, b"", Some())
    for words in [
        [], ["a"], ["a", "b"], ["a", "b", "--force"], ["form=open"], ["a", "form=open"], ["a", "b", "form=none"], ["a", "b", "form="], ["a", "b", "form=open", "c"],
        ["a", "form=open", "b"], ["form=open", "a", "b"], ["a", "b", "form=open", "form=open"], ["-a", "b"], ["a", "-b"], ["a", "b", "-c"],
        ["parts=yes"], ["a", "parts=yes"], ["a", "b", "parts=yes"], ["a", "b", "parts=yes", "--force"], ["a", "form=open", "parts=yes"],
        ["a", "b", "c", "parts=no"], ["a", "b", "c", "parts="], ["a", "b", "c", "parts=YES"], ["a", "b", "c", "parts=yes", "d"],
        ["a", "b", "parts=yes", "c"], ["parts=yes", "a", "b", "c"], ["a", "b", "c", "parts=yes", "parts=yes"],
        ["a", "b", "c", "parts=yes", "parts=no"], ["a", "b", "c", "form=open", "parts=no"], ["a", "b", "c", "parts=no", "form=open"],
        ["a", "b", "c", "form=none", "parts=yes"], ["a", "b", "c", "parts=yes", "form=none"],
        ["a", "b", "c", "form=open", "parts=yes", "form=open"], ["a", "b", "c", "parts=yes", "form=open", "parts=yes"],
        ["a", "b", "c", "form=open", "d", "parts=yes"], ["a", "b", "c", "parts=yes", "d", "form=open"], ["a", "b", "parts=yes", "c", "parts=yes"],
    ]:
        trials.expect(["join", *words], usage)


def try_files(trials, examples):
    good, certificate, _ = examples
    other = trials.file(piece(2))
    for name in ["none.dsrc", "", "x" * 300]:
        trials.expect(["join", other, name, "never"], pages.unopened(name))
    trials.expect(["join", other, "examples", "never"], pages.unopened("examples", "is a directory"))
    trials.expect(["join", other, certificate, "never"], pages.fault(f"recording: magic at 0 in {certificate}"))
    trials.expect(["join", WORKED_SCRIPT, other, "never"], pages.fault(f"recording: magic at 0 in {WORKED_SCRIPT}"))
    for name in ["examples", "none/there.dsrc", "", "/dev/full"]:
        trials.expect(["join", good, name, "form=closed"], UNWRITTEN)
    trials.expect(["join", other, "/dev/null", "form=closed"], pages.answer_to_join([(other, piece(2))])[0])
    for behind in [">/dev/full", ">&-"]:
        name = f"unheard.{len(behind)}.joined.dsrc"
        after(trials, ["join", other, name, "form=closed"], (UNWRITTEN,), name, lambda left: left is None, behind=behind)


def try_same(trials):
    """None of many pieces is ever overwritten, whichever it is and by whatever name."""
    pieces_of = stations_many(256)
    for number in (0, 1, 128, 254, 255):
        named = [trials.file(text) for text in pieces_of]
        link, hard = f"{named[number]}.soft", f"{named[number]}.hard"
        os.symlink(named[number], trials.folder / link)
        os.link(trials.folder / named[number], trials.folder / hard)
        fault = (pages.fault(f"output: same as {named[number]}"),)
        for name in (named[number], f"./{named[number]}", link, hard):
            for behind in ([], ["--force"]):
                after(trials, ["join", *named, name, *behind], fault, name, lambda left, text=pieces_of[number]: left == text)


def try_tour(trials):
    """What NETWORK.md says of the pieces among the examples."""
    pieces_of = [f"examples/piece_of_{name}.dsrc" for name in ("simulator", "manager")]
    joined = (Outcome(0, b"joined pieces=2 stations=2 records=7 form=closed\n", b""),)
    old = (trials.folder / "examples" / "logs_joined.dsrc").read_bytes()
    after(trials, ["join", *pieces_of, "tour.dsrc"], joined, "tour.dsrc", lambda left: left == b"DSRC0002\1\0" + old[9:])
    carried = trials.file(b"DSRC0002\1\0" + old[9:])
    trials.expect(["check", carried, "examples/logs_joined.dsct"], Outcome(0, JOINED_REPORT, b""))


def try_all(trials, examples):
    three = [piece(number) for number in range(3)]
    for order in itertools.permutations(three):
        for form in (None, OPEN, CLOSED):
            try_pieces(trials, order, form)
    for size in range(len(three[1])):
        try_pieces(trials, [three[0], three[1][:size], three[2]])
    for place, byte in enumerate(three[1]):
        try_pieces(trials, [three[0], three[1][:place] + bytes([byte ^ 1]) + three[1][place + 1 :], three[2]])
    try_parts(trials)
    try_many(trials)
    try_numbers(trials)
    try_sizes(trials)
    try_same(trials)
    try_usage(trials)
    try_tour(trials)
    try_files(trials, examples)
