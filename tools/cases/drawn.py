"""Writes the cases of `chart`: what must be drawn follows from the pages alone (tools/pages/drawings.py).

    cd tools && python3 -m cases.drawn > ../crates/siman_cases/data/chart.cases
"""
import random

import pages
from cases import texts
from cases.examples import TOP
from pages import NO_LINK, OPEN, Recording, Station
from pages.drawings import answer_to_chart
from pictures import made_exercise, steps_of

# The order of the worked exercise in which its entries happened.
COURSE = [0, 1, 2, 3, 4, 5, 6, 7, 8, 9, 11, 13, 15, 10, 12, 14, 16, 17, 18, 22, 19, 20, 23, 24, 25, 26, 28, 27, 29, 21]


def example(name):
    """The bytes of an example, which stand in hexadecimal digits, with remarks."""
    lines = (TOP / f"examples/{name}.hex").read_text(encoding="ascii").splitlines()
    return bytes.fromhex(" ".join(line.partition("#")[0] for line in lines))


LOSSES = example("losses.dsrc")
ROWS = 2001
BYTES = 50


def hexes(text):
    return [f"hex {text[at : at + BYTES].hex().upper()}" for at in range(0, len(text), BYTES)]


def pieces(text):
    """Lines of a case that stand for a text."""
    *lines, last = text.split("\n")
    return [f"text {line}" if line else "text" for line in lines] + ([f"piece {last}"] if last else [])


def file(name, text, calls=None):
    return [f"file {name}", *hexes(text), *([f"calls {calls}"] if calls else [])]


class Files:
    """The files that stand for the cases behind them."""

    def __init__(self):
        self.texts = {}

    def case(self, name, words, before=(), asked=None, answer=None):
        """A case whose words may name a recording, a certificate, the picture, and steps."""
        recording, certificate, picture, *steps = words
        order = None if certificate == "-" else self.texts.get(certificate, b"")
        told, drawn = answer or answer_to_chart(self.texts.get(recording, b""), order, steps)
        yield from ["", f"case {name}", *before, f"words chart {' '.join(words)}"]
        asked = [recording, certificate][: 1 + (certificate != "-")] if asked is None else asked
        asked = asked + ([f"make {picture}"] if drawn is not None else [])
        yield from [f"asked {name}" for name in asked] or ["asked-nothing"]
        yield from [f"status {told.status}"] if told.status else []
        if told.out:
            yield from ["out", *pieces(told.out.decode())]
        if drawn is not None:
            yield from ["left", *pieces(drawn)]
        if told.errors:
            yield from ["errors", *pieces(told.errors.decode())]

    def kept(self, name, text, calls=None):
        self.texts[name] = text
        return file(name, text, calls)


def worked(files):
    recording = pages.read_recording(LOSSES)
    steps = steps_of(recording, COURSE)
    yield from files.case(
        "the-worked-exercise", ["losses", "order", "new"],
        [*files.kept("losses", LOSSES), *files.kept("order", texts.certificate_text(steps))],
    )  # fmt: skip
    yield from files.case("some-steps-of-it", ["losses", "order", "new", "from=4", "to=11"])
    swapped = [*steps[:2], steps[3], steps[2], *steps[4:]]
    linked = [*steps[:5], (steps[5][0], 3), *steps[6:]]
    for name, bad in [("swapped", swapped), ("linked", linked), ("short", steps[:-1]), ("none", [])]:
        kept = files.kept(name, texts.certificate_text(bad))
        yield from files.case(f"a-certificate-that-is-{name}", ["losses", name, "new"], kept)
    yield from files.case("a-step-past-the-first-bad-one", ["losses", "swapped", "new", "from=2"])
    yield from files.case("the-last-step-before-the-first-bad-one", ["losses", "swapped", "new", "from=1"])
    yield from files.case("not-the-last-step-before-the-first-bad-one", ["losses", "swapped", "new", "to=0"])


def unexplained(files):
    """What nothing explains, up to where no station can go on; and what audit finds a sequence of."""
    yield from files.case("no-certificate-of-what-is-explained", ["losses", "-", "new"])
    yield from files.case("some-steps-without-a-certificate", ["losses", "-", "new", "from=11", "to=12"])
    missing = files.kept("missing", example("one_send_missing.dsrc"))
    yield from files.case("a-send-is-missing", ["missing", "-", "new"], missing)
    yield from files.case("a-send-is-missing-the-last-steps", ["missing", "-", "new", "from=5", "clock=us"])
    yield from files.case("a-send-is-missing-not-the-last-step", ["missing", "-", "new", "to=5"])
    yield from files.case("a-send-is-missing-two-columns", ["missing", "-", "new", "station=1:1", "station=2:4", "from=5"])
    yield from files.case("a-send-is-missing-a-step-past-the-last", ["missing", "-", "new", "from=7"])
    yield from files.case("every-cause", ["causes", "-", "new"], files.kept("causes", example("every_cause.dsrc")))
    yield from files.case("nothing-can-happen", ["crossed", "-", "new"], files.kept("crossed", example("comments_crossed.dsrc")))
    yield from files.case("nothing-can-happen-at-a-step", ["crossed", "-", "new", "to=0"])
    joined = files.kept("joined", example("logs_joined.dsrc"))
    for name in ("taken_twice", "no_such_entry", "wrong_link", "too_few_steps"):
        kept = [*joined, *files.kept(name, example(f"{name}.dsct"))]
        yield from files.case(f"the-certificate-{name.replace('_', '-')}", ["joined", name, "new"], kept)
        joined = []


def columns(files):
    """The columns of some stations."""
    words = ["losses", "order", "new"]
    yield from files.case("one-column", [*words, "station=2:4"])
    yield from files.case("two-columns", [*words, "station=2:4", "from=4", "to=16", "station=1:1"])
    yield from files.case("a-column-twice", [*words, "station=2:3", "station=2:3", "from=28"])
    yield from files.case("all-columns", [*words, "station=2:3", "station=2:4", "station=1:1", "from=28"])
    yield from files.case("columns-with-a-clock", [*words, "clock=ms", "station=2:3", "from=26", "entity=2:3:7"])
    for said in (["station=9:9"], ["station=2:3", "station=3:2", "to=0"], ["station=9:9", "to=30"], ["station=0:0"]):
        yield from files.case(f"no-column-by-{'-'.join(said)}", [*words, *said])


def windows(files):
    words = ["losses", "order", "new"]
    yield from files.case("from-a-step", [*words, "from=27"])
    yield from files.case("to-a-step", [*words, "to=1"])
    yield from files.case("one-step", [*words, "to=13", "from=13"])
    yield from files.case("the-last-step", [*words, "from=29", "to=29"])
    yield from files.case("zeros-before-a-number", [*words, "from=0028"])
    yield from files.case("a-clock-of-microseconds", [*words, "from=26", "clock=us"])
    yield from files.case("a-clock-of-milliseconds", [*words, "clock=ms", "to=1"])
    yield from files.case("a-clock-of-seconds", [*words, "from=28", "clock=s"])
    yield from files.case("one-entity", [*words, "entity=2:4:9", "from=10", "to=13"])
    yield from files.case("two-entities", [*words, "entity=2:4:9", "from=12", "entity=2:3:7", "to=13"])
    yield from files.case("an-entity-twice", [*words, "entity=2:3:7", "entity=2:3:7", "from=28"])
    yield from files.case("an-entity-that-is-not-there", [*words, "entity=2:3:8", "from=28"])
    for past in (["from=30"], ["to=30"], ["to=31", "from=30"], ["from=0", "to=30"], ["from=4294967295"]):
        yield from files.case(f"past-the-last-by-{'-'.join(past)}", [*words, *past])
    bad = [
        ["from"], ["from="], ["from=x"], ["from=1x"], ["from=-1"], ["from=+1"], ["from=4294967296"], ["From=1"],
        ["step=1"], ["=1"], ["station=1"], ["from=1", "from=2"], ["to=2", "to=2"], ["from=5", "to=4"],
        ["to=4", "from=5"], ["from=1", "to=2", "to=3"], ["x", "from=1"], ["from=9", "to=8", "x"], ["from=1=2"],
        ["clock="], ["clock=m"], ["clock=US"], ["clock=s", "clock=s"], ["clock=us", "from=1", "clock=ms"], ["clock"],
        ["entity="], ["entity=7"], ["entity=2:3"], ["entity=2:3:7:1"], ["entity=2:3:65536"], ["entity=2:3:x"],
        ["from=2", "entity=2:3:7", "to=1"], ["station="], ["station=1:1:1"], ["station=1:65536"], ["station=1:x"], ["station"],
        ["station=2:4", "Station=2:4"],
    ]  # fmt: skip
    for said in bad:
        yield from files.case(f"no-step-by-{'-'.join(said)}", [*words, *said], asked=[])
    yield from files.case("no-step-before-any-file", ["nowhere", "nothing", "nowhere", "x"], asked=[])


def empty_word(files):
    """An empty word is no word of a line of words."""
    yield from ["", "case no-step-by-an-empty-word", "words chart losses order new", "word", "asked-nothing", "status 2"]
    yield from ["errors", "text filter: "]


def openings(files):
    missing, memory = pages.unopened("nowhere"), pages.Outcome(3, b"", b"memory\n")
    yield from files.case("a-recording-that-is-not-there", ["nowhere", "order", "new"], asked=["nowhere"], answer=(missing, None))
    yield from files.case("a-certificate-that-is-not-there", ["losses", "nowhere", "new"], answer=(missing, None))
    yield from files.case("the-first-of-two-that-are-not-there", ["nowhere", "nothing", "new"], asked=["nowhere"], answer=(missing, None))
    barred = pages.unopened("barred", "permission denied")
    yield from files.case("a-recording-that-cannot-be-opened", ["barred", "order", "new"], ["shut barred"], ["barred"], (barred, None))
    yield from files.case("a-certificate-that-cannot-be-opened", ["losses", "barred", "new"], answer=(barred, None))
    yield from files.case("a-recording-that-memory-is-short-for", ["hidden", "order", "new"], ["full hidden"], ["hidden"], (memory, None))
    yield from files.case("a-certificate-that-memory-is-short-for", ["losses", "hidden", "new"], answer=(memory, None))
    for name in ("losses", "order"):
        same = pages.fault(f"output: same as {name}")
        yield from files.case(f"the-picture-is-{name}", ["losses", "order", name], asked=["losses", "order"][: 1 + (name == "order")], answer=(same, None))
    both = pages.fault("output: same as losses")
    yield from files.case("all-three-are-one", ["losses", "losses", "losses"], asked=["losses"], answer=(both, None))
    write = pages.fault("output: write")
    for name, told in (("barred", write), ("hidden", memory)):
        yield from files.case(f"a-picture-that-is-{name}", ["losses", "order", name], asked=["losses", "order", f"make {name}"], answer=(told, None))


def readings(files):
    yield from files.case("an-empty-recording", ["empty", "order", "new"], files.kept("empty", b""))
    yield from files.case("an-empty-certificate", ["losses", "empty", "new"])
    yield from files.case("a-bad-recording-before-a-bad-certificate", ["empty", "losses", "new"])
    yield from files.case("a-certificate-for-a-recording", ["order", "order", "new"])
    yield from files.case("a-recording-for-a-certificate", ["losses", "losses", "new"])
    yield from files.case("a-recording-cut-short", ["cut", "order", "new"], files.kept("cut", LOSSES[:-1]))
    for name, calls in (("once", "100000 1 other"), ("later", "40 3 other")):
        failing = file("failing", LOSSES, calls)
        told = pages.fault("recording: read"), None
        yield from files.case(f"a-recording-whose-read-fails-{name}", ["failing", "order", "new"], failing, answer=told)
    order = files.texts["order"]
    for name, calls in (("once", "100000 1 other"), ("later", "40 3 other")):
        failing = file("failing", order, calls)
        told = pages.fault("certificate: read"), None
        yield from files.case(f"a-certificate-whose-read-fails-{name}", ["losses", "failing", "new"], failing, answer=told)
    told = pages.fault("recording: truncated at 0"), None
    yield from files.case("a-bad-recording-before-a-failing-certificate", ["empty", "failing", "new"], answer=told)
    files.texts["slow"] = order
    yield from files.case("a-read-that-is-interrupted", ["losses", "slow", "new", "to=0"], file("slow", order, "40 2 interrupted"))


def write_fails(name, words, left, calls):
    yield from ["", f"case {name}", f"words {words}", "discarded", *pieces(left), f"calls {calls}"]
    yield from ["status 2", "errors", "text output: write"]


def writings(files):
    """Each write of a small picture, failed in turn, and the writes of its line: no half file stands."""
    words = ["losses", "order", "new", "to=0"]
    told, drawn = answer_to_chart(LOSSES, files.texts["order"], ["to=0"])
    said, most = f"chart {' '.join(words)}", 1000
    for at in range(-(-len(drawn) // most)):
        for kind in ("other", "nothing"):
            left = drawn[: at * most]
            yield from write_fails(f"a-picture-whose-write-fails-at-call-{at + 1}-by-{kind}", said, left, f"{most} {at + 1} {kind}")
    yield from ["", "case a-picture-whose-write-is-interrupted", f"words {said}", "out", *pieces(told.out.decode())]
    yield from ["left", *pieces(drawn), f"calls {most} 2 interrupted"]
    for at in (1, 2):
        out = told.out.decode()[: 10 * (at - 1)]
        yield from ["", f"case a-line-whose-write-fails-at-call-{at}", f"words {said}", "out", *pieces(out), f"calls 10 {at} other"]
        yield from ["status 2", "errors", "text output: write", "discarded", *pieces(drawn)]
    no, drawn = answer_to_chart(LOSSES, files.texts["swapped"])
    said = "chart losses swapped new"
    yield from write_fails("a-picture-of-a-no-whose-write-fails", said, drawn[:most], f"{most} 2 other")
    for at in (1, 2, 6):
        yield from ["", f"case a-no-whose-write-fails-at-call-{at}", f"words {said}", "out", *pieces(no.out.decode()[: 10 * (at - 1)])]
        yield from [f"calls 10 {at} other", "status 2", "errors", "text output: write", "discarded", *pieces(drawn)]


def limits(files):
    """As many rows as a picture may have, and one more."""
    recording = Recording(1, [Station(1, 1, [])], [texts.told(0, 7, pages.ABSENT)] * ROWS)
    many = files.kept("many", texts.recording_text(recording))
    steps = files.kept("steps", texts.certificate_text([(at, NO_LINK) for at in range(ROWS)]))
    words = ["many", "steps", "new"]
    yield from files.case("one-row-too-many", words, [*many, *steps])
    yield from files.case("one-row-too-many-from-the-first-to-the-last", [*words, "from=0", f"to={ROWS - 1}"])
    for said in ([f"to={ROWS - 2}"], ["from=1"]):
        yield from ["", f"case as-many-rows-as-may-be-{said[0]}", f"words chart {' '.join([*words, *said])}"]
        yield from ["out", f"text chart steps={ROWS - 1} stations=1", "keep drawn"]
    yield from files.case("some-rows-of-many", [*words, "from=1000", "to=1002"])
    yield from files.case("past-the-last-of-too-many", [*words, f"to={ROWS}"])


def twelve(files):
    """A station with twelve entities, which tells of the third, of the ninth and of one that is not there."""
    entries = [texts.told(1, 3, 2), texts.sent(0, b"x", 5_025_678_901), texts.told(1, 9, 2), texts.told(1, 13, 0)]
    stations = [Station(1, 1, []), Station(2, 3, [(entity, 1 + entity % 2) for entity in range(1, 13)])]
    kept = files.kept("twelve", texts.recording_text(Recording(1, stations, entries)))
    steps = files.kept("told", texts.certificate_text([(at, NO_LINK) for at in range(len(entries))]))
    words = ["twelve", "told", "new"]
    yield from files.case("twelve-entities", [*words, "clock=us"], [*kept, *steps])
    yield from files.case("four-of-twelve-entities", [*words, *(f"entity=2:3:{at}" for at in (9, 1, 12, 13, 3))])


def others(files):
    """No entries, and exercises that are made up: of two stations, and of six in an open recording."""
    none = files.kept("bare", texts.recording_text(Recording(7, [Station(2, 3, [])], [])))
    nothing = files.kept("nothing", texts.certificate_text([]))
    yield from files.case("no-entries", ["bare", "nothing", "new"], [*none, *nothing])
    yield from files.case("a-step-of-no-entries", ["bare", "nothing", "new", "from=0"])
    yield from twelve(files)
    for name, seed, stations, moves, form in (("two", 4, 2, 24, None), ("six", 0, 6, 120, OPEN)):
        recording, places = exercise(seed, stations, moves, form)
        kept = files.kept(name, texts.recording_text(recording))
        steps = files.kept(f"{name}-order", texts.certificate_text(steps_of(recording, places)))
        words = [name, f"{name}-order", "new"]
        yield from files.case(f"an-exercise-of-{name}-stations", words, [*kept, *steps])
        yield from files.case(f"some-steps-of-{name}-stations", [*words, "from=7", "to=15"])


def exercise(seed, stations, moves, form):
    """The first made-up exercise from a seed on, which is of this form, if one is asked for."""
    while True:
        made = made_exercise(random.Random(seed), stations, moves)
        if form in (None, made[0].form):
            return made
        seed += 1


def usage_fault(told):
    usage = ["text", "text Usage: siman chart <REC> <CERT> <SVG> [CHOICE]... [--torn] [--force]", "text", "text For more information, try '--help'."]
    return ["status 2", "errors", *told, *usage]


HELP = """\
Draws an exercise in the sequence of its certificate, or up to where it is contradicted, and writes the picture

Usage: siman chart <REC> <CERT> <SVG> [CHOICE]... [--torn] [--force]

Arguments:
  <REC>        The file of the recording
  <CERT>       The file of the certificate; - draws the sequence that audit finds, or what comes before its blocked list
  <SVG>        The file of the picture, in SVG; it must not be there yet, or be empty
  [CHOICE]...  What is shown: from=STEP the first step, to=STEP the last, counted from 0; clock=us, clock=ms or clock=s the time of day, of stamps in that unit; each may stand once; entity=S:A:E bars of this entity, station=S:A the column of this station, and of no other than those named

Options:
      --torn   Reads what stands whole of a recording that is torn, as one that is still written, and warns
      --force  Replaces a file that has the name of the one that is made
  -h, --help   Print help

Example:
  siman chart exercise.dsrc exercise.dsct exercise.svg
"""


def usages():
    required = "error: the following required arguments were not provided:"
    for name, words, lacks in (
        ("no-file", "chart", ["<REC>", "<CERT>", "<SVG>"]), ("one-file", "chart losses", ["<CERT>", "<SVG>"]),
        ("two-files", "chart losses order", ["<SVG>"]),
    ):  # fmt: skip
        told = [f"text {required}", *(f"text   {word}" for word in lacks)]
        yield from ["", f"case {name}", f"words {words}", "asked-nothing", *usage_fault(told)]
    for name, words, word in (("an-option", "chart losses order new --json", "--json"), ("an-option-among-steps", "chart losses order new from=1 --wide", "--wide")):
        told = [f"text error: unexpected argument '{word}' found"]
        yield from ["", f"case {name}", f"words {words}", "asked-nothing", *usage_fault(told)]
    for name, words in (("help-by-chart-help", "chart --help"), ("help-by-help-chart", "help chart"), ("help-behind-steps", "chart losses order new from=1 -h")):
        yield from ["", f"case {name}", f"words {words}", "asked-nothing", "out", *pieces(HELP)]


def cases():
    files = Files()
    yield "# Pictures of exercises: each is drawn to the byte. The lines were made by tools/cases/drawn.py."
    for part in (worked, unexplained, windows, columns, empty_word, openings, readings, writings, limits, others):
        yield from part(files)
    yield from usages()


if __name__ == "__main__":
    print("\n".join(cases()))
