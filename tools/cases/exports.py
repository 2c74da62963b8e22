"""Recordings that are made captures: the cases of `export`, those of `import` that give the logs back, and tries."""
import pages
from cases import texts
from cases.captured import bytes_of
from cases.examples import FORMATS_RECORDING
from cases.failing import hexes
from cases.small_captures import Imports, answered, order
from cases.trials import UNWRITTEN
from cases.worlds import after
from pages import CLOSED, FIRST, OPEN, RUNNING, STOPPED, Outcome, Recording, Station

STATIONS = [Station(1, 1, []), Station(2, 3, [(5, RUNNING), (9, STOPPED)]), Station(65534, 65534, [])]
LARGEST_STAMP = (1 << 64) - 1


def recording(entries, form=OPEN, stations=None, exercise=7):
    return texts.recording_text(Recording(exercise, STATIONS if stations is None else stations, entries, form))


def logs():
    """Entries of every kind, of which some have no place in an exercise."""
    yield texts.sent(0, order(), 1_700_000_000_000_000)
    yield texts.received(1, order(), 1_700_000_000_000_001)
    yield texts.told(1, 7, STOPPED)
    yield texts.sent(1, answered(), LARGEST_STAMP)
    yield texts.received(0, answered(), 0)
    yield texts.received(2, answered(origin=(65534, 65534)), 1 << 32)
    yield texts.sent(2, order(exercise=8), 5)
    for size in (0, 1, 3, 4, 11, 12, 15, 16, 22, 23, 24, 25):
        yield texts.sent(0, order()[:size], size)
        yield texts.received(1, order()[:size], size)
    yield texts.sent(1, bytes([7, 7, 1, 1]) + bytes(140), 8)


class Exports(Imports):
    """The lines of cases of `export`, and of `import` of what it makes."""

    def exported(self, name, text, keep=None):
        self.case(name, [("recording", text)])
        answer, left = pages.answer_to_export(text)
        made = ["make new"] if left is not None else []
        self.told(["export", "recording", "new"], ["recording", *made], answer, None if keep else left, keep)
        return left


def whole(cases):
    cases.exported("of-four-stations", bytes_of("own.dsrc.hex"))
    cases.exported("of-the-first-format", FORMATS_RECORDING)
    every = list(logs())
    for form in (FIRST, CLOSED, OPEN):
        cases.exported(f"entries-of-every-kind-{form}", recording(every, form))
    cases.exported("entries-of-8192-bytes", recording([texts.sent(0, order()[:4] + b"v" * 8188, 6), texts.received(1, b"v" * 8192, 7)]))
    cases.exported("no-entries", recording([]))
    cases.exported("told-alone", recording([texts.told(0, 7, STOPPED), texts.told(1, 7, RUNNING)]))
    cases.exported("one-station", recording([texts.sent(0, order())], stations=STATIONS[1:2]))
    names = [(1, 1), (1, 65534), (9, 99), (10, 100), (65534, 1), (65534, 65534)]
    cases.exported("names-of-every-length", recording([texts.sent(5, order())], stations=[Station(*name, []) for name in names]))


def back(cases):
    """Each station's log by `import`: but for states told, and what is of another family or exercise."""
    captured = cases.exported("kept-for-import", recording(list(logs())), "captured")
    for station in STATIONS:
        name = f"{station.site}:{station.application}"
        host = ".".join(str(part) for half in station[:2] for part in divmod(half, 256))
        opening = "".join(f"opening {name} {entity} {pages.STATES[state]}\n" for entity, state in station.opening)
        setup = f"exercise 7\nstation {name}\n{opening}".encode()
        cases.case(f"{name}-is-read-back", [("setup", setup)])
        answer, left, warned = pages.answer_to_import(setup, [name, host, f"on={name}"], captured)
        cases.told(["import", "setup", name, host, "captured", "new", f"on={name}"], ["setup", "captured", "make new"], answer, left)
        cases.warned(answer, warned)


def because(cases, why):
    """The second line of a fault."""
    cases.lines += ["reason", f"text   {why}"]


def faults(cases):
    text = recording(list(logs())[:5])
    for name, bad, why in (
        ("an-empty-file", b"", "recording is an empty file"),
        ("a-torn-recording", text[:60], "siman mend recording NEW keeps its whole entries, where its stations stand whole, and --torn reads them"),
        ("a-bad-head", text[:9] + b"\2" + text[10:], "recording: a field of its head is bad"),
        ("a-script-for-a-recording", b"exercise 7\nstation 1:1\n", "recording is no recording: it looks like a script"),
    ):
        cases.exported(f"{name}-and-why", bad)
        because(cases, why)
    for size in (0, 7, 8, 9, 10, 12, 30, 60, len(text) - 5, len(text) - 1):
        cases.exported(f"a-recording-of-{size}-bytes", text[:size])
    cases.exported("bytes-behind-the-end", text + b"\0")
    cases.exported("a-bad-kind", recording([])[:-5] + b"\4" + bytes(4))
    cases.case("a-recording-that-is-not-there", [("recording", text), ("there", b"what stood before\n")])
    cases.told(["export", "nowhere", "new"], ["nowhere"], pages.unopened("nowhere"))
    because(cases, "nowhere: is the name right, and its folder?")
    cases.case("a-recording-onto-itself")
    cases.told(["export", "recording", "recording", "--force"], ["recording"], pages.fault("output: same as recording"))
    because(cases, "recording is read: give the new file another name")
    cases.case("the-new-one-stands")
    cases.told(["export", "recording", "there"], ["recording"], pages.fault("output: exists"))
    because(cases, "there is there already: give another name, or --force to replace it")
    answer, left = pages.answer_to_export(text)
    cases.case("the-new-one-is-replaced")
    cases.told(["export", "recording", "there", "--force"], ["recording", "make there"], answer, left)
    cases.case("from-standard-input", [("-", text)])
    cases.told(["export", "-", "new"], ["-", "make new"], answer, left)
    for kind, status, line in (("shut", 2, "file: barred: permission denied"), ("full", 3, "memory")):
        cases.case(f"a-recording-that-is-{kind}")
        cases.lines.append(f"{kind} barred")
        cases.told(["export", "barred", "new"], ["barred"], Outcome(status, b"", f"{line}\n".encode()))
    for kind, status, line in (("shut", 2, "output: write"), ("full", 3, "memory")):
        cases.case(f"the-new-one-is-{kind}")
        cases.lines.append(f"{kind} barred")
        cases.told(["export", "recording", "barred"], ["recording", "make barred"], Outcome(status, b"", f"{line}\n".encode()))


def failing(cases):
    text = recording([texts.sent(0, order(), 1), texts.told(1, 7, STOPPED), texts.received(1, order(), 2)])
    answer, left = pages.answer_to_export(text)
    call = ["export", "failing", "new"]
    for number in range(1, -(-len(text) // 40) + 2):
        for kind in ("other", "interrupted"):
            cases.case(f"fails-at-read-{number}-{kind}")
            cases.lines += ["file failing", f"calls 40 {number} {kind}", *hexes(text)]
            if kind == "other":
                cases.told(call, ["failing"], pages.fault("recording: read"))
            else:
                cases.told(call, ["failing", "make new"], answer, left)
    for byte in (0, 1, 4, 12, 27, 28, 40, 60, 100, len(left) // 2, len(left) - 5, len(left) - 1):
        cases.case(f"the-new-one-fails-at-byte-{byte}", [("recording", text)])
        cases.told(["export", "recording", "new"], ["recording", "make new"], Outcome(2, b"", b"output: write\n"))
        cases.lines += ["discarded", *hexes(left[:byte]), f"calls 1 {byte + 1} other"]
    for byte in (0, 1, len(answer.out) - 1):
        cases.case(f"the-line-fails-at-byte-{byte}", [("recording", text)])
        cases.lines += ["words export recording new", "asked recording", "asked make new", "status 2", "out"]
        cases.lines += [f"piece {answer.out[:byte].decode()}"] if byte else []
        cases.lines += [f"calls 1 {byte + 1} other", "errors", "text output: write", "discarded", *hexes(left)]


HELP = """\
Writes the datagrams of a recording as a capture, which Wireshark and tshark show as DIS

Usage: siman export <REC> <NEW> [--torn] [--force]

Arguments:
  <REC>  The file of the recording
  <NEW>  The file of the capture, in pcapng; it must not be there yet, or be empty

Options:
      --torn   Reads what stands whole of a recording that is torn, as one that is still written, and warns
      --force  Replaces a file that has the name of the one that is made
  -h, --help   Print help

Example:
  siman export exercise.dsrc exercise.pcapng
"""
# What is told of words that ask for no task, behind the line of the fault.
USAGE = "Usage: siman export <REC> <NEW> [--torn] [--force]\n\nFor more information, try '--help'.\n"


def untaken(cases, name, words, outcome):
    """Words that are no task: no file is asked for."""
    cases.case(name)
    behind = len(cases.lines) + 1
    cases.told(words, [], outcome)
    cases.lines.insert(behind, "asked-nothing")


def words(cases):
    for name, call in (("help-by-export-help", ["export", "--help"]), ("help-by-help-export", ["help", "export"])):
        untaken(cases, name, call, Outcome(0, HELP.encode(), b""))
    missing = "the following required arguments were not provided:\n"
    for name, call, why in (
        ("no-words", [], f"{missing}  <REC>\n  <NEW>"),
        ("one-word", ["recording"], f"{missing}  <NEW>"),
        ("three-words", ["recording", "new", "more"], "unexpected argument 'more' found"),
        ("an-option-of-others", ["recording", "new", "--json"], "unexpected argument '--json' found"),
        ("an-option-in-the-place-of-a-file", ["-r", "new"], "unexpected argument '-r' found"),
        ("force-twice", ["--force", "recording", "new", "--force"], "the argument '--force' cannot be used multiple times"),
    ):
        untaken(cases, name, ["export", *call], Outcome(2, b"", f"error: {why}\n\n{USAGE}".encode()))
    twice = USAGE.replace("export <REC> <NEW> [--torn] [--force]", "[COMMAND]")
    told = f"error: standard input, '-', can be read once\n\n{twice}"
    untaken(cases, "standard-input-twice", ["export", "-", "-"], Outcome(2, b"", told.encode()))


# ---- tried from outside


def try_text(trials, text):
    """A recording of which a capture is made under a new name, and in the place of a file that stands."""
    answer, left = pages.answer_to_export(text)
    name, stood = trials.file(text), b"stays" * 20_000
    after(trials, ["export", name, f"{name}.new"], (answer,), f"{name}.new", lambda came: came == left)
    stands, wanted = trials.file(stood), stood if left is None else left
    after(trials, ["export", name, stands, "--force"], (answer,), stands, lambda came: came == wanted)


def try_all(trials, examples):
    good, certificate, wrong = examples
    for text in ((trials.folder / good).read_bytes(), (trials.folder / wrong).read_bytes(), bytes_of("own.dsrc.hex"), recording(list(logs()))):
        try_text(trials, text)
    for size in range(len(FORMATS_RECORDING)):
        try_text(trials, FORMATS_RECORDING[:size])
    for place, byte in enumerate(FORMATS_RECORDING):
        for value in (byte ^ 1, byte ^ 0xFF):
            try_text(trials, FORMATS_RECORDING[:place] + bytes([value]) + FORMATS_RECORDING[place + 1 :])
    try_text(trials, texts.recording_text(texts.told_often(4000)))
    trials.expect(["export", "examples", "never"], pages.unopened("examples", "is a directory"))
    trials.expect(["export", certificate, "never"], pages.fault("recording: magic at 0"))
    for name in ("examples", "none/there.pcapng", "", "/dev/full"):
        trials.expect(["export", good, name], UNWRITTEN)
    trials.expect(["export", good, "/dev/null"], pages.answer_to_export((trials.folder / good).read_bytes())[0])
    for behind in (">/dev/full", ">&-"):
        name = f"unheard.{len(behind)}.pcapng"
        after(trials, ["export", good, name], (UNWRITTEN,), name, lambda left: left is None, behind=behind)


# ---- the file of cases


def cases():
    made = Exports()
    for part in (whole, faults, failing, words):
        part(made)
    yield "# Recordings of which a capture is made, for Wireshark and tshark. The lines were made by tools/cases/exports.py."
    yield from made.lines
