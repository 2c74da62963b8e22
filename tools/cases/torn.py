"""Writes the cases of `--torn`: what is told of a torn recording is what the pages tell of the one that `mend` keeps.

    cd tools && python3 -m cases.torn > ../crates/siman_cases/data/torn.cases
"""
import pages
from cases import texts
from cases.drawn import LOSSES, example, file, hexes, pieces
from cases.texts import told
from pages import STOPPED, Recording, Station, drawings

SIZE = 1200
CREATED, STEPS = example("created_and_started.dsrc"), example("created_and_started.dsct")
MAGIC = b"X" + LOSSES[1:]


def torn_warning(text):
    """The warning of a torn recording, from the line of `mend`; none of a whole one."""
    words = pages.answer_to_mend(text)[0].out.decode().split()
    if words[0] == "whole":
        return []
    records, fault = words[1].removeprefix("records="), " ".join(words[3:])
    return [f"text warning: the recording is torn, {fault}: its entries that stand whole before that are read, {records} in all"]


class Torn:
    """The files that stand for the cases behind them."""

    def __init__(self):
        self.texts = {}

    def kept(self, name, text):
        self.texts[name] = text
        return file(name, text)

    def case(self, name, words, asked, answer, made=False, reason=()):
        yield from ["", f"case {name}", f"words {' '.join(words)}", *(f"asked {one}" for one in asked)]
        yield from ["asked make new", "keep made"] if made else []
        yield from [f"status {answer.status}"] if answer.status else []
        yield from ["out", *pieces(answer.out.decode())] if answer.out else []
        yield from ["errors", *pieces(answer.errors.decode())] if answer.errors else []
        yield from ["reason", *reason] if reason else []

    def of(self, name, recording, certificate=None):
        """Each command that takes the word, about one recording."""
        text = self.texts[recording]
        mended, new = pages.answer_to_mend(text)
        for command, files, words in calls(recording, certificate):
            answer = mended if new is None else answered(command, words, new, self.texts.get(certificate))
            asked = [one for one in files if one not in ("new", "-")]
            made = "new" in files and answer.status < (1 if command == "audit" else 2)
            spoken = [command.partition("-")[0], *files, *words, "--torn"]
            reason = [] if answer.status > 1 else torn_warning(text)
            yield from self.case(f"{name}-by-{command}", spoken, asked, answer, made, reason)


def calls(recording, certificate):
    """Each command, its files, and the words behind them."""
    yield "show", [recording], []
    yield "review", [recording], []
    yield "review-rows", [recording], ["fate=lost", "--json"]
    yield "review-told", [recording], ["--prose"]
    yield "log", [recording], ["station=2:3"]
    yield "count", [recording], []
    yield "why", [recording], []
    yield "audit", [recording, "new"], []
    yield "export", [recording, "new"], []
    yield "chart-alone", [recording, "-", "new"], []
    if certificate:
        yield "check", [recording, certificate], []
        yield "why-not", [recording, certificate], []
        yield "chart", [recording, certificate, "new"], []


def answered(command, words, text, certificate):
    """What the pages say of a whole recording."""
    if command == "review-rows":
        return pages.answer_to_review(text, words[:1], pages.json_of)
    if command == "review-told":
        return pages.answer_to_prose(text)
    if command == "log":
        return pages.answer_to_log(text, words)
    if command == "export":
        return pages.answer_to_export(text)[0]
    if command == "check":
        return pages.answer_to_check(text, certificate)
    if command == "why-not":
        return pages.answer_to_why_not(text, certificate)
    if command.startswith("chart"):
        return drawings.answer_to_chart(text, None if command == "chart-alone" else certificate)[0]
    return {
        "show": pages.answer_to_show, "review": pages.answer_to_review, "count": pages.answer_to_count,
        "why": pages.answer_to_why, "audit": pages.answer_to_audit,
    }[command](text)  # fmt: skip


def recordings(files):
    """Recordings that are torn, that are whole, and that `mend` refuses, by each command."""
    yield from files.kept("steps", STEPS)
    for name, text, certificate in (
        ("torn", LOSSES[:SIZE], None), ("whole", LOSSES, None), ("refused", MAGIC, None), ("endless", CREATED[:-5], "steps"),
        ("shorter", CREATED[:200], "steps"), ("wrong", example("told_a_wrong_state.dsrc")[:-5], "steps"),
    ):  # fmt: skip
        yield from ["", *files.kept(name, text)]
        yield from files.of(name, name, certificate)


def faults(files):
    """Each fault behind whole entries, and each before them."""
    stations = [Station(1, 1, []), Station(2, 3, [(7, STOPPED)])]
    text = texts.recording_text(Recording(1, stations, [told(1, 7, STOPPED), told(1, 7, STOPPED)]))
    end, entry = len(text) - 5, len(text[:-5]) - len(texts.recording_text(Recording(1, stations, [told(1, 7, STOPPED)]))[:-5])
    for name, bad in (
        ("kind", text[:end] + b"\4" + bytes(4)), ("station-index", text[: end - entry + 1] + b"\0\2" + text[end - entry + 3 :]),
        ("state", text[: end - 1] + b"\3" + text[end:]), ("count", text[:-1] + b"\3"), ("trailing", text + b"\0"),
        ("datagram-long", text[:end] + b"\1" + bytes(10) + b"\xff\xff"), ("nothing", text[: end - 2 * entry]), ("head", text[:20]),
        ("stations", text[:9] + b"\0\0" + text[11:]), ("opening", text[: end - 2 * entry - 1] + b"\2" + text[end - 2 * entry :]), ("empty", b""),
        ("flag", b"DSRC0002\1\2" + text[9:]),
    ):  # fmt: skip
        mended, new = pages.answer_to_mend(bad)
        answer = mended if new is None else pages.answer_to_show(new)
        yield from ["", *files.kept(f"bad-{name}", bad)]
        yield from files.case(f"a-fault-{name}", ["show", "--torn", f"bad-{name}"], [f"bad-{name}"], answer, reason=[] if new is None else torn_warning(bad))


def warnings(files):
    """A torn recording of another exercise: both warnings."""
    foreign = texts.recording_text(Recording(1, [Station(1, 1, [])], [texts.sent(0, texts.pdu(pages.CREATE, (2, 3, 7), (1, 1, 0), request=1)[:2] + b"\2" + texts.pdu(pages.CREATE, (2, 3, 7), (1, 1, 0), request=1)[3:])]))
    torn = foreign[:-5]
    yield from ["", *files.kept("foreign", torn)]
    new = pages.answer_to_mend(torn)[1]
    meant = "text warning: none of the 1 datagrams is a management PDU of exercise 1: see why= of siman log"
    yield from files.case("both-warnings", ["count", "foreign", "--torn"], ["foreign"], pages.answer_to_count(new), reason=[meant, *torn_warning(torn)])
    yield from files.case("the-tear-alone", ["show", "foreign", "--torn"], ["foreign"], pages.answer_to_show(new), reason=torn_warning(torn))


def places(files):
    """Where the word may stand, and where the recording comes from."""
    new = pages.answer_to_mend(LOSSES[:SIZE])[1]
    warned = torn_warning(LOSSES[:SIZE])
    for words in (["review", "--torn", "torn", "fate=lost"], ["review", "torn", "fate=lost", "--torn"], ["review", "torn", "--torn", "fate=lost"]):
        yield from files.case("-".join(words), words, ["torn"], pages.answer_to_review(new, ["fate=lost"]), reason=warned)
    yield from ["", *files.kept("-", LOSSES[:SIZE])]
    yield from files.case("of-standard-input", ["count", "-", "--torn"], ["-"], pages.answer_to_count(new), reason=warned)
    yield from files.case("of-no-file", ["show", "none", "--torn"], ["none"], pages.unopened("none"))
    refused = pages.fault(f"recording: truncated at {SIZE}")
    for words in (["show", "torn"], ["review", "torn"], ["review", "torn", "--prose"], ["why", "torn"], ["audit", "torn", "new"], ["chart", "torn", "-", "new"], ["export", "torn", "new"]):
        why = "text   siman mend torn NEW keeps its whole entries, where its stations stand whole, and --torn reads them"
        yield from files.case(f"without-the-word-{'-'.join(words)}", words, ["torn"], refused, reason=[why])
    why = "text   siman mend torn NEW keeps its whole entries, where its stations stand whole"
    yield from files.case("one-that-never-reads-a-torn-one", ["convert", "torn", "new"], ["torn"], refused, reason=[why])
    yield from files.case("a-head-alone", ["log", "bad-head", "--torn"], ["bad-head"], pages.fault("recording: truncated at 20"), reason=["text   bad-head: nothing of it stands whole that could be kept"])
    for number in (1, 4):
        yield from ["", "file failing", f"calls 300 {number} other", *hexes(LOSSES[:SIZE])]
        yield from files.case(f"a-read-that-fails-{number}", ["show", "failing", "--torn"], ["failing"], pages.fault("recording: read"))


def usage_fault(told, usage):
    lines = [told, "", f"Usage: {usage}", "", "For more information, try '--help'."]
    return ["asked-nothing", "status 2", "errors", *(f"text {line}" if line else "text" for line in lines)]


def words(files):
    """The word twice, and behind commands that do not take it."""
    twice = "error: the argument '--torn' cannot be used multiple times"
    for said, usage in (
        ("show torn --torn --torn", "siman show <REC> [--torn]"), ("count --torn torn --json --torn", "siman count <REC> [FILTER]... [--json] [--torn]"),
        ("audit --torn torn new --torn", "siman audit <REC> <CERT> [--torn] [--force]"),
    ):  # fmt: skip
        yield from ["", f"case twice-{said.replace(' ', '-')}", f"words {said}", *usage_fault(twice, usage)]
    for said, usage in (
        ("mend torn new --torn", "mend <OLD> <NEW> [--force]"), ("convert --torn torn new", "convert <OLD> <NEW> [--force]"),
        ("join torn torn new --torn", "join <PIECE>... <NEW> [form=open|form=closed] [parts=yes] [--force]"),
        ("import a 1:1 h c new --torn", "import <SETUP> <ADDRESS> <HOST> <CAPTURE> <NEW> [WORD]... [--force]"),
        ("plan torn --torn", "plan <SOURCE> [SCRIPT] [--json] [--force]"), ("world torn new --torn", "world <SCRIPT> <REC> [--force]"),
        ("live torn new --torn", "live <SCRIPT> <REC>"), ("pdu 00 --torn", "pdu <HEX>"), ("pdus --torn", "pdus"),
        ("station a 1:1 r b p --torn", "station <SETUP> <ADDRESS> <REC> <BIND> <PEER>... [from=any] [keep=all] [clock=system]"),
    ):  # fmt: skip
        none = usage_fault("error: unexpected argument '--torn' found", f"siman {usage}")
        yield from ["", f"case not-taken-{said.replace(' ', '-')}", f"words {said}", *none]
    help_text = """\
Shows a recording, a line for each entry

Usage: siman show <REC> [--torn]

Arguments:
  <REC>  The file of the recording

Options:
      --torn  Reads what stands whole of a recording that is torn, as one that is still written, and warns
  -h, --help  Print help

Example:
  siman show exercise.dsrc
"""
    for said in ("show --torn --help", "show torn --torn -h", "help show"):
        yield from ["", f"case help-{said.replace(' ', '-')}", f"words {said}", "asked-nothing", "out", *pieces(help_text)]


def cases():
    files = Torn()
    yield "# Torn recordings that are read as they are. The lines were made by tools/cases/torn.py."
    for part in (recordings, faults, warnings, places, words):
        yield from part(files)


if __name__ == "__main__":
    print("\n".join(cases()))
