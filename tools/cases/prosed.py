"""Writes the cases of `review --prose`: what is told follows from the page alone (tools/pages/prose.py).

    cd tools && python3 -m cases.prosed > ../crates/siman_cases/data/prose.cases
"""
import pages
from cases import texts
from cases.drawn import LOSSES, example, file, pieces
from cases.scenes import APPLICATION, MANAGER, STATIONS, acknowledge, exchange, request
from cases.texts import DIRECTOR, SEVEN, pdu, received, sent, told
from pages import (
    ABLE, ACTION_REQUEST, ACTION_RESPONSE, CLOSED, CREATE, DATA, DATA_QUERY, FIRST, OPEN, REMOVE, RUNNING, SET_DATA, START,
    STOP, STOPPED, UNABLE, Recording, Station,
)  # fmt: skip

ELSEWHERE, EVERYWHERE = (9, 9, 0), (65535, 65535, 65535)
PENDING = 3


def response(result, identifier=1):
    return pdu(ACTION_RESPONSE, SEVEN, DIRECTOR, request=identifier, result=result)


class Told:
    """The files that stand for the cases behind them."""

    def __init__(self):
        self.texts = {}

    def kept(self, name, text):
        self.texts[name] = text
        return file(name, text)

    def case(self, name, recording, words=(), before=()):
        answer = pages.answer_to_prose(self.texts[recording], words)
        yield from ["", f"case {name}", *before, f"words review {' '.join([recording, *words, '--prose'])}"]
        yield f"asked {recording}" if answer.errors[:7] != b"filter:" else "asked-nothing"
        yield from [f"status {answer.status}"] if answer.status else []
        yield from ["out", *pieces(answer.out.decode())] if answer.out else []
        yield from ["errors", *pieces(answer.errors.decode())] if answer.errors else []

    def of(self, name, entries, opening=(), form=FIRST, stations=None, words=()):
        """A case of a recording of its own."""
        stations = stations or [STATIONS[0], STATIONS[1]._replace(opening=list(opening))]
        text = texts.recording_text(Recording(1, stations, entries, form))
        yield from self.case(name, "made", words, self.kept("made", text))


def worked(files):
    yield from files.case("the-worked-exercise-in-sentences", "losses", (), files.kept("losses", LOSSES))
    for words in (
        ["fate=lost"], ["fate=done", "fate=unheard"], ["station=2:4"], ["station=9:9"], ["entity=2:3:7"], ["entity=2:4:8"],
        ["request=1:1/3"], ["request=1:1/1"], ["station=2:3", "fate=refused"], ["entity=2:3:7", "request=1:1/3"],
    ):  # fmt: skip
        yield from files.case(f"sentences-by-{'-'.join(words)}", "losses", words)
    yield from files.case("sentences-by-no-filter", "losses", ["fate=lost", "fate=found"])
    for name in ("created_and_started", "open", "told_a_wrong_state", "one_send_missing", "log_lost", "every_cause"):
        kept = files.kept(name, example(f"{name}.dsrc"))
        yield from files.case(f"the-example-{name.replace('_', '-')}-in-sentences", name, (), kept)


def kinds(files):
    """An order of each kind, of one entity and of all, that is lost."""
    for kind, name in (
        (CREATE, "create"), (REMOVE, "remove"), (START, "start"), (STOP, "stop"), (ACTION_REQUEST, "action"),
        (DATA_QUERY, "query"), (SET_DATA, "set"),
    ):  # fmt: skip
        targets = [SEVEN, (2, 3, 0), (2, 3, 65535), (2, 3, 65534), EVERYWHERE]
        orders = [sent(MANAGER, request(kind, target, at)) for at, target in enumerate(targets)]
        yield from files.of(f"orders-to-{name}-one-entity-and-all", orders)


def answered(answers, order=None, heard=True):
    order = order or request(ACTION_REQUEST)
    entries = [sent(MANAGER, order), received(APPLICATION, order)]
    entries += [sent(APPLICATION, answer) for answer in answers]
    return entries + [received(MANAGER, answer) for answer in answers] * heard


def fates(files):
    """Each fate, with a change and without."""
    create, able, unable = request(), acknowledge(), acknowledge(response=UNABLE)
    done = exchange(create, able)[0]
    yield from files.of("an-order-that-is-done", done)
    yield from files.of("an-order-that-is-done-and-repeated", [sent(MANAGER, create)] + done, form=CLOSED)
    late = [entry._replace(stamp=stamp) for entry, stamp in zip(done, (7, 1, 2, 50))]
    yield from files.of("an-order-that-is-answered-later", late)
    back = [entry._replace(stamp=stamp) for entry, stamp in zip(done, (7, 1, 2, 6))]
    yield from files.of("an-order-whose-clock-was-set-back", back)
    yield from files.of("an-order-sent-three-times-and-answered-back", [sent(MANAGER, create, 9)] * 2 + back)
    yield from files.of("an-order-that-is-refused", exchange(create, unable)[0])
    yield from files.of("an-action-that-is-complete", answered([response(2), response(4)]))
    yield from files.of("an-action-that-is-rejected", answered([response(5)]))
    yield from files.of("an-action-that-is-answered", answered([response(0)]))
    yield from files.of("an-action-that-is-answered-by-a-number", answered([response(4_000_000_000)]))
    yield from files.of("data-that-are-told", answered([pdu(DATA, SEVEN, DIRECTOR, request=1)], request(DATA_QUERY)))
    yield from files.of("an-order-that-is-unheard", done[:3])
    yield from files.of("a-refusal-that-is-unheard", exchange(create, unable)[0][:3])
    yield from files.of("an-action-that-is-unheard", answered([response(4)], heard=False))
    yield from files.of("an-action-that-is-pending", answered([response(1), response(3)]))
    yield from files.of("an-action-that-is-pending-unheard", answered([response(2)], heard=False))
    yield from files.of("an-order-that-is-pending", exchange(create, acknowledge(response=PENDING))[0])
    yield from files.of("an-order-that-is-unanswered", done[:2])
    yield from files.of("an-order-that-is-lost", done[:1])
    yield from files.of("an-order-that-is-lost-twice", [sent(MANAGER, create), sent(MANAGER, create, 5)])
    yield from files.of("an-order-for-nobody", [sent(MANAGER, request(target=ELSEWHERE))])
    yield from files.of("orders-for-nobody-and-somebody", [sent(MANAGER, request(target=(9, 9, 4))), sent(MANAGER, request(identifier=2))])
    yield from files.of("an-order-for-everybody-alone", [sent(0, request(START, EVERYWHERE))], stations=[Station(1, 1, [])])
    yield from files.of("an-order-for-its-own-maker", [sent(0, request(STOP, DIRECTOR))], stations=[Station(1, 1, [])])


def unrecorded(files):
    """Open recordings, in which a side of an order has no log."""
    create, able = request(), acknowledge()
    done = exchange(create, able)[0]
    alone, manager = [Station(2, 3, [])], [Station(1, 1, [])]
    own = [entry._replace(station=0) for entry in done if entry.station == APPLICATION]
    for count, name in ((0, "nothing"), (1, "a-receipt"), (2, "an-answer")):
        yield from files.of(f"the-party-alone-recorded-{name}", own[:count], form=OPEN, stations=alone)
    order = request(ACTION_REQUEST)
    pending = [received(0, order), sent(0, response(2))]
    yield from files.of("the-party-alone-recorded-a-pending-answer", pending, form=OPEN, stations=alone)
    told_maker = [done[0], done[3]]
    for count, name in ((1, "a-send"), (2, "an-answer")):
        yield from files.of(f"the-maker-alone-recorded-{name}", told_maker[:count], form=OPEN, stations=manager)
    numbers = [sent(0, request(START, EVERYWHERE)), received(0, acknowledge(flag=3)), received(0, acknowledge(flag=3, response=9))]
    yield from files.of("the-maker-alone-recorded-an-order-for-all", numbers, form=OPEN, stations=manager)
    yield from files.of("both-are-recorded-in-an-open-recording", done, form=OPEN)


def others(files):
    """Datagrams that mean nothing here, of each reason, once and more often."""
    whole = request()

    def changed(at, *values):
        return whole[:at] + bytes(values) + whole[at + len(values) :]

    wrong = [
        b"", whole[:11], changed(0, 5), changed(0, 8), changed(3, 10), changed(3, 1), changed(2, 40), changed(2, 255),
        changed(1, 2), changed(1, 0), acknowledge(flag=5), acknowledge(flag=65535), changed(8, 0, 29), changed(8, 0, 27),
        changed(8, 0, 20) + b"x", whole[:-1], whole + b"x", changed(8, 0, 27)[:-1], changed(8, 0, 29) + b"x",
    ]  # fmt: skip
    yield from files.of("others-of-each-reason", [received(APPLICATION, datagram) for datagram in wrong])
    yield from files.of("others-more-than-once", [sent(MANAGER, datagram) for datagram in wrong * 2 + wrong[4:6]])
    for at, datagram in enumerate(wrong[2:7]):
        yield from files.of(f"one-other-{at}", [received(APPLICATION, datagram)], words=["fate=done"])


def counts(files):
    """Numbers of one and of none."""
    yield from files.of("no-entries-in-sentences", [])
    yield from files.of("one-station-in-sentences", [], stations=[Station(2, 3, [])], form=CLOSED)
    yield from files.of("one-entry-in-sentences", [told(APPLICATION, 7, STOPPED)], [(7, STOPPED)])
    yield from files.of("one-running-entity-in-sentences", [], [(7, RUNNING)], form=OPEN)
    yield from files.of("entities-of-both-states-in-sentences", [], [(7, RUNNING), (8, STOPPED), (9, RUNNING)])
    many = [Station(1, at + 1, [(at + 1, STOPPED)]) for at in range(12)]
    yield from files.of("twelve-stations-in-sentences", [sent(0, request(START, EVERYWHERE))], stations=many)
    largest = [Station(65534, 65534, [(65533, RUNNING)])]
    yield from files.of("the-largest-numbers-in-sentences", [sent(0, request(REMOVE, (65534, 65534, 65533), 4294967295, (65534, 65534, 0)), (1 << 64) - 1)] * 2, stations=largest)


def lives(files):
    """Lives of entities, of one station and of two, that are begun, ended and begun again."""
    def change(kind, flag, identifier, entity=7):
        target = (2, 3, entity)
        return exchange(request(kind, target, identifier), acknowledge(flag, ABLE, target, identifier))[0]

    again = [*change(CREATE, 1, 1), *change(REMOVE, 2, 2), *change(CREATE, 1, 3), *change(START, 3, 4)]
    yield from files.of("an-entity-that-is-made-twice", again)
    for words in (["request=1:1/3"], ["request=1:1/2"], ["request=1:1/1", "request=1:1/4"], ["station=2:3", "request=1:1/4"]):
        yield from files.case(f"lives-by-{'-'.join(words)}", "made", words)
    stays = [*change(START, 3, 1), *change(STOP, 4, 2, 8), *change(REMOVE, 2, 3)]
    yield from files.of("entities-from-the-start-and-to-the-end", stays, [(7, STOPPED), (8, RUNNING), (9, RUNNING)])
    for words in (["entity=2:3:7"], ["entity=2:3:8"], ["request=1:1/2"], ["entity=2:3:7", "entity=2:3:9"]):
        yield from files.case(f"stays-by-{'-'.join(words)}", "made", words)
    two = [Station(1, 1, [(7, RUNNING)]), Station(2, 3, [(7, STOPPED), (70, RUNNING)])]
    yield from files.of("entities-of-two-stations-under-one-number", change(START, 3, 1), stations=two)


def usage_fault(told, usage):
    lines = [told, "", f"Usage: {usage}", "", "For more information, try '--help'."]
    return ["asked-nothing", "status 2", "errors", *(f"text {line}" if line else "text" for line in lines)]


def words(files):
    """Where the word may stand, and the others of its kind."""
    losses = pages.answer_to_prose(files.texts["losses"], ["fate=lost"]).out.decode()
    for said in ("--prose losses fate=lost", "losses --prose fate=lost"):
        yield from ["", f"case sentences-by-words-{said.replace(' ', '-')}", f"words review {said}", "asked losses", "out", *pieces(losses)]
    both = "error: '--json' and '--prose' are two spellings: only one of them may stand"
    for said in ("losses --prose --json", "--json losses --prose", "losses --json fate=lost --prose"):
        yield from ["", f"case both-spellings-{said.replace(' ', '-')}", f"words review {said}", *usage_fault(both, "siman [COMMAND]")]
    twice = "error: the argument '--prose' cannot be used multiple times"
    for said in ("losses --prose --prose", "--prose losses --json --prose"):
        usage = usage_fault(twice, "siman review <REC> [FILTER]... [--json|--prose] [--torn]")
        yield from ["", f"case sentences-twice-{said.replace(' ', '-')}", f"words review {said}", *usage]
    for said, usage in (
        ("log losses --prose", "log <REC> [FILTER]... [--json] [--torn]"), ("count losses --prose", "count <REC> [FILTER]... [--json] [--torn]"),
        ("why losses --prose", "why <REC> [CERT] [--json] [--torn]"), ("show losses --prose", "show <REC> [--torn]"),
        ("check losses losses --prose", "check <REC> <CERT> [--torn]"),
        ("chart losses - new --prose", "chart <REC> <CERT> <SVG> [CHOICE]... [--torn] [--force]"),
    ):  # fmt: skip
        none = usage_fault("error: unexpected argument '--prose' found", f"siman {usage}")
        yield from ["", f"case no-sentences-of-{said.replace(' ', '-')}", f"words {said}", *none]
    help_text = """\
Prints what became of each order of a recording, and how each entity lived

Usage: siman review <REC> [FILTER]... [--json|--prose] [--torn]

Arguments:
  <REC>        The file of the recording
  [FILTER]...  Which rows are printed: station=S:A, entity=S:A:E, request=S:A/N or fate=WORD; words of one key add to each other

Options:
      --json   Prints the rows in JSON, one object a line
      --prose  Prints sentences in place of rows
      --torn   Reads what stands whole of a recording that is torn, as one that is still written, and warns
  -h, --help   Print help

Example:
  siman review exercise.dsrc fate=lost
"""
    for said in ("review --help", "review losses --prose --help", "review --json losses --prose -h", "help review"):
        yield from ["", f"case help-of-a-review-{said.replace(' ', '-')}", f"words {said}", "asked-nothing", "out", *pieces(help_text)]


def writings(files):
    """Each write of short sentences, failed in turn: a prefix is out, of the head and then of the other lines."""
    words = ["entity=2:4:9"]
    lines = pages.answer_to_prose(files.texts["losses"], words).out.decode().splitlines(True)
    head, body = "".join(lines[:2]), "".join(lines[2:])
    text, ends = head + body, [*range(0, len(head), 100), *range(len(head), len(head) + len(body), 100)]
    said = f"review losses {' '.join(words)} --prose"
    for at, end in enumerate([*ends, len(text)]):
        yield from ["", f"case sentences-whose-write-fails-at-call-{at + 1}", f"words {said}"]
        yield from ["out", *pieces(text[:end])] if end else []
        yield from [f"calls 100 {at + 1} other"]
        yield from ["status 2", "errors", "text output: write"] if end < len(text) else []


def cases():
    files = Told()
    yield "# Reviews in sentences. The lines were made by tools/cases/prosed.py."
    for part in (worked, kinds, fates, unrecorded, others, counts, lives, words, writings):
        yield from part(files)


if __name__ == "__main__":
    print("\n".join(cases()))
