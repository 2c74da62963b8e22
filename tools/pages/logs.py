"""What log says of a recording, by READING.md: each entry in names, with every datum and what goes with it."""
import json

from .datagrams import (
    BODIES, FLAGS, REQUESTS, Outcome, fault, identifier_text, number,
)  # fmt: skip
from .files import (
    KINDS_OF_ENTRIES, RECEIVED, SENT, STATES, STOPPED, TOLD, Fault, read_recording, why_other, why_text,
)  # fmt: skip
from .histories import is_answer, is_open, request_of, same_order
from .reviews import (
    RESPONSES, RESULTS, WORDS, Clock, Line, Logs, address_text, addresses, filter_of as review_filter_of, state_made,
)  # fmt: skip

REASONS = ["other", "recess", "termination", "system-failure", "security-violation"]
KINDS = [body[0] for body in BODIES.values()]
EVERY = 0xFFFF
# Text to the end of a line, and a number with its name, which it may have none.
TO_THE_END = "text"


class Named:
    """A number, and its name or None."""

    def __init__(self, value, names):
        self.number, self.name = value, names.get(value)


NAMES = {
    "flag": {flag: BODIES[kind][0] for flag, kind in FLAGS.items()},
    "response": dict(enumerate(RESPONSES)),
    "result": dict(enumerate(RESULTS)),
    "reason": dict(enumerate(REASONS)),
}


def time_text(stamp):
    """Microseconds past the hour, cut, of the upper 31 bits; the lowest bit says which clock it is."""
    past = (stamp >> 1) * 3_600_000_000 >> 31
    minutes, seconds = divmod(past // 1_000_000, 60)
    return f"{minutes:02}:{seconds:02}.{past % 1_000_000:06}/{'absolute' if stamp & 1 else 'relative'}"


def body_fields(pdu):
    for name, value in pdu.fields.items():
        if name in ("real", "sim"):
            yield True, name, f"{number(value[:4])}/{number(value[4:])}"
        elif name in NAMES:
            yield True, name, Named(number(value), NAMES[name])
        elif name not in ("padding", "fixed", "variable"):
            yield True, name, number(value)


def pdu_fields(pdu):
    header = pdu.header
    return [
        (False, "kind", BODIES[pdu.kind][0]), (True, "version", header.version), (True, "time", time_text(header.stamp)),
        (True, "status", header.status), (True, "from", identifier_text(pdu.origin)),
        (True, "to", identifier_text(pdu.target)), *body_fields(pdu),
    ]  # fmt: skip


class Story(Logs):
    """The logs of a recording with what goes with each entry."""

    def __init__(self, recording):
        super().__init__(recording)
        self.sources = [self.source(index) for index in range(len(self.entries))]

    def source(self, index):
        """The first entry of the sender that sends the bytes which an entry received."""
        entry, pdu = self.entries[index], self.meanings[index]
        if entry.kind != RECEIVED or not pdu or not self.are_recorded(pdu.origin[:2]):
            return None
        sender = next(at for at in range(len(self.stations)) if self.address(at) == pdu.origin[:2])
        return next((sent for sent, _ in self.meant(sender, SENT) if self.entries[sent].datagram == entry.datagram), None)

    def head(self, index):
        entry, pdu = self.entries[index], self.meanings[index]
        return next(sent for sent, other in self.meant(entry.station, SENT) if same_order(other, pdu))

    def receipts(self, index):
        """The fields of how often what an entry sent was received."""
        return [(True, "receipts", self.sources.count(index))]


class GrowingStory(Story):
    """The logs of a recording that grows, of each entry as it is the last one: what comes later says nothing of it."""

    def source(self, index):
        source = super().source(index)
        return source if source is not None and source < index else None

    def receipts(self, index):
        return []


def entry_line(story, index):
    entry, pdu = story.entries[index], story.meanings[index]
    fields = [
        (False, "entry", index), (False, "address", address_text(story.address(entry.station))),
        (False, "did", KINDS_OF_ENTRIES[entry.kind]),
    ]  # fmt: skip
    if entry.kind == TOLD:
        entity = identifier_text([*story.address(entry.station), entry.entity])
        return Line("entry", [*fields, (True, "entity", entity), (True, "state", STATES[entry.state])])
    fields.append((True, "clock", Clock(entry.stamp)))
    if not pdu:
        why = why_text(*why_other(story.exercise, entry.datagram))
        other = [(False, "kind", "other"), (True, "bytes", len(entry.datagram)), (True, "why", why)]
        return Line("entry", fields + other)
    fields += pdu_fields(pdu)
    if entry.kind == RECEIVED:
        return Line("entry", [*fields, (True, "source", story.sources[index])])
    fields += story.receipts(index)
    if pdu.kind in REQUESTS:
        fields.append((True, "order", story.head(index)))
    if is_answer(pdu):
        fields.append((True, "answers", story.taken_up(index)))
    return Line("entry", fields)


def record_lines(index, pdu):
    for record in pdu.records:
        name, *words = record.split(" ")
        if name == "fixed" or len(words) == 1:
            keys = ["id", "value"][: len(words)]
            yield Line(name, [(False, "entry", index), *((False, key, int(word)) for key, word in zip(keys, words))])
            continue
        identifier, bits, text = words
        value = bytes.fromhex("" if text == "-" else text)
        fields = [
            (False, "entry", index), (False, "id", int(identifier)), (False, "bits", int(bits)),
            (False, "hex", value.hex() or None),
        ]  # fmt: skip
        if value and int(bits) % 8 == 0 and all(32 <= byte <= 126 for byte in value):
            fields.append((True, TO_THE_END, value.decode()))
        yield Line(name, fields)


def change_lines(story, index):
    change = story.change_at(index) if story.entries[index].kind == SENT else None
    if change:
        entity = EVERY if change.entity is None else change.entity
        asked = story.meanings[change.request]
        yield Line("change", [
            (False, "entry", index),
            (True, "entity", identifier_text([*story.address(story.entries[index].station), entity])),
            (True, "to", STATES[state_made(change.kind, STOPPED)]),
            (True, "by", address_text(asked.origin[:2])), (True, "request", request_of(asked)),
        ])  # fmt: skip


def lines_of(story, index):
    yield entry_line(story, index)
    if story.meanings[index]:
        yield from record_lines(index, story.meanings[index])
    yield from change_lines(story, index)


# Filters.

def filter_of_log(word):
    """The key and the value of a filter of log, or None."""
    key, equals, value = word.partition("=")
    if key == "kind" and equals:
        return (key, value) if value in [*KINDS, "told", "other"] else None
    return review_filter_of(word) if key in WORDS else None


def name_of(story, index):
    if story.entries[index].kind == TOLD:
        return "told"
    return BODIES[story.meanings[index].kind][0] if story.meanings[index] else "other"


def passes_log(story, index, key, value):
    entry, pdu = story.entries[index], story.meanings[index]
    own = story.address(entry.station)
    if key == "station":
        return own == list(value)
    if key == "kind":
        return name_of(story, index) == value
    if key == "entity":
        if entry.kind == TOLD:
            return [*own, entry.entity] == list(value)
        return bool(pdu) and any(
            addresses(who, value[:2]) and (who[2] == value[2] or is_open(who[2], pdu.kind))
            for who in (pdu.origin, pdu.target)
        )
    if not pdu or "request" not in pdu.fields or request_of(pdu) != value[2]:
        return False
    asker = pdu.origin if pdu.kind in REQUESTS else pdu.target
    return asker[:2] == list(value[:2])


def keeps_entry(story, filters, index):
    return all(
        any(passes_log(story, index, key, value) for key, value in filters if key == asked)
        for asked in {key for key, _ in filters}
    )


# Spellings.

def log_text(line):
    fields = (f"{key}={log_word(value)}" if keyed else log_word(value) for keyed, key, value in line.fields)
    return " ".join([line.name, *fields])


def log_word(value):
    if isinstance(value, Named):
        return f"{value.number}({value.name})" if value.name else str(value.number)
    if isinstance(value, Clock):
        return str(value.ticks)
    if isinstance(value, list):
        return " ".join(value)
    return "-" if value is None else str(value)


def log_json(line):
    values = {"line": line.name}
    for _, key, value in line.fields:
        if isinstance(value, Named):
            values[key], values[f"{key}_name"] = value.number, value.name
        else:
            values[key] = str(value.ticks) if isinstance(value, Clock) else value
    return json.dumps(values, separators=(",", ":"))


def answer_of_entries(text, words, lines_told, spelled):
    """What a view of entries answers to a recording by its bytes, and to the words behind it: the lines that
    `lines_told` tells of the entries that the words keep.
    """
    for asked in words:
        if filter_of_log(asked) is None:
            return fault(f"filter: {asked}")
    try:
        recording = read_recording(text)
    except Fault as bad:
        return fault(f"recording: {bad}")
    story, filters = Story(recording), [filter_of_log(asked) for asked in words]
    kept = [index for index in range(len(story.entries)) if keeps_entry(story, filters, index)]
    return Outcome(0, "".join(spelled(line) + "\n" for line in lines_told(story, kept)).encode(), b"")


def lines_of_all(story, kept):
    for index in kept:
        yield from lines_of(story, index)


def answer_to_log(text, words=(), spelled=log_text):
    """What log answers to a recording by its bytes, and to the words behind it."""
    return answer_of_entries(text, words, lines_of_all, spelled)
