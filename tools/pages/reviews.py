"""What review says of a recording, by READING.md: what became of each order, and how each entity lived."""
import json
import re
from collections import namedtuple

from .datagrams import (
    ABLE, ACKNOWLEDGE, ACTION_RESPONSE, BODIES, CREATE, REMOVE, REQUESTS, START, STOP, Outcome, fault, identifier_text,
    number,
)  # fmt: skip
from .files import (
    ABSENT, ENTITIES, FIRST, OPEN, PARTS_OF_ADDRESSES, RECEIVED, RUNNING, SENT, STATES, STOPPED, TOLD, Fault,
    meaning_of, read_recording, why_other, why_text,
)  # fmt: skip
from .histories import answers, is_answer, is_open, key_of, request_of, response_of, same_order, scope_of, search

MOST_LINES = 4_194_304
FATES = ["done", "answered", "refused", "pending", "unheard", "unanswered", "lost", "unknown"]
RESPONSES = ["other", "able", "unable", "pending"]
RESULTS = ["other", "pending", "executing", "partially-complete", "complete", "rejected"]
NUMBER = "([0-9]+)"
WORDS = {
    "station": re.compile(f"{NUMBER}:{NUMBER}"),
    "entity": re.compile(f"{NUMBER}:{NUMBER}:{NUMBER}"),
    "request": re.compile(f"{NUMBER}:{NUMBER}/{NUMBER}"),
}

# An order by its head, the index of the station that made it (None: it came from outside), and what it asks.
Order = namedtuple("Order", "head maker request")
# A change: the entry that makes it, the kind of the request, the entity (None: all), and the entry of the request.
Change = namedtuple("Change", "entry kind entity request")
# A line: its name, and its fields with whether the text has their key.
Line = namedtuple("Line", "name fields")
Clock = namedtuple("Clock", "ticks")


def is_answer_to(answer, request):
    """Whether an answer answers a request, whoever took it up."""
    if not is_answer(answer) or request_of(answer) != request_of(request) or answer.target[:2] != request.origin[:2]:
        return False
    return addresses(request.target, answer.origin[:2]) and answers(answer, request)


def addresses(target, address):
    return all(part in (own, 0xFFFF) for part, own in zip(target, address))


def word_of(pdu):
    if pdu.kind == ACKNOWLEDGE:
        return named(RESPONSES, number(pdu.fields["response"]))
    return named(RESULTS, number(pdu.fields["result"])) if pdu.kind == ACTION_RESPONSE else "data"


def named(names, value):
    return names[value] if value < len(names) else str(value)


def settles(pdu):
    if pdu.kind == ACKNOWLEDGE:
        return word_of(pdu) in ("able", "unable")
    return word_of(pdu) not in ("pending", "executing", "partially-complete") or pdu.kind != ACTION_RESPONSE


class Logs:
    """What the logs of a recording say, each read alone."""

    def __init__(self, recording):
        self.exercise, self.stations, self.entries, self.form = recording
        self.meanings = [
            None if entry.kind == TOLD else meaning_of(self.exercise, entry.datagram) for entry in self.entries
        ]
        self.own = [self.log(station) for station in range(len(self.stations))]
        self.changes = [self.changes_of(station) for station in range(len(self.stations))]
        self.orders = [order for index in range(len(self.entries)) if (order := self.order_at(index))]

    def log(self, station):
        return [index for index, entry in enumerate(self.entries) if entry.station == station]

    def address(self, station):
        return list(self.stations[station][:2])

    def are_recorded(self, address):
        return list(address) in [self.address(station) for station in range(len(self.stations))]

    def meant(self, station, kind):
        """The entries of a station of this kind that mean something, with their PDUs."""
        for index in self.own[station]:
            if self.entries[index].kind == kind and self.meanings[index]:
                yield index, self.meanings[index]

    def addressed(self, target):
        return [station for station in range(len(self.stations)) if addresses(target, self.address(station))]

    # Orders.

    def order_at(self, index):
        entry, pdu = self.entries[index], self.meanings[index]
        if not pdu or pdu.kind not in REQUESTS:
            return None
        maker = entry.station if entry.kind == SENT else None
        if entry.kind == RECEIVED and not (self.is_outside(pdu) and self.addressed(pdu.target)):
            return None
        before = [
            self.meanings[earlier] for earlier in range(index)
            if self.meanings[earlier] and self.entries[earlier].kind == entry.kind
            and (maker is None or self.entries[earlier].station == maker)
        ]  # fmt: skip
        return None if any(same_order(pdu, earlier) for earlier in before) else Order(index, maker, pdu)

    def is_outside(self, pdu):
        return self.form == OPEN and not self.are_recorded(pdu.origin[:2])

    def sends(self, order):
        return [index for index, pdu in self.meant(order.maker, SENT) if same_order(pdu, order.request)]

    def copies(self, order, station):
        return [index for index, pdu in self.meant(station, RECEIVED) if same_order(pdu, order.request)]

    def told_from_outside(self, order):
        """The entries of the maker that tell from outside, with their addresses."""
        if order.maker is None or self.form != OPEN:
            return []
        same_identifier = (
            index for index, pdu in self.meant(order.maker, SENT)
            if pdu.kind in REQUESTS and request_of(pdu) == request_of(order.request)
        )  # fmt: skip
        if next(same_identifier) != order.head:
            return []
        return [
            (tuple(pdu.origin[:2]), index) for index, pdu in self.meant(order.maker, RECEIVED)
            if index > order.head and self.is_outside(pdu) and is_answer_to(pdu, order.request)
        ]  # fmt: skip

    def parties(self, order):
        """The addresses of the parties, rising."""
        target = order.request.target
        stations = [
            station for station in self.addressed(target) if station != order.maker or self.copies(order, station)
        ]
        found = {tuple(self.address(station)) for station in stations}
        if self.form == OPEN and order.maker is not None:
            found |= {address for address, _ in self.told_from_outside(order)}
            if all(part in PARTS_OF_ADDRESSES for part in target[:2]) and not self.are_recorded(target[:2]):
                found.add(tuple(target[:2]))
        return sorted(found)

    # Answers.

    def taken_up(self, index):
        """The entry of the request that the answer takes up which is sent at an entry, or None."""
        station, answer = self.entries[index].station, self.meanings[index]
        for before, pdu in self.meant(station, RECEIVED):
            if before > index:
                return None
            asked = pdu.kind in REQUESTS and addresses(pdu.target, self.address(station))
            if asked and request_of(pdu) == request_of(answer) and pdu.origin[:2] == answer.target[:2]:
                return before
        return None

    def replies(self, order, station):
        copies = self.copies(order, station)
        return [
            index for index, pdu in self.meant(station, SENT)
            if is_answer(pdu) and is_answer_to(pdu, order.request) and self.taken_up(index) in copies
        ]  # fmt: skip

    def news(self, order, replies):
        if order.maker is None:
            return []
        said = [self.entries[reply].datagram for reply in replies]
        return [
            index for index in self.own[order.maker]
            if self.entries[index].kind == RECEIVED and self.entries[index].datagram in said
        ]  # fmt: skip

    def telling(self, entries):
        """The entry whose word counts: the first that settles, else the last, else none."""
        settling = [index for index in entries if settles(self.meanings[index])]
        return (settling or entries[-1:] or [None])[0]

    def word(self, index):
        return None if index is None else word_of(self.meanings[index])

    # Lives.

    def changes_of(self, station):
        keys, changes = set(), []
        for index, pdu in self.meant(station, SENT):
            if response_of(pdu) != ABLE or key_of(pdu) in keys:
                continue
            keys.add(key_of(pdu))
            request = self.taken_up(index)
            if request is not None and is_answer_to(pdu, self.meanings[request]):
                asked = self.meanings[request]
                changes.append(Change(index, asked.kind, scope_of(pdu, asked), request))
        return changes

    def change_at(self, index):
        station = self.entries[index].station
        return next((change for change in self.changes[station] if change.entry == index), None)

    def lives(self, station):
        """The stretches of the lives of a station's entities: entity, state, first and last change."""
        states = {entity: (state, None) for entity, state in self.stations[station].opening}
        stretches = []
        for change in self.changes[station]:
            for entity in ENTITIES if change.entity is None else [change.entity]:
                state, since = states.get(entity, (ABSENT, None))
                made = state_made(change.kind, state) if entity in ENTITIES else state
                if made == state:
                    continue
                if state != ABSENT:
                    stretches.append((entity, state, since, change))
                states[entity] = (made, change)
        left = [(entity, state, since, None) for entity, (state, since) in states.items() if state != ABSENT]
        return sorted(stretches + left, key=lambda life: (life[0], -1 if life[2] is None else life[2].entry))

    def at_the_end(self, station):
        return [state for _, state, _, until in self.lives(station) if until is None]

    def stamp(self, change):
        return None if change is None else Clock(self.entries[change.entry].stamp)


def state_made(kind, state):
    if kind in (CREATE, REMOVE):
        return STOPPED if kind == CREATE else ABSENT
    return {START: RUNNING, STOP: STOPPED}[kind] if state != ABSENT else ABSENT


# What is told.

def told_at(logs, order, address):
    """What is told of an order at a party, or of one that has none."""
    keys = ["sends", "receipts", "got", "said", "answer", "heard", "news", "took", "change", "fate"]
    told = dict.fromkeys(keys)
    told["sends"] = None if order.maker is None else len(logs.sends(order))
    if address is None:
        return told | {"fate": "nobody"}
    if not logs.are_recorded(address):
        heard = logs.telling([index for at, index in logs.told_from_outside(order) if at == address])
        return told | told_of_news(logs, order, heard) | {"fate": "unknown"}
    station = next(index for index, _ in enumerate(logs.stations) if tuple(logs.address(index)) == address)
    copies, replies = logs.copies(order, station), logs.replies(order, station)
    said, heard = logs.telling(replies), logs.telling(logs.news(order, replies))
    changes = [reply for reply in replies if logs.change_at(reply)]
    told |= {"receipts": len(copies), "got": next(iter(copies), None), "said": logs.word(said), "answer": said}
    told |= {"change": next(iter(changes), None), "fate": fate(logs, order, copies, replies, heard)}
    return told | told_of_news(logs, order, heard)


def told_of_news(logs, order, news):
    if news is None:
        return {}
    took = logs.entries[news].stamp - logs.entries[order.head].stamp
    return {"heard": logs.word(news), "news": news, "took": Clock(took) if took >= 0 else None}


def fate(logs, order, copies, replies, heard):
    settled = any(settles(logs.meanings[reply]) for reply in replies)
    if order.maker is not None and heard is not None and settles(logs.meanings[heard]):
        word = logs.word(heard)
        return {"able": "done", "complete": "done", "data": "done", "unable": "refused", "rejected": "refused"}.get(
            word, "answered"
        )
    if settled:
        return "unknown" if order.maker is None else "unheard"
    if replies:
        return "pending"
    return "unanswered" if copies else "lost"


# Lines.

def address_text(address):
    return None if address is None else ":".join(str(part) for part in address)


def order_lines(logs):
    for order in logs.orders:
        request, maker = order.request, order.maker
        origin = request.origin[:2] if maker is None else logs.address(maker)
        for address in logs.parties(order) or [None]:
            fields = [
                (False, "entry", order.head), (True, "from", address_text(origin)),
                (True, "request", request_of(request)), (False, "kind", BODIES[request.kind][0]),
                (True, "to", identifier_text(request.target)), (True, "at", address_text(address)),
            ]  # fmt: skip
            yield Line("order", fields + [(True, key, value) for key, value in told_at(logs, order, address).items()])


def state_lines(logs):
    for station in range(len(logs.stations)):
        for entity, state, since, until in logs.lives(station):
            asked = None if since is None else logs.meanings[since.request]
            yield Line("state", [
                (False, "entity", identifier_text([*logs.address(station), entity])), (False, "state", STATES[state]),
                (True, "from", since and since.entry), (True, "to", until and until.entry),
                (True, "since", logs.stamp(since)), (True, "until", logs.stamp(until)),
                (True, "by", asked and address_text(asked.origin[:2])), (True, "request", asked and request_of(asked)),
            ])  # fmt: skip


def value_of(line, key):
    return next(value for _, name, value in line.fields if name == key)


def fate_fields(orders):
    fates = [value_of(line, "fate") for line in orders]
    return [(True, name, fates.count(name)) for name in FATES], fates.count("nobody")


def station_line(logs, station, orders):
    address = address_text(logs.address(station))
    made = sum(order.maker == station for order in logs.orders)
    states = logs.at_the_end(station)
    return Line("station", [
        (False, "address", address), (True, "records", len(logs.own[station])), (True, "made", made),
        *fate_fields([line for line in orders if value_of(line, "at") == address])[0],
        (True, "entities", len(states)), (True, "running", states.count(RUNNING)),
    ])  # fmt: skip


def review_line(logs, explained, orders):
    others = sum(
        entry.kind != TOLD and meaning is None for entry, meaning in zip(logs.entries, logs.meanings)
    )
    fates, nobody = fate_fields(orders)
    form = [] if logs.form == FIRST else [(True, "form", logs.form)]
    return Line("review", [
        (True, "exercise", logs.exercise), (True, "stations", len(logs.stations)), (True, "records", len(logs.entries)),
        (True, "others", others), (True, "explained", explained), (True, "orders", len(logs.orders)),
        *fates, (True, "nobody", nobody), *form,
    ])  # fmt: skip


# Reasons of which a review tells the name alone.
UNNUMBERED = ("length-field", "body-short", "body-long")


def other_lines(logs):
    """A line for each reason for which datagrams mean nothing, in the order of its first entry."""
    counts = {}
    for entry in logs.entries:
        why = None if entry.kind == TOLD else why_other(logs.exercise, entry.datagram)
        if why:
            name, found = why
            told = name if name in UNNUMBERED else why_text(name, found)
            counts[told] = counts.get(told, 0) + 1
    return [Line("others", [(True, "why", why), (True, "entries", count)]) for why, count in counts.items()]


# Filters.

def filter_of(word):
    """The key and the value of a filter, or None."""
    key, equals, value = word.partition("=")
    if not equals:
        return None
    if key == "fate":
        return (key, value) if value in [*FATES, "nobody"] else None
    parts = WORDS[key].fullmatch(value) if key in WORDS else None
    if not parts:
        return None
    numbers = [int(part) for part in parts.groups()]
    sizes = [16, 16, 32] if key == "request" else [16] * len(numbers)
    return (key, tuple(numbers)) if all(value < 1 << size for value, size in zip(numbers, sizes)) else None


def passes(line, key, value):
    if key == "fate":
        return line.name == "order" and value_of(line, "fate") == value
    address = address_text(value[:2])
    if line.name == "station":
        return key == "station" and value_of(line, "address") == address
    if key == "request":
        asker = value_of(line, "from" if line.name == "order" else "by")
        return asker == address and value_of(line, "request") == value[2]
    if line.name == "state":
        entity = value_of(line, "entity")
        return entity == identifier_text(value) if key == "entity" else entity.rpartition(":")[0] == address
    if key == "station":
        return address in (value_of(line, "from"), value_of(line, "at"))
    return value_of(line, "at") in (None, address) and covers(line, value)


def covers(line, entity):
    """Whether the target of an order line covers an entity."""
    target = [int(part) for part in value_of(line, "to").split(":")]
    kind = next(kind for kind, body in BODIES.items() if body[0] == value_of(line, "kind"))
    return addresses(target, entity[:2]) and (target[2] == entity[2] or is_open(target[2], kind))


def keeps(filters, line):
    return all(
        any(passes(line, key, value) for key, value in filters if key == asked) for asked in {key for key, _ in filters}
    )


# Spellings.

def text_of(line):
    fields = (f"{key}={word(value)}" if keyed else word(value) for keyed, key, value in line.fields)
    return " ".join([line.name, *fields])


def word(value):
    if value is None:
        return "-"
    if isinstance(value, bool):
        return "yes" if value else "no"
    return str(value.ticks if isinstance(value, Clock) else value)


def json_of(line):
    values = {"line": line.name}
    for _, key, value in line.fields:
        values[key] = str(value.ticks) if isinstance(value, Clock) else value
    return json.dumps(values, separators=(",", ":"))


def lines_of_review(text, words=()):
    """The lines of the review of a recording by its bytes, under the words behind it, or the fault."""
    for asked in words:
        if filter_of(asked) is None:
            return fault(f"filter: {asked}")
    try:
        recording = read_recording(text)
    except Fault as bad:
        return fault(f"recording: {bad}")
    logs = Logs(recording)
    orders = list(order_lines(logs))
    lines = [station_line(logs, station, orders) for station in range(len(logs.stations))]
    lines += [*orders, *state_lines(logs)]
    if len(lines) + 1 > MOST_LINES:
        return fault("view: over-limit")
    filters = [filter_of(asked) for asked in words]
    explained = search(recording).status == 0
    kept = (line for line in lines if keeps(filters, line))
    return [review_line(logs, explained, orders), *other_lines(logs), *kept]


def answer_to_review(text, words=(), spelled=text_of):
    """What review answers to a recording by its bytes, and to the words behind it."""
    lines = lines_of_review(text, words)
    if isinstance(lines, Outcome):
        return lines
    return Outcome(0, "".join(spelled(line) + "\n" for line in lines).encode(), b"")
