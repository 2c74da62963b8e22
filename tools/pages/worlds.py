"""What `world` answers to a script, and the recording that it makes, by SCRIPTS.md and NETWORK.md; and what a
script into `siman` comes to, by READING.md.
"""
import struct
from collections import Counter

from .datagrams import (
    ABLE, ACKNOWLEDGE, ACTION_REQUEST, ACTION_RESPONSE, CREATE, DATA, DATA_QUERY, FLAGS, LONGEST_DATAGRAM, REMOVE,
    REQUESTS, SET_DATA, START, STOP, UNABLE, Outcome, decoded, fault, number,
)  # fmt: skip
from .files import ENTITIES, RECEIVED, RUNNING, SENT, STATES, STOPPED, TOLD, read_recording
from .histories import Course, go_on, is_open, request_of, same_order
from .reviews import addresses, is_answer_to, settles
from .scripts import read_line, script_fault

__all__ = ["Stopped", "World", "answer_to_trial", "answer_to_world"]

ALL, ANY_NUMBER, MOST_ENTITIES = 0xFFFF, 0xFFFE, 4096
COMPLETE, REJECTED = 4, 5
ORDERS = {
    "create": CREATE, "remove": REMOVE, "start": START, "stop": STOP, "do": ACTION_REQUEST, "query": DATA_QUERY,
    "set": SET_DATA,
}  # fmt: skip
BEFORE_REQUEST = {START: bytes(16), STOP: bytes(12)}


class Stopped(Exception):
    """A move cannot be made: why."""


def identifiers(pdu):
    """The identifiers of the fixed records of a request, and their values, if it has values."""
    return [tuple(map(int, record.split()[1:])) for record in pdu.records if record.startswith("fixed")]


class Order:
    """An order of a manager: how it is sent, its PDU, its identifier, how often it was sent, and when last."""

    def __init__(self, words, pdu, now):
        self.words, self.pdu, self.number, self.last, self.sends = words, pdu, request_of(pdu), now, 1
        self.is_settled = self.is_given_up = False

    def is_due(self, now, station):
        """Whether it waits, and was last sent so long ago; where the clock was set back it counts as just sent."""
        return not self.is_settled and not self.is_given_up and max(now - self.last, 0) >= station.wait


class Station:
    """A station with both halves: its application, and its manager."""

    def __init__(self, address, first=1, tries=3, wait=10):
        self.address, self.next, self.tries, self.wait = address, first, tries, wait
        self.entities, self.fixed, self.actions = {}, {}, set()
        self.answers, self.orders = {}, []

    def order_body(self, kind, values):
        """The body of a new order; its identifier is used up once it was made."""
        if self.next > 0xFFFFFFFF:
            raise Stopped("ids-spent")
        request = struct.pack(">I", self.next)
        if kind == ACTION_REQUEST:
            return request + struct.pack(">III", *values, 0, 0)
        if kind == DATA_QUERY:
            return request + struct.pack(f">{3 + len(values)}I", 0, len(values), 0, *values)
        if kind == SET_DATA:
            return request + struct.pack(">IIIII", 0, 1, 0, *values)
        return BEFORE_REQUEST.get(kind, b"") + request

    def carry_out(self, kind, entity):
        """Whether a request to create, remove, start or stop was carried out, and the number that answers it."""
        if kind == CREATE:
            if entity == ANY_NUMBER and len(self.entities) < MOST_ENTITIES:
                entity = next(number for number in ENTITIES if number not in self.entities)
            can = entity in ENTITIES and entity not in self.entities and len(self.entities) < MOST_ENTITIES
            if can:
                self.entities[entity] = STOPPED
            return can, entity if entity in ENTITIES else 0
        covered = list(self.entities) if entity in (0, ALL) else [entity] if entity in self.entities else None
        for one in covered or []:
            if kind == REMOVE:
                del self.entities[one]
            else:
                self.entities[one] = RUNNING if kind == START else STOPPED
        return covered is not None, 0 if is_open(entity, kind) else entity

    def answer_to(self, pdu):
        """The kind, the entity number and the body of the answer to a new request."""
        request, entity = pdu.fields["request"], pdu.target[2]
        if pdu.kind in FLAGS.values():
            flag = next(flag for flag, kind in FLAGS.items() if kind == pdu.kind)
            is_able, told = self.carry_out(pdu.kind, entity)
            return ACKNOWLEDGE, told, struct.pack(">HH", flag, ABLE if is_able else UNABLE) + request
        told = 0 if is_open(entity, pdu.kind) else entity
        if pdu.kind == ACTION_REQUEST:
            can = number(pdu.fields["action"]) in self.actions and (entity in (0, ALL) or entity in self.entities)
            return ACTION_RESPONSE, told, request + struct.pack(">III", COMPLETE if can else REJECTED, 0, 0)
        for identifier, *value in identifiers(pdu):
            if value and identifier in self.fixed:
                self.fixed[identifier] = value[0]
        held = [(it[0], self.fixed[it[0]]) for it in identifiers(pdu) if it[0] in self.fixed]
        held = held[: (LONGEST_DATAGRAM - 40) // 8]
        records = b"".join(struct.pack(">II", *record) for record in held)
        return DATA, told, request + struct.pack(">III", 0, len(held), 0) + records

    def take(self, pdu):
        """The kind, the entity number, the body and the version of the answer that is due, if one is."""
        for order in self.orders:
            order.is_settled |= is_answer_to(pdu, order.pdu) and settles(pdu)
        if pdu.kind not in REQUESTS or not addresses(pdu.target, self.address):
            return None
        key = *pdu.origin[:2], request_of(pdu)
        if key not in self.answers:
            self.answers[key] = pdu, self.answer_to(pdu)
        first, answer = self.answers[key]
        return (*answer, pdu.header.version) if same_order(first, pdu) else None


class World:
    """The stations of a script, what they sent, and what they recorded."""

    def __init__(self):
        self.exercise, self.now, self.stations, self.sent, self.entries = 0, 0, {}, [], []
        self.opening = {}

    def enter(self, entry):
        """An entry is recorded."""
        self.entries.append(entry)

    def record(self, kind, address, datagram):
        index = sorted(self.stations).index(address)
        self.enter(struct.pack(">BHQH", kind, index, self.now, len(datagram)) + datagram)

    def timestamp(self):
        """The timestamp of a PDU that is sent now: relative."""
        return 2 * (self.now % (1 << 31))

    def send(self, address, kind, entity, target, body, version=7):
        head = struct.pack(">BBBBIHBB", version, self.exercise, kind, 5, self.timestamp(), 24 + len(body), 0, 0)
        datagram = head + struct.pack(">6H", *address, entity, *target) + body
        self.record(SENT, address, datagram)
        self.sent.append(datagram)
        return datagram

    def order(self, address, kind, target, values):
        station = self.stations[address]
        words = kind, 0, target, station.order_body(kind, values)
        if 24 + len(words[-1]) > LONGEST_DATAGRAM:
            raise Stopped("too-long")
        station.next += 1
        station.orders.append(Order(words, decoded(self.send(address, *words)), self.now))

    def tick(self, address):
        """The orders that are due, from the oldest on: each that was sent often enough is given up, and the first other
        one is sent again. Answers those given up, and the one sent, if one was."""
        station, given_up = self.stations[address], []
        for order in station.orders:
            if not order.is_due(self.now, station):
                continue
            if order.sends < station.tries:
                self.send(address, *order.words)
                order.sends, order.last = order.sends + 1, self.now
                return given_up, order
            order.is_given_up = True
            given_up.append(order)
        return given_up, None

    def deliver(self, address, place):
        if place >= len(self.sent):
            raise Stopped("no-such-send")
        self.record(RECEIVED, address, self.sent[place])
        pdu = decoded(self.sent[place])
        answer = self.stations[address].take(pdu)
        if answer is not None:
            kind, entity, body, version = answer
            self.send(address, kind, entity, pdu.origin, body, version)

    def tell(self, address, entity):
        if entity not in ENTITIES:
            raise Stopped("no-such-entity")
        state = self.stations[address].entities.get(entity, 0)
        index = sorted(self.stations).index(address)
        self.enter(struct.pack(">BHHB", TOLD, index, entity, state))

    def take_line(self, line):
        """A line of the script; answers whether it is a move."""
        name, part, words = read_line(line)
        if name == "exercise":
            self.exercise = words[0][0]
        elif name == "at":
            self.now = words[0][0]
        else:
            self.take_of_station(name, *words)
        return part == 4 and name != "at"

    def take_of_station(self, name, address, *words):
        if name == "station":
            self.stations[address] = Station(address, *(word[0] for word in words))
        elif name == "opening":
            state = STATES.index(words[1])
            self.stations[address].entities[words[0][0]] = state
            self.opening.setdefault(address, []).append((words[0][0], state))
        elif name == "fixed":
            self.stations[address].fixed[words[0][0]] = words[1][0]
        elif name == "action":
            self.stations[address].actions.add(words[0][0])
        elif name in ORDERS:
            self.order(address, ORDERS[name], words[0], [word[0] for word in words[1:]])
        else:
            {"deliver": self.deliver, "tell": self.tell, "tick": self.tick}[name](address, *(word[0] for word in words))

    def text(self):
        """The recording, in the first format."""
        head = b"DSRC0001" + struct.pack(">BH", self.exercise, len(self.stations))
        for address in sorted(self.stations):
            opening = self.opening.get(address, [])
            head += struct.pack(">HHH", *address, len(opening))
            head += b"".join(struct.pack(">HB", *entity) for entity in opening)
        return head + b"".join(self.entries) + b"\0" + struct.pack(">I", len(self.entries))


def answer_to_world(script):
    """What is answered to a script, and the text of its recording, if it is made."""
    refused = script_fault(script)
    if refused is not None:
        return fault(f"script: {refused}"), None
    lines = [line for line in script.decode("ascii").split("\n") if line and not line.startswith("#")]
    opening = Counter(read_line(line)[2][0] for line in lines if line.startswith("opening"))
    if any(count > MOST_ENTITIES for count in opening.values()):
        return fault("world: stations"), None
    world, moves = World(), 0
    for line in lines:
        try:
            moves += world.take_line(line)
        except Stopped as why:
            return fault(f"world: {why} at move {moves}"), None
    return Outcome(0, f"world records={len(world.entries)} sent={len(world.sent)}\n".encode(), b""), world.text()


def answer_to_trial(script):
    """What is answered to a script on standard input."""
    answer, recording = answer_to_world(script)
    if recording is None:
        return answer
    course = Course(read_recording(recording))
    while go_on(course):
        pass
    return Outcome(0, answer.out + f"explained steps={len(course.taken)}\n{course.report()}".encode(), b"")
