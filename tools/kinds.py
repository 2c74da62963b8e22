#!/usr/bin/env python3
"""Writes a recording of a kind that is hard on the checker or the search, and its certificate.

The kinds:

  stations    256 stations: the first creates entities on each of the others in turn, and each answers
  alone       one station that sends to itself: it creates an entity and removes it, over and over
  reversed    the exchanges of 'stations', the file log by log, the last station's first
  waits       256 stations: half of the entries are sent by the first before what the others wait for, each in turn
  keys        requests under identifiers in no order, of two stations, and their answers
  scopes      all entities of a station, 4,096 of them, stopped and started over and over, and one of them told
  told        the states of 16 stations with 4,096 entities each, told over and over
  large       datagrams of 8,000 bytes, sent and received
  records     Set Data of 10 fixed and 5 variable datums, and their answers
  colliding   Set Data that a hasher which multiplies by a known number can't tell apart, sent and received
  repeated    requests that are each sent and received 8 times, with other timestamps, and answered each time
  broadcasts  256 stations: the first stops and starts all entities of all, and each of the others answers
  few         an open recording of one station: 1,000 askers whose requests have 16 identifiers, and their answers, Able
              and Unable, all of them over and over
  mixed       two stations: requests of all kinds, answers, repeats, losses, reports, others and told states as they come
  opened      the states of one station with 65,533 entities, told over and over

Kinds, numbers and orders are the same each time. A file ends at 1,048,576 entries, or at 268,435,456 bytes, which a
recording of 'large' would pass at 33,000 and so ends before.
"""
import argparse
import random
import struct
import sys
from array import array

NO_LINK = 0xFFFFFFFF
MOST_ENTRIES = 1_048_576
MOST_LARGE = 33_000  # entries of 'large' that a file holds
MULTIPLIER = 0x9E3779B97F4A7C15
CREATE, REMOVE, START, STOP, ACKNOWLEDGE, ACTION, ACTED = 11, 12, 13, 14, 15, 16, 17
DATA_QUERY, SET_DATA, DATA, EVENT, COMMENT = 18, 19, 20, 21, 22
ALL = 0xFFFF


class Run:
    """Events in the order in which they happen: each one's station, its text, and the event that its step links with."""

    def __init__(self, stations, openings=None, is_open=False):
        self.stations, self.openings, self.is_open = stations, openings or {}, is_open
        self.at, self.texts, self.links = [], [], []

    def add(self, station, text, link):
        self.at.append(station)
        self.texts.append(text)
        self.links.append(link)
        return len(self.at) - 1

    def send(self, station, datagram, link=-1):
        return self.add(station, struct.pack(">BHQH", 1, station, 0, len(datagram)) + datagram, link)

    def receive(self, station, datagram, sent):
        return self.add(station, struct.pack(">BHQH", 2, station, 0, len(datagram)) + datagram, sent)

    def tell(self, station, entity, state):
        return self.add(station, struct.pack(">BHHB", 3, station, entity, state), -1)

    def exchange(self, asking, request, answering, answer):
        """A request that is sent, received and answered, and its answer received."""
        sent = self.send(asking, request)
        received = self.receive(answering, request, sent)
        answered = self.send(answering, answer, received)
        self.receive(asking, answer, answered)


def address(station):
    return (station // 16 + 1, station % 16 + 1)


def pdu(kind, origin, target, body, stamp=0):
    """The datagram of a PDU of exercise 1."""
    head = struct.pack(">BBBBIHBB", 7, 1, kind, 5, stamp, 24 + len(body), 0, 0)
    return head + struct.pack(">HHHHHH", *origin, *target) + body


def request(kind, asking, answering, entity, identifier, stamp=0):
    """A request without more than an identifier and clock times."""
    body = {START: bytes(16), STOP: bytes(12)}.get(kind, b"") + struct.pack(">I", identifier)
    return pdu(kind, (*address(asking), 0), (*answering, entity), body, stamp)


def able(kind, answering, asking, entity, identifier, stamp=0):
    """The Able to a request of a kind."""
    body = struct.pack(">HHI", kind - 10, 1, identifier)
    return pdu(ACKNOWLEDGE, (*address(answering), entity), (*address(asking), 0), body, stamp)


def order(run, kind, asking, answering, entity, identifier):
    """An exchange about an entity, or about all where it is 0xFFFF, in the answer 0."""
    answer = able(kind, answering, asking, 0 if entity == ALL else entity, identifier)
    run.exchange(asking, request(kind, asking, address(answering), entity, identifier), answering, answer)


def stations(count):
    run = Run(256)
    for number in range(count // 4):
        order(run, CREATE, 0, 1 + number % 255, 1 + number // 255, number)
    return run


def alone(count):
    run = Run(1)
    for number in range(count // 4):
        order(run, REMOVE if number % 2 else CREATE, 0, 0, 1 + number // 2 % 65_533, number)
    return run


def waits(count):
    run = Run(256)
    for number in range(count // 2):
        run.send(0, pdu(COMMENT, (*address(0), 0), (*address(1), 0), struct.pack(">II", 0, 0), 2 * number))
    # Then what a station sends is received by the one before it, which sends on: the last station gets the first of it.
    holder, number = 0, count // 2
    while len(run.at) + 2 <= count:
        datagram = pdu(COMMENT, (*address(holder), 0), (*address(1), 1), struct.pack(">II", 0, 0), 2 * number + 1)
        receiver = (holder - 1) % 256
        run.receive(receiver, datagram, run.send(holder, datagram))
        holder, number = receiver, number + 1
    return run


def keys(count):
    run = Run(2, {1: [(1, 1)]})
    for number in range(count // 4):
        order(run, STOP if number % 2 else START, 0, 1, 1, number * 0x9E3779B1 % 2**32)
    return run


def scopes(count):
    run = Run(2, {1: [(entity, 1) for entity in range(1, 4097)]})
    for number in range(count // 5):
        order(run, STOP if number % 2 else START, 0, 1, ALL, number)
        run.tell(1, 1 + number % 4096, 1 if number % 2 else 2)
    return run


def told(count):
    run = Run(16, {station: [(entity, 1 + entity % 2) for entity in range(1, 4097)] for station in range(16)})
    for number in range(count):
        entity = 1 + number // 16 % 4096
        run.tell(number % 16, entity, 1 + entity % 2)
    return run


def large(count):
    run = Run(2)
    value = bytes(8_000 - 40)
    for number in range(min(count, MOST_LARGE) // 2):
        body = struct.pack(">IIII", 0, 1, number, 8 * len(value)) + value
        datagram = pdu(COMMENT, (*address(0), 0), (*address(1), 0), body)
        run.receive(1, datagram, run.send(0, datagram))
    return run


def records(count):
    run = Run(2)
    fixed = b"".join(struct.pack(">II", identifier, 7) for identifier in range(10))
    variable = b"".join(struct.pack(">IIQ", identifier, 64, 7) for identifier in range(5))
    datums = struct.pack(">II", 10, 5) + fixed + variable
    for number in range(count // 4):
        body = struct.pack(">II", number, 0) + datums
        asked = pdu(SET_DATA, (*address(0), 0), (*address(1), 0), body)
        run.exchange(0, asked, 1, pdu(DATA, (*address(1), 0), (*address(0), 0), body))
    return run


def colliding(count):
    run = Run(2)
    body = struct.pack("<Q", MULTIPLIER) + struct.pack(">II", 0, 0)
    for number in range(count // 2):
        datagram = pdu(SET_DATA, (*address(0), 0), (*address(1), 0), body, number)
        run.receive(1, datagram, run.send(0, datagram))
    return run


def repeated(count):
    run = Run(2, {1: [(1, 1)]})
    for number in range(count // 4):
        identifier, stamp = number // 8, number % 8
        kind = STOP if identifier % 2 else START
        sent = run.send(0, request(kind, 0, address(1), 1, identifier, stamp))
        received = run.receive(1, run.texts[sent][13:], sent)
        first = received if stamp == 0 else first
        answered = run.send(1, able(kind, 1, 0, 1, identifier, stamp), first)
        run.receive(0, run.texts[answered][13:], answered)
    return run


def broadcasts(count):
    run = Run(256, {station: [(1, 1)] for station in range(1, 256)})
    others = range(1, 256)
    for number in range(count // (1 + 3 * len(others))):
        kind = STOP if number % 2 else START
        asked = request(kind, 0, (ALL, ALL), ALL, number)
        sent = run.send(0, asked)
        received = [run.receive(station, asked, sent) for station in others]
        for station, link in zip(others, received):
            answer = able(kind, station, 0, 0, number)
            run.receive(0, answer, run.send(station, answer, link))
    return run


def few(count):
    run = Run(1, {0: [(entity, 1) for entity in range(1, 1001)]}, is_open=True)
    for turn in range(count // 2):
        number = turn * 7_919 % 16_000
        asker, identifier, entity = number // 16, number % 16, 1 + number % 1000
        origin, kind = (1000 + asker // 100, 1 + asker % 100), STOP if identifier % 2 else START
        body = {START: bytes(16), STOP: bytes(12)}[kind] + struct.pack(">I", identifier)
        received = run.receive(0, pdu(kind, (*origin, 0), (*address(0), entity), body), -1)
        answer = struct.pack(">HHI", kind - 10, 2 if number % 5 == 0 else 1, identifier)
        run.send(0, pdu(ACKNOWLEDGE, (*address(0), entity), (*origin, 0), answer), received)
    return run


class Asked:
    """A request: its kind, its entity, its datagram, its answer, and the first events that sent and received both."""

    def __init__(self, kind, entity, datagram, answer):
        self.kind, self.entity, self.datagram, self.answer = kind, entity, datagram, answer
        self.sent = self.received = self.answered = None


class Mixed:
    """Two stations as they come: the first asks, the second has entities and answers."""

    def __init__(self, count):
        self.run, self.count, self.chance = Run(2, {1: [(entity, 1) for entity in range(1, 41)]}), count, random.Random(1)
        self.states, self.asked = {entity: 1 for entity in range(1, 41)}, []

    def is_lost(self):
        return self.chance.random() < 0.1

    def acknowledged(self, kind, entity, identifier):
        """Able, where the entity is in a state in which the request is obeyed, and what it is then; else Unable."""
        there = self.states.get(entity, 0) != 0
        response = 1 if there != (kind == CREATE) else 2
        if response == 1:
            self.states[entity] = {CREATE: 1, REMOVE: 0, START: 2, STOP: 1}[kind]
        return pdu(ACKNOWLEDGE, (*address(1), entity), (*address(0), 0), struct.pack(">HHI", kind - 10, response, identifier))

    def new_request(self):
        kind, entity = self.chance.choice([CREATE, REMOVE, START, STOP, ACTION, DATA_QUERY, SET_DATA]), self.chance.randrange(1, 61)
        identifier, here, there = len(self.asked), (*address(0), 0), (*address(1), entity)
        if kind in (CREATE, REMOVE, START, STOP):
            asked = request(kind, 0, address(1), entity, identifier)
            answer = None
        else:
            body = struct.pack(">IIII", identifier, 0, 0, 0)
            asked = pdu(kind, here, there, body)
            answer = pdu({ACTION: ACTED, DATA_QUERY: DATA, SET_DATA: DATA}[kind], there, here, body)
        self.asked.append(Asked(kind, entity, asked, answer))
        return self.asked[-1]

    def exchange(self):
        again = self.asked and self.chance.random() < 0.2
        asked = self.asked[-self.chance.randrange(1, min(20, len(self.asked)) + 1)] if again else self.new_request()
        sent = self.run.send(0, asked.datagram)
        if asked.sent is None:
            asked.sent = sent
        if self.is_lost():
            return
        received = self.run.receive(1, asked.datagram, asked.sent)
        if asked.received is None:
            asked.received = received
        if asked.answer is None:
            identifier, = struct.unpack(">I", asked.datagram[-4:])
            asked.answer = self.acknowledged(asked.kind, asked.entity, identifier)
        answered = self.run.send(1, asked.answer, asked.received)
        if asked.answered is None:
            asked.answered = answered
        if not self.is_lost():
            self.run.receive(0, asked.answer, asked.answered)

    def go_on(self):
        kind = self.chance.random()
        if kind < 0.7:
            self.exchange()
        elif kind < 0.8:
            entity = self.chance.randrange(1, 61)
            self.run.tell(1, entity, self.states.get(entity, 0))
        elif kind < 0.9:
            self.run.receive(self.chance.randrange(2), struct.pack(">BBBB", 7, 1, 1, 1) + bytes(140), -1)
        else:
            body = struct.pack(">IIII", len(self.run.at), 0, 0, 0) if kind < 0.95 else struct.pack(">II", 0, 0)
            report = pdu(EVENT if kind < 0.95 else COMMENT, (*address(1), 1), (*address(0), 0), body, len(self.run.at))
            sent = self.run.send(1, report)
            if not self.is_lost():
                self.run.receive(0, report, sent)


def mixed(count):
    mix = Mixed(count)
    while len(mix.run.at) + 4 <= count:
        mix.go_on()
    return mix.run


def opened(count):
    run = Run(1, {0: [(entity, 1 + entity % 2) for entity in range(1, 65_534)]})
    for number in range(count):
        entity = 1 + number % 65_533
        run.tell(0, entity, 1 + entity % 2)
    return run


def reversed_logs(count):
    return stations(count)


KINDS = {
    "stations": stations, "alone": alone, "reversed": reversed_logs, "waits": waits, "keys": keys, "scopes": scopes,
    "told": told, "large": large, "records": records, "colliding": colliding, "repeated": repeated,
    "broadcasts": broadcasts, "few": few, "mixed": mixed, "opened": opened,
}


def recording_head(run):
    head = b"DSRC0002\x01\x01" if run.is_open else b"DSRC0001\x01"
    parts = [head + struct.pack(">H", run.stations)]
    for station in range(run.stations):
        opening = run.openings.get(station, [])
        parts.append(struct.pack(">HHH", *address(station), len(opening)))
        parts += [struct.pack(">HB", *present) for present in opening]
    return b"".join(parts)


def texts_of(kind, count):
    """The recording of a kind with so many entries, or a few less, and its certificate."""
    run = KINDS[kind](count)
    entries = len(run.at)
    events = range(entries)
    if kind == "reversed":
        events = sorted(events, key=lambda event: -run.at[event])
    place = array("I", bytes(4 * entries))
    for number, event in enumerate(events):
        place[event] = number
    steps = array("I", bytes(8 * entries))
    steps[0::2] = place
    steps[1::2] = array("I", [NO_LINK if link < 0 else place[link] for link in run.links])
    if sys.byteorder == "little":
        steps.byteswap()
    recording = recording_head(run) + b"".join([run.texts[event] for event in events]) + struct.pack(">BI", 0, entries)
    return recording, b"DSCT0001" + struct.pack(">I", entries) + steps.tobytes()


def number_of_entries(word):
    if not (word.isascii() and word.isdigit() and len(word) < 8 and int(word) <= MOST_ENTRIES):
        raise argparse.ArgumentTypeError(f"{word!r} is no number up to {MOST_ENTRIES} in decimal digits")
    return int(word)


def main():
    form = argparse.RawDescriptionHelpFormatter
    parser = argparse.ArgumentParser(description=__doc__, formatter_class=form)
    parser.add_argument("kind", metavar="KIND", choices=KINDS, help="one of " + ", ".join(KINDS))
    parser.add_argument("count", metavar="N", type=number_of_entries, help=f"how many entries, 0 to {MOST_ENTRIES}")
    parser.add_argument("recording", metavar="RECORDING", help="the file to write the recording to")
    parser.add_argument("certificate", metavar="CERTIFICATE", help="the file to write its certificate to")
    given = parser.parse_args()
    for name, text in zip((given.recording, given.certificate), texts_of(given.kind, given.count)):
        try:
            with open(name, "wb") as file:
                file.write(text)
        except OSError as error:
            parser.error(f"{name} could not be written: {error.strerror}")


if __name__ == "__main__":
    main()
