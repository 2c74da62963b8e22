"""Moves of stations that begin with nothing, as scripts, and what their recordings hold, by SCRIPTS.md and NETWORK.md.

All is at time 0: orders to create entities, and states that are told. Station N, from 0, is N+1:1.
"""
from collections import namedtuple

from cases import texts
from pages import ABSENT, ACKNOWLEDGE, CREATE, STOPPED, Recording, Station

ROUNDS, TURNS, MOST_STRANGERS = 4, 64, 64
LONGEST = 8192
STRANGER = b"stranger"  # in the place of a datagram from elsewhere
# A station orders that an entity be created at a station, or at all; a station tells the state of an entity.
Create = namedtuple("Create", "station target entity")
Tell = namedtuple("Tell", "station entity")


def station_at(number):
    return number + 1, 1


def line_of(move):
    if isinstance(move, Tell):
        return b"tell %d:1 %d\n" % (move.station + 1, move.entity)
    return b"create %d:1 %d:%d:%d\n" % (move.station + 1, *move.target, move.entity)


def script_of(count, moves, delivered=False):
    """The script of so many stations; each order and its answer are delivered where the network has to be told so."""
    lines = [b"exercise 1\n", *(b"station %d:1\n" % (number + 1) for number in range(count))]
    for number, move in enumerate(moves):
        lines.append(line_of(move))
        if delivered:
            lines.append(b"deliver %d %d:%d\n" % (2 * number, *move.target))
            lines.append(line_of(Tell(move.target[0] - 1, move.entity)))
            lines.append(b"deliver %d %d:1\n" % (2 * number + 1, move.station + 1))
    return b"".join(lines)


class Exchanges:
    """So many stations, and the entries of their recording so far."""

    def __init__(self, count):
        self.stations = [Station(*station_at(number), []) for number in range(count)]
        self.coming = [[] for _ in range(count)]
        self.orders = [0] * count
        self.there = [set() for _ in range(count)]
        self.entries = []
        self.busy = [False] * count
        self.dropped = self.strangers = 0

    def recording(self):
        return texts.recording_text(Recording(1, self.stations, self.entries))

    def send(self, station, datagram):
        """A datagram that a station sends goes to all others."""
        self.entries.append(texts.sent(station, datagram))
        for other, coming in enumerate(self.coming):
            if other != station:
                coming.append(datagram)

    def order(self, move):
        self.orders[move.station] += 1
        origin, target = (*station_at(move.station), 0), (*move.target, move.entity)
        self.send(move.station, texts.pdu(CREATE, origin, target, request=self.orders[move.station]))

    def tell(self, move):
        state = STOPPED if move.entity in self.there[move.station] else ABSENT
        self.entries.append(texts.told(move.station, move.entity, state))

    def take(self, station, datagram):
        """A datagram that comes, and the answer to an order that means this station and is new to it."""
        self.entries.append(texts.received(station, datagram))
        meant, entity = datagram[18:22], int.from_bytes(datagram[22:24], "big")
        own = b"".join(part.to_bytes(2, "big") for part in station_at(station))
        if datagram[2] != CREATE or meant not in (own, b"\xff" * 4):
            return
        self.there[station].add(entity)
        origin = tuple(int.from_bytes(datagram[at : at + 2], "big") for at in (12, 14, 16))
        values = {"flag": 1, "response": 1, "request": int.from_bytes(datagram[24:28], "big")}
        self.send(station, texts.pdu(ACKNOWLEDGE, (*station_at(station), entity), origin, **values))

    def intrude(self, count):
        """So many datagrams from elsewhere come to each socket."""
        for coming in self.coming:
            coming.extend([STRANGER] * count)

    def receive(self, coming):
        """The next datagram that came from a peer; none where there is none, or where 64 strangers were passed over."""
        for _ in range(MOST_STRANGERS):
            if not coming:
                return None
            datagram = coming.pop(0)
            if datagram is not STRANGER:
                return datagram
            self.strangers += 1
        return None

    def serve_one(self, station):
        """At most 64 receives of a station, up to the first that finds nothing; whether something may be left."""
        met, came = self.strangers, 0
        while came < TURNS:
            datagram = self.receive(self.coming[station])
            if datagram is None:
                break
            came += 1
            if len(datagram) > LONGEST:
                self.dropped += 1
            else:
                self.take(station, datagram)
        return came > 0 or self.strangers > met

    def serve(self):
        """Four rounds, in each of which each station in turn is served."""
        for _ in range(ROUNDS):
            for station in range(len(self.coming)):
                self.busy[station] = self.serve_one(station)

    def line(self):
        """The line of live."""
        counts = b"live records=%d" % len(self.entries)
        left = (sum(self.busy), self.dropped, self.strangers)
        return (counts + b" busy=%d dropped=%d strangers=%d" % left if any(left) else counts) + b"\n"

    def over_lines(self, moves):
        """The recording of moves at lines."""
        for move in moves:
            if isinstance(move, Tell):
                self.tell(move)
            else:
                self.order(move)
            self.serve()
        return self.recording()

    def in_a_world(self, orders):
        """The recording of orders, each delivered to whom it means, who tells what came of it, and its answer delivered."""
        for order in orders:
            target = order.target[0] - 1
            self.order(order)
            self.take(target, self.coming[target].pop())
            self.tell(Tell(target, order.entity))
            self.entries.append(texts.received(order.station, self.coming[order.station].pop()))
        return self.recording()
