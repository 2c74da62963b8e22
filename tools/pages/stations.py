"""What `station` does with lines of text and with what comes, by NETWORK.md: what it sends, records, prints and tells."""
import struct

from .datagrams import BODIES, LONGEST_DATAGRAM, Outcome, identifier_text
from .files import ENTITIES, RECEIVED, STATES, TOLD, meaning_of, read_recording
from .logs import GrowingStory, lines_of, log_text
from .scripts import Refused, read_line
from .worlds import ORDERS, Stopped, World

__all__ = ["LONGEST_LINE", "MOST_STRANGERS_NOTED", "Post", "absolute_timestamp", "greeting", "help_text"]

LONGEST_LINE = 65_536
MOST_STRANGERS_NOTED = 64
EVERY = 65535  # every site, or every application of one
SHORT_WAIT = 1_000  # milliseconds that `station S:A` waits by the system's clock
HOUR, LATEST = 3_600_000_000, (1 << 64) - 1  # microseconds
HELP = """\
# create OWN TO, remove OWN TO, start OWN TO, stop OWN TO: an order; OWN is this station, S:A, and TO an entity, S:A:E
# do OWN TO ACTION, query OWN TO ID .., set OWN TO ID VALUE: orders an action, asks for data, sets a datum
# {clock}; tick OWN: sends an order that is due again; tell OWN E: tells the state of its entity E
# status: the orders that are not answered, the entities and the counts; quit, or Ctrl-D: the end
"""
BY_LINES, BY_SYSTEM = "at N: the clock shows N", "the system's clock sets the time"
ENDS = "quit, or Ctrl-D, ends the recording whole; after Ctrl-C it has no end, and siman mend keeps its entries; help lists the lines"


def greeting(address, buffer="N"):
    """What is printed once the link is open."""
    return f"# station {identifier_text(address)} buffer={buffer}\n# {ENDS}\n"


def help_text(by_system):
    """The lines that a station takes; no line sets the clock of the system."""
    return HELP.format(clock=BY_SYSTEM if by_system else BY_LINES)


def absolute_timestamp(time):
    """The timestamp of so many microseconds since 1970: the time past the hour, absolute."""
    return 2 * ((time % HOUR << 31) // HOUR) + 1


def system_wait(words):
    """The microseconds that a line `station` says, by its words behind the address."""
    return min(1_000 * (words[-1][0] if words else SHORT_WAIT), LATEST)


def rows_of(story, index):
    return "".join(log_text(line) + "\n" for line in lines_of(story, index))


class Post(World):
    """One station of a script, and what came of the lines and datagrams so far. It has what the script says of the
    station, and none of its moves. What the system says of its socket is `lost` and `buffer`. Its clock is set by lines,
    or it is the system's: then `show` says what that shows before a line is taken."""

    def __init__(self, script, address, lost="0", buffer="N", by_system=False):
        super().__init__()
        self.known, self.by_system = set(), by_system
        self.address, self.lost, self.buffer = address, lost, buffer
        for line in script.decode("ascii").split("\n"):
            if line and not line.startswith("#"):
                self.take_setup(line)
        self.told, self.number, self.status, self.is_over = [], 0, 0, False
        self.dropped = self.strangers = self.others = 0
        self.met, self.news = [], []  # strangers that were met, and those of them that are to be noted
        # What was printed behind the greeting, in its order: the number of an entry, or the text of notes.
        self.printed = []

    def take_setup(self, line):
        """A line of the script."""
        name, part, words = read_line(line)
        if name == "station":
            self.known.add(words[0])
        if name == "exercise" or part in (2, 3) and words[0] == self.address:
            self.take_line(line)
            if name == "station" and self.by_system:
                self.station.wait = system_wait(words[1:])

    @property
    def station(self):
        return self.stations[self.address]

    def timestamp(self):
        return absolute_timestamp(self.now) if self.by_system else super().timestamp()

    def show(self, time):
        """The system's clock shows a time, in microseconds since 1970, before the next thing is taken. Where it goes back
        the station's stands still."""
        if self.by_system:
            self.now = max(self.now, time)

    def refuse(self, why):
        """Something is told of the line that was taken last."""
        self.told.append(f"line {self.number}: {why}\n")
        self.status = 2

    def take(self, line):
        """A line of the text, without its line feed, and what has arrived then."""
        if line == b"quit":
            self.is_over = True
            return
        self.number += 1
        try:
            if len(line) > LONGEST_LINE or not line.isascii():
                raise Refused("bad-line")
            if line and not line.startswith(b"#") and line not in (b"help", b"status"):
                self.obey(*read_line(line.decode()))
        except (Refused, Stopped) as why:
            self.refuse(why)
        self.serve()
        if line == b"help":
            self.note(help_text(self.by_system))
        if line == b"status":
            self.note_status()
        self.end_thing()
        self.tick_by_itself()

    def wake(self):
        """Between lines it takes what has arrived, and sends again what is due."""
        self.serve()
        self.end_thing()
        self.tick_by_itself()

    def tick_by_itself(self):
        """By the system's clock it ticks as long as an order is due."""
        while self.by_system and self.due():
            self.note_tick(*self.tick(self.address))
            self.serve()
            self.end_thing()

    def end_thing(self):
        """What ends each line, each tick by itself, and what came between lines."""
        self.note_strangers()

    def serve(self):
        """What has arrived is taken; here whoever calls says what comes, by `hear` and `pass_over`, behind the line."""

    def obey(self, name, part, words):
        if part != 4 or name == "deliver":
            raise Refused("bad-line")
        if name == "at" and self.by_system:
            raise Refused("system-clock")
        if name == "at":
            self.set_clock(words[0][0])
        elif words[0] != self.address:
            raise Refused("unknown-station")
        elif name == "tell":
            self.tell_state(words[1][0])
        elif name == "tick":
            self.note_tick(*self.tick(self.address))
        else:
            self.order(self.address, ORDERS[name], words[1], [word[0] for word in words[2:]])
            self.warn(*words[1][:2])

    def set_clock(self, now):
        """By a line the clock shows a time; each order that is due by it, and was not before, is noted."""
        before, self.now = self.due(), now
        for order in self.due():
            if order not in before:
                self.note_order("due", order)

    def due(self):
        return [order for order in self.station.orders if order.is_due(self.now, self.station)]

    def note_tick(self, given_up, again):
        for order in given_up:
            self.note_order("given-up", order)
        if again is not None:
            self.note_order("again", again)

    def warn(self, site, application):
        """An order for a station that the script has not is warned of; it was sent, and the status stays."""
        if site != EVERY and not any(one[0] == site and application in (one[1], EVERY) for one in self.known):
            text = f"the script has no station {site}:{application}: add it there, or see whether the address is right"
            self.told.append(f"warning: line {self.number}: {text}\n")

    def tell_state(self, entity):
        if entity not in ENTITIES:
            raise Stopped("no-such-entity")
        state = self.station.entities.get(entity, 0)
        self.enter(struct.pack(">BHHB", TOLD, 0, entity, state))

    def enter(self, entry):
        """An entry is recorded, and its rows printed."""
        self.printed.append(len(self.entries))
        super().enter(entry)

    def hear(self, datagram, keeps=False):
        """A datagram comes from a peer, and is answered where an answer is due; of another protocol family it is passed over,
        unless it keeps all."""
        if not keeps and len(datagram) > 3 and datagram[3] != 5:
            self.others += 1
            return
        if len(datagram) > LONGEST_DATAGRAM:
            self.dropped += 1
            return
        self.record(RECEIVED, self.address, datagram)
        pdu = meaning_of(self.exercise, datagram)
        answer = self.station.take(pdu) if pdu else None
        if answer is not None:
            kind, entity, body, version = answer
            self.send(self.address, kind, entity, pdu.origin, body, version)

    def pass_over(self, socket):
        """A datagram comes from where no peer is, `IP:PORT`."""
        self.strangers += 1
        if socket not in self.met and len(self.met) < MOST_STRANGERS_NOTED:
            self.met.append(socket)
            self.news.append(socket)

    # Notes.

    def note(self, text):
        self.printed.append(text)

    def note_order(self, name, order):
        pdu = order.pdu
        asked = f"request={order.number} {BODIES[pdu.kind][0]} to={identifier_text(pdu.target)}"
        self.note(f"# {name} {asked} sends={order.sends} tries={self.station.tries} last={order.last}\n")

    def note_status(self):
        made = self.station.orders
        self.note(f"# status clock={self.now} records={len(self.entries)} orders={len(made)} {self.counts()}\n")
        for order in made:
            if not order.is_settled:
                self.note_order(self.standing(order), order)
        for number, state in sorted(self.station.entities.items()):
            self.note(f"# entity {identifier_text([*self.address, number])} {STATES[state]}\n")

    def standing(self, order):
        if order.is_given_up:
            return "given-up"
        return "due" if order.is_due(self.now, self.station) else "waiting"

    def note_strangers(self):
        """The strangers of which what came last is the first are noted, each once."""
        for socket in self.news:
            self.note(f"# stranger {socket}\n")
        self.news = []

    # What there is at the end.

    def text(self):
        """The recording: of the second format, open, with this one station."""
        opening = self.opening.get(self.address, [])
        head = b"DSRC0002" + struct.pack(">BBH", self.exercise, 1, 1) + struct.pack(">HHH", *self.address, len(opening))
        head += b"".join(struct.pack(">HB", *entity) for entity in opening)
        return head + b"".join(self.entries) + b"\0" + struct.pack(">I", len(self.entries))

    def lines(self):
        """What is printed so far: the greeting, and the rows that `log` has of each entry as the last one, with the notes
        between."""
        story = GrowingStory(read_recording(self.text()))
        printed = (one if isinstance(one, str) else rows_of(story, one) for one in self.printed)
        return "".join([greeting(self.address, self.buffer), *printed]).encode()

    def counts(self):
        return f"dropped={self.dropped} strangers={self.strangers} other={self.others} lost={self.lost}"

    def last_line(self):
        return f"station records={len(self.entries)} {self.counts()} buffer={self.buffer}\n".encode()

    def outcome(self):
        self.note_strangers()
        return Outcome(self.status, self.lines() + self.last_line(), "".join(self.told).encode())
