"""The marks of a picture: what they are by the page Marks of exercise_chart, and which of them stand in a text in SVG."""
from xml.etree import ElementTree

from .datagrams import identifier_text
from .files import RECEIVED, SENT, STATES, TOLD
from .logs import Story
from .reviews import told_at

MOST_ENTITIES = 8
KEYS = {
    "row": ["step", "entry"], "sent": ["entry"], "other": ["entry"], "told": ["entry"], "arrow": ["from", "to"],
    "outside": ["by", "to"], "lost": ["from", "at"], "bar": ["entity", "state", "from", "to"],
    "undrawn": ["at", "entities"], "unanswered": ["entry"], "clock": ["entry", "stamp"],
    "blocked": ["entry", "cause"], "stop": ["entry"],
}  # fmt: skip


def marks_of(recording, places, first, end, chosen=()):
    """The marks of the steps from the first on and before the end, where step k takes entry places[k]."""
    return sorted(text_of(mark) for mark in Picture(recording, places, range(first, end), chosen).marks())


def name_of(element):
    """The name of a mark: of what is blocked, the row, which says the cause, and the sign on its column have one class."""
    is_sign = element.get("class") == "blocked" and element.get("data-cause") is None
    return "stop" if is_sign else element.get("class")


def marks_in(svg):
    """The marks that stand in a picture."""
    marks = ((name_of(element), element) for element in ElementTree.fromstring(svg).iter() if element.get("class"))
    return sorted(text_of((name, *(mark.get(f"data-{key}") for key in KEYS[name]))) for name, mark in marks)


def text_of(mark):
    """A mark as a line."""
    name, *facts = mark
    told = ("-" if fact is None else str(fact) for fact in facts)
    return " ".join([name, *(f"{key}={fact}" for key, fact in zip(KEYS[name], told, strict=True))])


class Picture:
    """A recording, the entries in the order of a certificate, which of its steps are shown, the entities that are
    chosen, if any are, what the stamps count, if the picture has a clock, the addresses of the stations whose columns
    are kept, if not all are, and the entries, each with its cause, of what is blocked."""

    def __init__(self, recording, places, rows, chosen=(), unit=None, kept=(), blocked=()):
        self.story, self.places, self.rows = Story(recording), places, rows
        self.chosen, self.unit, self.known = set(chosen), unit, {}
        self.blocked = [(entry, cause) for entry, cause in blocked if entry < len(recording.entries)]
        stations = (at for at in range(len(recording.stations)) if not kept or tuple(self.story.address(at)) in kept)
        self.columns = {station: column for column, station in enumerate(stations)}
        self.steps = {}
        for step, place in enumerate(places):
            self.steps.setdefault(place, step)

    def is_kept(self, entry):
        """Whether the station of an entry has a column."""
        return self.story.entries[entry].station in self.columns

    def is_shown(self, entry):
        return self.steps.get(entry, len(self.places)) in self.rows

    def address(self, station):
        return "{}:{}".format(*self.story.address(station))

    def marks(self):
        for step in self.rows:
            yield "row", step, self.places[step]
            if self.unit:
                yield "clock", self.places[step], self.stamp(self.places[step])
            yield from self.marks_at(self.places[step])
        for entry, source in enumerate(self.story.sources):
            if source is not None and self.is_kept(entry) and (self.is_shown(entry) or self.is_shown(source)):
                yield "arrow", source, entry
        for station in self.columns:
            yield from self.bars(station)
        yield from ((name, entry) for name, entry in self.unanswered() if self.is_kept(entry))
        yield from self.stops()

    def stops(self):
        """What stands in the rows of what is blocked."""
        for entry, cause in self.blocked:
            yield "blocked", entry, cause
            if self.unit:
                yield "clock", entry, self.stamp(entry)
            if self.is_kept(entry):
                yield "stop", entry

    def marks_at(self, index):
        """What stands in the row of an entry."""
        entry, pdu = self.story.entries[index], self.story.meanings[index]
        if not self.is_kept(index):
            return
        if entry.kind == TOLD or not pdu:
            yield ("told" if entry.kind == TOLD else "other"), index
        elif entry.kind == SENT:
            yield "sent", index
            yield from (("lost", index, self.address(station)) for station in self.lost_at(index, pdu))
        elif self.story.is_outside(pdu):
            yield "outside", "{}:{}".format(*pdu.origin[:2]), index

    def lost_at(self, index, pdu):
        """The other stations that a datagram addresses and that never received it, from the first that sends it."""
        entry = self.story.entries[index]
        if index != self.copies(entry.datagram, SENT, entry.station)[0]:
            return
        for station in self.story.addressed(pdu.target):
            if station != entry.station and station in self.columns and not self.copies(entry.datagram, RECEIVED, station):
                yield station

    def copies(self, datagram, kind, station):
        """The entries of a station and of a kind that have a datagram."""
        entries = ((at, self.story.entries[at]) for at in self.story.own[station])
        return [at for at, entry in entries if entry.kind == kind and entry.datagram == datagram]

    def stamp(self, index):
        """The stamp of an entry; of a told state that of what was last sent or received before it in the file, or 0."""
        before = (entry.stamp for entry in reversed(self.story.entries[: index + 1]) if entry.kind != TOLD)
        return next(before, 0)

    def lives(self, station):
        """The stretches that are shown, and the entities that have one, from the least on."""
        if station not in self.known:
            lives = (life for life in self.story.lives(station) if self.reaches(life))
            shown = [life for life in lives if not self.chosen or (*self.story.address(station), life[0]) in self.chosen]
            self.known[station] = shown, sorted({entity for entity, *_ in shown})
        return self.known[station]

    def bars(self, station):
        """The stretches that are shown of the least entities that have one, and how many more have one."""
        shown, entities = self.lives(station)
        for entity, state, since, until in shown:
            if entity in entities[:MOST_ENTITIES]:
                ends = (change and change.entry for change in (since, until))
                yield "bar", identifier_text((*self.story.address(station), entity)), STATES[state], *ends
        if len(entities) > MOST_ENTITIES:
            yield "undrawn", self.address(station), len(entities) - MOST_ENTITIES

    def reaches(self, life):
        _, _, since, until = life
        begins = since is None or self.steps.get(since.entry, len(self.places)) < self.rows.stop
        return begins and (until is None or self.steps.get(until.entry, len(self.places)) >= self.rows.start)

    def unanswered(self):
        for order in self.story.orders:
            for address in self.story.parties(order):
                told = told_at(self.story, order, address)
                if told["fate"] == "unanswered" and self.is_shown(told["got"]):
                    yield "unanswered", told["got"]
