#!/usr/bin/env python3
"""Tries the pictures of `siman chart` on made-up exercises, each read back from its SVG.

It makes exercises of two to six stations, in which orders and reports are sent to one station or to all, get lost, come
late, come twice or come from outside, are sent again, answered, refused or left unanswered, and states are told, at
stamps of any sort. The recording has the entries in another order than they happened, and the certificate the order in
which they happened. For each it draws the whole, and some of the steps, with a clock or none, with the bars of all
entities or of some, and the columns of all stations or of some. Then it takes an entry or two out of the recording, and
draws what is left without a certificate, and it spoils a step of the certificate, and draws the steps before the first
bad one. It compares:

- the marks in the SVG with those that the logs say, by tools/pages/charts.py alone, and each byte of it with what
  tools/pages/drawings.py draws;
- what is answered with what tools/pages/drawings.py answers;
- where they stand: the rows one below the other, each arrow from the dot of its sender to the row and the column of its
  receiver, each bar from the row of the change that began it to that of the change that ended it, what was told of an
  entity on its bar, and what is lost level;
- that nothing is in it that is of no use: no script, no font, nothing from outside, no number that is not whole.

    tools/pictures.py [PROGRAM] [--recordings N] [--seed N]

Without PROGRAM, which has to be built, it asks that each certificate is good by tools/pages/histories.py, and no more. It
is no part of the gate. Each wrong picture is told in one line; the last line is `N tried, M wrong` with how many marks of
each sort there were, and the status is 1 if any is wrong.
"""
import argparse
import random
import re
import shutil
import subprocess
import sys
import tempfile
from collections import Counter
from pathlib import Path
from xml.etree import ElementTree

sys.dont_write_bytecode = True

from cases.texts import certificate_text, pdu, received, recording_text, sent, told
from cases.whys import altered
from pages import (
    ACKNOWLEDGE, CREATE, DATA, DATA_QUERY, FIRST, NO_LINK, OPEN, START, STOP, TOLD, Course, Recording, Station, verdict,
)  # fmt: skip
from pages.charts import marks_in, text_of
from pages.drawings import answer_to_chart, drawing_of
from repairs import comment

ALL = 0xFFFF
OUTSIDE = (9, 9)
WHOLE = re.compile("-?[0-9]+( -?[0-9]+)*|[0-9]+vh")
PLACES = {"x", "y", "x1", "y1", "x2", "y2", "width", "height", "viewBox", "cx", "cy", "r"}
SVG = "{http://www.w3.org/2000/svg}"
XMLLINT = shutil.which("xmllint")
ELEMENTS = {"svg", "title", "desc", "style", "defs", "marker", "path", "circle", "rect", "g", "line", "text", "use"}


def order_datagram(kind, asker, entity, request):
    return pdu(kind, (*asker, 0), entity, request=request)


def report(origin, target, event):
    return pdu(21, origin, target, event=event)


class Making:
    """An exercise that is being made up: its entries as they happen, and the datagrams on their way."""

    def __init__(self, chance, stations):
        self.chance, self.open = chance, chance.random() < 0.3
        self.sites = sorted(chance.sample([(site, place) for site in (1, 2, 3) for place in (1, 2, 11)], stations))
        self.opening = [
            [(entity, chance.choice((1, 2))) for entity in (3, 5) if chance.random() < 0.3] for _ in self.sites
        ]
        self.states = {(at, entity): state for at, own in enumerate(self.opening) for entity, state in own}
        self.entries, self.ways, self.requests, self.asked = [], [], 0, [set() for _ in self.sites]

    def put(self, entry):
        number = len(self.entries)
        stamp = self.chance.choice([0, number, 1_764_500_000_000_000 + 1_000 * number, self.chance.getrandbits(64)])
        self.entries.append(entry if entry.kind == TOLD else entry._replace(stamp=stamp))

    def send(self, station, datagram, targets):
        self.put(sent(station, datagram))
        for target in targets:
            if target != station and self.chance.random() < 0.8:
                self.ways.append((target, datagram))

    def order(self):
        """Some station orders something of another or of all, or the same as before."""
        station = self.chance.randrange(len(self.sites))
        target = self.chance.choice([at for at in range(len(self.sites)) if at != station])
        self.requests += 1
        kind = self.chance.choice((CREATE, CREATE, START, STOP, DATA_QUERY))
        entity = (*self.sites[target], self.chance.randint(1, 12))
        everybody = kind in (START, STOP) and self.chance.random() < 0.3
        datagram = order_datagram(kind, self.sites[station], (ALL, ALL, ALL) if everybody else entity, self.requests)
        targets = range(len(self.sites)) if everybody else [target]
        self.send(station, datagram, targets)
        if self.chance.random() < 0.2:
            again = datagram if self.chance.random() < 0.3 else datagram[:4] + bytes([0, 0, 1, 0]) + datagram[8:]
            self.send(station, again, targets)

    def from_outside(self):
        """Somebody whom nobody recorded orders something."""
        target = self.chance.randrange(len(self.sites))
        self.requests += 1
        entity = (*self.sites[target], self.chance.randint(1, 12))
        self.ways.append((target, order_datagram(CREATE, OUTSIDE, entity, self.requests)))

    def say(self):
        """Some station reports to all, or says something to another."""
        station = self.chance.randrange(len(self.sites))
        if self.chance.random() < 0.5:
            self.send(station, report((*self.sites[station], 7), (ALL, ALL, ALL), len(self.entries)), range(len(self.sites)))
        else:
            other = self.chance.choice([at for at in range(len(self.sites)) if at != station])
            self.send(station, comment(self.sites[station], self.sites[other], len(self.entries)), [other])

    def say_nothing(self):
        station, kind = self.chance.randrange(len(self.sites)), self.chance.choice((sent, received))
        self.put(kind(station, bytes(self.chance.randrange(40))))

    def tell(self):
        station, entity = self.chance.randrange(len(self.sites)), self.chance.randint(1, 12)
        self.put(told(station, entity, self.states.get((station, entity), 0)))

    def arrive(self):
        """Something on its way arrives, and is answered or not."""
        if not self.ways:
            return
        station, datagram = self.ways.pop(self.chance.randrange(len(self.ways)))
        if self.chance.random() < 0.1:
            self.ways.append((station, datagram))
        self.put(received(station, datagram))
        if datagram[2] in (11, 13, 14, 18) and self.chance.random() < 0.8:
            self.answer(station, datagram)

    def answer(self, station, datagram):
        asker = tuple(int.from_bytes(datagram[at : at + 2], "big") for at in (12, 14))
        target = tuple(int.from_bytes(datagram[at : at + 2], "big") for at in (18, 20, 22))
        request = int.from_bytes(datagram[24:28] if datagram[2] in (11, 18) else datagram[-4:], "big")
        if (asker, request) in self.asked[station]:
            return
        self.asked[station].add((asker, request))
        own = (*self.sites[station], 0 if target[2] == ALL else target[2])
        if datagram[2] == 18:
            answer = pdu(DATA, own, (*asker, 0), request=request)
        else:
            flag = {11: 1, 13: 3, 14: 4}[datagram[2]]
            able = self.change(station, datagram[2], target[2])
            answer = pdu(ACKNOWLEDGE, own, (*asker, 0), flag=flag, response=1 if able else 2, request=request)
        self.send(station, answer, [at for at, site in enumerate(self.sites) if site == asker])

    def change(self, station, kind, entity):
        """Whether the station can and does change the entity so."""
        there = (station, entity) in self.states
        if self.chance.random() < 0.2 or (entity != ALL and there == (kind == 11)):
            return False
        if kind == 11:
            self.states[station, entity] = 1
        for at, other in list(self.states):
            if kind != 11 and at == station and entity in (ALL, other):
                self.states[at, other] = 2 if kind == 13 else 1
        return True


def made_exercise(chance, stations, moves):
    """A recording, its entries station by station in some places, and the order in which they happened."""
    making = Making(chance, stations)
    deeds = [making.order, making.order, making.say, making.tell, *[making.arrive] * 7]
    deeds += [making.say_nothing] if chance.random() < 0.3 else []
    deeds += [making.from_outside] if making.open else []
    for _ in range(moves):
        chance.choice(deeds)()
    kept = mixed(chance, making.entries)
    places = sorted(range(len(kept)), key=lambda at: kept[at])
    stations = [Station(*site, opening) for site, opening in zip(making.sites, making.opening)]
    return Recording(1, stations, [making.entries[at] for at in kept], OPEN if making.open else FIRST), places


def mixed(chance, entries):
    """The entries in another order, each station's in its own."""
    left = {}
    for at, entry in enumerate(entries):
        left.setdefault(entry.station, []).append(at)
    kept = []
    while left:
        station = chance.choice(list(left))
        kept.append(left[station].pop(0))
        if not left[station]:
            del left[station]
    return kept


def steps_of(recording, places):
    course, steps = Course(recording), []
    for place in places:
        link = course.link_of(place)
        steps.append((place, NO_LINK if link is None else link))
        course.take(place)
    return steps


# What is drawn.

class Drawn:
    """A picture as it stands in the SVG."""

    def __init__(self, svg, picture):
        self.elements, self.picture = list(ElementTree.fromstring(svg).iter()), picture
        self.rows = {int(row.get("data-entry")): int(row.get("y")) for row in self.marks("row")}
        self.stops = {int(row.get("data-entry")): int(row.get("y")) for row in self.marks("blocked") if row.get("data-cause")}
        self.columns = {}
        for dot in [*self.marks("sent"), *self.marks("other")]:
            self.columns[self.station(int(dot.get("data-entry")))] = int(dot.get("x"))

    def marks(self, name):
        return [element for element in self.elements if element.get("class") == name]

    def station(self, entry):
        return self.picture.story.entries[entry].station

    def faults(self):
        yield from self.strange()
        yield from self.rows_that_stand_wrong()
        yield from self.ends_that_stand_wrong()
        yield from self.bars_that_stand_wrong()
        yield from self.told_that_stand_wrong()
        yield from self.stops_that_stand_wrong()

    def strange(self):
        for element in self.elements:
            if element.tag.removeprefix(SVG) not in ELEMENTS:
                yield f"an element {element.tag}"
            for name, value in element.items():
                if name in PLACES and not WHOLE.fullmatch(value) and value != "100%":
                    yield f"{name}={value}"
                if name.startswith("on") or "//" in value or (name == "href" and not value.startswith("#")):
                    yield f"{name}={value}"

    def rows_that_stand_wrong(self):
        heights = [int(row.get("y")) for row in sorted(self.marks("row"), key=lambda row: int(row.get("data-step")))]
        if any(below <= above for above, below in zip(heights, heights[1:])):
            yield f"rows at {heights}"
        columns = [self.columns[station] for station in sorted(self.columns)]
        if any(right <= left for left, right in zip(columns, columns[1:])):
            yield f"columns at {columns}"

    def level(self, entry):
        """Where a row stands: the height of its words is a little below."""
        return self.rows.get(entry)

    def ends_that_stand_wrong(self):
        for arrow in self.marks("arrow"):
            yield from self.end_that_stands_wrong(arrow, int(arrow.get("data-to")), "2")
            if self.picture.is_kept(int(arrow.get("data-from"))):
                yield from self.end_that_stands_wrong(arrow, int(arrow.get("data-from")), "1")
            elif arrow.get("y1") != arrow.get("y2"):
                yield f"the short arrow to {arrow.get('data-to')} is not level"
        for loss in self.marks("lost"):
            yield from self.end_that_stands_wrong(loss, int(loss.get("data-from")), "1")
            if loss.get("y1") != loss.get("y2"):
                yield f"what is lost from {loss.get('data-from')} is not level"
        for arrow in self.marks("outside"):
            yield from self.end_that_stands_wrong(arrow, int(arrow.get("data-to")), "2")

    def end_that_stands_wrong(self, line, entry, which):
        x, y = int(line.get(f"x{which}")), int(line.get(f"y{which}"))
        if entry in self.rows and not 0 <= self.rows[entry] - y <= 6:
            yield f"{line.get('class')} of {entry} at height {y}, its row at {self.rows[entry]}"
        if x != self.columns.get(self.station(entry), x):
            yield f"{line.get('class')} of {entry} at {x}, its column at {self.columns[self.station(entry)]}"

    def bars_that_stand_wrong(self):
        for bar in self.marks("bar"):
            top, height = int(bar.get("y")), int(bar.get("height"))
            for change, at in ((bar.get("data-from"), top), (bar.get("data-to"), top + height)):
                if change != "-" and int(change) in self.rows and not 0 <= self.rows[int(change)] - at <= 6:
                    yield f"bar of {bar.get('data-entity')} at {at}, the row of {change} at {self.rows[int(change)]}"

    def stops_that_stand_wrong(self):
        """What is blocked stands below all rows, in red, and its sign in its row."""
        below = max(self.rows.values(), default=0)
        for mark in self.marks("blocked"):
            entry, y = int(mark.get("data-entry")), int(mark.get("y"))
            is_row = mark.get("data-cause") is not None
            if y <= below or mark.get("fill") != "#dc2626" or not (is_row or 0 <= self.stops.get(entry, 0) - y <= 6):
                yield f"what is blocked at {entry} at height {y}"

    def told_that_stand_wrong(self):
        """A told state stands on the bars of its entity, if it has bars."""
        for sign in self.marks("told"):
            entry = self.picture.story.entries[int(sign.get("data-entry"))]
            entity = "{}:{}:{}".format(*self.picture.story.address(entry.station), entry.entity)
            bars = [bar for bar in self.marks("bar") if bar.get("data-entity") == entity]
            if any(not 3 <= int(sign.get("x")) - int(bar.get("x")) <= 6 for bar in bars):
                yield f"what was told of {entity} at {sign.get('x')}, its bar at {bars[0].get('x')}"


def windows(chance, count):
    """The first step that is shown and the one behind the last: all, and some."""
    yield 0, count
    first = chance.randrange(count)
    yield first, chance.randint(first + 1, count)


def choices(chance, recording):
    """Words that choose a clock, or none, the bars of some entities, or of all, and the columns of some stations, or of
    all."""
    unit = chance.choice([None, "us", "ms", "s"])
    words = [f"clock={unit}"] if unit else []
    for _ in range(chance.choice([0, 0, 1, 3])):
        station = chance.choice(recording.stations)
        words.append(f"entity={station.site}:{station.application}:{chance.randint(1, 9)}")
    for _ in range(chance.choice([0, 0, 1, 2])):
        station = chance.choice(recording.stations)
        words.append(f"station={station.site}:{station.application}")
    return words


def draw(program, folder, certificate, said):
    """The status and the lines of the answer, and the picture, or why there is none."""
    words = [program, "chart", folder / "made.dsrc", certificate, folder / "made.svg", "--force", *said]
    done = subprocess.run(words, capture_output=True, text=True, timeout=60)
    return done.returncode, done.stdout, (folder / "made.svg").read_text() if done.returncode < 2 else done.stderr


def fault_of(program, folder, files, said):
    """What is wrong with a picture, or None; and the marks that it is to have."""
    recording, certificate = files
    (folder / "made.dsrc").write_bytes(recording)
    if certificate is not None:
        (folder / "made.dsct").write_bytes(certificate)
    answer, wanted = answer_to_chart(recording, certificate, said)
    status, lines, svg = draw(program, folder, "-" if certificate is None else folder / "made.dsct", said)
    if wanted is None:
        told = (status, svg.splitlines()[:1]) == (answer.status, answer.errors.decode().splitlines()[:1])
        return None if told else f"status {status}: {svg}", []
    picture = drawing_of(recording, certificate, said)
    marks = sorted(text_of(mark) for mark in picture.marks())
    if (status, lines.encode()) != (answer.status, answer.out):
        return f"status {status}: {lines}", marks
    drawn = marks_in(svg)
    if drawn != marks:
        lacks, more = Counter(marks) - Counter(drawn), Counter(drawn) - Counter(marks)
        return f"lacks {sorted(lacks.elements())}, has {sorted(more.elements())}", marks
    if svg != wanted:
        parts = zip(svg.splitlines(), wanted.splitlines())
        return f"drawn otherwise: {next((pair for pair in parts if pair[0] != pair[1]), 'longer')}", marks
    if XMLLINT and subprocess.run([XMLLINT, "--noout", folder / "made.svg"], capture_output=True).returncode:
        return "no XML", marks
    return next(Drawn(svg, picture).faults(), None), marks


def without(chance, recording):
    """A recording that lacks an entry or two."""
    entries = list(recording.entries)
    for _ in range(chance.choice((1, 1, 2))):
        if entries:
            del entries[chance.randrange(len(entries))]
    return recording._replace(entries=entries)


def drawings(chance, recording, places, steps):
    """Each recording and certificate, or none, that is to be drawn, and the words that say what of it."""
    whole = recording_text(recording), certificate_text(steps)
    for first, end in windows(chance, len(places)):
        bounds = [] if (first, end) == (0, len(places)) else [f"from={first}", f"to={end - 1}"]
        yield whole, bounds + choices(chance, recording)
    yield (whole[0], None), choices(chance, recording)
    bounds = [f"to={chance.randrange(len(places))}"] if chance.random() < 0.2 else []
    yield (whole[0], certificate_text(altered(chance, recording, steps))), bounds + choices(chance, recording)
    yield (recording_text(without(chance, recording)), None), bounds + choices(chance, recording)


def faults_of(program, folder, chance, recording, places, counts):
    steps = steps_of(recording, places)
    answer = verdict(recording, steps)
    if answer.out.split()[0] != b"yes":
        return [f"the certificate is not good: {answer.out}"]
    faults = []
    for files, said in drawings(chance, recording, places, steps) if program else ():
        fault, marks = fault_of(program, folder, files, said)
        counts.update(mark.split()[0] for mark in marks)
        faults += [f"{' '.join(said)}: {fault}"] if fault else []
    return faults


def main():
    parser = argparse.ArgumentParser(description=__doc__, formatter_class=argparse.RawDescriptionHelpFormatter)
    parser.add_argument("program", nargs="?", help="the program siman, built")
    parser.add_argument("--recordings", type=int, default=500)
    parser.add_argument("--seed", type=int, default=1)
    given = parser.parse_args()
    chance, tried, wrong, counts = random.Random(given.seed), 0, 0, Counter()
    with tempfile.TemporaryDirectory() as folder:
        while tried < given.recordings:
            recording, places = made_exercise(chance, chance.randint(2, 6), chance.randint(2, 60))
            if not places:
                continue
            tried += 1
            for fault in faults_of(given.program, Path(folder), chance, recording, places, counts):
                wrong += 1
                print(f"wrong: exercise {tried}: {fault}")
    marks = ", ".join(f"{count} {name}" for name, count in sorted(counts.items()))
    print(f"{tried} tried, {wrong} wrong" + (f" ({marks})" if marks else ""))
    return 1 if wrong else 0


if __name__ == "__main__":
    sys.exit(main())
