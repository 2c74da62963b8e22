#!/usr/bin/env python3
"""Times `siman why` on large recordings that no run explains, beside `audit` of the same file in the same run; where a line
is told of each entry, beside `log`.

The kinds of recordings, each of so many entries:

  end         all goes well to the last entry, which tells a wrong state
  ring        two stations each receive the other's Comment before their own send, at the start, and go on
  missing     at the end a station receives Comments that the log of their sender lacks; with these sends the recording
              has as many entries as it may have
  first       the same at the start, so that nearly all is blocked
  answers     the same of answers all over the recording, which belong behind the requests that they take up
  unsent      each of the stations receives at last what nobody sent
  cut         each but the first, which sends all else, receives at last what that one's log lacks
  told        each tells at last a wrong state of an entity that was there from its start, after changes of others
  reused      each sends at last two orders under one identifier
  unasked     each answers at last a request that nobody made
  again       each says at last unable to what it just said able to
  impossible  each starts at last an entity that is absent
  also        each tells a wrong state in each of its entries
  repeats     one station sends an order, and then another one under its identifier over and over

    tools/asking.py [KIND ..] [--program FILE] [--entries N] [--missing N] [--stations N] [--runs N] [--write FILE]

Each command is run so many times as the first of the two and as the second; the least processor time of each counts,
with system time; one that takes more than 60 seconds is wrong. What stands in a line: both times in seconds, how many
times the time of the other command `why` takes, and the peak memory of both in MiB. Where that is more than 3 times, and
more than 0.2 seconds, it is wrong. The last line is `N tried, M wrong`, and the status is 1 if any is wrong. It is no part of the gate.
"""
import argparse
import os
import subprocess
import sys
import tempfile
from pathlib import Path

sys.dont_write_bytecode = True

from cases.texts import pdu, received, recording_text, sent, told
from growth import Slow, run
from pages import (
    ABLE, ACKNOWLEDGE, CREATE, DATA, DATA_QUERY, RUNNING, START, STOP, STOPPED, UNABLE, Recording, Station,
)  # fmt: skip
from repairs import comment

TOP = Path(__file__).resolve().parent.parent
PROGRAM = TOP / "crates" / "siman" / "out" / "siman"
MOST_TIMES, LEAST_JUDGED = 3, 0.2
WRITTEN = ("also", "repeats")  # kinds of which a line of each entry is told
MOST_ENTRIES = 1 << 20
SECONDS = 60  # the longest that a run may take


class Maker:
    """Entries of so many stations, each with an entity 7 that is stopped from the start."""

    def __init__(self, stations):
        self.sites = [(1 + place // 200, 1 + place % 200) for place in range(stations)]
        self.entries, self.mark = [], 0

    def comment(self, sender, getter):
        self.mark += 1
        return comment(self.sites[sender], self.sites[getter], self.mark)

    def fill(self, count, stations):
        """So many entries: Comments of each of the stations to the next one."""
        for turn in range(count // 2):
            sender = stations[turn % len(stations)]
            getter = stations[(turn + 1) % len(stations)]
            datagram = self.comment(sender, getter)
            self.entries += [sent(sender, datagram), received(getter, datagram)]

    def request(self, kind, asker, target, entity, identifier):
        return pdu(kind, (*self.sites[asker], 0), (*self.sites[target], entity), request=identifier)

    def answer(self, flag, response, sender, asker, entity, identifier):
        origin, target = (*self.sites[sender], entity), (*self.sites[asker], 0)
        return pdu(ACKNOWLEDGE, origin, target, flag=flag, response=response, request=identifier)

    def change(self, kind, station, entity, identifier):
        """A station asks itself for a change and makes it."""
        request = self.request(kind, station, station, entity, identifier)
        able = self.answer({CREATE: 1, START: 3, STOP: 4}[kind], ABLE, station, station, entity, identifier)
        self.entries += [sent(station, request), received(station, request), sent(station, able)]

    def text(self):
        stations = [Station(*site, [(7, STOPPED)]) for site in self.sites]
        return recording_text(Recording(1, stations, self.entries))


def ended(given, first, last):
    """Stations that begin with something, fill the recording, and end with something."""
    maker = Maker(given.stations)
    stations = range(given.stations)
    for station in stations:
        first(maker, station)
    ends = Maker(given.stations)
    for station in stations:
        last(ends, station)
    maker.fill(given.entries - len(maker.entries) - len(ends.entries), stations)
    maker.entries += ends.entries
    return maker.text()


def nothing(maker, station):
    pass


def end(given):
    maker = Maker(2)
    maker.fill(given.entries - 1, (0, 1))
    maker.entries.append(told(1, 7, RUNNING))
    return maker.text()


def ring(given):
    maker = Maker(2)
    one, other = maker.comment(0, 1), maker.comment(1, 0)
    maker.entries = [received(0, other), sent(0, one), received(1, one), sent(1, other)]
    maker.fill(given.entries - 4, (0, 1))
    return maker.text()


def room(given):
    """How many entries there may be, so that with the missing sends there are as many as there may be."""
    return min(given.entries, MOST_ENTRIES - given.missing)


def missing(given):
    maker = Maker(2)
    maker.fill(room(given) - given.missing, (0, 1))
    maker.entries += [received(0, maker.comment(1, 0)) for _ in range(given.missing)]
    return maker.text()


def first(given):
    maker = Maker(2)
    maker.entries = [received(0, maker.comment(1, 0)) for _ in range(given.missing)]
    maker.fill(room(given) - given.missing, (0, 1))
    return maker.text()


def answers(given):
    maker = Maker(2)
    for identifier in range(given.missing):
        query = maker.request(DATA_QUERY, 0, 1, 7, identifier)
        data = pdu(DATA, (*maker.sites[1], 7), (*maker.sites[0], 0), request=identifier)
        maker.entries += [sent(0, query), received(1, query), received(0, data)]
    maker.fill(max(0, room(given) - 3 * given.missing), (0, 1))
    return maker.text()


def unsent(given):
    def last(maker, station):
        maker.entries.append(received(station, maker.request(CREATE, (station + 1) % given.stations, station, 8, 1 << 30)))

    return ended(given, nothing, last)


def cut(given):
    maker, others = Maker(given.stations), range(1, given.stations)
    for turn in range((given.entries - len(others)) // 2):
        getter = 1 + turn % len(others)
        datagram = maker.comment(0, getter)
        maker.entries += [sent(0, datagram), received(getter, datagram)]
    maker.entries += [received(station, maker.request(CREATE, 0, station, 8, station)) for station in others]
    return maker.text()


def wrongly_told(given):
    def begin(maker, station):
        maker.change(START, station, 7, 1)
        maker.change(CREATE, station, 8, 2)

    return ended(given, begin, lambda maker, station: maker.entries.append(told(station, 7, STOPPED)))


def reused(given):
    def last(maker, station):
        maker.entries += [sent(station, maker.request(CREATE, station, station, entity, 1)) for entity in (9, 10)]

    return ended(given, nothing, last)


def unasked(given):
    def last(maker, station):
        maker.entries.append(sent(station, maker.answer(1, ABLE, station, (station + 1) % given.stations, 8, 5)))

    return ended(given, nothing, last)


def again(given):
    def last(maker, station):
        maker.change(START, station, 7, 1)
        maker.entries.append(sent(station, maker.answer(3, UNABLE, station, station, 7, 1)))

    return ended(given, nothing, last)


def impossible(given):
    def begin(maker, station):
        request = maker.request(START, station, station, 9, 1)
        maker.entries += [sent(station, request), received(station, request)]

    def last(maker, station):
        maker.entries.append(sent(station, maker.answer(3, ABLE, station, station, 9, 1)))

    return ended(given, begin, last)


def also(given):
    maker = Maker(given.stations)
    maker.entries = [told(turn % given.stations, 7, RUNNING) for turn in range(given.entries)]
    return maker.text()


def repeats(given):
    maker = Maker(1)
    one, other = (maker.request(CREATE, 0, 0, entity, 1) for entity in (8, 9))
    maker.entries = [sent(0, one), *[sent(0, other)] * (given.entries - 1)]
    return maker.text()


KINDS = {
    "end": end, "ring": ring, "missing": missing, "first": first, "answers": answers, "unsent": unsent, "cut": cut,
    "told": wrongly_told, "reused": reused, "unasked": unasked, "again": again, "impossible": impossible, "also": also,
    "repeats": repeats,
}  # fmt: skip


def timed(given, folder, recording, other):
    """The least seconds and the least peak memory of another command and of `why`, each first and second in its turn."""
    words = {name: [str(given.program), name, recording] for name in (other, "why")}
    if other == "audit":
        words[other].append(str(folder / "made.dsct"))
    taken = {name: [] for name in words}
    for order in ((other, "why"), ("why", other)):
        for _ in range(given.runs):
            for name in order:
                status, _, memory, seconds = run(words[name], folder / f"{name}.out", SECONDS)
                if status != (0 if name == "log" else 1):
                    sys.exit(f"{name} ended with status {status}")
                taken[name].append((seconds, memory))
    return [tuple(min(column) for column in zip(*taken[name])) for name in (other, "why")]


def words_given():
    form = argparse.RawDescriptionHelpFormatter
    parser = argparse.ArgumentParser(description=__doc__, formatter_class=form)
    parser.add_argument("kinds", metavar="KIND", nargs="*", help="all of them without a word")
    parser.add_argument("--program", metavar="FILE", type=Path, default=PROGRAM)
    for word, usual in [("entries", MOST_ENTRIES), ("missing", 100_000), ("stations", 256), ("runs", 3)]:
        parser.add_argument(f"--{word}", metavar="N", type=int, default=usual)
    parser.add_argument("--write", metavar="FILE", type=Path, help="writes a recording of the kind, and times nothing")
    given = parser.parse_args()
    unknown = [kind for kind in given.kinds if kind not in KINDS]
    if unknown:
        parser.error(f"no kind {unknown[0]!r}; the kinds are " + ", ".join(KINDS))
    if given.write is None and not os.access(given.program, os.X_OK):
        parser.error(f"{given.program} is not built; ./siman --build builds it")
    return given


def make(given, kind, recording):
    """A process of its own makes the file, since what this one needs at most counts as the memory of those it starts."""
    numbers = (f"--{word}={getattr(given, word)}" for word in ("entries", "missing", "stations"))
    subprocess.run([sys.executable, __file__, kind, *numbers, "--write", recording], check=True)


def told_of(given, folder, recording, other):
    """The line of a recording, and whether it is wrong."""
    try:
        beside, why = timed(given, folder, recording, other)
    except Slow:
        return f"{other} or why: more than {SECONDS} seconds", True
    times = why[0] / max(beside[0], 0.001)
    line = f"{other:5} {beside[0]:6.2f}, why {why[0]:6.2f}: {times:5.1f} times; {beside[1]:.0f} and {why[1]:.0f} MiB"
    return line, times > MOST_TIMES and why[0] > LEAST_JUDGED


def main():
    given, wrong = words_given(), 0
    chosen = given.kinds or list(KINDS)
    if given.write:
        given.write.write_bytes(KINDS[chosen[0]](given))
        return 0
    with tempfile.TemporaryDirectory() as made:
        folder = Path(made)
        for kind in chosen:
            recording = str(folder / "kind.dsrc")
            make(given, kind, recording)
            line, is_wrong = told_of(given, folder, recording, "log" if kind in WRITTEN else "audit")
            wrong += is_wrong
            print(f"{kind:10} {line}{'; wrong' if is_wrong else ''}", flush=True)
    print(f"{len(chosen)} tried, {wrong} wrong")
    return 1 if wrong else 0


if __name__ == "__main__":
    sys.exit(main())
