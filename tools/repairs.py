#!/usr/bin/env python3
"""Tries what `siman why` says of recordings that lack sends, on made-up recordings.

It makes small recordings of two or three stations that no run explains: an exercise whose events are made up, of which
one to three sends were left out, or a byte of a datagram changed, or two entries of a station swapped. Of each it takes
the lines `missing` and `repair` that the program tells, and searches for itself as docs/staff/READING.md says
(tools/pages):

- the lines `missing` are the sends that the logs lack, at their places, and `repair sends=N` counts them;
- where `repair` says `yes`, the recording with these sends at their places is explained, and it is not with one of them
  left out; `siman audit` and `siman check` say the same of these recordings;
- where it says `no`, it is not, as `audit` says too, and neither with these sends at any other places (each place for one
  or two of them, made-up places for more), nor with one of them sent twice;
- where it says `unknown`, it is not, and one of them is an Able.

    tools/repairs.py [PROGRAM] [--recordings N] [--seed N]

Without PROGRAM, which has to be built, the lines are those that tools/pages works out. It is no part of the gate. Each
wrong answer is told in one line; the last line is `N tried, M wrong` with how many of each word there were, and the
status is 1 if any is wrong.
"""
import argparse
import itertools
import random
import re
import subprocess
import sys
import tempfile
from collections import Counter
from pathlib import Path

sys.dont_write_bytecode = True

from cases.texts import DIRECTOR, fixed_datum, pdu, received, recording_text, sent, told
from pages import (
    ABLE, ACKNOWLEDGE, CREATE, DATA, DATA_QUERY, RUNNING, SENT, START, STOPPED, TOLD, UNABLE, Recording, Station, Story,
    answer_to_why, missing_sends, response_of, searched, with_sends,
)  # fmt: skip

SITES = ((1, 1), (2, 3), (2, 4))
PLACES = 60  # made-up places that are tried of three sends or more
MISSING = re.compile(r"missing (\d+) at=(\d+):(\d+) after=(\d+|-)")
REPAIR = re.compile(r"repair sends=(\d+) enough=(yes|no|unknown)")


# Recordings that are made up.

def comment(origin, target, mark):
    """A Comment with one fixed datum."""
    return pdu(22, (*origin, 0), (*target, 0), fixed=1, records=fixed_datum(mark, 0))


def exchanged(chance, entity, request, states):
    """An order of the first station for an entity, and an answer to it; what an Able changes is noted."""
    kind = chance.choice((CREATE, START, DATA_QUERY))
    order = pdu(kind, DIRECTOR, entity, request=request)
    if kind == DATA_QUERY:
        return order, pdu(DATA, entity, DIRECTOR, request=request)
    may = entity not in states if kind == CREATE else entity in states
    response = ABLE if may and chance.random() < 0.7 else UNABLE
    if response == ABLE:
        states[entity] = STOPPED if kind == CREATE else RUNNING
    flag = 1 if kind == CREATE else 3
    return order, pdu(ACKNOWLEDGE, entity, DIRECTOR, flag=flag, response=response, request=request)


def made_exercise(chance):
    """An exercise that ran: orders and answers of two or three stations, and comments."""
    sites = SITES[: chance.choice((2, 2, 3))]
    entries, states = [], {}
    for request in range(1, chance.randint(2, 5)):
        place = chance.randrange(1, len(sites))
        entity = (*sites[place], chance.choice((7, 8)))
        if chance.random() < 0.4:
            sender, getter = chance.choice(((0, place), (place, 0)))
            datagram = comment(sites[sender], sites[getter], request)
            entries += [sent(sender, datagram), received(getter, datagram)]
            continue
        order, answer = exchanged(chance, entity, request, states)
        entries += [sent(0, order), received(place, order), sent(place, answer), received(0, answer)]
        if entity in states and chance.random() < 0.3:
            entries.append(told(place, entity[2], states[entity]))
    return Recording(1, [Station(*site, []) for site in sites], entries)


def spoilt(chance, recording):
    """The recording without some sends, or with a byte changed, or with two entries of one station swapped."""
    entries = list(recording.entries)
    for _ in range(chance.randint(1, 3)):
        sends = [index for index, entry in enumerate(entries) if entry.kind == SENT]
        if not sends:
            break
        del entries[chance.choice(sends)]
    if chance.random() < 0.3:
        index = chance.choice([index for index, entry in enumerate(entries) if entry.kind != TOLD])
        at = chance.choice((18, 23, 31)) % len(entries[index].datagram)
        datagram = bytearray(entries[index].datagram)
        datagram[at] = chance.choice((1, 2, 3, 7, 8))
        entries[index] = entries[index]._replace(datagram=bytes(datagram))
    if chance.random() < 0.3 and len(entries) > 1:
        one, other = sorted(chance.sample(range(len(entries)), 2))
        if entries[one].station == entries[other].station:
            entries[one], entries[other] = entries[other], entries[one]
    return recording._replace(entries=entries)


def is_explained(recording):
    return not searched(recording)[1]


# What is told, and what is wrong with it.

class Pages:
    """What the pages say, in the place of the program."""

    def why(self, recording):
        return answer_to_why(recording_text(recording)).out.decode()

    def audit(self, recording):
        return is_explained(recording)


class Program:
    """The program, in a folder for its files."""

    def __init__(self, program, folder):
        self.program, self.path, self.made = program, Path(folder) / "made.dsrc", Path(folder) / "made.dsct"

    def run(self, *words):
        done = subprocess.run([self.program, *words], capture_output=True, text=True, timeout=60, check=False)
        return done.stdout

    def why(self, recording):
        self.path.write_bytes(recording_text(recording))
        return self.run("why", self.path)

    def audit(self, recording):
        """Whether the search finds a sequence, which the checker then takes."""
        self.path.write_bytes(recording_text(recording))
        explained = self.run("audit", self.path, self.made, "--force").startswith("explained ")
        if explained and not self.run("check", self.path, self.made).startswith("yes "):
            return None
        return explained


def told_of(recording, lines):
    """What lines tell: the sends that are missing, each with its first receipt, sender and place; the word of `repair`."""
    addresses = [station[:2] for station in recording.stations]
    missing, word = [], None
    for line in lines.splitlines():
        found = MISSING.fullmatch(line)
        if found:
            index, site, application, place = found.groups()
            sender = addresses.index((int(site), int(application)))
            missing.append((int(index), sender, None if place == "-" else int(place)))
        found = REPAIR.fullmatch(line)
        if found and int(found[1]) == len(missing):
            word = found[2]
    return missing, word


def places_for(recording, station):
    return [None] + [index for index, entry in enumerate(recording.entries) if entry.station == station]


def others(chance, recording, sends):
    """The sends at other places, and one of them twice."""
    choices = [places_for(recording, station) for station, _, _ in sends]
    if len(sends) <= 2:
        chosen = itertools.product(*choices)
    else:
        chosen = [[chance.choice(places) for places in choices] for _ in range(PLACES)]
    for places in chosen:
        moved = [(station, datagram, place) for (station, datagram, _), place in zip(sends, places)]
        yield moved
        if moved:
            station, datagram, _ = chance.choice(moved)
            yield moved + [(station, datagram, chance.choice(places_for(recording, station)))]


def fault_of(chance, recording, story, missing, word, asked):
    """What is wrong with the word of `repair`, or None."""
    sends = [(station, recording.entries[index].datagram, place) for index, station, place in missing]
    whole = with_sends(recording, sends)
    if is_explained(whole) != (word == "yes") or asked.audit(whole) != (word == "yes"):
        return f"`{word}`: with the sends the search says {is_explained(whole)}, audit {asked.audit(whole)}"
    if word == "yes":
        for left in range(len(sends)):
            fewer = with_sends(recording, sends[:left] + sends[left + 1 :])
            if is_explained(fewer) or asked.audit(fewer):
                return f"it is explained without send {left} too"
        return None
    if any(response_of(story.meanings[index]) == ABLE for index, _, _ in missing) != (word == "unknown"):
        return f"`{word}`, and whether one of the sends is an Able says otherwise"
    for other in others(chance, recording, sends) if word == "no" else ():
        if is_explained(with_sends(recording, other)):
            return f"it is explained with the sends behind {[place for _, _, place in other]}"
    return None


def judged(chance, recording, asked):
    """The word of `repair` for a recording, and what is wrong with what is told, or None."""
    story, told = Story(recording), told_of(recording, asked.why(recording))
    missing, word = told
    if missing != missing_sends(story):
        return word, f"missing are {missing_sends(story)}; told were {missing}"
    if word is None:
        return word, f"no `repair` with {len(missing)} sends"
    return word, fault_of(chance, recording, story, missing, word, asked)


def main():
    form = argparse.RawDescriptionHelpFormatter
    parser = argparse.ArgumentParser(description=__doc__, formatter_class=form)
    parser.add_argument("program", nargs="?", help="the program siman, built")
    parser.add_argument("--recordings", type=int, default=2000)
    parser.add_argument("--seed", type=int, default=1)
    given = parser.parse_args()
    chance, tried, wrong, words = random.Random(given.seed), 0, 0, Counter()
    with tempfile.TemporaryDirectory() as folder:
        asked = Program(given.program, folder) if given.program else Pages()
        while tried < given.recordings:
            recording = spoilt(chance, made_exercise(chance))
            if is_explained(recording):
                continue
            tried += 1
            word, fault = judged(chance, recording, asked)
            words[word] += 1
            if fault:
                wrong += 1
                print(f"wrong: recording {tried}: {fault}")
    counts = ", ".join(f"{count} {word}" for word, count in sorted(words.items(), key=str))
    print(f"{tried} tried, {wrong} wrong ({counts})")
    return 1 if wrong else 0


if __name__ == "__main__":
    sys.exit(main())
