"""Scripts, by SCRIPTS.md: the first line that is refused."""
import re

from .files import ANY_FOUR, ANY_ONE, ANY_TWO, ENTITIES, MOST_STATIONS, PARTS_OF_ADDRESSES

LARGEST_SCRIPT = 1_048_576
ANY_EIGHT, TRIES = range(1 << 64), range(1, 1 << 32)
# The words of each form after its name, and its part.
ADDRESS, RECEIVER, STATE = "address", "receiver", "state"
FORMS = {
    "exercise": (1, [[ANY_ONE]]),
    "station": (2, [[ADDRESS], [ADDRESS, ("first=", ANY_FOUR), ("tries=", TRIES), ("wait=", ANY_EIGHT)]]),
    "opening": (3, [[ADDRESS, ENTITIES, STATE]]),
    "fixed": (3, [[ADDRESS, ANY_FOUR, ANY_FOUR]]),
    "action": (3, [[ADDRESS, ANY_FOUR]]),
    "at": (4, [[ANY_EIGHT]]),
    **{name: (4, [[ADDRESS, RECEIVER]]) for name in ("create", "remove", "start", "stop")},
    "do": (4, [[ADDRESS, RECEIVER, ANY_FOUR]]),
    "set": (4, [[ADDRESS, RECEIVER, ANY_FOUR, ANY_FOUR]]),
    "deliver": (4, [[ANY_FOUR, ADDRESS]]),
    "tick": (4, [[ADDRESS]]),
    "tell": (4, [[ADDRESS, ANY_TWO]]),
}


class Refused(Exception):
    """A line is refused: the name of the fault."""


def numbers(word, ranges):
    """The numbers of a word, one for each range and colons between, or a refusal."""
    parts = word.split(":")
    if len(parts) != len(ranges) or not all(re.fullmatch("[0-9]+", part) for part in parts):
        raise Refused("bad-line")
    read = tuple(map(int, parts))
    if not all(value in allowed for value, allowed in zip(read, ranges)):
        raise Refused("bad-line")
    return read


def read_word(word, form):
    if form == ADDRESS:
        return numbers(word, [PARTS_OF_ADDRESSES] * 2)
    if form == RECEIVER:
        return numbers(word, [ANY_TWO] * 3)
    if form == STATE:
        if word not in ("stopped", "running"):
            raise Refused("bad-line")
        return word
    if isinstance(form, tuple):
        if not word.startswith(form[0]):
            raise Refused("bad-line")
        return numbers(word[len(form[0]) :], [form[1]])
    return numbers(word, [form])


def read_line(line):
    """The name of a line's form, its part, and what its words say; the address first, if it has one."""
    name, *words = line.split(" ")
    part, forms = FORMS.get(name, (4, [[ADDRESS, RECEIVER] + [ANY_FOUR] * max(len(words) - 2, 1)]))
    forms = [form for form in forms if len(form) == len(words)]
    if name not in FORMS and name != "query" or not forms:
        raise Refused("bad-line")
    read = [read_word(word, form) for word, form in zip(words, forms[0])]
    return name, part, read[::-1] if name == "deliver" else read


class Draft:
    """What the lines so far say."""

    def __init__(self):
        self.part, self.stations = 0, {}

    def take(self, line):
        name, part, words = read_line(line)
        if part < self.part or (self.part == 0) != (part == 1):
            raise Refused("bad-line")
        if name == "station":
            if len(self.stations) == MOST_STATIONS or self.stations and words[0] <= max(self.stations):
                raise Refused("bad-line")
            self.stations[words[0]] = 0
        elif name not in ("exercise", "at"):
            if words[0] not in self.stations:
                raise Refused("unknown-station")
            if name == "opening":
                if words[1][0] <= self.stations[words[0]]:
                    raise Refused("bad-line")
                self.stations[words[0]] = words[1][0]
        self.part = part


def script_fault(text):
    """What is told of the first line that is refused, or None."""
    if len(text) > LARGEST_SCRIPT:
        return "bad-line at line 0"
    lines = text.split(b"\n")
    lines = lines if lines[-1] else lines[:-1]
    draft = Draft()
    for number, line in enumerate(lines, 1):
        try:
            if not line.isascii():
                raise Refused("bad-line")
            if line and not line.startswith(b"#"):
                draft.take(line.decode())
        except Refused as fault:
            return f"{fault} at line {number}"
    return None if draft.stations else f"bad-line at line {len(lines) + 1}"
