"""Why a text is no script, and a line no order for a station: the first reason, with its line, its column and its text.

SCRIPTS.md says which reasons there are and in which order they come; their texts to the byte, and which name is near, say
the definitions in crates/siman_scripts/specs (ReasonText.antt, Nearest.antt).
"""
import re
from typing import NamedTuple

from .plan import read_source
from .scripts import LARGEST_SCRIPT

__all__ = ["SCRIPT_FORMS", "all_reasons", "line_of_move", "reason_of_command", "reason_of_script", "warning_of_script"]

MOST_STATIONS = 256


class Kind(NamedTuple):
    """What a word is to be: its name, how it is asked for, and which numbers it has, by the key before it, if it has one.
    A state has none."""

    name: str
    told: str
    ranges: list
    key: str = ""

    def fits(self, word):
        if not self.ranges:
            return word in ("stopped", "running")
        parts = word[len(self.key) :].split(":")
        if not word.startswith(self.key) or len(parts) != len(self.ranges):
            return False
        return all(number(part) in allowed for part, allowed in zip(parts, self.ranges))


class Form(NamedTuple):
    """A form of line: how it is told, its part, what its words are to be, and with how many of them it may end, if not
    with all of them. In the last place of a query further words may stand."""

    told: str
    part: int
    kinds: list
    least: int = 0
    goes_on: bool = False

    def kind_at(self, place):
        """What the word at a place behind the name is to be; nothing where the line has to end."""
        if place < len(self.kinds):
            return self.kinds[place]
        return self.kinds[-1] if self.goes_on else None

    def may_end(self, words):
        return words == self.least > 0 or words >= len(self.kinds)


class Reason(NamedTuple):
    """The first reason: its line and its column, both from 1, or no column where the whole text is meant; its text; and
    which of all reasons it is, in words for a count."""

    line: int
    column: int
    text: str
    which: str

    def told(self):
        """The text with its place."""
        return f"line {self.line}, column {self.column}: {self.text}" if self.column else self.text


def number(word):
    """The number that decimal digits spell; -1 of what is none. No range goes so far as 21 digits."""
    digits = word.lstrip("0")
    if not re.fullmatch("[0-9]+", word) or len(digits) > 20:
        return -1
    return int(digits or "0")


def up_to(largest):
    return Kind(f"number to {largest}", f"a number is expected, from 0 to {largest}", [range(largest + 1)])


ONE, TWO, FOUR, EIGHT = (up_to((1 << bits) - 1) for bits in (8, 16, 32, 64))
ADDRESS = Kind("address", "a station address S:A is expected, each from 1 to 65534", [range(1, 65535)] * 2)
RECEIVER = Kind("receiver", "an entity S:A:E is expected, each from 0 to 65535", [range(65536)] * 3)
ENTITY = Kind("entity", "an entity number is expected, from 1 to 65533", [range(1, 65534)])
STATE = Kind("state", "stopped or running is expected", [])
FIRST = Kind("first", "first=F is expected, F from 0 to 4294967295", [range(1 << 32)], "first=")
TRIES = Kind("tries", "tries=T is expected, T from 1 to 4294967295", [range(1, 1 << 32)], "tries=")
WAIT = Kind("wait", "wait=W is expected, W from 0 to 18446744073709551615", [range(1 << 64)], "wait=")
# By their names, in the order in which the nearest is looked for.
SCRIPT_FORMS = {
    "exercise": Form("exercise X", 1, [ONE]),
    "station": Form("station S:A, or station S:A first=F tries=T wait=W", 2, [ADDRESS, FIRST, TRIES, WAIT], least=1),
    "at": Form("at N", 4, [EIGHT]),
    "opening": Form("opening S:A E stopped|running", 3, [ADDRESS, ENTITY, STATE]),
    "fixed": Form("fixed S:A ID VALUE", 3, [ADDRESS, FOUR, FOUR]),
    "action": Form("action S:A ID", 3, [ADDRESS, FOUR]),
    "deliver": Form("deliver K S:A", 4, [FOUR, ADDRESS]),
    "tick": Form("tick S:A", 4, [ADDRESS]),
    "tell": Form("tell S:A E", 4, [ADDRESS, TWO]),
    "do": Form("do S:A S:A:E ACTION", 4, [ADDRESS, RECEIVER, FOUR]),
    "query": Form("query S:A S:A:E ID ..", 4, [ADDRESS, RECEIVER, FOUR], goes_on=True),
    "set": Form("set S:A S:A:E ID VALUE", 4, [ADDRESS, RECEIVER, FOUR, FOUR]),
    "create": Form("create S:A S:A:E", 4, [ADDRESS, RECEIVER]),
    "remove": Form("remove S:A S:A:E", 4, [ADDRESS, RECEIVER]),
    "start": Form("start S:A S:A:E", 4, [ADDRESS, RECEIVER]),
    "stop": Form("stop S:A S:A:E", 4, [ADDRESS, RECEIVER]),
}
MARK = "a byte order mark: save the file as plain ASCII, without one"
NOT_ASCII = "a character that is not ASCII: write plain letters, digits and signs"
TAB = "a tab: write one blank between two words"
RETURN = "a carriage return inside the line: remove it"
RETURN_AT_END = "the line ends with a carriage return: save the file with Unix line ends"
BLANK_AT_BEGIN = "the line begins with a blank: remove it"
BLANK_AT_END = "the line ends with a blank: remove it"
TWO_BLANKS = "two blanks in a row: write one"
COMMENT = "a comment behind a line: put it on a line of its own"
UNKNOWN = "no line begins with this word"
SECOND_EXERCISE = "a second exercise line: a script has one, the first"
BEFORE_EXERCISE = "the exercise line has to come before this one"
LATE_STATION = "a station line has to come before all lines of other kinds but the exercise line"
LATE_OUTFIT = "opening, fixed and action lines have to come before all at lines and moves"
TOO_MANY_STATIONS = "a script has at most 256 stations"
NO_EXERCISE = "the script ends without an exercise line"
NO_STATION = "the script ends without a station line"
TOO_LONG = "the script has more than 1048576 bytes"


# A line by itself. Its bytes are characters, one each, so columns count bytes. A reason is a column, a text and which.

def foreign_reason(line):
    """The first byte that is not ASCII."""
    at = next((at for at, character in enumerate(line) if ord(character) > 127), None)
    if at is None:
        return None
    return (at + 1, MARK, "bytes: byte order mark") if line[at : at + 3] == "\xef\xbb\xbf" else (at + 1, NOT_ASCII, "bytes: not ASCII")


def spacing_reason(line):
    """The first tab, carriage return or blank too many."""
    for at, character in enumerate(line):
        is_last = at == len(line) - 1
        if character == "\t":
            return at + 1, TAB, "bytes: tab"
        if character == "\r":
            return at + 1, *((RETURN_AT_END, "bytes: carriage return at end") if is_last else (RETURN, "bytes: carriage return"))
        if character == " " and at == 0:
            return 1, BLANK_AT_BEGIN, "bytes: blank at begin"
        if character == " " and line[at - 1] == " ":
            return at + 1, TWO_BLANKS, "bytes: two blanks"
        if character == " " and is_last:
            return at + 1, BLANK_AT_END, "bytes: blank at end"
    return None


def edits(word, name):
    """How many letters have to be added, left out, changed or swapped with the next to make a name of a word."""
    above, row = [], list(range(len(name) + 1))
    for i, letter in enumerate(word, 1):
        rows, row = (above, row), [i]
        for j, other in enumerate(name, 1):
            least = min(rows[1][j] + 1, row[j - 1] + 1, rows[1][j - 1] + (letter != other))
            if i > 1 and j > 1 and (letter, word[i - 2]) == (name[j - 2], other):
                least = min(least, rows[0][j - 2] + 1)
            row.append(least)
        above = rows[1]
    return row[-1]


def nearest(word):
    """The name that is meant by a word, or None: at most one edit away, or two from a name of five letters or more."""
    word = re.sub("[A-Z]", lambda letter: letter[0].lower(), word)
    if word in SCRIPT_FORMS:
        return word
    away = {name: edits(word, name) for name in SCRIPT_FORMS if abs(len(name) - len(word)) <= 2}
    far = [name for name, count in away.items() if count <= 2 and len(name) >= 5]
    return next(iter([name for name, count in away.items() if count <= 1] + far), None)


def words_reason(line):
    """Of its words, from left to right; a blank stands between two of them."""
    name, *words = line.split(" ")
    if name not in SCRIPT_FORMS:
        near = nearest(name)
        return 1, UNKNOWN + (f": is {near} meant?" if near else ""), f"{near}: meant" if near else "bytes: unknown name"
    form, column = SCRIPT_FORMS[name], len(name) + 2
    for place, word in enumerate(words):
        kind = form.kind_at(place)
        if kind is None or not kind.fits(word):
            if form.may_end(place) and word.startswith("#"):
                return column, COMMENT, f"{name}: comment"
            if kind is None:
                return column, f"a word too many: the line is {form.told}", f"{name}: too many"
            return column, kind.told, f"{name}: not {kind.name}"
        column += len(word) + 1
    if form.may_end(len(words)):
        return None
    kind = form.kind_at(len(words))
    return len(line) + 1, f"the line ends, and {kind.told}: {form.told}", f"{name}: lacks {kind.name}"


def line_reason(line):
    """Why a line by itself is refused, or None."""
    foreign = foreign_reason(line)
    if foreign or not line or line.startswith("#"):
        return foreign
    return spacing_reason(line) or words_reason(line)


# A line behind others.

class Before:
    """What the lines before say: the part in which the last of them stands, and for each station, by its address, the
    entity with which it opens last."""

    def __init__(self):
        self.part, self.stations = 0, {}

    def part_reason(self, name, part):
        """Of a line that comes before the exercise line, or late for its part."""
        if name == "exercise":
            return (SECOND_EXERCISE, "order: second exercise") if self.part else None
        if not self.part:
            return BEFORE_EXERCISE, "order: before the exercise"
        if part < self.part:
            return (LATE_STATION, "order: late station") if part == 2 else (LATE_OUTFIT, "order: late outfit")
        return None

    def station_reason(self, address):
        last = max(self.stations, default=(0, 0))
        if len(self.stations) == MOST_STATIONS:
            return 0, TOO_MANY_STATIONS, "order: 257 stations"
        if address <= last:
            above = "the address has to be above {}:{}, that of the station before: sort the station lines"
            return 1, above.format(*last), "order: station not above"
        self.stations[address] = 0
        return None

    def named_reason(self, name, words):
        """Of a line that names a station: the word that is wrong, from 0, a text and which."""
        place = 2 if name == "deliver" else 1
        address = tuple(map(number, words[place].split(":")))
        if name == "station":
            return self.station_reason(address)
        if address not in self.stations:
            return place, "no line says station {}:{}: add one".format(*address), "order: unknown station"
        if name == "opening":
            last, entity = self.stations[address], number(words[2])
            if entity <= last:
                above = f"the entity has to be above {last}, the one before at this station: sort the opening lines"
                return 2, above, "order: entity not above"
            self.stations[address] = entity
        return None

    def reason(self, line):
        """Why a line that reads well is refused behind them; else it is one of them."""
        if not line or line.startswith("#"):
            return None
        words = line.split(" ")
        part = SCRIPT_FORMS[words[0]].part
        late = self.part_reason(words[0], part)
        found = (0, *late) if late else None if words[0] in ("exercise", "at") else self.named_reason(words[0], words)
        if found is None:
            self.part = part
            return None
        place, text, which = found
        return len(" ".join([*words[:place], ""])) + 1, text, which


def lines_of(text):
    lines = text.decode("latin-1").split("\n")
    return lines if lines[-1] else lines[:-1]


HINT = "; siman plan reads it"


def reason_of_script(text):
    """The first reason by which a text is no script, with what is told behind it where `plan` reads the text; or None."""
    reason = bare_reason_of_script(text)
    is_source = reason is not None and read_source(text)[1] is None
    return reason._replace(text=reason.text + HINT) if is_source else reason


def bare_reason_of_script(text):
    """The first reason by which a text is no script, or None."""
    if len(text) > LARGEST_SCRIPT:
        return Reason(0, 0, TOO_LONG, "text: too long")
    lines, before = lines_of(text), Before()
    for number_of_line, line in enumerate(lines, 1):
        found = line_reason(line) or before.reason(line)
        if found:
            return Reason(number_of_line, *found)
    if not before.part:
        return Reason(len(lines) + 1, 0, NO_EXERCISE, "text: no exercise")
    return None if before.stations else Reason(len(lines) + 1, 0, NO_STATION, "text: no station")


def reason_of_command(line):
    """Why a line that is typed for a station is no order, with its column, or None."""
    line = line.decode("latin-1")
    name = line.split(" ")[0]
    if name == "deliver" or name in SCRIPT_FORMS and SCRIPT_FORMS[name].part < 4:
        return f"column 1: {name} is no order for a station"
    found = line_reason(line)
    return f"column {found[0]}: {found[1]}" if found else None


ORDERS = ("do", "query", "set", "create", "remove", "start", "stop")
EVERY = 65535  # every site, or every application of one


def warning_of_script(text):
    """The warning of the first order of a script, which is read well, for a station that it has not; or nothing."""
    lines = [line.split(" ") for line in lines_of(text)]
    stations = {tuple(map(int, words[1].split(":"))) for words in lines if words[0] == "station"}
    for at, words in enumerate(lines, 1):
        if words[0] in ORDERS:
            site, application, _ = map(int, words[2].split(":"))
            meant = {one for one in stations if one[0] == site and application in (one[1], EVERY)}
            if site != EVERY and not meant:
                return f"warning: line {at}: the script has no station {site}:{application}, so nobody gets this order\n"
    return ""


def line_of_move(text, place):
    """The number of the line that says the move of this number, from 0, of a script that is read well."""
    names = [line.split(" ")[0] for line in lines_of(text)]
    moves = [at for at, name in enumerate(names, 1) if name != "at" and name in SCRIPT_FORMS and SCRIPT_FORMS[name].part == 4]
    return moves[place] if place < len(moves) else None


def all_reasons():
    """Which reasons there are, each once, in words for a count."""
    found = ["byte order mark", "not ASCII", "tab", "carriage return", "carriage return at end", "blank at begin"]
    found = [f"bytes: {which}" for which in [*found, "blank at end", "two blanks", "unknown name"]]
    for name, form in SCRIPT_FORMS.items():
        found += [f"{name}: meant", f"{name}: comment", *([] if form.goes_on else [f"{name}: too many"])]
        found += [f"{name}: not {kind.name}" for kind in form.kinds]
        found += [f"{name}: lacks {kind.name}" for place, kind in enumerate(form.kinds) if not form.may_end(place)]
    order = ["second exercise", "before the exercise", "late station", "late outfit", "257 stations", "station not above"]
    found += [f"order: {which}" for which in [*order, "entity not above", "unknown station"]]
    return list(dict.fromkeys([*found, "text: no exercise", "text: no station", "text: too long"]))
