"""How a script is mended as a reason says, by SCRIPTS.md: the page says of each text what to do.

Nothing is looked at but the text of the reason, the line and the column that it names, and the lines before.
"""
import re

from pages.reasons import HINT

from .made_scripts import MOST_STATIONS, MOVES, OUTFITS, name_of

PLACED = re.compile(r"line (\d+), column (\d+): (.*)", re.DOTALL)
MARK = "\xef\xbb\xbf"


def address_of(line):
    """The address that a line `station` or `opening` names."""
    return tuple(map(int, line.split(" ")[1].split(":")))


def shown(address):
    return "%d:%d" % address


class Mending:
    """A script that is mended: its lines, the line and the column that a reason names, from 1, and the number of the line
    that was mended, where it then stands."""

    def __init__(self, text, chance):
        self.chance, self.has_end = chance, text.endswith(b"\n")
        self.lines = text.decode("latin-1").split("\n")
        if not self.lines[-1]:
            self.lines.pop()
        self.number = self.column = 0

    def text(self):
        return ("\n".join(self.lines) + "\n" * (self.has_end and self.lines != [])).encode("latin-1")

    @property
    def line(self):
        return self.lines[self.number - 1]

    @line.setter
    def line(self, text):
        self.lines[self.number - 1] = text

    def split(self):
        """What stands before the column, and from it on."""
        return self.line[: self.column - 1], self.line[self.column - 1 :]

    def before(self, *names):
        """The places of the lines of these forms that stand before the line."""
        return [at for at, line in enumerate(self.lines[: max(self.number - 1, 0)]) if name_of(line) in names]

    def addresses(self):
        return [address_of(self.lines[at]) for at in self.before("station")]

    def put_before(self, at, line):
        """A further line at a place before the line, or where the text ends."""
        self.lines.insert(at, line)
        self.number += 1

    def leave_out(self):
        del self.lines[self.number - 1]

    def move_up(self, at):
        self.lines.insert(at, self.lines.pop(self.number - 1))
        self.number = at + 1

    # By itself.

    def remove_marks(self):
        before, behind = self.split()
        self.line = before + behind.removeprefix(MARK)

    def write_ascii(self):
        before, behind = self.split()
        self.line = before + re.sub("^[\x80-\xff]+", "", behind)

    def write_blank(self):
        """One blank, where it stands between two words."""
        before, behind = self.split()
        is_between = before and not before.endswith(" ") and behind[1:2] not in ("", " ", "\t")
        self.line = before + " " * bool(is_between) + behind[1:]

    def remove_one(self):
        before, behind = self.split()
        self.line = before + behind[1:]

    def unix_ends(self):
        self.lines = [line.removesuffix("\r") for line in self.lines]

    def comment_alone(self):
        before, behind = self.split()
        self.line = before[:-1]
        self.put_before(self.number - 1, behind)

    def pass_over(self):
        """What stands there is unknown, and no name is told: it is made a comment."""
        self.line = "# " + self.line

    def name(self, name):
        self.line = " ".join([name, *self.line.split(" ")[1:]])

    def remove_word(self):
        before, behind = self.split()
        self.line = before[:-1] + behind[len(behind.split(" ")[0]) :]

    def replace(self, word):
        before, behind = self.split()
        self.line = before + word + behind[len(behind.split(" ")[0]) :]

    def known_address(self):
        """An address: of a new station one above those before, else one that is known, if one is."""
        addresses = self.addresses()
        if name_of(self.line) != "station":
            return shown(self.chance.choice(addresses or [(1, 1)]))
        site, application = addresses[-1] if addresses else (1, 0)
        return shown((site, application + 1) if application < 65534 else (min(site + 1, 65534), 1))

    def next_entity(self):
        """An entity above those with which the station opens so far."""
        own = self.line.split(" ")[1]
        same = [self.lines[at].split(" ") for at in self.before("opening")]
        last = max([int(words[2]) for words in same if address_of(" ".join(words)) == address_of(f"- {own}")], default=0)
        return str(min(last + 1, 65533))

    def wanted(self, told):
        """A word that is as it is told."""
        found = re.fullmatch(r"a number is expected, from 0 to (\d+)", told)
        if found:
            return str(self.chance.choice((0, int(found[1]), self.chance.randint(0, int(found[1])))))
        found = re.fullmatch(r"((?:first|tries|wait)=)([FTW]) is expected, \2 from (\d+) to (\d+)", told)
        if found:
            least, largest = int(found[3]), int(found[4])
            return found[1] + str(self.chance.choice((least, largest, self.chance.randint(least, largest))))
        if told == "an entity S:A:E is expected, each from 0 to 65535":
            return ":".join(str(self.chance.choice((0, 7, 65535))) for _ in range(3))
        return {
            "a station address S:A is expected, each from 1 to 65534": self.known_address,
            "an entity number is expected, from 1 to 65533": self.next_entity,
            "stopped or running is expected": lambda: self.chance.choice(("stopped", "running")),
        }[told]()

    def complete(self, told, form):
        """The words that the whole line has behind those that are there: the first as it is told, the others so as they
        may be whatever their range."""
        count = len(self.line.split(" "))
        form = form.split(", or ")[-1 if count > 2 else 0]
        self.line += " " + self.wanted(told)
        for word in form.split(" ")[count + 1 :]:
            plain = {"S:A": self.known_address, "E": self.next_entity, "stopped|running": lambda: "running"}
            symbols = {"S:A:E": "1:1:7", "first=F": "first=1", "tries=T": "tries=1", "wait=W": "wait=1"}
            if word != "..":
                is_opening = word != "E" or name_of(self.line) == "opening"
                self.line += " " + (plain[word]() if word in plain and is_opening else symbols.get(word, "1"))

    # Behind other lines.

    def exercise_first(self):
        """The exercise line comes to the begin: the first that stands behind the line, if one does that is right."""
        behind = range(self.number, len(self.lines))
        right = [at for at in behind if re.fullmatch("exercise [0-9]+", self.lines[at]) and int(self.lines[at].split(" ")[1]) < 256]
        self.put_before(0, self.lines.pop(right[0]) if right else "exercise 1")

    def station_up(self):
        """The station line comes to its place among those before; or it goes, where its address is there or no room is."""
        address, places = address_of(self.line), self.before("station")
        if address in self.addresses() or len(places) >= MOST_STATIONS:
            self.leave_out()
            return
        above = [at for at in places if address_of(self.lines[at]) > address]
        self.move_up(above[0] if above else self.before("exercise", "station")[-1] + 1)

    def outfit_up(self):
        """The line comes to the end of its part; an opening to its place among those of its station, or it goes, where its
        entity is there."""
        at = min(self.before(*MOVES), default=self.number - 1)
        if name_of(self.line) == "opening":
            address, entity = address_of(self.line), int(self.line.split(" ")[2])
            same = [at for at in self.before("opening") if address_of(self.lines[at]) == address]
            entities = {at: int(self.lines[at].split(" ")[2]) for at in same}
            if entity in entities.values():
                self.leave_out()
                return
            at = min([at, *(at for at, other in entities.items() if other > entity)])
        self.move_up(at)

    def add_station(self, site, application):
        """A line for the station comes to its place; or the address is corrected, where no room is."""
        address, places = (int(site), int(application)), self.before("station")
        if len(places) >= MOST_STATIONS:
            self.replace(self.known_address())
            return
        above = [at for at in places if address_of(self.lines[at]) > address]
        below = self.before("exercise", "station")
        self.put_before(above[0] if above else below[-1] + 1, f"station {shown(address)}")

    def first_station(self):
        at = next(at for at, line in enumerate(self.lines) if name_of(line) == "exercise")
        self.put_before(at + 1, "station 1:1")

    def add_exercise(self):
        self.put_before(len(self.lines), "exercise 1")

    def shorten(self):
        self.lines = [line for line in self.lines if not line.startswith("#")]


# What is done, by the text of a reason.
KIND = (
    r"(a number is expected, from 0 to \d+|a station address S:A is expected, each from 1 to 65534"
    r"|an entity S:A:E is expected, each from 0 to 65535|an entity number is expected, from 1 to 65533"
    r"|stopped or running is expected|first=F is expected, F from \d+ to \d+|tries=T is expected, T from \d+ to \d+"
    r"|wait=W is expected, W from \d+ to \d+)"
)
CURES = [
    (r"a byte order mark: .*", Mending.remove_marks),
    (r"a character that is not ASCII: .*", Mending.write_ascii),
    (r"a tab: .*", Mending.write_blank),
    (r"two blanks in a row: .*", Mending.remove_one),
    (r"the line begins with a blank: .*", Mending.remove_one),
    (r"the line ends with a blank: .*", Mending.remove_one),
    (r"the line ends with a carriage return: .*", Mending.unix_ends),
    (r"a carriage return inside the line: .*", Mending.remove_one),
    (r"a comment behind a line: .*", Mending.comment_alone),
    (r"no line begins with this word", Mending.pass_over),
    (r"no line begins with this word: is ([a-z]+) meant\?", Mending.name),
    (rf"the line ends, and {KIND}: (.*)", Mending.complete),
    (r"a word too many: the line is .*", Mending.remove_word),
    (KIND, lambda mending, told: mending.replace(mending.wanted(told))),
    (r"a second exercise line: .*", Mending.leave_out),
    (r"the exercise line has to come before this one", Mending.exercise_first),
    (r"a station line has to come before .*", Mending.station_up),
    (r"opening, fixed and action lines have to come before .*", Mending.outfit_up),
    (r"a script has at most 256 stations", Mending.leave_out),
    (r"the address has to be above \d+:\d+, .*", Mending.station_up),
    (r"the entity has to be above \d+, .*", Mending.outfit_up),
    (r"no line says station (\d+):(\d+): add one", Mending.add_station),
    (r"the script ends without an exercise line", Mending.add_exercise),
    (r"the script ends without a station line", Mending.first_station),
    (r"the script has more than 1048576 bytes", Mending.shorten),
]


def mended(text, told, chance):
    """The text mended as it is told, and the number of the line that was mended, where it then stands; or None, where what
    is told says of no line what to do."""
    mending, found = Mending(text, chance), PLACED.fullmatch(told.removesuffix(HINT))
    if found:
        mending.number, mending.column = int(found[1]), int(found[2])
        told = found[3]
        if not 0 < mending.number <= len(mending.lines) or mending.column > len(mending.line) + 1:
            return None
    for form, cure in CURES:
        matched = re.fullmatch(form, told, re.DOTALL)
        if matched:
            cure(mending, *matched.groups())
            return mending.text(), mending.number
    return None
