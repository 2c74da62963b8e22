"""Scripts that are made up by SCRIPTS.md, and mistakes that are planted in them.

The bytes of a line are characters here, one each. What is planted may be no mistake now and then, as a tab in a comment
or a line that is moved to where it may stand; and one mistake may hide another.
"""

# What stands behind the name of a line.
FORMS = {
    "exercise": ["byte"], "station": ["address", "first", "tries", "wait"], "at": ["long"],
    "opening": ["address", "entity", "state"], "fixed": ["address", "word", "word"], "action": ["address", "word"],
    "deliver": ["word", "address"], "tick": ["address"], "tell": ["address", "short"],
    "do": ["address", "receiver", "word"], "query": ["address", "receiver", "word"],
    "set": ["address", "receiver", "word", "word"], "create": ["address", "receiver"], "remove": ["address", "receiver"],
    "start": ["address", "receiver"], "stop": ["address", "receiver"],
}  # fmt: skip
OUTFITS, ORDERS = ("opening", "fixed", "action"), ("create", "remove", "start", "stop", "do", "query", "set")
MOVES = ("at", "deliver", "tick", "tell", *ORDERS)
BITS = {"byte": 8, "short": 16, "word": 32, "long": 64}
# Words that are none of their kind.
WRONG = {
    **{kind: ["x", "-1", "+1", "1.5", "0x1", "1,2", "#1", "1_0", str(1 << bits), "9" * 30] for kind, bits in BITS.items()},
    "address": ["0:1", "1:0", "65535:1", "1:65535", "65536:1", "1", "1:", ":1", ":", "1:2:3", "a:b", "1;2", "1.2", "-1:2", "all", "#1:1"],
    "receiver": ["1:2", "1", "1:2:3:4", "65536:1:1", "1:65536:1", "1:1:65536", "1::2", "1:2:", ":1:2", "x:1:2", "1:1:-1", "all", "#"],
    "entity": ["0", "65534", "65535", "65536", "x", "1:1:7", "-7", "000"],
    "state": ["Stopped", "RUNNING", "stop", "run", "absent", "frozen", "1", "stopped,", "#"],
    "first": ["first=", "first=4294967296", "frist=1", "1", "first:1", "First=1", "tries=1", "first=-1", "first=1=1", "first"],
    "tries": ["tries=0", "tries=4294967296", "tries=x", "3", "wait=1", "tries=", "Tries=3", "tries3", "#"],
    "wait": ["wait=18446744073709551616", "wait=x", "wait=", "10", "wiat=1", "wait=-1", "wait==1", "#"],
}  # fmt: skip
LETTERS = "abcdefghijklmnopqrstuvwxyz"
FOREIGN = ["\xc3\xbc", "\xff", "\xc2\xa0", "\xe2\x80\x93", "\xe2\x80\x9c", "\x80", "\xef\xbb", "\xef\xbb\xbf"]
MOST_STATIONS, LARGEST_SCRIPT = 256, 1_048_576


def is_statement(line):
    return line != "" and not line.startswith("#")


def name_of(line):
    return line.split(" ")[0]


class Script:
    """A script that is made up: its lines, and what a further line needs to know of those."""

    def __init__(self, chance):
        self.chance, self.orders, self.last = chance, 0, {}
        count = MOST_STATIONS if chance.random() < 0.002 else chance.choice((1, 2, 2, 3, 4))
        addresses = {(self.one_of(1, 65534), self.one_of(1, 65534)) for _ in range(2 * count)}
        while len(addresses) < count:
            addresses.add((chance.randint(1, 65534), chance.randint(1, 65534)))
        self.addresses = sorted(chance.sample(sorted(addresses), count))
        self.lines = [self.line("exercise")]
        self.lines += [self.station_line(address) for address in self.addresses]
        self.lines += [self.line(chance.choice(OUTFITS)) for _ in range(chance.randint(0, 6))]
        self.lines += [self.line(chance.choice(MOVES)) for _ in range(chance.randint(0, 12))]
        for _ in range(chance.randint(0, 3)):
            comment = chance.choice(("", "", "# a comment", "#", "#\tanything: 1  2 ", "# moves\r"))
            self.lines.insert(chance.randint(0, len(self.lines)), comment)
        self.has_end = chance.random() < 0.9

    def one_of(self, least, largest):
        """A number of a range: its ends, a small one, or any."""
        chance = self.chance
        return chance.choice((least, largest, chance.randint(least, least + 9), chance.randint(least, largest)))

    def number(self, least, largest):
        return self.chance.choice(("", "", "", "", "0", "000")) + str(self.one_of(least, largest))

    def address(self):
        return "%d:%d" % self.chance.choice(self.addresses)

    def receiver(self):
        if self.chance.random() < 0.6:
            return f"{self.address()}:{self.chance.randint(0, 9)}"
        return ":".join(self.number(0, 65535) for _ in range(3))

    def word(self, kind):
        """A word of a kind that does not depend on the lines before."""
        if kind in BITS:
            return self.number(0, (1 << BITS[kind]) - 1)
        ranges = {"first": (0, 32), "tries": (1, 32), "wait": (0, 64)}
        if kind in ranges:
            least, bits = ranges[kind]
            return f"{kind}={self.number(least, (1 << bits) - 1)}"
        return {"address": self.address, "receiver": self.receiver, "state": self.state}[kind]()

    def state(self):
        return self.chance.choice(("stopped", "running"))

    def station_line(self, address):
        rules = [self.word(kind) for kind in ("first", "tries", "wait")] if self.chance.random() < 0.4 else []
        return " ".join(["station", "%d:%d" % address, *rules])

    def opening_line(self):
        """An entity above those with which its station opens so far; where the last one has come, another line."""
        address = self.address()
        last = self.last.get(address, 0)
        if last >= 65533:
            return self.line("fixed")
        self.last[address] = self.chance.choice((last + 1, last + 1, self.chance.randint(last + 1, 65533)))
        return f"opening {address} {self.last[address]} {self.state()}"

    def line(self, name):
        """A line that may stand behind the others of its part."""
        if name == "opening":
            return self.opening_line()
        if name == "deliver":
            if not self.orders:
                return self.line("create")
            return f"deliver {self.chance.randrange(self.orders)} {self.address()}"
        if name == "tell":
            return f"tell {self.address()} {self.number(1, 65533)}"
        self.orders += name in ORDERS
        more = ["word"] * self.chance.randint(0, 3) if name == "query" else []
        return " ".join([name, *(self.word(kind) for kind in FORMS[name] + more)])

    def text(self):
        return ("\n".join(self.lines) + "\n" * (self.has_end or not self.lines)).encode("latin-1")

    # Places.

    def place(self, fits=is_statement):
        """The place of a line, or None where none fits."""
        places = [at for at, line in enumerate(self.lines) if fits(line)]
        return self.chance.choice(places) if places else None

    def place_of(self, name):
        """The place of a line of a form, which is added where none is there."""
        at = self.place(lambda line: name_of(line) == name)
        if at is not None or name in ("exercise", "station"):
            return at
        line = self.line(name)
        if name_of(line) != name:  # what it needs comes first, if it can
            self.lines.append(line)
            line = self.line(name)
        if name_of(line) != name:
            return None
        at = len(self.lines)
        if name in OUTFITS:
            at = next((k for k, other in enumerate(self.lines) if name_of(other) in MOVES), at)
        self.lines.insert(at, line)
        return at

    def change(self, at, change):
        if at is not None:
            self.lines[at] = change(self.lines[at])

    def put_in(self, text, at=None):
        """A text at any place of a line."""
        at = self.place() if at is None else at
        if at is not None:
            line = self.lines[at]
            k = self.chance.randint(0, len(line))
            self.lines[at] = line[:k] + text + line[k:]

    def for_blank(self, text):
        """A text in the place of a blank."""
        at = self.place(lambda line: is_statement(line) and " " in line)
        if at is not None:
            line = self.lines[at]
            k = self.chance.choice([k for k, letter in enumerate(line) if letter == " "])
            self.lines[at] = line[:k] + text + line[k + 1 :]

    def replace_word(self, at, place, word):
        words = self.lines[at].split(" ")
        if 0 < place < len(words):
            words[place] = word
            self.lines[at] = " ".join(words)


# The mistakes: each plants one.

def tab(script):
    script.for_blank(script.chance.choice(("\t", "\t", " \t", "\t ")))


def tab_anywhere(script):
    script.put_in("\t")


def blanks(script):
    script.for_blank(" " * script.chance.randint(2, 4))


def blank_at_begin(script):
    script.change(script.place(), lambda line: " " * script.chance.choice((1, 1, 2)) + line)


def blank_at_end(script):
    script.change(script.place(), lambda line: line + " " * script.chance.choice((1, 1, 2)))


def return_at_end(script):
    script.change(script.place(), lambda line: line + "\r")


def returns_at_all_ends(script):
    script.lines = [line + "\r" for line in script.lines]


def carriage_return(script):
    script.put_in("\r")


def byte_order_mark(script):
    at = 0 if script.chance.random() < 0.7 else script.place(lambda line: True)
    if script.lines:
        script.change(at, lambda line: "\xef\xbb\xbf" + line)


def not_ascii(script):
    script.put_in(script.chance.choice(FOREIGN), script.place(lambda line: True))


def misspelt(word, chance):
    """A word with an edit."""
    at, letter = chance.randrange(len(word) + 1), chance.choice(LETTERS)
    return chance.choice((
        word[:at] + letter + word[at:], word[:at] + word[at + 1 :], word[:at] + letter + word[at + 1 :],
        word[:at] + word[at : at + 2][::-1] + word[at + 2 :],
    ))  # fmt: skip


def unknown_name(script):
    """A name with an edit or two, in other letters, or another word."""
    chance, name = script.chance, script.chance.choice(list(FORMS))
    at = script.place_of(name)
    wrong = chance.choice((name.capitalize(), name.upper(), *[misspelt(name, chance)] * 4, misspelt(misspelt(name, chance), chance), "foo"))
    if at is not None and wrong:
        script.lines[at] = " ".join([wrong, *script.lines[at].split(" ")[1:]])


def too_few(script):
    at = script.place_of(script.chance.choice(list(FORMS)))
    if at is not None:
        words = script.lines[at].split(" ")
        if words[0] == "station":
            words = [*words[:2], *(script.word(kind) for kind in FORMS["station"][1:])]
        script.lines[at] = " ".join(words[: script.chance.randint(1, max(len(words) - 1, 1))])


def too_many(script):
    at = script.place_of(script.chance.choice(list(FORMS)))
    if at is not None and name_of(script.lines[at]) == "station":
        script.lines[at] = " ".join([*script.lines[at].split(" ")[:2], *(script.word(kind) for kind in FORMS["station"][1:])])
    script.change(at, lambda line: " ".join([line, *script.chance.choices(("1", "x", "1:1", "stopped"), k=script.chance.randint(1, 2))]))


def comment_behind(script):
    at = script.place_of(script.chance.choice(list(FORMS)))
    script.change(at, lambda line: line + script.chance.choice((" # why", " #", " #why not", " # a # b")))


def wrong_word(script):
    """A word that is none of its kind."""
    chance, name = script.chance, script.chance.choice(list(FORMS))
    at, place = script.place_of(name), chance.randrange(len(FORMS[name]))
    if at is None:
        return
    if name == "station" and place > 0:
        words = script.lines[at].split(" ")[:2]
        script.lines[at] = " ".join([*words, *(script.word(kind) for kind in FORMS[name][1:])])
    further = name == "query" and chance.random() < 0.3
    kind = FORMS[name][place]
    if further:
        script.lines[at] += " " + chance.choice(WRONG["word"])
    else:
        script.replace_word(at, place + 1, chance.choice(WRONG[kind]))


def station_swapped(script):
    places = [at for at, line in enumerate(script.lines) if name_of(line) == "station"]
    if len(places) > 1:
        one, other = script.chance.sample(places, 2)
        script.lines[one], script.lines[other] = script.lines[other], script.lines[one]


def again(script, name):
    """A line once more, behind itself."""
    at = script.place_of(name)
    if at is not None:
        script.lines.insert(at + 1, script.lines[at])


def station_again(script):
    again(script, "station")


def opening_again(script):
    again(script, "opening")


def opening_swapped(script):
    """Two openings of one station the other way round."""
    for _ in range(2):
        script.place_of("opening")
    places = [at for at, line in enumerate(script.lines) if name_of(line) == "opening"]
    if not places:
        return
    one = script.chance.choice(places)
    address = script.lines[one].split(" ")[1:2]
    same = [at for at in places if at != one and script.lines[at].split(" ")[1:2] == address]
    if not same:
        script.lines.insert(one + 1, script.lines[one])
        return
    other = script.chance.choice(same)
    script.lines[one], script.lines[other] = script.lines[other], script.lines[one]


def out_of_part(script):
    """A line of any form at another place."""
    at = script.place_of(script.chance.choice(("exercise", "station", *OUTFITS, *OUTFITS, "at", "tick")))
    if at is not None:
        line = script.lines.pop(at)
        script.lines.insert(script.chance.randint(0, len(script.lines)), line)


def second_exercise(script):
    script.lines.insert(script.chance.randint(0, len(script.lines)), script.line("exercise"))


def unknown_station(script):
    """Another address in the place of a known one."""
    name = script.chance.choice([name for name in FORMS if "address" in FORMS[name] and name != "station"])
    at = script.place_of(name)
    address = f"{script.number(1, 65534)}:{script.number(1, 65534)}"
    if at is not None:
        script.replace_word(at, FORMS[name].index("address") + 1, address)


def line_gone(script, name):
    at = script.place(lambda line: name_of(line) == name)
    if at is not None:
        del script.lines[at]


def station_gone(script):
    line_gone(script, "station")


def exercise_gone(script):
    line_gone(script, "exercise")


def all_gone(script):
    """All lines but comments, and perhaps the exercise line and those of clocks."""
    kept = script.chance.choice(((), (), ("exercise",), ("exercise", "at")))
    script.lines = [line for line in script.lines if not is_statement(line) or name_of(line) in kept]


def stations_too_many(script):
    """More stations than there may be, behind the last."""
    places = [at for at, line in enumerate(script.lines) if name_of(line) == "station"]
    if places and script.addresses[-1][0] < 65534:
        more = MOST_STATIONS + 1 - len(places) + script.chance.randint(0, 1)
        site = script.addresses[-1][0] + 1
        script.lines[places[-1] + 1 : places[-1] + 1] = [f"station {site}:{number}" for number in range(1, more + 1)]


def too_long(script):
    script.lines.insert(script.chance.randint(0, len(script.lines)), "#" * (LARGEST_SCRIPT + 1 - len(script.text())))


# Each mistake, and how often it is planted beside the others.
MISTAKES = {
    tab: 40, tab_anywhere: 20, blanks: 40, blank_at_begin: 30, blank_at_end: 30, return_at_end: 30, returns_at_all_ends: 10,
    carriage_return: 20, byte_order_mark: 20, not_ascii: 40, unknown_name: 120, too_few: 120, too_many: 80,
    comment_behind: 80, wrong_word: 240, station_swapped: 40, station_again: 20, opening_again: 20, opening_swapped: 40,
    out_of_part: 100, second_exercise: 30, unknown_station: 60, station_gone: 20, exercise_gone: 20, all_gone: 10,
    stations_too_many: 3, too_long: 1,
}  # fmt: skip


def spoilt_script(chance):
    """A script with one to three mistakes, and which were planted."""
    script = Script(chance)
    planted = chance.choices(list(MISTAKES), weights=MISTAKES.values(), k=chance.choice((1, 1, 2, 3)))
    planted.sort(key=lambda mistake: mistake is too_long)  # it fills up what the others leave
    for mistake in planted:
        mistake(script)
    return script.text(), [mistake.__name__.replace("_", " ") for mistake in planted]
