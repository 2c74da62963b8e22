"""Sources for `plan` that are made up, and mistakes that are planted in them.

A source is made beside its course, so that its lines can be read and its moves be made. Until it is spelled, each of its
lines is a list of words. What is planted may be no mistake now and then, and one mistake may hide another. A byte that is
not UTF-8 is a lone surrogate here, as Python has it.
"""
import re

import pages
from cases.made_scripts import WRONG

ADDRESSES = ["1:1", "1:2", "2:3", "2:4", "65534:65534"]
ENTITIES, IDENTIFIERS = (0, 1, 2, 7, 7, 7, 65533, 65534, 65535), (0, 1, 2, 3, 4294967295)
STATES = ("stopped", "running")
ORDERS = ("create", "create", "start", "stop", "remove", "do", "query", "set")
MOVES = ("at", "tell", "tick", "tick", "lose", *["order"] * 4, *["delivery"] * 7)
GAPS = (" ", " ", " ", "  ", "\t", " \t ", "\t\t")
EDGES = ("", "", "", "", " ", "\t", "   ", " \t")
COMMENTS = ("#", "# the tank", "#the tank", "# a # b", "#\t1  2 ", "# \u00e9 \u2013 \u201cx\u201d \u5766\u514b \U0001f680", "#\x00\x01\x7f", "#\rx", "#\ufeff", "##")
LABELS = ("go", "make", "T", "a-b", "x_1", "Answer", "ALL", "agains", "deliver", "z" * 60)


class Exact(str):
    """A word that is spelled as it stands: a label, or the answer to one."""


class Source:
    """A source that is made up: its lines, and what they come to."""

    def __init__(self, chance):
        self.chance, self.lines, self.sheet, self.course = chance, [], pages.Sheet(), pages.PlanCourse()
        self.is_neat, self.has_mark, self.has_returns = (chance.random() < share for share in (0.2, 0.15, 0.15))
        self.stations = sorted(chance.sample(ADDRESSES, chance.randint(1, 4)))
        for words in [["exercise", str(chance.randrange(256))], *self.settings()]:
            self.add(words)
        for _ in range(chance.choice((0, 5, 10, 20, 40, 60))):
            self.add(getattr(self, chance.choice(MOVES))())

    def add(self, words):
        """A further line, if it can be read and its move be made."""
        statement = self.sheet.read(0, " ".join(words).encode())
        try:
            self.course.take(statement)
            self.lines.append(words)
        except (pages.Unnamed, pages.Stopped):
            self.sheet.labels -= {statement.label}

    # Lines.

    def settings(self):
        chance = self.chance
        for station in self.stations:
            rules = [f"first={chance.choice((0, 1, 9, 4294967290))}", f"tries={chance.randint(1, 3)}", f"wait={chance.choice((0, 5, 10))}"]
            yield ["station", station, *chance.sample(rules, chance.randint(0, 3))]
        outfits = [["opening", station, "%d", chance.choice(STATES)] for station in self.stations for _ in range(chance.randrange(3))]
        for station in self.stations:
            outfits += [["fixed", station, str(chance.choice(IDENTIFIERS)), str(chance.randrange(9))], ["action", station, str(chance.choice(IDENTIFIERS))]]
        chance.shuffle(outfits)
        last = dict.fromkeys(self.stations, 0)
        for words in outfits:
            if words[0] == "opening":
                last[words[1]] += chance.choice((1, 1, 6, 65531 - last[words[1]] // 2))
            if last[words[1]] < 65534:
                yield [word.replace("%d", str(last[words[1]])) for word in words]

    def label(self):
        """A new label, or none."""
        known = self.sheet.labels
        name = self.chance.choice(LABELS)
        name = name if name not in known else f"{name}{len(known)}"
        return [] if name in known or self.chance.random() < 0.5 else ["as", Exact(name)]

    def at(self):
        now = self.course.world.now
        later = min(now + self.chance.choice((1, 5, 10, 20)), 2**64 - 1)
        return ["at", str(self.chance.choice((later, later, later, later, now, max(now - 1, 0), 0, 2**31, 2**64 - 1)))]

    def tell(self):
        return ["tell", self.chance.choice(self.stations), str(self.chance.choice((1, 2, 7, 65533)))]

    def tick(self):
        return ["tick", self.chance.choice(self.stations), *self.label()]

    def target(self):
        chance, station = self.chance, self.chance.choice(self.stations)
        numbers = [f"{station}:{chance.choice(ENTITIES)}"] * 5
        site = station.partition(":")[0]
        return chance.choice(["all", f"{station}:all", f"{site}:65535:all", f"{site}:65535:7", "9:9:7", "65535:65535:7", "0:0:all", *numbers])

    def order(self):
        chance, name = self.chance, self.chance.choice(ORDERS)
        count = {"do": 1, "query": chance.randint(1, 4), "set": 2}.get(name, 0)
        values = [str(chance.choice(IDENTIFIERS)) for _ in range(count)]
        return [name, chance.choice(self.stations), self.target(), *values, *self.label()]

    def name_of(self, place):
        """The number of a datagram, or a label for it."""
        names, course = [str(place)], self.course
        for label, sent in course.labels.items():
            names += [Exact(label)] * 2 if sent == place else []
            names += [Exact(f"answer({label})")] * 2 if sent is not None and course.answers.get(sent) == place else []
        return self.chance.choice(names)

    def place(self):
        """The number of a datagram that was sent, rather one of the last."""
        sent = len(self.course.world.sent)
        return self.chance.choice((sent - 1, max(sent - 2, 0), self.chance.randrange(sent)))

    def delivery(self):
        if not self.course.world.sent:
            return self.order()
        place, chance = self.place(), self.chance
        if place in self.course.brought and chance.random() < 0.4:
            return ["deliver", self.name_of(place), "again"]
        target = self.course.pdu(place).target
        meant = [station for station in self.stations if pages.addresses(target, map(int, station.split(":")))]
        return ["deliver", self.name_of(place), chance.choice(meant if meant and chance.random() < 0.8 else self.stations)]

    def lose(self):
        return ["lose", self.name_of(self.place())] if self.course.world.sent else self.order()

    # Spelling.

    def spelled(self, words):
        """A line of these words."""
        chance = self.chance
        if self.is_neat:
            return " ".join(words)
        words = [word if isinstance(word, Exact) or chance.random() < 0.9 else re.sub("[0-9]+", r"000\g<0>", word) for word in words]
        line = chance.choice(EDGES) + "".join(word + chance.choice(GAPS) for word in words)
        line = line if chance.random() < 0.2 else line.rstrip(" \t") + chance.choice(EDGES)
        return line + chance.choice(GAPS) + chance.choice(COMMENTS) if chance.random() < 0.1 else line

    def between(self):
        """Lines that say nothing, seldom any."""
        chance = self.chance
        if self.is_neat or chance.random() < 0.9:
            return []
        return [chance.choice(("", " ", "\t", *COMMENTS, "  " + chance.choice(COMMENTS)))]

    def text(self):
        lines = [line for words in self.lines for line in [*self.between(), self.spelled(words)]] + self.between()
        ends = ["\r\n" if self.has_returns and self.chance.random() < 0.7 else "\n" for _ in lines]
        text = "".join(line + end for line, end in zip(lines, ends))
        text = text[:-1] if self.chance.random() < 0.2 else text
        return ("\ufeff" * self.has_mark + text).encode("utf-8", "surrogateescape")

    # Places.

    def moves(self):
        """The number of the first line behind those of the stations and what they open with, hold and know."""
        names = (*ORDERS, "at", "tick", "tell")
        return next((at for at, words in enumerate(self.lines) if words and words[0] in names), len(self.lines))

    def put(self, words):
        """A line anywhere among the moves."""
        self.lines.insert(self.chance.randint(self.moves(), len(self.lines)), words)

    def one(self, *names):
        """One of the lines of these names, or of all; an order is added where there is none."""
        fit = [words for words in self.lines if words and (not names or words[0] in names)]
        if not fit:
            fit = [["create", self.chance.choice(ADDRESSES), self.target()]]
            self.lines.append(fit[0])
        return self.chance.choice(fit)


# The mistakes: each plants one.

BAD_LABELS = ("1a", "a.b", "\u00e9", "a" * 65, "_a", "-a", "a:", "a(b)", "answer", "again", "as", "all", "7", "a=", "answer(go)")
BAD_WHATS = (
    "answer(", "answer()", "answer)", "Answer(go)", "answer(1)", "answer(answer(go))", "answer", "again", "all", "as", "-1", "4294967296",
    "9" * 30, "9" * 5000, "1:1", "nobody", "answer(nobody)", "x" * 65, "(go)", "answer (go)",
)  # fmt: skip
BAD_RULES = (
    ["first=1", "first=1"], ["tries=1", "wait=1", "tries=2"], ["tries=0"], ["first="], ["wait"], ["first=4294967296"], ["tires=1"], ["1"],
    ["first=1", "tries=2", "wait=3", "wait=3"], ["wait=18446744073709551616"], ["tries=1,wait=2"], ["First=1"], ["first", "=1"], ["=1"],
    ["wait=-1"], ["first=1", "as", "x"], ["tries=1:1"],
)  # fmt: skip
BAD_TARGETS = ("ALL", "1:all", "all:1:1", "1:all:1", "all:all:all", "1:1:ALL", "1:1:all:1", "1:1:alls", ":all", "1:1:", "65536:1:all", "2:3", "all:", "1:1:1:all")
BAD_BYTES = ("\x00", "\x01", "\x7f", "\x0b", "\x0c", "\x1b", "\r", "\u00e9", "\udcff", "\ufeff", "#", "\u00a0", "\u2028")
BAD_COMMENTS = ("\udcff", "\udcc3", "\udced\udca0\udc80", "\udcc0\udc80", "\udcf4\udc90\udc80\udc80", "\udce2\udc80", "\udc80")
FURTHER = ("1", "x", "1:1", "again", "as", "all", "lose", "answer(go)", "first=1")
NAMES = ("Deliver", "loose", "lost", "plan", "as", "again", "answer(go)", "ticks", "TICK", "exercises", "-", "move", "#", "stations")


def name_wrong(source):
    source.one()[0] = source.chance.choice(NAMES)


def word_wrong(source):
    words, wrong = source.one(), source.chance.choice(list(WRONG.values()))
    words[source.chance.randrange(len(words))] = source.chance.choice(wrong)


def word_gone(source):
    words = source.one()
    del words[source.chance.randrange(len(words))]


def word_more(source):
    words = source.one()
    words.insert(source.chance.randint(1, len(words)), source.chance.choice(FURTHER))


def words_swapped(source):
    source.chance.shuffle(source.one())


def label_bad(source):
    source.one("tick", *ORDERS).extend(["as", Exact(source.chance.choice(BAD_LABELS))])


def label_lacks(source):
    source.one("tick", *ORDERS).extend(source.chance.choice((["as"], ["x"], ["as", "x", "y"], ["As", "x"])))


def label_twice(source):
    source.one("tick", *ORDERS).extend(["as", Exact("twice")])
    source.one("tick", *ORDERS).extend(["as", Exact("twice")])


def label_out_of_place(source):
    source.one("tell", "deliver", "at", "lose", "station", "fixed", "exercise").extend(["as", Exact("out")])


def label_late(source):
    """A line with a label comes behind its uses, or only some of them."""
    labelled = [words for words in source.lines if "as" in words]
    if labelled:
        words = source.chance.choice(labelled)
        source.lines.remove(words)
        source.put(words)


def what_bad(source):
    words = source.one("deliver", "lose")
    words[1:2] = [Exact(source.chance.choice(BAD_WHATS))]


def again_bad(source):
    source.one("deliver", "deliver", "lose", "tick", "at").append(source.chance.choice(("again", "Again", "agian")))


def rules_bad(source):
    source.one("station")[2:] = source.chance.choice(BAD_RULES)


def target_bad(source):
    source.one(*ORDERS)[2:3] = [source.chance.choice(BAD_TARGETS)]


def bytes_bad(source):
    words, chance = source.one(), source.chance
    at = chance.randrange(len(words))
    k = chance.randint(0, len(words[at]))
    words[at] = Exact(words[at][:k] + chance.choice(BAD_BYTES) + words[at][k:])


def comment_bad(source):
    """A comment that is no UTF-8, behind a line or alone."""
    comment = Exact("# " + source.chance.choice(BAD_COMMENTS) + source.chance.choice(("", " x")))
    if source.chance.random() < 0.5:
        source.one().append(comment)
    else:
        source.lines.insert(source.chance.randint(0, len(source.lines)), [comment])


def mark_bad(source):
    words = source.lines[0] if source.chance.random() < 0.5 else source.one()
    words[0] = "\ufeff" + words[0]
    source.has_mark = source.has_mark or source.chance.random() < 0.5


def line_moved(source):
    words = source.one()
    source.lines.remove(words)
    source.lines.insert(source.chance.randint(0, len(source.lines)), words)


def line_twice(source):
    source.lines.insert(source.chance.randint(0, len(source.lines)), list(source.one()))


def line_gone(source):
    source.lines.remove(source.one(*source.chance.choice(((), ("exercise",), ("station",), ORDERS, ("deliver",)))))


def stations_gone(source):
    source.lines = [words for words in source.lines if words[0] in source.chance.choice((("exercise",), ("exercise", "at", "lose")))]


def station_unknown(source):
    words = source.one("tell", "tick", "deliver", "fixed", "opening", "action", *ORDERS)
    words[-1 if words[0] == "deliver" else 1] = "9:8"


def early(source):
    source.lines.insert(source.chance.randint(0, 3), source.chance.choice((["lose", "0"], ["at", "1"], ["deliver", "0", "again"])))


def use_bad(source):
    """A datagram is named that was not sent, or not brought, or that did not come as an answer."""
    chance, sent = source.chance, len(source.course.world.sent)
    labels = [Exact(label) for label in source.course.labels] or [str(sent)]
    answers = [Exact(f"answer({label})") for label in source.course.labels] or ["0"]
    place = str(chance.randint(0, sent + 1))
    source.put(chance.choice((
        ["deliver", chance.choice(labels), chance.choice(source.stations)], ["deliver", chance.choice(answers), chance.choice(source.stations)],
        ["deliver", place, "again"], ["deliver", chance.choice([*answers, *labels]), "again"], ["lose", place], ["lose", chance.choice([*answers, *labels])],
    )))  # fmt: skip


def move_bad(source):
    """A move that the world refuses, perhaps."""
    chance, sent = source.chance, len(source.course.world.sent)
    station = chance.choice(source.stations)
    source.put(chance.choice((
        ["deliver", str(chance.choice((sent, sent + 1, 4294967295, chance.randint(0, sent)))), station],
        ["tell", station, chance.choice(("0", "65534", "65535"))], ["query", station, "all", *["9"] * chance.choice((2038, 2039, 2040))],
    )))  # fmt: skip


def spent(source):
    """The first station has one or two identifiers left."""
    words = source.one("station")
    words[2:] = [f"first={4294967295 - source.chance.randrange(2)}"]
    for _ in range(2):
        source.put(["create", words[1], source.target()])


# Each mistake, and how often it is planted beside the others.
MISTAKES = {
    name_wrong: 2, word_wrong: 4, word_gone: 3, word_more: 3, words_swapped: 2, label_bad: 5, label_lacks: 2, label_twice: 3,
    label_out_of_place: 2, label_late: 4, what_bad: 6, again_bad: 2, rules_bad: 4, target_bad: 4, bytes_bad: 5, comment_bad: 3, mark_bad: 2,
    line_moved: 3, line_twice: 3, line_gone: 3, stations_gone: 1, station_unknown: 2, early: 2, use_bad: 8, move_bad: 4, spent: 2,
}  # fmt: skip


def spoilt_source(chance):
    """A source with one or two mistakes, and which were planted."""
    source = Source(chance)
    planted = chance.choices(list(MISTAKES), weights=MISTAKES.values(), k=chance.choice((1, 1, 2)))
    for mistake in planted:
        mistake(source)
    return source.text(), [mistake.__name__.replace("_", " ") for mistake in planted]
