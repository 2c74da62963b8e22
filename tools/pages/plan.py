"""What `plan` says of a source, and the plain script that it writes, by the pages of docs/.

A source is read line by line; then it runs in a world, as its plain script would. Why a line cannot be read is not said
here, only which line that is.
"""
import re
from collections import Counter, namedtuple

from .datagrams import BODIES, Outcome, decoded, fault, identifier_text
from .files import ANY_FOUR, STATES
from .histories import request_of
from .reviews import Line, address_text, addresses, json_of, text_of, word_of
from .scripts import LARGEST_SCRIPT, Draft, Refused, numbers
from .worlds import MOST_ENTITIES, ORDERS, Stopped, World

__all__ = ["PlanCourse", "Named", "Plan", "Sheet", "Unnamed", "answer_to_plan", "plan_of", "told_of_plan"]

MARK = b"\xef\xbb\xbf"
RESERVED = ("answer", "again", "as", "all")
RULES = {"first": "1", "tries": "3", "wait": "10"}
MOST_DIGITS = 20  # of a number in any range

# A datagram by the label of the line that sends it, or the last answer to that.
Named = namedtuple("Named", "label is_answer")
# A line that says something: its number, its name, its words as they stand in the plain script (of a delivery the
# address, or nothing where it is `again`), its label, and the number or the name of the datagram that it is about.
Statement = namedtuple("Statement", "number name words label what", defaults=(None, None))
# What comes of a source: the fault that ends it or None, what is printed, and the plain script or None.
Plan = namedtuple("Plan", "fault lines plain")


class Unnamed(Exception):
    """What a line names is no datagram, or one that was never brought: the number of the line."""


# Lines.

def lines_of_source(text):
    """The lines, without what is passed over at the start of the file and at their ends."""
    lines = text.removeprefix(MARK).split(b"\n")
    lines = lines if lines[-1] else lines[:-1]
    return [line.removesuffix(b"\r") for line in lines]


def words_of(line):
    """The words of a line before its comment."""
    comment = re.search(rb"(?:^|(?<=[ \t]))#", line)
    said, behind = (line[: comment.start()], line[comment.start() :]) if comment else (line, b"")
    try:
        behind.decode("utf-8")
    except UnicodeDecodeError:
        raise Refused("bad-line") from None
    if not re.fullmatch(rb"[\t -~]*", said):
        raise Refused("bad-line")
    return re.findall("[^ \t]+", said.decode("ascii"))


def trimmed(word):
    """A word, its numbers without leading zeros."""
    word = re.sub("(?<![0-9])0+(?=[0-9])", "", word)
    if re.search("[0-9]{%d}" % (MOST_DIGITS + 1), word):
        raise Refused("bad-line")
    return word


def rules_of(words):
    """The three words behind the address of a station, of those that stand there in any order."""
    rules = {}
    for word in words:
        key, equals, value = word.partition("=")
        if key not in RULES or not equals or key in rules:
            raise Refused("bad-line")
        rules[key] = value
    return [f"{key}={value}" for key, value in (RULES | rules).items()]


def target_of(word):
    """A receiver, in numbers."""
    if word == "all":
        return "65535:65535:65535"
    return re.sub(":all$", ":65535", word)


class Sheet(Draft):
    """What the lines so far say: their statements and labels, and what the lines of a script say."""

    def __init__(self):
        super().__init__()
        self.labels, self.statements = set(), []

    def new_label(self, word):
        if not re.fullmatch("[A-Za-z][A-Za-z0-9_-]{0,63}", word) or word in RESERVED or word in self.labels:
            raise Refused("bad-line")
        return word

    def what_of(self, word):
        """The datagram that a word means, by its number or by the label of a line before."""
        answer = re.fullmatch(r"answer\((.*)\)", word)
        label = answer[1] if answer else word
        if label in self.labels:
            return Named(label, answer is not None)
        return numbers(trimmed(word), [ANY_FOUR])[0]

    def delivery(self, words):
        """What is brought, and the address; none where it is `again`."""
        if len(words) != 2:
            raise Refused("bad-line")
        what, address = self.what_of(words[0]), [] if words[1] == "again" else [trimmed(words[1])]
        self.take(" ".join(["deliver 0", *address]) if address else "at 0")
        return address, None, what

    def loss(self, words):
        if len(words) != 1:
            raise Refused("bad-line")
        what = self.what_of(words[0])
        self.take("at 0")
        return [], None, what

    def other(self, name, words):
        """The words of a line that is about no datagram, and its label."""
        label = None
        if (name in ORDERS or name == "tick") and words[-2:-1] == ["as"]:
            label, words = self.new_label(words[-1]), words[:-2]
        if name in ORDERS:
            words = words[:1] + [target_of(word) for word in words[1:2]] + words[2:]
        elif name == "station":
            words = words[:1] + rules_of(words[1:])
        words = [trimmed(word) for word in words]
        self.take(" ".join([name, *words]))
        return words, label, None

    def read(self, number, line):
        """The next line of a source, whose words it answers if it has some."""
        said = words_of(line)
        if not said:
            return None
        name, *words = said
        special = {"deliver": self.delivery, "lose": self.loss}.get(name)
        statement = Statement(number, name, *(special(words) if special else self.other(name, words)))
        self.labels |= {statement.label} - {None}
        self.statements.append(statement)
        return statement


def read_source(text):
    """The statements of a source, and the number of the first line that cannot be read, or None."""
    if len(text) > LARGEST_SCRIPT:
        return [], 0
    lines, sheet = lines_of_source(text), Sheet()
    for number, line in enumerate(lines, 1):
        try:
            sheet.read(number, line)
        except Refused:
            return [], number
    return sheet.statements, None if sheet.stations else len(lines) + 1


# The course.

class PlanCourse:
    """What the statements so far came to: their world, and what was sent, brought, answered and meant to be lost."""

    def __init__(self):
        self.world, self.lines, self.plain, self.moves = World(), [], [], 0
        # By the number of a datagram: the line that sends it, the stations to which it is brought, its last answer.
        self.senders, self.brought, self.answers = [], {}, {}
        self.labels, self.orders, self.meant_lost, self.warnings = {}, [], set(), []

    def make(self, *words):
        """A line of the plain script; answers the number of the datagram that it sends, or None."""
        line, before = " ".join(words), len(self.world.sent)
        self.world.take_line(line)
        self.plain.append(line)
        return before if len(self.world.sent) > before else None

    def pdu(self, place):
        return decoded(self.world.sent[place])

    def warn(self, number, name, *fields):
        self.warnings.append(Line("warning", [(False, "source", number), (False, "name", name), *fields]))

    def say(self, statement, *fields):
        """The line of a move; of one that may have a label also that."""
        label = [(True, "label", statement.label)] if statement.label else []
        head = [(False, "source", statement.number), (False, "did", statement.name)]
        self.lines.append(Line("move", [*head, *fields, *label]))
        self.moves += 1

    def sends(self, statement, place):
        """A datagram has the line that sends it, and its label."""
        self.senders += [statement.number] if place is not None else []
        if statement.label:
            self.labels[statement.label] = place

    def place_of(self, statement):
        """The number of the datagram that a line is about."""
        what = statement.what
        if not isinstance(what, Named):
            return what
        place = self.labels[what.label]
        place = self.answers.get(place) if what.is_answer else place
        if place is None:
            raise Unnamed(statement.number)
        return place

    def take(self, statement):
        """The next statement; where it is no move that can be made, nothing is changed."""
        name = statement.name
        if name in ORDERS:
            self.order(statement)
        elif name in ("deliver", "lose", "tick", "tell", "at"):
            getattr(self, name)(statement)
        else:
            self.make(name, *statement.words)

    def at(self, statement):
        before = self.world.now
        self.make("at", *statement.words)
        if self.world.now < before:
            self.warn(statement.number, "back")

    def order(self, statement):
        place = self.make(statement.name, *statement.words)
        pdu = self.pdu(place)
        self.sends(statement, place)
        self.orders.append((statement.number, place))
        target = (True, "to", identifier_text(pdu.target))
        if not any(addresses(pdu.target, station) for station in self.world.stations):
            self.warn(statement.number, "nobody", target)
        origin, request = (True, "from", statement.words[0]), (True, "request", request_of(pdu))
        self.say(statement, origin, target, request, (True, "sends", place))

    def tick(self, statement):
        place = self.make("tick", *statement.words)
        self.sends(statement, place)
        repeated = None if place is None else request_of(self.pdu(place))
        self.say(statement, (True, "at", statement.words[0]), (True, "repeats", repeated), (True, "sends", place))

    def deliver(self, statement):
        place = self.place_of(statement)
        if not statement.words and place not in self.brought:
            raise Unnamed(statement.number)
        at = statement.words[0] if statement.words else address_text(self.brought[place][-1])
        answer = self.make("deliver", str(place), at)
        pdu, address = self.pdu(place), tuple(map(int, at.split(":")))
        self.sends(statement, answer)
        self.brought.setdefault(place, []).append(address)
        if answer is not None:
            self.answers[place] = answer
        if not addresses(pdu.target, address):
            self.warn(statement.number, "not-addressed", (True, "at", at), (True, "to", identifier_text(pdu.target)))
        response = None if answer is None else word_of(self.pdu(answer))
        behind = (True, "request", request_of(pdu)), (True, "answers", answer), (True, "response", response)
        self.say(statement, (True, "at", at), (True, "brings", place), *described(pdu), *behind)

    def tell(self, statement):
        self.make("tell", *statement.words)
        state = STATES[self.world.entries[-1][-1]]
        self.say(statement, (True, "entity", ":".join(statement.words)), (True, "state", state))

    def lose(self, statement):
        place = self.place_of(statement)
        if place >= len(self.world.sent):
            raise Unnamed(statement.number)
        self.meant_lost.add(place)

    # What is said at the end.

    def lost(self):
        for place, source in enumerate(self.senders):
            if place not in self.brought:
                yield Line("lost", [(False, "datagram", place), (True, "source", source), *described(self.pdu(place))])

    def copied(self):
        for place in sorted(self.brought):
            for address, times in sorted(Counter(self.brought[place]).items()):
                if times > 1:
                    at = (True, "source", self.senders[place]), (True, "at", address_text(address))
                    yield Line("copied", [(False, "datagram", place), *at, (True, "times", times)])

    def all_warnings(self):
        for number, place in self.orders:
            if place not in self.brought and place not in self.meant_lost:
                self.warn(number, "undelivered", (True, "datagram", place))
        return sorted(self.warnings, key=lambda line: line.fields[0][2])

    def end(self):
        """All lines, and the plain script."""
        counts = {"exercise": self.world.exercise, "stations": len(self.world.stations)}
        counts |= {"moves": self.moves, "datagrams": len(self.world.sent)}
        last = Line("plan", [(True, key, value) for key, value in counts.items()])
        lines = [*self.lines, *self.lost(), *self.copied(), *self.all_warnings(), last]
        return lines, "".join(f"{line}\n" for line in self.plain).encode()


def described(pdu):
    """What is said of any datagram: its kind, and whose it is."""
    yield True, "kind", BODIES[pdu.kind][0]
    yield True, "from", identifier_text(pdu.origin)
    yield True, "to", identifier_text(pdu.target)


# What is told.

def plan_of(text):
    """What comes of a source."""
    statements, bad = read_source(text)
    if bad is not None:
        return Plan(f"plan: bad-line at line {bad}", [], None)
    opening = Counter(statement.words[0] for statement in statements if statement.name == "opening")
    if any(count > MOST_ENTITIES for count in opening.values()):
        return Plan("world: stations", [], None)
    course = PlanCourse()
    for statement in statements:
        try:
            course.take(statement)
        except Unnamed as line:
            return Plan(f"plan: bad-line at line {line}", [], None)
        except Stopped as why:
            return Plan(f"world: {why} at move {course.moves}", course.lines, None)
    lines, plain = course.end()
    return Plan("plan: too-long", [], None) if len(plain) > LARGEST_SCRIPT else Plan(None, lines, plain)


def told_of_plan(plan, spelled=text_of):
    """What is answered to a source, of which that comes."""
    out = "".join(spelled(line) + "\n" for line in plan.lines).encode()
    return fault(plan.fault)._replace(out=out) if plan.fault else Outcome(0, out, b"")


def answer_to_plan(text, spelled=text_of):
    """What is answered to a source, and the plain script, if it is made."""
    plan = plan_of(text)
    return told_of_plan(plan, spelled), plan.plain
