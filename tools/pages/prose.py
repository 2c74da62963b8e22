"""What review --prose says of a recording, by READING.md: the lines of a review as sentences."""
from itertools import groupby

from .datagrams import Outcome
from .reviews import FATES, lines_of_review, value_of

RELIABLE = 10
VERBS = {
    "create-entity": "create", "remove-entity": "remove", "start-resume": "start", "stop-freeze": "stop",
    "action-request": "take an action on",
}  # fmt: skip
# What a datagram is that means nothing, by the first part of the reason; the others are damaged.
REASONS = {
    "version": "protocol version", "family": "protocol family", "kind": "PDU type", "exercise": "exercise",
    "flag": "an Acknowledge with flag",
}  # fmt: skip


def counted(number, one, many):
    return f"{number} {one if number == 1 else many}"


def counts(line, keys):
    """The numbers of a line that are not 0, each with its key."""
    return [f"{value_of(line, key)} {key}" for key in keys if value_of(line, key)]


def review_sentences(line):
    told = dict((key, value) for _, key, value in line.fields)
    stations, entries = counted(told["stations"], "station", "stations"), counted(told["records"], "entry", "entries")
    first = [f"Exercise {told['exercise']}: {stations}, {entries}."]
    if told.get("form") == "open":
        first.append("Not all stations were recorded.")
    if told["explained"]:
        first.append("Some order of events explains them: the logs do not contradict each other.")
    else:
        first.append("No order of events explains them: the logs contradict each other, and `why` says where.")
    if not told["orders"]:
        return [" ".join(first), "No orders."]
    fates = counts(line, FATES) + [f"{told['nobody']} for nobody"] * bool(told["nobody"])
    return [" ".join(first), f"{counted(told['orders'], 'order', 'orders')}. By station: {', '.join(fates)}."]


def others_sentence(line):
    name, _, number = value_of(line, "why").partition(":")
    what = f"{REASONS[name]} {number}" if name in REASONS else f"damaged ({name})"
    if name == "family" and int(number) == RELIABLE:
        what += " (Simulation Management with Reliability)"
    return f"{counted(value_of(line, 'entries'), 'entry means', 'entries mean')} nothing here: {what}."


def station_sentences(line):
    made = value_of(line, "made")
    text = f"{value_of(line, 'address')} made {counted(made, 'order', 'orders') if made else 'no orders'}"
    fates = counts(line, FATES)
    text += f"; of those for it {', '.join(fates)}." if fates else "."
    entities = value_of(line, "entities")
    if entities:
        text += f" At the end it has {counted(entities, 'entity', 'entities')}, {value_of(line, 'running')} running."
    return text


class OrderTold:
    """An order line, and its three sentences."""

    def __init__(self, line):
        self.told = {key: value for _, key, value in line.fields}
        self.maker = self.told["from"]
        address, _, self.entity = self.told["to"].rpartition(":")
        self.party = self.told["at"] or address

    def thing(self):
        if self.told["kind"] == "create-entity":
            if self.entity == "65534":
                return "an entity with a number of its choice"
        elif self.entity in ("0", "65535"):
            return "all its entities"
        return f"entity {self.party}:{self.entity}"

    def what(self):
        kind = self.told["kind"]
        if kind == "data-query":
            return f"{self.maker} asked {self.party} for data."
        if kind == "set-data":
            return f"{self.maker} told {self.party} to set data."
        return f"{self.maker} told {self.party} to {VERBS[kind]} {self.thing()}."

    def reply(self):
        change = self.told["change"]
        did = "" if change is None else f"did so at entry {change} and "
        return f"{self.party} {did}answered {self.told['said']}"

    def unknown(self):
        if self.told["said"] is not None:
            return f"{self.reply()}; whether {self.maker} heard it was not recorded."
        if self.told["heard"] is not None:
            return f"{self.maker} heard {self.told['heard']}; {self.party} was not recorded."
        return f"Whether {self.party} received it was not recorded."

    def became(self):
        fate = self.told["fate"]
        if fate in ("done", "refused", "answered"):
            return f"{self.reply()}; {self.maker} heard it."
        if fate == "unheard":
            return f"{self.reply()}; {self.maker} has no record of it."
        if fate == "pending":
            return f"{self.reply()}, and nothing final."
        if fate == "unanswered":
            return f"{self.party} received it and has no record of an answer."
        if fate == "lost":
            return f"{self.party} has no record of it."
        return self.unknown() if fate == "unknown" else "No recorded station is meant."

    def cost(self):
        sends, took = self.told["sends"], self.told["took"]
        parts = [f"sent {sends} times"] if (sends or 0) > 1 else []
        parts += [] if took is None else [f"answered after {took.ticks}"]
        text = ", ".join(parts)
        return [text[0].upper() + text[1:] + "."] if text else []

    def sentences(self):
        return f"{self.told['entry']} " + " ".join([self.what(), self.became(), *self.cost()])


def stretch(line):
    ends = [value_of(line, key) for key in ("from", "to")]
    begin, end = (
        edge if entry is None else f"entry {entry}" for entry, edge in zip(ends, ("the start", "the end"))
    )
    return f"{value_of(line, 'state')} from {begin} to {end}"


def sentences_of(lines):
    """The lines of sentences of the lines of a review, in their order."""
    told = []
    for line in (line for line in lines if line.name != "state"):
        if line.name == "review":
            told += review_sentences(line)
        elif line.name == "others":
            told.append(others_sentence(line))
        elif line.name == "station":
            told.append(station_sentences(line))
        else:
            told.append(OrderTold(line).sentences())
    states = (line for line in lines if line.name == "state")
    for entity, stretches in groupby(states, lambda line: value_of(line, "entity")):
        told.append(f"{entity}: {', '.join(map(stretch, stretches))}.")
    return told


def answer_to_prose(text, words=()):
    """What review --prose answers to a recording by its bytes, and to the words behind it."""
    lines = lines_of_review(text, words)
    if isinstance(lines, Outcome):
        return lines
    return Outcome(0, "".join(line + "\n" for line in sentences_of(lines)).encode(), b"")
