"""What `import` answers to a setup and a capture, and the recording that it makes."""
import ipaddress
import re
import struct
from collections import Counter, namedtuple

from .captures import CAME_IN, WENT_OUT, Capture, CaptureFault, Torn
from .datagrams import ABLE, CREATE, REMOVE, REQUESTS, Outcome, fault, identifier_text, number
from .files import ENTITIES, LARGEST_RECORDING, MOST_ENTRIES, RECEIVED, SENT, STATES, STOPPED, meaning_of
from .histories import key_of, request_of, response_of, scope_of
from .packets import Assembly, LinkFault, Nothing, carried, of_datagram
from .reviews import addresses, is_answer_to
from .scripts import ADDRESS, Refused, read_line, read_word, script_fault

__all__ = ["Asked", "Import", "ImportFault", "answer_to_import", "asked_of", "host_of"]

# What the words behind NEW ask for, each by its word.
Asked = namedtuple("Asked", "port on keep shared echo opening", defaults=(3000, None, False, False, False, None))
KEYS = {"port": "port", "on": "on", "cut": "keep", "shared": "shared", "echo": "echo", "opening": "opening"}
ROWS = ["other", "elsewhere", "passing", "shared", "fragments", "cut"]
FAMILY = 5
NAMED = 120  # bytes of a warning, behind which no further entity is named


class ImportFault(Exception):
    """No recording is made: the line that says why."""


def asked_of(words):
    """What words behind NEW ask for, or None where they break the usage."""
    asked = {}
    for word in words:
        key, equals, value = word.partition("=")
        if key not in KEYS or KEYS[key] in asked:
            return None
        asked[KEYS[key]] = value_of(key, value) if equals else True if key in ("shared", "echo") else None
        if asked[KEYS[key]] is None:
            return None
    return Asked(**asked)


def value_of(key, value):
    if key == "port":
        return int(value) if re.fullmatch("[0-9]+", value) and int(value) in range(1, 1 << 16) else None
    if key == "on":
        return value.encode() or None
    if key == "cut":
        return True if value == "keep" else None
    return value if key == "opening" and value in ("none", "assumed") else None


def host_of(word):
    """The bytes of an address, or None where a word is none."""
    try:
        address = ipaddress.ip_address("" if "%" in word else word)
    except ValueError:
        return None
    return (getattr(address, "ipv4_mapped", None) or address).packed


def address_of(word):
    try:
        return read_word(word, ADDRESS)
    except Refused:
        return None


def setup_of(script):
    """The exercise of a script, and what each of its stations opens with."""
    exercise, opening = None, {}
    for line in script.decode("ascii").split("\n"):
        if line and not line.startswith("#"):
            name, _, words = read_line(line)
            if name == "exercise":
                exercise = words[0][0]
            if name == "station":
                opening[words[0]] = []
            if name == "opening":
                opening[words[0]].append((words[1][0], STATES.index(words[2])))
    return exercise, opening


def is_for_all(target):
    return target[0] == 0xFF if len(target) == 16 else target[0] >> 4 == 14 or target == b"\xff" * 4


class Import:
    """What is kept of a capture for a station, and what of its packets is counted."""

    def __init__(self, exercise, address, host, asked):
        self.exercise, self.address, self.host, self.asked = exercise, address, host, asked
        self.counts, self.bundled, self.assembly = Counter(), 0, Assembly()
        self.entries, self.size = [], 0

    def take(self, packet):
        """Counts a packet, and keeps its entries."""
        self.counts["packets"] += 1
        row, kinds, datagram = self.judged(packet)
        if row == "cut" and not self.asked.keep:
            raise ImportFault(f"capture: cut at {packet.at}")
        self.counts[row] += 1
        self.counts["echoes"] += max(len(kinds) - 1, 0)
        for kind in kinds:
            self.keep(kind, packet.stamp, datagram)

    def keep(self, kind, stamp, datagram):
        self.size += 13 + len(datagram)
        if len(self.entries) == MOST_ENTRIES:
            raise ImportFault("import: records")
        if self.size + 5 > LARGEST_RECORDING:
            raise ImportFault("import: size")
        self.entries.append((kind, stamp, datagram))

    def judged(self, packet):
        """The row of a packet, the kinds of its entries, and their datagram."""
        if self.asked.on not in (None, packet.name):
            return "other", [], None
        try:
            seen = self.seen(packet)
        except Nothing:
            return "other", [], None
        except LinkFault:
            raise ImportFault(f"capture: link-type at {packet.at}") from None
        if seen.part is not None:
            return "fragments" if seen.is_whole else "cut", [], None
        return self.row_of(seen, packet.direction)

    def seen(self, packet):
        """What a packet carries; of one that completes a datagram, all of that."""
        seen = carried(packet)
        whole = self.assembly.take(seen.part, packet.stamp) if seen.part and seen.is_whole else None
        return seen if whole is None else of_datagram(seen, whole)

    def row_of(self, seen, direction):
        """As `judged`, of what the bytes say that are there."""
        data = seen.data
        if seen.port not in (None, self.asked.port):
            return "other", [], None
        self.bundled += len(data) >= 10 and 12 <= number(data[8:10]) < seen.size
        if seen.size is not None and seen.size not in range(4, 8193) or data[3:4] not in (b"", bytes([FAMILY])):
            return "other", [], None
        if data[1:2] not in (b"", bytes([self.exercise])):
            return "elsewhere", [], None
        sent, received, for_all = self.ways(seen, direction)
        if not sent and not received and sent is not None:
            return "passing", [], None
        if not seen.is_whole:
            return "cut", [], None
        if sent and self.asked.shared and data[12:16] != struct.pack(">HH", *self.address):
            is_heard = seen.target == self.host or for_all and self.asked.echo
            return ("received", [RECEIVED], data) if is_heard else ("shared", [], None)
        if sent:
            return "sent", [SENT, RECEIVED] if for_all and self.asked.echo else [SENT], data
        return "received", [RECEIVED], data

    def ways(self, seen, direction):
        """Whether a packet is sent, whether it is received, and whether it is for all: None where it is not known."""
        if seen.source is None or seen.target is None:
            return None, None, None
        for_all = seen.for_all or is_for_all(seen.target)
        sent = seen.source == self.host and direction != CAME_IN
        received = not sent and direction != WENT_OUT and (seen.target == self.host or for_all)
        return sent, received, for_all

    def count_line(self, dropped):
        counts = self.counts
        records = counts["sent"] + counts["received"] + counts["echoes"]
        line = f"imported packets={counts['packets']} records={records}"
        line += "".join(f" {name}={counts[name]}" for name in ["sent", "received", "echoes", *ROWS])
        return f"{line} dropped={dropped} bundled={self.bundled}"

    # What the log assumes.

    def changes(self):
        """The kind of each change that the log makes, and the entity that it is about or None for all."""
        requests, keys = {}, set()
        for kind, _, datagram in self.entries:
            pdu = meaning_of(self.exercise, datagram)
            if pdu and kind == RECEIVED and pdu.kind in REQUESTS and addresses(pdu.target, self.address):
                requests.setdefault((request_of(pdu), *pdu.origin[:2]), pdu)
            if pdu and kind == SENT and response_of(pdu) == ABLE and key_of(pdu) not in keys:
                keys.add(key_of(pdu))
                request = requests.get((request_of(pdu), *pdu.target[:2]))
                if request and is_answer_to(pdu, request):
                    yield request.kind, scope_of(pdu, request)

    def assumed(self, opening):
        """The entities that the log assumes beside those that the setup opens, rising."""
        known, found = {entity for entity, _ in opening}, []
        for kind, entity in self.changes():
            if kind == REMOVE and entity is None:
                break
            if kind != CREATE and entity in ENTITIES and entity not in known:
                found.append(entity)
            known.add(entity)
        return sorted(found)

    def text(self, opening):
        """The recording: of the second format, open, with this one station."""
        head = b"DSRC0002" + struct.pack(">BBHHHH", self.exercise, 1, 1, *self.address, len(opening))
        head += b"".join(struct.pack(">HB", *opened) for opened in opening)
        entries = [struct.pack(">BHQH", kind, 0, stamp, len(data)) + data for kind, stamp, data in self.entries]
        return b"".join([head, *entries, b"\0", struct.pack(">I", len(entries))])


def taken(it, capture, opening):
    """All packets of a capture, taken one after the other."""
    it.size = 18 + 3 * len(opening)
    try:
        for packet in capture.packets():
            it.take(packet)
    except CaptureFault as why:
        raise ImportFault(f"capture: {why}") from None
    except Torn:
        if not it.asked.keep:
            raise ImportFault(f"capture: truncated at {len(capture.text)}") from None
        it.counts.update(["packets", "cut"])


def answer_to_import(setup, words, capture_text):
    """What is answered to a setup and a capture, the recording that is made or None, and what is warned of.

    The words are ADDRESS, HOST and those behind NEW; None stands for the text of the usage.
    """
    address, host, asked = address_of(words[0]), host_of(words[1]), asked_of(words[2:])
    if asked is None:
        return None, None, []
    for name, word, value in (("address", words[0], address), ("host", words[1], host)):
        if value is None:
            return fault(f"import: {name} {word}"), None, []
    refused = script_fault(setup)
    if refused is not None:
        return fault(f"script: {refused}"), None, []
    exercise, stations = setup_of(setup)
    if address not in stations:
        return fault("import: not-in-setup"), None, []
    opening = [] if asked.opening == "none" else stations[address]
    it, capture = Import(exercise, address, host, asked), Capture(capture_text)
    try:
        taken(it, capture, opening)
    except ImportFault as why:
        return fault(str(why)), None, []
    return made(it, capture, stations[address], opening)


def not_whole(dropped, fragments, bundled):
    """The warnings that the log may not be whole."""
    said = [
        (dropped, " the capturing system lost packets (dropped);"),
        (fragments, " parts of datagrams are missing (fragments);"),
        (bundled, " datagrams of several PDUs are not read (bundled);"),
    ]
    reasons = "".join(words for count, words in said if count)
    return [f"the log may not be whole:{reasons} the counts say how many"] if reasons else []


def unopened(entities):
    """The warnings about entities that the log assumes: some by their numbers, and how many there are more."""
    text = "the log assumes entities with which the station does not open:"
    for place, entity in enumerate(entities):
        if len(text) > NAMED:
            text += f" and {len(entities) - place} more"
            break
        text += f" {entity}"
    return [f"{text}; the setup names them, or opening=assumed opens them, stopped"] if entities else []


def made(it, capture, told, opening):
    assumed, dropped = it.assumed(told), capture.dropped()
    warned = not_whole(dropped, it.counts["fragments"], it.bundled)
    lines = []
    if it.asked.opening == "assumed":
        opening = sorted([*opening, *((entity, STOPPED) for entity in assumed)])
        lines = [f"assumed {identifier_text([*it.address, entity])} stopped" for entity in assumed]
    elif it.asked.opening is None:
        warned += unopened(assumed)
    line = it.count_line(dropped)
    text = it.text(opening)
    if len(text) > LARGEST_RECORDING:
        return fault("import: size"), None, []
    return Outcome(0, "".join(f"{line}\n" for line in [line, *lines]).encode(), b""), text, warned
