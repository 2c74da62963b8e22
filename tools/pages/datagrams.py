"""Datagrams and hex text: the PDU that one spells or its refusal, by FORMATS.md, and the lines of it, by
READING.md.
"""
import re
from collections import namedtuple

Outcome = namedtuple("Outcome", "status out errors")
Pdu = namedtuple("Pdu", "kind header origin target fields records")
Header = namedtuple("Header", "version exercise stamp status")

LONGEST_HEX, LONGEST_DATAGRAM = 65_536, 8192
# The protocol versions that are read, each with whether byte 10 of its header is the PDU status.
VERSIONS = {6: False, 7: True}
CREATE, REMOVE, START, STOP, ACKNOWLEDGE = 11, 12, 13, 14, 15
ACTION_REQUEST, ACTION_RESPONSE, DATA_QUERY, SET_DATA, DATA = 16, 17, 18, 19, 20
ABLE, UNABLE = 1, 2
REQUESTS = {CREATE, REMOVE, START, STOP, ACTION_REQUEST, DATA_QUERY, SET_DATA}
FLAGS = {1: CREATE, 2: REMOVE, 3: START, 4: STOP}
# The fields of each body and their sizes, then what its records are.
BODIES = {
    11: ("create-entity", [("request", 4)], None),
    12: ("remove-entity", [("request", 4)], None),
    13: ("start-resume", [("real", 8), ("sim", 8), ("request", 4)], None),
    14: ("stop-freeze", [("real", 8), ("reason", 1), ("behaviour", 1), ("padding", 2), ("request", 4)], None),
    15: ("acknowledge", [("flag", 2), ("response", 2), ("request", 4)], None),
    16: ("action-request", [("request", 4), ("action", 4)], "datums"),
    17: ("action-response", [("request", 4), ("result", 4)], "datums"),
    18: ("data-query", [("request", 4), ("interval", 4)], "identifiers"),
    19: ("set-data", [("request", 4), ("padding", 4)], "datums"),
    20: ("data", [("request", 4), ("padding", 4)], "datums"),
    21: ("event-report", [("event", 4), ("padding", 4)], "datums"),
    22: ("comment", [], "datums"),
}


class Refusal(Exception):
    """A datagram spells no PDU: its number, name and place."""


def number(part):
    return int.from_bytes(part, "big")


class Parts:
    """The parts of a body, one after the other."""

    def __init__(self, datagram, offset):
        self.datagram, self.offset = datagram, offset

    def look(self, size):
        part = self.datagram[self.offset : self.offset + size]
        if len(part) < size:
            raise Refusal(f"7 body-short at {self.offset}")
        return part

    def take(self, size):
        part = self.look(size)
        self.offset += size
        return part


def decoded(datagram):
    """The PDU that a datagram spells; a Refusal where it spells none."""
    if len(datagram) < 12:
        raise Refusal("1 truncated")
    version, exercise, kind, family = datagram[:4]
    length = number(datagram[8:10])
    for holds, text in [
        (version not in VERSIONS, f"2 version {version}"),
        (family != 5, f"3 family {family}"),
        (kind not in BODIES, f"4 kind {kind}"),
        (len(datagram) > LONGEST_DATAGRAM, "5 long"),
        (length != len(datagram), f"6 length-field {length}"),
    ]:
        if holds:
            raise Refusal(text)
    status = datagram[10] if VERSIONS[version] else 0
    header = Header(version, exercise, number(datagram[4:8]), status)
    return decoded_body(kind, header, Parts(datagram, 12))


def decoded_body(kind, header, parts):
    _, layout, contents = BODIES[kind]
    fixed = Parts(parts.take(12 + sum(size for _, size in layout) + (8 if contents else 0)), 0)
    origin, target = ([number(fixed.take(2)) for _ in range(3)] for _ in range(2))
    fields = {name: fixed.take(size) for name, size in layout}
    records = []
    if contents:
        fields["fixed"], fields["variable"] = fixed.take(4), fixed.take(4)
        take_fixed, take_variable = (
            (fixed_datum, variable_datum) if contents == "datums" else (fixed_identifier, variable_identifier)
        )
        records += [take_fixed(parts) for _ in range_of(fields["fixed"])]
        records += [take_variable(parts) for _ in range_of(fields["variable"])]
    if parts.offset < len(parts.datagram):
        raise Refusal(f"8 body-long at {parts.offset}")
    return Pdu(kind, header, origin, target, fields, records)


def range_of(count):
    return range(number(count))


def fixed_datum(parts):
    part = parts.take(8)
    return f"fixed {number(part[:4])} {number(part[4:])}"


def variable_datum(parts):
    bits = number(parts.look(8)[4:])
    part = parts.take(8 + 8 * -(-bits // 64))
    value = bytearray(part[8 : 8 + -(-bits // 8)])
    if bits % 8:
        value[-1] &= 0xFF << (8 - bits % 8) & 0xFF
    return f"variable {number(part[:4])} {bits} {value.hex() or '-'}"


def fixed_identifier(parts):
    return f"fixed {number(parts.take(4))}"


def variable_identifier(parts):
    return f"variable {number(parts.take(4))}"


def field_text(name, value):
    if name in ("real", "sim"):
        return f"{name}={number(value[:4])}/{number(value[4:])}"
    return f"{name}={number(value)}"


def identifier_text(identifier):
    return ":".join(str(part) for part in identifier)


def head_of(pdu):
    header = pdu.header
    fields = [
        BODIES[pdu.kind][0],
        f"version={header.version} exercise={header.exercise} stamp={header.stamp} status={header.status}",
        f"from={identifier_text(pdu.origin)} to={identifier_text(pdu.target)}",
    ]
    return " ".join(fields + [field_text(name, value) for name, value in pdu.fields.items() if name != "padding"])


def answer_to_datagram(datagram):
    try:
        pdu = decoded(datagram)
    except Refusal as refusal:
        return Outcome(1, f"refused {refusal}\n".encode(), b"")
    return Outcome(0, "".join(line + "\n" for line in [head_of(pdu), *pdu.records]).encode(), b"")


def answer_to_hex(text):
    if len(text) > LONGEST_HEX or not re.fullmatch(rb"([0-9A-Fa-f]{2})*", text):
        return fault("hex: not byte pairs")
    return answer_to_datagram(bytes.fromhex(text.decode()))


def answer_to_lines(text):
    """The answers to hex texts, one a line: the worst status, and what is told of each line in its turn."""
    lines = text.split(b"\n")
    answers = [(number, answer_to_hex(line)) for number, line in enumerate(lines, 1) if line]
    bad = [f"hex: not byte pairs at line {number}\n" for number, answer in answers if answer.errors]
    out = b"".join(answer.out for _, answer in answers)
    return Outcome(max([answer.status for _, answer in answers], default=0), out, "".join(bad).encode())


def fault(line):
    return Outcome(2, b"", line.encode() + b"\n")


def unopened(name, reason=None):
    """How it is told that a file was not opened; of one that is not there, or whose name is too long, with no reason."""
    return fault(f"file: {name}: {reason or ('no such file' if len(name) < 256 else 'cannot be opened')}")
