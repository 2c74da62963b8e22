"""A datagram of each kind, cut to every length.

Each stands here as hex text, with the places where its parts begin: its fixed part at 12, then each datum record or
identifier. They were taken by hand from the layouts of FORMATS.md and follow from nothing in this repository. A
datagram that is cut is truncated under 12 bytes; from there on its length field tells; and where that is mended too,
its body is short at the first part that is not wholly there.
"""
import struct

from pages import Outcome

HEAD = "0000000000{:02X}0000 000100010000 000200030007 "
# The kind, what stands behind the two identifiers, and where the parts begin.
BODIES = [
    (11, "00000001", [12]),
    (12, "00000001", [12]),
    (13, "0000000100000002 0000000300000004 00000001", [12]),
    (14, "0000000100000002 02 03 0000 00000001", [12]),
    (15, "0001 0001 00000001", [12]),
    (16, "00000001 00000006 00000002 00000001 0000000A00000005 0000000B00000006 0000000500000008 4100000000000000",
     [12, 40, 48, 56]),
    (17, "00000001 00000004 00000000 00000002 0000000500000000 0000000600000041 0102030405060708 8000000000000000",
     [12, 40, 48]),
    (18, "00000001 00000000 00000002 00000001 0000000A 0000000B 00000005", [12, 40, 44, 48]),
    (19, "00000001 00000000 00000001 00000000 0000000A00000009", [12, 40]),
    (20, "00000001 00000000 00000001 00000001 0000000A00000009 0000000500000028 48454C4C4F000000", [12, 40, 48]),
    (21, "00000008 00000000 00000000 00000001 0000000500000040 0102030405060708", [12, 40]),
    (22, "00000001 00000001 0000000A00000009 000000050000000C ABC0000000000000", [12, 32, 40]),
]  # fmt: skip


def whole(kind, body):
    """The datagram of a kind with this behind its identifiers."""
    size = 24 + len(bytes.fromhex(body))
    head = f"0701{kind:02X}05 00000000 {size:04X} 00 00 000100010000 000200030007"
    return bytes.fromhex(head) + bytes.fromhex(body)


def cut(datagram, parts):
    """The datagram cut to each length, as it is and with its length field mended, and the line that refuses each."""
    for size in range(len(datagram)):
        part = datagram[:size]
        if size < 12:
            yield part, "refused 1 truncated"
            continue
        yield part, f"refused 6 length-field {len(datagram)}"
        short = max(start for start in parts if start <= size)
        yield part[:8] + struct.pack(">H", size) + part[10:], f"refused 7 body-short at {short}"


def lists():
    """Of each kind: its name, its datagrams that are cut, and their lines."""
    for kind, body, parts in BODIES:
        datagrams, lines = zip(*cut(whole(kind, body), parts))
        yield f"kind-{kind}-cut-to-every-length", datagrams, lines


def try_all(trials):
    for _, datagrams, lines in lists():
        for datagram, line in zip(datagrams, lines):
            trials.expect(["pdu", datagram.hex()], Outcome(1, f"{line}\n".encode(), b""))


def cases():
    """The same as cases of siman_cases: a case for each kind, all of its datagrams by `pdus`."""
    yield "# A datagram of each kind, cut to every length: as it is, and with its length field mended. The lines were made by"
    yield "# tools/cases/cuts.py, from tables of where the parts of each begin."
    for name, datagrams, lines in lists():
        yield f"\ncase {name}\nwords pdus\nstatus 1\ninput"
        # No line stands for a datagram of no bytes: an empty line is passed over.
        yield from (f"text {datagram.hex().upper()}" for datagram in datagrams[1:])
        yield "out"
        yield from (f"text {line}" for line in lines[1:])
