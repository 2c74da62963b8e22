"""Datagrams of each kind: whole, cut, longer, and with fields changed; and the layouts of FORMATS.md."""
import re
import struct

import pages
from cases import texts
from cases.examples import README_DATAGRAM, TOP


def with_length(datagram):
    return datagram[:8] + struct.pack(">H", len(datagram)) + datagram[10:]


def try_datagrams(trials):
    for datagram in texts.sample_datagrams():
        ways = {datagram, datagram + b"\0", with_length(datagram + b"\0"), with_length(datagram + b"\0" * 8)}
        for size in range(len(datagram)):
            ways.add(with_length(datagram[:size]) if size >= 12 else datagram[:size])
        ways.add(datagram[:-1])
        for place in [0, 2, 3, 8, 9, 11, *range(24, len(datagram), 3)]:
            ways.add(datagram[:place] + bytes([datagram[place] ^ 1 << place % 8]) + datagram[place + 1 :])
        for way in sorted(ways):
            trials.expect(["pdu", way.hex()], pages.answer_to_datagram(way))
        for version in (5, 6, 8):
            other = bytes([version]) + datagram[1:]
            trials.expect(["pdu", other.hex()], pages.answer_to_datagram(other))
    for place, values in {0: (0, 6, 8), 2: (0, 10, 23, 255), 3: (0, 4, 10), 4: (255,), 8: (1, 255), 10: (9,)}.items():
        for value in values:
            changed = bytearray.fromhex(README_DATAGRAM.decode())
            changed[place] = value
            trials.expect(["pdu", changed.hex()], pages.answer_to_datagram(bytes(changed)))


def try_largest_datagrams(trials):
    for count, size in [(1019, 8192), (1020, 8200)]:
        datum = texts.fixed_datum(1, 2) * count
        datagram = texts.pdu(pages.SET_DATA, texts.DIRECTOR, texts.SEVEN, fixed=count, records=datum)
        trials.state("the size of a datagram", size, len(datagram))
        trials.expect(["pdu", datagram.hex()], pages.answer_to_datagram(datagram))
    empty = texts.pdu(pages.SET_DATA, texts.DIRECTOR, texts.SEVEN, fixed=0xFFFFFFFF, variable=0xFFFFFFFF)
    huge = texts.pdu(22, texts.DIRECTOR, texts.SEVEN, variable=1, records=struct.pack(">II", 1, 0xFFFFFFFF))
    for datagram in [empty, huge]:
        trials.expect(["pdu", datagram.hex()], pages.answer_to_datagram(datagram))


def tables_of_layouts():
    """The offsets and sizes of the fields of each kind, as FORMATS.md has them from byte 24 on, without the records."""
    tables = {}
    page = (TOP / "docs" / "integrators" / "FORMATS.md").read_text(encoding="utf-8")
    for section in page.partition("\n## Layouts")[2].partition("\n## ")[0].split("\n### ")[1:]:
        fields = [(int(at), int(size)) for at, size in re.findall(r"^\| (\d+) \| (\d+) \|", section, re.MULTILINE)]
        for kind in re.findall(r"\((\d+)\)", section.splitlines()[0]):
            tables[int(kind)] = fields
    return tables


def try_layouts(trials):
    tables = tables_of_layouts()
    for kind, (name, layout, contents) in pages.BODIES.items():
        sizes = [part for _, size in layout for part in ([4, 4] if size == 8 else [size])] + [4, 4] * bool(contents)
        fields = [(24 + sum(sizes[:place]), size) for place, size in enumerate(sizes)]
        trials.state(f"the layout of {name} in FORMATS.md", fields, tables.get(kind))


def try_all(trials, _):
    try_layouts(trials)
    try_datagrams(trials)
    try_largest_datagrams(trials)
