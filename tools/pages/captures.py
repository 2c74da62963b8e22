"""The packets of a capture: files of pcap and of pcapng, and at which field one is none."""
import struct
from collections import namedtuple

__all__ = ["Capture", "CaptureFault", "Packet", "Torn"]

# A packet: where its record or block stands, its stamp in microseconds, its link type, the name of its interface or
# None, its direction (0 where it says none), the bytes that were kept of it, how many it had, and the byte order of the
# host that captured it.
Packet = namedtuple("Packet", "at stamp link name direction kept length order")
Interface = namedtuple("Interface", "link most name resolution offset")
Block = namedtuple("Block", "at kind body order")

CAME_IN, WENT_OUT = 1, 2
# What a fraction of a second in a pcap file is divided by for microseconds.
PCAP_FRACTIONS = {0xA1B2C3D4: 1, 0xA1B23C4D: 1000}
SECTION, INTERFACE, OLD, SIMPLE, STATISTICS, ENHANCED = 0x0A0D0D0A, 1, 2, 3, 5, 6
BYTE_ORDER = 0x1A2B3C4D
# How many bytes the body of a block has at least.
LEAST_BODIES = {SECTION: 16, INTERFACE: 8, OLD: 20, SIMPLE: 4, STATISTICS: 12, ENHANCED: 20}
LARGEST = 1 << 20  # bytes of a record, or of a block that is looked into
IF_NAME, IF_TSRESOL, IF_TSOFFSET, FLAGS, IF_DROP = 2, 9, 14, 2, 5
MICROSECONDS = 1_000_000


class CaptureFault(Exception):
    """A file is no capture: the name and the offset of the bad field."""


class Torn(Exception):
    """The file ends in the middle of a record or block."""


def field(text, at, form):
    return struct.unpack_from(form, text, at)[0]


class Capture:
    """A capture by its bytes: its packets, and what was dropped by the time that they are read."""

    def __init__(self, text):
        self.text = text
        self.sections, self.interfaces, self.stamp, self.drops = 0, [], 0, {}

    def dropped(self):
        return min(sum(self.drops.values()), (1 << 64) - 1)

    def packets(self):
        """The packets in their order; a fault, or Torn behind the last whole one."""
        if len(self.text) < 4:
            raise CaptureFault("magic at 0")
        if field(self.text, 0, "<I") == SECTION:
            yield from self.packets_of_blocks()
            return
        for order in "<>":
            divisor = PCAP_FRACTIONS.get(field(self.text, 0, f"{order}I"))
            if divisor:
                yield from self.packets_of_records(order, divisor)
                return
        raise CaptureFault("magic at 0")

    def cut_off(self):
        return CaptureFault(f"truncated at {len(self.text)}")

    # pcap

    def packets_of_records(self, order, divisor):
        if len(self.text) < 24:
            raise self.cut_off()
        if field(self.text, 4, f"{order}H") != 2:
            raise CaptureFault("version at 4")
        link, at = field(self.text, 20, f"{order}I") & 0xFFFF, 24
        while at < len(self.text):
            if at + 16 > len(self.text):
                raise Torn
            seconds, fraction, kept, length = struct.unpack_from(f"{order}4I", self.text, at)
            end = at + 16 + kept
            if end - at > LARGEST:
                raise CaptureFault(f"block at {at + 8}")
            if end > len(self.text):
                raise Torn
            stamp = seconds * MICROSECONDS + fraction // divisor
            yield Packet(at, stamp, link, None, 0, self.text[at + 16 : end], length, order)
            at = end

    # pcapng

    def blocks(self):
        """The blocks, each whole and with two lengths that agree."""
        at, order = 0, None
        while at < len(self.text):
            head = self.text[at : at + 12]
            if head[:4] == SECTION.to_bytes(4, "big") and len(head) == 12:
                order = {field(head, 8, f"{order}I"): order for order in "<>"}.get(BYTE_ORDER)
                if order is None:
                    raise CaptureFault(f"magic at {at + 8}")
            if len(head) < 8 or head[:4] == SECTION.to_bytes(4, "big") and len(head) < 12:
                raise Torn
            kind, size = struct.unpack_from(f"{order}2I", head)
            if size < 12 or size % 4 or kind in LEAST_BODIES and size > LARGEST:
                raise CaptureFault(f"block at {at + 4}")
            end = at + size
            if end > len(self.text):
                raise Torn
            if field(self.text, end - 4, f"{order}I") != size:
                raise CaptureFault(f"block at {end - 4}")
            if size - 12 < LEAST_BODIES.get(kind, 0):
                raise CaptureFault(f"block at {at + 4}")
            yield Block(at, kind, self.text[at + 8 : end - 4], order)
            at = end

    def packets_of_blocks(self):
        takes = {SECTION: self.begin, INTERFACE: self.describe, STATISTICS: self.count_drops}
        reads = {ENHANCED: self.enhanced, SIMPLE: self.simple, OLD: self.old}
        try:
            for block in self.blocks():
                if block.kind in takes:
                    takes[block.kind](block)
                if block.kind in reads:
                    yield reads[block.kind](block)
        except Torn:
            if not self.sections:
                raise self.cut_off() from None
            raise

    def begin(self, block):
        if field(block.body, 4, f"{block.order}H") != 1:
            raise CaptureFault(f"version at {block.at + 12}")
        self.sections += 1
        self.interfaces, self.stamp = [], 0

    def describe(self, block):
        link, _, most = struct.unpack_from(f"{block.order}HHI", block.body)
        had = options(block.body[8:], block.order, {IF_NAME: None, IF_TSRESOL: 1, IF_TSOFFSET: 8})
        offset = field(had[IF_TSOFFSET], 0, f"{block.order}q") if IF_TSOFFSET in had else 0
        resolution = had[IF_TSRESOL][0] if IF_TSRESOL in had else 6
        self.interfaces.append(Interface(link, most, had.get(IF_NAME), resolution, offset))

    def count_drops(self, block):
        number = field(block.body, 0, f"{block.order}I")
        had = options(block.body[12:], block.order, {IF_DROP: 8})
        if IF_DROP in had and number < len(self.interfaces):
            self.drops[self.sections, number] = field(had[IF_DROP], 0, f"{block.order}Q")

    def interface(self, block, number):
        if number >= len(self.interfaces):
            raise CaptureFault(f"interface at {block.at + 8}")
        return self.interfaces[number]

    def enhanced(self, block):
        return self.stamped(block, *struct.unpack_from(f"{block.order}5I", block.body))

    def old(self, block):
        number, _, *rest = struct.unpack_from(f"{block.order}HH4I", block.body)
        return self.stamped(block, number, *rest)

    def stamped(self, block, number, upper, lower, kept, length):
        interface = self.interface(block, number)
        if kept > len(block.body) - 20:
            raise CaptureFault(f"block at {block.at + 20}")
        stamp = stamp_of(upper << 32 | lower, interface)
        if stamp not in range(1 << 64):
            raise CaptureFault(f"time at {block.at + 12}")
        self.stamp = stamp
        had = options(block.body[20 + kept + -kept % 4 :], block.order, {FLAGS: 4})
        direction = field(had[FLAGS], 0, f"{block.order}I") & 3 if FLAGS in had else 0
        link, name = interface.link, interface.name
        return Packet(block.at, stamp, link, name, direction, block.body[20 : 20 + kept], length, block.order)

    def simple(self, block):
        interface, length = self.interface(block, 0), field(block.body, 0, f"{block.order}I")
        kept = min(length, interface.most) if interface.most else length
        if kept > len(block.body) - 4:
            raise CaptureFault(f"block at {block.at + 8}")
        link, name = interface.link, interface.name
        return Packet(block.at, self.stamp, link, name, 0, block.body[4 : 4 + kept], length, block.order)


def options(text, order, wanted):
    """The values of the options that are wanted, each with its size if it has one; of several the last."""
    had, at = {}, 0
    while at + 4 <= len(text):
        code, size = struct.unpack_from(f"{order}2H", text, at)
        value = text[at + 4 : at + 4 + size]
        if code == 0 or len(value) < size:
            break
        if code in wanted and wanted[code] in (None, size):
            had[code] = value
        at += 4 + size + -size % 4
    return had


def stamp_of(ticks, interface):
    """The microseconds of a stamp, rounded down."""
    base, power = (2, interface.resolution & 0x7F) if interface.resolution & 0x80 else (10, interface.resolution)
    return ticks * MICROSECONDS // base**power + interface.offset * MICROSECONDS
