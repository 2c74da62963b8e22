"""Packets and captures as bytes: UDP in IPv4 and IPv6 and their fragments, links, records of pcap, blocks of pcapng."""
import struct

from pages.exports import checksum

ETHERNET, NULL, LOOP, RAW, IPV4_ALONE, IPV6_ALONE, COOKED, COOKED_2 = 1, 0, 108, 101, 228, 229, 113, 276
LINKS = [ETHERNET, NULL, LOOP, RAW, IPV4_ALONE, IPV6_ALONE, COOKED, COOKED_2]
UDP, TCP, ICMP, HOP_BY_HOP, ROUTING, FRAGMENT, DESTINATION = 17, 6, 1, 0, 43, 44, 60
SECTION, INTERFACE, OLD, SIMPLE, NAMES, STATISTICS, ENHANCED, CUSTOM = 0x0A0D0D0A, 1, 2, 3, 4, 5, 6, 0xBAD
OWN_CARD, OTHER_CARD, GROUP, EVERYBODY = bytes.fromhex("02000000000a"), bytes.fromhex("02000000000b"), bytes.fromhex("01005e000001"), b"\xff" * 6
KINDS = {4: 0x0800, 6: 0x86DD}


def udp(data, port=3000, size=None, source_port=3000):
    """A UDP datagram; `size` stands in its length field if it is given."""
    return struct.pack(">4H", source_port, port, len(data) + 8 if size is None else size, 0) + data


def ip4(source, target, body, protocol=UDP, identification=0, place=0, options=b"", total=None):
    """An IPv4 packet; `place` has the flags and the fragment offset in 8 bytes, `total` is its length field if given."""
    words = 5 + len(options) // 4
    total = words * 4 + len(body) if total is None else total
    head = struct.pack(">BBHHHBB", 0x40 + words, 0, total, identification, place, 64, protocol)
    rest = source + target + options
    return head + struct.pack(">H", checksum(head + rest)) + rest + body


def ip6(source, target, body, following=UDP, size=None):
    size = len(body) if size is None else size
    return struct.pack(">IHBB", 0x60000000, size, following, 64) + source + target + body


def extended(kinds, following, body):
    """The first of these extension headers, and all of them before the body; each is 8 or 16 bytes long."""
    for number, kind in reversed(list(enumerate(kinds))):
        words = number % 2
        # Pads of a hop-by-hop or destination header; a routing header of an unknown type with no segments left.
        inside = b"\0\0\0\0\0\0" if kind == ROUTING else b"\1\4\0\0\0\0"
        body = bytes([following, words]) + inside + (b"\1\6\0\0\0\0\0\0" if words else b"") + body
        following = kind
    return following, body


def parts_of(body, most):
    """A body cut into parts of at most so many bytes, a multiple of 8: where each begins, and whether it is the last."""
    starts = range(0, max(len(body), 1), most)
    return [(start, body[start : start + most], start + most >= len(body)) for start in starts]


def fragments4(source, target, body, identification, most, options=b"", protocol=UDP):
    return [
        ip4(source, target, part, protocol, identification, start // 8 | (0 if is_last else 0x2000), options)
        for start, part, is_last in parts_of(body, most)
    ]


def fragment6(source, target, part, identification, start, is_last, kinds=(), following=UDP):
    head = struct.pack(">BBHI", following, 0, start | (not is_last), identification)
    first, inside = extended(kinds, FRAGMENT, head + part)
    return ip6(source, target, inside, first)


def fragments6(source, target, body, identification, most, kinds=()):
    return [fragment6(source, target, part, identification, start, is_last, kinds) for start, part, is_last in parts_of(body, most)]


# ---- links


def on_link(link, packet, to_all=False, tags=(), version=None, order="<", went_out=False):
    """A packet of IP as the link carries it; `to_all` by a group address of Ethernet or a packet type of SLL."""
    version = packet[0] >> 4 if version is None else version
    kind = KINDS.get(version, version)
    types = [*tags, kind]
    tagged = b"".join(struct.pack(">HH", 7, following) for following in types[1:]) + packet
    if link == ETHERNET:
        target = EVERYBODY if to_all else OTHER_CARD if went_out else OWN_CARD
        return target + (OWN_CARD if went_out else OTHER_CARD) + struct.pack(">H", types[0]) + tagged
    said = 4 if went_out else 1 if to_all else 0
    if link == COOKED:
        return struct.pack(">HHH", said, 1, 6) + OTHER_CARD + bytes(2) + struct.pack(">H", types[0]) + tagged
    if link == COOKED_2:
        return struct.pack(">HHIHBB", types[0], 0, 2, 1, said, 6) + OTHER_CARD + bytes(2) + tagged
    if link in (NULL, LOOP):
        family = {4: 2, 6: (24, 28, 30)[len(packet) % 3]}.get(version, 9)
        return struct.pack(f"{'>' if link == LOOP else order}I", family) + packet
    return packet


# ---- pcap


def pcap(records, link, order="<", nano=False, minor=4, most=262_144, above=0):
    """A file of pcap; a record is its nanoseconds, the bytes that were kept, and how many there were."""
    head = struct.pack(f"{order}IHHiIII", 0xA1B23C4D if nano else 0xA1B2C3D4, 2, minor, 0, 0, most, above << 16 | link)
    return head + b"".join(pcap_record(*record, order, nano) for record in records)


def pcap_record(stamp, kept, length, order="<", nano=False):
    fraction = stamp % 10**9 // (1 if nano else 1000)
    return struct.pack(f"{order}4I", stamp // 10**9, fraction, len(kept), length) + kept


# ---- pcapng


def padded(text):
    return text + bytes(-len(text) % 4)


def block(kind, body, order="<"):
    size = struct.pack(f"{order}I", len(body) + 12)
    return struct.pack(f"{order}I", kind) + size + body + size


def options(pairs, order="<", end=True):
    text = b"".join(struct.pack(f"{order}HH", code, len(value)) + padded(value) for code, value in pairs)
    return text + (bytes(4) if end and pairs else b"")


def section(order="<", pairs=(), major=1, minor=0):
    return block(SECTION, struct.pack(f"{order}IHHq", 0x1A2B3C4D, major, minor, -1) + options(pairs, order), order)


def interface(link, order="<", name=None, resolution=None, offset=None, most=0, pairs=()):
    had = [] if name is None else [(2, name)]
    had += [] if resolution is None else [(9, bytes([resolution]))]
    had += [] if offset is None else [(14, struct.pack(f"{order}q", offset))]
    return block(INTERFACE, struct.pack(f"{order}HHI", link, 0, most) + options([*had, *pairs], order), order)


def flags(direction, order="<"):
    return [(2, struct.pack(f"{order}I", direction))]


def enhanced(number, ticks, kept, length=None, order="<", pairs=()):
    head = struct.pack(f"{order}5I", number, ticks >> 32, ticks & 0xFFFFFFFF, len(kept), len(kept) if length is None else length)
    return block(ENHANCED, head + padded(kept) + options(pairs, order), order)


def old(number, ticks, kept, length=None, order="<", pairs=()):
    length = len(kept) if length is None else length
    head = struct.pack(f"{order}HH4I", number, 0xFFFF, ticks >> 32, ticks & 0xFFFFFFFF, len(kept), length)
    return block(OLD, head + padded(kept) + options(pairs, order), order)


def simple(kept, length=None, order="<"):
    return block(SIMPLE, struct.pack(f"{order}I", len(kept) if length is None else length) + padded(kept), order)


def statistics(number, dropped=None, order="<", ticks=0, pairs=()):
    had = [] if dropped is None else [(5, struct.pack(f"{order}Q", dropped))]
    body = struct.pack(f"{order}III", number, ticks >> 32, ticks & 0xFFFFFFFF)
    return block(STATISTICS, body + options([*pairs, *had], order), order)
