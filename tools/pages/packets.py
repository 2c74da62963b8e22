"""What a captured packet carries: links, IPv4 and IPv6, fragments and UDP.

Of a packet that was cut, what the bytes say that are there.
"""
import struct
from collections import namedtuple

__all__ = ["Assembly", "Carried", "LinkFault", "Nothing", "carried", "of_datagram"]

# What a packet carries: its source and target as bytes, whether its link says that it is for all, the fragment that it
# is or None, the target port and the size of its UDP datagram, the bytes of that, and whether it is wholly there. None
# for what the bytes do not say.
Carried = namedtuple("Carried", "source target for_all part port size data is_whole")
Part = namedtuple("Part", "key start data is_last")
# What is held of a datagram: which in turn it began, the stamp of its first part, its parts, and its end once it is told.
Held = namedtuple("Held", "turn began parts end")

ETHERNET, RAW, IPV4_ALONE, IPV6_ALONE, NULL, LOOP, COOKED, COOKED_2 = 1, 101, 228, 229, 0, 108, 113, 276
RAW_LINKS = {RAW: (4, 6), IPV4_ALONE: (4,), IPV6_ALONE: (6,)}
IPV4, IPV6, TAGS = 0x0800, 0x86DD, (0x8100, 0x88A8, 0x9100)
VERSIONS = {IPV4: (4,), IPV6: (6,)}
INET, INET_6 = (2,), (10, 24, 28, 30)  # on Linux, NetBSD and OpenBSD, FreeBSD, macOS
BROADCAST, MULTICAST = 1, 2
UDP, FRAGMENT, EXTENSIONS = 17, 44, (0, 43, 60)
MOST_HELD, LARGEST, LONGEST_WAIT = 64, 65_535, 30_000_000


class Nothing(Exception):
    """A packet carries no UDP datagram over IP."""


class LinkFault(Exception):
    """A link is none of those that are read."""


class Missing(Exception):
    """A packet was cut before the bytes that are asked for."""


class Bytes:
    """The bytes of a packet, one field after the other."""

    def __init__(self, packet):
        self.text, self.at, self.is_cut, self.order = packet.kept, 0, len(packet.kept) < packet.length, packet.order
        self.seen = {"source": None, "target": None, "for_all": None, "part": None, "port": None, "size": None, "data": b""}

    def take(self, size):
        part = self.text[self.at : self.at + size]
        if len(part) < size:
            raise Missing if self.is_cut else Nothing
        self.at += size
        return part

    def number(self, size):
        return int.from_bytes(self.take(size), "big")

    def want(self, holds):
        if not holds:
            raise Nothing


def carried(packet):
    """What a packet carries, or Nothing."""
    it = Bytes(packet)
    try:
        read_ip(it, read_link(it, packet.link))
    except Missing:
        return Carried(**it.seen, is_whole=False)
    return Carried(**it.seen, is_whole=True)


def read_link(it, link):
    """The versions of IP that may stand behind the link's header."""
    it.seen["for_all"] = None if link in (ETHERNET, COOKED, COOKED_2) else False
    if link in RAW_LINKS:
        return RAW_LINKS[link]
    if link in (NULL, LOOP):
        family = it.take(4)
        family = int.from_bytes(family, "little" if link == NULL and it.order == "<" else "big")
        it.want(family in INET + INET_6)
        return (4,) if family in INET else (6,)
    if link == ETHERNET:
        it.seen["for_all"] = bool(it.take(6)[0] & 1)
        it.take(6)
        return read_kind(it, it.number(2))
    if link == COOKED:
        it.seen["for_all"] = it.number(2) in (BROADCAST, MULTICAST)
        it.take(12)
        return read_kind(it, it.number(2))
    if link == COOKED_2:
        kind = it.number(2)
        it.want(kind in VERSIONS or kind in TAGS)
        it.take(8)
        it.seen["for_all"] = it.number(1) in (BROADCAST, MULTICAST)
        it.take(9)
        return read_kind(it, kind)
    raise LinkFault


def read_kind(it, kind):
    """The versions of IP that an EtherType says, behind any tags."""
    while kind in TAGS:
        it.take(2)
        kind = it.number(2)
    it.want(kind in VERSIONS)
    return VERSIONS[kind]


def read_ip(it, versions):
    first = it.number(1)
    it.want(first >> 4 in versions)
    (read_ipv4 if first >> 4 == 4 else read_ipv6)(it, it.at - 1, first)


def end_at(it, end):
    """The packet ends here: what stands behind it is no part of it."""
    it.want(it.is_cut or end <= len(it.text))
    it.is_cut = end > len(it.text)
    it.text = it.text[:end]


def read_ipv4(it, start, first):
    header = (first & 15) * 4
    it.want(header >= 20)
    it.take(1)
    total = it.number(2)
    it.want(total >= header)
    end_at(it, start + total)
    identification, place = it.take(2), it.number(2)
    it.take(1)
    it.want(it.number(1) == UDP)
    it.take(2)
    it.seen["source"], it.seen["target"] = it.take(4), it.take(4)
    if place & 0x3FFF:
        read_part(it, start + total, identification, (place & 0x1FFF) * 8, not place & 0x2000, header - 20)
    else:
        it.take(header - 20)
        read_udp(it, total - header)


def read_ipv6(it, start, first):
    it.take(3)
    end = start + 40 + it.number(2)
    end_at(it, end)
    following = it.number(1)
    it.want(following in (UDP, FRAGMENT, *EXTENSIONS))
    it.take(1)
    it.seen["source"], it.seen["target"] = it.take(16), it.take(16)
    while following in EXTENSIONS:
        it.want(it.at + 2 <= end)
        following = it.number(1)
        it.want(following in (UDP, FRAGMENT, *EXTENSIONS))
        size = it.number(1) * 8 + 8
        it.want(it.at - 2 + size <= end)
        it.take(size - 2)
    if following == FRAGMENT:
        it.want(it.at + 8 <= end)
        it.want(it.number(1) == UDP)
        it.take(1)
        place = it.number(2)
        read_part(it, end, it.take(4), place & 0xFFF8, not place & 1)
    else:
        read_udp(it, end - it.at)


def read_part(it, end, identification, start, is_last, options=0):
    """A fragment, behind so many bytes of options; one that was cut, in its data or in these, has no data."""
    key = it.seen["source"], it.seen["target"], identification
    it.seen["part"] = Part(key, start, b"", is_last)
    it.take(options)
    it.seen["part"] = Part(key, start, it.take(end - it.at), is_last)


def read_udp(it, room):
    it.want(room >= 8)
    it.take(2)
    it.seen["port"] = it.number(2)
    size = it.number(2) - 8
    it.want(0 <= size <= room - 8)
    it.seen["size"] = size
    it.take(2)
    it.seen["data"] = it.text[it.at : it.at + size]
    it.take(size)


def of_datagram(seen, datagram):
    """What a packet carries that completes this datagram."""
    port, size = struct.unpack_from(">2xHH", datagram) if len(datagram) >= 8 else (0, 0)
    if not 8 <= size <= len(datagram):
        raise Nothing
    return seen._replace(part=None, port=port, size=size - 8, data=datagram[8:size])


class Assembly:
    """The datagrams of which parts are held."""

    def __init__(self):
        self.held, self.turns = {}, 0

    def take(self, part, stamp):
        """The datagram that a part completes, or None."""
        held = self.held.pop(part.key, None)
        if held is None or not held.began <= stamp < held.began + LONGEST_WAIT:
            self.turns += 1
            held = Held(self.turns, stamp, {}, None)
        held = with_part(held, part)
        if held is None:
            return None
        if held.end is not None and sum(map(len, held.parts.values())) == held.end:
            return b"".join(data for _, data in sorted(held.parts.items()))
        if len(self.held) == MOST_HELD:
            del self.held[min(self.held, key=lambda key: self.held[key].turn)]
        self.held[part.key] = held
        return None


def with_part(held, part):
    """What is held with one more part, or None where it does not fit."""
    end = part.start + len(part.data)
    if end > LARGEST or not part.is_last and (not part.data or len(part.data) % 8):
        return None
    others = [(start, start + len(data)) for start, data in held.parts.items()]
    if any(part.start < stop and start < end for start, stop in others):
        return None
    if part.is_last and (held.end is not None or any(stop > end for _, stop in others)):
        return None
    if held.end is not None and end > held.end:
        return None
    return held._replace(parts={**held.parts, part.start: part.data}, end=end if part.is_last else held.end)
