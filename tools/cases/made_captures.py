"""Captures that are made up by a seed: traffic of an exercise and other traffic, as hosts capture it."""
import random
import struct
from collections import namedtuple

from cases import frames, texts
from cases.frames import COOKED, COOKED_2, ETHERNET, ICMP, IPV4_ALONE, IPV6_ALONE, LINKS, TCP, UDP

# A packet of IP, or what else the link carries under its EtherType; whether the link says that it is for all, whether
# it goes out, why tshark reads it otherwise than the page or None, its seconds after the one before it, and a number that
# all fragments of a datagram share.
Shot = namedtuple("Shot", "packet to_all out why kind later mark", defaults=(None, None, 0, 0))
# A packet of a capture: its interface's link and name, its nanoseconds or None where tshark has other ones, the bytes that
# were kept, how many there were, why tshark reads it otherwise, and the number of its section from 0.
Taken = namedtuple("Taken", "link name stamp kept length why section", defaults=(0,))
Made = namedtuple("Made", "text taken words setup")

ADDRESS, EXERCISE, STATIONS = (2, 3), 7, [(1, 1), (2, 3), (2, 4)]
SETUP = b"exercise 7\nstation 1:1\nstation 2:3\nstation 2:4\nopening 2:3 5 running\nopening 2:3 9 stopped\n"
MULTICAST = {4: [bytes([239, 1, 2, 3]), bytes([224, 0, 0, 1])], 6: [bytes.fromhex("ff02" + "00" * 13 + "01")]}
BEGAN = 1_700_000_000_000_000_000
LONGER, LATE = "a packet of IP longer than its frame", "fragments that come late"


def host(version, number):
    return bytes([10, 0, 0, number]) if version == 4 else bytes.fromhex("20010db8" + "00" * 11) + bytes([number])


class Traffic:
    """Made-up packets around the host numbered 3, to a port of the exercise."""

    def __init__(self, chance, port, version):
        self.chance, self.port, self.version = chance, port, version
        self.identification = chance.randrange(1 << 16)

    def datagram(self):
        """A management PDU of the exercise mostly; or one of another exercise or family, bundled, short or long."""
        chance, kind = self.chance, self.chance.random()
        site = chance.choice(STATIONS)
        bodies = {"request": chance.randrange(9), "flag": chance.choice([1, 3, 4]), "response": chance.choice([1, 1, 2])}
        number, values = chance.choice([(11, ["request"]), (13, ["request"]), (15, ["request", "flag", "response"]), (20, ["request"])])
        data = texts.pdu(number, (*site, 5), (*chance.choice(STATIONS), 5), exercise=EXERCISE, **{name: bodies[name] for name in values})
        if kind < 0.15:
            data += bytes(chance.randrange(4, 3000))
            data = data[:8] + struct.pack(">H", len(data)) + data[10:]
        elif kind < 0.2:
            data += data  # bundled
        elif kind < 0.25:
            data = data[:1] + bytes([EXERCISE + 1]) + data[2:]
        elif kind < 0.35:
            data = bytes([7, EXERCISE, 1, 1]) + bytes(4) + struct.pack(">H", 144) + bytes(134 * chance.choice([1, 1, 1, 3]))
        elif kind < 0.4:
            data = data[: chance.randrange(17)]
        elif kind < 0.42:
            data = data[:8] + bytes(chance.choice([8181, 8184, 8185, 9000]))
        return data

    def ends(self):
        """The source and the target of a packet, whether its link says that it is for all, and whether it goes out."""
        chance, version = self.chance, self.version
        source = host(version, chance.choice([3, 3, 1, 2, 4]))
        others = [3, 3, 1, 2, 4]
        target = chance.choice([host(version, chance.choice(others)), host(version, chance.choice(others)), *MULTICAST[version]])
        to_all = target in MULTICAST[version]
        if version == 4 and chance.random() < 0.3:
            target, to_all = chance.choice([b"\xff" * 4, bytes([10, 0, 0, 255])]), True
        return source, target, to_all, source == host(version, 3)

    def packet(self, body, source, target, protocol=UDP):
        chance = self.chance
        if self.version == 4:
            options = bytes([1]) * (4 * chance.choice([0, 0, 0, 1, 5, 10]))
            return frames.ip4(source, target, body, protocol, chance.randrange(1 << 16), chance.choice([0, 0x4000]), options)
        kinds = chance.choice([(), (), (), (0,), (0, 60), (0, 60, 43), (43,), (60,)])
        following, inside = frames.extended(kinds, protocol, body)
        return frames.ip6(source, target, inside, following)

    def one(self):
        """The packets of a datagram or of something else."""
        kind = self.chance.random()
        if kind < 0.55:
            return self.whole(frames.udp(self.datagram(), self.port))
        if kind < 0.8:
            return self.fragments()
        if kind < 0.9:
            return self.other()
        return self.malformed()

    def whole(self, body, protocol=UDP, why=None):
        source, target, to_all, out = self.ends()
        return [Shot(self.packet(body, source, target, protocol), to_all, out, why)]

    def other(self):
        """Another port, another protocol, or what is no IP at all."""
        chance = self.chance
        kind = chance.randrange(4)
        if kind == 0:
            port = chance.choice([self.port ^ 1, 53_000, 9])
            return self.whole(frames.udp(self.datagram(), port, source_port=self.port))
        if kind == 1:
            return self.whole(struct.pack(">HHIIHHHH", 40_000, self.port, 1, 1, 0x5018, 99, 0, 0) + self.datagram()[:200], TCP)
        if kind == 2:
            return self.whole(bytes([8, 0, 0, 0, 0, 1, 0, 1]) + bytes(20), ICMP if self.version == 4 else 58)
        return [Shot(bytes(28), True, False, None, chance.choice([0x0806, 0x88CC]))]

    def malformed(self):
        """A packet with a wrong length in its UDP or IP header, or in another packet."""
        chance, body = self.chance, frames.udp(self.datagram(), self.port)
        kind = chance.randrange(5)
        source, target, to_all, out = self.ends()
        if kind == 0:
            size = chance.choice([0, 7, len(body) + 1, 0xFFFF])
            return [Shot(self.packet(body[:4] + struct.pack(">H", size) + body[6:], source, target), to_all, out, "a bad UDP length" if size == 0 else None)]
        if kind == 1:
            size = chance.randrange(8, len(body) + 1)
            return [Shot(self.packet(body[:4] + struct.pack(">H", size) + body[6:], source, target), to_all, out)]
        if self.version == 6:
            return [Shot(frames.ip6(source, target, body, size=len(body) + chance.randrange(1, 40)), to_all, out, LONGER)]
        if kind == 2:
            return [Shot(frames.ip4(source, target, body, total=0), to_all, out, "a total length of 0")]
        if kind == 3:
            return [Shot(frames.ip4(source, target, body, total=20 + len(body) + chance.randrange(1, 40)), to_all, out, LONGER)]
        return [Shot(frames.ip4(source, target, frames.ip4(source, target, body), 4), to_all, out, "a packet in a packet")]

    # ---- fragments

    def fragments(self):
        """The fragments of a datagram, in any order; some datagrams are spoilt in a way."""
        chance = self.chance
        self.identification = (self.identification + 1) % (1 << 16)
        source, target, to_all, out = self.ends()
        body = frames.udp(self.datagram(), self.port if chance.random() < 0.8 else self.port ^ 1)
        most = max(8 * chance.randrange(1, 180), len(body) // 20 // 8 * 8)
        packets = self.cut_up(body, source, target, most)
        shots = [Shot(packet, to_all, out) for packet in packets]
        kind = chance.random()
        if kind < 0.4:
            chance.shuffle(shots)
        elif kind < 0.55 and len(shots) > 1:
            del shots[chance.randrange(len(shots))]
        elif kind < 0.7:
            shots = self.spoilt(shots, body, source, target, most)
        return shots

    def cut_up(self, body, source, target, most):
        if self.version == 4:
            return frames.fragments4(source, target, body, self.identification, most, bytes([1]) * self.chance.choice([0, 0, 4]))
        return frames.fragments6(source, target, body, self.identification, most, self.chance.choice([(), (), (0,), (0, 60)]))

    def spoilt(self, shots, body, source, target, most):
        """Fragments of which tshark makes a datagram, and the page none; or the other way round."""
        chance, kind = self.chance, self.chance.randrange(3)
        if kind == 0:
            again = chance.choice(shots)
            return [shot._replace(why="fragments that overlap") for shot in [*shots[:-1], again, *shots[-1:]]]
        if kind == 1:
            wider = self.cut_up(body, source, target, most * 2)
            shots = [*shots[:1], *(Shot(packet, shots[0].to_all, shots[0].out) for packet in wider[1:]), *shots[1:]]
            return [shot._replace(why="fragments that overlap") for shot in shots]
        late = chance.choice([29, 30, 31])
        shots = [*shots[:-1], shots[-1]._replace(later=late)]
        return [shot._replace(why=LATE) for shot in shots]

    def mixed(self, count):
        """So many datagrams; the fragments of some come between those of others."""
        lists, shots = [[shot._replace(mark=mark) for shot in self.one()] for mark in range(count)], []
        while lists:
            chosen = self.chance.randrange(min(3, len(lists)))
            shots.append(lists[chosen].pop(0))
            if not lists[chosen]:
                del lists[chosen]
        return shots


def shots_of(chance, port, count):
    """Traffic of both versions of IP, each in its own order."""
    both = [Traffic(chance, port, version).mixed(count) for version in (4, 6)]
    shots = []
    while any(both):
        some = chance.choice([part for part in both if part])
        shots.append(some.pop(0))
    return shots


def fits(shot, link):
    """Whether a link can carry a packet."""
    if link in (ETHERNET, COOKED, COOKED_2):
        return True
    return shot.kind is None and shot.packet[0] >> 4 in {IPV4_ALONE: (4,), IPV6_ALONE: (6,)}.get(link, (4, 6))


def number_for(shot, links):
    """The number of the interface that carries a packet, the same for all fragments of a datagram; or None."""
    numbers = [number for number, (link, _) in enumerate(links) if fits(shot, link)]
    return numbers[shot.mark % len(numbers)] if numbers else None


def framed(chance, shot, link, order, has_tags):
    # tshark puts together fragments of one virtual network alone: those of a datagram have the same tags.
    tags = [(), (), (), (0x8100,), (0x88A8, 0x8100), (0x9100, 0x8100)][shot.mark % 6] if has_tags else ()
    tags = tags if link in (ETHERNET, COOKED, COOKED_2) else ()
    frame = frames.on_link(link, shot.packet, shot.to_all, tags, shot.kind, order, shot.out)
    return frame + bytes(max(0, 60 - len(frame))) if link == ETHERNET and chance.random() < 0.7 else frame


def with_late(shots):
    """Shots of which the parts of a datagram say that they come late, where another's delay comes between them."""
    clock, spans = 0, {}
    for shot in shots:
        clock += shot.later
        spans[whole_of(shot)] = spans.get(whole_of(shot), (clock, clock))[0], clock
    late = {whole for whole, (first, last) in spans.items() if last - first >= 29}
    return [shot._replace(why=shot.why or LATE) if whole_of(shot) in late else shot for shot in shots]


def whole_of(shot):
    """What all fragments of a datagram share."""
    return shot.packet[0] >> 4, shot.mark


def takings(chance, shots, links, order, snap, stamp, steps, has_tags=True):
    """The packets of a capture over interfaces, pairs of a link and a name: the number of each one's, and its shot."""
    for shot in shots:
        stamp += shot.later * 10**9 + chance.choice(steps)
        number = number_for(shot, links)
        if number is not None:
            frame = framed(chance, shot, links[number][0], order, has_tags)
            yield number, Taken(*links[number], stamp, frame[:snap], len(frame), shot.why), shot


def words_of(chance, port, version, names=()):
    """The words of the command line behind ADDRESS, without files."""
    more = [[f"port={port}"] if port != 3000 or chance.random() < 0.2 else [], ["cut=keep"], ["echo"] * (chance.random() < 0.4)]
    more += [["shared"] * (chance.random() < 0.4), chance.choice([[], [], ["opening=none"], ["opening=assumed"]])]
    more += [[f"on={chance.choice(names)}"]] if names and chance.random() < 0.3 else []
    chance.shuffle(more)
    return ["10.0.0.3" if version == 4 else "2001:db8::3", *(word for part in more for word in part)]


def made(seed, count=12):
    """A capture by a seed, the packets in it, and words for it."""
    chance = random.Random(seed)
    port = chance.choice([3000, 3000, 3000, 6993])
    shots, snap = with_late(shots_of(chance, port, count)), chance.choice([None, None, None, 100, 60])
    text, taken, version, names = (made_pcap if chance.random() < 0.4 else made_pcapng)(chance, shots, snap)
    text = text[: len(text) - chance.choice([0, 0, 0, 1, 7, 17])]
    return Made(text, taken, words_of(chance, port, version, names), SETUP)


def version_for(chance, links):
    return {(IPV4_ALONE,): 4, (IPV6_ALONE,): 6}.get(tuple({link for link, _ in links}), chance.choice([4, 6]))


def made_pcap(chance, shots, snap):
    order, link, nano = chance.choice("<>"), chance.choice(LINKS), chance.random() < 0.5
    stamp = BEGAN + chance.randrange(10**12)
    taken = [one for _, one, _ in takings(chance, shots, [(link, None)], order, snap, stamp, [0, 999, 1000, 10**5, 10**6])]
    # The bits above the link type may say how long a check sequence stands at the end of each frame.
    above, check = (0x2400, bytes(4)) if link == ETHERNET and not snap and chance.random() < 0.3 else (0, b"")
    records = [(one.stamp, one.kept + check, one.length + len(check)) for one in taken]
    text = frames.pcap(records, link, order, nano, above=above)
    return text, taken, version_for(chance, [(link, None)]), []


# ---- pcapng

NAMES_OF_INTERFACES = [b"eth0", b"any", b"tap 0", b"eth1", None]
# Resolutions in which clocks of several interfaces keep their order, and for one alone coarser ones; with an offset, finer.
# Above 64 bits a billion times the fraction of a second runs over in tshark: its stamps are not compared.
FINE, COARSE, FINEST, RUNS_OVER = [None, 6, 9, 0x80 | 20, 0x80 | 30], [3, 0, 0x80 | 10], [12, 0x80 | 33], [12]


def made_pcapng(chance, shots, snap):
    """One to three sections, each with its byte order and its interfaces."""
    count, text, taken, stamp, links = chance.choice([1, 1, 2, 3]), b"", [], BEGAN + chance.randrange(10**12), []
    size = -(-len(shots) // count)
    for number, first in enumerate(range(0, len(shots), size)):
        section = Section(chance, snap, count == 1)
        part, some, stamp = section.made(shots[first : first + size], stamp)
        text, links = text + part, links + section.links
        taken += [one._replace(section=number) for one in some]
    names = [name.decode() for _, name in links if name]
    return text, taken, version_for(chance, links), names


class Section:
    """A section of a capture that is made up."""

    def __init__(self, chance, snap, is_alone):
        self.chance, self.snap, self.order = chance, snap, chance.choice("<>")
        names = chance.sample(NAMES_OF_INTERFACES, chance.choice([1, 1, 2, 3]))
        self.links, self.is_alone = [(chance.choice(LINKS), name) for name in names], is_alone
        self.clocks = [self.clock(is_alone and len(names) == 1) for _ in names]

    def clock(self, is_alone):
        """The resolution and the offset of an interface."""
        chance = self.chance
        if chance.random() < 0.2:
            return chance.choice(FINEST), BEGAN // 10**9 - 100
        return chance.choice(FINE + (COARSE if is_alone else [])), chance.choice([None, None, 0, 3600, -3600])

    def head(self):
        chance, order = self.chance, self.order
        text = frames.section(order, chance.choice([[], [(4, b"a tool"), (1, b"made up")]]), minor=chance.choice([0, 0, 2]))
        for (link, name), (resolution, offset) in zip(self.links, self.clocks):
            comments = chance.choice([[], [(1, b"what")], [(8, bytes(8)), (12, b"Linux")]])
            text += frames.interface(link, order, name, resolution, offset, self.snap or chance.choice([0, 262_144]), comments)
        return text

    def ticks(self, number, stamp):
        resolution, offset = self.clocks[number]
        resolution = 6 if resolution is None else resolution
        unit = 2 ** (resolution & 0x7F) if resolution & 0x80 else 10**resolution
        return (stamp - (offset or 0) * 10**9) * unit // 10**9

    def made(self, shots, stamp):
        """The text of the section, its packets, and the stamp of the last one."""
        chance, text, taken, is_first = self.chance, self.head(), [], True
        steps = [2000, 10**5, 10**6]
        for number, one, shot in takings(chance, shots, self.links, self.order, self.snap, stamp, steps, self.is_alone):
            text += self.between()
            kind = "simple" if number == 0 and not is_first and chance.random() < 0.15 else chance.choice(["enhanced"] * 5 + ["old"])
            text += self.packet(kind, number, one, shot)
            is_unstamped = kind == "simple" or self.clocks[number][0] in RUNS_OVER
            taken.append(one._replace(stamp=None) if is_unstamped else one)
            stamp, is_first = one.stamp, False
        return text, taken, stamp

    def packet(self, kind, number, one, shot):
        chance, order = self.chance, self.order
        if kind == "simple":
            return frames.simple(one.kept, one.length, order)
        said = chance.choice([None, None, 0, 3, *([2 if shot.out else 1] * 5), 1, 2])
        pairs = ([] if said is None else frames.flags(said, order)) + chance.choice([[], [], [(1, b"a remark")]])
        write = frames.enhanced if kind == "enhanced" else frames.old
        return write(number, self.ticks(number, one.stamp), one.kept, one.length, order, pairs)

    def between(self):
        """Now and then a block that holds no packet."""
        chance, order = self.chance, self.order
        kind = chance.randrange(20)
        if kind == 0:
            return frames.statistics(chance.randrange(len(self.links)), chance.choice([None, 0, 0, 3]), order)
        if kind == 1:
            return frames.block(frames.NAMES, bytes(4), order)
        # No custom block: tshark counts each as a frame.
        return frames.block(0x40000000 + chance.randrange(9), b"anything", order) if kind == 2 else b""
