"""Cases of `import` about files: links, formats, blocks, options, and what the capturing system dropped."""
import struct

from cases import frames
from cases.frames import COOKED, COOKED_2, ETHERNET, IPV4_ALONE, IPV6_ALONE, LOOP, NULL, RAW
from cases.small_captures import (
    EVERYBODY, GOOD, MANAGER, MANAGER_6, OWN, OWN_6, SECOND, answered, framed, order, packet, pcap, pcapng,
)  # fmt: skip

LARGEST = 1 << 20  # bytes of a record, or of a block that is looked into


def links(cases):
    for link in frames.LINKS:
        for version, one in ((4, packet(order(), MANAGER, OWN)), (6, packet(order(), MANAGER_6, OWN_6))):
            host = "10.0.0.3" if version == 4 else "2001:db8::3"
            for order_of in "<>" if link in (NULL, LOOP) else "<":
                frame = frames.on_link(link, one, order=order_of)
                cases.imported(f"link-{link}-version-{version}-{'little' if order_of == '<' else 'big'}", pcap([frame], link, order=order_of), host=host)
                if link == NULL:
                    cases.imported(f"link-{link}-version-{version}-in-another-order-{ord(order_of)}", pcap([frame], link, order="<>"[order_of == "<"]), host=host)
    for link in (ETHERNET, COOKED, COOKED_2):
        for tags in ((0x8100,), (0x88A8,), (0x9100,), (0x88A8, 0x8100), (0x8100,) * 5, (0x9200,)):
            frame = frames.on_link(link, packet(order()), tags=tags)
            cases.imported(f"link-{link}-tags-{'-'.join(map(hex, tags))}", pcap([frame], link))
        cases.imported(f"link-{link}-a-tag-that-ends", pcap([frames.on_link(link, b"\0", tags=(0x8100,), version=0x0800)[:-3]], link))
    for family in (2, 10, 23, 24, 28, 30):
        one = packet(order()) if family == 2 else packet(order(), MANAGER_6, OWN_6)
        for link, order_of in ((NULL, "<"), (LOOP, ">")):
            frame = struct.pack(f"{order_of}I", family) + one
            cases.imported(f"link-{link}-family-{family}", pcap([frame], link), host="10.0.0.3" if family == 2 else "2001:db8::3")
    for link in (NULL, RAW, IPV4_ALONE, IPV6_ALONE):
        body = packet(order(), MANAGER_6, OWN_6) if link in (NULL, IPV4_ALONE) else packet(order())
        body = struct.pack("<I", 2) + body if link == NULL else b"\x35" + body[1:] if link == RAW else body
        cases.imported(f"link-{link}-another-version", pcap([body], link), host="2001:db8::3" if link == IPV4_ALONE else "10.0.0.3")
    for link in (COOKED, COOKED_2):
        for kind in range(5):
            frame = bytearray(frames.on_link(link, packet(answered(), MANAGER, bytes([10, 0, 0, 255]))))
            frame[1 if link == COOKED else 10] = kind
            cases.imported(f"link-{link}-packet-type-{kind}", pcap([bytes(frame)], link))
    # From its second byte on the protocol is there, by which such a packet is `other`.
    frame = frames.on_link(COOKED_2, bytes(28), True, version=0x0806)
    for size in (1, 2, 19):
        text = frames.pcap([(SECOND * 10**9, frame[:size], len(frame))], COOKED_2)
        cases.imported(f"link-{COOKED_2}-another-protocol-cut-at-{size}", text, ["cut=keep"])
    for link in (2, 12, 127, 147, 65535):
        cases.imported(f"link-{link}-is-none", pcap([GOOD], link))
        cases.imported(f"link-{link}-is-none-that-is-asked-for", frames.section() + frames.interface(link, name=b"x") + frames.enhanced(0, 1, GOOD))
    cases.imported("a-link-that-is-none-without-packets", pcap([], 127))
    cases.imported("a-link-that-is-none-is-passed-over", frames.section() + frames.interface(127, name=b"x") + frames.enhanced(0, 1, GOOD), ["on=wire"])


def pcaps(cases):
    for order_of in "<>":
        for nano in (False, True):
            cases.imported(f"pcap-{ord(order_of)}-{'nano' if nano else 'micro'}", pcap([GOOD, GOOD], order=order_of, nano=nano, step=1999))
        text = bytearray(pcap([GOOD], order=order_of))
        text[4:6] = struct.pack(f"{order_of}H", 1)
        cases.imported(f"pcap-{ord(order_of)}-version-1", bytes(text))
    cases.imported("pcap-version-2.9", pcap([GOOD], minor=9))
    cases.imported("pcap-bits-above-the-link", pcap([GOOD], above=0x2400))
    cases.imported("pcap-fractions-above-a-second", pcap([]) + struct.pack("<4I", 5, 0xFFFFFFFF, len(GOOD), len(GOOD)) + GOOD)
    cases.imported("pcap-fractions-above-a-second-nano", pcap([], nano=True) + struct.pack("<4I", 0xFFFFFFFF, 0xFFFFFFFF, len(GOOD), len(GOOD)) + GOOD)
    for kept in (0xFFFFFFFF, LARGEST - 15, LARGEST - 16):
        cases.imported(f"pcap-a-record-of-{kept}-bytes", pcap([]) + struct.pack("<4I", 5, 0, kept, kept) + GOOD)
    cases.imported("pcap-by-its-modified-magic", b"\x34\xcd\xb2\xa1" + pcap([GOOD])[4:])
    cases.imported("pcap-on-an-interface", pcap([GOOD]), ["on=wire"])
    for text in (b"", b"\xd4", b"\xd4\xc3\xb2", b"none", b"\x1f\x8b\x08\x00" + bytes(30)):
        cases.imported(f"no-capture-{text[:4].hex() or 'empty'}", text)


START, WIRE = frames.section(), frames.interface(ETHERNET, name=b"wire")
STAMPED, OLD = frames.enhanced(0, SECOND * 10**6, GOOD), frames.old(0, SECOND * 10**6, GOOD, pairs=frames.flags(2))
RESOLUTIONS = {"none": None, "0": 0, "3": 3, "6": 6, "9": 9, "127": 127, "bits-0": 0x80, "bits-20": 0x80 | 20, "bits-127": 0xFF}


def clocks(cases):
    """Resolutions and offsets of interfaces, and stamps outside 64 bits."""
    for code, resolution in RESOLUTIONS.items():
        for ticks in (1, 999_999_999_999, (1 << 64) - 1):
            cases.imported(f"resolution-{code}-{ticks}", START + frames.interface(ETHERNET, resolution=resolution) + frames.enhanced(0, ticks, GOOD))
    for offset in (1, -1, SECOND, -(1 << 63), (1 << 63) - 1, 18446744073709):
        for ticks in (0, 1_000_000, 551_615):
            cases.imported(f"offset-{offset}-{ticks}", START + frames.interface(ETHERNET, offset=offset) + frames.enhanced(0, ticks, GOOD))
    for name, words in (("above", []), ("passed-over", ["on=other"])):
        text = START + frames.interface(ETHERNET, name=b"wire", resolution=0) + frames.enhanced(0, 1 << 63, GOOD)
        cases.imported(f"a-time-{name}", text, words)


def changed(text, place, value):
    return text[:place] + struct.pack("<I", value) + text[place + 4 :]


def packets_of_blocks():
    """Blocks behind a section's head: of packets of each kind, and their faults."""
    start, good, wire, old = START, STAMPED, WIRE, OLD
    return {
        "old": [wire, old], "simple": [wire, frames.simple(GOOD), good, frames.simple(GOOD)],
        "simple-cut": [frames.interface(ETHERNET, most=50), frames.simple(GOOD[:50], len(GOOD))],
        "simple-above-its-block": [wire, frames.simple(GOOD, len(GOOD) + 5)], "simple-of-no-interface": [frames.simple(GOOD)],
        "simple-on": [wire, frames.simple(GOOD)],
        "simple-behind-a-section": [wire, good, start, wire, frames.simple(GOOD)],
        "no-interface": [good], "another-interface": [wire, frames.enhanced(1, 0, GOOD)],
        "old-of-no-interface": [wire, frames.old(1, 0, GOOD)], "an-interface-of-the-section-before": [wire, start, good],
        "as-long-as-its-block": [wire, changed(good, 20, len(GOOD) + 2)], "longer-than-its-block": [wire, changed(good, 20, len(GOOD) + 3)],
        "old-longer-than-its-block": [wire, changed(old, 20, 1 << 31)],
    }  # fmt: skip


def other_blocks():
    """Blocks behind a section's head: of types that are passed over, of wrong lengths, too short; and sections."""
    start, good, wire = START, STAMPED, WIRE
    return {
        "another-type": [wire, frames.block(0x0BAD, b"1234"), frames.block(4, bytes(4)), frames.block(0x80000001, b""), good],
        "a-length-of-0": [wire, struct.pack("<3I", 77, 0, 12), good], "a-length-of-4": [wire, struct.pack("<3I", 77, 4, 4), good],
        "a-length-of-8": [wire, struct.pack("<3I", 77, 8, 8), good], "a-length-of-13": [wire, struct.pack("<4I", 77, 13, 13, 13), good],
        "two-lengths": [wire, good[:-4] + struct.pack("<I", len(good) - 4), good],
        **{
            f"a-length-of-{size}-of-kind-{kind}": [wire, struct.pack("<2I", kind, size), good]
            for kind in (1, 2, 3, 5, 6, 77) for size in (0xFFFFFFFC, LARGEST + 4, LARGEST)
        },
        "a-second-section-of-a-mebibyte-and-more": [wire, good, changed(start, 4, LARGEST + 4)],
        "a-short-interface": [frames.block(1, bytes(4)), good], "a-short-packet": [wire, frames.block(6, bytes(16))],
        "a-short-old-packet": [wire, frames.block(2, bytes(16))],
        "a-short-simple-packet": [wire, frames.block(3, b"")], "short-statistics": [wire, frames.block(5, bytes(8))],
        "a-short-section": [wire, frames.block(0x0A0D0D0A, struct.pack("<3I", 0x1A2B3C4D, 1, 0))],
        "a-second-section-of-no-order": [wire, good, changed(start, 8, 0x11223344)],
        "a-second-section-of-version-2": [wire, good, frames.section(major=2)],
        "a-minor-version": [frames.section(minor=9), wire, good],
    }  # fmt: skip


def blocks(cases):
    for order_of in "<>":
        cases.imported(f"pcapng-{ord(order_of)}", pcapng([GOOD, GOOD], order_of))
    both = pcapng([GOOD]) + pcapng([GOOD], ">", name="other") + pcapng([GOOD], "<", COOKED)
    for words in ([], ["on=wire"], ["on=other"], ["on=none"]):
        cases.imported("-".join(["three-sections", *words]), both, words)
    for name, some in {**packets_of_blocks(), **other_blocks()}.items():
        cases.imported(f"block-{name}", START + b"".join(some), ["on=wire"] if name == "simple-on" else [])
    old = frames.old(0, 5, GOOD, order=">", pairs=frames.flags(1, ">"))
    cases.imported("block-old-big", frames.section(">") + frames.interface(ETHERNET, ">") + old)
    for size in (LARGEST, LARGEST + 4):
        cases.imported(f"first-section-of-{size}-bytes", changed(START, 4, size) + WIRE + STAMPED)
    wrong = {"no-order": changed(START, 8, 0x11223344), "version-0": frames.section(major=0), "version-2": frames.section(major=2)}
    for name, first in wrong.items():
        cases.imported(f"first-section-of-{name}", first + WIRE + STAMPED)
    late = frames.enhanced(0, 1 << 63, GOOD)
    for name, one in {"interface": frames.enhanced(9, 1 << 63, GOOD), "length": changed(late, 20, 9999), "time": late}.items():
        cases.imported(f"first-of-its-faults-is-{name}", START + frames.interface(127, resolution=0) + one)


def options(cases):
    """Options that come twice, that have a wrong length, that run over their block, and those behind the end."""
    start, good = frames.section(), frames.enhanced(0, 5_000_000, GOOD)
    for name, pairs in {
        "resolution-twice": [(9, b"\3"), (9, b"\0")], "resolution-of-two-bytes": [(9, b"\3\3")],
        "offset-of-four-bytes": [(14, bytes([1, 0, 0, 0]))],
        "name-twice": [(2, b"other"), (2, b"wire")], "behind-the-end": [(0, b""), (9, b"\0")],
        "another": [(9, b"\6"), (1, b"a remark"), (0x8BAD, b"")],
    }.items():  # fmt: skip
        for words in ([], ["on=wire"]):
            cases.imported("-".join(["option", name, *words]), start + frames.interface(ETHERNET, name=None if "name" in name else b"wire", pairs=pairs) + good, words)
    for size in (1, 5, 0xFFFF):
        body = struct.pack("<HHI", ETHERNET, 0, 0) + struct.pack("<HH", 9, 1) + b"\3\0\0\0" + struct.pack("<HH", 14, size) + b""
        cases.imported(f"an-option-of-{size}-over-its-block", start + frames.block(1, body) + good)
    for name, pairs in {
        "twice": [*frames.flags(2), *frames.flags(1)], "of-two-bytes": [(2, b"\1\0")], "and-other-bits": [(2, b"\xfd\xff\xff\xff")],
        "behind-another": [(1, b"abc"), *frames.flags(1)],
    }.items():  # fmt: skip
        text = start + frames.interface(ETHERNET) + frames.enhanced(0, 1, framed(packet(order(), OWN, EVERYBODY))[0], pairs=pairs)
        cases.imported(f"flags-{name}", text)


def drops(cases):
    start, good = pcapng([GOOD]), frames.enhanced(0, 1, GOOD)
    other = frames.interface(ETHERNET, name=b"other")
    for name, some in {
        "none": [frames.statistics(0)], "zero": [frames.statistics(0, 0)], "three": [frames.statistics(0, 3)],
        "the-last": [frames.statistics(0, 9), frames.statistics(0, 3)],
        "the-last-that-says": [frames.statistics(0, 9), frames.statistics(0)],
        "of-two": [other, frames.statistics(0, 9), frames.statistics(1, 3)],
        "of-another-section": [frames.statistics(0, 9), start, frames.statistics(0, 3)],
        "of-no-interface": [frames.statistics(4, 9)], "of-four-bytes": [frames.statistics(0, pairs=[(5, bytes([1, 0, 0, 0]))])],
        "above-64-bits": [other, frames.statistics(0, (1 << 64) - 1), frames.statistics(1, 5)],
        "received": [frames.statistics(0, pairs=[(4, bytes([1] + [0] * 7))])],
    }.items():  # fmt: skip
        cases.imported(f"dropped-{name}", start + b"".join(some) + good)
    cases.imported("dropped-on-another", start + frames.statistics(0, 9) + other + good, ["on=other"])
    cases.imported("dropped-in-a-torn-file", start + frames.statistics(0, 9) + good[:-1], ["cut=keep"])
