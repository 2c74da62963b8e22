"""Cases of `import`: captures of the examples, and small ones for each row of the counts, each way, word and fault."""
import pages
from cases import frames, import_formats, texts
from cases.captured import HOSTS, bytes_of
from cases.examples import TOP
from cases.exports import Exports, back
from cases.failing import hexes
from cases.frames import ETHERNET
from cases.made_captures import EXERCISE, SETUP
from cases.small_captures import (
    EVERYBODY, GOOD, GROUP_6, MANAGER, MANAGER_6, OTHER, OWN, OWN_6, SECOND, answered, framed, order, packet, pcap, pcapng,
)  # fmt: skip
from pages import Outcome


# ---- captures of the examples


def worked(cases):
    setup = (TOP / "examples" / "captures" / "setup.script").read_bytes()
    for words in (["echo"], []):
        names = []
        for address, number in HOSTS.items():
            cases.imported(f"host-{number}{'-with-echo' * len(words)}", bytes_of(f"host{number}.pcap.hex"), words, f"10.77.0.{number}", address, setup)
            name = "-".join(["log", str(number), *words])
            names.append((name, cases.imported(f"{name}-is-kept", bytes_of(f"host{number}.pcap.hex"), words, f"10.77.0.{number}", address, setup, name)))
        joined = "-".join(["joined", *words])
        cases.case(f"{joined}-is-made")
        answer, text = pages.answer_to_join(names, "closed")
        cases.told(["join", *(name for name, _ in names), joined, "form=closed"], [*(name for name, _ in names), f"make {joined}"], answer, keep=joined)
        cases.case(f"{joined}-is-audited")
        verdict = pages.answer_to_audit(text)
        steps = "-".join(["steps", *words])
        cases.told(["audit", joined, steps], [joined, *([f"make {steps}"] if verdict.status == 0 else [])], verdict, keep=steps if verdict.status == 0 else None)


# ---- rows of the counts


def others():
    """Frames that are `other`, by name."""
    data = order()
    udp = frames.udp(data)
    yield "another-port", packet(data, port=3001)
    yield "tcp", frames.ip4(MANAGER, OWN, udp, frames.TCP)
    yield "another-family", packet(data[:3] + b"\1" + data[4:])
    yield "three-bytes", packet(data[:3])
    yield "8193-bytes", packet(data[:4] + b"v" * 8189)
    yield "no-version-of-ip", b"\x55" + packet(data)[1:]
    yield "a-header-of-16-bytes", b"\x44" + packet(data)[1:]
    yield "a-total-below-its-header", frames.ip4(MANAGER, OWN, udp, total=19)
    yield "a-total-below-its-header-of-24-bytes", frames.ip4(MANAGER, OWN, udp, total=23, options=bytes([1, 1, 1, 0]))
    yield "a-packet-longer-than-its-frame", frames.ip4(MANAGER, OWN, udp, total=20 + len(udp) + 1)
    yield "a-header-longer-than-its-frame", packet(data)[:19]
    yield "options-longer-than-its-frame", b"\x4f" + packet(data)[1:3] + b"\x3c" + packet(data)[4:58]
    yield "a-udp-header-that-is-cut", frames.ip4(MANAGER, OWN, udp[:7])
    yield "a-udp-length-of-7", frames.ip4(MANAGER, OWN, frames.udp(data, size=7))
    yield "a-udp-length-above-ip", frames.ip4(MANAGER, OWN, frames.udp(data, size=len(udp) + 1))
    yield "ipv6-icmp", frames.ip6(MANAGER_6, GROUP_6, bytes(8), 58)
    yield "ipv6-no-next-header", frames.ip6(MANAGER_6, GROUP_6, b"", 59)
    yield "ipv6-longer-than-its-frame", frames.ip6(MANAGER_6, GROUP_6, udp, size=len(udp) + 1)
    yield "ipv6-a-jumbogram", frames.ip6(MANAGER_6, GROUP_6, udp, size=0)
    yield "ipv6-a-header-above-the-packet", frames.ip6(MANAGER_6, GROUP_6, bytes([17, 9, 1, 4, 0, 0, 0, 0]) + udp, 0)
    yield "ipv6-authenticated", frames.ip6(MANAGER_6, GROUP_6, bytes([17]) + bytes(7) + udp, 51)
    yield "ipv6-a-fragment-of-icmp", frames.fragment6(MANAGER_6, GROUP_6, bytes(16), 1, 0, False, following=58)
    kinds, inside = frames.extended((60,), 17, udp)
    yield "ipv6-a-fragment-with-a-header-behind-it", frames.fragment6(MANAGER_6, GROUP_6, inside, 1, 0, False, following=kinds)
    yield "a-fragment-of-tcp", frames.ip4(MANAGER, OWN, bytes(16), frames.TCP, 1, 0x2000)


def rows(cases):
    for name, one in others():
        cases.imported(f"other-{name}", pcap([GOOD, *framed(one), GOOD]))
    cases.imported("other-arp", pcap([frames.on_link(ETHERNET, bytes(28), True, version=0x0806)]))
    cases.imported("other-a-frame-of-13-bytes", pcap([GOOD[:13], GOOD]))
    cases.imported("other-no-bytes", pcap([b"", GOOD]))
    cases.imported("no-packets", pcap([]))
    cases.imported("four-bytes", pcap(framed(packet(order()[:4]))))
    cases.imported("8192-bytes", pcap(framed(packet(order()[:4] + b"v" * 8188))))
    cases.imported("another-port-is-asked-for", pcap([GOOD, *framed(packet(order(), port=3001))]), ["port=3001"])
    cases.imported("a-udp-length-below-ip", pcap(framed(frames.ip4(MANAGER, OWN, frames.udp(order() + b"rest", size=8 + len(order()))))))
    cases.imported("elsewhere", pcap([GOOD, *framed(packet(order(exercise=8)))]))
    cases.imported("passing", pcap([GOOD, *framed(packet(order(), MANAGER, OTHER))]))
    cases.imported("elsewhere-before-passing", pcap([GOOD, *framed(packet(order(exercise=8), MANAGER, OTHER))]))
    bundle = order() + order(8, 2)
    for name, data in (("two", bundle), ("of-another-family", bundle[:3] + b"\1" + bundle[4:]), ("a-length-of-11", order()[:8] + b"\0\x0b" + order()[10:])):
        cases.imported(f"bundled-{name}", pcap(framed(packet(data))))
    cases.imported("bundled-elsewhere-and-passing", pcap(framed(packet(bundle, MANAGER, OTHER), packet(bundle[:1] + b"\x08" + bundle[2:]))))
    cases.imported("a-length-of-12-of-13-bytes", pcap(framed(packet(order()[:8] + b"\0\x0c" + order()[10:13]))))


# ---- fragments


def long_order(size=176):
    return texts.pdu(19, (1, 1, 0), (2, 3, 0), exercise=EXERCISE, request=4, variable=1, records=texts.variable_datum(9, size * 8, b"v" * size))


def parts4(most=80, identification=5, data=None, source=MANAGER, target=OWN, port=3000):
    return framed(*frames.fragments4(source, target, frames.udp(long_order() if data is None else data, port), identification, most))


def part4(start, body, is_last, identification=5):
    return framed(frames.ip4(MANAGER, OWN, body, identification=identification, place=start // 8 | (0 if is_last else 0x2000)))[0]


def huge(size):
    """Fragments of so many bytes, which are `other` once they are whole, since a datagram of them is too long."""
    body = frames.udp(b"v" * (size - 8), size=0xFFFF)
    return [part4(start, body[start:end], end == size) for start, end in ((0, 65504), (65504, 65528), (65528, size))]


def fragments(cases):
    three = parts4()
    whole, even = frames.udp(long_order()), frames.udp(long_order(104))
    for name, some in {
        "in-order": three, "backwards": three[::-1], "the-last-first": [three[-1], *three[:-1]], "one-missing": three[:1] + three[2:],
        "the-last-missing": three[:-1], "a-copy": [three[0], three[0], *three[1:]], "a-copy-and-all-again": [three[0], three[0], *three],
        "a-copy-behind-the-whole": [*three, three[0]], "twice": three * 2,
        "two-mixed": [one for both in zip(three, parts4(identification=6)) for one in both],
        "of-two-sources": [one for both in zip(three, parts4(source=OTHER)) for one in both],
        "of-another-port": parts4(port=3001), "passing": parts4(target=OTHER), "elsewhere": parts4(data=b"\7\x63" + long_order()[2:]),
        "overlap": [three[0], part4(72, whole[72:160], False), *three[1:]],
        "behind-the-end": [three[-1], part4(len(whole) + 8 & ~7, bytes(8), False), *three[:-1]],
        "the-end-before-a-part": [*three[:2], part4(80, whole[80:100], True), *three[2:]],
        "a-second-last": [three[-1], part4(400, bytes(8), True), *three[:-1]],
        "beyond-65535": [part4(65528, bytes(16), False)], "up-to-65535": [part4(65528, bytes(7), True)],
        "a-length-of-12": [part4(0, whole[:12], False), *three], "empty": [part4(0, b"", False), *three],
        "an-empty-last": [part4(0, even[:80], False), part4(80, even[80:], False), part4(160, b"", True)],
        "no-udp-length-fits": framed(*frames.fragments4(MANAGER, OWN, frames.udp(long_order(), size=999), 5, 80)),
        "do-not-fragment-alone": [*three[:2], *framed(packet(order(), place=0x4000, identification=5)), three[2]],
        "to-two-hosts": [one for both in zip(three, parts4(target=EVERYBODY)) for one in both],
        "an-empty-one-between": [three[0], part4(80, b"", False), *three[1:]],
        "overlap-and-as-long-as-the-whole": [three[0], part4(72, whole[72:152], False), three[2]],
        "behind-the-end-and-all-again": [three[2], part4(240, bytes(8), False), *three],
        "behind-a-later-end-and-all-again": [three[0], part4(160, bytes(80), False), part4(80, bytes(40), True), *three],
        "a-second-last-that-is-empty": [three[2], part4(232, b"", True), *three[:2]],
        "of-65535-bytes": huge(65535), "of-65536-bytes": huge(65536),
    }.items():  # fmt: skip
        cases.imported(f"fragments-{name}", pcap(some))
    for name, stamps in {
        "29.999999-seconds": (0, 1000, 29_999_999_000), "30-seconds": (0, 1000, 30 * 10**9),
        "begun-anew": (0, 29_999_999_000, 30 * 10**9, 30 * 10**9, 59_999_999_000),
        "before-the-first-by-the-clock": (5000, 4000, 6000), "between-the-first-and-the-second": (5000, 7000, 6000),
    }.items():  # fmt: skip
        order_of = three if len(stamps) == 3 else [three[0], three[1], three[0], three[1], three[2]]
        some = [(SECOND * 10**9 + at, frame, len(frame)) for at, frame in zip(stamps, order_of)]
        cases.imported(f"fragments-by-the-clock-{name}", frames.pcap(some, ETHERNET))
    many = [parts4(identification=number)[0] for number in range(64)]
    back = [(SECOND * 10**9 - number * 1000, frame, len(frame)) for number, frame in enumerate([*many, parts4(identification=64)[0]])]
    more = [(SECOND * 10**9 + number * 1000, frame, len(frame)) for number, frame in enumerate(parts4(identification=1)[1:] + parts4(identification=0)[1:])]
    cases.imported("fragments-of-65-datagrams-of-which-the-last-is-the-first-by-the-clock", frames.pcap(back + more, ETHERNET))
    cases.imported("fragments-of-64-datagrams", pcap([*many, *parts4(identification=0)[1:]]))
    cases.imported("fragments-of-65-datagrams", pcap([*many, parts4(identification=64)[0], *parts4(identification=1)[1:], *parts4(identification=0)[1:]]))
    fragments6(cases)


def fragments6(cases):
    whole = frames.udp(long_order())
    for name, kinds in (("plain", ()), ("behind-other-headers", (0, 60, 43))):
        some = framed(*frames.fragments6(MANAGER_6, OWN_6, whole, 0x12345678, 80, kinds))
        cases.imported(f"fragments-of-ipv6-{name}", pcap(some), host="2001:db8::3")
    alone = framed(frames.fragment6(MANAGER_6, OWN_6, frames.udp(order()), 9, 0, True))
    cases.imported("a-fragment-of-ipv6-that-is-all", pcap(alone), host="2001:db8::3")
    others = [framed(*frames.fragments6(MANAGER_6, OWN_6, whole, number << 16 | 5, 80)) for number in (1, 2)]
    cases.imported("fragments-of-ipv6-with-the-low-half-alike", pcap([one for both in zip(*others) for one in both]), host="2001:db8::3")
    kept = [bytearray(frame) for frame in others[0]]
    for frame in kept:
        frame[14 + 40 + 3] |= 6
    cases.imported("fragments-of-ipv6-with-reserved-bits", pcap([bytes(frame) for frame in kept]), host="2001:db8::3")


# ---- captures that cut


def cut(cases):
    """A packet cut at every byte, and fragments that were cut."""
    good, record = pcap([GOOD]), SECOND * 10**9
    for size in (0, 1, 5, 6, 13, 14, 15, 18, 23, 24, 26, 30, 33, 34, 36, 38, 40, 41, 42, 43, 44, 45, 46, 51, len(GOOD) - 1):
        text = frames.pcap([(record, GOOD[:size], len(GOOD)), (record, GOOD, len(GOOD))], ETHERNET)
        if size in (0, 13, 14, 33, 41, len(GOOD) - 1):
            cases.imported(f"cut-at-{size}", text)
        cases.imported(f"cut-at-{size}-is-kept-out", text, ["cut=keep"])
    for name, one in {
        "another-port": packet(order(), port=3001), "tcp": frames.ip4(MANAGER, OWN, frames.udp(order()), frames.TCP),
        "another-family": packet(b"\7\7\x0b\1" + order()[4:]),
        "elsewhere": packet(order(exercise=8)), "passing": packet(order(), MANAGER, OTHER), "too-long": packet(b"\7\7\x0b\5" + b"v" * 8189),
        "a-udp-length-above-ip": frames.ip4(MANAGER, OWN, frames.udp(order(), size=99)),
        "a-udp-length-of-7": frames.ip4(MANAGER, OWN, frames.udp(order(), size=7)),
        "ipv6-a-header-above-the-packet": frames.ip6(MANAGER_6, OWN_6, bytes([17, 9, 1, 4, 0, 0, 0, 0]) + frames.udp(order()), 0),
        "a-header-of-16-bytes": b"\x44" + packet(order())[1:], "ipv6-tcp": frames.ip6(MANAGER_6, OWN_6, frames.udp(order()), 6),
    }.items():  # fmt: skip
        frame = framed(one)[0]
        for size in (len(frame) - 1, 14 + 8 + 4, 14 + 10, 14 + 16):
            text = frames.pcap([(record, frame[:size], len(frame))], ETHERNET)
            cases.imported(f"cut-{name}-at-{size}", text, ["cut=keep"])
            cases.imported(f"cut-{name}-at-{size}-is-a-fault-or-none", text)
    padded = GOOD + bytes(20)
    cases.imported("a-pad-that-was-cut", frames.pcap([(record, padded[:-3], len(padded))], ETHERNET))
    cases.imported("more-captured-than-there-was", frames.pcap([(record, GOOD, len(GOOD) - 5)], ETHERNET))
    three = parts4()
    for words in ([], ["cut=keep"]):
        some = [(record, three[0], len(three[0])), (record, three[1][:-1], len(three[1])), (record, three[2], len(three[2])), (record, three[1], len(three[1]))]
        cases.imported(f"a-fragment-that-was-cut-{len(words)}", frames.pcap(some, ETHERNET), words)
    for text, name in ((good, "pcap"), (pcapng([GOOD]), "pcapng")):
        places = (0, 1, 3, 4, 5, 7, 8, 11, 12, 23, 24, 25, 27, 28, 29, 35, 36, 39, 40, 41, 60, len(text) - 4, len(text) - 1)
        for size in places:
            cases.imported(f"a-torn-{name}-of-{size}", text[:size])
            cases.imported(f"a-torn-{name}-of-{size}-is-kept", text[:size], ["cut=keep"])


# ---- ways: sent and received


def ways(cases):
    targets = {"host": OWN, "manager": MANAGER, "group": bytes([239, 1, 2, 3]), "everybody": EVERYBODY, "lowest-group": bytes([224, 0, 0, 0]), "above-groups": bytes([240, 0, 0, 1])}
    for name, target in targets.items():
        for source, from_name in ((OWN, "host"), (MANAGER, "manager")):
            for direction in (None, 1, 2, 3):
                text = pcapng(framed(packet(answered(), source, target)), direction=direction)
                for words in ([], ["echo"]) if direction in (None, 2) else ([],):
                    cases.imported("-".join(["from", from_name, "to", name, "direction", str(direction), *words]), text, words)
    for name, card in (("a-frame-for-all", b"\xff"), ("a-frame-for-a-group", b"\1"), ("a-frame-for-one", b"\2")):
        for source in (OWN, MANAGER):
            frame = framed(packet(answered(), source, bytes([10, 0, 0, 255])))[0]
            text = pcap([card + frame[1:]])
            cases.imported(f"{name}-from-{source[3]}-to-a-directed-broadcast", text, ["echo"])
    for target in (OWN_6, GROUP_6, MANAGER_6):
        for source in (OWN_6, MANAGER_6):
            cases.imported(f"ipv6-from-{source[-1]}-to-{target.hex()}", pcap(framed(packet(answered(), source, target))), ["echo"], "2001:db8::3")
    cases.imported("a-mapped-host", pcap([GOOD]), host="::ffff:10.0.0.3")
    cases.imported("a-mapped-source-is-another-host", pcap(framed(packet(answered(), bytes(10) + b"\xff\xff" + OWN, GROUP_6))))


def shared(cases):
    for name, data in (("own", answered()), ("another", answered(origin=(2, 4))), ("12-bytes", answered()[:12]), ("15-bytes", answered()[:15]), ("16-bytes", answered()[:16])):
        for target, to in ((MANAGER, "one"), (EVERYBODY, "all"), (OWN, "host")):
            for words in (["shared"], ["shared", "echo"], []):
                cases.imported("-".join(["shared", name, "to", to, *words]), pcap(framed(packet(data, OWN, target))), words)
    for direction in (1, 2):
        text = pcapng(framed(packet(answered(origin=(2, 4)), OWN, EVERYBODY)), direction=direction)
        cases.imported(f"shared-another-direction-{direction}", text, ["shared", "echo"])
    cases.imported("received-in-the-name-of-another", pcap(framed(packet(answered(origin=(2, 4)), MANAGER, OWN))), ["shared"])


# ---- openings


def openings(cases):
    """What the log assumes: an answer to an order about an entity that the setup does not open."""
    kinds = {"create": (11, 1), "remove": (12, 2), "start": (13, 3), "stop": (14, 4)}

    def exchange(name, entity, request, response=1):
        kind, flag = kinds[name]
        return framed(packet(order(entity, request, kind))) + framed(packet(answered(entity, request, flag, response), OWN, MANAGER))

    scenes = {
        "start": [("start", 20, 1)], "stop-and-remove": [("stop", 21, 1), ("remove", 20, 2)],
        "create-first": [("create", 20, 1), ("start", 20, 2)], "opened-by-the-setup": [("start", 5, 1), ("start", 9, 2)],
        "unable": [("start", 20, 1, 2)], "unable-then-able": [("start", 20, 1, 2), ("start", 20, 2)], "all-started": [("start", 0, 1)],
        "all-removed-before": [("remove", 65535, 1), ("start", 20, 2)],
        "all-removed-behind": [("start", 20, 1), ("remove", 65535, 2), ("start", 21, 3)],
        "removed-then-created": [("remove", 20, 1), ("create", 20, 2)], "twice": [("start", 20, 1), ("start", 20, 1)],
        "65534": [("start", 65534, 1)], "65533": [("start", 65533, 1), ("stop", 1, 2)],
    }  # fmt: skip
    for name, scene in scenes.items():
        text = pcap([frame for step in scene for frame in exchange(*step)])
        for words in ([], ["opening=none"], ["opening=assumed"]):
            cases.imported("-".join(["opening", name, *words]), text, words)
    alone = framed(packet(answered(20, 1, 3), OWN, MANAGER))
    cases.imported("opening-an-answer-to-nothing", pcap(alone), ["opening=assumed"])
    cases.imported("opening-an-answer-before-its-request", pcap([*alone, *exchange("start", 20, 1)]), ["opening=assumed"])
    for flag in (1, 2, 4):
        wrong = framed(packet(order(20, 1, 13))) + framed(packet(answered(20, 1, flag), OWN, MANAGER))
        cases.imported(f"opening-a-start-answered-by-flag-{flag}", pcap(wrong), ["opening=assumed"])
    strange = framed(packet(order(20, 1, 13))) + framed(packet(answered(20, 1, 3, origin=(2, 4)), OWN, MANAGER))
    cases.imported("opening-an-answer-in-another-name", pcap(strange), ["opening=assumed"])
    for target in ((2, 3, 20), (2, 65535, 20), (65535, 65535, 20), (2, 4, 20), (2, 3, 0)):
        asked_for = texts.pdu(13, (1, 1, 0), target, exercise=EXERCISE, request=1)
        text = pcap(framed(packet(asked_for)) + framed(packet(answered(20, 1, 3), OWN, MANAGER)))
        cases.imported(f"opening-a-start-for-{'-'.join(map(str, target))}", text, ["opening=assumed"])


# ---- words, files, calls that fail


def words(cases):
    for word in ("2", "2:", ":3", "0:3", "2:0", "65535:3", "2:65535", "2:3:4", "a:b", "-2:3", "+2:3", "99999999999999999999:3", "2.3"):
        if not word.startswith("-"):
            cases.case(f"address-{word}")
            told(cases, [word, "10.0.0.3"])
    short = ("10.0.0", "10.0.0.256", "10.0.0.3.4", "010.0.0.3", "10.0.0.3/24", "host")
    for word in (*short, "fe80::1%eth0", ":::", "1:2:3:4:5:6:7", "1:2:3:4:5:6:7:8:9", "::g", "[::1]", "12345::"):
        cases.case(f"host-{word}")
        told(cases, ["2:3", word])
    cases.case("address-before-host")
    told(cases, ["2", "host"])
    for host in ("2001:DB8::3", "2001:db8:0:0:0:0:0:3", "2001:0db8::0.0.0.3"):
        cases.imported(f"host-as-{host}", pcap(framed(packet(order(), MANAGER_6, OWN_6))), host=host)
    for name, setup in (("unnamed", SETUP), ("no-script", b"exercise 7\nstation 2:3\nnonsense\n"), ("empty", b"")):
        cases.imported(f"a-setup-{name}", pcap([GOOD]), address="4:4", setup=setup)
    cases.imported("a-setup-that-is-no-script-and-no-capture", b"none", setup=b"nonsense\n")
    cases.imported("a-setup-with-moves", pcap([GOOD]), setup=SETUP + b"at 5\ncreate 1:1 2:3:7\ndeliver 0 2:3\n")
    every = ["opening=assumed", "echo", "port=3001", "shared", "on=wire", "cut=keep"]
    text = pcapng(framed(packet(answered(), OWN, EVERYBODY, 3001), packet(answered(9, 2, 3, origin=(2, 4)), OWN, EVERYBODY, 3001)))
    cases.imported("every-word", text, every)
    cases.imported("every-word-backwards", text, every[::-1])


def told(cases, asked_for):
    """A word that is no address: nothing is opened."""
    answer = pages.answer_to_import(SETUP, asked_for, b"")[0]
    cases.told(["import", "setup", *asked_for, "capture", "new"], [], answer)
    cases.lines.insert(len(cases.lines) - 1 - len(answer.errors.splitlines()) - 1, "asked-nothing")


def files(cases):
    cases.case("a-setup-that-is-not-there", [("setup", SETUP), ("capture", pcap([GOOD])), ("wrong", b"nonsense\n"), ("none", b"none"), ("there", b"what stood before\n")])
    base = ["2:3", "10.0.0.3"]
    cases.told(["import", "nowhere", *base, "nothing", "new"], ["nowhere"], pages.unopened("nowhere"))
    for name, setup, capture, new, asked, fault in (
        ("a-capture-that-is-not-there", "wrong", "nowhere", "new", ["wrong", "nowhere"], pages.unopened("nowhere")),
        ("the-new-one-is-the-setup", "wrong", "none", "wrong", ["wrong"], pages.fault("output: same as wrong")),
        ("the-new-one-is-the-capture", "wrong", "none", "none", ["wrong", "none"], pages.fault("output: same as none")),
        ("the-new-one-stands", "wrong", "none", "there", ["wrong", "none"], pages.fault("output: exists")),
        ("a-script-before-a-capture", "wrong", "none", "new", ["wrong", "none"], pages.fault("script: bad-line at line 1")),
    ):
        cases.case(name)
        cases.told(["import", setup, *base, capture, new], asked, fault)
    answer, left, _ = pages.answer_to_import(SETUP, base, pcap([GOOD]))
    cases.case("the-new-one-is-replaced")
    cases.told(["import", "setup", *base, "capture", "there", "--force"], ["setup", "capture", "make there"], answer, left)
    cases.case("from-standard-input", [("-", pcap([GOOD]))])
    cases.told(["import", "setup", *base, "-", "new"], ["setup", "-", "make new"], answer, left)
    for kind, status, line in (("shut", 2, "file: barred: permission denied"), ("folder", 2, "file: barred: is a directory"), ("full", 3, "memory")):
        for place in (0, 1):
            names = ["setup", "capture"]
            names[place] = "barred"
            cases.case(f"{['a-setup', 'a-capture'][place]}-that-is-{kind}")
            cases.lines.append(f"{kind} barred")
            cases.told(["import", names[0], *base, names[1], "new"], names[: place + 1], Outcome(status, b"", f"{line}\n".encode()))
    for kind, status, line in (("shut", 2, "output: write"), ("full", 3, "memory")):
        cases.case(f"the-new-one-is-{kind}")
        cases.lines.append(f"{kind} barred")
        cases.told(["import", "setup", *base, "capture", "barred"], ["setup", "capture", "make barred"], Outcome(status, b"", f"{line}\n".encode()))


def failing(cases):
    """Each read of the setup and of captures fails, then each write."""
    base, text = ["2:3", "10.0.0.3"], pcap([GOOD, GOOD])
    answer, left, _ = pages.answer_to_import(SETUP, base, text)
    call = ["import", "setup", *base, "failing", "new"]
    for name, capture in (("pcap", text), ("pcapng", pcapng([GOOD]))):
        outcome, made, _ = pages.answer_to_import(SETUP, base, capture)
        for number in range(1, -(-len(capture) // 40) + 2):
            cases.case(f"a-{name}-fails-at-read-{number}", [("setup", SETUP)])
            cases.lines += ["file failing", f"calls 40 {number} other", *hexes(capture)]
            cases.told(call, ["setup", "failing"], pages.fault("capture: read"))
            cases.case(f"a-{name}-is-interrupted-at-read-{number}")
            cases.lines += ["file failing", f"calls 40 {number} interrupted", *hexes(capture)]
            cases.told(call, ["setup", "failing", "make new"], outcome, made)
        for most in (1, 2, 3, 7):
            cases.case(f"a-{name}-in-parts-of-{most}")
            cases.lines += ["file failing", f"calls {most} 0 other", *hexes(capture)]
            cases.told(call, ["setup", "failing", "make new"], outcome, made)
    for number in range(1, -(-len(SETUP) // 40) + 2):
        cases.case(f"a-setup-fails-at-read-{number}", [("capture", text)])
        cases.lines += ["file failing", f"calls 40 {number} other", *hexes(SETUP)]
        cases.told(["import", "failing", *base, "capture", "new"], ["failing", "capture"], pages.fault("script: read"))
    call = ["import", "setup", *base, "capture", "new"]
    for byte in (0, 1, 8, 9, 10, 12, 18, 23, 24, 25, 37, 60, len(left) - 6, len(left) - 1):
        cases.case(f"the-new-one-fails-at-byte-{byte}", [("setup", SETUP), ("capture", text)])
        cases.told(call, ["setup", "capture", "make new"], Outcome(2, b"", b"output: write\n"))
        cases.lines += ["discarded", *hexes(left[:byte]), f"calls 1 {byte + 1} other"]
    for byte in (0, 1, len(answer.out) - 1):
        cases.case(f"the-line-fails-at-byte-{byte}")
        cases.lines += [f"words {' '.join(call)}", "asked setup", "asked capture", "asked make new", "status 2", "out"]
        cases.lines += [f"piece {answer.out[:byte].decode()}"] if byte else []
        cases.lines += [f"calls 1 {byte + 1} other", "errors", "text output: write", "discarded", *hexes(left)]


def cases():
    made = Exports()
    of = import_formats
    formats = (of.links, of.pcaps, of.clocks, of.blocks, of.options, of.drops)
    for part in (worked, rows, fragments, cut, ways, shared, *formats, openings, words, files, failing, back):
        part(made)
    yield "# Captures of a station's host, of which a recording is made. The captures of the first cases are real, of an exercise of"
    yield "# three hosts. The lines were made by tools/cases/imports.py."
    yield from made.lines
