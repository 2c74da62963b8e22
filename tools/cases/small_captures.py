"""Small captures of a few packets, and cases of `import` that are made of captures."""
import re

import pages
from cases import frames, texts
from cases.failing import hexes
from cases.frames import ETHERNET
from cases.joins import Cases
from cases.made_captures import EXERCISE, SETUP

OWN, MANAGER, OTHER, EVERYBODY = bytes([10, 0, 0, 3]), bytes([10, 0, 0, 1]), bytes([10, 0, 0, 4]), b"\xff" * 4
OWN_6, MANAGER_6, GROUP_6 = (bytes.fromhex(text) for text in ("20010db8" + "00" * 11 + "03", "20010db8" + "00" * 11 + "01", "ff02" + "00" * 13 + "01"))
SECOND = 1_700_000_000


def order(entity=7, request=1, kind=11, **more):
    return texts.pdu(kind, (1, 1, 0), (2, 3, entity), **{"exercise": EXERCISE, "request": request, **more})


def answered(entity=7, request=1, flag=1, response=1, origin=(2, 3)):
    return texts.pdu(15, (*origin, entity), (1, 1, 0), exercise=EXERCISE, flag=flag, response=response, request=request)


def packet(data, source=MANAGER, target=OWN, port=3000, **more):
    """A datagram as a packet of either version."""
    write = frames.ip4 if len(source) == 4 else frames.ip6
    return write(source, target, frames.udp(data, port), **more)


def framed(*packets, to_all=False):
    return [frames.on_link(ETHERNET, one, to_all) for one in packets]


def pcap(some, link=ETHERNET, step=1000, **more):
    """A file of pcap with these frames, a microsecond apart."""
    return frames.pcap([(SECOND * 10**9 + number * step, frame, len(frame)) for number, frame in enumerate(some)], link, **more)


def pcapng(some, order_of="<", link=ETHERNET, direction=None, name="wire", head=b"", **more):
    """A section with one interface and these frames."""
    text = frames.section(order_of) + frames.interface(link, order_of, name.encode() if name else None, **more) + head
    pairs = [] if direction is None else frames.flags(direction, order_of)
    return text + b"".join(frames.enhanced(0, SECOND * 10**6 + number, frame, order=order_of, pairs=pairs) for number, frame in enumerate(some))


GOOD = framed(packet(order()))[0]


class Imports(Cases):
    """The lines of cases of `import`."""

    def spelled(self, text):
        """The lines that fill a file: a long run of one letter as such."""
        lines, at = [], 0
        for run in re.finditer(rb"([a-z])\1{99,}", text):
            lines += [*hexes(text[at : run.start()]), f"times {len(run.group())} {run.group(1).decode()}"]
            at = run.end()
        return lines + hexes(text[at:])

    def imported(self, name, text, words=(), host="10.0.0.3", address="2:3", setup=SETUP, keep=None):
        """A capture that is imported, or not: the setup and it are opened, and then the recording is made."""
        self.case(name, [("setup", setup), ("capture", text)])
        answer, left, warned = pages.answer_to_import(setup, [address, host, *words], text)
        asked = ["setup", "capture", *(["make new"] if left is not None else [])]
        self.told(["import", "setup", address, host, "capture", "new", *words], asked, answer, None if keep else left, keep)
        self.warned(answer, warned)
        return left

    def warned(self, answer, warned):
        if answer.status == 0:
            self.lines += ["reason", *(f"text warning: {why}" for why in warned)]

    def replaces(self, words):
        return False
