"""What tshark shows of a capture, and what of it `import` keeps by that."""
import ipaddress
import shutil
import subprocess
from collections import namedtuple

import pages
from pages import RECEIVED, SENT

FIELDS = [
    "frame.number", "frame.time_epoch", "frame.interface_name", "frame.packet_flags_direction", "eth.dst.ig", "sll.pkttype",
    "ip.src", "ip.dst", "ipv6.src", "ipv6.dst", "udp.dstport", "udp.length", "udp.payload",
]  # fmt: skip
PREFERENCES = ["ip.defragment:TRUE", "ipv6.defragment:TRUE", "udp.check_checksum:FALSE", "ip.check_checksum:FALSE", "ip.tso_support:FALSE"]
# tshark gives the interfaces of a later section the names of those of the first.
LATER_NAMES = "names of interfaces in a later section"
# A datagram as tshark shows it: its frame, microseconds or None, the name of the interface, the direction, whether the
# link says that it is for all, source and target, and its bytes.
Shown = namedtuple("Shown", "frame stamp name direction for_all source target data")


def is_there():
    return shutil.which("tshark") is not None


def shown(path, port):
    """The whole datagrams to a port, in their order."""
    words = ["tshark", "-n", "-r", str(path), "--disable-protocol", "dis", "-Y", f"udp.dstport == {port}", "-T", "fields"]
    words += ["-E", "separator=/t", "-E", "occurrence=f"]
    words += [word for preference in PREFERENCES for word in ("-o", preference)] + [word for field in FIELDS for word in ("-e", field)]
    done = subprocess.run(words, capture_output=True, check=False, timeout=120)
    for line in done.stdout.decode().splitlines():
        datagram = shown_line(dict(zip(FIELDS, line.split("\t"))), port)
        if datagram:
            yield datagram


def shown_line(field, port):
    data, size = bytes.fromhex(field["udp.payload"]), int(field["udp.length"] or 0) - 8
    if field["udp.dstport"] != str(port) or not 0 <= size <= len(data):
        return None
    source, target = (ipaddress.ip_address(field[f"ip.{end}"] or field[f"ipv6.{end}"]) for end in ("src", "dst"))
    seconds, _, fraction = field["frame.time_epoch"].partition(".")
    stamp = int(seconds) * 1_000_000 + int(fraction[:6]) if seconds else None
    direction = int(field["frame.packet_flags_direction"] or "0", 0) & 3
    for_all = field["eth.dst.ig"] in ("1", "True") or field["sll.pkttype"] in ("1", "2")
    for_all = for_all or target.is_multicast or target == ipaddress.ip_address("255.255.255.255")
    return Shown(int(field["frame.number"]), stamp, field["frame.interface_name"], direction, for_all, source, target, data[:size])


def dis_kinds(path):
    """The PDU type of each frame that is shown as DIS, by the number of the frame."""
    words = ["tshark", "-n", "-r", str(path), "-Y", "dis", "-T", "fields", "-E", "occurrence=f", "-e", "frame.number", "-e", "dis.pdu_type"]
    done = subprocess.run(words, capture_output=True, check=False, timeout=120)
    return dict(map(int, line.split("\t")) for line in done.stdout.decode().splitlines())


def kept_of(datagram, exercise, address, host, asked):
    """The kinds of the entries that a datagram makes."""
    data, goes_to_host = datagram.data, datagram.target == host
    if asked.on is not None and datagram.name != asked.on.decode():
        return []
    if not 4 <= len(data) <= 8192 or data[3] != 5 or data[1] != exercise:
        return []
    if datagram.source == host and datagram.direction != 1:
        if asked.shared and data[12:16] != b"".join(part.to_bytes(2, "big") for part in address):
            return [RECEIVED] if goes_to_host or datagram.for_all and asked.echo else []
        return [SENT, RECEIVED] if datagram.for_all and asked.echo else [SENT]
    return [RECEIVED] if (goes_to_host or datagram.for_all) and datagram.direction != 2 else []


def kept_by_tshark(path, exercise, address, words):
    """The entries of each frame that has some: their kinds, their microseconds and their bytes."""
    asked, host = pages.asked_of(words[1:]), ipaddress.ip_address(words[0])
    kept = {}
    for datagram in shown(path, asked.port):
        kinds = kept_of(datagram, exercise, address, host, asked)
        if kinds:
            kept[datagram.frame] = [(kind, datagram.stamp, datagram.data) for kind in kinds]
    return kept


def kept_by_pages(text, exercise, address, words):
    """The same by the independent reading."""
    it = pages.Import(exercise, address, pages.host_of(words[0]), pages.asked_of(words[1:]))
    kept, before = {}, 0
    try:
        for frame, packet in enumerate(pages.Capture(text).packets(), 1):
            it.take(packet)
            if it.entries[before:]:
                kept[frame] = it.entries[before:]
            before = len(it.entries)
    except pages.Torn:
        pass
    return kept


def differences(by_tshark, by_pages, left_out, unstamped):
    """Frames of which both say other things: not those that are left out, and no stamps of those without one."""
    for frame in sorted({*by_tshark, *by_pages} - set(left_out)):
        both = [kept.get(frame, []) for kept in (by_tshark, by_pages)]
        if frame in unstamped:
            both = [[(kind, None, data) for kind, _, data in kept] for kept in both]
        if both[0] != both[1]:
            yield frame, *both
