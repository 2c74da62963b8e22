"""What `export` answers to a recording, and the capture that it makes."""
import struct

from .captures import CAME_IN, ENHANCED, INTERFACE, SECTION, WENT_OUT
from .datagrams import Outcome, fault
from .files import SENT, TOLD, Fault, read_recording

__all__ = ["answer_to_export"]

PORT, TIME_TO_LIVE, UDP, IPV4_ALONE, MICROSECONDS = 3000, 64, 17, 228, 6
EVERYBODY, NOBODY = b"\xff" * 4, bytes(4)


def block(kind, body):
    size = struct.pack("<I", len(body) + 12)
    return struct.pack("<I", kind) + size + body + size


def option(code, value):
    return struct.pack("<HH", code, len(value)) + value + bytes(-len(value) % 4)


def checksum(header):
    total = sum(struct.unpack(f">{len(header) // 2}H", header))
    while total > 0xFFFF:
        total = (total & 0xFFFF) + (total >> 16)
    return total ^ 0xFFFF


def ip_packet(source, target, datagram):
    """A datagram in UDP in IPv4."""
    udp = struct.pack(">4H", PORT, PORT, len(datagram) + 8, 0) + datagram
    head = struct.pack(">BBHHHBB", 0x45, 0, len(udp) + 20, 0, 0, TIME_TO_LIVE, UDP)
    return head + struct.pack(">H", checksum(head + source + target)) + source + target + udp


def interface_block(station):
    name = f"{station.site}:{station.application}".encode()
    return block(INTERFACE, struct.pack("<HHI", IPV4_ALONE, 0, 0) + option(2, name) + option(9, bytes([MICROSECONDS])) + option(0, b""))


def packet_block(entry, station):
    own, data = struct.pack(">HH", station.site, station.application), entry.datagram
    if entry.kind == SENT:
        packet = ip_packet(own, data[18:22] if len(data) >= 24 else EVERYBODY, data)
    else:
        packet = ip_packet(data[12:16] if len(data) >= 24 else NOBODY, own, data)
    flags = struct.pack("<I", WENT_OUT if entry.kind == SENT else CAME_IN)
    head = struct.pack("<5I", entry.station, entry.stamp >> 32, entry.stamp & 0xFFFFFFFF, len(packet), len(packet))
    return block(ENHANCED, head + packet + bytes(-len(packet) % 4) + option(2, flags) + option(0, b""))


def answer_to_export(text):
    """What is answered to a recording by its bytes, and the capture that is made, or None."""
    try:
        recording = read_recording(text)
    except Fault as bad:
        return fault(f"recording: {bad}"), None
    datagrams = [entry for entry in recording.entries if entry.kind != TOLD]
    blocks = [block(SECTION, struct.pack("<IHHq", 0x1A2B3C4D, 1, 0, -1)), *map(interface_block, recording.stations)]
    blocks += [packet_block(entry, recording.stations[entry.station]) for entry in datagrams]
    line = f"exported packets={len(datagrams)} told={len(recording.entries) - len(datagrams)}\n"
    return Outcome(0, line.encode(), b""), b"".join(blocks)
