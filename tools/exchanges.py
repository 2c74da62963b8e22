#!/usr/bin/env python3
"""Writes a recording of so many exchanges, and the certificate of its order.

Station 1:1 creates the entities 1 to N of station 2:3, one after the other: each request is sent,
received and acknowledged, and the answer received, which makes 4 entries. N is 0 to 65,533, the
greatest number of an entity. It is for measuring how long `siman check` takes, and no part of the gate.
"""
import argparse
import struct

NO_LINK = 0xFFFFFFFF
MOST_EXCHANGES = 65_533
START = b"DSRC0001" + struct.pack(">BH", 1, 2) + struct.pack(">HHH", 1, 1, 0) + struct.pack(">HHH", 2, 3, 0)


def pdu(kind, origin, target, body):
    """The datagram of a PDU of exercise 1."""
    length = 24 + len(body)
    head = struct.pack(">BBBBIHBB", 7, 1, kind, 5, 0, length, 0, 0)
    return head + struct.pack(">HHH", *origin) + struct.pack(">HHH", *target) + body


def datagram_entry(kind, station, datagram):
    return struct.pack(">BHQH", kind, station, 0, len(datagram)) + datagram


def exchanges(count):
    """The entries of so many exchanges as they stand in the file, and the steps that take them in order."""
    entries, steps = [], []
    for number in range(1, count + 1):
        create = pdu(11, (1, 1, 0), (2, 3, number), struct.pack(">I", number))
        able = pdu(15, (2, 3, number), (1, 1, 0), struct.pack(">HHI", 1, 1, number))
        first = len(entries)
        entries += [
            datagram_entry(1, 0, create),
            datagram_entry(2, 1, create),
            datagram_entry(1, 1, able),
            datagram_entry(2, 0, able),
        ]
        steps += [(first, NO_LINK), (first + 1, first), (first + 2, first + 1), (first + 3, first + 2)]
    return entries, steps


def recording_text(entries):
    return START + b"".join(entries) + struct.pack(">BI", 0, len(entries))


def certificate_text(steps):
    return b"DSCT0001" + struct.pack(">I", len(steps)) + b"".join(struct.pack(">II", *step) for step in steps)


def number_of_exchanges(word):
    """The number that a word says in decimal digits, 0 to the most."""
    if not (word.isascii() and word.isdigit()):
        raise argparse.ArgumentTypeError(f"{word!r} is no number in decimal digits")
    if len(word.lstrip("0")) > len(str(MOST_EXCHANGES)) or int(word) > MOST_EXCHANGES:
        raise argparse.ArgumentTypeError(f"{word} is more than {MOST_EXCHANGES}, the greatest number of an entity")
    return int(word)


def main():
    form = argparse.RawDescriptionHelpFormatter
    parser = argparse.ArgumentParser(description=__doc__, formatter_class=form)
    parser.add_argument("count", metavar="N", type=number_of_exchanges, help=f"how many exchanges, 0 to {MOST_EXCHANGES}")
    parser.add_argument("recording", metavar="RECORDING", help="the file to write the recording to")
    parser.add_argument("certificate", metavar="CERTIFICATE", help="the file to write its certificate to")
    given = parser.parse_args()
    entries, steps = exchanges(given.count)
    for name, text in [(given.recording, recording_text(entries)), (given.certificate, certificate_text(steps))]:
        try:
            with open(name, "wb") as file:
                file.write(text)
        except OSError as error:
            parser.error(f"{name} could not be written: {error.strerror}")


if __name__ == "__main__":
    main()
