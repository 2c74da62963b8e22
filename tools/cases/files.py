"""Files of recordings and certificates, good and bad."""
import struct

import pages
from cases import texts
from cases.examples import (
    EMPTY_CERTIFICATE, FORMATS_CERTIFICATE, FORMATS_CLOSED, FORMATS_RECORDING, FORMATS_SHOWN, TEXTS_REPORT,
)  # fmt: skip
from pages import Outcome

# What to put at an offset of the example of FORMATS.md, and the fault that it makes.
BAD_FIELDS = [
    (0, b"DSRC0003", "magic at 0"), (0, b"DSCT0001", "magic at 0"), (0, b"dsrc0001", "magic at 0"),
    (9, b"\0\0", "stations at 9"), (9, b"\1\1", "stations at 9"), (9, b"\xff\xff", "stations at 9"),
    (11, b"\0\0", "stations at 11"), (11, b"\xff\xff", "stations at 11"), (13, b"\0\0", "stations at 13"),
    (13, b"\xff\xff", "stations at 13"), (17, b"\0\0", "opening at 17"), (17, b"\xff\xfe", "opening at 17"),
    (17, b"\xff\xff", "opening at 17"), (19, b"\0", "opening at 19"), (19, b"\3", "opening at 19"),
    (20, b"\4", "record-kind at 20"), (20, b"\xff", "record-kind at 20"), (21, b"\0\1", "station-index at 21"),
    (21, b"\xff\xff", "station-index at 21"), (31, b"\x20\x01", "datagram-long at 31"),
    (50, b"\0\1", "station-index at 50"), (31, b"\xff\xff", "datagram-long at 31"), (35, b"\4", "record-kind at 35"),
    (52, b"\0\0", "state at 52"), (52, b"\xff\xfe", "state at 52"), (54, b"\3", "state at 54"),
    (55, b"\4", "record-kind at 55"), (56, b"\0\0\0\2", "count at 56"), (56, b"\0\0\0\4", "count at 56"),
    (56, b"\xff\0\0\3", "count at 56"), (20, b"\0", "trailing at 25"), (20, b"\0\0\0\0\1", "count at 21"),
    (31, b"\x20\0", "truncated at 60"),
]  # fmt: skip

# The same of the example of the second format.
BAD_FIELDS_OF_CLOSED = [
    (0, b"DSRC0000", "magic at 0"), (0, b"DSRC0003", "magic at 0"), (9, b"\2", "flag at 9"), (9, b"\xff", "flag at 9"),
    (9, b"\2\0\0", "flag at 9"), (10, b"\0\0", "stations at 10"), (10, b"\1\1", "stations at 10"),
    (12, b"\0\0", "stations at 12"), (14, b"\xff\xff", "stations at 14"), (18, b"\0\0", "opening at 18"),
    (20, b"\0", "opening at 20"), (21, b"\4", "record-kind at 21"), (22, b"\0\0\0\1", "count at 22"),
]  # fmt: skip


def try_files(trials, recordings, certificates):
    """Shows each recording, and judges it by each certificate; both as texts of files."""
    certificates = [(trials.file(text), text) for text in certificates]
    for text in recordings:
        name = trials.file(text)
        trials.expect(["show", name], pages.answer_to_show(text))
        for certificate, steps in certificates:
            trials.expect(["check", name, certificate], pages.answer_to_check(text, steps))


def try_examples(trials, examples):
    good, certificate, wrong = examples
    read = {name: (trials.folder / name).read_bytes() for name in (good, certificate, wrong)}
    trials.expect(["check", good, certificate], Outcome(0, TEXTS_REPORT, b""))
    trials.expect(["check", wrong, certificate], Outcome(1, b"no step=8 cause=13 wrong-state\n", b""))
    trials.expect(["show", good], pages.answer_to_show(read[good]))
    trials.expect(["show", wrong], pages.answer_to_show(read[wrong]))
    trials.expect(["show", trials.file(FORMATS_RECORDING)], Outcome(0, FORMATS_SHOWN, b""))
    try_cuts(trials, read[good], read[certificate])
    try_cuts(trials, read[wrong], FORMATS_CERTIFICATE)
    try_cuts(trials, FORMATS_RECORDING, EMPTY_CERTIFICATE)
    try_cuts(trials, FORMATS_CLOSED, EMPTY_CERTIFICATE)
    try_changes(trials, read[good], read[certificate])
    try_changes(trials, FORMATS_CLOSED, EMPTY_CERTIFICATE)


def try_cuts(trials, recording, certificate):
    """A recording and a certificate cut to every length, and with a byte more."""
    whole, steps = trials.file(recording), trials.file(certificate)
    for size in range(len(recording)):
        cut = trials.file(recording[:size])
        trials.expect(["show", cut], pages.fault(f"recording: truncated at {size}"))
        trials.expect(["check", cut, steps], pages.fault(f"recording: truncated at {size}"))
    for size in range(len(certificate)):
        cut = trials.file(certificate[:size])
        trials.expect(["check", whole, cut], pages.fault(f"certificate: truncated at {size}"))
    longer, more = trials.file(recording + b"\0"), trials.file(certificate + b"\0")
    trials.expect(["show", longer], pages.fault(f"recording: trailing at {len(recording)}"))
    trials.expect(["check", longer, steps], pages.fault(f"recording: trailing at {len(recording)}"))
    trials.expect(["check", whole, more], pages.fault(f"certificate: trailing at {len(certificate)}"))


def try_changes(trials, recording, certificate):
    """Each byte of a good recording and of its certificate changed."""

    def changed(text):
        for place, byte in enumerate(text):
            for value in (byte ^ 1, byte ^ 0xFF):
                yield text[:place] + bytes([value]) + text[place + 1 :]

    try_files(trials, changed(recording), [certificate])
    whole = trials.file(recording)
    for text in changed(certificate):
        trials.expect(["check", whole, trials.file(text)], pages.answer_to_check(recording, text))


def try_fields(trials):
    """Each field of the formats bad once and more."""
    steps = trials.file(FORMATS_CERTIFICATE)
    edits = [(FORMATS_RECORDING, *edit) for edit in BAD_FIELDS]
    edits += [(FORMATS_CLOSED, *edit) for edit in BAD_FIELDS_OF_CLOSED]
    for good, offset, new, line in edits:
        text = good[:offset] + new + good[offset + len(new) :]
        name = trials.file(text)
        trials.state(f"the fault {line}", pages.fault(f"recording: {line}"), pages.answer_to_show(text))
        trials.expect(["show", name], pages.fault(f"recording: {line}"))
        trials.expect(["check", name, steps], pages.fault(f"recording: {line}"))
    whole = trials.file(FORMATS_RECORDING)
    for text, line in [
        (b"DSRC0001" + FORMATS_CERTIFICATE[8:], "magic at 0"),
        (b"DSCT0001" + struct.pack(">I", pages.MOST_STEPS + 1), "over-limit at 8"),
        (b"DSCT0001" + b"\xff" * 4, "over-limit at 8"),
        (b"DSCT0001" + struct.pack(">I", pages.MOST_STEPS), "truncated at 12"),
    ]:
        trials.expect(["check", whole, trials.file(text)], pages.fault(f"certificate: {line}"))


def try_stations(trials):
    """Stations and openings in order and out of order, and as many as there may be."""
    pairs = [[(1, 2), (1, 1)], [(1, 1), (1, 1)], [(2, 1), (1, 9)], [(1, 9), (2, 1)], [(1, 1), (0xFFFE, 0xFFFE)]]
    many = [(site, 1) for site in range(1, 258)]
    settings = [[pages.Station(*address, []) for address in addresses] for addresses in [*pairs, many[:256], many]]
    for entities in [[7, 7], [8, 7], [1, 0xFFFD], [7, 8, 9], range(1, 2000)]:
        settings.append([pages.Station(2, 3, [(entity, pages.RUNNING) for entity in entities])])
    steps = trials.file(EMPTY_CERTIFICATE)
    for stations in settings:
        text = texts.recording_text(pages.Recording(255, stations, []))
        name = trials.file(text)
        trials.expect(["show", name], pages.answer_to_show(text))
        trials.expect(["check", name, steps], pages.answer_to_check(text, EMPTY_CERTIFICATE))


def try_most_entries(trials):
    """As many entries and steps as there may be, and one more."""
    most, start = pages.MOST_ENTRIES, b"DSRC0001" + bytes.fromhex("010001000200030000")
    entry = bytes.fromhex("030000000700")
    full = trials.file(start + entry * most + b"\0" + struct.pack(">I", most))
    over = trials.file(start + entry * most + entry + b"\0" + struct.pack(">I", most + 1))
    kind = trials.file(start + entry * most + b"\4")
    steps = trials.file(b"DSCT0001" + struct.pack(">I", pages.MOST_STEPS) + bytes(8 * pages.MOST_STEPS))
    few = trials.file(EMPTY_CERTIFICATE)
    end, differs = len(start) + 6 * most, pages.refused_step(0, 1)
    trials.expect(["check", full, few], differs)
    trials.expect(["check", over, few], pages.fault(f"recording: count at {end}"))
    trials.expect(["show", over], pages.fault(f"recording: count at {end}"))
    trials.expect(["check", kind, few], pages.fault(f"recording: record-kind at {end}"))
    trials.expect(["check", trials.file(FORMATS_RECORDING), steps], differs)


def try_largest_recording(trials):
    """A recording of as many bytes as are read, and one of one byte more."""
    limit, start = pages.LARGEST_RECORDING, b"DSRC0001" + bytes.fromhex("010001000200030000")
    entry = texts.entry_text(texts.sent(0, bytes(8192)))
    count, rest = divmod(limit - len(start) - 5, len(entry))
    entries = entry * (count - 1) + texts.entry_text(texts.sent(0, bytes(8192 - 13)))
    few = trials.file(EMPTY_CERTIFICATE)
    for more, accepted in [(0, pages.refused_step(0, 1)), (1, pages.fault(f"recording: over-limit at {limit - 3}"))]:
        last = texts.entry_text(texts.sent(0, bytes(rest + more)))
        text = start + entries + last + b"\0" + struct.pack(">I", count + 1)
        trials.state("the size of the recording", limit + more, len(text))
        trials.expect(["check", trials.file(text), few], accepted)


def try_all(trials, examples):
    try_examples(trials, examples)
    try_fields(trials)
    try_stations(trials)
    try_most_entries(trials)
    try_largest_recording(trials)
