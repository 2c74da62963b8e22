"""Sizes far beyond the worked examples: many stations, moves, datagrams, lines, identifiers, entries and bytes."""
import hashlib
import struct

import pages
from cases import texts
from cases.examples import README_ANSWER, README_DATAGRAM
from cases.limits import HEAD, MOST_ENTRIES, certificate_in_file_order, told_entries
from cases.lived import Create, Exchanges, Tell, script_of, station_at
from cases.worlds import after
from pages import NO_LINK, Outcome, Recording, Station

TWO = [Station(1, 1, []), Station(2, 3, [])]


def makes(trials, words, line, text):
    """A command that makes the file which its words end with: its line, and the bytes of the file."""
    wanted = hashlib.sha256(text).digest()  # of which the largest need not stay in memory until then
    usual = (Outcome(0, line, b""),)
    after(trials, words, usual, words[-1], lambda left: left is not None and hashlib.sha256(left).digest() == wanted)


def try_stations(trials):
    """256 stations, each of which orders the next, answers the one before, and tells what came of it."""
    count = 256
    orders = [Create(station, station_at((station + 1) % count), 7) for station in range(count)]
    script = trials.file(script_of(count, orders, delivered=True))
    line = b"world records=%d sent=%d\n" % (5 * count, 2 * count)
    makes(trials, ["world", script, "crowd.dsrc"], line, Exchanges(count).in_a_world(orders))
    moves = [move for order in orders for move in (order, Tell(order.target[0] - 1, 7))]
    # All others receive an order and its answer.
    line = b"live records=%d\n" % (count * (2 + 2 * (count - 1) + 1))
    script = trials.file(script_of(count, moves))
    makes(trials, ["live", script, "crowd.lived.dsrc"], line, Exchanges(count).over_lines(moves))


def try_rounds(trials):
    """So many stations hear of an order to all and of each other's answers: more than 64 in one round, of the last; of
    131 and more some station still takes answers in the last round, and of 200 each has some left."""
    for count in (41, 70, 130, 131, 200):
        moves = [Create(count - 1, (0xFFFF, 0xFFFF), 7)]
        exchanges = Exchanges(count)
        lived = exchanges.over_lines(moves)
        line = exchanges.line()
        if count < 131:
            # The others each receive the order, send an answer, and receive those of the others; the first gets them all.
            trials.state(f"the line of {count}", b"live records=%d\n" % (1 + 2 * (count - 1) + (count - 1) ** 2), line)
        words = ["live", trials.file(script_of(count, moves)), f"round.{count}.dsrc"]
        makes(trials, words, line, lived)


def try_moves(trials):
    """1,000 moves over sockets."""
    moves = [move for number in range(1, 501) for move in (Create(0, station_at(1), number), Tell(1, number))]
    lived = Exchanges(2).over_lines(moves)
    makes(trials, ["live", trials.file(script_of(2, moves)), "moves.dsrc"], b"live records=2500\n", lived)


def try_sends(trials):
    """Datagrams of numbers above 60,000: the first repeat at another time, its answer, and the last one before it."""
    repeats = 60_000
    script = b"exercise 1\nstation 1:1 first=1 tries=4294967295 wait=0\nstation 2:3\ncreate 1:1 2:3:7\n"
    script += b"tick 1:1\n" * repeats + b"at 5\ntick 1:1\ndeliver 60001 2:3\ndeliver 60002 1:1\ndeliver 60000 2:3\n"
    first, last = (texts.pdu(11, (1, 1, 0), (2, 3, 7), stamp=stamp, request=1) for stamp in (0, 10))
    able = texts.pdu(15, (2, 3, 7), (1, 1, 0), stamp=10, flag=1, response=1, request=1)
    entries = [texts.sent(0, first)] * (repeats + 1)
    entries += [texts.sent(0, last, 5), texts.received(1, last, 5), texts.sent(1, able, 5), texts.received(0, able, 5)]
    entries += [texts.received(1, first, 5), texts.sent(1, able, 5)]
    made = texts.recording_text(Recording(1, TWO, entries))
    line = b"world records=60007 sent=60004\n"
    makes(trials, ["world", trials.file(script), "sends.dsrc"], line, made)


def try_longest_datagrams(trials):
    """A query of 8,192 bytes and its answer of as many, each delivered, in a world and over sockets."""
    held, asked = range(1019), [*range(1019), *range(5000, 6019)]
    script = b"exercise 1\nstation 1:1\nstation 2:3\n" + b"".join(b"fixed 2:3 %d %d\n" % (n, n + 7) for n in held)
    script += b"query 1:1 2:3:0 " + b" ".join(b"%d" % number for number in asked) + b"\ndeliver 0 2:3\ndeliver 1 1:1\n"
    identifiers = b"".join(struct.pack(">I", number) for number in asked)
    query = texts.pdu(pages.DATA_QUERY, (1, 1, 0), (2, 3, 0), request=1, fixed=len(asked), records=identifiers)
    datums = b"".join(texts.fixed_datum(number, number + 7) for number in held)
    data = texts.pdu(pages.DATA, (2, 3, 0), (1, 1, 0), request=1, fixed=len(held), records=datums)
    trials.state("the sizes of the longest datagrams", (8192, 8192), (len(query), len(data)))
    entries = [texts.sent(0, query), texts.received(1, query), texts.sent(1, data), texts.received(0, data)]
    made = texts.recording_text(Recording(1, TWO, entries))
    name = trials.file(script)
    makes(trials, ["world", name, "long.dsrc"], b"world records=4 sent=2\n", made)
    makes(trials, ["live", name, "long.lived.dsrc"], b"live records=4\n", made)


def try_empty_lines(trials):
    """A script of 150,000 empty lines, and a bad line behind them."""
    script = b"\n" * 150_000 + b"exercise 1\nstation 1:1\n"
    head = texts.recording_text(Recording(1, TWO[:1], []))
    makes(trials, ["world", trials.file(script), "empty.dsrc"], b"world records=0 sent=0\n", head)
    refused = pages.fault("script: bad-line at line 150003")
    trials.expect(["world", trials.file(script + b"fly 1:1\n"), "empty.not.dsrc"], refused)


def try_waiting(trials):
    """9 stations, and 255, that wait for one datagram, which is sent last in the file, or never."""
    for count in (9, 255):
        stations = [Station(site, 1, []) for site in range(1, count + 2)]
        comment = texts.pdu(22, (count + 1, 1, 0), (0xFFFF,) * 3)
        waits = [texts.received(station, comment) for station in range(count)]
        steps = [(count, NO_LINK), *((place, count) for place in range(count))]

        def explains(left, steps=steps):
            """The send first, and then the others in any order."""
            found = pages.read_certificate(left) if left else []
            return found[:1] == steps[:1] and sorted(found) == sorted(steps)

        sent = trials.file(texts.recording_text(Recording(1, stations, [*waits, texts.sent(count, comment)])))
        usual = (Outcome(0, b"explained steps=%d\n" % (count + 1), b""),)
        after(trials, ["audit", sent, f"waits.{count}.dsct"], usual, f"waits.{count}.dsct", explains)
        yes = Outcome(0, b"yes records=%d others=0\n" % (count + 1), b"")
        trials.expect(["check", sent, trials.file(texts.certificate_text(steps))], yes)
        never = trials.file(texts.recording_text(Recording(1, stations, waits)))
        lines = [b"blocked stations=%d\n" % count]
        lines += [b"blocked %d:1 record=%d cause=12 never-sent\n" % (place + 1, place) for place in range(count)]
        trials.expect(["audit", never, f"never.{count}.dsct"], Outcome(1, b"".join(lines), b""))


def exchanges_of(count):
    """Starts under so many request identifiers, each sent, received and answered: the text of these entries."""
    start = texts.pdu(13, (1, 1, 0), (2, 3, 7))[:-4]
    able = texts.pdu(15, (2, 3, 7), (1, 1, 0), flag=3, response=1)[:-4]
    rows = [(1, 0, start), (2, 1, start), (1, 1, able)]
    heads = [struct.pack(">BHQH", kind, station, 0, len(body) + 4) + body for kind, station, body in rows]
    numbers = (struct.pack(">I", number) for number in range(count))
    return b"".join(head + number for number in numbers for head in heads)


def steps_of(count):
    """The steps that take these entries in their order."""
    for place in range(0, 3 * count, 3):
        yield from ((place, NO_LINK), (place + 1, place), (place + 2, place + 1))


def try_identifiers(trials):
    """200,000 request identifiers of one station, and one of them again for another order."""
    count = 200_000
    stations = [TWO[0], Station(2, 3, [(7, pages.STOPPED)])]
    head, entries = texts.recording_text(Recording(1, stations, []))[:-5], exchanges_of(count)
    steps = list(steps_of(count))
    name = trials.file(head + entries + struct.pack(">BI", 0, 3 * count))
    report = [b"yes records=%d others=0\n" % (3 * count)]
    report += [b"answer %d request %d\n" % (place, place - 1) for place in range(2, 3 * count, 3)]
    yes = Outcome(0, b"".join(report) + b"entity 2:3:7 running\n", b"")
    trials.expect(["check", name, trials.file(texts.certificate_text(steps))], yes)
    trials.expect(["audit", name, "identifiers.dsct"], Outcome(0, b"explained steps=600000\n", b""))
    again = texts.entry_text(texts.sent(0, texts.pdu(14, (1, 1, 0), (2, 3, 7), request=123_456)))
    name = trials.file(head + entries + again + struct.pack(">BI", 0, 3 * count + 1))
    longer = trials.file(texts.certificate_text([*steps, (3 * count, NO_LINK)]))
    trials.expect(["check", name, longer], Outcome(1, b"no step=600000 cause=6 reused-identifier\n", b""))
    blocked = b"blocked stations=1\nblocked 1:1 record=600000 cause=6 reused-identifier\n"
    trials.expect(["audit", name, "identifiers.not.dsct"], Outcome(1, blocked, b""))


def carried_over(text):
    return b"DSRC0002" + text[8:9] + b"\0" + text[9:]


def try_recording(trials, name, text, count, others, lines):
    """All that is said of a recording of station 1:1 alone, whose order is that of its file."""
    recording = trials.file(text)
    shown = b"exercise=1 stations=1 records=%d\nstation 0 1:1\n" % count + lines
    trials.expect(["show", recording], Outcome(0, shown, b""))
    steps = certificate_in_file_order(count)
    yes = Outcome(0, b"yes records=%d others=%d\n" % (count, others), b"")
    trials.expect(["check", recording, trials.file(steps)], yes)
    makes(trials, ["audit", recording, f"{name}.dsct"], b"explained steps=%d\n" % count, steps)
    makes(trials, ["convert", recording, f"{name}.dsrc"], b"converted records=%d\n" % count, carried_over(text))


def try_full(trials):
    """A recording with as many entries as there can be."""
    lines = b"".join(b"%d told 0 7 absent\n" % number for number in range(MOST_ENTRIES))
    try_recording(trials, "full", told_entries(MOST_ENTRIES), MOST_ENTRIES, 0, lines)


def try_large(trials):
    """A recording of 200 MiB: datagrams that mean nothing, the last of them shorter."""
    whole, last = 25_559, 3_570
    parts = [struct.pack(">BHQH", 1, 0, 0, size) + b"\xee" * size for size in (8192, last)]
    text = HEAD + parts[0] * whole + parts[1] + struct.pack(">BI", 0, whole + 1)
    trials.state("the bytes of a large recording", 200 << 20, len(text))
    lines = b"".join(b"%d sent 0 stamp=0 other bytes=8192\n" % number for number in range(whole))
    lines += b"%d sent 0 stamp=0 other bytes=%d\n" % (whole, last)
    try_recording(trials, "large", text, whole + 1, whole + 1, lines)


def try_lines(trials):
    """10,000 lines of hex, one of them of over a megabyte."""
    lines = [README_DATAGRAM] * 10_000
    lines[4999] = b"00" * 600_000
    bad = b"hex: not byte pairs at line 5000\n"
    trials.expect(["pdus"], Outcome(2, README_ANSWER * 9_999, bad), given=b"\n".join(lines) + b"\n")


def try_all(trials, _):
    try_stations(trials)
    try_rounds(trials)
    try_moves(trials)
    try_sends(trials)
    try_longest_datagrams(trials)
    try_empty_lines(trials)
    try_waiting(trials)
    try_identifiers(trials)
    try_full(trials)
    try_large(trials)
    try_lines(trials)
