"""What why says of a recording, or of a certificate of it, by READING.md: what contradicts what."""
from .clashes import other_side, own_cause, station_at
from .datagrams import ABLE, REQUESTS, Outcome, fault
from .files import MOST_ENTRIES, NO_LINK, RECEIVED, SENT, TOLD, Entry, Fault, read_certificate, read_recording
from .histories import CAUSES, is_answer, judged, request_of, response_of, searched
from .logs import Story, entry_line, log_text
from .reviews import Line, address_text, addresses

RULES = {
    1: "a certificate has one step for each entry",
    2: "a step names an entry of the recording",
    3: "a step names the next entry of its station",
    4: "a step's link is the entry that its event takes up or was sent as",
    5: "a station sends under its own address",
    6: "a request identifier of a station stands for one order",
    7: "an answer takes up a request that its station has received",
    8: "an answer answers the request that it takes up",
    9: "under one key a station does not say both able and unable",
    10: "a change is made to an entity that can be changed so",
    11: "a datagram comes from a recorded station",
    12: "a datagram that is received was sent before",
    13: "a station tells the state that its entity has",
}
NEVER_SENT = 12
FINAL = (5, 6, 9, 11)
# The fields of lines that name entries; of `place` those that are there.
NAMING = (
    "record", "entry", "earlier", "later", "overheard", "sent", "near", "next", "change", "missing", "twice", "place",
    "right", "after",
)  # fmt: skip


def clash_line(index, fields):
    return Line("clash", [(False, "entry", index), *((True, key, value) for key, value in fields)])


# A recording that no run explains.

def ways(story, blocks):
    """Of each blocked station: where its next entry was sent (None: nowhere yet), and the station that it waits on."""
    found = {}
    for station, index in blocks:
        sent = story.sources[index]
        found[station] = None if sent is None else (sent, story.entries[sent].station)
    return found


def way_lines(story, blocks, causes):
    """What each blocked station waits for, or clashes with."""
    nexts = dict(blocks)
    for station, way in ways(story, blocks).items():
        index = nexts[station]
        if way:
            yield Line("waits", [
                (False, "entry", index), (True, "at", address_text(story.address(station))), (True, "sent", way[0]),
                (True, "on", address_text(story.address(way[1]))), (True, "next", nexts[way[1]]),
            ])  # fmt: skip
            continue
        yield clash_line(index, other_side(story, index, causes[station]))
        if causes[station] in FINAL:
            yield Line("final", [(False, "entry", index)])


def cycle_lines(story, blocks):
    """The rings of stations, by their least one, from that one on."""
    waits = {station: way[1] for station, way in ways(story, blocks).items() if way}
    for least in sorted(waits):
        ring, at = [least], waits[least]
        while at in waits and at not in ring:
            ring.append(at)
            at = waits[at]
        if at == least == min(ring):
            yield Line("cycle", [(False, "ring", [address_text(story.address(station)) for station in ring])])


def also_lines(story, blocks):
    for index, entry in enumerate(story.entries):
        cause = own_cause(story, index)
        if cause and (entry.station, index) not in blocks:
            yield Line("also", [
                (False, "entry", index), (True, "at", address_text(story.address(entry.station))),
                (True, "cause", cause), (False, "name", CAUSES[cause]),
            ])  # fmt: skip


def missing_sends(story):
    """Each datagram that the log of its sender lacks: its first receipt, its sender, and the entry before its place."""
    found, told = [], set()
    for index, entry in enumerate(story.entries):
        pdu = story.meanings[index]
        if entry.kind != RECEIVED or not pdu or entry.datagram in told:
            continue
        sender = station_at(story, pdu.origin[:2])
        if sender is not None and story.sources[index] is None:
            told.add(entry.datagram)
            found.append((index, sender, place_of(story, sender, pdu)))
    return found


def place_of(story, sender, pdu):
    if not is_answer(pdu):
        return None
    return next((
        at for at, asked in story.meant(sender, RECEIVED)
        if asked.kind in REQUESTS and addresses(asked.target, story.address(sender))
        and request_of(asked) == request_of(pdu) and asked.origin[:2] == pdu.target[:2]
    ), None)  # fmt: skip


def with_sends(recording, sends):
    """The recording with sends, each a station, a datagram and the entry that it stands behind (None: the start)."""
    def behind(place):
        return [Entry(SENT, station, 0, datagram, None, None) for station, datagram, after in sends if after == place]

    entries = behind(None)
    for index, entry in enumerate(recording.entries):
        entries += [entry, *behind(index)]
    return recording._replace(entries=entries)


def repaired(recording, missing):
    """The recording with the sends that are missing, at their places."""
    return with_sends(recording, [(sender, recording.entries[index].datagram, place) for index, sender, place in missing])


def is_enough(recording, story, missing):
    if len(recording.entries) + len(missing) > MOST_ENTRIES:
        return "unknown"
    if not searched(repaired(recording, missing))[1]:
        return "yes"
    return "unknown" if any(response_of(story.meanings[index]) == ABLE for index, _, _ in missing) else "no"


def missing_lines(recording, story):
    missing = missing_sends(story)
    for index, sender, place in missing:
        at = address_text(story.address(sender))
        yield Line("missing", [(False, "entry", index), (True, "at", at), (True, "after", place)])
    yield Line("repair", [(True, "sends", len(missing)), (True, "enough", is_enough(recording, story, missing))])


def blocked_lines(story, blocks, causes):
    yield Line("blocked", [(True, "stations", len(blocks))])
    for station, index in blocks:
        yield Line("blocked", [
            (False, "address", address_text(story.address(station))), (True, "record", index),
            (True, "cause", causes[station]), (False, "name", CAUSES[causes[station]]),
        ])  # fmt: skip


def rule_line(cause):
    return Line("rule", [(False, "cause", cause), (False, "text", RULES[cause])])


def named_entries(story, lines):
    """The line of each entry that one of the lines names."""
    named = {value for line in lines for _, key, value in line.fields if key in NAMING and value is not None}
    return [entry_line(story, index) for index in sorted(named) if index < len(story.entries)]


def why_lines(recording):
    """The status and the lines of a recording."""
    course, blocks = searched(recording)
    if not blocks:
        return 0, [Line("explained", [(True, "steps", len(course.entries))])]
    story = Story(recording)
    causes = {station: course.cause_of_event(index) for station, index in blocks}
    lines = [
        *blocked_lines(story, blocks, causes), *map(rule_line, sorted(set(causes.values()))),
        *way_lines(story, blocks, causes), *cycle_lines(story, blocks), *also_lines(story, blocks),
        *missing_lines(recording, story),
    ]  # fmt: skip
    return 1, lines + named_entries(story, lines)


# A certificate that is not good.

def least(places):
    return min(places, default=None)


def count_side(story, steps):
    taken = [place for place, _ in steps]
    entries = range(len(story.entries))
    return [
        ("steps", len(steps)), ("records", len(entries)), ("missing", least(at for at in entries if at not in taken)),
        ("twice", least(at for at in entries if taken.count(at) > 1)),
    ]  # fmt: skip


def step_of(steps, place):
    return next((step for step, (taken, _) in enumerate(steps) if taken == place), None)


def next_side(story, course, step, place):
    taken = course.taken.index(place) if place in course.taken else None
    left = [at for at in story.own[story.entries[place].station] if at not in course.taken]
    return [("place", place), ("taken", taken), ("next", least(left))]


def step_clash(story, course, steps, step, cause):
    """The clash of a bad step."""
    if cause == 1:
        return clash_line(None, count_side(story, steps))
    place, link = steps[step]
    if cause == 2:
        return clash_line(None, [("place", place), ("records", len(story.entries))])
    if cause == 3:
        return clash_line(None, next_side(story, course, step, place))
    if cause == 4:
        right = course.link_of(place)
        return clash_line(place, [(key, None if it == NO_LINK else it) for key, it in (("link", link), ("right", right))])
    fields = other_side(story, place, cause)
    if cause == NEVER_SENT:
        source = story.sources[place]
        fields.append(("step", None if source is None else step_of(steps, source)))
    return clash_line(place, fields)


def why_not_lines(recording, steps):
    """The status and the lines of a recording and the steps of a certificate."""
    course, bad = judged(recording, steps)
    if not bad:
        others = sum(entry.kind != TOLD and not pdu for entry, pdu in zip(course.entries, course.meanings))
        return 0, [Line("yes", [(True, "records", len(course.entries)), (True, "others", others)])]
    story, (step, cause) = Story(recording), bad
    whose = "recording" if searched(recording)[1] else "certificate"
    lines = [
        Line("no", [(True, "step", step), (True, "cause", cause), (False, "name", CAUSES[cause])]), rule_line(cause),
        step_clash(story, course, steps, step, cause), Line("fault", [(False, "of", whose)]),
    ]  # fmt: skip
    return 1, lines + named_entries(story, lines)


def told_so(status, lines, spelled):
    return Outcome(status, "".join(spelled(line) + "\n" for line in lines).encode(), b"")


def answer_to_why(text, spelled=log_text):
    """What why answers to a recording by its bytes."""
    try:
        return told_so(*why_lines(read_recording(text)), spelled)
    except Fault as bad:
        return fault(f"recording: {bad}")


def answer_to_why_not(text, certificate, spelled=log_text):
    """What why answers to a recording and a certificate by their bytes."""
    try:
        recording = read_recording(text)
    except Fault as bad:
        return fault(f"recording: {bad}")
    try:
        return told_so(*why_not_lines(recording, read_certificate(certificate)), spelled)
    except Fault as bad:
        return fault(f"certificate: {bad}")
