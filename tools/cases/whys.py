"""What contradicts what: the worked example, recordings and certificates that are made up, both spellings, faults."""
import random

import pages
from cases import texts
from cases.audits import mixed, with_one_lost
from cases.examples import EMPTY_CERTIFICATE, FORMATS_RECORDING, WHY_CHANGED, WHY_MISSING, WHY_NOT_CHANGED
from cases.reviews import JSON, LOSSES, stamped
from cases.scenes import scenes
from cases.texts import DIRECTOR, SEVEN
from cases.trials import UNWRITTEN, Some
from cases.wandering import wandering
from pages import NO_LINK, OPEN, Outcome, Station
from repairs import made_exercise, spoilt

HISTORIES = 400
HISTORY_LENGTH = 24
EXERCISES = 300
CERTIFICATE = "examples/created_and_started.dsct"
# A course of the worked exercise.
COURSE = [0, 1, 2, 3, 4, 5, 6, 7, 8, 9, 11, 13, 15, 10, 12, 14, 16, 17, 18, 22, 19, 20, 23, 24, 25, 26, 28, 27, 29, 21]


def try_why(trials, text, seen, recording=None):
    """A recording in both spellings; what its lines are is noted."""
    name = recording or trials.file(text)
    answer = pages.answer_to_why(text)
    trials.expect(["why", name], answer)
    trials.expect(["why", name, *JSON], pages.answer_to_why(text, pages.log_json))
    note(seen, answer)


def try_why_not(trials, text, steps, seen, names=None):
    """The same of a recording and a certificate."""
    recording, certificate = names or (trials.file(text), trials.file(steps))
    answer = pages.answer_to_why_not(text, steps)
    trials.expect(["why", recording, certificate], answer)
    trials.expect(["why", recording, certificate, *JSON], pages.answer_to_why_not(text, steps, pages.log_json))
    note(seen, answer)


def note(seen, answer):
    """What lines there were, by their first word, with the causes of clashes by the rule before them."""
    lines = [line.split(" ") for line in answer.out.decode().splitlines()]
    seen |= {words[0] for words in lines if words[0] != "entry"}
    seen |= {f"{words[0]} {word}" for words in lines for word in words if word.startswith(("cause=", "enough=", "differs="))}
    seen |= {f"fault {words[1]}" for words in lines if words[0] == "fault"}


def try_worked(trials, seen):
    """The worked exercise, the same with a send missing, and with a byte of an answer changed."""
    losses = (trials.folder / LOSSES).read_bytes()
    recording = pages.read_recording(losses)
    steps = texts.certificate_text(steps_of(recording, COURSE))
    entries = list(recording.entries)
    answer = entries[14]
    unable = answer._replace(datagram=answer.datagram[:27] + bytes([pages.UNABLE]) + answer.datagram[28:])
    missing = texts.recording_text(recording._replace(entries=entries[:7] + entries[8:]))
    changed = texts.recording_text(recording._replace(entries=[*entries[:14], unable, *entries[15:]]))
    for told, came in [
        (b"explained steps=30\n", pages.answer_to_why(losses)), (WHY_MISSING, pages.answer_to_why(missing)),
        (WHY_CHANGED, pages.answer_to_why(changed)), (WHY_NOT_CHANGED, pages.answer_to_why_not(changed, steps)),
        (b"yes records=30 others=0\n", pages.answer_to_why_not(losses, steps)),
    ]:  # fmt: skip
        trials.state("what why says of the worked exercise", told, came.out)
    try_why(trials, losses, seen, LOSSES)
    try_why(trials, missing, seen)
    try_why(trials, changed, seen)
    try_why_not(trials, losses, steps, seen)
    try_why_not(trials, changed, steps, seen)


def try_examples(trials, seen):
    for name in ["created_and_started", "logs_joined", "logs_joined_wrong_state", "open", "told_a_wrong_state"]:
        path = f"examples/{name}.dsrc"
        try_why(trials, (trials.folder / path).read_bytes(), seen, path)
    for recording, steps in [
        ("told_a_wrong_state", "created_and_started"), ("created_and_started", "created_and_started"),
        ("logs_joined", "logs_joined"), ("logs_joined_wrong_state", "logs_joined"), ("open", "open"),
        ("open", "logs_joined"),
    ]:  # fmt: skip
        names = f"examples/{recording}.dsrc", f"examples/{steps}.dsct"
        try_why_not(trials, *((trials.folder / name).read_bytes() for name in names), seen, names)


def without_some(chance, recording):
    """The recording with up to three entries less."""
    entries = list(recording.entries)
    for _ in range(min(len(entries), chance.randrange(4))):
        del entries[chance.randrange(len(entries))]
    return recording._replace(entries=entries)


def with_one_changed(chance, recording):
    """The recording with one byte of one datagram changed, or the state that one entry tells."""
    entries = list(recording.entries)
    if not entries:
        return recording
    index = chance.randrange(len(entries))
    entry = entries[index]
    if entry.datagram:
        datagram = bytearray(entry.datagram)
        place = chance.choice((0, 2, 4, 7, 10, 11, 13, 15, 17, 19, 21, 23, 25, 27, 29, 31, chance.randrange(len(datagram))))
        datagram[place % len(datagram)] ^= chance.choice((1, 1, 2, 3, 128, 255))
        entries[index] = entry._replace(datagram=bytes(datagram))
    elif entry.datagram is None:
        entries[index] = entry._replace(state=chance.randrange(3))
    return recording._replace(entries=entries)


def altered(chance, recording, steps):
    """A certificate of another course: swapped, doubled, cut, with other links or places."""
    steps = list(steps)
    for _ in range(chance.choice((0, 1, 1, 2))):
        if not steps:
            break
        one, other = chance.randrange(len(steps)), chance.randrange(len(steps))
        place, link = steps[one]
        choice = chance.randrange(7)
        if choice < 2:
            steps[one], steps[other] = steps[other], steps[one]
        elif choice == 2:
            steps[one] = steps[other]
        elif choice == 3:
            steps[one] = place, chance.choice((NO_LINK, other, len(steps), 1 << 31))
        elif choice == 4:
            steps[one] = chance.choice((other, len(recording.entries), len(recording.entries) + 5, NO_LINK)), link
        elif choice == 5:
            del steps[one]
        else:
            steps.insert(other, steps[one])
    return steps


def steps_of(recording, places=None):
    """The steps of these places with the links that are right, or those of a search and then what it leaves."""
    course = pages.Course(recording)
    taken = pages.searched(recording)[0].taken if places is None else places
    links = {}
    for index in taken:
        links[index] = course.link_of(index)
        course.take(index)
    left = [index for index in range(len(recording.entries)) if index not in links]
    return [(index, links.get(index, NO_LINK)) for index in [*taken, *left]]


def try_made_up(trials, seen):
    """Recordings of all forms that stations make at random, mixed, with entries lost and changed; and certificates."""
    for seed in range(HISTORIES):
        chance = random.Random(seed)
        made, steps = wandering(chance, HISTORY_LENGTH)
        if not made.entries:
            continue
        made = stamped(chance, made)
        steps = altered(chance, made, steps)
        try_why_not(trials, texts.recording_text(made), texts.certificate_text(steps), seen)
        anew = mixed(chance, made)
        for recording in (with_one_lost(chance, anew), with_one_changed(chance, without_some(chance, anew) if seed % 2 else anew)):
            text = texts.recording_text(recording)
            try_why(trials, text, seen)
            given = altered(chance, recording, steps_of(recording))
            try_why_not(trials, text, texts.certificate_text(given), seen)


def try_exercises(trials, seen):
    """Exercises of which sends are lost, bytes changed, entries swapped, as tools/repairs.py makes them, in each form."""
    for seed in range(EXERCISES):
        chance = random.Random(seed)
        made = spoilt(chance, made_exercise(chance))
        recording = made._replace(form=chance.choice((pages.FIRST, pages.CLOSED, OPEN)))
        try_why(trials, texts.recording_text(recording), seen)


def alterations(kind):
    """The fields of a PDU, and each of them with another value."""
    _, layout, contents = pages.BODIES[kind]
    fields = {name: 1 for name, _ in layout}
    records = [texts.fixed_datum(1, 2), texts.variable_datum(3, 12, b"ab")]
    others = [[texts.fixed_datum(1, 3), records[1]], [records[0], texts.variable_datum(3, 12, b"cb")],
              [records[0], texts.variable_datum(3, 12, b"ac")]]  # fmt: skip
    if contents == "identifiers":
        records, others = [b"\0\0\0\1", b"\0\0\0\2"], [[b"\0\0\0\3", b"\0\0\0\2"], [b"\0\0\0\1", b"\0\0\0\3"]]
    usual = {"kind": kind, "origin": DIRECTOR, "target": SEVEN, **fields}
    if contents:
        usual |= {"fixed": 1, "variable": 1, "records": b"".join(records)}
    changes = [{"version": 6}, {"stamp": 1}, {"status": 1}, {"origin": (1, 1, 7)}, {"target": (2, 3, 8)}, {"target": (2, 4, 7)}]
    changes += [{name: 2} for name in fields] + [{"records": b"".join(other)} for other in others if contents]
    changes += [{"fixed": 0, "records": records[1]}, {"variable": 0, "records": records[0]}] if contents else []
    return usual, changes


def try_fields(trials, seen):
    """Two datagrams that differ in one field: sent one after the other, and the second received in the place of the first."""
    stations = [Station(1, 1, []), Station(2, 3, [])]
    for kind in pages.BODIES:
        usual, changes = alterations(kind)
        for change in [{}, *changes, *({"version": 6} | change for change in changes)]:
            one, other = texts.pdu(**usual), texts.pdu(**usual | change)
            again = texts.pdu(**usual | {"kind": 12 if kind == 11 else 11, "records": b""})
            for entries in (
                [texts.sent(0, one), texts.sent(0, other)], [texts.sent(0, one), texts.received(1, other)],
                [texts.received(1, one), texts.received(1, other), texts.sent(0, one)],
                [texts.sent(0, one), texts.sent(0, again), texts.received(1, other), texts.sent(0, other)],
            ):  # fmt: skip
                recording = pages.Recording(1, stations, entries)
                text = texts.recording_text(recording)
                try_why(trials, text, seen)
                places = range(len(entries))
                try_why_not(trials, text, texts.certificate_text([(place, NO_LINK) for place in places]), seen)


def try_scenes(trials, seen):
    for scene in scenes():
        text, steps = texts.recording_text(scene.recording), texts.certificate_text(scene.steps)
        try_why(trials, text, seen)
        try_why_not(trials, text, steps, seen)


def try_words(trials):
    usage = Outcome(2, b"", Some())
    for words in [
        [], JSON, [*JSON, LOSSES, *JSON], [LOSSES, *JSON, *JSON], [LOSSES, CERTIFICATE, *JSON, *JSON],
        [LOSSES, CERTIFICATE, CERTIFICATE], [LOSSES, CERTIFICATE, CERTIFICATE, *JSON], [LOSSES, "-x"], ["-x"],
        [LOSSES, CERTIFICATE, "-x"], [LOSSES, "--jso"], [LOSSES, "--json=1"], ["-x", CERTIFICATE],
    ]:  # fmt: skip
        trials.expect(["why", *words], usage)


def try_files(trials, seen):
    for name in ["none.dsrc", "", "x" * 300]:
        told = pages.unopened(name)
        for words in ([name], [name, *JSON], [name, CERTIFICATE], [LOSSES, name], [LOSSES, name, *JSON], [name, "none"]):
            trials.expect(["why", *words], told)
    trials.expect(["why", "examples"], pages.unopened("examples", "is a directory"))
    trials.expect(["why", "examples", "examples"], pages.unopened("examples", "is a directory"))
    trials.expect(["why", LOSSES, "examples"], pages.unopened("examples", "is a directory"))
    for size in range(len(FORMATS_RECORDING) + 1):
        try_why(trials, FORMATS_RECORDING[:size], seen)
        try_why_not(trials, FORMATS_RECORDING[:size], EMPTY_CERTIFICATE[:-1], seen)
    losses = (trials.folder / LOSSES).read_bytes()
    certificate = texts.certificate_text(steps_of(pages.read_recording(losses)))
    for size in [*range(30), len(certificate) - 1]:
        try_why_not(trials, losses, certificate[:size], seen)
    try_why_not(trials, losses, certificate + b"\0", seen)
    wrong = "examples/told_a_wrong_state.dsrc"
    for behind in [">/dev/full", ">&-"]:
        for words in ([LOSSES], [LOSSES, *JSON], [LOSSES, CERTIFICATE], [wrong], [wrong, CERTIFICATE, *JSON]):
            trials.expect(["why", *words], UNWRITTEN, behind=behind)


WANTED = {
    *(f"{line} cause={cause}" for line, causes in [("blocked", range(5, 14)), ("no", range(1, 14))] for cause in causes),
    *(f"repair enough={word}" for word in ("yes", "no", "unknown")), "fault recording", "fault certificate",
    *("waits", "cycle", "final", "also", "missing", "explained", "yes"),
    *(f"clash differs={name}" for name in (
        "version", "time", "status", "kind", "entity", "from", "to", "real", "sim", "reason", "behaviour", "flag", "response",
        "action", "result", "interval", "fixed", "variable", "padding",
    )),
}  # fmt: skip


def try_all(trials, _):
    seen = set()
    try_worked(trials, seen)
    try_examples(trials, seen)
    try_made_up(trials, seen)
    try_exercises(trials, seen)
    try_scenes(trials, seen)
    try_fields(trials, seen)
    try_words(trials)
    try_files(trials, seen)
    trials.state("what the made-up recordings lack", set(), WANTED - seen)
