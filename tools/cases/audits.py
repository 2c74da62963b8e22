"""Recordings that are searched for a sequence, and the files of the certificates that are made."""
import random

import pages
from cases import texts
from cases.examples import EMPTY_CERTIFICATE, FORMATS_RECORDING, TOP
from cases.scenes import acknowledge, request, scenes
from cases.trials import UNWRITTEN
from cases.wandering import wandering
from cases.worlds import after
from pages import Outcome

HISTORIES = 100
HISTORY_LENGTH = 24
CLOCKS = 40


def try_audit(trials, recording):
    """A search, with a new name for the certificate and with one that stands there."""
    answer = pages.answer_to_audit(recording)
    in_time = texts.certificate_text(pages.timely(pages.read_recording(recording))) if answer.status == 0 else None
    name, stands = trials.file(recording), trials.file(b"stays")
    new = f"{stands}.new"

    def explains(left):
        return left == in_time

    found = answer.status == 0
    after(trials, ["audit", name, new], (answer,), new, explains if found else lambda left: left is None)
    after(trials, ["audit", name, stands, "--force"], (answer,), stands, explains if found else lambda left: left == b"stays")


def mixed(chance, recording):
    """The same logs, in another order of the file."""
    logs = [[entry for entry in recording.entries if entry.station == own] for own in range(len(recording.stations))]
    entries = []
    while any(logs):
        entries.append(chance.choice([log for log in logs if log]).pop(0))
    return recording._replace(entries=entries)


def stamped(chance, recording, clocks):
    """The same recording by another clock: one that stands still, goes back, is one for all, or each station's own."""
    entries, now = [], [0] * len(recording.stations)
    for number, entry in enumerate(recording.entries):
        shown = {"still": 7, "back": 1_000 - number, "one": number, "any": chance.randrange(4)}.get(clocks)
        if shown is None:
            shown = now[entry.station] = now[entry.station] + chance.randrange(3)
        entries.append(entry._replace(stamp=shown) if entry.kind != pages.TOLD else entry)
    return recording._replace(entries=entries)


def many_stations(chance):
    """256 stations, of which the first stops an entity of others, each of which answers: log by log in the file."""
    stations = [pages.Station(1 + index // 16, 1 + index % 16, [(1, pages.RUNNING)]) for index in range(256)]
    entries = []
    for number, index in enumerate(chance.sample(range(1, 256), 40)):
        there = (*stations[index][:2], 1)
        asked = request(pages.STOP, there, number, (*stations[0][:2], 0))
        answer = acknowledge(4, pages.ABLE, there, number, (*stations[0][:2], 0))
        entries += [texts.sent(0, asked, 10 * number), texts.received(index, asked, 10 * number + 2)]
        entries += [texts.sent(index, answer, 10 * number + 3), texts.received(0, answer, 10 * number + 5)]
    return pages.Recording(1, stations, sorted(entries, key=lambda entry: -entry.station), pages.CLOSED)


def of_captures(names):
    """The worked captures of three hosts, or the recordings that their stations kept, in one recording."""
    pieces = [bytes.fromhex((TOP / "examples" / "captures" / f"{name}.dsrc.hex").read_text()) for name in names]
    return pages.joined_text([pages.read_recording(piece) for piece in pieces], "closed")


def with_one_lost(chance, recording):
    lost = chance.randrange(len(recording.entries)) if recording.entries else 0
    return recording._replace(entries=recording.entries[:lost] + recording.entries[lost + 1 :])


def try_searches(trials):
    answers = set()
    for scene in scenes():
        try_audit(trials, texts.recording_text(scene.recording))
    for seed in range(HISTORIES):
        chance = random.Random(seed)
        recording = mixed(chance, wandering(chance, HISTORY_LENGTH)[0])
        for tried in (recording, with_one_lost(chance, recording)):
            answers.add(pages.search(tried).status)
            try_audit(trials, texts.recording_text(tried))
    trials.state("the statuses of the searches", {0, 1}, answers)


def try_clocks(trials):
    """Searches whose sequence goes by stamps: clocks that stand still, go back and agree, and 256 stations."""
    for seed in range(CLOCKS):
        chance = random.Random(seed)
        recording = wandering(chance, HISTORY_LENGTH)[0]
        for clocks in ("still", "back", "one", "any", "own"):
            try_audit(trials, texts.recording_text(mixed(chance, stamped(chance, recording, clocks))))
    try_audit(trials, texts.recording_text(many_stations(random.Random(1))))
    for kind in ("", ".echo"):
        try_audit(trials, of_captures([f"import{number}{kind}" for number in (1, 3, 4)]))
    try_audit(trials, of_captures(["own1", "own3", "own4"]))


def try_faults(trials):
    explained = "examples/logs_joined.dsrc"
    for size in range(len(FORMATS_RECORDING)):
        try_audit(trials, FORMATS_RECORDING[:size])
    try_audit(trials, EMPTY_CERTIFICATE)
    trials.expect(["audit", "none", "new"], pages.unopened("none"))
    trials.expect(["audit", "examples", "new"], pages.unopened("examples", "is a directory"))
    for name in ["examples", "none/there.dsct", "", "x" * 300, "/dev/full"]:
        trials.expect(["audit", explained, name], UNWRITTEN)
    for behind in [">/dev/full", ">&-"]:
        name = f"unheard.{len(behind)}.dsct"
        after(trials, ["audit", explained, name], (UNWRITTEN,), name, lambda left: left is None, behind=behind)
    trials.expect(["audit", explained, "/dev/null"], Outcome(0, b"explained steps=7\n", b""))
    wrong = "examples/logs_joined_wrong_state.dsrc"
    trials.expect(["audit", wrong, "none/there.dsct"], pages.answer_to_audit((trials.folder / wrong).read_bytes()))


def try_all(trials, _):
    try_searches(trials)
    try_clocks(trials)
    try_faults(trials)
