"""Logs of entries: the worked example, recordings that are made up, filters alone and in pairs, both spellings, faults."""
import random

import pages
from cases import texts
from cases.audits import mixed, with_one_lost
from cases.examples import FORMATS_RECORDING, LOSSES_LOG
from cases.reviews import ADDRESSES, JSON, LOSSES, stamped
from cases.scenes import scenes
from cases.trials import UNWRITTEN, Some
from cases.wandering import wandering
from pages import Outcome

HISTORIES = 150
HISTORY_LENGTH = 24
FILTERS = [
    *(f"station={address}" for address in ADDRESSES),
    *(f"entity={address}:{entity}" for address in ADDRESSES for entity in (0, 7, 8, 65535)),
    *(f"request={address}/{number}" for address in ADDRESSES for number in (0, 1, 2, 3, "07")),
    *(f"kind={kind}" for kind in [*pages.KINDS, "told", "other"]),
]
BAD_FILTERS = [
    "kind=wrong", "kind=", "kind", "Kind=told", "kind=Told", "kind =told", "kind=data-pdu", "kind=create_entity", "=", "",
    "-", "fate=lost", "fate=done", "station=1", "station=65536:1", "station=1:1 ", "entity=1:1", "entity=1:1:65536",
    "request=1:1", "request=1:1/4294967296", "from=1", "log",
]  # fmt: skip


def try_log(trials, recording, words=(), text=None):
    """A log in both spellings."""
    text = (trials.folder / recording).read_bytes() if text is None else text
    trials.expect(["log", recording, *words], pages.answer_to_log(text, words))
    trials.expect(["log", recording, *words, *JSON], pages.answer_to_log(text, words, pages.log_json))


def try_worked(trials):
    losses = (trials.folder / LOSSES).read_bytes()
    trials.state("the log of losses.dsrc", Outcome(0, LOSSES_LOG, b""), pages.answer_to_log(losses))
    for words in [[], *([word] for word in FILTERS), *([one, other] for one in FILTERS[::4] for other in FILTERS[::5])]:
        try_log(trials, LOSSES, words, losses)
    for name in ["created_and_started", "logs_joined", "logs_joined_wrong_state", "open", "told_a_wrong_state"]:
        try_log(trials, f"examples/{name}.dsrc")
    kinds = [texts.sent(0, datagram, stamp) for stamp, datagram in enumerate(texts.sample_datagrams())]
    for exercise in (1, 255):
        recording = pages.Recording(exercise, [pages.Station(1, 1, [])], kinds)
        try_log(trials, trials.file(texts.recording_text(recording)), (), texts.recording_text(recording))


def try_made_up(trials):
    """Recordings of all forms that stations make at random, mixed anew, with an entry lost, under words at random."""
    for seed in range(HISTORIES):
        chance = random.Random(seed)
        recording = stamped(chance, mixed(chance, wandering(chance, HISTORY_LENGTH)[0]))
        for tried in (recording, with_one_lost(chance, recording)):
            text = texts.recording_text(tried)
            for given in ([], chance.sample(FILTERS, chance.choice((1, 1, 2, 3)))):
                try_log(trials, trials.file(text), given, text)
    for scene in scenes():
        try_log(trials, trials.file(texts.recording_text(scene.recording)))


def try_words(trials):
    for words in [[], JSON, [*JSON, LOSSES, *JSON], [LOSSES, *JSON, *JSON], [LOSSES, *JSON, "kind=told", *JSON], [LOSSES, "-x"], ["-x"]]:
        trials.expect(["log", *words], Outcome(2, b"", Some()))
    for word in BAD_FILTERS:
        for name in (LOSSES, "none", "examples"):
            trials.expect(["log", name, word], pages.fault(f"filter: {word}"))
            trials.expect(["log", name, "kind=told", word, "kind=bad", *JSON], pages.fault(f"filter: {word}"))


def try_files(trials):
    for name in ["none.dsrc", "", "x" * 300]:
        trials.expect(["log", name], pages.unopened(name))
    trials.expect(["log", "examples"], pages.unopened("examples", "is a directory"))
    for size in range(len(FORMATS_RECORDING) + 1):
        try_log(trials, trials.file(FORMATS_RECORDING[:size]))
    for behind in [">/dev/full", ">&-"]:
        trials.expect(["log", LOSSES], UNWRITTEN, behind=behind)
        trials.expect(["log", LOSSES, *JSON], UNWRITTEN, behind=behind)


def try_all(trials, _):
    try_worked(trials)
    try_made_up(trials)
    try_words(trials)
    try_files(trials)
