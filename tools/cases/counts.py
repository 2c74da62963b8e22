"""Counts of entries: the worked example, recordings that are made up, filters alone and in pairs, both spellings, faults."""
import random

import pages
from cases import texts
from cases.audits import mixed, with_one_lost
from cases.examples import FORMATS_RECORDING, LOSSES_COUNT
from cases.logs import BAD_FILTERS, FILTERS
from cases.reviews import JSON, LOSSES, stamped
from cases.scenes import scenes
from cases.trials import UNWRITTEN, Some
from cases.wandering import wandering
from pages import Outcome, Recording, Station

HISTORIES = 100
HISTORY_LENGTH = 24


def try_count(trials, recording, words=(), text=None):
    """Counts in both spellings."""
    text = (trials.folder / recording).read_bytes() if text is None else text
    trials.expect(["count", recording, *words], pages.answer_to_count(text, words))
    trials.expect(["count", recording, *words, *JSON], pages.answer_to_count(text, words, pages.log_json))


def many_stations():
    """256 stations, each of which received an other and told a state, the last one often."""
    entries = [entry for at in range(256) for entry in (texts.received(at, b""), texts.told(at, 7, pages.STOPPED))]
    often = [texts.told(255, 7, pages.STOPPED)] * 70_000
    return Recording(1, [Station(1, at + 1, [(7, pages.STOPPED)]) for at in range(256)], entries + often)


def try_worked(trials):
    losses = (trials.folder / LOSSES).read_bytes()
    trials.state("the counts of losses.dsrc", Outcome(0, LOSSES_COUNT, b""), pages.answer_to_count(losses))
    for words in [[], *([word] for word in FILTERS), *([one, other] for one in FILTERS[::4] for other in FILTERS[::5])]:
        try_count(trials, LOSSES, words, losses)
    for name in ["created_and_started", "logs_joined", "logs_joined_wrong_state", "open", "told_a_wrong_state"]:
        try_count(trials, f"examples/{name}.dsrc")
    datagrams = list(enumerate(texts.sample_datagrams()))
    kinds = [deed(0, datagram, stamp) for deed in (texts.received, texts.sent) for stamp, datagram in datagrams]
    for exercise in (1, 255):
        recording = texts.recording_text(Recording(exercise, [Station(1, 1, [])], kinds))
        try_count(trials, trials.file(recording), (), recording)
    many = texts.recording_text(many_stations())
    try_count(trials, trials.file(many), (), many)


def try_made_up(trials):
    """Recordings of all forms that stations make at random, mixed anew, with an entry lost, under words at random."""
    for seed in range(HISTORIES):
        chance = random.Random(seed)
        recording = stamped(chance, mixed(chance, wandering(chance, HISTORY_LENGTH)[0]))
        for tried in (recording, with_one_lost(chance, recording)):
            text = texts.recording_text(tried)
            for given in ([], chance.sample(FILTERS, chance.choice((1, 1, 2, 3)))):
                try_count(trials, trials.file(text), given, text)
    for scene in scenes():
        try_count(trials, trials.file(texts.recording_text(scene.recording)))


def try_words(trials):
    for words in [[], JSON, [*JSON, LOSSES, *JSON], [LOSSES, *JSON, *JSON], [LOSSES, "-x"], [LOSSES, "--force"], ["-x"]]:
        trials.expect(["count", *words], Outcome(2, b"", Some()))
    for word in BAD_FILTERS:
        for name in (LOSSES, "none", "examples"):
            trials.expect(["count", name, word], pages.fault(f"filter: {word}"))
            trials.expect(["count", name, "kind=told", word, "kind=bad", *JSON], pages.fault(f"filter: {word}"))


def try_files(trials):
    for name in ["none.dsrc", "", "x" * 300]:
        trials.expect(["count", name], pages.unopened(name))
    trials.expect(["count", "examples"], pages.unopened("examples", "is a directory"))
    for size in range(len(FORMATS_RECORDING) + 1):
        try_count(trials, trials.file(FORMATS_RECORDING[:size]))
    for behind in [">/dev/full", ">&-"]:
        trials.expect(["count", LOSSES], UNWRITTEN, behind=behind)
        trials.expect(["count", LOSSES, *JSON], UNWRITTEN, behind=behind)
        trials.expect(["count", LOSSES, "kind=other"], Outcome(0, b"", b""), behind=behind)


def try_all(trials, _):
    try_worked(trials)
    try_made_up(trials)
    try_words(trials)
    try_files(trials)
