"""Reviews of recordings: the worked example, recordings that are made up, filters, spellings and sentences, faults."""
import random

import pages
from cases import texts
from cases.audits import mixed, with_one_lost
from cases.examples import FORMATS_RECORDING, LOSSES_REVIEW, OPEN_ORDER
from cases.scenes import scenes
from cases.trials import UNWRITTEN, Some
from cases.wandering import wandering
from pages import TOLD, Outcome

HISTORIES = 250
HISTORY_LENGTH = 24
LOSSES = "examples/losses.dsrc"
JSON = ["--json"]
PROSE = ["--prose"]
ADDRESSES = ["1:1", "2:3", "2:4", "9:9", "002:0003", "65535:65535"]
FILTERS = [
    *(f"station={address}" for address in ADDRESSES),
    *(f"entity={address}:{entity}" for address in ADDRESSES for entity in (0, 7, 8, 65535)),
    *(f"request={address}/{number}" for address in ADDRESSES for number in (0, 1, 2, 3, 4, "07")),
    *(f"fate={fate}" for fate in [*pages.FATES, "nobody"]),
]
BAD_FILTERS = [
    "fate=wrong", "fate=", "fate", "Fate=done", "fate=Done", "fate =done", "=", "", "-", "station=1", "station=1:1:1",
    "station=65536:1", "station=1:65536", "station=:", "station=+1:1", "station=1:1 ", "station=1:é", "entity=1:1",
    "entity=1:1:65536", "entity=1:1:1:1", "entity=1:1:-1", "request=1:1", "request=1:1/4294967296", "request=1:1/",
    "request=1:1/1/1", "request=1/1:1", "kind=told", "from=1", "station=1:1,2:3", "review",
]  # fmt: skip


def try_review(trials, recording, words=(), text=None):
    """A review in both spellings, and in sentences."""
    text = (trials.folder / recording).read_bytes() if text is None else text
    trials.expect(["review", recording, *words], pages.answer_to_review(text, words))
    trials.expect(["review", recording, *words, *JSON], pages.answer_to_review(text, words, pages.json_of))
    trials.expect(["review", recording, *words, *PROSE], pages.answer_to_prose(text, words))


def try_worked(trials):
    losses = (trials.folder / LOSSES).read_bytes()
    trials.state("the review of losses.dsrc", Outcome(0, LOSSES_REVIEW, b""), pages.answer_to_review(losses))
    trials.expect(["review", LOSSES], Outcome(0, LOSSES_REVIEW, b""))
    open_review = pages.answer_to_review((trials.folder / "examples/open.dsrc").read_bytes())
    trials.state("the order line of open.dsrc", True, OPEN_ORDER in open_review.out.splitlines(True))
    for words in [[], *([word] for word in FILTERS), *([one, other] for one in FILTERS[::5] for other in FILTERS[::7])]:
        try_review(trials, LOSSES, words, losses)
    for name in ["created_and_started", "logs_joined", "logs_joined_wrong_state", "open", "told_a_wrong_state"]:
        try_review(trials, f"examples/{name}.dsrc")


def stamped(chance, recording):
    """The same recording with clocks that go on, stand still and are set back."""
    stamps = [0, 1, 5, 1 << 40, (1 << 64) - 1]
    entries = [
        entry if entry.kind == TOLD else entry._replace(stamp=chance.choice(stamps)) for entry in recording.entries
    ]
    return recording._replace(entries=entries)


def try_made_up(trials):
    """Recordings of all forms that stations make at random, mixed anew, with an entry lost, under words at random."""
    fates, forms = set(), set()
    for seed in range(HISTORIES):
        chance = random.Random(seed)
        recording = stamped(chance, mixed(chance, wandering(chance, HISTORY_LENGTH)[0]))
        for tried in (recording, with_one_lost(chance, recording)):
            text = texts.recording_text(tried)
            words = chance.sample(FILTERS, chance.choice((0, 1, 1, 2, 3)))
            for given in ([], words):
                try_review(trials, trials.file(text), given, text)
            forms.add(tried.form)
            fates |= {pages.value_of(line, "fate") for line in pages.order_lines(pages.Logs(tried))}
    trials.state("the fates of the recordings that are made up", {*pages.FATES, "nobody"}, fates)
    trials.state("their forms", {pages.FIRST, pages.CLOSED, pages.OPEN}, forms)
    for scene in scenes():
        try_review(trials, trials.file(texts.recording_text(scene.recording)))


def try_words(trials):
    usage = Outcome(2, b"", Some())
    for words in [
        [], JSON, [*JSON, LOSSES, *JSON], [LOSSES, *JSON, *JSON], [LOSSES, *JSON, "fate=lost", *JSON], [LOSSES, "-x"],
        [LOSSES, *JSON, *PROSE], [*PROSE, LOSSES, *JSON], [LOSSES, *PROSE, *PROSE], [LOSSES, "--prose=1"], [LOSSES, "--json=1"], [LOSSES, "--jso"], [LOSSES, "fate=lost", "-fate=lost"], ["-x"], ["-x", "fate=lost"],
    ]:  # fmt: skip
        trials.expect(["review", *words], usage)
    for word in BAD_FILTERS:
        told = pages.fault(f"filter: {word}")
        for name in (LOSSES, "none", "examples"):
            trials.expect(["review", name, word], told)
            trials.expect(["review", name, "fate=lost", word, "fate=bad", *JSON], told)


def try_files(trials):
    for name in ["none.dsrc", "", "x" * 300]:
        trials.expect(["review", name], pages.unopened(name))
        trials.expect(["review", name, "fate=lost", *JSON], pages.unopened(name))
    trials.expect(["review", "examples"], pages.unopened("examples", "is a directory"))
    for size in range(len(FORMATS_RECORDING) + 1):
        try_review(trials, trials.file(FORMATS_RECORDING[:size]))
    for behind in [">/dev/full", ">&-"]:
        trials.expect(["review", LOSSES], UNWRITTEN, behind=behind)
        trials.expect(["review", LOSSES, *JSON], UNWRITTEN, behind=behind)
        trials.expect(["review", LOSSES, *PROSE], UNWRITTEN, behind=behind)


def try_all(trials, _):
    try_worked(trials)
    try_made_up(trials)
    try_words(trials)
    try_files(trials)
