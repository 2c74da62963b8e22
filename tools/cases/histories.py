"""Certificates that explain a recording or not, each cause among them."""
import random

import pages
from cases import texts
from cases.examples import JOINED_NO, JOINED_REPORT, OPEN_REPORT
from cases.scenes import scenes
from cases.wandering import wandering
from pages import Outcome

HISTORIES = 250
HISTORY_LENGTH = 24


def try_scenes(trials):
    causes = set()
    for scene in scenes():
        stated = Outcome(0 if scene.stated.startswith("yes") else 1, scene.stated.encode(), b"")
        trials.state(f"the scene {scene.name}", stated, pages.verdict(scene.recording, scene.steps))
        recording = trials.file(texts.recording_text(scene.recording))
        certificate = trials.file(texts.certificate_text(scene.steps))
        trials.expect(["check", recording, certificate], stated)
        trials.expect(["show", recording], pages.answer_to_show((trials.folder / recording).read_bytes()))
        causes |= {cause for cause in pages.CAUSES if f"cause={cause} " in scene.stated}
    trials.state("the causes of the scenes", set(pages.CAUSES), causes)


def try_examples(trials):
    """The examples whose certificate takes the entries in another order than the file, and the open one."""
    joined = "examples/logs_joined.dsct"
    for name, certificate, stated in [
        ("examples/logs_joined.dsrc", joined, Outcome(0, JOINED_REPORT, b"")),
        ("examples/logs_joined_wrong_state.dsrc", joined, Outcome(1, JOINED_NO, b"")),
        ("examples/open.dsrc", "examples/open.dsct", Outcome(0, OPEN_REPORT, b"")),
    ]:
        steps = (trials.folder / certificate).read_bytes()
        recording = (trials.folder / name).read_bytes()
        trials.state(f"the verdict on {name}", stated, pages.answer_to_check(recording, steps))
        trials.expect(["check", name, certificate], stated)
        trials.expect(["show", name], pages.answer_to_show(recording))


def try_wandering(trials):
    for seed in range(HISTORIES):
        recording, steps = wandering(random.Random(seed), HISTORY_LENGTH)
        recorded, certified = trials.file(texts.recording_text(recording)), trials.file(texts.certificate_text(steps))
        trials.expect(["check", recorded, certified], pages.verdict(recording, steps))


def try_all(trials, _):
    try_scenes(trials)
    try_examples(trials)
    try_wandering(trials)
