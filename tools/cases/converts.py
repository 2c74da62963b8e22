"""Recordings of the first format that are carried over to the second, and the files that are made of them."""
import re

import pages
from cases import texts
from cases.examples import FORMATS_RECORDING, WORKED_SCRIPT
from cases.trials import UNWRITTEN
from cases.worlds import after
from pages import Outcome


def new_text(text):
    """The text of a recording of the first format in the second, closed."""
    return b"DSRC0002" + text[8:9] + b"\0" + text[9:]


def answer_to_convert(text):
    """What is answered to a recording by its bytes, and the text of the new one, if it is made."""
    shown = pages.answer_to_show(text)
    if shown.status != 0:
        return shown, None
    if text[:8] != b"DSRC0001":
        return pages.fault("recording: already"), None
    records = re.match(rb"exercise=\d+ stations=\d+ (records=\d+)", shown.out).group(1)
    return Outcome(0, b"converted " + records + b"\n", b""), new_text(text)


def try_text(trials, text):
    """A recording that is carried over to a new name, and to one that stands there."""
    answer, new = answer_to_convert(text)
    old = trials.file(text)
    stands = trials.file(b"stays" * 20_000)
    for name, left in [(f"{old}.new", None), (stands, b"stays" * 20_000)]:
        wanted = left if new is None else new
        after(trials, ["convert", old, name, *(["--force"] if left else [])], (answer,), name, lambda came, wanted=wanted: came == wanted)


def try_examples(trials, examples):
    good, certificate, wrong = examples
    for name in (good, wrong):
        text = (trials.folder / name).read_bytes()
        try_text(trials, text)
        try_text(trials, new_text(text))
        carried = trials.file(new_text(text))
        trials.expect(["check", carried, certificate], pages.answer_to_check(text, (trials.folder / certificate).read_bytes()))
    for size in range(len(FORMATS_RECORDING)):
        try_text(trials, FORMATS_RECORDING[:size])
    for place, byte in enumerate(FORMATS_RECORDING):
        for value in (byte ^ 1, byte ^ 0xFF):
            try_text(trials, FORMATS_RECORDING[:place] + bytes([value]) + FORMATS_RECORDING[place + 1 :])
    try_text(trials, texts.recording_text(texts.told_often(4000)))


def try_files(trials, examples):
    good, certificate, _ = examples
    for name in ["none.dsrc", "", "x" * 300]:
        trials.expect(["convert", name, "never"], pages.unopened(name))
    trials.expect(["convert", "examples", "never"], pages.unopened("examples", "is a directory"))
    trials.expect(["convert", certificate, "never"], pages.fault("recording: magic at 0"))
    trials.expect(["convert", WORKED_SCRIPT, "never"], pages.fault("recording: magic at 0"))
    for name in ["examples", "none/there.dsrc", "", "/dev/full"]:
        trials.expect(["convert", good, name], UNWRITTEN)
    kept = (trials.folder / good).read_bytes()
    trials.expect(["convert", good, "/dev/null"], answer_to_convert(kept)[0])
    own = trials.file(kept)
    after(trials, ["convert", own, own], (pages.fault(f"output: same as {own}"),), own, lambda left: left == kept)
    for behind in [">/dev/full", ">&-"]:
        name = f"unheard.{len(behind)}.new.dsrc"
        after(trials, ["convert", good, name], (UNWRITTEN,), name, lambda left: left is None, behind=behind)


def try_all(trials, examples):
    try_examples(trials, examples)
    try_files(trials, examples)
