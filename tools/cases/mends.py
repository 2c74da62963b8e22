"""Torn recordings, and the files that are made of what stands whole of them."""
import pages
from cases import texts
from cases.converts import new_text
from cases.examples import FORMATS_RECORDING, WORKED_SCRIPT
from cases.trials import UNWRITTEN
from cases.worlds import after


def try_text(trials, text, name=None):
    """A recording of which what stands whole is written to a new name, or to one that stands there."""
    answer, new = pages.answer_to_mend(text)
    torn = trials.file(text)
    after(trials, ["mend", torn, name or f"{torn}.new"], (answer,), name or f"{torn}.new", lambda came: came == new)


def try_cuts(trials, text):
    """A recording cut at every byte, and with bytes behind it that are zero."""
    for size in range(len(text) + 1):
        try_text(trials, text[:size])
        for zeros in (1, size % 29 + 2, 4096):
            try_text(trials, text[:size] + bytes(zeros))


def try_changes(trials, text):
    """A recording with one byte changed."""
    for place, byte in enumerate(text):
        for value in (0, byte ^ 1, byte ^ 0xFF):
            try_text(trials, text[:place] + bytes([value]) + text[place + 1 :])


def try_stands(trials, text):
    """A file stands under the new name already: it is replaced, or is as it was."""
    for size in (len(text), len(text) - 7, 5):
        stands = trials.file(b"stays" * 20_000)
        answer, new = pages.answer_to_mend(text[:size])
        wanted = b"stays" * 20_000 if new is None else new
        after(trials, ["mend", trials.file(text[:size]), stands, "--force"], (answer,), stands, lambda came, wanted=wanted: came == wanted)


def try_files(trials, examples):
    good, certificate, _ = examples
    for name in ["none.dsrc", "", "x" * 300]:
        trials.expect(["mend", name, "never"], pages.unopened(name))
    trials.expect(["mend", "examples", "never"], pages.unopened("examples", "is a directory"))
    trials.expect(["mend", certificate, "never"], pages.fault("recording: magic at 0"))
    trials.expect(["mend", WORKED_SCRIPT, "never"], pages.fault("recording: magic at 0"))
    for name in ["examples", "none/there.dsrc", "", "/dev/full"]:
        trials.expect(["mend", good, name], UNWRITTEN)
    torn = (trials.folder / good).read_bytes()[:-7]
    trials.expect(["mend", trials.file(torn), "/dev/null"], pages.answer_to_mend(torn)[0])
    own = trials.file(torn)
    after(trials, ["mend", own, own], (pages.fault(f"output: same as {own}"),), own, lambda left: left == torn)
    for behind in [">/dev/full", ">&-"]:
        name = f"unheard.{len(behind)}.mended.dsrc"
        after(trials, ["mend", own, name], (UNWRITTEN,), name, lambda left: left is None, behind=behind)


def try_all(trials, examples):
    good, _, wrong = examples
    for name in (good, wrong):
        text = (trials.folder / name).read_bytes()
        try_cuts(trials, text)
        try_cuts(trials, new_text(text))
        try_changes(trials, text)
    try_cuts(trials, FORMATS_RECORDING)
    try_changes(trials, new_text(FORMATS_RECORDING))
    try_stands(trials, (trials.folder / good).read_bytes())
    try_text(trials, texts.recording_text(texts.told_often(4000))[:-9])
    try_files(trials, examples)
