"""Pictures that are drawn: the worked example, made-up exercises, the steps that words say, files, faults."""
import random

import pages
from cases import texts
from cases.drawn import COURSE, LOSSES, example
from cases.saving import names_of
from cases.trials import UNWRITTEN
from cases.whys import altered
from cases.worlds import after
from pages import NO_LINK, Recording, Station
from pages.drawings import answer_to_chart
from pictures import choices, made_exercise, steps_of, windows, without

EXERCISES = 200
SEND_MISSING = example("one_send_missing.dsrc")
STEPS = (
    [], ["from=3"], ["to=3"], ["to=4", "from=2"], ["from=29"], ["to=29"], ["from=30"], ["to=30"], ["to=30", "from=31"],
    ["from=0000000000000000000000001"], ["from=4294967295"], ["from=4294967296"], ["from=18446744073709551616"], ["from="],
    ["=1"], ["to=1", "to=1"], ["from=1", "to=0"], ["to=0", "from=1"], ["from=1", "x"], ["to= 1"], ["from=1 "], [""], ["-"],
    ["from=1", "to=2", "from=1"], ["from=é"], ["fate=lost"], ["FROM=1"], ["station=2:3"], ["station=2:4", "station=1:1"],
    ["station=9:9"], ["station=1:1", "station=1:2", "to=3"], ["station=9:9", "to=30"], ["station="], ["station=1:1:1"],
    ["station=65536:1"], ["station=02:003"], ["clock=s", "station=2:3", "entity=2:3:7"],
)  # fmt: skip


def try_chart(trials, text, steps, said=(), names=None):
    """A picture under a new name, and over a file that stands; without a certificate (None) that of the recording alone."""
    recording, certificate = names or (trials.file(text), "-" if steps is None else trials.file(steps))
    answer, drawn = answer_to_chart(text, steps, said)
    stands = trials.file(b"stays")
    wanted = None if drawn is None else drawn.encode()
    for name, before in ((f"{stands}.new", None), (stands, b"stays")):
        words = ["chart", recording, certificate, name, *said, *(["--force"] if before else [])]
        after(trials, words, (answer,), name, lambda left, before=before: left == (before if wanted is None else wanted))


def try_worked(trials):
    steps = texts.certificate_text(steps_of(pages.read_recording(LOSSES), COURSE))
    names = trials.file(LOSSES), trials.file(steps)
    for said in STEPS:
        try_chart(trials, LOSSES, steps, said, names)
        if "-" not in said:  # which would stand twice
            try_chart(trials, LOSSES, None, said, (names[0], "-"))
            try_chart(trials, SEND_MISSING, None, said)
    for size in range(0, len(LOSSES), 7):
        try_chart(trials, LOSSES[:size], steps)
        try_chart(trials, LOSSES[:size], None)
    for size in range(0, len(steps), 3):
        try_chart(trials, LOSSES, steps[:size], ["to=2"])


def try_made_up(trials):
    for seed in range(EXERCISES):
        chance = random.Random(seed)
        recording, places = made_exercise(chance, chance.randint(2, 6), chance.choice((5, 20, 60, 200)))
        steps = steps_of(recording, places)
        if not steps:
            continue
        text, order = texts.recording_text(recording), texts.certificate_text(steps)
        for first, end in windows(chance, len(steps)):
            try_chart(trials, text, order, [f"from={first}", f"to={end - 1}"])
        try_chart(trials, text, None, choices(chance, recording))
        try_chart(trials, texts.recording_text(without(chance, recording)), None, choices(chance, recording))
        try_chart(trials, text, texts.certificate_text(altered(chance, recording, steps)))


def try_limits(trials):
    """One row fewer than may be, as many, and one more; and a million entries of which three are shown."""
    for count in (1999, 2000, 2001):
        recording = Recording(1, [Station(1, 1, [])], [texts.told(0, 7, pages.ABSENT)] * count)
        order = texts.certificate_text([(at, NO_LINK) for at in range(count)])
        try_chart(trials, texts.recording_text(recording), order)


def try_files(trials, examples):
    good, certificate, _ = examples
    for name in ["none.dsrc", "", "x" * 300]:
        told = pages.unopened(name)
        for words in ([name, certificate], [good, name], [name, name]):
            trials.expect(["chart", *words, "never"], told)
    trials.expect(["chart", "examples", certificate, "never"], pages.unopened("examples", "is a directory"))
    trials.expect(["chart", good, "examples", "never"], pages.unopened("examples", "is a directory"))
    trials.expect(["chart", good, good, "never"], pages.fault("certificate: magic at 0"))
    trials.expect(["chart", "none.dsrc", "-", "never"], pages.unopened("none.dsrc"))
    trials.expect(["chart", good, "./-", "never"], pages.unopened("./-"))
    trials.expect(["chart", good, "-", good], pages.fault(f"output: same as {good}"))
    for words in ([good, "-", "unread.svg"], ["-", certificate, "read.svg", "--force"]):
        drawn = answer_to_chart(*read(trials, good, certificate))[0]
        trials.expect(["chart", *words], drawn, given=read(trials, good)[0] if words[0] == "-" else b"nothing of this is read")
    for name in ["examples", "none/there.svg", "", "x" * 300, "/dev/full"]:
        trials.expect(["chart", good, certificate, name], UNWRITTEN)
    trials.expect(["chart", good, certificate, "/dev/null"], answer_to_chart(*read(trials, good, certificate))[0])
    for behind in [">/dev/full", ">&-"]:
        name = f"unheard.{len(behind)}.svg"
        after(trials, ["chart", good, certificate, name], (UNWRITTEN,), name, lambda left: left is None, behind=behind)


def read(trials, *names):
    return [(trials.folder / name).read_bytes() for name in names]


def try_same(trials, examples):
    """No input is ever overwritten, by whatever name."""
    good, certificate, _ = examples
    recording, order = read(trials, good, certificate)
    for place, text in (("recording", recording), ("certificate", order)):
        names = names_of(trials, f"same.chart.{place}", text)
        for own in names:
            words = [own, certificate] if place == "recording" else [good, own]
            fault = (pages.fault(f"output: same as {own}"),)
            for name in names:
                for behind in ([], ["--force"]):
                    after(trials, ["chart", *words, name, *behind], fault, name, lambda left, text=text: left == text)


def try_all(trials, examples):
    try_worked(trials)
    try_made_up(trials)
    try_limits(trials)
    try_files(trials, examples)
    try_same(trials, examples)
