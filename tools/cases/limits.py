"""The whole at its limits: one below, at, and one above, each with the time and the memory that it takes."""
import os
import shutil
import struct
import subprocess
import time

import pages
from cases import texts
from cases.trials import Verdict, first_lines
from pages import ABSENT, NO_LINK, STOPPED, Outcome, Recording, Station

MOST_ENTRIES, LARGEST, MOST_SCRIPT = 1_048_576, 268_435_456, 1_048_576
HEAD = b"DSRC0001\1\0\1\0\1\0\1\0\0"  # of exercise 1 with station 1:1 alone
TOLD = b"\3\0\0\0\7\0"
MEBIBYTE = 1024  # of the kibibytes in which peak memory is told


class Ends:
    """An outcome with this status, and texts that begin so."""

    def __init__(self, status, out=b"", errors=b""):
        self.status, self.out, self.errors = status, out, errors

    def __eq__(self, came):
        return came.status == self.status and came.out.startswith(self.out) and came.errors == self.errors

    def __repr__(self):
        return f"status {self.status}, output {self.out!r}.., errors {self.errors!r}"


def told_entries(count):
    return HEAD + TOLD * count + struct.pack(">BI", 0, count)


def certificate_in_file_order(count):
    return b"DSCT0001" + struct.pack(">I", count) + b"".join(
        struct.pack(">II", place, NO_LINK) for place in range(count)
    )


def file_of_size(size):
    """A recording of so many bytes: datagrams that mean nothing, the last of what is left."""
    entry = struct.pack(">BHQH", 1, 0, 0, 8192) + b"\xee" * 8192
    count, rest = divmod(size - len(HEAD) - 5, len(entry))
    if rest and rest < 13:
        count, rest = count - 1, rest + len(entry)
    first = min(rest, len(entry)) if rest <= len(entry) else rest // 2
    parts = [HEAD, entry * count]
    for part in [first, rest - first]:
        if part:
            parts.append(struct.pack(">BHQH", 1, 0, 0, part - 13) + b"\xee" * (part - 13))
            count += 1
    return b"".join(parts) + struct.pack(">BI", 0, count), count


def stations_script(count):
    return b"exercise 1\n" + b"".join(b"station %d:1\n" % site for site in range(1, count + 1))


def entities_script(count):
    return b"exercise 1\nstation 1:1\n" + b"".join(b"opening 1:1 %d running\n" % (n + 1) for n in range(count))


def script_of_size(size):
    """A script of so many bytes: states are told, and a comment fills it up."""
    text = b"exercise 1\nstation 1:1\n"
    text += b"tell 1:1 7\n" * ((size - len(text) - 10) // 11)
    return text + b"#" * (size - len(text))


MADE = ("new.dsct", "new.dsrc", "made.dsrc")


class Measured:
    """Runs of the program, with what they took."""

    def __init__(self, trials):
        self.trials, self.program, self.folder = trials, trials.program, trials.folder
        self.verdicts, self.lines = [], []
        # A child's peak memory starts at its parent's, and `time` is a small parent.
        self.time = shutil.which("time")
        if self.time is None:
            trials.skipped.append("the memory at the limits: no program time")

    def measured(self, words):
        """The words that run the program, and write its peak memory in KiB to a file."""
        kept = self.folder / "limit.memory"
        kept.write_text("-")
        return [self.time, "-q", "-f", "%M", "-o", kept, *words] if self.time else words

    def memory(self):
        """The peak memory of the last run in MiB, as it was written."""
        kept = (self.folder / "limit.memory").read_text().strip()
        return "-" if kept == "-" else str(int(kept) // MEBIBYTE)

    def run(self, limit, where, words, expected, given=b""):
        """One run, which finds none of the files that it may make. Output goes to files, so nothing of this script counts."""
        for made in MADE:
            (self.folder / made).unlink(missing_ok=True)
        out, errors = (self.folder / name for name in ("limit.out", "limit.errors"))
        (self.folder / "limit.in").write_bytes(given)
        started = time.monotonic()
        with open(out, "wb") as to, open(errors, "wb") as told, open(self.folder / "limit.in", "rb") as fed:
            measured = self.measured([self.program, *words])
            done = subprocess.Popen(measured, stdin=fed, stdout=to, stderr=told, cwd=self.folder)
            _, ended, used = os.wait4(done.pid, 0)
            done.returncode = os.waitstatus_to_exitcode(ended)
        seconds = time.monotonic() - started
        came = Outcome(done.returncode, out.read_bytes()[:200], first_lines(errors.read_bytes())[:200])
        self.verdicts.append(Verdict(f"{limit}, {where}: siman {words[0] if words else 'trial'}", (expected,), came))
        self.lines.append(
            f"{limit} | {where} | {words[0] if words else 'no words'} | {came.status} | "
            f"{used.ru_utime + used.ru_stime:.2f} | {seconds:.2f} | {self.memory()}"
        )

    def file(self, name, text):
        (self.folder / name).write_bytes(text)
        return name


def fault(line):
    return Ends(2, b"", line.encode() + b"\n")


def try_stations(runs):
    for count, where in ((255, "below"), (256, "at"), (257, "above")):
        stations = [Station(site, 1, []) for site in range(1, count + 1)]
        name = runs.file("stations.dsrc", texts.recording_text(Recording(1, stations, [])))
        shown = Ends(0, b"exercise=1 stations=%d records=0\n" % count)
        runs.run("256 stations", where, ["show", name], fault("recording: stations at 9") if count > 256 else shown)
        script = stations_script(count)
        made = Ends(0, b"world records=0 sent=0\n")
        refused = fault("script: bad-line at line 258")
        runs.run("256 stations", where, [], refused if count > 256 else made, script)


def try_entries(runs):
    for count, where in ((MOST_ENTRIES - 1, "below"), (MOST_ENTRIES, "at"), (MOST_ENTRIES + 1, "above")):
        name = runs.file("entries.dsrc", told_entries(count))
        steps = runs.file("steps.dsct", certificate_in_file_order(min(count, MOST_ENTRIES)))
        refused = fault(f"recording: count at {len(HEAD) + 6 * MOST_ENTRIES}") if count > MOST_ENTRIES else None
        for words, out in (
            (["show", name], b"exercise=1 stations=1 records=%d\n" % count),
            (["check", name, steps], b"yes records=%d others=0\n" % count),
            (["audit", name, "new.dsct"], b"explained steps=%d\n" % count),
        ):
            runs.run("1,048,576 entries", where, words, refused or Ends(0, out))


def try_steps(runs):
    name = runs.file("entries.dsrc", told_entries(MOST_ENTRIES))
    for count, where in ((MOST_ENTRIES - 1, "below"), (MOST_ENTRIES, "at"), (MOST_ENTRIES + 1, "above")):
        steps = runs.file("steps.dsct", certificate_in_file_order(count))
        expected = {
            "below": Ends(1, b"no step=0 cause=1 count-differs\n"),
            "at": Ends(0, b"yes records=1048576 others=0\n"),
            "above": fault("certificate: over-limit at 8"),
        }[where]
        runs.run("1,048,576 steps", where, ["check", name, steps], expected)


def try_bytes(runs):
    for size, where in ((LARGEST - 1, "below"), (LARGEST, "at"), (LARGEST + 1, "above")):
        text, count = file_of_size(size)
        name = runs.file("large.dsrc", text)
        steps = runs.file("steps.dsct", certificate_in_file_order(count))
        refused = fault(f"recording: over-limit at {LARGEST + 1 - 4}") if size > LARGEST else None
        runs.verdicts.append(Verdict("the bytes of a large file", (size,), len(text)))
        for words, out in (
            (["show", name], b"exercise=1 stations=1 records=%d\n" % count),
            (["check", name, steps], b"yes records=%d others=%d\n" % (count, count)),
            (["audit", name, "new.dsct"], b"explained steps=%d\n" % count),
        ):
            runs.run("268,435,456 bytes", where, words, refused or Ends(0, out))


def try_scripts(runs):
    for size, where in ((MOST_SCRIPT - 1, "below"), (MOST_SCRIPT, "at"), (MOST_SCRIPT + 1, "above")):
        name = runs.file("script", script_of_size(size))
        refused = fault("script: bad-line at line 0") if size > MOST_SCRIPT else None
        runs.run("script of 1,048,576 bytes", where, ["world", name, "new.dsrc"], refused or Ends(0, b"world records="))
        runs.run("script of 1,048,576 bytes", where, [], refused or Ends(0, b"world records="), script_of_size(size))


def try_entities(runs):
    for count, where in ((4095, "below"), (4096, "at"), (4097, "above")):
        refused = fault("world: stations") if count > 4096 else None
        for words, out in ((["world", "script", "new.dsrc"], b"world records=0 sent=0\n"), ([], b"world records=0 sent=0\n")):
            script = entities_script(count)
            runs.file("script", script)
            runs.run("4,096 entities", where, words, refused or Ends(0, out), script)
    # One more is created where there is room for one, by a number and by a wish for one.
    for count, where, response in ((4095, "at", 1), (4096, "above", 2)):
        script = entities_script(count).replace(b"station 1:1\n", b"station 1:1\nstation 2:2\n", 1)
        script += b"create 2:2 1:1:9999\ndeliver 0 1:1\ndeliver 1 2:2\n"
        runs.file("script", script)
        runs.run("4,096 entities created", where, ["world", "script", "made.dsrc"], Ends(0, b"world records=4 sent=2\n"))
        made = (runs.folder / "made.dsrc").read_bytes()
        runs.verdicts.append(Verdict("the answer to one entity more", (response,), made[-5 - 5]))


def try_views(runs):
    """The lines of a review: one for each of 65 stations, one for each entity that these open with, and the first."""
    first = b"review exercise=1 stations=65 records=0 others=0 explained=yes orders=0 done=0 "
    for count, where in ((125, "below"), (126, "at"), (127, "above")):
        openings = [range(1, 65_534)] * 64 + [range(1, count + 1)]
        stations = [Station(site, 1, [(n, STOPPED) for n in own]) for site, own in enumerate(openings, 1)]
        name = runs.file("views.dsrc", texts.recording_text(Recording(1, stations, [])))
        refused = fault("view: over-limit") if count > 126 else None
        for words in (["review", name], ["review", name, "fate=lost"]):
            runs.run("4,194,304 lines", where, words, refused or Ends(0, first))


def try_hex(runs):
    for size, where, told in ((65_534, "below", b"refused 5 long\n"), (65_536, "at", b"refused 5 long\n"), (65_538, "above", b"")):
        word = "07010B05" + "00" * ((size - 8) // 2)
        expected = Ends(1, told) if told else fault("hex: not byte pairs")
        runs.run("65,536 hex digits", where, ["pdu", word], expected)
        lined = Ends(1, told) if told else fault("hex: not byte pairs at line 1")
        runs.run("65,536 hex digits", where, ["pdus"], lined, word.encode() + b"\n")


def try_datagrams(runs):
    for count, where in ((1018, "below"), (1019, "at"), (1020, "above")):
        datagram = texts.pdu(pages.SET_DATA, texts.DIRECTOR, texts.SEVEN, fixed=count, records=texts.fixed_datum(1, 2) * count)
        expected = Ends(1, b"refused 5 long\n") if count > 1019 else Ends(0, b"set-data ")
        runs.run("datagram of 8,192 bytes", where, ["pdu", datagram.hex()], expected)


def try_all(trials):
    """What was tried, and the lines of a table of it."""
    runs = Measured(trials)
    for part in (
        try_stations, try_entries, try_steps, try_bytes, try_scripts, try_entities, try_views, try_hex, try_datagrams,
    ):  # fmt: skip
        part(runs)
    return runs.verdicts, ["limit | where | command | status | processor seconds | seconds | MiB", *runs.lines]
