"""`import` and `export` of a program with good and bad words, files under several names, pipes, and streams that fail."""
import itertools
import os
import subprocess
import threading
from pathlib import Path

import pages
from cases.frames import ETHERNET
from cases.importing import PATIENCE, difference
from cases.made_captures import SETUP
from cases.small_captures import EVERYBODY, GOOD, MANAGER, OWN, answered, framed, order, packet, pcap, pcapng
from pages import Outcome

FILES = ["setup", "2:3", "10.0.0.3", "capture", "new"]
# Words behind NEW that break the usage.
BAD = [
    ["port="], ["port=0"], ["port=65536"], ["port=-1"], ["port=three"], ["port=3000 "], ["port"], ["port=99999999999999999999999"], ["on="], ["on"], ["cut="], ["cut"], ["cut=drop"],
    ["cut=keep "], ["shared="], ["shared=yes"], ["share"], ["echo="], ["echo=yes"], ["Echo"], ["opening="], ["opening"], ["opening=all"], ["opening=None"], ["none"], ["port=1,2"],
    ["echo", "echo"], ["shared", "echo", "shared"], ["port=1", "port=1"], ["on=a", "on=b"], ["cut=keep", "cut=keep"], ["opening=none", "opening=assumed"], ["form=open"], [""],
    ["--echo"], ["--force", "--force"], ["--json"], ["-e"],
]  # fmt: skip
GOOD_WORDS = ["port=3001", "on=wire", "cut=keep", "shared", "echo", "opening=assumed"]


class Calls:
    """Calls of a program in a folder of its own."""

    def __init__(self, trial):
        self.trial, self.folder = trial, Path(trial.folder) / "words"
        self.folder.mkdir(exist_ok=True)
        (self.folder / "setup").write_bytes(SETUP)

    def put(self, name, text):
        (self.folder / name).write_bytes(text)

    def run(self, words, behind="", given=b""):
        """How a call ends, and what stands under the new name then, which is taken away."""
        command = ["sh", "-c", f'"$0" "$@" {behind}', self.trial.program, *words]
        done = subprocess.run(command, input=given, capture_output=True, cwd=self.folder, timeout=PATIENCE, check=False)
        new = self.folder / "new"
        left = new.read_bytes() if new.is_file() else None
        new.unlink(missing_ok=True)
        return Outcome(done.returncode, done.stdout, done.stderr), left

    def state(self, told, answer, left, warned, words, **more):
        came, made = self.run(words, **more)
        why = difference(answer, left, warned, came, made)
        self.trial.state(f"{told}: {' '.join(words)[:200]}", why is None, why or "")


def try_usage(calls):
    calls.put("capture", pcap([GOOD]))
    for words in BAD:
        calls.state("usage", None, None, [], ["import", *FILES, *words])
    for count in range(5):
        calls.state("usage", None, None, [], ["import", *FILES[:count]])
    calls.state("usage", None, None, [], ["import", "-", *FILES[1:3], "-", "new"])
    calls.state("usage before a bad address", None, None, [], ["import", "setup", "bad", "bad", "capture", "new", "what"])
    for words in ([], ["recording"], ["recording", "new", "more"], ["recording", "new", "--json"]):
        calls.state("usage", None, None, [], ["export", *words])


def try_orders(calls):
    """Good words in any order, each with and without; all that they say is computed."""
    text = pcapng(framed(packet(answered(), OWN, EVERYBODY, 3001), packet(answered(9, 2, 3, origin=(2, 4)), OWN, EVERYBODY, 3001), packet(order()), packet(order(), port=3001)))
    calls.put("capture", text[:-1])
    for count in range(len(GOOD_WORDS) + 1):
        for words in itertools.combinations(GOOD_WORDS, count):
            for some in {words, words[::-1]}:
                calls.state("words", *pages.answer_to_import(SETUP, ["2:3", "10.0.0.3", *some], text[:-1]), ["import", *FILES, *some])
    words = ["echo", "--force", "cut=keep"]
    answer = pages.answer_to_import(SETUP, ["2:3", "10.0.0.3", "echo", "cut=keep"], text[:-1])
    calls.put("new", b"stays" * 9999)
    calls.state("a file that stands", *answer, ["import", "--force", *FILES, "echo", "cut=keep"])
    calls.put("new", b"stays" * 9999)
    calls.state("a file that stands", *answer, ["import", *FILES, *words])
    calls.put("new", b"stays")
    calls.state("a file that stands", pages.fault("output: exists"), b"stays", [], ["import", *FILES])
    calls.put("new", b"")
    calls.state("an empty file", *answer, ["import", *FILES, "echo", "cut=keep"])


def try_names(calls):
    """The new file is an input under another name; files that cannot be opened."""
    calls.put("capture", pcap([GOOD]))
    for name in ("setup", "capture"):
        for link, number in (("soft", 0), ("hard", 1)):
            (calls.folder / link).unlink(missing_ok=True)
            (os.link if number else os.symlink)(calls.folder / name if number else name, calls.folder / link)
            for force in ([], ["--force"]):
                words = ["import", *FILES[:4], link, *force]
                calls.state("the new file is an input", pages.fault(f"output: same as {name}"), None, [], words)
    (calls.folder / "folder").mkdir(exist_ok=True)
    for name in ("nowhere", "x" * 300, "folder"):
        reason = "is a directory" if name == "folder" else None
        calls.state("no setup", pages.unopened(name, reason), None, [], ["import", name, *FILES[1:]])
        calls.state("no capture", pages.unopened(name, reason), None, [], ["import", *FILES[:3], name, "new"])
        calls.state("no recording", pages.unopened(name, reason), None, [], ["export", name, "new"])
    for name in ("folder", "nowhere/there", "/dev/full"):
        calls.state("no new file", pages.fault("output: write"), None, [], ["import", *FILES[:4], name])
    for behind in (">/dev/full", ">&-"):
        calls.state(f"no standard output {behind}", pages.fault("output: write"), None, [], ["import", *FILES], behind=behind)


def try_pipes(calls):
    """A capture from standard input and from a named pipe, in one piece and byte after byte."""
    text = pcap([GOOD, *framed(packet(answered(), OWN, MANAGER))] * 50, ETHERNET)
    answer = pages.answer_to_import(SETUP, ["2:3", "10.0.0.3"], text)
    words = ["import", *FILES[:3], "-", "new"]
    calls.state("a pipe", *answer, words, given=text)
    calls.put("capture", text)
    calls.state("standard input is a file", *answer, words, behind="<capture")
    for size in (1, 7, 4096):
        pipe = calls.folder / f"pipe.{size}"
        os.mkfifo(pipe)
        writer = threading.Thread(target=write_slowly, args=(pipe, text, size))
        writer.start()
        calls.state(f"a named pipe by {size} bytes", *answer, ["import", *FILES[:3], pipe.name, "new"])
        writer.join(PATIENCE)


def write_slowly(pipe, text, size):
    with open(pipe, "wb", buffering=0) as file:
        for at in range(0, len(text), size):
            file.write(text[at : at + size])


def try_all(trial):
    if trial.program:
        calls = Calls(trial)
        for part in (try_usage, try_orders, try_names, try_pipes):
            part(calls)
