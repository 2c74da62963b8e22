"""Files that are made: none is read and made at once, none that stands is lost, and none stands half."""
import os
import random
import shlex
import shutil
import signal
import subprocess
import sys
import time

import pages
from cases.examples import PLAN_SOURCE, TOP, WORKED_LINE, WORKED_SCRIPT
from cases.trials import UNWRITTEN, Case, Verdict, first_lines
from cases.worlds import after
from pages import Outcome

KILLS = 200
OLD = b"what stood before\n"
FAILING = TOP / "tools" / "failing_calls.py"


def made(trials, folder, name, text):
    path = trials.folder / folder / name
    path.parent.mkdir(exist_ok=True)
    path.write_bytes(text)
    return path


def names_of(trials, folder, text):
    """Other names of one file: through its folder, a hard link, a symbolic link, and a link to that."""
    path = made(trials, folder, "one", text)
    os.link(path, path.parent / "hard")
    os.symlink("one", path.parent / "soft")
    os.symlink(path.parent / "soft", path.parent / "softer")
    return [f"{folder}/{name}" for name in ("one", "./one", "hard", "soft", "softer")] + [f"./{folder}/../{folder}/one"]


def makers(trials, examples):
    """The words before the name of the new file, of each command that makes one."""
    recording, certificate = examples[0], trials.file(b"")
    yield ["world", WORKED_SCRIPT]
    yield ["plan", PLAN_SOURCE]
    yield ["audit", recording]
    yield ["convert", recording]
    yield ["mend", recording]
    yield ["export", recording]
    yield ["join", recording, recording]
    yield ["chart", recording, certificate]


def try_exists(trials, examples):
    """A file that stands is kept, by whatever name, before anything is read; an empty file is none."""
    exists = (pages.fault("output: exists"),)
    for words in makers(trials, examples):
        folder = f"exists.{words[0]}"
        for name in names_of(trials, folder, OLD):
            after(trials, [*words, name], exists, f"{folder}/one", lambda left: left == OLD)
        os.symlink("none", trials.folder / folder / "dangling")
        after(trials, [*words, f"{folder}/dangling"], exists, f"{folder}/none", lambda left: left is None)
        state(trials, f"nothing is left beside what {words[0]} spared", ["dangling", "hard", "one", "soft", "softer"], lambda folder=folder: sorted(os.listdir(trials.folder / folder)))
    usual = (Outcome(0, WORKED_LINE, b""),)
    made(trials, "empty", "one", b"")
    after(trials, ["world", WORKED_SCRIPT, "empty/one"], usual, "empty/one", lambda left: left not in (None, b""))
    for place in range(4):
        words = ["world", WORKED_SCRIPT, f"force.{place}/there"]
        words.insert(place, "--force") if place else words.append("--force")
        made(trials, f"force.{place}", "there", OLD)
        after(trials, words, usual, f"force.{place}/there", lambda left: left not in (None, OLD))


def raced(trials, what, words, stands, wanted, before=()):
    """A command that reads its script from a pipe, under whose new name `stands` appears before the script does."""
    folder = trials.folder / f"race.{what}"
    folder.mkdir()
    pipe, new = folder / "script", folder / "new"
    os.mkfifo(pipe)
    text = (TOP / WORKED_SCRIPT).read_bytes()

    def tried():
        command = [*before, trials.program, *[str({"SCRIPT": pipe, "NEW": new}.get(word, word)) for word in words]]
        with subprocess.Popen(command, stdout=subprocess.PIPE, stderr=subprocess.PIPE) as running:
            with open(pipe, "wb") as writer:
                time.sleep(0.2)
                if stands is not None:
                    new.write_bytes(stands)
                writer.write(text)
            out, errors = running.communicate()
        left = new.read_bytes() if new.exists() else None
        come = [running.returncode, out, first_lines(errors), left == stands, sorted(os.listdir(folder))]
        return [Verdict(f"{what}: a file that appears under the new name", (wanted,), come)]

    trials.tasks.append(tried)


def try_races(trials):
    """A file that appears while the command works is kept, where links can be had and where they cannot."""
    kept = [2, b"", b"", True, ["new", "script"]]
    kept[1:3] = [WORKED_LINE, b"output: exists\n"]
    replaced = [0, WORKED_LINE, b"", False, ["new", "script"]]
    words = ["world", "SCRIPT", "NEW"]
    raced(trials, "by a link", words, OLD, kept)
    raced(trials, "with --force", [*words, "--force"], OLD, replaced)
    raced(trials, "that is empty", words, b"", replaced)  # it holds nothing, and stands before the new file is begun
    raced(trials, "not at all", words, None, replaced)
    no_links = [sys.executable, str(FAILING), "link", "-", "EPERM"]
    raced(trials, "without links", words, OLD, kept, no_links)
    raced(trials, "without links, not at all", words, None, replaced, no_links)


def try_same(trials, examples):
    """No input is ever overwritten, by whatever name, with --force or without."""
    recording = (trials.folder / examples[0]).read_bytes()
    script = (TOP / WORKED_SCRIPT).read_bytes()
    for command, text in [
        ("world", script), ("live", script), ("plan", script), ("audit", recording), ("convert", recording), ("mend", recording), ("join", recording),
        ("export", recording),
    ]:  # fmt: skip
        names = names_of(trials, f"same.{command}", text)
        for read in names:
            fault = (pages.fault(f"output: same as {read}"),)
            for name in names:
                words = [command, read, name] + (["form=open"] if command == "join" else [])
                after(trials, words, fault, name, lambda left, text=text: left == text)
                if command != "live":
                    after(trials, [*words, "--force"], fault, name, lambda left, text=text: left == text)


def state(trials, what, wanted, came):
    trials.tasks.append(lambda: [Verdict(what, (wanted,), came())])


def try_links(trials):
    """With --force a link leads to the file that is replaced, and stays; so does the mode of that file."""
    path = made(trials, "links", "there", OLD)
    os.chmod(path, 0o640)
    os.symlink("there", path.parent / "soft")
    os.symlink("nowhere", path.parent / "dangling")
    usual = Outcome(0, WORKED_LINE, b"")

    def tried():
        verdicts = [trials.verdict(Case(["world", WORKED_SCRIPT, f"links/{name}", "--force"], (usual,))) for name in ("soft", "dangling")]
        standing = [
            os.path.islink(path.parent / "soft"), os.path.islink(path.parent / "dangling"), oct(path.stat().st_mode & 0o777),
            path.read_bytes() == (path.parent / "nowhere").read_bytes() != OLD, sorted(os.listdir(path.parent)),
        ]  # fmt: skip
        wanted = [True, True, "0o640", True, ["dangling", "nowhere", "soft", "there"]]
        return [*verdicts, Verdict("what stands behind links", (wanted,), standing)]

    trials.tasks.append(tried)


def try_left(trials):
    """A part that a kill left is replaced; a folder of its name is not."""
    made(trials, "left", "new.part", b"left over")
    usual = (Outcome(0, WORKED_LINE, b""),)
    after(trials, ["world", WORKED_SCRIPT, "left/new"], usual, "left/new.part", lambda left: left is None)
    made(trials, "left", "shut", OLD)
    (trials.folder / "left" / "shut.part").mkdir()
    after(trials, ["world", WORKED_SCRIPT, "left/shut", "--force"], (UNWRITTEN,), "left/shut", lambda left: left == OLD)
    long = "left/" + "n" * 253
    after(trials, ["world", WORKED_SCRIPT, long], (UNWRITTEN,), long, lambda left: left is None)


def try_streams(trials):
    """What is no regular file is written as it stands; `live` takes the place of no file."""
    usual = Outcome(0, WORKED_LINE, b"")
    trials.expect(["world", WORKED_SCRIPT, "/dev/stdout"], usual, behind="| tail -c 24")
    for name, _ in [("/dev/full", 0), ("examples", 0)]:
        trials.expect(["world", WORKED_SCRIPT, name], UNWRITTEN)
    made(trials, "live", "there", OLD)
    os.symlink("none", trials.folder / "live" / "dangling")
    exists = (pages.fault("output: exists"),)
    after(trials, ["live", WORKED_SCRIPT, "live/there"], exists, "live/there", lambda left: left == OLD)
    after(trials, ["live", WORKED_SCRIPT, "live/dangling"], exists, "live/none", lambda left: left is None)


def try_room(trials):
    """No room for the file: what stood under its name is as it was, and nothing is left beside it."""
    big = b"exercise 1\nstation 1:1\nopening 1:1 7 stopped\n" + b"tell 1:1 7\n" * 4000
    script = trials.file(big)
    made(trials, "room", "there", OLD)
    after(trials, ["world", script, "room/there", "--force"], (UNWRITTEN,), "room/there", lambda left: left == OLD, before="ulimit -f 8; trap '' XFSZ; ")
    state(trials, "nothing is left beside a file that had no room", ["there"], lambda: sorted(os.listdir(trials.folder / "room")))


def unsettled_makers(trials, examples):
    """The words of each command that makes a file, with NEW for its name: all of them would make it."""
    for words in makers(trials, examples):
        if words[0] not in ("join", "chart"):
            yield [*words, "NEW"]
    yield ["join", examples[0], "NEW", "form=open"]
    nothing = trials.file(bytes.fromhex("445352433030303101 0001 0002 0003 0000 00 00000000"))
    yield ["chart", nothing, trials.file(b"DSCT0001" + bytes(4)), "NEW"]


def try_unsettled(trials, examples):
    """A disk that does not take the file: what stood is kept, and no answer is out. A device has nothing to settle."""
    fails = [sys.executable, str(FAILING), "fsync", "-", "EIO"]
    before = " ".join(shlex.quote(word) for word in fails) + " "
    for words in unsettled_makers(trials, examples):
        folder = f"unsettled.{words[0]}"
        made(trials, folder, "there", OLD)
        words = [f"{folder}/there" if word == "NEW" else word for word in words]
        after(trials, [*words, "--force"], (UNWRITTEN,), f"{folder}/there", lambda left: left == OLD, before=before)
        state(trials, f"nothing is left beside what {words[0]} did not settle", ["there"], lambda folder=folder: sorted(os.listdir(trials.folder / folder)))
    trials.expect(["world", WORKED_SCRIPT, "/dev/null"], Outcome(0, WORKED_LINE, b""), before=before)


def try_nobody(trials):
    """A folder that may not be written, as a user who is not root."""
    if os.geteuid() != 0 or not shutil.which("setpriv"):
        trials.skipped.append("a folder that may not be written: it takes root and setpriv")
        return
    path = made(trials, "shut", "there", OLD)
    os.chmod(path, 0o666)
    os.chmod(path.parent, 0o555)
    os.chmod(trials.folder, 0o755)
    program = trials.folder / "siman.nobody"
    shutil.copyfile(trials.program, program)
    os.chmod(program, 0o755)
    script = made(trials, "script", "one", (TOP / WORKED_SCRIPT).read_bytes())

    def tried():
        words = ["setpriv", "--reuid", "65534", "--regid", "65534", "--clear-groups", str(program), "world", str(script), "shut/there", "--force"]
        done = subprocess.run(words, cwd=trials.folder, capture_output=True, check=False)
        came = [done.returncode, done.stdout, first_lines(done.stderr), path.read_bytes()]
        return [Verdict("a folder that may not be written", ([2, b"", b"output: write\n", OLD],), came)]

    trials.tasks.append(tried)


def killed(trials, words, after_seconds):
    process = subprocess.Popen([trials.program, *words], cwd=trials.folder, stdout=subprocess.DEVNULL, stderr=subprocess.DEVNULL)
    time.sleep(after_seconds)
    process.send_signal(signal.SIGKILL)
    process.wait()


def try_kills(trials):
    """Kills at moments of each command: the old text whole or the new one, never another."""
    text = b"exercise 1\nstation 1:1\nopening 1:1 7 stopped\n" + b"tell 1:1 7\n" * 60_000
    script = trials.file(text)

    def tried():
        run = [["world", script, "kills.dsrc"], ["convert", "kills.dsrc", "kills.new"], ["audit", "kills.dsrc", "kills.dsct"]]
        run = [[*words, "--force"] for words in run]
        verdicts = [trials.verdict(Case(words, (Outcome(0, trials.run(Case(words, ())).out, b""),))) for words in run]
        chance = random.Random(1)
        wrong = []
        for number in range(KILLS):
            words = run[number % 3]
            path = trials.folder / words[2]
            new = path.read_bytes()
            kept = OLD if number % 2 else new
            path.write_bytes(kept)
            killed(trials, words, chance.random() * 0.08)
            came = path.read_bytes()
            if came not in (kept, new):
                wrong.append((number, words, len(came)))
            path.write_bytes(new)
        whole = [trials.verdict(Case(words, (Outcome(0, trials.run(Case(words, ())).out, b""),))) for words in run]
        parts = [name for name in os.listdir(trials.folder) if name.startswith("kills") and name.endswith(".part")]
        absent = []
        for number in range(KILLS // 4):
            words, path = ["convert", "kills.dsrc", "kills.absent"], trials.folder / "kills.absent"
            killed(trials, words, chance.random() * 0.02)
            if path.exists() and path.read_bytes() != (trials.folder / "kills.new").read_bytes():
                absent.append((number, path.stat().st_size))
            path.unlink(missing_ok=True)
        return [
            *verdicts, Verdict(f"{KILLS} kills", ([],), wrong), *whole, Verdict("parts left at the end", ([],), parts),
            Verdict("kills of what makes a new file", ([],), absent),
        ]  # fmt: skip

    trials.tasks.append(tried)


def try_all(trials, examples):
    try_exists(trials, examples)
    try_races(trials)
    try_same(trials, examples)
    try_links(trials)
    try_left(trials)
    try_streams(trials)
    try_room(trials)
    try_unsettled(trials, examples)
    try_nobody(trials)
    try_kills(trials)
