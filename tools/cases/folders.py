"""Made-up command lines over a folder of files of every kind: none that stood is other, but where --force says so."""
import os
import random
import subprocess

from cases.examples import TOP, WORKED_SCRIPT
from cases.trials import PATIENCE, Verdict

LINES = 1000  # of each command
# The words behind each command, where it has those that it takes.
USUAL = {
    "pdu": ["0701"], "pdus": [], "show": ["REC"], "check": ["REC", "CERT"], "audit": ["REC", "NEW"], "world": ["SCRIPT", "NEW"],
    "live": ["SCRIPT", "NEW"], "plan": ["SCRIPT", "NEW"], "station": ["SCRIPT", "1:1", "NEW", "127.0.0.1:0", "127.0.0.1:9"], "convert": ["REC", "NEW"],
    "mend": ["REC", "NEW"], "join": ["REC", "REC", "NEW"], "export": ["REC", "NEW"], "review": ["REC", "fate=lost"], "log": ["REC"],
    "count": ["REC", "kind=told"], "why": ["REC", "CERT"], "chart": ["REC", "CERT", "NEW"],
}  # fmt: skip
OTHERS = ["--force", "--json", "--force", "form=open", "form=closed", "parts=yes", "from=1", "to=2", "from=any", "-", "--", "-x", "", "2:3", "."]


def filled(trials, examples):
    """A folder of recordings, certificates, scripts and others, with links, and the names that may stand in a line."""
    folder = trials.folder / "kinds"
    folder.mkdir()
    texts = {
        "rec": (trials.folder / examples[0]).read_bytes(), "cert": (trials.folder / examples[1]).read_bytes(),
        "script": (TOP / WORKED_SCRIPT).read_bytes(),
        "torn": (trials.folder / examples[0]).read_bytes()[:-3], "picture": b"<svg/>\n", "text": b"what stood before\n",
        "capture": bytes.fromhex("d4c3b2a1020004000000000000000000000004000100000000"), "empty": b"",
    }  # fmt: skip
    for name, text in texts.items():
        (folder / name).write_bytes(text)
    os.link(folder / "rec", folder / "hard")
    os.symlink("cert", folder / "soft")
    os.symlink("nowhere", folder / "dangling")
    (folder / "folder").mkdir()
    return folder, ["rec", "cert", "script", "torn", "picture", "text", "capture", "hard", "soft", "./rec", "../kinds/cert", "rec", "cert"]


def standing(folder):
    """What stands in a folder: of each file its bytes, of each link where it leads."""
    return {entry.name: os.readlink(entry) if entry.is_symlink() else open(entry, "rb").read() for entry in os.scandir(folder) if not entry.is_dir()}


def made_up(chance, command, names):
    """A command line: as it should be, with names of any kind, another word in one of three, one more in one of four."""
    kinds = {"REC": names, "CERT": names, "SCRIPT": ["script", *names], "NEW": ["new", "new", "dangling", "empty", "folder", *names]}
    words = [chance.choice(kinds[word]) if word in kinds else word for word in USUAL[command]]
    if words and chance.random() < 1 / 3:
        words[chance.randrange(len(words))] = chance.choice(names + OTHERS + ["new"])
    if chance.random() < 1 / 4:
        words.insert(chance.randrange(len(words) + 1), chance.choice(OTHERS))
    if chance.random() < 1 / 8:
        words = words[: chance.randrange(len(words) + 1)]
    return [command, *words]


def lost(before, after):
    """The names of files that stood, were not empty, and are other or gone."""
    return sorted(name for name, text in before.items() if text and after.get(name) != text)


def try_all(trials, examples):
    folder, names = filled(trials, examples)

    def tried():
        chance, first, wrong = random.Random(1), standing(folder), []
        for number in range(LINES * len(USUAL)):
            words = made_up(chance, list(USUAL)[number % len(USUAL)], names)
            subprocess.run([trials.program, *words], cwd=folder, input=b"", capture_output=True, timeout=PATIENCE, check=False)
            after = standing(folder)
            gone = lost(first, after)
            if gone and not ("--force" in words and words[0] not in ("live", "station")):
                wrong.append((words, gone))
            if any(name.endswith(".part") for name in after):
                wrong.append((words, "a part is left"))
            for name in {*after, *first}:
                if after.get(name) != first.get(name):
                    restored(folder / name, first.get(name))
        return [Verdict(f"{LINES} command lines of each command, over files of every kind", ([],), wrong)]

    trials.tasks.append(tried)


def restored(path, text):
    """Has a file stand as it did, or none."""
    path.unlink(missing_ok=True)
    if path.name == "dangling":
        os.symlink("nowhere", path)
    elif path.name == "soft":
        os.symlink("cert", path)
    elif path.name == "hard":
        os.link(path.parent / "rec", path)
    elif text is not None:
        path.write_bytes(text)
