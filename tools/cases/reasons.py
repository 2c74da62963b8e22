"""Second lines of faults that real files and sockets give: what a file looks like, and what the system says."""
import os
import socket

from cases.examples import WORKED_SCRIPT
from cases.trials import Outcome

SCRIPT = b"exercise 1\nstation 1:1\nstation 2:3\ncreate 1:1 2:3:7\n"
LOOKS = {
    "a recording": b"DSRC0001",
    "a certificate": b"DSCT0001" + bytes(4),
    "a script": SCRIPT,
    "a capture of tcpdump or Wireshark": bytes.fromhex("D4C3B2A1020004000000000000000000000004000100000000"),
}


def fault(first, second):
    return Outcome(2, b"", f"{first}\n  {second}\n".encode())


def in_folder(trials, name, text=None):
    path = trials.folder / "reasons" / name
    path.parent.mkdir(exist_ok=True)
    if text is not None:
        path.write_bytes(text)
    return f"reasons/{name}"


def try_looks(trials, examples):
    """A file of one kind in the place of another; one that comes through a pipe is not looked at."""
    names = {looks: in_folder(trials, f"looks.{number}", text) for number, (looks, text) in enumerate(LOOKS.items())}
    for looks, name in names.items():
        if looks != "a recording":
            trials.expect(["show", name], fault("recording: magic at 0", f"{name} is no recording: it looks like {looks}"))
        if looks != "a certificate":
            trials.expect(["check", examples[0], name], fault("certificate: magic at 0", f"{name} is no certificate: it looks like {looks}"))
    for looks in ("a recording", "a certificate"):
        trials.expect(["world", names[looks], "new"], fault("script: bad-line at line 1", f"{names[looks]} is no script: it looks like {looks}"))
    trials.expect(["show", "-"], fault("recording: magic at 0", "- is no recording: those begin with DSRC0001 or DSRC0002"), given=SCRIPT)
    empty, torn = in_folder(trials, "empty", b""), in_folder(trials, "torn", b"DSRC0001\x01")
    trials.expect(["log", empty], fault("recording: truncated at 0", f"{empty} is an empty file"))
    trials.expect(["log", torn], fault("recording: truncated at 9", f"siman mend {torn} NEW keeps its whole entries, where its stations stand whole, and --torn reads them"))


def try_files(trials, examples):
    """What the system says of a file that is read, and of one that is made."""
    recording, file, folder = examples[0], in_folder(trials, "file", b"x"), in_folder(trials, "")[:-1]
    under, link = f"{file}/under", in_folder(trials, "ring")
    os.symlink("ring", trials.folder / link)
    long = "n" * 300
    trials.expect(["show", "none"], fault("file: none: no such file", "none: is the name right, and its folder?"))
    trials.expect(["show", folder], fault(f"file: {folder}: is a directory", f"{folder} is a folder: name a file in it"))
    trials.expect(["show", under], fault(f"file: {under}: cannot be opened", f"{under}: what stands for a folder in its path is none"))
    trials.expect(["show", link], fault(f"file: {link}: cannot be opened", f"{link}: its links lead round in a ring"))
    trials.expect(["show", long], fault(f"file: {long}: cannot be opened", f"{long}: the name is too long"))
    for new, said in (("none/new", "no such folder"), (folder, "is a directory"), (under, "not a folder"), (long, "the name is too long")):
        trials.expect(["world", WORKED_SCRIPT, new], fault("output: write", f"{new}: {said}"))
    trials.expect(["world", WORKED_SCRIPT, "/dev/full"], fault("output: write", "/dev/full: no space left"))
    trials.expect(["show", recording], fault("output: write", "standard output: not all could be written"), behind="> /dev/full")
    trials.expect(["audit", recording, file], fault("output: exists", f"{file} is there already: give another name, or --force to replace it"))
    trials.expect(["live", WORKED_SCRIPT, file], fault("output: exists", f"{file} is there already: give another name"))
    trials.expect(["audit", recording, f"./{recording}", "--force"], fault(f"output: same as {recording}", f"{recording} is read: give the new file another name"))


def try_sockets(trials):
    """What the system says of a socket, and of a send."""
    held = socket.socket(socket.AF_INET, socket.SOCK_DGRAM)
    held.bind(("127.0.0.1", 0))
    taken = f"127.0.0.1:{held.getsockname()[1]}"
    trials.held = held  # until the trials end
    setup = trials.file(SCRIPT)
    for at, said in ((taken, "the address is in use"), ("192.0.2.1:3000", "not an address of this machine")):
        trials.expect(["station", setup, "1:1", "reasons/none", at, "127.0.0.1:9"], fault("live: line", f"binding {at}: {said}"))


def try_all(trials, examples):
    try_looks(trials, examples)
    try_files(trials, examples)
    try_sockets(trials)
