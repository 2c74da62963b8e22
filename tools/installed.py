#!/usr/bin/env python3
"""Tries what siman is installed with: tools/install, tools/uninstall, tools/package, the manual and the completions.

    python3 tools/installed.py [--root FOLDER]

Everything happens in temporary folders: nothing is installed on this machine. The completions are tried in each shell
as somebody types: a line, a tab, and what the line is then. With --root the package is installed in the Debian system
that stands in FOLDER, as `debootstrap --variant=minbase bookworm FOLDER` makes one, used, and purged; that takes the
rights of root. What cannot be tried, since a shell, lintian or the built program is not here, is told as skipped. The
last line is `N tried, M wrong`, with status 1 where something is wrong. It is no part of the gate.
"""
import argparse
import os
import pty
import re
import select
import shutil
import subprocess
import sys
import tempfile
import time
from pathlib import Path

TOP = Path(__file__).resolve().parent.parent
PROGRAM = TOP / "crates" / "siman" / "out" / "siman"
PATIENCE = 15  # seconds for an answer of a shell
PLACES = {
    "bin/siman": 0o755,
    "share/man/man1/siman.1": 0o644,
    "share/bash-completion/completions/siman": 0o644,
    "share/zsh/site-functions/_siman": 0o644,
    "share/fish/vendor_completions.d/siman.fish": 0o644,
}
IN_PACKAGE = {
    "bin/siman",
    "share/man/man1/siman.1.gz",
    "share/bash-completion/completions/siman",
    "share/zsh/vendor-completions/_siman",
    "share/fish/vendor_completions.d/siman.fish",
    "share/doc/siman/changelog.gz",
    "share/doc/siman/copyright",
}
FILES = (
    "exercise.dsrc", "exercise.dsct", "exercise.plan", "exercise.script", "notes.txt", "one.dsrc", "two words.dsrc", "later/1.dsrc",
    "later/2.dsrc", "later/notes.txt",
)  # fmt: skip
# What is typed before the tab, and the words of the line behind it.
TYPED = {
    "siman che": "siman check",
    "siman pd": "siman pdu",
    "siman --ver": "siman --version",
    "siman help men": "siman help mend",
    "siman show e": "siman show exercise.dsrc",
    "siman check exercise.dsrc e": "siman check exercise.dsrc exercise.dsct",
    "siman world ex": "siman world exercise.script",
    "siman plan ex": "siman plan exercise.plan",
    "siman plan exercise.plan l": "siman plan exercise.plan later/",
    "siman plan exercise.plan new.script --f": "siman plan exercise.plan new.script --force",
    "siman live exercise.script ": "siman live exercise.script later/",
    "siman audit exercise.dsrc exer": "siman audit exercise.dsrc exer",
    "siman mend exercise.dsrc new.dsrc --f": "siman mend exercise.dsrc new.dsrc --force",
    "siman exp": "siman export",
    "siman export exercise.dsrc ": "siman export exercise.dsrc later/",
    "siman review exercise.dsrc fate=unh": "siman review exercise.dsrc fate=unheard",
    "siman review exercise.dsrc fate=lost sta": "siman review exercise.dsrc fate=lost station=",
    "siman log exercise.dsrc kind=ev": "siman log exercise.dsrc kind=event-report",
    "siman log exercise.dsrc --j": "siman log exercise.dsrc --json",
    "siman coun": "siman count",
    "siman count exercise.dsrc kind=told sta": "siman count exercise.dsrc kind=told station=",
    "siman why exercise.dsrc exer": "siman why exercise.dsrc exercise.dsct",
    "siman why exercise.dsrc --j": "siman why exercise.dsrc --json",
    "siman join exer": "siman join exercise.dsrc",
    "siman join exercise.dsrc exer": "siman join exercise.dsrc exer",
    "siman join exercise.dsrc o": "siman join exercise.dsrc one.dsrc",
    "siman join exercise.dsrc one.dsrc t": "siman join exercise.dsrc one.dsrc two words.dsrc",
    r"siman join two\ words.dsrc t": "siman join two words.dsrc t",
    r"siman join two\ words.dsrc exercise.dsrc one.dsrc no": "siman join two words.dsrc exercise.dsrc one.dsrc no",
    r"siman join two\ words.dsrc exercise.dsrc one.dsrc l": "siman join two words.dsrc exercise.dsrc one.dsrc later/",
    "siman join exercise.dsrc later/1": "siman join exercise.dsrc later/1.dsrc",
    "siman join later/1.dsrc later/": "siman join later/1.dsrc later/2.dsrc",
    "siman join later/2.dsrc 1": "siman join later/2.dsrc 1",
    "siman join later/2.dsrc later/1.dsrc later/": "siman join later/2.dsrc later/1.dsrc later/",
    "siman join later/2.dsrc later/1.dsrc later/n": "siman join later/2.dsrc later/1.dsrc later/n",
    "siman join a.dsrc b.dsrc form=o": "siman join a.dsrc b.dsrc form=open",
    "siman join a.dsrc b.dsrc form=open p": "siman join a.dsrc b.dsrc form=open parts=yes",
    "siman pdu ": "siman pdu",
}
COMPLETIONS = TOP / "completions"
SHELLS = {
    "bash": (["bash", "--norc", "--noprofile", "-i"], [f"source {COMPLETIONS}/siman.bash"]),
    "zsh": (
        ["zsh", "-f", "-i"],
        [f"fpath=({COMPLETIONS} $fpath); autoload -Uz compinit; compinit -u -D; bindkey -e; setopt NO_BEEP NO_AUTO_REMOVE_SLASH"],
    ),
    "fish": (
        ["fish", "--no-config", "-i"],
        [f"source {COMPLETIONS}/siman.fish; function fish_prompt; echo -n '> '; end"],
    ),
}


class Typist:
    """Somebody who types into a shell at a terminal of its own."""

    def __init__(self, words, folder):
        self.process, self.terminal = pty.fork()
        if self.process == 0:
            os.chdir(folder)
            told = {"PATH": os.environ["PATH"], "HOME": folder, "TERM": "dumb", "PS1": "> ", "LC_ALL": "C.UTF-8"}
            os.execvpe(words[0], words, told)

    def type(self, text):
        os.write(self.terminal, text.encode())

    def read(self, wanted=None):
        """What the shell shows until `wanted` is there, or until it is silent for a while."""
        came, until = "", time.monotonic() + PATIENCE
        while time.monotonic() < until and not (wanted and re.search(wanted, came)):
            if not select.select([self.terminal], [], [], PATIENCE if wanted else 0.5)[0]:
                break
            try:
                came += os.read(self.terminal, 65536).decode("utf-8", "replace")
            except OSError:
                break
        return came

    def end(self):
        os.close(self.terminal)
        os.waitpid(self.process, 0)


class Tries:
    """What was tried, and what of it was wrong, which is told as it comes."""

    def __init__(self):
        self.tried = self.wrong = 0

    def expect(self, told, expected, came):
        self.tried += 1
        if expected != came:
            self.wrong += 1
            print(f"wrong: {told}: expected {expected!r}; came {came!r}")


def completed(shell, folder):
    """Of each line that is typed the words that it has behind a tab: printed by the shell itself, as it takes them."""
    words, begin = SHELLS[shell]
    typist = Typist(words, folder)
    typist.read()
    for line in begin:
        typist.type(f"{line}\r")
        typist.read()
    for number, typed in enumerate(TYPED):
        typist.type(f"{typed}\t")
        typist.read()
        # to the begin of the line: what the shell then prints are the words of the line
        typist.type(f"\x01printf '[%s]' {number} \x05; echo '(end)'\r")
        came = typist.read(rf"\[{number}\][^\n]*\(end\)")
        found = re.search(rf"\[{number}\]((?:\[[^\]]*\])*)\(end\)", came)
        yield typed, " ".join(re.findall(r"\[([^\]]*)\]", found[1])) if found else came
    typist.end()


def try_completions(tries, folder):
    for name in FILES:
        (folder / name).parent.mkdir(exist_ok=True)
        (folder / name).touch()
    for shell in SHELLS:
        if not shutil.which(shell):
            print(f"skipped: {shell} is not here")
            continue
        for typed, came in completed(shell, str(folder)):
            tries.expect(f"{shell}: {typed!r} and a tab", TYPED[typed], came)


def run(*words, **environment):
    """The status of a tool and its lines."""
    environment = {**os.environ, **environment}
    done = subprocess.run(list(map(str, words)), env=environment, stdin=subprocess.DEVNULL, capture_output=True, text=True)
    return done.returncode, done.stdout.splitlines(), done.stderr.splitlines()


def files_below(folder):
    return {str(path.relative_to(folder)): path.stat().st_mode & 0o777 for path in folder.rglob("*") if path.is_file()}


def try_installing(tries, folder):
    install, uninstall = TOP / "tools" / "install", TOP / "tools" / "uninstall"
    for prefix in ("/usr/local", "/opt/a folder"):
        base = folder / "root"
        places = sorted(f"{base}{prefix}/{place}" for place in PLACES)
        for again in ("", ", again"):
            status, lines, _ = run(install, DESTDIR=str(base), PREFIX=prefix)
            tries.expect(f"install under {prefix}{again}", (0, places), (status, sorted(lines)))
        tries.expect(f"what stands under {prefix}", PLACES, files_below(Path(f"{base}{prefix}")))
        _, lines, _ = run(f"{base}{prefix}/bin/siman", "--version")
        tries.expect(f"the program under {prefix}", run(PROGRAM, "--version")[1], lines)
        status, lines, _ = run(uninstall, DESTDIR=str(base), PREFIX=prefix)
        tries.expect(f"uninstall under {prefix}", (0, places), (status, sorted(lines)))
        tries.expect(f"what then stands under {prefix}", {}, files_below(base))
        tries.expect(f"uninstall under {prefix}, again", (0, [], []), run(uninstall, DESTDIR=str(base), PREFIX=prefix))
    for told, given in {"a PREFIX": {"PREFIX": "usr"}, "a DESTDIR": {"DESTDIR": "root"}}.items():
        refusal = ["install: PREFIX and DESTDIR have to be absolute paths"]
        tries.expect(f"{told} that is not absolute", (2, [], refusal), run(install, **given))
    tries.expect("a word that install does not know", 2, run(install, "--remove")[0])


def try_package(tries, folder):
    package = TOP / "tools" / "package"
    made = []
    for name in ("one", "other"):
        status, lines, _ = run(package, folder / name)
        tries.expect("package", (0, 1), (status, len(lines)))
        made.append(Path(lines[0]).read_bytes() if lines else b"")
    tries.expect("the package made again", made[0], made[1])
    run("dpkg-deb", "-x", lines[0], folder / "unpacked")
    tries.expect("what is in the package", IN_PACKAGE, set(files_below(folder / "unpacked" / "usr")))
    _, told, _ = run(folder / "unpacked" / "usr" / "bin" / "siman", "--version")
    tries.expect("the program in the package", run(PROGRAM, "--version")[1], told)
    if shutil.which("lintian"):
        tries.expect("lintian", (0, []), run("lintian", "--allow-root", "--fail-on", "warning", lines[0])[:2])
    else:
        print("skipped: lintian is not here")


def try_in_root(tries, root, folder):
    """The package in a system that has nothing but what Debian always has."""
    _, lines, _ = run(TOP / "tools" / "package", folder)
    shutil.copy(lines[0], root / "siman.deb")
    before = set(files_below(root / "usr"))
    tries.expect("dpkg -i in a root", 0, run("chroot", root, "dpkg", "-i", "/siman.deb")[0])
    tries.expect("dpkg -V in a root", (0, [], []), run("chroot", root, "dpkg", "-V", "siman"))
    tries.expect("the program in a root", run(PROGRAM, "--help"), run("chroot", root, "siman", "--help"))
    come = set(files_below(root / "usr")) - before
    tries.expect("what the package brings in a root", IN_PACKAGE, come)
    tries.expect("dpkg --purge in a root", 0, run("chroot", root, "dpkg", "--purge", "siman")[0])
    tries.expect("what then stands in a root", before, set(files_below(root / "usr")))
    (root / "siman.deb").unlink()


def try_manual(tries):
    for width in ("60", "80", "120"):
        words = ("man", "--warnings", "-E", "UTF-8", "-l", "-Tutf8", "-Z", TOP / "docs" / "siman.1")
        status, _, told = run(*words, MANROFFSEQ="", MANWIDTH=width, LC_ALL="C.UTF-8")
        tries.expect(f"the manual, {width} columns wide", (0, []), (status, told))


def arguments():
    form = argparse.RawDescriptionHelpFormatter
    parser = argparse.ArgumentParser(description=__doc__, formatter_class=form)
    parser.add_argument("--root", type=Path, metavar="FOLDER", help="a Debian system, in which the package is tried")
    return parser.parse_args()


def main():
    given, tries = arguments(), Tries()
    with tempfile.TemporaryDirectory() as folder:
        parts = [Path(folder, name) for name in ("shells", "install", "package")]
        for part in parts:
            part.mkdir()
        try_completions(tries, parts[0])
        if shutil.which("man"):
            try_manual(tries)
        else:
            print("skipped: man is not here")
        if os.access(PROGRAM, os.X_OK):
            try_installing(tries, parts[1])
            if shutil.which("dpkg-deb") and shutil.which("dpkg-shlibdeps") and shutil.which("strip"):
                try_package(tries, parts[2])
                if given.root:
                    try_in_root(tries, given.root.resolve(), parts[2])
            else:
                print("skipped: what tools/package needs is not here")
        else:
            print("skipped: install and package, as there is no built program")
    print(f"{tries.tried} tried, {tries.wrong} wrong")
    return 1 if tries.wrong else 0


if __name__ == "__main__":
    sys.exit(main())
