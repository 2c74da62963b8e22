"""The scripts that write recordings: the recorder of FORMATS.md, and exchanges of any number."""
import os
import re
import subprocess
import sys

import pages
from cases.examples import TOP
from pages import Outcome


def script(trials, name, *words):
    """How a script ends that is run with these words in the folder of the cases: its status and both streams."""
    command = [sys.executable, str(TOP / name), *words]
    done = subprocess.run(command, cwd=trials.folder, capture_output=True, check=False)
    return Outcome(done.returncode, done.stdout, done.stderr)


def read(trials, name):
    return (trials.folder / name).read_bytes()


def try_recorder(trials):
    page = (TOP / "docs" / "integrators" / "FORMATS.md").read_text(encoding="utf-8")
    quoted = re.search(r"```python\n(.*?)```", page, re.DOTALL).group(1)
    recorder = (TOP / "examples" / "recorder.py").read_text(encoding="utf-8")
    trials.state("what FORMATS.md quotes stands in recorder.py", True, quoted.strip() in recorder)
    names = "created.dsrc", "created.dsct"
    trials.state("recorder.py", Outcome(0, b"", b""), script(trials, "examples/recorder.py", *names))
    stated = b"yes records=5 others=0\nanswer 2 request 1\nknown 3 change 2\nentity 2:3:7 stopped\n"
    trials.expect(["check", *names], Outcome(0, stated, b""))
    trials.expect(["show", names[0]], pages.answer_to_show(read(trials, names[0])))


def try_exchanges(trials):
    for count in ("0", "1", "9"):
        names = f"exchanges.{count}.dsrc", f"exchanges.{count}.dsct"
        came = script(trials, "tools/exchanges.py", count, *names)
        trials.state(f"exchanges.py {count}", Outcome(0, b"", b""), came)
        trials.expect(["check", *names], pages.answer_to_check(*(read(trials, name) for name in names)))
    for words in [[], ["1"], ["1", "a", "b", "c"], *([word, "new", "new"] for word in ("x", "-1", "1.5", "", "65534"))]:
        came = script(trials, "tools/exchanges.py", *words)
        usage = came.status == 2 and came.errors.startswith(b"usage: ") and came.out == b""
        trials.state(f"the usage of exchanges.py {words}", True, usage)
    came = script(trials, "tools/exchanges.py", "1", "examples", "new")
    trials.state("exchanges.py with a folder for a file", True, b"examples could not be written" in came.errors)
    trials.state("what exchanges.py made of them", False, os.path.exists(trials.folder / "new"))


def try_all(trials, _):
    try_recorder(trials)
    try_exchanges(trials)
