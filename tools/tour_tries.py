#!/usr/bin/env python3
"""Tries tools/tour.py on made-up pages: a true one, and pages that lie, each of which has to be told.

    python3 tools/tour_tries.py

The last line is `N tried, M wrong`; the status is 0 where M is 0, else 1.
"""
import subprocess
import sys
import tempfile
from pathlib import Path

TOOL = Path(__file__).resolve().parent / "tour.py"
PROGRAM = "#!/bin/sh\nprintf 'one 1\\ntwo\\nthree\\nfour\\n'\n"
WRAPPER = '#!/bin/sh\nexec "$(dirname "$0")/crates/siman/out/siman"\n'
TRUE = """# A page

See [the other](docs/OTHER.md#a-part-of-it), [this](#a-page), `[no](link)`, `docs/OTHER.md` and `specs/NAME.antt`.

```
$ ./siman
one 1
two
three
four
$ ./siman
one 1
..
four
$ ./siman | head -1
one ..
$ ./siman >file
$ cat file | \\
> tail -1
four
```

```sh
./siman and no prompt
```

```rust
pub fn one() {
..
    three();
}
```
"""
EXAMPLE = "/// One.\npub fn one() {\n    two();\n    three();\n}\n"
OTHER = "# Another\n\n## A part, of `it`\n\n```\n$ cat examples/made\nx\n```\n"
# What is another in a page, what stands there then, and what has to be told.
LIES = [
    ("three\nfour", "three\nfive", "README.md:6: `./siman`: it prints `four` where the page has `five`"),
    ("three\nfour", "three", "README.md:6: `./siman`: it also prints `four`"),
    ("three\nfour", "three\nfour\nfive", "README.md:6: `./siman`: it does not print `five`"),
    ("..\nfour", "..\nfive", "README.md:11: `./siman`: what it prints is not that, with the lines between left out"),
    ("..\nfour", "two\nthree\n..\nfour", "README.md:11: `./siman`: what it prints is not that, with the lines .."),
    ("one ..", "two ..", "README.md:15: `./siman | head -1`: it prints `one 1` where the page has `two ..`"),
    ("./siman >file", "./siman | tee file", "README.md:17: `./siman | tee file`: it also prints `one 1`"),
    ("cat file |", "cat absent |", "README.md:18: `cat absent | tail -1`: it prints `cat: absent: No such file or .."),
    ("docs/OTHER.md#", "docs/NONE.md#", "README.md:3: the link docs/NONE.md#a-part-of-it leads to no file"),
    ("#a-part-of-it", "#none", "README.md:3: the link docs/OTHER.md#none leads to no heading of docs/OTHER.md"),
    ("`docs/OTHER.md`", "`other/OTHER.md`", "README.md:3: there is no file other/OTHER.md"),
    ("(#a-page)", "(#another)", "README.md:3: the link #another leads to no heading of README.md"),
    ("    three();", "    four();", "README.md:28: no source of crates/siman_tests/src/uses has this"),
    ("pub fn one() {\n..", "pub fn one() {", "README.md:28: no source of crates/siman_tests/src/uses has this"),
    ("./siman | head -1", "cat examples/made", "README.md:15: `cat examples/made`: it prints `cat: examples/made: No .."),
]  # fmt: skip


def made_tree(folder, page):
    """A tree with a program, a page and another one."""
    texts = {
        "README.md": page, "docs/OTHER.md": OTHER, "siman": WRAPPER, "crates/siman/out/siman": PROGRAM,
        "crates/siman_tests/src/uses/one.rt": EXAMPLE,
        "examples/make": "printf x >$(dirname $0)/made\n", ".gitignore": "out/\n/examples/made\n",
    }  # fmt: skip
    for name, text in texts.items():
        (folder / name).parent.mkdir(parents=True, exist_ok=True)
        (folder / name).write_text(text, encoding="utf-8")
    for name in ("siman", "crates/siman/out/siman"):
        (folder / name).chmod(0o755)
    subprocess.run(["git", "init", "-q", str(folder)], check=True)


def told_of(page):
    """The lines and the status of the tour of a tree with this page."""
    with tempfile.TemporaryDirectory() as folder:
        made_tree(Path(folder), page)
        done = subprocess.run([sys.executable, str(TOOL), "--top", folder], capture_output=True, text=True)
        return [*done.stdout.splitlines(), *done.stderr.splitlines()], done.returncode


def is_told(expected, came):
    return len(expected) == len(came) and all(
        line.startswith(text[:-2]) if text.endswith(" ..") else line == text for text, line in zip(expected, came)
    )


def main():
    tries = [(TRUE, ["10 tried, 0 wrong"], 0)]
    for old, new, told in LIES:
        assert TRUE.count(old) == 1, old
        tries.append((TRUE.replace(old, new), [told, "10 tried, 1 wrong"], 1))
    tries.append(("# Nothing\n", ["1 tried, 0 wrong"], 0))
    wrong = 0
    for page, expected, status in tries:
        came, ended = told_of(page)
        if not is_told(expected, came) or ended != status:
            print(f"wrong: expected {expected}, {status}; came {came}, {ended}")
            wrong += 1
    print(f"{len(tries)} tried, {wrong} wrong")
    return 1 if wrong else 0


if __name__ == "__main__":
    sys.exit(main())
