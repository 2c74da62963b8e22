#!/usr/bin/env python3
"""Compares what two commits promise: public functions with their clauses, public types, and the definitions they cite.

    python3 tools/clauses.py OLD [NEW] [--renames FILE]        NEW: the work tree, if left out

A line `OLD NEW` of FILE says that a word has another name in NEW; `OLD NEW PAGE`, only where the word is imported from
that page, as low.specs.Table; ` OLD => NEW`, with a space before it, that a whole text has another one. The texts of the
first commit are read with the names of the second, so that what has another name and nothing else is neither lost nor
changed. A line that renames nothing is a mistake.

Public is what a crate's lib.rt exports: `pub fn`, methods of types and of traits, what types implement, and the
`main` of a program. Of a function its signature counts and its clauses, whatever their order and layout; comments
count nothing. One that stands in another file or crate with the same signature and clauses is moved. Of a type its
public fields and its variants count, and its model; of a trait all but its methods, which are functions. A definition
of specs/ counts where a clause cites it, by itself or through another one; and what a name in a clause stands for
counts, wherever it stands. Tests, and the cases of crates/*/data, count by their names.

It tells what was lost, what changed with the old and the new text, what moved and what is new. Derived traits that a
type no longer has are told by themselves, since they are no clause. The last line is `N public functions before, M
after: L lost, C changed, V moved, W new`; the status is 1 where a function, a type, a definition, a test or a case
was lost or changed, else 0.
"""
import collections
import io
import re
import subprocess
import sys
import tarfile
from pathlib import Path

from promises import Function, Promises, base

TOP = Path(__file__).resolve().parent.parent


def what(it):
    owner = f"{it.owner}::" if isinstance(it, Function) and it.owner else ""
    return f"{it.crate}::{owner}{it.name}"


def content(it):
    return (it.head, *sorted(it.clauses)) if isinstance(it, Function) else it.text


def pairs(olds, news, label):
    """The partner of each old thing: one of its name and text, else one of its name, each in its own file or crate if it is
    there; by places in the lists. And the new things that are nobody's partner."""
    by_name, free = collections.defaultdict(list), set(range(len(news)))
    for place, it in enumerate(news):
        by_name[label(it)].append(place)
    places = [lambda it: it.path, lambda it: it.crate, lambda it: None]
    ranks = [lambda it, place=place: (content(it), place(it)) for place in places] + places
    found = {}
    for rank in ranks:
        for at, old in enumerate(olds):
            same = [] if at in found else [it for it in by_name[label(old)] if it in free]
            near = [it for it in same if rank(old) == rank(news[it])]
            if near:
                found[at] = near[0]
                free.discard(near[0])
    return found, sorted(free)


class Comparison:
    """What became of each thing of one kind."""

    def __init__(self, kind, olds, news, label):
        self.kind, self.olds, self.news = kind, olds, news
        self.found, fresh = pairs(olds, news, label)
        self.lost = [it for at, it in enumerate(olds) if at not in self.found]
        self.both = [(olds[at], news[it]) for at, it in sorted(self.found.items())]
        self.changed = [(o, n) for o, n in self.both if content(o) != content(n)]
        self.moved = [(o, n) for o, n in self.both if content(o) == content(n) and o.path != n.path]
        self.new = [news[it] for it in fresh]

    def lines(self, passed):
        for it in self.lost:
            alike = next((n for n in self.new if isinstance(it, Function) and is_renamed(it, n)), None)
            yield f"lost {self.kind} {what(it)} ({it.path}){f'; is it {what(alike)}?' if alike else ''}"
        for old, new in self.changed:
            yield f"changed {self.kind} {what(old)} ({new.path})"
            yield from differences(old, new)
        for old, new in self.moved:
            offered = base(old.owner) if self.kind == "function" and old.owner else base(old.name)
            gone = self.kind != "definition" and old.crate != new.crate and offered not in passed.get(old.crate, ())
            note = f"; {old.crate} does not pass it on" if gone else ""
            yield f"moved {self.kind} {what(old)} from {old.path} to {new.path}{note}"
        for it in self.new:
            yield f"new {self.kind} {what(it)} ({it.path})"

    def counts(self):
        numbers = (self.lost, "lost"), (self.changed, "changed"), (self.moved, "moved"), (self.new, "new")
        return ", ".join(f"{len(them)} {word}" for them, word in numbers)

    def is_bad(self):
        return bool(self.lost or self.changed)


def is_renamed(old, new):
    head = re.sub(rf"\bfn {old.name}\b", f"fn {new.name}", old.head)
    return head == new.head and sorted(old.clauses) == sorted(new.clauses)


def differences(old, new):
    parts = [[it.head, *it.clauses] if isinstance(it, Function) else [it.text] for it in (old, new)]
    for sign, mine, others in (("-", parts[0], parts[1]), ("+", parts[1], parts[0])):
        yield from (f"    {sign} {it}" for it in mine if it not in others)


def other_names(comparisons, counterpart):
    """The names in unchanged texts that stand for another definition than before."""
    for old, new in (pair for it in comparisons for pair in it.both if content(pair[0]) == content(pair[1])):
        for name, key in old.cites.items():
            now = new.cites.get(name)
            if key in counterpart and now != counterpart[key]:
                yield f"changed meaning of {what(old)} ({new.path})"
                yield f"    - {name} is {'.'.join(key)}"
                yield f"    + {name} is {'.'.join(now) if now else 'none of the definitions'}"


def counted(kind, olds, news):
    """What names were lost and are new, of a kind that counts by its names."""
    lost, new = olds - news, news - olds
    yield from (f"lost {kind} {it}" for it in sorted(lost.elements()))
    yield from (f"new {kind} {it}" for it in sorted(new.elements()))
    yield f"{kind}s: {olds.total()} before, {news.total()} after: {lost.total()} lost, {new.total()} new"


def traits_gone(types, old, new):
    """Which traits a type no longer derives or has written for it, and how many they are."""
    gone = [f"no longer has {trait}: {what(b)}" for a, b in types.both
            for trait in sorted(old.traits[a.crate, a.name] - new.traits[b.crate, b.name])]
    return [*gone, f"traits: {len(gone)} gone"]


def compare(old_tree, new_tree):
    """The lines to print of two trees, texts by path, and whether something was lost or changed."""
    old, new = Promises(old_tree), Promises(new_tree)
    functions = Comparison("function", old.functions, new.functions, lambda it: (it.owner, it.name))
    types = Comparison("type", old.types, new.types, lambda it: it.name)
    keys, every = list(old.definitions), list(new.everything)
    cited, all_new = [old.definitions[it] for it in keys], [new.everything[it] for it in every]
    pages = Comparison("definition", cited, all_new, lambda it: it.name)
    counterpart = {key: every[pages.found[at]] for at, key in enumerate(keys) if at in pages.found}
    pages.new = [it for it in pages.new if it in new.definitions.values()]
    others = list(other_names([functions, types, pages], counterpart))
    lines = [line for it in (functions, types, pages) for line in it.lines(new.passed)] + others
    lines += traits_gone(types, old, new)
    for it in (types, pages):
        lines.append(f"{it.kind}s: {len(it.olds)} before: {it.counts()}")
    lines += [*counted("test", old.tests, new.tests), *counted("case", old.cases, new.cases)]
    lines.append(f"{len(old.functions)} public functions before, {len(new.functions)} after: {functions.counts()}")
    gone = old.tests - new.tests or old.cases - new.cases
    return lines, bool(gone or others or any(it.is_bad() for it in (functions, types, pages)))


def is_read(path):
    return path.startswith("crates/") and path.endswith((".rt", ".antt", ".cases")) and "/out/" not in path


def tree_of(commit=None):
    """The texts that count, of a commit or of the work tree, by path."""
    if commit is None:
        files = (it for it in (TOP / "crates").rglob("*") if is_read(it.relative_to(TOP).as_posix()) and it.is_file())
        return {it.relative_to(TOP).as_posix(): it.read_text(encoding="utf-8") for it in files}
    ran = subprocess.run(["git", "archive", commit, "crates"], cwd=TOP, capture_output=True)
    if ran.returncode:
        print(f"clauses.py: git knows no commit {commit}: {ran.stderr.decode().strip()}", file=sys.stderr)
        sys.exit(2)
    with tarfile.open(fileobj=io.BytesIO(ran.stdout)) as whole:
        files = [it for it in whole if it.isfile() and is_read(it.name)]
        return {it.name: whole.extractfile(it).read().decode("utf-8") for it in files}


def is_imported(word, page, path, text):
    """Whether a text, at a path, has a word from a page of specs, or is that page."""
    crate, _, name = page.partition(".specs.")
    stands = re.search(rf"\bRattle\.{re.escape(page)}\.\{{[^}}]*(?<![\w]){re.escape(word)}(?![\w])", text)
    return bool(stands) or path == f"crates/{crate}/specs/{name.replace('.', '/')}.antt"


def renamed(tree, lines):
    """The texts of a tree with the names that these lines give them, and the lines that rename nothing."""
    idle = []
    for line in lines:
        if line.startswith(" "):
            old, new = line[1:].split(" => ", 1)
            pattern, takes = re.escape(old), lambda path, text: True
        else:
            old, new, *page = line.split()
            pattern = rf"(?<![\w]){re.escape(old)}(?![\w])"
            takes = lambda path, text: not page or is_imported(old, page[0], path, text)
        changed = {path: re.sub(pattern, lambda _: new, text) if takes(path, text) else text for path, text in tree.items()}
        if changed == tree:
            idle.append(line)
        tree = changed
    return tree, idle


def names_of(words):
    """The commits that words name, and the lines of the file of renames."""
    if "--renames" not in words:
        return words, []
    at = words.index("--renames")
    text = Path(words[at + 1]).read_text(encoding="utf-8") if at + 1 < len(words) else ""
    return words[:at] + words[at + 2:], [it for it in text.splitlines() if it.strip() and not it.startswith("#")]


def main(words):
    commits, renames = names_of(words)
    if not 1 <= len(commits) <= 2 or any(it.startswith("-") for it in commits):
        print(__doc__, end="", file=sys.stderr)
        return 2
    before, idle = renamed(tree_of(commits[0]), renames)
    if idle:
        print("clauses.py: renames nothing: " + "; ".join(idle), file=sys.stderr)
        return 2
    lines, is_bad = compare(before, tree_of(*commits[1:]))
    print("\n".join(lines))
    return 1 if is_bad else 0


if __name__ == "__main__":
    sys.exit(main(sys.argv[1:]))
