#!/usr/bin/env python3
"""laws.py [--all]: which laws of the repository nobody calls.

A law is a theorem that others can use: a public function that is no method, has a contract with `ensures` and no
result, and whose body is empty, or does nothing but call such functions. When it runs it does nothing; who calls it may
conclude what its contract says. The functions of `uses.rt` and `uses/` are no laws but uses of them, though some look
like it.

A law is called where a function of any crate, uses among them, calls it and has a contract itself, or is
called by one that has (a helper of a proved function). Tests and other laws are no callers. Two laws of one name are
told apart by the crate that a file takes the name from.

It prints a line for each law without a caller, `CRATE::LAW  no caller`; with --all one for each law, with its callers,
`CRATE::LAW  CRATE::FUNCTION ..`. The last line is `N laws, M without a caller`. The status is 0 where M is 0, else 1,
and 2 for words that it does not know.
"""
import re
import sys
from collections import namedtuple
from pathlib import Path

TOP = Path(__file__).resolve().parent.parent
USES = "uses"
HEAD = re.compile(r"^( *)(pub(?:\([^)]*\))? )?fn (\w+)")
CALL = re.compile(r"(?<![\w.])(?:(\w+)::)?(\w+)(?:::<[^()]*?>)?\(")
Function = namedtuple("Function", "crate name path public test method result contract body")


def bare(line):
    """A line without its comment."""
    return line.split("//", 1)[0].rstrip()


def functions_of(crate, path):
    """The functions of a file, in the layout of rt fmt: a body begins with a brace at the end of a line, or alone."""
    lines = [bare(line) for line in path.read_text(encoding="utf-8").splitlines()]
    for start, line in enumerate(lines):
        head = HEAD.match(line)
        if not head:
            continue
        indent, at = head.group(1), start
        while not re.fullmatch(rf"{indent}\{{\}}?", lines[at]) and not lines[at].endswith((" {", " {}", ";")):
            at += 1
        end = at
        if not lines[at].endswith((";", "{}")):
            while lines[end] != f"{indent}}}":
                end += 1
        header = lines[start : at + 1]
        clauses = [n for n, text in enumerate(header) if re.match(r" *(ensures|requires|where)\b", text)]
        signature = " ".join(header[: clauses[0]] if clauses else header)
        tested = any(text.strip() == "#[test]" for text in lines[max(0, start - 3) : start])
        yield Function(
            crate,
            head.group(3),
            path,
            (head.group(2) or "").strip() == "pub",
            tested,
            bool(indent),
            "->" in signature,
            any(re.match(r" *ensures\b", text) for text in header),
            lines[at + 1 : end],
        )


def names_in(path, crate):
    """For each name that a file takes from elsewhere, the crate that it takes it from."""
    text = path.read_text(encoding="utf-8")
    found = {}
    for head, names in re.findall(r"^use (\w+)::(?:\w+::)*(\{[^}]*\}|\w+);", text, re.M):
        for name in re.findall(r"\w+", names):
            found[name] = crate if head == "crate" else head
    return found


def calls_of(function, taken):
    """The functions that a function calls by their names, each with its crate."""
    for head, name in CALL.findall("\n".join(function.body)):
        if head and head not in ("crate", "self", "super"):
            yield head, name
        else:
            yield taken.get(name, function.crate), name


def is_use(path):
    return path.stem == USES or path.parent.name == USES


def laws_of(functions, calls):
    """The laws, each with its crate."""
    alike = {
        (f.crate, f.name): f
        for f in functions
        if f.public and not f.method and not f.result and f.contract and not is_use(f.path) and not f.test
    }
    laws = {key for key, f in alike.items() if not any(line.strip() for line in f.body)}
    while True:
        more = {
            key
            for key, f in alike.items()
            if key not in laws
            and all(re.fullmatch(r" *(?:\w+::)*\w+(?:::<.*>)?\(.*\);|", line) for line in f.body)
            and all(call in laws for call in calls[f])
        }
        if not more:
            return laws
        laws |= more


def main(words):
    if words not in ([], ["--all"]):
        print(__doc__.split("\n", 1)[0], file=sys.stderr)
        return 2
    functions, calls = [], {}
    for folder in sorted((TOP / "crates").iterdir()):
        for path in sorted(folder.glob("src/**/*.rt")):
            taken = names_in(path, folder.name)
            for function in functions_of(folder.name, path):
                function = function._replace(body=tuple(function.body))
                functions.append(function)
                calls[function] = set(calls_of(function, taken))
    laws = laws_of(functions, calls)
    called = {call for f in functions if f.contract for call in calls[f]}
    callers = {law: [] for law in laws}
    for f in functions:
        if f.test or (f.crate, f.name) in laws or not (f.contract or (f.crate, f.name) in called):
            continue
        for law in laws & calls[f]:
            callers[law].append(f"{f.crate}::{f.name}")
    for law in sorted(laws):
        if words or not callers[law]:
            print("::".join(law), "", *(callers[law] or ["no caller"]))
    alone = sum(not found for found in callers.values())
    print(f"{len(laws)} laws, {alone} without a caller")
    return 1 if alone else 0


if __name__ == "__main__":
    sys.exit(main(sys.argv[1:]))
