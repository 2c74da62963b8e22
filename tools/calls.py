#!/usr/bin/env python3
"""Compares the table of the public calls in docs/maintainers/PROMISES.md with the code.

A public call is a `pub fn` that a crate's lib.rt exports, by itself or with its type, or a method of a trait that it
exports. For each the script reads from the code what it refuses with: the variants of the fault that its return type
names, `None` of an Option, `false` of nothing else. The many of `Fault`, which commands have, stand once, in the row
`Fault` of siman_outside; a call that refuses with it has its name. It fails where a call has no row under its crate, has more than one,
where a row names a call that is not there, or where what a row says of refusals is not what the code says. What stands
after a refusal is written by hand.

    python3 tools/calls.py           compares, and ends with `N calls, M wrong`
    python3 tools/calls.py --rows    prints a row for each call, by crate
"""
import argparse
import re
import sys
from pathlib import Path

TOP = Path(__file__).resolve().parent.parent
PAGE = TOP / "docs" / "maintainers" / "PROMISES.md"
# Crates that offer no calls to others: programs and tests.
NO_LIBRARIES = {
    "siman",
    "siman_cases",
    "siman_hostile",
    "siman_refusals",
    "siman_tests",
    "siman_trials",
}
NONE = "nothing"
# The fault of commands, and the crate whose table lists its variants.
SHARED, LISTED_IN = "Fault", "siman_outside"


def crates():
    for line in (TOP / "crates.txt").read_text(encoding="utf-8").splitlines():
        name = line.split(":")[0].strip()
        if name and not name.startswith("#") and name not in NO_LIBRARIES:
            yield name


def sources(crate):
    folder = TOP / "crates" / crate / "src"
    paths = sorted(folder.rglob("*.rt"))
    return {path.relative_to(folder).with_suffix("").as_posix(): path.read_text(encoding="utf-8") for path in paths}


def exported(files, module="lib"):
    """The names that a module exports of its own modules, each with the module where it stands."""
    names = set()
    folder = "" if module == "lib" else f"{module}/"
    for path, braced, single in re.findall(r"^pub use ((?:\w+::)*\w+)::(?:\{([^}]*)\}|(\w+));", files[module], re.MULTILINE):
        inner = folder + path.removeprefix("crate::").replace("::", "/")
        within = exported(files, inner) if inner in files else set()
        for name in re.findall(r"\w+", braced or single):
            names |= {it for it in within if it[1] == name} or {(inner, name)}
    return names


def blocks(text, head):
    """Each block whose head matches, with the match: from its brace to the end of its line of `}` alone."""
    for match in re.finditer(head, text, re.MULTILINE):
        end = re.compile(r"^\}", re.MULTILINE).search(text, match.end())
        yield match, text[match.end() : end.start() if end else len(text)]


SIGNATURE = r"fn (\w+)(?:<[^(]*>)?\((?:[^()]|\([^()]*\))*\)(?: -> ([^{;]*?))?(?=\s*(?:where|requires|ensures|//|\{|;))"


def signatures(text, indent, public):
    """The functions that begin at an indent, with their return types."""
    word = "pub " if public else ""
    for match in re.finditer(rf"^{indent}{word}{SIGNATURE}", text, re.MULTILINE | re.DOTALL):
        yield match.group(1), re.sub(r"\s+", " ", match.group(2) or "").strip()


def calls_of(crate):
    """The public calls of a crate, by name, with their return types."""
    files = sources(crate)
    names = exported(files)
    calls = {}
    for module, text in files.items():
        for name, returned in signatures(text, "", True):
            if (module, name) in names or module == "lib":
                calls[name] = returned
        for match, body in blocks(text, r"^impl(?:<[^{]*?>)? (\w+)(?:<[^{]*>)?(?:\s+where[^{]*)? \{"):
            if (module, match.group(1)) in names or match.group(1) in {name for _, name in names}:
                for name, returned in signatures(body, "    ", True):
                    calls[f"{match.group(1)}::{name}"] = returned
        for match, body in blocks(text, r"^pub trait (\w+)[^{]*\{"):
            if (module, match.group(1)) in names:
                for name, returned in signatures(body, "    ", False):
                    calls[f"{match.group(1)}::{name}"] = returned
    return calls


def faults():
    """The variants of each public fault of all crates, in their order."""
    found = {"AllocError": ["Memory"], "ReadFailed": ["ReadFailed"], "WriteFailed": ["WriteFailed"]}
    for crate in crates():
        for text in sources(crate).values():
            for match, body in blocks(text, r"^pub enum (\w+)[^{]*\{"):
                if re.search(r"Fault|Stop", match.group(1)):
                    found[match.group(1)] = variants(body)
    return found


def variants(body):
    found = []
    for name, given in re.findall(r"^    ([A-Z]\w*)(\([^)]*\)| \{[^}]*\})?,$", body, re.MULTILINE | re.DOTALL):
        inner = re.match(r"\((?:\w+::)*([A-Z]\w*(?:Fault|F))(?:,|\)|<)", given or "")
        found.append(f"{name}({inner.group(1)})" if inner else name)
    return found


def refusals(returned, known):
    """What a call refuses with, by its return type."""
    match = re.match(r"(io::)?Result<(.*)>$", returned)
    if match and match.group(1):
        return "io::Error"
    if match:
        fault = re.split(r"[ ,<(]", last_argument(match.group(2)).strip())[0]
        return fault if fault == SHARED else ", ".join(known.get(fault, [fault]))
    return "None" if returned.startswith("Option<") else NONE


def last_argument(arguments):
    depth, start = 0, 0
    for place, letter in enumerate(arguments):
        depth += letter in "<(["
        depth -= letter in ">)]"
        if letter == "," and depth == 0:
            start = place + 1
    return arguments[start:]


def rows_of(page):
    """Of each crate: the rows of its table, each with its calls and what it says of refusals."""
    found = {}
    for section in page.partition("\n## The public calls")[2].split("\n### ")[1:]:
        crate = section.split("\n")[0].strip("` ")
        rows = re.findall(r"^\| (`.*?) \| (.*?) \| (.*?) \|$", section, re.MULTILINE)
        found[crate] = [(re.findall(r"`([^`]*)`", calls), refused.replace("`", ""), stands) for calls, refused, stands in rows]
    return found


def wrongs(crate, rows, known):
    """What is wrong with the rows of a crate."""
    calls = calls_of(crate)
    listed = [call for names, _, _ in rows for call in names]
    needed = [*calls, SHARED] if crate == LISTED_IN else calls
    yield from (f"{crate}: {call} has no row" for call in needed if call not in listed)
    yield from (f"{crate}: {call} has more than one row" for call in set(listed) if listed.count(call) > 1)
    for names, refused, stands in rows:
        for call in names:
            if (call, crate) == (SHARED, LISTED_IN):
                if refused != ", ".join(known[SHARED]):
                    yield f"{crate}: {SHARED} is {', '.join(known[SHARED])}, and its row says {refused}"
            elif call not in calls:
                yield f"{crate}: there is no public call {call}"
            elif refused != refusals(calls[call], known):
                yield f"{crate}: {call} refuses with {refusals(calls[call], known)}, and its row says {refused}"
        if refused != NONE and not stands.strip():
            yield f"{crate}: {', '.join(names)}: what stands after a refusal is missing"


def main():
    form = argparse.RawDescriptionHelpFormatter
    parser = argparse.ArgumentParser(description=__doc__, formatter_class=form)
    parser.add_argument("--rows", action="store_true", help="print a row for each call")
    known = faults()
    if parser.parse_args().rows:
        for crate in crates():
            print(f"\n## {crate}\n")
            for call, returned in calls_of(crate).items():
                print(f"| `{call}` | {refusals(returned, known)} | |")
        return 0
    rows = rows_of(PAGE.read_text(encoding="utf-8"))
    tried, wrong = 0, []
    for crate in crates():
        tried += len(calls_of(crate))
        wrong += wrongs(crate, rows.get(crate, []), known)
    wrong += [f"there is no library {crate}" for crate in rows if crate not in crates()]
    for line in wrong:
        print(line)
    print(f"{tried} calls, {len(wrong)} wrong")
    return 1 if wrong else 0


if __name__ == "__main__":
    sys.exit(main())
