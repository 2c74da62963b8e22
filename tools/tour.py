#!/usr/bin/env python3
"""Takes the tour of the pages: runs every command that they show, and follows every link between them.

    python3 tools/tour.py [PAGE ..] [--program PROGRAM | --read] [--top FOLDER]

A command is a line that begins with `$ ` in a block of a page. The commands of a page are run by bash in their order,
in a copy of the repository's tree with the built program, and what each prints, on standard output and on standard
error, is compared with the lines that stand below it. A line `..` stands for lines that are left out, one or more, and
` ..` at the end of a line for the rest of it. The README is taken as a newcomer would, in a fresh copy; in the copy of
any other page the files of examples/ are made. A link has to lead to a file of the tree, and to a heading where it
names one; and a source that the text names, as `laws.rt` or `tools/tour.py`, has to be there, with the folders before
its name. The lines of a block of `rust` have to stand in a source of crates/siman_tests/src/uses, in their order, with what a
line `..` stands for between them. Any other block without `$ `, and a link to another site, are not looked at. With
`--read` no command is run, so no program is needed: links, sources and quoted lines alone.

Each command, link and name that is wrong is told with its page and line; the last line is `N tried, M wrong`, with
status 1 where something is. Nothing is written outside of temporary copies.
"""
import argparse
import itertools
import os
import re
import shutil
import subprocess
import sys
import tempfile
from pathlib import Path
from typing import NamedTuple

sys.dont_write_bytecode = True

from cases.trials import first_lines

TOP = Path(__file__).resolve().parent.parent
PROGRAM = Path("crates", "siman", "out", "siman")
EXAMPLES_OF_LAWS = Path("crates", "siman_tests", "src", "uses")
LONGEST = 60  # seconds for a command
# A source that a page names. A name in capitals stands for many.
SOURCE = r"`([\w./-]+\.(?:rt|antt|py|sh|c|cases|edit|md|txt))`"
FOR_MANY = {"NAME", "CRATE", "PAGE"}


class Command(NamedTuple):
    """A command of a page, the number of its line, and the lines that it is to print."""

    line: int
    text: str
    lines: list


class Wrong(NamedTuple):
    page: Path
    line: int
    why: str


def arguments():
    form = argparse.RawDescriptionHelpFormatter
    parser = argparse.ArgumentParser(description=__doc__, formatter_class=form)
    parser.add_argument("pages", nargs="*", metavar="PAGE", help="pages, from the top; all of them if none is given")
    parser.add_argument("--program", type=Path, help=f"{PROGRAM} if not given")
    parser.add_argument("--top", type=Path, default=TOP, help="the repository; the one of this tool if not given")
    parser.add_argument("--read", action="store_true", help="runs no command, and needs no program")
    given = parser.parse_args()
    given.program = (given.program or given.top / PROGRAM).resolve()
    if not given.read and not os.access(given.program, os.X_OK):
        parser.error(f"there is no program {given.program}: ./siman --build builds it")
    return given


def files_of(top):
    """The files of the tree: those that git knows, and those that it would take in; without git, all but what is built."""
    words = ["git", "-C", str(top), "ls-files", "-z", "--cached", "--others", "--exclude-standard"]
    try:
        names = subprocess.run(words, check=True, capture_output=True, text=True).stdout.split("\0")
    except (OSError, subprocess.CalledProcessError):
        names = [str(it.relative_to(top)) for it in top.rglob("*") if not {".git", "out"} & set(it.relative_to(top).parts)]
    return sorted(Path(name) for name in set(names) if name and (top / name).is_file())


def copy_tree(top, files, program, copy):
    """Copies the tree, with the program in its place: newer than each source, so that the wrapper runs it."""
    for name in [*files, PROGRAM]:
        (copy / name).parent.mkdir(parents=True, exist_ok=True)
    for name in files:
        shutil.copy2(top / name, copy / name)
    shutil.copy(program, copy / PROGRAM)


def copy_for_page(tree, files, folder):
    """A copy of these files of a tree, in which a page is tried; its crates stand beside it, as nobody changes them."""
    for name in files:
        if name.parts[0] != "crates":
            (folder / name).parent.mkdir(parents=True, exist_ok=True)
            shutil.copy2(tree / name, folder / name)
    (folder / "crates").symlink_to(tree / "crates")


def make_examples(tree):
    """Makes the files of examples/, and tells which these are."""
    examples = tree / "examples"
    before = set(examples.rglob("*"))
    if (examples / "make").is_file():
        subprocess.run(["sh", str(examples / "make")], check=True)
    return sorted(path.relative_to(tree) for path in set(examples.rglob("*")) - before)


def blocks_and_text(page):
    """The lines of a page with their numbers, each with the number of the block that it stands in, 0 outside."""
    block, inside = 0, False
    for number, line in enumerate(page.splitlines(), start=1):
        if line.lstrip().startswith("```"):
            inside = not inside
            block += inside
            continue
        yield number, line, block if inside else 0


def commands_of(page):
    """The commands of a page, in their order."""
    found, of_block = [], 0
    for number, line, block in blocks_and_text(page):
        if block and line.startswith("$ "):
            found.append(Command(number, line[2:], []))
            of_block = block
        elif block and block == of_block:
            if found[-1].text.endswith("\\"):
                found[-1] = found[-1]._replace(text=found[-1].text[:-1] + line.removeprefix("> "))
            else:
                found[-1].lines.append(line)
    return found


def is_line(told, came):
    """Whether a line of a page tells the line that came. How many bytes a system keeps for a socket is its own."""
    if told.startswith(("# station ", "station records=")):
        told, came = (re.sub(r" buffer=\d+$", "", line) for line in (told, came))
    return came.startswith(told[:-2]) if told.endswith(" ..") else came == told


def are_lines(told, came):
    return len(told) == len(came) and all(map(is_line, told, came))


def agree(told, came):
    """Whether the lines of a page, some of them left out, tell the lines that came."""
    parts = [list(part) for is_gap, part in itertools.groupby(["", *told, ""], lambda line: line == "..") if not is_gap]
    first, last = parts[0][1:], parts[-1][:-1]
    if len(parts) == 1:
        return are_lines(told, came)
    place = len(first)
    if not are_lines(first, came[:place]):
        return False
    for part in parts[1:-1]:
        places = range(place + 1, len(came) - len(part) + 1)
        found = next((at for at in places if are_lines(part, came[at : at + len(part)])), None)
        if found is None:
            return False
        place = found + len(part)
    return len(came) - len(last) > place and are_lines(last, came[len(came) - len(last) :])


def first_difference(told, came):
    """The first line in which they differ, where none is left out before it."""
    for own, other in itertools.zip_longest(told, came):
        if own is None:
            return f"it also prints `{other}`"
        if own == "..":
            return "what it prints is not that, with the lines between left out"
        if other is None:
            return f"it does not print `{own}`"
        if not is_line(own, other):
            return f"it prints `{other}` where the page has `{own}`"
    raise ValueError("they do not differ")


def run(text, folder):
    """The lines that a command prints in a folder, on both streams, as they come."""
    done = subprocess.run(
        ["bash", "-c", text], cwd=folder, stdin=subprocess.DEVNULL, stdout=subprocess.PIPE, stderr=subprocess.STDOUT,
        timeout=LONGEST,
    )  # fmt: skip
    return done.stdout.decode("utf-8", "backslashreplace").splitlines()


def without_second_lines(came):
    """The lines that came, without the second line of each fault."""
    return first_lines("\n".join(came).encode()).decode().split("\n")


def wrong_commands(name, commands, folder):
    """Those commands of a page that do not print what the page says. It may leave out the second lines of faults."""
    for command in commands:
        try:
            came = run(command.text, folder)
        except subprocess.TimeoutExpired:
            yield Wrong(name, command.line, f"`{command.text}`: it has not ended after {LONGEST} seconds")
            continue
        if not agree(command.lines, came) and not agree(command.lines, without_second_lines(came)):
            yield Wrong(name, command.line, f"`{command.text}`: {first_difference(command.lines, came)}")


def quotes_of(page):
    """The blocks of Rust of a page: the number of the first line of each, and its lines."""
    for match in re.finditer(r"^```rust\n(.*?)^```$", page, re.MULTILINE | re.DOTALL):
        yield page.count("\n", 0, match.start()) + 2, match[1].splitlines()


def is_quoted(quote, source):
    """Whether the parts of a quote stand in a source, one behind the other."""
    place = 0
    for part in "\n".join(quote).split("\n..\n"):
        at = f"\n{source}".find(f"\n{part}\n", place)
        if at < 0:
            return False
        place = at + len(part)
    return True


def wrong_quotes(tree, name, quotes):
    """Those blocks of Rust of a page that stand in no example."""
    sources = [path.read_text(encoding="utf-8") for path in sorted((tree / EXAMPLES_OF_LAWS).glob("*.rt"))]
    for line, quote in quotes:
        if not any(is_quoted(quote, source) for source in sources):
            yield Wrong(name, line, f"no source of {EXAMPLES_OF_LAWS} has this")


def links_of(page):
    """Where the links of a page lead, with their lines; links to other sites are left out."""
    for number, line, block in blocks_and_text(page):
        if block:
            continue
        for target in re.findall(r"\]\(([^()\s]+)\)", re.sub(r"(`+).+?\1", "code", line)):
            if not re.match(r"[a-z]+:", target):
                yield number, target


def sources_of(page):
    """The sources that a page names, with their lines."""
    for number, line, block in blocks_and_text(page):
        if not block:
            for name in re.findall(SOURCE, line):
                if not FOR_MANY & set(re.split(r"\W", name)):
                    yield number, name


def headings_of(page):
    """The names under which links reach the headings of a page: as GitHub makes them."""
    names, seen = set(), {}
    for _, line, block in blocks_and_text(page):
        heading = not block and re.match(r"#{1,6}\s+(.*?)\s*#*$", line)
        if heading:
            words = re.sub(r"\[([^\]]*)\]\([^)]*\)", r"\1", heading[1]).lower()
            name = re.sub(r"[^\w\- ]", "", words).replace(" ", "-")
            seen[name] = seen.get(name, -1) + 1
            names.add(f"{name}-{seen[name]}" if seen[name] else name)
    return names


def wrong_link(top, files, name, target):
    """What is wrong with a link of a page, if anything is."""
    path, _, heading = target.partition("#")
    found = Path(os.path.normpath(name.parent / path)) if path else name
    if found not in files and not any(found in file.parents for file in files):
        return f"the link {target} leads to no file"
    if heading and heading not in headings_of((top / found).read_text(encoding="utf-8")):
        return f"the link {target} leads to no heading of {found}"
    return None


def wrong_links(top, files, name, links):
    """Those links of a page that do not lead where they should."""
    for line, target in links:
        why = wrong_link(top, files, name, target)
        if why:
            yield Wrong(name, line, why)


def wrong_sources(files, name, sources):
    """Those sources that a page names and that are not there."""
    paths = [f"/{file}" for file in files]
    for line, source in sources:
        if not any(path.endswith(f"/{source}") for path in paths):
            yield Wrong(name, line, f"there is no file {source}")


def tour_of(pages, given, files, tree):
    """Of each page how many commands, links and names were tried, and those that are wrong."""
    made = []
    if not given.read:
        copy_tree(given.top, files, given.program, tree)
        made = make_examples(tree)
    for name in pages:
        page = (given.top / name).read_text(encoding="utf-8")
        links, sources = list(links_of(page)), list(sources_of(page))
        commands = [] if given.read else commands_of(page)
        quotes = list(quotes_of(page))
        wrong = [*wrong_links(given.top, set(files), name, links), *wrong_sources(files, name, sources)]
        wrong.extend(wrong_quotes(given.top, name, quotes))
        if commands:
            with tempfile.TemporaryDirectory() as folder:
                copy_for_page(tree, files if name == Path("README.md") else [*files, *made], Path(folder))
                wrong.extend(wrong_commands(name, commands, folder))
        yield sum(map(len, [commands, links, sources, quotes])), sorted(wrong)


def main():
    given = arguments()
    files = files_of(given.top)
    pages = [Path(page) for page in given.pages] or [name for name in files if name.suffix == ".md"]
    tried = wrong = 0
    with tempfile.TemporaryDirectory() as tree:
        for of_page, found in tour_of(pages, given, files, Path(tree)):
            for page, line, why in found:
                print(f"{page}:{line}: {why}")
            tried, wrong = tried + of_page, wrong + len(found)
    print(f"{tried} tried, {wrong} wrong")
    return 1 if wrong or not tried else 0


if __name__ == "__main__":
    sys.exit(main())
