#!/usr/bin/env python3
"""Compares the table of commands in the README with that of the program, `table.rt` of siman_outside, there each usage
with the words of its row, and the made-up command lines of siman_trials with the commands.

Each command of the program needs its row in the README, with the words that usage gives it, in the order of the help;
and each row of the README that is a command by its name has to be one of the program. Each command has to be a word of
the made-up command lines, and the first of one of them. Its last line is `N commands, M
wrong`, with status 1 where something is.
"""
import itertools
import re
import sys
from pathlib import Path

TOP = Path(__file__).resolve().parent.parent
TABLE = TOP / "crates" / "siman_outside" / "src" / "table.rt"
MADE_UP = TOP / "crates" / "siman_trials" / "src" / "random_command_lines.rt"
WORD = r'CommandWord \{\s*name: "([A-Z]+)",\s*often: Often::(\w+),'


def in_readme(usage):
    """A usage as the README has it: words stand bare, and ` ..` behind those of which there may be more."""
    words = usage.removeprefix("siman ").replace("|", r"\|")
    words = re.sub(r"\[([A-Z]+)\]\.\.\.", r"[\1 ..]", words)
    return re.sub(r"<([A-Z]+)>", r"\1", words).replace("...", " ..")


def table_of_program():
    """What stands before the program's table, and each of its rows, of one constant and the next."""
    before, _, behind = TABLE.read_text(encoding="utf-8").partition("const ROWS")
    return before, re.findall(r"^    CommandRow \{$(.*?)^    \},$", behind, flags=re.M | re.S)


def rows_of_program():
    """Each command of the program as the README has its usage: its name and its words."""
    rows = "".join(table_of_program()[1])
    return [in_readme(usage) for usage in re.findall(r'^        usage: "([^"]+)",$', rows, flags=re.M)]


def rows_of_readme():
    """Each command of the README's table; what is only an option is none."""
    section = (TOP / "README.md").read_text(encoding="utf-8").partition("## The commands")[2].partition("\n## ")[0]
    return re.findall(r"^\| `\./siman ([a-z][^`]*)` \|", section, flags=re.M)


def words_of_usage(usage):
    """The words in capitals that a usage names, each with how often it may stand: <W>, [W], <W>... or [W]...."""
    often = {("<", ""): "Once", ("[", ""): "AtMostOnce", ("<", "..."): "OnceOrMore", ("[", "..."): "AnyTimes"}
    return [(word, often[edge, more]) for edge, word, more in re.findall(r"([<\[])([A-Z]+)[>\]](\.\.\.)?", usage)]


def rows_that_differ():
    """Each row of which the usage names another command or other words than the row has: what it says, and what it has."""
    before, rows = table_of_program()
    shared = {name: word for name, *word in re.findall(rf"const (\w+): CommandWord = {WORD}", before)}
    for row in rows:
        head, _, tail = row.partition("words:")
        name, usage = (re.search(rf'{key}: "([^"]+)"', head)[1] for key in ("name", "usage"))
        # Each word is written out there, or is the name of one that rows share.
        named = re.findall(rf"{WORD}|(?:^ +|[\[ ])([A-Z_]+)(?=[,\]])", tail, flags=re.M)
        has = [tuple(shared[one]) if one else (word, often) for word, often, one in named]
        if usage.split()[:2] != ["siman", name] or words_of_usage(usage) != has:
            yield usage, name, has


def commands_not_made_up(program):
    """Each command that no made-up command line has, and each that may not replace a word of one."""
    text = MADE_UP.read_text(encoding="utf-8")
    words, lines = (text.partition(f"const {name}:")[2].partition("\n];")[0] for name in ("WORDS", "LINES"))
    for name in [usage.split()[0] for usage in program]:
        if not re.search(rf'^    "{name}",$', words, flags=re.M):
            yield f"{name} is no word of the made-up command lines"
        if not re.search(rf'&\[\s*"{name}"', lines):
            yield f"no made-up command line begins with {name}"


def main():
    program, readme, wrong = rows_of_program(), rows_of_readme(), 0
    for usage, name, has in rows_that_differ():
        print(f"the usage `{usage}` is not that of {name} with {has}")
        wrong += 1
    for own, other in itertools.zip_longest(program, readme):
        if own != other:
            print(f"the program has `{own}` where the README has `{other}`")
            wrong += 1
    for what in commands_not_made_up(program):
        print(what)
        wrong += 1
    print(f"{len(program)} commands, {wrong} wrong")
    return 1 if wrong or not program else 0


if __name__ == "__main__":
    sys.exit(main())
