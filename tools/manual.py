#!/usr/bin/env python3
"""Compares docs/siman.1 and the completions with the program's table of commands and the table of the README.

They are made of these tables alone, so they say of each command what the help and the README say of it. The last line
is `N files, M wrong`, with status 1 where one is not what the tables make of it. A command that is added needs
`--write`, and nothing else.

    python3 tools/manual.py                     compares
    python3 tools/manual.py --write             makes the files anew
    python3 tools/manual.py --program PROGRAM   compares the manual with the help of the built program too
"""
import argparse
import re
import subprocess
import sys
from pathlib import Path

sys.dont_write_bytecode = True

from words import manual, shells, table

FOLDER = Path("completions")


def arguments():
    form = argparse.RawDescriptionHelpFormatter
    parser = argparse.ArgumentParser(description=__doc__, formatter_class=form)
    parser.add_argument("--write", action="store_true", help="makes the files anew")
    parser.add_argument("--program", type=Path, metavar="PROGRAM", help="compares the help of this program too")
    return parser.parse_args()


def made_files(program):
    """What the tables make of each file, by its name."""
    return {
        Path("docs", "siman.1"): manual.page(program, table.values_of),
        FOLDER / "siman.bash": shells.bash(program, table.values_of),
        FOLDER / "_siman": shells.zsh(program, table.values_of),
        FOLDER / "siman.fish": shells.fish(program, table.values_of),
    }


def words_of(text):
    """The words of a text, wherever its lines are broken."""
    return " ".join(text.split())


def help_of(path, *command):
    """The help of a built program, or that of one of its commands."""
    words = [str(path.resolve()), "help", *command]
    return subprocess.run(words, check=True, capture_output=True, text=True).stdout


def wrong_help(program, path):
    """Where the help of a built program does not say what the tables say."""
    whole = help_of(path)
    for text in [program.about, *(text for _, text in program.statuses)]:
        if words_of(text) not in words_of(whole):
            yield f"the help does not say: {text}"
    listed = re.findall(r"^  ([a-z]+) ", whole.partition("Commands:\n")[2].partition("\n\n")[0], re.M)
    if listed != [*(command.name for command in program.commands), "help"]:
        yield f"the help lists {' '.join(listed)}"
    for command in program.commands:
        told = words_of(help_of(path, command.name))
        for text in [command.about, command.example, *(word.about for word in command.words)]:
            if words_of(text) not in told:
                yield f"the help of {command.name} does not say: {text}"


def main():
    given = arguments()
    program = table.program()
    files, wrong = made_files(program), 0
    for name, text in files.items():
        path = table.TOP / name
        if given.write:
            path.parent.mkdir(exist_ok=True)
            path.write_text(text, encoding="utf-8")
        elif not path.is_file() or path.read_text(encoding="utf-8") != text:
            print(f"{name} is not what the tables make of it: python3 tools/manual.py --write makes it anew")
            wrong += 1
    for why in wrong_help(program, given.program) if given.program else ():
        print(why)
        wrong += 1
    print(f"{len(files)} files, {wrong} wrong")
    return 1 if wrong else 0


if __name__ == "__main__":
    sys.exit(main())
