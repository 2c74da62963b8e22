"""The commands of the program, read from their table in siman_outside, and from the table of the README."""
import ast
import re
from pathlib import Path
from typing import NamedTuple

import commands

TOP = Path(__file__).resolve().parent.parent.parent
STRING = r'"(?:[^"\\]|\\.)*"'
# A word of a row, as the code has it.
WORD = rf"CommandWord \{{\s*name: ({STRING}),\s*often: Often::(\w+),\s*about: ({STRING}),?\s*\}}"
# The words of a key whose values have names, and where the code names them.
NAMED = {
    "fate": ("crates/exercise_review/src/fate.rt", r'Fate::\w+ => "([a-z-]+)"', []),
    "kind": ("crates/dis_records/src/kind.rt", r'Kind::\w+ => "([a-z-]+)"', ["told", "other"]),
}


class Word(NamedTuple):
    """A word that a command takes: its name, whether it may be left out or stand more than once, what it is, whether it
    may stand more than once, each time for another thing, and whether it must stand."""

    name: str
    is_repeated: bool
    about: str
    is_many: bool = False
    is_needed: bool = True

    @property
    def is_made(self):
        """Whether it names a file that the command makes, which must not be there yet."""
        return "must not be there yet" in self.about

    @property
    def is_file(self):
        """Whether it names a file."""
        return self.about.startswith("The file ")


class Command(NamedTuple):
    """A command: its name, its usage, what it does, what it answers, an example, its words, and the words with a key,
    or with dashes, that may stand behind those.
    """

    name: str
    usage: str
    about: str
    answer: str
    example: str
    words: list
    choices: list


class Program(NamedTuple):
    version: str
    about: str
    statuses: list
    trial: str
    commands: list


def string(text):
    """What a string of the code says, which may be broken over lines."""
    return ast.literal_eval(f'"""{text[1:-1]}"""')


def constant(text, name):
    return string(re.search(rf"const {name}: &str =\s*({STRING})", text)[1])


def answers():
    """What each command answers, by its name, as the README's table says; and the whole program, under no name."""
    section = (TOP / "README.md").read_text(encoding="utf-8").partition("## The commands")[2].partition("\n## ")[0]
    rows = re.findall(r"^\| `\./siman ?([a-z]*)[^`]*` \| (.*) \| [^|]* \|$", section, flags=re.M)
    return {name: text.replace(r"\|", "|") for name, text in rows}


def values_of(key):
    """The names that the value of a key may have; none where it is a number or an address."""
    if key not in NAMED:
        return []
    path, form, further = NAMED[key]
    return re.findall(form, (TOP / path).read_text(encoding="utf-8")) + further


def choices_of(usage, words):
    """The words that may stand behind the others: those of the usage in brackets, and those that a filter may be."""
    behind = [choice for part in re.findall(r"\[([^\]]+)\]", usage) for choice in part.split("|")]
    keys = [key for word in words if word.name == "FILTER" for key in re.findall(r"\b[a-z]+=[A-Z:/]+", word.about)]
    keys += [key.split()[0] for word in words if word.name == "WORD" for key in re.split("[:;] ", word.about)[1].split(", ")]
    names = {word.name for word in words}
    return keys + [choice for choice in behind if choice.split()[0] not in names]


def word_of(name, often, about):
    is_needed = often in ("Once", "OnceOrMore")
    return Word(string(name), often != "Once", string(about), often in ("OnceOrMore", "AnyTimes"), is_needed)


def words_of(row, shared):
    """The words of a row: each stands there, or is one of those that rows share, by its name."""
    parts = re.findall(rf"{WORD}|\b([A-Z_]+)\b", row)
    return [shared[name] if name else word_of(*parts) for *parts, name in parts]


def rows():
    """The commands of the table, in its order, without what the README says that they answer."""
    before, found = commands.table_of_program()
    shared = {name: word_of(*parts) for name, *parts in re.findall(rf"const (\w+): CommandWord = {WORD};", before)}
    usages = [usage.replace(r"\|", "|") for usage in commands.rows_of_program()]
    for row, usage in zip(found, usages, strict=True):
        head, _, tail = row.partition("words:")
        keys = ("name", "about", "example")
        name, about, example = (string(re.search(rf"{key}: ({STRING})", head)[1]) for key in keys)
        words = words_of(tail, shared)
        example = example.removeprefix("Example:").strip()
        yield Command(name, usage, about, "", example, words, choices_of(usage, words))


def program():
    """The program, as its table of commands says."""
    answer = answers()
    found = [command._replace(answer=answer[command.name]) for command in rows()]
    texts = (commands.TABLE.parent / "usage.rt").read_text(encoding="utf-8")
    statuses, _, trial = constant(texts, "STATUSES").partition("\n\nExamples:\n")
    told = [line.split(maxsplit=1) for line in statuses.splitlines()[1:]]
    return Program(constant(texts, "VERSION"), constant(texts, "ABOUT"), told, trial.strip(), found)
