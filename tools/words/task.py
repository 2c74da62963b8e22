"""What the words of a command line ask for, as far as whoever calls the program must know before it runs: which of them
name files that it opens, and whether a file is made. All of it is read from the table of commands.
"""
from words import table


def is_option(word):
    return len(word) > 1 and word.startswith("-")


def command_of(words):
    """The command that the first word names, or None."""
    named = [command for command in table.rows() if words and command.name == words[0]]
    return named[0] if named else None


def least_names(command):
    """How many names the command needs at least. Where many stand before the file that is made, as those of `join`, two
    of them are needed, or one and a word behind the file.
    """
    needed = [word for word in command.words if word.is_needed]
    return len(needed) + any(word.is_many and not word.is_made for word in needed[:-1])


def takes_more(command):
    """Whether further names or words with a key may stand behind the names that the command needs."""
    return any(word.is_many for word in command.words) or any("=" in choice for choice in command.choices)


def made_by(command):
    """The word of the file that the command makes, or None."""
    return next((word for word in command.words if word.is_made), None) if command else None


def makes_file(words):
    """Whether these words make a file, if all goes well. `--force`, or `--json` of a command that takes it, may stand
    anywhere among them. Where the file need not be named, as that of `plan`, it is made if it is.
    """
    command = command_of(words)
    made = made_by(command)
    if made is None or any(is_option(word) and word not in command.choices for word in words[1:]):
        return False
    names = [word for word in words[1:] if not is_option(word)]
    least = least_names(command) if made.is_needed else len(command.words)
    return len(names) >= least if takes_more(command) else len(names) == least


def files_in(words):
    """The places of the words that name files which the program opens, where they make none and need not. `--json`, or `--prose` in
    its place, and `--torn` may stand once each, anywhere among those of a command that takes them.
    """
    command = command_of(words)
    made = made_by(command)
    if command is None or (made and made.is_needed) or makes_file(words):
        return []
    choices = {*command.choices} - {"--force"}
    places = [place for place in range(1, len(words)) if words[place] not in choices]
    behind = [words[place] for place in places]
    apart = [word for word in words[1:] if word in choices]
    torn = apart.count("--torn")
    if torn > 1 or len(apart) - torn > 1 or any(map(is_option, behind)) or behind.count("-") > 1:
        return []
    least = sum(word.is_needed for word in command.words)
    if len(behind) < least or (not takes_more(command) and len(behind) > len(command.words)):
        return []
    return places[: sum(word.is_file for word in command.words)]
