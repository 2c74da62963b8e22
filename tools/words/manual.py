"""The page of the manual, siman(1), in the language of man."""
import re
import textwrap

HEAD = r'.\" Made by tools/manual.py from the table of commands and that of the README: not to be changed by hand.'
FORMATS = """\
.TP
.B .dsrc
A recording: the log of each station, with what it sent and received, and which
states it told.
.TP
.B .dsct
A certificate: a sequence of the entries of a recording.
.TP
.B .script
A script: a text that describes an exercise.
.PP
The names are a custom, and no command looks at them.
A file that a command makes is written beside its name, as
.IR NAME .part,
and takes the name in one step at the end."""


def plain(text):
    """A text in the language of man."""
    return text.replace("\\", r"\e").replace("-", r"\-").replace("'", r"\(aq").replace("`", r"\(ga")


def lines(text):
    """A text in lines, none of which may begin as a request does."""
    broken = textwrap.wrap(text, 80, break_long_words=False, break_on_hyphens=False)
    return "\n".join(rf"\&{line}" if line.startswith(".") else line for line in broken)


def prose(text):
    """A paragraph of a page: links by their words, and what is code in bold."""
    text = re.sub(r" ?\(\[[^\]]*\]\([^)]*\)\)", "", text)
    text = re.sub(r"\[([^\]]*)\]\([^)]*\)", r"\1", text)
    text = re.sub(r"\*([^*]+)\*", r"\1", text)
    parts = re.split(r"`([^`]+)`", text)
    told = "".join(rf"\fB{plain(part)}\fR" if k % 2 else plain(part) for k, part in enumerate(parts))
    return lines(told.strip() + ("" if told.rstrip().endswith(".") else "."))


def usage_of(usage):
    """How a command is called: words that stand for others in italics, all else in bold."""
    words = re.split(r"([A-Z]{2,})", f"siman {usage}".replace(" ..", "..."))
    told = "".join(rf"\fI{word}\fR" if k % 2 else rf"\fB{plain(word)}\fR" for k, word in enumerate(words) if word)
    return re.sub(r"\\fB([\[\]. |]+)\\fR", r"\1", told)


def paragraph(tag, text):
    return f".TP\n{tag}\n{text}"


def command_text(command):
    """What the page says of a command."""
    words = "\n".join(paragraph(rf"\fI{word.name}\fR", prose(word.about)) for word in command.words)
    parts = [paragraph(usage_of(command.usage), prose(command.about)), ".IP", prose(f"The answer is {command.answer}")]
    return "\n".join([*parts, *([".RS", words, ".RE"] if words else [])])


def page(program, values_of):
    """The whole page; `values_of` tells which names the value of a key may have."""
    keys = {choice.partition("=")[0] for command in program.commands for choice in command.choices if "=" in choice}
    names = [
        paragraph(rf"\fB{key}=\fR", lines(", ".join(plain(value) for value in values_of(key))))
        for key in sorted(keys) if values_of(key)
    ]  # fmt: skip
    examples = [program.trial, *(command.example for command in program.commands)]
    parts = {
        "NAME": r"siman \- runs, shows and judges exercises of training simulators",
        "SYNOPSIS": "\n.br\n".join(usage_of(command.usage) for command in program.commands)
        + "\n.br\n\\fBsiman\\fR < \\fISCRIPT\\fR\n.br\n\\fBsiman help\\fR [\\fICOMMAND\\fR]",
        "DESCRIPTION": "\n.PP\n".join(prose(text.strip()) for text in program.about.split(". ")),
        "COMMANDS": "\n".join(map(command_text, program.commands)),
        "OPTIONS": "\n".join([
            paragraph(r"\fB\-h\fR, \fB\-\-help\fR, \fBhelp\fR [\fICOMMAND\fR]", "Prints help, and ends."),
            paragraph(r"\fB\-V\fR, \fB\-\-version\fR", "Prints the version, and ends."),
            paragraph(r"\fB\-\-json\fR", "Anywhere behind review, log, count, why or plan: each line is an object of JSON."),
            paragraph(r"\fB\-\-prose\fR", "Anywhere behind review, in the place of \\-\\-json: sentences."),
            paragraph(r"\fB\-\-torn\fR", "Anywhere behind a command that reads a recording to tell of it: what stands whole of a torn one is read."),
        ]),
        "NAMES": "Values that words with a key may have:\n" + "\n".join(names),
        "FILES": FORMATS,
        "EXIT STATUS": "\n".join(paragraph(rf"\fB{status}\fR", prose(text)) for status, text in program.statuses),
        "EXAMPLES": ".EX\n" + "\n".join(map(plain, examples)) + "\n.EE",
        "STANDARDS": lines(r"IEEE Std 1278.1\-2012, Distributed Interactive Simulation, Application Protocols."),
    }  # fmt: skip
    head = f'{HEAD}\n.TH SIMAN 1 "" "siman {program.version}" "User Commands"\n.nh\n.ad l\n'
    return head + "\n".join(f".SH {name}\n{text}" for name, text in parts.items()) + "\n"
