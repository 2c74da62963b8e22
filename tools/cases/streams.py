"""Files that cannot be opened or read, and standard streams that are full, closed or not read."""
import os
import pty
from pathlib import Path

import pages
from cases import texts
from cases.examples import (
    PLAN_LINES, PLAN_SOURCE, README_ANSWER, README_DATAGRAM, TEXTS_REPORT, TOP, WORKED_ANSWER, WORKED_LINE, WORKED_SCRIPT,
)  # fmt: skip
from cases.lives import torn
from cases.trials import UNWRITTEN, Case, Some, Verdict, told
from pages import Outcome
from pages.drawings import answer_to_chart

CAPTURES = TOP / "examples" / "captures"
# What `import` says of host3.pcap there, for 2:3 at 10.77.0.3.
IMPORTED = b"imported packets=32 records=12 sent=3 received=9 echoes=0 other=20 elsewhere=0 passing=0 shared=0 fragments=0 cut=0 dropped=0 bundled=0\n"


def try_opening(trials, examples):
    good, certificate, _ = examples
    bad, bad_steps = trials.file(b"DSRC0003"), trials.file(b"DSCT0002")
    missing, also, folder, under = "none.dsrc", "none at all é.dsct", "examples", f"{good}/under"
    for name in [missing, also, "", "./-", "x" * 300, "a/" * 3000, under, folder]:
        reason = {under: "cannot be opened", folder: "is a directory"}.get(name)
        told = pages.unopened(name, reason)
        trials.expect(["show", name], told)
        trials.expect(["check", name, certificate], told)
        trials.expect(["check", good, name], told)
        trials.expect(["check", bad, name], told)
        trials.expect(["check", name, missing], told)
    trials.expect(["check", missing, also], pages.unopened(missing))
    trials.expect(["check", also, missing], pages.unopened(also))
    trials.expect(["check", missing, bad_steps], pages.unopened(missing))
    trials.expect(["check", bad, bad_steps], pages.fault("recording: magic at 0"))
    trials.expect(["check", good, good], pages.fault("certificate: magic at 0"))
    trials.expect(["check", certificate, good], pages.fault("recording: magic at 0"))
    trials.expect(["show", f"{trials.folder}/{good}"], pages.answer_to_show((trials.folder / good).read_bytes()))


def try_unreadable(trials, examples):
    good, certificate, _ = examples
    if os.geteuid() == 0:
        trials.skipped.append("files that may not be read: root reads them anyway")
        return
    closed = trials.file((trials.folder / good).read_bytes())
    os.chmod(trials.folder / closed, 0)
    told = pages.unopened(closed, "permission denied")
    trials.expect(["show", closed], told)
    trials.expect(["check", closed, certificate], told)
    trials.expect(["check", good, closed], told)


def answers(trials, examples):
    """Words and what is given on standard input, with the usual outcome: an answer of each command."""
    good, certificate, wrong = examples
    text, steps, wrong_text = ((trials.folder / name).read_bytes() for name in (good, certificate, wrong))
    shown, reviewed = pages.answer_to_show(text), pages.answer_to_review(text)
    in_json = pages.answer_to_review(text, ["fate=done"], pages.json_of)
    capture = trials.file(bytes.fromhex((CAPTURES / "host3.pcap.hex").read_text(encoding="ascii")))
    # What one call makes no other call makes: it would find it locked.
    new = f"{trials.file(b'')}.new"
    drawn = answer_to_chart(text, steps)[0]
    return [
        (["pdu", README_DATAGRAM], b"", Outcome(0, README_ANSWER, b"")),
        (["pdu", "0701"], b"", Outcome(1, b"refused 1 truncated\n", b"")),
        (["pdus"], README_DATAGRAM + b"\n", Outcome(0, README_ANSWER, b"")),
        (["pdus"], b"0701\n", Outcome(1, b"refused 1 truncated\n", b"")),
        ([], (TOP / WORKED_SCRIPT).read_bytes(), Outcome(0, WORKED_ANSWER, b"")),
        (["show", good], b"", shown),
        (["check", good, certificate], b"", Outcome(0, TEXTS_REPORT, b"")),
        (["check", wrong, certificate], b"", Outcome(1, b"no step=8 cause=13 wrong-state\n", b"")),
        (["review", good], b"", reviewed),
        (["review", good, "fate=done", "--json"], b"", in_json),
        (["review", good, "fate=done", "--prose"], b"", pages.answer_to_prose(text, ["fate=done"])),
        (["count", good], b"", pages.answer_to_count(text)),
        (["why", good], b"", pages.answer_to_why(text)),
        (["why", wrong], b"", pages.answer_to_why(wrong_text)),
        (["why", good, certificate], b"", pages.answer_to_why_not(text, steps)),
        (["why", wrong, certificate, "--json"], b"", pages.answer_to_why_not(wrong_text, steps, pages.log_json)),
        (["chart", good, certificate, f"{new}.chart"], b"", drawn),
        (["chart", wrong, certificate, f"{new}.uncharted"], b"", answer_to_chart(wrong_text, steps)[0]),
        (["world", WORKED_SCRIPT, f"{new}.world"], b"", Outcome(0, WORKED_LINE, b"")),
        (["plan", PLAN_SOURCE], b"", Outcome(0, PLAN_LINES, b"")),
        (["plan", PLAN_SOURCE, "--json"], b"", pages.answer_to_plan((TOP / PLAN_SOURCE).read_bytes(), pages.json_of)[0]),
        (["plan", PLAN_SOURCE, f"{new}.plan"], b"", Outcome(0, PLAN_LINES, b"")),
        (["live", WORKED_SCRIPT, f"{new}.live"], b"", Outcome(0, b"live records=13\n", b"")),
        (["convert", good, f"{new}.convert"], b"", Outcome(0, b"converted records=9\n", b"")),
        (["mend", good, f"{new}.mend"], b"", Outcome(0, b"whole records=9\n", b"")),
        (["export", good, f"{new}.export"], b"", Outcome(0, b"exported packets=8 told=1\n", b"")),
        (["import", str(CAPTURES / "setup.script"), "2:3", "10.77.0.3", capture, f"{new}.import"], b"", Outcome(0, IMPORTED, b"")),
        (["join", good, f"{new}.join", "form=closed"], b"", Outcome(0, b"joined pieces=1 stations=2 records=9 form=closed\n", b"")),
    ]


def faults(examples):
    """Words and input that are told as faults, with the usual outcome."""
    good, certificate, _ = examples
    return [
        (["pdu", "zz"], b"", pages.fault("hex: not byte pairs")),
        (["pdus"], b"0", pages.fault("hex: not byte pairs at line 1")),
        ([], b"0", pages.fault("script: bad-line at line 1")),
        (["show", "none"], b"", pages.unopened("none")),
        (["show", certificate], b"", pages.fault("recording: magic at 0")),
        (["check", good, "none"], b"", pages.unopened("none")),
        (["check", good, good], b"", pages.fault("certificate: magic at 0")),
        (["review", "none"], b"", pages.unopened("none")),
        (["review", certificate, "fate=lost"], b"", pages.fault("recording: magic at 0")),
        (["review", good, "fate=lots"], b"", pages.fault("filter: fate=lots")),
        (["count", "none"], b"", pages.unopened("none")),
        (["count", good, "kind=all"], b"", pages.fault("filter: kind=all")),
        (["why", "none"], b"", pages.unopened("none")),
        (["why", certificate, certificate], b"", pages.fault("recording: magic at 0")),
        (["why", good, good, "--json"], b"", pages.fault("certificate: magic at 0")),
        (["world", good, "none"], b"", pages.fault("script: bad-line at line 1")),
        (["plan", good], b"", pages.fault("plan: bad-line at line 1")),
        (["plan", good, "none"], b"", pages.fault("plan: bad-line at line 1")),
        (["plan", "-"], b"exercise 1\nstation 1:1\nlose 0\n", pages.fault("plan: bad-line at line 3")),
        (["show", b"\xff"], b"", pages.fault("words: not UTF-8")),
        (["check", good], b"", Outcome(2, b"", Some())),
    ]


def try_streams(trials, examples):
    """Standard streams that are full or closed."""
    both = Outcome(2, b"", b"")
    for behind, accepted in [(">/dev/full", UNWRITTEN), (">&-", UNWRITTEN), (">/dev/full 2>&1", both)]:
        for words, given, _ in answers(trials, examples) + [(["--help"], b"", None)]:
            is_made = words[:1] == ["live"] and accepted is UNWRITTEN
            wanted = torn("output: write", words[2]) if is_made else accepted
            trials.expect(words, wanted, given=given, behind=behind)
    for words, given, usual in faults(examples):
        for behind in [">/dev/full", ">&-"]:
            trials.expect(words, usual, given=given, behind=behind)
        for behind in ["2>/dev/full", "2>&-"]:
            trials.expect(words, usual._replace(errors=b""), given=given, behind=behind)
    for words, given, usual in answers(trials, examples):
        trials.expect(words, usual, given=given, behind="2>&-")
    for behind in ["<&-", "<examples"]:
        trials.expect(["pdus"], pages.fault("file: -"), behind=behind)
        trials.expect([], pages.fault("script: read"), behind=behind)
    trials.expect(["pdus"], Outcome(0, b"", b""), behind="</dev/null")
    trials.expect([], pages.fault("script: bad-line at line 1"), behind="</dev/null")
    trials.expect([], pages.fault("script: bad-line at line 0"), behind="</dev/zero")
    trials.expect(["show", "/dev/zero"], pages.fault("recording: magic at 0"))
    trials.expect(["show", "/dev/null"], pages.fault("recording: truncated at 0"))


def try_terminal(trials):
    """No words where standard input is a terminal: no script is read, and nobody is waited for."""
    trials.terminal = pty.openpty()
    wrong = "no command is named, and standard input is a terminal: a script is read from a file or a pipe"
    usage = f"error: {wrong}\n\nUsage: {Path(trials.program).name} [COMMAND]\n\nFor more information, try '--help'.\n"
    behind = f"<{os.ttyname(trials.terminal[1])}"
    trials.expect([], Outcome(2, b"", usage.encode()), behind=behind)
    trials.expect(["show", "examples"], pages.fault("file: examples: is a directory"), behind=behind)


def try_pipes(trials, examples):
    """Standard output that is a pipe whose reader has gone, before the program writes or after the first byte."""

    def gone(case):
        reader, writer = os.pipe()
        os.close(reader)
        came = trials.run(case, stdout=writer)
        os.close(writer)
        return [Verdict(told(case, ", its reader gone"), case.accepted, came)]

    for words, given, _ in answers(trials, examples) + [(["--help"], b"", None)]:
        wanted = torn("output: write", words[2]) if words[:1] == ["live"] else UNWRITTEN
        case = Case(words, (wanted,), given)
        trials.tasks.append(lambda case=case: gone(case))
    long = trials.file(texts.recording_text(texts.told_often(50_000)))
    first = Outcome(0, b"e", b"output: write\n2\n")
    trials.expect(["show", long], first, before="{ ", behind="; echo $? >&2; } | head -c 1")


def try_all(trials, examples):
    try_opening(trials, examples)
    try_unreadable(trials, examples)
    try_streams(trials, examples)
    try_pipes(trials, examples)
    try_terminal(trials)
