"""Words of the command line and hex text."""
import pages
from cases.examples import (
    FORMATS_CERTIFICATE, FORMATS_RECORDING, FORMATS_SHOWN, README_ANSWER, README_DATAGRAM, TOP, WORKED_ANSWER, WORKED_SCRIPT,
)
from cases.trials import Case, Some
from pages import Outcome


def try_words(trials):
    usage = Outcome(2, b"", Some())
    not_text = Outcome(2, b"", b"words: not UTF-8\n")
    recording, certificate = trials.file(FORMATS_RECORDING), trials.file(FORMATS_CERTIFICATE)
    trials.expect(["--help"], Outcome(0, Some(), b""))
    trials.expect(["--version"], Outcome(0, b"siman 0.1.0\n", b""))
    trials.expect(["-V"], Outcome(0, b"siman 0.1.0\n", b""))
    for words in [
        ["pdu"], ["show"], ["check"], ["check", recording], ["pdu", "07", "01"], ["pdu", README_DATAGRAM.decode(), ""],
        ["show", recording, recording], ["check", recording, certificate, certificate], ["nothing"], [""],
        ["PDU", "07"], ["shows", recording], ["--pdu", "07"], ["--nothing"], ["-x"], ["pdu", "--nothing"], [recording],
        ["pd"], ["-"], ["--", "pdu"], ["world"], ["world", "a"], ["world", "a", "b", "c"], ["world", "-a", "b"],
        ["live"], ["live", "a"], ["live", "a", "b", "c"], ["live", "-a", "b"],
        ["convert"], ["convert", "a"], ["convert", "a", "b", "c"], ["convert", "-a", "b"], ["convert", recording, "-a"],
        ["mend"], ["mend", "a"], ["mend", "a", "b", "c"], ["mend", "-a", "b"], ["mend", recording, "-a"],
        ["export"], ["export", "a"], ["export", "a", "b", "c"], ["export", "-a", "b"], ["export", recording, "-a"],
        ["review"], ["review", "-a"], ["review", "--json"], ["review", recording, "-a"], ["review", recording, "--json", "--json"],
        ["review", recording, "--force"], ["review", "-", "-"], ["show", recording, "--json"], ["check", recording, "--force", certificate],
        ["audit", recording, "a", "--force", "--force"], ["live", "a", "b", "--force"], ["audit", recording, "a", "--json"],
        ["join", recording, "a"], ["join", recording, "a", "--force"], ["join", "-", "-", "a"], ["station", "-", "1:1", "a", "127.0.0.1:1", "127.0.0.1:2"],
        ["check", "-", "-"], ["chart", "-", "-", "a"], ["why", "-", "-"], ["pdus", "--force"], ["--json", "review", recording],
        ["count"], ["count", "-a"], ["count", "--json"], ["count", recording, "--json", "--json"], ["count", "-", "-"],
        ["why"], ["why", "-a"], ["why", "--json"], ["why", recording, "-a"], ["why", recording, "--json", certificate, "--json"],
        ["why", recording, certificate, certificate],
        ["chart"], ["chart", recording], ["chart", recording, certificate], ["chart", recording, certificate, "-a"],
        ["chart", recording, certificate, "a", "--json"], ["chart", recording, certificate, "a", "from=0", "-x"],
        ["pdus", "07"], ["pdus", ""], ["pdus", "-x"], ["trial"], ["audit"], ["audit", recording], ["audit", recording, "a", "b"], ["audit", recording, "-a"],
    ]:  # fmt: skip
        trials.expect(words, usage)
    shown = Outcome(0, FORMATS_SHOWN, b"")
    trials.expect(["show", "-"], shown, given=FORMATS_RECORDING)
    trials.expect(["show", "-"], shown, behind=f"<{recording}")
    trials.expect(["show", "-"], pages.fault("file: -: is a directory"), behind="<&-")
    trials.expect(["show", "./-"], pages.fault("file: ./-: no such file"), given=FORMATS_RECORDING)
    for words in (
        ["check", recording, certificate], ["review", recording], ["count", recording], ["why", recording],
        ["why", recording, certificate],
    ):  # fmt: skip
        same = trials.run(Case(words, ()))
        trials.expect([words[0], "-", *words[2:]], same, given=FORMATS_RECORDING)
        if words[2:]:
            trials.expect([*words[:2], "-"], same, given=FORMATS_CERTIFICATE)
    log = trials.run(Case(["log", recording, "--json"], ()))
    for words in (["log", "--json", recording], ["log", "--json", "-"], ["log", "-", "--json"]):
        trials.expect(words, log, given=FORMATS_RECORDING)
    trials.expect(["review", recording, "--json", "a"], pages.fault("filter: a"))
    for words in (["show", "--jsn", recording], ["log", recording, "--jsn"], ["audit", recording, "a", "--forc"]):
        told = trials.run(Case(words, ()))
        trials.state(f"no wrong tip for {words}", (2, False), (told.status, b"'-- " in told.errors))
    for word in [b"\xff", b"07\xff", b"\xc3", b"a\xed\xa0\x80"]:
        for words in [[word], ["pdu", word], ["show", word], ["check", recording, word], ["x", word], [word, "07"]]:
            trials.expect(words, not_text)


def try_hex(trials):
    trials.expect(["pdu", README_DATAGRAM.decode()], Outcome(0, README_ANSWER, b""))
    trials.expect(["pdus"], Outcome(0, README_ANSWER, b""), given=README_DATAGRAM + b"\n")
    good = README_DATAGRAM
    mixed = bytes(byte ^ (32 * (place % 2) if chr(byte).isalpha() else 0) for place, byte in enumerate(good))
    texts = [good, good.lower(), mixed, b"", b"0", good[:-1], good + b"0", good[:8] + b" " + good[8:], b" " + good]
    texts += [good + b" ", b"0x" + good, b"\t" + good, b"zz", b"0g", b"0G", b":7", b"/0", b"@A", b"`a", b"07\n01"]
    texts += ["é".encode(), "٠٠".encode()]
    for text in texts:
        trials.expect(["pdu", text], pages.answer_to_hex(text))
    ends = [b"", b"\n", b"\n\n", b"\r\n", b"\r", b" \n", b"\0", b"\n "]
    for text in [text + end for text in texts[:6] for end in ends] + texts + [b"\n" + good, b"\xff\xff", b"\0" * 8]:
        trials.expect(["pdus"], pages.answer_to_lines(text), given=text)


def try_limits_of_hex(trials):
    head = b"07010B05000000000000000000010001000000020003000700000001"
    for size in [16384, 16386, 65534, 65535, 65536, 65537, 65538, 100_000]:
        for start in [head, b"06" * 28]:
            text = start.ljust(size, b"0")
            trials.expect(["pdu", text], pages.answer_to_hex(text))
            for end in [b"", b"\n"]:
                trials.expect(["pdus"], pages.answer_to_lines(text + end), given=text + end)
    long = b"00" * 5_000_000
    trials.expect(["pdus"], pages.fault("hex: not byte pairs at line 1"), given=long)
    trials.expect(["pdus"], pages.answer_to_lines(long + b"\n" + head + b"\n"), given=long + b"\n" + head + b"\n")


def try_lines(trials):
    """Many hex texts, one a line: good, refused, bad, empty and long ones, in turns."""
    good, refused, bad, empty, long = README_DATAGRAM, b"0701", b"zz", b"", b"0" * 65537
    kinds = [good, refused, bad, empty, long]
    for first in kinds:
        for second in kinds:
            for third in kinds:
                for end in [b"\n", b""]:
                    text = b"\n".join([first, second, third]) + end
                    trials.expect(["pdus"], pages.answer_to_lines(text), given=text)
    for text in [b"", b"\n", b"\n\n\n", good + b"\r\n" + good, b"\r\n", (good + b"\n") * 5000, b"zz\n" * 5000]:
        trials.expect(["pdus"], pages.answer_to_lines(text), given=text)


def try_pieces(trials):
    """Input and files that come in pieces, with waits between."""
    for words, given, answer in [
        (["pdus"], README_DATAGRAM, Outcome(0, README_ANSWER, b"")),
        (["pdus"], README_DATAGRAM[:-1], pages.fault("hex: not byte pairs at line 1")),
        ([], (TOP / WORKED_SCRIPT).read_bytes(), Outcome(0, WORKED_ANSWER, b"")),
        (["show", "/dev/stdin"], FORMATS_RECORDING, Outcome(0, FORMATS_SHOWN, b"")),
        (["show", "/dev/stdin"], FORMATS_RECORDING[:-1], pages.fault("recording: truncated at 59")),
    ]:
        pieces = [trials.file(given[start : start + 13]) for start in range(0, len(given), 13)]
        trials.expect(words, answer, before=f"for piece in {' '.join(pieces)}; do cat $piece; sleep 0.05; done | ")


def try_all(trials, _):
    try_words(trials)
    try_hex(trials)
    try_limits_of_hex(trials)
    try_lines(trials)
    try_pieces(trials)
