"""Each read and each write of `check` and of a trial, failed in turn."""
from cases import texts
from cases.examples import TOP, WORKED_ANSWER, WORKED_SCRIPT
from pages import NO_LINK, Recording, Station

CREATE = bytes.fromhex("07010B0500000000001C000000010001000000020003000700000001")
ABLE = bytes.fromhex("07010F0500000000002000000002000300070001000100000001000100000001")
ENTRIES = [texts.sent(0, CREATE), texts.received(1, CREATE), texts.sent(1, ABLE), texts.received(0, ABLE)]
RECORDING = texts.recording_text(Recording(1, [Station(1, 1, []), Station(2, 3, [])], ENTRIES))
CERTIFICATE = texts.certificate_text([(0, NO_LINK), (1, 0), (2, 1), (3, 2)])
SWAPPED = texts.certificate_text([(1, 0), (0, NO_LINK), (2, 1), (3, 2)])
REPORT = b"yes records=4 others=0\nanswer 2 request 1\nknown 3 change 2\nentity 2:3:7 stopped\n"
NO = b"no step=0 cause=12 never-sent\n"


def pieces(text):
    """Lines of a case that stand for a text."""
    *lines, last = text.decode().split("\n")
    return [f"text {line}" if line else "text" for line in lines] + ([f"piece {last}"] if last else [])


def hexes(text):
    return [f"hex {text[at : at + 50].hex().upper()}" for at in range(0, len(text), 50)]


def case(name, words, given, status, out=b"", errors=b"", calls=None):
    """A case: `calls` is how the writes of standard output go."""
    yield f"\ncase {name}"
    yield from words
    yield from given
    yield f"status {status}"
    if out or calls:
        yield "out"
        yield from pieces(out)
    if calls:
        yield f"calls {calls}"
    if errors:
        yield "errors"
        yield from pieces(errors)


def files(recording_calls=None, certificate_calls=None, certificate=CERTIFICATE):
    yield "file rec"
    yield from hexes(RECORDING)
    if recording_calls:
        yield f"calls {recording_calls}"
    yield "file cert"
    yield from hexes(certificate)
    if certificate_calls:
        yield f"calls {certificate_calls}"


def reads(size, most):
    """How many reads of at most so many bytes fetch a file: the last one finds its end."""
    return -(-size // most) + 1


def checks():
    """Each read of both files, and one read later than the last, which nothing makes."""
    words = ["words check rec cert"]
    for name, text, most in (("recording", RECORDING, 40), ("certificate", CERTIFICATE, 10)):
        last = reads(len(text), most)
        for call in range(1, last + 2):
            for kind in ("other",) if call < last else ("other", "nothing"):
                calls = f"{most} {call} {kind}"
                given = list(files(calls) if name == "recording" else files(None, calls))
                if call > last or kind == "nothing":
                    yield from case(f"check-{name}-read-{call}-{kind}", words, given, 0, REPORT)
                else:
                    fault = f"{name}: read\n".encode()
                    yield from case(f"check-{name}-read-{call}", words, given, 2, errors=fault)
    for name, certificate, text, status in (("yes", CERTIFICATE, REPORT, 0), ("no", SWAPPED, NO, 1)):
        yield from written(f"check-{name}", words, list(files(certificate=certificate)), text, 10, status)


def written(name, words, given, text, most, status):
    """Each write of a text, by a failure and by a write that takes nothing."""
    last = -(-len(text) // most)
    for call in range(1, last + 1):
        for kind in ("other", "nothing"):
            calls = f"{most} {call} {kind}"
            out = text[: most * (call - 1)]
            yield from case(f"{name}-write-{call}-{kind}", words, given, 2, out, b"output: write\n", calls)
    yield from case(f"{name}-write-{last + 1}", words, given, status, text, calls=f"{most} {last + 1} other")


def trials():
    script = (TOP / WORKED_SCRIPT).read_bytes()
    script = b"".join(line for line in script.splitlines(keepends=True) if not line.startswith(b"#") and line.strip())
    given = ["input", *pieces(script)]
    last = reads(len(script), 40)
    for call in range(1, last + 1):
        yield from case(f"trial-read-{call}", [], [*given, f"calls 40 {call} other"], 2, errors=b"script: read\n")
    yield from case(f"trial-read-{last + 1}", [], [*given, f"calls 40 {last + 1} other"], 0, WORKED_ANSWER)
    yield from written("trial", [], given, WORKED_ANSWER, 30, 0)


def cases():
    yield "# Each read and each write of `check` and of a trial, failed in turn; the last of each row comes too late to fail"
    yield "# anything. The lines were made by tools/cases/failing.py."
    yield from checks()
    yield from trials()
