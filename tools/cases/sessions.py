"""Compares the cases of `station` with what follows from the page alone (tools/pages/stations.py), and writes them anew.

    cd tools && python3 -m cases.sessions [--write] [FILE ..]

FILE is ../crates/siman_cases/data/stations.cases if none is given. Of each case in which a session begins, what it prints,
what is on its link and in its file, its status and the first lines of its faults are compared; `--write` writes the first
three anew. What the waits for its input find is said by `pause` and `time N` in it. What fails there is given as the case
has it: a call of the link by its number; a byte of what is printed by `calls 1 N other` or `nothing`, where the N-th is
not; of the file by the bytes that are left, and that it is not settled on the disk by a `file NAME.unsettled`. The last
line is `N tried, M wrong`, with status 1 where something is wrong.
"""
import sys
from pathlib import Path

from cases.trials import without_reasons
from pages import LONGEST_DATAGRAM, Post, greeting

STATIONS = Path(__file__).resolve().parents[2] / "crates" / "siman_cases" / "data" / "stations.cases"
WORDS_BEHIND_PEERS = ("from=any", "keep=all", "clock=system")
FILLED = ("word", "file", "input", "comes", "out", "errors", "reason", "behind", "left", "discarded", "sent")
FILLING = ("text", "piece", "times", "each", "hex")
MOST_RECEIVES = 65_536


class Unrecorded(Exception):
    """An entry is not recorded."""


class Session(Post):
    """A station at a link in memory, with what comes there: None where a receive finds nothing."""

    def __init__(self, script, address, coming, by_system=False, fails_at=None, most_out=None, most_left=None):
        super().__init__(script, address, lost="-", buffer="-", by_system=by_system)
        self.coming, self.fails_at, self.most_out, self.most_left = list(coming), fails_at, most_out, most_left
        self.calls, self.has_failed, self.is_mute, self.is_spent, self.torn = 0, False, False, False, None

    def fails(self):
        self.calls += 1
        self.has_failed = self.has_failed or self.calls == self.fails_at
        return self.calls == self.fails_at

    def send(self, *what):
        datagram = super().send(*what)
        if self.fails():
            self.sent.pop()
        return datagram

    def enter(self, entry):
        size = len(self.text()) - len(b"\0" + bytes(4)) + len(entry)
        if self.most_left is not None and size > self.most_left:
            self.torn = entry
            raise Unrecorded
        super().enter(entry)

    def note_tick(self, given_up, again):
        if not self.has_failed:
            super().note_tick(given_up, again)

    def told_of_line(self):
        """What failed at the link is told once of what was done, and once of what came then."""
        if self.has_failed:
            self.refuse("live: line")
        self.has_failed = False

    def serve(self):
        self.told_of_line()
        for _ in range(MOST_RECEIVES):
            if self.fails():
                break
            datagram = self.coming.pop(0) if self.coming else None
            if datagram is None:
                break
            self.hear(datagram[: LONGEST_DATAGRAM + 1], keeps=True)
        self.told_of_line()

    def end_thing(self):
        super().end_thing()
        self.try_to_print()

    def try_to_print(self):
        """That what is printed so far cannot be printed whole is told once."""
        if self.most_out is not None and not self.is_mute and len(self.lines()) > self.most_out:
            self.tell_unwritten()
            self.is_mute = True

    def tell_unwritten(self):
        self.told.append("output: write\n")
        self.status = 2

    def play(self, text, waits, is_cut):
        """All lines of a text, with what a wait finds behind so many of its bytes. Where it is cut the rest cannot be read."""
        try:
            self.play_lines(text, waits)
        except Unrecorded:
            self.is_spent = True
            self.tell_unwritten()
            return
        if is_cut and not self.is_over:
            self.told.append("file: -\n")
            self.status = 2

    def play_lines(self, text, waits):
        """Before each byte, and before the end, there is a wait."""
        held, given = b"", 0
        while not self.is_over:
            time, has_datagrams = waits.time(given), waits.finds_datagrams(given)
            byte = b"" if has_datagrams else text[given : given + 1]
            given += len(byte)
            if has_datagrams or byte not in (b"", b"\n"):
                held += byte
                if has_datagrams or self.is_due_at(time):
                    self.show(time)
                    self.wake()
            elif byte or held:
                self.show(time)
                self.take(held)
                held = b""
            else:
                return

    def is_due_at(self, time):
        """Whether the system's clock shows that an order is due, so that a wait ends."""
        return self.by_system and any(order.is_due(time, self.station) for order in self.station.orders)

    def all_printed(self):
        """What is printed at the end, with the last line, if all was printed before and the recording has its end."""
        self.try_to_print()
        out = self.lines()[: self.most_out]
        if self.is_spent or self.is_mute:
            return out
        if self.most_left is not None and self.most_left < len(self.text()):
            self.tell_unwritten()
            return out
        out += self.last_line()
        if self.most_out is not None and len(out) > self.most_out:
            self.tell_unwritten()
            return out[: self.most_out]
        return out

    def left(self):
        """The parts of what its file is to have: what comes before the entries, each entry, and the end or the torn entry."""
        text = self.text()
        before = len(text) - len(b"\0" + bytes(4)) - sum(map(len, self.entries))
        return [text[:before], *self.entries, text[-5:] if self.torn is None else self.torn]


class Waits:
    """What the waits for a text find: behind so many of its bytes datagrams, and what the system's clock shows."""

    def __init__(self):
        self.pauses, self.times = [], []

    def finds_datagrams(self, given):
        """Whether a wait behind so many bytes finds datagrams, once for each pause there."""
        return bool(self.pauses) and self.pauses[0] <= given and self.pauses.pop(0) is not None

    def time(self, given):
        """What the clock shows behind so many bytes: the last time of those so far, and 0 before the first."""
        return next((time for place, time in reversed(self.times) if place <= given), 0)


def filled(lines):
    """The bytes that filling lines say, and the `calls` among them, if there are some."""
    text, calls = b"", None
    for line in lines:
        name, _, rest = line.partition(" ")
        if name == "text":
            text += rest.encode() + b"\n"
        elif name == "piece":
            text += rest.encode()
        elif name == "times":
            count, _, more = rest.partition(" ")
            text += more.encode() * int(count)
        elif name == "each":
            first, last, more = rest.split(" ", 2)
            text += b"".join(more.encode().replace(b"%", b"%d" % number) + b"\n" for number in range(int(first), int(last) + 1))
        elif name == "hex":
            text += bytes.fromhex(rest)
        elif name == "calls":
            calls = rest.split(" ")
    return text, calls


def end_of(lines, at, words):
    """Where the lines that begin with some words end, from a place on, with empty lines and comments between them."""
    end = at
    for place, line in enumerate(lines[at:], at):
        if line.partition(" ")[0] in words:
            end = place + 1
        elif line and not line.startswith("#"):
            break
    return end


def blocks_of(lines):
    """The lines of a case with those that fill each of them: a word, what stands behind it, the filling lines."""
    at = 0
    while at < len(lines):
        word, _, rest = lines[at].partition(" ")
        end = end_of(lines, at + 1, (*FILLING, "calls"))
        yield word, rest, lines[at + 1 : end]
        at = end


class Case:
    """The lines of a case, and what they say. Its files stay for those behind it."""

    def __init__(self, lines, files):
        self.lines, self.files = lines, files
        self.words, self.coming, self.waits = [], [], 0
        self.input, self.waits_of_input, self.input_calls = b"", Waits(), None
        self.parts, self.said, self.shut = {}, {}, set()
        part = None
        for word, rest, filling in blocks_of(lines):
            text, calls = filled(filling)
            if word == "pause" and part != "input":
                self.waits += 1
            elif word in ("pause", "time"):
                self.wait_in_input(word, rest, text, calls)
            else:
                part = word if word in FILLED else part
                self.take(word, rest, text, calls)

    def wait_in_input(self, word, rest, text, calls):
        """Behind so much of the input datagrams come, or the clock shows a time."""
        if word == "pause":
            self.waits_of_input.pauses.append(len(self.input))
        else:
            self.waits_of_input.times.append((len(self.input), int(rest)))
        self.input, self.input_calls = self.input + text, calls or self.input_calls

    def take(self, word, rest, text, calls):
        if word == "words":
            self.words += rest.split(" ")
        elif word == "word":
            self.words.append(text.decode())
        elif word == "file":
            self.files[rest] = text
        elif word in ("shut", "full"):
            self.shut.add(rest)
        elif word == "input":
            self.input, self.input_calls = text, calls
        elif word == "comes":
            self.coming += [None] * self.waits + [text]
            self.waits = 0
        elif word in FILLED:
            self.parts[word] = text, calls
        elif word == "asked":
            self.said[rest.partition(" ")[0]] = True
        else:
            self.said[word] = rest

    def part(self, name):
        return self.parts.get(name, (b"", None))

    def has_session(self):
        """Whether its link is open, so that something is printed: a file is left, or asked for, or printing fails."""
        is_station = self.words[:1] == ["station"] and len(self.words) > 5
        return is_station and ("left" in self.parts or "keep" in self.said or "make" in self.said or self.part("out")[1] is not None)

    def session(self):
        address = tuple(map(int, self.words[2].split(":")))
        out_calls, (left, left_calls) = self.part("out")[1], self.part("left")
        if out_calls and out_calls[0] != "1":
            raise SystemExit(f"{self.lines[0]}: what is printed fails by calls of more than one byte")
        most_out = int(out_calls[1]) - 1 if out_calls else None
        most_left = len(left) if left_calls and left_calls[2] == "other" else None
        fails_at = int(self.said["line-fails"]) if "line-fails" in self.said else None
        by_system = "clock=system" in self.words_behind_peers()
        return Session(self.files[self.words[1]], address, self.coming, by_system, fails_at, most_out, most_left)

    def words_behind_peers(self):
        """The words behind the last peer, each at most once."""
        behind = []
        for word in reversed(self.words[6:]):
            if word not in WORDS_BEHIND_PEERS or word in behind:
                break
            behind.append(word)
        return behind

    def is_unsettled(self):
        """Whether its recording is not settled on the disk at the end, which is told behind all else."""
        return self.words[3] + ".unsettled" in self.files

    def status(self):
        return int(self.said.get("status", 0))

    def answer(self):
        """What is printed, what is on the link, the parts of the file or None, the first lines of faults, and the status."""
        post = self.session()
        greets = greeting(post.address, "-").encode()
        if post.most_out is not None and post.most_out < len(greets):
            return greets[: post.most_out], [], None, b"output: write\n", 2
        if self.words[3] in self.shut:
            return greets, [], None, self.part("errors")[0], self.status()
        if post.most_left is not None and post.most_left < len(post.left()[0]):
            return greets, [], [self.part("left")[0]], b"output: write\n" * (1 + self.is_unsettled()), 2
        is_cut = self.input_calls is not None and self.input_calls[2] == "other"
        post.play(self.input[: int(self.input_calls[1]) - 1] if is_cut else self.input, self.waits_of_input, is_cut)
        out = post.all_printed()
        if self.is_unsettled():
            post.tell_unwritten()
        left = post.left()
        if post.most_left is not None:
            left = [b"".join(left)[: post.most_left]]
        return out, post.sent, left, "".join(post.told).encode(), post.status


def pieces(text):
    """The filling lines of a text that has no empty line."""
    *lines, last = text.decode().split("\n")
    return [*(f"text {line}" for line in lines), *([f"piece {last}"] if last else [])]


def with_part(lines, name, filling):
    """The lines of a case with other filling lines of a part; its `calls` stay. A new part stands before those behind it."""
    order = ("out", "errors", "reason", "sent", "left")
    if name in lines:
        at = lines.index(name)
        end = end_of(lines, at + 1, FILLING)
        return [*lines[: at + 1], *filling, *lines[end:]] if filling or name in ("out", "left") else [*lines[:at], *lines[end:]]
    if not filling:
        return lines
    behind = [lines.index(other) for other in order[order.index(name) + 1 :] if other in lines]
    at = min(behind, default=len(lines) - (lines[-1] == ""))
    return [*lines[:at], name, *filling, *lines[at:]]


def tried(case):
    """Which parts of a case are otherwise, and its lines with what follows from the page."""
    out, sent, left, errors, status = case.answer()
    wrong, lines = [], case.lines
    sent = [datagram.hex().upper() for datagram in sent]
    parts = [("out", out, pieces(out)), ("sent", "".join(line + "\n" for line in sent).encode(), [f"text {line}" for line in sent])]
    if "keep" not in case.said:
        parts.append(("left", b"".join(left or []), [f"hex {part.hex().upper()}" for part in left or []]))
    for name, expected, filling in parts:
        if case.part(name)[0] != expected or name == "left" and (left is None) == (name in case.parts):
            wrong.append(name)
            lines = with_part(lines, name, filling)
    if status != case.status():
        wrong.append(f"status {status}")
    if "half-told" not in case.said and without_reasons(case.part("errors")[0]) != errors:
        wrong.append(f"errors {errors}")
    return wrong, lines


def cases_of(text):
    """The lines of a file of cases, case by case; those before the first come alone."""
    lines, found = text.split("\n"), [[]]
    for line in lines:
        if line.startswith("case "):
            found.append([])
        found[-1].append(line)
    return found


def main(words):
    writes = "--write" in words
    files = [Path(word) for word in words if word != "--write"] or [STATIONS]
    count = bad = 0
    for path in files:
        known, written = {}, []
        for lines in cases_of(path.read_text(encoding="ascii")):
            case = Case(lines, known)
            if lines[0].startswith("case ") and case.has_session():
                count += 1
                wrong, lines = tried(case)
                if wrong:
                    bad += 1
                    print(f"{path.name}: {lines[0]}: {', '.join(wrong)}")
            written += lines
        if writes:
            path.write_text("\n".join(written), encoding="ascii")
    print(f"{count} tried, {bad} wrong")
    return 1 if bad and not writes else 0


if __name__ == "__main__":
    sys.exit(main(sys.argv[1:]))
