"""Exercises of several processes of `station` with a proxy between them, by a seed; what they leave, joined and judged."""
import random
import re
import time
from collections import Counter

import pages
from cases import texts
from cases.played import Player, free_address
from cases.proxies import Proxy
from cases.trials import Case, Verdict
from pages import CREATE

ADDRESSES = [(1, 1), (2, 3), (2, 4), (3, 1)]
MOVES = 14
PACE = 0.004  # seconds that a line takes
FATES = Counter()  # how often each fate was told of an order in what all pieces gave together


def setup(count):
    """The script that sets all stations up."""
    lines = ["exercise 9", *("station {}:{} first=1 tries=3 wait=2".format(*address) for address in ADDRESSES[:count])]
    lines += ["opening {}:{} 5 stopped".format(*address) for address in ADDRESSES[:count]]
    lines += ["fixed {}:{} 30 7".format(*address) for address in ADDRESSES[:count]]
    return "".join(line + "\n" for line in lines).encode()


def move_of(chances, station, others):
    """A line of text of a station."""
    own, other = "{}:{}".format(*station), "{}:{}".format(*chances.choice(others))
    entity = chances.choice((5, 6, 7, 65534, 65535))
    name = chances.choice(("create", "create", "start", "stop", "remove", "query", "set", "tick", "tick", "tick", "tell", "none", "bad"))
    if name in ("create", "start", "stop", "remove"):
        if chances.random() < 0.15:
            other, entity = "65535:65535", 65535 if name != "create" else 9
        return f"{name} {own} {other}:{entity}"
    return {
        "query": f"query {own} {other}:0 30 31", "set": f"set {own} {other}:0 30 {chances.randrange(99)}", "tick": f"tick {own}",
        "tell": f"tell {own} {chances.choice((5, 6, 7))}", "none": "", "bad": f"deliver 0 {own}",
    }[name]  # fmt: skip


class Exercise:
    """The processes of so many stations, by a seed, until all have ended. Lines set their clocks, or these are the
    system's."""

    def __init__(self, program, folder, count, seed, by_system):
        self.program, self.folder, self.count, self.by_system = program, folder, count, by_system
        self.name, self.chances = f"{count}.{seed}", random.Random(f"{count} {seed}")
        self.stations = ADDRESSES[:count]
        (folder / f"{self.name}.script").write_bytes(setup(count))
        self.proxy = Proxy(count, random.Random(f"proxy {count} {seed}"))
        self.pieces, self.outcomes, self.killed, self.forged = [], [], None, None

    def begin(self):
        self.players = []
        for number, station in enumerate(self.stations):
            own = free_address()
            self.proxy.stations[number] = own
            words = (f"{self.name}.script", station, f"{self.name}.{number}.dsrc", own, [self.proxy.address(number)])
            words += ("clock=system",) * self.by_system
            self.players.append(Player(self.program, self.folder, *words))
        self.proxy.start()
        return all(player.is_up() for player in self.players)

    def play(self, kills, forges):
        """Lines by lines at all stations in turn; one may be killed on the way, and a datagram forged."""
        count = MOVES * self.count
        killed_at = self.chances.randrange(count // 3, count) if kills else None
        forged_at = self.chances.randrange(count // 3, count) if forges else None
        for number in range(count):
            which = self.chances.randrange(self.count)
            if number == killed_at:
                self.killed = which
                self.outcomes.append(self.players[which].kill())
            if number == forged_at:
                self.forge(which)
            if which != self.killed:
                station, others = self.stations[which], [it for it in self.stations if it != self.stations[which]]
                clock = [] if self.by_system else [f"at {number}".encode()]
                self.players[which].say(*clock, move_of(self.chances, station, others).encode())
                # What it sends is answered by the others before the next line, or behind it.
                time.sleep(PACE)
                if self.chances.random() < 0.6:
                    self.players[self.chances.randrange(self.count)].say(b"")
                    time.sleep(PACE)
        time.sleep(4 * PACE)
        for player in self.players:
            player.say(b"")

    def forge(self, which):
        """A creation comes to a station in the name of another one, which never sent it."""
        other = self.chances.choice([it for it in self.stations if it != self.stations[which]])
        self.forged = which, texts.pdu(CREATE, (*other, 0), (*self.stations[which], 77), exercise=9, stamp=77, request=0xF0000000)
        self.proxy.forge(self.forged[1], which)

    def end(self):
        for number, player in enumerate(self.players):
            if number != self.killed:
                self.outcomes.append(player.close())
        self.proxy.close()
        self.pieces = [player.recording.name for player in self.players]

    def run(self, trials, *words):
        return trials.run(Case(list(words), ()))

    def mended(self, trials):
        """The recording of the station that was killed is torn, or only lacks its end: it is mended."""
        if self.killed is None:
            return []
        torn, new = self.pieces[self.killed], f"{self.name}.mended.dsrc"
        expected, text = pages.answer_to_mend((self.folder / torn).read_bytes())
        came = self.run(trials, "mend", torn, new)
        self.pieces[self.killed] = new
        return [
            Verdict(f"mend {torn}", (expected,), came),
            Verdict(f"what mend {torn} made", (text,), (self.folder / new).read_bytes()),
        ]

    def is_forged(self):
        """Whether a station recorded the datagram that nobody sent."""
        if self.forged is None:
            return False
        entries = pages.read_recording((self.folder / self.pieces[self.forged[0]]).read_bytes()).entries
        return any(entry.kind == pages.RECEIVED and entry.datagram == self.forged[1] for entry in entries)

    def judged(self, trials, recording):
        """What `audit`, `check` and `review` say of a recording, by the pages; and whether some order explains it."""
        text = (self.folder / recording).read_bytes()
        found = self.run(trials, "audit", recording, f"{recording}.dsct")
        verdicts = [Verdict(f"audit {recording}", (pages.answer_to_audit(text),), found)]
        if found.status == 0:
            certificate = (self.folder / f"{recording}.dsct").read_bytes()
            checked = self.run(trials, "check", recording, f"{recording}.dsct")
            verdicts.append(Verdict(f"check {recording}", (pages.answer_to_check(text, certificate),), checked))
            verdicts.append(Verdict(f"check of {recording} says yes", (True,), checked.out.startswith(b"yes ")))
        reviewed = self.run(trials, "review", recording)
        verdicts.append(Verdict(f"review {recording}", (pages.answer_to_review(text, []),), reviewed))
        if recording.endswith(".closed.dsrc"):
            FATES.update(re.findall(r" fate=([a-z]+)$", reviewed.out.decode(), re.M))
            FATES[("explained", "blocked")[found.status]] += 1
        return verdicts, found.status == 0

    def joined(self, trials, *pieces, form):
        """Pieces are joined in a form, and judged: by the pages, and whether that is explained as it must be."""
        made = f"{self.name}.{len(pieces)}.{pieces[0]}.{form}.dsrc"
        expected, text = pages.answer_to_join([(piece, (self.folder / piece).read_bytes()) for piece in pieces], form)
        verdicts = [
            Verdict(f"join {made}", (expected,), self.run(trials, "join", *pieces, made, f"form={form}")),
            Verdict(f"what join made of {made}", (text,), (self.folder / made).read_bytes()),
        ]
        judged, is_explained = self.judged(trials, made)
        must_be = form == "open" or not self.is_forged()
        return [*verdicts, *judged, Verdict(f"{made} is explained", (must_be,), is_explained)]

    def statuses(self):
        """Each process ended with 0, or with 2 where a line of its was not done, and told that; one was killed."""
        for outcome in self.outcomes:
            refused = outcome.status == 2 and outcome.errors and all(
                line.startswith(b"line ") and line.endswith(b": bad-line") for line in outcome.errors.splitlines()
            )
            is_right = outcome.status == 0 and not outcome.errors or refused or outcome.status == -9 and self.killed is not None
            yield Verdict(f"a station of {self.name} ends", (True,), bool(is_right))


def try_exercise(trials, count, seed, kills=False, forges=False, by_system=False):
    """An exercise by a seed: all pieces alone, read as open, and joined, closed."""
    exercise = Exercise(trials.program, trials.folder, count, seed, by_system)
    if not exercise.begin():
        exercise.end()
        return [Verdict(f"the stations of {exercise.name} are up", ([],), exercise.outcomes)]
    exercise.play(kills, forges)
    exercise.end()
    verdicts = [*exercise.statuses(), *exercise.mended(trials)]
    for piece in exercise.pieces:
        verdicts += exercise.joined(trials, piece, form="open")
    return verdicts + exercise.joined(trials, *exercise.pieces, form="closed")
