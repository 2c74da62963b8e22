"""A station by the system's clock: its stamps and timestamps, and the orders that it sends again by itself."""
import contextlib
import select
import signal
import time

from cases import texts
from cases.played import Player, bound, free_address
from cases.trials import PATIENCE, Verdict
from cases.waiting import ENTITY_STATE, seconds_of
from pages import ACKNOWLEDGE, CREATE, RECEIVED, SENT, TOLD, Fault, Post, decoded, help_text, read_recording, request_of

OWN, PEER = (1, 1), (2, 3)
WAIT = 200  # milliseconds
SOON, NEAR = 50_000, 10_000  # microseconds
PENDING = 3
HOUR = 3_600_000_000
SETUP = b"exercise 4\nstation 1:1 first=1 tries=%d wait=%d\nstation 2:3\nopening 1:1 7 stopped\nopening 2:3 7 stopped\n"


def now():
    """Microseconds since 1970."""
    return time.time_ns() // 1000


def order(number):
    """An order of the peer to the station 1:1."""
    return texts.pdu(CREATE, (*PEER, 0), (*OWN, 100 + number), exercise=4, request=number)


def answer_to(datagram, response=1):
    """The peer's answer to a creation of the station."""
    pdu = decoded(datagram)
    return texts.pdu(ACKNOWLEDGE, pdu.target, pdu.origin, exercise=4, flag=1, response=response, request=request_of(pdu))


def past_hour(datagram):
    """The microseconds past the hour of a timestamp; None where it is not absolute."""
    stamp = int.from_bytes(datagram[4:8], "big")
    return (stamp >> 1) * HOUR >> 31 if stamp & 1 else None


def is_near(datagram, came):
    """Whether a timestamp is absolute and says the time at which the datagram came, but for a hundredth of a second."""
    past = past_hour(datagram)
    return past is not None and (came - past + NEAR // 10) % HOUR < NEAR


class Machine:
    """A process of one station by the system's clock, with one peer, which is here; when it began, what it was told by
    lines, and what came at the peer, each with its time."""

    def __init__(self, trials, name, *more, tries=3, wait=WAIT, station=OWN):
        self.name, self.script, self.station = name, SETUP % (tries, wait), station
        (trials.folder / f"{name}.script").write_bytes(self.script)
        self.peer, self.own, self.began = bound(), free_address(), now()
        words = (f"{name}.script", station, f"{name}.dsrc", self.own, [self.peer.getsockname()], *more, "clock=system")
        self.player = Player(trials.program, trials.folder, *words)
        self.is_up, self.came = self.player.is_up(), []

    def says(self, *lines):
        """It takes lines, in one piece; when."""
        self.player.say(*lines)
        return now()

    def hears(self, datagram):
        self.peer.sendto(datagram, self.own)
        return now()

    def listen(self, milliseconds, count=None):
        """What comes at the peer in so long a time, or until so many datagrams came; it is kept, too."""
        ends, before = time.monotonic() + milliseconds / 1000, len(self.came)
        while count is None or len(self.came) < before + count:
            if not select.select([self.peer], [], [], max(ends - time.monotonic(), 0))[0]:
                break
            self.came.append((self.peer.recv(65536), now()))
        return self.came[before:]

    def wait_for_note(self, note):
        """When a note is printed that begins so."""
        self.player.wait_for(lambda: any(line.startswith(note) for line in self.player.lines))
        return now()

    def ends(self):
        """It ends; its outcome, and what follows where its clock showed the stamps of its entries."""
        outcome, self.ended = self.player.close(), now()
        self.peer.close()
        self.left, self.entries = self.player.recording.read_bytes() if self.is_up else b"", []
        with contextlib.suppress(Fault):
            self.entries = read_recording(self.left).entries
        return outcome

    def replayed(self, lines):
        """The station that takes these lines as its entries came: each at the stamp of the next entry that is not told, or
        behind the time that stands before it."""
        post, lines = Post(self.script, self.station, by_system=True), list(lines)
        while lines or len(post.entries) < len(self.entries):
            before = len(post.entries), len(lines)
            self.replay_next(post, lines)
            if before == (len(post.entries), len(lines)):
                break
        post.show(self.ended)
        post.wake()
        return post

    def replay_next(self, post, lines):
        """The next of the lines, or what came between them."""
        rest = self.entries[len(post.entries) :]
        if rest and rest[0].kind != TOLD:
            post.show(rest[0].stamp)
        if rest and rest[0].kind == RECEIVED:
            post.hear(rest[0].datagram)
            if len(rest) < 2 or rest[1].kind != RECEIVED:
                post.wake()
        elif rest and rest[0].kind == SENT and request_of(decoded(rest[0].datagram)) in [order.number for order in post.due()]:
            post.wake()
        elif lines:
            self.replay_line(post, lines.pop(0))

    @staticmethod
    def replay_line(post, line):
        """A line; with a time before it, what was due by then comes first."""
        if isinstance(line, tuple):
            post.show(line[0])
            post.wake()
        post.take(line[-1] if isinstance(line, tuple) else line)

    def verdicts(self, lines, outcome):
        """Whether it was up, and recorded, printed and sent what follows of the stamps of its entries; and whether these are
        times at which it ran, and rise."""
        post, stamps = self.replayed(lines), [entry.stamp for entry in self.entries if entry.kind != TOLD]
        return [
            Verdict(f"{self.name} is up", (True,), self.is_up),
            Verdict(f"{self.name} ends", (post.outcome(),), outcome),
            Verdict(f"what {self.name} recorded", (post.text(),), self.left),
            Verdict(f"what {self.name} sent", (post.sent,), [datagram for datagram, _ in self.came]),
            Verdict(f"the stamps of {self.name}", (sorted(stamps),), stamps),
            Verdict(f"when {self.name} ran", (True,), all(self.began <= stamp <= self.ended for stamp in stamps)),
            Verdict(f"the timestamps of {self.name}", ([True] * len(self.came),), [is_near(*one) for one in self.came]),
        ]


def gaps(times):
    """How long after the first of some times each later one is, in milliseconds."""
    return [(later - times[0]) / 1000 for later in times[1:]]


def are_after(times, waits):
    """Whether each time but the first comes so many milliseconds after it, or at most a twentieth of a second later; the
    first may have been seen a little late."""
    return len(times) == len(waits) + 1 and all(-5 <= gap - wait <= SOON / 1000 for gap, wait in zip(gaps(times), waits))


def try_stamps(trials):
    """Orders of the station and of its peer in turn: what is stamped, when it was sent and came, and the timestamps."""
    machine, lines, near = Machine(trials, "clock.stamps", wait=5_000), [], []
    for number in range(1, 11):
        lines.append(b"create 1:1 2:3:%d" % number)
        typed = machine.says(lines[-1])
        machine.listen(1000 * PATIENCE, 1)
        heard = machine.hears(answer_to(machine.came[-1][0]))
        machine.player.wait_for_entries(4 * number - 2)
        ordered = machine.hears(order(number))
        machine.listen(1000 * PATIENCE, 1)
        near += [typed, heard, ordered, ordered]
        time.sleep(0.011)
    outcome = machine.ends()
    late = [entry.stamp - at for entry, at in zip(machine.entries, near)]
    print(f"stamps: the latest of {len(late)} entries was stamped after {max(late, default=0) / 1000:.1f} ms")
    return [
        *machine.verdicts(lines, outcome),
        Verdict("entries are stamped soon", (True,), len(late) == 40 and all(-SOON < one < SOON for one in late)),
    ]


def try_deaf(trials):
    """A deaf peer: the order is sent again by itself, while nobody types or a line has begun, and given up at last."""
    verdicts = []
    for begun in (b"", b"tell 1:"):
        machine, lines = Machine(trials, f"clock.deaf.{len(begun)}"), [b"create 1:1 2:3:9"]
        machine.player.process.stdin.write(lines[0] + b"\n" + begun)
        machine.player.process.stdin.flush()
        machine.listen(3.5 * WAIT)
        given_up = machine.wait_for_note(b"# given-up ")
        if begun:
            lines.append((machine.says(b"1 7"), b"tell 1:1 7"))
            machine.player.wait_for_entries(4)
        outcome = machine.ends()
        times = [came for _, came in machine.came]
        print(f"deaf: sent again {' and '.join(f'{gap:.1f}' for gap in gaps(times))} ms after the order")
        verdicts += machine.verdicts(lines, outcome)
        verdicts.append(Verdict(f"when {machine.name} sent again", (True,), are_after(times, [WAIT, 2 * WAIT])))
        verdicts.append(Verdict(f"{machine.name} gave up", (True,), bool(times) and given_up - times[0] >= 3000 * WAIT))
    return verdicts


def try_given_up(trials):
    """An order is given up as soon as it is due once more."""
    machine = Machine(trials, "clock.given-up", tries=1)
    machine.says(b"create 1:1 2:3:9")
    machine.listen(1000 * PATIENCE, 1)
    given_up = machine.wait_for_note(b"# given-up ")
    outcome, times = machine.ends(), [came for _, came in machine.came]
    return [
        *machine.verdicts([b"create 1:1 2:3:9"], outcome),
        Verdict("when an order is given up", (True,), are_after([*times, given_up], [WAIT])),
    ]


def try_answered(trials):
    """What is answered is not sent again, but for an answer that settles nothing; nor is what was given up."""
    machine, lines = Machine(trials, "clock.answered"), [b"create 1:1 2:3:%d" % number for number in (8, 9, 10)]
    machine.says(*lines)
    first, second, _ = machine.listen(1000 * PATIENCE, 3)
    machine.hears(answer_to(first[0]))
    machine.hears(answer_to(second[0], PENDING))
    again = machine.listen(1.5 * WAIT)
    for datagram, _ in again[1:]:
        machine.hears(answer_to(datagram))
    machine.listen(4 * WAIT)
    outcome = machine.ends()
    requests = [request_of(decoded(datagram)) for datagram, _ in machine.came]
    return [
        *machine.verdicts(lines, outcome),
        Verdict("what is sent again beside what is answered", ([1, 2, 3, 2, 3, 2],), requests),
    ]


def try_short(trials):
    """A station whose wait its script does not say waits for a second; one whose wait is 0 not at all."""
    verdicts = []
    for name, how, line, waits in (
        ("slow", {"station": PEER}, b"create 2:3 1:1:9", [1000, 2000]), ("hasty", {"wait": 0}, b"create 1:1 2:3:9", [0, 0]),
    ):  # fmt: skip
        machine = Machine(trials, f"clock.{name}", **how)
        machine.says(line)
        machine.listen(waits[-1] + 500)
        outcome, times = machine.ends(), [came for _, came in machine.came]
        verdicts += machine.verdicts([line], outcome)
        verdicts.append(Verdict(f"when {machine.name} sent again", (True,), are_after(times, waits)))
    return verdicts


def try_many(trials):
    """Two hundred orders that nobody answers: each is sent three times, in their order."""
    machine, lines = Machine(trials, "clock.many"), [b"create 1:1 2:3:%d" % number for number in range(1, 201)]
    for line in lines:
        machine.says(line)
        machine.listen(0.5)
    machine.listen(4 * WAIT)
    machine.wait_for_note(b"# given-up request=200 ")
    outcome = machine.ends()
    requests = [request_of(decoded(datagram)) for datagram, _ in machine.came]
    each = [requests.count(number) for number in range(1, 201)]
    return [*machine.verdicts(lines, outcome), Verdict("how often each of many orders is sent", ([3] * 200,), each)]


def try_beside_traffic(trials):
    """Beside 2,000 Entity States a second an order is sent again in time."""
    machine = Machine(trials, "clock.traffic")
    machine.peer.setblocking(False)
    machine.says(b"create 1:1 2:3:9")
    started = time.monotonic()
    for number in range(4 * 2 * WAIT):
        machine.hears(ENTITY_STATE)
        machine.listen(max(1000 * (started + number / 2000 - time.monotonic()), 0))
    machine.wait_for_note(b"# given-up ")
    outcome, times = machine.ends(), [came for _, came in machine.came]
    other = b"station records=3 dropped=0 strangers=0 other=%d lost=0 buffer=N" % (4 * 2 * WAIT)
    return [
        Verdict("when an order is sent again beside traffic", (True,), are_after(times, [WAIT, 2 * WAIT])),
        Verdict("a station with its order beside traffic", ((0, [other]),), (outcome.status, outcome.out.splitlines()[-1:])),
    ]


def try_stood_still(trials):
    """A station that stood still for long sends an order again once, and then waits anew."""
    machine = Machine(trials, "clock.still")
    machine.says(b"create 1:1 2:3:9")
    machine.listen(1000 * PATIENCE, 1)
    machine.player.process.send_signal(signal.SIGSTOP)
    time.sleep(5 * WAIT / 1000)
    woken = now()
    machine.player.process.send_signal(signal.SIGCONT)
    machine.listen(1.5 * WAIT)
    outcome, times = machine.ends(), [came for _, came in machine.came]
    return [
        *machine.verdicts([b"create 1:1 2:3:9"], outcome),
        Verdict("what is sent again after a standstill", (True,), are_after([woken, *times[1:]], [0, WAIT])),
    ]


def try_refused(trials):
    """`at` is refused, and why is said, and `help` does not list it; `tick` and `status` are lines as ever."""
    lines = [b"at 5", b"create 1:1 2:3:9", b"tick 1:1", b"at 18446744073709551615", b"help", b"status"]
    machine = Machine(trials, "clock.refused")
    machine.says(*lines)
    machine.player.wait_for(lambda: any(line.startswith(b"# waiting ") for line in machine.player.lines))
    outcome, refused = machine.ends(), b""
    for number in (1, 4):
        refused += b"line %d: system-clock\n  the clock is the system's (clock=system), and no line sets it\n" % number
    status = next((line for line in machine.player.lines if line.startswith(b"# status ")), b"# status clock=0 ")
    shown = int(status.split()[2].partition(b"=")[2])
    return [
        Verdict("what a station tells of at by the system's clock", ((2, refused),), (outcome.status, machine.player.errors)),
        Verdict("what help lists by the system's clock", (True,), help_text(True).encode() in b"".join(machine.player.lines)),
        Verdict("how many entries it has", ([SENT],), [entry.kind for entry in machine.entries]),
        Verdict("the clock of its status", (True,), machine.began <= shown <= machine.ended),
    ]


def try_idle(trials):
    """A station takes under a hundredth of a processor where no order waits, where one waits long, and for good."""
    verdicts = []
    for name, lines, how in (
        ("nothing", [], {}), ("an hour", [b"create 1:1 2:3:9"], {"wait": 3_600_000}), ("ever", [b"create 1:1 2:3:9"], {"wait": 2**64 - 1}),
        ("what was given up", [b"create 1:1 2:3:9"], {"wait": 0}),
    ):  # fmt: skip
        machine = Machine(trials, f"clock.idle.{len(verdicts)}", **how)
        machine.says(*lines)
        machine.listen(300)
        before, started = seconds_of(machine.player.process), time.monotonic()
        time.sleep(3)
        share = (seconds_of(machine.player.process) - before) / (time.monotonic() - started)
        came = share < 0.01, machine.ends().status
        verdicts.append(Verdict(f"a station that waits for {name}, under 1 in 100 of a processor", ((True, 0),), came))
    return verdicts


def try_ended(trials):
    """The end of the lines ends it at once, though an order waits; and so does `quit`."""
    verdicts = []
    for ending in ([], [b"quit"]):
        machine = Machine(trials, f"clock.ended.{len(ending)}", wait=60_000)
        machine.says(b"create 1:1 2:3:9", *ending)
        machine.listen(1000 * PATIENCE, 1)
        started = time.monotonic()
        outcome = machine.ends()
        verdicts += machine.verdicts([b"create 1:1 2:3:9"], outcome)
        verdicts.append(Verdict(f"{machine.name} ends at once", (True,), time.monotonic() - started < 1))
    return verdicts


TRIES = (
    try_stamps, try_deaf, try_given_up, try_answered, try_short, try_many, try_beside_traffic, try_stood_still, try_refused,
    try_idle, try_ended,
)  # fmt: skip
