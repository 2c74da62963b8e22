"""`station` from outside: its words and faults, its streams, its socket, what it hears, memory that is refused to it, and
calls of the system that fail."""
import itertools
import os
import re
import socket
import struct
import subprocess
import sys

import pages
from cases import texts
from cases.memory import LATER, refusing_library
from cases.played import Player, bound, free_address, strangers_first, word_of
from cases.sockets import FAILING, NO_FILTER
from cases.trials import PATIENCE, Case, Some, Verdict, first_lines, steady, without_reasons
from pages import (
    ACTION_REQUEST, CREATE, DATA_QUERY, MOST_ENTRIES, MOST_STRANGERS_NOTED, REMOVE, SENT, SET_DATA, START, STOP, TOLD, Outcome, Post,
    greeting, read_recording,
)  # fmt: skip

SETUP = b"""exercise 4
station 1:1 first=1 tries=3 wait=10
station 2:3
opening 2:3 7 stopped
fixed 2:3 30 5
action 2:3 40
tick 1:1
"""
# By the system's clock its orders are due at once.
HASTY = SETUP.replace(b"station 2:3\n", b"station 2:3 first=1 tries=3 wait=0\n")
BEHIND_PEERS = ("from=any", "keep=all", "clock=system")
OWN, MANAGER = (2, 3), (1, 1, 0)
GREETING = greeting(OWN).encode()
COUNTS = b"station records=0 dropped=0 strangers=0 other=0 lost=0 buffer=N\n"
# Each move, and a line that is none.
BAD, BAD_AT = b"moves", b"line 5: bad-line"
LINES = (
    b"", b"create 2:3 1:1:4", b"at 20", b"tick 2:3", BAD, b"start 2:3 1:1:4", b"stop 2:3 1:1:4", b"do 2:3 1:1:0 40",
    b"query 2:3 1:1:0 5 6", b"set 2:3 1:1:0 5 7", b"remove 2:3 1:1:4", b"tell 2:3 9", b"at 30", b"tick 2:3", b"help", b"status", b"",
)  # fmt: skip


def order(number, kind=CREATE, entity=9, **values):
    return texts.pdu(kind, MANAGER, (*OWN, entity), exercise=4, request=number, **values)


def orders():
    """Each kind of request, and one of them twice."""
    return [
        order(1), order(2, START), order(1), order(3, STOP), order(4, ACTION_REQUEST, action=40),
        order(5, DATA_QUERY, 0, fixed=2, records=struct.pack(">II", 30, 31)),
        order(6, SET_DATA, 0, fixed=1, records=texts.fixed_datum(30, 6)), order(7, REMOVE),
    ]  # fmt: skip


class Station:
    """A process of the station 2:3 with one peer, which is here."""

    def __init__(self, trials, name, *more, peer=None, own=None, setup=SETUP, **how):
        (trials.folder / f"{name}.script").write_bytes(setup)
        self.peer, self.own = peer or bound(), own or free_address()
        words = (f"{name}.script", OWN, f"{name}.dsrc", self.own, [self.peer.getsockname()], *more)
        self.player = Player(trials.program, trials.folder, *words, **how)
        self.is_up = self.player.is_up()

    def hears(self, *datagrams):
        for datagram in datagrams:
            self.peer.sendto(datagram, self.own)

    def ends(self):
        """Its outcome, and what its file holds, if there is one."""
        outcome = self.player.close()
        path = self.player.recording
        return outcome, path.read_bytes() if path.exists() else None

    def sent(self):
        """What came at the peer."""
        self.peer.setblocking(False)
        came = []
        try:
            while True:
                came.append(self.peer.recv(65536))
        except BlockingIOError:
            self.peer.close()
            return came


def try_words(trials):
    """The faults before the first line, in their order: each case has all those that come behind its own, too."""
    setup = trials.file(SETUP)
    stands = trials.file(b"x")
    taken = bound()
    many = trials.file(SETUP.replace(b"tick 1:1\n", b"") + b"".join(b"opening 2:3 %d running\n" % number for number in range(8, 4105)))
    here, there, busy = word_of(free_address()), word_of(free_address()), word_of(taken.getsockname())
    trials.keeps = [taken]
    for words, fault in [
        (["none", "1:1:1", stands, "x", "y"], "station: address 1:1:1"),
        (["none", "0:1", stands, "x", "y"], "station: address 0:1"),
        (["none", "2:4", stands, "127.0.0.1", "y"], "station: address 127.0.0.1"),
        (["none", "2:4", stands, busy, there, "127.0.0.256:1", "z"], "station: address 127.0.0.256:1"),
        (["none", "2:4", stands, busy, "from=any", there], "station: address from=any"),
        (["none", "2:4", stands, busy, "clock=system", there], "station: address clock=system"),
        (["none", "2:4", stands, busy, there, "clock=lines"], "station: address clock=lines"),
        (["none", "2:4", stands, busy, there, "keep=all", "keep=all"], "station: address keep=all"),
        (["none", "2:4", stands, busy, there, "clock=system", "from=any", "clock=system"], "station: address clock=system"),
        (["none", "2:4", stands, busy, there, "clock=sytem"], "station: address clock=sytem"),
        (["none", "2:4", stands, busy, there], "file: none: no such file"),
        ([trials.file(b"exercise 1\n"), "2:4", stands, busy, there], "script: bad-line at line 2"),
        (["examples", "2:4", stands, busy, there], "file: examples: is a directory"),
        ([many, "2:4", stands, busy, there], "station: not-in-setup"),
        ([many, "2:3", stands, busy, there], "world: stations"),
        ([setup, "2:3", stands, busy, there], "output: exists"),
        ([setup, "2:3", stands, busy, there, "keep=all", "clock=system", "from=any"], "output: exists"),
        ([setup, "2:3", setup, busy, there], "output: exists"),
        ([setup, "2:3", "none/there.dsrc", busy, there], "live: line"),
        ([setup, "2:3", "none/there.dsrc", "192.0.2.1:3000", there], "live: line"),
    ]:
        trials.expect(["station", *words], pages.fault(fault), given=b"tell 2:3 7\n")
    greeted = pages.fault("output: write")._replace(out=GREETING)
    trials.expect(["station", setup, "2:3", "none/there.dsrc", here, there], greeted, given=b"tell 2:3 7\n")
    begun = [setup, "2:3", "new", here]
    for words in ([], [setup], begun, [*begun, "from=any"], [*begun, "clock=system"], [*begun, *BEHIND_PEERS], [*begun, there, "-x"]):
        trials.expect(["station", *words], Outcome(2, b"", Some()))
    for behind in itertools.permutations(BEHIND_PEERS):
        words = [setup, "2:3", "/dev/null", word_of(free_address()), there, *behind]
        trials.expect(["station", *words], Outcome(0, GREETING + COUNTS, b""))
    trials.expect(["station", setup, "2:3", "/dev/null", here, there], Outcome(0, GREETING + COUNTS, b""))
    trials.expect(["station", setup, "2:3", "/dev/full", there, here], greeted)


def try_streams(trials):
    """Where the greeting cannot be printed no file is made; a closed standard input is one that cannot be read."""
    setup, there = trials.file(SETUP), word_of(free_address())
    for number, (behind, given, status, out, errors, count) in enumerate([
        (">/dev/full", b"tell 2:3 7\ntell 2:3 8\n", 2, b"", b"output: write\n", None),
        (">&-", b"tell 2:3 7\ntell 2:3 8\n", 2, b"", b"output: write\n", None),
        ("<&-", b"", 2, GREETING + COUNTS, b"file: -\n", 0),
        ("2>/dev/full", b"bad\ntell 2:3 7\n", 2, GREETING + told_row(0) + COUNTS.replace(b"0", b"1", 1), b"", 1),
    ]):  # fmt: skip
        name = f"streams.{number}.dsrc"
        words = ["station", setup, "2:3", name, word_of(free_address()), there]
        case = Case(words, (Outcome(status, out, errors),), given, behind=behind)
        trials.tasks.append(lambda case=case, name=name, count=count: [
            trials.verdict(case), Verdict(f"how many entries {name} has", (count,), count_of(trials, name)),
        ])  # fmt: skip
    trials.tasks.append(lambda: unheard(trials))


def told_row(number):
    return b"entry %d 2:3 told entity=2:3:7 state=stopped\n" % number


def count_of(trials, name):
    """How many entries a recording has, or None where there is no file."""
    path = trials.folder / name
    return len(read_recording(path.read_bytes()).entries) if path.exists() else None


def unheard(trials):
    """Whoever reads what it prints goes away behind the greeting: it goes on recording."""
    words = ["station", trials.file(SETUP), "2:3", "unheard.dsrc", word_of(free_address()), word_of(free_address())]
    process = subprocess.Popen(
        [trials.program, *words], cwd=trials.folder, stdin=subprocess.PIPE, stdout=subprocess.PIPE, stderr=subprocess.PIPE
    )
    greeted = process.stdout.readline() + process.stdout.readline()
    process.stdout.close()
    process.stdin.write(b"tell 2:3 7\nstatus\ntell 2:3 8\n")
    process.stdin.close()
    errors = process.stderr.read()
    return [
        Verdict("what a station prints before nobody reads on", (GREETING,), steady(greeted)),
        Verdict("a station that nobody reads on", ((2, b"output: write\n"),), (process.wait(PATIENCE), without_reasons(errors))),
        Verdict("how many entries it has", (2,), count_of(trials, "unheard.dsrc")),
    ]


def try_heard(trials):
    """What comes from addresses that are no peers is dropped and counted, and the first of them are noted, unless anyone is
    heard."""

    def tried():
        verdicts = []
        for more in ([], ["from=any"]):
            station = Station(trials, f"heard.{len(more)}", *more)
            strangers, post = [bound() for _ in range(MOST_STRANGERS_NOTED + 6)], Post(SETUP, OWN)
            for number in range(100):
                stranger = strangers[number % len(strangers)]
                stranger.sendto(order(number), station.own)
                if more:
                    post.hear(order(number))
                else:
                    post.pass_over(word_of(stranger.getsockname()))
            station.hears(order(1000))
            post.hear(order(1000))
            # A receive passes over 64 strangers, and then finds nothing: what came behind them is found by the next wait.
            station.player.say(b"")
            station.player.wait_for_entries(len(post.entries))
            station.player.say(b"tell 2:3 7", b"status")
            for line in (b"", b"tell 2:3 7", b"status"):
                post.take(line)
            outcome, left = station.ends()
            for stranger in strangers:
                stranger.close()
            expected = strangers_first(post.outcome())
            verdicts.append(Verdict(f"a station among strangers, with {more}", (expected,), strangers_first(outcome)))
            verdicts.append(Verdict(f"what it recorded, with {more}", (post.text(),), left))
            verdicts.append(Verdict(f"what it sent, with {more}", (post.sent,), station.sent()))
        return verdicts

    trials.tasks.append(tried)


def try_broadcast(trials):
    """It sends to a broadcast address, and hears what is broadcast where it is bound to all interfaces."""

    def tried():
        own, other = ("0.0.0.0", free_address()[1]), bound(("0.0.0.0", free_address()[1]))
        other.setsockopt(socket.SOL_SOCKET, socket.SO_BROADCAST, 1)
        (trials.folder / "broadcast.script").write_bytes(SETUP)
        all_of_net = ("127.255.255.255", other.getsockname()[1])
        player = Player(trials.program, trials.folder, "broadcast.script", OWN, "broadcast.dsrc", own, [all_of_net], "from=any")
        is_up, post = player.is_up(), Post(SETUP, OWN)
        other.sendto(order(5), ("127.255.255.255", own[1]))
        post.hear(order(5))
        player.say(b"", b"tell 2:3 9")
        post.take(b"tell 2:3 9")
        outcome = player.close()
        other.settimeout(5)
        came = other.recv(65536)
        other.close()
        return [
            Verdict("a station that broadcasts is up", (True,), is_up),
            Verdict("a station that hears what is broadcast", (post.outcome(),), outcome),
            Verdict("what it broadcast", (post.sent,), [came]),
        ]

    trials.tasks.append(tried)


def try_calls(trials):
    """A send or a receive that fails is told, and it goes on: the entry stands, and its recording is whole."""
    for call, lines, told, sends in (
        ("sendto", [b"create 2:3 1:1:4", b"tell 2:3 7"], "line 1: live: line\n", 0),
        ("recvfrom", [b"create 2:3 1:1:4", b"tell 2:3 7"], "line 1: live: line\nline 2: live: line\n", 1),
    ):

        def tried(call=call, lines=lines, told=told, sends=sends):
            before = [sys.executable, FAILING, call, "-", "EPERM"]
            station, post = Station(trials, f"failing.{call}", before=before), Post(SETUP, OWN)
            for line in lines:
                post.take(line)
            station.player.say(*lines)
            outcome, left = station.ends()
            if outcome.status == NO_FILTER:
                trials.skipped.append(f"calls of a station that fail ({call}): no filter of calls")
                return []
            usual = post.outcome()
            return [
                Verdict(f"station where each {call} fails", (Outcome(2, usual.out, told.encode()),), outcome),
                Verdict(f"what it recorded where each {call} fails", (post.text(),), left),
                Verdict(f"what it sent where each {call} fails", (sends,), len(station.sent())),
            ]

        trials.tasks.append(tried)


def try_memory(trials):
    """Memory refused at each allocation in turn: `memory` is told, status 3, and it goes on; no file is there, or a whole
    recording, which some order explains and in which stands all that was sent."""
    library = refusing_library(trials)
    if library is None:
        return
    for alone in (True, False):
        trials.tasks.append(lambda alone=alone: refused(trials, library, alone))
        trials.tasks.append(lambda alone=alone: refused_as_it_ticks(trials, library, alone))


def begun_with_refusals(trials, library, name, first, last, *more, **how):
    """A station to which these allocations are refused, and where it is marked that one was."""
    reader, writer = os.pipe()
    refuse = {"REFUSE_FIRST": str(first), "REFUSE_LAST": str(last), "REFUSE_MARK": str(writer)}
    environment = {**os.environ, "LD_PRELOAD": str(library), **refuse}
    station = Station(trials, name, *more, env=environment, pass_fds=[writer], **how)
    os.close(writer)
    return station, reader


def was_marked(reader):
    """Whether an allocation was refused, once the station has ended."""
    is_refused = os.read(reader, 1) != b""
    os.close(reader)
    return is_refused


def refused_as_it_ticks(trials, library, alone):
    """By the system's clock an order is due at once: also where memory is refused to its repeats it ends with its lines."""
    verdicts = []
    for first in range(1, 2000):
        last = first if alone else LATER
        station, reader = begun_with_refusals(trials, library, f"ticks.{alone}.{first}", first, last, "clock=system", setup=HASTY)
        station.player.say(b"create 2:3 1:1:4", b"status")
        (outcome, left), sent = station.ends(), station.sent()
        is_refused = was_marked(reader)
        is_usual = (outcome.status, outcome.errors, len(sent)) == (0, b"", 3)
        is_right = is_usual or is_refused and is_as_refused(outcome, left, sent)
        verdicts.append(Verdict(f"station that ticks, allocation {first}{'' if alone else ' and all later'} refused", (True,), is_right))
        if not is_refused or not is_right:
            return verdicts
    return [*verdicts, Verdict("the allocations of a station that ticks", ("fewer than 2000",), "more")]


def refused(trials, library, alone):
    verdicts, usual = [], usual_end()
    for first in range(1, 2000):
        station, reader = begun_with_refusals(trials, library, f"refused.{alone}.{first}", first, first if alone else LATER)
        station.hears(*orders())
        station.player.say(*LINES)
        outcome, left = station.ends()
        is_refused = was_marked(reader)
        # Some refusals it gets over.
        # What is lost is not known where the system's list of sockets cannot be read, as here for want of memory.
        known = outcome._replace(out=re.sub(rb" lost=-(?=[ \n])", b" lost=0", outcome.out))
        is_right = (known, left) == usual or is_refused and is_as_refused(outcome, left, station.sent())
        which = f"allocation {first}{'' if alone else ' and all later'} refused"
        verdicts.append(Verdict(f"station, {which}", (True,), is_right))
        if not is_refused:
            return verdicts
    return [*verdicts, Verdict("the allocations of station", ("fewer than 2000",), "more")]


def usual_end():
    """The outcome and the recording of a station that hears all orders and then takes all lines."""
    post = Post(SETUP, OWN)
    for datagram in orders():
        post.hear(datagram)
    for line in LINES:
        post.take(line)
    return post.outcome(), post.text()


def is_as_refused(outcome, left, sent):
    """Whether a station that was refused memory tells that, and left what it must."""
    told = outcome.status == 3 and set(outcome.errors.splitlines()) - {BAD_AT} == {b"memory"}
    if left is None:
        return told and not sent
    recording = read_recording(left)
    recorded = [entry.datagram for entry in recording.entries if entry.kind == SENT]
    return told and recorded == sent and pages.answer_to_audit(left).status == 0


def try_full(trials):
    """Where the recording is full it ends at once, and prints no counts; what stands in the file can be mended."""

    def tried():
        head, entry = Post(SETUP, OWN).text()[:-5], struct.pack(">BHHB", TOLD, 0, 7, 1)
        words = ["station", trials.file(SETUP), "2:3", "station.full.dsrc", word_of(free_address()), word_of(free_address())]
        given = b"tell 2:3 7\n" * (MOST_ENTRIES + 1) + b"bad\n"
        done = subprocess.run(
            [trials.program, *words], input=given, capture_output=True, cwd=trials.folder, timeout=300, check=False
        )
        left, size = (trials.folder / "station.full.dsrc").read_bytes(), len(head) + MOST_ENTRIES * len(entry)
        mended = f"mended records={MOST_ENTRIES} kept={size} truncated at {size}\n".encode()
        return [
            Verdict("a station whose recording is full", ((2, b"output: write\n"),), (done.returncode, first_lines(done.stderr))),
            Verdict("what it printed", (True,), steady(done.stdout) == GREETING + b"".join(map(told_row, range(MOST_ENTRIES)))),
            Verdict("what it recorded", (True,), left == head + MOST_ENTRIES * entry),
            trials.verdict(Case(["mend", "station.full.dsrc", "station.full.mended.dsrc"], (Outcome(0, mended, b""),))),
        ]

    trials.tasks.append(tried)


def try_all(trials, _):
    try_words(trials)
    try_full(trials)
    try_streams(trials)
    try_heard(trials)
    try_broadcast(trials)
    try_calls(trials)
    try_memory(trials)
