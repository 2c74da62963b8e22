"""A station that waits for its lines and its socket together: what comes while nobody types, beside other traffic, and more
than its socket holds."""
import os
import pty
import re
import select
import signal
import struct
import subprocess
import time

from cases import texts
from cases.floods import drops
from cases.played import Player, bound, free_address, word_of
from cases.trials import PATIENCE, Verdict
from pages import CREATE, RECEIVED, SENT, TOLD, read_recording

SETUP = b"exercise 4\nstation 2:3\nopening 2:3 7 stopped\n"
OWN = (2, 3)
SOON = 0.05  # seconds in which an answer is out and on the screen
ENTITY_STATE = struct.pack(">BBBBIHH", 7, 4, 1, 1, 0, 144, 0) + bytes(132)


def order(number):
    return texts.pdu(CREATE, (1, 1, 0), (*OWN, 100 + number % 4000), exercise=4, request=number)


class Machine:
    """A process of the station 2:3 with one peer, which is here."""

    def __init__(self, trials, name, *more, **how):
        (trials.folder / f"{name}.script").write_bytes(SETUP)
        self.peer, self.own = bound(), free_address()
        self.player = Player(trials.program, trials.folder, f"{name}.script", OWN, f"{name}.dsrc", self.own, [self.peer.getsockname()], *more, **how)
        self.is_up = self.player.is_up()

    def answer_to(self, datagram):
        """The seconds until an answer is here, and until the rows of two more entries are printed."""
        entries, started = self.player.entries, time.monotonic()
        self.peer.sendto(datagram, self.own)
        self.peer.settimeout(PATIENCE)
        self.peer.recv(65536)
        answered = time.monotonic() - started
        self.player.wait_for_entries(entries + 2)
        return answered, time.monotonic() - started

    def entries(self):
        return read_recording(self.player.recording.read_bytes()).entries


def kinds(entries):
    return [entry.kind for entry in entries]


def try_nobody_types(trials):
    """Twenty orders come while nobody types, the later ones while a line has begun; then it goes on where it was."""
    machine = Machine(trials, "silent")
    times = [machine.answer_to(order(number)) for number in range(10)]
    machine.player.process.stdin.write(b"tell 2")
    machine.player.process.stdin.flush()
    times += [machine.answer_to(order(number)) for number in range(10, 20)]
    machine.player.say(b":3 7", b"quit", b"tell 2:3 7")
    outcome = machine.player.ended()
    machine.peer.close()
    slowest = max(max(pair) for pair in times)
    print(f"silent: the slowest of 20 answers was on the screen after {1000 * slowest:.1f} ms")
    return [
        Verdict("a station at which nobody types is up, and ends by quit", ((True, 0),), (machine.is_up, outcome.status)),
        Verdict("its answers are out and on the screen soon", (True,), slowest < SOON),
        Verdict("what it recorded", ([RECEIVED, SENT] * 20 + [TOLD],), kinds(machine.entries())),
    ]


def try_terminal(trials):
    """The same at a terminal: an order comes before a line, in the middle of one, and behind it; Ctrl-D ends it."""
    (trials.folder / "terminal.script").write_bytes(SETUP)
    peer, own, (master, slave) = bound(), free_address(), pty.openpty()
    words = ["station", "terminal.script", "2:3", "terminal.dsrc", word_of(own), word_of(peer.getsockname())]
    process = subprocess.Popen([trials.program, *words], cwd=trials.folder, stdin=slave, stdout=slave, stderr=slave)
    os.close(slave)
    came = b""

    def until(text):
        nonlocal came
        ends = time.monotonic() + PATIENCE
        while text not in came and time.monotonic() < ends:
            if select.select([master], [], [], 0.01)[0]:
                came += os.read(master, 65536)
        return text in came

    while not (trials.folder / "terminal.dsrc").exists() and process.poll() is None:
        time.sleep(0.001)
    peer.sendto(order(1), own)
    seen = [until(b"help lists the lines"), until(b"entry 1 2:3 sent ")]
    os.write(master, b"tell 2:")
    peer.sendto(order(2), own)
    seen.append(until(b"entry 3 2:3 sent "))
    os.write(master, b"3 7\n")
    seen.append(until(b"entry 4 2:3 told entity=2:3:7 state=stopped"))
    peer.sendto(order(3), own)
    seen.append(until(b"entry 6 2:3 sent "))
    os.write(master, b"\x04")
    seen.append(until(b"station records=7 "))
    status = process.wait(PATIENCE)
    os.close(master)
    peer.close()
    return [Verdict("a station at a terminal", (([True] * 6, 0),), (seen, status))]


def try_inputs(trials):
    """A file and /dev/null end the exercise at once, with a whole recording; a pipe that stays open does not."""
    verdicts = []
    (trials.folder / "orders").write_bytes(b"tell 2:3 7\ntell 2:3 8")
    for name, path, count in (("file", trials.folder / "orders", 2), ("null", "/dev/null", 0)):
        (trials.folder / f"{name}.script").write_bytes(SETUP)
        words = ["station", f"{name}.script", "2:3", f"{name}.dsrc", word_of(free_address()), word_of(free_address())]
        with open(path, "rb") as file:
            done = subprocess.run([trials.program, *words], cwd=trials.folder, stdin=file, capture_output=True, timeout=PATIENCE, check=False)
        entries = read_recording((trials.folder / f"{name}.dsrc").read_bytes()).entries
        verdicts.append(Verdict(f"a station whose lines are a {name}", ((0, [TOLD] * count),), (done.returncode, kinds(entries))))
    return verdicts


def seconds_of(process):
    """The seconds of a processor that a process has taken."""
    with open(f"/proc/{process.pid}/stat", encoding="ascii") as file:
        fields = file.read().rpartition(")")[2].split()
    return (int(fields[11]) + int(fields[12])) / os.sysconf("SC_CLK_TCK")


def try_idle(trials):
    """A station to which nothing comes takes under a hundredth of a processor."""
    machine = Machine(trials, "idle")
    before, started = seconds_of(machine.player.process), time.monotonic()
    time.sleep(3)
    share = (seconds_of(machine.player.process) - before) / (time.monotonic() - started)
    outcome = machine.player.close()
    machine.peer.close()
    return [Verdict("an idle station, under 1 in 100 of a processor", ((True, 0),), (share < 0.01, outcome.status))]


def try_beside_traffic(trials):
    """2,000 Entity States a second for five seconds beside 50 orders: nothing is lost, and only the orders are recorded."""
    machine, count, orders, answers = Machine(trials, "traffic"), 10_000, 50, 0
    machine.peer.setblocking(False)
    started = time.monotonic()
    for number in range(count):
        machine.peer.sendto(ENTITY_STATE, machine.own)
        if number % (count // orders) == 0:
            machine.peer.sendto(order(number // (count // orders)), machine.own)
        behind = started + number / 2000 - time.monotonic()
        if behind > 0:
            time.sleep(behind)
    machine.player.wait_for_entries(2 * orders)
    outcome = machine.player.close()
    while select.select([machine.peer], [], [], 0)[0]:
        machine.peer.recv(65536)
        answers += 1
    machine.peer.close()
    last = outcome.out.splitlines()[-1:]
    counts = b"station records=%d dropped=0 strangers=0 other=%d lost=0 buffer=N" % (2 * orders, count)
    return [
        Verdict("a station beside 2,000 Entity States a second", ((0, [counts]),), (outcome.status, last)),
        Verdict("its answers to 50 orders", (orders,), answers),
    ]


def try_lost(trials):
    """More comes to a station that stands still than its socket holds: what it says is lost is the system's own count."""
    machine, count = Machine(trials, "lost"), 60_000
    machine.player.process.send_signal(signal.SIGSTOP)
    for number in range(count):
        machine.peer.sendto(order(number), machine.own)
    lost = drops(machine.own)
    machine.player.process.send_signal(signal.SIGCONT)
    machine.player.wait_for_entries(2 * (count - lost))
    machine.player.say(b"quit")
    outcome = machine.player.ended()
    machine.peer.close()
    told = re.search(rb" lost=(\d+) buffer=N\n$", outcome.out)
    notes = [int(count) for count in re.findall(rb"(?m)^# lost datagrams=(\d+)$", outcome.out)]
    received = kinds(machine.entries()).count(RECEIVED)
    print(f"lost: of {count} datagrams {received} recorded, {lost} lost")
    return [
        Verdict("a station to which too much comes", ((0, True),), (outcome.status, lost > 0)),
        Verdict("what it says is lost", (lost,), int(told[1]) if told else None),
        Verdict("what it notes of that as it goes, rising, up to all", ((True, [lost]),), (notes == sorted(set(notes)), notes[-1:])),
        Verdict("what it recorded and what was lost", (count,), received + lost),
    ]


TRIES = (try_nobody_types, try_terminal, try_inputs, try_idle, try_beside_traffic, try_lost)
