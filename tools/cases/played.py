"""A station that the program plays over UDP: a process, its lines, and what it prints as it goes."""
import contextlib
import itertools
import os
import re
import socket
import subprocess
import threading
import time
from pathlib import Path

from cases.trials import PATIENCE, steady, without_reasons
from pages import Outcome


# Ports below those that the system gives to sockets that ask for none, so that no other socket takes one in between.
PORTS = itertools.count(10_000 + os.getpid() % 20 * 1_000)
LOCK = threading.Lock()


def ports_in_use():
    """The ports at which sockets are, as the system tells them. No socket is bound to try one: a child that another thread
    starts at that moment would hold it until it runs its program, and the port with it."""
    with contextlib.suppress(FileNotFoundError):
        rows = Path("/proc/net/udp").read_text(encoding="ascii").splitlines()[1:]
        return {int(row.split()[1].rpartition(":")[2], 16) for row in rows}
    return set()


def free_address():
    """An address of the loopback that nobody uses, and that is given once."""
    while True:
        with LOCK:
            port = next(PORTS)
        if port not in ports_in_use():
            return "127.0.0.1", port


def word_of(address):
    return "{}:{}".format(*address)


STRANGER = re.compile(rb"(?m)^# stranger .*\n")


def strangers_first(outcome):
    """An outcome with the notes of strangers in front, in their order: behind which row each stands depends on when the
    station was woken."""
    notes = b"".join(STRANGER.findall(outcome.out))
    return outcome._replace(out=notes + STRANGER.sub(b"", outcome.out))


def bound(address=None):
    """A socket of the loopback, at an address or at one that nobody uses."""
    it = socket.socket(socket.AF_INET, socket.SOCK_DGRAM)
    it.setsockopt(socket.SOL_SOCKET, socket.SO_RCVBUF, 1 << 22)
    it.bind(address or ("127.0.0.1", 0))
    return it


class Player:
    """A process of `station`, which takes lines until it is closed or killed. What it tells of faults is kept in `errors`
    as it came; its outcome has that without the second lines of faults, and `buffer=N` for what the system gives."""

    def __init__(self, program, folder, script, station, recording, own, peers, *more, before=(), **how):
        self.recording = folder / recording
        station = "{}:{}".format(*station)
        words = [*before, program, "station", script, station, recording, word_of(own), *map(word_of, peers), *more]
        self.process = subprocess.Popen(
            list(map(str, words)), cwd=folder, stdin=subprocess.PIPE, stdout=subprocess.PIPE, stderr=subprocess.PIPE, **how
        )  # fmt: skip
        self.own, self.lines, self.entries, self.errors = own, [], 0, b""
        self.readers = [threading.Thread(target=reads, daemon=True) for reads in (self.read_lines, self.read_errors)]
        for reader in self.readers:
            reader.start()

    def read_lines(self):
        for line in self.process.stdout:
            self.lines.append(line)
            self.entries += line.startswith(b"entry ")

    def read_errors(self):
        self.errors = self.process.stderr.read()

    def say(self, *lines):
        """Hands it lines of text; false where it takes none any more."""
        try:
            self.process.stdin.write(b"".join(line + b"\n" for line in lines))
            self.process.stdin.flush()
            return True
        except BrokenPipeError:
            return False

    def wait_for(self, holds):
        """Waits until something holds; whether it does."""
        ends = time.monotonic() + PATIENCE
        while not holds() and time.monotonic() < ends and self.process.poll() is None:
            time.sleep(0.0005)
        return holds()

    def wait_for_entries(self, count):
        """Waits until the row `entry` of so many entries is printed."""
        return self.wait_for(lambda: self.entries >= count)

    def is_up(self):
        """Waits until its file is there: it is made once the socket is bound, and the greeting printed."""
        return self.wait_for(lambda: self.recording.exists())

    def kill(self):
        self.process.kill()
        return self.ended()

    def close(self):
        """Ends its input, and waits for its end."""
        try:
            self.process.stdin.close()
        except BrokenPipeError:
            pass
        return self.ended()

    def ended(self):
        try:
            status = self.process.wait(PATIENCE)
        except subprocess.TimeoutExpired:
            self.process.kill()
            status = f"none in {PATIENCE} seconds"
        for reader in self.readers:
            reader.join(PATIENCE)
        return Outcome(status, steady(b"".join(self.lines)), without_reasons(self.errors))
