"""A proxy between stations on a network: it loses, copies and swaps datagrams by a seed, and forges some."""
import select
import socket
import threading

from cases.played import bound


class Proxy:
    """For each station a socket that stands for all others: what a station sends there comes to all others from the
    sockets that stand for these."""

    def __init__(self, count, chances, loses=0.2, copies=0.1, keeps=0.2):
        self.sockets = [bound() for _ in range(count)]
        self.stations = [None] * count  # where each station is
        self.chances, self.loses, self.copies, self.keeps = chances, loses, copies, keeps
        self.kept = []  # what was kept back, with the station that it is for
        self.passed = [0] * count  # how many datagrams were handed on to each station
        self.lock, self.is_over = threading.Lock(), False
        self.thread = threading.Thread(target=self.run, daemon=True)

    def address(self, number):
        return self.sockets[number].getsockname()

    def start(self):
        self.thread.start()

    def hand_on(self, datagram, number):
        self.sockets[number].sendto(datagram, self.stations[number])
        self.passed[number] += 1

    def take(self, datagram, sender):
        """A datagram of a station, for each other one: lost, kept back until a later one, or handed on, perhaps twice."""
        for number in range(len(self.sockets)):
            if number == sender:
                continue
            chance = self.chances.random()
            if chance < self.loses:
                continue
            if chance < self.loses + self.keeps:
                self.kept.append((datagram, number))
                continue
            self.hand_on(datagram, number)
            if chance > 1 - self.copies:
                self.hand_on(datagram, number)
            waiting = [item for item in self.kept if item[1] == number]
            for item in waiting:
                self.kept.remove(item)
                self.hand_on(*item)

    def run(self):
        while not self.is_over:
            ready, _, _ = select.select(self.sockets, [], [], 0.05)
            for it in ready:
                datagram, origin = it.recvfrom(65536)
                sender = self.sockets.index(it)
                if origin == self.stations[sender]:
                    with self.lock:
                        self.take(datagram, sender)

    def forge(self, datagram, number):
        """A datagram that no station sent comes to a station, from where the others are."""
        with self.lock:
            self.hand_on(datagram, number)

    def close(self):
        self.is_over = True
        self.thread.join()
        for it in self.sockets:
            it.close()
