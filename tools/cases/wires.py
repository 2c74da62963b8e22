"""Two hosts with a wire between them, in namespaces of their own, and captures that tcpdump and dumpcap take there.

Nothing leaves the namespaces; a host sends what it is told, and ends by itself.
"""
import json
import os
import shutil
import signal
import subprocess
import sys
import time
from collections import Counter
from pathlib import Path

import pages
from cases import captured, made_captures, sharks, texts
from pages import RECEIVED, SENT

EXERCISE, PORT = made_captures.EXERCISE, 3000
NAMES, STATIONS = ["a", "b"], [(1, 1), (2, 3)]
ADDRESSES = {4: ["10.77.0.1", "10.77.0.2"], 6: ["fd00:77::1", "fd00:77::2"]}
GROUPS = {4: "239.7.7.7", 6: "ff0e::77"}
FILTER = "udp port 3000 or (ip[6:2] & 0x1fff != 0) or ip6[6] = 44"
TOOLS = ["ip", "tcpdump", "dumpcap"]
SECONDS = 3
SETUP = f"exercise {EXERCISE}\nstation 1:1\nstation 2:3\n".encode()
# A host: sends, answers a request that it knows to whoever sent it, and says in the end what came to its sockets.
HOST = """
import json, select, socket, struct, sys, time
given = json.loads(sys.stdin.readline())
sockets = {}
for family, level, index in ((socket.AF_INET, 4, 0), (socket.AF_INET6, 6, 1)):
    it = sockets[level] = socket.socket(family, socket.SOCK_DGRAM)
    it.setsockopt(socket.SOL_SOCKET, socket.SO_RCVBUF, 1 << 22)
    if level == 4:
        it.setsockopt(socket.SOL_SOCKET, socket.SO_BROADCAST, 1)
        own = socket.inet_aton(given["own"][0])
        it.setsockopt(socket.IPPROTO_IP, socket.IP_ADD_MEMBERSHIP, socket.inet_aton(given["groups"][0]) + own)
        it.setsockopt(socket.IPPROTO_IP, socket.IP_MULTICAST_IF, own)
    else:
        number = struct.pack("@i", socket.if_nametoindex("wire"))
        it.setsockopt(socket.IPPROTO_IPV6, socket.IPV6_V6ONLY, 1)
        it.setsockopt(socket.IPPROTO_IPV6, socket.IPV6_JOIN_GROUP, socket.inet_pton(family, given["groups"][1]) + number)
        it.setsockopt(socket.IPPROTO_IPV6, socket.IPV6_MULTICAST_IF, number)
    it.bind(("", 3000))
    it.setblocking(False)
print("ready", flush=True)
began, sends, said = time.monotonic(), given["sends"], {"sent": [], "received": []}
while time.monotonic() < began + given["seconds"]:
    while sends and time.monotonic() >= began + sends[0][0]:
        _, level, target, port, data = sends.pop(0)
        sockets[level].sendto(bytes.fromhex(data), (target, port))
        said["sent"].append([level, port, data])
    for it in select.select(list(sockets.values()), [], [], 0.002)[0]:
        data, source = it.recvfrom(65536)
        level = 4 if it is sockets[4] else 6
        said["received"].append([level, data.hex()])
        for answer in given["answers"].get(data.hex(), []):
            it.sendto(bytes.fromhex(answer), source[:2])
            said["sent"].append([level, 3000, answer])
print(json.dumps(said))
"""


class Wire:
    """Two namespaces and the wire between them, which are taken away in the end."""

    def __init__(self):
        self.spaces = [f"siman-{os.getpid()}-{name}" for name in NAMES]

    def __enter__(self):
        for space in self.spaces:
            run("ip", "netns", "add", space)
        run("ip", "-n", self.spaces[0], "link", "add", "wire", "type", "veth", "peer", "name", "wire", "netns", self.spaces[1])
        for number, space in enumerate(self.spaces):
            run("ip", "-n", space, "link", "set", "lo", "up")
            run("ip", "-n", space, "addr", "add", f"{ADDRESSES[4][number]}/24", "broadcast", "10.77.0.255", "dev", "wire")
            run("ip", "-n", space, "addr", "add", f"{ADDRESSES[6][number]}/64", "dev", "wire", "nodad")
            run("ip", "-n", space, "link", "set", "wire", "up")
        for number, space in enumerate(self.spaces):
            run("ip", "-n", space, "route", "add", "default", "via", ADDRESSES[4][1 - number], "dev", "wire")
        return self

    def __exit__(self, *_):
        for space in self.spaces:
            subprocess.run(["ip", "netns", "del", space], check=False)

    def begin(self, number, *words):
        """A process on a host."""
        command = ["ip", "netns", "exec", self.spaces[number], *map(str, words)]
        return subprocess.Popen(command, stdin=subprocess.PIPE, stdout=subprocess.PIPE, stderr=subprocess.PIPE)


def run(*words):
    subprocess.run(words, check=True, capture_output=True, timeout=20)


def taken_by(folder, name):
    """How a host's traffic is captured: the file, its words for `import`, and the command."""
    def path(end):
        return Path(folder) / f"{name}.{end}"

    quiet, all_of_it = ["-Z", "root", "--immediate-mode", "-U", "-s", "0"], [FILTER]
    return [
        (path("wire.pcap"), [], ["tcpdump", "-i", "wire", *quiet, "-w", path("wire.pcap"), *all_of_it]),
        (path("nano.pcap"), [], ["tcpdump", "-i", "wire", *quiet, "--time-stamp-precision", "nano", "-w", path("nano.pcap")]),
        (path("any.pcap"), [], ["tcpdump", "-i", "any", *quiet, "-w", path("any.pcap"), *all_of_it]),
        (path("cooked.pcap"), [], ["tcpdump", "-i", "any", "-y", "LINUX_SLL", *quiet, "-w", path("cooked.pcap")]),
        (path("short.pcap"), ["cut=keep"], ["tcpdump", "-i", "wire", *quiet, "-s", "200", "-w", path("short.pcap")]),
        (path("wire.pcapng"), ["on=wire"], ["dumpcap", "-q", "-i", "wire", "-w", path("wire.pcapng")]),
        (path("two.pcapng"), ["on=wire"], ["dumpcap", "-q", "-i", "lo", "-i", "wire", "-w", path("two.pcapng")]),
        (path("any.pcapng"), [], ["dumpcap", "-q", "-i", "any", "-w", path("any.pcapng"), "-f", FILTER]),
    ]  # fmt: skip


def began(process):
    """Waits until a capture has begun."""
    until = time.monotonic() + 20
    while time.monotonic() < until:
        line = process.stderr.readline()
        if b"listening on" in line or line.startswith(b"File:"):
            return
        if not line:
            break
    raise RuntimeError("a capture did not begin")


# ---- what the hosts say


def exchange(level):
    """What 1:1 orders 2:3 over a version of IP, and the answers: twenty pairs, some above what a frame holds."""
    for number in range(20):
        request, entity = number + 1 + 1000 * level, (2, 3, number + 1 + 100 * level)
        if number % 4 == 3:
            size = [40, 1500, 4000, 8000][number // 4 % 4]
            data = texts.pdu(19, (1, 1, 0), (2, 3, 0), EXERCISE, request=request, fixed=0, variable=1, records=texts.variable_datum(7, size * 8, b"s" * size))
            yield data, texts.pdu(20, (2, 3, 0), (1, 1, 0), EXERCISE, request=request)
        else:
            data = texts.pdu(11, (1, 1, 0), entity, EXERCISE, request=request)
            yield data, texts.pdu(15, entity, (1, 1, 0), EXERCISE, flag=1, response=1, request=request)


def sends_of(number, level):
    """What a host sends: to the other, to the broadcast addresses, to a group, and to other ports; the orders of 1:1."""
    sends, at = [], 0.2
    to_all = [GROUPS[level]] + (["255.255.255.255", "10.77.0.255"] if level == 4 else [])
    for target in [*to_all, ADDRESSES[level][1 - number], ADDRESSES[level][number]]:
        for size in (0, 1400, 1464, 3000, 8000):
            origin = (*STATIONS[number], 0)
            text = texts.variable_datum(5, size * 8, bytes([65 + number]) * size)
            data = texts.pdu(22, origin, (65535,) * 3, EXERCISE, stamp=int(at * 1000), fixed=0, variable=1, records=text)
            sends.append([at, level, target, PORT, data.hex()])
            at += 0.01
        sends.append([at, level, target, PORT, data.replace(b"\7" + bytes([EXERCISE]), b"\7\x63", 1).hex()])
        sends.append([at, level, target, PORT + 1, data.hex()])
        sends.append([at, level, target, PORT, (bytes([7, EXERCISE, 1, 1]) + bytes(140)).hex()])
    if number == 0:
        for order, _ in exchange(level):
            sends.append([at, level, ADDRESSES[level][1], PORT, order.hex()])
            at += 0.01
    return sends


def played(wire, folder, level):
    """The captures of both hosts, and what each host says that it sent and received."""
    captures = [taken_by(folder, f"{name}.{level}") for name in NAMES]
    takers = [wire.begin(number, *command) for number, taken in enumerate(captures) for _, _, command in taken]
    for taker in takers:
        began(taker)
    answers = {order.hex(): [answer.hex()] for order, answer in exchange(level)}
    hosts = [wire.begin(number, sys.executable, "-c", HOST) for number in range(2)]
    for number, host in enumerate(hosts):
        own, groups = [ADDRESSES[4][number], ADDRESSES[6][number]], [GROUPS[4], GROUPS[6]]
        given = {"own": own, "groups": groups, "sends": sends_of(number, level), "answers": answers if number else {}, "seconds": SECONDS}
        host.stdin.write(json.dumps(given).encode() + b"\n")
        host.stdin.flush()
    said = [json.loads(host.communicate(timeout=SECONDS + 20)[0].splitlines()[-1]) for host in hosts]
    time.sleep(1)
    for taker in takers:
        taker.send_signal(signal.SIGINT)
        taker.communicate(timeout=20)
    return captures, said


# ---- what has to come of it


def is_kept(data):
    return len(data) >= 4 and data[3] == 5 and data[1] == EXERCISE


def try_capture(trial, number, path, words, level, said):
    """A capture for a host: beside tshark, and beside what the host's sockets say."""
    host, address = ADDRESSES[level][number], STATIONS[number]
    name = f"{address[0]}:{address[1]}"
    answer, left, _ = captured.imported(trial, f"{path.name} for {host}", SETUP, [name, host, *words], path.read_bytes())
    by_tshark = sharks.kept_by_tshark(path, EXERCISE, address, [host, *words]) if sharks.is_there() else None
    by_pages = sharks.kept_by_pages(path.read_bytes(), EXERCISE, address, [host, *words])
    if by_tshark is not None:
        differing = [frame for frame, *_ in sharks.differences(by_tshark, by_pages, [], [])]
        trial.state(f"{path.name} for {host} {words} by tshark: frames {differing}", not differing and by_tshark)
        trial.counts["frames of real captures compared"] += len(by_tshark)
    entries = pages.read_recording(left).entries if left else []
    if "echo" in words and path.name.endswith(("wire.pcap", "nano.pcap", "wire.pcapng", "two.pcapng")):
        sent = [bytes.fromhex(data) for at, port, data in said["sent"] if at == level and port == PORT]
        # What a host sends to itself does not go over the wire.
        sent = [data for data in sent if is_kept(data)]
        came = Counter(bytes.fromhex(data) for at, data in said["received"] if at == level and is_kept(bytes.fromhex(data)))
        kept = {kind: [entry.datagram for entry in entries if entry.kind == kind] for kind in (SENT, RECEIVED)}
        own = own_only(number, level)
        trial.state(f"{path.name} for {host}: what was sent", kept[SENT] == [data for data in sent if data not in own])
        trial.state(f"{path.name} for {host}: what the socket received", Counter(kept[RECEIVED]) == came - Counter(own))
    return answer


def own_only(number, level):
    """The datagrams that a host sends to itself."""
    sends = [(target, port, bytes.fromhex(data)) for _, _, target, port, data in sends_of(number, level)]
    return [data for target, port, data in sends if target == ADDRESSES[level][number] and port == PORT and is_kept(data)]


def try_joined(trial, captures, level):
    """From captures to a verdict: the pieces of both hosts, joined, closed, are explained."""
    for name in ("wire.pcap", "wire.pcapng"):
        pieces = []
        for number, taken in enumerate(captures):
            path = next(path for path, _, _ in taken if path.name.endswith(name))
            words = ["{}:{}".format(*STATIONS[number]), ADDRESSES[level][number], "echo"]
            pieces.append((NAMES[number], pages.answer_to_import(SETUP, words, path.read_bytes())[1]))
        _, joined = pages.answer_to_join(pieces, "closed")
        verdict = pages.answer_to_audit(joined)
        trial.state(f"{name} over IPv{level}, joined", verdict.status == 0, verdict.out.decode())


def try_level(trial, wire, level):
    captures, said = played(wire, trial.folder, level)
    for number, taken in enumerate(captures):
        for path, words, _ in taken:
            for more in ([], ["echo"], ["shared"], ["shared", "echo"]):
                try_capture(trial, number, path, [*words, *more], level, said[number])
    try_joined(trial, captures, level)


def try_networks(trial):
    missing = [tool for tool in TOOLS if not shutil.which(tool)]
    if missing or os.geteuid() != 0:
        trial.skipped.append(f"networks: {'no ' + missing[0] if missing else 'not root'}")
        return
    with Wire() as wire:
        for level in (4, 6):
            try_level(trial, wire, level)
