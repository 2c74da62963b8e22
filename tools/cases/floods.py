"""A station that is flooded, and the order in which it writes and sends, as the kernel sees it."""
import re
import shutil
import time

from cases import texts
from cases.played import Player, bound, free_address
from cases.trials import Verdict
from pages import CREATE, RECEIVED, SENT, Post, read_recording

SETUP = b"exercise 4\nstation 2:3\nopening 2:3 7 stopped\n"
OWN, FLOOD = (2, 3), 100_000


def drops(address):
    """How many datagrams the system threw away, since the socket at an address was full."""
    port = f":{address[1]:04X}"
    with open("/proc/net/udp", encoding="ascii") as file:
        rows = [line.split() for line in file.readlines()[1:]]
    return next((int(row[12]) for row in rows if row[1].endswith(port)), None)


def most_memory(process):
    """The most memory that a process held, in KiB."""
    with open(f"/proc/{process.pid}/status", encoding="ascii") as file:
        return next(int(line.split()[1]) for line in file if line.startswith("VmHWM:"))


def flood(trials, name, datagram_of, count, *words):
    """So many datagrams come as fast as they can be sent, while the station is served again and again; how many it
    recorded, how many the system threw away, its memory, and what came back."""
    (trials.folder / f"{name}.script").write_bytes(SETUP)
    peer, own = bound(), free_address()
    player = Player(trials.program, trials.folder, f"{name}.script", OWN, f"{name}.dsrc", own, [peer.getsockname()], *words)
    player.is_up()
    started = time.monotonic()
    for number in range(count):
        peer.sendto(datagram_of(number), own)
        if number % 64 == 0:
            player.say(b"")
    sending = time.monotonic() - started
    lost = drops(own)
    for _ in range(4):
        player.say(b"")
    player.say(b"tell 2:3 7")
    player.wait_for(lambda: any(b" told " in line for line in player.lines[-3:]))
    memory = most_memory(player.process)
    outcome = player.close()
    peer.close()
    recording = read_recording(player.recording.read_bytes())
    came = sum(entry.kind == RECEIVED for entry in recording.entries)
    print(f"{name}: {count} sent in {sending:.1f} seconds, {came} recorded, {lost} thrown away by the system, {memory} KiB at most")
    return recording, outcome, came, lost, memory


def try_orders(trials):
    """100,000 distinct orders: each that was received is recorded and answered, and no other is lost in silence."""

    def order(number):
        return texts.pdu(CREATE, (1, 1, 0), (*OWN, 1 + number % 4000), exercise=4, request=number)

    recording, outcome, came, lost, _ = flood(trials, "flood", order, FLOOD)
    post = Post(SETUP, OWN)
    for entry in recording.entries:
        if entry.kind == RECEIVED:
            post.hear(entry.datagram)
    answers = sum(entry.kind == SENT for entry in recording.entries)
    sent = [entry.datagram for entry in recording.entries if entry.kind == SENT]
    return [
        Verdict("a station that is flooded ends well", (0,), outcome.status),
        Verdict("what came, and what was thrown away", (FLOOD,), came + lost),
        Verdict("the answers to what came", (came,), answers),
        Verdict("what it answered", (True,), sent == post.sent),
    ]


def try_foreign(trials):
    """What is passed over takes no memory: 100,000 datagrams no more than 1,000. Where all is kept it is recorded, and takes
    its bytes and at most 300 more an entry."""
    foreign = bytes(1000)
    _, passing, none, _, least = flood(trials, "foreign.few", lambda _: foreign, 1000)
    _, many_passing, none_of_many, _, most = flood(trials, "foreign.many", lambda _: foreign, FLOOD)
    _, outcome, few, _, before = flood(trials, "kept.few", lambda _: foreign, 1000, "keep=all")
    _, other, many, _, after = flood(trials, "kept.many", lambda _: foreign, FLOOD, "keep=all")
    each = 1024 * (after - before) / max(many - few, 1)
    return [
        Verdict("stations that pass foreign datagrams over end well", ((0, 0),), (passing.status, many_passing.status)),
        Verdict("foreign datagrams that are passed over and recorded", ((0, 0),), (none, none_of_many)),
        Verdict("memory of 99,000 foreign datagrams, less than 1024 KiB", (True,), most - least < 1024),
        Verdict("stations that keep all end well", ((0, 0),), (outcome.status, other.status)),
        Verdict("foreign datagrams that are recorded", (True,), few > 0 and many > few),
        Verdict("memory of a kept datagram of 1,000 bytes, less than 1,300", (True,), each < 1300),
    ]


def calls_of(trace, recording):
    """The calls of a trace that write the recording, in bytes so far, and those that send."""
    written, number = 0, None
    for line in trace.read_text(encoding="latin-1").splitlines():
        call = re.search(r"(\w+)\(([^,)]*)(.*)\) += (-?\d+)", line)
        if call is None:
            continue
        name, first, rest, result = call.groups()
        if name == "openat" and f'"{recording}"' in rest and int(result) >= 0 and "O_CREAT" in rest:
            number = result
        elif name == "write" and first == number:
            written += int(result)
        elif name == "sendto":
            yield written, int(re.search(r'"[^"]*"(?:\.\.\.)?, (\d+)', rest)[1])


def is_settled(trace, recording):
    """Whether the last call of a trace that writes or settles the recording settles it."""
    number, last = None, None
    for line in trace.read_text(encoding="latin-1").splitlines():
        call = re.search(r"(\w+)\(([^,)]*)(.*)\) += (-?\d+)", line)
        if call and call[1] == "openat" and f'"{recording}"' in call[3] and int(call[4]) >= 0 and "O_CREAT" in call[3]:
            number = call[4]
        elif call and call[1] in ("write", "fsync") and call[2] == number:
            last = call[1], call[4]
    return last == ("fsync", "0")


def try_order_of_calls(trials):
    """In order of its calls of the system each datagram that a station sends stands whole in its file before its first
    sendto, and the file is settled on the disk at the end."""
    if shutil.which("strace") is None:
        trials.skipped.append("the order of the calls of a station: no strace")
        return []
    (trials.folder / "traced.script").write_bytes(SETUP)
    peers, own, trace = [bound(), bound()], free_address(), trials.folder / "traced.calls"
    before = ["strace", "-f", "-s", "16", "-o", trace, "-e", "trace=openat,write,fsync,sendto"]
    player = Player(trials.program, trials.folder, "traced.script", OWN, "traced.dsrc", own, [it.getsockname() for it in peers], before=before)
    player.is_up()
    for number in range(40):
        peers[0].sendto(texts.pdu(CREATE, (1, 1, 0), (*OWN, number + 10), exercise=4, request=number), own)
        player.say(b"", b"create 2:3 1:1:%d" % (number + 1), b"tick 2:3")
    outcome = player.close()
    left = player.recording.read_bytes()
    ends = ends_of_sends(left)
    calls = list(calls_of(trace, "traced.dsrc"))
    # Each datagram goes to two peers: the calls of one are two, and the entry ends before the first.
    pairs = [calls[number] for number in range(0, len(calls), 2)]
    stand = all(written >= end for (written, _), end in zip(pairs, ends))
    for it in peers:
        it.close()
    return [
        Verdict("a station that is traced ends well", (0,), outcome.status),
        Verdict("how often it sent, to two peers", (2 * len(ends),), len(calls)),
        Verdict("what is sent stands whole in the file before", (True,), stand and len(ends) == 80),
        Verdict("the recording is settled at the end", (True,), is_settled(trace, "traced.dsrc")),
    ]


def ends_of_sends(text):
    """Where the entries end, in a recording by its bytes, of what the station sent."""
    recording = read_recording(text)
    sizes = [len(texts.entry_text(entry)) for entry in recording.entries]
    at, ends = len(text) - 5 - sum(sizes), []
    for entry, size in zip(recording.entries, sizes):
        at += size
        if entry.kind == SENT:
            ends.append(at)
    return ends
