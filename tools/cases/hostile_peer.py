"""A station among peers that are not siman: what they send is damaged, foreign, of another version, too long or in its own
name. What it sends, records, prints and tells is compared, byte by byte, with what NETWORK.md says of it."""
import random
import struct

from cases import texts
from cases.played import Player, bound, free_address, strangers_first, word_of
from cases.trials import Verdict
from pages import (
    ACKNOWLEDGE, ACTION_REQUEST, ACTION_RESPONSE, CREATE, DATA, DATA_QUERY, LONGEST_DATAGRAM, REMOVE, SET_DATA, START, STOP, Post,
)  # fmt: skip

OWN, OTHERS = (2, 3), [(1, 1), (2, 4), (65535, 65535), (7, 9)]
SETUP = b"""exercise 4
station 1:1
station 2:3 first=100 tries=3 wait=2
opening 2:3 7 stopped
opening 2:3 9 running
fixed 2:3 30 5
action 2:3 40
create 2:3 1:1:8
"""
STEPS = 25


def some_datagram(chances):
    """A datagram of a peer: mostly a request for the station or an answer to it, as it should be or spoilt."""
    origin = (*chances.choice(OTHERS[:2]), chances.choice((0, 0, 5)))
    target = (*chances.choice((OWN, OWN, OWN, OWN, *OTHERS)), chances.choice((0, 7, 8, 9, 10, 65534, 65535)))
    kind = chances.choice((CREATE, REMOVE, START, STOP, ACTION_REQUEST, DATA_QUERY, SET_DATA, ACKNOWLEDGE, ACTION_RESPONSE, DATA, 21, 22, 67))
    values = {"request": chances.choice((1, 2, 3, 100, 101, 102, 4294967295)), "exercise": chances.choice((4, 4, 4, 4, 4, 4, 5)),
              "version": chances.choice((7, 7, 7, 7, 6, 5)), "stamp": chances.randrange(1 << 32), "status": chances.choice((0, 0, 3))}  # fmt: skip
    more = {
        ACKNOWLEDGE: {"flag": chances.randrange(6), "response": chances.randrange(3)}, ACTION_REQUEST: {"action": chances.choice((40, 41))},
        DATA_QUERY: {"fixed": 2, "records": struct.pack(">II", 30, 31)}, SET_DATA: {"fixed": 1, "records": texts.fixed_datum(30, chances.randrange(99))},
    }.get(kind, {})  # fmt: skip
    if chances.random() < 0.08:
        origin = (*OWN, 0)
    return spoilt(chances, texts.pdu(CREATE if kind == 67 else kind, origin, target, **values, **more))


def spoilt(chances, datagram):
    """A datagram, mostly as it is: cut, with a byte changed, longer, or none at all."""
    how = chances.randrange(14)
    if how == 0:
        return datagram[: chances.randrange(len(datagram))]
    if how == 1:
        at = chances.randrange(len(datagram))
        return datagram[:at] + bytes([chances.randrange(256)]) + datagram[at + 1 :]
    if how == 2:
        return datagram + bytes(chances.randrange(1, 40))
    if how == 3:
        return bytes(chances.choice((0, 1, 8191, LONGEST_DATAGRAM, LONGEST_DATAGRAM + 1, 9000, 20000)))
    return datagram


def some_lines(chances, number):
    own = "{}:{}".format(*OWN)
    other = "{}:{}".format(*chances.choice(OTHERS[:3]))
    return [
        line.encode() for line in chances.sample((
            f"at {number}", f"create {own} {other}:8", f"start {own} {other}:7", f"tick {own}", f"tick {own}", f"query {own} {other}:0 1 2",
            "", "# staff", "bad", "status", "help", f"deliver 1 {own}", "tick 1:1", f"tell {own} 0", f"tell {own} 7", f"set {own} {other}:0 30 8", f"do {own} {other}:0 40",
        ), chances.randrange(4))
    ]  # fmt: skip


def try_seed(trials, seed):
    """The station gets datagrams and lines by a seed, of two peers and of a stranger; what it left is as it must be."""
    chances, name = random.Random(f"hostile {seed}"), f"hostile.{seed}"
    (trials.folder / f"{name}.script").write_bytes(SETUP)
    peers, stranger, own = [bound(), bound()], bound(), free_address()
    hears_all = seed % 3 == 2
    keeps_all = seed % 2 == 1
    words = ["from=any"] * hears_all + ["keep=all"] * keeps_all
    player = Player(trials.program, trials.folder, f"{name}.script", OWN, f"{name}.dsrc", own, [it.getsockname() for it in peers], *words)
    post, is_up, heard = Post(SETUP, OWN), player.is_up(), True
    for number in range(STEPS):
        for _ in range(chances.randrange(5)):
            datagram, sender = some_datagram(chances), chances.choice((*peers, *peers, stranger))
            sender.sendto(datagram, own)
            if sender is stranger and not hears_all:
                post.pass_over(word_of(stranger.getsockname()))
            else:
                post.hear(datagram, keeps_all)
        lines = [b"", *some_lines(chances, number), b"tell 2:3 7"]
        player.say(*lines)
        for line in lines:
            post.take(line)
        heard = heard and player.wait_for_entries(len(post.entries))
    outcome = player.close()
    sent = [received(it) for it in peers]
    for it in (*peers, stranger):
        it.close()
    left = player.recording.read_bytes() if player.recording.exists() else None
    return [
        Verdict(f"{name} is up, and goes on", (True,), is_up and heard),
        Verdict(f"{name} ends", (strangers_first(post.outcome()),), strangers_first(outcome)),
        Verdict(f"what {name} recorded", (post.text(),), left),
        Verdict(f"what {name} sent to each peer", ([post.sent] * 2,), sent),
    ]


def received(peer):
    """What came at a peer."""
    peer.setblocking(False)
    came = []
    try:
        while True:
            came.append(peer.recv(65536))
    except BlockingIOError:
        return came
