"""The sockets of `live`: where they are bound, how many there are, that none waits, that what comes from elsewhere is not
heard, what is too long, and calls of them that fail."""
import ctypes
import os
import socket
import subprocess
import sys
import threading
import time

import pages
from cases import texts
from cases.examples import TOP, WORKED_SCRIPT
from cases.lived import Create, Exchanges, script_of, station_at
from cases.lives import torn
from cases.trials import PATIENCE, Verdict, first_lines
from pages import Outcome, Recording, Station

LOOPBACK = "0100007F"  # 127.0.0.1, as /proc/net/udp writes it
NO_WAITING = 0o4000  # O_NONBLOCK among the flags of a descriptor
TWO = [Station(1, 1, []), Station(2, 3, [])]
FAILING = TOP / "tools" / "failing_calls.py"
NO_FILTER = 125
LEND = 438  # the number of pidfd_getfd, which is the same on each machine
# The first exchange of the worked script, and what its manager sends if nothing ever comes.
ORDER = texts.pdu(11, (1, 1, 0), (2, 3, 7), request=1)
ABLE = texts.pdu(15, (2, 3, 7), (1, 1, 0), flag=1, response=1, request=1)
AGAIN = texts.pdu(11, (1, 1, 0), (2, 3, 7), stamp=20, request=1)
START = texts.pdu(13, (1, 1, 0), (2, 3, 7), stamp=20, request=2)
STOP = texts.pdu(14, (1, 1, 0), (2, 3, 7), stamp=20, request=3)


def waits_for_file(process):
    """Waits until a program is asleep for a while: at the pipe that it is to write, which nobody reads so far."""
    asleep, ends = 0, time.monotonic() + PATIENCE
    while asleep < 10 and process.poll() is None and time.monotonic() < ends:
        with open(f"/proc/{process.pid}/stat", encoding="ascii", errors="replace") as file:
            state = file.read().rpartition(")")[2].split()[0]
        asleep = asleep + 1 if state == "S" else 0
        time.sleep(0.02)


def sockets_of(process):
    """The sockets of a program by their inodes, each with whether its calls return at once."""
    found, folder = {}, f"/proc/{process.pid}"
    for number in os.listdir(f"{folder}/fd"):
        leads = os.readlink(f"{folder}/fd/{number}")
        if leads.startswith("socket:["):
            with open(f"{folder}/fdinfo/{number}", encoding="ascii") as file:
                flags = next(int(line.split()[1], 8) for line in file if line.startswith("flags:"))
            found[leads[8:-1]] = bool(flags & NO_WAITING)
    return found


def places_of(process, sockets):
    """The addresses of UDP and the ports at which these sockets of a program are bound."""
    with open(f"/proc/{process.pid}/net/udp", encoding="ascii") as file:
        rows = [line.split() for line in file.readlines()[1:]]
    return [row[1].split(":") for row in rows if row[9] in sockets]


def bound(process):
    """How many sockets a program has; at which addresses of UDP, at how many ports; and whether none of them waits."""
    sockets = sockets_of(process)
    places = places_of(process, sockets)
    return len(sockets), {address for address, _ in places}, len({port for _, port in places}), all(sockets.values())


def intrude(process, count):
    """Sends so many datagrams from elsewhere to each socket of a program; to how many."""
    places = places_of(process, sockets_of(process))
    with socket.socket(socket.AF_INET, socket.SOCK_DGRAM) as stranger:
        for _, port in places:
            for _ in range(count):
                stranger.sendto(ABLE, ("127.0.0.1", int(port, 16)))
    return len(places)


def borrowed(process):
    """The sockets of a program, in the order in which it made them, each as one of this script's own; none where the
    system does not lend them."""
    library, owner = ctypes.CDLL(None, use_errno=True), os.pidfd_open(process.pid)
    try:
        folder = f"/proc/{process.pid}/fd"
        numbers = sorted(int(number) for number in os.listdir(folder) if os.readlink(f"{folder}/{number}").startswith("socket:["))
        lent = [library.syscall(LEND, owner, number, 0) for number in numbers]
        return [socket.socket(fileno=number) for number in lent if number >= 0]
    finally:
        os.close(owner)


def speak(process, sizes):
    """Sends datagrams of these sizes from the socket of the first station to that of the second; how many sockets spoke."""
    lent = borrowed(process)
    if len(lent) == 2:
        for size in sizes:
            lent[0].sendto(bytes(size), lent[1].getsockname())
    for own in lent:
        own.close()
    return len(lent)


def look(trials, script, name, sees=bound):
    """What is seen of `live` while it waits for a reader of its file, which is a pipe; its outcome; and what it wrote."""
    pipe = trials.folder / name
    os.mkfifo(pipe)
    words = [trials.program, "live", script, name]
    process = subprocess.Popen(words, cwd=trials.folder, stdout=subprocess.PIPE, stderr=subprocess.PIPE)
    waits_for_file(process)
    seen = sees(process) if process.poll() is None else None
    wrote = []
    reads = threading.Thread(target=lambda: wrote.append(pipe.read_bytes()), daemon=True)
    reads.start()
    try:
        out, errors = process.communicate(timeout=PATIENCE)
        status = process.returncode
    except subprocess.TimeoutExpired:
        process.kill()
        process.communicate()
        status, out, errors = f"none in {PATIENCE} seconds", b"", b""
    reads.join(PATIENCE)
    return seen, Outcome(status, out, first_lines(errors)), b"".join(wrote)


def try_bound(trials):
    """Each station has one socket of the loopback, at a port of its own, whose calls do not wait."""
    if not os.path.exists("/proc/self/net/udp"):
        trials.skipped.append("where sockets are bound: no /proc/self/net/udp")
        return
    for count in (2, 3, 100):
        moves = [Create(0, station_at(count - 1), 7)]
        script, lived = trials.file(script_of(count, moves)), Exchanges(count).over_lines(moves)
        usual = Outcome(0, b"live records=%d\n" % (2 * count), b"")

        def tried(count=count, script=script, lived=lived, usual=usual):
            seen, came, wrote = look(trials, script, f"pipe.{count}")
            return [
                Verdict(f"the sockets of {count} stations", ((count, {LOOPBACK}, count, True),), seen),
                Verdict(f"live of {count} stations into a pipe", (usual,), came),
                Verdict(f"what live of {count} stations wrote into a pipe", (True,), wrote == lived),
            ]

        trials.tasks.append(tried)


def try_strangers(trials):
    """What comes from elsewhere is not heard, also where it is more than one receive passes over, as long as the four
    rounds are enough: a receive passes over 64, and the last round but one has to find what was sent. It is counted."""
    if not os.path.exists("/proc/self/net/udp"):
        trials.skipped.append("datagrams from elsewhere: no /proc/self/net/udp")
        return
    moves = [Create(0, station_at(1), 7)]
    script = trials.file(script_of(2, moves))
    for count in (1, 63, 64, 65, 129):
        exchanges = Exchanges(2)
        exchanges.intrude(count)
        lived = exchanges.over_lines(moves)

        def tried(count=count, lived=lived, line=exchanges.line()):
            seen, came, wrote = look(trials, script, f"strangers.{count}", lambda process: intrude(process, count))
            return [
                Verdict(f"the sockets to which {count} strangers came", (2,), seen),
                Verdict(f"live among {count} strangers", (Outcome(0, line, b""),), came),
                Verdict(f"what live wrote among {count} strangers", (True,), wrote == lived),
            ]

        trials.tasks.append(tried)


def try_long(trials):
    """Of what a station sends, more than 8192 bytes are dropped by another and counted, and no fewer."""
    if not os.path.exists("/proc/self/net/udp") or not hasattr(os, "pidfd_open"):
        trials.skipped.append("datagrams that are too long: no sockets are lent")
        return
    moves = [Create(0, station_at(1), 7)]
    script = trials.file(script_of(2, moves))
    for sizes in ([8192], [8193], [9000, 8193, 8192, 20000]):
        exchanges = Exchanges(2)
        exchanges.coming[1].extend(bytes(size) for size in sizes)
        lived = exchanges.over_lines(moves)

        def tried(sizes=sizes, lived=lived, line=exchanges.line()):
            name = "long." + ".".join(str(size) for size in sizes)
            seen, came, wrote = look(trials, script, name, lambda process: speak(process, sizes))
            if seen == 0:
                trials.skipped.append("datagrams that are too long: no sockets are lent")
                return []
            return [
                Verdict(f"the sockets that were lent to send {sizes}", (2,), seen),
                Verdict(f"live where {sizes} bytes come", (Outcome(0, line, b""),), came),
                Verdict(f"what live wrote where {sizes} bytes come", (True,), wrote == lived),
            ]

        trials.tasks.append(tried)


def recording(entries, is_whole=False):
    """What is left of the recording of two stations with these entries."""
    text = texts.recording_text(Recording(1, TWO, entries))
    return text if is_whole else text[:-5]


def try_call(trials, call, left, accepted=None):
    """The worked script, where calls of the sockets fail; and what is left of its recording."""
    name = f"failing.{'.'.join(call)}.dsrc"
    accepted = accepted or torn("live: line", name)
    words = [str(FAILING), *call, trials.program, "live", WORKED_SCRIPT, name]

    def tried():
        how = {"cwd": trials.folder, "capture_output": True, "timeout": PATIENCE}
        done = subprocess.run([sys.executable, *words], check=False, **how)
        if done.returncode == NO_FILTER:
            trials.skipped.append(f"calls of sockets that fail ({' '.join(call)}): no filter of calls")
            return []
        path, told = trials.folder / name, f"live where {' '.join(call)}"
        came = Outcome(done.returncode, done.stdout, first_lines(done.stderr))
        same = path.exists() and path.read_bytes() == left
        return [Verdict(told, (accepted,), came), Verdict(f"{told}, what it left", (True,), same)]

    trials.tasks.append(tried)


def try_calls(trials):
    """Sends and receives that fail end it, after what was recorded before; a send of no byte is one that failed."""
    order, answer = [texts.sent(0, ORDER)], [texts.received(1, ORDER), texts.sent(1, ABLE)]
    for error in ("EPERM", "ENOBUFS", "none"):
        try_call(trials, ("sendto", "28", error), recording(order))
        try_call(trials, ("sendto", "32", error), recording(order + answer))
    for error in ("ENOMEM", "EBADF"):
        try_call(trials, ("recvfrom", "-", error), recording(order))
    # What nothing comes of is repeated, and entity 7 is never created.
    alone = [*order, *(texts.sent(0, datagram, 10) for datagram in (AGAIN, START, STOP))]
    alone = recording([*alone, texts.told(1, 7, pages.ABSENT)], is_whole=True)
    try_call(trials, ("recvfrom", "-", "EAGAIN"), alone, Outcome(0, b"live records=5\n", b""))


def try_all(trials, _):
    try_bound(trials)
    try_strangers(trials)
    try_long(trials)
    try_calls(trials)
