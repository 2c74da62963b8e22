"""Captures of the examples and captures that are made up, beside what tshark shows of them."""
import ipaddress
import random
import shutil
import subprocess
import tempfile
from collections import Counter
from pathlib import Path

import pages
from cases import importing, made_captures, sharks, texts
from cases.examples import TOP
from cases.importing import ADDRESS, difference
from pages import CLOSED, FIRST, OPEN, RUNNING, SENT, STOPPED, TOLD, Entry, Recording, Station

WORKED = TOP / "examples" / "captures"
HOSTS = {"1:1": 1, "2:3": 3, "2:4": 4}
IN_A_BATCH = 200


def bytes_of(name):
    return bytes.fromhex((WORKED / name).read_text(encoding="ascii"))


def imported(trial, told, setup, words, text):
    """What the independent reading makes of a capture, and the program, if there is one, in a later batch."""
    answer, left, warned = pages.answer_to_import(setup, words, text)
    if trial.program:
        trial.compare(told, setup, words, text, answer, left, warned)
    return answer, left, warned


def try_worked(trial):
    """The captures of examples/captures/ and what has to come of them."""
    setup, said = (WORKED / "setup.script").read_bytes(), (WORKED / "said.txt").read_text().splitlines()
    for address, number in HOSTS.items():
        for words in ([], ["echo"]):
            told = f"import of host{number}.pcap {' '.join(words)}"
            answer, left, warned = imported(trial, told, setup, [address, f"10.77.0.{number}", *words], bytes_of(f"host{number}.pcap.hex"))
            trial.state(told, left == bytes_of(".".join([f"import{number}", *words, "dsrc.hex"])) and warned == [])
            line = said[said.index(f"import setup.script {address} 10.77.0.{number} host{number}.pcap NEW {' '.join(words)}") + 1]
            trial.state(f"the line of {told}", answer.out == f"{line}\n".encode())
    exported(trial, "own.dsrc", bytes_of("own.dsrc.hex"), bytes_of("own.pcapng.hex"))
    exported_by_tshark(trial, "own.dsrc", bytes_of("own.dsrc.hex"))
    try_verdicts(trial)
    try_rewritten(trial, setup)


def fates(recording):
    """What became of each order, by `review`, but for the numbers of entries and the clocks."""
    lines = pages.answer_to_review(recording).out.decode().splitlines()
    orders = [dict(word.split("=", 1) for word in line.split() if "=" in word) for line in lines if line.startswith("order ")]
    return [[order[key] for key in ("from", "request", "to", "at", "sends", "receipts", "said", "heard", "fate")] for order in orders]


def try_verdicts(trial):
    """Joined, closed: explained where the echoes are there, with the fates of what the stations recorded; else blocked."""
    for words, status in ((["echo"], 0), ([], 1)):
        names = [".".join([f"import{number}", *words, "dsrc.hex"]) for number in HOSTS.values()]
        _, joined = pages.answer_to_join([(name, bytes_of(name)) for name in names], CLOSED)
        trial.state(f"the verdict on {names}", pages.answer_to_audit(joined).status == status)
        trial.state(f"the fates of {names}", status or fates(joined) == fates(bytes_of("own.dsrc.hex")))


def try_rewritten(trial, setup):
    """The same log of a capture that mergecap puts together of parts, and that editcap writes in other formats."""
    if not shutil.which("mergecap") or not shutil.which("editcap"):
        trial.skipped.append("there is no mergecap or no editcap")
        return
    for address, number in HOSTS.items():
        with tempfile.TemporaryDirectory(dir=trial.folder) as folder:
            def run(*words, folder=folder):
                subprocess.run(words, cwd=folder, check=True, capture_output=True)

            Path(folder, "whole.pcap").write_bytes(bytes_of(f"host{number}.pcap.hex"))
            run("editcap", "-c", "7", "whole.pcap", "part.pcap")
            run("mergecap", "-w", "merged.pcapng", *sorted(path.name for path in Path(folder).glob("part*.pcap")))
            run("mergecap", "-a", "-F", "nsecpcap", "-w", "joined.pcap", *sorted(path.name for path in Path(folder).glob("part*.pcap")))
            run("editcap", "-F", "pcapng", "whole.pcap", "whole.pcapng")
            for name in ("merged.pcapng", "joined.pcap", "whole.pcapng"):
                words = [address, f"10.77.0.{number}", "echo"]
                _, left, _ = imported(trial, f"{name} of host {number}", setup, words, Path(folder, name).read_bytes())
                trial.state(f"{name} of host {number}", left == bytes_of(f"import{number}.echo.dsrc.hex"))


def exported(trial, told, recording, wanted=None):
    """What `export` makes of a recording, and that `import` gives each station's log of it."""
    answer, left = pages.answer_to_export(recording)
    if wanted is not None:
        trial.state(f"export of {told}", left == wanted)
    if trial.program:
        trial.compare_export(told, recording, answer, left)
    if left is None:
        return
    exercise, stations, entries, _ = pages.read_recording(recording)
    for index, station in enumerate(stations):
        name = f"{station.site}:{station.application}"
        opening = "".join(f"opening {name} {entity} {pages.STATES[state]}\n" for entity, state in station.opening)
        setup = f"exercise {exercise}\nstation {name}\n{opening}".encode()
        host = ".".join(map(str, [*divmod(station.site, 256), *divmod(station.application, 256)]))
        _, back, _ = imported(trial, f"{told} back", setup, [name, host, f"on={name}"], left)
        log = [entry._replace(station=0) for entry in entries if entry.station == index and is_left_in(entry, exercise)]
        trial.state(f"{told} back as {name}", back == texts.recording_text(Recording(exercise, [station], log, OPEN)))


def shown_of(number, entry, station):
    """What tshark has to show of the packet of an entry: its frame, and that as it is in the recording."""
    own, data = ipaddress.ip_address(station.site << 16 | station.application), entry.datagram
    if entry.kind == SENT:
        way = own, ipaddress.ip_address(data[18:22] if len(data) >= 24 else b"\xff" * 4)
    else:
        way = ipaddress.ip_address(data[12:16] if len(data) >= 24 else bytes(4)), own
    return (number, entry.stamp, f"{station.site}:{station.application}", 2 if entry.kind == SENT else 1, *way, data)


def exported_by_tshark(trial, told, recording):
    """What tshark shows of the capture of a recording: each datagram, as DIS where it has 12 bytes."""
    if not sharks.is_there():
        trial.skipped.append("there is no tshark: captures of recordings are not compared with it")
        return
    path = Path(trial.folder) / "exported.pcapng"
    path.write_bytes(pages.answer_to_export(recording)[1])
    _, stations, entries, _ = pages.read_recording(recording)
    packets = [entry for entry in entries if entry.kind != TOLD]
    wanted = [shown_of(number, entry, stations[entry.station]) for number, entry in enumerate(packets, 1)]
    came = [(it.frame, it.stamp, it.name, it.direction, it.source, it.target, it.data) for it in sharks.shown(path, 3000)]
    trial.state(f"{told} exported, by tshark", came == wanted, str([each for each in zip(came, wanted) if each[0] != each[1]][:1]))
    kinds = {number: entry.datagram[2] for number, entry in enumerate(packets, 1) if len(entry.datagram) >= 12}
    trial.state(f"{told} exported, as DIS by tshark", sharks.dis_kinds(path) == kinds)


def is_left_in(entry, exercise):
    """Whether an entry is none that `other` and `elsewhere` leave out."""
    return entry.kind != TOLD and len(entry.datagram) >= 4 and entry.datagram[3] == 5 and entry.datagram[1] == exercise


def made_recording(chance):
    """A recording with datagrams of any kind, some of them spoilt."""
    exercise = chance.choice([1, 7])
    names = sorted(chance.sample([(1, 1), (2, 3), (2, 4), (65534, 65534), (9, 1)], chance.choice([1, 2, 3])))
    stations = [Station(*name, chance.choice([[], [(5, RUNNING)], [(1, STOPPED), (65533, RUNNING)]])) for name in names]
    traffic = made_captures.Traffic(chance, 3000, 4)
    entries = []
    for _ in range(chance.randrange(12)):
        index, datagram = chance.randrange(len(stations)), traffic.datagram()[:8192]
        if chance.random() < 0.2:
            entries.append(Entry(TOLD, index, None, None, 5, chance.choice([0, 1, 2])))
        else:
            kind, stamp = chance.choice([SENT, pages.RECEIVED]), chance.choice([0, 1_700_000_000_000_000, (1 << 64) - 1, chance.randrange(1 << 64)])
            entries.append(Entry(kind, index, stamp, datagram, None, None))
    return texts.recording_text(Recording(exercise, stations, entries, chance.choice([FIRST, CLOSED, OPEN])))


def try_made(trial, seeds):
    """Captures by seeds: what is kept of them, frame by frame, beside what tshark shows; and recordings exported."""
    for seed in seeds:
        made = made_captures.made(seed)
        words = [ADDRESS, *made.words]
        imported(trial, f"made-up capture {seed}", made.setup, words, made.text)
        exported(trial, f"made-up recording {seed}", made_recording(random.Random(seed)))
        if seed % 10 == 0:
            exported_by_tshark(trial, f"made-up recording {seed}", made_recording(random.Random(seed)))
        if sharks.is_there():
            path = Path(trial.folder) / "made.cap"
            path.write_bytes(made.text)
            try_by_tshark(trial, f"made-up capture {seed}", path, made)
    if not sharks.is_there():
        trial.skipped.append("there is no tshark: made-up captures are not compared with it")


def try_by_tshark(trial, told, path, made):
    address = tuple(map(int, ADDRESS.split(":")))
    by_tshark = sharks.kept_by_tshark(path, made_captures.EXERCISE, address, made.words)
    by_pages = sharks.kept_by_pages(made.text, made_captures.EXERCISE, address, made.words)
    left_out = {frame: one.why for frame, one in enumerate(made.taken, 1) if one.why}
    if any(word.startswith("on=") for word in made.words):
        left_out |= {frame: sharks.LATER_NAMES for frame, one in enumerate(made.taken, 1) if one.section}
    unstamped = {frame for frame, one in enumerate(made.taken, 1) if one.stamp is None}
    for frame in {*by_tshark, *by_pages} & set(left_out):
        trial.counts[f"left out, {left_out[frame]}"] += by_tshark.get(frame) != by_pages.get(frame)
    trial.counts["frames compared"] += len({*by_tshark, *by_pages} - set(left_out))
    differing = list(sharks.differences(by_tshark, by_pages, left_out, unstamped))
    trial.state(f"{told} by tshark: frames {[frame for frame, *_ in differing]}", not differing)


class Trial:
    """What was tried of the independent reading, and of a program if there is one."""

    def __init__(self, program, folder):
        self.program, self.folder = program, folder
        self.tried, self.wrong, self.skipped = 0, 0, []
        self.counts, self.most = Counter(), (0, 0)
        self.batch, self.waiting = importing.Batch(program, folder), {}

    def state(self, told, is_right, more=""):
        self.tried += 1
        if not is_right:
            self.wrong += 1
            print(f"wrong: {told}{more and ': '}{more}", flush=True)

    def compare(self, told, setup, words, text, *wanted):
        number = len(self.waiting)
        self.waiting[number] = f"{told}: import {' '.join(words)}", wanted
        self.batch.add(number, setup, words, text)
        self.run(IN_A_BATCH)

    def compare_export(self, told, recording, answer, left):
        number = len(self.waiting)
        self.waiting[number] = f"{told}: export", (answer, left, [])
        (Path(self.folder) / f"{number}.cap").write_bytes(recording)
        self.batch.add_words(number, ["export", self.batch.path(f"{number}.cap"), self.batch.path(f"{number}.new")])
        self.run(IN_A_BATCH)

    def run(self, least=1):
        """Runs the program on what waits, where there is so much of it."""
        if len(self.waiting) < least:
            return
        for number, came, made, memory, _ in self.batch.run():
            told, wanted = self.waiting[number]
            why = difference(*wanted, came, made)
            self.state(told, why is None, why or "")
            over = memory - 2 * (len(made or b"") >> 10)
            self.most = max(self.most, (over, memory))
            self.state(f"{told}: memory", over <= importing.MOST_MEMORY, f"{memory} KiB")
        self.waiting = {}
