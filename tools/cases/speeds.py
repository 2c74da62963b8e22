"""How long `import` takes beside tcpdump and tshark, on a large capture."""
import os
import shutil
import struct
import subprocess
import sys
from pathlib import Path

import pages
from cases import frames, made_captures, texts
from cases.frames import ETHERNET
from cases.importing import ADDRESS, MOST_MEMORY, RUNNER
from cases.large_captures import line_of

SIZE, ONE_IN, ROUNDS = 1 << 30, 1000, 5
PART_FOR_TSHARK = 8  # tshark reads so small a part of the file
HOST = bytes([10, 0, 0, 3])
FILTER = "udp port 3000 and udp[11] = 5"


def chunk():
    """A thousand packets, one of them Simulation Management for the host, and where their stamps stand."""
    state = bytes([7, made_captures.EXERCISE, 1, 1]) + bytes(4) + struct.pack(">H", 144) + bytes(134)
    other = frames.on_link(ETHERNET, frames.ip4(bytes([10, 0, 0, 1]), bytes([10, 0, 0, 255]), frames.udp(state)), True)
    order = texts.pdu(11, (1, 1, 0), (2, 3, 7), exercise=made_captures.EXERCISE, request=1)
    good = frames.on_link(ETHERNET, frames.ip4(bytes([10, 0, 0, 1]), HOST, frames.udp(order)))
    text, places = bytearray(), []
    for number in range(ONE_IN):
        frame = good if number == ONE_IN // 2 else other
        places.append(len(text))
        text += frames.pcap_record(number * 1000, frame, len(frame))
    return text, places


def packets_of(size):
    """How many packets a capture of at least so many bytes has."""
    return -(-size // len(chunk()[0])) * ONE_IN


def make(path, size):
    text, places = chunk()
    with open(path, "wb") as file:
        file.write(frames.pcap([], ETHERNET))
        for second in range(packets_of(size) // ONE_IN):
            for place in places:
                struct.pack_into("<I", text, place, 1_700_000_000 + second)
            file.write(text)


def made(path, size):
    """As `make`, by a process of its own: the peak memory of a program counts that of the one that started it."""
    child = os.fork()
    if child == 0:
        make(path, size)
        os._exit(0)
    if os.waitpid(child, 0)[1]:
        raise OSError("the capture could not be made")


def run(folder, *words):
    """The seconds by the clock and the peak memory in KiB of a run; it has to end well."""
    line = "\t".join([str(folder / "out"), str(folder / "errors"), shutil.which(words[0]) or words[0], *map(str, words[1:])])
    done = subprocess.run([sys.executable, "-I", "-S", "-c", RUNNER], input=f"{line}\n".encode(), capture_output=True, check=True)
    status, memory, seconds = done.stdout.split()
    if int(status):
        raise OSError(f"{words[0]}: status {int(status)}: {(folder / 'errors').read_text()}")
    return float(seconds), int(memory)


def ways(program, folder, large, part):
    """What is timed: its words, how often, and of how much of the file."""
    setup, new = folder / "setup", folder / "made"
    tshark = ["tshark", "-n", "-r", part, "-Y", "udp.dstport == 3000 && udp[11] == 5", "-T", "fields", "-e", "frame.number", "-e", "udp.payload"]
    found = {"tcpdump -r .. -w ..": (["tcpdump", "-Z", "root", "-r", large, "-w", new, FILTER], ROUNDS, 1)} if shutil.which("tcpdump") else {}
    if program:
        found["siman import"] = ([program, "import", setup, ADDRESS, "10.0.0.3", large, new, "--force"], ROUNDS, 1)
    if shutil.which("tshark"):
        found["tshark -r .. -Y .. -T fields"] = (tshark, 1, PART_FOR_TSHARK)
    return found


def try_speed(trial):
    """Times all of them in turn; the program has to keep one packet in a thousand, in little memory."""
    folder = Path(trial.folder)
    large, part = folder / "large.pcap", folder / "part.pcap"
    (folder / "setup").write_bytes(made_captures.SETUP)
    made(large, SIZE)
    made(part, SIZE // PART_FOR_TSHARK)
    best, found = {}, ways(trial.program, folder, large, part)
    for number in range(ROUNDS):
        for way, (words, rounds, times) in found.items():
            if number < rounds:
                seconds, memory = run(folder, *words)
                best[way] = tuple(map(min, best.get(way, (seconds * times, memory)), (seconds * times, memory)))
            if words[0] == trial.program:
                try_kept(trial, folder, memory)
            if words[0] == "tcpdump":
                kept = list(pages.Capture((folder / "made").read_bytes()).packets())
                trial.state("what tcpdump keeps", len(kept) == packets_of(SIZE) // ONE_IN)
    print(f"a capture of {large.stat().st_size / 2**30:.2f} GiB\n\n| | seconds | MiB |\n|---|---|---|")
    for way, (seconds, memory) in best.items():
        print(f"| {way} | {seconds:.2f} | {memory / 1024:.0f} |")


def try_kept(trial, folder, memory):
    text, packets = (folder / "made").read_bytes(), packets_of(SIZE)
    line = line_of(packets, packets // ONE_IN, packets - packets // ONE_IN)
    trial.state("the line of a large capture", (folder / "out").read_bytes() == line, (folder / "out").read_bytes().decode())
    trial.state("what is kept of a large capture", text.count(b"\7\7\x0b\5") == packets // ONE_IN)
    most = MOST_MEMORY + 2 * len(text) // 1024
    trial.state("the memory of a large capture", memory <= most, f"{memory} KiB")
