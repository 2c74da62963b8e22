"""Captures of more than 4 GiB with a record or block of that size, and recordings that are full.

What comes of them was taken by hand from what `import` says: the independent reading would hold all of it in memory.
"""
import os
import struct
from pathlib import Path

from cases import frames, importing, made_captures, texts
from cases.frames import ETHERNET
from cases.importing import ADDRESS
from pages import LARGEST_RECORDING, MOST_ENTRIES, Outcome

LARGE = 1 << 32
OWN, MANAGER, EVERYBODY = bytes([10, 0, 0, 3]), bytes([10, 0, 0, 1]), b"\xff" * 4


def datagram():
    return texts.pdu(11, (1, 1, 0), (2, 3, 7), exercise=made_captures.EXERCISE, request=1)


def frame_of(data, source=MANAGER, target=OWN):
    return frames.on_link(ETHERNET, frames.ip4(source, target, frames.udp(data)))


def record_of(data, *ends):
    frame = frame_of(data, *ends)
    return frames.pcap_record(10**9, frame, len(frame))


def large_files():
    """Files with a record or block as large as its field allows: their head, their size, what stands at the end, and at
    which length a fault is, if that one is looked into."""
    for size in (LARGE - 1, LARGE - 16):
        head = frames.pcap([], ETHERNET) + struct.pack("<4I", 1, 0, size, size)
        yield f"a record of {size} bytes", head, len(head) + size, record_of(datagram()), len(head) - 8
    size = LARGE - 4
    start = frames.section() + frames.interface(ETHERNET)
    kept = size - 32
    bodies = {0x77: b"", frames.ENHANCED: struct.pack("<5I", 0, 0, 0, kept, kept), frames.SIMPLE: struct.pack("<I", size - 16)}
    for kind, body in bodies.items():
        head = start + struct.pack("<2I", kind, size) + body
        end = struct.pack("<I", size) + frames.enhanced(0, 1_000_000, frame_of(datagram()))
        yield f"a block of kind {kind} of {size} bytes", head, len(start) + size - 4, end, None if kind == 0x77 else len(start) + 4


def line_of(packets, records, other, cut=0, sent=0, echoes=0):
    received = records - sent - echoes
    line = f"imported packets={packets} records={records} sent={sent} received={received} echoes={echoes} other={other} elsewhere=0"
    return f"{line} passing=0 shared=0 fragments=0 cut={cut} dropped=0 bundled=0\n".encode()


class Large:
    """Large captures for a program, in a folder."""

    def __init__(self, trial):
        folder = Path(trial.folder) / "large"
        folder.mkdir(exist_ok=True)
        self.trial, self.batch, self.path = trial, importing.Batch(trial.program, folder), folder / "large.cap"
        (folder / "setup").write_bytes(made_captures.SETUP)

    def run(self, told, wanted, size, words=(), held=0):
        """Imports the capture: what comes, whether a file of so many bytes is made (None: none), and the memory: twice what
        the file takes, or would have taken up to the fault, and a little."""
        files = [self.batch.path("setup"), ADDRESS, "10.0.0.3", str(self.path), self.batch.path("0.new")]
        self.batch.add_words(0, ["import", *files, *words])
        for _, came, made, memory, seconds in self.batch.run():
            is_right = importing.is_like(came, wanted) and size == (None if made is None else len(made))
            self.trial.state(f"{told} {' '.join(words)}", is_right, f"{came} in {seconds:.1f} seconds")
            most = importing.MOST_MEMORY + 2 * max(held, len(made or b"")) // 1024
            self.trial.state(f"{told} {' '.join(words)}: memory", memory <= most, f"{memory} KiB")


def size_of(entries):
    """The size of a recording of the setup with entries of so many bytes."""
    return 18 + 2 * 3 + sum(13 + entry for entry in entries) + 5


def try_large(trial):
    """Files of more than 4 GiB, which have no bytes on disk, whole and torn."""
    large = Large(trial)
    for told, head, size, end, fault_at in large_files():
        for is_torn in (False, True):
            with open(large.path, "wb") as file:
                file.write(head)
                file.truncate(size - is_torn)
                file.seek(0, os.SEEK_END)
                file.write(b"" if is_torn else end)
            name = f"{told}{', torn' * is_torn}"
            if fault_at is not None:
                refused = Outcome(2, b"", f"capture: block at {fault_at}\n".encode()), None
                large.run(name, *refused)
                large.run(name, *refused, ["cut=keep"])
                continue
            good = Outcome(0, line_of(1, 1, 0), b""), size_of([28])
            if is_torn:
                large.run(name, Outcome(2, b"", f"capture: truncated at {size - 1}\n".encode()), None)
                good = Outcome(0, line_of(1, 0, 0, 1), b""), size_of([])
            large.run(name, *good, ["cut=keep"])
    large.path.unlink()


def try_numbers(trial):
    """As many entries as there can be, one more, and one more by an echo."""
    large, one = Large(trial), record_of(datagram())
    full = Outcome(2, b"", b"import: records\n")
    for count, behind, wanted, words in (
        (MOST_ENTRIES, b"", Outcome(0, line_of(MOST_ENTRIES, MOST_ENTRIES, 0), b""), ["opening=none"]),
        (MOST_ENTRIES + 1, b"", full, []), (MOST_ENTRIES + 1, b"torn", full, []),
        (MOST_ENTRIES, b"torn", None, []),
    ):  # fmt: skip
        large.path.write_bytes(frames.pcap([], ETHERNET) + one * count + behind)
        wanted = wanted or Outcome(2, b"", f"capture: truncated at {large.path.stat().st_size}\n".encode())
        large.run(f"{count} entries{' and a torn end' if behind else ''}", wanted, None if wanted.status else size_of([28] * count) - 6, words, size_of([28] * MOST_ENTRIES))
    half = MOST_ENTRIES // 2
    own = record_of(texts.pdu(11, (2, 3, 0), (1, 1, 7), exercise=made_captures.EXERCISE, request=1), OWN, EVERYBODY)
    for count, more in ((half, b""), (half + 1, b""), (half, one)):
        large.path.write_bytes(frames.pcap([], ETHERNET) + own * count + more)
        good = Outcome(0, line_of(half, 2 * half, 0, sent=half, echoes=half), b""), size_of([28] * MOST_ENTRIES)
        large.run(f"{count} entries, {len(more)} bytes behind", *((full, None) if more or count > half else good), ["echo"], size_of([28] * MOST_ENTRIES))
    large.path.unlink()


def try_sizes(trial):
    """As large a recording as there can be, and one byte more."""
    large, most, first = Large(trial), 8192, bytes([7, made_captures.EXERCISE, 11, 5])
    count, rest = divmod(LARGEST_RECORDING - size_of([]), 13 + most)
    for more in (0, 1):
        text = record_of(first + bytes(most - 4)) * count + record_of(first + bytes(rest - 13 - 4 + more))
        large.path.write_bytes(frames.pcap([], ETHERNET) + text)
        good = Outcome(0, line_of(count + 1, count + 1, 0), b""), LARGEST_RECORDING
        large.run(f"a recording of {LARGEST_RECORDING + more} bytes", *((Outcome(2, b"", b"import: size\n"), None) if more else good), held=LARGEST_RECORDING)
    large.path.unlink()


def try_all(trial):
    if trial.program:
        try_large(trial)
        try_numbers(trial)
        try_sizes(trial)
