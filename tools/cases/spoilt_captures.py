"""Captures that are made up and spoilt: lengths, types, options, whole blocks, headers of packets, and where they end."""
import random

import pages
from cases import frames, made_captures
from cases.importing import ADDRESS

MOST_SPOILT = 1 << 16
EXTREMES = [0, 1, 2, 3, 4, 6, 7, 8, 11, 12, 13, 16, 17, 20, 28, 31, 32, 36, 44, 0x7F, 0x80, 0xFF, 0x1FFF, 0x2000, 0x7FFF, 0x8000, 0xFFFF]
EXTREMES += [0x10000, 0x7FFFFFFC, 0x7FFFFFFF, 0x80000000, 0xFFFFFFF0, 0xFFFFFFFC, 0xFFFFFFFF]


class Spoiler:
    """A capture that is being spoilt, and where its records or blocks and its packets begin."""

    def __init__(self, chance, text):
        self.chance, self.text = chance, bytearray(text)
        self.places = self.found(text)

    def found(self, text):
        """Where fields stand that say much: of the records or blocks, and of the packets in them."""
        places, is_pcap = [0, 4, 8, 12, 16, 20], text[:4] != b"\n\r\r\n"
        if not is_pcap:
            places += self.of_blocks(text)
        try:
            for packet in pages.Capture(text).packets():
                first = packet.at + (16 if is_pcap else 28)
                places += [packet.at + 4 * number for number in range(4 if is_pcap else 7)]
                places += [first + number for number in range(0, min(len(packet.kept), 90), 2)]
                places.append(first + len(packet.kept))
        except (pages.CaptureFault, pages.Torn):
            pass
        return [place for place in places if place < len(text)]

    def of_blocks(self, text):
        """The fields of blocks that hold no packet, and the last one of each block."""
        places = []
        try:
            for block in pages.Capture(text).blocks():
                end = block.at + 12 + len(block.body)
                places += [end - 4] if block.kind in (frames.ENHANCED, frames.OLD, frames.SIMPLE) else range(block.at, end, 4)
        except (pages.CaptureFault, pages.Torn):
            pass
        return places

    def place(self):
        if self.places and self.chance.random() < 0.8:
            return self.chance.choice(self.places) + self.chance.choice([0, 0, 0, 1, 2, 3, 4])
        return self.chance.randrange(len(self.text) + 1)

    def put(self, place, part):
        self.text[place : place + len(part)] = part[: max(0, len(self.text) - place)]

    def spoil(self):
        kind = self.chance.choice([self.change, self.change, self.set_field, self.set_field, self.shift, self.copy, self.cut, self.swap])
        kind()

    def change(self):
        place = self.place()
        if place < len(self.text):
            self.text[place] = self.chance.choice([0, 1, 0xFF, self.text[place] ^ 1 << self.chance.randrange(8), self.chance.randrange(256)])

    def set_field(self):
        """A field of 2, 4 or 8 bytes is set to an extreme value, or near to what it is."""
        chance, place = self.chance, self.place()
        size, order = chance.choice([2, 2, 4, 4, 4, 8]), chance.choice(["big", "little"])
        here = int.from_bytes(self.text[place : place + size], order)
        value = chance.choice([*EXTREMES, here + 1, here - 1, here + 4, here - 4, here * 2, len(self.text), len(self.text) - place])
        self.put(place, (value % (1 << 8 * size)).to_bytes(size, order))

    def shift(self):
        """Some bytes are put in, or taken out."""
        place, size = self.place(), self.chance.choice([1, 2, 4, 4, 8, 16, 40])
        if self.chance.random() < 0.5:
            del self.text[place : place + size]
        else:
            self.text[place:place] = self.chance.choice([bytes(size), b"\xff" * size, self.chance.randbytes(size)])

    def copy(self):
        """A part stands a second time somewhere: mostly from one record to another."""
        starts = [place for place in self.places if place % 4 == 0] or [0]
        first, size, to = self.chance.choice(starts), self.chance.choice([4, 8, 16, 28, 100, 400]), self.chance.choice(starts)
        part = bytes(self.text[first : first + size])
        if self.chance.random() < 0.5:
            self.put(to, part)
        elif len(self.text) < MOST_SPOILT:
            self.text[to:to] = part

    def cut(self):
        if self.chance.random() < 0.3:
            del self.text[self.place() :]

    def swap(self):
        """Two bytes of a header of a packet are what they are in another: fragments overlap, addresses change."""
        one, other, size = self.place(), self.place(), self.chance.choice([1, 2, 4])
        first, second = bytes(self.text[one : one + size]), bytes(self.text[other : other + size])
        self.put(one, second)
        self.put(other, first)


def spoilt(seed):
    """A capture by a seed, its words and its setup."""
    chance = random.Random(f"spoilt {seed}")
    made = made_captures.made(chance.randrange(1 << 30), chance.choice([1, 2, 3, 6]))
    spoiler = Spoiler(chance, made.text)
    for _ in range(chance.choice([1, 1, 2, 3, 6])):
        spoiler.spoil()
    words = [word for word in made.words if word != "cut=keep" or chance.random() < 0.6]
    return bytes(spoiler.text), words, made.setup


def try_spoilt(trial, count, first=0):
    """So many spoilt captures: the independent reading answers each, and the program as it does."""
    for seed in range(first, first + count):
        text, words, setup = spoilt(seed)
        words = [ADDRESS, *words]
        answer, left, warned = pages.answer_to_import(setup, words, text)
        trial.counts[f"spoilt: {kind_of(answer)}"] += 1
        is_whole = left is None or pages.answer_to_show(left).status == 0
        trial.state(f"spoilt capture {seed} makes a recording", is_whole)
        if trial.program:
            trial.compare(f"spoilt capture {seed}", setup, words, text, answer, left, warned)


def kind_of(answer):
    return answer.out.split(b" ", 1)[0].decode() or answer.errors.split(b" at ")[0].decode().strip()
