"""What count says of a recording, by READING.md: how many entries each station sent, received and told, by kind."""
from collections import Counter

from .files import KINDS_OF_ENTRIES, RECEIVED, SENT, TOLD
from .logs import KINDS, answer_of_entries, log_text, name_of
from .reviews import Line, address_text

DEEDS = [SENT, RECEIVED, TOLD]
# The names of entries in the order of their rows; one that tells a state has no kind.
NAMES_OF_ENTRIES = [*KINDS, "other", "told"]


def count_line(story, station, deed, name, count):
    kind = [] if deed == TOLD else [(False, "kind", name)]
    return Line("count", [
        (False, "address", address_text(story.address(station))), (False, "did", KINDS_OF_ENTRIES[deed]), *kind,
        (True, "entries", count),
    ])  # fmt: skip


def count_lines(story, kept):
    """A line for each station, deed and kind that one of these entries has, by their order."""
    counts = Counter(
        (story.entries[index].station, DEEDS.index(story.entries[index].kind), NAMES_OF_ENTRIES.index(name_of(story, index)))
        for index in kept
    )  # fmt: skip
    for (station, deed, name), count in sorted(counts.items()):
        yield count_line(story, station, DEEDS[deed], NAMES_OF_ENTRIES[name], count)


def answer_to_count(text, words=(), spelled=log_text):
    """What count answers to a recording by its bytes, and to the words behind it."""
    return answer_of_entries(text, words, count_lines, spelled)
