"""The picture that chart draws, to the byte, by the pages of exercise_chart; and what chart answers, by READING.md."""
import re

from .charts import MOST_ENTITIES, Picture
from .datagrams import BODIES, REQUESTS, Outcome, fault, identifier_text
from .files import RUNNING, SENT, STATES, TOLD, Fault, read_certificate, read_recording
from .histories import CAUSES, is_answer, judged, request_of, same_order, search, searched, timely, verdict
from .reviews import told_at, word_of

LEFT, TOP, ROW, BLOCK, MOST_ROWS = 40, 128, 20, 36, 2000
SHEET, ACROSS = 1195, 432
COLUMN, SLOT, MOST_BLOCKED = 108, 12, 256
MOST_STEP = 0xFFFF_FFFF
TONES = {"request": "#1d4ed8", "able": "#15803d", "unable": "#c2410c", "other": "#475569", "notice": "#7c3aed"}
WORD_TONES = {"able": "able", "complete": "able", "data": "able", "unable": "unable", "rejected": "unable"}
# Of each unit of stamps: how many there are in a second, how many digits stand behind it, and how wide a clock is.
UNITS = {"us": (1_000_000, 6), "ms": (1_000, 3), "s": (1, 0)}
CLOCK_WIDTHS = {"us": 116, "ms": 92, "s": 68}
# Each light colour with the dark one that takes its place.
DARK = {
    "#1d4ed8": "#93c5fd", "#15803d": "#86efac", "#c2410c": "#fdba74", "#475569": "#cbd5e1", "#7c3aed": "#c4b5fd",
    "#ffffff": "#111827", "#1f2933": "#e5e7eb", "#94a3b8": "#64748b", "#e2e8f0": "#1f2937", "#fbbf24": "#b45309",
    "#4ade80": "#15803d", "#dc2626": "#f87171",
}  # fmt: skip
CROSS = (
    '<marker id="lost" viewBox="0 0 12 12" refX="6" refY="6" markerWidth="12" markerHeight="12" '
    'markerUnits="userSpaceOnUse"><path d="M2 2L10 10M2 10L10 2" fill="none" stroke="#dc2626" stroke-width="2"/>'
    "</marker>\n"
)
SIGNS = (
    '<circle id="sent" r="4"/>\n'
    '<rect id="other" x="-4" y="-4" width="8" height="8"/>\n'
    '<path id="told" d="M0 -6L6 0L0 6L-6 0z" stroke="#1f2933" stroke-width="2"/>\n'
    '<g id="unanswered" stroke="#dc2626" stroke-width="2"><circle r="6"/><path d="M-3 -3L3 3"/></g>\n'
    '<path id="blocked" d="M-2 -6h4l4 4v4l-4 4h-4l-4 -4v-4z"/>\n'
)
BODY = '<marker id="drawn" markerUnits="userSpaceOnUse" overflow="visible"><use href="#lines"/></marker>\n'


def attributes(pairs):
    return "".join(f' {key}="{value}"' for key, value in pairs)


def element(name, *pairs):
    return f"<{name}{attributes(pairs)}/>\n"


def words(said, *pairs):
    return f"<text{attributes(pairs)}>{said}</text>\n"


def group(text, **keys):
    return f"<g{attributes((key.replace('_', '-'), value) for key, value in keys.items())}>\n{text}</g>\n"


def time_of_day(stamp, unit):
    """The time of day, in UTC, of a stamp since 1970."""
    units, digits = UNITS[unit]
    seconds, part = divmod(stamp, units)
    clock = ":".join(f"{number:02}" for number in (seconds // 3600 % 24, seconds // 60 % 60, seconds % 60))
    return f"{clock}.{part:0{digits}}" if digits else clock


def is_notice(pdu):
    return pdu.kind not in REQUESTS and not is_answer(pdu)


def tone_of(pdu):
    if pdu and is_answer(pdu):
        return WORD_TONES.get(word_of(pdu), "other")
    return "other" if not pdu else "notice" if is_notice(pdu) else "request"


class Drawing(Picture):
    """A picture as it is drawn."""

    def __init__(self, recording, places, rows, chosen=(), unit=None, kept=(), blocked=()):
        super().__init__(recording, places, rows, chosen, unit, kept, blocked)
        self.exercise, self.count = recording.exercise, len(recording.stations)
        self.shown = min(max(rows.stop - rows.start, 0), MOST_ROWS)
        self.drawn = self.shown + min(len(self.blocked), MOST_BLOCKED)

    # Where things stand.

    def column_x(self, column):
        return LEFT + COLUMN * column

    def x(self, station):
        return self.column_x(self.columns.get(station, 0))

    def slot_x(self, station, slot):
        return self.x(station) + SLOT * min(slot, MOST_ENTITIES)

    def step(self, entry):
        return self.steps.get(entry, len(self.places))

    @staticmethod
    def row_y(number):
        return TOP + ROW * (number + number // BLOCK + 1)

    def y(self, entry):
        step = self.step(entry)
        if step < self.rows.start:
            return TOP + 10
        if step >= self.rows.stop:
            return self.bottom
        return self.row_y(min(step - self.rows.start, MOST_ROWS))

    def blocked_y(self, number):
        return self.row_y(self.shown + min(number, MOST_BLOCKED))

    @property
    def rows_x(self):
        return self.column_x(len(self.columns))

    @property
    def step_x(self):
        return self.rows_x + 48

    @property
    def clock_x(self):
        return self.step_x + 12

    @property
    def words_x(self):
        return self.clock_x + (CLOCK_WIDTHS[self.unit] if self.unit else 0)

    @property
    def width(self):
        return self.words_x + 540

    @property
    def bottom(self):
        return self.row_y(self.drawn)

    def column(self, entry):
        return self.x(self.story.entries[entry].station)

    # The parts.

    def text(self):
        under = self.heading() + self.rows_text() + '<g id="lines">\n' + self.column_lines() + self.bars_text()
        over = self.arrows() + self.outsiders() + self.losses() + self.deeds() + self.all_unanswered() + self.all_blocked()
        return f"{under}{over}</g>\n{self.names()}</g>\n{self.sheets_text()}</svg>\n"

    def heading(self):
        width, height = self.width, self.bottom + 24
        entries, steps = len(self.story.entries), self.rows.stop - self.rows.start
        kept = f" ({len(self.columns)} shown)" if len(self.columns) < self.count else ""
        counts = f"{self.count} stations{kept}, {entries} entries, {steps} steps from step {self.rows.start} on"
        counts += f", then {len(self.blocked)} blocked" if self.blocked else ""
        return (
            f'<svg xmlns="http://www.w3.org/2000/svg" width="{width}" height="{height}" style="--sheets:{self.down * self.across}" '
            'font-family="Helvetica,Arial,sans-serif" font-size="11">\n'
            f"<title>Exercise {self.exercise}</title>\n<desc>{counts}. Stations are columns, steps are rows, from "
            "above; behind each row stands its entry in words.</desc>\n"
            f"{self.style()}<defs>\n{''.join(map(self.head, TONES))}{CROSS}{SIGNS}{BODY}</defs>\n"
            + element("rect", ("width", width), ("height", height), ("fill", "#ffffff"))
            + '<g id="screen">\n<g id="heading" fill="#1f2933">\n<text x="24" y="28" font-size="18" font-weight="bold">'
            + f'Exercise {self.exercise}</text>\n<text x="24" y="48">{counts}</text>\n{LEGEND}</g>\n'
        )

    @staticmethod
    def style():
        dark = "".join(
            f'[fill="{light}"]{{fill:{other}}}[stroke="{light}"]{{stroke:{other}}}\n' for light, other in DARK.items()
        )
        return (
            "<style>\n#sheets{display:none}\n@page{size:landscape;margin:10mm}\n"
            "@media print{:root{width:100%;height:calc(100vh*var(--sheets));font-size:13px}"
            "#screen{display:none}#sheets{display:inline}}\n"
            f"@media (prefers-color-scheme:dark){{\n{dark}}}\n</style>\n"
        )

    @staticmethod
    def head(tone):
        return (
            f'<marker id="to-{tone}" viewBox="0 0 8 8" refX="8" refY="4" markerWidth="8" markerHeight="8" '
            f'markerUnits="userSpaceOnUse" orient="auto"><path d="M0 0L8 4L0 8z" fill="{TONES[tone]}"/></marker>\n'
        )

    def rows_text(self):
        return group("".join(map(self.row, self.rows)) + "".join(map(self.blocked_row, range(len(self.blocked)))))

    def row(self, step):
        entry = self.places[step]
        y = self.y(entry)
        number = words(step, ("x", self.step_x), ("y", y + 4), ("text-anchor", "end"))
        keys = [("x", self.words_x), ("y", y + 4), ("class", "row"), ("data-step", step), ("data-entry", entry)]
        begun = self.row_begun(step - self.rows.start, y) + number
        return begun + self.clock(entry, y + 4) + words(self.row_words(entry), *keys)

    def row_begun(self, number, y):
        """The beginning of a block, before its first row, and the rule of a row."""
        block, place = divmod(number, BLOCK)
        begun = "" if place else f'</g>\n<g id="rows{block}" fill="#1f2933">\n'
        rule = element("line", ("x1", 16), ("y1", y), ("x2", self.rows_x - 8), ("y2", y), ("stroke", "#e2e8f0"))
        return begun + rule

    def blocked_row(self, number):
        (entry, cause), y = self.blocked[number], self.blocked_y(number)
        keys = [("x", self.words_x), ("y", y + 4), ("fill", "#dc2626"), ("class", "blocked"), ("data-entry", entry)]
        said = f"{self.row_words(entry)} cause={cause} {CAUSES[cause]}"
        begun = self.row_begun(self.shown + number, y)
        return begun + self.clock(entry, y + 4) + words(said, *keys, ("data-cause", cause))

    def clock(self, entry, y):
        if not self.unit:
            return ""
        keys = [("x", self.clock_x), ("y", y), ("class", "clock"), ("data-entry", entry)]
        return words(time_of_day(self.stamp(entry), self.unit), *keys, ("data-stamp", self.stamp(entry)))

    def row_words(self, index):
        entry, pdu = self.story.entries[index], self.story.meanings[index]
        begun = f"{index} {self.address(entry.station)}"
        if entry.kind == TOLD:
            entity = identifier_text((*self.story.address(entry.station), entry.entity))
            return f"{begun} told entity={entity} state={STATES[entry.state]}"
        did = "sent" if entry.kind == SENT else "received"
        if not pdu:
            return f"{begun} {did} other bytes={len(entry.datagram)}"
        word = f" {word_of(pdu)}" if is_answer(pdu) and word_of(pdu) != "data" else ""
        whom = f"to={identifier_text(pdu.target)}" if entry.kind == SENT else f"from={identifier_text(pdu.origin)}"
        request = "" if is_notice(pdu) else f" request={request_of(pdu)}"
        return f"{begun} {did} {BODIES[pdu.kind][0]}{word} {whom}{request}{self.again(index, pdu)}"

    def again(self, index, pdu):
        """Whether what an entry sends was sent before."""
        entry = self.story.entries[index]
        if entry.kind != SENT:
            return ""
        if self.copies(entry.datagram, SENT, entry.station)[0] != index:
            return " (same bytes again)"
        before = (other for at, other in self.story.meant(entry.station, SENT) if at < index)
        is_repeat = pdu.kind in REQUESTS and any(same_order(pdu, other) for other in before)
        return " (repeat)" if is_repeat else ""

    def column_lines(self):
        lines = (
            element("line", ("x1", self.x(s)), ("y1", TOP), ("x2", self.x(s)), ("y2", self.bottom)) for s in self.columns
        )
        return group("".join(lines), stroke="#94a3b8")

    def bars_text(self):
        bars = "".join(self.station_bars(station) for station in self.columns)
        bars += "".join(self.undrawn(station) for station in self.columns)
        return group(bars, fill="#1f2933", writing_mode="vertical-rl", font_size=13)

    def station_bars(self, station):
        shown, entities = self.lives(station)
        least = entities[:MOST_ENTITIES]
        return "".join(self.bar(station, least.index(life[0]), life) for life in shown if life[0] in least)

    def undrawn(self, station):
        more = len(self.lives(station)[1]) - MOST_ENTITIES
        keys = [("x", self.slot_x(station, MOST_ENTITIES)), ("y", TOP + 17), ("class", "undrawn")]
        keys += [("data-at", self.address(station)), ("data-entities", more)]
        return words(f"+{more} more", *keys) if more > 0 else ""

    def told_x(self, entry):
        """The middle of the bars of the entity of which a state was told, if it has bars; else right of the bars of its
        station, if that has bars; else of the column."""
        told = self.story.entries[entry]
        least = self.lives(told.station)[1][:MOST_ENTITIES]
        if not least:
            return self.x(told.station)
        return self.slot_x(told.station, least.index(told.entity) if told.entity in least else MOST_ENTITIES)

    def bar(self, station, slot, life):
        entity, state, since, until = life
        begins = TOP + 10 if since is None else self.y(since.entry)
        ends = self.bottom if until is None else self.y(until.entry)
        x = self.slot_x(station, slot)
        return element(
            "rect", ("x", x - 6), ("y", begins), ("width", 11), ("height", max(ends - begins, 0)),
            ("fill", "#4ade80" if state == RUNNING else "#fbbf24"), ("class", "bar"),
            ("data-entity", identifier_text((*self.story.address(station), entity))), ("data-state", STATES[state]),
            ("data-from", since.entry if since else "-"), ("data-to", until.entry if until else "-"),
        ) + words(entity, ("x", x), ("y", begins + 7))  # fmt: skip

    def arrows(self):
        ends = enumerate(self.story.sources)
        arrows = (
            self.arrow(source, entry) for entry, source in ends
            if source is not None and (self.is_shown(entry) or self.is_shown(source)) and self.is_kept(entry)
        )  # fmt: skip
        return group("".join(arrows), stroke_width=2)

    def arrow(self, source, entry):
        tone = tone_of(self.story.meanings[entry])
        begins = self.column(entry) - 24, self.y(entry)
        if self.is_kept(source):
            begins = self.column(source), self.y(source)
        return element(
            "line", ("x1", begins[0]), ("y1", begins[1]), ("x2", self.column(entry)),
            ("y2", self.y(entry)), ("stroke", TONES[tone]), ("marker-end", f"url(#to-{tone})"), ("class", "arrow"),
            ("data-from", source), ("data-to", entry),
        )  # fmt: skip

    def marked(self, name):
        """The marks of a name, in the order of the rows, each with its facts."""
        for step in self.rows:
            yield from (facts for mark, *facts in self.marks_at(self.places[step]) if mark == name)

    def outsiders(self):
        return group("".join(self.outsider(by, entry) for by, entry in self.marked("outside")), stroke_width=2)

    def outsider(self, by, entry):
        x, y, tone = self.column(entry), self.y(entry), tone_of(self.story.meanings[entry])
        return element(
            "line", ("x1", x - 24), ("y1", y), ("x2", x), ("y2", y), ("stroke", TONES[tone]),
            ("marker-end", f"url(#to-{tone})"), ("class", "outside"), ("data-by", by), ("data-to", entry),
        )  # fmt: skip

    def losses(self):
        lost = "".join(self.loss(entry, at) for entry, at in self.marked("lost"))
        return group(lost, stroke_width=2, stroke_dasharray="2 3", marker_end="url(#lost)")

    def loss(self, entry, at):
        station = next(s for s in range(self.count) if self.address(s) == at)
        x, y = self.x(station), self.y(entry)
        end = x - 16 if self.story.entries[entry].station < station else x + 16
        return element(
            "line", ("x1", self.column(entry)), ("y1", y), ("x2", end), ("y2", y),
            ("stroke", TONES[tone_of(self.story.meanings[entry])]), ("class", "lost"), ("data-from", entry),
            ("data-at", at),
        )  # fmt: skip

    def sign(self, name, entry, colour, x=None, y=None):
        if not self.is_kept(entry):
            return ""
        x, y = self.column(entry) if x is None else x, self.y(entry) if y is None else y
        return element(
            "use", ("href", f"#{name}"), ("x", x), ("y", y), ("fill", colour), ("class", name), ("data-entry", entry)
        )

    def deeds(self):
        return "".join(self.deed(self.places[step]) for step in self.rows)

    def deed(self, entry):
        kind, pdu = self.story.entries[entry].kind, self.story.meanings[entry]
        if kind == TOLD:
            return self.sign("told", entry, "#ffffff", self.told_x(entry))
        if not pdu:
            return self.sign("other", entry, "#475569")
        return self.sign("sent", entry, TONES[tone_of(pdu)]) if kind == SENT else ""

    def all_unanswered(self):
        return "".join(self.sign(name, entry, "#ffffff") for name, entry in self.unanswered())

    def all_blocked(self):
        signs = enumerate(self.blocked)
        return "".join(self.sign("blocked", entry, "#dc2626", y=self.blocked_y(at)) for at, (entry, _) in signs)

    def names(self):
        return "".join(map(self.names_above, range(self.drawn // BLOCK + 1)))

    def names_above(self, block):
        return group(
            self.names_at(TOP + 4 + ROW * (BLOCK + 1) * block), id=f"names{block}", fill="#1f2933", stroke="#ffffff",
            stroke_width=4, paint_order="stroke", font_weight="bold", text_anchor="middle",
        )  # fmt: skip

    # The sheets.

    @property
    def down(self):
        return max(self.drawn - 1, 0) // BLOCK + 1

    @property
    def is_narrow(self):
        return self.width <= SHEET

    @property
    def across(self):
        return 1 if self.is_narrow else max((len(self.columns) + 3) // 4, 1)

    def sheets_text(self):
        return group("".join(map(self.sheet, range(self.down * self.across))), id="sheets")

    def sheet(self, number):
        block, place = divmod(number, self.across)
        begun = f'<svg y="{100 * number}vh" width="980" height="716" viewBox="0 0 1195 873">\n<use href="#heading"/>\n'
        if self.is_narrow:
            return f"{begun}{self.part(0, 0, SHEET, block)}</svg>\n"
        x, edge = 4 + ACROSS * place, self.rows_x - 8
        columns = self.part(0, x, min(ACROSS, max(edge - x, 0)), block)
        return f"{begun}{columns}{self.part(ACROSS, edge, SHEET - ACROSS, block)}</svg>\n"

    @staticmethod
    def part(at, x, width, block):
        """What a sheet shows of a block, from x on."""
        return (
            f'<svg x="{at}" y="116" width="{width}" height="740" viewBox="{x} {116 + 740 * block} {width} 740">\n'
            f'<use href="#rows{block}"/>\n<path d="M0 0h1" marker-start="url(#drawn)"/>\n<use href="#names{block}"/>\n'
            "</svg>\n"
        )

    def names_at(self, y):
        stations = "".join(words(self.address(s), ("x", self.x(s)), ("y", y)) for s in self.columns)
        step = words("step", ("x", self.step_x), ("y", y), ("text-anchor", "end"))
        clock = words("UTC", ("x", self.clock_x), ("y", y), ("text-anchor", "start")) if self.unit else ""
        return stations + step + clock + words("entry", ("x", self.words_x), ("y", y), ("text-anchor", "start"))


def legend_line(x, end, y, text_x, said, keys):
    return element("line", ("x1", x), ("y1", y), ("x2", end), ("y2", y), *keys)[:-1] + words(
        said, ("x", text_x), ("y", y + 4)
    )


def legend():
    tones = [
        (24, "request", "request"), (112, "able", "able, complete, data"), (274, "unable", "unable, rejected"),
        (414, "other", "other answer"), (534, "notice", "report, comment"),
    ]  # fmt: skip
    for x, tone, said in tones:
        keys = [("stroke", TONES[tone]), ("stroke-width", 2), ("marker-end", f"url(#to-{tone})")]
        yield legend_line(x, x + 24, 68, x + 32, said, keys)
    lost = [("stroke", TONES["request"]), ("stroke-width", 2), ("stroke-dasharray", "2 3"), ("marker-end", "url(#lost)")]
    yield legend_line(24, 42, 88, 56, "not received there", lost)
    signs = [
        ("unanswered", 184, "#ffffff", 198, "never answered there"), ("told", 344, "#ffffff", 358, "state told"),
        ("other", 440, "#475569", 452, "means nothing"),
    ]  # fmt: skip
    for name, x, colour, text_x, said in signs:
        sign = element("use", ("href", f"#{name}"), ("x", x), ("y", 88), ("fill", colour))
        yield sign[:-1] + words(said, ("x", text_x), ("y", 92))
    for x, colour, said in ((554, "#fbbf24", "stopped"), (630, "#4ade80", "running")):
        bar = element("rect", ("x", x), ("y", 82), ("width", 8), ("height", 12), ("fill", colour))
        yield bar[:-1] + words(said, ("x", x + 14), ("y", 92))
    sign = element("use", ("href", "#blocked"), ("x", 670), ("y", 68), ("fill", "#dc2626"))
    yield sign[:-1] + words("blocked", ("x", 680), ("y", 72))


LEGEND = "".join(legend())

# What is answered.


def choice_of(word):
    """The key of a word and its value, if it chooses something."""
    if found := re.fullmatch("(from|to)=([0-9]+)", word):
        return (found[1], int(found[2])) if int(found[2]) <= MOST_STEP else None
    if found := re.fullmatch("clock=(us|ms|s)", word):
        return "clock", found[1]
    for key, parts in (("entity", 3), ("station", 2)):
        if found := re.fullmatch(f"{key}={':'.join(['([0-9]+)'] * parts)}", word):
            chosen = tuple(map(int, found.groups()))
            return (key, chosen) if max(chosen) <= 0xFFFF else None
    return None


def choices_of(said):
    """What words choose: the first and the last step, the unit of the clock, the entities and the stations; or the first
    word that chooses nothing, or a second time, or a first step above the last."""
    chosen = {"entity": [], "station": []}
    for word in said:
        key, value = choice_of(word) or (None, None)
        if key is None or (key not in ("entity", "station") and key in chosen):
            return None, word
        if key in ("entity", "station"):
            chosen[key].append(value)
        else:
            chosen[key] = value
        if key in ("from", "to") and chosen.get("from", 0) > chosen.get("to", MOST_STEP):
            return None, word
    return chosen, None


def halted(recording, steps):
    """What is drawn of a certificate, or of the sequence of time without one: the lines before the answer's, the entries
    in their order, and the entries that cannot happen next, each with its cause."""
    if steps is None:
        course, blocks = searched(recording)
        lines = search(recording).out if blocks else b""
        return lines, [place for place, _ in timely(recording)], [(at, course.cause_of_event(at)) for _, at in blocks]
    bad = judged(recording, steps)[1]
    places = [place for place, _ in steps]
    if bad is None:
        return b"", places, []
    index, cause = bad
    blocked = [(places[index], cause)] if cause > 2 else []
    return verdict(recording, steps).out, places[:index], blocked


def bad_word(recording, said, count):
    """The first word that names a step past the last one; else the first that names a station that is not there."""
    bounds = (word for word in said if word.startswith(("from=", "to=")))
    past = next((word for word in bounds if int(word.partition("=")[2]) >= count), None)
    there = {station[:2] for station in recording.stations}
    named = ((word, choice_of(word)) for word in said)
    return past or next((word for word, (key, value) in named if key == "station" and value not in there), None)


class Undrawn(Exception):
    """Why there is no picture: the subject and what is said of it."""


def drawn_of(text, certificate, said):
    """The lines before that of the picture, and the picture."""
    chosen, bad = choices_of(said)
    if bad is not None:
        raise Undrawn(f"filter: {bad}")
    try:
        recording = read_recording(text)
    except Fault as why:
        raise Undrawn(f"recording: {why}") from why
    try:
        steps = None if certificate is None else read_certificate(certificate)
    except Fault as why:
        raise Undrawn(f"certificate: {why}") from why
    lines, places, blocked = halted(recording, steps)
    if (bad := bad_word(recording, said, len(places))) is not None:
        raise Undrawn(f"filter: {bad}")
    rows = range(chosen.get("from", 0), chosen.get("to", len(places) - 1) + 1)
    if len(rows) > MOST_ROWS:
        raise Undrawn("chart: over-limit")
    blocked = blocked if rows.stop == len(places) else []
    return lines, Drawing(recording, places, rows, chosen["entity"], chosen.get("clock"), chosen["station"], blocked)


def drawing_of(text, certificate, said=()):
    """The picture of a recording and a certificate by their bytes, or of a recording alone (None)."""
    return drawn_of(text, certificate, said)[1]


def answer_to_chart(text, certificate, said=()):
    """What chart answers to a recording and a certificate by their bytes, or to a recording alone (None), and the
    picture, if it is made."""
    try:
        lines, drawing = drawn_of(text, certificate, said)
    except Undrawn as why:
        return fault(str(why)), None
    line = f"chart steps={len(drawing.rows)} stations={len(drawing.columns)}"
    line += f" blocked={len(drawing.blocked)}" if lines else ""
    return Outcome(1 if lines else 0, lines + f"{line}\n".encode(), b""), drawing.text()
