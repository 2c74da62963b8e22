"""What check says of a recording and a certificate, and its report, by READING.md."""
from .datagrams import (
    ABLE, ACKNOWLEDGE, ACTION_REQUEST, ACTION_RESPONSE, CREATE, DATA, DATA_QUERY, FLAGS, REMOVE, REQUESTS, SET_DATA,
    START, UNABLE, Outcome, fault, identifier_text, number,
)
from .files import (
    ABSENT, ENTITIES, NO_LINK, OPEN, RECEIVED, RUNNING, SENT, STATES, STOPPED, TOLD, Fault, meaning_of, read_certificate,
    read_recording,
)

CAUSES = {
    1: "count-differs",
    2: "no-such-record",
    3: "out-of-order",
    4: "bad-link",
    5: "wrong-sender",
    6: "reused-identifier",
    7: "no-request",
    8: "wrong-answer",
    9: "changed-answer",
    10: "impossible",
    11: "stranger",
    12: "never-sent",
    13: "wrong-state",
}


def request_of(pdu):
    return number(pdu.fields["request"])


def is_answer(pdu):
    return pdu.kind in (ACKNOWLEDGE, ACTION_RESPONSE, DATA)


def is_open(entity, kind):
    return entity in (0, 0xFFFF) or (kind == CREATE and entity == 0xFFFE)


def same_order(one, other):
    def order(pdu):
        body = {name: value for name, value in pdu.fields.items() if name != "padding"}
        return pdu._replace(header=pdu.header._replace(stamp=0, status=0), fields=body)

    return order(one) == order(other)


def response_of(pdu):
    """The response of an Acknowledge; None for any other PDU."""
    return number(pdu.fields["response"]) if pdu.kind == ACKNOWLEDGE else None


def key_of(pdu):
    return number(pdu.fields["flag"]), request_of(pdu), *pdu.target[:2], pdu.origin[2]


def is_for_kind(answer, request):
    """Whether the kind of a request is one that the answer is for."""
    if answer.kind == ACKNOWLEDGE:
        return request.kind == FLAGS[number(answer.fields["flag"])]
    return request.kind in {ACTION_RESPONSE: {ACTION_REQUEST}, DATA: {DATA_QUERY, SET_DATA}}[answer.kind]


def answers(answer, request):
    """Whether an answer answers the request that it takes up: by kind and by entity numbers."""
    numbers = request.target[2], answer.origin[2]
    fit = numbers[0] == numbers[1] or any(is_open(entity, request.kind) for entity in numbers)
    return is_for_kind(answer, request) and fit


def scope_of(answer, request):
    """The entity that a request and its answer mean, or None for all."""
    closed = [entity for entity in (request.target[2], answer.origin[2]) if not is_open(entity, request.kind)]
    return closed[0] if closed else None


class Course:
    """The entries taken so far, each allowed after those before it."""

    def __init__(self, recording):
        self.exercise, self.stations, self.entries, self.form = recording
        self.meanings = [
            None if entry.kind == TOLD else meaning_of(self.exercise, entry.datagram) for entry in self.entries
        ]
        self.taken = []
        self.states = {
            (index, entity): state for index, station in enumerate(self.stations) for entity, state in station.opening
        }
        # The entry of the first Acknowledge of a station with each response under each key.
        self.firsts = {}

    def address(self, station):
        return list(self.stations[station][:2])

    def past(self, kind, station=None):
        """The entries taken of this kind that mean something, of one station or of all."""
        for index in self.taken:
            entry, pdu = self.entries[index], self.meanings[index]
            if pdu and entry.kind == kind and station in (None, entry.station):
                yield index, pdu

    def taken_up(self, station, answer):
        """The entry of the request that an answer of a station takes up, or None."""
        for index, pdu in self.past(RECEIVED, station):
            addressed = all(part in (own, 0xFFFF) for part, own in zip(pdu.target, self.address(station)))
            if pdu.kind in REQUESTS and addressed and request_of(pdu) == request_of(answer):
                if pdu.origin[:2] == answer.target[:2]:
                    return index
        return None

    def cause_of_send(self, station, pdu):
        if pdu.origin[:2] != self.address(station):
            return 5
        if pdu.kind in REQUESTS:
            sent = [before for _, before in self.past(SENT, station) if before.kind in REQUESTS]
            reused = any(request_of(before) == request_of(pdu) and not same_order(before, pdu) for before in sent)
            return 6 if reused else None
        return self.cause_of_answer(station, pdu) if is_answer(pdu) else None

    def cause_of_answer(self, station, answer):
        index = self.taken_up(station, answer)
        if index is None:
            return 7
        if not answers(answer, self.meanings[index]):
            return 8
        response = response_of(answer)
        if response in (ABLE, UNABLE) and (station, ABLE + UNABLE - response, key_of(answer)) in self.firsts:
            return 9
        is_change = response == ABLE and (station, ABLE, key_of(answer)) not in self.firsts
        return 10 if is_change and self.is_impossible(station, answer, self.meanings[index]) else None

    def is_impossible(self, station, answer, request):
        entity = scope_of(answer, request)
        if request.kind == CREATE:
            return entity not in ENTITIES or (station, entity) in self.states
        return entity is not None and (station, entity) not in self.states

    def cause_of_get(self, datagram, pdu):
        if not self.is_recorded(pdu):
            return None if self.form == OPEN else 11
        return 12 if self.first_send(datagram) is None else None

    def is_recorded(self, pdu):
        return pdu.origin[:2] in [self.address(index) for index in range(len(self.stations))]

    def first_send(self, datagram):
        return next((index for index, _ in self.past(SENT) if self.entries[index].datagram == datagram), None)

    def cause_of_event(self, index):
        entry, pdu = self.entries[index], self.meanings[index]
        if entry.kind == TOLD:
            return None if self.states.get((entry.station, entry.entity), ABSENT) == entry.state else 13
        if pdu is None:
            return None
        return self.cause_of_send(entry.station, pdu) if entry.kind == SENT else self.cause_of_get(entry.datagram, pdu)

    def link_of(self, index):
        entry, pdu = self.entries[index], self.meanings[index]
        if pdu and entry.kind == SENT and is_answer(pdu):
            return self.taken_up(entry.station, pdu)
        if pdu and entry.kind == RECEIVED and self.is_recorded(pdu):
            return self.first_send(entry.datagram)
        return NO_LINK

    def cause_of_step(self, place, link):
        if place >= len(self.entries):
            return 2
        own = [index for index, entry in enumerate(self.entries) if entry.station == self.entries[place].station]
        left = [index for index in own if index not in self.taken]
        if left[:1] != [place]:
            return 3
        return self.cause_of_event(place) or (None if link == self.link_of(place) else 4)

    def take(self, index):
        entry, pdu = self.entries[index], self.meanings[index]
        if entry.kind == SENT and pdu and response_of(pdu) is not None:
            first = (entry.station, response_of(pdu), key_of(pdu))
            if first not in self.firsts and response_of(pdu) == ABLE:
                self.change(entry.station, pdu, self.meanings[self.taken_up(entry.station, pdu)])
            self.firsts.setdefault(first, index)
        self.taken.append(index)

    def change(self, station, answer, request):
        entity = scope_of(answer, request)
        there = [key for key in self.states if key[0] == station]
        for key in there if entity is None else [(station, entity)]:
            if request.kind == REMOVE:
                self.states.pop(key, None)
            elif request.kind == CREATE or key in self.states:
                self.states[key] = RUNNING if request.kind == START else STOPPED

    def report(self):
        """The report of the recording, all of whose entries are taken."""
        sent, received = sorted(self.past(SENT)), sorted(self.past(RECEIVED))
        senders = {station[:2]: index for index, station in enumerate(self.stations)}
        datagrams = [entry for entry in self.entries if entry.kind != TOLD]
        lines = [f"yes records={len(self.entries)} others={len(datagrams) - len(sent) - len(received)}"]
        lines += [f"answer {index} request {self.link_of(index)}" for index, pdu in sent if is_answer(pdu)]
        for index, pdu in received:
            if response_of(pdu) == ABLE and self.is_recorded(pdu):
                change = self.firsts[senders[tuple(pdu.origin[:2])], ABLE, key_of(pdu)]
                lines.append(f"known {index} change {change}")
        for (station, entity), state in sorted(self.states.items()):
            lines.append(f"entity {identifier_text([*self.address(station), entity])} {STATES[state]}")
        return "".join(line + "\n" for line in lines)


def judged(recording, steps):
    """The course of a certificate's steps, and the first bad one with its cause, or None."""
    course = Course(recording)
    if len(steps) != len(recording.entries):
        return course, (0, 1)
    for index, (place, link) in enumerate(steps):
        cause = course.cause_of_step(place, link)
        if cause:
            return course, (index, cause)
        course.take(place)
    return course, None


def verdict(recording, steps):
    """What check says of a recording and the steps of a certificate."""
    course, bad = judged(recording, steps)
    return refused_step(*bad) if bad else Outcome(0, course.report().encode(), b"")


def refused_step(index, cause):
    return Outcome(1, f"no step={index} cause={cause} {CAUSES[cause]}\n".encode(), b"")


def next_entry(course, station):
    """The first entry of a station that is not taken, or None."""
    left = (index for index, entry in enumerate(course.entries) if entry.station == station)
    return next((index for index in left if index not in course.taken), None)


def go_on(course):
    """Takes an entry that is its station's next one and allowed, and tells whether there is one."""
    for station in range(len(course.stations)):
        index = next_entry(course, station)
        if index is not None and not course.cause_of_event(index):
            course.take(index)
            return True
    return False


def searched(recording):
    """The course of a search, and the stations that it leaves blocked, each with its next entry."""
    course = Course(recording)
    while go_on(course):
        pass
    blocks = [(station, next_entry(course, station)) for station in range(len(course.stations))]
    return course, [(station, index) for station, index in blocks if index is not None]


def stamps_of(recording):
    """The stamp of each entry: a state told has that of the entry before it that was sent or received, or 0."""
    stamps, last = [], 0
    for entry in recording.entries:
        last = last if entry.kind == TOLD else entry.stamp
        stamps.append(last)
    return stamps


def timely(recording):
    """The steps of the sequence of time: each takes of the entries that may happen next the one with the least stamp, and
    of these the first in the file. It ends where no entry may happen."""
    course, stamps, steps = Course(recording), stamps_of(recording), []
    while True:
        heads = [next_entry(course, station) for station in range(len(course.stations))]
        heads = sorted((stamps[index], index) for index in heads if index is not None)
        place = next((index for _, index in heads if not course.cause_of_event(index)), None)
        if place is None:
            return steps
        steps.append((place, course.link_of(place)))
        course.take(place)


def search(recording):
    """What audit says of a recording."""
    course, blocks = searched(recording)
    if not blocks:
        return Outcome(0, f"explained steps={len(course.entries)}\n".encode(), b"")
    lines = [blocked(course, station, index) for station, index in blocks]
    return Outcome(1, f"blocked stations={len(lines)}\n{''.join(lines)}".encode(), b"")


def blocked(course, station, index):
    site, application = course.address(station)
    cause = course.cause_of_event(index)
    return f"blocked {site}:{application} record={index} cause={cause} {CAUSES[cause]}\n"


def answer_to_audit(recording_text):
    try:
        return search(read_recording(recording_text))
    except Fault as bad:
        return fault(f"recording: {bad}")


def answer_to_check(recording_text, certificate_text):
    try:
        recording = read_recording(recording_text)
    except Fault as bad:
        return fault(f"recording: {bad}")
    try:
        steps = read_certificate(certificate_text)
    except Fault as bad:
        return fault(f"certificate: {bad}")
    return verdict(recording, steps)
