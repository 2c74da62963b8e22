"""Recordings that random stations make, each entry allowed by the model, but for the last one at times."""
from cases.scenes import acknowledge, request
from cases.texts import pdu, received, sent, told
from pages import (
    ABLE, ACKNOWLEDGE, ACTION_REQUEST, ACTION_RESPONSE, CLOSED, CREATE, DATA, DATA_QUERY, FIRST, NO_LINK, OPEN, RECEIVED,
    REMOVE, RUNNING, SENT, SET_DATA, START, STOP, STOPPED, TOLD, UNABLE, Course, Recording, Station, meaning_of,
)


def wandering(random, length):
    """A recording of entries that are allowed, but for the last one at times, and its certificate, altered at times."""
    opening = [(entity, random.choice((STOPPED, RUNNING))) for entity in (7, 8) if random.random() < 0.3]
    stations = [Station(1, 1, []), Station(2, 3, opening), Station(2, 4, [])]
    form = random.choice((FIRST, CLOSED, OPEN))
    course, links = Course(Recording(1, stations, [], form)), []
    while len(links) < length:
        entry = any_entry(random, course)
        course.entries.append(entry)
        course.meanings.append(None if entry.kind == TOLD else meaning_of(1, entry.datagram))
        cause = course.cause_of_event(len(links))
        if cause and random.random() < 0.95:
            course.entries.pop()
            course.meanings.pop()
            continue
        links.append(NO_LINK if cause else course.link_of(len(links)))
        if cause:
            break
        course.take(len(links) - 1)
    return shuffled(random, Recording(1, stations, course.entries, form), links)


def any_entry(random, course):
    station = random.randrange(3)
    requests = [before for _, before in course.past(RECEIVED, station) if before.kind not in (ACKNOWLEDGE, DATA)]
    sends = [before.datagram for before in course.entries if before.kind == SENT]
    choice = random.random()
    if choice < 0.3 and requests:
        return sent(station, any_answer(random, course.address(station), random.choice(requests)))
    if choice < 0.7 and sends:
        return received(station, random.choice(sends))
    if choice < 0.8:
        return told(station, random.choice((7, 8)), random.randrange(3))
    if choice < 0.83:
        return received(station, anything_from_outside(random, course.address(station)))
    if choice < 0.87:
        return random.choice((sent, received))(station, random.choice((b"", b"\7\1", request(exercise=2))))
    target = random.choice(((2, 3), (2, 4), (2, 65535), (65535, 65535), (1, 1)))
    kind = random.choice((CREATE, CREATE, START, STOP, REMOVE, SET_DATA, DATA_QUERY, ACTION_REQUEST, 21))
    entity = random.choice((7, 7, 8, 0, 65535, 65534))
    if kind == 21:
        return sent(station, pdu(kind, (*course.address(station), 0), (*target, entity)))
    origin, identifier = (*course.address(station), 0), random.randrange(1, 9)
    stamp, version = random.randrange(2), 6 if identifier % 4 == 0 else 7
    return sent(station, request(kind, (*target, entity), identifier, origin, stamp=stamp, version=version))


def anything_from_outside(random, address):
    """An order or an answer to the station at an address, from one that is not recorded."""
    there, entity, identifier = (9, 9, random.choice((0, 7))), random.choice((7, 8, 0)), random.randrange(1, 9)
    if random.random() < 0.3:
        return acknowledge(random.randrange(1, 5), ABLE, there, identifier, (*address, 0))
    kind = random.choice((CREATE, START, STOP, REMOVE, DATA_QUERY))
    return request(kind, (*address, entity), identifier, there)


def any_answer(random, address, order):
    origin, target = (*address, random.choice((7, 7, 8, order.target[2]))), order.origin
    identifier = int.from_bytes(order.fields.get("request", b""), "big")
    flag = {CREATE: 1, REMOVE: 2, START: 3, STOP: 4}.get(order.kind)
    if flag and random.random() < 0.95:
        response, version = random.choice((ABLE, ABLE, ABLE, UNABLE, 3)), random.choice((6, 7, 7))
        return acknowledge(flag, response, origin, identifier, target, version=version)
    return pdu(random.choice((DATA, ACTION_RESPONSE)), origin, target, request=identifier)


def shuffled(random, recording, links):
    """The entries of different stations mixed anew, with the certificate of the old order, altered at times."""
    order = sorted(range(len(links)), key=lambda _: random.random())
    places = {}
    for station in range(len(recording.stations)):
        own = [index for index, entry in enumerate(recording.entries) if entry.station == station]
        slots = [slot for slot in order if recording.entries[slot].station == station]
        places.update(zip(own, sorted(order.index(slot) for slot in slots)))
    entries = [entry for _, entry in sorted(enumerate(recording.entries), key=lambda pair: places[pair[0]])]
    steps = [(places[index], places.get(link, NO_LINK)) for index, link in enumerate(links)]
    if steps and random.random() < 0.3:
        index, other = random.randrange(len(steps)), random.randrange(len(steps))
        choices = [steps[other], (steps[index][0], other), (steps[index][0], NO_LINK), (other, steps[index][1])]
        steps[index] = random.choice(choices)
    return recording._replace(entries=entries), steps
