"""What contradicts an entry, by READING.md: what its own log says against it, and the other side of a clash."""
from .datagrams import ABLE, CREATE, REQUESTS, UNABLE, identifier_text
from .files import ABSENT, ENTITIES, OPEN, RECEIVED, SENT, STATES, TOLD
from .histories import answers, is_answer, is_for_kind, key_of, request_of, response_of, same_order, scope_of
from .logs import EVERY
from .reviews import address_text, addresses, state_made


# What one log says of one of its entries.

def sends_before(story, index):
    """The entries before one that its station sent and that mean something."""
    return [(sent, pdu) for sent, pdu in story.meant(story.entries[index].station, SENT) if sent < index]


def other_order(story, index):
    """The first order under the identifier of one that is sent which is another, or None."""
    request = story.meanings[index]
    return next((
        sent for sent, pdu in sends_before(story, index)
        if pdu.kind in REQUESTS and request_of(pdu) == request_of(request) and not same_order(pdu, request)
    ), None)  # fmt: skip


def first_said(story, index, response):
    """The first answer with a response under the key of the Acknowledge that is sent at an entry, or None."""
    key = key_of(story.meanings[index])
    said = ((sent, pdu) for sent, pdu in sends_before(story, index) if response_of(pdu) == response)
    return next((sent for sent, pdu in said if key_of(pdu) == key), None)


def state_before(story, index, entity):
    """The state of an entity before an entry of its station, and the entry of the change that made it, or None."""
    station = story.entries[index].station
    state, since = dict(story.stations[station].opening).get(entity, ABSENT), None
    for change in story.changes[station]:
        if change.entry < index and change.entity in (None, entity) and entity in ENTITIES:
            made = state_made(change.kind, state)
            state, since = (state, since) if made == state else (made, change.entry)
    return state, since


def own_cause(story, index):
    """The first cause other than never-sent that the log of an entry gives it, or None."""
    entry, pdu = story.entries[index], story.meanings[index]
    if entry.kind == TOLD:
        return None if state_before(story, index, entry.entity)[0] == entry.state else 13
    if pdu is None:
        return None
    if entry.kind == RECEIVED:
        return None if story.form == OPEN or story.are_recorded(pdu.origin[:2]) else 11
    if pdu.origin[:2] != story.address(entry.station):
        return 5
    if pdu.kind in REQUESTS:
        return None if other_order(story, index) is None else 6
    return cause_of_answer(story, index) if is_answer(pdu) else None


def cause_of_answer(story, index):
    answer, request = story.meanings[index], story.taken_up(index)
    if request is None:
        return 7
    if not answers(answer, story.meanings[request]):
        return 8
    response = response_of(answer)
    if response in (ABLE, UNABLE) and first_said(story, index, ABLE + UNABLE - response) is not None:
        return 9
    if response != ABLE or first_said(story, index, ABLE) is not None:
        return None
    entity = scope_of(answer, story.meanings[request])
    is_there = entity is not None and state_before(story, index, entity)[0] != ABSENT
    if story.meanings[request].kind == CREATE:
        return 10 if is_there or entity not in ENTITIES else None
    return None if is_there or entity is None else 10


# The other side of a clash.

def parts_of(pdu):
    """The parts of a PDU in which two orders can differ, in their order."""
    yield from [("version", pdu.header.version), ("kind", pdu.kind), ("from", pdu.origin), ("to", pdu.target)]
    for name, value in pdu.fields.items():
        if name not in ("padding", "fixed", "variable"):
            yield name, value
    for name in ("fixed", "variable"):
        yield name, [record for record in pdu.records if record.startswith(name)]


def first_difference(one, other):
    return next((name for (name, value), (_, against) in zip(one, other) if value != against), None)


def difference_of_datagrams(story, index, other):
    """The first thing in which the datagrams of two entries differ, or None."""
    def parts(pdu):
        version, *rest = parts_of(pdu)
        return [version, ("time", pdu.header.stamp), ("status", pdu.header.status), *rest]

    found = first_difference(parts(story.meanings[index]), parts(story.meanings[other]))
    is_same = story.entries[index].datagram == story.entries[other].datagram
    return found or (None if is_same else "padding")


def is_near(pdu, sent):
    """Whether what was sent is of the kind, the receiving identifier and the request identifier of a PDU."""
    if "request" not in pdu.fields:
        return same_order(pdu, sent)
    return sent.kind == pdu.kind and sent.target == pdu.target and request_of(sent) == request_of(pdu)


def station_at(story, address):
    return next((at for at in range(len(story.stations)) if story.address(at) == list(address)), None)


def requests_asked(story, index):
    """Of the answer that is sent at an entry: the request that came too late, was overheard, and was sent."""
    answer, station = story.meanings[index], story.entries[index].station
    asker = station_at(story, answer.target[:2])

    def is_asked(pdu):
        return pdu.kind in REQUESTS and request_of(pdu) == request_of(answer) and pdu.origin[:2] == answer.target[:2]

    def first(found):
        return next((at for at, pdu in found if is_asked(pdu)), None)

    here = list(story.meant(station, RECEIVED))
    later = [(at, pdu) for at, pdu in here if at > index and addresses(pdu.target, story.address(station))]
    overheard = [(at, pdu) for at, pdu in here if at < index]
    return first(later), first(overheard), first([] if asker is None else story.meant(asker, SENT))


def impossible(story, index):
    request = story.taken_up(index)
    entity = scope_of(story.meanings[index], story.meanings[request])
    state, since = state_before(story, index, entity) if entity in ENTITIES else (None, None)
    told = EVERY if entity is None else entity
    return [("earlier", request), *stood(story, index, told, state, since)]


def stood(story, index, entity, state, since):
    whose = identifier_text([*story.address(story.entries[index].station), entity])
    return [("entity", whose), ("state", None if state is None else STATES[state]), ("change", since)]


def unsent(story, index):
    pdu = story.meanings[index]
    sends = story.meant(station_at(story, pdu.origin[:2]), SENT)
    near = next((sent for sent, other in sends if is_near(pdu, other)), None)
    differs = None if near is None else difference_of_datagrams(story, index, near)
    return [
        ("from", address_text(pdu.origin[:2])), ("sent", story.sources[index]), ("near", near), ("differs", differs),
    ]  # fmt: skip


def other_side(story, index, cause):
    """The other side of an entry that has a cause of 5 to 13, as the fields of its clash."""
    entry, pdu = story.entries[index], story.meanings[index]
    if cause in (5, 11):
        at = [("at", address_text(story.address(entry.station)))] if cause == 5 else []
        return [("from", address_text(pdu.origin[:2])), *at]
    if cause == 6:
        earlier = other_order(story, index)
        return [("earlier", earlier), ("differs", first_difference(parts_of(pdu), parts_of(story.meanings[earlier])))]
    if cause == 7:
        return list(zip(("later", "overheard", "sent"), requests_asked(story, index)))
    if cause == 8:
        request = story.taken_up(index)
        return [("earlier", request), ("differs", "entity" if is_for_kind(pdu, story.meanings[request]) else "kind")]
    if cause == 9:
        return [("earlier", first_said(story, index, ABLE + UNABLE - response_of(pdu)))]
    if cause == 13:
        return stood(story, index, entry.entity, *state_before(story, index, entry.entity))
    return impossible(story, index) if cause == 10 else unsent(story, index)
