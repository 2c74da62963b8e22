"""Recordings and certificates with each cause 1 to 13, and the answer to each stated by hand: the worked history of
READING.md and what that page says of its variants, and more of each kind.
"""
from collections import namedtuple

from cases.texts import DIRECTOR, SEVEN, pdu, received, sent, told
from pages import (
    ABLE, ABSENT, ACKNOWLEDGE, ACTION_REQUEST, ACTION_RESPONSE, CAUSES, CLOSED, CREATE, DATA, DATA_QUERY, FIRST, NO_LINK,
    OPEN, REMOVE, RUNNING, SET_DATA, START, STOP, STOPPED, UNABLE, Recording, Station,
)

Scene = namedtuple("Scene", "name recording steps stated")
MANAGER, APPLICATION = 0, 1
STATIONS = [Station(1, 1, []), Station(2, 3, [])]


def request(kind=CREATE, target=SEVEN, identifier=1, origin=DIRECTOR, **values):
    return pdu(kind, origin, target, request=identifier, **values)


def acknowledge(flag=1, response=ABLE, origin=SEVEN, identifier=1, target=DIRECTOR, **values):
    return pdu(ACKNOWLEDGE, origin, target, flag=flag, response=response, request=identifier, **values)


def exchange(order, answer):
    """A request of the manager, and the answer of the application; the file in the order of the run."""
    entries = [sent(MANAGER, order), received(APPLICATION, order), sent(APPLICATION, answer), received(MANAGER, answer)]
    return entries, [(0, NO_LINK), (1, 0), (2, 1), (3, 2)]


def no(step, cause):
    return f"no step={step} cause={cause} {CAUSES[cause]}\n"


def worked_history(answer=acknowledge(), state=STOPPED, repeat=None):
    """The entries and the certificate of the worked history of READING.md."""
    repeat = repeat or answer
    entries = [
        received(APPLICATION, request()),
        sent(APPLICATION, answer),
        told(APPLICATION, 7, state),
        received(APPLICATION, request()),
        sent(APPLICATION, repeat),
        sent(MANAGER, request()),
        received(MANAGER, answer),
    ]
    return entries, [(5, NO_LINK), (0, 5), (1, 0), (2, NO_LINK), (3, 5), (4, 0), (6, 1)]


def scene(name, entries, steps, stated, opening=(), form=FIRST):
    stations = [STATIONS[0], STATIONS[1]._replace(opening=list(opening))]
    return Scene(name, Recording(1, stations, entries, form), steps, stated)


def worked_report():
    return "yes records=7 others=0\nanswer 1 request 0\nanswer 4 request 0\nknown 6 change 1\nentity 2:3:7 stopped\n"


def worked_scenes():
    """The worked history of READING.md, and what the page says of its variants."""
    entries, steps = worked_history()
    report = worked_report()
    without = [(4, NO_LINK), (0, 2), (1, NO_LINK), (2, 4), (3, 2), (5, 0)]
    later = [*steps[:3], steps[6], *steps[3:6]]
    return [
        scene("the worked history", entries, steps, report),
        scene("its last step earlier", entries, later, report),
        scene("in the order of the file", entries, [(place, NO_LINK) for place in range(7)], no(0, 12)),
        scene("running told", *worked_history(state=RUNNING), no(3, 13)),
        scene("an unable repeat", *worked_history(repeat=acknowledge(response=UNABLE)), no(5, 9)),
        scene("flag 3 in the answer", *worked_history(answer=acknowledge(flag=3)), no(2, 8)),
        scene("entity 7 there before", entries, steps, no(2, 10), opening=[(7, STOPPED)]),
        scene("no receipt of the request", entries[1:], without, no(1, 7)),
    ]


def certificate_scenes():
    """Causes 1 to 4, on the worked history with another certificate."""
    entries, steps = worked_history()

    def altered(index, step):
        return [*steps[:index], step, *steps[index + 1 :]]

    return [
        scene("a step less", entries, steps[:-1], no(0, 1)),
        scene("a step more", entries, steps + steps[-1:], no(0, 1)),
        scene("no step", entries, [], no(0, 1)),
        scene("another count before a bad step", entries, [(9, 9)], no(0, 1)),
        scene("entry 7 of 7", entries, altered(6, (7, 1)), no(6, 2)),
        scene("entry 0xFFFFFFFF", entries, altered(0, (NO_LINK, NO_LINK)), no(0, 2)),
        scene("not the next entry", entries, altered(1, (1, 0)), no(1, 3)),
        scene("an entry twice", entries, altered(1, steps[0]), no(1, 3)),
        scene("a link of a request", entries, altered(0, (5, 5)), no(0, 4)),
        scene("no link of a receipt", entries, altered(1, (0, NO_LINK)), no(1, 4)),
        scene("another link of an answer", entries, altered(2, (1, 5)), no(2, 4)),
        scene("a link of what was told", entries, altered(3, (2, 0)), no(3, 4)),
        scene("the later request as link", entries, altered(5, (4, 3)), no(5, 4)),
        scene("no entries", [], [], "yes records=0 others=0\n"),
        scene("an opening and no entries", [], [], "yes records=0 others=0\nentity 2:3:9 running\n", [(9, RUNNING)]),
    ]


def sending_scenes():
    """Causes 5 to 7, and sends that are allowed."""
    none = [(0, NO_LINK), (1, NO_LINK)]
    order, overheard = request(), request(target=(9, 9, 7))
    both = [sent(MANAGER, order), sent(MANAGER, request(stamp=4, status=3))]
    other = [sent(MANAGER, b""), received(APPLICATION, order[:-1])]
    foreign = [sent(APPLICATION, request(exercise=2)), received(MANAGER, acknowledge(flag=5))]
    comment = pdu(22, SEVEN, DIRECTOR)
    heard, heard_steps = exchange(overheard, acknowledge())
    return [
        scene("another's address", [sent(APPLICATION, order)], none[:1], no(0, 5)),
        scene("another's application", [sent(MANAGER, request(origin=(1, 2, 0)))], none[:1], no(0, 5)),
        scene("another target", [both[0], sent(MANAGER, request(target=(2, 3, 8)))], none, no(1, 6)),
        scene("another kind", [both[0], sent(MANAGER, request(REMOVE))], none, no(1, 6)),
        scene("the same order again", both, none, "yes records=2 others=0\n"),
        scene("another identifier", [both[0], sent(MANAGER, request(identifier=2))], none, "yes records=2 others=0\n"),
        scene("no request at all", [sent(APPLICATION, acknowledge())], none[:1], no(0, 7)),
        scene("a request overheard", heard, heard_steps, no(2, 7)),
        scene("a Data without a query", [sent(APPLICATION, pdu(DATA, SEVEN, DIRECTOR))], none[:1], no(0, 7)),
        scene("other datagrams", other, none, "yes records=2 others=2\n"),
        scene("foreign ones", foreign, none, "yes records=2 others=2\n"),
        scene("a notice", [sent(APPLICATION, comment)], none[:1], "yes records=1 others=0\n"),
    ]


def answering_scenes():
    """Causes 8 to 10."""
    remove, stop, start = request(REMOVE), request(STOP), request(START)
    to_all, by_choice = request(target=(2, 3, 0xFFFF)), request(target=(2, 3, 0xFFFE))
    from_all, chosen = acknowledge(origin=(2, 3, 0)), acknowledge(origin=(2, 3, 0xFFFE))
    query, action = request(DATA_QUERY), request(ACTION_REQUEST)
    unable_first, unable_steps = exchange(request(), acknowledge(response=UNABLE))
    unable_first[3:], unable_steps[3:] = [sent(APPLICATION, acknowledge())], [(3, 1)]
    able = "yes records=4 others=0\nanswer 2 request 1\nknown 3 change 2\n"
    answered = "yes records=4 others=0\nanswer 2 request 1\n"
    seven = [(7, RUNNING), (9, STOPPED)]
    return [
        scene("another entity", *exchange(request(), acknowledge(origin=(2, 3, 8))), no(2, 8)),
        scene("a Data to an action", *exchange(action, pdu(DATA, SEVEN, DIRECTOR, request=1)), no(2, 8)),
        scene("a response to a query", *exchange(query, pdu(ACTION_RESPONSE, SEVEN, DIRECTOR, request=1)), no(2, 8)),
        scene("a Data to a query", *exchange(query, pdu(DATA, SEVEN, DIRECTOR, request=1)), answered),
        scene("a Data to a Set Data", *exchange(request(SET_DATA), pdu(DATA, SEVEN, DIRECTOR, request=1)), answered),
        scene("a response", *exchange(action, pdu(ACTION_RESPONSE, SEVEN, DIRECTOR, request=1)), answered),
        scene("able after unable", unable_first, unable_steps, no(3, 9)),
        scene("an unable", *exchange(request(), acknowledge(response=UNABLE)), answered),
        scene("response 3", *exchange(request(), acknowledge(response=3)), answered),
        scene("create all", *exchange(to_all, from_all), no(2, 10)),
        scene("create a number of none", *exchange(by_choice, chosen), no(2, 10)),
        scene("create by choice", *exchange(by_choice, acknowledge()), able + "entity 2:3:7 stopped\n"),
        scene("remove an absent one", *exchange(remove, acknowledge(flag=2)), no(2, 10)),
        scene("start an absent one", *exchange(start, acknowledge(flag=3)), no(2, 10)),
        scene("stop an absent one", *exchange(stop, acknowledge(flag=4)), no(2, 10)),
        scene("remove one", *exchange(remove, acknowledge(flag=2)), able + "entity 2:3:9 stopped\n", seven),
        scene("stop all", *exchange(request(STOP, (2, 3, 0xFFFF)), acknowledge(flag=4, origin=(2, 3, 0xFFFF))),
              able + "entity 2:3:7 stopped\nentity 2:3:9 stopped\n", seven),
        scene("start all of none", *exchange(request(START, (65535,) * 3), acknowledge(3, origin=(2, 3, 0))), able),
    ]  # fmt: skip


def version_scenes():
    """Exercises of protocol version 6, and of both versions: what READING.md says of them."""
    order, answer = request(version=6), acknowledge(version=6)
    report = "yes records=4 others=0\nanswer 2 request 1\nknown 3 change 2\nentity 2:3:7 stopped\n"
    none = [(0, NO_LINK), (1, NO_LINK)]
    again = [sent(MANAGER, order), sent(MANAGER, request(version=6, stamp=4, status=3))]
    mixed = [sent(MANAGER, request()), sent(MANAGER, order)]
    changed = [sent(MANAGER, request()), received(APPLICATION, order)]
    padded = [sent(MANAGER, order), received(APPLICATION, request(version=6, status=3))]
    unread = [sent(MANAGER, request(version=5)), received(APPLICATION, request(version=8))]
    return [
        scene("a creation in version 6", *exchange(order, answer), report),
        scene("its answer alone in version 6", *exchange(request(), answer), report),
        scene("its answer alone in version 7", *exchange(order, acknowledge()), report),
        scene("a repeat in version 6", again, none, "yes records=2 others=0\n"),
        scene("a repeat in another version", mixed, none, no(1, 6)),
        scene("received in another version", changed, [(0, NO_LINK), (1, 0)], no(1, 12)),
        scene("received with other padding", padded, [(0, NO_LINK), (1, 0)], no(1, 12)),
        scene("versions 5 and 8", unread, none, "yes records=2 others=2\n"),
    ]


def receiving_scenes():
    """Causes 11 to 13."""
    first = [(0, NO_LINK)]
    stranger = request(origin=(9, 9, 0))
    wrong = [sent(MANAGER, request()), received(APPLICATION, request(stamp=1))]
    return [
        scene("from a stranger", [received(APPLICATION, stranger)], first, no(0, 11)),
        scene("nobody sent it", [received(APPLICATION, request())], first, no(0, 12)),
        scene("other bytes were sent", wrong, [(0, NO_LINK), (1, 0)], no(1, 12)),
        scene("running, and it is absent", [told(APPLICATION, 7, RUNNING)], first, no(0, 13)),
        scene("absent, and it is there", [told(APPLICATION, 7, ABSENT)], first, no(0, 13), [(7, STOPPED)]),
        scene("absent", [told(APPLICATION, 7, ABSENT)], first, "yes records=1 others=0\n"),
    ]


def open_scenes():
    """Stations that nobody recorded, in recordings of each form."""
    none = [(0, NO_LINK), (1, NO_LINK)]
    order, there = request(origin=(9, 9, 0)), (9, 9, 0)
    answer = acknowledge(target=there)
    able = acknowledge(origin=(9, 9, 4), identifier=5)
    answered = [received(APPLICATION, order), sent(APPLICATION, answer)]
    report = "yes records=2 others=0\nanswer 1 request 0\nentity 2:3:7 stopped\n"
    unsent = [received(APPLICATION, request())]
    return [
        scene("an order from outside", answered, [(0, NO_LINK), (1, 0)], report, form=OPEN),
        scene("the same in a closed recording", answered, [(0, NO_LINK), (1, 0)], no(0, 11), form=CLOSED),
        scene("the same in the first format", answered, [(0, NO_LINK), (1, 0)], no(0, 11)),
        scene("linked", answered, [(0, 1), (1, 0)], no(0, 4), form=OPEN),
        scene("an able from outside", [received(MANAGER, able)], none[:1], "yes records=1 others=0\n", form=OPEN),
        scene("nobody sent it, and all is open", unsent, none[:1], no(0, 12), form=OPEN),
        scene("nobody sent it, and all is closed", unsent, none[:1], no(0, 12), form=CLOSED),
        scene("the worked history, open", *worked_history(), worked_report(), form=OPEN),
        scene("the worked history, closed", *worked_history(), worked_report(), form=CLOSED),
    ]


def scenes():
    """Recordings and certificates with each cause 1 to 13, and the answer to each stated by hand."""
    return [
        *worked_scenes(), *certificate_scenes(), *sending_scenes(), *answering_scenes(), *version_scenes(),
        *receiving_scenes(), *open_scenes(),
    ]  # fmt: skip
