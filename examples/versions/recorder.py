#!/usr/bin/env python3
"""An exercise in two protocol versions, recorded while it happens: an old simulator and a new one, and two managers.

    python3 examples/versions/recorder.py RECORDING

1:1 is the exercise control, of protocol version 7. 1:2 is an older one, of version 6. 2:3 is an old simulator: it reads
both versions, and whatever it sends is of version 6. 2:4 is a new one: it answers in the version of the request. All
send each other datagrams over UDP on the loopback. The clock of the recording counts from 100 on, so each run makes the
same file.
"""
import itertools
import struct
import sys
from pathlib import Path

sys.dont_write_bytecode = True
sys.path.insert(0, str(Path(__file__).resolve().parent.parent))

from recorder import ACKNOWLEDGE, CREATE_ENTITY, Recorder, Station, pdu

START_RESUME, STOP_FREEZE = 13, 14
STOPPED, RUNNING = 1, 2
ALL, ABLE = 65535, 1
FLAGS = {CREATE_ENTITY: 1, START_RESUME: 3, STOP_FREEZE: 4}


def in_version(version, datagram):
    """The same PDU in another protocol version; in version 6 there is no PDU status, and its byte is padding."""
    return bytes([version]) + datagram[1:]


def request(version, kind, origin, target, number):
    """An order; the clock times, the reason and the frozen behaviour are 0."""
    before = {CREATE_ENTITY: b"", START_RESUME: bytes(16), STOP_FREEZE: bytes(12)}[kind]
    return in_version(version, pdu(kind, origin, target, before + struct.pack(">I", number)))


def able(version, kind, origin, target, number):
    """The answer to an order: able to comply."""
    return in_version(version, pdu(ACKNOWLEDGE, origin, target, struct.pack(">HHI", FLAGS[kind], ABLE, number)))


def broadcast(manager, simulators, order):
    """An order goes out, once, to all of these simulators: it is one datagram, and one entry."""
    manager.send(simulators[0], order)
    for simulator in simulators[1:]:
        manager.socket.sendto(order, simulator.socket.getsockname())


def carry_out(manager, order, *answers):
    """An order, and the answer of each simulator that it goes to."""
    broadcast(manager, [simulator for simulator, _ in answers], order)
    for simulator, answer in answers:
        simulator.receive()
        simulator.send(manager, answer)
        manager.receive()


def record(recording):
    stations = [(1, 1, []), (1, 2, []), (2, 3, []), (2, 4, [(8, STOPPED)])]
    recorder = Recorder(recording, 1, stations, itertools.count(100).__next__)
    new_manager, old_manager, old, new = (Station(recorder, index) for index in range(len(stations)))

    # version 7 asks the old simulator for an entity, and is answered in version 6
    create = request(7, CREATE_ENTITY, (1, 1, 0), (2, 3, 7), 1)
    carry_out(new_manager, create, (old, able(6, CREATE_ENTITY, (2, 3, 7), (1, 1, 0), 1)))

    # one order to all of site 2, which is sent once; each simulator answers in its own version
    start = request(7, START_RESUME, (1, 1, 0), (2, ALL, ALL), 2)
    old_answer = able(6, START_RESUME, (2, 3, 0), (1, 1, 0), 2)
    new_answer = able(7, START_RESUME, (2, 4, 0), (1, 1, 0), 2)
    carry_out(new_manager, start, (old, old_answer), (new, new_answer))
    recorder.told(2, 7, RUNNING)
    recorder.told(3, 8, RUNNING)

    # version 6 stops an entity of the new simulator; its request identifiers are its own, so 1 is free
    stop = request(6, STOP_FREEZE, (1, 2, 0), (2, 4, 8), 1)
    carry_out(old_manager, stop, (new, able(6, STOP_FREEZE, (2, 4, 8), (1, 2, 0), 1)))
    recorder.told(3, 8, STOPPED)
    recorder.end()


if __name__ == "__main__":
    if len(sys.argv) != 2:
        sys.exit(__doc__)
    try:
        with open(sys.argv[1], "wb") as recording:
            record(recording)
    except OSError as error:
        sys.exit(f"recorder.py: {error}")
