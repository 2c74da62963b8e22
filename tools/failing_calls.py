#!/usr/bin/env python3
"""tools/failing_calls.py CALL BYTES ERROR PROGRAM [WORD..]: runs a program of which calls of the system fail.

Each CALL, `sendto`, `recvfrom`, `link` or `fsync`, whose buffer has BYTES bytes, or any number of them where BYTES is -, fails with the
error of this name (`EPERM`); or it moves no byte and tells so, where ERROR is `none`. A filter of the kernel (seccomp)
does it, so nothing is loaded into the program and no rights are needed. Status 125: there is no such filter here.
"""
import ctypes
import errno
import os
import platform
import struct
import sys

NO_FILTER = 125
CALLS = {
    "x86_64": {"sendto": 44, "recvfrom": 45, "link": 86, "fsync": 74},
    "aarch64": {"sendto": 206, "recvfrom": 207, "link": 37, "fsync": 82},
}
# Of prctl, and of the filter's instructions: load a word, jump where it is equal, answer.
NO_NEW_RIGHTS, SET_FILTER, FILTER = 38, 22, 2
LOAD, EQUAL, ANSWER = 0x20, 0x15, 0x06
ALLOWED, FAILS = 0x7FFF0000, 0x00050000
# In what a filter looks at: the number of the call, and the third of its words, of eight bytes each.
NUMBER, THIRD = 0, 16 + 2 * 8


class Program(ctypes.Structure):
    """A filter as the kernel takes it."""

    _fields_ = [("length", ctypes.c_ushort), ("instructions", ctypes.c_void_p)]


def instructions(call, size, error):
    """Loads the number of the call, and the size of its buffer, and lets pass all that is another."""
    looks = [(LOAD, 0, 0, NUMBER), (EQUAL, 0, 1 if size is None else 3, call)]
    looks += [] if size is None else [(LOAD, 0, 0, THIRD), (EQUAL, 0, 1, size)]
    rows = [*looks, (ANSWER, 0, 0, FAILS | error), (ANSWER, 0, 0, ALLOWED)]
    return len(rows), b"".join(struct.pack("=HBBI", *row) for row in rows)


def begin_filter(call, size, error):
    """Sets the filter for this process and for the program that takes its place; whether there is one."""
    count, rows = instructions(call, size, error)
    library = ctypes.CDLL(None, use_errno=True)
    kept = ctypes.create_string_buffer(rows)
    program = Program(count, ctypes.addressof(kept))
    if library.prctl(NO_NEW_RIGHTS, 1, 0, 0, 0) != 0:
        return False
    return library.prctl(SET_FILTER, FILTER, ctypes.byref(program), 0, 0) == 0


def main():
    name, size, error, *words = sys.argv[1:]
    call = CALLS.get(platform.machine(), {}).get(name)
    number = 0 if error == "none" else getattr(errno, error)
    if call is None or not begin_filter(call, None if size == "-" else int(size), number):
        return NO_FILTER
    os.execv(words[0], words)


if __name__ == "__main__":
    sys.exit(main())
