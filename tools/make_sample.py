#!/usr/bin/env python3
"""Writes examples/sample.log, and the copy of it that the program is run on by the gate.

A log file is a line 'VERIFIERS PLACES EPOCHS' and then events, each as its length in 4 bytes
(low byte first) and its bytes. An event is a verifier in 8 bytes, an entry code in 1 and its fields.
"""
import pathlib
import struct

NEXT_EPOCH, GET, SET = 5, 7, 8


def entry(verifier, code, fields=b""):
    return struct.pack("<QB", verifier, code) + fields


def framed(event, length=None):
    return struct.pack("<I", len(event) if length is None else length) + event


log = b"2 16 2\n"
log += framed(b"\x00\x00\x00")  # too short for a verifier and a code: refused 1 3
log += framed(entry(0, 9))  # no entry has this code: refused 1 8
log += framed(entry(1, NEXT_EPOCH))  # refused 2 0
log += framed(entry(0, GET, struct.pack("<H", 1) + b"a\x00"))  # key 'a', no value: refused 2 0
log += framed(entry(0, GET, struct.pack("<H", 1) + b"a\x02"))  # neither none nor one: refused 1 12
log += framed(entry(1, SET, struct.pack("<H", 1) + b"a" + struct.pack("<H", 1) + b"x!"))  # a byte too many: refused 1 15
log += framed(b"")  # nothing at all: refused 1 0
log += framed(entry(0, GET), length=20)  # cut short by the end of the file: refused 1 9

root = pathlib.Path(__file__).parent.parent
for place in ("examples", "crates/hundzelo/data"):
    root.joinpath(place, "sample.log").write_bytes(log)
