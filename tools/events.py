"""Events as Python values, their bytes, and log files, by docs/FORMAT.md.

A path is a bytes of bits, a value bytes or None, a timestamp a pair of epoch and counter.
"""
import hashlib
from dataclasses import dataclass, field

ADD_MERKLE, ADD_BLUM, EVICT_MERKLE, EVICT_BLUM, EVICT_BLUM_MERKLE, NEXT_EPOCH, VERIFY_EPOCH, GET, SET = range(9)

# The fields of each entry, by its code.
FIELDS = [
    ["record", "path"],
    ["record", "timestamp", "number"],
    ["path", "path"],
    ["path", "timestamp"],
    ["path", "path", "timestamp"],
    [],
    [],
    ["text", "value"],
    ["text", "text"],
]

ROOT = b""
NO_HASH = bytes(32)


@dataclass(frozen=True)
class Pointer:
    path: bytes
    hash: bytes = NO_HASH
    in_blum: bool = False


@dataclass(frozen=True)
class Data:
    key: bytes
    value: bytes | None = None


@dataclass(frozen=True)
class Node:
    path: bytes
    left: Pointer | None = None
    right: Pointer | None = None


@dataclass
class Event:
    verifier: int
    code: int
    fields: list = field(default_factory=list)


def key_path(key):
    return bytes(byte >> i & 1 for byte in hashlib.sha256(key).digest() for i in range(7, -1, -1))


def path_of(record):
    return key_path(record.key) if isinstance(record, Data) else record.path


# ---- writing


def number(n):
    return (n % (1 << 64)).to_bytes(8, "little")


def text(t):
    return len(t).to_bytes(2, "little") + t


def value(v):
    return b"\0" if v is None else b"\1" + text(v)


def timestamp(at):
    return number(at[0]) + number(at[1])


def pointer(p):
    return b"\0" if p is None else bytes([1, p.in_blum]) + text(p.path) + p.hash


def hashed(r):
    """What a record's Merkle hash is taken over."""
    return b"\0" + value(r.value) if isinstance(r, Data) else b"\1" + pointer(r.left) + pointer(r.right)


def record(r):
    return (b"\0" + text(r.key) if isinstance(r, Data) else b"\1" + text(r.path)) + hashed(r)


def merkle_hash(r):
    return hashlib.sha256(hashed(r)).digest()


WRITERS = {"record": record, "path": text, "timestamp": timestamp, "number": number, "text": text, "value": value}


def event_bytes(event):
    parts = [WRITERS[kind](content) for kind, content in zip(FIELDS[event.code], event.fields)]
    return number(event.verifier) + bytes([event.code]) + b"".join(parts)


def log_bytes(line, events):
    return line + b"".join(len(event).to_bytes(4, "little") + event for event in events)


# ---- reading what is well-formed


class Reader:
    def __init__(self, data):
        self.data, self.at = data, 0

    def take(self, length):
        self.at += length
        return self.data[self.at - length : self.at]

    def number(self):
        return int.from_bytes(self.take(8), "little")

    def text(self):
        return self.take(int.from_bytes(self.take(2), "little"))

    path = text

    def flag(self):
        return self.take(1) == b"\1"

    def value(self):
        return self.text() if self.flag() else None

    def timestamp(self):
        return self.number(), self.number()

    def pointer(self):
        if not self.flag():
            return None
        in_blum = self.flag()
        return Pointer(self.text(), self.take(32), in_blum)

    def record(self):
        kind, name, _ = self.flag(), self.text(), self.flag()
        return Node(name, self.pointer(), self.pointer()) if kind else Data(name, self.value())

    def event(self):
        verifier, code = self.number(), self.take(1)[0]
        return Event(verifier, code, [getattr(self, kind)() for kind in FIELDS[code]])


def read_event(data):
    return Reader(data).event()


def split_log(log):
    """The first line, and the bytes of the events."""
    line, _, rest = log.partition(b"\n")
    events = []
    while rest:
        length = int.from_bytes(rest[:4], "little")
        events.append(rest[4 : 4 + length])
        rest = rest[4 + length :]
    return line + b"\n", events
