"""Logs that are nearly right: one or a few events of an honest log are changed, cut, moved, repeated or put in.

Most changes are to the meaning of an event, so that a single rule decides what is answered to it.
"""
import random
from dataclasses import replace

from events import (
    ADD_BLUM,
    ADD_MERKLE,
    EVICT_BLUM,
    EVICT_BLUM_MERKLE,
    EVICT_MERKLE,
    FIELDS,
    NEXT_EPOCH,
    ROOT,
    VERIFY_EPOCH,
    Data,
    Event,
    Node,
    Pointer,
    event_bytes,
    log_bytes,
    merkle_hash,
    path_of,
    read_event,
    split_log,
)

TOP = 1 << 32


class Mutator:
    def __init__(self, rng, log, other):
        """Things are also taken from another log."""
        self.rng = rng
        self.line, events = split_log(log)
        self.events = [read_event(event) for event in events]
        self.other = [read_event(event) for event in split_log(other)[1]]
        self.verifiers = int(self.line.split()[0])
        self.pools = {"record": [Node(ROOT)], "path": [ROOT], "timestamp": [(0, 1)], "text": [b"x"]}
        for event in self.events + self.other:
            for kind, content in zip(FIELDS[event.code], event.fields):
                self.pools.setdefault(kind, []).append(content)
        self.node_paths = {r.path for r in self.pools["record"] if isinstance(r, Node)} | {ROOT}

    # ---- fields

    def number(self, n):
        return self.rng.choice([0, n ^ 1, n + 1, self.rng.randrange(self.verifiers), self.verifiers, TOP, (1 << 64) - 1])

    def timestamp(self, at):
        epoch, counter = at
        small = [(epoch, counter + 1), (epoch, max(0, counter - 1)), (epoch + 1, counter), (max(0, epoch - 1), counter)]
        large = [(epoch, TOP - 2), (epoch, TOP - 1), (epoch, TOP), (TOP - 1, counter), (TOP, 0), (epoch, (1 << 64) - 1)]
        return self.rng.choice(small * 5 + large + [(epoch + 1, 0), (epoch + 2, 0), (0, 0), self.rng.choice(self.pools["timestamp"])])

    def text(self, t):
        return self.rng.choice([self.rng.choice(self.pools["text"]), t + b"!", t[:-1], bytes(64), bytes(65), bytes(1024), bytes(1025)])

    def value(self, v):
        return self.rng.choice([None, b"", self.text(v or b"")])

    def path(self, p):
        flips = [self.rng.randrange(len(p)), len(p) - 1] if p else []
        flipped = [p[:at] + bytes([p[at] ^ 1]) + p[at + 1 :] for at in flips]
        odd = [p[:-1] + b"\2", (p + bytes(257))[:255], (p + bytes(257))[:256], (p + bytes(257))[:257]]
        near = [ROOT, p[:-1], p + b"\0", p + b"\1", self.above(p), self.rng.choice(self.pools["path"])]
        return self.rng.choice(near * 2 + flipped * 2 + odd)

    def above(self, p):
        """The lowest node of the log above a path."""
        return max((node for node in self.node_paths if p.startswith(node) and p != node), key=len, default=ROOT)

    def pointer(self, p, below):
        if p is None or self.rng.randrange(6) == 0:
            return Pointer(below + bytes([self.rng.randrange(2)]), in_blum=self.rng.random() < 0.5) if p is None else None
        changed = [replace(p, in_blum=not p.in_blum), replace(p, hash=bytes([p.hash[0] ^ 1]) + p.hash[1:])]
        return self.rng.choice(changed + [replace(p, path=self.path(p.path))])

    def record(self, r):
        alike = [old for old in self.pools["record"] if type(old) is type(r) and path_of(old) == path_of(r)]
        choices = [self.rng.choice(alike or [r]), self.rng.choice(self.pools["record"]), Node(ROOT)]
        if isinstance(r, Data):
            choices += [replace(r, value=self.value(r.value)), replace(r, value=b"1"), replace(r, key=self.text(r.key))]
        else:
            choices += [replace(r, left=self.pointer(r.left, r.path)), replace(r, right=self.pointer(r.right, r.path))] * 2
            choices += [replace(r, path=self.path(r.path)), Node(self.path(r.path))] * 2
        return self.rng.choice(choices)

    # ---- events

    def some(self, *codes):
        """The number of some event, if need be of one of these codes."""
        among = [at for at, event in enumerate(self.log) if not codes or event.code in codes]
        return self.rng.choice(among) if among else None

    def change_field(self):
        at = self.some(0, 0, 1, 2, 3, 4, 7, 8)
        if at is None:
            return
        event = self.log[at]
        which = self.rng.randrange(len(event.fields))
        fields = list(event.fields)
        fields[which] = getattr(self, FIELDS[event.code][which])(fields[which])
        self.log[at] = replace(event, fields=fields)

    def change_verifier(self):
        at = self.some()
        self.log[at] = replace(self.log[at], verifier=self.number(self.log[at].verifier))

    def change_code(self):
        """The same, but by Merkle or by Blum."""
        at = self.some(ADD_MERKLE, ADD_BLUM, EVICT_MERKLE, EVICT_BLUM, EVICT_BLUM_MERKLE)
        if at is None:
            return
        event = self.log[at]
        time = self.timestamp(self.latest(at, event.verifier))
        if event.code == ADD_MERKLE:
            self.log[at] = Event(event.verifier, ADD_BLUM, [event.fields[0], time, self.rng.randrange(self.verifiers)])
        elif event.code == ADD_BLUM:
            verifier = self.rng.choice([event.verifier, event.fields[2]])
            self.log[at] = Event(verifier, ADD_MERKLE, [event.fields[0], self.above(path_of(event.fields[0]))])
        else:
            path = event.fields[0]
            above = event.fields[1] if event.code != EVICT_BLUM else self.above(path)
            fields = {EVICT_MERKLE: [path, above], EVICT_BLUM: [path, time], EVICT_BLUM_MERKLE: [path, above, time]}
            code = self.rng.choice([code for code in fields if code != event.code])
            self.log[at] = Event(event.verifier, code, fields[code])

    def latest(self, at, verifier):
        """The last timestamp that a verifier named before an event."""
        for event in reversed(self.log[:at]):
            if event.verifier == verifier and "timestamp" in FIELDS[event.code]:
                return event.fields[FIELDS[event.code].index("timestamp")]
        return 0, 0

    def drop(self):
        del self.log[self.some()]

    def repeat(self):
        at = self.some()
        self.log.insert(self.rng.choice([at, self.rng.randrange(len(self.log))]), self.log[at])

    def swap(self):
        at = self.some()
        to = min(len(self.log) - 1, at + self.rng.choice([1, 1, 2, 5, 20]))
        self.log[at], self.log[to] = self.log[to], self.log[at]

    def insert_other(self):
        self.log.insert(self.rng.randrange(len(self.log) + 1), self.rng.choice(self.other))

    def insert_epoch(self):
        event = Event(self.rng.randrange(self.verifiers), self.rng.choice([NEXT_EPOCH, VERIFY_EPOCH]))
        self.log.insert(self.rng.randrange(len(self.log) + 1), event)

    def insert_root(self):
        event = Event(self.rng.randrange(self.verifiers), ADD_BLUM, [Node(ROOT), self.latest(len(self.log), 0), 0])
        self.log.insert(self.rng.randrange(len(self.log) + 1), event)

    def again(self):
        """What was added and evicted by Blum is added and evicted so again."""
        at = self.some(EVICT_BLUM)
        if at is None:
            return
        evict = self.log[at]
        adds = [e for e in self.log[:at] if e.verifier == evict.verifier and e.code == ADD_BLUM and path_of(e.fields[0]) == evict.fields[0]]
        self.log[at + 1 : at + 1] = adds[-1:] + [evict]

    def fake_node(self):
        """A node that never was comes by Blum between a record and the node above it, and then stands for that."""
        at = self.some(ADD_MERKLE, EVICT_MERKLE, EVICT_BLUM_MERKLE)
        if at is None:
            return
        event = self.log[at]
        added = event.code == ADD_MERKLE
        path = path_of(event.fields[0]) if added else event.fields[0]
        between = [length for length in range(1, len(path)) if path[:length] not in self.node_paths]
        if not between:
            return
        fake = path[: self.rng.choice(between[:20])]
        known = self.rng.choice([path, path, path, self.path(path)])
        known_hash = merkle_hash(event.fields[0]) if added else bytes(32)
        child = self.rng.choice([Pointer(known, known_hash, self.rng.random() < 0.5), None])
        left = path[len(fake)] == 0
        node = Node(fake, child if left else None, None if left else child)
        # Of an early timestamp, so that the clock stays and what follows is as before.
        early = (self.latest(at, event.verifier)[0], 0)
        self.log[at] = replace(event, fields=[event.fields[0], fake, *event.fields[2:]])
        self.log.insert(at, Event(event.verifier, ADD_BLUM, [node, early, 0]))

    # ---- logs

    def change_bytes(self, events):
        """Bytes of one event: often of those that say what follows."""
        at = self.rng.randrange(len(events))
        event = bytearray(events[at])
        place = self.rng.choice([8, self.rng.randrange(len(event)), self.rng.randrange(min(len(event), 24))])
        place = min(place, len(event) - 1)
        old = event[place]
        event[place] = self.rng.choice([old ^ 1, old + 1 & 255, 2, 9, self.rng.randrange(256)])
        cut = [event[:place], event + bytes(1), event[:place] + event[place + 1 :]]
        events[at] = bytes(self.rng.choice([event, event, event] + cut))

    def limits(self):
        """Often the same, now and then less room than the log needs."""
        verifiers, places, epochs = map(int, self.line.split())
        match self.rng.randrange(12):
            case 0:
                places = self.rng.randrange(2, places + 1)
            case 1:
                epochs = self.rng.randrange(2, epochs + 1)
            case 2:
                verifiers = self.rng.randrange(1, verifiers + 1)
        return b"%d %d %d\n" % (verifiers, places, epochs)

    MEANINGS = [change_field] * 8 + [change_code] * 3 + [repeat, repeat, swap, swap, fake_node, fake_node]
    MEANINGS += [change_verifier, drop, insert_other, insert_epoch, insert_root, again]

    def mutated(self):
        # A log that ends soon after the mutation is compared sooner.
        self.log = self.events[: self.rng.randrange(1, len(self.events) + 1)]
        for _ in range(self.rng.choice([1, 1, 1, 2, 4])):
            if self.log:
                self.rng.choice(self.MEANINGS)(self)
        events = [event_bytes(event) for event in self.log]
        if events and self.rng.randrange(6) == 0:
            self.change_bytes(events)
        result = log_bytes(self.limits(), events)
        cut = self.rng.randrange(20) == 0
        return result[: self.rng.randrange(len(self.line), len(result) + 1)] if cut else result


def mutations(seed, log, other, count):
    mutator = Mutator(random.Random(seed), log, other)
    return (mutator.mutated() for _ in range(count))
