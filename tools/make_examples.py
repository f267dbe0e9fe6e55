#!/usr/bin/env python3
"""Writes the logs in examples/ and their description, examples/LOGS.md, with the answers that the model gives."""
import subprocess
import sys
from pathlib import Path

sys.dont_write_bytecode = True
from events import (
    ADD_BLUM,
    ADD_MERKLE,
    EVICT_BLUM,
    EVICT_BLUM_MERKLE,
    EVICT_MERKLE,
    GET,
    NEXT_EPOCH,
    ROOT,
    SET,
    VERIFY_EPOCH,
    Data,
    Event,
    Node,
    Pointer,
    event_bytes,
    key_path,
    log_bytes,
    merkle_hash,
)

TOP = Path(__file__).resolve().parent.parent
EXAMPLES = TOP / "examples"
MODEL = TOP / "target/tools/hundzelo-model"

NAMES = "AddMerkle AddBlum EvictMerkle EvictBlum EvictBlumMerkle NextEpoch VerifyEpoch Get Set".split()
LEFT = bytes([0])
ABOVE_BOTH = bytes([0, 0])
KEYS = {key_path(key): key.decode() for key in [b"alice", b"bob", b"carol", b"d", b"b"]}


# ---- the logs: verifier, code, fields, and what is to be said of the event


def pointer_at(record):
    return Pointer(key_path(record.key), merkle_hash(record))


def day(alice_at_night):
    """A day at the bank by one verifier; at its end alice's account comes back from the night."""
    alice, bob, carol = key_path(b"alice"), key_path(b"bob"), key_path(b"carol")
    evicted = Node(LEFT, pointer_at(Data(b"alice", b"80")), pointer_at(Data(b"carol", b"5")))
    return [
        (0, ADD_MERKLE, [Data(b"alice"), ROOT], "the root knew nothing on the left, and then knows `alice`"),
        (0, SET, [b"alice", b"100"], ""),
        (0, GET, [b"alice", b"100"], ""),
        (0, ADD_MERKLE, [Data(b"bob"), ROOT], "on the right"),
        (0, SET, [b"bob", b"20"], ""),
        (0, EVICT_MERKLE, [bob, ROOT], "the root knows the hash of `bob` with `20`"),
        (0, ADD_MERKLE, [Node(LEFT), ROOT], "a new node over `alice`: the paths of `alice` and `carol` part there"),
        (0, ADD_MERKLE, [Data(b"carol"), LEFT], "now the store is full"),
        (0, SET, [b"carol", b"5"], ""),
        (0, GET, [b"alice", b"100"], ""),
        (0, SET, [b"alice", b"80"], "20 go to `bob`"),
        (0, EVICT_MERKLE, [carol, LEFT], "makes room"),
        (0, ADD_MERKLE, [Data(b"bob", b"20"), ROOT], "the root's hash is that of this record"),
        (0, GET, [b"bob", b"20"], ""),
        (0, SET, [b"bob", b"40"], ""),
        (0, EVICT_MERKLE, [bob, ROOT], ""),
        (0, EVICT_MERKLE, [alice, LEFT], "the node 0 knows the hash of `alice` with `80`"),
        (0, EVICT_MERKLE, [LEFT, ROOT], "and the root that of the node"),
        (0, ADD_MERKLE, [evicted, ROOT], "with both hashes, as it was evicted"),
        (0, ADD_MERKLE, [Data(b"alice", alice_at_night), LEFT], "checked against the node's hash"),
        (0, GET, [b"alice", alice_at_night], ""),
    ]


def hand_over(given_back):
    """The key d goes from verifier 0 to verifier 1 and back, with the value that is given back."""
    d = key_path(b"d")
    return [
        (0, ADD_MERKLE, [Data(b"d"), ROOT], "the root knows `d` on the left"),
        (0, SET, [b"d", b"x"], ""),
        (0, ADD_MERKLE, [Node(ABOVE_BOTH), ROOT], "a new node over `d`: the root knows 00, and 00 knows `d` on the left"),
        (0, ADD_MERKLE, [Data(b"b"), ABOVE_BOTH], "on the right of 00"),
        (0, EVICT_BLUM_MERKLE, [d, ABOVE_BOTH, (0, 1)], "`d` with `x` goes into the evict sum of epoch 0; 00 knows that it's by Blum"),
        (1, ADD_BLUM, [Data(b"d", b"x"), (0, 1), 0], "into the add sum of epoch 0; the clock of verifier 1 is 0, 2"),
        (1, GET, [b"d", b"x"], ""),
        (1, SET, [b"d", b"y"], ""),
        (1, EVICT_BLUM, [d, (0, 2)], "the last evicted path was the root, and that of `d` comes after it"),
        (0, NEXT_EPOCH, [], ""),
        (1, NEXT_EPOCH, [], ""),
        (0, ADD_BLUM, [Data(b"d", given_back), (0, 2), 1], "it was evicted with `y`"),
        (0, VERIFY_EPOCH, [], "verifier 1 isn't done yet"),
        (1, VERIFY_EPOCH, [], "all are done, and the sums of epoch 0 are compared"),
    ]


LOGS = [
    ("honest.log", "1 4 2", day(b"80"), None, "One verifier, and nothing by Blum: accounts are opened, paid from, evicted and added again."),
    ("stale.log", "1 4 2", day(b"100"), 20, "The same, but `alice` comes back with what she had before she paid: event 20 is wrong at once."),
    ("two-verifiers.log", "2 4 2", hand_over(b"y"), None, "The key `d` goes by Blum to another verifier and back. Its path begins 000, and that of `b` 001."),
    ("two-verifiers-stale.log", "2 4 2", hand_over(b"x"), 14, "The same, but `d` comes back with an old value: right at first, and found when all are done with the epoch."),
]


# ---- in words


def path_words(path):
    if path in KEYS:
        return f"`{KEYS[path]}`"
    return "the root" if path == ROOT else "the node " + "".join(map(str, path))


def record_words(record):
    if isinstance(record, Data):
        return f"`{record.key.decode()}` with " + value_words(record.value)
    known = [path_words(p.path) for p in (record.left, record.right) if p]
    return path_words(record.path) + (" with " + " and ".join(known) if known else ", new")


def value_words(value):
    return "no value" if value is None else f"`{value.decode()}`"


def words(code, fields):
    match code, fields:
        case (0, [record, above]):
            return f"{record_words(record)}, below {path_words(above)}"
        case (1, [record, at, by]):
            return f"{record_words(record)}, evicted at {at[0]}, {at[1]} by verifier {by}"
        case (2, [path, above]):
            return f"{path_words(path)}, below {path_words(above)}"
        case (3, [path, at]):
            return f"{path_words(path)}, at {at[0]}, {at[1]}"
        case (4, [path, above, at]):
            return f"{path_words(path)}, below {path_words(above)}, at {at[0]}, {at[1]}"
        case (7, [key, value]):
            return f"`{key.decode()}` has {value_words(value)}"
        case (8, [key, value]):
            return f"`{key.decode()}` is given {value_words(value)}"
    return ""


def row(number, entry, answer):
    verifier, code, fields, note = entry
    said = NAMES[code] + (": " + words(code, fields) if fields else "")
    return f"| {number} | {verifier} | {said} | {note} | `{answer}` |"


def described(name, limits, entries, wrong_at, about):
    log = log_bytes(limits.encode() + b"\n", [event_bytes(Event(v, code, fields)) for v, code, fields, _ in entries])
    (EXAMPLES / name).write_bytes(log)
    run = subprocess.run([MODEL, "check", EXAMPLES / name], capture_output=True, text=True, check=True)
    answers = run.stdout.splitlines()
    if (answers.index("wrong") + 1 if "wrong" in answers else None) != wrong_at:
        sys.exit(f"{name}: {run.stderr}")
    rows = [row(number, *both) for number, both in enumerate(zip(entries, answers), 1)]
    head = ["| event | verifier | entry | | answer |", "|---|---|---|---|---|"]
    return "\n".join([f"## {name}", "", about, "", f"First line: `{limits}`. Summary: {run.stderr.strip()}", "", *head, *rows])


def main():
    subprocess.run([TOP / "tools/build"], check=True)
    EXAMPLES.mkdir(exist_ok=True)
    intro = "# Example logs\n\nMade by `tools/make_examples.py`. A timestamp is an epoch and a counter. Any secret key gives these answers."
    (EXAMPLES / "LOGS.md").write_text("\n\n".join([intro, *(described(*log) for log in LOGS)]) + "\n")


if __name__ == "__main__":
    main()
