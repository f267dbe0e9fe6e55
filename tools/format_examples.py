#!/usr/bin/env python3
"""The example events of docs/FORMAT.md, made apart from the code: prints them in hex, and writes them as constants
for crate `wire_tests` into the file that is named, to be put in form by `rt fmt`."""
import pathlib
import sys


def number(n, size=8):
    return n.to_bytes(size, "little")


def sized(text):
    return number(len(text), 2) + bytes(text)


def value(text):
    return b"\0" if text is None else b"\1" + sized(text)


def pointer(child):
    if child is None:
        return b"\0"
    path, hashed, in_blum = child
    return b"\1" + bytes([in_blum]) + sized(path) + bytes(hashed)


def data_record(key, text):
    return b"\0" + sized(key) + b"\0" + value(text)


def node(path, left, right):
    return b"\1" + sized(path) + b"\1" + pointer(left) + pointer(right)


def event(verifier, code, *fields):
    return number(verifier) + bytes([code]) + b"".join(fields)


EXAMPLES = {
    "add_merkle": event(0, 0, node([0, 1], ([0, 1, 0], range(1, 33), 1), None), sized([])),
    "add_blum": event(2, 1, data_record(b"alice", b"100"), number(3), number(258), number(1)),
    "evict_merkle": event(0, 2, sized([0, 1]), sized([0])),
    "evict_blum": event(1, 3, sized([1, 0, 1]), number(3), number(7)),
    "evict_blum_merkle": event(1, 4, sized([1, 1]), sized([]), number(4), number(0)),
    "next_epoch": event(2, 5),
    "verify_epoch": event(258, 6),
    "get": event(1, 7, sized(b"alice"), value(b"100")),
    "get_none": event(1, 7, sized(b"bob"), value(None)),
    "set": event(1, 8, sized(b"alice"), sized(b"90")),
}


def constant(name, data):
    lines = [", ".join(map(str, data[i : i + 16])) for i in range(0, len(data), 16)]
    body = "".join(f"    {line},\n" for line in lines)
    return f"pub const {name.upper()}: [u8; {len(data)}] = [\n{body}];\n"


def main():
    for name, data in EXAMPLES.items():
        print(f"{name} ({len(data)} bytes)\n    {data.hex(' ')}")
    if len(sys.argv) > 1:
        head = "// The example events of docs/FORMAT.md, as tools/format_examples.py makes them.\n"
        text = head + "".join("\n" + constant(n, d) for n, d in EXAMPLES.items())
        pathlib.Path(sys.argv[1]).write_text(text)


if __name__ == "__main__":
    main()
