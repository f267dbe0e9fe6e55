"""Digests of many messages, by the library that is named and by hashlib."""

import ctypes
import hashlib
import random
import sys

SEED = 20260
LONGEST = 5_000_000


def messages():
    """Every length to 300, five times; around the ends of blocks; at random; and some long ones."""
    rng = random.Random(SEED)
    for n in range(301):
        yield bytes(n)
        yield b"\xff" * n
        for _ in range(3):
            yield rng.randbytes(n)
    for blocks in range(5, 65):
        for n in (55, 56, 63, 64, 65):
            yield rng.randbytes(64 * blocks + n)
    for _ in range(1000):
        yield rng.randbytes(rng.randrange(20_000))
    yield b"a" * 1_000_000
    for n in (65_535, 65_536, 1_048_575, 1_048_576, 3_000_000, LONGEST):
        yield rng.randbytes(n)


def main():
    library = ctypes.CDLL(sys.argv[1])
    library.sha256_digest.argtypes = [ctypes.c_void_p, ctypes.c_size_t, ctypes.c_char_p]
    library.sha256_digest.restype = None
    memory = ctypes.create_string_buffer(LONGEST + 8)
    out = ctypes.create_string_buffer(32)
    count = 0
    for message in messages():
        address = ctypes.addressof(memory) + count % 8  # at every alignment
        ctypes.memmove(address, message, len(message))
        library.sha256_digest(address, len(message), out)
        expected = hashlib.sha256(message).digest()
        if out.raw != expected:
            sys.exit(f"sha256-compare: message {count} of {len(message)} bytes: {out.raw.hex()}, but hashlib has {expected.hex()}")
        count += 1
    print(f"sha256-compare: {count} messages agree with hashlib, the longest of {LONGEST} bytes")


main()
