"""Prints what is in a saved session, one a line, without the library: python3 tests/python/read_saved.py FILE"""

import io
import struct
import sys

WORD = 2**64 - 1
P1, P2, P3 = 0x9E3779B185EBCA87, 0xC2B2AE3D27D4EB4F, 0x165667B19E3779F9
P4, P5 = 0x85EBCA77C2B2AE63, 0x27D4EB2F165667C5
KINDS = "begin end insertion insertion deletion deletion replacement replacement".split()


def turned(word, by):
    return (word << by | word >> (64 - by)) & WORD


def mixed(lane, word):
    return turned(lane + word * P2 & WORD, 31) * P1 & WORD


def xxh64(data):
    """XXH64 of the xxHash family, with the seed 0."""
    lanes, total = [P1 + P2 & WORD, P2, 0, -P1 & WORD], P5
    rest = io.BytesIO(data)
    for words in struct.iter_unpack("<4Q", rest.read(len(data) // 32 * 32)):
        lanes = list(map(mixed, lanes, words))
    if len(data) >= 32:
        total = sum(map(turned, lanes, (1, 7, 12, 18)))
        for lane in lanes:
            total = (total & WORD ^ mixed(0, lane)) * P1 + P4
    total = total + len(data) & WORD
    for (word,) in struct.iter_unpack("<Q", rest.read(len(data) % 32 // 8 * 8)):
        total = turned(total ^ mixed(0, word), 27) * P1 + P4 & WORD
    for (word,) in struct.iter_unpack("<I", rest.read(len(data) % 8 // 4 * 4)):
        total = turned(total ^ word * P1 & WORD, 23) * P2 + P3 & WORD
    for byte in rest.read():
        total = turned(total ^ byte * P5 & WORD, 11) * P1 & WORD
    total = (total ^ total >> 33) * P2 & WORD
    total = (total ^ total >> 29) * P3 & WORD
    return (total ^ total >> 32).to_bytes(8, "little")


def read(saved):
    """Yields text, cursor, slots, and entries: offset, cursor before and after, removed text, inserted text."""
    if saved[:8] != b"lodvarn\1" or saved[-8:] != xxh64(saved[:-8]):
        raise ValueError("this is no saved session, or a damaged one")
    rest = io.BytesIO(saved[8:-8])
    _, cursor, *_, size = struct.unpack("<9Q", rest.read(72))
    yield "text", rest.read(size).decode()
    yield "cursor", cursor  # Offsets count bytes of UTF-8.
    for _ in range(struct.unpack("<7Q", rest.read(56))[6]):
        yield "slot", rest.read(int.from_bytes(rest.read(8), "little")).decode()
    count, recorded, *_ = struct.unpack("<6Q", rest.read(48))
    for number in range(count):
        kind, *offsets, removed, inserted = struct.unpack("<6I", rest.read(24))
        name = "undone " * (number >= recorded) + KINDS[kind]
        yield name, *offsets, rest.read(removed).decode(), rest.read(inserted).decode()


if __name__ == "__main__":
    for it, *values in read(open(sys.argv[1], "rb").read()):
        print(it, *map(repr, values))
