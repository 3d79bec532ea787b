"""The hash by which the log of notifications knows an alert: XXH64 of its labels, by the specification of xxHash."""

import struct

FULL = (1 << 64) - 1
FIRST, SECOND, THIRD = 11400714785074694791, 14029467366897019727, 1609587929392839161
FOURTH, FIFTH = 9650029242287828579, 2870177450012600261


def rotated(word, places):
    return (word << places | word >> (64 - places)) & FULL


def mixed(lane, word):
    return rotated((lane + word * SECOND) & FULL, 31) * FIRST & FULL


def striped(data):
    """The hash of the stripes of 32 bytes at the front, of which there is one at least, and how many bytes they have."""
    lanes = [(FIRST + SECOND) & FULL, SECOND, 0, -FIRST & FULL]
    size = len(data) // 32 * 32
    for stripe in struct.iter_unpack("<4Q", data[:size]):
        lanes = [mixed(*pair) for pair in zip(lanes, stripe)]
    found = sum(rotated(lane, places) for lane, places in zip(lanes, (1, 7, 12, 18))) & FULL
    for lane in lanes:
        found = ((found ^ mixed(0, lane)) * FIRST + FOURTH) & FULL
    return found, size


def xxh64(data):
    """XXH64 with seed 0."""
    found, at = striped(data) if len(data) >= 32 else (FIFTH, 0)
    found = (found + len(data)) & FULL
    while at + 8 <= len(data):
        (word,) = struct.unpack_from("<Q", data, at)
        found, at = (rotated(found ^ mixed(0, word), 27) * FIRST + FOURTH) & FULL, at + 8
    if at + 4 <= len(data):
        (word,) = struct.unpack_from("<I", data, at)
        found, at = (rotated(found ^ (word * FIRST & FULL), 23) * SECOND + THIRD) & FULL, at + 4
    for byte in data[at:]:
        found = rotated(found ^ (byte * FIFTH & FULL), 11) * FIRST & FULL
    found = (found ^ found >> 33) * SECOND & FULL
    found = (found ^ found >> 29) * THIRD & FULL
    return found ^ found >> 32


def hash_of(labels):
    """The hash of an alert with these labels."""
    pairs = sorted((name.encode(), value.encode()) for name, value in labels.items())
    return xxh64(b"".join(part + b"\xff" for pair in pairs for part in pair))


def text_of(number):
    """A hash as replies of `decide` have it."""
    return f"{number:016x}"
