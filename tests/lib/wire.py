"""Bytes of messages and frames, as docs/FORMATS.md has them: written, and read where they are whole and without fault."""

import contextlib

# The kinds of frames that bring versions.
DELTA, PUSH, PULL = 1, 2, 3

# Frames: a Tick, and a Push of nothing, which is answered by a Pull with all that the member holds.
TICK = bytes([4, 0])
EMPTY_PUSH = bytes([2, 0])


def varint(number):
    out = bytearray()
    while number >= 128:
        out.append(number % 128 + 128)
        number //= 128
    return bytes(out) + bytes([number])


def delimited(payload):
    """Bytes behind their length."""
    return varint(len(payload)) + payload


def field(number, payload):
    """A field of a message whose payload has a length."""
    return varint(number * 8 + 2) + delimited(payload)


def timestamp(seconds, nanos=0):
    """The message of a moment: before 1970 its seconds are in two's complement, and the nanoseconds go up from there."""
    return (bytes([8]) + varint(seconds % (1 << 64)) if seconds else b"") + (bytes([16]) + varint(nanos) if nanos else b"")


def greeting(name):
    return b"\0" + delimited(name.encode())


def frame(kind, payload):
    return bytes([kind]) + delimited(payload)


def delta(state, version):
    """A frame with one version of a state."""
    return frame(1, field(1, state.encode()) + field(2, delimited(version)))


def number_at(data, at):
    """The number of the varint there, and where the next byte stands."""
    number, shift = 0, 0
    while data[at] >= 128:
        number |= (data[at] - 128) << shift
        at, shift = at + 1, shift + 7
    return number | data[at] << shift, at + 1


def fields_of(data):
    """The numbers of a message's fields with what stands there, a number or bytes, of those that members write."""
    at = 0
    while at < len(data):
        tag, at = number_at(data, at)
        value, at = number_at(data, at)
        if tag % 8 == 2:
            value, at = data[at : at + value], at + value
        yield tag // 8, value


def items(row):
    """The messages of a row."""
    at = 0
    while at < len(row):
        length, at = number_at(row, at)
        yield row[at : at + length]
        at += length


def block(row):
    """A row in a block of a log."""
    return b"\1" + len(row).to_bytes(8, "little") + row


def batches(log):
    """The rows in the whole blocks of a log."""
    at = 0
    while log[at : at + 1] == b"\1":
        end = at + 9 + int.from_bytes(log[at + 1 : at + 9], "little")
        if len(log) < end:
            return
        yield log[at + 9 : end]
        at = end


def nanos(data):
    """The message of a moment, as nanoseconds since 1970."""
    found = dict(fields_of(data))
    seconds = found.get(1, 0)
    return (seconds - (1 << 64) if seconds >= 1 << 63 else seconds) * 10**9 + found.get(2, 0)


def frames_of(data):
    """The kinds and the payloads of the whole frames behind a greeting."""
    with contextlib.suppress(IndexError):
        length, at = number_at(data, 1)
        at += length
        while at < len(data):
            kind = data[at]
            length, at = number_at(data, at + 1)
            if at + length <= len(data):
                yield kind, data[at : at + length]
            at += length


def rows_of(kind, payload):
    """The states and the rows in the payload of a frame."""
    parts = [payload] if kind == DELTA else [it for number, it in fields_of(payload) if number == 1]
    for part in parts if kind != TICK[0] else []:
        found = dict(fields_of(part))
        yield found.get(1, b"").decode(), found.get(2, b"")
