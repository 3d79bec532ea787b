"""The faults of rows, by a reader that is written from docs/FORMATS.md: of a row the first one, as its line has it."""

# The most bytes of a message.
MOST_BYTES = 1 << 26

# The kinds of fields: a number, a list of them, bytes and a text; any other is a message, of which one stands there, or several.
NUMBER, NUMBERS, BYTES, TEXT = "number", "numbers", "bytes", "text"

# The fields of each message that are known, by number. Of `[KIND]` there are several.
FIELDS = {
    "Timestamp": {1: NUMBER, 2: NUMBER},
    "Matcher": {1: NUMBER, 2: TEXT, 3: TEXT},
    "Comment": {1: TEXT, 2: TEXT, 3: "Timestamp"},
    "Silence": {
        1: TEXT,
        2: ["Matcher"],
        3: "Timestamp",
        4: "Timestamp",
        5: "Timestamp",
        7: ["Comment"],
        8: TEXT,
        9: TEXT,
    },
    "sil": {1: "Silence", 2: "Timestamp"},
    "Receiver": {1: TEXT, 2: TEXT, 3: NUMBER},
    "Entry": {1: BYTES, 2: "Receiver", 3: BYTES, 4: NUMBER, 5: "Timestamp", 6: NUMBERS, 7: NUMBERS},
    "nfl": {1: "Entry", 2: "Timestamp"},
}

# The messages that have to be there, and the field in which they stand.
WANTED = {"sil": 1, "nfl": 1, "Entry": 2}

# The wire types of a number, of eight bytes, of a length with so many bytes, and of four bytes.
VARINT, EIGHT, DELIMITED, FOUR = 0, 1, 2, 5


class Fault(Exception):
    """The words of a fault."""


def number_at(data, at, end, tag):
    """The number of the varint there, and where it ends. Its fault is the field's whose tag stands at `tag`."""
    number = 0
    for place in range(10):
        if at + place >= end:
            raise Fault(f"Truncated {tag}")
        byte = data[at + place]
        if place == 9 and byte > 1:
            break
        number |= byte % 128 << 7 * place
        if byte < 128:
            return number, at + place + 1
    raise Fault(f"LongVarint {tag}")


def payload_at(data, at, end, tag, wire):
    """Where the payload of a field begins and ends, and the number that stands there, if one does."""
    if wire == VARINT:
        number, stop = number_at(data, at, end, tag)
        return at, stop, number
    length = {EIGHT: 8, FOUR: 4}.get(wire)
    if wire == DELIMITED:
        length, at = number_at(data, at, end, tag)
    if length > end - at:
        raise Fault(f"Truncated {tag}")
    return at, at + length, None


def types_of(kind):
    if kind == NUMBER:
        return [VARINT]
    return [VARINT, DELIMITED] if kind == NUMBERS else [DELIMITED]


def read(data, at, end, message, found):
    """Reads the fields of a message, of each the last tag and value; those of a message that stands there once are joined."""
    while at < end:
        tag = at
        key, at = number_at(data, at, end, tag)
        number, wire = key >> 3, key % 8
        if not 1 <= number < 1 << 29:
            raise Fault(f"FieldNumber {tag}")
        if wire not in (VARINT, EIGHT, DELIMITED, FOUR):
            raise Fault(f"WireType {tag}")
        kind = FIELDS[message].get(number)
        if kind is not None and wire not in types_of(kind):
            raise Fault(f"WrongType {tag}")
        start, at, value = payload_at(data, at, end, tag, wire)
        before = found.get(number, (tag, {}))[1]
        found[number] = tag, value_of(data, start, at, tag, kind, before) if wire == DELIMITED else value


def value_of(data, at, end, tag, kind, before):
    """What stands in a payload that has a length, behind what stood before in the same field."""
    if kind == TEXT:
        try:
            data[at:end].decode()
        except UnicodeDecodeError:
            raise Fault(f"NotUtf8 {tag}") from None
    elif kind == NUMBERS:
        while at < end:
            _, at = number_at(data, at, end, tag)
    elif isinstance(kind, list):
        item = {}
        read(data, at, end, kind[0], item)
        test(kind[0], item)
    elif kind in FIELDS:
        read(data, at, end, kind, before)
    return before


def is_moment(found):
    _, seconds = found.get(1, (None, 0))
    _, nanos = found.get(2, (None, 0))
    # (both are in two's complement, in 64 and in 32 bits)
    seconds = (seconds ^ 1 << 63) - (1 << 63)
    nanos %= 1 << 32
    return -62_135_596_800 <= seconds <= 253_402_300_799 and nanos <= 999_999_999


def test(message, found):
    """Tests the values of a message that has ended, in rising field number."""
    for number, kind in sorted(FIELDS[message].items()):
        if WANTED.get(message) == number and number not in found:
            raise Fault(f"MissingMessage {number}")
        if number not in found or isinstance(kind, list):
            continue
        tag, value = found[number]
        if message == "Matcher" and number == 1 and value % (1 << 32) > 3:
            raise Fault(f"MatcherType {tag}")
        if kind == "Timestamp" and not is_moment(value):
            raise Fault(f"Timestamp {tag}")
        if kind in FIELDS:
            test(kind, value)


def fault_of(state, row):
    """The words of the first fault of a row of a state, or None where there is none."""
    at = 0
    try:
        while at < len(row):
            length, start = number_at(row, at, len(row), at)
            if length > MOST_BYTES:
                return "TooLarge"
            if length > len(row) - start:
                return f"Truncated {at}"
            at, found = start + length, {}
            read(row, start, at, state, found)
            test(state, found)
    except Fault as fault:
        return str(fault)
    return None
