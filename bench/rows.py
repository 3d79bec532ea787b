"""Rows of synthetic versions, silences or log entries of about 190 bytes each. A silence has two EQUAL matchers, and one in ten
a REGEXP matcher beside them."""
import random

from lib.wire import delimited, field, timestamp, varint

NOW = 1_800_000_000
ORDERS = ["random", "rising", "falling"]

# How versions are written: in canonical form, with the moment of their expiry first, or these by turns.
SPELLINGS = ["canonical", "other", "mixed"]


def identifier(r):
    h = "%032x" % r.getrandbits(128)
    return ("%s-%s-4%s-a%s-%s" % (h[:8], h[8:12], h[13:16], h[17:20], h[20:])).encode()


def group_key(r):
    return b'{}/{team="t%d"}:{alertname="Alert%d", cluster="c%016x"}' % (r.randrange(20), r.randrange(500), r.getrandbits(64))


def matcher(kind, name, pattern):
    return field(2, (b"\x08" + varint(kind) if kind else b"") + field(2, name) + field(3, pattern))


def silence(r, key, i, wave):
    end = NOW + 86400 + i % 100000
    body = (field(1, key) + matcher(0, b"alertname", b"Alert%d" % (i % 500)) + matcher(0, b"instance", b"host-%06d.example:9100" % i)
            + (matcher(1, b"env", b"prod-%d.*|stage" % (i % 7)) if i % 10 == 0 else b"")
            + field(3, timestamp(NOW - 7200, 123456789)) + field(4, timestamp(end, 0))
            + field(5, timestamp(NOW - 7200 + wave * 60, r.randrange(1, 10 ** 9)))
            + field(8, b"ops@example.org") + field(9, b"maintenance window %d" % i))
    return [field(1, body), field(2, timestamp(end + 432000, 0))]


def entry(r, key, i, wave):
    receiver = field(1, b"team-%d" % (i % 20)) + field(2, b"webhook") + (b"\x18" + varint(i % 3) if i % 3 else b"")
    firing = b"".join(varint(r.getrandbits(64)) for _ in range(1 + i % 8))
    resolved = b"".join(varint(r.getrandbits(64)) for _ in range(i % 3))
    body = (field(1, key) + field(2, receiver) + field(5, timestamp(NOW - 3600 + wave * 60, r.randrange(1, 10 ** 9)))
            + field(6, firing) + (field(7, resolved) if resolved else b""))
    return [field(1, body), field(2, timestamp(NOW + 86400 + i % 1000, 0))]


def write(state, count, keys, out, order="random", spelling="canonical"):
    """Writes versions of so many keys, in mixed order or in rising or falling order of these."""
    turned = {"canonical": (0, 0), "other": (1, 1), "mixed": (0, 1)}[spelling]
    r = random.Random(1)
    names, message = (identifier, silence) if state == "sil" else (group_key, entry)
    ids = [names(r) for _ in range(keys)]
    both = [(i % keys, i // keys) for i in range(count)]
    if order == "random":
        r.shuffle(both)
    else:
        both.sort(key=lambda x: (ids[x[0]], x[1]), reverse=order == "falling")
    with open(out, "wb", buffering=1 << 20) as f:
        for place, (i, wave) in enumerate(both):
            fields = message(r, ids[i], i, wave)
            f.write(delimited(b"".join(reversed(fields) if turned[place % 2] else fields)))


def write_small(out, limit, falling):
    """Distinct silences of 40 bytes a row, as many as there is room for, in the order of their keys."""
    stamps = field(3, b"") + field(4, b"") + field(5, b"")
    tail = field(2, b"")

    def row(i):
        return delimited(field(1, field(1, b"%027x" % i) + stamps) + tail)

    size = len(row(0))
    count = limit // size
    with open(out, "wb", buffering=1 << 20) as f:
        for i in range(count - 1, -1, -1) if falling else range(count):
            f.write(row(i))
    return count
