"""Folds the dearest inputs that are let in: time and peak memory, beside a plain program.

Distinct silences of 40 bytes in rising and in falling order of their keys, one silence of empty matchers, and one log
entry of packed hashes, each of so many MiB (64, the most, by default). For each: the least user and system time in
seconds and the peak memory in MiB of am_tool and of the plain program, the ratio of times, and how many times the
input the peak of am_tool is.
"""
import os
import tempfile

import building
import measuring
import rows
from lib.wire import delimited, field

OPTIONS = {"--rounds": 3, "--mebibytes": 64}
LINE = "%-22s %9s %10s %9s %7s %12s %11s %11s"


def silence(matchers):
    """A version of a silence with these matchers; its moments are all the beginning of 1970."""
    body = field(1, b"id") + matchers + field(3, b"") + field(4, b"") + field(5, b"")
    return delimited(field(1, body) + field(2, b""))


def matchers(size):
    return silence(b"\x12\x00" * ((size - 32) // 2))


def hashes(size):
    key = field(1, b"key") + field(2, b"") + field(5, b"")
    return delimited(field(1, key + field(6, b"\x01" * (size - 64))) + field(2, b""))


def inputs(size):
    yield "40 bytes, rising", "sil", lambda out: rows.write_small(out, size, False)
    yield "40 bytes, falling", "sil", lambda out: rows.write_small(out, size, True)
    yield "empty matchers", "sil", lambda out: open(out, "wb").write(matchers(size))
    yield "packed hashes", "nfl", lambda out: open(out, "wb").write(hashes(size))


def run(a):
    size = a.mebibytes * 2 ** 20
    ours = building.am_tool()
    print(LINE % ("input", "MiB", "am_tool s", "plain s", "ratio", "am_tool MiB", "plain MiB", "of input"))
    with tempfile.TemporaryDirectory() as folder:
        plain = building.plain("plain_fold", folder)
        source, *targets = (os.path.join(folder, x) for x in ("row", "ours", "theirs"))
        for name, state, write in inputs(size):
            write(source)
            read = os.path.getsize(source)
            commands = [[ours, "fold", "--state", state, "--now", "0"], [plain, state]]
            (t, u), (m, n) = measuring.measure(commands, source, targets, a.rounds)
            print(LINE % (name, "%.1f" % (read / 2 ** 20), "%.2f" % t, "%.2f" % u, "%.2f" % (t / u), "%.0f" % (m / 2 ** 20),
                          "%.0f" % (n / 2 ** 20), "%.1f" % (m / read)), flush=True)
