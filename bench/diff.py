"""Compares two files by `am_tool diff`, and folds both by `am_tool fold`.

For each count: two files of so many silences, of which a tenth differ; the least user and system time of the rounds of
`diff` over both files and of `fold` over the one behind the other, taken in turn, with their ratio; and the peak memory of
`diff`, beside that of folding each file alone, which is what holding both takes, with their ratio. The program is
crates/am_tool/out/am_tool, which ./am_tool build makes.
"""
import os
import random
import tempfile

import rows
from building import PROGRAM
from lib.wire import delimited
from measuring import peak, seconds

OPTIONS = {"--rounds": 5, "--counts": [1_000, 10_000, 100_000], "--program": PROGRAM}
LINE = "%9s %9s %9s %7s %9s %9s %7s"
HEAD = ("silences", "diff ms", "fold ms", "ratio", "diff MiB", "both MiB", "ratio")
DIFFERENT = 5  # the status of `diff` where something is


def write(count, wave, out):
    """A file of silences in mixed order of their keys, of which every tenth is of another wave of updates."""
    with open(out, "wb", buffering=1 << 20) as f:
        for i in range(count):
            r = random.Random(i)
            f.write(delimited(b"".join(rows.silence(r, rows.identifier(r), i, wave if i % 10 == 0 else 0))))


def measure(program, count, rounds, folder):
    """The times of `diff` and `fold`, and the peak memory of `diff` and of both folds."""
    one, other, both, target = (os.path.join(folder, name) for name in ("one", "other", "both", "target"))
    write(count, 0, one)
    write(count, 1, other)
    with open(both, "wb") as f:
        for name in (one, other):
            with open(name, "rb") as source:
                f.write(source.read())
    diff = [program, "diff", "--state", "sil", "--now", str(rows.NOW * 10**9), one, other]
    fold = [program, "fold", "--state", "sil", "--now", "0"]
    times = [(seconds(diff, os.devnull, target, DIFFERENT), seconds(fold, both, target)) for _ in range(rounds)]
    held = sum(peak(fold, name, target) for name in (one, other))
    return [min(each) for each in zip(*times)], peak(diff, os.devnull, target, DIFFERENT), held


def run(a):
    print(LINE % HEAD)
    with tempfile.TemporaryDirectory() as folder:
        for count in a.counts:
            (diff, fold), most, held = measure(a.program, count, a.rounds, folder)
            print(LINE % (f"{count:,}", "%.1f" % (diff * 1e3), "%.1f" % (fold * 1e3), "%.2f" % (diff / fold),
                          "%.1f" % (most / 2**20), "%.1f" % (held / 2**20), "%.2f" % (most / held)))
