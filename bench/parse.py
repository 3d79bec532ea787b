"""The time of parsing schedules of growing size, beside a plain program that parts the same lines.

A kind of text for each thing that could take more than its share: many labels, one `from` that names a long version
again and again, one `mutes` of many pairs, lists of hashes, short lines. Nanoseconds for each byte are to stay where
they are when a text grows.
"""
import random
import subprocess
import tempfile

import building


def labels(size, r):
    text, n = [b"cluster 100 15 a b c\n"], 0
    length = len(text[0])
    while length < size:
        n += 1
        lines = b"sil label%d id%d 10 10 50 200 job m\nat %d a from b label%d label%d\n" % (n, n, n, r.randrange(1, n + 1), n)
        text.append(lines)
        length += len(lines)
    return b"".join(text)


def one_from(size, r):
    head = b"cluster 100 15 a b\nsil s %s 10 10 50 200 %s %s\nat 1 a from b" % (b"x" * 1000, b"j" * 1000, b"m" * 1000)
    return head + b" s" * ((size - len(head)) // 2) + b"\n"


def one_mutes(size, r):
    head = b"cluster 100 15 a b\nat 1 a mutes"
    return head + b"".join(b" l%08d=v" % n for n in range((size - len(head)) // 12)) + b"\n"


def hashes(size, r):
    line = b"at 1 a notified g r %s - 60\n" % b",".join(b"%d" % r.randrange(2 ** 64) for _ in range(45))
    return b"cluster 100 15 a b\n" + line * (size // len(line))


def frames(size, r):
    return b"cluster 100 15 a b\n" + b"frames\n" * (size // 7)


KINDS = {"labels": labels, "one_from": one_from, "one_mutes": one_mutes, "hashes": hashes, "frames": frames}
OPTIONS = {"--mebibytes": [4, 8, 16], "--kinds": list(KINDS), "--rounds": 3}


def least(program, text, rounds):
    """The least time of the rounds, and how many lines were read."""
    runs = [subprocess.run([program], input=text, stdout=subprocess.PIPE, check=True).stdout.split() for _ in range(rounds)]
    return min(int(run[0]) for run in runs), int(runs[0][1])


def run(a):
    with tempfile.TemporaryDirectory() as folder:
        ours, plain = building.ours("time_parse", folder), building.plain("plain_parse", folder)
        print("%-10s %5s %9s %9s %8s %8s" % ("kind", "MiB", "lines", "ms", "ns/byte", "ratio"))
        for kind in a.kinds:
            for mebibytes in a.mebibytes:
                text = KINDS[kind](mebibytes * 2 ** 20, random.Random(1))
                (took, lines), (other, counted) = least(ours, text, a.rounds), least(plain, text, a.rounds)
                if lines != counted:
                    raise SystemExit("%d lines, and not %d" % (lines, counted))
                print("%-10s %5d %9d %9.1f %8.1f %8.2f" % (kind, mebibytes, lines, took / 1e6, took / len(text), took / other))
