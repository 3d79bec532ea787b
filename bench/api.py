"""What requests take from bytes to bytes, beside a plain program that writes the same JSON by hand.

An instance with 1,000 and 10,000 silences is asked for the list of all, that of one job and one silence, and takes a post. For
each: the least time of the rounds in nanoseconds, and the ratio to the plain program, which keeps its silences in a
`BTreeMap`, tests no more of a post than it has to, and makes no version of one for others. Then the most bytes that the
request had of the allocator at once beside what was there before, of both, their ratio, and for each byte of the reply:
tests/lib/memory.c, loaded into both programs, counts them, so they are the same in each run.
"""
import os
import struct
import subprocess
import tempfile

import building
import measuring
from lib.members import compiled

OPTIONS = {"--rounds": 5}


def rises(program, counter, folder):
    """The rows that a program prints, each with the most bytes that its memory rose by before it was printed."""
    shared = os.path.join(folder, "shared")
    with open(shared, "wb") as f:
        f.truncate(8192)
    env = {**os.environ, "LD_PRELOAD": counter, "MEMORY": shared}
    ran = subprocess.run([program], check=True, stdout=subprocess.PIPE, text=True, env=env)
    with open(shared, "rb") as f:
        _, _, _, _, _, _, count, *found = struct.unpack("=%dQ" % (7 + 500), f.read(8 * 507))
    lines = ran.stdout.splitlines()
    if len(lines) != count:
        raise SystemExit("%d lines were printed, and the memory rose %d times" % (len(lines), count))
    keys = [(" ".join(words), answer) for *words, _, answer in (line.split() for line in lines)]
    return dict(zip(keys, found))


def run(given):
    with tempfile.TemporaryDirectory() as folder:
        programs = [building.ours("time_api", folder), building.plain("plain_api", folder)]
        times = [measuring.rows(program, given.rounds) for program in programs]
        counter = compiled("api", "memory", folder, "no memory can be counted")
        memory = [rises(program, counter, folder) for program in programs]
    measuring.same(*times)
    head = ("request", "ours ns", "plain ns", "ratio", "reply", "ours bytes", "plain bytes", "ratio", "ours each", "plain each")
    print("%-28s %12s %12s %7s %10s %12s %12s %7s %10s %10s" % head)
    for key in times[0]:
        if key[0].startswith("held "):
            continue
        (ours, plain), (mine, other), size = (t[key] for t in times), (m[key] for m in memory), int(key[1].split("/")[0])
        line = (key[0], ours, plain, ours / plain, size, mine, other, mine / other, mine / size, other / size)
        print("%-28s %12d %12d %7.2f %10d %12d %12d %7.2f %10.2f %10.2f" % line)
