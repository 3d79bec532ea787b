"""Plays schedules of three members by am_tool, with and without a `timely` at the end.

A schedule is blocks of twelve lines: a silence is posted at one member and delivered to the two others, one of which shows
what it holds and one of which says what mutes an alert; the frames are lost, and all members collect once it has expired. So
there are few silences and few frames at any time, and what grows is the record of the run. For each count of lines: the least
user and system time of the rounds, the two kinds taken in turn, in microseconds a line, each beside its growth since the count
before. Then, for each number of silences that one member holds: the time of their posts, in microseconds a line, and what each
line more costs that changes nothing. `--write` prints a schedule instead. am_tool is built by `./am_tool build` where it isn't.
"""
import os
import sys
import tempfile

import building
from measuring import seconds

OPTIONS = {"--rounds": 3, "--counts": [1000, 10000, 100000], "--held": [1000, 16000, 64000], "--write": 0}
LINE = "%9s %12s %7s %12s %7s"
HEAD = ("lines", "us a line", "growth", "with timely", "growth")
HELD_LINE = "%9s %12s %12s"
HELD_HEAD = ("held", "us a post", "us a line")
SECONDS = 3
MORE = 50_000


def block(number):
    """Twelve lines, whose four frames are the next ones in number."""
    start, first = 10 + SECONDS * number, 4 * number + 1
    yield "at %d a post - %032x %d %d job x" % (start, number, start, start + 1)
    yield "at %d deliver %d" % (start, first)
    yield "at %d deliver %d" % (start, first + 1)
    yield "at %d b show" % start
    yield "at %d c mutes job=x" % start
    for frame in range(first, first + 4):
        yield "lose %d" % frame
    for name in "abc":
        yield "at %d %s tick" % (start + 2, name)


def lines_of(count, is_asked):
    """A schedule of about so many lines."""
    yield "cluster 1 15 a b c"
    for number in range(max(1, count // 12)):
        yield from block(number)
    if is_asked:
        yield "timely 1 1"


def write(count, is_asked, path):
    with open(path, "w") as f:
        f.writelines(line + "\n" for line in lines_of(count, is_asked))


def held_lines(held, more):
    """One member that holds so many silences, and so many lines that change nothing."""
    yield "cluster 1 15 a"
    for number in range(held):
        yield "at 10 a post - %032x 10 100000 job v%d" % (number + 1, number)
    for _ in range(more):
        yield "at 11 a mutes job=none"


def measure_held(command, folder, held, rounds):
    """Microseconds of a post, and of a line more, at so many silences."""
    sources = [os.path.join(folder, name) for name in ("posts", "more")]
    for source, more in zip(sources, (0, MORE)):
        with open(source, "w") as f:
            f.writelines(line + "\n" for line in held_lines(held, more))
    times = zip(*([seconds(command, source, os.devnull) for source in sources] for _ in range(rounds)))
    posts, whole = map(min, times)
    return posts / held * 1e6, (whole - posts) / MORE * 1e6


def run(a):
    if a.write:
        sys.stdout.writelines(line + "\n" for line in lines_of(a.write, True))
        return
    command = [building.am_tool(), "replay"]
    last = [None, None]
    print(LINE % HEAD)
    with tempfile.TemporaryDirectory() as folder:
        sources = [os.path.join(folder, name) for name in ("silent", "asked")]
        for count in a.counts:
            for is_asked, source in enumerate(sources):
                write(count, is_asked, source)
            rounds = [[seconds(command, source, os.devnull) for source in sources] for _ in range(a.rounds)]
            took = [min(times) / count * 1e6 for times in zip(*rounds)]
            growth = ["" if before is None else "%.2f" % (now / before) for now, before in zip(took, last)]
            print(LINE % (count, "%.2f" % took[0], growth[0], "%.2f" % took[1], growth[1]), flush=True)
            last = took
        print(HELD_LINE % HELD_HEAD)
        for held in a.held:
            print(HELD_LINE % (held, *("%.2f" % it for it in measure_held(command, folder, held, a.rounds))), flush=True)
