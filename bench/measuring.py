"""Time and memory of whole processes, and what programs of bench/programs print of themselves."""
import os
import subprocess
import tempfile

import building


def start(command, source, target):
    with open(source, "rb") as i, open(target, "wb") as o:
        return subprocess.Popen(command, stdin=i, stdout=o)


def seconds(command, source, target, wanted=0):
    """User and system time of a whole process, which is to end with a status."""
    child = start(command, source, target)
    _, status, used = os.wait4(child.pid, 0)
    if os.waitstatus_to_exitcode(status) != wanted:
        raise SystemExit("%s ended with %d" % (command[0], status))
    return used.ru_utime + used.ru_stime


def peak(command, source, target, wanted=0):
    """Peak memory of a run in bytes, as the kernel last showed it before the end, which is to be with a status: of one that lasted
    long enough to be looked at. (What it counts for a child that has ended would include this process, of which the child is a copy
    until it runs its program.)"""
    most = 0
    while not most:
        child = start(command, source, target)
        while child.poll() is None:
            try:
                with open("/proc/%d/status" % child.pid) as f:
                    most = max([most] + [int(line.split()[1]) * 1024 for line in f if line.startswith("VmHWM")])
            except OSError:
                pass
        if child.returncode != wanted:
            raise SystemExit("%s ended with %d" % (command[0], child.returncode))
    return most


def measure(commands, source, targets, rounds):
    """The least time of each command, taken in turn, and the peak memory of each."""
    least = [min(times) for times in zip(*([seconds(c, source, t) for c, t in zip(commands, targets)] for _ in range(rounds)))]
    return least, [peak(c, source, t) for c, t in zip(commands, targets)]


def rows(program, rounds):
    """The lines that a program prints, each `WORDS NANOSECONDS ANSWER`, with the least time of the rounds."""
    least = {}
    for _ in range(rounds):
        for line in subprocess.run([program], check=True, stdout=subprocess.PIPE, text=True).stdout.splitlines():
            *words, nanoseconds, answer = line.split()
            key = (" ".join(words), answer)
            least[key] = min(least.get(key, int(nanoseconds)), int(nanoseconds))
    return least


def alone(name, rounds):
    """The rows of a program of ours."""
    with tempfile.TemporaryDirectory() as folder:
        return rows(building.ours(name, folder), rounds)


def same(mine, other):
    """Ends the run where the rows of two programs have not the same answers."""
    if mine.keys() != other.keys():
        raise SystemExit("the answers differ: %s and %s" % (mine.keys(), other.keys()))


def beside(name, yardstick, rounds):
    """The rows of a program of ours and of a plain one, which have to give the same answers."""
    with tempfile.TemporaryDirectory() as folder:
        mine, other = rows(building.ours(name, folder), rounds), rows(building.plain(yardstick, folder), rounds)
    same(mine, other)
    return mine, other


def by_count(name, rounds):
    """The rows of a program of ours whose words are a kind and a count: nanoseconds and answers by these."""
    found = {}
    for (key, answer), nanoseconds in alone(name, rounds).items():
        kind, count = key.split()
        found[kind, int(count)] = nanoseconds, int(answer)
    return found


def print_by_count(took, kinds, name="", more="", behind=lambda figures: []):
    """A table in Markdown of figures by kinds and counts, with further columns."""
    counts = sorted({count for _, count in took})
    print("| %s | " % name + " | ".join(["{:,}".format(count) for count in counts] + [more] * bool(more)) + " |")
    print("|---" * (len(counts) + 1 + bool(more)) + "|")
    for kind in kinds:
        figures = [took.get((kind, count)) for count in counts]
        words = ["" if it is None else "{:,.2f}".format(it) for it in figures] + behind(figures)
        print("| %s | %s |" % (kind, " | ".join(words)))
