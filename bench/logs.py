"""What a member with `--log` takes: for posts, for posts beside a save, and for a start over a file and its log.

`posts` is `log` of bench/serve.py: of clients side by side, with a log and without, beside a real Alertmanager where it is there.

`saves`: one client posts for S seconds, 20 by default, to a member that holds N silences, 100,000 by default, and as many
entries, and saves both files every other second. Told are the middle, the 99th part and the most of the milliseconds, of posts
beside which no save goes on, and of the others; how much more the most of these is; and how long saves took, and how many there
were. A save goes on while FILE.new or FILE.log.old stands there, for which another process looks some thousand times a second,
and 20 ms before and behind that, in which versions are counted, and the directory is handed to the disk.

`starts`: seconds from the start of the process to the line that says that it listens, over a file of N silences; over the same
and a log of N others, in any order, of one in each batch, as one client makes them, and of 16; and over a file of all; and how
often the first and the last go into those between. Least of the rounds, 5 by default. Identifiers are random UUIDs of version 4,
as members draw them: those that share their first bytes, as `serve.py` counts them up, make an index compare whole keys.

`--before` adds a column of an earlier am_tool. Measure on a machine that does nothing else.
"""

import bisect
import contextlib
import gc
import multiprocessing
import os
import random
import subprocess
import sys
import tempfile
import time
import uuid

import serve
from lib.wire import block
from serve import ask, beside, free_port, posted, running, silence

PARTS = ["posts", "saves", "starts"]
OPTIONS = {"--before": None, "--only": PARTS, "--silences": 100_000, "--seconds": 20.0, "--every": 2, "--rounds": 5}

# What stands there while a save goes on.
SAVING = [f"{file}.{kind}" for file in ("silences", "nflog") for kind in ("new", "log.old")]

# How many seconds before and behind that count too.
MARGIN = 0.02

# How many versions a batch has.
BATCHES = 1, 16


# ---- posts beside saves


def watch(paths, is_over, sender):
    """Sends from when to when one of some paths was there, to the looks before and after."""
    spans, begun, last = [], None, time.perf_counter()
    while not is_over.is_set():
        is_there, at = any(map(os.path.exists, paths)), time.perf_counter()
        if is_there and begun is None:
            begun = last
        if not is_there and begun is not None:
            spans.append((begun, at))
            begun = None
        last = at
        time.sleep(0.0001)
    sender.send(spans + [(begun, last)] * (begun is not None))


@contextlib.contextmanager
def watched(paths):
    """From when to when one of some paths is there: a list, which is filled at the end."""
    is_over, (receiver, sender) = multiprocessing.Event(), multiprocessing.Pipe(duplex=False)
    watcher = multiprocessing.Process(target=watch, args=(paths, is_over, sender), daemon=True)
    watcher.start()
    spans = []
    yield spans
    is_over.set()
    spans += receiver.recv()
    watcher.join()


def posts_of(port, seconds):
    """When each post of one client began and ended."""
    found, number, end = [], 0, time.perf_counter() + seconds
    gc.disable()
    while time.perf_counter() < end:
        number, body = number + 1, posted(number)
        begun = time.perf_counter()
        if ask(port, "POST", "/api/v2/silences", body) is None:
            sys.exit("a post was not answered")
        found.append((begun, time.perf_counter()))
    gc.enable()
    return found


def overlaps(post, spans):
    """Whether a post overlaps one of these spans, which stand in their order."""
    at = bisect.bisect(spans, (post[1],)) - 1
    return at >= 0 and post[0] <= spans[at][1]


def parts_of(times):
    """The middle, the 99th part and the most, in milliseconds."""
    times = sorted(1000 * (end - begun) for begun, end in times)
    return (times[len(times) // 2], times[len(times) * 99 // 100], times[-1]) if times else None


def beside_saves(start, silences, seconds, every):
    """Posts of a member that saves, beside a save and not."""
    folders = []

    def start_saving(folder, port):
        folders.append(folder)
        return start(folder, port, options=["--log", "--save-every", str(every)])

    with running(start_saving, silences) as port, watched([f"{folders[0]}/{it}" for it in SAVING]) as seen:
        posts = posts_of(port, seconds)
    spans = [(begun - MARGIN, end + MARGIN) for begun, end in seen]
    slow = [it for it in posts if overlaps(it, spans)]
    others = [it for it in posts if not overlaps(it, spans)]
    told = {f"{silences} held, no save: post, ms": parts_of(others), "beside a save: post, ms": parts_of(slow)}
    is_both = bool(slow and others)
    told["the most beside a save is more by, ms"] = (parts_of(slow)[2] - parts_of(others)[2],) if is_both else None
    told["a save takes, ms"] = parts_of(seen)
    told["posts without and beside, saves"] = len(others), len(slow), len(seen)
    return told


# ---- starts


def write(path, pieces):
    """Writes a file, and hands it to the disk."""
    with open(path, "wb") as file:
        file.write(b"".join(pieces))
        file.flush()
        os.fsync(file.fileno())


def log_of(rows, size):
    """A log of rows, so many in a batch."""
    return [block(b"".join(rows[at : at + size])) for at in range(0, len(rows), size)] + [b"\0"]


def make_state(folder, rows, log=()):
    """Makes a folder with a file of these rows, and a log of these pieces if there are some."""
    os.mkdir(folder)
    write(f"{folder}/silences", rows)
    if log:
        write(f"{folder}/silences.log", log)


def make_states(folder, count):
    """Makes a folder for each state over which a start is measured. Answers how many silences each has, by its title."""
    draw, now = random.Random(1), int(time.time())
    keys = [str(uuid.UUID(int=draw.getrandbits(128), version=4)) for _ in range(2 * count)]
    rows = [row for _, row in sorted((key, silence(number, now, key)) for number, key in enumerate(keys))]
    numbers = draw.sample(range(2 * count), 2 * count)
    file, others = [rows[it] for it in sorted(numbers[:count])], [rows[it] for it in numbers[count:]]
    alone, whole = f"a file of {count}", f"a file of {2 * count}"
    make_state(f"{folder}/{alone}", file)
    make_state(f"{folder}/{whole}", rows)
    both = {f"the same and a log of {count}, by {size}": size for size in BATCHES}
    for title, size in both.items():
        make_state(f"{folder}/{title}", file, log_of(others, size))
    return {alone: count, **{title: 2 * count for title in [*both, whole]}}


def start_time(start, state, silences):
    """Seconds until a member listens that starts over a state of so many silences."""
    with tempfile.TemporaryDirectory() as folder:
        for name in os.listdir(state):
            with open(f"{state}/{name}", "rb") as file:
                write(f"{folder}/{name}", [file.read()])
        begun = time.perf_counter()
        process = start(folder, free_port(), options=["--log"], stderr=subprocess.PIPE)
        line = process.stderr.readline().decode()
        took = time.perf_counter() - begun
        process.kill()
        process.communicate()
    if not line.endswith(f"; loaded {silences} silences, 0 entries\n"):
        sys.exit(f"it starts with {line}")
    return took


def starts(start, count, rounds):
    """Starts over a file, with and without a log."""
    with tempfile.TemporaryDirectory() as folder:
        states = make_states(folder, count)
        times = {title: [] for title in states}
        for _ in range(rounds):
            for title, silences in states.items():
                times[title].append(start_time(start, f"{folder}/{title}", silences))
    least = {title: min(found) for title, found in times.items()}
    alone, *logs, whole = least
    told = {f"{title}, s": (took,) for title, took in least.items()}
    for title in logs:
        told[f"{title.split(', ')[1]}: to the file, to all"] = least[title] / least[alone], least[title] / least[whole]
    return told


def run(words):
    def saves_of(start):
        return beside_saves(start, words.silences, words.seconds, words.every)

    def starts_of(start):
        return starts(start, words.silences, words.rounds)

    if "posts" in words.only:
        beside(serve.log, words.before)
    if "saves" in words.only:
        beside(saves_of, words.before, has_other=False)
    if "starts" in words.only:
        beside(starts_of, words.before, has_other=False)
