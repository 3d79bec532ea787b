"""What a secret costs: posts a second of a member with a peer, with --secret and without.

In each round two members run without a secret, and then two with one, and clients post to the first, each post on a new connection.
Told are of each the posts a second, the middle of the rounds, and the processor seconds of both members for a thousand posts. Then
10,000 silences go to a member that holds none, as a pull brings them: how long that takes, from its start until it shows them.
"""

import os
import random
import statistics
import tempfile
import threading
import time

from serve import ask, free_port, ours, posted, wait_for

OPTIONS = {"--rounds": 5, "--seconds": 4.0, "--clients": 4, "--silences": 10_000}


def start(name, port, peer, top, options):
    """A member in a folder of its own, beside a peer."""
    folder = f"{top}/{name}"
    os.mkdir(folder)
    process = ours(folder, port, [peer], name, options=options)
    wait_for(lambda: ask(port, "GET", "/-/healthy"))
    return process


def processor_seconds(process):
    with open(f"/proc/{process.pid}/stat", encoding="ascii") as file:
        words = file.read().rpartition(")")[2].split()
    return (int(words[11]) + int(words[12])) / os.sysconf("SC_CLK_TCK")


def shown(port):
    return (ask(port, "GET", "/api/v2/silences") or b"").count(b'"status":')


def posts(options, seconds, clients):
    """Posts a second, and the processor seconds of both members for a thousand."""
    with tempfile.TemporaryDirectory() as folder:
        a_port, b_port = free_port(), free_port()
        a = start("a", a_port, ("b", b_port), folder, options)
        b = start("b", b_port, ("a", a_port), folder, options)
        counts, end, body = [0] * clients, time.monotonic() + seconds, posted(0)

        def post(place):
            while time.monotonic() < end:
                counts[place] += ask(a_port, "POST", "/api/v2/silences", body) is not None

        threads = [threading.Thread(target=post, args=(place,)) for place in range(clients)]
        for thread in threads:
            thread.start()
        for thread in threads:
            thread.join()
        wait_for(lambda: shown(b_port) == sum(counts))
        spent = processor_seconds(a) + processor_seconds(b)
        a.kill(), b.kill()
        return sum(counts) / seconds, 1000 * spent / max(sum(counts), 1)


def pull(options, count):
    """How long it takes until a member shows what another one holds."""
    with tempfile.TemporaryDirectory() as folder:
        a_port, b_port, body = free_port(), free_port(), posted(0)
        b = start("b", b_port, ("a", a_port), folder, options)
        for _ in range(count):
            ask(b_port, "POST", "/api/v2/silences", body)
        begun = time.monotonic()
        a = start("a", a_port, ("b", b_port), folder, [*options, "--pull-first", "--pull-every", "600"])
        wait_for(lambda: shown(a_port) == count)
        taken = time.monotonic() - begun
        a.kill(), b.kill()
        return taken


def run(given):
    with tempfile.NamedTemporaryFile() as secret:
        secret.write(random.randbytes(32))
        secret.flush()
        arms = {"without": [], "with a secret": ["--secret", secret.name]}
        found = {name: [] for name in arms}
        for _ in range(given.rounds):
            for name, options in arms.items():
                found[name].append(posts(options, given.seconds, given.clients))
        for name, options in arms.items():
            rates, costs = zip(*found[name])
            print(f"{name}: {statistics.median(rates):.0f} posts a second, {statistics.median(costs):.2f} processor seconds a thousand; "
                  f"{given.silences} silences pulled in {pull(options, given.silences):.2f} s", flush=True)
