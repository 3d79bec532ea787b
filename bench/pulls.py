"""What a pull of a running replica takes, beside the replica's own part of it in the same run.

A real Alertmanager, Debian's `prometheus-alertmanager`, holds 10,000 silences and as many entries, and then 100,000 silences. By
turns it is asked for its states by a client that reads the answer and does no more, for all silences by its API, and by
`am_tool pull`. Told are the least milliseconds of the rounds, the ratio to the bare answer, and of a pull its peak memory in MiB.
"""

import contextlib
import socket
import subprocess
import sys
import tempfile
import time

import measuring
import serve
from lib.alertmanagers import ALERTMANAGER

OPTIONS = {"--rounds": 9, "PROGRAM": serve.PROGRAM}

# How many silences and entries are held.
HELD = [(10_000, 10_000), (100_000, 0)]

# Asks for the states, and brings none (memberlist's push/pull).
ASKS = bytes.fromhex("0683a44a6f696ec2a54e6f64657300ac5573657253746174654c656e00")


@contextlib.contextmanager
def replica(folder, silences, entries):
    """A replica that holds so much: its ports for the API and for its gossip."""
    web, own = serve.free_port(), serve.free_port()
    serve.write_state(folder, silences, entries)
    with open(f"{folder}/config.yml", "w", encoding="utf-8") as file:
        file.write(serve.CONFIG)
    words = [ALERTMANAGER, f"--config.file={folder}/config.yml", f"--storage.path={folder}", f"--web.listen-address=127.0.0.1:{web}"]
    words += [f"--cluster.{it}-address=127.0.0.1:{own}" for it in ("listen", "advertise")]
    with subprocess.Popen(words, stdout=subprocess.DEVNULL, stderr=subprocess.DEVNULL) as process:
        try:
            serve.wait_for(lambda: serve.ask(web, "GET", "/api/v2/silences"))
            yield web, own
        finally:
            process.kill()


def answer(port):
    """The bytes of a replica's answer, which nobody looks at."""
    count = 0
    with socket.create_connection(("127.0.0.1", port), timeout=serve.PATIENCE) as stream:
        stream.sendall(ASKS)
        while piece := stream.recv(1 << 18):
            count += len(piece)
    return count


def milliseconds(work):
    begun = time.perf_counter()
    work()
    return 1000 * (time.perf_counter() - begun)


def run(given):
    if not ALERTMANAGER:
        sys.exit("prometheus-alertmanager isn't installed")
    print("| Held | answer | GET, ratio | pull of silences, ratio, MiB | pull of entries, ratio, MiB |\n|---|---|---|---|---|")
    for silences, entries in HELD:
        with tempfile.TemporaryDirectory() as folder, replica(folder, silences, entries) as (web, own):
            pulls = [[given.PROGRAM, "pull", "--state", state, f"gossip://127.0.0.1:{own}"] for state in ("sil", "nfl")]
            works = [lambda: answer(own), lambda: serve.ask(web, "GET", "/api/v2/silences")]
            works += [lambda words=words: subprocess.run(words, check=True, stdout=subprocess.DEVNULL) for words in pulls]
            bare, *others = (min(times) for times in zip(*([milliseconds(it) for it in works] for _ in range(given.rounds))))
            peaks = ["", *(f", {measuring.peak(it, '/dev/null', '/dev/null') / 2**20:.0f}" for it in pulls)]
            cells = [f"{took:.0f}, {took / bare:.2f}{peak}" for took, peak in zip(others, peaks)]
            print(f"| {silences:,} silences, {entries:,} entries | {bare:.0f} | " + " | ".join(cells) + " |", flush=True)
