"""What others wait beside clients and peers who mean no good, of a running member.

PROGRAM is crates/am_tool/out/am_tool if none is given; of several each is measured. GETs of one silence are made one after the
other, each on a new connection, and told is the longest, in milliseconds, and by how much the most memory grew, in MiB: beside
a post of 1 MiB with 19,900 patterns and a list with 200 filters, each of a pattern that takes much; for four seconds behind
8,000 Pushes, and 8,000 Ticks, of a peer to a member that holds 10,000 silences; and for three seconds beside 5,000 clients that
say nothing. What isn't answered in a minute is told as that. Measure on a machine that does nothing else.
"""

import contextlib
import resource
import socket
import sys
import tempfile
import threading
import time

import edges
from lib import members
from lib.api import request
from lib.members import Member, asked, free_ports, parted, received
from lib.wire import EMPTY_PUSH, TICK, greeting

OPTIONS = {"PROGRAM": [members.program]}
SILENT, FRAMES, HELD = 5000, 8000, 10_000


def begun(folder, peers=()):
    member = Member("m", *free_ports(1), peers, folder, ["--time-limit", "60"])
    if not member.start():
        sys.exit(f"it does not start: {member.lines}")
    return member


def longest(member, goes_on):
    """The longest GET while something goes on, in milliseconds."""
    most = 0
    while goes_on():
        start = time.monotonic()
        with contextlib.suppress(OSError):
            member.ask("GET", "/api/v2/silence/none")
        most = max(most, time.monotonic() - start)
    return 1000 * most


def tell(title, member, before, most, beside=""):
    print(f"{title:42} {most:9.1f} ms {edges.peak(member) - before:7.0f} MiB  {beside}", flush=True)


def beside_request(member, title, data):
    replies, before = [], edges.peak(member)

    def ask():
        with contextlib.suppress(OSError), asked(member, data) as stream:
            replies.append(parted(received(stream)))

    asking = threading.Thread(target=ask, daemon=True)
    asking.start()
    most = longest(member, asking.is_alive)
    tell(title, member, before, most, replies[0] if replies else "no reply")


def requests(folder):
    member = begun(folder)
    member.ask("GET", "/api/v2/silences")
    patterns = edges.with_patterns(map(edges.heavy, range(19_900)))
    beside_request(member, "a post with 19,900 patterns", request("POST", "/api/v2/silences", patterns))
    filters = edges.filtered(map(edges.heavy, range(200)))
    beside_request(member, "a list with 200 filters", request("GET", filters))
    member.kill()


def frames(folder):
    taker = edges.Taker()
    member = begun(folder, [("p", taker.port)])
    for number in range(HELD):
        edges.post(member, str(number))
    for title, frame in (("Pushes", EMPTY_PUSH), ("Ticks", TICK)):
        before = edges.peak(member)
        with asked(member, greeting("p") + frame * FRAMES) as stream:
            stream.shutdown(socket.SHUT_WR)
            end = time.monotonic() + 4
            tell(f"{FRAMES} {title}", member, before, longest(member, lambda: time.monotonic() < end))
    member.kill()


def silent(folder):
    member = begun(folder)
    before = edges.peak(member)
    with contextlib.ExitStack() as stack:
        for _ in range(SILENT):
            stack.enter_context(asked(member, b""))
        end = time.monotonic() + 3
        tell(f"{SILENT} silent clients", member, before, longest(member, lambda: time.monotonic() < end))
    member.kill()


def run(given):
    most = resource.getrlimit(resource.RLIMIT_NOFILE)[1]
    resource.setrlimit(resource.RLIMIT_NOFILE, (most, most))
    for program in given.PROGRAM or [members.program]:
        members.choose("hostile", [program])
        print(program)
        for part in (requests, frames, silent):
            with tempfile.TemporaryDirectory() as folder:
                part(folder)
