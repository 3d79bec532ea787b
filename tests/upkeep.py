#!/usr/bin/env python3
"""Runs members of the built am_tool, and looks at what they do by themselves, and at many connections at once.

    tests/upkeep.py [PROGRAM]

PROGRAM is crates/am_tool/out/am_tool if it isn't given. Members tick, pull and save by themselves, pull before they
answer, stop by a signal and where their input ends, and serve one client beside hundreds that say nothing. What is wanted is
written by hand, from docs/FORMATS.md and docs/MEMBERS.md.
"""

import json
import os
import signal
import socket
import subprocess
import sys
import tempfile
import time

from lib import members
from lib.api import silence
from lib.members import PATIENCE, Member, Stoppable, begun, bytes_of, eventually, free_ports, parted, received, run
from lib.tally import check, compare, finish, try_each
from lib.wire import EMPTY_PUSH, greeting

GET = b"GET /api/v2/silences HTTP/1.1\r\n\r\n"

# The options with a number or a word, and those that each refuses.
NUMBERS = [
    ("--at-once", ("0", "65536", "+1", "x")),
    ("--waiting", ("0", "65536", "-1")),
    ("--most-unfinished", ("0", "18446744073709551616", "1e6")),
    ("--most-bytes", ("0", "4294967296", "1G")),
    ("--lines-a-second", ("0", "65536", "x")),
    ("--tick-every", ("0", "1000000000", "1.5")),
    ("--pull-every", ("0", "1000000000", "")),
    ("--gossip-every", ("0", "1000000000", "")),
    ("--save-every", ("0", "1000000000", "-1")),
    ("--pull-first-limit", ("0", "1000000000", "1s")),
    ("--least-repeat", ("0", "1000000000", " 1")),
    ("--patterns", ("", "RE2", "pcre")),
]


def post(member, value):
    return member.post(silence(value))[0]


def saved(member):
    """The lines of what stands in its file of silences."""
    return run(["show", "--state", "sil", "--now", str(time.time_ns())], input=bytes_of(member.sil) or b"")[1]


def test_words(folder):
    named = ["instance", "--name", "m", "--listen", "1", "--sil", f"{folder}/s", "--nfl", f"{folder}/n", "--peer", "b"]
    for option, values in NUMBERS:
        for value in values:
            status, output, error = run([*named, f"{option}={value}"])
            compare(f"{option} {value}", (status, output, error.split(" for '")[1].split(" ")[0]), (2, b"", option))


def test_times(folder):
    """What is printed of the spread and the flight time: 2 * 5 + 1, and 3 * 60 + 2 * 11 + 1."""
    told = lambda member: eventually(lambda: len(member.lines) > 1, 1) and member.lines[1:]
    keeps = "am_tool: keeps a spread of 203 s and a flight time of 11 s"
    for name, options, wanted in [
        ("n", [], False),
        ("o", ["--pull-every", "60"], [keeps]),
        ("p", ["--pull-every", "60", "--retention", "214", "--least-repeat", "107"], [keeps]),
        (
            "q",
            ["--pull-every", "60", "--retention", "213", "--least-repeat", "106"],
            [keeps, "am_tool: warning: --retention is under 214 s", "am_tool: warning: --least-repeat is under 107 s"],
        ),
        ("r", ["--pull-every", "1", "--time-limit", "1"], ["am_tool: keeps a spread of 10 s and a flight time of 3 s"]),
    ]:
        (port,) = free_ports(1)
        member = begun(Member(name, port, [], folder, options))
        time.sleep(0.3)
        compare(f"times with {options}", told(member), wanted)
        member.kill()


def test_saves(folder):
    (port,) = free_ports(1)
    member = begun(Member("s", port, [], folder, ["--save-every", "1"]))
    compare("a post", post(member, "x"), 200)
    check("it is saved", eventually(lambda: saved(member).endswith(b" active\n")), member.lines)
    before = os.stat(member.sil).st_mtime_ns
    member.listed()
    time.sleep(2.5)
    compare("nothing is saved where nothing changed", os.stat(member.sil).st_mtime_ns, before)
    compare("another post", post(member, "y"), 200)
    check("it is saved too", eventually(lambda: saved(member).count(b"active") == 2), member.lines)
    member.kill()


def mode_of(path):
    """The permissions of a file."""
    return os.stat(path).st_mode & 0o777


def stoppable(name, folder, *options):
    """A member that is told to stop by a signal."""
    return begun(Stoppable(name, free_ports(1)[0], [], folder, options))


def test_log_beside_a_closed_file(folder):
    """What a log has is as secret as its file: it has the permissions of the file, also where it is begun anew."""
    member = stoppable("closed", folder)
    compare("a post", post(member, "db"), 200)
    member.stop()
    os.chmod(member.sil, 0o600)
    for _ in range(2):
        member = stoppable("closed", folder, "--log")
        compare("the permissions of the log", mode_of(f"{member.sil}.log"), 0o600)
        compare("a post into it", post(member, "web"), 200)
        member.stop()
        compare("the permissions of the file", mode_of(member.sil), 0o600)


def test_log_that_is_a_link(folder):
    """A member renames and removes its logs, so a link in the place of one is refused, and what it leads to stays as it was."""
    member = stoppable("linked", folder)
    member.stop()
    other = f"{folder}/other"
    with open(other, "wb") as file:
        file.write(b"kept")
    for name in [".log", ".log.old"]:
        os.symlink(other, f"{member.sil}{name}")
        status, _, error = run([*member.words, "--log"])
        compare(f"the start with a link at {name}", (status, error), (3, "am_tool: Silences NotAFile\n"))
        os.remove(f"{member.sil}{name}")
    compare("what the link leads to", bytes_of(other), b"kept")


def test_ticks(folder):
    (port,) = free_ports(1)
    member = begun(Member("t", port, [], folder, ["--tick-every", "1", "--retention", "1"]))
    compare("a brief silence", member.post(silence("brief", seconds=2))[0], 200)
    check("a Tick saves it", eventually(lambda: os.path.exists(member.sil) and os.stat(member.sil).st_size > 0))
    check("and forgets it later", eventually(lambda: os.stat(member.sil).st_size == 0), member.lines)
    member.kill()


def test_pulls(folder):
    ports = free_ports(2)
    a = begun(Member("a", ports[0], [("b", ports[1])], folder))
    compare("a post before b is there", post(a, "old"), 200)
    b = begun(Member("b", ports[1], [("a", ports[0])], folder, ["--pull-every", "1"]))
    check("b pulls it", eventually(lambda: b.comments() == ["old"]), b.lines)
    b.kill()

    first = begun(Member("b", ports[1], [("a", ports[0])], folder, ["--pull-first"]))
    compare("the first answer has what a has", first.comments(), ["old"])
    first.kill()
    a.kill()

    alone = begun(Member("b", ports[1], [("a", ports[0])], folder, ["--pull-first", "--pull-first-limit", "2", "--time-limit", "20"]))
    start = time.monotonic()
    compare("an answer where no peer is there", alone.listed(), [])
    check("it waited for the limit", 1 < time.monotonic() - start < PATIENCE)
    check("which is told", eventually(lambda: "am_tool: NoPull" in alone.lines), alone.lines)
    alone.kill()


def asked_of(peer, count):
    """The kinds of the first frames of so many connections that come to a peer."""
    kinds = []
    while len(kinds) < count:
        with peer.accept()[0] as stream:
            rest = received(stream)[len(greeting("h")) :]
        kinds += [rest[0]] if rest else []
    return kinds


def answer_to(peer):
    """The kind of the first frame of a connection to a peer that isn't a Push: of those that it was asked by, one may be left."""
    while (kinds := asked_of(peer, 1)) == [2]:
        pass
    return kinds


def test_unanswered_push(folder):
    """A Push isn't answered before the first pull is over. That of one peer of two doesn't end it, as a Pull does."""
    port, nobody = free_ports(2)
    with socket.create_server(("127.0.0.1", 0)) as peer:
        peer.settimeout(PATIENCE)
        peers = [("p", peer.getsockname()[1]), ("q", nobody)]
        member = begun(Member("h", port, peers, folder, ["--pull-first", "--pull-first-limit", "3"]))
        start = time.monotonic()
        member.send(greeting("p") + EMPTY_PUSH)
        compare("it asks, and answers no Push", asked_of(peer, 3), [2, 2, 2])
        compare("a request is answered when it waits no more", member.listed(), [])
        check("which is at the limit", time.monotonic() - start > 2)
        check("and is told", eventually(lambda: "am_tool: NoPull" in member.lines), member.lines)
        member.send(greeting("p") + EMPTY_PUSH)
        compare("then it answers a Push", answer_to(peer), [3])
        member.kill()


def test_first_start(folder):
    """Members that all start at once and pull first wait for nobody else: each has what all had once it answers."""
    ports = dict(zip("abc", free_ports(3)))
    started = []
    for name in ports:
        peers = [(peer, ports[peer]) for peer in ports if peer != name]
        before = begun(Member(name, ports[name], peers, folder, ["--stop-at-input-end"], stdin=subprocess.PIPE))
        compare("a post", post(before, f"of {name}"), 200)
        before.process.stdin.close()
        before.end()
        started.append(Member(name, ports[name], peers, folder, ["--pull-first", "--time-limit", "20"]))
    start = time.monotonic()
    for member in started:
        begun(member)
    for member in started:
        compare(f"the first answer of {member.name}", member.comments(), ["of a", "of b", "of c"])
    check("none waited for the limit", time.monotonic() - start < 20)
    for member in started:
        check("so none tells of it", "am_tool: NoPull" not in member.lines, member.lines)
        member.kill()


def test_stops(folder):
    for name, told in (("u", signal.SIGTERM), ("v", signal.SIGINT)):
        (port,) = free_ports(1)
        member = begun(Stoppable(name, port, [], folder))
        compare("a post", post(member, "kept"), 200)
        member.process.send_signal(told)
        compare(f"{told.name} where it is blocked", member.end(), 0)
        check("both are saved", saved(member).endswith(b" active\n") and os.path.exists(member.nfl))
    (port,) = free_ports(1)
    member = begun(Member("w", port, [], folder))
    member.process.send_signal(signal.SIGTERM)
    compare("SIGTERM where it isn't", member.end(), -signal.SIGTERM)


def test_input(folder):
    (port,) = free_ports(1)
    member = begun(Member("i", port, [], folder, ["--stop-at-input-end"], stdin=subprocess.PIPE))
    compare("a post", post(member, "kept"), 200)
    member.process.stdin.write(b"words that nobody reads\n")
    member.process.stdin.flush()
    compare("it goes on while its input does", member.comments(), ["kept"])
    member.process.stdin.close()
    compare("the end of its input", member.end(), 0)
    check("it is saved", saved(member).endswith(b" active\n"))
    words = ["instance", "--name", "m", "--listen", str(port), "--sil", f"{folder}/j", "--nfl", f"{folder}/k"]
    compare("an input that ended before", run([*words, "--stop-at-input-end"])[0], 0)


def test_stop_under_way(folder):
    """A stop sends what waits, and accepts nothing more."""
    (port,) = free_ports(1)
    member = begun(Stoppable("x", port, [], folder, ["--time-limit", "20"]))
    for value in range(12):
        compare("a large post", member.post(silence(str(value), "c" * 900_000))[0], 200)
    with socket.socket() as stream:
        stream.setsockopt(socket.SOL_SOCKET, socket.SO_RCVBUF, 4096)
        stream.settimeout(PATIENCE)
        stream.connect(("127.0.0.1", port))
        stream.sendall(GET)
        first = stream.recv(1)
        member.process.send_signal(signal.SIGTERM)
        time.sleep(0.5)
        status, body = parted(first + received(stream))
        compare("what was on its way is sent", (status, len(json.loads(body))), (200, 12))
    compare("and then it ends", member.end(), 0)


def test_at_once(folder):
    (port,) = free_ports(1)
    member = begun(Member("y", port, [], folder, ["--at-once", "2", "--time-limit", "600"]))
    connect = lambda: socket.create_connection(("127.0.0.1", port), timeout=PATIENCE)
    with connect() as one, connect() as two:
        for stream, count in ((one, 20), (two, 21)):
            stream.sendall(GET[:count])
            time.sleep(0.3)
        one.sendall(GET[20:22])
        time.sleep(0.3)
        with connect() as three:
            three.sendall(GET)
            compare("a third one is answered", parted(received(three)), (200, b"[]"))
        compare("the one on which nothing moved for longest is let go", received(two), b"")
        check("which is told", eventually(lambda: member.lines[1:] == ["am_tool: Crowded 21"]), member.lines)
        one.sendall(GET[22:])
        compare("and the other one is answered", parted(received(one)), (200, b"[]"))
    member.kill()


def test_silent_clients(folder):
    (port,) = free_ports(1)
    member = begun(Member("z", port, [], folder, ["--time-limit", "600"]))
    streams = [socket.create_connection(("127.0.0.1", port), timeout=PATIENCE) for _ in range(200)]
    for stream in streams[:60]:
        stream.sendall(b"POST /api/v2/silences HTTP/1.1\r\ncontent-length: 100\r\n\r\n{")
    start = time.monotonic()
    for value in range(20):
        compare("a post beside silent ones", post(member, str(value)), 200)
    compare("and a list", len(member.comments()), 20)
    check("none of them waited for those", time.monotonic() - start < 10)
    for stream in streams:
        stream.close()
    member.kill()


def main():
    members.choose("upkeep", sys.argv[1:])
    with tempfile.TemporaryDirectory(prefix="am_upkeep_") as folder:
        tests = [
            test_words,
            test_times,
            test_saves,
            test_log_beside_a_closed_file,
            test_log_that_is_a_link,
            test_ticks,
            test_pulls,
            test_unanswered_push,
            test_first_start,
            test_stops,
            test_input,
            test_stop_under_way,
            test_at_once,
            test_silent_clients,
        ]
        try_each(tests, folder)
    finish("upkeep")


if __name__ == "__main__":
    main()
