#!/usr/bin/env python3
"""Asks servers what they show, by the built am_tool diff: those of this script, which reply as they are told, and a member.

    tests/live_sources.py [PROGRAM]

PROGRAM is crates/am_tool/out/am_tool if it isn't given. What is wanted is written by hand, from docs/FORMATS.md and
docs/MEND.md. The last line says how many passed.
"""

import contextlib
import json
import os
import socket
import sys
import tempfile
import threading
import time

from lib import members
from lib.error_lines import EARLY
from lib.members import Member, free_ports, run, run_at_terminal
from lib.samples import silence_of_job
from lib.tally import check, compare, finish, try_each
from lib.versions import row

# The moment of each comparison, in nanoseconds.
NOW = "50000000000"

# For how many seconds a connection may last where nothing else is wanted.
USUAL_LIMIT = 5

REQUEST = "GET {1}/api/v2/silences HTTP/1.0\r\nHost: {0}\r\nAccept: application/json\r\nConnection: close\r\n\r\n"


def gettable(name, ends="1970-01-01T00:01:40.000Z", updated="1970-01-01T00:00:10.000Z", **others):
    """A silence as API v2 shows it."""
    matchers = [{"isEqual": True, "isRegex": False, "name": "job", "value": "x"}]
    moments = {"startsAt": "1970-01-01T00:00:10.000Z", "endsAt": ends, "updatedAt": updated}
    return {"id": name, "status": {"state": "active"}, "matchers": matchers, **moments, "createdBy": "me", "comment": "c", **others}


def reply_of(body, status="200 OK"):
    return f"HTTP/1.0 {status}\r\nContent-Type: application/json\r\n\r\n{body}".encode()


class Server:
    """A listener that sends each client the same bytes once its request is whole, or so many seconds later, or nothing, and closes."""

    def __init__(self, reply, wait=0):
        self.reply, self.wait, self.asked = reply, wait, []
        self.listener = socket.create_server(("127.0.0.1", 0))
        self.host = f"127.0.0.1:{self.listener.getsockname()[1]}"
        threading.Thread(target=self.serve, daemon=True).start()

    def serve(self):
        while True:
            with contextlib.suppress(OSError):
                stream, _ = self.listener.accept()
                with stream:
                    request = b""
                    while not request.endswith(b"\r\n\r\n"):
                        request += stream.recv(4096)
                    self.asked.append(request.decode())
                    time.sleep(self.wait)
                    if self.reply is None:
                        stream.recv(1)
                    else:
                        stream.sendall(self.reply)


def differ(*sources, words=()):
    status, output, error = run(["diff", "--state", "sil", "--now", NOW, *words, *sources])
    return status, output.decode(), error


def test_lists(folder):
    """What servers and files show is compared by key."""
    one, none = Server(reply_of(json.dumps([gettable("a")]))), Server(reply_of("[]"))
    told = "sil a greatest a active 1970-01-01T00:00:10.000Z 1970-01-01T00:01:40.000Z\nsil a missing b\n"
    compare("one has it", differ(f"a=http://{one.host}", f"b=http://{none.host}/"), (5, told, ""))
    compare("what is asked", one.asked, [REQUEST.format(one.host, "")])
    same = Server(reply_of(json.dumps([gettable("a", unknown=1)])))
    compare("both have it", differ(f"a=http://{one.host}", f"b=http://{same.host}"), (0, "", ""))
    path = f"{folder}/row"
    with open(path, "wb") as file:
        file.write(row("sil", "a job=x 10..100.0009 updated 10.0007 expires 200 by me saying c"))
    compare("a file, cut to milliseconds", differ(f"a=http://{one.host}", f"f={path}"), (0, "", ""))
    later = Server(reply_of(json.dumps([gettable("a", ends="1970-01-01T00:00:40.000Z", updated="1970-01-01T00:00:40.000Z")])))
    ended = "sil a greatest b expired 1970-01-01T00:00:40.000Z 1970-01-01T00:00:40.000Z\n"
    behind = "sil a behind f active 1970-01-01T00:00:10.000Z 1970-01-01T00:01:40.000Z by update\n"
    compare("ended at one", differ(f"f={path}", f"b=http://{later.host}"), (5, ended + behind, ""))
    more = "  matchers job=x\n  author me\n  comment c\n"
    changes = "  changed ends 1970-01-01T00:01:40.000Z to 1970-01-01T00:00:40.000Z\n"
    changes += "  changed updated 1970-01-01T00:00:10.000Z to 1970-01-01T00:00:40.000Z\n"
    told = ended + more + behind + more + changes
    compare("in long lines", differ(f"f={path}", f"b=http://{later.host}", words=["--long"]), (5, told, ""))
    compare("ended, and unknown at the other", differ(f"a=http://{later.host}", f"b=http://{none.host}"), (0, "", ""))
    status, output, _ = differ(f"a=http://{one.host}", f"b=http://{none.host}", words=["--json"])
    groups = [{"sources": ["a"], "relation": "greatest", "silence": gettable("a")}, {"sources": ["b"], "relation": "missing"}]
    compare("in JSON", (status, json.loads(output)), (5, [{"key": {"id": "a"}, "groups": groups}]))


def test_paths(_folder):
    """A server's API may stand below a path."""
    for word, path in (("/alertmanager", "/alertmanager"), ("/a/b%20c/", "/a/b%20c"), ("/", ""), ("", "")):
        one, other = Server(reply_of("[]")), Server(reply_of("[]"))
        found = differ(f"a=http://{one.host}{word}", f"b=http://{other.host}")
        compare(f"a server with the path {word!r}", (found, one.asked), ((0, "", ""), [REQUEST.format(one.host, path)]))


def test_early(_folder):
    """A moment that may have been meant in seconds is told at a terminal, where a server shows what is later."""
    one, none = Server(reply_of(json.dumps([gettable("a")]))), Server(reply_of("[]"))
    words = ["diff", "--state", "sil", "--now", "9", f"a=http://{one.host}", f"b=http://{none.host}"]
    lines = b"sil a greatest a pending 1970-01-01T00:00:10.000Z 1970-01-01T00:01:40.000Z\nsil a missing b\n"
    compare("an early moment", run(words), (5, lines, ""))
    compare("at a terminal", run_at_terminal(words), (5, lines, EARLY.format("1970-01-01T00:00:00.000Z")))


def test_faults(_folder):
    """A server at fault is told by its name, and nothing is printed."""
    well = Server(reply_of("[]"))
    whole = json.dumps([gettable("a")])
    bad = dict(gettable("a"), endsAt="soon")
    for said, reply, status, line in [
        ("another status", reply_of("", "404 Not Found"), 1, "Status 404"),
        ("no HTTP", b"hello\n", 1, "Reply"),
        ("nothing", b"", 1, "Reply"),
        ("a body that is cut", reply_of(whole[:-1]), 1, "BadJson"),
        ("no list", reply_of("{}"), 1, "NoList"),
        ("no silence", reply_of("[1]"), 1, "Silence 0 id"),
        ("a moment that is none", reply_of(json.dumps([gettable("b"), bad])), 1, "Silence 1 endsAt"),
    ]:
        server = Server(reply)
        compare(said, differ(f"b=http://{well.host}", f"a=http://{server.host}"), (status, "", f"am_tool: a {line}\n"))
    silent = Server(None)
    wanted = (3, "", "am_tool: a Read 0\n")
    compare("no reply in time", differ(f"b=http://{well.host}", f"a=http://{silent.host}", words=["--time-limit", "1"]), wanted)
    slow = Server(reply_of("[]"), wait=USUAL_LIMIT + 1)
    compare("a reply in more time", differ(f"b=http://{well.host}", f"a=http://{slow.host}", words=["--time-limit", "600"]), (0, "", ""))
    port = free_ports(1)[0]
    wanted = (3, "", "am_tool: a Connect ConnectionRefused\n")
    compare("nobody there", differ(f"a=http://127.0.0.1:{port}", f"b=http://{well.host}"), wanted)
    compare("nobody at localhost", differ(f"a=http://localhost:{port}", f"b=http://{well.host}"), wanted)


def test_member(folder):
    """A member is a server too."""
    port = free_ports(1)[0]
    member = Member("m", port, [], folder)
    if not member.start():
        return check("a member", False, member.lines)
    body = json.dumps(silence_of_job("live")).encode()
    member.send(f"POST /api/v2/silences HTTP/1.1\r\ncontent-length: {len(body)}\r\n\r\n".encode() + body)
    (shown,) = member.listed()
    status, output, error = run(["diff", "--state", "sil", f"m=http://localhost:{port}", f"none={os.devnull}"])
    lines = [line.split(" ")[:4] for line in output.decode().splitlines()]
    compare("a member", (status, lines, error), (5, [["sil", shown["id"], "greatest", "m"], ["sil", shown["id"], "missing", "none"]], ""))
    member.kill()


def main():
    members.choose("live sources", sys.argv[1:])
    with tempfile.TemporaryDirectory() as folder:
        try_each([test_lists, test_paths, test_early, test_faults, test_member], folder)
    finish("live sources")


if __name__ == "__main__":
    main()
