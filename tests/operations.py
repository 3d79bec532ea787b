#!/usr/bin/env python3
"""Asks members of the built am_tool what tools and people ask of a server, and tries what is installed beside it.

    tests/operations.py [PROGRAM]

PROGRAM is crates/am_tool/out/am_tool if it isn't given. Health, readiness, status, receivers, the page and the figures: bytes,
heads, HEAD, other methods, foreign hosts; readiness while a first pull is waited for; figures that have to move. The text of
the figures is read by a reader that was written from the format's rules, and by promtool where that is there. Alerting rules,
the units, the completions, `am_tool install` and `am_tool package` are tried too. What is wanted is written by hand, from
docs/FORMATS.md and docs/MEMBERS.md. What can't be tried here for want of a tool is told in a line.
"""

import datetime
import json
import os
import re
import resource
import shutil
import signal
import socket
import struct
import subprocess
import sys
import tempfile
import time

import page_source
from lib import members, versions
from lib.api import request, silence
from lib.members import TOP, Member, Stoppable, begun, eventually, free_ports, outcome, run
from lib.tally import check, compare, finish, skip, try_each
from lib.wire import EMPTY_PUSH, PUSH, TICK, delimited, delta, greeting, varint

PATHS = ["/", "/-/healthy", "/-/ready", "/api/v2/status", "/api/v2/receivers", "/metrics"]

FIELDS = {
    "/-/healthy": "content-type: text/plain; charset=utf-8\r\n",
    "/-/ready": "content-type: text/plain; charset=utf-8\r\n",
    "/api/v2/status": "content-type: application/json\r\n",
    "/api/v2/receivers": "content-type: application/json\r\n",
    "/metrics": "content-type: text/plain; version=0.0.4; charset=utf-8\r\n",
}

UNITS = ["am-member@.service", "am-pager@.service", "am-members-upgrade.service"]


def raw(member, method, path, *fields):
    """The head and the body of a reply, as they came."""
    lines = "".join(f"{it}\r\n" for it in (f"{method} {path} HTTP/1.1", "host: localhost", *fields, ""))
    head, end, body = member.send(lines.encode(), close=False).partition(b"\r\n\r\n")
    return (head + end).decode(), body


def head_of(path, length):
    fields = page_source.fields(page_source.HTML.read_text()) if path == "/" else FIELDS[path]
    return f"HTTP/1.1 200 OK\r\n{fields}content-length: {length}\r\nconnection: close\r\n\r\n"


def refused(status, text, *fields):
    body = json.dumps(text).encode()
    lines = [f"HTTP/1.1 {status}", "content-type: application/json", f"content-length: {len(body)}", *fields, "connection: close"]
    return "".join(f"{it}\r\n" for it in (*lines, "")), body


# ---- the text format 0.0.4: lines of `# HELP NAME TEXT`, `# TYPE NAME KIND` and `NAME{LABEL="VALUE",..} NUMBER`

NAME = r"[a-zA-Z_:][a-zA-Z0-9_:]*"
LABEL = r'([a-zA-Z_][a-zA-Z0-9_]*)="((?:[^"\\\n]|\\\\|\\"|\\n)*)"'
LABELS = rf"\{{{LABEL}(?:,{LABEL})*\}}"
SAMPLE = re.compile(rf"({NAME})((?:\{{[^\n]*\}})?) ([0-9]+(?:\.[0-9]+)?)")
HELP = re.compile(rf"# HELP ({NAME}) ((?:[^\\\n]|\\\\|\\n)+)")
TYPE = re.compile(rf"# TYPE ({NAME}) (counter|gauge|histogram)")


class Figures:
    """A text of figures, read strictly: each family once, its two lines first, each figure once, and histograms whole."""

    def __init__(self, text):
        self.kinds, self.helps, self.samples, self.families = {}, {}, {}, {}
        family = None
        assert text.endswith("\n"), "the last line has no end"
        for line in text[:-1].split("\n"):
            if found := HELP.fullmatch(line):
                family = found[1]
                assert family not in self.helps, f"{family} comes twice"
                self.helps[family] = found[2]
            elif found := TYPE.fullmatch(line):
                assert found[1] == family and family not in self.kinds, line
                self.kinds[family] = found[2]
            else:
                self.take(family, line)
        for name, kind in self.kinds.items():
            if kind == "histogram":
                self.look_at_histogram(name)

    def take(self, family, line):
        found = SAMPLE.fullmatch(line)
        assert found, f"no line of the format: {line}"
        name, braces, number = found.groups()
        suffixes = ["_bucket", "_sum", "_count"] if self.kinds[family] == "histogram" else [""]
        assert name in [family + it for it in suffixes], f"{line} below {family}"
        assert not braces or re.fullmatch(LABELS, braces), line
        labels = tuple(re.findall(LABEL, braces))
        assert len(dict(labels)) == len(labels), f"a label comes twice: {line}"
        key = (name, frozenset(labels))
        assert key not in self.samples, f"twice: {line}"
        self.samples[key] = float(number)
        self.families.setdefault(family, []).append(key)

    def look_at_histogram(self, name):
        """Buckets grow with their bounds, and the last one, without a bound, is the count."""
        rows = {}
        for key in self.families[name]:
            labels = dict(key[1])
            if key[0] == f"{name}_bucket":
                rows.setdefault(frozenset(set(labels.items()) - {("le", labels["le"])}), []).append((labels["le"], self.samples[key]))
        for labels, row in rows.items():
            bounds = [float(it) for it, _ in row]
            counts = [it for _, it in row]
            assert bounds == sorted(set(bounds)) and row[-1][0] == "+Inf", row
            assert counts == sorted(counts) and counts[-1] == self.samples[f"{name}_count", labels], row
            assert (f"{name}_sum", labels) in self.samples, labels

    def get(self, name, **labels):
        return self.samples.get((name, frozenset(labels.items())))


def figures(member):
    head, body = raw(member, "GET", "/metrics")
    assert head.startswith("HTTP/1.1 200 "), head
    return Figures(body.decode())


def documented():
    """The families that docs/FORMATS.md names."""
    text = open(f"{TOP}/docs/FORMATS.md").read()
    table = text.partition("\nFamily | ")[2].partition("\n\n")[0]
    return sorted(re.findall(r"^`([a-z_]+)[`{]", table, re.M))


# ---- the calls


def test_calls(folder):
    """The bytes of each call, its head alone for HEAD, and 405 for others."""
    port, peer = free_ports(2)
    member = Member("a", port, [("b", peer)], folder)
    check("it starts", member.start())
    bodies = {"/-/healthy": b"OK", "/-/ready": b"OK", "/api/v2/receivers": b"[]", "/": page_source.HTML.read_bytes()}
    for path in PATHS:
        head, body = raw(member, "GET", path)
        compare(f"the head of {path}", head, head_of(path, len(body)))
        if path in bodies:
            compare(f"the body of {path}", body, bodies[path])
        if path != "/metrics":
            compare(f"HEAD {path}", raw(member, "HEAD", path), (head, b""))
        compare(f"{path}?a=b", raw(member, "GET", f"{path}?a=b")[0].split("\r\n")[0], "HTTP/1.1 200 OK")
        for method in ("POST", "PUT", "DELETE", "OPTIONS", "get", "X"):
            wanted = refused("405 Method Not Allowed", "method not allowed", "allow: GET, HEAD")
            compare(f"{method} {path}", raw(member, method, path), wanted)
        wanted = refused("403 Forbidden", "foreign origin")
        compare(f"{path} of a foreign page", raw(member, "GET", path, "origin: http://example.org"), wanted)
    head, body = raw(member, "HEAD", "/metrics")
    compare("HEAD /metrics", (head.split("\r\n")[:2], body), (["HTTP/1.1 200 OK", FIELDS["/metrics"].strip()], b""))
    for path in ("//", "/-/healthy/", "/-/", "/metric", "/metrics/", "/api/v2/statuses", "/api/v2/receivers/", "/index.html"):
        compare(path, raw(member, "GET", path), refused("404 Not Found", "no such path"))
    for path in [*PATHS, "/api/v2/silences", "/v1/log", "/none"]:
        head, _ = raw(member, "GET", path, "origin: http://localhost:3000")
        check(f"{path} has no field of CORS", "access-control" not in head.lower(), head)
    member.kill()


def test_page():
    """The constant of the page is the file."""
    check("page.rt has what page.html has: tests/page_source.py --write", page_source.is_same())


def test_status(folder):
    """The status, key by key."""
    port, peer, other = free_ports(3)
    begun = time.time()
    options = ["--host", "am.example", "--tick-every", "60", "--log", "--retention", "3600"]
    member = Member("a", port, [("b", peer), ('c"\\', other)], folder, options)
    member.start()
    _, body = raw(member, "GET", "/api/v2/status")
    found = json.loads(body)
    start = datetime.datetime.strptime(found["uptime"], "%Y-%m-%dT%H:%M:%S.%fZ").replace(tzinfo=datetime.timezone.utc)
    check("uptime is the moment of the start", begun - 1 < start.timestamp() < time.time() + 1, found["uptime"])
    version = run(["--version"])[1].decode().split()[-1]
    peers = [("a", port), ("b", peer), ('c"\\', other)]
    wanted = {
        "alertmanagers": [],
        "cluster": {
            "name": "a", "status": "ready",
            "peers": [{"address": f"127.0.0.1:{at}", "name": name} for name, at in peers],
        },
        "config": {"original": found["config"]["original"]},
        "uptime": found["uptime"],
        "versionInfo": {
            "branch": "", "buildDate": "", "buildUser": "", "goVersion": "", "revision": "", "version": version,
        },
    }  # fmt: skip
    compare("the status", found, wanted)
    compare("it is compact, with the keys in order", body, json.dumps(wanted, separators=(",", ":"), sort_keys=True).encode())
    lines = found["config"]["original"].split("\n")
    compare("the options", lines, [
        "--name a", f"--listen {port}", f"--peer b={peer}", f'--peer c"\\={other}', "--patterns regex", "--host am.example",
        f"--sil {member.sil}", f"--nfl {member.nfl}", "--retention 3600", "--peer-timeout 15", "--time-limit 5",
        "--decide-limit 10",
        "--at-once 256", "--waiting 128", "--most-unfinished 134217728", "--most-bytes 1073741824", "--lines-a-second 10",
        "--tick-every 60", "--gossip-every 60", "--log", "--pull-first-limit 30", "",
    ])  # fmt: skip
    if shutil.which("amtool"):
        url = f"--alertmanager.url=http://127.0.0.1:{port}"
        _, output, _ = outcome(["amtool", "-o", "extended", url, "cluster", "show"])
        check("amtool cluster show", b"Cluster Status:  ready" in output and f"127.0.0.1:{peer}".encode() in output, output)
        _, output, _ = outcome(["amtool", url, "config", "show"])
        check("amtool config show", f"--listen {port}".encode() in output, output)
    else:
        skip("cluster show, config show: amtool is not there")
    member.kill()


def test_first_pull(folder):
    """What a member says while it waits for its first pull, and when a peer has answered."""
    ports = dict(zip("ab", free_ports(2)))
    member = Member("a", ports["a"], [("b", ports["b"])], folder, ["--pull-first", "--pull-first-limit", "60"])
    with open(member.sil, "wb") as file:
        file.write(b"".join(delimited(versions.silence(f"{at:05} job=x 10..5000000000 updated 10 expires 6000000000")) for at in range(9000)))
    member.start()
    compare("it isn't ready", raw(member, "GET", "/-/ready"), refused("503 Service Unavailable", "not ready"))
    head, body = refused("503 Service Unavailable", "not ready")
    compare("nor is it for HEAD", raw(member, "HEAD", "/-/ready"), (head, b""))
    compare("it is healthy", raw(member, "GET", "/-/healthy")[1], b"OK")
    compare("it has a page", raw(member, "GET", "/")[0].split("\r\n")[0], "HTTP/1.1 200 OK")
    compare("it settles", json.loads(raw(member, "GET", "/api/v2/status")[1])["cluster"]["status"], "settling")
    found = figures(member)
    compare("maityrunga_ready", found.get("maityrunga_ready"), 0)
    compare("silences are counted while it waits", found.get("alertmanager_silences", state="active"), 9000)
    ready = subprocess.Popen([f"{TOP}/install/am_member_ready", str(ports["a"])], stderr=subprocess.DEVNULL)
    time.sleep(0.3)
    compare("am_member_ready waits", ready.poll(), None)
    other = Member("b", ports["b"], [("a", ports["a"])], folder)
    other.start()
    compare("am_member_ready is done", ready.wait(members.PATIENCE), 0)
    compare("it is ready", raw(member, "GET", "/-/ready")[1], b"OK")
    compare("maityrunga_ready then", figures(member).get("maityrunga_ready"), 1)
    other.kill()
    member.kill()
    compare("am_member_ready gives up", outcome([f"{TOP}/install/am_member_ready", str(ports["a"]), "1"])[0], 1)
    compare("am_member_ready without words", outcome([f"{TOP}/install/am_member_ready"])[0], 2)


def test_stop(folder):
    """Once it is told to stop nobody is told that it is ready."""
    (port,) = free_ports(1)
    member = begun(Stoppable("a", port, [], folder))
    compare("it is ready", raw(member, "GET", "/-/ready")[1], b"OK")
    member.process.send_signal(signal.SIGTERM)
    compare("it ends", member.end(), 0)
    compare("am_member_ready sees that", outcome([f"{TOP}/install/am_member_ready", str(port), "1"])[0], 1)


# ---- figures


def test_text(folder):
    """The text of the figures, by the format's rules, and its families as the document has them."""
    ports = free_ports(2)
    name = 'b"\\x'
    member = Member("a", ports[0], [(name, ports[1])], folder)
    member.start()
    _, body = raw(member, "GET", "/metrics")
    found = Figures(body.decode())
    compare("the families", sorted(found.kinds), documented())
    check("the name of a peer is escaped", b'{peer="b\\"\\\\x"} ' in body)
    compare("members", found.get("alertmanager_cluster_members"), 2)
    version = run(["--version"])[1].decode().split()[-1]
    compare("the version", found.get("alertmanager_build_info", version=version), 1)
    start = found.get("process_start_time_seconds")
    check("the start", abs(start - time.time()) < members.PATIENCE, start)
    system = of_system(member.process.pid)
    wanted = {name: (value, found.get(name)) for name, value in system.items() if not is_near(found.get(name), value)}
    compare("what the system says of the process, and what is told", wanted, {})
    check("bounded", len(body) < 100_000, len(body))
    if shutil.which("promtool"):
        ran = subprocess.run(["promtool", "check", "metrics"], input=body, capture_output=True)
        compare("promtool check metrics", (ran.returncode, ran.stdout, ran.stderr), (0, b"", b""))
    else:
        skip("check metrics: promtool is not there")
    member.kill()


def of_system(process):
    """The figures of a process, as the system has them."""
    with open(f"/proc/{process}/statm", encoding="ascii") as file:
        pages = int(file.read().split()[1])
    return {"process_resident_memory_bytes": pages * os.sysconf("SC_PAGESIZE"), "process_open_fds": len(os.listdir(f"/proc/{process}/fd"))}


def is_near(found, wanted):
    """Whether a figure is within a tenth of what is wanted, or one more or less, as that of a connection that is closed."""
    return abs(found - wanted) <= max(1, wanted / 10)


class Counted(Member):
    """A member that knows over how many connections it was asked, and over how many for its figures."""

    connections, looks = 0, 0

    def send(self, *pieces, **how):
        self.connections += 1
        self.looks += pieces[0].startswith(b"GET /metrics ")
        return super().send(*pieces, **how)


def nonzero(found, family):
    """The figures of a family that aren't 0, by the words of their labels."""
    of_family = {key: value for key, value in found.samples.items() if key[0] == family and value}
    return {" ".join(word for _, word in sorted(labels)): value for (_, labels), value in of_family.items()}


def compare_families(found, wanted):
    """Compares families with what their figures are to be that aren't 0."""
    for family, figures_of_it in wanted.items():
        compare(family, nonzero(found, family), figures_of_it)


def test_counts(folder):
    """Figures that have to move, and none that an asker makes."""
    begun_at, (port, peer) = time.monotonic(), free_ports(2)
    member = Counted("a", port, [("b", peer)], folder)
    member.start()
    before = figures(member)
    compare("three posts", [member.post(silence(f"v{at}"))[0] for at in range(3)], [200] * 3)
    compare("a bad post", member.ask("POST", "/api/v2/silences", b"{")[0], 400)
    member.ask("GET", "/api/v2/silences")
    for path in ("/none", "/other?x=1", "/api/v2/silence/x/y"):
        member.ask("GET", path)
    member.send(b"no request\r\n\r\n")
    raw(member, "GET", "/api/v2/silences", "origin: http://example.org")
    message = {
        "version": "4", "groupKey": "g", "receiver": "r", "status": "firing",
        "alerts": [{"status": "firing", "labels": {"job": "none", "reason": "Repeat"}}],
    }  # fmt: skip
    body = json.dumps(message).encode()
    compare("a decision", member.ask("POST", "/v1/decide?wait=false", body)[0], 200)
    muted = json.dumps({**message, "alerts": [{"status": "firing", "labels": {"job": "v1", "reason": "First"}}]}).encode()
    compare("a decision on what is muted", member.ask("POST", "/v1/decide?wait=false", muted)[0], 200)
    all_lost = lambda it: it.get("maityrunga_frames_lost_total", peer="b", cause="connect") == 3
    found = eventually(lambda: all_lost(it := figures(member)) and it) or figures(member)
    compare("labels", found.samples.keys() - before.samples.keys(), set())
    compare("connections accepted", found.get("maityrunga_connections_accepted_total"), member.connections)
    looks = member.looks - 1
    compare_families(found, {
        "maityrunga_http_requests_total": {
            "post 200": 3, "post 400": 1, "list 200": 1, "other 404": 3, "other 400": 1, "other 403": 1, "decide 200": 2,
            "metrics 200": looks,
        },
        "alertmanager_silences": {"active": 3},
        "alertmanager_cluster_messages_sent_total": {"update": 3},
        "maityrunga_steps_total": {"post": 3, "list": 1, "mutes": 2, "decide": 1},
        "maityrunga_decisions_total": {"First": 1, "Muted": 1},
        "maityrunga_http_request_duration_seconds_count": {"post": 4, "list": 1, "other": 5, "decide": 2, "metrics": looks},
        "maityrunga_frames_sent_total": {"b": 3},
        "maityrunga_frames_lost_total": {"connect b": 3},
        "maityrunga_peer_last_heard_timestamp_seconds": {},
    })  # fmt: skip
    seconds, passed = nonzero(found, "maityrunga_http_request_duration_seconds_sum"), time.monotonic() - begun_at
    check("requests took time", sorted(seconds) == ["decide", "list", "metrics", "other", "post"] and sum(seconds.values()) < passed, (seconds, passed))
    member.send(greeting("b"))
    member.send(greeting("b") + b"\xff")
    all_came = lambda it: it.get("maityrunga_connections_accepted_total") == member.connections
    found = eventually(lambda: all_came(it := figures(member)) and it) or figures(member)
    compare("a greeting alone isn't heard, nor a frame that is none", found.get("maityrunga_peer_last_heard_timestamp_seconds", peer="b"), 0)
    version = versions.silence("z job=z 10..5000000000 updated 10 expires 6000000000")
    member.send(greeting("b") + delta("sil", version) + EMPTY_PUSH + TICK)
    all_done = lambda it: it.get("maityrunga_frames_taken_total", peer="b") == 3 and it.get("maityrunga_steps_total", event="tick") == 1
    found = eventually(lambda: all_done(it := figures(member)) and it) or figures(member)
    heard = found.get("maityrunga_peer_last_heard_timestamp_seconds", peer="b")
    check("b was heard now", abs(heard - time.time()) < members.PATIENCE, heard)
    compare_families(found, {
        "alertmanager_cluster_messages_received_total": {"update": 1, "full_state": 1, "tick": 1},
        "maityrunga_frames_taken_total": {"b": 3},
        "maityrunga_steps_total": {"post": 3, "list": 1, "mutes": 2, "decide": 1, "delta": 1, "state": 1, "tick": 1},
    })  # fmt: skip
    check("one connection is open", eventually(lambda: figures(member).get("maityrunga_connections") == 1), figures(member).get("maityrunga_connections"))
    with members.asked(member, b""), members.asked(member, b""):
        check("three are open", eventually(lambda: figures(member).get("maityrunga_connections") == 3), figures(member).get("maityrunga_connections"))
    member.kill()


def reset(stream):
    """Ends a connection as one does that something is wrong with."""
    stream.setsockopt(socket.SOL_SOCKET, socket.SO_LINGER, struct.pack("ii", 1, 0))
    stream.close()


def test_links(folder):
    """What goes to a peer that takes it, the whole state too, is sent, and not lost."""
    (port,) = free_ports(1)
    with members.silent_peer() as peer:
        member = begun(Member("a", port, [("b", peer.getsockname()[1])], folder))
        compare("a post", member.post(silence("x"))[0], 200)
        member.send(greeting("b") + EMPTY_PUSH)
        both = lambda it: it.get("maityrunga_frames_sent_total", peer="b") == 2
        compare_families(eventually(lambda: both(it := figures(member)) and it) or figures(member), {
            "alertmanager_cluster_messages_sent_total": {"update": 1, "full_state": 1},
            "alertmanager_cluster_messages_received_total": {"full_state": 1},
            "maityrunga_frames_sent_total": {"b": 2},
            "maityrunga_frames_lost_total": {},
            "maityrunga_frames_unsent_total": {},
        })  # fmt: skip
        member.kill()


def narrow_peer():
    """A listener into whose connections little goes that nobody reads."""
    listener = socket.socket()
    listener.setsockopt(socket.SOL_SOCKET, socket.SO_RCVBUF, 4096)
    listener.bind(("127.0.0.1", 0))
    listener.listen()
    listener.settimeout(members.PATIENCE)
    return listener


def test_lost(folder):
    """What a peer doesn't read within the time limit is lost, and so is what one has not read that breaks the connection."""
    (port,) = free_ports(1)
    version = lambda key: versions.silence(f"{key} job=x 10..5000000000 updated 10 expires 6000000000 by me saying {'c' * 900_000}")
    with narrow_peer() as mute, narrow_peer() as broken:
        peers = [("b", mute.getsockname()[1]), ("c", broken.getsockname()[1])]
        member = Member("a", port, peers, folder, ["--time-limit", "3", *members.ALL_LINES])
        members.write(member.sil, b"".join(delimited(version(f"k{it}")) for it in range(12)))
        begun(member)
        for name in "bc":
            member.send(greeting(name) + EMPTY_PUSH)
        stream, _ = broken.accept()
        stream.recv(1)
        reset(stream)
        wanted, family = {"time b": 1, "write c": 1}, "maityrunga_frames_lost_total"
        lost = eventually(lambda: nonzero(figures(member), family) == wanted)
        check("a frame is lost to each", lost, (nonzero(figures(member), family), member.lines))
        compare("which is told", sum(it.startswith("am_tool: Send Write ") for it in member.lines), 2)
        member.kill()


def test_unsent(folder):
    """A version that is too large for a frame, as one of a file may be, goes to no peer, and is counted."""
    port, peer = free_ports(2)
    member = Member("a", port, [("b", peer)], folder, ["--time-limit", "60"])
    words = "k job=x 10..5000000000 updated 10 expires 6000000000 by me saying "
    # (a Delta has at most 4 MiB)
    members.write(member.sil, delimited(versions.silence(words + "c" * 4_194_304)))
    begun(member)
    compare("it is ended", member.ask("DELETE", "/api/v2/silence/k"), (200, b""))
    compare_families(figures(member), {
        "maityrunga_steps_total": {"delete": 1},
        "maityrunga_frames_unsent_total": {"limit": 1},
        "maityrunga_frames_sent_total": {},
    })  # fmt: skip
    compare("which is told", eventually(lambda: member.lines[1:]), ["am_tool: Unsent Limit 1"])
    member.kill()


def test_broken(folder):
    """Connections that break are counted by their cause, and those that the system refuses."""
    port, peer = free_ports(2)
    options = ["--time-limit", "60", "--peer-timeout", "600", "--at-once", "4", "--most-unfinished", "1000000", *members.ALL_LINES]
    member = begun(Member("b", port, [("a", peer)], folder, options))
    wanted, family = {}, "maityrunga_connections_broken_total"

    def so_many(cause, number):
        wanted[cause] = number
        found = eventually(lambda: nonzero(figures(member), family) == wanted, 20)
        check(f"{number} by {cause}", found, (nonzero(figures(member), family), wanted))

    waits = members.asked(member, request("POST", "/v1/decide", group("later")))
    check("it waits", eventually(lambda: figures(member).get("maityrunga_requests_waiting") == 1))
    reset(waits)
    so_many("read", 1)
    large = [members.asked(member, greeting("a") + bytes([PUSH]) + varint(10_000_000) + bytes(size)) for size in (600_000, 500_000)]
    so_many("unfinished", 1)
    for stream in large:
        stream.close()
    silent = [members.asked(member, b"") for _ in range(6)]
    # (of the last four one gave its place to the question)
    so_many("crowded", 3)
    for stream in silent:
        stream.close()
    compare("large posts", [member.post(silence(str(it), "c" * 900_000))[0] for it in range(8)], [200] * 8)
    unread = socket.socket()
    unread.setsockopt(socket.SOL_SOCKET, socket.SO_RCVBUF, 4096)
    unread.connect(("127.0.0.1", port))
    unread.sendall(b"GET /api/v2/silences HTTP/1.1\r\n\r\n")
    unread.recv(1)
    reset(unread)
    so_many("write", 1)
    try_refused(member)
    member.kill()


def try_refused(member):
    """Has the system refuse a member a connection, for want of descriptors."""
    _, most = resource.prlimit(member.process.pid, resource.RLIMIT_NOFILE)
    check("all is closed", eventually(lambda: figures(member).get("maityrunga_connections") == 1))
    compare("none is refused yet", figures(member).get("maityrunga_accepts_failed_total"), 0)
    resource.prlimit(member.process.pid, resource.RLIMIT_NOFILE, (len(os.listdir(f"/proc/{member.process.pid}/fd")), most))
    with members.asked(member, b"") as stream:
        told = lambda: sum(it.startswith("am_tool: Accept ") for it in member.lines)
        check("a refusal is told", eventually(told), member.lines[-3:])
        resource.prlimit(member.process.pid, resource.RLIMIT_NOFILE, (most, most))
        stream.settimeout(members.PATIENCE)
    same = lambda: figures(member).get("maityrunga_accepts_failed_total") == told()
    check("each is counted", eventually(same), (figures(member).get("maityrunga_accepts_failed_total"), told()))


def group(key):
    """The body of a message of a group with one alert."""
    alert = {"status": "firing", "labels": {"alertname": key}}
    return json.dumps({"version": "4", "groupKey": key, "receiver": "r", "status": "firing", "alerts": [alert]}).encode()


def test_driven(folder):
    """Figures that are driven to a known value."""
    peer, port = free_ports(2)
    member = Member("b", port, [("a", peer)], folder, ["--time-limit", "1", "--peer-timeout", "600"])
    entries = [versions.entry(f"g{it}:x r/webhook/0 updated 10 expires 6000000000 firing 1") for it in range(5)]
    members.write(member.nfl, b"".join(map(delimited, entries)))
    member.start()
    compare("entries of the file", figures(member).get("maityrunga_log_entries"), 5)
    _, answer = member.ask("POST", "/v1/decide?wait=false", group("one"))
    compare("a notice", member.ask("POST", "/v1/notified", answer)[0], 200)
    compare("and its entry", figures(member).get("maityrunga_log_entries"), 6)
    waiting = []
    for count in (1, 2):
        # (whose turn comes after ten minutes, as this member is the second one)
        waiting.append(members.asked(member, request("POST", "/v1/decide", group(f"later {count}"))))
        found = eventually(lambda: figures(member).get("maityrunga_requests_waiting") == count)
        check(f"{count} wait for their turn", found, figures(member).get("maityrunga_requests_waiting"))
    for count in (1, 2):
        members.received(members.asked(member, b""))
        found = eventually(lambda: figures(member).get("maityrunga_connections_broken_total", cause="time") == count)
        check(f"{count} said nothing in time", found, member.lines)
    for cause in ("read", "write", "crowded", "unfinished"):
        compare(f"no other cause: {cause}", figures(member).get("maityrunga_connections_broken_total", cause=cause), 0)
    for _ in range(2_000):
        if processor_seconds(member.process.pid) >= 0.05:
            break
        member.listed()
    spent, found = processor_seconds(member.process.pid), figures(member).get("process_cpu_seconds_total")
    check("the processor's time is the system's", 0 < spent <= found + 0.02 and found <= processor_seconds(member.process.pid) + 0.02, (spent, found))
    member.kill()


def processor_seconds(process):
    """How long a process has had the processor, as the system counts it."""
    with open(f"/proc/{process}/stat", encoding="ascii") as file:
        words = file.read().rpartition(")")[2].split()
    return (int(words[11]) + int(words[12])) / os.sysconf("SC_CLK_TCK")


def test_saves(folder):
    """Saves that are done, and saves that fail."""
    port, peer = free_ports(2)
    os.mkdir(f"{folder}/there")
    member = Member("a", port, [("b", peer)], f"{folder}/there", members.ALL_LINES)
    member.start()
    compare("nothing is saved yet", nonzero(figures(member), "maityrunga_saves_total"), {})
    compare("a post", member.post(silence("x"))[0], 200)
    begun_at = time.monotonic()
    member.send(greeting("b") + TICK)
    is_saved = lambda it: it.get("maityrunga_saves_total", state="nfl")
    found = eventually(lambda: is_saved(it := figures(member)) and it) or figures(member)
    passed = time.monotonic() - begun_at
    compare_families(found, {
        "maityrunga_saves_total": {"sil": 1, "nfl": 1},
        "maityrunga_saves_failed_total": {},
        "maityrunga_steps_total": {"post": 1, "tick": 1},
    })  # fmt: skip
    for state in ("sil", "nfl"):
        done = found.get("maityrunga_last_save_timestamp_seconds", state=state)
        check(f"a save of {state} is done", abs(done - time.time()) < members.PATIENCE, done)
        took = found.get("maityrunga_last_save_duration_seconds", state=state)
        check(f"that of {state} took a while", 0 < took < passed, (took, passed))
    os.rename(f"{folder}/there", f"{folder}/gone")
    compare("another post", member.post(silence("y"))[0], 200)
    time.sleep(1.1)
    member.send(greeting("b") + TICK)
    failures = lambda: sum(it.startswith("am_tool: Silences File NotFound") for it in member.lines)
    check("a save that fails is told", eventually(failures), member.lines)
    compare("and counted", figures(member).get("maityrunga_saves_failed_total", state="sil"), failures())
    compare("it is none that is done", figures(member).get("maityrunga_saves_total", state="sil"), 1)
    member.kill()


def test_log(folder):
    """Saves of a member with a log are stages of its loop, and are counted once done."""
    (port,) = free_ports(1)
    member = Member("a", port, [], folder, ["--log", "--save-every", "1"])
    member.start()
    member.post(silence("x"))
    both = lambda it: all(it.get("maityrunga_saves_total", state=state) for state in ("sil", "nfl"))
    check("both are saved", eventually(lambda: both(figures(member))))
    member.kill()


def test_many(folder):
    """Silences are counted by their states, a stretch at a time."""
    (port,) = free_ports(1)
    member = Member("a", port, [], folder)
    spans = [("10..5000000000", 20_000), ("4000000000..5000000000", 300), ("10..20", 40)]
    rows, at = [], 0
    for span, count in spans:
        for _ in range(count):
            rows.append(delimited(versions.silence(f"{at:06} job=x {span} updated 10 expires 6000000000")))
            at += 1
    with open(member.sil, "wb") as file:
        file.write(b"".join(rows))
    member.start()
    found = figures(member)
    counts = [found.get("alertmanager_silences", state=state) for state in ("active", "pending", "expired")]
    compare("silences", counts, [20_000, 300, 40])
    member.kill()


# ---- what is installed


def test_rules(_folder):
    if not shutil.which("promtool"):
        skip("alerting rules: promtool is not there")
        return
    place = f"{TOP}/install"
    status, output, _ = outcome(["promtool", "check", "rules", "alerts.yml"], cwd=place)
    check("promtool check rules", status == 0 and b"SUCCESS" in output, output)
    status, output, _ = outcome(["promtool", "test", "rules", "alerts_test.yml"], cwd=place)
    check("promtool test rules", status == 0, output)
    names = set(re.findall(r"\b(maityrunga_[a-z_]+|process_[a-z_]+)\b", open(f"{place}/alerts.yml").read()))
    page = open(f"{TOP}/docs/MEMBERS.md").read()
    pager = re.findall(r"`(maityrunga_pager_[a-z_]+)[`{]", page)
    compare("the rules name families that there are", sorted(names - {*documented(), *pager}), [])


def test_unit(_folder):
    """docs/MEMBERS.md names the units that are installed, and the one for a member has a bounded exposure."""
    page = open(f"{TOP}/docs/MEMBERS.md").read()
    for unit in UNITS:
        check(f"docs/MEMBERS.md names {unit}", f"`{unit}`" in page and os.path.exists(f"{TOP}/install/{unit}"))
    page = open(f"{TOP}/docs/MEND.md").read()
    for unit in ("am-diff.service", "am-diff.timer"):
        check(f"docs/MEND.md names {unit}", f"`install/{unit}`" in page and os.path.exists(f"{TOP}/install/{unit}"))
    if not shutil.which("systemd-analyze"):
        skip("the units: systemd-analyze is not there")
        return
    for unit in UNITS[:2]:
        words = ["systemd-analyze", "security", "--offline=true", "--threshold=30", f"{TOP}/install/{unit}"]
        status, output, error = outcome(words)
        found = re.search(rb"Overall exposure level for .*: ([0-9.]+)", output)
        check(f"the exposure of {unit} is at most 3", found and float(found[1]) <= 3 and status == 0, (found and found[0], error))


def test_install(folder):
    """What `./am_tool install` copies, and the words that it refuses."""
    tool = f"{TOP}/am_tool"
    compare("install without words", outcome([tool, "install"])[0], 2)
    compare("install to no whole path", outcome([tool, "install", "--prefix", "x"])[0], 2)
    status, _, error = outcome([tool, "install", "--prefix", folder])
    if status == 3:
        skip("am_tool install: no program is there that is newer than its sources")
        return
    compare("install", (status, error), (0, ""))
    files = sorted(f"{at}/{it}"[len(folder) + 1 :] for at, _, found in os.walk(folder) for it in found)
    compare("what is installed", files, [
        "bin/am_diff_figures", "bin/am_member_ready", "bin/am_members_upgrade", "bin/am_pager", "bin/am_tool",
        *(f"lib/systemd/system/{it}" for it in sorted([*UNITS, "am-diff.service", "am-diff.timer"])),
        "share/am_tool/alerts.yml", "share/am_tool/scrape.yml", "share/bash-completion/completions/am_tool", "share/man/man1/am_tool.1",
    ])  # fmt: skip
    for it in UNITS:
        unit, wanted = open(f"{folder}/lib/systemd/system/{it}").read(), open(f"{TOP}/install/{it}").read()
        compare(f"{it} has the paths of the prefix", unit, wanted.replace("/usr/local/", f"{folder}/"))
    if shutil.which("systemd-analyze"):
        units = [f"{folder}/lib/systemd/system/{it.replace('@', '@a')}" for it in UNITS]
        status, _, error = outcome(["systemd-analyze", "verify", "--man=no", *units])
        compare("systemd-analyze verify", (status, [it for it in error.splitlines() if "am-member" in it or "am-pager" in it]), (0, []))
    check("am_pager runs", b"--member" in outcome([f"{folder}/bin/am_pager", "--help"])[1])
    compare("the program runs", outcome([f"{folder}/bin/am_tool", "--version"])[:2], run(["--version"])[:2])
    for it in "ab":
        members.write(f"{folder}/{it}", b"")
    figures_of_two = [f"{folder}/bin/am_diff_figures", folder, f"{folder}/a", f"{folder}/b"]
    compare("am_diff_figures finds the program beside it", outcome(figures_of_two)[::2], (0, ""))


def built_top(folder):
    """The wrapper in a copy of what it installs, where the program is built."""
    shutil.copytree(f"{TOP}/install", f"{folder}/top/install")
    os.makedirs(f"{folder}/top/docs")
    shutil.copy(f"{TOP}/docs/am_tool.1", f"{folder}/top/docs")
    shutil.copy(f"{TOP}/am_tool", f"{folder}/top")
    os.makedirs(f"{folder}/top/crates/am_tool/out")
    open(f"{folder}/top/crates.txt", "w").close()
    shutil.copy(members.program, f"{folder}/top/crates/am_tool/out/am_tool")
    return f"{folder}/top/am_tool"


def below(folder):
    """The files below a folder, each by its path there."""
    return sorted(os.path.relpath(f"{at}/{it}", folder) for at, _, found in os.walk(folder) for it in found)


def try_without(top, files, command):
    """A command fails without any of these files, and succeeds with all."""
    compare("all files", outcome(command)[0], 0)
    for it in files:
        os.rename(f"{top}/{it}", f"{top}/aside")
        compare(f"without {it}", outcome(command)[0], 4)
        os.rename(f"{top}/aside", f"{top}/{it}")


def installed():
    """Each file that `install` and `package` copy, by its path in the repository."""
    files = [it.name for it in os.scandir(f"{TOP}/install") if it.is_file() and it.name not in ("alerts_test.yml", "test_tools")]
    return [*(f"install/{it}" for it in files), "docs/am_tool.1"]


def test_lacking_file(folder):
    """An installation that lacks a file fails, whichever it is."""
    tool = built_top(folder)
    try_without(f"{folder}/top", installed(), [tool, "install", "--prefix", f"{folder}/to"])


# ---- the package


# What a machine's dpkg knows of the packages that this one wants.
WANTED = """Package: {name}
Status: install ok installed
Maintainer: nobody <root@localhost>
Architecture: {architecture}
Version: 99
Description: stands for the true one

"""


def dpkg(root, *words):
    """Has dpkg work on a system of its own. The package's scripts run outside of it, and hear of that by DPKG_ROOT."""
    return outcome(["dpkg", f"--root={root}", "--force-script-chrootless", "--log=/dev/null", *words])


def new_system(root, architecture):
    """Makes a system below a folder with nothing but dpkg's own files, and some of a person who runs members. What is handed back has
    dpkg know of the packages that this one wants."""
    for it in ("var/lib/dpkg/info", "var/lib/dpkg/updates", "var/lib/dpkg/triggers", "etc/am-member", "var/lib/am-member/a"):
        os.makedirs(f"{root}/{it}")
    open(f"{root}/var/lib/dpkg/status", "w").close()
    for it in ("etc/am-member/a.env", "var/lib/am-member/a/silences"):
        members.write(f"{root}/{it}", b"mine")
    wanted = ["libc6", "libgcc-s1", "coreutils", "python3"]
    for it in wanted:
        open(f"{root}/var/lib/dpkg/info/{it}.list", "w").close()
    return "".join(WANTED.format(name=it, architecture=architecture) for it in wanted)


def apart_from_dpkg(root):
    return [it for it in below(root) if not it.startswith("var/lib/dpkg/")]


def made(tool, folder):
    """The one package that is made in a folder, and nothing else is there then."""
    os.makedirs(folder)
    status, output, error = outcome([tool, "package", "--to", folder], timeout=300)
    (name, *others) = [*os.listdir(folder), ""]
    compare("package", (status, output.decode(), error, others), (0, f"am_tool: made {folder}/{name}\n", "", [""]))
    return f"{folder}/{name}"


def test_package(folder):
    """The package has what `install` copies, and is installed, upgraded and purged with everything else as it was."""
    tool = built_top(folder)
    for words in (["x"], ["--to"], ["--to", ""], ["--to", folder, "x"], ["--help"]):
        compare(f"package {words}", outcome([tool, "package", *words])[0], 2)
    if not shutil.which("dpkg-deb"):
        compare("package without dpkg-deb", outcome([tool, "package", "--to", folder])[0], 3)
        skip("am_tool package: dpkg-deb is not there")
        return
    before = below(f"{folder}/top")
    compare("package in no folder", outcome([tool, "package", "--to", f"{folder}/none"])[0], 4)
    first = made(tool, f"{folder}/first")
    version = run(["--version"])[1].decode().split()[-1]
    field = lambda name: outcome(["dpkg-deb", "-f", first, name])[1].decode().strip()
    architecture = field("Architecture")
    compare("its name", os.path.basename(first), f"maityrunga_{version}_{architecture}.deb")
    compare("its version", (field("Package"), field("Version")), ("maityrunga", version))
    check("it wants Python", "python3" in field("Depends"), field("Depends"))
    lines = outcome(["dpkg-deb", "-c", first])[1].decode().splitlines()
    compare("what isn't root's, or others may write", [it for it in lines if not re.match(r"[d-]rw[x-]r-[x-]r-[x-] root/root ", it)], [])
    outcome([tool, "install", "--prefix", f"{folder}/usr"])
    outcome(["dpkg-deb", "-x", first, f"{folder}/whole"])
    compare("its files are those of install", below(f"{folder}/whole"), [f"usr/{it}" for it in below(f"{folder}/usr")])
    for it in below(f"{folder}/usr"):
        wanted = members.bytes_of(f"{folder}/usr/{it}").replace(f"{folder}/usr/".encode(), b"/usr/")
        compare(f"{it} is that of install, with the paths of /usr", members.bytes_of(f"{folder}/whole/usr/{it}"), wanted)
    compare("the wrapper's folder stays as it was", below(f"{folder}/top"), before)
    if os.geteuid() != 0:
        skip("am_tool package: only root installs packages")
        return
    members.write(f"{folder}/top/crates/am_tool/out/am_tool", b"#!/bin/sh\necho am_tool 99.1\n")
    try_system(f"{folder}/root", architecture, first, made(tool, f"{folder}/second"), version)


def try_system(root, architecture, first, second, version):
    """A system that gets a package, a later one, and then none."""
    others = new_system(root, architecture)
    mine = apart_from_dpkg(root)
    status, _, error = dpkg(root, "-i", first)
    check("it isn't installed without Python", status != 0 and "depends on python3" in error, error)
    dpkg(root, "--purge", "maityrunga")
    members.write(f"{root}/var/lib/dpkg/status", others.encode())
    compare("installed", dpkg(root, "-i", first)[::2], (0, ""))
    held = apart_from_dpkg(root)
    listed = outcome(["dpkg-deb", "-c", first])[1].decode().splitlines()
    compare("the system has its files", sorted(held), sorted([*mine, *(it.split(" ./")[1] for it in listed if it[0] == "-")]))
    compare("the program runs", outcome([f"{root}/usr/bin/am_tool", "--version"])[1].decode(), f"am_tool {version}\n")
    compare("upgraded", dpkg(root, "-i", second)[::2], (0, ""))
    compare("the same files", apart_from_dpkg(root), held)
    compare("the later program runs", outcome([f"{root}/usr/bin/am_tool", "--version"])[1], b"am_tool 99.1\n")
    compare("purged", dpkg(root, "--purge", "maityrunga")[0], 0)
    compare("only the others' files are left", apart_from_dpkg(root), mine)
    check("dpkg knows nothing of it", b"maityrunga" not in members.bytes_of(f"{root}/var/lib/dpkg/status"))
    compare("the member's file", members.bytes_of(f"{root}/var/lib/am-member/a/silences"), b"mine")


def test_package_lacks_file(folder):
    """No package is made that lacks a file, whichever it is."""
    if not shutil.which("dpkg-deb"):
        skip("am_tool package: dpkg-deb is not there")
        return
    tool = built_top(folder)
    os.mkdir(f"{folder}/to")
    members.write(f"{folder}/top/crates/am_tool/out/am_tool", b"#!/bin/sh\necho am_tool 0.1\n")
    files = [*installed(), *(f"install/debian/{it}" for it in os.listdir(f"{TOP}/install/debian"))]
    try_without(f"{folder}/top", files, [tool, "package", "--to", f"{folder}/to"])
    compare("nothing is left of what failed", len(os.listdir(f"{folder}/to")), 1)


def script(name, folder, *words):
    """What a script of the package tells systemctl, on a machine where systemd runs."""
    members.write(f"{folder}/systemctl", f"#!/bin/sh\necho \"$*\" >>{folder}/told\n".encode())
    os.chmod(f"{folder}/systemctl", 0o755)
    text = members.bytes_of(f"{TOP}/install/debian/{name}").decode().replace("/run/systemd/system", folder)
    env = {**os.environ, "PATH": f"{folder}:{os.environ['PATH']}"}
    open(f"{folder}/told", "w").close()
    status = outcome(["sh", "-c", text, name, *words], env=env)[0]
    return status, members.bytes_of(f"{folder}/told").decode().splitlines()


def test_scripts(folder):
    """An upgrade stops nothing; a removal stops what runs."""
    reload, stop = ["daemon-reload"], ["stop am-diff.timer am-pager@*.service am-member@*.service"]
    rows = [("postinst", ["configure", ""], reload), ("postinst", ["configure", "0.1.0"], reload), ("prerm", ["upgrade", "2"], [])]
    rows += [("prerm", ["remove"], stop), ("postrm", ["upgrade", "2"], []), ("postrm", ["remove"], reload), ("postrm", ["purge"], [])]
    for name, words, wanted in rows:
        compare(f"{name} {words}", script(name, folder, *words), (0, wanted))


def test_ready(folder):
    """am_member_ready goes by an address, of IPv6 too."""
    for host in ("127.0.0.1", "[::1]"):
        (port,) = free_ports(1)
        member = Member("a", f"{host}:{port}", [], folder)
        if host[0] == "[" and not socket.has_ipv6:
            skip("am_member_ready: IPv6 is not there")
            continue
        check("it listens", member.start(), member.lines)
        compare(f"am_member_ready {host}", outcome([f"{TOP}/install/am_member_ready", f"{host}:{port}", "5"])[0], 0)
        compare("at another address", outcome([f"{TOP}/install/am_member_ready", f"127.0.0.2:{port}", "1"])[0], 1)
        member.kill()
    for word in ("", "x", "0", "a b:1", "127.0.0.1:", "$(id):1"):
        compare(f"am_member_ready {word}", outcome([f"{TOP}/install/am_member_ready", word])[0], 2)


# Says what it is told to do, and which units there are; one doesn't come back.
SYSTEMCTL = """#!/bin/sh
echo "$*" >>{record}
case "$*" in
list-units*am-member*) printf 'am-member@b.service loaded active running x\\nam-member@c.service loaded active running x\\n' ;;
list-units*am-pager*) echo 'am-pager@b.service loaded active running x' ;;
"restart {bad}") exit 1 ;;
esac
"""


def test_upgrade(folder):
    """am_members_upgrade starts each member anew that runs, and stops where one doesn't come back."""
    for bad, wanted in (("none", ["am-member@b", "am-member@c", "am-pager@b"]), ("am-member@b.service", ["am-member@b"])):
        record = f"{folder}/{bad}"
        os.mkdir(f"{folder}/bin-{bad}")
        with open(f"{folder}/bin-{bad}/systemctl", "w") as file:
            file.write(SYSTEMCTL.format(record=record, bad=bad))
        os.chmod(f"{folder}/bin-{bad}/systemctl", 0o755)
        env = {**os.environ, "PATH": f"{folder}/bin-{bad}:{os.environ['PATH']}"}
        compare(f"its status, {bad} bad", outcome([f"{TOP}/install/am_members_upgrade"], env=env)[0], int(bad != "none"))
        begun = [it.split()[1] for it in open(record).read().splitlines() if it.startswith("restart")]
        compare("what it starts anew", begun, [f"{it}.service" for it in wanted])
    with open(f"{folder}/bin-none/systemctl", "w") as file:
        file.write("#!/bin/sh\n")
    env = {**os.environ, "PATH": f"{folder}/bin-none:{os.environ['PATH']}"}
    compare("where there is none", outcome([f"{TOP}/install/am_members_upgrade"], env=env)[0], 1)


def test_scrape(_folder):
    """What Prometheus is told has the jobs by whose names the rules go."""
    text = open(f"{TOP}/install/scrape.yml").read()
    jobs = re.findall(r"job_name: (\w+)", text)
    compare("the jobs", sorted(set(re.findall(r'job="(\w+)"', open(f"{TOP}/install/alerts.yml").read()))), sorted(jobs))
    page = open(f"{TOP}/docs/MEMBERS.md").read()
    compare("docs/MEMBERS.md names them", [it for it in jobs if f"`{it}`" not in page], [])
    if shutil.which("promtool"):
        status, output, error = outcome(["promtool", "check", "config", "--syntax-only", f"{TOP}/install/scrape.yml"])
        check("promtool check config", status == 0, (output, error))
    else:
        skip("check config: promtool is not there")


def test_backup(folder):
    """A backup that was made while a member ran, and is joined with its file, brings back what no member holds any more, and
    undoes nothing, as docs/MEMBERS.md has it."""
    options = ["--log", "--save-every", "60", "--pull-every", "1", "--pull-first", "--pull-first-limit", "2"]
    one, other = members.peers_of("ab", folder, options, Stoppable)
    begun(one)
    begun(other)
    ended = [one.post(silence(it))[1] for it in ("kept", "ended")][1]
    check("both have them", eventually(lambda: other.comments() == ["ended", "kept"]), other.comments())
    status, backup, _ = run(["fold", "--log", "--state", "sil", one.sil])
    compare("a backup", (status, backup.count(b"kept") > 0, backup.count(b"ended") > 0), (0, True, True))
    key = json.loads(ended)["silenceID"]
    compare("one is ended", one.ask("DELETE", f"/api/v2/silence/{key}")[0], 200)
    state = lambda it: {silence["comment"]: silence["status"]["state"] for silence in it.listed() or []}
    check("the other knows it", eventually(lambda: state(other).get("ended") == "expired"), state(other))
    compare("a clean stop", one.stop(), 0)
    with open(f"{folder}/backup", "wb") as file:
        file.write(backup)
    restore = f"set -e; {members.program} fold --log --state sil a.sil backup > joined; mv joined a.sil; rm -f a.sil.log a.sil.log.old"
    compare("it is restored", outcome(["bash", "-c", restore], cwd=folder)[0], 0)
    begun(one)
    check("nothing is undone", eventually(lambda: state(one) == {"kept": "active", "ended": "expired"}), state(one))
    # where all of it is lost, it is all there again
    for it in (one, other):
        it.stop()
        for path in (it.sil, it.nfl):
            for end in ("", ".log", ".log.old"):
                if os.path.exists(path + end):
                    os.remove(path + end)
    os.rename(f"{folder}/backup", one.sil)
    begun(one)
    begun(other)
    for it in (one, other):
        check(f"{it.name} has it again", eventually(lambda: state(it) == {"kept": "active", "ended": "active"}), state(it))
        it.kill()


def completed(*words):
    """What bash offers for the last of the words."""
    script = (
        f'source "{TOP}/install/am_tool.bash"; COMP_WORDS=("$@"); COMP_CWORD=$(($# - 1)); _am_tool; printf "%s\\n" "${{COMPREPLY[@]}}"'
    )
    return outcome(["bash", "-c", script, "bash", members.program, *words])[1].decode().split()


def test_completions(_folder):
    compare("commands", completed(""), ["replay", "fold", "show", "diff", "pull", "push", "mend", "instance", "help"])
    compare("a command", completed("ins"), ["instance"])
    compare("options of show", completed("show", "--"), ["--state", "--now", "--json", "--log", "--keep-unknown", "--help"])
    for command in ("replay", "fold", "show", "diff", "pull", "push", "instance"):
        text = run([command, "--help"])[1].decode()
        wanted = re.findall(r"^ +(?:-\w, )?(--[a-z-]+)", text, re.M)
        compare(f"options of {command}", completed(command, "--"), wanted)
    compare("an option", completed("instance", "--pull-f"), ["--pull-first", "--pull-first-limit"])


TESTS = [
    test_calls, test_status, test_first_pull, test_stop, test_text, test_counts, test_links,
    test_lost, test_unsent, test_broken, test_driven, test_saves, test_log, test_many, test_rules,
    test_unit, test_install, test_lacking_file, test_ready, test_upgrade, test_scrape, test_backup, test_completions,
    test_package, test_package_lacks_file, test_scripts,
]  # fmt: skip


if __name__ == "__main__":
    members.choose("operations", sys.argv[1:])
    test_page()
    with tempfile.TemporaryDirectory() as folder:
        try_each(TESTS, folder)
    finish("operations")
