#!/usr/bin/env python3
"""Asks running members of am_tool whether to notify: when they answer, how many may wait, and what others see meanwhile.

    tests/turns.py [PROGRAM]

PROGRAM is crates/am_tool/out/am_tool if it isn't given. What is wanted is written by hand, from docs/FORMATS.md. What is
decided cases/ have, and tests/pages.py programs that send pages.
"""

import contextlib
import json
import re
import select
import signal
import socket
import struct
import sys
import tempfile
import time

from lib import members, versions
from lib.api import request, silence
from lib.members import PATIENCE, Stoppable, begun, eventually, free_ports, parted, received, write
from lib.tally import check, compare, finish, try_each
from lib.wire import delimited

# The time for which members wait for one another, in seconds.
TURN = 2

# How many may wait where clients go.
CROWD = 20

# A pattern of 12,000 states.
LARGE_PATTERN = "(a|b)*a(a|b){12000}"

# How many silences with patterns are there from the start.
COLD = 2_000

# The smallest limits of bytes and the largest body.
MOST_BODY = 1_048_576

# How many alerts of the last messages are kept, and as how many bytes one counts at most, with 64 for each label.
MOST_ALERTS, MOST_COUNTED, LABEL = 512, 2_048, 64


def member(name, folder, options=(), before=("a",)):
    """A member behind others, which aren't there; it has begun."""
    ports = free_ports(1 + len(before))
    peers = list(zip(before, ports[1:]))
    return begun(Stoppable(name, ports[0], peers, folder, ["--peer-timeout", str(TURN), *options]))


def message(key, *alerts, status="firing"):
    """A message of a group whose alerts have these names."""
    listed = [{"status": status, "labels": {"alertname": name}} for name in alerts or ("Down",)]
    return json.dumps({"version": "4", "receiver": "team", "groupKey": key, "alerts": listed}).encode()


def asked(of, path, body):
    """A connection on which a decision is asked for."""
    return members.asked(of, request("POST", path, body))


def answered(stream):
    """The status and the value of the reply on a connection, and when it came."""
    with stream:
        status, body = parted(received(stream))
    return status, json.loads(body) if body else None, time.monotonic()


def decided(reply):
    """What a reply decides."""
    status, value, _ = reply
    return status, value["notify"] if status == 200 else value, value["reason"] if status == 200 else None


def post(of, name, is_pattern=False):
    """Posts a silence of all alerts of a name, or of a pattern; its status."""
    return of.post(silence(name, matchers=[{"name": "alertname", "value": name, "isRegex": is_pattern}]))[0]


def test_turn(folder):
    """The first of all answers at once, and the second when its turn has come, by what it holds then."""
    first = member("a", folder, before=("b",))
    start = time.monotonic()
    reply = answered(asked(first, "/v1/decide", message("g")))
    compare("the first decides at once", (decided(reply), reply[2] - start < TURN / 2), ((200, True, "First"), True))
    first.kill()
    second = member("b", folder, ["--time-limit", "1"])
    start = time.monotonic()
    early, late = (asked(second, "/v1/decide", message(key)) for key in ("g", "h"))
    silenced = asked(second, "/v1/decide", message("i", "Muted"))
    at_once = answered(asked(second, "/v1/decide?wait=false", message("g")))
    compare("without a wait", (decided(at_once), at_once[2] - start < TURN / 2), ((200, True, "First"), True))
    notice = json.dumps(at_once[1]).encode()
    compare("it is logged", second.ask("POST", "/v1/notified", notice), (200, b'{"logged":true}'))
    compare("a silence is posted meanwhile", post(second, "Muted"), 200)
    replies = [answered(stream) for stream in (early, late, silenced)]
    compare("what was told meanwhile counts", decided(replies[0]), (200, False, "Skip"))
    compare("what wasn't is first", decided(replies[1]), (200, True, "First"))
    compare("what was silenced meanwhile is muted", decided(replies[2]), (200, False, "Muted"))
    waited = [at - start for _, _, at in replies]
    check("each waits for its turn, and no longer", all(TURN <= it < TURN + 1 for it in waited), waited)
    listed = json.loads(second.ask("GET", "/v1/log")[1])
    compare("the log lists it", [it["receiver"]["groupName"] for it in listed], ["team"])
    second.kill()


def test_limit(folder):
    """So many wait, and one more doesn't; places are free again behind their turns."""
    of = member("b", folder, ["--at-once", "8", "--waiting", "3"])
    waiting = [asked(of, "/v1/decide", message(f"g{number}")) for number in range(3)]
    time.sleep(0.3)
    compare("one more", answered(asked(of, "/v1/decide", message("more")))[:2], (503, "too many wait"))
    compare("one that doesn't wait", decided(answered(asked(of, "/v1/decide?wait=false", message("more")))), (200, True, "First"))
    compare("others are answered", of.ask("GET", "/api/v2/silences"), (200, b"[]"))
    silent = [socket.create_connection(("127.0.0.1", of.port), timeout=PATIENCE) for _ in range(20)]
    compare("those that wait keep their places", [decided(answered(it)) for it in waiting], [(200, True, "First")] * 3)
    for stream in silent:
        stream.close()
    compare("then others may", decided(answered(asked(of, "/v1/decide", message("more")))), (200, True, "First"))
    of.kill()
    half = member("b", folder, ["--at-once", "4", "--waiting", "100"])
    waiting = [asked(half, "/v1/decide", message(f"g{number}")) for number in range(2)]
    time.sleep(0.3)
    compare("no more than half of all", answered(asked(half, "/v1/decide", message("more")))[:2], (503, "too many wait"))
    for stream in waiting:
        stream.close()
    half.kill()


def test_gone(folder):
    """One that goes before its turn leaves its place, and others have theirs."""
    of = member("b", folder, ["--at-once", "4", "--waiting", "1"])
    asked(of, "/v1/decide", message("g")).close()
    again = lambda: answered(asked(of, "/v1/decide", message("h")))
    found = eventually(lambda: (reply := again())[0] == 200 and decided(reply), 3 * TURN)
    compare("its place is free", found, (200, True, "First"))
    of.kill()


def waiting_at(of):
    """How many decisions wait."""
    _, text = of.ask("GET", "/metrics")
    return int(re.search(r"^maityrunga_requests_waiting (\d+)$", text.decode(), re.M)[1])


def test_gone_at_once(folder):
    """Those whose clients go give their places back long before their turn, each once."""
    turns = 12
    of = member("b", folder, ["--at-once", "64", "--waiting", str(CROWD)], [f"a{number:02}" for number in range(turns)])
    start = time.monotonic()
    ask = lambda key: asked(of, "/v1/decide", message(key))
    stays = ask("stays")
    gone = [ask(f"g{number}") for number in range(CROWD - 1)]
    check("all wait", eventually(lambda: waiting_at(of) == CROWD, TURN * turns), waiting_at(of))
    compare("one more", answered(ask("more"))[:2], (503, "too many wait"))
    for number, stream in enumerate(gone):
        if number % 3 == 0:
            # (it ends its own side alone, as one does that is closed)
            stream.shutdown(socket.SHUT_WR)
        elif number % 3 == 1:
            # (a stream that is closed so is reset)
            stream.setsockopt(socket.SOL_SOCKET, socket.SO_LINGER, struct.pack("ii", 1, 0))
        if number % 3:
            stream.close()
    check("all places are free but one", eventually(lambda: waiting_at(of) == 1, TURN * turns), waiting_at(of))
    compare("one whose own side alone has ended is let go", [received(it) for it in gone[::3]], [b""] * len(gone[::3]))
    more = [ask(f"h{number}") for number in range(CROWD - 1)]
    check("as many may wait again", eventually(lambda: waiting_at(of) == CROWD, TURN * turns), waiting_at(of))
    compare("and no more", answered(ask("more"))[:2], (503, "too many wait"))
    check("no turn has come meanwhile", time.monotonic() - start < turns * TURN, time.monotonic() - start)
    compare("one that waited is answered", decided(answered(stays)), (200, True, "First"))
    compare("and so are the others", [decided(answered(it)) for it in more], [(200, True, "First")] * len(more))
    compare("none waits any more", waiting_at(of), 0)
    compare("no line is printed", [it for it in of.lines[1:] if " Connect " not in it], [])
    of.kill()


def test_stop(folder):
    """What waits when a member stops is answered at once, and the stop takes no turn."""
    of = member("b", folder, before=("a", "aa", "ab"))
    waiting = [asked(of, "/v1/decide", message(f"g{number}")) for number in range(3)]
    time.sleep(0.3)
    start = time.monotonic()
    of.process.send_signal(signal.SIGTERM)
    compare("what waits", [answered(it)[:2] for it in waiting], [(503, "member stops")] * 3)
    compare("the stop", of.end(), 0)
    check("it takes no turn", time.monotonic() - start < TURN, time.monotonic() - start)


def test_faults(folder):
    """A fault is told at once, also of one that would wait."""
    of = member("b", folder)
    start = time.monotonic()
    for path, body, wanted in (
        ("/v1/decide", b"{", (400, "bad JSON")),
        ("/v1/decide", b"{}", (400, "bad message: groupKey")),
        ("/v1/decide?wait=yes", message("g"), (400, "bad query: wait")),
        ("/v1/decided", message("g"), (404, "no such path")),
        ("/v1/notified", message("g"), (400, "bad message: integration")),
        ("/v1/decide", message("g").replace(b"{", b'{"truncatedAlerts":1,', 1), (400, "truncated alerts")),
    ):
        compare(f"{path} {body[:9]}", answered(asked(of, path, body))[:2], wanted)
    check("at once", time.monotonic() - start < TURN, time.monotonic() - start)
    compare("another method", parted(of.send(request("HEAD", "/v1/log")))[0], 405)
    too_large = b"POST /v1/decide HTTP/1.1\r\nContent-Length: %d\r\n\r\n" % (MOST_BODY + 1)
    compare("a body that is too large", parted(of.send(too_large))[0], 413)
    compare("no line is printed", [it for it in of.lines[1:] if " Connect " not in it], [])
    of.kill()


def test_large(folder):
    """The largest messages wait for one another, and nobody else does."""
    of = member("b", folder, ["--decide-limit", "600"])
    for number in range(50):
        post(of, f"s{number}")
    alerts = [f"n{number:05}" for number in range(17_000)]
    body = message("large", *alerts)
    check("it is nearly as large as may be", MOST_BODY * 0.8 < len(body) <= MOST_BODY, len(body))
    whole, of_one = waits_beside(of, body, ["false"])
    check("nobody waits for a whole message", of_one < 0.75 * whole, (of_one, whole))
    _, of_eight = waits_beside(of, body, ("false", "true") * 4)
    check("and eight make nobody wait for much longer than one", of_eight < 4 * of_one, (of_eight, of_one))
    of.kill()


def waits_beside(of, body, waits):
    """How long it takes until large messages are answered, some of which wait for their turn, and for how long somebody waits beside
    them at most."""
    start, beside, slowest = time.monotonic(), set(), 0
    streams = [asked(of, f"/v1/decide?wait={it}", body) for it in waits]
    while len(select.select(streams, [], [], 0)[0]) < len(streams):
        begun = time.monotonic()
        beside.add(of.ask("GET", "/api/v2/silence/x")[0])
        slowest = max(slowest, time.monotonic() - begun)
        time.sleep(0.02)
    whole = time.monotonic() - start
    compare("what is asked beside them", beside, {404})
    replies = [answered(stream) for stream in streams]
    compare("each is answered", [(it[0], it[1]["reason"], len(it[1]["firing"])) for it in replies], [(200, "First", 17_000)] * len(waits))
    return whole, slowest


def many_alerts(key, *names):
    """A message of nearly a megabyte: alerts of these names, and 900 more with long ones."""
    return message(key, *names, *(f"{number:03}" + "n" * 1000 for number in range(900)))


def test_unjudged(folder):
    """A decision that takes long isn't cut off, and once its limit is over it pages for what isn't judged."""
    limit = 1
    of = member("b", folder, ["--time-limit", "1", "--decide-limit", str(limit)])
    compare("a silence", post(of, "Muted"), 200)
    for number in range(3000):
        post(of, f".*x{number}y.*", True)
    compare("one alert is judged, and the patterns compiled", decided(answered(asked(of, "/v1/decide?wait=false", message("f")))), (200, True, "First"))
    start = time.monotonic()
    first, second = (asked(of, "/v1/decide?wait=false", many_alerts(key, "Muted")) for key in ("g", "h"))
    for stream in first, second:
        reply = answered(stream)
        compare("it is answered", decided(reply), (200, True, "Unjudged"))
        took = reply[2] - start
        check("not before its limit, and soon behind it", limit <= took < limit + 10, took)
        compare("what isn't judged fires", len(reply[1]["firing"]) + len(reply[1]["muted"]), 901)
    compare("what is judged counts", decided(answered(asked(of, "/v1/decide?wait=false", message("i", "Muted")))), (200, False, "Muted"))
    judged = answered(asked(of, "/v1/decide?wait=false", many_alerts("j", "Muted")))[1]
    compare("the first alert is judged first", [it["labels"]["alertname"] for it in judged["muted"]], ["Muted"])
    compare("it is logged", told(of, judged), (200, b'{"logged":true}'))
    again = answered(asked(of, "/v1/decide?wait=false", many_alerts("j", "Muted")))
    compare("what was told isn't told again", decided(again), (200, False, "Skip"))
    value = 'maityrunga_decisions_total{reason="Unjudged"} 3'
    check("such decisions are counted", value in of.ask("GET", "/metrics")[1].decode())
    stream = asked(of, "/v1/decide?wait=false", many_alerts("k"))
    time.sleep(0.3)
    of.process.send_signal(signal.SIGTERM)
    compare("a decision at a stop", answered(stream)[:2], (503, "member stops"))
    compare("the stop", of.end(), 0)


def test_dear(folder):
    """Alerts that take long to be held against silences make nobody wait for many of them."""
    of = member("b", folder, ["--decide-limit", "600"])
    for number in range(300):
        post(of, f".*x{number}y.*", True)
    body = many_alerts("dear")
    first, waited, beside = time.monotonic(), [], set()
    stream = asked(of, "/v1/decide?wait=false", body)
    while not select.select([stream], [], [], 0)[0]:
        start = time.monotonic()
        beside.add(of.ask("GET", "/api/v2/silence/x")[0])
        waited.append(time.monotonic() - start)
    whole = time.monotonic() - first
    compare("what is asked beside it", beside, {404})
    compare("it is answered", decided(answered(stream)), (200, True, "First"))
    waited.sort()
    check("nobody waits for a tenth of it", len(waited) > 20 and 10 * waited[-3] < whole, (whole, waited[-5:]))
    of.kill()


def cold_times(name, folder, rows):
    """How long the first decision of a member takes that starts with these silences, how long somebody else waits beside it at most,
    and how long the second one takes."""
    write(f"{folder}/{name}.sil", rows)
    of = member(name, folder, ["--decide-limit", "600"])
    found = []
    for key in ("first", "second"):
        start, slowest, beside = time.monotonic(), 0, set()
        stream = asked(of, "/v1/decide?wait=false", message(key, "web-7-a"))
        while not select.select([stream], [], [], 0)[0]:
            begun = time.monotonic()
            beside.add(of.ask("GET", "/api/v2/silence/x")[0])
            slowest = max(slowest, time.monotonic() - begun)
        found += [time.monotonic() - start, slowest]
        compare(f"the {key} decision", decided(answered(stream)), (200, False, "Muted"))
        compare("what is asked beside it", beside - {404}, set())
    compare("the stop", of.stop(), 0)
    return found[:3]


def test_cold(folder):
    """Before the first decision the patterns of all silences are compiled, some in each turn: nobody waits for all of them."""
    now = int(time.time())
    times = f"{now - 60}..{now + 7200} updated {now - 60} expires {now + 9000}"
    rows = b"".join(delimited(versions.silence(f"s{number:04} alertname=~web-{number}-.* {times}")) for number in range(COLD))
    found = [cold_times(name, folder, rows) for name in "bcd"]
    check("the patterns are compiled before the first decision", any(first > 3 * second for first, _, second in found), found)
    # (whatever else the machine does may come beside one of them)
    check("nobody waits for half of that", any(2 * waited < first for first, waited, _ in found), found)


def test_long_search(folder):
    """A label so long that the search with a large pattern would take minutes isn't judged: the answer comes soon, and pages."""
    of = member("b", folder, ["--decide-limit", "600", "--time-limit", "60"])
    compare("a silence with a large pattern", post(of, LARGE_PATTERN, True), 200)
    compare("a short label is judged", decided(answered(asked(of, "/v1/decide?wait=false", message("short", "abab")))), (200, True, "First"))
    start = time.monotonic()
    reply = answered(asked(of, "/v1/decide?wait=false", message("long", "ab" * 450_000)))
    compare("a long one isn't", decided(reply), (200, True, "Unjudged"))
    check("and the answer comes soon", reply[2] - start < 10, reply[2] - start)
    compare("the stop", of.stop(), 0)


def told(of, answer):
    """What comes of an answer that is posted back."""
    return of.ask("POST", "/v1/notified", json.dumps(answer).encode())


def test_late(folder):
    """A notice that comes late doesn't cover what others told meanwhile: what fires again is told anew."""
    ports = free_ports(2)
    first, second = (
        begun(Stoppable(name, ports[at], [(peer, ports[1 - at])], folder, ["--peer-timeout", str(TURN)]))
        for at, (name, peer) in enumerate((("a", "b"), ("b", "a")))
    )
    at_once = lambda of, status: answered(asked(of, "/v1/decide?wait=false", message("g", status=status)))
    held_up = at_once(first, "firing")
    compare("the first is to page", decided(held_up), (200, True, "First"))
    check("it says when that was decided", held_up[1]["decidedAt"].endswith("Z"), held_up[1])
    compare("and how long turns are", held_up[1]["turnSeconds"], TURN)
    time.sleep(0.1)
    for status, reason in ("firing", "First"), ("resolved", "AllResolved"):
        reply = at_once(second, status)
        compare(f"the second pages what is {status}", decided(reply), (200, True, reason))
        compare("which is logged", told(second, reply[1]), (200, b'{"logged":true}'))
    entries = lambda of: json.loads(of.ask("GET", "/v1/log")[1])
    both = lambda: all(any(it["resolvedAlerts"] for it in entries(of)) for of in (first, second))
    check("both know", eventually(both, 10))
    compare("the late notice isn't logged", told(first, held_up[1]), (200, b'{"logged":false}'))
    for of in first, second:
        compare(f"what fires again is told by {of.name}", decided(at_once(of, "firing")), (200, True, "NewFiring"))
    undated = {key: value for key, value in held_up[1].items() if key != "decidedAt"}
    compare("without its moment it is logged", told(first, undated), (200, b'{"logged":true}'))
    for of in first, second:
        of.kill()


def test_alerts(folder):
    """The alerts that fire in the last message of each group are listed, the newest message first, within their bounds."""
    of = member("a", folder, before=("b",))
    fires = lambda key, *names: answered(asked(of, "/v1/decide?wait=false", message(key, *names)))
    ends = lambda key, *names: answered(asked(of, "/v1/decide", message(key, *names, status="resolved")))
    names = lambda: [it["alertname"] for it in json.loads(of.ask("GET", "/v1/alerts")[1])]
    compare("before the first message", of.ask("GET", "/v1/alerts"), (200, b"[]\n"))
    fires("g", "A", "B"), fires("h", "C")
    wanted = b'[{"alertname":"C"},{"alertname":"A"},{"alertname":"B"}]\n'
    compare("the newest message first", of.ask("GET", "/v1/alerts?x=y"), (200, wanted))
    fires("g", "B", "D")
    compare("the same group again", names(), ["B", "D", "C"])
    ends("g", "B", "D")
    compare("a group that is resolved", names(), ["C"])
    ends("page", "C")
    compare("the page's question leaves nothing", names(), ["C"])
    compare("a silence is posted", post(of, "E"), 200)
    compare("a group that is muted", decided(fires("i", "E")), (200, False, "Muted"))
    compare("is listed too", names(), ["E", "C"])
    largest = MOST_COUNTED - LABEL - len("alertname") - len("j")
    fires("j", "x" * largest, "y" * (largest + 1))
    compare("the largest, and one that is larger", [len(it) for it in names()], [largest, 1, 1])
    fires("k" * (MOST_COUNTED + 1), "K")
    compare("a group with a large key", [len(it) for it in names()], [largest, 1, 1])
    fires("l", *(f"n{number}" for number in range(600)))
    compare("a large message", names(), [f"n{number}" for number in range(MOST_ALERTS)])
    for number in range(65):
        fires(f"m{number}", f"m{number}")
    kept = [f"m{number}" for number in reversed(range(65))] + [f"n{number}" for number in range(MOST_ALERTS - 65)]
    compare("the oldest are forgotten", names(), kept)
    for number in range(4):
        fires(str(number), *(f"{place:03}" + "x" * (largest - 3) for place in range(MOST_ALERTS // 4)))
    compare("as many of the largest", [len(it) for it in names()], [largest] * MOST_ALERTS)
    compare("fit into one message", ends("page", *names())[0], 200)
    for method in "POST", "PUT", "DELETE", "HEAD":
        reply = of.send(request(method, "/v1/alerts"))
        compare(f"{method} of them", (parted(reply)[0], b"\r\nallow: GET\r\n" in reply), (405, True))
    of.kill()


def test_log(folder):
    """What is logged is on the disk before it is answered, where logs are kept."""
    of = member("b", folder, ["--log"])
    reply = answered(asked(of, "/v1/decide?wait=false", message("g")))[1]
    compare("it is logged", of.ask("POST", "/v1/notified", json.dumps(reply).encode()), (200, b'{"logged":true}'))
    of.kill()
    check("it starts again", of.start(), of.lines)
    reply = answered(asked(of, "/v1/decide?wait=false", message("g")))
    compare("it is known behind a kill", decided(reply), (200, False, "Skip"))
    of.kill()


TESTS = [
    test_turn, test_limit, test_gone, test_stop, test_faults, test_large, test_unjudged, test_dear, test_cold, test_long_search, test_late, test_alerts, test_log,
    test_gone_at_once,
]  # fmt: skip


def main():
    members.choose("turns", sys.argv[1:])
    with tempfile.TemporaryDirectory(prefix="am_turns_") as folder:
        with contextlib.suppress(KeyboardInterrupt):
            try_each(TESTS, folder)
    finish("turns")


if __name__ == "__main__":
    main()
