#!/usr/bin/env python3
"""Tries am_pager, which sends pages, between a false Alertmanager, false members and a false receiver.

    tests/pager.py

It needs no built program. The members answer as docs/FORMATS.md has it, or fail as a test wants, and write down when they were
asked; so does the receiver of the pages. What is wanted is written by hand, from docs/MEMBERS.md. Prints each case that fails, and
at the end how many passed.
"""

import contextlib
import http.client
import http.server
import json
import os
import re
import signal
import shutil
import socket
import ssl
import subprocess
import sys
import tempfile
import threading
import time

from lib.answering import Answering
from lib.members import PATIENCE, TOP, eventually, free_ports, outcome, sent
from lib.tally import check, compare, finish, skip, try_each
from operations import Figures

PAGER = f"{TOP}/install/am_pager"

# How long a member's turn takes here, and how far from its moment something may come, in seconds.
TURN, NEAR = 2, 0.9

MESSAGE = {
    "version": "4", "groupKey": "{}:{}", "receiver": "team", "status": "firing", "truncatedAlerts": 0,
    "alerts": [{"status": "firing", "labels": {"alertname": "Down", "job": it}} for it in ("db", "web")],
}  # fmt: skip
ANSWER = {
    "firing": ["0000000000000001"], "groupKey": "{}:{}", "index": 0, "integration": "webhook", "muted": [], "notify": True,
    "reason": "First", "receiver": "team", "repeat": 14400, "resolved": [], "turnSeconds": TURN,
    "decidedAt": "2026-11-28T21:00:00.000000000Z",
}  # fmt: skip
SKIP = {**ANSWER, "notify": False, "reason": "Skip"}


class Noting(Answering):
    """Writes down what comes, and answers what its server says."""

    def found(self, body):
        self.server.came.append((time.monotonic(), self.path, body, dict(self.headers)))
        status, answer = self.server.answer(self.path, body)
        return status, answer if isinstance(answer, bytes) else json.dumps(answer).encode()


def serving(answer, port=0):
    """A server, which answers as a function of a path and a body says."""
    server = http.server.ThreadingHTTPServer(("127.0.0.1", port), Noting)
    server.came, server.answer, server.port = [], answer, server.server_address[1]
    threading.Thread(target=server.serve_forever, daemon=True).start()
    return server


def taken(server, what):
    """The requests of a kind that came."""
    return [it for it in server.came if it[1].startswith(what)]


def status(name):
    peers = [{"address": "127.0.0.1:1", "name": it} for it in "abc"]
    return {"cluster": {"name": name, "peers": peers, "status": "ready"}, "config": {"original": f"--name {name}\n--peer-timeout {TURN}\n"}}


def member(name="a", decide=(200, ANSWER), notified=(200, {"logged": True}), port=0):
    """A member, which decides and is told as is said: an answer, or answers, of which the last one stays."""
    rows = {"/v1/decide": decide, "/v1/notified": notified}
    rows = {key: list(it) if isinstance(it, list) else [it] for key, it in rows.items()}

    def answer(path, _):
        if path == "/api/v2/status":
            return 200, status(name)
        row = rows[path.partition("?")[0]]
        found = row.pop(0) if len(row) > 1 else row[0]
        return found() if callable(found) else found

    return serving(answer, port)


class Pager:
    """An am_pager, and what it said, with these variables in its environment."""

    def __init__(self, members, *words, listen=None, to=subprocess.PIPE, **variables):
        (self.port,) = free_ports(1)
        self.environment, self.to = {**os.environ, **variables}, to
        self.command = [PAGER, "--listen", listen or str(self.port)]
        for it in members:
            self.command += ["--member", str(it)]
        self.command += words
        self.lines = []

    def __enter__(self):
        self.process = subprocess.Popen(self.command, stdin=subprocess.DEVNULL, stderr=self.to, env=self.environment)
        if self.to != subprocess.PIPE:
            check("am_pager answers", eventually(self.is_healthy, 10), self.command)
            return self
        threading.Thread(target=self.read, daemon=True).start()
        check("am_pager listens", eventually(lambda: any(" listens on " in it for it in self.lines)), self.command)
        return self

    def is_healthy(self):
        with contextlib.suppress(OSError):
            return self.ask(query="", method="GET", path="/-/healthy")[0] == 200
        return False

    def read(self):
        for line in self.process.stderr:
            self.lines.append(line.decode())

    def __exit__(self, *_):
        self.process.kill()
        self.process.wait()

    def ask(self, message=MESSAGE, query="?repeat=14400", method="POST", path="/", host="127.0.0.1", **fields):
        """The status and the body of a reply, and how long it took."""
        begun = time.monotonic()
        connection = http.client.HTTPConnection(host, self.port, timeout=PATIENCE)
        body = message if isinstance(message, bytes) else json.dumps(message).encode()
        connection.request(method, path + query, body if method == "POST" else None, fields)
        reply = connection.getresponse()
        found = reply.status, reply.read().decode()
        connection.close()
        return *found, time.monotonic() - begun

    def figures(self):
        return Figures(self.ask(query="", method="GET", path="/metrics")[1])


def url(server):
    return f"http://127.0.0.1:{server.port}/hook?a=b"


def accepting():
    return serving(lambda *_: (200, b"ok"))


def test_sent(folder):
    """A page goes to the URL, with its fields and without what is muted, and the member is told."""
    muted = {**ANSWER, "muted": [{"labels": {"alertname": "Down", "job": "db"}, "silencedBy": ["x"]}]}
    own, receiver = member(decide=(200, muted)), accepting()
    with open(f"{folder}/headers", "w", encoding="utf-8") as file:
        file.write("# who\nAuthorization: Bearer abc\n\nX-Team: a b \n")
    with Pager([own.port], "--to", url(receiver), "--headers", f"{folder}/headers") as pager:
        compare("the answer", pager.ask(query="?repeat=14400&index=1")[:2], (200, "First"))
    asked, told, got = taken(own, "/v1/decide"), taken(own, "/v1/notified"), receiver.came
    compare("what the member is asked", [(it[1], json.loads(it[2])) for it in asked], [("/v1/decide?repeat=14400&index=1", MESSAGE)])
    compare("what it is told", [json.loads(it[2]) for it in told], [{key: it for key, it in ANSWER.items() if key != "muted"}])
    compare("what is sent", [(it[1], json.loads(it[2])) for it in got], [("/hook?a=b", {**MESSAGE, "alerts": MESSAGE["alerts"][1:]})])
    fields = [(it[3].get("Authorization"), it[3].get("X-Team"), it[3].get("Content-Type")) for it in got]
    compare("its fields", fields, [("Bearer abc", "a b", "application/json")])


def test_not_sent(_folder):
    """What is skipped or muted isn't sent; the end of a group is, though its firing alerts are muted."""
    ended = [{**MESSAGE["alerts"][0], "status": "resolved"}, MESSAGE["alerts"][1]]
    muted = {**ANSWER, "reason": "AllResolved", "muted": [{"labels": {"alertname": "Down", "job": "web"}, "silencedBy": ["x"]}]}
    own, receiver = member(decide=[(200, SKIP), (200, {**SKIP, "reason": "Muted"}), (200, muted)]), accepting()
    with Pager([own.port], "--to", url(receiver)) as pager:
        compare("a page that was sent before", pager.ask()[:2], (200, "Skip"))
        compare("a page that is muted", pager.ask()[:2], (200, "Muted"))
        compare("nothing is sent or told", (receiver.came, taken(own, "/v1/notified")), ([], []))
        compare("an end", pager.ask({**MESSAGE, "alerts": ended})[:2], (200, "AllResolved"))
        found = pager.figures()
    compare("what is sent of it", json.loads(receiver.came[0][2]), {**MESSAGE, "status": "resolved", "alerts": ended[:1]})
    counted = [found.get("maityrunga_pager_questions_total", outcome=it) for it in ("sent", "skipped", "failed")]
    compare("they are counted", counted, [1, 2, None])
    page = open(f"{TOP}/docs/MEMBERS.md", encoding="utf-8").read()
    named = set(re.findall(r"`(maityrunga_pager_[a-z_]+)[`{]", page))
    compare("docs/MEMBERS.md names each figure", sorted(named), sorted(it for it in found.kinds if it.startswith("maityrunga")))


def test_command(folder):
    """A command gets the message; one that fails has not sent it; and one that takes too long is ended with all it began."""
    own = member()
    with Pager([own.port], "--", "sh", "-c", 'cat >"$0/page"', folder) as pager:
        compare("a command", pager.ask()[:2], (200, "First"))
    compare("what it got", json.load(open(f"{folder}/page", encoding="utf-8")), MESSAGE)
    own = member(decide=[(200, ANSWER), (200, SKIP)])
    with Pager([own.port], "--", "sh", "-c", "exit 3") as pager:
        status, text, took = pager.ask()
        compare("a command that fails", (status, text), (200, "Skip"))
        check("it is asked again when all turns are over", abs(took - 3 * TURN) < NEAR, took)
        compare("nobody is told", taken(own, "/v1/notified"), [])
        check("a line says it", any("status 3" in it for it in pager.lines), pager.lines)
    own = member(decide=[(200, ANSWER), (200, SKIP)])
    with Pager([own.port], "--send-limit", "1", "--", "sh", "-c", 'sleep 1000 & echo $! >"$0/pid"; wait', folder) as pager:
        compare("a command that hangs", pager.ask()[:2], (200, "Skip"))
    pid = int(open(f"{folder}/pid", encoding="utf-8").read())
    check("all that it began has ended", eventually(lambda: not os.path.exists(f"/proc/{pid}"), 5))


def test_send_again(_folder):
    """A page that fails is tried again within half a turn, and not in the next member's turn: then the member is asked again."""
    slow = {**ANSWER, "turnSeconds": 6}
    own, answers = member(decide=(200, slow)), [(500, b"no"), (302, b"elsewhere"), (200, b"ok")]
    receiver = serving(lambda *_: answers.pop(0))
    with Pager([own.port], "--to", url(receiver)) as pager:
        status, text, took = pager.ask()
        compare("the third try", (status, text, len(receiver.came), took < 3 + NEAR), (200, "First", 3, True))
        compare("one question", len(taken(own, "/v1/decide")), 1)
        compare("tries that failed", pager.figures().get("maityrunga_pager_sends_failed_total"), 2)
    own, receiver = member(decide=[(200, ANSWER), (200, SKIP)]), serving(lambda *_: (500, b"no"))
    with Pager([own.port], "--to", url(receiver)) as pager:
        status, text, took = pager.ask()
        compare("where it can't be sent", (status, text), (200, "Skip"))
        check("all turns are waited for", abs(took - 3 * TURN) < NEAR, took)
        check("nothing is sent in others' turns", all(it[0] - taken(own, "/v1/decide")[0][0] < TURN for it in receiver.came))


def dripping_body():
    """The port of a receiver that answers 200 at once, with a body that goes on and on, a byte at a time."""
    server = socket.create_server(("127.0.0.1", 0))

    def drip():
        stream = server.accept()[0]
        with contextlib.suppress(OSError):
            stream.sendall(b"HTTP/1.1 200 OK\r\nConnection: close\r\n\r\n")
            while True:
                stream.sendall(b"x")
                time.sleep(0.1)

    threading.Thread(target=drip, daemon=True).start()
    return server.getsockname()[1]


def test_slow_receiver(_folder):
    """A receiver that drips its reply is given up in time."""

    def drip(*_):
        time.sleep(4 * TURN)
        return 200, b"ok"

    own, receiver = member(decide=[(200, ANSWER), (200, SKIP)]), serving(drip)
    with Pager([own.port], "--to", url(receiver)) as pager:
        status, text, took = pager.ask()
        compare("a slow receiver", (status, text), (200, "Skip"))
        check("it is given up", abs(took - 3 * TURN) < NEAR, took)
    own, dripping = member(decide=[(200, ANSWER), (200, SKIP)]), dripping_body()
    with Pager([own.port], "--to", f"http://127.0.0.1:{dripping}/") as pager:
        status, text, took = pager.ask()
        compare("a reply that has no end", (status, text), (200, "First"))
        check("it is cut", took < TURN / 2 + NEAR, took)


# The host `pages.test` has two addresses, and `slow.test` has one, which is found after a second and a half.
TWO_ADDRESSES = """
import socket
import time
real = socket.getaddrinfo

def found(host, *words, **named):
    if host == "slow.test":
        time.sleep(1.5)
        host = "127.0.0.1"
    hosts = ("127.0.0.2", "127.0.0.1") if host == "pages.test" else (host,)
    return [it for one in hosts for it in real(one, *words, **named)]

socket.getaddrinfo = found
"""


@contextlib.contextmanager
def silent(port):
    """Has the address 127.0.0.2 neither take nor refuse connections: as many as it has room for wait already."""
    with socket.create_server(("127.0.0.2", port), backlog=0), contextlib.ExitStack() as waiting:
        with contextlib.suppress(TimeoutError):
            while True:
                waiting.enter_context(socket.create_connection(("127.0.0.2", port), 0.5))
        yield


def test_silent_address(folder):
    """A host's second address has its part of the time if the first is silent, and what hangs there is given up in time."""
    with open(f"{folder}/sitecustomize.py", "w", encoding="utf-8") as file:
        file.write(TWO_ADDRESSES)
    own, receiver = member(decide=(200, {**ANSWER, "turnSeconds": 8})), accepting()
    with silent(receiver.port), Pager([own.port], "--to", f"http://pages.test:{receiver.port}/", PYTHONPATH=folder) as pager:
        compare("one silent address", pager.ask()[:2], (200, "First"))
    took = receiver.came[0][0] - taken(own, "/v1/decide")[0][0]
    check("the page comes in the first half of the turn", took < 4 - NEAR, took)
    over = threading.Event()
    own, receiver = member(decide=[(200, ANSWER), (200, SKIP)]), serving(lambda *_: (200, b"ok") if over.wait(PATIENCE) else None)
    with silent(receiver.port), Pager([own.port], "--to", f"http://pages.test:{receiver.port}/", PYTHONPATH=folder) as pager:
        status, text, took = pager.ask()
        over.set()
    compare("one silent, and one that hangs", (status, text), (200, "Skip"))
    check("it is given up", abs(took - 3 * TURN) < NEAR, took)
    own, receiver = member(decide=[(200, ANSWER), (200, SKIP)]), accepting()
    with Pager([own.port], "--to", f"http://slow.test:{receiver.port}/", PYTHONPATH=folder) as pager:
        compare("a name that is found too late", (pager.ask()[:2], receiver.came), ((200, "Skip"), []))


def test_https(folder):
    """A page goes to a receiver of HTTPS whose certificate holds; and one that makes no handshake is given up in time."""
    if not shutil.which("openssl"):
        skip("a receiver of HTTPS: openssl is not there")
        return
    certificate, key = f"{folder}/certificate.pem", f"{folder}/key.pem"
    words = "openssl req -x509 -newkey ec -pkeyopt ec_paramgen_curve:prime256v1 -nodes -days 2 -subj /CN=pages -addext subjectAltName=IP:127.0.0.1"
    made = outcome([*words.split(), "-keyout", key, "-out", certificate])
    compare("a certificate", made[0], 0)
    own, receiver = member(decide=[(200, ANSWER), (200, ANSWER), (200, SKIP)]), accepting()
    context = ssl.SSLContext(ssl.PROTOCOL_TLS_SERVER)
    context.load_cert_chain(certificate, key)
    receiver.socket = context.wrap_socket(receiver.socket, server_side=True)
    to = f"https://127.0.0.1:{receiver.port}/hook"
    with Pager([own.port], "--to", to, SSL_CERT_FILE=certificate) as pager:
        compare("a certificate that holds", (pager.ask()[:2], len(receiver.came)), ((200, "First"), 1))
    with Pager([own.port], "--to", to) as pager:
        compare("one that doesn't", (pager.ask()[:2], len(receiver.came)), ((200, "Skip"), 1))
        check("a line says it", any("certificate" in it for it in pager.lines), pager.lines)
    own = member(decide=[(200, ANSWER), (200, SKIP)])
    with socket.create_server(("127.0.0.1", 0)) as silence:
        with Pager([own.port], "--to", f"https://127.0.0.1:{silence.getsockname()[1]}/") as pager:
            status, text, took = pager.ask()
            compare("no handshake", (status, text), (200, "Skip"))
            check("it is given up", abs(took - 3 * TURN) < NEAR, took)


def test_many_alerts(_folder):
    """A page of many alerts that are muted is sent at once."""
    labels = [{"a": f"{it:05}"} for it in range(20_000)]
    message = {**MESSAGE, "alerts": [{"status": "firing", "labels": it} for it in labels]}
    muted = {**ANSWER, "muted": [{"labels": it} for it in labels[1:]]}
    own, receiver = member(decide=(200, muted)), accepting()
    with Pager([own.port], "--to", url(receiver)) as pager:
        compare("20,000 alerts", pager.ask(json.dumps(message, separators=(",", ":")).encode())[:2], (200, "First"))
    compare("one goes out", [it["labels"] for it in json.loads(receiver.came[0][2])["alerts"]], labels[:1])
    took = receiver.came[0][0] - taken(own, "/v1/decide")[0][0]
    check("it goes out at once", took < 4, took)


def test_other_member(_folder):
    """Where its member is down another one decides, at once, when the turn of its own comes."""
    (port,) = free_ports(1)
    own, other, receiver = member("b", port=port), member("c"), accepting()
    with Pager([port, other.port], "--to", url(receiver)) as pager:
        compare("while it is there", (pager.ask()[:2], len(taken(other, "/v1"))), ((200, "First"), 0))
        own.shutdown()
        own.server_close()
        status, text, took = pager.ask(query="?wait=true&repeat=60")
        compare("when it is down", (status, text, len(receiver.came)), (200, "First", 2))
        check("b's turn is the second of three", abs(took - TURN) < NEAR, took)
        compare("how it is asked", taken(other, "/v1/decide")[0][1], "/v1/decide?repeat=60&wait=false")
        compare("it is told", len(taken(other, "/v1/notified")), 1)
        failed = pager.figures().get("maityrunga_pager_requests_failed_total", member=f"127.0.0.1:{port}")
        check("failures are counted", failed >= 1, failed)
    other = member("c")
    with Pager([port, other.port], "--to", url(receiver)) as pager:
        status, text, took = pager.ask()
        compare("where it was never there", (status, text), (200, "First"))
        check("all turns are waited for", abs(took - 3 * TURN) < NEAR, took)


def test_member_back(_folder):
    """A member that is down, where there is no other one, is asked again when all turns are over; and one that took too long."""
    own, receiver = member(decide=[(503, b'"not ready"'), (200, ANSWER)]), accepting()
    with Pager([own.port], "--to", url(receiver)) as pager:
        status, text, took = pager.ask()
        compare("it is back", (status, text, len(receiver.came)), (200, "First", 1))
        check("all turns are waited for", abs(took - 3 * TURN) < NEAR, took)

    def late():
        time.sleep(TURN)
        return 503, b'"member stops"'

    own, other, receiver = member(decide=late), member("b"), accepting()
    with Pager([own.port, other.port], "--to", url(receiver)) as pager:
        status, text, took = pager.ask()
        compare("another one decides", (status, text, len(taken(own, "/v1/decide"))), (200, "First", 1))
        check("in the next turn of its own", abs(took - 3 * TURN) < NEAR, took)


def test_bad_members(_folder):
    """Members that answer something else are passed over; one that refuses a message is believed."""
    for answer in ((503, b'"too many wait"'), (500, b'"clock ran back"'), (200, b"{}"), (200, b"<html>"), (404, b'"no such path"')):
        own, other, receiver = member("a", decide=answer), member("b"), accepting()
        with Pager([own.port, other.port], "--to", url(receiver)) as pager:
            compare(f"a member that answers {answer}", (pager.ask()[:2], len(receiver.came)), ((200, "First"), 1))
    own, other, receiver = member(decide=(400, b'"truncated alerts"')), member("b"), accepting()
    with Pager([own.port, other.port], "--to", url(receiver)) as pager:
        compare("a message that is refused", pager.ask()[:2], (400, "truncated alerts"))
        compare("no other one is asked, and nothing sent", (taken(other, "/v1"), receiver.came), ([], []))


def test_reports(_folder):
    """A member that doesn't hear of a page is told again, by itself, and first of all at the group's next question."""
    own, receiver = member(decide=[(200, ANSWER), (200, SKIP)], notified=[(500, b'"state too large"')] * 3 + [(200, b"{}")]), accepting()
    with Pager([own.port], "--to", url(receiver)) as pager:
        status, text, took = pager.ask()
        compare("the answer doesn't wait for it", (status, text, took < NEAR), (200, "First", True))
        compare("it waits", pager.figures().get("maityrunga_pager_reports_waiting"), 1)
        check("it is told again", eventually(lambda: len(taken(own, "/v1/notified")) == 4, 10), len(own.came))
        check("then nothing waits", eventually(lambda: pager.figures().get("maityrunga_pager_reports_waiting") == 0, 5))
        time.sleep(2)
        compare("nor is it told once more", len(taken(own, "/v1/notified")), 4)
    own, other = member(notified=(500, b'"held, but not kept on disk"')), member("b")
    with Pager([own.port, other.port], "--to", url(receiver)) as pager:
        compare("a member that holds it alone", pager.ask()[0], 200)
        compare("another one is told, too", len(taken(other, "/v1/notified")), 1)
    own = member(notified=(500, b'"held, but not kept on disk"'))
    with Pager([own.port], "--to", url(receiver)) as pager:
        compare("where there is no other one", pager.ask()[0], 200)
        compare("that is enough", pager.figures().get("maityrunga_pager_reports_waiting"), 0)
    own = member(notified=(400, b'"bad message: repeat"'))
    with Pager([own.port], "--to", url(receiver)) as pager:
        compare("a member that refuses it", pager.ask()[0], 200)
        compare("it is dropped", pager.figures().get("maityrunga_pager_reports_dropped_total"), 1)


# The thread that tells members again can't start another one, twice.
NO_THREAD = """
import threading
real, failing = threading.Timer.start, [1, 1]

def start(timer):
    if threading.current_thread().name == "reports" and failing:
        failing.pop()
        raise RuntimeError("can't start new thread")
    real(timer)

threading.Timer.start = start
"""


def test_no_thread(folder):
    """A member is told again also when the system had no thread for it."""
    os.mkdir(f"{folder}/threads")
    with open(f"{folder}/threads/sitecustomize.py", "w", encoding="utf-8") as file:
        file.write(NO_THREAD)
    own = member(notified=[(500, b'"state too large"'), (200, {"logged": True})])
    with Pager([own.port], "--to", url(accepting()), PYTHONPATH=f"{folder}/threads") as pager:
        compare("a page", pager.ask()[:2], (200, "First"))
        check("a member hears of it", eventually(lambda: len(taken(own, "/v1/notified")) == 2, 10), own.came)
        check("a line says it", any("can't start new thread" in it for it in pager.lines), pager.lines)


def test_lines(_folder):
    """Nobody waits for whoever reads the lines: neither if nobody does, nor if they are never taken."""
    for what in ("gone", "full"):
        taking, giving = os.pipe()
        if what == "gone":
            os.close(taking)
        else:
            os.set_blocking(giving, False)
            with contextlib.suppress(BlockingIOError):
                while True:
                    os.write(giving, b"x" * 4096)
            os.set_blocking(giving, True)
        slow = {**ANSWER, "turnSeconds": 6}
        answers = [(500, b"no"), (200, b"ok")]
        own, receiver = member(decide=(200, slow)), serving(lambda *_: answers.pop(0))
        with Pager([own.port], "--to", url(receiver), to=giving) as pager:
            compare(f"{what}: a page", (pager.ask()[:2], len(receiver.came)), ((200, "First"), 2))
            pager.process.send_signal(signal.SIGTERM)
            compare(f"{what}: a stop", pager.process.wait(10), 0)
        os.close(giving)


def test_left(_folder):
    """Where Alertmanager doesn't wait any longer, the member's place is given back, and nothing is sent."""
    over = threading.Event()

    def decide():
        over.wait(PATIENCE)
        return 200, ANSWER

    own, receiver = member(decide=decide), accepting()
    with Pager([own.port], "--to", url(receiver)) as pager:
        with contextlib.suppress(OSError), socket.create_connection(("127.0.0.1", pager.port)) as stream:
            body = json.dumps(MESSAGE).encode()
            stream.sendall(b"POST / HTTP/1.1\r\nContent-Length: %d\r\n\r\n" % len(body) + body)
            check("the member is asked", eventually(lambda: taken(own, "/v1/decide")))
        check("it is over", eventually(lambda: any("left: " in it for it in pager.lines), 5), pager.lines)
        over.set()
        time.sleep(0.5)
        compare("nothing is sent", receiver.came, [])
        compare("it is counted", pager.figures().get("maityrunga_pager_questions_total", outcome="left"), 1)


def test_one_at_a_time(_folder):
    """Of questions of one group that come at once the second is asked once the first is done; other groups don't wait."""

    def decide():
        time.sleep(1)
        return 200, ANSWER

    own, receiver, found = member(decide=decide), accepting(), []
    with Pager([own.port], "--to", url(receiver)) as pager:
        messages = [MESSAGE, MESSAGE, {**MESSAGE, "groupKey": "other"}]
        threads = [threading.Thread(target=lambda it=it: found.append(pager.ask(it)[0])) for it in messages]
        for it in threads:
            it.start()
        for it in threads:
            it.join()
    moments = sorted((json.loads(it[2])["groupKey"], it[0]) for it in taken(own, "/v1/decide"))
    compare("all are answered", found, [200] * 3)
    check("one behind the other", 0.9 < moments[2][1] - moments[1][1] or moments[1][0] == "other", moments)
    same = [at for group, at in moments if group == MESSAGE["groupKey"]]
    check("and no earlier", abs(same[0] - same[1]) > 0.9, same)


def answers(pager):
    """Whether it answers 200; one that has no place for a connection may close it at once."""
    with contextlib.suppress(OSError):
        return pager.ask()[0] == 200
    return False


def test_bounds(_folder):
    """Messages, connections and slow clients are bounded."""
    own, receiver = member(), accepting()
    with Pager([own.port], "--to", url(receiver)) as pager:
        for length in ((1 << 20) + 1, -1, "x"):
            head = f"POST / HTTP/1.1\r\nContent-Length: {length}\r\n\r\n"
            check(f"a message of {length} bytes", b" 400 " in sent(("127.0.0.1", pager.port), head.encode(), close=False))
        for body in (b"", b"[]", b"{}", b"{", b"[" * 100_000, json.dumps({**MESSAGE, "alerts": [{}]}).encode()):
            compare(f"{body[:20]}", pager.ask(body)[0], 400)
        compare("a web site", pager.ask(Origin="http://example.org")[0], 400)
        compare("nobody was asked", taken(own, "/v1"), [])
        for path, wanted in (("/-/healthy", (200, "OK")), ("/other", (404, "no such path"))):
            compare(path, pager.ask(query="", method="GET", path=path)[:2], wanted)
        begun, streams = time.monotonic(), [socket.create_connection(("127.0.0.1", pager.port)) for _ in range(128)]
        check("one connection more", b" 503 " in sent(("127.0.0.1", pager.port), close=False))
        check("slow ones are closed", eventually(lambda: answers(pager), 20))
        check("in ten seconds", 8 < time.monotonic() - begun < 15, time.monotonic() - begun)
        check("that is counted", pager.figures().get("maityrunga_pager_questions_total", outcome="crowded") >= 1)
        for it in streams:
            it.close()


def test_stop(_folder):
    """At SIGTERM what waits is answered, what is sent is told, and the status is 0."""
    own, receiver, found = member(decide=(503, b'"not ready"'), name="a"), accepting(), []
    with Pager([own.port], "--to", url(receiver)) as pager:
        thread = threading.Thread(target=lambda: found.append(pager.ask()[:2]))
        thread.start()
        eventually(lambda: taken(own, "/v1/decide"))
        pager.process.send_signal(signal.SIGTERM)
        compare("the status", pager.process.wait(10), 0)
        thread.join(5)
        compare("who waits", found, [(503, "not answered in time")])

    def slow(*_):
        time.sleep(0.6)
        return 200, b"ok"

    own, receiver = member(), serving(slow)
    with Pager([own.port], "--to", url(receiver)) as pager:
        thread = threading.Thread(target=pager.ask)
        thread.start()
        eventually(lambda: receiver.came)
        pager.process.send_signal(signal.SIGTERM)
        compare("the status", pager.process.wait(10), 0)
        thread.join(5)
    compare("what was being sent is told", len(taken(own, "/v1/notified")), 1)


def test_stop_beside_silence(_folder):
    """A stop ends in time, though no member answers what it is told."""
    over = threading.Event()

    def hangs():
        over.wait(PATIENCE)
        return 500, b"no"

    members = [member(it, notified=[(500, b"no"), hangs]) for it in "abc"]
    with Pager([it.port for it in members], "--to", url(accepting())) as pager:
        for group in "gh":
            compare("a page", pager.ask({**MESSAGE, "groupKey": group})[0], 200)
        check("it waits", eventually(lambda: any(len(taken(it, "/v1/notified")) > 2 for it in members), 10))
        begun = time.monotonic()
        pager.process.send_signal(signal.SIGTERM)
        compare("the status", pager.process.wait(PATIENCE), 0)
        check("in 20 seconds", time.monotonic() - begun < 22, time.monotonic() - begun)
        over.set()


def test_words(folder):
    """The help has examples, and what can't be meant is refused."""
    status, output, _ = outcome([PAGER, "--help"])
    check("help", status == 0 and b"examples:" in output and b"max_alerts: 0" in output, output)
    with open(f"{folder}/bad", "w", encoding="utf-8") as file:
        file.write("no field\n")
    good = ["--listen", "1", "--member", "2"]
    rows = [[], good, [*good, "--to", "ftp://a/"], [*good, "--to", "http://a/", "--", "cat"], [*good, "--to", "http://u:p@a/"]]
    rows += [["--listen", "0", "--member", "2", "cat"], [*good, "--to", "http://a/", "--headers", f"{folder}/bad"], [*good, "--to", "http://a b/"]]
    rows += [[*good, "--send-limit", "0", "cat"], [*good, "--to", "http://a/", "--headers", f"{folder}/none"]]
    for words in rows:
        compare(f"{words}", outcome([PAGER, *words])[0], 2)
    with socket.create_server(("127.0.0.1", 0)) as holder:
        words = ["--listen", str(holder.getsockname()[1]), "--member", "2", "cat"]
        compare("a port that is taken", outcome([PAGER, *words])[::2], (3, "am_pager: Listen Address already in use\n"))
    own, receiver = member(), accepting()
    with contextlib.suppress(OSError), socket.create_server(("::1", 0), family=socket.AF_INET6) as holder:
        port = holder.getsockname()[1]
        holder.close()
        with Pager([own.port], "--to", url(receiver), listen=f"[::1]:{port}") as pager:
            pager.port = port
            compare("at an address of IPv6", pager.ask(host="::1")[:2], (200, "First"))


def main():
    tests = [test_sent, test_not_sent, test_command, test_send_again, test_slow_receiver, test_silent_address, test_https]
    tests += [test_many_alerts, test_other_member, test_member_back, test_bad_members, test_reports, test_no_thread, test_lines]
    tests += [test_left, test_one_at_a_time, test_bounds, test_stop, test_stop_beside_silence, test_words]
    with tempfile.TemporaryDirectory() as folder:
        try_each([it for it in tests if not sys.argv[1:] or it.__name__ in sys.argv[1:]], folder)
    finish("pager")


if __name__ == "__main__":
    main()
