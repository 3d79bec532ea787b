#!/usr/bin/env python3
"""Three real Alertmanagers that gossip meet the incidents and the faults of tests/pages.py, and it is told what they page.

    tests/real_pages.py [--seed N] [--seconds S]

They are Debian's prometheus-alertmanager on loopback; where it isn't installed nothing is tried. All rounds of one seed are drawn
as those of tests/pages.py. What one replica sends to another goes through a port of this script, by UDP and by TCP, which loses,
delays, repeats and cuts it as the weather between the two wants. A replica is a member and a notifier in one, so where a notifier
dies it is killed, behind a page before that is answered, and where one dozes its pages are answered late. Turns, intervals and
times are those of tests/pages.py, as far as there are flags for them. Nothing is judged but that they run: a table tells what was
paged, to stand beside that of tests/pages.py.
"""

import collections
import contextlib
import http.server
import json
import os
import random
import signal
import socket
import subprocess
import tempfile
import threading
import time
import urllib.request

from lib.alertmanagers import ALERTMANAGER, must_be_installed
from lib.api import moment
from lib.incidents import ALL_TURNS, GROUP_WAIT, INTERVAL, NAMES, NEED, TURN
from lib.incidents import Clock, Content, Judge, Page, Plan, Surroundings, Troubles, tell
from lib.members import PATIENCE, eventually, free_ports
from lib.proxies import WEATHERS, reset
from lib.rounds import parser, rounds
from lib.tally import check, finish
from pages import FIRST, LONGEST, ROUND

TITLE = "real pages"

CONFIG = """
route:
  receiver: pager
  group_by: [incident]
  group_wait: {wait}ms
  group_interval: {interval}ms
  repeat_interval: 4h
receivers: [{{name: pager, webhook_configs: [{{url: "http://127.0.0.1:{port}/{name}"}}]}}]
"""

# Flags that have them do as seldom and as often what members of tests/pages.py do.
FLAGS = [f"--cluster.peer-timeout={TURN}s", f"--cluster.settle-timeout={FIRST}s", "--cluster.gossip-interval=50ms"]
FLAGS += ["--cluster.pushpull-interval=1s", "--cluster.reconnect-interval=1s", "--log.level=error"]

# Which fates of a connection let nothing through, and which let it through late.
LOST, SLOW = ("lose", "swallow", "hold"), ("delay", "drip")


class Door:
    """The port at which the others meet a replica, by UDP and by TCP."""

    def __init__(self, round_, name, port):
        self.round, self.name, self.port = round_, name, port
        self.draw = random.Random(f"{round_.seed} door {name}")
        self.datagrams = socket.socket(socket.AF_INET, socket.SOCK_DGRAM)
        self.datagrams.bind(("127.0.0.1", port))
        self.listener = socket.create_server(("127.0.0.1", port), backlog=256)
        self.relays = {}

    def begin(self):
        self.round.thread(self.take_datagrams)
        self.round.thread(self.accept)

    def close(self):
        for it in (self.datagrams, self.listener, *self.relays.values()):
            with contextlib.suppress(OSError):
                it.shutdown(socket.SHUT_RDWR)
            it.close()

    def fate(self, pair):
        chances = WEATHERS[self.round.weather[pair]]
        (fate,) = self.draw.choices(list(chances), chances.values())
        return fate

    def take_datagrams(self):
        while not self.round.is_over.is_set():
            with contextlib.suppress(OSError):
                data, (_, port) = self.datagrams.recvfrom(65536)
                if sender := self.round.owners.get(port):
                    self.pass_datagram(self.relay(sender), data, (sender, self.name))

    def relay(self, sender):
        """The socket by which a replica meets what a sender sends, and to which it answers."""
        if sender not in self.relays:
            self.relays[sender] = socket.socket(socket.AF_INET, socket.SOCK_DGRAM)
            self.relays[sender].bind(("127.0.0.1", 0))
            self.round.thread(self.take_answers, sender)
        return self.relays[sender]

    def take_answers(self, sender):
        while not self.round.is_over.is_set():
            with contextlib.suppress(OSError):
                data, _ = self.relays[sender].recvfrom(65536)
                self.pass_datagram(self.datagrams, data, (self.name, sender))

    def pass_datagram(self, stream, data, pair):
        fate, to = self.fate(pair), ("127.0.0.1", self.round.replicas[pair[1]].own)
        if fate in LOST or fate == "cut":
            return
        if fate in SLOW:
            threading.Timer(self.draw.uniform(0, 3), stream.sendto, (data, to)).start()
            return
        for _ in range(2 if fate == "repeat" else 1):
            stream.sendto(data, to)

    def accept(self):
        while not self.round.is_over.is_set():
            with contextlib.suppress(OSError):
                stream, (_, port) = self.listener.accept()
                self.round.thread(self.meet, stream, port)

    def meet(self, stream, port):
        sender = self.round.owner_of(port)
        fate = self.fate((sender, self.name)) if sender else "pass_on"
        with contextlib.suppress(OSError), stream:
            if fate in LOST or fate in SLOW:
                time.sleep(self.draw.uniform(0, 3))
            if fate in LOST:
                reset(stream)
                return
            with socket.create_connection(("127.0.0.1", self.round.replicas[self.name].own), timeout=5) as other:
                stream.settimeout(10)
                other.settimeout(10)
                back = threading.Thread(target=self.pump, args=(other, stream, None), daemon=True)
                back.start()
                self.pump(stream, other, self.draw.randrange(2000) if fate == "cut" else None)
                back.join(10)

    def pump(self, source, target, most):
        """Passes on what comes, at most so much of it, and then ends the way there."""
        with contextlib.suppress(OSError):
            while data := source.recv(65536 if most is None else min(65536, most)):
                target.sendall(data)
                most = None if most is None else most - len(data)
            target.shutdown(socket.SHUT_WR)


class Replica:
    """An Alertmanager that is meddled with."""

    def __init__(self, round_, name, ports):
        self.round, self.name, self.folder = round_, name, f"{round_.folder}/{name}"
        self.web, self.own, door = ports
        self.door, self.generation, self.process = Door(round_, name, door), 0, None
        # whether it is killed behind its next page, and whether its pages are answered at once
        self.is_doomed, self.is_awake = threading.Event(), threading.Event()
        self.is_awake.set()
        os.mkdir(self.folder)
        with open(f"{self.folder}/config.yml", "w", encoding="utf-8") as file:
            wait, interval = int(1000 * GROUP_WAIT), int(1000 * INTERVAL)
            file.write(CONFIG.format(wait=wait, interval=interval, port=round_.hook.server_address[1], name=name))

    def start(self):
        self.generation += 1
        words = [ALERTMANAGER, f"--config.file={self.folder}/config.yml", f"--storage.path={self.folder}", *FLAGS]
        words += [f"--web.listen-address=127.0.0.1:{self.web}", f"--cluster.listen-address=127.0.0.1:{self.own}"]
        words += [f"--cluster.advertise-address=127.0.0.1:{self.door.port}"]
        others = [it for it in self.round.replicas.values() if it is not self]
        words += [f"--cluster.peer=127.0.0.1:{it.door.port}" for it in others]
        with open(f"{self.folder}/log", "ab") as log:
            self.process = subprocess.Popen(words, stdin=subprocess.DEVNULL, stdout=log, stderr=log)

    def request(self, method, target, body=None, limit=5):
        """The status and the body of a reply; no status where none comes."""
        headers = {"Content-Type": "application/json"}
        request = urllib.request.Request(f"http://127.0.0.1:{self.web}{target}", body or None, headers, method=method)
        try:
            with urllib.request.urlopen(request, timeout=limit) as reply:
                return reply.status, reply.read()
        except (OSError, ValueError):
            return None, b""

    def is_ready(self):
        status, body = self.request("GET", "/api/v2/status", limit=1)
        return status == 200 and json.loads(body)["cluster"]["status"] == "ready"

    def peers(self):
        status, body = self.request("GET", "/api/v2/status", limit=1)
        return len(json.loads(body)["cluster"]["peers"]) if status == 200 else 0

    def feed(self):
        """Tells it again and again which alerts fire, and which are over, as Prometheus does."""
        while not self.round.is_over.wait(0.3):
            alerts = list(self.alerts())
            if alerts:
                self.request("POST", "/api/v2/alerts", json.dumps(alerts).encode())

    def alerts(self):
        for it in self.round.plan.incidents:
            at = self.round.clock.now() - it.skew[self.name]
            if it.begins <= at < it.ends + INTERVAL + ALL_TURNS:
                content, begins, ends = it.content(at), self.round.moment(it.begins), self.round.moment(it.ends)
                yield from ({"labels": it.labels(part), "startsAt": begins} for part in content.firing)
                yield from ({"labels": it.labels(part), "startsAt": begins, "endsAt": ends} for part in content.resolved)

    # ---- what happens to it

    def work(self):
        acts = [*self.round.plan.members[self.name], *self.round.plan.notifiers[self.name]]
        for act in sorted(acts):
            if not self.round.clock.wait(act.at, self.round.is_over):
                return
            self.round.acts[act.name] += 1
            getattr(self, act.name)(act.lasts)

    def kill(self, lasts):
        self.end(lasts, signal.SIGKILL, "a member was killed")

    def die(self, lasts):
        self.end(lasts, signal.SIGKILL, "a notifier died")

    def stop(self, lasts):
        self.end(lasts, signal.SIGTERM, "a member was stopped")

    def end(self, lasts, number, kind):
        with self.round.troubles.of(kind, self.name):
            self.process.send_signal(number)
            self.process.wait(PATIENCE)
            if self.round.is_over.wait(lasts):
                return
            self.start()
            while not self.round.is_over.wait(0.1) and not self.is_ready():
                pass

    def freeze(self, lasts):
        with self.round.troubles.of("a member was frozen", self.name):
            self.process.send_signal(signal.SIGSTOP)
            self.round.is_over.wait(lasts)
            self.process.send_signal(signal.SIGCONT)
            self.request("GET", "/api/v2/status")

    def die_behind_a_page(self, lasts):
        self.is_doomed.set()
        until = time.monotonic() + INTERVAL
        while self.is_doomed.is_set() and time.monotonic() < until:
            self.round.is_over.wait(0.02)
        self.is_doomed.clear()
        self.die(lasts)

    def doze(self, lasts):
        with self.round.troubles.of("a notifier dozed", self.name):
            self.is_awake.clear()
            self.round.is_over.wait(lasts)
            self.is_awake.set()


class Server(http.server.ThreadingHTTPServer):
    """Takes many pages at once."""

    request_queue_size = 256


class Hook(http.server.BaseHTTPRequestHandler):
    """Takes a page."""

    def do_POST(self):
        body = json.loads(self.rfile.read(int(self.headers["Content-Length"])))
        round_ = self.server.round
        replica, at = round_.replicas[self.path[1:]], round_.clock.now()
        parts = lambda status: tuple(sorted(int(it["labels"]["part"]) for it in body["alerts"] if it["status"] == status))
        (incident,) = [it for it in round_.plan.incidents if it.name == body["groupLabels"]["incident"]]
        page = Page(incident, replica.name, Content(parts("firing"), parts("resolved")), at, at, at, at)
        page.start = replica.generation
        round_.pages.append(page)
        if replica.is_doomed.is_set():
            replica.process.kill()
            page.is_last = True
            replica.is_doomed.clear()
            return
        replica.is_awake.wait()
        with contextlib.suppress(OSError):
            self.send_response(200)
            self.send_header("Content-Length", "0")
            self.end_headers()
            page.logged = round_.clock.now()

    def log_message(self, *words):
        pass


class Round(Surroundings):
    """Three replicas, in a folder of their own."""

    def __init__(self, seed, seconds, folder):
        self.seed, self.folder, self.is_over, self.has_log = seed, folder, threading.Event(), False
        self.plan, self.clock = Plan(seed, seconds), Clock()
        self.troubles, self.pages, self.faults, self.acts = Troubles(self.clock), [], [], collections.Counter()
        self.weather = collections.defaultdict(lambda: "fair")
        self.hook = Server(("127.0.0.1", 0), Hook)
        self.hook.round = self
        threading.Thread(target=self.hook.serve_forever, daemon=True).start()
        ports = free_ports(3 * len(NAMES))
        self.replicas = {name: Replica(self, name, [ports.pop() for _ in range(3)]) for name in NAMES}
        self.members = [*self.replicas.values()]
        self.owners = {it.own: it.name for it in self.members}

    def moment(self, at):
        """A moment of the round as API v2 writes it."""
        return moment(int(1000 * (self.began + at)))

    def start_of(self, member):
        return member.generation

    def owner_of(self, port):
        """The replica that has a connection from that port."""
        with open("/proc/net/tcp", encoding="ascii") as file:
            rows = [it.split() for it in file]
        inodes = {f"socket:[{it[9]}]" for it in rows if it[1] == f"0100007F:{port:04X}"}
        for it in self.members:
            with contextlib.suppress(OSError):
                at = f"/proc/{it.process.pid}/fd"
                if any(os.readlink(f"{at}/{fd}") in inodes for fd in os.listdir(at)):
                    return it.name
        return None

    def thread(self, work, *given):
        threading.Thread(target=self.guarded, args=(work, *given), daemon=True).start()

    def guarded(self, work, *given):
        try:
            work(*given)
        except Exception as error:  # a fault of this script fails a case
            if not self.is_over.is_set():
                self.faults.append(f"{work}: {error!r}")

    def run(self):
        for it in self.members:
            it.door.begin()
        for it in self.members:
            it.start()
        ready = lambda: all(it.is_ready() and it.peers() == len(NAMES) for it in self.members)
        check("all are ready", eventually(ready), self.folder)
        self.clock.begun, self.began = time.monotonic(), time.time()
        for it in self.members:
            self.thread(it.feed)
            self.thread(it.work)
        self.begin_around()
        self.is_over.wait(self.plan.end)
        self.is_over.set()

    def set_weather(self, pair, weather):
        self.weather[pair] = weather

    def close(self):
        self.is_over.set()
        self.hook.shutdown()
        self.hook.server_close()
        for it in self.members:
            it.is_awake.set()
            if it.process is not None:
                it.process.kill()
                it.process.wait()
            it.door.close()


def play(seed, seconds, counts, causes):
    """One round."""
    print(f"{TITLE}: seed {seed}, {seconds} seconds", flush=True)
    with tempfile.TemporaryDirectory() as folder, contextlib.closing(Round(seed, seconds, folder)) as one:
        one.run()
        # whose turn it is stands in no order that is known here
        judge = Judge(one.plan, one.pages, one.troubles, LONGEST, dict.fromkeys(NAMES, max(NEED.values())))
        judge.judge()
        counts.update(judge.counts)
        causes.update(judge.causes)
        check("this script makes no mistake", not one.faults, one.faults[:3])
        for kind in ("lost", "muted"):
            for it in getattr(judge, kind):
                print(f"  {kind}: {it}", flush=True)


def main():
    words = parser(__doc__, 60).parse_args()
    must_be_installed(TITLE)
    counts, causes = collections.Counter(), collections.Counter()
    for seed, seconds in rounds(words, ROUND):
        play(seed, seconds, counts, causes)
    tell(counts, causes)
    finish(TITLE)


if __name__ == "__main__":
    main()
