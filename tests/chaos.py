#!/usr/bin/env python3
"""Three members whose network, processes and disks fail at random, while people post, update and end silences.

    tests/chaos.py [--seed N] [--seconds S] [--ignore log] [PROGRAM]

PROGRAM is crates/am_tool/out/am_tool if it isn't given; ./am_tool and rt ci build it. The members tick, pull and save by
themselves, and half of them keep logs, by a draw that is made again at some starts. What one sends to a peer goes through a
proxy, which may lose, delay, repeat, reorder and cut it; members are killed, frozen, stopped by signals and started again, and
their disks are full at times; silent, slow and broken clients are there all along, and now and then hundreds at once, floods of
frames of two bytes, pages of other sites, and requests that take long, of clients that may not wait for the reply. In the end the network is healed and all members run, and then all have to show
the same: what was acknowledged and surely held by a member that lives, or stands in its files, and nothing that nobody made.
Then all are stopped, and their files have to hold just that.

What may be lost is what a member without a log acknowledged that was killed before a save of it, and of which no connection had
come whole to a member that held it on. What one with a log acknowledged is held by it from then on, whatever comes: it stands
in its file and logs behind each end, and in each list that it shows. What is answered `held, but not kept on disk`, which is
right where the disk is full or was a moment ago, may last or not. Nothing else is left out.

The last check is of this script: it has to find members whose logs are gone before they start again. `--ignore log` tries such
members, and nothing else.

Chaos lasts S seconds, 20 by default, in two rounds or more of at most 30. In rounds of an odd seed all is kept. In those of
an even one silences are forgotten a few seconds after their end, and nobody ends one before that, since a member that
was away may bring back what others forgot. `--seed` repeats what is drawn at random, and not what the members make of it.
Nothing leaves 127.0.0.1. Prints each case that fails, and at the end how many passed.
"""

import base64
import collections
import contextlib
import json
import os
import random
import resource
import shutil
import signal
import socket
import tempfile
import threading
import time
from urllib.parse import quote

from lib import members
from lib.api import NOT_KEPT, NOT_READY, REFUSALS, moment, request, silence
from lib.error_lines import FLAWS
from lib.ledger import Ledger, now, shown, versions_of
from lib.members import LIMITED, PATIENCE, bytes_of, free_ports, outcome, parted, received, run
from lib.proxies import WEATHERS, Proxy
from lib.rounds import parser, rounds
from lib.tally import attempt, check, finish
from lib.wire import EMPTY_PUSH, TICK, delta, field, greeting, timestamp, varint

NAMES = ["a", "b", "c"]
STATES = {"sil": "silences", "nfl": "entries of the log"}

# What stands beside a file with what was taken since it was written: one log, and while a save goes on perhaps an older one.
LOGS = ["log.old", "log"]

# How long a connection may last, how often members do each thing, and how long they wait for a first Pull: in seconds.
TIME_LIMIT, EVERY, FIRST = 2, 1, 3
OPTIONS = ["--time-limit", str(TIME_LIMIT)]
OPTIONS += [word for what in ("tick", "pull", "save") for word in (f"--{what}-every", str(EVERY))]
AGAIN = ["--pull-first", "--pull-first-limit", str(FIRST)]

# Freezes a process as soon as one of four files is there. (Python is too slow for that.)
STOP_WITHIN = 'until [ -e "$2" ] || [ -e "$3" ] || [ -e "$4" ] || [ -e "$5" ]; do :; done; kill -STOP "$1"'

# How long a client waits for a reply; how late a save may be; and how long members may take to agree: in seconds.
REPLY, LATE_SAVE, AGREEMENT = 4, 1.5, 60

# For how many seconds a silence is kept after its end, in rounds of an odd and of an even seed.
RETENTIONS = {1: 432_000, 0: 4}

# The most that a round lasts, in seconds; how many clients post; and how much a disk holds, in bytes.
ROUND, CLIENTS, DISK = 30, 10, 16 << 20

# How many members keep a log, and how many begin or cease to at a start; and within how many seconds a lost log has to be found.
LOGGING, CHANGING, FOUND_WITHIN = 0.5, 0.25, 30

# How many ticks of the clock by which the system counts make a second.
CLOCK_TICKS = os.sysconf("SC_CLK_TCK")

# How many silent clients come at once, and how many frames that ask for something.
CROWD, FLOOD = 300, 1000

# What clients leave behind who mean no good.
OPENINGS = [
    b"",
    b"G",
    b"GET /api/v2/silences HTTP/1.1\r\nHost: a",
    b"GET /api/v2/silences HTTP/1.1\r\n\r\n",
    b"POST /api/v2/silences HTTP/1.1\r\nContent-Length: 500\r\n\r\n{",
    b"\xff\xfe garbage\r\n\r\n",
    b"\0",
    b"\0\1a",
    b"\0\1b\1\x50\x0a",
    b"\0\1q\4\0",
]

# Requests that take long: patterns that are large, and decisions about many alerts, or about a long label. None changes anything.
LARGE = ["(.?){8000}", *(rf"\pL{{300}}{number}" for number in range(20))]
ALERTS = [{"status": "firing", "labels": {"job": f"job {number}", "host": "h" * 200}} for number in range(200)]
LONG = [{"status": "firing", "labels": {"job": "ab" * 400_000}}]
MATCHERS = [{"name": "job", "value": it, "isRegex": True, "isEqual": True} for it in LARGE]
DEAR = [
    *(request("GET", "/api/v2/silences?filter=" + quote(f'job=~"{it}"')) for it in ("(.?){8000}", "client.*")),
    request("GET", "/api/v2/silences?" + "&".join("filter=" + quote(f'job=~"{it}"') for it in LARGE)),
    request("POST", "/api/v2/silences", json.dumps({**silence("x"), "matchers": MATCHERS}).encode()),
    *(
        request("POST", f"/v1/decide{query}", json.dumps({"groupKey": "dear", "receiver": "team", "alerts": alerts}).encode())
        for query in ("", "?wait=false")
        for alerts in (ALERTS, LONG)
    ),
]

# The reply to a page of another site.
FOREIGN = (403, b'"foreign host"')


class Disk:
    """A folder of a member, which can be filled: by a file system of its own, or else by a limit of its process."""

    def __init__(self, folder):
        self.folder, self.is_full = folder, False
        os.mkdir(folder)
        mount = ["mount", "-t", "tmpfs", "-o", f"size={DISK}", "tmpfs", folder]
        self.is_mounted = shutil.which("mount") is not None and outcome(mount)[0] == 0

    def fill(self, process):
        self.is_full = True
        if not self.is_mounted:
            resource.prlimit(process.pid, resource.RLIMIT_FSIZE, (1, resource.RLIM_INFINITY))
            return
        with open(f"{self.folder}/filler", "wb", buffering=0) as filler, contextlib.suppress(OSError):
            for size in (1 << 16, 1 << 12, 1):
                with contextlib.suppress(OSError):
                    while filler.write(bytes(size)) == size:
                        pass

    def free(self, process):
        if self.is_mounted:
            with contextlib.suppress(FileNotFoundError):
                os.remove(f"{self.folder}/filler")
        elif process.poll() is None:
            resource.prlimit(process.pid, resource.RLIMIT_FSIZE, (resource.RLIM_INFINITY, resource.RLIM_INFINITY))
        self.is_full = False

    def close(self):
        if self.is_mounted:
            outcome(["umount", "-l", self.folder])


class Member(members.Member):
    """A member that is meddled with, and what it surely holds while it lives."""

    front = LIMITED

    def __init__(self, name, port, disk):
        super().__init__(name, port, [], disk.folder)
        self.disk, self.starts = disk, 0
        # whether it keeps a log, and is robbed of it before a start; what it ever acknowledged with a log
        self.keeps_log, self.is_robbed, self.kept = False, False, []
        # the number of its start while it lives; what it acknowledged since, and when
        self.generation, self.acknowledged = None, []
        # what stood in its files and logs at its start; the same with what it surely took
        self.loaded, self.holds = {}, {}
        # whether it has answered since its start; whether it is frozen; when something was last done to it and to its disk
        self.is_open, self.is_frozen, self.meddled, self.full_at = False, False, 0.0, 0.0

    def command(self):
        return [*super().command(), *["--log"] * self.keeps_log]

    def begin(self, keeps_log):
        """Starts it, with a log or without; whether it listens, having loaded what stands in its files and logs."""
        found = {state: self.stands(state) for state in STATES}
        if self.is_robbed:
            self.rob()
        # from here on no reply is one of its former process
        self.starts += 1
        self.keeps_log, self.meddled, self.is_open = keeps_log, time.monotonic(), False
        listens = super().start()
        self.loaded = {**found["sil"], **found["nfl"]}
        self.acknowledged, self.holds = [], self.loaded
        self.generation = self.starts if listens else None
        return listens and self.lines[0].endswith(f"; loaded {len(found['sil'])} silences, {len(found['nfl'])} entries")

    def rob(self):
        """Takes its logs away."""
        for path in (f"{self.path(state)}.{log}" for state in STATES for log in LOGS):
            with contextlib.suppress(FileNotFoundError):
                os.remove(path)

    def path(self, state):
        return {"sil": self.sil, "nfl": self.nfl}[state]

    def file(self, state):
        """The versions in one of its files."""
        return versions_of(state, bytes_of(self.path(state)) or b"")

    def stands(self, state):
        """The versions in one of its files and in the logs beside it."""
        return versions_of(state, *(bytes_of(f"{self.path(state)}{it}") or b"" for it in ["", *(f".{log}" for log in LOGS)]))

    def saving(self):
        """What stands there while one of its files is being written, or where it ended meanwhile."""
        return [f"{self.path(state)}.{it}" for state in STATES for it in ("new", "log.old")]

    def had_room(self, at):
        """Whether there was room on its disk for long enough, at some moment, and has been since."""
        return not self.disk.is_full and at > self.full_at + EVERY + LATE_SAVE

    def processor_time(self):
        """For how long its process has run, and for how long it was ready to run and got no processor, in seconds: by this machine
        or by that which this one runs on, whose time is of all processes together."""
        with contextlib.suppress(OSError, ValueError):
            with open(f"/proc/{self.process.pid}/schedstat", encoding="ascii") as its, open("/proc/stat", encoding="ascii") as all_:
                ran, waited, _ = map(int, its.read().split())
                return ran / 10**9, waited / 10**9 + int(all_.readline().split()[8]) / CLOCK_TICKS
        return 0.0, 0.0

    def is_let_alone(self, since):
        """Whether nothing was done to it since then, and it answered before."""
        return self.generation is not None and self.is_open and not self.is_frozen and self.meddled < since

    def request(self, method, path, body=b""):
        """The status and the body of a reply; no status where it is not known what came of it, 0 where nothing did."""
        generation = self.generation
        try:
            stream = socket.create_connection(("127.0.0.1", self.port), timeout=REPLY)
        except OSError:
            return 0, b""
        try:
            with stream:
                stream.sendall(request(method, path, body))
                status, body = parted(received(stream))
        except OSError:
            return None, b""
        if status and (status, body) != NOT_READY and not self.is_open and generation == self.generation:
            self.meddled, self.is_open = time.monotonic(), True
        return status, body

    def saved(self, state, at):
        """What stands in one of its files at a moment, in milliseconds, as `show` tells it in JSON."""
        with open(self.path(state), "rb") as file:
            words = ["show", "--state", state, "--json", "--now", str(at * 10**6)]
            status, output, error = run(words, stdin=file)
        return json.loads(output) if status == 0 else error


class Client:
    """Somebody who posts, updates and ends silences of their own at members, and looks at those of all."""

    def __init__(self, round_, name):
        self.round, self.ledger, self.name = round_, round_.ledger, name
        self.draw = random.Random(f"{round_.seed} {name}")
        self.keys, self.count = [], 0

    def work(self):
        while not self.round.is_over.wait(self.draw.uniform(0.005, 0.06)):
            # mostly one that answers, since the others keep them waiting
            is_any = self.draw.random() < 0.1
            found = [it for it in self.round.members if is_any or it.is_let_alone(time.monotonic())]
            (act,) = self.draw.choices([self.post, self.update, self.end, self.look], [45, 30, 15, 10])
            if act == self.end and self.round.seed % 2 == 0 or act in (self.update, self.end) and not self.keys:
                act = self.post
            if found:
                act(self.draw.choice(found))

    def ask(self, member, method, path, value=None):
        """A reply of a member, which has to come where it is let alone and gets its processor."""
        begun, former = time.monotonic(), member.processor_time()
        reply = member.request(method, path, b"" if value is None else json.dumps(value).encode())
        self.ledger.counts["requests"] += 1
        took = time.monotonic() - begun
        if member.is_let_alone(begun):
            self.round.slowest = max(self.round.slowest, took)
            if not reply[0]:
                ran, waited = (now - then for now, then in zip(member.processor_time(), former))
                times = f"after {took:.2f} s, of which it ran {ran:.2f} s and waited {waited:.2f} s for a processor"
                if waited < TIME_LIMIT / 4:
                    self.round.complain("answers", f"{member.name} {method} {path} {times}")
                else:
                    self.round.starved.append(f"{member.name} {method} {path} {times}")
        if reply == NOT_KEPT and member.had_room(begun):
            self.round.complain("room", f"{member.name} {method} {path}")
        return reply

    def posted(self, value, ends_in, starts_in=0.0, key=None):
        """A silence to post, and its comment and its end in milliseconds, by which it is known again."""
        self.count += 1
        comment, ends = f"{self.name} {self.count}", now() + int(1000 * ends_in)
        matcher = {"name": "job", "value": value, "isRegex": False, "isEqual": True}
        found = {"matchers": [matcher], "startsAt": moment(now() + int(1000 * starts_in)), "endsAt": moment(ends)}
        return {**found, "createdBy": self.name, "comment": comment, **({"id": key} if key else {})}, comment, ends

    def post(self, member):
        starts_in = self.draw.choice([0, 0, 0, 3, 600])
        ends_in = starts_in + self.draw.choice([2, 7, 3600, 7200])
        silence, comment, ends = self.posted(f"{self.name} {self.count}", ends_in, starts_in)
        key = self.try_post(member, silence, self.ledger.begin("post", None, comment, ends))
        if key is not None:
            self.keys.append(key)

    def update(self, member):
        key = self.draw.choice(self.keys)
        status, body = self.ask(member, "GET", f"/api/v2/silence/{key[1]}")
        if status != 200:
            return
        former = json.loads(body)
        silence, comment, ends = self.posted("", self.draw.choice([3600, 7200]), key=key[1])
        silence["matchers"], silence["startsAt"] = former["matchers"], former["startsAt"]
        made = self.try_post(member, silence, self.ledger.begin("update", key, comment, ends))
        if made is not None and made != key:
            self.keys.append(made)

    def try_post(self, member, silence, operation):
        """The key of what a post made, where it is acknowledged."""
        generation = member.generation
        status, body = self.ask(member, "POST", "/api/v2/silences", silence)
        if status == 200:
            key = ("sil", json.loads(body)["silenceID"])
            self.acknowledge(operation, key, member, generation)
            return key
        self.fail(member, operation, status, body)
        return None

    def end(self, member):
        key, generation = self.draw.choice(self.keys), member.generation
        operation = self.ledger.begin("end", key)
        status, body = self.ask(member, "DELETE", f"/api/v2/silence/{key[1]}")
        if status == 200:
            self.acknowledge(operation, key, member, generation)
        else:
            self.fail(member, operation, status, body)

    def acknowledge(self, operation, key, member, generation):
        """Writes down that a member says that an operation is made, and whether its log keeps it."""
        with self.ledger.lock:
            self.ledger.acknowledge(operation, key, member, generation)
            if generation == member.starts and member.keeps_log:
                self.ledger.counts["kept"] += 1
                member.kept.append(operation)

    def fail(self, member, operation, status, body):
        """Writes down that an operation was refused, where that is known: what isn't kept on disk is held, for now."""
        if (status, body) == NOT_KEPT:
            self.ledger.counts["not kept"] += 1
            return
        if status is not None:
            self.ledger.refuse(operation)
        if status and (status, body) not in REFUSALS:
            self.round.complain("refusals", f"{member.name}: {operation}: {status} {body!r}")

    def look(self, member):
        begun, kept = now(), [*member.kept]
        status, body = self.ask(member, "GET", "/api/v2/silences")
        if status != 200:
            return
        found = json.loads(body)
        keys = [it["id"] for it in found]
        if keys != sorted(set(keys)):
            self.round.complain("lists", f"{member.name}: {keys}")
        versions = {it.key: it for it in map(shown, found)}
        for it in versions.values():
            if not self.ledger.has_begun(it) or self.ledger.is_forgotten(it.ends, begun):
                self.round.complain("lists", f"{member.name}: {it}")
        for it in kept:
            if not it.is_passed_by(versions.get(it.key)) and not self.ledger.is_forgotten(it.ends):
                self.round.complain("kept", f"{member.name} doesn't show {it}")


class Meddler:
    """What happens to one member."""

    def __init__(self, round_, member):
        self.round, self.member, self.ledger = round_, member, round_.ledger
        self.draw = random.Random(f"{round_.seed} {member.name}")
        self.client = Client(round_, f"last of {member.name}")

    def work(self):
        acts = [self.freeze, self.kill, self.kill_behind_a_post, self.kill_within_a_save, self.stop, self.fill]
        while not self.round.is_over.wait(self.draw.uniform(0.3, 4)):
            (act,) = self.draw.choices(acts, [3, 2, 2, 2, 2, 3])
            self.round.acts[act.__name__] += 1
            act()

    def go_on_killing(self):
        while not self.round.is_over.wait(self.draw.uniform(0.3, 4)):
            self.kill_behind_a_post()

    def pause(self, most):
        self.round.is_over.wait(self.draw.uniform(0, most))

    def freeze(self):
        member = self.member
        member.is_frozen, member.meddled = True, time.monotonic()
        member.process.send_signal(signal.SIGSTOP)
        self.pause(3)
        member.process.send_signal(signal.SIGCONT)
        member.is_frozen, member.meddled = False, time.monotonic()

    def kill(self):
        self.crash()
        self.pause(2)
        self.begin()

    def kill_behind_a_post(self):
        self.client.post(self.member)
        self.kill()

    def kill_within_a_save(self):
        """Kills a member as soon as one of its files is being written."""
        pid, paths = self.member.process.pid, self.member.saving()
        outcome(["timeout", str(EVERY + LATE_SAVE), "bash", "-c", STOP_WITHIN, "bash", str(pid), *paths])
        self.kill()

    def stop(self):
        self.halt(self.draw.choice([signal.SIGTERM, signal.SIGINT]))
        self.pause(2)
        self.begin()

    def fill(self):
        self.member.disk.fill(self.member.process)
        self.member.full_at = time.monotonic()
        self.pause(3)
        if self.draw.random() < 0.3:
            self.draw.choice([self.kill, self.stop])()
        self.member.disk.free(self.member.process)
        self.member.full_at = time.monotonic()
        if self.member.generation is None:
            self.begin()

    def begin(self):
        """Starts a member. Where it is to begin a log, and its disk is full, it may refuse to."""
        member = self.member
        keeps_log = member.keeps_log if member.is_robbed else member.keeps_log != (self.draw.random() < CHANGING)
        is_full = member.disk.is_full
        if not member.begin(keeps_log) and not (keeps_log and is_full and member.generation is None and member.end() == 3):
            self.round.complain("starts", f"{member.name}, with a log: {keeps_log}: {member.lines}")
        self.round.acts["starts with a log" if keeps_log else "starts without"] += 1

    def leave(self):
        """Takes from a member, before it ends, what it acknowledged and what it held."""
        member = self.member
        with self.ledger.lock:
            left = member.acknowledged, member.holds
            member.generation, member.acknowledged, member.holds = None, [], {}
        if member.process.poll() is not None:
            self.round.complain("lives", f"{member.name} ended by itself: {member.lines[-3:]}")
        return left

    def crash(self):
        """Kills a member, behind which its file and log have what it acknowledged some time ago, where nothing was done to it."""
        member, killed = self.member, time.monotonic()
        acknowledged, _ = self.leave()
        member.kill()
        self.told()
        self.judge_kept()
        self.round.acts["saves cut off"] += any(map(os.path.exists, member.saving()))
        found = member.stands("sil")
        for at, operation in acknowledged:
            is_late = member.meddled < at < killed - EVERY - LATE_SAVE and member.had_room(at)
            if is_late and not operation.stands_in(found) and not self.ledger.is_forgotten(operation.ends):
                self.round.complain("saves", f"{member.name} acknowledged {killed - at:.1f} s before: {operation}")

    def halt(self, number):
        """Stops a member by a signal, behind which its files have all that it acknowledged and held."""
        member = self.member
        acknowledged, holds = self.leave()
        is_full = member.disk.is_full
        member.process.send_signal(number)
        begun, status = time.monotonic(), member.end()
        self.told()
        self.judge_kept()
        if is_full:
            return
        if status != 0 or time.monotonic() - begun > TIME_LIMIT + REPLY:
            self.round.complain("stops", f"{member.name} {number}: {status} after {time.monotonic() - begun:.1f} s")
        found = {**member.file("sil"), **member.file("nfl")}
        lost = [it for _, it in acknowledged if not it.stands_in(found)]
        lost += [it for it in holds.values() if it.key not in found or found[it.key].updated < it.updated]
        for it in lost:
            if not self.ledger.is_forgotten(it.ends):
                self.round.complain("stops", f"{member.name} {number} lost {it}")

    def judge_kept(self):
        """Looks whether in the files and logs of a member that ended stands what stood there at its start, and what it ever
        acknowledged with a log."""
        member, found = self.member, {**self.member.stands("sil"), **self.member.stands("nfl")}
        lost = [it for it in member.loaded.values() if it.key not in found or found[it.key].updated < it.updated]
        lost += [it for it in [*member.kept] if not it.stands_in(found)]
        for it in lost:
            if not self.ledger.is_forgotten(it.ends):
                self.round.complain("kept", f"{member.name} {member.starts} lost {it}")

    def told(self):
        """Looks at what a member printed while it ran."""
        for line in self.member.lines:
            if not line.startswith("am_tool: ") or line.endswith(FLAWS):
                self.round.complain("lines", f"{self.member.name}: {line}")


class Round:
    """Three members with their proxies, in folders of their own."""

    def __init__(self, seed, top, is_robbed=False):
        self.seed, self.retention, self.is_over = seed, RETENTIONS[seed % 2], threading.Event()
        self.is_robbed = is_robbed
        self.ledger = Ledger(1000 * self.retention)
        self.complaints, self.acts, self.slowest = collections.defaultdict(list), collections.Counter(), 0.0
        self.starved = []
        self.draw = random.Random(f"{seed} weather")
        self.members = [Member(name, port, Disk(f"{top}/{name}")) for name, port in zip(NAMES, free_ports(3))]
        self.proxies = [self.proxy(it, peer) for it in self.members for peer in self.members if it is not peer]
        self.meddlers = [Meddler(self, it) for it in self.members]

    def proxy(self, member, peer):
        taken = lambda generation, data: self.ledger.taken(peer, generation, data)
        proxy = Proxy(peer, f"{self.seed} {member.name} {peer.name}", TIME_LIMIT / 2, taken)
        member.words += ["--peer", f"{peer.name}={proxy.port}"]
        return proxy

    def complain(self, kind, what):
        with self.ledger.lock:
            self.complaints[kind].append(what)
        if self.is_robbed and kind == "kept":
            self.is_over.set()

    def run(self, seconds):
        """Has all that may go wrong go wrong for some time, while clients work."""
        for it in self.members:
            it.words += [*OPTIONS, "--retention", str(self.retention)]
            if not it.begin(self.is_robbed or self.draw.random() < LOGGING):
                raise ValueError(f"{it.name} does not start: {it.lines}")
            # all begin with nothing; later starts pull before they answer
            it.words += AGAIN
        clients = [Client(self, f"client {number}") for number in range(CLIENTS)]
        work = [it.work for it in clients]
        if self.is_robbed:
            self.rob()
            work += [it.go_on_killing for it in self.meddlers]
        else:
            work += [it.work for it in self.meddlers] + [self.change_weather, self.loiter, self.notify, self.pester]
        threads = [threading.Thread(target=self.guarded, args=(it,), daemon=True) for it in work]
        for it in threads:
            it.start()
        self.is_over.wait(seconds)
        self.is_over.set()
        for it in threads:
            it.join(PATIENCE)

    def rob(self):
        """From now on each member loses its logs at each start, and no peer brings back what was in them."""
        for it in self.members:
            it.is_robbed = True
        for it in self.proxies:
            it.weather = "apart"

    def guarded(self, work):
        try:
            work()
        except Exception as error:  # a fault of this script fails a case
            self.complain("script", f"{work}: {error!r}")

    def change_weather(self):
        while not self.is_over.wait(self.draw.uniform(0.1, 0.8)):
            weather = self.draw.choice([*WEATHERS, "storm"])
            chosen = self.draw.choice([[it] for it in self.proxies] + [self.around(it) for it in self.members])
            for it in chosen:
                it.weather = weather

    def around(self, member):
        """The proxies through which others reach a member, and it reaches them."""
        own = {word.rpartition("=")[2] for word in member.words}
        return [it for it in self.proxies if it.peer is member or str(it.port) in own]

    def loiter(self):
        """Clients that say nothing, too little or nonsense, and stay, or don't read their replies."""
        draw, streams = random.Random(f"{self.seed} loiterers"), collections.deque()
        while not self.is_over.wait(0.05):
            with contextlib.suppress(OSError):
                stream = socket.create_connection(("127.0.0.1", draw.choice(self.members).port), timeout=0.5)
                streams.append(stream)
                stream.sendall(draw.choice(OPENINGS))
            while len(streams) > 40:
                streams.popleft().close()
        for it in streams:
            it.close()

    def notify(self):
        """Brings entries of the log to members, under the name of a peer."""
        draw = random.Random(f"{self.seed} notified")
        while not self.is_over.wait(draw.uniform(0.05, 0.3)):
            member, group = draw.choice(self.members), f"group {draw.randrange(50)}"
            seconds = time.time_ns() // 10**9
            generation, begun, data = member.generation, time.monotonic(), entry(group, seconds)
            self.ledger.entries["nfl", group].add(seconds * 1000)
            data = greeting(draw.choice([it for it in NAMES if it != member.name])) + delta("nfl", data)
            with contextlib.suppress(OSError):
                with socket.create_connection(("127.0.0.1", member.port), timeout=TIME_LIMIT) as stream:
                    stream.sendall(data)
                    stream.shutdown(socket.SHUT_WR)
                    if stream.recv(1) == b"" and time.monotonic() - begun < TIME_LIMIT / 2:
                        self.ledger.taken(member, generation, data)

    def pester(self):
        """Hundreds of silent clients at once, floods of frames that ask for something, pages of other sites, and requests that take
        long."""
        draw = random.Random(f"{self.seed} pests")
        while not self.is_over.wait(draw.uniform(0.2, 1.5)):
            act = draw.choice([self.crowd, self.flood, self.page, self.dear])
            self.acts[act.__name__] += 1
            with contextlib.suppress(OSError):
                act(draw, draw.choice(self.members))

    def crowd(self, draw, member):
        with contextlib.ExitStack() as stack:
            for _ in range(CROWD):
                stack.enter_context(socket.create_connection(("127.0.0.1", member.port), timeout=0.5))
            self.is_over.wait(draw.uniform(0, 0.5))

    def flood(self, draw, member):
        peer = draw.choice([it for it in NAMES if it != member.name])
        with socket.create_connection(("127.0.0.1", member.port), timeout=TIME_LIMIT) as stream:
            stream.sendall(greeting(peer) + draw.choice([EMPTY_PUSH, TICK]) * FLOOD)
            stream.shutdown(socket.SHUT_WR)
            stream.recv(1)

    def dear(self, draw, member):
        with socket.create_connection(("127.0.0.1", member.port), timeout=TIME_LIMIT) as stream:
            stream.sendall(draw.choice(DEAR))
            if draw.random() < 0.5:
                received(stream)

    def page(self, _, member):
        begun, post = time.monotonic(), request("POST", "/api/v2/silences", b'{"comment": "of a page"}', "pages.example")
        with socket.create_connection(("127.0.0.1", member.port), timeout=TIME_LIMIT) as stream:
            stream.sendall(post)
            reply = parted(received(stream))
        if member.is_let_alone(begun) and reply != FOREIGN:
            self.complain("pages", f"{member.name}: {reply}")

    # ---- the end

    def heal(self):
        """Has everything go well from now on, and waits until nothing is on its way that was delayed."""
        for it in self.proxies:
            it.weather = "fair"
        late = [thread for it in self.proxies for thread in it.threads]
        for it in self.meddlers:
            it.member.disk.free(it.member.process)
            if it.member.process.poll() is not None:
                self.complain("lives", f"{it.member.name} ended by itself: {it.member.lines[-3:]}")
                it.begin()
        for thread in late:
            thread.join(PATIENCE)

    def listed(self):
        """What each member lists."""
        replies = [it.request("GET", "/api/v2/silences") for it in self.members]
        return [json.loads(body) if status == 200 else None for status, body in replies]

    def judge(self):
        """Waits until all show the same, with all that lasts, and looks at it and at the files that they leave."""
        begun = time.monotonic()
        are_same = lambda lists: lists[0] is not None and lists[1:] == lists[:1] * 2
        while True:
            lists = self.listed()
            missing = self.missing(lists)
            self.took = time.monotonic() - begun
            if are_same(lists) and not missing or self.took > AGREEMENT:
                break
            time.sleep(0.1)
        check("all list the same", are_same(lists), self.differences(lists))
        check("what was acknowledged and surely held is there", not missing, missing[:5])
        listed = [shown(silence) for it in lists for silence in it or []]
        unmade = [it for it in listed if not self.ledger.is_made(it)]
        check("nobody shows what nobody made", not unmade, unmade[:5])
        comments = collections.Counter(it["comment"] for it in lists[0] or [])
        check("no post made two silences", max(comments.values(), default=1) == 1, comments.most_common(3))
        self.judge_files(lists[0] or [])

    def missing(self, lists):
        """The operations that have to last and aren't listed everywhere, and versions that were surely taken alike."""
        found = [{it.key: it for it in map(shown, silences or [])} for silences in lists]
        with self.ledger.lock:
            lasting = self.ledger.lasting(self.members)
            taken = [it for member in self.members for it in list(member.holds.values()) if it.key[0] == "sil"]
        self.ledger.counts["lasting"] = len(lasting)
        lost = [it for it in lasting if not all(it.is_passed_by(versions.get(it.key)) for versions in found)]
        is_there = lambda it, versions: it.key in versions and it.updated <= versions[it.key].updated
        lost += [it for it in taken if not all(is_there(it, versions) for versions in found)]
        return [it for it in lost if not self.ledger.is_forgotten(it.ends)]

    def differences(self, lists):
        """Where lists differ, for a line that says so."""
        if None in lists:
            return [None if it is None else len(it) for it in lists]
        texts = [{json.dumps(it, sort_keys=True) for it in silences} for silences in lists]
        return [(len(it), sorted(it - set.intersection(*texts))[:2]) for it in texts]

    def judge_files(self, listed):
        """Stops all members, whose files then hold what was listed, and the same entries of the log."""
        entries = {it.key: it for member in self.members for it in member.holds.values() if it.key[0] == "nfl"}
        for it in self.meddlers:
            it.halt(signal.SIGTERM)
        at = now()
        listed = [{**it, "status": None} for it in listed if not self.ledger.is_forgotten(shown(it).ends, at)]
        for it in self.members:
            saved = [{**silence, "status": None} for silence in it.saved("sil", at)]
            check(f"the file of {it.name} shows what was listed", saved == listed, self.differences([saved, listed]))
        for state in STATES:
            sources = [f"{it.name}={it.path(state)}" for it in self.members]
            found = run(["diff", "--state", state, *["--held"][: self.seed % 2], *sources])
            check(f"the files hold the same {STATES[state]}", found == (0, b"", ""), found)
        found = self.members[0].file("nfl")
        unmade = [it for it in found.values() if not self.ledger.is_made(it)]
        check("nobody holds an entry that nobody made", not unmade, unmade[:5])
        lost = [it for it in entries.values() if it.key not in found or found[it.key].updated < it.updated]
        check("entries that were surely taken are there", not lost, lost[:5])
        groups = [base64.b64decode(it["groupKey"]).decode() for it in self.members[0].saved("nfl", at)]
        check("the log is shown", groups == sorted(key[1] for key in found), groups)

    def tell(self):
        """Checks that nobody complained, and says what was tried."""
        for kind, title in COMPLAINTS.items():
            found = self.complaints[kind]
            check(title, not found, f"{len(found)} times: {found[:5]}")
        counts, fates = self.ledger.counts, collections.Counter()
        for it in self.proxies:
            fates += it.fates
        words = lambda counter: ", ".join(f"{count} {name}" for name, count in sorted(counter.items()))
        print(f"  {counts['requests']} requests; {counts['acknowledged']} acknowledged; {counts['lasting']} had to last")
        print(f"  {counts['kept']} acknowledged with a log; {counts['not kept']} held, but not kept on disk")
        print(f"  connections: {words(fates)}; members: {words(self.acts)}")
        for it in self.starved:
            print(f"  no reply of a member that got no processor: {it}")
        print(f"  slowest reply of a member let alone {self.slowest:.2f} s; all agreed after {self.took:.1f} s", flush=True)

    def close(self):
        self.is_over.set()
        for it in self.proxies:
            it.close()
        for it in self.members:
            with contextlib.suppress(AttributeError, ProcessLookupError):
                it.process.send_signal(signal.SIGCONT)
                it.kill()
            it.disk.close()


# What may be complained of while members run, and what is right.
COMPLAINTS = {
    "starts": "each start listens, and loads what stands in the files and logs",
    "lives": "no member ends by itself",
    "answers": "a member that is let alone, and gets its processor, answers each request",
    "refusals": "no request is refused without cause",
    "pages": "a page of another site is refused",
    "lists": "each list has what was posted, and each silence once",
    "saves": "what was acknowledged is saved in time",
    "kept": "what was acknowledged with a log stays, and what stood in the files",
    "room": "a log takes what is acknowledged where there is room",
    "stops": "a stop by a signal ends well, and saves all",
    "lines": "each line that is printed is one of the program, whole",
    "script": "this script makes no mistake",
}


def entry(group, updated):
    """A version of the log: of a group at the receiver `team`, in which the hash 1 fires."""
    inner = field(1, group.encode()) + field(2, field(1, b"team") + field(2, b"email"))
    inner += field(5, timestamp(updated)) + field(6, varint(1))
    return field(1, inner) + field(2, timestamp(updated + 86_400))


def play(seed, seconds):
    """One round."""
    print(f"chaos: seed {seed}, {seconds} seconds, kept for {RETENTIONS[seed % 2]} seconds", flush=True)
    with tempfile.TemporaryDirectory() as top, contextlib.closing(Round(seed, top)) as one:
        with attempt("the round", one.complaints):
            one.run(seconds)
            one.heal()
            one.judge()
            one.tell()


def find_lost_logs(seed):
    """A round of members whose logs are gone when they start again, which has to be found."""
    print(f"chaos: seed {seed}, logs are gone at each start", flush=True)
    with tempfile.TemporaryDirectory() as top, contextlib.closing(Round(seed, top, is_robbed=True)) as one:
        one.run(FOUND_WITHIN)
    found = one.complaints["kept"]
    check("a lost log is found", found, dict(one.complaints))
    print(f"  {[*found, 'not found'][0]}", flush=True)


def main():
    words = parser(__doc__, 20)
    words.add_argument("--ignore", choices=["log"])
    words.add_argument("program", nargs="*")
    words = words.parse_args()
    members.choose("chaos", words.program)
    for seed, seconds in [] if words.ignore else rounds(words, ROUND):
        play(seed, seconds)
    find_lost_logs(words.seed)
    finish("chaos")


if __name__ == "__main__":
    main()
