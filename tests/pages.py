#!/usr/bin/env python3
"""Three members with an am_pager beside each, whose network, processes and am_pagers fail at random, while incidents come and go.

    tests/pages.py [--seed N] [--seconds S] [--ignore turn|log] [PROGRAM]

PROGRAM is crates/am_tool/out/am_tool if it isn't given; ./am_tool and rt ci build it. An am_pager, the notifier, asks its member
by `decide`, in its turn, sends a page where the reply says so, and hands the reply to `notified`; what it asks and sends goes
through this script, which writes it down. It is asked of each incident by itself, some time after that began and then again and
again, as Alertmanager does for a group. Incidents begin, change and end at random, and some are silenced, at any member, before they begin.
In stretches of a round members are killed, frozen and stopped, notifiers die, also between a page and `notified`, and doze, and
what one member sends to another is lost, late, repeated and cut, or members are parted. In other stretches all is well.

Right is: each alert that fires for longer than all turns is paged, where a notifier and its member were let alone for so long;
what is shown is paged once, where since the incident began nothing went wrong; what is paged again has a cause, a fault within
the spread before the turn of the one who paged it again, or that the incident changed while that one waited; no alert is paged
by a member that was seen to hold its silence; each reply of `decide` has the alerts of its message, but for those that are
silenced; none comes before its member's turn, and each comes that no fault fell on; and in the end all members have the same log,
with nothing in it that nobody paged. A notifier that was so late itself to ask that two turns met is a cause, too: by how much
later than it was to it asks is measured each time. A table tells what was paged, and the causes of what was paged again.

The judge is tried before, with pages of members that decide too early or twice. `--ignore turn` has the last member's notifier not
wait for its turn, and `--ignore log` has nobody tell the log: the judge has to find both.

All lasts S seconds, 60 by default, in two rounds or more of at most 60. In rounds of an odd seed members have `--log`. `--seed`
repeats what is drawn at random, and not what comes of it. Nothing leaves 127.0.0.1. Prints each case that fails, and at the end
how many passed.
"""

import base64
import collections
import contextlib
import http.client
import http.server
import json
import math
import signal
import socket
import subprocess
import sys
import tempfile
import threading
import time

from lib import members
from lib.answering import Answering
from lib.api import request
from lib.incidents import ALL_TURNS, GROUP_WAIT, INTERVAL, LATE, LATE_CALLER, NAMES, NEED, NO_CAUSE, PAIRS, SLOW, SLOW_MACHINE
from lib.incidents import APART, TURN, TURNS
from lib.incidents import Clock, Content, Judge, Page, Plan, Surroundings, Trouble, Troubles, tell
from lib.members import LIMITED, PATIENCE, TOP, eventually, free_ports, parted, received
from lib.proxies import Proxy
from lib.rounds import parser, rounds
from lib.tally import attempt, check, compare, finish

# How long a connection may last, how often members do each thing, and how long they wait for a first Pull: in seconds.
TIME_LIMIT, EVERY, FIRST = 2, 1, 3
OPTIONS = ["--time-limit", str(TIME_LIMIT), "--peer-timeout", str(TURN), "--pull-first", "--pull-first-limit", str(FIRST)]
OPTIONS += ["--at-once", "1024", "--waiting", "512"]
OPTIONS += [word for what in ("tick", "pull", "save") for word in (f"--{what}-every", str(EVERY))]

# After how long nothing of a fault is left: the spread that such a member tells at its start.
LONGEST = 3 * EVERY + 2 * (2 * TIME_LIMIT + 1) + 1

# How long somebody waits for a reply, beyond a turn; and for how long an Alertmanager lets be what failed.
REPLY, RETRY = 2 * TIME_LIMIT, 0.3

PAGER = f"{TOP}/install/am_pager"

# By how much a clock of this script may be behind that of a member, in seconds.
EARLY = 0.02

# The most that a round lasts, in seconds.
ROUND = 60

# The status of a member that waits for its first pull, or stops, and of one at which too many wait already.
UNAVAILABLE, CROWDED = 503, b'"too many wait"'


class Member(members.Member):
    """A member that is meddled with: the number of its start counts up."""

    front = LIMITED

    def __init__(self, *place):
        super().__init__(*place)
        self.generation = 0

    def begin(self, over):
        """Starts it, and waits until it answers; whether it listens."""
        self.generation += 1
        if not self.start():
            return False
        while not over.is_set() and self.request("GET", "/api/v2/silences", limit=1)[0] != 200:
            time.sleep(0.05)
        return True

    def request(self, method, target, body=b"", limit=REPLY):
        """The status and the body of a reply; no status where none comes."""
        try:
            with socket.create_connection(("127.0.0.1", self.port), timeout=limit) as stream:
                stream.sendall(request(method, target, body))
                return parted(received(stream))
        except OSError:
            return None, b""


class Between(Answering):
    """Whom an am_pager meets: its member, behind this script, and whoever receives its pages."""

    def found(self, body):
        if self.path == "/page":
            return self.server.notifier.page(body)
        return self.server.notifier.pass_on(self.command, self.path, body)


class Port(http.server.ThreadingHTTPServer):
    """The port at which it does."""

    request_queue_size = 256

    def __init__(self, notifier):
        self.notifier = notifier
        super().__init__(("127.0.0.1", 0), Between)

    def handle_error(self, request, client_address):
        if not isinstance(sys.exc_info()[1], OSError):
            self.notifier.round.complain("script", f"between: {sys.exc_info()[1]!r}")


# What a member decided: when it was asked and when it answered, by which start, if by one, what is to be paged, and by how much
# later than it was to be it was asked.
Decided = collections.namedtuple("Decided", "asked replied start paged late")


class Notifier:
    """An am_pager beside a member, and the Alertmanager that asks it: each incident is one of its threads."""

    def __init__(self, round_, member):
        self.round, self.member, self.clock, self.name = round_, member, round_.clock, member.name
        self.of_key = {it.key: it for it in round_.plan.incidents}
        # by incidents: from when on it was to ask, what was decided last, and the last page
        self.due, self.decided, self.sent = {}, {}, {}
        self.is_doomed, self.has_died = False, threading.Event()
        self.between = Port(self)
        threading.Thread(target=self.between.serve_forever, daemon=True).start()
        (self.port,) = free_ports(1)

    def begin(self):
        """Starts its am_pager, and waits until that listens."""
        self.is_doomed = False
        self.has_died.clear()
        near = f"127.0.0.1:{self.between.server_address[1]}"
        words = [PAGER, "--listen", str(self.port), "--member", near, "--to", f"http://{near}/page", "--send-limit", "1"]
        self.process = subprocess.Popen(words, stdin=subprocess.DEVNULL, stderr=subprocess.PIPE)
        self.process.stderr.readline()
        self.round.thread(self.read, self.process)

    def read(self, process):
        for _ in process.stderr:
            pass

    def end(self):
        self.process.kill()
        self.process.wait()

    def watch(self):
        """Follows each incident from its begin."""
        for it in self.round.plan.incidents:
            seen = it.begins + it.skew[self.name]
            if not self.clock.wait(seen, self.round.is_over):
                return
            self.round.thread(self.follow, it, seen + GROUP_WAIT)

    def follow(self, incident, due):
        """Looks at an incident from a moment on, again and again, until its end is told, as Alertmanager does."""
        while self.clock.wait(due, self.round.is_over):
            begins = due
            while (content := self.ask(incident, begins)) is None:
                begins = self.clock.now() + RETRY
                if not self.clock.wait(begins, self.round.is_over):
                    return
            if not content.firing:
                return
            due = max(due + INTERVAL, self.clock.now())

    def ask(self, incident, begins):
        """Asks the am_pager; the content where that says that nothing is left to do."""
        content = incident.content(self.clock.now() - incident.skew[self.name])
        self.due[incident] = begins
        try:
            connection = http.client.HTTPConnection("127.0.0.1", self.port, timeout=ALL_TURNS + INTERVAL)
            connection.request("POST", "/?resolved=true", incident.message(content))
            reply = connection.getresponse()
            reply.read()
        except (OSError, http.client.HTTPException):
            return None
        finally:
            connection.close()
        if reply.status not in (200, UNAVAILABLE):
            self.round.complain("replies", f"{self.name}: am_pager answers {reply.status}")
        return content if reply.status == 200 else None

    # ---- of its am_pager

    def pass_on(self, method, target, body):
        """What the member answers; no reply where that gives none."""
        if target == "/v1/notified":
            return self.tell(target, body)
        if not target.startswith("/v1/decide"):
            status, found = self.member.request(method, target, body)
            return None if status is None else (status, found)
        asked, start = self.clock.now(), self.round.start_of(self.member)
        if self.round.ignored == "turn" and self.name == NAMES[-1]:
            target += "&wait=false"
        status, reply = self.asked(target, body)
        if status != 200:
            return None if status is None else (status, reply)
        replied = self.clock.now()
        if replied < asked + TURNS[self.name] - EARLY:
            self.round.complain("early", f"{self.name} asked at {asked:.2f} replied at {replied:.2f}")
        incident, content = self.shown(body)
        paged = self.round.look_at(incident, content, json.loads(reply))
        # (what failed is asked again each time when all turns are over)
        late = (asked - self.due[incident]) % (len(NAMES) * TURN)
        start = start if start == self.round.start_of(self.member) else None
        self.decided[incident] = self.decided[incident, paged] = Decided(asked, replied, start, paged, late)
        return status, reply

    def shown(self, body):
        """The incident of a message, and what it shows."""
        message = json.loads(body)
        parts = lambda state: tuple(sorted(int(it["labels"]["part"]) for it in message["alerts"] if it["status"] == state))
        return self.of_key[message["groupKey"]], Content(parts("firing"), parts("resolved"))

    def page(self, body):
        """A page goes out. It is the last one where the am_pager is to die behind it."""
        incident, content = self.shown(body)
        # (a reply may come so late that its am_pager has asked again meanwhile, of other alerts, and pages by that)
        found = self.decided.get((incident, content), self.decided[incident])
        if content != found.paged:
            self.round.complain("replies", f"{incident.name}: {content} is paged, and not {found.paged}")
        due = found.asked + TURNS[self.name]
        page = Page(incident, self.name, content, found.asked, due, found.replied, self.clock.now(), found.late)
        page.start = found.start
        self.round.pages.append(page)
        self.sent[incident] = page
        if self.is_doomed:
            page.is_last, self.is_doomed = True, False
            self.end()
            self.has_died.set()
        return 200, b"ok"

    def tell(self, target, body):
        """Tells the log of a page."""
        page = self.sent[self.of_key[json.loads(body)["groupKey"]]]
        if self.round.ignored == "log":
            return 200, b'{"logged":true}'
        status, reply = self.asked(target, body)
        if status == 200:
            page.logged = page.logged or self.clock.now()
        return None if status is None else (status, reply)

    def asked(self, target, body):
        """What a member answers, which is written down."""
        asked = self.clock.now()
        status, found = self.member.request("POST", target, body, ALL_TURNS + REPLY)
        self.round.replies[status or "no reply"] += 1
        if status not in (None, 200, UNAVAILABLE) or found == CROWDED:
            self.round.complain("replies", f"{self.name} {target}: {status} {found!r}")
        if status != 200 and not self.round.is_over.is_set():
            self.round.unanswered.append((self.name, asked, self.clock.now(), f"{target}: {status} {found!r}"))
        return status, found


class Meddler:
    """What happens to a member, and to the notifier beside it."""

    def __init__(self, round_, member, notifier):
        self.round, self.member, self.notifier = round_, member, notifier
        self.clock, self.over, self.name = round_.clock, round_.is_over, member.name

    def work(self, acts):
        for act in acts:
            if not self.clock.wait(act.at, self.over):
                return
            self.round.acts[act.name] += 1
            getattr(self, act.name)(act.lasts)

    def kill(self, lasts):
        with self.round.troubles.of("a member was killed", self.name):
            self.member.kill()
            self.start_after(lasts)

    def stop(self, lasts):
        """A clean stop, which nobody who waits holds up."""
        with self.round.troubles.of("a member was stopped", self.name):
            begun = self.clock.now()
            self.member.process.send_signal(signal.SIGTERM)
            status, ended = self.member.end(), self.clock.now()
            took, found = ended - begun, self.round.troubles.kinds([self.name], begun - LATE, ended)
            if status != 0 or took > TIME_LIMIT + REPLY and not {SLOW, SLOW_MACHINE} & {*found}:
                self.round.complain("stops", f"{self.name}: {status} after {took:.1f} s")
            self.start_after(lasts)

    def start_after(self, lasts):
        self.over.wait(lasts)
        if not self.member.begin(self.over):
            self.round.complain("starts", f"{self.name}: {self.member.lines}")

    def freeze(self, lasts):
        with self.round.troubles.of("a member was frozen", self.name):
            self.member.process.send_signal(signal.SIGSTOP)
            self.over.wait(lasts)
            self.member.process.send_signal(signal.SIGCONT)
            # until it has answered what came meanwhile
            self.member.request("GET", "/api/v2/silences")

    def die(self, lasts):
        with self.round.troubles.of("a notifier died", self.name):
            self.notifier.end()
            self.over.wait(lasts)
            self.notifier.begin()

    def die_behind_a_page(self, lasts):
        self.notifier.is_doomed = True
        self.notifier.has_died.wait(INTERVAL)
        self.die(lasts)

    def doze(self, lasts):
        with self.round.troubles.of("a notifier dozed", self.name):
            self.notifier.process.send_signal(signal.SIGSTOP)
            self.over.wait(lasts)
            self.notifier.process.send_signal(signal.SIGCONT)


class Round(Surroundings):
    """Three members with their notifiers and their proxies, in a folder of their own."""

    def __init__(self, seed, seconds, folder, ignored=None):
        self.seed, self.has_log, self.is_over, self.ignored = seed, seed % 2 == 1, threading.Event(), ignored
        self.plan, self.clock = Plan(seed, seconds), Clock()
        self.troubles, self.pages, self.threads = Troubles(self.clock), [], []
        self.complaints, self.replies, self.acts = collections.defaultdict(list), collections.Counter(), collections.Counter()
        self.unanswered = []
        options = [*OPTIONS, *["--log"] * self.has_log]
        self.members = [Member(name, port, [], folder, options) for name, port in zip(NAMES, free_ports(3))]
        of_name = dict(zip(NAMES, self.members))
        self.proxies = {}
        for sender, peer in PAIRS:
            proxy = Proxy(of_name[peer], f"{seed} {sender} {peer}", 0, lambda *_: None)
            of_name[sender].words += ["--peer", f"{peer}={proxy.port}"]
            self.proxies[sender, peer] = proxy
        self.notifiers = [Notifier(self, it) for it in self.members]

    def start_of(self, member):
        """The start behind which a member holds what it held: with a log it is always the first."""
        return 1 if self.has_log else member.generation

    def complain(self, kind, what):
        self.complaints[kind].append(what)

    def thread(self, work, *given):
        thread = threading.Thread(target=self.guarded, args=(work, *given), daemon=True)
        self.threads = [*(it for it in self.threads if it.is_alive()), thread]
        thread.start()

    def guarded(self, work, *given):
        try:
            work(*given)
        except Exception as error:  # a fault of this script fails a case
            self.complain("script", f"{work}: {error!r}")

    def run(self):
        starts = [threading.Thread(target=it.begin, args=(self.is_over,)) for it in self.members]
        for it in starts:
            it.start()
        for it in starts:
            it.join()
        for it in self.notifiers:
            it.begin()
        self.clock.begun = time.monotonic()
        for it in self.notifiers:
            self.thread(it.watch)
        for member, notifier in zip(self.members, self.notifiers):
            meddler = Meddler(self, member, notifier)
            self.thread(meddler.work, self.plan.members[member.name])
            self.thread(meddler.work, self.plan.notifiers[member.name])
        self.begin_around()
        self.is_over.wait(self.plan.end)
        self.is_over.set()
        for it in self.notifiers:
            it.process.send_signal(signal.SIGCONT)
            it.end()
        for it in self.threads:
            it.join(PATIENCE)

    def set_weather(self, pair, weather):
        self.proxies[pair].weather = weather

    def look_at(self, incident, content, reply):
        """Looks at a reply, and answers what is paged by it: the message, without what is silenced."""
        muted = {int(it["labels"]["part"]) for it in reply["muted"]}
        parts = lambda key: tuple(sorted(incident.hashes.get(it, it) for it in reply[key]))
        left = lambda them: tuple(it for it in them if it not in muted)
        found, wanted = Content(parts("firing"), parts("resolved")), Content(*map(left, content))
        named = [reply[it] for it in ("groupKey", "receiver", "integration", "index", "repeat")]
        is_named = named == [incident.key, "pager", "webhook", 0, 14400]
        is_silenced = muted <= {*(incident.silence.parts if incident.silence else ())}
        if found != wanted or not is_named or not is_silenced or list(reply) != sorted(reply):
            self.complain("replies", f"{incident.name} {content}: {reply}")
        self.replies[reply["reason"]] += 1
        return found

    # ---- the end

    def judge(self, counts, causes):
        judge = Judge(self.plan, self.pages, self.troubles, LONGEST, NEED)
        judge.judge()
        counts.update(judge.counts)
        causes.update(judge.causes)
        self.judge_logs()
        self.judge_unanswered()
        self.complaints.update(lost=judge.lost, twice=judge.twice, muted=judge.muted)
        for kind, title in COMPLAINTS.items():
            found = self.complaints[kind]
            if kind == FOUND.get(self.ignored):
                check(f"the judge finds it: {title}", found)
            elif not (kind == "twice" and self.ignored):
                check(title, not found, f"{len(found)} times: {found[:3]}")

    def judge_logs(self):
        """All members come to have the same log, and nothing stands in it that nobody paged."""
        logs = lambda: [self.log_of(it) for it in self.members]
        are_same = lambda found: found[0] is not None and found[1:] == found[:1] * 2
        eventually(lambda: are_same(logs()))
        found = logs()
        others = [[it for it in log or [] if it not in (found[0] or [])][:1] for log in found]
        check("all have the same log", are_same(found), others)
        paged = {(it.incident.key, it.content) for it in self.pages}
        for entry in found[0] or []:
            key = base64.b64decode(entry["groupKey"]).decode()
            (incident,) = [it for it in self.plan.incidents if it.key == key]
            parts = lambda name: tuple(sorted(incident.hashes.get(f"{int(it):016x}", it) for it in entry[name]))
            content = Content(parts("firingAlerts"), parts("resolvedAlerts"))
            if (key, content) not in paged:
                self.complain("log", f"{key}: {content}")

    def judge_unanswered(self):
        """What a notifier asked and wasn't answered has a cause."""
        for name, asked, ended, what in self.unanswered:
            if not self.troubles.kinds([name], asked - LATE, ended):
                self.complain("unanswered", f"{name} from {asked:.2f} to {ended:.2f}: {what}")

    def log_of(self, member):
        status, body = member.request("GET", "/v1/log")
        return json.loads(body) if status == 200 else None

    def tell(self):
        fates = collections.Counter()
        for it in self.proxies.values():
            fates += it.fates
        words = lambda counter: ", ".join(f"{count} {name}" for name, count in sorted(counter.items(), key=str))
        print(f"  replies: {words(self.replies)}")
        print(f"  connections: {words(fates)}; faults: {words(self.acts)}", flush=True)

    def close(self):
        self.is_over.set()
        for it in self.proxies.values():
            it.close()
        for it in self.notifiers:
            with contextlib.suppress(AttributeError):
                it.end()
            it.between.shutdown()
            it.between.server_close()
        for it in self.members:
            with contextlib.suppress(AttributeError, ProcessLookupError):
                it.process.send_signal(signal.SIGCONT)
                it.kill()


# What may be complained of, and what is right.
COMPLAINTS = {
    "lost": "each alert that fires for longer than all turns is paged",
    "twice": "where no fault fell within the spread before a turn, what is shown is paged once",
    "muted": "no alert is paged whose silence is held",
    "replies": "each reply has what its message had",
    "early": "no decision comes before its member's turn",
    "unanswered": "what no fault fell on is answered",
    "log": "nothing is in the log that nobody paged",
    "starts": "each start listens",
    "stops": "a stop by a signal ends well, and soon",
    "script": "this script makes no mistake",
}


# What the judge has to find where the last member decides before its turn, and where nobody's log is told.
FOUND = {"turn": "early", "log": "twice"}


def page(incident, who, asked, took, late=0):
    """A page of a member that took so long to decide."""
    replied = asked + took
    made = Page(incident, who, incident.content(incident.begins), asked, asked + TURNS[who], replied, replied + 0.01, late)
    made.logged = made.at + 0.01
    return made


def try_judge():
    """The judge knows a notifier that came late, and takes it for no cause of what a member does wrong."""
    plan, died = Plan(0, ROUND), Trouble("a notifier died", "a", 10.5)
    died.ended = 11.5
    incident = next(it for it in plan.incidents if not it.silence and it.changes == math.inf)
    cases = {
        "a notifier came late": (LATE_CALLER, page(incident, "c", 10, 2), page(incident, "a", 12.02, 0, 2)),
        "a notifier died between the two": (APART, page(incident, "a", 11.9, 0), page(incident, "c", 10, 2)),
        "the last decides before its turn": (NO_CAUSE, page(incident, "c", 10, 0), page(incident, "a", 10.1, 0)),
        "and the first comes late": (NO_CAUSE, page(incident, "c", 10, 0.4), page(incident, "a", 10.5, 0, 0.5)),
        "one decides twice": (NO_CAUSE, page(incident, "a", 10, 0), page(incident, "a", 13.5, 0)),
        "and comes late": (NO_CAUSE, page(incident, "a", 10, 0), page(incident, "a", 15.5, 0, 2)),
        "the next one has not heard": (NO_CAUSE, page(incident, "a", 10, 0), page(incident, "b", 10.1, 1)),
        "and comes late to hear": (NO_CAUSE, page(incident, "a", 10, 0), page(incident, "b", 10.5, 1, 0.5)),
    }
    for name, (cause, *pages) in cases.items():
        judge = Judge(plan, pages, Troubles(Clock()), LONGEST, NEED)
        judge.troubles.found = [died] if cause == APART else []
        judge.judge_twice(incident)
        compare(name, (dict(judge.causes), len(judge.twice)), ({cause: 1}, int(cause == NO_CAUSE)))


def play(seed, seconds, counts, causes, ignored=None):
    """One round."""
    print(f"pages: seed {seed}, {seconds} seconds{', with --log' * (seed % 2)}", flush=True)
    with tempfile.TemporaryDirectory() as folder, contextlib.closing(Round(seed, seconds, folder, ignored)) as one:
        with attempt("the round", one.complaints):
            one.run()
            one.judge(counts, causes)
            one.tell()


def main():
    words = parser(__doc__, 60)
    words.add_argument("--ignore", choices=FOUND)
    words.add_argument("program", nargs="*")
    words = words.parse_args()
    members.choose("pages", words.program)
    try_judge()
    counts, causes = collections.Counter(), collections.Counter()
    for seed, seconds in rounds(words, ROUND):
        play(seed, seconds, counts, causes, words.ignore)
    tell(counts, causes)
    finish("pages")


if __name__ == "__main__":
    main()
