#!/usr/bin/env python3
"""Members whose process is killed, or whose power fails, at any call to their disk.

    tests/disk.py [--seed N] [--kills K] [--answers | --log | --ignore file|directory|log] [PROGRAM]

PROGRAM is crates/am_tool/out/am_tool if it isn't given; ./am_tool and rt ci build it. tests/disk.c stands between a member
and its disk, and kills it at a call that is drawn, while silences are posted, updated and ended and frames bring versions.
Then its directory is left as it is, as where the process alone died, or as tests/lib/power_failures.py draws what a failure of the power
leaves; several are drawn of a kill, and over each the member starts. It starts again until it was killed K times.

A save has ended where the member went on: it began the next save, ended with status 0, or answered what it was asked behind
the rename. A member that keeps logs answers while it saves, so there it has ended once the directory was handed over. After a
failure each file is as a save wrote it, whole: the last one that had ended, or one since. This is asked behind each call, and
not only behind the last one. What a save writes has all that the member loaded and that it had answered before, and nothing
that nobody made. A member that starts again prints no fault, and shows what its files hold.

Of one that keeps logs more is asked, at each start and behind most calls that change names: what its file and both logs hold
together has all that was answered, and no silence is back whose end was forgotten meanwhile.

The last checks are of this script: it has to find members that don't sync a file before they rename it, or don't sync the
directory, and that an answer alone is no promise. `--ignore` tries one such member, and nothing else. `--answers` asks of
members that all they answered is there when they start again, as one does that keeps a log of what it answers; `--log` asks
it of members that do.

A seed repeats what is drawn, and not when members do what; each ten kills are of a seed of their own.
"""

import argparse
import collections
import concurrent.futures
import contextlib
import json
import os
import random
import re
import socket
import tempfile
import time

from lib import members, power_failures, versions
from lib.api import REFUSALS, moment
from lib.ledger import Ledger, now, shown, versions_of
from lib.members import PATIENCE, free_ports, silent_peer
from lib.tally import check, count, finish
from lib.wire import TICK, batches, delta, greeting

# The kills of one seed; how many seeds are tried at once; and within how many kills a wrong member has to be found.
LIFE, LANES, FOUND_WITHIN = 10, 5, 40

# A member that ends by itself after some connections, and one that saves and ticks by itself.
BRIEF, LASTING = "brief", "lasting"

# The calls at which members are killed at the latest: a start and two saves of both files have some 30.
LAST_CALL = {BRIEF: 45, LASTING: 40}

# How many times as many calls a member makes that keeps logs.
CALLS_OF_LOGS = 4

# For how many seconds a silence is kept after its end, so that none is forgotten.
RETENTION = 432_000

# How many bytes comments have, and those of some that are posted to members with logs: so many that their files are given back
# in pieces.
COMMENTS, LARGE, LARGE_SHARE = [0, 30, 700, 3000], 150_000, 0.1

# But for some that a peer brings, whose ends are kept for so many milliseconds: so are their keys.
BRIEFLY, BRIEF_KEY = 300, "brief"

# How often what is left behind a call that changes no name is looked at, where logs are kept.
SHARE = 0.1

# How many failures of the power are drawn of a kill, over each of which the member starts: where files are judged, which are
# behind each call, and where answers are.
FAILURES = {False: 2, True: 4}

# After how many kills a long run says how far it is.
TOLD_EVERY = 100

# How much a complaint says, and letters of which comments have many.
MOST_SAID, FILLER = 500, re.compile("c{30,}")

# What is told of a log that ends in what was being written.
TORN = re.compile(r"am_tool: (Silences|Log) Torn \d+")

# What one save put in place: the bytes, and when it began and renamed them.
Row = collections.namedtuple("Row", "content begun renamed")


class Saves:
    """What may stand in a file: what a save put there that has ended, or one since. None stands for no file."""

    def __init__(self, name, content):
        self.name, self.begun = name, 0.0
        self.rows, self.ended, self.first = [Row(content, 0.0, 0.0)], 0, 1

    def start(self):
        """The member starts. What a process of it began that was killed has no end."""
        self.first = len(self.rows)

    def of_process(self):
        """What the process put there that runs now."""
        return self.rows[self.first :]

    def take(self, call, directory):
        if call.kind == "create" and call.words[1] == f"{self.name}.new":
            self.begun = call.moment
        if call.kind == "rename" and call.words[1] == self.name:
            self.rows.append(Row(bytes(directory.names[self.name].seen), self.begun, call.moment))

    def end(self, before):
        """The member went on at that moment: what it renamed before was saved."""
        for at in range(self.first, len(self.rows)):
            if self.rows[at].renamed < before:
                self.ended = at

    def may_leave(self, content):
        return any(row.content == content for row in self.rows[self.ended :])


class Member(members.Member):
    """A member over the library, and what it acknowledged: when, and what."""

    def __init__(self, life, options, environment):
        # on a machine that has much else to do a reply may take long
        options = ["--time-limit", str(PATIENCE), *options]
        super().__init__("m", life.port, [("p", life.peer)], life.state, options, env=environment)
        self.generation, self.acknowledged = 1, []

    def faults(self):
        """The lines behind the one that says that it listens, but for those of what was being written in its logs."""
        return [it for it in self.lines[1:] if not TORN.match(it)]

    def is_told(self, found):
        """Whether it says at its start, and nothing else, that it loaded what stands in its files."""
        count = {state: len(versions_of(state, content or b"")) for state, content in found.items()}
        loaded = f"; loaded {count['sil']} silences, {count['nfl']} entries"
        return len(self.lines) == 1 and self.lines[0].endswith(loaded)


class Life:
    """A member in a folder of its own, that is killed and starts again. Complaints say what was not right."""

    def __init__(self, seed, folder, library, port, peer, ignored="", is_by_answers=False, keeps_log=False):
        self.seed, self.draw = seed, random.Random(seed)
        self.library, self.port, self.peer = library, port, peer
        self.ignored, self.is_by_answers, self.keeps_log = ignored, is_by_answers or keeps_log, keeps_log
        self.state, self.calls = f"{folder}/state", f"{folder}/calls"
        os.mkdir(self.state)
        self.directory = power_failures.Directory(self.state)
        # what it is asked for, the silences that were made of late, and what was ever answered, each with when it was
        self.ledger, self.keys, self.answered = Ledger(1000 * RETENTION), [], []
        # silences that were brought whose ends are kept briefly: those that last, those whose end was taken of late, and when, and
        # since when an answer says that it is kept
        self.brief, self.ended, self.over = [], [], {}
        self.complaints, self.kills, self.counts = [], 0, collections.Counter()
        self.settle()

    def complain(self, what):
        self.complaints.append(f"seed {self.seed}, kill {self.kills + 1}: {FILLER.sub('c..', what)}"[:MOST_SAID])

    def run(self, kills):
        """Kills it so often, or until there is a complaint."""
        try:
            while self.kills < kills and not self.complaints:
                if self.live():
                    self.kills += 1
        except Exception as error:  # a fault of this script is a complaint
            self.complain(repr(error))
        return self

    # ---- one process

    def live(self):
        """Runs it until it ends, and looks at what it leaves; whether it was killed."""
        (kind,) = self.draw.choices([BRIEF, LASTING], [4, 1])
        member = Member(self, self.options(kind), self.environment(kind))
        loaded, self.replies = self.found(), []
        self.ended.clear()
        for it in self.saves.values():
            it.start()
        if member.start():
            self.look(member, loaded)
            self.work(member)
        status = member.end()
        calls = list(power_failures.calls_of(self.calls))
        os.remove(self.calls)
        is_killed = bool(calls) and calls[-1].kind == "end"
        if (status, is_killed) not in [(-9, True), (0, False)] or member.faults():
            self.complain(f"it ended with status {status}: {member.lines}")
        self.follow(calls, status)
        for state, it in self.saves.items():
            self.judge_rows(state, it.of_process(), member, loaded[state])
        self.counts += collections.Counter(starts=1, calls=len(calls), answers=len(member.acknowledged))
        if is_killed and self.draw.random() < 0.8:
            self.fail_power()
        return is_killed

    def options(self, kind):
        log = ["--log"] if self.keeps_log else []
        if kind == LASTING:
            return [*log, "--save-every", "1", "--tick-every", "1"]
        return [*log, "--connections", str(self.draw.randint(1, 25))]

    def environment(self, kind):
        when, last = self.draw.choice(["before", "within", "after"]), self.draw.randint(1, LAST_CALL[kind] * (CALLS_OF_LOGS if self.keeps_log else 1))
        disk = {"DISK": self.state, "DISK_CALLS": self.calls, "DISK_IGNORE": self.ignored, "DISK_WHEN": when, "DISK_END": str(last)}
        return {**os.environ, "LD_PRELOAD": self.library, **disk}

    def found(self):
        """What stands in its files."""
        found = self.directory.found()
        return {state: found.get(f"m.{state}") for state in ("sil", "nfl")}

    def look(self, member, found):
        """Looks at what it loaded."""
        listed = self.listed(member)
        if self.is_by_answers:
            return listed is None or self.judge_answers(listed)
        held = versions_of("sil", found["sil"] or b"")
        if not member.is_told(found):
            self.complain(f"it starts with {member.lines}")
        if listed is not None and listed != held:
            self.complain(f"it shows {len(listed)} silences, and its file has {len(held)}")

    def judge_answers(self, listed):
        """Looks whether all is there that was ever answered with status 200, and nothing that nobody made."""
        lost = [it for _, it in self.answered if not it.stands_in(listed)]
        unmade = [it for it in listed.values() if not self.ledger.is_made(it)]
        if lost or unmade:
            self.complain(f"{len(lost)} of {len(self.answered)} answers are lost, as {lost[:1]}; nobody made {unmade[:1]}")
        if back := [it for it in listed.values() if it.updated < self.over.get(it.key, (0, 0))[1]]:
            self.complain(f"{len(back)} silences are back that were ended, as {back[:1]}")

    def listed(self, member):
        """The versions that it shows by their keys, if it lives."""
        status, body = self.ask(member, "GET", "/api/v2/silences")
        with contextlib.suppress(ValueError):
            return {it.key: it for it in map(shown, json.loads(body))} if status == 200 else None

    # ---- what it is asked

    def work(self, member):
        """Asks it for one thing after the other until it has ended."""
        acts = [self.post, self.update, self.end, self.bring_silence, self.bring_entry, self.tick, self.bring_brief]
        weights = [30, 15, 10, 15, 20, 10, 15 if self.keeps_log else 0]
        deadline = time.monotonic() + PATIENCE
        while member.process.poll() is None and time.monotonic() < deadline:
            (act,) = self.draw.choices(acts, weights)
            act(member)
            # two versions of one silence have moments of their own
            time.sleep(0.002)

    def ask(self, member, method, path, value=None):
        """The status and the body of a reply; no status where none came."""
        asked = time.monotonic()
        try:
            status, body = member.ask(method, path, b"" if value is None else json.dumps(value).encode())
        except OSError:
            return None, b""
        if status is not None:
            self.replies.append((asked, time.monotonic()))
        return status, body

    def comment(self):
        """One by which a version is known again, of any length."""
        number = len(self.ledger.operations)
        is_large = self.keeps_log and self.draw.random() < LARGE_SHARE
        return f"{number} {'c' * (LARGE if is_large else self.draw.choice(COMMENTS))}".rstrip()

    def post(self, member):
        ends = now() + self.draw.choice([3_600_000, 7_200_000])
        matcher = {"name": "job", "value": "x", "isRegex": False, "isEqual": True}
        silence = {"matchers": [matcher], "startsAt": moment(now()), "createdBy": "disk.py"}
        self.try_post(member, silence, None, ends)

    def update(self, member):
        if self.keys:
            key, silence = self.draw.choice(self.keys)
            self.try_post(member, {**silence, "id": key[1]}, key, now() + 10_800_000)

    def try_post(self, member, silence, key, ends):
        silence = {**silence, "endsAt": moment(ends), "comment": self.comment()}
        operation = self.ledger.begin("update" if key else "post", key, silence["comment"], ends)
        status, body = self.ask(member, "POST", "/api/v2/silences", silence)
        if status == 200:
            made = ("sil", json.loads(body)["silenceID"])
            self.acknowledge(operation, made, member)
            self.keys = [*self.keys, (made, silence)][-20:]
        else:
            self.refuse(operation, status, body)

    def end(self, member):
        if self.keys:
            key, _ = self.draw.choice(self.keys)
            operation = self.ledger.begin("end", key)
            status, body = self.ask(member, "DELETE", f"/api/v2/silence/{key[1]}")
            if status == 200:
                self.acknowledge(operation, key, member)
            else:
                self.refuse(operation, status, body)

    def acknowledge(self, operation, key, member):
        """Writes down what was answered, which says the same of all that was taken before it was asked."""
        self.ledger.acknowledge(operation, key, member, 1)
        self.answered.append((time.monotonic(), operation))
        self.over.update((key, (time.monotonic(), at)) for key, at in self.ended)
        self.ended.clear()

    def refuse(self, operation, status, body):
        if status is not None:
            self.ledger.refuse(operation)
            if (status, body) not in REFUSALS:
                self.complain(f"{operation}: {status} {body!r}")

    def bring_silence(self, member):
        key, comment, ends = f"peer{len(self.ledger.operations)}", self.comment(), now() + 3_600_000
        operation = self.ledger.begin("post", ("sil", key), comment, ends)
        at = seconds(operation.begun)
        words = f"{key} job=x {at}..{seconds(ends)} updated {at} expires {seconds(ends + 1000 * RETENTION)} by peer saying {comment}"
        self.bring(member, operation, delta("sil", versions.silence(words)))

    def bring_entry(self, member):
        operation = self.ledger.begin("entry", ("nfl", f"group{self.draw.randrange(50)}"))
        self.ledger.entries[operation.key].add(operation.begun)
        at, expires = seconds(operation.begun), seconds(operation.begun + 86_400_000)
        words = f"{operation.key[1]} team/email/0 updated {at} expires {expires} firing 1"
        self.bring(member, operation, delta("nfl", versions.entry(words)))

    def bring_brief(self, member):
        """Brings a silence, or the end of one, which is kept briefly. The silence may not come back then."""
        if self.brief and self.draw.random() < 0.5:
            key, starts = self.brief.pop(self.draw.randrange(len(self.brief)))
            operation = self.ledger.begin("end", key)
            at, expires = operation.begun, operation.begun + BRIEFLY
            words = f"{key[1]} job=x {seconds(starts)}..{seconds(at)} updated {seconds(at)} expires {seconds(expires)} by peer saying over"
            # (what comes when it has expired is in no log)
            if self.send(member, delta("sil", versions.silence(words))) and now() < expires:
                self.ended.append((key, at))
        else:
            key, comment, ends = ("sil", f"{BRIEF_KEY}{len(self.ledger.operations)}"), self.comment(), now() + 3_600_000
            starts = self.ledger.begin("post", key, comment, ends).begun
            at, expires = seconds(starts), seconds(ends + 1000 * RETENTION)
            words = f"{key[1]} job=x {at}..{seconds(ends)} updated {at} expires {expires} by peer saying {comment}"
            if self.send(member, delta("sil", versions.silence(words))):
                self.brief.append((key, starts))

    def tick(self, member):
        self.bring(member, None, TICK)

    def bring(self, member, operation, frame):
        if self.send(member, frame) and operation is not None:
            self.ledger.acknowledge(operation, operation.key, member, 1)

    def send(self, member, frame):
        """Sends a frame as the peer does, and answers whether the member ended the connection: it was taken then."""
        with contextlib.suppress(OSError):
            with socket.create_connection(("127.0.0.1", member.port), timeout=PATIENCE) as stream:
                stream.sendall(greeting("p") + frame)
                stream.shutdown(socket.SHUT_WR)
                return stream.recv(1) == b""
        return False

    # ---- what it leaves

    def settle(self):
        """What stands now may not be lost again."""
        self.saves = {state: Saves(f"m.{state}", content) for state, content in self.found().items()}

    def follow(self, calls, status):
        """Follows its calls one by one, and looks behind each at what a failure of the power would leave then."""
        for call in calls:
            self.directory.take(call)
            for it in self.saves.values():
                it.take(call, self.directory)
            self.end_saves(self.goes_on(call))
            self.look_ahead(call)
        self.end_saves(time.monotonic() if status == 0 else self.goes_on())
        if self.directory.seen() != self.directory.found():
            self.complain(f"its directory isn't as its calls have it, of which the last are {[it[:3] for it in calls[-3:]]}")

    def goes_on(self, call=None):
        """The moment at which the member surely went on, before which it had saved what it renamed: at this call, or at its end."""
        if self.keeps_log:
            return call.moment if call and call.kind == "settle" else 0.0
        if call and call.kind == "create" and call.words[1].endswith(".new"):
            return call.moment
        return max((asked for asked, came in self.replies if call is None or came < call.moment), default=0.0)

    def end_saves(self, before):
        for it in self.saves.values():
            it.end(before)

    def look_ahead(self, call):
        left = {name: file.left(self.draw) for name, file in self.directory.left(self.draw).items()}
        for saves in self.saves.values():
            self.judge_left(saves, left.get(saves.name), call)
        if self.keeps_log and not self.complaints and (call.kind in power_failures.NAMING or self.draw.random() < SHARE):
            self.judge_logs(left, call)

    def judge_logs(self, left, call):
        """Looks whether a file and its logs, as they are left behind a call, have together what was answered before it."""
        names = [f"m.sil{ending}" for ending in (".log.old", ".log")]
        held = versions_of("sil", left.get("m.sil", b"") + b"".join(it for name in names for it in batches(left.get(name, b""))))
        lost = [it for came, it in self.answered if came < call.moment and not it.stands_in(held)]
        if lost:
            self.complain(f"{len(lost)} answers are lost behind {call[:3]}, as {lost[:1]}, where there is {[*left]}")
        ended = [(key, at) for key, (came, at) in self.over.items() if came < call.moment and key in held]
        if back := [held[key] for key, at in ended if held[key].updated < at]:
            self.complain(f"{len(back)} silences are back behind {call[:3]}, as {back[:1]}, where there is {[*left]}")

    def judge_left(self, saves, content, call):
        if not saves.may_leave(content):
            sizes = [None if it.content is None else len(it.content) for it in saves.rows]
            found = None if content is None else len(content)
            self.complain(f"{saves.name} has {found} bytes behind {call[:3]}; saves wrote {sizes}, of which {saves.ended} had ended")

    def judge_rows(self, state, rows, member, loaded):
        """Looks at what saves of a process wrote, that had loaded something."""
        base = [it for it in versions_of(state, loaded or b"").values() if not it.key[1].startswith(BRIEF_KEY)]
        self.counts["saves"] += len(rows)
        for row in rows:
            held = versions_of(state, row.content)
            lost = [it for at, it in member.acknowledged if it.key[0] == state and at < row.begun and not it.stands_in(held)]
            lost += [it for it in base if it.key not in held or held[it.key].updated < it.updated]
            unmade = [it for it in held.values() if not self.ledger.is_made(it)]
            if lost or unmade:
                self.complain(f"a save of {state} lacks {len(lost)}, as {lost[:1]}; nobody made {unmade[:1]}")

    def fail_power(self):
        """Has the power fail, several times over the same calls: what the last one leaves stays."""
        failures = FAILURES[self.is_by_answers]
        for number in range(failures):
            left = self.directory.fail(self.draw)
            found = self.found()
            for state, content in found.items():
                self.judge_left(self.saves[state], content, ("failure", number))
            if number + 1 < failures:
                self.try_start(found)
        self.directory = left
        self.settle()

    def try_start(self, found):
        """Looks whether it starts over what stands there. Nothing is done to it."""
        member = Member(self, ["--log"] if self.keeps_log else [], None)
        if member.start():
            self.look(member, found)
        else:
            self.complain(f"it doesn't start: {member.lines}")
        member.kill()


def seconds(milliseconds):
    """A moment in the words of cases."""
    return f"{milliseconds // 1000}.{milliseconds % 1000:03}"


class Trial:
    """Lives, side by side in so many lanes, each with a port of its own."""

    def __init__(self, top, seed):
        self.top, self.seed = top, seed
        self.library = members.compiled("disk", "disk", top, "nothing can stand between a member and its disk")
        self.peer, self.ports = silent_peer().getsockname()[1], free_ports(LANES)

    def life(self, number, kills, **how):
        """A life of so many kills, behind it."""
        port = self.ports.pop()
        with tempfile.TemporaryDirectory(dir=self.top) as folder:
            life = Life(self.seed + number, folder, self.library, port, self.peer, **how).run(kills)
        self.ports.append(port)
        return life

    def try_members(self, kills, **how):
        """Counts each kill, and each life in which something wasn't right."""
        lengths = [min(LIFE, kills - at) for at in range(0, kills, LIFE)]
        counts = collections.Counter()
        with concurrent.futures.ThreadPoolExecutor(LANES) as pool:
            for life in pool.map(lambda it: self.life(it, lengths[it], **how), range(len(lengths))):
                counts += life.counts + collections.Counter(kills=life.kills)
                for _ in range(life.kills):
                    count(True)
                if counts["kills"] % TOLD_EVERY == 0:
                    print(f"  {counts['kills']} kills", flush=True)
                if life.complaints:
                    check("a member comes back from what it saved", False, life.complaints[0])
        words = ", ".join(f"{number} {name}" for name, number in sorted(counts.items()))
        print(f"  {words}; behind each call a failure was drawn", flush=True)

    def find(self, name, words, **how):
        """Looks for a complaint, with these words, of a member that isn't right."""
        kills, complaints = 0, []
        while kills < FOUND_WITHIN and not complaints:
            life = self.life(kills, LIFE, **how)
            kills, complaints = kills + life.kills, life.complaints
        check(f"{name} is found", complaints and words in complaints[0], f"in {kills} kills: {complaints}")
        print(f"  {name}: {[*complaints, 'not found'][0]}", flush=True)

    def find_ignoring(self, what):
        if what == "log":
            self.find("a member that doesn't sync its logs", " answers are lost", ignored="data", keeps_log=True)
        else:
            self.find(f"a member that doesn't sync its {what}", " bytes behind ", ignored=what)

    def find_answers(self):
        self.find("a member whose answers are no promise", " answers are lost", is_by_answers=True)


def main():
    words = argparse.ArgumentParser(description=__doc__, formatter_class=argparse.RawDescriptionHelpFormatter)
    words.add_argument("--seed", type=int, default=1)
    words.add_argument("--kills", type=int, default=50)
    words.add_argument("--answers", action="store_true")
    words.add_argument("--log", action="store_true")
    words.add_argument("--ignore", choices=["file", "directory", "log"])
    words.add_argument("program", nargs="*")
    words = words.parse_args()
    members.choose("disk", words.program)
    print(f"disk: seed {words.seed}, {words.kills} kills", flush=True)
    with tempfile.TemporaryDirectory(prefix="am_disk_") as top:
        trial = Trial(top, words.seed)
        if words.ignore:
            trial.find_ignoring(words.ignore)
        else:
            trial.try_members(words.kills, is_by_answers=words.answers, keeps_log=words.log)
        if not words.ignore and not words.answers and not words.log:
            trial.try_members(words.kills, keeps_log=True)
            trial.find_ignoring("file")
            trial.find_ignoring("directory")
            trial.find_ignoring("log")
            trial.find_answers()
    finish("disk")


if __name__ == "__main__":
    main()
