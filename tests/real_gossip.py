#!/usr/bin/env python3
"""Compares, reads and mends replicas of a real Alertmanager while they run, by the built am_tool and their own gossip.

    tests/real_gossip.py [--seconds N] [PROGRAM]

PROGRAM is crates/am_tool/out/am_tool if it isn't given; ./am_tool and rt ci build it. The replicas are three of Debian's
prometheus-alertmanager on loopback, which can't reach one another; where it isn't installed nothing is tried. Each has silences and
has notified an alert. What they tell by gossip has to be what they write as they end. Then they are mended: pulled, folded, and
each pushed what it lacks. All hold the same then, an ended silence is ended everywhere, and an alert that one has notified isn't
notified again by another. No replica comes to know of a further one. At last a member runs beside three others: for N seconds,
and once each at the least, they are killed in turn and lose their data, and come back with all silences and entries, from the
member alone. It takes two minutes or so, and N seconds. Prints each case that fails, and at the end how many passed.
"""

import argparse
import json
import os
import shutil
import sys
import tempfile
import time
import urllib.request

from lib import members
from lib.alertmanagers import FILES, Replica, diff, end, files, must_be_installed, receiver, start, stop, three
from lib.api import silence
from lib.members import PATIENCE, Member, bytes_of, eventually, free_ports, run
from lib.tally import check, compare, finish

TITLE = "real gossip"


class Alone(Replica):
    """A replica that has no peers, and the receiver of what it notifies."""

    def __init__(self, name, top):
        config = f"{top}/{name}.yml"
        self.hook = receiver(config)
        super().__init__(name, top, config)

    def start(self, web, own, peers):
        self.own, self.word = own, f"gossip://127.0.0.1:{own}"
        super().start(web, own, peers)

    def lose_all(self):
        """Is killed, loses its data, and starts again."""
        self.process.kill()
        self.process.wait(PATIENCE)
        shutil.rmtree(self.folder)
        os.mkdir(self.folder)
        self.start(self.web, self.own, [])

    def alert(self, name):
        labels = {"alertname": name, "job": "web"}
        compare(f"{self.name} is told of {name}", self.ask("POST", "alerts", [{"labels": labels, "startsAt": silence("x")["startsAt"]}]), True)

    def names(self):
        """The alerts that it notified."""
        return [it["labels"]["alertname"] for data in self.hook.notified for it in json.loads(data)["alerts"]]

    def figures(self):
        """Its figures of the cluster, but of messages and of times."""
        url = f"http://127.0.0.1:{self.web}/metrics"
        with urllib.request.urlopen(url, timeout=PATIENCE) as reply:
            lines = reply.read().decode().splitlines()
        wanted = ("alertmanager_cluster_members", "alertmanager_cluster_failed_peers", "alertmanager_cluster_health_score", "alertmanager_cluster_peers_joined_total")
        return sorted(it for it in lines if it.startswith(wanted))

    def log(self):
        return bytes_of(f"{self.folder}/log").decode()


def words_of(replicas):
    return {it.name: it.word for it in replicas}


def drift(three):
    """Gives each replica silences and alerts of its own."""
    a, b, c = three
    start([a], [b], [c])
    keys = {"a": a.post("a", "made at a"), "c": c.post("c", "made at c"), "ended": b.post("ended", "made at b")}
    # b's first silence comes to a and c by push, and then ends at c
    whole = pulled(b, "sil")
    for it in (a, c):
        compare(f"{it.name} takes what b has", push(it, "sil", whole)[::2], (0, ""))
    end(c, keys["ended"])
    for replica, name in ((a, "Down"), (b, "Slow")):
        replica.alert(name)
        check(f"{replica.name} notifies", eventually(lambda: replica.names()), replica.folder)
    return keys


def pulled(replica, state):
    status, output, error = run(["pull", "--state", state, replica.word])
    compare(f"a pull of {state} of {replica.name}", (status, error), (0, ""))
    return output


def push(replica, state, row, *words):
    status, output, error = run(["push", "--state", state, *words, replica.word], input=row)
    return status, output.decode().splitlines(), error


def folded(rows, state):
    status, output, error = run(["fold", "--state", state, "--now", "0"], input=b"".join(rows))
    compare(f"a fold of {state}", (status, error), (0, ""))
    return output


def test_same_as_files(three):
    """What is told by gossip is what stands in the files then."""
    told = {state: diff(state, words_of(three), "--held") for state in FILES}
    rows = {(it.name, state): pulled(it, state) for it in three for state in FILES}
    stop(three)
    for state in FILES:
        check(f"{state} differs", told[state][0] == 5 and told[state][1], told[state])
        compare(f"{state}, by gossip and by files", told[state], diff(state, files(three, state), "--held"))
        for it in three:
            compare(f"the {state} of {it.name}", rows[it.name, state], folded([bytes_of(files(three, state)[it.name])], state))


def test_mended(three, keys):
    """All hold the fold once each was pushed what it lacks."""
    a, b, c = three
    start([a], [b], [c])
    figures = [it.figures() for it in three]
    for state in FILES:
        whole = folded([pulled(it, state) for it in three], state)
        for it in three:
            dry = push(it, state, whole, "--dry-run")
            compare(f"a push of {state} to {it.name}", push(it, state, whole), (0, *dry[1:]))
            check("it was told what would be sent", dry[0] == (5 if dry[1] else 0), dry)
        compare(f"{state}, once mended", diff(state, words_of(three), "--held"), (0, [], ""))
        for it in three:
            compare(f"{it.name} holds the fold of {state}", pulled(it, state), whole)
            compare(f"a push of {state} again", push(it, state, whole), (0, [], ""))
    for it in three:
        shown = it.listed()
        compare(f"{it.name} shows all", sorted(shown), sorted(keys.values()))
        compare(f"it has ended at {it.name}", shown[keys["ended"]]["status"]["state"], "expired")
    compare("figures of the clusters", [it.figures() for it in three], figures)
    noisy = [line for it in three for line in it.log().splitlines() if "level=warn" in line or "level=error" in line]
    compare("no line of a warning", noisy, [])


def test_not_again(three):
    """An alert that one has notified isn't notified again by another, and one that nobody has is."""
    a, b, _ = three
    b.alert("Down")
    b.alert("Other")
    check("b notifies the other one", eventually(lambda: "Other" in b.names()), b.names())
    time.sleep(6)
    compare("and not the one that a has notified", b.names().count("Down"), 0)


def test_ends_alike(three):
    """What stands in the files at the end differs by nothing but the other alert, which b alone has notified."""
    stop(three)
    compare("sil of all files", diff("sil", files(three, "sil"), "--held"), (0, [], ""))
    status, lines, error = diff("nfl", files(three, "nfl"), "--held")
    others = [it.split(" ")[5:7] for it in lines if "Other" in it]
    compare("nfl of all files", (status, len(lines), others, error), (5, 2, [["greatest", "b"], ["missing", "a,c"]], ""))


def held(replica, state):
    """What a replica tells, as a row; none where it isn't reached."""
    status, output, _ = run(["pull", "--state", state, replica.word])
    return output if status == 0 else None


def all_hold(three, member):
    """Whether all hold the same silences and entries, as many as the member does."""
    rows = [[held(it, state) for it in three] for state in FILES]
    return all(None not in it and len(set(it)) == 1 for it in rows) and len(three[0].listed()) == len(member.listed() or [])


def test_beside(top, seconds):
    """Beside a member each replica has what the others have, and comes back with all, whoever loses its data."""
    with three(lambda name: Alone(name, top)) as replicas:
        start(*([it] for it in replicas))
        words = [word for it in replicas for word in ("--gossip", f"{it.name}={it.own}")]
        member = Member("m", free_ports(1)[0], [], top, [*words, "--gossip-every", "2", "--tick-every", "60", "--log"])
        try:
            check("the member listens", member.start(), member.lines)
            make_known(replicas, member)
            lose_in_turn(replicas, member, time.monotonic() + seconds)
            faults = [it for it in member.lines[1:] if not it.startswith(("am_tool: Connect ", "am_tool: Send "))]
            compare("no fault but of those that were away", faults, [])
        finally:
            member.process.kill()


def make_known(replicas, member):
    """Each makes a silence and notifies an alert, and all hold all of it."""
    for it in replicas:
        it.post(it.name, f"made at {it.name}")
        it.alert(f"Down{it.name}")
        check(f"{it.name} notifies", eventually(it.names), it.folder)
    all_listed = lambda: len(replicas[0].listed()) == 3 and all_hold(replicas, member)
    check("all hold all", eventually(all_listed), [it.listed() for it in replicas])
    compare("and all entries", [len(show(held(it, "nfl"))) for it in replicas], [3, 3, 3])


def show(row):
    status, output, _ = run(["show", "--state", "nfl"], input=row)
    return output.splitlines() if status == 0 else []


def lose_in_turn(three, member, end):
    """Each loses all once, and again until then; meanwhile silences are made."""
    rounds = 0
    while rounds < len(three) or time.monotonic() < end:
        it, other = three[rounds % 3], three[(rounds + 1) % 3]
        wanted = len(member.listed())
        it.lose_all()
        begun = time.monotonic()
        back = eventually(lambda: len(it.listed()) == wanted and all_hold(three, member))
        check(f"{it.name} comes back with all, round {rounds}", back, (wanted, it.listed(), member.lines))
        print(f"round {rounds}: {it.name} has {wanted} silences again after {time.monotonic() - begun:.1f} s", flush=True)
        other.post(f"r{rounds}", "made meanwhile")
        check("a new one is everywhere", eventually(lambda: len(it.listed()) == wanted + 1 and all_hold(three, member)), it.listed())
        rounds += 1
    compare("none notifies again what another has", sorted(name for it in three for name in it.names()), sorted(f"Down{it.name}" for it in three))


def main():
    parser = argparse.ArgumentParser()
    parser.add_argument("--seconds", type=int, default=0)
    parser.add_argument("program", nargs="*")
    options = parser.parse_args()
    must_be_installed(TITLE)
    members.choose(TITLE, options.program)
    with tempfile.TemporaryDirectory() as top:
        with three(lambda name: Alone(name, top)) as all_of:
            keys = drift(all_of)
            test_same_as_files(all_of)
            test_mended(all_of, keys)
            test_not_again(all_of)
            test_ends_alike(all_of)
        os.mkdir(f"{top}/beside")
        test_beside(f"{top}/beside", options.seconds)
    finish(TITLE)


if __name__ == "__main__":
    main()
