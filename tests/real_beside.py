#!/usr/bin/env python3
"""Has a member beside a real Alertmanager do what that can take, and ask it before a page.

    tests/real_beside.py [PROGRAM]

PROGRAM is crates/am_tool/out/am_tool if it isn't given; ./am_tool and rt ci build it. The Alertmanager is Debian's
prometheus-alertmanager on loopback; where it isn't installed nothing is tried. What it has paged a moment ago, the member doesn't
page again, long before their next exchange. A silence with a pattern that RE2 doesn't read is refused where it is posted, or, with
`--patterns regex`, is taken and never sent, is told in a line and counted; the Alertmanager goes on muting by its other silences.
Fields of a later release go from one Alertmanager through a member, its log, its file and a restart to another, byte for byte. It
takes half a minute or so. Prints each case that fails, and at the end how many passed.
"""

import json
import os
import sys
import tempfile
import time

from lib import members, versions
from lib.alertmanagers import Replica, must_be_installed, receiver, start
from lib.api import silence
from lib.members import Member, Stoppable, eventually, free_ports
from lib.tally import attempt, check, compare, finish
from lib.wire import delimited, field, fields_of

TITLE = "real beside"

# Patterns of Rust's regex that RE2 doesn't read.
HAZARDS = [r"db(?<n>[0-9]+)", "a{1001}", "(?x) a b", r"\p{Alphabetic}+"]


class One(Replica):
    """An Alertmanager alone, and what it notifies."""

    def __init__(self, name, top):
        self.hook = receiver(f"{top}/{name}.yml")
        super().__init__(name, top, f"{top}/{name}.yml")

    def start(self, web, own, peers):
        self.gossip = own
        super().start(web, own, peers)

    def fire(self, name, **labels):
        alert = {"labels": {"alertname": name, **labels}}
        check(f"{name} fires", self.ask("POST", "alerts", [alert]) is not None)

    def notified(self, name):
        """The message by which an alert was notified, if it was."""
        told = [it for it in self.hook.notified if json.loads(it)["groupLabels"].get("alertname") == name]
        return told[0] if told else None

    def log(self):
        with open(f"{self.folder}/log", encoding="utf-8") as file:
            return file.read()


def member_beside(name, one, folder, *options):
    """A member beside the Alertmanager, which asks it each minute."""
    os.mkdir(f"{folder}/{name}")
    member = Member(name, *free_ports(1), [], f"{folder}/{name}", ["--gossip", f"am={one.gossip}", *options])
    check(f"{name} listens", member.start(), member.lines)
    return member


def decided(member, message):
    """What a member decides on a message, and after how many seconds."""
    begun = time.monotonic()
    status, body = member.ask("POST", "/v1/decide?wait=false", message)
    compare("a decision", status, 200)
    return json.loads(body)["reason"], time.monotonic() - begun


def test_paged(one, member):
    """What the Alertmanager has paged since it was asked last isn't paged again."""
    for name in ("Down", "Slow", "Full"):
        one.fire(name)
        message = eventually(lambda: one.notified(name))
        check(f"{name} is notified", message, one.hook.notified)
        # (which it logs once the notifier has answered)
        time.sleep(0.5)
        reason, seconds = decided(member, message)
        compare(f"{name} was paged", reason, "Skip")
        check(f"{name} is decided in time", seconds < 2, seconds)
    reason, _ = decided(member, message.replace(b"Full", b"Other"))
    compare("what nobody has paged", reason, "First")


def test_refused(one, member):
    """A post with a pattern that it couldn't read is refused, and one that it reads comes to it."""
    for pattern in HAZARDS:
        post = silence("x")
        post["matchers"] = [{"name": "job", "value": pattern, "isRegex": True, "isEqual": True}]
        compare(f"a post of {pattern}", member.post(post), (400, b'"bad pattern"'))
    compare("a good one", member.post(silence("muted"))[0], 200)
    check("it comes", eventually(lambda: len(one.listed()) == 1), one.listed())


def test_withheld(one, member):
    """With patterns of Rust's regex they are taken, and not sent."""
    for pattern in HAZARDS:
        post = silence("x")
        post["matchers"] = [{"name": "job", "value": pattern, "isRegex": True, "isEqual": True}]
        compare(f"{pattern} is taken", member.post(post)[0], 200)
    told = lambda: sorted(it for it in member.lines if it.startswith("am_tool: Withheld Pattern"))
    check("each is told", eventually(lambda: len(told()) == len(HAZARDS)), member.lines)
    compare("a good one", member.post(silence("good"))[0], 200)
    check("that comes", eventually(lambda: len(one.listed()) == 2), one.listed())
    time.sleep(2)
    compare("and no other", len(one.listed()), 2)
    one.fire("Muted", job="muted")
    one.fire("Loud", job="loud")
    check("what isn't silenced is paged", eventually(lambda: one.notified("Loud")), one.hook.notified)
    time.sleep(2)
    compare("what is silenced isn't", one.notified("Muted"), None)
    check("its silences are read", "Querying silences failed" not in one.log(), one.log()[-2000:])


def later():
    """A row of a silence with fields of a later release: 10 and 11 in it, and 8 beside it."""
    now = int(time.time())
    text = f"6f1d2a34-0000-4000-8000-000000000001 job=x {now - 10}..{now + 3600} updated {now - 5} expires {now + 400_000} by me saying later"
    (_, inner), (_, expires) = fields_of(versions.silence(text))
    return delimited(field(1, inner + bytes.fromhex("520170 588100")) + field(2, expires) + bytes.fromhex("420171"))


def test_later_fields(folder):
    """The fields of a later release pass through an Alertmanager and a member, its log, its file and a restart, to another one."""
    row = later()
    first, second = replicas = [One(it, folder) for it in ("first", "second")]
    try:
        start([first], [second])
        source = lambda it: f"gossip://127.0.0.1:{it.gossip}"
        pull = lambda it: members.run(["pull", "--state", "sil", source(it)])
        status, _, error = members.run(["push", "--state", "sil", source(first)], input=row)
        compare("a push", (status, error), (0, ""))
        compare("the Alertmanager keeps them", pull(first), (0, row, ""))
        os.mkdir(f"{folder}/later")
        beside = ["--gossip", f"first={first.gossip}", "--log"]
        member = members.begun(Stoppable("later", *free_ports(1), [], f"{folder}/later", beside))
        check("the member has it", eventually(lambda: member.comments() == ["later"]), member.lines)
        compare("a stop", member.stop(), 0)
        with open(member.sil, "rb") as file:
            compare("the member keeps them", file.read(), row)
        member.words[member.words.index(f"first={first.gossip}")] = f"second={second.gossip}"
        check("a start", member.start(), member.lines)
        check("the other has it", eventually(lambda: len(second.listed()) == 1), member.lines)
        compare("as the first", pull(second), (0, row, ""))
        compare("a stop", member.stop(), 0)
    finally:
        for it in replicas:
            if it.process is not None:
                it.process.kill()
                it.process.wait()


def main():
    must_be_installed(TITLE)
    members.choose(TITLE, sys.argv[1:])
    with tempfile.TemporaryDirectory() as folder:
        one = One("am", folder)
        with attempt("an Alertmanager"):
            start([one])
            first = member_beside("re2", one, folder)
            test_paged(one, first)
            test_refused(one, first)
            second = member_beside("regex", one, folder, "--patterns", "regex")
            test_withheld(one, second)
            for member in (first, second):
                member.kill()
        if one.process is not None:
            one.process.kill()
            one.process.wait()
        with attempt("fields of a later release"):
            test_later_fields(folder)
    finish(TITLE)


if __name__ == "__main__":
    main()
