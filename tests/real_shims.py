#!/usr/bin/env python3
"""Three real Alertmanagers that don't gossip, each with a webhook to am_pager beside a member of its own, page once.

    tests/real_shims.py [PROGRAM]

PROGRAM is crates/am_tool/out/am_tool if it isn't given; ./am_tool and rt ci build it. The Alertmanagers are Debian's
prometheus-alertmanager on loopback; where it isn't installed nothing is tried. Each alert is posted to all three. Then it
is paged once, as is its end; once, where the first member isn't there, or where one is killed while it waits for its turn; once,
where the first is killed between the page and `notified`, since another one hears of the page; and once within a group interval
where a silence at a member has ended. It takes six minutes or so. Prints each case that fails, with what members and shims have
printed, and at the end how many passed.
"""

import contextlib
import json
import os
import subprocess
import sys
import tempfile
import time
import urllib.request

from lib import members
from lib.alertmanagers import ALERTMANAGER, must_be_installed
from lib.api import moment, silence
from lib.members import PATIENCE, TOP, Member, eventually, free_ports
from lib.tally import attempt, check, compare, finish

TITLE = "real shims"
NAMES = ["a", "b", "c"]

# How long a member waits for each one before it, how long all turns take, and how long it is from one question of a group to the
# next one, in seconds: long, since a machine that does nothing for as long as a turn may have two of them page.
TURN, ALL_TURNS, INTERVAL = 3, 9, 20
OPTIONS = ["--peer-timeout", str(TURN), "--time-limit", "4", "--pull-first", "--pull-first-limit", "3"]
OPTIONS += [word for what in ("tick", "pull", "save") for word in (f"--{what}-every", "1")]

CONFIG = """
route: {{receiver: pager, group_by: [alertname], group_wait: 1s, group_interval: 20s, repeat_interval: 10s}}
receivers: [{{name: pager, webhook_configs: [{{url: "http://127.0.0.1:{}/?repeat=14400", max_alerts: 0}}]}}]
"""

# What sends a page: it writes down whose it is, and when, and kills the process whose number stands in a file, if that is there.
COMMAND = 'm=$(cat); printf "%s %s %s\\n" "$0" "$(date +%s.%N)" "$m" >>"$1/pages"; if [ -e "$1/trap-$0" ]; then kill -9 "$(cat "$1/trap-$0")"; fi'


class Site:
    """An Alertmanager, its shim and its member."""

    def __init__(self, name, ports, folder):
        self.name, self.folder, self.processes = name, folder, []
        self.member = Member(name, ports[name], [(it, ports[it]) for it in NAMES if it != name], folder, OPTIONS)
        self.others = [ports[it] for it in NAMES if it != name]
        self.web, self.shim = free_ports(2)
        self.config = f"{folder}/{name}.yml"
        with open(self.config, "w", encoding="utf-8") as file:
            file.write(CONFIG.format(self.shim))

    def start(self):
        self.start_member()
        pager = [f"{TOP}/install/am_pager", "--listen", str(self.shim), "--member", str(self.member.port)]
        pager += [word for it in self.others for word in ("--member", str(it))]
        pager += ["--", "sh", "-c", COMMAND, self.name, self.folder]
        words = [ALERTMANAGER, f"--config.file={self.config}", f"--storage.path={self.folder}/{self.name}"]
        words += [f"--web.listen-address=127.0.0.1:{self.web}", "--cluster.listen-address="]
        for command in (pager, words):
            with open(f"{self.folder}/{self.name}.log", "ab") as log:
                self.processes.append(subprocess.Popen(command, stdin=subprocess.DEVNULL, stdout=log, stderr=log))

    def start_member(self):
        check(f"{self.name} listens", self.member.start(), self.member.lines)

    def post(self, alert):
        url = f"http://127.0.0.1:{self.web}/api/v2/alerts"
        request = urllib.request.Request(url, json.dumps([alert]).encode(), {"Content-Type": "application/json"})
        with contextlib.suppress(OSError), urllib.request.urlopen(request, timeout=PATIENCE) as reply:
            return reply.status == 200
        return False

    def stop(self):
        for it in [*self.processes, self.member.process]:
            it.kill()
            it.wait()


class Three:
    """Three sites, whose pages stand in one file."""

    def __init__(self, folder):
        ports = dict(zip(NAMES, free_ports(3)))
        self.folder, self.sites = folder, {name: Site(name, ports, folder) for name in NAMES}

    def post(self, name, ends_in=3600):
        """Has an alert fire at all sites, or be over."""
        now = int(1000 * time.time())
        alert = {"labels": {"alertname": name}, "startsAt": moment(now - 5000), "endsAt": moment(now + 1000 * ends_in)}
        for it in self.sites.values():
            check(f"{it.name} takes {name}", eventually(lambda: it.post(alert)), it.folder)

    def each_page(self):
        """Of each page who sent it, when, and the names and states of its alerts."""
        with contextlib.suppress(FileNotFoundError), open(f"{self.folder}/pages", encoding="utf-8") as file:
            for line in file:
                who, when, message = line.split(" ", 2)
                yield who, when, [(it["labels"]["alertname"], it["status"]) for it in json.loads(message)["alerts"]]

    def pages(self, name, status="firing"):
        """Who paged an alert in a state, one after the other."""
        return [who for who, _, states in self.each_page() if (name, status) in states]

    def paged(self, name, status="firing"):
        """Who paged it, once somebody has, and all turns are over for long. If that isn't one, everything is told."""
        eventually(lambda: self.pages(name, status), 30)
        time.sleep(INTERVAL + ALL_TURNS + 4)
        found = self.pages(name, status)
        if len(found) != 1:
            self.tell(name)
        return found

    def tell(self, name):
        """Prints all pages, and the last lines of members, shims and Alertmanagers."""
        print(f"  {name}, until {time.time():.3f}")
        for who, when, states in self.each_page():
            print(f"  {when} {who} paged {states}")
        for it in self.sites.values():
            with open(f"{self.folder}/{it.name}.log", encoding="utf-8", errors="replace") as file:
                lines = file.read().splitlines()[-12:]
            for line in [*it.member.whole_lines[-6:], *lines]:
                print(f"  {it.name}: {line[:300]}")


def test_once(three):
    three.post("Once")
    compare("an alert is paged once", three.paged("Once"), ["a"])
    three.post("Once", -1)
    compare("its end too", len(three.paged("Once", "resolved")), 1)


def test_first_away(three):
    """The next one pages where the first isn't there, and the first doesn't once it is back."""
    three.sites["a"].member.kill()
    three.post("Away")
    found = three.paged("Away")
    compare("it is paged once", len(found), 1)
    three.sites["a"].start_member()
    time.sleep(INTERVAL + ALL_TURNS)
    compare("and by nobody again", three.pages("Away"), found)


def test_killed_in_its_turn(three):
    """It is paged where the members of two are killed while they wait for their turns."""
    three.post("Turn")
    # the group waits for a second
    for name in ("a", "b"):
        three.sites[name].member.kill()
    found = three.paged("Turn")
    compare("it is paged once", len(found), 1)
    for name in ("a", "b"):
        three.sites[name].start_member()
    time.sleep(INTERVAL + ALL_TURNS)
    compare("and by nobody again", three.pages("Turn"), found)


def test_killed_behind_a_page(three):
    """Another member hears of the page where that of the first is killed before it does."""
    first = three.sites["a"].member
    with open(f"{three.folder}/trap-a", "w", encoding="utf-8") as file:
        file.write(str(first.process.pid))
    three.post("Behind")
    found = three.paged("Behind")
    os.remove(f"{three.folder}/trap-a")
    compare("it is paged by a alone", found, ["a"])
    first.kill()
    three.sites["a"].start_member()
    time.sleep(INTERVAL + ALL_TURNS)
    compare("and by nobody again", three.pages("Behind"), found)


def test_silence_ends(three):
    """What fires while a silence at a member mutes it is paged within a group interval of the silence's end, and once."""
    posted = silence("quiet")
    member = three.sites["b"].member
    posted["matchers"][0].update(name="alertname", value="Quiet")
    status, body = member.post(posted)
    compare("a silence is posted", status, 200)
    key = json.loads(body)["silenceID"]
    check("all have it", eventually(lambda: all(it.member.comments() == ["quiet"] for it in three.sites.values())))
    three.post("Quiet")
    time.sleep(INTERVAL + ALL_TURNS)
    compare("nothing is paged while it mutes", three.pages("Quiet"), [])
    compare("it is ended", member.ask("DELETE", f"/api/v2/silence/{key}")[0], 200)
    begun = time.monotonic()
    eventually(lambda: three.pages("Quiet"), 3 * INTERVAL)
    took = time.monotonic() - begun
    check("it is paged within a group interval", took < INTERVAL + ALL_TURNS, took)
    compare("and once", len(three.paged("Quiet")), 1)


def main():
    must_be_installed(TITLE)
    members.choose(TITLE, sys.argv[1:])
    with tempfile.TemporaryDirectory() as folder:
        three = Three(folder)
        try:
            with attempt("the sites"):
                for it in three.sites.values():
                    it.start()
                for test in (test_once, test_silence_ends, test_first_away, test_killed_in_its_turn, test_killed_behind_a_page):
                    test(three)
        finally:
            for it in three.sites.values():
                it.stop()
    finish(TITLE)


if __name__ == "__main__":
    main()
