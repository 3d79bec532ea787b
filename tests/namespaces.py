#!/usr/bin/env python3
"""Runs members of the built am_tool in network namespaces, as on three machines, over cables that lose packets.

    tests/namespaces.py [PROGRAM]

PROGRAM is crates/am_tool/out/am_tool if it isn't given. A switch joins four machines. a, b and c run members with one secret; c
hears its frames by IPv6. Silences are posted and ended, and a notification is logged; the cable of c is pulled and put back; b is
killed and started again. Each time all have to show the same, as soon as a pull and a connection take; over cables that lose every
fifth packet, as soon as docs/MEMBERS.md says. d has no secret, and is refused. It takes half a minute. The gate doesn't run it,
since it takes root and iproute2; where no namespaces are made a line says so, and nothing is tried. Prints the seconds that each
agreement took and each case that fails, and at the end how many passed.
"""

import contextlib
import ctypes
import json
import os
import re
import shlex
import subprocess
import sys
import tempfile
import time

import machines
from lib import members
from lib.members import PATIENCE, TOP, begun, eventually
from lib.tally import check, compare, finish, try_each
from lib.wire import delta
from machines import ANOTHER, SECRET, burst, stop, written

# Where machines hear requests, at port 9093, and where members hear frames: b at the same port.
AT = {"a": "10.77.0.1", "b": "10.77.0.2", "c": "10.77.0.3", "d": "10.77.0.4"}
FRAMES = {"a": ("10.77.0.1", 9094), "b": ("10.77.0.2", 9093), "c": ("fd00:77::3", 9094)}

# The namespaces of the switch and of each machine.
SWITCH, SPACES = f"am_{os.getpid()}", {name: f"am_{os.getpid()}_{name}" for name in AT}

# Seconds between pulls, the default of --time-limit, and L of docs/MEMBERS.md for these: 3 P + 2 F + 1 s, where F = 2 C + 1 s.
PULL_EVERY, TIME_LIMIT, SPREAD = 5, 5, 38


def done(command):
    ran = subprocess.run(shlex.split(command), capture_output=True, text=True, check=False)
    if ran.returncode != 0:
        raise OSError(f"{command}: {ran.stderr.strip()}")
    return ran.stdout


def build():
    """Makes the switch and the machines."""
    done(f"ip netns add {SWITCH}")
    done(f"ip -n {SWITCH} link add name switch up type bridge")
    for name, own in SPACES.items():
        done(f"ip netns add {own}")
        done(f"ip -n {SWITCH} link add name {name} up master switch type veth peer name cable netns {own}")
        done(f"ip -n {own} address add {AT[name]}/24 dev cable")
        done(f"ip -n {own} address add fd00:77::{AT[name][-1]}/64 dev cable nodad")
        done(f"ip -n {own} link set group default up")


@contextlib.contextmanager
def inside(name):
    """Has this thread make its sockets on a machine."""
    with open("/proc/thread-self/ns/net", "rb") as home, open(f"/run/netns/{SPACES[name]}", "rb") as there:
        ctypes.CDLL(None).setns(there.fileno(), 0)
        try:
            yield
        finally:
            ctypes.CDLL(None).setns(home.fileno(), 0)


class Member(machines.Member):
    """A member on its machine, which is asked from there."""

    def __init__(self, name, folder, options=()):
        peers = [(peer, machines.word(*at)) for peer, at in FRAMES.items() if peer != name]
        super().__init__(name, AT[name], 9093, peers, folder, ["--pull-every", str(PULL_EVERY), *options])
        if name in ["a", "c"]:
            self.words += ["--peers-listen", machines.word(*FRAMES[name])]

    def command(self):
        return ["ip", "netns", "exec", SPACES[self.name], *super().command()]

    def send(self, *pieces, close=True, at=None):
        with inside(self.name):
            return super().send(*pieces, close=close, at=at)

    def answer(self, greets, answer, at=None):
        with inside(self.name):
            return super().answer(greets, answer, at)

    def states(self):
        return {silence["comment"]: silence["status"]["state"] for silence in self.listed() or []}

    def ends(self, comment):
        [found] = [silence["id"] for silence in self.listed() if silence["comment"] == comment]
        return self.ask("DELETE", f"/api/v2/silence/{found}")[0]


@contextlib.contextmanager
def three(folder):
    secret = written(f"{folder}/secret", SECRET)
    of = [begun(Member(name, folder, ["--secret", secret, "--log", "--pull-first"])) for name in FRAMES]
    try:
        check("all are ready", eventually(lambda: [member.listed() for member in of] == [[]] * 3))
        yield of
    finally:
        stop(*of)


def agree(name, of, within, wanted):
    """Waits until all show the same, which has to be what is wanted."""
    begun = time.monotonic()
    same = lambda: of[0].states() == wanted and len({member.ask("GET", "/api/v2/silences") for member in of}) == 1
    check(f"{name}: all show the same within {within} s", eventually(same, within), [member.states() for member in of])
    print(f"namespaces: {name}: {time.monotonic() - begun:.1f} s", flush=True)


def changes(folder, within=PULL_EVERY + TIME_LIMIT):
    """They come to all, also to one that was cut off and to one that was killed."""
    with open(f"{TOP}/samples/message.json", "rb") as file:
        page = ("POST", "/v1/decide?wait=false", file.read())
    reason = lambda member: json.loads(member.ask(*page)[1])["reason"]
    with three(folder) as (a, b, c):
        compare("posts", [member.say(f"of {member.name}") for member in (a, b, c)], [200] * 3)
        agree("posts", (a, b, c), within, {"of a": "active", "of b": "active", "of c": "active"})
        compare("ends", (b.ends("of a"), a.ends("of c")), (200, 200))
        old = {"of a": "expired", "of b": "active", "of c": "expired"}
        agree("ends", (a, b, c), within, old)
        done(f"ip -n {SWITCH} link set dev c down")
        place, notice = len(a.whole_lines), a.ask(*page)[1]
        compare("a notification is logged", a.ask("POST", "/v1/notified", notice), (200, b'{"logged":true}'))
        compare("changes without c", (a.say("without c"), b.ends("of b")), (200, 200))
        new = {**old, "of b": "expired", "without c": "active"}
        agree("two of three", (a, b), within, new)
        check("b skips the page", eventually(lambda: reason(b) == "Skip", within), b.lines)
        lost = lambda: re.search(r"(Connect|Send Write) .* \(peer c, ", "\n".join(a.whole_lines[place:]))
        check("a tells that c isn't reached", eventually(lost), a.whole_lines)
        compare("c has heard nothing, and takes a post", (c.states(), reason(c), c.say("alone")), (old, "First", 200))
        done(f"ip -n {SWITCH} link set dev c up")
        agree("one that was cut off", (a, b, c), within, {**new, "alone": "active"})
        check("c skips the page", eventually(lambda: reason(c) == "Skip", within), c.lines)
        b.kill()
        compare("changes without b", (a.say("without b"), c.ends("alone")), (200, 200))
        new.update({"alone": "expired", "without b": "active"})
        agree("two that are left", (a, c), within, new)
        begun(b)
        check("b starts from its files", b.lines[0].endswith("; loaded 5 silences, 1 entries"), b.lines)
        check("what b shows first is new", eventually(b.states) == new, b.lines)
        agree("one that was killed", (a, b, c), within, new)


def changes_with_loss(folder):
    """The same over cables that lose every fifth packet: a filter drops one if a random number is below a fifth of 2^32."""
    for way, commands in [
        ("netem loses every fifth packet, and delays the others by 20 ms", ["qdisc add dev {} root netem loss 20% delay 20ms"]),
        ("the kernel has no netem: a filter drops every fifth packet, and delays none", ["qdisc add dev {} clsact",
            "filter add dev {} egress bpf da bytecode '4,32 0 0 4294963256,53 1 0 858993459,6 0 0 2,6 0 0 4294967295'"]),
        ("the kernel has neither netem nor filters: no packet is lost", []),
    ]:
        with contextlib.suppress(OSError):
            for command in [command.format(name) for name in AT for command in commands]:
                done(f"tc -n {SWITCH} {command}")
            break
    print(f"namespaces: {way}", flush=True)
    changes(folder, SPREAD)
    check("packets were lost", not commands or re.search("dropped [1-9]", done(f"tc -n {SWITCH} -s qdisc")))


def strangers(folder):
    """Without the secret a machine is refused by all, and nothing of it is shown."""
    text, d = delta("sil", machines.version()), Member("d", folder)
    with three(folder) as of:
        compare("d takes a post", [each.say("of d") for each in [begun(d)]], [200])
        for member, peer in zip(of, "baa"):
            check(f"{member.name} refuses d", member.told("am_tool: Seal Missing"), member.lines)
            d.answer(peer, lambda challenge, of=(peer, member.name): [burst(ANOTHER, challenge, *of, text)], FRAMES[member.name])
            check(f"{member.name} refuses another secret", member.told_of("am_tool: Seal Sum", peer), member.whole_lines)
            shown = d.ask("GET", "/api/v2/silences", host=member.address, at=(member.address, 9093))
            compare(f"what {member.name} shows to d", shown, (200, b"[]"))
        stop(d)


def main():
    # a shell takes the namespaces away when its input ends, as it does however this script ends
    sweep = ["sh", "-c", "cat; for it; do ip netns pids $it | xargs -r kill -9; ip netns del $it; done", "sh", SWITCH, *SPACES.values()]
    shell = subprocess.Popen(sweep, stdin=subprocess.PIPE, stderr=subprocess.DEVNULL, start_new_session=True)
    try:
        build()
        members.choose("namespaces", sys.argv[1:])
        with tempfile.TemporaryDirectory() as folder:
            try_each([changes, strangers, changes_with_loss], folder)
    except OSError as fault:
        print(f"namespaces: nothing is tried: {fault}")
    finally:
        shell.stdin.close()
        shell.wait(PATIENCE)
    finish("namespaces")


if __name__ == "__main__":
    main()
