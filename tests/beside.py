#!/usr/bin/env python3
"""Runs members of the built am_tool beside replicas of this script, which speak memberlist as Alertmanager does, or badly.

    tests/beside.py [PROGRAM]

PROGRAM is crates/am_tool/out/am_tool if it isn't given; ./am_tool and rt ci build it. A member has to hold what each replica
holds, to give back what one forgot, and to tell each of new versions at once; and to go on where one lies, stalls, cuts its
answer or never ends it. What is wanted is written by hand, from docs/MEMBERS.md and docs/FORMATS.md. Prints each case that
fails, and at the end how many passed.
"""

import json
import re
import sys
import tempfile
import threading
import time

import gossip
from lib import members
from gossip import Liar, Replica, answer, bomb, compressed, plain_lzw, states_of, take, version_of
from lib.members import Member, eventually, free_ports, run
from lib.tally import check, compare, finish, try_each
from lib.alert_hashes import hash_of
from lib.api import silence
from lib.versions import entry as bytes_of_entry, number, of_later, row, silence as bytes_of
from lib.wire import delta, field, fields_of, greeting, items
from turns import answered, asked, decided, message

HOUR = 3600

# The moment of the start, in seconds.
NOW = int(time.time())

# What a member prints of an answer that is cut.
CUT = "am_tool: Gossip Cut"


def of(key, value="x", updated=-10, expires=HOUR, comment="c"):
    """A silence in words, with moments in seconds from the start on."""
    return f"{key} job={value} {NOW - 100}..{NOW + expires} updated {NOW + updated} expires {NOW + expires} by me saying {comment}"


def entry(group, updated=-10, firing="1,2"):
    return f"{group} r/w/0 updated {NOW + updated} expires {NOW + HOUR} firing {firing}"


class Alive(Replica):
    """A replica by the clock of this machine."""

    def __init__(self, **held):
        super().__init__(now=0, **held)
        self.port = int(self.word.rsplit(":", 1)[1])

    def merge(self, states):
        self.now = time.time_ns()
        super().merge(states)

    def keys(self, state="sil"):
        return sorted(key[0].decode() for key in self.held[state])

    def forget(self):
        self.held = {"sil": {}, "nfl": {}}


def started(name, folder, replicas, *options, every=1, peers=()):
    """A member beside replicas by their names."""
    words = [word for at, it in replicas.items() for word in ("--gossip", f"{at}={it.port}")]
    member = Member(name, free_ports(1)[0], peers, folder, [*words, "--gossip-every", str(every), *members.ALL_LINES, *options])
    check(f"{name} listens", member.start(), member.lines)
    return member


def listed(member):
    return sorted(it["id"] for it in member.listed() or [])


def post(member, value):
    status, body = member.ask("POST", "/api/v2/silences", json.dumps(silence(value)).encode())
    compare(f"a post of {value}", status, 200)
    return json.loads(body)["silenceID"]


def stop(member):
    member.process.terminate()
    member.end()


def test_holds(folder):
    """It holds what the replica holds, both states, and what comes there later."""
    one = Alive(sil=f"{of('a')}, {of('b')}", nfl=entry("g"))
    member = started("m", folder, {"am": one})
    check("it holds the silences", eventually(lambda: listed(member) == ["a", "b"]), member.lines)
    check("its start says so", ", beside am=" in member.lines[0], member.lines[0])
    one.merge(states_of(sil=row("sil", f"{of('c')}, {of('b', updated=-5, comment='later')}")))
    check("and what came later", eventually(lambda: listed(member) == ["a", "b", "c"]), member.lines)
    check("an update, too", eventually(lambda: "later" in [it["comment"] for it in member.listed()]), member.listed())
    compare("nothing goes back", (one.pushed[1:], one.faults), ([], []))
    member.send(greeting("nobody"))
    compare("no fault", [it for it in member.lines[1:] if "UnknownName" not in it], [])
    member.process.kill()
    member.end()


def test_given_back(folder):
    """What a replica forgot, it gets again, each key once, both states, from the member alone."""
    many = ", ".join(of(f"k{it:04}") for it in range(3_000))
    one = Alive(sil=many, nfl=entry("g"), raw=True)
    member = started("m", folder, {"am": one})
    check("it holds all", eventually(lambda: len(listed(member)) == 3_000), len(listed(member)))
    held = {state: dict(it) for state, it in one.held.items()}
    one.forget()
    check("it is given back", eventually(lambda: len(one.held["sil"]) == 3_000 and len(one.held["nfl"]) == 1), len(one.held["sil"]))
    compare("byte for byte", one.held, held)
    compare("in one part of each state, without a fault", (sorted((key, len(it)) for key, it in one.pushed), one.faults), ([("nfl", 1), ("sil", 3_000)], []))
    member.process.kill()
    member.end()


def test_at_once(folder):
    """A new version goes to each replica at once, and from one to the other; both ways once."""
    one, other = Alive(), Alive(sil=of("o"))
    member = started("m", folder, {"am1": one, "am2": other}, every=HOUR)
    check("from one to the other", eventually(lambda: one.keys() == ["o"]), one.keys())
    begun = time.monotonic()
    key = post(member, "web")
    check("to the first", eventually(lambda: key in one.keys()), one.keys())
    check("to the second", eventually(lambda: key in other.keys()), other.keys())
    check("within a second or so", time.monotonic() - begun < 5)
    status, _ = member.ask("DELETE", f"/api/v2/silence/{key}")
    compare("an end", status, 200)
    ended = lambda it: version_of(it.held["sil"][(key.encode(), b"")])[1]
    check("comes, too", eventually(lambda: ended(one) == ended(other) and len(one.pushed) >= 3), one.pushed)
    compare("each was asked once", (one.asked, other.asked), (1, 1))
    compare("without a fault", one.faults + other.faults, [])
    stop(member)


def test_unknown_fields(folder):
    """Fields of a later release that one Alertmanager gives come to the other byte for byte, and after a restart too."""
    silence_of_later = of_later(bytes_of(of("a")), number(10, 1) + field(11, b"v"), field(8, b"z"))
    entry_of_later = of_later(bytes_of_entry(entry("g")), field(10, b"v"), number(9, 1))
    one = Alive(sil=f"bytes {silence_of_later.hex()}, {of('b')}", nfl=f"bytes {entry_of_later.hex()}")
    held = {state: dict(it) for state, it in one.held.items()}
    other = Alive()
    replicas = {"am1": one, "am2": other}
    member = started("m", folder, replicas, "--log")
    check("they come to the other", eventually(lambda: other.held == held), other.held)
    more = of_later(bytes_of(of("c")), number(10, 7), b"")
    one.merge(states_of(sil=row("sil", f"bytes {more.hex()}")))
    held = {state: dict(it) for state, it in one.held.items()}
    check("so do later ones", eventually(lambda: other.held == held), other.held)
    stop(member)
    one.forget()
    other.forget()
    member = started("m", folder, replicas, "--log")
    check("both are given them after a restart", eventually(lambda: one.held == held == other.held), (one.held, other.held))
    compare("without a fault", one.faults + other.faults, [])
    stop(member)


def test_dropped(folder):
    """Fields of a later release in a matcher and in an expiry are lost, which is told; the rest comes to the other Alertmanager."""
    version, matcher = bytes_of(of("a")), field(2, b"job") + field(3, b"x")
    whole = dict(fields_of(version))
    check("there is one matcher", whole[1].count(field(2, matcher)) == 1, whole)
    inner = whole[1].replace(field(2, matcher), field(2, matcher + number(9, 1)))
    later = field(1, inner + number(10, 1)) + field(2, whole[2] + number(12, 1))
    one, other = Alive(sil=f"bytes {later.hex()}, {of('b')}"), Alive()
    member = started("m", folder, {"am1": one, "am2": other}, every=HOUR)
    wanted = {(b"a", b""): of_later(version, number(10, 1)), (b"b", b""): bytes_of(of("b"))}
    check("the rest comes to the other", eventually(lambda: other.held["sil"] == wanted), other.held["sil"])
    check("what is lost is told", eventually(lambda: "am_tool: Fields Dropped 2" in member.lines), member.lines)
    check("of whom", any("Fields Dropped 2" in it and "(peer am1, " in it for it in member.whole_lines), member.whole_lines)
    compare("once", sum("Fields Dropped" in it for it in member.lines), 1)
    stop(member)


def test_not_given(folder):
    """What a replica wouldn't take isn't sent: the future, what has expired, and what ties in its update."""
    one = Alive()
    with open(f"{folder}/m.sil", "wb") as file:
        file.write(row("sil", ", ".join([of("f", updated=HOUR, expires=2 * HOUR), of("g", expires=-5), of("t", expires=2 * HOUR), of("l")])))
    one.merge(states_of(sil=row("sil", of("t"))))
    member = started("m", folder, {"am": one})
    check("what it lacks comes", eventually(lambda: "l" in one.keys()), one.keys())
    check("it is asked again", eventually(lambda: one.asked > 3), one.asked)
    compare("and nothing else", [len(it) for _, it in one.pushed], [1, 1])
    compare("the tie stays", version_of(one.held["sil"][(b"t", b"")])[2] // 10**9, NOW + HOUR)
    stop(member)


# Patterns that a member takes, and RE2 refuses.
REFUSED = [r"db(?<n>[0-9]+)", "a{1001}", "(?x) a b", r"\p{Alphabetic}+"]


def hazards(name, count):
    """Silences of a name that no Alertmanager can be handed: by their patterns, without a matcher, and of a wrong label name."""
    words = [f"job=~{it}".replace("\\", "\\\\").replace(" ", r"\x20") for it in REFUSED] + ["", "1job=x"]
    times = f"{NOW - 100}..{NOW + HOUR} updated {NOW - 10} expires {NOW + HOUR}"
    return [f"{name}{it:03} {words[it % len(words)]} {times} by me saying c" for it in range(count)]


def test_hazards(folder):
    """Silences that would hurt an Alertmanager stay here, however they came: 200 of them, and one beside each that goes."""
    one = Alive()
    with open(f"{folder}/m.sil", "wb") as file:
        file.write(row("sil", ", ".join([*hazards("f", 60), of("file")])))
    member = started("m", folder, {"am": one}, "--patterns", "regex", peers=[("b", free_ports(1)[0])])
    of_peer = b"".join(delta("sil", next(items(row("sil", it)))) for it in [*hazards("p", 60), of("peer")])
    member.send(greeting("b") + of_peer)
    for count in range(80):
        matcher = {"name": "job", "value": REFUSED[count % len(REFUSED)], "isRegex": True, "isEqual": True}
        status, _ = member.post({**silence("x"), "matchers": [matcher]})
        compare(f"a post of {matcher['value']}", status, 200)
    posted = post(member, "web")
    wanted = sorted(["file", "peer", posted])
    check("what is harmless comes", eventually(lambda: one.keys() == wanted), one.keys())
    compare("it holds all", len(listed(member)), 203)
    asked = one.asked
    check("it is asked again", eventually(lambda: one.asked > asked + 2), one.asked)
    told = {version_of(it)[0][0].decode() for _, came in one.pushed for it in came}
    compare("and nothing else was ever sent", (sorted(told), one.keys(), one.faults), (wanted, wanted, []))
    stop(member)


# Patterns that RE2 and a member read alike, though some stand for other ones of its own.
READ = [r"db(?P<n>[0-9]+)", "a{1000}", "[[:alpha:]]+", r"\d+"]


def post_of(member, matchers):
    """What comes for a post of these names and patterns."""
    matchers = [{"name": name, "value": value, "isRegex": True, "isEqual": True} for name, value in matchers]
    status, body = member.post({**silence("x"), "matchers": matchers})
    return status, body if status != 200 else b""


def muting(member, value):
    """How many silences mute an alert of a job: a decision says which of its alerts are muted."""
    alert = {"status": "firing", "labels": {"alertname": "a", "job": value}}
    message = {"version": "4", "receiver": "r", "groupKey": f"job {value}", "status": "firing", "alerts": [alert]}
    status, body = member.ask("POST", "/v1/decide?wait=false", json.dumps(message).encode())
    compare(f"a decision on {value}", status, 200)
    return len(json.loads(body)["muted"])


def test_dialects(folder):
    """Beside an Alertmanager posts are judged as it does, and patterns mean what they mean there; by --patterns regex, or alone, not."""
    bad = (400, b'"bad pattern"')
    own = [[("job", it)] for it in REFUSED] + [[("a-b", "x")]]
    for name, replicas, dialect, refusal, muted in [
        ("alone", {}, [], (200, b""), 1),
        ("beside", {"am": Alive()}, [], bad, 0),
        ("beside by regex", {"am": Alive()}, ["--patterns", "regex"], (200, b""), 1),
        ("alone by re2", {}, ["--patterns", "re2"], bad, 0),
    ]:
        member = started(name.replace(" ", "_"), folder, replicas, *dialect)
        for matchers in own:
            compare(f"{name}, a post of {matchers}", post_of(member, matchers), refusal)
        for it in READ:
            compare(f"{name}, a post of {it}", post_of(member, [("job", it)]), (200, b""))
        compare(f"{name}, a digit that isn't ASCII's", muting(member, "\u0663"), muted)
        compare(f"{name}, one that is", muting(member, "3"), 1)
        told = "re2" if refusal == bad else "regex"
        _, body = member.ask("GET", "/api/v2/status")
        check(f"{name}, its options are told", f"--patterns {told}" in json.loads(body)["config"]["original"], body)
        stop(member)


def figures(member, name):
    """The figures of a family, by the words of their labels."""
    _, body = member.ask("GET", "/metrics")
    found = re.findall(rf"^{name}\{{(.*)\}} (\S+)$", body.decode(), re.M)
    return {tuple(re.findall(r'"(.*?)"', labels)): float(number) for labels, number in found}


def is_twice(counted):
    """Whether exchanges are counted whole."""
    by_pattern, by_matcher = (counted.get(("am", cause), 0) for cause in ("pattern", "matcher"))
    return by_pattern == 2 * by_matcher and by_matcher % 4 == 0


def test_withheld(folder):
    """What isn't sent is told, once for each version, and counted by its cause at each exchange."""
    one = Alive()
    with open(f"{folder}/m.sil", "wb") as file:
        file.write(row("sil", ", ".join([*hazards("f", 12), of("file")])))
    member = started("m", folder, {"am": one})
    check("what is harmless comes", eventually(lambda: one.keys() == ["file"]), one.keys())
    check("it is asked again", eventually(lambda: one.asked > 3), one.asked)
    wanted = sorted(f"am_tool: Withheld {'Pattern' if it % 6 < 4 else 'Matcher'} f{it:03}" for it in range(12))
    told = lambda: sorted(it for it in member.lines if it.startswith("am_tool: Withheld"))
    compare("each is told once", eventually(lambda: len(told()) == 12 and told()), wanted)
    matcher = {"name": "job", "value": REFUSED[0], "isRegex": True, "isEqual": True}
    compare("none like these is taken", member.post({**silence("x"), "matchers": [matcher]})[0], 400)
    # (at each exchange eight of the file are counted by their pattern, and four by their matchers)
    counted = lambda: figures(member, "maityrunga_silences_withheld_total")
    check("by matcher", counted().get(("am", "matcher"), 0) >= 8, counted())
    check("and twice as many by pattern", eventually(lambda: is_twice(counted())), counted())
    check("whose line names the Alertmanager", any("Withheld" in it and "(peer am, " in it for it in member.whole_lines), member.whole_lines)
    stop(member)


def test_figures(folder):
    """When an Alertmanager was heard last, and what it lacked then."""
    one = Alive(sil=f"{of('a')}, {of('b')}", nfl=entry("g"))
    away = type("Away", (), {"port": free_ports(1)[0]})
    member = started("m", folder, {"am": one, "bm": away}, every=2)
    heard = lambda: figures(member, "maityrunga_alertmanager_last_heard_timestamp_seconds")
    lacked = lambda: figures(member, "maityrunga_alertmanager_lacked")
    check("it is heard now", eventually(lambda: abs(heard()[("am",)] - time.time()) < members.PATIENCE), heard())
    compare("one that isn't there never was", heard()[("bm",)], 0)
    compare("it lacked nothing", lacked(), {("am",): 0, ("bm",): 0})
    one.forget()
    check("it lacked three versions", eventually(lambda: lacked()[("am",)] == 3), lacked())
    _, body = member.ask("GET", "/api/v2/status")
    shown = {it["name"]: it for it in json.loads(body)["alertmanagers"]}
    compare("the status has both", sorted((it["name"], it["address"], it["withheld"]) for it in shown.values()), [(it, f"127.0.0.1:{at.port}", 0) for it, at in (("am", one), ("bm", away))])
    check("and when they were heard", shown["am"]["lastHeard"].startswith("20") and shown["bm"]["lastHeard"] == "", shown)
    check("and then none", eventually(lambda: lacked()[("am",)] == 0), lacked())
    stop(member)


# The entry by which an Alertmanager has paged the group of turns.message.
PAGED = f"g team/webhook/0 updated {NOW} expires {NOW + HOUR} firing {hash_of({'alertname': 'Down'})}"


def decision(member, key="g", name="Down"):
    """A connection on which it is asked whether to page, in no turn."""
    return asked(member, "/v1/decide?wait=false", message(key, name))


def unheard(member):
    return [it for it in member.whole_lines if it.startswith("am_tool: Unheard")]


def test_asked_before(folder):
    """Before a page each Alertmanager is asked: one that has just paged keeps the member from it."""
    one, other = Alive(), Alive()
    member = started("m", folder, {"am1": one, "am2": other}, every=HOUR)
    check("each is asked at the start", eventually(lambda: (one.asked, other.asked) == (1, 1)), (one.asked, other.asked))
    reply = answered(decision(member, "h"))
    compare("nobody has paged", decided(reply), (200, True, "First"))
    compare("each was asked before", (one.asked, other.asked), (2, 2))
    one.merge(states_of(nfl=row("nfl", PAGED)))
    compare("one has just paged", decided(answered(decision(member))), (200, False, "Skip"))
    compare("each was asked once more", (one.asked, other.asked), (3, 3))
    compare("what is skipped asks nobody", (decided(answered(decision(member))), one.asked), ((200, False, "Skip"), 3))
    compare("no line is printed", unheard(member), [])
    counted = figures(member, "maityrunga_decisions_total")
    compare("decisions are counted once", (counted[("First",)], counted[("Skip",)]), (1, 2))
    stop(member)


def test_unheard(folder):
    """One that doesn't answer holds a page up for the time limit, and a line says so, once a minute; what isn't paged doesn't wait."""
    mute = Stalling(b"")
    mute.port = int(mute.word.rsplit(":", 1)[1])
    away = type("Away", (), {"port": free_ports(1)[0]})
    member = started("m", folder, {"am": mute, "bm": away}, "--time-limit", "2", every=HOUR)
    for key in ("g", "h"):
        start = time.monotonic()
        reply = answered(decision(member, key))
        compare(f"{key} is paged", decided(reply), (200, True, "First"))
        check(f"after the limit for {key}", 1.9 < reply[2] - start < 4, reply[2] - start)
    names = sorted(it.partition("(peer ")[2].partition(",")[0] for it in unheard(member))
    compare("a line for each", names, ["am", "bm"])
    status, _ = member.post(silence("x", matchers=[{"name": "alertname", "value": "Muted", "isRegex": False}]))
    start = time.monotonic()
    reply = answered(decision(member, "i", "Muted"))
    compare("a silence is posted", status, 200)
    compare("what is muted doesn't wait", (decided(reply), reply[2] - start < 1), ((200, False, "Muted"), True))
    stop(member)
    member = started("n", folder, {"bm": away}, "--time-limit", "20", every=HOUR)
    start = time.monotonic()
    reply = answered(decision(member))
    compare("one that isn't there holds nothing up", (decided(reply), reply[2] - start < 10), ((200, True, "First"), True))
    stop(member)


def test_ten(folder):
    """Ten decisions at once make one exchange, behind the one that is under way when they come."""
    slow, gate, begun = Alive(), threading.Event(), []
    member = started("m", folder, {"am": slow}, "--time-limit", "30", every=HOUR)
    check("it is asked at the start", eventually(lambda: slow.asked == 1), slow.asked)
    plainly = slow.answer
    slow.answer = lambda *words: (begun.append(1), gate.wait(20), plainly(*words))
    first = decision(member, "first")
    check("an exchange begins", eventually(lambda: len(begun) == 1), begun)
    ten = [decision(member, f"g{it}") for it in range(10)]
    time.sleep(0.5)
    gate.set()
    compare("all are answered", [decided(answered(it)) for it in [first, *ten]], [(200, True, "First")] * 11)
    compare("by two exchanges", len(begun), 2)
    stop(member)


def test_gone(folder):
    """A client that goes away gives its place back."""
    mute = Stalling(b"")
    mute.port = int(mute.word.rsplit(":", 1)[1])
    member = started("m", folder, {"am": mute}, "--time-limit", "2", "--at-once", "4", "--waiting", "1", every=HOUR)
    gone = decision(member, "g")
    time.sleep(0.3)
    compare("its place is taken", answered(decision(member, "h"))[:2], (503, "too many wait"))
    gone.close()
    again = lambda: (reply := answered(decision(member, "i")))[0] == 200 and decided(reply)
    compare("and is free again", eventually(again, 10), (200, True, "First"))
    stop(member)


class Stalling(Liar):
    """One that sends these bytes, and nothing more for a long time."""

    def __init__(self, reply):
        super().__init__(reply, wait=600)


class Endless(Liar):
    """One that never stops sending."""

    def __init__(self):
        super().__init__(b"")

    def speak(self, stream):
        take(stream, len(gossip.PULL))
        while True:
            stream.sendall(bytes(65536))


def test_liars(folder):
    """One that lies, stalls or cuts holds up nobody: the member answers, the other replica is served, and a line tells whose fault it is."""
    whole = answer(states_of(sil=row("sil", of("x")), nfl=b""))
    liars = {
        "nothing": (Liar(b""), "Gossip Nothing"),
        "http": (Liar(b"HTTP/1.1 400 Bad Request\r\n\r\n"), "Gossip Kind 72"),
        "cut": (Liar(whole[:20]), "Gossip Cut"),
        "more": (Liar(whole + b"\0"), "Gossip Length"),
        "lzw": (Liar(compressed(plain_lzw(whole)[:-2])), "Gossip Lzw Cut"),
        "zbomb": (Liar(compressed(bomb())), "Gossip Lzw TooLong"),
        "twice": (Liar(answer(states_of(sil=b"") + states_of(sil=b""))), "Gossip Twice"),
        "one": (Liar(answer(states_of(sil=row("sil", of("x"))))), "Gossip NoState"),
        "error": (Liar(gossip.recorded("error.answer")), "Gossip Error"),
        "row": (Liar(answer(states_of(sil=row("sil", of("x"))[:-1], nfl=b""))), "Wire Truncated 0"),
        "stall": (Stalling(b""), "Send Write"),
        "part": (Stalling(whole[:10]), "Send Write"),
        "endless": (Endless(), "Send"),
    }
    for liar, _ in liars.values():
        liar.port = int(liar.word.rsplit(":", 1)[1])
    one = Alive(sil=of("a"))
    beside = {"am": one, **{name: liar for name, (liar, _) in liars.items()}}
    member = started("m", folder, beside, "--time-limit", "2", every=HOUR)
    check("the true one is served", eventually(lambda: listed(member) == ["a"]), member.lines)
    begun = time.monotonic()
    key = post(member, "web")
    check("and told at once", eventually(lambda: key in one.keys()), one.keys())
    check("whatever the others do", time.monotonic() - begun < 5)
    for name, (_, line) in liars.items():
        told = lambda: [it for it in member.whole_lines if f"(peer {name}, " in it and it.startswith(f"am_tool: {line}")]
        check(f"of {name} it is told {line}", eventually(told, 20), member.whole_lines)
    compare("nothing of theirs is held", listed(member), sorted(["a", key]))
    stop(member)


# How many bytes of parts and of fields an answer has that mean nothing, and how long a request may take on a busy machine.
MEANINGLESS, BUSY = 20_000_000, 0.25


def waited(name, folder, states, last):
    """How long the slowest request takes, in seconds, until a member has the last silence of these states of a replica."""
    liar = Liar(answer(states))
    liar.port = int(liar.word.rsplit(":", 1)[1])
    member = started(name, folder, {"am": liar}, "--time-limit", str(members.PATIENCE), every=HOUR)
    slow, end, status = 0, time.monotonic() + 5 * members.PATIENCE, 404
    while status == 404 and time.monotonic() < end:
        start = time.monotonic()
        status, _ = member.ask("GET", f"/api/v2/silence/{last}")
        slow = max(slow, time.monotonic() - start)
    compare(f"{name} has the last silence", status, 200)
    stop(member)
    return slow


def test_meaningless(folder):
    """However many parts and fields of an answer mean nothing, nobody waits for them."""
    states = states_of(sil=row("sil", ", ".join(of(f"k{number:04}") for number in range(3000))), nfl=b"")
    half = MEANINGLESS // 4
    plain = waited("plain", folder, states, "k2999")
    slow = waited("much", folder, field(1, b"") * half + states + bytes([24, 0]) * half, "k2999")
    check("nobody waits for what means nothing", slow <= 4 * plain + BUSY, (slow, plain))


def test_nobody(folder):
    """One that isn't there is told, and found once it is."""
    port = free_ports(1)[0]
    one = Alive(sil=of("a"))
    away = type("Away", (), {"port": port})
    member = started("m", folder, {"am": away, "bm": one})
    check("it is told", eventually(lambda: f"am_tool: Connect ConnectionRefused {port}" in member.lines), member.lines)
    compare("the other one is served", eventually(lambda: listed(member)), ["a"])
    stop(member)


def test_names(folder):
    """A name is given once, and nobody greets by one of a replica."""
    words = ["instance", "--name", "m", "--listen", str(free_ports(1)[0]), "--sil", f"{folder}/s", "--nfl", f"{folder}/n"]
    for said, more, line in [
        ("the own name", ["--gossip", "m=9"], "SameName"),
        ("a peer's name", ["--peer", "b=9", "--gossip", "b=9"], "SameName"),
        ("one name twice", ["--gossip", "b=9", "--gossip", "b=8"], "SameName"),
        ("no name", ["--gossip", "=9"], "EmptyName"),
        ("a long name", ["--gossip", f"{252 * 'n'}=9"], "LongName"),
        ("no address", ["--gossip", "b"], "Peer"),
        ("no port", ["--gossip", "b=0"], "Peer"),
    ]:
        compare(said, run([*words, *more]), (2, b"", f"am_tool: {line}\n"))
    one = Alive()
    member = started("m", folder, {"am": one}, "--log")
    for name in ("am", "\U0010ffffam", 8 * "\U0010ffff"):
        place = len(member.lines)
        member.send(greeting(name) + bytes([2, 0]))
        check(f"{name!a} is nobody", eventually(lambda: "am_tool: UnknownName" in member.lines[place:]), member.lines)
    status, body = member.ask("GET", "/api/v2/status")
    compare("it is no member", (status, [it["name"] for it in json.loads(body)["cluster"]["peers"]]), (200, ["m"]))
    check("its options are told", f"--gossip am={one.port}" in json.loads(body)["config"]["original"], body)
    stop(member)


def test_kept(folder):
    """What came from a replica is on the disk, and goes to peers as all does."""
    one = Alive(sil=of("a"), nfl=entry("g"))
    ports = free_ports(2)
    members_of = {name: port for name, port in zip("mn", ports)}
    n = Member("n", members_of["n"], [("m", members_of["m"])], folder, ["--log"])
    check("n listens", n.start(), n.lines)
    words = ["--gossip", f"am={one.port}", "--gossip-every", "1", "--log"]
    m = Member("m", members_of["m"], [("n", members_of["n"])], folder, words)
    check("m listens", m.start(), m.lines)
    for it in (m, n):
        check(f"{it.name} holds it", eventually(lambda: listed(it) == ["a"]), it.lines)
    key = post(n, "web")
    check("what a peer took goes there", eventually(lambda: key in one.keys()), one.keys())
    for it in (m, n):
        it.kill()
        status, output, error = run(["show", "--log", "--state", "sil", it.sil])
        compare(f"{it.name} kept it", (status, output.count(b"\n"), error), (0, 2, ""))
        status, output, error = run(["show", "--log", "--state", "nfl", it.nfl])
        compare(f"{it.name} kept the entry", (status, output.count(b"\n"), error), (0, 1, ""))


def test_pull_first(folder):
    """A member with --pull-first answers once a replica's answer is taken."""
    slow = Alive(sil=of("a"))
    gate = threading.Event()
    answered = slow.answer
    slow.answer = lambda *words: (gate.wait(20), answered(*words))
    member = started("m", folder, {"am": slow}, "--pull-first", "--time-limit", "30")
    time.sleep(0.5)
    compare("it isn't ready before", member.ask("GET", "/-/ready")[0], 503)
    gate.set()
    check("it is then", eventually(lambda: member.ask("GET", "/-/ready")[0] == 200), member.lines)
    compare("and holds all", listed(member), ["a"])
    stop(member)


TESTS = [test_holds, test_given_back, test_at_once, test_unknown_fields, test_dropped, test_not_given, test_hazards, test_dialects, test_withheld, test_figures, test_asked_before, test_unheard, test_ten, test_gone, test_liars, test_meaningless, test_nobody, test_names, test_kept, test_pull_first]


def main():
    members.choose("beside", sys.argv[1:])
    with tempfile.TemporaryDirectory() as folder:
        try_each(TESTS, folder)
    finish("beside")


if __name__ == "__main__":
    main()
