#!/usr/bin/env python3
"""Runs members of the built am_tool on loopback, as who operates them meets them.

    tests/three_members.py [PROGRAM]

PROGRAM is crates/am_tool/out/am_tool if it isn't given; ./am_tool and rt ci build it. Three members are started at
free ports. Silences are posted to one by HTTP and read from all; members are made to tick and to pull by frames; one is
killed and started again from its files. Then each thing that may go wrong is brought about once. Prints each case that
fails, and at the end how many passed. What is wanted is written by hand, from docs/FORMATS.md and docs/MEMBERS.md.
"""

import calendar
import json
import os
import random
import re
import resource
import select
import shutil
import signal
import socket
import subprocess
import sys
import tempfile
import threading
import time

from lib import members
from lib.api import moment, silence
from lib.members import PATIENCE, eventually, free_ports, outcome, parted, received, run
from lib.samples import FIRST
from lib.tally import check, compare, finish, skip, try_each
from lib.wire import EMPTY_PUSH, TICK, delta, field, greeting, timestamp, varint

# The names of the members.
NAMES = ["a", "b", "c"]

# What is said where the silences and the log are to stand in one file.
ONE_FILE = "error: '--sil <FILE>' and '--nfl <FILE>' name one file"


def entry(group, updated, expires):
    """A version of the log: of a group at the receiver `team`, in which the hashes 1 and 2 fire."""
    inner = field(1, group.encode()) + field(2, field(1, b"team") + field(2, b"email"))
    inner += field(5, timestamp(updated)) + field(6, bytes([1, 2]))
    return field(1, inner) + field(2, timestamp(expires))


class Member(members.Member):
    """A member as who operates it meets it."""

    def __init__(self, *place, **how):
        super().__init__(*place, **how)
        self.start()

    def start(self):
        check(f"{self.name} listens", super().start(), self.lines)

    def faults(self):
        """What it has printed behind the line of its start, but of peers that are not there."""
        return [line for line in self.lines[1:] if not line.startswith("am_tool: Connect ")]

    def told(self, line):
        """Whether it prints this line, now or soon."""
        return eventually(lambda: line in self.lines)

    def frames(self, sender, *frames):
        return self.send(greeting(sender) + b"".join(frames))

    def saved(self, state):
        """What stands in one of its files, as `show` prints it."""
        with open(self.sil if state == "sil" else self.nfl, "rb") as file:
            status, output, error = run(["show", "--state", state, "--now", str(time.time_ns())], stdin=file)
        return status, output.decode(), error


def values(silences):
    """The states of silences by the value of their matcher."""
    return sorted((s["matchers"][0]["value"], s["status"]["state"]) for s in silences or [])


def trio(folder, options=()):
    return members.peers_of(NAMES, folder, options, Member)


# ---- three members


def test_three_members(folder):
    """What is posted to one is read from all, and a member that was killed comes back."""
    three = trio(folder)
    a, b, c = three
    peers = " ".join(f"{m.name}={m.port}" for m in (b, c))
    started = f"am_tool: a listens on 127.0.0.1:{a.port}, peers {peers}; loaded 0 silences, 0 entries"
    compare("the line of the start", a.lines[:1], [started])

    for value in ("x", "y", "z"):
        status, answer = a.post(silence(value))
        compare(f"a post of {value}", (status, list(json.loads(answer or b"{}"))), (200, ["silenceID"]))
    shown = [("x", "active"), ("y", "active"), ("z", "active")]
    for member in three:
        check(f"{member.name} lists them", eventually(lambda: values(member.listed()) == shown), member.lines)
    lists = [member.listed() for member in three]
    compare("all list the same", lists[1:], lists[:1] * 2)

    first = lists[0][0]["id"]
    compare("one is ended at b", b.ask("DELETE", f"/api/v2/silence/{first}"), (200, b""))
    ended = lambda m: [s["status"]["state"] for s in m.listed() or [] if s["id"] == first] == ["expired"]
    for member in three:
        check(f"{member.name} shows it as ended", eventually(lambda: ended(member)), member.lines)
    again = (500, b'"silence already expired"')
    compare("it is not ended twice", c.ask("DELETE", f"/api/v2/silence/{first}"), again)

    # an entry of the log comes from a peer, and goes on to the other one
    now = int(time.time())
    compare("an entry comes", a.frames("b", delta("nfl", entry("g", now, now + 3600))), b"")
    for member in three:
        line = "nfl g team email 0 1,2 -\n"
        check(f"{member.name} saved the entry", eventually(lambda: tick_saves(member, "nfl", line)), member.lines)
        compare(f"{member.name} saved three silences", member.saved("sil")[1].count("\n"), 3)

    # what came behind the last save is lost with the process, and comes back from a peer
    # (a Tick that comes within a second of another one is made later)
    time.sleep(1.5)
    status, _ = b.post(silence("late"))
    compare("a post before the end", status, 200)
    late = lambda m: ("late", "active") in values(m.listed())
    for member in (a, c):
        check(f"{member.name} has the late one", eventually(lambda: late(member)), member.lines)
    b.kill()
    a.post(silence("meanwhile"))
    unreachable = f"am_tool: Connect ConnectionRefused {b.port}"
    check("a says that b is not there", a.told(unreachable), a.lines)
    line = a.whole_lines[a.lines.index(unreachable)]
    told = re.fullmatch(rf"{unreachable}: nothing listens there \(peer b, (\S+)\)", line)
    check("by its name, and when", told and abs(seconds_of(told[1]) - time.time()) < PATIENCE, line)
    b.start()
    loaded = f"am_tool: b listens on 127.0.0.1:{b.port}, peers a={a.port} c={c.port}; loaded 3 silences, 1 entries"
    compare("b starts from its files", b.lines[:1], [loaded])
    check("b lost what was not saved", not late(b))
    compare("b asks a, by a Push of nothing", a.frames("b", EMPTY_PUSH), b"")
    whole = lambda: values(b.listed()) == values(a.listed()) and len(values(a.listed())) == 5
    check("b has all that a has", eventually(whole), (b.listed(), b.lines))
    compare("and lists the same", b.listed(), a.listed())
    check("b still has the entry", tick_saves(b, "nfl", "nfl g team email 0 1,2 -\n"), b.lines)
    for member in three:
        compare(f"{member.name} runs", member.process.poll(), None)
        member.kill()


def test_same_silence(folder):
    """A silence is listed as it was posted, to the millisecond and the letter, by the member that took it and by the others, also
    once it was updated and ended."""
    three, now = trio(folder), int(time.time())
    matchers = [{"name": it, "value": f"{it}.*", "isRegex": it != "job", "isEqual": it != "zone"} for it in ("job", "instance", "zone")]
    posted = {"createdBy": "ann", "comment": "a change of disks, rack 7", "matchers": matchers}
    posted.update(startsAt=moment(1000 * now + 600_123), endsAt=moment(1000 * now + 7_200_456))
    key = json.loads(three[0].post(posted)[1])["silenceID"]
    listed_alike(three, {**posted, "id": key, "status": {"state": "pending"}}, now)
    longer = {**posted, "id": key, "comment": "it takes longer", "endsAt": moment(1000 * now + 9_000_789)}
    compare("an update at another one", json.loads(three[1].post(longer)[1]), {"silenceID": key})
    listed_alike(three, {**longer, "status": {"state": "pending"}}, now)
    compare("its end at the third", three[2].ask("DELETE", f"/api/v2/silence/{key}"), (200, b""))
    ended = json.loads(three[2].ask("GET", f"/api/v2/silence/{key}")[1])
    compare("the moments of its end", (ended["startsAt"], ended["endsAt"]), (ended["updatedAt"],) * 2)
    listed_alike(three, {**longer, "startsAt": ended["startsAt"], "endsAt": ended["endsAt"], "status": {"state": "expired"}}, now)
    for member in three:
        member.kill()


def listed_alike(three, wanted, now):
    """Compares what members list, and what each says of the one silence, with what is wanted; it was updated just now, at one moment."""
    updates = lambda: {(it.listed() or [{}])[0].get("updatedAt") for it in three}
    check("all name one moment of the update", eventually(lambda: len(updates()) == 1), updates())
    check("which is now", all(now <= seconds_of(it[:19] + "Z") <= time.time() for it in updates()), updates())
    by_name = lambda matchers: sorted(matchers, key=lambda it: it["name"])
    for member in three:
        (found,) = member.listed()
        text = json.dumps(found, separators=(",", ":")).encode()
        compare(f"{member.name} says the same of it alone", member.ask("GET", f"/api/v2/silence/{wanted['id']}")[1], text)
        del found["updatedAt"]
        found["matchers"] = by_name(found["matchers"])
        compare(f"what {member.name} lists", found, {**wanted, "matchers": by_name(wanted["matchers"])})


def seconds_of(text):
    """The time since 1970 of a moment to the second."""
    return calendar.timegm(time.strptime(text, "%Y-%m-%dT%H:%M:%SZ"))


def tick_saves(member, state, printed):
    """Whether a file holds what is printed so, once the member has ticked again."""
    member.frames("a" if member.name != "a" else "b", TICK)
    return os.path.exists(member.nfl) and member.saved(state) == (0, printed, "")


def test_connections(folder):
    """A member that ends after so many connections saves both files."""
    (port,) = free_ports(1)
    alone = Member("solo", port, [], folder, ["--connections", "3"])
    started = f"am_tool: solo listens on 127.0.0.1:{port}, peers none; loaded 0 silences, 0 entries"
    compare("the line of the start, without peers", alone.lines, [started])
    alone.post(silence("x"))
    compare("it is listed", values(alone.listed()), [("x", "active")])
    alone.ask("GET", "/nowhere")
    compare("the status at the end", alone.end(), 0)
    compare("and nothing is printed", alone.lines, [started])
    compare("the silences are saved", alone.saved("sil")[1].count("active"), 1)
    compare("the log is saved", os.path.getsize(alone.nfl), 0)
    alone.start()
    loaded = f"am_tool: solo listens on 127.0.0.1:{port}, peers none; loaded 1 silences, 0 entries"
    compare("it starts again", alone.lines, [loaded])
    compare("and lists the same", values(alone.listed()), [("x", "active")])
    alone.kill()


def test_killed_while_saving(folder):
    """However a member is killed, its file is whole, and holds what some save put there."""
    (port,) = free_ports(1)
    for turn in range(5):
        member = Member("k", port, [("p", port)], folder)
        member.post(silence(f"turn {turn}", "c" * 200_000))
        member.frames("p", TICK)
        saved = lambda: os.path.exists(member.sil) and member.saved("sil")[1].count("active") == turn + 1
        check(f"it is saved, {turn}", eventually(saved), member.lines)
        saver = threading.Thread(target=spam, args=(member,), daemon=True)
        saver.start()
        time.sleep(random.random() / 5)
        member.kill()
        saver.join(PATIENCE)
        status, lines, error = member.saved("sil")
        compare(f"the file is whole, {turn}", (status, lines.count("active"), error), (0, turn + 1, ""))


def spam(member):
    """Ticks until the member is gone."""
    for _ in range(1000):
        try:
            if member.process.poll() is not None:
                return
            member.frames("p", TICK)
        except OSError:
            return


# ---- clients that do as they like


def test_clients(folder):
    """No client stops a member: each loses its connection when its time is over, and the next one is served."""
    port, other = free_ports(2)
    member, patient = Member("m", port, [("p", 1)], folder, ["--time-limit", "1"]), Member("n", other, [], folder, ["--time-limit", "600"])
    well = lambda: member.ask("GET", "/api/v2/silences")[0] == 200
    with socket.create_connection(("127.0.0.1", other), timeout=PATIENCE) as longer:
        begun = time.monotonic()
        with socket.create_connection(("127.0.0.1", port), timeout=PATIENCE) as silent:
            check("a client waits behind a silent one", well())
            check("the silent one is let go", received(silent) == b"")
        check("not before its time", time.monotonic() - begun > 0.9)
        check("nor another one behind it, at a member that gives more", not select.select([longer], [], [], 0.2)[0])
    patient.kill()
    check("and it is told", eventually(lambda: member.lines[1:]), member.lines)
    compare("as a read that failed", member.lines[1:], ["am_tool: Read 0"])

    with socket.create_connection(("127.0.0.1", port), timeout=PATIENCE) as slow:
        check("a slow client is let go", eventually(lambda: not drips(slow)), member.lines)
    check("and it is told too", eventually(lambda: len(member.lines) == 3), member.lines)
    check("in the same way", member.lines[2].startswith("am_tool: Read "), member.lines)
    check("a client is served then", well())

    compare("a client that sends nothing and closes", member.send(b""), b"")
    early = parted(member.send(b"GET /api/v2/sil"))
    compare("a head that ends early", early, (400, b'"request ended early"'))
    short = b"POST /api/v2/silences HTTP/1.1\r\ncontent-length: 100\r\n\r\n{"
    compare("a body that ends early", parted(member.send(short)), (400, b'"request ended early"'))
    compare("garbage", parted(member.send(b"\xff\xfe garbage\r\n\r\n")), (400, b'"bad request head"'))
    large = b"POST /api/v2/silences HTTP/1.1\r\ncontent-length: 2000000\r\n\r\n" + b"x" * 2_000_000
    compare("a body that is too large", parted(member.send(large)), (413, b'"body too large"'))
    compare("nothing more is told of these", member.lines[3:], [])

    told = len(member.lines)
    for data, line in [
        (b"\1garbage", "Frame Kind"),
        (greeting("stranger") + TICK, "UnknownName"),
        (greeting("m") + TICK, "UnknownName"),
        (b"\0\0", "Frame Length"),
        (greeting("p") + b"\5", "Frame Kind"),
        (greeting("p") + b"\1\xff\xff\xff\xff\x7f", "Frame Length"),
        (greeting("p") + TICK + b"\1\3\x0a\1\x78", "Frame UnknownState"),
        (greeting("p") + delta("sil", b"\0"), "Step Frame Wire FieldNumber 1"),
    ]:
        compare(f"{line} gets no reply", member.send(data), b"")
        check(f"{line} is told", eventually(lambda: len(member.lines) > told), member.lines)
        compare(f"as {line}", member.lines[told:], [f"am_tool: {line}"])
        told = len(member.lines)
    wholes = "".join(f"{line}\n" for line in member.whole_lines)
    when = r"\d{4}-\d\d-\d\dT\d\d:\d\d:\d\dZ"
    stranger = rf"am_tool: UnknownName: who greeted so is no peer of this member; --peer names those \({when}\)\n"
    compare("a stranger has no name", len(re.findall(stranger, wholes)), 2)
    sentence = r"no frame begins with this byte; did a peer send it, or has it a --secret, and this member none\?"
    cut = rf"am_tool: Frame Kind: {sentence} \((.*?){when}\)\n"
    compare("a peer has", re.findall(cut, wholes), ["", "peer p, "])
    check("the Tick before a fault is a step", eventually(lambda: os.path.exists(member.sil)), member.lines)
    compare("behind which it saves", member.saved("sil"), (0, "", ""))
    compare("a frame that is cut", member.send(greeting("p") + b"\4"), b"")
    check("a client is served then too", well())
    compare("which is no fault", member.lines[told:], [])
    member.kill()


def drips(stream):
    """Sends a byte of a request; whether the connection still stands."""
    try:
        stream.settimeout(0.3)
        stream.sendall(b"G")
        return stream.recv(1) != b""
    except TimeoutError:
        return True
    except OSError:
        return False


def test_unread_reply(folder):
    """A client that doesn't read its reply is let go, and its step stands."""
    (port,) = free_ports(1)
    member = Member("m", port, [], folder, ["--time-limit", "2"])
    comment = "c" * 900_000
    for value in range(16):
        compare(f"a large post, {value}", member.post(silence(str(value), comment))[0], 200)
    with socket.socket() as stream:
        stream.setsockopt(socket.SOL_SOCKET, socket.SO_RCVBUF, 4096)
        stream.connect(("127.0.0.1", port))
        stream.sendall(b"GET /api/v2/silences HTTP/1.1\r\n\r\n")
        check("it is told", eventually(lambda: member.lines[1:]), member.lines)
    check("as a write that failed", member.lines[1].startswith("am_tool: Write "), member.lines)
    compare("all of them are listed to another", len(member.listed() or []), 16)
    member.kill()


def test_most_bytes(folder):
    """A connection gives 134,217,728 bytes and no more."""
    (port,) = free_ports(1)
    member = Member("m", port, [("p", 1)], folder, ["--time-limit", "600"])
    # a field that nobody knows, which fills a Push
    filler = bytes([0x7A]) + varint(67_108_859)
    with socket.create_connection(("127.0.0.1", port), timeout=600) as stream:
        try:
            stream.sendall(greeting("p"))
            for _ in range(3):
                stream.sendall(b"\2" + varint(67_108_864) + filler + bytes(65_531))
                for _ in range(1023):
                    stream.sendall(bytes(65_536))
        except OSError:
            pass
        received(stream)
    check("a byte too many", member.told("am_tool: TooLarge"), member.lines)
    check("the Push before it was answered", member.told("am_tool: Connect ConnectionRefused 1"), member.lines)
    compare("and the next client is served", member.ask("GET", "/api/v2/silences"), (200, b"[]"))
    member.kill()


# ---- starts that are refused


def test_starts(folder):
    (port, taken) = free_ports(2)
    files = ["--sil", f"{folder}/no.sil", "--nfl", f"{folder}/no.nfl"]
    named = ["instance", "--name", "m", "--listen", str(port)]
    refused = lambda status, line: (status, b"", f"am_tool: {line}\n")
    for peer in ("b", "b=", "b=0", "b=65536", "b=x", "b=+5", "=", "b=5="):
        compare(f"--peer {peer}", run([*named, *files, "--peer", peer]), refused(2, "Peer"))
    for words, line in [
        (["--peer", "m=5"], "SameName"),
        (["--peer", "b=5", "--peer", "b=6"], "SameName"),
        (["--peer", "=5"], "EmptyName"),
        (["--peer", "n" * 256 + "=5"], "LongName"),
    ]:
        compare(f"a name that is {line}", run([*named, *files, *words]), refused(2, line))
    for option, value in [
        ("--listen", "0"),
        ("--listen", "65536"),
        ("--listen", "+80"),
        ("--retention", "0"),
        ("--retention", "1000000000"),
        ("--peer-timeout", "0"),
        ("--peer-timeout", "1.5"),
        ("--connections", "0"),
        ("--connections", "18446744073709551616"),
        ("--time-limit", "0"),
        ("--time-limit", "3601"),
    ]:
        words = ["instance", "--name", "m", *files, "--peer", "broken"]
        words += [option, value] if option == "--listen" else ["--listen", str(port), option, value]
        status, output, error = run(words)
        compare(f"{option} {value}", (status, output, error.split(" for '")[1].split(" ")[0]), (2, b"", option))

    status, output, error = run([*named, "--sil", "one", "--nfl", "one", "--peer", "broken"])
    compare("one file for both", (status, output, error.split("\n")[0]), (2, b"", ONE_FILE))

    broken, twice, whole = f"{folder}/broken", f"{folder}/twice", f"{folder}/whole"
    for path, data in ((broken, FIRST[:9]), (twice, FIRST * 2), (whole, FIRST)):
        with open(path, "wb") as file:
            file.write(data)
    missing = f"{folder}/no.nfl"
    for sil, nfl, status, line in [
        (broken, missing, 1, "Silences Wire Truncated 0"),
        (twice, missing, 1, "Silences DuplicateKey"),
        (folder, missing, 3, "Silences NotAFile"),
        (broken, folder, 1, "Silences Wire Truncated 0"),
        (missing, whole, 1, "Log Wire WrongType 13"),
        (whole, folder, 3, "Log NotAFile"),
        (f"{whole}/below", missing, 3, "Silences File NotADirectory"),
    ]:
        compare(line, run([*named, "--sil", sil, "--nfl", nfl]), refused(status, line))
    test_unreadable(folder, named, files, refused)

    with socket.socket() as holder:
        holder.bind(("127.0.0.1", taken))
        holder.listen()
        words = ["instance", "--name", "m", "--listen", str(taken)]
        compare("a port in use", run([*words, *files]), refused(3, f"Listen AddrInUse {taken}"))
        compare("names come first", run([*words, *files, "--peer", "m=5"]), refused(2, "SameName"))
        compare("files too", run([*words, "--sil", broken, *files[2:]]), refused(1, "Silences Wire Truncated 0"))
    compare("nothing is written by these", os.path.exists(files[1]), False)


def test_unreadable(folder, named, files, refused):
    """A file that may not be read: as another user, where this one may read all."""
    closed = f"{folder}/closed"
    with open(closed, "wb"):
        pass
    os.chmod(closed, 0)
    how = {"user": 65534} if os.geteuid() == 0 else {}
    words = [*named, "--sil", closed, *files[2:]]
    compare("an unreadable file", run(words, **how), refused(3, "Silences File PermissionDenied"))


# ---- saves that fail


def test_failed_saves(folder):
    """A save that fails leaves the file that stood, says so, and the next one makes it good."""
    (port,) = free_ports(1)

    def limit():
        signal.signal(signal.SIGXFSZ, signal.SIG_IGN)
        resource.setrlimit(resource.RLIMIT_FSIZE, (20_000, resource.RLIM_INFINITY))

    member = Member("f", port, [("p", 1)], folder, preexec_fn=limit, restore_signals=False)
    member.post(silence("small"))
    member.frames("p", TICK)
    check("the first save", eventually(lambda: os.path.exists(member.nfl)), member.lines)
    with open(member.sil, "rb") as file:
        before = file.read()
    member.post(silence("large", "c" * 40_000))
    member.frames("p", TICK)
    check("a save that is cut is told", member.told("am_tool: Silences Write 20000"), member.lines)
    with open(member.sil, "rb") as file:
        compare("the file stands as it was", file.read(), before)
    check("nothing is left beside it", not os.path.exists(f"{member.sil}.new"))
    resource.prlimit(member.process.pid, resource.RLIMIT_FSIZE, (resource.RLIM_INFINITY, resource.RLIM_INFINITY))
    member.frames("p", TICK)
    check("the next save", eventually(lambda: member.saved("sil")[1].count("active") == 2), member.lines)
    compare("one line was told", member.faults(), ["am_tool: Silences Write 20000"])

    # a directory that comes to stand in the file's place
    os.rename(member.sil, f"{member.sil}.old")
    os.mkdir(member.sil)
    member.frames("p", TICK)
    check("a directory in its place is told", eventually(lambda: member.faults()[1:]), member.lines)
    compare("as what it is", member.faults()[1:], ["am_tool: Silences File IsADirectory"])
    os.rmdir(member.sil)
    member.frames("p", TICK)
    check("it is saved again", eventually(lambda: os.path.exists(member.sil)), member.lines)
    compare("both silences are listed", len(member.listed() or []), 2)
    member.kill()


def test_full_disk(folder):
    """The same on a disk that is full, where one can be made."""
    disk = f"{folder}/disk"
    os.mkdir(disk)
    mount = ["mount", "-t", "tmpfs", "-o", "size=256k", "tmpfs", disk]
    if shutil.which("mount") is None or subprocess.run(mount, capture_output=True, check=False).returncode != 0:
        skip("a full disk: no small one can be made")
        return
    try:
        fill_disk(disk)
    finally:
        subprocess.run(["umount", disk], check=False)


def fill_disk(disk):
    (port,) = free_ports(1)
    member = Member("d", port, [("p", 1)], disk)
    member.post(silence("small"))
    member.frames("p", TICK)
    check("a save on a small disk", eventually(lambda: os.path.exists(member.nfl)), member.lines)
    with open(member.sil, "rb") as file:
        before = file.read()
    for value in range(3):
        member.post(silence(str(value), "c" * 150_000))
    member.frames("p", TICK)
    check("a full disk is told", eventually(member.faults), member.lines)
    check("as a write that failed", member.faults()[0].startswith("am_tool: Silences Write "), member.lines)
    with open(member.sil, "rb") as file:
        compare("the file on the full disk stands as it was", file.read(), before)
    check("nothing is left beside it there", not os.path.exists(f"{member.sil}.new"))
    compare("the silences are there all the same", len(member.listed() or []), 4)
    member.kill()


# ---- clients that people have


def test_curl(folder):
    """curl, with a body for which it asks leave by `Expect`."""
    if shutil.which("curl") is None:
        skip("curl: it is not there")
        return
    (port,) = free_ports(1)
    member = Member("u", port, [], folder)
    url = f"http://127.0.0.1:{port}/api/v2/silences"
    post = ["-H", "Content-Type: application/json", "-H", "Expect: 100-continue", "--data-binary", "@-"]
    body = json.dumps(silence("curl", "c" * 100_000)).encode()
    for options, given, wanted in [
        ([], b"", b"[]"),
        (post, body, b'{"silenceID"'),
        (["-G", "--data-urlencode", 'filter=job="curl"'], b"", b'[{"comment"'),
        (["-G", "--data-urlencode", 'filter=job="other"'], b"", b"[]"),
    ]:
        words = ["curl", "-sS", "--max-time", str(PATIENCE), *options, url]
        status, output, error = outcome(words, input=given)
        compare(f"curl {options[:1]}", (status, output[: len(wanted)], error), (0, wanted, ""))
    member.kill()


def main():
    members.choose("three members", sys.argv[1:])
    with tempfile.TemporaryDirectory() as top:
        os.chmod(top, 0o755)
        members.program = shutil.copy(members.program, f"{top}/am_tool")
        try_each(TESTS, top)
    finish("three members")


TESTS = [
    test_three_members,
    test_same_silence,
    test_connections,
    test_killed_while_saving,
    test_clients,
    test_unread_reply,
    test_most_bytes,
    test_starts,
    test_failed_saves,
    test_full_disk,
    test_curl,
]


if __name__ == "__main__":
    main()
