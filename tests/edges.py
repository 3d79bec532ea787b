#!/usr/bin/env python3
"""Runs members of the built am_tool at the edges of what the disk, the clock and a stop do to them.

    tests/edges.py [PROGRAM]

PROGRAM is crates/am_tool/out/am_tool if it isn't given. A last save fails, a directory is handed to the disk, two processes want
one file, a stop and the time limit come while nothing is answered yet, the clock goes ahead, also by far, and comes back, links
and what is no file stand in a file's place, faults and silent clients come by the hundred and the thousand, pages of other sites
ask, frames ask for more than is good for anybody, requests have many patterns, a large one or much to say, and states are full,
or of over 64 MiB.
tests/lib/system.c stands between a member and the C library. What is wanted is written by hand, from docs/FORMATS.md and
docs/MEMBERS.md.
"""

import contextlib
import json
import os
import re
import resource
import shutil
import signal
import socket
import sys
import tempfile
import threading
import time
from concurrent.futures import ThreadPoolExecutor
from urllib.parse import quote

from lib import members, versions
from lib.api import NOT_KEPT, NOT_READY, request, silence
from lib.members import ALL_LINES, LIMITED, PATIENCE, STRANGER, TOLD_OF_STRANGER, Stoppable
from lib.members import asked, begun, bytes_of, eventually, free_ports, parted, received, run, slowest, write
from lib.tally import check, compare, finish, try_each
from lib.wire import EMPTY_PUSH, PULL, PUSH, TICK, delimited, delta, field, frame, greeting, items, number_at, varint

ONE_FILE = "error: '--sil <FILE>' and '--nfl <FILE>' name one file"

# How many clients say nothing, and how many times as long others may take beside them as at a member that nobody else asks.
CROWD, SOON = 5000, 50

# How many times as long others may wait beside many patterns as beside one.
ONE_TURN = 5

# Against how many silences a large pattern is held, and how many a light filter leaves out.
FILTERED = 2000
LEFT_OUT = 50_000

library = None


def alone(name, folder, options=(), **how):
    """A member without peers, which has begun."""
    return begun(Stoppable(name, *free_ports(1), [], folder, options, **how))


def under_library(**values):
    return {"env": {**os.environ, "LD_PRELOAD": library, **values}}


def post(member, value, ahead=0):
    return member.post(silence(value, starts=ahead))


def words(sil, nfl, port=1, name="m"):
    return ["instance", "--name", name, "--listen", str(port), "--sil", sil, "--nfl", nfl]


def refused(line, status=3):
    return status, b"", f"am_tool: {line}\n"


# ---- the disk


def test_last_save(folder):
    """A last save that fails is told, and is no status 0."""
    for gone, lines in (("sil", ["Silences File NotFound"]), ("nfl", ["Log File NotFound"])):
        state = f"{folder}/{gone}"
        os.mkdir(state)
        member = Stoppable("m", *free_ports(1), [], folder)
        setattr(member, gone, f"{state}/file")
        member.words = [*words(member.sil, member.nfl, member.port)]
        begun(member)
        compare("a post", post(member, "x")[0], 200)
        shutil.rmtree(state)
        compare(f"the status where the last save of {gone} fails", member.stop(), 3)
        compare("what is told", member.lines[1:], [f"am_tool: {line}" for line in lines])
    member = alone("n", folder)
    compare("a post", post(member, "x")[0], 200)
    compare("the status where both are saved", (member.stop(), member.lines[1:]), (0, []))


def test_directory(folder):
    """A file is handed to the disk before it is renamed, and its directory then."""
    os.mkdir(f"{folder}/state")
    member = Stoppable("m", *free_ports(1), [], f"{folder}/state", **under_library(CALLS=f"{folder}/calls"))
    begun(member)
    compare("a stop", member.stop(), 0)
    state = os.path.realpath(f"{folder}/state")
    wanted = []
    for file in (member.sil, member.nfl):
        wanted += [f"fsync {state}/{os.path.basename(file)}.new", f"rename {file}.new {file}", f"fsync {state}"]
    compare("what is handed to the disk", (bytes_of(f"{folder}/calls") or b"").decode().splitlines(), wanted)


def test_owners(folder):
    """A file is one process's at a time, by whichever name."""
    first = alone("a", folder)
    os.mkdir(f"{folder}/other")
    os.symlink(folder, f"{folder}/other/way")
    os.symlink(first.sil, f"{folder}/link")
    (port,) = free_ports(1)
    for name, sil, nfl, line in [
        ("both files", first.sil, first.nfl, "Silences Locked"),
        ("the log", f"{folder}/own", first.nfl, "Log Locked"),
        ("the silences' file as a log", f"{folder}/own", first.sil, "Log Locked"),
        ("a file through a directory", f"{folder}/other/way/a.sil", f"{folder}/own", "Silences Locked"),
        ("a file behind a link", f"{folder}/link", f"{folder}/own", "Silences Locked"),
    ]:
        compare(f"another member over {name}", run(words(sil, nfl, port), timeout=20), refused(line))
    compare("the first one serves", post(first, "x")[0], 200)
    compare("and is killed", first.kill(), -signal.SIGKILL)
    again = begun(Stoppable("a", *free_ports(1), [], folder))
    compare("its files are free then", again.stop(), 0)
    check("nothing is written to the locked file", bytes_of(f"{again.sil}.lock") == b"")


def test_one_file(folder):
    """One file for both states is refused, by whichever names."""
    write(f"{folder}/file", b"")
    os.link(f"{folder}/file", f"{folder}/hard")
    os.symlink("file", f"{folder}/soft")
    os.symlink("missing", f"{folder}/dangling")
    os.symlink(".", f"{folder}/here")
    for one, other in [
        ("file", "file"),
        ("file", "./file"),
        ("file", "here/file"),
        ("file", "hard"),
        ("soft", "file"),
        ("missing", "./missing"),
        ("missing", "here/missing"),
        ("missing", "dangling"),
        ("file", "file.new"),
        ("file.lock", "here/file"),
        ("file", "file.log"),
        ("file.log.old", "here/file"),
    ]:
        status, output, error = run(words(one, other, port=1), cwd=folder, timeout=20)
        compare(f"{one} and {other}", (status, output, error.split("\n")[0]), (2, b"", ONE_FILE))
    compare("the file is as it was", bytes_of(f"{folder}/file"), b"")
    beside = [f"file{ending}" for ending in (".new", ".lock", ".log", ".log.old")]
    check("nothing is beside it", not {*beside} & {*os.listdir(folder)}, os.listdir(folder))


def test_links(folder):
    """A link in a file's place stays, and the file behind it is replaced."""
    os.mkdir(f"{folder}/far")
    write(f"{folder}/far/there", b"")
    os.symlink("far/there", f"{folder}/l.sil")
    os.symlink(f"{folder}/far/missing", f"{folder}/l.nfl")
    member = alone("l", folder)
    compare("a post", post(member, "x")[0], 200)
    compare("a stop", member.stop(), 0)
    check("both are links", os.path.islink(member.sil) and os.path.islink(member.nfl))
    check("the file behind the first is saved", bytes_of(f"{folder}/far/there"))
    check("and that behind the second is there", bytes_of(f"{folder}/far/missing") is not None)
    left = sorted(os.listdir(f"{folder}/far"))
    compare("beside them", left, ["missing", "missing.lock", "there", "there.lock"])
    os.symlink("round", f"{folder}/round")
    compare("a link to itself", run(words(f"{folder}/round", f"{folder}/n")), refused("Silences File FilesystemLoop"))


def test_no_files(folder):
    """What is no file is refused, and isn't waited for."""
    os.mkfifo(f"{folder}/pipe")
    os.mkdir(f"{folder}/directory")
    os.symlink("pipe", f"{folder}/link")
    with socket.socket(socket.AF_UNIX) as holder:
        holder.bind(f"{folder}/socket")
        for name in ("pipe", "directory", "link", "socket"):
            sil = run(words(f"{folder}/{name}", f"{folder}/n"), timeout=10)
            compare(f"a {name} for the silences", sil, refused("Silences NotAFile"))
            nfl = run(words(f"{folder}/s", f"{folder}/{name}"), timeout=10)
            compare(f"a {name} for the log", nfl, refused("Log NotAFile"))
    os.mkfifo(f"{folder}/p.lock")
    compare("a pipe to be locked", run(words(f"{folder}/p", f"{folder}/n"), timeout=10), refused("Silences NotAFile"))


def test_beside(folder):
    """Nothing is written through what stands in the place of FILE.new."""
    write(f"{folder}/victim", b"precious")
    os.symlink("victim", f"{folder}/b.sil.new")
    os.mkfifo(f"{folder}/b.nfl.new")
    member = alone("b", folder)
    compare("a post", post(member, "x")[0], 200)
    compare("a stop", member.stop(), 0)
    compare("what the link named", bytes_of(f"{folder}/victim"), b"precious")
    check("the silences are saved, as a file", bytes_of(member.sil) and not os.path.islink(member.sil))
    compare("and so is the log", (bytes_of(member.nfl), os.path.isfile(member.nfl)), (b"", True))
    check("nothing is left beside them", not os.path.lexists(f"{member.sil}.new") and not os.path.lexists(f"{member.nfl}.new"))


# ---- the first pull


def waits(name, folder, options):
    """A member that waits for a peer that isn't there."""
    port, nobody = free_ports(2)
    how = ["--pull-first", "--pull-first-limit", "600", *options]
    return begun(Stoppable(name, port, [("p", nobody)], folder, how))


def requests():
    body = json.dumps(silence("x")).encode()
    return [request("GET", "/api/v2/silences"), request("POST", "/api/v2/silences", body), request("GET", "/nowhere")]


def faults(member):
    """The lines of a member but those of its peer, which isn't there."""
    return [line for line in member.lines[1:] if " Connect " not in line and " more like " not in line]


def test_stop_of_wait(folder):
    """A stop ends the first pull: what waits for it is told so, and it takes no time."""
    member = waits("w", folder, ["--time-limit", "30"])
    streams = [asked(member, data) for data in requests()]
    time.sleep(0.5)
    start = time.monotonic()
    member.process.send_signal(signal.SIGTERM)
    for stream in streams:
        with stream, contextlib.suppress(OSError):
            compare("a request that waits at the stop", parted(received(stream)), NOT_READY)
    compare("the stop", (member.end(), faults(member)), (0, []))
    check("it takes no time limit", time.monotonic() - start < 15, time.monotonic() - start)
    compare("nothing was posted", bytes_of(member.sil), b"")


def test_time_of_wait(folder):
    """A request whose time is over while the first pull is waited for is answered that."""
    member = waits("v", folder, ["--time-limit", "2"])
    silent = asked(member, b"")
    streams = [asked(member, data) for data in requests()]
    late = asked(member, requests()[1][:-1])
    time.sleep(1.5)
    late.sendall(requests()[1][-1:])
    start = time.monotonic()
    for stream in [*streams, late]:
        with stream, contextlib.suppress(OSError):
            compare("a request whose time is over", parted(received(stream)), NOT_READY)
    check("it is answered in time", time.monotonic() - start < 2, time.monotonic() - start)
    silent.close()
    compare("no connection is at fault", faults(member), [])
    compare("and the stop saves nothing of them", (member.stop(), bytes_of(member.sil)), (0, b""))


# ---- the clock


def figure(member, name):
    """The figure of a family without labels."""
    _, text = member.ask("GET", "/metrics")
    return float(re.search(rf"^{name} (\S+)$", text.decode(), re.M)[1])


def test_clock(folder):
    """A clock that comes back is told, and told again when it has caught up."""
    shift = f"{folder}/shift"
    write(shift, b"0")
    member = alone("c", folder, **under_library(CLOCK=shift))
    compare("a post", post(member, "now")[0], 200)
    write(shift, b"40")
    compare("a post ahead", post(member, "ahead", 40)[0], 200)
    time.sleep(1.5)
    compare("nothing is told of a clock that is ahead", member.lines[1:], [])
    write(shift, b"0")
    check("a clock that came back is told", eventually(lambda: len(member.lines) > 1, 20), member.lines)
    told = re.fullmatch(r"am_tool: Clock Behind (\d+)", member.lines[-1])
    check("by so many seconds", told is not None and 20 <= int(told[1]) <= 40, member.lines)
    behind = figure(member, "maityrunga_clock_behind_seconds")
    check("and counted", told is not None and abs(behind - int(told[1])) < 10, behind)
    time.sleep(2.5)
    compare("once", len(member.lines), 2)
    write(shift, b"50")
    check("it is told that it caught up", eventually(lambda: member.lines[2:] == ["am_tool: Clock CaughtUp"], 20), member.lines)
    behind = figure(member, "maityrunga_clock_behind_seconds")
    check("and it is behind no more", behind < 1, behind)
    compare("a stop", member.stop(), 0)
    write(shift, b"0")
    again = begun(Stoppable("c", *free_ports(1), [], folder, **under_library(CLOCK=shift)))
    compare("a post behind a start", post(again, "later")[0], 200)
    time.sleep(1.5)
    compare("which has the clock's moment", (again.stop(), again.lines[1:]), (0, []))


# By how many seconds a clock goes far ahead, and for how long an ended silence is kept then.
FAR, KEPT = 40 * 86_400, 60


def shifted(name, folder, shift, options=()):
    """A member with a peer p whose clock a file shifts, which ticks each second, and holds a silence of two hours."""
    write(shift, b"0")
    options = ["--tick-every", "1", "--retention", str(KEPT), *options]
    member = with_peer(name, folder, options, **under_library(CLOCK=shift))
    compare("a post", post(member, "held")[0], 200)
    return member


def ticks(member):
    """How many Ticks it has made."""
    _, text = member.ask("GET", "/metrics")
    return int(re.search(r'^maityrunga_steps_total\{event="tick"\} (\d+)$', text.decode(), re.M)[1])


def goes_ahead(member, shift):
    """The clock goes far ahead, which is told; then two seconds pass, in which a peer asks for a Tick."""
    write(shift, str(FAR).encode())
    check("a clock that went far ahead is told", eventually(lambda: told(member, "Clock Ahead"), 20), member.lines)
    found = re.fullmatch(r"am_tool: Clock Ahead (\d+)", member.lines[-1])
    check("by so many seconds", found is not None and abs(int(found[1]) - FAR) < 10, member.lines)
    member.send(greeting("p") + TICK)
    time.sleep(2.5)


def test_clock_far_ahead(folder):
    """A clock that was far ahead for a moment drops nothing, and goes on as it did once it is back."""
    shift = f"{folder}/shift"
    member = shifted("j", folder, shift)
    brief = silence("brief", seconds=2)
    compare("a brief post", member.post(brief)[0], 200)
    check("it ticks", eventually(lambda: ticks(member) > 0, 20))
    goes_ahead(member, shift)
    before = ticks(member)
    time.sleep(1.5)
    compare("no Tick is made then", ticks(member), before)
    write(shift, b"0")
    compare("nothing is lost", member.comments(), ["brief", "held"])
    check("it ticks again", eventually(lambda: ticks(member) > before, 20))
    for ahead in (KEPT - 10, 2 * (KEPT - 10)):
        before = ticks(member)
        write(shift, str(ahead).encode())
        check("a clock that goes ahead by less is believed", eventually(lambda: ticks(member) > before + 1, 20))
    check("so what has expired is dropped", eventually(lambda: member.comments() == ["held"], 20), member.comments())
    compare("the stop", (member.stop(), told(member, "Clock Ahead")), (0, 1))


def test_event_far_ahead(folder):
    """After an event while the clock was far ahead no Tick is made before a restart, and nothing is lost."""
    shift = f"{folder}/shift"
    member = shifted("k", folder, shift)
    goes_ahead(member, shift)
    compare("a post far ahead", post(member, "ahead", FAR)[0], 200)
    write(shift, b"0")
    check("the clock is behind that", eventually(lambda: told(member, "Clock Behind"), 20), member.lines)
    before = ticks(member)
    time.sleep(2.5)
    compare("no Tick is made", ticks(member), before)
    compare("the stop", member.stop(), 0)
    again = with_peer("k", folder, ["--tick-every", "1", "--retention", str(KEPT)], **under_library(CLOCK=shift))
    check("it ticks behind a restart", eventually(lambda: ticks(again) > 0, 20))
    compare("and nothing is lost", (again.comments(), again.stop(), told(again, "Clock")), (["ahead", "held"], 0, 0))


def test_trusted_clock(folder):
    """With --trust-clock a clock is believed however far it goes ahead."""
    shift = f"{folder}/shift"
    member = shifted("l", folder, shift, ["--trust-clock"])
    check("a Tick saves what it holds", eventually(lambda: bytes_of(member.sil), 20))
    write(shift, str(FAR).encode())
    check("a Tick drops what has expired by it", eventually(lambda: bytes_of(member.sil) == b"", 20), member.lines)
    compare("so nothing is listed", member.listed(), [])
    compare("and nothing is told", (member.stop(), told(member, "Clock")), (0, 0))


# ---- logs

# The name that stands for the disk among the members of one that keeps logs.
DISK = "\U0010ffff" * 8


class Logging(Stoppable):
    """A member that keeps logs, and that a limit of its files doesn't end."""

    front = LIMITED

    def limit_files(self, size):
        resource.prlimit(self.process.pid, resource.RLIMIT_FSIZE, (size, resource.RLIM_INFINITY))


def test_log(folder):
    """What is answered 200 by a member with --log is there behind a kill; a log is read without --log, too, and goes then."""
    member = begun(Logging("a", *free_ports(1), [], folder, ["--log"]))
    for value in "x", "y":
        compare("a post", post(member, value)[0], 200)
    compare("a kill", member.kill(), -signal.SIGKILL)
    check("no file is there", bytes_of(member.sil) is None, bytes_of(member.sil))
    begun(member)
    compare("what it holds", member.comments(), ["x", "y"])
    compare("nothing is told", member.lines[1:], [])
    member.send(greeting(DISK) + TICK)
    compare("nobody is the disk", eventually(lambda: member.lines[1:], 10), ["am_tool: UnknownName"])
    member.kill()
    with open(f"{member.sil}.log", "ab") as file:
        file.write(b"what was being written")
    begun(member)
    compare("what was being written is told", eventually(lambda: member.lines[1:], 10), ["am_tool: Silences Torn 22"])
    compare("and nothing else is lost", member.comments(), ["x", "y"])
    member.kill()
    other = begun(Stoppable("a", *free_ports(1), [], folder))
    compare("without --log", sorted(it["comment"] for it in other.listed()), ["x", "y"])
    compare("a stop", other.stop(), 0)
    check("the log is gone", bytes_of(f"{member.sil}.log") is None, os.listdir(folder))
    compare("the file has it", run(["show", "--state", "sil"], input=bytes_of(member.sil))[1].count(b"active"), 2)


def test_full_log(folder):
    """Where a log takes no more, that is told, and nothing is answered 200 before all is in the file."""
    member = begun(Logging("b", *free_ports(1), [], folder, ["--log"]))
    compare("a post", post(member, "x")[0], 200)
    member.limit_files(1)
    compare("a post that isn't kept", post(member, "y"), NOT_KEPT)
    compare("it is held", member.comments(), ["x", "y"])
    check("and told", eventually(lambda: "am_tool: Silences File FileTooLarge" in member.lines, 10), member.lines)
    compare("nor is the next one", post(member, "z"), NOT_KEPT)
    member.limit_files(resource.RLIM_INFINITY)
    kept = eventually(lambda: post(member, "w")[0] == 200, 10)
    check("later ones are", kept, member.lines)
    comments = member.comments()
    member.kill()
    begun(member)
    compare("and with them all that are held", member.comments(), comments)
    check("which are these", {"x", "y", "z", "w"} <= {*comments}, comments)
    compare("a stop", member.stop(), 0)


def is_compacted(member, count, logs=(".log",)):
    """Whether the files of a member are written anew: that of the silences has so many, and beside it stand these."""
    shown = run(["show", "--state", "sil"], input=bytes_of(member.sil) or b"")[1].count(b"active")
    beside = {ending for ending in (".log", ".log.old", ".new") if os.path.exists(member.sil + ending)}
    return shown == count and beside == {*logs}


def test_compaction(folder):
    """A member with --log writes its files anew while it serves, and goes on with what one that crashed has left."""
    member = begun(Logging("c", *free_ports(1), [], folder, ["--log", "--save-every", "1"]))
    for value in "x", "y":
        compare("a post", post(member, value)[0], 200)
    check("its file is written anew", eventually(lambda: is_compacted(member, 2), 10), os.listdir(folder))
    compare("and its log begun anew", bytes_of(f"{member.sil}.log"), b"\0")
    compare("nothing is told", member.lines[1:], [])
    compare("a post behind it", post(member, "z")[0], 200)
    member.kill()
    # what a compaction leaves that crashed behind its first stage
    os.rename(f"{member.sil}.log", f"{member.sil}.log.old")
    write(f"{member.sil}.new", b"a part")
    member = begun(Logging("c", *free_ports(1), [], folder, ["--log"]))
    compare("what both logs have is loaded", member.comments(), ["x", "y", "z"])
    check("and the old one is done with at once", eventually(lambda: is_compacted(member, 3), 10), os.listdir(folder))
    compare("a post, of which the log has", post(member, "w")[0], 200)
    member.kill()
    os.rename(f"{member.sil}.log", f"{member.sil}.log.old")
    other = begun(Stoppable("c", *free_ports(1), [], folder))
    compare("without --log", sorted(it["comment"] for it in other.listed()), ["w", "x", "y", "z"])
    compare("a stop", other.stop(), 0)
    check("both logs are gone", is_compacted(member, 4, ()), os.listdir(folder))


def test_full_compaction(folder):
    """Where the disk has no room for the file that is written anew, that is told, and what is asked meanwhile is done and kept."""
    member = begun(Logging("d", *free_ports(1), [], folder, ["--log", "--save-every", "1"]))
    for number in range(20):
        compare("a post", post(member, f"{number} {'x' * 1000}")[0], 200)
    check("its file is written anew", eventually(lambda: is_compacted(member, 20), 10), os.listdir(folder))
    before, told = bytes_of(member.sil), "am_tool: Silences File FileTooLarge"
    member.limit_files(16_384)
    for value in "a", "b", "c":
        compare("a post", post(member, value)[0], 200)
        check("what can't be written is told", eventually(lambda: told in member.lines, 10), member.lines)
    check("what was written of it is gone", eventually(lambda: bytes_of(f"{member.sil}.new") is None, 10), os.listdir(folder))
    compare("the file is as it was", bytes_of(member.sil), before)
    member.limit_files(resource.RLIM_INFINITY)
    check("later it is written", eventually(lambda: is_compacted(member, 23), 10), os.listdir(folder))
    compare("nothing else is told", {*member.lines[1:]}, {told})
    member.kill()
    begun(member)
    compare("all is there", len(member.listed()), 23)
    compare("a stop", member.stop(), 0)


# ---- lines


def test_lines(folder):
    """Of one kind of fault ten lines a second are printed, and the others are counted."""
    count = 300
    counted = re.compile(r"am_tool: \.\. and (\d+) more like UnknownName")
    for options, most in ((), 10), (["--lines-a-second", "7"], 7), (["--lines-a-second", "65535"], count):
        member = alone("f", folder, options)
        start = time.monotonic()
        for _ in range(count):
            member.send(greeting("stranger"))
        seconds = int(time.monotonic() - start) + 2
        compare("another kind is told beside them", member.send(b"\1garbage"), b"")
        compare("a stop", member.stop(), 0)
        printed = member.lines.count("am_tool: UnknownName")
        left_out = sum(int(it[1]) for it in map(counted.fullmatch, member.lines) if it)
        compare(f"all of them, with {options}", printed + left_out, count)
        check("so many are printed", most <= printed <= most * seconds, (printed, most, seconds))
        check("the other kind is told", "am_tool: Frame Kind" in member.lines, member.lines[-3:])
        timed = [line for line in member.whole_lines if re.fullmatch(r".* more like UnknownName \(\d{4}-\S+T\S+Z\)", line)]
        compare("a count has its time", len(timed), sum(" more like " in line for line in member.lines))
        check("or all", most < count or left_out == 0, left_out)


class Unread(Stoppable):
    """A member whose standard error nobody reads behind its first line, until somebody does."""

    def __init__(self, *words, **how):
        self.is_read = threading.Event()
        super().__init__(*words, pipesize=4096, **how)

    def read(self):
        for line in self.process.stderr:
            self.lines.append(line.decode("utf-8", "backslashreplace").rstrip("\n"))
            self.has_begun.set()
            self.is_read.wait()
        self.has_begun.set()


def test_full_pipe(folder):
    """A pipe of standard error that is full costs lines, which are counted, and holds nobody up."""
    count = 1500
    lost = re.compile(r"am_tool: Lines Lost (\d+)(: .*)?")
    member = begun(Unread("z", *free_ports(1), [], folder, ALL_LINES))
    start = time.monotonic()
    for _ in range(count):
        member.send(greeting(STRANGER))
    compare("a request beside it", member.ask("GET", "/api/v2/silences")[0], 200)
    check("nobody waits", time.monotonic() - start < PATIENCE / 2, time.monotonic() - start)
    member.is_read.set()
    check("there is room again", eventually(lambda: any(map(lost.fullmatch, member.lines)), 20), member.lines[-3:])
    member.send(greeting(STRANGER))
    compare("a stop", member.stop(), 0)
    printed = sum(line.startswith(TOLD_OF_STRANGER) for line in member.lines)
    left_out = sum(int(it[1]) for it in map(lost.fullmatch, member.lines) if it)
    compare("each is told, or counted", printed + left_out, count + 1)
    check("some are not told", left_out > 0, printed)
    check("lines are whole", all(line.startswith("am_tool: ") for line in member.lines), member.lines[-3:])


# ---- who asks


def asks(member, fields, start="GET /api/v2/silences", body=b"", pieces=1):
    """What is replied to a request with these fields, which comes in so many pieces."""
    head = "".join(f"{field}\r\n" for field in [start + " HTTP/1.1", *fields, f"content-length: {len(body)}"])
    data = head.encode() + b"\r\n" + body
    size = -(-len(data) // pieces)
    return parted(member.send(*(data[at : at + size] for at in range(0, len(data), size)), close=False))


FOREIGN_HOST, FOREIGN_ORIGIN = (403, b'"foreign host"'), (403, b'"foreign origin"')

# Fields of a request, and whether it is answered, or what it is answered instead.
FIELDS = [
    ([], True),
    (["Host: 127.0.0.1:PORT"], True),
    (["Host: 127.0.0.1"], True),
    (["host: LocalHost:80"], True),
    (["Host: localhost", "Origin: http://localhost:3000"], True),
    (["Host: localhost", "origin: https://127.0.0.1"], True),
    (["Host: evil.example"], FOREIGN_HOST),
    (["Host: evil.example:PORT"], FOREIGN_HOST),
    (["Host: localhost.evil.example"], FOREIGN_HOST),
    (["Host:"], FOREIGN_HOST),
    (["Host: localhost", "Host: evil.example"], FOREIGN_HOST),
    (["Host: evil.example", "Origin: http://evil.example"], FOREIGN_HOST),
    (["Host: localhost", "Origin: http://evil.example"], FOREIGN_ORIGIN),
    (["Host: localhost", "Origin: null"], FOREIGN_ORIGIN),
    (["Host: localhost", "Origin: http://localhost.evil.example:80"], FOREIGN_ORIGIN),
    (["Host: alerts.example", "Origin: https://alerts.example:8443"], FOREIGN_HOST),
    (["Host: localhost", "Origin: https://alerts.example"], FOREIGN_ORIGIN),
]


def test_foreign(folder):
    """A request that names another host, or comes from a page of another site, is refused before anything else of it."""
    member = alone("m", folder)
    for fields, wanted in FIELDS:
        fields = [field.replace("PORT", str(member.port)) for field in fields]
        compare(f"a list with {fields}", asks(member, fields), (200, b"[]") if wanted is True else wanted)
    body = json.dumps(silence("x")).encode()
    page = ["Host: evil.example", "Content-Type: text/plain"]
    compare("a page that posts", asks(member, page, "POST /api/v2/silences", body), FOREIGN_HOST)
    compare("in pieces", asks(member, page, "POST /api/v2/silences", body, 40), FOREIGN_HOST)
    compare("a path that names nothing", asks(member, page, "GET /nowhere"), FOREIGN_HOST)
    compare("HEAD, which no body is told", asks(member, page, "HEAD /api/v2/silences"), (403, b""))
    compare("a body without a length", asks(member, [*page, "Transfer-Encoding: chunked"]), FOREIGN_HOST)
    for path in ("/-/healthy", "/-/ready"):
        compare(f"GET {path} by an address", asks(member, ["Host: 10.0.0.7:9093"], f"GET {path}"), (200, b"OK"))
        compare(f"HEAD {path} by an address", asks(member, ["Host: 10.0.0.7:9093"], f"HEAD {path}"), (200, b""))
        compare(f"{path} of a foreign page", asks(member, page[:1] + ["Origin: http://evil.example"], f"GET {path}"), FOREIGN_ORIGIN)
        for other in (f"{path}/", f"{path}?a=b", path.upper()):
            compare(f"GET {other} by another name", asks(member, page[:1], f"GET {other}"), FOREIGN_HOST)
    compare("nothing was posted", member.listed(), [])
    compare("the end", (member.stop(), member.lines[1:]), (0, []))


def test_hosts(folder):
    """A member is asked by the names that it is given, too."""
    member = alone("m", folder, ["--host", "alerts.example", "--host", "am"])
    for fields in (["Host: Alerts.example", "Origin: https://alerts.example:8443"], ["Host: am:9093"]):
        compare(f"a list with {fields}", asks(member, fields), (200, b"[]"))
    compare("any other", asks(member, ["Host: www.alerts.example"]), FOREIGN_HOST)
    compare("the end", (member.stop(), member.lines[1:]), (0, []))
    for word in ("", "am:9093", "http://am"):
        status, out, error = run([*words(f"{folder}/s", f"{folder}/n"), "--host", word])
        told = "error: invalid value for '--host <NAME>': letters, digits, '-', '.' and '_' are wanted, and no port"
        compare(f"the name {word!r}", (status, out, error.splitlines()[:1]), (2, b"", [told]))


# ---- what frames ask for


def peak(member):
    """How many MiB of memory a member has had at most."""
    with open(f"/proc/{member.process.pid}/status", encoding="ascii") as file:
        return int(re.search(r"VmHWM:\s+(\d+)", file.read()).group(1)) / 1024


def part(state, row):
    """A part of what frames bring of a state."""
    return field(1, field(1, state.encode()) + (field(2, row) if row else b""))


def frames_in(data, name):
    """The kinds and the payloads of the frames behind the greeting of a name."""
    frames, at = [], len(greeting(name))
    while at < len(data):
        size, begin = number_at(data, at + 1)
        frames.append((data[at], data[begin : begin + size]))
        at = begin + size
    return frames


class Taker:
    """A listener that takes what a member sends to a peer."""

    def __init__(self):
        self.listener = socket.create_server(("127.0.0.1", 0))
        self.port = self.listener.getsockname()[1]
        self.taken = []
        threading.Thread(target=self.take, daemon=True).start()

    def take(self):
        while True:
            stream, _ = self.listener.accept()
            with stream:
                self.taken.append(received(stream))


def test_pushes(folder):
    """Peers that ask for all again and again are answered as the link takes it, and from a state that is made once at a time."""
    taker = Taker()
    member = begun(Stoppable("m", *free_ports(1), [("p", taker.port)], folder))
    for number in range(1000):
        compare("a post", post(member, "x" * 3000 + str(number))[0], 200)
    before = peak(member)
    start = time.monotonic()
    pushes = asked(member, greeting("p") + EMPTY_PUSH * 8000)
    pushes.shutdown(socket.SHUT_WR)
    slow = slowest(member, lambda: time.monotonic() < start + 2)
    pushes.close()
    check("nobody waits", slow < 2, slow)
    check("8,000 Pushes take no memory", peak(member) - before < 50, peak(member) - before)
    pulls = lambda: [brought for data in taker.taken for kind, brought in frames_in(data, "m") if kind == PULL]
    ends = lambda: [part("nfl", b"") in brought for brought in pulls()]
    check("all is sent", eventually(lambda: any(ends())))
    check("in parts, of which the last one alone names both states", True in ends() and ends().index(True) == 5, ends())
    check("each of about 1 MiB", max(len(brought) for brought in pulls()) < 1_050_000, [len(brought) for brought in pulls()])
    compare("the end", (member.stop(), member.lines[1:]), (0, []))
    check("and no more than the link took", len(pulls()) < 4000, len(pulls()))


def test_parts(folder):
    """The first pull lasts until the part came that names both states."""
    member = with_peer("f", folder, ["--pull-first", "--pull-first-limit", "600", "--time-limit", "60"])
    with asked(member, request("GET", "/api/v2/silences")) as stream:
        member.send(greeting("p") + frame(PULL, part("sil", delimited(version("x")))))
        stream.settimeout(1)
        with contextlib.suppress(TimeoutError):
            check("a part of the silences alone ends nothing", not stream.recv(1))
        stream.settimeout(PATIENCE)
        member.send(greeting("p") + frame(PULL, part("sil", delimited(version("y"))) + part("nfl", b"")))
        status, body = parted(received(stream))
    compare("the last part ends it", (status, sorted(each["comment"] for each in json.loads(body))), (200, ["x", "y"]))
    compare("the stop", (member.stop(), faults(member)), (0, []))


def test_ticks(folder):
    """However many Ticks come, a member collects and saves once a second."""
    calls = f"{folder}/calls"
    member = Stoppable("m", *free_ports(1), [("p", free_ports(1)[0])], folder, **under_library(CALLS=calls))
    begun(member)
    start = time.monotonic()
    for _ in range(40):
        member.send(greeting("p") + TICK * 4000)
    saves = lambda: (bytes_of(calls) or b"").count(b"rename " + member.sil.encode())
    check("a Tick saves", eventually(saves))
    time.sleep(1.2)
    seconds = time.monotonic() - start
    check("Ticks that come at once save once a second", saves() <= seconds + 1, (saves(), seconds))
    compare("the end", (member.stop(), member.lines[1:]), (0, []))
# ---- crowds


@contextlib.contextmanager
def crowd(member, count):
    """So many clients that connect and say nothing, for as long as this lasts."""
    _, most = resource.getrlimit(resource.RLIMIT_NOFILE)
    resource.setrlimit(resource.RLIMIT_NOFILE, (most, most))
    with contextlib.ExitStack() as streams:
        for _ in range(count):
            stream = streams.enter_context(socket.socket())
            stream.setblocking(False)
            stream.connect_ex(("127.0.0.1", member.port))
        yield


def took(deed):
    """What comes of a deed, and in how many seconds."""
    start = time.monotonic()
    return deed(), time.monotonic() - start


def version(value):
    """The bytes of a silence's version, which holds for two hours from now on."""
    now = int(time.time())
    return versions.silence(f"{value} job={value} {now}..{now + 7200} updated {now} expires {now + 9000} saying {value}")


def with_peer(name, folder, options=(), **how):
    """A member with a peer `p` that isn't there, which has begun."""
    port, nobody = free_ports(2)
    return begun(Stoppable(name, port, [("p", nobody)], folder, options, **how))


def told(member, word):
    """How many lines of a word a member has printed or counted."""
    counted = re.compile(rf"am_tool: \.\. and (\d+) more like {word}\b.*")
    left_out = sum(int(it[1]) for it in map(counted.fullmatch, member.lines) if it)
    return left_out + sum(line.startswith(f"am_tool: {word} ") for line in member.lines)


def list_time(member):
    (status, _), seconds = took(lambda: member.ask("GET", "/api/v2/silences"))
    compare("a list beside silent clients", status, 200)
    return seconds


def delta_time(member, value):
    reply, seconds = took(lambda: member.send(greeting("p") + delta("sil", version(value))))
    compare("a Delta beside silent clients", reply, b"")
    return seconds


def is_soon(pairs):
    """Whether of pairs of times, beside others and without them, that in the middle of the first is near that of the second."""
    beside, without = (sorted(row)[len(pairs) // 2] for row in zip(*pairs))
    return beside <= SOON * without


def test_silent_crowd(folder):
    """Silent clients keep nobody out, however many they are."""
    member, quiet = with_peer("q", folder), with_peer("n", folder)
    with crowd(member, CROWD):
        lists, deltas = [], []
        for value in ("x", "y", "z"):
            lists.append([list_time(it) for it in (member, quiet)])
            deltas.append([delta_time(it, value) for it in (member, quiet)])
        check("a list is soon there", is_soon(lists), lists)
        check("and so is a Delta", is_soon(deltas), deltas)
        for it in (member, quiet):
            compare("all came", it.comments(), ["x", "y", "z"])
    for it in (member, quiet):
        compare("the stop", it.stop(), 0)
    count = told(member, "Crowded")
    check("each client that was let go is told", CROWD - 300 <= count <= CROWD, count)
    check("as one that said nothing", "am_tool: Crowded 0" in member.lines, member.lines[:3])
    check("and few lines tell it", len(member.lines) < 300, len(member.lines))


def test_crowd_of_wait(folder):
    """Clients that wait for the first pull don't keep out the peer that brings it."""
    member, quiet = (with_peer(it, folder, ["--pull-first", "--pull-first-limit", "600", "--time-limit", "60"]) for it in "wn")
    with contextlib.ExitStack() as stack:
        streams = [stack.enter_context(asked(member, request("GET", "/api/v2/silences"))) for _ in range(300)]
        time.sleep(1)
        states = part("sil", delimited(version("x"))) + part("nfl", b"")
        found = [took(lambda it=it: it.send(greeting("p") + frame(PULL, states))) for it in (member, quiet)]
        compare("the replies to Pulls", [reply for reply, _ in found], [b"", b""])
        check("a Pull beside clients that wait for it", is_soon([[seconds for _, seconds in found]]), found)
        replies = [parted(received(stream)) for stream in streams]
    compare("the stop of the other one", quiet.stop(), 0)
    compare("those that waited longest", set(replies[:45]), {NOT_READY})
    compare("the others", {(status, body.count(b'"comment":"x"')) for status, body in replies[45:]}, {(200, 1)})
    compare("no connection is at fault", (member.stop(), faults(member)), (0, []))


def test_silent_beside_wait(folder):
    """Silent clients don't take the places of those that wait for the first pull."""
    options = ["--pull-first", "--pull-first-limit", "600", "--time-limit", "60", "--at-once", "16"]
    member = with_peer("s", folder, options)
    with contextlib.ExitStack() as stack:
        streams = [stack.enter_context(asked(member, request("GET", "/api/v2/silences"))) for _ in range(4)]
        for _ in range(40):
            stack.enter_context(asked(member, b""))
            time.sleep(0.02)
        states = part("sil", delimited(version("x"))) + part("nfl", b"")
        compare("a Pull beside silent clients", member.send(greeting("p") + frame(PULL, states)), b"")
        compare("those that waited are answered", {parted(received(stream))[0] for stream in streams}, {200})
    compare("the stop", member.stop(), 0)
    compare("what was let go", told(member, "Crowded"), 4 + 40 + 1 - 16)


def unfinished(count):
    """A greeting and so many bytes of a frame of ten million."""
    return greeting("p") + bytes([PUSH]) + varint(10_000_000) + bytes(count)


def test_unfinished(folder):
    """What isn't finished has a limit, and the connection that has most of it is closed."""
    member = with_peer("u", folder, ["--most-unfinished", "1000000", "--time-limit", "60"])
    posted = request("POST", "/api/v2/silences", json.dumps(silence("x")).encode())
    with contextlib.ExitStack() as stack:
        begin = lambda data: stack.enter_context(asked(member, data))
        small, post, large = begin(unfinished(300_000)), begin(posted[:-1]), begin(unfinished(500_000))
        time.sleep(0.5)
        compare("within the limit none is closed", faults(member), [])
        other = begin(unfinished(400_000))
        line = f"am_tool: Unfinished {len(unfinished(500_000))}"
        check("beyond it one is", eventually(lambda: faults(member) == [line], 10), member.lines)
        compare("which has most", received(large), b"")
        post.sendall(posted[-1:])
        compare("a post goes on", parted(received(post))[0], 200)
        check("and so do the others", still_open(small) and still_open(other))
        check("there is room again", still_open(begin(unfinished(200_000))))
        time.sleep(0.5)
        compare("so none is closed", faults(member), [line])
    compare("the stop", member.stop(), 0)


LIST = "/api/v2/silences"


def long_list(name, folder, count, size):
    """The file of a member's silences: so many that say so many bytes each."""
    now = int(time.time())
    times = f"{now}..{now + 7200} updated {now} expires {now + 9000}"
    say = lambda number: versions.silence(f"s{number:05} job=db {times} by me saying {'x' * size}")
    write(f"{folder}/{name}.sil", b"".join(delimited(say(number)) for number in range(count)))


def slow_reader(member):
    """A connection on which a list is asked for and not read."""
    stream = socket.socket()
    stream.setsockopt(socket.SOL_SOCKET, socket.SO_RCVBUF, 4096)
    stream.connect(("127.0.0.1", member.port))
    stream.sendall(request("GET", LIST))
    return stream


def test_slow_readers(folder):
    """Replies that nobody reads take memory up to a limit, and keep nobody out who reads."""
    long_list("z", folder, 1000, 8000)
    member = alone("z", folder, ["--time-limit", "60", "--most-unfinished", "40000000", *ALL_LINES])
    whole = member.ask("GET", LIST)
    check("a list is long", whole[0] == 200 and len(whole[1]) > 8_000_000, (whole[0], len(whole[1])))
    before = peak(member)
    with contextlib.ExitStack() as stack:
        readers = [stack.enter_context(slow_reader(member)) for _ in range(30)]
        check("those who read get all", [member.ask("GET", LIST) == whole for _ in range(3)] == [True] * 3)
        grown = peak(member) - before
        check("memory grows by two replies and those that are being written", grown < 80, grown)
        check("of those who don't read, some were closed", told(member, "Write") > 20, member.lines[1:])
        last = readers[-1]
        last.settimeout(PATIENCE)
        compare("the last of them is answered when it reads", parted(received(last)), whole)
    compare("the stop", member.stop(), 0)


def still_open(stream):
    """Whether nothing came of a connection, not even its end."""
    stream.setblocking(False)
    try:
        return stream.recv(1) is None
    except BlockingIOError:
        return True
    except OSError:
        return False
# ---- patterns


def heavy(number):
    """A pattern that takes over 10 MiB, as it is counted, one for each number."""
    return rf"\pL{{300}}{number}"


def with_patterns(patterns):
    """What is posted, with these patterns and as few other bytes as it can have."""
    matchers = [{"name": "j", "value": it, "isRegex": True} for it in patterns]
    return json.dumps(silence("x", matchers=matchers), separators=(",", ":")).encode()


def filtered(patterns):
    """The target of a list with these patterns as filters."""
    return "/api/v2/silences?" + "&".join("filter=" + quote(f'j=~"{it}"') for it in patterns)


def beside(member, data):
    """What comes for bytes that are sent, and the seconds that requests for one silence take on other connections meanwhile."""
    found, seconds = [], []
    with ThreadPoolExecutor(1) as lane:
        asked = lane.submit(member.send, data, close=False)
        while not found or not asked.done():
            start = time.monotonic()
            found.append(member.ask("GET", "/api/v2/silence/x")[0])
            seconds.append(time.monotonic() - start)
    compare("the requests beside it are answered", set(found), {404})
    return parted(asked.result()), seconds


def longest_beside(member, name, data, refusal):
    """For how long somebody has to wait beside a request that is refused, made twice: what else the machine does may come once."""
    found = [beside(member, data) for _ in range(2)]
    compare(f"{name} patterns that take much", [reply for reply, _ in found], [(400, refusal)] * 2)
    return min(max(seconds) for _, seconds in found)


def test_patterns(folder):
    """What one request compiles is bounded, and nobody waits for more than one pattern of it."""
    member = alone("r", folder, ["--time-limit", "60"])
    for few in ["c.*", "c.+", "c.*"], ["d"] * 200, [f"a{it}" for it in range(140)]:
        compare("a post with patterns", member.ask("POST", "/api/v2/silences", with_patterns(few))[0], 200)
    status, body = member.ask("GET", filtered(["c..", "c..", r"c\.."]))
    compare("a list by patterns", (status, len(json.loads(body))), (200, 1))
    before = peak(member)
    posted = lambda patterns: request("POST", "/api/v2/silences", with_patterns(patterns))
    largest = with_patterns(map(heavy, range(19_900)))
    check("many patterns fit into a body", 1_000_000 < len(largest) <= 1_048_576, len(largest))
    one = longest_beside(member, "a post with one", posted([heavy("x")]), b'"bad pattern"')
    for name, data, refusal in [
        ("a post with ten", posted(map(heavy, range(10))), b'"bad pattern"'),
        ("a list with 200", request("GET", filtered(map(heavy, range(200)))), b'"bad filter"'),
        ("a post with many", request("POST", "/api/v2/silences", largest), b'"bad pattern"'),
    ]:
        longest = longest_beside(member, name, data, refusal)
        check(f"nobody waits for long beside {name}", longest <= ONE_TURN * one, (longest, one))
    same = filtered([r"\pL{150}"] * 200)
    compare("a list with one pattern in 200 filters", member.ask("GET", same), (200, b"[]"))
    grown = peak(member) - before
    check("memory grows by at most 200 MiB", grown <= 200, grown)
    compare("a stop", (member.stop(), member.lines[1:]), (0, []))


TOO_MANY = (400, b'"too many patterns"')


def large(number):
    """A pattern that takes several MiB, as it is counted, one for each number."""
    return rf"\pL{{140}}v{number}"


def put_large(member, number, **more):
    """What comes of a post with such a pattern."""
    matchers = [{"name": "alertname", "value": large(number), "isRegex": True}]
    return member.ask("POST", "/api/v2/silences", json.dumps(silence("x", matchers=matchers, **more)).encode())


def put_until_full(member):
    """The identifiers of silences with such patterns, as many as the member takes."""
    taken = []
    while (reply := put_large(member, len(taken)))[0] == 200:
        taken.append(json.loads(reply[1])["silenceID"])
    compare("the next post", reply, TOO_MANY)
    return taken


def bring_large(member, numbers):
    """A peer brings silences with such patterns."""
    now = int(time.time())
    times = f"{now}..{now + 7200} updated {now} expires {now + 9000}"
    say = lambda number: versions.silence(f"p{number} alertname=~{large(number)} {times}".replace("\\", "\\\\"))
    row = b"".join(delimited(say(number)) for number in numbers)
    before = len(ids(member))
    compare("a Push", member.send(greeting("p") + frame(PUSH, part("sil", row))), b"")
    check("is taken", eventually(lambda: len(ids(member)) == before + len(numbers)))


def decided_on(member, count, **more):
    """What comes of a question about so many alerts, none of which is muted, with some more labels."""
    alerts = [{"status": "firing", "labels": {"alertname": f"a{number}", **more}} for number in range(count)]
    body = json.dumps({"groupKey": "g", "receiver": "r", "alerts": alerts}).encode()
    status, answer = member.ask("POST", "/v1/decide?wait=false", body)
    return status, json.loads(answer).get("reason")


def meanwhile(member, work):
    """What comes of something, how long it takes, and for how long somebody waits for /-/healthy beside it at most."""
    start, longest, statuses = time.monotonic(), 0, set()
    with ThreadPoolExecutor(1) as lane:
        doing = lane.submit(work)
        while not doing.done():
            asked_at = time.monotonic()
            statuses.add(member.ask("GET", "/-/healthy")[0])
            longest = max(longest, time.monotonic() - asked_at)
    compare("it is healthy meanwhile", statuses, {200})
    return doing.result(), time.monotonic() - start, longest


def test_all_patterns(folder):
    """The patterns of all silences that haven't ended are bounded where one is posted, so a decision compiles none of them anew."""
    options = ["--time-limit", str(PATIENCE), "--retention", "3600", "--decide-limit", "600"]
    member = with_peer("q", folder, options)
    reply, one = took(lambda: put_large(member, 0))
    compare("one is taken", reply[0], 200)
    taken, _, longest = meanwhile(member, lambda: put_until_full(member))
    check("some are taken", 8 <= len(taken) <= 60, len(taken))
    check("nobody waits for long beside posts", longest <= ONE_TURN * one, (longest, one))
    found, seconds, longest = meanwhile(member, lambda: decided_on(member, 30))
    compare("a decision over all", found, (200, "First"))
    check("is made soon", seconds <= ONE_TURN * one, (seconds, one))
    check("nobody waits for long beside it", longest <= ONE_TURN * one, (longest, one))
    compare("another post", put_large(member, "x"), TOO_MANY)
    compare("one with a pattern that is there", put_large(member, 0)[0], 200)
    compare("one in the place of another", put_large(member, 1, id=taken[1], comment="again")[0], 200)
    compare("one without a pattern", post(member, "x")[0], 200)
    compare("a broken pattern", member.ask("POST", "/api/v2/silences", with_patterns(["("])), (400, b'"bad pattern"'))
    compare("what takes too much by itself", member.ask("POST", "/api/v2/silences", with_patterns(map(large, "abcdefgh"))), (400, b'"bad pattern"'))
    for it in taken[-2:]:
        compare("an end", member.ask("DELETE", f"/api/v2/silence/{it}")[0], 200)
    compare("there is room again", [put_large(member, it)[0] for it in "yz"], [200, 200])
    compare("but not for one more", put_large(member, "x"), TOO_MANY)
    compare("the stop", (member.stop(), faults(member)), (0, []))
    member = with_peer("q", folder, options)
    found, _, longest = meanwhile(member, lambda: put_large(member, "x"))
    compare("a post after a start", found, TOO_MANY)
    check("nobody waits for long beside it", longest <= ONE_TURN * one, (longest, one))
    for numbers, count, more, reason in [
        (["more"], 3, {}, "First"),
        (["most"], 1, {"long": "ab" * 450_000}, "Unjudged"),
        (range(100, 140), 30, {}, "Unjudged"),
    ]:
        bring_large(member, numbers)
        found, _, longest = meanwhile(member, lambda: decided_on(member, count, **more))
        compare("a decision beside patterns that don't fit", found, (200, reason))
        check("nobody waits for long beside it", longest <= ONE_TURN * one, (longest, one))
    compare("the stop", (member.stop(), faults(member)), (0, []))


LONG_FILTER = f"{LIST}?filter=" + quote('job=~"(.?){8000}"')


def longest_beside_list(member, target, count):
    """For how long somebody has to wait beside a list of so many silences, asked for twice: what else the machine does may come once."""
    found = [beside(member, request("GET", target)) for _ in range(2)]
    compare(f"a list of {count}", [(reply[0], len(json.loads(reply[1]))) for reply, _ in found], [(200, count)] * 2)
    return min(max(seconds) for _, seconds in found)


def test_long_filter(folder):
    """A filter with a large pattern is held against silences a few at a time, so nobody waits for the whole list."""
    long_list("f", folder, FILTERED, 20)
    many, none = (alone(name, folder, ["--time-limit", str(PATIENCE)]) for name in "fg")
    plain = max(longest_beside_list(many, LIST, FILTERED), longest_beside_list(none, LONG_FILTER, 0))
    longest = longest_beside_list(many, LONG_FILTER, FILTERED)
    check("nobody waits for long beside a list with a large pattern", longest <= max(4 * plain, 0.25), (longest, plain))
    for member in many, none:
        compare("a stop", (member.stop(), member.lines[1:]), (0, []))


def test_light_filter(folder):
    """A list by a name that one silence has takes no memory for all others."""
    long_list("h", folder, LEFT_OUT, 20)
    member = alone("h", folder, ["--time-limit", str(PATIENCE)])
    compare("a post", post(member, "one")[0], 200)
    before = peak(member)
    status, body = member.ask("GET", f"{LIST}?filter=" + quote('job="one"'))
    compare("the list", (status, [it["comment"] for it in json.loads(body)]), (200, ["one"]))
    grown = peak(member) - before
    check("what doesn't pass isn't copied", grown < 2, grown)
    status, body = member.ask("GET", f"{LIST}?filter=" + quote('job!="one"'))
    compare("the list of all others", (status, len(json.loads(body))), (200, LEFT_OUT))
    compare("a stop", (member.stop(), member.lines[1:]), (0, []))


def test_long_value(folder):
    """A list is refused if a large pattern among its filters meets a silence so long that the search might take minutes."""
    member = alone("v", folder, ["--time-limit", "60"])
    large = filtered(["(a|b)*a(a|b){12000}"])
    compare("a short silence", post(member, "short")[0], 200)
    compare("a large pattern over it", member.ask("GET", large), (200, b"[]"))
    long = json.dumps(silence("long", matchers=[{"name": "j", "value": "ab" * 450_000, "isRegex": False}])).encode()
    compare("a long silence", member.ask("POST", "/api/v2/silences", long)[0], 200)
    (status, body), seconds = took(lambda: member.ask("GET", large))
    compare("a large pattern over both", (status, body), (400, b'"bad filter"'))
    check("is refused soon", seconds < 10, seconds)
    compare("a small one isn't", len(json.loads(member.ask("GET", filtered(["abab.*"]))[1])), 1)
    compare("a stop", (member.stop(), member.lines[1:]), (0, []))


# ---- posts that have much to say

LONG_POSTS = 8


def asked_meanwhile(member, look):
    """The statuses of requests that are made, one after the other, while something goes on."""
    statuses = []
    while look():
        statuses.append(member.ask("GET", "/api/v2/silence/none")[0])
    return statuses


def test_long_posts(folder):
    """Posts above 64 KiB that are whole at once are taken one after the other, and others are answered between them."""
    member = alone("l", folder, ["--time-limit", str(PATIENCE)])
    matchers = [{"name": f"j{number}", "value": "x" * 20, "isRegex": False} for number in range(1000)]
    data = request("POST", "/api/v2/silences", json.dumps(silence("x", matchers=matchers)).encode())
    check("each is above 64 KiB", len(data) > 66_000, len(data))
    with contextlib.ExitStack() as stack:
        streams = [stack.enter_context(asked(member, data[:-1])) for _ in range(LONG_POSTS)]
        for _ in range(5):
            member.ask("GET", "/api/v2/silence/none")
        for stream in streams:
            stream.sendall(data[-1:])
        lane = stack.enter_context(ThreadPoolExecutor(1))
        replies = lane.submit(lambda: [parted(received(stream))[0] for stream in streams])
        statuses = asked_meanwhile(member, lambda: not replies.done())
    compare("all are answered", replies.result(), [200] * LONG_POSTS)
    compare("so are others", set(statuses), {404})
    check("and between them", len(statuses) >= LONG_POSTS // 2, len(statuses))
    compare("a stop", (member.stop(), member.lines[1:]), (0, []))


# ---- states that are large


FULL = (500, b'"state too large"')


def put(member, value):
    """What comes of a post that has 1,000 bytes to say."""
    return member.post(saying(value))


def saying(value):
    return silence(value, value.ljust(1000, "."))


def ids(member):
    return [it["id"] for it in member.listed() or []]


def filled(member):
    """How many posts a member takes until it has no room for one, also where it counts anew."""
    count, is_full = 0, False
    while not is_full:
        while put(member, f"v{count}")[0] == 200:
            count += 1
        time.sleep(1.1)
        is_full = put(member, f"v{count}") == FULL
        count += not is_full
    return count


def again(member, folder, most):
    """The same member, started anew with another limit."""
    return alone(member.name, folder, ["--most-bytes", str(most)])


def test_full(folder):
    """A member whose state is full refuses posts, and goes on with all else; what it has acknowledged is saved."""
    most = 20_000
    member = alone("f", folder, ["--most-bytes", str(most)])
    count = filled(member)
    check("some posts are taken", 12 <= count <= 18, count)
    compare("and then none", [put(member, "late") for _ in range(3)], [FULL] * 3)
    for body in b"no JSON", with_patterns([heavy(0)]):
        compare("whatever the body", member.ask("POST", "/api/v2/silences", body.ljust(1500)), FULL)
    compare("a post to another path", member.ask("POST", "/nowhere", b"")[0], 404)
    held = ids(member)
    compare("what is listed", len(held), count)
    compare("one of them", member.ask("GET", f"/api/v2/silence/{held[0]}")[0], 200)
    compare("each is ended", {member.ask("DELETE", f"/api/v2/silence/{it}")[0] for it in held}, {200})
    compare("the stop", (member.stop(), member.lines[1:]), (0, []))
    saved = bytes_of(member.sil)
    check("the file is no longer than it may be", len(saved) <= most, len(saved))
    compare("all are in the file", len(list(items(saved))), count)
    for less in len(saved) - 1, 1:
        options = [*words(member.sil, member.nfl, *free_ports(1)), "--most-bytes", str(less)]
        compare(f"a start with {less}", run(options), refused("Silences TooLarge", 1))
    member = again(member, folder, len(saved))
    compare("a start with just as many", ids(member), held)
    compare("where no post fits", put(member, "more"), FULL)
    compare("the stop", (member.stop(), bytes_of(member.sil)), (0, saved))
    wanted = len(saved) + len(json.dumps(saying("more"))) + 512 + 64 * (count + 1)
    for limit, reply in (wanted - 1, FULL[0]), (wanted, 200):
        member = again(member, folder, limit)
        compare(f"a post with room of {limit - wanted}", put(member, "more")[0], reply)
        compare("the stop", member.stop(), 0)


def test_room_again(folder):
    """There is room again once what has expired is dropped."""
    member = alone("g", folder, ["--most-bytes", "8000", "--retention", "1", "--tick-every", "1"])
    check("posts fill it", 3 <= filled(member) <= 7, ids(member))
    for it in ids(member):
        compare("an end", member.ask("DELETE", f"/api/v2/silence/{it}")[0], 200)
    check("a post is taken", eventually(lambda: put(member, "y")[0] == 200, 20))
    compare("the stop", (member.stop(), member.lines[1:]), (0, []))


def noticed(member, number):
    """What comes of a notice of a group of its own."""
    alerts = [{"status": "firing", "labels": {"alertname": f"{number}-{at}"}} for at in range(20)]
    body = {"groupKey": f"g{number}".ljust(1000, "."), "receiver": "r", "alerts": alerts}
    status, answer = member.ask("POST", "/v1/decide?wait=false", json.dumps(body).encode())
    return member.ask("POST", "/v1/notified", answer) if status == 200 else (status, answer)


def test_full_of_notices(folder):
    """A member whose log is full refuses notices; what it has acknowledged is saved."""
    most, count = 20_000, 0
    member = alone("n", folder, ["--most-bytes", str(most), "--log"])
    replies = [noticed(member, number) for number in range(40)]
    taken = [it for it in replies if it == (200, b'{"logged":true}')]
    check("some are logged", 8 <= len(taken) <= 16, len(taken))
    compare("the others are refused", [it for it in replies if it not in taken], [FULL] * (40 - len(taken)))
    compare("a post is taken", put(member, "x")[0], 200)
    compare("what is listed", len(json.loads(member.ask("GET", "/v1/log")[1])), len(taken))
    compare("the stop", (member.stop(), member.lines[1:]), (0, []))
    saved = bytes_of(member.nfl)
    check("the file is no longer than it may be", len(saved) <= most, len(saved))
    compare("all are in the file", len(list(items(saved))), len(taken))


def test_many_muting(folder):
    """Of many silences that mute many alerts the answer names a few, so that the alerts bound what it takes."""
    now = int(time.time())
    times = f"{now}..{now + 7200} updated {now} expires {now + 9000}"
    write(f"{folder}/o.sil", b"".join(delimited(versions.silence(f"s{number:04} job=db {times}")) for number in range(2000)))
    member = alone("o", folder, ["--time-limit", "300"])
    alerts = [{"status": "firing", "labels": {"job": "db", "n": str(number).ljust(120, ".")}} for number in range(5000)]
    body = json.dumps({"groupKey": "g", "receiver": "r", "alerts": alerts}, separators=(",", ":")).encode()
    check("the message is large", 800_000 < len(body) < 1_048_576, len(body))
    status, answer = member.ask("POST", "/v1/decide?wait=false", body)
    compare("it is answered", status, 200)
    muted = json.loads(answer)["muted"]
    compare("each alert", len(muted), len(alerts))
    named = [f"s{number:04}" for number in range(16)]
    check("is muted by these and others", all((it["silencedBy"], it["silencedByMore"]) == (named, 1984) for it in muted), muted[:1])
    check("it takes little memory", peak(member) < 200, peak(member))
    compare("the stop", member.stop(), 0)


def test_frames_of_full(folder):
    """What peers send is taken, also past the limit. That isn't saved then, which is told."""
    member = with_peer("h", folder, ["--most-bytes", "2000"])
    before = bytes_of(member.sil)
    row = delimited(version("x" * 1500)) + delimited(version("y" * 1500))
    compare("a Push of more", member.send(greeting("p") + frame(PUSH, part("sil", row))), b"")
    check("is taken", eventually(lambda: len(ids(member)) == 2, 10))
    compare("a post then", put(member, "z"), FULL)
    compare("the stop", (member.stop(), faults(member)), (3, ["am_tool: Silences TooLarge"]))
    compare("the file is as it was", bytes_of(member.sil), before)


def large_row():
    """A row of over 64 MiB: 70 silences that say 1 MiB each."""
    now = int(time.time())
    times = f"{now}..{now + 7200} updated {now} expires {now + 9000}"
    say = lambda key: versions.silence(f"{key} job=x {times} by me saying {key.ljust(1 << 20, '.')}")
    return b"".join(delimited(say(f"k{number}")) for number in range(10, 80))


def test_large(folder):
    """A member loads, lists and saves over 64 MiB, and hands it to a peer; fold and show refuse that."""
    data = large_row()
    check("it is over 64 MiB", len(data) > 67_108_864, len(data))
    for command in ("fold", "show"):
        compare(f"{command} of it", run([command, "--state", "sil", "--now", "0"], input=data), refused("TooLarge", 1))
    write(f"{folder}/a.sil", data)
    first, second = free_ports(2)
    options = ["--time-limit", "60"]
    member = begun(Stoppable("a", first, [("b", second)], folder, options))
    peer = begun(Stoppable("b", second, [("a", first)], folder, [*options, "--pull-first", "--pull-first-limit", "60"]))
    for each in (member, peer):
        listed = each.listed() or []
        compare(f"the silences of {each.name}", [it["id"] for it in listed], [f"k{number}" for number in range(10, 80)])
        compare("what they say", {len(it["comment"]) for it in listed}, {1 << 20})
    for each in (peer, member):
        compare(f"the stop of {each.name}", each.stop(), 0)
        check("its file is whole", bytes_of(each.sil) == data)
    member = alone("a", folder, options)
    compare("they are loaded again", (len(ids(member)), member.stop(), bytes_of(member.sil) == data), (70, 0, True))
    options = [*words(member.sil, member.nfl, *free_ports(1)), "--most-bytes", "67108864"]
    compare("64 MiB are too few for it", run(options), refused("Silences TooLarge", 1))


def main():
    global library
    members.choose("edges", sys.argv[1:])
    with tempfile.TemporaryDirectory(prefix="am_edges_") as folder:
        library = members.compiled("edges", "system", folder, "no clock can be set")
        tests = [
            test_last_save,
            test_directory,
            test_owners,
            test_one_file,
            test_links,
            test_no_files,
            test_beside,
            test_stop_of_wait,
            test_time_of_wait,
            test_clock,
            test_log,
            test_full_log,
            test_compaction,
            test_full_compaction,
            test_lines,
            test_full_pipe,
            test_foreign,
            test_hosts,
            test_pushes,
            test_parts,
            test_ticks,
            test_silent_crowd,
            test_crowd_of_wait,
            test_silent_beside_wait,
            test_unfinished,
            test_slow_readers,
            test_patterns, test_all_patterns, test_long_value,
            test_long_filter,
            test_light_filter,
            test_long_posts,
            test_full,
            test_room_again,
            test_full_of_notices,
            test_many_muting,
            test_frames_of_full,
            test_large,
            test_clock_far_ahead,
            test_event_far_ahead,
            test_trusted_clock,
        ]
        try_each(tests, folder)
    finish("edges")


if __name__ == "__main__":
    main()
