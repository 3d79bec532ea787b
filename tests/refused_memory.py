#!/usr/bin/env python3
"""Refuses one request for memory after the other, to the calls of worked rows and to the built am_tool.

    tests/refused_memory.py [PROGRAM]

PROGRAM is crates/am_tool/out/am_tool if it isn't given; ./am_tool build and rt ci build it. tests/memory.c is compiled and
loaded before the C library; it counts the requests of a process, and refuses the nth, for each n from 1 until a run meets
none. Of am_tool the answer has to be Memory each time, and what was there before has to stand. am_cases, which rt ci
builds too, is run on files of cases in the same way: a case that finds no memory says so, and is made once
more over what stands then, and has to be answered as where nothing is refused. Prints each run that ends otherwise, how
many requests each row makes, and at the end how many rows passed. What is wanted is written by hand, from docs/FORMATS.md.
"""

import bisect
import collections
import concurrent.futures
import contextlib
import json
import mmap
import os
import re
import struct
import subprocess
import sys
import tempfile

import cases as cases_of
from lib import members
from lib.api import request
from lib.members import LANES, TOP, Member, bytes_of, free_ports, outcome, parted, run, silent_peer
from lib.samples import ENTRY, FIRST, ORDERS, ORDERS_OUTPUT, RESTARTED, RESTARTED_OUTPUT, SECOND, SETTLED, SETTLED_OUTPUT, silence_of_job
from lib.tally import count, finish
from lib.wire import EMPTY_PUSH, TICK, delta, field, greeting, timestamp

# What is on standard error where memory ran out.
MEMORY = "am_tool: Memory\n"

# The silence and the entry as JSON.
SECOND_IN_JSON = (
    b'[{"comment":"","createdBy":"","endsAt":"1970-01-01T00:01:40.000Z","id":"a",'
    b'"matchers":[{"isEqual":true,"isRegex":false,"name":"job","value":"x"}],'
    b'"startsAt":"1970-01-01T00:00:10.000Z","status":{"state":"active"},"updatedAt":"1970-01-01T00:00:20.000Z"}]\n'
)
ENTRY_IN_JSON = (
    b'[{"groupKey":"Zw==","receiver":{"groupName":"r","integration":"w","idx":0},"timestamp":"1970-01-01T00:00:10.000Z",'
    b'"expiresAt":"1970-01-01T00:03:20.000Z","firingAlerts":["1","2"],"resolvedAlerts":[]}]\n'
)

# Words, standard input, and standard output. Where am_tool has no such command a row says so, and is not tried.
JOBS = [
    (["fold", "--state", "sil", "--now", "0"], SECOND + FIRST, SECOND),
    (["fold", "--state", "sil", "--now", "0"], FIRST + SECOND + FIRST, SECOND),
    (["fold", "--state", "nfl", "--now", "0"], ENTRY, ENTRY),
    (["show", "--state", "sil", "--now", "50000000000"], SECOND, b"sil a active\n"),
    (["show", "--state", "nfl", "--now", "50000000000"], ENTRY, b"nfl g r w 0 1,2 -\n"),
    (["show", "--state", "sil", "--now", "50000000000", "--json"], SECOND, SECOND_IN_JSON),
    (["show", "--state", "nfl", "--now", "50000000000", "--json"], ENTRY, ENTRY_IN_JSON),
    (["replay"], ORDERS, ORDERS_OUTPUT),
    (["replay"], RESTARTED, RESTARTED_OUTPUT),
    (["replay"], SETTLED, SETTLED_OUTPUT),
    (["fold", "--state", "sil", "--log", "{folder}/a", "{folder}/b"], b"", SECOND),
    (["show", "--state", "sil", "--now", "50000000000", "--log", "{folder}/a"], b"", b"sil a active\n"),
    (["show", "--state", "sil", "--now", "50000000000", "--json", "--log", "{folder}/a"], b"", SECOND_IN_JSON),
    (["show", "--state", "nfl", "--now", "50000000000", "--log", "{folder}/n"], b"", b"nfl g r w 0 1,2 -\n"),
    (["diff", "--state", "sil", "--now", "50000000000", "--log", "{folder}/a", "-"], SECOND, b""),
]

# Files in which something of these rows stands.
BLOCK = bytes([1, 33]) + bytes(7)
FILES = {"a": FIRST, "a.log": BLOCK + FIRST + b"\0", "a.log.old": BLOCK + SECOND + b"\0", "b": FIRST, "n": ENTRY, "n.log": b"\0"}


def settle(name, faults, said=""):
    """Counts a row, and prints what was wrong in it."""
    if count(not faults):
        print(f"{name}: {said}", flush=True)
    else:
        print(f"{name}: {len(faults)} runs ended otherwise; the first of them:", *faults[:3], sep="\n  ", flush=True)


class Counts:
    """The file that a process and this one share: its requests so far, which one is refused, how many were."""

    SIZE = 8192

    def __init__(self, folder):
        handle, self.path = tempfile.mkstemp(dir=folder)
        os.truncate(handle, self.SIZE)
        self.bytes = mmap.mmap(handle, self.SIZE)
        os.close(handle)

    def begin(self, refuse):
        self.bytes[:24] = struct.pack("=QQQ", 0, refuse, 0)

    def refuse_next(self, number):
        """The request that comes so many from now is refused."""
        asked = struct.unpack("=Q", self.bytes[:8])[0]
        self.bytes[8:24] = struct.pack("=QQ", asked + number, 0)

    def refuse_none(self):
        self.bytes[8:16] = struct.pack("=Q", 0)

    def asked(self):
        return struct.unpack("=Q", self.bytes[:8])[0]

    def refused(self):
        return struct.unpack("=Q", self.bytes[16:24])[0]

    def environment(self, library):
        return {**os.environ, "LD_PRELOAD": library, "MEMORY": self.path}


Ran = collections.namedtuple("Ran", "status output error asked refused")


class Lanes:
    """Runs of processes, so many at once, each of which is refused one request."""

    def __init__(self, folder, library):
        self.library = library
        self.free = [Counts(folder) for _ in range(LANES)]
        self.pool = concurrent.futures.ThreadPoolExecutor(LANES)

    def run(self, words, given, refuse):
        counts = self.free.pop()
        try:
            counts.begin(refuse)
            ran = outcome(words, input=given, env=counts.environment(self.library))
            return Ran(*ran, counts.asked(), counts.refused())
        finally:
            self.free.append(counts)

    def fork(self, words, given, tries, step):
        """A run that reads the file `given` and forks at each step-th request; what comes of those goes to the file `tries`."""
        counts = self.free.pop()
        try:
            counts.begin(0)
            environment = {**counts.environment(self.library), "TRIES": tries, "STEP": str(step)}
            with open(given, "rb") as file:
                ran = outcome(words, stdin=file, env=environment, timeout=cases_of.PATIENCE)
            return Ran(*ran, counts.asked(), counts.refused())
        finally:
            self.free.append(counts)

    def all_of(self, words, given):
        """The run to which nothing is refused, and those to which each of its requests is, in turn."""
        whole = self.run(words, given, 0)
        numbers = range(1, whole.asked + 2)
        return whole, zip(numbers, self.pool.map(lambda number: self.run(words, given, number), numbers))


# ---- files of cases


# Requests that are refused at most of a file, evenly over all that it makes: an instance, a map or a reader is met by
# each kind of case many times.
MOST_OF_A_FILE = 1_500

# Longer files of whose requests each is refused all the same: steps of an instance, and requests of people and tools.
IN_FULL = {"api", "instance"}

# What memory.c says of a try: its request and the bytes that were printed before it, what is printed then, the status.
TRY = re.compile(rb"\x01 (\d+) (\d+)\n(.*?)\x02 (\d+)\n", re.DOTALL)

FRAME = re.compile(r"to \S+ ")
MERGE = re.compile(r"> map take (.+) at 0; merge (.+), .+ at 0; held")
TAKEN = re.compile(r"Memory \{ taken: (\d+) \}")
MOMENT = re.compile(r"^(holds \d+ \d+) at \S+$", re.MULTILINE)

# How the members of a cluster stand behind a line of a schedule, and one that found no memory.
REFUSED_LINE = "no memory at "
STANDING = re.compile(rf"(?:{REFUSED_LINE})?line \d+: (.*), (\d+) frames")
MEMBER = re.compile(r"\S+ (\d+) (\d+) at (\S+)((?: uncalm)?(?: lossy)?)")


def line_of_reply(status, body):
    """How am_cases prints a reply."""
    head = rf"HTTP/1.1 {status}\r\ncontent-type: application/json\r\ncontent-length: {len(body)}\r\nconnection: close\r\n\r\n"
    return head + body


RAN_BACK = line_of_reply("500 Internal Server Error", '"clock ran back"')
LOGGED, NOT_LOGGED = line_of_reply("200 OK", '{"logged":true}'), line_of_reply("200 OK", '{"logged":false}')


def without_frames(lines):
    return [line for line in lines if not FRAME.match(line)]


def standing_of(line):
    """How a line of `steps` says that a cluster stands: of each member what it holds, its moment and whether it is uncalm or
    lossy; and the frames that fly."""
    row = STANDING.fullmatch(line)
    members = [MEMBER.fullmatch(it) for it in row[1].split(", ")]
    return [(int(it[1]), int(it[2]), it[3], it[4]) for it in members], int(row[2])


def is_between(found, before, after):
    """Whether a member stands as before a line, or with a part of what it leaves."""
    held = all(min(ends) <= it <= max(ends) for it, *ends in zip(found[:2], before[:2], after[:2]))
    return held and found[2] in (before[2], after[2]) and found[3] in (before[3], after[3])


def is_at_most(found, wanted):
    """Whether members hold no more than is wanted of each, and no more frames are on their way."""
    return found[1] <= wanted[1] and all(it[0] <= most[0] and it[1] <= most[1] for it, most in zip(found[0], wanted[0]))


def is_line_made_again(lines, wanted):
    """Whether a line of a schedule found no memory and was made once more: what stood in between is what stood before it, or a
    part of what it leaves without a frame of it; and the rest is as wanted, but for frames that never flew, and what these
    would have brought."""
    told = [at for at, line in enumerate(lines) if line.startswith(REFUSED_LINE)]
    if len(told) != 1 or len(lines) != len(wanted) + 1 or not all(STANDING.fullmatch(line) for line in lines):
        return False
    at = told[0]
    found, goal = [standing_of(line) for line in lines], [standing_of(line) for line in wanted]
    stood, newborn = found.pop(at), ([(0, 0, "least", "") for _ in goal[0][0]], 0)
    before = found[at - 1] if at > 0 else newborn
    is_part = all(is_between(*member) for member in zip(stood[0], before[0], goal[at][0]))
    rest = list(zip(found[at:], goal[at:]))
    never_flew = rest[0][0][1] < rest[0][1][1]
    is_rest = rest[0][0][0] == rest[0][1][0] and all(row[0] == want[0] or never_flew for row, want in rest)
    is_rest = is_rest and all(is_at_most(*both) for both in rest)
    return lines[:at] == wanted[:at] and is_part and stood[1] == before[1] and is_rest


def how_refused(lines, wanted):
    """What the lines of a case say of a request that was refused; None where they are not right."""
    if lines == wanted:
        return "as wanted"
    if is_line_made_again(without_frames(lines), without_frames(wanted)):
        return "made again"
    found, text = "".join(f"{line}\n" for line in lines), "".join(f"{line}\n" for line in wanted)
    begun, memory, again = found.partition("! Memory\n")
    if memory:
        # a step says how many versions it took, and what is held then
        told = TAKEN.search(begun)
        begun = begun[: told.start()] if told else begun
        if told and int(told[1]) > 0:
            return "something stands" if without_frames(again.splitlines()) == without_frames(wanted) else None
        # the moment of a step that found no memory stands, also where the step is then refused
        if told and MOMENT.sub(r"\1", again) == MOMENT.sub(r"\1", text):
            return "made again"
        return "made again" if again == text and text.startswith(begun) else None
    return None


def how_merged(lines, wanted):
    """Of a merge that found no memory, that it tells how many versions it took, and that the map holds those of them that are
    greater; made again it is as wanted."""
    words = MERGE.fullmatch(lines[0])
    for taken, held in enumerate(words.groups() if words else []):
        if lines[1:] == ["Changed", f"MergeError {{ taken: {taken} }}", f"1 held, {held}", "! Memory", *wanted]:
            return f"merged {taken}"
    return None


def how_called(lines, wanted):
    """What the lines of a request for decisions say of one that found no memory behind a step, which stands: of a call whose
    last step has a later moment than its first, that is before it where it is made again; of a notice, that its frame isn't
    sent, or that its entry is there already."""
    words, found = lines[0], lines[1:]
    if ", then " in words and found == ["! Memory", RAN_BACK]:
        return "too late again"
    if wanted[:1] == [LOGGED] and found == [LOGGED]:
        return "unsent"
    return "something stands" if wanted[:1] == [LOGGED] and found == ["! Memory", NOT_LOGGED] else None


def answers_of(output):
    """The lines that a program printed, by case; and whether it said before the first that its input found no memory."""
    found, is_told = [], False
    for line in output.decode().splitlines():
        if line.startswith("> "):
            found.append([line])
        elif found:
            found[-1].append(line)
        else:
            is_told = line == "! Memory"
    return found, is_told


Try = collections.namedtuple("Try", "number status cases found is_told")


def tries_of_file(path, output, cases):
    """The tries of a run that printed this: each with the case in which its request was refused and the one after it."""
    starts = [it.start() for it in re.finditer(rb"^> ", output, re.MULTILINE)] or [0]
    with open(path, "rb") as file:
        rows = TRY.findall(file.read())
    for number, printed, text, status in rows:
        before = output[: int(printed)]
        begun = bisect.bisect_left(starts, len(before))
        # (while the input is read no case has begun)
        first = max(begun - 1, 0)
        found, is_told = answers_of(before[starts[first] :] + text)
        yield Try(int(number), int(status), cases[first : begun + 1], found, is_told)


def judge_try(tried):
    """What a try says of the request that was refused; None where it isn't right."""
    if tried.status != 0 or len(tried.found) != len(tried.cases):
        return None
    found = [(lines, wanted_of(case)) for case, lines in zip(tried.cases, tried.found)]
    kinds = [how_refused(lines[1:], wanted) or how_merged(lines, wanted) or how_called(lines, wanted) for lines, wanted in found]
    if any(kind != "as wanted" for kind in kinds[0 if tried.is_told else 1 :]):
        return None
    if tried.is_told:
        return "made again"
    return "not needed" if kinds[0] == "as wanted" else kinds[0]


def wanted_of(case):
    return [line for _, line in case.wanted]


# Cases that make a call over and over, each read or write of it failing in turn, and keepers of merged maps, which go on behind a
# merge that found no memory. A refused request shows in one of many answers there; the cases beside them try the same calls once.
MADE_OFTEN = re.compile(r"(ask|connect) .*each (read|write) .*|keeper .* merged with .*", re.DOTALL)


def try_cases(lanes, folder, name):
    """The tries of a file of cases: how many requests it makes, what was wrong, and how many tries there are of each kind."""
    # connections come whole: in pieces they ask for so much that the requests of what else happens were hardly met
    once = [it for it in cases_of.read_cases(f"{TOP}/cases/{name}.txt") if not MADE_OFTEN.match(it.words)]
    cases = [cases_of.Case(0, "whole", {}), *once]
    words, given, tries = [cases_of.CASES], f"{folder}/{name}.cases", f"{folder}/{name}.tries"
    with open(given, "w", encoding="utf-8") as file:
        file.write("".join(f"{case.words}\n" for case in cases))
    asked = lanes.run(words, b"".join(f"{case.words}\n".encode() for case in cases), 0).asked
    step = 1 if name in IN_FULL else max(1, -(-asked // MOST_OF_A_FILE))
    whole = lanes.fork(words, given, tries, step)
    faults, kinds = [], collections.Counter()
    found = [lines[1:] for lines in answers_of(whole.output)[0]]
    if (whole.status, whole.asked, found) != (0, asked, [wanted_of(case) for case in cases]):
        faults.append(f"nothing refused: status {whole.status}, {whole.asked} requests and not {asked}, {whole.error}")
    for tried in tries_of_file(tries, whole.output, cases):
        kind = judge_try(tried)
        kinds[kind] += 1
        if kind is None:
            faults.append(f"{tried.number}: {differing(tried)}")
    if not kinds["made again"] or kinds.total() != len(range(1, asked + 1, step)):
        faults.append(f"{kinds.total()} tries, and no case of it may have been refused a request")
    return asked, faults, kinds


def test_cases(lanes, folder):
    """Each file of cases that is not about large inputs, by its program."""
    names = sorted(set(cases_of.SUBJECTS) - cases_of.LARGE)
    for name, (asked, faults, kinds) in zip(names, lanes.pool.map(lambda name: try_cases(lanes, folder, name), names)):
        said = ", ".join(f"{count} {kind}" for kind, count in sorted(kinds.items(), key=str))
        settle(f"cases/{name}.txt", faults, f"{kinds.total()} of {asked} requests: {said}")


def differing(tried):
    """What is told of a try that isn't right: its first case that is answered otherwise."""
    for case, lines in zip(tried.cases, tried.found):
        if how_refused(lines[1:], wanted_of(case)) is None:
            return f"line {case.line}, wanted {wanted_of(case)}, found {lines[1:]}"
    return f"status {tried.status}, {len(tried.found)} of {len(tried.cases)} cases"


# ---- the program


def tells_memory(words, given, error):
    """Whether the line says that memory ran out, for replay with one of the schedule's lines, or 0 where it was at none."""
    if "--log" in words:
        return re.fullmatch(r"am_tool: (\S+ )?Memory\n", error) is not None
    if words[0] != "replay":
        return error == MEMORY
    told = re.fullmatch(r"am_tool: Memory(?: (\d+))?\n", error)
    return bool(told) and int(told[1] or 0) <= given.count(b"\n")


def test_jobs(lanes, folder):
    for file, data in FILES.items():
        with open(f"{folder}/{file}", "wb") as out:
            out.write(data)
    for place, (words, given, wanted) in enumerate(JOBS):
        name = f"am_tool {' '.join(words)}, {place}"
        words = [word.format(folder=folder) for word in words]
        if run([words[0], "--help"])[0] != 0:
            print(f"{name}: am_tool has no {words[0]}, so this is not tried")
            continue
        whole, runs = lanes.all_of([members.program, *words], given)
        faults = []
        if (whole.status, whole.output, whole.error, whole.refused) != (0, wanted, "", 0) or whole.asked == 0:
            faults.append(f"nothing refused: {whole}")
        not_needed = 0
        for number, ran in runs:
            found, refused = (ran.status, ran.output, ran.error), int(number <= whole.asked)
            if refused and ran.refused == 1 and found[:2] == (4, b"") and tells_memory(words, given, ran.error):
                continue
            if refused or ran.refused != 0 or found != (0, wanted, ""):
                # what is asked for again, in a smaller size, is no want of memory; nor is it where a step of a schedule
                # makes the bytes of a Delta for which there is no peer, or a settle those of frames that never fly
                if ran.refused == 1 and found == (0, wanted, "") and (ran.asked > whole.asked or words[0] == "replay"):
                    not_needed += 1
                else:
                    faults.append(f"{number}: {ran}")
        settle(name, faults, f"{whole.asked} requests, of which {not_needed} are not needed")


# ---- a member


def post(value):
    return request("POST", "/api/v2/silences", json.dumps(silence_of_job(value)).encode())


def member_under(library, folder, peer):
    """The member `m` of a peer `p`, and the counts of its requests."""
    counts = Counts(folder)
    options = {"options": members.ALL_LINES, "env": counts.environment(library)}
    return Member("m", *free_ports(1), [("p", peer)], folder, **options), counts


def test_starts(folder, library):
    """A start that finds no memory says so, and leaves both files as they were."""
    member, counts = member_under(library, folder, free_ports(1)[0])
    for path, data in ((member.sil, SECOND), (member.nfl, ENTRY)):
        with open(path, "wb") as file:
            file.write(data)
    faults, number, not_needed = [], 0, 0
    while True:
        number += 1
        counts.begin(number)
        listens = member.start()
        if listens:
            # the loop makes its room behind the line of the start: a member that finds none says so there, and ends
            with contextlib.suppress(subprocess.TimeoutExpired):
                member.process.wait(0.3)
            ended = member.process.poll()
        status = member.kill() if listens else member.end()
        refused = counts.refused()
        if listens and refused == 1 and ended in (3, 4):
            if member.lines[1:] not in (["am_tool: Accept OutOfMemory"], ["am_tool: Memory"]):
                faults.append(f"{number}: status {status}, {member.lines}")
            continue
        if listens and refused == 0:
            break
        if listens and refused == 1 and member.lines[0].endswith("loaded 1 silences, 1 entries"):
            # what is asked for again, in a smaller size, is no want of memory
            not_needed += 1
            continue
        told = len(member.lines) == 1 and re.fullmatch(r"am_tool: ((Silences|Log) )?Memory", member.lines[0])
        if listens or refused != 1 or status != 4 or not told:
            faults.append(f"{number}: status {status}, {member.lines}, {refused} refused")
        if number > 100_000:
            faults.append("there is no end of its requests")
            break
        found = ([bytes_of(path) for path in (member.sil, member.nfl)], sorted(os.listdir(folder)))
        if found[0] != [SECOND, ENTRY] or any(name.endswith(".new") for name in found[1]):
            faults.append(f"{number}: the files are others: {found}")
    if number == 1:
        faults.append("no request was refused")
    if not_needed > 1:
        faults.append(f"{not_needed} requests are not needed, and 1 was to be at most")
    settle("am_tool instance, its start", faults, f"{number - 1} requests, of which {not_needed} are asked again")


# What a member may print where a request was refused while it served a connection.
TOLD = re.compile(
    r"am_tool: (Frame Memory|Step Memory \d+|Unsent Memory \d+|(Silences|Log) Memory|Send Memory \d+|Memory)"
)


def version(updated):
    """A version of silence `d`, which is live until the year 2255."""
    inner = field(1, b"d") + field(2, field(2, b"job") + field(3, b"d"))
    inner += field(3, timestamp(10)) + field(4, timestamp(8_000_000_000)) + field(5, timestamp(updated))
    return field(1, inner) + field(2, timestamp(9_000_000_000))


def test_connections(folder, library):
    """A member that finds no memory for a connection says so, and takes the next one."""
    peer = silent_peer()
    member, counts = member_under(library, folder, peer.getsockname()[1])
    if not member.start():
        return settle("am_tool instance", [f"it does not listen: {member.lines}"])
    one = json.loads(parted(member.send(post("one")))[1])["silenceID"]
    try:
        for name, data, right in [
            ("a list", lambda k: request("GET", "/api/v2/silences"), b"HTTP/1.1 200 "),
            ("a filter", lambda k: request("GET", "/api/v2/silences?filter=job%3D~o.e"), b"HTTP/1.1 200 "),
            ("one silence", lambda k: request("GET", f"/api/v2/silence/{one}"), b"HTTP/1.1 200 "),
            ("a post", lambda k: post(f"post {k}"), b"HTTP/1.1 200 "),
            ("a path that is none", lambda k: request("GET", "/nowhere"), b"HTTP/1.1 404 "),
            ("an end of none", lambda k: request("DELETE", "/api/v2/silence/none"), b"HTTP/1.1 404 "),
            ("a Delta", lambda k: greeting("p") + delta("sil", version(100 + k)), b""),
            ("a Push", lambda k: greeting("p") + EMPTY_PUSH, b""),
            ("a Tick", lambda k: greeting("p") + TICK, b""),
        ]:
            refuse_all(member, counts, name, data, right)
    except (OSError, ValueError, TypeError) as error:
        settle("am_tool instance", [f"{error!r}, status {member.process.poll()}, {member.lines[-3:]}"])
    member.kill()
    peer.close()


def refuse_all(member, counts, name, data, right):
    """Sends one connection after the other, each with a later request refused, until one meets none."""
    faults, number = [], 0
    while not faults:
        number += 1
        before, told = member.listed(), len(member.lines)
        counts.refuse_next(number)
        reply = member.send(data(number))
        # what is done behind the reply is done before the next connection is taken
        member.send(b"")
        refused = counts.refused()
        counts.refuse_none()
        after = member.listed()
        lines = member.lines_since(told)
        if member.process.poll() is not None or after is None:
            faults.append(f"{number}: status {member.process.poll()}, {lines}")
        if not refused_rightly(reply, right, lines):
            faults.append(f"{number}: {reply!r}, {lines}, {refused} refused")
        if any(silence not in (after or []) for silence in before or [] if silence["id"] != "d"):
            faults.append(f"{number}: silences are gone")
        if refused == 0 or number > 10_000:
            if lines or not reply.startswith(right):
                faults.append(f"{number}: nothing was refused, and {reply!r}, {lines}")
            break
    if number < 3:
        faults.append("hardly a request was refused")
    settle(f"am_tool instance, {name}", faults, f"{number - 1} requests")


def refused_rightly(reply, right, lines):
    """Whether a reply is the right one or says that memory ran out, and what was printed is of memory alone."""
    no_memory = b'HTTP/1.1 500 Internal Server Error\r\ncontent-type: application/json\r\ncontent-length: 15\r\n'
    no_memory += b'connection: close\r\n\r\n"out of memory"'
    is_reply = reply.startswith(right) if right else reply == b""
    return (is_reply or reply == no_memory) and all(TOLD.fullmatch(line) for line in lines)


def main():
    members.choose("refused memory", sys.argv[1:])
    members.must_be_there("refused memory", cases_of.CASES)
    with tempfile.TemporaryDirectory() as folder:
        library = members.compiled("refused memory", "memory", folder, "no memory can be refused")
        lanes = Lanes(folder, library)
        test_cases(lanes, folder)
        test_jobs(lanes, folder)
        for test in (test_starts, test_connections):
            place = f"{folder}/{test.__name__}"
            os.mkdir(place)
            test(place, library)
    finish("refused memory")


if __name__ == "__main__":
    main()
