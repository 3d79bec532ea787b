#!/usr/bin/env python3
"""Gives the built am_tool bytes and words that nobody means, and sees that it answers as docs/FORMATS.md says.

    tests/fuzz.py [PROGRAM] [--rounds N] [--seed S]

PROGRAM is crates/am_tool/out/am_tool if it isn't given; ./am_tool and rt ci build it. A round is some thousand inputs, in
less than a minute; each input follows from the seed (1), its kind and its number, so a run is made again by the same
words. Random bytes, good input with bytes changed, and rows of the worst kinds go to `fold`, `show` and `replay`, and in logs
beside a file to the first two; words to the command line; requests and frames to a member. At fault is a signal, a status that
is not documented, a hang, output beside a refusal, a line of another form, a fold that folded again is another, and a member
that doesn't answer a good request afterwards. Prints each input that is answered so, and at the end how many inputs passed.
"""

import argparse
import concurrent.futures
import json
import os
import random
import re
import tempfile

from lib import members, tally
from lib.members import LANES, run
from lib.samples import silence_of_job
from lib.wire import TICK, delimited, field, frame, varint

# How many inputs of each kind a round has.
COUNTS = {"rows": 2400, "logs": 400, "schedules": 800, "words": 400, "requests": 2400, "frames": 1600}

WIRE = (
    r"Wire (TooLarge|(Truncated|LongVarint|FieldNumber|WireType|WrongType|NotUtf8|Timestamp|MatcherType|MissingMessage) \d+)"
)
FRAME = rf"Frame (Kind|Length|UnknownState|{WIRE})"
ROW_FAULT = re.compile(rf"am_tool: ({WIRE}|TooLarge|DuplicateKey)\n")
SCHEDULE_FAULT = re.compile(r"am_tool: (Schedule (NotUtf8|Cluster|Words|Number|Name) \d+|TooLarge)\n")
LOG_FAULT = re.compile(rf"am_tool: [!-~]+/a\.log ({WIRE}|TooLarge)\n")
FILE_FAULT = re.compile(r"am_tool: [!-~]+ (File \w+|Read \d+)\n")
MEMBER_LINE = re.compile(
    rf"am_tool: (Read \d+|Write \d+|TooLarge|{FRAME}|UnknownName|Step ({FRAME}|MomentBack -?\d+ \d+|UnknownPeer)"
    r"|Unsent Limit \d+|Connect \w+ \d+|Send Write \d+ \d+)"
)
SHOWN = re.compile(rb"(sil \S+ (pending|active|expired)|nfl \S+ \S+ \S+ \d+ \S+ \S+)")
REPLY = re.compile(
    rb"HTTP/1\.1 (200|400|404|405|413|431|500|501) [A-Za-z ]+\r\ncontent-type: (?P<type>application/json|text/(?:plain|html);[a-z0-9 .;=-]+)\r\n"
    rb"(?:(?:content-security-policy|x-content-type-options|referrer-policy|cache-control): [^\r\n]+\r\n)*"
    rb"content-length: (?P<length>\d+)\r\n(allow: GET, (POST|DELETE|HEAD)\r\n)?connection: close\r\n\r\n"
)

# What a member is asked of itself.
ITSELF = [b"/", b"/-/healthy", b"/-/ready", b"/api/v2/status", b"/api/v2/receivers", b"/metrics", b"/?a", b"/-/", b"/metrics?" + b"b" * 9_000]


def settle(name, fault, data):
    """Counts an input, and prints one that is at fault."""
    if not tally.count(fault is None) and tally.failed <= 20:
        shown = data if len(data) <= 2000 else data[:1000] + b".." + data[-200:]
        print(f"{name}: {fault}\n  {len(data)} bytes: {shown!r}", flush=True)


# ---- bytes


def moment(draw):
    """A timestamp, mostly one of some moments that come often."""
    seconds = draw.choice([0, 1, 10, 20, 100, 200, 253_402_300_799, 253_402_300_800, (1 << 64) - 62_135_596_800, 1 << 63])
    out = draw.choice([b"", b"\x08" + varint(seconds)])
    if draw.random() < 0.2:
        out += b"\x10" + varint(draw.choice([0, 5, 999_999_999, 1_000_000_000, (1 << 64) - 1]))
    return out


def text(draw):
    return draw.choice([b"", b"a", b"b", b"job", b"x", b"-", b"a b", "ü".encode(), b"\xff", b"a" * 300, b"(", b".*", b"\0"])


def matcher(draw):
    out = b""
    if draw.random() < 0.4:
        out += b"\x08" + varint(draw.choice([0, 1, 2, 3, 4, 1 << 32]))
    return out + field(2, text(draw)) + field(3, text(draw))


def silence(draw):
    parts = [field(1, draw.choice([b"a", b"b", b"c", text(draw)]))]
    parts += [field(2, matcher(draw)) for _ in range(draw.choice([0, 1, 1, 2, 5]))]
    parts += [field(number, moment(draw)) for number in (3, 4, 5) if draw.random() < 0.95]
    if draw.random() < 0.2:
        parts.append(field(7, field(1, text(draw)) + field(2, text(draw)) + field(3, moment(draw))))
    parts += [field(number, text(draw)) for number in (8, 9) if draw.random() < 0.3]
    return stir(draw, parts)


def entry(draw):
    parts = [field(1, text(draw)), field(2, field(1, text(draw)) + field(2, text(draw)) + b"\x18" + varint(draw.randrange(3)))]
    parts += [field(5, moment(draw))]
    hashes = [draw.choice([0, 1, 2, (1 << 64) - 1]) for _ in range(draw.randrange(4))]
    parts.append(field(6, b"".join(map(varint, hashes))))
    parts += [b"\x38" + varint(number) for number in hashes[:2]]
    return stir(draw, parts)


def stir(draw, parts):
    """The parts, mostly in their order; sometimes with one that nobody knows, one twice, or one without its end."""
    if draw.random() < 0.1:
        parts.append(draw.choice([b"\x78\1", field(99, b"zz"), b"\x7d1234", b"\x0b", b"\0\0", varint(1 << 60) + b"\0"]))
    if draw.random() < 0.1:
        parts.append(draw.choice(parts))
    if draw.random() < 0.1:
        draw.shuffle(parts)
    return b"".join(parts)


def version(draw, state):
    inner = silence(draw) if state == "sil" else entry(draw)
    return field(1, inner) + (field(2, moment(draw)) if draw.random() < 0.9 else b"")


def row(draw, state):
    """Versions, each behind its length."""
    versions = [version(draw, state) for _ in range(draw.choice([0, 1, 2, 3, 10]))]
    return b"".join(map(delimited, versions))


def worst(draw):
    """Rows of the worst kinds."""
    kind = draw.randrange(9)
    if kind == 0:
        return varint(draw.choice([67_108_864, 67_108_865, 1 << 32, (1 << 64) - 1])) + bytes(draw.randrange(40))
    if kind == 1:
        return b"\xff" * draw.randrange(1, 30) + b"\1"
    if kind == 2:
        return b"\2\x0a\0" * draw.randrange(1, 400)
    if kind == 3:
        inner = field(1, b"a") + b"\x12\0" * draw.randrange(1, 30_000)
        return delimited(field(1, inner))
    if kind == 4:
        inner = field(1, b"g") + field(2, b"") + field(6, b"\1" * draw.randrange(1, 60_000))
        return delimited(field(1, inner))
    if kind == 5:
        inner = field(1, b"i" * draw.randrange(1, 200_000))
        return delimited(field(1, inner))
    if kind == 6:
        return b"\x80" * draw.randrange(9) + b"\0" * draw.randrange(9)
    if kind == 7:
        nested = b""
        for _ in range(draw.randrange(200)):
            nested = field(1, nested)
        return delimited(nested)
    versions = [field(1, field(1, b"%06d" % draw.randrange(10**6))) for _ in range(draw.randrange(2000))]
    return b"".join(map(delimited, versions))


def changed(draw, data, changes=4):
    """The bytes with some changed, put in, taken out, doubled or cut off."""
    data = bytearray(data)
    for _ in range(draw.randrange(1, changes + 1)):
        at = draw.randrange(len(data) + 1)
        kind = draw.randrange(6)
        if kind == 0 and at < len(data):
            data[at] = draw.randrange(256)
        elif kind == 1 and at < len(data):
            data[at] ^= 1 << draw.randrange(8)
        elif kind == 2:
            data[at:at] = draw.randbytes(draw.randrange(1, 5))
        elif kind == 3:
            del data[at : at + draw.randrange(1, 5)]
        elif kind == 4:
            data[at:at] = data[at : at + draw.randrange(1, 40)]
        else:
            del data[at:]
    return bytes(data)


def some_row(draw, state):
    kind = draw.randrange(10)
    if kind == 0:
        return draw.randbytes(draw.randrange(200))
    if kind == 1:
        return worst(draw)
    if kind < 6:
        return changed(draw, row(draw, state))
    return row(draw, state)


# ---- the program


def fault_of_row(words, given):
    """What is wrong in how a row is answered, or None."""
    status, output, error = run(words, input=given)
    if status == 1:
        told = ROW_FAULT.fullmatch(error) and not (words[0] == "fold" and "DuplicateKey" in error)
        return None if told and not output else f"{words}: {status}, {output!r}, {error!r}"
    if status != 0 or error:
        return f"{words}: {status}, {output[:200]!r}, {error!r}"
    if words[0] == "show":
        wrong = [line for line in output.split(b"\n")[:-1] if not SHOWN.fullmatch(line)]
        return f"{words}: {wrong}" if wrong or not output.endswith(b"\n") and output else None
    again = run(words, input=output)
    if again != (0, output, ""):
        return f"{words}, folded again: {again[0]}, {again[1][:200]!r}, {again[2]!r}"
    shown = run(["show", *words[1:]], input=output)
    return None if (shown[0], shown[2]) == (0, "") else f"what was folded is not shown: {shown}"


def test_row(seed):
    draw = random.Random(seed)
    state = draw.choice(["sil", "nfl"])
    given = some_row(draw, state)
    if draw.random() < 0.1:
        state = "sil" if state == "nfl" else "nfl"
    now = draw.choice([0, 10**10, 15 * 10**10, 2 * 10**11, (1 << 64) - 1])
    return fault_of_row([draw.choice(["fold", "show"]), "--state", state, "--now", str(now)], given), given


def some_log(draw, state):
    """A log: blocks of rows and what stands behind them, sometimes with bytes changed."""
    batches = [some_row(draw, state) if draw.random() < 0.1 else row(draw, state) for _ in range(draw.randrange(5))]
    log = b"".join(b"\1" + len(batch).to_bytes(8, "little") + batch for batch in batches)
    log += draw.choice([b"", b"\0", b"\1", b"\0" + draw.randbytes(20), b"\1" + draw.randbytes(20)])
    return changed(draw, log) if draw.random() < 0.3 else log


def fault_of_log(file, state, log):
    """What is wrong in how a file is answered beside which a log stands, or None."""
    status, output, error = run(["fold", "--state", state, "--log", file])
    shown = run(["show", "--state", state, "--now", "0", "--log", file])
    if status == 1:
        told = LOG_FAULT.fullmatch(error) and not output and shown == (status, output, error)
        return None if told else f"{output!r}, {error!r}, {shown}"
    if (status, error, shown[0]) != (0, "", 0):
        return f"{status}, {error!r}, {shown}"
    again = run(["fold", "--state", state, "--now", "0"], input=output)
    return None if again == (0, output, "") else f"folded again: {again}"


def test_log(seed):
    draw = random.Random(seed)
    state = draw.choice(["sil", "nfl"])
    log = some_log(draw, state)
    with tempfile.TemporaryDirectory() as folder:
        for name, data in ("a", b""), ("a.log", log):
            with open(f"{folder}/{name}", "wb") as file:
                file.write(data)
        return fault_of_log(f"{folder}/a", state, log), log


SCHEDULES = [
    b"""cluster 100 15 a b c
sil s1 x 10 10 50 200 job m
sil s2 y 20 10 60 210 job m
nfl n1 g r 10 200 1,2 -
at 31 a from b s1 s2
at 31 a from b n1
save a
at 32 b pull a
at 33.5 deliver 1
at 34 deliver 2
lose 1
frames
stop c
at 40 c start
at 41 a post - 00112233445566778899aabbccddeeff 41 100 job x
at 42 a expire x
at 43 a mutes job=m
at 44 a notified g r 1,3 - 60
at 45 a decide g r 1,3 - 3600 yes
at 46 settle
timely 5 5
at 47 a show
at 48 a tick
""",
    b"cluster 1 1 a\nat 1 a show\n",
]

SCHEDULE_WORDS = b"a b c s1 n1 - 0 1 31 253402300799 253402300800 99999999999999999999 1.5 x=y settle deliver from % \xff".split()


def some_schedule(draw):
    lines = draw.choice(SCHEDULES).split(b"\n")
    for _ in range(draw.randrange(4)):
        at = draw.randrange(len(lines))
        kind = draw.randrange(4)
        if kind == 0:
            words = lines[at].split(b" ")
            words[draw.randrange(len(words))] = draw.choice(SCHEDULE_WORDS)
            lines[at] = b" ".join(words)
        elif kind == 1:
            lines.insert(at, draw.choice(lines))
        elif kind == 2:
            del lines[at]
            lines.append(b"")
        else:
            lines[at] = changed(draw, lines[at])
    given = b"\n".join(lines)
    if draw.random() < 0.1:
        given = draw.randbytes(draw.randrange(300))
    return given


def test_schedule(seed):
    given = some_schedule(random.Random(seed))
    status, output, error = run(["replay"], input=given)
    if status == 0 and not error and (not output or output.endswith(b"\n")):
        return None, given
    if status == 1 and not output and SCHEDULE_FAULT.fullmatch(error):
        return None, given
    return f"replay: {status}, {output[:200]!r}, {error!r}", given


WORDS = b"""fold show instance replay help --state --now --log --name --listen --peer --sil --nfl --retention --connections --help -h
sil nfl mem 0 5 -5 18446744073709551616 = == --state=sil --now=0 -- - a=b a=0 x=99999""".split()


def test_words(seed):
    """Words that start no member: it would not end."""
    draw = random.Random(seed)
    words = [draw.choice(WORDS) for _ in range(draw.randrange(7))]
    words = [changed(draw, word) if draw.random() < 0.2 else word for word in words]
    words = [word.replace(b"\0", b"") for word in words if word != b"instance" or draw.random() < 0.9]
    status, output, error = run(words, input=b"")
    shown = b" ".join(words)
    if status not in (0, 1, 2, 3):
        return f"{words}: {status}, {output[:200]!r}, {error!r}", shown
    # a mistake is told in the words of the command line's library, and nothing is printed beside it
    if status == 2 and (output or not error):
        return f"{words}: {status}, {output[:200]!r}, {error!r}", shown
    if status == 1 and not (SCHEDULE_FAULT.fullmatch(error) or ROW_FAULT.fullmatch(error)):
        return f"{words}: {status}, {error!r}", shown
    if status == 3 and not FILE_FAULT.fullmatch(error):
        return f"{words}: {status}, {error!r}", shown
    return None, shown


# ---- a member


GOOD = b"GET /api/v2/silences HTTP/1.1\r\n\r\n"

MOMENTS = """2000-01-01T00:00:00Z 0001-01-01T00:00:00Z 9999-12-31T23:59:59.999999999Z 9999-12-31T23:59:59-00:01
0000-12-31T23:30:00-01:00 1970-02-30T00:00:00Z 2000-01-01T24:00:00Z 2000-01-01T00:00:60Z 2000-01-01T00:00:00.Z
2000-01-01T00:00:00.0000000000000000001+23:59 2000-01-01t00:00:00z 2000-01-01""".split()

PATTERNS = ["x", "(", "a)|(b", "(a{100}){10}", ".*", "[" * 300, "(" * 300 + ")" * 300, "\\p{L}+", "(?i)ü", "x{999999999}", "\0"]

VALUES = [None, True, 0, -0.0, 1e300, "", "a", [], {}, [[]], "\ud800", "ü" * 50, 10**40]


def some_json(draw):
    """The body of a post, with parts that are odd."""
    kind = draw.randrange(12)
    depth = draw.choice([1, 100, 127, 128, 129, 10_000, 300_000])
    if kind == 0:
        return b"[" * depth + b"]" * draw.choice([0, depth])
    if kind == 1:
        return b'{"a":' * depth + b"1" + b"}" * depth
    if kind == 2:
        number = draw.choice([b"1e400", b"-1e400", b"1" * 400, b"0." + b"0" * 400 + b"1", b"-0", b"01", b"1.", b"1e", b"+1", b"NaN"])
        return b'{"comment":' + number + b"}"
    if kind == 3:
        return b'{"comment":"' + draw.choice([b"\\u0000", b"\\ud800", b"\\udc00\\ud800", b"\\x", b"\0", b"\xff", b"\\"]) + b'"}'
    body = silence_of_job("x")
    body["matchers"][0]["isRegex"] = draw.choice([True, False])
    body["matchers"][0]["value"] = draw.choice(PATTERNS)
    body["matchers"] *= draw.choice([0, 1, 1, 1, 2, 50])
    body["startsAt"], body["endsAt"] = draw.choice(MOMENTS), draw.choice(MOMENTS + [body["endsAt"]] * 10)
    if draw.random() < 0.3:
        body[draw.choice([*body, "id", "other"])] = draw.choice(VALUES)
    if draw.random() < 0.2:
        body.pop(draw.choice(list(body)))
    data = json.dumps(body, ensure_ascii=draw.random() < 0.8).encode("utf-8", "surrogatepass")
    return changed(draw, data) if kind == 4 else data


FILTERS = [b"job=x", b"job=~x", b"1a=x", b"a", b"a=", b"%66ilter=a=b", b"a=~(", b"a=~(a{100}){10}", b"a=%22", b"%zz", b"+a+!=+%00+", b"%FF"]


def some_request(draw):
    body = b""
    kind = draw.randrange(9)
    if kind == 0:
        return draw.randbytes(draw.randrange(300))
    if kind == 1:
        return worst_request(draw)
    if kind == 2:
        target = b"/api/v2/silences?" + b"&".join(b"filter=" + draw.choice(FILTERS) for _ in range(draw.randrange(1, 30)))
        head = b"GET " + target
    elif kind == 3:
        target = b"/api/v2/silence/" + draw.choice([b"a", b"%2F", b"", b"a/b", b"?", b"a" * 15_000, b"\xc3\xbc", b"../silences"])
        head = draw.choice([b"GET ", b"DELETE ", b"PUT ", b"HEAD "]) + target
    elif kind == 4:
        head = draw.choice([b"GET ", b"GET ", b"HEAD ", b"POST "]) + draw.choice(ITSELF)
    else:
        body = some_json(draw)
        head = draw.choice([b"POST", b"POST", b"POST", b"GET", b"PUT"]) + b" /api/v2/silences"
    length = draw.choice([len(body)] * 12 + [len(body) + 1, max(len(body) - 1, 0), 0])
    data = head + b" HTTP/1.1\r\ncontent-length: %d\r\n\r\n" % length + body
    return changed(draw, data) if draw.random() < 0.3 else data


def worst_request(draw):
    lengths = [b"1048576", b"1048577", b"999999999999999999", b"0000000000000000001", b"+1", b"-1", b"1, 1", b"", b"18446744073709551616"]
    return draw.choice(
        [
            b"GET / HTTP/1.1\r\n" + b"a: b\r\n" * draw.randrange(200) + b"\r\n",
            b"GET /" + b"a" * draw.randrange(40_000) + b" HTTP/1.1\r\n\r\n",
            b"POST /api/v2/silences HTTP/1.1\r\ncontent-length: " + draw.choice(lengths) + b"\r\n\r\n{}",
            b"POST /api/v2/silences HTTP/1.1\r\ntransfer-encoding: chunked\r\n\r\n0\r\n\r\n",
            b"\r\n" * draw.randrange(10_000),
            b"GET / HTTP/1.1\r\n" + b"x: " + b" " * draw.randrange(20_000) + b"\r\n\r\n",
            b"A" * draw.randrange(70_000),
            GOOD * draw.randrange(1, 50),
        ]
    )


def part(draw):
    state = draw.choice(["sil", "nfl"])
    key = state if draw.random() < 0.9 else draw.choice(["", "mem", "sil\0"])
    return field(1, key.encode()) + field(2, some_row(draw, state))


def some_frames(draw):
    """A greeting and frames behind it."""
    data = b"\0" + draw.choice([b"\1p"] * 20 + [b"\1m", b"\1q", b"\0", b"\1\xff", b"\xff\1" + b"p" * 255, b"\x80\2", b"\x81\0p"])
    for _ in range(draw.randrange(4)):
        kind = draw.randrange(12)
        if kind == 0:
            data += TICK
        elif kind == 1:
            data += draw.randbytes(draw.randrange(60))
        elif kind == 2:
            data += bytes([draw.randrange(6)]) + varint(draw.choice([0, 1, 4_194_304, 4_194_305, 67_108_864, 67_108_865, (1 << 64) - 1]))
        elif kind < 9:
            data += frame(1, part(draw))
        else:
            payload = b"".join(field(1, part(draw)) for _ in range(draw.randrange(3)))
            data += frame(draw.choice([2, 3]), payload)
    return changed(draw, data) if draw.random() < 0.3 else data


def fault_after(member, data, reply):
    """What is wrong in a reply, or in what is printed by then, or None."""
    lines = member.lines[1:]
    del member.lines[1 : len(lines) + 1]
    wrong = [line for line in lines if not MEMBER_LINE.fullmatch(line)]
    if wrong:
        return f"lines {wrong}"
    if member.process.poll() is not None:
        return f"the member ended with {member.process.returncode}"
    if reply:
        head = REPLY.match(reply)
        body = reply[head.end() :] if head else b""
        has_length = head and (len(body) == int(head["length"]) or data.startswith(b"HEAD ") and not body)
        if not has_length or data[0] < 0x20:
            return f"the reply {reply[:300]!r}"
        try:
            if body and head["type"] == b"application/json":
                json.loads(body)
        except ValueError:
            return f"no JSON: {body[:300]!r}"
    return None


def serves(member):
    """Whether a good request is answered."""
    try:
        return member.send(GOOD).startswith(b"HTTP/1.1 200 ")
    except OSError:
        return False


def test_member(seeds, make, folder):
    """Inputs to one member, one after the other; now and then a good request."""
    peer = members.silent_peer()
    member = members.Member("m", *members.free_ports(1), [("p", peer.getsockname()[1])], folder, members.ALL_LINES)
    if not member.start():
        return settle("am_tool instance", f"it does not listen: {member.lines}", b"")
    for number, seed in enumerate(seeds):
        draw = random.Random(seed)
        data = make(draw)
        at = draw.randrange(len(data) + 1)
        try:
            fault = fault_after(member, data, member.send(data[:at], data[at:]))
        except OSError as error:
            fault = f"{error!r}, status {member.process.poll()}"
        if fault is None and number % 20 == 0 and not serves(member):
            fault = "a good request is not answered behind it"
        settle(seed, fault, data)
        if fault is not None and not serves(member):
            member.kill()
            member.start()
    if not serves(member):
        settle("am_tool instance", "a good request is not answered in the end", b"")
    member.kill()
    peer.close()
    for state, path in (("sil", member.sil), ("nfl", member.nfl)):
        if os.path.exists(path):
            with open(path, "rb") as file:
                saved = file.read()
            settle(f"{state} that was saved", fault_of_row(["show", "--state", state, "--now", "0"], saved), saved)


def main():
    words = argparse.ArgumentParser(description=__doc__, formatter_class=argparse.RawDescriptionHelpFormatter)
    words.add_argument("program", nargs="?", default=members.program)
    words.add_argument("--rounds", type=int, default=1)
    words.add_argument("--seed", type=int, default=1)
    asked = words.parse_args()
    members.choose("fuzz", [asked.program])
    has_replay = run(["replay", "--help"])[0] == 0
    if not has_replay:
        print("am_tool has no replay, so no schedules are tried")
    seeds = lambda kind: [f"{kind} {asked.seed} {number}" for number in range(COUNTS[kind] * asked.rounds)]
    with tempfile.TemporaryDirectory() as folder, concurrent.futures.ThreadPoolExecutor(LANES) as pool:
        played = []
        for kind, make in (("requests", some_request), ("frames", some_frames)):
            os.mkdir(f"{folder}/{kind}")
            played.append(pool.submit(test_member, seeds(kind), make, f"{folder}/{kind}"))
        jobs = [("rows", test_row), ("logs", test_log), ("words", test_words)] + ([("schedules", test_schedule)] if has_replay else [])
        for kind, test in jobs:
            for seed, (fault, data) in zip(seeds(kind), pool.map(test, seeds(kind))):
                settle(seed, fault, data)
        for member in played:
            member.result()
    tally.finish("fuzz")


if __name__ == "__main__":
    main()
