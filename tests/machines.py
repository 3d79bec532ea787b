#!/usr/bin/env python3
"""Runs members of the built am_tool at several addresses, with and without a secret, as members on several machines have them.

    tests/machines.py [PROGRAM]

PROGRAM is crates/am_tool/out/am_tool if it isn't given; ./am_tool and rt ci build it. The machines are aliases of loopback,
127.0.0.2 and so on, and ::1. The seals of frames are made here anew, by Python's hmac, and challenges are read and given here, too:
a frame that is left out, moved, held back or played again is refused. Prints each case that fails, and at the end how many passed.
What is wanted is written by hand, from docs/FORMATS.md and docs/MEMBERS.md.
"""

import contextlib
import hashlib
import hmac
import os
import re
import socket
import sys
import tempfile
import threading
import time
from concurrent.futures import ThreadPoolExecutor

from lib import members
from lib.api import request, silence
from lib.members import ALL_LINES, PATIENCE, begun, eventually, free_ports, parted, received, run, sent, slowest, write
from lib.tally import check, compare, finish, try_each
from lib.wire import DELTA, PULL, PUSH, TICK, delimited, delta, field, frame, greeting, timestamp

TITLE = "members at several addresses"

# How many bytes a challenge has.
CHALLENGE = 32

# The most bytes of a frame's payload.
MOST_PAYLOAD = 64 << 20

# Secrets, and whom they are of.
SECRET, ANOTHER = b"sixteen bytes or more of it", b"sixteen bytes of another one"


def version():
    """A version of a silence that is live for long."""
    start, end = timestamp(1_700_000_000), timestamp(4_000_000_000)
    matcher = field(2, b"job") + field(3, b"db")
    silence = field(1, b"x") + field(2, matcher) + field(3, start) + field(4, end) + field(5, start) + field(8, b"me") + field(9, b"of b")
    return field(1, silence) + field(2, timestamp(4_000_432_000))


class Member(members.Member):
    """A member at an address."""

    def __init__(self, name, address, port, peers, folder, options=()):
        super().__init__(name, port, peers, folder, [*ALL_LINES, *options])
        self.address = address
        self.words[self.words.index("--listen") + 1] = word(address, port)

    def send(self, *pieces, close=True, at=None):
        return sent(at or (self.address, self.port), *pieces, close=close)

    def send_sealed(self, sender, *frames, secret=None, addressee=None, greets=None, at=None):
        """Frames go to it behind its challenge, each by its number."""
        return self.answer(sender if greets is None else greets, lambda challenge: [
            burst(secret or SECRET, challenge, sender, self.name if addressee is None else addressee, *frames)], at)

    def answer(self, greets, answer, at=None):
        """What `answer` makes of its challenge goes to it behind a greeting."""
        return answered(at or (self.address, self.port), opening(greets), answer)

    def ask(self, method, path, body=b"", host=None, at=None):
        host = host or word(self.address, self.port)
        return parted(self.send(request(method, path, body, host), close=False, at=at))

    def say(self, comment):
        """The status of the reply to a post with a comment."""
        return self.post(silence("db", comment))[0]

    def told(self, words):
        """Whether it has printed a line of these words."""
        return eventually(lambda: words in self.lines)

    def told_of(self, words, peer):
        """Whether it has printed a line of these words about a peer."""
        return eventually(lambda: any(line.startswith(f"{words}: ") and f" (peer {peer}, " in line for line in self.whole_lines))

    def taken(self):
        """How many frames of peers it has taken, by its figures."""
        text = self.ask("GET", "/metrics")[1].decode()
        return sum(float(found) for found in re.findall(r"^maityrunga_frames_taken_total\{.*\} (\S+)$", text, re.M))


def word(address, port):
    """An address and a port as a word of the command line."""
    return f"[{address}]:{port}" if ":" in address else f"{address}:{port}"


def sealed(secret, challenge, number, sender, addressee, text):
    """A frame behind its sum and its length, as the one of a number in the connection of a challenge."""
    names = b"".join(len(name).to_bytes(8, "big") + name for name in (sender.encode(), addressee.encode()))
    sum_of = hmac.new(secret, challenge + number.to_bytes(8, "big") + names + text, hashlib.sha256).digest()
    return sum_of + len(text).to_bytes(4, "big") + text


def opening(sender):
    """The first bytes of a sealed connection."""
    return b"\1" + greeting(sender)


def burst(secret, challenge, sender, addressee, *frames):
    """Frames from the first one on, behind a challenge."""
    return b"".join(sealed(secret, challenge, number, sender, addressee, text) for number, text in enumerate(frames))


def challenge_of(stream):
    """The challenge that comes over a connection; fewer than 32 bytes, where it ends before."""
    challenge = b""
    with contextlib.suppress(ConnectionError):
        while len(challenge) < CHALLENGE and (piece := stream.recv(CHALLENGE - len(challenge))):
            challenge += piece
    return challenge


def answered(at, first, answer, close=True):
    """What comes back behind the challenge of a connection that begins so, where the bytes that `answer` makes of the challenge go
    behind that, in pieces; none of them where there is no challenge."""
    with socket.create_connection(at, timeout=PATIENCE) as stream:
        stream.setsockopt(socket.IPPROTO_TCP, socket.TCP_NODELAY, 1)
        with contextlib.suppress(OSError):
            stream.sendall(first)
            challenge = challenge_of(stream)
            for piece in answer(challenge) if len(challenge) == CHALLENGE else []:
                stream.sendall(piece)
            if close:
                stream.shutdown(socket.SHUT_WR)
        return received(stream)


def written(path, data, mode=0o600):
    write(path, data)
    os.chmod(path, mode)
    return path


def stop(*all_of):
    for member in all_of:
        member.kill()


def beside(member, deed):
    """How long the slowest request took beside a deed, and what the deed gave."""
    with ThreadPoolExecutor(1) as lane:
        found = lane.submit(deed)
        return slowest(member, lambda: not found.done()), found.result()


def a_long_frame(folder):
    """A sealed frame of 64 MiB is summed as it comes: at its end nobody waits for its sum."""
    secret = written(f"{folder}/long", SECRET)
    a, open_ = [Member(name, "127.0.0.2", free_ports(1)[0], [("p", word("127.0.0.9", 9))], folder, options)
                for name, options in [("a", ["--time-limit", "60", "--secret", secret]), ("o", ["--time-limit", "60"])]]
    begun(a), begun(open_)
    text = frame(DELTA, bytes(MOST_PAYLOAD))
    wrong = lambda challenge: [os.urandom(32), len(text).to_bytes(4, "big"), text]
    # (to the open one all but the last byte goes, so that nothing of the frame is read; whatever else the machine does may come
    # beside one of them)
    waits = []
    for _ in range(3):
        plain, _ = beside(open_, lambda: open_.send(greeting("p"), text[:-1]))
        slow, rest = beside(a, lambda: a.answer("p", wrong))
        compare("nothing comes back", rest, b"")
        waits.append((slow, plain))
    check("a frame with a wrong sum is refused", a.told_of("am_tool: Seal Sum", "p"), a.whole_lines)
    check("nobody waits for its sum", any(slow < max(0.1, 4 * plain) for slow, plain in waits), waits)
    a.send_sealed("p", text)
    check("with a right sum it is read", a.told_of("am_tool: Seal NotOneFrame", "p"), a.whole_lines)
    stop(a, open_)


def who_hears_whom(folder):
    """Two with a secret, one without and one with another."""
    secret, another = written(f"{folder}/secret", SECRET + b"\n"), written(f"{folder}/another", ANOTHER)
    ports = free_ports(4)
    places = dict(zip("abcd", zip(["127.0.0.2", "127.0.0.3", "::1", "127.0.0.4"], ports)))
    options = {"a": ["--secret", secret], "b": ["--secret", secret], "c": [], "d": ["--secret", another]}

    def member(name):
        peers = [(peer, word(*place)) for peer, place in places.items() if peer != name]
        return Member(name, *places[name], peers, folder, options[name])

    a, b, c, d = [begun(it) for it in [member(name) for name in "abcd"]]
    compare("who listens", a.lines[0], f"am_tool: a listens on 127.0.0.2:{ports[0]}, peers b=127.0.0.3:{ports[1]} "
            f"c=[::1]:{ports[2]} d=127.0.0.4:{ports[3]}; loaded 0 silences, 0 entries")
    compare("a takes a post", a.say("of a"), 200)
    check("b hears a", eventually(lambda: b.comments() == ["of a"]), b.lines)
    check("c tells of a", c.told("am_tool: Frame Kind"), c.lines)
    check("d tells of a", d.told_of("am_tool: Seal Sum", "a"), d.whole_lines)
    compare("b takes a post", b.say("of b"), 200)
    check("a hears b", eventually(lambda: a.comments() == ["of a", "of b"]), a.lines)
    compare("c takes a post", c.say("of c"), 200)
    check("a tells of c", a.told("am_tool: Seal Missing"), a.lines)
    check("b tells of c", b.told("am_tool: Seal Missing"), b.lines)
    check("d tells of c", d.told("am_tool: Seal Missing"), d.lines)
    compare("d takes a post", d.say("of d"), 200)
    check("a tells of d", a.told_of("am_tool: Seal Sum", "d"), a.whole_lines)
    check("b tells of d", b.told_of("am_tool: Seal Sum", "d"), b.whole_lines)
    compare("what each shows", [member.comments() for member in (a, b, c, d)], [["of a", "of b"]] * 2 + [["of c"], ["of d"]])
    compare("what c tells", set(c.lines[1:]), {"am_tool: Frame Kind"})
    of_c = f"am_tool: Send Challenge [::1]:{ports[2]} 0"
    check("b tells that c gives no challenge", b.told(of_c), b.lines)
    compare("what b tells", set(b.lines[1:]), {"am_tool: Seal Missing", "am_tool: Seal Sum", of_c})
    stop(a, b, c, d)


def guarded(folder, name="a", peers=("b", "c"), options=()):
    """A member with a secret, whose peers aren't there."""
    secret = written(f"{folder}/secret", SECRET)
    port, *others = free_ports(1 + len(peers))
    at = [(peer, word("127.0.0.9", other)) for peer, other in zip(peers, others)]
    return begun(Member(name, "127.0.0.2", port, at, folder, ["--secret", secret, *options]))


def frames_of_each_kind():
    """A frame of each kind, that brings a silence where it brings something."""
    part = field(1, field(1, b"sil") + field(2, delimited(version())))
    return {"Delta": delta("sil", version()), "Push": frame(PUSH, part), "Pull": frame(PULL, part), "Tick": TICK}


def changed(data, at):
    """Bytes of which one is another."""
    other = bytearray(data)
    other[at] ^= 0x80 if at % 2 else 1
    return bytes(other)


def each_byte_counts(folder):
    """Of a connection with a frame of each kind each byte is changed in turn, and of the challenge that it answers: nothing of it is
    taken, and each is told."""
    for kind, text in frames_of_each_kind().items():
        place = f"{folder}/{kind}"
        os.mkdir(place)
        a = guarded(place)
        first, size = opening("b"), len(sealed(SECRET, bytes(CHALLENGE), 0, "b", "a", text))
        ways = [(f"byte {at} of the greeting", changed(first, at), lambda challenge: [burst(SECRET, challenge, "b", "a", text)])
                for at in range(len(first))]
        ways += [(f"byte {at} of the challenge", first, lambda challenge, at=at: [burst(SECRET, changed(challenge, at), "b", "a", text)])
                 for at in range(CHALLENGE)]
        ways += [(f"byte {at} of the frame", first, lambda challenge, at=at: [changed(burst(SECRET, challenge, "b", "a", text), at)])
                 for at in range(size)]
        for name, begins, answer in ways:
            before = len(a.lines)
            # (a greeting that isn't whole gets no challenge)
            if begins == first:
                answered((a.address, a.port), begins, answer)
            else:
                a.send(begins, *answer(bytes(CHALLENGE)))
            check(f"{kind} with {name} changed is told", eventually(lambda: len(a.lines) > before, 10), a.lines[-1])
        compare(f"what is told of a {kind}", {line for line in a.lines[1:] if " Connect " not in line} - {
            "am_tool: Frame Kind", "am_tool: Frame Length", "am_tool: Frame Wire NotUtf8 0", "am_tool: UnknownName",
            "am_tool: Seal Missing", "am_tool: Seal Sum", "am_tool: Seal Length", "am_tool: Seal Cut"}, set())
        compare(f"nothing is taken of a changed {kind}", (a.taken(), a.listed()), (0, []))
        a.send_sealed("b", text)
        check(f"the {kind} itself is taken", eventually(lambda: a.taken() == 1), a.lines[-1])
        compare(f"what a {kind} brings", len(a.listed()), 0 if kind == "Tick" else 1)
        stop(a)


def other_names(folder):
    """A sum is of the sender's name and of the addressee's; names don't run into one another."""
    a = guarded(folder, peers=("b", "c", "ab", "bb"))
    text = delta("sil", version())
    for sender, addressee, greets in [("b", "c", "b"), ("b", "", "b"), ("c", "a", "b"), ("a", "b", "b"), ("", "ba", "b"), ("ba", "", "b")]:
        before = len(a.lines)
        a.send_sealed(sender, text, addressee=addressee, greets=greets)
        check(f"a frame from {sender!r} to {addressee!r}", eventually(lambda: "am_tool: Seal Sum" in a.lines[before:]), a.lines)
    compare("nothing is taken", (a.taken(), a.listed()), (0, []))
    for half in [lambda right: right[:16] + bytes(16), lambda right: bytes(16) + right[16:32], lambda right: bytes(32)]:
        before = len(a.lines)

        def of_half(challenge, half=half):
            right = sealed(SECRET, challenge, 0, "b", "a", text)
            return [half(right) + right[32:]]

        a.answer("b", of_half)
        check("a sum of which half is right", eventually(lambda: "am_tool: Seal Sum" in a.lines[before:]), a.lines)
    a.send_sealed("b", TICK + TICK)
    check("two frames behind one sum", a.told("am_tool: Seal NotOneFrame"), a.lines)
    a.answer("b", lambda challenge: [sealed(SECRET, challenge, 0, "b", "a", TICK)[:36]])
    check("a frame that is cut", a.told("am_tool: Seal Cut"), a.lines)
    a.answer("b", lambda challenge: [bytes(32) + b"\xff" * 4])
    check("a length over the limit", a.told("am_tool: Seal Length"), a.lines)
    a.send(greeting("b") + text)
    check("a frame without a seal", a.told("am_tool: Seal Missing"), a.lines)
    compare("nothing is taken then", (a.taken(), a.listed()), (0, []))
    a.send_sealed("e", text)
    check("a stranger that has the secret", a.told("am_tool: UnknownName"), a.lines)
    a.answer("b", lambda challenge: [bytes([byte]) for byte in burst(SECRET, challenge, "b", "a", TICK, text)])
    check("a connection byte by byte", eventually(lambda: len(a.listed()) == 1), a.lines)
    stop(a)


def frames_in_their_order(folder):
    """A frame is taken at its number in its own connection: none that is left out, moved, given twice or of another connection, and none
    behind one that isn't taken."""
    a = guarded(folder)
    text, others = delta("sil", version()), []

    def frame_at(challenge, *numbers):
        return [sealed(SECRET, challenge, number, "b", "a", text if at else TICK) for at, number in enumerate(numbers)]

    def swapped(challenge):
        first, second = frame_at(challenge, 0, 1)
        return [second, first]

    def kept(challenge):
        others.append(challenge)
        return [sealed(SECRET, challenge, 0, "b", "a", TICK)]

    ways = [("the first one left out", lambda challenge: frame_at(challenge, 1, 2), 0), ("two swapped", swapped, 0),
            ("one in the middle left out", lambda challenge: frame_at(challenge, 0, 2), 1),
            ("one given twice", lambda challenge: frame_at(challenge, 0, 0), 1),
            ("a frame of the connection before", kept, 1), ("the same again", lambda challenge: [
                sealed(SECRET, others[0], 0, "b", "a", TICK)], 0),
            ("the next one of that connection", lambda challenge: [sealed(SECRET, others[0], 1, "b", "a", text)], 0),
            ("a frame without a challenge", lambda challenge: [sealed(SECRET, b"", 0, "b", "a", text)], 0),
            ("a challenge of zeros", lambda challenge: [sealed(SECRET, bytes(CHALLENGE), 0, "b", "a", text)], 0),
            ("a number in fewer bytes", lambda challenge: [sealed(SECRET, challenge[:-1], 0, "b", "a", text)], 0)]
    for name, answer, taken in ways:
        before, had = len(a.lines), a.taken()
        a.answer("b", answer)
        if name != "a frame of the connection before":
            check(f"{name} is told", eventually(lambda: "am_tool: Seal Sum" in a.lines[before:]), a.lines)
        check(f"what is taken of {name}", eventually(lambda: a.taken() == had + taken), (had, a.taken()))
    compare("nothing was brought", a.listed(), [])
    a.send_sealed("b", TICK, text, TICK)
    check("all in their order are taken", eventually(lambda: len(a.listed()) == 1), a.lines)
    stop(a)


def challenges(folder):
    """Each connection has a challenge of its own, of 32 bytes, once it is greeted, and no request has one."""
    a, seen = guarded(folder), set()
    for _ in range(20):
        with socket.create_connection((a.address, a.port), timeout=PATIENCE) as stream:
            stream.sendall(opening("b")[:-1])
            stream.settimeout(0.05)
            with contextlib.suppress(TimeoutError):
                check("nothing comes before the greeting is whole", stream.recv(1) == "nothing")
            stream.settimeout(PATIENCE)
            stream.sendall(opening("b")[-1:])
            stream.shutdown(socket.SHUT_WR)
            seen.add(received(stream))
    compare("what comes back", ({len(it) for it in seen}, len(seen)), ({CHALLENGE}, 20))
    compare("a name that isn't one gets none", a.send(b"\1\0\0"), b"")
    compare("frames without a seal get none", a.send(greeting("b") + TICK), b"")
    compare("a request gets its reply alone", a.ask("GET", "/api/v2/silences"), (200, b"[]"))
    stop(a)


class Middle:
    """What stands between two members at an address of its own, hands on what each says to the other, and keeps what the first says."""

    def __init__(self, address, to):
        self.to, self.said, self.listener = to, [], socket.create_server((address, 0))
        self.at = word(*self.listener.getsockname())
        threading.Thread(target=self.accept, daemon=True).start()

    def accept(self):
        while self.listener.fileno() >= 0:
            with contextlib.suppress(OSError):
                stream, _ = self.listener.accept()
                threading.Thread(target=self.hand_on, args=(stream,), daemon=True).start()

    def hand_on(self, stream):
        with contextlib.suppress(OSError), stream, socket.create_connection(self.to, timeout=PATIENCE) as other:
            back = threading.Thread(target=self.hand_back, args=(other, stream), daemon=True)
            back.start()
            said = bytearray()
            while piece := stream.recv(65536):
                said += piece
                other.sendall(piece)
            self.said.append(bytes(said))
            other.shutdown(socket.SHUT_WR)
            back.join(PATIENCE)

    def hand_back(self, other, stream):
        with contextlib.suppress(OSError):
            while piece := other.recv(65536):
                stream.sendall(piece)


def repeats(folder):
    """What a member sent is recorded, and sent again once its silences were ended and dropped: nothing of it is taken, and nothing
    mutes again."""
    a = guarded(folder, peers=("b",), options=["--retention", "1", "--tick-every", "1"])
    middle = Middle("127.0.0.7", (a.address, a.port))
    secret = written(f"{folder}/secret", SECRET)
    [port] = free_ports(1)
    b = begun(Member("b", "127.0.0.3", port, [("a", middle.at)], folder, ["--secret", secret]))
    for number in range(3):
        compare("b takes a post", b.say(f"post {number}"), 200)
        time.sleep(0.4)
    check("a has what b sent", eventually(lambda: a.comments() == ["post 0", "post 1", "post 2"]), a.lines)
    check("it came through the middle", eventually(lambda: len(middle.said) >= 3), middle.said)
    stop(b)
    for silence_ in a.listed():
        compare("a ends one", a.ask("DELETE", f"/api/v2/silence/{silence_['id']}")[0], 200)
    check("a has dropped them", eventually(lambda: a.listed() == []), a.listed())
    taken, before = a.taken(), len(a.lines)
    for data in [*middle.said, *reversed(middle.said)]:
        check("a recorded connection is sealed", data.startswith(opening("b")), data[:8])
        a.send(data)
        first = len(opening("b"))
        a.answer("b", lambda challenge, data=data, first=first: [data[first:]])
    check("each repeat is told", eventually(lambda: a.lines[before:].count("am_tool: Seal Sum") == 4 * len(middle.said)), a.lines[before:])
    compare("repeats bring nothing", (a.taken(), a.listed()), (taken, []))
    stop(a)
    middle.listener.close()


def peers_without_a_challenge(folder):
    """A peer that ends its stream before all of its challenge came, or says nothing for the time limit, is told of, and gets no frame."""
    told, answers = [], {"none": b"", "cut": bytes(CHALLENGE - 1), "silent": None}
    listener = socket.create_server(("127.0.0.7", 0))
    at = word(*listener.getsockname())
    secret = written(f"{folder}/secret", SECRET)
    [port] = free_ports(1)
    b = begun(Member("b", "127.0.0.3", port, [("a", at)], folder, ["--secret", secret, "--time-limit", "1"]))
    listener.settimeout(PATIENCE)
    for name, answer in answers.items():
        before = len(b.lines)
        compare(f"b takes a post for the one of {name}", b.say(name), 200)
        stream, _ = listener.accept()
        with stream:
            if answer is not None:
                stream.sendall(answer)
                stream.shutdown(socket.SHUT_WR)
            told.append(received(stream))
        read = len(answer or b"")
        check(f"{name} is told", eventually(lambda: f"am_tool: Send Challenge {at} {read}" in b.lines[before:]), b.lines)
    compare("only the greeting was sent", told, [opening("b")] * 3)
    check("the line says what to do", any("have to be of this one" in line for line in b.whole_lines), b.whole_lines)
    compare("b takes another post", b.say("behind them"), 200)
    stream, _ = listener.accept()
    with stream:
        challenge, first = os.urandom(CHALLENGE), len(opening("b"))
        greeted = stream.recv(first, socket.MSG_WAITALL)
        for at_ in range(CHALLENGE):
            stream.sendall(challenge[at_ : at_ + 1])
        data = greeted + received(stream)
    text = data[first + 36 :]
    compare("the challenge is answered", data, opening("b") + burst(SECRET, challenge, "b", "a", text))
    check("by the last post alone", b"behind them" in text and b"silent" not in text, text)
    stop(b)
    listener.close()


def a_member_that_restarts(folder):
    """What two members of one secret tell one another goes on when one of them is killed and started again."""
    secret, ports = written(f"{folder}/secret", SECRET), free_ports(2)
    places = {"a": ("127.0.0.2", ports[0]), "b": ("127.0.0.3", ports[1])}

    def member(name, peer):
        return Member(name, *places[name], [(peer, word(*places[peer]))], folder, ["--secret", secret, "--pull-every", "1", "--save-every", "1"])

    def live(member):
        return sorted(it["comment"] for it in member.listed() or [] if it["status"]["state"] == "active")

    a, b = begun(member("a", "b")), begun(member("b", "a"))
    wanted = []
    for number in range(3):
        compare("a takes a post", a.say(f"{number} of a"), 200)
        compare("b takes a post", b.say(f"{number} of b"), 200)
        wanted = sorted([*wanted, f"{number} of a", f"{number} of b"])
        check(f"both have all of {number}", eventually(lambda: live(a) == live(b) == wanted), (live(a), live(b)))
        b.kill()
        [ended, *_] = [it for it in a.listed() if it["comment"] == f"{number} of b"]
        compare("a takes a post while b is away", a.say(f"{number} of a, alone"), 200)
        compare("and ends a silence", a.ask("DELETE", f"/api/v2/silence/{ended['id']}")[0], 200)
        wanted = sorted([*wanted, f"{number} of a, alone"])
        wanted.remove(f"{number} of b")
        begun(b)
        check("b has what it missed", eventually(lambda: live(b) == wanted), (live(b), wanted))
    check("no sum was wrong", not any("Seal" in line for line in [*a.lines, *b.lines]), (a.lines, b.lines))
    stop(a, b)


def a_member_that_ends(folder):
    """What is queued for a peer goes out at a member's end, behind the peer's challenge."""
    secret, ports = written(f"{folder}/secret", SECRET), free_ports(2)
    b = begun(Member("b", "127.0.0.3", ports[1], [("a", word("127.0.0.2", ports[0]))], folder, ["--secret", secret]))
    for number in range(3):
        a = Member("a", "127.0.0.2", ports[0], [("b", word("127.0.0.3", ports[1]))], folder, ["--secret", secret, "--connections", "1"])
        begun(a)
        compare("a takes a post", a.say(f"post {number}"), 200)
        compare("a ends", a.end(), 0)
        check("b has it", eventually(lambda: f"post {number}" in b.comments()), b.comments())
        compare("and a told of nothing", a.lines[1:], [])
    stop(b)


def a_listener_for_frames(folder):
    """With --peers-listen frames are heard there alone, and requests at --listen alone."""
    [port, at, peer] = free_ports(3)
    secret = written(f"{folder}/secret", SECRET)
    for options in [["--secret", secret], []]:
        place = f"{folder}/{len(options)}"
        os.mkdir(place)
        words = ["--peers-listen", word("127.0.0.3", at), *options]
        a = begun(Member("a", "127.0.0.2", port, [("b", peer)], place, words))
        compare("both are told", a.lines[0].partition(", peers")[0],
                f"am_tool: a listens on 127.0.0.2:{port} and for frames on 127.0.0.3:{at}")
        text = delta("sil", version())
        send = (lambda at=None: a.send_sealed("b", text, at=at)) if options else (lambda at=None: a.send(greeting("b") + text, at=at))
        send()
        check("frames at --listen", a.told("am_tool: Door Frames"), a.lines)
        reply = a.ask("GET", "/api/v2/silences", at=("127.0.0.3", at))
        check("a request at --peers-listen", a.told("am_tool: Door Requests"), a.lines)
        compare("it gets no reply", reply, (None, b""))
        compare("nothing is taken", a.listed(), [])
        send(("127.0.0.3", at))
        check("frames at --peers-listen", eventually(lambda: len(a.listed()) == 1), a.lines)
        status = a.ask("GET", "/api/v2/status")[1].decode()
        check("the status has the addresses", f'"address":"127.0.0.3:{at}","name":"a"' in status, status)
        check("and not the secret", SECRET.decode() not in status, status)
        stop(a)


def open_to_all(folder):
    """At an address that isn't loopback's frames are refused without a secret, but where that is wanted."""
    [port, peer] = free_ports(2)
    text = greeting("b") + delta("sil", version())
    for name, options, hears in [("shut", [], False), ("open", ["--open-peers"], True)]:
        place = f"{folder}/{name}"
        os.mkdir(place)
        a = begun(Member("a", "0.0.0.0", port, [("b", peer)], place, options))
        a.send(text, at=("127.0.0.5", port))
        if hears:
            check("frames are heard", eventually(lambda: len(a.listed()) == 1), a.lines)
        else:
            check("frames are refused", a.told("am_tool: Door Frames"), a.lines)
            compare("and nothing is taken", parted(a.send(b"GET /api/v2/silences HTTP/1.0\r\n\r\n", close=False)), (200, b"[]"))
        stop(a)


def hosts(folder):
    """A member is asked under its own address."""
    [port, peer] = free_ports(2)
    for address, own, foreign in [("127.0.0.2", "127.0.0.2", "127.0.0.3"), ("::1", "[::1]", "[::2]")]:
        place = f"{folder}/{len(address)}"
        os.mkdir(place)
        a = begun(Member("a", address, port, [("b", peer)], place))
        for host, wanted in [(own, 200), (f"{own}:{port}", 200), ("localhost", 200), (foreign, 403), (f"{foreign}:{port}", 403),
                             ("[", 403), ("[]", 403), ("", 403)]:
            compare(f"at {address} asked under {host!r}", a.ask("GET", "/api/v2/silences", host=host or " ")[0], wanted)
        stop(a)


def an_address_that_others_reach(folder):
    """Requests aren't authenticated, which a start says where others than this machine may send them."""
    line = "am_tool: warning: requests at {} aren't authenticated: whoever reaches it may change silences"
    port = free_ports(1)[0]
    for address, at in [("0.0.0.0", f"0.0.0.0:{port}"), ("::", f"[::]:{port}")]:
        a = Member("a", address, port, [], folder)
        a.start()
        check(f"the warning at {at}", a.told(line.format(at)), a.lines)
        stop(a)
    for address in ["127.0.0.1", "127.0.0.2", "::1"]:
        a = Member("a", address, port, [], folder)
        a.start()
        compare(f"no warning at {address}", [it for it in a.lines if "authenticated" in it], [])
        stop(a)


def words_that_are_refused(folder):
    """What is wrong in the words, and in the file of the secret."""
    names = {"short": b"fifteen bytes..", "fifteen": b"fifteen bytes..\n", "long": bytes(4097), "longer": bytes(5000), "least": bytes(16),
             "most": bytes(4096), "ended": bytes(4096) + b"\n"}
    for name, data in names.items():
        written(f"{folder}/{name}", data)
    own = ["instance", "--name", "a", "--sil", f"{folder}/a.sil", "--nfl", f"{folder}/a.nfl"]
    listen = "error: invalid value for '--listen <ADDRESS:PORT>'"
    at_peers = "error: invalid value for '--peers-listen <ADDRESS:PORT>'"
    [port] = free_ports(1)
    for words, status, begins in [
        (["--listen", "127.0.0.1"], 2, listen),
        (["--listen", "10.0.0.1:0"], 2, listen),
        (["--listen", "10.0.0.1:65536"], 2, listen),
        (["--listen", "::1:9093"], 2, listen),
        (["--listen", "[::1]"], 2, listen),
        (["--listen", "localhost:9093"], 2, listen),
        (["--listen", ":9093"], 2, listen),
        (["--listen", "9093", "--peers-listen", "10.0.0.1"], 2, at_peers),
        (["--listen", "9093", "--peers-listen", "0.0.0.0:9094"], 2, "error: '--peers-listen <ADDRESS:PORT>' at an address"),
        (["--listen", "9093", "--secret", "x", "--open-peers"], 2, "error: the argument '--secret <FILE>' cannot be used with '--open-peers'"),
        (["--listen", "9093", "--peer", "b=10.0.0.1"], 2, "am_tool: Peer"),
        (["--listen", "9093", "--peer", "b=[::1]:0"], 2, "am_tool: Peer"),
        (["--listen", "9093", "--secret", f"{folder}/none"], 3, "am_tool: Secret File NotFound"),
        (["--listen", "9093", "--secret", folder], 3, "am_tool: Secret "),
        (["--listen", "9093", "--secret", f"{folder}/short"], 1, "am_tool: Secret Short"),
        (["--listen", "9093", "--secret", f"{folder}/fifteen"], 1, "am_tool: Secret Short"),
        (["--listen", "9093", "--secret", f"{folder}/long"], 1, "am_tool: Secret Long"),
        (["--listen", "9093", "--secret", f"{folder}/longer"], 1, "am_tool: Secret Long"),
        (["--listen", f"192.0.2.1:{port}"], 3, f"am_tool: Listen AddrNotAvailable 192.0.2.1:{port}"),
        (["--listen", str(port), "--peers-listen", str(port)], 3, f"am_tool: Listen AddrInUse {port}"),
    ]:
        found, output, error = run([*own, *words])
        compare(f"the status of {words}", found, status)
        check(f"the line of {words}", error.startswith(begins), error)
    for name in ["least", "most", "ended"]:
        a = Member("a", "127.0.0.2", port, [], folder, ["--secret", f"{folder}/{name}"])
        begun(a)
        stop(a)
    os.chmod(f"{folder}/least", 0o604)
    a = Member("a", "127.0.0.2", port, [], folder, ["--secret", f"{folder}/least"])
    a.start()
    compare("a secret that all may read", a.lines[0],
            "am_tool: warning: others than its owner and its group may read or write the file of --secret")
    stop(a)
    help_text = run(["instance", "--help"])[1].decode()
    check("help has three machines", "--peers-listen 10.0.0.1:9094" in help_text, help_text)


def main():
    members.choose(TITLE, sys.argv[1:])
    with tempfile.TemporaryDirectory() as folder:
        try_each([who_hears_whom, a_long_frame, each_byte_counts, other_names, frames_in_their_order, challenges, repeats, peers_without_a_challenge,
                  a_member_that_restarts, a_member_that_ends, a_listener_for_frames, open_to_all, hosts,
                  an_address_that_others_reach, words_that_are_refused], folder)
    finish(TITLE)


if __name__ == "__main__":
    main()
