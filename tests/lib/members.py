"""The built am_tool: what comes of its words, and processes of it that run members on loopback."""

import contextlib
import json
import os
import pty
import random
import shutil
import signal
import socket
import subprocess
import threading
import time

from lib.api import request
from lib.error_lines import words_of
from lib.tally import check, compare, give_up
from lib.wire import greeting

TOP = os.path.dirname(os.path.dirname(os.path.dirname(os.path.abspath(__file__))))

# How long anything is waited for that has to come, in seconds: long, for a machine that has much else to do.
PATIENCE = int(os.environ.get("PATIENCE", "60"))

# How many processes are run at once.
LANES = 4

# A name that no member has as a peer, and what a member prints of its greeting.
STRANGER = "stranger"
TOLD_OF_STRANGER = "am_tool: UnknownName"

# Options of a member that prints the line of each fault.
ALL_LINES = ["--lines-a-second", "65535"]

# Words in front of a member's that have it see SIGTERM and SIGINT, as docs/MEMBERS.md has it.
BLOCKED = ["env", "--block-signal=TERM", "--block-signal=INT"]

# The same where a file that gets too large is a fault of the write.
LIMITED = [*BLOCKED, "--ignore-signal=XFSZ"]

# The program that is run.
program = f"{TOP}/crates/am_tool/out/am_tool"


def choose(title, words):
    """Takes the program that the first of a script's words names, if there are words; it has to be there."""
    global program
    program = os.path.abspath([*words, program][0])
    must_be_there(title, program)


def must_be_there(title, path):
    if not os.access(path, os.X_OK):
        give_up(title, f"{path} is not there: rt ci builds it")


def compiled(title, name, folder, why):
    """The library of tests/lib/NAME.c, which stands between a program and the C library. Without a compiler of C nothing can be
    tried, which is a failure."""
    library = f"{folder}/{name}.so"
    if shutil.which("cc") is None:
        give_up(title, f"cc is not there, so {why}")
    source = f"{TOP}/tests/lib/{name}.c"
    subprocess.run(["cc", "-O1", "-Wall", "-Werror", "-shared", "-fPIC", "-o", library, source], check=True)
    return library


def outcome(command, **how):
    """A command's status, output and error: the status is 'no end' where it does not end in time, and the others are None where
    they do not go to a pipe."""
    if "input" not in how:
        how.setdefault("stdin", subprocess.DEVNULL)
    how = {"stdout": subprocess.PIPE, "stderr": subprocess.PIPE, "timeout": PATIENCE, **how}
    try:
        ran = subprocess.run(command, check=False, **how)
    except subprocess.TimeoutExpired:
        return "no end", b"", ""
    return ran.returncode, ran.stdout, None if ran.stderr is None else ran.stderr.decode("utf-8", "backslashreplace")


def run(words, **how):
    return outcome([program, *words], **how)


def outcome_at_terminal(command, **how):
    """A command's status and output, and what a terminal shows of its errors."""
    terminal, end = pty.openpty()
    status, output, _ = outcome(command, stderr=end, **how)
    os.close(end)
    shown = b""
    # (a terminal whose other end is closed ends by a failed read)
    with contextlib.suppress(OSError):
        while piece := os.read(terminal, 1 << 16):
            shown += piece
    os.close(terminal)
    return status, output, shown.decode("utf-8", "backslashreplace").replace("\r\n", "\n")


def run_at_terminal(words, **how):
    return outcome_at_terminal([program, *words], **how)


def free_ports(count):
    """Ports of loopback at which nothing listens now, below those that the system gives to clients."""
    ports = []
    while len(ports) < count:
        port = random.randrange(10_000, 32_000)
        with socket.socket() as holder:
            try:
                holder.bind(("127.0.0.1", port))
            except OSError:
                continue
        if port not in ports:
            ports.append(port)
    return ports


def slowest(member, look):
    """How long the slowest of requests took, in seconds, that were made one after the other while something went on."""
    slow, found = 0, set()
    while look():
        start = time.monotonic()
        found.add(member.ask("GET", "/api/v2/silence/none")[0])
        slow = max(slow, time.monotonic() - start)
    compare("the requests meanwhile", found, {404})
    return slow


def eventually(look, patience=PATIENCE):
    """What `look` answers as soon as that counts as true, or the last of its answers."""
    end = time.monotonic() + patience
    while True:
        found = look()
        if found or time.monotonic() > end:
            return found
        time.sleep(0.02)


def silent_peer():
    """A listener that takes what comes on each connection, one after the other, and says nothing."""
    listener = socket.create_server(("127.0.0.1", 0))
    threading.Thread(target=swallow, args=(listener,), daemon=True).start()
    return listener


def swallow(listener):
    while listener.fileno() >= 0:
        with contextlib.suppress(OSError):
            stream, _ = listener.accept()
            with stream:
                while stream.recv(65536):
                    pass


def bytes_of(path):
    """What a file holds, or None where it isn't there."""
    with contextlib.suppress(FileNotFoundError), open(path, "rb") as file:
        return file.read()
    return None


def write(path, data):
    with open(path, "wb") as file:
        file.write(data)


def asked(member, data):
    """A connection to a member on which something is asked."""
    stream = socket.create_connection(("127.0.0.1", member.port), timeout=PATIENCE)
    stream.sendall(data)
    return stream


def received(stream):
    """What comes until a connection ends; it is an error where it doesn't in time."""
    data = bytearray()
    with contextlib.suppress(ConnectionError):
        while piece := stream.recv(65536):
            data += piece
    return bytes(data)


def sent(at, *pieces, close=True):
    """What comes back for bytes that are sent on a new connection, piece by piece, until it ends."""
    with socket.create_connection(at, timeout=PATIENCE) as stream:
        stream.setsockopt(socket.IPPROTO_TCP, socket.TCP_NODELAY, 1)
        with contextlib.suppress(OSError):
            for piece in pieces:
                stream.sendall(piece)
            if close:
                stream.shutdown(socket.SHUT_WR)
        return received(stream)


def parted(reply):
    """The status and the body of a reply's bytes; no status where there is no reply."""
    head, _, body = reply.partition(b"\r\n\r\n")
    words = head.split(b" ", 2)
    return (int(words[1]), body) if len(words) == 3 else (None, body)


class Member:
    """A process that runs a member, and the lines that it has printed on standard error: as they stand, and from when it listens
    on of faults the words."""

    # what stands in front of its command
    front = ()

    def __init__(self, name, port, peers, folder, options=(), **how):
        self.name, self.port, self.how = name, port, how
        self.sil, self.nfl = f"{folder}/{name}.sil", f"{folder}/{name}.nfl"
        self.words = ["instance", "--name", name, "--listen", str(port)]
        for peer, at in peers:
            self.words += ["--peer", f"{peer}={at}"]
        self.words += ["--sil", self.sil, "--nfl", self.nfl, *options]

    def command(self):
        return [*self.front, program, *self.words]

    def start(self):
        """Starts it, and waits until it has printed a line or has ended; whether it listens."""
        self.lines, self.whole_lines, self.has_begun = [], [], threading.Event()
        how = {"stdin": subprocess.DEVNULL, "stdout": subprocess.PIPE, "stderr": subprocess.PIPE, **self.how}
        self.process = subprocess.Popen(self.command(), **how)
        self.reader = threading.Thread(target=self.read, daemon=True)
        self.reader.start()
        self.has_begun.wait(PATIENCE)
        return bool(self.lines) and " listens on " in self.lines[0]

    def read(self):
        runs = False
        for line in self.process.stderr:
            line = line.decode("utf-8", "backslashreplace").rstrip("\n")
            runs |= " listens on " in line
            self.whole_lines.append(line)
            self.lines.append(words_of(line) if runs else line)
            self.has_begun.set()
        self.has_begun.set()

    def lines_since(self, place):
        """The lines that it has printed from a place on, before this call.

        What a stream brings may come late, so a stranger's greeting, of which one line is printed, is sent behind them.
        """
        self.send(greeting(STRANGER))
        deadline = time.monotonic() + PATIENCE
        while TOLD_OF_STRANGER not in self.lines[place:]:
            if time.monotonic() > deadline or not self.reader.is_alive():
                return self.lines[place:]
            time.sleep(0.001)
        return self.lines[place : self.lines.index(TOLD_OF_STRANGER, place)]

    def kill(self):
        self.process.kill()
        return self.end()

    def end(self):
        """Its status, once it has ended; it is killed where it does not end in time."""
        with contextlib.suppress(subprocess.TimeoutExpired):
            self.process.wait(PATIENCE)
        self.process.kill()
        status = self.process.wait(PATIENCE)
        self.reader.join(PATIENCE)
        return status

    def send(self, *pieces, close=True):
        return sent(("127.0.0.1", self.port), *pieces, close=close)

    def ask(self, method, path, body=b""):
        """The status and the body of a reply."""
        return parted(self.send(request(method, path, body), close=False))

    def post(self, silence):
        """The status and the body of the reply to a post."""
        return self.ask("POST", "/api/v2/silences", json.dumps(silence).encode())

    def listed(self):
        """The silences that it lists, or None where it answers none."""
        status, body = self.ask("GET", "/api/v2/silences")
        return json.loads(body) if status == 200 else None

    def comments(self):
        """The comments of the silences that it lists."""
        return sorted(it["comment"] for it in self.listed() or [])


def begun(member):
    """A member, once it was started."""
    check(f"{member.name} listens", member.start(), member.lines)
    return member


def peers_of(names, folder, options=(), kind=Member):
    """Members by these names, each of which has the others as peers."""
    ports = dict(zip(names, free_ports(len(names))))
    return [kind(name, ports[name], [(it, ports[it]) for it in names if it != name], folder, options) for name in names]


class Stoppable(Member):
    """A member that stops by SIGTERM."""

    front = BLOCKED

    def stop(self):
        self.process.send_signal(signal.SIGTERM)
        return self.end()
