"""What a running member takes, beside a real Alertmanager in the same run.

`alone`: both load the same files of N silences and N entries of the log (100,000 by default), and then files of 1,000
and of 10,000 silences. Told are: the time from the start until the first request is answered, the resident memory then;
a list of all, a list with a filter that one passes, one silence, and a post, each on a new connection: the least time of
the rounds in milliseconds, and the ratio.

`crowd`: 2,000 requests for one silence and 500 posts of an idle server that holds 1,000 silences, and the same beside 200
clients that say nothing, of which 60 have sent half a request: median, 99th part and most, in milliseconds.

`readers`: 500 posts of a server that holds 10,000 silences, beside 4 and 16 clients who read the list of all in a loop, and
how many lists they read a second.

`frozen`: 300 posts of a member, a peer of which runs, and then is frozen.

`saves`: posts for eight seconds of a member that holds 10,000 and 100,000 silences and as many entries, which never saves,
and then saves both files every second: the most is how long one waits for a save.

`log`: posts of a member with and without `--log`, and of Alertmanager: of one client that posts 500, and of 16 and 200 that
post side by side for three seconds, the middle, the 99th part and the most in milliseconds; and how many come a second. How
long a sync of the disk takes is told beside them.

`load`: requests a second for one silence and of posts by `wrk` with 1, 16 and 200 clients, each on a new connection, where
`wrk` is there.

`spread`: three members are started, and the time is told from a post to one until both others show it.

Alertmanager is Debian's `prometheus-alertmanager`, where it is there; without it only the figures of am_tool are told. It
is not started as several members, since it gossips by other means. It refuses some of the lists and single silences that
are asked for at once: only good replies count. `--before` adds a column of an earlier am_tool to what
many clients ask at once. The requests of a row end after 20 seconds: one that isn't answered then has the time until then.
"""

import contextlib
import functools
import json
import multiprocessing
import os
import re
import shutil
import signal
import socket
import subprocess
import sys
import tempfile
import threading
import time

from building import PROGRAM
from lib.alertmanagers import ALERTMANAGER
from lib.wire import delimited, field, timestamp, varint

CONFIG = "route:\n  receiver: none\nreceivers:\n- name: none\n"

# How long anything is waited for, in seconds; how long the requests of a row may take beside many clients; and how long
# posts are made beside saves.
PATIENCE, BUDGET, SAVING = 120, 20, 8

# How many clients say nothing, and how many of them have sent half a request.
SILENT, HALF = 200, 60

HALF_A_REQUEST = b"POST /api/v2/silences HTTP/1.1\r\nHost: localhost\r\nContent-Length: 500\r\n\r\n{"


def identifier(number):
    return f"{number:08x}-0000-4000-8000-000000000000"


ONE = f"/api/v2/silence/{identifier(7)}"

PARTS = ["alone", "crowd", "readers", "frozen", "saves", "log", "load", "spread"]
OPTIONS = {"--rounds": 50, "--silences": 100_000, "--before": None, "--only": PARTS}


def silence(number, now, key=None):
    """A silence of job `job-N`, from an hour ago to one hour hence, with this identifier or that of its number."""
    matcher = field(2, b"job") + field(3, b"job-%d" % number)
    inner = field(1, (key or identifier(number)).encode()) + field(2, matcher)
    inner += field(3, timestamp(now - 3600)) + field(4, timestamp(now + 3600)) + field(5, timestamp(now - 3600))
    inner += field(8, b"somebody") + field(9, b"a comment of some length on why it is silenced")
    return delimited(field(1, inner) + field(2, timestamp(now + 400_000)))


def entry(number, now):
    """An entry of a group at the receiver `team`, in which one alert fires."""
    receiver = field(1, b"team") + field(2, b"email")
    inner = field(1, b"{}:{job=\"job-%d\"}" % number) + field(2, receiver) + field(5, timestamp(now - 60))
    inner += field(6, varint(number + 1))
    return delimited(field(1, inner) + field(2, timestamp(now + 400_000)))


def free_port():
    with socket.socket() as holder:
        holder.bind(("127.0.0.1", 0))
        return holder.getsockname()[1]


def write_state(folder, silences, entries):
    now = int(time.time())
    with open(f"{folder}/silences", "wb") as file:
        file.write(b"".join(silence(number, now) for number in range(silences)))
    with open(f"{folder}/nflog", "wb") as file:
        file.write(b"".join(entry(number, now) for number in range(entries)))


def ours(folder, port, peers=(), name="a", program=PROGRAM, options=(), stderr=subprocess.DEVNULL):
    words = [program, "instance", "--name", name, "--listen", str(port), "--time-limit", "60", *options]
    for peer, at in peers:
        words += ["--peer", f"{peer}={at}"]
    words += ["--sil", f"{folder}/silences", "--nfl", f"{folder}/nflog"]
    return subprocess.Popen(words, stderr=stderr)


def theirs(folder, port):
    with open(f"{folder}/config.yml", "w") as file:
        file.write(CONFIG)
    words = [ALERTMANAGER, f"--config.file={folder}/config.yml", f"--storage.path={folder}"]
    words += [f"--web.listen-address=127.0.0.1:{port}", "--cluster.listen-address="]
    return subprocess.Popen(words, stdout=subprocess.DEVNULL, stderr=subprocess.DEVNULL)


def ask(port, method, path, body=b"", limit=PATIENCE):
    """The body of the reply to a request on a new connection, and None where there is no good reply."""
    head = f"{method} {path} HTTP/1.1\r\nHost: localhost\r\nContent-Type: application/json\r\n"
    head += f"Content-Length: {len(body)}\r\nConnection: close\r\n\r\n"
    try:
        with socket.create_connection(("127.0.0.1", port), timeout=limit) as stream:
            stream.sendall(head.encode() + body)
            pieces = []
            while piece := stream.recv(1 << 18):
                pieces.append(piece)
    except OSError:
        return None
    head, _, body = b"".join(pieces).partition(b"\r\n\r\n")
    return body if head.split(b" ", 2)[1:2] == [b"200"] else None


def wait_for(look):
    """Seconds until `look` answers something."""
    begun = time.perf_counter()
    while not look():
        if time.perf_counter() - begun > PATIENCE:
            sys.exit("it never came")
        time.sleep(0.0005)
    return time.perf_counter() - begun


def memory(process):
    """Resident memory in MiB."""
    with open(f"/proc/{process.pid}/status") as status:
        line = next(line for line in status if line.startswith("VmRSS"))
    return int(line.split()[1]) / 1024


def least(rounds, work):
    times = []
    for _ in range(rounds):
        begun = time.perf_counter()
        if work() is None:
            sys.exit("a request was not answered")
        times.append(time.perf_counter() - begun)
    return 1000 * min(times)


def posted(number):
    at = lambda offset: time.strftime("%Y-%m-%dT%H:%M:%S.000Z", time.gmtime(time.time() + offset))
    matcher = {"name": "job", "value": f"posted-{number}", "isRegex": False, "isEqual": True}
    post = {"matchers": [matcher], "startsAt": at(0), "endsAt": at(7200), "createdBy": "bench", "comment": "posted"}
    return json.dumps(post).encode()


def figures(start, silences, entries, rounds):
    """Each figure of one program over one state."""
    with tempfile.TemporaryDirectory() as folder:
        write_state(folder, silences, entries)
        port = free_port()
        process = start(folder, port)
        told = {"load, ms": 1000 * wait_for(lambda: ask(port, "GET", ONE))}
        told["memory after it, MiB"] = memory(process)
        filtered = "/api/v2/silences?filter=job%3D%22job-7%22"
        told["list of all, ms"] = least(min(rounds, 5), lambda: ask(port, "GET", "/api/v2/silences"))
        told["filter that one passes, ms"] = least(rounds, lambda: ask(port, "GET", filtered))
        told["one silence, ms"] = least(rounds, lambda: ask(port, "GET", ONE))
        numbers = iter(range(rounds))
        told["post, ms"] = least(rounds, lambda: ask(port, "POST", "/api/v2/silences", posted(next(numbers))))
        process.kill()
        process.wait()
        return told


@contextlib.contextmanager
def running(start, silences):
    """A program over so many silences and entries: its port, once it has answered, and its process."""
    with tempfile.TemporaryDirectory() as folder:
        write_state(folder, silences, silences)
        port = free_port()
        process = start(folder, port)
        try:
            wait_for(lambda: ask(port, "GET", ONE))
            yield port
        finally:
            process.kill()
            process.wait()


def quantiles(count, work, budget=BUDGET):
    """The median, the 99th part and the most of the milliseconds that a number of good calls take, as far as they come in
    time. One that doesn't has the time until then."""
    times, deadline = [], time.perf_counter() + budget
    while len(times) < count and time.perf_counter() < deadline:
        begun = time.perf_counter()
        if work(deadline - begun) is not None or time.perf_counter() >= deadline:
            times.append(1000 * (time.perf_counter() - begun))
    times.sort()
    return (times[len(times) // 2], times[len(times) * 99 // 100], times[-1]) if times else None


def get_one(port, limit):
    return ask(port, "GET", ONE, limit=limit)


def post_one(port, limit):
    return ask(port, "POST", "/api/v2/silences", posted(0), limit)


@contextlib.contextmanager
def silent_clients(port):
    """Clients that say nothing, or half of what they have to say."""
    with contextlib.ExitStack() as streams:
        for number in range(SILENT):
            with contextlib.suppress(TimeoutError, socket.timeout):
                stream = streams.enter_context(socket.create_connection(("127.0.0.1", port), timeout=0.1))
                stream.sendall(HALF_A_REQUEST if number < HALF else b"")
        time.sleep(0.2)
        yield


def crowd(start):
    """Requests of a server without other clients, and beside many that say nothing."""
    told = {}
    with running(start, 1_000) as port:
        ask_one = lambda title: {
            f"{title}: one silence, ms": quantiles(2_000, functools.partial(get_one, port)),
            f"{title}: post, ms": quantiles(500, functools.partial(post_one, port)),
        }
        told.update(ask_one("idle"))
        with silent_clients(port):
            told.update(ask_one(f"{SILENT} silent clients"))
    return told


def read_lists(port, counter):
    """Reads the list of all until it is ended."""
    request = b"GET /api/v2/silences HTTP/1.1\r\nHost: localhost\r\nConnection: close\r\n\r\n"
    buffer = bytearray(1 << 20)
    while True:
        with contextlib.suppress(OSError), socket.create_connection(("127.0.0.1", port), timeout=PATIENCE) as stream:
            stream.sendall(request)
            is_good = stream.recv_into(buffer) and buffer.startswith(b"HTTP/1.1 200")
            while stream.recv_into(buffer):
                pass
            counter.value += bool(is_good)


def readers(start):
    """Posts beside clients who read long lists."""
    told = {}
    for count in (4, 16):
        with running(start, 10_000) as port:
            counters = [multiprocessing.Value("q", 0) for _ in range(count)]
            processes = [multiprocessing.Process(target=read_lists, args=(port, it), daemon=True) for it in counters]
            for it in processes:
                it.start()
            time.sleep(1)
            before, begun = sum(it.value for it in counters), time.perf_counter()
            told[f"{count} readers of 10000: post, ms"] = quantiles(500, functools.partial(post_one, port))
            time.sleep(max(0, 5 - (time.perf_counter() - begun)))
            lists = sum(it.value for it in counters) - before
            told[f"{count} readers of 10000: lists a second"] = (lists / (time.perf_counter() - begun),)
            for it in processes:
                it.terminate()
                it.join()
    return told


def frozen(start):
    """Posts of a member whose peer runs, and then is frozen."""
    told = {}
    with tempfile.TemporaryDirectory() as folder:
        os.mkdir(f"{folder}/peer")
        ports = free_port(), free_port()
        peer = start(f"{folder}/peer", ports[1], [("a", ports[0])], "b")
        member = start(folder, ports[0], [("b", ports[1])], "a")
        try:
            for port in ports:
                wait_for(lambda: ask(port, "GET", "/api/v2/silences"))
            told["a peer runs: post, ms"] = quantiles(300, functools.partial(post_one, ports[0]))
            peer.send_signal(signal.SIGSTOP)
            told["the peer is frozen: post, ms"] = quantiles(300, functools.partial(post_one, ports[0]))
        finally:
            for it in (peer, member):
                it.kill()
                it.wait()
    return told


def saves(start):
    """Posts of a member that saves, and of one that doesn't."""
    told = {}
    for count in (10_000, 100_000):
        for title, options in (("never saved", []), ("saved each second", ["--save-every", "1"])):
            with running(functools.partial(start, options=options), count) as port:
                post = functools.partial(post_one, port)
                told[f"{count} held, {title}: post, ms"] = quantiles(sys.maxsize, post, SAVING)
    return told


def post_on(port, seconds, times):
    """Posts one after the other for so long; how long each took."""
    end = time.perf_counter() + seconds
    while (begun := time.perf_counter()) < end:
        if post_one(port, PATIENCE) is not None:
            times.append(1000 * (time.perf_counter() - begun))


def log(start):
    """Posts of clients side by side."""
    told = {}
    for clients in (1, 16, 200):
        with running(start, 1_000) as port, multiprocessing.Manager() as manager:
            lists = [manager.list() for _ in range(min(clients, 16))]
            threads = clients // len(lists)
            processes = [multiprocessing.Process(target=post_side_by_side, args=(port, threads, it), daemon=True) for it in lists]
            for it in processes:
                it.start()
            for it in processes:
                it.join()
            times = sorted(time for it in lists for time in it)
        told[f"{clients} clients: post, ms"] = (times[len(times) // 2], times[len(times) * 99 // 100], times[-1])
        told[f"{clients} clients: posts a second"] = (len(times) / 3,)
    return told


def post_side_by_side(port, threads, found):
    """Posts of so many threads for three seconds."""
    times = []
    running = [threading.Thread(target=post_on, args=(port, 3, times)) for _ in range(threads)]
    for it in running:
        it.start()
    for it in running:
        it.join()
    found.extend(times)


def sync_time():
    """Milliseconds in the middle of handing a write to the disk on which members have their files here."""
    times = []
    with tempfile.TemporaryFile() as file:
        for _ in range(100):
            begun = time.perf_counter()
            os.pwrite(file.fileno(), bytes(300), 300 * len(times))
            os.fdatasync(file.fileno())
            times.append(1000 * (time.perf_counter() - begun))
    return sorted(times)[50]


def load(start):
    """Requests a second by wrk; of posts the first are made to a server that holds 1,000 silences."""
    told = {}
    with tempfile.TemporaryDirectory() as folder:
        with open(f"{folder}/post.lua", "w", encoding="utf-8") as file:
            file.write('wrk.method = "POST"\nwrk.headers["Content-Type"] = "application/json"\n')
            file.write(f"wrk.body = [==[{posted(0).decode()}]==]\n")
        for clients in (1, 16, 200):
            with running(start, 1_000) as port:
                told[f"wrk -c{clients}: one silence, a second"] = wrk(clients, port, ONE)
                words = ["-s", file.name]
                told[f"wrk -c{clients}: posts a second"] = wrk(clients, port, "/api/v2/silences", words)
    return told


def wrk(clients, port, path, words=()):
    """How many requests of so many clients are answered well a second, within three seconds."""
    command = ["wrk", f"-c{clients}", f"-t{min(clients, 2)}", "-d3s", "--timeout", "3s", "-H", "Connection: close"]
    ran = subprocess.run([*command, *words, f"http://127.0.0.1:{port}{path}"], capture_output=True, text=True, check=True)
    (whole,) = re.findall(r"(\d+) requests in ", ran.stdout)
    refused = sum(map(int, re.findall(r"Non-2xx or 3xx responses: (\d+)", ran.stdout)))
    return ((int(whole) - refused) / 3,)


def beside(part, before, has_other=True):
    """Tells what a part measures of am_tool, of an earlier one and of Alertmanager."""
    starts = {"am_tool": ours}
    if part is log:
        starts["with --log"] = functools.partial(ours, options=["--log"])
        print("a sync of the disk, ms: %.2f" % sync_time())
    if before:
        starts["before"] = functools.partial(ours, program=before)
    if ALERTMANAGER and has_other:
        starts["Alertmanager"] = theirs
    columns = {name: part(start) for name, start in starts.items()}
    print("%-40s " % part.__name__ + " ".join("%24s" % name for name in columns), flush=True)
    word = lambda it: "%.2f" % it if isinstance(it, float) else str(it)
    figure = lambda found: "-" if found is None else " / ".join(map(word, found))
    for row in columns["am_tool"]:
        print("%-40s " % row + " ".join("%24s" % figure(column[row]) for column in columns.values()), flush=True)


def spread(rounds):
    """Milliseconds from a post to one of three members until both others show it."""
    with tempfile.TemporaryDirectory() as top:
        ports = {name: free_port() for name in "abc"}
        started = []
        for name in ports:
            os.mkdir(f"{top}/{name}")
            peers = [(peer, ports[peer]) for peer in ports if peer != name]
            started.append(ours(f"{top}/{name}", ports[name], peers, name))
        for port in ports.values():
            wait_for(lambda: ask(port, "GET", "/api/v2/silences"))
        times = []
        for number in range(rounds):
            begun = time.perf_counter()
            posting = json.loads(ask(ports["a"], "POST", "/api/v2/silences", posted(number)))
            path = f"/api/v2/silence/{posting['silenceID']}"
            for name in "bc":
                wait_for(lambda: ask(ports[name], "GET", path))
            times.append(1000 * (time.perf_counter() - begun))
        for process in started:
            process.kill()
            process.wait()
        times.sort()
        return times[len(times) // 2], times[-1]


def alone(silences, rounds):
    """Tells what one client at a time waits for."""
    print("%-34s %12s %14s %8s" % ("", "am_tool", "Alertmanager", "ratio"))
    for count in (silences, 1_000, 10_000):
        mine = figures(ours, count, count, rounds)
        other = figures(theirs, count, count, rounds) if ALERTMANAGER else {}
        for name, value in mine.items():
            found = other.get(name)
            ratio = ("%14.2f %8.2f" % (found, value / found)) if found else ""
            print("%-34s %12.2f %s" % (f"{count}: {name}", value, ratio), flush=True)


def run(words):
    if "alone" in words.only:
        alone(words.silences, words.rounds)
    for part in (crowd, readers, log):
        if part.__name__ in words.only:
            beside(part, words.before)
    for part in (frozen, saves):
        if part.__name__ in words.only:
            beside(part, words.before, has_other=False)
    if "load" in words.only and shutil.which("wrk"):
        beside(load, words.before)
    if "spread" in words.only:
        print("from a post until both others show it, ms: %.2f in the middle, %.2f at most" % spread(words.rounds))
