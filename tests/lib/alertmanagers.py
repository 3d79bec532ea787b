"""Replicas of a real Alertmanager, Debian's prometheus-alertmanager, on loopback, what they notify, and their files."""

import contextlib
import http.server
import json
import os
import shutil
import subprocess
import threading
import urllib.request

from lib.api import silence
from lib.members import PATIENCE, eventually, free_ports, outcome, run
from lib.tally import attempt, check, compare, give_up

ALERTMANAGER, AMTOOL = shutil.which("prometheus-alertmanager"), shutil.which("amtool")
FILES = {"sil": "silences", "nfl": "nflog"}

# For how many hours a silence is kept after its end.
RETENTION = 120

CONFIG = """
route: {{receiver: hook, group_by: [alertname], group_wait: 1s, group_interval: 1s, repeat_interval: 4h}}
receivers: [{{name: hook, webhook_configs: [{{url: "http://127.0.0.1:{}/"}}]}}]
"""


def must_be_installed(title):
    """Ends a script where it isn't installed, which is a failure: nothing can be tried."""
    if ALERTMANAGER is None:
        give_up(title, "prometheus-alertmanager is not there; install/test_tools installs it")


class Hook(http.server.BaseHTTPRequestHandler):
    """Takes what is notified."""

    def do_POST(self):
        self.server.notified.append(self.rfile.read(int(self.headers["Content-Length"])))
        self.send_response(200)
        self.end_headers()

    def log_message(self, *words):
        pass


def receiver(path):
    """A receiver of what replicas notify, and their configuration, which is written there."""
    hook = http.server.ThreadingHTTPServer(("127.0.0.1", 0), Hook)
    hook.notified = []
    threading.Thread(target=hook.serve_forever, daemon=True).start()
    with open(path, "w", encoding="utf-8") as file:
        file.write(CONFIG.format(hook.server_address[1]))
    return hook


class Replica:
    """A replica and the folder in which it keeps its files."""

    def __init__(self, name, top, config):
        self.name, self.config, self.folder, self.process = name, config, f"{top}/{name}", None
        os.mkdir(self.folder)

    def start(self, web, own, peers):
        """Starts it with its port for people, its own port for peers and those of its peers."""
        self.web = web
        words = [ALERTMANAGER, f"--config.file={self.config}", f"--storage.path={self.folder}"]
        words += [f"--web.listen-address=127.0.0.1:{web}", f"--cluster.listen-address=127.0.0.1:{own}"]
        words += [f"--data.retention={RETENTION}h", "--cluster.peer-timeout=1s", *(f"--cluster.peer=127.0.0.1:{it}" for it in peers)]
        with open(f"{self.folder}/log", "ab") as log:
            self.process = subprocess.Popen(words, stdin=subprocess.DEVNULL, stdout=log, stderr=log)

    def ask(self, method, path, value=None):
        """What is answered in JSON; None where it isn't reached or refuses."""
        data = None if value is None else json.dumps(value).encode()
        url = f"http://127.0.0.1:{self.web}/api/v2/{path}"
        request = urllib.request.Request(url, data, {"Content-Type": "application/json"}, method=method)
        try:
            with urllib.request.urlopen(request, timeout=PATIENCE) as reply:
                return json.loads(reply.read() or b"true")
        except (OSError, ValueError):
            return None

    def is_ready(self, size):
        """Whether it has settled among so many replicas, itself counted."""
        cluster = (self.ask("GET", "status") or {}).get("cluster", {})
        return cluster.get("status") == "ready" and len(cluster.get("peers") or []) == size

    def listed(self):
        """The silences that it shows, by identifier."""
        return {it["id"]: it for it in self.ask("GET", "silences") or []}

    def post(self, value, comment):
        return (self.ask("POST", "silences", silence(value, comment)) or {}).get("silenceID", "")

    def change(self, key, comment):
        """Gives a silence another comment, which updates it in place."""
        posted = {name: it for name, it in self.listed()[key].items() if name not in ("status", "updatedAt")}
        compare(f"{self.name} changes it", self.ask("POST", "silences", {**posted, "comment": comment}), {"silenceID": key})

    def end(self):
        """Its status, once it has ended, as it is asked to."""
        try:
            return self.process.wait(PATIENCE)
        except subprocess.TimeoutExpired:
            self.process.kill()
            return self.process.wait(PATIENCE)


@contextlib.contextmanager
def three(make):
    """Three replicas, by their names, of which none is left running. What can't go on is a case that fails."""
    made = [make(name) for name in "abc"]
    try:
        with attempt("replicas"):
            yield made
    finally:
        for it in made:
            if it.process is not None:
                it.process.kill()
                it.process.wait()


def start(*clusters):
    """Starts replicas, each beside the others of its cluster, and waits until all have settled."""
    ports = free_ports(2 * sum(map(len, clusters)))
    for replicas in clusters:
        own = {replica: ports.pop() for replica in replicas}
        for replica in replicas:
            replica.start(ports.pop(), own[replica], [own[it] for it in replicas if it is not replica])
    for replicas in clusters:
        for replica in replicas:
            check(f"{replica.name} is ready", eventually(lambda: replica.is_ready(len(replicas))), replica.folder)


def stop(replicas):
    """Ends replicas, which writes their files."""
    for replica in replicas:
        replica.process.terminate()
    for replica in replicas:
        compare(f"{replica.name} ends", replica.end(), 0)


def diff(state, sources, *words):
    """The status, the lines and the errors of a diff of files by their names."""
    sources = [f"{name}={path}" for name, path in sources.items()]
    status, output, error = run(["diff", "--state", state, *words, *sources])
    return status, output.decode().splitlines(), error


def files(replicas, state):
    return {it.name: f"{it.folder}/{FILES[state]}" for it in replicas}


def end(replica, key):
    """Ends a silence, by amtool where it is there."""
    if AMTOOL is None:
        compare(f"{replica.name} ends it", replica.ask("DELETE", f"silence/{key}"), True)
        return
    words = [AMTOOL, f"--alertmanager.url=http://127.0.0.1:{replica.web}", "silence", "expire", key]
    compare(f"{replica.name} ends it by amtool", outcome(words)[::2], (0, ""))
