#!/usr/bin/env python3
"""Has a real Prometheus and a real HAProxy ask a running member, as docs/MEMBERS.md says.

    apt-get install prometheus haproxy
    tests/real_tools.py [PROGRAM]

PROGRAM is crates/am_tool/out/am_tool if it isn't given. Prometheus has to find its target up and its figures there, and HAProxy
the member up and a port where nobody listens down. The gate doesn't run it, since the packages may not be there; where one isn't,
a line says so.
"""

import json
import shutil
import subprocess
import sys
import tempfile
import urllib.request

from lib import members
from lib.members import Member, eventually, free_ports
from lib.tally import check, finish, skip, try_each

SCRAPES = """\
global: {{scrape_interval: 1s}}
scrape_configs:
  - job_name: maityrunga
    static_configs: [{{targets: ['127.0.0.1:{port}']}}]
"""

CHECKS = """\
defaults
    mode http
    timeout connect 1s
    timeout client 5s
    timeout server 5s
frontend stats
    bind 127.0.0.1:{stats}
    stats enable
    stats uri /
backend silences
    option httpchk
    http-check send meth GET uri /-/ready ver HTTP/1.1 hdr host localhost
    http-check expect status 200
    server a 127.0.0.1:{port} check inter 500
    server nobody 127.0.0.1:{nobody} check inter 500
"""


def fetched(url):
    """What a server answers, or nothing where it doesn't yet."""
    try:
        with urllib.request.urlopen(url, timeout=5) as reply:
            return reply.read().decode()
    except OSError:
        return ""


def beside(folder, tool, words, config, asks):
    """Runs a tool over a configuration beside a member that runs."""
    if not shutil.which(tool):
        skip(f"{tool}: it is not there")
        return
    port, other, nobody = free_ports(3)
    member = Member("a", port, [], folder)
    check("a listens", member.start(), member.lines)
    path = f"{folder}/config"
    with open(path, "w", encoding="utf-8") as file:
        file.write(config.format(port=port, stats=other, nobody=nobody))
    words = [it.format(config=path, folder=folder, port=other) for it in words]
    process = subprocess.Popen([tool, *words], stdin=subprocess.DEVNULL, stdout=subprocess.DEVNULL, stderr=subprocess.DEVNULL)
    asks(f"http://127.0.0.1:{other}")
    process.kill()
    process.wait()
    member.kill()


def test_prometheus(folder):
    def asks(url):
        def targets():
            text = fetched(f"{url}/api/v1/targets")
            return [it["health"] for it in json.loads(text)["data"]["activeTargets"]] if text else []

        check("the target is up", eventually(lambda: targets() == ["up"]), targets())
        found = fetched(f"{url}/api/v1/query?query=maityrunga_ready")
        check("a figure is there", '"1"]' in found, found)

    words = ["--config.file={config}", "--storage.tsdb.path={folder}/data", "--web.listen-address=127.0.0.1:{port}"]
    beside(folder, "prometheus", words, SCRAPES, asks)


def test_haproxy(folder):
    def asks(url):
        def states():
            rows = [line.split(",") for line in fetched(f"{url}/;csv").splitlines()]
            return {row[1]: row[17] for row in rows if row[0] == "silences"}

        check("the member is up", eventually(lambda: states().get("a") == "UP" and states().get("nobody") == "DOWN"), states())

    beside(folder, "haproxy", ["-f", "{config}"], CHECKS, asks)


if __name__ == "__main__":
    members.choose("real tools", sys.argv[1:])
    with tempfile.TemporaryDirectory() as folder:
        try_each([test_prometheus, test_haproxy], folder)
    finish("real tools")
