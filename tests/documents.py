#!/usr/bin/env python3
"""Runs the commands of README.md and of the pages of docs/ that operators read, and checks all pages, so that none goes stale.

    tests/documents.py [--write | PROGRAM]

PROGRAM is crates/am_tool/out/am_tool if it isn't given; `--write` writes the files of samples/.

Every indented block of README.md, docs/NIGHT.md, docs/MEND.md and docs/MEMBERS.md is given to bash, and has to end with status 0.
There are three exceptions: a block below `<!--prints-->` is what the block before it has to print, one below `<!--prints among
others-->` is lines of that, in this order, and those that begin as FILES_SHOWN are text for files. Where the text above a block ends
with a colon, the block has to print each `"KEY":VALUE` of it; and members have to list what a block posts to one of them. The blocks
of a page are run one after the other, in one folder that has the files which the page speaks of; in docs/MEMBERS.md each section has
a folder of its own.
Replicas of this script, which hold what samples/ has, are at 10.0.0.1 to 10.0.0.3, and after docs/NIGHT.md the second one has to
hold everything. Ports and these addresses are exchanged for free ones of this machine.

What no test can run is named in STAND_INS, with what is run in its place: ssh, scp, systemctl, journalctl, and an `install` into the
system. `am_tool build`, `install` and `package` do nothing here, and status 5 of `diff`, `push` and `mend`, that something differs,
counts as 0. A block with a tool of TOOLS is skipped if that isn't there.

Beyond that: samples/ has to be what tests/lib/samples.py has, each block of Rust in docs/library/ has to be in a source of crates/,
docs/PROOFS.md has to be what docs/promises.py makes, docs/pictures/layers.svg what docs/layers.py draws, docs/MAP.md has to name what is
there, CHANGELOG.md the program's version, and README.md figures of bench/RESULTS.md; each page has to link to what is there, and
README.md has to be short. The last line says how many passed.
"""

import collections
import glob
import json
import os
import re
import shutil
import signal
import socket
import subprocess
import sys
import tempfile
import textwrap
import time

from beside import Alive
from lib import members
from lib.members import TOP, bytes_of, free_ports, write
from lib.samples import REPLICAS, sample
from lib.tally import check, compare, finish, skip, try_each
from lib.versions import row

# The pages that are looked at, and the most words of README, as `wc -w` counts them.
PAGES = ["README.md", "CHANGELOG.md", "bench/README.md", "bench/RESULTS.md"]
PAGES += [f"docs/{it}.md" for it in "NIGHT MEND MEMBERS FORMATS MODEL PROOFS DECISIONS MAP CHANGING CASES LIBRARY".split()]
PAGES += [f"docs/library/{it}.md" for it in "am_merge am_snapshot am_instance am_member am_cluster".split()]
MOST_OF_README = 900

# The pages whose commands are run; those that speak of replicas at 10.0.0.1 and so on, and those that find a member's file.
DOCUMENTS = ["README.md", "docs/NIGHT.md", "docs/MEND.md", "docs/MEMBERS.md"]
NEAR_REPLICAS = ["docs/NIGHT.md", "docs/MEND.md", "docs/MEMBERS.md: Beside Alertmanagers"]
WITH_FILE = ["docs/MEND.md", "docs/MEMBERS.md: In production"]

# The section of docs/MEMBERS.md whose members another one goes on with.
GOES_ON = {"Pages that go out once": "Three members, step by step"}

# How the blocks begin that are text for files, and no commands.
FILES_SHOWN = ["PORT=", "PEERS=", "LISTEN=", "SOURCES=", "backend silences"]

MARK = re.compile(r"<!--(run|prints|prints among others)-->")
PORT = re.compile(r"\b(910[123]|9201|909[34])\b")

# What a text says that a block prints, and a block that posts a silence to a member.
PROMISED = re.compile(r'`("\w+":[^`]+)`')
POSTS = re.compile(r"^curl .*/api/v2/silences (?:-d|--data-binary) ", re.MULTILINE)

# What the pages post, as members list it.
POSTED = {
    "comment": "maintenance", "createdBy": "me", "status": {"state": "active"},
    "matchers": [{"name": "job", "value": "db", "isRegex": False, "isEqual": True}],
}  # fmt: skip

# What only some machines have.
TOOLS = ["amtool", "curl", "jq", "prometheus-alertmanager"]

# What no test can run, and what stands for it: another machine has its files in a folder of its name, and a system is left alone.
STAND_INS = {
    "ssh": """case $1 in -*) exit 0 ;; esac
host=$1; shift
exec sh -c "$(echo "$*" | sed "s|/var/lib/prometheus/alertmanager|$host|g")\"""",
    "scp": """while [ $# -gt 1 ]; do [ -e "${1%%:*}/${1##*/}" ] || exit 1; shift; done""",
    "systemctl": """echo "systemctl $*" >>told""",
    "journalctl": """echo "journalctl $*" >>told""",
    "install": """[ -s silences ] && [ -s nflog ]""",
}

# The silence that docs/NIGHT.md has ended at the second replica.
ACTIVE_AT_SECOND = "813e8f72-63a8-4a18-8572-a608e4754ec7"

# An entry of the log, which is kept for as long as the silences of samples/.
ENTRY = '{}:{job="db"} ops/webhook/0 updated 1709310904 expires 4865416504 firing 1,2'
LOG = {"a": ENTRY, "b": ENTRY, "c": ""}

WRAPPER = """#!/usr/bin/env bash
case ${{1-}} in
build | install | package) ;;
diff | push | mend) {program} "$@" || [ $? = 5 ] ;;
*) exec {program} "$@" ;;
esac
"""


# An indented block of a page: the mark above it ('run' if there is none), the number of its line, its section, the line of text
# above it, and its own text.
Block = collections.namedtuple("Block", "mark number section above text")


def blocks(path):
    """The indented blocks of a page."""
    mark, number, section, above, lines = "run", 0, "", "", []
    for at, line in enumerate([*content(f"{TOP}/{path}").split("\n"), "end"], 1):
        if line.startswith("    "):
            number = number if lines else at
            lines.append(line[4:])
        elif line == "" and lines:
            lines.append("")
        elif line:
            if lines:
                yield Block(mark, number, section, above, textwrap.dedent("\n".join(lines)).strip("\n"))
            found, lines = MARK.fullmatch(line), []
            mark = found[1] if found else "run"
            above = above if found else line
            section = line.lstrip("# ") if line.startswith("#") else section


def commands(path, section=None):
    """The blocks of a page, or of a section of it, but for those that are text for files."""
    found = [it for it in blocks(path) if section in (None, it.section)]
    return [it for it in found if it.mark != "run" or not it.text.startswith(tuple(FILES_SHOWN))]


def test_files_shown(_folder):
    """Each text of FILES_SHOWN is in one of the pages, and none in README.md."""
    texts = [it.text for path in DOCUMENTS for it in blocks(path)]
    compare("text for files that no page has", [it for it in FILES_SHOWN if not any(text.startswith(it) for text in texts)], [])
    compare("blocks of README.md that aren't run", len(commands("README.md")), len([*blocks("README.md")]))


def test_samples(_folder):
    for replica in REPLICAS:
        compare(f"samples/{replica}.sil", bytes_of(f"{TOP}/samples/{replica}.sil"), sample(replica))


def prepare(folder, name):
    """Puts the files into a folder that a page speaks of, or a section of it."""
    for place, replica in enumerate(REPLICAS, 1):
        os.mkdir(f"{folder}/am{place}")
        for file, data in (("silences", sample(replica)), ("nflog", row("nfl", LOG[replica]))):
            write(f"{folder}/am{place}/{file}", data)
    if name in WITH_FILE:
        write(f"{folder}/a.sil", sample("a"))
    os.makedirs(f"{folder}/docs")
    for it in ("samples", "docs/pictures", "install"):
        os.symlink(f"{TOP}/{it}", f"{folder}/{it}")
    os.mkdir(f"{folder}/bin")
    os.symlink("../am_tool", f"{folder}/bin/am_tool")
    scripts = {"am_tool": WRAPPER.format(program=members.program)}
    scripts.update({f"bin/{it}": f"#!/bin/sh\n{text}\n" for it, text in STAND_INS.items()})
    for it, text in scripts.items():
        write(f"{folder}/{it}", text.encode())
        os.chmod(f"{folder}/{it}", 0o755)


class Shell:
    """Runs blocks in a folder, and ends at the end all that they left running. Replicas, if there are some, are those of the page."""

    def __init__(self, folder, replicas_port=None):
        self.folder, self.groups = folder, []
        names = ["9101", "9102", "9103", "9201", "9093", "9094"]
        self.ports = dict(zip(names, map(str, free_ports(len(names)))))
        if replicas_port:
            self.ports["9094"] = str(replicas_port)

    def placed(self, text):
        """A text with the addresses and the ports of this run."""
        return PORT.sub(lambda it: self.ports[it[0]], text.replace("10.0.0.", "127.0.1."))

    def run(self, text):
        """The status and the output of a block. What it leaves running listens then, if it is to listen; a member that it would wait
        for is left running, too."""
        text = self.placed(text)
        if re.search(r"^\./am_tool instance ", text) and not text.endswith("&"):
            text += " &"
        env = {**os.environ, "PATH": f"{self.folder}/bin:{os.environ['PATH']}"}
        with open(f"{self.folder}/output", "w+", encoding="utf-8") as out, open(f"{self.folder}/error", "a", encoding="utf-8") as err:
            ran = subprocess.Popen(
                ["bash", "-euc", text], cwd=self.folder, env=env, stdin=subprocess.DEVNULL, stdout=out, stderr=err, start_new_session=True
            )
            self.groups.append(ran.pid)
            status = ran.wait(timeout=members.PATIENCE)
            for host, port in re.findall(r"--(?:peers-|web\.)?listen(?:-address)?[ =](?:([0-9.]+):)?(\d+)", text):
                listen(host or "127.0.0.1", int(port))
            out.seek(0)
            return status, out.read().rstrip("\n")

    def error(self):
        return content(f"{self.folder}/error")

    def end(self):
        for group in self.groups:
            try:
                os.killpg(group, signal.SIGKILL)
            except ProcessLookupError:
                pass


def listen(host, port):
    """Waits until something listens at a port, which is a case that fails where nothing does."""
    for _ in range(members.PATIENCE * 10):
        with socket.socket() as client:
            if client.connect_ex((host, port)) == 0:
                return
        time.sleep(0.1)
    check(f"something listens at {host}:{port}", False)


def lacking(text):
    """The first tool that a block runs and that isn't there."""
    return next((it for it in TOOLS if re.search(rf"(?:^|[|&;]) *{it} ", text, re.MULTILINE) and shutil.which(it) is None), None)


def try_blocks(path, found, shell):
    """Runs blocks, one after the other, and compares what they print."""
    printed = None
    for mark, number, _, above, text in found:
        name = f"{path}:{number}"
        if mark == "run":
            tool = lacking(text)
            if tool:
                skip(f"{path}: {tool} is not there")
                printed = None
                continue
            status, printed = shell.run(text)
            check(name, status == 0, f"status {status}, {printed}\n{shell.error()}")
            look_at_promises(name, above, printed)
            look_at_posts(name, text, printed, shell)
        elif printed is None:
            continue
        elif mark == "prints":
            compare(name, printed, text)
        else:
            rest = iter(printed.split("\n"))
            check(name, all(line in rest for line in text.split("\n")), printed)


def look_at_promises(name, above, printed):
    """Compares what a block prints with what the text above it says."""
    promised = PROMISED.findall(above) if above.endswith(":") else []
    compare(f"{name}: what it doesn't print and the text says", [it for it in promised if it not in printed], [])


def values_in(text):
    """The values of JSON that stand in a text, one behind the other."""
    found, at = [], 0
    while text[at:].strip():
        value, at = json.JSONDecoder().raw_decode(text, at + len(text[at:]) - len(text[at:].lstrip()))
        found.append(value)
    return found


def look_at_posts(name, text, printed, shell):
    """Looks whether what a block posts is listed by the members that it asks, at once or soon, and by amtool."""
    if "amtool" in text and "silence query" in text:
        check(f"{name}: amtool lists it", all(it in printed for it in (POSTED["comment"], POSTED["createdBy"], 'job="db"')), printed)
    if not POSTS.search(text):
        return
    wanted = {**POSTED, "id": values_in(printed)[0]["silenceID"]}
    lists = "\n".join(it for it in text.split("\n") if it.startswith("curl ") and not POSTS.match(it))
    found = lambda: [[{key: it.get(key) for key in wanted} for it in listed] for listed in values_in(shell.run(lists)[1])]
    asked = lists.count("curl ")
    check(f"{name}: other members are asked", asked > 1, text)
    check(f"{name}: what was posted is listed", members.eventually(lambda: found() == [[wanted]] * asked, 10), (found(), wanted))


def replicas():
    """Three replicas that drifted apart, at addresses of their own, and their port."""
    with socket.create_server(("127.0.1.1", 0)) as holder:
        port = holder.getsockname()[1]
    found = [Alive(at=(f"127.0.1.{place}", port)) for place in range(1, len(REPLICAS) + 1)]
    for replica, name in zip(found, REPLICAS):
        replica.held["sil"] = replica.read(sample(name))
    return found, port


def in_folder(name, work):
    """Does what a page or a section wants, in a folder of its own, beside replicas if it speaks of some."""
    found, port = replicas() if name in NEAR_REPLICAS else ([], None)
    with tempfile.TemporaryDirectory() as folder:
        prepare(folder, name)
        shell = Shell(folder, port)
        try:
            work(shell)
        finally:
            shell.end()
    compare(f"{name}: faults of the replicas", [it.faults for it in found], [[] for _ in found])
    return found


def try_page(path):
    """A page in one folder."""
    found = commands(path)
    check(f"{path} has commands", len(found) > 1, found)
    in_folder(path, lambda shell: try_blocks(path, found, shell))


def test_readme(_folder):
    try_page("README.md")


def test_mend(_folder):
    try_page("docs/MEND.md")


def test_members(_folder):
    """docs/MEMBERS.md, section by section."""
    path = "docs/MEMBERS.md"
    for section in dict.fromkeys(it.section for it in commands(path)):
        found = commands(path, section)
        before = commands(path, GOES_ON[section]) if section in GOES_ON else []
        in_folder(f"{path}: {section}", lambda shell: try_blocks(path, [*before, *found], shell))
    compare(f"sections of {path} that are named here and not there", set(GOES_ON) - {it.section for it in commands(path)}, set())


def test_night(_folder):
    """What docs/NIGHT.md has somebody do who was woken mends the second of three replicas."""
    path = "docs/NIGHT.md"

    def work(shell):
        with socket.socket() as server:
            server.bind(("127.0.1.2", 0))
            shell.ports["9093"] = str(server.getsockname()[1])
        # (the second replica answers amtool, too)
        status, _ = shell.run("./am_tool instance --name am2 --listen 10.0.0.2:9093 --sil am2/silences --nfl am2/nflog &")
        check("a server for amtool starts", status == 0, shell.error())
        try_blocks(path, [it._replace(text=it.text.replace(" ID", f" {ACTIVE_AT_SECOND}")) for it in commands(path)], shell)

    found = in_folder(path, work)
    words = [f"{name}={it.word}" for name, it in zip(("am1", "am2", "am3"), found)]
    status, output, error = members.run(["diff", "--state", "sil", *words])
    late = [it for it in output.decode().splitlines() if re.search(r" (behind|missing) (\S*,)?am2\b", it)]
    compare("am2 is mended then", (status in (0, 5), late, error), (True, [], ""))


def content(path):
    with open(path, encoding="utf-8") as file:
        return file.read()


def test_quotes(_folder):
    """What docs/library/ quotes is code."""
    sources = [content(it) for it in glob.glob(f"{TOP}/crates/*/src/**/*.rt", recursive=True)]
    for page in glob.glob(f"{TOP}/docs/library/*.md"):
        quotes = re.findall(r"```rust\n(.*?)```", content(page), re.DOTALL)
        check(page, quotes and all(any(it in source for source in sources) for it in quotes), quotes)


def test_promises(_folder):
    """docs/PROOFS.md is made from the marks beside the clauses."""
    ran = subprocess.run([sys.executable, f"{TOP}/docs/promises.py"], capture_output=True, text=True)
    check("docs/promises.py", ran.returncode == 0, ran.stderr)
    compare("docs/PROOFS.md (docs/promises.py --write makes it)", content(f"{TOP}/docs/PROOFS.md"), ran.stdout)


def test_changes(_folder):
    """CHANGELOG.md has the version that the program says it is."""
    version = members.run(["--version"])[1].decode().split()[-1]
    found = re.findall(r"^## ([0-9.]+)", content(f"{TOP}/CHANGELOG.md"), re.MULTILINE)
    newest_first = sorted(found, key=lambda it: [int(part) for part in it.split(".")], reverse=True)
    check(f"CHANGELOG.md has {version}, and the newest version first", version in found and found == newest_first, found)


def test_figures(_folder):
    """The figures of README.md's table are those of bench/RESULTS.md (all but "5.1 times" and "1.9 times", which are worked out of ratios there)."""
    table = content(f"{TOP}/README.md").partition("\n| Paged once")[2].partition("\n\n")[0]
    results = content(f"{TOP}/bench/RESULTS.md")
    numbers = [it for line in table.split("\n") for cell in line.split("|")[-3:-1] for it in re.findall(r"\d+(?:\.\d+)?", cell)]
    lost = [it for it in numbers if it not in ("5.1", "1.9") and not re.search(rf"(?<![\d.]){re.escape(it)}(?!\d)", results)]
    compare("figures of README.md that RESULTS.md doesn't have", lost, [])


def plain(page):
    """The text of a page without blocks and words of code, and without targets of links."""
    lines = [it for it in re.sub(r"```.*?```", "", page, flags=re.DOTALL).split("\n") if not it.startswith("    ")]
    return re.sub(r"\]\([^)]*\)", "]", re.sub(r"`[^`]*`", "`", "\n".join(lines)))


def anchors(page):
    """The anchors of a page: those that it names, and of its headings, as GitHub makes them."""
    headings = re.findall(r"^#+ (.*)$", plain(page), re.MULTILINE)
    return {re.sub(r"[^\w\- ]", "", it.lower()).replace(" ", "-") for it in headings} | set(re.findall(r'<a id="([\w-]+)">', page))


def broken_links(path, page):
    found = []
    for target in re.findall(r"\]\(([^)\s]+)\)", page):
        file, _, anchor = target.partition("#")
        if "://" in target:
            continue
        at = os.path.normpath(os.path.join(TOP, os.path.dirname(path), file)) if file else f"{TOP}/{path}"
        if not os.path.exists(at) or (anchor and anchor not in anchors(content(at))):
            found.append(target)
    return found


SOURCE = re.compile(r"\bam_\w+/(?:src/[\w/]+\.rt|specs/[\w/]+\.antt)\b")

# A source in a table, and the items in it that are named behind it: `am_x/src/y.rt`: `one`, `other`.
ITEMS = re.compile(r"`(am_\w+/(?:src|specs)/[\w/]+\.\w+)`: ((?:`\w+`(?:, )?)+)")


def is_item(source, name):
    return re.search(rf"\b(?:fn|struct|enum|trait|const|static|abbrev pub|abbrev|record|data) {name}\b", source)


def test_sources(_folder):
    """Each source that docs/MAP.md, docs/MODEL.md and docs/CHANGING.md name is there, with the items that they name in it, and
    docs/MAP.md names each crate."""
    for path in ("docs/MAP.md", "docs/MODEL.md", "docs/CHANGING.md"):
        page = content(f"{TOP}/{path}")
        lost = [it for it in SOURCE.findall(page) if not os.path.exists(f"{TOP}/crates/{it}")]
        compare(f"sources of {path} that are not there", lost, [])
        named = [(file, it) for file, names in ITEMS.findall(page) if file not in lost for it in re.findall(r"\w+", names)]
        lost = [(file, it) for file, it in named if not is_item(content(f"{TOP}/crates/{file}"), it)]
        compare(f"items of {path} that their source doesn't have", lost, [])
    page = content(f"{TOP}/docs/MAP.md")
    crates = [it for it in sorted(os.listdir(f"{TOP}/crates")) if os.path.isdir(f"{TOP}/crates/{it}/src")]
    compare("crates that docs/MAP.md doesn't name", [it for it in crates if not re.search(rf"\b{it}\b", page)], [])


def test_names(_folder):
    """Each name that docs/MODEL.md explains is an item of a crate that its row names."""
    page = content(f"{TOP}/docs/MODEL.md").partition("\n### Names in the code\n")[2].partition("\n## ")[0]
    sources = {}
    for path in glob.glob(f"{TOP}/crates/*/src/**/*.rt", recursive=True):
        sources.setdefault(path[len(f"{TOP}/crates/") :].split("/")[0], []).append(content(path))
    rows = [line.split(" | ", 1) for line in page.split("\n") if line.startswith("`")]
    lost = [
        name
        for names, rest in rows
        for name in re.findall(r"`(\w+)`", names)
        if not any(is_item(it, name) for crate in re.findall(r"\bam_\w+", rest) for it in sources.get(crate, []))
    ]
    compare("names of docs/MODEL.md that no crate of their row has", lost, [])
    compare("crates of docs/MODEL.md that are not there", sorted(set(re.findall(r"\bam_\w+", page)) - set(sources)), [])


def test_layers(_folder):
    """docs/pictures/layers.svg is what docs/layers.py draws of crates.txt, which has no crate that depends on a higher layer."""
    ran = subprocess.run([sys.executable, f"{TOP}/docs/layers.py"], capture_output=True, text=True)
    check("docs/layers.py", ran.returncode == 0, ran.stderr)
    compare("docs/pictures/layers.svg (docs/layers.py --write draws it)", content(f"{TOP}/docs/pictures/layers.svg") == ran.stdout, True)


def test_pages(_folder):
    """Each page links to what is there, and README is short."""
    here = [*glob.glob(f"{TOP}/docs/**/*.md", recursive=True), *glob.glob(f"{TOP}/bench/*.md"), f"{TOP}/README.md", f"{TOP}/CHANGELOG.md"]
    compare("pages", sorted(PAGES), sorted(os.path.relpath(it, TOP) for it in here))
    for path in PAGES:
        compare(f"{path}: broken links", broken_links(path, content(f"{TOP}/{path}")), [])
    words = len(content(f"{TOP}/README.md").split())
    check(f"README.md: at most {MOST_OF_README} words", words <= MOST_OF_README, words)


def main():
    if sys.argv[1:] == ["--write"]:
        for replica in REPLICAS:
            write(f"{TOP}/samples/{replica}.sil", sample(replica))
        return
    members.choose("documents", sys.argv[1:])
    with tempfile.TemporaryDirectory() as folder:
        try_each(TESTS, folder)
    finish("documents")


TESTS = [
    test_files_shown, test_samples, test_quotes, test_promises, test_sources, test_names, test_layers, test_pages, test_changes, test_figures,
    test_readme, test_night, test_mend, test_members,
]  # fmt: skip


if __name__ == "__main__":
    main()
