#!/usr/bin/env python3
"""Proves and builds am_tool, and the libraries below it, as many side by side as there are processors and memory.

    build.py [--anew] [--report]

It gives the crates that am_tool wants to the kit's prover, `rattle build`, on a copy of their files, each once those below it
are proved, and puts the program into crates/am_tool/out. What is proved is kept in out/proved of its crate, and isn't proved
again while it, and all below it, stays as it is; --anew proves all in any case. How far it is goes to standard error: at the
start how long all takes, and then a line as each crate is done. --report prints in the end what these lines estimated, beside
what came true, and how long each proof took. The gate, `rt ci`, proves the same, and also looks for contracts that no call can
meet.
"""

import contextlib
import fcntl
import hashlib
import os
import re
import shutil
import signal
import subprocess
import sys
import tempfile
import time

TOP = os.path.dirname(os.path.abspath(__file__))
PROGRAM = f"{TOP}/crates/am_tool/out/am_tool"
# The kit that the command rt belongs to.
KIT = os.path.dirname(os.path.dirname(os.path.realpath(shutil.which("rt") or "rt")))
# What a proof takes at most, in bytes of memory.
NEEDED = 4 << 30

# How many seconds the proof of a crate takes for each thousand lines by one process, where four run side by side.
PACES = {
    "am_version_order": 55, "am_wire": 66, "am_merge": 125, "am_silence": 80, "am_silence_json": 95, "am_nflog": 80,
    "am_gossip": 86, "am_collect": 222, "am_dedup": 81, "am_matcher": 95, "am_snapshot": 109, "am_store": 110,
    "am_report": 106, "am_http": 66, "am_instance": 93, "am_api_silences": 130, "am_api_decisions": 100, "am_metrics": 97,
    "am_api_status": 42, "am_peers": 117, "am_peer_auth": 106, "am_member": 105, "am_reactor": 82, "am_memberlist": 96,
    "am_alertmanager": 133, "am_diagnostics": 119, "am_options": 128, "am_server": 124, "am_backend": 166, "am_daemon": 201,
    "am_commands": 212, "am_schedule": 99, "am_runs": 84, "am_cluster": 97, "am_replay": 114, "am_player": 139,
    "am_tool": 5684,
}  # fmt: skip
# That of a crate which was not measured.
PACE = 130

# For how many seconds of proofs these numbers count, beside what crates have taken in this build.
TRUSTED = 120

# Of one proof: the most processes, how many times the work of one more than one do in all, and the crates that all wait for
# in the end, with how many they have in any case.
MOST = 4
FORKED = 1.35
LAST = {"am_daemon": 2}

# What the prover says at the end of a proof.
PROVED = re.compile(r"^logic=proved .*\n\Z", re.M)


def libraries(top=TOP):
    """The libraries that each crate of a tree stands on, by its name: the tree's own, and those of the kit."""
    lines = {}
    with open(f"{top}/crates.txt", encoding="utf-8") as file:
        for line in file:
            name, colon, rest = line.split("#")[0].partition(":")
            if colon:
                lines[name.strip()] = rest.split()
    return {name: ([it for it in rest if it in lines], ["std", *(it for it in rest if it not in lines)]) for name, rest in lines.items()}


def dependencies(top=TOP):
    """The libraries of a tree that each crate stands on, by its name."""
    return {name: own for name, (own, _) in libraries(top).items()}


def with_below(names, crates):
    """Crates and all that they stand on, each behind what it stands on."""
    found = []

    def add(name):
        if name not in found:
            for it in crates[name]:
                add(it)
            found.append(name)

    for name in names:
        add(name)
    return found


def copy_crates(names, folder):
    """Makes a tree of these crates, as they stand: without what was built, and without wrong bodies."""

    def left_out(at, files):
        return {"out", "must-fail"} & {*files} if os.path.dirname(at) == f"{TOP}/crates" else ()

    for name in names:
        shutil.copytree(f"{TOP}/crates/{name}", f"{folder}/crates/{name}", symlinks=True, ignore=left_out)
    shutil.copy(f"{TOP}/HANDLES", folder)
    with open(f"{TOP}/crates.txt", encoding="utf-8") as file:
        lines = [line for line in file if line.partition(":")[0].strip() in names]
    with open(f"{folder}/crates.txt", "w", encoding="utf-8") as file:
        file.writelines(lines)
    # (rt wants the top of a repository)
    os.mkdir(f"{folder}/.git")


def lines_of(folder, name):
    """How many lines of code a crate has."""
    lines = 0
    for at, folders, files in os.walk(f"{folder}/crates/{name}"):
        folders[:] = [it for it in folders if it != "out"]
        for file in files:
            if file.endswith(".rt"):
                with open(f"{at}/{file}", "rb") as text:
                    lines += text.read().count(b"\n")
    return lines


def seconds_of(name, lines):
    """How long the proof of a crate of so many lines takes on the machine of bench/RESULTS.md."""
    return max(10, PACES.get(name, PACE) * lines / 1000)


def places():
    """How many proofs there is room for."""
    with open("/proc/meminfo", encoding="ascii") as file:
        memory = 1024 * next(int(line.split()[1]) for line in file if line.startswith("MemAvailable:"))
    return max(1, min(len(os.sched_getaffinity(0)), memory // NEEDED))


class Plan:
    """Which crates are done, which run, since when and by how many processes, and how long is left.

    As soon as there is a place, the crate begins that has the longest chain of others behind it, of those whose libraries are
    done. One has more processes where nothing else can begin.
    """

    def __init__(self, tree, folder, number):
        self.tree, self.number = tree, number
        self.seconds = {name: seconds_of(name, lines_of(folder, name)) for name in tree}
        self.behind = dict(self.seconds)
        for name in reversed(with_below(tree, tree)):
            above = [self.behind[it] for it in tree if name in tree[it]]
            self.behind[name] += max(above, default=0)
        self.done, self.running, self.took = set(), {}, []
        # How long the crates that were proved took, and how long they are said to take.
        self.taken, self.said = TRUSTED, TRUSTED

    def next_of(self, done, running):
        """The crate that begins next, if one may, and how many processes it has; `running` has those of the crates that run."""
        idle = self.number - sum(running.values())
        ready = [it for it in self.tree if it not in done and it not in running and done.issuperset(self.tree[it])]
        if idle <= 0 or not ready:
            return None
        name = max(ready, key=self.behind.get)
        return name, min(MOST, self.number, max(1, idle // len(ready), LAST.get(name, 1)))

    def time_of(self, name, processes):
        """How long the proof of a crate takes by so many processes."""
        return self.seconds[name] * (FORKED / processes if processes > 1 else 1)

    def begin(self, now):
        """Begins the next crate, if one may; its name, and how many processes it has."""
        found = self.next_of(self.done, {it: processes for it, (_, processes) in self.running.items()})
        if found:
            self.running[found[0]] = now, found[1]
        return found

    def end(self, name, now):
        begun, processes = self.running.pop(name)
        self.done.add(name)
        self.took.append((name, begun, processes, now - begun))
        self.taken += now - begun
        self.said += self.time_of(name, processes)

    def left(self, now):
        """How many seconds all takes that isn't done."""
        slow, done, at = self.taken / self.said, set(self.done), now
        held = {it: processes for it, (_, processes) in self.running.items()}
        # (one that takes longer than is said takes a little longer still)
        takes = {it: slow * self.time_of(it, processes) for it, processes in held.items()}
        ends = {it: max(begun + takes[it], now + takes[it] / 10) for it, (begun, _) in self.running.items()}
        while True:
            while found := self.next_of(done, held):
                held[found[0]] = found[1]
                ends[found[0]] = at + slow * self.time_of(*found)
            if not ends:
                return at - now
            first = min(ends, key=ends.get)
            at = ends.pop(first)
            del held[first]
            done.add(first)


def minutes(seconds):
    return f"{max(1, round(seconds / 60))} min"


def say(text):
    print(f"am_tool: {text}", file=sys.stderr, flush=True)


class Told:
    """What is told while crates are proved, and what it estimated."""

    def __init__(self, plan):
        self.plan, self.begun, self.estimates = plan, time.time(), []
        left = self.estimate("the start")
        less = f"; {len(plan.done)} were proved before" if plan.done else ""
        count = len(plan.tree) - len(plan.done)
        crates = "a crate" if count == 1 else f"{count} crates, {plan.number} side by side"
        say(f"proves {crates}: about {minutes(left)} in all{less}")

    def estimate(self, when):
        now = time.time()
        left = self.plan.left(now)
        self.estimates.append((when, now - self.begun, left))
        return left

    def done(self, name):
        plan = self.plan
        plan.end(name, time.time())
        left = self.estimate(name)
        rest = f", about {minutes(left)} left" if len(plan.done) < len(plan.tree) else ""
        say(f"proved: {name}, {len(plan.done)} of {len(plan.tree)}{rest}")

    def report(self):
        """Prints each estimate of the whole time, beside that in which all was done, and what each proof took."""
        whole = time.time() - self.begun
        print(f"{'behind':<18}{'at, s':>8}{'in all, s':>12}{'off':>8}")
        for when, at, left in self.estimates:
            print(f"{when:<18}{at:8.0f}{at + left:12.0f}{(at + left) / whole - 1:8.0%}")
        print(f"\n{'crate':<18}{'from, s':>8}{'processes':>12}{'seconds':>8}")
        for name, begun, processes, seconds in self.plan.took:
            print(f"{name:<18}{begun - self.begun:8.0f}{processes:12}{seconds:8.0f}")
        print(f"it took {whole:.0f} s")


def content(path):
    with contextlib.suppress(FileNotFoundError), open(path, "rb") as file:
        return file.read()
    return b""


def sum_of(folder, *more):
    """A sum of the files of a folder, and of what else is given."""
    found = hashlib.sha256(repr(more).encode())
    for path in sorted(f"{at}/{name}" for at, _, names in os.walk(folder) for name in names):
        data = content(path)
        found.update(f"{os.path.relpath(path, folder)}\n{len(data)}\n".encode() + data)
    return found.hexdigest()


def library(folder, name):
    """Where the library of a crate of a tree is built."""
    return f"{folder}/libraries/{name}.rlib"


class Kept:
    """The libraries of a tree that were proved before: in out/proved of its crate each, beside the sum of all that its proof read."""

    def __init__(self, tree, folder):
        self.tree, self.folder, self.sums = tree, folder, {}
        kit = subprocess.run(["rt", "version"], stdout=subprocess.PIPE, check=False).stdout
        uses = libraries(folder)
        for name in with_below(tree, tree):
            below = [self.sums[it] for it in tree[name]]
            self.sums[name] = sum_of(f"{folder}/crates/{name}", kit, uses[name], below)

    def place(self, name):
        """Where the library of a crate is kept."""
        return f"{TOP}/crates/{name}/out/proved"

    def give(self, name):
        """Gives the tree the library of a crate, if the same was proved before; whether it was."""
        place, to = self.place(name), library(self.folder, name)
        if content(f"{place}/sum") != self.sums[name].encode():
            return False
        shutil.copytree(f"{place}/{name}.rlib", to, symlinks=True)
        return True

    def keep(self, name):
        """Keeps the library of a crate that was proved, if the crate is one of this repository."""
        place, made = self.place(name), library(self.folder, name)
        if not os.path.isdir(made) or not os.path.isdir(f"{TOP}/crates/{name}"):
            return
        shutil.rmtree(place, ignore_errors=True)
        shutil.copytree(made, f"{place}/{name}.rlib", symlinks=True)
        with open(f"{place}/sum", "w", encoding="ascii") as file:
            file.write(self.sums[name])


def words_of(name, folder, processes):
    """The words by which the prover proves a crate of a tree, and makes its library, or the object file of its program."""
    own, of_kit = libraries(folder)[name]
    is_program = os.path.exists(f"{folder}/crates/{name}/src/main.rt")
    words = [f"{KIT}/bin/rattle", "build", "--crate-name", name, "src/main.rt" if is_program else "src/lib.rt"]
    for it in [*(f"{it}={KIT}/rlibs/{it}.rlib" for it in of_kit), *(f"{it}={library(folder, it)}" for it in own)]:
        words += ["--extern", it]
    words += ["-L", f"dependency={KIT}/rlibs", "-L", f"dependency={folder}/libraries"]
    words += ["--antt-project", f"{KIT}/rattle/logic/antt-project.json", "--logic-built", f"{KIT}/logic_built"]
    words += ["--jobs", str(processes)]
    if is_program:
        return [*words, "--toolchain", f"{KIT}/toolchain", "--backend", "llvm", "-o", f"{folder}/{name}.o"]
    return [*words, "--statements", "-o", library(folder, name)]


def start(name, folder, processes):
    """Begins the proof of a crate, in a process group of its own. What it says goes into a file of the tree."""
    with open(f"{folder}/{name}.said", "wb") as said:
        how = {"cwd": f"{folder}/crates/{name}", "stdin": subprocess.DEVNULL, "stdout": said, "stderr": subprocess.STDOUT}
        return subprocess.Popen(words_of(name, folder, processes), start_new_session=True, **how)


@contextlib.contextmanager
def proofs():
    """The proofs that run, by their crates. They end, with all processes that they have begun, however this is left."""
    running = {}
    try:
        yield running
    finally:
        for process in running.values():
            with contextlib.suppress(ProcessLookupError):
                os.killpg(process.pid, signal.SIGKILL)
            process.wait()


def first_ended(running):
    while True:
        for name, process in running.items():
            if process.poll() is not None:
                return name
        time.sleep(0.1)


def link(name, folder):
    """Links the program of a crate that is proved, if it is one; what was said where that failed, and else nothing."""
    made = f"{folder}/{name}.o"
    if not os.path.exists(made):
        return ""
    words = [f"{KIT}/bin/rattle-link", "--target", "x86_64-unknown-linux-gnu", "--toolchain", f"{KIT}/toolchain"]
    words += ["-o", f"{folder}/{name}", made, f"{KIT}/c/libos_c.a", f"{KIT}/c/liblibc_c.a"]
    ran = subprocess.run(words, check=False, text=True, stdout=subprocess.PIPE, stderr=subprocess.STDOUT)
    return f"{ran.stdout}it ended with status {ran.returncode}\n" if ran.returncode else ""


def prove(told, kept):
    """Proves the crates of a tree that aren't done, and builds its programs; what was said where it failed, and else nothing."""
    plan, folder, killed = told.plan, kept.folder, set()
    os.makedirs(f"{folder}/libraries", exist_ok=True)
    with proofs() as running:
        while len(plan.done) < len(plan.tree):
            while found := plan.begin(time.time()):
                running[found[0]] = start(found[0], folder, found[1])
            name = first_ended(running)
            status = running[name].returncode
            if status == -signal.SIGKILL and name not in killed:
                killed.add(name)
                say(f"{name}: its proof was killed, most likely for memory: once more")
                running[name] = start(name, folder, 1)
                continue
            del running[name]
            said = content(f"{folder}/{name}.said").decode(errors="replace")
            failed = said if status or not PROVED.search(said) else link(name, folder)
            if failed:
                return f"of {name}:\n{failed}"
            kept.keep(name)
            told.done(name)
    return ""


@contextlib.contextmanager
def room():
    """A folder for a copy, which is removed however it is left."""
    folder = tempfile.mkdtemp(prefix="am_tool-build-")
    try:
        yield folder
    finally:
        shutil.rmtree(folder, ignore_errors=True)


@contextlib.contextmanager
def alone():
    """Waits until no other build runs in this checkout."""
    with open(__file__, "rb") as file:
        try:
            fcntl.flock(file, fcntl.LOCK_EX | fcntl.LOCK_NB)
        except BlockingIOError:
            say("another build runs in this checkout: waiting for it")
            fcntl.flock(file, fcntl.LOCK_EX)
        yield


def stamp(sources):
    """What tells that the program that stands in its place was built from sources of this sum."""
    return f"{sources} {hashlib.sha256(content(PROGRAM)).hexdigest()}\n".encode()


def put_program(made, sources):
    """Puts a program into its place, and beside it what it was built from."""
    os.makedirs(os.path.dirname(PROGRAM), exist_ok=True)
    shutil.copy(made, f"{PROGRAM}.new")
    os.replace(f"{PROGRAM}.new", PROGRAM)
    with open(f"{PROGRAM}.sum", "wb") as file:
        file.write(stamp(sources))


def prove_rest(kept, anew=False):
    """Proves the crates of a tree, but those that were proved before; what was said where it failed, and what was told."""
    plan = Plan(kept.tree, kept.folder, places())
    plan.done.update(it for it in kept.tree if not anew and kept.give(it))
    told = Told(plan)
    return prove(told, kept), told


def build(anew, reports):
    """Proves all and builds the program, unless nothing has changed since that; the exit status."""
    crates, begun = dependencies(), time.time()
    tree = {it: crates[it] for it in with_below(["am_tool"], crates)}
    with room() as folder:
        copy_crates(tree, folder)
        kept = Kept(tree, folder)
        sources = kept.sums["am_tool"]
        if content(f"{PROGRAM}.sum") == stamp(sources) and not anew:
            say("nothing has changed since it was built")
        else:
            failed, told = prove_rest(kept, anew)
            if failed:
                say(f"not built; the prover said {failed[-4000:]}")
                return 1
            put_program(f"{folder}/am_tool", sources)
            say(f"built in {minutes(time.time() - begun)}: crates/am_tool/out/am_tool")
            if reports:
                told.report()
    # (it is as old as the sources that were copied)
    os.utime(PROGRAM, (begun, begun))
    return 0


def main():
    words = sys.argv[1:]
    if not {*words} <= {"--anew", "--report"}:
        print(__doc__, file=sys.stderr)
        return 2
    for it in (signal.SIGTERM, signal.SIGHUP):
        signal.signal(it, lambda number, _: sys.exit(128 + number))
    try:
        with alone():
            return build("--anew" in words, "--report" in words)
    except KeyboardInterrupt:
        say("stopped; what was proved so far is kept")
        return 130


if __name__ == "__main__":
    sys.exit(main())
