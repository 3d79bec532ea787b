"""Runs the gate, and makes a table of the processor seconds that each crate takes.

COMMAND is `rt ci` if it isn't given; what it prints is passed on, and its exit status is the script's. The table
is written to the file TABLE in Markdown. The gate's own log has no times, so the provers that it starts are looked
at twice a second: one that checks a crate counts as its proof, one that checks its tests as its tests, and one
that checks a copy with a must-fail edit as its edits. Measure on a machine that does nothing else.
"""

import os
import subprocess
import time

OPTIONS = {"TABLE": None, "COMMAND": ["rt", "ci"]}
KINDS = ["proof", "tests", "edits"]
TICKS = os.sysconf("SC_CLK_TCK")
PAUSE = 0.5


def read(path):
    try:
        with open(path, "rb") as file:
            return file.read()
    except OSError:
        return b""


def processes():
    """Parent, start and processor seconds of each process, by its number."""
    found = {}
    for name in os.listdir("/proc"):
        if name.isdigit():
            # the name in brackets may have blanks
            fields = read(f"/proc/{name}/stat").rpartition(b")")[2].split()
            if len(fields) > 19:
                seconds = (int(fields[11]) + int(fields[12])) / TICKS
                found[int(name)] = int(fields[1]), int(fields[19]), seconds
    return found


def below(top, found):
    """The processes that stem from one."""
    members = {top}
    for _ in found:
        more = {it for it, (parent, _, _) in found.items() if parent in members} - members
        if not more:
            break
        members |= more
    return members


def work_of(process):
    """The crate and the kind of work of a prover, or None for another process."""
    words = read(f"/proc/{process}/cmdline").decode(errors="replace").split("\0")
    if os.path.basename(words[0]) != "rattle" or "--crate-name" not in words[:-1]:
        return None
    crate = words[words.index("--crate-name") + 1]
    try:
        folder = os.readlink(f"/proc/{process}/cwd")
    except OSError:
        return None
    if os.path.basename(folder).startswith("rt-edit-"):
        return crate, "edits"
    return crate, "tests" if "--test" in words else "proof"


def measure(command):
    """The exit status, and the seconds of each prover by its number and start."""
    works, seconds = {}, {}
    with subprocess.Popen(command) as running:
        while running.poll() is None:
            found = processes()
            for process in below(running.pid, found):
                _, start, spent = found.get(process, (0, 0, 0))
                key = process, start
                # (a process that has just been made is not yet the program that it will be)
                works[key] = works.get(key) or work_of(process)
                if works[key]:
                    seconds[key] = spent
            time.sleep(PAUSE)
    table = {}
    for key, spent in seconds.items():
        crate, kind = works[key]
        table.setdefault(crate, dict.fromkeys(KINDS, 0.0))[kind] += spent
    return running.returncode, table


def lines_of(table):
    yield "| Crate | Proof, s | Tests, s | Edits, s | All, s |"
    yield "|---|---|---|---|---|"
    total = dict.fromkeys(KINDS, 0.0)
    for crate, row in sorted(table.items()):
        yield f"| {crate} | " + " | ".join(f"{row[kind]:,.0f}" for kind in KINDS) + f" | {sum(row.values()):,.0f} |"
        for kind in KINDS:
            total[kind] += row[kind]
    yield "| all | " + " | ".join(f"{total[kind]:,.0f}" for kind in KINDS) + f" | {sum(total.values()):,.0f} |"


def run(given):
    status, table = measure(given.COMMAND or OPTIONS["COMMAND"])
    with open(given.TABLE, "w", encoding="utf-8") as file:
        file.writelines(f"{line}\n" for line in lines_of(table))
    return status
