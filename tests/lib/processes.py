"""The processes that a script has started, and those that they have, also in sessions of their own."""

import contextlib
import os
import signal


def parents():
    """The parent of each process."""
    found = {}
    for name in filter(str.isdigit, os.listdir("/proc")):
        with contextlib.suppress(OSError), open(f"/proc/{name}/stat", encoding="utf-8", errors="replace") as file:
            found[int(name)] = int(file.read().rpartition(")")[2].split()[1])
    return found


def started():
    """The processes that this one has started and that run, and theirs."""
    of, found = parents(), {os.getpid()}
    while new := {it for it, parent in of.items() if parent in found} - found:
        found |= new
    return found - {os.getpid()}


def end(processes):
    """Kills processes, some of which may have ended."""
    for it in processes:
        with contextlib.suppress(ProcessLookupError):
            os.kill(it, signal.SIGKILL)
