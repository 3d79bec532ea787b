"""What a script passed, failed and skipped, and its last lines, which .ci/run reads. The words `-k WORD` of a script's command have it
run only the tests whose names have that word in them.

A test that doesn't end within TEST_LIMIT seconds has failed, and the next one is tried. With SCRIPT_LIMIT, as .ci/run has it, so has a
script. A test that can't go on and a script that ends leave no process behind that they have started."""

import atexit
import contextlib
import os
import signal
import sys
import threading
import time

from lib import processes

passed, failed, skipped = 0, 0, []


def word_of(words):
    """The word of `-k` among the words of a command, from which both are taken."""
    if "-k" not in words[:-1]:
        return ""
    at = words.index("-k")
    word = words[at + 1]
    del words[at : at + 2]
    return word


WORD = word_of(sys.argv)


def count(holds):
    """Counts a case, and answers whether it holds."""
    global passed, failed
    if holds:
        passed += 1
    else:
        failed += 1
    return holds


def compare(name, found, wanted):
    if not count(found == wanted):
        print(f"{name}: found\n  {found!r}\nand not\n  {wanted!r}", flush=True)


def check(name, holds, said=""):
    if not count(bool(holds)):
        print(f"{name}: not so; {said}", flush=True)


def skip(why, number=1):
    """Writes down that so many cases can't be tried on this machine, and why."""
    skipped.extend([why] * number)


class NoEnd(Exception):
    """A test doesn't end in time."""


def interrupt(*_):
    raise NoEnd(f"no end in {TEST_LIMIT} s")


@contextlib.contextmanager
def attempt(name, said=None):
    """What can't go on is a case that fails, and what was said until then is told. The processes end then that it has started."""
    before = processes.started()
    try:
        yield
    except Exception as fault:
        processes.end(processes.started() - before)
        check(f"{name} runs", False, f"{fault!r} {said or ''}")


@contextlib.contextmanager
def in_time():
    """Has something that doesn't end within TEST_LIMIT fail."""
    signal.signal(signal.SIGALRM, interrupt)
    signal.alarm(TEST_LIMIT)
    try:
        yield
    finally:
        signal.alarm(0)


def try_each(tests, folder):
    """Runs tests, each in a folder of its own; where one can't go on it fails, and the others are tried."""
    for test in tests:
        if WORD not in test.__name__:
            continue
        place = f"{folder}/{test.__name__}"
        os.mkdir(place)
        begun = time.monotonic()
        with attempt(test.__name__), in_time():
            test(place)
        if os.environ.get("TIMES"):
            print(f"{test.__name__}: {time.monotonic() - begun:.1f} s", flush=True)


def finish(title):
    """Ends a script with its last line, behind one for each cause of a skip. It fails where nothing passed."""
    for why in dict.fromkeys(skipped):
        print(f"{title}: skipped {skipped.count(why)}: {why}")
    if passed + failed == 0:
        check("something is tried", False, "nothing was")
    print(f"{title}: {passed} passed, {failed} failed" + (f", {len(skipped)} skipped" if skipped else ""))
    sys.exit(1 if failed else 0)


def give_up(title, why):
    """Ends a script that can't try anything, which is a failure."""
    print(why)
    count(False)
    finish(title)


def leave(script):
    """Ends what the script has started when it ends; a process that it forked leaves that to it."""
    if os.getpid() == script:
        processes.end(processes.started())


def end_script():
    """Ends a script that takes too long, which is a failure."""
    print(f"no end in {SCRIPT_LIMIT} s")
    processes.end(processes.started())
    print(f"{os.path.basename(sys.argv[0])}: {passed} passed, {failed + 1} failed", flush=True)
    os._exit(1)


# In seconds. A script whose time limit isn't given has none, as one that draws faults for hours.
TEST_LIMIT = int(os.environ.get("TEST_LIMIT", "1800"))
SCRIPT_LIMIT = int(os.environ.get("SCRIPT_LIMIT", "0"))

atexit.register(leave, os.getpid())
if SCRIPT_LIMIT:
    limit = threading.Timer(SCRIPT_LIMIT, end_script)
    limit.daemon = True
    limit.start()
