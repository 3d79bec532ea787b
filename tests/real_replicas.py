#!/usr/bin/env python3
"""Lets replicas of a real Alertmanager drift apart, and compares and mends their files by the built am_tool.

    tests/real_replicas.py [PROGRAM]

PROGRAM is crates/am_tool/out/am_tool if it isn't given; ./am_tool and rt ci build it. The replicas are three of Debian's
prometheus-alertmanager on loopback; where it isn't installed nothing is tried. First all are peers. Then c is on its own, while
silences are made, changed and ended and a group is notified: `am_tool diff` has to tell of just these, of the replicas while
they run and of their files. Then all are peers again, and nothing is told. Last a file is changed by hand, which no replica tells its peers, and mended by `am_tool fold`. It takes two
minutes or so. Prints each case that fails, and at the end how many passed.
"""

import datetime
import re
import shutil
import sys
import tempfile
import time

from lib import members
from lib.alertmanagers import FILES, RETENTION, Replica, diff, end, files, must_be_installed, receiver, start, stop, three
from lib.api import silence
from lib.members import bytes_of, eventually, run, write
from lib.tally import check, compare, finish

TITLE = "real replicas"

# An hour in nanoseconds.
HOUR = 3600 * 10**9


def same(replicas, keys):
    """Waits until replicas show these silences and no others, in the same versions."""
    shown = lambda: [it.listed() for it in replicas]
    alike = lambda found: all(it == found[0] for it in found) and sorted(found[0]) == sorted(keys)
    check("they show the same", eventually(lambda: alike(shown())), shown())


def servers(replicas):
    return {it.name: f"http://127.0.0.1:{it.web}" for it in replicas}


def nothing(title, state, sources, *words):
    compare(title, diff(state, sources, *words), (0, [], ""))


def fold(replicas, state, path):
    """Writes the fold of the files of replicas to a file."""
    whole = b"".join(bytes_of(it) for it in files(replicas, state).values())
    status, output, error = run(["fold", "--state", state, "--now", "0"], input=whole)
    compare("a fold", (status, error), (0, ""))
    write(path, output)


def line(silence, relation, names, state=None, by=None):
    """The line of a group of sources, which show the silence so; the state is that one if none is named."""
    words = ["sil", silence["id"], relation, names]
    if relation != "missing":
        words += [state or silence["status"]["state"], silence["updatedAt"], silence["endsAt"]]
    return " ".join(words + (["by", by] if by else []))


def hours_after(moment, hours):
    """So many hours after a moment of API v2, in nanoseconds."""
    whole = datetime.datetime.strptime(moment[:19] + "+0000", "%Y-%m-%dT%H:%M:%S%z")
    return str(int(whole.timestamp()) * 10**9 + hours * HOUR)


def test_together(three):
    """What was made while all were peers is the same in all files; answers the silences by name."""
    start(three)
    a, b, c = three
    keys = {name: replica.post(name, f"{name} on all") for name, replica in zip(("kept", "ended", "changed", "both"), (a, b, c, a))}
    same(three, keys.values())
    stop(three)
    for state in FILES:
        nothing(f"{state}, all being peers", state, files(three, state))
    return keys


def drift(three, keys, hook):
    """Changes what c doesn't hear of, and at c what the others don't; answers what a and c then show, and what is told of all."""
    a, b, c = three
    start([a, b], [c])
    keys["new"] = b.post("new", "made at b")
    keys["lonely"] = c.post("lonely", "made at c")
    b.change(keys["changed"], "changed at b")
    a.change(keys["both"], "changed at a")
    end(c, keys["ended"])
    compare("c ends the other one", c.ask("DELETE", f"silence/{keys['both']}"), True)
    alert = {"labels": {"alertname": "Down", "job": "web"}, "startsAt": silence("web")["startsAt"]}
    compare("a is told of an alert", a.ask("POST", "alerts", [alert]), True)
    check("a notifies", eventually(lambda: hook.notified), hook.notified)
    same([a, b], [key for name, key in keys.items() if name != "lonely"])
    same([c], [key for name, key in keys.items() if name != "new"])
    # (no call of the API tells whether b has the entry)
    time.sleep(2)
    shown = a.listed(), c.listed(), diff("sil", servers(three))
    stop(three)
    return shown


def told(keys, here, there):
    """The lines of what differs between a and b here and c there."""
    lines = {
        "ended": [line(there["ended"], "greatest", "c"), line(here["ended"], "behind", "a,b", by="update")],
        "changed": [line(here["changed"], "greatest", "a,b"), line(there["changed"], "behind", "c", by="update")],
        "both": [line(there["both"], "greatest", "c"), line(here["both"], "behind", "a,b", by="update")],
        "new": [line(here["new"], "greatest", "a,b"), line(here["new"], "missing", "c")],
        "lonely": [line(there["lonely"], "greatest", "c"), line(there["lonely"], "missing", "a,b")],
    }
    return [it for name in sorted(lines, key=keys.get) for it in lines[name]]


def test_apart(three, keys, hook):
    """What was changed while c was on its own is told, and nothing else."""
    at_a, at_c, asked = drift(three, keys, hook)
    here, there = ({name: shown.get(key) for name, key in keys.items()} for shown in (at_a, at_c))
    lines = told(keys, here, there)
    compare("servers, c on its own", asked, (5, lines, ""))
    silences = files(three, "sil")
    compare("silences, c on its own", diff("sil", silences), (5, lines, ""))
    compare("all that is held of them", diff("sil", silences, "--held"), (5, lines, ""))

    # once the end is no longer kept, nothing is what all should show
    later = hours_after(there["ended"]["endsAt"], RETENTION + 1)
    gone = [line(there["ended"], "greatest", "c", "gone"), line(here["ended"], "behind", "a,b", "expired", "update")]
    status, found, error = diff("sil", silences, "--now", later)
    compare("an end that is over", (status, [it for it in found if keys["ended"] in it], error), (5, gone, ""))

    status, found, error = diff("nfl", files(three, "nfl"))
    moment = r"\d{4}-\d\d-\d\dT\d\d:\d\d:\d\d\.\d{3}Z"
    group = r'nfl {}:{alertname="Down"} hook webhook 0'
    forms = [rf"{re.escape(group)} greatest a,b {moment} {moment} \d+ -", rf"{re.escape(group)} missing c"]
    fits = len(found) == 2 and all(re.fullmatch(form, it) for form, it in zip(forms, found))
    check("the log, c on its own", (status, fits, error) == (5, True, ""), (status, found, error))


def test_again(three, keys, top):
    """What replicas agree on once they are peers again is the fold of their files, and nothing is told."""
    folds = {state: f"{top}/{name}" for state, name in FILES.items()}
    for state, path in folds.items():
        fold(three, state, path)
    start(three)
    same(three, keys.values())
    nothing("servers, all being peers again", "sil", servers(three))
    stop(three)
    for state, path in folds.items():
        nothing(f"{state}, all being peers again", state, files(three, state))
        nothing(f"{state}, beside the fold", state, {**files(three, state), "fold": path}, "--held")


def test_by_hand(three, keys, top):
    """A change without a later update is told by its bytes, also once replicas have met; the fold mends it."""
    a, b, c = three
    before = bytes_of(f"{b.folder}/silences")
    write(f"{b.folder}/silences", before.replace(b"kept on all", b"kept on one"))
    start(three)
    shown = b.listed()[keys["kept"]]
    compare("b shows it", shown["comment"], "kept on one")
    compare("a doesn't take it", a.listed()[keys["kept"]]["comment"], "kept on all")
    stop(three)
    lines = [line(shown, "greatest", "b"), line(shown, "behind", "a,c", by="bytes")]
    compare("a change by hand", diff("sil", files(three, "sil")), (5, lines, ""))
    fold(three, "sil", f"{top}/mended")
    for replica in three:
        shutil.copy(f"{top}/mended", f"{replica.folder}/silences")
    start(three)
    same(three, keys.values())
    compare("c shows it", c.listed()[keys["kept"]]["comment"], "kept on one")
    stop(three)
    nothing("what was mended", "sil", files(three, "sil"), "--held")


def main():
    must_be_installed(TITLE)
    members.choose(TITLE, sys.argv[1:])
    with tempfile.TemporaryDirectory() as top:
        hook = receiver(f"{top}/config.yml")
        with three(lambda name: Replica(name, top, f"{top}/config.yml")) as all_of:
            keys = test_together(all_of)
            test_apart(all_of, keys, hook)
            test_again(all_of, keys, top)
            test_by_hand(all_of, keys, top)
    finish(TITLE)


if __name__ == "__main__":
    main()
