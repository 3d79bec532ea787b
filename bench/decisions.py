"""What `decide` takes at a running member, beside a post of a silence in the same run.

A member holds N silences and N entries of the log (10,000 by default), and is asked without other clients, and then beside 4 that
read the list of all silences in a loop. Requests of each row come by turns with posts of a silence, N rounds (1,000 by default),
each on a new connection, since a member serves one request of a connection; turns aren't waited for. Told are the median and
the 99th part in microseconds, and their ratios to the posts of that row.

Then what an alert more of a message takes over 2,000 silences: those that want a label of it, and another one; and those that
have patterns for both. Told are the microseconds of each alert, and of a GET of one silence that is made meanwhile again and
again, the 99th part and the most.
"""

import contextlib
import functools
import json
import multiprocessing
import sys
import threading
import time

import serve

OPTIONS = {"--rounds": 1000, "--held": 10_000, "PROGRAM": serve.PROGRAM}
READERS = 4

# The alerts of a message, and what its group is called: entries and silences are those of bench/serve.py.
MESSAGES = {
    "one alert, never notified": ("new", [{"job": "quiet"}]),
    "one alert, notified before": ("job-7", [{"job": "quiet"}]),
    "one alert, muted": ("new", [{"job": "job-7"}]),
    "50 alerts, notified before": ("job-7", [{"job": "quiet", "instance": f"host-{it}"} for it in range(50)]),
}


def message(group, alerts):
    firing = [{"labels": {"alertname": "Down", **it}, "status": "firing"} for it in alerts]
    found = {"version": "4", "groupKey": f'{{}}:{{job="{group}"}}', "receiver": "team", "status": "firing"}
    return json.dumps({**found, "alerts": firing}).encode()


def by_turns(port, rounds, body):
    """The microseconds of each decide, and of each post."""
    calls = [("/v1/decide?wait=false&integration=email", body), ("/api/v2/silences", serve.posted(0))]
    times = [[], []]
    for _ in range(rounds):
        for (path, sent), found in zip(calls, times):
            begun = time.perf_counter()
            if serve.ask(port, "POST", path, sent) is None:
                sys.exit(f"{path} was not answered")
            found.append(1e6 * (time.perf_counter() - begun))
    return [(it[len(it) // 2], it[len(it) * 99 // 100]) for it in map(sorted, times)]


# How many silences alerts are held against that have something to do with them, and how many alerts of a message.
DEAR, MANY = 2000, 500


def dear(number, is_pattern):
    """A silence whose first label every alert of a message has, or might."""
    post = json.loads(serve.posted(number))
    values = [("job", "quiet|x" if is_pattern else "quiet"), ("instance", f"web-{number % 500}" + ".*" * is_pattern)]
    post["matchers"] = [{"name": name, "value": value, "isRegex": is_pattern} for name, value in values]
    return json.dumps(post).encode()


def beside_dear(port):
    """The microseconds that each alert more takes, and the 99th part and the most of GETs beside all of them."""
    whole, waits = [], []

    def decide(count):
        begun = time.perf_counter()
        alerts = [{"job": "quiet", "instance": f"host-{it}"} for it in range(count)]
        if serve.ask(port, "POST", "/v1/decide?wait=false", message("new", alerts)) is None:
            sys.exit("a message was not answered")
        whole.append(time.perf_counter() - begun)

    decide(1)
    deciding = threading.Thread(target=decide, args=(MANY,))
    deciding.start()
    while deciding.is_alive():
        begun = time.perf_counter()
        serve.ask(port, "GET", serve.ONE)
        waits.append(1e6 * (time.perf_counter() - begun))
    waits.sort()
    return 1e6 * (whole[1] - whole[0]) / (MANY - 1), waits[len(waits) * 99 // 100], waits[-1]


@contextlib.contextmanager
def readers(port, count):
    """Clients that read lists, each a process."""
    counter = multiprocessing.Value("q", 0)
    processes = [multiprocessing.Process(target=serve.read_lists, args=(port, counter), daemon=True) for _ in range(count)]
    for it in processes:
        it.start()
    time.sleep(1 if count else 0)
    yield
    for it in processes:
        it.terminate()
        it.join()


def run(words):
    start = functools.partial(serve.ours, program=words.PROGRAM)
    print("%-44s %18s %18s %14s" % ("in the middle / 99th part", "decide, us", "post, us", "ratio"))
    for count in (0, READERS):
        for title, (group, alerts) in MESSAGES.items():
            with serve.running(start, words.held) as port, readers(port, count):
                decides, posts = by_turns(port, words.rounds, message(group, alerts))
            ratios = tuple(decide / post for decide, post in zip(decides, posts))
            told = [it % figures for it, figures in (("%.0f / %.0f", decides), ("%.0f / %.0f", posts), ("%.2f / %.2f", ratios))]
            print("%-44s %18s %18s %14s" % (f"{title}{f', {count} readers' if count else ''}", *told), flush=True)
    print("%-44s %18s %18s" % (f"over {DEAR} silences", "an alert, us", "a GET, us"))
    for is_pattern, title in ((False, "with a label of the alerts"), (True, "with patterns")):
        with serve.running(start, 10) as port:
            for number in range(DEAR):
                serve.ask(port, "POST", "/api/v2/silences", dear(number, is_pattern))
            each, part, most = beside_dear(port)
        print("%-44s %18.1f %18s" % (title, each, f"{part:.0f} / {most:.0f}"), flush=True)
