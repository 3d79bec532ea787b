"""Incidents and faults that are drawn beforehand, what goes on around those who page, and the judge of what was paged: of
tests/pages.py and tests/real_pages.py.

Moments and times are seconds, and moments count from the start of a round.
"""

import collections
import contextlib
import json
import math
import random
import time

from lib.alert_hashes import hash_of, text_of
from lib.api import moment

NAMES = ["a", "b", "c"]
PAIRS = [(sender, peer) for sender in NAMES for peer in NAMES if sender != peer]

# How long a member waits for each one before it; how long a group waits at first, and how long from one look at it to the next;
# and by how much later than others a notifier may see something.
TURN, GROUP_WAIT, INTERVAL, SKEW = 1, 0.5, 3.5, 0.2
TURNS = {name: TURN * place for place, name in enumerate(NAMES)}
ALL_TURNS = max(TURNS.values())

# How long after a fault, or on a machine that has much else to do, anything may take that has to come.
SLACK = 1.5

# For how long somebody has to be let alone, who then surely pages what fires: it may have begun to wait with what it saw before.
NEED = {name: GROUP_WAIT + SKEW + INTERVAL + 2 * turn + SLACK for name, turn in TURNS.items()}

# When an entry of the log that was made is at the other members, where nothing goes wrong; and how long a fault may work on.
SPREAD, LATE = 0.6, 4

# How late something is where the machine has much else to do.
LATE_REPLY = 0.25

# Causes of pages of what had been paged: none; that somebody waited for a turn with what its incident showed no more; that a
# member took long to answer, or all did; that a notifier came to ask so late that two turns met; and that one asks at another
# moment than the others since something went wrong with it.
NO_CAUSE, CHANGED_MEANWHILE = "no cause", "changed while somebody waited"
SLOW, SLOW_MACHINE, LATE_CALLER = "a member answered late", "slow machine", "a notifier came late"
APART = "asked at other moments since a fault"

# What may happen to a member and to a notifier, and how often among the others.
MEMBERS_FAULTS = {"kill": 3, "freeze": 3, "stop": 2}
NOTIFIERS_FAULTS = {"die_behind_a_page": 3, "die": 2, "doze": 3}

# How many incidents begin in a second, and how often they have a second alert, and a silence.
RATE, CHANGED, SILENCED = 2.5, 0.6, 0.3

# What is done to somebody at a moment, and for how long.
Act = collections.namedtuple("Act", "at name lasts")

# What an incident shows: which of its alerts fire, and which are over.
Content = collections.namedtuple("Content", "firing resolved")


class Silence:
    """A silence of some alerts of an incident, from before that begins: until it is over, or for a part of the time."""

    def __init__(self, incident, draw):
        self.at = max(0, incident.begins - 3)
        self.parts = draw.choice([(0,), (1,), (0, 1), (0, 1)])
        self.until = draw.choice([incident.ends + 60, draw.uniform(incident.begins, incident.ends)])
        # since when members were seen to hold it, by their names and the numbers of their starts
        self.held = {}


class Incident:
    """One alert, or two of which the second begins to fire later, in a group of their own; and when they end."""

    def __init__(self, number, draw, last):
        before, behind = draw.uniform(3, 10) if draw.random() < CHANGED else 0, draw.uniform(3, 10)
        self.begins = draw.uniform(0.5, max(1, last - before - behind))
        self.changes = self.begins + before if before else math.inf
        self.ends = self.begins + before + behind
        self.name = f"i{number}"
        self.key = f'{{}}:{{incident="{self.name}"}}'
        self.skew = {name: draw.uniform(0, SKEW) for name in NAMES}
        self.silence = Silence(self, draw) if draw.random() < SILENCED else None
        self.hashes = {text_of(hash_of(self.labels(part))): part for part in (0, 1)}

    def labels(self, part):
        return {"alertname": "Down", "incident": self.name, "part": str(part)}

    def content(self, at):
        """What it shows at a moment from its begin on."""
        parts = (0, 1) if self.changes <= at else (0,)
        whole = (0, 1) if self.changes < self.ends else (0,)
        return Content((), whole) if self.ends <= at else Content(parts, ())

    def phases(self):
        """The moments from which it shows something else, until the next of them."""
        moments = [it for it in (self.begins, self.changes, self.ends) if it < math.inf]
        return list(zip(moments, [*moments[1:], math.inf]))

    def wanted(self):
        """Its alerts, with from when and until when each fires and no silence mutes it."""
        for part, begins in ((0, self.begins), (1, self.changes)):
            if self.silence and part in self.silence.parts:
                begins = max(begins, self.silence.until + SLACK)
            if begins < self.ends:
                yield part, begins, self.ends

    def message(self, content):
        """What a notifier posts of it: the body of Alertmanager's webhook, version 4."""
        states = [(it, "firing") for it in content.firing] + [(it, "resolved") for it in content.resolved]
        alerts = [{"labels": self.labels(part), "annotations": {}, "status": state} for part, state in states]
        found = {"version": "4", "groupKey": self.key, "receiver": "pager", "status": states[0][1], "truncatedAlerts": 0}
        return json.dumps({**found, "alerts": alerts}).encode()


class Plan:
    """What happens in a round: incidents all the time, and faults in stretches of it."""

    def __init__(self, seed, seconds):
        draw = random.Random(f"{seed} plan")
        # all is over some time before the end, so that what is paged then can be waited for
        self.end, last = seconds, max(8, seconds - INTERVAL - SKEW - ALL_TURNS - SLACK)
        self.rough = list(stretches(draw, last))
        self.incidents = [Incident(number, draw, last) for number in range(int(RATE * last))]
        self.incidents.sort(key=lambda it: it.begins)
        self.members = {name: list(acts(draw, MEMBERS_FAULTS, self.rough, name)) for name in NAMES}
        self.notifiers = {name: list(acts(draw, NOTIFIERS_FAULTS, self.rough, name)) for name in NAMES}
        self.weathers = [it for stretch in self.rough for it in weathers(draw, stretch)]


def stretches(draw, seconds):
    """The stretches in which things go wrong: from when and until when, and to whom most happens."""
    at = draw.uniform(6, 9)
    while at < seconds - 2:
        end = min(at + draw.uniform(5, 9), seconds)
        yield at, end, draw.sample(NAMES, draw.choice([1, 2, 2, 3]))
        at = end + draw.uniform(8, 14)


def acts(draw, chances, rough, victim):
    """What happens to one."""
    for begin, end, victims in rough:
        at = begin + draw.uniform(0, 3) if victim in victims else end
        while at < end:
            (name,) = draw.choices(list(chances), chances.values())
            yield Act(at, name, draw.choice([draw.uniform(0.2, 2), draw.uniform(2, 5)]))
            at += draw.uniform(1, 7)


def weathers(draw, stretch):
    """From when on which weather is between which members; in the end it is fair everywhere."""
    at, end, _ = stretch
    while at < end:
        name = draw.choice(NAMES)
        chosen = draw.choice([[draw.choice(PAIRS)], [it for it in PAIRS if name in it]])
        yield at, draw.choice(["storm", "storm", "apart", "fair", "fair"]), chosen
        at += draw.uniform(0.2, 2)
    yield end, "fair", PAIRS


class Clock:
    """The time of a round."""

    def __init__(self):
        self.begun = time.monotonic()

    def now(self):
        return time.monotonic() - self.begun

    def wait(self, moment, over):
        """Waits until a moment; whether it came before that was over."""
        return not over.wait(max(0, moment - self.now()))


class Trouble:
    """One fault: what it was, with whom (a name, or a pair of them; all, where it is none), from when and until when."""

    def __init__(self, kind, who, begun):
        self.kind, self.who, self.begun, self.ended = kind, who, begun, math.inf


class Troubles:
    """All that goes wrong in a round."""

    def __init__(self, clock):
        self.clock, self.found = clock, []

    @contextlib.contextmanager
    def of(self, kind, who):
        """Writes down that something goes wrong for as long as this lasts."""
        trouble = Trouble(kind, who, self.clock.now())
        self.found.append(trouble)
        try:
            yield trouble
        finally:
            trouble.ended = self.clock.now()

    def change(self, pair, weather):
        """Writes down the weather from one member to another, from now on."""
        for it in self.found:
            if it.who == pair and it.ended == math.inf:
                it.ended = self.clock.now()
        if weather != "fair":
            self.found.append(Trouble(weather, pair, self.clock.now()))

    def add(self, kind, who, begun):
        """Writes down what went wrong until now."""
        trouble = Trouble(kind, who, begun)
        trouble.ended = self.clock.now()
        self.found.append(trouble)

    def watch(self, over):
        """Writes down where this machine has so much else to do that nobody is punctual."""
        while not over.is_set():
            begun = self.clock.now()
            time.sleep(0.05)
            if self.clock.now() - begun > LATE_REPLY:
                self.add(SLOW_MACHINE, None, begun)

    def ping(self, member, over):
        """Writes down where a member is late to answer, as one is that gets no processor or waits for its disk."""
        while not over.wait(0.2):
            begun = self.clock.now()
            member.request("GET", "/api/v2/silence/none")
            if self.clock.now() - begun > LATE_REPLY:
                self.add(SLOW, member.name, begun)

    def kinds(self, whom, begin, end):
        """What went wrong with any of these within a time: the first first, and last what shows that the machine is slow."""
        whom = {*whom, None}
        found = [it for it in list(self.found) if it.who in whom and it.begun < end and begin < it.ended]
        return [it.kind for it in sorted(found, key=lambda it: (it.kind in (SLOW, SLOW_MACHINE), it.begun))]

    def anywhere(self, begin, end):
        return self.kinds([*NAMES, *PAIRS], begin, end)

    def let_alone(self, who, begin, end, need):
        """The first moment within a time from which nothing goes wrong with somebody for so long; none where there is none."""
        for it in sorted((it for it in self.found if it.who in (who, None)), key=lambda it: it.begun):
            if it.begun - begin >= need:
                break
            begin = max(begin, it.ended)
        return begin if end - begin >= need else None


class Silencer:
    """Posts the silence of an incident to any member that takes it, and looks which members hold it."""

    def __init__(self, round_, incident):
        self.round, self.clock, self.over = round_, round_.clock, round_.is_over
        self.incident, self.silence = incident, incident.silence
        self.draw = random.Random(f"{round_.seed} {incident.name}")

    def work(self):
        if not self.clock.wait(self.silence.at, self.over):
            return
        while self.clock.wait(self.clock.now() + 0.2, self.over) and self.clock.now() < self.silence.until:
            member = self.draw.choice(self.round.members)
            status, body = member.request("POST", "/api/v2/silences", self.posted())
            if status == 200:
                self.watch(json.loads(body)["silenceID"])
                return

    def posted(self):
        parts = "|".join(map(str, self.silence.parts))
        matchers = [("incident", self.incident.name, False), ("part", parts, True)]
        now = time.time()
        return json.dumps({
            "matchers": [{"name": name, "value": value, "isRegex": regex} for name, value, regex in matchers],
            "startsAt": moment(int(1000 * now)),
            "endsAt": moment(int(1000 * (now + self.silence.until - self.clock.now()))),
            "createdBy": "pages.py",
            "comment": self.incident.name,
        }).encode()  # fmt: skip

    def watch(self, key):
        """Writes down since when which members hold it."""
        until = min(self.silence.until, self.incident.ends + INTERVAL)
        while self.clock.wait(self.clock.now() + 0.3, self.over) and self.clock.now() < until:
            for it in self.round.members:
                start = self.round.start_of(it)
                if it.request("GET", f"/api/v2/silence/{key}", limit=0.5)[0] == 200 and start == self.round.start_of(it):
                    self.silence.held.setdefault((it.name, start), self.clock.now())


class Surroundings:
    """What goes on in a round beside members and notifiers: silences are posted, the weather changes, and who is slow is written
    down."""

    def begin_around(self):
        for it in self.plan.incidents:
            if it.silence:
                self.thread(Silencer(self, it).work)
        self.thread(self.change_weather)
        self.thread(self.troubles.watch, self.is_over)
        for it in self.members:
            self.thread(self.troubles.ping, it, self.is_over)

    def change_weather(self):
        for at, weather, pairs in self.plan.weathers:
            if not self.clock.wait(at, self.is_over):
                return
            for it in pairs:
                self.set_weather(it, weather)
                self.troubles.change(it, weather)


class Page:
    """A page that went out: of which incident and what, who sent it and when; when its member was asked, when it was due to
    answer, and when it did; when the page was in the log; and by how much later its notifier asked than it was to."""

    def __init__(self, incident, who, content, asked, due, replied, at, late=0):
        self.incident, self.who, self.content, self.late = incident, who, content, late
        self.asked, self.due, self.replied, self.at, self.logged = asked, due, replied, at, None
        # whether its notifier died behind it; by which start of its member it was decided on, if by one
        self.is_last, self.start = False, None

    def __repr__(self):
        moments = ["-" if it is None else f"{it:.2f}" for it in (self.asked, self.replied, self.at, self.logged)]
        late = f", asked {self.late:.2f} late" if self.late > LATE_REPLY else ""
        return f"{self.incident.name} {self.content.firing}{self.content.resolved} by {self.who} at {'/'.join(moments)}{late}"


def met_by_lateness(former, page):
    """Whether the turns of two pages met, and would not have if their notifiers had asked when they were to."""
    met = abs(page.due - former.due) < SPREAD + LATE_REPLY
    meant = abs((page.due - page.late) - (former.due - former.late))
    return met and meant > SPREAD and max(former.late, page.late) > LATE_REPLY


class Judge:
    """Looks at the pages of a round, with what went wrong; `longest` is after how long nothing of a fault is left, and `need` for
    how long who is let alone surely pages."""

    def __init__(self, plan, pages, troubles, longest, need):
        self.plan, self.troubles, self.longest, self.need = plan, troubles, longest, need
        self.pages = collections.defaultdict(list)
        for it in sorted(pages, key=lambda it: it.at):
            self.pages[it.incident].append(it)
        self.counts, self.causes = collections.Counter(), collections.Counter()
        self.lost, self.twice, self.muted, self.spoiled = [], [], [], set()

    def judge(self):
        for it in self.plan.incidents:
            self.judge_lost(it)
            self.judge_twice(it)
            self.judge_once(it)
            self.judge_muted(it)
            self.counts["incidents"] += 1
            self.counts["incidents that were paged"] += bool(self.pages[it])
            self.counts["pages"] += len(self.pages[it])

    def judge_lost(self, incident):
        """Each alert that fires for longer than all turns is paged: somebody was let alone for long enough."""
        for part, begins, ends in incident.wanted():
            found = {name: self.troubles.let_alone(name, begins, ends, need) for name, need in self.need.items()}
            deadlines = [at + self.need[name] for name, at in found.items() if at is not None]
            if not deadlines:
                continue
            self.counts["alerts that had to be paged"] += 1
            if not any(part in it.content.firing and it.at <= min(deadlines) for it in self.pages[incident]):
                self.counts["of these lost"] += 1
                self.lost.append(f"{incident.name}/{part} fires {begins:.2f}..{ends:.2f}: {self.pages[incident]}")

    def judge_twice(self, incident):
        """What is paged again has a cause."""
        for place, page in enumerate(self.pages[incident]):
            before = [it for it in self.pages[incident][:place] if it.content == page.content]
            if before:
                cause = self.cause(before[-1], page)
                self.causes[cause] += 1
                if cause in (CHANGED_MEANWHILE, SLOW, SLOW_MACHINE, LATE_CALLER):
                    self.spoiled.add(incident)
                if NO_CAUSE in (self.cause(it, page) for it in before):
                    self.twice.append(f"{before} and then {page}")

    def cause(self, former, page):
        """Why a page went out although a former one of the same content had."""
        if any(former.at < it.at < page.at and it.content != page.content for it in self.pages[page.incident]):
            return CHANGED_MEANWHILE
        if former.is_last:
            return "died behind the page"
        both = [former.who, page.who]
        if former.logged is not None and former.logged < page.due - SPREAD:
            begin = max(former.logged - LATE, page.due - self.longest)
            found = self.troubles.kinds([*both, (former.who, page.who)], begin, page.replied)
        else:
            # it was logged too late for the later one, or is that one's own
            found = self.troubles.kinds([former.who], former.asked, former.logged or math.inf)
            found += self.troubles.kinds([page.who], page.asked, page.at)
            since = page.incident.begins - LATE
            apart = [kind for it in (former, page) for kind in self.troubles.kinds([it.who], since, it.asked)]
            found += [APART] if apart else []
            found += [LATE_CALLER] if met_by_lateness(former, page) else []
        waits = [it.replied - it.due for it in (former, page)] + [(former.logged or former.at) - former.at]
        if max(waits) > LATE_REPLY:
            found.append(SLOW)
        return [*found, NO_CAUSE][0]

    def judge_once(self, incident):
        """What is shown from a moment on is paged once, where since the incident began nothing went wrong."""
        if incident.silence or incident in self.spoiled:
            return
        for begins, ends in incident.phases():
            seen = begins + SKEW + (GROUP_WAIT if begins == incident.begins else INTERVAL)
            until = seen + ALL_TURNS + SLACK
            if self.troubles.anywhere(incident.begins - LATE, until):
                continue
            found = [it for it in self.pages[incident] if it.content == incident.content(begins)]
            # one that doesn't last may be passed by
            is_short = ends < seen + SLACK
            self.counts["states without a fault near them"] += 1
            self.counts["of these paged once"] += len(found) == 1
            if len(found) != 1 and not (is_short and not found):
                self.twice.append(f"{incident.name} from {begins:.2f} on: {found}")

    def judge_muted(self, incident):
        """No alert is paged by a member that held a silence of it."""
        silence = incident.silence
        if silence is None:
            return
        self.counts["silences that members held"] += bool(silence.held)
        for it in self.pages[incident]:
            since = silence.held.get((it.who, it.start), math.inf)
            parts = {*it.content.firing, *it.content.resolved} & {*silence.parts}
            if parts and since < it.asked and it.at < silence.until - SLACK:
                self.muted.append(f"{it}; held since {since:.2f} until {silence.until:.2f}")


def tell(counts, causes):
    """Prints what came of the rounds, as a table."""
    rows = [(name, counts[name]) for name in ROWS]
    paged = counts["incidents that were paged"]
    rows.append(("pages for each incident that was paged", f"{counts['pages'] / paged:.3f}" if paged else "-"))
    rows.append(("pages of what had been paged before", sum(causes.values())))
    rows.append(("  for each incident that was paged", f"{sum(causes.values()) / paged:.3f}" if paged else "-"))
    rows += [(f"  {cause}", count) for cause, count in causes.most_common()]
    for name, value in rows:
        print(f"  {name:<44}{value:>10}")


ROWS = [
    "incidents",
    "incidents that were paged",
    "alerts that had to be paged",
    "of these lost",
    "states without a fault near them",
    "of these paged once",
    "silences that members held",
    "pages",
]
