"""What was asked of members, what came of it, and what each of them surely holds: the judge of tests/chaos.py."""

import calendar
import collections
import functools
import threading
import time

from lib.wire import PUSH, batches, fields_of, frames_of, items, nanos, rows_of

# A version of a silence or of an entry: its key, and in milliseconds since 1970 its update and its end.
Version = collections.namedtuple("Version", "key updated ends comment")


def now():
    return time.time_ns() // 10**6


@functools.lru_cache(maxsize=100_000)
def version_of(state, data):
    """The version of a state that is written so."""
    inner = dict(fields_of(dict(fields_of(data))[1]))
    updated = nanos(inner[5]) // 10**6
    if state == "nfl":
        return Version((state, inner[1].decode()), updated, None, None)
    return Version((state, inner[1].decode()), updated, nanos(inner[4]) // 10**6, inner.get(9, b"").decode())


def versions_of(state, row, *logs):
    """The versions of a row, and of the logs beside it, by their keys: those that count."""
    rows = [row, *(batch for log in logs for batch in batches(log))]
    return greatest(version_of(state, bytes(it)) for row in rows for it in items(row))


def greatest(versions):
    """Of each key the version that was updated last."""
    found = {}
    for it in versions:
        if it.key not in found or found[it.key].updated < it.updated:
            found[it.key] = it
    return found


@functools.lru_cache(maxsize=100_000)
def milliseconds(text):
    """A moment as API v2 writes it."""
    return calendar.timegm(time.strptime(text[:19], "%Y-%m-%dT%H:%M:%S")) * 1000 + int(text[20:23])


def shown(silence):
    """The version of a silence that a member lists."""
    updated, ends = milliseconds(silence["updatedAt"]), milliseconds(silence["endsAt"])
    return Version(("sil", silence["id"]), updated, ends, silence["comment"])


class Operation:
    """A post, an update or an end of a silence, and within which milliseconds it was made if it was acknowledged."""

    def __init__(self, kind, key, comment=None, ends=None):
        self.kind, self.key, self.comment, self.ends = kind, key, comment, ends
        self.begun, self.ended, self.is_refused = now(), None, False

    def __repr__(self):
        return f"{self.kind} {self.key} {self.comment} {self.begun}..{self.ended}"

    def made(self, version):
        """Whether it may have made this version, of its key."""
        if self.is_refused or version.updated < self.begun or (self.ended is not None and version.updated > self.ended):
            return False
        if self.kind == "end":
            return version.ends == version.updated
        if self.kind == "update" and self.ended is None and version.ends == version.updated:
            # nobody was told whether it ended the one that it was to update, and made another
            return True
        return (version.comment, version.ends) == (self.comment, self.ends)

    def stands_in(self, versions):
        """Whether what it made, or something greater, is surely among versions by their keys."""
        version = versions.get(self.key)
        return version is not None and (version.updated > self.ended or self.made(version))

    def is_passed_by(self, version):
        """Whether a version may be what it made, or something greater."""
        return version is not None and version.updated >= self.begun


class Ledger:
    """The operations of a round by their keys, where these are known, and by their comments.

    A silence is kept for `retention` milliseconds after its end.
    """

    def __init__(self, retention):
        self.lock, self.retention = threading.RLock(), retention
        self.operations, self.by_key, self.by_comment = [], collections.defaultdict(list), {}
        self.entries = collections.defaultdict(set)
        self.counts = collections.Counter()

    def begin(self, kind, key=None, comment=None, ends=None):
        """Writes an operation down, before it is asked for: `key` is of the silence that is updated or ended."""
        operation = Operation(kind, key, comment, ends)
        with self.lock:
            self.operations.append(operation)
            if key is not None:
                self.by_key[key].append(operation)
            if comment is not None:
                self.by_comment[comment] = operation
        return operation

    def acknowledge(self, operation, key, member, generation):
        """Writes down that a member, as it was since its start of that number, says that it is made."""
        with self.lock:
            operation.ended = now()
            if key != operation.key:
                self.rename(operation, key)
            if generation is not None and generation == member.generation:
                member.acknowledged.append((time.monotonic(), operation))
            self.counts["acknowledged"] += 1

    def rename(self, operation, key):
        """A post made a silence of its own. One that was to be updated may have been ended, by nobody's wish."""
        if operation.key is not None:
            self.by_key[operation.key].remove(operation)
            ended = Operation("end", operation.key)
            ended.begun = operation.begun
            self.by_key[ended.key].append(ended)
        operation.key = key
        self.by_key[key].append(operation)

    def refuse(self, operation):
        with self.lock:
            operation.is_refused = True
            self.counts["refused"] += 1

    def taken(self, member, generation, data):
        """Writes down that a member surely took the frames of a connection."""
        frames = [it for it in frames_of(data) if it[0] != PUSH or member.is_open]
        rows = [row for it in frames for row in rows_of(*it)]
        found = greatest(version_of(state, bytes(it)) for state, row in rows for it in items(row))
        with self.lock:
            if generation is not None and generation == member.generation:
                member.holds = greatest([*member.holds.values(), *found.values()])
                self.counts["connections taken"] += 1

    def is_forgotten(self, ends, at=None):
        """Whether a silence with that end is no longer kept, now or at some moment."""
        return ends is not None and ends + self.retention <= (now() if at is None else at)

    def has_begun(self, version):
        """Whether somebody asked for a silence of this identifier with this comment."""
        with self.lock:
            operation = self.by_comment.get(version.comment)
            return operation is not None and (operation.ended is None or operation.key == version.key)

    def is_made(self, version):
        """Whether a version is what somebody asked for, and may have been made then."""
        if version.key[0] == "nfl":
            return version.updated in self.entries[version.key]
        unanswered = self.by_comment.get(version.comment)
        candidates = [*self.by_key[version.key], *([unanswered] if unanswered and unanswered.ended is None else [])]
        return any(it.made(version) for it in candidates)

    def lasting(self, members):
        """The acknowledged operations that have to last, since what they made, or something greater, is surely held now."""
        kept = {id(it) for member in members for it in [*member.kept, *(it for _, it in member.acknowledged)]}
        stands = lambda it: id(it) in kept or any(it.stands_in(member.holds) for member in members)
        return [it for it in self.operations if it.ended is not None and stands(it)]
