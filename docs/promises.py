#!/usr/bin/env python3
"""Prints docs/PROOFS.md: the promises that stand beside clauses, and what is only tested or trusted.

    docs/promises.py [--write]

A promise is a comment right above a clause of a contract in crates/*/src, in the words of a user:

    // PROMISE: A saved file is the row of the whole map.
    ensures row { .. }

It may go on in further comment lines. `--write` writes the page.
"""

import glob
import os
import re
import sys

TOP = os.path.dirname(os.path.dirname(os.path.abspath(__file__)))

OWNER = re.compile(r"impl\b(?:<.*?>(?= ))? (?:.* for )?&?(?:'\w+ )?(\w+)|(?:pub )?trait (\w+)")
FUNCTION = re.compile(r"( *)(?:pub(?:\([a-z]+\))? )?(?:final )?(?:const )?fn (\w+)")
CLAUSE = re.compile(r" *(?:ensures|requires)(?: (\w+))? \{")
PROMISE = re.compile(r" *// PROMISE: (.*)")
COMMENT = re.compile(r" *// (.*)")

# The crates of each part, in the order of the page.
PARTS = {
    "Replicas": ["am_collect", "am_instance", "am_runs", "am_cluster", "am_client"],
    "Members, from bytes to bytes": [
        "am_http", "am_silence_json", "am_api_silences", "am_api_decisions", "am_api_status", "am_metrics", "am_gossip",
        "am_peer_auth", "am_peers", "am_member", "am_connection", "am_reactor", "am_server", "am_diagnostics", "am_backend",
        "am_options", "am_daemon",
    ],
    "Files, comparing and mending": ["am_snapshot", "am_report", "am_memberlist", "am_alertmanager", "am_commands", "am_store"],
    "Rules": ["am_version_order", "am_merge", "am_silence", "am_nflog", "am_dedup", "am_matcher", "am_wire"],
    "Schedules": ["am_schedule", "am_replay", "am_player"],
}  # fmt: skip

# The rows that other pages link to: their anchors, by function and clause.
ANCHORS = {
    "one-request": ("am_api_silences::begin_answer", None),
    "alike": ("am_cluster::members_with_equal_sets_reply_alike", None),
    "timely": ("am_runs::timely_runs_are_calm", None),
    "diff": ("am_commands::diff_sources", "told"),
    "fold": ("am_commands::fold_sources", "row"),
    "load": ("am_snapshot::what_is_saved_is_loaded", "loaded"),
    "log": ("am_store::Journal::commit", "acknowledged"),
    "save": ("am_store::a_crash_leaves_the_old_file_or_the_new_one", "saved"),
    "anew": ("am_store::a_crash_leaves_the_old_file_or_the_one_written_anew", "rewritten"),
    "outlasts": ("am_store::no_crash_loses_a_version", "outlasts"),
    "life": ("am_daemon::live", "lived"),
    "frames": ("am_daemon::each_frame_goes_once", None),
    "kept": ("am_daemon::Server::release", "kept"),
    "commits": ("am_reactor::Service::release", "committed"),
}

HEAD = """# What is proved

Every function is proved safe: it returns on every input, without undefined behaviour. Each row below is a promise, with the clause that says it. docs/promises.py writes this page. A *law* is a function that does nothing; its clauses hold for all values. [MODEL](MODEL.md) explains the words.

- **Memory.** A call that allocates may answer `Memory` instead of what is promised, and frames for which there is none are counted as not sent.
- **Bytes.** Clauses about readers and writers speak of known bytes, not of sockets or files. Those of the loop speak of what its streams noted: all that their two calls read and wrote.
- **Calm** is a premise, and nothing that comes for free: a replica that is cut off for longer than the retention may no longer be calm.
"""

CHAIN = """## From a socket to a reply, clause by clause

A silence that is posted to a member meets these clauses, in this order. `am_daemon::live`, lived, says of all connections at once, and at each moment, what steps 1 to 5, 7 and 8 say of one.

1. `am_reactor::run`, led: just the bytes that came over the connection's own stream are fed to its session, in order, each once.
2. `am_server::ConnectionState::screen`, refused: a foreign host or origin is turned away. `am_peer_auth::Authenticator::feed`, passes: so are frames without a seal.
3. `am_http::Session::feed`: the bytes say one request, wherever they are cut (`am_http::cuts_change_nothing`).
4. `am_api_silences::to_event`: the request means one event, or has its first fault.
5. `am_member::apply_session_output`, exchanged: the event is one step at its moment. `am_instance::Instance::step`: what is held then, what is sent, what is replied.
6. `am_backend::Backend::follow`: with logs, what the step sends to the disk is in the logs. `am_daemon::ServerState::reply`, waits: the reply waits for the next commit. `am_backend::Backend::keep`: what a commit has kept. `am_reactor::Service::release`, committed: a reply is released only after a commit. `am_daemon::Server::release`, kept: if not everything is kept, a line with status 500 goes out in its place.
7. `am_api_silences::ReplyBuilder::finish`: the bytes of the reply to that step.
8. `am_reactor::flush_session`, out: they leave over the connection's own stream, in order, each once.

## From a step to a peer's socket

1. `am_instance::Instance::step`: which frames the step sends to which peers, in order.
2. `am_backend::Backend::follow`, queued: they wait behind those that waited, or memory ran out, and just they are counted as not sent. So it is with what the steps of what a connection says send (`am_daemon::ServerState::take_in`, sent), with what the step of a notice sends (`am_daemon::ServerState::log`, sent), and with the step of an Alertmanager's frame (`am_daemon::take_from`, sent). `am_daemon::Server::feed`, sent: so it is with all that comes over a connection; what is held doesn't change otherwise. The same clause stands on the other calls that the loop makes for a connection: `end`, `resume`, `reach_deadline`. `am_daemon::Server::wake`, sent: of all other calls only this one has frames wait, those that the step of an Alertmanager's frame sends. `am_daemon::Server::lost`: a link that is lost takes with it just what was put by for its peer. `am_daemon::only_steps_have_frames_wait`: so over all calls, each frame that waits waited before, or a step in between sent it.
3. `am_backend::Backend::next_frames`, taken: all that wait for a peer are taken out, in order, each once. `am_backend::Backend::encoding_of`, encoding: their bytes are the encoding of just these, sealed if members have a secret (`am_peer_auth::sealed_encoding`).
4. `am_reactor::Service::outgoing`, committed: nothing is given for a peer before it is committed. `am_daemon::Server::outgoing`, offered: just the encoding of the frames that are taken out for a peer is given for that peer; or, where members have a secret, these are put by for it, behind those before, and a link is opened; rested: nothing is given only while something is still to be committed, and then all waits on, or once no frame waits. `am_daemon::Server::more`: behind the peer's challenge goes the encoding of just the frames that were put by for it, or of a part of all that is held.
5. `am_reactor::run`, peered: just what is given for a peer leaves over the link to it, in order, each byte once, or is told lost.
6. At the other end a frame is fed, passes and is heard as a request is (steps 1 to 3 above; `am_gossip::Feeder::feed`), and is one step (step 5), of the place of its sender.

Steps 1 to 4, over all calls of a loop: `am_daemon::each_frame_goes_once`. Of each peer, what waited and then came to wait is, each frame once and in order, what left and what waits still; and what was put by before and since is what went and what is put by still. Each of these is told with the call in which it happened. Which bytes that call gives, and that what isn't sent is counted, is said by the call's own clauses above, not by the law.

`am_daemon::Server::more`, part: if nothing is put by, that part is the one from where the peer's transfer is, and the transfer goes on behind it. No clause says when a transfer begins, or that frames are dropped only if too many bytes are put by or memory ran out: one reads it in am_daemon. The loop's clauses have what is given for a peer, and what waits on, but not when nothing is given: rested is one of the server's call.
"""

TAIL = """## Only tested

- **That definitions mean what people want**: [cases/](CASES.md), worked out by hand.
- **That the loop** is fair, keeps deadlines, closes the right connection, hands on an answer once the peer ends, and counts unfinished bytes, and that replies come: tests/upkeep.py, tests/edges.py. Members under faults of network, process and disk: tests/chaos.py.
- **That with `--log`** a log is parted before a file is written anew, and which fault is told if it isn't; in which order the member makes the acts of a history, and that it goes on with a rewriting only if it did nothing else with the names of that file meanwhile (`open_state`, `StateFile::save`, `part_logs`, `drop_new` and `compact` say of each act that its calls come behind all before); that a log's file keeps the batches that it acknowledged, as the disks of the laws know (`Journal::commit` says it of the log, whose own calls are recorded apart); that each state from which the file is written comes of the one before by takes and sweeps; that a rewriting stops where the old log can't be removed; and that a start reads the file and both logs of its path, so that members with logs are durable: tests/disk.py.
- **A member's turns, figures, readiness and first pull**, that a decision is broken off at its limit and not before, and that it gives each step the right moment: tests/turns.py, tests/operations.py, tests/three_members.py, tests/machines.py.
- **That pages go out**, and only once if nothing fails: tests/pages.py; with real Alertmanagers, if one is installed, tests/real_shims.py.
- **Command lines, what is read from a path, a server or logs, the counts of `diff --prometheus`, what `mend` does in turn, pictures' layout, the page for people**: tests/command_line.py, live_sources.py, log_sources.py, gossip.py, pictures.py, page.py (with chromium).
- **Secrets, Alertmanagers, and pages about a member**: tests/machines.py, tests/gossip.py, tests/beside.py. They see
  - that a member uses its secret, and gives each connection a random challenge of its own; that what is sealed can be opened; that each listener hears what it should;
  - that a member beside Alertmanagers asks them and sends to them, and answers `notify:true` only when each has been asked since the question;
  - that `push` and `mend` send the rows that they made of what they read;
  - that a page about the member, and the list of the recent alerts, is the one that was asked for.
- **That the fields of a later release reach** a member's files, logs, peers and the Alertmanagers beside it if it keeps them, and which ones are told as lost, also by a member and of matchers and moments (no clause speaks of `Losses`, am_report): tests/kept_fields.py, beside.py, command_line.py. That a step, a file and a log keep them is proved (`kept` of `IsStep` in am_instance, `recover` in am_store).
- **Refused memory and hostile input**: tests/refused_memory.py, tests/fuzz.py, am_surface.
- **That real replicas** of prometheus-alertmanager 0.25.0 do the same: tests/real_replicas.py, real_beside.py, if one is installed.

## Trusted

You have to trust the toolchain, the C library, the statements of the kit's crates and the disk. You also have to trust that nobody can make an HMAC without its key, or foresee the system's random bytes. Nobody promises that there is enough memory, or that a frame arrives. No contract says

- that `Memory` is answered only if an allocation was refused, and `Read` only if a read failed;
- which patterns `regex` finds too big, so that `hazard_of` may call any pattern refused; or which ones are compiled before a step; that a post's patterns are kept, or that one for whose patterns there is no room is refused (`keep_in` says only that none is refused while they fit; tests/edges.py); which searches are too long for a decision or a list (`Deciding::longest_value`, `PatternsAhead::steps_beyond`, `ReplyBuilder::is_too_dear`; tests/turns.py, tests/edges.py); which filters of a list are light, so that its step applies them (`are_light` of am_api_silences, tests/edges.py: what passes is the same either way);
- that a pattern of RE2 and its translation match the same texts (cases/re2.txt, recorded from Go);
- that the frames of a connection's pieces are those of all its bytes together: `connection` says it piece by piece;
- that an unfinished head of over 64 fields is refused at once;
- which canonical encodings are kept as they came, or that `sort_row` refuses a row over 64 MiB;
- that `SystemDisk` and `LogFile` make the calls that they note, that a disk does as [its definition](../crates/am_store/specs/Crashes.antt) says, and that bytes outside of a write stay; that `read` and `write` of `NotedStream` do, and nothing else reads from its socket or writes to it;
- when an Alertmanager beside a member is asked next and what its messages say, that what comes for it is taken, or that each silence that isn't sent is reported just once: two of them may share a mark;
- when a clock is read, or that a stream whose other end has left says so;
- how long an answer takes.

[wrong/README](../wrong/README.md) lists wrong bodies that are refused, and those that get through.
"""


def marks_of(path):
    """The promises of a source: the function, the clause's name and the text of each."""
    owner, function, text = "", "", None
    with open(path, encoding="utf-8") as file:
        for number, line in enumerate(file, 1):
            if line.startswith("}"):
                owner = ""
            if found := OWNER.match(line):
                owner = found[1] or found[2]
            if found := FUNCTION.match(line):
                function = f"{owner}::{found[2]}" if found[1] and owner else found[2]
            if found := PROMISE.match(line):
                text = found[1]
            elif text is not None and (found := COMMENT.match(line)):
                text += f" {found[1]}"
            elif text is not None:
                clause = CLAUSE.match(line)
                if not clause:
                    sys.exit(f"{path}:{number}: a promise stands above no clause")
                yield function, clause[1], text
                text = None


def promises():
    """The promises of each crate that has some."""
    found = {}
    for path in sorted(glob.glob(f"{TOP}/crates/*/src/**/*.rt", recursive=True)):
        crate = os.path.relpath(path, f"{TOP}/crates").split("/")[0]
        found.setdefault(crate, []).extend(marks_of(path))
    return {crate: marks for crate, marks in found.items() if marks}


def row(crate, function, clause, text):
    anchors = [f'<a id="{it}"></a>' for it, place in ANCHORS.items() if place == (f"{crate}::{function}", clause)]
    name = f"{''.join(anchors)}`{crate}::{function}`"
    return f"{name}, {clause} | {text}" if clause else f"{name} | {text}"


def page():
    found = promises()
    if lacking := set(found) - {crate for crates in PARTS.values() for crate in crates}:
        sys.exit(f"docs/promises.py has no part for {sorted(lacking)}")
    places = [(f"{crate}::{function}", clause) for crate, marks in found.items() for function, clause, _ in marks]
    if lacking := [it for it in ANCHORS.values() if places.count(it) != 1]:
        sys.exit(f"docs/promises.py: not one promise each is at {lacking}")
    if lacking := set(re.findall(r"`(am_\w+(?:::\w+)+)`", CHAIN)) - {function for function, _ in places}:
        sys.exit(f"docs/promises.py: no promise is at {sorted(lacking)}")
    lines = [HEAD]
    for part, crates in PARTS.items():
        rows = [row(crate, *mark) for crate in crates for mark in found.get(crate, [])]
        lines += [f"## {part}\n", "Call, clause | Promise\n---|---", *rows, ""]
    return "\n".join([*lines, CHAIN, TAIL])


def main():
    made = page()
    if sys.argv[1:] == ["--write"]:
        with open(f"{TOP}/docs/PROOFS.md", "w", encoding="utf-8") as file:
            file.write(made)
    else:
        print(made, end="")


if __name__ == "__main__":
    main()
