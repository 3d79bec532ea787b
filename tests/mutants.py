#!/usr/bin/env python3
"""Runs tests with programs that are wrong in one way, each of which the test that it names has to notice.

    tests/mutants.py [-k WORD] [PROGRAM]

PROGRAM is crates/am_tool/out/am_tool if it isn't given. The gate doesn't run this: it takes some minutes, and says of tests what
tests/wrong_bodies.py says of contracts. `-k WORD` tries those that have the word in their names.

A mutant is the program under tests/lib/mutants.c, which stands between it and the C library, or behind a script that changes what it
is told or what it prints, or a copy of the repository with an edit. Its test is run once with the program as it is, and has to pass;
then with the mutant, where it has to fail, or not to end. For each a line says which test that is, how long it took, and what was told
first.
The last line is 'mutants: N passed, M failed': a mutant passes that is noticed.
"""

import os
import re
import shutil
import signal
import subprocess
import sys
import tempfile
import time

from lib import members, tally
from lib.members import TOP
from lib.tally import count, finish
from lib.wire import delimited, items

# How long a test may take, in seconds: one that takes longer doesn't end. How long it waits at least for what has to come with a
# mutant, with which that may never come; it is twice as long as the whole test takes without one.
LONGEST, PATIENCE = 600, 20

# Scripts that run what is installed beside the program.
WITHOUT_PROGRAM = ["pager"]

# How much of what a test tells is shown.
SHOWN = 160

LAST_LINE = re.compile(r"[a-z ]+: \d+ passed, (\d+) failed(, \d+ skipped)?")


class Preloaded:
    """The program under tests/lib/mutants.c, which is told what to do by these words."""

    def __init__(self, kind, text="", number=1, reply="", member=None):
        self.told = {"MUTANT": kind, "MUTANT_TEXT": text, "MUTANT_NUMBER": str(number), "MUTANT_REPLY": reply}
        if member is not None:
            self.told["MUTANT_MEMBER"] = member

    def place(self, bench):
        return TOP, bench.wrapped(self.told)


class Changed:
    """The program behind a script that has a function of this file change what the commands print that begin with a word."""

    def __init__(self, command, function):
        self.command, self.function = command, function

    def place(self, bench):
        return TOP, bench.changed(self.command, self.function)


class Ignoring:
    """The program without an option, and the word behind it, if it takes a value, wherever one of these commands has it."""

    def __init__(self, option, *commands):
        self.option, self.commands = option, commands

    def place(self, bench):
        return TOP, bench.ignoring(self.option, self.commands)


class Edited:
    """A copy of the repository, without its crates, in which a file has another text in the place of one, or isn't there."""

    def __init__(self, path, old=None, new=None):
        self.path, self.old, self.new = path, old, new

    def place(self, bench):
        top = bench.copied()
        path = f"{top}/{self.path}"
        if self.old is None:
            os.remove(path)
        else:
            text = members.bytes_of(path).decode()
            assert text.count(self.old) == 1, f"{self.path} has {text.count(self.old)} times {self.old!r}"
            members.write(path, text.replace(self.old, self.new).encode())
        return top, bench.wrapped({})


# ---- what is printed otherwise, by the commands of Changed


def without_last_of_many(status, data):
    """A row of over 500 versions loses the last one."""
    found = list(items(data))
    return status, b"".join(map(delimited, found[:-1])) if len(found) > 500 else data


def without_last_line_of_many(status, data):
    """Over 30 lines lose the last one."""
    lines = data.splitlines(keepends=True)
    return status, b"".join(lines[:-1]) if len(lines) > 30 else data


def with_another_digit_in_many(status, data):
    """Of over 30 lines the last one that has a digit has another one there."""
    lines = data.splitlines(keepends=True)
    for place in range(len(lines) - 1, 30, -1):
        if found := re.search(rb"\d", lines[place]):
            digit = b"%d" % ((int(found[0]) + 1) % 10)
            lines[place] = lines[place][: found.start()] + digit + lines[place][found.end() :]
            break
    return status, b"".join(lines)


def with_status_zero(_, data):
    """Nothing has another status than 0."""
    return 0, data


def without_a_line(status, data):
    """The last line isn't printed."""
    return status, b"".join(data.splitlines(keepends=True)[:-1])


def without_a_version(status, data):
    """The last version of a row isn't printed."""
    return status, b"".join(map(delimited, list(items(data))[:-1]))


# ---- the mutants: each with the test that has to notice it, and how it is made


def figures():
    """Each figure with another first digit, and with none but zeros."""
    for test, names in FIGURES.items():
        for name in names:
            for kind in ("digit", "stuck"):
                yield f"{kind} of {name}", test, Preloaded(kind, name)


# The figures of /metrics, by the tests that look at them.
FIGURES = {
    "operations -k test_text": [
        "alertmanager_build_info", "alertmanager_cluster_members", "process_start_time_seconds", "process_resident_memory_bytes",
        "process_open_fds",
    ],
    "operations -k test_counts": [
        "alertmanager_cluster_messages_sent_total", "alertmanager_cluster_messages_received_total", "maityrunga_steps_total",
        "maityrunga_decisions_total", "maityrunga_http_requests_total", "maityrunga_http_request_duration_seconds_bucket",
        "maityrunga_http_request_duration_seconds_sum", "maityrunga_http_request_duration_seconds_count", "maityrunga_connections",
        "maityrunga_connections_accepted_total", "maityrunga_frames_sent_total", "maityrunga_frames_lost_total",
        "maityrunga_frames_taken_total", "maityrunga_peer_last_heard_timestamp_seconds",
    ],
    "operations -k test_driven": [
        "maityrunga_log_entries", "maityrunga_requests_waiting", 'maityrunga_connections_broken_total{cause="time"}',
        "process_cpu_seconds_total",
    ],
    "operations -k test_broken": [
        *(f'maityrunga_connections_broken_total{{cause="{it}"}}' for it in ("read", "write", "crowded", "unfinished")),
        "maityrunga_accepts_failed_total",
    ],
    "operations -k test_lost": [
        'maityrunga_frames_lost_total{peer="b",cause="time"}', 'maityrunga_frames_lost_total{peer="c",cause="write"}',
    ],
    "operations -k test_unsent": ["maityrunga_frames_unsent_total"],
    "operations -k test_first_pull": ["maityrunga_ready"],
    "operations -k test_many": ["alertmanager_silences"],
    "operations -k test_saves": [
        "maityrunga_last_save_timestamp_seconds", "maityrunga_last_save_duration_seconds", "maityrunga_saves_total",
        "maityrunga_saves_failed_total",
    ],
    "edges -k test_clock": ["maityrunga_clock_behind_seconds"],
    "beside -k test_figures": ["maityrunga_alertmanager_last_heard_timestamp_seconds", "maityrunga_alertmanager_lacked"],
    "beside -k test_withheld": ["maityrunga_silences_withheld_total"],
}  # fmt: skip

def options():
    """Each option without an effect."""
    for test, names in OPTIONS.items():
        for name in names.split():
            yield f"{name} has no effect", test, Ignoring(name, "instance")
    for command, tests in OPTIONS_OF.items():
        for name, test in tests.items():
            yield f"{command} {name} has no effect", test, Ignoring(name, command)


# The options of instance, by the tests that want their effect, and those of other commands.
OPTIONS = {
    "upkeep -k test_pulls": "--pull-every --pull-first --pull-first-limit",
    "upkeep -k test_saves": "--save-every",
    "upkeep -k test_ticks": "--tick-every",
    "upkeep -k test_times": "--least-repeat --retention",
    "upkeep -k test_input": "--stop-at-input-end",
    "upkeep -k test_at_once": "--at-once",
    "edges -k test_log": "--log",
    "edges -k test_lines": "--lines-a-second",
    "edges -k test_hosts": "--host",
    "edges -k test_unfinished": "--most-unfinished",
    "edges -k test_full_of_notices": "--most-bytes",
    "edges -k test_room_again": "--retention",
    "edges -k test_trusted_clock": "--trust-clock",
    "turns -k test_turn": "--peer-timeout",
    "turns -k test_limit": "--waiting",
    "turns -k test_unjudged": "--decide-limit",
    "three_members -k test_clients": "--time-limit",
    "three_members -k test_connections": "--connections",
    "machines -k who_hears_whom": "--secret",
    "machines -k a_listener_for_frames": "--peers-listen",
    "machines -k open_to_all": "--open-peers",
    "beside -k test_holds": "--gossip --gossip-every",
    "beside -k test_dialects": "--patterns",
    "kept_fields": "--keep-unknown",
}
OPTIONS_OF = {
    "diff": {"--long": "gossip -k test_mend", "--json": "live_sources -k test_lists", "--prometheus": "gossip -k test_figures",
             "--log": "log_sources -k test_two_members", "--time-limit": "live_sources -k test_faults", "--now": "gossip -k test_diff",
             "--held": "cases {top}/cases/diff/moments.txt --program"},
    "push": {"--dry-run": "gossip -k test_push", "--now": "gossip -k test_refused"},
    "pull": {"--time-limit": "gossip -k test_time_limit"},
    "mend": {"--apply": "gossip -k test_mend", "--without": "gossip -k test_mend_faults"},
    "fold": {"--log": "log_sources -k test_folds", "--most-bytes": "command_line -k test_words", "--keep-unknown": "command_line -k test_terminal"},
    # (what --keep-unknown keeps isn't shown)
    "show": {"--json": "command_line -k test_words", "--log": "log_sources -k test_killed"},
    "replay": {"--picture": "pictures -k test_counts"},
}  # fmt: skip

# Options that take no value.
FLAGS = (
    "--open-peers --keep-unknown --trust-clock --log --pull-first --stop-at-input-end --held --long --json --prometheus --dry-run --apply"
).split()

# The line of ./am_tool that copies programs, what a post and a notice are answered, and a frame with everything behind a greeting.
COPIES = 'install -D -m 755 "$top/install/$file" "$to/bin/$file"'
POSTED, LOGGED = '{"silenceID":"00000000-0000-4000-8000-000000000000"}', '{"logged":true}'
PULLED = "\1p\3"

MUTANTS = [
    # what is answered 200 with nothing behind it
    ("posts that store nothing", "documents", Preloaded("answer", "POST /api/v2/silences", reply=POSTED)),
    ("ends that end nothing", "three_members -k test_three_members", Preloaded("answer", "DELETE /api/v2/silence/")),
    ("notices that log nothing", "documents", Preloaded("answer", "POST /v1/notified", reply=LOGGED)),
    ("every decision is to notify", "documents", Preloaded("swap", '"notify":false,', reply='"notify":true ,')),
    # what members list
    ("a moment a millisecond off between members", "three_members -k test_same", Preloaded("moment", number=4)),
    ("an update a millisecond off between members", "three_members -k test_same", Preloaded("moment", number=5)),
    ("a changed comment between members", "three_members -k test_same", Preloaded("comment")),
    ("each moment listed a millisecond off", "three_members -k test_same", Preloaded("change", '"endsAt":"', 22)),
    ("each start listed a millisecond off", "three_members -k test_same", Preloaded("change", '"startsAt":"', 22)),
    ("each comment listed with another letter", "three_members -k test_same", Preloaded("change", '"comment":"', 0)),
    ("each author listed with another letter", "three_members -k test_same", Preloaded("change", '"createdBy":"', 0)),
    ("each second connection to a peer brings nothing", "three_members -k test_three_members", Preloaded("deaf", number=2)),
    # files and logs
    ("each seventh write to a log is lost", "disk --log --kills 20", Preloaded("lose", ".log", 7)),
    ("each second write to a file that is saved is lost", "disk --kills 20", Preloaded("lose", ".sil.new", 2)),
    ("nothing is synced", "disk --kills 20", Preloaded("unsynced")),
    ("nothing is synced, with logs", "disk --log --kills 20", Preloaded("unsynced")),
    ("files aren't locked", "edges -k test_owners", Preloaded("unlocked")),
    ("logs are open to all", "upkeep -k test_log_beside", Preloaded("unmoded")),
    # what others wait for
    ("ten patterns hold everybody up", "edges -k test_patterns", Preloaded("stall", '{300}9"', 3000)),
    ("a large message holds everybody up", "turns -k test_large", Preloaded("stall", "POST /v1/decide", 3000)),
    ("a list in a crowd takes long", "edges -k test_silent_crowd", Preloaded("stall", "GET /api/v2/silences", 3000, member="q")),
    ("a Pull in a crowd takes long", "edges -k test_crowd_of_wait", Preloaded("stall", PULLED, 3000, member="w")),
    # lines and statuses
    ("each third line is lost", "edges -k test_lines", Preloaded("mute", number=3)),
    ("diff has status 0", "gossip -k test_diff", Changed("diff", with_status_zero)),
    ("push has status 0", "gossip -k test_refused", Changed("push", with_status_zero)),
    ("mend has status 0", "gossip -k test_mend", Changed("mend", with_status_zero)),
    # what commands print
    ("a pull of over 500 loses the last", "gossip -k test_many", Changed("pull", without_last_of_many)),
    ("a replay of over 30 lines loses the last", "command_line -k test_long_replay", Changed("replay", without_last_line_of_many)),
    ("a replay of over 30 lines changes a digit", "command_line -k test_long_replay", Changed("replay", with_another_digit_in_many)),
    ("fold loses the last version", "gossip -k test_recorded", Changed("fold", without_a_version)),
    ("show loses the last line", "command_line -k test_words", Changed("show", without_a_line)),
    ("diff loses the last line", "gossip -k test_diff", Changed("diff", without_a_line)),
    ("a help text loses its last line", "manual", Changed("instance", without_a_line)),
    # what is installed
    ("am_pager isn't there", "operations -k test_lacking_file", Edited("install/am_pager")),
    ("the manual page isn't there", "operations -k test_lacking_file", Edited("docs/am_tool.1")),
    ("install doesn't see that a file is missing", "operations -k test_lacking_file", Edited("am_tool", f"{COPIES} || return 4", COPIES)),
    ("a rule that Prometheus can't read", "operations -k test_rules", Edited("install/alerts.yml", "groups:", "groups")),
    ("am_pager pages what a member has skip", "pager -k test_not_sent", Edited("install/am_pager", 'if not answer["notify"]:', "if False:")),
    *figures(),
    *options(),
]  # fmt: skip


# ---- how they are tried


class Bench:
    """Where mutants are made, beside the program and the library under which it runs."""

    def __init__(self, folder):
        self.folder, self.copies = folder, 0
        self.library = members.compiled("mutants", "mutants", folder, "nothing can stand between the program and the C library")
        self.passes = {}

    def script(self, text):
        """A script by the name of the program, which goes by that of its file."""
        self.copies += 1
        os.mkdir(f"{self.folder}/{self.copies}")
        path = f"{self.folder}/{self.copies}/am_tool"
        members.write(path, text.encode())
        os.chmod(path, 0o755)
        return path

    def wrapped(self, told):
        """The program under the library."""
        lines = [f"export LD_PRELOAD={quoted(self.library)}${{LD_PRELOAD:+:$LD_PRELOAD}}"]
        lines += [f"export {name}={quoted(value)}" for name, value in told.items()]
        return self.script("\n".join(["#!/bin/sh", *lines, f'exec {quoted(members.program)} "$@"', ""]))

    def changed(self, command, function):
        """The program, but for a command whose output goes through a function."""
        lines = [
            "#!/bin/sh",
            f'if [ "${{1-}}" != {command} ]; then exec {quoted(members.program)} "$@"; fi',
            f'PYTHONPATH={quoted(f"{TOP}/tests")} exec {quoted(sys.executable)} -c '
            f'"import mutants, sys; mutants.run_changed(mutants.{function.__name__}, sys.argv[1:])" {quoted(members.program)} "$@"',
        ]
        return self.script("\n".join([*lines, ""]))

    def ignoring(self, option, commands):
        """The program, which leaves an option out of the words of these commands."""
        value = "" if option in FLAGS else "is_value=1; "
        lines = [
            "#!/bin/sh",
            f'case ${{1-}} in {"|".join(commands)}) ;; *) exec {quoted(members.program)} "$@" ;; esac',
            "is_value=",
            "for word do",
            "    shift",
            '    if [ "$is_value" ]; then is_value=; continue; fi',
            f"    case $word in {option}) {value}continue ;; {option}=*) continue ;; esac",
            '    set -- "$@" "$word"',
            "done",
            f'exec {quoted(members.program)} "$@"',
        ]
        return self.script("\n".join([*lines, ""]))

    def copied(self):
        """A copy of the repository, without what is made from it."""
        self.copies += 1
        top = f"{self.folder}/{self.copies}"
        shutil.copytree(TOP, top, symlinks=True, ignore=shutil.ignore_patterns(".git", "crates", "__pycache__"))
        os.symlink(f"{TOP}/crates", f"{top}/crates")
        return top

    def does_pass(self, test):
        """Whether a test passes with the program as it is, what it tells otherwise, and in how many seconds."""
        if test not in self.passes:
            begun = time.monotonic()
            found = ran(TOP, test, self.wrapped({}), members.PATIENCE)
            self.passes[test] = *found, time.monotonic() - begun
        return self.passes[test]


def quoted(word):
    return "'" + word.replace("'", "'\\''") + "'"


def run_changed(function, words):
    """Runs a command, and prints what a function makes of its status and its output."""
    ran = subprocess.run(words, stdout=subprocess.PIPE, check=False)
    status, data = function(ran.returncode, ran.stdout)
    sys.stdout.buffer.write(data)
    sys.stdout.flush()
    sys.exit(status)


def ran(top, test, program, patience):
    """Whether a test passes that waits for so long, and what it tells first, where it doesn't."""
    script, *words = test.format(top=top).split(" ")
    command = [sys.executable, f"{top}/tests/{script}.py", *words, *([] if script in WITHOUT_PROGRAM else [program])]
    how = {"stdin": subprocess.DEVNULL, "stdout": subprocess.PIPE, "stderr": subprocess.STDOUT, "start_new_session": True, "cwd": top}
    process = subprocess.Popen(command, env={**os.environ, "PATIENCE": str(patience)}, **how)
    try:
        output, _ = process.communicate(timeout=LONGEST)
    except subprocess.TimeoutExpired:
        os.killpg(process.pid, signal.SIGKILL)
        process.communicate()
        return False, f"no end in {LONGEST} s"
    lines = output.decode("utf-8", "backslashreplace").splitlines()
    last = LAST_LINE.fullmatch(lines[-1]) if lines else None
    if last and last[1] == "0" and process.returncode == 0:
        return True, ""
    return False, " ".join(lines[:3])[:SHOWN]


def try_mutant(bench, name, test, how):
    """Counts a mutant, which is noticed or not."""
    holds, told, took = bench.does_pass(test)
    begun = time.monotonic()
    if holds:
        top, program = how.place(bench)
        passes, told = ran(top, test, program, max(PATIENCE, int(2 * took)))
        said = "NOT NOTICED" if passes else "noticed"
    else:
        passes, said = True, "NOT TRIED, since the test fails without it"
    count(not passes)
    print(f"{said} | {name} | {test} | {time.monotonic() - begun:.0f} s | {told}", flush=True)


def main():
    members.choose("mutants", sys.argv[1:])
    print("What comes of it | Mutant | Test | Time | What is told first\n---|---|---|---|---", flush=True)
    with tempfile.TemporaryDirectory(prefix="am_mutants_") as folder:
        bench = Bench(folder)
        for name, test, how in MUTANTS:
            if tally.WORD in name:
                try_mutant(bench, name, test, how)
    finish("mutants")


if __name__ == "__main__":
    main()
