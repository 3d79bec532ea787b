#!/usr/bin/env python3
"""Reads the logs that members keep beside their files, by the built am_tool: show, fold and diff with --log.

    tests/log_sources.py [PROGRAM]

PROGRAM is crates/am_tool/out/am_tool if it isn't given. What stands in a log is written by members that are killed, or that go on.
cases/show/logs.txt and cases/diff/logs.txt have logs that are written by hand. The last line says how many passed.
"""

import contextlib
import json
import os
import signal
import subprocess
import sys
import tempfile

from lib import members
from lib.members import Member, eventually, free_ports, run, write
from lib.samples import ENTRY, FIRST, SECOND, silence_of_job
from lib.tally import check, compare, finish, try_each
from lib.versions import row

# How many silences are posted to a member while its files are read, and how long their comments are, so that its log outgrows
# its file and 1 MiB.
COUNT = 60
COMMENT = "c" * 30_000

# The closed gate behind all blocks of a log.
CLOSED = b"\0"


def block(batch):
    """A whole block of a log."""
    return b"\1" + len(batch).to_bytes(8, "little") + batch


def kept_row(name, comment=""):
    """The row of one silence that is always active."""
    return row("sil", f"{name} job=x 10..253402300799 updated 10 expires 253402300799 by me saying {comment}")


def bytes_in(path):
    with open(path, "rb") as file:
        return file.read()


def content(folder):
    """The files of a folder, with their bytes."""
    return {name: bytes_in(f"{folder}/{name}") for name in sorted(os.listdir(folder))}


def begun(name, folder, options=(), peers=()):
    os.makedirs(folder, exist_ok=True)
    return members.begun(Member(name, free_ports(1)[0], peers, folder, ["--log", *options]))


def post(member, comment):
    """Posts a silence, and gives its identifier."""
    status, reply = member.post({**silence_of_job("db"), "comment": comment})
    compare(f"the post {comment[:9]}", status, 200)
    return json.loads(reply)["silenceID"]


def shown(*words, **how):
    """What show prints of silences, as identifiers with their states; or its error."""
    status, output, error = run(["show", "--state", "sil", *words], **how)
    return dict(line.split(" ")[1:] for line in output.decode().splitlines()) if (status, error) == (0, "") else error


def fold(*words, state="sil"):
    return run(["fold", "--state", state, *words])


def diff(*words):
    status, output, error = run(["diff", "--state", "sil", *words])
    return status, [line.split(" ")[1:4] for line in output.decode().splitlines()], error


def test_killed(folder):
    """All that a member acknowledged before it was killed, and no save has, stands in its log."""
    member = begun("a", folder)
    posted = {post(member, "x"): "active", post(member, "y"): "active"}
    compare("a kill", member.kill(), -signal.SIGKILL)
    before = content(folder)
    check("no file is there", "a.sil" not in before, [*before])
    compare("show", shown("--log", member.sil), posted)
    compare("show without --log", shown(member.sil), f"am_tool: {member.sil} File NotFound\n")
    write(f"{folder}/empty", b"")
    both = [[it, "greatest", "a"] for it in sorted(posted)], [[it, "missing", "e"] for it in sorted(posted)]
    lines = [line for pair in zip(*both) for line in pair]
    compare("diff", diff("--log", f"a={member.sil}", f"e={folder}/empty"), (5, lines, ""))
    os.remove(f"{folder}/empty")
    status, folded, error = fold("--log", member.sil)
    compare("fold", (status, error), (0, ""))
    compare("what fold wrote", shown(input=folded), posted)
    compare("a fold with a moment", fold("--log", "--now", "0", member.sil), (0, folded, ""))
    compare("nothing is written", content(folder), before)
    member.words += ["--stop-at-input-end"]
    compare("a start and an end", (member.start(), member.end()), (True, 0))
    compare("the file that a member makes of both", content(folder)["a.sil"], folded)
    compare("without --log", shown(member.sil), posted)


def test_old_log(folder):
    """A log that a member has renamed counts, with one that was begun behind it or without."""
    member = begun("a", folder)
    old = post(member, "x")
    member.kill()
    os.rename(f"{member.sil}.log", f"{member.sil}.log.old")
    compare("no new log", shown("--log", member.sil), {old: "active"})
    write(f"{member.sil}.log", b"")
    compare("an empty one", shown("--log", member.sil), {old: "active"})
    write(f"{member.sil}.log", CLOSED)
    compare("one that has begun", shown("--log", member.sil), {old: "active"})
    write(f"{member.sil}.log", block(kept_row("z")) + CLOSED)
    compare("one with more", shown("--log", member.sil), {old: "active", "z": "active"})


def test_torn(folder):
    """What was being written when a member was killed counts nothing. It isn't told, and stays."""
    member = begun("a", folder)
    posted = {post(member, "x"): "active"}
    member.kill()
    with open(f"{member.sil}.log", "ab") as log:
        log.write(b"what was being written")
    before = content(folder)
    compare("show", shown("--log", member.sil), posted)
    compare("fold", fold("--log", member.sil)[::2], (0, ""))
    compare("nothing is cut off", content(folder), before)
    check("a member tells it", member.start() and member.lines[1:2] in ([], ["am_tool: Silences Torn 22"]), member.lines)
    member.kill()


def test_two_members(folder):
    """Members that were killed are compared by all that they acknowledged."""
    one, other = begun("a", f"{folder}/a"), begun("b", f"{folder}/b")
    ids = [post(one, "x"), post(other, "y")]
    server = f"s=http://127.0.0.1:{one.port}"
    compare("a server beside its files", diff("--log", server, f"a={one.sil}"), (0, [], ""))
    _, lines, _ = diff("--log", server, f"b={other.sil}")
    compare("a server beside those of another", sorted(it[:2] for it in lines), sorted([it, word] for it in ids for word in ("greatest", "missing")))
    for member in one, other:
        member.kill()
    status, lines, error = diff("--log", f"a={one.sil}", f"b={other.sil}")
    wanted = [[ids[0], "greatest", "a"], [ids[0], "missing", "b"], [ids[1], "greatest", "b"], [ids[1], "missing", "a"]]
    compare("the lines", (status, sorted(lines), error), (5, sorted(wanted), ""))
    status, folded, _ = fold("--log", one.sil, other.sil)
    compare("a fold of both", (status, sorted(shown(input=folded))), (0, sorted(ids)))
    write(f"{folder}/all", folded)
    _, lines, _ = diff("--log", f"all={folder}/all", f"a={one.sil}", f"b={other.sil}")
    compare("beside the fold", {it[2] for it in lines if it[1] == "greatest"}, {"all,a", "all,b"})


def test_live(folder):
    """Beside a member that goes on, each silence is there once its post is answered, whatever the member does with its files."""
    member = begun("a", folder, ["--save-every", "1"])
    posted, missed = [], []
    for number in range(COUNT):
        posted.append(post(member, f"{number} {COMMENT}"))
        found = shown("--log", member.sil)
        if sorted(found) != sorted(posted):
            missed.append((number, found))
    compare("what was missed", missed, [])
    check("the file was written meanwhile", os.path.exists(member.sil), os.listdir(folder))
    compare("the member goes on", len(member.listed() or []), COUNT)
    compare("nothing is told", member.lines[1:], [])
    member.kill()
    compare("all of them behind a kill", sorted(shown("--log", member.sil)), sorted(posted))


class Slow:
    """A comparison that has opened a file, and reads it once a pipe that stands before it is filled."""

    def __init__(self, folder, file):
        os.mkfifo(f"{folder}/pipe")
        words = [members.program, "diff", "--state", "sil", f"a={folder}/pipe", f"b={file}"]
        self.process = subprocess.Popen(words, stdout=subprocess.PIPE, stderr=subprocess.PIPE)
        self.pipe = open(f"{folder}/pipe", "wb")
        check("the file is opened", eventually(lambda: file in self.opened()), self.opened())

    def opened(self):
        found, folder = [], f"/proc/{self.process.pid}/fd"
        for it in os.listdir(folder):
            # (what is closed meanwhile is gone)
            with contextlib.suppress(FileNotFoundError):
                found.append(os.readlink(f"{folder}/{it}"))
        return found

    def go_on(self, row):
        """Fills the pipe with a row. Answers the status, how many lines there are, and the error."""
        self.pipe.write(row)
        self.pipe.close()
        output, error = self.process.communicate()
        return self.process.returncode, len(output.splitlines()), error.decode()


def saved_member(folder):
    """A member with a file of over a megabyte, that saves every second where something may have changed."""
    member = begun("a", folder, ["--save-every", "1"])
    for number in range(COUNT):
        post(member, f"{number} {COMMENT}")
    check("its file is written", eventually(lambda: holds(member.sil, COUNT)), os.listdir(folder))
    return member


def holds(file, count):
    return os.path.exists(file) and len(shown(file)) == count


def replace(member, count):
    """Has the member put a file of so many silences in the place of its own, by a post."""
    before = os.stat(member.sil).st_ino
    post(member, f"{count} {COMMENT}")
    check("its file is replaced", eventually(lambda: os.stat(member.sil).st_ino != before and holds(member.sil, count)), before)


def test_replaced(folder):
    """A file that a member replaces while it is read is read as it was; once the member saves again, its end is a fault."""
    for times, wanted in (1, (0, 0, False)), (2, (3, 0, True)):
        place = f"{folder}/{times}"
        member = saved_member(place)
        row = bytes_in(member.sil)
        slow = Slow(place, member.sil)
        for number in range(times):
            replace(member, COUNT + 1 + number)
        status, lines, error = slow.go_on(row)
        compare(f"a file that is replaced, {times}: {error}", (status, lines, error.startswith("am_tool: b Read ")), wanted)
        member.kill()


def test_other_name(folder):
    """A file that has another name stays whole, however often the member saves."""
    member = saved_member(folder)
    row = bytes_in(member.sil)
    os.link(member.sil, f"{folder}/kept")
    with open(f"{folder}/kept", "rb") as kept:
        for number in range(3):
            replace(member, COUNT + 1 + number)
        compare("what is read of it", kept.read() == row, True)
    member.kill()
    compare("what stands there", content(folder)["kept"] == row, True)


def test_links(folder):
    """The logs of a link stand beside the file behind it."""
    member = begun("a", f"{folder}/place")
    posted = {post(member, "x"): "active"}
    member.kill()
    os.symlink("place/a.sil", f"{folder}/link")
    compare("a link", shown("--log", f"{folder}/link"), posted)
    write(f"{folder}/place/a.sil.log", block(bytes(1)) + CLOSED)
    compare("its log at fault", shown("--log", f"{folder}/link"), f"am_tool: {folder}/place/a.sil.log Wire MissingMessage 1\n")


def test_pipes(folder):
    """What is no file has no logs, and is read as without --log."""
    os.mkfifo(f"{folder}/pipe")
    write(f"{folder}/pipe.log", block(SECOND) + CLOSED)
    write(f"{folder}/row", FIRST)
    command = f"cat {folder}/row >{folder}/pipe & {members.program} fold --log --state sil {folder}/pipe; wait"
    compare("a pipe", members.outcome(["bash", "-c", command]), (0, FIRST, ""))
    command = f"{members.program} fold --log --state sil <(cat {folder}/row) {folder}/row"
    compare("a command's output", members.outcome(["bash", "-c", command]), (0, FIRST, ""))


def test_folds(folder):
    """Files that are named are folded as those that come on standard input, one after the other."""
    write(f"{folder}/one", FIRST)
    write(f"{folder}/two", SECOND)
    write(f"{folder}/log", ENTRY + ENTRY)
    now = ["--now", "0"]
    compare("two files", fold(*now, f"{folder}/one", f"{folder}/two", f"{folder}/one"), (0, SECOND, ""))
    compare("one file", fold(*now, f"{folder}/one"), (0, FIRST, ""))
    compare("entries", fold(*now, f"{folder}/log", state="nfl"), (0, ENTRY, ""))
    compare("no files", run(["fold", "--state", "sil", *now, f"{folder}/one", "-"], input=SECOND), (0, SECOND, ""))
    write(f"{folder}/one.log", block(SECOND) + CLOSED)
    compare("without --log", fold(*now, f"{folder}/one"), (0, FIRST, ""))
    compare("with it", fold("--log", f"{folder}/one"), (0, SECOND, ""))
    write(f"{folder}/two", SECOND[:-1])
    compare("a file at fault", fold("--log", f"{folder}/one", f"{folder}/two"), (1, b"", f"am_tool: {folder}/two Wire Truncated 0\n"))
    compare("a file that isn't there", fold("--log", f"{folder}/nowhere"), (3, b"", f"am_tool: {folder}/nowhere File NotFound\n"))
    with open("/dev/full", "wb") as full:
        words = ["fold", "--log", "--state", "sil", f"{folder}/one"]
        compare("a full disk", run(words, stdout=full), (3, None, "am_tool: Write 0\n"))


def test_large(folder):
    """A state that comes to over 64 MiB with its logs is refused, as a file of so many bytes is."""
    write(f"{folder}/a", kept_row("a", "c" * (40 << 20)))
    write(f"{folder}/a.log", block(kept_row("b", "c" * (40 << 20))) + CLOSED)
    too_large = f"am_tool: {folder}/a.log TooLarge\n"
    compare("show", shown("--log", f"{folder}/a"), too_large)
    compare("fold", fold("--log", f"{folder}/a"), (1, b"", too_large))
    compare("diff", diff("--log", f"{folder}/a", "-"), (1, [], too_large))
    write(f"{folder}/a.log", block(kept_row("b")) + CLOSED)
    compare("a smaller log", shown("--log", f"{folder}/a"), {"a": "active", "b": "active"})


def main():
    members.choose("log sources", sys.argv[1:])
    tests = [test_killed, test_old_log, test_torn, test_two_members, test_live, test_replaced, test_other_name]
    tests += [test_links, test_pipes, test_folds, test_large]
    with tempfile.TemporaryDirectory() as folder:
        try_each(tests, os.path.realpath(folder))
    finish("log sources")


if __name__ == "__main__":
    main()
