#!/usr/bin/env python3
"""Follows fields that the program doesn't know, as those of a later Alertmanager: through fold, show and diff, and through members,
their files, their logs and their frames.

    tests/kept_fields.py [PROGRAM]

PROGRAM is crates/am_tool/out/am_tool if it isn't given. Rows are made by hand, from docs/FORMATS.md: fields that are kept stand, byte
for byte and in their order, at the end of their message. tests/gossip.py has pull and push. The last line says how many passed.
"""

import os
import sys
import tempfile

from lib import members
from lib.members import Stoppable, bytes_of, eventually, free_ports, run, write
from lib.tally import check, compare, finish, try_each
from lib.versions import entry, silence
from lib.wire import batches, delimited, delta, field, fields_of, greeting, items, timestamp

# In the silence or the entry the fields 10 and 11, of which the latter has a number that is longer than it need be; and 8
# beside it.
TEN, ELEVEN, EIGHT = (bytes.fromhex(it) for it in ("520170", "588100", "420171"))

# What is always active, and never expires.
ALWAYS = {
    "sil": silence("a job=x 10..253402300799 updated 10 expires 253402300799 by me saying c"),
    "nfl": entry("g r/w/0 updated 10 expires 253402300799 firing 1,2"),
}


def parts(version):
    """The silence or the entry of a version, and its expiry."""
    (_, inner), (_, expires) = fields_of(version)
    return inner, field(2, expires)


def kept(version):
    """A version with the fields, as it is written."""
    inner, expires = parts(version)
    return field(1, inner + TEN + ELEVEN) + expires + EIGHT


def spelled(version):
    """The same, with the fields at other places."""
    inner, expires = parts(version)
    return EIGHT + field(1, TEN + inner + ELEVEN) + expires


def fold(state, row, *words):
    return run(["fold", "--state", state, "--now", "0", *words], input=row)


def test_fold(folder):
    """They are dropped, or kept at the end of their messages."""
    for state, plain in ALWAYS.items():
        one, with_fields = delimited(plain), delimited(kept(plain))
        compare(f"{state}, dropped", fold(state, delimited(spelled(plain))), (0, one, ""))
        compare(f"{state}, kept", fold(state, delimited(spelled(plain)), "--keep-unknown"), (0, with_fields, ""))
        compare(f"{state}, again", fold(state, with_fields, "--keep-unknown"), (0, with_fields, ""))
        compare(f"{state} without any", fold(state, one, "--keep-unknown"), (0, one, ""))
        for order in (one + with_fields, with_fields + one):
            compare(f"{state}, the greater bytes", fold(state, order, "--keep-unknown"), (0, with_fields, ""))
            compare(f"{state}, of two that are the same without", fold(state, order), (0, one, ""))


def test_least(folder):
    """A silence of an identifier and a field 6, and a field 3 beside it: moments that are missing are the first of all."""
    row = bytes.fromhex("0b 1a0178 0a06 0a0161 308100")
    least = timestamp(-62_135_596_800)
    inner = bytes.fromhex("0a0161") + field(3, least) + field(4, least) + field(5, least)
    expires = field(2, least)
    compare("dropped", fold("sil", row), (0, delimited(field(1, inner) + expires), ""))
    wanted = delimited(field(1, inner + bytes.fromhex("308100")) + expires + bytes.fromhex("1a0178"))
    compare("kept", fold("sil", row, "--keep-unknown"), (0, wanted, ""))


def test_faults(folder):
    """A fault is told alike."""
    row = delimited(ALWAYS["sil"] + b"\x58")
    for words in ([], ["--keep-unknown"]):
        status, output, error = fold("sil", row, *words)
        compare(f"a field that is cut, {words}", (status, output, error.split(" ")[1:3]), (1, b"", ["Wire", "Truncated"]))


def test_show(folder):
    """What is shown is the same either way, and a key that comes twice is refused."""
    for state, plain in ALWAYS.items():
        row = delimited(spelled(plain))
        for form in ([], ["--json"]):
            shown = run(["show", "--state", state, *form], input=delimited(plain))
            check(f"{state} {form} is shown", shown[0] == 0 and shown[1].strip(b"[]\n"), shown)
            for words in ([], ["--keep-unknown"]):
                compare(f"{state} {form} {words}", run(["show", "--state", state, *form, *words], input=row), shown)
        twice = run(["show", "--state", state, "--keep-unknown"], input=delimited(plain) + row)
        compare(f"{state} twice", twice, (1, b"", "am_tool: DuplicateKey\n"))


def diff(state, *words):
    """The status of a comparison, and of each line what it says of whom."""
    status, output, error = run(["diff", "--state", state, *words])
    lines = [line.split(" ") for line in output.decode().splitlines()]
    at = 2 if state == "sil" else 5
    return status, [line[at : at + 2] for line in lines], error


def test_diff(folder):
    """Files that differ in them differ, unless a server is beside them, which shows none."""
    for state, plain in ALWAYS.items():
        write(f"{folder}/plain.{state}", delimited(plain))
        write(f"{folder}/kept.{state}", delimited(kept(plain)))
        write(f"{folder}/spelled.{state}", delimited(spelled(plain)))
        two = [f"{it}={folder}/{it}.{state}" for it in ("plain", "kept")]
        compare(f"{state} differs", diff(state, *two), (5, [["greatest", "kept"], ["behind", "plain"]], ""))
        same = [f"{it}={folder}/{it}.{state}" for it in ("spelled", "kept")]
        compare(f"{state} spelled otherwise", diff(state, *same), (0, [], ""))
    member = started("s", folder)
    server = f"s=http://127.0.0.1:{member.port}"
    write_log(folder, "w", ALWAYS["sil"])
    of_log = diff("sil", "--log", f"w={folder}/w.sil", f"plain={folder}/plain.sil")
    compare("of a log", of_log, (5, [["greatest", "w"], ["behind", "plain"]], ""))
    member.send(greeting("p") + delta("sil", ALWAYS["sil"]))
    check("the server lists it", eventually(lambda: member.comments() == ["c"]), member.lines)
    compare("beside a server", diff("sil", server, f"kept={folder}/kept.sil"), (0, [], ""))
    member.stop()


def write_log(folder, name, plain):
    """A file with a version, and a log beside it with the same one, with the fields."""
    write(f"{folder}/{name}.sil", delimited(plain))
    row = delimited(spelled(plain))
    write(f"{folder}/{name}.sil.log", b"\1" + len(row).to_bytes(8, "little") + row + b"\0")


def test_logs_of_files(folder):
    """The logs beside a file are read as the file is."""
    plain = ALWAYS["sil"]
    write_log(folder, "w", plain)
    words = ["fold", "--log", "--state", "sil", f"{folder}/w.sil"]
    compare("dropped", run(words), (0, delimited(plain), ""))
    compare("kept", run([*words, "--keep-unknown"]), (0, delimited(kept(plain)), ""))


# ---- members


def started(name, folder, *options, peers=None):
    """A member that runs, beside a peer p that doesn't."""
    member = Stoppable(name, free_ports(1)[0], peers or [("p", free_ports(1)[0])], folder, [*options])
    return members.begun(member)


def saved(member):
    """The versions in the files of a member."""
    return [list(items(bytes_of(it))) for it in (member.sil, member.nfl)]


PLAIN = [[ALWAYS["sil"]], [ALWAYS["nfl"]]]
KEPT = [[kept(ALWAYS["sil"])], [kept(ALWAYS["nfl"])]]


def bring(member):
    """Sends a member both versions as a peer does, with the fields at other places."""
    member.send(greeting("p") + b"".join(delta(state, spelled(it)) for state, it in ALWAYS.items()))
    check(f"{member.name} has it", eventually(lambda: member.comments() == ["c"]), member.lines)


def test_files(folder):
    """A member keeps them in its files through restarts, or drops them."""
    member = started("a", folder, "--keep-unknown")
    bring(member)
    for _ in range(2):
        compare("a stop", member.stop(), 0)
        compare("the files", saved(member), KEPT)
        check("a start", member.start(), member.lines)
        compare("what is listed", member.comments(), ["c"])
    compare("the last stop", member.stop(), 0)
    member.words.remove("--keep-unknown")
    check("a start without", member.start(), member.lines)
    bring(member)
    compare("a stop without", member.stop(), 0)
    compare("the files without", saved(member), PLAIN)


def test_logs(folder):
    """A member with logs keeps them there, also where it is killed."""
    for options, wanted in ((["--keep-unknown"], KEPT), ([], PLAIN)):
        os.makedirs(here := f"{folder}/{len(options)}")
        member = started("a", here, "--log", *options)
        bring(member)
        member.kill()
        rows = [b"".join(batches(bytes_of(f"{it}.log"))) for it in (member.sil, member.nfl)]
        compare(f"the logs, {options}", [list(items(it)) for it in rows], wanted)
        check(f"a start, {options}", member.start(), member.lines)
        compare(f"what is listed, {options}", member.comments(), ["c"])
        compare(f"a stop, {options}", member.stop(), 0)
        compare(f"the files, {options}", saved(member), wanted)


def test_peers(folder):
    """Members hand them on, by changes and by pulls; one that drops them hands on what it has."""
    for options, wanted in ((["--keep-unknown"], KEPT), ([], PLAIN)):
        os.makedirs(here := f"{folder}/{len(options)}")
        ports = dict(zip("abc", free_ports(3)))
        others = {it: [(name, at) for name, at in ports.items() if name != it] for it in ports}
        make = lambda it, *more: Stoppable(it, ports[it], others[it], here, [*options, *more])
        one, other, late = make("a"), make("b"), make("c", "--pull-every", "1")
        for member in (one, other):
            members.begun(member)
        one.send(greeting("b") + b"".join(delta(state, spelled(it)) for state, it in ALWAYS.items()))
        check(f"a has it, {options}", eventually(lambda: one.comments() == ["c"]), one.lines)
        members.begun(late)
        check(f"c pulls it, {options}", eventually(lambda: late.comments() == ["c"]), late.lines)
        compare(f"stops, {options}", (late.stop(), one.stop(), other.stop()), (0, 0, 0))
        compare(f"the files of a, {options}", saved(one), wanted)
        compare(f"the files of c, {options}", saved(late), wanted)
        sources = [f"{it.name}={it.sil}" for it in (one, late)]
        compare(f"they don't differ, {options}", diff("sil", *sources), (0, [], ""))


def test_options(folder):
    """A member tells that it keeps them: where that is asked for, or an Alertmanager stands beside it."""
    told = lambda member: "--keep-unknown" in member.ask("GET", "/api/v2/status")[1].decode()
    beside = f"am={free_ports(1)[0]}"
    for options, wanted in (([], False), (["--keep-unknown"], True), (["--gossip", beside], True)):
        os.makedirs(here := f"{folder}/{'-'.join(['o', *options[:1]])}")
        member = started("a", here, *options)
        compare(f"told with {options[:1]}", told(member), wanted)
        compare(f"a stop with {options[:1]}", member.stop(), 0)


def main():
    members.choose("kept fields", sys.argv[1:])
    tests = [test_fold, test_least, test_faults, test_show, test_diff, test_logs_of_files, test_files, test_logs, test_peers, test_options]
    with tempfile.TemporaryDirectory() as folder:
        try_each(tests, folder)
    finish("kept fields")


if __name__ == "__main__":
    main()
