#!/usr/bin/env python3
"""Compares docs/am_tool.1, the manual page, with the one that the help texts of am_tool make, and sees that it fits 80 columns.

    tests/manual.py [--write] [PROGRAM]

PROGRAM is crates/am_tool/out/am_tool if it isn't given. `--write` writes the page. `man -l docs/am_tool.1` shows it. Without
groff, only the lines of code are measured.
"""

import itertools
import re
import shutil
import subprocess
import sys

from lib import members
from lib.members import TOP, run
from lib.tally import check, compare, finish, skip

PAGE = f"{TOP}/docs/am_tool.1"

HEAD = """.TH AM_TOOL 1
.SH NAME
am_tool \\- compares, mends and serves the silences of Alertmanager replicas
.SH SYNOPSIS
.B am_tool
.I COMMAND
[\\fIOPTIONS\\fR]
"""

FOOT = """.SH EXIT STATUS
0: done. 1: the input is at fault. 2: the command line is. 3: reading, writing or listening failed. 4: memory ran out. 5:
.B am_tool diff
found a difference, or
.B am_tool push
or
.B am_tool mend
left one.
.SH SEE ALSO
docs/MEND.md, to compare and mend replicas; docs/MEMBERS.md, to run members; docs/FORMATS.md, for bytes and faults.
"""

# With which statuses each command ends, beside its examples.
STATUSES = {
    "replay": "0: played, refusals of steps too. 1: the schedule is at fault, and nothing is printed. 3: a picture can't be written.",
    "fold": "0: folded. 1: a row is at fault, and nothing is written. 3: a file can't be read.",
    "show": "0: shown. 1: the snapshot is at fault, and nothing is printed. 3: the file can't be read.",
    "diff": "0: nothing differs. 5: something does. 1: a source is at fault. 3: a source can't be read or reached.",
    "pull": "0: written. 1: the answer is at fault. 3: the replica can't be reached.",
    "push": "0: the replica holds everything, or greater. 5: it doesn't. 1: the input or an answer is at fault. 3: it can't be reached.",
    "mend": "0: nothing differs at the end. 5: something does. 1: an answer is at fault. 3: a replica can't be reached.",
    "instance": "0: a clean stop, all saved. 1: a file is at fault. 3: it can't listen, lock or save. 4: no memory.",
}

# How many columns code may have, beside the indent of man(7).
CODE = 72
COLUMNS = 80

ENTRY = re.compile(r"^ {2,6}(\S.*?)  +(\S.*)$")


def escaped(line):
    """A line as text of roff: no request, no escape, and hyphens that are typed."""
    line = line.replace("\\", "\\e").replace("-", "\\-")
    return f"\\&{line}" if line[:1] in (".", "'") else line


def help_of(words):
    status, output, error = run([*words, "--help"])
    if status != 0:
        sys.exit(f"{words}: status {status}, {error}")
    return output.decode().rstrip("\n").split("\n")


# By how much the lines are indented that a command goes on with.
INDENT = 4


def folded(line):
    """A command as lines that fit: it goes on behind a backslash, or behind a pipe. One that can't be parted stays too long."""
    lines = []
    while len(line) > CODE:
        at = line.rfind(" | ", 0, CODE) + 2
        end = ""
        if at < CODE // 3:
            # (no option is parted from its value, and no file from its redirection)
            at = max(line.rfind(sign, 0, CODE - 2) for sign in (" --", " <", " >"))
            end = " \\"
        if at < INDENT:
            break
        lines.append(line[:at] + end)
        line = " " * INDENT + line[at + 1 :]
    return [*lines, line]


def test_folded():
    """Commands are parted where they may be, and those that can't be are told as too wide by the width of the page."""
    word = "x" * CODE
    compare("one that fits", folded(word), [word])
    compare("one without a place to part it", folded(word + "y"), [word + "y"])
    compare("nor behind its first part", folded(f"am_tool --a {word}"), ["am_tool \\", f"    --a {word}"])
    compare("one with a pipe", folded(f"{'a' * 40} | {'b' * 40}"), ["a" * 40 + " |", "    " + "b" * 40])


def paragraphs(lines):
    """Lines between empty ones."""
    return [it.strip("\n").split("\n") for it in "\n".join(lines).split("\n\n") if it.strip()]


def options_of(lines):
    """A list of arguments or options: each with its text, which is filled."""
    made = []
    for line in lines:
        if entry := ENTRY.match(line):
            made += [".TP", f"\\fB{escaped(entry[1])}\\fR", escaped(entry[2])]
        else:
            made.append(escaped(line.strip()))
    return made


def code(lines):
    return [".PP", ".nf", *(escaped(it) for line in lines for it in folded(line)), ".fi"]


def part(lines):
    """A paragraph of a help text: the usage, a list, examples, or text."""
    first, rest = lines[0], lines[1:]
    if first.startswith("Usage: "):
        return [".PP", escaped(first)]
    if first in ("Arguments:", "Options:"):
        return [".PP", first, *options_of(rest)]
    made = []
    for is_code, run_of in itertools.groupby(lines, lambda it: it.startswith("  ")):
        made += code(run_of) if is_code else [".PP", *map(escaped, run_of)]
    return made


def section(command):
    about, *rest = help_of([command])
    lines = [f".SS {command}", escaped(about)]
    for paragraph in paragraphs(rest):
        lines += part(paragraph)
    check(f"the statuses of {command}", command in STATUSES)
    return [*lines, ".PP", f"Status {escaped(STATUSES.get(command, ''))}"]


def page():
    """The page: what am_tool does, and the help text of each command, filled, with its statuses."""
    whole = help_of([])
    commands = [it[1] for it in map(re.compile(r"  ([a-z]+)  ").match, whole) if it and it[1] != "help"]
    lines = [".SH DESCRIPTION", *map(escaped, whole[:1]), ".SH COMMANDS"]
    for command in commands:
        lines += section(command)
    return HEAD + "\n".join(lines) + "\n" + FOOT


def widest_code(text):
    """The widest line that man doesn't fill."""
    blocks = re.findall(r"^\.nf\n(.*?)^\.fi$", text, re.MULTILINE | re.DOTALL)
    lines = [it.replace("\\-", "-").replace("\\e", "\\") for block in blocks for it in block.split("\n")]
    return max(lines, key=len)


def shown(text):
    """The page as a terminal of 80 columns shows it."""
    words = ["groff", "-man", "-Tascii", f"-rLL={COLUMNS}n", "-P-cbou"]
    return subprocess.run(words, input=text, capture_output=True, text=True, check=True).stdout


def main():
    words = sys.argv[1:]
    is_written = words[:1] == ["--write"]
    members.choose("manual", words[is_written:])
    test_folded()
    made = page()
    if is_written:
        with open(PAGE, "w", encoding="utf-8") as file:
            file.write(made)
        return
    with open(PAGE, encoding="utf-8") as file:
        compare("docs/am_tool.1 (tests/manual.py --write makes it)", file.read(), made)
    check("code fits", len(widest_code(made)) <= COLUMNS - 7, widest_code(made))
    if shutil.which("groff"):
        wide = [it for it in shown(made).split("\n") if len(it) > COLUMNS]
        compare("lines of over 80 columns", wide, [])
    else:
        skip("the page's lines: groff is not there")
    finish("manual")


if __name__ == "__main__":
    main()
