#!/usr/bin/env python3
"""Compares what the programs answer with the cases of the folder cases, which docs/CASES.md describes.

    tests/cases.py [FILE ..]
    tests/cases.py --program PATH [FILE ..]

FILE is a cases/SUBJECT.txt, a cases/replay/NAME.schedule, or command lines, as a cases/diff/NAME.txt; all of them if none is
given. Those of texts go to am_cases, and schedules and command lines to am_tool; rt ci builds both. With --program all go to
PATH, another implementation: texts to its standard input, schedules to that of `PATH replay`, and command lines as they are.
Prints each difference with its file and line, and at the end how many cases passed.
"""

import argparse
import glob
import os
import re
import subprocess
import sys
import tempfile

from lib.tally import compare, count, finish, give_up
from lib.versions import in_bytes, row, unescaped

TOP = os.path.dirname(os.path.dirname(os.path.abspath(__file__)))

CASES = f"{TOP}/crates/am_cases/out/am_cases"
TOOL = f"{TOP}/crates/am_tool/out/am_tool"

# The subjects of texts: each has its file.
SUBJECTS = (
    "api calls clusters connections decisions figures frames gossip hashes instance json log maps matchers messages moments re2 replays"
    " requests rows rows_large schedules seals sessions silences snapshots views wire"
).split()

# The files of all cases.
ALL = ["*.txt", "replay/*.schedule", "diff/*.txt", "fold/*.txt", "show/*.txt"]

# The folders of command lines.
OF_WORDS = {"diff", "fold", "show"}

# Files whose cases take inputs of many MiB.
LARGE = {"rows_large"}

# The subjects on which rt ci runs am_cases, as both compilers build it: their cases stand in the crate's stdin, one subject
# after the other, and what is wanted of them in its stdout.
STREAMS = ("clusters", "maps", "messages")

# What a command line ends with whose output goes to a disk that is full.
TO_FULL = " > /dev/full"

# How long a program may take for a file, in seconds.
PATIENCE = 600

# How many differences of a file are shown, and how many characters of a line.
SHOWN = 20
WIDTH = 300


class Case:
    """A line that is given to the program, and the lines that it is to answer, each with its number in the file.

    A command line has files too, by their names, whose bytes it finds.
    """

    def __init__(self, line, words, files):
        self.line, self.words, self.files, self.wanted = line, words, files, []


class BadFile(Exception):
    """A file that is not as docs/CASES.md says."""


def lines_of(path):
    """The lines of a file, each ended by a line feed, which the last may lack."""
    with open(path, encoding="utf-8", newline="") as file:
        text = file.read()
    return parted(text)


def parted(text):
    lines = text.split("\n")
    return lines[:-1] if lines[-1] == "" else lines


def short(path):
    """A path as it is told: from the top of the repository on."""
    return os.path.relpath(path, TOP)


def filled(text, fixtures, where):
    """A text with each `$NAME` replaced by what it stands for."""

    def value(match):
        if match[1] not in fixtures:
            raise BadFile(f"{where}: nothing is called ${match[1]}")
        return fixtures[match[1]]

    return re.sub(r"\$([A-Za-z0-9_]+)", value, text)


def spelled(make, text, where):
    """What words of versions make."""
    try:
        return make(text)
    except (TypeError, ValueError, KeyError, IndexError, StopIteration) as error:
        raise BadFile(f"{where}: no version: {error!r}") from error


def file_of(text):
    """The name and the bytes of a file from words such as `sil NAME: VERSIONS`."""
    parts = re.fullmatch(r"(\S+) (\S+):(.*)", text)
    return {parts[2]: row(parts[1], parts[3].strip(" "))}


def read_cases(path):
    """The cases of a file."""
    cases, fixtures, files, case = [], {}, {}, None
    for number, line in enumerate(lines_of(path), 1):
        where = f"{short(path)}:{number}"
        if line == "" or line.startswith("#"):
            case = None
        elif line.startswith("let "):
            name, parted_by, text = line[len("let ") :].partition(" = ")
            if not parted_by or not re.fullmatch(r"[A-Za-z0-9_]+", name) or name in fixtures:
                raise BadFile(f"{where}: no `let NAME = TEXT` of a new name")
            fixtures[name] = filled(text, fixtures, where)
            case = None
        elif line.startswith("< "):
            files = {**files, **spelled(file_of, filled(line[len("< ") :], fixtures, where), where)}
            case = None
        elif line == ">" or line.startswith("> "):
            case = Case(number, spelled(in_bytes, filled(line[len("> ") :], fixtures, where), where), files)
            cases.append(case)
        elif case is None:
            raise BadFile(f"{where}: an answer without a case")
        else:
            case.wanted.append((number, spelled(in_bytes, filled(line, fixtures, where), where)))
    return cases


def answers(program, cases):
    """What a program prints for each of the cases, as lines; and its status, or why it has none."""
    given = "".join(f"{case.words}\n" for case in cases).encode()
    try:
        ran = subprocess.run([program], input=given, stdout=subprocess.PIPE, check=False, timeout=PATIENCE)
    except (OSError, subprocess.TimeoutExpired) as error:
        return [], str(error)
    found = []
    for line in parted(ran.stdout.decode("utf-8", "backslashreplace")):
        if line.startswith("> "):
            found.append([line])
        elif found:
            found[-1].append(line)
        else:
            found.append(["", line])
    return found, ran.returncode


def first_difference(case, found):
    """The line of the first difference, what is wanted there and what was found, or None where all is as it is to be."""
    wanted = [(case.line, f"> {case.words}"), *case.wanted]
    for at in range(max(len(wanted), len(found))):
        number, want = wanted[at] if at < len(wanted) else (wanted[-1][0], None)
        find = found[at] if at < len(found) else None
        if want != find:
            return number, want, find
    return None


def told(line):
    return "no line" if line is None else line[:WIDTH]


def shown_lines(data, before=""):
    """What was printed, line by line behind a text."""
    *lines, last = data.decode("utf-8", "backslashreplace").split("\n")
    return [before + line for line in lines] + ([f"{before}{last} (without an end)"] if last else [])


def shortened(found, case):
    """The lines found, where those on standard error are cut to the beginning that is wanted before ` ..`."""
    for start in [line[: -len(" ..")] for _, line in case.wanted if line.startswith("! ") and line.endswith(" ..")]:
        at = next((at for at, line in enumerate(found) if line.startswith(start)), None)
        if at is not None:
            return [*found[:at], f"{start} ..", found[-1]]
    return found


def carried_out(program, case):
    """What comes of a command line in a folder that has its files: its output, behind `! ` its errors, and its status."""
    words = [unescaped(word) for word in case.words.partition(TO_FULL)[0].split(" ")]
    with tempfile.TemporaryDirectory() as folder, open("/dev/full", "wb") as full:
        for name, data in case.files.items():
            if name != "-":
                os.makedirs(os.path.dirname(f"{folder}/{name}"), exist_ok=True)
                with open(f"{folder}/{name}", "wb") as file:
                    file.write(data)
        streams = {"stdout": full if case.words.endswith(TO_FULL) else subprocess.PIPE, "stderr": subprocess.PIPE}
        given = case.files.get("-", b"")
        try:
            ran = subprocess.run([program, *words], input=given, cwd=folder, check=False, timeout=PATIENCE, **streams)
        except (OSError, subprocess.TimeoutExpired) as error:
            return [f"> {case.words}", f"no end: {error}"]
    found = [f"> {case.words}", *shown_lines(ran.stdout or b""), *shown_lines(ran.stderr, "! "), f"status {ran.returncode}"]
    return shortened(found, case)


def try_texts(path, program):
    """Gives the cases of a file to a program, and counts each."""
    try:
        cases = read_cases(path)
    except (BadFile, OSError, UnicodeDecodeError) as error:
        print(error, flush=True)
        count(False)
        return
    if is_of_words(path):
        found, status = [carried_out(program, case) for case in cases], 0
    else:
        found, status = answers(program, cases)
    shown = 0
    for at, case in enumerate(cases):
        difference = first_difference(case, found[at] if at < len(found) else [])
        if not count(difference is None) and shown < SHOWN:
            shown += 1
            number, want, find = difference
            print(f"{short(path)}:{number}: > {case.words[:WIDTH]}", flush=True)
            print(f"  wanted {told(want)}\n  found  {told(find)}", flush=True)
    compare(f"{short(path)}: how {program} ends, and how many cases it answers", (status, len(found)), (0, len(cases)))


def read_or_nothing(path):
    """The bytes of a file; none where there is no such file."""
    try:
        with open(path, "rb") as file:
            return file.read()
    except FileNotFoundError:
        return b""


def wanted_end(path):
    """The status and the text on standard error that a file NAME.err has; where there is none, all went well."""
    text = read_or_nothing(path)
    if not text:
        return 0, b""
    *lines, last = text.splitlines(keepends=True)
    return int(last.decode().split()[-1]), b"".join(lines)


def try_schedule(path, program):
    """Has a program play a schedule, and counts it."""
    stem = path[: -len(".schedule")]
    schedule, output = read_or_nothing(path), read_or_nothing(f"{stem}.out")
    status, error = wanted_end(f"{stem}.err")
    try:
        ran = subprocess.run([program, "replay"], input=schedule, capture_output=True, check=False, timeout=PATIENCE)
    except (OSError, subprocess.TimeoutExpired) as failed:
        print(f"{short(path)}: {failed}", flush=True)
        count(False)
        return
    if not count((ran.returncode, ran.stdout, ran.stderr) == (status, output, error)):
        tell_replay(f"{short(stem)}.out", output, ran.stdout)
        tell_replay(f"{short(stem)}.err", error + b"status %d\n" % status, ran.stderr + b"status %d\n" % ran.returncode)


def tell_replay(name, wanted, found):
    """Prints the first line at which two outputs differ, if they do."""
    wanted, found = (parted(text.decode("utf-8", "backslashreplace")) for text in (wanted, found))
    for at in range(max(len(wanted), len(found))):
        want, find = (lines[at] if at < len(lines) else None for lines in (wanted, found))
        if want != find:
            print(f"{name}:{at + 1}:\n  wanted {told(want)}\n  found  {told(find)}", flush=True)
            return


def subject(path):
    return os.path.splitext(os.path.basename(path))[0]


def is_of_words(path):
    """Whether the cases of a file are command lines."""
    return os.path.basename(os.path.dirname(path)) in OF_WORDS


def program_of(path):
    """The program of this repository that a file is for, or None where none is."""
    if path.endswith(".schedule") or is_of_words(path):
        return TOOL
    return CASES if subject(path) in SUBJECTS else None


def try_file(path, program):
    if program is None:
        print(f"{short(path)}: no program answers this file", flush=True)
        count(False)
    elif path.endswith(".schedule"):
        try_schedule(path, program)
    else:
        try_texts(path, program)


def check_all_are_there():
    """Each subject has its file, and whatever stands beside a schedule has one, and an output."""
    stems = {os.path.splitext(path)[0] for path in glob.glob(f"{TOP}/cases/replay/*")}
    wanted = [f"{TOP}/cases/{name}.txt" for name in SUBJECTS] + [stem + end for stem in stems for end in (".schedule", ".out")]
    compare("files that are missing", sorted(short(path) for path in wanted if not os.path.exists(path)), [])


def check_streams():
    """What rt ci runs am_cases on is the cases of these files, and what it wants of them the answers there."""
    cases = [case for name in STREAMS for case in read_cases(f"{TOP}/cases/{name}.txt")]
    given = "".join(f"{case.words}\n" for case in cases)
    wanted = "".join(f"{line}\n" for case in cases for line in [f"> {case.words}", *(text for _, text in case.wanted)])
    for file, text in (("stdin", given), ("stdout", wanted)):
        path = f"{TOP}/crates/am_cases/{file}"
        compare(f"{short(path)}, as the cases of {' and '.join(STREAMS)}", read_or_nothing(path).decode(), text)


def main():
    words = argparse.ArgumentParser(description=__doc__, formatter_class=argparse.RawDescriptionHelpFormatter)
    words.add_argument("--program", metavar="PATH", type=os.path.abspath, help="another implementation")
    words.add_argument("files", metavar="FILE", nargs="*", type=os.path.abspath)
    given = words.parse_args()
    if not given.files:
        given.files = [path for kind in ALL for path in sorted(glob.glob(f"{TOP}/cases/{kind}"))]
        check_all_are_there()
        check_streams()
    tried = [(path, given.program or program_of(path)) for path in given.files]
    for program in sorted({program for _, program in tried if program}):
        if not os.access(program, os.X_OK):
            give_up("cases", f"{program} is not there: rt ci builds those of this repository")
    for path, program in tried:
        try_file(path, program)
    finish("cases")


if __name__ == "__main__":
    sys.exit(main())
