#!/usr/bin/env python3
"""Has the built am_tool draw schedules, and looks at what it drew.

    tests/pictures.py [--write] [PROGRAM]

PROGRAM is crates/am_tool/out/am_tool if it isn't given. The pictures of docs/pictures/*.schedule are compared with the files
beside them, byte for byte; with --write they are written there instead. Of each schedule of cases/replay the picture is
counted through, by what its lines and what is printed of them say. Prints what is not as it should be, and at the end how
many cases passed.
"""

import glob
import os
import re
import sys
import tempfile
import xml.etree.ElementTree as ElementTree

from lib.members import TOP, choose, run
from lib.tally import check, compare, finish, try_each

PICTURES = f"{TOP}/docs/pictures"
SCHEDULES = f"{TOP}/cases/replay"
SVG = "{http://www.w3.org/2000/svg}"

# How many steps a picture has at most, and how many characters of a name it shows.
MOST = 2_000
NAME = 8

# Names and words that XML doesn't take as they are: the last has characters that XML hasn't, and one that ends lines.
ODD = ["a<b>&c", "\"d'", "</svg>", "]]>\t\x01\r\ufffe"]
READ = ["a<b>&c", "\"d'", "</svg>", "]]>\t\ufffd\r\ufffd"]


def drawn(schedule, folder, name="picture.svg"):
    """What comes of a schedule that is played and drawn, and the picture, or None where there is none."""
    path = f"{folder}/{name}"
    if os.path.exists(path):
        os.remove(path)
    ran = run(["replay", "--picture", path], input=schedule)
    if not os.path.exists(path):
        return ran, None
    with open(path, "rb") as file:
        return ran, file.read()


def named(folder, ending):
    return sorted(glob.glob(f"{folder}/*.{ending}"))


def bytes_of(path):
    with open(path, "rb") as file:
        return file.read()


def titles(tree):
    return [title.text or "" for title in tree.iter(f"{SVG}title")]


def of_class(tree, tag, *names):
    """The elements of a tag whose class has all these names."""
    return [it for it in tree.iter(SVG + tag) if set(names) <= set(it.get("class", "").split())]


def steps_of(schedule):
    """The lines of a schedule that are neither the cluster's nor a version's nor a comment, each with its number."""
    lines = enumerate(schedule.decode().split("\n"), 1)
    return [(number, line) for number, line in lines if re.match("(at|stop|save|lose|timely|frames)( |$)", line)]


def write_documents():
    """Writes the pictures of the documents."""
    with tempfile.TemporaryDirectory() as folder:
        for path in named(PICTURES, "schedule"):
            with open(path.replace(".schedule", ".svg"), "wb") as file:
                file.write(drawn(bytes_of(path), folder)[1])


def test_documents(folder):
    """The pictures of the documents are what is drawn, each time."""
    for path in named(PICTURES, "schedule"):
        schedule, wanted = bytes_of(path), path.replace(".schedule", ".svg")
        ran, picture = drawn(schedule, folder)
        compare(f"{path} is played as without a picture", ran, run(["replay"], input=schedule))
        check(f"{path} is drawn as {wanted}", picture == bytes_of(wanted), "see tests/pictures.py --write")
        compare(f"{path} is drawn alike once more", drawn(schedule, folder)[1] == picture, True)


def test_counts(folder):
    """Each step has a mark, which tells its line, each delivery an arrow, and each lane its colour."""
    for path in named(SCHEDULES, "schedule") + named(PICTURES, "schedule"):
        schedule = bytes_of(path)
        (status, output, _), picture = drawn(schedule, folder)
        compare(f"{path} is played as without a picture", (status, output), run(["replay"], input=schedule)[:2])
        if status:
            compare(f"{path}, which is at fault, has no picture", picture, None)
            continue
        count_through(path, schedule, output.decode(), ElementTree.fromstring(picture))


def count_through(path, schedule, output, tree):
    steps = steps_of(schedule)
    marks = of_class(tree, "g", "mark")
    told = [re.split("\n(?:refused|once more): ", mark.find(f"{SVG}title").text)[0] for mark in marks]
    compare(f"{path}: the marks", told, [f"line {number}: {line}" for number, line in steps])
    compare(f"{path}: refusals", len(of_class(tree, "g", "no")), len(re.findall(r"(?m)(^| )refused \w+$", output)))
    gone = len(re.findall("(?m)^refused NoFrame$", output))
    ways = len([line for _, line in steps if re.search(" (deliver|from) ", line)])
    losses = len([line for _, line in steps if line.startswith("lose ")])
    compare(f"{path}: frames", len(of_class(tree, "path", "tip")) + len(of_class(tree, "path", "cross")) + gone, ways + losses)
    members = re.findall(r"(?m)^(?:un)?calm .*$", output)
    faults = re.findall(r"(?m)^uncalm \S+ (line \d+)$", output)
    compare(f"{path}: members", len(of_class(tree, "text", "name")), len(members))
    compare(f"{path}: calm", len(of_class(tree, "text", "good")), len(members) - len(faults))
    compare(f"{path}: lines of faults", [it.text for it in of_class(tree, "text", "fault")], faults)
    compare(f"{path}: uncalm", [it.text for it in of_class(tree, "text", "bad")], [f"uncalm, {fault}" for fault in faults])


def test_frames(folder):
    """A frame is drawn to each of its deliveries, to where it is lost, and dashed where it was never delivered."""
    schedule = (
        "cluster 100 15 a b c d\n"
        "at 10 a post - 00000000000000000000000000000001 10 60 job db\n"
        "at 11 deliver 1\nat 12 deliver 1\nlose 1\nlose 2\n"
    )
    _, picture = drawn(schedule.encode(), folder)
    tree = ElementTree.fromstring(picture)
    frames = [frame.find(f"{SVG}title").text for frame in of_class(tree, "path", "frame")]
    sent = "frame {}, a Delta from {} to {}, sent by line {}, {}"
    wanted = [
        sent.format(1, "a", "b", 2, "lost by line 5"),
        sent.format(2, "a", "c", 2, "lost by line 6"),
        sent.format(3, "a", "d", 2, "still in flight"),
        sent.format(4, "b", "c", 3, "still in flight"),
        sent.format(5, "b", "d", 3, "still in flight"),
        sent.format(1, "a", "b", 2, "delivered by line 3"),
        sent.format(1, "a", "b", 2, "delivered by line 4"),
    ]
    compare("the frames of a post", frames, wanted)
    compare("those in flight are dashed", len(of_class(tree, "path", "fly")), 3)
    compare("those lost end in a cross", len(of_class(tree, "path", "cross")), 2)


def test_gaps(folder):
    """A lane has a line for each time in which its member ran, and tells at the end that it is stopped."""
    schedule = b"cluster 1 1 a b\nstop a\nat 5 a start\nstop a\nstop a\nat 4 a start\nat 6 b start\n"
    _, picture = drawn(schedule, folder)
    tree = ElementTree.fromstring(picture)
    lanes = [it.get("x1") for it in of_class(tree, "line", "lane")]
    places = sorted(set(lanes), key=int)
    compare("times in which members ran", lanes, [places[0]] * 2 + [places[1]])
    compare("who is stopped at the end", [it.text for it in tree.iter(f"{SVG}text") if it.text == "stopped"], ["stopped"])


# Steps on groups, by a, b and c, and for each the line that it repeats, counted from 1 behind the cluster's.
ONCE_MORE = [
    ("at 10 a decide g r 1,2 - 100 yes", None),
    # nobody sent it yet, and b doesn't know that a is about to
    ("at 11 b decide g r 1,2 - 100 yes", 1),
    # who decided and didn't send it asks once more
    ("at 12 b decide g r 1,2 - 100 yes", 1),
    ("at 13 a notified g r 1,2 - 100", None),
    ("at 14 a decide g r 1,2 - 100 yes", None),
    ("at 15 b decide g r 1,2 - 100 yes", 4),
    # another group, another receiver, and other alerts
    ("at 16 b decide h r 1,2 - 100 yes", None),
    ("at 17 b decide g s 1,2 - 100 yes", None),
    ("at 18 b decide g r 1,2,3 - 100 yes", None),
    # c tells of the alerts before; they were told of last by b, who decided on others
    ("at 19 c decide g r 1,2 - 100 yes", None),
    ("at 20 c notified g r 1,2 - 100", None),
    # the repeat interval is over a hundred seconds behind the last time, and not before
    ("at 119.999999999 b decide g r 1,2 - 100 yes", 11),
    ("at 120 b decide g r 1,2 - 100 yes", None),
    # a member that is stopped sends nothing
    ("stop a", None),
    ("at 121 a notified g r 1,2 - 100", None),
    ("at 122 b decide g r 1,2 - 100 yes", None),
]


def test_once_more(folder):
    """A notification is red where it goes out although another member told of the same within the repeat interval."""
    steps, wanted = zip(*ONCE_MORE)
    (status, _, error), picture = drawn("\n".join(["cluster 1000 15 a b c", *steps, ""]).encode(), folder)
    compare("they are drawn", (status, error), (0, ""))
    tree = ElementTree.fromstring(picture)
    found = [re.search(r"\nonce more: notified by line (\d+)$", it.find(f"{SVG}title").text) for it in of_class(tree, "g", "mark")]
    lines = [int(it[1]) - 1 if it else None for it in found]
    compare("which repeat which", lines, list(wanted))
    red = [it.find(f"{SVG}text").text.endswith(", once more") for it in of_class(tree, "g", "again")]
    compare("these are red, and say so", red, [True] * len([it for it in wanted if it]))


def test_moments(folder):
    """Moments of a clock are times of a day, behind days that are over, and the first stands there in whole; others are seconds."""
    _, picture = drawn(b"cluster 1 1 a\nat 5.25 a show\nat 946684799 a show\n", folder)
    tree = ElementTree.fromstring(picture)
    compare("seconds", [it.text for it in of_class(tree, "text", "head")], ["5.250000000", "946684799"])
    text = b"at 5 a show\nat 946771199 a show\nat 946771200.000000001 a show\nat 947462399 a show\nat 946684800 a show\n"
    _, picture = drawn(b"cluster 1 1 a\n" + text, folder)
    tree = ElementTree.fromstring(picture)
    wanted = ["5", "23:59:59", "+1d 00:00:00.000000001", "+8d 23:59:59", "946684800"]
    compare("times of a day", [it.text for it in of_class(tree, "text", "head")], wanted)
    dim = [it.text for it in of_class(tree, "text", "dim")]
    compare("the first in whole", [it for it in dim if it.startswith("from ")], ["from 2000-01-01T23:59:59.000Z"])
    check("the end too", "at the end, at +8d 23:59:59" in dim, dim)


def test_texts(folder):
    """Texts are escaped, and long ones are cut; titles have them whole."""
    names = ODD + ["x" * NAME, "y" * (NAME + 1), "é" * 100]
    schedule = f"cluster 1 1 {' '.join(names)}\n" + "".join(f"at 1 {name} show\n" for name in names)
    (status, _, error), picture = drawn(schedule.encode(), folder)
    compare("odd names are drawn", (status, error), (0, ""))
    tree = ElementTree.fromstring(picture)
    read = sorted(zip(names, READ + names[len(ODD):]), key=lambda pair: pair[0].encode())
    shown = [name if len(name) <= NAME else name[: NAME - 1] + "…" for _, name in read]
    compare("names as they are shown", [it.text for it in of_class(tree, "text", "name")], shown)
    found = titles(tree)
    for name, wanted in read:
        check(f"the name {name!r} in a title", wanted in found, found)
    for number, name in enumerate(READ, 2):
        check(f"the line of {name!r} in a title", f"line {number}: at 1 {name} show" in found, found)


def test_limits(folder):
    """More steps than a picture has are refused before anything is played, and so is what can't be written."""
    head = b"cluster 1 1 a b\nsil v x 1 1 2 3 n w\n# no step\n"
    step = b"at 1 a tick\n"
    refused = (1, b"", f"am_tool: TooManySteps {MOST + 1}\n")
    compare("a step too many", drawn(head + step * (MOST + 1), folder), (refused, None))
    # without a picture this one takes minutes
    settles = b"cluster 1 1 " + b" ".join(b"%d" % n for n in range(16)) + b"\n" + b"at 1 settle\n" * 1_000_000
    compare("a million steps", drawn(settles, folder), ((1, b"", "am_tool: TooManySteps 1000000\n"), None))
    (status, output, _), picture = drawn(head + step * MOST, folder)
    compare("the most steps", (status, output), (0, b"calm a\ncalm b\n"))
    compare("their marks", len(of_class(ElementTree.fromstring(picture), "g", "mark")), MOST)
    (status, output, _), picture = drawn(b"cluster 1 1 a\n", folder)
    compare("no step", (status, output), (0, b"calm a\n"))
    compare("no marks", len(of_class(ElementTree.fromstring(picture), "g", "mark")), 0)
    fault = (1, b"", "am_tool: Schedule Words 2\n")
    compare("a schedule at fault", drawn(b"cluster 1 1 a\nat 1 a\n", folder), (fault, None))
    nowhere = (3, b"", "am_tool: Picture File NotFound\n")
    compare("a folder that isn't there", drawn(head + step, folder, "no/picture.svg"), (nowhere, None))
    full = run(["replay", "--picture", "/dev/full"], input=head + step)
    compare("a disk that is full", full, (3, b"", "am_tool: Picture File StorageFull\n"))


def main():
    writes = "--write" in sys.argv[1:]
    choose("pictures", [word for word in sys.argv[1:] if word != "--write"])
    if writes:
        write_documents()
    with tempfile.TemporaryDirectory() as folder:
        tests = [test_documents, test_counts, test_frames, test_gaps, test_once_more, test_moments, test_texts, test_limits]
        try_each(tests, folder)
    finish("pictures")


if __name__ == "__main__":
    main()
