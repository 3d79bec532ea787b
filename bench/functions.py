"""Lists how many seconds each function of a crate took to prove, the dearest first.

The last check of the crate has to be one from nothing, by one process: remove crates/CRATE/out/incremental, and run
`rt check --jobs 1` or `rt lib --jobs 1` there. A check keeps a file in out/incremental for each part of a proof as it is
done, and what a part took is the time from the file before it: of a function its steps (Lts), which grow with its places
and exits, what they do to one another (Tie), and its goals (Proof, Answers). A drop that a type doesn't have itself is
proved as a function, too: `Destruct.drop`.
"""

import collections
import os

from building import TOP

OPTIONS = {"CRATE": None, "COUNT": 30}


def parts_of(folder):
    """When each part was done, and which one it is, in the order of their times."""
    found = []
    for at, _, names in os.walk(folder):
        if os.path.basename(at) != "records":
            found += [(os.stat(f"{at}/{it}").st_mtime, it) for it in names if it.startswith("Rattle-")]
    return sorted(found)


def function_of(name):
    """The function that a part is of: what stands before the part's own name, which begins with a capital or a digit."""
    words = name.split(".")[1:-1]
    while words and not words[-1][0].islower():
        words.pop()
    return ".".join(words) or "all that is of no function"


def run(given):
    found = parts_of(f"{TOP}/crates/{given.CRATE}/out/incremental")
    if not found:
        raise SystemExit(f"{given.CRATE}: no check kept anything")
    seconds = collections.Counter()
    for (before, _), (time, name) in zip(found, found[1:]):
        seconds[function_of(name)] += time - before
    print(f"{found[-1][0] - found[0][0]:8.1f}  all")
    for name, spent in seconds.most_common(given.COUNT):
        print(f"{spent:8.1f}  {name}")
