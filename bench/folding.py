"""Folds rows of versions by am_tool and by a plain program.

Both read standard input and write standard output, and what they write is compared. For each row: the least user and
system time of the rounds, the two programs taken in turn, in nanoseconds for each version; the ratio of am_tool to the
plain program, which reads canonical versions where they lie; and the peak memory of both in MiB, with their ratio. The rows have about
190 bytes a version, in canonical form, in another spelling, or in both by turns; a tenth or nine tenths of the versions have keys of
their own. am_tool is built by `./am_tool build` where it isn't. `--out` names a folder
for the rows and the plain program.
"""
import filecmp
import os
import tempfile

import building
import measuring
import rows

OPTIONS = {"--rounds": 10, "--counts": [1000, 10000, 100000], "--states": ["sil", "nfl"], "--orders": rows.ORDERS, "--spellings": rows.SPELLINGS, "--out": None}
LINE = "%-5s %-8s %-10s %9s %9s %11s %11s %7s %11s %11s %7s"
HEAD = ("state", "order", "spelling", "versions", "keys", "am_tool ns", "plain ns", "ratio", "am_tool MiB", "plain MiB", "ratio")


def kinds(orders, spellings):
    """The orders and spellings of rows: other spellings are read alike in each order, so they have one."""
    canonical = [(it, "canonical") for it in orders if "canonical" in spellings]
    return canonical + [("random", it) for it in spellings if it != "canonical"]


def run(a):
    folder = a.out or tempfile.mkdtemp()
    ours, plain = building.am_tool(), building.plain("plain_fold", folder)
    source, *targets = (os.path.join(folder, x) for x in ("row", "ours", "theirs"))
    print(LINE % HEAD)
    for state in a.states:
        commands = [[ours, "fold", "--state", state, "--now", "0"], [plain, state]]
        for count in a.counts:
            for keys in (count // 10, count * 9 // 10):
                for order, spelling in kinds(a.orders, a.spellings):
                    rows.write(state, count, keys, source, order, spelling)
                    (t, u), (m, n) = measuring.measure(commands, source, targets, a.rounds)
                    if not filecmp.cmp(*targets, shallow=False):
                        raise SystemExit("the two programs write different winners")
                    each = ["%.0f" % (x / count * 1e9) for x in (t, u)] + ["%.2f" % (t / u)]
                    print(LINE % (state, order, spelling, count, keys, *each, "%.1f" % (m / 2 ** 20), "%.1f" % (n / 2 ** 20), "%.2f" % (m / n)), flush=True)
