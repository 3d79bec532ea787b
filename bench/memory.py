"""Peak memory of folding rows of many versions of few keys, beside the size of what is written.

For each size: the row's bytes, the bytes of the winners, and the peak memory of am_tool, all in MiB. Folding holds the
winners and the version that is being read, so the peak is to stay where it is when the row grows. am_tool is built by
`./am_tool build` where it isn't.
"""
import contextlib
import os
import tempfile

import building
import measuring
import rows
from lib.wire import number_at

OPTIONS = {"--mebibytes": [1, 16, 32, 64], "--keys": 1000}
LIMIT = 67_108_864  # the most bytes of an input
VERSION = 190  # about so many bytes has a version


def cut(source, size):
    """Cuts the row behind its last whole version within the size."""
    with open(source, "rb") as f:
        row = f.read()
    end = 0
    with contextlib.suppress(IndexError):
        while True:
            length, at = number_at(row, end)
            if at + length > size:
                break
            end = at + length
    with open(source, "r+b") as f:
        f.truncate(end)
    return end


def run(a):
    ours = [building.am_tool(), "fold", "--state", "sil", "--now", "0"]
    print("%9s %12s %12s" % ("row MiB", "winners MiB", "peak MiB"))
    with tempfile.TemporaryDirectory() as folder:
        source, target = os.path.join(folder, "row"), os.path.join(folder, "winners")
        for mebibytes in a.mebibytes:
            size = min(mebibytes * 2 ** 20, LIMIT)
            rows.write("sil", size // VERSION + size // VERSION // 8, a.keys, source)
            read = cut(source, size)
            most = measuring.peak(ours, source, target)
            print("%9.2f %12.2f %12.2f" % (read / 2 ** 20, os.path.getsize(target) / 2 ** 20, most / 2 ** 20))
