#!/usr/bin/env python3
"""Measures one thing of am_tool, beside a plain program or an easier case in the same run.

    bench/run.py NAME [OPTION ..]

`bench/run.py NAME --help` says what is told, and in which units; RESULTS.md has figures.
"""
import argparse
import functools
import importlib
import os
import sys

TOP = os.path.dirname(os.path.dirname(os.path.abspath(__file__)))
sys.path[1:1] = [TOP, f"{TOP}/tests"]

NAMES = (
    "folding extremes memory diff api instance held mutes decide feed parse replay runs serve sealed logs pulls decisions hostile"
    " processors functions"
).split()


def offer(words, option, default):
    """Adds an option of its default's type. Of a list there are some like its first one, of texts some of these; a word has no
    `--`, and has to be there if there is no default."""
    one, is_word = default[0] if isinstance(default, list) else default, not option.startswith("--")
    how = {"default": default, "type": str if one is None else type(one), "help": None if default is None else f"by default {default}"}
    if isinstance(default, list):
        how["nargs"] = argparse.REMAINDER if is_word else "*"
        how["choices"] = default if isinstance(one, str) and not is_word else None
    elif is_word and default is not None:
        how["nargs"] = "?"
    words.add_argument(option, **how)


def main():
    raw = {"formatter_class": functools.partial(argparse.RawDescriptionHelpFormatter, width=130)}
    words = argparse.ArgumentParser(description=__doc__, **raw)
    names = words.add_subparsers(metavar="NAME", required=True)
    for name in NAMES:
        bench = importlib.import_module(name)
        one = names.add_parser(name, help=" ".join(bench.__doc__.split("\n\n")[0].split()), description=bench.__doc__, **raw)
        for option, default in bench.OPTIONS.items():
            offer(one, option, default)
        one.set_defaults(run=bench.run)
    given = words.parse_args()
    return given.run(given)


if __name__ == "__main__":
    sys.exit(main())
