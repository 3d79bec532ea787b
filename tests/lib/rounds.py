"""Rounds of faults that are drawn at random, as the command line wants them."""

import argparse
import signal
import sys


def parser(description, seconds):
    """The options that all have, for so many seconds if none are given; a SIGTERM from here on leaves nothing behind."""
    signal.signal(signal.SIGTERM, stop)
    words = argparse.ArgumentParser(description=description, formatter_class=argparse.RawDescriptionHelpFormatter)
    words.add_argument("--seed", type=int, default=1)
    words.add_argument("--seconds", type=int, default=seconds)
    return words


def stop(*_):
    """Ends the script as its end does."""
    signal.signal(signal.SIGTERM, signal.SIG_IGN)
    sys.exit(1)


def rounds(asked, most):
    """The seed and the seconds of each round, two or more of at most so many."""
    count = max(2, -(-asked.seconds // most))
    return [(asked.seed + number, asked.seconds // count) for number in range(count)]
