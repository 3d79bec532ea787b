"""What feeding one Push of 16, 32 and 64 MiB in pieces of 1,000 bytes takes, beside a plain program that gathers them.

For each size: the least time of the rounds in nanoseconds, for each KiB, and the ratio to the plain program. The time
for each KiB is to stay where it is when the Push grows.
"""
import measuring

OPTIONS = {"--rounds": 3}


def run(given):
    ours, plain = measuring.beside("time_feed", "plain_feed", given.rounds)
    print("%-18s %14s %8s %14s %8s" % ("push", "ours", "each KiB", "plain", "ratio"))
    for key, nanoseconds in ours.items():
        size = int(key[0].split()[0])
        print("%-18s %14d %8d %14d %8.2f" % (key[0], nanoseconds, nanoseconds * 1024 // size, plain[key], nanoseconds / plain[key]))
