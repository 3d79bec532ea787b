"""What a decision takes over long lists of hashes, beside a plain program with hash sets.

For each order and length: the least time of the rounds in nanoseconds, and the ratio to the plain program. `same` is
the order of the entry, `reversed` the opposite one, and `scrambled` none.
"""
import measuring

OPTIONS = {"--rounds": 5}


def run(given):
    ours, plain = measuring.beside("time_decide", "plain_decide", given.rounds)
    print("%-18s %14s %14s %8s" % ("hashes", "ours", "plain", "ratio"))
    for key, nanoseconds in ours.items():
        print("%-18s %14d %14d %8.2f" % (key[0], nanoseconds, plain[key], nanoseconds / plain[key]))
