"""What calls of a held map take: sweeps, the next expiry, the walk of a bucket, merges.

Nothing, ten or all of its versions have expired before a sweep; what is merged is as large a map, half of whose silences are held.
For 1,000, 10,000 and 100,000 silences in 100 buckets, and for merges of up to 400,000 into as many: the least time of the
rounds in nanoseconds, and for each version that went, was walked over or came.
"""
import measuring

OPTIONS = {"--rounds": 5}


def run(given):
    print("%-12s %9s %7s %14s %12s" % ("call", "silences", "expired", "ns", "each"))
    for (key, answer), nanoseconds in measuring.alone("time_held", given.rounds).items():
        call, count, words = key.split()
        each = "%.0f" % (nanoseconds / int(answer)) if call != "next_expiry" and answer != "0" else ""
        print("%-12s %9s %7s %14d %12s" % (call, count, words, nanoseconds, each))
