"""What a question takes over 1,000 and 10,000 active silences: which of them mute an alert.

Each count without patterns, in 1,000 buckets, with a pattern in a tenth of the silences, and in all of them; those are in
the empty bucket. No two patterns are the same, or of 10,000 silences those whose numbers differ by 4,000 have the same. First
with nothing kept, and then three calls with one cache of patterns, and the dropping of what no silence has: the least time of
the rounds in nanoseconds, and for each silence with a pattern, or where there are none, for each silence.
"""
import measuring

OPTIONS = {"--rounds": 3}


def run(given):
    print("%-66s %14s %12s" % ("silences", "ns", "each"))
    for (key, _), nanoseconds in measuring.alone("time_mutes", given.rounds).items():
        words = key.split()
        looked_at = int(words[0]) * (int(words[2]) or 10) // 10
        print("%-66s %14d %12d" % (key, nanoseconds, nanoseconds // looked_at))
