"""What one step of an instance takes, by kind of event and by the number of silences held.

An instance of three members holds 100, 10,000 and 100,000 active silences, and as many entries of the log. Ten silences
want one job, and one of them the alert's instance, so Mutes finds one of ten, and a List's filter passes one of all. A
Post makes a new silence, and a Frame brings a Delta of one; both are sent on. The figures are microseconds for one
step, the mean of 100 in a row (of 5 for List and Show), the least of the rounds; `growth` is the last figure to the
first one. A logarithm of the number grows from 100 to 100,000 by 2.5; that 100 silences stay in the processor's caches,
and more do not, comes on top.
"""
import measuring

OPTIONS = {"--rounds": 5}
KINDS = ("Post", "Delta", "Mutes", "Decide", "Get", "List", "Show")


def run(given):
    found = measuring.by_count("time_instance", given.rounds)
    took = {key: nanoseconds / answered / 1000 for key, (nanoseconds, answered) in found.items()}
    measuring.print_by_count(took, KINDS, "Step", "growth", lambda figures: ["%.1f" % (figures[-1] / figures[0])])
