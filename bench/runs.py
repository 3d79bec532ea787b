"""What the steps of a run of three members take, and what is asked of the run then.

A version comes to each member in turn, one step a second; there are a thousand silences, each of which is made anew again
and again. `steps` is the mean of all steps in microseconds, with the version made, the room for it and the step written
down, and `restarts` that of a run in which a member is saved, stopped and started behind every hundredth version. The others
are microseconds for one question at the end: the first fault of each member, and whether the run is timely, which is asked of
at most 10,000 steps. The least of the rounds counts.
"""
import measuring

OPTIONS = {"--rounds": 3}


def run(given):
    found = measuring.by_count("time_runs", given.rounds)
    took = {(kind, count): took / (count if kind in ("steps", "restarts") else 1) / 1000 for (kind, count), (took, _) in found.items()}
    measuring.print_by_count(took, ("steps", "restarts", "first_fault", "timely"))
