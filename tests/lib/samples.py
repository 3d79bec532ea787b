"""Worked inputs that several scripts give, by hand from docs/FORMATS.md, and the files of samples/, of which README.md tells: what
three replicas keep that drifted apart."""

from lib.members import TOP
from lib.versions import row

# Id `a`, EQUAL job `x`, start 10 s, end 100 s, update 10 s, expiry 200 s; and the same with update 20 s.
FIRST = bytes.fromhex("200a190a0161120812036a6f621a01781a02080a220208642a02080a120308c801")
SECOND = FIRST.replace(bytes.fromhex("2a02080a"), bytes.fromhex("2a020814"))
# Group key `g`, receiver `r`, `w`, 0, timestamp 10 s, firing 1 and 2, expiry 200 s.
ENTRY = bytes.fromhex("1a0a130a016712060a01721201772a02080a32020102120308c801")

CASES = f"{TOP}/cases/replay"


def played(name):
    """A schedule of cases/replay, and what is printed of it."""
    with open(f"{CASES}/{name}.schedule", "rb") as schedule, open(f"{CASES}/{name}.out", "rb") as output:
        return schedule.read(), output.read()


# Three members that take the same in other orders; a restart; and a settle.
ORDERS, ORDERS_OUTPUT = played("orders")
RESTARTED, RESTARTED_OUTPUT = played("restart")
SETTLED, SETTLED_OUTPUT = played("settle")


def silence_of_job(value):
    """What is posted of a silence of job `value`, as JSON has it."""
    return {
        "matchers": [{"name": "job", "value": value, "isRegex": False}],
        "startsAt": "2000-01-01T00:00:00Z",
        "endsAt": "2200-01-01T00:00:00Z",
        "createdBy": "ops",
        "comment": "hi",
    }


# The silences of samples/, which are kept for a hundred years, so that what is told of them is the same on any day. c hasn't
# heard of the first. c alone has ended the second, and b alone has changed how long the third lasts.
MAINTENANCE = (
    "7269e3e3-aec0-4213-bbae-a4447f6f6067 job=db 1709310904.916..4864984504 updated 1709310904.916 expires 4865416504"
    " by ann saying maintenance"
)
DEPLOY = (
    "813e8f72-63a8-4a18-8572-a608e4754ec7 job=web 1709310884.125..4864984484 updated 1709310884.125 expires 4865416484"
    " by ben saying deploy"
)
ENDED_DEPLOY = (
    "813e8f72-63a8-4a18-8572-a608e4754ec7 job=web 1709310884.125..1709310904.985 updated 1709310904.985"
    " expires 4865416504.985 by ben saying deploy"
)
DISK = (
    "d1b7a2f0-5c3e-4a77-9f0b-2e64d0a9c8b1 alertname=DiskFull instance=~db.* 1709311000.5..4864985000 updated 1709311000.5"
    " expires 4865417000 by cleo saying larger disks are ordered"
)
LONGER_DISK = (
    "d1b7a2f0-5c3e-4a77-9f0b-2e64d0a9c8b1 alertname=DiskFull instance=~db.* 1709311000.5..4896521000 updated 1709397400.25"
    " expires 4896953000 by cleo saying larger disks are ordered"
)
REPLICAS = {
    "a": [MAINTENANCE, DEPLOY, DISK],
    "b": [MAINTENANCE, DEPLOY, LONGER_DISK],
    "c": [ENDED_DEPLOY, DISK],
}


def sample(replica):
    """The bytes of a file of samples/."""
    return row("sil", ", ".join(REPLICAS[replica]))
