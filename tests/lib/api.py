"""Requests of API v2, what is posted, and replies that refuse it."""

import time

# The replies of a member that still waits for its first pull, and of one whose log takes nothing.
NOT_READY, NOT_KEPT = (503, b'"not ready"'), (500, b'"held, but not kept on disk"')

# Replies that refuse a post, an update and an end where a member was away, or its clock went on.
REFUSALS = [(400, b'"end in the past"'), (404, b'"silence not found"'), (500, b'"silence already expired"'), NOT_READY]


def request(method, path, body=b"", host="localhost"):
    """The bytes of a request."""
    return f"{method} {path} HTTP/1.1\r\nHost: {host}\r\nContent-Length: {len(body)}\r\n\r\n".encode() + body


def moment(milliseconds):
    """A moment, in milliseconds since 1970."""
    seconds, rest = divmod(milliseconds, 1000)
    return time.strftime("%Y-%m-%dT%H:%M:%S", time.gmtime(seconds)) + f".{rest:03}Z"


def silence(value, comment=None, seconds=7200, starts=0, **more):
    """What is posted of job `value`: it begins so many seconds hence, and lasts for so many. Its comment is the value if none is given."""
    at = int(time.time()) + starts
    matcher = {"name": "job", "value": value, "isRegex": False, "isEqual": True}
    times = {"startsAt": moment(1000 * at), "endsAt": moment(1000 * (at + seconds))}
    return {"matchers": [matcher], **times, "createdBy": "ann", "comment": value if comment is None else comment, **more}
