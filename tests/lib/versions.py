"""Versions in the words of cases, as docs/CASES.md has them, and their bytes."""

import re

from lib.wire import delimited, field, fields_of, timestamp, varint

# Moments that have names, as seconds and nanoseconds.
NAMED = {"least": (-62_135_596_800, 0), "greatest": (253_402_300_799, 999_999_999)}

# The types of matchers by their signs: of those that stand in a word the first here is meant.
SIGNS = {"=~": 1, "!~": 3, "!=": 2, "=": 0}


def unescaped(word):
    r"""The bytes of a word: `\n`, `\r`, `\\` and `\x1f` are a byte each, and `""` is none."""
    named = {b"n": b"\n", b"r": b"\r", b"\\": b"\\"}
    one = lambda it: named[it[1]] if it[1] in named else bytes([int(it[1][1:], 16)])
    return b"" if word == '""' else re.sub(rb"\\(n|r|\\|x[0-9a-f]{2})", one, word.encode())


def moment(word):
    seconds, _, digits = word.partition(".")
    return timestamp(*NAMED.get(word) or (int(seconds), int(digits.ljust(9, "0"))))


def behind(words, name, otherwise):
    return words[words.index(name) + 1] if name in words else otherwise


def if_any(number, payload):
    """A field, left out where it is empty."""
    return field(number, payload) if payload else b""


def number(place, value):
    """A field that is a number, left out where it is 0."""
    return varint(place * 8) + varint(value) if value else b""


def matcher(word):
    sign = next(it for it in SIGNS if it in word)
    name, _, pattern = word.partition(sign)
    return field(2, number(1, SIGNS[sign]) + if_any(2, unescaped(name)) + if_any(3, unescaped(pattern)))


def hashes(words, name):
    """The hashes of a list behind a name, such as `1,2`, or `-` for none; `1..9` are all from one to the other."""
    parts = [it.partition("..") for it in behind(words, name, "-").split(",") if it != "-"]
    return b"".join(varint(it) for first, _, last in parts for it in range(int(first), int(last or first) + 1))


def silence(text):
    """The bytes of a silence's version, from words such as `a job=x 10..100 updated 10 expires 200 by ops saying hi`."""
    text, _, comment = text.partition(" saying ")
    text, _, author = text.partition(" by ")
    key, *words = text.split(" ")
    matchers = [it for it in words if any(sign in it for sign in SIGNS)]
    starts, _, ends = next((it for it in words if ".." in it and it not in matchers), "10..100").partition("..")
    inner = if_any(1, unescaped(key)) + b"".join(map(matcher, matchers)) + field(3, moment(starts)) + field(4, moment(ends))
    inner += field(5, moment(behind(words, "updated", "10"))) + if_any(8, unescaped(author)) + if_any(9, unescaped(comment))
    return field(1, inner) + field(2, moment(behind(words, "expires", "200")))


def entry(text):
    """The bytes of an entry's version, from words such as `g r/w/0 updated 10 expires 200 firing 1,2 resolved 3`."""
    key, receiver, *words = text.split(" ")
    name, integration, index = receiver.split("/")
    inner = if_any(1, unescaped(key))
    inner += field(2, if_any(1, unescaped(name)) + if_any(2, unescaped(integration)) + number(3, int(index)))
    inner += field(5, moment(behind(words, "updated", "10")))
    inner += if_any(6, hashes(words, "firing")) + if_any(7, hashes(words, "resolved"))
    return field(1, inner) + field(2, moment(behind(words, "expires", "200")))


def of_later(version, inner=b"", outer=b""):
    """The same version with fields of a later release behind those of its message, and behind its own."""
    whole = dict(fields_of(version))
    return field(1, whole[1] + inner) + field(2, whole[2]) + outer


# What makes the version that words name, by its state.
MAKE = {"sil": silence, "nfl": entry}


def end_of(text, at):
    """Where the bracket at a place of a text is closed."""
    depth = 0
    for place in range(at, len(text)):
        depth += {"[": 1, "]": -1}.get(text[place], 0)
        if depth == 0:
            return place
    raise ValueError("a bracket is not closed")


def in_bytes(text):
    """A text in which each version in brackets, such as `[sil a job=x]` or `[nfl g r/w/0]`, is its bytes in pairs of digits."""
    done, at = "", 0
    for found in re.finditer(r"\[(sil|nfl) ", text):
        end = end_of(text, found.start())
        done += text[at : found.start()] + MAKE[found[1]](text[found.end() : end]).hex(" ")
        at = end + 1
    return done + text[at:]


def row(kind, text):
    """The bytes of a file: of versions of a state, parted by `, `, as a row; or those of hexadecimal digits."""
    if kind == "bytes":
        return bytes.fromhex(text)
    make = MAKE[kind]
    whole = lambda it: bytes.fromhex(it[len("bytes ") :]) if it.startswith("bytes ") else make(it)
    return b"".join(delimited(whole(it)) for it in text.split(", ") if it)
