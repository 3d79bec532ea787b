#!/usr/bin/env python3
"""The page for people as a constant of the program.

crates/am_api_status/src/page.html is the page; page.rt beside it has the same bytes as a constant, and the hashes of its style
and its script for the header of the reply. Without words this tells whether both are the same; with --write it writes page.rt.
"""
import base64
import hashlib
import re
import sys
from pathlib import Path

SOURCE = Path(__file__).resolve().parent.parent / "crates" / "am_api_status" / "src"
HTML = SOURCE / "page.html"
CONSTANT = SOURCE / "page.rt"

# What the browser is told about the page (Content Security Policy Level 3; W3C Trusted Types).
FIELDS = (
    "content-type: text/html; charset=utf-8\r\n"
    "content-security-policy: default-src 'none'; script-src 'sha256-{script}'; style-src 'sha256-{style}'; "
    "connect-src 'self'; img-src data:; base-uri 'none'; form-action 'none'; frame-ancestors 'none'; "
    "require-trusted-types-for 'script'; trusted-types 'none'\r\n"
    "x-content-type-options: nosniff\r\n"
    "referrer-policy: no-referrer\r\n"
    "cache-control: no-cache\r\n"
)


def digest(page, tag):
    """The hash of what stands in the one element of that name, as the policy spells it."""
    found = re.findall(rf"<{tag}>(.*?)</{tag}>", page, re.S)
    if len(found) != 1:
        sys.exit(f"{HTML}: {len(found)} elements <{tag}>, where one is wanted")
    return base64.b64encode(hashlib.sha256(found[0].encode()).digest()).decode()


def fields(page):
    return FIELDS.format(script=digest(page, "script"), style=digest(page, "style"))


def literal(text):
    """A text as a constant, a line of the source each; blanks at the begin of a line would be passed over."""
    lines = []
    for line in text.split("\n"):
        spelled = line.replace("\\", "\\\\").replace('"', '\\"').replace("\r", "\\r").replace("\t", "\\t")
        front = len(spelled) - len(spelled.lstrip(" "))
        lines.append("\\x20" * front + spelled[front:])
    return '"\\\n' + "\\n\\\n".join(lines) + '"'


def source(page):
    return (
        "//! The page for people, written by tests/page_source.py from page.html.\n\n"
        "/// The fields of the head that are about the page: its type, and what a browser is to let it do.\n"
        f"pub const FIELDS: &str = {literal(fields(page))};\n\n"
        "/// The page.\n"
        f"pub const PAGE: &str = {literal(page)};\n"
    )


def is_same():
    return CONSTANT.read_text() == source(HTML.read_text())


if __name__ == "__main__":
    if sys.argv[1:] == ["--write"]:
        CONSTANT.write_text(source(HTML.read_text()))
    elif not is_same():
        sys.exit(f"{CONSTANT} has not what {HTML.name} has: tests/page_source.py --write")
