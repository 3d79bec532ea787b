#!/usr/bin/env python3
"""Uses the page that a member of the built am_tool serves, in a real browser.

    tests/page.py [--pictures] [PROGRAM]

PROGRAM is crates/am_tool/out/am_tool if it isn't given. Where Debian's chromium is there, each thing that the page is for is
done with mouse or keyboard at one member, and another one shows it; whatever the browser complains of fails, and so does a
control without a name for screen readers. Where it isn't there these tests are skipped, and counted as such. With
--pictures those of docs/pictures are made instead. TIMES has the time of each test printed, and of lists with 10,000 silences.
"""

import base64
import hashlib
import json
import os
import re
import sys
import tempfile
import time

from lib import api, browser, members
from lib.api import silence
from lib.members import Member, begun, eventually, free_ports, peers_of
from lib.tally import check, compare, finish, skip, try_each
from lib.versions import row

# What the head of the page forbids, but for the hashes.
POLICY = (
    "default-src 'none'; script-src 'sha256-{script}'; style-src 'sha256-{style}'; connect-src 'self'; img-src data:; "
    "base-uri 'none'; form-action 'none'; frame-ancestors 'none'; require-trusted-types-for 'script'; trusted-types 'none'"
)

# What the browser says of a reply that is a refusal, and of one that doesn't come.
REFUSED = "network: Failed to load resource: the server responded with a status of"
NOT_REACHED = "network: Failed to load resource: net::ERR_"

# A text that would be markup, or would run, if it were taken for that.
MARKUP = "<img src=x onerror=\"document.title='run'\"><b>bold</b>&amp;"

MANY = 10_000

# How a browser writes a moment of this day, or of the next.
CLOCK = r"([A-Z][a-z]{2} \d+, \d{4}, )?\d+:\d\d\s[AP]M"

# The identifier of the first matcher's value, in the page.
VALUE = "document.querySelector('[name=value]').id"

# Notes when rows first stand in the list.
FIRST_ROWS = """
new MutationObserver(() => {
  if (!window.firstRows && document.querySelector("#rows > li")) window.firstRows = performance.now();
}).observe(document, { childList: true, subtree: true });
"""

# How long it takes, from now on, until the rows of the list are others.
NEXT_ROWS = """
{ const begun = performance.now();
  window.nextRows = new Promise((done) => {
    new MutationObserver(() => done(performance.now() - begun)).observe(document.querySelector("#rows"), { childList: true });
  }); } true;
"""

# The texts that stand out too little from what is behind them (WCAG 2.2, 1.4.3), and the controls that are too small (2.5.8).
FAINT = """
(() => {
  const parts = (color) => color.match(/[\\d.]+/g).map(Number);
  const light = (color) => parts(color).slice(0, 3)
    .map((it) => (it / 255 <= 0.04045 ? it / 255 / 12.92 : ((it / 255 + 0.055) / 1.055) ** 2.4))
    .reduce((sum, it, place) => sum + it * [0.2126, 0.7152, 0.0722][place], 0);
  const behind = (element) => {
    for (let at = element; at; at = at.parentElement) {
      const color = getComputedStyle(at).backgroundColor;
      if (parts(color)[3] !== 0) return color;
    }
    return "rgb(255, 255, 255)";
  };
  const ratio = (element) => {
    const both = [light(getComputedStyle(element).color), light(behind(element))].sort((a, b) => b - a);
    return (both[0] + 0.05) / (both[1] + 0.05);
  };
  const own = (element) => [...element.childNodes].some((node) => node.nodeType === 3 && node.data.trim());
  const seen = [...document.body.querySelectorAll("*")].filter((it) => it.checkVisibility() && it.localName !== "noscript");
  const faint = seen.filter((it) => own(it) && !it.disabled && ratio(it) < 4.5).map((it) => `${it.textContent}: ${ratio(it)}`);
  const small = seen.filter((it) => it.matches("button, input, select, textarea, .button, #rows a") && it.offsetHeight < 24);
  return [...faint, ...small.map((it) => `${it.outerHTML} is small`)];
})()
"""


def post(member, posted):
    status, body = member.post(posted)
    compare(f"a post of {posted['comment']}", status, 200)
    return json.loads(body)["silenceID"]


def pair(folder, options=()):
    return [begun(it) for it in peers_of("ab", folder, options)]


def url_of(member, place=""):
    return f"http://127.0.0.1:{member.port}/{place}"


def held(member, identifier):
    """A silence as a member shows it, or None."""
    status, body = member.ask("GET", f"/api/v2/silence/{identifier}")
    return json.loads(body) if status == 200 else None


def seconds_of(moment):
    """The seconds since 1970 of a moment that API v2 wrote."""
    return time.mktime(time.strptime(moment[:19] + " UTC", "%Y-%m-%dT%H:%M:%S %Z")) - time.timezone


def lasts(found):
    return seconds_of(found["endsAt"]) - seconds_of(found["startsAt"])


def is_near(found, wanted):
    return abs(found - wanted) < 30


def seen(page):
    """The beginning of what is seen of a page."""
    return page.text("body")[:600]


def shown_id(page):
    """The silence whose page is shown, once there is one."""
    ask = r"(/^#\/silences\/([^/?]+)$/.exec(location.hash) ?? [])[1]"
    return page.wait(f"!document.querySelector('#one').hidden && document.querySelector('#facts time') && {ask}")


def said(page, words):
    """Whether the page says so, to those who see it and to screen readers."""
    wanted = f"document.querySelector('#said').textContent === {json.dumps(words)}"
    return page.wait(wanted)


def fault(page, words):
    return page.wait(f"document.querySelector('#fault').textContent.includes({json.dumps(words)})")


def below(page, field, words):
    """Whether the page says so below a field, and that the field is wrong."""
    field = field if "." in field else json.dumps(field)
    fault = f"document.getElementById({field} + '-fault').textContent.includes({json.dumps(words)})"
    return page.wait(f"{fault} && document.getElementById({field}).getAttribute('aria-invalid') === 'true'")


def has_ring(page, name):
    """What has the focus is seen to have it."""
    ring = page.evaluate("getComputedStyle(document.activeElement).outlineStyle + getComputedStyle(document.activeElement).outlineWidth")
    compare(f"{name} has a ring", ring, "solid3px")


def rows(page):
    return page.evaluate("[...document.querySelectorAll('#rows > li')].map((row) => row.innerText.split('\\n').filter(Boolean))")


def has_rows(page, wanted):
    """Waits until the list has rows that begin so."""
    return eventually(lambda: [it[0] for it in rows(page)] == wanted) or rows(page)


def finds(page, name, wanted):
    found = has_rows(page, wanted)
    check(f"the list has {name}", found is True, found)


def sees_well(page, name):
    """Each control has a name, nothing is faint or small, nothing goes beyond the page's side, and nobody complained."""
    compare(f"{name}: nameless", page.nameless(), [])
    compare(f"{name}: faint or small", page.evaluate(FAINT), [])
    wide = page.evaluate("document.scrollingElement.scrollWidth - innerWidth")
    check(f"{name}: nothing goes beyond the side", wide <= 0, wide)
    heads = page.evaluate("[...document.querySelectorAll('h1, h2')].filter((it) => it.checkVisibility()).map((it) => it.localName)")
    compare(f"{name}: heads", heads[:1] + heads[-1:], ["h1", "h2"])


def quiet(page, name, but=()):
    """Nothing was complained of, but for lines that begin so."""
    compare(f"{name}: complaints", [it for it in page.faults() if not it.startswith(tuple(but))], [])
    page.close()


# ---- the bytes


def test_bytes(folder):
    """The page is one file, and its head lets nothing run but what stands in it."""
    (port,) = free_ports(1)
    member = Member("a", port, [], folder)
    check("a listens", member.start(), member.lines)
    reply = member.send(b"GET / HTTP/1.1\r\nHost: localhost\r\n\r\n", close=False)
    head, _, body = reply.partition(b"\r\n\r\n")
    line, *fields = head.decode().lower().split("\r\n")
    fields = dict(it.split(": ", 1) for it in fields)
    compare("its status", line, "http/1.1 200 ok")
    hash_of = lambda tag: base64.b64encode(hashlib.sha256(inner(body, tag)).digest()).decode()
    policy = POLICY.format(script=hash_of(b"script"), style=hash_of(b"style"))
    compare("its policy", fields["content-security-policy"], policy.lower())
    for name, wanted in [
        ("content-type", "text/html; charset=utf-8"),
        ("x-content-type-options", "nosniff"),
        ("referrer-policy", "no-referrer"),
        ("cache-control", "no-cache"),
        ("content-length", str(len(body))),
        ("connection", "close"),
    ]:
        compare(name, fields.get(name), wanted)
    compare("no site may read replies", [it for it in fields if it.startswith("access-control")], [])
    compare("a file of the repository", body, page_source())
    text = body.decode()
    compare("nothing from elsewhere", re.findall(r"https?://|//\w|@import|url\(", text), [])
    compare("no code and no style in attributes", re.findall(r"<[^>]*\s(?:on\w+|style)=", text.partition("<script>")[0]), [])
    compare("no text is made markup", re.findall(r"innerHTML|outerHTML|insertAdjacentHTML|document\.write|eval\(", text), [])
    check("it is small", len(body) < 61_440, len(body))
    member.kill()


def inner(body, tag):
    return re.search(b"<%s>(.*?)</%s>" % (tag, tag), body, re.S)[1]


def page_source():
    with open(f"{members.TOP}/crates/am_api_status/src/page.html", "rb") as file:
        return file.read()


# ---- what it is for, with the mouse


def test_actions(folder):
    """A silence is made, changed, extended, ended and made again at a, and b shows it each time."""
    a, b = pair(folder)
    with browser.Browser(folder) as chromium:
        page = chromium.page(url_of(a))
        first = makes(page, a, b)
        changes(page, b, first)
        extends(page, b, first)
        ends(page, b, first)
        makes_again(page, b, first)
        moves(page, b)
        quiet(page, "actions")
    for member in (a, b):
        member.kill()


def makes(page, a, b):
    """Two matchers, two hours, and the author is remembered."""
    compare("the title", page.evaluate("document.title"), "Silences")
    check("a is ready", page.wait("document.querySelector('#member').innerText === 'Member a is ready'"))
    page.click("link", "New silence")
    page.fill("textbox", "Label", "job")
    page.fill("textbox", "Value", "db")
    page.click("button", "Add a matcher")
    page.type("env")
    page.evaluate("document.querySelectorAll('select[name=operator]')[1].value = '!~'")
    page.evaluate("document.querySelectorAll('input[name=value]')[1].focus()")
    page.type('test.*"')
    page.fill("textbox", "Creator", "ann")
    page.fill("textbox", "Comment", MARKUP)
    page.click("button", "Create")
    check("it is made", said(page, "The silence is created"), seen(page))
    first = shown_id(page)
    check("b has it", eventually(lambda: held(b, first)), first)
    found = held(b, first)
    compare("its matchers", [(it["name"], it["value"], it["isRegex"], it["isEqual"]) for it in found["matchers"]],
            [("job", "db", False, True), ("env", 'test.*"', True, False)])
    compare("who and why", (found["createdBy"], found["comment"], found["status"]["state"]), ("ann", MARKUP, "active"))
    check("it lasts two hours", is_near(lasts(found), 7200), found)
    compare("the comment is text", page.evaluate("document.querySelectorAll('img, #facts b').length"), 0)
    check("and stands there", MARKUP in page.text("#facts"), page.text("#facts"))
    check("the focus is at its head", page.evaluate("document.activeElement.id") == "one-head")
    check("peers are told of", page.wait("document.querySelector('#peers').innerText.startsWith('b ')"))
    compare("a lists it", [it["id"] for it in a.listed()], [first])
    return first


def changes(page, b, first):
    """Another comment, in place; other matchers make another silence."""
    page.click("link", "Edit")
    page.fill("textbox", "Comment", "disk swap")
    page.click("button", "Update")
    check("it is updated", said(page, "The silence is updated"), seen(page))
    check("in place", shown_id(page) == first)
    check("b has the change", eventually(lambda: held(b, first)["comment"] == "disk swap"))
    check("its length stays", is_near(lasts(held(b, first)), 7200))
    compare("its matchers stay", len(held(b, first)["matchers"]), 2)


def extends(page, b, first):
    page.click("button", "Extend …")
    page.wait("document.querySelector('#asking').open")
    page.evaluate("document.querySelector('#longer').value = '86400'")
    page.click("button", "Extend")
    check("it is extended", said(page, "Extended by 1 d"), seen(page))
    check("b has the later end", eventually(lambda: is_near(lasts(held(b, first)), 86400 + 7200)), held(b, first))
    compare("who made it stays", held(b, first)["createdBy"], "ann")


def ends(page, b, first):
    page.click("button", "Expire …")
    check("it is asked once more", page.wait("document.querySelector('#asking').open"))
    compare("the dialog's names", page.nameless(), [])
    page.click("button", "Keep it")
    check("it is kept", held(b, first)["status"]["state"] == "active")
    page.click("button", "Expire …")
    page.click("button", "Expire it now")
    check("it has ended", said(page, "The silence has ended"), seen(page))
    check("b shows that", eventually(lambda: held(b, first)["status"]["state"] == "expired"))
    check("nothing ends what has ended", page.found("button", "Expire …") is None)


def makes_again(page, b, first):
    page.click("link", "Recreate")
    check("two matchers stand there", page.wait("document.querySelectorAll('#matchers > *').length === 2"))
    check("the author is remembered", page.wait("document.querySelector('#author').value === 'ann'"))
    page.click("button", "Remove matcher 2")
    page.fill("textbox", "Duration", "1d 12h")
    page.click("button", "Create")
    check("it is made again", said(page, "The silence is created"), seen(page))
    second = shown_id(page)
    check("as another one", second != first, second)
    check("b has it", eventually(lambda: held(b, second)))
    check("with its length", is_near(lasts(held(b, second)), 36 * 3600), held(b, second))
    compare("and one matcher", [it["value"] for it in held(b, second)["matchers"]], ["db"])


def moves(page, b):
    """A start and an end are chosen in the browser's time zone, which isn't the machine's."""
    page.click("link", "All silences")
    page.click("link", "New silence")
    page.fill("textbox", "Label", "job")
    page.fill("textbox", "Value", "later")
    page.choose(("DateTime", "Start"), "2096-02-29T12:00")
    page.choose(("DateTime", "End"), "2096-03-01T13:30")
    compare("the duration follows", page.evaluate("document.querySelector('#duration').value"), "1 d 1 h 30 min")
    page.fill("textbox", "Comment", "leap day")
    page.click("button", "Create")
    check("it is made", said(page, "The silence is created"), seen(page))
    found = eventually(lambda: held(b, shown_id(page)))
    wanted = ("2096-02-29T06:30:00.000Z", "2096-03-01T08:00:00.000Z", "pending")
    compare("its moments", (found["startsAt"], found["endsAt"], found["status"]["state"]), wanted)
    page.click("link", "Edit")
    page.choose(("DateTime", "End"), "2096-03-02T13:30")
    page.click("button", "Update")
    check("its end is changed", said(page, "The silence is updated"), seen(page))
    check("in place", eventually(lambda: held(b, found["id"])["endsAt"] == "2096-03-02T08:00:00.000Z"), held(b, found["id"]))
    compare("its start stays", held(b, found["id"])["startsAt"], found["startsAt"])


# ---- lists


def test_lists(folder):
    """States with their counts, filters, links, and what comes meanwhile."""
    a, b = pair(folder)
    names = {value: post(a, silence(value, f"of {value}", seconds)) for value, seconds in [("db", 7200), ("web", 3600), ("dbx", 90)]}
    post(a, silence("later", "of later", starts=3600))
    ended = post(a, silence("old", "of old"))
    a.ask("DELETE", f"/api/v2/silence/{ended}")
    with browser.Browser(folder) as chromium:
        page = chromium.page(url_of(a))
        finds(page, "what ends next first", ['job="dbx"', 'job="web"', 'job="db"'])
        how, who, *acts = rows(page)[1][1:]
        check("how long, and until when", re.fullmatch(rf"ends in 59 min( \d+ s)? {CLOCK}", how), how)
        compare("who, and why", who, "ann of web")
        compare("what can be done", acts, ["Extend", "Expire"])
        compare("counts", states(page), ["Active: 3", "Pending: 1", "Expired: 1"])
        page.click("link", "Expired: 1")
        finds(page, "what ended", ['job="old"'])
        page.click("link", "Pending: 1")
        finds(page, "what begins", ['job="later"'])
        filters(page)
        follows_links(page, chromium, a, b, names)
        quiet(page, "lists", [REFUSED])
    for member in (a, b):
        member.kill()


def states(page):
    return page.evaluate("[...document.querySelectorAll('#states a')].map((it) => it.innerText)")


def filters(page):
    page.click("link", "Active: 3")
    page.fill("searchbox", "Filter", '{job=~"db.*", job!="x"}')
    finds(page, "what passes", ['job="dbx"', 'job="db"'])
    check("it says how many", said(page, "2 active silences for this filter"), page.text("#said"))
    compare("and so does the head", page.text("#list-head"), "2 active silences for this filter")
    compare("counts of what passes", states(page), ["Active: 2", "Pending: 0", "Expired: 0"])
    check("the focus stays", page.evaluate("document.activeElement.id") == "filter")
    page.fill("searchbox", "Filter", "1job=x")
    check("what is no filter is told", below(page, "filter", "The member can't read this filter."), seen(page))
    compare("nothing is shown for it", rows(page), [])
    page.fill("searchbox", "Filter", "job=web")
    finds(page, "one more", ['job="web"'])
    check("the fault is gone", page.wait("document.querySelector('#filter-fault').textContent === ''"))
    check("its address has the filter", page.wait("location.hash === '#/silences?state=active&filter=job%3Dweb'"))
    page.reload()
    finds(page, "the same behind a reload", ['job="web"'])
    page.click("link", "New silence")
    check("a new one begins with its matchers", page.wait("document.querySelector('input[name=value]')?.value === 'web'"))
    page.click("link", "Cancel")
    finds(page, "the same again", ['job="web"'])
    page.click("link", "Silences")
    finds(page, "all of them again", ['job="dbx"', 'job="web"', 'job="db"'])


def follows_links(page, chromium, a, b, names):
    """A silence has a link, at any member, and Alertmanager's own links are followed."""
    for place in ("#/silence/", "#/silences/"):
        other = chromium.page(url_of(b, place + names["db"]))
        check(f"{place} leads to it", eventually(lambda: "of db" in other.text("#one")), other.text("body"))
        other.close()
    other = chromium.page(url_of(b, "#/silences/new?filter=%7Balertname%3D%22Disk%20%5C%22full%5C%22%22%2Ca%21~%22b%2Cc%22%7D"))
    fields = "[...document.querySelectorAll('#matchers input, #matchers select')].map((it) => it.value)"
    compare("matchers of a link", other.evaluate(fields), ["alertname", "=", 'Disk "full"', "a", "!~", "b,c"])
    quiet(other, "links")
    page.go(url_of(a, "#/silence/nobody"))
    check("an unknown one is told", fault(page, "The member has no such silence."), seen(page))
    page.go(url_of(a, "#/silence/%/toString"))
    finds(page, "all at an address that is none", ['job="dbx"', 'job="web"', 'job="db"'])
    page.evaluate("document.querySelector('#rows a').focus()")
    place = page.evaluate("document.activeElement.href")
    post(b, silence("fresh", "of fresh", 60))
    check("a has what b took", eventually(lambda: len(a.listed()) == 6))
    page.evaluate("document.dispatchEvent(new Event('visibilitychange'))")
    finds(page, "what came meanwhile", ['job="fresh"', 'job="dbx"', 'job="web"', 'job="db"'])
    compare("the focus stays where it was", page.evaluate("document.activeElement.href"), place)


# ---- what fails


def test_faults(folder):
    """What the member refuses, and that it is gone, is said in words."""
    a, b = pair(folder)
    with browser.Browser(folder) as chromium:
        page = chromium.page(url_of(a, "#/silences/new"))
        page.fill("textbox", "Label", "job")
        page.evaluate("document.querySelector('select[name=operator]').value = '=~'")
        page.fill("textbox", "Value", "(")
        page.fill("textbox", "Creator", "ann")
        page.fill("textbox", "Comment", "a try")
        page.fill("textbox", "Duration", "long")
        page.click("button", "Create")
        check("a duration that is none is told", below(page, "duration", "Write a duration, as 45m, 2h or 1d 12h."), seen(page))
        compare("the focus is there", page.evaluate("document.activeElement.id"), "duration")
        page.fill("textbox", "Duration", "45m")
        check("and no more once it is one", page.text("#duration-fault") == "")
        page.click("button", "Create")
        check("a broken pattern", below(page, VALUE, 'The regular expression "(" can\'t be read: Unterminated group.'), seen(page))
        compare("the focus is at its value", focus(page), "Value")
        has_ring(page, "the value")
        page.fill("textbox", "Value", ".*")
        page.click("button", "Create")
        check("what matches all", below(page, VALUE, "These match every alert"), seen(page))
        compare("nothing was made", (a.listed(), b.listed()), ([], []))
        page.fill("textbox", "Value", "d.*")
        page.click("button", "Create")
        first = shown_id(page)
        check("it is made at last", held(a, first), seen(page))
        check("and no fault is shown", page.text("#fault") == "", page.text("#fault"))
        meanwhile_ended(page, a, first)
        a.kill()
        page.click("link", "All silences")
        check("a member that is gone", fault(page, "The member doesn't answer."), seen(page))
        check("is told of at the head", page.wait("document.querySelector('#member').innerText.endsWith(\"doesn't answer\")"))
        check("it comes back", a.start(), a.lines)
        page.evaluate("document.dispatchEvent(new Event('visibilitychange'))")
        check("and so does the list", page.wait("document.querySelector('#fault').textContent === ''"), seen(page))
        quiet(page, "faults", [REFUSED, NOT_REACHED])
    for member in (a, b):
        member.kill()


def meanwhile_ended(page, a, first):
    """Somebody else has ended it."""
    a.ask("DELETE", f"/api/v2/silence/{first}")
    page.click("button", "Expire …")
    page.click("button", "Expire it now")
    check("what has ended doesn't end", fault(page, "This silence has ended already."), seen(page))


def test_readiness(folder):
    """A member that waits for its first pull isn't ready; then it is, and says when its peers were heard."""
    ports = free_ports(2)
    a = Member("a", ports[0], [("b", ports[1])], folder, ["--pull-first", "--pull-first-limit", "60"])
    check("a listens", a.start(), a.lines)
    with browser.Browser(folder) as chromium:
        page = chromium.page(url_of(a))
        check("a isn't ready", page.wait("document.querySelector('#member').innerText === 'Member a isn\\'t ready'"))
        check("b was not heard", page.wait("document.querySelector('#peers').innerText === 'b not heard yet'"), page.text("#peers"))
        b = Member("b", ports[1], [("a", ports[0])], folder)
        check("b listens", b.start(), b.lines)
        check("a answers", eventually(lambda: a.ask("GET", "/-/ready")[0] == 200), a.lines)
        page.evaluate("document.dispatchEvent(new Event('visibilitychange'))")
        check("a is ready", page.wait("document.querySelector('#member').innerText === 'Member a is ready'"))
        heard = r"/^b heard \d+ s ago$/.test(document.querySelector('#peers').innerText)"
        check("b was heard", page.wait(heard), page.text("#peers"))
        quiet(page, "readiness", [REFUSED, NOT_REACHED])
    for member in (a, b):
        member.kill()


# ---- what others do meanwhile


def asked(page):
    """What the page asks a person, once it does."""
    page.wait("document.querySelector('#asking').open")
    return page.text("#asking")


def values_of(page, selector):
    return page.evaluate(f"[...document.querySelectorAll({json.dumps(selector)})].map((it) => it.value)")


def refresh(page):
    """Has a page ask its member anew, as it does by itself later."""
    page.evaluate("document.dispatchEvent(new Event('visibilitychange'))")


def matcher(name, value, is_regex=False):
    return {"name": name, "value": value, "isRegex": is_regex, "isEqual": True}


# Values that one line of a form can't show, or would change.
ODD = ["line\nfeed", " lead", "tail\t", "return\rfeed\n", "two  blanks", "\\n \"quoted\""]


def test_kept(folder):
    """Who edits a comment changes nothing else, however odd the other parts are."""
    a, b = pair(folder)
    odd = [matcher(f"m{place}", value) for place, value in enumerate(ODD)]
    first = post(a, silence("x", "of\r\nodd values", matchers=odd, createdBy=" ann\nof x "))
    before = held(a, first)
    with browser.Browser(folder) as chromium:
        page = chromium.page(url_of(a))
        check("a row shows them", eventually(lambda: r'm0="line\nfeed" m1=" lead"' in page.text("#rows")), page.text("#rows"))
        page.go(url_of(a, f"#/silences/{first}"))
        check("so does its page", eventually(lambda: r'm3="return\rfeed\n"' in page.text("#facts")), page.text("#facts"))
        page.click("link", "Edit")
        page.wait("!!document.querySelector('#matchers textarea')")
        kinds = page.evaluate("[...document.querySelectorAll('#matchers [name=value]')].map((it) => it.localName)")
        compare("fields of values", kinds, ["textarea"] * 4 + ["input"] * 2)
        check("it is told how they are quoted", r'As "line\nfeed"' in page.text("#matchers"), page.text("#matchers"))
        page.fill("textbox", "Comment", "another")
        page.click("button", "Update")
        check("it is updated", said(page, "The silence is updated"), seen(page))
        compare("nothing but its comment", changed(before, held(a, first)), {"comment": "another"})
        page.click("link", "Edit")
        page.wait("!!document.querySelector('#matchers textarea')")
        page.fill("textbox", "Comment", "one\ntwo")
        page.evaluate("document.querySelector('#matchers textarea').focus()")
        page.type("more\n")
        page.click("button", "Update")
        check("another is created", said(page, "Another silence is created, and the old one has ended"), seen(page))
        second = held(a, shown_id(page))
        compare("with the value that was typed", sorted(it["value"] for it in second["matchers"])[-2:], sorted([*ODD, "line\nfeedmore\n"])[-2:])
        compare("and its comment", second["comment"], "one\ntwo")
        quiet(page, "kept")
    for member in (a, b):
        member.kill()


def changed(before, after):
    """What is otherwise, but for when it was updated."""
    return {key: after[key] for key in after if key != "updatedAt" and after[key] != before[key]}


def test_meanwhile(folder):
    """What somebody else did meanwhile is told before anything is posted, and is not undone."""
    a, b = pair(folder)
    with browser.Browser(folder) as chromium:
        page = chromium.page(url_of(a))
        ended_meanwhile(page, a, b)
        extended_meanwhile(page, a, b)
        edited_meanwhile(page, a, b)
        ended_in_form(page, a, b)
        quiet(page, "meanwhile", [REFUSED])
    for member in (a, b):
        member.kill()


def opened(page, a, b, value):
    """A silence that a page at a shows, and that b holds."""
    first = post(a, silence(value, f"of {value}"))
    check(f"b holds {value}", eventually(lambda: held(b, first)))
    page.go(url_of(a, f"#/silences/{first}"))
    check(f"{value} is shown", page.wait(f"document.querySelector('#facts')?.innerText.includes('of {value}')"), seen(page))
    return first


def extends_by_hour(page):
    page.click("button", "Extend …")
    asked(page)
    page.evaluate("document.querySelector('#longer').value = '3600'")
    page.click("button", "Extend")


def ended_meanwhile(page, a, b):
    """An extension of what somebody ended brings nothing back unless that is wanted."""
    first = opened(page, a, b, "ended")
    b.ask("DELETE", f"/api/v2/silence/{first}")
    check("a knows", eventually(lambda: held(a, first)["status"]["state"] == "expired"))
    extends_by_hour(page)
    check("it is told", eventually(lambda: "This silence has ended meanwhile" in asked(page)), asked(page))
    check("who made it, too", "Creator: ann" in asked(page), asked(page))
    page.click("button", "Cancel")
    check("the page shows that", page.wait("document.querySelector('#facts').innerText.includes('expired')"), seen(page))
    compare("nothing was made", [it["id"] for it in a.listed()], [first])
    page.go(url_of(a, "#/silences"))
    second = opened(page, a, b, "again")
    b.ask("DELETE", f"/api/v2/silence/{second}")
    check("a knows that, too", eventually(lambda: held(a, second)["status"]["state"] == "expired"))
    extends_by_hour(page)
    page.click("button", "Create another")
    check("it says that it is another", said(page, "Another silence is created"), seen(page))
    third = shown_id(page)
    check("it is", third != second, third)
    check("it ends when it was to", is_near(seconds_of(held(a, third)["endsAt"]), time.time() + 3 * 3600), held(a, third))


def later_by(member, identifier, seconds, **more):
    """Somebody posts a silence with a later end."""
    found = held(member, identifier)
    ends = api.moment(1000 * int(seconds_of(found["endsAt"]) + seconds))
    return post(member, {**found, "endsAt": ends, **more})


def extended_meanwhile(page, a, b):
    """Two extensions count both."""
    first = opened(page, a, b, "extended")
    compare("b extends it", later_by(b, first, 7200), first)
    check("a knows", eventually(lambda: is_near(lasts(held(a, first)), 14400)))
    extends_by_hour(page)
    check("it is told", eventually(lambda: "This silence was changed meanwhile" in asked(page)), asked(page))
    check("what was changed", re.search(r"End: .* → ", asked(page)), asked(page))
    page.click("button", "Extend it all the same")
    check("it is extended", said(page, "Extended by 1 h"), seen(page))
    check("by both", is_near(lasts(held(a, first)), 4 * 3600 + 3600), held(a, first))


def edited_meanwhile(page, a, b):
    """An edited comment undoes no extension, and is asked about."""
    first = opened(page, a, b, "edited")
    page.click("link", "Edit")
    page.fill("textbox", "Comment", "mine")
    later_by(b, first, 7200, createdBy="ann, changed by cleo")
    check("a knows", eventually(lambda: is_near(lasts(held(a, first)), 14400)))
    page.click("button", "Update")
    check("who changed it", eventually(lambda: "Creator: ann → ann, changed by cleo" in asked(page)), asked(page))
    page.press("Escape")
    check("the form stays", page.wait("document.querySelector('#comment')?.value === 'mine'"))
    compare("nothing was posted", held(a, first)["comment"], "of edited")
    page.click("button", "Update")
    page.click("button", "Update it all the same")
    check("it is updated", said(page, "The silence is updated"), seen(page))
    found = held(a, first)
    compare("with what both wanted", (found["comment"], found["createdBy"]), ("mine", "ann, changed by cleo"))
    check("and the later end", is_near(lasts(found), 14400), found)


def ended_in_form(page, a, b):
    """What was ended while it is edited isn't brought back unless that is wanted."""
    first = opened(page, a, b, "form")
    count = len(a.listed())
    page.click("link", "Edit")
    page.fill("textbox", "Comment", "mine")
    b.ask("DELETE", f"/api/v2/silence/{first}")
    check("a knows", eventually(lambda: held(a, first)["status"]["state"] == "expired"))
    page.click("button", "Update")
    check("it is told", eventually(lambda: "This silence has ended meanwhile" in asked(page)), asked(page))
    page.click("button", "Cancel")
    compare("nothing was made", len(a.listed()), count)
    page.click("button", "Update")
    page.click("button", "Create another")
    check("another is created", said(page, "Another silence is created"), seen(page))
    compare("one more", len(a.listed()), count + 1)


def test_creator(folder):
    """Whoever changes a silence of somebody else may add their name, and the creator stays."""
    a, b = pair(folder)
    first = post(a, silence("db", "disk swap"))
    nobody = post(a, silence("of nobody", "", createdBy=""))
    with browser.Browser(folder) as chromium:
        page = chromium.page(url_of(a))
        page.evaluate("localStorage.setItem('author', 'ben')")
        page.go(url_of(a, f"#/silences/edit/{first}"))
        check("the creator stays", page.wait("document.querySelector('#author').value === 'ann'"), values_of(page, "#author"))
        page.fill("textbox", "Comment", "disks swapped")
        page.click("button", "Update")
        check("it is updated", said(page, "The silence is updated"), seen(page))
        compare("by whom is not forced", held(a, first)["createdBy"], "ann")
        page.click("link", "Edit")
        page.click("button", "Add “, changed by ben”")
        page.click("button", "Update")
        check("it is updated once more", said(page, "The silence is updated"), seen(page))
        compare("it may be told", held(a, first)["createdBy"], "ann, changed by ben")
        page.go(url_of(a, "#/silences/new"))
        check("ben is remembered", page.wait("document.querySelector('#author').value === 'ben'"), values_of(page, "#author"))
        compare("nothing is offered here", page.found("button", "Add “, changed by ben”"), None)
        page.go(url_of(a))
        check("no creator is told, and no comment", eventually(lambda: "no creator no comment" in page.text("#rows")), page.text("#rows"))
        page.go(url_of(a, f"#/silences/{nobody}"))
        check("so on its page", eventually(lambda: "no creator" in page.text("#facts")), page.text("#facts"))
        quiet(page, "creator")
    for member in (a, b):
        member.kill()


# ---- the form


FORM = "#matchers input, #matchers select, #starts, #duration, #author, #comment"


def begins(page, value):
    """Half a silence is filled in."""
    page.fill("textbox", "Label", "job")
    page.fill("textbox", "Value", value)
    page.click("button", "Add a matcher")
    page.type("env")
    page.choose(("DateTime", "Start"), "2096-02-29T12:00")
    page.fill("textbox", "Duration", "3 h")
    page.fill("textbox", "Comment", "half a")
    return values_of(page, FORM)


def test_draft(folder):
    """What stands in a form stays until it is posted or cancelled, whatever the browser is told to show."""
    a, b = pair(folder)
    first = post(a, silence("db", "disk swap"))
    with browser.Browser(folder) as chromium:
        page = chromium.page(url_of(a))
        page.click("link", "New silence")
        wanted = begins(page, "half")
        page.evaluate("history.back()")
        finds(page, "its silence", ['job="db"'])
        page.evaluate("history.forward()")
        check("forward brings it back", page.wait("document.querySelector('#comment')?.value === 'half a'"), values_of(page, FORM))
        compare("all of it", values_of(page, FORM), wanted)
        check("the page says so", page.text("#said").startswith("This is what you had begun"), page.text("#said"))
        page.reload()
        check("a reload, too", page.wait("document.querySelector('#comment')?.value === 'half a'"), values_of(page, FORM))
        compare("all of it again", values_of(page, FORM), wanted)
        page.click("link", "Cancel")
        page.click("link", "New silence")
        check("it is dropped", page.wait("document.querySelector('#comment')?.value === '' && !document.querySelector('#edit').hidden"))
        begins(page, "whole")
        page.click("button", "Remove matcher 2")
        page.fill("textbox", "Creator", "ann")
        page.click("button", "Create")
        check("it is created", said(page, "The silence is created"), seen(page))
        page.go(url_of(a, "#/silences/new"))
        page.wait("!document.querySelector('#form').hidden")
        compare("and dropped", values_of(page, "#comment, [name=label]"), ["", ""])
        page.go(url_of(a, f"#/silences/edit/{first}"))
        page.fill("textbox", "Comment", "edited")
        page.reload()
        check("so where one is edited", page.wait("document.querySelector('#comment')?.value === 'edited'"), values_of(page, FORM))
        page.click("button", "Update")
        check("it is updated", said(page, "The silence is updated"), seen(page))
        compare("in place", (held(a, first)["comment"], len(a.listed())), ("edited", 2))
        quiet(page, "draft")
    for member in (a, b):
        member.kill()


PASTED = [
    ('{alertname="X", job=~"y,z"}', ["alertname", "=", "X", "job", "=~", "y,z"]),
    ('alertname="Disk \\"full\\"",\na!~"b c",', ["alertname", "=", 'Disk "full"', "a", "!~", "b c"]),
    ('{"labels": {"alertname": "X", "path": "/a b"}}', ["alertname", "=", "X", "path", "=", "/a b"]),
    ('job != "one"', ["job", "!=", "one"]),
]


def test_paste(folder):
    """A list of matchers that is pasted becomes rows, and no field takes it for a name."""
    (port,) = free_ports(1)
    a = begun(Member("a", port, [], folder))
    with browser.Browser(folder) as chromium:
        page = chromium.page(url_of(a))
        for text, wanted in PASTED:
            page.go(url_of(a, "#/silences/new"))
            page.click("textbox", "Label")
            page.paste(text)
            check(f"{text} becomes rows", eventually(lambda: values_of(page, FORM)[: len(wanted)] == wanted), values_of(page, FORM))
            page.click("link", "Cancel")
        page.go(url_of(a, "#/silences/new"))
        page.click("textbox", "Label")
        page.paste("job")
        compare("a name stays where it is", values_of(page, "[name=label]"), ["job"])
        for text in ('{alertname="X"}', "job name", "1x", "a-b"):
            page.fill("textbox", "Label", text)
            page.fill("textbox", "Creator", "ann")
            page.fill("textbox", "Comment", "c")
            page.click("button", "Create")
            check(f"{text} is no name", below(page, "document.querySelector('[name=label]').id", "Write the name of a label"), seen(page))
            compare("the focus is there", focus(page), "Label")
        has_ring(page, "the label")
        compare("nothing was made", a.listed(), [])
        quiet(page, "paste")
    a.kill()


# ---- rows


def test_rows(folder):
    """Rows are sorted, searched, and acted on; the way back leads to where one was."""
    a, b = pair(folder)
    for value, comment, who, seconds in [("db", "disk swap, see https://example.org/a?b=c.", "cleo", 7200), ("web", "kernel", "ann", 3600), ("mail", "javascript:alert(1) HTTP://x.example", "ben", 90_000)]:
        posted = silence(value, comment, seconds, createdBy=who)
        posted["matchers"].append(matcher("instance", "db[1-4].*", True))
        first = post(a, posted)
    with browser.Browser(folder) as chromium:
        page = chromium.page(url_of(a))
        rest = ' instance=~"db[1-4].*"'
        finds(page, "what ends first", [f'job="{it}"{rest}' for it in ("web", "db", "mail")])
        chips = page.evaluate("[...document.querySelectorAll('#rows li:first-child .chip')].map((it) => it.innerText)")
        compare("matchers are chips", chips, ['job="web"', 'instance=~"db[1-4].*"'])
        links = page.evaluate("[...document.querySelectorAll('.said a')].map((it) => [it.href, it.rel])")
        compare("links of the web alone", links, [["https://example.org/a?b=c", "noreferrer"], ["http://x.example/", "noreferrer"]])
        sorts(page, rest)
        searches(page, rest)
        acts_in_rows(page, a, b, rest)
        quiet(page, "rows")
    for member in (a, b):
        member.kill()


def sorts(page, rest):
    for key, wanted in [("start", ["web", "db", "mail"]), ("creator", ["web", "mail", "db"]), ("end", ["web", "db", "mail"])]:
        page.evaluate(f"document.querySelector('#sort').value = {json.dumps(key)}; document.querySelector('#sort').dispatchEvent(new Event('change'))")
        check(f"its address has {key}", page.wait(f"location.hash === '#/silences?state=active&sort={key}'"), page.evaluate("location.hash"))
        if key != "start":
            finds(page, f"rows by {key}", [f'job="{it}"{rest}' for it in wanted])
    page.reload()
    finds(page, "rows behind a reload", [f'job="{it}"{rest}' for it in ("web", "db", "mail")])


def searches(page, rest):
    """Words are looked for in matchers, creators and comments, beside filters."""
    for text, wanted in [("KERNEL", ["web"]), ("db[1-4] cleo", ["db"]), ('instance=~"db.*", "disk swap"', ["db"]), ("ben", ["mail"]), ("nowhere", [])]:
        page.fill("searchbox", "Filter", text)
        finds(page, f"what has {text}", [f'job="{it}"{rest}' for it in wanted])
    compare("the head says what is listed", page.text("#list-head"), "No active silences for this filter")
    page.fill("searchbox", "Filter", " ")
    finds(page, "all", [f'job="{it}"{rest}' for it in ("web", "db", "mail")])


def acts_in_rows(page, a, b, rest):
    """A row's silence is extended and expired where it stands."""
    web = next(it for it in a.listed() if it["createdBy"] == "ann")
    page.click("button", f'Extend job="web",{rest}')
    check("which one is told", 'job="web"' in asked(page), asked(page))
    page.click("button", "Extend")
    check("it is extended", said(page, "Extended by 2 h"), seen(page))
    check("b has it", eventually(lambda: is_near(lasts(held(b, web["id"])), 3 * 3600)), held(b, web["id"]))
    finds(page, "it further down", [f'job="{it}"{rest}' for it in ("db", "web", "mail")])
    compare("the focus is where it was", page.evaluate("document.activeElement.ariaLabel"), f'Extend job="web",{rest}')
    page.click("button", f'Expire job="web",{rest}')
    page.click("button", "Expire it now")
    check("it has ended", said(page, "The silence has ended"), seen(page))
    finds(page, "the others", [f'job="{it}"{rest}' for it in ("db", "mail")])
    compare("the focus is at the head", page.evaluate("document.activeElement.id"), "list-head")


def test_back(folder):
    """State, filter, sort, page and scroll are there again behind Back; twelve rows stand on a laptop's screen."""
    (port,) = free_ports(1)
    member = Member("m", port, [], folder)
    now = int(time.time())
    with open(member.sil, "wb") as file:
        file.write(row("sil", ", ".join(list(many(now))[:250])))
    check("it starts with them", member.start(), member.lines)
    with browser.Browser(folder) as chromium:
        page = chromium.page(url_of(member), width=1366, height=640)
        page.wait("document.querySelectorAll('#rows > li').length === 100")
        whole = page.evaluate("[...document.querySelectorAll('#rows > li')].filter((it) => it.getBoundingClientRect().bottom <= innerHeight).length")
        check("twelve rows are seen", whole >= 12, whole)
        page.fill("searchbox", "Filter", 'instance=~"host.*", maintenance')
        page.wait("location.hash.includes('filter')")
        page.evaluate("document.querySelector('#sort').value = 'creator'; document.querySelector('#sort').dispatchEvent(new Event('change'))")
        page.click("link", "Next page")
        page.wait("document.querySelector('.range').innerText.startsWith('101')")
        compare("a page begins at its top", page.evaluate("scrollY"), 0)
        page.evaluate("document.querySelectorAll('#rows > li > a')[60].scrollIntoView({ block: 'center' })")
        before = page.evaluate("[location.hash, scrollY, document.querySelectorAll('#rows > li > a')[60].hash]")
        page.evaluate("document.querySelectorAll('#rows > li > a')[60].click()")
        shown_id(page)
        compare("its silence stands at the top", page.evaluate("scrollY"), 0)
        page.evaluate("history.back()")
        page.wait("!document.querySelector('#list').hidden")
        found = "[location.hash, scrollY, document.activeElement.hash]"
        check("all is as it was", eventually(lambda: page.evaluate(found) == before), (page.evaluate(found), before))
        compare("the page of the list", page.text(".range"), "101 to 200 of 250")
        compare("the filter", values_of(page, "#filter, #sort"), ['instance=~"host.*", maintenance', "creator"])
        page.reload()
        check("so behind a reload", eventually(lambda: page.evaluate("[location.hash, scrollY]") == before[:2]), (page.evaluate(found), before))
        page.evaluate("document.querySelectorAll('.pages')[1].querySelector('a').click()")
        check("the pager below leads on", page.wait("document.querySelector('.range').innerText.startsWith('1 ')"), page.text(".range"))
        compare("to the top", page.evaluate("scrollY"), 0)
        quiet(page, "back")
    member.kill()


# ---- layout


TOPS = "[...document.querySelectorAll('#starts, #duration, #ends')].map((it) => it.getBoundingClientRect().top)"
WEIGHTS = "[...new Set([...document.querySelectorAll('#edit input, #edit select, #edit textarea')].map((it) => getComputedStyle(it).fontWeight))]"

# Marks that turn a direction, that stack, and blanks, as somebody may write them.
STRANGE = "\u202eturned  two   blanks" + "e" + "\u0301" * 60


def test_layout(folder):
    """Fields stand in line, faults below them, and nothing moves or spills that nobody asked for."""
    a, b = pair(folder)
    first = post(a, silence("db", "disk swap"))
    with browser.Browser(folder) as chromium:
        page = chromium.page(url_of(a, f"#/silences/edit/{first}"))
        for place in (f"#/silences/edit/{first}", "#/silences/new"):
            page.go(url_of(a, place))
            page.wait("!document.querySelector('#form').hidden")
            compare(f"{place}: fields in line", len(set(page.evaluate(TOPS))), 1)
            compare(f"{place}: one weight", page.evaluate(WEIGHTS), ["400"])
        seconds = page.evaluate("[...document.querySelectorAll('#starts, #ends')].map((it) => it.step + it.value.slice(16))")
        compare("no seconds", seconds, ["", ""])
        page.evaluate("document.querySelector('#starts').focus()")
        for _ in range(8):
            if focus(page) == "Duration":
                break
            page.press("Tab")
        compare("Tab gets through a date", focus(page), "Duration")
        filter_stays(page, a)
        dialog_inside(page, a, first)
        strange(page, a)
        quiet(page, "layout", [REFUSED, NOT_REACHED])
    for member in (a, b):
        member.kill()


def filter_stays(page, a):
    """The filter's field stays where it is, and what is wrong with it stands below it."""
    page.go(url_of(a))
    page.wait("!!document.querySelector('#rows li')")
    top = "document.querySelector('#filter').getBoundingClientRect().top"
    before = page.evaluate(top)
    for text, words in [('job=~"("', 'The regular expression "(" can\'t be read: Unterminated group.'), ('job=~"(?i)x", job=~"[b"', 'The regular expression "[b" can\'t be read'), ('job=~"(?=x)"', "The regular expressions can't be read, or are too large."), ("1job=x", "The member can't read this filter.")]:
        page.fill("searchbox", "Filter", text)
        check(f"{text} is told below", below(page, "filter", words), seen(page))
        compare("nothing is listed", (rows(page), page.text("#list-head")), ([], "No silences"))
        compare("the filter stays", page.evaluate(top), before)
    page.fill("searchbox", "Filter", "job=db")
    check("how many pass is told", said(page, "1 active silence for this filter"), page.text("#said"))
    compare("the filter stays all the same", page.evaluate(top), before)
    compare("the head says what is listed", page.text("#list-head"), "1 active silence for this filter")


def dialog_inside(page, a, first):
    """On a small screen a dialog stands off the edges."""
    page.look(320, 480)
    page.go(url_of(a, f"#/silences/{first}"))
    page.click("button", "Expire …")
    asked(page)
    left, right, bottom = page.evaluate("(({ left, right, bottom }) => [left, innerWidth - right, innerHeight - bottom])(document.querySelector('#asking').getBoundingClientRect())")
    check("it is off the edges", min(left, right, bottom) >= 8, (left, right, bottom))
    page.click("button", "Keep it")
    page.look(1000)


def strange(page, a):
    """Texts that turn or stack keep to their place, and blanks are seen."""
    odd = post(a, silence("strange", STRANGE, createdBy="\u202ewho", matchers=[matcher("job", "\u202ex"), matcher("env", STRANGE)]))
    page.go(url_of(a))
    page.wait("document.querySelectorAll('#rows li').length === 2")
    for place, chosen in [("", "#rows bdi"), (f"#/silences/{odd}", "#facts bdi")]:
        page.go(url_of(a, place))
        page.wait(f"document.querySelectorAll({json.dumps(chosen)}).length > 2")
        styles = page.evaluate(f"[...new Set([...document.querySelectorAll({json.dumps(chosen)})].map((it) => getComputedStyle(it).unicodeBidi + ' ' + getComputedStyle(it).whiteSpaceCollapse))]")
        compare(f"{chosen}: isolated, with its blanks", styles, ["isolate preserve"])
        spills = f"[...document.querySelectorAll({json.dumps(chosen)})].filter((it) => getComputedStyle(it.closest('.chip, .said, dd, h2')).overflowY === 'visible').map((it) => it.innerText)"
        compare(f"{chosen}: clipped", page.evaluate(spills), [])
    outer = page.evaluate("[...document.querySelectorAll('#facts dd')].map((it) => getComputedStyle(it).direction)")
    compare("its neighbours aren't turned", set(outer), {"ltr"})


def test_steady(folder):
    """A refresh moves nothing below the mouse; what came is drawn once the mouse has left."""
    a, b = pair(folder)
    post(a, silence("db", "disk swap"))
    with browser.Browser(folder) as chromium:
        page = chromium.page(url_of(a))
        finds(page, "its silence", ['job="db"'])
        page.point("#rows li .acts button")
        post(b, silence("sooner", "of sooner", 60))
        check("a has it", eventually(lambda: len(a.listed()) == 2))
        refresh(page)
        check("what came waits", page.wait("!!mouse.later"))
        compare("the row below the mouse stays", [it[0] for it in rows(page)], ['job="db"'])
        page.point("h1")
        finds(page, "what came, then", ['job="sooner"', 'job="db"'])
        page.point("#rows li .acts button")
        page.click("button", 'Extend job="sooner"')
        asked(page)
        post(b, silence("last", "of last", 90_000))
        check("a has that, too", eventually(lambda: len(a.listed()) == 3))
        refresh(page)
        check("it is asked", page.wait("list.all.length === 3"))
        compare("nothing is drawn behind a question", [it[0] for it in rows(page)], ['job="sooner"', 'job="db"'])
        page.click("button", "Extend")
        finds(page, "at once what a person did", ['job="db"', 'job="sooner"', 'job="last"'])
        a.kill()
        page.click("button", 'Extend job="db"')
        asked(page)
        page.click("button", "Extend")
        check("it is told", fault(page, "The member doesn't answer."), seen(page))
        has_ring(page, "the fault")
        check("the member isn't said to be ready", "is ready" not in page.text("#member"), page.text("#member"))
        quiet(page, "steady", [REFUSED, NOT_REACHED])
    for member in (a, b):
        member.kill()


# ---- alerts, and Alertmanagers


def test_alert(folder):
    """The silences that mute an alert are listed, as the member judges; nothing is changed by that."""
    a, b = pair(folder)
    ids = {}
    for name, matchers in [("by name", [matcher("alertname", "Down")]), ("by pattern", [matcher("instance", "db[12]:.*", True)]), ("others", [matcher("alertname", "Up")])]:
        ids[name] = post(a, silence("x", name, matchers=matchers))
    with browser.Browser(folder) as chromium:
        page = chromium.page(url_of(a))
        page.click("link", "Find by alert")
        for labels, wanted in [
            ('alertname="Down", instance="db1:9100"', ["by name", "by pattern"]),
            ('{"alertname": "Up", "instance": "db2:1"}', ["by pattern", "others"]),
            ('{"labels": {"alertname": "Else"}, "status": {}}', []),
        ]:
            page.fill("textbox", "Labels of an alert", labels)
            page.click("button", "Find silences")
            told = {0: "No silence mutes it.", 2: "2 silences mute it:"}[len(wanted)]
            shown = "[document.querySelector('#muted').innerText, [...document.querySelectorAll('#muting .said .dim')].map((it) => it.innerText).sort()]"
            check(f"{labels} is muted by", eventually(lambda: page.evaluate(shown) == [told, wanted]), page.text("#alert"))
        page.evaluate("history.back()")
        check("Back brings the former one", eventually(lambda: page.text("#muted") == "2 silences mute it:"), page.text("#alert"))
        page.fill("textbox", "Labels of an alert", "what is this")
        page.click("button", "Find silences")
        check("what is no list of labels", below(page, "labels", "Write the labels as"), seen(page))
        compare("nothing is logged by that", a.ask("GET", "/v1/log")[1], b"[]\n")
        compare("nor changed", sorted(it["id"] for it in a.listed()), sorted(ids.values()))
        quiet(page, "alert")
    for member in (a, b):
        member.kill()


def test_mutes(folder):
    """The page of a silence says how many of the alerts of the last messages it mutes."""
    a = begun(Member("a", free_ports(1)[0], [], folder))
    ids = {value: post(a, silence("x", value, matchers=[matcher("alertname", value)])) for value in ("Down", "Up", "Else")}
    later = post(a, silence("x", "later", starts=3600, matchers=[matcher("alertname", "Down")]))

    def tell(key, *alerts):
        listed = [{"status": "firing", "labels": {"alertname": name, "instance": str(place)}} for place, name in enumerate(alerts)]
        body = json.dumps({"groupKey": key, "receiver": "team", "alerts": listed}).encode()
        compare("a message is decided", a.ask("POST", "/v1/decide?wait=false", body)[0], 200)

    with browser.Browser(folder) as chromium:

        def says(identifier, words):
            page = chromium.page(url_of(a, f"#/silences/{identifier}"))
            compare("its page", shown_id(page), identifier)
            check(f"it says {words}", eventually(lambda: page.text("#mutes") == words), page.text("#one"))
            quiet(page, "mutes")

        says(ids["Down"], "")
        tell("g", "Down")
        says(ids["Down"], "Mutes 1 of 1 alert of the last messages.")
        tell("h", "Down", "Up", "Down")
        says(ids["Down"], "Mutes 3 of 4 alerts of the last messages.")
        says(ids["Up"], "Mutes 1 of 4 alerts of the last messages.")
        says(ids["Else"], "Mutes 0 of 4 alerts of the last messages.")
        says(later, "")
        before = a.ask("GET", "/v1/alerts")
        many = [post(a, silence("x", f"of many {number}", matchers=[matcher("alertname", "Up")])) for number in range(16)]
        last = max([*many, ids["Up"]])
        says(last, "Mutes at least 0 of 4 alerts of the last messages.")
        compare("the alerts are those of the messages", a.ask("GET", "/v1/alerts"), before)
    a.kill()


def test_beside(folder):
    """Alertmanagers beside the member are shown as its peers are."""
    ports = free_ports(3)
    gossip = [word for name, at in (("am1", ports[1]), ("am=2", ports[2])) for word in ("--gossip", f"{name}={at}")]
    a = begun(Member("a", ports[0], [], folder, gossip[:2]))
    with browser.Browser(folder) as chromium:
        page = chromium.page(url_of(a))
        wanted = f"am1 Alertmanager at 127.0.0.1:{ports[1]}, not heard yet"
        check("it is shown", eventually(lambda: page.text("#beside") == wanted), page.text("header"))
        compare("as what it is", page.evaluate("document.querySelector('#beside').ariaLabel"), "Alertmanagers")
        quiet(page, "beside")
    a.kill()


# ---- who uses it, and where


def test_keyboard(folder):
    """All of it by the keyboard alone."""
    a, b = pair(folder)
    with browser.Browser(folder) as chromium:
        page = chromium.page(url_of(a))
        page.wait("document.querySelectorAll('#states a').length")
        goes_to(page, "New silence", "Enter")
        goes_to(page, "Label")
        page.type("job")
        page.press("Tab", "Tab")
        page.type("keys")
        goes_to(page, "Creator")
        page.type("kim")
        page.press("Tab")
        page.type("by keys")
        page.press("Tab", "Enter")
        first = shown_id(page)
        check("it is made", eventually(lambda: held(b, first)), seen(page))
        goes_to(page, "Extend …", " ")
        check("by how long is asked", page.wait("document.querySelector('#asking').open"))
        compare("which comes first", focus(page), "Extend by")
        page.press("Tab", "Tab", "Enter")
        check("it is extended", eventually(lambda: is_near(lasts(held(b, first)), 14400)), held(b, first))
        check("the page says so", said(page, "Extended by 2 h"))
        goes_to(page, "Expire …", "Enter")
        check("it is asked once more", page.wait("document.querySelector('#asking').open"))
        compare("keeping it comes first", focus(page), "Keep it")
        page.press("Escape")
        check("Escape keeps it", page.wait("!document.querySelector('#asking').open"))
        compare("the focus comes back", focus(page), "Expire …")
        page.press("Enter", "Tab", "Enter")
        check("it has ended", eventually(lambda: held(b, first)["status"]["state"] == "expired"), held(b, first))
        compare("the focus is at the head", page.wait("document.activeElement.id === 'one-head'"), True)
        goes_to(page, "Recreate", "Enter")
        check("the form is there", page.wait("document.querySelector('#comment')?.value === 'by keys'"))
        goes_to(page, "Cancel", "Enter")
        check("and left", page.wait("document.querySelector('#edit').hidden"))
        page.press("shift+Tab")
        compare("back by Shift and Tab", focus(page), "Silences")
        quiet(page, "keys")
    for member in (a, b):
        member.kill()


def focus(page):
    """The name of what has the focus, as a label or its text says it."""
    return page.evaluate(
        "((it) => (it.labels?.[0]?.childNodes[0].data ?? it.innerText ?? '').trim())(document.activeElement)"
    )


def goes_to(page, name, *keys):
    """Goes on by the key Tab until a control has the focus, and presses keys there."""
    for _ in range(40):
        if focus(page) == name:
            break
        page.press("Tab")
    compare("the focus", focus(page), name)
    page.press(*keys)


def test_sight(folder):
    """Light and dark, wide and narrow, with long texts: each view is whole, has enough contrast, and names for its controls."""
    a, b = pair(folder)
    long = post(a, silence("l" * 400, MARKUP * 20, createdBy="somebody with a long name " * 20))
    post(a, silence("db", "disk swap"))
    ended = post(a, silence("old", "of old"))
    a.ask("DELETE", f"/api/v2/silence/{ended}")
    with browser.Browser(folder) as chromium:
        page = chromium.page(url_of(a))
        for width, scheme, ground in [(1600, "light", "255, 255, 255"), (375, "dark", "15, 19, 25"), (320, "light", "255, 255, 255")]:
            page.look(width, scheme=scheme)
            compare(f"{scheme} is so", page.evaluate("getComputedStyle(document.body).backgroundColor"), f"rgb({ground})")
            for place, drawn in [
                ("#/silences", "#rows li"),
                ("#/silences?state=expired", "#rows li"),
                ('#/alert?labels={"job":"db"}', "#muting li"),
                (f"#/silences/{long}", "#facts time"),
                (f"#/silences/{ended}", "#facts time"),
                (f"#/silences/edit/{long}", "#matchers input"),
                ("#/silences/new", "#matchers input"),
            ]:
                page.go(url_of(a, place))
                page.reload()
                check(f"{place} is drawn", page.wait(f"!!document.querySelector('{drawn}')"), seen(page))
                sees_well(page, f"{place} {scheme} {width}")
        quiet(page, "sight")
    for member in (a, b):
        member.kill()


def test_many(folder):
    """10,000 silences: the first rows, a filter, pages, and the states."""
    (port,) = free_ports(1)
    member = Member("m", port, [], folder, ["--time-limit", "60"])
    now = int(time.time())
    with open(member.sil, "wb") as file:
        file.write(row("sil", ", ".join(many(now))))
    check("it starts with them", member.start(), member.lines)
    with browser.Browser(folder) as chromium:
        page = chromium.page(url_of(member), begin=FIRST_ROWS)
        check("rows come", page.wait("window.firstRows"), seen(page))
        first = page.evaluate("window.firstRows")
        compare("states", states(page), ["Active: 6,000", "Pending: 1,000", "Expired: 3,000"])
        compare("rows", len(rows(page)), 100)
        compare("the page that is shown", page.text(".range"), "1 to 100 of 6,000")
        compare("what ends next", rows(page)[0][0], 'instance="host0" job="service0"')
        page.click("link", "Next page")
        check("another page", page.wait("location.hash.endsWith('page=2')"))
        compare("the next page", (page.text(".range"), rows(page)[0][0]), ("101 to 200 of 6,000", 'instance="host100" job="service0"'))
        page.click("searchbox", "Filter")
        page.evaluate(NEXT_ROWS)
        page.type('job="service7"')
        filtered = page.evaluate("window.nextRows")
        compare("what passes", states(page), ["Active: 600", "Pending: 100", "Expired: 300"])
        page.evaluate(NEXT_ROWS)
        page.click("link", "Expired: 300")
        turned = page.evaluate("window.nextRows")
        compare("what ended last comes first", rows(page)[0][0], 'instance="host7007" job="service7"')
        if os.environ.get("TIMES"):
            print(f"{MANY} silences: first rows {first:.0f} ms, a filter {filtered:.0f} ms, another state {turned:.0f} ms")
        check("soon", first < 10_000 and filtered < 10_000 and turned < 5_000, (first, filtered, turned))
        quiet(page, "many")
    member.kill()


def many(now):
    """Silences in words: 6,000 active, which end one after the other, 1,000 pending, and 3,000 that have ended."""
    for place in range(MANY):
        starts, ends = (now - 9000, now + 5000 + place) if place < 6000 else (now + 5000, now + 90_000) if place < 7000 else (now - 9000, now - 10 - place)
        times = f"{starts}..{ends} updated {now - 9000} expires {now + 900_000}"
        yield f"{place:032x} instance=host{place} job=service{place % 10} {times} by operator{place % 7} saying maintenance of host{place}"


# ---- pictures


def pictures(folder):
    """Draws those of docs/pictures: large and small, light and dark."""
    a, b = pair(folder, ["--gossip", f"am1={free_ports(1)[0]}"])
    for value, comment, who, seconds in [
        ("DiskFull", "larger disks are on their way, https://tickets.example.org/4711", "ann", 86400 * 3),
        ("Down", "kernel update of rack 4", "ben", 5400),
        ("LatencyHigh", "load test until noon", "cleo", 9000),
    ]:
        matchers = [matcher("alertname", value), matcher("instance", "db[1-4].*", True)]
        first = post(a, silence("x", comment, seconds, createdBy=who, matchers=matchers))
    post(b, silence("later", "of later", starts=3600))
    ended = post(b, silence("old", "of old"))
    b.ask("DELETE", f"/api/v2/silence/{ended}")
    eventually(lambda: a.listed() == b.listed())
    with browser.Browser(folder) as chromium:
        page = chromium.page(url_of(a), width=1200, height=420)
        page.wait("document.querySelectorAll('#rows > li').length === 3 && / heard \\d/.test(document.querySelector('#peers').innerText)")
        drawn(page, "page")
        page.look(1200, 640, "dark")
        page.go(url_of(a, f"#/silences/edit/{first}"))
        page.fill("textbox", "Comment", "load test until two")
        later_by(b, first, 7200, createdBy="cleo, changed by ben")
        eventually(lambda: is_near(lasts(held(a, first)), 16200))
        page.click("button", "Update")
        asked(page)
        drawn(page, "page_dark")
        page.press("Escape")
        page.look(390, 760, "dark")
        page.go(url_of(a, f"#/silences/{first}"))
        shown_id(page)
        drawn(page, "page_narrow_dark")
        page.look(390, 560)
        page.go(url_of(a, '#/alert?labels=alertname="Down",instance="db2:9100"'))
        page.wait("document.querySelector('#muting li')?.innerText")
        drawn(page, "page_narrow")
        page.close()
    for member in (a, b):
        member.kill()


def drawn(page, name):
    page.picture(f"{members.TOP}/docs/pictures/{name}.png")


def main():
    words = [it for it in sys.argv[1:] if it != "--pictures"]
    members.choose("page", words)
    with tempfile.TemporaryDirectory() as top:
        if "--pictures" in sys.argv:
            pictures(top)
            return
        try_each([test_bytes], top)
        if browser.PROGRAM is None:
            skip("tests of the page: chromium is not there", len(IN_BROWSER))
        else:
            try_each(IN_BROWSER, top)
    finish("page")


IN_BROWSER = [
    test_actions,
    test_lists,
    test_faults,
    test_readiness,
    test_kept,
    test_meanwhile,
    test_creator,
    test_draft,
    test_paste,
    test_rows,
    test_back,
    test_layout,
    test_steady,
    test_alert,
    test_mutes,
    test_beside,
    test_keyboard,
    test_sight,
    test_many,
]


if __name__ == "__main__":
    main()
