"""A headless Chromium, driven by its DevTools protocol: a pair of pipes, with a zero byte behind each message."""

import base64
import contextlib
import fcntl
import itertools
import json
import os
import queue
import shutil
import subprocess
import threading

from lib.members import PATIENCE, eventually

PROGRAM = shutil.which("chromium")

OPTIONS = [
    "--headless",
    "--no-sandbox",
    "--disable-gpu",
    "--disable-dev-shm-usage",
    "--disable-background-networking",
    "--disable-component-update",
    "--disable-sync",
    "--no-first-run",
    "--hide-scrollbars",
    "--lang=en-US",
    # nothing is asked of elsewhere
    "--host-resolver-rules=MAP * ~NOTFOUND, EXCLUDE 127.0.0.1",
    "--remote-debugging-pipe",
]

# The keys that are pressed: the code of each, its number on Windows' keyboards, and the text that it makes.
KEYS = {"Tab": (9, ""), "Enter": (13, "\r"), "Escape": (27, ""), "ArrowDown": (40, ""), " ": (32, " ")}
SHIFT, CONTROL = 8, 2

# What Chromium says of an element that a page has taken away since it was found.
GONE = ("detached", "layout object", "No node", "Could not find node", "Could not compute content quads")

# Roles whose nodes take the keyboard, or stand for a place of the page, so that they want a name.
NAMED = {"button", "link", "textbox", "searchbox", "combobox", "option", "Date", "DateTime", "dialog", "navigation", "region", "group"}


class Browser:
    """A process of Chromium, with a profile of its own in a folder."""

    def __init__(self, folder):
        (its_read, write), (read, its_write) = os.pipe(), os.pipe()
        # the pipes stand at 3 and 4 in its process, so neither may stand there before
        high = [fcntl.fcntl(it, fcntl.F_DUPFD_CLOEXEC, 10) for it in (its_read, its_write)]
        os.close(its_read), os.close(its_write)
        place = lambda: [os.dup2(it, at) for it, at in zip(high, (3, 4))]
        command = [PROGRAM, f"--user-data-dir={folder}/profile", *OPTIONS]
        streams = {"stdin": subprocess.DEVNULL, "stdout": subprocess.DEVNULL, "stderr": subprocess.DEVNULL}
        how = {**streams, "close_fds": False, "preexec_fn": place, "env": {**os.environ, "HOME": folder}}
        self.process = subprocess.Popen(command, **how)
        [os.close(it) for it in high]
        self.write, self.read = os.fdopen(write, "wb"), os.fdopen(read, "rb")
        self.numbers, self.replies, self.events = itertools.count(1), {}, []
        self.reader = threading.Thread(target=self.take, daemon=True)
        self.reader.start()

    def __enter__(self):
        return self

    def __exit__(self, *_):
        try:
            self.call("Browser.close")
            self.process.wait(PATIENCE)
        finally:
            self.process.kill()
            self.process.wait(PATIENCE)

    def take(self):
        """Takes what it says: a reply to who waits for it, and else an event."""
        rest = b""
        while piece := self.read.read1(1 << 20):
            *messages, rest = (rest + piece).split(b"\0")
            for message in map(json.loads, messages):
                if "id" in message:
                    self.replies[message["id"]].put(message)
                else:
                    self.events.append(message)

    def call(self, method, session=None, **params):
        number = next(self.numbers)
        self.replies[number] = queue.Queue()
        message = {"id": number, "method": method, "params": params, **({"sessionId": session} if session else {})}
        self.write.write(json.dumps(message).encode() + b"\0")
        self.write.flush()
        reply = self.replies[number].get(timeout=PATIENCE)
        del self.replies[number]
        if "error" in reply:
            raise RuntimeError(f"{method}: {reply['error']['message']}")
        return reply["result"]

    def page(self, url, **how):
        return Page(self, url, **how)


class Page:
    """A page, of a width and a colour scheme, in a time zone that isn't that of the machine."""

    def __init__(self, browser, url, width=1000, height=900, scheme="light", begin=""):
        self.browser = browser
        self.target = browser.call("Target.createTarget", url="about:blank")["targetId"]
        self.session = browser.call("Target.attachToTarget", targetId=self.target, flatten=True)["sessionId"]
        for domain in ("Page", "Runtime", "Log", "Audits", "DOM", "Accessibility"):
            self.call(f"{domain}.enable")
        self.call("Emulation.setTimezoneOverride", timezoneId="Asia/Kolkata")
        self.call("Emulation.setFocusEmulationEnabled", enabled=True)
        self.look(width, height, scheme)
        if begin:
            self.call("Page.addScriptToEvaluateOnNewDocument", source=begin)
        self.go(url)

    def call(self, method, **params):
        return self.browser.call(method, self.session, **params)

    def look(self, width, height=900, scheme="light"):
        self.call("Emulation.setDeviceMetricsOverride", width=width, height=height, deviceScaleFactor=1, mobile=False)
        self.call("Emulation.setEmulatedMedia", features=[{"name": "prefers-color-scheme", "value": scheme}])

    def go(self, url):
        self.call("Page.navigate", url=url)
        self.wait("document.readyState === 'complete'")

    def reload(self):
        """Reloads the page, and waits until the new one stands there."""
        self.evaluate("window.isOld = true")
        self.call("Page.reload")
        eventually(self.is_new)

    def is_new(self):
        with contextlib.suppress(RuntimeError):
            return self.evaluate("!window.isOld && document.readyState === 'complete'")

    def close(self):
        self.browser.call("Target.closeTarget", targetId=self.target)

    def faults(self):
        """What its console, its policies and its scripts complained of."""
        mine = [it for it in self.browser.events if it.get("sessionId") == self.session]
        return [fault for fault in map(fault_of, mine) if fault]

    def evaluate(self, expression):
        how = {"returnByValue": True, "awaitPromise": True, "userGesture": True}
        found = self.call("Runtime.evaluate", expression=expression, **how)
        if "exceptionDetails" in found:
            raise RuntimeError(found["exceptionDetails"].get("exception", {}).get("description", "no value"))
        return found["result"].get("value")

    def wait(self, expression):
        """What an expression is as soon as that counts as true, or at last."""
        return eventually(lambda: self.evaluate(expression))

    def text(self, selector):
        """The text that is shown of an element."""
        return self.evaluate(f"document.querySelector({json.dumps(selector)}).innerText")

    def nodes(self):
        """The nodes that a screen reader is told of, as roles, names and whether they take the keyboard."""
        tree = self.call("Accessibility.getFullAXTree")["nodes"]
        takes = lambda node: any(it["name"] == "focusable" and it["value"]["value"] for it in node.get("properties", []))
        value = lambda node, key: node.get(key, {}).get("value", "")
        return [(value(it, "role"), value(it, "name"), takes(it)) for it in tree if not it["ignored"]]

    def nameless(self):
        """The roles of those that want a name, and have none."""
        wants = lambda role, takes: role in NAMED or takes and role != "alert"
        return [role for role, name, takes in self.nodes() if wants(role, takes) and not name.strip()]

    def find(self, role, name):
        """The element that a screen reader calls so, once it is there."""
        found = eventually(lambda: self.found(role, name))
        if not found:
            raise RuntimeError(f"there is no {role} {name!r}")
        return found

    def found(self, role, name):
        root = self.call("DOM.getDocument", depth=0)["root"]["nodeId"]
        found = self.call("Accessibility.queryAXTree", nodeId=root, role=role, accessibleName=name)["nodes"]
        return next((it["backendDOMNodeId"] for it in found if not it["ignored"]), None)

    def corners(self, element):
        """The corners of an element that is shown, once it is scrolled into view; None if a page that draws anew has taken it away."""
        try:
            self.call("DOM.scrollIntoViewIfNeeded", backendNodeId=element)
            return next(iter(self.call("DOM.getContentQuads", backendNodeId=element)["quads"]), None)
        except RuntimeError as error:
            if any(it in str(error) for it in GONE):
                return None
            raise

    def click(self, role, name):
        """Clicks what a screen reader calls so, with the mouse. (A list that is drawn anew between two calls has new elements.)"""
        corners = eventually(lambda: self.corners(self.find(role, name)))
        if not corners:
            raise RuntimeError(f"{role} {name!r} isn't shown")
        where = {"x": sum(corners[0::2]) / 4, "y": sum(corners[1::2]) / 4, "button": "left", "clickCount": 1}
        for kind in ("mousePressed", "mouseReleased"):
            self.call("Input.dispatchMouseEvent", type=kind, **where)

    def fill(self, role, name, text):
        """Clicks a field, and types a text in place of what stands there."""
        self.click(role, name)
        self.evaluate("document.activeElement.select()")
        self.type(text)

    def type(self, text):
        self.call("Input.insertText", text=text)

    def paste(self, text):
        """Pastes a text where the focus is, as by a key."""
        self.browser.call("Browser.grantPermissions", permissions=["clipboardReadWrite", "clipboardSanitizedWrite"])
        self.evaluate(f"navigator.clipboard.writeText({json.dumps(text)})")
        how = {"key": "v", "code": "KeyV", "windowsVirtualKeyCode": 86, "modifiers": CONTROL}
        self.call("Input.dispatchKeyEvent", type="keyDown", commands=["paste"], **how)
        self.call("Input.dispatchKeyEvent", type="keyUp", **how)

    def point(self, selector):
        """Moves the mouse to the middle of an element."""
        place = f"(({{ x, y, width, height }}) => [x + width / 2, y + height / 2])(document.querySelector({json.dumps(selector)}).getBoundingClientRect())"
        x, y = self.evaluate(place)
        self.call("Input.dispatchMouseEvent", type="mouseMoved", x=x, y=y)

    def choose(self, name, value):
        """Gives a field a value, as where a person chooses it."""
        node = self.call("DOM.resolveNode", backendNodeId=self.find(*name))["object"]["objectId"]
        put = "function (value) { this.value = value; this.dispatchEvent(new Event('input', { bubbles: true })) }"
        self.call("Runtime.callFunctionOn", objectId=node, functionDeclaration=put, arguments=[{"value": value}])

    def press(self, *keys):
        for key in keys:
            shifted, _, name = key.rpartition("+")
            number, text = KEYS[name]
            how = {"key": name, "code": "Space" if name == " " else name, "windowsVirtualKeyCode": number}
            how["modifiers"] = SHIFT if shifted else 0
            self.call("Input.dispatchKeyEvent", type="keyDown", **how, **({"text": text} if text else {}))
            self.call("Input.dispatchKeyEvent", type="keyUp", **how)

    def picture(self, path):
        with open(path, "wb") as file:
            file.write(base64.b64decode(self.call("Page.captureScreenshot", format="png")["data"]))


def fault_of(event):
    """What an event complains of, in words, or None."""
    kind, told = event["method"], event["params"]
    if kind == "Runtime.exceptionThrown":
        return told["exceptionDetails"].get("exception", {}).get("description", "an exception")
    if kind == "Runtime.consoleAPICalled" and told["type"] in ("error", "warning", "assert"):
        return f"{told['type']}: {told['args']}"
    if kind == "Log.entryAdded" and told["entry"]["level"] in ("error", "warning"):
        return f"{told['entry']['source']}: {told['entry']['text']}"
    if kind == "Audits.issueAdded":
        return f"{told['issue']['code']}: {told['issue']['details']}"
    return None
