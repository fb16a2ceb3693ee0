"""Drives Chromium without a window, by messages over two pipes."""

import base64
import fcntl
import json
import os
import pathlib
import select
import shutil
import subprocess
import tempfile
import time

import pace

PROGRAMS = ("chromium", "chromium-browser", "google-chrome", "google-chrome-stable")
# The numbers of the pipes by which Chromium reads and writes messages.
READS, WRITES = 3, 4
# Numbers of files above those.
FREE_NUMBER = 10
# The seconds of a processor that a browser may take for an answer, as the print of a long page, and a page until
# something holds: with all that this process began, from five seconds on.
MOST, MOST_WAITED = 240, 60
# The seconds of the clock between two tries whether something holds: at first, and where it hasn't held for long.
SOON, LATER = 0.01, 0.5
MODIFIERS = {"Alt": 1, "Control": 2, "Meta": 4, "Shift": 8}
# Waits until a page is so large and has heard of that, as it has before each frame that it draws.
IS_SO_LARGE = """new Promise((done) => {
  const look = () => requestAnimationFrame(innerWidth === %d && innerHeight === %d ? done : look);
  look();
}).then(() => 0)"""
KEY_CODES = {"Enter": 13, "Escape": 27, "Tab": 9, "Backspace": 8, "ArrowUp": 38, "ArrowDown": 40, "ArrowLeft": 37,
             "ArrowRight": 39, "F1": 112, "F8": 119, "F9": 120, "Delete": 46, "End": 35, "Home": 36, " ": 32, "z": 90,
             "Z": 90, "y": 89}


def installed():
    """The path of Chromium, or None where it isn't installed."""
    return next(filter(None, map(shutil.which, PROGRAMS)), None)


class BrowserFault(Exception):
    """What Chromium didn't do."""


class Browser:
    """A running Chromium, with a folder of its own that goes with it."""

    def __init__(self, program):
        self.folder = tempfile.TemporaryDirectory(ignore_cleanup_errors=True)
        ours, theirs = self._pipes()
        self.process = subprocess.Popen(
            [program, "--headless=new", "--no-sandbox", "--no-first-run", "--disable-gpu", "--hide-scrollbars",
             "--remote-debugging-pipe", f"--user-data-dir={self.folder.name}/profile", "about:blank"],
            stderr=subprocess.DEVNULL, pass_fds=(READS, WRITES),
            preexec_fn=lambda: (os.dup2(theirs[0], READS), os.dup2(theirs[1], WRITES)))
        for number in theirs:
            os.close(number)
        self.reader, self.writer = os.fdopen(ours[0], "rb", buffering=0), os.fdopen(ours[1], "wb", buffering=0)
        self.count, self.parts, self.answers, self.tabs = 0, [], {}, {}

    @staticmethod
    def _pipes():
        """The ends of two pipes: ours to read and write, and theirs."""
        low = (*os.pipe(), *os.pipe())
        numbers = [fcntl.fcntl(it, fcntl.F_DUPFD, FREE_NUMBER) for it in low]
        for number in low:
            os.close(number)
        return (numbers[2], numbers[1]), (numbers[0], numbers[3])

    def call(self, method, session=None, **words):
        """What Chromium answers to a call."""
        self.count += 1
        message = {"id": self.count, "method": method, "params": words} | ({"sessionId": session} if session else {})
        try:
            self.writer.write(json.dumps(message).encode() + b"\0")
        except BrokenPipeError as fault:
            raise BrowserFault("Chromium has ended") from fault
        mine, watch = self.count, pace.Watch(MOST, os.getpid(), is_new=False)
        while mine not in self.answers:
            self._take(method, watch)
        answer = self.answers.pop(mine)
        if "error" in answer:
            raise BrowserFault(f"{method}: {answer['error']['message']}")
        return answer["result"]

    def _take(self, method, watch):
        """Takes what Chromium writes, or looks whether it is at work."""
        has_written = select.select([self.reader], [], [], watch.left())[0]
        try:
            watch.look()
        except pace.Hung as why:
            raise BrowserFault(f"{method}: no answer, {why}") from why
        except pace.TooSlow as why:
            raise pace.TooSlow(f"{method}: {why}") from why
        if not has_written:
            return
        part = self.reader.read(1 << 16)
        if not part:
            raise BrowserFault("Chromium has ended")
        for message in map(json.loads, self._ended(part)):
            if "id" in message:
                self.answers[message["id"]] = message
            elif message.get("sessionId") in self.tabs:
                self.tabs[message["sessionId"]].hears(message["method"], message["params"])

    def _ended(self, part):
        """The messages that end in a part of what is read. One may have many megabytes, in small parts."""
        first, *others = part.split(b"\0")
        self.parts.append(first)
        for other in others:
            yield b"".join(self.parts)
            self.parts = [other]

    def open(self, address, before=""):
        """A new tab with a page, and a script that runs before the page's own."""
        target = self.call("Target.createTarget", url="about:blank")["targetId"]
        session = self.call("Target.attachToTarget", targetId=target, flatten=True)["sessionId"]
        return Tab(self, target, session, address, before)

    def end(self):
        """Ends it where it doesn't answer any more, with all that it began."""
        pace.end(self.process.pid)
        self.process.wait()
        self.folder.cleanup()

    def close(self):
        self.call("Browser.close")
        pace.wait(self.process, MOST)
        self.reader.close()
        self.writer.close()
        self.folder.cleanup()


class Tab:
    """A page in a browser."""

    def __init__(self, browser, target, session, address, before):
        self.browser, self.target, self.session = browser, target, session
        self.faults, self.is_loaded, self.count = [], False, 0
        self.downloads = pathlib.Path(tempfile.mkdtemp(dir=browser.folder.name))
        browser.tabs[session] = self
        for domain in ("Runtime", "Page", "Log", "DOM"):
            self.call(f"{domain}.enable")
        browser.call("Browser.grantPermissions", permissions=["clipboardReadWrite", "clipboardSanitizedWrite"])
        self.come_forward()
        self.call("Page.addScriptToEvaluateOnNewDocument", source=before)
        self.go(address)

    def call(self, method, **words):
        return self.browser.call(method, self.session, **words)

    def hears(self, event, words):
        """Notes what is wrong with the page, and that it is loaded."""
        if event == "Runtime.exceptionThrown":
            details = words["exceptionDetails"]
            self.faults.append(details.get("exception", {}).get("description") or details["text"])
        if event == "Log.entryAdded" and words["entry"]["level"] == "error":
            self.faults.append(words["entry"]["text"])
        if event == "Page.frameNavigated" and "parentId" not in words["frame"]:
            self.count, self.is_loaded = self.count + 1, False
        self.is_loaded |= event == "Page.loadEventFired"

    def come_forward(self):
        """Is the tab that is seen, in a window of the usual size, and the one whose files are saved."""
        self.browser.call("Browser.setDownloadBehavior", behavior="allow", downloadPath=str(self.downloads))
        self.call("Page.bringToFront")
        self.resize(1440, 900)

    def go(self, address):
        """Opens an address, and waits until it is loaded."""
        self.is_loaded = False
        self.call("Page.navigate", url=address)
        self.wait(lambda: self.is_loaded or self.value("document.readyState") == "complete", f"{address} isn't loaded")

    def load_again(self):
        """Loads the page again, and waits for the one that comes. Nothing is asked of the one that goes: it may have no
        answer."""
        count = self.count
        self.call("Page.reload")
        self.wait(lambda: self.browser.call("Browser.getVersion") and self.count > count and self.is_loaded,
                  "the page isn't loaded again")

    def wait(self, test, fault):
        """Waits until a test holds, for as long as anything is at work."""
        watch = pace.Watch(MOST_WAITED, os.getpid(), is_new=False)
        while not test():
            try:
                watch.look()
            except pace.Ended as why:
                raise BrowserFault(f"{fault}: {why}") from why
            time.sleep(SOON if watch.before is None else LATER)

    def value(self, expression):
        """The value of an expression in the page."""
        answer = self.call("Runtime.evaluate", expression=expression, awaitPromise=True, returnByValue=True,
                           userGesture=True)
        if "exceptionDetails" in answer:
            raise BrowserFault(answer["exceptionDetails"]["exception"].get("description", expression))
        return answer["result"].get("value")

    def resize(self, width, height, is_dark=False, scale=1):
        """Makes the window so large, and light or dark; at a greater scale a page sees fewer units."""
        sides = int(width / scale), int(height / scale)
        self.call("Emulation.setDeviceMetricsOverride", width=sides[0], height=sides[1], deviceScaleFactor=scale,
                  mobile=False)
        self.value(IS_SO_LARGE % sides)
        self.call("Emulation.setEmulatedMedia",
                  features=[{"name": "prefers-color-scheme", "value": "dark" if is_dark else "light"}])

    def key(self, name, *modifiers):
        """Presses a key and lets it go."""
        text = "\r" if name == "Enter" else ""
        words = {"key": name, "code": name, "windowsVirtualKeyCode": KEY_CODES[name],
                 "modifiers": sum(MODIFIERS[it] for it in modifiers)}
        self.call("Input.dispatchKeyEvent", type="keyDown", text=text, **words)
        self.call("Input.dispatchKeyEvent", type="keyUp", **words)

    def type(self, text):
        """Types a text where the focus is."""
        self.call("Input.insertText", text=text)

    def choose_files(self, selector, paths):
        """Chooses files in a field of files."""
        root = self.call("DOM.getDocument")["root"]["nodeId"]
        node = self.call("DOM.querySelector", nodeId=root, selector=selector)["nodeId"]
        self.call("DOM.setFileInputFiles", nodeId=node, files=[str(it) for it in paths])

    def drop(self, paths):
        """Drags files into the page, and drops them."""
        data = {"items": [], "files": [str(it) for it in paths], "dragOperationsMask": 1}
        for event in ("dragEnter", "dragOver", "drop"):
            self.call("Input.dispatchDragEvent", type=event, x=400, y=300, data=data)

    def picture(self, path, is_whole=True):
        """Takes a picture of the page."""
        taken = self.call("Page.captureScreenshot", captureBeyondViewport=is_whole)
        pathlib.Path(path).write_bytes(base64.b64decode(taken["data"]))

    def downloaded(self, name):
        """The bytes of a file that the page gave to the user."""
        path = self.downloads / name
        self.wait(lambda: path.exists() and path.stat().st_size, f"no file {name} was saved")
        content = path.read_bytes()
        path.unlink()
        return content

    def close(self):
        del self.browser.tabs[self.session]
        self.browser.call("Target.closeTarget", targetId=self.target)
