"""Pictures of sheets, by browsers without a window: Chromium, which is started once for all, and Firefox."""

import base64
import os
import shutil
import struct
import tempfile

import chromium
import pace

FIREFOX = ("firefox", "firefox-esr")
WIDTHS = (1440, 420)
HEIGHT = 900
# The seconds of a processor that Firefox may take for a picture.
MOST = 120
# The width and height of A4 in points, rounded down.
A4 = (594, 841)
# The most bytes that words with their fonts take on paper, and each figure of memory. What became a picture there would
# take more.
WORDS_BYTES, FIGURE_BYTES = 300_000, 100_000
FIGURES = "document.querySelectorAll('.memory').length"


def installed():
    """Each browser by its name, with the path of its program, or None where it isn't installed."""
    return {"Chromium": chromium.installed(), "Firefox": next(filter(None, map(shutil.which, FIREFOX)), None)}


def width_of(picture):
    """The width of a PNG, or None for any other file."""
    with open(picture, "rb") as file:
        front = file.read(24)
    return struct.unpack(">I", front[16:20])[0] if front[:8] == b"\x89PNG\r\n\x1a\n" and len(front) == 24 else None


def is_a4(content):
    """Whether a PDF says that its pages are A4."""
    boxes = [part.split(b"]")[0].split() for part in content.split(b"/MediaBox")[1:]]
    sides = [[float(word.strip(b"[ ")) for word in box if word.strip(b"[ ")] for box in boxes]
    return content.startswith(b"%PDF") and bool(sides) and all(
        len(side) == 4 and abs(side[2] - A4[0]) < 2 and abs(side[3] - A4[1]) < 2 for side in sides)


def seen_by_chromium(tab, target):
    """Draws a tab's page as it is on screens, prints it, and gives what went wrong."""
    for width in WIDTHS:
        picture = f"{target}-chromium-{width}.png"
        tab.resize(width, HEIGHT)
        tab.picture(picture, is_whole=False)
        if width_of(picture) != width:
            yield f"Chromium at {width}: has made no picture {width} wide"
    printed = tab.call("Page.printToPDF", preferCSSPageSize=True, printBackground=True, generateTaggedPDF=False)
    document = base64.b64decode(printed["data"])
    with open(f"{target}-a4.pdf", "wb") as file:
        file.write(document)
    if not is_a4(document):
        yield "Chromium on paper: has made no PDF of A4 pages"
    figures = tab.value(FIGURES)
    if len(document) > WORDS_BYTES + FIGURE_BYTES * figures:
        yield f"Chromium on paper: has made {len(document)} bytes of {figures} figures"
    yield from (f"Chromium: {fault}" for fault in tab.faults)


def firefox_at(program, page, target, width):
    """Draws a page by Firefox as it is on a screen, and gives what went wrong, or an empty text."""
    picture = f"{target}-firefox-{width}.png"
    with tempfile.TemporaryDirectory() as folder:
        words = [program, "--headless", "--no-remote", "--profile", folder, f"--window-size={width},{HEIGHT}",
                 "--screenshot", picture, f"file://{os.path.realpath(page)}"]
        try:
            done = pace.run(words, MOST, capture_output=True)
        except (OSError, pace.Hung) as fault:
            return f"can't be run: {fault}"
    if done.returncode:
        return f"ended with status {done.returncode}"
    is_well = os.path.exists(picture) and width_of(picture) == width
    return "" if is_well else f"has made no picture {width} wide"


class Browsers:
    """The browsers that are installed."""

    def __init__(self):
        self.found, self.chromium = installed(), None

    def __enter__(self):
        return self

    def __exit__(self, *_):
        self.close()

    def close(self):
        """Ends Chromium, if it runs."""
        if self.chromium:
            self.chromium.close()
        self.chromium = None

    def by_chromium(self, page, target):
        """Makes the pictures of a page by Chromium, and gives what went wrong. One that has ended is started anew."""
        try:
            self.chromium = self.chromium or chromium.Browser(self.found["Chromium"])
            tab = self.chromium.open(f"file://{os.path.realpath(page)}")
            told = list(seen_by_chromium(tab, target))
            tab.close()
            return told
        except (chromium.BrowserFault, OSError, pace.TooSlow) as fault:
            if self.chromium:
                self.chromium.end()
            self.chromium = None
            if isinstance(fault, pace.TooSlow):
                raise
            return [f"Chromium: {fault}"]

    def pictures(self, page, target):
        """Makes all pictures of a page, and gives what went wrong."""
        told = self.by_chromium(page, target) if self.found["Chromium"] else []
        if self.found["Firefox"]:
            faults = {width: firefox_at(self.found["Firefox"], page, target, width) for width in WIDTHS}
            told += [f"Firefox at {width}: {fault}" for width, fault in faults.items() if fault]
        return told
