"""What the tests of the page stand on: a browser, a page that a server gives, and what is told of a test."""

import contextlib
import pathlib
import sys

WEB = pathlib.Path(__file__).resolve().parents[1]
TOP = WEB.parent
sys.path.insert(0, str(WEB))

import chromium  # noqa: E402
import desk_page  # noqa: E402
import make  # noqa: E402
import native  # noqa: E402

STAND_IN = {"instance.js": WEB / "tests/stand_in.js"}


class Wrong(Exception):
    """What a test found."""


def same(found, wanted, what):
    """Tells where something isn't what it should be."""
    if found != wanted:
        raise Wrong(f"{what} is {shown(found)}, not {shown(wanted)}")


def holds(test, what):
    """Tells what doesn't hold."""
    if not test:
        raise Wrong(what)


def shown(value):
    text = repr(value)
    return text if len(text) <= 400 else f"{text[:400]}.."


class Bench:
    """A browser and a server, and the page with a module; where a whole page is tested, its text as it was made."""

    def __init__(self, content, made, pictures, replays):
        self.content, self.made, self.pictures, self.replays = content, made, pictures, replays
        self.text = make.page_of(self.content, STAND_IN, "'self'")
        self.server = native.Server()
        self.address = self.server.address("/page.html", self.text.encode())
        self.browser = chromium.Browser(chromium.installed())
        self.kept = None

    def close(self):
        self.browser.close()
        self.server.close()

    @contextlib.contextmanager
    def page(self, hash_text="", before="", address=None):
        """The page in a tab of its own. What the browser tells of faults is wrong."""
        page = desk_page.DeskPage(self.browser, (address or self.address) + hash_text, before)
        try:
            yield page
            same(page.tab.faults, [], "what the browser tells of the page")
        finally:
            page.close()

    @contextlib.contextmanager
    def kept_page(self):
        """The page in a tab that tests have one after the other; a test that goes wrong leaves it to none."""
        page = self.kept or desk_page.DeskPage(self.browser, self.address)
        self.kept = None
        try:
            page.begin_again()
            yield page
            same(page.tab.faults, [], "what the browser tells of the page")
            self.kept, page = page, None
        finally:
            if page:
                page.close()

    def picture(self, page, name):
        """Takes a picture of a page, where a folder for these is given."""
        if self.pictures:
            page.tab.picture(self.pictures / f"{name}.png")


def run_text(content, pages=64, files=None):
    """What the native program prints for a script."""
    return native.done("run", native.Job(content, pages=pages, files=files or {}))[1].decode()
