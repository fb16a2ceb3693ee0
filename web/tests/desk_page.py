"""The desk's page in a browser, by what a user does with it."""

import base64
import json
import pathlib

TESTS = pathlib.Path(__file__).resolve().parent

# What a page shows of its lines: each line's text, its reply, and its classes.
ROWS = """[...document.querySelectorAll('#lines > li')].map((row) => ({
  line: row.querySelector('textarea').value, reply: row.querySelector('.reply').textContent, kind: row.className}))"""

# Puts all back that a user may have changed.
AT_FIRST = """(() => {
  document.querySelector('#fresh').click();
  document.querySelector('[value=picture]').click();
  document.querySelector('[value=memory]').click();
  if (document.querySelector('#predict').checked) document.querySelector('#predict').click();
  for (const name of ['file', 'help']) {
    if (!document.querySelector(`#${name}`).hidden) document.querySelector(`#${name}-button`).click();
  }
  for (const name of ['find', 'command']) {
    const field = document.querySelector(`#${name}`);
    field.value = '';
    field.dispatchEvent(new Event('input'));
  }
  document.querySelector('#command').focus();
})()"""


# Most tests look at the picture to scale.
TO_SCALE = "document.querySelector('[value=picture]').click()"


def call_of(name, *values):
    """A call of the function in a file beside this one, for values."""
    text = (TESTS / name).read_text().strip()
    return f"({text[text.index('('):]})({', '.join(json.dumps(it) for it in values)})"


class DeskPage:
    """A tab with the page."""

    def __init__(self, browser, address, before=""):
        self.tab = browser.open(address, before)
        self.value = self.tab.value
        self.ready()

    def ready(self):
        """Waits until the page has begun, and shows memory to scale."""
        self.tab.wait(lambda: self.value("!document.querySelector('#desk').hidden"), "the page doesn't begin")
        self.value(TO_SCALE)

    def count_work(self):
        """Counts from now on the seconds of a processor that the page's thread works, whatever else the machine does."""
        self.tab.call("Performance.enable", timeDomain="threadTicks")

    def worked(self):
        """The seconds that were counted so far."""
        metrics = self.tab.call("Performance.getMetrics")["metrics"]
        return next(it["value"] for it in metrics if it["name"] == "TaskDuration")

    def work_of(self, act):
        """The seconds that are counted while something is done."""
        start = self.worked()
        act()
        return self.worked() - start

    def close(self):
        self.tab.close()

    def begin_again(self):
        """Is as at first, besides what Undo and the arrow keys bring back."""
        self.tab.come_forward()
        self.value(AT_FIRST)

    def rows(self):
        return self.value(ROWS)

    def replies(self, rows=None):
        """The text of the replies that are shown, or of those of rows."""
        return "".join(f"{row['reply']}\n" for row in rows or self.rows() if row["reply"])

    def text(self, name):
        """The text of an element by its id."""
        return self.value(f"document.getElementById('{name}').textContent.trim()")

    def click(self, name):
        self.value(f"document.getElementById('{name}').click()")

    def seen(self, *names):
        """Which of some elements are seen, by their ids."""
        return [name for name in names if self.value(f"document.getElementById('{name}')?.checkVisibility() ?? false")]

    def disabled(self):
        """The buttons that do nothing now, by their ids."""
        return self.value("[...document.querySelectorAll('[aria-disabled=true]')].map((it) => it.id)")

    def focused(self):
        """The id or the name of what has the focus."""
        return self.value("document.activeElement.id || document.activeElement.ariaLabel")

    def field(self, name):
        """What stands in a field, by its id."""
        return self.value(f"document.getElementById('{name}').value")

    def focus(self, selector):
        self.value(f"document.querySelector({json.dumps(selector)}).focus()")

    def enter(self, line):
        """Types a line at the prompt, and enters it."""
        self.focus("#command")
        self.tab.type(line)
        self.tab.key("Enter")

    def edit(self, number, line):
        """Types another text into a line."""
        self.focus(f"#lines > li:nth-child({number}) textarea")
        self.value("document.activeElement.select()")
        self.tab.type(line)
        self.tab.key("Enter")

    def script(self, name, *values):
        """What a function of a file beside this one gives for values."""
        return self.value(call_of(name, *values))

    def drop_bytes(self, name, content, test=None):
        """Drops a file, and waits until a test holds, or until it is taken or refused."""
        text = (TESTS / "drop.js").read_text()
        words = f"{json.dumps(name)}, {json.dumps(base64.b64encode(content).decode())}"
        words += f", () => {test}" if test else ""
        self.value(f"{text[text.index('(async'):].strip()}({words})")

    def set_value(self, selector, value):
        """Gives a field a value, and tells the page."""
        self.value(f"""(() => {{ const field = document.querySelector({json.dumps(selector)});
          field.value = {json.dumps(value)}; field.dispatchEvent(new Event('change')); }})()""")

    def set_pages(self, pages):
        self.set_value("#pages", str(pages))

    def saved(self, name):
        """The bytes of the script, as it is saved."""
        self.click("save")
        return self.tab.downloaded(name)

    def look(self, view):
        """Chooses how memory is shown: through a lens, to scale, or as a map."""
        self.value(f"document.querySelector('[value={view}]').click()")

    def show_pane(self, name):
        """Chooses what is seen where there is room for one pane."""
        self.value(f"document.querySelector('#panes [value={name}]').click()")

    def load(self, name):
        """Chooses an example."""
        self.set_value("#examples", name)

    def pictured(self, selector):
        """How many elements of the picture a selector finds."""
        return self.value("document.querySelector('#picture').shadowRoot.querySelectorAll"
                          f"({json.dumps(selector)}).length")
