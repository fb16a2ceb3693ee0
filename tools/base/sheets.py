"""What is wrong with a sheet, the page of HTML that `draw` writes, as far as that can be told without a browser.

A sheet is well-formed XML too, and is read as that.
"""

import re
import xml.parsers.expat

# Elements that load something or run it.
LOADING = {"script", "link", "img", "image", "iframe", "object", "embed", "audio", "video", "source", "base", "form"}
LOADING_NAMES = {"src", "srcset", "poster", "data", "action", "formaction", "background", "style"}
URL = re.compile(r"url\(\s*['\"]?([^)'\"]*)")
# Elements that have a place in a figure, and what they are called.
SHAPES = {"rect": "rectangle", "path": "way", "text": "text"}
# A step of a way: to points, to one side, or so far to one side; and the end.
STEP = re.compile(r"([A-Za-z])([^A-Za-z]*)")
# The numbers that a step of each kind has.
NUMBERS = {"M": (2,), "L": (2,), "C": (6,), "H": (1,), "V": (1,), "h": (1,), "v": (1,), "z": (0,)}


class Figure:
    """A figure, or a group that figures use: its width and height, where it has these, and what is drawn in it."""

    def __init__(self, line, size=None):
        self.line, self.size = line, size
        self.shapes = []
        self.used = []

    def faults(self, groups):
        """Each shape that isn't inside, of the figure's own and of the groups that it uses."""
        named = [(name, groups.get(name)) for name in self.used]
        shapes = self.shapes + [shape for _, group in named if group for shape in group.shapes]
        return [f"line {shape.line}: a {shape.name} lies outside the figure of line {self.line}"
                for shape in shapes if self.size and not shape.is_inside(*self.size)]


class Shape:
    """A rectangle, a way or the place of a text, by its corners; one whose places are no numbers has none."""

    def __init__(self, line, name, corners):
        self.line, self.name, self.corners = line, name, corners

    def is_inside(self, width, height):
        """Whether it lies between the edges; one without corners lies nowhere."""
        return bool(self.corners) and all(0 <= x <= width and 0 <= y <= height for x, y in self.corners)


def corners_of(tag, attributes):
    """The corners of what an element draws: of a way the points through which it goes and to which it bends."""
    if tag == "path":
        return way_of(attributes.get("d", ""))
    x, y, wide, high = (number(attributes.get(it, "0")) for it in ("x", "y", "width", "height"))
    if None in (x, y, wide, high) or min(wide, high) < 0:
        return []
    return [(x, y), (x + wide, y + high)]


def way_of(text):
    """The corners of a way of straight lines and of bows between points."""
    x, y, corners = 0, 0, []
    for letter, rest in STEP.findall(text):
        numbers = [number(it) for it in rest.split()]
        if None in numbers or len(numbers) not in NUMBERS.get(letter, ()):
            return []
        if letter in "Hh":
            numbers = [numbers[0] + (x if letter == "h" else 0), y]
        elif letter in "Vv":
            numbers = [x, numbers[0] + (y if letter == "v" else 0)]
        corners += zip(numbers[::2], numbers[1::2])
        x, y = corners[-1] if corners else (x, y)
    return corners


def number(text):
    """The number that a text spells, or None."""
    try:
        return float(text)
    except ValueError:
        return None


def size_of(attributes):
    """The width and height that a figure's viewBox gives it, or None."""
    sides = [number(word) for word in attributes.get("viewBox", "").split()]
    return tuple(sides[2:]) if len(sides) == 4 and None not in sides and sides[:2] == [0, 0] else None


class Reading:
    """A sheet as it is read: what stands in it, and the faults that show on the way."""

    def __init__(self):
        self.faults = []
        self.open = []
        self.ids = {}
        self.links = []
        self.figures = []
        self.groups = {}
        self.parser = xml.parsers.expat.ParserCreate("utf-8")
        self.parser.buffer_text = True
        self.parser.StartElementHandler = self.begins
        self.parser.EndElementHandler = self.ends
        self.parser.CharacterDataHandler = self.says

    @property
    def line(self):
        return self.parser.CurrentLineNumber

    def fault(self, text):
        self.faults.append(f"line {self.line}: {text}")

    def read(self, text):
        """All faults of a text. What isn't XML is read up to where it isn't."""
        try:
            self.parser.Parse(text.encode(), True)
        except xml.parsers.expat.ExpatError as fault:
            why = xml.parsers.expat.errors.messages[fault.code]
            where = "".join(f", within <{tag}> of line {line}" for tag, line, _ in self.open[-1:])
            return [*self.faults, f"line {fault.lineno}: no well-formed XML, {why}{where}"]
        return self.faults + list(self.at_end())

    # ---- elements

    def begins(self, tag, attributes):
        """Notes what an element says, and its faults."""
        self.loads(tag, attributes)
        if "id" in attributes:
            self.name(attributes["id"])
        self.draws(tag, attributes)
        self.open.append((tag, self.line, self.part(tag, attributes)))

    def ends(self, _):
        self.open.pop()

    def says(self, text):
        if self.open[-1][0] == "style":
            self.style(text)

    def part(self, tag, attributes):
        """The figure or group that begins here, or else the one that goes on."""
        around = self.open[-1][2] if self.open else None
        if tag == "svg":
            self.figures.append(Figure(self.line, size_of(attributes)))
            return self.figures[-1]
        if tag == "g" and attributes.get("id"):
            self.groups[attributes["id"]] = Figure(self.line)
            return self.groups[attributes["id"]]
        return around

    def name(self, name):
        if name in self.ids:
            self.fault(f"the id {name} stands on line {self.ids[name]} too")
        self.ids.setdefault(name, self.line)

    def draws(self, tag, attributes):
        """Notes a rectangle, a way or a text, or the use of a group."""
        around = self.open[-1][2] if self.open else None
        if tag in SHAPES and around:
            around.shapes.append(Shape(self.line, SHAPES[tag], corners_of(tag, attributes)))
        if tag == "use" and around:
            around.used.append(attributes.get("href", "").lstrip("#"))

    # ---- what is loaded, and where links lead

    def loads(self, tag, attributes):
        """Tells what comes from outside or runs, and notes the links within the sheet."""
        if tag in LOADING:
            self.fault(f"<{tag}> loads something")
        for name, value in attributes.items():
            if name in LOADING_NAMES or name.startswith("on"):
                self.fault(f"<{tag}> has {name}")
            if name in ("href", "xlink:href"):
                self.link(value)
            self.paints(value)

    def link(self, target):
        if target.startswith("#"):
            self.links.append((self.line, target[1:]))
        else:
            self.fault(f"a link leads outside, to {target or 'nothing'}")

    def paints(self, text):
        for target in URL.findall(text):
            self.link(target)

    def style(self, text):
        if "@import" in text:
            self.fault("the style imports another")
        self.paints(text)

    # ---- at the end

    def at_end(self):
        """Each fault that shows at the end alone."""
        for line, name in self.links:
            if name not in self.ids:
                yield f"line {line}: a link leads to {name}, which isn't there"
        for figure in self.figures:
            yield from figure.faults(self.groups)


def faults_of(content):
    """What is wrong with a sheet of these bytes. Bytes of remarks that aren't UTF-8 are no fault."""
    return Reading().read(content.decode(errors="replace"))
