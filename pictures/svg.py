"""svg.py: the parts of an SVG picture as text.

Coordinates are rounded to hundredths once, as whole numbers, so that the same picture is the same bytes everywhere; a
step of a path is taken from the rounded place before it. The y axis of a picture points down. Python's standard library
alone.
"""
from dataclasses import dataclass
from html import escape
from math import sqrt

from arithmetic import length, unit

# Six colours that are apart for normal sight and for three kinds of colour blindness, by at least 21 in CIE Lab, and
# that have a contrast of 3 or more with white and with black. In grey the odd ones are darker than the even ones. From
# the seventh element on they come again with dashes.
COLOURS = ("#0072B2", "#00AA44", "#CC4400", "#AA66FF", "#885555", "#DD6699")
DASHES = ((), (5, 1.5), (5, 1.5, 1, 1.5), (1.5, 1.5))
GREY, LIGHT, AMBER = "#7D7D7D", "#8F8F8F", "#E69F00"
MINUS = "\u2212"
WIDE = {"m": 1.05, "w": 0.93, "M": 1.0, "W": 1.11, "_": 0.55, ",": 0.42, " ": 0.4, "i": 0.4, "j": 0.4, "l": 0.4,
        "I": 0.45, "t": 0.52, "f": 0.48, "r": 0.53, MINUS: 0.85}


def colour(element):
    return COLOURS[(element - 1) % len(COLOURS)]


def width_of(words, size):
    """About how wide a bold text is, rather too much than too little."""
    result = 0.0
    for letter in words:
        result += WIDE.get(letter, 0.72)
    return size * result


def number(hundredths):
    """A whole number of hundredths as a decimal number, without what it can do without."""
    whole, part = divmod(abs(hundredths), 100)
    text = ("%d" % whole if whole else "") + (".%02d" % part).rstrip("0").rstrip(".")
    return ("-" if hundredths < 0 else "") + text if text else "0"


def num(x):
    return number(round(100 * x))


def pair(point):
    return "%s %s" % (num(point[0]), num(point[1]))


@dataclass
class Curve:
    """A segment of two points, or a cubic of four."""
    points: tuple

    def turned(self):
        return Curve(self.points[::-1])

    def command(self):
        """The letter of a path, what stands before its points, and the points behind the first."""
        return "c" if len(self.points) == 4 else "l", "", self.points[1:]

    def heading(self):
        """The direction at the end."""
        before, end = self.points[-2:]
        return unit((end[0] - before[0], end[1] - before[1]))


@dataclass
class Arc:
    """The shorter part of a circle between two points; `sweep` is 1 where it turns clockwise on the page."""
    points: tuple
    radius: float
    sweep: int

    def turned(self):
        return Arc(self.points[::-1], self.radius, 1 - self.sweep)

    def command(self):
        size = num(self.radius)
        return "a", "%s %s 0 0 %d " % (size, size, self.sweep), self.points[1:]

    def heading(self):
        """The direction at the end: that of the chord, turned on by half the angle of the arc."""
        start, end = self.points
        x, y = end[0] - start[0], end[1] - start[1]
        chord = length((x, y))
        sine = min(1.0, chord / 2 / self.radius)
        cosine = sqrt(1 - sine * sine)
        side = sine if self.sweep else -sine
        return (x * cosine - y * side) / chord, (x * side + y * cosine) / chord


def hundredths_of(point):
    return round(100 * point[0]), round(100 * point[1])


def joined(numbers):
    """Numbers in hundredths, with no blank where a sign parts them."""
    words = [number(x) for x in numbers]
    return words[0] + "".join(word if word[0] == "-" else " " + word for word in words[1:])


def path(curves, close=False):
    """The path of curves of which each begins where the one before ends. The steps to points that aren't ends are
    rounded to tenths, which nobody sees."""
    here = hundredths_of(curves[0].points[0])
    text, last = "M" + joined(here), "M"
    for curve in curves:
        letter, front, points = curve.command()
        steps = [x - y for point in points for x, y in zip(hundredths_of(point), here)]
        steps[:-2] = [(x + 5) // 10 * 10 for x in steps[:-2]]
        if letter == "l" and steps[1] == 0:
            letter, steps = "h", steps[:1]
        words = front + joined(steps)
        text += letter + words if letter != last or front else words if words[0] == "-" else " " + words
        here, last = hundredths_of(points[-1]), letter
    return text + ("z" if close else "")


def line(curves, element, stroke):
    """The line of an element."""
    dash = DASHES[(element - 1) // len(COLOURS) % len(DASHES)]
    parts = " ".join(num(stroke * part) for part in dash)
    more = ' stroke-dasharray="%s" stroke-linecap="butt"' % parts if dash else ""
    return '<path class="w e%d" d="%s" stroke="%s"%s/>' % (element, path(curves), colour(element), more)


def filled(curves):
    """A cell that is filled."""
    return '<path class="f" d="%s" fill="%s" fill-opacity=".35"/>' % (path(curves, True), AMBER)


def dot(point, radius, fill=GREY, more=""):
    return '<circle%s cx="%s" cy="%s" r="%s" fill="%s"/>' % (more, num(point[0]), num(point[1]), num(radius), fill)


def text(point, words, size, fill=GREY, anchor="middle", more=""):
    """A text whose middle, or end or start, is at a point; letters are about .7 of the size high."""
    place = "" if anchor == "middle" else ' text-anchor="%s"' % anchor
    return '<text x="%s" y="%s" fill="%s"%s%s>%s</text>' % (
        num(point[0]), num(point[1] + 0.35 * size), fill, place, more, escape(words))


def group(body, size, stroke, more=""):
    """Parts with a size of letters and a width of lines."""
    return ['<g font-size="%s" stroke-width="%s"%s>' % (num(size), num(stroke), more), *body, "</g>"]


@dataclass
class Box:
    """A rectangle of the page."""
    left: float
    top: float
    right: float
    bottom: float

    def with_box(self, other):
        return Box(min(self.left, other.left), min(self.top, other.top), max(self.right, other.right),
                   max(self.bottom, other.bottom))

    def wider(self, margin):
        return Box(self.left - margin, self.top - margin, self.right + margin, self.bottom + margin)

    def overlaps(self, other):
        return (self.left < other.right and other.left < self.right and self.top < other.bottom
                and other.top < self.bottom)

    def is_crossed(self, p, q):
        """Whether the segment from p to q comes into the rectangle."""
        first, last = 0.0, 1.0
        for here, there, low, high in (p[0], q[0], self.left, self.right), (p[1], q[1], self.top, self.bottom):
            if here == there:
                if not low < here < high:
                    return False
            else:
                enters, ends = sorted(((low - here) / (there - here), (high - here) / (there - here)))
                first, last = max(first, enters), min(last, ends)
        return first < last

    def nearest(self, point):
        """The point of the rectangle that is closest to a point."""
        return min(max(point[0], self.left), self.right), min(max(point[1], self.top), self.bottom)

    def width(self):
        return self.right - self.left

    def height(self):
        return self.bottom - self.top

    def middle(self):
        return (self.left + self.right) / 2, (self.top + self.bottom) / 2


def box_of_words(middle, words, size):
    half = width_of(words, size) / 2
    return Box(middle[0] - half, middle[1] - 0.42 * size, middle[0] + half, middle[1] + 0.48 * size)


@dataclass
class Picture:
    """The parts of a picture, the box around them, and what it says in words."""
    body: list
    box: Box
    words: str = ""
    title: str = ""

    def whole(self, document=""):
        """The text of the file, with the document that it shows."""
        view = " ".join(map(num, (self.box.left, self.box.top, self.box.width(), self.box.height())))
        data = "<metadata>%s</metadata>\n" % escape(document) if document else ""
        return ('<svg xmlns="http://www.w3.org/2000/svg" viewBox="%s" role="img" font-family="sans-serif" '
                'font-weight="600" text-anchor="middle" fill="none" stroke-linecap="round" stroke-linejoin="round">\n'
                "<title>%s</title>\n<desc>%s</desc>\n%s%s\n</svg>\n" %
                (view, escape(self.title), escape(self.words), data, "\n".join(self.body)))
