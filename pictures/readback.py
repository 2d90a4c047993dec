"""readback.py: what a picture shows, read from its SVG without the code that drew it.

`lines_of` reads a disk or a wiring and gives the sign of each triple of drawn lines: a point where two lines cross lies
on the positive side of a third one, on its negative side or on it, and the second of the two comes over to the positive
side of the first or to its negative side. `Points` reads points and arrows as vectors. A picture that can't be read so
is a `Fault`. Python's standard library alone.
"""
import re
import xml.etree.ElementTree as ElementTree
from itertools import combinations
from math import atan2, ceil, cos, dist, hypot, pi, prod, sin, sqrt

NAMESPACE = "{http://www.w3.org/2000/svg}"
NUMBER = r"-?(?:\d+\.?\d*|\.\d+)"
SIZES = {"M": 2, "L": 2, "H": 1, "C": 6, "A": 7, "Z": 0}
MINUS = "\u2212"
# units of the page: what is as good as one point, and how far a line may be from a point that is on it
SAME, ON = 0.5, 0.3


class Fault(Exception):
    """What is wrong with a picture."""


def wanted(condition, what, *values):
    if not condition:
        raise Fault(what % values)


class Page:
    """The root of a picture, and the parts of the one drawing on it, or of each one of a sheet."""

    def __init__(self, text):
        try:
            self.root = ElementTree.fromstring(text)
        except ElementTree.ParseError as fault:
            raise Fault("no XML: %s" % fault) from None
        heads = [part.tag for part in self.root[:2]]
        wanted(self.root.tag == NAMESPACE + "svg" and heads == [NAMESPACE + "title", NAMESPACE + "desc"],
               "no picture with a title and a description")
        wanted(self.root[0].text and self.root[1].text, "an empty title or description")
        wanted(not {"width", "height"} & set(self.root.attrib), "a size")
        self.box = [float(x) for x in self.root.get("viewBox", "").split()]
        wanted(len(self.box) == 4 and self.box[2] > 0 and self.box[3] > 0, "no viewBox")
        used = {name for part in self.root.iter() for name in part.attrib if name == "id" or ":" in name}
        wanted(not used, "the attributes %s", used)
        self.groups = [part for part in self.root if part.tag == NAMESPACE + "g"]
        wanted(self.groups, "an empty picture")


class Words:
    """A text of a drawing, and the place from which a line leads to it."""

    def __init__(self, part, size, leader):
        self.leader = leader
        self.words, self.size = part.text or "", float(part.get("font-size", size))
        self.x, self.y, self.fill = float(part.get("x")), float(part.get("y")), part.get("fill")
        wide = self.size * sum(0.95 if letter in "MWmw" else 0.62 for letter in self.words)
        left = {"middle": self.x - wide / 2, "end": self.x - wide, "start": self.x}[part.get("text-anchor", "middle")]
        self.box = left, left + wide, self.y - 0.72 * self.size, self.y

    def distance(self, place):
        """How far the words, or the begin of their leader, are from a place."""
        if self.leader:
            return dist(self.leader, place)
        left, right, top, bottom = self.box
        return dist((min(max(place[0], left), right), min(max(place[1], top), bottom)), place)


def words_in(group):
    """The texts of a drawing, each with the line before it that leads to it, if there is one."""
    size, found, before = float(group.get("font-size")), [], None
    for part in group.iter():
        if part.tag == NAMESPACE + "text":
            leads = before is not None and before.get("class") == "s"
            found.append(Words(part, size, flat(before.get("d"))[0] if leads else None))
        before = part
    return found


def check_words(page):
    """No two texts of a drawing lie on one another, and all are on the page."""
    for group in page.groups:
        texts = words_in(group)
        for one, other in combinations(texts, 2):
            a, b = one.box, other.box
            wanted(not (a[0] < b[1] and b[0] < a[1] and a[2] < b[3] and b[2] < a[3]), "%s lies on %s", one.words,
                   other.words)
        if group.get("transform") is None:
            x, y, width, height = page.box
            for text in texts:
                a = text.box
                wanted(a[0] >= x and a[1] <= x + width and a[2] >= y and a[3] <= y + height, "%s isn't on the page",
                       text.words)


def flat(data):
    """A path as points, of which each end of a piece is one."""
    wanted(re.fullmatch("(?:[MLCAZlhcaz](?:%s|[ ,])*)+" % NUMBER, data), "the path %s", data)
    points = []
    for letter, rest in re.findall(r"([MLCAZlhcaz])([^MLCAZlhcaz]*)", data):
        numbers, size = [float(x) for x in re.findall(NUMBER, rest)], SIZES[letter.upper()]
        wanted(len(numbers) % size == 0 if size else not numbers, "the path %s", data)
        for k in range(0, len(numbers), size or 1):
            values = numbers[k:k + size]
            if letter == "h":
                values = [values[0] + points[-1][0], points[-1][1]]
            elif letter in "lc":
                values = [value + points[-1][i % 2] for i, value in enumerate(values)]
            elif letter == "a":
                values[5:] = values[5] + points[-1][0], values[6] + points[-1][1]
            points += {"M": point, "L": point, "H": point, "C": cubic, "A": arc}[letter.upper()](points[-1:], values)
    return points


def point(_, v):
    return [(v[0], v[1])]


def cubic(before, v, steps=12):
    (x, y), points = before[0], []
    for k in range(1, steps + 1):
        t = k / steps
        a, b, c, d = (1 - t) ** 3, 3 * t * (1 - t) ** 2, 3 * t * t * (1 - t), t ** 3
        points.append((a * x + b * v[0] + c * v[2] + d * v[4], a * y + b * v[1] + c * v[3] + d * v[5]))
    return points[:-1] + [(v[4], v[5])]


def arc(before, v):
    """The points of a part of a circle, one every three degrees."""
    p, radius, sweep, q = before[0], v[0], v[4], (v[5], v[6])
    wanted(v[0] == v[1] and v[2:4] == [0, 0] and sweep in (0, 1), "an arc %s", v)
    chord = dist(p, q)
    wanted(chord > 0 and radius > chord / 2 - 0.02, "an arc %s", v)
    high = sqrt(max(0, radius * radius - chord * chord / 4))
    side = 1 if sweep else -1
    x = (p[0] + q[0]) / 2 - side * high * (q[1] - p[1]) / chord
    y = (p[1] + q[1]) / 2 + side * high * (q[0] - p[0]) / chord
    first, last = atan2(p[1] - y, p[0] - x), atan2(q[1] - y, q[0] - x)
    turn = (last - first) % (2 * pi) if sweep else -((first - last) % (2 * pi))
    steps = max(8, ceil(abs(turn) * 60 / pi))
    real = max(radius, chord / 2)
    points = [(x + real * cos(first + turn * k / steps), y + real * sin(first + turn * k / steps))
              for k in range(1, steps)]
    return points + [q]


def crossings(one, other):
    """Where two lines of points meet; places closer than SAME are one."""
    found, blocks = [], list(blocks_of(other))
    for left, right, top, bottom, k in blocks_of(one):
        for low, high, least, most, m in blocks:
            if left > high or low > right or top > most or least > bottom:
                continue
            for p, q in zip(one[k:k + 8], one[k + 1:k + 9]):
                for r, s in zip(other[m:m + 8], other[m + 1:m + 9]):
                    place = meeting(p, q, r, s)
                    if place and all(dist(place, earlier) > SAME for earlier in found):
                        found.append(place)
    return found


def blocks_of(line):
    """Boxes around eight pieces at a time."""
    for k in range(0, len(line) - 1, 8):
        xs, ys = [p[0] for p in line[k:k + 9]], [p[1] for p in line[k:k + 9]]
        yield min(xs) - 0.01, max(xs) + 0.01, min(ys) - 0.01, max(ys) + 0.01, k


def meeting(p, q, r, s):
    """The common point of two segments, or None."""
    dx, dy, ex, ey = q[0] - p[0], q[1] - p[1], s[0] - r[0], s[1] - r[1]
    det = dx * ey - dy * ex
    if abs(det) < 1e-12:
        return None
    t = ((r[0] - p[0]) * ey - (r[1] - p[1]) * ex) / det
    u = ((r[0] - p[0]) * dy - (r[1] - p[1]) * dx) / det
    if -1e-6 <= t <= 1 + 1e-6 and -1e-6 <= u <= 1 + 1e-6:
        return p[0] + t * dx, p[1] + t * dy
    return None


def distance(z, line):
    """How far a point is from a line of points."""
    best = 1e9
    for p, q in zip(line, line[1:]):
        dx, dy = q[0] - p[0], q[1] - p[1]
        size = dx * dx + dy * dy
        t = max(0, min(1, ((z[0] - p[0]) * dx + (z[1] - p[1]) * dy) / size)) if size else 0
        best = min(best, hypot(z[0] - p[0] - t * dx, z[1] - p[1] - t * dy))
    return best


def inside(z, polygon):
    odd = False
    for p, q in zip(polygon, polygon[1:] + polygon[:1]):
        if (p[1] > z[1]) != (q[1] > z[1]) and z[0] < p[0] + (z[1] - p[1]) * (q[0] - p[0]) / (q[1] - p[1]):
            odd = not odd
    return odd


class Lines:
    """The lines of a drawing: for each its points in its direction, by the number in its class."""

    def __init__(self, group):
        self.group = group
        self.parts = {int(name.split()[1][1:]): part for part in group.iter(NAMESPACE + "path")
                      for name in [part.get("class") or ""] if name.startswith("w ")}
        self.lines = {e: flat(part.get("d")) for e, part in self.parts.items()}
        wanted(len(self.lines) >= 1, "no lines")
        boundary = [part for part in group.iter(NAMESPACE + "circle") if part.get("cx") is None]
        self.radius = float(boundary[0].get("r")) if boundary else None
        self.check_ends()
        self.left = {e: self.left_side(e) for e in self.lines}

    def check_ends(self):
        """In a disk the ends of a line are opposite points of the circle, and in a wiring they are on two verticals.
        In a disk the arrows are at the ends, in the colours of the lines."""
        if self.radius is None:
            for k in (0, -1):
                ends = [line[k][0] for line in self.lines.values()]
                wanted(max(ends) - min(ends) < 0.02, "ends that aren't in a row")
            return
        for e, line in self.lines.items():
            wanted(all(abs(hypot(*p) - self.radius) < 0.02 for p in (line[0], line[-1])), "line %d ends inside", e)
            wanted(dist(line[0], (-line[-1][0], -line[-1][1])) < 0.03, "the ends of line %d aren't opposite", e)
            wanted(max(hypot(*p) for p in line) < self.radius + 0.03, "line %d leaves the disk", e)
        heads = [part for part in self.group.iter(NAMESPACE + "path") if part.get("class") == "h"]
        wanted(len(heads) == len(self.lines), "%d arrows", len(heads))
        for head in heads:
            a, tip, b = flat(head.get("d"))[:3]
            foot = (a[0] + b[0]) / 2, (a[1] + b[1]) / 2
            wanted(hypot(*tip) > hypot(*foot), "an arrow that points inwards")
            e = min(self.lines, key=lambda e: dist(foot, self.lines[e][-1]))
            wanted(dist(foot, self.lines[e][-1]) < 0.05, "an arrow that isn't at the end of a line")
            wanted(head.get("fill") == self.parts[e].get("stroke"), "the colour of an arrow")

    def left_side(self, e):
        """The region on the left of a line, as a polygon."""
        line = self.lines[e]
        if self.radius is None:
            return line + [(line[-1][0] + 1, line[-1][1]), (line[-1][0] + 1, -9999), (line[0][0] - 1, -9999),
                           (line[0][0] - 1, line[0][1])]
        first = atan2(-line[-1][1], line[-1][0])
        return line + [(1.01 * self.radius * cos(first + pi * k / 60), -1.01 * self.radius * sin(first + pi * k / 60))
                       for k in range(61)]

    def members(self):
        """The line and the factor of each name, from the words at both ends of each line, which have its colour."""
        labels = {}
        for text in words_in(self.group):
            if text.words.startswith("loops: "):
                continue
            e = min(self.lines, key=lambda e: min(text.distance(p) for p in self.ends(e)))
            wanted(text.fill == self.parts[e].get("stroke"), "the colour of the words %s", text.words)
            labels.setdefault(e, []).append(text.words)
        wanted(sorted(labels) == sorted(self.lines) and all(len(words) == 2 and words[0] == words[1] for words in
                                                            labels.values()), "other words at the ends: %s", labels)
        return {name.lstrip(MINUS): (e, -1 if name.startswith(MINUS) else 1)
                for e, words in labels.items() for name in words[0].split(",")}

    def ends(self, e):
        return self.lines[e][0], self.lines[e][-1]

    def signs(self):
        """The sign of each increasing triple of lines."""
        point, turn = {}, {}
        for a, b in combinations(sorted(self.lines), 2):
            met = crossings(self.lines[a], self.lines[b])
            wanted(len(met) == 1, "lines %d and %d meet %d times", a, b, len(met))
            point[a, b] = point[b, a] = met[0]
            start, end = self.ends(b)
            if self.radius is None:
                sides = start[1] < self.lines[a][0][1], end[1] < self.lines[a][-1][1]
            else:
                sides = inside(start, self.left[a]), inside(end, self.left[a])
            wanted(sides[0] != sides[1], "lines %d and %d touch, and don't cross", a, b)
            turn[a, b] = 1 if sides[1] else -1
            turn[b, a] = -turn[a, b]
        signs = {}
        for a, b, c in combinations(sorted(self.lines), 3):
            got = {self.side(point[y, z], x) * turn[y, z] for x, y, z in ((a, b, c), (b, c, a), (c, a, b))}
            wanted(len(got) == 1, "lines %d, %d and %d have the signs %s", a, b, c, sorted(got))
            signs[a, b, c] = got.pop()
        self.check_dots(set(point.values()))
        self.check_cells()
        return signs

    def side(self, place, e):
        """1 on the left of a line, -1 on its right, 0 on it."""
        if distance(place, self.lines[e]) < ON:
            return 0
        return 1 if inside(place, self.left[e]) else -1

    def check_dots(self, points):
        """There is a dot exactly where three lines and more meet."""
        places = {}
        for p in points:
            through = tuple(e for e in self.lines if distance(p, self.lines[e]) < ON)
            if len(through) > 2:
                places[through] = p
        dots = [(float(part.get("cx")), float(part.get("cy"))) for part in self.group.iter(NAMESPACE + "circle")
                if part.get("cx") is not None]
        wanted(len(dots) == len(places), "%d dots for %d points", len(dots), len(places))
        for place in places.values():
            wanted(any(dist(place, dot) < ON for dot in dots), "a point of three lines without a dot")

    def check_cells(self):
        """No line runs through a filled cell, and none is empty."""
        for part in self.group.iter(NAMESPACE + "path"):
            if part.get("class") != "f":
                continue
            cell = flat(part.get("d"))
            area = abs(sum(p[0] * q[1] - p[1] * q[0] for p, q in zip(cell, cell[1:] + cell[:1]))) / 2
            wanted(area > 1, "a filled cell of area %g", area)
            for e, line in self.lines.items():
                for p in line:
                    wanted(not inside(p, cell) or distance(p, cell + cell[:1]) < 0.5,
                           "line %d runs through a filled cell", e)


def lines_of(group, elements):
    """The sign of each increasing triple of the elements, whose names are given, as the lines of a drawing show it."""
    lines = Lines(group)
    signs, members = lines.signs(), lines.members()
    loops = [name for text in words_in(group) if text.words.startswith("loops: ")
             for name in text.words[7:].split(", ")]
    wanted(sorted(list(members) + loops) == sorted(elements), "the names %s", sorted(members))
    result = {}
    for triple in combinations(range(1, len(elements) + 1), 3):
        on = [members.get(elements[e - 1], (0, 0)) for e in triple]
        result[triple] = value(signs, *(e for e, _ in on)) * prod(factor for _, factor in on)
    return result


def value(signs, a, b, c):
    if len({a, b, c}) < 3 or 0 in (a, b, c):
        return 0
    return signs[tuple(sorted((a, b, c)))] * (-1) ** ((a > b) + (a > c) + (b > c))


class Points:
    """The marks of a drawing of points: `vectors` has the vector of each element by its name, and `loops` names
    elements that have none."""

    def __init__(self, group, elements):
        self.group, self.marks, self.loops = group, {}, []
        for part in group.iter():
            kind, *name = (part.get("class") or "none").split()
            if kind in ("p", "n", "a"):
                self.marks[elements[int(name[0][1:]) - 1]] = self.mark(kind, part)
        self.vectors = {}
        for text in words_in(group):
            if text.words.startswith("loops: "):
                self.loops = text.words[7:].split(", ")
                continue
            first = text.words.split(",")[0]
            wanted(first in self.marks and first not in self.vectors, "no mark of its own for %s", text.words)
            vector, _, fill = self.marks[first]
            wanted(text.fill == fill, "the colour of %s", text.words)
            near = {name: text.distance(place) for name, (_, place, _) in self.marks.items()}
            closest = min(near, key=near.get)
            # letters are as wide as their font, so what is nearly as close will do
            wanted(near[first] < near[closest] + 0.2 * text.size, "%s stands beside %s", text.words, closest)
            for name in text.words.split(","):
                sign = -1 if name.startswith(MINUS) else 1
                self.vectors[name.lstrip(MINUS)] = tuple(sign * x for x in vector)
        wanted(set(self.marks) <= set(self.vectors), "a mark without a name")
        wanted(sorted(list(self.vectors) + self.loops) == sorted(elements), "the names %s", sorted(self.vectors))

    @staticmethod
    def mark(kind, part):
        """The vector of a mark, its place and its colour. The y axis of a page points down."""
        if kind == "a":
            start, end = flat(part.get("d"))[:2]
            middle = (start[0] + end[0]) / 2, (start[1] + end[1]) / 2
            return (end[0] - start[0], start[1] - end[1], 0), middle, part.get("stroke")
        sign, x, y = 1 if kind == "p" else -1, float(part.get("cx")), float(part.get("cy"))
        return (sign * x, -sign * y, sign), (x, y), part.get("fill") if sign > 0 else part.get("stroke")

    def agree(self, signs, elements):
        """Holds where each triple has its sign in the drawing: three marks lie on a line up to a tenth of a unit, or
        turn to the right side."""
        for triple, sign in signs.items():
            names = [elements[e - 1] for e in triple]
            if any(name in self.loops for name in names):
                wanted(sign == 0, "a loop in %s", names)
                continue
            p, q, r = (self.vectors[name] for name in names)
            det = sum(p[i] * (q[(i + 1) % 3] * r[(i + 2) % 3] - q[(i + 2) % 3] * r[(i + 1) % 3]) for i in range(3))
            places = [(v[0] * v[2], v[1] * v[2]) for v in (p, q, r) if v[2]]
            size = max([dist(a, b) for a, b in combinations(places, 2)] +
                       [hypot(v[0], v[1]) for v in (p, q, r) if not v[2]] + [1e-9])
            wanted(abs(det) < 0.1 * size if sign == 0 else det * sign > 0, "%s should have the sign %d", names, sign)

    def check_lines(self, signs, elements):
        """The drawn lines are those through three marks and more, of which one at least is no arrow."""
        names = [name for name in self.marks]
        number = {name: elements.index(name) + 1 for name in names}
        sets = set()
        for a, b in combinations(names, 2):
            on = tuple(c for c in names if c in (a, b) or not signs[tuple(sorted((number[a], number[b], number[c])))])
            if len(on) > 2 and any(self.vectors[c][2] for c in on):
                sets.add(on)
        lines = [flat(part.get("d")) for part in self.group.iter(NAMESPACE + "path") if part.get("class") == "l"]
        wanted(len(lines) == len(sets), "%d lines for %d", len(lines), len(sets))
        for on in sets:
            places = [self.marks[name][1] for name in on if self.vectors[name][2]]
            wanted(any(all(distance(place, line) < ON for place in places) for line in lines), "no line through %s", on)
