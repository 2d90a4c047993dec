"""plane.py: vectors of space as points of the plane.

A vector with a negative third coordinate is a hollow point, and one with the third coordinate 0 an arrow. Lines through
three points or more are drawn. Python's standard library alone.
"""
from arithmetic import length
from chirotopes import Chirotope
from labels import Spot, beside
from svg import LIGHT, Box, Picture, colour, dot, num, pair
from views import best_view


class Points:
    """The classes of parallel vectors, numbered from 0 on, with the view in which they are drawn."""

    def __init__(self, vectors, chirotope, free, size):
        self.classes = chirotope.classes()
        self.first = [members[0][0] for members in self.classes]
        numbers = {e: k for k, e in enumerate(self.first)}
        small = chirotope.restricted(self.first)
        self.chirotope = Chirotope({tuple(numbers[e] for e in triple): sign for triple, sign in small.signs.items()},
                                   range(len(self.first)))
        self.view = best_view([vectors[e] for e in self.first], self.chirotope, free, size)

    def lines(self, box):
        """The lines through three points or more, each as its two ends in the box."""
        for on in self.chirotope.crossings():
            finite = [k for k in on if k in self.view.places]
            if len(on) < 3 or not finite:
                continue
            p = self.view.places[finite[0]]
            if len(finite) > 1:
                q = max((self.view.places[k] for k in finite), key=lambda q: length((q[0] - p[0], q[1] - p[1])))
                way = q[0] - p[0], q[1] - p[1]
            else:
                way = self.view.directions[next(k for k in on if k not in self.view.places)]
            yield clipped(p, way, box)


def drawn(vectors, chirotope, names, free, size):
    """The picture of the vectors of the elements; its words say how the view was made. With `free` any linear map may
    be taken."""
    points = Points(vectors, chirotope, free, size)
    places = points.view.places
    box = Box(0, 0, 0, 0)
    for x, y in places.values():
        box = box.with_box(Box(x, y, x, y))
    box = box.wider(1.8 * size)
    lines = list(points.lines(box))
    body = ['<path class="l" d="M%sL%s" stroke="%s" stroke-width="%s"/>' % (pair(p), pair(q), LIGHT, num(0.09 * size))
            for p, q in lines]
    spots, arrows = [], []
    for k, element in enumerate(points.first):
        if k in places:
            (x, y), hollow = places[k], points.view.vectors[k][2] < 0
            spots.append(Spot(places[k], Box(x, y, x, y).wider(0.5 * size), names[element], element))
            body.append(mark(places[k], element, hollow, size))
        else:
            arrow = Arrow(points.view.directions[k], element, box, arrows, size)
            arrows.append(arrow)
            spots.append(Spot(arrow.middle(), arrow.box(), names[element], element))
            body.append(arrow.drawn())
    for label in beside(spots, lines, size):
        body += label.drawn()
        box = box.with_box(label.box().wider(size / 4))
    for arrow in arrows:
        box = box.with_box(arrow.box().wider(size / 4))
    return Picture(body, box, points.view.how)


def mark(place, element, hollow, size):
    """A point, or a hollow one."""
    kind = ' class="%s e%d"' % ("n" if hollow else "p", element)
    if hollow:
        return '<circle%s cx="%s" cy="%s" r="%s" stroke="%s" stroke-width="%s"/>' % (
            kind, num(place[0]), num(place[1]), num(0.36 * size), colour(element), num(0.16 * size))
    return dot(place, 0.36 * size, colour(element), kind)


class Arrow:
    """A point at infinity: an arrow at the border of the box, moved outwards as far as others are in its way."""

    def __init__(self, way, element, box, others, size):
        self.way, self.element, self.size = way, element, size
        self.end = clipped(box.middle(), way, box.wider(0.4 * size))[1]
        while any(self.box().overlaps(other.box()) for other in others):
            self.end = self.end[0] + size * way[0], self.end[1] + size * way[1]

    def start(self):
        return self.end[0] - 1.8 * self.size * self.way[0], self.end[1] - 1.8 * self.size * self.way[1]

    def middle(self):
        start = self.start()
        return (start[0] + self.end[0]) / 2, (start[1] + self.end[1]) / 2

    def box(self):
        (x, y), (u, v) = self.start(), self.end
        return Box(min(x, u), min(y, v), max(x, u), max(y, v)).wider(0.4 * self.size)

    def drawn(self):
        (x, y), far = self.way, 0.55 * self.size
        heads = [(self.end[0] - far * (x - side * 0.6 * y), self.end[1] - far * (y + side * 0.6 * x))
                 for side in (1, -1)]
        return '<path class="a e%d" d="M%sL%sM%sL%sL%s" stroke="%s" stroke-width="%s"/>' % (
            self.element, pair(self.start()), pair(self.end), pair(heads[0]), pair(self.end), pair(heads[1]),
            colour(self.element), num(0.16 * self.size))


def clipped(p, way, box):
    """The two points in which a line leaves a box, the second one in its direction."""
    low, high = -1e300, 1e300
    for x, u, least, most in (p[0], way[0], box.left, box.right), (p[1], way[1], box.top, box.bottom):
        if abs(u) > 1e-12:
            enters, leaves = sorted(((least - x) / u, (most - x) / u))
            low, high = max(low, enters), min(high, leaves)
    return (p[0] + low * way[0], p[1] + low * way[1]), (p[0] + high * way[0], p[1] + high * way[1])
