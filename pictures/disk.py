"""disk.py: lines of the projective plane in a disk, of which opposite boundary points are the same.

An element runs to the arrow at its name, and its positive side is on the left. Python's standard library alone.
"""
import arcs
from curves import smooth
from embedding import places
from labels import around_circle
from skeleton import Skeleton
from svg import LIGHT, Arc, Box, Picture, colour, dot, filled, line, num, pair

RADIUS = 200


class Disk:
    """An arrangement with the places of its vertices on the page and the curves of its wires."""

    def __init__(self, arrangement, skeleton, place, curves):
        self.arrangement, self.skeleton, self.place, self.curves = arrangement, skeleton, place, curves

    def outline(self, face):
        """The border of a cell as curves that follow one another, from its vertices."""
        sides = {}
        for walk, curves in zip(self.skeleton.walks, self.curves):
            for v, w, curve in zip(walk, walk[1:], curves):
                sides[v, w], sides[w, v] = curve, curve.turned()
        border = []
        for v, w in zip(face, face[1:] + face[:1]):
            # counterclockwise along the circle
            border.append(sides.get((v, w)) or Arc((self.place[v], self.place[w]), RADIUS, 0))
        return border

    def cells(self, pieces):
        """The outlines of pieces of cells."""
        return [self.outline(face) for piece, face in zip(self.skeleton.pieces, self.skeleton.faces) if piece in pieces]


def of_vectors(vectors, chirotope):
    """The disk with circle arcs of these vectors; None where it couldn't be read."""
    found = arcs.arranged(vectors, chirotope)
    if found is None:
        return None
    arrangement, seen = found
    skeleton = Skeleton(arrangement)
    return Disk(arrangement, skeleton, *arcs.curves_of(skeleton, seen, RADIUS))


def of_arrangement(arrangement):
    """The disk with smooth pseudolines."""
    skeleton = Skeleton(arrangement)
    place = [(RADIUS * x, -RADIUS * y) for x, y in places(skeleton)]
    return Disk(arrangement, skeleton, place, smooth(skeleton, place, RADIUS))


def drawn(disk, names, size, stroke, triples=()):
    """The picture of a disk. `names` has the words at the ends of each line, and the mutations with these triples are
    filled."""
    arrangement, skeleton, place = disk.arrangement, disk.skeleton, disk.place
    body = ['<circle r="%s" stroke="%s" stroke-width="%s" stroke-dasharray="%s %s"/>' % (
        num(RADIUS), LIGHT, num(stroke / 2), num(stroke), num(2 * stroke))]
    for mutation in arrangement.mutations():
        if mutation.triple in triples:
            body += [filled(outline) for outline in disk.cells(mutation.pieces)]
    heads, ends = [], []
    for wire, element in enumerate(arrangement.elements):
        curves = disk.curves[wire]
        if arrangement.flips[wire] < 0:
            curves = [curve.turned() for curve in curves[::-1]]
        body.append(line(curves, element, stroke))
        heads.append(arrow(curves[-1], size / 2.4, colour(element)))
        ends += [(place[end], names[element], element) for end in (skeleton.left(wire), skeleton.right(wire))]
    body += [dot(place[crossing], 1.8 * stroke) for crossing, wires in enumerate(arrangement.members) if len(wires) > 2]
    box = Box(-RADIUS, -RADIUS, RADIUS, RADIUS)
    for label in around_circle(ends, RADIUS, size, 0.5 * size):
        body += label.drawn()
        box = box.with_box(label.box())
    # as wide on the left as on the right, so that the disk is in the middle
    half, high = max(-box.left, box.right), max(-box.top, box.bottom)
    return Picture(body + heads, Box(-half, -high, half, high).wider(size / 4))


def arrow(curve, size, fill):
    """A head at the end of a curve, in its direction."""
    (u, v), (x, y) = curve.points[-1], curve.heading()
    tip = u + x * size, v + y * size
    sides = [(u + side * y * size * 0.7, v - side * x * size * 0.7) for side in (1, -1)]
    return '<path class="h" d="M%sL%sL%sZ" fill="%s"/>' % (pair(sides[0]), pair(tip), pair(sides[1]), fill)
