"""arcs.py: vectors of space as lines of the projective plane, drawn as circle arcs.

The plane through the origin at right angles to a vector meets the unit sphere in a great circle. Half of the sphere is
projected stereographically into the disk: each great circle becomes an arc between two opposite points of the boundary.
Python's standard library alone.
"""
from itertools import combinations
from math import sqrt

from arithmetic import cross, distance, dot, length, sphere, unit
from filters import Refused
from infinity import swept
from svg import Arc, Curve
from views import spread

# crossings closer than this part of the radius can't be told apart
READABLE = 0.06
# an arc of this many times the radius is drawn as a segment
STRAIGHT = 200


def arranged(vectors, chirotope):
    """The arrangement of the lines of these vectors, seen from the best pole, with what `curves_of` needs; None where
    crossings or names would lie too close to one another in each view, or floating numbers are too short. `vectors`
    has one for each element."""
    elements = chirotope.elements
    spread_out = spread([vectors[e] for e in elements], chirotope)
    if spread_out is None:
        return None
    base = dict(zip(elements, spread_out))
    meets = [unit(cross(base[crossing[0]], base[crossing[1]])) for crossing in chirotope.crossings()]
    best, pole = 0.0, None
    for direction in sphere(600 if len(elements) < 12 else 200):
        if direction[2] > 0:
            quality = clearance(meets, base.values(), direction, best)
            if quality > best:
                best, pole = quality, direction
    if best < READABLE:
        return None
    try:
        arrangement = swept(chirotope, lambda a, b: 1 if dot(cross(base[a], base[b]), pole) > 0 else -1)
    except Refused:
        return None
    if arrangement.signs() != chirotope.signs:
        return None
    axes = frame(pole)
    return arrangement, [seen(base[e], axes) for e in arrangement.elements]


def curves_of(skeleton, vectors, radius):
    """The places of the vertices on the page, and the arcs of each wire from left to right; `vectors` are those of the
    wires, as they are seen from the pole."""
    arrangement, place = skeleton.arrangement, {}
    for crossing, wires in enumerate(arrangement.members):
        x, y = projected(unit(cross(vectors[wires[0]], vectors[wires[1]])))
        place[crossing] = radius * x, -radius * y
    curves = []
    for wire, (vector, flip) in enumerate(zip(vectors, arrangement.flips)):
        flat = length(vector[:2])
        end = flip * vector[1] / flat * radius, flip * vector[0] / flat * radius
        place[skeleton.right(wire)], place[skeleton.left(wire)] = end, (-end[0], -end[1])
        size = radius * sqrt(1 + flat * flat / (vector[2] * vector[2])) if vector[2] else STRAIGHT * radius
        walk = [place[vertex] for vertex in skeleton.walks[wire]]
        sweep = 0 if vector[2] * flip > 0 else 1
        curves.append([Arc(points, size, sweep) if size < STRAIGHT * radius else Curve(points)
                       for points in zip(walk, walk[1:])])
    return place, curves


def frame(pole):
    """Two directions that make a right-handed frame with the pole, and the pole."""
    least = min(range(3), key=lambda i: abs(pole[i]))
    x = unit(cross(tuple(float(i == least) for i in range(3)), pole))
    return x, cross(pole, x), pole


def seen(vector, axes):
    return tuple(dot(vector, axis) for axis in axes)


def projected(p):
    """The place in the disk of radius 1 of a point of the sphere, or of the opposite point if it lies below."""
    side = 1 if p[2] > 0 else -1
    return side * p[0] / (1 + side * p[2]), side * p[1] / (1 + side * p[2])


def clearance(meets, vectors, pole, least):
    """The least distance of two crossings, of a crossing and the circle, or of the ends of two lines, as far as it is
    above `least`."""
    axes = frame(pole)
    places, best = [], 9.0
    for p in meets:
        place = projected(seen(p, axes))
        places.append(place)
        best = min(best, 1.4 * (1 - length(place)))
        if best <= least:
            return best
    places.sort()
    for k, p in enumerate(places):
        for m in range(k + 1, len(places)):
            if places[m][0] - p[0] >= best:
                break
            best = min(best, distance(p, places[m]))
        if best <= least:
            return best
    ends = [unit((dot(v, axes[1]), -dot(v, axes[0]))) for v in vectors]
    for p, q in combinations(ends, 2):
        best = min(best, 0.7 * distance(p, q), 0.7 * distance(p, (-q[0], -q[1])))
    return best
