"""curves.py: the wires of an embedded arrangement as smooth curves.

Each wire goes through its crossings by cubics. At a crossing its direction is the middle one of its two edges, so that
all wires of the crossing keep their order around it. Two curves may meet only at crossings: where two sides of a cell
would meet once more, both become straight, which always helps, since the cells are convex. Python's standard library
alone.
"""
from itertools import combinations

from arithmetic import area, distance
from svg import Curve

# how long the handles of a cubic are beside its edge, and how many pieces are looked at to find where two meet
HANDLE, PIECES = 0.36, 8


def smooth(skeleton, place, radius):
    """The curves of each wire from left to right, where `place` has the places of the vertices on the page and the
    circle has this radius."""
    curves = [smooth_wire([place[v] for v in walk]) for walk in skeleton.walks]
    edges = {}  # where the curve of an edge is
    for wire, walk in enumerate(skeleton.walks):
        for k, (v, w) in enumerate(zip(walk, walk[1:])):
            edges[v, w] = edges[w, v] = wire, k
    drawn = {key: polyline(curves[key[0]][key[1]]) for key in edges.values()}
    sides = [[edges[side] for side in zip(face, face[1:] + face[:1]) if side in edges] for face in skeleton.faces]
    pairs = {pair for face in sides for pair in combinations(face, 2)}
    wrong = [pair for pair in sorted(pairs) if meet(drawn[pair[0]], drawn[pair[1]])]
    wrong += [(key, key) for key in sorted(drawn) if leaves(drawn[key], radius)]
    while wrong:
        changed = {key for pair in wrong for key in pair if len(curves[key[0]][key[1]].points) == 4}
        for wire, k in changed:
            points = curves[wire][k].points
            curves[wire][k] = Curve((points[0], points[3]))
            drawn[wire, k] = polyline(curves[wire][k])
        wrong = [pair for pair in sorted(pairs) if changed & set(pair) and meet(drawn[pair[0]], drawn[pair[1]])]
    return curves


def smooth_wire(points):
    """Cubics through points."""
    edges = [(q[0] - p[0], q[1] - p[1]) for p, q in zip(points, points[1:])]
    sizes = [distance(p, q) for p, q in zip(points, points[1:])]
    units = [(x / size, y / size) for (x, y), size in zip(edges, sizes)]
    middles = [middle(u, v) for u, v in zip(units, units[1:])]
    if middles:
        middles = [mirrored(middles[0], units[0]), *middles, mirrored(middles[-1], units[-1])]
    else:
        middles = [units[0], units[0]]
    return [Curve((p, (p[0] + HANDLE * size * s[0], p[1] + HANDLE * size * s[1]),
                   (q[0] - HANDLE * size * t[0], q[1] - HANDLE * size * t[1]), q))
            for p, q, size, s, t in zip(points, points[1:], sizes, middles, middles[1:])]


def middle(u, v):
    """The direction between two directions, which aren't opposite."""
    x, y = u[0] + v[0], u[1] + v[1]
    size = distance((0, 0), (x, y))
    return x / size, y / size


def mirrored(t, u):
    """The direction t mirrored at the direction u."""
    c = 2 * (t[0] * u[0] + t[1] * u[1])
    return c * u[0] - t[0], c * u[1] - t[1]


def polyline(curve):
    """Points of a curve, from its begin to its end."""
    if len(curve.points) == 2:
        return list(curve.points)
    (x0, y0), (x1, y1), (x2, y2), (x3, y3) = curve.points
    points = []
    for k in range(PIECES + 1):
        t = k / PIECES
        a, b, c, d = (1 - t) * (1 - t) * (1 - t), 3 * t * (1 - t) * (1 - t), 3 * t * t * (1 - t), t * t * t
        points.append((a * x0 + b * x1 + c * x2 + d * x3, a * y0 + b * y1 + c * y2 + d * y3))
    points[0], points[-1] = curve.points[0], curve.points[3]
    return points


def meet(one, other):
    """Whether two polylines have a common point that isn't an end of both."""
    for p, q in zip(one, one[1:]):
        left, right = min(p[0], q[0]), max(p[0], q[0])
        for r, s in zip(other, other[1:]):
            if max(r[0], s[0]) < left or min(r[0], s[0]) > right or p in (r, s) or q in (r, s):
                continue
            if area(p, q, r) * area(p, q, s) <= 0 and area(r, s, p) * area(r, s, q) <= 0:
                return True
    return False


def leaves(points, radius):
    """Whether a polyline goes out of the circle."""
    return any(x * x + y * y > radius * radius * 1.0001 for x, y in points)
