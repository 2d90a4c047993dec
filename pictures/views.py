"""views.py: vectors of space as points of the page, in a view in which they can be told apart.

A vector x, y, z is the point x/z, y/z, and one with z = 0 lies at infinity. A linear map of positive determinant gives
the same signs in another view. Python's standard library alone.
"""
from itertools import combinations
from math import sqrt

from arithmetic import area, cross, distance, dot, sphere, total, unit
from claims import det

WIDE, TALL = 600, 440
# a view is good where points are apart by so many sizes of the letters, and triangles so many units high
NEAR, FLAT = 1.4, 2.5
# how many directions are looked at, and of how many of these the whole view
DIRECTIONS, LOOKS = 800, 60
# what the volume of three vectors of length 1 is above where it isn't 0
LEAST = 1e-9


class View:
    """Vectors with their places on the page.

    `places` has the place of each vector that isn't at infinity, by its number from 0 on, and `directions` the
    direction of each one that is. `how` says in words how the view was made. `fitting` is the function that says by
    which shear and stretch the y axis is fitted to the x axis.
    """

    def __init__(self, vectors, how, fitting):
        self.vectors, self.how = vectors, how
        points = {k: (x / z, y / z) for k, (x, y, z) in enumerate(vectors) if z}
        shear, stretch = fitting(list(points.values()))
        points = {k: (x, shear * x + stretch * y) for k, (x, y) in points.items()}
        xs, ys = [x for x, _ in points.values()], [y for _, y in points.values()]
        wide, tall = max(xs) - min(xs), max(ys) - min(ys)
        scale = min([most / side for most, side in ((WIDE, wide), (TALL, tall)) if side > 0], default=1.0)
        left, top = (max(xs) + min(xs)) / 2, (max(ys) + min(ys)) / 2
        # the y axis of the page points down
        self.places = {k: ((x - left) * scale, (top - y) * scale) for k, (x, y) in points.items()}
        self.directions = {k: unit((x, -(shear * x + stretch * y))) for k, (x, y, z) in enumerate(vectors) if not z}

    def narrowness(self):
        """The shorter side of the box around the points beside the longer one."""
        xs, ys = [x for x, _ in self.places.values()], [y for _, y in self.places.values()]
        sides = sorted((max(xs) - min(xs), max(ys) - min(ys)))
        return sides[0] / sides[1] if sides[1] else 0.0

    def quality(self, chirotope, size):
        """How well points are apart, and the corners of triangles from the opposite sides: 1 is well. A narrow strip of
        points isn't seen well either."""
        best, places = min(3.0, 4 * self.narrowness()), self.places
        for p, q in combinations(places.values(), 2):
            best = min(best, distance(p, q) / (NEAR * size))
        for a, b, c in combinations(sorted(places), 3):
            if chirotope.value(a, b, c):
                p, q, r = places[a], places[b], places[c]
                longest = max(distance(p, q), distance(p, r), distance(q, r))
                if abs(area(p, q, r)) < FLAT * longest * best:
                    best = min(best, abs(area(p, q, r)) / longest / FLAT)
        return best


def as_given(points):
    """The scales of x and y stay even."""
    return 0.0, 1.0


def stretched(points):
    """The points become as high as they are wide on the page."""
    xs, ys = [x for x, _ in points], [y for _, y in points]
    wide, tall = max(xs) - min(xs), max(ys) - min(ys)
    return 0.0, wide / WIDE * TALL / tall if wide and tall else 1.0


def sheared(points):
    """The coordinates of the points become independent, and spread as far as one another."""
    count = len(points)
    x_mean, y_mean = total(x for x, _ in points) / count, total(y for _, y in points) / count
    xx = total((x - x_mean) * (x - x_mean) for x, _ in points)
    xy = total((x - x_mean) * (y - y_mean) for x, y in points)
    yy = total((y - y_mean) * (y - y_mean) for _, y in points)
    if count < 3 or xx * yy - xy * xy <= 1e-9 * xx * yy:
        return 0.0, 1.0
    stretch = sqrt(xx / (yy - xy * xy / xx))
    return -xy / xx * stretch, stretch


def spread(vectors, chirotope):
    """The vectors, of whole numbers, after a linear map of positive determinant that spreads them over all directions,
    each of length 1; None where floating numbers are too short to keep their signs."""
    for start in vectors, in_basis(vectors):
        spread_out = evenly(start)
        if are_reliable(spread_out, chirotope):
            return spread_out
    return None


def evenly(vectors):
    """The vectors mapped so that the sum of their squares comes close to a multiple of the identity."""
    vectors = [unit(v) for v in vectors]
    for _ in range(25):
        m = [[total(v[i] * v[j] for v in vectors) for j in range(3)] for i in range(3)]
        # the Cholesky factor, with the columns a b c, 0 d e and 0 0 f, and its inverse
        a = sqrt(m[0][0])
        b, c = m[1][0] / a, m[2][0] / a
        d = sqrt(max(m[1][1] - b * b, 1e-12))
        e = (m[2][1] - b * c) / d
        f = sqrt(max(m[2][2] - c * c - e * e, 1e-12))
        mapped = []
        for x, y, z in vectors:
            x /= a
            y = (y - b * x) / d
            mapped.append(unit((x, y, (z - c * x - e * y) / f)))
        vectors = mapped
    return vectors


def in_basis(vectors):
    """The vectors, of whole numbers, in the coordinates of the three with the greatest volume, up to a factor. Their
    numbers stay exact, and none is greater than that of the basis, so what is nearly flat becomes wide."""
    a, b, c = max(combinations(vectors, 3), key=lambda basis: abs(det(*basis)))
    return [(det(v, b, c), det(a, v, c), det(a, b, v)) for v in vectors]


def are_reliable(vectors, chirotope):
    """Whether floating numbers keep the signs of vectors, which are numbered by the elements in their order."""
    numbers = {e: v for e, v in zip(chirotope.elements, vectors)}
    for (a, b, c), sign in chirotope.signs.items():
        volume = dot(cross(numbers[a], numbers[b]), numbers[c])
        if sign * volume <= LEAST if sign else abs(volume) > LEAST:
            return False
    return True


def best_view(vectors, chirotope, free, size):
    """The view in which vectors are drawn. `chirotope` is that of their numbers from 0 on; none is zero, and no two
    are parallel. With `free` any linear map may be taken; else the given view is kept where it is good, and each vector
    stays on its side of infinity."""
    given = View(vectors, "as given", as_given)
    options = [(given.quality(chirotope, size), given)]
    if not free and options[0][0] >= 1:
        return given
    for fitting in stretched, sheared:
        view = View(vectors, "after an affine map", fitting)
        options.append((view.quality(chirotope, size), view))
    if free or all(z for _, _, z in vectors):
        found = best_projection(vectors, chirotope, free, size)
        options = [found] if found and free else options + [found] * (found is not None)
    # the first one that is good, or else the best
    quality, view = max(options, key=lambda option: min(option[0], 1.0))
    if quality < 0.6:
        view.how += ", and some too close to be told apart: a disk shows them"
    return view


def best_projection(vectors, chirotope, free, size):
    """The best view from another side, with its quality: of those with the fewest vectors behind infinity, or of those
    that leave each vector on its side. None where there is none."""
    base = spread(vectors, chirotope)
    if base is None:
        return None
    sides = [z > 0 for _, _, z in vectors]
    tries = []
    for f in sphere(DIRECTIONS):
        heights = [dot(f, v) for v in base]
        if free or [height > 0 for height in heights] == sides:
            tries.append((sum(height < 0 for height in heights), -min(map(abs, heights)), f))
    if not tries:
        return None
    least = min(tries)[0]
    best = None
    for _, _, f in sorted(one for one in tries if one[0] == least)[:LOOKS]:
        option = option_of(base, f, chirotope, size)
        if option and (best is None or option[0] > best[0]):
            best = *option, f
    return best and refined(*best, base, chirotope, size)


def option_of(base, f, chirotope, size):
    """The view with the third coordinate f, with its quality; None where a vector comes close to infinity."""
    if min(abs(dot(f, v)) for v in base) < 1e-6:
        return None
    view = View(seen(base, f), "after a projective map", sheared)
    return view.quality(chirotope, size), view


def refined(quality, view, f, base, chirotope, size):
    """A better view from close by, in which no vector changes its side."""
    sides, step = [dot(f, v) > 0 for v in base], 0.3
    ways = [(x, y, z) for x in (-1, 0, 1) for y in (-1, 0, 1) for z in (-1, 0, 1) if abs(x) + abs(y) + abs(z) == 1]
    while step > 0.004 and quality < 3:
        better = None
        for way in ways:
            g = tuple(x + step * y for x, y in zip(f, way))
            option = option_of(base, g, chirotope, size) if [dot(g, v) > 0 for v in base] == sides else None
            if option and option[0] > quality:
                (quality, view), better = option, g
        f, step = (better, step) if better else (f, step / 2)
    return quality, view


def seen(vectors, f):
    """The vectors with f as their third coordinate, in the same orientation."""
    k = max(range(3), key=lambda i: abs(f[i]))
    i, j = [(1, 2), (2, 0), (0, 1)][k] if f[k] > 0 else [(2, 1), (0, 2), (1, 0)][k]
    return [(v[i], v[j], dot(f, v)) for v in vectors]
