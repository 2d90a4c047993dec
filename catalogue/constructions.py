"""Whole-number vectors with exactly the values of a chirotope of rank 3, from near ones.

A construction puts one element after the other. One that is on two lines through elements before it is computed from
these. One that is on one line is put there, and any other one anywhere, near its near vector and by small numbers. So
the triples of value 0 that the construction uses have exactly 0. Where the others don't follow from them, another
construction may do, or other numbers.

If there are values 0, four elements of which no three are on a line get the vectors 1 0 0, 0 1 0, 0 0 1 and 1 1 1
first, where there are such four: so the numbers become small. There are none only on three elements and where all but
one are on a line. Such a line needs no near vectors. Whole numbers and fractions are exact here; what is done in
floating point is as in near.py.
"""
import functools
import itertools
import math
from fractions import Fraction

from cells import cross, dot, rounded, shortened, size

SCALES = 1, 2, 3, 4, 6, 8, 12, 16, 24, 40, 80, 200, 1000, 10000
TRIES = 20
MOST = 2**40  # the greatest coordinate of a claim
BASIS = (1, 0, 0), (0, 1, 0), (0, 0, 1), (1, 1, 1)


class Constructions:
    """Constructions of a chirotope on n elements without loops and parallel elements, whose values are as in near.py.
    """

    def __init__(self, n, values):
        self.n, self.values = n, values
        zeros = [triple for triple, value in values.items() if not value]
        on = {pair: set(pair) for pair in itertools.combinations(range(n), 2)}
        for triple in zeros:
            for pair in itertools.combinations(triple, 2):
                on[pair].update(triple)
        self.lines = sorted({tuple(sorted(line)) for line in on.values() if len(line) > 2})
        self.free = sorted(set(range(n)).difference(*zeros))
        self.bases = [four for four in itertools.combinations(range(n), 4)
                      if self.lines and all(values[triple] for triple in itertools.combinations(four, 3))] or [()]

    def vectors(self, near, chance):
        """Vectors with all values, the shortest that some constructions give, or None."""
        found = []
        for _ in range(TRIES if self.lines else 1):
            basis, order = self.plan(chance)
            moved = in_basis([near[e] for e in basis], near)
            vectors = (self.placed(basis, order, moved, scale) for scale in SCALES if moved)
            found.extend(itertools.islice(filter(None, vectors), 1))
        best = min(found, key=lambda vectors: max(map(size, vectors)), default=None)
        return best and shortened(best, self.values, self.free)

    def plan(self, chance):
        """A basis, and the other elements in an order, each with up to two pairs of elements before it: it is on the
        lines through these. An element that is on two lines comes before one that is on one, and this before others."""
        def pick(items):
            return items[int(len(items) * chance.random())]

        basis, order = pick(self.bases), []
        placed = set(basis)
        while len(placed) < self.n:
            there = [(line, [e for e in line if e in placed]) for line in self.lines]
            ways = {e: [before for line, before in there if e in line and len(before) > 1]
                    for e in range(self.n) if e not in placed}
            most = min(2, max(map(len, ways.values())))
            e = pick([e for e in ways if len(ways[e]) >= most])
            pairs = []
            for _ in range(most):
                line = ways[e].pop(int(len(ways[e]) * chance.random()))
                first = pick(line)
                pairs.append((first, pick([other for other in line if other != first])))
            order.append((e, pairs))
            placed.add(e)
        return basis, order

    def placed(self, basis, order, near, scale):
        """Vectors by a construction with numbers as fine as the scale, or None where some value isn't right."""
        vectors = [None] * self.n
        for e, vector in zip(basis, BASIS):
            vectors[e] = vector
        for e, pairs in order:
            ends = [(vectors[a], vectors[b]) for a, b in pairs]
            if len(ends) == 2:
                vector = cross(cross(*ends[0]), cross(*ends[1]))
            elif ends:
                vector = on_line(*ends[0], near[e], scale)
            else:
                vector = rounded(near[e], scale)
            divisor = functools.reduce(math.gcd, vector)
            if not divisor or size(vector) > MOST * divisor:
                return None
            vectors[e] = tuple([x // divisor for x in vector])
        vectors = [vector if dot(vector, close) > 0 else tuple([-x for x in vector])
                   for vector, close in zip(vectors, near)]
        return vectors if have_values(vectors, self.values) else None


def pencil(n, values, line):
    """The vectors of a chirotope whose elements but one are on a line, short ones with this one as 0 0 1."""
    alone, = set(range(n)).difference(line)

    def turn(a, b):
        """The value of the one, a and b."""
        return values[tuple(sorted((alone, a, b)))] * (-1) ** ((alone > a) + (alone > b) + (a > b))

    first, *others = line
    # in the orientation where they follow the first one, an element of the line follows those on whose right it is
    after = {b: sum([turn(c, b) * turn(first, b) * turn(first, c) > 0 for c in others if c != b]) for b in others}
    vectors = {alone: (0, 0, 1), first: (1, 0, 0)}
    for b in others:
        vectors[b] = tuple([turn(first, b) * x for x in (len(others) // 2 - after[b], 1, 0)])
    return [vectors[e] for e in range(n)]


def have_values(vectors, values):
    """Whether all determinants have their values as signs."""
    for (a, b, c), value in values.items():
        determinant = dot(cross(vectors[a], vectors[b]), vectors[c])
        if (determinant > 0) - (determinant < 0) != value:
            return False
    return True


def in_basis(basis, near):
    """The near vectors in coordinates in which those of the basis are positive or negative multiples of 1 0 0, 0 1 0,
    0 0 1 and 1 1 1, by a map of positive determinant; None where there is none, and the same ones without a basis."""
    if not basis:
        return near
    a, b, c, d = basis
    planes = cross(b, c), cross(c, a), cross(a, b)
    scales = [dot(d, plane) for plane in planes]
    turn = scales[0] * scales[1] * scales[2]
    if not turn:
        return None
    scales = scales if turn > 0 else [-scale for scale in scales]
    return [tuple([dot(vector, plane) / scale for plane, scale in zip(planes, scales)]) for vector in near]


def on_line(p, q, near, scale):
    """A combination of p and q near a vector, by the fraction of two whole numbers up to the scale that is nearest to
    the quotient of the coefficients."""
    pp, pq, qq, np, nq = dot(p, p), dot(p, q), dot(q, q), dot(near, p), dot(near, q)
    x, y = np * qq - nq * pq, nq * pp - np * pq
    if abs(x) < abs(y):
        p, q, x, y = q, p, y, x
    part = Fraction(y / x if x else 0).limit_denominator(scale)
    return tuple([part.denominator * i + part.numerator * j for i, j in zip(p, q)])
