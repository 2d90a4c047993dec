"""roots.py: the numbers a + b sqrt d with fractions a and b, as pairs, for the filters of irrational vectors.

The number d under the root isn't a square. Python's standard library alone.
"""
import itertools
import math
from fractions import Fraction

import polynomials

SQUARES = [k * k for k in range(1000, 1, -1)]


class Field:
    """The numbers with one d."""

    def __init__(self, d):
        self.d = d

    def times(self, x, y):
        return x[0] * y[0] + self.d * x[1] * y[1], x[0] * y[1] + x[1] * y[0]

    def sign(self, x):
        # the greater of a and b sqrt d decides
        part = x[0] if x[0] * x[0] > self.d * x[1] * x[1] else x[1]
        return (part > 0) - (part < 0)

    def value(self, polynomial, x):
        """The value of a polynomial at x."""
        total = 0, 0
        for coefficient in reversed(polynomial):
            a, b = self.times(total, x)
            total = a + coefficient, b
        return total

    def product(self, u, v):
        """The product of two vectors, a number."""
        a, b = zip(*map(self.times, u, v))
        return sum(a), sum(b)

    def cross(self, u, v):
        """The cross product."""
        turned = [[v[k], (-v[j][0], -v[j][1])] for j, k in ((1, 2), (2, 0), (0, 1))]
        return [self.product((u[j], u[k]), pair) for (j, k), pair in zip(((1, 2), (2, 0), (0, 1)), turned)]

    def determinant(self, u, v, w):
        return self.product(u, self.cross(v, w))

    def shortened(self, vector):
        """The shortest of some positive multiples of a vector in whole numbers: times the conjugates of its
        coordinates, and small numbers."""
        best = None
        for x, y in itertools.product([(1, 0)] + [(a, -b) for a, b in vector if (a, b) != (0, 0)],
                                      [(1, 0), (1, 1), (-1, 1), (0, 1)]):
            factor = self.times(x, y)
            numbers = polynomials.primitive([self.sign(factor) * a for z in vector for a in self.times(factor, z)])
            if any(numbers) and (best is None or max(map(abs, numbers)) < max(map(abs, best))):
                best = numbers
        return list(zip(best[::2], best[1::2]))


def quadratic(a, b, c):
    """The field and the two roots of a t^2 + b t + c where they are real and not rational, else nothing."""
    square = b * b - 4 * a * c
    if square < 0 or math.isqrt(square) ** 2 == square:
        return None
    outside = next((k for k in SQUARES if square % k == 0), 1)
    root = Fraction(math.isqrt(outside), 2 * a)
    return Field(square // outside), [(Fraction(-b, 2 * a), root), (Fraction(-b, 2 * a), -root)]
