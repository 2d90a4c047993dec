"""polynomials.py: polynomials in one letter with whole coefficients, for the filters of irrational vectors.

A polynomial is the list of its coefficients, that of the constant first and the last one not 0. Python's standard
library alone.
"""
import functools
import itertools
import math
from fractions import Fraction


def trimmed(p):
    """A polynomial without the zeros at its end."""
    while p and not p[-1]:
        p = p[:-1]
    return p


def add(p, q):
    return trimmed([a + b for a, b in itertools.zip_longest(p, q, fillvalue=0)])


def negative(p):
    return [-a for a in p]


def product(p, q):
    coefficients = [0] * (len(p) + len(q))
    for i, a in enumerate(p):
        for j, b in enumerate(q):
            coefficients[i + j] += a * b
    return trimmed(coefficients)


def divided(p, q):
    """The quotient and the remainder, with fractions as coefficients."""
    p, quotient = [Fraction(a) for a in p], []
    while len(p) >= len(q):
        quotient.append(p[-1] / q[-1])
        shifted = [0] * (len(p) - len(q)) + [quotient[-1] * b for b in q]
        p = [a - b for a, b in zip(p, shifted)][:-1]
    return trimmed(quotient[::-1]), trimmed(p)


def least_multiple(fractions):
    """The least positive whole number whose product with each fraction is whole."""
    return functools.reduce(lambda m, a: m * a.denominator // math.gcd(m, a.denominator), map(Fraction, fractions), 1)


def divisor(numbers):
    """The greatest common divisor of whole numbers, 0 where all are 0."""
    return functools.reduce(math.gcd, numbers, 0)


def primitive(p):
    """The multiple by a positive fraction whose coefficients are whole and have no common divisor."""
    multiple = least_multiple(p)
    whole = [int(a * multiple) for a in p]
    return [a // (divisor(whole) or 1) for a in whole]


def common(p, q):
    """The greatest common divisor of two polynomials."""
    return common(q, divided(p, q)[1]) if q else primitive(p)


def determinant(u, v, w):
    total = []
    for i, j, k in (0, 1, 2), (1, 2, 0), (2, 0, 1):
        total = add(total, product(u[i], add(product(v[j], w[k]), negative(product(v[k], w[j])))))
    return total


def without_factor(vector):
    """A factor and a vector of polynomials without common divisor, whose product is this vector."""
    factor = functools.reduce(common, vector)
    parts = [[int(a) for a in trimmed(divided(p, factor)[0])] for p in vector]
    number = divisor([a for p in parts for a in p])
    return [number * a for a in factor], [[a // number for a in p] for p in parts]
