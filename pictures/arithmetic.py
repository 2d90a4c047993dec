"""arithmetic.py: arithmetic that gives the same bits on every machine.

Pictures are made with + - * / and square roots of floating numbers alone, which IEEE 754 fixes to the last bit. The
sines of C libraries differ, and `sum` of floating numbers and `math.hypot` have changed between versions of Python;
so this page has its own. Points and vectors are tuples. Python's standard library alone.
"""
from math import floor, sqrt

PI = 3.141592653589793


def total(numbers):
    """The sum, added one after the other."""
    result = 0.0
    for number in numbers:
        result += number
    return result


def dot(p, q):
    return total(x * y for x, y in zip(p, q))


def length(p):
    return sqrt(dot(p, p))


def distance(p, q):
    return sqrt((p[0] - q[0]) * (p[0] - q[0]) + (p[1] - q[1]) * (p[1] - q[1]))


def unit(p):
    """The vector of length 1 in the direction of p, which isn't zero."""
    size = length(p)
    return tuple(x / size for x in p)


def cross(p, q):
    """The vector product in space."""
    return p[1] * q[2] - p[2] * q[1], p[2] * q[0] - p[0] * q[2], p[0] * q[1] - p[1] * q[0]


def area(p, q, r):
    """Twice the area of a triangle of the plane, positive where p, q, r turn counterclockwise."""
    return (q[0] - p[0]) * (r[1] - p[1]) - (q[1] - p[1]) * (r[0] - p[0])


def direction(turns):
    """The point of the unit circle that lies so many turns counterclockwise of (1, 0), by the series of sine and
    cosine."""
    angle = 2 * PI * (turns - floor(turns + 0.5))
    x = y = 0.0
    term = 1.0
    for k in range(0, 40, 2):
        x += term
        term *= angle / (k + 1)
        y += term
        term *= -angle / (k + 2)
    return x, y


def sphere(count):
    """So many directions, spread evenly over the sphere on a spiral that turns by the golden angle at each step."""
    x, y = 1.0, 0.0
    turn = direction((3 - sqrt(5)) / 2)
    for k in range(count):
        height = 1 - (2 * k + 1) / count
        radius = sqrt(1 - height * height)
        yield radius * x, radius * y, height
        x, y = x * turn[0] - y * turn[1], x * turn[1] + y * turn[0]
