"""Near vectors of a chirotope of rank 3: vectors of floating-point numbers whose determinants have its signs.

A unit vector for each element moves, from a random one, so that the determinants get their signs. The margin of a
triple is its determinant times its sign. A margin m is pulled up by 1 - m / sqrt(m^2 + w^2), which is nearly 2 where m
is far below 0, and nearly 0 where it is far above. The determinant d of a triple of value 0 is pulled to 0 by
8 d / sqrt(d^2 + w^2 / 4). The width w falls on the way. So at first all triples count, and at last the least margins.

Floating-point numbers are added, subtracted, multiplied and divided here, one at a time, and roots are taken. IEEE 754
fixes the results of these to the last bit. So all machines and all versions of Python find the same vectors.
"""
import itertools
import math

WIDTH = 1.0, 0.003  # at the first step and at the last one
RATE = 0.4, 0.02  # how far a vector moves in a step, about
FAR = 20  # a margin of so many widths isn't pulled
MORE = 20  # steps behind the first one where all margins are positive


def unit(vector):
    """The vector of length 1 in this direction; the zero vector stays."""
    x, y, z = vector
    length = math.sqrt(x * x + y * y + z * z) or 1.0
    return x / length, y / length, z / length


class Climb:
    """Ways to near vectors of n elements, of which the triple a < b < c, counted from 0, has the value
    values[a, b, c]: 1, 0 or -1."""

    def __init__(self, n, values):
        self.n = n
        self.rows = [(a, b, [(c, values[a, b, c]) for c in range(b + 1, n)])
                     for a, b in itertools.combinations(range(n - 1), 2)]

    def near(self, chance, steps):
        """The vectors with the greatest least margin on the way from random ones, or None where no step has all
        margins positive and well above the determinants that should be 0."""
        vectors = [unit([chance.random() - 0.5 for _ in range(3)]) for _ in range(self.n)]
        means, squares = [(0.0, 0.0, 0.0)] * self.n, [0.0] * self.n
        best, greatest, last = None, 0.0, steps
        for step in range(steps):
            if step > last:
                break
            part = step / steps
            root = 1.0 - part + part * math.sqrt(WIDTH[1] / WIDTH[0])
            slopes, margin = self.slopes(vectors, WIDTH[0] * root * root)
            if margin > greatest:
                last = step + MORE if best is None else last
                best, greatest = vectors, margin
            rate = RATE[0] * (1.0 - part) + RATE[1] * part
            moved = [move(*each, rate) for each in zip(vectors, slopes, means, squares)]
            vectors, means, squares = zip(*moved)
        return best

    def slopes(self, vectors, width):
        """The direction in which each vector is pulled, and the least margin. Three times the greatest determinant
        that should be 0 is taken from a positive one."""
        xs, ys, zs = zip(*vectors)
        us, vs, ws = [0.0] * self.n, [0.0] * self.n, [0.0] * self.n
        least, worst, far, square, root = 9.0, 0.0, FAR * width, width * width, math.sqrt
        for a, b, row in self.rows:
            ax, ay, az, bx, by, bz = xs[a], ys[a], zs[a], xs[b], ys[b], zs[b]
            nx, ny, nz = ay * bz - az * by, az * bx - ax * bz, ax * by - ay * bx
            sx = sy = sz = 0.0  # the sum of the third vectors, each times its pull
            for c, value in row:
                x, y, z = xs[c], ys[c], zs[c]
                determinant = nx * x + ny * y + nz * z
                if value:
                    margin = value * determinant
                    if margin < least:
                        least = margin
                    if margin > far:
                        continue
                    pull = 0.5 * value * (1.0 - margin / root(margin * margin + square))
                else:
                    if determinant > worst:
                        worst = determinant
                    elif -determinant > worst:
                        worst = -determinant
                    pull = -4.0 * determinant / root(determinant * determinant + 0.25 * square)
                us[c] += pull * nx
                vs[c] += pull * ny
                ws[c] += pull * nz
                sx += pull * x
                sy += pull * y
                sz += pull * z
            us[a] += by * sz - bz * sy
            vs[a] += bz * sx - bx * sz
            ws[a] += bx * sy - by * sx
            us[b] += sy * az - sz * ay
            vs[b] += sz * ax - sx * az
            ws[b] += sx * ay - sy * ax
        return list(zip(us, vs, ws)), least - 3.0 * worst if least > 0.0 else least


def move(vector, slope, mean, square, rate):
    """A vector after a step, with the mean of its slopes and that of their squares, in which later ones count more. A
    step goes along the mean slope, and is about as long where all slopes are small."""
    (x, y, z), (p, q, r), (u, v, w) = vector, slope, mean
    along = p * x + q * y + r * z
    p, q, r = p - along * x, q - along * y, r - along * z
    u, v, w = 0.9 * u + 0.1 * p, 0.9 * v + 0.1 * q, 0.9 * w + 0.1 * r
    square = 0.99 * square + 0.01 * (p * p + q * q + r * r)
    far = rate / (math.sqrt(square) + 1e-12)
    return unit((x + far * u, y + far * v, z + far * w)), (u, v, w), square
