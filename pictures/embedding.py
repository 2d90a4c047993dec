"""embedding.py: places for the crossings of an arrangement in the disk of radius 1, so that all cells are convex.

The ends of the wires are spread over the circle, and each crossing is put into the middle of its neighbours: then all
cells are convex (Tutte, How to draw a graph, 1963). From there an energy is made less that wants straight wires, round
cells and long edges, and that is infinite before a cell ceases to be convex. Python's standard library alone.
"""
from math import inf, sqrt

from arithmetic import direction
from minimize import descended

# how much straight wires, corners that aren't flat and long edges count
BEND, CORNER, LENGTH = 8.0, 0.08, 0.12
# how far a crossing goes beyond the middle of its neighbours, so that fewer rounds are needed
OVER = 1.6


def places(skeleton):
    """The place of each vertex."""
    start = middles(skeleton)
    energy = Energy(skeleton)
    if energy.of_places(start)[0] == inf:
        return start  # where cells are too flat for floating numbers
    rounds = 140 if skeleton.wires < 13 else 45
    return energy.all_places(descended(energy.of_variables, energy.variables(start), rounds))


def ends(wires):
    """The places of the left ends, from the top counterclockwise, and of the right ones."""
    left = [direction(0.25 + (k + 0.5) / (2 * wires)) for k in range(wires)]
    return left + [(-x, -y) for x, y in left]


def middles(skeleton):
    """Each crossing in the middle of its neighbours, by going over all of them again and again."""
    place = [(0.0, 0.0)] * skeleton.crossings + ends(skeleton.wires)
    near = [[] for _ in place]
    for walk in skeleton.walks:
        for v, w in zip(walk, walk[1:]):
            near[v].append(w)
            near[w].append(v)
    for _ in range(400):
        most = 0.0
        for v in range(skeleton.crossings):
            x = y = 0.0
            for w in near[v]:
                x += place[w][0]
                y += place[w][1]
            here, count = place[v], len(near[v])
            dx, dy = OVER * (x / count - here[0]), OVER * (y / count - here[1])
            place[v] = here[0] + dx, here[1] + dy
            most = max(most, abs(dx), abs(dy))
        if most < 1e-5:
            break
    return place


class Slope:
    """The derivatives of an energy by the coordinates x and y of each vertex."""

    def __init__(self, count):
        self.x, self.y = [0.0] * count, [0.0] * count

    def add_edge(self, p, q, x, y):
        """Adds a derivative x, y by the edge from p to q."""
        self.x[p] -= x
        self.y[p] -= y
        self.x[q] += x
        self.y[q] += y


class Energy:
    """The energy of places, with its gradient. The variables are the coordinates of the crossings, and for each wire
    those of a vector in the direction of its right end."""

    def __init__(self, skeleton):
        self.skeleton = skeleton
        self.corners = []  # three vertices of a cell that follow one another
        for face in skeleton.faces:
            self.corners += zip(face, face[1:] + face[:1], face[2:] + face[:2])
        self.bends = [three for walk in skeleton.walks for three in zip(walk, walk[1:], walk[2:])]
        ring = skeleton.ring()
        self.edges = [pair for walk in skeleton.walks for pair in zip(walk, walk[1:])]
        self.edges += zip(ring, ring[1:] + ring[:1])
        self.mean = 2.6 / (skeleton.wires + 1)  # about how long an edge is

    def variables(self, place):
        chosen = place[:self.skeleton.crossings] + place[self.skeleton.right(0):]
        return [x for point in chosen for x in point]

    def all_places(self, variables):
        points = list(zip(variables[::2], variables[1::2]))
        inside, ahead = points[:self.skeleton.crossings], points[self.skeleton.crossings:]
        right = []
        for x, y in ahead:
            size = sqrt(x * x + y * y)
            right.append((x / size, y / size))
        return inside + [(-x, -y) for x, y in right] + right

    def of_variables(self, variables):
        """The energy and its gradient by the variables."""
        place = self.all_places(variables)
        value, slope = self.of_places(place)
        if value == inf:
            return inf, variables
        crossings = self.skeleton.crossings
        gradient = [x for pair in zip(slope.x[:crossings], slope.y[:crossings]) for x in pair]
        for wire in range(self.skeleton.wires):
            # the ends are opposite, and stay on the circle
            left, right = self.skeleton.left(wire), self.skeleton.right(wire)
            gx, gy = slope.x[right] - slope.x[left], slope.y[right] - slope.y[left]
            x, y = place[right]
            vx, vy = variables[2 * (crossings + wire)], variables[2 * (crossings + wire) + 1]
            outwards, size = gx * x + gy * y, sqrt(vx * vx + vy * vy)
            gradient += [(gx - outwards * x) / size, (gy - outwards * y) / size]
        return value, gradient

    def of_places(self, place):
        """The energy and its slope; inf where a cell isn't convex."""
        slope, value = Slope(len(place)), 0.0
        for part in self.of_corners, self.of_bends, self.of_edges:
            value += part(place, slope)
            if value == inf:
                break
        return value, slope

    def of_corners(self, place, slope):
        """For each corner of a cell one divided by the sine of the angle between its sides, which grows without end
        where the corner becomes flat."""
        value = 0.0
        for p, q, r in self.corners:
            (px, py), (qx, qy), (rx, ry) = place[p], place[q], place[r]
            ax, ay, bx, by = qx - px, qy - py, rx - qx, ry - qy
            turn, aa, bb = ax * by - ay * bx, ax * ax + ay * ay, bx * bx + by * by
            size = sqrt(aa * bb)
            if turn <= 1e-9 * size:
                return inf
            term = CORNER * size / turn
            value += term
            da, db, dt = term / aa, term / bb, term / turn
            slope.add_edge(p, q, da * ax - dt * by, da * ay + dt * bx)
            slope.add_edge(q, r, db * bx + dt * ay, db * by - dt * ax)
        return value

    def of_bends(self, place, slope):
        """For each crossing of a wire the square of the tangent of half the angle by which it turns there."""
        value = 0.0
        for p, q, r in self.bends:
            (px, py), (qx, qy), (rx, ry) = place[p], place[q], place[r]
            ax, ay, bx, by = qx - px, qy - py, rx - qx, ry - qy
            ahead, aa, bb = ax * bx + ay * by, ax * ax + ay * ay, bx * bx + by * by
            size = sqrt(aa * bb)
            both = size + ahead
            if both <= 1e-9 * size:
                return inf
            value += BEND * (size - ahead) / both
            factor = 2 * BEND / (both * both)
            da, db, dd = factor * ahead * size / aa, factor * ahead * size / bb, factor * size
            slope.add_edge(p, q, da * ax - dd * bx, da * ay - dd * by)
            slope.add_edge(q, r, db * bx - dd * ax, db * by - dd * ay)
        return value

    def of_edges(self, place, slope):
        """For each edge, also those between neighbours on the circle, one divided by its length."""
        value = 0.0
        for p, q in self.edges:
            dx, dy = place[q][0] - place[p][0], place[q][1] - place[p][1]
            square = dx * dx + dy * dy
            term = LENGTH * self.mean / sqrt(square)
            value += term
            slope.add_edge(p, q, -term / square * dx, -term / square * dy)
        return value
