"""Short whole-number vectors in the cells of an arrangement.

If an element is in no triple of value 0, its vector may be any one on the right sides of the planes through two other
vectors. These planes bound a cone, the cell of the element. Whole numbers are exact here; what is done in floating
point is as in near.py.
"""
from near import unit


def cross(u, v):
    return u[1] * v[2] - u[2] * v[1], u[2] * v[0] - u[0] * v[2], u[0] * v[1] - u[1] * v[0]


def dot(u, v):
    return u[0] * v[0] + u[1] * v[1] + u[2] * v[2]


def size(vector):
    """The greatest coordinate."""
    return max(map(abs, vector))


def rounded(vector, scale):
    """The vector of whole numbers nearest to the multiple whose greatest coordinate is the scale."""
    most = size(vector)
    return tuple([round(scale * x / most) for x in vector])


def shortened(vectors, values, free):
    """The vectors with those of the free elements, which are in no triple of value 0, in shorter ones of their cells.
    The longest is always tried first, until none gets shorter."""
    vectors, planes = list(vectors), {e: [] for e in free}
    for (a, b, c), value in values.items():
        for e, x, y in (a, b, c), (b, c, a), (c, a, b):
            if e in planes:
                planes[e].append((x, y) if value > 0 else (y, x))
    waiting = list(free)
    while waiting:
        waiting.sort(key=lambda e: size(vectors[e]))
        e = waiting.pop()
        shorter = short([cross(vectors[x], vectors[y]) for x, y in planes[e]], vectors[e])
        if shorter:
            vectors[e], waiting = shorter, [other for other in free if other != e]
    return vectors


def short(normals, vector):
    """A vector shorter than this one, on the positive sides of these normals as this one is, or None. It is sought
    near the multiples of the middle of its cell, and near its own."""
    sides = corners(normals)
    middle = 0.0, 0.0, 0.0
    for corner, _ in sides:
        middle = [x + y for x, y in zip(middle, corner)]
    scale, most = 1, size(vector)
    while sides and scale < most:
        for way in middle, vector:
            found = rounded(way, scale)
            # of the cell the sides are asked first, since they refuse most
            if all([dot(side, found) > 0 for _, side in sides]) and all([dot(side, found) > 0 for side in normals]):
                return found
        scale = max(scale + 1, scale * 51 // 50)
    return None


def corners(normals):
    """The corners of the cone of positive products with these normals, in their order around it, each a unit vector
    with the normal of the side behind it. None where all normals are parallel, as where all other elements are on a
    line; three independent ones are among them else."""
    first = normals[0]
    second = next((normal for normal in normals if any(cross(first, normal))), None)
    if not second:
        return []
    line = cross(first, second)
    third = next(normal for normal in normals if dot(line, normal))
    turn = (first, second, third) if dot(line, third) > 0 else (first, third, second)
    sides = [(unit(cross(turn[k - 1], turn[k])), turn[k]) for k in range(3)]
    for normal in normals:
        inside, cut = [dot(normal, corner) > 0 for corner, _ in sides], []
        if all(inside) or not any(inside):
            continue
        for k, (corner, side) in enumerate(sides):
            after = inside[(k + 1) % len(sides)]
            if inside[k]:
                cut.append((corner, side))
                if not after:
                    cut.append((unit(cross(side, normal)), normal))
            elif after:
                cut.append((unit(cross(normal, side)), side))
        sides = cut
    return sides
