"""infinity.py: a line at infinity for a chirotope of rank 3, so that it becomes a wiring diagram.

Each chirotope of rank 3 without loops and parallel elements can be swept. Let the line at infinity be its extension by
a basis e, f, g, which lies close to e and is turned a little: its sign with a and b is the first of the signs of
a, b, e and a, b, f and a, b, g that isn't 0. Reorient the elements so that each is on one side of the first, and sort
them: the wires come in this order, and each crosses the others in the order that the signs tell. Then infinity moves
over crossings to where it cuts no small cell. Python's standard library alone.
"""
from functools import cmp_to_key
from itertools import combinations

from arrangements import Arrangement
from filters import Refused

NO_CHIROTOPE = "the signs aren't a chirotope: `om accept` names the violated instance"
# how many bases infinity begins at, how many arrangements it goes on from at a time, and how much it looks at
STARTS, FRONT, BUDGET = 10, 3, 4000


def arrangement_of(chirotope):
    """An arrangement of a chirotope without loops and parallel elements, with infinity in a good place."""
    best = None
    for basis in bases(chirotope):
        found = swept(chirotope, lambda a, b, basis=basis: first_sign(chirotope.value(a, b, e) for e in basis))
        if best is None or score(found) > score(best):
            best = found
    if best is None:
        raise Refused("all values are zero")
    return checked(improved(best), chirotope)


def arrangement_in_order(chirotope):
    """The arrangement of which the wires are the elements in their order and orientation; None where it can't be
    swept so."""
    try:
        found = swept(chirotope, lambda a, b: 1 if a < b else -1)
    except Refused:
        return None
    return found if found.signs() == chirotope.signs else None


def arrangement_like(chirotope, other):
    """The arrangement with the wires of another one from the top, each in the same direction; None where it can't be
    swept so."""
    place = {e: (k, flip) for k, (e, flip) in enumerate(zip(other.elements, other.flips))}
    if set(place) != set(chirotope.elements):
        return None

    def with_infinity(a, b):
        (k, flip), (m, turned) = place[a], place[b]
        return flip * turned * (1 if k < m else -1)
    try:
        found = swept(chirotope, with_infinity)
    except Refused:
        return None
    return found if found.signs() == chirotope.signs else None


def checked(arrangement, chirotope):
    """The arrangement, where it has the signs of the map; a map that is no chirotope is refused."""
    if arrangement.signs() != chirotope.signs:
        raise Refused(NO_CHIROTOPE)
    return arrangement


def bases(chirotope):
    """For each element, as far as STARTS, the first basis that begins with it."""
    for e in chirotope.elements[:STARTS]:
        others = combinations(chirotope.elements, 2)
        basis = next(((e, f, g) for f, g in others if chirotope.value(e, f, g)), None)
        if basis:
            yield basis


def first_sign(signs):
    return next(filter(None, signs), 0)


def swept(chirotope, with_infinity):
    """The arrangement as it is seen from a line at infinity, whose sign with two elements is given. Refused where
    these signs can't be swept."""
    first, *others = chirotope.elements
    flip = {first: 1}
    flip.update((e, with_infinity(first, e)) for e in others)
    elements = sorted(flip, key=cmp_to_key(lambda a, b: -flip[a] * flip[b] * with_infinity(a, b)))
    flips = [flip[e] for e in elements]
    size, order, blocks = len(elements), list(range(len(elements))), []
    # the crossings that each wire has still before it, the next one at the end
    ahead = [crossings_of(wire, elements, flips, chirotope)[::-1] for wire in order]
    while any(ahead):
        for i in range(size - 1):
            block = ahead[order[i]][-1] if ahead[order[i]] else ()
            j = i + len(block)
            if block and tuple(order[i:j]) == block and all(ahead[w] and ahead[w][-1] == block for w in block):
                blocks.append((i + 1, j))
                order[i:j] = block[::-1]
                for wire in block:
                    ahead[wire].pop()
                break
        else:
            raise Refused(NO_CHIROTOPE)
    return Arrangement(elements, flips, blocks)


def crossings_of(wire, elements, flips, chirotope):
    """The crossings of a wire from left to right, each as the wires that meet there from the top down."""
    def compare(x, y):
        a, b, c = sorted((wire, x, y))
        sign = flips[a] * flips[b] * flips[c] * chirotope.value(elements[a], elements[b], elements[c])
        # with + the pairs cross in the order ab, ac, bc, with - in the order bc, ac, ab, and with 0 at once
        return -sign if x < y else sign
    crossings = []
    for other in sorted(set(range(len(elements))) - {wire}, key=cmp_to_key(compare)):
        if crossings and compare(crossings[-1][0], other) == 0:
            crossings[-1].append(other)
        else:
            crossings.append([other])
    return [tuple(sorted(crossing + [wire])) for crossing in crossings]


def score(arrangement):
    """How well infinity is chosen: the greater the cells are that it cuts, the better."""
    sizes = [len(cell.corners) for cell in arrangement.cells() if len(cell.pieces) == 2]
    return sum(min(size, 6) - 5 * (size < 4) for size in sizes)


def improved(arrangement):
    """Moves infinity over crossings as long as the score grows, and looks some steps further."""
    best, most = arrangement, score(arrangement)
    seen, front, looks, patience = {key_of(arrangement)}, [arrangement], BUDGET // arrangement.size ** 2, 12
    while front and looks > 0 and patience > 0:
        steps = []
        for old in front:
            for crossing in range(len(old.blocks)):
                new = old.moved(crossing)
                if new is not None and key_of(new) not in seen:
                    seen.add(key_of(new))
                    steps.append((-score(new), len(steps), new))
        looks -= len(steps)
        patience -= 1
        front = [new for _, _, new in sorted(steps)[:FRONT]]
        if front and score(front[0]) > most:
            best, most, patience = front[0], score(front[0]), 12
    return best


def key_of(arrangement):
    """The place of infinity: the order of the wires with their directions."""
    return tuple(zip(arrangement.elements, arrangement.flips))
