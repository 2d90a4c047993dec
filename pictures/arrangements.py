"""arrangements.py: arrangements of pseudolines as wiring diagrams, the form in which pictures handle them.

The line at infinity of an arrangement is where its wires begin and end: it is crossed by each of them, and in a disk it
is the boundary, of which opposite points are the same. Python's standard library alone.
"""
from collections import namedtuple
from itertools import combinations

from filters import Refused

# A piece of a cell lies in a gap, from 0 above the first wire to n below the last, between the crossings `left` and
# `right`, of which one is None at infinity; `upper` and `lower` are the crossings on its sides between these.
Piece = namedtuple("Piece", "gap left right upper lower")
# A cell of the projective plane has one piece, or two where infinity cuts it, and the crossings at its corners.
Cell = namedtuple("Cell", "pieces corners")
# A triangle that can be turned over: its three elements and the pieces of its cell.
Mutation = namedtuple("Mutation", "triple pieces")


class Arrangement:
    """Wires that run from left to right, each a pseudoline, with their crossings from left to right.

    Wire k, from 0 on, begins at position k from the top. It is the line of the element `elements[k]`, and runs in the
    element's own direction where `flips[k]` is 1, and against it where this is -1. `blocks` has the first and the last
    position, from 1 on, of each crossing, as in a document. The positive side of a wire is above it, on the left of
    its direction: so for wires a, b, c from the top the sign is + where a and b cross before b and c.
    """

    def __init__(self, elements, flips, blocks):
        self.elements, self.flips, self.blocks, self.size = elements, flips, blocks, len(elements)
        self.paths = [[] for _ in elements]  # the crossings of each wire, from left to right
        self.members = []  # the wires of each crossing, from the top before it
        order = list(range(self.size))
        for crossing, (i, j) in enumerate(blocks):
            wires = order[i - 1:j] if 1 <= i < j <= self.size else []
            if not wires or wires != sorted(wires):
                raise Refused("no wiring: step %d" % (crossing + 1))
            self.members.append(wires)
            for wire in wires:
                self.paths[wire].append(crossing)
            order[i - 1:j] = wires[::-1]
        if order != list(range(self.size))[::-1]:
            raise Refused("no wiring: the last order isn't %d to 1" % self.size)

    def signs(self):
        """The sign of each increasing triple of elements, read off the crossings."""
        when = {}
        for crossing, wires in enumerate(self.members):
            when.update((pair, crossing) for pair in combinations(wires, 2))
        signs = {}
        for a, b, c in combinations(range(self.size), 3):
            sign = (when[b, c] > when[a, b]) - (when[b, c] < when[a, b])
            x, y, z = self.elements[a], self.elements[b], self.elements[c]
            if (x > y) ^ (x > z) ^ (y > z):
                sign = -sign
            signs[tuple(sorted((x, y, z)))] = sign * self.flips[a] * self.flips[b] * self.flips[c]
        return signs

    def cells(self):
        """The cells of the projective plane."""
        gaps = range(self.size + 1)
        pieces, left = [[] for _ in gaps], [None for _ in gaps]
        upper, lower = [[] for _ in gaps], [[] for _ in gaps]
        for crossing, (i, j) in enumerate(self.blocks):
            lower[i - 1].append(crossing)
            upper[j].append(crossing)
            for gap in range(i, j):
                pieces[gap].append(Piece(gap, left[gap], crossing, upper[gap], lower[gap]))
                left[gap], upper[gap], lower[gap] = crossing, [], []
        cells = []
        for gap in gaps:
            pieces[gap].append(Piece(gap, left[gap], None, upper[gap], lower[gap]))
            cells += [[piece] for piece in pieces[gap][1:-1]]
        # what lies at the left end of a gap goes on at the right end of the opposite gap
        cells += [[pieces[gap][0], pieces[self.size - gap][-1]] for gap in gaps[:-1]]
        return [Cell(parts, sorted({crossing for piece in parts for crossing in (
            piece.left, piece.right, *piece.upper, *piece.lower)} - {None})) for parts in cells]

    def mutations(self):
        """The triangles that can be turned over: those with three simple corners. Where all lines but one pass through
        a point, this point may be a corner too."""
        found = []
        for pieces, corners in self.cells():
            if len(corners) == 3:
                sizes = sorted(len(self.members[corner]) for corner in corners)
                if sizes in ([2, 2, 2], [2, 2, self.size - 1]):
                    wires = {wire for corner in corners if len(self.members[corner]) == 2
                             for wire in self.members[corner]}
                    found.append(Mutation(tuple(sorted(self.elements[wire] for wire in wires)), pieces))
        return sorted(found, key=lambda mutation: mutation.triple)

    def moved(self, crossing):
        """The arrangement after infinity moved over a crossing that no other one parts from it; None where another
        one does."""
        i, j = self.blocks[crossing]
        mirrored = self.size + 1 - j, self.size + 1 - i
        others = self.blocks[:crossing] + self.blocks[crossing + 1:]
        if all(self.paths[wire][0] == crossing for wire in self.members[crossing]):
            blocks = others + [mirrored]
        elif all(self.paths[wire][-1] == crossing for wire in self.members[crossing]):
            i, j = mirrored
            blocks = [mirrored] + others
        else:
            return None
        elements, flips = self.elements[:], self.flips[:]
        elements[i - 1:j], flips[i - 1:j] = elements[i - 1:j][::-1], flips[i - 1:j][::-1]
        return Arrangement(elements, flips, blocks)
