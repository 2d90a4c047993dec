"""skeleton.py: an arrangement in a disk as a plane graph, without places. Python's standard library alone."""


class Skeleton:
    """The graph of an arrangement of which the wires begin and end on a circle.

    Its vertices are numbers: first the crossings, then the left ends of the wires, and then their right ends, opposite
    to them. Counterclockwise from the top of the circle come the left ends from the first wire to the last, and then
    the right ones. `walks` has the vertices of each wire from left to right. `faces` has a cycle of vertices,
    counterclockwise, for each of the `pieces` of cells; two ends that follow one another in it are joined by a part of
    the circle.
    """

    def __init__(self, arrangement):
        self.arrangement, self.wires, self.crossings = arrangement, arrangement.size, len(arrangement.blocks)
        self.walks = [[self.left(wire), *path, self.right(wire)] for wire, path in enumerate(arrangement.paths)]
        self.pieces = [piece for cell in arrangement.cells() for piece in cell.pieces]
        self.faces = [self.around(piece) for piece in self.pieces]

    def left(self, wire):
        return self.crossings + wire

    def right(self, wire):
        return self.crossings + self.wires + wire

    def is_end(self, vertex):
        return vertex >= self.crossings

    def opposite(self, end):
        """The other end of a wire."""
        return end + self.wires if end < self.crossings + self.wires else end - self.wires

    def ring(self):
        """The ends around the circle."""
        return list(range(self.crossings, self.crossings + 2 * self.wires))

    def around(self, piece):
        """The vertices of a piece: from its left end along its lower side, and back along its upper side."""
        gap, upper, lower = piece.gap, list(piece.upper), list(piece.lower)
        # the wires at the positions gap and gap + 1, of which one is missing above all wires and below them
        if piece.left is None:
            upper[:0] = [self.left(gap - 1)] if gap > 0 else []
            lower[:0] = [self.left(gap)] if gap < self.wires else []
        if piece.right is None:
            upper += [self.right(self.wires - gap)] if gap > 0 else []
            lower += [self.right(self.wires - gap - 1)] if gap < self.wires else []
        first = [] if piece.left is None else [piece.left]
        last = [] if piece.right is None else [piece.right]
        return first + lower + last + upper[::-1]
