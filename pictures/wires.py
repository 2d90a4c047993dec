"""wires.py: a wiring diagram as smooth curves.

All wires of a crossing meet in its middle. Each curve is monotone between two points, so that no other crossings come
up. Python's standard library alone.
"""
from math import sqrt

from arrangements import Piece
from svg import Box, Curve, Picture, box_of_words, colour, dot, filled, line, text, width_of

# a third of half a column is a whole number, and so are most coordinates
ROW, COLUMN = 24, 36


class Step:
    """A wire's way through a crossing: from the place before it to the place behind it, in its column."""

    def __init__(self, crossing, left, right, before, behind, simple):
        self.crossing, self.simple = crossing, simple
        self.start, self.end = (left, before * ROW), (right, behind * ROW)
        self.slope = (behind - before) * ROW / (right - left)


class Wiring:
    """An arrangement with the curves of its wires: `curves` has for each wire a list for each stretch from one crossing
    to the next, from the left end to the right end, and `middles` has the places of the crossings."""

    def __init__(self, arrangement):
        self.arrangement = arrangement
        blocks, columns = arrangement.blocks, columns_of(arrangement.blocks)
        widths = [COLUMN] * (max(columns, default=-1) + 1)
        for (i, j), column in zip(blocks, columns):
            widths[column] = max(widths[column], 6 * round(COLUMN * sqrt(j - i + 1) / 7))
        lefts = [0.5 * COLUMN]
        for width in widths:
            lefts.append(lefts[-1] + width)
        self.width = lefts[-1] + 0.5 * COLUMN
        self.middles = [((lefts[column] + lefts[column + 1]) / 2, (i + j - 2) / 2 * ROW)
                        for (i, j), column in zip(blocks, columns)]
        self.curves = []
        for wire, path in enumerate(arrangement.paths):
            steps, position = [], wire
            for crossing in path:
                (i, j), column = blocks[crossing], columns[crossing]
                behind = i + j - 2 - position
                steps.append(Step(crossing, lefts[column], lefts[column + 1], position, behind, j - i == 1))
                position = behind
            self.curves.append(self.stretches(steps, wire, position))

    def stretches(self, steps, first, last):
        """The curves of a wire between its crossings, from its first position to its last."""
        # level between two crossings, save where a wire goes the same way through both of them
        slopes = [0.0] + [min(one.slope, other.slope, key=abs) if goes_on(one, other) else 0.0
                          for one, other in zip(steps, steps[1:])] + [0.0]
        stretches, here = [[]], (0.0, first * ROW)
        for step, before, behind in zip(steps, slopes, slopes[1:]):
            if here[0] < step.start[0]:
                stretches[-1].append(Curve((here, step.start)))
            steep = 1.5 * step.slope - 0.25 * (before + behind)
            stretches[-1].append(cubic(step.start, self.middles[step.crossing], before, steep))
            stretches.append([cubic(self.middles[step.crossing], step.end, steep, behind)])
            here = step.end
        stretches[-1].append(Curve((here, (self.width, last * ROW))))
        return stretches

    def whole(self, wire):
        """All curves of a wire, one after the other."""
        return [curve for stretch in self.curves[wire] for curve in stretch]

    def side(self, position, piece):
        """The curves at a position, from 0 on from the top, along a piece of a cell."""
        order, inside, curves = list(range(self.arrangement.size)), piece.left is None, []
        if inside:
            curves += self.curves[position][0]
        for crossing, (i, j) in enumerate(self.arrangement.blocks):
            order[i - 1:j] = order[i - 1:j][::-1]
            if i <= position + 1 <= j:
                inside = crossing == piece.left or inside and crossing != piece.right
                if inside:
                    wire = order[position]
                    curves += self.curves[wire][self.arrangement.paths[wire].index(crossing) + 1]
        return curves

    def outline(self, piece: Piece):
        """The border of a piece of a cell: its upper side, and back on its lower side."""
        size = self.arrangement.size
        upper = self.side(piece.gap - 1, piece) if piece.gap > 0 else self.level(-0.8)
        lower = self.side(piece.gap, piece) if piece.gap < size else self.level(size - 0.2)
        back = [curve.turned() for curve in lower[::-1]]
        end, start = upper[-1].points[-1], back[0].points[0]
        return upper + ([Curve((end, start))] if end != start else []) + back

    def level(self, row):
        """A level line over the whole width, above all wires or below them."""
        return [Curve(((0, row * ROW), (self.width, row * ROW)))]


def goes_on(one, other):
    """Whether a wire goes straight on from a simple crossing into the next column."""
    return one.end[0] == other.start[0] and one.simple and other.simple and one.slope * other.slope > 0


def columns_of(blocks):
    """The column of each crossing: the first one in which no earlier crossing touches its positions."""
    free, columns = {}, []
    for i, j in blocks:
        column = max(free.get(position, 0) for position in range(i, j + 1))
        columns.append(column)
        free.update((position, column + 1) for position in range(i, j + 1))
    return columns


def cubic(p, q, before, behind):
    """The cubic from p to q that begins and ends with these slopes."""
    third = (q[0] - p[0]) / 3
    return Curve((p, (p[0] + third, p[1] + third * before), (q[0] - third, q[1] - third * behind), q))


def drawn(arrangement, names, size, stroke, triples=()):
    """The picture of an arrangement as a wiring diagram. `names` has the words at the ends of each wire, and the
    mutations with these triples are filled."""
    wiring = Wiring(arrangement)
    body = [filled(wiring.outline(piece)) for mutation in arrangement.mutations() if mutation.triple in triples
            for piece in mutation.pieces]
    labels, box = [], Box(0, -ROW / 2, wiring.width, (arrangement.size - 0.5) * ROW)
    for wire, element in enumerate(arrangement.elements):
        body.append(line(wiring.whole(wire), element, stroke))
        last = arrangement.size - 1 - wire
        half = width_of(names[element], size) / 2 + 0.6 * size
        for place, anchor, side in ((-0.6 * size, wire * ROW), "end", -half), ((wiring.width + 0.6 * size, last * ROW),
                                                                               "start", wiring.width + half):
            labels.append(text(place, names[element], size, colour(element), anchor))
            box = box.with_box(box_of_words((side, place[1]), names[element], size))
    body += [dot(wiring.middles[crossing], 1.8 * stroke) for crossing, wires in enumerate(arrangement.members)
             if len(wires) > 2]
    return Picture(body + labels, box.wider(size / 4))
