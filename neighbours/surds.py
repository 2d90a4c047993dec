"""surds.py: documents with vectors of numbers a + b sqrt d and a construction that shows that there are no rational
ones (COQ.md), for the filters of irrational vectors.

Such a text is a document of a chirotope of rank 3, and behind it this block:

    surd D                  D is the number under the root
    vector A B A B A B      for each element the numbers A and B of its three coordinates
    basis P Q R S           four elements, no three of them on a line
    meet E P Q R S          E is where the lines P Q and R S meet, of elements that stand in lines before
    on E P Q X              once: E is anywhere on the line P Q, and X isn't on it
    closing P Q R           a triple of value 0 that doesn't follow from these lines
    end

Whether the chirotope has these zeros, and the vectors its signs, isn't asked here. Python's standard library alone.
"""
import math
from collections import namedtuple

import polynomials
from claims import signs_of
from documents import Lines, Reader
from filters import MAX_COORDINATE, Refused, number_of, shown

LENGTHS = {"surd": 1, "vector": 6, "basis": 4, "meet": 5, "on": 4, "closing": 3}
UNITS = ([1], [], []), ([], [1], []), ([], [], [1]), ([1], [1], [1])

# The steps are pairs of a first word and its elements, in their order; the chirotope has the sign -1, 0 or 1 of each
# increasing triple.
Surd = namedtuple("Surd", "document chirotope root vectors steps")


def surd_of(file):
    """The only one of a file."""
    lines = Lines(file)
    rest = iter(lines)
    try:
        words = next(rest, None)
        if words is None:
            raise Refused("the input is empty")
        document = Reader(words, rest, ("chirotope",)).document()
        block = list(lines_of_block(rest, document.elements))
        if next(rest, None) is not None:
            raise Refused("there is more behind the line `end` of the block")
    except Refused as refused:
        raise Refused("line %d: %s" % (lines.number, refused)) from None
    roots, vectors = ([numbers for word, numbers in block if word == kind] for kind in ("surd", "vector"))
    if len(roots) != 1 or len(vectors) != document.elements:
        raise Refused("one line `surd` and %d lines `vector` are wanted, and %d and %d are there" %
                      (document.elements, len(roots), len(vectors)))
    steps = [(word, elements) for word, elements in block if word not in ("surd", "vector")]
    kinds = [word for word, _ in steps]
    if kinds[:1] != ["basis"] or kinds[-1:] != ["closing"] or any(kinds.count(word) != 1
                                                                  for word in ("basis", "on", "closing")):
        raise Refused("a construction has one line `basis`, first, one line `on`, and one line `closing`, last")
    return Surd(document, signs_of(document), roots[0][0], vectors, steps)


def lines_of_block(rest, elements):
    """The lines of the block, each as its first word and its numbers."""
    for word, *written in rest:
        if [word, *written] == ["end"]:
            return
        bounds = {"surd": (2, MAX_COORDINATE), "vector": (-MAX_COORDINATE, MAX_COORDINATE)}.get(word, (1, elements))
        numbers = [number_of(text, *bounds) for text in written]
        if len(numbers) != LENGTHS.get(word) or None in numbers:
            form = "its lines begin with %s" % ", ".join(LENGTHS)
            if word in LENGTHS:
                form = "`%s` has numbers from %d to %d, %d in all" % (word, *bounds, LENGTHS[word])
            raise Refused("entry: the block has no line %s; %s" % (shown(" ".join([word, *written])), form))
        if word == "surd" and math.isqrt(numbers[0]) ** 2 == numbers[0]:
            raise Refused("square: %d is a square, so its root is rational" % numbers[0])
        yield word, numbers
    raise Refused("missing: the input ends before the line `end` of the block")


def value(chirotope, *elements):
    """The sign of three elements in order of their numbers, 0 where one is there twice."""
    return chirotope[tuple(sorted(elements))] if len(set(elements)) == 3 else 0


class Construction:
    """The points of a construction as vectors of polynomials in the place t of the point that is anywhere on its line.
    `before` and `after` have the steps before and behind that point: a line `meet`, the factor that was taken out of
    its vector, and the vector."""

    def __init__(self, chirotope, steps):
        self.chirotope, self.points, self.before, self.after, self.parameter = chirotope, {}, [], [], None
        for number, (word, elements) in enumerate(steps, 1):
            try:
                getattr(self, word)(*elements)
            except Refused as refused:
                raise Refused("%s %s: %s" % (word, " ".join(map(str, elements)), refused)) from None

    def basis(self, *four):
        self.four = four
        for left in range(4):
            if not value(self.chirotope, *four[:left], *four[left + 1:]):
                raise Refused("three of these are on a line")
        self.points.update(zip(four, UNITS))

    def place(self, e, *others):
        """Refuses a point that was placed before, and others that weren't."""
        if e in self.points:
            raise Refused("the element %d was placed before" % e)
        for other in others:
            if other not in self.points:
                raise Refused("the element %d wasn't placed before" % other)

    def meet(self, e, p, q, r, s):
        self.place(e, p, q, r, s)
        if not value(self.chirotope, p, q, r):
            r, s = s, r
        P = self.points
        x, y = polynomials.determinant(P[p], P[q], P[s]), polynomials.determinant(P[p], P[q], P[r])
        vector = [polynomials.add(polynomials.product(x, a), polynomials.negative(polynomials.product(y, b)))
                  for a, b in zip(P[r], P[s])]
        if not any(vector):
            raise Refused("these are one line, or a point and no line")
        factor, self.points[e] = polynomials.without_factor(vector)
        (self.after if self.parameter else self.before).append(((e, p, q, r, s), factor, self.points[e]))

    def on(self, e, p, q, x):
        self.place(e, p, q)
        self.parameter = e, p, q, x
        self.points[e] = [polynomials.add(a, [0] + b if b else []) for a, b in zip(self.points[p], self.points[q])]

    def closing(self, *three):
        self.three = three
        for e in three:
            if e not in self.points:
                raise Refused("the element %d wasn't placed before" % e)
        self.determinant = polynomials.determinant(*(self.points[e] for e in three))
        if value(self.chirotope, *three) or not self.determinant:
            raise Refused("its value isn't 0, or it is 0 for all places by the lines before")

    def equation(self):
        """The polynomial that is left of the closing determinant without the factors that it shares with the
        determinants of triples of other values; these triples; and what times the closing determinant is the
        polynomial times theirs."""
        left, others, rest = self.determinant, [], [1]
        for triple, sign in self.chirotope.items():
            if sign and all(e in self.points for e in triple):
                determinant = polynomials.determinant(*(self.points[e] for e in triple))
                while determinant and len(polynomials.common(left, determinant)) > 1:
                    others.append(triple)
                    rest = polynomials.product(rest, determinant)
                    left = polynomials.divided(left, polynomials.common(left, determinant))[0]
        left = polynomials.primitive(left)
        if len(left) != 3:
            raise Refused("the equation for the place has the degree %d, and not 2" % (len(left) - 1))
        cofactor, _ = polynomials.divided(polynomials.product(left, rest), self.determinant)
        multiple = polynomials.least_multiple(cofactor)
        return [multiple * a for a in left], others, [int(multiple * a) for a in cofactor]


