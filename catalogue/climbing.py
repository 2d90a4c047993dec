"""Climbs to vectors of a chirotope of rank 3: near vectors (near.py), a construction beside them (constructions.py),
and its vectors made shorter (cells.py).

Loops and parallel elements are put aside first. A loop gets the zero vector, and an element that is parallel to one
before it gets the vector of that one or the negative.
"""
import itertools
import random

import graphs
import shared
from constructions import Constructions, have_values, pencil
from near import Climb

VALUES = {"+": 1, "0": 0, "-": -1}


class Climber:
    """Climbs for one chirotope on n elements, given by its signs. Of signs that break the axioms there are no vectors,
    and so none are found."""

    def __init__(self, n, signs, seed):
        self.signs, self.seed = signs, seed
        self.values = dict(zip(shared.triples(n), map(VALUES.get, signs)))
        # for each element the first one that is parallel to it, itself as a rule, with the sign between them
        self.like, seen = [], {"0" * (n * (n - 1) // 2): None}
        for e, column in enumerate(map("".join, zip(*graphs.rows(n, signs)))):
            if column not in seen:
                seen[column], seen[column.translate(graphs.NEGATIVE)] = (e, 1), (e, -1)
            self.like.append(seen[column])
        self.kept = [e for e in range(n) if self.like[e] == (e, 1)]
        values = {places: self.values[tuple([self.kept[k] for k in places])]
                  for places in itertools.combinations(range(len(self.kept)), 3)}
        self.near = Climb(len(self.kept), values)
        self.constructions = Constructions(len(self.kept), values)

    def vectors(self, number, steps):
        """The vectors of a climb, or None. Its chance depends on the chirotope, the number and the seed alone."""
        found = self.vectors_of_kept(random.Random("%s %d %s" % (self.seed, number, self.signs)), steps)
        if not found:
            return None
        vector = dict(zip(self.kept, found))
        vectors = [tuple([like[1] * x for x in vector[like[0]]]) if like else (0, 0, 0) for like in self.like]
        return vectors if have_values(vectors, self.values) else None

    def vectors_of_kept(self, chance, steps):
        """The same for the elements that weren't put aside."""
        n, lines = len(self.kept), self.constructions.lines
        if n < 3:
            return None
        if lines and len(lines[0]) == n - 1:
            return pencil(n, self.constructions.values, lines[0])
        near = self.near.near(chance, steps)
        return near and self.constructions.vectors(near, chance)
