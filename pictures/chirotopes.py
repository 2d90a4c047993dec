"""chirotopes.py: what a picture asks of a chirotope of rank 3. Python's standard library alone."""
from itertools import combinations


class Chirotope:
    """A map of triples to -1, 0 and 1, given on the increasing triples of its elements. Whether it meets the axioms
    isn't asked here."""

    def __init__(self, signs, elements):
        self.elements = sorted(elements)
        self.signs = {triple: signs[triple] for triple in combinations(self.elements, 3)}
        self.values = {}
        for (a, b, c), sign in self.signs.items():
            for x, y, z in (a, b, c), (b, c, a), (c, a, b):
                self.values[x, y, z] = sign
                self.values[y, x, z] = -sign

    def value(self, a, b, c):
        """The sign of any three elements, 0 where two of them are the same."""
        return self.values.get((a, b, c), 0)

    def is_zero(self):
        return not any(self.signs.values())

    def restricted(self, elements):
        """The same map on some of the elements."""
        return Chirotope(self.signs, elements)

    def loops(self):
        """The elements that are in no triple with a sign."""
        used = {e for triple, sign in self.signs.items() if sign for e in triple}
        return [e for e in self.elements if e not in used]

    def classes(self):
        """The elements that aren't loops, in classes of parallel ones. A class has pairs of an element and a factor:
        1, or -1 where the element is opposite to the first of its class."""
        loops, classes = set(self.loops()), []
        for e in self.elements:
            if e in loops:
                continue
            for members in classes:
                first = members[0][0]
                if not any(self.value(first, e, x) for x in self.elements):
                    members.append((e, self.factor(first, e)))
                    break
            else:
                classes.append([(e, 1)])
        return classes

    def factor(self, first, e):
        """1 or -1, by which the signs of e are those of the parallel element `first`."""
        pairs = combinations(self.elements, 2)
        return next((self.value(first, x, y) * self.value(e, x, y) for x, y in pairs
                     if self.value(first, x, y) and self.value(e, x, y)), 1)

    def crossings(self):
        """The sets of lines through each point in which lines meet, where no two elements are parallel: the flats of
        rank 2, in order."""
        found = set()
        for a, b in combinations(self.elements, 2):
            found.add(tuple(c for c in self.elements if c in (a, b) or not self.value(a, b, c)))
        return sorted(found)
