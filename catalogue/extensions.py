"""Extensions of a chirotope of rank 3 by one element: from the listing of `extend` to those that a catalogue needs.

A catalogue needs those without loops and parallel elements. Of two opposite signatures, which differ only in the
orientation of the new element, the first one is taken. An extension is passed over if its new element has a lesser
weight than an old one. The weight of an element is how many triples with it have the value 0, and then how many are
uncut (below). Neither changes with names and orientations, so nothing is lost: each class has a chirotope whose last
element has the greatest weight. The last element isn't a coloop, since a coloop is in no triple with 0, and the other
elements, more than two on a line, are in some. So without it the rank is 3, the rest is of a class on one element
less, and the extension is listed with that class.
"""
import functools
import itertools
import operator

import graphs
import shared


class Parent:
    """A chirotope that is extended, and what its extensions share."""

    def __init__(self, number, n, signs):
        self.n, self.signs = n, signs
        pairs = list(itertools.combinations(range(n), 2))
        self.with_element = [sum(1 << len(pairs) - 1 - k for k, pair in enumerate(pairs) if e in pair)
                             for e in range(n)]
        columns = ["".join(column) for column in zip(*graphs.rows(n, signs))]
        self.parallel = set(columns) | {column.translate(graphs.NEGATIVE) for column in columns}
        if len(self.parallel) < 2 * n or "0" * len(pairs) in self.parallel:
            raise shared.Refused("document %d: it has a loop or parallel elements" % number)
        self.zeros = [column.count("0") - (n - 1) for column in columns]
        # the values of n + 1 elements are picked from those of n and the signature
        old = {triple: k for k, triple in enumerate(shared.triples(n))}
        old.update(((a, b, n), len(signs) + k) for k, (a, b) in enumerate(pairs))
        self.pick = operator.itemgetter(*(old[triple] for triple in shared.triples(n + 1)))

    def extensions(self, listing, uniform):
        """The extensions of a listing whose new element has the greatest weight, one of each two opposite ones."""
        most = max(self.zeros)
        # signatures are sorted, so those before the middle one, all 0, are those whose first sign that isn't 0 is minus
        for signature in listing[: len(listing) // 2]:
            zeros = signature.count("0")
            if zeros < most or (uniform and zeros) or (zeros and signature in self.parallel):
                continue
            rivals = self.rivals(signature, zeros)
            if rivals is None:
                continue
            signs = "".join(self.pick(self.signs + signature))
            if rivals:
                weights = uncut(self.n + 1, signs)
                if weights[self.n] < max(weights[e] for e in rivals):
                    continue
            yield signs

    def rivals(self, signature, zeros):
        """The old elements in as many triples with 0 as the new one, or None where one is in more."""
        if not zeros:
            return range(self.n)
        mask = int(signature.replace("-", "+").replace("0", "1").replace("+", "0"), 2)
        counts = [self.zeros[e] + bin(mask & self.with_element[e]).count("1") for e in range(self.n)]
        return None if max(counts) > zeros else [e for e in range(self.n) if counts[e] == zeros]


@functools.lru_cache(None)
def lines_of_triples(n):
    """For each triple the places of its three pairs, and the triple."""
    place = {pair: k for k, pair in enumerate(itertools.combinations(range(n), 2))}
    return [(place[a, b], place[a, c], place[b, c], (a, b, c)) for a, b, c in shared.triples(n)]


def uncut(n, signs):
    """For each element how many triples a, b, c with it are uncut: those for which (a,b,d)(a,c,d) is one sign for all
    d off the lines of a and b, of a and c and of b and c, and so is (a,b,d)(b,c,d). In an arrangement of pseudolines
    they bound a triangle that no other line meets. Neither names nor orientations matter: another orientation of d
    turns both factors, one of a all the products."""
    text = "".join(graphs.rows(n, signs))
    plus, off = text.replace("-", "0").replace("+", "1"), text.replace("-", "1").replace("+", "1")
    plus = [int(plus[k : k + n], 2) for k in range(0, len(plus), n)]
    off = [int(off[k : k + n], 2) for k in range(0, len(off), n)]
    counts = [0] * n
    for ab, ac, bc, triple in lines_of_triples(n):
        there = off[ab] & off[ac] & off[bc]
        turned = (plus[ab] ^ plus[ac]) & there
        if (not turned or turned == there) and (plus[ab] ^ plus[bc]) & there in (0, there):
            for e in triple:
                counts[e] += 1
    return counts
