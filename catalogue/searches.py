"""Searches for vectors of a chirotope of rank 3 on other names and orientations, and a line that says how far they are.
"""
import collections
import functools
import itertools
import operator
import os
import random
import sys
import time

import shared
from graphs import NEGATIVE


@functools.lru_cache(None)
def places(n):
    """For each triple, ordered in any way, the place of its value among the signs and, behind them, the negated
    signs."""
    known, count = {}, len(shared.triples(n))
    for k, triple in enumerate(shared.triples(n)):
        for j, order in enumerate(itertools.permutations(triple)):
            known[order] = k + count if j in (1, 2, 5) else k
    return known


@functools.lru_cache(None)
def move(n, number, seed):
    """The names of a try: element k is the old element order[k], negated where flips[k] is true; and what picks the
    signs under these names. The first tries move the elements a little, later ones more and more."""
    chance, count = random.Random("%s %d %d" % (seed, n, number)), len(shared.triples(n))
    order = sorted(range(n), key=[e + (2 + 2 * number) * chance.random() for e in range(n)].__getitem__)
    flips = [chance.random() < 0.5 for _ in range(n)]
    turned = [count * (flips[a] ^ flips[b] ^ flips[c]) for a, b, c in shared.triples(n)]
    renamed = itertools.combinations(order, 3)
    picks = [(places(n)[triple] + turn) % (2 * count) for triple, turn in zip(renamed, turned)]
    return order, flips, operator.itemgetter(*picks)


class Search:
    """Tries for one chirotope. Elements in more triples with the value 0 are put before others: they leave fewer
    choices, and a search that places them late goes back often."""

    def __init__(self, n, signs, seed):
        self.n, self.seed = n, seed
        zeros = [e for triple, sign in zip(shared.triples(n), signs) if sign == "0" for e in triple]
        self.order = sorted(range(n), key=zeros.count, reverse=True)
        known, both = places(n), signs + signs.translate(NEGATIVE)
        ordered = "".join([both[known[triple]] for triple in itertools.combinations(self.order, 3)])
        self.both = ordered + ordered.translate(NEGATIVE)

    def document(self, number):
        """The chirotope under the names of a try."""
        return shared.text_of(self.n, "".join(move(self.n, number, self.seed)[2](self.both)))

    def vectors(self, number, answer):
        """The vectors in the answer of decide to that document, for the elements under their first names, or None."""
        block = answer.partition(b"end\n")[2].split(b"\n")
        if block[0] != b"realizable":
            return None
        order, flips, _ = move(self.n, number, self.seed)
        vectors = [None] * self.n
        for k, flip, line in zip(order, flips, block[1:]):
            x, y, z = map(int, line.split()[1:])
            vectors[self.order[k]] = (-x, -y, -z) if flip else (x, y, z)
        return vectors


class Progress:
    """A line on standard error, where that is a terminal: documents done, their rate, the time left, counts of
    verdicts."""

    def __init__(self):
        self.counts, self.start, self.shown = collections.Counter(), time.monotonic(), 0
        self.size = os.fstat(0).st_size  # 0 of a pipe

    def add(self, verdict):
        self.counts[verdict] += 1
        if sys.stderr.isatty() and time.monotonic() > self.shown + 1:
            self.show()

    def show(self):
        self.shown, done = time.monotonic(), sum(self.counts.values())
        took = self.shown - self.start
        line = "%d documents, %.1f a second" % (done, done / took)
        if self.size:
            read = os.lseek(0, 0, os.SEEK_CUR)
            line += ", about %.0f s left" % (took * (self.size - read) / read)
        print("\r%s: %s" % (line, ", ".join("%d %s" % (k, v) for v, k in self.counts.items())), end="\033[K",
              file=sys.stderr)

    def end(self):
        if self.shown:
            self.show()
            print(file=sys.stderr)
