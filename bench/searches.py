#!/usr/bin/env python3
"""bench/searches.py EARLIER [COUNT [SEED]]

Compares the built program with EARLIER, the program of an earlier state, on COUNT random searches for vectors (5,000
where none is given) or some more. The chirotopes have rank 3 and three to seven elements. They are those of vectors at
random, some with another sign at one triple; boxes are from 1 to 9. The least steps with which a search comes to its
end are found by halving, so both programs are asked with these steps, with one less and with one more, and with steps
at random. Prints each search that differs, and last 'searches: N searches, S ends found, M failed'; the exit code is 1
where one failed.
"""
import itertools
import os
import random
import subprocess
import sys

TOP = os.path.dirname(os.path.dirname(os.path.abspath(__file__)))
PROGRAM = os.path.join(TOP, "crates", "om", "out", "om")
BATCH = 500


def sign(vectors):
    """The sign of the determinant of three vectors."""
    (a, b, c), (d, e, f), (g, h, i) = vectors
    product = a * (e * i - f * h) - b * (d * i - f * g) + c * (d * h - e * g)
    return "0+-"[(product > 0) - (product < 0)]


def drawn(chance):
    """A number of elements and signs, for the most part those of a chirotope, and a box."""
    elements, size, signs = chance.choice((3, 4, 5, 5, 6, 6, 7, 7)), chance.choice((1, 2, 3, 8, 100)), ""
    while not signs.strip("0"):
        vectors = [[chance.randint(-size, size) for _ in range(3)] for _ in range(elements)]
        signs = "".join(map(sign, itertools.combinations(vectors, 3)))
    place = chance.randrange(4 * len(signs))
    if place < len(signs):
        signs = signs[:place] + chance.choice("-0+") + signs[place + 1:]
    return elements, signs, chance.randint(1, 9)


def answers(program, cases):
    """What a program answers to each search."""
    texts = []
    for (elements, signs, box), steps in cases:
        words = [program, "decide", "--pivots=1", "--box=%d" % box, "--steps=%d" % steps]
        text = "om 1\nchirotope 3 %d\n%s\nend\n" % (elements, signs)
        ran = subprocess.run(words, input=text, stdout=subprocess.PIPE, stderr=subprocess.STDOUT, text=True)
        texts.append(ran.stdout)
    return texts


class Search:
    """A search that ends with `high` steps, with this text, and not with `low`."""

    def __init__(self, place, high, text):
        self.place, self.low, self.high, self.text = place, 0, high, text

    def middle(self):
        return self.place, (self.low + self.high) // 2


class Tally:
    """Two programs, the searches so far, how many ends were found, and how many answers were wrong."""

    def __init__(self, programs):
        self.programs, self.searches, self.ends, self.failed = programs, 0, 0, 0

    def ask(self, cases):
        """The answers of the first program, which have to be those of the second one."""
        found, wanted = (answers(program, cases) for program in self.programs)
        for case, one, other in zip(cases, found, wanted):
            self.expect(case, one, other)
        self.searches += len(cases)
        return found

    def expect(self, case, found, wanted):
        if found != wanted:
            self.failed += 1
            print("failed: %s: %r, not %r" % (case, found, wanted))

    def batch(self, chance, count):
        """The searches for so many chirotopes."""
        cases = [(drawn(chance), int(10 ** chance.uniform(0, 5))) for _ in range(count)]
        asked = list(zip(cases, self.ask(cases)))
        searches = [Search(*case, text) for case, text in asked if "frontier" not in text and text[:7] != "refused"]
        self.ends += len(searches)
        while wide := [search for search in searches if search.high - search.low > 1]:
            for search, text in zip(wide, self.ask([search.middle() for search in wide])):
                place, steps = search.middle()
                if "frontier" in text:
                    search.low = steps
                else:
                    search.high = steps
                    self.expect((place, steps), text, search.text)
        for more in 1, chance.randint(2, 1000):
            texts = self.ask([(search.place, search.high + more) for search in searches])
            for search, text in zip(searches, texts):
                self.expect((search.place, search.high + more), text, search.text)
        without_end = [case for case, text in asked if "frontier" in text]
        self.ask([(place, chance.randint(1, steps)) for place, steps in without_end * 2])


def main():
    if not 2 <= len(sys.argv) <= 4 or not all(word.isdecimal() for word in sys.argv[2:]):
        sys.exit("searches: usage: bench/searches.py EARLIER [COUNT [SEED]]")
    for program in PROGRAM, sys.argv[1]:
        if not os.access(program, os.X_OK):
            sys.exit("searches: %s is no program" % program)
    count, seed = (int(word) for word in (sys.argv[2:] + ["5000", "1"][len(sys.argv) - 2:]))
    tally, chance = Tally([PROGRAM, sys.argv[1]]), random.Random(seed)
    while tally.searches < count:
        tally.batch(chance, min(BATCH, count))
    print("searches: %d searches, %d ends found, %d failed" % (tally.searches, tally.ends, tally.failed))
    return 1 if tally.failed or not tally.ends else 0


if __name__ == "__main__":
    sys.exit(main())
