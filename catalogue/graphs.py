"""Graphs of chirotopes of rank 3, for `labelg` of nauty.

The graph has two vertices for each element, e and -e, which are joined, and one for each cocircuit, joined to e where
the cocircuit is + at e and to -e where it is - there. By the colours that tell elements from cocircuits, two graphs
are isomorphic exactly where the oriented matroids are the same up to renaming and reorientation: such a map takes the
two vertices of an element to the two of an element, and cocircuits to cocircuits, each of which is told by its
neighbours.
"""
import binascii
import functools
import hashlib
import itertools
import operator
import string
import subprocess

import shared

BASE64 = (string.ascii_uppercase + string.ascii_lowercase + string.digits + "+/").encode()
GRAPH6 = bytes.maketrans(BASE64, bytes(range(63, 127)))
NEGATIVE = str.maketrans("+-", "-+")


@functools.lru_cache(None)
def values_of_pairs(n):
    """Picks the values of a, b, d for the pairs a < b and each d from the signs, the negated signs and a 0, one after
    the other."""
    place = {triple: k for k, triple in enumerate(shared.triples(n))}
    picks = []
    for a, b in itertools.combinations(range(n), 2):
        for d in range(n):
            if d in (a, b):
                picks.append(2 * len(place))
            else:
                picks.append(place[tuple(sorted((a, b, d)))] + len(place) * (a < d < b))
    return operator.itemgetter(*picks)


def rows(n, signs):
    """The value of a, b, d for each pair a < b: a row for each pair, and in it a sign for each element d."""
    text = "".join(values_of_pairs(n)(signs + signs.translate(NEGATIVE) + "0"))
    return [text[k : k + n] for k in range(0, len(text), n)]


def graph6(n, signs):
    """The graph of a chirotope as a line of graph6."""
    members, zero = {}, "0" * n
    for row in rows(n, signs):
        if row not in members and row != zero:
            members[row] = None
            members[row.translate(NEGATIVE)] = None
    incidence = "".join(members).replace("0", "00").replace("+", "10").replace("-", "01")
    bits = head(n) + "".join(incidence[2 * n * k : 2 * n * (k + 1)] + "0" * k for k in range(len(members)))
    size = 2 * n + len(members)
    count = chr(63 + size) if size < 63 else "~" + "".join(chr(63 + (size >> shift & 63)) for shift in (12, 6, 0))
    units = -(-len(bits) // 24)
    packed = int(bits.ljust(24 * units, "0"), 2).to_bytes(3 * units, "big")
    return count + binascii.b2a_base64(packed).translate(GRAPH6)[: -(-len(bits) // 6)].decode()


@functools.lru_cache(None)
def head(n):
    """The columns of the vertices of elements."""
    return "".join("0" * (k - 1) + "1" if k % 2 else "0" * k for k in range(2 * n))


def colours(n):
    """The word after -f of labelg: the vertices of elements have a colour of their own."""
    return "a" * (2 * n)


def classes_of(n, lines):
    """For each graph of n elements a key that is the same for isomorphic ones alone: a digest of 128 bits of its
    canonical form."""
    done = subprocess.run([shared.labelg(), "-q", "-g", "-i1", "-f" + colours(n)],
                          input="".join(line + "\n" for line in lines).encode(), capture_output=True)
    canonical = done.stdout.split(b"\n")[:-1]
    if done.returncode or len(canonical) != len(lines):
        raise shared.Refused("labelg ended with code %d and %d of %d graphs" %
                             (done.returncode, len(canonical), len(lines)))
    return [hashlib.blake2b(line, digest_size=16).digest() for line in canonical]
