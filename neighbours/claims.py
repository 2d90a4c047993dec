"""claims.py: the claims of om with vectors or with a certificate, as docs/FORMATS.md says them, for the filters of
this folder.

`claims` reads a stream of them, one after the other, and yields each once its last line was read. Whether the
evidence holds isn't asked here. Python's standard library alone.
"""
from collections import namedtuple
from itertools import combinations

from documents import Lines, Reader
from filters import MAX_COORDINATE, Refused, number_of, shown

VECTOR, ENTRY = [(-MAX_COORDINATE, MAX_COORDINATE)] * 3, [(1, 20)] * 5 + [(1, 3)] * 2 + [(1, 2**63)]
BLOCKS = {"realizable": {"vector": VECTOR}, "nonrealizable": {"lt": ENTRY, "eq": ENTRY}}

# The lines of a block are pairs of a first word and its numbers; the chirotope has the sign -1, 0 or 1 of each
# increasing triple.
Claim = namedtuple("Claim", "document verdict lines chirotope")


def claims(file, *verdicts):
    """The claims of a stream, each with one of these verdicts, `realizable` or `nonrealizable`. An empty stream is
    refused."""
    lines, count = Lines(file), 0
    rest = iter(lines)
    for words in rest:
        count += 1
        try:
            document = Reader(words, rest, ("chirotope", "points", "wiring")).document()
            claim = Claim(document, *block(rest, verdicts), signs_of(document))
        except Refused as refused:
            raise Refused("claim %d, line %d: %s" % (count, lines.number, refused)) from None
        yield claim
    if not count:
        raise Refused("the input has no claim")


def block(rest, verdicts):
    """The verdict and the lines of a block."""
    words, lines = next(rest, None), []
    if words is None or len(words) != 1 or words[0] not in verdicts:
        raise Refused("claim: the verdict %s is wanted%s" %
                      (" or ".join(verdicts), "" if words is None else ", and not %s" % shown(" ".join(words))))
    for first, *written in rest:
        if [first, *written] == ["end"]:
            return words[0], lines
        form = BLOCKS[words[0]].get(first, [])
        numbers = [number_of(word, *bounds) for word, bounds in zip(written, form)]
        if not form or len(written) != len(form) or None in numbers:
            raise Refused("entry: a block %s has no line %s" % (words[0], shown(" ".join([first, *written]))))
        lines.append((first, numbers))
        if first == "vector" and len(lines) > 20:
            raise Refused("many: there are more than 20 vectors")
    raise Refused("missing: the input ends before the line `end` of the block")


def sign(x):
    return (x > 0) - (x < 0)


def det(p, q, r):
    return p[0] * (q[1] * r[2] - q[2] * r[1]) + p[1] * (q[2] * r[0] - q[0] * r[2]) + p[2] * (q[0] * r[1] - q[1] * r[0])


def signs_of_vectors(vectors):
    return {t: sign(det(*(vectors[e - 1] for e in t))) for t in combinations(range(1, len(vectors) + 1), 3)}


def signs_of(document):
    """The chirotope of a document. Of a wiring it is + where the wires a and b cross before b and c, - where later,
    and 0 where at once."""
    if document.kind == "points":
        return signs_of_vectors(document.body)
    triples = combinations(range(1, document.elements + 1), 3)
    if document.kind == "chirotope":
        if document.rank != 3:
            raise Refused("the rank is %d, and not 3" % document.rank)
        return dict(zip(triples, ("-0+".index(s) - 1 for s in document.body)))
    order, when = list(range(1, document.elements + 1)), {}
    for step, (i, j) in enumerate(document.body, 1):
        block = order[i - 1:j] if 1 <= i < j <= document.elements else []
        if not block or block != sorted(block):
            raise Refused("no wiring: step %d" % step)
        when.update((pair, step) for pair in combinations(block, 2))
        order[i - 1:j] = block[::-1]
    if order != sorted(order, reverse=True):
        raise Refused("no wiring: the last order isn't %d to 1" % document.elements)
    return {(a, b, c): sign(when[b, c] - when[a, b]) for a, b, c in triples}


def statement(claim, a, b, c, d, e, small, big):
    """`lt` or `eq`, whichever the chirotope of a claim makes of two terms of the identity below: with a third term of
    the sign of the small one, or with one that is 0. None where it makes neither of them, or these elements and terms
    stand in no entry."""
    if not b < c < d < e <= claim.document.elements or not 0 < a <= claim.document.elements or a in (b, c, d, e) or (
            small == big):
        return None
    signs = []
    for turn, term in zip((1, -1, 1), (((a, b, c), (a, d, e)), ((a, b, d), (a, c, e)), ((a, b, e), (a, c, d)))):
        for p in term:
            turn *= claim.chirotope[tuple(sorted(p))] * (-1) ** sum(x > y for x, y in combinations(p, 2))
        signs.append(turn)
    x, y, z = signs[small - 1], signs[big - 1], signs[5 - small - big]
    return None if x == 0 or y != -x else {x: "lt", 0: "eq"}.get(z)


def brackets(a, b, c, d, e):
    """The two brackets of each term of [abc][ade] - [abd][ace] + [abe][acd] = 0, as increasing triples."""
    terms = ((a, b, c), (a, d, e)), ((a, b, d), (a, c, e)), ((a, b, e), (a, c, d))
    return [[tuple(sorted(p)) for p in term] for term in terms]
