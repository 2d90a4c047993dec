"""Runs on nine and more elements, with the answers that the definitions give, for each way in which a command may
answer that takes memory. So a call that would give up on inputs of this size, as if memory ran out, fails at one.

Most are on the alternating oriented matroid of a rank on some elements, whose chirotope has plus everywhere. That of
rank 3 is the one of points in convex position.
"""
from itertools import combinations, product
from math import log

OPPOSITE = str.maketrans("+-", "-+")
ORDER = str.maketrans("-0+", "012")
NINE = range(9)


def negative(x):
    return x.translate(OPPOSITE)


def in_order(vectors):
    """The vectors in lexicographic order, with minus before zero before plus."""
    return sorted(vectors, key=lambda x: x.translate(ORDER))


def turn(x, places):
    return "".join(negative(a) if e in places else a for e, a in enumerate(x))


def with_negatives(vectors):
    return in_order({y for x in vectors for y in (x, negative(x))})


def vector(signs, n):
    """The sign vector with these signs at these places, from 0."""
    return "".join(signs.get(e, "0") for e in range(n))


def circuits(r, n):
    """Of r + 1 elements the signs alternate."""
    return with_negatives(vector({e: "-+"[i % 2] for i, e in enumerate(s)}, n) for s in combinations(range(n), r + 1))


def cocircuits(r, n):
    """Each of r - 1 elements changes the sign, and is 0."""
    return with_negatives(vector({e: "+-"[sum(a > e for a in s) % 2] for e in range(n) if e not in s}, n)
                          for s in combinations(range(n), r - 1))


def compose(x, y):
    return "".join(a if a != "0" else b for a, b in zip(x, y))


def covectors(vectors, n):
    """All compositions of some vectors."""
    found = reached = {"0" * n}
    while reached:
        reached = {compose(x, y) for x in reached for y in vectors} - found
        found = found | reached
    return in_order(found)


def document(kind, lines):
    return "om 1\n%s\n%send\n" % (kind, "".join(line + "\n" for line in lines))


def map_of(r, n, signs):
    return document("chirotope %d %d" % (r, n), [signs[k:k + 64] for k in range(0, len(signs), 64)])


def alternating(r, n):
    """The documents of one oriented matroid, by their kinds."""
    vertices = cocircuits(r, n)
    return {"chirotope": map_of(r, n, "+" * len(list(combinations(range(n), r)))),
            "circuits": document("circuits %d" % n, circuits(r, n)),
            "cocircuits": document("cocircuits %d" % n, vertices),
            "covectors": document("covectors %d" % n, covectors(vertices, n))}


def upgraded(text, n):
    """A list in version 2."""
    _, kind, *members, _ = text.splitlines()
    members = [x for x in members if x.lstrip("0")[:1] != "-"]
    return "om 2\n%s\nnames %s\nhalf\n%s\nend\n" % (kind, names(n), "\n".join(members))


def names(n):
    return " ".join("e%d" % e for e in range(1, n + 1))


def painting(colours, e):
    """The first circuit or cocircuit of rank 3 on nine elements that fits the colours at an element, from 1."""
    for what, vectors, nothing in ("circuit", circuits(3, 9), "W"), ("cocircuit", cocircuits(3, 9), "B"):
        for x in vectors:
            pairs = list(zip(x, colours))
            if x[e - 1] != "0" and not {("+", nothing), ("-", nothing), ("-", "R"), ("+", "G")}.intersection(pairs):
                return what, x
    raise AssertionError(colours)


def hull_of_nine():
    lines = []
    for e in range(1, 10):
        what, x = painting("R" * (e - 1) + "G" + "R" * (9 - e), e)
        lines.append("%s %d %s\n" % ({"circuit": "inside", "cocircuit": "extreme"}[what], e, x))
    return "acyclic\n" + "".join(lines) + "end\n"


def dual_signs(r, n):
    """The signs of the dual: that of n - r elements is the sign of the order that lists them before the others."""
    signs = ["+-"[sum(s) % 2] for s in combinations(range(n), n - r)]
    return "".join(signs) if signs[0] == "+" else negative("".join(signs))


def lexical_signs(listed):
    """The signs of the lexicographic extension of nine elements by some, counted from 0, with their signs."""
    for s in combinations(range(10), 3):
        at = next((k for k, (e, _) in enumerate(listed) if e not in s), None) if s[2] == 9 else None
        if s[2] < 9:
            yield "+"
        elif at is None:
            yield "0"
        else:
            e, sign = listed[at]
            yield sign if sum(a > e for a in s[:2]) % 2 == 0 else negative(sign)


def padded(texts, n):
    """Vectors with zeros behind them."""
    return [x.ljust(n, "0") for x in texts.split()]


def free(r, n, last=False):
    """The covectors of r coloops and n - r loops, the coloops first or last."""
    loops = "0" * (n - r)
    return ["".join(x) + loops if not last else loops + "".join(x) for x in product("-0+", repeat=r)]


def of_four(r, signs):
    """The map of rank r on nine elements whose first four have these signs, with loops behind them."""
    signs = iter(signs)
    return map_of(r, 9, "".join(next(signs) if s[-1] < 4 else "0" for s in combinations(NINE, r)))


def refusals():
    """Documents on nine elements that break an axiom."""
    for kind, members, line in [
        ("circuits", "+- -+ 00", "zero 3"), ("circuits", "+-", "nonegative 1"),
        ("circuits", "+0 -0 ++ --", "nested 1 3"), ("circuits", "+-0 0+- -+0 0-+", "noelimination 2 1 2"),
        ("cocircuits", "+-", "nonegative 1"), ("covectors", "+ -", "nozero"), ("covectors", "0 +", "nonegative 2"),
        ("covectors", "00 +0 -0 0+ 0-", "nocomposition 2 4"), ("covectors", "00 ++ -- +- -+", "noelimination 2 4 2"),
    ]:
        yield "accept", document(kind + " 9", padded(members, 9)), 1, "refused %s\n" % line
    for words, given, line in [
        ("accept", map_of(3, 9, "0" * 84), "allzero"), ("accept", of_four(2, "+-++++"), "relation 1,2,3 4"),
        ("threeterm", of_four(2, "+-++++"), "threeterm none 1,2,3,4"),
        ("threeterm", of_four(2, "+0000+"), "noexchange 1,2 3,4 1"),
        ("accept", document("points 9", ["1 0 0"] * 9), "ranklow"),
        ("accept", document("wiring 9", ["9-10"]), "range 1"),
        ("accept", document("wiring 9", ["1-2", "1-2"]), "notincreasing 2"),
        ("accept", document("wiring 9", ["1-2"]), "notreversed"),
        ("convert chirotope", document("wiring 9", ["1-9"]), "flatrank"),
        # the first pair with a line at infinity is violated
        ("wiring", of_four(3, "+-++"), "notsweepable 1,2,3,4 1,10"),
    ]:
        yield words, given, 1, "refused %s\n" % line
    yield "accept", document("wiring 9", ["1-9"]), 0, "accepted\n"


def commands(nine, wiring):
    """Commands that answer every kind of document alike."""
    triples = sorted(sorted((e % 9 + 1, (e + 1) % 9 + 1, (e + 2) % 9 + 1)) for e in NINE)
    basis = " ".join(map(str, [86, *range(2, 86)]))
    limit = nine["chirotope"] + "limit\npivots 1\nbasis %s\nfrontier\nvector -1 -1 -1\nend\n" % basis
    for given in nine.values():
        yield "accept", given, 0, "accepted\n"
        yield "member +++++++++", given, 0, "covector\n"
        yield "member +-+-+-+-+", given, 0, "not covector\n"
        yield "member +", given, 1, "refused length 1\n"
        yield "wiring", given, 0, wiring
        yield "mutations", given, 0, "mutations 9\n%send\n" % "".join("%d,%d,%d\n" % tuple(it) for it in triples)
        yield "flip 1 2 3", given, 0, map_of(3, 9, "-" + "+" * 83)
        yield "flip 1 2 4", given, 1, "refused notmutation 1,2,3,4 1,5\n"
        yield "extend --first=1", given, 0, document("extensions 9", ["-" * 36]).replace("end", "more")
        yield "hull", given, 0, hull_of_nine()
        yield "paint RRRRRRRRR 1", given, 0, "%s %s\n" % painting("RRRRRRRRR", 1)
        yield "lexext +9", given, 0, map_of(3, 10, "".join(lexical_signs([(8, "+")])))
        yield "decide --box=1 --steps=1 --pivots=1", given, 3, limit
    yield "check", limit, 1, "refused nocertificate\n"


def operations(nine):
    """Duals, minors and reorientations, each kind as its definition says."""
    smaller, contracted = alternating(3, 8), alternating(2, 8)
    for kind, given in nine.items():
        yield "delete 9", given, 0, smaller[kind]
        yield "contract 9", given, 0, contracted[kind]
    yield "dual", nine["chirotope"], 0, map_of(6, 9, dual_signs(3, 9))
    yield "dual", nine["circuits"], 0, nine["circuits"].replace("circuits", "cocircuits")
    yield "dual", nine["cocircuits"], 0, nine["cocircuits"].replace("cocircuits", "circuits")
    yield "dual", document("covectors 9", free(2, 9)), 0, document("covectors 9", free(7, 9, last=True))
    turned = "".join("-" if 8 in s else "+" for s in combinations(NINE, 3))
    yield "reorient 9", nine["chirotope"], 0, map_of(3, 9, turned)
    for kind in "circuits", "cocircuits", "covectors":
        members = [turn(x, (8,)) for x in nine[kind].splitlines()[2:-1]]
        yield "reorient 9", nine[kind], 0, document(kind + " 9", in_order(members))


def upgrades(nine, points, wiring):
    """Documents in version 2."""
    signs = "+" * 64 + "\n" + "+" * 20
    yield "upgrade", nine["chirotope"], 0, "om 2\nchirotope 3 9\nnames %s\norder revlex\n%s\nend\n" % (names(9), signs)
    for kind in "circuits", "cocircuits", "covectors":
        yield "upgrade", nine[kind], 0, upgraded(nine[kind], 9)
    for text in points, wiring:
        _, kind, body = text.split("\n", 2)
        yield "upgrade", text, 0, "om 2\n%s\nnames %s\n%s" % (kind, names(9), body)


def in_any_rank(nine):
    """Paintings, hulls and lexicographic extensions besides those that every kind of document is asked for."""
    for colours, e in ("RGRGRGRGR", 9), ("WBRGWBRGR", 9), ("RRRRGRRRR", 5):
        yield "paint %s %d" % (colours, e), nine["circuits"], 0, "%s %s\n" % painting(colours, e)
    # with 2 and 4 turned, a circuit of 1, 2, 3 and 4 has plus everywhere
    turned = "".join("-" if (1 in s) != (3 in s) else "+" for s in combinations(NINE, 3))
    positive = next(x for x in in_order(turn(x, (1, 3)) for x in circuits(3, 9)) if "-" not in x)
    yield "hull", map_of(3, 9, turned), 0, "cyclic %s\n" % positive
    for words, listed in ("-1 +9", [(0, "-"), (8, "+")]), ("+5 -4 +3", [(4, "+"), (3, "-"), (2, "+")]):
        yield "lexext " + words, nine["cocircuits"], 0, map_of(3, 10, "".join(lexical_signs(listed)))


def runs():
    """The words, the input, the exit code and the answer of each run."""
    nine = alternating(3, 9)
    points = document("points 9", ["1 %d %d" % (t, t * t) for t in NINE])
    wiring = document("wiring 9", ["%d-%d" % (k, k + 1) for wire in range(2, 10) for k in range(wire - 1, 0, -1)])
    for kind, answer in nine.items():
        for given in list(nine.values()) + [points, wiring]:
            yield "convert " + kind, given, 0, answer
    yield from commands(nine, wiring)
    yield from operations(nine)
    yield from upgrades(nine, points, wiring)
    yield from in_any_rank(nine)
    yield from refusals()
    yield from other_ranks()
    yield from limits()
    yield from claims(nine)


def determinants(vectors):
    """The triples of vectors, in lexicographic order, with their determinants."""
    for s in combinations(range(len(vectors)), 3):
        (a, b, c), (d, e, f), (g, h, i) = (vectors[k] for k in s)
        yield s, a * (e * i - f * h) - b * (d * i - f * g) + c * (d * h - e * g)


def map_of_points(vectors):
    """The chirotope of some vectors."""
    signs = ("0+-"[(size > 0) - (size < 0)] for _, size in determinants(vectors))
    return map_of(3, len(vectors), "".join(signs))


def claims(nine):
    """Claims on points in convex position, each a triple whose sign is plus."""
    points = [(1, t, t * t) for t in NINE]
    sizes = [size for _, size in determinants(points)]

    def claim(given, word, lines):
        return "%s%s\n%send\n" % (given, word, "".join(line + "\n" for line in lines))

    def vectors(some):
        return ["vector %d %d %d" % it for it in some]

    def weights(numbers):
        return ["weight %d %d %d %d" % (a + 1, b + 1, c + 1, w) for (a, b, c), w in zip(combinations(NINE, 3), numbers)]

    wrong = points[:8] + [(1, 8, 0)]
    first = tuple(e + 1 for e in next(s for s, size in determinants(wrong) if size <= 0))
    # a product of two determinants is a whole number below a million, so these tell any two apart
    close = weights(round(log(size) * 10 ** 8) for size in sizes)
    for given in nine.values():
        yield "check", claim(given, "realizable", vectors(points)), 0, "valid realizable\n"
        yield "check", claim(given, "undecided", close + ["exhausted"]), 0, "valid undecided\n"
    given = nine["chirotope"]
    yield "check", claim(given, "realizable", vectors(points[:8])), 1, "refused number 9 8\n"
    yield "check", claim(given, "realizable", vectors(wrong)), 1, "refused wrongsign %d,%d,%d\n" % first
    yield "check", claim(given, "undecided", close[:83] + ["exhausted"]), 1, "refused number 84 83\n"
    yield "check", claim(given, "undecided", close[1:] + close[:1] + ["exhausted"]), 1, "refused bracket 1\n"
    ones = claim(given, "undecided", weights([1] * 84) + ["exhausted"])
    yield "check", ones, 1, "refused weightfails 1 2 3 4 5 1 2\n"


def other_ranks():
    """Commands of rank 3 on an oriented matroid of rank 2, in each form."""
    for given in alternating(2, 9).values():
        for words in "wiring", "mutations", "flip 1 2 3", "extend", "decide":
            yield words, given, 1, "refused notrank3 2\n"
        yield "check", given + "undecided\nexhausted\nend\n", 1, "refused notrank3 2\n"


def limits():
    """Answers that would have too many members, and lists whose chirotope would have too many values."""
    many = 3, "limit members 4096\n"
    coloops = with_negatives(vector({e: "+"}, 9) for e in range(8))
    yield ("convert covectors", document("cocircuits 9", coloops), *many)
    # of 17 elements there are 2,380 sets of four, each with two circuits
    lines = cocircuits(3, 17)
    yield ("convert circuits", document("cocircuits 17", lines), *many)
    yield ("convert cocircuits", document("circuits 17", lines), *many)
    yield ("convert circuits", document("covectors 17", covectors(lines, 17)), *many)
    # five coloops and fifteen loops, which are given by 243 covectors and ten cocircuits
    wide = document("covectors 20", free(5, 20))
    for words in "convert chirotope", "convert circuits", "dual", "hull", "paint %s 1" % ("R" * 20):
        yield words, wide, 3, "limit values 15504\n"
    few = document("cocircuits 20", with_negatives(vector({e: "+"}, 20) for e in range(5)))
    for words in "convert chirotope", "convert circuits", "convert covectors", "hull", "paint %s 1" % ("R" * 20):
        yield words, few, 3, "limit values 15504\n"
    # nine pairs of parallel elements
    pairs = document("circuits 18", with_negatives(vector({e: "+", e + 1: "-"}, 18) for e in range(0, 18, 2)))
    six = document("cocircuits 19", with_negatives(vector({e: "+"}, 19) for e in range(6)))
    yield "lexext +1", pairs, 3, "limit values 48620\n"
    yield "lexext +1", six, 3, "limit values 27132\n"
