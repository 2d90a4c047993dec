#!/usr/bin/env python3
"""referee.py < CLAIMS : what `om-each check` says of claims, by the definitions and by nothing of om's code.

Each claim, a document and a verdict block (docs/FORMATS.md), gets the line that `om-each check` prints. A claim that
can't be read gets `refused line L CODE`, too, and the next one is read; what is wrong with it is said on standard
error. The exit code is 0 where all are valid, 1 where one isn't, and 2 where there are words: it takes none. Two
things differ. A claim on circuits, cocircuits or covectors isn't read, and gets the line `unread KIND` (`om convert
chirotope` turns its document into one that is read). A stream of nothing, or with a line of more than 2^20 bytes, ends
there with 1. This file stands alone: its first half reads the format, its second half judges. Python's standard
library alone.
"""
import os
import re
import sys
from collections import Counter, namedtuple
from itertools import combinations, permutations
from math import comb

# ---- The format

KINDS = ("chirotope", "points", "wiring", "circuits", "cocircuits", "covectors")
LONGEST = 2**20
NAME, PLAIN, BLOCK = re.compile("[A-Za-z0-9_]{1,16}"), "0|[1-9][0-9]{0,5}", "(0|[1-9][0-9]{0,2})-(0|[1-9][0-9]{0,2})"
# What the words of a line of a block are: whole numbers, each from a least to a greatest one, or one of some words.
ELEMENT, TERM, COORDINATE, NUMBER = (1, 20), (1, 3), (-2**40, 2**40), (0, 999999)
STAGE = {"price", "column", "update", "scale"}
ENTRY = [ELEMENT] * 5 + [TERM] * 2 + [(1, 2**63)]
FORMS = {"vector": [COORDINATE] * 3, "lt": ENTRY, "eq": ENTRY, "weight": [ELEMENT] * 3 + [(-2**100, 2**100)],
         "exhausted": [], "frontier": [], "end": [],
         "pivots": [(0, 10**6)],
         "width": [STAGE, (0, 10**6 + 1), (0, 65535), NUMBER]}  # and `basis`, which has one number or more
# Which lines a block has behind its verdict, by their first words: those that may come next, and what comes behind.
NEXT = {"realizable": {"vector": "realizable", "end": "over"},
        "nonrealizable": {"lt": "nonrealizable", "eq": "nonrealizable", "end": "over"},
        "undecided": {"weight": "undecided", "exhausted": "exhausted", "frontier": "frontier"},
        "limit": {"pivots": "pivots", "width": "searched"}, "pivots": {"basis": "searched"},
        "searched": {"exhausted": "exhausted", "frontier": "frontier"},
        "exhausted": {"end": "over"}, "frontier": {"vector": "frontier", "end": "over"}}
VERDICTS, MOST = ("realizable", "nonrealizable", "undecided", "limit"), {"vector": 20, "weight": 1140}
Claim = namedtuple("Claim", "kind rank elements names sets body verdict lines")


class Fault(Exception):
    """The code of the first line at fault, and what is wrong with it."""


class Unread(Exception):
    """The kind of a document that isn't read here."""


class Broken(Exception):
    """Why a stream isn't read on."""


def ask(holds, code, why=""):
    if not holds:
        raise Fault(code, why)


def claims_of(file):
    """The claims of a stream as om-each cuts it: the words of each line, and how many bytes there are. A claim ends
    with its second line `end`, or before a line that begins with `om`, or where the stream ends."""
    lines, size, ends, has_word = [], 0, 0, False
    for line in iter(lambda: file.readline(LONGEST + 1), b""):
        if len(line) > LONGEST:
            raise Broken("a line of more than 2^20 bytes")
        words = re.findall("[^ \t\r\n]+", line.decode("latin-1").split("#", 1)[0])
        if words[:1] == ["om"] and has_word:
            yield lines, size
            lines, size, ends, has_word = [], 0, 0, False
        size, ends, has_word = size + len(line), ends + (words == ["end"]), has_word or bool(words)
        if size <= LONGEST:
            lines.append(words)
        if ends == 2:
            yield lines, size
            lines, size, ends, has_word = [], 0, 0, False
    if has_word:
        yield lines, size


class Reader:
    """Reads a claim that is lines of words; `number` is that of the last line that was read."""

    def __init__(self, lines):
        self.lines, self.number = lines, 0

    def next(self):
        """The words of the next line that has some. The end of the text counts as the line after the last one."""
        while self.number < len(self.lines):
            self.number += 1
            if self.lines[self.number - 1]:
                return self.lines[self.number - 1]
        self.number += 1
        raise Fault("missing", "the text breaks off")

    def claim(self):
        first = self.next()
        ask(first in (["om", "1"], ["om", "2"]), "version", "neither om 1 nor om 2")
        kind, *sizes = self.next()
        ask(kind in KINDS, "kind", "no kind of document: %s" % kind)
        ask(len(sizes) == 1 + (kind == "chirotope") and all(re.fullmatch(PLAIN, word) for word in sizes), "header",
            "not the sizes of %s" % kind)
        n, rank = int(sizes[-1]), int(sizes[0]) if kind == "chirotope" else 3
        ask(1 <= n <= 20, "elements %d" % n, "not 1 to 20 elements")
        ask(kind != "chirotope" or rank <= n, "rank %d" % rank, "a rank above the number of elements")
        ask(kind != "chirotope" or comb(n, rank) <= 12870, "size %d" % comb(n, rank), "more than 12,870 values")
        if kind in KINDS[3:]:
            raise Unread(kind)
        sets, (names, words) = list(combinations(range(1, n + 1), rank)), (None, self.next())
        if first == ["om", "2"]:
            if words[0] == "names":
                names, words = words[1:], self.next_of(len(words) - 1 == len(set(words[1:])) == n
                                                       and all(map(NAME.fullmatch, words[1:])), "names")
            if words[0] == "order" and kind == "chirotope":
                if words[1:] == ["revlex"]:
                    sets.sort(key=lambda s: s[::-1])
                words = self.next_of(words[1:] in (["lex"], ["revlex"]), "order")
            ask(words[0] not in ("names", "order", "half"), "setting", "%s can't stand here" % words[0])
        body = self.body(kind, len(sets) if kind == "chirotope" else n if kind == "points" else 1024, words)
        return Claim(kind, rank, n, names, sets, body, *self.block())

    def next_of(self, holds, what):
        """The line behind a setting, which has to hold."""
        ask(holds, "setting", "not %s that can stand here" % what)
        return self.next()

    def body(self, kind, most, words):
        """The signs, points or blocks from the line of these words on to the line `end`."""
        body = []
        while words != ["end"]:
            if kind == "chirotope":
                signs = ["-0+".find(c) - 1 for word in words for c in word]
                ask(-2 not in signs, "sign", "none of + - 0 in %s" % " ".join(words))
                body += signs
            elif kind == "points":
                body.append(items(words, FORMS["vector"], "number"))
            else:
                found = [re.fullmatch(BLOCK, word) for word in words]
                ask(all(found), "block", "not blocks i-j: %s" % " ".join(words))
                body += [(int(it[1]), int(it[2])) for it in found]
            ask(len(body) <= most, "many", "more than %d" % most)
            words = self.next()
        ask(kind == "wiring" or len(body) == most, "few", "%d are wanted, and %d are there" % (most, len(body)))
        return body

    def block(self):
        """The verdict, and the lines behind it up to `end`, each as its first word and its items."""
        words, rows = self.next(), []
        ask(len(words) == 1 and words[0] in VERDICTS, "claim", "no verdict: %s" % " ".join(words))
        state = verdict = words[0]
        while True:
            word, *rest = self.next()
            ask(word in NEXT[state], "entry", "%s can't stand here" % word)
            forms = FORMS.get(word, [NUMBER] * max(1, len(rest)))
            rows.append((word, items(rest, forms, "entry")))
            ask(word != "weight" or rows[-1][1][0] < rows[-1][1][1] < rows[-1][1][2], "entry",
                "three elements that don't increase")
            ask(word not in MOST or sum(it == word for it, _ in rows) <= MOST[word], "many", "too many of %s" % word)
            state = NEXT[state][word]
            if state == "over":
                return verdict, rows[:-1]


def items(words, forms, code):
    """The numbers and words that the words of a line are."""
    ask(len(words) == len(forms), code, "not %d words: %s" % (len(forms), " ".join(words)))
    return [item(word, form, code) for word, form in zip(words, forms)]


def item(word, form, code):
    if isinstance(form, set):
        ask(word in form, code, "none of the words %s: %s" % (", ".join(sorted(form)), word))
        return word
    ask(re.fullmatch("0|-?[1-9][0-9]{0,39}", word) and form[0] <= int(word) <= form[1], code,
        "not a number from %d to %d: %s" % (*form, word))
    return int(word)


# ---- The definitions

def sign(x):
    return (x > 0) - (x < 0)


def det(p, q, r):
    return p[0] * (q[1] * r[2] - q[2] * r[1]) + p[1] * (q[2] * r[0] - q[0] * r[2]) + p[2] * (q[0] * r[1] - q[1] * r[0])


def chirotope_of(claim):
    """The sign of each increasing set: as given; of the determinant of points; + where the wires a and b cross before
    b and c, - where later, 0 where at once. A wiring that is none gives the reason instead."""
    if claim.kind == "chirotope":
        return dict(zip(claim.sets, claim.body))
    if claim.kind == "points":
        return {s: sign(det(*(claim.body[e - 1] for e in s))) for s in claim.sets}
    order, when = list(range(1, claim.elements + 1)), {}
    for step, (i, j) in enumerate(claim.body, 1):
        if not 1 <= i < j <= claim.elements:
            return "range %d" % step
        block = order[i - 1:j]
        if block != sorted(block):
            return "notincreasing %d" % step
        when.update((pair, step) for pair in combinations(block, 2))
        order[i - 1:j] = block[::-1]
    if order != sorted(order, reverse=True):
        return "notreversed"
    return {(a, b, c): sign(when[b, c] - when[a, b]) for a, b, c in claim.sets}


def value(chi, t):
    """The value on a list of elements: 0 at a repeat, else that of the set, turned by each two that stand in the
    other order."""
    return chi[tuple(sorted(t))] * (-1) ** sum(x > y for x, y in combinations(t, 2)) if len(set(t)) == len(t) else 0


def text(s):
    return ",".join(map(str, s)) or "none"


def first_violated(rank, n, chi):
    """The first sets S, of rank + 1 elements, and A, of rank - 1, for which V and U aren't orthogonal: their products
    include a plus and no minus, or a minus and no plus. V is at the i-th element of S the value of the others times
    (-1)^i; U is at e the value of A with e behind it."""
    us = [(a, [0] + [value(chi, a + (e,)) for e in range(1, n + 1)])
          for a in (combinations(range(1, n + 1), rank - 1) if rank else ())]
    for s in combinations(range(1, n + 1), rank + 1):
        v = [(e, chi[s[:i] + s[i + 1:]] * (-1) ** (i + 1)) for i, e in enumerate(s)]
        for a, u in us:
            products = {x * u[e] for e, x in v}
            if (1 in products) != (-1 in products):
                return "relation %s %s" % (text(s), text(a))


def brackets(a, b, c, d, e):
    """The two brackets of each term of [abc][ade] - [abd][ace] + [abe][acd] = 0."""
    return ((a, b, c), (a, d, e)), ((a, b, d), (a, c, e)), ((a, b, e), (a, c, d))


def lawful(chi, n, a, b, c, d, e, small, big):
    """`lt` where the small term isn't 0, the big one has the other sign and the third has that of the small one; `eq`
    where the third is 0 instead; else None."""
    if not b < c < d < e <= n or a > n or a in (b, c, d, e) or small == big:
        return None
    terms = [turn * value(chi, p) * value(chi, q) for turn, (p, q) in zip((1, -1, 1), brackets(a, b, c, d, e))]
    x, y, z = terms[small - 1], terms[big - 1], terms[5 - small - big]
    return None if x == 0 or y != -x else "lt" if z == x else "eq" if z == 0 else None


def reasons(claim):
    """The reasons against a claim in their order; None stands for one that doesn't hold."""
    n, chi = claim.elements, chirotope_of(claim)
    yield chi if isinstance(chi, str) else None
    yield None if any(chi.values()) else {"chirotope": "allzero", "points": "ranklow", "wiring": "flatrank"}[claim.kind]
    yield first_violated(claim.rank, n, chi) if claim.kind == "chirotope" else None
    yield "notrank3 %d" % claim.rank if claim.rank != 3 else None
    triples, nonzero = sorted(chi), sorted(t for t in chi if chi[t])
    if claim.verdict == "limit":
        yield "nocertificate"
    elif claim.verdict == "realizable":  # a vector for each element; the determinant of each three has their sign
        vectors = [row for _, row in claim.lines]
        yield "number %d %d" % (n, len(vectors)) if len(vectors) != n else None
        for t in triples:
            yield "wrongsign " + text(t) if sign(det(*(vectors[e - 1] for e in t))) != chi[t] else None
    elif claim.verdict == "nonrealizable":
        # lawful entries, one of them strict; each bracket is as often on small as on big sides
        for i, (word, row) in enumerate(claim.lines, 1):
            yield "unlawful %d" % i if lawful(chi, n, *row[:7]) != word else None
        sides = Counter(), Counter()
        for _, (*five, small, big, times) in claim.lines:
            for side, term in zip(sides, (small, big)):
                for bracket in brackets(*five)[term - 1]:
                    side[tuple(sorted(bracket))] += times
        for t in triples:
            yield "unbalanced %s %d %d" % (text(t), sides[0][t], sides[1][t]) if sides[0][t] != sides[1][t] else None
        yield None if any(word == "lt" for word, _ in claim.lines) else "nostrict"
    else:  # a weight for each bracket that isn't 0; small sides weigh less than big ones, and in equations the same
        weights = [row for word, row in claim.lines if word == "weight"]
        yield "number %d %d" % (len(nonzero), len(weights)) if len(weights) != len(nonzero) else None
        for i, row in enumerate(weights):
            yield "bracket %d" % (i + 1) if tuple(row[:3]) != nonzero[i] else None
        weight = Counter({tuple(t): w for *t, w in weights})
        for a in range(1, n + 1):
            for four in combinations([x for x in range(1, n + 1) if x != a], 4):
                sums = [sum(weight[tuple(sorted(bracket))] for bracket in term) for term in brackets(a, *four)]
                for small, big in permutations((1, 2, 3), 2):
                    word, x, y = lawful(chi, n, a, *four, small, big), sums[small - 1], sums[big - 1]
                    if word == "lt" and not x < y or word == "eq" and x != y:
                        yield "weightfails " + " ".join(map(str, (a, *four, small, big)))


def judge(claim):
    """The line that `om check` prints of a claim."""
    return next(("refused " + why for why in reasons(claim) if why), "valid " + claim.verdict)


def answers(file):
    """The line for each claim of a stream, and what else there is to say of it."""
    for lines, size in claims_of(file):
        reader = Reader(lines)
        try:
            yield ("refused long", "more than 2^20 bytes") if size > LONGEST else (judge(reader.claim()), "")
        except Fault as fault:
            yield "refused line %d %s" % (reader.number, fault.args[0]), "line %d: %s" % (reader.number, fault.args[1])
        except Unread as kind:
            yield "unread %s" % kind, "a claim on %s isn't read; `om convert chirotope` writes a chirotope" % kind


def say(why):
    if sys.stderr:
        print("referee.py: %s" % ascii(why[:200])[1:-1], file=sys.stderr, flush=True)


def main():
    if sys.argv[1:]:
        say("it takes no words: claims come from standard input")
        return 2
    code, count = 0, 0
    try:
        for stream in 0, 1:  # a closed one is a fault, and one that doesn't wait would seem to end where it pauses
            os.set_blocking(stream, True)
        for count, (answer, why) in enumerate(answers(sys.stdin.buffer), 1):
            print(answer, flush=True)
            if why:
                say("claim %d: %s" % (count, why))
            code = max(code, int(not answer.startswith("valid")))
        if not count:
            raise Broken("there is no claim")
    except Broken as why:
        say("behind claim %d: %s" % (count, why) if count else str(why))
        code = 1
    except OSError as fault:  # a read or a write that failed; nothing is written a second time
        say(fault.strerror)
        os._exit(5)
    return code


if __name__ == "__main__":
    sys.exit(main())
