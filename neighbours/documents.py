"""documents.py: the documents of om, as docs/FORMATS.md says them, for the filters of this folder, the programs of
catalogue/ and those of pictures/.

`documents` reads a stream of them, one after the other, in version 1 or 2, and yields each once its line `end` was
read; a fault is named by its code in docs/FORMATS.md. `Document.text` writes one. Python's standard library alone.
"""
import functools
import itertools
import math
import re

from filters import MAX_COORDINATE, MAX_MEMBERS, Refused, check_shape, check_signs, number_of, numbered_lines, shown

MAX_BLOCKS = 1024
LISTS = ("circuits", "cocircuits", "covectors")
KINDS = ("chirotope",) + LISTS + ("wiring", "points")
VERDICTS = ("realizable", "nonrealizable", "undecided", "limit")
NAME, WORD = re.compile("[A-Za-z0-9_]{1,16}"), re.compile("[^ \t\r\n]+")
BLOCK = re.compile("(0|[1-9][0-9]{0,2})-(0|[1-9][0-9]{0,2})")
OPPOSITE = str.maketrans("+-", "-+")


class Document:
    """A document. The body of a chirotope is the text of its values in lexicographic order; other bodies are lists:
    of members as texts, of blocks as pairs, of points as triples. The rank is that of a chirotope, and 0 for other
    kinds."""

    def __init__(self, kind, elements, body, rank=0, names=None):
        self.kind, self.elements, self.rank, self.names, self.body = kind, elements, rank, names, body

    def head(self):
        if self.kind == "chirotope":
            return "chirotope %d %d" % (self.rank, self.elements)
        return "%s %d" % (self.kind, self.elements)

    def text(self):
        """The document in version 1, or in version 2 where it has names. Members stand in their own order."""
        lines = ["om 2", self.head(), "names " + " ".join(self.names)] if self.names else ["om 1", self.head()]
        if self.kind == "chirotope":
            lines += [self.body[place:place + 64] for place in range(0, len(self.body), 64)]
        else:
            lines += [{"wiring": "%d-%d", "points": "%d %d %d"}.get(self.kind, "%s") % line for line in self.body]
        return "\n".join(lines) + "\nend\n"


class Lines:
    """The lines with words of a binary file, each as its words; `number` is that of the last line that was read."""

    def __init__(self, file):
        self.file, self.number = file, 0

    def __iter__(self):
        for self.number, line in numbered_lines(self.file):
            line = line.rstrip("\r\n")
            if "#" in line:
                line = line.split("#", 1)[0]
            # the quicker `split` knows more blanks than a document has, but none of them is printable
            words = line.split() if line.isprintable() else WORD.findall(line)
            if words:
                yield words
        # the end of the input counts as the line after the last one
        self.number += 1


def documents(file, *kinds, claims=False):
    """The documents of a stream, each of one of these kinds, or of any where none is named. With `claims` they may be
    claims, whose verdicts are passed over. An empty stream is refused."""
    lines, count = Lines(file), 0
    rest = iter(lines)
    for words in rest:
        if claims and count and len(words) == 1 and words[0] in VERDICTS:
            while words not in (["end"], None):
                words = next(rest, None)
            continue
        count += 1
        try:
            document = Reader(words, rest, kinds or KINDS).document()
        except Refused as refused:
            raise Refused("document %d, line %d: %s" % (count, lines.number, refused)) from None
        yield document
    if not count:
        raise Refused("line %d: missing: the input has no document" % lines.number)


class Reader:
    """Reads a document that begins with a line of these words and goes on with the lines of `rest`."""

    def __init__(self, words, rest, kinds=KINDS):
        if words not in (["om", "1"], ["om", "2"]):
            raise Refused("version: a document begins with `om 1` or `om 2`, and not with %s" % shown(" ".join(words)))
        self.rest, self.version, self.settings = rest, words[1], {}
        words = next(rest, None)
        if words is None:
            raise Refused("missing: the input ends before the kind of the document")
        self.kind, self.elements, self.rank, self.limit = header(kinds, *words)
        # the members of a list stand in a dictionary, which keeps their order and each of them once
        self.body = "" if self.kind == "chirotope" else {} if self.kind in LISTS else []

    def document(self):
        for words in self.rest:
            if words == ["end"]:
                return Document(self.kind, self.elements, self.whole_body(), self.rank, self.settings.get("names"))
            if self.version == "2" and not self.body and words[0] in ("names", "order", "half"):
                self.take_setting(words[0], words[1:])
            else:
                self.take_line(words)
                if len(self.body) > self.limit:
                    raise Refused("many: there are more than %d values, points, members or blocks" % self.limit)
        raise Refused("missing: the input ends before the line `end` of the document")

    def take_setting(self, first, values):
        may = {"names": len(set(values)) == len(values) == self.elements
               and all(NAME.fullmatch(name) for name in values),
               "order": self.kind == "chirotope" and values in (["lex"], ["revlex"]),
               "half": self.kind in LISTS and not values}
        if not may[first] or first in self.settings or first == "names" and self.settings:
            raise Refused("setting: this line %s can't stand here" % shown(first))
        self.settings[first] = values

    def take_line(self, words):
        if self.kind == "wiring":
            if not all(BLOCK.fullmatch(word) for word in words):
                raise Refused("block: %s has a word that isn't two numbers joined by -" % shown(" ".join(words)))
            self.body += [tuple(int(place) for place in word.split("-")) for word in words]
        elif self.kind == "points":
            self.body.append(point_of(words))
        else:
            signs = "".join(words)
            check_signs(signs, len(signs) if self.kind == "chirotope" else self.elements)
            if self.kind == "chirotope":
                self.body += signs
            else:
                self.body[signs] = True
                if "half" in self.settings:
                    self.body[signs.translate(OPPOSITE)] = True

    def whole_body(self):
        if self.kind in ("chirotope", "points") and len(self.body) < self.limit:
            raise Refused("few: %d values or points are wanted, and %d are there" % (self.limit, len(self.body)))
        if self.settings.get("order") == ["revlex"]:
            return "".join(self.body[place] for place in reverse_places(self.rank, self.elements))
        return self.body if self.kind == "chirotope" else list(self.body)


@functools.lru_cache(None)
def header(kinds, kind, *sizes):
    """The kind, the elements and the rank that the second line of a document says, and how many values, members, blocks
    or points there may be. The documents of a stream have few headers, so these are kept."""
    numbers = [number_of(word, 0, 999999) for word in sizes]
    if kind not in KINDS:
        raise Refused("kind: %s names no kind of document" % shown(kind))
    if None in numbers or len(numbers) != 1 + (kind == "chirotope"):
        raise Refused("header: `chirotope RANK ELEMENTS` is wanted, or another kind and ELEMENTS")
    if kind not in kinds:
        hint = " (`om convert chirotope` writes its chirotope)" if "chirotope" in kinds else ""
        raise Refused("a document of %s is wanted, and this is one of %s%s" % (" or ".join(kinds), kind, hint))
    elements, rank = numbers[-1], numbers[0] if kind == "chirotope" else 0
    check_shape(elements, rank)
    limits = {"chirotope": math.comb(elements, rank), "wiring": MAX_BLOCKS, "points": elements}
    return kind, elements, rank, limits.get(kind, MAX_MEMBERS)


def point_of(words):
    """The point of three words."""
    point = [number_of(word, -MAX_COORDINATE, MAX_COORDINATE) for word in words]
    if len(point) != 3 or None in point:
        raise Refused("number: a point is three whole numbers of size at most 2^40, and not %s" %
                      shown(" ".join(words)))
    return tuple(point)


def reverse_places(rank, elements):
    """The place in reverse lexicographic order of each set of `rank` elements, in lexicographic order of the sets."""
    sets = list(itertools.combinations(range(elements), rank))
    place = {chosen: place for place, chosen in enumerate(sorted(sets, key=lambda chosen: chosen[::-1]))}
    return [place[chosen] for chosen in sets]
