"""inputs.py: what a picture is made of: documents and claims of rank 3. Python's standard library alone."""
import os
import sys
from dataclasses import dataclass, field
from itertools import chain

sys.path.insert(1, os.path.join(os.path.dirname(os.path.dirname(os.path.abspath(__file__))), "neighbours"))

from claims import block, signs_of, signs_of_vectors  # noqa: E402
from documents import VERDICTS, Document, Lines, Reader  # noqa: E402
from filters import Refused  # noqa: E402

from chirotopes import Chirotope  # noqa: E402

KINDS = ("chirotope", "points", "wiring")


@dataclass
class Input:
    """A document with its chirotope; where it is a claim its verdict and the lines of its evidence; and the vectors of
    its elements where it has some. Vectors of a claim realize the chirotope; other evidence isn't looked at."""
    document: Document
    chirotope: Chirotope
    verdict: str = ""
    evidence: list = field(default_factory=list)
    vectors: dict = None

    def name(self, element):
        return self.document.names[element - 1] if self.document.names else str(element)

    def text(self):
        """The document or claim without comments."""
        lines = [self.verdict, *self.evidence, "end", ""] if self.verdict else []
        return self.document.text() + "\n".join(lines)

    def add_verdict(self, word, rest):
        """Takes a verdict block, of which `word` was read."""
        self.verdict = word
        if word == "realizable":
            self.add_vectors(rest)
            return
        for words in rest:
            if words == ["end"]:
                return
            self.evidence.append(" ".join(words))
        raise Refused("missing: the input ends before the line `end` of the block")

    def add_vectors(self, rest):
        """Takes the lines of a block `realizable`."""
        _, lines = block(chain([["realizable"]], rest), ("realizable",))
        vectors = [tuple(numbers) for _, numbers in lines]
        if len(vectors) != self.document.elements or signs_of_vectors(vectors) != self.chirotope.signs:
            raise Refused("the vectors don't realize the chirotope (`om check` says where)")
        self.vectors = dict(enumerate(vectors, 1))
        self.evidence = ["vector %d %d %d" % vector for vector in vectors]


def inputs(file):
    """The documents and claims of a stream, which has at least one. Each is yielded once it was read whole; what can't
    be read is refused with its number and line."""
    lines, count, last = Lines(file), 0, None
    rest = iter(lines)
    for words in rest:
        try:
            if last and not last.verdict and len(words) == 1 and words[0] in VERDICTS:
                last.add_verdict(words[0], rest)
                continue
            if last:
                yield last
            count += 1
            last = None
            last = input_of(Reader(words, rest, KINDS).document())
        except Refused as refused:
            raise Refused("document %d, line %d: %s" % (count, lines.number, refused)) from None
    if not last:
        raise Refused("line %d: missing: the input has no document" % lines.number)
    yield last


def input_of(document):
    """A document that can be drawn."""
    if document.kind == "chirotope" and document.rank != 3:
        raise Refused("the rank is %d, and a picture shows rank 3%s" % (document.rank, hint_for(document)))
    chirotope = Chirotope(signs_of(document), range(1, document.elements + 1))
    if chirotope.is_zero() and document.kind != "wiring":
        raise Refused("all values are zero, so there is nothing to draw")
    vectors = dict(enumerate(document.body, 1)) if document.kind == "points" else None
    return Input(document, chirotope, vectors=vectors)


def hint_for(document):
    """What helps where the rank isn't 3."""
    if document.elements - document.rank == 3:
        return ": that of `om dual` is 3"
    return ": `om contract E` lowers it by 1" if document.rank > 3 else ""
