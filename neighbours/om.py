"""om.py: the answers of om on plain Python values, in one file that needs Python's standard library alone (3.8 or
later, on Linux or another Unix).

    from om import Document, Workbench
    om = Workbench()
    om.convert(Document.chirotope(3, 4, "++++"), "circuits").body      # ((-1, 1, -1, 1), (1, -1, 1, -1))

A `Workbench` holds the program om_each open over two pipes, for each of the last commands that were asked, so a
question costs about a tenth of a millisecond and no start of a process. `Workbench.each` answers a stream, and doesn't
wait for one answer before it asks for the next. Signs are -1, 0 and 1; what takes signs also takes a text as "+-0".
What takes a number takes whole ones alone. What takes a document takes a `Document`, or its text. Each refusal is
`Refused` with the program's own line, each limit `Limit`; a program that ended is `Died`, and the next question starts
it anew.
"""
from __future__ import annotations

import collections
import io
import itertools
import math
import operator
import os
import re
import select
import shutil
import subprocess
import threading
import time
import weakref
from typing import (Any, Deque, Dict, Iterable, Iterator, List, NamedTuple, Optional, Sequence, SupportsIndex, Tuple,
                    Union)

__all__ = ["Asked", "Claim", "Died", "Document", "Error", "Extensions", "Hull", "Limit", "Made", "Refused", "Signs",
           "Timeout", "Usage", "Vector", "Words", "Workbench", "pieces", "program", "sign_text", "sign_vector"]

Vector = Tuple[int, ...]
Signs = Union[str, Iterable[SupportsIndex]]
Words = Union[str, Sequence[str]]
LISTS = ("circuits", "cocircuits", "covectors")
KINDS = ("chirotope",) + LISTS + ("wiring", "points")
VERDICTS = ("realizable", "nonrealizable", "undecided", "limit")
MAX_ELEMENTS, MAX_VALUES, MAX_MEMBERS, MAX_BLOCKS, MAX_COORDINATE = 20, 12_870, 4_096, 1_024, 2 ** 40
MAX_INPUT = 1_048_576
NAME, PLAIN = re.compile("[A-Za-z0-9_]{1,16}"), re.compile("0|[1-9][0-9]{0,5}")
COORDINATE, BLOCK = re.compile("0|-?[1-9][0-9]{0,18}"), re.compile("(0|[1-9][0-9]{0,2})-(0|[1-9][0-9]{0,2})")
CODES = {4: "reading failed", 5: "writing failed", 6: "memory ran out",
         7: "a word isn't text in UTF-8, or the program couldn't be built"}
MOST_OPEN = 8  # programs that a workbench holds
AHEAD, AHEAD_BYTES = 1_000, 65_536  # documents of a stream that are taken before their answers, and their bytes


class Error(Exception):
    """The program gave no value; the argument is its line."""


class Refused(Error):
    """The document, or what was asked of it, was refused: 'refused relation 1,2,3 4'."""


class Limit(Error):
    """An answer would be longer than a limit, or `decide` came to a limit; then `claim` has the text of the answer."""

    claim: Optional[str] = None


class Usage(Error):
    """The words aren't a command: 'usage 2'."""


class Timeout(Error):
    """There was no answer in the seconds that the workbench waits; the program was ended."""


class Died(Error):
    """The program ended without an answer."""

    def __init__(self, code: int):
        super().__init__("the program ended with exit code %d%s" % (code, ": " + CODES[code] if code in CODES else ""))
        self.code = code

    def __reduce__(self) -> Tuple[Any, ...]:
        return Died, (self.code,)


def _whole(value: SupportsIndex, what: str) -> int:
    """The whole number that a value is; what is none, as 1.9 or "1", is a TypeError that names it."""
    try:
        return operator.index(value)
    except TypeError:
        raise TypeError("%s: a whole number is wanted, and not %r" % (what, value)) from None


def _ask_for(holds: bool, otherwise: str, *values: object) -> None:
    """A ValueError where a condition doesn't hold."""
    if not holds:
        raise ValueError(otherwise % values)


def sign_vector(signs: Signs) -> Vector:
    """The signs of a text, or of whole numbers, as a tuple: (1, -1, 0) of '+-0'."""
    if isinstance(signs, str):
        _ask_for(not signs.strip("+-0"), "a sign is -1, 0 or 1, or a letter of '-0+', and not %r", signs.strip("+-0"))
        return tuple(["-0+".index(it) - 1 for it in signs])
    vector = tuple([_whole(it, "sign") for it in signs])
    for it in vector:
        _ask_for(-1 <= it <= 1, "a sign is -1, 0 or 1, or a letter of '-0+', and not %r", it)
    return vector


def sign_text(signs: Signs) -> str:
    """The text of signs: '+-0' of (1, -1, 0)."""
    return "".join(["0+-"[it] for it in sign_vector(signs)])


def words_of(line: bytes) -> List[bytes]:
    """The words of a line, without its comment."""
    blanks = bytes.maketrans(b"\t\r\n", b"   ")
    return [it for it in line.partition(b"#")[0].translate(blanks).split(b" ") if it]


def cut(lines: Iterable[bytes], ends: int = 1) -> Iterator[Tuple[bytes, bool]]:
    """The documents (claims, where ends is 2) of a stream of lines, cut as om_each cuts them. With each stands whether
    it has the line `end` that closes it."""
    piece, has_word, closed = b"", False, 0
    for line in lines:
        words = words_of(line)
        if has_word and words[:1] == [b"om"]:
            yield piece, False
            piece, has_word, closed = b"", False, 0
        piece, has_word = piece + line, has_word or bool(words)
        if words == [b"end"]:
            closed += 1
            if closed == ends:
                yield piece, True
                piece, has_word, closed = b"", False, 0
    if has_word:
        yield piece, False


def pieces(lines: Iterable[bytes], ends: int = 1) -> Iterator[bytes]:
    """The documents (claims, where ends is 2) of a stream of lines, cut as om_each cuts them."""
    for piece, _ in cut(lines, ends):
        yield piece


def closed_piece(text: bytes, ends: int) -> Optional[bytes]:
    """A text that is a single piece and has the line that closes it, up to this line; else nothing: om itself answers
    it."""
    is_plain = text.startswith(b"om ") and text.endswith(b"\nend\n") and text.count(b"om") == 1
    if is_plain and text.count(b"end") == text.count(b"\nend\n") == ends:
        return text if len(text) <= MAX_INPUT else None
    found = list(itertools.islice(cut(io.BytesIO(text), ends), 2))
    if len(found) != 1 or len(text) > MAX_INPUT:
        return None
    piece, is_closed = found[0]
    if not is_closed:
        return None
    return piece if piece.endswith(b"\n") else piece + b"\n"


class _Parts(NamedTuple):
    kind: str
    elements: int
    body: Tuple[Any, ...]
    rank: Optional[int] = None
    names: Tuple[str, ...] = ()


class Document(_Parts):
    """An oriented matroid of some kind, as it is written. What isn't of the form of a document is a ValueError; nothing
    here asks for axioms, `Workbench.accept` does.

    The body of a chirotope are its values in lexicographic order, of circuits, cocircuits and covectors the members, of
    points the triples of coordinates, and of a wiring the pairs of the first and the last position of each block. Only
    a chirotope has a rank here. The names are as many as the elements, or none."""

    __slots__ = ()

    def __new__(cls, kind: str, elements: SupportsIndex, body: Iterable[Any], rank: Optional[SupportsIndex] = None,
                names: Iterable[str] = ()) -> Document:
        count, called = _whole(elements, "elements"), tuple(names)
        _ask_for(kind in KINDS, "kind: %r is none of %s", kind, ", ".join(KINDS))
        _ask_for(1 <= count <= MAX_ELEMENTS, "elements: %d, and a document has 1 to %d", count, MAX_ELEMENTS)
        for it in called:
            _ask_for(isinstance(it, str) and NAME.fullmatch(it) is not None,
                     "names: a name has 1 to 16 letters A to Z, digits or _, and %r hasn't", it)
        _ask_for(len(called) in (0, count), "names: %d of them for %d elements", len(called), count)
        _ask_for(len(set(called)) == len(called), "names: one stands there twice")
        _ask_for((rank is not None) == (kind == "chirotope"), "rank: a chirotope has one, and no other kind")
        size = None if rank is None else _whole(rank, "rank")
        return super().__new__(cls, kind, count, _body_of(kind, count, body, size), size, called)

    # `_replace` goes by it, and so asks for the form, too
    _make: Any = classmethod(lambda cls, fields: cls(*fields))

    @classmethod
    def chirotope(cls, rank: SupportsIndex, elements: SupportsIndex, values: Signs,
                  names: Iterable[str] = ()) -> Document:
        """The map with these values on the sets of `rank` elements in lexicographic order."""
        return cls("chirotope", elements, values, rank, names)

    @classmethod
    def of_members(cls, kind: str, members: Iterable[Signs], elements: Optional[SupportsIndex] = None,
                   names: Iterable[str] = ()) -> Document:
        """A list of the kind circuits, cocircuits or covectors; an empty one needs the number of elements."""
        body = tuple(map(sign_vector, members))
        _ask_for(kind in LISTS, "lists are of the kinds %s", ", ".join(LISTS))
        _ask_for(elements is not None or bool(body), "an empty list needs its number of elements")
        return cls(kind, len(body[0]) if elements is None else elements, body, None, names)

    @classmethod
    def circuits(cls, members: Iterable[Signs], elements: Optional[SupportsIndex] = None,
                 names: Iterable[str] = ()) -> Document:
        """The list of signed circuits."""
        return cls.of_members("circuits", members, elements, names)

    @classmethod
    def cocircuits(cls, members: Iterable[Signs], elements: Optional[SupportsIndex] = None,
                   names: Iterable[str] = ()) -> Document:
        """The list of signed cocircuits."""
        return cls.of_members("cocircuits", members, elements, names)

    @classmethod
    def covectors(cls, members: Iterable[Signs], elements: Optional[SupportsIndex] = None,
                  names: Iterable[str] = ()) -> Document:
        """The list of covectors."""
        return cls.of_members("covectors", members, elements, names)

    @classmethod
    def points(cls, vectors: Iterable[Iterable[SupportsIndex]], names: Iterable[str] = ()) -> Document:
        """Vectors of three whole numbers; a point of the plane is (x, y, 1), or (1, x, y), which has the same signs."""
        body = [tuple(it) for it in vectors]
        return cls("points", len(body), body, None, names)

    @classmethod
    def wiring(cls, elements: SupportsIndex, blocks: Iterable[Iterable[SupportsIndex]],
               names: Iterable[str] = ()) -> Document:
        """A wiring diagram: each block turns the wires at the positions from the first number to the second."""
        return cls("wiring", elements, blocks, None, names)

    @classmethod
    def read(cls, text: Union[str, bytes]) -> Document:
        """The document of a text of version 1 or 2; a ValueError where the text isn't one (docs/FORMATS.md)."""
        if not isinstance(text, (str, bytes)):
            raise TypeError("the text of a document is wanted, and not %r" % (text,))
        data = text.encode() if isinstance(text, str) else text
        _ask_for(len(data) <= MAX_INPUT, "the text has more than %d bytes", MAX_INPUT)
        rows = [[word.decode("latin-1") for word in line] for line in map(words_of, data.split(b"\n")) if line]
        _ask_for(bool(rows) and rows[0] in (["om", "1"], ["om", "2"]), "a document begins with 'om 1' or 'om 2'")
        _ask_for(len(rows) > 2 and rows[-1] == ["end"] and rows.count(["end"]) == 1,
                 "a document has a line for its kind, and ends with its only line 'end'")
        (kind, *sizes), lines, names, order = rows[1], rows[2:-1], [], "lex"
        _ask_for(kind in KINDS, "kind: %r is none of %s", kind, ", ".join(KINDS))
        _ask_for(len(sizes) == 1 + (kind == "chirotope") and all(map(PLAIN.fullmatch, sizes)),
                 "%r: 'chirotope RANK ELEMENTS' is wanted, or another kind and ELEMENTS", " ".join(rows[1]))
        rank, elements = (int(sizes[0]) if kind == "chirotope" else None), int(sizes[-1])
        if rows[0] == ["om", "2"] and lines and lines[0][0] == "names":
            names = lines.pop(0)[1:]
            _ask_for(bool(names), "names: the line has none")
        if rows[0] == ["om", "2"] and kind == "chirotope" and lines and lines[0][0] == "order":
            _ask_for(lines[0] in (["order", "lex"], ["order", "revlex"]), "%r: the orders are lex and revlex",
                     " ".join(lines[0]))
            order = lines.pop(0)[1]
        is_half = rows[0] == ["om", "2"] and kind in LISTS and lines[:1] == [["half"]]
        body: Iterable[Any] = map("".join, lines[is_half:])
        if kind == "chirotope":
            values = "".join(body)
            body = values if order == "lex" else _in_lexicographic_order(values, rank or 0, elements)
        elif kind in LISTS:
            opposite = str.maketrans("+-", "-+")
            body = dict.fromkeys(member for it in body for member in ((it, it.translate(opposite))[:1 + is_half]))
        elif kind == "points":
            _ask_for(all(COORDINATE.fullmatch(word) for row in lines for word in row),
                     "points: a coordinate is a whole number")
            body = [tuple(map(int, row)) for row in lines]
        else:
            blocks = [BLOCK.fullmatch(word) for row in lines for word in row]
            _ask_for(all(blocks), "wiring: a block is two numbers joined by -")
            body = [(int(it[1]), int(it[2])) for it in blocks if it]
        return cls(kind, elements, body, rank, names)

    def __str__(self) -> str:
        """The text of the document: of version 2 where it has names."""
        lines = ["om 2" if self.names else "om 1",
                 " ".join([self.kind] + ([str(self.rank)] if self.kind == "chirotope" else []) + [str(self.elements)])]
        lines += ["names " + " ".join(self.names)] if self.names else []
        if self.kind == "chirotope":
            values = "".join(["0+-"[it] for it in self.body])
            lines += [values[it:it + 64] for it in range(0, len(values), 64)]
        elif self.kind in LISTS:
            lines += ["".join(["0+-"[it] for it in member]) for member in self.body]
        else:
            lines += [(" " if self.kind == "points" else "-").join(map(str, it)) for it in self.body]
        return "\n".join(lines + ["end", ""])

    def extended(self, signature: Signs, name: Optional[str] = None) -> Document:
        """The chirotope of rank 3 with one element more, whose value with each pair a < b of old ones the signature
        gives. It has names where the document has some and a name for the new element is given."""
        _ask_for(self.kind == "chirotope" and self.rank == 3, "a signature extends a chirotope of rank 3")
        signs, pairs = sign_vector(signature), list(itertools.combinations(range(self.elements), 2))
        _ask_for(len(signs) == len(pairs), "signature: %d signs, and %d are wanted", len(signs), len(pairs))
        values = dict(zip(itertools.combinations(range(self.elements), 3), self.body))
        values.update(zip((it + (self.elements,) for it in pairs), signs))
        return Document.chirotope(3, self.elements + 1,
                                  [values[it] for it in itertools.combinations(range(self.elements + 1), 3)],
                                  _with_name(self.names, name))


def _body_of(kind: str, elements: int, body: Iterable[Any], rank: Optional[int]) -> Tuple[Any, ...]:
    """The body of a document in the form that it is held in; a ValueError where a document has no such body."""
    if kind == "chirotope" and rank is not None:
        _ask_for(0 <= rank <= elements, "rank: %d, of %d elements", rank, elements)
        wanted = math.comb(elements, rank)
        _ask_for(wanted <= MAX_VALUES, "size: %d values, and a document has at most %d", wanted, MAX_VALUES)
        values = sign_vector(body)
        _ask_for(len(values) == wanted, "chirotope: %d values, and %d are wanted", len(values), wanted)
        return values
    if kind in LISTS:
        members = tuple(map(sign_vector, body))
        for member in members:
            _ask_for(len(member) == elements, "%s: a member has %d signs, and there are %d elements", kind, len(member),
                     elements)
        _ask_for(len(members) <= MAX_MEMBERS or len(set(members)) <= MAX_MEMBERS,
                 "%s: a document has at most %d members", kind, MAX_MEMBERS)
        return members
    what, length, least, most = (("point", 3, -MAX_COORDINATE, MAX_COORDINATE) if kind == "points" else
                                 ("block", 2, 0, 999))
    rows = tuple(tuple([_whole(it, what) for it in row]) for row in body)
    for row in rows:
        _ask_for(len(row) == length and least <= min(row) and max(row) <= most,
                 "%s: %d numbers from %d to %d are wanted, and not %r", what, length, least, most, row)
    _ask_for(kind != "points" or len(rows) == elements, "points: %d, and %d are wanted", len(rows), elements)
    _ask_for(kind != "wiring" or len(rows) <= MAX_BLOCKS, "wiring: a document has at most %d blocks", MAX_BLOCKS)
    return rows


def _in_lexicographic_order(values: str, rank: int, elements: int) -> str:
    """Values that stand in reverse lexicographic order of the sets, in lexicographic order."""
    _ask_for(rank <= elements <= MAX_ELEMENTS and math.comb(elements, rank) == len(values),
             "chirotope: %d values for rank %d on %d elements", len(values), rank, elements)
    sets = list(itertools.combinations(range(elements), rank))
    at = dict(zip(sorted(sets, key=lambda it: it[::-1]), values))
    return "".join([at[it] for it in sets])


def _with_name(names: Tuple[str, ...], name: Optional[str]) -> Tuple[str, ...]:
    """The names with one more for a new element, where both are there."""
    _ask_for(name is None or bool(names), "name: %r, and the document has no names", name)
    return () if name is None else names + (name,)


class Extensions(NamedTuple):
    """The first extensions by one element, each by its signs at the pairs of old ones, and whether these are all."""

    signatures: Tuple[Vector, ...]
    are_all: bool


class Claim(NamedTuple):
    """A document with a verdict and the lines of its evidence; `str` gives the text that `check` reads."""

    document: Document
    verdict: str
    lines: Tuple[str, ...]

    @classmethod
    def read(cls, text: Union[str, bytes]) -> Claim:
        """The claim of a text that `check` reads; a ValueError where it can't be read at all."""
        if not isinstance(text, (str, bytes)):
            raise TypeError("the text of a claim is wanted, and not %r" % (text,))
        data = text.encode() if isinstance(text, str) else text
        rows = [" ".join(it.decode("latin-1") for it in line) for line in map(words_of, data.split(b"\n")) if line]
        _ask_for(rows.count("end") == 2 and rows[-1] == "end",
                 "a claim is a document and a verdict with its evidence, each up to a line 'end'")
        at = rows.index("end")
        _ask_for(rows[at + 1] in VERDICTS, "verdict: %r is none of %s", rows[at + 1], ", ".join(VERDICTS))
        return cls(Document.read("\n".join(rows[:at + 1])), rows[at + 1], tuple(rows[at + 2:-1]))

    def __str__(self) -> str:
        return "\n".join([str(self.document) + self.verdict, *self.lines, "end", ""])

    @property
    def vectors(self) -> Tuple[Vector, ...]:
        """The vectors that realize the chirotope, of the verdict realizable."""
        return tuple(tuple(map(int, it.split()[1:])) for it in self.lines
                     if it.startswith("vector ")) if self.verdict == "realizable" else ()

    @property
    def entries(self) -> Tuple[Tuple[Union[str, int], ...], ...]:
        """The entries of a certificate, as ('lt', a, b, c, d, e, small, big, m), of the verdict nonrealizable."""
        return tuple((it.split()[0], *map(int, it.split()[1:])) for it in self.lines if it.startswith(("lt ", "eq ")))

    @property
    def weights(self) -> Dict[Tuple[int, ...], int]:
        """The weight of each bracket, of the verdict undecided."""
        rows = [tuple(map(int, it.split()[1:])) for it in self.lines if it.startswith("weight ")]
        return {it[:3]: it[3] for it in rows}


Asked = Union[Document, Claim, str, bytes]


class Hull(NamedTuple):
    """Where there is one, the first circuit without minus; else the extreme elements and those inside, each with its
    evidence."""

    circuit: Optional[Vector]
    extreme: Dict[int, Vector]
    inside: Dict[int, Vector]

    @property
    def is_acyclic(self) -> bool:
        """Whether no circuit is without minus."""
        return self.circuit is None


class Made(NamedTuple):
    """Made points, and what there is to count of them."""

    points: Document
    plus: int
    zero: int
    minus: int
    cocircuits: int
    covectors: int
    mutations: int


def text_of(document: Asked) -> bytes:
    """The text of what may be asked about."""
    if not isinstance(document, (Document, Claim, str, bytes)):
        raise TypeError("a Document, a Claim or a text is wanted, and not %r" % (document,))
    return document if isinstance(document, bytes) else str(document).encode()


def names_of(document: Asked) -> Tuple[str, ...]:
    """The names of the elements of what may be asked about; none where it has none, or can't be read."""
    if isinstance(document, Claim):
        return document.document.names
    if isinstance(document, Document):
        return document.names
    try:
        return Document.read(document).names if b"names" in text_of(document) else ()
    except ValueError:
        return ()


def program(name: str) -> str:
    """The path of the program om or om_each: the one that OM or OM_EACH in the environment names; one beside that of
    OM_EACH; the one of the repository, the archive or the installation that this file lies in; or one on the path."""
    launcher = name.replace("_", "-")
    each = shutil.which(os.environ["OM_EACH"]) if os.environ.get("OM_EACH") else None
    if os.environ.get(name.upper()):
        found = shutil.which(os.environ[name.upper()])
        if found is None:
            raise FileNotFoundError("%s names no program: %s" % (name.upper(), os.environ[name.upper()]))
        return found
    beside = os.path.dirname(each) if each else ""
    here = os.path.dirname(os.path.abspath(__file__))
    places = [os.path.join(beside, it) for it in (name, launcher, "../../%s/out/%s" % (name, name)) if beside]
    places += [os.path.join(here, it) for it in ("../crates/%s/out/%s" % (name, name), "../" + launcher,
                                                 "../../../libexec/om/" + name)]
    for place in places:
        if os.path.isfile(place) and os.access(place, os.X_OK):
            return os.path.normpath(place)
    found = shutil.which(launcher) or shutil.which(name)
    if found is None:
        raise FileNotFoundError(
            "the program %s isn't there. Name it by %s in the environment, or put %s on the path. ./%s accept < "
            "examples/pappus.om builds it in a copy of the repository, and install.sh there puts it under a prefix" %
            (name, name.upper(), launcher, launcher))
    return found


class _Program:
    """om_each with some words, over two pipes. Pieces go out while the lines of answers come in, so neither side waits
    for the other, however long both are. It belongs to the process that started it."""

    def __init__(self, path: str, words: Tuple[str, ...]):
        self.answers: Deque[List[str]] = collections.deque()
        self.unsent = bytearray()
        self._part: List[str] = []
        self._blocks, self._rest = 0, ""
        self._ends = ("end", "more") if words[:1] == ("extend",) else ("end",)
        self._blocks_of_long = 2 if words[:1] == ("decide",) else 1
        self.owner = os.getpid()
        self.process = subprocess.Popen([path, *words], stdin=subprocess.PIPE, stdout=subprocess.PIPE, bufsize=0)
        assert self.process.stdin and self.process.stdout
        self._pipes = self.process.stdin, self.process.stdout
        self._out, self._in = (it.fileno() for it in self._pipes)
        os.set_blocking(self._out, False)
        _PROGRAMS.add(self)

    def write(self) -> None:
        """Writes what the pipe takes. Where nobody reads any more, the end of the answers says so."""
        try:
            while self.unsent:
                del self.unsent[:os.write(self._out, self.unsent)]
        except BlockingIOError:
            pass
        except BrokenPipeError:
            self.unsent.clear()

    def exchange(self, deadline: Optional[float]) -> None:
        """Waits until something can be read, or written where there is something, and does so."""
        self.write()
        if self.unsent or deadline is not None:
            poll = select.poll()
            poll.register(self._in, select.POLLIN)
            if self.unsent:
                poll.register(self._out, select.POLLOUT)
            left = None if deadline is None else max(0, math.ceil(1000 * (deadline - time.monotonic())))
            ready = dict(poll.poll(left))
            if not ready:
                raise Timeout("there was no answer in time")
            self.write()
            if self._in not in ready:
                return
        data = os.read(self._in, 1 << 18)
        if not data:
            raise Died(self.code())
        *lines, self._rest = (self._rest + data.decode("latin-1")).split("\n")
        for line in lines:
            self.take(line)

    def take(self, line: str) -> None:
        """Takes a line, with which an answer may be whole: its first line tells with which one it ends."""
        self._part.append(line)
        if len(self._part) == 1:
            is_long = line.startswith(("om ", "mutations ")) or line == "acyclic"
            self._blocks = self._blocks_of_long if is_long else 0
        elif line in self._ends:
            self._blocks -= 1
        if not self._blocks:
            self.answers.append(self._part)
            self._part = []

    def code(self) -> int:
        """The exit code of the program, whose answers are at their end."""
        try:
            self.process.wait(1)
        except subprocess.TimeoutExpired:
            self.process.kill()
        return self.process.wait()

    def end(self) -> None:
        """Ends the program, whatever it does."""
        for pipe in self._pipes:
            pipe.close()
        self.process.kill()
        self.process.wait()

    def leave(self) -> None:
        """Closes the pipes in another process than the one that opened them, which has them still."""
        for pipe in self._pipes:
            pipe.close()
        self.process.returncode = 0  # it isn't a child of this process, which can't wait for it


_PROGRAMS: weakref.WeakSet[_Program] = weakref.WeakSet()
_WORKBENCHES: weakref.WeakSet[Workbench] = weakref.WeakSet()


def _leave_all() -> None:
    """In a process that was forked: what is open belongs to the one that it was forked from."""
    for it in list(_PROGRAMS):
        it.leave()
    for bench in list(_WORKBENCHES):
        bench._begin()


os.register_at_fork(after_in_child=_leave_all)


class Workbench:
    """Asks the program. It may be used in a `with`. Several threads may share one, and are answered in turn. A process
    that is forked off has programs of its own, and so has a copy.

    `each` and `single` are the paths of the programs om_each and om, where `program` isn't to look for them. An answer
    that takes longer than `timeout` seconds is `Timeout`."""

    def __init__(self, each: Optional[str] = None, single: Optional[str] = None, timeout: Optional[float] = None):
        self._each, self._single, self.timeout = each, single, timeout
        self._begin()
        _WORKBENCHES.add(self)

    def _begin(self) -> None:
        """Nothing is held open."""
        self._owner, self._turn = os.getpid(), threading.RLock()
        self._open: collections.OrderedDict[Tuple[str, ...], _Program] = collections.OrderedDict()

    def __reduce__(self) -> Tuple[Any, ...]:
        return Workbench, (self._each, self._single, self.timeout)

    def __enter__(self) -> Workbench:
        return self

    def __exit__(self, *_: object) -> None:
        self.close()

    def __del__(self) -> None:
        if getattr(self, "_owner", None) == os.getpid():
            self.close()

    def close(self) -> None:
        """Ends the programs that are held open; a later question starts them again."""
        with self._turn:
            while self._open:
                self._open.popitem()[1].end()

    def _program(self, words: Tuple[str, ...]) -> _Program:
        """The program that is held open for these words; of many the one that was asked last before all others ends."""
        found = self._open.pop(words, None)
        if found is None:
            while len(self._open) >= MOST_OPEN:
                self._open.popitem(last=False)[1].end()
            found = _Program(self._each or program("om_each"), words)
        self._open[words] = found
        return found

    def _deadline(self) -> Optional[float]:
        return None if self.timeout is None else time.monotonic() + self.timeout

    def _ask(self, words: Tuple[str, ...], piece: bytes) -> List[str]:
        """The lines of the answer to one closed piece. Where the talk breaks off, the program is ended, so that no
        later question gets the rest."""
        if self._owner != os.getpid():
            self._begin()
        with self._turn:
            asked, deadline, is_over = self._program(words), self._deadline(), False
            try:
                asked.unsent += piece
                while not asked.answers:
                    asked.exchange(deadline)
                lines = asked.answers.popleft()
                is_over = not lines[0].startswith("usage ")
                return lines
            finally:
                if not is_over:
                    asked.end()
                    self._open.pop(words, None)

    def _run(self, words: Tuple[str, ...], text: bytes) -> List[str]:
        """The lines of the answer of om itself, which takes any bytes as one document."""
        try:
            ended = subprocess.run([self._single or program("om"), *words], input=text, stdout=subprocess.PIPE,
                                   timeout=self.timeout)
        except subprocess.TimeoutExpired:
            raise Timeout("there was no answer in time") from None
        if ended.returncode not in (0, 1, 2, 3):
            raise Died(ended.returncode)
        return ended.stdout.decode().split("\n")[:-1]

    def answer(self, words: Words, document: Asked) -> List[str]:
        """The lines of the answer to a document, whatever they say."""
        said, text = _words(words), text_of(document)
        piece = closed_piece(text, 2 if said[:1] == ("check",) else 1)
        return self._run(said, text) if piece is None or not said else self._ask(said, piece)

    def each(self, words: Words, documents: Iterable[Asked]) -> Iterator[List[str]]:
        """The lines of the answer to each of many documents, in their order, as `answer` gives them.

        Documents go out while answers come in: up to 1,000 of them are taken before their answers. The program is one
        of its own, which ends with the stream, so other questions may be asked meanwhile. Words that are no command
        are `Usage`. An error of what gives the documents comes up behind the answers to those before it."""
        said, source = _words(words), iter(documents)
        ends, asked = 2 if said[:1] == ("check",) else 1, _Program(self._each or program("om_each"), said)
        # of each document without an answer yet: nothing, or the answer of om itself
        waiting: Deque[Optional[List[str]]] = collections.deque()
        fault: Optional[Exception] = None
        try:
            while waiting or fault is None:
                if asked.owner != os.getpid():
                    raise RuntimeError("the stream belongs to the process that began it")
                # in lots, so that the program always has something to do, and a read brings many answers
                lot = AHEAD - len(waiting) if len(waiting) <= AHEAD // 2 else 0
                while lot and fault is None and len(asked.unsent) < AHEAD_BYTES:
                    lot -= 1
                    try:
                        text = text_of(next(source))
                        piece = closed_piece(text, ends)
                        waiting.append(None if piece else self._run(said, text))
                        asked.unsent += piece or b""
                    except Exception as error:  # also that there are no more
                        fault = error
                deadline = self._deadline()
                while waiting and waiting[0] is None and not asked.answers:
                    asked.exchange(deadline)
                while waiting and (waiting[0] is not None or asked.answers):
                    lines = waiting.popleft()
                    if lines is None:
                        lines = asked.answers.popleft()
                    if lines[0].startswith("usage "):
                        raise Usage(lines[0])
                    yield lines
            if not isinstance(fault, StopIteration):
                raise fault
        finally:
            if asked.owner == os.getpid():
                asked.end()

    def _said(self, words: Sequence[str], document: Asked) -> List[str]:
        """The lines of an answer that is no refusal and no limit."""
        lines = self.answer(words, document)
        for begin, error in (("refused ", Refused), ("limit ", Limit), ("usage ", Usage)):
            if lines[0].startswith(begin):
                raise error(lines[0])
        return lines

    def _document(self, words: Sequence[str], document: Asked) -> Document:
        """The document of an answer on the same elements, with their names."""
        found = Document.read("\n".join(self._said(words, document)))
        return found if found.names else found._replace(names=names_of(document))

    def accept(self, document: Asked) -> bool:
        """True where the document meets the axioms of its kind; else Refused has the first violated instance."""
        return self._said(["accept"], document) == ["accepted"]

    def member(self, document: Asked, signs: Signs) -> bool:
        """Whether the sign vector is a covector."""
        return self._said(["member", sign_text(signs)], document) == ["covector"]

    def convert(self, document: Asked, kind: str) -> Document:
        """The same oriented matroid as a document of the kind chirotope, circuits, cocircuits or covectors."""
        return self._document(["convert", kind], document)

    def dual(self, document: Asked) -> Document:
        """The dual."""
        return self._document(["dual"], document)

    def _minor(self, command: str, document: Asked, element: SupportsIndex) -> Document:
        number, names = _whole(element, "element"), names_of(document)
        found = Document.read("\n".join(self._said([command, str(number)], document)))
        return found._replace(names=names[:number - 1] + names[number:])

    def delete(self, document: Asked, element: SupportsIndex) -> Document:
        """The deletion of an element; those above it move down by one, and keep their names."""
        return self._minor("delete", document, element)

    def contract(self, document: Asked, element: SupportsIndex) -> Document:
        """The contraction of an element; those above it move down by one, and keep their names."""
        return self._minor("contract", document, element)

    def reorient(self, document: Asked, *elements: SupportsIndex) -> Document:
        """The reorientation on these elements."""
        return self._document(["reorient", *map(str, sorted(_whole(it, "element") for it in elements))], document)

    def wiring(self, document: Asked) -> Document:
        """The least wiring diagram of a sweepable chirotope of rank 3."""
        return self._document(["wiring"], document)

    def mutations(self, document: Asked) -> Tuple[Vector, ...]:
        """The triples of a chirotope of rank 3 whose sign can be turned alone."""
        return tuple(tuple(map(int, it.split(","))) for it in self._said(["mutations"], document)[1:-1])

    def flip(self, document: Asked, a: SupportsIndex, b: SupportsIndex, c: SupportsIndex) -> Document:
        """The chirotope with the sign of a mutation turned."""
        return self._document(["flip", *map(str, sorted(_whole(it, "element") for it in (a, b, c)))], document)

    def extend(self, document: Asked, first: SupportsIndex = 100_000) -> Extensions:
        """The first extensions of a chirotope of rank 3 by one element (`Document.extended`)."""
        lines = self._said(["extend", "--first=%d" % _whole(first, "first")], document)
        return Extensions(tuple(map(sign_vector, lines[2:-1])), lines[-1] == "end")

    def decide(self, document: Asked, box: SupportsIndex = 6, steps: SupportsIndex = 2_000_000,
               pivots: SupportsIndex = 20_000) -> Claim:
        """The claim that realizes a chirotope of rank 3, or shows that nothing does, or that there is no certificate;
        else Limit."""
        budget = ["--%s=%d" % (it, _whole(value, it))
                  for it, value in (("box", box), ("steps", steps), ("pivots", pivots))]
        text = "\n".join(self._said(["decide", *budget], document) + [""])
        claim = Claim.read(text)
        if claim.verdict == "limit":
            limit = Limit("limit")
            limit.claim = text
            raise limit
        return claim._replace(document=claim.document._replace(names=names_of(document)))

    def check(self, claim: Asked) -> str:
        """The verdict that the evidence of a claim proves: realizable, nonrealizable or undecided."""
        return self._said(["check"], claim)[0].split()[1]

    def paint(self, document: Asked, colours: str, element: SupportsIndex) -> Tuple[str, Vector]:
        """('circuit', X) or ('cocircuit', X) that goes through the element and fits the colours R, G, B and W."""
        kind, signs = self._said(["paint", colours, str(_whole(element, "element"))], document)[0].split()
        return kind, sign_vector(signs)

    def hull(self, document: Asked) -> Hull:
        """Whether the oriented matroid is acyclic, and which elements are extreme."""
        rows = [it.split() for it in self._said(["hull"], document)]
        if rows[0][0] == "cyclic":
            return Hull(sign_vector(rows[0][1]), {}, {})
        of = {kind: {int(it[1]): sign_vector(it[2]) for it in rows if it[0] == kind} for kind in ("extreme", "inside")}
        return Hull(None, of["extreme"], of["inside"])

    def lexext(self, document: Asked, *elements: SupportsIndex, name: Optional[str] = None) -> Document:
        """The lexicographic extension by elements with signs, as 4, -3 for [4+, 3-]. It has names where the document
        has some and a name for the new element is given."""
        names = _with_name(names_of(document), name)
        words = ["lexext", *("%+d" % _whole(it, "element") for it in elements)]
        return Document.read("\n".join(self._said(words, document)))._replace(names=names)

    def threeterm(self, document: Asked) -> bool:
        """True where the map of a chirotope document meets the three-term test; else Refused has the first part that
        fails."""
        return self._said(["threeterm"], document) == ["accepted"]

    def upgrade(self, document: Asked) -> Document:
        """The document with its names, or with names e1, e2 and so on."""
        return self._document(["upgrade"], document)

    def make(self, number: SupportsIndex, count: SupportsIndex = 16) -> Made:
        """The points that a number gives, and what there is to count of them."""
        lines = self._run(("make", str(_whole(number, "number")), "--count=%d" % _whole(count, "count")), b"")
        if lines[0].startswith("usage "):
            raise Usage(lines[0])
        end = lines.index("end")
        counts = dict(it.split() for it in lines[end + 1:])
        return Made(Document.read("\n".join(lines[:end + 1])), *(int(counts[it]) for it in Made._fields[1:]))


def _words(words: Words) -> Tuple[str, ...]:
    """Words that are given one by one, or as a text with blanks between them."""
    return tuple(words.split() if isinstance(words, str) else words)
