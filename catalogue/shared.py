"""What the programs of this folder share: they find `om_each` and `om_classes`, read documents and claims by
neighbours/documents.py, ask these programs over two pipes, and end well.

A document that is read here is of version 1, a chirotope of rank 3. Python's standard library alone.
"""
import fcntl
import functools
import itertools
import os
import shutil
import subprocess
import sys
import threading

TOP = os.path.dirname(os.path.dirname(os.path.abspath(__file__)))
sys.path.insert(1, os.path.join(TOP, "neighbours"))

from documents import VERDICTS, Lines, Reader  # noqa: E402
from filters import MAX_ELEMENTS, Refused, WrongWords, end, ready_streams  # noqa: E402

CONVERT = ": `om-each convert chirotope` writes the chirotope of each document"
ENDS = (b"end\n", b"more\n")  # the last line of a block
LINE, LISTING, CLAIM = 0, 1, 2  # how many blocks an answer has: one of check, of extend, of decide
PIPE_SIZE = getattr(fcntl, "F_SETPIPE_SZ", 1031)
LOT = 500  # documents that are asked for at once


def run(main):
    """Runs a program to its end. What it wrote before a fault are whole documents, and it has no traceback."""
    code, reason = 0, ""
    try:
        ready_streams()
        try:
            main()
        finally:
            sys.stdout.flush()
    except (Refused, UnicodeDecodeError) as fault:
        code, reason = 1, str(fault)
    except WrongWords as fault:
        code, reason = 2, str(fault)
    except BrokenPipeError:
        code = 5  # a reader that goes away, as head does, wants to hear no more
    except OSError as fault:
        code, reason = 5, "reading or writing failed: %s" % fault.strerror
    except KeyboardInterrupt:
        code, reason = 130, "interrupted"
    end(code, reason)


def find(variable, places, advice):
    """The program that an environment variable names, or the first of these places where one is."""
    for place in [os.environ[variable]] if os.environ.get(variable) else places:
        if shutil.which(place):
            return place
    raise Refused(advice)


def om_each():
    """The program that answers a stream of documents."""
    places = [os.path.join(TOP, "crates", "om_each", "out", "om_each"), os.path.join(TOP, "om-each"), "om-each",
              "om_each"]
    return find("OM_EACH", places, "om_each isn't there: build it, or name it by OM_EACH")


def om_classes():
    """The program that reads lists of classes, and says what is the least chirotope of a class."""
    places = [os.path.join(TOP, "crates", "om_classes", "out", "om_classes"), os.path.join(TOP, "om-classes"),
              "om-classes", "om_classes"]
    return find("OM_CLASSES", places, "om_classes isn't there: build it, or name it by OM_CLASSES")


def labelg():
    """The program of nauty that labels graphs canonically."""
    return find("LABELG", ["labelg", "nauty-labelg"],
                "labelg of nauty isn't there (Debian: nauty): install it, or name it by LABELG")


@functools.lru_cache(None)
def triples(n):
    """The triples of n elements, from 0 on, in lexicographic order."""
    return tuple(itertools.combinations(range(n), 3))


def text_of(n, signs):
    """The text of a document, as `Document.text` writes it, but quicker: a search writes many."""
    if len(signs) > 64:
        signs = "\n".join(signs[k : k + 64] for k in range(0, len(signs), 64))
    return "om 1\nchirotope 3 %d\n%s\nend\n" % (n, signs)


def vector_lines(vectors):
    """The lines behind the word `realizable` of a claim, with their end."""
    return "".join(["vector %d %d %d\n" % tuple(vector) for vector in vectors]) + "end\n"


def documents(source, claims=False):
    """The number of elements and the signs of each document, and with claims the words of the lines of its verdict
    block. An empty stream is refused."""
    lines, count = Lines(source), 0
    rest = iter(lines)
    following = next(rest, None)
    while following is not None:
        count += 1
        document = chirotope(count, following, lines, rest)
        following, block = next(rest, None), []
        if following is not None and len(following) == 1 and following[0] in VERDICTS:
            if not claims:
                raise Refused("document %d: a claim, where documents are read" % count)
            while following != ["end"]:
                block.append(following)
                following = next(rest, None)
                if following is None or following[0] == "om":
                    raise Refused("document %d: it breaks off in its block" % count)
            following = next(rest, None)
        yield (document.elements, document.body, block) if claims else (document.elements, document.body)
    if not count:
        # so a step before it that failed is seen at the end of a pipe, too
        raise Refused("the input has no document")


def chirotope(number, words, lines, rest):
    """The document of this number, which begins with a line of these words and goes on with the rest of the lines."""
    if words == ["om", "2"]:
        raise Refused("document %d: it doesn't begin with the line `om 1`%s" % (number, CONVERT))
    try:
        document = Reader(words, rest).document()
    except Refused as refused:
        raise Refused("document %d, line %d: %s" % (number, lines.number, refused)) from None
    if (document.kind, document.rank) != ("chirotope", 3):
        raise Refused("document %d: `%s`, where chirotopes of rank 3 on at most %d elements are read%s" %
                      (number, document.head(), MAX_ELEMENTS, "" if document.kind == "chirotope" else CONVERT))
    return document


def lots(items):
    """Items in lists of up to LOT. Where a fault comes up between them, it comes behind the list of those before it."""
    lot, fault = [], None
    while fault is None:
        try:
            lot.append(next(items))
        except StopIteration:
            break
        except (Refused, OSError) as found:
            fault = found
        if len(lot) == LOT:
            yield lot
            lot = []
    if lot:
        yield lot
    if fault:
        raise fault


class Conversation:
    """`om_each` with these words, kept open: it answers a document as soon as it has it. Or another program, which ends
    with its first refusal."""

    def __init__(self, *words, program=None):
        self.ends_early = program is not None
        self.process = subprocess.Popen([program or om_each(), *words], stdin=subprocess.PIPE, stdout=subprocess.PIPE)
        for pipe in (self.process.stdin, self.process.stdout):
            try:
                fcntl.fcntl(pipe, PIPE_SIZE, 1 << 20)
            except OSError:
                pass  # a shorter pipe is slower: one program waits for the other more often

    def ask(self, text, blocks):
        """The answer to one document, in bytes."""
        return self.ask_all([text], blocks)[0]

    def ask_all(self, texts, blocks):
        """The answer to each document, in their order. They go out while answers come in, since a pipe holds little. A
        program that ends with a refusal gives it as the last answer."""
        writer = threading.Thread(target=self.write, args=("".join(texts).encode(),), daemon=True)
        writer.start()
        answers = []
        for _ in texts:
            answers.append(self.answer(blocks))
            if self.ends_early and not answers[-1].startswith(b"om"):
                break
        writer.join()
        return answers

    def write(self, data):
        try:
            self.process.stdin.write(data)
            self.process.stdin.flush()
        except BrokenPipeError:
            pass  # the end of its answers says so

    def answer(self, blocks):
        """One answer: a line, or where it begins with `om` so many blocks of lines."""
        lines = [self.line()]
        while blocks and lines[0].startswith(b"om"):
            lines.append(self.line())
            blocks -= lines[-1] in ENDS
        return b"".join(lines)

    def line(self):
        line = self.process.stdout.readline()
        if not line.endswith(b"\n"):
            name = os.path.basename(self.process.args[0])
            raise Refused("%s ended with code %d" % (name, self.process.wait()))
        return line

    def close(self):
        self.process.stdin.close()
        self.process.stdout.close()
        self.process.wait()
