#!/usr/bin/env python3
"""neighbours/check_om.py

Asks the built programs by om.py, and compares the values with what the definitions give for small oriented matroids,
most of them the uniform one of rank 3 on four elements. Also: values and texts that are no document, streams, forked
processes, texts that are no single closed piece, a program that ends, and the lines after `sage: ` of SAGE.md that need
no Sage. If mypy is installed it has to accept the types. The last line is 'om.py: N passed, M failed', and the exit
code is 1 if one failed.
"""
import copy
import doctest
import glob
import importlib.machinery
import importlib.util
import itertools
import multiprocessing
import os
import pickle
import re
import shutil
import signal
import subprocess
import sys
import tempfile
import threading
from pathlib import Path

HERE = os.path.dirname(os.path.abspath(__file__))
sys.path.insert(0, HERE)
from om import Claim, Died, Document, Limit, Refused, Timeout, Usage, Workbench, pieces, sign_vector  # noqa: E402

TALLY = {True: 0, False: 0}
UNIFORM = Document.chirotope(3, 4, "++++")
# a workbench that forked processes share, and what they ask it
SHARED = Workbench()
SEVERAL = [Document.chirotope(2, 4, signs) for signs in itertools.product((-1, 1), repeat=6)]


def expect(what, found, wanted):
    """Counts a value, which has to be what is wanted."""
    TALLY[found == wanted] += 1
    if found != wanted:
        print("failed: %s\n--- wanted %r\n--- found  %r" % (what, wanted, found))


def raised(ask, *given, **named):
    """The kind and the text of the error that a question ends with."""
    try:
        return ask(*given, **named)
    except (Refused, Limit, Usage, Died, Timeout, ValueError, TypeError, OSError) as error:
        return type(error), str(error)


def example(name):
    """The text of a shipped example."""
    with open(os.path.join(os.path.dirname(HERE), "examples", name)) as file:
        return file.read()


def vectors(*texts):
    return tuple(map(sign_vector, texts))


def values(om):
    """Each command, on values."""
    expect("accept", om.accept(UNIFORM), True)
    expect("accept a text", om.accept(example("pappus.om")), True)
    expect("a refusal", raised(om.accept, Document.chirotope(2, 4, [1, -1, 1, 1, 1, 1])),
           (Refused, "refused relation 1,2,3 4"))
    expect("the next one", om.accept(UNIFORM), True)
    expect("a covector", om.member(UNIFORM, (1, 1, -1, 1)), True)
    expect("no covector", om.member(UNIFORM, "+-+-"), False)
    expect("another length", raised(om.member, UNIFORM, "+++"), (Refused, "refused length 3"))
    expect("circuits", om.convert(UNIFORM, "circuits"), Document.circuits(["-+-+", "+-+-"]))
    expect("and back", om.convert(om.convert(UNIFORM, "circuits"), "chirotope"), UNIFORM)
    cocircuits = Document.cocircuits("--00 -00- -0+0 0--0 0-0+ 00-- 00++ 0+0- 0++0 +0-0 +00+ ++00".split())
    expect("cocircuits", om.convert(UNIFORM, "cocircuits"), cocircuits)
    expect("too many covectors", raised(om.convert, Document.chirotope(8, 16, "+" * 12870), "covectors"),
           (Limit, "limit members 4096"))
    expect("dual", om.dual(UNIFORM), Document.chirotope(1, 4, "+-+-"))
    expect("dual of circuits", om.dual(Document.circuits(["-+-+", "+-+-"])), Document.cocircuits(["-+-+", "+-+-"]))
    expect("delete", om.delete(UNIFORM, 4), Document.chirotope(3, 3, "+"))
    expect("contract", om.contract(UNIFORM, 4), Document.chirotope(2, 3, "+++"))
    expect("reorient", om.reorient(UNIFORM, 1), Document.chirotope(3, 4, "+++-"))
    expect("wiring", om.wiring(UNIFORM), Document.wiring(4, [(1, 2), (2, 3), (1, 2), (3, 4), (2, 3), (1, 2)]))
    expect("a wiring", om.convert(Document.wiring(3, [(1, 2), (2, 3), (1, 2)]), "chirotope"),
           Document.chirotope(3, 3, "+"))
    expect("mutations", om.mutations(UNIFORM), ((1, 2, 3), (1, 2, 4), (1, 3, 4), (2, 3, 4)))
    expect("one mutation", om.mutations(Document.chirotope(3, 4, "+000")), ((1, 2, 3),))
    expect("flip", om.flip(UNIFORM, 1, 2, 3), Document.chirotope(3, 4, "-+++"))
    listing = om.extend(Document.chirotope(3, 3, "+"))
    # a sign for each of three pairs, and three vectors of rank 3 have no circuit: each map is one
    expect("extensions", (len(listing.signatures), listing.are_all, listing.signatures[0]), (27, True, (-1, -1, -1)))
    first = om.extend(Document.chirotope(3, 3, "+"), first=2)
    expect("the first extensions", (first.signatures, first.are_all), (vectors("---", "--0"), False))
    expect("an extension", Document.chirotope(3, 3, "+").extended("-0+"), Document.chirotope(3, 4, "+-0+"))
    expect("extensions are accepted",
           all(om.accept(Document.chirotope(3, 3, "+").extended(it)) for it in listing.signatures), True)
    expect("paint", om.paint(UNIFORM, "RRRR", 1), ("cocircuit", (1, 0, 0, 1)))
    expect("paint a circuit", om.paint(UNIFORM, "RGRG", 1), ("circuit", (1, -1, 1, -1)))
    expect("hull", (om.hull(UNIFORM).is_acyclic, om.hull(UNIFORM).extreme),
           (True, dict(enumerate(vectors("-0+0", "0-0+", "+0-0", "0+0-"), 1))))
    inside = om.hull(Document.points([(0, 0, 1), (3, 0, 1), (0, 3, 1), (1, 1, 1)]))
    expect("a point inside", (sorted(inside.extreme), inside.inside), ([1, 2, 3], {4: (1, 1, 1, -1)}))
    expect("no hull", om.hull(Document.chirotope(1, 2, "+-")).circuit, (1, 1))
    expect("lexext", om.lexext(Document.chirotope(3, 3, "+"), 1), Document.chirotope(3, 4, "+00+"))
    expect("threeterm", om.threeterm(UNIFORM), True)
    expect("a relation of three terms", raised(om.threeterm, Document.chirotope(2, 4, "+-++++")),
           (Refused, "refused threeterm none 1,2,3,4"))
    expect("upgrade", om.upgrade(UNIFORM), UNIFORM._replace(names=("e1", "e2", "e3", "e4")))
    # the signs of vectors (1, 0), (0, 1), (-1, 1), (-1, 0) and (1, 1)
    five = Document.chirotope(2, 5, [1, 1, 0, 1, 1, 1, -1, 1, -1, -1], "abcde")
    expect("upgrade turns the order, and back", om.upgrade(five), five)
    expect("read with an order", Document.read("om 2\nchirotope 2 4\norder revlex\n0++000\nend\n").body,
           sign_vector("0+0+00"))
    expect("names are kept in a text", Document.read(str(five)), five)
    expect("halves", om.upgrade(Document.circuits(["+-+-", "-+-+"])).body, vectors("+-+-", "-+-+"))
    made = om.make(7, 4)
    expect("make", (made.points.body[-1],) + made[1:], ((-2, 0, 1), 2, 1, 1, 8, 39, 3))


def verdicts(om):
    """Claims, and what is proved by them."""
    claim = om.decide(UNIFORM)
    expect("vectors", (claim.verdict, claim.vectors), ("realizable", ((1, 0, 0), (0, 1, 0), (0, 0, 1), (1, -1, 1))))
    expect("the vectors' signs", om.convert(Document.points(claim.vectors), "chirotope"), UNIFORM)
    expect("check", om.check(claim), "realizable")
    wrong = claim._replace(lines=claim.lines[:3] + ("vector 1 1 1",))
    expect("a wrong sign", raised(om.check, wrong), (Refused, "refused wrongsign 1,3,4"))
    none = om.decide(example("non-pappus.om"))
    expect("a certificate", (om.check(none), none.entries[0][0] in ("lt", "eq"), len(none.entries[0])),
           ("nonrealizable", True, 9))
    expect("a shipped claim", om.check(example("non-pappus-claim.om")), "nonrealizable")
    shipped = example("non-pappus-claim.om")
    expect("a claim's text", "# The" + shipped.partition("# The")[2].partition("\n")[0] + "\n" +
           str(Claim.read(shipped)), shipped)
    expect("no claim's text", raised(Claim.read, str(UNIFORM))[0], ValueError)
    weights = om.decide(example("pappus.om"), box=1)
    expect("weights", (om.check(weights), min(weights.weights)), ("undecided", (1, 2, 4)))
    expect("a limit", raised(om.decide, example("non-pappus.om"), box=1, steps=1, pivots=1), (Limit, "limit"))
    expect("behind it", om.decide(UNIFORM).verdict, "realizable")
    expect("no claim", raised(om.check, str(UNIFORM)), (Refused, "refused line 5 missing"))


def odd_texts(om):
    """Texts that are no single closed piece are answered as om answers them, and the next question gets its own
    answer."""
    text = str(UNIFORM)
    for what, given, wanted in [
        ("nothing", "", "refused line 1 missing"), ("a comment", "# x\n", "refused line 2 missing"),
        ("no end", text[:-4], "refused line 4 missing"),
        ("two documents", text + text, "refused line 5 after"),
        ("the word om inside", "om 1\nom 1\nend\n", "refused line 2 kind"),
        ("too long", text + "#" * 1_048_576, "refused long"),
        ("a wrong sign", "om 1\nchirotope 3 4\n+++x\nend\n", "refused line 3 sign"),
    ]:
        expect(what, raised(om.accept, given), (Refused, wanted))
        expect("behind it", om.accept(UNIFORM), True)
    expect("no line feed at the end", om.accept(text[:-1]), True)
    expect("a comment behind the end", om.accept(text + "# x\n\n"), True)
    expect("the line counts from the document's first", raised(om.accept, "om 1\nx\nend\n"),
           (Refused, "refused line 2 kind"))
    expect("no command", raised(om.convert, UNIFORM, "pictures"), (Usage, "usage 2"))
    expect("a number out of range", raised(om.delete, UNIFORM, 21), (Usage, "usage 2"))
    expect("an element out of range", raised(om.delete, UNIFORM, 5), (Refused, "refused place 5"))
    expect("no sign", raised(Document.chirotope, 1, 1, [2])[0], ValueError)
    expect("no document", raised(Document.read, "om 1")[0], ValueError)
    stream = b"# a\nom 1\nend # x\n# y\nom 1\n+-\nom 1\nend\n# b\n"
    expect("pieces", list(pieces(stream.splitlines(True))),
           [b"# a\nom 1\nend # x\n", b"# y\nom 1\n+-\n", b"om 1\nend\n"])
    expect("pieces of claims", list(pieces([b"om 1\n", b"end\n", b"a\n", b"end\n", b"om"], 2)),
           [b"om 1\nend\na\nend\n", b"om"])


def ends(om):
    """A program that ends is an error of its own, and is started again."""
    om.accept(UNIFORM)
    process = om._open[("accept",)].process
    os.kill(process.pid, signal.SIGKILL)
    process.wait()
    expect("killed", raised(om.accept, UNIFORM), (Died, "the program ended with exit code -9"))
    expect("started again", om.accept(UNIFORM), True)
    for code in 0, 4, 6:
        with tempfile.NamedTemporaryFile("w", suffix=".sh", delete=False) as file:
            file.write("#!/bin/sh\nexit %d\n" % code)
        os.chmod(file.name, 0o755)
        with Workbench(file.name) as other:
            expect("a program that ends with %d" % code, raised(other.accept, UNIFORM)[0], Died)
        os.remove(file.name)
    process = om._open[("accept",)].process
    om.close()
    expect("closed", process.returncode is None, False)
    with tempfile.NamedTemporaryFile("w", suffix=".sh", delete=False) as file:
        file.write("#!/bin/sh\nexec sleep 60\n")
    os.chmod(file.name, 0o755)
    with Workbench(file.name, file.name, timeout=0.1) as slow:
        for what, ask in (("a question", lambda: slow.accept(UNIFORM)), ("a text", lambda: slow.accept("x")),
                          ("a stream", lambda: list(slow.each("accept", [UNIFORM])))):
            expect("%s that isn't answered in time" % what, raised(ask)[0], Timeout)
    os.remove(file.name)
    found = []
    threads = [threading.Thread(target=lambda: found.append(om.accept(UNIFORM))) for _ in range(20)]
    for it in threads:
        it.start()
    for it in threads:
        it.join()
    expect("threads are answered in turn", found, [True] * 20)


def kind_of_error(ask):
    """What kind of error a call ends with, and whether its message has the value that is given in front."""
    value, call = ask
    found = raised(call)
    return (found[0], value in found[1]) if isinstance(found, tuple) and len(found) == 2 else found


def no_numbers(om):
    """What isn't whole isn't cut off: the error names it."""
    for what, value, call in [
            ("points", "1.9", lambda: Document.points([(1.9, 0, 1)])),
            ("a sign", "1.7", lambda: Document.circuits([[1.7]])),
            ("a sign that is whole, of floats", "1.0", lambda: Document.chirotope(1, 1, [1.0])),
            ("a text as a number", "'1'", lambda: om.delete(UNIFORM, "1")),
            ("an element", "1.9", lambda: om.delete(UNIFORM, 1.9)),
            ("contract", "1.9", lambda: om.contract(UNIFORM, 1.9)),
            ("elements to reorient", "2.5", lambda: om.reorient(UNIFORM, 1, 2.5)),
            ("a triple", "2.5", lambda: om.flip(UNIFORM, 1, 2.5, 3)),
            ("paint", "1.5", lambda: om.paint(UNIFORM, "RRRR", 1.5)),
            ("lexext", "4.5", lambda: om.lexext(UNIFORM, 4.5)), ("extend", "2.5", lambda: om.extend(UNIFORM, 2.5)),
            ("a box", "6.5", lambda: om.decide(UNIFORM, box=6.5)), ("make", "7.5", lambda: om.make(7.5)),
            ("a count", "4.5", lambda: om.make(7, 4.5)), ("a block", "1.5", lambda: Document.wiring(3, [(1.5, 2)])),
            ("elements", "4.0", lambda: Document.chirotope(3, 4.0, "++++")),
            ("a rank", "3.0", lambda: Document.chirotope(3.0, 4, "++++")),
            ("member", "0.5", lambda: om.member(UNIFORM, [1, 0.5, 0, 0]))]:
        expect(what, kind_of_error((value, call)), (TypeError, True))
    for what, given in (("an open file", sys.stdin), ("a path", Path(HERE)), ("nothing", None), ("a list", [UNIFORM])):
        for call in (om.accept, Document.read, lambda it: list(om.each("accept", [it]))):
            expect("%s as a document" % what, raised(call, given)[0], TypeError)

    class Whole:
        def __index__(self):
            return 3
    expect("what Python takes for a whole number", Document.chirotope(Whole(), 3, [True]),
           Document.chirotope(3, 3, "+"))


def no_documents():
    """What has not the form of a document is a ValueError that says what is wrong."""
    for what, value, call in [
            ("three names for four elements", "3 of them", lambda: Document.chirotope(3, 4, "++++", "abc")),
            ("a name with a blank", "'b c'", lambda: Document.chirotope(3, 4, "++++", ["a", "b c", "d", "e"])),
            ("a name twice", "twice", lambda: Document.chirotope(3, 4, "++++", "abca")),
            ("a kind", "'foo'", lambda: Document("foo", 3, ())),
            ("a kind that is read", "'foo'", lambda: Document.read("om 1\nfoo 3\nend\n")),
            ("an order", "foo", lambda: Document.read("om 2\nchirotope 2 4\norder foo\n++++++\nend\n")),
            ("no sizes", "chirotope", lambda: Document.read("om 1\nchirotope\nend\n")),
            ("no kind", "kind", lambda: Document.read("om 1\nend\n")),
            ("a signature too long", "7 signs, and 6", lambda: UNIFORM.extended("+" * 7)),
            ("one too short", "5 signs, and 6", lambda: UNIFORM.extended("+" * 5)),
            ("a value too few", "3 values, and 4", lambda: Document.chirotope(3, 4, "+++")),
            ("21 elements", "21", lambda: Document.circuits(["+" * 21])),
            ("a rank above", "5", lambda: Document.chirotope(5, 4, "")),
            ("too many values", "12870", lambda: Document.chirotope(10, 20, "+")),
            ("members of two lengths", "2 signs", lambda: Document.circuits(["+-+", "+-"])),
            ("two coordinates", "(1, 2)", lambda: Document.points([(1, 2)])),
            ("a wide coordinate", str(2 ** 40 + 1), lambda: Document.points([(2 ** 40 + 1, 0, 1)])),
            ("a block of three", "(1, 2, 3)", lambda: Document.wiring(3, [(1, 2, 3)])),
            ("a rank of points", "rank", lambda: Document("points", 1, [(0, 0, 1)], 3)),
            ("a chirotope without a rank", "rank", lambda: Document("chirotope", 1, "+")),
            ("a verdict", "'perhaps'", lambda: Claim.read(str(UNIFORM) + "perhaps\nend\n")),
            ("names by _replace", "2 of them", lambda: UNIFORM._replace(names=("a", "b")))]:
        expect(what, kind_of_error((value, call)), (ValueError, True))
    loader = importlib.machinery.SourceFileLoader("rows", os.path.join(os.path.dirname(HERE), "rows", "check.py"))
    rows = importlib.util.module_from_spec(importlib.util.spec_from_loader("rows", loader))
    loader.exec_module(rows)
    for path in glob.glob(os.path.join(os.path.dirname(HERE), "rows", "*.txt")):
        for row in rows.rows_of(path) if not path.endswith("streams.txt") else ():
            if row.words == ["accept"] and row.input is not None:
                found = raised(Document.read, row.input)
                expect("read %s" % row.line[:200], isinstance(found, Document),
                       not row.output.startswith((b"refused line", b"refused long")))


def streams(om):
    """`each` gives the answers of `answer`, however long the documents and the answers are, and ends well."""
    documents = [Document.chirotope(2, 4, signs) for signs in itertools.product((-1, 1), repeat=6)]
    odd = ["", "om 1\n", str(UNIFORM)[:-1], str(UNIFORM) * 2, "om 1\nchirotope 3 4\n+++x\nend\n"]
    given = [it for pair in zip(documents, map(str, documents)) for it in pair] + odd + [str(UNIFORM).encode()]
    expect("a stream", list(om.each(["accept"], given)), [om.answer(["accept"], it) for it in given])
    expect("a long one", list(om.each("accept", documents * 300)), [om.answer("accept", it) for it in documents] * 300)
    expect("long answers to long questions", list(om.each("extend", [Document.chirotope(3, 9, "+" * 84)] * 20)),
           [om.answer("extend", Document.chirotope(3, 9, "+" * 84))] * 20)
    claims = [om.decide(UNIFORM), om.decide(example("non-pappus.om"))]
    expect("claims", list(om.each("check", claims * 2)), [["valid realizable"], ["valid nonrealizable"]] * 2)
    expect("decide", [it[-1] for it in om.each("decide", [UNIFORM] * 3)], ["end"] * 3)
    expect("nothing", list(om.each("accept", [])), [])
    expect("wrong words", raised(lambda: list(om.each("accept 3", [UNIFORM]))), (Usage, "usage 2"))
    expect("no words", raised(lambda: list(om.each([], [UNIFORM]))), (Usage, "usage 1"))
    begun = om.each("accept", itertools.cycle(documents))
    expect("one without an end", list(itertools.islice(begun, 100)),
           [om.answer("accept", it) for it in (documents * 2)[:100]])
    begun.close()

    def failing():
        yield UNIFORM
        yield UNIFORM
        raise OSError("no more")
    found = []
    expect("what gives the documents fails", raised(lambda: [found.append(it) for it in om.each("accept", failing())]),
           (OSError, "no more"))
    expect("and the answers before it came", found, [["accepted"]] * 2)
    with tempfile.NamedTemporaryFile("w", suffix=".sh", delete=False) as file:
        file.write("#!/bin/sh\nread a; echo accepted; exit 6\n")
    os.chmod(file.name, 0o755)
    expect("a program that ends", raised(lambda: list(Workbench(file.name).each("accept", documents * 99)))[0], Died)
    os.remove(file.name)


def asked_here(numbers):
    return [(it, raised(SHARED.accept, SEVERAL[it % len(SEVERAL)])) for it in numbers]


def forked():
    """Processes that share a workbench by a fork have programs of their own, and so have copies."""
    wanted = [raised(SHARED.accept, it) for it in SEVERAL]
    stream = SHARED.each("accept", SEVERAL)
    next(stream)
    with multiprocessing.get_context("fork").Pool(3) as pool:
        answers = pool.map_async(asked_here, [range(it, it + 10) for it in range(0, 3000, 10)]).get(60)
        # their copies of the pipes don't keep a program here from its end
        SHARED.close()
    wrong = [it for lot in answers for it in lot if it[1] != wanted[it[0] % len(SEVERAL)]]
    expect("3,000 questions of three processes", (sum(map(len, answers)), wrong[:3]), (3000, []))
    expect("the stream goes on", sum(1 for _ in stream), len(SEVERAL) - 1)
    process = os.fork()
    if not process:
        code = 0 if raised(SHARED.accept, SEVERAL[0]) == wanted[0] else 1
        os._exit(code)
    expect("and here", [raised(SHARED.accept, it) for it in SEVERAL], wanted)
    expect("a forked process", os.waitpid(process, 0)[1], 0)
    for what, other in (("a copy", copy.copy(SHARED)), ("a deep copy", copy.deepcopy(SHARED)),
                        ("one that was pickled", pickle.loads(pickle.dumps(SHARED)))):
        with other:
            expect(what, (raised(other.accept, SEVERAL[0]), other._open is SHARED._open), (wanted[0], False))
    expect("a document that was pickled", pickle.loads(pickle.dumps(UNIFORM)), UNIFORM)


def named(om):
    """Names survive where the answer has the elements of the document, or one of them less."""
    document = Document.chirotope(3, 4, "++++", "abcd")
    for what, found, names in [
            ("convert", om.convert(document, "circuits"), "abcd"),
            ("of a text", om.convert(str(document), "circuits"), "abcd"),
            ("of bytes", om.dual(str(document).encode()), "abcd"), ("reorient", om.reorient(document, 1), "abcd"),
            ("flip", om.flip(document, 1, 2, 3), "abcd"), ("wiring", om.wiring(document), "abcd"),
            ("delete", om.delete(document, 2), "acd"),
            ("contract", om.contract(document, 4), "abc"), ("upgrade", om.upgrade(document), "abcd"),
            ("a claim", om.decide(document).document, "abcd"),
            ("of a claim", om.convert(om.decide(document).document, "circuits"), "abcd"),
            ("lexext", om.lexext(document, 1), ""), ("lexext with a name", om.lexext(document, 1, name="e"), "abcde"),
            ("an extension", document.extended("++++++"), ""),
            ("one with a name", document.extended("++++++", "e"), "abcde")]:
        expect("names of %s" % what, "".join(found.names), names)
    expect("a claim with names", om.check(om.decide(document)), "realizable")
    expect("a name without others", raised(om.lexext, UNIFORM, 1, name="e")[0], ValueError)


def types():
    """mypy --strict accepts the module, what makes its package, and a caller by its types."""
    if not shutil.which("mypy"):
        print("mypy isn't installed: the types of om.py are not looked at")
        return
    with tempfile.TemporaryDirectory() as room:
        with open(os.path.join(room, "caller.py"), "w") as file:
            file.write("import om\nfrom om import Document, Workbench\n"
                       "def circuits(bench: Workbench, names: list[str]) -> tuple[om.Vector, ...]:\n"
                       "    document: Document = Document.chirotope(3, 4, [1, 1, 1, 1], names)._replace(names=('a',))\n"
                       "    for lines in bench.each('accept', [document, str(document)]):\n"
                       "        first: str = lines[0]\n"
                       "    return tuple(om.sign_vector(it) for it in bench.convert(document, 'circuits').body)\n")
        ours = [os.path.join(HERE, *path) for path in (["om.py"], ["python", "build_om.py"])]
        ended = subprocess.run(["mypy", "--strict", "--no-incremental", *ours, file.name],
                               stdout=subprocess.PIPE, cwd=room, env=dict(os.environ, MYPYPATH=HERE), text=True)
    expect("mypy --strict", (ended.returncode, ended.stdout), (0, "Success: no issues found in 3 source files\n"))


def pages():
    """The lines after `sage: ` of SAGE.md, in Python; the block that takes something from Sage is left out."""
    with open(os.path.join(HERE, "SAGE.md")) as file:
        blocks = [it for it in re.findall(r"^```[^\n]*\n(.*?)^```", file.read(), re.S | re.M)
                  if it.startswith("sage: ")]
    text = "".join(it for it in blocks if "import OrientedMatroid" not in it)
    text = text.replace("sage: ", ">>> ").replace("....: ", "... ")
    test = doctest.DocTestParser().get_doctest(text, {}, "SAGE.md", "SAGE.md", 0)
    os.chdir(os.path.dirname(HERE))
    ran = doctest.DocTestRunner(verbose=False).run(test)
    TALLY[True] += ran.attempted - ran.failed
    TALLY[False] += ran.failed


def main():
    with Workbench() as om:
        values(om)
        verdicts(om)
        odd_texts(om)
        no_numbers(om)
        no_documents()
        named(om)
        streams(om)
        ends(om)
    forked()
    types()
    pages()
    print("om.py: %d passed, %d failed" % (TALLY[True], TALLY[False]))
    return 1 if TALLY[False] or not TALLY[True] else 0


if __name__ == "__main__":
    sys.exit(main())
