#!/usr/bin/env python3
"""neighbours/check_irrational.py

Asks whether the shipped theorems of irrational vectors (catalogue/irrational_*.v) are what surd-to-coq writes of their
data, and surd-to-coq for its message on data that is wrong. find-surd has to find data of its own for their chirotopes
and for another one, and none for others. Where Coq is installed, coqc has to accept these theorems, by the axioms of
its real numbers alone, and to refuse each of many wrong variants: of the chirotope a sign, of the vectors a number, of
the construction a line, and of what the filter computes a coefficient. The last line is 'irrational: N passed, M
failed'; the exit code is 1 if one failed.
"""
import glob
import os
import re
import shutil
import subprocess
import sys
import tempfile

HERE = os.path.dirname(os.path.abspath(__file__))
CATALOGUE = os.path.join(os.path.dirname(HERE), "catalogue")
AXIOMS = ["ClassicalDedekindReals.sig_not_dec", "ClassicalDedekindReals.sig_forall_dec",
          "FunctionalExtensionality.functional_extensionality_dep"]
HEAD = "From Coq Require Import Reals List Bool Arith ZArith.\nImport ListNotations.\nRequire Import general.\n"
TALLY = {True: 0, False: 0}
# Perles's configuration with a tenth element that is on no line of three; and points of a construction with one free
# place that closes where the place is a root of 2
TEN = """om 1
chirotope 3 10
+----------------0----+-0-+0+----+------0--------0+-+-+-+--0-++-
-0--0-+0-+---0--+-++-+-0++--0-+++++-+-+-+-+++-+-+-++++--
end
"""
TWELVE = """om 1
chirotope 3 12
++0++++--+---0--++--++00---++++--++-------++-0------0++++0--+-+-
+----0+-----++---+-+-0+--++--+-+--+00+++++-++++++-+++-+-+--++--+
0-+-++-++++++-++--------0-0-------++0-0----0---+--0----++-0----0
--+++--+-++-++++--+++----0+-
end
"""


def expect(what, found, wanted):
    TALLY[found == wanted] += 1
    if found != wanted:
        print("failed: %s\n--- wanted %r\n--- found  %r" % (what, wanted, found))


def ran(name, data):
    """The exit code, the output and the message of a filter."""
    ended = subprocess.run([os.path.join(HERE, name)], input=data, capture_output=True, text=True)
    return ended.returncode, ended.stdout, ended.stderr


def surd_to_coq(data):
    return ran("surd-to-coq", data)


# ---- Data that the filter refuses: a text of the shipped data, what stands there instead, and what the message says

WRONG = [
    ("surd 5", "surd 4", "4 is a square"), ("surd 5", "surd 49", "49 is a square"),
    ("surd 5", "surd 1", "no line `surd 1`"), ("surd 5", "surd 0", "no line"), ("surd 5", "surd -5", "no line"),
    ("surd 5", "surd 5 5", "no line"), ("surd 5", "surd five", "no line"), ("surd 5\n", "", "one line `surd`"),
    ("surd 5", "surd 5\nsurd 5", "one line `surd`"), ("surd 5", "root 5", "its lines begin with"),
    ("vector 0 0 0 0 -1 0\n", "", "9 lines `vector`"), ("vector 0 0 0 0 -1 0", "vector 0 0 0 0 -1", "no line"),
    ("vector 0 0 0 0 -1 0", "vector 0 0 0 0 -1 1099511627777", "no line"),
    ("basis 3 2 9 1", "basis 3 2 9 10", "no line"), ("basis 3 2 9 1", "basis 0 2 9 1", "no line"),
    ("basis 3 2 9 1", "basis 3 2 9 9", "three of these are on a line"),
    ("basis 3 2 9 1", "basis 3 2 8 1", "three of these are on a line"),
    ("basis 3 2 9 1\n", "", "one line `basis`, first"),
    ("basis 3 2 9 1", "basis 3 2 9 1\nbasis 3 2 9 1", "one line `basis`"), ("on 7 9 2 1\n", "", "one line `on`"),
    ("on 7 9 2 1", "on 7 9 2 1\non 8 9 2 1", "one line `on`"), ("on 7 9 2 1", "on 1 9 2 1", "1 was placed before"),
    ("on 7 9 2 1", "on 7 9 4 1", "4 wasn't placed before"),
    ("meet 5 9 1 7 3", "meet 3 9 1 7 2", "3 was placed before"),
    ("meet 5 9 1 7 3", "meet 5 9 1 7 8", "8 wasn't placed before"), ("meet 5 9 1 7 3", "meet 5 9 1 7", "no line"),
    ("meet 5 9 1 7 3", "meet 5 9 2 7 2", "these are one line"),
    ("meet 5 9 1 7 3", "meet 5 9 9 7 3", "these are one line"),
    ("closing 1 6 8\n", "", "one line `closing`, last"), ("closing 1 6 8", "closing 1 6 8\nclosing 1 6 8", "one line"),
    ("closing 1 6 8", "closing 1 6 6", "its value isn't 0, or it is 0 for all places"),
    ("closing 1 6 8", "closing 2 3 8", "it is 0 for all places"),
    ("closing 1 6 8", "closing 1 2 8", "its value isn't 0"),
    ("closing 1 6 8", "closing 1 6 8\nmeet 6 5 2 4 3", "one line `closing`, last"),
    ("closing 1 6 8\nend\n", "closing 1 6 8\n", "missing"),
    ("closing 1 6 8\nend\n", "closing 1 6 8\nend\nend\n", "more behind"),
    ("meet 8 2 3 4 5", "meet 8 2 3 1 5", "degree"), ("chirotope 3 9", "chirotope 3 8", "line"),
    ("om 1", "om 3", "version"),
    ("om 1\n", "om 1 #\xff\n", None),
]


def look_at_refusals(data):
    for old, new, message in WRONG:
        expect("`%s` is there" % old, data.count(old), 1)
        code, output, said = surd_to_coq(data.replace(old, new))
        if message is None:
            expect("%r for %r" % (new, old), (code, said), (0, ""))
        else:
            found = code, output, said.startswith("surd-to-coq: "), message in said, "Traceback" in said
            expect("%r for %r: %s" % (new, old, said), found, (1, "", True, True, False))
    code, _, said = surd_to_coq("")
    expect("an empty input", (code, said), (1, "surd-to-coq: line 1: the input is empty\n"))


# ---- Data that find-surd finds

def document_in(text):
    """The document of data or of an example."""
    lines = [line for line in text.splitlines(True) if not line.startswith("#")]
    return "".join(lines[: lines.index("end\n") + 1])


def look_at_search(path, data):
    """What is found for a chirotope, and for it and others in one stream; and nothing where a sign is another one, nor
    where there are whole-number vectors, a certificate or a rank other than 3."""
    document = document_in(data)
    nothing = []
    for name in "pappus", "non-pappus", "uniform-3-4":
        with open(os.path.join(os.path.dirname(HERE), "examples", name + ".om")) as file:
            nothing.append(document_in(file.read()))
    nothing.append(document.replace("\n+", "\n-", 1))
    code, found, said = ran("find-surd", "".join(nothing[:2] + [document] + nothing[2:] + [TEN, TWELVE]))
    expect("documents without data: %s" % said, (code, re.findall("document ([0-9]+): no construction", said)),
           (1, ["1", "2", "4", "5"]))
    blocks = re.findall("om 1\n.*?\nend\nsurd .*?\nend\n", found, re.S)
    expect("data of three documents", ("".join(blocks), [document_in(block) for block in blocks]),
           (found, [document, TEN, TWELVE]))
    expect("numbers under the root", [block.split("surd ")[1].split("\n")[0] for block in blocks], ["5", "5", "2"])
    expect("find-surd on %s alone" % path, ran("find-surd", document), (0, blocks[0], ""))
    code, output, said = ran("find-surd", document + "om 1\nchirotope 2 3\n+++\nend\n" + document)
    expect("rank 2", (code, output, "document 2: the rank is 2, and not 3" in said), (1, blocks[0], True))
    for block in blocks:
        code, text, said = surd_to_coq(block)
        expect("surd-to-coq on data that was found", (code, said), (0, ""))
        if shutil.which("coqc"):
            with tempfile.TemporaryDirectory() as folder:
                expect("the theorems of data that was found", compiled(folder, "found.v", text)[0], True)


# ---- Variants that coqc has to refuse

def blocks(text):
    """The parts of a file behind the general part: the chirotope, the vectors, the theorem about them, the
    construction, and the theorem that there are no rational ones."""
    marks = [text.rindex(mark) for mark in ("(* The sign of each triple", "(* The coordinates", "Theorem real_vectors",
                                            "(* With t for", "Theorem no_rational_vectors", "Corollary no_whole")]
    return text[: marks[0]], [text[begin:end] for begin, end in zip(marks, marks[1:])]


def wrong_variants(data, parts):
    """What is changed, and the parts of a theorem that doesn't hold, or whose proof isn't one."""
    chirotope, vectors, real, points, no_rational = parts
    used = zeros_of(data)
    for found in re.finditer(r"\((\d),(\d),(\d),(plus|minus|zero)", chirotope):
        other = {"plus": "minus", "minus": "zero", "zero": "plus"}[found[4]]
        turned = chirotope[: found.start(4)] + other + chirotope[found.end(4):]
        yield "a sign", [turned, vectors, real]
        if found[1] + found[2] + found[3] in used:
            yield "a zero of the construction", [turned, points, no_rational]
    for row in re.finditer(r"\(\((.*)\)\)", vectors):
        # where two coordinates are 0, another number in the third one may give a multiple
        for found in re.finditer(r"-?\d+", row[0]) if row[0].count("(0, 0)") < 2 else ():
            place = row.start() + found.start()
            number = str(int(found[0]) + 3)
            yield "a number of a vector", [chirotope, vectors[:place] + number + vectors[place + len(found[0]):], real]
    for root in 2, 3, 6, 7, 20, 45, 125, 4, 9, 25, 1, 0:
        yield "the root", [chirotope, vectors, real.replace("surd_vector 5", "surd_vector %d" % root)]
    for found in re.finditer(r"-?\d+(?=[^()]*\]|\)%Z)", points):
        for more in 1, -1:
            changed = points[: found.start()] + str(int(found[0]) + more) + points[found.end():]
            yield "a coefficient", [chirotope, changed, no_rational]
    for line in re.finditer(r"meet (\d) (\d) (\d) (\d) (\d)|closing := \((\d), (\d), (\d)\)", points):
        for group in range(1, 9) if line[1] is None else range(1, 6):
            if line[group]:
                changed = points[: line.start(group)] + str(int(line[group]) % 9 + 1) + points[line.end(group):]
                yield "an element of the construction", [chirotope, changed, no_rational]
    free = re.search(r"parameter := \((\d), (\d), (\d), (\d)\)", points)
    for group in range(1, 5):
        for element in "123456789":
            # the last one is any element off the line of the three others
            if element in free.groups()[:3] if group == 4 else element != free[group]:
                changed = points[: free.start(group)] + element + points[free.end(group):]
                yield "an element of the free point's line", [chirotope, changed, no_rational]


def zeros_of(data):
    """The triples whose value 0 the construction uses."""
    zeros = set()
    for word, *elements in map(str.split, data.splitlines()):
        for places in {"meet": ((0, 1, 2), (0, 3, 4)), "on": ((0, 1, 2),), "closing": ((0, 1, 2),)}.get(word, ()):
            zeros.add("".join(sorted(elements[k] for k in places)))
    return zeros


def look_at_coq(path, data, text):
    general, parts = blocks(text)
    with tempfile.TemporaryDirectory() as folder:
        good, said = compiled(folder, "shipped.v", text)
        axioms = [re.findall(r"(?m)^\w+\.\w+", part) for part in said.split("Axioms:")[1:]]
        expect("the theorems of %s: %.2000s" % (path, said), (good, axioms), (True, [AXIOMS, AXIOMS[1:]]))
        variants = list(wrong_variants(data, parts))
        kinds = [kind for kind, _ in variants]
        counts = ["%s (%d)" % (kind, kinds.count(kind)) for kind in sorted(set(kinds))]
        print("coqc has to refuse, with another value: %s" % ", ".join(counts))
        # `Fail Qed` lets Coq go on where it refuses a proof, and stops it where it accepts one. So it has to come to
        # the end, where a theorem holds, and to stop there
        expect("the general part", compiled(folder, "general.v", general)[0], True)
        wrong = "".join("Module Variant_%d.\n%s\nEnd Variant_%d.\n" % (number, refused(variant), number)
                        for number, (_, variant) in enumerate(variants))
        for what, before, right in (("first", wrong, parts[:3]), ("second", "", [parts[0], *parts[3:]])):
            text = HEAD + before + refused(right)
            good, said = compiled(folder, "others.v", text)
            at, last = re.search(r"line (\d+),", said), text[: text.rindex("Fail Qed")].count("\n") + 1
            found = good, "has not failed" in said, at and int(at[1])
            expect("the %s theorem is accepted: %.500s" % (what, said), found, (False, True, last))


def refused(parts):
    """A theorem whose proof Coq has to refuse."""
    text, count = re.subn(r"(Proof\..*vm_cast_no_check.*) Qed\.", r"\1 Fail Qed. Abort.", "".join(parts))
    expect("one proof", count, 1)
    return text


def compiled(folder, name, text):
    """Whether coqc accepts a file, and what it writes."""
    with open(os.path.join(folder, name), "w") as file:
        file.write(text)
    done = subprocess.run(["coqc", "-q", name], cwd=folder, stdout=subprocess.PIPE, stderr=subprocess.STDOUT, text=True)
    return done.returncode == 0, done.stdout


def main():
    for path in sorted(glob.glob(os.path.join(CATALOGUE, "irrational_*.surd"))):
        with open(path) as file:
            data = file.read()
        with open(path.replace(".surd", ".v")) as file:
            text = file.read()
        expect("the file of %s" % path, surd_to_coq(data), (0, text, ""))
        look_at_refusals(data)
        look_at_search(path, data)
        if shutil.which("coqc"):
            look_at_coq(path, data, text)
        else:
            print("Coq isn't installed: the theorems of irrational vectors are not checked")
    print("irrational: %d passed, %d failed" % (TALLY[True], TALLY[False]))
    return 1 if TALLY[False] or not TALLY[True] else 0


if __name__ == "__main__":
    sys.exit(main())
