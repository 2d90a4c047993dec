#!/usr/bin/env python3
"""pictures/check.py [--whole]

Draws documents in all forms, reads the pictures back by readback.py, which doesn't use the code that draws, and
compares the signs with those of `om convert chirotope`. Maps are drawn exactly where om accepts them, wrong pictures
are refused, and so is bad input. What sweepable writes has a wiring diagram by om. Where other versions of Python are
installed, the pictures have to be the same bytes by them; rsvg-convert makes a PDF with text in it; and Chromium, if
it is there, shows all words without overlaps. The last line is 'pictures: N passed, M failed', and the exit code is 1
if one failed. With --whole many more documents are drawn, on half of the processors, and counted.
"""
import concurrent.futures
import glob
import gzip
import html.parser
import importlib.machinery
import importlib.util
import io
import os
import random
import re
import shutil
import subprocess
import sys
import tempfile
import zlib
from itertools import combinations

HERE = os.path.dirname(os.path.abspath(__file__))
TOP = os.path.dirname(HERE)
sys.path[:0] = [HERE]
sys.path.append(os.path.join(TOP, "neighbours"))

import check_hostile as others  # noqa: E402
import readback  # noqa: E402
from filters import Refused, WrongWords  # noqa: E402
from readback import Fault, wanted  # noqa: E402

OM = os.path.join(TOP, "crates", "om", "out", "om")
EACH = os.path.join(TOP, "crates", "om_each", "out", "om_each")
TALLY = {True: 0, False: 0}
MOST_BYTES = 10000  # of a picture of ten elements
UNIFORM = b"om 1\nchirotope 3 4\n++++\nend\n"
VECTORS = UNIFORM + b"realizable\nvector 1 0 0\nvector 0 1 0\nvector 0 0 1\nvector 1 -1 1\nend\n"

# words, an input, the exit code, and what the message says
BAD = [
    ("to-svg", b"", 1, "missing: the input has no document"),
    ("to-svg", b"om 3\n", 1, "document 1, line 1: version"),
    ("to-svg", UNIFORM[:-4], 1, "document 1, line 4: missing"),
    ("to-svg", b"om 1\nchirotope 3 4\n+++\nend\n", 1, "document 1, line 4: few"),
    ("to-svg", b"om 1\nchirotope 3 4\n0000\nend\n", 1, "all values are zero"),
    ("to-svg", b"om 1\npoints 3\n1 0 0\n0 1 0\n1 1 0\nend\n", 1, "all values are zero"),
    ("to-svg disk", b"om 1\nwiring 3\n1-3\nend\n", 1, "only the form `wiring` can be drawn"),
    ("to-svg", b"om 1\nchirotope 2 4\n++++++\nend\n", 1, "the rank is 2, and a picture shows rank 3"),
    ("to-svg", b"om 1\nchirotope 4 4\n+\nend\n", 1, "`om contract E` lowers it by 1"),
    ("to-svg", b"om 1\nchirotope 2 5\n++++++++++\nend\n", 1, "that of `om dual` is 3"),
    ("to-svg", b"om 1\ncircuits 2\n+-\n-+\nend\n", 1, "`om convert chirotope` writes its chirotope"),
    ("to-svg", b"om 1\nchirotope 3 5\n+-++++++++\nend\n", 1, "`om accept` names the violated instance"),
    ("to-svg wiring", b"om 1\nchirotope 3 5\n+-++++++++\nend\n", 1, "`om accept` names the violated instance"),
    ("to-svg", b"om 1\nwiring 3\n1-2 1-2\nend\n", 1, "no wiring: step 2"),
    ("to-svg", b"om 1\nwiring 3\n1-2 2-4\nend\n", 1, "no wiring: step 2"),
    ("to-svg", b"om 1\nwiring 3\n1-2\nend\n", 1, "no wiring: the last order"),
    ("to-svg points", UNIFORM, 1, "`om decide` looks for some"),
    ("to-svg --triangles=1,2,3", b"om 1\nchirotope 3 5\n++++++++++\nend\n", 0, ""),
    ("to-svg --triangles=1,2,4", b"om 1\nchirotope 3 5\n++++++++++\nend\n", 1, "`om mutations` lists them"),
    ("to-svg", UNIFORM + UNIFORM, 1, "document 2: a picture has one document; `--sheet` draws many"),
    ("to-svg", UNIFORM + b"perhaps\n", 1, "document 2, line 5: version"),
    ("to-svg", VECTORS[:-4], 1, "document 1, line 10: missing"),
    ("to-svg", VECTORS.replace(b"-1 1", b"1 1"), 1, "the vectors don't realize the chirotope"),
    ("to-svg", VECTORS.replace(b"vector 1 -1 1\n", b""), 1, "the vectors don't realize the chirotope"),
    ("to-svg", UNIFORM + b"undecided\nweight 1 2 3 0\n", 1, "document 1, line 7: missing"),
    ("to-svg --sheet", UNIFORM + b"om 1\nchirotope 3 5\n+-++++++++\nend\n", 1, "document 2: the signs aren't"),
    ("to-svg line", UNIFORM, 2, "wrong words: `line`"),
    ("to-svg disk wiring", UNIFORM, 2, "wrong words: `wiring`"),
    ("to-svg points --triangles", VECTORS, 2, "triangles are filled in a wiring or a disk"),
    ("to-svg --sheet=0", UNIFORM, 2, "a sheet has 1 to 20 columns"),
    ("sweepable", b"", 1, "missing: the input has no document"),
    ("sweepable", b"om 1\nchirotope 3 4\n+000\nend\n", 1, "document 1: element 4 is a loop"),
    ("sweepable", b"om 1\nchirotope 3 4\n++00\nend\n", 1, "elements 3 and 4 are parallel"),
    ("sweepable", b"om 1\nchirotope 3 4\n0000\nend\n", 1, "all values are zero"),
    ("sweepable", b"om 1\nchirotope 2 2\n+\nend\n", 1, "the rank is 2"),
    ("sweepable", b"om 1\nchirotope 3 5\n+-++++++++\nend\n", 1, "`om accept` names the violated instance"),
    ("sweepable --back", UNIFORM, 2, "wrong words"),
    ("gallery", b"", 1, "missing: the input has no document"),
    ("gallery", UNIFORM + b"om 1\nchirotope 3 5\n+-++++++++\nend\n", 1, "document 2: the signs aren't"),
    ("gallery --sheet", UNIFORM, 2, "wrong words: `--sheet`"),
    ("gallery points --triangles", VECTORS, 2, "triangles are filled in a wiring or a disk"),
]


def expect(what, good, found=""):
    """Counts a test."""
    TALLY[bool(good)] += 1
    if not good:
        print("failed: %s%s%.800s" % (what, ": " if found else "", found), flush=True)


def load(name):
    """A filter of this folder as a module."""
    loader = importlib.machinery.SourceFileLoader(name.replace("-", "_"), os.path.join(HERE, name))
    module = importlib.util.module_from_spec(importlib.util.spec_from_loader(loader.name, loader))
    loader.exec_module(module)
    return module


TO_SVG = load("to-svg")


def draw(words, text):
    """What to-svg writes in this process; a refusal is a Fault."""
    sys.stdin = io.TextIOWrapper(io.BytesIO(text.encode()))
    try:
        found = list(TO_SVG.answers(words.split()))
    except (Refused, WrongWords) as refused:
        raise Fault("refused: %s" % refused) from None
    wanted(len(found) == 1, "%d pictures", len(found))
    return found[0]


def each(words, text):
    """The answers of om_each to a stream, as one text."""
    return subprocess.run([EACH, *words.split()], input=text, stdout=subprocess.PIPE, universal_newlines=True).stdout


class Case:
    """A document or claim, its names, and its signs and mutations by om."""

    def __init__(self, text, answer, mutations):
        self.text = text
        lines = answer.split("\n")
        count = int(lines[1].split()[2])
        signs = "".join(lines[2:lines.index("end")])
        self.signs = {t: "-0+".index(s) - 1 for t, s in zip(combinations(range(1, count + 1), 3), signs)}
        named = re.search("(?m)^names (.*)$", text)
        self.elements = named[1].split() if named else [str(e) for e in range(1, count + 1)]
        self.mutations = {" ".join(self.elements[int(e) - 1] for e in line.split(",")) for line in mutations}

    def look(self, group):
        """Refuses a drawing in which this isn't seen."""
        if group.find(".//*[@class='l']") is not None or not any(
                (part.get("class") or "").startswith("w ") for part in group.iter()):
            points = readback.Points(group, self.elements)
            points.agree(self.signs, self.elements)
            points.check_lines(self.signs, self.elements)
        else:
            found = readback.lines_of(group, self.elements)
            for triple, sign in self.signs.items():
                wanted(found[triple] == sign, "%s has the sign %d, and should have %d", triple, found[triple], sign)

    def check(self, words):
        """Draws the document, and refuses a picture in which it isn't seen."""
        svg = draw(words, self.text)
        page = readback.Page(svg)
        readback.check_words(page)
        self.look(page.groups[0])
        if "--triangles" in words.split():
            filled = re.search(r"Filled: (.*?)\.", page.root[1].text)
            wanted(set(filled[1].split("; ") if filled else []) == self.mutations, "other mutations than %s",
                   sorted(self.mutations))
        wanted(len(self.elements) > 10 or len(svg.encode()) <= MOST_BYTES, "%d bytes", len(svg.encode()))
        return svg


def documents_in(text):
    """The documents and claims of a file, without comments."""
    return re.findall(r"(?m)^om [12]\n(?:(?!om ).*\n)*", re.sub("(?m)^#.*\n| *#.*$", "", text))


def without_verdict(text):
    return text[:text.index("end\n") + 4]


def cases(texts):
    """Documents and claims with their signs by om."""
    texts = list(texts)
    documents = "".join(map(without_verdict, texts))
    answers = re.findall(r"(?m)^om 1\nchirotope.*\n(?:[-+0]+\n)+end\n|^.+\n", each("convert chirotope", documents))
    mutations = re.findall(r"(?m)^mutations.*\n((?:[0-9,]+\n)*)", each("mutations", documents))
    wanted(len(answers) == len(mutations) == len(texts), "%d, %d answers to %d documents", len(answers),
           len(mutations), len(texts))
    return [Case(text, answer, lines.split()) for text, answer, lines in zip(texts, answers, mutations)]


def text_of(*path):
    with (gzip.open if path[-1].endswith(".gz") else open)(os.path.join(TOP, *path), "rt") as file:
        return file.read()


def classes(*sizes):
    """The claims of all classes on so many elements."""
    claims = documents_in(text_of("catalogue", "realizable-8.claims.gz"))
    return [claim for n in sizes for claim in claims if claim.startswith("om 1\nchirotope 3 %d\n" % n)]


def random_wiring(n, rng):
    """A wiring diagram with simple and other crossings."""
    while True:
        order, blocks = list(range(n)), []
        while order != sorted(order, reverse=True):
            i = rng.randrange(n - 1)
            j = i + 1
            if order[i] < order[j]:
                while j + 1 < n and order[j] < order[j + 1] and rng.random() < 0.4:
                    j += 1
                order[i:j + 1] = order[i:j + 1][::-1]
                blocks.append("%d-%d" % (i + 1, j + 1))
        if len(blocks) > 1:
            return "om 1\nwiring %d\n%s\nend\n" % (n, "\n".join(blocks))


def random_points(n, rng, long_names=False):
    """Points with some at infinity, negative, parallel, or zero."""
    rows = [[rng.randint(-5, 5), rng.randint(-5, 5), rng.choice((1, 1, 1, 2, 1, -1, 0))] for _ in range(n)]
    if n > 5 and rng.random() < 0.5:
        rows[3] = [rng.choice((-2, -1, 2)) * x for x in rows[0]]
        rows[4] = rng.choice(([0, 0, 0], rows[4]))
    names = " ".join("%s%d" % ("M" * 14 if long_names else rng.choice("abcxyz"), e) for e in range(n))
    return "om 2\npoints %d\nnames %s\n%s\nend\n" % (n, names, "\n".join("%d %d %d" % tuple(row) for row in rows))


def made(number, count):
    """The points that `om make` gives."""
    answer = subprocess.run([OM, "make", str(number), "--count=%d" % count], stdout=subprocess.PIPE)
    return without_verdict(answer.stdout.decode())


def random_map(k, rng):
    """A map of triples: signs of vectors, or these with one changed, or any signs."""
    n = rng.choice((3, 4, 4, 5, 5, 6))
    triples = list(combinations(range(n), 3))
    if k % 3 == 0:
        signs = [rng.choice("+-0") for _ in triples]
    else:
        v = [[rng.randint(-2, 2) for _ in range(3)] for _ in range(n)]
        det = [v[a][0] * (v[b][1] * v[c][2] - v[b][2] * v[c][1]) + v[a][1] * (v[b][2] * v[c][0] - v[b][0] * v[c][2]) +
               v[a][2] * (v[b][0] * v[c][1] - v[b][1] * v[c][0]) for a, b, c in triples]
        signs = ["-0+"[1 + (d > 0) - (d < 0)] for d in det]
        if k % 3 == 1:
            signs[rng.randrange(len(signs))] = rng.choice("+-0")
    return "om 1\nchirotope 3 %d\n%s\nend\n" % (n, "".join(signs))


def fault_of(case, words):
    """What is wrong with the picture of a document, or nothing."""
    try:
        case.check(words)
        return ""
    except Fault as fault:
        return str(fault)


def checked(job):
    case, words = job
    return fault_of(case, words)


def groups_of(whole):
    """Groups of documents, each with its words and a name: the sample of the gate, or all."""
    rng, step = random.Random(1), 1 if whole else 24
    small, seven = classes(3, 4, 5, 6), classes(7)[::step]
    nine = documents_in(text_of("catalogue", "nonrealizable-9.claims"))
    ten = documents_in(text_of("catalogue", "nonrealizable-10-uniform.claims"))
    undecided = documents_in(text_of("catalogue", "undecided-9.claims"))
    examples = [documents_in(text_of("examples", name))[0] for name in (
        "uniform-3-4.om", "uniform-3-4-named.om", "pappus.om", "non-pappus.om", "pappus-points.om", "loop-vectors.om",
        "ringel-wiring-claim.om", "non-pappus-claim.om", "uniform-3-5-weights.om", "pappus-vectors.om")]
    wirings = [random_wiring(3 + k % 10, rng) for k in range(200 if whole else 10)]
    planes = [random_points(4 + k % 9, rng) for k in range(120 if whole else 10)]
    crowds = [random_points(20 if whole else 14, rng, True) for _ in range(4 if whole else 1)]
    if whole:
        planes += [made(k, 4 + k % 9) for k in range(120)]
    planes, crowds = ([text for text in texts if each("accept", text) == "accepted\n"] for texts in (planes, crowds))
    return [
        ("the examples, disk", "disk --triangles", examples),
        ("the examples, wiring", "wiring --triangles", examples),
        ("classes on 3 to 6, disk from signs", "disk --triangles", map(without_verdict, small)),
        ("classes on 3 to 6, disk from vectors", "disk --triangles", small),
        ("classes on 3 to 6, wiring", "wiring --triangles", small),
        ("classes on 3 to 6, points", "points", small),
        ("classes on 7, disk from signs", "disk --triangles", map(without_verdict, seven)),
        ("classes on 7, disk from vectors", "disk --triangles", seven),
        ("classes on 7, wiring", "wiring --triangles", seven),
        ("classes on 7, points", "points", seven),
        ("random wirings, wiring", "wiring --triangles", wirings),
        ("random wirings, disk", "disk --triangles", wirings[::1 if whole else 3]),
        ("nonrealizable classes on nine, disk", "disk --triangles", nine[::1 if whole else 60]),
        ("nonrealizable classes on nine, wiring", "wiring --triangles", nine[::1 if whole else 90]),
        ("nonrealizable uniform classes on ten, disk", "disk", ten[::1 if whole else 130]),
        ("undecided classes on nine, disk", "disk --triangles", undecided[::1 if whole else 10]),
        ("random points, points", "points", planes),
        ("random points, disk", "disk --triangles", planes[::1 if whole else 2]),
        ("random points, wiring", "wiring --triangles", planes[::1 if whole else 2]),
        ("many points with long names", "points", crowds),
        ("many lines with long names", "disk", crowds),
    ]


def pictures(whole):
    """Pictures of all forms have the signs that om gives."""
    with concurrent.futures.ProcessPoolExecutor((os.cpu_count() + 1) // 2) as pool:
        for name, words, texts in groups_of(whole):
            found = cases(texts)
            faults = list(pool.map(checked, [(case, words) for case in found])) if whole else [
                fault_of(case, words) for case in found]
            for case, fault in zip(found, faults):
                expect("%s: %r" % (name, case.text[:60]), not fault, fault)
            if whole:
                print("%s: %d, %d wrong" % (name, len(found), len([fault for fault in faults if fault])), flush=True)


def maps(count):
    """A map is drawn exactly where om accepts it."""
    rng = random.Random(7)
    texts = [random_map(k, rng) for k in range(count)]
    answers = each("accept", "".join(texts)).splitlines()
    good = [text for text, answer in zip(texts, answers) if answer == "accepted"]
    bad = [text for text, answer in zip(texts, answers) if answer != "accepted"]
    for case in cases(good):
        fault = fault_of(case, "disk")
        expect("the map %r" % case.text, not fault, fault)
    for text in bad:
        try:
            found = draw("disk", text)
        except Fault as fault:
            found = str(fault)
        expect("the broken map %r" % text, found.startswith("refused: document 1") and
               ("aren't a chirotope" in found or "all values are zero" in found), found)
    print("maps: %d drawn, %d refused" % (len(good), len(bad)))


def edited(svg, pattern, change, count=1):
    """A picture with a part of it changed."""
    new, times = re.subn(pattern, change, svg, count=count, flags=re.S)
    wanted(times and new != svg, "the edit %s changes nothing", pattern)
    return new


def exchanged(svg, one, other):
    """A picture with two names exchanged."""
    return svg.replace(">%s</text>" % one, ">?</text>").replace(">%s</text>" % other, ">%s</text>" % one).replace(
        ">?</text>", ">%s</text>" % other)


def wrong_pictures():
    """Pictures that are wrong are refused, each for what is wrong with it."""
    [pappus, four, two, flat] = cases([text_of("examples", "non-pappus.om"), "om 1\nchirotope 3 4\n+++0\nend\n",
                                       "om 1\nwiring 3\n1-2 2-3 1-2\nend\n",
                                       "om 1\npoints 5\n0 0 1\n4 0 1\n0 4 1\n-3 -3 -1\n1 2 0\nend\n"])
    disk, wiring, points = pappus.check("disk --triangles=7,8,9"), two.check("wiring"), flat.check("points")
    turned = each("reorient 3", pappus.text)
    flipped = each("flip 7 8 9", pappus.text)
    line = r'(<path class="w e%d" d=")[^"]*'

    def moved(match):
        return '%s"%s"' % (match[1], re.sub(r"-?[\d.]+", lambda x: "%g" % -float(x[0]), match[2]))
    texts = re.findall(r'<text x="[^"]*" y="[^"]*"', disk)
    for what, case, svg, said in [
            ("two names of the same colour exchanged", pappus, exchanged(disk, 1, 7), "should have"),
            ("two names exchanged", pappus, exchanged(disk, 1, 2), "should have"),
            ("another document", pappus, draw("disk", flipped), "should have"),
            ("an element reoriented", pappus, draw("disk", turned), "should have"),
            ("an arrow turned", pappus, edited(disk, r'(<path class="h" d=)"([^"]*)"', moved), "arrow"),
            ("an arrow missing", pappus, edited(disk, r'<path class="h"[^>]*>', ""), "8 arrows"),
            ("a line through other crossings", pappus, edited(disk, line % 8, chord_of(disk, 8)), "8"),
            ("a line that crosses others more than once", pappus, edited(disk, line % 8, zigzag_of(disk, 8)), "meet"),
            ("a line that ends elsewhere", pappus, edited(disk, line % 8, r"\1M0 0L9 9"), "ends inside"),
            ("a dot missing", pappus, edited(disk, r'<circle cx[^>]*>', ""), "7 dots"),
            ("another cell filled", pappus, edited(disk, '(class="f" d=")[^"]*', r"\1M-90-90L90-90L0 90z"), "cell"),
            ("a name on another one", pappus, disk.replace(texts[0], texts[2]), "lies on"),
            ("no title", pappus, edited(disk, "<title>.*?</title>", ""), "title"),
            ("cut off", pappus, disk[:-9], "no XML"),
            ("a crossing missing", two, without_crossing(wiring), "lines 1 and 2 meet 0 times"),
            ("wires in another order", two, exchanged(wiring, 1, 3), "should have"),
            ("a hollow point filled", flat, edited(points, '<circle class="n (e[0-9]+" [^/]*) stroke="([^"]*)"',
                                                   r'<circle class="p \1 fill="\2"'), "should have|line"),
            ("an arrow at infinity turned", flat, edited(points, r'(<path class="a e5" d=)"([^"]*)"', moved),
             "should have|beside"),
            ("a line missing", four, edited(draw("points", VECTORS.decode().replace("++++", "+++0").replace(
                "vector 1 -1 1", "vector 0 -1 1")), '<path class="l"[^>]*>', ""), "lines for")]:
        try:
            page = readback.Page(svg)
            readback.check_words(page)
            case.look(page.groups[0])
            found = "it was taken for right"
        except Fault as fault:
            found = str(fault)
        expect("a wrong picture, %s" % what, re.search(said, found), found)


def ends_of(svg, element):
    points = readback.flat(re.search('<path class="w e%d" d="([^"]*)"' % element, svg)[1])
    return points[0], points[-1]


def chord_of(svg, element):
    """The straight line between the ends of a line."""
    (x, y), (u, v) = ends_of(svg, element)
    return r"\g<1>M%g %gL%g %g" % (x, y, u, v)


def zigzag_of(svg, element):
    """A line between the same ends that goes to and fro."""
    (x, y), (u, v) = ends_of(svg, element)
    return r"\g<1>M%g %gL%g %gL%g %gL%g %g" % (x, y, u / 2, v / 2, x / 2 + 30, y / 2 + 30, u, v)


def without_crossing(svg):
    """A wiring of which the wires 1 and 2 are straight lines that don't meet."""
    right = ends_of(svg, 1)[1][0]
    for element, height in (1, 0), (2, 24):
        svg = edited(svg, r'(<path class="w e%d" d=")[^"]*' % element, r"\g<1>M0 %gL%g %g" % (height, right, height))
    return svg


def run(words, data, python=None):
    """The exit code, the output and the message of a filter, in a process of its own."""
    name, *words = words.split()
    ended = subprocess.run([python or sys.executable, os.path.join(HERE, name), *words], input=data,
                           stdout=subprocess.PIPE, stderr=subprocess.PIPE, timeout=120)
    return ended.returncode, ended.stdout, ended.stderr.decode(errors="replace")


def refusals():
    """Bad input is refused with a message that helps, and nothing is written. No cut and no changed byte leads to
    anything but a picture or a refusal."""
    with concurrent.futures.ThreadPoolExecutor(2) as pool:
        for (words, data, code, message), (got, out, said) in zip(BAD, pool.map(lambda row: run(*row[:2]), BAD)):
            good = got == code and message in said and "Traceback" not in said and bool(out) == (code == 0)
            expect("%s on %r" % (words, data[:50]), good, "%s %r" % (got, said))
    named = text_of("examples", "uniform-3-4-named.om").encode()
    for data in VECTORS, named, b"om 1\nwiring 3\n1-3\nend\n":
        for k in range(len(data)):
            for broken in data[:k], data[:k] + b"\xff" + data[k + 1:], data[:k] + b"0" + data[k:]:
                try:
                    sys.stdin = io.TextIOWrapper(io.BytesIO(broken))
                    readback.Page(next(iter(TO_SVG.answers([]))))
                    fault = ""
                except Refused:
                    fault = ""
                except Exception as other:  # anything else is a traceback for a user
                    fault = repr(other)
                expect("to-svg on %r" % broken, not fault, fault)


def hostile_inputs():
    """The inputs and streams of neighbours/check_hostile.py, which nobody means, lead to a picture of the whole good
    input or to a refusal."""
    others.path_of = lambda line: "pictures/" + line
    before = dict(others.TALLY)
    for line, good in (("to-svg", VECTORS), ("to-svg --sheet", UNIFORM), ("sweepable", UNIFORM), ("gallery", VECTORS)):
        name, *words = line.split()
        module = load(name)
        results = {1: others.ended_here(module, words, good)[1], 2: others.ended_here(module, words, 2 * good)[1]}
        expect("%s: a good input" % line, results[1])
        for what, count, data in others.hostile(good):
            try:
                others.judge("%s: %s" % (line, what), others.ended_here(module, words, data), count, results)
            except Exception as error:  # any error is a fault of the filter
                expect("%s: %s" % (line, what), False, repr(error))
        if line != "to-svg --sheet":
            for what, found, aim in others.look_at_streams(line, good):
                others.expect(what, found, aim)
    for good in TALLY:
        TALLY[good] += others.TALLY[good] - before[good]


def sweepables(whole):
    """What sweepable writes has a wiring diagram, and relabel takes it back to the document."""
    texts = [text_of("examples", name) for name in ("pappus.om", "non-pappus.om", "uniform-3-4.om")]
    texts += [without_verdict(claim) for claim in classes(3, 4, 5, 6, *([7] if whole else []))]
    texts += [without_verdict(text) for text in documents_in(text_of("catalogue", "nonrealizable-9.claims"))[
        ::1 if whole else 40]]
    code, answer, said = run("sweepable", "".join(texts).encode())
    found = re.findall(r"# relabel (.*)\n((?:.+\n)*?end\n)", answer.decode())
    expect("sweepable", code == 0 and len(found) == len(texts), said)
    wirings = each("wiring", "".join(text for _, text in found))
    back = each("convert chirotope", wirings)
    expect("their wirings", back == "".join(text for _, text in found), back)
    words = run("sweepable --words", "".join(texts).encode())[1].decode().splitlines()
    expect("sweepable --words", words == [names for names, _ in found])
    relabel = os.path.join(TOP, "catalogue", "relabel")
    for text, (names, new) in list(zip(texts, found))[::1 if whole else 5]:
        for option, source, aim in ([], text, new), (["--back"], new, text):
            ended = subprocess.run([relabel, *option, *names.split()], input=source.encode(), stdout=subprocess.PIPE)
            expect("relabel %s %s" % (option, names), ended.stdout.decode() == "".join(
                line + "\n" for line in aim.splitlines() if not line.startswith("#")))


def sheets():
    """Each drawing on a sheet is seen as its document, by its number."""
    for words, texts in (("disk --sheet=4", list(map(without_verdict, classes(5, 6)))), ("--sheet", classes(4, 5, 6)),
                         ("wiring --triangles --sheet=3", classes(3, 4, 5))):
        try:
            page = readback.Page(draw(words, "".join(texts)))
            readback.check_words(page)
            numbers = [int(part.text.split()[0]) for part in page.root if part.tag.endswith("text")]
            wanted(numbers == list(range(1, len(texts) + 1)) and len(page.groups) == len(texts), "%s", numbers)
            for case, group in zip(cases(texts), page.groups):
                case.look(group)
            fault = ""
        except Fault as found:
            fault = str(found)
        expect("to-svg %s" % words, not fault, fault)


# colour blindness as a map of linear red, green and blue: protanopia, deuteranopia, tritanopia (Machado, Oliveira and
# Fernandes, 2009), and normal sight
SIGHTS = (((0.152286, 1.052583, -0.204868), (0.114503, 0.786281, 0.099216), (-0.003882, -0.048116, 1.051998)),
          ((0.367322, 0.860646, -0.227968), (0.280085, 0.672501, 0.047413), (-0.011820, 0.042940, 0.968881)),
          ((1.255528, -0.076749, -0.178779), (-0.078411, 0.930809, 0.147602), (0.004733, 0.691367, 0.303900)),
          ((1, 0, 0), (0, 1, 0), (0, 0, 1)))


def linear(colour):
    """The linear red, green and blue of a colour as it is written."""
    parts = [int(colour[k:k + 2], 16) / 255 for k in (1, 3, 5)]
    return [x / 12.92 if x <= 0.04045 else ((x + 0.055) / 1.055) ** 2.4 for x in parts]


def lab(rgb):
    """The place of a linear colour in CIE Lab."""
    rows = ((0.4124, 0.3576, 0.1805, 0.9505), (0.2126, 0.7152, 0.0722, 1), (0.0193, 0.1192, 0.9505, 1.089))
    x, y, z = (sum(a * b for a, b in zip(row, rgb)) / row[3] for row in rows)
    x, y, z = (t ** (1 / 3) if t > 0.008856 else 7.787 * t + 16 / 116 for t in (x, y, z))
    return 116 * y - 16, 500 * (x - y), 200 * (y - z)


def colours():
    """The colours of a picture are apart for all kinds of sight, and from white and black; in grey odd ones are
    darker."""
    svg = draw("", "om 1\nwiring 6\n1-2\n2-3\n1-2\n3-4\n2-3\n1-2\n4-5\n3-4\n2-3\n1-2\n5-6\n4-5\n3-4\n2-3\n1-2\nend\n")
    used = [re.search('class="w e%d".*stroke="(.*?)"' % e, svg)[1] for e in range(1, 7)]
    for sight in SIGHTS:
        seen = [lab([min(1, max(0, sum(a * b for a, b in zip(row, linear(colour))))) for row in sight])
                for colour in used]
        least = min(sum((a - b) ** 2 for a, b in zip(p, q)) ** 0.5 for p, q in combinations(seen, 2))
        expect("colours that are apart", least >= 21, str(least))
    lights = [sum(a * b for a, b in zip((0.2126, 0.7152, 0.0722), linear(colour))) for colour in used]
    expect("contrast", all(1.05 / (light + 0.05) >= 3 and (light + 0.05) / 0.05 >= 3 for light in lights), str(lights))
    expect("greys", max(lights[::2]) < min(lights[1::2]), str(lights))


class Outline(html.parser.HTMLParser):
    """The tags of a page, each closed in its turn, and the text of each `pre`."""

    def __init__(self, text):
        super().__init__()
        self.open, self.used, self.texts = [], [], []
        self.feed(text)
        self.close()

    def handle_starttag(self, tag, attrs):
        self.used.append(tag)
        if tag != "meta":
            self.open.append(tag)
        if tag == "pre":
            self.texts.append("")

    def handle_startendtag(self, tag, attrs):
        self.used.append(tag)

    def handle_endtag(self, tag):
        wanted(self.open and self.open.pop() == tag, "the tag %s isn't closed in its turn", tag)

    def handle_data(self, data):
        if self.open and self.open[-1] == "pre":
            self.texts[-1] += data


def galleries():
    """A gallery has a picture and the text of each claim, and loads nothing."""
    claims = classes(4, 5) + documents_in(text_of("catalogue", "nonrealizable-9.claims"))[::100]
    code, out, said = run("gallery --title=Some<claims>", "".join(claims).encode())
    try:
        wanted(code == 0, "%s", said)
        page = out.decode()
        outline = Outline(page)
        wanted(not outline.open, "open tags: %s", outline.open)
        wanted(not {"script", "img", "link", "iframe"} & set(outline.used) and "http" not in page.replace(
            "http://www.w3.org/2000/svg", ""), "something is loaded")
        wanted("<h1>Some&lt;claims&gt;</h1>" in page, "no title")
        wanted(outline.texts == claims, "other texts")
        pictures_in = re.findall("<svg.*?</svg>", page, re.S)
        wanted(len(pictures_in) == len(claims), "%d pictures", len(pictures_in))
        for case, svg in zip(cases(claims), pictures_in):
            case.look(readback.Page(svg).groups[0])
        fault = ""
    except Fault as found:
        fault = str(found)
    expect("a gallery", not fault, fault)


def other_pythons():
    """Other versions of Python draw the same bytes."""
    samples = [("to-svg disk --triangles", text_of("examples", "non-pappus.om")),
               ("to-svg disk", text_of("examples", "pappus-vectors.om")),
               ("to-svg", text_of("examples", "pappus-vectors.om")),
               ("to-svg --triangles", text_of("examples", "ringel-wiring.om")),
               ("sweepable", text_of("examples", "non-pappus.om"))]
    ours = [run(words, text.encode())[:2] for words, text in samples]
    versions = []
    for minor in range(8, 16):
        for place in [shutil.which("python3.%d" % minor)] + glob.glob(
                os.path.expanduser("~/.pyenv/versions/3.%d.*/bin/python3" % minor)):
            if place and subprocess.run([place, "-c", "pass"], stderr=subprocess.DEVNULL).returncode == 0:
                versions.append(minor)
                for (words, text), wanted_ in zip(samples, ours):
                    expect("%s by Python 3.%d" % (words, minor), run(words, text.encode(), place)[:2] == wanted_)
                break
    print("Python 3.%d draws the same bytes as 3.%s" % (sys.version_info[1], ", 3.".join(map(str, versions)))
          if versions else "no other version of Python is installed")


def pdf():
    """A PDF keeps text as text."""
    if not shutil.which("rsvg-convert"):
        print("rsvg-convert isn't installed (Debian: librsvg2-bin): no PDF is made")
        return
    svg = draw("disk", text_of("examples", "non-pappus.om"))
    made = subprocess.run(["rsvg-convert", "-f", "pdf"], input=svg.encode(), stdout=subprocess.PIPE).stdout
    streams = []
    for stream in re.findall(rb"stream\r?\n(.*?)\r?\nendstream", made, re.S):
        try:
            streams.append(zlib.decompress(stream))
        except zlib.error:
            streams.append(stream)
    everything = made + b"".join(streams)
    shown = len(re.findall(rb"\bT[jJ]\b", everything))
    expect("a PDF with text", made.startswith(b"%PDF") and b"/Font" in everything and shown >= 18, str(shown))


SCRIPT = """<script>
let out = [];
for (const svg of document.querySelectorAll("svg")) for (const g of svg.querySelectorAll(":scope > g")) {
  const boxes = [...g.querySelectorAll("text")].map(t => [t.textContent, t.getBoundingClientRect()]);
  const page = svg.getBoundingClientRect();
  for (const [name, b] of boxes) if (b.left < page.left - 1 || b.right > page.right + 1 || b.top < page.top - 1 ||
    b.bottom > page.bottom + 1) out.push(name + " isn't on the page");
  // a box has room above and below the letters
  const d = (b) => 0.22 * b.height;
  boxes.forEach(([n, a], i) => boxes.slice(i + 1).forEach(([m, b]) => {
    if (a.left < b.right && b.left < a.right && a.top + d(a) < b.bottom - d(b) && b.top + d(b) < a.bottom - d(a))
      out.push(n + " lies on " + m); }));
}
document.body.setAttribute("data-found", out.length + " " + out.join("; ") + ".");
</script>"""


def browser():
    """In Chromium a picture isn't empty, and no word lies on another one."""
    program = shutil.which("chromium") or shutil.which("chromium-browser")
    if not program:
        print("Chromium isn't installed (Debian: chromium): the pictures are not looked at there")
        return
    rng = random.Random(3)
    found = [draw(words, text) for words, text in (
        ("disk --triangles", text_of("examples", "non-pappus.om")), ("", text_of("examples", "pappus-vectors.om")),
        ("--triangles", text_of("examples", "ringel-wiring.om")), ("disk --sheet=6", "".join(classes(6))),
        ("--sheet=6", "".join(classes(6))), ("points", random_points(20, rng, True)),
        ("disk", random_points(20, rng, True)), ("points", random_points(12, rng)))]
    with tempfile.TemporaryDirectory() as room:
        page = os.path.join(room, "page.html")
        with open(page, "w", encoding="utf-8") as file:
            file.write("<!DOCTYPE html><html><body style='margin:0;width:720px'>%s%s</body></html>" % (
                "".join(found), SCRIPT))
        base = [program, "--headless", "--no-sandbox", "--disable-gpu", "--disable-dev-shm-usage", "--hide-scrollbars",
                "--user-data-dir=" + os.path.join(room, "profile")]
        try:
            shown = subprocess.run(base + ["--dump-dom", "file://" + page], stdout=subprocess.PIPE, timeout=120,
                                   stderr=subprocess.DEVNULL).stdout.decode(errors="replace")
            picture = os.path.join(room, "shot.png")
            subprocess.run(base + ["--window-size=720,4000", "--screenshot=" + picture, "file://" + page], timeout=120,
                           stdout=subprocess.DEVNULL, stderr=subprocess.DEVNULL)
        except subprocess.TimeoutExpired:
            expect("Chromium in two minutes", False)
            return
        said = re.search('data-found="([^"]*)"', shown)
        expect("words in Chromium", said and said[1].startswith("0 "), said[1] if said else shown[:300])
        with open(picture, "rb") as file:
            data = file.read()
        kinds = {bytes(row) for row in rows_of(data)}
        expect("a screenshot", len(kinds) > 200, "%d different rows" % len(kinds))


def rows_of(png):
    """The rows of a PNG as they are packed."""
    width, height = int.from_bytes(png[16:20], "big"), int.from_bytes(png[20:24], "big")
    place, packed = 8, b""
    while place < len(png):
        size = int.from_bytes(png[place:place + 4], "big")
        if png[place + 4:place + 8] == b"IDAT":
            packed += png[place + 8:place + 8 + size]
        place += size + 12
    plain = zlib.decompress(packed)
    step = len(plain) // height
    wanted(width > 0 and step > width, "no picture")
    return [plain[k:k + step] for k in range(0, len(plain), step)]


def main():
    whole = sys.argv[1:] == ["--whole"]
    if sys.argv[1:] and not whole:
        print("its words are --whole or none", file=sys.stderr)
        return 2
    pictures(whole)
    maps(3000 if whole else 150)
    wrong_pictures()
    refusals()
    hostile_inputs()
    sweepables(whole)
    sheets()
    galleries()
    colours()
    other_pythons()
    pdf()
    browser()
    print("pictures: %d passed, %d failed" % (TALLY[True], TALLY[False]))
    return 1 if TALLY[False] or not TALLY[True] else 0


if __name__ == "__main__":
    sys.exit(main())
