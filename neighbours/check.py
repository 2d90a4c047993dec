#!/usr/bin/env python3
"""neighbours/check.py

Takes the shipped examples through the filters of this folder there and back; runs the table refusals.txt; gives each
filter inputs that are cut off or changed at a byte, and streams that are closed, full or gone; asks documents.py for
the lines at fault that the tables of rows/ tell of om; compares our circuits, cocircuits and duals with TOPCOM's if
TOPCOM is installed; and runs the other checks of this folder, check_*.py. The last line is 'neighbours: N passed, M
failed'; the exit code is 1 where one failed.

A row of refusals.txt is `words | input | code | output | message`. In the input and the output a `/` stands for the
end of a line, an `@` for the text that a line `@ = TEXT` above gives (`@ = TEXT * N` is N times the text), and `\\t`,
`\\r` and `\\xff` are bytes. Where the code is 0 there is no message; else it begins with the name of the filter and
has in it what the row says. A line with `# ` in front is a remark.
"""
import concurrent.futures
import glob
import importlib.machinery
import importlib.util
import io
import itertools
import os
import random
import re
import shutil
import subprocess
import sys
import types

HERE = os.path.dirname(os.path.abspath(__file__))
TOP = os.path.dirname(HERE)
sys.path.insert(0, HERE)

from documents import documents  # noqa: E402
from filters import Refused  # noqa: E402

EACH = os.path.join(TOP, "crates", "om_each", "out", "om_each")
UNIFORM, POINTS = b"om 1\nchirotope 3 4\n++++\nend\n", b"om 1\npoints 3\n0 0 1\n1 0 1\n0 1 1\nend\n"
CIRCUITS = b"om 1\ncircuits 2\n+-\n-+\nend\n"
# each filter with its words and two inputs that it takes one after the other, and of which each gives a text
GOOD = [("om-to-topcom", UNIFORM, UNIFORM), ("om-points-to-topcom", POINTS, POINTS), ("om-to-lists", UNIFORM, CIRCUITS),
        ("om-to-order-types 8", POINTS, POINTS), ("om-to-graph6", CIRCUITS, b"om 1\ncovectors 1\n+\n-\n0\nend\n"),
        ("reverse-order 3 4 --back", UNIFORM, UNIFORM), ("reverse-order 3 4", b"++++\n", b"+0++\n"),
        ("order-types-to-om 3 8", b"abcdef", b"ABCDEF"), ("lists-to-om circuits", b"[[1,-1],[-1,1]]\n", b"[(1, )]\n"),
        ("lists-to-om chirotope 3 4", b"[1,1,1,1]\n", b"[-1,0,1,1]"),
        ("lists-to-om points", b"[[0,0,1],[1,0,1]]\n", b"[[1,1,1]]"),
        ("topcom-to-om", b"4,3:\n++++\n[[0,1,2,3]]\n", b"4,2:+-+-+-"),
        ("topcom-points-to-om", b"[[0,0,1],[1,0,1]]\n[[1,0]]\n", b"[[1,1/3,1]]\n"),
        ("topcom-sets-to-om cocircuits 3", b"C[0] := [{0,2},{1}];\n", b"3,2:\n{\n[{1},{2}]\n}\n"),
        ("topcom-sets-to-om circuits 3", b"C[0] := [{0,2},{1}];\n", b"C[0] := [{1},{2}];\n"),
        ("extensions-to-om examples/uniform-3-4.om -", b"om 1\nextensions 4\n------\n++++++\nend\n", b""),
        ("restore-names examples/uniform-3-4-named.om", b"mutations 1\n1,2,3\nend\n", b"circuit +-+-\n")]
TALLY = {True: 0, False: 0}


def expect(what, found, wanted):
    """Counts a run, which has to come to what is wanted."""
    TALLY[found == wanted] += 1
    if found != wanted:
        print("failed: %s\n--- wanted %.2000r\n--- found  %.2000r" % (what, wanted, found))


def run(words, data, stdout=subprocess.PIPE):
    """The exit code, the output and the message of a program; a name of a filter stands for the filter."""
    path = os.path.join(HERE, words[0])
    words = [path if os.path.exists(path) else words[0]] + words[1:]
    ended = subprocess.run(words, input=data, stdout=stdout, stderr=subprocess.PIPE, timeout=60, cwd=TOP)
    return ended.returncode, ended.stdout, ended.stderr


def out(words, data):
    return run(words.split(), data)[1]


def om(words, data):
    return out("./om " + words, data)


def example(name):
    with open(os.path.join(TOP, "examples", name), "rb") as file:
        return file.read()


def shape(chirotope):
    """The rank and the number of elements of a document of a chirotope."""
    return tuple(chirotope.split(b"\n")[1].decode().split()[1:])


def there_and_back(name, chirotope):
    """The pairs of filters write the same document again, and so in canonical form."""
    expect("%s by TOPCOM's form" % name, out("topcom-to-om", out("om-to-topcom", chirotope)), chirotope)
    expect("%s by lists" % name, out("lists-to-om chirotope %s %s" % shape(chirotope), out("om-to-lists", chirotope)),
           chirotope)
    turned = out("reverse-order %s %s --back" % shape(chirotope), chirotope)
    expect("%s by reverse order" % name, out("reverse-order %s %s" % shape(chirotope), turned), chirotope)
    for kind in ("circuits", "covectors"):
        members = om("convert " + kind, chirotope)
        back = out("lists-to-om %s %s" % (kind, shape(chirotope)[1]), out("om-to-lists", members))
        expect("%s of %s by lists" % (kind, name), back, members)


def beside_topcom(name, chirotope):
    theirs, elements = out("om-to-topcom", chirotope), int(shape(chirotope)[1])
    for kind in ("circuits", "cocircuits"):
        sets = out("topcom-chiro2%s" % kind, theirs)
        expect("%s of %s" % (kind, name), out("topcom-sets-to-om %s %d" % (kind, elements), sets),
               om("convert " + kind, chirotope))
    # TOPCOM writes the symmetries that it was given, here the identity, after the dual
    identity = b"[[%s]]\n" % b",".join(b"%d" % element for element in range(elements))
    dual = out("topcom-to-om", out("topcom-chiro2dual", theirs + identity))
    # both up to sign: reorienting no element can't be asked for, so each is taken to its circuits
    expect("dual of %s" % name, om("convert circuits", dual), om("convert circuits", om("dual", chirotope)))


def look_at_examples(has_topcom):
    chirotopes = b""
    for path in sorted(glob.glob(os.path.join(TOP, "examples", "*.om"))):
        name = os.path.basename(path)
        chirotope = om("convert chirotope", example(name))
        if chirotope.startswith(b"om 1\nchirotope"):
            chirotopes += chirotope
            there_and_back(name, chirotope)
            if has_topcom and 0 < int(shape(chirotope)[0]) < int(shape(chirotope)[1]):
                beside_topcom(name, chirotope)
    expect("all in one stream", out("topcom-to-om", out("om-to-topcom", chirotopes)), chirotopes)
    points = out("topcom-points-to-om", out("om-points-to-topcom", example("pappus-points.om")))
    expect("points by TOPCOM's form", points, example("pappus-points.om").split(b"\n", 1)[1])
    expect("points by records", out("order-types-to-om 3 16", out("om-to-order-types 16", POINTS * 2)), POINTS * 2)


def look_at_extensions():
    """Each line of a listing gives an extension, which has the values of its document; other documents' listings are
    refused."""
    for signs in (b"++++", b"0+++", b"0++0"):
        document = b"om 1\nchirotope 3 4\n%s\nend\n" % signs
        listing = om("extend", document)
        code, written, message = run(["bash", "-c", 'neighbours/extensions-to-om <(printf %s "$0") -', document],
                                     listing)
        pieces = [piece + b"end\n" for piece in written.split(b"end\n")[:-1]]
        expect("extensions of %s, one for each line" % signs, (code, len(pieces), message),
               (0, listing.count(b"\n") - 3, b""))
        answers = {(om("accept", piece), om("delete 5", piece)) for piece in pieces[::5]}
        expect("extensions of %s are accepted, and have its values" % signs, answers, {(b"accepted\n", document)})
    for signs in (b"+-++", b"+0++"):
        listing = om("extend", b"om 1\nchirotope 3 4\n%s\nend\n" % signs)
        code, written, message = run(["extensions-to-om", "examples/uniform-3-4.om", "-"], listing)
        expect("the listing of %s" % signs, (code, b"is no extension of the document" in message), (1, True))
    if not os.path.exists(EACH):
        print("om_each isn't built: streams of listings are not looked at")
        return
    stream = UNIFORM + om("convert chirotope", example("pappus.om"))
    listings = run([EACH, "extend"], stream)[1]
    code, written, message = run(["bash", "-c", 'neighbours/extensions-to-om <(printf %s "$0") -', stream], listings)
    expect("a stream of listings", (code, written.count(b"end\n"), message), (0, listings.count(b"\n") - 6, b""))


def look_at_faults():
    """documents.py takes the documents of the tables of om in rows/ that om takes, and else names the line and the
    code that om names."""
    loader = importlib.machinery.SourceFileLoader("rows", os.path.join(TOP, "rows", "check.py"))
    rows = importlib.util.module_from_spec(importlib.util.spec_from_loader("rows", loader))
    loader.exec_module(rows)
    for path in sorted(set(glob.glob(os.path.join(TOP, "rows", "*.txt"))) - {os.path.join(TOP, "rows", "streams.txt")}):
        for row in rows.rows_of(path):
            # a line after the document begins another one here, and a line may be longer than an input of om
            if row.words == ["accept"] and row.input is not None and not row.output.endswith((b" after\n",
                                                                                              b"refused long\n")):
                fault = row.output.decode().split()[2:4] if row.output.startswith(b"refused line") else []
                try:
                    found = [] if len(list(documents(io.BytesIO(row.input)))) == 1 else ["many documents"]
                except Refused as refused:
                    found = re.findall("line ([0-9]+): ([a-z]+)", str(refused))[:1] or [str(refused)]
                expect("%s: %s" % (os.path.basename(path), row.line[:200]), found, [tuple(fault)] if fault else [])


def look_at_names():
    named, words = example("uniform-3-4-named.om"), "restore-names --document examples/uniform-3-4-named.om"
    for kind in ("chirotope", "circuits", "covectors"):
        answer = om("convert " + kind, named)
        expect("names of %s" % kind, om("convert " + kind, out(words, answer)), answer)
        expect("names of %s come back" % kind, b"names north east south west\n" in om("upgrade", out(words, answer)),
               True)
    claim = out(words, om("decide", named))
    expect("a claim with names", om("check", claim), b"valid realizable\n")
    # the names of a document and of a claim for one answer each, and for an answer too few and too many
    other = claim.replace(b"names north east south west", b"names a b c d")
    for answers, code, written in ((b"circuit +000\n" * 2, 0, b"circuit +north\ncircuit +a\n"),
                                   (b"circuit +000\n", 1, b"circuit +north\n"),
                                   (b"circuit +000\n" * 3, 1, b"circuit +north\ncircuit +a\n")):
        ended = run(["bash", "-c", 'neighbours/restore-names <(printf %s "$0")', named + other], answers)
        expect("names of two documents for %r" % answers, ended[:2], (code, written))


def look_at_graphs():
    """Lists have the same canonical graph exactly where renaming and reorienting takes one to the other: of uniform
    oriented matroids of any rank those of alternating maps, under other names, and others. The symmetries of the
    alternating one of rank r on n elements are those of a polygon, as long as 1 < r < n - 1."""
    labelg, countg = (shutil.which(name) or shutil.which("nauty-" + name) for name in ("labelg", "countg"))
    if not labelg or not countg:
        print("nauty isn't installed: graphs of lists are not compared")
        return
    chance = random.Random(75)

    def canonical(kind, documents, *words):
        lists = out("./om-each convert " + kind, b"".join(documents))
        graphs = run(["om-to-graph6", *words], lists)[1]
        colours = run(["om-to-graph6", "--colours", "6", *words], b"")[1].decode().strip()
        return run([labelg, "-q", "-f" + colours], graphs)[1].splitlines()

    def turned(rank, signs, order, flips):
        """The chirotope under other names, with some elements reoriented."""
        values = dict(zip(itertools.combinations(range(6), rank), signs))
        new = ""
        for chosen in itertools.combinations(range(6), rank):
            named = [order[it] for it in chosen]
            turn = sum(x > y for x, y in itertools.combinations(named, 2)) + sum(it in flips for it in chosen)
            sign = values[tuple(sorted(named))]
            new += sign if turn % 2 == 0 else {"+": "-", "-": "+", "0": "0"}[sign]
        return b"om 1\nchirotope %d 6\n%s\nend\n" % (rank, new.encode())

    for rank in 1, 2, 3, 4, 5:
        size = len(list(itertools.combinations(range(6), rank)))
        # the first value turned makes another one, where that is a chirotope: so in ranks 2 to 4
        maps = ["+" * size, "0" + "+" * (size - 1)][:1 + (1 < rank < 5)]
        documents, plain = [], []
        for signs in maps:
            named = [turned(rank, signs, chance.sample(range(6), 6), ()) for _ in range(2)]
            plain += [named[0], named[1]]
            documents += [turned(rank, signs, chance.sample(range(6), 6), chance.sample(range(6), 3)) for _ in range(3)]
        for kind in "circuits", "cocircuits", "covectors":
            found = canonical(kind, plain + documents)
            expect("classes of rank %d by %s" % (rank, kind), len(set(found)), len(maps))
            found = canonical(kind, plain, "--renaming")
            expect("by renaming alone", (len(found), len(set(found))), (2 * len(maps), len(maps)))
        # in even rank the first element, reoriented, is the last one
        reoriented = [turned(rank, maps[0], range(6), {0}), turned(rank, maps[0], range(6), ())]
        expect("reorientation beside renaming, rank %d" % rank,
               len(set(canonical("covectors", reoriented, "--renaming"))), 1 + rank % 2)
    for rank, elements, order in (3, 4, 48), (3, 5, 20), (2, 5, 20), (3, 6, 24), (4, 7, 28):
        signs = b"+" * len(list(itertools.combinations(range(elements), rank)))
        lists = om("convert cocircuits", b"om 1\nchirotope %d %d\n%s\nend\n" % (rank, elements, signs))
        said = run([countg, "--a", "-q", "-1"], run(["om-to-graph6"], lists)[1])[1].split()[:1]
        expect("symmetries of the alternating one, %d %d" % (rank, elements), said, [b"%d" % order])


def bytes_of(text, at):
    text = text.replace(b"/", b"\n").replace(b"\\t", b"\t").replace(b"\\r", b"\r").replace(b"@", at)
    return re.sub(rb"\\x([0-9a-f]{2})", lambda it: bytes([int(it[1], 16)]), text)


def rows():
    """The rows of the table: each as it stands, its words, its input, its code, its output and a part of its
    message."""
    at = b""
    with open(os.path.join(HERE, "refusals.txt"), "rb") as file:
        lines = file.read().split(b"\n")
    for line in lines:
        if line.startswith(b"@ = "):
            text, _, times = line[4:].partition(b" * ")
            at = bytes_of(text, b"") * int(times or 1)
        elif line and not line.startswith(b"# "):
            words, given, code, output, message = line.split(b" | ")
            yield (line.decode("latin-1")[:200], words.decode().split(), bytes_of(given, at), int(code),
                   bytes_of(output, at), message)


def look_at_refusals():
    table = list(rows())
    with concurrent.futures.ThreadPoolExecutor(4) as pool:
        ended = pool.map(lambda row: run(row[1], row[2]), table)
    for (line, words, _, code, output, wanted), (found, written, message) in zip(table, ended):
        right = message.startswith(words[0].encode() + b": ") and wanted in message and b"Traceback" not in message
        expect(line, (found, written, (right if code else not message) or message), (code, output, True))


def texts_of(answers, options, data):
    """The texts that a filter yields for an input, and why it refuses what follows them."""
    sys.stdin, texts = types.SimpleNamespace(buffer=io.BytesIO(data)), []
    try:
        for text in answers(options):
            texts.append(text)
    except Refused as refused:
        return texts, str(refused)
    return texts, ""


def look_at_changes(words, first, second):
    """An input that is cut off after any byte gives the first of its texts, or is refused. One in which a byte is
    another one is taken or refused, and no text but documents comes from a filter that writes documents. All this
    runs in one process."""
    name, options, data = words.split()[0], words.split()[1:], first + second
    loader = importlib.machinery.SourceFileLoader("filter", os.path.join(HERE, name))
    module = importlib.util.module_from_spec(importlib.util.spec_from_loader("filter", loader))
    loader.exec_module(module)
    whole, refused = texts_of(module.answers, options, data)
    expect("%s and an input that it takes" % words, (bool(whole), refused), (True, ""))
    for cut in range(len(data)):
        texts, refused = texts_of(module.answers, options, data[:cut])
        expect("%s and %r" % (words, data[:cut]), (texts, bool(texts or refused)), (whole[:len(texts)], True))
    for place in range(len(data)):
        odd = []
        for byte in b"\0 \n\r#+-0129,:/;[]{}eox\xff":
            texts, refused = texts_of(module.answers, options, data[:place] + bytes([byte]) + data[place + 1:])
            try:
                if texts and name.endswith("to-om"):
                    list(documents(io.BytesIO("".join(texts).encode())))
            except Refused as fault:
                odd.append((byte, fault))
        expect("%s and another byte %d" % (words, place), odd, [])


def look_at_streams(words, data):
    """Wrong words, and streams that are closed, full or gone."""
    name = words.split()[0]
    for what, command, code, wanted in (
            ("wrong words", "neighbours/%s --no such words -" % name, 2, b"wrong words"),
            ("no input", "neighbours/%s <&-" % words, 4, b"reading failed"),
            ("no output", "neighbours/%s >&-" % words, 5, b"writing failed"),
            ("a full disk", "neighbours/%s > /dev/full" % words, 5, b"writing failed")):
        ended = run(["bash", "-c", command], data)
        right = ended[2].startswith(name.encode() + b": ") and wanted in ended[2]
        expect("%s and %s" % (words, what), (ended[0], ended[1], right or ended[2]), (code, b"", True))
    reader, writer = os.pipe()
    os.close(reader)
    expect("%s and a reader that is gone" % words, run(words.split(), data, writer)[::2], (5, b""))
    os.close(writer)


def main():
    has_topcom, standard_input = shutil.which("topcom-chiro2circuits") is not None, sys.stdin
    if not has_topcom:
        print("TOPCOM isn't installed: our answers are not compared with its")
    # they run beside what follows
    others = [(os.path.basename(path), subprocess.Popen([sys.executable, path], stdout=subprocess.PIPE,
                                                        stderr=subprocess.STDOUT, cwd=TOP))
              for path in sorted(glob.glob(os.path.join(HERE, "check_*.py")))]
    look_at_examples(has_topcom)
    look_at_extensions()
    look_at_faults()
    look_at_names()
    look_at_graphs()
    look_at_refusals()
    os.chdir(TOP)
    for words, first, second in GOOD:
        look_at_changes(words, first, second)
        look_at_streams(words, first)
    sys.stdin = standard_input
    for name, check in others:
        said, _ = check.communicate()
        print(said.decode(), end="")
        expect(name, check.returncode, 0)
    print("neighbours: %d passed, %d failed" % (TALLY[True], TALLY[False]))
    return 1 if TALLY[False] or not TALLY[True] else 0


if __name__ == "__main__":
    sys.exit(main())
