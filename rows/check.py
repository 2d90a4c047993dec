#!/usr/bin/env python3
"""rows/check.py [PROGRAM ..]

Runs the rows of the tables beside it. A row is a run of the program, and has its words, its input, its exit code and
its output, with ` | ` between two. In the input and the output a `/` stands for the end of a line. An `@` there, and
the word `@`, stand for a text that a line `@ = TEXT` before the row gives; `@ = TEXT * N` is N times this text, and
`@ = halves N` is what `halves` gives for N. `\\t` is a tab, `\\r` a carriage return, `\\x0b` the byte of this number,
and `\\u{feff}` this code point in UTF-8. If the input is `unread`, each read would fail, and the output `nothing` is
an empty one. A line that begins with `# ` is a remark. `streams.txt` has runs of om_each, `classes.txt` of om_classes,
and each other table of om.

After the tables come runs that read a text which breaks off, runs whose output has too little room, a few answers of
which parts are compared, lists and refusals that are compared with what the axioms give, and the runs of large.py. For
om_each there are the documents of all tables in streams, and a conversation. Each program also gets words that don't
reach it. Each program that is named makes all these runs, those of om_each or om_classes if its name has `each` or
`classes` in it. If none is named, all built programs do, and those of the second compiler if they are there.
The last line is 'rows: N passed, M failed', and the exit code is 1 if one failed.
"""
import glob
import io
import itertools
import os
import re
import resource
import signal
import subprocess
import sys
import tempfile
import threading
import time

HERE = os.path.dirname(os.path.abspath(__file__))
sys.path.insert(0, HERE)  # the checks of neighbours/ load this file, too

import large  # noqa: E402

TOP = os.path.dirname(HERE)
sys.path.insert(1, os.path.join(TOP, "neighbours"))

from om import cut  # noqa: E402

BUILT = [os.path.join(TOP, "crates", name, "out", name) for name in ("om", "om_each", "om_classes")]
STREAMS, CLASSES = os.path.join(HERE, "streams.txt"), os.path.join(HERE, "classes.txt")
UNIFORM = b"om 1\nchirotope 3 4\n++++\nend\n"
# bytes of memory for a run in little of it
LITTLE = 16 << 20
# the chirotope of the theorem of Pappus, but that its last triple isn't on a line
NON_PAPPUS = (b"om 1\nchirotope 3 9\n"
              b"0++++++++++++--------0-0++++++++++----0---+0+++++---0+-0++++++++\n0------------------+\nend\n")


class Row:
    """A run, and what it has to give."""

    def __init__(self, line, at):
        words, given, code, output = line.split(" | ", 3)
        self.line = line
        self.words = [at.decode() if word == "@" else word for word in words.split(" ")] if words else []
        self.input = None if given == "unread" else bytes_of(given, at)
        self.code, self.output = int(code), b"" if output == "nothing" else bytes_of(output, at)


def plain_bytes(text):
    """The bytes of a text of a table, in which an `@` is an `@`."""
    text = text.replace("/", "\n").replace("\\t", "\t").replace("\\r", "\r")
    # a byte is below 0x80, and has the form of its code point
    return re.sub(r"\\x([0-7][0-9a-f])|\\u\{([0-9a-f]+)\}", lambda it: chr(int(it[1] or it[2], 16)), text).encode()


def bytes_of(text, at):
    """The bytes of a text of a row."""
    return plain_bytes(text).replace(b"@", at)


def halves(count):
    """Lines of 20 signs, no two of them equal or opposite: plus, and then plus at each one of the 19 binary digits of
    a number."""
    return b"".join(b"+%s\n" % format(number, "019b").replace("0", "-").replace("1", "+").encode()
                    for number in range(count))


def rows_of(path):
    """The rows of a table."""
    at = b""
    with open(path) as file:
        for line in file.read().split("\n"):
            many = re.fullmatch(r"@ = (.+) \* (\d+)", line)
            lines = re.fullmatch(r"@ = halves (\d+)", line)
            if many:
                at = plain_bytes(many.group(1)) * int(many.group(2))
            elif lines:
                at = halves(int(lines.group(1)))
            elif line.startswith("@ = "):
                at = plain_bytes(line[4:])
            elif line and not line.startswith("# "):
                yield Row(line, at)


def run(program, words, given, **more):
    """The exit code and the output of a run whose input is some bytes and then their end."""
    ended = subprocess.run([program] + words, input=given, stdout=subprocess.PIPE, stderr=subprocess.STDOUT, timeout=60,
                           **more)
    return ended.returncode, ended.stdout


def run_cut_off(program, words, given):
    """The exit code and the output of a run whose input is some bytes, after which each read fails."""
    reader, writer = os.pipe()
    os.set_blocking(reader, False)
    os.write(writer, given)
    try:
        ended = subprocess.run([program] + words, stdin=reader, stdout=subprocess.PIPE, stderr=subprocess.STDOUT,
                               timeout=60)
    finally:
        os.close(reader)
        os.close(writer)
    return ended.returncode, ended.stdout


def run_in_room(program, words, given, room):
    """The exit code and the output of a run whose output may have no more bytes than `room`."""
    def little_room():
        signal.signal(signal.SIGXFSZ, signal.SIG_IGN)
        resource.setrlimit(resource.RLIMIT_FSIZE, (room, room))

    with tempfile.TemporaryFile() as output:
        ended = subprocess.run([program] + words, input=given, stdout=output, stderr=subprocess.DEVNULL, timeout=60,
                               preexec_fn=little_room)
        output.seek(0)
        return ended.returncode, output.read()


class Tally:
    """The runs that passed, and those that failed."""

    def __init__(self):
        self.passed = self.failed = 0

    def expect(self, what, found, wanted):
        """Counts a run, which has to give what is wanted."""
        if found == wanted:
            self.passed += 1
        else:
            self.failed += 1
            print("failed: %s\n--- wanted %r\n--- found  %r" % (what, wanted, found))


def tables():
    """The tables of om."""
    return [it for it in sorted(glob.glob(os.path.join(HERE, "*.txt"))) if it not in (STREAMS, CLASSES)]


def run_tables(tally, program, paths):
    """The runs of the tables."""
    for path in paths:
        for row in rows_of(path):
            found = run_cut_off(program, row.words, b"") if row.input is None else run(program, row.words, row.input)
            tally.expect("%s: %s" % (os.path.basename(path), row.line[:200]), found, (row.code, row.output))


def run_faults(tally, program):
    """A read that fails after each byte of a document, and rooms that end after each byte of two answers."""
    for read in range(len(UNIFORM) + 1):
        tally.expect("a read that fails behind %d bytes" % read, run_cut_off(program, ["accept"], UNIFORM[:read]),
                     (4, b""))
    for room in range(9):
        tally.expect("a room of %d bytes" % room, run_in_room(program, ["accept"], UNIFORM, room),
                     (5, b"accepted\n"[:room]))
    tally.expect("a room of 9 bytes", run_in_room(program, ["accept"], UNIFORM, 9), (0, b"accepted\n"))
    circuits = b"om 1\ncircuits 4\n-+-+\n+-+-\nend\n"
    for room in range(len(circuits)):
        found = run_in_room(program, ["convert", "circuits"], UNIFORM, room)
        tally.expect("a list in a room of %d bytes" % room, found, (5, circuits[:room]))
    tally.expect("a list in a room of its size", run_in_room(program, ["convert", "circuits"], UNIFORM, len(circuits)),
                 (0, circuits))


def run_parts(tally, program):
    """Answers that are looked at in parts."""
    code, claim = run(program, ["decide", "--steps=100000", "--pivots=5000"], NON_PAPPUS)
    # the document's five lines, the word, an entry a line, and the end
    tally.expect("a certificate", (code, claim.startswith(NON_PAPPUS), claim.count(b"\n")), (0, True, 5 + 1 + 22 + 1))
    tally.expect("a certificate that is checked", run(program, ["check"], claim), (0, b"valid nonrealizable\n"))
    first, second = run_cut_off(program, ["make", "7"], b""), run_cut_off(program, ["make", "7"], b"")
    tally.expect("the same number twice", first, second)
    front = b"om 1\npoints 16\n1 0 0\n0 1 0\n0 0 1\n-2 0 1\n"
    back = b"\n5 1 -4\nend\nplus 268\nzero 5\nminus 287\ncocircuits 220\ncovectors 903\nmutations 34\nback equal\n"
    tally.expect("make 7", (first[0], first[1].startswith(front), first[1].endswith(back)), (0, True, True))
    code, covectors = run(program, ["convert", "covectors"], b"om 1\nchirotope 3 20\n" + b"+" * 1140 + b"\nend\n")
    # 1,523 members, the two lines before them, and the end
    tally.expect("covectors of twenty elements", (code, covectors.count(b"\n")), (0, 1523 + 2 + 1))


def all_plus(elements, number):
    """The document of the chirotope of rank 3 on some elements whose signs, of which this is the number, are all
    plus."""
    return b"om 1\nchirotope 3 %d\n%s\nend\n" % (elements, b"+" * number)


def is_chirotope(signs):
    """Whether the map of rank 3 on five elements with these signs is a chirotope: it isn't all zero, and from each
    two bases x and y some element of y can be exchanged with the first of x so that the product of their values is
    kept. Where two elements of y, or the last two of x, change places, all the products change their signs, so one
    order of them will do."""
    value = dict.fromkeys(itertools.product(range(5), repeat=3), 0)
    for (a, b, c), sign in zip(itertools.combinations(range(5), 3), signs):
        value[a, b, c] = value[b, c, a] = value[c, a, b] = "-0+".index(sign) - 1
        value[a, c, b] = value[c, b, a] = value[b, a, c] = 1 - "-0+".index(sign)
    bases = [x for x in value if value[x]]
    return bool(bases) and all(
        any(value[(e,) + x[1:]] * value[y[:i] + x[:1] + y[i + 1:]] == value[x] * value[y] for i, e in enumerate(y))
        for x in bases if x[1] < x[2] for y in bases if y[0] < y[1] < y[2])


def extensions(old):
    """The signatures of the extensions of the map of rank 3 on four elements with these signs, from minus to plus."""
    for new in itertools.product("-0+", repeat=6):
        # of five elements the triples 1 2 3, 1 2 4, 1 3 4 and 2 3 4 are the old ones, and each other one is a pair
        # with the fifth
        signs = old[0] + old[1] + new[0] + old[2] + new[1] + new[2] + old[3] + new[3] + new[4] + new[5]
        if is_chirotope(signs):
            yield "".join(new)


def run_extensions(tally, program, listed):
    """The extensions of each map of rank 3 on four elements that has no zero, and the numbers of those of larger
    ones."""
    for old, lines in listed:
        wanted = "om 1\nextensions 4\n%s\nend\n" % "\n".join(lines)
        found = run(program, ["extend"], b"om 1\nchirotope 3 4\n%s\nend\n" % old.encode())
        tally.expect("extensions of %s, of which there are 75" % old, (found, len(lines)), ((0, wanted.encode()), 75))
    larger = ((9, 84, 2000, 2000, b"more"), (9, 84, 2001, 2001, b"more"), (9, 84, 100000, 10131, b"end"),
              (19, 969, 1000, 1000, b"more"))
    for elements, number, first, lines, last in larger:
        code, listing = run(program, ["extend", "--first=%d" % first], all_plus(elements, number))
        # the two lines before them, and the last one
        found = code, listing.count(b"\n"), listing.endswith(b"\n%s\n" % last)
        tally.expect("the first %d extensions of %d elements" % (first, elements), found, (0, lines + 2 + 1, True))


def run_large(tally, program, listed):
    """The runs of large.py, and inputs that are too long for any command."""
    for words, given, code, output in listed:
        found = run(program, words.split(), given.encode())
        tally.expect("%s of %s" % (words, given[:60]), found, (code, output.encode()))
    for words in sorted({words for words, _, _, _ in listed}):
        tally.expect("%s of a long input" % words, run(program, words.split(), b"#" * 1048577), (1, b"refused long\n"))


def run_verdicts(tally, program):
    """Vectors that are found for nine and more elements, and weights where the search may make one step alone."""
    four = [(1, 0, 0), (0, 1, 0), (0, 0, 1), (1, 1, 1)]
    for points in [(1, t, t * t) for t in range(9)], four * 3, four * 5:
        given, elements = large.map_of_points(points), len(points)
        signs = given.count("+") + given.count("-")
        code, claim = run(program, ["decide"], given.encode())
        lines = claim.decode()[len(given):].split("\n")
        vectors = [tuple(map(int, it.split(" ")[1:])) for it in lines[1:elements + 1]]
        found = code, claim.startswith(given.encode()), lines[0], lines[elements + 1:], large.map_of_points(vectors)
        tally.expect("vectors of %d elements" % elements, found, (0, True, "realizable", ["end", ""], given))
        tally.expect("which are valid", run(program, ["check"], claim), (0, b"valid realizable\n"))
        code, claim = run(program, ["decide", "--steps=1"], given.encode())
        found = code, claim.startswith(given.encode()), claim.count(b"\nweight "), claim.split(b"\n")[-4:]
        tally.expect("weights of %d elements" % elements, found,
                     (0, True, signs, [b"frontier", b"vector -1 -1 -1", b"end", b""]))
        tally.expect("which are valid", run(program, ["check"], claim), (0, b"valid undecided\n"))


def run_starts(tally, program):
    """Words that don't reach the program: one that isn't UTF-8, and words for which there is too little memory."""
    for words in [b"\xff"], [b"accept", b"\xc0\xaf"]:
        tally.expect("words that aren't UTF-8", run(program, words, UNIFORM), (7, b""))

    def start(words, room):
        try:
            return run(program, words, b"", preexec_fn=lambda: resource.setrlimit(resource.RLIMIT_AS, (room, room)))
        except OSError:  # the system can't start it
            return None

    words = ["x" * 120_000] * 10
    size = sum(map(len, words))
    tally.expect("long words", run(program, words, b""), (2, b"usage 1\n"))
    least = next(room for room in range(1 << 20, 1 << 28, 1 << 18) if start([], room) == (2, b"usage 1\n"))
    # besides the room in which it starts there is that of the words as the system gives them, and half of another
    tally.expect("long words in little memory", start(words, least + size + size // 2), (6, b""))


def run_twenty_wires(tally, program):
    """The least wiring diagram where all signs are plus: each wire crosses all lesser ones, from its position down to
    the first."""
    blocks = ["%d-%d\n" % (k, k + 1) for wire in range(2, 21) for k in range(wire - 1, 0, -1)]
    wanted = "om 1\nwiring 20\n%send\n" % "".join(blocks)
    found = run(program, ["wiring"], all_plus(20, 1140))
    tally.expect("twenty wires, which have 190 crossings", (found, len(blocks)), ((0, wanted.encode()), 190))


def first_violated(elements, value):
    """The first sets S and A of the map of rank 3 on some elements with these values at triples, whose vectors V and
    U aren't orthogonal: their products have one sign alone besides 0."""
    for s in itertools.combinations(range(1, elements + 1), 4):
        v = {e: (-1) ** i * value(*(f for f in s if f != e)) for i, e in enumerate(s, 1)}
        for a in itertools.combinations(range(1, elements + 1), 2):
            products = {v[e] * value(*a, e) for e in s} - {0}
            if len(products) == 1:
                return s, a
    return None


def run_not_sweepable(tally, program):
    """Chirotopes that no wiring has: each is refused with the first violated pair of the map with an element at
    infinity, also in little memory."""
    def little_memory():
        resource.setrlimit(resource.RLIMIT_AS, (LITTLE, LITTLE))

    for elements in (4, 9, 16, 20):
        def value(*triple):
            # all signs are plus but those of the last element but one, which is turned; with infinity all are plus
            if len(set(triple)) < 3:
                return 0
            turned = elements - 1 in triple and elements + 1 not in triple
            inversions = sum(x > y for x, y in itertools.combinations(triple, 2))
            return (-1) ** (inversions + turned)

        signs = "".join("-0+"[value(*triple) + 1] for triple in itertools.combinations(range(1, elements + 1), 3))
        s, a = (",".join(map(str, it)) for it in first_violated(elements + 1, value))
        found = run(program, ["wiring"], b"om 1\nchirotope 3 %d\n%s\nend\n" % (elements, signs.encode()),
                    preexec_fn=little_memory)
        tally.expect("a wiring of %d elements that there isn't" % elements, found,
                     (1, b"refused notsweepable %s %s\n" % (s.encode(), a.encode())))


def run_long_lists(tally, program):
    """Lists so long that a map is proposed for them, as the program writes them; the conversion keeps their members
    in order."""
    uniform = all_plus(8, 56)
    # eight lines of the plane in general position have 28 points, 56 segments and 29 regions, each with two signs,
    # and the zero vector
    for kind, count in ("circuits", 140), ("cocircuits", 56), ("covectors", 227):
        code, listing = run(program, ["convert", kind], uniform)
        tally.expect("%s of eight elements" % kind, (code, listing.count(b"\n")), (0, count + 2 + 1))
        tally.expect("%s that are accepted" % kind, run(program, ["accept"], listing), (0, b"accepted\n"))
        tally.expect("%s and back" % kind, run(program, ["convert", "chirotope"], listing), (0, uniform))


def late_refusal():
    """Circuits of which only the last six of 996 break an axiom: those of the uniform chirotope of rank 3 on twelve
    elements, and then, on four more elements, those of rank 2 without the last two."""
    def circuits(elements, size):
        for places in itertools.combinations(range(elements), size):
            for first in "+-":
                signs = ["0"] * elements
                for number, place in enumerate(places):
                    signs[place] = first if number % 2 == 0 else "+-"[first == "+"]
                yield "".join(signs)

    lines = [it + "0000" for it in circuits(12, 4)] + ["0" * 12 + it for it in circuits(4, 3)][:-2]
    return "om 1\ncircuits 16\n%s\nend\n" % "\n".join(lines)


def run_on_threads(tally, program):
    """A list of circuits that takes long to scan is scanned by more than one thread, also in the second half of the
    run: elimination takes most of it, and comes last."""
    threads = []
    with subprocess.Popen([program, "accept"], stdin=subprocess.PIPE, stdout=subprocess.PIPE) as scan:
        alarm = threading.Timer(60, scan.kill)
        alarm.start()
        scan.stdin.write(late_refusal().encode())
        scan.stdin.close()
        while scan.poll() is None:
            try:
                threads.append(len(os.listdir("/proc/%d/task" % scan.pid)))
            except OSError:
                break
            time.sleep(0.001)
        found = scan.wait(), scan.stdout.read(), max(threads[len(threads) // 2:], default=0) > 1
        alarm.cancel()
    # on the last four elements 991 is +-+0 and 994 is -+0-; without the first of them only 0-+- is within both
    tally.expect("a scan of circuits on threads", found, (1, b"refused noelimination 991 994 13\n", True))


def documents():
    """By their words, the runs of the tables of om whose input is one piece that goes on in no way, up to a line
    feed."""
    found = {}
    for path in tables():
        for row in rows_of(path):
            if row.input is not None and row.input.endswith(b"\n"):
                pieces = list(cut(io.BytesIO(row.input), 2 if row.words == ["check"] else 1))
                if pieces == [(row.input, True)]:
                    found.setdefault(tuple(row.words), []).append(row)
    return found


def run_streams(tally, program):
    """The documents of all tables, those with the same words in one run, each answered as it is alone; also with
    comments and documents without an end between them."""
    runs = documents()
    for words, rows in sorted(runs.items()):
        ended = run(program, list(words), b"".join(row.input for row in rows))
        tally.expect("a stream of %d documents of %s" % (len(rows), " ".join(words)), ended,
                     (max(row.code for row in rows), b"".join(row.output for row in rows)))
    rows = runs["accept",]
    ended = run(program, ["accept"], b"".join(b"# between\n\n" + UNIFORM + row.input + b"om 1\n# no end\n"
                                              for row in rows))
    # the two lines after `no end` belong to its piece, except the last time
    wanted = b"".join(b"accepted\n" + row.output + b"refused line 5 missing\n" for row in rows)
    tally.expect("with other pieces between", ended, (1, wanted[:-len(b"5 missing\n")] + b"3 missing\n"))
    ended = run(program, ["accept"], UNIFORM * 100_000)
    tally.expect("100,000 documents", (ended[0], ended[1] == b"accepted\n" * 100_000), (0, True))


def run_large_streams(tally, program, listed):
    """The documents of large.py, those with the same words in one run."""
    for words, rows in itertools.groupby(sorted(listed), key=lambda it: it[0]):
        _, given, codes, outputs = zip(*rows)
        tally.expect("a stream of %d large documents of %s" % (len(given), words),
                     run(program, words.split(), "".join(given).encode()), (max(codes), "".join(outputs).encode()))


def run_stream_faults(tally, program):
    """A read that fails after each byte of a stream, and rooms that end after each byte of its answers."""
    text = UNIFORM + b"om 1\nchirotope 2 4\n+-++++\nend\n# last\n" + UNIFORM
    answers = [b"accepted\n", b"refused relation 1,2,3 4\n", b"accepted\n"]
    for read in range(len(text) + 1):
        # where no line feed ends it, a line isn't whole
        whole = text[:text.rfind(b"\n", 0, read) + 1]
        answered = sum(closed for _, closed in cut(io.BytesIO(whole)))
        tally.expect("a read that fails behind %d bytes of a stream" % read,
                     run_cut_off(program, ["accept"], text[:read]), (4, b"".join(answers[:answered])))
    output = b"".join(answers)
    for room in range(len(output) + 1):
        found = run_in_room(program, ["accept"], text, room)
        tally.expect("a stream in a room of %d bytes" % room, found, (1 if room == len(output) else 5, output[:room]))


def run_conversation(tally, program):
    """Each answer is there before the next document is."""
    questions = [(UNIFORM, 1), (b"om 1\nchirotope 2 4\n+-++++\nend\n", 1), (b"# two at once\n" + UNIFORM * 2, 2),
                 (UNIFORM[:-1] + b"\n", 1)]
    found = []
    with subprocess.Popen([program, "accept"], stdin=subprocess.PIPE, stdout=subprocess.PIPE) as talk:
        alarm = threading.Timer(60, talk.kill)
        alarm.start()
        for text, lines in questions:
            talk.stdin.write(text)
            talk.stdin.flush()
            found += [talk.stdout.readline() for _ in range(lines)]
        talk.stdin.close()
        found += [talk.stdout.read(), talk.wait()]
        alarm.cancel()
    good, bad = b"accepted\n", b"refused relation 1,2,3 4\n"
    tally.expect("a conversation", found, [good, bad, good, good, good, b"", 1])


def run_class_faults(tally, program):
    """A read that fails after each byte of the lists on four and five elements, and rooms that end after each byte of
    the answer. The line of a list is written once the first document of the next one is whole."""
    with open(os.path.join(TOP, "examples", "classes.om"), "rb") as file:
        text = file.read()
    output = b"exact 4 2\nexact 5 4\n"
    for read in range(len(text) + 1):
        whole = text[:text.rfind(b"\n", 0, read) + 1]
        documents = sum(closed for _, closed in cut(io.BytesIO(whole)))
        tally.expect("a read that fails behind %d bytes of lists" % read, run_cut_off(program, ["all"], text[:read]),
                     (4, output[:10] if documents > 2 else b""))
    for room in range(len(output) + 1):
        found = run_in_room(program, ["all"], text, room)
        tally.expect("lists in a room of %d bytes" % room, found, (0 if room == len(output) else 5, output[:room]))
    # of two maps of one class extensions are found at one, whichever that is
    code, line = run(program, ["uniform", "--complete"], UNIFORM + UNIFORM.replace(b"++++", b"----"))
    tally.expect("two maps of one class", (code, line[:-2], line[-2:] in (b"1\n", b"2\n")),
                 (1, b"refused list 4 unmet ", True))
    # they are least already, and each answer is there before the next document is
    first = text[:text.index(b"end\n") + 4]
    for read in range(2 * len(first) + 1):
        wanted = first * (read // len(first))
        tally.expect("a read that fails behind %d bytes of maps" % read,
                     run_cut_off(program, ["least"], (first * 2)[:read]), (4, wanted))
    tally.expect("least maps of maps that are least", run(program, ["least"], text), (0, text))
    for room in range(len(first)):
        tally.expect("a least map in a room of %d bytes" % room, run_in_room(program, ["least"], first * 2, room),
                     (5, first[:room]))


def main():
    programs = [os.path.abspath(it) for it in sys.argv[1:]]
    if not programs:
        # the launchers build what isn't built
        for launcher, word in ("om", "accept"), ("om-each", "accept"), ("om-classes", "all"):
            subprocess.run([os.path.join(TOP, launcher), word], stdin=subprocess.DEVNULL, stdout=subprocess.DEVNULL)
        programs = [it for built in BUILT for it in (built, built + ".by-rattle") if os.path.exists(it)]
    tally = Tally()
    listed = [(old, list(extensions(old))) for old in map("".join, itertools.product("-+", repeat=4))]
    runs = list(large.runs())
    for program in programs:
        run_starts(tally, program)
        if "each" in os.path.basename(program):
            run_tables(tally, program, [STREAMS])
            run_streams(tally, program)
            run_large_streams(tally, program, runs)
            run_stream_faults(tally, program)
            run_conversation(tally, program)
            continue
        if "classes" in os.path.basename(program):
            run_tables(tally, program, [CLASSES])
            run_class_faults(tally, program)
            continue
        run_tables(tally, program, tables())
        run_faults(tally, program)
        run_parts(tally, program)
        run_long_lists(tally, program)
        run_extensions(tally, program, listed)
        run_twenty_wires(tally, program)
        run_large(tally, program, runs)
        run_verdicts(tally, program)
        run_not_sweepable(tally, program)
        run_on_threads(tally, program)
    print("rows: %d passed, %d failed" % (tally.passed, tally.failed))
    return 1 if tally.failed or not tally.passed else 0


if __name__ == "__main__":
    sys.exit(main())
