#!/usr/bin/env python3
"""bench/topcom.py [--runs N]

Times the commands that om and TOPCOM share: circuits and cocircuits of a chirotope, its dual, and the chirotope of
points. Each time is that of a whole process, the least of N runs (9), one run of each program in turn, so that another
speed of the machine is the same for both. The chirotopes are those of the moment curve and of points drawn from a
small box, so that many determinants are 0. Both programs have to give the same; the filters of neighbours/ compare
them. om reads a document, tests the axioms and writes a document, while TOPCOM tests nothing. The last column says how
many times as long TOPCOM takes. TOPCOM is Debian's package `topcom`.
"""
import argparse
import itertools
import os
import random
import shutil
import subprocess
import sys
import time

TOP = os.path.dirname(os.path.dirname(os.path.abspath(__file__)))
PROGRAM = os.path.join(TOP, "crates", "om", "out", "om")


def ask(words, data):
    """What a program writes to standard output; it has to end with the code 0."""
    ran = subprocess.run(words, input=data, stdout=subprocess.PIPE, stderr=subprocess.DEVNULL)
    if ran.returncode:
        sys.exit("topcom: %s ended with the code %d" % (" ".join(words), ran.returncode))
    return ran.stdout


def neighbour(name, *words):
    return [os.path.join(TOP, "neighbours", name), *words]


def determinant(rows):
    """The determinant of whole numbers, by the first row."""
    if not rows:
        return 1
    return sum((-1) ** i * x * determinant([row[:i] + row[i + 1:] for row in rows[1:]])
               for i, x in enumerate(rows[0]) if x)


def chirotope(vectors):
    """The document of the chirotope of vectors."""
    rank = len(vectors[0])
    values = (determinant(list(basis)) for basis in itertools.combinations(vectors, rank))
    signs = "".join("+" if value > 0 else "-" if value < 0 else "0" for value in values)
    return ("om 1\nchirotope %d %d\n%s\nend\n" % (rank, len(vectors), signs)).encode()


def points(vectors):
    """The document of points of the plane."""
    lines = "\n".join(" ".join(map(str, vector)) for vector in vectors)
    return ("om 1\npoints %d\n%s\nend\n" % (len(vectors), lines)).encode()


def curve(rank, elements):
    """Vectors on the moment curve: all determinants are positive."""
    return [[t ** i for i in range(rank)] for t in range(1, elements + 1)]


def drawn(rank, elements, seed):
    """Different vectors with the last coordinate 1 and small coordinates before it."""
    rng, vectors = random.Random(seed), []
    while len(vectors) < elements:
        vector = [rng.randint(-2, 2) for _ in range(rank - 1)] + [1]
        if vector not in vectors:
            vectors.append(vector)
    return vectors


def tasks():
    """Of each task its name, the words of TOPCOM and its input, those of om, and how TOPCOM's answer becomes om's."""
    for name, vectors in (("rank 3, 12 drawn", drawn(3, 12, 1)), ("rank 3, 16 drawn", drawn(3, 16, 2)),
                          ("rank 4, 12 drawn", drawn(4, 12, 3)), ("rank 5, 12 on the moment curve", curve(5, 12))):
        document, elements = chirotope(vectors), len(vectors)
        theirs = ask(neighbour("om-to-topcom"), document)
        for kind in ("circuits", "cocircuits"):
            yield ("%s: %s" % (kind, name), ["topcom-chiro2%s" % kind], theirs, ["convert", kind], document,
                   neighbour("topcom-sets-to-om", kind, str(elements)))
        identity = b"[[%s]]\n" % b",".join(b"%d" % e for e in range(elements))
        yield ("dual: %s" % name, ["topcom-chiro2dual"], theirs + identity, ["dual"], document,
               neighbour("topcom-to-om"))
    document = points(drawn(3, 20, 2))
    yield ("chirotope: 20 points", ["topcom-points2chiro"], ask(neighbour("om-points-to-topcom"), document),
           ["convert", "chirotope"], document, neighbour("topcom-to-om"))


def least_times(runs, programs):
    """The least times of programs with their inputs, one run of each in turn."""
    best = [float("inf")] * len(programs)
    for _ in range(runs):
        for i, (words, data) in enumerate(programs):
            began = time.perf_counter()
            ask(words, data)
            best[i] = min(best[i], time.perf_counter() - began)
    return best


def main():
    parser = argparse.ArgumentParser(description=__doc__, formatter_class=argparse.RawDescriptionHelpFormatter)
    parser.add_argument("--runs", type=int, default=9)
    runs = parser.parse_args().runs
    if not shutil.which("topcom-chiro2circuits"):
        sys.exit("topcom: TOPCOM isn't installed (Debian: topcom)")
    print("%-46s %10s %10s %8s" % ("least of %d runs" % runs, "om", "TOPCOM", "ratio"))
    for name, their_words, theirs, words, document, filter_ in tasks():
        ours = [PROGRAM, *words]
        answer = ask(ours, document)
        if answer.split(b"\n", 1)[1] != ask(filter_, ask(their_words, theirs)).split(b"\n", 1)[1]:
            sys.exit("topcom: the answers to %s differ" % name)
        om, topcom = least_times(runs, [(ours, document), (their_words, theirs)])
        print("%-46s %7.1f ms %7.1f ms %8.1f" % (name, 1000 * om, 1000 * topcom, topcom / om), flush=True)


if __name__ == "__main__":
    main()
