#!/usr/bin/env python3
"""bench/next_size.py [--sample K] [--seed S] FOLDER < CLASSES

What a catalogue of one element more would have and cost, by a sample. Takes a catalogue of all classes of rank 3 on n
elements (catalogue/classify), draws K of them (100) by the seed S (1), grows each alone by `catalogue/grow`, realizes
all that come out by `catalogue/realize`, and checks the claims by `catalogue/tally`. FOLDER, which is made, gets them:
sample.om, grown.om, and claims.

`grow` passes over an extension whose new element hasn't the greatest weight (catalogue/extensions.py). So a class on
n + 1 elements comes up from as many classes on n as it has different ones without an element of greatest weight. In
the columns that say so it counts as one divided by that number: their expected values are those of the whole catalogue.
The number behind +- is a standard error, from the differences between the K classes. Processor times are those of the
programs with all that they start, sizes those of files, and memory is the greatest of any one process.
"""
import argparse
import os
import random
import re
import resource
import subprocess
import sys

TOP = os.path.dirname(os.path.dirname(os.path.abspath(__file__)))
CATALOGUE = os.path.join(TOP, "catalogue")
sys.path.insert(0, CATALOGUE)
import extensions
import graphs
import shared

VERDICTS = "realizable", "nonrealizable", "undecided", "limit"


def ran(words, data):
    """The output of a program of the catalogue, and its processor seconds."""
    before = resource.getrusage(resource.RUSAGE_CHILDREN)
    output = subprocess.run([os.path.join(CATALOGUE, words[0])] + words[1:], input=data, stdout=subprocess.PIPE,
                            check=True).stdout
    after = resource.getrusage(resource.RUSAGE_CHILDREN)
    return output, after.ru_utime + after.ru_stime - before.ru_utime - before.ru_stime


def origins(n, signs):
    """The chirotopes without an element of greatest weight."""
    value = dict(zip(shared.triples(n), signs))
    cuts = extensions.uncut(n, signs)
    weights = [(sum(value[t] == "0" for t in value if e in t), cuts[e]) for e in range(n)]
    for e in range(n):
        if weights[e] == max(weights):
            yield "".join(value[t] for t in shared.triples(n) if e not in t)


def shares(documents):
    """For each chirotope 1 divided by the number of classes that it comes up from."""
    found = [(number, signs) for number, document in enumerate(documents) for signs in origins(*document)]
    n = documents[0][0] - 1
    keys = graphs.classes_of(n, [graphs.graph6(n, signs) for _, signs in found])
    classes = [set() for _ in documents]
    for (number, _), key in zip(found, keys):
        classes[number].add(key)
    return [1 / len(each) for each in classes]


def estimate(sums, all_classes):
    """What the sums over the extensions of each class of the sample say of the whole, with a standard error."""
    count = len(sums)
    mean = sum(sums) / count
    spread = (sum((x - mean) ** 2 for x in sums) / max(count - 1, 1) / count) ** 0.5
    return "%.0f +- %.0f" % (all_classes * mean, all_classes * spread)


def main():
    words = argparse.ArgumentParser()
    words.add_argument("--sample", type=int, default=100)
    words.add_argument("--seed", type=int, default=1)
    words.add_argument("folder")
    words = words.parse_args()
    os.mkdir(words.folder)
    classes = list(shared.documents(sys.stdin.buffer))
    drawn = sorted(random.Random(words.seed).sample(range(len(classes)), words.sample))
    texts = [shared.text_of(*classes[k]) for k in drawn]
    grown, growing = zip(*(ran(["grow"], text.encode()) for text in texts))
    documents = [list(shared.documents(data.splitlines(True))) if data else [] for data in grown]
    share = [shares(each) if each else [] for each in documents]
    claims, realizing = ran(["realize"], b"".join(grown))
    tally, checking = ran(["tally"], claims)
    for name, data in ("sample.om", "".join(texts).encode()), ("grown.om", b"".join(grown)), ("claims", claims):
        with open(os.path.join(words.folder, name), "wb") as file:
            file.write(data)
    verdicts = iter(re.findall(r"(?m)^(%s)\b" % "|".join(VERDICTS), claims.decode()))
    verdict = [[next(verdicts) for _ in each] for each in documents]
    count = sum(map(len, documents))
    print("%d of %d classes on %d elements, seed %d: %d extensions\n" %
          (len(drawn), len(classes), classes[0][0], words.seed, count))
    print("| | Extensions of the sample | Of 1,000 | The whole, each class once |\n|---|---|---|---|")
    for name in ("all",) + VERDICTS:
        chosen = [[x for x, said in zip(*each) if name in ("all", said)] for each in zip(share, verdict)]
        number = sum(map(len, chosen))
        print("| %s | %d | %.3f | %s |" % (name, number, 1000 * number / count,
                                           estimate(list(map(sum, chosen)), len(classes))))
    print("\ngrow: %.2f processor seconds a class of the sample" % (sum(growing) / len(drawn)))
    print("realize: %.2f processor milliseconds an extension, tally %.2f" %
          (1000 * realizing / count, 1000 * checking / count))
    print("bytes an extension: document %d, claim %d; greatest memory of a process: %d MB" %
          (sum(map(len, grown)) / count, len(claims) / count,
           resource.getrusage(resource.RUSAGE_CHILDREN).ru_maxrss / 1024))
    sys.stdout.write("\n" + tally.decode())


if __name__ == "__main__":
    shared.run(main)
