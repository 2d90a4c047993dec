#!/usr/bin/env python3
"""bench/schedules.py [--sample K] SCHEDULE.. < DOCUMENTS

Compares schedules of `catalogue/realize` in one run. Takes K of the documents, chirotopes of rank 3, spread evenly, or
all. Prints a table in Markdown with a row for each schedule: how many documents are left without a verdict, the tries
of those with vectors a document, how many vectors were found by climbing, the processor milliseconds a document, their
ratio to those of the first schedule, and the greatest coordinate. The milliseconds are those of `realize` with all that
it starts.
"""
import argparse
import os
import re
import resource
import subprocess
import sys

TOP = os.path.dirname(os.path.dirname(os.path.abspath(__file__)))
sys.path.insert(0, os.path.join(TOP, "catalogue"))
import shared


def seconds():
    """Processor seconds of all programs that this one has waited for."""
    children = resource.getrusage(resource.RUSAGE_CHILDREN)
    return children.ru_utime + children.ru_stime


def measured(data, schedule):
    """The claims of a schedule, and the seconds."""
    begin = seconds()
    words = [os.path.join(TOP, "catalogue", "realize"), "--schedule=%s" % schedule]
    claims = subprocess.run(words, input=data, stdout=subprocess.PIPE, check=True).stdout
    return claims, seconds() - begin


def main():
    words = argparse.ArgumentParser()
    words.add_argument("--sample", type=int)
    words.add_argument("schedules", nargs="+")
    words = words.parse_args()
    documents = list(shared.documents(sys.stdin.buffer))
    count = min(words.sample or len(documents), len(documents))
    documents = [documents[k * len(documents) // count] for k in range(count)]
    data, first = "".join(shared.text_of(*document) for document in documents).encode(), None
    print("| %d documents | Left | Tries | By climbing | Milliseconds | Ratio | Coordinate |" % count)
    print("|---" * 7 + "|")
    for schedule in words.schedules:
        claims, took = measured(data, schedule)
        first = first or took
        left = len(re.findall(rb"(?m)^(undecided|limit)$", claims))
        tries = sum(map(int, re.findall(rb"(?m)^realizable # try ([0-9]+)", claims)))
        climbed = len(re.findall(rb"(?m)^realizable # .*climb", claims))
        rows = re.findall(rb"(?m)^vector (.*)$", claims)
        greatest = max([abs(int(x)) for row in rows for x in row.split()], default=0)
        cells = schedule, left, tries / count, climbed, 1000 * took / count, took / first, greatest
        print("| %s | %d | %.1f | %d | %.2f | %.2f | %d |" % cells, flush=True)


if __name__ == "__main__":
    shared.run(main)
