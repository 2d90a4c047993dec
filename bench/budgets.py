#!/usr/bin/env python3
"""bench/budgets.py [--boxes B,..] [--steps T,..] [--tries N] [--sample K] [--seed S] < DOCUMENTS

How many chirotopes of rank 3 get vectors by which budget of the search, and in how many processor seconds. Takes K of
the documents, spread evenly, or all. A try is `decide --box=B --steps=T --pivots=1`. It is made once, on the names as
they are, and then with restarts: up to N tries (20), each on other names and orientations, for those that have no
vectors yet. Prints a table in Markdown with a row for each box, once and with restarts, and a column for each number
of steps. The seconds are those of `om_each` and of this program.
"""
import argparse
import os
import resource
import sys
import time

TOP = os.path.dirname(os.path.dirname(os.path.abspath(__file__)))
sys.path.insert(0, os.path.join(TOP, "catalogue"))
import searches
import shared


def numbers(text):
    return [int(word) for word in text.split(",")]


def seconds():
    """Processor seconds of this program and of those that it has waited for."""
    children = resource.getrusage(resource.RUSAGE_CHILDREN)
    return time.process_time() + children.ru_utime + children.ru_stime


def realized(documents, box, steps, tries, seed):
    """How many documents get vectors, and the seconds. Without a number of tries one is made on the names as they
    are."""
    begin, left = seconds(), [(shared.text_of(n, signs), searches.Search(n, signs, seed)) for n, signs in documents]
    conversation = shared.Conversation("decide", "--box=%d" % box, "--steps=%d" % steps, "--pivots=1")
    for number in range(1, (tries or 1) + 1):
        answers = conversation.ask_all([search.document(number) if tries else text for text, search in left],
                                       shared.CLAIM)
        left = [member for member, answer in zip(left, answers) if b"\nrealizable\n" not in answer]
    conversation.close()
    return len(documents) - len(left), seconds() - begin


def main():
    words = argparse.ArgumentParser()
    words.add_argument("--boxes", type=numbers, default=[3, 6, 20, 50])
    words.add_argument("--steps", type=numbers, default=[20_000, 200_000, 2_000_000])
    words.add_argument("--tries", type=int, default=20)
    words.add_argument("--sample", type=int)
    words.add_argument("--seed", type=int, default=1)
    words = words.parse_args()
    documents = list(shared.documents(sys.stdin.buffer))
    count = min(words.sample or len(documents), len(documents))
    documents = [documents[k * len(documents) // count] for k in range(count)]
    print("| %d documents | %s |" % (count, " | ".join("{:,} steps".format(steps) for steps in words.steps)))
    print("|---" * (1 + len(words.steps)) + "|")
    for tries in (0, words.tries):
        for box in words.boxes:
            cells = ["%d in %.1f s" % realized(documents, box, steps, tries, words.seed) for steps in words.steps]
            how = "up to %d tries" % tries if tries else "once"
            print("| box %d, %s | %s |" % (box, how, " | ".join(cells)), flush=True)


if __name__ == "__main__":
    shared.run(main)
