#!/usr/bin/env python3
"""bench/catalogue.py [--documents N] [--copies C] [--alone M] [--millions K] [--runs R]

Makes a catalogue of N chirotopes of rank 3 on ten elements (100,000; extensions of chirotopes on nine, all different),
and one in which every second one is refused, since a sign of it is turned. Runs `accept` over both by each recipe of
docs/CATALOGUES.md, prints documents a second, the target and how many times better than it they are, and asks each
recipe for the same answers in the same order. One process takes the catalogue; the time is the least of R runs (3).
GNU parallel's recipes, and one process beside them, take it C times in a row (10), so that the start of parallel counts
little. The recipes that start a process for each document take the first M documents (4,000). Then the first extension
of chirotopes on eight elements, and the greatest memory of `om_each accept` with 1,000 documents and with K millions
(1). GNU parallel's recipes are left out where it isn't installed.
"""
import argparse
import itertools
import os
import shutil
import subprocess
import sys
import tempfile
import time

TOP = os.path.dirname(os.path.dirname(os.path.abspath(__file__)))
OM = os.path.join(TOP, "crates", "om", "out", "om")
OM_EACH = os.path.join(TOP, "crates", "om_each", "out", "om_each")
STREAM = "$om_each accept < catalogue.om"
ALONE = "awk -v cmd=\"$om accept\" '{ print | cmd } /^end/ { close(cmd) }' catalogue.om"
FILES = ("printf '%%s\\n' catalogue/*.om | xargs -P%d -n500 "
         "sh -c 'om=$0; for f; do printf \"%%s: %%s\\n\" \"$f\" \"$(\"$om\" accept < \"$f\")\"; done' \"$om\" "
         "| sort | cut -d' ' -f2-")
PIPE = "parallel --pipe --block %s --recend '\\n' --recstart 'om ' -k -j%d $om_each accept < catalogue.om"
PART = "parallel --pipepart -a catalogue.om --block %s --recend '\\n' --recstart 'om ' -k -j%d $om_each accept"


def document(n, signs):
    return "om 1\nchirotope 3 %d\n%s\nend\n" % (n, signs)


def extensions(n, signs, most):
    """The signs of the first extensions, by `om extend`."""
    words = [OM, "extend", "--first=%d" % most]
    listing = subprocess.run(words, input=document(n, signs), stdout=subprocess.PIPE, check=True, text=True).stdout
    old = {triple: k for k, triple in enumerate(itertools.combinations(range(n), 3))}
    old.update(((a, b, n), len(signs) + k) for k, (a, b) in enumerate(itertools.combinations(range(n), 2)))
    order = [old[triple] for triple in itertools.combinations(range(n + 1), 3)]
    for signature in listing.split("\n")[2:-2]:
        whole = signs + signature
        yield "".join([whole[k] for k in order])


def chirotopes(count):
    """So many different chirotopes on ten elements: extensions of every 97th extension of the one on eight all plus."""
    nines = itertools.islice(extensions(8, "+" * 56, 100_000), 50, None, 97)
    return list(itertools.islice((ten for nine in nines for ten in extensions(9, nine, 4_000)), count))


def answers(text):
    """The answers of one process to a stream."""
    return subprocess.run([OM_EACH, "accept"], input=text.encode(), stdout=subprocess.PIPE).stdout


def mixed(catalogue):
    """The catalogue with a sign of every second document turned: the middle one, where that is refused, or another."""
    places = (60, 30, 90)
    turned = [[ten[:k] + "-+"[ten[k] == "-"] + ten[k + 1:] for k in places] for ten in catalogue[1::2]]
    said = answers("".join(document(10, other) for others in turned for other in others)).split(b"\n")
    for number, others in enumerate(turned):
        refused = [other for other, answer in zip(others, said[3 * number:]) if answer.startswith(b"refused")]
        catalogue[2 * number + 1] = refused[0] if refused else "+" * 119 + "x"
    return catalogue


def timed(command, folder):
    """What a shell command writes in this folder, and how long it takes. Codes 0 and 1 say that all is answered; the
    code of parallel is how many of its jobs had another one than 0."""
    start = time.perf_counter()
    environment = dict(os.environ, om=OM, om_each=OM_EACH)
    done = subprocess.run(["sh", "-c", command], cwd=folder, env=environment, capture_output=True)
    took = time.perf_counter() - start
    if done.returncode not in (0, 1) and "parallel" not in command or done.stderr:
        sys.exit("%s ended with %d: %s" % (command, done.returncode, done.stderr.decode()[:300]))
    return done.stdout, took


def head(title):
    print("\n%s\n%-50s %10s  %18s  %10s  %s" % (title, "recipe", "seconds", "documents a second", "target", "ratio"))


def row(name, took, count, target):
    beside = ("", "") if target is None else ("%.0f" % target, "%.2f" % (count / took / target))
    print("%-50s %10.2f  %18.0f  %10s  %s" % ((name, took, count / took) + beside), flush=True)


def measure(title, folder, catalogue, recipes, runs=1, copies=1, target=None, times=None):
    """Writes a catalogue, so many times in a row, into the folder, runs the recipes over it and prints the table. The
    first recipe has so many documents a second as its target, the others so many times those of the first one."""
    text = "".join(document(10, ten) for ten in catalogue)
    with open(os.path.join(folder, "catalogue.om"), "w") as file:
        for _ in range(copies):
            file.write(text)
    count, wanted = len(catalogue) * copies, answers(text) * copies
    head("%d documents on ten elements, %s: %d accepted" % (count, title, wanted.count(b"accepted")))
    for name, command in recipes:
        best = None
        for _ in range(runs):
            got, took = timed(command, folder)
            if got != wanted:
                sys.exit("%s: other answers: %r" % (name, got[:200]))
            best = took if best is None else min(best, took)
        row(name, best, count, target)
        if name == recipes[0][0]:
            target = None if times is None else times * count / best


def first_extensions(folder, runs):
    """The first extension of chirotopes on eight elements, those of the one on seven that is all plus: in a stream of
    them all, ten times in a row, and by processes of their own."""
    eights = [document(8, eight) for eight in extensions(7, "+" * 35, 100_000)]
    with open(os.path.join(folder, "eight.om"), "w") as file:
        file.write("".join(eights * 10))
    head("`extend --first=1` of chirotopes on eight elements")
    took = min(timed("$om_each extend --first=1 < eight.om", folder)[1] for _ in range(runs))
    row("om_each, one process", took, len(eights) * 10, None)
    best = {}
    for words in ["accept"], ["extend", "--first=1"]:
        took = []
        for data in eights[::15] * runs:
            start = time.perf_counter()
            subprocess.run([OM] + words, input=data.encode(), stdout=subprocess.PIPE, check=True)
            took.append(time.perf_counter() - start)
        best[words[0]] = min(took)
    print("a process: %.2f ms at least, and %.2f ms for `accept`" % (1e3 * best["extend"], 1e3 * best["accept"]))


def greatest_memory(data, copies):
    """The greatest resident memory, in kilobytes, of a run over so many copies of a text. It is asked for while the run
    waits for more."""
    process = subprocess.Popen([OM_EACH, "accept"], stdin=subprocess.PIPE, stdout=subprocess.PIPE)
    wanted = data.count(b"end\n")
    for _ in range(copies):
        process.stdin.write(data)
        process.stdin.flush()
        for _ in range(wanted):
            process.stdout.readline()
    with open("/proc/%d/status" % process.pid) as file:
        greatest = [int(line.split()[1]) for line in file if line.startswith("VmHWM")]
    process.communicate()
    return greatest[0]


def memory(few, millions):
    """The greatest memory with few documents and with many."""
    print()
    for copies in 1, 1000 * millions:
        greatest = greatest_memory("".join(few).encode(), copies)
        print("greatest memory of om_each accept: %d KB with %d documents" % (greatest, len(few) * copies), flush=True)


def main():
    parser = argparse.ArgumentParser(description=__doc__, formatter_class=argparse.RawDescriptionHelpFormatter)
    parser.add_argument("--documents", type=int, default=100_000, help="how many documents the catalogue has")
    parser.add_argument("--copies", type=int, default=10, help="how many times in a row GNU parallel takes it")
    parser.add_argument("--alone", type=int, default=4_000, help="how many of them go to a process each")
    parser.add_argument("--millions", type=int, default=1, help="how many million documents memory is measured with")
    parser.add_argument("--runs", type=int, default=3, help="of how many runs the least time is taken")
    arguments = parser.parse_args()
    for program in (OM, OM_EACH):
        if not os.path.exists(program):
            sys.exit("%s isn't built: ./om and ./om-each build it" % program)
    processors = len(os.sched_getaffinity(0))
    stream = [("om_each, one process", STREAM)]
    alone = [("a process each, one processor", ALONE)]
    for jobs in (1, processors):
        alone.append(("a file each, processors: %d" % jobs, FILES % jobs))
    # four blocks a processor
    size = "%dk" % max(1, arguments.documents * arguments.copies * 145 // 1000 // (4 * processors))
    side_by_side = list(stream)
    for name, recipe in ("--pipe", PIPE), ("--pipepart", PART):
        if shutil.which("parallel"):
            title = "om_each by parallel %s, processors: %d" % (name, processors)
            side_by_side.append((title, recipe % (size, processors)))
    with tempfile.TemporaryDirectory() as folder:
        accepted = chirotopes(arguments.documents)
        cases = [("all accepted", accepted, 50_000), ("every second one refused", mixed(list(accepted)), 20_000)]
        for title, catalogue, target in cases:
            measure(title, folder, catalogue, stream, runs=arguments.runs, target=target)
            if len(side_by_side) > 1:
                measure(title, folder, catalogue, side_by_side, copies=arguments.copies, times=3)
        os.mkdir(os.path.join(folder, "catalogue"))
        for number, ten in enumerate(accepted[:arguments.alone]):
            with open(os.path.join(folder, "catalogue", "%07d.om" % number), "w") as file:
                file.write(document(10, ten))
        measure("all accepted", folder, accepted[:arguments.alone], alone)
        first_extensions(folder, arguments.runs)
    memory([document(10, ten) for ten in accepted[:1000]], arguments.millions)
    return 0


if __name__ == "__main__":
    sys.exit(main())
