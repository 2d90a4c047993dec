#!/usr/bin/env python3
"""bench/run.py [--runs N] [--earlier PROGRAM]

Builds the program and times it, the whole process each time, on inputs that it makes itself. Prints a table: the
least time of N runs (5), the rate, the target (a rate, a time, or a time that is wanted at least), and how many times
better than the target the measured one is. PROGRAM is the program of an earlier state, built elsewhere: searches run
beside it, one run of each in turn, have to write the same, and have a part of its time as their target. Then all other
commands of the table run in the same way beside it, and a second table shows both times. A command that the earlier
program answers in another way is named as such.
"""
import argparse
import itertools
import math
import os
import random
import resource
import subprocess
import sys
import tempfile
import time

TOP = os.path.dirname(os.path.dirname(os.path.abspath(__file__)))
PROGRAM = os.path.join(TOP, "crates", "om", "out", "om")


def chirotope(rank, elements, signs):
    return ("om 1\nchirotope %d %d\n%s\nend\n" % (rank, elements, signs)).encode()


def alternating(rank, elements):
    """The uniform chirotope all of whose values are plus."""
    return chirotope(rank, elements, "+" * math.comb(elements, rank))


def pairs(rank, elements):
    """The pairs of sets that a scan of the axioms looks at."""
    return math.comb(elements, rank + 1) * math.comb(elements, rank - 1)


def circuits_of_alternating(rank, elements):
    """The circuits of the uniform chirotope all of whose values are plus."""
    circuits = []
    for members in itertools.combinations(range(elements), rank + 1):
        for turn in (0, 1):
            signs = [0] * elements
            for place, e in enumerate(members):
                signs[e] = (-1, 1)[(place + turn) % 2]
            circuits.append(tuple(signs))
    return circuits


def circuits_beside(elements):
    """A list of circuits that fails elimination late: those of the uniform chirotope of rank 3 all of whose values are
    plus, and then, on four more elements, those of rank 2 without the last two."""
    first = ["".join("-0+"[s + 1] for s in x) + "0000" for x in circuits_of_alternating(3, elements)]
    last = ["0" * elements + "".join("-0+"[s + 1] for s in x) for x in circuits_of_alternating(2, 4)[:-2]]
    return ("\n".join(["om 1", "circuits %d" % (elements + 4)] + first + last + ["end"]) + "\n").encode()


def document(kind, elements, members):
    """A document of sign vectors, given by -1, 0 and 1, in their order."""
    lines = ["".join("-0+"[s + 1] for s in x) for x in sorted(members)]
    return ("\n".join(["om 1", "%s %d" % (kind, elements)] + lines + ["end"]) + "\n").encode()


def cocircuits_of_alternating(elements):
    """The cocircuits of the uniform chirotope of rank 3 all of whose values are plus."""
    def value(tuple_):
        sign = 1
        for i in range(3):
            for j in range(i + 1, 3):
                if tuple_[i] == tuple_[j]:
                    return 0
                if tuple_[i] > tuple_[j]:
                    sign = -sign
        return sign

    cocircuits = set()
    for a, b in itertools.combinations(range(elements), 2):
        along = tuple(value((a, b, e)) for e in range(elements))
        cocircuits |= {along, tuple(-s for s in along)}
    return cocircuits


def covectors_of_alternating(elements):
    """The covectors of the uniform chirotope of rank 3 all of whose values are plus: its cocircuits, composed."""
    cocircuits = cocircuits_of_alternating(elements)
    found = {(0,) * elements}
    open_ = list(found)
    while open_:
        x = open_.pop()
        for y in cocircuits:
            z = tuple(s if s else t for s, t in zip(x, y))
            if z not in found:
                found.add(z)
                open_.append(z)
    return found


def comments(size):
    """An input of comment lines."""
    line = b"# " + b"a comment " * 7 + b"\n"
    head = chirotope(3, 4, "++++")
    return head + line * ((size - len(head)) // len(line))


def sign_lines(size):
    """A map of 12,870 values, one on a line and each after blanks, so many that the input has about this size."""
    signs = math.comb(16, 8)
    line = b" " * (size // signs - 2) + b"+\n"
    return b"om 1\nchirotope 8 16\n" + line * signs + b"end\n"


def keep_to(processors):
    """What a new process does to run on so many processors alone."""
    return lambda: os.sched_setaffinity(0, sorted(os.sched_getaffinity(0))[:processors])


# What was timed, in its order: for words, an input and processors, what is written.
TIMED = {}


def least_time(words, data, runs, wanted, processors=None, program=PROGRAM):
    """The least time of some runs, each of which has to write what is wanted; on so many processors, or on all."""
    TIMED[tuple(words), data, processors] = wanted
    best = None
    pin = None if processors is None else keep_to(processors)
    with tempfile.TemporaryFile() as held:
        held.write(data)
        for _ in range(runs):
            held.seek(0)
            start = time.perf_counter()
            done = subprocess.run([program] + words, stdin=held, capture_output=True, preexec_fn=pin)
            took = time.perf_counter() - start
            if done.stdout != wanted:
                sys.exit("%s answered %r" % (" ".join(words), done.stdout[:200]))
            best = took if best is None else min(best, took)
    return best


def row(name, took, amount, unit, target_rate=None, target_time=None, least_time_wanted=None):
    rate = "%.1f %s" % (amount / took, unit) if unit else ""
    if target_rate is not None:
        target, ratio = "%.1f %s" % (target_rate, unit), amount / took / target_rate
    elif least_time_wanted is not None:
        target, ratio = "%.4f s or more" % least_time_wanted, took / least_time_wanted
    elif target_time is not None:
        target, ratio = "%.4f s" % target_time, target_time / took
    else:
        target, ratio = "", None
    print("%-58s %9.4f s  %18s  %18s  %s" % (name, took, rate, target, "" if ratio is None else "%.2f" % ratio))


def conversions(runs):
    """Conversions of chirotopes all of whose values are plus."""
    print("%-58s %11s  %18s  %18s  %s" % ("convert", "least time", "", "target", "ratio"))
    for kind, rank, elements, members, target in (
            ("circuits", 3, 12, circuits_of_alternating(3, 12), 0.01),
            ("cocircuits", 3, 16, cocircuits_of_alternating(16), 0.008),
            ("covectors", 3, 16, covectors_of_alternating(16), 0.2)):
        took = least_time(["convert", kind], alternating(rank, elements), runs, document(kind, elements, members))
        row("%d %s of rank %d on %d elements" % (len(members), kind, rank, elements), took, 1, "", target_time=target)
    took = least_time(["convert", "covectors"], alternating(16, 16), runs, b"limit members 4096\n")
    row("covectors of rank 16 on 16 elements: too many", took, 1, "", target_time=0.01)


def document_of_map(rank, elements, signs):
    """A chirotope in canonical form: 64 signs a line, the first that isn't 0 a plus."""
    lead = next(sign for sign in signs if sign)
    text = "".join("-0+"[sign * lead + 1] for sign in signs)
    rows = [text[i:i + 64] for i in range(0, len(text), 64)]
    return ("\n".join(["om 1", "chirotope %d %d" % (rank, elements)] + rows + ["end"]) + "\n").encode()


def operations(runs):
    """Duals, minors and reorientations of the chirotope of rank 8 on 16 elements all of whose values are plus."""
    print("%-58s %11s  %18s  %18s  %s" % ("operations", "least time", "", "target", "ratio"))
    sets = list(itertools.combinations(range(1, 17), 8))
    scan = least_time(["accept"], alternating(8, 16), runs, b"accepted\n")
    # the sign of a list and then its complement is that of the sum of its elements
    dual = [(-1) ** (sum(a) + 8 * 9 // 2) for a in sets]
    took = least_time(["dual"], alternating(8, 16), runs, document_of_map(8, 16, dual))
    row("dual of chirotope 8 16, with the scan of its axioms", took, 1, "", target_time=0.04 + scan)
    took = least_time(["delete", "16"], alternating(8, 16), runs, document_of_map(8, 15, [1] * math.comb(15, 8)))
    row("deletion in chirotope 8 16, without the scan", max(took - scan, 1e-5), 1, "")
    took = least_time(["contract", "16"], alternating(8, 16), runs, document_of_map(7, 15, [1] * math.comb(15, 7)))
    row("contraction in chirotope 8 16, without the scan", max(took - scan, 1e-5), 1, "")
    turned = [-1 if 16 in a else 1 for a in sets]
    took = least_time(["reorient", "16"], alternating(8, 16), runs, document_of_map(8, 16, turned))
    row("reorientation of chirotope 8 16, without the scan", max(took - scan, 1e-5), 1, "")


def certificate(times):
    """The claim that the non-Pappus chirotope isn't realizable, with its entries so many times."""
    with open(os.path.join(TOP, "examples", "non-pappus-claim.om"), "rb") as file:
        lines = file.read().split(b"\n")
    entries = [line for line in lines if line[:3] in (b"lt ", b"eq ")]
    first = lines.index(entries[0])
    return b"\n".join(lines[:first] + entries * times + lines[first + len(entries):])


def weights(elements):
    """The claim of weights for the chirotope all of whose values are plus: from the determinants on the moment
    curve."""
    lines = ["undecided"]
    for a, b, c in itertools.combinations(range(1, elements + 1), 3):
        lines.append("weight %d %d %d %d" % (a, b, c, round(10 ** 9 * math.log((b - a) * (c - a) * (c - b)))))
    return alternating(3, elements) + ("\n".join(lines + ["exhausted", "end"]) + "\n").encode()


def claims(runs):
    """Claims that are checked."""
    print("%-58s %11s  %18s  %18s  %s" % ("check", "least time", "", "target", "ratio"))
    took = least_time(["check"], certificate(12), runs, b"valid nonrealizable\n")
    row("a certificate of 108 entries", took, 1, "", target_time=0.01)
    took = least_time(["check"], weights(16), runs, b"valid undecided\n")
    row("560 weights on 16 elements", took, 1, "", target_time=0.01)


def times(words, data, runs, processors=None):
    """The least time of some runs, and what they write; each run has to write the same."""
    wanted = subprocess.run([PROGRAM] + words, input=data, capture_output=True).stdout
    return least_time(words, data, runs, wanted, processors), wanted


def beside_axioms(name, took, scan, target):
    """A row of what a command takes beside the axioms of its input; where these take so long that the difference is
    noise, the whole time stands there, with no target."""
    if scan > 20 * target:
        row(name + ", with the axioms of the input", took, 1, "")
    else:
        row(name + ", without the axioms", max(took - scan, 1e-5), 1, "", target_time=target)


def lists(runs):
    """Lists of the uniform oriented matroid of rank 3 on 16 elements all of whose values are plus, to the other
    kinds."""
    print("%-58s %11s  %18s  %18s  %s" % ("lists", "least time", "", "target", "ratio"))
    wanted = {"chirotope": document_of_map(3, 16, [1] * math.comb(16, 3))}
    for kind, members in (("cocircuits", cocircuits_of_alternating(16)), ("covectors", covectors_of_alternating(16))):
        wanted[kind] = document(kind, 16, members)
    for kind, data in sorted(wanted.items()):
        scan = least_time(["accept"], data, runs, b"accepted\n")
        for other, answer in sorted(wanted.items()):
            if kind != "chirotope" and other != kind:
                took = least_time(["convert", other], data, runs, answer)
                beside_axioms("%s to %s" % (kind, other), took, scan, 0.01)
    data = wanted["covectors"]
    scan = least_time(["accept"], data, runs, b"accepted\n")
    for verb in ("delete", "contract"):
        took, _ = times([verb, "16"], data, runs)
        beside_axioms("%s an element of 963 covectors" % verb, took, scan, 0.005)


NON_PAPPUS = os.path.join(TOP, "examples", "non-pappus.om")
# Ringel's uniform arrangement of nine pseudolines that no lines have: each collinear triple of the non-Pappus
# chirotope is turned to one side
RINGEL = "-++++++++++++--------+--++++++++++--------+++++++---++--++++++++-------------------+"
# the signs of an extension of it by one element, at the pairs of the nine
TENTH = "------------------------++--++++++++"


def signs_of(data):
    """The signs of a chirotope document, by sets."""
    lines = [line for line in (line.split("#")[0].strip() for line in data.decode().split("\n")) if line]
    elements = int(lines[1].split()[2])
    text = "".join(lines[2:lines.index("end")])
    return elements, dict(zip(itertools.combinations(range(1, elements + 1), 3), ("-0+".index(c) - 1 for c in text)))


def columns_of(data):
    """The number of lawful three-term statements of a chirotope of rank 3, which are the columns of its tableau."""
    elements, signs = signs_of(data)

    def value(*triple):
        inversions = sum(triple[i] > triple[j] for i in range(3) for j in range(i + 1, 3))
        return signs[tuple(sorted(triple))] * (-1) ** inversions

    count = 0
    for a in range(1, elements + 1):
        for b, c, d, e in itertools.combinations([x for x in range(1, elements + 1) if x != a], 4):
            terms = (value(a, b, c) * value(a, d, e), -value(a, b, d) * value(a, c, e), value(a, b, e) * value(a, c, d))
            for i, j in itertools.permutations(range(3), 2):
                k = 3 - i - j
                if terms[i] and (terms[i] == terms[k] == -terms[j] or (terms[k] == 0 and terms[i] == -terms[j])):
                    count += 1
    return count


def pivots_of(data):
    """The number of pivots of the tableau run: the least budget with which the verdict isn't `limit`."""
    low, high = 1, 20000
    while low < high:
        middle = (low + high) // 2
        text = subprocess.run([PROGRAM, "decide", "--box=1", "--steps=1", "--pivots=%d" % middle], input=data,
                              capture_output=True).stdout
        if b"\nlimit\n" in text:
            low = middle + 1
        else:
            high = middle
    return low


def ringel_on_ten():
    """The extension of Ringel's chirotope by a tenth element."""
    _, old = signs_of(chirotope(3, 9, RINGEL))
    new = dict(zip(itertools.combinations(range(1, 10), 2), TENTH))
    return chirotope(3, 10, "".join(new[t[:2]] if t[2] == 10 else "-0+"[old[t] + 1]
                                    for t in itertools.combinations(range(1, 11), 3)))


def decisions(runs):
    """The linear program and the search for realizing vectors."""
    print("%-58s %11s  %18s  %18s  %s" % ("decide", "least time", "rate", "target", "ratio"))
    with open(NON_PAPPUS, "rb") as file:
        data = file.read()
    for name, document_, target in (("non-Pappus", data, 0.05), ("Ringel's", chirotope(3, 9, RINGEL), None),
                                    ("Ringel's on ten", ringel_on_ten(), 0.15)):
        took, text = times(["decide", "--box=1", "--steps=1"], document_, runs)
        verdict = text.split(b"end\n")[1].split()[0].decode()
        row("%s, %d columns, %d pivots: %s" % (name, columns_of(document_), pivots_of(document_), verdict), took, 1, "",
            target_time=target)
    took, _ = times(["decide"], data, runs)
    row("non-Pappus with the default budgets", took, 1, "", target_time=0.02)
    without, _ = times(["decide", "--steps=1"], data, runs)
    for steps in (2000000, 20000000):
        took, _ = times(["decide", "--box=40", "--steps=%d" % steps], data, max(1, runs // 2))
        row("%d words of the search, without the tableau" % steps, took - without, steps / 1e6, "M words/s",
            target_rate=20.0)


def mutated(signs, rng, mutations):
    """A uniform chirotope of rank 3 after so many mutations at random: a sign is turned where the three-term
    relations allow it."""
    elements = max(signs)[2]
    full = {}
    for triple, sign in signs.items():
        for turn in itertools.permutations(range(3)):
            even = sum(turn[i] > turn[j] for i in range(3) for j in range(i + 1, 3)) % 2 == 0
            full[tuple(triple[i] for i in turn)] = sign if even else -sign

    def turned(triple):
        for turn in itertools.permutations(triple):
            full[turn] = -full[turn]

    def is_lawful_at(triple):
        for a, b, c in (triple, triple[1:] + triple[:1], triple[2:] + triple[:2]):
            for d, e in itertools.combinations([x for x in range(1, elements + 1) if x not in triple], 2):
                terms = (full[a, b, c] * full[a, d, e], -full[a, b, d] * full[a, c, e], full[a, b, e] * full[a, c, d])
                if abs(sum(terms)) == 3:
                    return False
        return True

    while mutations:
        triple = tuple(sorted(rng.sample(range(1, elements + 1), 3)))
        turned(triple)
        if is_lawful_at(triple):
            mutations -= 1
        else:
            turned(triple)
    return {triple: full[triple] for triple in signs}


def drawn(rng, elements):
    """A uniform chirotope of rank 3: that of vectors at random, mutated 300 times. What comes so is like a draw from
    the reorientation classes, each under names and signs at random."""
    signs = {}
    while not signs or 0 in signs.values():
        vectors = [[rng.randint(-1000, 1000) for _ in range(3)] for _ in range(elements)]
        for a, b, c in itertools.combinations(range(elements), 3):
            (x, y, z), (u, v, w), (r, s, t) = vectors[a], vectors[b], vectors[c]
            product = x * (v * t - w * s) - y * (u * t - w * r) + z * (u * s - v * r)
            signs[a + 1, b + 1, c + 1] = (product > 0) - (product < 0)
    signs = mutated(signs, rng, 300)
    return chirotope(3, elements, "".join("-0+"[signs[t] + 1] for t in sorted(signs)))


def searches(runs, earlier):
    """Searches for vectors of twelve uniform chirotopes on nine elements, beside the program of an earlier state."""
    print("%-58s %11s  %18s  %18s  %s" % ("decide --pivots=1, twelve chirotopes on nine elements", "least time", "",
                                          "target", "ratio"))
    rng = random.Random(1)
    documents = [drawn(rng, 9) for _ in range(12)]
    for box, steps, part in ((6, 40000000, 5), (8, 40000000, 5), (12, 40000000, 5), (60, 3000000, 1)):
        words = ["decide", "--pivots=1", "--box=%d" % box, "--steps=%d" % steps]
        programs = [PROGRAM] if earlier is None else [PROGRAM, earlier]
        took = dict.fromkeys(programs, 0)
        for data in documents:
            wanted = subprocess.run([PROGRAM] + words, input=data, capture_output=True).stdout
            best = dict.fromkeys(programs, math.inf)
            for _ in range(runs):
                for program in programs:
                    best[program] = min(best[program], least_time(words, data, 1, wanted, program=program))
            for program in programs:
                took[program] += best[program]
        target = None if earlier is None else took[earlier] / part
        row("box %d, %d steps" % (box, steps), took[PROGRAM], 1, "", target_time=target)


def title(words, data, processors):
    """What names a command and its input in a row: the words, the line of the kind, and the bytes of the input."""
    kinds = [line for line in data.split(b"\n")[:9] if line and not line.startswith((b"#", b"om "))]
    what = "%s: %s, %d bytes" % (" ".join(words), kinds[0].decode() if kinds else "no input", len(data))
    return what if processors is None else "%s, on %d" % (what, processors)


def beside(runs, earlier, timed):
    """What was timed, by both programs in turn, so that another speed of the machine is the same for both."""
    print("%-58s %11s  %18s  %18s  %s" % ("beside the earlier program", "least time", "", "earlier", "ratio"))
    for (words, data, processors), wanted in timed.items():
        words, best = list(words), dict.fromkeys((PROGRAM, earlier), math.inf)
        name = title(words, data, processors)
        if subprocess.run([earlier] + words, input=data, capture_output=True).stdout != wanted:
            print("%-58s answered in another way by the earlier program" % name)
            continue
        for _ in range(runs):
            for program in best:
                best[program] = min(best[program], least_time(words, data, 1, wanted, processors, program))
        row(name, best[PROGRAM], 1, "", target_time=best[earlier])


def wirings(runs):
    """Wirings and mutations of the uniform chirotope of rank 3 on 16 elements all of whose values are plus."""
    print("%-58s %11s  %18s  %18s  %s" % ("wirings and mutations", "least time", "", "target", "ratio"))
    took, wiring = times(["wiring"], alternating(3, 16), runs)
    row("wiring of a chirotope of rank 3 on 16 elements", took, 1, "", target_time=0.003)
    for kind in ("chirotope", "cocircuits"):
        took, _ = times(["convert", kind], wiring, runs)
        row("a wiring of %d blocks to %s" % (wiring.count(b"-"), kind), took, 1, "", target_time=0.003)
    took, _ = times(["mutations"], alternating(3, 16), runs)
    row("mutations of a chirotope of rank 3 on 16 elements", took, 1, "", target_time=0.003)
    took, made = times(["make", "7"], b"", runs)
    row("sixteen points from a number, and their summary", took, 1, "", target_time=0.015)
    ways_back(runs, made)


def processor_times(commands, runs):
    """The least processor time of some runs of each command, given by its words and its input, on one processor; one
    of each in turn."""
    def used():
        ended = resource.getrusage(resource.RUSAGE_CHILDREN)
        return ended.ru_utime + ended.ru_stime

    best = [math.inf] * len(commands)
    for _ in range(runs):
        for place, (words, data) in enumerate(commands):
            before = used()
            subprocess.run([PROGRAM] + words, input=data, capture_output=True, preexec_fn=keep_to(1))
            best[place] = min(best[place], used() - before)
    return best


def ways_back(runs, made):
    """What `make` takes beside the list of the covectors. It converts this list back, and nothing that it prints can
    tell whether it does. So its time has to: it takes at least half of such a conversion longer than the list."""
    points = made[:made.index(b"end\n") + len(b"end\n")]
    _, covectors = times(["convert", "covectors"], points, 1)
    commands = ((["make", "7"], b""), (["convert", "covectors"], points), (["convert", "chirotope"], covectors),
                (["accept"], covectors))
    took, alone, back, scan = processor_times(commands, runs * 8)
    row("the same beside the list of covectors, processor time", max(took - alone, 0), 1, "",
        least_time_wanted=max(back - scan, 1e-5) / 2)


def extensions(runs):
    """Extensions by one element of the uniform chirotopes of rank 3 all of whose values are plus."""
    print("%-58s %11s  %18s  %18s  %s" % ("extensions", "least time", "", "target", "ratio"))
    for elements, first, processors, target in ((9, 2000, 1, 0.03), (15, 100000, 1, 0.4), (15, 100000, 4, 0.25)):
        took, text = times(["extend", "--first=%d" % first], alternating(3, elements), runs, processors)
        row("%d of %d elements, %d processors: %d bytes" % (first, elements, processors, len(text)), took, first / 1e3,
            "k candidates/s", target_time=target)


def largest(runs):
    """Chirotopes on 19 and 20 elements all of whose values are plus."""
    print("%-58s %11s  %18s  %18s  %s" % ("on 19 and 20 elements", "least time", "", "target", "ratio"))
    for rank, elements, target in ((3, 20, 0.02), (4, 20, 0.02), (14, 19, 0.04)):
        took = least_time(["accept"], alternating(rank, elements), runs, b"accepted\n")
        name = "accept of chirotope %d %d: %d pairs" % (rank, elements, pairs(rank, elements))
        row(name, took, 1, "", target_time=target)
    covectors = covectors_of_alternating(20)
    took = least_time(["convert", "covectors"], alternating(3, 20), runs, document("covectors", 20, covectors))
    row("chirotope 3 20 to %d covectors" % len(covectors), took, 1, "", target_time=0.03)
    took, text = times(["extend", "--first=1000"], alternating(3, 19), runs)
    row("1000 extensions of 19 elements: %d bytes" % len(text), took, 1, "", target_time=0.06)


def painting(runs):
    """Painting, hulls and lexicographic extensions."""
    print("%-58s %11s  %18s  %18s  %s" % ("painting, hulls, lexicographic extensions", "least time", "", "target",
                                          "ratio"))
    for rank, target in ((3, 0.003), (8, 0.04)):
        data = alternating(rank, 16)
        for words in (["hull"], ["paint", "R" * 16, "1"], ["lexext", "+1", "-2"]):
            if words[0] == "lexext":
                data = alternating(rank, 15)
            took, text = times(words, data, runs)
            row("%s of rank %d" % (words[0], rank), took, 1, "", target_time=target if words[0] != "lexext" else None)


def main():
    parser = argparse.ArgumentParser(description=__doc__, formatter_class=argparse.RawDescriptionHelpFormatter)
    parser.add_argument("--runs", type=int, default=5)
    parser.add_argument("--earlier", metavar="PROGRAM")
    options = parser.parse_args()
    runs = options.runs
    if options.earlier is not None and not os.access(options.earlier, os.X_OK):
        sys.exit("run.py: %s is no program" % options.earlier)

    small = alternating(3, 4)
    built = subprocess.run([os.path.join(TOP, "om"), "accept"], input=small, capture_output=True)
    if built.returncode != 0:
        sys.exit("the program wasn't built:\n" + built.stderr.decode())

    accepted = b"accepted\n"
    print("%-58s %11s  %18s  %18s  %s" % ("accept", "least time", "rate", "target", "ratio"))
    start = least_time(["accept"], small, runs * 4, accepted)
    row("chirotope 3 4: process start and a small document", start, 1, "", target_time=0.001)
    for rank, elements, target in ((3, 16, None), (8, 16, 0.015)):
        took = least_time(["accept"], alternating(rank, elements), runs, accepted)
        row("chirotope %d %d, all plus: %d pairs" % (rank, elements, pairs(rank, elements)), took,
            pairs(rank, elements) / 1e6, "M pairs/s", target_time=target)
    took = least_time(["threeterm"], alternating(8, 16), runs, accepted)
    row("the three-term test of chirotope 8 16, all plus", took, 1, "", target_time=0.015)
    took, _ = times(["threeterm"], chirotope(8, 16, "+" * (math.comb(16, 8) - 2) + "-+"), runs)
    row("the same, refused at its last but one sign", took, 1, "")
    two = alternating(8, 16).replace(b"om 1\nchirotope 8 16\n", b"om 2\nchirotope 8 16\norder revlex\n")
    row("chirotope 8 16 in reverse lexicographic order", least_time(["accept"], two, runs, accepted), 1, "",
        target_time=0.018)
    took, text = times(["upgrade"], alternating(8, 16), runs)
    row("chirotope 8 16 upgraded: %d bytes" % len(text), took, 1, "")
    signs = "+-" + "+" * (math.comb(16, 8) - 2)
    took, text = times(["accept"], chirotope(8, 16, signs), runs)
    row("chirotope 8 16, refused at its first set", took, 1, "", target_time=0.001)
    signs = "+" * 6000 + "-" + "+" * (math.comb(16, 8) - 6001)
    alone, _ = times(["accept"], chirotope(8, 16, signs), runs, 1)
    row("chirotope 8 16, refused by the scan on one processor", alone, 1, "")
    took, _ = times(["accept"], chirotope(8, 16, signs), runs, 4)
    row("chirotope 8 16, refused by the scan on four", took, 1, "", target_time=alone / 2)
    for rank, elements, target in ((3, 8, 0.01), (3, 12, 0.015), (7, 12, 0.015), (3, 16, 0.1)):
        circuits = document("circuits", elements, circuits_of_alternating(rank, elements))
        took = least_time(["accept"], circuits, runs, accepted)
        row("%d circuits of rank %d on %d elements" % (2 * math.comb(elements, rank + 1), rank, elements), took, 1, "",
            target_time=target)
    refused = circuits_beside(14)
    alone, _ = times(["accept"], refused, runs, 1)
    row("%d circuits, refused by the scan on one processor" % (refused.count(b"\n") - 3), alone, 1, "")
    took, _ = times(["accept"], refused, runs, 4)
    row("%d circuits, refused by the scan on four" % (refused.count(b"\n") - 3), took, 1, "", target_time=alone / 2)
    covectors = covectors_of_alternating(16)
    took = least_time(["accept"], document("covectors", 16, covectors), runs, accepted)
    row("%d covectors of rank 3 on 16 elements" % len(covectors), took, 1, "", target_time=0.015)
    size = 1000000
    took = least_time(["accept"], comments(size), runs, accepted)
    row("1 MB of comment lines, without process start", max(took - start, 1e-5), size / 1e6, "MB/s", target_rate=100.0)
    scan = least_time(["accept"], alternating(8, 16), runs, accepted)
    took = least_time(["accept"], sign_lines(size), runs, accepted)
    row("1 MB of lines of signs and blanks, without the scan", max(took - scan, 1e-5), size / 1e6, "MB/s",
        target_rate=50.0)

    for part in (conversions, operations, lists, claims, decisions, wirings, extensions, largest, painting):
        part(runs)
    timed = dict(TIMED)
    searches(runs, options.earlier)
    if options.earlier is not None:
        beside(runs, options.earlier, timed)


if __name__ == "__main__":
    main()
