#!/usr/bin/env python3
"""catalogue/check.py

Grows the classes of rank 3 up to seven elements and the uniform ones up to eight, and compares their numbers with the
published ones; realizes all of them twice; takes them through relabel and back; sends every shipped claim through
`om_each check`; and asks each filter for its message on bad input. If nauty or GNU parallel isn't installed it says
what it leaves out. The last line is 'catalogue: N passed, M failed', and the exit code is 1 if one failed.
"""
import glob
import gzip
import hashlib
import itertools
import os
import random
import shlex
import shutil
import signal
import subprocess
import sys
import tempfile
import time

import shared

HERE = os.path.dirname(os.path.abspath(__file__))
TALLY = {True: 0, False: 0}
ALL, UNIFORM = {3: 1, 4: 2, 5: 4, 6: 17, 7: 143}, {3: 1, 4: 1, 5: 1, 6: 4, 7: 11, 8: 135}
THREE = b"om 1\nchirotope 3 3\n+\nend\n"
FOUR = b"om 1\nchirotope 3 4\n++++\nend\n"
VECTORS = b"realizable\nvector 1 0 0\nvector 0 1 0\nvector 0 0 1\nvector 1 -1 1\nend\n"
BROKEN = b"om 1\nchirotope 3 5\n+-++++++++\nend\n"
CLIMBED = "24066a91ec21955c"  # the SHA-256 of the claims of climb for 30 documents begins so
RUN = b"# all 9: 1 classes, SHA-256 1, by realize\n000000 1 1 0 0 0 0 1 1 0123456789abcdef\n"
CUT = FOUR + b"om 1\nchirotope 3 4\n++++\n"
# plays om_each: where the words are these it says so and waits, and else it is the real one
WAITS = """#!/usr/bin/env bash
if [[ %s ]]; then
  echo > %s
  exec sleep 600
fi
exec %s "$@"
"""
# plays sbatch of Slurm: it does the tasks of an array job one after the other, the last one first
SBATCH = """#!/usr/bin/env bash
while [[ $1 == --* ]]; do
  case $1 in --array=0-*) last=${1#--array=0-} ;; --output=*) log=${1#--output=} ;; esac
  shift
done
for ((task = last; task >= 0; task--)); do
  SLURM_ARRAY_TASK_ID=$task SLURM_ARRAY_TASK_COUNT=$((last + 1)) "$@" > "${log/%a/$task}" 2>&1 || code=1
done
exit "${code:-0}"
"""

# words, input, what its message says, whether nauty is needed
BAD = [
    (["relabel"], b"", "permutation", False),
    (["relabel", "1", "1", "2"], THREE, "permutation", False),
    (["relabel", "1", "--2", "3"], THREE, "permutation", False),
    (["relabel", "2", "1", "3"], FOUR, "document 1: it has 4 elements", False),
    (["relabel", "2", "1", "3", "4"], CUT, "document 2, line 8: missing", False),
    (["relabel", "2", "1", "3", "4"], FOUR + b"undecided\nend\n", "document 1: its block", False),
    (["relabel", "2", "1", "3", "4"], FOUR + b"realizable\nvector 1 2\nend\n", "document 1: its block", False),
    (["relabel", "2", "1", "3", "4"], FOUR + b"nonrealizable\nlt 1 2 3 4 9 1 2 1\nend\n", "document 1: its block",
     False),
    (["relabel", "2", "1", "3", "4"], FOUR + b"nonrealizable\nlt 1 2\nend\n", "document 1: its block", False),
    (["relabel", "2", "1", "3", "4"], FOUR + b"realizable\nvector 1 0 0\n", "document 1: it breaks off", False),
    (["to-graph6", "--colours", "2"], b"", "--colours", False),
    (["to-graph6"], THREE + FOUR, "document 2: it has 4 elements", False),
    (["to-graph6"], b"om 2\nchirotope 3 3\n+\nend\n", "begin with the line `om 1`: `om-each convert chirotope`", False),
    (["to-graph6"], b"om 1\npoints 3\n1 0 0\n0 1 0\n0 0 1\nend\n", "are read: `om-each convert chirotope`", False),
    (["realize"], b"om 1\ncircuits 3\nend\n", "are read: `om-each convert chirotope` writes", False),
    (["relabel", "1", "2", "3"], b"om 1\nwiring 3\n1-2 2-3 1-2\nend\n", "are read: `om-each convert", False),
    (["to-graph6"], FOUR + VECTORS, "document 1: a claim", False),
    (["classes", "all"], FOUR, "no words", False),
    (["classes"], b"om 1\nchirotope 4 5\n+++++\nend\n", "document 1: `chirotope 4 5`", True),
    (["classes"], b"om 1\ncircuits 3\n+-0\n-+0\nend\n", "document 1: `circuits 3`", True),
    (["classes"], b"om 1\npoints 3\n1 0 0\n0 1 0\n0 0 1\nend\n", "document 1: `points 3`", True),
    (["classes"], b"om 1\nchirotope 3 21\n+\nend\n", "document 1, line 2: elements: 21", True),
    (["classes"], b"om 1\nchirotope 3 4\n+++\nend\n", "document 1, line 4: few", True),
    (["classes"], b"om 1\nchirotope 3 4\n+++x\nend\n", "document 1, line 3: sign", True),
    (["classes"], b"\xff\xfe\x00", "document 1, line 1: version", True),
    (["grow", "--all"], FOUR, "--uniform", False),
    (["grow"], CUT, "document 2, line 8: missing", True),
    (["grow"], THREE + FOUR, "document 2: it has 4 elements", True),
    (["grow"], b"om 1\nchirotope 3 4\n+000\nend\n", "document 1: it has a loop or parallel", True),
    (["grow"], BROKEN, "document 1: om_each answers `refused relation", True),
    (["climb", "--starts=0"], FOUR, "the word `--starts=0`", False),
    (["climb", "--box=20"], FOUR, "the word `--box=20`", False),
    (["climb", "--seed=-1"], FOUR, "the word `--seed=-1`", False),
    (["climb"], CUT, "document 2, line 8: missing", False),
    (["climb"], FOUR + VECTORS, "document 1: a claim", False),
    (["climb"], THREE + b"om 1\nchirotope 3 4\n+++\nend\n", "document 2, line 8: few", False),
    (["climb"], b"om 1\nchirotope 2 4\n++++++\nend\n", "document 1: `chirotope 2 4`", False),
    (["realize", "--schedule=climb:100,decide"], FOUR, "a schedule has", False),
    (["realize", "--schedule=climb:0:1,decide"], FOUR, "a schedule has", False),
    (["realize", "--schedule=6:10:1"], FOUR, "the word decide", False),
    (["realize", "--schedule=decide,6:10"], FOUR, "a schedule has", False),
    (["realize", "--seed=x"], FOUR, "the word `--seed=x`", False),
    (["realize", "--box=0"], FOUR, "decide doesn't take --box=0", False),
    (["realize"], CUT, "document 2, line 8: missing", False),
    (["realize"], BROKEN, "document 1: om_each answers `refused relation", False),
    (["realize"], THREE + BROKEN + CUT, "document 2: om_each answers `refused relation", False),
    (["least", "0"], FOUR, "a number of processes", False),
    (["least", "2", "2"], FOUR, "a number of processes", False),
    (["least"], CUT, "document 2, line 8: missing", False),
    (["least", "2"], THREE + FOUR + BROKEN, "document 3: om_classes answers `refused axioms`", False),
    (["least"], FOUR + VECTORS, "document 1: a claim", False),
    (["least"], b"", "the input has no document", False),
    (["tally", "x"], b"", "its words are", False),
    (["tally", "--sum"], b"000000 1 1 0 0 0 0 1 1 0123456789abcdef\n", "the first line", False),
    (["tally", "--sum"], b"# all 9\n000000 2 1 0 0 0 0 1 1 0123456789abcdef\n", "line 2", False),
    (["tally", "--sum"], b"# all 9\n" + 2 * b"000000 1 1 0 0 0 0 1 1 0123456789abcdef\n", "line 3", False),
    (["tally", "--sum"], RUN + RUN.replace(b"SHA-256 1", b"SHA-256 2"), "line 3: a run over other classes", False),
    (["tally", "--sum"], RUN + RUN.replace(b" 1 1 0 0", b" 2 1 0 1"), "line 4: the block had 1 claims", False),
    (["tally", "--sum"], RUN + RUN + RUN.partition(b"\n")[2], "line 5: it isn't that of another", False),
    (["tally"], FOUR, "document 1: a document without a verdict", False),
    (["tally"], FOUR + VECTORS.replace(b"-1", b"1"), "claim 1: refused wrongsign 1,3,4", False),
    (["tally"], FOUR + b"nonrealizable\nend\n", "claim 1: refused nostrict", False),
    (["relabel", "1"], b"", "the input has no document", False),
    (["to-graph6"], b"", "the input has no document", False),
    (["classes"], b"", "the input has no document", True),
    (["grow"], b"# nothing\n", "the input has no document", True),
    (["realize"], b"", "the input has no document", False),
    (["tally"], b"", "the input has no document", False),
    (["tally", "--line"], b"", "the input has no document", False),
    (["tally"], FOUR + VECTORS[:-4], "document 1: it breaks off", False),
    (["tally"], FOUR + VECTORS[:-4] + FOUR + VECTORS, "document 1: it breaks off", False),
]


# what the messages on wrong words say, which end with 2
WRONG_WORDS = ("permutation", "--colours", "no words", "--uniform", "a schedule has", "the word", "decide doesn't take",
               "its words are", "a number of processes")


def run(words, data=b"", environment=None):
    """What a program of this folder does with an input."""
    return subprocess.run([os.path.join(HERE, words[0])] + words[1:], input=data, capture_output=True,
                          env=dict(os.environ, **(environment or {})))


def compare(what, wanted, got):
    TALLY[wanted == got] += 1
    if wanted != got:
        print("%s\n--- wanted\n%s\n--- got\n%s" % (what, wanted if len(repr(wanted)) < 2000 else repr(wanted)[:2000],
                                                   got if len(repr(got)) < 2000 else repr(got)[:2000]))


def is_whole(text):
    """Whether an output has whole documents alone."""
    return not text or (text.endswith(b"end\n") and text.startswith(b"om 1\n")) or text.startswith((b"elements", b"K"))


def bad_inputs(has_nauty):
    for words, data, message, needs_nauty in BAD:
        if needs_nauty and not has_nauty:
            continue
        done = run(words, data)
        said = done.stderr.decode(errors="replace")
        named = said.startswith(words[0] + ": ") and message in said and "Traceback" not in said
        good = done.returncode == (2 if message.startswith(WRONG_WORDS) else 1) and named and is_whole(done.stdout)
        got = (good, message) if good else (done.returncode, said)
        compare("%s on %r" % (" ".join(words), data[:60]), (True, message), got)
    for words, variable in [(["realize"], "OM_EACH"), (["tally"], "OM_EACH"), (["grow"], "LABELG"),
                            (["classes"], "LABELG")]:
        done = run(words, FOUR, {variable: "/nowhere/program"})
        compare("%s without %s" % (words[0], variable), (True, True),
                (done.returncode == 1 and not done.stdout, b"isn't there" in done.stderr))


def climbs():
    """climb finds vectors for what is realizable: also on three elements, with loops and parallel elements, and where
    all elements but one are on a line. What isn't realizable, or no chirotope, comes back as it is, after the starts
    that the words allow. All versions of Python write the same bytes."""
    three = [b"om 1\nchirotope 3 3\n%s\nend\n" % sign for sign in (b"+", b"-")]
    vectors = [(0, 0, 0), (1, 0, 0), (-2, 0, 0), (0, 1, 0), (0, 3, 0), (1, 1, 5), (-1, -1, -5), (0, 0, 0), (1, 2, 3)]
    pencils = [document_of([(0, 0, 1)] + [(x, 1, 0) for x in range(n)]) for n in range(2, 20)]
    turned = [document_of([(2, -x, 0) for x in (3, 1, -4, 9, 0)] + [(1, 1, 1)] + [(2, 5, 0), (-2, 7, 0)])]
    found = three + [document_of(vectors)] + pencils + turned
    done = run(["climb"], b"".join(found))
    compare("climb, claims", (0, len(found)), (done.returncode, done.stdout.count(b"\nrealizable # start 1\n")))
    compare("tally of what climb writes", 0, run(["tally"], done.stdout).returncode)
    left = bytes_of(os.path.dirname(HERE), "examples/non-pappus.om")
    left = [left[left.index(b"om 1"):], b"om 1\nchirotope 3 4\n0000\nend\n", BROKEN]
    for words in [], ["--starts=2", "--steps=3", "--seed=7"]:
        done = run(["climb", *words], b"".join(left))
        compare("climb, documents that are left", (0, b"".join(left)), answer_of(done))
    with gzip.open(os.path.join(HERE, "realizable-8.claims.gz"), "rb") as file:
        documents = document_parts(file.read())[:30]
    claims = run(["climb"], b"".join(documents)).stdout
    compare("climb, the classes on up to 6 and some on 7", len(documents), claims.count(b"\nrealizable # start "))
    compare("climb, bytes", CLIMBED, hashlib.sha256(claims).hexdigest()[:16])
    climbed = run(["realize", "--schedule=climb:100:5,decide"], b"".join(documents)).stdout
    compare("realize by climbing, vectors", vectors_alone(claims), vectors_alone(climbed))


def document_of(vectors):
    """The document of these vectors."""
    signs = ""
    for (a, b, c), (d, e, f), (g, h, i) in itertools.combinations(vectors, 3):
        determinant = a * (e * i - f * h) - b * (d * i - f * g) + c * (d * h - e * g)
        signs += "0+-"[(determinant > 0) - (determinant < 0)]
    lines = "\n".join(signs[k : k + 64] for k in range(0, len(signs), 64))
    return b"om 1\nchirotope 3 %d\n%s\nend\n" % (len(vectors), lines.encode())


def document_parts(claims):
    """The document of each claim."""
    return [b"om 1\n" + claim[: claim.index(b"end\n") + 4] for claim in claims.split(b"om 1\n")[1:]]


def vectors_alone(claims):
    return [line for line in claims.split(b"\n") if line.startswith((b"chirotope", b"vector"))]


def renamed_certificate():
    """The certificate of the non-Pappus chirotope stays valid under other names and orientations, and comes back."""
    with open(os.path.join(os.path.dirname(HERE), "examples", "non-pappus-claim.om"), "rb") as file:
        claim = b"".join(line for line in file if not line.startswith(b"#"))
    for seed in range(5):
        other = renamed(claim, 9, seed)
        compare("tally of a renamed certificate", [b"9", b"all", b"1", b"0", b"1"],
                run(["tally"], other).stdout.split(b"\n")[1].split()[:5])


def grown(last, *words):
    """The catalogues up to so many elements."""
    catalogues = {3: THREE}
    for n in range(4, last + 1):
        catalogues[n] = run(["grow", *words], catalogues[n - 1]).stdout
    return catalogues


def renamed(catalogue, n, seed):
    """The documents with other names and orientations, each way back, and the words."""
    draw = random.Random(seed)
    words = [str(k * draw.choice((1, -1))) for k in draw.sample(range(1, n + 1), n)]
    other = run(["relabel", *words], catalogue).stdout
    compare("relabel there and back on %d elements" % n, catalogue, run(["relabel", "--back", *words], other).stdout)
    return other


def classes_and_claims(has_nauty):
    """The numbers of classes, their claims, and that a second run and other names change nothing."""
    if not has_nauty:
        print("nauty isn't installed: the classes are not counted, and grow and classes are not run")
        claims = run(["realize"], THREE + FOUR)
        compare("claims of 123 and of 1234", (0, 2), (claims.returncode, claims.stdout.count(b"realizable")))
        return
    every, uniform = grown(7), grown(8, "--uniform")
    compare("classes", ALL, {n: text.count(b"om 1\n") for n, text in every.items()})
    compare("uniform classes", UNIFORM, {n: text.count(b"om 1\n") for n, text in uniform.items()})
    catalogue = every[7]
    other = renamed(catalogue, 7, 1) + renamed(catalogue, 7, 2)
    compare("classes of a catalogue and of others of it", catalogue, run(["classes"], catalogue + other).stdout)
    graphs = run(["to-graph6"], catalogue + other).stdout.split(b"\n")[:-1]
    colours = run(["to-graph6", "--colours", "7"]).stdout.decode().strip()
    labelg = shutil.which("labelg") or shutil.which("nauty-labelg")
    canonical = subprocess.run([labelg, "-q", "-f" + colours], input=b"\n".join(graphs) + b"\n",
                               capture_output=True).stdout.split(b"\n")[:-1]
    compare("graphs of 143 classes, three times", (429, 143, canonical[:143]),
            (len(canonical), len(set(canonical)), canonical[143:286]))
    documents = b"".join(every.values()) + uniform[8]
    claims = run(["realize"], documents)
    count = documents.count(b"om 1\n")
    compare("claims", (0, count),
            (claims.returncode, claims.stdout.count(b"realizable #") + claims.stdout.count(b"\nrealizable\n")))
    compare("claims of a second run, in two parts", claims.stdout,
            run(["realize"], documents[: len(documents) - len(uniform[8])]).stdout +
            run(["realize"], uniform[8]).stdout)
    lines = [line.split()
             for line in run(["tally"], renamed(claims_of(claims.stdout, 7), 7, 3)).stdout.decode().split("\n")[1:-1]]
    wanted = {"all": "143", "uniform": "11"}
    compare("tally of 143 classes with other names",
            [["7", kind, k, k, "0", "0", "0", "0"] for kind, k in wanted.items()], [line[:8] for line in lines])
    compare("what is published of them", [["%s" % k, "classes,", k, "realizable"] for k in wanted.values()],
            [line[10:] for line in lines])


def claims_of(claims, n):
    """The claims on so many elements, without their comments, in canonical form."""
    parts = [b"om 1\n" + part for part in claims.split(b"om 1\n")[1:]]
    lines = b"".join(part for part in parts if part.startswith(b"om 1\nchirotope 3 %d\n" % n)).split(b"\n")
    return b"\n".join(line.split(b" #")[0] for line in lines)


def shipped_claims():
    """Each claim that is shipped, by om_each check and by tally."""
    for path in sorted(glob.glob(os.path.join(HERE, "*.claims")) + glob.glob(os.path.join(HERE, "*.claims.gz"))):
        name = os.path.basename(path)
        with (gzip.open if path.endswith(".gz") else open)(path, "rb") as file:
            data = file.read()
        verdict = name.split("-")[0].encode()
        done = run(["tally"], data)
        said = [line.split() for line in done.stdout.decode().split("\n")[1:-1]]
        place = 3 + [b"realizable", b"nonrealizable", b"undecided"].index(verdict)
        good = sum(int(line[place]) for line in said if line[1] == "all"
                   or len([other for other in said if other[0] == line[0]]) == 1)
        compare("claims in %s" % name, (0, data.count(b"om 1\n")), (done.returncode, good))


def shipped_tallies():
    """Each tally that is shipped is of one run with the schedule of realize. It has all classes that are published, and
    leaves none without vectors and a certificate but what is shipped as undecided. As many certificates are shipped
    beside it as it says."""
    show = run(["realize", "--show"]).stdout
    for path in sorted(glob.glob(os.path.join(HERE, "*.tally"))):
        kind, n = os.path.basename(path).split(".")[0].split("-")
        with open(path, "rb") as file:
            data = file.read()
        compare("runs of %s" % path, [show], [line.split(b" by realize ")[1] + b"\n" for line in data.split(b"\n")
                                             if line.startswith(b"#")])
        words = run(["tally", "--sum"], data).stdout.split(b"\n")[1].decode().split()
        ending = "-%s%s.claims" % (n, "" if kind == "all" else "-" + kind)
        classes, known = int(words[10]), int(words[12])
        nonrealizable, undecided = classes - known, shipped("undecided" + ending)
        compare("the tally %s" % path, [n, kind, classes, known - undecided, nonrealizable, undecided, 0, 0],
                words[:2] + list(map(int, words[2:8])))
        if os.path.exists(os.path.join(HERE, "nonrealizable" + ending)):
            compare("as many certificates as %s says" % path, nonrealizable, shipped("nonrealizable" + ending))


def shipped(name):
    """How many claims a file of this folder has; none if it isn't there."""
    path = os.path.join(HERE, name)
    if not os.path.exists(path):
        return 0
    with (gzip.open if path.endswith(".gz") else open)(path, "rb") as file:
        return file.read().count(b"om 1\n")


def later_runs():
    """Where a tally has two runs, the lines of the second one count."""
    later = RUN.replace(b"by realize", b"by realize --seed=2").replace(b" 1 1 0 0 0 0 1 1 ", b" 1 0 0 1 0 0 0 0 ")
    done = run(["tally", "--sum"], RUN + RUN.replace(b"000000", b"000001").partition(b"\n")[2] + later)
    compare("a tally of two runs", (0, b"9 all 2 1 0 1 0 0 1 1".split()),
            (done.returncode, done.stdout.split(b"\n")[1].split()[:10]))


def stopped_and_taken_over():
    """A classification with a block lost, and begun anew elsewhere, comes to the same bytes. One that takes the tally
    of another comes to the same table."""
    if not shutil.which("parallel"):
        print("GNU parallel isn't installed: classify is not run")
        return
    with tempfile.TemporaryDirectory() as folder:
        first, second, third = (os.path.join(folder, name) for name in ("first", "second", "third"))
        done = run(["classify", first, "all", "5"])
        compare("classify", (0, 5), (done.returncode, done.stderr.count(b" processor seconds\n")))
        shutil.copytree(first, second)
        for path in ("om", "claims", "tally", "table", "grown/000000.classes", "blocks/000000.claims",
                     "blocks/000000.tally"):
            os.remove(os.path.join(second, "all-5." + path))
        with open(os.path.join(second, "all-5.grown", "000000.part"), "w") as file:
            file.write("om 1\nchirotope 3 5\n+")
        compare("classify of a run that is taken over", (0, done.stdout),
                answer_of(run(["classify", second, "all", "5"])))
        compare("classify with a tally", (0, done.stdout),
                answer_of(run(["classify", third, "all", "5"], environment={"TALLIES": first})))
        for name in ("all-5.om", "all-5.claims", "all-5.tally"):
            compare("%s of a run that is taken over" % name, bytes_of(first, name), bytes_of(second, name))
        compare("the tally of a run with a tally", bytes_of(first, "all-5.tally"), bytes_of(third, "all-5.tally"))
        compare("claims of a run with a tally", False, os.path.exists(os.path.join(third, "all-5.claims")))
        shown(folder, first, done.stdout)
        by_array_jobs(folder, first, done.stdout)
        other_options(first)
        stopped_by_hand(os.path.join(folder, "fourth"))
    for words in (["classify"], ["classify", "x", "some", "5"], ["classify", "x", "all", "2"]):
        done = run(words)
        compare(" ".join(words), (2, b"", True), (done.returncode, done.stdout, done.stderr.startswith(b"classify: ")))


def shown(folder, first, tables):
    """The lists of a classification are complete, and those of least maps exact. A list without one of its classes is
    refused, and leaves no result."""
    compare("what is shown at the end", b"complete 4 2\ncomplete 5 4\n", tables[-26:])
    done = run(["classify", first, "all", "5"], environment={"EXACT": "yes"})
    with open(os.path.join(os.path.dirname(HERE), "examples", "classes.om"), "rb") as file:
        least = file.read()
    found = done.returncode, done.stdout[-20:], bytes_of(first, "all-4.least") + bytes_of(first, "all-5.least")
    compare("exact lists", (0, b"exact 4 2\nexact 5 4\n", least), found)
    wrong = os.path.join(folder, "wrong")
    shutil.copytree(first, wrong)
    os.remove(os.path.join(wrong, "all-5.exact"))
    with open(os.path.join(wrong, "all-5.least"), "wb") as file:
        file.write(bytes_of(first, "all-5.least").partition(b"end\n")[2])
    done = run(["classify", wrong, "all", "5"], environment={"EXACT": "yes"})
    said = b"classify: om_classes says of the lists: refused list 5 missing 1 ------\n"
    compare("a list without its first class", (1, True, False),
            (done.returncode, done.stderr.endswith(said), os.path.exists(os.path.join(wrong, "all-5.exact"))))


def by_array_jobs(folder, first, tables):
    """Array jobs come to the same bytes, with more tasks than blocks too and with fewer. A task that fails is said,
    and leaves no result; the same command goes on."""
    place = os.path.join(folder, "bin")
    os.mkdir(place)
    with open(os.path.join(place, "sbatch"), "w") as file:
        file.write(SBATCH)
    os.chmod(file.name, 0o755)
    jobs = {"PATH": place + os.pathsep + os.environ["PATH"], "ARRAY": "3", "OM_EACH": "/bin/false"}
    fifth = os.path.join(folder, "fifth")
    done = run(["classify", fifth, "all", "5"], environment=jobs)
    compare("classify with a task that fails", (1, b"", True, []),
            (done.returncode, done.stdout, b"a task of the array job failed" in done.stderr,
             glob.glob(fifth + "/*/*.claims")))
    del jobs["OM_EACH"]
    compare("classify by array jobs", (0, tables), answer_of(run(["classify", fifth, "all", "5"], environment=jobs)))
    for name in ("all-5.om", "all-5.claims", "all-5.tally"):
        compare("%s by array jobs" % name, bytes_of(first, name), bytes_of(fifth, name))
    blocks = os.path.join(folder, "blocks")
    os.mkdir(blocks)
    for number in range(7):
        with open(os.path.join(blocks, "%06d.om" % number), "w") as file:
            file.write("%d\n" % number)
    for tasks in 2, 9:
        for task in range(tasks):
            done = subprocess.run([os.path.join(HERE, "array-job"), blocks, "%d" % tasks, "cat {} {} > {.}.part"],
                                  env=dict(os.environ, SLURM_ARRAY_TASK_ID="%d" % task,
                                           SLURM_ARRAY_TASK_COUNT="%d" % tasks), capture_output=True)
            compare("task %d of %d" % (task, tasks),
                    (0, b"", {"%06d.%d" % (k, tasks) for k in range(7) if k % tasks <= task}),
                    (done.returncode, done.stderr,
                     {os.path.basename(path) for path in glob.glob(blocks + "/*.%d" % tasks)}))
        compare("results of %d tasks" % tasks, [b"%d\n%d\n" % (k, k) for k in range(7)],
                [bytes_of(blocks, "%06d.%d" % (k, tasks)) for k in range(7)])
    for number, message in ("x", b"ARRAY isn't a number"), ("0", b"ARRAY isn't a number"):
        done = run(["classify", fifth, "all", "5"], environment={"ARRAY": number})
        compare("classify with ARRAY=%s" % number, (1, b"", True), (*answer_of(done), message in done.stderr))


def other_options(folder):
    """A run with another seed or schedule over blocks that are done stops, says both and changes nothing; and so it
    does where the run before it was stopped in its blocks."""
    def files():
        return sorted((path, bytes_of("", path)) for path in glob.glob(folder + "/**", recursive=True)
                      if os.path.isfile(path))

    before = files()
    for words in (["--seed=2"], ["--schedule=20:1000:1,decide"], ["--box=7"]):
        done = run(["classify", folder, "all", "5", *words])
        said = done.stderr.decode()
        compare("classify with %s over other blocks" % words, (1, b"", True, True),
                (done.returncode, done.stdout, "--seed=1\n" in said, words[0] in said and "another folder" in said))
    os.remove(os.path.join(folder, "all-5.tally"))
    os.remove(os.path.join(folder, "all-5.table"))
    os.remove(os.path.join(folder, "all-5.blocks", "000000.tally"))
    done = run(["classify", folder, "all", "5", "--seed=2"])
    compare("classify with another seed where one was stopped", (1, b""), (done.returncode, done.stdout))
    compare("and with the same one", 0, run(["classify", folder, "all", "5"]).returncode)
    compare("nothing has changed", [path for path, _ in before if not path.endswith(".times")],
            [path for path, data in files() if not path.endswith(".times") and (path, data) in before])


def stopped_by_hand(folder):
    """Control-C, which goes to all programs of the terminal, ends it with 130 in each of its stages, and the same
    command goes on. What plays om_each waits there until the signal comes."""
    words = [os.path.join(HERE, "classify"), folder, "uniform", "8"]
    waits, reached = folder + ".waits", folder + ".reached"
    # a check that runs in the background is started with SIGINT ignored, and a shell can't trap a signal that was
    signal.signal(signal.SIGINT, signal.default_int_handler)
    for stage in ('$1 = extend', '$1 = decide && /dev/stdin -ef /dev/null', '$1 = decide && ! /dev/stdin -ef /dev/null',
                  '$1 = check'):
        with open(waits, "w") as file:
            file.write(WAITS % (stage, shlex.quote(reached), shlex.quote(shared.om_each())))
        os.chmod(waits, 0o755)
        process = subprocess.Popen(words, stdout=subprocess.PIPE, stderr=subprocess.PIPE, start_new_session=True,
                                   env=dict(os.environ, OM_EACH=waits))
        end = time.monotonic() + 120
        while not os.path.exists(reached) and process.poll() is None and time.monotonic() < end:
            time.sleep(0.01)
        os.killpg(process.pid, signal.SIGINT)
        process.communicate()
        compare("classify, stopped where %s" % stage, (130, True), (process.returncode, os.path.exists(reached)))
        os.remove(reached)
    done = run(["classify", folder, "uniform", "8"])
    compare("classify behind control-C", (0, True), (done.returncode, b"135 classes, 135 realizable" in done.stdout))
    done = run(["classify", folder, "uniform", "8"], environment={"EXACT": "yes"})
    compare("exact lists of uniform maps", (0, [b"exact 7 11", b"exact 8 135"]),
            (done.returncode, done.stdout.splitlines()[-2:]))


def answer_of(done):
    return done.returncode, done.stdout


def bytes_of(folder, name):
    with open(os.path.join(folder, name), "rb") as file:
        return file.read()


def main():
    has_nauty = bool(shutil.which("labelg") or shutil.which("nauty-labelg"))
    bad_inputs(has_nauty)
    climbs()
    renamed_certificate()
    classes_and_claims(has_nauty)
    shipped_claims()
    shipped_tallies()
    later_runs()
    if has_nauty:
        stopped_and_taken_over()
    print("catalogue: %d passed, %d failed" % (TALLY[True], TALLY[False]))
    return 1 if TALLY[False] or not TALLY[True] else 0


if __name__ == "__main__":
    sys.exit(main())
