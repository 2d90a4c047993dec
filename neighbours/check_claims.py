#!/usr/bin/env python3
"""neighbours/check_claims.py [--coq CLAIMS..]

Compares the referee with `om check` on every shipped claim, on claims with one number or sign changed, and on the
claims of the rows; takes certificates to brackets and back, and vectors to points of the plane; and, where Coq is
installed, gives the theorems of the shipped claims to coqc, with those of changed claims, which it has to refuse. The
last line is 'claims: N passed, M failed'; the exit code is 1 if one failed.

With --coq the claims are those of these files, which may be compressed by gzip. coqc gets the file that claim-to-coq
writes of all claims of a file. Then it gets the theorems of all these claims with one number of an entry or of a vector
changed in each, so that `om check` refuses it: each of them has to be refused. For each file a line says how many there
were, the seconds of a processor and the memory for the first, and the axioms.
"""
import glob
import gzip
import importlib.util
import io
import os
import random
import re
import shutil
import subprocess
import sys
import tempfile

TOP = os.path.dirname(os.path.dirname(os.path.abspath(__file__)))
HERE = os.path.join(TOP, "neighbours")
OM, EACH = (os.path.join(TOP, "crates", name, "out", name) for name in ("om", "om_each"))
CHANGES = 100
AXIOMS = ["ClassicalDedekindReals.sig_forall_dec", "FunctionalExtensionality.functional_extensionality_dep"]
TALLY = {True: 0, False: 0}
sys.path.insert(0, HERE)

from claims import claims as claims_in  # noqa: E402
from filters import Refused  # noqa: E402
from om import pieces  # noqa: E402
from referee import Broken, answers  # noqa: E402


def expect(what, found, wanted):
    TALLY[found == wanted] += 1
    if found != wanted:
        print("failed: %s\n--- wanted %r\n--- found  %r" % (what, wanted, found))


def run(words, data, folder=TOP):
    """The exit code, the output and the message of a program or a filter."""
    path = os.path.join(HERE, words[0])
    ended = subprocess.run([path if os.path.exists(path) else words[0]] + words[1:], input=data, capture_output=True,
                           cwd=folder)
    return ended.returncode, ended.stdout, ended.stderr


def om(*words, data):
    return run([OM] + list(words), data)[1]


def shipped():
    """The claims among the examples: they have two lines `end`."""
    for path in sorted(glob.glob(os.path.join(TOP, "examples", "*.om"))):
        with open(path, "rb") as file:
            data = file.read()
        if len(re.findall(rb"(?m)^end$", data)) == 2:
            yield os.path.basename(path), data


def parts(data):
    """The text of a claim's document, and that of its block."""
    cut = data.index(b"\nend\n") + 5
    return data[:cut], data[cut:]


# ---- The referee

def said(data):
    """What the referee says; None stands for a stream that it doesn't read to its end."""
    try:
        return b"".join(answer.encode() + b"\n" for answer, _ in answers(io.BytesIO(data)))
    except Broken:
        return None


def is_read(data):
    """Whether the filters of claims read a text."""
    try:
        return list(claims_in(io.BytesIO(data), "realizable", "nonrealizable")) != []
    except Refused:
        return False


def compare(what, data, theirs):
    """The referee says what `om-each check` says, line by line, of streams without a line of more than 2^20 bytes. The
    filters read the claims of both verdicts in rank 3."""
    is_read_whole = all(len(line) <= 2**20 for line in data.splitlines(True))
    expect(what, said(data), run([EACH, "check"], data)[1] if is_read_whole else None)
    if re.search(rb"(?m)^\s*(non)?realizable\s*$", data):
        refused = (b"refused line", b"refused long", b"refused notrank3", b"refused range", b"refused notincreasing",
                   b"refused notreversed")
        of_rank_3 = not re.search(rb"(?m)^chirotope [^3]", data)
        expect("%s, read" % what, is_read(data), of_rank_3 and not theirs.startswith(refused))


def changed(data, chance):
    """A claim with one of its numbers or signs changed."""
    start = data.index(b"om ")
    where = chance.choice([found for found in re.finditer(rb"-?\d+|[-+0](?=[-+0]*$)", data[start:], re.M)
                           if found.start() > 4])
    old = where.group()
    if old in (b"+", b"-", b"0") and chance.random() < 0.7:
        new = chance.choice([s for s in (b"+", b"-", b"0") if s != old])
    elif old in (b"+", b"-"):
        new = b""
    else:
        near = [int(old) + d for d in (-2, -1, 1, 2)] + [-int(old), chance.randint(1, 9)]
        far = [0, 20, 21, 2**40, 2**40 + 1, 2**63, 2**63 + 1, 2**100, -2**100 - 1, 10**45]
        new = chance.choice([b"%d" % x for x in near * 4 + far] + [b"0%s" % old, b"+%s" % old, b"-0", b"x"])
    return data[:start + where.start()] + new + data[start + where.end():]


def look_at_referee(claims):
    chance = random.Random(57)
    for name, data in claims:
        code, answer, message = run(["referee.py"], data)
        expect("%s by the referee" % name, (code, answer, message), (0, om("check", data=data), b""))
        for _ in range(CHANGES):
            text = changed(data, chance)
            compare("a change of %s: %r" % (name, text.decode()), text, om("check", data=text))
    look_at_odd_streams([re.sub(b"(?m)^#.*\n", b"", data) for _, data in claims])
    code, answer, _ = run(["referee.py"], b"".join(data for _, data in claims))
    expect("a stream", (code, answer), (0, b"".join(om("check", data=data) for _, data in claims)))


def look_at_odd_streams(claims):
    """Streams in which some claim is broken, too long, or followed by something: the referee says what `om-each check`
    says, names the claim and the line, and goes on."""
    first, second = [data for data in claims if b"\nnonrealizable" in data][:2]
    cut = first[:first.rindex(b"end")]
    for what, stream, message in (
            ("a broken claim between others", first + second.replace(b"\nend\n", b"\nend\nx\n", 1) + first,
             b"referee.py: claim 2: line "),
            ("a claim that breaks off before another one", cut + second, b"referee.py: claim 1: line "),
            ("a claim that breaks off", first + cut, b"referee.py: claim 2: line "),
            ("what follows the last end", first + b"end\n", b"referee.py: claim 2: line 1: "),
            ("words behind the last end", first + b"# x\n\nx y\n", b"referee.py: claim 2: line 3: "),
            ("a document alone", first[:first.index(b"\nend\n") + 5], b"referee.py: claim 1: line "),
            ("lines end alone", b"end\nend\n", b"referee.py: claim 1: line 1: "),
            ("a claim of 1,048,576 bytes", b"#" * (2**20 - len(first) - 1) + b"\n" + first, b""),
            ("a claim of a byte more", (b"#" * 2**19 + b"\n") * 2 + first + second,
             b"referee.py: claim 1: more than 2^20 bytes"),
            ("a block of a kind for the other verdict", first.replace(b"nonrealizable", b"realizable"),
             b"referee.py: claim 1: line ")):
        code, answer, said_of_it = run(["referee.py"], stream)
        theirs = run([EACH, "check"], stream)
        expect("the referee on %s" % what, (code, answer, message in said_of_it, b"Traceback" in said_of_it),
               (*theirs[:2], True, False))
    on_list = b"om 1\ncircuits 3\nend\nnonrealizable\nend\n"
    for what, words, stream, wanted in (
            ("a claim on a list", [], first + on_list + first, (1, b"valid nonrealizable\nunread circuits\n" +
                                                               b"valid nonrealizable\n")),
            ("nothing", [], b"", (1, b"")), ("a remark", [], b"# x\n", (1, b"")),
            ("a line of 3 MB", [], first + b"x" * 3000000 + b"\n" + first, (1, b"valid nonrealizable\n")),
            ("a word", ["--wrong"], first, (2, b"")), ("a file's name", ["examples/pappus-vectors.om"], b"", (2, b""))):
        code, answer, message = run(["referee.py", *words], stream)
        expect("the referee on %s" % what, (code, answer, message.startswith(b"referee.py: ")), (*wanted, True))


def look_at_rows():
    """The claims of the rows, with answers worked out by hand; those on lists aren't read by the referee."""
    spec = importlib.util.spec_from_file_location("rows_check", os.path.join(TOP, "rows", "check.py"))
    rows = importlib.util.module_from_spec(spec)
    spec.loader.exec_module(rows)
    for path in sorted(set(glob.glob(os.path.join(TOP, "rows", "*.txt"))) - {os.path.join(TOP, "rows", "streams.txt")}):
        for row in rows.rows_of(path):
            if row.words == ["check"] and row.input is not None and row.code in (0, 1):
                kind = re.search(rb"(?m)^\s*(circuits|cocircuits|covectors) +([1-9]|1[0-9]|20)\s*(#.*)?$", row.input)
                if kind:
                    expect("a row on a list: %s" % row.line[:200], (said(row.input) or b"").startswith(
                        (b"unread %s\n" % kind[1], b"refused line 1 version", b"refused long")), True)
                else:
                    compare("a row: %s" % row.line[:200], row.input, row.output)


# ---- Brackets and points

def look_at_brackets(claims):
    for name, data in claims:
        document, block = parts(data)
        if b"\nnonrealizable" not in data:
            continue
        with tempfile.NamedTemporaryFile() as file:
            file.write(document)
            file.flush()
            brackets = run(["claim-to-brackets"], data)[1]
            plain = re.sub(rb"(?m)^#.*\n", b"", data)
            expect("%s by brackets" % name, run(["brackets-to-claim", file.name], brackets)[1], plain)
            turned = b"".join(b"%s > %s\n" % tuple(line.split(b" < ")[::-1]) if b" < " in line else line + b"\n"
                              for line in brackets.splitlines())
            expect("%s by brackets and >" % name, run(["brackets-to-claim", file.name], turned)[1], plain)


def claim_of(vectors):
    """A claim on the points that some vectors are, which realize them."""
    rows = ["%d %d %d" % tuple(v) for v in vectors]
    return ("om 1\npoints %d\n%s\nend\nrealizable\n%s\nend\n" %
            (len(rows), "\n".join(rows), "\n".join("vector " + row for row in rows))).encode()


def look_at_points(claims):
    """Of vectors in many orientations: points with their chirotope where it has no loop and is acyclic, as `om hull`
    says, and else a message."""
    chance = random.Random(58)
    given = {True: 0, False: 0}
    for name, data in claims:
        if b"\nrealizable" not in data:
            continue
        vectors = [row for _, row in next(claims_in(io.BytesIO(data), "realizable")).lines]
        turned = [[[s * x for x in v] for v, s in zip(vectors, [chance.choice((1, 1, 1, -1)) for _ in vectors])]
                  for _ in range(5)]
        drawn = [[[chance.randint(-4, 9) for _ in range(3)] for _ in range(chance.randint(3, 8))] for _ in range(5)]
        for text in [data] + [claim_of(vectors) for vectors in turned + drawn]:
            document, _ = parts(text)
            chirotope = om("convert", "chirotope", data=document)
            if not chirotope.startswith(b"om"):
                continue
            has_loop = any(not any(row) for _, row in next(claims_in(io.BytesIO(text), "realizable")).lines)
            gives = om("hull", data=document).startswith(b"acyclic") and not has_loop
            code, points, message = run(["claim-to-points"], text)
            found = om("convert", "chirotope", data=points) if points else b""
            why = b"" if gives else b"no point is a loop" if has_loop else b"the chirotope isn't acyclic"
            expect("points of %r" % text.decode(), (code, found), (0, chirotope) if gives else (1, b""))
            expect("message %r for %r" % (message, text.decode()),
                   message.startswith(b"claim-to-points: claim 1: " + why) != gives, True)
            expect("points x y 1 of %r" % text.decode(),
                   all(re.fullmatch(rb"\d+ \d+ 1", line) for line in points.splitlines()[2:-1]), True)
            given[gives] += 1
    expect("claims that give points, and others", min(given.values()) > 5, True)


CLAIM = b"om 1\nchirotope 3 3\n+\nend\nrealizable\nvector 1 0 0\nvector 0 1 0\nvector 0 0 1\nend\n"
# words, an input, and the exit code
REFUSED = [
    ("claim-to-coq", b"", 1), ("claim-to-coq", b"om 1\nchirotope 3 3\n+\nend\n", 1), ("claim-to-coq x", CLAIM, 2),
    ("claim-to-coq", b"om 1\nchirotope 2 2\n+\nend\nnonrealizable\nend\n", 1), ("claim-to-coq", CLAIM + CLAIM[:-4], 1),
    ("claim-to-coq", b"om 1\nchirotope 3 3\n+\nend\nundecided\nweight 1 2 3 1\nexhausted\nend\n", 1),
    ("claim-to-coq", b"om 1\ncircuits 3\nend\nnonrealizable\nend\n", 1),
    ("claim-to-coq", b"om 1\nwiring 3\n1-2\nend\nnonrealizable\nend\n", 1),
    ("claim-to-brackets", CLAIM, 1), ("claim-to-brackets", b"\xff\n", 1), ("claim-to-brackets x", CLAIM, 2),
    ("claim-to-brackets", b"om 1\nchirotope 3 5\n++++++++++\nend\nnonrealizable\neq 1 2 3 4 5 1 2 1\nend\n", 1),
    ("claim-to-brackets", b"om 1\nchirotope 3 5\n++++++++++\nend\nnonrealizable\nlt 1 2 3 4 9 1 2 1\nend\n", 1),
    ("claim-to-brackets", 2 * b"om 1\nchirotope 3 3\n+\nend\nnonrealizable\nend\n", 1),
    ("claim-to-points", b"om 1\nchirotope 3 3\n+\nend\nnonrealizable\nend\n", 1), ("claim-to-points", b"end\nend\n", 1),
    ("claim-to-points", CLAIM.replace(b"0 1\n", b"0 -1\n"), 1),
    ("claim-to-points", CLAIM.replace(b"vector 0 0 1\n", b""), 1),
    ("claim-to-points", CLAIM.replace(b"0 1\n", b"0 1099511627777\n"), 1), ("claim-to-points x", CLAIM, 2),
    ("brackets-to-claim", b"", 2), ("brackets-to-claim /nowhere.om", b"", 4), ("brackets-to-claim examples", b"", 4),
    ("brackets-to-claim examples/non-pappus-claim.om", b"", 1),
] + [("brackets-to-claim examples/non-pappus.om", line, 1) for line in (
    b"[134][179] < [137]\n", b"[134][179] [137][149]\n", b"[134][179] < [137][148]\n", b"[134]^2[179] < [137][149]\n",
    b"x\n", b"[134][179] < [179][134]\n", b"[134]^0[179]^0 < [137]^0[149]^0\n", b"[134][1,7,10] < [137][1,4,10]\n",
    b"[114][179] < [137][149]\n")]


def look_at_refusals():
    for words, data, code in REFUSED:
        ended, output, message = run(words.split(), data)
        expect("%s on %r" % (words, data), (ended, output, message.startswith(words.split()[0].encode() + b": "),
                                            b"Traceback" in message), (code, b"", True, False))
    for words in ("referee.py", "claim-to-coq", "claim-to-points"):
        with open("/dev/full", "wb") as full:
            ended = subprocess.run([os.path.join(HERE, words)], input=CLAIM, stdout=full, stderr=subprocess.PIPE,
                                   cwd=TOP)
        expect("%s without room" % words, (ended.returncode, b"Traceback" in ended.stderr), (5, False))
    code, output, message = run(["claim-to-points"], CLAIM.replace(b"0 1\n", b"0 -1\n") + CLAIM)
    expect("a stream goes on behind a claim that gives no points",
           (code, output.count(b"end\n"), message.count(b"claim 1: ")), (1, 1, 1))


# ---- Coq

def compiled(folder, name, text):
    """Whether coqc accepts a file, and what it writes."""
    with open(os.path.join(folder, name), "wb") as file:
        file.write(text)
    code, output, message = run(["coqc", "-q", name], b"", folder)
    return code == 0, output, message.decode()


def measured(folder, name, text):
    """Whether coqc accepts a file, what it writes, its seconds of a processor and the greatest memory in MB."""
    with open(os.path.join(folder, name), "wb") as file:
        file.write(text)
    with tempfile.TemporaryFile() as output:
        process = subprocess.Popen(["coqc", "-q", name], cwd=folder, stdout=output, stderr=subprocess.STDOUT)
        _, status, used = os.wait4(process.pid, 0)
        process.returncode = os.waitstatus_to_exitcode(status)
        output.seek(0)
        return status == 0, output.read().decode(), used.ru_utime + used.ru_stime, used.ru_maxrss / 1024


def theorems(claims, general):
    """What claim-to-coq writes of some claims, with its general part taken from where that is compiled."""
    text = run(["claim-to-coq"], b"".join(claims))[1]
    expect("the general part in front", text.startswith(general), True)
    head = (b"From Coq Require Import Reals List Bool Arith ZArith.\nImport ListNotations.\n"
            b"Require Import certificates.\n")
    return head + text[len(general):]


def changed_block(data, chance):
    """A claim with one number of its block changed, and what `om check` says of it; a claim still, if not a valid
    one."""
    document, block = parts(data)
    while True:
        text = document + changed(b"om " + block, chance)[3:]
        answer = om("check", data=text)
        if not answer.startswith(b"refused line"):
            return text, answer


def look_at_coq(claims):
    """coqc accepts the theorems of the shipped claims, and refuses the theorem of a changed claim. What Coq computes
    of many changed claims, and on which their theorems rest, is what `om check` says of them."""
    chance = random.Random(59)
    proving = [(name, data) for name, data in claims if re.search(rb"(?m)^(non)?realizable$", data)]
    with open(os.path.join(HERE, "certificates.v"), "rb") as file:
        general = file.read()
    with tempfile.TemporaryDirectory() as folder:
        good, output, message = compiled(folder, "shipped.v",
                                         run(["claim-to-coq"], b"".join(data for _, data in proving))[1])
        expect("the theorems of the shipped claims: %s" % message, good, True)
        expect("the axioms of these theorems", re.findall(r"(?m)^\w+\.\w+", output.decode()), AXIOMS)
        expect("the general part", compiled(folder, "certificates.v", general)[0], True)
        for name, data in proving:
            for _ in range(2):
                text, answer = changed_block(data, chance)
                while answer.startswith(b"valid"):
                    text, answer = changed_block(data, chance)
                good, _, message = compiled(folder, "changed.v", theorems([text], general))
                expect("the theorem of a changed claim, %r" % text.decode(), (good, "The term \"eq_refl\"" in message),
                       (False, True))
        many = [changed_block(data, chance) for _, data in proving for _ in range(10)]
        text = theorems([text for text, _ in many], general).decode()
        text = re.sub(r"Theorem no_real_vectors .*\nProof.*",
                      "Eval vm_compute in is_certificate chirotope certificate.",
                      text[:text.index("Definition theorems")])
        text = re.sub(r"Theorem these_vectors : length vectors = (\d+) .*\nProof.*",
                      r"Eval vm_compute in (length vectors =? \1) && are_signs_of vectors chirotope.", text)
        _, output, message = compiled(folder, "many.v", text.encode())
        found = re.findall(rb"= (true|false)", output)
        expect("as many answers of Coq: %s" % message, len(found), len(many))
        for (text, answer), computed in zip(many, found):
            expect("what Coq computes of %r" % text.decode(), computed == b"true", answer.startswith(b"valid"))


def claims_of_file(path):
    with (gzip.open if path.endswith(".gz") else open)(path, "rb") as file:
        return [piece for piece in pieces(file, 2) if piece.strip()]


def refused_claim(data, chance):
    """A claim with one number of its block changed, which `om check` refuses."""
    while True:
        text, answer = changed_block(data, chance)
        if answer.startswith(b"refused"):
            return text


def by_coq(path):
    """The theorems of the claims of a file, and of these claims with a number changed. `Fail Qed` lets Coq go on
    where it refuses a proof, and stops it where it accepts one. So it has to stop at the last one, of a claim that
    isn't changed."""
    claims, chance = claims_of_file(path), random.Random(60)
    changed = [refused_claim(data, chance) for data in claims]
    both = claims, changed + claims[-1:]
    text, others = (run(["claim-to-coq"], b"".join(each))[1].decode() for each in both)
    with open(os.path.join(HERE, "certificates.v")) as file:
        general = len(file.read())
    proof = re.compile("(?m)^(Proof.*vm_cast_no_check.*) Qed[.]$")
    others, count = proof.subn(r"\1 Fail Qed. Abort.", others[general:].partition("\nDefinition theorems")[0])
    with tempfile.TemporaryDirectory() as folder:
        good, output, seconds, memory = measured(folder, "claims.v", text.encode())
        axioms = re.findall(r"(?m)^\w+\.\w+", output)
        expect("the theorems of %s: %.2000s" % (path, output), (good, axioms), (True, AXIOMS))
        others = text[:general] + others
        last = 'line %d,' % (others[:others.rindex("Fail Qed")].count("\n") + 1)
        stopped, said, *_ = measured(folder, "others.v", others.encode())
        found = (count, stopped, "has not failed" in said, last in said)
        wanted = len(claims) + 1, False, True, True
        expect("the theorems of %s with a number changed: %.2000s" % (path, said), found, wanted)
    print("%s: %d theorems, %.1f seconds of a processor, %.0f MB; axioms: %s; %d with a number changed" % (
        path, len(claims), seconds, memory, " and ".join(axioms), len(changed)), flush=True)


def main():
    subprocess.run(["./om", "accept"], cwd=TOP, stdin=subprocess.DEVNULL, stdout=subprocess.DEVNULL)
    paths, has_coq = sys.argv[2:] if sys.argv[1:2] == ["--coq"] else [], shutil.which("coqc")
    if not paths:
        claims = list(shipped())
        look_at_referee(claims)
        look_at_rows()
        look_at_brackets(claims)
        look_at_points(claims)
        look_at_refusals()
        if has_coq:
            look_at_coq(claims)
    if not has_coq:
        print("Coq isn't installed: the theorems of the claims are not checked")
    for path in paths if has_coq else []:
        by_coq(path)
    print("claims: %d passed, %d failed" % (TALLY[True], TALLY[False]))
    return 1 if TALLY[False] or not TALLY[True] else 0


if __name__ == "__main__":
    sys.exit(main())
