#!/usr/bin/env python3
"""neighbours/check_hostile.py

Gives each filter of this folder and of catalogue/ inputs that nobody means, and streams that don't work. Of an input
that holds some whole good ones and then something else, a filter may write the results of the whole ones, each of them
whole, and nothing else. It ends with 0 only where there was nothing else. In all other cases it has a message behind
its name and no traceback.

The inputs go to the filters of this folder in this process, and to those of catalogue/ in processes of their own, as do
all streams. Programs that aren't installed or built are said, and left out. The last line is 'hostile: N passed, M
failed', and the exit code is 1 where one failed.
"""
import concurrent.futures
import fcntl
import glob
import gzip
import importlib.machinery
import importlib.util
import io
import os
import re
import shutil
import struct
import subprocess
import sys
import tempfile
import termios
import time
import types

HERE = os.path.dirname(os.path.abspath(__file__))
TOP = os.path.dirname(HERE)
sys.path.insert(0, HERE)

from filters import Refused, WrongWords  # noqa: E402

TALLY = {True: 0, False: 0}
UNIFORM = b"om 1\nchirotope 3 4\n++++\nend\n"
POINTS = b"om 1\npoints 3\n0 0 1\n1 0 1\n0 1 1\nend\n"
VECTORS = UNIFORM + b"realizable\nvector 1 0 0\nvector 0 1 0\nvector 0 0 1\nvector 1 -1 1\nend\n"
PLANE = VECTORS.replace(b"-1", b"2").replace(b"++++", b"++-+")
BRACKETS = b"[134][179] < [137][149]\n"
with open(os.path.join(TOP, "examples", "non-pappus-claim.om"), "rb") as claim:
    ENTRIES = b"".join(line for line in claim if not line.startswith(b"#"))

with open(os.path.join(TOP, "catalogue", "irrational_9.surd"), "rb") as surd:
    SURD = b"".join(line for line in surd if not line.startswith(b"#"))

# each filter with its words and a good input
FILTERS = [
    ("om-to-topcom", UNIFORM), ("om-points-to-topcom", POINTS), ("om-to-lists", UNIFORM),
    ("om-to-order-types 8", POINTS), ("om-to-graph6", b"om 1\ncircuits 3\n+-+\n-+-\nend\n"),
    ("reverse-order 3 4 --back", UNIFORM), ("reverse-order 3 4", b"++++\n"),
    ("order-types-to-om 3 8", b"abcdef"),
    ("lists-to-om circuits", b"[[1,-1],[-1,1]]\n"), ("lists-to-om chirotope 3 4", b"[1,1,1,1]\n"),
    ("lists-to-om points", b"[[0,0,1],[1,0,1]]\n"), ("topcom-to-om", b"4,3:\n++++\n[[0,1,2,3]]\n"),
    ("topcom-points-to-om", b"[[0,0,1],[1,0,1]]\n"), ("topcom-sets-to-om circuits 3", b"C[0] := [{0,2},{1}];\n"),
    ("topcom-sets-to-om cocircuits 3", b"3,2:\n{\n[{1},{2}]\n}\n"),
    ("extensions-to-om examples/uniform-3-4.om -", b"om 1\nextensions 4\n++++++\nend\n"),
    ("restore-names examples/uniform-3-4-named.om", b"mutations 1\n1,2,3\nend\n"),
    ("claim-to-coq", VECTORS), ("claim-to-coq", ENTRIES), ("surd-to-coq", SURD),
    ("find-surd", SURD[: SURD.index(b"surd")]),
    ("claim-to-points", PLANE), ("claim-to-brackets", ENTRIES),
    ("brackets-to-claim examples/non-pappus.om", BRACKETS),
]
CATALOGUE = [
    ("relabel 2 -1 4 3", UNIFORM), ("relabel 2 -1 4 3", VECTORS), ("relabel 9 8 7 6 5 4 3 2 1", ENTRIES),
    ("to-graph6", UNIFORM), ("classes", UNIFORM), ("grow", UNIFORM), ("realize", UNIFORM), ("climb", UNIFORM),
    ("tally", VECTORS), ("least", UNIFORM),
]
REFEREE = [("referee.py", VECTORS), ("referee.py", ENTRIES)]
NEEDS = {"classes": ["nauty"], "grow": ["nauty", "om_each"], "realize": ["om_each"], "tally": ["om_each"],
         "least": ["om_classes"]}

# words, an input, the exit code and what its message says: files that aren't what they should be; TWO has two documents
FILES = [
    ("brackets-to-claim TWO", BRACKETS, 1, "one is wanted"),
    ("brackets-to-claim /dev/null", BRACKETS, 1, "missing"),
    ("brackets-to-claim examples", BRACKETS, 4, "Is a directory"),
    ("claim-to-brackets", ENTRIES + ENTRIES, 1, "one claim is wanted"),
    ("extensions-to-om --first TWO -", b"om 1\nextensions 4\nend\n", 1, "document 2 has no listing"),
    ("extensions-to-om /dev/null -", b"om 1\nextensions 4\nend\n", 1, "missing"),
    ("extensions-to-om - examples", UNIFORM, 4, "Is a directory"),
    ("extensions-to-om - /dev/null", UNIFORM, 1, "document 1 has no listing"),
    ("restore-names TWO", b"accepted\n", 1, "no names"),
    ("restore-names /dev/null", b"accepted\n", 1, "missing"),
    ("restore-names examples", b"accepted\n", 4, "Is a directory"),
    ("restore-names examples/non-pappus-claim.om", b"accepted\n", 1, "no names"),
]

# claims that `check` refuses, which relabel isn't to make into others, nor claim-to-brackets into inequalities
UNLAWFUL = [UNIFORM + b"nonrealizable\nlt " + entry + b"\nend\n" for entry in (
    b"1 2 4 3 5 1 2 1", b"1 2 2 3 4 1 2 1", b"1 2 3 4 2 0 2 1", b"1 2 3 4 4 -1 2 1", b"1 2 3 4 1 1 4 1",
    b"+1 2 3 4 1 1 2 1", b"1 2 3 4 1 1 2 0", b"1 2 3 4 1 1 2 1_0")]
UNLAWFUL += [VECTORS.replace(b"vector 1 0", b"point 1 0"), VECTORS.replace(b"1 -1 1", b"1 -1 01"),
             VECTORS.replace(b"1 -1 1", "1 -1 \u0661".encode())]


def expect(what, found, wanted):
    """Counts a run, which has to come to what is wanted."""
    TALLY[found == wanted] += 1
    if found != wanted:
        print("failed: %s\n--- wanted %.600r\n--- found  %.600r" % (what, wanted, found))


def hostile(good):
    """Inputs, each with a name and with how many good ones stand in it before anything else."""
    numbers = [found.span() for found in re.finditer(rb"[0-9]+", good)]
    yield "two good ones", 2, good + good
    # what is good here may be taken or refused; behind it stands something else, or its form is another one
    for what, data in (
            ("a word behind the last line", good + b"junk\n"),
            ("a good one that breaks off behind a good one", good + good[:-2]),
            ("half a good one behind a good one", good + good[:len(good) // 2]),
            ("two good ones without a line end between them", good.rstrip(b"\n") + good),
            ("no line end at the end", good.rstrip(b"\n")),
            ("lines that end in CR and LF", good.replace(b"\n", b"\r\n")),
            ("lines that end in CR", good.replace(b"\n", b"\r")),
            ("empty lines", good.replace(b"\n", b"\n\n")),
            ("vertical tabs", good.replace(b" ", b"\x0b")),
            ("form feeds", good.replace(b"\n", b"\x0c\n")),
            ("numbers with a plus", re.sub(rb"(?<![-+\w])1\b", b"+1", good)),
            ("the message of a shell behind", good + b"Killed\n"),
            ("a zero byte behind", good + b"\0"),
            ("a byte 26 behind", good + b"\x1a"),
            ("a byte order mark behind", good + b"\xef\xbb\xbf" + good)):
        yield what, 1, data
    none = [
        ("nothing", b""),
        ("a line end", b"\n"),
        ("a byte order mark", b"\xef\xbb\xbf" + good),
        ("UTF-16", good.decode("latin-1").encode("utf-16")),
        ("gzip", gzip.compress(good, mtime=0)),
        ("a zero byte in front", b"\0" + good),
        ("a word in front", b"junk\n" + good),
        ("bytes 255", b"\xff" * 60),
        ("a page", b"<html>404</html>\n"),
        ("a line of 3 MB", b"a" * 3000000),
        ("3 MB of zero bytes", bytes(3000000)),
        ("3 MB of digits", b"1" * 3000000),
        ("brackets", b"[" * 100000),
        ("blanks of Unicode", good.replace(b" ", b"\xc2\xa0")),
        ("digits of Unicode", good.replace(b"1", "\u0661".encode())),
        ("signs of Unicode", good.replace(b"-", "\u2212".encode())),
        ("wide signs", good.replace(b"+", "\uff0b".encode())),
        ("numbers of Python", re.sub(rb"\b1\b", b"1_0", good)),
        ("hexadecimal numbers", good.replace(b"1", b"0x1")),
        ("fractions", re.sub(rb"\b1\b", b"1.0", good)),
        ("capitals", good.upper()),
        ("2^63", re.sub(rb"\b1\b", b"9223372036854775808", good))]
    for first, last in numbers[:1] + numbers[len(numbers) // 2:][:1] + numbers[-1:]:
        none.append(("10,000 digits from byte %d on" % first, good[:first] + b"7" * 10000 + good[last:]))
    for what, data in none:
        if data != good:
            yield what, 0, data


# ---- In this process

def module_of(name):
    loader = importlib.machinery.SourceFileLoader("filter", os.path.join(HERE, name))
    module = importlib.util.module_from_spec(importlib.util.spec_from_loader("filter", loader))
    loader.exec_module(module)
    return module


def ended_here(module, words, data):
    """The code and the output of a filter for an input. An error that is no refusal goes on to the caller."""
    sys.stdin, output, code = types.SimpleNamespace(buffer=io.BytesIO(data)), b"", 0
    try:
        for text in module.answers(words):
            output += text if isinstance(text, bytes) else text.encode()
    except (Refused, WrongWords):
        code = 1
    except SystemExit as left:
        code = left.code
    return code, output


def judge(what, ended, count, results):
    """Compares what a filter came to, a code and an output, with the results of 1 and 2 good inputs."""
    code, output = ended
    if code == 0:
        expect(what, output, results.get(count, "a refusal"))
    else:
        whole = [b""] + [results[k] for k in range(1, count + 1)]
        expect("%s, code %s" % (what, code), output in whole or output, True)


def leave(code, reason):
    raise SystemExit(code)


def look_at_inputs():
    for line, good in FILTERS:
        name, *words = line.split()
        module = module_of(name)
        for call, instead in ("end", leave), ("say", str):  # claim-to-points ends and speaks by itself
            if hasattr(module, call):
                setattr(module, call, instead)
        results = {1: ended_here(module, words, good)[1], 2: ended_here(module, words, good + good)[1]}
        expect("%s: a good input" % line, len(results[1]) > 0, True)
        # of records any bytes are one
        of_records = name == "order-types-to-om"
        for what, count, data in [("a record and a half", 1, good + b"abc")] if of_records else hostile(good):
            try:
                judge("%s: %s" % (line, what), ended_here(module, words, data), count, results)
            except Exception as error:  # any error is a fault of the filter
                expect("%s: %s" % (line, what), repr(error), "a result or a refusal")


# ---- In processes

def run(command, data):
    """The exit code, the output and the message of a command, of bash where it is a text."""
    command = ["bash", "-c", command] if isinstance(command, str) else command
    ended = subprocess.run(command, input=data, capture_output=True, cwd=TOP, timeout=300)
    return ended.returncode, ended.stdout, ended.stderr


def says(name, message):
    """True where a message is that of a filter, and else the message."""
    return message.startswith(name.encode() + b": ") and b"Traceback" not in message or message


def path_of(line):
    folder = "catalogue" if line in [words for words, _ in CATALOGUE] else "neighbours"
    return "%s/%s" % (folder, line)


def pausing(line, good):
    """What a filter does with two good inputs where the stream doesn't wait and pauses between them."""
    reader, writer = os.pipe()
    os.set_blocking(reader, False)
    pipe = subprocess.PIPE
    with subprocess.Popen(path_of(line).split(), stdin=reader, stdout=pipe, stderr=pipe, cwd=TOP) as process:
        os.write(writer, good)
        while process.poll() is None and struct.unpack("i", fcntl.ioctl(reader, termios.FIONREAD, bytes(4))) != (0,):
            time.sleep(0.01)
        time.sleep(0.1)
        os.write(writer, good)
        os.close(writer)
        os.close(reader)
        output, _ = process.communicate(timeout=300)
    return process.returncode, output


def without_reader(line, good):
    """The exit code of a filter whose output nobody reads, and whether it has a traceback."""
    reader, writer = os.pipe()
    os.close(reader)
    command = path_of(line).split()
    ended = subprocess.run(command, input=good, stdout=writer, stderr=subprocess.PIPE, cwd=TOP, timeout=300)
    os.close(writer)
    return ended.returncode, b"Traceback" in ended.stderr


def look_at_streams(line, good):
    """A filter with streams that don't work: what is looked at, what is found and what is wanted."""
    name, path = line.split()[0], path_of(line)
    reading = 5 if path.startswith("catalogue") or name == "referee.py" else 4
    for what, streams, wanted in (
            ("closed input", "<&-", reading), ("input that can't be read", "0>/dev/null", reading),
            ("closed output", ">&-", 5), ("a full disk", ">/dev/full", 5),
            ("output that can't be written", "1</dev/null", 5)):
        code, output, message = run("%s %s" % (path, streams), good)
        yield "%s: %s" % (line, what), (code, output, says(name, message)), (wanted, b"", True)
    # Python itself refuses a folder, with a message of its own
    code, output, message = run("%s < ." % path, b"")
    yield "%s: a folder as input" % line, (code > 0, output, b"Traceback" in message), (True, b"", False)
    code, output, _ = run("%s 2>&-" % path, b"\0")
    # the referee's refusal is an answer
    refusal = b"refused line 1 version\n" if name == "referee.py" else b""
    yield "%s: a refusal and a closed place for messages" % line, (code > 0, output), (True, refusal)
    yield "%s: a reader that is gone" % line, without_reader(line, good), (5, False)
    yield "%s: a stream that doesn't wait" % line, pausing(line, good), run(path.split(), good + good)[:2]


def look_at_program(line, good):
    """Hostile inputs, each in a process. Where filters read by the same code, one of them gets all."""
    name, path, found = line.split()[0], path_of(line).split(), []
    results = {1: run(path, good)[1], 2: run(path, good + good)[1]}
    for what, count, data in list(hostile(good))[::1 if name in ("relabel", "tally", "referee.py") else 5]:
        code, output, message = run(path, data)
        said = code == 0 or name == "referee.py" and code == 1 or says(name, message)
        found.append(("%s: %s, its message" % (line, what), said, True))
        if code == 0:
            found.append(("%s: %s" % (line, what), output, results.get(count, b"a refusal")))
        elif name not in ("tally", "referee.py"):  # these say of each claim whether it is refused
            whole = [b""] + [results[k] for k in range(1, count + 1)]
            found.append(("%s: %s, code %s" % (line, what, code), output in whole or output, True))
    return found


def programs_here():
    """The programs of catalogue/ that can be run here."""
    has = {"nauty": shutil.which("labelg") or shutil.which("nauty-labelg")}
    for program in "om_each", "om_classes":
        has[program] = shutil.which(os.environ.get(program.upper()) or
                                    os.path.join(TOP, "crates", program, "out", program))
    for line, good in CATALOGUE:
        missing = [tool for tool in NEEDS.get(line.split()[0], []) if not has[tool]]
        if missing:
            print("%s isn't there: %s isn't looked at" % (" and ".join(missing), line))
        else:
            yield line, good


def are_all_there():
    """The filters that are looked at are those of the folders."""
    named = {line.split()[0] for line, _ in FILTERS + CATALOGUE + REFEREE}
    paths = [path for folder in ("neighbours", "catalogue") for path in glob.glob(os.path.join(TOP, folder, "*"))]
    programs = {os.path.basename(path) for path in paths if os.path.isfile(path) and os.access(path, os.X_OK)}
    # classify runs the others, and array-job is what it submits
    expect("the filters", named, {name for name in programs if not name.startswith("check")} - {"array-job", "classify"})


def main():
    os.chdir(TOP)
    are_all_there()
    standard_input = sys.stdin
    look_at_inputs()
    sys.stdin = standard_input
    catalogue = list(programs_here())
    of_streams = {line.split()[0]: (line, good) for line, good in FILTERS + catalogue + REFEREE}
    with concurrent.futures.ThreadPoolExecutor(4) as pool:
        jobs = [pool.submit(lambda each=each: list(look_at_streams(*each))) for each in of_streams.values()]
        jobs += [pool.submit(look_at_program, *each) for each in catalogue + REFEREE]
        for job in jobs:
            for what, found, wanted in job.result():
                expect(what, found, wanted)
    with tempfile.NamedTemporaryFile() as file:
        file.write(UNIFORM + UNIFORM)
        file.flush()
        for line, data, code, said in FILES:
            ended = run(["neighbours/" + line.split()[0]] + line.replace("TWO", file.name).split()[1:], data)
            found = ended[0], ended[1], said.encode() in ended[2], b"Traceback" in ended[2]
            expect("%s on %.40r" % (line, data), found, (code, b"", True, False))
    for data in UNLAWFUL:
        code, output, message = run("catalogue/relabel 2 -1 4 3", data)
        expect("relabel of %r" % data, (code, output, says("relabel", message)), (1, b"", True))
        if b"nonrealizable" in data:
            code, output, message = run("neighbours/claim-to-brackets", data)
            expect("brackets of %r" % data, (code, output, says("claim-to-brackets", message)), (1, b"", True))
    print("hostile: %d passed, %d failed" % (TALLY[True], TALLY[False]))
    return 1 if TALLY[False] or not TALLY[True] else 0


if __name__ == "__main__":
    sys.exit(main())
