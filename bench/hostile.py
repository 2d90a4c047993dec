#!/usr/bin/env python3
"""bench/hostile.py [OM [OM_EACH]]

Runs the built programs in situations where something goes wrong: an input or an output that is closed, a full device,
a reader that goes away, an input that is cut off or too long, random bytes, shipped examples with bytes changed,
little stack and little memory. Each run has to end with a documented exit code that fits what it wrote, with nothing
on standard error and without a signal. The pieces of a stream have to be answered as om answers each alone. If a
stream ends early, what was written has to be the first of these answers. The program prints a line for each kind of
case, and last 'hostile: N runs, M failed'; the exit code is 1 if one failed.
"""
import io
import math
import os
import random
import resource
import subprocess
import sys

import commands

TOP = os.path.dirname(os.path.dirname(os.path.abspath(__file__)))
sys.path.insert(0, os.path.join(TOP, "neighbours"))
from om import cut
PROGRAM = os.path.abspath(sys.argv[1]) if len(sys.argv) > 1 else os.path.join(TOP, "crates", "om", "out", "om")
EACH = os.path.abspath(sys.argv[2]) if len(sys.argv) > 2 else os.path.join(TOP, "crates", "om_each", "out", "om_each")
LIMIT = 300  # seconds for a run; a busy machine takes a minute for the longest streams
UNIFORM = b"om 1\nchirotope 3 4\n++++\nend\n"
LARGE = b"om 1\nchirotope 8 16\n" + b"+" * 12870 + b"\nend\n"
RANK_3 = b"om 1\nchirotope 3 16\n" + b"+" * 560 + b"\nend\n"
# the largest documents on 19 and 20 elements, and a list whose chirotope would be too wide
MOST = [b"om 1\nchirotope %d %d\n" % (rank, elements) + b"+" * math.comb(elements, rank) + b"\nend\n"
        for rank, elements in ((3, 20), (4, 20), (16, 20), (14, 19))]
WIDE = b"om 2\ncircuits 20\nhalf\n" + b"".join(b"0" * (2 * i) + b"+-" + b"0" * (18 - 2 * i) + b"\n"
                                               for i in range(10)) + b"end\n"
# two bases alone, which have no element in common
NO_EXCHANGE = b"om 1\nchirotope 8 16\n+" + b"0" * 12868 + b"+\nend\n"
# one sign of the uniform chirotope turned, that of a set whose sign can't be turned alone
NO_RELATION = b"om 1\nchirotope 8 16\n" + b"+" * 6000 + b"-" + b"+" * 6869 + b"\nend\n"
COMMANDS = commands.that_read() + [["convert", kind] for kind in ("chirotope", "cocircuits", "covectors")]


def run(words, data=b"", before=None, program=PROGRAM, **streams):
    """The exit code, the standard output and the standard error of a run."""
    given = {"stdout": subprocess.PIPE, "stderr": subprocess.PIPE}
    if "stdin" not in streams:
        given["input"] = data
    given.update(streams)
    try:
        ended = subprocess.run([program] + words, preexec_fn=before, timeout=LIMIT, **given)
    except subprocess.TimeoutExpired:
        return "no end", b"", b""
    return ended.returncode, ended.stdout or b"", ended.stderr or b""


class Tally:
    """The runs so far, and those that failed."""

    def __init__(self):
        self.runs = self.failed = 0

    def expect(self, what, ended, wanted):
        """Counts a run, which has to end as wanted."""
        self.runs += 1
        if not wanted(*ended):
            self.failed += 1
            print("failed: %s: exit code %s, output %r, errors %r" % (what, ended[0], ended[1][:80], ended[2][:200]))


def exactly(code, text=None):
    """The run ends with this exit code and, where a text is given, has written it; and nothing to standard error."""
    return lambda ended, out, err: ended == code and err == b"" and (text is None or out == text)


def documented(ended, out, err):
    """The exit code is one of those that an input can have, and fits the text."""
    refused, usage = out.startswith(b"refused "), out.startswith(b"usage ")
    limit = out.startswith(b"limit ") or b"\nlimit\n" in out
    if err:
        return False
    return {0: out.endswith(b"\n") and not refused and not usage, 1: refused and out.count(b"\n") == 1, 2: usage,
            3: limit}.get(ended, False)


def closed_streams(tally):
    tally.expect("closed input", run(["accept"], stdin=subprocess.DEVNULL, before=lambda: os.close(0)), exactly(4, b""))
    tally.expect("a folder as input", run(["accept"], stdin=os.open(TOP, os.O_RDONLY)), exactly(4, b""))
    tally.expect("closed output", run(["accept"], UNIFORM, before=lambda: os.close(1)), exactly(5))
    with open("/dev/full", "wb") as full:
        tally.expect("full device", run(["accept"], UNIFORM, stdout=full), exactly(5))
    reading, writing = os.pipe()
    os.close(reading)
    tally.expect("a reader that has gone", run(["convert", "covectors"], RANK_3, stdout=writing), exactly(5))
    os.close(writing)
    for word in (b"\xff", b"accept\xc0"):
        tally.expect("a word that isn't UTF-8", run([os.fsdecode(word)], UNIFORM), exactly(7))


def long_inputs(tally):
    head = b"om 1\nchirotope 8 16\n"
    comments = b"# " + b"x" * 97 + b"\n"
    cut = (head + comments * 10500)[:1_000_000]
    lines = len(cut.splitlines())
    tally.expect("a million bytes that end in the middle", run(["accept"], cut),
                 exactly(1, b"refused line %d missing\n" % (lines + 1)))
    tally.expect("too long by a byte", run(["accept"], UNIFORM + b"#" * (1_048_577 - len(UNIFORM))),
                 exactly(1, b"refused long\n"))
    tally.expect("as long as may be", run(["accept"], UNIFORM + b"#" * (1_048_576 - len(UNIFORM))),
                 exactly(0, b"accepted\n"))
    tally.expect("ten million bytes", run(["accept"], b"\n" * 10_000_000), exactly(1, b"refused long\n"))
    for k in range(len(UNIFORM)):
        tally.expect("cut after %d bytes" % k, run(["accept"], UNIFORM[:k]),
                     lambda code, out, err: code in ((0, 1) if k >= len(UNIFORM) - 1 else (1,)) and err == b"")


def noise(tally, random_):
    for _ in range(200):
        data = random_.randbytes(random_.choice([1, 7, 100, 5000, 300_000]))
        tally.expect("noise", run(random_.choice(COMMANDS), data), lambda code, out, err: code == 1 and err == b""
                     and out.startswith(b"refused line "))


def change_bytes(data, random_, kinds):
    """Changes some bytes in one of so many ways: a letter of documents, bytes left out, bytes twice, any byte. One
    stays at least."""
    at = random_.randrange(len(data))
    change = random_.randrange(kinds)
    if change == 0:
        data[at] = random_.choice(b"+-0 \n123456789#")
    elif change == 1:
        del data[at:at + random_.choice([1, 1, 5, 40])]
    elif change == 2:
        data[at:at] = bytes(data[at:at + random_.choice([1, 10, 60])])
    else:
        data[at] = random_.randrange(256)
    if not data:
        data.extend(b"\n")


def changed_examples(tally, random_):
    shipped = examples()
    for _ in range(1500):
        data = bytearray(random_.choice(shipped))
        for _ in range(random_.choice([1, 1, 2, 5])):
            change_bytes(data, random_, 4)
        words = random_.choice(COMMANDS)
        tally.expect("%s of a changed example" % words, run(words, bytes(data)), documented)


def little_stack(tally):
    def small():
        resource.setrlimit(resource.RLIMIT_STACK, (600 * 1024, 600 * 1024))
    for words in commands.on_documents():
        for data in LARGE, RANK_3, NO_EXCHANGE, NO_RELATION:
            wanted = run(words, data)
            tally.expect("%s with a stack of 600 KB" % words, run(words, data, before=small),
                         lambda *ended: ended == wanted and ended[0] in (0, 1, 3))
    for data in MOST:
        for words, code in (["accept"], 0), (["threeterm"], 0), (["dual"], 0), (["lexext", "+1"], None), (["hull"], 0):
            tally.expect("%s of a large document with a stack of 600 KB" % words, run(words, data, before=small),
                         documented if code is None else exactly(code))
    for words, code in (["accept"], 0), (["dual"], 0), (["convert", "chirotope"], 3), (["decide"], 1), (["hull"], 3):
        tally.expect("%s of a wide list with a stack of 600 KB" % words, run(words, WIDE, before=small), exactly(code))
    for words, code in (["wiring"], 0), (["mutations"], 0), (["convert", "covectors"], 0), (["extend"], 1):
        tally.expect("%s of rank 3 on 20 elements with a stack of 600 KB" % words, run(words, MOST[0], before=small),
                     exactly(code))
    with open(os.path.join(TOP, "examples", "non-pappus.om"), "rb") as file:
        tally.expect("decide with a stack of 600 KB", run(["decide"], file.read(), before=small), exactly(0))


def little_memory(tally):
    """With less and less room for memory a run is answered, or ends with 6 and nothing written; or the system can't
    start it."""
    ends = set()
    for kilobytes in range(2_000, 24_000, 500):
        def small():
            resource.setrlimit(resource.RLIMIT_AS, (kilobytes * 1024, kilobytes * 1024))
        code, out, err = run(["convert", "circuits"], LARGE[:20] + LARGE[20:], before=small)
        ends.add(code)
        tally.expect("%d KB of memory" % kilobytes, (code, out, err), lambda code, out, err: code == 3
                     or (code == 6 and out == b"" and err == b"") or (code not in (0, 1, 2, 4, 5) and out == b""))
    return ends


def examples():
    """The shipped examples."""
    folder = os.path.join(TOP, "examples")
    return [open(os.path.join(folder, name), "rb").read() for name in sorted(os.listdir(folder))
            if name.endswith(".om")]


def streams_that_break_off(tally, random_):
    """What stands before the break is answered, whether the input ends there or can't be read further."""
    stream = b"".join(b"# %d\n" % i + (UNIFORM if i % 3 else b"om 1\nchirotope 2 4\n+-++++\nend\n") for i in range(40))
    answers = [b"accepted\n" if i % 3 else b"refused relation 1,2,3 4\n" for i in range(40)]
    for _ in range(150):
        end = random_.randrange(len(stream))
        whole = [closed for _, closed in cut(io.BytesIO(stream[:end]))]
        wanted = b"".join(answers[:sum(whole)])
        ended = run(["accept"], stream[:end], program=EACH)
        tally.expect("a stream cut after %d bytes" % end, ended, lambda code, out, err: code in (0, 1) and err == b""
                     and out.startswith(wanted) and out.count(b"\n") == len(whole))
        # what no line feed ends isn't a line yet where reading fails
        lines = io.BytesIO(stream[:stream.rfind(b"\n", 0, end) + 1])
        wanted = b"".join(answers[:sum(closed for _, closed in cut(lines))])
        reading, writing = os.pipe()
        os.set_blocking(reading, False)
        os.write(writing, stream[:end])
        tally.expect("a stream that can't be read after %d bytes" % end, run(["accept"], stdin=reading, program=EACH),
                     exactly(4, wanted))
        os.close(reading)
        os.close(writing)


def streams_to_nowhere(tally):
    """A reader that goes away after some lines has got the first answers; a full device, closed streams."""
    many = UNIFORM * 20_000
    for lines in 0, 1, 100, 5000:
        with subprocess.Popen([EACH, "accept"], stdin=subprocess.PIPE, stdout=subprocess.PIPE,
                              stderr=subprocess.PIPE) as talk:
            got = []
            for _ in range(lines):
                talk.stdin.write(UNIFORM)
                talk.stdin.flush()
                got.append(talk.stdout.readline())
            talk.stdout.close()
            try:
                talk.stdin.write(many)
                talk.stdin.close()
            except BrokenPipeError:
                pass
            errors = talk.stderr.read()
            tally.expect("a reader that goes away after %d answers" % lines, (talk.wait(), b"".join(got), errors),
                         exactly(5, b"accepted\n" * lines))
            talk.stdin = None
    with open("/dev/full", "wb") as full:
        tally.expect("a stream to a full device", run(["accept"], many, stdout=full, program=EACH), exactly(5))
    tally.expect("a stream to a closed output", run(["accept"], many, before=lambda: os.close(1), program=EACH),
                 exactly(5))
    tally.expect("no stream", run(["accept"], stdin=subprocess.DEVNULL, before=lambda: os.close(0), program=EACH),
                 exactly(4, b""))
    tally.expect("a folder as a stream", run(["accept"], stdin=os.open(TOP, os.O_RDONLY), program=EACH),
                 exactly(4, b""))
    tally.expect("a word that isn't UTF-8 for a stream", run([os.fsdecode(b"accept\xff")], many, program=EACH),
                 exactly(7, b""))
    for words in [], ["acept"], ["make", "7"], ["accept", "x"]:
        reading, writing = os.pipe()
        os.write(writing, UNIFORM)
        tally.expect("%s of a stream" % words, run(words, stdin=reading, program=EACH),
                     exactly(2, b"usage %d\n" % (2 if words == ["accept", "x"] else 1)))
        tally.expect("what %s left unread" % words, (0, os.read(reading, 1000), b""), exactly(0, UNIFORM))
        os.close(reading)
        os.close(writing)


def long_streams(tally):
    """Lines and pieces of a hundred megabytes, with room for a tenth of them, and a hundred megabytes of short
    documents."""
    def small():
        resource.setrlimit(resource.RLIMIT_AS, (40 << 20, 40 << 20))
    hundred = 100_000_000
    for what, long, wanted in [
        ("a comment of a hundred megabytes", b"#" * hundred + b"\n" + UNIFORM, b"refused long\n"),
        ("a word of a hundred megabytes", b"x" * hundred + b"\n", b"refused long\n"),
        ("a line of a hundred megabytes that begins with om", b"om " * (hundred // 3) + b"\n", b"refused long\n"),
        ("a hundred megabytes of empty lines", b"\n" * hundred + UNIFORM, b"refused long\n"),
        ("a hundred megabytes of signs", b"om 1\nchirotope 8 16\n" + (b"+" * 63 + b"\n") * (hundred // 64) + b"end\n",
         b"refused long\n"),
        ("spaces before an end", b"om 1\nchirotope 3 4\n++++\n" + b" " * hundred + b"end\n", b"refused long\n"),
    ]:
        ended = run(["accept"], UNIFORM + long + UNIFORM, before=small, program=EACH)
        tally.expect(what, ended, exactly(1, b"accepted\n" + wanted + b"accepted\n"))
        tally.expect(what + " at the end", run(["accept"], UNIFORM + long, before=small, program=EACH),
                     exactly(1, b"accepted\n" + wanted))
    tally.expect("a comment of a hundred megabytes behind all",
                 run(["accept"], UNIFORM + b"#" * hundred, before=small, program=EACH), exactly(0, b"accepted\n"))
    count = 1_000_000
    ended = run(["accept"], UNIFORM * count, before=small, program=EACH)
    tally.expect("a million documents", (ended[0], b"%d" % ended[1].count(b"\n"), ended[2]), exactly(0, b"%d" % count))


def noisy_streams(tally, random_):
    """Bytes without sense: an answer for each piece."""
    for _ in range(100):
        parts = [random_.choice([random_.randbytes(random_.choice([1, 7, 100, 5000])), UNIFORM, b"\n", b"om 1\n",
                                 b"end\n", b"#", b" ", b"om"]) for _ in range(20)]
        data = b"".join(parts)
        count = len(list(cut(io.BytesIO(data))))
        tally.expect("noise in a stream", run(["accept"], data, program=EACH), lambda code, out, err: code in (0, 1)
                     and err == b"" and out.count(b"\n") == count)


def changed_streams(tally, random_):
    """Streams of changed examples: the answers of om to each piece, one after the other, and the greatest code."""
    shipped = examples()
    for _ in range(120):
        data = bytearray(b"".join(random_.choice(shipped) for _ in range(6)))
        for _ in range(random_.choice([0, 1, 3, 10])):
            change_bytes(data, random_, 3)
        words = random_.choice(COMMANDS)
        alone = [run(words, piece) for piece, _ in cut(io.BytesIO(data), 2 if words == ["check"] else 1)]
        ended = run(words, bytes(data), program=EACH)
        tally.expect("%s of a changed stream" % words, ended,
                     exactly(max((code for code, _, _ in alone), default=0), b"".join(out for _, out, _ in alone)))


def small_streams(tally):
    """With less and less room a stream is answered, or ends after whole answers: with 6, or by the system if the stack
    has no room. With little stack it is answered."""
    stream = (UNIFORM + LARGE) * 3
    answers = [run(["dual"], UNIFORM)[1], run(["dual"], LARGE)[1]] * 3
    firsts = [b"".join(answers[:count]) for count in range(len(answers) + 1)]
    for kilobytes in range(2_000, 24_000, 500):
        def small():
            resource.setrlimit(resource.RLIMIT_AS, (kilobytes * 1024, kilobytes * 1024))
        ended = run(["dual"], stream, before=small, program=EACH)

        def is_whole(code, out, err):
            if code == 0:
                return out == firsts[-1]
            return code not in (1, 2, 3, 4, 5) and out in firsts and (code != 6 or err == b"")
        tally.expect("a stream in %d KB of memory" % kilobytes, ended, is_whole)

    def little():
        resource.setrlimit(resource.RLIMIT_STACK, (600 * 1024, 600 * 1024))
    tally.expect("a stream with a stack of 600 KB", run(["dual"], stream, before=little, program=EACH),
                 exactly(0, firsts[-1]))


def main():
    for program, launcher in (PROGRAM, "om"), (EACH, "om-each"):
        if not os.path.exists(program):
            sys.exit("%s isn't built: ./%s accept < examples/uniform-3-4.om builds it" % (program, launcher))
    random_ = random.Random(7)
    tally = Tally()
    for name, cases in [
        ("streams that fail", lambda: closed_streams(tally)),
        ("inputs that are cut off or long", lambda: long_inputs(tally)),
        ("bytes without sense", lambda: noise(tally, random_)),
        ("changed examples", lambda: changed_examples(tally, random_)),
        ("little stack", lambda: little_stack(tally)), ("little memory", lambda: little_memory(tally)),
        ("streams that break off", lambda: streams_that_break_off(tally, random_)),
        ("streams to nowhere", lambda: streams_to_nowhere(tally)),
        ("long streams", lambda: long_streams(tally)), ("streams without sense", lambda: noisy_streams(tally, random_)),
        ("changed streams", lambda: changed_streams(tally, random_)),
        ("streams with little room", lambda: small_streams(tally)),
    ]:
        before = tally.runs
        cases()
        print("%-32s %5d runs" % (name, tally.runs - before))
    print("hostile: %d runs, %d failed" % (tally.runs, tally.failed))
    return 1 if tally.failed else 0


if __name__ == "__main__":
    sys.exit(main())
