#!/usr/bin/env python3
"""bench/streams.py [COUNT [SEED]]

Compares the built program `om_each` with a run of `om` for each piece (neighbours/om.py), on COUNT random streams
(10,000 without the word) of good and bad documents and claims, comments, blank lines and lines that break off. Each
stream is given whole, and then byte by byte: each byte is read before the next one is written. The program prints the
streams that differ, and last 'streams: N streams of M pieces, K failed'; the exit code is 1 if one failed.
bench/memory.py tries streams without memory.
"""
import fcntl
import io
import os
import random
import subprocess
import sys
import termios
import time

import commands

TOP = os.path.dirname(os.path.dirname(os.path.abspath(__file__)))
sys.path.insert(0, os.path.join(TOP, "neighbours"))
from om import pieces
ONE, EACH = (os.path.join(TOP, "crates", name, "out", name) for name in ("om", "om_each"))
DOCUMENTS = [
    b"chirotope 3 4\n++++\n", b"chirotope 3 4\n0000\n", b"chirotope 2 4\n+-++++\n", b"chirotope 2 4\n0+0+00\n",
    b"chirotope 3 4\n+++\n",
    b"chirotope 16 16\n+\n", b"chirotope 21 20\n+\n", b"circuits 4\n-+-+\n+-+-\n", b"circuits 2\n+-\n",
    b"cocircuits 1\n", b"covectors 1\n0\n+\n-\n",
    b"covectors 2\n00\n+0\n-0\n0+\n0-\n", b"wiring 3\n1-2 2-3 1-2\n", b"wiring 3\n1-3\n",
    b"points 3\n1 0 0\n0 1 0\n0 0 1\n", b"points 3\n1 0 0\n2 0 0\n0 1 0\n",
]
BLOCKS = [
    b"realizable\nvector 1 0 0\nvector 0 1 0\nvector 0 0 1\nvector 1 -1 1\n", b"realizable\n",
    b"undecided\nweight 1 2 3 1\nexhausted\n",
    b"nonrealizable\nlt 1 2 3 4 5 1 2 1\n", b"limit\npivots 1\nbasis 1\nexhausted\n", b"perhaps\n",
]
LINES = [b"", b" \t\r", b"# a remark", b"\t# end", b"end", b" end\t# all", b"end end", b"ends", b"om", b"om 2",
         b" om # 1", b"omen", b"om 1 1", b"x om", b"+-", b"\x00", b"en"]
COMMANDS = commands.that_read()


def stream(chance):
    """A random stream."""
    parts = []
    for _ in range(chance.choice((0, 1, 2, 3, 5, 8))):
        if chance.random() < 0.6:
            ends = (b"end\n", b"end\n", b" end # last\n", b"")
            parts.append(chance.choice((b"om 1\n", b"om 1\n", b"om 1 # first\n\n", b"")) + chance.choice(DOCUMENTS) +
                         chance.choice(ends))
            if chance.random() < 0.4:
                parts.append(chance.choice(BLOCKS) + chance.choice(ends))
        else:
            parts.append(chance.choice(LINES) + b"\n")
    data = b"".join(parts)
    cut = chance.random()
    return data[:-1] if cut < 0.3 else data[:chance.randrange(len(data) + 1)] if cut < 0.5 else data


def byte_by_byte(words, data):
    """The exit code and the output of a run that reads each byte before the next one is written."""
    reader, writer = os.pipe()
    with subprocess.Popen([EACH] + words, stdin=reader, stdout=subprocess.PIPE, stderr=subprocess.STDOUT) as ran:
        until = time.monotonic() + 60
        for place in range(len(data)):
            os.write(writer, data[place:place + 1])
            while int.from_bytes(fcntl.ioctl(reader, termios.FIONREAD, bytes(4)), sys.byteorder):
                os.sched_yield()
                if time.monotonic() > until:
                    sys.exit("streams: a byte isn't read within a minute")
        os.close(writer)
        output = ran.stdout.read()
    os.close(reader)
    return ran.returncode, output


def compare(count, seed):
    """How many pieces so many streams have, and how many of these streams differ."""
    chance, answers, cut, failed = random.Random(seed), {}, 0, 0
    for _ in range(count):
        words, data = chance.choice(COMMANDS), stream(chance)
        wanted = (0, b"")
        for piece in pieces(io.BytesIO(data), 2 if words == ["check"] else 1):
            cut += 1
            key = (" ".join(words), piece)
            if key not in answers:
                ran = subprocess.run([ONE] + words, input=piece, stdout=subprocess.PIPE, stderr=subprocess.STDOUT,
                                     timeout=60)
                answers[key] = (ran.returncode, ran.stdout)
            wanted = (max(wanted[0], answers[key][0]), wanted[1] + answers[key][1])
        ran = subprocess.run([EACH] + words, input=data, stdout=subprocess.PIPE, stderr=subprocess.STDOUT, timeout=60)
        for found in ((ran.returncode, ran.stdout), byte_by_byte(words, data)):
            if found != wanted:
                failed += 1
                print("failed: %s on %r: %r, not %r" % (" ".join(words), data, found, wanted))
    return cut, failed


def main():
    if len(sys.argv) > 3 or not all(word.isdecimal() for word in sys.argv[1:]):
        sys.exit("streams: usage: bench/streams.py [COUNT [SEED]]")
    for program in (ONE, EACH):
        if not os.path.exists(program):
            sys.exit("streams: %s isn't built" % program)
    count, seed = (int(word) for word in (sys.argv[1:] + ["10000", "1"][len(sys.argv) - 1:]))
    cut, failed = compare(count, seed)
    print("streams: %d streams of %d pieces, %d failed" % (count, cut, failed))
    return 1 if failed or not cut else 0


if __name__ == "__main__":
    sys.exit(main())
