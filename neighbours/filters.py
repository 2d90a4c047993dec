"""filters.py: how the filters of this folder read, refuse and end.

`run` writes the texts that a filter yields, each of them whole, and ends it as om ends: with 0; or with 1 where the
input is refused, 2 for wrong words, 4 where reading failed, 5 where writing failed. The programs of catalogue/ ask here
for their streams and their end, too. Python's standard library alone.
"""
import functools
import math
import os
import re
import signal
import sys

MAX_ELEMENTS, MAX_VALUES, MAX_MEMBERS, MAX_COORDINATE, MAX_LINE = 20, 12870, 4096, 2 ** 40, 2 ** 20
NUMBER, BLANKS = re.compile("0|-?[1-9][0-9]{0,18}"), " \t\r\n"


class Refused(Exception):
    """What is wrong with the input."""


class WrongWords(Exception):
    """The words behind the filter's name aren't what it takes: why, or nothing."""


def run(answers, usage):
    """Writes what `answers` yields for the words behind the filter's name, and ends the process."""
    signal.signal(signal.SIGINT, signal.SIG_DFL)
    if sys.stdin is None:
        end(4, "reading failed: standard input is closed")
    if sys.stdout is None:
        end(5, "writing failed: standard output is closed")
    ready_streams()
    texts, code, reason = answers(sys.argv[1:]), 0, ""
    while True:
        try:
            text = next(texts, None)
        except Refused as refused:
            text, code, reason = None, 1, str(refused)
        except WrongWords as wrong:
            text, code, reason = None, 2, "wrong words%s%s. It is\n%s" % (": " if str(wrong) else "", wrong,
                                                                          usage.strip())
        except OSError as fault:
            text, code, reason = None, 4, "reading failed: %s%s" % (fault.strerror, ": %r" % fault.filename
                                                                    if fault.filename else "")
        if text is None:
            end(code, reason)
        try:
            sys.stdout.buffer.write(text if isinstance(text, bytes) else text.encode())
            # so that what is written is whole at any time
            sys.stdout.buffer.flush()
        except OSError as fault:
            # a reader that goes away, as head does, needs no word
            end(5, "" if isinstance(fault, BrokenPipeError) else "writing failed: %s" % fault.strerror)


def ready_streams():
    """Lets standard input and output wait: another program may have left one that doesn't, and where it only pauses it
    would seem to end. Where standard error is closed, what is shown there goes nowhere: print would put it among the
    data."""
    if sys.stderr is None:
        sys.stderr = open(os.devnull, "w")
    for stream in 0, 1:
        os.set_blocking(stream, True)


def end(code, reason):
    """Ends the process. What couldn't be written is not written a second time, as the interpreter would."""
    try:
        if reason:
            say(reason)
    finally:
        os._exit(code)


def say(reason):
    """A message behind the name of the filter. Where standard error is closed it is left out: print would put it among
    the data."""
    if sys.stderr is not None:
        print("%s: %s" % (os.path.basename(sys.argv[0]), reason), file=sys.stderr, flush=True)


def numbered_lines(file):
    """The lines of a binary file, each with its number from 1, as texts: a byte is the character of its number."""
    read = functools.partial(file.readline, MAX_LINE + 1)
    for number, line in enumerate(iter(read, b""), 1):
        if len(line) > MAX_LINE:
            raise Refused("line %d has more than %d bytes" % (number, MAX_LINE))
        yield number, line.decode("latin-1")


def without_blanks(text):
    return re.sub("[%s]" % BLANKS, "", text)


def shown(text):
    """A text of the input as a message shows it."""
    text = text.strip(BLANKS)
    return "`%s%s`" % (ascii(text[:40])[1:-1], ".." if len(text) > 40 else "")


def number_of(word, least, most):
    """The number that a word is, without a leading zero, where it is one from `least` to `most`; else None."""
    if NUMBER.fullmatch(word) and least <= int(word) <= most:
        return int(word)
    return None


def check_shape(elements, rank=0):
    """Refuses a number of elements and a rank that no document has."""
    if not 1 <= elements <= MAX_ELEMENTS:
        raise Refused("elements: %d, and a document has 1 to %d" % (elements, MAX_ELEMENTS))
    if rank > elements:
        raise Refused("rank: %d, of %d elements" % (rank, elements))
    values = math.comb(elements, rank)
    if values > MAX_VALUES:
        raise Refused("size: rank %d on %d elements has %d values, and a document at most %d" %
                      (rank, elements, values, MAX_VALUES))


def shape_of(words):
    """The numbers ELEMENTS, or RANK and ELEMENTS, of the words of a filter."""
    numbers = [number_of(word, 0, 999999) for word in words]
    if None in numbers:
        raise WrongWords
    try:
        check_shape(*numbers[::-1])
    except Refused as refused:
        raise WrongWords(refused) from None
    return numbers


def check_signs(signs, wanted):
    """Refuses a text that isn't so many of the signs + - 0."""
    if signs.strip("+-0"):
        raise Refused("sign: %s is none of + - 0" % shown(signs.strip("+-0")[0]))
    if len(signs) != wanted:
        raise Refused("length: %d signs are wanted, and %d are there" % (wanted, len(signs)))


def rows(text):
    """The rows of a list of lists, as Python, Sage and TOPCOM write it, each as its words; None where the text is
    none."""
    row = r"\s*[\[(]([^\[\]()]*)[\])]\s*"
    if not re.fullmatch(r"\s*\[\s*(%s(,%s)*,?)?\s*\]\s*" % (row, row), text, re.ASCII):
        return None
    return [row_of("[%s]" % inside) for inside in re.findall(row, text.strip(BLANKS)[1:-1])]


def row_of(text):
    """The words of a list without lists in it; None where the text is none."""
    inside = re.fullmatch(r"\s*[\[(]([^\[\]()]*)[\])]\s*", text, re.ASCII)
    if inside is None:
        return None
    words = [word.strip(BLANKS) for word in inside[1].split(",")]
    return words[:-1] if words[-1] == "" else words


def are_symmetries(symmetries, elements):
    """Whether rows are permutations of 0 to one less than the number of elements."""
    return symmetries is not None and all(sorted(row) == sorted(str(element) for element in range(elements))
                                          for row in symmetries)
