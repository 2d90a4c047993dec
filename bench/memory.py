#!/usr/bin/env python3
"""bench/memory.py [OM [OM_EACH]]

Refuses each request for memory of the built programs in turn, one in a run, by a library that is loaded before the C
library. Each run has to end with exit code 6 and nothing written, or as it ends with all memory. This holds also for
requests of the runtime, which hands the words over before the command begins. A stream may have written the answers
to its first documents before it ends with 6, each whole. The program prints a line for each command with the number
of requests that were refused, and last 'memory: N runs, M failed'; the exit code is 1 if one failed. It needs a C
compiler, $CC or cc.
"""
import os
import subprocess
import sys
import tempfile

import commands

TOP = os.path.dirname(os.path.dirname(os.path.abspath(__file__)))
PROGRAM = os.path.abspath(sys.argv[1]) if len(sys.argv) > 1 else os.path.join(TOP, "crates", "om", "out", "om")
EACH = os.path.abspath(sys.argv[2]) if len(sys.argv) > 2 else os.path.join(TOP, "crates", "om_each", "out", "om_each")
UNIFORM = b"om 1\nchirotope 3 4\n++++\nend\n"
CIRCUITS = b"om 1\ncircuits 4\n-+-+\n+-+-\nend\n"
COMMANDS = [(words, UNIFORM) for words in commands.on_documents()] + [
    (["accept"], CIRCUITS), (["convert", "cocircuits"], UNIFORM), (["convert", "covectors"], UNIFORM),
    (["convert", "chirotope"], CIRCUITS), (["dual"], CIRCUITS), (["delete", "1"], CIRCUITS),
    (["extend", "--first=10"], UNIFORM), (["make", "7", "--count=4"], b""),
]
# streams, by their documents
STREAMS = [(words, [UNIFORM, CIRCUITS, b"om 1\n"]) for words in commands.on_documents()] + [
    (["accept"], [UNIFORM, b"om 1\nchirotope 2 4\n+-++++\nend\n", b"# a\n" + UNIFORM]),
    (["convert", "cocircuits"], [UNIFORM, CIRCUITS, UNIFORM]), (["extend", "--first=10"], [UNIFORM, UNIFORM]),
]
SOURCE = r"""
#include <errno.h>
#include <fcntl.h>
#include <stdatomic.h>
#include <stddef.h>
#include <stdlib.h>
#include <sys/mman.h>
#include <unistd.h>

extern void *__libc_malloc(size_t);
extern void *__libc_calloc(size_t, size_t);
extern void *__libc_realloc(void *, size_t);
extern void *__libc_memalign(size_t, size_t);

static atomic_long own;
static atomic_long *requests;
static long refused;

/* the number of requests is kept in a file, since the program ends without a last word from its libraries */
static void start(void)
{
    const char *text = getenv("OM_REFUSED_REQUEST"), *name = getenv("OM_REQUESTS_FILE");
    refused = text ? atol(text) : 0;
    requests = &own;
    if (name) {
        int file = open(name, O_RDWR);
        if (file >= 0) {
            void *place = mmap(NULL, sizeof(atomic_long), PROT_READ | PROT_WRITE, MAP_SHARED, file, 0);
            if (place != MAP_FAILED)
                requests = place;
            close(file);
        }
    }
}

static int is_refused(void)
{
    if (!requests)
        start();
    return atomic_fetch_add(requests, 1) + 1 == refused;
}

static void *nothing(void)
{
    errno = ENOMEM;
    return NULL;
}

void *malloc(size_t size) { return is_refused() ? nothing() : __libc_malloc(size); }
void *calloc(size_t count, size_t size) { return is_refused() ? nothing() : __libc_calloc(count, size); }
void *realloc(void *old, size_t size) { return is_refused() ? nothing() : __libc_realloc(old, size); }
void *aligned_alloc(size_t align, size_t size) { return is_refused() ? nothing() : __libc_memalign(align, size); }
void *memalign(size_t align, size_t size) { return is_refused() ? nothing() : __libc_memalign(align, size); }

int posix_memalign(void **place, size_t align, size_t size)
{
    if (is_refused())
        return ENOMEM;
    *place = __libc_memalign(align, size);
    return *place ? 0 : ENOMEM;
}
"""


def run(library, program, words, data, refused=0, requests=None):
    """The exit code, the output and the errors of a run in which a request is refused, counted from 1."""
    environment = dict(os.environ, LD_PRELOAD=library, OM_REFUSED_REQUEST=str(refused))
    if requests:
        environment["OM_REQUESTS_FILE"] = requests
    ended = subprocess.run([program] + words, input=data, capture_output=True, env=environment, timeout=60)
    return ended.returncode, ended.stdout, ended.stderr


class Refusals:
    """The runs so far, and those that failed."""

    def __init__(self, library, requests):
        self.library, self.requests = library, requests
        self.runs = self.failed = 0

    def refuse_each(self, what, program, words, data, firsts):
        """Refuses each request of a run in turn; what it may have written where it ends with 6 is one of some texts."""
        with open(self.requests, "wb") as file:
            file.write(bytes(8))
        whole = run(self.library, program, words, data, requests=self.requests)
        with open(self.requests, "rb") as file:
            count = int.from_bytes(file.read(), sys.byteorder)
        wanting = 0
        for refused in range(1, count + 1):
            self.runs += 1
            ended = run(self.library, program, words, data, refused)
            if ended[0] == 6 and ended[1] in firsts and ended[2] == b"":
                wanting += 1
            elif ended != whole:
                self.failed += 1
                print("failed: %s with request %d refused: exit code %s, output %r, errors %r" %
                      (what, refused, ended[0], ended[1][:80], ended[2][:200]))
        print("%-40s %5d requests refused: %d end with 6" % (what, count, wanting))


def main():
    for program, launcher in (PROGRAM, "om"), (EACH, "om-each"):
        if not os.path.exists(program):
            sys.exit("%s isn't built: ./%s accept < examples/uniform-3-4.om builds it" % (program, launcher))
    with tempfile.TemporaryDirectory() as folder:
        library, source, requests = (os.path.join(folder, name) for name in ("refusing.so", "refusing.c", "requests"))
        with open(source, "w") as file:
            file.write(SOURCE)
        subprocess.run([os.environ.get("CC", "cc"), "-O1", "-shared", "-fPIC", "-fno-builtin", "-o", library, source],
                       check=True)
        refusals = Refusals(library, requests)
        for words, data in COMMANDS:
            refusals.refuse_each(" ".join(words), PROGRAM, words, data, [b""])
        for words, documents in STREAMS:
            answers = [run(library, PROGRAM, words, data)[1] for data in documents]
            firsts = [b"".join(answers[:count]) for count in range(len(answers) + 1)]
            refusals.refuse_each("a stream of %d for %s" % (len(documents), " ".join(words)), EACH, words,
                                 b"".join(documents), firsts)
    print("memory: %d runs, %d failed" % (refusals.runs, refusals.failed))
    return 1 if refusals.failed or not refusals.runs else 0


if __name__ == "__main__":
    sys.exit(main())
