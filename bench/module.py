#!/usr/bin/env python3
"""bench/module.py [--earlier FILE] [COUNT]

Times neighbours/om.py beside the program that it asks, in one run: `accept` for COUNT chirotopes (20,000 without the
word) of rank 3 on eight elements. `om_each` reads all of them from a file; then `Workbench.each` gets them as texts and
as values, and a workbench is asked for one after the other, with the same words and with words that change. With
--earlier the single questions go to an earlier om.py, too. Each row has the microseconds for a document, the least of
five rounds in turn, and how many times those of `om_each` they are.
"""
import importlib.util
import itertools
import os
import subprocess
import sys
import tempfile
import time

TOP = os.path.dirname(os.path.dirname(os.path.abspath(__file__)))
ONE, EACH = (os.path.join(TOP, "crates", name, "out", name) for name in ("om", "om_each"))
ROUNDS = 5


def module(path):
    spec = importlib.util.spec_from_file_location("om_" + str(abs(hash(path))), path)
    found = importlib.util.module_from_spec(spec)
    sys.modules[spec.name] = found
    spec.loader.exec_module(found)
    return found


def seconds(call):
    start = time.perf_counter()
    call()
    return time.perf_counter() - start


def rows(om, what, documents, file):
    """What is timed, each with how many documents it answers."""
    bench, few = om.Workbench(EACH, ONE), documents[:len(documents) // 10]
    signs = ["".join(it) for it in itertools.islice(itertools.product("+-", repeat=8), 200)]
    if hasattr(bench, "each"):
        texts = list(map(str, documents))
        yield what + "each, texts", len(documents), lambda: sum(1 for _ in bench.each("accept", texts))
        yield what + "each, values", len(documents), lambda: sum(1 for _ in bench.each("accept", documents))
    yield what + "one after the other", len(few), lambda: [bench.accept(it) for it in few]
    yield (what + "words of three kinds in turn", 300,
           lambda: [bench.delete(it, 1 + k % 3) for k, it in enumerate(documents[:300])])
    yield what + "new words each time", len(signs), lambda: [bench.member(documents[0], it) for it in signs]


def main():
    words = sys.argv[1:]
    earlier = [words.pop(words.index("--earlier") + 1), words.remove("--earlier")][0] if "--earlier" in words else None
    count = int(words[0]) if words else 20_000
    om = module(os.path.join(TOP, "neighbours", "om.py"))
    documents = [om.Document.chirotope(3, 8, "+" * 56)] * count
    with tempfile.NamedTemporaryFile() as file:
        file.write("".join(map(str, documents)).encode())
        file.flush()
        timed = [("om_each, a file", count, lambda: subprocess.run(
            [EACH, "accept"], stdin=open(file.name), stdout=subprocess.DEVNULL, check=True))]
        timed += rows(om, "", documents, file)
        timed += rows(module(earlier), "earlier: ", documents, file) if earlier else []
        least = [float("inf")] * len(timed)
        for _ in range(ROUNDS):
            for place, (_, number, call) in enumerate(timed):
                least[place] = min(least[place], 1e6 * seconds(call) / number)
    for (what, _, _), took in zip(timed, least):
        print("%-40s %8.1f us %7.2f" % (what, took, took / least[0]))


if __name__ == "__main__":
    main()
