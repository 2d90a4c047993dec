#!/usr/bin/env python3
"""bench/proofs.py [--most N] CRATE ..

Which functions take longest to prove. Runs `rt check --jobs 1` in the folder of each crate, one after the other. A check
keeps a file for each part of a function's proof in out/incremental, and writes it when the part is done. So the seconds
from one file to the next are those of a part. Prints the N functions that took longest (10), with their seconds and the
longest parts, as a table in Markdown; and for each crate the seconds before its first file, those of its definitions and
lemmas, and those of its functions.

`Lts` is the walk over the code, and `Proof` the search for goals without an answer. The seconds between two lines
`checked FUNCTION` say less: the walks of the callers often come before the line of the function that they call.

rt takes over what an earlier check on the machine has proved, and such functions have no files. So call this where
nothing is kept, for example in a new container, or after a change in a crate below. The libraries below a crate are
built first, and aren't counted.
"""
import glob
import os
import re
import subprocess
import sys
import time

TOP = os.path.dirname(os.path.dirname(os.path.abspath(__file__)))
LINE = re.compile(r"checked (\S+), \d+ of \d+$")
LEAD = re.compile(r"Rattle[-.]\w+[-.](?:proofs|specs)\.(?:contracts\.)?")


def module_name(function):
    """The name of a function in the names of files: its path below the crate, with dots."""
    return function.partition("::")[2].replace("::", ".").replace("++", ".")


def written(folder, since):
    """The files of parts that a check wrote, by time, each with the name of its part."""
    found = glob.glob(os.path.join(folder, "out", "incremental", "antt-checked*", "*.oantt"))
    found = [(os.stat(file).st_mtime, os.path.basename(file)[:-len(".oantt")]) for file in found]
    return sorted(it for it in found if it[0] >= since)


def function_of(name, functions):
    """The function to which a part belongs, and what its name says besides; None for a definition or a lemma."""
    path = LEAD.sub("", name, count=1)
    whole = path
    while path:
        if path in functions:
            return functions[path], whole[len(path) + 1:]
        path = path.rpartition(".")[0]
    return None


def check(folder):
    """The lines of a check that kept its work, the functions that it proved, and when it began."""
    began = time.time()
    ran = subprocess.run(["rt", "check", "--jobs", "1"], cwd=folder, stdout=subprocess.PIPE, stderr=subprocess.STDOUT,
                         text=True)
    if ran.returncode:
        sys.exit("proofs: %s isn't proved" % os.path.basename(folder))
    found = [LINE.match(line) for line in ran.stdout.split("\n")]
    return {module_name(match[1]): match[1] for match in found if match}, began


def proofs(crate):
    """Prints how long a crate took, and gives the seconds of each of its functions that was proved, part by part."""
    folder = os.path.join(TOP, "crates", crate)
    functions, began = check(folder)
    spent, other, before, start = {}, 0.0, None, 0.0
    for when, name in written(folder, began):
        if before is None:
            start = when - began
        else:
            of = function_of(name, functions)
            if of is None:
                other += when - before
            else:
                spent.setdefault(of[0], {})[of[1]] = when - before
        before = when
    print("%s: %d functions proved in this call. %.0f s before the first file, %.0f s for definitions and lemmas, %.0f s "
          "for functions" % (crate, len(functions), start, other, sum(sum(it.values()) for it in spent.values())))
    return [(sum(parts.values()), function, parts) for function, parts in spent.items()]


def main():
    words, most = sys.argv[1:], 10
    if words[:1] == ["--most"] and len(words) > 1 and words[1].isdigit():
        words, most = words[2:], int(words[1])
    if not words or any(word.startswith("-") for word in words):
        print("usage: bench/proofs.py [--most N] CRATE ..", file=sys.stderr)
        return 2
    for crate in words:
        if not os.path.isdir(os.path.join(TOP, "crates", crate)):
            print("proofs: no crate %s" % crate, file=sys.stderr)
            return 1
    slowest = [row for crate in words for row in proofs(crate)]
    print("\n| Function | Seconds | Longest parts |\n|---|---|---|")
    for seconds, function, parts in sorted(slowest, key=lambda row: -row[0])[:most]:
        longest = sorted(parts.items(), key=lambda part: -part[1])[:2]
        print("| `%s` | %.1f | %s |" % (function, seconds, ", ".join("%s %.1f" % part for part in longest)))
    return 0


if __name__ == "__main__":
    sys.exit(main())
