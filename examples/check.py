#!/usr/bin/env python3
"""examples/check.py

Runs every command after a `$` in the fenced blocks of the pages, and compares what it prints with what they say: a
line `$ COMMAND` is a command, run at the top of the repository, and the lines up to the next one are its output.
Commands of TOPCOM, nauty, GNU parallel, pv, Coq, polymake and rsvg-convert are left out if these aren't installed, and so are those
that read what they wrote. The last line is 'examples: N passed, M failed', and the exit code is 1 if one failed.
"""
import os
import re
import shutil
import subprocess
import sys

TOP = os.path.dirname(os.path.dirname(os.path.abspath(__file__)))
PAGES = ["README.md", "examples/README.md"] + ["neighbours/" + name
                                               for name in sorted(os.listdir(os.path.join(TOP, "neighbours")))
                                               if name.endswith(".md")]
PAGES += sorted("docs/" + name for name in os.listdir(os.path.join(TOP, "docs")) if name.endswith(".md"))

# a package, the programs of which it has one, and the words by which a command that needs it is known
PACKAGES = [
    ("TOPCOM", ["topcom-chiro2circuits"], ["topcom-chiro", "topcom-points2", "/tmp/theirs"]),
    ("nauty", ["labelg", "nauty-labelg"], ["labelg", "catalogue/grow", "catalogue/classes", "catalogue/classify",
                                           "/tmp/classes"]),
    ("nauty as Debian names it", ["nauty-countg"], ["nauty-countg", "nauty-labelg"]),
    ("GNU parallel", ["parallel"], ["parallel --", "catalogue/classify", "/tmp/classified"]),
    ("pv", ["pv"], ["pv -l"]),
    ("Coq", ["coqc"], ["coqc"]),
    ("polymake", ["polymake"], ["polymake '"]),
    ("rsvg-convert", ["rsvg-convert"], ["rsvg-convert"]),
]


def sessions(text):
    """The pairs of a command and its output in the fenced blocks of a page."""
    for block in re.findall(r"^```[^\n]*\n(.*?)^```", text, re.S | re.M):
        command, output = None, []
        for line in block.splitlines(keepends=True):
            if line.startswith("$ "):
                if command is not None:
                    yield command, "".join(output)
                command, output = line[2:].rstrip("\n"), []
            elif command is not None:
                output.append(line)
        if command is not None:
            yield command, "".join(output)


def main():
    passed = failed = 0
    missing = [(package, known) for package, programs, known in PACKAGES if not any(map(shutil.which, programs))]
    for package, _ in missing:
        print("%s isn't installed: the commands that need it are left out" % package)
    for launcher, word in (("./om", "accept"), ("./om-each", "accept"), ("./om-classes", "all")):
        subprocess.run([launcher, word], cwd=TOP, stdin=subprocess.DEVNULL, stdout=subprocess.DEVNULL)
    for page in PAGES:
        with open(os.path.join(TOP, page)) as file:
            text = file.read()
        for command, wanted in sessions(text):
            if any(word in command for _, known in missing for word in known):
                continue
            run = subprocess.run(["bash", "-c", command], cwd=TOP, stdin=subprocess.DEVNULL, capture_output=True,
                                 text=True, timeout=300)
            if run.stdout == wanted:
                passed += 1
            else:
                failed += 1
                print("%s: $ %s\n--- wanted\n%s--- printed\n%s" % (page, command, wanted, run.stdout))
    print("examples: %d passed, %d failed" % (passed, failed))
    return 1 if failed or not passed else 0


if __name__ == "__main__":
    sys.exit(main())
