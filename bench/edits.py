#!/usr/bin/env python3
"""bench/edits.py [--look] [NAME ..]

Tries the further must-fail edits, bench/edits/CRATE/*.edit: wrong bodies that a contract has to refuse. The gate tries
those of crates/CRATE/must-fail; these are tried when the crate changes. With names only those of these crates. They
take the place of the gate's in a temporary copy of what is committed, where `rt ci` proves the crates and tries them.
What it prints is printed.

Where each edit of a crate was refused, and none for a vanished name or a limit alone, bench/edits/refused.txt gets a
line for the crate: its name, the number of its edits, and a sum of these and of its sources. The exit code is 1 where
a crate gets none.

With --look nothing is proved. Named are each edit of both folders that can't be applied, since a text that it replaces
isn't in its file once; each crate that has no edit in the gate, and no line in bench/edits/refused.txt; and each line
there that isn't of the edits and sources that stand there now. The exit code is 1 if there is one, or no edit at all.
"""
import glob
import hashlib
import os
import re
import shutil
import subprocess
import sys
import tempfile

TOP = os.path.dirname(os.path.dirname(os.path.abspath(__file__)))
REFUSED = os.path.join("bench", "edits", "refused.txt")
HEAD = """# The crates whose further edits were all refused: the name, the number of the edits, and a sum of them and of the
# crate's sources. Made by bench/edits.py; docs/check.py compares the sums.
"""
LINE = re.compile(r"rt: must-fail (\w+)/(\S+\.edit): refused, as it must be(?! \(only)", re.M)


def edits(name="*", top=TOP):
    """The further edits, of a crate or of all, each with its crate."""
    found = sorted(glob.glob(os.path.join(top, "bench", "edits", name, "*.edit")))
    return [(os.path.basename(os.path.dirname(path)), path) for path in found]


def unfit(crate, path):
    """The first text of the crate that an edit replaces and that isn't there once, or nothing."""
    texts, file, old = {}, None, None
    with open(path, encoding="utf-8") as edit:
        for line in edit.read().split("\n"):
            if line.startswith("file: "):
                file = os.path.join(TOP, "crates", crate, line[len("file: "):].strip())
                if not os.path.isfile(file):
                    return line.strip()
                if file not in texts:
                    with open(file, encoding="utf-8") as source:
                        texts[file] = source.read()
            elif line.startswith("old: "):
                old = line[len("old: "):]
            elif line.startswith("new:"):
                if texts[file].count(old) != 1:
                    return old
                texts[file] = texts[file].replace(old, re.sub("^ ", "", line[len("new:"):]))
    return None


def every():
    """All edits with their crates, those of the gate too."""
    gate = sorted(glob.glob(os.path.join(TOP, "crates", "*", "must-fail", "*.edit")))
    return edits() + [(path.split(os.sep)[-3], path) for path in gate]


def stale(found):
    """The edits that can't be applied, each with the text that isn't there once."""
    for crate, path in found:
        old = unfit(crate, path)
        if old is not None:
            yield os.path.relpath(path, TOP), old


def sum_of(crate, top=TOP):
    """A sum of a crate's sources, definitions and proofs, and of its further edits."""
    found = hashlib.sha256()
    roots = [os.path.join("crates", crate, part) for part in ("src", "specs", "proofs")]
    for root in roots + [os.path.join("bench", "edits", crate)]:
        for path in sorted(glob.glob(os.path.join(top, root, "**", "*"), recursive=True)):
            if os.path.isfile(path):
                with open(path, "rb") as file:
                    text = file.read()
                found.update(b"%s %d\n%s" % (os.path.relpath(path, top).encode(), len(text), text))
    return found.hexdigest()


def line_of(crate, top=TOP):
    """The line that a crate has where its edits were refused as they stand."""
    return "%s %d %s" % (crate, len(edits(crate, top)), sum_of(crate, top))


def told():
    """The lines of the table, by the crate."""
    try:
        with open(os.path.join(TOP, REFUSED), encoding="utf-8") as table:
            return {line.split()[0]: line.strip() for line in table if line.strip() and not line.startswith("#")}
    except FileNotFoundError:
        return {}


def untried():
    """The crates with a line in the table, or with further edits and none in the gate, whose line isn't of what stands
    there now."""
    lines = told()
    for crate in sorted({crate for crate, _ in edits()} | set(lines)):
        in_gate = glob.glob(os.path.join(TOP, "crates", crate, "must-fail", "*.edit"))
        if (crate in lines or not in_gate) and lines.get(crate) != line_of(crate):
            yield crate


def note(crates, top):
    """Puts the lines of these crates, as they are in a copy, into the table, and leaves out crates without edits."""
    lines = dict(told(), **{crate: line_of(crate, top) for crate in crates})
    path = os.path.join(TOP, REFUSED)
    with open(path + ".new", "w", encoding="utf-8") as table:
        table.write(HEAD + "".join(lines[crate] + "\n" for crate in sorted(lines) if edits(crate)))
    os.replace(path + ".new", path)


def look():
    """Names what can't be applied and what wasn't tried as it stands, and gives the exit code."""
    found, left, old = every(), list(stale(every())), list(untried())
    for path, text in left:
        print("%s replaces what isn't there once: %s" % (path, text))
    for crate in old:
        print("%s has changed since its further edits were refused: run bench/edits.py %s" % (crate, crate))
    print("edits: %d passed, %d failed" % (len(found) - len(left), len(left) + len(old)))
    return 1 if left or old or not found else 0


def prove(names):
    """Tries the further edits of these crates, and notes those that were refused. Gives the exit code."""
    with tempfile.TemporaryDirectory() as room:
        tree = os.path.join(room, "om")
        subprocess.run(["git", "clone", "-q", TOP, tree], check=True)
        for folder in glob.glob(os.path.join(tree, "crates", "*", "must-fail")):
            shutil.rmtree(folder)
        for name in names:
            shutil.copytree(os.path.join(tree, "bench", "edits", name), os.path.join(tree, "crates", name, "must-fail"))
        said = []
        with subprocess.Popen(["rt", "ci", *names], cwd=tree, stdout=subprocess.PIPE, encoding="utf-8",
                              errors="replace") as process:
            for line in process.stdout:
                print(line, end="", flush=True)
                said.append(line)
        refused = set(LINE.findall("".join(said)))
        whole = [name for name in names if edits(name, tree)
                 and all((name, os.path.basename(path)) in refused for _, path in edits(name, tree))]
        note(whole, tree)
    left = [name for name in names if name not in whole]
    if left:
        print("edits: not all of %s were refused at a goal" % ", ".join(left), file=sys.stderr)
    return 1 if left else 0


def main():
    names = [word for word in sys.argv[1:] if word != "--look"]
    if any(word.startswith("-") for word in names):
        sys.exit("edits: usage: bench/edits.py [--look] [NAME ..]")
    if "--look" in sys.argv[1:]:
        return look()
    names = names or sorted({crate for crate, _ in edits()})
    if not all(edits(name) for name in names):
        sys.exit("edits: there are none of %s" % " ".join(name for name in names if not edits(name)))
    return prove(names)


if __name__ == "__main__":
    sys.exit(main())
