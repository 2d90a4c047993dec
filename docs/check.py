#!/usr/bin/env python3
"""docs/check.py

Looks up what the pages name: each link, each file, and each crate, call and definition that stands between backticks.
A name is looked up in the sources of the repository; a file from the top, from the folder of the page, or by its name
alone. Then it asks for the size of README, for the form and the size of the entries of docs/DECISIONS.md, and whether
what is made stands as it is made now: the crates and layers of docs/ARCHITECTURE.md and the counts of CONTRIBUTING.md
(layers.py), the picture (picture.py), and docs/INDEX.md (index.py). Last it asks whether each function that no crate
shows is called (uncalled.py), whether each must-fail edit can be applied, and whether those beside the gate were refused
on the sources that stand here (bench/edits.py). The last line is 'pages: N passed, M failed', and the exit code is 1 if
one failed.
"""
import os
import re
import subprocess
import sys

import index
import layers
import picture
import uncalled

TOP = os.path.dirname(os.path.dirname(os.path.abspath(__file__)))
sys.path.insert(0, os.path.join(TOP, "bench"))
import edits
SOURCES = (".rt", ".antt", ".py", ".sh", ".txt", ".awk", ".bash", ".v", ".edit", ".1", "")
FILE = re.compile(r"[\w.+*-]*/[\w./+*-]*|[\w+-]+\.(?:md|om|py|rt|antt|txt|sh|v|claims|bash|1|edit|cff|gz)")
NAME = re.compile(r"(?:[A-Za-z_]\w*::)*[A-Za-z_]\w*")
# pages that name calls of other programs
OTHERS = {"neighbours/COQ.md", "neighbours/POLYMAKE.md", "neighbours/SAGE.md", "neighbours/TOPCOM.md"}
MOST_LINES, MOST_WORDS = 150, 1500
ARCHITECTURE, INDEX, DECISIONS = "docs/ARCHITECTURE.md", "docs/INDEX.md", "docs/DECISIONS.md"
CONTRIBUTING = "CONTRIBUTING.md"
MOST_OF_ENTRY = 600


def tracked():
    """The files of the repository, from its top: those that git knows, or all where there is no git."""
    listed = subprocess.run(["git", "ls-files", "-co", "--exclude-standard"], cwd=TOP, capture_output=True, text=True)
    if listed.returncode == 0:
        return listed.stdout.splitlines()
    return [os.path.relpath(os.path.join(at, name), TOP) for at, _, names in os.walk(TOP) for name in names]


def identifiers(files):
    """Every word of the sources."""
    known = set()
    for path in files:
        if os.path.splitext(path)[1] in SOURCES:
            try:
                with open(os.path.join(TOP, path), encoding="utf-8") as file:
                    known.update(re.findall(r"[A-Za-z_]\w*", file.read()))
            except (UnicodeDecodeError, OSError):
                continue
    return known


def is_there(name, page, files, names):
    """Whether a file or a folder of this name is there; a star stands for anything."""
    name = name.rstrip("/")
    if "*" in name:
        pattern = re.compile("(?:.*/)?" + re.escape(name).replace(r"\*", "[^/]*") + "(?:/.*)?")
        return any(pattern.fullmatch(path) for path in files)
    endings = [name] + [name + ending for ending in (".antt", ".rt", ".edit")]
    places = [os.path.join(TOP, at, ending) for at in ("", os.path.dirname(page)) for ending in endings]
    return any(map(os.path.exists, places)) or name in names or any(path.endswith("/" + ending) or "/" + ending +
                                                                    "/" in path for path in files for ending in endings)


def looked_up(page, text, files, names, known):
    """What a page names, with whether it is there. A path without an ending is one where its first part is a folder."""
    folders = {path.split("/")[0] for path in files if "/" in path} | {"src", "specs", "proofs", "must-fail", ".", ""}

    def is_folder(part):
        return part in folders or part.startswith("om_")

    fences = re.compile(r"^```.*?^```|^    .*?$", re.S | re.M)
    prose = fences.sub("", text)
    for target in re.findall(r"\]\(([^)#\s]+)", prose):
        if "://" not in target:
            yield target, is_there(target, page, files, names)
    for quoted in re.findall(r"`([^`\n]+)`", prose):
        for word in quoted.split():
            if word.startswith(("/", "$", "~", "-")) or re.search(r"[<>{}()=|\\]|[A-Z]{3,}/|\bKIND\b", word):
                continue
            if "*" in word and not is_folder(word.split("/")[0]):
                continue  # files of a reader
            if FILE.fullmatch(word) and (os.path.splitext(word)[1] or " " not in quoted
                                         and is_folder(word.split("/")[0])):
                yield word, is_there(word.removeprefix("./"), page, files, names)
            elif NAME.fullmatch(word) and page not in OTHERS and ("_" in word.strip("_") or "::" in word
                                                                  or re.search("[a-z][A-Z]", word)):
                yield word, all(part in known or part in names or part + ".edit" in names for part in word.split("::"))


def main():
    files = tracked()
    names = {os.path.basename(path) for path in files}
    known = identifiers(files)
    passed = failed = 0
    for page in sorted(path for path in files if path.endswith(".md")):
        with open(os.path.join(TOP, page), encoding="utf-8") as file:
            text = file.read()
        for name, there in looked_up(page, text, files, names, known):
            passed += there
            failed += not there
            if not there:
                print("%s: `%s` isn't there" % (page, name))
        for made, stands, command in ((ARCHITECTURE, layers.stands_in, "layers.py"),
                                      (CONTRIBUTING, layers.counts_stand_in, "layers.py"),
                                      (INDEX, index.stands_in, "index.py")):
            if page == made:
                passed += stands(text)
                failed += not stands(text)
                if not stands(text):
                    print("%s isn't what the sources give: run docs/%s --write" % (page, command))
        if page == DECISIONS:
            for entry in re.findall(r"^- \*\*.*$", text, re.M):
                whole = len(entry) <= MOST_OF_ENTRY and " Why: " in entry and " Cost: " in entry
                passed += whole
                failed += not whole
                if not whole:
                    print("%s: an entry has no 'Why:' or 'Cost:', or is longer than %d characters: %s"
                          % (page, MOST_OF_ENTRY, entry[:60]))
        if page == "README.md":
            sizes = ((len(text.splitlines()), MOST_LINES, "lines"), (len(text.split()), MOST_WORDS, "words"))
            for size, most, what in sizes:
                passed += size <= most
                failed += size > most
                if size > most:
                    print("README.md has %d %s, and may have %d" % (size, what, most))
    passed += picture.is_drawn()
    failed += not picture.is_drawn()
    if not picture.is_drawn():
        print("docs/architecture.svg isn't what is drawn now: run docs/picture.py --write")
    left = list(uncalled.uncalled())
    passed += not left
    failed += len(left)
    for path, name in left:
        print("%s: nothing calls `%s`" % (path, name))
    stale, untried = list(edits.stale(edits.every())), list(edits.untried())
    passed += (not stale) + (not untried)
    failed += len(stale) + len(untried)
    for path, old in stale:
        print("%s replaces what isn't there once: %s" % (path, old))
    for crate in untried:
        print("%s has changed since its further edits were refused: run bench/edits.py %s" % (crate, crate))
    print("pages: %d passed, %d failed" % (passed, failed))
    return 1 if failed or not passed else 0


if __name__ == "__main__":
    sys.exit(main())
