#!/usr/bin/env python3
"""docs/uncalled.py

Prints each function of the crates that is neither shown by its crate nor named by code outside of itself, with its
file. Methods, tests and `main` are left out. The exit code is 1 if there is one.

What such a function did is left out somewhere. Where the result of a step is determined without the step, as that of
a conversion back, no clause refuses a body that leaves it out; the function that makes the step is then found here.
"""
import os
import re
import sys

TOP = os.path.dirname(os.path.dirname(os.path.abspath(__file__)))
FUNCTION = re.compile(r"(?:pub )?fn (\w+)")
SHOWN = re.compile(r"^pub use ([^;]*);", re.M)
SHOWN_MODULE = re.compile(r"^pub mod (\w+);", re.M)
NOT_CODE = ("//", "mod ", "pub mod ")
NOT_CALLS = ("requires ", "ensures ", "ghost ", "use ", "pub use ")


def code_lines(text):
    """The lines of a file without comments, imports and what is there for proofs alone; those are empty here."""
    left_out = False
    for line in text.splitlines():
        words = line.strip()
        # clauses end where the body begins; an import, a ghost item, and the clauses of a method without a body, by a
        # semicolon; a ghost field, by a comma
        left_out = left_out and not words.startswith("{") or words.startswith(NOT_CALLS)
        yield "" if left_out or words.startswith(NOT_CODE) else line
        left_out = left_out and not words.endswith((";", "},"))


def functions(lines):
    """The free functions of a file but tests and `main`: each with its name, and its first line and that behind it."""
    for first, line in enumerate(lines):
        head = FUNCTION.match(line)
        before = next((it for it in reversed(lines[:first]) if it), "")
        if head and head.group(1) != "main" and not before.startswith("#[test"):
            ends = (at for at, it in enumerate(lines) if at >= first and (it.startswith("}") or it.endswith("{}")))
            last = next(ends, len(lines) - 1)
            yield head.group(1), first, last + 1


def uncalled():
    """The files and names of these functions."""
    crates = os.path.join(TOP, "crates")
    for crate in sorted(os.listdir(crates)):
        files, shown, shown_modules = {}, set(), set()
        for folder, _folders, names in sorted(os.walk(os.path.join(crates, crate, "src"))):
            for name in sorted(it for it in names if it.endswith(".rt")):
                with open(os.path.join(folder, name), encoding="utf-8") as file:
                    text = file.read()
                files[os.path.relpath(os.path.join(folder, name), TOP)] = list(code_lines(text))
                if name in ("lib.rt", "main.rt"):
                    shown.update(*(re.findall(r"\w+", it) for it in SHOWN.findall(text)))
                    shown_modules.update(SHOWN_MODULE.findall(text))
        for path, lines in files.items():
            if os.path.splitext(os.path.basename(path))[0] in shown_modules:
                continue
            for name, first, behind in functions(lines):
                rest = [lines[:first] + lines[behind:]] + [it for other, it in files.items() if other != path]
                if name not in shown and not any(re.search(r"\b%s\b" % name, line) for it in rest for line in it):
                    yield path, name


def main():
    found = list(uncalled())
    for path, name in found:
        print("%s: nothing calls `%s`" % (path, name))
    return 1 if found else 0


if __name__ == "__main__":
    sys.exit(main())
