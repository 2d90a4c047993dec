#!/usr/bin/env python3
"""docs/cases.py FOLDER [TEXT ..]

Writes runs of the tables of rows/ as cases of `rt try`, which runs a program before any proof: in crates/om then
`rt try --cases FOLDER` makes the runs, and compares what they print. Without a TEXT these are all runs of `om`, else
those whose row has one of the texts in it, for example 'refused allzero' or 'hull'. FOLDER is made, and mustn't be
there. A case has the name of its table and the number of its run there. The number of cases goes to standard error.

Less is asked than by rows/check.py of the built program: `rt try` doesn't compare exit codes, an input that mustn't be
read is an empty one, and runs that have to end with a read fault are left out.
"""
import importlib.util
import os
import sys

READ_FAULT = 4
TOP = os.path.dirname(os.path.dirname(os.path.abspath(__file__)))


def rows_check():
    """The module rows/check.py, whose name is that of a script of docs/, too."""
    spec = importlib.util.spec_from_file_location("rows_check", os.path.join(TOP, "rows", "check.py"))
    module = importlib.util.module_from_spec(spec)
    spec.loader.exec_module(module)
    return module


def write(path, content):
    with open(path, "wb") as file:
        file.write(content)


def main():
    if len(sys.argv) < 2 or sys.argv[1].startswith("-"):
        sys.exit(__doc__)
    folder, texts = sys.argv[1], sys.argv[2:]
    rows = rows_check()
    try:
        os.mkdir(folder)
    except OSError as why:
        sys.exit("cases.py: %s: %s" % (folder, why.strerror))
    cases = 0
    for path in rows.tables():
        table = os.path.splitext(os.path.basename(path))[0]
        for number, row in enumerate(rows.rows_of(path), 1):
            if row.input is None and row.code == READ_FAULT or texts and not any(text in row.line for text in texts):
                continue
            case = os.path.join(folder, "%s-%03d" % (table, number))
            write(case, row.input or b"")
            write(case + ".args", "".join(word + "\n" for word in row.words).encode())
            write(case + ".stdout", row.output)
            cases += 1
    print("%d cases" % cases, file=sys.stderr)


if __name__ == "__main__":
    main()
