#!/usr/bin/env python3
"""docs/layers.py [--write | --below CRATE .. | --above CRATE ..]

Prints what each crate holds, and the layers of the crates. What a crate holds is the first sentence of its README,
and the groups are those below. The layers come from crates.txt: a crate is in the first layer above all crates that it
uses, and after it come the crates that it uses, without those that another of them uses already. With --write both are
put into docs/ARCHITECTURE.md, between the lines that begin and end them there, and a table of how many crates stand on
some of them into CONTRIBUTING.md. With --below the crates that are named are printed, and all crates below them, the
lowest first. With --above the crates that stand on one of them are printed, the lowest first: a change of the named
crates has these proved again.
"""
import os
import re
import sys

TOP = os.path.dirname(os.path.dirname(os.path.abspath(__file__)))
PAGE = os.path.join(TOP, "docs", "ARCHITECTURE.md")
CONTRIBUTING = os.path.join(TOP, "CONTRIBUTING.md")
BEGIN, END = "<!-- layers: made by docs/layers.py -->\n```\n", "```\n<!-- end of the layers -->\n"
FIRST, LAST = "<!-- crates: made by docs/layers.py -->\n", "<!-- end of the crates -->\n"
COUNTS, LAST_COUNT = "<!-- counts: made by docs/layers.py -->\n", "<!-- end of the counts -->\n"
# The crates of which CONTRIBUTING says how many stand on them.
COUNTED = "om_signs om_subsets om_chirotope om_lines om_localize om_simplex om_printing om_reply om_words om_program"

# The crates by what they are about, each group from its lowest crate on.
GROUPS = {
    "Signs and sets": "om_signs om_subsets om_members om_parallel",
    "The four forms and what they denote":
        "om_laws om_chirotope om_threeterm om_matroid om_circuits om_covectors om_denotation om_oriented om_convert "
        "om_dual om_minors om_paint om_lexext",
    "Rank 3": "om_vectors om_points om_wiring om_mutate om_localize om_make",
    "Classes up to relabelling and reorientation": "om_symmetry om_label om_covers om_least om_levels om_chain",
    "The linear program and evidence": "om_rows om_simplex om_grassmann om_certificate om_budgets om_decide",
    "Texts": "om_lines om_document om_text om_pieces om_printing om_words om_reply om_answer",
    "The program":
        "om_port om_representation om_commands om_plane om_program om om_each om_classification om_classes om_existence",
    "Tests, and callers to copy from": "om_samples om_callers om_tests om_class_tests om_program_tests",
}


def crates():
    """The crates of the repository that each crate uses, in the order of crates.txt."""
    below = {}
    with open(os.path.join(TOP, "crates.txt")) as file:
        for line in file:
            name, colon, used = line.split("#")[0].partition(":")
            if colon:
                below[name.split()[0]] = used.split()
    return {name: [it for it in used if it in below] for name, used in below.items()}


def layers():
    """The text of the layers."""
    below = crates()
    depths, reached = {}, {}

    def visit(name):
        if name not in depths:
            for it in below[name]:
                visit(it)
            depths[name] = 1 + max((depths[it] for it in below[name]), default=0)
            reached[name] = set(below[name]).union(*(reached[it] for it in below[name]))

    for name in below:
        visit(name)
    lines = []
    for depth in range(1, max(depths.values()) + 1):
        lines.append("layer %d" % depth)
        for name in below:
            if depths[name] == depth:
                direct = [it for it in below[name] if not any(it in reached[other] for other in below[name])]
                lines.append(("  %-18s %s" % (name, " ".join(direct))).rstrip())
    return "\n".join(lines) + "\n"


def first_sentence(crate):
    """The first sentence of a crate's README."""
    with open(os.path.join(TOP, "crates", crate, "README.md"), encoding="utf-8") as file:
        paragraph = file.read().split("\n\n")[1].replace("\n", " ")
    return re.match(r".*?[.](?=\s|$)", paragraph).group()


def groups():
    """A table for each group: its crates, and what each holds."""
    grouped = " ".join(GROUPS.values()).split()
    if sorted(grouped) != sorted(crates()):
        wrong = sorted(set(grouped) ^ set(crates()))
        sys.exit("layers.py: these crates stand in no group, or aren't in crates.txt: %s" % " ".join(wrong))
    tables = []
    for title, names in GROUPS.items():
        rows = ["| [%s](../crates/%s/README.md) | %s |\n" % (it, it, first_sentence(it)) for it in names.split()]
        tables.append("**%s**\n\n| Crate | Holds |\n|---|---|\n%s" % (title, "".join(rows)))
    return "\n".join(tables)


def with_lower(names):
    """These crates and all below them, each after those that it uses."""
    used, found = crates(), []

    def visit(name):
        if name not in found:
            for it in used[name]:
                visit(it)
            found.append(name)

    for name in names:
        if name not in used:
            sys.exit("layers.py: there is no crate %s" % name)
        visit(name)
    return found


def above(names):
    """The crates that stand on one of these, each after those that it uses."""
    with_lower(names)  # refuses a name that no crate has
    return [it for it in with_lower(list(crates())) if it not in names and set(with_lower([it])) & set(names)]


def counts():
    """A table of some crates, each with the number of those that stand on it."""
    rows = ["| `%s` | %d |\n" % (it, len(above([it]))) for it in COUNTED.split()]
    return "| A change of | has so many crates proved again, of %d |\n|---|---|\n%s" % (len(crates()), "".join(rows))


def stands_in(page):
    """Whether the page has these layers, and says of each crate what it holds."""
    return BEGIN + layers() + END in page and FIRST + groups() + LAST in page


def counts_stand_in(page):
    """Whether the page has these counts."""
    return COUNTS + counts() + LAST_COUNT in page


def put(page, begin, text, end):
    """The page with this text between the lines that begin and end it."""
    head, found, rest = page.partition(begin)
    _, ended, tail = rest.partition(end)
    if not found or not ended:
        sys.exit("layers.py: the page has no place for what follows %r" % begin)
    return head + begin + text + end + tail


def main():
    if sys.argv[1:2] == ["--below"] and len(sys.argv) > 2:
        print("\n".join(with_lower(sys.argv[2:])))
        return
    if sys.argv[1:2] == ["--above"] and len(sys.argv) > 2:
        print("\n".join(above(sys.argv[2:])))
        return
    if sys.argv[1:] != ["--write"]:
        sys.exit(__doc__) if sys.argv[1:] else print(groups() + "\n" + layers(), end="")
        return
    for name, parts in ((PAGE, ((FIRST, groups(), LAST), (BEGIN, layers(), END))),
                        (CONTRIBUTING, ((COUNTS, counts(), LAST_COUNT),))):
        with open(name, encoding="utf-8") as file:
            page = file.read()
        for begin, text, end in parts:
            page = put(page, begin, text, end)
        with open(name, "w", encoding="utf-8") as file:
            file.write(page)


if __name__ == "__main__":
    main()
