"""theorems.py: what the files of Coq have in common that filters of this folder write. Python's standard library alone.
"""
SIGNS = {-1: "minus", 0: "zero", 1: "plus"}


def chirotope_text(chi, elements):
    """The list of a chirotope, which gives the sign -1, 0 or 1 of each increasing triple."""
    rows = {}
    for t in sorted(chi):
        rows.setdefault(t[:2], []).append(t)
    listed = []
    for (a, b), row in rows.items():
        signs = "".join("-0+"[chi[t] + 1] for t in row)
        listed.append("  (* %d %d .: %s *) %s" %
                      (a, b, signs, "; ".join("(%d,%d,%d,%s)" % (*t, SIGNS[chi[t]]) for t in row)))
    yield ("(* The sign of each triple of the %d elements; in front of a line its signs, "
           "in the order of the last element. *)" % elements)
    yield "Definition chirotope : list (triple * sign) := [\n%s\n]." % ";\n".join(listed)
    yield "\nLemma each_triple_once : map fst chirotope = triples %d." % elements
    yield "Proof. reflexivity. Qed.\n"
