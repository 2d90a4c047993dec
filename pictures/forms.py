"""forms.py: a document or claim in one of the three forms of pictures. Python's standard library alone."""
from dataclasses import dataclass

import disk
import plane
import wires
from arrangements import Arrangement
from filters import Refused
from infinity import arrangement_like, arrangement_of, checked, score
from inputs import Input
from svg import GREY, MINUS, Picture, box_of_words, text

FORMS = ("wiring", "points", "disk")
# documents that differ in so few signs are drawn alike, side by side
SAME = 2


@dataclass
class Style:
    """How a picture is drawn: its form, or None for the one that fits the document; the triangles that are filled, as
    `all` or as one triple; the size of letters and the width of lines."""
    form: str = None
    triangles: object = None
    size: float = 15
    stroke: float = 2.4


def form_of(given: Input, style: Style):
    """The form in which a document is drawn. Triangles are cells between lines, and points have none."""
    if style.form:
        return style.form
    if given.document.kind == "wiring":
        return "wiring"
    return "points" if given.vectors and not style.triangles else "disk"


def drawn(given: Input, style: Style, like=None):
    """The picture of a document, and its arrangement, which is None for points. The lines have the order of those of
    the arrangement `like` where they can, and either the signs are nearly the same or infinity lies as well."""
    form = form_of(given, style)
    loops, classes = elements_of(given, form)
    if form == "points":
        picture, arrangement = points_picture(given, classes, style), None
    else:
        picture, arrangement = lines_picture(given, form, classes, style, like)
    if loops:
        add_loops(picture, "loops: " + ", ".join(map(given.name, loops)), style.size)
    picture.title = title_of(given)
    return picture, arrangement


def elements_of(given, form):
    """The loops, and the classes of parallel elements; a wiring diagram, also a flat one, has a wire for each
    element."""
    if form == "wiring" and given.document.kind == "wiring":
        return [], [[(e, 1)] for e in given.chirotope.elements]
    if given.chirotope.is_zero():
        raise Refused("all values are zero, so only the form `wiring` can be drawn")
    return given.chirotope.loops(), given.chirotope.classes()


def label(members, given, flip=1):
    """The names of a class of parallel elements, with a minus before those that run the other way. With the flip -1
    this is the other way of the first one."""
    return ",".join((MINUS if factor * flip < 0 else "") + given.name(e) for e, factor in members)


def points_picture(given, classes, style):
    if not given.vectors:
        raise Refused("the form `points` wants points, or a claim with vectors: `om decide` looks for some")
    labels = {members[0][0]: label(members, given) for members in classes}
    picture = plane.drawn(given.vectors, given.chirotope, labels, given.document.kind != "points", style.size)
    simple = given.chirotope.restricted(labels)
    picture.words = "%d points, %s. %s" % (len(labels), picture.words, concurrent(simple, "are on a line", given))
    return picture


def lines_picture(given, form, classes, style, like):
    """The picture of a document as a wiring or a disk, and its arrangement."""
    simple = given.chirotope.restricted([members[0][0] for members in classes])
    shown = disk.of_vectors(given.vectors, simple) if form == "disk" and given.vectors else None
    arrangement = shown.arrangement if shown else arrangement_for(given, form, simple, like)
    check_signs(given, arrangement, classes)
    members = {group[0][0]: group for group in classes}
    # the sign of an element with parallel ones can't be turned alone
    triples = chosen([mutation.triple for mutation in arrangement.mutations()
                      if all(len(members[e]) == 1 for e in mutation.triple)], style.triangles)
    if form == "wiring":
        labels = {e: label(members[e], given, flip) for e, flip in zip(arrangement.elements, arrangement.flips)}
        picture, kind = wires.drawn(arrangement, labels, style.size, style.stroke, triples), "wires"
    else:
        labels, kind = {e: label(members[e], given) for e in members}, "lines" if shown else "pseudolines"
        picture = disk.drawn(shown or disk.of_arrangement(arrangement), labels, style.size, style.stroke, triples)
    picture.words = "%d %s. %s" % (len(classes), kind, concurrent(simple, "meet in a point", given))
    if triples:
        picture.words += " Filled: %s." % "; ".join(names_of(triple, given) for triple in sorted(set(triples)))
    return picture, arrangement


def arrangement_for(given, form, simple, like):
    """The arrangement of a document: that of its wiring diagram in its own form, else one with a good line at
    infinity."""
    if given.document.kind == "wiring" and form == "wiring":
        return Arrangement(simple.elements, [1] * len(simple.elements), given.document.body)
    best, again = arrangement_of(simple), like and arrangement_like(simple, like)
    if again and (differences(again, like) <= SAME or score(again) >= score(best) - 1):
        return again
    return best


def differences(one, other):
    """How many signs two arrangements of the same elements don't share."""
    signs = other.signs()
    return sum(sign != signs[triple] for triple, sign in one.signs().items())


def check_signs(given, arrangement, classes):
    """Refuses signs that aren't those of the drawn lines, where an element has the line of its class and a loop has
    none."""
    line = {e: (members[0][0], factor) for members in classes for e, factor in members}
    table = given.chirotope.restricted(arrangement.elements)
    checked(arrangement, table)
    for triple, sign in given.chirotope.signs.items():
        (a, i), (b, j), (c, k) = (line.get(e, (0, 0)) for e in triple)
        if sign != table.value(a, b, c) * i * j * k:
            raise Refused("the signs aren't a chirotope: `om accept` names the violated instance")


def chosen(mutations, triangles):
    """Those of the mutations that are filled."""
    if triangles is None:
        return []
    if triangles == "all":
        return mutations
    if triangles not in mutations:
        raise Refused("%d,%d,%d isn't a mutation: `om mutations` lists them" % triangles)
    return [triangles]


def names_of(elements, given):
    return " ".join(map(given.name, elements))


def concurrent(simple, what, given):
    """What three and more elements have in common, in words."""
    sets = [names_of(crossing, given) for crossing in simple.crossings() if len(crossing) > 2]
    if not sets:
        return "No three %s." % what
    return "These %s: %s." % (what, "; ".join(sets))


def add_loops(picture: Picture, words, size):
    """Writes the loops below a picture."""
    place = picture.box.middle()[0], picture.box.bottom + 0.5 * size
    picture.body.append(text(place, words, size, GREY))
    picture.box = picture.box.with_box(box_of_words(place, words, size).wider(size / 4))
    picture.words += " " + words[0].upper() + words[1:] + "."


def title_of(given):
    """The title of a picture."""
    kind = {"chirotope": "Chirotope", "points": "Points", "wiring": "Wiring diagram"}[given.document.kind]
    claim = ", claimed to be " + given.verdict if given.verdict not in ("", "limit") else ""
    return "%s of rank 3 on %d elements%s" % (kind, given.document.elements, claim)
