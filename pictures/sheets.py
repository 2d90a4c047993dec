"""sheets.py: many small pictures on one sheet, row by row. Python's standard library alone."""
from filters import Refused
from forms import Style, drawn, form_of
from svg import GREY, Box, Picture, group, num, text

WIDTH = 720


def sheet(found, form, triangles, columns):
    """The picture of a sheet of documents and claims, so many in a row, numbered in their order. Lines of neighbours
    lie in the same order where they can."""
    cell = WIDTH / columns
    caption = min(14.0, 7 + cell / 40)
    verdicts, body, like = {given.verdict for given in found}, [], None
    for k, given in enumerate(found):
        style = style_of(form_of(given, Style(form, triangles)), triangles, cell)
        try:
            small, like = drawn(given, style, like)
        except Refused as refused:
            raise Refused("document %d: %s" % (k + 1, refused)) from None
        x, y = (k % columns + 0.5) * cell, k // columns * (cell + 1.6 * caption) + cell / 2
        scale = 0.94 * cell / max(small.box.width(), small.box.height())
        left, top = small.box.middle()
        place = ' transform="translate(%s %s)scale(%s)"' % (num(x - scale * left), num(y - scale * top),
                                                            ("%.4f" % scale).lstrip("0"))
        words = ["<title>%d: %s</title>" % (k + 1, small.words)]
        body += group(words + small.body, style.size, style.stroke, place)
        name = "%d %s" % (k + 1, given.verdict) if len(verdicts) > 1 else str(k + 1)
        body.append(text((x, y + cell / 2 + 0.4 * caption), name, caption, GREY,
                         more=' font-size="%s" font-weight="400"' % num(caption)))
    rows = -(-len(found) // columns)
    same = ", claimed to be %s" % min(verdicts) if len(verdicts) == 1 and verdicts - {"", "limit"} else ""
    return Picture(body, Box(0, 0, WIDTH, rows * (cell + 1.6 * caption)),
                   "Small pictures, %d in a row, numbered in the order of the documents." % columns,
                   "%d documents%s" % (len(found), same))


def style_of(form, triangles, cell):
    """Letters and lines that can be read on the sheet, in the units of a picture, which is shrunk to a cell."""
    units = (680 if form == "points" else 460) / 0.94 / cell
    return Style(form, triangles, min(14.0, 5 + cell / 40) * units, min(1.9, 0.7 + cell / 300) * units)
