#!/usr/bin/env python3
"""docs/picture.py [--write]

Draws the way of a document through the crates, and beside it the groups of crates that its steps stand on, as SVG. The
groups are those of docs/layers.py. With --write the picture is put into docs/architecture.svg, which docs/check.py
compares with it.
"""
import os
import sys
from xml.sax.saxutils import escape

import layers

PICTURE = os.path.join(layers.TOP, "docs", "architecture.svg")
WIDTH, LINE, GAP = 860, 19, 26
STEP_X, STEP_WIDTH, GROUP_X, GROUP_WIDTH = 20, 330, 440, 400
STYLE = """
  text { font: 14px sans-serif; fill: #222; }
  .title { font-weight: bold; }
  .edge { font-style: italic; }
  rect { fill: #fff; stroke: #555; }
  .group rect { fill: #eef3f8; }
  path { fill: none; stroke: #555; }
  .head { fill: #555; stroke: none; }
  @media (prefers-color-scheme: dark) {
    text { fill: #eee; }
    rect { fill: #1b1b1b; stroke: #aaa; }
    .group rect { fill: #22303c; }
    path { stroke: #aaa; }
    .head { fill: #aaa; }
  }
"""
# The steps of a run: the crates, what they do, and the groups whose crates they call.
STEPS = [
    ("om, om_each", "main hands over words and streams", []),
    ("om_words", "words become a task", []),
    ("om_port", "the bytes of the input are read", []),
    ("om_pieces", "om-each alone: a stream is cut", []),
    ("om_text, om_answer", "bytes become a document or a claim", ["Texts"]),
    ("om_representation", "a document becomes an oriented matroid", ["The four forms and what they denote"]),
    ("om_commands, om_plane", "the command answers",
     ["The four forms and what they denote", "Rank 3", "The linear program and evidence"]),
    ("om_reply, om_printing", "the answer becomes its text", []),
    ("om_port", "the text is written", []),
]
SHOWN = ["Texts", "The four forms and what they denote", "Rank 3", "The linear program and evidence", "Signs and sets"]


def text(x, y, words, kind=None):
    """A line of text that begins at a place."""
    return '<text x="%d" y="%d"%s>%s</text>' % (x, y, ' class="%s"' % kind if kind else "", escape(words))


def arrow_down(x, y, end):
    """An arrow from a place straight down."""
    return '<path d="M%d,%d V%d"/><path class="head" d="M%d,%d l-5,-9 h10 z"/>' % (x, y, end - 8, x, end)


def arrow_right(x, y, turn, end_x, end_y):
    """An arrow from a place to the right, which goes up or down at a turn."""
    return '<path d="M%d,%d H%d V%d H%d"/><path class="head" d="M%d,%d l-9,-5 v10 z"/>' % (
        x, y, turn, end_y, end_x - 8, end_x, end_y)


def wrapped(names, most=46):
    """The names in lines of at most so many letters."""
    lines = [""]
    for name in names:
        if len(lines[-1]) + len(name) > most:
            lines.append("")
        lines[-1] += ("" if not lines[-1] else " ") + name
    return lines


def picture():
    """The text of the picture."""
    drawn, starts, y = [], {}, 20
    step = 2 * LINE + 12
    for at, (crates, does, groups) in enumerate(STEPS):
        drawn.append('<rect x="%d" y="%d" width="%d" height="%d" rx="6"/>' % (STEP_X, y, STEP_WIDTH, step))
        drawn.append(text(STEP_X + 12, y + 20, crates, "title"))
        drawn.append(text(STEP_X + 12, y + 20 + LINE, does))
        for group in groups:
            starts.setdefault(group, []).append((at, y + step // 2))
        if at + 1 < len(STEPS):
            drawn.append(arrow_down(STEP_X + STEP_WIDTH // 2, y + step, y + step + GAP))
        y += step + GAP
    bottom, y = y - GAP, starts[SHOWN[0]][0][1] - step
    for title in SHOWN:
        lines = wrapped(layers.GROUPS[title].split())
        size = LINE * (len(lines) + 1) + 14
        drawn.append('<g class="group"><rect x="%d" y="%d" width="%d" height="%d" rx="6"/>' % (
            GROUP_X, y, GROUP_WIDTH, size))
        bears_all = "" if title in starts else ", on which all crates stand"
        drawn.append(text(GROUP_X + 12, y + 20, title + bears_all, "title"))
        drawn += [text(GROUP_X + 12, y + 20 + LINE * (k + 1), line) for k, line in enumerate(lines)]
        drawn.append("</g>")
        callers = starts.get(title, [])
        for k, (at, place) in enumerate(callers):
            end = y + size * (k + 1) // (len(callers) + 1)
            drawn.append(arrow_right(STEP_X + STEP_WIDTH, place, GROUP_X - 15 * (at - 2), GROUP_X, end))
        y += size + GAP
    height = max(bottom, y - GAP) + 20
    head = '<svg xmlns="http://www.w3.org/2000/svg" viewBox="0 0 %d %d" role="img">' % (WIDTH, height)
    title = "The way of a document through the crates"
    said = ("From the top: " + "; ".join("%s: %s" % (crates, does) for crates, does, _ in STEPS) + ". Beside the steps "
            "stand the groups of crates whose calls they make; all stand on the crates for signs and sets.")
    parts = [head, "<title>%s</title>" % title, "<desc>%s</desc>" % escape(said), "<style>%s</style>" % STYLE]
    return "\n".join(parts + drawn + ["</svg>"]) + "\n"


def is_drawn():
    """Whether the picture of the repository is this one."""
    with open(PICTURE, encoding="utf-8") as file:
        return file.read() == picture()


def main():
    if sys.argv[1:] not in ([], ["--write"]):
        sys.exit(__doc__)
    if sys.argv[1:]:
        with open(PICTURE, "w", encoding="utf-8") as file:
            file.write(picture())
    else:
        print(picture(), end="")


if __name__ == "__main__":
    main()
