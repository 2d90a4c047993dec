#!/usr/bin/env python3
"""bench/house.py [--list] [FOLDER]

What a reader of the sources stumbles over, in this copy of the repository or in that at FOLDER:

  spare copies          statements that are proved more than once, each counted once less than it stands. The names
                        of bound variables make no difference.
  wide lines            lines of more than 120 characters
  long files            files of more than 300 lines
  empty calls           calls of functions that give no result and change nothing, which only bring a fact to hand
  raw requirements      `requires` lines of functions with a parameter of type RawMap that name a field of it: its
                        elements, its rank or its signs
  hand walks            assignments `s = s.following();`, which step from one subset to the next
  counted loops         `for i in 0..x.len()`, whatever number it begins at and whatever is added to the end
  long answers          files Answers.antt in proofs/ of more than 80 lines
  undocumented lemmas   lemmas of one crate that another crate cites, with no comment on the line above
  unreachable arms      `unreachable!()` in code
  command files         files of the whole repository, apart from this one, with the letters of one command, `upgrade`:
                        about as many would name a new one. `out`, folders whose name begins with a dot, and files
                        that a script of the repository makes, as they say at their beginning, are left out.
  mere calls            private functions, methods of a trait apart, whose whole body is one call with nothing but
                        their own parameters

All but the command files are counted in the .rt and .antt files in src/, specs/ and proofs/ of all crates; hand walks
leave out the crates of tests, one of which tests that very call. Prints a line for each, with the number. With --list
each place comes below. Two copies of the repository are compared by two calls.
"""
import collections
import os
import re
import sys

TOP = os.path.dirname(os.path.dirname(os.path.abspath(__file__)))
STATEMENT = re.compile(r"(?:pub )?([^\s:]+) : (.*)")
NOT_STATEMENTS = ("--", "use ", "mod ", "pub mod ", "pub use ", "abbrev ", "data ", "record ", "pub data ",
                  "pub record ")
WORD = re.compile(r"[(){}\[\];,]|[^\s(){}\[\];,]+")
NAME = re.compile(r"[\w'-]+$")
FUNCTION = re.compile(r"^ *(?:pub )?fn (\w+)(?:<[^(]*>)?\(([^)]*)\)\s*(->)?", re.M)
HEAD = re.compile(r"( *)(pub(?:\([a-z]+\))? )?fn (\w+)(.*)")
IMPLEMENTS_TRAIT = re.compile(r"impl\b.* for ")
RAW_MAP = re.compile(r"(\w+): (?:&(?:'\w+ )?(?:mut )?)?RawMap\b")
CALL = re.compile(r"([\w:.]+)\(([^()]*)\)$")
CITATION = re.compile(r"use Rattle\.(om\w*)\.proofs\.([^\s{}]+)\.\{([^}]*)\}")
LONG_ANSWER = 80
COMMAND = b"upgrade"
MADE = re.compile(rb"made by [\w/]+\.py|[\w/]+\.py --write` makes this page")


def sources(top):
    """The paths of the sources, from the folder of the crates, with their lines."""
    crates = os.path.join(top, "crates")
    for crate in sorted(os.listdir(crates)):
        for part in ("src", "specs", "proofs"):
            for folder, _folders, files in sorted(os.walk(os.path.join(crates, crate, part))):
                for name in sorted(files):
                    if name.endswith((".rt", ".antt")):
                        path = os.path.join(folder, name)
                        with open(path, encoding="utf-8") as file:
                            yield os.path.relpath(path, crates), file.read().splitlines()


def statements(lines):
    """The names and the statements of the lemmas of a file, and where they begin. The goals of functions, which the
    toolchain names, are left out."""
    for place, line in enumerate(lines):
        match = STATEMENT.match(line)
        if match and not line.startswith(NOT_STATEMENTS):
            text = [match[2]]
            for more in lines[place + 1:]:
                if not more.startswith(" "):
                    break
                text.append(more)
            statement = " ".join(part.split("--")[0] for part in text)
            if not statement.startswith("goal."):
                yield match[1], statement, place + 1


def anonymous(statement):
    """The statement with its bound variables numbered in the order in which they are bound."""
    words, numbers = WORD.findall(statement), {}
    for place, word in enumerate(words):
        bound = []
        if word in "({":
            for name in words[place + 1:]:
                if not NAME.match(name):
                    break
                bound.append(name)
            if words[place + 1 + len(bound):][:1] != [":"]:
                bound = []
        elif word == "λ":
            for name in words[place + 1:]:
                bound.append(name.rstrip("."))
                if name.endswith("."):
                    break
        for name in bound:
            numbers.setdefault(name, "v%d" % len(numbers))
    return " ".join(".".join(numbers.get(part, part) if first == 0 else part for first, part in
                             enumerate(word.split("."))) for word in words)


def spare_copies(files):
    places = collections.defaultdict(list)
    for path, lines in files:
        if path.endswith(".antt"):
            for name, statement, line in statements(lines):
                text = anonymous(statement)
                if len(text.split()) > 3:
                    places[text].append("%s:%d: %s" % (path, line, name))
    for text, found in sorted(places.items(), key=lambda item: (-len(item[1]), item[0])):
        for place in found[1:]:
            yield "%s, as %s" % (place, found[0])


def wide_lines(files):
    for path, lines in files:
        for place, line in enumerate(lines):
            if len(line) > 120:
                yield "%s:%d: %d characters" % (path, place + 1, len(line))


def long_files(files):
    for path, lines in files:
        if len(lines) > 300:
            yield "%s: %d lines" % (path, len(lines))


def empty_calls(files):
    """Calls, as statements, of functions whose receiver and arguments stay as they are, and that give no result."""
    code = [(path, lines) for path, lines in files if path.endswith(".rt")]
    changing, empty = set(), set()
    for path, lines in code:
        for name, arguments, result in FUNCTION.findall("\n".join(lines)):
            (changing if result or "mut" in arguments else empty).add(name)
    call = re.compile(r"^\s*(?:[\w.*()&]+\.|)(\w+)\([^;]*\);$")
    for path, lines in code:
        for place, line in enumerate(lines):
            match = call.match(line)
            if match and match[1] in empty - changing:
                yield "%s:%d: %s" % (path, place + 1, match[1])


def code_lines(files):
    """The lines of code, comments left out, with their places."""
    for path, lines in files:
        if path.endswith(".rt"):
            for place, line in enumerate(lines):
                if not line.lstrip().startswith("//"):
                    yield "%s:%d" % (path, place + 1), line


def functions(files):
    """The functions of the code as (place, name, is private, parameters, clauses, body), the last two as lists of
    lines. The methods of a trait aren't private. Stands on the layout of `rt fmt`: the brace that closes a body, a
    list of parameters or an `impl` has the indent of the line that opens it, and each clause begins its line."""
    for path, lines in files:
        if not path.endswith(".rt"):
            continue
        of_trait = False
        for place, line in enumerate(lines):
            if line and not line.startswith((" ", "}")):
                of_trait = bool(IMPLEMENTS_TRAIT.match(line)) or line.startswith(("trait ", "pub trait "))
            match = HEAD.match(line)
            if not match:
                continue
            indent, public, name, rest = match.groups()
            parameters, clauses, body = rest, [], []
            below = iter(lines[place + 1:])
            # over several lines a list of parameters ends at the line of its closing bracket
            if rest.endswith("("):
                for more in below:
                    parameters += " " + more.strip()
                    if more.startswith(indent + ")"):
                        break
            if not parameters.endswith(("{", ";", "}")):
                for more in below:
                    if more == indent + "{":
                        break
                    clauses.append(more.strip())
                    if more.endswith(";"):
                        break
            for more in below:
                if more == indent + "}" or more and not more.startswith(indent + " "):
                    break
                body.append(more.strip())
            is_private = not public and not (of_trait and indent)
            yield "%s:%d" % (path, place + 1), name, is_private, parameters.split("->")[0], clauses, body


def raw_requirements(files):
    for place, name, _is_private, parameters, clauses, _body in functions(files):
        maps = RAW_MAP.findall(parameters)
        if maps:
            field = re.compile(r"\b(?:%s)\.(?:now\.|old\.)?(?:elements|rank|signs)\b" % "|".join(maps))
            for clause in clauses:
                if clause.startswith("requires") and field.search(clause):
                    yield "%s: %s %s" % (place, name, clause)


def hand_walks(files):
    step = re.compile(r"\s*(\w+) = \1\.following\(\);$")
    for place, line in code_lines(files):
        if step.match(line) and not place.split(os.sep)[0].endswith("tests"):
            yield "%s: %s" % (place, line.strip())


def counted_loops(files):
    loop = re.compile(r"\s*for \w+ in \d+\.\.[\w.]+\.len\(\)")
    for place, line in code_lines(files):
        if loop.match(line):
            yield "%s: %s" % (place, line.strip())


def long_answers(files):
    for path, lines in files:
        if path.split(os.sep)[1] == "proofs" and os.path.basename(path) == "Answers.antt" and len(lines) > LONG_ANSWER:
            yield "%s: %d lines" % (path, len(lines))


def undocumented_lemmas(files):
    """Lemmas, at the margin or in a module with parameters, that a file of another crate names in a `use`."""
    cited = set()
    for path, lines in files:
        for crate, module, names in CITATION.findall("\n".join(lines)):
            if crate != path.split(os.sep)[0]:
                cited.update((crate, module, name.split(" as ")[0].strip()) for name in names.split(","))
    for path, lines in files:
        crate, part, inside = (path.split(os.sep, 2) + [""])[:3]
        if part == "proofs":
            module = os.path.splitext(inside)[0].replace(os.sep, ".")
            for place, line in enumerate(lines):
                match = re.match(r"\s*pub ([^\s:]+) :", line)
                if match and (crate, module, match[1]) in cited:
                    if place == 0 or not lines[place - 1].lstrip().startswith("--"):
                        yield "%s:%d: %s" % (path, place + 1, match[1])


def unreachable_arms(files):
    for place, line in code_lines(files):
        if "unreachable!()" in line:
            yield "%s: %s" % (place, line.strip())


def command_files(top):
    own = os.path.join("bench", os.path.basename(__file__))
    for folder, folders, files in os.walk(top):
        folders[:] = sorted(name for name in folders if name not in ("out", "__pycache__") and not name.startswith("."))
        for name in sorted(files):
            path = os.path.relpath(os.path.join(folder, name), top)
            if path != own and os.path.isfile(os.path.join(top, path)):
                with open(os.path.join(top, path), "rb") as file:
                    text = file.read()
                if COMMAND in text and not MADE.search(text[:400]):
                    yield path


def mere_calls(files):
    for place, name, is_private, parameters, _clauses, body in functions(files):
        call = CALL.match(" ".join(body))
        if is_private and call:
            own = set(re.findall(r"(\w+): ", parameters)) | {"self"}
            given = [re.sub(r"^(?:[&*]|mut )+", "", word.strip()) for word in call[2].split(",") if word.strip()]
            if all(word in own for word in given):
                yield "%s: %s is %s" % (place, name, call[0])


def main():
    arguments = sys.argv[1:]
    listed = "--list" in arguments
    folders = [word for word in arguments if word != "--list"]
    if len(folders) > 1 or any(word.startswith("-") for word in folders):
        print("usage: bench/house.py [--list] [FOLDER]", file=sys.stderr)
        return 2
    top = folders[0] if folders else TOP
    if not os.path.isdir(os.path.join(top, "crates")):
        print("house: no crates in %s" % top, file=sys.stderr)
        return 1
    files = list(sources(top))
    for title, found in (("spare copies", spare_copies(files)), ("wide lines", wide_lines(files)),
                         ("long files", long_files(files)), ("empty calls", empty_calls(files)),
                         ("raw requirements", raw_requirements(files)), ("hand walks", hand_walks(files)),
                         ("counted loops", counted_loops(files)), ("long answers", long_answers(files)),
                         ("undocumented lemmas", undocumented_lemmas(files)),
                         ("unreachable arms", unreachable_arms(files)), ("command files", command_files(top)),
                         ("mere calls", mere_calls(files))):
        places = list(found)
        print("%-20s %5d" % (title, len(places)))
        if listed:
            for place in places:
                print("    " + place)
    return 0


if __name__ == "__main__":
    sys.exit(main())
