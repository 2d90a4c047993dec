#!/usr/bin/env python3
"""docs/index.py [WORD | --calls | --write]

Prints an index of the definitions that contracts may cite: every public definition of the files `specs/*.antt`, by
name, with its crate, its file and the comment above it. With WORD only those whose name holds it. The last line
counts them. With --calls an index of the public calls, types and constants is printed, crate by crate, each with the
first sentence of its documentation and its file. With --write that one is put into docs/INDEX.md, which
docs/check.py compares with it.
"""
import os
import re
import sys

import layers

TOP = os.path.dirname(os.path.dirname(os.path.abspath(__file__)))
PAGE = os.path.join(TOP, "docs", "INDEX.md")
ITEM = re.compile(r"(?:pub )?(?:const )?(?:fn|struct|enum|trait|const|type) (\w+)")
HEAD = re.compile(
    r"^\s*(?:abbrev |unfoldable )?pub (?:data |record )([^\s:({]+)"
    r"|^(?:abbrev |unfoldable )?pub (?:data |record )?(?:abbrev )?([^\s:({]+)|^(?:data|record) pub ([^\s:({]+)")


def definitions(path):
    """The names that a file defines, each with the comment directly above it."""
    comment = []
    with open(path) as file:
        for line in file:
            if line.lstrip().startswith("-- "):
                comment.append(line.strip()[3:])
                continue
            found = HEAD.match(line)
            name = found and next(filter(None, found.groups()))
            if name and name not in ("mod", "use"):
                yield name, " ".join(comment)
            comment = []


def text_of(path):
    """A file's text; none where there is no file."""
    if not os.path.exists(path):
        return ""
    with open(path, encoding="utf-8") as file:
        return file.read()


def items(text):
    """The documented items of a source: the type or trait that each belongs to, its name, and its documentation."""
    owner, is_trait, said = "", False, []
    for line in text.split("\n"):
        word = line.strip()
        block = re.match(r"(?:pub )?(impl|trait)\b(?:<[^{]*?>)?\s*(?:[\w:<>, ]* for )?(\w+)", line)
        if word.startswith("///"):
            said.append(word[3:].strip())
            continue
        if word.startswith("#["):
            continue
        item = ITEM.match(word)
        if said and item and (word.startswith("pub ") or is_trait and line.startswith("    fn ")):
            is_inside = line.startswith("    ")
            if owner or not is_inside:
                yield owner if is_inside else "", item.group(1), " ".join(said)
        if block:
            owner, is_trait = block.group(2), block.group(1) == "trait"
        said = []


def exported(crate):
    """The names that a crate shows of its own modules: each with the module in front where that is public."""
    folder = os.path.join(TOP, "crates", crate, "src")
    top = text_of(os.path.join(folder, "lib.rt"))
    for module in re.findall(r"(?m)^pub mod (\w+);", top):
        for owner, name, _ in items(text_of(os.path.join(folder, module + ".rt"))):
            yield module, owner or name
    for path, several, one in re.findall(r"(?m)^pub use (?:self::|crate::)?([a-z_:]+)::(?:\{([^}]*)\}|(\w+));", top):
        if not path.startswith("om_"):
            for name in (several or one).replace("\n", " ").split(","):
                if name.strip():
                    yield "", name.strip()
    for _, name, _ in items(top):
        yield "", name


def sentence(text):
    """The first sentence of a documentation, without its links."""
    found = re.match(r".*?[.](?=\s|$)", text)
    plain = re.sub(r"\[(`[^`]*`)\](?:\([^)]*\))?", r"\1", found.group() if found else text)
    return plain.replace("|", "\\|")


def calls():
    """The page of the public calls, types and constants."""
    parts, count = [], 0
    for crate in " ".join(layers.GROUPS.values()).split():
        shown = dict.fromkeys(exported(crate))
        modules = {name: module for module, name in shown}
        folder = os.path.join("crates", crate, "src")
        rows = []
        for at, _, files in sorted(os.walk(os.path.join(TOP, folder))):
            for file in sorted(files):
                path = os.path.join(at, file)
                for owner, name, said in items(text_of(path)) if file.endswith(".rt") else []:
                    if (owner or name) in modules:
                        module = modules[owner or name]
                        called = "::".join(it for it in (module, owner, name) if it)
                        inside = os.path.relpath(path, os.path.join(TOP, "crates", crate))
                        rows.append("| `%s` | %s | `%s` |\n" % (called, sentence(said), inside))
        if rows:
            parts.append("## %s\n\n| Name | Says | File |\n|---|---|---|\n%s" % (crate, "".join(sorted(dict.fromkeys(rows)))))
            count += len(dict.fromkeys(rows))
    head = ("# Index of the public items\n\nThe %d documented calls, types and constants that the crates show, each "
            "with the first sentence of its documentation. `docs/index.py --write` makes this page, and the gate "
            "compares it. The definitions that contracts cite are listed by `docs/index.py` itself.\n\n" % count)
    return head + "\n".join(parts)


def stands_in(page):
    """Whether the page is the index of the public items."""
    return page == calls()


def main():
    if sys.argv[1:] in (["--calls"], ["--write"]):
        page = calls()
        if sys.argv[1] == "--calls":
            print(page, end="")
        else:
            with open(PAGE, "w", encoding="utf-8") as file:
                file.write(page)
        return 0
    wanted = sys.argv[1] if len(sys.argv) > 1 else ""
    rows = []
    crates = os.path.join(TOP, "crates")
    for crate in sorted(os.listdir(crates)):
        specs = os.path.join(crates, crate, "specs")
        for name in sorted(os.listdir(specs)) if os.path.isdir(specs) else []:
            if name.endswith(".antt") and name != "Lib.antt":
                rows += [(word, crate, name[:-5], text) for word, text in definitions(os.path.join(specs, name))
                         if wanted in word]
    for word, crate, file, text in sorted(rows, key=lambda row: (row[0].lower(), row[1])):
        print("%-36s %-16s %-18s %s" % (word, crate, file, text))
    print("definitions: %d" % len(rows))
    return 0


if __name__ == "__main__":
    try:
        sys.exit(main())
    except BrokenPipeError:
        # a reader that goes away, as head does, has what it wanted
        os.dup2(os.open(os.devnull, os.O_WRONLY), sys.stdout.fileno())
