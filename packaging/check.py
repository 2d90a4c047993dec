#!/usr/bin/env python3
"""packaging/check.py

Makes an archive of the built programs, unpacks it in a folder of its own, and runs every command after a `$` in its
README there, with a path without the toolchain. Then it installs from the unpacked archive, under a PREFIX and with
DESTDIR, runs what was installed, looks up the links of its pages, and takes it away again. The last line is
'packaging: N passed, M failed', and the exit code is 1 if one failed.
"""
import os
import re
import shutil
import subprocess
import sys
import tempfile

TOP = os.path.dirname(os.path.dirname(os.path.abspath(__file__)))
sys.path.insert(0, os.path.join(TOP, "examples"))
from check import sessions  # noqa: E402

TALLY = {True: 0, False: 0}
UNIFORM = b"om 1\nchirotope 3 4\n++++\nend\n"
TOOLS = ("rt", "rattle")


def expect(what, found, wanted):
    """Counts a run, which has to give what is wanted."""
    TALLY[found == wanted] += 1
    if found != wanted:
        print("failed: %s\n--- wanted %r\n--- found  %r" % (what, wanted, found))


def path_without_tools(room):
    """A path with all that this one has, but without the toolchain: of a folder that has it, the other programs are
    linked to."""
    folders, links = [], os.path.join(room, "bin")
    os.mkdir(links)
    for folder in os.environ["PATH"].split(os.pathsep):
        if not any(os.path.exists(os.path.join(folder, it)) for it in TOOLS):
            folders.append(folder)
            continue
        for name in os.listdir(folder):
            if not name.startswith(TOOLS) and not os.path.lexists(os.path.join(links, name)):
                os.symlink(os.path.join(folder, name), os.path.join(links, name))
    return os.pathsep.join([links] + folders)


def run(words, data, environment, **more):
    """The exit code, the output and the errors of a run."""
    ended = subprocess.run(words, input=data, stdout=subprocess.PIPE, stderr=subprocess.PIPE, env=environment,
                           timeout=60, **more)
    return ended.returncode, ended.stdout, ended.stderr


def broken_links(where):
    """The links of the pages below a folder that lead nowhere."""
    found = []
    for at, _, names in os.walk(where):
        for name in names:
            if name.endswith(".md"):
                with open(os.path.join(at, name)) as file:
                    text = re.sub(r"^```.*?^```", "", file.read(), flags=re.S | re.M)
                found += ["%s: %s" % (name, target) for target in re.findall(r"\]\(([^)#\s]+)", text)
                          if "://" not in target and not os.path.exists(os.path.join(at, target))]
    return found


def files_below(where):
    """The files and links below a folder, without the modules that Python compiles when they are used."""
    return sorted(os.path.relpath(os.path.join(at, name), where) for at, folders, names in os.walk(where)
                  for name in names + [it for it in folders if os.path.islink(os.path.join(at, it))]
                  if "__pycache__" not in at)


def look_at_removal(where, environment):
    """The list of what was installed is exact; what isn't installed any more is removed by the next install.sh, and all
    of it by --uninstall, but nothing else."""
    install, listed = os.path.join(TOP, "install.sh"), os.path.join(where, "share", "om", "installed.txt")
    with open(listed) as file:
        lines = file.read().split("\n")[:-1]
    expect("the list of what is installed", sorted(lines), files_below(where))
    for name in "mine", "earlier":
        with open(os.path.join(where, "share", "om", name), "w"):
            pass
    with open(listed, "a") as file:
        file.write("share/om/earlier\n../../outside\n")
    outside = os.path.join(os.path.dirname(where), "outside")
    with open(outside, "w"):
        pass
    expect("install anew", run([install, where], b"", environment)[0], 0)
    found = [os.path.exists(os.path.join(where, "share", "om", it)) for it in ("mine", "earlier", "om")]
    expect("what isn't there any more", found + [os.path.exists(outside)], [True, False, True, True])
    for at, folders, _ in os.walk(where):
        for name in folders:
            if name == "__pycache__":
                shutil.rmtree(os.path.join(at, name))
    expect("uninstall", run([install, "--uninstall", where], b"", environment)[::2], (0, b""))
    expect("what is left", files_below(where), ["share/om/mine"])
    expect("folders that are left", sorted(os.listdir(where)), ["share"])
    expect("nothing to uninstall", run([install, "--uninstall", where], b"", environment)[0], 1)
    # with DESTDIR, so that an install.sh which takes these words leaves the machine alone
    elsewhere = dict(environment, DESTDIR=os.path.join(os.path.dirname(where), "elsewhere"))
    for words in ([""], ["--uninstall", ""], ["--no"], ["a", "b"], ["--uninstall", "a", "b"]):
        expect("install.sh %s" % words, run([install, *words], b"", elsewhere)[:2], (2, b""))


def main():
    with tempfile.TemporaryDirectory() as room:
        subprocess.run([os.path.join(TOP, "packaging", "archive.sh"), room], check=True, stdout=subprocess.DEVNULL,
                       stderr=subprocess.DEVNULL)
        with open(os.path.join(TOP, "VERSION")) as file:
            version = file.read().strip()
        name = "om-%s-x86_64-linux.tar.gz" % version
        environment = dict(os.environ, PATH=path_without_tools(room))
        expect("no toolchain on the path", [shutil.which(it, path=environment["PATH"]) for it in TOOLS], [None, None])
        expect("the checksum", run(["sha256sum", "-c", name + ".sha256"], b"", environment, cwd=room)[0], 0)
        subprocess.run(["tar", "-xzf", name], cwd=room, check=True)
        tree = os.path.join(room, "om-" + version)
        expect("no sources", os.path.exists(os.path.join(tree, "crates.txt")), False)
        with open(os.path.join(tree, "PROVED")) as file:
            proved = file.read().splitlines()
        expect("the toolchain's line", proved[0], "Proved and built with " +
               subprocess.run(["rt", "version"], stdout=subprocess.PIPE, text=True).stdout.strip())
        expect("what they need", proved[2].startswith("for x86-64 and Linux with a C library that has GLIBC_2."), True)
        expect("the programs' checksums", run(["sha256sum", "-c"], "\n".join(proved[3:] + [""]).encode(), environment,
                                              cwd=tree)[0], 0)
        expect("links of the archive", broken_links(tree), [])
        with open(os.path.join(tree, "README.md")) as file:
            text = file.read()
        for command, wanted in sessions(text):
            code, out, _ = run(["bash", "-c", command], b"", environment, cwd=tree)
            expect("README: $ " + command, out.decode(), wanted)
        expect("the module", run(["python3", "neighbours/check_om.py"], b"", environment, cwd=tree)[0], 0)

        prefix, packed = os.path.join(room, "a prefix"), os.path.join(room, "dest")
        expect("install under a prefix", run(["./install.sh", prefix], b"", environment, cwd=tree)[0], 0)
        expect("install with DESTDIR", run(["./install.sh", "/usr"], b"", dict(environment, DESTDIR=packed),
                                           cwd=tree)[0], 0)
        shutil.rmtree(tree)
        for where in prefix, os.path.join(packed, "usr"):
            program, each = os.path.join(where, "bin", "om"), os.path.join(where, "bin", "om-each")
            expect("om in " + where, run([program, "accept"], UNIFORM, environment), (0, b"accepted\n", b""))
            expect("om-each in " + where, run([each, "accept"], UNIFORM * 2, environment), (0, b"accepted\n" * 2, b""))
            link = os.path.join(room, "another-name-for-each")
            os.symlink(each, link)
            for it in link, os.path.join(where, "share", "om", "om-each"):
                expect("%s, a link to om-each" % it, run([it, "accept"], UNIFORM * 2, environment),
                       (0, b"accepted\n" * 2, b""))
            os.remove(link)
            classes = os.path.join(where, "bin", "om-classes")
            expect("om-classes in " + where, run([classes, "all", "--complete"], UNIFORM, environment),
                   (1, b"refused list 4 missing 1 --0\n", b""))
            expect("help of om-classes in " + where, run([classes, "help", "all"], b"", environment)[2].count(b"\n"), 4)
            for file in ("man/man1/om.1", "man/man1/om-each.1", "man/man1/om-classes.1",
                         "bash-completion/completions/om", "bash-completion/completions/om-each",
                         "bash-completion/completions/om-classes", "zsh/site-functions/_om",
                         "fish/vendor_completions.d/om.fish", "fish/vendor_completions.d/om-classes.fish",
                         "om/neighbours/om.py",
                         "om/neighbours/python/pyproject.toml", "doc/om/README.md", "doc/om/docs/FORMATS.md",
                         "doc/om/pictures/non-pappus.svg", "doc/om/PROVED"):
                expect("%s in %s" % (file, where), os.path.isfile(os.path.join(where, "share", file)), True)
            expect("links in " + where, broken_links(where), [])
            expect("no checks in " + where, [it for it in files_below(where) if re.search("/check[^/]*[.]py$", it)], [])
            code, output, errors = run([program, "help", "decide"], b"", environment)
            expect("help in " + where, (code, output, b"om decide < examples/non-pappus.om" in errors),
                   (2, b"usage 1\n", True))
            expect("the version in " + where, run([each, "--version"], b"", environment)[2],
                   b"om-each: version %s\n" % version.encode())
            lists = os.path.join(where, "share", "om", "neighbours", "om-to-lists")
            expect("a filter in " + where, run([lists], UNIFORM, environment)[:2], (0, b"[1, 1, 1, 1]\n"))
            disk = os.path.join(where, "share", "om", "pictures", "to-svg")
            code, picture, _ = run([disk, "disk"], UNIFORM, environment)
            expect("a picture in " + where, (code, picture[:4], picture.count(b'class="w ')), (0, b"<svg", 4))
            module = ("import sys; sys.path.insert(0, sys.argv[1]); from om import *; "
                      "print(Workbench().accept(Document.chirotope(3, 4, '++++')))")
            expect("the module in " + where, run([sys.executable, "-c", module, os.path.dirname(lists)], b"",
                                                 environment)[1], b"True\n")
        expect("no file of the install has the first folder's name",
               subprocess.run(["grep", "-rlF", tree, prefix], stdout=subprocess.PIPE).stdout, b"")
        look_at_removal(prefix, environment)
    print("packaging: %d passed, %d failed" % (TALLY[True], TALLY[False]))
    return 1 if TALLY[False] or not TALLY[True] else 0


if __name__ == "__main__":
    sys.exit(main())
