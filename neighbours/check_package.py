#!/usr/bin/env python3
"""neighbours/check_package.py

Installs the package om-workbench from python/ into a fresh environment, without the network, and asks the program by it
from another folder. The program is named by OM_EACH, stands on the path, or is nowhere, which has a message. If mypy is
installed it has to see the package's types. Also: the archive of sources builds the same package. The last line is
'package: N passed, M failed', and the exit code is 1 if one failed.
"""
import glob
import os
import shutil
import subprocess
import sys
import tarfile
import tempfile

HERE = os.path.dirname(os.path.abspath(__file__))
TOP = os.path.dirname(HERE)
FOLDER = os.path.join(HERE, "python")
TALLY = {True: 0, False: 0}
ASK = """import importlib.metadata, om
bench = om.Workbench()
uniform = om.Document.chirotope(3, 4, "++++")
print(importlib.metadata.version("om-workbench"), bench.accept(uniform), bench.make(7, 4).plus)
"""
# pip may not ask for anything elsewhere
OFFLINE = {"PIP_NO_INDEX": "1", "PIP_DISABLE_PIP_VERSION_CHECK": "1", "PIP_INDEX_URL": "http://127.0.0.1:9/simple"}


def expect(what, found, wanted):
    """Counts a value, which has to be what is wanted."""
    TALLY[found == wanted] += 1
    if found != wanted:
        print("failed: %s\n--- wanted %r\n--- found  %r" % (what, wanted, found))


def run(words, room, **variables):
    """The exit code, the output and the errors of a run in a folder of its own; a variable that is None isn't set."""
    environment = {name: value for name, value in {**os.environ, **OFFLINE, **variables}.items() if value is not None}
    ended = subprocess.run(words, cwd=room, env=environment, capture_output=True, text=True, timeout=3600)
    return ended.returncode, ended.stdout, ended.stderr


def path_without_om():
    """The path without the folders that have the launcher."""
    return os.pathsep.join(it for it in os.environ["PATH"].split(os.pathsep)
                           if not any(os.path.exists(os.path.join(it, name)) for name in ("om-each", "om_each", "om")))


def look_at_package(room, python):
    with open(os.path.join(TOP, "VERSION")) as file:
        version = file.read().strip()
    each = os.path.join(TOP, "crates", "om_each", "out", "om_each")
    path = path_without_om()
    answered = (0, "%s True 2\n" % version, "")
    expect("OM_EACH names the program", run([python, "-c", ASK], room, OM_EACH=each, OM=None, PATH=path), answered)
    expect("the launchers are on the path",
           run([python, "-c", ASK], room, OM_EACH=None, OM=None, PATH=TOP + os.pathsep + path), answered)
    code, output, errors = run([python, "-c", ASK], room, OM_EACH=None, OM=None, PATH=path)
    said = errors.strip().split("\n")[-1]
    expect("no program", (code, output, said.startswith("FileNotFoundError: the program om_each isn't there. "),
                          "OM_EACH" in said and "install.sh" in said), (1, "", True, True))
    code, output, errors = run([python, "-c", ASK], room, OM_EACH="/nowhere/om_each", OM=None)
    expect("a name of no program", (code, "OM_EACH names no program: /nowhere/om_each" in errors), (1, True))
    if shutil.which("mypy"):
        words = ["mypy", "--python-executable", python, "--strict", "--no-incremental", "-c",
                 "import om\nx: bool = om.Workbench().accept('')\ny: int = om.Document.chirotope(1, 1, '+').kind"]
        expect("mypy sees the types", run(words, room)[1].count("error: "), 1)
    else:
        print("mypy isn't installed: the types of the package are not looked at")


def main():
    with tempfile.TemporaryDirectory() as room:
        venv = os.path.join(room, "fresh")
        if run([sys.executable, "-m", "venv", venv], room)[0]:
            print("venv with pip isn't installed (Debian: python3-venv): the package is not installed")
            return 0
        python = os.path.join(venv, "bin", "python")
        before = sorted(glob.glob(os.path.join(FOLDER, "**"), recursive=True))
        code, _, errors = run([python, "-m", "pip", "install", "-q", FOLDER], room)
        expect("pip install, %s" % errors, code, 0)
        expect("it leaves nothing behind", [it for it in sorted(glob.glob(os.path.join(FOLDER, "**"), recursive=True))
                                            if it not in before and "__pycache__" not in it], [])
        look_at_package(room, python)
        sys.path.insert(0, FOLDER)
        sys.dont_write_bytecode = True
        import build_om
        with tarfile.open(os.path.join(room, build_om.build_sdist(room))) as archive:
            archive.extractall(room)
        sources, = glob.glob(os.path.join(room, "om_workbench-*", ""))
        wheels = []
        for folder in FOLDER, sources:
            code, name, errors = run([python, "-c", "import build_om; print(build_om.build_wheel('.'))"], room,
                                     PYTHONPATH=folder, PYTHONDONTWRITEBYTECODE="1")
            expect("the package is built, %s" % errors, code, 0)
            with open(os.path.join(room, name.strip()), "rb") as file:
                wheels.append(file.read())
        expect("the same from an archive of sources", wheels[0] == wheels[1], True)
    print("package: %d passed, %d failed" % (TALLY[True], TALLY[False]))
    return 1 if TALLY[False] or not TALLY[True] else 0


if __name__ == "__main__":
    sys.exit(main())
