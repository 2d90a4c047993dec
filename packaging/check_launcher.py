#!/usr/bin/env python3
"""packaging/check_launcher.py

Runs the launchers with standard error at a terminal and elsewhere, and compares output and exit code. At the terminal
there have to be the hints that a person needs, and elsewhere nothing on standard error; help that is asked for stands
there in both places. Then it lets the launchers build, with a replacement for rt that takes the programs that are
built here. This is tried if a program is missing, if a source is newer, if a proof fails, twice at once, and with words
that need no build. Last it types into bash, zsh and fish, as far as they are installed, and looks at what they
complete. The last line is 'launcher: N passed, M failed', and the exit code is 1 if one failed.
"""
import os
import pty
import re
import select
import shutil
import signal
import subprocess
import sys
import tempfile
import time

TOP = os.path.dirname(os.path.dirname(os.path.abspath(__file__)))
TALLY = {True: 0, False: 0}
UNIFORM = b"om 1\nchirotope 3 4\n++++\nend\n"
# the least uniform chirotope on four elements, which is alone in its class
CHAIN = b"om 1\nchirotope 3 4\n----\nend\n"
# it proves crates, but the one that FAILS names, notes each call in a file, and gives a program where there is none; with
# WAITS it goes on for twenty seconds, and SIGTERM doesn't end it
STAND_IN = """#!/bin/sh
name=${PWD##*/}
case $1 in
  doc) echo "$PAGE" ;;
  ci)
    echo "ci:$(ls crates | paste -sd+)" >>"$BUILT"
    [ -z "${WAITS-}" ] || { trap '' TERM; cd crates/om_text && exec sleep 20; }
    ls -d crates/*/must-fail crates/*/out 2>/dev/null && exit 2
    for crate in om_signs om_rows om_text om_pieces om_program om om_each; do
      [ -f "crates/$crate/src/lib.rt" ] && grep -q "^$crate:" crates.txt || continue
      if [ "$crate" = "${FAILS-}" ]; then
        printf '== %s\\nfn f: not proved in %s\\nrt: %s NOT PROVED\\n' "$crate" "$PWD/crates/$crate" "$crate"
        printf 'rt: om_program NOT PROVED: its library %s failed\\nrt: FAILED: %s\\n1 passed, 2 failed\\n' "$crate" "$crate"
        exit 1
      fi
      printf '== %s\\nfn g: proved\\nrt: %s proved\\n' "$crate" "$crate"
      case $crate in
        om | om_each) mkdir "crates/$crate/out" && cp "$PROGRAMS/$crate/out/$crate" "crates/$crate/out/" ;;
      esac
    done
    sleep 0.5
    ;;
  *)
    echo "$1-$name" >>"$BUILT"
    ls -d ../*/out/rt-work-* 2>/dev/null && exit 2
    [ -z "${FAILS-}" ] || { printf '== %s\\nfn f: not proved\\n== summary\\n%s: failed (1)\\n' "$FAILS" "$FAILS"; exit 1; }
    [ "$1" = all ] || { mkdir -p out && { [ -x "out/$name" ] || cp "$PROGRAMS/$name/out/$name" out/; } && "out/$name"; }
    ;;
esac
"""


def expect(what, found, wanted):
    """Counts a run, which has to give what is wanted."""
    TALLY[found == wanted] += 1
    if found != wanted:
        print("failed: %s\n--- wanted %r\n--- found  %r" % (what, wanted, found))


def run(tree, words, data=b"", **more):
    """The exit code, the output and the errors of a run whose standard error is no terminal."""
    ended = subprocess.run(words, input=data, stdout=subprocess.PIPE, stderr=subprocess.PIPE, cwd=tree, timeout=60,
                           **more)
    return ended.returncode, ended.stdout, ended.stderr


def run_on_terminal(tree, words, data=b"", typed=None, **more):
    """The exit code, the output and the errors of a run whose standard error is a terminal; and its input too, where
    something is typed."""
    ours, theirs = os.openpty()
    given = {"stdin": theirs} if typed is not None else {} if "stdin" in more else {"stdin": subprocess.PIPE}
    process = subprocess.Popen(words, stdout=subprocess.PIPE, stderr=theirs, cwd=tree, **given, **more)
    if typed is not None:
        os.write(ours, typed + b"\x04")
    output, _ = process.communicate(data if process.stdin else None, timeout=60)
    errors = b""
    while select.select([ours], [], [], 0)[0]:
        errors += os.read(ours, 65536)
    os.close(ours)
    os.close(theirs)
    return process.returncode, output, errors.replace(b"\r\n", b"\n")


def bytes_of(*path):
    with open(os.path.join(*path), "rb") as file:
        return file.read()


def commands(tree, table="commands.txt"):
    """The commands of a table, each with what it answers, what its words are, and an example."""
    return [block.strip().split("\n") for block in bytes_of(tree, "completions", table).decode().split("\n\n")
            if not block.startswith("#")]


def hints(tree):
    """What a person sees, and that it changes nothing else."""
    for words, data, hint in [
        (["./om", "accept"], UNIFORM, b""), (["./om", "accept"], b"om 1\nend\n", b""),
        (["./om", "make", "7", "--count=3"], b"", b""),
        (["./om"], b"", b"  om hull                         whether the oriented matroid is acyclic, and which"),
        (["./om", "acept"], b"", b"om: acept is no command; the nearest is\n  om accept  "),
        (["./om", "conv", "circuits"], b"",
         b"om: conv is no command; the nearest is\n  om convert chirotope|circuits|cocircuits|covectors  the same"),
        (["./om", "picture"], b"", b"om: picture is no command; these are\n  om accept\n"),
        (["./om", "extend", "3"], b"", b"om: the words aren't right; the command is\n  om extend [--first=K]\n"),
        (["./om", "delete", "0"], b"", b"      E is an element, a number from 1 to 20"),
        (["./om", "decide", "--box=5000"], b"", b"      K is a number from 1 to 1000 [6], T from 1 to"),
        (["./om", "lexext", "4"], b"", b"om: a sign is missing in front of 4: +4 or -4\n"),
        (["./om", "accept", "examples/nothing.om"], b"",
         b"om: there is no file examples/nothing.om; documents come from standard input: om accept < FILE\n"),
        (["./om", "nothing.om"], b"",
         b"om: there is no file nothing.om; documents come from standard input: om accept < FILE\n"),
        (["./om", "check", "examples/pappus.om", "examples/pappus-vectors.om"], b"",
         b"om: a claim holds its document, and comes from standard input: om check < CLAIM\n"),
        (["./om", "accept", "examples/pappus.om", "examples/loops.om"], b"",
         b"om: documents come from standard input, and many of them in one stream: cat FILES | om-each accept\n"),
        (["./om", "convert", "circuits", "examples/pappus.om"], b"",
         b"om: documents come from standard input: om convert circuits < examples/pappus.om\n"),
        (["./om", "examples/pappus.om"], b"",
         b"om: documents come from standard input: om accept < examples/pappus.om\n"),
        (["./om-classes", "uniform"], CHAIN, b""),
        (["./om-classes", "uniform", "--complete"], UNIFORM, b""),
        (["./om-classes"], b"", b"  om-classes all [--complete]     whether lists on 4, 5, and so on elements have"),
        (["./om-classes", "unifrom"], b"", b"om-classes: unifrom is no command; the nearest is\n  om-classes uniform "),
        (["./om-classes", "all", "--exact"], b"", b"om-classes: the words aren't right; the command is\n  om-classes all "),
        (["./om-classes", "all", "examples/classes.om"], b"",
         b"om-classes: documents come from standard input: om-classes all < examples/classes.om\n"),
        (["./om-classes", "all", "examples/pappus.om", "examples/loops.om"], b"",
         b"om-classes: documents come from standard input, all lists in one stream: cat FILES | om-classes all\n"),
        (["./om-each", "accept"], UNIFORM * 2, b""),
        (["./om-each", "dul"], b"", b"om-each: dul is no command; the nearest is\n  om-each dual  "),
        (["./om-each", "make", "7"], b"", b"om-each: make is no command; these are\n  om-each accept\n"),
    ]:
        plain, shown = run(tree, words, data), run_on_terminal(tree, words, data)
        expect("%s: the same" % words, shown[:2], plain[:2])
        expect("%s: nothing on standard error" % words, plain[2], b"")
        expect("%s: the hint" % words, (hint in shown[2], bool(shown[2])), (True, bool(hint)))
    for words in (["--help"], ["-h"], ["help"], ["--version"], ["-V"], ["version"], ["help", "decide"], ["help", "x"],
                  ["decide", "--help"], ["decide", "-h"], ["flip", "1", "--help"], ["check", "--version"],
                  ["x", "--help"], ["make", "--help"]):
        for launcher in "./om", "./om-each":
            plain, shown = run(tree, [launcher, *words]), run_on_terminal(tree, [launcher, *words])
            program = run(tree, ["crates/%s/out/%s" % ((launcher[2:].replace("-", "_"),) * 2), *words])
            expect("%s %s: the program's answer" % (launcher, words), (plain[:2], shown[:2]), (program[:2],) * 2)
            expect("%s %s: the same help" % (launcher, words), plain[2], shown[2])
            version = b"%s: version " % launcher[2:].encode() + bytes_of(tree, "VERSION")
            is_general = words[0] in ("--help", "-h", "help", "x") and "decide" not in words
            is_no_command = words[0] == "make" and launcher == "./om-each"
            if "ersion" in words[-1] or words[-1] == "-V":
                expect("%s %s: the version" % (launcher, words), plain[2], version)
            elif is_general or is_no_command:
                lines = plain[2].split(b"\n")
                starts = [b"  %s %s " % (launcher[2:].encode(), it.encode()) for it, _, _, _ in commands(tree)
                          if launcher == "./om" or not it.startswith("make")]
                found = [line for line in lines if line.startswith(tuple(starts))]
                expect("%s %s: a line for each" % (launcher, words), (len(found), version in plain[2]),
                       (len(starts), True))
            else:
                about = words[1] if words[0] == "help" else words[0]
                wanted = next(it for it in commands(tree) if it[0].split()[0] == about)
                expect("%s %s: the words and an example" % (launcher, words), plain[2].decode().count("\n"), 4)
                expect("%s %s: its words" % (launcher, words),
                       all(text in plain[2].decode() for text in wanted[:3]), True)
    for name, table in ("om", "commands.txt"), ("om-classes", "classes.txt"):
        page = bytes_of(tree, "man", name + ".1").decode().partition(".SH DESCRIPTION")[0].replace("\\-", "-")
        synopsis = [re.sub(r"\\f[A-Z]", "", it) for it in re.findall(r"^\.B %s (.*)$" % name, page, re.M)]
        expect("the synopsis of %s.1" % name, synopsis, [it[0] for it in commands(tree, table)])
        for text, answers, numbers, line in commands(tree, table):
            code, output, _ = run(tree, ["sh", "-c", "./" + line])
            expect("the example of %s" % text, (code, len(output) > 6, line.split()[1]), (0, True, text.split()[0]))
            said = run(tree, ["./" + name, "help", text.split()[0]])[2].decode()
            expect("help of %s %s" % (name, text), said, "  %s %s\n%s" % (name, text, "".join(
                "      %s\n" % it for it in (answers, numbers, line))))
    folder = os.open(tree, os.O_RDONLY)
    expect("a folder", run_on_terminal(tree, ["./om", "accept"], stdin=folder)[::2],
           (4, b"om: standard input is a folder, and can't be read; documents are read from a file: "
            b"om accept < FILE\n"))
    os.close(folder)
    waits = b"om: a document is read from the terminal up to Ctrl-D on a line of its own; a file: om accept < FILE\n"
    code, output, errors = run_on_terminal(tree, ["./om", "accept"], typed=UNIFORM)
    expect("a document that is typed", (code, output, waits in errors), (0, b"accepted\n", True))
    code, output, errors = run_on_terminal(tree, ["./om", "accept", "x"], typed=b"")
    expect("no document is waited for", (code, output, b"terminal" in errors), (2, b"usage 2\n", False))
    os.rename(os.path.join(tree, "crates", "om", "out"), os.path.join(tree, "away"))
    code, output, errors = run(tree, ["./om", "accept"], UNIFORM)
    expect("no program and no sources", (code, output, b"the program isn't there" in errors), (7, b"", True))
    os.rename(os.path.join(tree, "away"), os.path.join(tree, "crates", "om", "out"))
    with open("/dev/full", "wb") as full:
        process = subprocess.run(["./om", "accept"], input=UNIFORM, stdout=full, stderr=subprocess.PIPE, cwd=tree)
        expect("a full device", (process.returncode, process.stderr), (5, b""))


def seen(shell, setup, typed, wanted):
    """What a shell at a terminal shows for what is typed into it, until it has shown what is wanted."""
    process, ours = pty.fork()
    if not process:
        os.chdir(TOP)
        os.execvpe(shell[0], shell, dict(os.environ, TERM="dumb", PS1="$ ", INPUTRC="/dev/null"))
    shown, end = "", time.monotonic() + 30
    for text, ready in ((setup, "ready to type"), (typed, wanted)):
        os.write(ours, text.encode())
        shown = ""
        while ready not in shown and time.monotonic() < end:
            if select.select([ours], [], [], 0.1)[0]:
                shown += re.sub(r"\x1b\[[0-9;?]*[A-Za-z]|[\r\x07]", "", os.read(ours, 65536).decode(errors="replace"))
    os.kill(process, signal.SIGKILL)
    os.waitpid(process, 0)
    os.close(ours)
    return shown


def completes():
    """What the shells complete, and that all three files are made of the table."""
    made = subprocess.run([sys.executable, os.path.join(TOP, "completions", "make.py"), "--check"], capture_output=True)
    expect("the completions are made of the table", (made.returncode, made.stdout), (0, b""))
    ready = "; echo ready to' 'type\n"
    bash = "bind 'set show-all-if-ambiguous on'; source completions/om.bash" + ready
    zsh = "PS1='$ '; fpath=($PWD/completions $fpath); autoload -U compinit; compinit -D -u" + ready
    as_bash = ("PS1='$ '; autoload -U +X compinit bashcompinit; compinit -D -u; bashcompinit; "
               "source completions/om.bash" + ready)
    rows = [("om dec\t", "om decide "), ("om decide --box=\t", "--box=6"), ("om decide --st\t", "--steps="),
            ("om flip 18 \t", "19"), ("om accept < examples/pappus-po\t", "examples/pappus-points.om"),
            ("om-each thr\t", "om-each threeterm "), ("om-classes uni\t", "om-classes uniform "),
            ("om-classes all --co\t", "om-classes all --complete ")]
    for shell, setup in ((["bash", "--norc", "--noprofile", "-i"], bash), (["zsh", "-f", "-i"], zsh),
                         (["zsh", "-f", "-i"], as_bash)):
        if not shutil.which(shell[0]):
            print("%s isn't installed: its completions are not looked at" % shell[0])
            continue
        for typed, wanted in rows:
            if setup == as_bash and "<" in typed:
                continue  # files are zsh's own there
            shown = seen(shell, setup, typed, wanted)
            expect("%s, %r: %s" % (shell[0], typed, shown), (wanted in shown, "not found" in shown), (True, False))
    script = ('%ssource completions/om.bash; COMP_WORDS=("$@"); COMP_CWORD=$(($# - 1)); '
              'case $1 in om-classes) _om_classes ;; *) _om "$1" ;; esac; printf "%%s " "${COMPREPLY[@]}"')
    for words, wanted in ((["om-classes", ""], "all uniform"), (["om-classes", "all", ""], "--complete "),
                          (["om-classes", "x", ""], " "),
                          (["om", ""], "accept member"), (["om-each", "m"], "member mutations "),
                          (["om", "m"], "member mutations make "), (["om", "decide", "--box", "="], "6 "),
                          (["om", "decide", "--box", "=", "7"], " "),
                          (["om", "decide", "--box="], "--box=6 "), (["om", "flip", "18", ""], "19 20 "),
                          (["om", "reorient", "x", "1"], "1 10 11"), (["om", "accept", ""], " "),
                          (["om", "accept", "<", "ex"], " "), (["om", "make", "7", "--"], "--count= "),
                          (["om", "paint", "RG", "2"], "2 20 "), (["om", "lexext", "+20", "-1"], "-1 -10")):
        for without in "", "enable -n compopt; ":
            ended = subprocess.run(["bash", "-c", script % without, "om", *words], cwd=TOP, capture_output=True,
                                   text=True)
            expect("bash %s%s" % (without, words), (ended.stdout.startswith(wanted), ended.stderr), (True, ""))
    if not shutil.which("fish"):
        print("fish isn't installed: its completions are not looked at")
        return
    for typed, wanted in (("om dec", "decide\t"), ("om decide --box=", "--box=6\n"), ("om flip 18 ", "19\n20\n"),
                          ("om accept ", ""), ("om-each ma", "mutations"), ("om-classes uni", "uniform\t"),
                          ("om-classes all --c", "--complete\n"),
                          ("om accept < examples/pappus-po", "examples/")):
        ended = subprocess.run(["fish", "-N", "-c", 'source completions/om.fish; complete -C "%s"' % typed], cwd=TOP,
                               capture_output=True, text=True)
        expect("fish, %r" % typed, (ended.stdout[:len(wanted)] or ended.stdout, ended.stderr), (wanted, ""))


def builds(tree, room):
    """What is built, and when."""
    os.mkdir(os.path.join(room, "bin"))
    stand_in, calls, away = (os.path.join(room, *it) for it in (("bin", "rt"), ("calls",), ("away",)))
    os.mkdir(away)
    with open(stand_in, "w") as file:
        file.write(STAND_IN)
    os.chmod(stand_in, 0o755)
    environment = dict(os.environ, PATH=os.path.dirname(stand_in) + os.pathsep + os.environ["PATH"], TMPDIR=away,
                       PROGRAMS=os.path.join(TOP, "crates"), BUILT=calls, PAGE=os.path.join(room, "kit", "page"))
    environment.pop("RT_JOBS", None)
    for crate in "om_signs", "om_rows", "om_text", "om_program", "om_pieces", "om_tests", "om", "om_each":
        os.makedirs(os.path.join(tree, "crates", crate, "src"))
        os.makedirs(os.path.join(tree, "crates", crate, "must-fail"))
        with open(os.path.join(tree, "crates", crate, "src", "lib.rt"), "w"):
            pass
    with open(os.path.join(tree, "HANDLES"), "w") as file:
        file.write("Handles allowed: none.\n")
    with open(os.path.join(tree, "crates.txt"), "w") as file:
        file.write("# crates\nom_signs:\nom_rows: om_signs\nom_text: om_signs itoa\nom_pieces: om_text\n"
                   "om_tests: om_text\nom_program: om_text om_rows om_pieces\nom: om_program\nom_each: om_program\n")
    of_om = "ci:om+om_pieces+om_program+om_rows+om_signs+om_text"
    of_both = of_om.replace("om+", "om+om_each+", 1)

    def built():
        if not os.path.exists(calls):
            return []
        with open(calls) as file:
            found = file.read().split()
        os.remove(calls)
        return found

    def emptied(folder):
        # what is stopped doesn't wait for the removal
        end = time.monotonic() + 20
        while os.listdir(folder) and time.monotonic() < end:
            time.sleep(0.02)
        return os.listdir(folder)

    def touch(crate):
        # the clock of the files may be coarse
        time.sleep(0.02)
        os.utime(os.path.join(tree, "crates", crate, "src", "lib.rt"))

    def forget():
        for crate in os.listdir(os.path.join(tree, "crates")):
            shutil.rmtree(os.path.join(tree, "crates", crate, "out"), ignore_errors=True)

    for words in ["./om"], ["./om", "--help"], ["./om", "help"], ["./om", "acept"], ["./om-each", "make", "7"]:
        said = b"" if words[-1] not in ("--help", "help") else run(TOP, ["./om", "--help"])[2]
        expect("%s builds nothing" % words, run(tree, words, env=environment), (2, b"usage 1\n", said))
        code, output, errors = run_on_terminal(tree, words, env=environment)
        expect("%s on a terminal" % words, (code, output, b"om-each accept" in errors or b"om accept" in errors,
                                            built()), (2, b"usage 1\n", True, []))
    for words in ["./om", "decide", "--help"], ["./om-each", "make", "-h"], ["./om", "lexext", "--version"]:
        code, output, errors = run(tree, words, env=environment)
        expect("%s builds nothing" % words, (code, output, len(errors) > 10, built()), (2, b"usage 2\n", True, []))
    lacking = dict(environment, PATH=os.pathsep.join(it for it in os.environ["PATH"].split(os.pathsep)
                                                     if not os.path.exists(os.path.join(it, "rt"))))
    if shutil.which("awk", path=lacking["PATH"]):
        code, output, errors = run(tree, ["./om", "accept"], UNIFORM, env=lacking)
        expect("without rt", (code, output, b"rt" in errors), (7, b"", True))
    code, output, errors = run(tree, ["./om", "accept"], UNIFORM, env=dict(environment, FAILS="om_text"))
    said = (b"\n== om_text\nfn f: not proved in %s/crates/om_text\n" % tree.encode() in errors, b"fn g" in errors,
            b"om_program" in errors, errors.endswith(b"om: the build failed\n"))
    expect("a proof that fails in a first build", (code, output, *said, built()),
           (7, b"", True, False, False, True, [of_both]))
    code, output, errors = run_on_terminal(tree, ["./om", "accept"], UNIFORM, env=environment)
    found = (code, output, b"om: proving and building 7 crates" in errors, b"7 of 7 crates proved" in errors,
             b"om: proved and built" in errors, built())
    expect("a first call builds both side by side", found, (0, b"accepted\n", True, True, True, [of_both]))
    expect("the first call of the other one builds nothing",
           (run(tree, ["./om-each", "accept"], UNIFORM, env=environment), built()), ((0, b"accepted\n", b""), []))
    expect("the second one doesn't", (run(tree, ["./om", "accept"], UNIFORM, env=environment), built()),
           ((0, b"accepted\n", b""), []))
    touch("om_each")
    touch("om_tests")
    expect("nor where a source is newer that om doesn't stand on",
           (run(tree, ["./om", "accept"], UNIFORM, env=environment), built()), ((0, b"accepted\n", b""), []))
    touch("om_text")
    code, output, errors = run(tree, ["./om", "accept"], UNIFORM, env=dict(environment, FAILS="om_text"))
    expect("a newer source, and a proof that fails",
           (code, output, b"fn f: not proved" in errors, errors.endswith(b"om: the build failed\n"), built()),
           (7, b"", True, True, [of_om]))
    touch("om_signs")
    several = [subprocess.Popen(["./om", "accept"], stdin=subprocess.PIPE, stdout=subprocess.PIPE,
                                stderr=subprocess.DEVNULL, cwd=tree, env=environment) for _ in range(3)]
    outputs = [it.communicate(UNIFORM, timeout=60)[0] for it in several]
    expect("three calls at once build once", (outputs, built()), ([b"accepted\n"] * 3, [of_om]))
    forget()
    expect("both programs", (run(tree, ["packaging/build.sh"], env=environment)[:2], built()),
           ((0, b""), ["ci:om+om_each+om_pieces+om_program+om_rows+om_signs+om_text"]))
    expect("each in its place", [run(tree, [it, "accept"], UNIFORM, env=environment)[:2]
                                 for it in ("./om", "./om-each")], [(0, b"accepted\n")] * 2)
    stopped = subprocess.Popen(["packaging/build.sh", "om"], stdout=subprocess.PIPE, stderr=subprocess.DEVNULL,
                               cwd=tree, env=dict(environment, WAITS="yes"))
    end = time.monotonic() + 10
    while not os.path.exists(calls) and time.monotonic() < end:
        time.sleep(0.02)
    stopped.terminate()
    asked = time.monotonic()
    expect("one that is stopped", (stopped.wait(timeout=60), built()), (130, [of_om]))
    # within two seconds on an idle machine; rt would go on for twenty
    expect("it doesn't wait for rt", time.monotonic() - asked < 10, True)
    expect("no folder is left behind", emptied(away), [])
    ours, theirs = os.openpty()
    # a check that runs in the background is started with SIGINT ignored, and a shell can't trap a signal that was
    signal.signal(signal.SIGINT, signal.default_int_handler)
    stopped = subprocess.Popen(["packaging/build.sh", "om"], stdout=subprocess.PIPE, stderr=theirs, cwd=tree,
                               env=dict(environment, WAITS="yes"))
    shown, end = b"", time.monotonic() + 20
    while b"om_text" not in shown and time.monotonic() < end:
        if select.select([ours], [], [], 0.1)[0]:
            shown += os.read(ours, 65536)
    stopped.send_signal(signal.SIGINT)
    asked = time.monotonic()
    expect("one that is stopped at a terminal", (stopped.wait(timeout=60), built()), (130, [of_om]))
    expect("it doesn't wait for rt there", time.monotonic() - asked < 10, True)
    named = re.search(rb"om: 0 of 6 crates proved, 0 min \d\d s: om_text", shown)
    expect("a crate at work is named, %r" % shown[-200:], named is None, False)
    expect("no folder is left behind then", emptied(away), [])
    os.close(ours)
    os.close(theirs)
    # where rt can't keep what is proved, and where little is wanting, it builds in place
    unkept = dict(environment, PAGE="/no/such/kit/page")
    forget()
    # what a killed rt leaves, which is none that runs
    os.makedirs(os.path.join(tree, "crates", "om_text", "out", "rt-work-4194305-x", "rlib"))
    code, output, errors = run(tree, ["./om", "accept"], UNIFORM, env=dict(unkept, FAILS="om_text"))
    expect("a proof that fails in place",
           (code, output, b"== om_text\nfn f: not proved\n" in errors, errors.endswith(b"om: the build failed\n"), built()),
           (7, b"", True, True, ["all-om_each"]))
    expect("in place", (run(tree, ["./om", "accept"], UNIFORM, env=unkept)[:2], built()),
           ((0, b"accepted\n"), ["all-om_each", "run-om", "run-om_each"]))
    shutil.rmtree(os.path.join(tree, "crates", "om_each", "out"))
    for crate in "om_signs", "om_rows", "om_text", "om_pieces", "om_program":
        os.makedirs(os.path.join(tree, "crates", crate, "out", "rlib"), exist_ok=True)
        with open(os.path.join(tree, "crates", crate, "out", "rlib", "stamp"), "w"):
            pass
    code, output, errors = run(tree, ["./om-each", "accept"], UNIFORM, env=environment)
    expect("little is wanting", (code, output, errors, built()),
           (0, b"accepted\n", b"om: proving and building what has changed\n", ["run-om_each"]))
    touch("om_text")
    code, output, errors = run(tree, ["./om", "accept"], UNIFORM, env=dict(environment, FAILS="om_text"))
    expect("and its proof fails",
           (code, output, b"fn f: not proved" in errors, errors.endswith(b"om: the build failed\n"), built()),
           (7, b"", True, True, ["run-om"]))
    code, output, errors = run_on_terminal(tree, ["./om", "accept"], UNIFORM, env=environment)
    expect("and is mended", (code, output, b"om: proved and built" in errors, built()),
           (0, b"accepted\n", True, ["run-om"]))
    expect("once", (run(tree, ["./om", "accept"], UNIFORM, env=environment), built()), ((0, b"accepted\n", b""), []))
    expect("and nothing is left behind", os.listdir(away), [])


def main():
    with tempfile.TemporaryDirectory() as room:
        tree = os.path.join(room, "tree")
        os.makedirs(tree)
        for name in "om", "om-each", "om-classes", "VERSION", "man", "completions", "examples", "packaging":
            path = os.path.join(TOP, name)
            if os.path.isdir(path):
                shutil.copytree(path, os.path.join(tree, name))
            else:
                shutil.copy(path, tree, follow_symlinks=False)
        for name in "om", "om_each", "om_classes":
            os.makedirs(os.path.join(tree, "crates", name, "out"))
            shutil.copy(os.path.join(TOP, "crates", name, "out", name), os.path.join(tree, "crates", name, "out"))
        hints(tree)
        shutil.rmtree(os.path.join(tree, "crates"))
        builds(tree, room)
    completes()
    print("launcher: %d passed, %d failed" % (TALLY[True], TALLY[False]))
    return 1 if TALLY[False] or not TALLY[True] else 0


if __name__ == "__main__":
    sys.exit(main())
