#!/usr/bin/env python3
"""bench/gate.py EARLIER LATER [NAME ..]

Runs `rt ci` on two commits of this repository side by side, both from nothing and with their must-fail edits, each on
half of the processors. With names only these crates are proved and tried, and what they stand on is proved. Prints a
line for each commit when it has ended, with its minutes by the clock, its processor minutes and the last line of
`rt ci`, and then the ratios of the later to the earlier. So the host, whose speed changes from hour to hour, is the
same for both. Both get a folder of their own beside the toolchain, where rt keeps what is proved: it is left out of
account, and nothing is added to it. The exit code is 1 if one of the two failed.
"""
import os
import shutil
import subprocess
import sys
import tempfile
import threading
import time

TOP = os.path.dirname(os.path.dirname(os.path.abspath(__file__)))


def lay_out(room, commit):
    """A copy of the toolchain, by second names of its files, and one of the commit. Gives the folders of both."""
    kit, tree = os.path.join(room, "rattle"), os.path.join(room, "tree")
    page = subprocess.run(["rt", "doc"], capture_output=True, text=True, check=True).stdout.split()[0]
    subprocess.run(["cp", "-al", os.path.dirname(page), kit], check=True)
    subprocess.run(["git", "clone", "-q", TOP, tree], check=True)
    subprocess.run(["git", "-C", tree, "checkout", "-q", commit], check=True)
    return kit, tree


def run(state, names, processors):
    """Runs the gate of one commit, and puts its minutes, its processor minutes and its end into the state."""
    kit, tree = state["folders"]
    path = os.path.join(kit, "bin") + os.pathsep + os.environ["PATH"]
    environment = dict(os.environ, PATH=path, RT_JOBS=str(len(processors)))
    began = time.monotonic()
    with open(os.path.join(os.path.dirname(tree), "log"), "w+") as log:
        process = subprocess.Popen(["rt", "ci", *names], cwd=tree, env=environment, stdout=log, stderr=subprocess.STDOUT,
                                   preexec_fn=lambda: os.sched_setaffinity(0, processors))
        _process, status, used = os.wait4(process.pid, 0)
        log.seek(0)
        said = [line for line in log.read().splitlines() if line.strip()]
    state.update(failed=status != 0, minutes=(time.monotonic() - began) / 60, said=said[-1] if said else "",
                 processor=(used.ru_utime + used.ru_stime) / 60)
    print("%s: %.1f minutes, %.1f processor minutes; %s" % (state["commit"], state["minutes"], state["processor"],
                                                            state["said"]), flush=True)


def main():
    if len(sys.argv) < 3 or any(word.startswith("-") for word in sys.argv[1:]):
        print("usage: bench/gate.py EARLIER LATER [NAME ..]", file=sys.stderr)
        return 2
    processors, beside = sorted(os.sched_getaffinity(0)), os.path.dirname(os.path.realpath(shutil.which("rt") or "/"))
    half = len(processors) // 2
    if half < 1:
        print("gate: two processors are needed", file=sys.stderr)
        return 1
    with tempfile.TemporaryDirectory(dir=os.path.dirname(os.path.dirname(beside))) as room:
        states = []
        for place, commit in enumerate(sys.argv[1:3]):
            os.mkdir(os.path.join(room, str(place)))
            states.append({"commit": commit, "folders": lay_out(os.path.join(room, str(place)), commit)})
        parts = processors[:half], processors[half:2 * half]
        runs = [threading.Thread(target=run, args=(state, sys.argv[3:], part)) for state, part in zip(states, parts)]
        for thread in runs:
            thread.start()
        for thread in runs:
            thread.join()
    earlier, later = states
    print("ratio: %.2f by the clock, %.2f in processor time" % (later["minutes"] / earlier["minutes"],
                                                               later["processor"] / earlier["processor"]))
    return int(any(state["failed"] for state in states))


if __name__ == "__main__":
    sys.exit(main())
