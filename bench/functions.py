#!/usr/bin/env python3
"""functions.sh [NAME]: prints the seconds of each function in a crate's check, the longest first.

The check starts from nothing, includes the crate's tests, reads the built libraries below, and
keeps nothing. A function's time runs from the report of the function before it to its own. So the
first function that needs a library's modules pays for loading them. The time before the first
function has a line of its own: reading sources, and the libraries that a program links.

Then the script prints the same times by steps, by the names of the kit's files. Lts is the borrow
check. Tie is expensive where a function that is generic over a store is called for one type of
store (bench/GATE.md). A step's time runs from the step before it in the same process.

Without a name it runs nothing, and watches all checks that run on this machine, such as those of
`rt ci`. When it is interrupted (Ctrl-C) or terminated, it prints their steps, including steps from
before its own start.
"""
import collections
import glob
import os
import re
import signal
import subprocess
import sys
import tempfile
import threading
import time

sys.dont_write_bytecode = True
import kit

SHOWN = 20
# The file that a check writes for a step of a function:
# Rattle-CRATE-proofs.MODULE.FUNCTION.STEP.oantt
STEP = re.compile(r"Rattle-(\w+)-proofs\.(.+)\.(\w+)\.oantt")
TOLD = re.compile(r"checked (\S+), \d+ of \d+")


def crate_of(rt, name):
    found = next((it for it in rt.rtlib.crates_below(os.getcwd()) if it.name == name), None)
    if not found:
        sys.exit(f"no crate is named {name}")
    return found


class Steps:
    """The time of each step of a check, by the files that the check leaves in a folder until it
    ends.

    Without a name it watches all checks."""

    def __init__(self, pid="*"):
        self.folders, self.times, self.ended = f"{tempfile.gettempdir()}/rattle-logic-built-locked-{pid}-0", {}, threading.Event()
        self.looking = threading.Thread(target=self.look, daemon=True)
        self.looking.start()

    def look(self):
        while not self.ended.wait(1):
            for folder in glob.glob(self.folders):
                times = self.times.setdefault(folder, {})
                try:
                    with os.scandir(folder) as found:
                        times.update((it.name, it.stat().st_mtime) for it in found if it.name not in times)
                except OSError:
                    # (the file was removed)
                    continue

    def took(self):
        """Returns the seconds of each step, its crate, its function and its name."""
        self.ended.set()
        self.looking.join()
        found = []
        for times in self.times.values():
            done = sorted((at, name) for name, at in times.items())
            found += [(at - before, STEP.fullmatch(name)) for (before, _), (at, name) in zip(done, done[1:])]
        return [(seconds, *it.groups()) for seconds, it in found if it]


def timed(words, folder):
    """Runs a check, and returns the seconds at which it reported each function, the seconds of its
    steps, its last line, and its status."""
    began, times, last = time.monotonic(), [], ""
    how = {"cwd": folder, "stdin": subprocess.DEVNULL, "stdout": subprocess.PIPE, "stderr": subprocess.STDOUT}
    with subprocess.Popen(words, text=True, errors="replace", **how) as ran:
        steps = Steps(ran.pid)
        for line in ran.stdout:
            told = TOLD.match(line)
            if told:
                times.append((time.monotonic() - began, told[1]))
            last = line.rstrip("\n") or last
    return times, steps.took(), last, ran.returncode


def tell(steps):
    sums = collections.Counter()
    for seconds, _, _, step in steps:
        sums[step] += seconds
    print("by steps: " + ", ".join(f"{step} {seconds:.0f}" for step, seconds in sums.most_common(8)))
    for seconds, crate, function, step in sorted(steps, reverse=True)[:SHOWN]:
        print(f"{seconds:7.1f}  {step} of {crate} {function}")


def watch():
    steps = Steps()
    # (a shell that starts the script in the background makes it ignore the first)
    for number in (signal.SIGINT, signal.SIGTERM):
        signal.signal(number, signal.default_int_handler)
    try:
        steps.ended.wait()
    except KeyboardInterrupt:
        tell(steps.took())


def main(name):
    root = subprocess.run(["git", "rev-parse", "--show-toplevel"], check=True, capture_output=True, text=True).stdout.strip()
    os.chdir(root)
    rt = kit.load_rt()
    crate = crate_of(rt, name)
    tests = ["--test"] * crate.has_tests()
    words = [rt.rtlib.RATTLE, "check", *crate.words(["--jobs", "1", *tests], tests=bool(tests), keeps=False), "--progress"]
    times, steps, last, status = timed(words, crate.folder)
    if status or not times:
        sys.exit(f"{name} was not proved: {last}")
    took = [(at - before, it) for (before, _), (at, it) in zip(times, times[1:])]
    print(f"{times[0][0]:7.1f}  before the first function")
    for seconds, it in sorted(took, reverse=True)[:SHOWN]:
        print(f"{seconds:7.1f}  {it}")
    print(f"{times[-1][0]:7.1f}  in all, {len(times)} functions")
    print()
    tell(steps)


if __name__ == "__main__":
    if len(sys.argv) > 2 or sys.argv[1:2] and sys.argv[1].startswith("-"):
        sys.exit("usage: functions.sh [NAME]")
    if sys.argv[1:]:
        main(sys.argv[1])
    else:
        watch()
