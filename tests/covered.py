#!/usr/bin/env python3
"""covered.py NAME..: lists the functions and tests that the borrow checker does not cover.

It takes a minute or two for each crate, before any proof. It proves nothing, and needs no built
library. A check reports the same at its end, and the gate after an hour. The script prints a line
for each such function and for each error of the front end. It ends with 'N passed, M failed',
counted in crates; the status is 1 if M > 0.
"""
import os
import subprocess
import sys

sys.dont_write_bytecode = True
ROOT = os.path.realpath(os.path.join(os.path.dirname(os.path.realpath(__file__)), ".."))
sys.path.insert(0, os.path.join(ROOT, "bench"))
import kit


def uncovered(rt, crate):
    """Returns the kit's output for a crate without proofs.

    It is the lines of faults, and the last line if the kit did not finish."""
    tests = ["--test"] * crate.has_tests()
    words = crate.words(["--jobs", "1", "--only", "", "--progress", *tests], tests=bool(tests), as_source=True)
    how = {"cwd": crate.folder, "stdin": subprocess.DEVNULL, "stdout": subprocess.PIPE, "stderr": subprocess.STDOUT}
    ran = subprocess.run([*rt.rtlib.guarded(), rt.rtlib.RATTLE, "check", *words], text=True, errors="replace", **how)
    lines = ran.stdout.splitlines() or ["it said nothing"]
    found = [it for it in lines if it.startswith("ahead of the check: ") or ": error" in it]
    return found if found or any(it.startswith("only=") for it in lines) else [lines[-1]]


def main(names):
    os.chdir(ROOT)
    rt = kit.load_rt()
    crates = {it.name: it for it in rt.rtlib.crates_below(ROOT)}
    unknown = {*names} - {*crates}
    if unknown or not names:
        sys.exit(f"covered.py: no crate is named {' '.join(sorted(unknown))}" if unknown else "usage: covered.py NAME..")
    failed = 0
    for name in names:
        found = uncovered(rt, crates[name])
        for line in found:
            said = line.removeprefix("ahead of the check: ")
            print(said if said.startswith(f"{name}::") else f"{name}: {said}", flush=True)
        failed += bool(found)
    print(f"{len(names) - failed} passed, {failed} failed")
    return 1 if failed else 0


if __name__ == "__main__":
    sys.exit(main(sys.argv[1:]))
