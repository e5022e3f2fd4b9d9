#!/usr/bin/env python3
"""identity.py PROGRAM: checks whether a program was proved from the sources of this tree.

A proved program has the checksum of its sources in the text that `sunreg --version` prints. The
status is 0 if it is the checksum of this tree, and 1 if it is another or the program was not
proved. It is 2 if PROGRAM can't be read or isn't sunreg.

`./sunreg-build` and the gate mark the program that they proved. They write the text over the one
that the compiler put there, which has the same length (crates/sunreg/src/version.rt).
"""
import hashlib
import os
import pathlib
import re
import sys

TOP = pathlib.Path(__file__).resolve().parent.parent
UNPROVED = b"not proved: compiled without ./sunreg-build, which proves the sources and marks the result"
PROVED = re.compile(rb"proved by the Rattle kit, logic ([0-9a-f]{16}), sources ([0-9a-f]{32})")
PARTS = ("src", "specs", "proofs", "c")


def crates_of(top, name="sunreg"):
    """Returns the lines of crates.txt for a crate and the crates below it, by name."""
    lines = (top / "crates.txt").read_text().splitlines()
    below = {line.split(":")[0]: line for line in lines if ":" in line and not line.startswith("#")}
    found, left = {}, [name]
    while left:
        crate = left.pop()
        if crate in below and crate not in found:
            found[crate] = below[crate]
            left += below[crate].split(":")[1].split()
    return found


def checksum(top=TOP):
    """Returns the checksum of all that the proof of sunreg reads from a tree: the lines of
    crates.txt, HANDLES, and the sources, specifications and proofs of its crates."""
    crates, handles = crates_of(top), top / "HANDLES"
    sum = hashlib.sha256(handles.read_bytes() if handles.exists() else b"")
    for name in sorted(crates):
        sum.update(repr(crates[name]).encode())
        files = (it for part in PARTS for it in (top / "crates" / name / part).rglob("*") if it.is_file())
        for file in sorted(files, key=str):
            sum.update(repr((str(file.relative_to(top)), hashlib.sha256(file.read_bytes()).hexdigest())).encode())
    return sum.hexdigest()[:32]


def mark(program, logic, sources):
    """Writes into a program that it was proved. Fails if the program has no text to replace, or
    more than one."""
    text = f"proved by the Rattle kit, logic {logic}, sources {sources}".encode()
    if not PROVED.fullmatch(text) or len(text) != len(UNPROVED):
        raise ValueError(f"no mark of a program: {text}")
    old = pathlib.Path(program).read_bytes()
    if old.count(UNPROVED) != 1:
        raise ValueError(f"{program} has the text of an unproved program {old.count(UNPROVED)} times, and not once")
    new = f"{program}.marked"
    pathlib.Path(new).write_bytes(old.replace(UNPROVED, text))
    os.chmod(new, os.stat(program).st_mode & 0o777)
    os.replace(new, program)


def compare(program, sources):
    """Returns the status of the comparison, and a sentence that explains it."""
    try:
        content = pathlib.Path(program).read_bytes()
    except OSError as why:
        return 2, f"{program} can't be read: {why.strerror}"
    marks = set(PROVED.findall(content))
    if len(marks) == 1 and UNPROVED not in content:
        ((_, found),) = marks
        if found.decode() == sources:
            return 0, f"{program} was proved from the sources of this tree, {sources}"
        return 1, f"{program} was proved from other sources: {found.decode()}, where this tree has {sources}"
    if UNPROVED in content and not marks:
        return 1, f"{program} was not proved"
    return 2, f"{program} is not a program sunreg"


def main(words):
    if len(words) != 1 or words[0].startswith("-"):
        print("usage: bench/identity.py PROGRAM", file=sys.stderr)
        return 2
    status, sentence = compare(words[0], checksum())
    print(sentence, file=sys.stderr if status == 2 else sys.stdout)
    return status


if __name__ == "__main__":
    sys.exit(main(sys.argv[1:]))
