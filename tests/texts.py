#!/usr/bin/env python3
"""texts.py: checks the text of all crates for what `rt ci` refuses apart from proofs.

It takes half a minute. It checks layout, names that mean something else, words that reach past the
handles, files that no check reads, and mutants that can't be applied. `rt check` and `rt test`
don't check all of that, and `rt ci` reports it after an hour or two. The script prints a line for
each fault, and ends with 'N passed, M failed', counted in crates; the status is 1 if M > 0.
"""
import os
import re
import sys

sys.dont_write_bytecode = True
ROOT = os.path.realpath(os.path.join(os.path.dirname(os.path.realpath(__file__)), ".."))
sys.path.insert(0, os.path.join(ROOT, "bench"))
import kit

rt = kit.load_rt()


class Refused(Exception):
    """A fault at which the kit would stop."""


def refuse(why):
    raise Refused(why)


def edits_of(crate):
    """Returns the mutants of a crate: those of the gate, and those that are tried beside it."""
    found = [f"{crate.folder}/must-fail", f"{ROOT}/tests/edits/{crate.name}"]
    return [f"{folder}/{it}" for folder in found if os.path.isdir(folder) for it in sorted(os.listdir(folder)) if it.endswith(".edit")]


def faults_of(crate, crates):
    """Yields the faults of a crate's text."""
    lib = rt.rtlib
    for look in (
        lambda: lib.stop_on_links(crate.folder),
        lambda: lib.stop_on_unread(crate.folder, crates),
        lambda: lib.stop_on_text(crate, "verdict"),
        lambda: rt.stop_on_words(crate),
    ):
        try:
            look()
        except Refused as why:
            yield str(why)
    code = lib.code_of(crate.folder)
    if re.search(rt.RENAMES, code):
        yield "renames std, or takes it whole"
    if re.search(rt.IGNORED, code):
        yield "has a test under #[ignore]"
    for handle, words in rt.REACHES.items():
        if handle not in rt.Crate.allowed and re.search(words, code):
            yield f"names what only the handle {handle} reaches"
    if lib.fmt(crate.folder, "--check", sys.stdout):
        yield "isn't laid out: run rt fmt in its folder"
    for edit in edits_of(crate):
        if why := rt.read_edit(edit, crate.folder)[1]:
            yield f"{os.path.relpath(edit, ROOT)} can't be applied: {why}"


def main():
    os.chdir(ROOT)
    rt.rtlib.stop, rt.Crate.allowed, rt.rtlib.Crate = refuse, rt.handles_of(ROOT), rt.Crate
    crates = rt.rtlib.crates_below(ROOT)
    failed = 0
    for crate in crates:
        faults = list(faults_of(crate, crates))
        for it in faults:
            print(f"{crate.name}: {it}", flush=True)
        failed += bool(faults)
    for name in sorted(it for it in os.listdir(ROOT) if it != ".git" and os.path.isdir(it)):
        try:
            rt.rtlib.stop_on_unread(f"{ROOT}/{name}", crates)
        except Refused as why:
            print(why)
            failed += 1
    print(f"{len(crates) - failed} passed, {failed} failed")
    return 1 if failed else 0


if __name__ == "__main__":
    sys.exit(main())
