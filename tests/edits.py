#!/usr/bin/env python3
"""edits.sh [--jobs N] [--verbose] [NAME..]: tries the mutants that the prover must refuse.

It tries the mutants of the named crates, or of all. The mutants of a crate NAME are
crates/NAME/must-fail/*.edit and tests/edits/NAME/*.edit, in the form that `rt must-fail` reads. One
check tries many of them, at most one a function, over the work that the crate's own checks kept. A
mutant counts as refused if the check fails at the very function that it changes: at a goal of that
function, or with an error in its own proof files. Any other mutant is tried alone before it counts
as let through. A mutant outside the functions, such as of a constant, is tried alone. It is refused
if any function is not proved. A mutant that cannot be applied or read fails too.

It prints a line for each mutant that fails and for each crate, and ends with 'N passed, M failed';
the status is 1 if M > 0.
--jobs N: crates at once (2); --verbose: a line for each mutant. The words of RT_RUN precede each
check. The crates' out/ does not change, except that missing libraries below are built, as by
`rt check`.
"""
import argparse
import collections
import difflib
import glob
import os
import re
import shutil
import subprocess
import sys
import tempfile
import time
from concurrent.futures import ThreadPoolExecutor

sys.dont_write_bytecode = True
sys.path.insert(0, os.path.join(os.path.dirname(os.path.realpath(__file__)), "..", "bench"))
import kit

HEAD = re.compile(r"( *)(?:pub(?:\([^)]*\))? )?(?:const )?fn (\w+)")
# The error of a proof file that names something that the mutant removed, which shows little about
# the contract.
NAMES = r": error.*(has no field|is not in scope|has no `|was not admitted)"
TAKEN_AWAY = " (only because a proof file names what the edit took away)"
CLAUSE = re.compile(r" *(requires|ensures)\b")
# Text in a function's line that is no fault of the function itself.
OF_OTHERS = re.compile(r"no proof|not proved|expected answers in \S+|it calls .* not proved|it waits for .*|the borrow checker's part in its proof is not made yet.*")

# The lines of a function, and patterns of its name in a check: one of an impl may go by the module
# of its type.
Function = collections.namedtuple("Function", "file first last name loose")
# A mutant's change of a file: its lines from `first` to before `end` become `lines`.
Change = collections.namedtuple("Change", "file first end lines")
# A mutant that also changes something outside the bodies `stands_alone`: callers may see the
# change.
Edit = collections.namedtuple("Edit", "name changes functions stands_alone fault")
# The result of a check: whether it reached the proofs, whether its last line says that all is
# proved, its lines, and its lines about each function.
Said = collections.namedtuple("Said", "is_read is_proved lines functions")


rt = kit.load_rt()
kit.remember(rt.rtlib.Crate)


def functions_of(crate, file):
    """Returns the functions of a file that `rt fmt` has laid out, with a pattern of each name in a
    check."""
    path = [it for it in file[len("src/") : -len(".rt")].split("/") if it not in ("lib", "main")]
    lines, found, owner = lines_of(crate, file), [], ""
    for at, line in enumerate(lines):
        if re.match(r"impl\b|(pub(\([^)]*\))? )?trait\b", line):
            owner = owner_of(line)
        elif line == "}":
            owner = ""
        head = HEAD.match(line)
        if head:
            is_short = line.endswith("}") and "{" in line
            ends = (end for end in range(at, len(lines)) if lines[end] == f"{head[1]}}}")
            last = at if is_short else next(ends, len(lines) - 1)
            end = [owner, head[2]] if owner and head[1] else [head[2]]
            name = "::".join([crate.name, *path, *end])
            loose = "::".join([crate.name, r"(\w+::)*" + end[0], *end[1:]]) if len(end) > 1 else name
            found.append(Function(file, at, last, name, loose))
    return found


def owner_of(line):
    """Returns the pattern of the part of a function's name that denotes its impl or trait."""
    taken = re.match(r"impl<(.*?)> ", line)
    while re.search(r"<[^<>]*>", line):
        line = re.sub(r"<[^<>]*>", "", line)
    found = re.match(r"impl (?:(\S+) for )?&?(\S+)", line)
    if not found:
        return re.search(r"trait (\w+)", line)[1]
    trait, kind = (it.split("::")[-1] if it else "" for it in found.groups())
    if taken and kind in re.findall(r"(?:^|, )(\w+)", taken[1]):
        kind = "Any"
    return rf"{kind}{trait}\d*\w*" if trait else kind


def lines_of(crate, file):
    with open(f"{crate.folder}/{file}", encoding="utf-8") as it:
        return it.read().split("\n")


def read_edit(crate, path):
    texts, fault = rt.read_edit(path, crate.folder)
    changes, functions, stands_alone = [], set(), False
    for file, text in ({} if fault else texts).items():
        old, new = lines_of(crate, file), text.split("\n")
        within = functions_of(crate, file) if file.startswith("src/") else []
        for kind, first, end, start, stop in difflib.SequenceMatcher(None, old, new, False).get_opcodes():
            if kind == "equal":
                continue
            changes.append(Change(file, first, end, new[start:stop]))
            around = [it for it in within if it.first <= first and max(first, end - 1) <= it.last]
            functions |= {max(around, key=lambda it: it.first)} if around else set()
            heads = [it for it in old[first:end] if CLAUSE.match(it) or HEAD.match(it) and not new[start:stop][0].startswith(it)]
            stands_alone = stands_alone or not around or bool(heads)
    if not fault and not changes:
        fault = "it changes nothing"
    return Edit(os.path.relpath(path), changes, functions, stands_alone, fault)


def texts_of(crate, edits):
    """Returns the files with all these mutants applied."""
    texts = {}
    for change in sorted((it for edit in edits for it in edit.changes), key=lambda it: -it.first):
        lines = texts.setdefault(change.file, lines_of(crate, change.file))
        lines[change.first : change.end] = change.lines
    return {file: "\n".join(lines) for file, lines in texts.items()}


class Trial:
    """The mutants of one crate."""

    def __init__(self, crate, room):
        self.crate, self.kept = crate, f"{room}/kept"
        folders = [f"{crate.folder}/must-fail", f"tests/edits/{crate.name}"]
        self.edits = [read_edit(crate, it) for folder in folders for it in sorted(glob.glob(f"{folder}/*.edit"))]
        self.checks, self.seconds, self.told, self.failed = 0, 0.0, [], 0

    def check(self, texts, kept):
        """Checks a copy of the crate with these texts instead of its own."""
        with tempfile.TemporaryDirectory(prefix="edits-") as room, tempfile.TemporaryFile("w+", errors="replace") as out:
            for part in rt.rtlib.PARTS:
                if os.path.isdir(f"{self.crate.folder}/{part}"):
                    shutil.copytree(f"{self.crate.folder}/{part}", f"{room}/{part}")
            for path, text in texts.items():
                with open(f"{room}/{path}", "w", encoding="utf-8") as it:
                    it.write(text)
            words = [*os.environ.get("RT_RUN", "").split(), rt.rtlib.RATTLE, "check", "--incremental", kept]
            words += self.crate.words(["--jobs", "1"], keeps=False)
            ran = subprocess.Popen(
                [*rt.rtlib.guarded(), *words], cwd=room, stdin=subprocess.DEVNULL, stdout=out, stderr=subprocess.STDOUT
            )
            _, status, used = os.wait4(ran.pid, 0)
            ran.returncode = os.waitstatus_to_exitcode(status)
            self.checks, self.seconds = self.checks + 1, self.seconds + used.ru_utime + used.ru_stime
            out.seek(0)
            lines = out.read().rstrip("\n").split("\n")
        is_read = lines[-1].startswith("logic=") and ran.returncode in (0, 1)
        is_read = is_read and not any(rt.unread(it, texts) for it in lines) and not rt.rtlib.STALE.search("\n".join(lines))
        found = (re.match(r"fn (\S+): (.*)", it) for it in lines)
        return Said(is_read, lines[-1].startswith("logic=proved"), lines, {it[1]: it[2] for it in found if it})

    def over_kept(self, edits):
        with tempfile.TemporaryDirectory(prefix="edits-kept-") as room:
            shutil.copytree(self.kept, f"{room}/kept")
            return self.check(texts_of(self.crate, edits), f"{room}/kept")

    def run(self):
        own = f"{self.crate.folder}/out/incremental"
        if os.path.isdir(own):
            shutil.copytree(own, self.kept)
        said = self.check({}, self.kept)
        if not said.is_proved:
            open_ones = [it for it, line in said.functions.items() if line != "proved"]
            self.told.append(f"{self.crate.name}: not proved without any edit: {' '.join(open_ones) or said.lines[-1][:300]}")
            self.failed = len(self.edits)
            return
        for edit in self.edits:
            if edit.fault:
                self.fails(edit, f"CANNOT BE APPLIED: {edit.fault}")
        for edits in self.rounds():
            self.attempt(edits)

    def rounds(self):
        """Returns the mutants in groups of different functions; one that stands_alone is a separate
        group."""
        groups, alone = [], []
        for edit in self.edits:
            if edit.fault:
                continue
            if edit.stands_alone:
                alone.append([edit])
                continue
            group = next((it for it in groups if all(edit.functions.isdisjoint(other.functions) for other in it)), None)
            if group is None:
                groups.append([edit])
            else:
                group.append(edit)
        return groups + alone

    def attempt(self, edits):
        said = self.over_kept(edits)
        if not said.is_read and len(edits) > 1:
            half = len(edits) // 2
            self.attempt(edits[:half])
            self.attempt(edits[half:])
            return
        for edit in edits:
            if not said.is_read:
                error = next((it for it in said.lines if "error" in it), said.lines[-1])
                self.fails(edit, f"CANNOT BE READ: {error[:300]}")
                continue
            reason = reason_in(said, edit)
            if reason:
                self.passes(edit, reason)
            elif len(edits) > 1:
                self.attempt([edit])
            else:
                self.fails(edit, f"NOT REFUSED {lack_in(said, edit)}")

    def passes(self, edit, reason):
        if options.verbose or reason.endswith(TAKEN_AWAY):
            self.told.append(f"{edit.name}: refused: {reason[:160]}")

    def fails(self, edit, why):
        self.failed += 1
        self.told.append(f"{edit.name}: {why}")

    def summary(self, wall):
        refused = len(self.edits) - self.failed
        return f"{self.crate.name}: {refused} of {len(self.edits)} edits refused, {self.checks} checks, {self.seconds:.0f} processor seconds, {wall:.0f} s"


def reason_in(said, edit):
    """Returns what a check reports against the function that the mutant changes, or None."""
    open_ones = {name: line for name, line in said.functions.items() if line != "proved"}
    if not edit.functions:
        return None if said.is_proved else next((f"{name}: {line}" for name, line in open_ones.items()), error_in(said))
    for name in {name for it in edit.functions for name in names_of(said, it)} & {*open_ones}:
        parts = open_ones[name].removeprefix("no proof: ").split("; ")
        own = [it for it in parts if not OF_OTHERS.fullmatch(it)]
        # The folder of a recursive function begins with a plus sign.
        proofs = r"(\./)?proofs/" + "/".join(rf"\+?{re.escape(it)}" for it in name.split("::")[1:]) + "/.*: error"
        errors = [it for it in said.lines if re.match(proofs, it)]
        if own or errors:
            first = next((it for it in [*own, *errors] if not re.search(NAMES, it)), None)
            return f"{name}: {first or errors[0][:100] + TAKEN_AWAY}"
    return None


def error_in(said):
    """Returns the first error of a check, or else its last line."""
    return next((it for it in said.lines if ": error" in it), said.lines[-1])


def lack_in(said, edit):
    """Returns how a check of this mutant alone does not refuse it."""
    if said.is_proved:
        return "at all: the crate is still proved"
    unknown = [it.name for it in edit.functions if not names_of(said, it)]
    if unknown:
        return f"by its own function: the check names no {unknown[0]}"
    others = (f"{name}: {line}" for name, line in said.functions.items() if line != "proved")
    return f"by its own function, only elsewhere: {next(others, error_in(said))[:300]}"


def names_of(said, function):
    named = (lambda pattern: [it for it in said.functions if re.fullmatch(pattern, it)])
    return named(function.name) or named(function.loose)


def tried(crate):
    began = time.time()
    with tempfile.TemporaryDirectory(prefix="edits-crate-") as room:
        trial = Trial(crate, room)
        if trial.edits:
            trial.run()
    print("\n".join([*trial.told, trial.summary(time.time() - began)]), flush=True)
    return len(trial.edits), trial.failed


def main():
    root = subprocess.run(["git", "rev-parse", "--show-toplevel"], check=True, capture_output=True, text=True).stdout.strip()
    os.chdir(root)
    rt.rtlib.guarded()
    crates = rt.rtlib.crates_below(root)
    unknown = {*options.names} - {it.name for it in crates}
    if unknown:
        sys.exit(f"no crate is named {' '.join(sorted(unknown))}")
    crates = [it for it in crates if not options.names or it.name in options.names]
    for crate in crates:
        if any(it.build_rlib(["--jobs", "1"], anew=False) for it in crate.below()):
            sys.exit(f"{crate.name}: a library below it is not proved")
    with ThreadPoolExecutor(options.jobs) as pool:
        counts = [*pool.map(tried, crates)]
    failed = sum(it for _, it in counts)
    print(f"{sum(it for it, _ in counts) - failed} passed, {failed} failed")
    return 1 if failed else 0


if __name__ == "__main__":
    words = argparse.ArgumentParser(prog="edits.sh", usage=__doc__.split(":")[0], description=__doc__, formatter_class=argparse.RawDescriptionHelpFormatter)
    words.add_argument("--jobs", type=int, default=2)
    words.add_argument("--verbose", action="store_true")
    words.add_argument("names", nargs="*", metavar="NAME")
    options = words.parse_args()
    sys.exit(main())
