#!/usr/bin/env python3
"""gate.sh [--page] [--log FILE [--in FOLDER] | NAME..]: prints what the parts of the gate cost.

It prints processor seconds and memory as a Markdown table, crate by crate. It runs `rt ci` over a
clone of the committed tree, in a temporary folder and with a kit that has nothing kept, and watches
its processes. With names it tries only the mutants and the tests of those crates, over the proofs
of the crates below them. RT_JOBS=1 makes it work on one part at a time, as on a machine with other
work. The gate's output goes to standard error; the status is the gate's.

--log FILE: runs nothing, and reads what bench/watch.py recorded while `rt ci` ran, here or in
another copy (or `rt ci NAME..`, with a kit that has it). The last run of each part counts. --in
takes the last run in the copy FOLDER, for a log that also has other work.
--page: prints the whole of bench/GATE.md: `bench/gate.sh --page --log FILE > bench/GATE.md`.

The time of a proof includes a program's builds, and the time of tests includes their proof, build
and run. A process's last second is not seen.
"""
import argparse
import collections
import glob
import json
import os
import re
import subprocess
import sys
import tempfile
import textwrap
import threading
import time

sys.dont_write_bytecode = True
import kit
from watch import Watch

PARTS = ("proof", "tests", "edits")
# The most seconds between two commands of one crate's part; a later command is of another run.
APART = 60
COLUMNS = (
    "The columns are processor seconds of each part, and the most memory of one of its processes, in GB. A shared"
    " processor counts up to twice. A blank was not measured. The number of mutants is in brackets; their seconds"
    " include the crate's proof."
)
BY_CRATE = "## By crate\n"


def page(measured, table):
    """Returns the page with a new table. The text above the table stays as it is."""
    path = os.path.join(os.path.dirname(os.path.realpath(__file__)), "GATE.md")
    with open(path, encoding="utf-8") as it:
        text = it.read().partition(BY_CRATE)[0]
    return f"{text}{BY_CRATE}\n{measured}\n\n{table}"


def keep_only(rt, names, tree):
    """Leaves only the named crates and the crates below them in the tree's list. Makes rt try only
    the mutants and tests of the named crates."""
    rt.rtlib.Crate.has_tests = only_of(names, rt.rtlib.Crate.has_tests, False)
    rt.edits_of = only_of(names, rt.edits_of, ([], []))
    crates = {it.name: it for it in rt.rtlib.crates_below(tree)}
    unknown = {*names} - {*crates}
    if unknown:
        sys.exit(f"no crate is named {' '.join(sorted(unknown))}")
    wanted = {it.name for name in names for it in [crates[name], *crates[name].below()]}
    with open(f"{tree}/crates.txt", encoding="utf-8") as it:
        lines = it.read().splitlines(True)
    with open(f"{tree}/crates.txt", "w", encoding="utf-8") as it:
        it.writelines(line for line in lines if line.startswith("#") or re.match(r"\w*", line)[0] in wanted)
    for name in {*crates} - wanted:
        subprocess.run(["rm", "-r", f"{tree}/crates/{name}"], check=True)


def only_of(names, call, otherwise):
    return lambda crate: call(crate) if crate.name in names else otherwise


def gate(root, named):
    """Runs the gate over a clone, and returns its status and the costs of its processes."""
    with tempfile.TemporaryDirectory(prefix="gate-") as room:
        tree = f"{room}/tree"
        subprocess.run(["git", "clone", "-q", root, tree], check=True)
        # (tests run as nobody)
        os.chmod(room, 0o755)
        # (rt's own folders are here too, to distinguish this gate from another one on the machine)
        tempfile.tempdir = room
        rt = kit.load_rt(kit.of_links(room))
        if named:
            keep_only(rt, named, tree)
        os.chdir(tree)
        out, told, is_over = os.dup(1), [], threading.Event()
        os.dup2(2, 1)
        watch = Watch(kit.folder_of_kit())

        def look():
            while not is_over.wait(1):
                told.extend(watch.look())

        looking = threading.Thread(target=look)
        looking.start()
        try:
            status = rt.main(["ci"])
        finally:
            is_over.set()
            looking.join()
        sys.stdout.flush()
        os.dup2(out, 1)
        os.chdir(root)
        return status, [it for it in told if f"{room}/" in f"{it['cmd']} {it['cwd']}/"]


def read(log):
    with open(log, encoding="utf-8") as it:
        return [json.loads(line) for line in it if line.strip()]


def is_proof(words):
    """Returns whether these words are a proof from nothing, as the gate has it, or a build of a
    proof's result."""
    return "--empty-contracts" in words or "--crate-checked" in words


def tree_of(told):
    """Returns the copy of the repository in which a process worked, or nothing if it names none."""
    found = re.match(r"(.*)/crates/\w+$", told["cwd"]) or re.search(r"(/\S+)/crates/\w+", told["cmd"])
    return found[1] if found else ""


def place_of(told):
    """Returns the crate and the part of a process, how it worked, and a name of its run.

    Returns nothing if the process was no part of the gate."""
    words, folder = told["cmd"], told["cwd"]
    # (some kits put the number of rt's process into the names of these folders)
    ran = re.search(r"/rt-run-(?:(\d+)-)?[^/]*/bin/(\w+)", words)
    if ran:
        return ran[2].removesuffix("_tests"), "tests" if ran[2].endswith("_tests") else "proof", "ran", ran[1]
    named, edit, inside = (re.search(it, text) for it, text in ((r" --crate-name (\w+)", words), (r"/rt-edit-(?:(\d+)-)?", folder), (r"/crates/(\w+)$", folder)))
    if named and edit:
        return named[1], "edits", "tried", edit[1] or tree_of(told)
    if not inside or " fmt " in words or named and not is_proof(words):
        return None
    of_tests = re.search(r" --test\b|\bout/\w+_tests\b", words)
    return inside[1], "tests" if of_tests or inside[1].endswith("_tests") else "proof", "made of tests" if of_tests else "made", folder


def last_of(told, how):
    """Returns the last consecutive records, of those that include a proof."""
    runs, until = [[]], 0
    for it in sorted(told, key=lambda it: it["t0"]):
        if runs[-1] and it["t0"] > until + APART:
            runs.append([])
        runs[-1].append(it)
        until = max(until, it["t1"])
    return next((it for it in reversed(runs) if not how.startswith("made") or any(is_proof(told["cmd"]) for told in it)), [])


def parts_of(log, names):
    """Returns the seconds of the last run of each crate's part, and the most bytes of one of its
    processes."""
    found, seconds, memory = {}, collections.Counter(), collections.Counter()
    for told in log:
        name, part, how, run = place_of(told) or ("", "", "", "")
        if name in names:
            found.setdefault((name, part, how), {}).setdefault(run, []).append(told)
    for (name, part, how), runs in found.items():
        runs = filter(None, (last_of(it, how) for it in runs.values()))
        for it in max(runs, key=lambda run: max(it["t0"] for it in run), default=()):
            seconds[name, part] += it["cpu"]
            memory[name, part] = max(memory[name, part], it["rss"])
    return seconds, memory


def lines_of(folder):
    """Returns the crate's lines in .rt files."""
    lines = 0
    for file in glob.glob(f"{folder}/src/**/*.rt", recursive=True):
        with open(file, encoding="utf-8") as it:
            lines += it.read().count("\n")
    return lines


def table(tree, names, seconds, memory):
    yield "| Crate | Lines | Proof | Tests | Edits | Sum | GB | GB of tests |"
    yield "|---|---|---|---|---|---|---|---|"
    whole = {name: sum(seconds[name, part] for part in PARTS) for name in names}
    for name in sorted(names, key=lambda it: (-whole[it], it)):
        edits = len(glob.glob(f"{tree}/crates/{name}/must-fail/*.edit"))
        proof, tests, of_edits = (f"{seconds[name, part]:.0f}" if (name, part) in seconds else "" for part in PARTS)
        of_edits = f"{of_edits} ({edits})" if of_edits else ""
        most = [f"{memory[name, part] / 1e9:.1f}" if memory[name, part] else "" for part in PARTS[:2]]
        yield f"| {name} | {lines_of(f'{tree}/crates/{name}')} | {proof} | {tests} | {of_edits} | {whole[name]:.0f} | {most[0]} | {most[1]} |"
    sums = [sum(seconds[name, part] for name in names) for part in PARTS]
    yield f"| sum | | {sums[0]:.0f} | {sums[1]:.0f} | {sums[2]:.0f} | {sum(sums):.0f} | | |"


def machine(log):
    """Returns the day and the machine of a run on this machine."""
    with open("/proc/cpuinfo", encoding="utf-8") as it:
        model = re.search(r"model name\s*: (.*)", it.read())
    with open("/proc/meminfo", encoding="utf-8") as it:
        memory = int(re.search(r"MemTotal:\s+(\d+)", it.read())[1]) / 1e6
    day = time.strftime("%Y-%m-%d", time.localtime(max((it["t1"] for it in log), default=time.time())))
    named = f" ({re.sub(r'[(](R|TM)[)]|@.*', '', model[1]).strip()})" if model else ""
    return f"Measured on {day}, on {os.cpu_count()} processors{named} and {memory:.0f} GB"


def main(asked):
    root = subprocess.run(["git", "rev-parse", "--show-toplevel"], check=True, capture_output=True, text=True).stdout.strip()
    status, log = (0, read(asked.log)) if asked.log else gate(root, asked.names)
    if asked.folder:
        log = [it for it in log if tree_of(it) in ("", os.path.realpath(asked.folder))]
    names = [it.name for it in kit.load_rt().rtlib.crates_below(root)]
    seconds, memory = parts_of(log, names)
    rows = "\n".join(table(root, names, seconds, memory))
    wall = round((max(it["t1"] for it in log) - min(it["t0"] for it in log)) / 60) if log else 0
    measured = textwrap.fill(f"{machine(log)}, {wall} minutes by the clock from the first process to the last. {COLUMNS}", 100)
    print(page(measured, rows) if asked.page else rows)
    if not asked.page:
        print(f"\n{machine(log)}: {sum(seconds.values()) / 60:.0f} processor minutes")
    return status


if __name__ == "__main__":
    words = argparse.ArgumentParser(prog="gate.sh", usage=__doc__.split(":")[0], description=__doc__, formatter_class=argparse.RawDescriptionHelpFormatter)
    words.add_argument("--page", action="store_true")
    words.add_argument("--log", metavar="FILE")
    words.add_argument("--in", metavar="FOLDER", dest="folder")
    words.add_argument("names", nargs="*", metavar="NAME")
    sys.exit(main(words.parse_args()))
