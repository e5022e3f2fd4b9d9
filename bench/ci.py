#!/usr/bin/env python3
"""ci.py [--program FILE | --minutes PROCESSORS [GB]]: runs `rt ci` as .ci/run does.

Its plan uses the costs of each crate's proof and tests in bench/GATE.md. It goes by their memory,
where the kit's own guess is up to twice as much and leaves processors idle. It goes by their
seconds, where the kit goes by lines. Everything else is the kit's. RT_JOBS=N still makes the kit
run N parts at once, with no plan of memory.

--program copies the program sunreg, as LLVM built it, to FILE. The program is the one that the kit
links or runs, which may be kept from an earlier run.
--minutes proves nothing. It plays the kit's own schedule over the page, six hundred times as fast.
It prints the minutes that so many processors would take with so many GB of free memory (23 by
default). They count as fast as those of the page, and without other work."""
import os
import shutil
import sys
import time

sys.dont_write_bytecode = True
import identity
import kit

SECOND = 1 / 600
# Seconds for each line of a crate that the page lacks, and for the proof of a crate of tests, which
# is the cost of its front end.
OF_LINE, OF_FRONT_END = 0.2, 10
# A part needs the most memory at its end, so parts that run at once seldom need their sum. Of the
# sum, three or more low ones at once took 0.70 in the middle and 0.89 at most. High ones took 0.59
# and 0.92 (on 2026-11-28, under other plans than this; a whole run by this plan had no part
# killed). The plan fills 0.85 of the free memory. With this share that is 0.98 of it in the worst
# case seen. If the system kills a part for its memory, the kit tries it once more.
AT_ONCE = 0.8
rt, costs = kit.load_rt(), kit.costs()
SOURCES = identity.checksum()
in_lanes = rt.in_lanes


def measured(key, lines, memory):
    """Returns a part's seconds and its memory in bytes, as far as the page has them; a part of no
    lines has no work."""
    cost = costs.get(key[0])
    if not cost or not lines:
        return lines * OF_LINE, memory
    if key[1] == "tests":
        return cost.tests or lines * OF_LINE, AT_ONCE * (cost.memory_of_tests or memory)
    seconds = cost.seconds or (OF_FRONT_END if cost.tests else lines * OF_LINE)
    return seconds if key[1] == "proof" else lines * OF_LINE, AT_ONCE * (cost.memory or (1e9 if cost.tests else memory))


def by_page(tasks):
    """Runs tasks as the kit does, by the costs of the page. The kit ranks tasks by their work,
    which it takes in lines."""
    return in_lanes({key: (waits, *measured(key, lines, memory), with_jobs(key, call)) for key, (waits, lines, memory, call) in tasks.items()})


# The jobs of proofs in the longest chain of crates. While they run, other processors would be idle.
JOBS = {"stored_files": 2, "file_commands": 2, "sunreg": 2, "point_list": 3, "read_plan": 3, "office_events": 3, "office_books": 3, "office_core": 2, "sun_chain": 2, "store_tables": 2, "office_store": 2}


def with_jobs(key, call):
    """Returns the call of a part. The proofs of the longest chain of crates get more jobs.

    The kit gives them one job each if crates of tests wait too. Such a proof would then take about
    twice as long, and the other processors would be idle at the end. Jobs share their memory."""
    most = JOBS.get(key[0], 0) if key[1:] == ("proof",) else 0
    return lambda given, jobs: call(given, max(jobs, min(most, rt.processors())))


def part(seconds):
    """Returns a stand-in for a part of so many processor seconds.

    (A check with more jobs shares out most of its work, and does some of it twice.)"""
    return lambda given, jobs: time.sleep((seconds or 0) * SECOND * (1 if jobs == 1 else 0.25 + 0.86 / jobs)) or True


def minutes(processors, gigabytes):
    """Returns the minutes of the schedule."""
    rt.rtlib.Crate = rt.Crate
    rt.processors, rt.free = lambda: processors, lambda: gigabytes * 1e9
    tasks = {}
    for crate in sorted(rt.rtlib.crates_below(os.getcwd()), key=lambda it: len(it.below())):
        cost, lines, memory = costs.get(crate.name, kit.Cost()), crate.count(rb"\n"), rt.need(crate)
        below, both = [(it.name, "proof") for it in crate.below()], [(crate.name, "proof"), (crate.name, "tests")]
        tasks[both[0]] = (below, lines, memory, part(cost.seconds))
        tasks[both[1]] = (below, lines * bool(cost.tests), memory, part(cost.tests))
        tasks[crate.name, "edits"] = (both, lines * bool(cost.edits), memory, part(cost.edits))
    began = time.monotonic()
    by_page(tasks)
    return (time.monotonic() - began) / SECOND / 60


def copy_program(crate, to):
    """Copies the program of a crate as LLVM built it, if the crate is sunreg and the program is in
    its out/. Marks the copy as proved: the kit links a program after its proof."""
    built = f"{crate.folder}/out/{crate.name}"
    if crate.name == "sunreg" and os.path.isfile(built):
        shutil.copyfile(built, f"{to}.new")
        os.chmod(f"{to}.new", 0o755)
        if SOURCES == identity.checksum():
            identity.mark(f"{to}.new", kit.logic(), SOURCES)
        os.replace(f"{to}.new", to)


def keep_program(to):
    """Makes the kit leave a copy of sunreg at a path, before it runs the program, or where it links
    it.

    Another kit may lack one of the two calls."""
    run, link = getattr(rt, "run", None), getattr(rt.Crate, "link", None)

    def run_and_copy(crate, tests, *more):
        if not tests:
            copy_program(crate, to)
        return run(crate, tests, *more)

    def link_and_copy(crate, made, program, *more):
        status = link(crate, made, program, *more)
        if not status and program == f"out/{crate.name}":
            copy_program(crate, to)
        return status

    if run:
        rt.run = run_and_copy
    if link:
        rt.Crate.link = link_and_copy


rt.in_lanes = by_page
if sys.argv[1:2] == ["--minutes"]:
    asked = [int(it) for it in sys.argv[2:]]
    print(f"{minutes(asked[0], *(asked[1:] or [23])):.0f} minutes on {asked[0]} processors")
else:
    if sys.argv[1:2] == ["--program"]:
        keep_program(os.path.abspath(sys.argv[2]))
    sys.exit(rt.main(["ci"]))
