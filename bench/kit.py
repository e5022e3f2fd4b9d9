"""Functions that the Python scripts share: the kit's `rt` as a module, and costs from GATE.md."""
import collections
import importlib.machinery
import importlib.util
import os
import re
import shutil
import subprocess

PAGE = os.path.join(os.path.dirname(os.path.realpath(__file__)), "GATE.md")
# A crate's row: its name, its lines, the seconds of the proof, of the tests, and of the mutants
# with their number, their sum, and the most memory of proof and tests.
ROW = re.compile(r"\| (\w+) \| (\d+) \| (\d*) \| (\d*) \| (?:(\d+) \((\d+)\))? \| \d+ \| ([\d.]*) \| ([\d.]*) \|")
# The cost of a crate: processor seconds of its proof, its tests and its mutants, and the most bytes
# of proof and tests. A value that was not measured is None.
Cost = collections.namedtuple("Cost", "seconds tests edits memory memory_of_tests", defaults=[None] * 5)


def folder_of_kit():
    """Returns the folder of the Rattle kit whose rt a shell would run."""
    told = subprocess.run(["rt", "doc"], check=True, capture_output=True, text=True)
    return os.path.dirname(told.stdout.strip())


def logic():
    """Returns the identifier of the logic in which the kit proves."""
    said = subprocess.run(["rt", "version"], check=True, capture_output=True, text=True).stdout
    return said.split()[-1]


def of_links(room):
    """Makes a folder in the room that replaces the kit and has nothing kept beside it, and returns
    it."""
    real, made = folder_of_kit(), f"{room}/kit"
    os.makedirs(f"{made}/bin")
    for name in [*os.listdir(real), *(f"bin/{it}" for it in os.listdir(f"{real}/bin"))]:
        # (rt finds the kit by the path of its own files, so these are copies)
        if name in ("bin/rt", "bin/rtlib.py"):
            shutil.copy2(f"{real}/{name}", f"{made}/{name}")
        elif name != "bin":
            os.symlink(f"{real}/{name}", f"{made}/{name}")
    return made


def load_rt(kit=None):
    """Returns the kit's command rt as a module."""
    loader = importlib.machinery.SourceFileLoader("rt", f"{kit or folder_of_kit()}/bin/rt")
    made = importlib.util.module_from_spec(importlib.util.spec_from_loader("rt", loader))
    loader.exec_module(made)
    return made


def remember(crate):
    """Caches each crate's sum and the libraries below it, which rt computes again along every path.

    Use it only while no library changes."""
    for name in ("stamp", "below"):
        setattr(crate, name, once_a_folder(getattr(crate, name)))


def once_a_folder(make):
    made = {}

    def kept(it):
        if it.folder not in made:
            made[it.folder] = make(it)
        return made[it.folder]

    return kept


def costs(page=PAGE):
    """Returns the costs of each crate on the page, by the crate's name."""
    with open(page, encoding="utf-8") as it:
        rows = [it for it in map(ROW.match, it) if it]
    number = lambda text: float(text) if text else None
    bytes_of = lambda text: 1e9 * float(text) if text else None
    return {row[1]: Cost(*map(number, row.group(3, 4, 5)), *map(bytes_of, row.group(7, 8))) for row in rows}
