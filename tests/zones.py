#!/usr/bin/env python3
"""zones.py [PROGRAM]: creates files with time zones by name. PROGRAM is out/sunreg by default.

The expected rules are the last lines of the operating system's zone files, which this script reads
itself. It ends with 'N passed, M failed'.
"""
import os
import pathlib
import sqlite3
import subprocess
import sys
import tempfile

ZONES = pathlib.Path("/usr/share/zoneinfo")
PROGRAM = os.path.realpath(sys.argv[1] if len(sys.argv) > 1 else pathlib.Path(__file__).resolve().parent.parent / "out/sunreg")
counts = {True: 0, False: 0}


def same(what, got, wanted):
    counts[got == wanted] += 1
    if got != wanted:
        print(f"{what}: {got!r}, and not {wanted!r}")


def create(file, zone):
    """Creates a file, and returns the status, standard output and standard error."""
    it = subprocess.run([PROGRAM, "create", "--db", file, "--zone", zone], capture_output=True, text=True, stdin=subprocess.DEVNULL)
    return it.returncode, it.stdout, it.stderr


def zone_of(file):
    """Returns the zone that a file has, by SQLite."""
    with sqlite3.connect(f"file:{file}?mode=ro", uri=True) as connection:
        return connection.execute("SELECT zone FROM meta").fetchone()[0]


def invalid(zone):
    return f"error: invalid value '{zone}' for '--zone <TEXT>': not a POSIX time zone; Berlin is CET-1CEST,M3.5.0,M10.5.0/3\n"


def check_names(room):
    """Each zone in which people live has a name that the system's table lists."""
    table = (ZONES / "zone1970.tab").read_text(encoding="utf-8").splitlines()
    names = [line.split("\t")[2] for line in table if not line.startswith("#")]
    for name in [*names, "UTC", "Etc/GMT+12", "CET"]:
        rule = (ZONES / name).read_bytes().decode("latin-1").splitlines()[-1]
        file = f"{room}/{name.replace('/', '-')}.db"
        same(f"--zone {name}", create(file, name), (0, f"zone {rule}\n", ""))
        same(f"the zone in the file of {name}", zone_of(file), rule)


def check_rules(room):
    for rule in ("UTC0", "CET-1CEST,M3.5.0,M10.5.0/3", "<+0530>-5:30"):
        file = f"{room}/{len(rule)}.db"
        same(f"--zone {rule}", create(file, rule), (0, "", ""))
        same(f"the zone in the file of {rule}", zone_of(file), rule)


def check_wrong(room):
    rows = [(zone, "Europe/Berlin") for zone in ("Berlin", "europe/berlin", "Europe/BERLIN", "/Europe/Berlin", "Europe//Berlin")]
    rows += [(zone, "Etc/UTC") for zone in ("../zoneinfo/UTC", "Europe/../UTC")]
    rows += [(zone, "") for zone in ("", "/", "Europe", "Europe/", "Nowhere/Atlantis", "zone1970.tab", "A" * 64, "A" * 65)]
    for zone, similar in rows:
        file, hint = f"{room}/wrong.db", f"sunreg: the system has the time zone {similar}\n" if similar else ""
        same(f"--zone {zone!r}", create(file, zone), (2, "", hint + invalid(zone)))
        same(f"no file for {zone!r}", os.path.exists(file), False)


def main():
    if not os.access(PROGRAM, os.X_OK):
        sys.exit(f"zones.py: {PROGRAM} is not built: run ./sunreg-build")
    with tempfile.TemporaryDirectory() as room:
        check_names(room)
        check_rules(room)
        check_wrong(room)
    print(f"{counts[True]} passed, {counts[False]} failed")
    sys.exit(counts[False] > 0)


main()
