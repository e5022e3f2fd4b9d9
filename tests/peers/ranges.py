"""ranges.py PROGRAM: times an office's responses about one day, out of one year and out of ten.

bench/ranges.sh runs it. The comparison is the program sqlite3, which must find the same quarter
hours. The least of five responses counts.
"""
import os
import subprocess
import sys
import time

import report
from report import DAY, answers, check, office, plainly
from room import ROOM, free_port, start, stop

YEARS = (1, 10)
# (so that ten years are before the clock)
report.BEGIN = 1420070400


def asked(program, years):
    """Returns the seconds of responses about the last day but one: its quarter hours, its entry and
    its sum.

    The history has so many years. The last value is the time of sqlite3 for the quarter hours."""
    db = str(ROOM / f"{years}.db")
    office(db, 365 * years)
    begin = report.BEGIN + DAY * (365 * years - 2)
    found = plainly(db, f"SELECT start || ' ' || mwh FROM intervals WHERE meter = 'm1' AND start >= {begin} AND start < {begin + DAY} ORDER BY start")
    port = free_port()
    words = ["run", "--db", db, "--listen", str(port), "--every", "60", "--devices", "inv=127.0.0.1:9", "--for", "600"]
    running = start([program, *words], port, stdout=subprocess.DEVNULL)
    rows, got = answers(port, f"/meters/m1/intervals/{begin}/{begin + DAY}")
    check(got, found[2])
    day, next_day = (time.strftime("%Y-%m-%d", time.gmtime(begin + DAY * it)) for it in (0, 1))
    told = [rows]
    for target in (f"/meters/m1/entries/{365 * years + 1}", f"/registers/main/days/{day}/{next_day}"):
        took, got = answers(port, target)
        if not got.endswith(b"end 1\n"):
            sys.exit(f"ranges.py: {target} has one line")
        told.append(took)
    stop(running)
    return [*told, found[0]]


def main():
    program = os.path.abspath(sys.argv[1])
    whats = ("a meter's quarter hours of a day", "its entry of a day", "a register's sum of a day", "the first by sqlite3, which opens the file")
    for what, one, ten in zip(whats, *(asked(program, years) for years in YEARS)):
        print(f"{what}: {1000 * one:.1f} ms out of a year, {1000 * ten:.1f} ms out of ten, ratio {ten / one:.2f}", flush=True)


main()
