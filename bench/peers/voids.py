"""voids.py PROGRAM: measures how long a running office takes to void a reading.

bench/voids.sh runs it. It voids readings of the first tenth of the meter's entries, of the middle
and of the end; no two of them are neighbours. The processor time is that of the process, for the
whole request; the median counts. Afterwards it compares the interval rows with those that the
remaining entries give.
"""
import json
import os
import pathlib
import statistics
import subprocess
import sys
import time
import urllib.request

from growth import lines
from sites import QUARTER, fill, free_port, machine, places, query, start, stop

DAYS, EACH = (31, 365, 3650), 20


def void(port, number, place):
    headers = {"Office-Caller": "desk", "Office-Request": str(number), "Content-Type": "application/json"}
    body = json.dumps({"place": place}).encode()
    with urllib.request.urlopen(urllib.request.Request(f"http://127.0.0.1:{port}/meters/m0/void", body, headers)) as reply:
        if reply.read() != b'{"done":"void"}':
            sys.exit(f"voids.py: the entry {place} was not voided")


def voids(program, db, spots):
    """Returns the milliseconds of voids around each of these places, of the processor and by the
    clock."""
    port = free_port()
    words = [program, "run", "--db", db, "--listen", str(port), "--every", "86400", "--devices", "d0=127.0.0.1:9"]
    child = start(words, port, stdout=subprocess.DEVNULL, stderr=subprocess.DEVNULL)
    time.sleep(1)
    ran, number, told = pathlib.Path(f"/proc/{child.pid}/schedstat"), 0, []
    for spot in spots:
        costs, clocks = [], []
        for place in range(spot - 2 * EACH, spot, 2):
            number, before, began = number + 1, int(ran.read_text().split()[0]), time.monotonic()
            void(port, number, place)
            clocks.append(1000 * (time.monotonic() - began))
            costs.append((int(ran.read_text().split()[0]) - before) / 1e6)
        told.append((statistics.median(costs), statistics.median(clocks)))
    stop(child)
    return told


def is_moved(db):
    """Returns whether energy was lost, made or moved.

    The counter counts evenly, so a void of a reading between two others changes no quarter hour."""
    (rows, least, most), = (map(int, it.split("|")) for it in query(db, "SELECT count(*), min(mwh), max(mwh) FROM intervals WHERE meter = 'm0'"))
    total, = query(db, "SELECT total FROM installations WHERE meter = 'm0'")
    return least != most or rows * least != int(total)


def main():
    program = os.path.abspath(sys.argv[1])
    machine(program)
    room = places()["tmpfs"]
    print("| Entries | A void in the first tenth | in the middle | at the end | the middle by the clock |\n|" + "---|" * 5)
    for days in DAYS:
        db, entries = str(room / "office.db"), 86400 // QUARTER * days + 1
        fill(db, lines(1, QUARTER, days)[0])
        query(db, "PRAGMA journal_mode = WAL")
        (first, _), (middle, clock), (last, _) = voids(program, db, (entries // 10, entries // 2, entries))
        if is_moved(db):
            sys.exit("voids.py: energy was moved")
        print(f"| {entries:,} | {first:.2f} ms | {middle:.2f} ms | {last:.2f} ms | {clock:.2f} ms |", flush=True)
        for it in room.iterdir():
            it.unlink()


main()
