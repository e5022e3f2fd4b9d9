"""growth.py PROGRAM [MOST_ROWS]: measures how long files of some months and years take to open.

bench/growth.sh runs it. Each device has one counter with one meter, and was polled at equal
intervals; each poll was answered and gave a reading. The opening is the time until `serve` listens;
the memory is the most of the process until then. The comparison is the time in which sqlite3 checks
the same file.
"""
import os
import pathlib
import resource
import subprocess
import sys
import time

from sites import QUARTER, fill, machine, places, query
from room import free_port, is_listening

DAY = 86400
# Devices, seconds from poll to poll, days.
SITES = [
    (1, 900, 31), (1, 900, 365), (1, 900, 3650),
    (1, 60, 31), (1, 60, 365),
    (16, 900, 31), (16, 900, 365), (16, 60, 31),
    (64, 900, 31), (64, 900, 365), (64, 60, 31),
]
STEP_MWH = 50_000


def each(count):
    """Returns the numbers from 0 on, as a table t of n."""
    return f"WITH RECURSIVE t(n) AS (SELECT 0 UNION ALL SELECT n + 1 FROM t WHERE n < {count - 1})"


def lines(devices, every, days):
    """Returns the rows of a site.

    Each meter counts evenly from poll to poll, so that each quarter hour has the same energy."""
    polls = DAY * days // every
    begin = int(time.time()) // QUARTER * QUARTER - QUARTER - every * polls
    raw = f"(n * {every} / {QUARTER} * {STEP_MWH // 1000})" if every >= QUARTER else f"(n * {STEP_MWH // 1000 * every} / {QUARTER})"
    end = begin + every * polls
    made = []
    for at in range(devices):
        name, meter, place = f"d{at}", f"m{at}", at + 1
        last = query(":memory:", f"{each(polls + 1)} SELECT {raw} FROM t WHERE n = {polls}")[0]
        made += [
            f"INSERT INTO devices VALUES ({place}, '{name}', 1, 5, 1);",
            f"INSERT INTO points VALUES ('{name}', 1, 'WH', 3, 0, 40094, 'acc32', '');",
            f"INSERT INTO registers VALUES ({place}, 'r{at}', '{name}', 3, 40094, 0, 0);",
            f"INSERT INTO installations VALUES ({place}, '{meter}', 'r{at}', 100000, 0, {end}, {last}, 0, {1000 * int(last)});",
            f"INSERT INTO ranges VALUES ('{meter}', 4294967296);",
            f"INSERT INTO entries {each(polls + 1)} SELECT '{meter}', n + 1, CASE n WHEN 0 THEN 1 ELSE 2 END, {begin} + {every} * n, {raw}, 0, 0, 0 FROM t;",
            f"INSERT INTO intervals {each(every * polls // QUARTER)} SELECT '{meter}', {begin} + {QUARTER} * n, {STEP_MWH} FROM t;",
        ]
    # (polls are numbered in the order of their starts)
    made += [
        f"INSERT INTO polls {each(polls * devices)} SELECT n + 1, 'd' || (n % {devices}), 1, {begin} + {every} * (n / {devices} + 1), n % 65536, 3, 40094, 2 FROM t;",
        f"INSERT INTO outcomes {each(polls * devices)} SELECT n + 1, {begin} + {every} * (n / {devices} + 1), 1, 0 FROM t;",
    ]
    return made, devices * (3 * polls + every * polls // QUARTER)


def opening(program, db):
    """Returns the seconds until an office in a file listens, by the clock and of the processor, and
    its most memory in MB."""
    port, began = free_port(), time.monotonic()
    child = subprocess.Popen([program, "serve", "--db", db, "--port", str(port), "--connections", "1"], stdout=subprocess.DEVNULL, stderr=subprocess.DEVNULL)
    while not is_listening(port):
        if child.poll() is not None:
            sys.exit(f"growth.py: serve ended with {child.returncode}")
        time.sleep(0.002)
    took = time.monotonic() - began
    cost = int(pathlib.Path(f"/proc/{child.pid}/schedstat").read_text().split()[0]) / 1e9
    told = pathlib.Path(f"/proc/{child.pid}/status").read_text()
    child.kill()
    child.wait()
    most = next(int(it.split()[1]) for it in told.splitlines() if it.startswith("VmHWM:"))
    return took, cost, most / 1000


def checked(db):
    """Returns the processor seconds in which sqlite3 checks a file."""
    began = resource.getrusage(resource.RUSAGE_CHILDREN)
    if query(db, "PRAGMA integrity_check; PRAGMA foreign_key_check") != ["ok"]:
        sys.exit("growth.py: sqlite3 finds a fault")
    now = resource.getrusage(resource.RUSAGE_CHILDREN)
    return now.ru_utime + now.ru_stime - began.ru_utime - began.ru_stime


def told(seconds):
    return f"{seconds:.1f} s" if seconds >= 1 else f"{1000 * seconds:.0f} ms"


def main():
    program, most = os.path.abspath(sys.argv[1]), int(sys.argv[2]) if len(sys.argv) > 2 else 10_000_000
    room = places()["tmpfs"]
    machine(program)
    print("| Meters | Polled each | Days | Rows | File | Opening | of the processor | Memory | sqlite3's check |\n|" + "---|" * 9, flush=True)
    for devices, every, days in SITES:
        made, rows = lines(devices, every, days)
        if rows > most:
            print(f"{devices} meters each {every} s for {days} days are left out: {rows:,} rows", file=sys.stderr)
            continue
        db = str(room / "office.db")
        fill(db, made)
        query(db, "PRAGMA journal_mode = WAL")
        size = os.path.getsize(db)
        theirs = checked(db)
        took, cost, memory = opening(program, db)
        polled = "minute" if every == 60 else "quarter hour"
        print(f"| {devices} | {polled} | {days:,} | {rows:,} | {size / 1e6:.1f} MB | {told(took)} | {told(cost)} | {memory:.0f} MB | {told(theirs)} |", flush=True)
        for it in room.iterdir():
            it.unlink()


if __name__ == "__main__":
    main()
