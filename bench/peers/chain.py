"""chain.py PROGRAM [MONTHS]: measures what a file a month costs over years.

bench/growth.sh --chain runs it. SQL puts polls into a file, and the program carries its meters into
the file of the next month. The first, the middle and the last month are complete, with all meters.
Each is carried from a file whose meters have the counters of that time. All months, one after the
other, have one meter, because a report over all of them opens each file.
"""
import datetime
import os
import pathlib
import resource
import shutil
import subprocess
import sys
import time
import urllib.request

from growth import each, opening, told
from sites import QUARTER, fill, machine, places, query
from room import free_port, is_listening

METERS = 64
# The energy of each quarter hour, in Wh.
STEP = 50


def beginning(month):
    """Returns the time when a month begins, in UTC; months are counted from the year 0."""
    return int(datetime.datetime(month // 12, month % 12 + 1, 1, tzinfo=datetime.timezone.utc).timestamp())


def quarters(month):
    return (beginning(month + 1) - beginning(month)) // QUARTER


def name_of(month):
    return f"office-{month // 12}-{month % 12 + 1:02}.db"


def site_lines(meters, at, raw):
    """Returns the rows of a site whose meters were installed at one time, with this counter."""
    made = []
    for n in range(meters):
        made += [
            f"INSERT INTO devices VALUES ({n + 1}, 'd{n}', 1, 5, 1);",
            f"INSERT INTO points VALUES ('d{n}', 1, 'WH', 3, 0, 40094, 'acc32', '');",
            f"INSERT INTO registers VALUES ({n + 1}, 'r{n}', 'd{n}', 3, 40094, 0, 0);",
            f"INSERT INTO installations VALUES ({n + 1}, 'm{n}', 'r{n}', 100000, 0, {at}, {raw}, 0, 0);",
            f"INSERT INTO ranges VALUES ('m{n}', 4294967296);",
            f"INSERT INTO entries VALUES ('m{n}', 1, 1, {at}, {raw}, 0, 0, 0);",
        ]
    return made


def month_lines(meters, month, raw):
    """Returns the rows of a month's polls of each device, in which meters continue from this
    counter."""
    begin, count = beginning(month), quarters(month)
    made = []
    for n in range(meters):
        made += [
            f"INSERT INTO entries {each(count)} SELECT 'm{n}', n + 2, 2, {begin} + {QUARTER} * (n + 1), {raw} + {STEP} * (n + 1), 0, 0, 0 FROM t;",
            f"INSERT INTO intervals {each(count)} SELECT 'm{n}', {begin} + {QUARTER} * n, {1000 * STEP} FROM t;",
        ]
    return made + [
        f"UPDATE installations SET last_moment = {begin + QUARTER * count}, last_raw = {raw + STEP * count}, total = {1000 * STEP * count};",
        f"INSERT INTO polls {each(count * meters)} SELECT n + 1, 'd' || (n % {meters}), 1, {begin} + {QUARTER} * (n / {meters} + 1), n % 65536, 3, 40094, 2 FROM t;",
        f"INSERT INTO outcomes {each(count * meters)} SELECT n + 1, {begin} + {QUARTER} * (n / {meters} + 1), 1, 0 FROM t;",
    ]


def timed(words):
    """Returns the processor seconds of a call, and what it prints."""
    before = resource.getrusage(resource.RUSAGE_CHILDREN)
    done = subprocess.run(words, capture_output=True, text=True)
    after = resource.getrusage(resource.RUSAGE_CHILDREN)
    return after.ru_utime + after.ru_stime - before.ru_utime - before.ru_stime, done


def carried(program, meters, old, new):
    cost, done = timed([program, "carry", "--from", old, "--to", new])
    if (done.returncode, done.stdout) != (0, f"carried {meters} meters\n"):
        sys.exit(f"chain.py: {old} is not carried: {done.stdout}{done.stderr}")
    return cost


def begun(program, meters, month, raw, room):
    """Returns the file of a month, carried from a file whose meters have this counter."""
    before, db = str(room / "before.db"), str(room / name_of(month))
    fill(before, site_lines(meters, beginning(month), raw))
    query(before, "PRAGMA journal_mode = WAL")
    carried(program, meters, before, db)
    for it in room.glob("before.db*"):
        it.unlink()
    return db


def put(db, lines):
    subprocess.run(["sqlite3", "-bail", db], input="BEGIN;" + "\n".join(lines) + "COMMIT;", text=True, check=True)


def fine(program, files):
    words = [program, "audit"]
    for it in files:
        words += ["--db", it]
    cost, done = timed(words)
    if done.returncode != 0:
        sys.exit(f"chain.py: {files[0]}..: {done.stdout}{done.stderr}")
    return cost


def measure_month(program, first, at, room):
    """Measures one month of all meters: the opening of its file, and its carry into the next
    month."""
    month = first + at - 1
    raw = STEP * sum(quarters(it) for it in range(first, month))
    db = begun(program, METERS, month, raw, room)
    put(db, month_lines(METERS, month, raw))
    fine(program, [db])
    copy, after = str(room / "opened.db"), str(room / "next.db")
    shutil.copy(db, copy)
    took, cost, memory = opening(program, copy)
    spent = carried(program, METERS, db, after)
    rows = 4 * METERS * quarters(month) + METERS
    print(f"| {at} | {rows:,} | {os.path.getsize(db) / 1e6:.1f} MB | {told(took)} | {told(cost)} | {memory:.0f} MB | {told(spent)} |", flush=True)
    for it in room.iterdir():
        it.unlink()


def chain(program, first, months, room):
    """Makes the files of all months, of one meter, each carried from the file before it."""
    files, raw, carrying = [], 0, 0.0
    for month in range(first, first + months):
        db = str(room / name_of(month))
        if files:
            carrying += carried(program, 1, files[-1], db)
        else:
            db = begun(program, 1, month, raw, room)
        put(db, month_lines(1, month, raw))
        raw += STEP * quarters(month)
        files.append(db)
    return files, carrying


def report(program, files):
    """Returns the processor seconds of a report by months over files, and its energy."""
    words = [program, "report", "--register", "r0", "--by", "month"]
    for it in files:
        words += ["--db", it]
    cost, done = timed(words)
    if done.returncode != 0:
        sys.exit(f"chain.py: a report over {len(files)} files: {done.stderr or done.stdout}")
    lines = done.stdout.splitlines()[:-1]
    return cost, lines


def run_over(program, files, targets):
    """Measures a run that reports energy over files.

    Returns the processor seconds until it listens, and the memory that it holds then and has held
    at most, in MB. For each target it returns the response, and the milliseconds of the processor
    of the fastest of five responses."""
    port = free_port()
    dbs = [word for it in files for word in ("--db", it)]
    words = [program, "run", *dbs, "--listen", str(port), "--every", "86400", "--devices", "d0=127.0.0.1:9"]
    child = subprocess.Popen(words, stdout=subprocess.DEVNULL, stderr=subprocess.DEVNULL)
    while not is_listening(port):
        if child.poll() is not None:
            sys.exit(f"chain.py: run ended with {child.returncode}")
        time.sleep(0.002)
    time.sleep(1)
    ran, replies = pathlib.Path(f"/proc/{child.pid}/schedstat"), []
    begun = int(ran.read_text().split()[0]) / 1e9
    told = dict(line.split(":") for line in pathlib.Path(f"/proc/{child.pid}/status").read_text().splitlines() if line.startswith("Vm"))
    for target in targets:
        took = []
        for _ in range(5):
            before = int(ran.read_text().split()[0])
            text = urllib.request.urlopen(f"http://127.0.0.1:{port}{target}").read().decode()
            took.append((int(ran.read_text().split()[0]) - before) / 1e6)
        replies.append((min(took), text))
    child.kill()
    child.wait()
    return begun, int(told["VmRSS"].split()[0]) / 1000, int(told["VmHWM"].split()[0]) / 1000, replies


def measure_run(program, files, first, months, lines, energy):
    """Measures a run over all files beside a run over the last file alone."""
    last = datetime.date((first + months - 1) // 12, (first + months - 1) % 12 + 1, 1)
    targets = ["/registers/r0/months", f"/registers/r0/days/{last}/{last + datetime.timedelta(days=28)}", "/site"]
    print("| A run over | Begun, of the processor | Memory | at most | Its months | 28 days | `/site` |\n|" + "---|" * 7)
    told = []
    for what, given in (("the last file alone", files[-1:]), (f"all {len(files)} files", files)):
        begun, holds, most, replies = run_over(program, given, targets)
        told.append([text for _, text in replies])
        print(f"| {what} | {begun:.1f} s | {holds:.1f} MB | {most:.1f} MB |" + "".join(f" {took:.2f} ms |" for took, _ in replies), flush=True)
    alone, over = told
    if over[0].splitlines()[:-1] != lines or over[1] != alone[1] or over[1].splitlines()[-1] != "end 28":
        sys.exit(f"chain.py: a run over all files reports other months or days: {over[0].splitlines()[:3]}")
    if f'"total":"{energy}"' not in over[2]:
        sys.exit(f"chain.py: /site over all files reports {over[2]}")


def measure_chain(program, first, months, room):
    files, carrying = chain(program, first, months, room)
    size, count = sum(os.path.getsize(it) for it in files), sum(quarters(it) for it in range(first, first + months))
    alone = [report(program, [it]) for it in files]
    cost, lines = report(program, files)
    if lines != [line for _, of in alone for line in of] or len(lines) != months:
        sys.exit(f"chain.py: the report over all files has other lines than those of each: {lines[:3]}")
    energy = sum(int(line.split()[2]) for line in lines)
    if energy != 1000 * STEP * count:
        sys.exit(f"chain.py: the report over all files has {energy} mWh")
    each_alone = sum(it for it, _ in alone)
    print(f"one meter, {months} files of {size / 1e6 / months:.2f} MB: carried in {told(carrying)} together, of the processor")
    print(f"a report by months over all of them takes {told(cost)} of the processor; reports on each alone {told(each_alone)}, so it takes {1000 * (cost - each_alone):+.0f} ms beside its openings")
    measure_run(program, files, first, months, lines, energy)
    print(f"an audit over all of them takes {told(fine(program, files))} of the processor")


def main():
    program, months = os.path.abspath(sys.argv[1]), int(sys.argv[2]) if len(sys.argv) > 2 else 120
    room = places()["tmpfs"]
    machine(program)
    now = datetime.datetime.now(datetime.timezone.utc)
    first = 12 * now.year + now.month - 1 - months
    print(f"{METERS} meters, each polled each quarter hour:")
    print("| Month | Rows | File | Opening | of the processor | Memory | Carried into the next, of the processor |\n|" + "---|" * 7, flush=True)
    for at in sorted({1, (months + 1) // 2, months}):
        measure_month(program, first, at, room)
    measure_chain(program, first, months, room)


if __name__ == "__main__":
    main()
