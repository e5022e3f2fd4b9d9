"""Functions that the measurements of offices over a file share.

They make files of a site and devices, measure an office's costs, and compare the records of two
offices."""
import atexit
import contextlib
import os
import pathlib
import shutil
import statistics
import subprocess
import sys
import tempfile
import time

HERE = pathlib.Path(__file__).resolve().parent
TESTS = HERE.parent.parent / "tests"
sys.path.insert(0, str(TESTS / "peers"))
from plain_office import shares
from room import CHILDREN, ROOM, free_port, run, start, stop

COMPILED = {
    "plain_server": ["cc", "-O2", TESTS / "peers/plain_server.c"],
    "office": ["cc", "-O2", HERE / "office.c", "-lsqlite3"],
    "count_statements.so": ["cc", "-O2", "-shared", "-fPIC", HERE / "count_statements.c", "-lsqlite3"],
    "replay": ["rustc", "-O", "--edition", "2024", HERE / "replay.rs"],
}
APART = 128
QUARTER = 900
BEGUN = 990
# The columns of each table that hold no timestamp: the offices are measured one after the other, so
# their timestamps differ.
COLUMNS = {
    "meta": "*",
    "devices": "*",
    "points": "*",
    "registers": "*",
    "installations": "place, meter, register, ceiling, ended, last_raw, last_sf, total",
    "entries": 'meter, place, kind, raw, rolls, "after", sf',
    "polls": "poll, device, unit, tid, function, address, count",
    "holds": "place, meter, poll, raw, sf, cause",
    "outcomes": "poll, outcome, code",
    "replies": "caller, number, hex(request), kind",
    "ranges": "*",
    "voids": "meter, place",
}
LAST_IS_ENTRY = "SELECT count(*) FROM installations AS it WHERE last_moment <> (SELECT moment FROM entries WHERE meter = it.meter ORDER BY place DESC LIMIT 1)"


def compiled(name):
    """Compiles another program in C, and returns its path."""
    made = ROOM / name
    if not made.exists():
        subprocess.run([*map(str, COMPILED[name]), "-o", str(made)], check=True)
    return made


def places():
    """Returns the folders to measure in: a tmpfs, where a commit costs no disk, and TMPDIR, unless
    it is the same.

    They are removed when the process ends."""
    found, names = {}, {"tmpfs": "/dev/shm", "disk": tempfile.gettempdir()}
    for name, folder in names.items():
        kind = run("stat", "-f", "-c", "%T", folder).stdout.strip()
        if (name == "tmpfs") != (kind == "tmpfs") or not os.access(folder, os.W_OK):
            print(f"no {name} is measured: {folder} is {kind or 'not there'}", file=sys.stderr)
            continue
        found[name] = pathlib.Path(tempfile.mkdtemp(prefix="bench-", dir=folder))
        atexit.register(shutil.rmtree, found[name], ignore_errors=True)
    return found


def said(*words):
    """Returns the first line that a program prints, or a dash if the program is not here."""
    try:
        done = subprocess.run(words, capture_output=True, text=True)
    except OSError:
        return "-"
    return (done.stdout or done.stderr or "-").splitlines()[0]


def machine(*programs):
    """Prints the date, the machine and the programs of a measurement."""
    cpu = next((it.split(":")[1].strip() for it in open("/proc/cpuinfo") if it.startswith("model name")), "?")
    print(f"{time.strftime('%Y-%m-%d %H:%M')} UTC, {os.cpu_count()} processors ({cpu}), Linux {os.uname().release}; load {load()}")
    for it in programs:
        print(f"{it}: {os.path.getsize(it):,} bytes, SHA-256 {said('sha256sum', it).split()[0][:16]}")
    versions = [f"SQLite {said('sqlite3', '--version').split()[0]}", said("cc", "--version"), said("rustc", "--version"), said(sys.executable, "--version"), said("rt", "version")]
    print("; ".join(versions), flush=True)


def load():
    return ", ".join(f"{it:.1f}" for it in os.getloadavg())


def fill(db, lines):
    """Makes a file of the tables, with the rows that these lines of SQL add."""
    subprocess.run(["bash", str(TESTS / "schema.sh"), str(db), "UTC0"], check=True)
    subprocess.run(["sqlite3", "-bail", str(db)], input="BEGIN;" + "\n".join(lines) + "COMMIT;", text=True, check=True)


def device_lines(place, name, window, reads):
    """Returns the rows of a device whose list has so many counters, no two of them near enough for
    one read."""
    lines = [f"INSERT INTO devices VALUES ({place}, '{name}', 1, 30, {window});"]
    return lines + [f"INSERT INTO points VALUES ('{name}', {n + 1}, 'P{n}', 3, 0, {APART * n}, 'acc32', '');" for n in range(reads)]


def register_line(place, device, read):
    """Returns the row of a register at a read of a device."""
    return f"INSERT INTO registers VALUES ({place}, 'r{place}', '{device}', 3, {APART * read}, 0, 0);"


def meter_lines(place, register, entries, rows=(), ended=0):
    """Returns the rows of a meter at the register of a place, with its entries and interval
    rows."""
    meter, *_, end, raw, _, _, _ = entries[-1]
    total = sum(mwh for _, _, mwh in rows)
    return [
        f"INSERT INTO installations VALUES ({place}, '{meter}', 'r{register}', 100000, {ended}, {end}, {raw}, 0, {total});",
        f"INSERT INTO ranges VALUES ('{meter}', 4294967296);",
        *(f"INSERT INTO entries VALUES {it};" for it in entries),
        *(f"INSERT INTO intervals VALUES {it};" for it in rows),
    ]


def site(db, devices, reads, meters, window, exchanged=False):
    """Makes a file of devices with so many reads each, and returns the devices' names.

    The first reads of a device have a meter each, and with `exchanged` also a closed meter before
    it."""
    at, lines, names, place = int(time.time()) - 10, [], [f"d{n}" for n in range(devices)], 0
    for n, name in enumerate(names):
        lines += device_lines(n + 1, name, window, reads)
        for read in range(meters):
            register = n * meters + read + 1
            lines.append(register_line(register, name, read))
            if exchanged:
                place, old = place + 1, f"o{register}"
                entries = [(old, 1, 1, at - QUARTER, BEGUN, 0, 0, 0), (old, 2, 4, at, BEGUN + 1, 0, 0, 0)]
                rows = [(old, *it) for it in shares(at - QUARTER, at, 1000)]
                lines += meter_lines(place, register, entries, rows, ended=1)
            place += 1
            lines += meter_lines(place, register, [(f"m{register}", 1, 1, at, BEGUN, 0, 0, 0)])
    fill(db, lines)
    return names


def serve(count, *more):
    """Starts so many plain devices, and returns their ports."""
    ports = []
    for _ in range(count):
        ports.append(free_port())
        start([str(it) for it in (compiled("plain_server"), ports[-1], *more)], ports[-1])
    return ports


def clear(folder):
    """Ends the devices, and removes a folder's files."""
    while CHILDREN:
        stop(CHILDREN.pop())
    for it in folder.iterdir():
        it.unlink()


def measured(words, printed, read=os.devnull):
    """Returns the seconds of a program: by the clock, of the processor, and of the processor until
    its first line."""
    began, opened = time.monotonic(), 0.0
    with contextlib.suppress(PermissionError):
        # (so that this process looks in time; its children run with the usual priority)
        os.sched_setscheduler(0, os.SCHED_RR | os.SCHED_RESET_ON_FORK, os.sched_param(1))
    with open(read) as script, open(printed, "w") as out:
        child = subprocess.Popen([str(it) for it in words], stdin=script, stdout=out)
        ran = pathlib.Path(f"/proc/{child.pid}/schedstat")
        while not os.fstat(out.fileno()).st_size and not os.waitid(os.P_PID, child.pid, os.WEXITED | os.WNOHANG | os.WNOWAIT):
            opened = int(ran.read_text().split()[0]) / 1e9
            time.sleep(0.0002)
        _, status, usage = os.wait4(child.pid, 0)
    took = time.monotonic() - began
    child.returncode = os.waitstatus_to_exitcode(status)
    if child.returncode:
        sys.exit(f"{words} ended with {child.returncode}, and printed {pathlib.Path(printed).read_text()[-300:]}")
    return took, usage.ru_utime + usage.ru_stime, opened


def memory(words, read):
    """Returns the most memory of a program, in MiB, by a look each millisecond.

    (The figure of wait4 for a child includes this process.)"""
    with open(read) as script:
        child = subprocess.Popen([str(it) for it in words], stdin=script, stdout=subprocess.DEVNULL)
    most = 0
    while child.poll() is None:
        told = pathlib.Path(f"/proc/{child.pid}/status").read_text()
        most = max([most, *(int(it.split()[1]) / 1024 for it in told.splitlines() if it.startswith("VmHWM:"))])
        time.sleep(0.001)
    return most


def medians(runs):
    """Returns the medians of each part of some runs."""
    return tuple(statistics.median(it) for it in zip(*runs))


def query(db, text):
    done = run("sqlite3", "-bail", str(db), text, limit=600)
    if done.returncode:
        sys.exit(f"{db}: {done.stderr.strip()}")
    return done.stdout.splitlines()


def stray_interval(db):
    """Returns the first interval row that the file's own entries do not give, or None."""
    steps = {}
    for row in query(db, "SELECT meter, moment, raw, sf, \"range\" FROM entries JOIN ranges USING (meter) ORDER BY meter, place"):
        meter, *numbers = row.split("|")
        steps.setdefault(meter, []).append(tuple(map(int, numbers)))
    wanted = {}
    for meter, entries in steps.items():
        for (was, before, *_), (at, raw, sf, turn) in zip(entries, entries[1:]):
            for quarter, mwh in shares(was, at, (raw - before) % turn * 10 ** (sf + 3)):
                wanted[meter, quarter] = wanted.get((meter, quarter), 0) + mwh
    for row in query(db, "SELECT meter, start, mwh FROM intervals"):
        meter, quarter, mwh = row.split("|")
        if wanted.pop((meter, int(quarter)), None) != int(mwh):
            return row
    return next(iter(wanted), None)


def check_whole(name, db):
    """Ends the process unless a file's tables are sound, and its entries give its installations and
    interval rows."""
    for text, wanted in (("PRAGMA integrity_check; PRAGMA foreign_key_check", ["ok"]), (LAST_IS_ENTRY, ["0"])):
        if query(db, text) != wanted:
            sys.exit(f"{name}: {text} finds a fault")
    if stray := stray_interval(db):
        sys.exit(f"{name}: the interval row {stray} is not that of the entries")


def check_same(files):
    """Ends the process unless the files of all offices, by their names, are sound and have the same
    rows.

    Timestamps are not compared."""
    tables = {}
    for name, db in files.items():
        check_whole(name, db)
        tables[name] = {table: query(db, f"SELECT {columns} FROM {table} ORDER BY 1, 2") for table, columns in COLUMNS.items()}
    (first, rows), *others = tables.items()
    for name, of in others:
        for table in COLUMNS:
            if rows[table] != of[table]:
                both = next((it for it in zip(rows[table], of[table]) if it[0] != it[1]), (len(rows[table]), len(of[table])))
                sys.exit(f"{first} and {name} have not recorded the same {table}: {both}")


def told(printed, window):
    """Returns what a round printed.

    If more than one poll may wait, responses arrive in groups that differ. Then it returns the
    settled polls and the sent frames, in order."""
    lines = pathlib.Path(printed).read_text().splitlines()
    if window == 1:
        return lines
    frames = "".join(it.split()[-1] for it in lines if it.startswith("started "))
    return [it for it in lines if not it.startswith("started ") and it != "ok"] + [frames]


def check_told(printed, window):
    """Ends the process unless all offices, by their names, printed the same."""
    (first, lines), *others = ((name, told(it, window)) for name, it in printed.items())
    for name, of in others:
        if lines != of:
            both = next((it for it in zip(lines, of) if it[0] != it[1]), (len(lines), len(of)))
            sys.exit(f"{first} and {name} did not print the same: {both}")
