"""report.py PROGRAM [YEARS]: times a register's energy by days and by quarter hours over years.

bench/report.sh runs it. The comparison is the program sqlite3, which must print the same; the least
of five runs counts. The program reads the whole file before the first response: the time until
`serve` listens is the time of that.
"""
import os
import socket
import subprocess
import sys
import time

from room import HERE, ROOM, free_port, start

TURNS = 5
ZONE = "CET-1CEST,M3.5.0,M10.5.0/3"
BEGIN = 1735689600
DAY = 86400
SUM = """SELECT printf('%s %3d %24d', date(start, 'unixepoch', 'localtime'), count(*), sum(mwh)) FROM intervals
    JOIN installations USING (meter) WHERE register = 'main' GROUP BY date(start, 'unixepoch', 'localtime') ORDER BY 1"""
ROWS = "SELECT start || ' ' || mwh FROM intervals WHERE meter = 'm1' ORDER BY start"


def quarter(day):
    """Returns the energy of each quarter hour of a day, in mWh."""
    return 1000 * (200 + day % 50)


def office(db, days):
    """Makes a file of one meter that was read once a day."""
    entries, rows, raw = [f"('m1', 1, 1, {BEGIN}, 0, 0, 0, 0)"], [], 0
    for day in range(days):
        raw += 96 * quarter(day) // 1000
        entries.append(f"('m1', {day + 2}, 2, {BEGIN + DAY * (day + 1)}, {raw}, 0, 0, 0)")
        rows += [f"('m1', {BEGIN + DAY * day + 900 * at}, {quarter(day)})" for at in range(96)]
    text = f"""BEGIN;
        INSERT INTO devices VALUES (1, 'inv', 1, 5, 1);
        INSERT INTO registers VALUES (1, 'main', 'inv', 3, 40094, 0, 0);
        INSERT INTO installations VALUES (1, 'm1', 'main', 100000, 0, {BEGIN + DAY * days}, {raw}, 0, {1000 * raw});
        INSERT INTO ranges VALUES ('m1', 4294967296);
        INSERT INTO entries VALUES {", ".join(entries)};
        INSERT INTO intervals VALUES {", ".join(rows)};
        COMMIT;"""
    subprocess.run(["bash", str(HERE.parent / "schema.sh"), db, ZONE], check=True)
    subprocess.run(["sqlite3", "-bail", db], input=text, text=True, check=True)
    return len(rows)


def measured(words):
    """Returns the output of a program, and its seconds, by the clock and of the processor."""
    start = time.monotonic()
    with open(ROOM / "printed", "wb") as out:
        child = subprocess.Popen(words, stdin=subprocess.DEVNULL, stdout=out, env={**os.environ, "TZ": ZONE})
        _, status, usage = os.wait4(child.pid, 0)
    took = time.monotonic() - start
    child.returncode = status
    if status:
        raise RuntimeError(f"{words[0]} failed")
    return (ROOM / "printed").read_bytes(), took, usage.ru_utime + usage.ru_stime


def answers(port, target):
    """Returns the least seconds of some HTTP responses, and the last response."""
    took = []
    for _ in range(TURNS):
        begin = time.monotonic()
        with socket.create_connection(("127.0.0.1", port), timeout=60) as link:
            link.sendall(f"GET {target} HTTP/1.1\r\nHost: 127.0.0.1\r\n\r\n".encode())
            got = b"".join(iter(lambda: link.recv(65536), b""))
        took.append(time.monotonic() - begin)
    return min(took), got.partition(b"\r\n\r\n")[2]


def plainly(db, query):
    """Returns the least seconds of the program sqlite3 by the clock, of the processor, and its
    output."""
    runs = [measured(["sqlite3", db, query]) for _ in range(TURNS)]
    return min(it[1] for it in runs), min(it[2] for it in runs), runs[0][0]


def check(ours, plain):
    rows = plain.count(b"\n")
    if ours != plain + b"end %d\n" % rows:
        sys.exit("report.py: they don't print the same")


def main():
    program = os.path.abspath(sys.argv[1])
    years = int(sys.argv[2]) if len(sys.argv) > 2 else 1
    db = str(ROOM / "office.db")
    rows = office(db, 365 * years)
    sums, listed = plainly(db, SUM), plainly(db, ROWS)
    runs = [measured([program, "report", "--db", db, "--register", "main"]) for _ in range(TURNS)]
    check(runs[0][0], sums[2])
    took, cost = (min(it[part] for it in runs) for part in (1, 2))
    print(f"{rows} quarter hours by days: sunreg report {1000 * took:.0f} ms with its opening, sqlite3 {1000 * sums[0]:.0f} ms,"
          f" ratio {sums[0] / took:.2f}; of the processor {1000 * cost:.0f} ms, {1000 * sums[1]:.0f} ms", flush=True)
    port, begin = free_port(), time.monotonic()
    start([program, "serve", "--db", db, "--port", str(port), "--connections", str(2 * TURNS)], port, stdout=subprocess.DEVNULL)
    print(f"its opening, until `serve` listens: {1000 * (time.monotonic() - begin):.0f} ms")
    for what, target, (theirs, _, plain) in (("by days", "/registers/main/days", sums), ("each", "/meters/m1/intervals", listed)):
        took, ours = answers(port, target)
        check(ours, plain)
        print(f"{rows} quarter hours, {what}: sunreg serve {1000 * took:.0f} ms by HTTP, sqlite3 {1000 * theirs:.0f} ms,"
              f" ratio {theirs / took:.2f}", flush=True)


if __name__ == "__main__":
    main()
