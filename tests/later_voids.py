#!/usr/bin/env python3
"""later_voids.py [PROGRAM]: tries what `sunreg audit --against` prints about voids since a seal.

A meter is read every ten days, from December to March in Swiss time. Its file is sealed, and then
`sunreg enter` voids readings. The expected lines follow from the table `intervals` of a copy that
has only the sealed entries, and from the civil days of the C library. The script needs python3 and
sqlite3, and ends with 'N passed, M failed'."""
import os
import pathlib
import shutil
import sqlite3
import subprocess
import sys
import tempfile

sys.dont_write_bytecode = True
import sealed

HERE = pathlib.Path(__file__).resolve().parent
ZONE, DAY = "CET-1CEST,M3.5.0,M10.5.0/3", 86400
FIRST = 1765062000  # 2025-12-07 00:00 in Swiss time
READINGS = 10
counts = {"passed": 0, "failed": 0}


def same(what, got, wanted):
    """Compares a result with the expected one, and counts it."""
    counts["passed" if got == wanted else "failed"] += 1
    if got != wanted:
        print(f"{what}: {got!r}\nand not {wanted!r}", flush=True)


def run(*words, said=None):
    """Runs the program, and returns its status, its lines, and those of its standard error."""
    done = subprocess.run([PROGRAM, *words], input=said, text=True, capture_output=True, timeout=60)
    # (a file that no command has opened has no log)
    return done.returncode, done.stdout.splitlines(), [it for it in done.stderr.splitlines() if "it had no log" not in it]


def make(db, readings):
    """Makes a file with a meter that was read every ten days, each time with another power.

    Every quarter hour between two readings has the same energy, in whole mWh."""
    subprocess.run(["bash", str(HERE / "schema.sh"), db, ZONE], check=True)
    entries, intervals, raw = [("m1", 1, 1, FIRST, 0, 0, 0, -3)], [], 0
    for at in range(readings):
        quarter = 10_000 + 7_111 * (at % 4)
        intervals += [("m1", FIRST + 10 * DAY * at + 900 * it, quarter) for it in range(960)]
        raw += 960 * quarter
        entries.append(("m1", at + 2, 2, FIRST + 10 * DAY * (at + 1), raw, 0, 0, -3))
    with sqlite3.connect(db) as books:
        books.execute("INSERT INTO devices VALUES (1, 'inv', 1, 5, 1)")
        books.execute("INSERT INTO registers VALUES (1, 'main', 'inv', 3, 40094, 0, -3)")
        books.execute("INSERT INTO installations VALUES (1, 'm1', 'main', 3000, 0, ?, ?, -3, ?)", [entries[-1][3], raw, raw])
        books.execute("INSERT INTO ranges VALUES ('m1', 4294967296)")
        books.executemany("INSERT INTO entries VALUES (?, ?, ?, ?, ?, ?, ?, ?)", entries)
        books.executemany("INSERT INTO intervals VALUES (?, ?, ?)", intervals)
    books.close()


def void(db, number, place):
    """Voids an entry with the program."""
    same(f"{db}: entry {place} is voided", run("enter", "--db", db, "--caller", "desk", said=f"{number} void m1 {place}\n")[:2], (0, ["ok"]))


def energy(mwh):
    """Returns an energy as a line of the audit prints it."""
    return f"{mwh} mWh ({mwh // 10**6}.{mwh % 10**6:06} kWh)"


def day(place):
    """Returns the civil day of an entry."""
    return sealed.civil(ZONE, FIRST + 10 * DAY * (place - 1), "%Y-%m-%d")


def months_in(db):
    """Returns the energy of the meter by month."""
    books = sqlite3.connect(db)
    found = sealed.months_of(books, "m1")
    books.close()
    return found


def notes(before, after, voids):
    """Returns the expected lines for voids, each with the entries from and up to which it changes
    energy. `before` and `after` are the energies by month."""
    lines = [f"void m1 {place} changes energy from {day(low)} to {day(high)}" for place, low, high in voids]
    for month, was in before.items():
        now = after.get(month, 0)
        by = "".join(f", by void {place}" for place, low, high in voids if day(low)[:7] <= month <= day(high)[:7])
        lines += [f"month m1 {month} was {energy(was)}, is {energy(now)}{by}"] * (was != now)
    return lines


def against(what, db, lines):
    """Compares a file with the seal."""
    same(what, run("audit", "--db", db, "--against", "seal.txt"), (0, ["sealed: fine", *lines], []))


def main():
    make("sealed.db", READINGS)
    same("the seal", run("audit", "--db", "sealed.db", "--seal")[:2], (0, sealed.seal_of("sealed.db").splitlines()))
    pathlib.Path("seal.txt").write_text(sealed.seal_of("sealed.db"))
    before = months_in("sealed.db")
    same("four months", list(before), ["2025-12", "2026-01", "2026-02", "2026-03"])
    against("nothing came since", "sealed.db", [])
    for place, low, high in ((2, 1, 3), (5, 4, 6), (READINGS, READINGS - 1, READINGS + 1), (READINGS + 1, READINGS, READINGS + 1)):
        shutil.copy("sealed.db", "one.db")
        void("one.db", 1, place)
        against(f"entry {place} is voided", "one.db", notes(before, months_in("one.db"), [(place, low, high)]))
    shutil.copy("sealed.db", "two.db")
    void("two.db", 1, 4)
    pathlib.Path("seal.txt").write_text(sealed.seal_of("two.db"))
    middle = months_in("two.db")
    against("a void that is sealed", "two.db", [])
    void("two.db", 2, 8)
    void("two.db", 3, 5)
    against("two voids after a sealed one", "two.db", notes(middle, months_in("two.db"), [(5, 3, 6), (8, 7, 9)]))
    # (a reading after the seal, and the voids of both: only the first one changes sealed energy)
    make("more.db", READINGS + 2)
    pathlib.Path("seal.txt").write_text(sealed.seal_of("sealed.db"))
    against("later readings", "more.db", [])
    void("more.db", 1, 6)
    void("more.db", 2, READINGS + 2)
    shutil.copy("sealed.db", "less.db")
    void("less.db", 1, 6)
    against("later readings, and a sealed one is voided", "more.db", notes(before, months_in("less.db"), [(6, 5, 7)]))


if __name__ == "__main__":
    PROGRAM = os.path.abspath(sys.argv[1] if sys.argv[1:] else os.environ.get("SUNREG", "out/sunreg"))
    with tempfile.TemporaryDirectory() as room:
        os.chdir(room)
        main()
        os.chdir("/")
    print(f"{counts['passed']} passed, {counts['failed']} failed")
    sys.exit(counts["failed"] > 0)
