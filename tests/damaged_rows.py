#!/usr/bin/env python3
"""damaged_rows.py [PROGRAM]: sets each column of each table of an office's file to a value that it can't have, and asserts that the
commands over the file report damage. Ends on 'N passed, M failed'.

- Two files are damaged: one with the tables of docs/SCHEMA.md, and one whose tables have the same names and columns, without types and
  keys. A value that SQLite refuses is not tried further.
- Damage is reported as `refused 13`, or the file isn't opened, since it holds no office, no zone, or a row that refers to none
  (status 3).
- No command reports damage in rows without damage, at the limits of their columns, or in columns that no query reads.
- Numbers keep their signs and digits, from a line to a row and back.
All values are written by hand. JOBS files are tried at a time, 2 by default.
"""
import concurrent.futures
import contextlib
import os
import pathlib
import shutil
import sqlite3
import subprocess
import sys
import tempfile

HERE = pathlib.Path(__file__).resolve().parent
PROGRAM = pathlib.Path(sys.argv[1] if len(sys.argv) > 1 else os.environ.get("SUNREG", HERE.parent / "out" / "sunreg")).resolve()
# Parts of why a file isn't opened: it holds no office, its zone is none, or SQLite finds a row that
# refers to none.
NOT_OURS, NO_ZONE, NO_DATABASE = "sunreg create makes", "the zone in its table meta", "SQLite database, or"
ZONE = "CET-1CEST,M3.5.0,M10.5.0/3"
counts = {"passed": 0, "failed": 0}

# The tables of an office by their names and columns, without types and keys.
LOOSE = """CREATE TABLE meta (id, version, zone);
CREATE TABLE devices (place, name, unit, timeout, "window");
CREATE TABLE points (device, place, name, function, area, address, kind, scale);
CREATE TABLE registers (place, name, device, function, address, scale_kind, scale);
CREATE TABLE installations (place, meter, register, ceiling, ended, last_moment, last_raw, last_sf, total);
CREATE TABLE entries (meter, place, kind, moment, raw, rolls, "after", sf);
CREATE TABLE polls (poll, device, unit, started, tid, function, address, count);
CREATE TABLE holds (place, meter, poll, moment, raw, sf, cause);
CREATE TABLE outcomes (poll, moment, outcome, code);
CREATE TABLE intervals (meter, start, mwh);
CREATE TABLE replies (caller, number, request, kind, moment);
CREATE TABLE ranges (meter, "range");
CREATE TABLE voids (meter, place, moment);
INSERT INTO meta VALUES (1, 3, 'UTC0')"""
# A meter with two readings, of which the second is voided. Another poll is pending, and one reading
# was rejected.
ROWS = """INSERT INTO devices VALUES (1, 'inv', 1, 5, 1);
INSERT INTO points VALUES ('inv', 1, 'Wh', 3, 0, 40094, 'acc32', 'Wh_SF'), ('inv', 2, 'Wh_SF', 3, 0, 40096, 'sunssf', '');
INSERT INTO registers VALUES (1, 'main', 'inv', 3, 40094, 1, 40096);
INSERT INTO installations VALUES (1, 'm1', 'main', 100000, 0, 1900, 5200, 0, 200000);
INSERT INTO ranges VALUES ('m1', 4294967296);
INSERT INTO entries VALUES ('m1', 1, 1, 1000, 5000, 0, 0, 0), ('m1', 2, 2, 1900, 5200, 0, 0, 0), ('m1', 3, 2, 2800, 5300, 0, 0, 0);
INSERT INTO voids VALUES ('m1', 3, 4000);
INSERT INTO intervals VALUES ('m1', 900, 177777), ('m1', 1800, 22223);
INSERT INTO polls VALUES (1, 'inv', 1, 1898, 0, 3, 40094, 3), (2, 'inv', 1, 4000, 1, 3, 40094, 3);
INSERT INTO outcomes VALUES (1, 1900, 1, 0);
INSERT INTO holds VALUES (1, 'm1', 1, 1900, 5100, 1, 2);"""
# A caller's request that was carried out; its bytes are those that the program keeps for the line
# ENTERED.
ENTERED = "7 void m1 2\n"

# A table and a column of it, a text that it can't have, and a number past its limits.
COLUMNS = [
    ("meta", "version", "'x'", "9"),
    ("meta", "zone", "'x'", "7"),
    ("devices", "place", "'x'", "0"),
    ("devices", "name", "'1x'", "7"),
    ("devices", "unit", "'x'", "256"),
    ("devices", "timeout", "'x'", "61"),
    ("devices", "window", "'x'", "17"),
    ("points", "place", "'x'", "0"),
    ("points", "name", "'1x'", "7"),
    ("points", "function", "'x'", "5"),
    ("points", "area", "'x'", "256"),
    ("points", "address", "'x'", "65536"),
    ("points", "kind", "'x'", "7"),
    ("points", "scale", "'1x'", "7"),
    ("registers", "place", "'x'", "0"),
    ("registers", "name", "'1x'", "7"),
    ("registers", "device", "'1x'", "7"),
    ("registers", "function", "'x'", "5"),
    ("registers", "address", "'x'", "65535"),
    ("registers", "scale_kind", "'x'", "2"),
    ("registers", "scale", "'x'", "65536"),
    ("installations", "place", "'x'", "0"),
    ("installations", "meter", "'1x'", "7"),
    ("installations", "register", "'1x'", "7"),
    ("installations", "ceiling", "'x'", "1000000001"),
    ("installations", "ended", "'x'", "2"),
    ("installations", "last_moment", "'x'", "4102444801"),
    ("installations", "last_raw", "'x'", "4294967296"),
    ("installations", "last_sf", "'x'", "4"),
    ("installations", "total", "'x'", "4000000000000000001"),
    ("entries", "meter", "'1x'", "7"),
    ("entries", "place", "'x'", "0"),
    ("entries", "kind", "'x'", "7"),
    ("entries", "moment", "'x'", "4102444801"),
    ("entries", "raw", "'x'", "-1"),
    ("entries", "rolls", "'x'", "256"),
    ("entries", "after", "'x'", "4294967296"),
    ("entries", "sf", "'x'", "-4"),
    ("polls", "poll", "'x'", "0"),
    ("polls", "device", "'1x'", "7"),
    ("polls", "unit", "'x'", "256"),
    ("polls", "started", "'x'", "4102444801"),
    ("polls", "tid", "'x'", "65536"),
    ("polls", "function", "'x'", "5"),
    ("polls", "address", "'x'", "65536"),
    ("polls", "count", "'x'", "126"),
    ("holds", "poll", "'x'", "0"),
    ("holds", "moment", "'x'", "4102444801"),
    ("holds", "raw", "'x'", "4294967296"),
    ("holds", "sf", "'x'", "32768"),
    ("holds", "cause", "'x'", "9"),
    ("outcomes", "moment", "'x'", "4102444801"),
    ("outcomes", "outcome", "'x'", "6"),
    ("outcomes", "code", "'x'", "256"),
    ("intervals", "start", "'x'", "4102444801"),
    ("intervals", "mwh", "'x'", "-1"),
    ("replies", "request", "'x'", "7"),
    ("replies", "kind", "'x'", "7"),
    ("replies", "moment", "'x'", "4102444801"),
    ("ranges", "meter", "'1x'", "7"),
    ("ranges", "range", "'x'", "65535"),
    ("voids", "place", "'x'", "0"),
    ("voids", "moment", "'x'", "4102444801"),
]
# Columns by which rows are found, or which no query reads. A row with such a value is not found,
# and so not believed.
UNREAD = [
    ("meta", "id"),
    ("points", "device"),
    ("holds", "place"),
    ("holds", "meter"),
    ("outcomes", "poll"),
    ("intervals", "meter"),
    ("replies", "caller"),
    ("replies", "number"),
    ("voids", "meter"),
]
# Columns and the least and greatest values that they can have.
LIMITS = [
    ("devices", "unit", 0, 255), ("devices", "timeout", 1, 60), ("devices", "window", 1, 16), ("points", "area", 0, 255), ("points", "address", 0, 65534),
    ("installations", "ceiling", 1, 1000000000), ("installations", "last_raw", 0, 4294967295), ("installations", "last_sf", -3, 3),
    ("installations", "total", 0, 4000000000000000000), ("installations", "last_moment", 0, 4102444800), ("ranges", "range", 65536, 4294967296),
    ("entries", "raw", 0, 4294967295), ("entries", "rolls", 0, 255), ("entries", "after", 0, 4294967295), ("entries", "sf", -3, 3),
    ("entries", "moment", 0, 4102444800), ("polls", "unit", 0, 255), ("polls", "tid", 0, 65535), ("polls", "started", 0, 4102444800),
    ("holds", "raw", 0, 4294967295), ("holds", "sf", -32768, 32767), ("holds", "cause", 1, 8), ("outcomes", "moment", 0, 4102444800),
    ("intervals", "mwh", 0, 4000000000000000000), ("voids", "moment", 0, 4102444800),
]

# What is asked of the file, and what it answers without damage. Then a register, a meter, a list's
# reads and a void are entered.
QUESTIONS = """meter m1
intervals m1
days main
poll 1
poll 2
"""
ANSWERS = """meter m1 last 5200 sf 0 at 1900 total 200000 open
900 177777
1800 22223
end 2
1970-01-01   2                   200000
end 1
poll 1 answered
poll 2 lost 4
"""
EVENTS = """5000 register roof inv 3 40168 0
5000 install roof m2 0 0 100000
5000 connect inv
5000 round inv 0
5001 bytes inv 000000000009010306000015180000
5002 void m1 2
meter m1
intervals m1
"""


def same(what, got, wanted):
    """Counts whether something is what is wanted."""
    counts["passed" if got == wanted else "failed"] += 1
    if got != wanted:
        print(f"{what}: {got!r}\nand not {wanted!r}")


def run(*words, text=""):
    """Returns the status of a command, what it prints, and what it says on standard error."""
    done = subprocess.run([str(PROGRAM), *words], input=text, capture_output=True, text=True, timeout=600)
    said = [it for it in done.stderr.splitlines() if "it had no log" not in it]
    return done.returncode, done.stdout, "\n".join(said)


def execute(db, text):
    with contextlib.closing(sqlite3.connect(db, isolation_level=None)) as connection:
        connection.executescript(f"PRAGMA synchronous = OFF; PRAGMA foreign_keys = OFF; BEGIN; {text}; COMMIT")


def asked(db, text):
    """Returns what each command over the file ends with, prints and says."""
    yield run("replay", "--db", db, text=text)
    yield run("report", "--db", db, "--register", "main", "--statement")
    yield run("enter", "--db", db, "--caller", "desk", text=ENTERED)


def reported(db, text):
    """Returns 1 or 2 where the file is not opened, 13 where a command reports damage, and 0 where none does."""
    for status, printed, said in asked(db, text):
        if status == 3 and not printed:
            return 1 if NOT_OURS in said else 2 if NO_ZONE in said else 13 if NO_DATABASE in said else said
        if status not in (0, 1) or "refused 14" in printed:
            return status, printed, said
        if "refused 13" in printed.splitlines():
            return 13
    return 0


class Damaged:
    """Copies of two files, each with a change."""

    def __init__(self, room):
        self.room = room
        self.files = {"strict": f"{room}/strict.db", "loose": f"{room}/loose.db"}
        made = run("create", "--db", self.files["strict"], "--zone", ZONE)
        assert made == (0, "", ""), made
        execute(self.files["strict"], ROWS)
        reply = self.reply()
        execute(self.files["strict"], reply)
        execute(self.files["loose"], f"{LOOSE}; {ROWS}; {reply}")
        for db in self.files.values():
            with contextlib.closing(sqlite3.connect(db)) as connection:
                connection.execute("PRAGMA journal_mode = DELETE")

    def reply(self):
        """Returns the row of the line ENTERED: its bytes are the program's own."""
        with self.copy("strict") as db:
            same("a void is entered", run("enter", "--db", db, "--caller", "desk", text=ENTERED), (0, "ok\n", ""))
            with contextlib.closing(sqlite3.connect(db)) as connection:
                (request,), = connection.execute("SELECT request FROM replies")
        return f"INSERT INTO replies VALUES ('desk', 7, x'{bytes(request).hex()}', 'void', 4000)"

    @contextlib.contextmanager
    def copy(self, kind):
        with tempfile.TemporaryDirectory(dir=self.room) as folder:
            db = f"{folder}/office.db"
            for end in ("", "-wal"):
                if os.path.exists(self.files[kind] + end):
                    shutil.copy(self.files[kind] + end, db + end)
            yield db

    def changed(self, kind, table, column, value, text):
        """Returns what is reported of a file with a value in each row of a column; 13 where SQLite refuses it."""
        with self.copy(kind) as db:
            try:
                execute(db, f'UPDATE {table} SET "{column}" = {value}')
            except sqlite3.Error:
                return 13
            return reported(db, text)


def cases():
    """Yields the kind of a file, a table, a column, a value and what is asked; and what may be reported. Values within their limits
    make rows that disagree, of which only questions are asked. Tables without keys take no new rows of some kinds."""
    for table, column, text, number in COLUMNS:
        for value in ("NULL", text, number):
            for kind in ("loose", "strict"):
                yield (kind, table, column, value, QUESTIONS + EVENTS), (1, 2, 13)
    for table, column in UNREAD:
        for value in ("NULL", "'1x'", "-1"):
            yield ("loose", table, column, value, QUESTIONS), (0,)
    for table, column, least, greatest in LIMITS:
        for value in (least, greatest):
            yield ("strict", table, column, value, QUESTIONS), (0,)
    yield ("strict", "meta", "version", "9", QUESTIONS), (1,)
    yield ("strict", "meta", "zone", "'x'", QUESTIONS), (2,)


def check_columns(damaged):
    with concurrent.futures.ThreadPoolExecutor(int(os.environ.get("JOBS", "2"))) as pool:
        tried = list(cases())
        for (case, wanted), found in zip(tried, pool.map(lambda it: damaged.changed(*it[0]), tried)):
            same(f"{case[:4]} may report {wanted}", found if found not in wanted else wanted, wanted)


def check_sound(damaged):
    for kind in ("loose", "strict"):
        with damaged.copy(kind) as db:
            same(f"{kind} rows without damage", reported(db, QUESTIONS + EVENTS * (kind == "strict")), 0)
        with damaged.copy(kind) as db:
            same(f"{kind} answers", run("replay", "--db", db, text=QUESTIONS), (0, ANSWERS, ""))
    blank = f"{damaged.room}/blank.db"
    execute(blank, "CREATE TABLE it (x); DROP TABLE it")
    same("a database without tables", run("report", "--db", blank, "--register", "main")[0], 3)


def check_counter(damaged):
    """A counter below zero in an entry is damage: the question that reads it is refused, and no other one."""
    with damaged.copy("loose") as db:
        execute(db, "UPDATE entries SET raw = -1")
        same("a counter below zero", run("replay", "--db", db, text="meter m1\npoll 1\n"), (0, "refused 13\npoll 1 answered\n", ""))


# The latest time, and the least scale.
LATEST = """4102444800 device inv 1 5 1
4102444800 register main inv 3 40094 -3
4102444800 install main m1 5000 -3 100000
meter m1
"""


def check_numbers(room):
    """Numbers keep their signs and digits, from a line to a row and back."""
    db = f"{room}/latest.db"
    run("create", "--db", db, "--zone", "UTC0")
    printed = "ok\nok\nok\nmeter m1 last 5000 sf -3 at 4102444800 total 0 open\n"
    same("the latest time and the least scale", run("replay", "--db", db, text=LATEST)[:2], (0, printed))
    with contextlib.closing(sqlite3.connect(db)) as connection:
        rows = connection.execute("SELECT moment, raw, sf, typeof(moment), typeof(sf) FROM entries").fetchall()
        same("their row", rows, [(4102444800, 5000, -3, "integer", "integer")])
        same("the scale of the register", connection.execute("SELECT scale_kind, scale FROM registers").fetchall(), [(0, -3)])


def main():
    if not PROGRAM.is_file():
        sys.exit(f"damaged_rows.py: {PROGRAM} is not built: run ./sunreg-build")
    # (the files are synced for each line, which memory does at once)
    with tempfile.TemporaryDirectory(dir="/dev/shm" if os.access("/dev/shm", os.W_OK) else None) as room:
        damaged = Damaged(room)
        check_sound(damaged)
        check_counter(damaged)
        check_columns(damaged)
        check_numbers(room)
    print(f"{counts['passed']} passed, {counts['failed']} failed")
    return 1 if counts["failed"] else 0


if __name__ == "__main__":
    sys.exit(main())
