"""audit.py PROGRAM: compares `sunreg audit` with audit_rows.py over sound and changed files.

tests/audit.sh runs it. The checks are:
- sound files: one that the program wrote, and one whose quarter hours Python computes
- the output for known changes of the second file, and for files of another kind
- seals, whose text Python computes as well, and files of one office that was carried twice
- one change at a time, in a random row and column of a copy. The program must report it (status 1)
  or refuse to open the file (status 3), except for the changes that docs/AUDIT.md lists. Each time
  audit_rows.py computes the status and the lines.
"""
import collections
import hashlib
import os
import pathlib
import random
import shutil
import socket
import sqlite3
import subprocess
import sys
import tempfile
import time

import audit_rows
from sealed import civil, seal_of

HERE = pathlib.Path(__file__).resolve().parent
BEGIN, DAY, DAYS = 1703808000, 86400, 6  # 2023-12-29 00:00 UTC
TABLES = ("entries", "intervals", "installations", "ranges", "voids", "polls", "outcomes")
# changes that may leave a file sound, as docs/AUDIT.md lists them: of any file, and if a meter's
# entries are in one quarter hour
LISTED = {("installations", "ceiling"), ("installations", "register"), ("ranges", "range"), ("voids", "moment"), ("entries", "kind"), ("entries", "moment")}
# (the last poll may be gone, if it is pending)
LISTED |= {("polls", it) for it in ("unit", "started", "tid", "function", "address", "count", "added", "gone")} | {("outcomes", it) for it in ("moment", "outcome", "code", "gone")}
IN_ONE_QUARTER = {("entries", "raw"), ("voids", "place"), ("voids", "gone"), ("voids", "added")}
VOIDED = {("entries", "raw"), ("entries", "rolls")}
FILES = ["first.db", "second.db", "third.db"]
LIST = "name,function,area,address,type,scale\nwh,3,0,40094,acc32,\n"
SITE = "1 device inv 1 5 1\n2 list inv @inv.csv\n3 register main inv 3 40094 0\n4 install main m1 65530 0 100000 65536\n"
counts = {"passed": 0, "failed": 0}
took = []


def same(what, got, wanted):
    """Compares a result with the expected one, and counts it."""
    counts["passed" if got == wanted else "failed"] += 1
    if got != wanted:
        print(f"{what}: {got!r}\nand not {wanted!r}", flush=True)


def when(at):
    """Returns a timestamp of the year 2026 as a line of the audit prints it."""
    return f"{at} ({time.strftime('%Y-%m-%d %H:%M:%S', time.gmtime(at))} UTC)"


def energy(mwh):
    """Returns an energy below 1000 kWh as a line of the audit prints it."""
    digits = f"{mwh:07}"
    return f"{mwh} mWh ({digits[:-6]}.{digits[-6:]} kWh)"


def differences(number):
    """Returns the last line of an audit that finds some differences."""
    return "1 difference" if number == 1 else f"{number} differences"


def audit(db, *words):
    """Returns the status of an audit, its lines, and its standard error."""
    begun = time.monotonic()
    done = subprocess.run([PROGRAM, "audit", "--db", db, *words], capture_output=True, stdin=subprocess.DEVNULL, timeout=60)
    took.append(time.monotonic() - begun)
    said = [it for it in done.stderr.decode().splitlines() if "it had no log" not in it]
    return done.returncode, done.stdout.decode().splitlines(), said


def audit_all(dbs, *words):
    """Audits several files, and returns the same."""
    return audit(dbs[0], *(word for it in dbs[1:] for word in ("--db", it)), *words)


def enter(db, lines):
    """Enters lines, which are all valid, one second after the last entry."""
    time.sleep(1.1)
    done = subprocess.run([PROGRAM, "enter", "--db", db, "--caller", "desk"], input=lines, text=True, capture_output=True)
    same(f"entered {lines!r}", (done.returncode, set(done.stdout.splitlines())), (0, {"ok"}))


def read(db, raw):
    """Polls the device, whose counter shows `raw`, one second after the last entry."""
    time.sleep(1.1)
    with socket.socket() as found:
        found.bind(("127.0.0.1", 0))
        port = str(found.getsockname()[1])
    words = [PROGRAM, "stand-in", "--port", port, "--connections", "1"]
    device = subprocess.Popen(words, stdin=subprocess.PIPE, stdout=subprocess.DEVNULL, stderr=subprocess.DEVNULL, text=True)
    device.stdin.write(f"area holding 40000 100\nset holding 40095 {raw}\n")
    device.stdin.close()
    until = time.monotonic() + 60
    while time.monotonic() < until:  # (until it listens)
        done = subprocess.run([PROGRAM, "round", "--db", db, "--device", "inv", "--port", port], capture_output=True, text=True, stdin=subprocess.DEVNULL)
        if done.returncode == 0:
            break
        time.sleep(0.3)
    device.kill()
    device.wait()
    same(f"a reading of {raw}", [it.split()[:3] for it in done.stdout.splitlines() if it.startswith("reading ")], [["reading", "m1", str(raw)]])


def by_program(db):
    """Makes a file with the program.

    It has a meter with readings, one with a rollover and one voided, entries by hand, a reset,
    another scale factor and a closing, and a second meter after it."""
    pathlib.Path("inv.csv").write_text(LIST)
    subprocess.run([PROGRAM, "create", "--db", db, "--zone", "UTC0"], check=True)
    enter(db, SITE)
    for raw in (65533, 65535, 3):
        read(db, raw)
    enter(db, "5 void m1 3\n")
    for line in ("6 manual main 5 0", "7 reset main 6 100", "8 rescale main 101 1010 -1", "9 manual main 1012 0", "10 exchange main 1013 0 m2 20 0 100000", "11 manual main 21 0"):
        enter(db, line + "\n")


def by_python(db):
    """Makes a file of one meter that was read once a day, in mWh, and of one more reading that was
    voided.

    Each quarter hour of a day has the same energy."""
    entries, intervals, raw = [("m1", 1, 1, BEGIN, 0, 0, 0, -3)], [], 0
    for day in range(DAYS):
        quarter = 8_543 * day + 7
        intervals += [("m1", BEGIN + DAY * day + 900 * at, quarter) for at in range(96)]
        raw += 96 * quarter
        entries.append(("m1", len(entries) + 1, 2, BEGIN + DAY * (day + 1), raw, 0, 0, -3))
        if day == 2:  # (the one that was voided, an hour later)
            entries.append(("m1", len(entries) + 1, 2, BEGIN + DAY * (day + 1) + 3600, raw + 50_000, 0, 0, -3))
    subprocess.run(["bash", str(HERE / "schema.sh"), db, "UTC0"], check=True)
    with sqlite3.connect(db) as books:
        books.execute("INSERT INTO devices VALUES (1, 'inv', 1, 5, 1)")
        books.executemany("INSERT INTO registers VALUES (?, ?, 'inv', 3, ?, 0, -3)", [(1, "main", 40094), (2, "spare", 40194)])
        books.execute("INSERT INTO installations VALUES (1, 'm1', 'main', 100000, 0, ?, ?, -3, ?)", (BEGIN + DAY * DAYS, raw, raw))
        books.execute("INSERT INTO ranges VALUES ('m1', 4294967296)")
        books.executemany("INSERT INTO entries VALUES (?, ?, ?, ?, ?, ?, ?, ?)", entries)
        books.executemany("INSERT INTO intervals VALUES (?, ?, ?)", intervals)
        books.execute("INSERT INTO voids VALUES ('m1', 5, ?)", (BEGIN + DAY * 4,))
        # (a poll for each reading, and one more without an answer)
        books.executemany("INSERT INTO polls VALUES (?, 'inv', 1, ?, ?, 3, 40094, 2)", [(at, entry[3] - 1, at) for at, entry in enumerate(entries, 1)])
        books.executemany("INSERT INTO outcomes VALUES (?, ?, 1, 0)", [(at, entry[3]) for at, entry in enumerate(entries[:-1], 1)])
    books.close()
    return entries, intervals


def whole(db):
    """Moves the rows of a file's log into the file, and returns the numbers of its rows."""
    books = sqlite3.connect(db)
    found = [books.execute(f"SELECT count(*) FROM {table}").fetchone()[0] for table in ("installations", "entries", "intervals", "polls")]
    books.execute("PRAGMA journal_mode = DELETE")
    books.close()
    same(f"{db} is one file", [pathlib.Path(db + end).exists() for end in ("-wal", "-shm", "-journal")], [False] * 3)
    return found


def copied(source):
    """Copies a complete file over the last copy and the files beside it, and opens the copy."""
    for end in ("-wal", "-shm", "-journal"):
        pathlib.Path("changed.db" + end).unlink(missing_ok=True)
    shutil.copyfile(source, "changed.db")
    books = sqlite3.connect("changed.db")
    for setting in ("foreign_keys = OFF", "synchronous = OFF", "journal_mode = MEMORY"):
        books.execute(f"PRAGMA {setting}")
    return books


def changed(*commands):
    """Returns the audit of a copy of Python's file with these changes."""
    books = copied("python.db")
    with books:
        for command in commands:
            books.execute(command)
    books.close()
    return audit("changed.db")


def printed(entries, intervals):
    """Checks the output for known changes of Python's file."""
    last, end, raw, voided = len(entries), BEGIN + DAY * DAYS, entries[-1][4], entries[4][3]
    here, astray, cant = f"WHERE place = {last}", "with a value that none may have", f"entry {last} can't come there:"
    for what, command, lines in (
        ("a quarter hour has more", f"UPDATE intervals SET mwh = 8 WHERE start = {BEGIN}", [f"interval {when(BEGIN)} has 8 mWh (0.000008 kWh), entries give 7 mWh (0.000007 kWh)"]),
        ("a quarter hour is gone", f"DELETE FROM intervals WHERE start = {BEGIN + 900}", [f"interval {when(BEGIN + 900)} has no row, entries give 7 mWh (0.000007 kWh)"]),
        ("one more", f"INSERT INTO intervals VALUES ('m1', {end}, 5)", [f"interval {when(end)} has 5 mWh (0.000005 kWh), entries give none"]),
        ("where it stands", "UPDATE installations SET last_raw = 5, total = total + 1, ended = 1",
         [f"last has {when(end)} 5 -3, entries give {when(end)} {raw} -3", f"total has {energy(raw + 1)}, entries give {energy(raw)}", "is ended, entries don't end it"]),
        ("another place of the meter", "UPDATE installations SET place = 2", ["place has 2, the next is 1"]),
        ("another place", f"UPDATE entries SET place = {last + 1} {here}", [f"entry {last + 1} can't come there: the next place is {last}"]),
        ("opened twice", f"UPDATE entries SET kind = 1 {here}", [f"{cant} the meter was opened before"]),
        ("closed before", f"UPDATE entries SET kind = 4 WHERE place = {last - 1}", [f"{cant} the meter was closed before"]),
        ("an unused column", f'UPDATE entries SET "after" = 1 {here}', [f"{cant} a column that its kind has no use for is not 0"]),
        ("another scale", f"UPDATE entries SET sf = -2 {here}", [f"{cant} the scale factor there is -3"]),
        ("rollovers", f"UPDATE entries SET rolls = 1 {here}", [f"{cant} the rollovers there are 0"]),
        ("one that would be held", f"UPDATE entries SET raw = 1 {here}", [f"{cant} it would be held, cause 6"]),
        ("one that would be refused", f"UPDATE entries SET kind = 3, raw = 1 {here}", [f"{cant} it would be refused, fault 1"]),
        ("a void of one by hand", f"UPDATE entries SET kind = 3 {here}; UPDATE voids SET place = {last}", [f"{cant} a void names it, and it is no reading"]),
        ("a void of the opening", "UPDATE voids SET place = 1", ["is opened by no lawful entry"]),
        ("a void before its entry", f"UPDATE voids SET moment = {voided - 1}", [f"void 5 at {when(voided - 1)} is before its entry at {when(voided)}"]),
        ("a time of a void", "UPDATE voids SET moment = -1", [f"has a row in voids {astray}"]),
        ("a value of an entry", f"UPDATE entries SET rolls = 256 {here}", [f"has a row in entries {astray}"]),
        ("a value of a range", 'UPDATE ranges SET "range" = 65535', [f"has a row in ranges {astray}"]),
        ("a value of a meter", "UPDATE installations SET ceiling = 0", [f"has a row in installations {astray}"]),
        ("a value of a quarter hour", f"UPDATE intervals SET mwh = -1 WHERE start = {BEGIN}", [f"has a row in intervals {astray}"]),
    ):
        wanted = [*(f"meter m1 {it}" for it in lines), differences(len(lines))]
        same(what, changed(*command.split("; ")), (1, wanted, []))
    changed("UPDATE installations SET total = total + 1", f"DELETE FROM intervals WHERE start = {BEGIN + 900}")
    objects = ['{"kind":"interval","meter":"m1","start":%d,"has":null,"expected":"7"}' % (BEGIN + 900),
               '{"kind":"total","meter":"m1","has":"%d","expected":"%d"}' % (raw + 1, raw), '{"fine":false,"differences":2}']
    same("differences as JSON", audit("changed.db", "--format", "json"), (1, objects, []))
    changed(f"UPDATE voids SET moment = {voided - 1}")
    objects = ['{"kind":"void_early","meter":"m1","index":5,"at":%d,"entered":%d}' % (voided - 1, voided), '{"fine":false,"differences":1}']
    same("a void before its entry as JSON", audit("changed.db", "--format", "json"), (1, objects, []))
    same("a void in the second of its entry", changed(f"UPDATE voids SET moment = {voided}")[0], 0)
    changed("UPDATE devices SET timeout = 0")
    objects = ['{"kind":"unreadable","table":"devices","row":1}', '{"fine":false,"differences":1}']
    same("an unreadable device as JSON", audit("changed.db", "--format", "json"), (1, objects, []))
    fine = '{"fine":true,"meters":1,"entries":%d,"intervals":%d,"polls":%d}' % (last, len(intervals), last)
    same("a sound file as JSON", audit("python.db", "--format", "json"), (0, [fine], []))
    same("a seal as JSON", audit("python.db", "--format", "json", "--seal")[:2], (2, []))
    same("several files as JSON", audit("python.db", "--db", "changed.db", "--format", "json")[:2], (2, []))
    more = ("WITH RECURSIVE more (it) AS (SELECT 9 UNION ALL SELECT it + 1 FROM more WHERE it < 5000) INSERT INTO polls SELECT it, 'inv', 1, {0}, 7, 4, 0, 125 FROM more; "
            "INSERT INTO outcomes SELECT poll, {0}, 3, 0 FROM polls WHERE poll > 8").format(end)
    for what, command, line in (
        ("a poll is gone", "DELETE FROM outcomes WHERE poll = 3; DELETE FROM polls WHERE poll = 3", "poll 3 is missing"),
        ("a number below 1", "UPDATE polls SET poll = -5 WHERE poll = 8", f"poll 0 {astray}".replace("with", "has")),
        ("a value of a poll", "UPDATE polls SET address = 65535 WHERE poll = 2", f"poll 2 {astray}".replace("with", "has")),
        ("a kind of outcome", "UPDATE outcomes SET outcome = 6 WHERE poll = 2", f"poll 2 outcome {astray}".replace("with", "has")),
        ("a code of an outcome", "UPDATE outcomes SET outcome = 5, code = 5 WHERE poll = 2", f"poll 2 outcome {astray}".replace("with", "has")),
        ("an outcome too early", f"UPDATE outcomes SET moment = {BEGIN - 2} WHERE poll = 1", "poll 1 outcome comes before the poll"),
        ("one of the second run", f"{more}; DELETE FROM outcomes WHERE poll = 4500; DELETE FROM polls WHERE poll = 4500", "poll 4500 is missing"),
        ("an outcome of the second run", f"{more}; UPDATE outcomes SET moment = 0 WHERE poll = 4097", "poll 4097 outcome comes before the poll"),
    ):
        same(what, changed(*command.split("; ")), (1, [line, "1 difference"], []))
    for what, command, lines in (
        ("many polls are gone", f"{more}; DELETE FROM outcomes WHERE poll BETWEEN 10 AND 4200; DELETE FROM polls WHERE poll BETWEEN 10 AND 4200",
         ["polls 10 to 4096 are missing", "polls 4097 to 4200 are missing"]),
        ("each difference of a run", "UPDATE polls SET address = 65535 WHERE poll IN (2, 4); UPDATE outcomes SET outcome = 6 WHERE poll = 5; "
         f"DELETE FROM outcomes WHERE poll = 3; DELETE FROM polls WHERE poll = 3; UPDATE outcomes SET moment = {BEGIN - 2} WHERE poll IN (1, 2)",
         [f"poll 2 {astray}".replace("with", "has"), f"poll 4 {astray}".replace("with", "has"), f"poll 5 outcome {astray}".replace("with", "has"),
          "poll 3 is missing", "poll 1 outcome comes before the poll"]),
        ("a poll far off", "INSERT INTO polls VALUES (4500000000000000000, 'inv', 1, 0, 7, 4, 0, 125)", None),
    ):
        if lines is None:
            # (the audit reports each range without a poll, up to 100 differences)
            runs = [f"polls {it * 4096 + 1} to {it * 4096 + 4096} are missing" for it in range(100)]
            lines = [runs[0].replace("polls 1 ", "polls 9 "), *runs[1:]]
        same(what, changed(*command.split("; ")), (1, [*lines, differences(len(lines))], []))
    same("polls of two runs", changed(*more.split("; ")), (0, [f"fine: 1 meter, {last} entries, {len(intervals)} intervals, 5000 polls"], []))
    wanted = [f"meter m1 interval {when(start)} has {energy(mwh + 1)}, entries give {energy(mwh)}" for _, start, mwh in intervals[:100]]
    wanted += [f"and {len(intervals) - 100} more", f"{len(intervals)} differences"]
    same("more than are told", changed("UPDATE intervals SET mwh = mwh + 1"), (1, wanted, []))


def no_books():
    """Audits files that it must refuse: a missing file, tables of an earlier program, tables of
    another program, and a row that refers to no row."""
    same("no file", audit("none.db")[:2], (3, []))
    same("no file is made", pathlib.Path("none.db").exists(), False)
    for what, commands, wanted in (
        ("an earlier program's", ("DROP TABLE voids", "UPDATE meta SET version = 2"), "made by an earlier version of sunreg"),
        ("another table", ("CREATE TABLE other (it INTEGER) STRICT",), "not an office file"),
        ("no meter of the name", ("UPDATE entries SET meter = 'm9' WHERE place = 8",), "changed.db"),
    ):
        status, lines, said = changed(*commands)
        same(what, (status, lines, any(wanted in it for it in said)), (3, [], True))


def redefined(table, old, new, index, *commands):
    """Returns the audit of a copy of Python's file in which the definition of a table has another
    text, an automatic index is gone, and these commands have run."""
    books = copied("python.db")
    with books:
        books.execute("PRAGMA writable_schema = ON")
        text = books.execute("SELECT sql FROM sqlite_schema WHERE name = ?", (table,)).fetchone()[0]
        books.execute("UPDATE sqlite_schema SET sql = ? WHERE name = ?", (text.replace(old, new), table))
        books.execute("DELETE FROM sqlite_schema WHERE name = ?", (index,))
    books.close()
    same(f"{table} has another text", text.count(old), 1)
    books = sqlite3.connect("changed.db", isolation_level=None)
    for command in (*commands, "VACUUM"):
        books.execute(command)
    books.close()
    return audit("changed.db")


def definitions():
    """Audits files whose definitions are not the program's, and files without the one row of
    `meta`. Each must be refused, although its rows may all be as the program would write them."""
    meter = ("installations", "meter TEXT NOT NULL UNIQUE", "meter TEXT NOT NULL", "sqlite_autoindex_installations_1")
    twice = "INSERT INTO installations SELECT 2, meter, register, ceiling, ended, last_moment, last_raw, last_sf, total FROM installations"
    other_objects = "sunreg: changed.db: its tables, indexes, views or triggers are not those of sunreg: use an intact copy or a backup"
    key = ", FOREIGN KEY (meter) REFERENCES installations (meter)"
    for what, change in (
        ("a meter may occur twice", meter),
        ("a meter occurs twice", (*meter, twice)),
        ("a meter may have two ranges", ("ranges", "meter TEXT NOT NULL PRIMARY KEY", "meter TEXT NOT NULL", "sqlite_autoindex_ranges_1")),
        ("intervals without a meter", ("intervals", key, "", "")),
        ("a meter takes its entries with it", ("entries", key, key + " ON DELETE CASCADE", "")),
        ("values of any type", ("polls", ") STRICT", ")", "")),
        ("a file without a zone", ("meta", "zone TEXT NOT NULL", "zone TEXT", "")),
        ("a default", ("ranges", '"range" INTEGER NOT NULL', '"range" INTEGER NOT NULL DEFAULT 65536', "")),
        ("a check", ("voids", "moment INTEGER NOT NULL", "moment INTEGER NOT NULL CHECK (moment > 0)", "")),
    ):
        wanted = (3, [], ["failed", f"sunreg: changed.db: its table {change[0]} is not that of sunreg: use an intact copy or a backup"])
        same(what, redefined(*change), wanted)
        same(f"{what}: no seal", audit("changed.db", "--seal"), wanted)
    same("the same table in other words", redefined("voids", "voids (", "voids ( -- a void\n ", "")[:1], (0,))
    same("an index", changed("CREATE INDEX more ON entries (moment)"), (3, [], ["failed", other_objects]))
    same("a view", changed("CREATE VIEW more AS SELECT 1"), (3, [], ["failed", other_objects]))
    status, lines, said = changed("CREATE TRIGGER more AFTER INSERT ON voids BEGIN DELETE FROM voids; END")
    same("a trigger", (status, lines, len(said)), (3, [], 2))
    mark = "its table meta does not have exactly one row with id 1, version 3 and a time zone: use an intact copy or a backup"
    for what, command in (
        ("no row of meta", "DELETE FROM meta"),
        ("two rows of meta", "INSERT INTO meta SELECT 2, version, zone FROM meta"),
        ("another number", "UPDATE meta SET id = 2"),
        ("a later version", "UPDATE meta SET version = 4"),
        ("no zone", "UPDATE meta SET zone = ''"),
        ("an unknown zone", "UPDATE meta SET zone = 'Europe/Nowhere'"),
    ):
        same(what, changed(command), (3, [], ["failed", f"sunreg: changed.db: {mark}"]))
        same(f"{what}: no seal", audit("changed.db", "--seal"), (3, [], ["failed", f"sunreg: changed.db: {mark}"]))
        same(f"{what}: one of two", audit_all(["changed.db", "python.db"]), (3, ["file changed.db"], ["failed", f"sunreg: changed.db: {mark}"]))


def around_meters(entries):
    """Audits files whose meters are sound by themselves: meters that overlap at a register, rows
    without a valid name, and polls that start before earlier polls."""
    _, _, _, end, raw, *_ = entries[-1]
    second = (
        "INSERT INTO installations VALUES (2, 'm2', '{0}', 100000, 0, {1}, 5, -3, 0)",
        "INSERT INTO ranges VALUES ('m2', 4294967296)",
        "INSERT INTO entries VALUES ('m2', 1, 1, {1}, 5, 0, 0, -3)",
    )
    at = lambda register, moment: [it.format(register, moment) for it in second]
    closed = [f"UPDATE entries SET kind = 4 WHERE place = {len(entries)}", "UPDATE installations SET ended = 1"]
    renamed = lambda name: [f"UPDATE {table} SET meter = {name}" for table in ("installations", "entries", "ranges", "intervals", "voids")]
    more = ("WITH RECURSIVE more (it) AS (SELECT 9 UNION ALL SELECT it + 1 FROM more WHERE it < 5000) "
            f"INSERT INTO polls SELECT it, 'inv', 1, {end}, 7, 4, 0, 125 FROM more")
    overlap = ["register main: meters m1 and m2 overlap"]
    for what, commands, wanted in (
        ("two open meters at a register", at("main", end), overlap),
        ("a meter opened before the last one was closed", [*closed, *at("main", end - 1)], overlap),
        ("a meter opened before the earlier one", at("main", 0), overlap),
        ("a meter opened when the last one was closed", [*closed, *at("main", end)], []),
        ("two open meters at two registers", at("spare", end), []),
        ("a device without a name", ["UPDATE devices SET name = '9'", "UPDATE registers SET device = '9'", "UPDATE polls SET device = '9'"],
         ["row 1 of devices names no device", "registers row 1 has a value out of its range", "registers row 2 has a value out of its range"]),
        ("a register without a name", ["UPDATE registers SET name = 'a b' WHERE place = 2"], ["row 2 of registers names no register"]),
        ("a long name", [f"UPDATE registers SET name = '{'a' * 17}' WHERE place = 2"], ["row 2 of registers names no register"]),
        ("the longest name", [f"UPDATE registers SET name = '{'a' * 16}' WHERE place = 2"], []),
        ("a meter at a register without a name", ["UPDATE registers SET name = '' WHERE place = 1", "UPDATE installations SET register = ''"],
         ["meter m1 has a row in installations with a value that none may have", "row 1 of registers names no register"]),
        ("a name that prints a verdict", renamed("'m1' || char(10) || 'fine'"), ["row 1 of installations names no meter"]),
        ("a point without a name", ["INSERT INTO points VALUES ('inv', 1, 'a-b', 3, 0, 40000, 'acc32', '')"], ["row 1 of points names no point"]),
        ("a point with a name", ["INSERT INTO points VALUES ('inv', 1, 'a.b_1', 3, 0, 40000, 'acc32', '')"], []),
        ("a unit above 255", ["UPDATE devices SET unit = 256"], ["devices row 1 has a value out of its range"]),
        ("a timeout of 0", ["UPDATE devices SET timeout = 0"], ["devices row 1 has a value out of its range"]),
        ("a window above 16", ['UPDATE devices SET "window" = 17'], ["devices row 1 has a value out of its range"]),
        ("a function that is none", ["UPDATE registers SET function = 9 WHERE place = 2"], ["registers row 2 has a value out of its range"]),
        ("an address of which one half is outside", ["UPDATE registers SET address = 65535 WHERE place = 2"], ["registers row 2 has a value out of its range"]),
        ("a kind of scale that is none", ["UPDATE registers SET scale_kind = 2 WHERE place = 2"], ["registers row 2 has a value out of its range"]),
        ("a scale of 4", ["UPDATE registers SET scale_kind = 0, scale = 4 WHERE place = 2"], ["registers row 2 has a value out of its range"]),
        ("a scale just near enough", ["UPDATE registers SET address = 100, scale_kind = 1, scale = 224 WHERE place = 2"], []),
        ("a scale too far away", ["UPDATE registers SET address = 100, scale_kind = 1, scale = 225 WHERE place = 2"], ["registers row 2 has a value out of its range"]),
        ("a register without a name, and with a scale of 4", ["UPDATE registers SET name = 'a b', scale_kind = 0, scale = 4 WHERE place = 2"],
         ["row 2 of registers names no register"]),
        ("a device without a unit, and a register without a name", ["UPDATE devices SET unit = -1", "UPDATE registers SET name = 'a b' WHERE place = 2"],
         ["row 2 of registers names no register", "devices row 1 has a value out of its range"]),
        ("a poll before an earlier one", ["UPDATE polls SET started = (SELECT started - 1 FROM polls WHERE poll = 4) WHERE poll = 5"], ["poll 5 starts before an earlier poll"]),
        ("a poll as early as the last one", ["UPDATE polls SET started = (SELECT started FROM polls WHERE poll = 4) WHERE poll = 5"], []),
        ("a poll of the second run", [more, "UPDATE polls SET started = 1 WHERE poll = 4097"], ["poll 4097 starts before an earlier poll"]),
    ):
        status, lines, said = changed(*commands)
        wanted_lines = [*wanted, "1 difference" if len(wanted) == 1 else f"{len(wanted)} differences"] if wanted else lines
        same(what, (status, lines, said), (int(bool(wanted)), wanted_lines, []))
        same(f"{what}: as Python audits it", audit_rows.audit_of(sqlite3.connect("changed.db")), (status, lines))
        same(f"{what}: a seal", audit("changed.db", "--seal")[0], status)


def other(value):
    """Returns another value than this one."""
    if isinstance(value, str):
        return random.choice([value + "x", "spare", "m9", ""])
    return random.choice([value + 1, value - 1, value + 900, value + 2**32, -1 - value, random.randrange(2**31)])


def change(source):
    """Changes a random row and column of a copy of a file.

    Returns the table, the kind of change or the column, whether the row is a voided entry's, a
    text, and the expected audit. Returns None if the table is empty, or if SQL refuses the
    change."""
    books = copied(source)
    table = random.choice(TABLES)
    columns = [it[1] for it in books.execute(f"PRAGMA table_info({table})")]
    named = ", ".join(f'"{it}"' for it in columns)
    try:
        rows = books.execute(f"SELECT rowid, {named} FROM {table}").fetchall()
        if not rows:
            return None
        row = random.choice(rows)
        at = random.randrange(len(columns))
        what, was = columns[at], row[at + 1]
        how = random.choice(("another", "another", "another", "gone", "added"))
        is_voided = table == "entries" and books.execute("SELECT count(*) FROM voids WHERE meter = ? AND place = ?", (row[1], row[2])).fetchone()[0] == 1
        if how == "gone":
            books.execute(f"DELETE FROM {table} WHERE rowid = ?", (row[0],))
            what, text = how, f"{table} {row[1:]} gone"
        elif how == "added":
            more = list(row[1:])
            more[at] = other(was)
            books.execute(f"INSERT INTO {table} VALUES ({', '.join('?' * len(more))})", more)
            what, text = how, f"{table} {tuple(more)} added"
        else:
            now = other(was)
            if now == was:
                return None
            books.execute(f'UPDATE {table} SET "{what}" = ? WHERE rowid = ?', (now, row[0]))
            text = f"{table} {row[1:]}: {what} is {now}"
        books.commit()
        wanted = audit_rows.audit_of(books)
    except (sqlite3.Error, OverflowError):
        return None
    finally:
        books.close()
    return table, what, is_voided, text, wanted


def changes(seed):
    """Makes random changes, each of which must be reported, refused, or listed."""
    told = refused = tried = 0
    listed = collections.Counter()
    while tried < int(os.environ.get("CHANGES", "1000")):
        source = random.choice(("program.db", "python.db"))
        made = change(source)
        if made is None:
            continue
        tried += 1
        *of, is_voided, text, wanted = made
        may_stay = LISTED | (IN_ONE_QUARTER if source == "program.db" else set()) | (VOIDED if is_voided else set())
        status, lines, said = audit("changed.db")
        what = f"seed {seed}, {source}: {text}"
        same(what, (status, lines, bool(said)), (*wanted, status == 3))
        if status == 0:
            same(f"{what} is listed", tuple(of) in may_stay, True)
            listed[".".join(of)] += 1
        told += status == 1
        refused += status == 3
    kept = ", ".join(f"{name} {count}" for name, count in sorted(listed.items()))
    print(f"of {tried} changes {told} were told, {refused} refused as the file was opened, and {sum(listed.values())} are of those that the page lists: {kept or 'none'} (seed {seed})")


def twice(text, word):
    """Returns the text of a seal, with its first line that begins with a word written twice."""
    lines = text.splitlines(keepends=True)[:-1]
    at = next(at for at, line in enumerate(lines) if line.startswith(word + b" "))
    body = b"".join(lines[:at] + [lines[at]] + lines[at:])
    return body + f"sha256 {hashlib.sha256(body).hexdigest()}\n".encode()


def held_to(db, text):
    """Returns the audit of a file that is compared with a seal."""
    pathlib.Path("seal.txt").write_bytes(text)
    return audit(db, "--against", "seal.txt")


def seals(entries):
    """Makes seals of both files, and compares files with them: the same file, a file with later
    rows, sound files with changes, and texts that are no seals."""
    for db in ("python.db", "program.db"):
        text = seal_of(db)
        same(f"the seal of {db}", audit(db, "--seal"), (0, text.splitlines(), []))
        same(f"{db} is as it was sealed", held_to(db, text.encode()), (0, ["sealed: fine"], []))
    of_python, of_program = seal_of("python.db").encode(), seal_of("program.db").encode()
    same("another office", held_to("python.db", of_program), (1, ["meter m1 differs from the seal", "meter m2 differs from the seal", "not in the file: register main at inv function 3 address 40094 scale 0", "polls differ from the seal", "2 of 2 meters differ"], []))
    enter("program.db", "12 manual main 25 0\n")
    enter("program.db", "13 void m1 2\n")
    with sqlite3.connect("program.db") as books:
        (low,), (high,) = (books.execute("SELECT moment FROM entries WHERE meter = 'm1' AND place = ?", [at]).fetchone() for at in (1, 4))
    books.close()
    void = f"void m1 2 changes energy from {civil('UTC0', low, '%Y-%m-%d')} to {civil('UTC0', high, '%Y-%m-%d')}"
    same("what came since is no difference", held_to("program.db", of_program), (0, ["sealed: fine", void], []))
    whole("program.db")
    same("a void is sealed from then on", seal_of("program.db").count("void m1 "), 2)
    last, (day, quarter) = len(entries), (BEGIN + DAY * (DAYS - 1), 8_543 * (DAYS - 1) + 7)
    fewer = (f"DELETE FROM entries WHERE place = {last}", f"DELETE FROM intervals WHERE start >= {day}",
             f"UPDATE installations SET last_moment = {day}, last_raw = last_raw - {96 * quarter}, total = total - {96 * quarter}")
    for what, commands in (
        ("another ceiling", ("UPDATE installations SET ceiling = ceiling + 1",)),
        ("another register", ("UPDATE installations SET register = 'spare'",)),
        ("a void said to be later", ("UPDATE voids SET moment = moment + 1",)),
        ("a reading is said to be by hand", (f"UPDATE entries SET kind = 3 WHERE place = {last}",)),
        ("what a voided reading showed", ("UPDATE entries SET raw = raw + 1 WHERE place = 5",)),
        ("a reading fewer, and all that followed from it", fewer),
    ):
        same(f"{what}: fine", changed(*commands)[0], 0)
        same(f"{what}: not as it was sealed", held_to("changed.db", of_python), (1, ["meter m1 differs from the seal", "1 of 1 meter differs"], []))
    register = "register main at inv function 3 address 40094 scale -3"
    for what, line, command in (
        ("another unit", "device inv unit 1", "UPDATE devices SET unit = 2"),
        ("another function", register, "UPDATE registers SET function = 4 WHERE name = 'main'"),
        ("another address", register, "UPDATE registers SET address = 40096 WHERE name = 'main'"),
        ("another scale", register, "UPDATE registers SET scale = -2 WHERE name = 'main'"),
        ("a scale that is read", register, "UPDATE registers SET scale_kind = 1, scale = 40096 WHERE name = 'main'"),
        ("a register fewer", "register spare at inv function 3 address 40194 scale -3", "DELETE FROM registers WHERE name = 'spare'"),
    ):
        same(f"{what}: fine", changed(command)[0], 0)
        same(f"{what}: not as it was sealed", held_to("changed.db", of_python), (1, [f"not in the file: {line}", "zone, devices or registers differ"], []))
    same("another zone: fine", changed("UPDATE meta SET zone = 'UTC1'")[0], 0)
    sealed_months, months = (dict(line.split()[2:] for line in seal_of(db).splitlines() if line.startswith("month ")) for db in ("python.db", "changed.db"))
    moved = [f"month m1 {it} was {energy(int(was))}, is {energy(int(months[it]))}" for it, was in sealed_months.items()]
    same("another zone: not as it was sealed", held_to("changed.db", of_python), (1, ["not in the file: zone UTC0", "zone, devices or registers differ", *moved], []))
    pending = len(entries)  # (Python's last poll, which has no outcome)
    for what, commands in (
        ("a poll of another unit", ("UPDATE polls SET unit = unit + 1 WHERE poll = 2",)),
        ("a poll said to be later", (f"UPDATE polls SET started = started + 1 WHERE poll = {pending}",)),
        ("another outcome", ("UPDATE outcomes SET outcome = 3 WHERE poll = 3",)),
        ("a later outcome", ("UPDATE outcomes SET moment = moment + 1 WHERE poll = 3",)),
        ("an outcome fewer", ("DELETE FROM outcomes WHERE poll = 1",)),
        ("a poll fewer", (f"DELETE FROM polls WHERE poll = {pending}",)),
    ):
        same(f"{what}: fine", changed(*commands)[0], 0)
        same(f"{what}: not as it was sealed", held_to("changed.db", of_python), (1, ["polls differ from the seal", "polls differ"], []))
    last_poll = f"FROM polls WHERE poll = {pending}"
    for what, commands in (
        ("the outcome of a poll that was pending", (f"INSERT INTO outcomes SELECT poll, started, 3, 0 {last_poll}",)),
        ("one more device", ("INSERT INTO devices VALUES (2, 'old', 7, 5, 1)",)),
        ("one more poll", (f"INSERT INTO polls SELECT poll + 1, device, unit, started, tid, function, address, count {last_poll}",)),
    ):
        same(f"{what}: fine", changed(*commands)[0], 0)
        same(f"{what} is no difference", held_to("changed.db", of_python), (0, ["sealed: fine"], []))
    same("tables that aren't fine have no seal", (changed("UPDATE installations SET total = total + 1")[1:], audit("changed.db", "--seal")[0]), (audit("changed.db", "--seal")[1:], 1))
    same("nor are they held to one", held_to("changed.db", of_python)[1][-1], "1 difference")
    no_seal = ["error: invalid value 'seal.txt' for '--against <SEAL>': not a seal of this version: make a new one with sunreg audit --seal"]
    for what, text in (("nothing", b""), ("a line fewer", of_python.split(b"\n", 1)[1]), ("the last line fewer", of_python.rsplit(b"sha256", 1)[0]), ("a line behind it", of_python + b"\n"),
                       ("another number", of_python.replace(b" ceiling 1", b" ceiling 2")), ("one of an earlier program", of_python.replace(b"seal 3", b"seal 2", 1)), ("a line twice", twice(of_python, b"device")), ("a void twice", twice(of_python, b"void")), ("a pending poll fewer", of_python.replace(b"pending ", b"", 1)), ("no text", b"\xff" + of_python), ("ends of another kind", of_python.replace(b"\n", b"\r\n"))):
        same(f"{what} is no seal", held_to("python.db", text), (2, [], no_seal))
    same("a seal that isn't there", audit("python.db", "--against", "none.txt"), (3, [], ["failed", "sunreg: none.txt: can't read the seal file: check its name and permissions"]))
    same("both at once", audit("python.db", "--seal", "--against", "seal.txt")[:2], (2, []))


# ---- several files


def carry(source, to, *words):
    """Carries an office into a new file, and moves the rows of the new file's log into it."""
    done = subprocess.run([PROGRAM, "carry", "--from", source, "--to", to, *words], capture_output=True, text=True, stdin=subprocess.DEVNULL)
    same(f"carried into {to}", (done.returncode, done.stdout.split()[:1]), (0, ["carried"]))


def by_carries():
    """Makes the files of an office that was carried twice.

    In the second file one meter rolled over and was replaced, and another was read by hand."""
    subprocess.run([PROGRAM, "create", "--db", "first.db", "--zone", "UTC0"], check=True)
    enter("first.db", SITE + "5 register side inv 3 40194 0\n6 install side far 100 0 100000\n")
    for raw in (65533, 65535):
        read("first.db", raw)
    enter("first.db", "7 manual side 120 0\n")
    carry("first.db", "second.db")
    read("second.db", 3)
    enter("second.db", "8 exchange main 5 0 m2 20 0 100000\n")
    enter("second.db", "9 manual side 130 0\n")
    carry("second.db", "third.db")
    enter("third.db", "10 manual main 25 0\n")
    for db in FILES:
        whole(db)


def wanted_of(dbs):
    """Returns what Python reports of files, the oldest first."""
    opened = [(db, sqlite3.connect(db)) for db in dbs]
    found = audit_rows.audit_of_all(opened)
    for _, books in opened:
        books.close()
    return found


def holds(what, dbs, last):
    """Compares the audit of files with Python's, and the end of its last line with the expected
    one."""
    status, lines, _ = audit_all(dbs)
    same(what, (status, lines), wanted_of(dbs))
    same(f"{what}: the last line", lines[-1], last)


def copy_of(source, to):
    """Copies a complete file."""
    shutil.copyfile(source, to)
    return to


def several(seed):
    """Audits the files of one office: unchanged, in other orders, without one of them, with known
    changes of one, and with random changes."""
    by_carries()
    before = [pathlib.Path(it).read_bytes() for it in FILES]
    holds("files that go on", FILES, "joined: fine")
    same("their bytes stay", [pathlib.Path(it).read_bytes() for it in FILES], before)
    holds("two of them", FILES[:2], "joined: fine")
    holds("in another order", FILES[::-1], "6 differences between files")
    holds("one is left out", FILES[::2], "2 differences between files")
    holds("one stands twice by other names", ["first.db", "./first.db"], "2 differences between files")
    status, lines, said = audit_all(["first.db", "second.db", "first.db"])
    same("one stands twice", (status, lines, said), (2, [], ["error: invalid value 'first.db' for '--db <FILE>': given twice"]))
    for words in (("--seal",), ("--against", "seal.txt")):
        status, lines, said = audit_all(FILES, *words)
        same(f"no seal of several: {words[0]}", (status, lines, said[:1]), (2, [], [f"error: the argument '{words[0]}' cannot be used with more than one '--db'"]))
    # (a void of the last reading sets the meter back, a void of an earlier reading does not)
    for what, place, last in (("the last reading is voided after the carry", 3, "1 difference between files"), ("one before it is voided", 2, "joined: fine")):
        changed_old = copy_of("first.db", f"void{place}.db")
        enter(changed_old, f"11 void m1 {place}\n")
        whole(changed_old)
        holds(what, [changed_old, *FILES[1:]], last)
    books = sqlite3.connect("first.db")
    (moment,) = books.execute("SELECT moment FROM entries WHERE meter = 'm1' AND place = 2").fetchone()
    books.close()
    carry("first.db", "until.db", "--until", str(moment))
    whole("until.db")
    holds("carried up to a moment", ["first.db", "until.db"], "2 differences between files")
    for what, command, last in (
        ("another zone", "UPDATE meta SET zone = 'UTC1'", "2 differences between files"),
        ("a meter of another name", "UPDATE {0} SET meter = 'm9' WHERE meter = 'm1'", "1 difference between files"),
        ("a file that isn't fine", "UPDATE installations SET total = total + 1 WHERE meter = 'm1'", None),
    ):
        books = copied("second.db")
        with books:
            for table in ("installations", "ranges", "entries", "intervals", "voids", "holds") if "{0}" in command else ("",):
                books.execute(command.format(table))
        books.close()
        dbs = ["first.db", "changed.db", "third.db"]
        holds(what, dbs, wanted_of(dbs)[1][-1] if last is None else last)
    told, by_joins, refused, tried = 0, 0, 0, 0
    listed = collections.Counter()
    while tried < int(os.environ.get("JOINS", "200")):
        source = random.choice(FILES)
        made = change(source)
        if made is None:
            continue
        tried += 1
        *of, _, text, wanted = made
        dbs = ["changed.db" if it == source else it for it in FILES]
        status, lines, _ = audit_all(dbs)
        what = f"seed {seed}, {source} of three: {text}"
        same(what, (status, lines), wanted_of(dbs))
        if status == 0:
            same(f"{what} is listed", tuple(of) in LISTED | IN_ONE_QUARTER, True)
            listed[".".join(of)] += 1
        told += wanted[0] == 1
        by_joins += status == 1 and wanted[0] == 0
        refused += status == 3
    kept = ", ".join(f"{name} {count}" for name, count in sorted(listed.items()))
    print(f"of {tried} changes in one of three files {told} were told by its own audit, {by_joins} by the files together, {refused} refused as it was opened, and {sum(listed.values())} are of those that the page lists: {kept or 'none'} (seed {seed})")


def main():
    seed = int(os.environ.get("SEED", time.time_ns() % 100_000))
    random.seed(seed)
    with tempfile.TemporaryDirectory() as room:
        os.chdir(room)
        by_program("program.db")
        found = audit("program.db")
        subprocess.run([PROGRAM, "backup", "--db", "program.db", "--to", "copy.db"], check=True)
        same("a copy that backup made", audit("copy.db"), found)
        # (its timestamps are the clock's, so each meter has one or two quarter hours)
        meters, entries, intervals, polls = whole("program.db")
        same("what the program wrote", (meters, entries, 2 <= intervals <= 4, polls >= 3), (2, 11, True, True))
        same("a file of the program", found, (0, [f"fine: 2 meters, 11 entries, {intervals} intervals, {polls} polls"], []))
        same("as one file", audit("program.db"), found)
        entries, intervals = by_python("python.db")
        before = pathlib.Path("python.db").read_bytes()
        same("a file of Python", audit("python.db"), (0, [f"fine: 1 meter, {len(entries)} entries, {len(intervals)} intervals, {len(entries)} polls"], []))
        same("its bytes stay", (audit("python.db")[0], pathlib.Path("python.db").read_bytes() == before), (0, True))
        whole("python.db")
        printed(entries, intervals)
        no_books()
        definitions()
        around_meters(entries)
        seals(entries)
        several(seed)
        changes(seed)
        os.chdir("/")
    print(f"an audit took {sum(took) / len(took) * 1000:.0f} ms, {max(took) * 1000:.0f} ms at most")
    print(f"{counts['passed']} passed, {counts['failed']} failed")
    return counts["failed"] > 0


PROGRAM = sys.argv[1]
sys.exit(main())
