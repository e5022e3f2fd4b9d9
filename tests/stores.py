#!/usr/bin/env python3
"""stores.py [PROGRAM]: compares an office's file with scripts and responses, by Python's sqlite3.

- Scripts: `replay --db` plays a script over a new file, which must have certain rows then.
- Queries: sqlite3 writes rows into a new file, which scripts and HTTP then query.
- Files: `create` and `report` accept or refuse databases, and migrate those of earlier versions.
- Several files: `audit` compares the meters of one file with those of the file before.
- Seals: `audit` prints the seal of certain rows, and compares later rows with it.

All numbers are written by hand. tests/stored_rows.py has the scripts, rows and responses. PORT is
the port of HTTP, 18711 by default. The script ends with 'N passed, M failed'.
"""
import contextlib
import json
import os
import pathlib
import shutil
import sqlite3
import subprocess
import sys
import tempfile
import time
import urllib.error
import urllib.request

sys.dont_write_bytecode = True
import stored_rows as data

HERE = pathlib.Path(__file__).resolve().parent
PORT = int(os.environ.get("PORT", "18711"))
PROGRAM = pathlib.Path(sys.argv[1] if len(sys.argv) > 1 else HERE.parent / "out" / "sunreg").resolve()
HAS_TABLES = "already has tables: skip create, or choose another file"
NOT_OURS = "not an office file, or made by a later version of sunreg; sunreg create makes a new one"
NO_ZONE = "the zone in its table meta is not a POSIX time zone: use an intact copy"
MADE = {}
counts = {"passed": 0, "failed": 0}


def same(what, got, wanted):
    """Compares a result with the expected one, and counts it."""
    counts["passed" if got == wanted else "failed"] += 1
    if got != wanted:
        print(f"{what}: {got!r}\nand not {wanted!r}")


def run(*words, text=""):
    """Returns the status of a command, its output, and its standard error."""
    done = subprocess.run([str(PROGRAM), *words], input=text, capture_output=True, text=True, timeout=600)
    # (a file that sqlite3 closed has no log beside it, which the program reports)
    said = [it for it in done.stderr.splitlines() if "it had no log" not in it]
    return done.returncode, done.stdout, "\n".join(said)


def refused(file, caller, text):
    """Enters a line. Returns the status, the output, and the beginning of what explains the answer."""
    status, printed, said = run("enter", "--db", file, "--caller", caller, text=text)
    return status, printed, ": ".join(said.split(": ")[:4])


def copy_file(db, to):
    """Copies only a file, over any file of the name: a log of another file there would be taken for
    its own."""
    for it in (to, to + "-wal", to + "-shm"):
        pathlib.Path(it).unlink(missing_ok=True)
    shutil.copy(db, to)


def execute(db, text):
    with contextlib.closing(sqlite3.connect(db)) as connection:
        connection.executescript(text)


def rows_of(db, query):
    with contextlib.closing(sqlite3.connect(db)) as connection:
        return connection.execute(query).fetchall()


def create(db, zone="UTC0"):
    """Makes a new file: a copy of the file that `create` makes for the zone."""
    if zone not in MADE:
        made = f"made{len(MADE)}.db"
        done = run("create", "--db", made, "--zone", zone)
        assert done == (0, "", ""), done
        # (sqlite3 moves the log into the file)
        execute(made, "PRAGMA wal_checkpoint(TRUNCATE)")
        MADE[zone] = made
    copy_file(MADE[zone], db)


def replay(db, *lines):
    """Returns the output of lines of a script over a file."""
    _, printed, said = run("replay", "--db", db, text="".join(f"{it}\n" for it in lines))
    return [*printed.splitlines(), *said.splitlines()]


def played(db, script):
    """Plays a script over a new file, of which no line may be refused."""
    create(db)
    printed = replay(db, *script.splitlines())
    same(f"{db}: no line is refused", [it for it in printed if it.startswith(("refused", "bad", "failed"))], [])


def holding(db, text, zone="UTC0"):
    """Makes a new file with rows that sqlite3 writes."""
    create(db, zone)
    execute(db, text)


def check_scripts():
    for what, script, rows in data.BOOKED:
        played("booked.db", script)
        for row, count in rows:
            same(f"{what}: {row}", rows_of("booked.db", f"SELECT count(*) FROM {row}"), [(count,)])
        same(f"{what}: its audit", run("audit", "--db", "booked.db")[0], 0)


def check_questions():
    for what, rows, asked in data.ASKED:
        holding("asked.db", rows)
        printed = replay("asked.db", *(line for line, _ in asked))
        same(what, printed, [it for _, answer in asked for it in answer.splitlines()])


@contextlib.contextmanager
def running(*dbs):
    """Runs an office over files, and polls a device that isn't there."""
    words = [it for db in dbs for it in ("--db", db)]
    words += ["--listen", str(PORT), "--every", "86400", "--devices", "inv=127.0.0.1:1"]
    child = subprocess.Popen([str(PROGRAM), "run", *words], stdin=subprocess.DEVNULL, stdout=subprocess.DEVNULL, stderr=subprocess.PIPE)
    try:
        yield child
    finally:
        child.kill()
        child.communicate()


def get(child, target):
    """Returns the status and the body of a response."""
    for _turn in range(400):
        try:
            with urllib.request.urlopen(f"http://127.0.0.1:{PORT}{target}", timeout=60) as reply:
                return reply.status, reply.read().decode()
        except urllib.error.HTTPError as error:
            return error.code, error.read().decode()
        except OSError:
            if child.poll() is not None:
                return child.returncode, child.stderr.read().decode()
            time.sleep(0.25)
    return None, "no reply"


def check_http():
    for what, rows, asked in data.SERVED:
        holding("served.db", rows)
        with running("served.db") as child:
            for target, wanted in asked:
                same(f"{what}: {target}", get(child, target), wanted)


def check_many_entries():
    """A response has 4,096 entries at most."""
    holding("many.db", data.MANY)
    with running("many.db") as child:
        listed = get(child, "/meters/m1/entries/2")[1].splitlines()
        same("4096 entries", (len(listed), listed[0], *listed[-2:]), (4097, "2 manual 1001 2 0 0 0 stands", "4097 manual 5096 4097 0 0 0 stands", "end 4096"))
        listed = get(child, "/meters/m1/entries/4098")[1].splitlines()
        same("the rest", (len(listed), *listed[-2:]), (904, "5000 manual 5999 5000 0 0 0 stands", "end 903"))


def said_of(db):
    """Returns the status of a report of a file, its output, and its second message, which has the
    reason."""
    status, printed, said = run("report", "--db", db, "--register", "main")
    return status, printed, "".join(said.splitlines()[1:2])


def refuses(what, db, reason):
    """The file is refused for a reason, and nothing of it is printed."""
    status, printed, said = said_of(db)
    same(what, (status, printed, reason in said or said), (3, "", True))


def check_new_files():
    same("a new file", run("create", "--db", "begun.db", "--zone", "UTC0"), (0, "", ""))
    shutil.copy("begun.db", "new.db")
    shutil.copy("begun.db-wal", "new.db-wal")
    found = [it[0] for it in rows_of("new.db", "SELECT name FROM sqlite_schema WHERE type = 'table'")]
    same("the tables of a new file", found, data.TABLES)
    for table in data.TABLES:
        wanted = [(1, 3, "UTC0")] if table == "meta" else []
        same(f"the rows of {table}", rows_of("new.db", f"SELECT * FROM {table}"), wanted)
    status, printed, said = run("create", "--db", "new.db", "--zone", "UTC0")
    same("a file is made once", (status, printed, HAS_TABLES in said or said), (3, "", True))
    for table in [*data.TABLES, "notes"]:
        pathlib.Path("other.db").unlink(missing_ok=True)
        execute("other.db", f"CREATE TABLE {table} (x)")
        status, printed, said = run("create", "--db", "other.db", "--zone", "UTC0")
        same(f"a database with the table {table}", (status, printed, HAS_TABLES in said or said), (3, "", True))
    same("a text that is no zone", (run("create", "--db", "zone.db", "--zone", "x")[0], os.path.exists("zone.db")), (2, False))
    same("a zone with a summer", run("create", "--db", "zone.db", "--zone", data.ZONE), (0, "", ""))
    same("it is kept", rows_of("zone.db", "SELECT zone FROM meta"), [(data.ZONE,)])


def check_opened_files():
    for change, fault in data.OPENED:
        holding("opened.db", change)
        if fault is None:
            same(change, said_of("opened.db")[:2], (1, "refused 1\n"))
        else:
            refuses(change, "opened.db", {1: NOT_OURS, 2: NO_ZONE}[fault])
    for what, change, ranges in data.VERSIONS:
        holding("version.db", change, "CET-1")
        for turn in ("once", "again"):
            same(f"{what}: a report, {turn}", said_of("version.db"), (0, data.VERSION_DAYS, ""))
        for query, shown in data.BROUGHT:
            same(f"{what}: {query}", rows_of("version.db", query), [(shown,)])
        same(f"{what}: its ranges", rows_of("version.db", 'SELECT meter, "range" FROM ranges ORDER BY meter'), ranges)


def joins(*dbs):
    """Returns the lines of an audit about how several files join, and its status; each file alone
    is sound."""
    status, printed, said = run("audit", *(it for db in dbs for it in ("--db", db)))
    return status, [it for it in printed.splitlines() if not it.startswith(("file ", "fine: "))], said


def check_joins():
    played("old.db", data.ONE_READING)
    for what, begun, wanted in data.JOINED:
        played("new.db", begun)
        same(what, joins("old.db", "new.db"), (int(len(wanted) > 1), wanted, ""))
    played("closed.db", data.CLOSED)
    played("new.db", data.begun("m1", 2000, 5200))
    wanted = ["meter m1 is in new.db, and was closed in closed.db", "1 difference between files"]
    same("a meter that was closed", joins("closed.db", "new.db"), (1, wanted, ""))
    played("next.db", data.begun("m1", 1900, 5200) + data.read(0, 2800, 5300))
    played("new.db", data.begun("m1", 2800, 5300))
    same("a third file", joins("old.db", "next.db", "new.db"), (0, ["joined: fine"], ""))
    wanted = ["meter m1 begins in new.db at 2800 (1970-01-01 00:46:40 UTC) 5300 0, stands in old.db at 1900 (1970-01-01 00:31:40 UTC) 5200 0", "1 difference between files"]
    same("a file that is left out", joins("old.db", "new.db"), (1, wanted, ""))
    played("new.db", data.begun("m1", 1900, 5200))
    execute("new.db", "UPDATE meta SET zone = 'CET-1'")
    wanted = ["zone is CET-1 in new.db, and UTC0 in old.db", "1 difference between files"]
    same("another zone", joins("old.db", "new.db"), (1, wanted, ""))


def check_seals():
    holding("sealed.db", data.SEALED)
    same("a seal", run("audit", "--db", "sealed.db", "--seal"), (0, data.SEAL, ""))
    pathlib.Path("seal.txt").write_text(data.SEAL)
    same("the rows have it", run("audit", "--db", "sealed.db", "--against", "seal.txt")[0], 0)
    execute("sealed.db", "INSERT INTO polls VALUES (3, 'inv', 1, 1898, 7, 3, 40094, 3)")
    same("and so they have after a later poll", run("audit", "--db", "sealed.db", "--against", "seal.txt")[0], 0)


def check_requests():
    """A request that is sent again acts once, also after the office was opened again."""
    start = int(time.time()) // 900 * 900 - 7200
    played("asked.db", data.at(start, data.ONE_READING))
    line = "7 exchange main 5300 0 m2 0 0 100000\n"
    for turn in ("first", "again"):
        same(f"an exchange, {turn}", run("enter", "--db", "asked.db", "--caller", "desk", text=line), (0, "ok\n", ""))
    other = "7 exchange main 5301 0 m2 0 0 100000\n"
    same("another request of the number", refused("asked.db", "desk", other), (1, "refused 11\n", "sunreg: line 1: 7 exchange main 5301 0 m2 0 0 100000: refused 11"))
    for caller, number in (("away", 7), ("desk", 8)):
        asked = f"{number} exchange main 5300 0 m2 0 0 100000 !"
        same(f"it is not that of {caller} {number}", refused("asked.db", caller, f"{asked}\n"), (1, "refused 2\n", f"sunreg: line 1: {asked}: refused 2"))
    same("it acted once", rows_of("asked.db", "SELECT meter, ended, last_raw, total FROM installations"), [("m1", 1, 5300, 300000), ("m2", 0, 0, 0)])
    execute("asked.db", "UPDATE replies SET kind = 'sold'")
    same("a kept command that is none", refused("asked.db", "desk", line), (1, "refused 13\n", f"sunreg: line 1: {line[:-1]}: refused 13"))
    same("its energy", rows_of("asked.db", "SELECT meter, sum(mwh) FROM intervals"), [("m1", 300000)])


def check_files():
    """The day of stored_rows.DAY is reported, audited, copied, carried and compared with itself."""
    played("day.db", data.DAY)
    for words, wanted in data.REPORTS:
        same(" ".join(words), run("report", "--db", "day.db", *words), wanted)
    played("future.db", data.FUTURE)
    same("a report needs no clock", run("report", "--db", "future.db", "--register", "main"), data.FUTURE_DAYS)
    same("a copy", run("backup", "--db", "day.db", "--to", "copy.db")[0], 0)
    same("it has no log", os.path.exists("copy.db-wal"), False)
    for words, wanted in data.REPORTS[:1]:
        same("it is reported alike", run("report", "--db", "copy.db", *words), wanted)
    copy_file("copy.db", "new.db")
    copy_file("copy.db", "old.db")
    same("one file is joined", joins("old.db", "new.db"), data.TWICE)
    same("it is not reported after itself", run("report", "--db", "old.db", "--db", "new.db", "--register", "main")[:2], (1, ""))
    same("nor stated", run("report", "--db", "old.db", "--db", "new.db", "--register", "main", "--statement")[:2], (1, ""))
    create("bare.db")
    same("nor before one that has no register", run("report", "--db", "old.db", "--db", "bare.db", "--register", "main", "--statement")[:2], (1, ""))
    for it in ("next.db", "next.db-wal"):
        pathlib.Path(it).unlink(missing_ok=True)
    same("it is carried", run("carry", "--from", "day.db", "--to", "next.db")[0], 0)
    same("it goes on", replay("next.db", *data.LATER), ["ok", "ok"])
    for dbs, words, wanted in data.STATED:
        files = [it for db in dbs for it in ("--db", db)]
        same(f"{dbs} {words}", run("report", *files, "--register", "main", "--statement", *words), (0, wanted, ""))
    for change, status, wanted in data.AUDITED:
        execute("copy.db", change)
        same(change, run("audit", "--db", "copy.db"), (status, wanted, ""))
    execute("copy.db", "UPDATE meta SET version = 9")
    refuses("a version that is not known", "copy.db", NOT_OURS)
    pathlib.Path("foreign.db").unlink(missing_ok=True)
    execute("foreign.db", "CREATE TABLE notes (text TEXT) STRICT")
    same("tables of another", run("audit", "--db", "foreign.db")[:2], (3, ""))
    same("no copy of them", (run("backup", "--db", "foreign.db", "--to", "none.db")[0], os.path.exists("none.db")), (3, False))
    pathlib.Path("text.db").write_text("no database")
    for db in ("text.db", "/"):
        same(f"no copy of {db}", (run("backup", "--db", db, "--to", "none.db")[0], os.path.exists("none.db")), (3, False))
    for db in ("/", "/none/office.db"):
        same(f"no office in {db}", run("create", "--db", db, "--zone", "UTC0")[:2], (3, ""))


def check_lacks():
    """After a round the program reports what the device lacks."""
    played("lacks.db", data.UNMETERED)
    for device, wanted in data.LACKS:
        with subprocess.Popen([PROGRAM, "stand-in", "--port", str(PORT + 1), "--connections", "1"], stdin=subprocess.DEVNULL) as child:
            for _turn in range(400):
                done = run("round", "--db", "lacks.db", "--device", device, "--port", str(PORT + 1))
                if done[0] != 3:
                    break
                time.sleep(0.25)
            child.kill()
        same(f"what {device} lacks", (done[0], done[2].splitlines()), (1, wanted))


def check_earlier_files():
    """A run reports over the file before its own, and refuses a file that its own does not
    continue."""
    played("day.db", data.DAY)
    played("next.db", data.NEXT)
    files = ["--db", "day.db", "--db", "next.db"]
    same("both files", run("report", *files, "--register", "main"), (0, data.NEXT_DAYS, ""))
    same("their statement", run("report", *files, "--register", "main", "--statement"), (0, data.NEXT_STATED, ""))
    with running("day.db", "next.db") as child:
        same("the site of both", json.loads(get(child, "/site")[1])["registers"], data.NEXT_SITE)
        same("the months of both", get(child, "/registers/main/months"), (200, data.NEXT_MONTHS))
    copy_file("day.db", "again.db")
    played("bare.db", "3700 device inv 1 5 1\n")
    for what, db in (("a meter that doesn't go on", "again.db"), ("a file without the register", "bare.db")):
        words = ["--db", "day.db", "--db", db, "--listen", str(PORT), "--every", "60", "--devices", "inv=127.0.0.1:1"]
        same(what, run("run", *words)[0], 1)


def main():
    if not PROGRAM.is_file():
        sys.exit(f"stores.sh: {PROGRAM} is not built: run ./sunreg-build")
    with tempfile.TemporaryDirectory() as room:
        os.chdir(room)
        for check in (check_scripts, check_questions, check_http, check_many_entries, check_new_files, check_opened_files, check_joins, check_seals, check_requests, check_files, check_lacks, check_earlier_files):
            check()
        os.chdir("/")
    print(f"{counts['passed']} passed, {counts['failed']} failed")
    return 1 if counts["failed"] else 0


if __name__ == "__main__":
    sys.exit(main())
