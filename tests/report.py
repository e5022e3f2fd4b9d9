"""report.py PROGRAM: compares reports and statements with Python, in both units and three formats.

tests/report.sh runs it. The reports are on ranges of days, by periods. A file gets quarter hours
over the end of a year, a 29 February and a clock change. The expected output is computed from the
same quarter hours by Python's own calendar, decimals, CSV and JSON.
"""
import csv
import datetime
import decimal
import io
import itertools
import json
import pathlib
import subprocess
import sys
import tempfile
import zoneinfo

HERE = pathlib.Path(__file__).resolve().parent
ZONE, PLACE = "CET-1CEST,M3.5.0,M10.5.0/3", zoneinfo.ZoneInfo("Europe/Berlin")
BEGIN = 1703808000  # 2023-12-29 00:00 UTC
DAY, DAYS = 86400, 100
PERIODS = {"day": "%Y-%m-%d", "month": "%Y-%m", "year": "%Y"}
WIDTHS = {"day": 3, "month": 4, "year": 5}
counts = {"passed": 0, "failed": 0}


def quarter(day):
    """Returns the energy of each quarter hour of a day of UTC, in mWh: nothing on the first two
    days, and then one mWh."""
    return (0, 0, 1)[day] if day < 3 else 8_543 * day + 7


# The rejected readings: one at every seventh noon of UTC, each for the next cause. Two more are in
# the last second of 2023 in the zone, and in the second after it.
HELD = sorted([(BEGIN + DAY * day + DAY // 2, day // 7 % 8 + 1) for day in range(0, DAYS, 7)] + [(1704063599, 6), (1704063600, 6)])
QUARTERS = [(BEGIN + DAY * day + 900 * at, quarter(day)) for day in range(DAYS) for at in range(96)]


def office(db):
    """Makes a file of one meter that was read once a day, in mWh, and of a register without a
    reading."""
    entries, raw = [f"('m1', 1, 1, {BEGIN}, 0, 0, 0, -3)"], 0
    for day in range(DAYS):
        raw += 96 * quarter(day)
        entries.append(f"('m1', {day + 2}, 2, {BEGIN + DAY * (day + 1)}, {raw}, 0, 0, -3)")
    rows = [f"('m1', {start}, {mwh})" for start, mwh in QUARTERS]
    polls = [f"({poll}, 'inv', 1, {moment}, {poll}, 3, 40094, 3)" for poll, (moment, _) in enumerate(HELD, 1)]
    outcomes = [f"({poll}, {moment}, 1, 0)" for poll, (moment, _) in enumerate(HELD, 1)]
    holds = [f"({poll}, 'm1', {poll}, {moment}, 5, 0, {cause})" for poll, (moment, cause) in enumerate(HELD, 1)]
    text = f"""BEGIN;
        INSERT INTO devices VALUES (1, 'inv', 1, 5, 1);
        INSERT INTO registers VALUES (1, 'main', 'inv', 3, 40094, 0, -3), (2, 'spare', 'inv', 3, 40194, 0, -3);
        INSERT INTO installations VALUES (1, 'm1', 'main', 100000, 0, {BEGIN + DAY * DAYS}, {raw}, -3, {raw});
        INSERT INTO ranges VALUES ('m1', 4294967296);
        INSERT INTO entries VALUES {", ".join(entries)};
        INSERT INTO intervals VALUES {", ".join(rows)};
        INSERT INTO polls VALUES {", ".join(polls)};
        INSERT INTO outcomes VALUES {", ".join(outcomes)};
        INSERT INTO holds VALUES {", ".join(holds)};
        COMMIT;"""
    subprocess.run(["bash", str(HERE / "schema.sh"), db, ZONE], check=True)
    subprocess.run(["sqlite3", "-bail", db], input=text, text=True, check=True)


def same(what, got, wanted):
    """Compares a result with the expected one, and counts it."""
    counts["passed" if got == wanted else "failed"] += 1
    if got != wanted:
        print(f"{what}: {got!r}\nand not {wanted!r}")


def run(db, register, words):
    """Returns the status and the output of a report."""
    done = subprocess.run([PROGRAM, "report", "--db", db, "--register", register, *words], capture_output=True, stdin=subprocess.DEVNULL)
    # (sqlite3 wrote the file, so it has no log beside it, which the program reports)
    said = [it for it in done.stderr.decode().splitlines() if "it had no log" not in it]
    return done.returncode, done.stdout.decode(), said[:1]


def rows(period, first, till):
    """Returns each period of a range, with its number of quarter hours and its energy in mWh."""
    found = {}
    for start, mwh in QUARTERS:
        day = datetime.datetime.fromtimestamp(start, PLACE).date()
        if (first is None or first <= day) and (till is None or day < till):
            count, energy = found.get(day.strftime(PERIODS[period]), (0, 0))
            found[day.strftime(PERIODS[period])] = count + 1, energy + mwh
    return [(name, count, energy) for name, (count, energy) in found.items()]


def energy(unit, mwh):
    """Returns an energy as text."""
    return str(mwh) if unit == "mwh" else str(decimal.Decimal(mwh).scaleb(-6).quantize(decimal.Decimal("0.000001")))


def text_of(found, period, unit):
    lines = [f"{name} {count:{WIDTHS[period]}} {energy(unit, mwh):>24}\n" for name, count, mwh in found]
    return "".join(lines) + f"end {len(found)}\n"


def csv_of(found, period, unit):
    """Returns a table of Python's writer, with the line ends of RFC 4180."""
    table = io.StringIO()
    writer = csv.writer(table)
    writer.writerow([period, f"energy_{unit}"])
    writer.writerows([name, energy(unit, mwh)] for name, _, mwh in found)
    return table.getvalue()


def objects_of(found, period, unit):
    return [{period: name, unit: energy(unit, mwh)} for name, _, mwh in found]


def hold(db, period, unit, form, first, till):
    """Checks one report."""
    words = ["--by", period, "--unit", unit, "--format", form]
    words += ["--from", str(first)] if first else []
    words += ["--till", str(till)] if till else []
    status, printed, said = run(db, "main", words)
    found = rows(period, first, till)
    what = " ".join(words)
    same(f"{what}: its end", (status, said), (0, []))
    if form == "json":
        same(what, json.loads(printed), objects_of(found, period, unit))
    else:
        same(what, printed, {"text": text_of, "csv": csv_of}[form](found, period, unit))


def statement(unit, form, first, till):
    """Returns the expected statement: the meter was read at the end of each day of UTC, from the
    first on."""
    readings, raw = [(BEGIN, 0)], 0
    for day in range(DAYS):
        raw += 96 * quarter(day)
        readings.append((BEGIN + DAY * (day + 1), raw))
    def within(moment):
        day = datetime.datetime.fromtimestamp(moment, PLACE).date()
        return (first is None or first <= day) and (till is None or day < till)
    has_a_day = first is None or till is None or first < till
    there = has_a_day and (till is None or datetime.datetime.fromtimestamp(BEGIN, PLACE).date() < till)
    found = [it for it in readings if within(it[0])]
    total = sum(mwh for start, mwh in QUARTERS if within(start))
    stands = [found[0], found[-1]] if found else [None, None]
    causes = [cause for moment, cause in HELD if within(moment)]
    held = {str(cause): causes.count(cause) for cause in sorted(set(causes))}
    names = ["meter", "first", f"first_{unit}", "last", f"last_{unit}", f"energy_{unit}", "by_hand", "resets", "rescales", "voids", "held", "openings", "closings"]
    def joined(mark):
        return mark.join(f"{cause}={count}" for cause, count in held.items()) or "0"
    def row(nothing, number, counts):
        pairs = [value for it in stands for value in ((number(it[0]), energy(unit, it[1])) if it else (nothing, nothing))]
        return ["m1", *pairs, energy(unit, total), *[number(0)] * 4, counts, number(int(within(BEGIN))), number(0)]
    if form == "json":
        return [dict(zip(names, row(None, int, held)))] if there else []
    table = io.StringIO()
    if form == "csv":
        writer = csv.writer(table)
        writer.writerow(names)
        writer.writerows([row("", str, joined(";"))] if there else [])
        return table.getvalue()
    return (" ".join(row("-", str, joined(","))) + "\n" if there else "") + f"end {int(there)}\n"


def hold_statement(db, unit, form, first, till):
    """Checks one statement, and compares its energy with that of the report by days."""
    words = ["--statement", "--unit", unit, "--format", form]
    words += ["--from", str(first)] if first else []
    words += ["--till", str(till)] if till else []
    status, printed, said = run(db, "main", words)
    what = " ".join(words)
    same(f"{what}: its end", (status, said), (0, []))
    same(what, json.loads(printed) if form == "json" else printed, statement(unit, form, first, till))


def refused(db, words, said):
    """Wrong arguments are refused."""
    status, printed, errors = run(db, "main", words)
    same(" ".join(words), (status, printed, errors), (2, "", [said]))


def held_by_cause(room):
    """Holds the counts of rejected readings: of a day with one for each cause, between two others, and of ten for one cause."""
    day = [(86399, 6), *((86399 + cause, cause) for cause in range(1, 8)), (172799, 8), (172800, 6)]
    cases = (("a day", day, ["--from", "1970-01-02", "--till", "1970-01-03"], {str(cause): 1 for cause in range(1, 9)}),
             ("a cause", [(moment, 5) for moment, _ in day], [], {"5": 10}))
    for name, held, words, wanted in cases:
        db = str(room / f"held in {name}.db")
        polls = [f"({poll}, 'inv', 1, {moment}, {poll}, 3, 40094, 3)" for poll, (moment, _) in enumerate(held, 1)]
        outcomes = [f"({poll}, {moment}, 1, 0)" for poll, (moment, _) in enumerate(held, 1)]
        holds = [f"({poll}, 'm1', {poll}, {moment}, 5, 0, {cause})" for poll, (moment, cause) in enumerate(held, 1)]
        text = f"""BEGIN;
            INSERT INTO devices VALUES (1, 'inv', 1, 5, 1);
            INSERT INTO registers VALUES (1, 'main', 'inv', 3, 40094, 0, -3);
            INSERT INTO installations VALUES (1, 'm1', 'main', 100000, 0, 0, 0, -3, 0);
            INSERT INTO ranges VALUES ('m1', 4294967296);
            INSERT INTO entries VALUES ('m1', 1, 1, 0, 0, 0, 0, -3);
            INSERT INTO polls VALUES {", ".join(polls)};
            INSERT INTO outcomes VALUES {", ".join(outcomes)};
            INSERT INTO holds VALUES {", ".join(holds)};
            COMMIT;"""
        subprocess.run(["bash", str(HERE / "schema.sh"), db, "UTC0"], check=True)
        subprocess.run(["sqlite3", "-bail", db], input=text, text=True, check=True)
        status, printed, _ = run(db, "main", ["--statement", "--format", "json", *words])
        same(f"readings that were rejected in {name}", (status, json.loads(printed)[0]["held"]), (0, wanted))


def entries_stand(db):
    """The query of docs/REPORTS.md for a meter's entries returns the rows of the file."""
    page = (HERE.parent / "docs/REPORTS.md").read_text()
    question = page.split("```sql\n")[1].split("```")[0].replace("2026-11-01", "2024-01-01").replace("2026-12-01", "2024-02-01")
    done = subprocess.run(["sqlite3", "-bail", db, question], capture_output=True, text=True, check=True)
    found = [line.split("|") for line in done.stdout.splitlines()]
    same("entries of a month", [it[2] for it in found], [f"2024-01-{day:02} 00:00:00" for day in range(1, 32)])
    wanted = sum(mwh for start, mwh in QUARTERS if 1704067200 <= start < 1704067200 + 30 * DAY)
    same("what their counter went up by", int(found[-1][3]) - int(found[0][3]), wanted)


def main():
    room = tempfile.TemporaryDirectory()
    db = str(pathlib.Path(room.name) / "office.db")
    office(db)
    day = datetime.date
    ranges = [(None, None), (day(2023, 12, 31), day(2024, 1, 2)), (day(2024, 2, 29), day(2024, 3, 1)), (None, day(2024, 1, 1)),
              (day(2024, 3, 30), None), (day(2024, 2, 1), day(2024, 2, 1)), (day(1999, 1, 1), day(2000, 1, 1)), (day(2024, 1, 1), None)]
    for (first, till), period, unit, form in itertools.product(ranges, PERIODS, ("mwh", "kwh"), ("text", "csv", "json")):
        hold(db, period, unit, form, first, till)
    for (first, till), unit, form in itertools.product(ranges, ("mwh", "kwh"), ("text", "csv", "json")):
        hold_statement(db, unit, form, first, till)
    plain = run(db, "main", [])
    same("a word that is said or not", run(db, "main", ["--by", "day"]), plain)
    same("the plain report", plain, (0, text_of(rows("day", None, None), "day", "mwh"), []))
    for form, nothing in (("text", "end 0\n"), ("csv", "day,energy_mwh\r\n"), ("json", "[]\n")):
        same(f"no meter: {form}", run(db, "spare", ["--format", form]), (0, nothing, []))
        same(f"no register: {form}", run(db, "none", ["--format", form]), (1, "refused 1\n", []))
        same(f"no statement: {form}", run(db, "none", ["--statement", "--format", form]), (1, "refused 1\n", []))
    same("no meter to state", run(db, "spare", ["--statement"]), (0, "end 0\n", []))
    for word in ("2024-02-30", "2023-02-29", "24-02-01", "2024-2-1", "2024-02-01 ", "20240201", "2024-13-01", "2024-00-01"):
        for option in ("--from", "--till"):
            refused(db, [option, word], f"error: invalid value '{word}' for '{option} <DAY>': not a calendar date (like 2026-11-25)")
    refused(db, ["--from", "2024-02-02", "--till", "2024-02-01"], "error: '--till <DAY>' is before '--from <DAY>'")
    for word in ("wh", "kWh"):
        refused(db, ["--unit", word], f"error: invalid value '{word}' for '--unit <UNIT>': expected one of mwh, kwh")
    refused(db, ["--by", "week"], "error: invalid value 'week' for '--by <PERIOD>': expected one of day, month, year")
    refused(db, ["--statement", "--by", "day"], "error: the argument '--statement' cannot be used with '--by'")
    for word in ("xml", ""):
        refused(db, ["--format", word], f"error: invalid value '{word}' for '--format <FORMAT>': expected one of text, csv, json")
    entries_stand(db)
    held_by_cause(pathlib.Path(room.name))
    room.cleanup()
    print(f"{counts['passed']} passed, {counts['failed']} failed")
    sys.exit(1 if counts["failed"] else 0)


PROGRAM = sys.argv[1]
main()
