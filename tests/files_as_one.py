"""files_as_one.py PROGRAM [--short]: compares reports over several files with one file.

tests/files_as_one.sh runs it. A site has a meter with a rollover, a reset, a correction by hand and
a voided reading, which is replaced by another meter. One file gets all of it. Three files get it in
parts; `sunreg carry` begins the second and the third. The first carry is inside a quarter hour, the
second at the start of one. The program's output for the three equals that for the one, byte for
byte. Their statement equals what Python computes from the entries. The statement of a second, small
site equals numbers that were computed by hand. --short requests all days in each form, and every
other range in one form, a different one for each.
"""
import datetime
import itertools
import pathlib
import shutil
import subprocess
import sys
import tempfile

HERE = pathlib.Path(__file__).resolve().parent
ZONE = "CET-1CEST,M3.5.0,M10.5.0/3"
BEGIN = 1703808000  # 2023-12-29 00:00 UTC
DAY, STEP = 86400, 6 * 3600 + 431
# In W: so little that the counter can't roll over twice in two steps.
CEILING = 2500
OPENING, READING, MANUAL, CLOSING, RESET, RESCALE = 1, 2, 3, 4, 5, 6
counts = {"passed": 0, "failed": 0}


def same(what, got, wanted):
    """Compares a result with the expected one, and counts it."""
    counts["passed" if got == wanted else "failed"] += 1
    if got != wanted:
        print(f"{what}: {got!r}\nand not {wanted!r}")


class Entry:
    """An entry of a meter: `raw` is the counter, `after` its value after a reset or a rescaling."""

    def __init__(self, kind, moment, raw, sf, rolls=0, after=0):
        self.kind, self.moment, self.raw, self.sf, self.rolls, self.after = kind, moment, raw, sf, rolls, after
        self.voided = None

    def shown(self):
        return self.after if self.kind in (RESET, RESCALE) else self.raw


class Meter:
    """A meter at the register `main`: its entries in order, and the times and causes of its
    rejected readings."""

    def __init__(self, name, top, entries):
        self.name, self.top, self.entries, self.held = name, top, entries, []

    def part(self, from_moment, till):
        """Returns the part of the meter in a file that was begun at a time.

        Returns none if the meter was closed before, or not installed yet."""
        standing = [it for it in self.entries if not it.voided]
        first = [it for it in standing if it.moment <= from_moment]
        rest = [it for it in self.entries if from_moment < it.moment <= till]
        if not first:
            return Meter(self.name, self.top, rest) if rest else None
        last = first[-1]
        if last.kind == CLOSING:
            return None
        found = Meter(self.name, self.top, [Entry(OPENING, last.moment, last.shown(), last.sf)] + rest)
        return found

    def steps(self):
        """Returns the steps between valid entries: their start, their end, and their energy in
        mWh."""
        last = self.entries[0]
        for it in self.entries[1:]:
            if not it.voided:
                yield last.moment, it.moment, (it.raw + it.rolls * self.top - last.shown()) * 10 ** (last.sf + 3)
                last = it

    def intervals(self):
        """Returns the energy of each quarter hour."""
        found = {}
        for begin, end, energy in self.steps():
            def until(moment):
                return energy * (min(max(moment, begin), end) - begin) // (end - begin)
            for start in range(begin // 900 * 900, end, 900):
                found[start] = found.get(start, 0) + until(start + 900) - until(start)
        return sorted(found.items())

    def statements(self, place):
        """Returns the rows of the tables."""
        standing = [it for it in self.entries if not it.voided]
        last, total = standing[-1], sum(energy for _, _, energy in self.steps())
        ended = int(any(it.kind == CLOSING for it in self.entries))
        yield f"INSERT OR REPLACE INTO installations VALUES ({place}, '{self.name}', 'main', {CEILING}, {ended}, {last.moment}, {last.shown()}, {last.sf}, {total});"
        yield f"INSERT OR REPLACE INTO ranges VALUES ('{self.name}', {self.top});"
        for at, it in enumerate(self.entries, 1):
            yield f"INSERT OR REPLACE INTO entries VALUES ('{self.name}', {at}, {it.kind}, {it.moment}, {it.raw}, {it.rolls}, {it.after}, {it.sf});"
            if it.voided:
                yield f"INSERT INTO voids VALUES ('{self.name}', {at}, {it.voided});"
        for start, mwh in self.intervals():
            yield f"INSERT INTO intervals VALUES ('{self.name}', {start}, {mwh});"


def readings(from_moment, till, raw, top, sf, pace):
    """Returns readings at a pace, past the counter's rollover."""
    found = []
    for at, moment in enumerate(range(from_moment, till, STEP)):
        more = pace + at * 37 % 211
        rolls, raw = divmod(raw + more, top)
        found.append(Entry(READING, moment, raw, sf, rolls))
    return found


def site():
    """Returns the two meters of the register."""
    top = 65536
    one = [Entry(OPENING, BEGIN, 60000, 0)]
    one += readings(BEGIN + STEP, BEGIN + 20 * DAY, 60000, top, 0, 350)
    # (a voided reading: the next one has the energy of both)
    last, gone = one[-1], one[-2]
    gone.voided = last.moment + 5
    last.rolls = 1 if last.raw < one[-3].raw else 0
    at = last.moment + 3600
    one.append(Entry(RESET, at, last.raw + 9, 0, after=12))
    one += readings(at + STEP, BEGIN + 41 * DAY, 12, top, 0, 401)
    at = one[-1].moment + 777
    one.append(Entry(MANUAL, at, one[-1].raw + 50, 0))
    one += readings(at + STEP, BEGIN + 60 * DAY, one[-1].raw, top, 0, 390)
    at = one[-1].moment + 1234
    one.append(Entry(CLOSING, at, one[-1].raw + 21, 0))
    two = [Entry(OPENING, at, 7, -1)] + readings(at + STEP, BEGIN + 75 * DAY, 7, 10 ** 6, -1, 4100)
    # (at the start of a quarter hour)
    on_time = two[-1].moment // 900 * 900 + 1800
    two.append(Entry(READING, on_time, two[-1].raw + 900, -1))
    at = on_time + 4321
    two.append(Entry(RESCALE, at, two[-1].raw + 11, 0, after=5000))
    two += readings(at + STEP, BEGIN + 100 * DAY, 5000, 10 ** 6, 0, 395)
    return [Meter("m1", top, one), Meter("m2", 10 ** 6, two)], on_time


def polls(held):
    """Returns the rows of rejected readings."""
    for at, (meter, moment, cause) in enumerate(held, 1):
        yield f"INSERT INTO polls VALUES ({at}, 'inv', 1, {moment}, {at}, 3, 40094, 3);"
        yield f"INSERT INTO outcomes VALUES ({at}, {moment}, 1, 0);"
        yield f"INSERT INTO holds VALUES ({at}, '{meter}', {at}, {moment}, 5, 0, {cause});"


def write(db, statements):
    text = "BEGIN;\n" + "\n".join(statements) + "\nCOMMIT;\n"
    subprocess.run(["sqlite3", "-bail", db], input=text, text=True, check=True)


def ask(db, question):
    return subprocess.run(["sqlite3", "-bail", db, question], capture_output=True, text=True, check=True).stdout.strip()


def run(*words):
    """Returns the status, the output and the messages of a command, without that about a missing
    log."""
    done = subprocess.run([PROGRAM, *words], capture_output=True, stdin=subprocess.DEVNULL)
    said = [it for it in done.stderr.decode().splitlines() if "it had no log" not in it]
    return done.returncode, done.stdout.decode(), said


def new_office(db):
    subprocess.run(["bash", str(HERE / "schema.sh"), db, ZONE], check=True)
    write(db, ["INSERT INTO devices VALUES (1, 'inv', 1, 5, 1);",
               "INSERT INTO registers VALUES (1, 'main', 'inv', 3, 40094, 0, 0), (2, 'spare', 'inv', 3, 40194, 0, 0);"])


def fill(db, meters, held):
    """Writes a file's part of the meters; a meter that was carried into it keeps its place."""
    known = {line.split("|")[1]: line.split("|")[0] for line in ask(db, "SELECT place, meter FROM installations").splitlines()}
    at = itertools.count(len(known) + 1)
    statements = []
    for meter in meters:
        if meter.name in known:
            opening = meter.entries[0]
            same(f"{db}: {meter.name} goes on where it stood", ask(db, f"SELECT kind, moment, raw, sf FROM entries WHERE meter = '{meter.name}'"),
                 f"1|{opening.moment}|{opening.raw}|{opening.sf}")
        statements += meter.statements(known[meter.name] if meter.name in known else next(at))
    write(db, statements + list(polls(held)))


def build(room, names, meters, carries, held):
    """Makes files that get the events of the meters in parts.

    Each but the first is begun by a carry from the file before it, with the counter of its
    meter."""
    parts = [str(room / f"{name}.db") for name in names]
    begins, ends = [0, *carries], [*carries, BEGIN + 1000 * DAY]
    new_office(parts[0])
    for at, db in enumerate(parts):
        if at:
            same(f"carry {at}", run("carry", "--from", parts[at - 1], "--to", db)[:2], (0, "carried 1 meters\n"))
        there = [it for it in (meter.part(begins[at], ends[at]) for meter in meters) if it]
        fill(db, there, [it for it in held if begins[at] < it[1] <= ends[at]])
        same(f"the audit of {db}", run("audit", "--db", db)[1][:5], "fine:")
    return parts


def midnight(day):
    """Returns when a day begins by the clocks of the zone, which go forward on 2024-03-31."""
    begin = datetime.datetime.fromisoformat(f"{day}T00:00+00:00")
    return int(begin.timestamp()) - (3600 if day <= "2024-03-31" else 7200)


def stated(meters, held, first, till):
    """Returns the statement of meters in text and mWh."""
    begin, end = midnight(first) if first else 0, midnight(till) if till else BEGIN + 1000 * DAY
    rows = []
    for meter in meters:
        standing = [it for it in meter.entries if not it.voided]
        if begin >= end or standing[0].moment >= end or standing[-1].kind == CLOSING and standing[-1].moment < begin:
            continue
        within = [it for it in standing if begin <= it.moment < end]
        ends = [f"{it.moment} {it.shown() * 10 ** (it.sf + 3)}" for it in (within[0], within[-1])] if within else ["- -", "- -"]
        energy = sum(mwh for start, mwh in meter.intervals() if begin <= start < end)
        counts = [sum(it.kind == kind for it in within) for kind in (MANUAL, RESET, RESCALE)]
        voids = sum(begin <= it.moment < end for it in meter.entries if it.voided)
        causes = sorted(cause for name, moment, cause in held if name == meter.name and begin <= moment < end)
        by_cause = ",".join(f"{it}={causes.count(it)}" for it in sorted(set(causes)))
        openings, closings = (sum(it.kind == kind for it in within) for kind in (OPENING, CLOSING))
        rows.append(" ".join(map(str, [meter.name, *ends, energy, *counts, voids, by_cause or "0", openings, closings])))
    return "".join(f"{it}\n" for it in [*rows, f"end {len(rows)}"])


def copy(db, name):
    there = str(pathlib.Path(db).with_name(name))
    for it in (db, db + "-wal"):
        if pathlib.Path(it).exists():
            shutil.copy(it, there + it[len(db):])
    return there


def over(files, *words):
    """Returns a report of the register `main` over files."""
    return run("report", *[word for db in files for word in ("--db", db)], "--register", "main", *words)


def in_forms(ranges, *choices):
    """Returns ranges of days with a form each, of all forms that these choices make."""
    forms = list(itertools.product(*choices))
    if not SHORT:
        return list(itertools.product(ranges, forms))
    first, *others = ranges
    return [(first, form) for form in forms] + [(it, forms[at % len(forms)]) for at, it in enumerate(others)]


def hold_reports(whole, parts, ranges):
    """Each form of the report over the parts equals that of the whole."""
    for (first, till), (period, unit, form) in in_forms(ranges, ("day", "month", "year"), ("mwh", "kwh"), ("text", "csv", "json")):
        words = ["--by", period, "--unit", unit, "--format", form]
        words += ["--from", first] if first else []
        words += ["--till", till] if till else []
        same(" ".join(words), over(parts, *words), over([whole], *words))
    same("the plain report", over(parts), over([whole]))
    same("it has rows", len(over(parts)[1].splitlines()) > 90, True)


def hold_statements(whole, parts, ranges, meters, held):
    """Each form of the statement over the parts equals that of the whole, and its text what is
    computed."""
    for (first, till), (unit, form) in in_forms(ranges, ("mwh", "kwh"), ("text", "csv", "json")):
        words = ["--statement", "--unit", unit, "--format", form]
        words += ["--from", first] if first else []
        words += ["--till", till] if till else []
        found = over(parts, *words)
        same(" ".join(words), found, over([whole], *words))
        if (unit, form) == ("mwh", "text"):
            same(f"computed: {' '.join(words)}", found, (0, stated(meters, held, first, till), []))
    same("the plain statement", over(parts, "--statement"), (0, stated(meters, held, None, None), []))


def small_site():
    """Makes a meter that is carried twice and then closed, and the meter after it.

    The first carry is at midnight by the clocks of the zone."""
    at = 1704148200  # 2024-01-01 23:30 by the clocks
    one = [Entry(OPENING, at, 1000, 0), Entry(READING, at + 900, 1100, 0), Entry(READING, at + 1800, 1300, 0), Entry(MANUAL, at + 2700, 1350, 0),
           Entry(READING, at + 3600, 1400, 0), Entry(READING, at + 4500, 1500, 0), Entry(CLOSING, at + 5400, 1600, 0)]
    one[4].voided = at + 4505
    two = [Entry(OPENING, at + 5400, 7, 0), Entry(RESET, at + 6300, 17, 0, after=0)]
    held = [("m1", at + 1000, 2), ("m1", at + 4600, 2), ("m1", at + 4700, 5)]
    return [Meter("m1", 65536, one), Meter("m2", 65536, two)], [at + 1800, at + 4500], held


# Arguments, the names of the files, and the statement.
SMALL = [
    ([], "one two three", """m1 1704148200 1000000 1704153600 1600000 600000 1 0 0 1 2=2,5=1 1 1
m2 1704153600 7000 1704154500 0 10000 0 1 0 0 0 1 0
end 2
"""),
    # (the reading at the carry is of the second day)
    (["--till", "2024-01-02"], "one two three", "m1 1704148200 1000000 1704149100 1100000 300000 0 0 0 0 2=1 1 0\nend 1\n"),
    (["--from", "2024-01-02"], "one two three", """m1 1704150000 1300000 1704153600 1600000 300000 1 0 0 1 2=1,5=1 0 1
m2 1704153600 7000 1704154500 0 10000 0 1 0 0 0 1 0
end 2
"""),
    # (a file from which the meter was carried is left out, or has nothing yet of the time after it)
    ([], "two three", """m1 1704150000 1300000 1704153600 1600000 300000 1 0 0 1 2=1,5=1 1 1
m2 1704153600 7000 1704154500 0 10000 0 1 0 0 0 1 0
end 2
"""),
    ([], "one two", "m1 1704148200 1000000 1704152700 1500000 500000 1 0 0 1 2=1 1 0\nend 1\n"),
    # (before the first file, on no day, and after the last entry)
    (["--till", "2024-01-01"], "one two three", "end 0\n"),
    (["--from", "2024-01-01", "--till", "2024-01-01"], "one two three", "end 0\n"),
    (["--from", "2024-01-02", "--till", "2024-01-02"], "one two three", "end 0\n"),
    (["--from", "2024-01-03"], "one two three", "m2 - - - - 0 0 0 0 0 0 0 0\nend 1\n"),
]


def hold_by_hand(room):
    """Statements of the small site equal numbers that were computed by hand."""
    room.mkdir()
    meters, carries, held = small_site()
    build(room, ["one", "two", "three"], meters, carries, held)
    for words, names, wanted in SMALL:
        files = [str(room / f"{name}.db") for name in names.split()]
        same(f"by hand: {names} {' '.join(words)}", over(files, "--statement", *words), (0, wanted, []))


def unjoined(what, files, begin, *words):
    """A report and a statement over files that don't join are refused."""
    for form in ([], ["--statement"]):
        status, printed, said = over(files, *words, *form)
        same(f"{what} {' '.join(form)}", (status, printed, [it.startswith(f"sunreg: {begin}") for it in said]), (1, "", [True]))


def hold_refusals(room, parts, carries):
    one, two, three = parts
    def at(meter, kind, db, place):
        moment, raw, sf = ask(db, f"SELECT moment, raw, sf FROM entries WHERE meter = '{meter}' AND place = {place}").split("|")
        return f"meter {meter} {kind} at time {moment}, counter {raw}, scale {sf}"
    unjoined("the wrong order", [two, one, three], f"{one}: {at('m1', 'begins', one, 1)}; up to {two}, meter ")
    unjoined("a file lacks", [one, three], f"{three}: {at('m2', 'begins', three, 1)}; up to {one}, meter m1 has its last entry at time {carries[0]}, ")
    unjoined("one twice", [one, one], f"{one}: {at('m1', 'begins', one, 1)}; up to {one}, meter m1 has its last entry at time {carries[0]}, ")
    unjoined("a range before the carry", [two, one], f"{one}: ", "--till", "2024-01-02")
    later = copy(one, "later.db")
    last = int(ask(later, "SELECT max(place) FROM entries WHERE meter = 'm1'"))
    moment, raw = map(int, ask(later, f"SELECT moment, raw FROM entries WHERE meter = 'm1' AND place = {last}").split("|"))
    write(later, [f"INSERT INTO entries VALUES ('m1', {last + 1}, 2, {moment + 900}, {raw + 1}, 0, 0, 0);",
                  f"UPDATE installations SET last_moment = {moment + 900}, last_raw = {raw + 1} WHERE meter = 'm1';"])
    unjoined("it went on after the carry", [later, two], f"{two}: {at('m1', 'begins', two, 1)}; up to {later}, meter m1 has its last entry at time {moment + 900}, ")
    write(later, [f"INSERT INTO voids VALUES ('m1', {last + 1}, {moment + 1000});",
                  f"UPDATE installations SET last_moment = {moment}, last_raw = {raw} WHERE meter = 'm1';"])
    same("and that was voided", over([later, two, three]), over(parts))
    fields = over(parts, "--statement")[1].splitlines()[0].split(" ")
    fields[9] = str(int(fields[9]) + 1)
    same("which is stated as a void", over([later, two, three], "--statement")[1].splitlines()[0], " ".join(fields))
    zone = copy(two, "zone.db")
    write(zone, ["UPDATE meta SET zone = 'UTC0';"])
    unjoined("another zone", [one, zone], f"{zone}: its time zone differs from that of {one}: ")
    none = str(room / "none.db")
    subprocess.run(["bash", str(HERE / "schema.sh"), none, ZONE], check=True)
    unjoined("it is not recorded later", [one, none], f"{none}: a register of {one} or of an earlier file is missing here")
    same("but before", over([none, *parts]), over(parts))
    same("and a statement", over([none, *parts], "--statement"), over(parts, "--statement"))
    same("nowhere", run("report", "--db", one, "--db", two, "--register", "far")[:2], (1, "refused 1\n"))
    same("no name", run("report", "--db", one, "--db", two, "--register", "?")[:2], (1, "refused 1\n"))
    same("no meter", run("report", "--db", one, "--db", two, "--register", "spare"), (0, "end 0\n", []))
    same("no file", over([one, str(room / "gone.db")])[:2], (3, ""))
    same("a statement of no meter", run("report", "--db", one, "--db", two, "--register", "spare", "--statement"), (0, "end 0\n", []))
    same("a statement of nowhere", run("report", "--db", one, "--db", two, "--register", "far", "--statement")[:2], (1, "refused 1\n"))
    same("a statement of no name", run("report", "--db", one, "--db", two, "--register", "?", "--statement")[:2], (1, "refused 1\n"))
    same("no day", over(parts, "--from", "2024-02-30")[0], 2)


def carry_parts(place):
    """Makes the file that gets all, and the three that continue each other; returns when these were
    carried."""
    meters, on_time = site()
    first = [it.moment for it in meters[0].entries if it.moment < BEGIN + 33 * DAY and not it.voided][-1]
    carries = [first, on_time]
    held = [(("m1" if moment < meters[1].entries[0].moment else "m2"), moment, at % 8 + 1) for at, moment in enumerate(range(BEGIN + 500, BEGIN + 100 * DAY, 3 * DAY + 17))]
    whole = str(place / "whole.db")
    new_office(whole)
    fill(whole, meters, held)
    same("the audit of the whole", run("audit", "--db", whole)[1][:5], "fine:")
    parts = build(place, ["one", "two", "three"], meters, carries, held)
    return whole, parts, carries, meters, held


def main():
    room = tempfile.TemporaryDirectory()
    place = pathlib.Path(room.name)
    whole, parts, carries, meters, held = carry_parts(place)
    first, on_time = carries
    same("a carry cuts a quarter hour", [first % 900 != 0, on_time % 900], [True, 0])
    cut = datetime.datetime.fromtimestamp(first, datetime.timezone.utc).date()
    days = [None, "2024-01-01", str(cut), str(cut + datetime.timedelta(1)), "2024-02-29", "2024-03-31", "2024-05-01"]
    ranges = [(a, b) for a, b in itertools.product(days, days) if not (a and b) or a <= b]
    hold_reports(whole, parts, ranges)
    hold_statements(whole, parts, ranges, meters, held)
    hold_refusals(place, parts, carries)
    hold_by_hand(place / "small")
    room.cleanup()
    print(f"{counts['passed']} passed, {counts['failed']} failed")
    sys.exit(1 if counts["failed"] else 0)


PROGRAM, SHORT = sys.argv[1], "--short" in sys.argv
if __name__ == "__main__":
    main()
