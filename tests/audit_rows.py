"""The audit of a file in Python and sqlite3, with which tests/audit.py compares the program.

It is written from docs/AUDIT.md, docs/SCHEMA.md and the definitions of energy_core and meter_journal::audit.
It uses nothing of the program."""
import collections
import datetime
import re

OPENING, READING, _MANUAL, CLOSING, RESET, RESCALE = range(1, 7)
LATEST, GREATEST_PLACE, SHOWN, MOST_ENERGY = 4_102_444_800, 2**62, 2**32 - 1, 4 * 10**18
LONGEST = 3000  # the most quarter hours of a step
RUN = 4096  # the audit reads polls in ranges of so many numbers
NAME, POINT = re.compile(r"[A-Za-z][A-Za-z0-9_-]{0,15}"), re.compile(r"[A-Za-z][A-Za-z0-9_.]{0,31}")
CODES = {1: (0, 0), 2: (0, 255), 3: (0, 0), 4: (1, 5), 5: (1, 4)}  # by the kind of an outcome


def counted(number, one, many):
    """Returns a number and a noun, such as `1 meter`."""
    return f"{number} {one if number == 1 else many}"


def energy(mwh):
    """Returns an energy in mWh and in kWh."""
    whole, part = divmod(mwh, 1_000_000)
    return f"{mwh} mWh ({whole}.{part:06} kWh)"


def moment(at):
    """Returns a timestamp with its date and time in UTC."""
    return f"{at} ({datetime.datetime(1970, 1, 1) + datetime.timedelta(seconds=at)} UTC)"


def stand(at, raw, sf):
    """Returns the time, the value and the scale factor of a counter."""
    return f"{moment(at)} {raw} {sf}"


def unit(sf):
    """Returns the milliwatt-hours of a count."""
    return 10 ** (sf + 3)


def touched(since, till):
    """Returns how many quarter hours two times span."""
    return (till - 1) // 900 - since // 900 + 1


def can_count(ceiling, sf, seconds, count):
    """Returns whether so many counts are possible in some seconds at the ceiling.

    The first count may come at once: 5 mWh are 18 Ws."""
    return max(count - 1, 0) * unit(sf) * 18 <= ceiling * seconds * 5


class Meter:
    """A meter by its rows so far."""

    def __init__(self, range_, ceiling, at, raw, sf):
        self.range, self.ceiling, self.at, self.raw, self.sf = range_, ceiling, at, raw, sf
        self.place, self.total, self.is_ended, self.stands, self.rows = 1, 0, False, True, {}

    def cause(self, at, raw):
        """Returns the cause for which a reading would be rejected; 0 for none."""
        seconds, far = at - self.at, (raw + self.range - self.raw) % self.range
        if raw == 0:
            return 1
        if raw >= self.range:
            return 8
        if seconds <= 0:
            return 3
        if touched(self.at, at) > LONGEST:
            return 4
        if can_count(self.ceiling, self.sf, seconds, self.range):
            return 5
        if not can_count(self.ceiling, self.sf, seconds, far):
            return 6
        return 7 if self.total + far * unit(self.sf) > MOST_ENERGY else 0

    def shape(self, place, kind, rolls, after, sf, is_voided):
        """Returns the fault of a row by its kind and columns alone, or None."""
        is_change = kind in (RESET, RESCALE)
        if place != self.place + 1:
            return f"the next place is {self.place + 1}"
        if kind == OPENING:
            return "the meter was opened before"
        if self.is_ended:
            return "the meter was closed before"
        if is_voided and kind != READING:
            return "a void names it, and it is no reading"
        if (rolls if is_change else after) != 0:
            return "a column that its kind has no use for is not 0"
        return f"the scale factor there is {self.sf}" if kind != RESCALE and sf != self.sf else None

    def voided(self, at, raw, rolls):
        """Returns the fault of a voided reading, as far as the counter can show it, or None."""
        for cause, is_so in ((1, raw == 0), (8, raw >= self.range), (3, at <= self.at)):
            if is_so:
                return f"it would be held, cause {cause}"
        return "the rollovers there are 1" if rolls > 1 else None

    def read(self, at, raw, rolls):
        """Returns the fault of a reading after these rows, or None."""
        if cause := self.cause(at, raw):
            return f"it would be held, cause {cause}"
        return None if rolls == (raw < self.raw) else f"the rollovers there are {int(raw < self.raw)}"

    def book(self, kind, at, raw, rolls, after, sf):
        """Adds an entry, or returns why it would be refused."""
        is_change = kind in (RESET, RESCALE)
        reached = raw if is_change else raw + rolls * self.range
        mwh = (reached - self.raw) * unit(self.sf)
        faults = (reached < self.raw, at <= self.at, touched(self.at, at) > LONGEST, self.total + mwh > MOST_ENERGY, is_change and not -3 <= sf <= 3,
                  max(raw, after if is_change else 0) >= self.range)
        if any(faults):
            return f"it would be refused, fault {faults.index(True) + 1}"
        for start in range(self.at // 900 * 900, at, 900):
            first, last = max(self.at, start) - self.at, min(at, start + 900) - self.at
            self.rows[start] = self.rows.get(start, 0) + mwh * last // (at - self.at) - mwh * first // (at - self.at)
        self.at, self.raw, self.sf = at, after if is_change else raw, sf if is_change else self.sf
        self.total += mwh
        self.is_ended = kind == CLOSING
        return None

    def take(self, place, kind, at, raw, rolls, after, sf, is_voided):
        """Adds the next row, or returns why it is wrong there. A wrong row changes only the
        place."""
        fault = self.shape(place, kind, rolls, after, sf, is_voided) or is_voided and self.voided(at, raw, rolls)
        if not fault and kind == READING and (not is_voided or self.stands):
            fault = self.read(at, raw, rolls)
        if not fault and not is_voided:
            fault = self.book(kind, at, raw, rolls, after, sf)
        if not fault:
            self.stands = not is_voided
        self.place = place
        return fault


def within(rows, *limits):
    """Returns whether each value of some rows is in the range of its column."""
    return all(least <= value <= most for row in rows for value, (least, most) in zip(row, limits, strict=True))


def differences_of(books, next_place, installation):
    """Returns the differences of a meter, in order."""
    place, name, register, ceiling, ended, *last, total = installation
    astray = "has a row in {} with a value that none may have"
    if not is_installation(installation) or not NAME.fullmatch(register):
        return [astray.format("installations")]
    ask = lambda what: books.execute(f"SELECT {what}", (name,)).fetchall()
    told = [] if place == next_place else [f"place has {place}, the next is {next_place}"]
    ranges, voids = ask('"range" FROM ranges WHERE meter = ?'), ask("place, moment FROM voids WHERE meter = ? ORDER BY place")
    entries = ask('place, kind, moment, raw, rolls, "after", sf FROM entries WHERE meter = ? ORDER BY place')
    intervals = ask("start, mwh FROM intervals WHERE meter = ? ORDER BY start")
    for table, are_fine in (
        ("ranges", len(ranges) == 1 and within(ranges, (65536, 2**32))),
        ("voids", within(voids, (1, GREATEST_PLACE), (0, LATEST))),
        ("entries", within(entries, (1, GREATEST_PLACE), (1, 6), (0, LATEST), (0, SHOWN), (0, 255), (0, SHOWN), (-3, 3))),
        ("intervals", within(intervals, (0, LATEST), (0, MOST_ENERGY))),
    ):
        if not are_fine:
            return [*told, astray.format(table)]
    named, ((range_,),) = {it for it, _ in voids}, ranges
    first, *later = entries or [(0,) * 7]
    if first[:2] != (1, OPENING) or first[4:6] != (0, 0) or 1 in named or first[3] >= range_:
        return [*told, "is opened by no lawful entry"]
    meter = Meter(range_, ceiling, first[2], first[3], first[6])
    if cant := [f"entry {row[0]} can't come there: {fault}" for row in later if (fault := meter.take(*row, row[0] in named))]:
        return told + cant
    made = {row[0]: row[2] for row in entries}
    early = [f"void {it} at {moment(at)} is before its entry at {moment(made[it])}" for it, at in voids if at < made.get(it, 0)]
    told += early[:1]
    has, wanted = dict(intervals), meter.rows
    for start in sorted({*has, *wanted}):
        if has.get(start) != wanted.get(start):
            tells = f"has {energy(has[start])}" if start in has else "has no row"
            gives = energy(wanted[start]) if start in wanted else "none"
            told.append(f"interval {moment(start)} {tells}, entries give {gives}")
    stands = [meter.at, meter.raw, meter.sf]
    if last != stands:
        told.append(f"last has {stand(*last)}, entries give {stand(*stands)}")
    if total != meter.total:
        told.append(f"total has {energy(total)}, entries give {energy(meter.total)}")
    if ended != meter.is_ended:
        told.append("is not ended, entries end it" if meter.is_ended else "is ended, entries don't end it")
    return told


def is_installation(row):
    """Returns whether the numbers of a row of installations are in their ranges."""
    place, _, _, ceiling, ended, *last, total = row
    return within([(place, ceiling, ended, *last, total)], (1, GREATEST_PLACE), (1, 10**9), (0, 1), (0, LATEST), (0, SHOWN), (-3, 3), (0, MOST_ENERGY))


def overlaps_of(books, rows):
    """Returns the lines about meters that overlap a later meter of their register."""
    told, spans = [], []
    for row in rows:
        _, name, register, _, ended, at, *_ = row
        first = books.execute("SELECT moment FROM entries WHERE meter = ? ORDER BY place", (name,)).fetchone()
        if NAME.fullmatch(name) and NAME.fullmatch(register) and first and 0 <= first[0] <= LATEST and is_installation(row):
            spans.append((name, register, first[0], at if ended else None))
    for index, (name, register, _, closed) in enumerate(spans):
        later = [it for it in spans[index + 1 :] if it[1] == register and (closed is None or closed > it[2])]
        told += [f"register {register}: meters {name} and {later[0][0]} overlap"] if later else []
    return told


def unnamed_of(books):
    """Returns the lines about devices, points and registers without a valid name."""
    told = []
    for table, order, thing, pattern in (("devices", "place", "device", NAME), ("points", "device, place", "point", POINT), ("registers", "place", "register", NAME)):
        names = books.execute(f"SELECT name FROM {table} ORDER BY {order}").fetchall()
        told += [f"row {number} of {table} names no {thing}" for number, (name,) in enumerate(names, 1) if not pattern.fullmatch(name)]
    return told


def is_device(place, _name, unit, timeout, window):
    """Returns whether the numbers of a device are in their ranges."""
    return within([(place, unit, timeout, window)], (1, GREATEST_PLACE), (0, 255), (1, 60), (1, 16))


def is_register(place, _name, device, function, address, kind, scale):
    """Returns whether the values of an accounting register are in their ranges, and one read of at
    most 125 registers covers the counter and its scale."""
    if not NAME.fullmatch(device) or not within([(place, function, address, kind)], (1, GREATEST_PLACE), (3, 4), (0, 65534), (0, 1)):
        return False
    if kind == 0:
        return -3 <= scale <= 3
    return 0 <= scale <= 65535 and max(address + 2, scale + 1) - min(address, scale) <= 125


def unreadable_of(books):
    """Returns the lines about devices and registers with a valid name, but another value out of its range."""
    told = []
    for table, is_fine in (("devices", is_device), ("registers", is_register)):
        rows = books.execute(f"SELECT * FROM {table} ORDER BY place").fetchall()
        told += [f"{table} row {number} has a value out of its range" for number, row in enumerate(rows, 1) if NAME.fullmatch(row[1]) and not is_fine(*row)]
    return told


def is_poll(poll, unit, started, tid, function, address, count):
    """Returns whether a row of polls has valid values."""
    return within([(poll, unit, started, tid, function, address, count)], (1, GREATEST_PLACE), (0, 255), (0, LATEST), (0, 65535), (3, 4), (0, 65535), (1, min(125, 65536 - address)))


def is_outcome(poll, moment, kind, code):
    """Returns whether a row of outcomes has valid values."""
    return kind in CODES and within([(poll, moment, code)], (1, GREATEST_PLACE), (0, LATEST), CODES[kind])


def gap(least, most):
    """Returns the list of the lines about numbers that no poll has."""
    if least > most:
        return []
    return [f"poll {least} is missing" if least == most else f"polls {least} to {most} are missing"]


def order_differences(least, most, numbers):
    """Returns the differences of the numbers of polls from a sequence without gaps."""
    told = []
    for it in numbers:
        if least <= it <= most:
            told += gap(least, it - 1)
            least = it + 1
        else:
            told.append(f"poll {it} is out of order")
    return told + gap(least, most)


def poll_differences(books, before):
    """Returns the differences of polls, after so many differences before."""
    astray, number = "has a value that none may have", lambda row: row[0] if 1 <= row[0] <= GREATEST_PLACE else 0
    last = books.execute("SELECT max(poll) FROM polls").fetchone()[0] or 0
    if last > GREATEST_PLACE or last < 1 and books.execute("SELECT count(*) FROM polls").fetchone()[0]:
        return [f"poll 0 {astray}"]
    told, since = [], 0
    for first in range(1, last + 1, RUN):
        inside = (first if first > 1 else -(2**63), first + RUN - 1)
        polls = books.execute("SELECT poll, unit, started, tid, function, address, count FROM polls WHERE poll BETWEEN ? AND ? ORDER BY poll", inside).fetchall()
        outcomes = books.execute("SELECT poll, moment, outcome, code FROM outcomes WHERE poll BETWEEN ? AND ? ORDER BY poll", inside).fetchall()
        told += [f"poll {number(it)} {astray}" for it in polls if not is_poll(*it)]
        told += [f"poll {number(it)} outcome {astray}" for it in outcomes if not is_outcome(*it)]
        told += order_differences(first, min(last, inside[1]), [it[0] for it in polls if number(it)])
        for it in polls:
            if is_poll(*it):
                told += [f"poll {it[0]} starts before an earlier poll"] if it[2] < since else []
                since = max(since, it[2])
        started = {it[0]: it[2] if is_poll(*it) else 0 for it in polls}
        told += [f"poll {it[0]} outcome comes before the poll" for it in outcomes if is_outcome(*it) and it[1] < started.get(it[0], it[1] + 1)]
        if not polls and before + len(told) >= 100:
            break
    return told


def audit_of(books):
    """Returns the status of an audit, and its lines."""
    if books.execute("PRAGMA foreign_key_check").fetchone():
        return 3, []
    rows = books.execute("SELECT * FROM installations ORDER BY place").fetchall()
    told = []
    for place, row in enumerate(rows, 1):
        told += [f"meter {row[1]} {it}" for it in differences_of(books, place, row)] if NAME.fullmatch(row[1]) else [f"row {place} of installations names no meter"]
    told += overlaps_of(books, rows) + unnamed_of(books) + unreadable_of(books)
    told += poll_differences(books, len(told))
    if told:
        return 1, [*told[:100], *([f"and {len(told) - 100} more"] if len(told) > 100 else []), counted(len(told), "difference", "differences")]
    entries, intervals = (sum(books.execute(f"SELECT count(*) FROM {table} WHERE meter = ?", (row[1],)).fetchone()[0] for row in rows) for table in ("entries", "intervals"))
    polls = books.execute("SELECT count(*) FROM polls").fetchone()[0]
    counts = ((len(rows), "meter", "meters"), (entries, "entry", "entries"), (intervals, "interval", "intervals"), (polls, "poll", "polls"))
    return 0, ["fine: " + ", ".join(counted(*it) for it in counts)]


# ---- several files

# a meter in a file: its opening, and its state at the end
Filed = collections.namedtuple("Filed", "file name register range ceiling opening last total ended")


def filed_of(file, books):
    """Returns the zone of a file, and its meters."""
    meters = []
    for _, name, register, ceiling, ended, *last, total in books.execute("SELECT * FROM installations ORDER BY place").fetchall():
        (range_,) = books.execute('SELECT "range" FROM ranges WHERE meter = ?', (name,)).fetchone()
        opening = books.execute("SELECT moment, raw, sf FROM entries WHERE meter = ? AND place = 1", (name,)).fetchone()
        meters.append(Filed(file, name, register, range_, ceiling, list(opening), last, total, ended))
    return books.execute("SELECT zone FROM meta").fetchone()[0], meters


def join_of(new, known):
    """Returns the list of the lines about a meter of the next file.

    `known` has the meters of the files before it, the latest first."""
    before = [it for it in known if it.name == new.name]
    if not before:
        beyond = [it for it in known if it.register == new.register and new.opening[0] < it.last[0]]
        return [f"begins in {new.file} at {stand(*new.opening)}, meter {it.name} stands at its register in {it.file} at {stand(*it.last)}" for it in beyond[:1]]
    old = before[0]
    if old.ended:
        return [f"is in {new.file}, and was closed in {old.file}"]
    for what in ("register", "range", "ceiling"):
        if getattr(new, what) != getattr(old, what):
            return [f"{what} is {getattr(new, what)} in {new.file}, and {getattr(old, what)} in {old.file}"]
    if new.opening != old.last:
        return [f"begins in {new.file} at {stand(*new.opening)}, stands in {old.file} at {stand(*old.last)}"]
    return [f"has more energy in all files up to {new.file} than a meter may have"] if sum(it.total for it in [new, *before]) > MOST_ENERGY else []


def joins_of(files):
    """Returns the status and the lines of files that are sound by themselves.

    The files come as (name, connection), the oldest first."""
    told, known, before = [], [], None
    for file, books in files:
        zone, meters = filed_of(file, books)
        if before:
            told += [f"zone is {zone} in {file}, and {before[1]} in {before[0]}"] if zone != before[1] else []
            told += [f"meter {new.name} {it}" for new in meters for it in join_of(new, known)]
            names = {it.name for it in meters}
            told += [f"meter {old.name} is not in {file}, and is open in {old.file}" for old in before[2] if not old.ended and old.name not in names]
        known, before = meters + known, (file, zone, meters)
    if not told:
        return 0, ["joined: fine"]
    return 1, [*told[:100], *([f"and {len(told) - 100} more"] if len(told) > 100 else []), counted(len(told), "difference", "differences") + " between files"]


def audit_of_all(files):
    """Returns the status of an audit of several files, and its lines."""
    lines, are_fine = [], True
    for file, books in files:
        status, told = audit_of(books)
        lines += [f"file {file}", *told]
        if status == 3:
            return 3, lines
        are_fine = are_fine and status == 0
    if not are_fine:
        return 1, lines
    status, told = joins_of(files)
    return status, lines + told
