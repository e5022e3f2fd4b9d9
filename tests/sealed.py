"""sealed.py: computes the seal of a file, for tests/audit.py and tests/later_voids.py.

The module shares no code with sunreg. It takes the energies by month from the table `intervals`,
where sunreg takes them from the entries. Civil months are those of the C library."""
import collections
import hashlib
import os
import sqlite3
import time

KINDS = {1: "opening", 2: "reading", 3: "manual", 4: "closing", 5: "reset", 6: "rescale"}


def civil(zone, moment, form):
    """Returns a timestamp as civil time in a zone, which is a POSIX rule."""
    os.environ["TZ"] = zone
    time.tzset()
    return time.strftime(form, time.localtime(moment))


def setup_of(books):
    """Returns the lines of the zone, the devices and the registers."""
    lines = [f"zone {books.execute('SELECT zone FROM meta').fetchone()[0]}"]
    lines += [f"device {name} unit {unit}" for name, unit in books.execute("SELECT name, unit FROM devices ORDER BY place")]
    for name, device, function, address, kind, scale in books.execute("SELECT name, device, function, address, scale_kind, scale FROM registers ORDER BY place"):
        lines.append(f"register {name} at {device} function {function} address {address} {('scale', 'scale-address')[kind]} {scale}")
    return lines


def months_of(books, meter):
    """Returns the energy of a meter by civil month, in mWh."""
    zone, months = books.execute("SELECT zone FROM meta").fetchone()[0], collections.Counter()
    for start, mwh in books.execute("SELECT start, mwh FROM intervals WHERE meter = ? ORDER BY start", [meter]):
        months[civil(zone, start, "%Y-%m")] += mwh
    return dict(months)


def meter_lines(books, place, meter, register, ceiling):
    """Returns the lines of a meter."""
    (span,) = books.execute('SELECT "range" FROM ranges WHERE meter = ?', [meter]).fetchone()
    rows = books.execute('SELECT place, kind, moment, raw, "after", sf, rolls FROM entries WHERE meter = ? ORDER BY place', [meter]).fetchall()
    # (a reading has no rollovers of its own: its neighbours give them)
    text = "".join(f"{at} {KINDS[kind]} {moment} {raw} {after} {sf}" + f" {rolls}" * (kind != 2) + "\n" for at, kind, moment, raw, after, sf, rolls in rows)
    digest = hashlib.sha256(text.encode()).hexdigest()
    lines = [f"meter {meter} number {place} at {register} range {span} ceiling {ceiling} entries {len(rows)} sha256 {digest}"]
    lines += [f"void {meter} {at} at {moment}" for at, moment in books.execute("SELECT place, moment FROM voids WHERE meter = ? ORDER BY place", [meter])]
    return lines + [f"month {meter} {month} {mwh}" for month, mwh in months_of(books, meter).items()]


def poll_lines(books):
    """Returns the lines of the polls."""
    polls = books.execute("SELECT poll, device, unit, started, tid, function, address, count FROM polls ORDER BY poll").fetchall()
    outcomes = {poll: f"outcome {moment} {kind} {code}\n" for poll, moment, kind, code in books.execute("SELECT poll, moment, outcome, code FROM outcomes")}
    text = "".join(f"poll {' '.join(str(it) for it in poll)}\n{outcomes.get(poll[0], '')}" for poll in polls)
    return [f"polls {len(polls)} sha256 {hashlib.sha256(text.encode()).hexdigest()}"] + [f"pending {poll[0]}" for poll in polls if poll[0] not in outcomes]


def seal_of(db):
    """Returns the text of a file's seal."""
    books = sqlite3.connect(db)
    lines = ["seal 3"] + setup_of(books)
    for row in books.execute("SELECT place, meter, register, ceiling FROM installations ORDER BY place").fetchall():
        lines += meter_lines(books, *row)
    lines += poll_lines(books)
    books.close()
    body = "".join(f"{line}\n" for line in lines)
    return body + f"sha256 {hashlib.sha256(body.encode()).hexdigest()}\n"
