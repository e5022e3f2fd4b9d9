"""A mock of an office for page.py: it serves the files of web/ and the routes of the page.

Its data of a year are made up but exact. The office's zone is Europe/Berlin, so that its days have
92, 96 or 100 quarter hours."""
import datetime
import functools
import http.server
import json
import os
import re
import threading
import zoneinfo

WEB = os.path.join(os.path.dirname(os.path.abspath(__file__)), "..", "web")
PARTS = {
    "/": ("page.html", "text/html; charset=utf-8"),
    "/page.css": ("page.css", "text/css; charset=utf-8"),
    "/page.js": ("page.js", "text/javascript; charset=utf-8"),
    "/icon.svg": ("icon.svg", "image/svg+xml"),
}
ZONE = zoneinfo.ZoneInfo("Europe/Berlin")
# The paths of rows.
TARGET = re.compile(r"/(meters|registers)/([A-Za-z][A-Za-z0-9_-]{0,15})/(intervals|days|months|meters)(?:/([^/]+)/([^/]+))?")
# The longest name, with digits and dashes.
LONG = "a-0_1-2_3-4_5-67"


def moment(*civil):
    """Returns a time of the office's zone, in seconds since 1970-01-01 UTC."""
    return int(datetime.datetime(*civil, tzinfo=ZONE).timestamp())


NOW = moment(2026, 11, 26, 14, 5, 10)
BEGUN = moment(2025, 11, 20, 9, 0)
# (within a quarter hour, so that both meters have a part of it)
EXCHANGED = moment(2026, 6, 10, 11, 37)


@functools.cache
def civil_day(start):
    """Returns the office's day of a time."""
    return datetime.datetime.fromtimestamp(start, ZONE).date().isoformat()


def sun(start, peak):
    """Returns the energy of a quarter hour of a roof in mWh, with some mWh that no rounding keeps.

    It uses whole numbers only."""
    then = datetime.datetime.fromtimestamp(start, ZONE)
    quarter = (then.hour * 60 + then.minute) // 15
    season = 100 - abs(then.timetuple().tm_yday - 172) * 40 // 100
    wide = 16 + season // 7
    part = max(0, wide * wide - (quarter - 50) ** 2) * 1000 // (wide * wide)
    cloud = 60 + (start // 900 * 7919 + start // 86400 * 104729) % 41
    return peak * part // 1000 * season // 100 * cloud // 100 + (start // 900 % 7 if part else 0)


def load(start, base):
    """Returns the load of a house."""
    then = datetime.datetime.fromtimestamp(start, ZONE)
    return base + (start // 900 * 6553) % 37_001 + (90_000 if then.hour in (7, 12, 18, 19) else 0)


class Meter:
    """A meter at a register, with its rows by quarter hour."""

    def __init__(self, name, register, begun, ended, energy):
        self.name, self.register, self.begun, self.ended = name, register, begun, ended
        part = lambda start: min(start + 900, ended) - max(start, begun)
        self.rows = [(start, energy(start) * part(start) // 900) for start in range(begun // 900 * 900, ended, 900)]

    @property
    def total(self):
        return sum(mwh for _, mwh in self.rows)


def number(word):
    """Returns a number of 1 to 19 digits."""
    if not re.fullmatch("[0-9]{1,19}", word):
        raise ValueError(word)
    return int(word)


def day(word):
    """Returns a day of the calendar."""
    if not re.fullmatch("[0-9]{4}-[0-9]{2}-[0-9]{2}", word):
        raise ValueError(word)
    # (Python has no year 0000; its calendar is that of 2000)
    datetime.date.fromisoformat(word.replace("0000-", "2000-"))
    return word


def intervals_of(meters, from_, till):
    """Returns the rows of meters that start at or after a time, and before another."""
    return [f"{start} {mwh}" for it in meters for start, mwh in it.rows if from_ <= start < till]


def months_of(days):
    """Returns the rows of days, added up by month."""
    found = {}
    for name, (count, mwh) in days.items():
        before = found.get(name[:7], (0, 0))
        found[name[:7]] = (before[0] + count, before[1] + mwh)
    return found


def lines_of(rows, wide, first="", end="~"):
    """Returns rows as lines, from a first one on, and before an end."""
    if end < first:
        raise ValueError(end)
    return [f"{name} {count:{wide}} {mwh:24}" for name, (count, mwh) in rows.items() if first <= name < end]


class Office:
    """The data of the office, and the faults of its responses."""

    def __init__(self):
        until = NOW // 900 * 900 + 900
        self.now = NOW
        self.meters = [
            Meter("m1", "main", BEGUN, EXCHANGED, lambda it: sun(it, 900_000)),
            Meter("m2", "main", EXCHANGED, until, lambda it: sun(it, 900_000)),
            Meter("m-old", "old", moment(2026, 1, 5), moment(2026, 2, 3, 10, 30), lambda it: load(it, 50_000)),
            Meter("m-house", "import", moment(2026, 10, 1), moment(2026, 11, 26, 9, 15), lambda it: load(it, 80_001)),
            Meter("b-9_8-7_6-5_4-32", LONG, moment(2026, 3, 1), until, lambda it: sun(it, 123_457)),
        ]
        # An invalid name, for another register; and what the register "old" has instead of its own
        # rows.
        self.strange, self.great = None, {}
        self.at = {"old": moment(2026, 2, 3, 10, 29), "main": NOW - 70, "import": moment(2026, 11, 26, 9, 14), LONG: NOW - 70}
        self.held = {name: 0 for name in ("not_accumulated", "scale_changed", "not_later", "span_too_long")}
        self.held |= {"gap_too_long": 0, "too_fast": 3, "total_full": 0, "not_below_range": 1}
        self.lacks = [{"device": "roof-2", "lack": "no_meter", "register": "export"}, {"device": "attic", "lack": "no_device"}]
        # Paths whose texts lack their end, or a row that the end counts; paths that are refused;
        # and the requests.
        self.cut, self.short, self.failing, self.log = set(), set(), {}, []

    def of_register(self, register):
        return [it for it in self.meters if it.register == register]

    def days(self, register):
        """Returns the rows of a register by civil days of the office: day, number of quarter hours,
        mWh."""
        found, seen = {}, set()
        for meter in self.of_register(register):
            for start, mwh in meter.rows:
                day = civil_day(start)
                count, sum_ = found.get(day, (0, 0))
                found[day] = (count + (start not in seen), sum_ + mwh)
                seen.add(start)
        return {day: found[day] for day in sorted(found)}

    def last_of(self, meter):
        """Returns the time, the counter and the scale of a meter's last entry, and whether it
        closed the meter."""
        register, scale = meter.register, 2 if meter.register == "old" else 0
        is_latest = meter is self.of_register(register)[-1]
        at = self.at[register] if is_latest else meter.ended
        return at, (5000 + meter.total // 1000) // 10**scale, scale, register == "old" or not is_latest

    def meter_lines(self, register):
        """Returns the meters of a register, as lines."""
        lines = []
        for it in self.of_register(register):
            at, raw, scale, ended = self.last_of(it)
            lines.append(f"{it.name} {it.begun} {at} {raw} {scale} {it.total} {'ended' if ended else 'open'}")
        return lines

    def site(self):
        rows = []
        for device, register in (("grid", "import"), ("grid", "old"), ("inv", "main"), ("inv", LONG), ("roof-2", "export")):
            meters = self.of_register(register)
            if meters:
                at, last, scale, ended = self.last_of(meters[-1])
                rows.append({
                    "device": device, "register": register, "meter": meters[-1].name, "at": at,
                    "last": last, "sf": scale, "total": str(meters[-1].total), "ended": ended,
                })
            else:
                rows.append({"device": device, "register": register, "meter": None})
        rows[1] |= self.great
        if self.strange:
            rows.append(rows[-2] | {"device": self.strange, "register": self.strange, "meter": self.strange})
        return {"at": self.now, "registers": rows}

    def status(self):
        return {
            "devices": [
                {"name": "attic", "connected": False, "last_reading": None},
                {"name": "barn", "connected": False, "last_reading": self.now - 725},
                {"name": "grid", "connected": False, "last_reading": self.at["import"]},
                {"name": "inv", "connected": True, "last_reading": self.at["main"]},
                {"name": "roof-2", "connected": False, "last_reading": None},
            ],
            "polls": {"answered": 40211, "exception": 0, "silent": 290, "malformed": 2, "lost": 0},
            "readings": 40103, "held": self.held, "refusals": 2, "lacks": self.lacks,
        }

    def reply(self, path):
        """Returns the status, the type and the text of a response."""
        if path in self.failing:
            return self.failing[path], "application/json", json.dumps({"refused": 13}, separators=(",", ":"))
        if path in PARTS:
            name, kind = PARTS[path]
            with open(os.path.join(WEB, name), encoding="utf-8") as file:
                return 200, kind, file.read()
        if path in ("/site", "/status"):
            told = self.site() if path == "/site" else self.status()
            whole = json.dumps(told, separators=(",", ":")) + "\n"
            return 200, "application/json", whole[:-10] if path in self.cut else whole
        found = TARGET.fullmatch(path)
        match found.groups() if found else []:
            case ["meters", name, "intervals", str(first), str(end)]:
                of, rows = [it for it in self.meters if it.name == name], lambda: intervals_of(of, number(first), number(end))
            case ["registers", name, "days", str(first), str(end)]:
                of, rows = self.of_register(name), lambda: lines_of(self.days(name), 3, day(first), day(end))
            case ["registers", name, "months", None, None]:
                of, rows = self.of_register(name), lambda: lines_of(months_of(self.days(name)), 4)
            case ["registers", name, "meters", None, None]:
                of, rows = self.of_register(name), lambda: self.meter_lines(name)
            case _:
                return 404, "application/json", '{"fault":404}'
        try:
            text = rows()
        except ValueError:
            return 400, "application/json", '{"fault":400}'
        if not of:
            return 404, "application/json", '{"refused":1}'
        end = [] if path in self.cut else [f"end {len(text)}"]
        return 200, "text/plain", "".join(f"{line}\n" for line in [*text[path in self.short :], *end])


def handler(office):
    class Handler(http.server.BaseHTTPRequestHandler):
        def do_GET(self):
            office.log.append(self.path)
            code, kind, text = office.reply(self.path)
            body = text.encode()
            self.send_response(code)
            self.send_header("X-Content-Type-Options", "nosniff")
            self.send_header("Cross-Origin-Resource-Policy", "same-origin")
            if self.path not in PARTS:
                self.send_header("Cache-Control", "no-store")
            self.send_header("Content-Type", kind)
            self.send_header("Content-Length", str(len(body)))
            self.send_header("Connection", "close")
            if self.path in PARTS:
                self.send_header("Content-Security-Policy", "default-src 'self'; frame-ancestors 'none'")
                self.send_header("Cache-Control", "no-cache")
            self.end_headers()
            self.wfile.write(body)

        def log_message(self, *words):
            pass

    return Handler


class Server:
    """The office's server, which can be stopped and started again at its port."""

    def __init__(self, office, port=0):
        self.office, self.port, self.http = office, port, None
        self.start()

    def start(self):
        self.http = http.server.ThreadingHTTPServer(("127.0.0.1", self.port), handler(self.office))
        self.port = self.http.server_address[1]
        threading.Thread(target=self.http.serve_forever, args=(0.05,), daemon=True).start()

    def stop(self):
        self.http.shutdown()
        self.http.server_close()
