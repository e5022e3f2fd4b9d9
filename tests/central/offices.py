"""offices.py PORT SITES METERS START QUARTERS: serves mock offices for `central/collect`.

It serves the routes of `sunreg run` that collect requests, on one port; an office NAME is under
/NAME. The offices s1, s2, .. have so many meters, each with so many quarter hours from the time
START on, until the script is killed. tests/central.py has its own offices, which it changes while
they respond.
"""
import functools
import http.server
import json
import re
import sys
import time

DAY = 86400


def intervals_text(rows):
    return "".join(f"{start} {mwh}\n" for start, mwh in sorted(rows.items())) + f"end {len(rows)}\n"


def days_text(meters):
    """Returns the days, in UTC, of the rows of a register's meters; a quarter hour of two meters
    counts once."""
    days = {}
    for rows in meters:
        for start, mwh in rows.items():
            starts, energies = days.setdefault(start // DAY, (set(), []))
            starts.add(start)
            energies.append(mwh)
    lines = [f"{time.strftime('%Y-%m-%d', time.gmtime(day * DAY))} {len(of[0]):3} {sum(of[1]):24}\n" for day, of in sorted(days.items())]
    return "".join(lines) + f"end {len(lines)}\n"


class Meter:
    def __init__(self, name, register, at):
        self.name, self.register, self.opened, self.at, self.last, self.ended, self.rows = name, register, at, at, 0, False, {}

    def read(self, start, mwh):
        """Adds a reading at the end of a quarter hour."""
        self.at, self.last = start + 900, self.last + mwh
        self.rows[start] = mwh

    def told(self):
        return {
            "at": self.at, "ended": self.ended, "last": self.last % (1 << 32), "meter": self.name, "register": self.register, "sf": -3,
            "total": str(sum(self.rows.values())),
        }

    def line(self):
        """Returns the meter's line among those of its register."""
        total = sum(self.rows.values())
        return f"{self.name} {self.opened} {self.at} {self.last % (1 << 32)} -3 {total} {'ended' if self.ended else 'open'}\n"


class Office:
    """An office whose meters do not change by themselves."""

    def __init__(self):
        self.meters, self.has_site, self.has_lists, self.has_parts, self.asked = {}, True, True, True, []
        # (the energy of its meters in earlier files, and the report of `/site` about meters only of
        # those)
        self.earlier, self.only_earlier = {}, []

    def add(self, name, register, at):
        self.meters[name] = Meter(name, register, at)
        return self.meters[name]

    def of(self, register):
        return [meter for meter in self.meters.values() if meter.register == register]

    def over_files(self, meter):
        """Returns the report of `/site` about a meter."""
        told = {"device": "inv", **meter.told()}
        if meter.name in self.earlier:
            told |= {"total": str(int(told["total"]) + self.earlier[meter.name]), "earlier": str(self.earlier[meter.name])}
        return told

    def reply(self, target):
        """Returns the status and the text of a response."""
        self.asked.append(target)
        if target == "/site" and self.has_site:
            latest = {meter.register: self.over_files(meter) for meter in self.meters.values()}
            spare = {"device": "inv", "register": "spare", "meter": None}
            return 200, json.dumps({"at": int(time.time()), "registers": [*latest.values(), spare, *self.only_earlier]}, separators=(",", ":")) + "\n"
        if (found := re.fullmatch("/meters/([^/]+)", target)) and found[1] in self.meters:
            return 200, json.dumps(self.meters[found[1]].told(), separators=(",", ":"))
        if (found := re.fullmatch("/meters/([^/]+)/intervals", target)) and found[1] in self.meters:
            return 200, intervals_text(self.meters[found[1]].rows)
        if (found := re.fullmatch("/meters/([^/]+)/intervals/([0-9]+)/([0-9]+)", target)) and found[1] in self.meters and self.has_parts:
            return 200, intervals_text({start: mwh for start, mwh in self.meters[found[1]].rows.items() if int(found[2]) <= start < int(found[3])})
        if (found := re.fullmatch("/registers/([^/]+)/meters", target)) and self.of(found[1]) and self.has_lists:
            meters = self.of(found[1])
            return 200, "".join(meter.line() for meter in meters) + f"end {len(meters)}\n"
        if (found := re.fullmatch("/registers/([^/]+)/days", target)) and self.of(found[1]):
            return 200, days_text([meter.rows for meter in self.of(found[1])])
        return 404, '{"refused":1}'


class Alike:
    """One of many offices, with a meter at each of its registers, whose rows it shares with others
    of its kind."""

    def __init__(self, place, meters, start, quarters):
        self.place, self.meters, self.start, self.quarters = place, meters, start, quarters

    def kind(self, meter):
        return texts_of_kind((self.place * self.meters + meter) % 97, self.start, self.quarters)

    def reply(self, target):
        until = self.start + 900 * self.quarters
        if target == "/site":
            rows = [
                {"device": "inv", "register": f"r{k}", "meter": f"m{k}", "at": until, "last": 7, "sf": 0, "total": self.kind(k)[2], "ended": False}
                for k in range(self.meters)
            ]
            return 200, json.dumps({"at": int(time.time()), "registers": rows})
        if found := re.fullmatch("/meters/m([0-9]+)/intervals", target):
            return 200, self.kind(int(found[1]))[0]
        if found := re.fullmatch("/registers/r([0-9]+)/meters", target):
            return 200, f"m{found[1]} {self.start} {until} 7 0 {self.kind(int(found[1]))[2]} open\nend 1\n"
        if found := re.fullmatch("/registers/r([0-9]+)/days", target):
            return 200, self.kind(int(found[1]))[1]
        return 404, '{"fault":404}'


@functools.cache
def texts_of_kind(kind, start, quarters):
    """Returns the interval rows, the days and the total of a meter.

    It has some power by day and none by night, never twice the same."""
    rows = {}
    for k in range(quarters):
        of_day = (start + 900 * k) % DAY // 900
        sun = max(0, (of_day - 24) * (72 - of_day))
        rows[start + 900 * k] = sun * (1000 + 10 * kind) + (k * 7919 + kind * 104729) % 1000 * (sun > 0)
    return intervals_text(rows), days_text([rows]), str(sum(rows.values()))


class Server(http.server.ThreadingHTTPServer):
    daemon_threads, request_queue_size = True, 256

    def __init__(self, port, offices):
        super().__init__(("127.0.0.1", port), Handler)
        self.offices = offices

    def handle_error(self, request, client_address):
        """Ignores a client that was killed."""


class Handler(http.server.BaseHTTPRequestHandler):
    def do_GET(self):
        name, _, target = self.path[1:].partition("/")
        office = self.server.offices.get(name)
        status, text = office.reply("/" + target) if office else (404, '{"fault":404}')
        if status:
            body = text.encode()
            self.wfile.write(f"HTTP/1.1 {status} \r\nConnection: close\r\n\r\n".encode() + body)

    def log_message(self, *_):
        pass


if __name__ == "__main__":
    port, sites, meters, start, quarters = map(int, sys.argv[1:])
    offices = {f"s{place}": Alike(place, meters, start, quarters) for place in range(1, sites + 1)}
    for kind in range(97):
        texts_of_kind(kind, start, quarters)
    server = Server(port, offices)
    print("listening", server.server_port, flush=True)
    server.serve_forever()
