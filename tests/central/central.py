"""central.py ROOM PROGRAM POSTGRES: runs the checks of tests/central.sh.

PROGRAM is the built program or '', POSTGRES the folder of PostgreSQL's programs or ''."""
import atexit
import base64
import contextlib
import datetime
import decimal
import http.server
import importlib.machinery
import importlib.util
import json
import os
import pathlib
import random
import re
import signal
import socket
import sqlite3
import ssl
import struct
import subprocess
import sys
import threading
import time
import urllib.error
import urllib.parse
import urllib.request

import offices as mock

ROOM, PROGRAM, POSTGRES = sys.argv[1:]
HERE = pathlib.Path(__file__).resolve().parent
CENTRAL = HERE.parent.parent / "central"
SITES, METERS = int(os.environ.get("CENTRAL_SITES", "300")), 30
SEED = int(os.environ.get("CENTRAL_SEED", "0")) or random.randrange(1, 1 << 32)
NOVEMBER = int(datetime.datetime(2026, 11, 1, tzinfo=datetime.timezone.utc).timestamp())
CHILDREN = []
passed = failed = 0


def end():
    for file in pathlib.Path(ROOM).glob("postgres/data/postmaster.pid"):
        with contextlib.suppress(OSError, ValueError):
            os.kill(int(file.read_text().split()[0]), signal.SIGINT)
    for child in CHILDREN:
        with contextlib.suppress(ProcessLookupError):
            child.kill()
    for child in CHILDREN:
        child.wait()


atexit.register(end)
signal.signal(signal.SIGTERM, lambda *_: sys.exit(143))


def holds(what, is_so, got=""):
    """Counts whether a condition holds."""
    global passed, failed
    if is_so:
        passed += 1
    else:
        failed += 1
        print(f"{what}: {str(got)[:2000]}", flush=True)


def same(what, got, wanted):
    holds(what, got == wanted, f"{got!r}\nand not {wanted!r}")


def free_port():
    with socket.create_server(("127.0.0.1", 0)) as listener:
        return listener.getsockname()[1]


def get(url):
    with urllib.request.urlopen(url, timeout=30) as reply:
        return reply.read().decode()


class Shard:
    """A server of ClickHouse with its own files."""

    def __init__(self, name, ports, cluster):
        self.http, self.tcp, peers = ports
        self.room = f"{ROOM}/{name}"
        os.makedirs(f"{self.room}/config.d")
        self.write("config.d/cluster.xml", cluster)
        self.write("config.xml", f"""<?xml version="1.0"?>
            <yandex>
                <logger><level>warning</level><log>{self.room}/log</log><errorlog>{self.room}/errors</errorlog></logger>
                <listen_host>127.0.0.1</listen_host><interserver_http_host>127.0.0.1</interserver_http_host>
                <http_port>{self.http}</http_port><tcp_port>{self.tcp}</tcp_port><interserver_http_port>{peers}</interserver_http_port>
                <path>{self.room}/data/</path><tmp_path>{self.room}/tmp/</tmp_path>
                <mark_cache_size>268435456</mark_cache_size><uncompressed_cache_size>0</uncompressed_cache_size>
                <users_config>users.xml</users_config><default_profile>default</default_profile><default_database>default</default_database>
            </yandex>""")
        self.write("users.xml", """<?xml version="1.0"?>
            <yandex>
                <profiles><default><max_memory_usage>4000000000</max_memory_usage></default></profiles>
                <users><default>
                    <password></password><networks><ip>127.0.0.1</ip></networks><profile>default</profile><quota>default</quota>
                </default></users>
                <quotas><default></default></quotas>
            </yandex>""")
        self.child = None

    def write(self, name, text):
        with open(f"{self.room}/{name}", "w") as file:
            file.write(text)

    def start(self):
        with open(f"{self.room}/out", "a") as out:
            words = ["clickhouse-server", f"--config-file={self.room}/config.xml"]
            self.child = subprocess.Popen(words, stdout=out, stderr=out, stdin=subprocess.DEVNULL)
        CHILDREN.append(self.child)
        until = time.time() + 60
        while time.time() < until:
            with contextlib.suppress(OSError):
                return get(f"http://127.0.0.1:{self.http}/ping")
            time.sleep(0.1)
        raise SystemExit(f"central.py: clickhouse-server doesn't answer: {open(f'{self.room}/out').read()[-500:]}")

    def kill(self):
        self.child.kill()
        self.child.wait()
        CHILDREN.remove(self.child)

    def ask(self, query):
        url = f"http://127.0.0.1:{self.http}/?wait_end_of_query=1"
        try:
            with urllib.request.urlopen(url, data=query.encode(), timeout=600) as reply:
                return reply.read().decode()
        except urllib.error.HTTPError as fault:
            raise SystemExit(f"central.py: {query[:200]}: {fault.read().decode()[:500]}") from None

    def lines(self, query):
        return self.ask(query).splitlines()


class Shards:
    """A cluster of so many shards, made by cluster.xml and tables.sql."""

    def __init__(self, name, count):
        ports = [(free_port(), free_port(), free_port()) for _ in range(count)]
        text = (CENTRAL / "cluster.xml").read_text()
        text, rest = text.split("<shard><replica><host>shard1", 1)
        shards = "".join(f"<shard><replica><host>127.0.0.1</host><port>{tcp}</port></replica></shard>" for _, tcp, _ in ports)
        text += shards + rest[rest.index("</energy>"):]
        self.all = [Shard(f"{name}{place}", of, text) for place, of in enumerate(ports, 1)]
        for shard in self.all:
            shard.start()
        for _twice in range(2):
            for shard in self.all:
                words = ["clickhouse-client", "--port", str(shard.tcp), "-n"]
                done = subprocess.run(words, stdin=open(CENTRAL / "tables.sql"), capture_output=True, text=True)
                same("tables are made", (done.returncode, done.stderr), (0, ""))
        self.one = self.all[0]

    def lines(self, query):
        return self.one.lines(query)

    def collect(self, list_file, *words, engine=None):
        """Returns the status of a copy, and its output."""
        done = subprocess.run([*self.words(list_file, engine), *words], capture_output=True, text=True, timeout=3600)
        return done.returncode, done.stdout.splitlines(), done.stderr.splitlines()

    def words(self, list_file, engine=None):
        return [str(CENTRAL / "collect"), "--engine", f"http://127.0.0.1:{(engine or self.one).http}", list_file]

    def energy(self):
        """Returns all rows and days, as the views over all shards have them."""
        rows = set(self.lines("SELECT site, meter, start, mwh FROM energy.meter_quarters"))
        return rows, set(self.lines("SELECT site, register, day, quarters, mwh FROM energy.register_days"))

    def stop(self):
        for shard in self.all:
            shard.kill()


def energy_of(sites):
    """Returns all rows and days of the offices, by their URLs, meters and registers."""
    rows, days = set(), set()
    for site, (url, meters, registers) in sites.items():
        for meter in meters:
            lines = get(f"{url}/meters/{meter}/intervals").splitlines()
            rows.update(f"{site}\t{meter}\t" + line.replace(" ", "\t") for line in lines[:-1])
            same(f"all rows of {meter}", lines[-1], f"end {len(lines) - 1}")
        for register in registers:
            lines = get(f"{url}/registers/{register}/days").splitlines()
            days.update("\t".join([site, register, *line.split()]) for line in lines[:-1])
    return rows, days


def compare(what, shards, sites, but=()):
    """Compares the copy with the offices, row by row, except for these pairs of a site and its
    meter or register."""
    for name, got, wanted in zip(("rows", "days"), shards.energy(), energy_of(sites)):
        got, wanted = ({row for row in some if tuple(row.split("\t")[:2]) not in but} for some in (got, wanted))
        differ = sorted(got ^ wanted)[:6]
        holds(f"{what}: {name}", got == wanted and wanted, [("not copied" if it in wanted else "is no more", it) for it in differ])


def write_list(name, sites):
    with open(f"{ROOM}/{name}", "w") as file:
        file.write("# sites\n\n" + "".join(f"{site} {url} {' '.join(meters)}\n" for site, (url, meters) in sites.items()))
    return f"{ROOM}/{name}"


class Mocks:
    """Mock offices on a port of this process."""

    def __init__(self, names):
        self.offices = {name: mock.Office() for name in names}
        self.server = mock.Server(0, self.offices)
        self.port = self.server.server_port
        threading.Thread(target=self.server.serve_forever, daemon=True).start()

    def url(self, name):
        return f"http://127.0.0.1:{self.port}/{name}"

    def sites(self):
        return {name: (self.url(name), list(of.meters), {meter.register for meter in of.meters.values()}) for name, of in self.offices.items()}


def filled(office, quarters):
    for register in ("main", "roof"):
        meter = office.add(f"{register}-1", register, NOVEMBER)
        for k in range(quarters):
            meter.read(NOVEMBER + 900 * k, (k * 7919 + len(register)) % 250_000)


def copies_what_changed(shards):
    """Copies after each kind of event at an office."""
    mocks = Mocks(["north", "south", "west.1"])
    for office in mocks.offices.values():
        filled(office, 200)
    north, south = mocks.offices["north"], mocks.offices["south"]
    sites = write_list("three", {name: (mocks.url(name), []) for name in mocks.offices})
    copy = lambda *words: shards.collect(sites, *words)
    status, said, faults = copy()
    same("a first copy", (status, sorted(said), faults), (0, sorted([*(f"{name} 2 meters 400 rows 6 days" for name in mocks.offices), "3 sites 0 failed 6 meters 1200 rows 18 days"]), []))
    compare("a first copy", shards, mocks.sites())
    same("nothing is new", copy(), (0, ["3 sites 0 failed 0 meters 0 rows 0 days"], []))
    north.asked.clear()
    copy()
    same("what is as it was isn't asked", north.asked, ["/site"])
    status, said, faults = copy("--whole")
    same("all is read again, and nothing is new", (status, said[-1], faults), (0, "3 sites 0 failed 6 meters 0 rows 0 days", []))
    north.meters["main-1"].read(NOVEMBER + 900 * 200, 77)
    same("a reading more", copy(), (0, ["north 1 meters 1 rows 1 days", "3 sites 0 failed 1 meters 1 rows 1 days"], []))
    compare("a reading more", shards, mocks.sites())
    # a void of the last reading removes its row, and if that is a day's last row, also the day
    meter = north.add("new-1", "new", NOVEMBER)
    meter.read(NOVEMBER + 86400 - 900, 5)
    meter.read(NOVEMBER + 86400, 6)
    copy()
    compare("a meter more", shards, mocks.sites())
    del meter.rows[NOVEMBER + 86400]
    meter.at, meter.last = NOVEMBER + 86400, 5
    same("a void of the last reading", copy(), (0, ["north 1 meters 1 rows 1 days", "3 sites 0 failed 1 meters 1 rows 1 days"], []))
    compare("a void of the last reading", shards, mocks.sites())
    meter.read(NOVEMBER + 86400, 9)
    copy()
    compare("a row that comes again", shards, mocks.sites())
    # a void between two readings, which distributes the same energy again: the office's /site
    # reports the same as before
    rows = south.meters["roof-1"].rows
    moved = rows.pop(NOVEMBER + 900 * 40)
    rows[NOVEMBER + 900 * 41] += moved
    same("a void between two readings isn't told", copy()[1], ["3 sites 0 failed 0 meters 0 rows 0 days"])
    status, said, faults = copy("--whole", "south")
    same("but found where all is read", (status, said), (0, ["south 2 meters 2 rows 1 days", "1 sites 0 failed 2 meters 2 rows 1 days"]))
    compare("a void between two readings", shards, mocks.sites())
    rows[NOVEMBER + 900 * 41] -= 1
    rows[NOVEMBER + 900 * 42] += 1
    south.meters["roof-1"].read(NOVEMBER + 900 * 200, 0)
    same("and with the next reading", copy()[1], ["south 1 meters 3 rows 1 days", "3 sites 0 failed 1 meters 3 rows 1 days"])
    compare("a void between two readings, and a reading", shards, mocks.sites())
    # a replaced meter: /site reports the latest meter, which is new here, so collect requests all
    # meters of that register
    south.meters["main-1"].read(NOVEMBER + 900 * 200, 40)
    south.meters["main-1"].ended = True
    south.add("main-2", "main", NOVEMBER + 900 * 201).read(NOVEMBER + 900 * 201, 50)
    south.asked.clear()
    same("an exchange", copy()[1], ["south 2 meters 2 rows 1 days", "3 sites 0 failed 2 meters 2 rows 1 days"])
    compare("an exchange", shards, mocks.sites())
    same("only that register's meters are asked for", lists_of(south), ["/registers/main/meters"])
    south.asked.clear()
    copy()
    same("a closed meter isn't asked again", south.asked, ["/site"])
    south.meters["main-2"].read(NOVEMBER + 900 * 202, 1)
    south.asked.clear()
    same("a reading of the latest", copy()[1], ["south 1 meters 1 rows 1 days", "3 sites 0 failed 1 meters 1 rows 1 days"])
    same("and nobody asks for the others", lists_of(south), [])
    same("nothing differs", shards.lines("SELECT * FROM energy.differences"), [])
    takes_all_meters(shards, mocks, copy)
    # an office without /site, such as `sunreg serve`
    north.has_site = False
    north.meters["roof-1"].read(NOVEMBER + 900 * 200, 8)
    same("an office without /site, of known meters", copy()[1], ["north 1 meters 1 rows 1 days", "3 sites 0 failed 1 meters 1 rows 1 days"])
    compare("an office without /site", shards, mocks.sites())
    # an office that changes between two requests
    north.has_site = True
    before = north.reply
    north.meters["main-1"].read(NOVEMBER + 900 * 201, 1)

    def going_on(target):
        if "/intervals" in target and north.meters["main-1"].at < NOVEMBER + 900 * 204:
            north.meters["main-1"].read(north.meters["main-1"].at, 3)
        return before(target)

    north.reply = going_on
    copy()
    compare("an office that goes on while it is asked", shards, mocks.sites())
    same("nothing differs then", shards.lines("SELECT * FROM energy.differences"), [])
    north.reply = lambda target: (north.meters["main-1"].read(north.meters["main-1"].at, 3) if "main" in target else None, before(target))[1]
    north.meters["main-1"].read(north.meters["main-1"].at, 3)
    copy()
    north.reply = before
    copy()
    compare("an office that never stood still", shards, mocks.sites())
    # merged or not, the views have the same rows
    for shard in shards.all:
        for table in ("intervals_here", "days_here", "meters_here"):
            shard.ask(f"OPTIMIZE TABLE energy.{table} FINAL")
    compare("merged", shards, mocks.sites())
    same("nothing differs, merged", shards.lines("SELECT * FROM energy.differences"), [])
    sums(shards, mocks)
    return mocks


def lists_of(office):
    """Returns the registers whose meters were requested, each as often as it was requested."""
    return [it for it in office.asked if it.endswith("/meters")]


def exchanged(office, names, start):
    """Replaces a register's meter several times; each meter has a reading of the quarter hour from
    a time on."""
    for place, name in enumerate(names):
        office.of("main")[-1].ended = True
        office.add(name, "main", start + 900 * place).read(start + 900 * place, 60 + place)


def takes_all_meters(shards, mocks, copy):
    """Replaced meters that /site never reported are copied, and need not be named."""
    south, nothing = mocks.offices["south"], ["3 sites 0 failed 0 meters 0 rows 0 days"]
    exchanged(south, ["main-3", "main-4"], NOVEMBER + 900 * 203)
    south.asked.clear()
    same("two exchanges between two copies", copy()[1], ["south 3 meters 2 rows 1 days", "3 sites 0 failed 3 meters 2 rows 1 days"])
    compare("two exchanges between two copies", shards, mocks.sites())
    same("the meters are asked for once", lists_of(south), ["/registers/main/meters"])
    same("and nothing differs", shards.lines("SELECT * FROM energy.differences"), [])
    # a meter and its register both end before any copy
    south.add("late-1", "late", NOVEMBER).read(NOVEMBER, 5)
    south.meters["late-1"].ended = True
    south.add("late-2", "late", NOVEMBER + 900).read(NOVEMBER + 900, 6)
    south.meters["late-2"].ended = True
    same("a register of closed meters", copy()[1], ["south 2 meters 2 rows 1 days", "3 sites 0 failed 2 meters 2 rows 1 days"])
    compare("a register of closed meters", shards, mocks.sites())
    same("is as it was", copy()[1], nothing)
    # a void of a closed meter removes energy: its register's next reading shows it
    row = south.meters["main-3"].rows
    row[NOVEMBER + 900 * 203] -= 9
    same("a void of a closed meter isn't told", copy()[1], nothing)
    south.meters["main-4"].read(NOVEMBER + 900 * 205, 2)
    south.asked.clear()
    same("but with its register's next reading", copy()[1], ["south 2 meters 2 rows 1 days", "3 sites 0 failed 2 meters 2 rows 1 days"])
    compare("a void of a closed meter", shards, mocks.sites())
    same("which asks for its meters once", lists_of(south), ["/registers/main/meters"])
    row[NOVEMBER + 900 * 203] -= 1
    same("or where all is read", copy("--whole", "south")[1][0], "south 7 meters 1 rows 1 days")
    compare("a void of a closed meter, and all is read", shards, mocks.sites())
    south.asked.clear()
    copy("--whole", "south")
    same("then each register's meters are asked for once", lists_of(south), [f"/registers/{it}/meters" for it in ("main", "roof", "late")])
    # an office that reports only the latest meters, and then, by a later program, all of them
    south.has_lists = False
    exchanged(south, ["main-5", "main-6"], NOVEMBER + 900 * 206)
    copy()
    days, kept = (sum(sum(of.rows.values()) for of in south.of("main") if of.name != name) for name in ("", "main-5"))
    differs = [f"south\tmain\t\tdays\t{days}\t{kept}"]
    same("a meter that nobody named", shards.lines("SELECT * FROM energy.differences"), differs)
    status, said, faults = shards.collect(write_list("named", {"south": (mocks.url("south"), ["main-5"])}))
    same("is copied once it is named", (status, said, faults), (0, ["south 1 meters 1 rows 0 days", "1 sites 0 failed 1 meters 1 rows 0 days"], []))
    same("and nothing differs then", shards.lines("SELECT * FROM energy.differences"), [])
    compare("a meter that was named", shards, mocks.sites())
    exchanged(south, ["main-7", "main-8"], NOVEMBER + 900 * 208)
    copy()
    south.has_lists = True
    same("nothing new shows it", copy()[1], nothing)
    south.meters["main-8"].read(NOVEMBER + 900 * 210, 3)
    same("the register's next reading does", copy()[1], ["south 2 meters 2 rows 1 days", "3 sites 0 failed 2 meters 2 rows 1 days"])
    compare("an office that tells all meters since", shards, mocks.sites())
    same("and nothing differs behind that", shards.lines("SELECT * FROM energy.differences"), [])


def sums(shards, mocks):
    """The views by day and month, and the bill, equal Python's own sums."""
    registers, of_site = {}, {}
    for site, office in mocks.offices.items():
        for meter in office.meters.values():
            for start, mwh in meter.rows.items():
                day = time.strftime("%Y-%m-%d", time.gmtime(start))
                of = registers.setdefault((site, meter.register), {}).setdefault(day, [set(), 0])
                of[0].add(start)
                of[1] += mwh
    bill = []
    for (site, register), days in sorted(registers.items()):
        quarters, mwh = (sum(it) for it in zip(*((len(of[0]), of[1]) for of in days.values())))
        bill.append(f"{site}\t{register}\t{len(days)}\t{quarters}\t{decimal.Decimal(mwh).scaleb(-6):.6f}")
        of_site.setdefault(site, [0, 0])
        of_site[site][0] += 1
        of_site[site][1] += mwh
    text = (CENTRAL / "bill.sql").read_text()
    run = lambda query: subprocess.run(["clickhouse-client", "--port", str(shards.one.tcp)], input=query, capture_output=True, text=True).stdout.splitlines()
    got = run(text)
    same("the month's bill", [plain(line) for line in got], [plain(line) for line in bill])
    same("the bill of another month", run(text.replace("2026-11", "2026-12")), [])
    same("a site's month", sorted(shards.lines("SELECT site, month, registers, mwh FROM energy.site_months")), sorted(f"{site}\t2026-11-01\t{count}\t{mwh}" for site, (count, mwh) in of_site.items()))
    wanted = sorted(f"{site}\t{register}\t2026-11-01\t{sum(of[1] for of in days.values())}" for (site, register), days in registers.items())
    same("a register's month", sorted(shards.lines("SELECT site, register, month, mwh FROM energy.register_months")), wanted)
    by_day = {}
    for (site, _), days in registers.items():
        for day, of in days.items():
            by_day[site, day] = by_day.get((site, day), 0) + of[1]
    same("a site's days", sorted(shards.lines("SELECT site, day, mwh FROM energy.site_days")), sorted(f"{site}\t{day}\t{mwh}" for (site, day), mwh in by_day.items()))
    line = shards.lines("SELECT quarter, mwh FROM energy.meter_quarters WHERE site = 'north' AND meter = 'main-1' ORDER BY start LIMIT 2")
    same("a quarter hour", line, ["2026-11-01 00:00:00\t4", "2026-11-01 00:15:00\t7923"])


def plain(line):
    """Returns a line of a bill without zeros at the end of its kWh."""
    *words, kwh = line.split("\t")
    return [*words, decimal.Decimal(kwh)]


def reads_a_part(shards):
    """Of a meter with a long history, only the last rows are requested, and all if the last rows do
    not show what happened."""
    mocks = Mocks(["west"])
    office = mocks.offices["west"]
    filled(office, 60 * 96)
    sites = write_list("far", {"west": (mocks.url("west"), [])})
    copy = lambda *words: shards.collect(sites, *words)
    copy()
    compare("two months", shards, mocks.sites())
    meter, rows = office.meters["main-1"], office.meters["main-1"].rows
    end = meter.at
    of_part = f"/meters/main-1/intervals/{end - 35 * 86400}/{1 << 32}"
    of_all = "/meters/main-1/intervals"

    def copied(what, wanted, asked):
        office.asked.clear()
        same(what, copy()[1][0], wanted)
        same(f"{what}: it is asked for", [it for it in office.asked if "intervals" in it], asked)

    meter.read(end, 7)
    copied("a reading behind two months", "west 1 meters 1 rows 1 days", [of_part])
    compare("a reading behind two months", shards, mocks.sites())
    # the last readings are voided: the office reports an earlier entry than at the last copy
    for start in (end, end - 900):
        meter.last -= rows.pop(start)
    meter.at = end - 900
    copied("voids of the last readings", "west 1 meters 2 rows 2 days", [f"/meters/main-1/intervals/{end - 900 - 35 * 86400}/{1 << 32}"])
    compare("voids of the last readings", shards, mocks.sites())
    # voids between readings: of the last weeks, and of the first day
    rows[end - 900 * 96] += rows.pop(end - 900 * 97)
    meter.read(end - 900, 3)
    copied("a void of the last weeks", "west 1 meters 3 rows 2 days", [f"/meters/main-1/intervals/{end - 900 - 35 * 86400}/{1 << 32}"])
    compare("a void of the last weeks", shards, mocks.sites())
    rows[NOVEMBER + 86400] += rows.pop(NOVEMBER + 86400 - 900)
    meter.read(end, 5)
    copied("a void of the first day, which moves energy into the second", "west 1 meters 3 rows 3 days", [of_part, of_all])
    compare("a void of the first day", shards, mocks.sites())
    rows[NOVEMBER + 900 * 8] += 1
    rows[NOVEMBER + 900 * 9] -= 1
    meter.read(end + 900, 5)
    copied("a void within the first day isn't seen", "west 1 meters 1 rows 1 days", [f"/meters/main-1/intervals/{end + 900 - 35 * 86400}/{1 << 32}"])
    same("but found where all is read", copy("--whole")[1][0], "west 2 meters 2 rows 0 days")
    compare("a void within the first day", shards, mocks.sites())
    # a correction long ago that has another total
    meter.last += 40
    rows[NOVEMBER + 900 * 8] += 40
    copied("another total long ago", "west 1 meters 1 rows 1 days", [f"/meters/main-1/intervals/{end + 1800 - 35 * 86400}/{1 << 32}", of_all])
    compare("another total long ago", shards, mocks.sites())
    office.has_parts = False
    meter.read(end + 1800, 5)
    copied("an office that tells no part", "west 1 meters 1 rows 1 days", [f"/meters/main-1/intervals/{end + 1800 - 35 * 86400}/{1 << 32}", of_all])
    office.has_parts = True
    compare("an office that tells no part", shards, mocks.sites())
    same("nothing differs behind parts", shards.lines("SELECT * FROM energy.differences"), [])


def keeps_files_before(shards):
    """An office continues in a new file, as `carry` makes it.

    The copy of the earlier file stays, and the new one is copied under another name."""
    mocks = Mocks(["east"])
    office = mocks.offices["east"]
    filled(office, 300)
    sites = write_list("east", {"east": (mocks.url("east"), [])})
    copy = lambda *words: shards.collect(sites, *words)
    copy()
    compare("a file", shards, mocks.sites())
    kept, end = shards.energy(), office.meters["main-1"].at

    def begun(at, quarters):
        """Returns a new file, of meters that were carried at a time, and as many quarter hours
        since."""
        mocks.offices["east"] = new = mock.Office()
        for register in ("main", "roof"):
            meter = new.add(f"{register}-1", register, at)
            for k in range(quarters):
                meter.read(at - at % 900 + 900 * k, 50 + k)
        return new

    for what, at, quarters, words in (
        ("a new file", end, 4, []), ("one whose total is the old one's, and more", end, 3000, []), ("one that was begun within a quarter hour", end - 400, 2, []), ("a new file, and all is read", end, 4, ["--whole"]),
    ):
        begun(at, quarters)
        status, said, faults = copy(*words)
        wanted = [f"collect: east: the meter main-1 begins at {at} in a new file of its office: give that another name in LIST from there on"]
        same(what, (status, said, faults), (1, ["1 sites 1 failed 0 meters 0 rows 0 days"], wanted))
        same(f"{what}: what was copied stays", shards.energy() == kept, True)
    new = begun(end, 4)
    new.has_lists = True
    mocks.offices["east-2"] = mocks.offices.pop("east")
    later = write_list("east-2", {"east-2": (mocks.url("east-2"), [])})
    same("a new file under another name", shards.collect(later)[::2], (0, []))
    both = {"east-2": mocks.sites()["east-2"]}
    rows, days = (sorted(set(got) - set(of)) for got, of in zip(shards.energy(), kept))
    same("its rows stand beside", (rows, days), tuple(sorted(of) for of in energy_of(both)))


def copies_the_current_file(shards):
    """A run reports energy over earlier files, too.

    The copy of its meters is that of the current file, and a meter only of earlier files is not
    copied."""
    mocks = Mocks(["over"])
    office = mocks.offices["over"]
    filled(office, 96)
    office.earlier = {"main-1": 1000, "roof-1": 0}
    office.only_earlier = [{"device": "inv", "register": "old", "meter": "old-1", "at": NOVEMBER, "last": 7, "sf": 0, "total": "5", "earlier": "5", "ended": True}]
    sites = write_list("over", {"over": (mocks.url("over"), [])})
    same("a run over earlier files", shards.collect(sites)[::2], (0, []))
    compare("a run over earlier files", shards, mocks.sites())
    same("and once more", shards.collect(sites), (0, ["1 sites 0 failed 0 meters 0 rows 0 days"], []))
    meter = office.meters["main-1"]
    meter.read(meter.at, 7)
    same("a reading more", shards.collect(sites)[1][0], "over 1 meters 1 rows 1 days")
    compare("a reading more over earlier files", shards, mocks.sites())


def tells_faults(shards, mocks):
    """Sites whose responses are not an office's are named, nothing of them is copied, and the
    others are."""
    north, south = mocks.offices["north"], mocks.offices["south"]
    kept = shards.energy()
    sites = write_list("three", {name: (mocks.url(name), []) for name in mocks.offices})
    before = north.reply

    def told(what, wanted, change, target="/meters/main-1/intervals"):
        north.reply = lambda asked: (lambda status, text: (status, change(text)) if asked == target else (status, text))(*before(asked))
        status, said, faults = shards.collect(sites, "--whole", "--timeout", "5")
        north.reply = before
        same(what, (status, said[-1].split()[:4], faults), (1, "3 sites 1 failed".split(), [f"collect: north: {wanted}"]))
        same(f"{what}: nothing is taken", shards.energy() == kept, True)

    where = "/meters/main-1/intervals"
    told("a text that was cut", f"{where} was cut, or is no text of an office", lambda text: text[:-3])
    told("a text without its end", f"{where} was cut, or is no text of an office", lambda text: text[: text.index("end")])
    told("a text that lacks a line", f"{where} was cut, or is no text of an office", lambda text: text.split("\n", 1)[1])
    told("nothing", f"{where} was cut, or is no text of an office", lambda text: "")
    told("words", f"{where} has a line that is no row", lambda text: text.replace(" 7923\n", " 79x3\n"))
    told("a missing number", f"{where} has a line that is no row", lambda text: text.replace(" 7923\n", " \n"))
    told("another order", f"{where} isn't in the order of time", lambda text: "5 0\n5 1\nend 2\n")
    told("a number past its column", f"{where} has a number past its column", lambda text: f"5 {1 << 64}\nend 1\n")
    told("a beginning of a line behind its end", f"{where} was cut, or is no text of an office", lambda text: text.replace("end", "7end"))
    days = "/registers/main/days"
    told("days that were cut", f"{days} was cut, or is no text of an office", lambda text: text[:-4], days)
    told("no days", f"{days} has a line that is no day", lambda text: "2026-11-01 1\nend 1\n", days)
    told("days before ClickHouse's", f"{days} has a day or a number past its column", lambda text: "1969-12-31   1   5\nend 1\n", days)
    meters = "/registers/main/meters"
    told("meters that were cut", f"{meters} was cut, or is no text of an office", lambda text: text[:-4], meters)
    told("a meter without its state", f"{meters} has a line that is no meter, or one twice", lambda text: text.replace(" open", ""), meters)
    told("a meter twice", f"{meters} has a line that is no meter, or one twice", lambda text: 2 * text.split("end")[0] + "end 2\n", meters)
    told("a meter's name that is none", f"{meters} has a line that is no meter", lambda text: text.replace("main-1", "x'OR'1"), meters)
    told("a meter's moment past its column", f"{meters} has a line that is no meter", lambda text: f"m 1 {1 << 32} 1 0 1 open\nend 1\n", meters)
    none = "its reply to GET /site is none of an office"
    told("a site that is no JSON", none, lambda text: text[:-5], "/site")
    told("a site without registers", none, lambda text: "[]", "/site")
    told("a name that is none", none, lambda text: text.replace('"roof-1"', '"x\' OR 1"'), "/site")
    told("a site of too many brackets", none, lambda text: "[" * 100_000, "/site")
    told("a total that is none", none, lambda text: re.sub('"total":"[0-9]+"', '"total":7', text), "/site")
    north.reply = lambda asked: (503, '{"fault":503}')
    same("a refusal", shards.collect(sites)[2], ["collect: north: it answers 503 to GET /site"])
    north.reply = lambda asked: time.sleep(4) or (0, "")
    same("a silent one", shards.collect(sites, "--timeout", "1")[2], ["collect: north: no answer to GET /site: timed out"])
    north.reply = before
    said = shards.lines("SELECT site, fault, answered_at < asked_at FROM energy.visits ORDER BY site")
    same("the table of sites tells it", said, ["north\tno answer to GET /site: timed out\t1", "south\t\t0", "west.1\t\t0"])
    port = free_port()
    gone = write_list("gone", {"north": (f"http://127.0.0.1:{port}", [])})
    same("nobody listens", shards.collect(gone), (1, ["1 sites 1 failed 0 meters 0 rows 0 days"], ["collect: north: no answer to GET /site: [Errno 111] Connection refused"]))
    lost = north.meters.pop("new-1")
    same("a meter is gone", shards.collect(sites)[2], ["collect: north: it has no meter new-1"])
    north.meters["new-1"] = lost
    fresh = mock.Office()
    fresh.has_site = False
    mocks.offices["fresh"] = fresh
    same("no /site, and no meter named", shards.collect(write_list("fresh", {"fresh": (mocks.url("fresh"), [])}))[2], ["collect: fresh: it has no route /site, and LIST names no meter of it"])
    del mocks.offices["fresh"]
    same("all answer again", shards.collect(sites)[0], 0)
    same("which is told too", shards.lines("SELECT site FROM energy.visits WHERE fault = '' AND answered_at = asked_at ORDER BY site"), ["fresh", "north", "south", "west.1"][1:])
    compare("after all that", shards, mocks.sites())

    # arguments and files
    for what, text, wanted in (
        ("a line without URL", "north\n", "line 1: there is no URL after the name"),
        ("a name that is none", "nor'th http://127.0.0.1\n", "line 1: the name is not 1 to 64 letters, digits, _, . and -, with a letter or a digit first"),
        ("a URL that is none", "\nnorth ftp://127.0.0.1\n", "line 2: the URL is not http://HOST or https://HOST, with or without :PORT and /PATH"),
        ("a URL with a password", "north http://me:it@127.0.0.1\n", "line 1: the URL has a user: write user=NAME password=WORD after the URL"),
        ("a meter that is none", "north http://127.0.0.1 1m\n", "line 1: word 3 is no name of a meter, and neither user=NAME nor password=WORD"),
        ("a name twice", "north http://127.0.0.1\nnorth http://127.0.0.2\n", "line 2: the name north is that of line 1"),
    ):
        with open(f"{ROOM}/wrong", "w") as file:
            file.write(text)
        same(what, shards.collect(f"{ROOM}/wrong"), (2, [], [f"collect: {ROOM}/wrong: {wanted}"]))
    mixed = write_list("mixed", {"north": (mocks.url("north"), ["main-9"])})
    same("a meter that the office doesn't have", shards.collect(mixed), (1, ["1 sites 1 failed 0 meters 0 rows 0 days"], ["collect: north: it has no meter main-9"]))
    for what, meter in (("another meter", '"main-1"'), ("no meter", "null")):
        north.reply = lambda asked: (200, before("/meters/main-1")[1].replace('"main-1"', meter)) if asked == "/meters/main-9" else before(asked)
        same(f"an answer of {what}", shards.collect(mixed)[2], ["collect: north: it answers another meter than main-9"])
    north.reply = before
    same("no list", shards.collect(f"{ROOM}/none")[0], 2)
    same("a site that the list doesn't have", shards.collect(sites, "east"), (2, [], [f"collect: {sites}: it has no site east"]))
    same("a wrong word", shards.collect(sites, "--more")[0], 2)
    same("--help", shards.collect(sites, "--help")[0], 0)
    north.reply = lambda asked: time.sleep(3) or before(asked)
    first = subprocess.Popen(shards.words(sites), stdout=subprocess.DEVNULL)
    time.sleep(1.5)
    same("two at once", shards.collect(sites), (3, [], [f"collect: {sites}: another collect has it"]))
    same("the first goes on", first.wait(), 0)
    north.reply = before
    # without a shard nothing is copied, through each shard
    if len(shards.all) > 1:
        north.meters["main-1"].read(north.meters["main-1"].at, 11)
        south.meters["roof-1"].read(south.meters["roof-1"].at, 12)
        for shard, other in (shards.all, shards.all[::-1]):
            shard.kill()
            same("a shard is gone", shards.collect(sites, engine=other)[0], 3)
            same("a shard is gone, and it is the one asked", shards.collect(sites, engine=shard)[0], 3)
            shard.start()
        same("both are there again", shards.collect(sites)[0], 0)
        compare("both are there again", shards, mocks.sites())
        counts = [int(shard.lines("SELECT uniqExact(site) FROM energy.intervals_here")[0]) for shard in shards.all]
        holds("each shard has its sites", sum(counts) == 3 and all(counts), counts)
    tls(shards, mocks)


def tls(shards, mocks):
    """An office behind a proxy with TLS that requires a user and a password."""
    key, cert = f"{ROOM}/key.pem", f"{ROOM}/cert.pem"
    subprocess.run(
        ["openssl", "req", "-x509", "-newkey", "ec", "-pkeyopt", "ec_paramgen_curve:P-256", "-nodes", "-days", "1", "-subj", "/CN=localhost",
         "-addext", "subjectAltName=DNS:localhost", "-keyout", key, "-out", cert], check=True, capture_output=True)

    class Handler(mock.Handler):
        def do_GET(self):
            if self.headers["Authorization"] != "Basic " + base64.b64encode(b"central:secret").decode():
                return self.send_error(401)
            return super().do_GET()

    server = mock.Server(0, mocks.offices)
    server.RequestHandlerClass = Handler
    context = ssl.SSLContext(ssl.PROTOCOL_TLS_SERVER)
    context.load_cert_chain(cert, key)
    server.socket = context.wrap_socket(server.socket, server_side=True)
    threading.Thread(target=server.serve_forever, daemon=True).start()
    sites = write_list("tls", {"north": (f"https://localhost:{server.server_port}/north", [])})
    same("a certificate that isn't trusted", (shards.collect(sites)[0], "CERTIFICATE_VERIFY_FAILED" in shards.collect(sites)[2][0]), (1, True))
    os.environ["SSL_CERT_FILE"] = cert
    same("no password", shards.collect(sites)[2], ["collect: north: it answers 401 to GET /site"])
    with open(f"{ROOM}/netrc", "w") as file:
        file.write("machine localhost login central password secret\n")
    os.chmod(f"{ROOM}/netrc", 0o600)
    same("a password", shards.collect(sites, "--whole", "--netrc", f"{ROOM}/netrc")[::2], (0, []))
    del os.environ["SSL_CERT_FILE"]


def pieces_of(text):
    """Yields a text in pieces of random sizes."""
    while text:
        size = random.randrange(1, 100)
        yield text[:size]
        text = text[size:]


def reads_golden_texts():
    """collect accepts the texts of rows and days that the program's own golden tests expect."""
    loader = importlib.machinery.SourceFileLoader("collect", str(CENTRAL / "collect"))
    collect = importlib.util.module_from_spec(importlib.util.spec_from_loader("collect", loader))
    loader.exec_module(collect)

    def interval_rows(pieces, what):
        table = collect.Table(1_000_000)
        (begin, end), total = table.read(pieces, what)
        return [list(map(str, row)) for row in zip(*(column[begin:end] for column in table.columns))], total

    def day_rows(pieces, what):
        (days, *values), total = collect.day_rows(pieces, what)
        return [[collect.day_text(day).decode(), *map(str, row)] for day, *row in zip(days, *values)], total

    taken = {interval_rows: 0, day_rows: 0}
    for file in sorted((HERE.parent / "scripts").glob("*/*.out")):
        lines = file.read_text().splitlines(keepends=True)
        for place, line in enumerate(lines):
            count = int(line.split()[1]) if re.fullmatch("end [0-9]{1,6}\n", line) else 0
            rows = lines[max(0, place - count) : place]
            for form, shape in ((interval_rows, "[0-9]+ [0-9]+\n"), (day_rows, "[0-9]{4}-[0-9-]+ +[0-9]+ +[0-9]+\n")):
                if not rows or not all(re.fullmatch(shape, row) for row in rows) or rows[0].startswith(("1969-", "1970-01-01")):
                    continue
                wanted = ([row.split() for row in rows], sum(int(row.split()[-1]) for row in rows))
                same(f"{file.name}: its rows", form(pieces_of("".join([*rows, line]).encode()), str(file)), wanted)
                taken[form] += 1
    holds("golden texts are there", min(taken.values()) > 5, taken)


class Between(http.server.BaseHTTPRequestHandler):
    """A proxy between collect and ClickHouse that fails one request: it never arrives, or its
    response is lost."""

    def do_POST(self):
        body, server = self.rfile.read(int(self.headers["Content-Length"])), self.server
        server.count += 1
        fails = server.count == server.at
        if not fails or server.how == "carried out":
            with contextlib.suppress(urllib.error.HTTPError):
                with urllib.request.urlopen(f"http://127.0.0.1:{server.engine}{self.path}", data=body, timeout=60) as reply:
                    text = reply.read()
            if not fails:
                self.wfile.write(b"HTTP/1.1 200 OK\r\nConnection: close\r\n\r\n" + text)

    def log_message(self, *_):
        pass


def fails_at_each_call(shards):
    """Each request to ClickHouse fails in turn, in a first copy and in a later one.

    The next copy is complete, without a change at the sites."""
    server = http.server.ThreadingHTTPServer(("127.0.0.1", 0), Between)
    server.engine, server.http = shards.one.http, server.server_port
    threading.Thread(target=server.serve_forever, daemon=True).start()
    cases = {f"{how[0]}{at}": (how, at) for how in ("never arrives", "carried out") for at in range(1, 20)}
    mocks = Mocks(cases)
    for office in mocks.offices.values():
        filled(office, 100)

    def copies(step):
        for name, (how, server.at) in cases.items():
            server.count, server.how = 0, how
            status, _, faults = shards.collect(write_list("each", {name: (mocks.url(name), [])}), engine=server)
            same(f"request {server.at} {how}, in a {step} copy", (status, bool(faults)), (3, True) if server.count >= server.at else (0, False))
        holds(f"a {step} copy has no more requests", server.count < server.at, server.count)

    def makes_up(step):
        sites = write_list("each", {name: (mocks.url(name), []) for name in cases})
        same(f"a copy behind failures of a {step} one", shards.collect(sites)[0::2], (0, []))
        compare(f"a copy behind failures of a {step} one", shards, mocks.sites())
        same(f"nothing differs behind failures of a {step} one", shards.lines("SELECT * FROM energy.differences"), [])

    copies("first")
    for office in mocks.offices.values():  # a row that came before the failure is voided before the next copy
        rows = office.meters["main-1"].rows
        rows[NOVEMBER + 900 * 51] += rows.pop(NOVEMBER + 900 * 50)
        office.meters["main-1"].read(NOVEMBER + 900 * 100, 5)
    makes_up("first")
    for office in mocks.offices.values():
        main, roof = office.meters["main-1"], office.meters["roof-1"]
        del main.rows[NOVEMBER + 900 * 7], roof.rows[NOVEMBER + 900 * 99]
        main.read(NOVEMBER + 900 * 101, 5)
        roof.at, roof.ended = NOVEMBER + 900 * 99, True
        office.add("roof-2", "roof", NOVEMBER + 900 * 99).read(NOVEMBER + 900 * 99, 3)
    copies("later")
    makes_up("later")
    server.shutdown()


# Registers of the built program's offices beside main and aux, and their devices.
FLATS = [(f"flat{place}", "inv" if place <= 30 else "roof") for place in range(1, 48)]


class ProgramOffice:
    """An office in a file, of the built program, with fifty meters.

    Some days of readings are written into the file, and then two devices are polled. With is_old
    the file is of version 1, which the program migrates."""

    def __init__(self, name, device, dice, is_old):
        self.file, self.device, self.dice, self.port = f"{ROOM}/{name}.db", device, dice, free_port()
        self.number, self.meters, self.unseen = 0, ["m1", "x1", "x2", *(f"{flat}-1" for flat, _ in FLATS)], set()
        now = int(time.time())
        self.begin = now - now % 3600 - 12 * 86400
        self.fill(is_old)
        self.start()

    def fill(self, is_old):
        subprocess.run(["bash", str(HERE.parent / "schema.sh"), self.file, "CET-1CEST,M3.5.0,M10.5.0/3"], check=True)
        base = sqlite3.connect(self.file)
        base.executemany("INSERT INTO devices VALUES (?, ?, 1, 5, 1)", [(1, "inv"), (2, "roof")])
        counters = {"inv": 0, "roof": 0}
        for place, (register, device) in enumerate([("main", "inv"), ("aux", "inv"), *FLATS], 1):
            address, counters[device] = 40094 + 2 * counters[device], counters[device] + 1
            base.execute("INSERT INTO points VALUES (?, ?, ?, 3, 0, ?, 'acc32', '')", (device, counters[device], f"wh{place}", address))
            base.execute("INSERT INTO registers VALUES (?, ?, ?, 3, ?, 0, 0)", (place, register, device, address))
        self.meter(base, 1, "m1", "main", 0, 250, 0)
        self.meter(base, 2, "x1", "aux", 0, 100, 1)
        self.meter(base, 3, "x2", "aux", 100, 150, 0)
        for place, (flat, _) in enumerate(FLATS, 4):
            self.meter(base, place, f"{flat}-1", flat, 0, 250, 0)
        if is_old:
            base.executescript("DROP TABLE voids; DROP TABLE ranges; UPDATE meta SET version = 1")
        base.commit()
        base.close()

    def meter(self, base, place, name, register, first, hours, ended):
        """Adds a meter that was read each hour."""
        raw, rows = 5000, []
        base.execute("INSERT INTO installations VALUES (?, ?, ?, 10000000, ?, 0, 0, 0, 0)", (place, name, register, ended))
        base.execute("INSERT INTO ranges VALUES (?, 4294967296)", (name,))
        base.execute('INSERT INTO entries VALUES (?, 1, 1, ?, ?, 0, 0, 0)', (name, self.begin + 3600 * first, raw))
        for k in range(hours):
            at, step = self.begin + 3600 * (first + k + 1), self.dice.randrange(0, 50) * 4
            raw += step
            kind = 4 if ended and k == hours - 1 else 2
            base.execute("INSERT INTO entries VALUES (?, ?, ?, ?, ?, 0, 0, 0)", (name, k + 2, kind, at, raw))
            rows += [(name, at - 3600 + 900 * q, step * 250) for q in range(4)]
        base.executemany("INSERT INTO intervals VALUES (?, ?, ?)", rows)
        base.execute("UPDATE installations SET last_moment = ?, last_raw = ?, total = ? WHERE meter = ?", (at, raw, (raw - 5000) * 1000, name))

    def start(self):
        words = [PROGRAM, "run", "--db", self.file, "--listen", str(self.port), "--every", "2", "--devices", f"inv=127.0.0.1:{self.device.port},roof=127.0.0.1:{self.device.port}"]
        self.log = open(f"{self.file}.said", "a")
        self.child = subprocess.Popen(words, stdout=self.log, stderr=self.log)
        CHILDREN.append(self.child)
        until = time.time() + 60
        while time.time() < until:
            with contextlib.suppress(OSError):
                return get(f"{self.url()}/status")
            time.sleep(0.1)
        raise SystemExit(f"central.py: the program doesn't answer: {open(f'{self.file}.said').read()[-500:]}")

    def url(self):
        return f"http://127.0.0.1:{self.port}"

    def post(self, target, body):
        """Returns the kind of the response, or the number of the refusal."""
        self.number += 1
        headers = {"Office-Caller": "desk", "Office-Request": str(self.number)}
        request = urllib.request.Request(self.url() + target, data=json.dumps(body).encode(), headers=headers)
        try:
            with urllib.request.urlopen(request, timeout=30) as reply:
                return json.loads(reply.read())["done"]
        except urllib.error.HTTPError as fault:
            return json.loads(fault.read()).get("refused", fault.code)

    def settle(self):
        """Waits for a reading of each open meter, which shows earlier voids."""
        since, until = int(time.time()) + 1, time.time() + 60
        while time.time() < until:
            told = [json.loads(get(f"{self.url()}/meters/{meter}")) for meter in self.meters]
            if all(it["ended"] or it["at"] >= since for it in told):
                return
            time.sleep(0.2)
        holds("each open meter is read", False, told)

    def change(self):
        """Sends a random command of a person."""
        what = self.dice.random()
        if what < 0.02:
            return self.upgrade()
        if what < 0.9:
            meter = self.dice.choice(["m1", "x1", "x2", "flat1-1", "flat2-1"])
            if (done := self.post(f"/meters/{meter}/void", {"place": self.dice.randrange(2, 95)})) != "void":
                return f"void refused {done}"
            told = json.loads(get(f"{self.url()}/meters/{meter}"))
            if told["ended"]:
                self.unseen.update((meter, told["register"]))
            return "void"
        register, prefix = self.dice.choice([("main", "m"), ("aux", "x")])
        name, raw = f"{prefix}{len(self.meters) + 10}", self.device.raw
        body = {"last": raw, "rolls": 0, "meter": name, "raw": raw, "sf": 0, "ceiling": 10_000_000}
        if (done := self.post(f"/registers/{register}/exchange", body)) == "exchange":
            self.meters.append(name)
            return "exchange"
        return f"exchange refused {done}"


    def upgrade(self):
        """Ends the program, and starts another one with its file, as for a new version."""
        self.child.terminate()
        self.child.wait()
        CHILDREN.remove(self.child)
        self.log.close()
        self.start()
        return "upgrade"


class Device:
    """A device that answers each read with counters that count on."""

    def __init__(self):
        self.raw, self.streams = 1_000_000, []
        self.listener = socket.create_server(("127.0.0.1", 0), backlog=64)
        self.port = self.listener.getsockname()[1]
        threading.Thread(target=self.serve, daemon=True).start()

    def serve(self):
        with contextlib.suppress(OSError):
            while True:
                stream, _ = self.listener.accept()
                self.streams.append(stream)
                threading.Thread(target=self.talk, args=(stream,), daemon=True).start()

    def talk(self, stream):
        with contextlib.suppress(OSError), stream:
            while frame := stream.recv(12, socket.MSG_WAITALL):
                self.raw += 3
                count = frame[11]
                data = (struct.pack(">I", self.raw) * 63)[: 2 * count]
                stream.sendall(frame[:4] + struct.pack(">HBBB", 3 + len(data), frame[6], frame[7], len(data)) + data)

    def stop(self):
        self.listener.shutdown(socket.SHUT_RDWR)
        self.listener.close()
        for stream in self.streams:
            with contextlib.suppress(OSError):
                stream.shutdown(socket.SHUT_RDWR)


class MockOffice:
    """A mock that changes as an office of the program does."""

    def __init__(self, mocks, name, dice):
        self.mocks, self.name, self.dice, self.office, self.unseen = mocks, name, dice, mocks.offices[name], set()
        filled(self.office, dice.randrange(100, 400))

    def url(self):
        return self.mocks.url(self.name)

    def change(self):
        meter = self.dice.choice(list(self.office.meters.values()))
        what = 0.7 if meter.ended else self.dice.random()
        starts = sorted(meter.rows)
        if what < 0.6 or len(starts) < 2:
            meter.read(meter.at - meter.at % 900, self.dice.randrange(250_000))
            return "reading"
        if what < 0.9:
            at = self.dice.randrange(len(starts) - 1)
            rows = dict(meter.rows)
            rows[starts[at + 1]] += rows.pop(starts[at])
            meter.rows = rows
            if meter.ended:
                self.unseen.update((meter.name, meter.register))
            return "void"
        meter.ended = True
        self.office.add(f"{meter.register}-{len(self.office.meters) + 1}", meter.register, meter.at)
        return "exchange"

    def settle(self):
        """Adds a last reading of each open meter, which shows earlier voids."""
        for meter in self.office.meters.values():
            if not meter.ended:
                meter.read(meter.at - meter.at % 900, 1)


def survives_kills(shards, name, made, stop):
    """Offices change, by `made`, while collect and the shards are killed at random.

    In the end the copy has all rows of the offices, and no others."""
    dice, counts, going = random.Random(SEED + 1), {}, True
    offices = list(made.items())

    def go_on():
        own = random.Random(SEED + 2)
        while going:
            did = own.choice(offices)[1].change()
            counts[did] = counts.get(did, 0) + 1
            time.sleep(0.02)

    sites = write_list(name, {site: (office.url(), []) for site, office in offices})
    hand = threading.Thread(target=go_on)
    hand.start()
    killed = {"collect": 0, "server": 0, "whole": 0}
    try:
        for _round in range(int(os.environ.get("CENTRAL_ROUNDS", "30"))):
            engine = dice.choice(shards.all)
            words = [*shards.words(sites, engine), *(["--whole"] if dice.random() < 0.3 else [])]
            copy = subprocess.Popen(words, stdout=subprocess.DEVNULL, stderr=subprocess.DEVNULL)
            CHILDREN.append(copy)
            what = dice.random()
            if what < 0.75:
                time.sleep(dice.uniform(0.2, 1.5))
            if what < 0.45:
                killed["collect"] += copy.poll() is None
                copy.kill()
            elif what < 0.75:
                shard = dice.choice(shards.all)
                shard.kill()
                killed["server"] += 1
                copy.wait()
                shard.start()
            killed["whole"] += copy.wait() == 0
            CHILDREN.remove(copy)
    finally:
        going = False
        hand.join()
    for _, office in offices:
        office.settle()
    stop()
    meters = {site: office_meters(office) for site, office in offices}
    truth = {site: (office.url(), meters[site], set(meters[site].values())) for site, office in offices}
    unseen = {(site, it) for site, office in offices for it in office.unseen}
    for words in ([], ["--whole"]):
        status, said, faults = shards.collect(sites, *words)
        same(f"{name}: the last copy", (status, said[-1].split()[:4], faults), (0, [str(len(offices)), "sites", "0", "failed"], []))
        compare(f"{name}: a copy {words}", shards, truth, () if words else unseen)
    same(f"{name}: nothing differs", shards.lines("SELECT * FROM energy.differences"), [])
    same(f"{name}: nothing is new", shards.collect(sites)[1], [f"{len(offices)} sites 0 failed 0 meters 0 rows 0 days"])
    by_shard = [int(shard.lines("SELECT uniqExact(site) FROM energy.meters_here")[0]) for shard in shards.all]
    same(f"{name}: each site is on one shard", sum(by_shard), len(offices))
    rows = shards.lines("SELECT count(), sum(mwh) FROM energy.meter_quarters")[0].split("\t")[0]
    print(f"{name}: {len(offices)} offices, {sum(map(len, meters.values()))} meters, {rows} rows, on shards {by_shard}; at the offices {dict(sorted(counts.items()))}; "
          f"killed: collect {killed['collect']}, servers {killed['server']}; copies that ended well between {killed['whole']}; meters and registers that only --whole had to see {len(unseen)}", flush=True)


def office_meters(office):
    """Returns the meters of an office, and the register of each."""
    if isinstance(office, MockOffice):
        return {name: meter.register for name, meter in office.office.meters.items()}
    return {name: json.loads(get(f"{office.url()}/meters/{name}"))["register"] for name in office.meters}


def offices_of_mock(shards):
    names = [f"k{place}" for place in range(1, 21)]
    mocks = Mocks(names)
    dice = random.Random(SEED)
    made = {name: MockOffice(mocks, name, dice) for name in names}
    survives_kills(shards, "mock offices", made, lambda: None)


def offices_of_program(shards):
    dice, device = random.Random(SEED), Device()
    made = {f"p{place}": ProgramOffice(f"p{place}", device, dice, place % 4 == 0) for place in range(1, 21)}
    first = next(iter(made.values()))
    told = {row["meter"] for row in json.loads(get(f"{first.url()}/site"))["registers"]}
    same("/site tells the latest meters", told, {"m1", "x2", *(f"{flat}-1" for flat, _ in FLATS)})
    lines = [line.split() for line in get(f"{first.url()}/registers/aux/meters").splitlines()]
    same("and a register all of them", [(it[0], it[-1]) for it in lines], [("x1", "ended"), ("x2", "open"), ("end", "2")])

    def stop():
        device.stop()
        time.sleep(3)

    survives_kills(shards, "offices of the program", made, stop)
    for office in made.values():
        office.child.kill()


def drop_all(shards):
    for shard in shards.all:
        shard.ask("DROP DATABASE energy")
        subprocess.run(["clickhouse-client", "--port", str(shard.tcp), "-n"], stdin=open(CENTRAL / "tables.sql"), check=True)


def measures(counts):
    """Measures many offices: the time of a copy, its size, and the time of a month's bill."""
    port, quarters = free_port(), 2880
    words = [sys.executable, str(HERE / "offices.py"), str(port), str(SITES), str(METERS), str(NOVEMBER), str(quarters)]
    mocked = subprocess.Popen(words, stdout=subprocess.PIPE, text=True)
    CHILDREN.append(mocked)
    mocked.stdout.readline()
    sites = write_list("many", {f"s{place}": (f"http://127.0.0.1:{port}/s{place}", []) for place in range(1, SITES + 1)})
    cores, load = os.cpu_count(), os.getloadavg()[0]
    print(f"{time.strftime('%Y-%m-%d %H:%M')} UTC, {cores} processors, load {load:.1f}; {SITES} sites, {SITES * METERS} meters, {quarters} quarter hours each", flush=True)
    totals = [decimal.Decimal(mock.texts_of_kind(kind, NOVEMBER, quarters)[2]).scaleb(-6) for kind in range(97)]
    wanted = sorted((f"s{place}", f"r{k}", totals[(place * METERS + k) % 97]) for place in range(1, SITES + 1) for k in range(METERS))
    for count in counts:
        shards = Shards(f"many{count}-", count)
        begun = time.time()
        status, said, faults = shards.collect(sites)
        seconds = time.time() - begun
        rows = SITES * METERS * quarters
        same("many offices", (status, said[-1], faults), (0, f"{SITES} sites 0 failed {SITES * METERS} meters {rows} rows {SITES * METERS * quarters // 96} days", []))
        begun = time.time()
        same("many offices again", shards.collect(sites)[1], [f"{SITES} sites 0 failed 0 meters 0 rows 0 days"])
        again = time.time() - begun
        weight = sum(int(shard.lines("SELECT sum(bytes_on_disk) FROM system.parts WHERE active AND database = 'energy'")[0]) for shard in shards.all)
        took, bill = timed(lambda: shards.lines((CENTRAL / "bill.sql").read_text()))
        bill = sorted((*line.split("\t")[:2], plain(line)[-1]) for line in bill)
        holds(f"the bill of many offices over {count} shards", bill == wanted, [it for it in zip(bill, wanted) if it[0] != it[1]][:3])
        view, months = timed(lambda: shards.lines("SELECT site, mwh FROM energy.site_months WHERE month = '2026-11-01'"))
        same("a line a site", len(months), SITES)
        check, differ = timed(lambda: shards.lines("SELECT * FROM energy.differences"), 1)
        same("nothing differs among many", differ, [])
        one, curve = timed(lambda: shards.lines("SELECT start, sum(mwh) FROM energy.intervals FINAL WHERE here = 1 AND site = 's1' GROUP BY start ORDER BY start"))
        same("a site's curve", len(curve), quarters)
        print(f"{count} shards: {rows} rows in {seconds:.0f} s, {rows / seconds:.0f} a second; again {again:.1f} s; {weight} bytes, {weight / (SITES * METERS * quarters) * 35064:.0f} a meter-year; "
              f"the month's bill {took:.3f} s, by site {view:.3f} s, all differences {check:.1f} s, a site's month by quarter hour {one:.3f} s", flush=True)
        shards.stop()
        subprocess.run(["rm", "-rf", *(shard.room for shard in shards.all)], check=True)


def timed(call, turns=3):
    """Returns the time of the best of so many calls, and its result."""
    best = None
    for _turn in range(turns):
        begun = time.time()
        got = call()
        best = min(best or 1e9, time.time() - begun)
    return best, got


def by_postgres(mocks):
    """Copies the same lines into PostgreSQL, with central/postgres.sql."""
    if not POSTGRES:
        return
    room, port = f"{ROOM}/postgres", free_port()
    user = ["runuser", "-u", "postgres", "--"] if os.getuid() == 0 else []
    os.makedirs(room)
    if user:
        os.chmod(ROOM, 0o755)
        subprocess.run(["chown", "postgres", room], check=True)
    subprocess.run([*user, f"{POSTGRES}/initdb", "-D", f"{room}/data", "-A", "trust"], check=True, capture_output=True, cwd="/")
    words = [*user, f"{POSTGRES}/postgres", "-D", f"{room}/data", "-p", str(port), "-h", "127.0.0.1", "-k", room]
    CHILDREN.append(subprocess.Popen(words, stdout=subprocess.DEVNULL, stderr=subprocess.DEVNULL, cwd="/"))
    name = "postgres" if user else os.environ.get("USER", "postgres")
    psql = ["psql", "-X", "-q", "-t", "-A", "-v", "ON_ERROR_STOP=1", "-h", "127.0.0.1", "-p", str(port), "-U", name, "postgres"]
    for _turn in range(100):
        if subprocess.run([*psql, "-c", "SELECT 1"], capture_output=True).returncode == 0:
            break
        time.sleep(0.1)
    ask = lambda query: subprocess.run([*psql, "-c", query], capture_output=True, text=True).stdout.splitlines()

    def copy(site, meter, text):
        words = [*psql, "-v", f"site={site}", "-v", f"meter={meter}", "-f", str(CENTRAL / "postgres.sql")]
        return subprocess.run(words, input=text, capture_output=True, text=True).returncode

    wanted, of_month = set(), 0
    for _twice in range(2):
        for site, office in mocks.offices.items():
            for meter in office.meters:
                text = get(f"{mocks.url(site)}/meters/{meter}/intervals")
                same("PostgreSQL takes a text", copy(site, meter, text), 0)
                wanted.update(f"{site}|{meter}|" + line.replace(" ", "|") for line in text.splitlines()[:-1])
    same("PostgreSQL has all rows", set(ask("SELECT site, meter, start, mwh FROM intervals")), wanted)
    text = get(f"{mocks.url('north')}/meters/main-1/intervals")
    same("a text that was cut is refused", copy("north", "main-1", text[: text.index("end")]) != 0, True)
    same("and one that lacks a line", copy("north", "main-1", text.split("\n", 1)[1]) != 0, True)
    same("and nothing is changed", set(ask("SELECT site, meter, start, mwh FROM intervals")), wanted)
    same("a void's rows go", copy("north", "main-1", "900 5\nend 1\n"), 0)
    same("a void's rows are gone", ask("SELECT start, mwh FROM intervals WHERE site = 'north' AND meter = 'main-1'"), ["900|5"])
    page = (CENTRAL / "README.md").read_text()
    bill = re.search(r"```sql\n(SELECT site, meter, date_trunc.*?)```", page, re.S)[1]
    of_month = {}
    for row in wanted:
        site, meter, start, mwh = row.split("|")
        if (site, meter) != ("north", "main-1") and NOVEMBER - 3600 <= int(start) < NOVEMBER + 30 * 86400 - 3600:
            of_month[site, meter] = of_month.get((site, meter), 0) + int(mwh)
    same("PostgreSQL's bill", ask(bill), [f"{site}|{meter}|2026-11-01 00:00:00|{mwh}" for (site, meter), mwh in sorted(of_month.items())])


def main():
    parts = os.environ.get("CENTRAL_PARTS", "copies failures kills measures").split()
    print(f"seed {SEED}", flush=True)
    shards = Shards("shard", 2)
    if "copies" in parts:
        reads_golden_texts()
        mocks = copies_what_changed(shards)
        tells_faults(shards, mocks)
        by_postgres(mocks)
        drop_all(shards)
        reads_a_part(shards)
        drop_all(shards)
        keeps_files_before(shards)
        drop_all(shards)
        copies_the_current_file(shards)
    if "failures" in parts:
        drop_all(shards)
        fails_at_each_call(shards)
    if "kills" in parts:
        drop_all(shards)
        offices_of_mock(shards)
        if PROGRAM:
            drop_all(shards)
            offices_of_program(shards)
    shards.stop()
    if "measures" in parts:
        measures([1, 2])
    print(f"{passed} passed, {failed} failed")
    sys.exit(failed != 0)


if __name__ == "__main__":
    main()
