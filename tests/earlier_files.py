"""earlier_files.py PROGRAM: compares a run over earlier files with a run over one file.

tests/earlier_files.sh runs it. The site is that of files_as_one.py, whose three files continue each
other. A run over the three files responds by HTTP as a run over the one file does, byte for byte,
and reports the same meters by `/site`. A run that begins a new file by itself responds as before,
if it reports earlier files. A run refuses files that don't join, or are damaged, before it polls
anything.
"""
import http.client
import json
import pathlib
import shutil
import socket
import subprocess
import sys
import tempfile
import time

import files_as_one as site
from files_as_one import PROGRAM, ask, carry_parts, copy, counts, same


def free_port():
    with socket.socket() as it:
        it.bind(("127.0.0.1", 0))
        return it.getsockname()[1]


class Run:
    """A run over files, which ends with the block. Its device is a port on which nothing
    listens."""

    def __init__(self, files, *words):
        self.port = free_port()
        dbs = [word for db in files for word in ("--db", db)]
        self.words = [PROGRAM, "run", *dbs, "--listen", str(self.port), "--every", "86400", "--devices", "inv=127.0.0.1:1", *words]

    def __enter__(self):
        self.child = subprocess.Popen(self.words, stdin=subprocess.DEVNULL, stdout=subprocess.DEVNULL, stderr=subprocess.PIPE, text=True)
        for _ in range(600):
            if self.child.poll() is not None or self.is_open():
                break
            time.sleep(0.05)
        return self

    def __exit__(self, *_):
        self.child.terminate()
        self.said = self.child.communicate()[1].splitlines()

    def is_open(self):
        with socket.socket() as it:
            return it.connect_ex(("127.0.0.1", self.port)) == 0

    def get(self, target):
        """Returns the status and the body of a response."""
        asked = http.client.HTTPConnection("127.0.0.1", self.port, timeout=30)
        asked.request("GET", target)
        reply = asked.getresponse()
        return reply.status, reply.read()


def refused(what, files, status, begin, *words):
    """A run over files that it can't report together ends: it polls nothing, and does not serve
    HTTP."""
    polls = ask(files[-1], "SELECT count(*) FROM polls")
    with Run(files, *words) as it:
        same(f"{what}: it ends", it.child.wait(30), status)
    said = [line for line in it.said if line.startswith("sunreg: ") and "it had no log" not in line]
    same(what, [line.startswith(f"sunreg: {begin}") for line in said], [True])
    same(f"{what}: no poll", ask(files[-1], "SELECT count(*) FROM polls"), polls)


def targets():
    days = ["2023-12-01", "2024-01-01", "2024-01-31", "2024-02-01", "2024-02-02", "2024-02-29", "2024-03-31", "2024-04-01", "2024-05-01"]
    for begin in days:
        for end in days:
            if begin < end:
                yield f"/registers/main/days/{begin}/{end}"
    yield "/registers/main/months"
    yield "/registers/spare/months"
    yield "/registers/none/months"
    yield "/registers/main/days/2024-01-01/2024-01-01"


def registers_told(run):
    """Returns the registers of `/site`, and the energy of each one's meter that counts as that of
    earlier files."""
    rows = json.loads(run.get("/site")[1])["registers"]
    return rows, {row["register"]: row.pop("earlier", None) for row in rows}


def energy_before(rows, alone, files):
    """Returns the energy of each register's meter in earlier files, from one complete file and the
    last file."""
    last = {row["register"]: row for row in alone}
    found = {}
    for row in rows:
        name, meter = row["register"], row["meter"]
        had = meter is not None and any(ask(db, f"SELECT count(*) FROM installations WHERE meter = '{meter}'") != "0" for db in files)
        here = last[name]["total"] if last[name]["meter"] == meter is not None else "0"
        found[name] = str(int(row["total"]) - int(here)) if had else None
    return found


def hold_site(whole, parts):
    with Run([whole]) as one, Run(parts) as three, Run([copy(parts[-1], "last_alone.db")]) as last:
        rows, none = registers_told(one)
        over, before = registers_told(three)
        alone, _ = registers_told(last)
    same("the site is that of one file", over, rows)
    same("one file has nothing earlier", set(none.values()), {None})
    same("what earlier files have of its meters", before, energy_before(rows, alone, parts[:-1]))
    same("and they have some", any(it not in (None, "0") for it in before.values()), True)


def hold_replies(place, whole, parts):
    with Run([whole]) as one, Run(parts) as three:
        for target in targets():
            same(target, three.get(target), one.get(target))
        same("it has rows", len(three.get("/registers/main/days/2023-12-01/2024-05-01")[1].splitlines()) > 90, True)
    told = [line for line in three.said if "energy figures" in line]
    same("what it tells is told", told, [f"sunreg: {parts[-1]}: energy figures include earlier files: 2, from {parts[0]} on"])
    alone = copy(parts[-1], "alone.db")
    with Run([alone]) as it:
        told, days = it.get("/registers/main/months"), it.get("/registers/main/days")
    with Run(parts) as three:
        same("the last file alone has less", told != three.get("/registers/main/months"), True)
        same("days without a range are those of the last file", three.get("/registers/main/days"), days)
        same("and not those of all files", three.get("/registers/main/days/2023-12-01/2024-05-01") != days, True)


def copy_into(folder, db, name):
    there = str(folder / name)
    for it in (db, db + "-wal"):
        if pathlib.Path(it).exists():
            shutil.copy(it, there + it[len(db):])
    return there


def hold_periods(place, whole, parts):
    """A run that carries into a file of this month reports the files before it, if asked to."""
    folder = place / "periods"
    folder.mkdir()
    office = copy_into(folder, whole, "office.db")
    target = "/registers/main/months"
    with Run([office]) as it:
        before, site_before = it.get(target), registers_told(it)[0]
    with Run([office], "--carry", "month", "--earlier", "3") as it:
        same("a new file was begun, and both are told", it.get(target), before)
        rows, earlier = registers_told(it)
        same("so is the site", rows, site_before)
        same("all energy is that of earlier files", earlier, {row["register"]: row.get("total") for row in rows})
        same("its meters are those of the new one", it.get("/registers/main/meters")[1].splitlines()[-1:], [b"end 1"])
    made = [str(it) for it in sorted(folder.glob("office-*.db"))]
    same("the new file", len(made), 1)
    same("what is said of it", [line.removeprefix(f"sunreg: {made[0]}: ") for line in it.said if line.startswith(f"sunreg: {made[0]}: ")],
         [f"energy figures include earlier files: 1, from {office} on"])
    with Run([office], "--carry", "month", "--earlier", "1") as it:
        same("so it is at the next start", it.get(target), before)
    with Run([office], "--carry", "month") as it:
        same("the new file alone has none", it.get(target), (200, b"end 0\n"))
    last = copy_into(folder, parts[-1], "last.db")
    for when in ("it is made", "it is there"):
        with Run([*parts[:-1], last], "--carry", "month") as it:
            same(f"named files, and all between, where a file of this month: {when}", it.get(target), before)
    refused("another office's file", [made[0], last], 1, f"{last}: meter m2 begins at", "--carry", "month")


def main():
    with tempfile.TemporaryDirectory() as room:
        place = pathlib.Path(room)
        whole, parts, carries, _, _ = carry_parts(place)
        hold_replies(place, whole, parts)
        hold_site(whole, parts)
        one, two, three = parts
        refused("the wrong order", [two, one, three], 1, f"{one}: meter m1 begins at")
        refused("a file lacks", [one, three], 1, f"{three}: meter m2 begins at")
        refused("no file", [str(place / "gone.db"), three], 3, f"{place}/gone.db: file not found")
        torn = copy(two, "torn.db")
        with open(torn, "r+b") as file:
            file.seek(pathlib.Path(torn).stat().st_size // 2)
            file.write(b"\xff" * 4096)
        refused("a damaged file", [one, torn, three], 3, f"{torn}: ")
        zone = copy(two, "zone.db")
        site.write(zone, ["UPDATE meta SET zone = 'UTC0';"])
        refused("another zone", [one, zone, three], 1, f"{zone}: its time zone differs from that of")
        hold_periods(place, whole, parts)
    print(f"{counts['passed']} passed, {counts['failed']} failed")
    sys.exit(1 if counts["failed"] else 0)


main()
