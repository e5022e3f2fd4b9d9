"""rounds.py PROGRAM [TURNS]: measures accepted polls a second of rounds over a file.

bench/round.sh runs it. The comparisons are offices in C and Python. Each office has its own file
and devices. All must print the same, and have the same records in the end.
"""
import os
import subprocess
import sys
import time

from sites import TESTS, check_same, check_told, check_whole, clear, compiled, free_port, load, machine, measured, medians, places, query, serve, site

# Polls, how many at once, devices, meters a device, and whether each meter replaced an earlier one.
ROUNDS = [(32, 16, 1, 32, False), (32, 1, 1, 32, False), (512, 16, 1, 32, False), (512, 1, 1, 32, False)]
ROUNDS += [(32, 16, 64, 32, False), (32, 1, 64, 32, False), (32, 16, 64, 32, True), (32, 1, 64, 32, True)]
SECONDS = 12


def offices(program):
    """Returns the command of a round of each office that can be measured here, by its name, for a
    file, a device and its port."""
    sockets, plain = TESTS / "peers/plain_office.py", compiled("office")
    found = {
        "sunreg": lambda db, name, port: [program, "round", "--db", db, "--device", name, "--port", port],
        "C": lambda db, name, port: [plain, db, 0, 1, f"{name}={port}"],
        "Python": lambda db, name, port: [sys.executable, "-u", sockets, db, name, port],
    }
    for it in (sys.executable, "/usr/bin/python3"):
        if subprocess.run([it, "-c", "import pymodbus.client"], stderr=subprocess.DEVNULL).returncode == 0:
            pymodbus = [it, "-B", "-u", str(TESTS / "peers/pymodbus_office.py")]
            found["pymodbus"] = lambda db, name, port: [*pymodbus, db, name, port]
            break
    else:
        print("rounds.py: pymodbus is not installed, so an office by it is not measured", file=sys.stderr)
    return found


def ratio(peer, ours):
    return f"{peer / max(ours, 1e-6):.{2 if peer < 10 * ours else 1}f}"


def compare(place, room, words, row, turns):
    """Returns one row of the table: rounds of the first device of a file."""
    polls, window, devices, meters, exchanged = row
    files = {name: room / f"{name}.db" for name in words}
    for db in files.values():
        site(db, devices, polls, meters, window, exchanged)
    ports = dict(zip(words, serve(len(words))))
    runs = {name: [] for name in words}
    for _ in range(turns):
        time.sleep(1.1)
        printed = {name: room / f"{name}.printed" for name in words}
        for name, of in words.items():
            runs[name].append(measured(of(files[name], "d0", ports[name]), printed[name]))
        check_told(printed, window)
    check_same(files)
    took, cost, opened = medians(runs["sunreg"])
    cells = [f"{polls}/{window}", f"{devices * meters * (1 + exchanged):,}", place, f"{polls / took:,.0f}", f"{1000 * cost:.0f} ms", f"{1000 * opened:.0f} ms"]
    cells.append(f"{1e6 * (cost - opened) / polls:,.0f} us")
    for name in list(words)[1:]:
        theirs, price, before = medians(runs[name])
        cells += [ratio(theirs, took), ratio(price, cost)]
        if name == "C":
            cells.append(ratio(price - before, cost - opened))
    print("|", " | ".join(map(str, cells)), "|", flush=True)
    clear(room)


def check_alike(files):
    """Ends the process unless all files, by their names, are sound and have the same readings of
    each meter, accepted or rejected.

    It compares as many readings as all files have. Two rounds in one second, as on a busy machine,
    are rejected."""
    readings = {}
    for name, db in files.items():
        check_whole(name, db)
        readings[name] = {}
        for row in query(db, "SELECT meter, raw FROM entries WHERE kind = 2 UNION ALL SELECT meter, raw FROM holds ORDER BY 1, 2"):
            meter, raw = row.split("|")
            readings[name].setdefault(meter, []).append(int(raw))
    most = min(len(it) for of in readings.values() for it in of.values())
    (first, ours), *others = ((name, {meter: it[:most] for meter, it in of.items()}) for name, of in readings.items())
    for name, of in others:
        if ours != of:
            sys.exit(f"{first} and {name} have not recorded the same readings")


def scheduled(place, room, program, window):
    """Returns one row of the second table: 64 devices of 32 meters each, polled each second."""
    devices, reads = 64, 32
    files = {"sunreg": room / "sunreg.db", "C": room / "C.db"}
    cells = [f"{devices} x {reads}/{window}", place]
    for name, db in files.items():
        names = site(db, devices, reads, reads, window)
        pairs = list(zip(names, serve(devices)))
        if name == "sunreg":
            addresses = ",".join(f"{it}=127.0.0.1:{port}" for it, port in pairs)
            words = [program, "run", "--db", db, "--listen", free_port(), "--every", 1, "--devices", addresses, "--for", SECONDS]
        else:
            words = [compiled("office"), db, 1, SECONDS - 1, *(f"{it}={port}" for it, port in pairs)]
        _, cost, opened = measured(words, room / f"{name}.printed")
        moments = [int(it) for it in query(db, "SELECT moment FROM outcomes WHERE outcome = 1")]
        span = max(moments) - min(moments) + 1
        cells += [f"{len(moments) / span:,.0f}", f"{100 * (cost - opened) / span:.0f} %", f"{1e6 * (cost - opened) / len(moments):.0f} us"]
    check_alike(files)
    print("|", " | ".join(cells), "|", flush=True)
    clear(room)


def main():
    program, turns = os.path.abspath(sys.argv[1]), int(sys.argv[2]) if len(sys.argv) > 2 else 5
    rooms = places()
    machine(program)
    words = offices(program)
    others = list(words)[1:]
    heads = ["Polls/at once", "Meters", "Place", "sunreg, polls a second", "its processor time", "of it opening", "else a poll"]
    for it in others:
        heads += [f"{it}: ratio by the clock", "of processor time"] + ["without opening"] * (it == "C")
    print("|", " | ".join(heads), "|\n|" + "---|" * len(heads), flush=True)
    for row in ROUNDS:
        for place, room in rooms.items():
            compare(place, room, words, row, turns)
    heads = ["Each second", "Place"] + [it for name in ("sunreg", "C") for it in (f"{name}, polls a second", "of a processor", "a poll")]
    print("\n|", " | ".join(heads), "|\n|" + "---|" * len(heads), flush=True)
    # (one poll at a time is 4,096 commits a second, which a disk that syncs them does not reach)
    for place, window in (("tmpfs", 16), ("tmpfs", 1), ("disk", 16)):
        if place in rooms:
            scheduled(place, rooms[place], program, window)
    print(f"load {load()} at the end", flush=True)


if __name__ == "__main__":
    main()
