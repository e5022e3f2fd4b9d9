"""store.py PROGRAM [TURNS]: measures accepted readings a second over small and large files.

bench/store.sh runs it. The comparisons are plain offices in C and Python. Each round of a device
records one reading of each of its meters. The device reports how long its connection was open, from
the opening of the file to the last record, so the opening is separate. All files must have the same
records in the end.
"""
import os
import shutil
import statistics
import sys
import time

from rounds import offices, ratio
from sites import BEGUN, QUARTER, check_same, check_told, clear, device_lines, fill, load, machine, measured, medians, meter_lines, places, query, register_line, serve, shares

STEP = 2000
# Meters of the polled device, how many polls at once, devices.
SITES = [(512, 16, 1), (512, 1, 1), (32, 1, 1), (32, 1, 64)]
ROWS = [1, 10_000, 350_000]


def history(meter, quarters, end):
    """Returns the rows of a meter that was read at most once in STEP quarter hours, and now."""
    begin = end - end % QUARTER - QUARTER * (quarters - 1)
    moments = [*range(begin + QUARTER * STEP, end, QUARTER * STEP), end]
    entries = [(meter, 1, 1, begin, 0, 0, 0, 0)]
    entries += [(meter, place, 2, at, BEGUN * (at - begin) // (end - begin), 0, 0, 0) for place, at in enumerate(moments, 2)]
    energy = {}
    for (*_, was, before, _, _, _), (*_, at, raw, _, _, _) in zip(entries, entries[1:]):
        for start, mwh in shares(was, at, 1000 * (raw - before)):
            energy[start] = energy.get(start, 0) + mwh
    return entries, [(meter, *it) for it in energy.items()]


def filled(db, meters, window, devices, quarters):
    """Makes a file of devices, with a meter for each of their reads.

    If there is 1 quarter hour, only the first meter has it."""
    end, lines = int(time.time()) - 10, []
    for at in range(devices):
        name = f"d{at}"
        lines += device_lines(at + 1, name, window, meters)
        for read in range(meters):
            place = at * meters + read + 1
            meter = f"m{place}"
            entries, rows = history(meter, quarters, end) if place == 1 or quarters > 1 else ([(meter, 1, 1, end, BEGUN, 0, 0, 0)], [])
            lines += [register_line(place, name, read), *meter_lines(place, place, entries, rows)]
    fill(db, lines)


def compare(place, room, words, row, rows, turns):
    """Returns one row of the table."""
    meters, window, devices = row
    files = {name: room / f"{name}.db" for name in words}
    first, *others = files.values()
    filled(first, meters, window, devices, max(1, round(rows / (meters * devices))))
    for it in others:
        shutil.copy(first, it)
    found = int(query(first, "SELECT count(*) FROM intervals")[0])
    times = {name: room / f"{name}.times" for name in words}
    served = {name: serve(1, times[name])[0] for name in words}
    runs = {name: [] for name in words}
    for _ in range(turns):
        time.sleep(1.1)
        printed = {name: room / f"{name}.printed" for name in words}
        for name, of in words.items():
            runs[name].append(measured(of(files[name], "d0", served[name]), printed[name]))
        check_told(printed, window)
    time.sleep(0.1)
    check_same(files)
    entries = int(query(first, "SELECT count(*) FROM entries WHERE raw >= 1000")[0])
    if entries != meters * turns:
        sys.exit(f"store.py: {entries} readings were recorded, not {meters * turns}")
    stood = {name: statistics.median(map(float, it.read_text().split())) for name, it in times.items()}
    _, cost, opened = medians(runs["sunreg"])
    mine, size = stood["sunreg"], os.path.getsize(first)
    cells = [f"{meters}/{window}", devices * meters, f"{found:,}", place, f"{meters / mine:,.0f}", f"{1000 * (cost - opened):.0f} ms", f"{1000 * opened:.0f} ms"]
    for name in list(words)[1:]:
        _, price, before = medians(runs[name])
        cells += [ratio(stood[name], mine)] + ([ratio(price - before, cost - opened)] if name == "C" else [ratio(price, cost)])
    cells += [f"{size:,}", f"{size / os.path.getsize(files['C']):.2f}"]
    print("|", " | ".join(map(str, cells)), "|", flush=True)
    clear(room)


def main():
    program, turns = os.path.abspath(sys.argv[1]), int(sys.argv[2]) if len(sys.argv) > 2 else 5
    rooms = places()
    words = {name: it for name, it in offices(program).items() if name != "pymodbus"}
    machine(program)
    heads = ["Polls/at once", "Meters", "Rows", "Place", "sunreg, readings a second", "its processor time without opening", "of its opening"]
    heads += ["C: ratio by the clock", "of processor time", "Python: ratio by the clock", "of processor time with opening", "our file, bytes", "by C's"]
    print("|", " | ".join(heads), "|\n|" + "---|" * len(heads), flush=True)
    for row in SITES:
        for rows in ROWS:
            for place, room in rooms.items():
                # (on a disk commits are most of a round, for any number of rows)
                if place == "tmpfs" or rows == ROWS[-1]:
                    compare(place, room, words, row, rows, turns)
    print(f"load {load()} at the end", flush=True)


if __name__ == "__main__":
    main()
