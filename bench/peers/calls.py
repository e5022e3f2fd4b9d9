"""calls.py PROGRAM..: counts what a settled poll calls.

bench/calls.sh runs it. Each program's `round`, and the offices in C and Python, poll a device once
under strace. They poll it once more while their statements are counted. A library that is loaded
before libsqlite3 counts those of the offices. Breakpoints of gdb count those of a sunreg program,
which links its own SQLite. All counts run from the connection to the device to its end, so they do
not include the opening.
"""
import os
import re
import subprocess
import sys
import time

from rounds import offices
from sites import clear, compiled, machine, places, run, serve, site

# Polls, how many of them at once, and how many of them have a meter.
ROUNDS = [(512, 1, 32), (512, 16, 32), (32, 1, 32), (32, 16, 32)]
CALL = re.compile(r"\d+ +(\w+)\((\d+)<([^>]*)>, ?(?:(\"[^\"]*\")\.*, (\d+))?.* = (-?\d+)")
CONNECTS = re.compile(r"\d+ +connect\((\d+)<.*AF_INET")
# The functions of the kit's `sqlite` that execute statements: those that read, and those that
# write. Each statement goes through one row of them, once. Of a row the first function counts that
# the compiler did not inline.
READING = (("connection::Connection::query_near",), ("connection::Connection::rows_near", "connection::Connection::query"))
WRITING = (("connection::Connection::execute_inside", "transaction::Transaction::execute"),)
HEADS = ["Polls/at once", "Office", "reads of tables", "writes of rows", "fdatasyncs", "bytes of the log", "of them zeros ahead", "of them a count", "writes into the file"]
FRAME = 4120
HEADS += ["writes to standard output", "sends", "takes"]


def traced(words, folder):
    """Yields the counts that strace sees of a program from its connection on, as pairs of a name
    and a number."""
    log = folder / "strace"
    calls = "trace=connect,close,write,writev,pwrite64,pwritev,fdatasync,fsync,sendto,recvfrom,read,poll"
    with open(folder / "printed", "w") as out:
        subprocess.run(["strace", "-f", "-y", "-s", "64", "-e", calls, "-o", str(log), *map(str, words)], stdin=subprocess.DEVNULL, stdout=out, check=True)
    socket = None
    for line in log.read_text(errors="replace").splitlines():
        if socket is None:
            socket = (CONNECTS.match(line) or [None, None])[1]
        elif found := re.match(r"\d+ +fdatasync\(|\d+ +fsync\(", line):
            yield "fdatasyncs", 1
        elif re.match(rf"\d+ +close\({socket}<", line):
            return
        elif found := CALL.match(line):
            call, number, name, text, _, got = found.groups()
            size = int(got)
            if call.startswith(("pwrite", "write")) and name.endswith("-wal"):
                yield "bytes of the log", size
                # (the kit's SQLite begins a commit that it syncs once with a frame of no page,
                # which counts the frames after it)
                if size == 8 and text.startswith('"\\377\\0\\0\\0'):
                    yield "of them a count", FRAME
                if size > 4096 and text and not text.strip('"').replace("\\0", ""):
                    yield "of them zeros ahead", size
            elif call.startswith(("pwrite", "write")) and name.endswith(".db"):
                yield "writes into the file", 1
            elif call.startswith("write") and number == "1":
                yield "writes to standard output", 1
            elif number == socket and call in ("sendto", "write"):
                yield "sends", 1
            elif number == socket and call in ("recvfrom", "read"):
                yield "takes", 1


def preloaded(words, folder):
    """Returns how many statements of an office over libsqlite3 only read, and how many write, from
    its connection on."""
    counts = folder / "counts"
    more = {"LD_PRELOAD": str(compiled("count_statements.so")), "COUNTS": str(counts)}
    subprocess.run([str(it) for it in words], env={**os.environ, **more}, stdin=subprocess.DEVNULL, stdout=subprocess.DEVNULL, check=True)
    return map(int, counts.read_text().split())


def addresses(program, rows):
    """Returns the addresses of these functions in a program, one of each row."""
    found = {name: int(at, 16) for at, name in re.findall(r"^(\w+) [tT] (.*?)(?:::<.*)?$", run("nm", program).stdout, re.M)}
    kept = [next((found[f"sqlite::{it}"] for it in row if f"sqlite::{it}" in found), None) for row in rows]
    return [] if None in kept else kept


def broken(words, folder):
    """Returns how many statements of a sunreg program read, and how many write, from its connection
    on.

    Returns dashes if the program lacks the functions' names."""
    program, *more = map(str, words)
    both = [addresses(program, it) for it in (READING, WRITING)]
    if [] in both:
        return "-", "-"
    # (gdb loads a position-independent program at the same address each time)
    base = 0x555555554000 if "DYN" in run("readelf", "-h", program).stdout else 0
    script = ["set pagination off", "set confirm off", "set breakpoint pending on", "starti", "tbreak connect"]
    for number, it in enumerate(sum(both, []), 2):
        script += [f"break *{base + it:#x}", f"ignore {number} 1000000000"]
    script += ["continue", "info breakpoints"] * 2
    told = run("gdb", "-nx", "-batch", *(it for line in script for it in ("-ex", line)), "--args", program, *more, limit=600).stdout
    hits = [{number: int(times) for number, times in re.findall(r"^(\d+) .*\n\s+breakpoint already hit (\d+) time", it, re.M)} for it in told.split("\nNum ")[1:]]
    if len(hits) != 2 or "exited normally" not in told:
        sys.exit(f"calls.py: gdb said {told[-600:]}")
    early, late = ([hits[at].get(str(number), 0) for number in range(2, 2 + len(sum(both, [])))] for at in (0, 1))
    more = [after - before for before, after in zip(early, late)]
    return sum(more[: len(both[0])]), sum(more[len(both[0]) :])


def row(row, name, words, count, folder):
    polls, window, meters = row
    db = folder / "office.db"
    device, = site(db, 1, polls, meters, window)
    port, = serve(1)
    # (the first round makes the interval rows)
    for turn in ("before", "traced", "counted"):
        time.sleep(1.1)
        of = words(db, device, port)
        if turn == "before":
            subprocess.run([str(it) for it in of], stdin=subprocess.DEVNULL, stdout=subprocess.DEVNULL, check=True)
        elif turn == "traced":
            sums = dict.fromkeys(HEADS[2:], 0)
            for what, much in traced(of, folder):
                sums[what] += much
        else:
            sums["reads of tables"], sums["writes of rows"] = count(of, folder)
    cells = [f"{polls}/{window}", name]
    for it in sums.values():
        cells.append(it if it == "-" else f"{it / polls:,.0f}" if it / polls >= 100 else f"{it / polls:.2f}")
    print("|", " | ".join(cells), "|", flush=True)
    clear(folder)


def main():
    programs = [os.path.abspath(it) for it in sys.argv[1:]]
    folder = places()["tmpfs"]
    machine(*programs)
    print("|", " | ".join(HEADS), "|\n|" + "---|" * len(HEADS), flush=True)
    peers = {name: it for name, it in offices(programs[0]).items() if name in ("C", "Python")}
    for it in ROUNDS:
        for at, program in enumerate(programs):
            name = "sunreg" if len(programs) == 1 else f"sunreg {'before after'.split()[at]}" if len(programs) == 2 else program
            row(it, name, offices(program)["sunreg"], broken, folder)
        for name, words in peers.items():
            row(it, name, words, preloaded, folder)


if __name__ == "__main__":
    main()
