"""asking.py PROGRAM: measures how long a client of a running office waits while the office polls.

bench/asking.sh runs it. The client sends one request after the other, each on a new connection,
from the second round on.
"""
import os
import statistics
import subprocess
import sys
import time
import urllib.request

from sites import clear, free_port, load, machine, places, serve, site, start

DEVICES, METERS, WINDOW, SECONDS = 64, 32, 16, 20
QUESTION, PAUSE = "registers/r1/days", 0.003


def commit(room):
    """Returns the median milliseconds of a commit: two writes of pages of a file, each with a sync
    to the disk."""
    page, took = os.urandom(8192), []
    with open(room / "commit", "wb", buffering=0) as it:
        it.write(page * 256)
        os.fsync(it.fileno())
        for n in range(200):
            began = time.monotonic()
            os.pwrite(it.fileno(), page, n * len(page))
            os.fdatasync(it.fileno())
            took.append(1000 * (time.monotonic() - began))
    return statistics.median(took)


def waits(program, room):
    """Returns the milliseconds that each request waited for its response."""
    db, port = str(room / "office.db"), free_port()
    names = site(db, DEVICES, METERS, METERS, WINDOW)
    addresses = ",".join(f"{it}=127.0.0.1:{at}" for it, at in zip(names, serve(DEVICES)))
    words = [program, "run", "--db", db, "--listen", str(port), "--every", "1", "--devices", addresses, "--for", str(SECONDS + 3)]
    start(words, port, stdout=subprocess.DEVNULL, stderr=subprocess.DEVNULL)
    time.sleep(2)
    took, until = [], time.monotonic() + SECONDS
    while time.monotonic() < until:
        began = time.monotonic()
        text = urllib.request.urlopen(f"http://127.0.0.1:{port}/{QUESTION}").read()
        took.append(1000 * (time.monotonic() - began))
        if not text.rstrip().split(b"\n")[-1].startswith(b"end "):
            sys.exit(f"asking.py: {text!r} is no complete response")
        time.sleep(PAUSE)
    return sorted(took)


def main():
    program = os.path.abspath(sys.argv[1])
    machine(program)
    print("| Place | Questions | A commit | The median wait | The 99th of 100 | in commits | The longest |\n|" + "---|" * 7)
    for place, room in places().items():
        one = commit(room)
        took = waits(program, room)
        late = took[len(took) * 99 // 100]
        print(f"| {place} | {len(took):,} | {one:.2f} ms | {statistics.median(took):.2f} ms | {late:.2f} ms | {late / one:.1f} | {took[-1]:.1f} ms |", flush=True)
        clear(room)
    print(f"load {load()} at the end", flush=True)


if __name__ == "__main__":
    main()
