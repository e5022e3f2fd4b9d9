"""site_replies.py PROGRAM: measures how long an office takes to list its registers and meters.

bench/site.sh runs it. It also measures the lists of each register's meters. The devices do not
exist, so the office does nothing else meanwhile. The processor time is that of the process.
"""
import os
import pathlib
import subprocess
import sys
import time
import urllib.request

from sites import clear, free_port, machine, places, site, start

DEVICES, METERS, TURNS = 64, 32, 5


def replies(program, db, devices):
    """Returns the processor milliseconds of some responses, the first one first, and the bytes of
    one."""
    port = free_port()
    words = [program, "run", "--db", db, "--listen", str(port), "--every", "3600", "--devices", ",".join(f"{it}=127.0.0.1:9" for it in devices)]
    child = start(words, port, stdout=subprocess.DEVNULL, stderr=subprocess.DEVNULL)
    time.sleep(1)
    told, ran = [], pathlib.Path(f"/proc/{child.pid}/schedstat")
    for _ in range(TURNS):
        before = int(ran.read_text().split()[0])
        text = urllib.request.urlopen(f"http://127.0.0.1:{port}/site").read()
        told.append((int(ran.read_text().split()[0]) - before) / 1e6)
        if text.count(b'"meter":"') != DEVICES * METERS:
            sys.exit("site_replies.py: a meter is missing")
    return told, len(text)


def lists(program, db):
    """Returns the processor milliseconds of the lists of each register's meters, and the clock
    seconds.

    A client that copies all meters requests them so: returns the time of all together, and of the
    slowest."""
    port = free_port()
    words = [program, "run", "--db", db, "--listen", str(port), "--every", "3600", "--devices", "d0=127.0.0.1:9"]
    child = start(words, port, stdout=subprocess.DEVNULL, stderr=subprocess.DEVNULL)
    time.sleep(1)
    # (so that the office has looked up each meter once)
    urllib.request.urlopen(f"http://127.0.0.1:{port}/site").read()
    ran, told, began = pathlib.Path(f"/proc/{child.pid}/schedstat"), [], time.monotonic()
    for place in range(1, DEVICES * METERS + 1):
        before = int(ran.read_text().split()[0])
        text = urllib.request.urlopen(f"http://127.0.0.1:{port}/registers/r{place}/meters").read()
        told.append((int(ran.read_text().split()[0]) - before) / 1e6)
        if not text.endswith(b"end 1\n"):
            sys.exit("site_replies.py: a register lacks its meter")
    return sum(told), max(told), time.monotonic() - began


def main():
    program = os.path.abspath(sys.argv[1])
    machine(program)
    room = places()["tmpfs"]
    print("| Meters | Devices that `run` polls | Bytes | The first response | Each later one |\n|" + "---|" * 5)
    for polled in (DEVICES, 1):
        db = str(room / "office.db")
        names = site(db, DEVICES, METERS, METERS, 1)
        (first, *later), size = replies(program, db, names[:polled])
        print(f"| {DEVICES * METERS:,} | {polled} | {size:,} | {first:.1f} ms | {min(later):.1f} to {max(later):.1f} ms |", flush=True)
        clear(room)
    db = str(room / "office.db")
    site(db, DEVICES, METERS, METERS, 1)
    whole, most, seconds = lists(program, db)
    print(f"\nThe meters of each of {DEVICES * METERS:,} registers, asked one after another: {whole:.0f} ms, {most:.1f} ms at most for one; {seconds:.1f} s by the clock.")
    clear(room)


if __name__ == "__main__":
    main()
