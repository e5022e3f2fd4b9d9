"""stand_in.py PROGRAM CLIENT SERVER [READS]: times reads of the simulator beside another server.

bench/stand_in.sh runs it. Both serve the same registers to the same client, in turns; the best of
five runs counts.
"""
import os
import signal
import sys

from room import ROOM, free_port, run, start

TURNS = 5


def spent(child):
    """Ends a child, and returns its processor seconds."""
    os.kill(child.pid, signal.SIGKILL)
    _, _, usage = os.wait4(child.pid, 0)
    child.returncode = 0
    return usage.ru_utime + usage.ru_stime


def measured(words, client, reads, count):
    port = free_port()
    child = start([str(port) if it == "PORT" else it for it in words], port, "area holding 0 1000\n")
    done = run(client, str(port), str(reads), str(count), limit=600)
    if done.returncode:
        raise RuntimeError(f"{client}: {done.stderr}")
    return float(done.stdout), 1e6 * spent(child) / reads


def main():
    program, client, server = map(os.path.abspath, sys.argv[1:4])
    reads = int(sys.argv[4]) if len(sys.argv) > 4 else 20000
    (ROOM / "bank").write_text("holding 0 0\n")
    ours = [program, "stand-in", "--port", "PORT", "--connections", "1"]
    theirs = [server, "PORT", str(ROOM / "bank")] if "libmodbus" in server else [server, "PORT"]
    for count in (2, 125):
        runs = [(measured(ours, client, reads, count), measured(theirs, client, reads, count)) for _ in range(TURNS)]
        (mine, cost), (peer, price) = ((max(it[0] for it in side), min(it[1] for it in side)) for side in zip(*runs))
        print(f"{reads} reads of {count} registers: sunreg {mine:.0f} a second,"
              f" {os.path.basename(server)} {peer:.0f}, ratio {mine / peer:.2f};"
              f" processor time a read {cost:.1f} us, {price:.1f} us", flush=True)


main()
