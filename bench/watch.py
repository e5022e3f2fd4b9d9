#!/usr/bin/env python3
"""watch.py FILE: records the costs of the kit's processes on this machine, until it is stopped.

FILE gets a line of JSON for each process that has ended. The line has the process's words (cmd) and
the folder in which it began (cwd). Its costs are processor seconds (cpu) and the most bytes of
memory (rss). It was first and last seen at t0 and t1. The script looks once a second, so it misses
shorter processes, and the last second of each process.
`bench/gate.sh --log FILE` makes a table of the gate's costs from it, so the figures come from runs
that are made anyway.
"""
import json
import os
import re
import sys
import time

sys.dont_write_bytecode = True
import kit

TICKS, PAGE = os.sysconf("SC_CLK_TCK"), os.sysconf("SC_PAGE_SIZE")


def text_of(path):
    with open(path, encoding="utf-8", errors="replace") as it:
        return it.read()


class Watch:
    """The processes that run a file of the kit, or a program that rt built and runs."""

    def __init__(self, folder):
        self.folder, self.running = os.path.realpath(folder) + "/", {}

    def look(self):
        """Looks once, and returns the records of processes that have ended since."""
        now, seen = time.time(), set()
        for number in filter(str.isdigit, os.listdir("/proc")):
            try:
                state = text_of(f"/proc/{number}/stat").rpartition(")")[2].split()
                one = number, state[19]
                if one not in self.running and not self.begin(one, now):
                    continue
                seen.add(one)
                told = self.running[one]
                told["cpu"], told["t1"] = (int(state[11]) + int(state[12])) / TICKS, now
                told["rss"] = max(told["rss"], int(state[21]) * PAGE, self.most(number))
            except (OSError, ValueError):
                # (the process has ended meanwhile, or belongs to another user)
                continue
        return [self.running.pop(it) for it in [*self.running] if it not in seen]

    def begin(self, one, now):
        """Begins the record of a process if it is to be watched, and returns whether it is."""
        file = os.readlink(f"/proc/{one[0]}/exe")
        if file.startswith(self.folder) or "/rt-run-" in file:
            words = text_of(f"/proc/{one[0]}/cmdline").replace("\0", " ").strip()
            self.running[one] = {"pid": int(one[0]), "cmd": words, "cwd": os.readlink(f"/proc/{one[0]}/cwd"), "t0": now, "cpu": 0, "rss": 0, "t1": now}
        return one in self.running

    def most(self, number):
        """Returns the most memory that a process has held."""
        found = re.search(r"VmHWM:\s+(\d+)", text_of(f"/proc/{number}/status"))
        return 1024 * int(found[1]) if found else 0


def main(path):
    watch = Watch(kit.folder_of_kit())
    with open(path, "a", buffering=1, encoding="utf-8") as out:
        while True:
            for told in watch.look():
                out.write(json.dumps(told) + "\n")
            time.sleep(1)


if __name__ == "__main__":
    if len(sys.argv) != 2 or sys.argv[1].startswith("-"):
        sys.exit(__doc__)
    try:
        main(sys.argv[1])
    except KeyboardInterrupt:
        pass
