#!/usr/bin/env python3
"""refused_in_file.py LIBRARY PROGRAM: refuses the allocations of the commands over a file.

LIBRARY is preloaded. The commands over one file are:
- `create`
- `serve` with the requests that set up a meter
- `round` against a device
- `exchange`, which is `serve` with the request that replaces the meter
- `report`

A run of each without refusals counts its allocations. Then REFUSED_MOST of them (100; 0 is each),
chosen at random, are refused, each alone. Then as many are refused with all later ones, over a copy
of the file as it was before. A run may end with status 1 (`refused 14`) or 3 (`failed` on standard
error). A request with the response `refused 14`, or without a complete response, changed nothing or
is done, so that a retry is done.

After each run the file is opened without refusals, and must be sound. Every poll has an outcome.
Each meter's energy is its last reading less its first. Each record that was printed or acknowledged
is there. The same command then does what it does in a run without refusals. If REFUSED_ONLY names
some of the commands, the others run without refusals.
"""
import collections
import concurrent.futures
import contextlib
import http.client
import itertools
import json
import os
import random
import shutil
import socket
import sqlite3
import subprocess
import sys
import tempfile
import threading
import time

ALL = 1 << 60
MOST = int(os.environ.get("REFUSED_MOST", "100"))  # of a command, alone and with all later ones; 0: each
ONLY = os.environ.get("REFUSED_ONLY", "").split()  # the commands whose allocations are refused; none: all
JOBS = int(os.environ.get("REFUSED_JOBS", "1"))  # the processes that share them, each with a file
SEED = int(os.environ.get("REFUSED_SEED", time.time_ns() % 1_000_000_007))
HOST, PORTS = "127.0.0.1", 16000
OPENING, SHOWN, CLOSING = 5000, 5200, 5300
# The requests of a command, each with its path and body; they are numbered from the first on.
SETTING_UP = (
    ("/devices", json.dumps({"name": "inv", "unit": 1, "timeout": 20, "window": 1})),
    ("/devices/inv/list", "name,function,area,address,type,scale\nwh,3,0,40094,acc32,\n"),
    ("/registers", json.dumps({"name": "main", "device": "inv", "function": 3, "address": 40094, "fixed": 0})),
    ("/registers/main/install", json.dumps({"meter": "m1", "raw": OPENING, "sf": 0, "ceiling": 1_000_000_000})),
)
EXCHANGING = (
    (
        "/registers/main/exchange",
        json.dumps({"last": CLOSING, "rolls": 0, "meter": "m2", "raw": 70, "sf": 0, "ceiling": 1_000_000_000}),
    ),
)
FIRST_SETTING_UP, FIRST_EXCHANGING = 0, 7
# The rows that requests set up or change, without timestamps.
COMMANDED = (
    "SELECT * FROM devices",
    "SELECT * FROM points",
    "SELECT * FROM registers",
    "SELECT meter, register, ceiling, ended, last_raw, last_sf, total FROM installations",
    "SELECT * FROM ranges",
    "SELECT meter, place, kind, raw, rolls, sf FROM entries",
    "SELECT caller, number, request, kind FROM replies",
)
# Of each meter its total, the sum of its intervals, and its last reading less its first, in mWh. No
# counter rolls over, and all scales are 0.
ENERGY = """
    SELECT meter, total,
        (SELECT coalesce(sum(mwh), 0) FROM intervals WHERE intervals.meter = installations.meter),
        1000 * (last_raw - (SELECT raw FROM entries WHERE entries.meter = installations.meter AND place = 1))
    FROM installations
"""

Ran = collections.namedtuple("Ran", "status lines said seen calls")


class Wrong(Exception):
    """The reason why a run is wrong."""


def needs(is_so, why):
    if not is_so:
        raise Wrong(why)


class Device(threading.Thread):
    """Answers every request with the same counter."""

    def __init__(self):
        super().__init__(daemon=True)
        self.listener = socket.create_server((HOST, 0))
        self.port = self.listener.getsockname()[1]

    def run(self):
        while True:
            link, _ = self.listener.accept()
            try:
                while asked := link.recv(260):
                    link.sendall(asked[:4] + b"\0\7" + asked[6:8] + b"\4" + SHOWN.to_bytes(4, "big"))
            except OSError:
                pass
            link.close()


class Files:
    """The program, and the file of its commands."""

    def __init__(self, library, program, room, share):
        self.library, self.program, self.room = library, program, room
        first = PORTS + 500 * share  # (below the system's own range)
        self.ports = itertools.cycle(range(first, first + 500))
        self.file = f"{room}/now/office.db"
        self.device = Device()
        self.device.start()
        os.mkdir(f"{room}/now")

    def free_port(self):
        """Returns a port that only this share uses."""
        for port in self.ports:
            with contextlib.suppress(OSError), socket.create_server((HOST, port)):
                return port

    def keep(self, name):
        shutil.rmtree(f"{self.room}/{name}", ignore_errors=True)
        shutil.copytree(f"{self.room}/now", f"{self.room}/{name}")

    def bring(self, name):
        shutil.rmtree(f"{self.room}/now")
        shutil.copytree(f"{self.room}/{name}", f"{self.room}/now")

    def run(self, words, first=0, last=0, play=None):
        """Runs a command with its allocations from `first` to `last` refused."""
        with tempfile.NamedTemporaryFile(prefix="calls-") as counts:
            counts.write(bytes(8))
            counts.flush()
            env = {"LD_PRELOAD": self.library, "COUNTS": counts.name, "REFUSE_FIRST": str(first), "REFUSE_LAST": str(last)}
            pipes = {"stdin": subprocess.DEVNULL, "stdout": subprocess.PIPE, "stderr": subprocess.PIPE}
            running = subprocess.Popen([self.program, words[0], "--db", self.file, *words[1:]], env=env, **pipes)
            seen = play(running) if play else None
            try:
                printed, said = running.communicate(timeout=60)
            except subprocess.TimeoutExpired:
                running.kill()
                running.communicate()
                raise Wrong("it did not end within 60 seconds") from None
            with open(counts.name, "rb") as it:
                calls = int.from_bytes(it.read(8), sys.byteorder)
        needs(running.returncode in (0, 1, 3), f"status {running.returncode}: {said[-300:]}")
        is_said = said.startswith(b"failed\nsunreg: ") and said.count(b"\n") == 2 and said.endswith(b"\n")
        needs(is_said if running.returncode == 3 else not said, f"status {running.returncode}, and it says {said[-300:]}")
        return Ran(running.returncode, printed.decode().splitlines(), said, seen, calls)

    def rows(self, query, name="now"):
        """Returns rows of a copy, so that the file stays as the program left it."""
        shutil.rmtree(f"{self.room}/copy", ignore_errors=True)
        shutil.copytree(f"{self.room}/{name}", f"{self.room}/copy")
        books = sqlite3.connect(f"{self.room}/copy/office.db")
        found = books.execute(query).fetchall()
        books.close()
        return found

    def is_whole(self):
        needs(self.rows("PRAGMA integrity_check") == [("ok",)], "the file is not whole")
        needs(not self.rows("PRAGMA foreign_key_check"), "a row refers to none")
        needs(not self.rows("SELECT poll FROM polls WHERE poll NOT IN (SELECT poll FROM outcomes)"), "a poll has no outcome")
        for meter, total, booked, shown in self.rows(ENERGY):
            needs(total == booked == shown, f"{meter}: the total is {total}, the intervals have {booked}, and it showed {shown}")

    def commanded(self, name):
        return [self.rows(query, name) for query in COMMANDED]


def connection(running, port):
    """Returns a connection to a program, or none if it has ended."""
    while running.poll() is None:
        try:
            return socket.create_connection((HOST, port), timeout=60)
        except OSError:
            time.sleep(0.002)
    return None


def ask(running, port, number, request):
    """Returns the status and the body of the response to a request, or none without a complete
    one."""
    link = http.client.HTTPConnection(HOST, port, timeout=60)
    link.sock = connection(running, port)
    if link.sock is None:
        return None
    try:
        path, body = request
        link.request("POST", path, body, {"Office-Caller": "desk", "Office-Request": str(number)})
        answer = link.getresponse()
        return answer.status, json.loads(answer.read())
    except (OSError, http.client.HTTPException, ValueError):
        return None
    finally:
        link.close()


def asking(port, connections, requests, number):
    """Sends requests, numbered from that number on, and uses up the connections.

    It retries each one until a response says that it is done."""

    def play(running):
        replies = []
        for at, request in enumerate(requests, number):
            replies.append([ask(running, port, at, request)])
            if len(replies) + sum(len(it) - 1 for it in replies) < connections and (replies[-1][0] or (0,))[0] != 200:
                replies[-1].append(ask(running, port, at, request))
        while running.poll() is None:
            link = connection(running, port)
            if link:
                link.close()
        return replies

    return play


def create(files, first=0, last=0):
    return files.run(("create", "--zone", "UTC0"), first, last)


def serve(files, requests, number, first, last):
    """Serves requests, numbered from that number on, and one retry."""
    port, connections = files.free_port(), len(requests) + 1
    words = ("serve", "--port", str(port), "--connections", str(connections))
    return files.run(words, first, last, asking(port, connections, requests, number))


def set_up(files, first=0, last=0):
    return serve(files, SETTING_UP, FIRST_SETTING_UP, first, last)


def exchange(files, first=0, last=0):
    return serve(files, EXCHANGING, FIRST_EXCHANGING, first, last)


def poll(files, first=0, last=0):
    return files.run(("round", "--device", "inv", "--port", str(files.device.port)), first, last)


def report(files, first=0, last=0):
    return files.run(("report", "--register", "main"), first, last)


def judge_create(files, ran, whole, is_alone):
    needs(not ran.lines, f"it prints {ran.lines}")
    needs(ran.status in (0, 3), f"status {ran.status}")
    again = create(files).status
    needs(again == (3 if ran.status == 0 else 0), f"after status {ran.status} create ends with {again}")


def judge_set_up(files, ran, whole, is_alone):
    judge_serve(files, ran, whole, is_alone, set_up, FIRST_SETTING_UP)


def judge_exchange(files, ran, whole, is_alone):
    judge_serve(files, ran, whole, is_alone, exchange, FIRST_EXCHANGING)


def judge_serve(files, ran, whole, is_alone, command, first):
    """Judges a run of a command whose requests are numbered from the first on."""
    needs(ran.status != 1 or ran.lines == ["refused 14"], f"it prints {ran.lines}")
    for replies in ran.seen:
        for reply in replies:
            is_done = reply is not None and reply[0] == 200
            needs(is_done or reply in (None, (503, {"refused": 14})) or not is_alone, f"a reply {reply}")
        is_over = ran.status != 0
        needs(not is_alone or is_over or (replies[-1] or (0,))[0] == 200, f"a repeat gets {replies}")
    kept = {number for (number,) in files.rows("SELECT number FROM replies")}
    for number, replies in enumerate(ran.seen, first):
        statuses = {reply and reply[0] for reply in replies}
        needs(200 not in statuses or number in kept, f"request {number} was answered {replies}, and is not kept")
        needs(statuses != {503} or number not in kept, f"request {number} was answered {replies}, and is kept")
    again = command(files)
    needs([it[-1] for it in again.seen] == [it[-1] for it in whole.seen], f"asked again, it answers {again.seen}")
    now, after = files.commanded("now"), files.commanded("after")
    needs(now == after, f"the file holds {now}, and not {after}")
    files.is_whole()


def judge_round(files, ran, whole, is_alone):
    needs(report(files).status == 0, "the office does not open behind it")
    files.is_whole()
    booked = [raw for (raw,) in files.rows("SELECT raw FROM entries WHERE kind = 2")]
    needs(booked in ([], [SHOWN]), f"{booked} were booked")
    answered = [poll for (poll,) in files.rows("SELECT poll FROM outcomes WHERE outcome = 1")]
    ended = [int(line.split()[1]) for line in ran.lines if line.startswith("poll ") and line.endswith(" answered")]
    needs(all(poll in answered for poll in ended), f"polls {ended} were answered, and {answered} are so in the file")
    told = [int(line.split()[2]) for line in ran.lines if line.startswith("reading ")]
    needs(all(raw in booked for raw in told), f"told {told}, and booked {booked}")
    needs(ran.status != 0 or ran.lines == whole.lines, f"it prints {ran.lines}")
    needs(ran.status != 1 or ran.lines[-1] == "refused 14", f"it prints {ran.lines}")
    time.sleep(max(0.0, 1.0 - time.time() % 1.0) if booked else 0.0)
    again = poll(files)
    needs(again.status == 0 and any(line.endswith(" answered") for line in again.lines), f"the next round prints {again.lines}")


def judge_report(files, ran, whole, is_alone):
    begun = ran.lines[:-1] if ran.status == 1 else ran.lines
    needs(begun == whole.lines[: len(begun)], f"it prints {ran.lines}")
    needs(ran.status != 0 or ran.lines == whole.lines, f"it prints {ran.lines}")
    needs(ran.status != 1 or ran.lines[-1] == "refused 14", f"it prints {ran.lines}")
    again = report(files)
    needs((again.status, again.lines) == (0, whole.lines), f"then it prints {again.lines}")
    files.is_whole()


COMMANDS = (
    ("create", create, judge_create),
    ("serve", set_up, judge_set_up),
    ("round", poll, judge_round),
    ("exchange", exchange, judge_exchange),
    ("report", report, judge_report),
)


def try_all(files, share, name, command, judge):
    """Refuses the allocations of a command that belong to a share, and counts the results; None is
    a wrong run."""
    files.keep("before")
    whole = command(files)
    files.keep("after")
    if whole.status or not whole.calls:
        raise Wrong(f"{name}: with none refused it ends with status {whole.status} after {whole.calls} allocations: {whole.said[-200:]}")
    if any(it[0] is None or it[0][0] != 200 for it in whole.seen or ()):
        raise Wrong(f"{name}: with none refused it answers {whole.seen}")
    files.is_whole()
    if ONLY and name not in ONLY:
        return None
    counted = {}
    for how, last in (("alone", 0), ("and all later ones", ALL)):
        ends = counted[name, how] = collections.Counter()
        for number in tried(whole.calls, f"{SEED} {name} {how}")[share::JOBS]:
            files.bring("before")
            try:
                ran = command(files, number, last or number)
                judge(files, ran, whole, not last)
                ends[ended_so(ran)] += 1
            except Wrong as why:
                ends[None] += 1
                print(f"{name}: allocation {number} {how}: {why}", flush=True)
    files.bring("after")
    return whole.calls, counted


def ended_so(ran):
    """Returns how a run ended, in few words."""
    first = [it[0] for it in ran.seen or ()]
    without = " and a request without a reply" * (ran.status == 0 and None in first)
    refused = " and a request refused 14" * any(it is not None and it[0] == 503 for it in first)
    return f"with status {ran.status}{without}{refused}"


def tried(calls, seed):
    """Returns numbers from 1 to a count: all, or MOST of them at random, with the first and the
    last ones."""
    if MOST == 0 or calls <= MOST:
        return range(1, calls + 1)
    ends = {1, 2, 3, calls - 1, calls}
    return sorted(ends | set(random.Random(seed).sample(range(1, calls + 1), MOST)))


def try_share(library, program, share):
    """Tries the allocations of each command that belong to a share."""
    with tempfile.TemporaryDirectory(prefix="refused-") as room:
        files = Files(library, program, room, share)
        found = []
        for command in COMMANDS:
            found.append(try_all(files, share, *command))
            time.sleep(1.0)  # (no reading or exchange works in the second of the last entry)
        return [it for it in found if it]


def try_commands(library, program):
    """Tries each command in turn, and returns the numbers of right and wrong runs of each."""
    lacking = {*ONLY} - {name for name, *_ in COMMANDS}
    if lacking:
        raise Wrong(f"REFUSED_ONLY names {', '.join(sorted(lacking))}, and no such command is tried")
    print(f"commands over a file: seed {SEED}", flush=True)
    with concurrent.futures.ProcessPoolExecutor(JOBS) as pool:
        shares = list(pool.map(try_share, [library] * JOBS, [program] * JOBS, range(JOBS)))
    counts = []
    for parts in zip(*shares):
        right, failed = 0, 0
        for name, how in parts[0][1]:
            ends = sum((counted[name, how] for _, counted in parts), collections.Counter())
            count, wrong = sum(ends.values()), ends.pop(None, 0)
            ended = ", ".join(f"{times} {end}" for end, times in sorted(ends.items()))
            print(f"{name}: {count} of {parts[0][0]} allocations refused {how}: {ended}", flush=True)
            right, failed = right + count - wrong, failed + wrong
        counts.append((right, failed))
    return counts


def main(library, program):
    counts = try_commands(library, program)
    failed = sum(it for _, it in counts)
    print(f"{sum(it for it, _ in counts)} passed, {failed} failed")
    return 1 if failed else 0


if __name__ == "__main__":
    if len(sys.argv) != 3:
        sys.exit(__doc__)
    sys.exit(main(*map(os.path.abspath, sys.argv[1:])))
