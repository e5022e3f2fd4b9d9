"""run_carry.py PROGRAM ROOM [--short]: see run_carry.sh."""
import contextlib
import glob
import os
import random
import shutil
import signal
import socket
import sqlite3
import subprocess
import sys
import threading
import time
from datetime import datetime, timezone

PROGRAM, ROOM = sys.argv[1], sys.argv[2]
IS_SHORT = "--short" in sys.argv
KILLS = int(os.environ.get("KILLS", "5" if IS_SHORT else "30"))
ZURICH = "CET-1CEST,M3.5.0,M10.5.0/3"
EVERY = 2
NOBODY = 65534
CHILDREN = []
passed = failed = 0


def holds(what, is_so, got=""):
    """Counts whether a condition holds."""
    global passed, failed
    if is_so:
        passed += 1
    else:
        failed += 1
        print(f"{what}: {got!r}", flush=True)


def same(what, got, wanted):
    holds(what, got == wanted, (got, wanted))


def moment(*parts):
    """Returns the timestamp of a time in UTC."""
    return int(datetime(*parts, tzinfo=timezone.utc).timestamp())


def library():
    found = glob.glob("/usr/lib/*/faketime/libfaketime.so.1") + glob.glob("/usr/lib/faketime/libfaketime.so.1")
    if not found:
        print("run_carry: no faketime here, and nothing can be tried without it", file=sys.stderr)
        sys.exit(2)
    return found[0]


LIBRARY = library()


class Clock:
    """The clock of processes, which can be set. Without a setting it runs as it is."""

    def __init__(self, name, at):
        self.path = f"{ROOM}/{name}.clock"
        self.set(at)

    def set(self, at):
        self.offset = round(at - time.time())
        with open(self.path + ".new", "w") as file:
            file.write(f"{self.offset:+d}")
        os.rename(self.path + ".new", self.path)

    def surroundings(self):
        names = ("FAKETIME_NO_CACHE", "FAKETIME_DONT_FAKE_MONOTONIC", "DONT_FAKE_MONOTONIC", "NO_FAKE_STAT")
        return {"LD_PRELOAD": LIBRARY, "FAKETIME_TIMESTAMP_FILE": self.path, **{name: "1" for name in names}}


class Process:
    """A process of the program, whose lines are kept with the times at which they came."""

    def __init__(self, *words, clock, stderr=subprocess.PIPE, user=None, folder=None):
        self.lines, self.said = [], []
        self.begun = time.monotonic()
        self.child = subprocess.Popen(
            [PROGRAM, *words], stdin=subprocess.DEVNULL, stdout=subprocess.PIPE, stderr=stderr, text=True, env={**os.environ, **clock.surroundings()}, user=user, cwd=folder,
        )
        CHILDREN.append(self.child)
        for stream, lines in ((self.child.stdout, self.lines), (self.child.stderr, self.said)):
            if stream is not None:
                threading.Thread(target=self.keep, args=(stream, lines), daemon=True).start()

    def keep(self, stream, lines):
        for line in stream:
            lines.append((time.monotonic(), line.rstrip("\n")))

    def wait_for(self, words, seconds=20, count=1):
        """Returns whether so many lines with these words have come, on either stream."""
        until = time.monotonic() + seconds
        while time.monotonic() < until:
            if sum(words in line for _, line in [*self.lines, *self.said]) >= count:
                return True
            time.sleep(0.01)
        return False

    def count(self, words):
        return sum(words in line for _, line in [*self.lines, *self.said])

    def told(self):
        return [line for _, line in [*self.lines, *self.said]]

    def rounds(self):
        """Returns the ends of rounds whose polls were answered."""
        return [at for at, line in self.lines if "round answered" in line]

    def end(self, with_signal=signal.SIGTERM):
        if self.child.poll() is None:
            self.child.send_signal(with_signal)
        self.child.wait(20)


class Device:
    """A Modbus device whose counter follows the time, with a log of the values that it sent."""

    def __init__(self):
        self.begun, self.log, self.streams = time.monotonic(), [], []
        self.listener = socket.create_server(("127.0.0.1", 0))
        self.port = self.listener.getsockname()[1]
        threading.Thread(target=self.accept, args=(self.listener,), daemon=True).start()

    def raw(self):
        return 5000 + int(100 * (time.monotonic() - self.begun))

    def stop(self):
        """Refuses new connections, and closes the present ones. The counter keeps counting."""
        self.listener.shutdown(socket.SHUT_RDWR)
        self.listener.close()
        for stream in self.streams:
            with contextlib.suppress(OSError):
                stream.shutdown(socket.SHUT_RDWR)

    def start(self):
        """Accepts connections again, at the same port."""
        self.listener = socket.create_server(("127.0.0.1", self.port))
        threading.Thread(target=self.accept, args=(self.listener,), daemon=True).start()

    def accept(self, listener):
        while True:
            try:
                stream, _ = listener.accept()
            except OSError:
                return
            self.streams.append(stream)
            threading.Thread(target=self.serve, args=(stream,), daemon=True).start()

    def serve(self, stream):
        with stream:
            pending = b""
            while True:
                try:
                    more = stream.recv(4096)
                except OSError:
                    return
                if not more:
                    return
                pending += more
                while len(pending) >= 12:
                    request, pending = pending[:12], pending[12:]
                    raw = self.raw()
                    data = raw.to_bytes(4, "big")
                    try:
                        stream.sendall(request[:4] + bytes([0, 3 + len(data), request[6], request[7], len(data)]) + data)
                    except OSError:
                        return
                    self.log.append((time.monotonic(), raw))


def wait_until(is_so, seconds):
    """Waits until a condition holds, and returns whether it held in time."""
    until = time.monotonic() + seconds
    while not is_so():
        if time.monotonic() > until:
            return False
        time.sleep(0.05)
    return True


def free_port():
    with socket.create_server(("127.0.0.1", 0)) as listener:
        return listener.getsockname()[1]


def call(*words, clock, text="", user=None):
    return subprocess.run([PROGRAM, *words], input=text, capture_output=True, text=True, env={**os.environ, **clock.surroundings()}, user=user)


def office(name, file, zone, clock, user=None):
    """Makes an office with the device inv and its meter m1, which was installed at 5000, and
    returns its file."""
    folder = f"{ROOM}/{name}"
    os.mkdir(folder)
    if user is not None:
        os.chown(folder, user, user)
    path = f"{folder}/{file}"
    same(f"{name}: create", call("create", "--db", path, "--zone", zone, clock=clock, user=user).returncode, 0)
    with open(f"{folder}/inv.csv", "w") as rows:
        rows.write("name,function,area,address,type,scale\nwh,3,0,40094,acc32,\n")
    lines = f"1 device inv 1 5 1\n2 list inv @{folder}/inv.csv\n3 register main inv 3 40094 0\n4 install main m1 5000 0 1000000000\n"
    entered = call("enter", "--db", path, "--caller", "site", clock=clock, text=lines, user=user)
    same(f"{name}: enter", (entered.returncode, entered.stdout), (0, "ok\nok\nok\nok\n"))
    return path


def begin(path, period, device, clock, *words, named=None, others="", **more):
    """Starts a run over an office's files. `others` are devices beside inv, with their addresses."""
    port = free_port()
    run = Process(
        "run", "--db", named or path, "--carry", period, "--listen", str(port), "--every", str(EVERY), "--devices", f"inv=127.0.0.1:{device.port}{others}", *words, clock=clock, **more,
    )
    run.port = port
    return run


def files_of(path):
    """Returns the names of an office's files, the one in use last: its first one, and then those of
    periods."""
    folder, name = os.path.split(path)
    stem = name.removesuffix(".db")
    others = sorted(it for it in os.listdir(folder) if it.startswith(f"{stem}-2") and not it.endswith(("-wal", ".part")))
    return [name, *others]


def asked(path, sql):
    """Returns what sqlite3 reads in a copy of a file and its log."""
    copy = f"{ROOM}/asked.db"
    for end in ("", "-wal", "-shm"):
        if os.path.exists(copy + end):
            os.unlink(copy + end)
        if end != "-shm" and os.path.exists(path + end):
            shutil.copy(path + end, copy + end)
    with sqlite3.connect(copy) as it:
        rows = it.execute(sql).fetchall()
    it.close()
    return rows


def energy(path, clock, register="main"):
    """Returns the energy of a register in a file, in mWh, of all days."""
    told = call("report", "--db", path, "--register", register, clock=clock)
    if told.returncode != 0:
        return None
    return sum(int(line.split()[2]) for line in told.stdout.splitlines() if not line.startswith("end"))


def holds_energy(what, path, clock, is_audited=True):
    """All files together have the counter's increase from the opening to the last entry.

    Nothing is lost, and nothing is there twice."""
    folder = os.path.dirname(path)
    names = files_of(path)
    each = [energy(f"{folder}/{name}", clock) for name in names]
    last = asked(f"{folder}/{names[-1]}", "SELECT last_raw FROM installations WHERE ended = 0")
    holds(f"{what}: each file tells its energy", None not in each, (names, each))
    same(f"{what}: energy of {names}", sum(it or 0 for it in each), (last[0][0] - 5000) * 1000)
    if is_audited:
        for name in names:
            audit = call("audit", "--db", f"{folder}/{name}", clock=clock)
            holds(f"{what}: audit of {name}", audit.returncode == 0 and audit.stdout.startswith("fine:"), audit.stdout + audit.stderr)


class Asker:
    """Sends HTTP requests to a run all the time, and keeps the longest time without a response."""

    def __init__(self, port):
        self.port, self.away, self.ends = port, 0.0, False
        self.thread = threading.Thread(target=self.ask, daemon=True)
        self.thread.start()

    def is_answered(self):
        try:
            with socket.create_connection(("127.0.0.1", self.port), timeout=5) as stream:
                stream.sendall(b"GET /meters/m1 HTTP/1.1\r\nHost: localhost\r\n\r\n")
                return stream.recv(12) == b"HTTP/1.1 200"
        except OSError:
            return False

    def ask(self):
        answered = time.monotonic()
        while not self.ends:
            if self.is_answered():
                now = time.monotonic()
                self.away = max(self.away, now - answered)
                answered = now
            time.sleep(0.02)

    def end(self):
        self.ends = True
        self.thread.join()
        return self.away


def crossing(name, file, zone, period, end, before, after, seconds=8):
    """A run over the end of a period."""
    clock = Clock(name, end - 7200)
    path = office(name, file, zone, clock)
    folder = os.path.dirname(path)
    clock.set(end - seconds)
    device = Device()
    run = begin(path, period, device, clock)
    holds(f"{name}: it listens", run.wait_for(f"listening {run.port}"), run.told())
    same(f"{name}: the first file is told", run.count(f"sunreg: {path}: carried 1 meters into {folder}/{before}"), 1)
    asker = Asker(run.port)
    crossed = f"sunreg: {folder}/{before}: carried 1 meters into {folder}/{after}"
    holds(f"{name}: the next one too", run.wait_for(crossed, seconds + 10), run.told())
    at = next((at for at, line in run.said if crossed in line), 0.0)
    holds(f"{name}: rounds go on", wait_until(lambda: sum(it > at for it in run.rounds()) >= 2, 10 * EVERY), run.told())
    away = asker.end()
    run.end()
    wanted = time.monotonic() + end - (time.time() + clock.offset)
    holds(f"{name}: it is begun soon after the end", 0 <= at - wanted <= 1 + EVERY, at - wanted)
    same(f"{name}: files", files_of(path), [file, before, after])
    rounds = run.rounds()
    gap = max((later - one for one, later in zip(rounds, rounds[1:])), default=1e9)
    holds(f"{name}: it polls within two rounds", gap <= 2 * EVERY + 0.5, gap)
    holds(f"{name}: a round before and after", any(it < at for it in rounds) and any(it > at for it in rounds), (rounds, at))
    holds(f"{name}: HTTP is soon back", away < EVERY, away)
    print(f"run_carry: {name}: HTTP was away for {1000 * away:.0f} ms, and {gap:.1f} s passed from round to round at most (of {EVERY} s)", flush=True)
    for it in (before, after):
        same(f"{name}: {it} is its owner's alone", oct(os.stat(f"{folder}/{it}").st_mode & 0o777), "0o600")
    same(f"{name}: the last round is the old file's", asked(f"{folder}/{after}", "SELECT min(moment) FROM entries")[0][0] >= end, True)
    holds_energy(name, path, clock)
    kept = [open(f"{folder}/{it}", "rb").read() for it in (file, before)]
    run = begin(path, period, device, clock)
    holds(f"{name}: it goes on", run.wait_for("round answered", 20), run.told())
    same(f"{name}: and carries nothing", run.count("carried"), 0)
    run.end()
    same(f"{name}: the files before stay as they are", [open(f"{folder}/{it}", "rb").read() for it in (file, before)], kept)
    same(f"{name}: and there is no other", files_of(path), [file, before, after])
    holds_energy(f"{name}, going on", path, clock)


def holds_log(what, path, clock, register, meter, device):
    """The readings in all files together are values that the device sent, in order. The energy of
    the files is the increase from the opening to the last reading."""
    folder = os.path.dirname(path)
    rows = [row for name in files_of(path) for row in asked(f"{folder}/{name}", f"SELECT moment, raw FROM entries WHERE meter = '{meter}' AND kind = 2 ORDER BY place")]
    sent = {raw: clock.offset + time.time() - time.monotonic() + at for at, raw in device.log}
    same(f"{what}: readings of {meter} that {register} never sent", [raw for _, raw in rows if raw not in sent], [])
    late = [(at, raw) for at, raw in rows if raw in sent and abs(at - sent[raw]) > 2]
    same(f"{what}: readings of {meter} at another time", late, [])
    same(f"{what}: readings of {meter} in order", rows, sorted(set(rows)))
    told = sum(energy(f"{folder}/{name}", clock, register) or 0 for name in files_of(path))
    same(f"{what}: energy of {register}", told, (rows[-1][1] - 5000) * 1000 if rows else None)
    return rows


def two_devices():
    """One of two devices is dead over the end of a month, while a backup runs. Its first reading
    after the month's end books what it counted meanwhile."""
    end = moment(2026, 12, 1)
    clock = Clock("two", end - 7200)
    path = office("two", "office.db", "UTC0", clock)
    folder = os.path.dirname(path)
    lines = f"5 device aux 1 5 1\n6 list aux @{folder}/inv.csv\n7 register side aux 3 40094 0\n8 install side m2 5000 0 1000000000\n"
    entered = call("enter", "--db", path, "--caller", "site", clock=clock, text=lines)
    same("two: enter", (entered.returncode, entered.stdout), (0, "ok\nok\nok\nok\n"))
    clock.set(end - 12)
    main, side = Device(), Device()
    run = begin(path, "month", main, clock, others=f",aux=127.0.0.1:{side.port}")
    holds("two: both are polled", wait_until(lambda: len(main.log) > 1 and len(side.log) > 1, 20), run.told())
    side.stop()
    dead = len(side.log)
    copy = f"{folder}/copy.db"
    saved = call("backup", "--db", f"{folder}/office-2026-11.db", "--to", copy, clock=clock)
    same("two: backup", (saved.returncode, saved.stderr), (0, ""))
    holds("two: both meters are rolled over", run.wait_for(f"carried 2 meters into {folder}/office-2026-12.db", 30), run.told())
    before = len(main.log)
    holds("two: the other device is polled", wait_until(lambda: len(main.log) >= before + 2, 20), run.told())
    same("two: the dead device sent nothing", len(side.log), dead)
    side.start()
    holds("two: the device is polled again", wait_until(lambda: len(side.log) >= dead + 2, 60), run.told())
    time.sleep(EVERY)
    run.end()
    same("two: files", files_of(path), ["office.db", "office-2026-11.db", "office-2026-12.db"])
    holds_log("two", path, clock, "main", "m1", main)
    rows = holds_log("two", path, clock, "side", "m2", side)
    # (the first two files end before the device died, and the third begins after it came back)
    old = asked(f"{folder}/office-2026-11.db", "SELECT max(raw) FROM entries WHERE meter = 'm2' AND kind = 2")[0][0]
    new = asked(f"{folder}/office-2026-12.db", "SELECT min(raw) FROM entries WHERE meter = 'm2' AND kind = 2")[0][0]
    same("two: the readings around the gap", (old, new), (side.log[dead - 1][1], side.log[dead][1]))
    holds("two: readings on both sides", len(rows) >= 2, rows)
    for name in files_of(path):
        audit = call("audit", "--db", f"{folder}/{name}", clock=clock)
        holds(f"two: audit of {name}", audit.returncode == 0 and audit.stdout.startswith("fine:"), audit.stdout + audit.stderr)
    audit = call("audit", "--db", copy, clock=clock)
    holds("two: audit of the backup", audit.returncode == 0 and audit.stdout.startswith("fine:"), audit.stdout + audit.stderr)
    last = asked(copy, "SELECT meter, last_raw FROM installations WHERE ended = 0 ORDER BY meter")
    sent = {"m1": {raw for _, raw in main.log}, "m2": {raw for _, raw in side.log}}
    same("two: what the backup has last was sent", [(meter, raw in sent[meter] or raw == 5000) for meter, raw in last], [("m1", True), ("m2", True)])


def with_an_end():
    """--for gives the time of all files together."""
    end = moment(2026, 12, 1)
    clock = Clock("ended", end - 7200)
    path = office("ended", "office.db", "UTC0", clock)
    clock.set(end - 4)
    run = begin(path, "month", Device(), clock, "--for", "9", named="office.db", folder=os.path.dirname(path))
    status = run.child.wait(30)
    took = time.monotonic() - run.begun
    for wanted in ("sunreg: office.db: carried 1 meters into office-2026-11.db", "sunreg: office-2026-11.db: carried 1 meters into office-2026-12.db"):
        same(f"with an end: {wanted}", run.count(wanted), 1)
    same("with an end: status", status, 0)
    holds("with an end: it ends in time", 8.5 <= took <= 12, took)
    same("with an end: files", files_of(path), ["office.db", "office-2026-11.db", "office-2026-12.db"])
    holds_energy("with an end", path, clock)


def kills():
    """A run is killed at a random time around the change, and started again."""
    end = moment(2026, 12, 1)
    clock = Clock("kills", end - 7200)
    path = office("kills", "office.db", "UTC0", clock)
    device = Device()
    clock.set(end - 60)
    run = begin(path, "month", device, clock)
    run.wait_for("round answered", 20, 2)
    run.end()
    folder = os.path.dirname(path)
    begun = f"{ROOM}/begun"
    shutil.copytree(folder, begun)

    def fresh():
        shutil.rmtree(folder)
        shutil.copytree(begun, folder)
        time.sleep(1 - time.time() % 1)
        clock.set(end - 2)

    fresh()
    run = begin(path, "month", device, clock)
    holds("kills: one that isn't killed", run.wait_for("carried 1 meters into", 20) and run.wait_for("listening", 20, 2), run.told())
    carried = next((at for at, line in run.said if "carried" in line), run.begun) - run.begun
    run.end()
    chance = random.Random(20261201)
    counts = {"none": 0, "part": 0, "new": 0, "both names": 0}
    new = f"{folder}/office-2026-12.db"
    for turn in range(KILLS):
        fresh()
        run = begin(path, "month", device, clock)
        time.sleep(max(0.0, run.begun + carried + chance.uniform(-0.2, 0.1) - time.monotonic()))
        run.end(signal.SIGKILL)
        is_new, is_part = os.path.exists(new), os.path.exists(new + ".part")
        counts["both names" if is_new and is_part else "new" if is_new else "part" if is_part else "none"] += 1
        if is_new:
            same(f"kill {turn}: the new file is whole", asked(new, "PRAGMA integrity_check"), [("ok",)])
            same(f"kill {turn}: it has its meter", asked(new, "SELECT meter FROM installations"), [("m1",)])
        run = begin(path, "month", device, clock)
        holds(f"kill {turn}: it polls again", run.wait_for("round answered", 20), run.told())
        same(f"kill {turn}: nobody has to remove what it left", run.count("remove its .part file"), 0)
        if is_part and not is_new:
            holds(f"kill {turn}: the carry that was cut off is made again", run.wait_for("carried 1 meters into", 20), run.told())
        run.end()
        holds_energy(f"kill {turn}", path, clock, turn % 5 == 0)
        same(f"kill {turn}: no other name is left", os.path.exists(new + ".part"), False)
    print(f"run_carry: of {KILLS} kills {counts['none']} left no new file, {counts['part']} a part of one, {counts['new']} a new one, {counts['both names']} one with both names", flush=True)


def clock_set_back():
    """A run continues in a file of a later period than the clock's. A clock that is set back during
    a run changes nothing."""
    end = moment(2026, 12, 1)
    clock = Clock("back", end - 7200)
    path = office("back", "office.db", "UTC0", clock)
    folder = os.path.dirname(path)
    device = Device()
    same("set back: carried ahead", call("carry", "--from", path, "--to", f"{folder}/office-2026-12.db", clock=clock).returncode, 0)
    clock.set(end - 60)
    run = begin(path, "month", device, clock)
    holds("set back: it polls", run.wait_for("round answered", 20), run.told())
    same("set back: the later file is told", run.count(f"sunreg: {folder}/office-2026-12.db: its period is later than the system clock"), 1)
    same("set back: nothing is carried backwards", files_of(path), ["office.db", "office-2026-12.db"])
    run.end()
    holds_energy("set back", path, clock)
    clock.set(end + 31 * 86400 - 5)
    run = begin(path, "month", device, clock)
    holds("set back in a run: it polls", run.wait_for("round answered", 20), run.told())
    clock.set(end + 31 * 86400 - 3600)
    before = len(run.rounds())
    time.sleep(8 + 3 * EVERY)
    holds("set back in a run: rounds go on", len(run.rounds()) - before >= 5, run.told())
    same("set back in a run: nothing is carried", files_of(path), ["office.db", "office-2026-12.db"])
    clock.set(end + 31 * 86400 - 3)
    holds("set back in a run: it is carried once the month ends", run.wait_for(f"carried 1 meters into {folder}/office-2027-01.db", 20), run.told())
    holds("set back in a run: and polls", run.wait_for("listening", 20, 2), run.told())
    time.sleep(2 * EVERY)
    run.end()
    holds_energy("set back in a run", path, clock)


def clock_ahead():
    """The clock is corrected during a run, ahead into the next month."""
    end = moment(2026, 12, 1)
    clock = Clock("ahead", end - 7200)
    path = office("ahead", "office.db", "UTC0", clock)
    folder = os.path.dirname(path)
    run = begin(path, "month", Device(), clock)
    holds("ahead: it polls", run.wait_for("round answered", 20), run.told())
    clock.set(end + 3600)
    holds("ahead: the new month has its file", run.wait_for(f"sunreg: {folder}/office-2026-11.db: carried 1 meters into {folder}/office-2026-12.db", 20), run.told())
    time.sleep(2 * EVERY)
    run.end()
    holds_energy("ahead", path, clock)


def behind():
    """The clock is before the last entry: nothing is carried, and the office opens as without
    --carry."""
    end = moment(2026, 12, 1)
    clock = Clock("behind", end - 7200)
    path = office("behind", "office.db", "UTC0", clock)
    clock.set(5 * 86400)
    run = begin(path, "month", Device(), clock)
    same("behind: status", run.child.wait(20), 1)
    time.sleep(0.3)
    same("behind: files", files_of(path), ["office.db"])
    same("behind: it is told", (run.count("the system clock is before its latest record"), run.count("refused 3")), (1, 1))


def unwritable(name, spoil, mend, wanted, user=None):
    """In a folder where no new file can be made, polling continues. Once the folder is mended, the
    office is carried at the next hour."""
    end = moment(2026, 12, 1)
    clock = Clock(name, end - 7200)
    path = office(name, "office.db", "UTC0", clock, user)
    folder = os.path.dirname(path)
    device = Device()
    clock.set(end - 6)
    run = begin(path, "month", device, clock, user=user)
    holds(f"{name}: it polls", run.wait_for("round answered", 20), run.told())
    spoil(folder)
    holds(f"{name}: why it isn't carried", run.wait_for(wanted, 20), run.told())
    holds(f"{name}: where books go on", run.wait_for(f"sunreg: {folder}/office-2026-11.db: not carried: it stays in use, and sunreg tries again at the next hour"), run.told())
    before = len(run.rounds())
    time.sleep(3 * EVERY + 1)
    holds(f"{name}: polling goes on", len(run.rounds()) - before >= 2, run.told())
    same(f"{name}: no new file", files_of(path), ["office.db", "office-2026-11.db"])
    mend(folder)
    clock.set(end + 3600 - 3)
    holds(f"{name}: it is carried at the next hour", run.wait_for(f"carried 1 meters into {folder}/office-2026-12.db", 20), run.told())
    holds(f"{name}: and polls", run.wait_for("listening", 20, 3), run.told())
    time.sleep(2 * EVERY)
    run.end()
    holds_energy(name, path, clock)


def left_part(folder):
    """Makes a file with a name of a new part that no carry left."""
    os.mkdir(f"{folder}/office-2026-12.db.part")


def without_part(folder):
    os.rmdir(f"{folder}/office-2026-12.db.part")


def nothing_can_be_made():
    unwritable("part", left_part, without_part, "a backup to it is running, or was interrupted: then remove its .part file")
    user = NOBODY if os.geteuid() == 0 else None
    unwritable("folder", lambda folder: os.chmod(folder, 0o555), lambda folder: os.chmod(folder, 0o755), "can't write it: check its folder's permissions and the free disk space", user)


def full_disk(name, left, has_room_for_log):
    """A disk has no space for a new file.

    The old file continues while there is space for its log, which grows by some 128 KiB at once.
    Else its rounds fail, which is reported, and nothing is lost."""
    folder = f"{ROOM}/{name}"
    os.mkdir(folder)
    if subprocess.run(["mount", "-t", "tmpfs", "-o", "size=2m", "tmpfs", folder], capture_output=True).returncode != 0:
        print("run_carry: nothing can be mounted here: a full disk isn't tried", flush=True)
        return
    end = moment(2026, 12, 1)
    clock = Clock(name, end - 7200)
    made = os.path.dirname(office(f"{name}-roomy", "office.db", "UTC0", clock))
    for it in os.listdir(made):
        shutil.copy(f"{made}/{it}", folder)
    path = f"{folder}/office.db"
    device = Device()
    clock.set(end - 8)
    run = begin(path, "month", device, clock)
    holds(f"{name}: it polls", run.wait_for("round answered", 20), run.told())
    room = os.statvfs(folder)
    with open(f"{folder}/filling", "wb") as file:
        file.write(b"\0" * max(0, room.f_bavail * room.f_frsize - left))
    holds(f"{name}: it isn't carried", run.wait_for("not carried: it stays in use", 20), run.told())
    same(f"{name}: no new file", files_of(path), ["office.db", "office-2026-11.db"])
    same(f"{name}: and no part", [it for it in os.listdir(folder) if ".part" in it], [])
    before = len(run.rounds())
    time.sleep(3 * EVERY)
    if has_room_for_log:
        holds(f"{name}: polling goes on", len(run.rounds()) - before >= 1, run.told())
    else:
        holds(f"{name}: no round is answered", len(run.rounds()) == before, run.told())
        holds(f"{name}: it is told why", any("inv: the database failed; check the free disk space" in it for _, it in run.said), run.told())
    os.unlink(f"{folder}/filling")
    clock.set(end + 3600 - 3)
    holds(f"{name}: it is carried once there is room", run.wait_for(f"carried 1 meters into {folder}/office-2026-12.db", 20), run.told())
    time.sleep(2 * EVERY)
    run.end()
    holds_energy(name, path, clock)
    subprocess.run(["umount", folder])


def other_length():
    """From months to years, and back in a later year."""
    clock = Clock("lengths", moment(2026, 11, 20))
    path = office("lengths", "office.db", "UTC0", clock)
    device = Device()
    wanted = ["office.db"]
    for period, at, name in (
        ("month", moment(2026, 11, 21), "office-2026-11.db"), ("year", moment(2026, 11, 22), "office-2026.db"), ("year", moment(2027, 1, 2), "office-2027.db"),
        ("month", moment(2027, 2, 3), "office-2027-02.db"),
    ):
        clock.set(at)
        last = wanted[-1]
        run = begin(path, period, device, clock)
        folder = os.path.dirname(path)
        holds(f"lengths: {last} is carried", run.wait_for(f"sunreg: {folder}/{last}: carried 1 meters into {folder}/{name}", 20), run.told())
        holds("lengths: it polls", run.wait_for("round answered", 20), run.told())
        run.end()
        wanted.append(name)
    same("lengths: files", sorted(files_of(path)), sorted(wanted))
    each = [energy(f"{folder}/{name}", clock) for name in wanted]
    last = asked(f"{folder}/{wanted[-1]}", "SELECT last_raw FROM installations")[0][0]
    same("lengths: energy", sum(each), (last - 5000) * 1000)


def missing():
    clock = Clock("missing", moment(2026, 11, 20))
    os.mkdir(f"{ROOM}/missing")
    path = f"{ROOM}/missing/office.db"
    for words in (("--carry", "month"), ()):
        ran = call("run", "--db", path, "--listen", str(free_port()), "--every", "2", "--devices", "inv=127.0.0.1:1", *words, clock=clock)
        same(f"missing: {words}", (ran.returncode, ran.stdout, ran.stderr), (3, "", f"failed\nsunreg: {path}: file not found; make it with sunreg create\n"))
    same("missing: nothing is made", os.listdir(f"{ROOM}/missing"), [])
    with open(path, "w") as file:
        file.write("text")
    ran = call("run", "--db", path, "--listen", str(free_port()), "--every", "2", "--devices", "inv=127.0.0.1:1", "--carry", "year", clock=clock)
    same("missing: a text", (ran.returncode, ran.stderr.splitlines()[:1]), (3, ["failed"]))
    # (a command that opens a file makes its log, which is empty)
    same("missing: no file is made of it", sorted(os.listdir(f"{ROOM}/missing")), ["office.db", "office.db-wal"])


def left_empty():
    """An empty file of the new month is skipped. An empty file with a log beside it is not.

    A kill may leave an empty file if the file system has no hard links."""
    clock = Clock("empty", moment(2026, 11, 20))
    path = office("empty", "office.db", "UTC0", clock)
    folder = os.path.dirname(path)
    device = Device()
    run = begin(path, "month", device, clock)
    holds("empty: it polls", run.wait_for("round answered", 20), run.told())
    run.end()
    clock.set(moment(2026, 12, 5))
    for name in ("office-2026-12.db", "office-2027-01.db"):
        open(f"{folder}/{name}", "w").close()
    run = begin(path, "month", device, clock)
    holds("empty: the month before is carried", run.wait_for(f"sunreg: {folder}/office-2026-11.db: carried 1 meters into {folder}/office-2026-12.db", 20), run.told())
    holds("empty: and it polls", run.wait_for("round answered", 20), run.told())
    run.end()
    same("empty: files", files_of(path), ["office.db", "office-2026-11.db", "office-2026-12.db"])
    holds_energy("empty", path, clock)
    open(f"{folder}/office-2027-01.db", "w").close()
    shutil.copy(f"{folder}/office-2026-12.db-wal", f"{folder}/office-2027-01.db-wal")
    run = begin(path, "month", device, clock)
    same("empty: with a log it isn't", run.child.wait(20), 3)
    same("empty: nothing was removed", sorted(it for it in os.listdir(folder) if "2027" in it), ["office-2027-01.db", "office-2027-01.db-wal"])


def second_run():
    """A second run over the same files is refused, also all the time while a new file is begun."""
    end = moment(2026, 12, 1)
    clock = Clock("second", end - 7200)
    path = office("second", "office.db", "UTC0", clock)
    device = Device()
    clock.set(end - 6)
    run = begin(path, "month", device, clock)
    holds("second: it polls", run.wait_for("round answered", 20), run.told())
    others = []
    while run.count("office-2026-12.db") == 0 and len(others) < 200:
        others.append(begin(path, "month", device, clock))
        if len(others) > 3:
            others[-4].child.wait(20)
    holds("second: the first one goes on", run.wait_for("carried 1 meters into", 20, 2) and run.wait_for("listening", 20, 2), run.told())
    for it in others:
        it.child.wait(20)
    time.sleep(2 * EVERY)
    same("second: others are refused", {it.child.returncode for it in others}, {3})
    same("second: and carry nothing", sum(it.count("carried 1 meters") for it in others), 0)
    run.end()
    same("second: files", files_of(path), ["office.db", "office-2026-11.db", "office-2026-12.db"])
    holds_energy("second", path, clock)


def unread():
    """Standard error is a full pipe that nobody reads: the change happens, and isn't reported."""
    end = moment(2026, 12, 1)
    clock = Clock("unread", end - 7200)
    path = office("unread", "office.db", "UTC0", clock)
    clock.set(end - 60)
    device = Device()
    run = begin(path, "month", device, clock)
    holds("unread: it polls", run.wait_for("round answered", 20), run.told())
    run.end()
    reads, writes = os.pipe()
    os.set_blocking(writes, False)
    try:
        while True:
            os.write(writes, b"x" * 4096)
    except BlockingIOError:
        pass
    os.set_blocking(writes, True)
    clock.set(end - 4)
    run = begin(path, "month", device, clock, stderr=writes)
    os.close(writes)
    holds("unread: it goes on in the new file", run.wait_for("listening", 20, 2), run.told())
    before = len(run.rounds())
    time.sleep(3 * EVERY)
    holds("unread: and polls", len(run.rounds()) - before >= 1, run.told())
    same("unread: files", files_of(path), ["office.db", "office-2026-11.db", "office-2026-12.db"])
    run.end()
    os.close(reads)
    holds_energy("unread", path, clock)


def main():
    crossing("winter", "office.db", ZURICH, "month", moment(2026, 11, 30, 23), "office-2026-11.db", "office-2026-12.db")
    if IS_SHORT:
        kills()
        return
    crossing("summer", "office.db", ZURICH, "month", moment(2026, 6, 30, 22), "office-2026-06.db", "office-2026-07.db")
    crossing("new-year", "office", "UTC0", "month", moment(2027, 1, 1), "office-2026-12", "office-2027-01")
    crossing("year", "office.db", ZURICH, "year", moment(2026, 12, 31, 23), "office-2026.db", "office-2027.db")
    two_devices()
    with_an_end()
    clock_set_back()
    clock_ahead()
    behind()
    nothing_can_be_made()
    full_disk("full", 180_000, True)
    full_disk("fuller", 40_960, False)
    other_length()
    missing()
    left_empty()
    second_run()
    unread()
    kills()


try:
    main()
finally:
    for child in CHILDREN:
        if child.poll() is None:
            child.kill()
    print(f"{passed} passed, {failed} failed", flush=True)
sys.exit(failed > 0)
