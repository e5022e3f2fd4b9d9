#!/usr/bin/env python3
"""commands.py [PROGRAM]: runs commands over an office in a file, each at a set clock. PROGRAM is out/sunreg by default.

Each row of a case has the time of the clock in seconds since 1970-01-01 UTC, the arguments of a
command, and its input. It also has the expected exit status and output. The rows of a case act on
one file. faketime sets the clock, and sqlite3 reads how a poll ended. A run serves the files of the
page. The last line is 'N passed, M failed', which counts rows.
"""
import contextlib
import glob
import os
import pathlib
import resource
import signal
import socket
import subprocess
import sys
import tempfile
import time

HERE = pathlib.Path(__file__).resolve().parent
PROGRAM = os.path.realpath(sys.argv[1] if len(sys.argv) > 1 else os.environ.get("SUNREG", HERE.parent / "out/sunreg"))
SLOW = int(os.environ.get("SLOW", "1"))
counts = {"passed": 0, "failed": 0}

HEADER = "name,function,area,address,type,scale\n"
LIST, FAULTY = HEADER + "wh,3,0,40094,acc32,\n", HEADER + "wh,5,0,40094,acc32,\n"
SITE = "1 device inv 1 5 1\n\n# main\n2 list inv @inv.csv\n3 register main inv 3 40094 0\n4 install main m1 5000 0 100000\n"
READ_SITE = "1 device inv 1 5 1\n3 register main inv 3 40094 0\n4 register other inv 3 40190 0\n5 install main m1 @read 100000\n"
UNMETERED = "1 device inv 1 5 1\n2 register main inv 3 40094 @40096\n"
METERED = UNMETERED + "3 install main m1 5000 0 100000\n"

# (time, lines, list, status, output)
# An input acts once. The rows: a site, a retry, a changed line and a new one, a faulty list, a bad
# line. Then lines that `enter` rejects, a missing file, and a clock that was set back.
ONCE = [
    (1000, SITE, LIST, 0, "ok\nok\nok\nok\n"),
    (2000, SITE, LIST, 0, "ok\nok\nok\nok\n"),
    (2000, "1 device inv 2 5 1\n5 device other 2 5 1", LIST, 1, "refused 11\nok\n"),
    (2000, "2 list inv @inv.csv\n6 list inv @inv.csv\n", FAULTY, 1, "row 2 fault 5\nrefused 12\nrow 2 fault 5\nrefused 12\n"),
    (2000, "7 device third 3 5 1\n\n8 device\n9 device fourth 4 5 1\n", LIST, 1, "ok\nbad line 3\n"),
    (2000, "8 connect inv\n", LIST, 1, "bad line 1\n"),
    (2000, "8 round inv 0\n", LIST, 1, "bad line 1\n"),
    (2000, "8 list inv @none.csv\n", LIST, 1, "bad line 1\n"),
    (999, SITE, LIST, 1, "refused 3\n"),
]
# An entry past the ceiling of 100 kW is doubted. An entry with its mark acts, and its retry without
# the mark is refused. Others are refused, have full turns, or exchange the meter. Lines that are no
# entries have no mark.
BY_HAND = [
    (1000, SITE, LIST, 0, "ok\nok\nok\nok\n"),
    (4600, "5 manual main 105002 0\n6 manual main 105001 0\n", LIST, 1, "doubted 100002000\nok\n"),
    (4600, "6 manual main 105001 0\n", LIST, 0, "ok\n"),
    (4601, "7 reset main 105030 0\n7 reset main 105030 0 !\n7 reset main 105030 0 !\n7 reset main 105030 0\n", LIST, 1,
     "doubted 29000\nok\nok\nrefused 11\n"),
    (4601, "8 manual main 900 0\n8 close none 900 0\n", LIST, 1, "refused 6\nrefused 1\n"),
    (8201, "8 manual main 100 1 8000\n8 exchange main 100002 0 m2 0 0 100000\n8 exchange main 100001 0 m2 0 0 100000\n", LIST, 1,
     "doubted 4294967396000\ndoubted 100002000\nok\n"),
    (8201, "9 device other 2 5 1 !\n", LIST, 1, "bad line 1\n"),
    (8201, "9 list inv @inv.csv !\n", LIST, 1, "bad line 1\n"),
    (8201, "9 close main 900 0!\n", LIST, 1, "bad line 1\n"),
]
# The counter of `main` shows 7000, and that of `other` can't be read. A meter is installed at its
# counter's value, a retry acts once, and an exchange is doubted or not by its last number.
COUNTERS = [
    (1000, READ_SITE, LIST, 0, "ok\nok\nok\nok\n"),
    (1001, READ_SITE, LIST, 0, "ok\nok\nok\nok\n"),
    (4600, "6 exchange main 107002 0 m2 @read 100000\n", LIST, 1, "doubted 100002000\n"),
    (4600, "6 exchange main 107001 0 m2 @read 100000 65536\n", LIST, 0, "ok\n"),
    (4600, "7 install other m3 @read 100000\n8 install none m3 @read 100000\n", LIST, 1, "unread\nunread\n"),
    (4600, "7 install other m3 @read 100000 !\n", LIST, 1, "bad line 1\n"),
]
# Lines that `enter` does not accept, and the beginnings of what standard error has of each.
EXPLAINED = (
    "1 device inv 2 5 1\n5 close none 900 0\n6 manual main 105002 0\n7 list inv @inv.csv\n8 tick\n9 device x 3 5 1\n",
    "refused 11\nrefused 1\ndoubted 100002000\nrow 2 fault 5\nrefused 12\nbad line 5\n",
    ["line 1: 1 device inv 2 5 1: refused 11: ", "line 2: 5 close none 900 0: refused 1: ", "line 3: 6 manual main 105002 0: doubted 100002000: ",
     "line 4: 7 list inv @inv.csv: refused 12: ", "line 5: 8 tick: bad line 5: "])
DAY = "1970-01-01   2                   200000\nend 1\n"
MONTHS = ["--by", "month", "--unit", "kwh"]
# Reports of a meter that counted 200 Wh to 1900: (register, options, status, output).
REPORTS = [
    ("main", [], 0, DAY),
    ("none", [], 1, "refused 1\n"),
    ("", [], 1, "refused 1\n"),
    ("a b", [], 1, "refused 1\n"),
    ("main", MONTHS, 0, "1970-01    2                 0.200000\nend 1\n"),
    ("main", [*MONTHS, "--format", "csv"], 0, "month,energy_kwh\r\n1970-01,0.200000\r\n"),
    ("main", [*MONTHS, "--format", "json"], 0, '[{"month":"1970-01","kwh":"0.200000"}]\n'),
    ("none", [*MONTHS, "--format", "json"], 1, "refused 1\n"),
]
# The bytes that the output of a report takes before it fails, and the register.
ROOMS = [(0, "main", []), (39, "main", []), (45, "main", []), (9, "none", []),
         (0, "main", MONTHS), (37, "main", MONTHS), (43, "main", MONTHS), (9, "none", MONTHS)]
TYPES = {"page.html": "text/html; charset=utf-8", "page.css": "text/css; charset=utf-8", "page.js": "text/javascript; charset=utf-8",
         "icon.svg": "image/svg+xml"}


def library():
    found = glob.glob("/usr/lib/*/faketime/libfaketime.so.1") + glob.glob("/usr/lib/faketime/libfaketime.so.1")
    if not found:
        sys.exit("commands.py: faketime is not installed: run tests/install-tools.sh")
    return found[0]


LIBRARY = library()


def same(what, got, wanted):
    counts["passed" if got == wanted else "failed"] += 1
    if got != wanted:
        print(f"{what}: {got!r}\nand not {wanted!r}", flush=True)


def at(moment):
    """The environment of a process whose clock shows a time."""
    moment = time.strftime("%Y-%m-%d %H:%M:%S", time.gmtime(moment))
    names = ("DONT_FAKE_MONOTONIC", "FAKETIME_DONT_FAKE_MONOTONIC", "NO_FAKE_STAT")
    return {**os.environ, "TZ": "UTC", "LD_PRELOAD": LIBRARY, "FAKETIME": moment, **{name: "1" for name in names}}


def free_port():
    with socket.create_server(("127.0.0.1", 0)) as it:
        return it.getsockname()[1]


class Office:
    """An office in a new file."""

    def __init__(self, room, name):
        self.name, self.folder = name, room / name
        self.folder.mkdir()
        self.holds(0, ["create", "--zone", "UTC0"], 0, "")

    def words(self, words):
        return [PROGRAM, words[0], "--db", "office.db", *map(str, words[1:])]

    def run(self, moment, words, text="", **how):
        return subprocess.run(self.words(words), input=text.encode(), stdout=how.pop("stdout", subprocess.PIPE), stderr=subprocess.PIPE,
                              env=at(moment), cwd=self.folder, timeout=60 * SLOW, **how)

    def holds(self, moment, words, status, printed, text=""):
        done = self.run(moment, words, text)
        same(f"{self.name}: at {moment} {words} {text!r}", (done.returncode, done.stdout.decode()), (status, printed))

    def enter(self, moment, text, status, printed, *words):
        self.holds(moment, ["enter", "--caller", "desk", *words], status, printed, text)

    def fails_within(self, size, moment, words, status):
        """Asserts the status of a command whose output is a file that takes so many bytes."""
        def limit():
            resource.setrlimit(resource.RLIMIT_FSIZE, (size, size))
        with open(self.folder / "output", "wb") as output:
            done = self.run(moment, words, stdout=output, preexec_fn=limit, restore_signals=False)
        same(f"{self.name}: {words}, and {size} bytes are written", done.returncode, status)


@contextlib.contextmanager
def counter():
    """The port of a simulator whose counter at 40094 shows 7000."""
    port = free_port()
    words = [PROGRAM, "stand-in", "--port", str(port), "--connections", "20"]
    child = subprocess.Popen(words, stdin=subprocess.PIPE, stdout=subprocess.DEVNULL, stderr=subprocess.DEVNULL)
    try:
        child.stdin.write(b"area holding 40094 2\nset holding 40095 7000\n")
        child.stdin.close()
        is_listening(port)
        yield port
    finally:
        child.kill()
        child.wait()


def is_listening(port):
    """Waits for a process at a port."""
    until = time.monotonic() + 60 * SLOW
    while time.monotonic() < until:
        with contextlib.suppress(OSError), socket.create_connection(("127.0.0.1", port), 1):
            return
        time.sleep(0.05)


def play_entries(room):
    for name, rows in (("once", ONCE), ("by_hand", BY_HAND)):
        office = Office(room, name)
        for moment, text, points, status, printed in rows:
            (office.folder / "inv.csv").write_text(points)
            office.enter(moment, text, status, printed, "-n")
            office.enter(moment, text, status, printed)
    office = Office(room, "counters")
    with counter() as port:
        for moment, text, _, status, printed in COUNTERS:
            office.enter(moment, text, status, printed, "--devices", f"inv=127.0.0.1:{port}", "-n")
            office.enter(moment, text, status, printed, "--devices", f"inv=127.0.0.1:{port}")


def play_looks(room):
    """`enter -n` records nothing: the site still acts after it. Each line that is not accepted is
    explained on standard error."""
    office = Office(room, "looks")
    (office.folder / "inv.csv").write_text(LIST)
    office.enter(1000, SITE, 0, "ok\nok\nok\nok\n", "-n")
    office.holds(1000, ["report", "--register", "main"], 1, "refused 1\n")
    office.enter(1000, SITE, 0, "ok\nok\nok\nok\n")
    (office.folder / "inv.csv").write_text(FAULTY)
    text, printed, beginnings = EXPLAINED
    for words in (["-n"], []):
        done = office.run(4600, ["enter", "--caller", "desk", *words], text)
        same(f"explained {words}", (done.returncode, done.stdout.decode()), (1, printed))
        said = done.stderr.decode().splitlines()
        same(f"explained {words}: lines", len(said), len(beginnings))
        for line, beginning in zip(said, beginnings):
            same(f"explained {words}: {line}", line.startswith(f"sunreg: {beginning}") and len(line) > len(beginning) + 20, True)


def play_reports(room):
    office = Office(room, "reports")
    office.enter(1000, UNMETERED, 0, "ok\nok\n")
    office.holds(1000, ["report", "--register", "main"], 0, "end 0\n")
    office.enter(1000, METERED, 0, "ok\nok\nok\n")
    # A report needs no clock, unless it is past the last time of all.
    for words in ([], MONTHS):
        office.holds(999, ["report", "--register", "none", *words], 1, "refused 1\n")
        office.holds(4_102_444_801, ["report", "--register", "none", *words], 1, "refused 12\n")
    office.enter(1900, "4 manual main 5200 0\n", 0, "ok\n")
    for moment in (0, 1899, 5000):
        office.holds(moment, ["report", "--register", "main"], 0, DAY)
    for register, words, status, printed in REPORTS:
        office.holds(5000, ["report", "--register", register, *words], status, printed)
    office.fails_within(46, 5000, ["report", "--register", "main"], 0)
    for size, register, words in ROOMS:
        office.fails_within(size, 5000, ["report", "--register", register, *words], 3)


def play_rounds(room):
    """The opening comes first, then the device, and then its list."""
    office = Office(room, "rounds")
    office.enter(1000, METERED, 0, "ok\nok\nok\n")
    office.holds(999, ["round", "--device", "inv", "--port", 1], 1, "refused 3\n")
    office.holds(1000, ["round", "--device", "inv", "--port", 1], 3, "")
    with socket.create_server(("127.0.0.1", 0)) as it:
        port = it.getsockname()[1]
        office.holds(1000, ["round", "--device", "none", "--port", port], 1, "refused 1\n")
        office.holds(1000, ["round", "--device", "inv", "--port", port], 1, "ok\nok\nrefused 1\n")
        for size, status in ((10, 1), (3, 3)):
            office.fails_within(size, 1000, ["round", "--device", "none", "--port", port], status)
    for size, status in ((10, 1), (4, 3)):
        office.fails_within(size, 999, ["round", "--device", "inv", "--port", 1], status)


def play_serving(room):
    """The opening comes first, and then the port."""
    office = Office(room, "serving")
    office.enter(1000, METERED, 0, "ok\nok\nok\n")
    with socket.create_server(("127.0.0.1", 0)) as it:
        port = it.getsockname()[1]
        office.holds(999, ["serve", "--port", port, "--connections", 1], 1, "refused 3\n")
        office.holds(1000, ["serve", "--port", port, "--connections", 1], 3, "")
    port = free_port()
    words = office.words(["serve", "--port", port, "--connections", 1])
    child = subprocess.Popen(words, stdout=subprocess.PIPE, stderr=subprocess.DEVNULL, env=at(1000), cwd=office.folder)
    is_listening(port)
    same("serving ends after its connections", (child.communicate(timeout=60 * SLOW)[0], child.returncode), (b"", 0))


def play_waiting_poll(room):
    """A poll that waits when its process is killed is lost by the next opening, whose clock may not go back."""
    office = Office(room, "waiting")
    (office.folder / "inv.csv").write_text(LIST)
    office.enter(1000, SITE, 0, "ok\nok\nok\nok\n")
    with socket.create_server(("127.0.0.1", 0)) as it:
        words = office.words(["round", "--device", "inv", "--port", it.getsockname()[1]])
        child = subprocess.Popen(words, stdout=subprocess.PIPE, stderr=subprocess.DEVNULL, env=at(2000), cwd=office.folder)
        same("a poll is started", [child.stdout.readline() for _ in range(2)][1][:8], b"started ")
        child.send_signal(signal.SIGKILL)
        child.wait()
    office.holds(1999, ["round", "--device", "inv", "--port", 1], 1, "refused 3\n")
    office.holds(2100, ["round", "--device", "inv", "--port", 1], 3, "")
    found = subprocess.run(["sqlite3", office.folder / "office.db", "SELECT * FROM outcomes"], capture_output=True, text=True, check=True)
    same("it is lost by a restart", found.stdout, "1|2100|5|4\n")


def play_page(room):
    """A run serves the files of web/, with headers for a browser."""
    office = Office(room, "page")
    port = free_port()
    words = office.words(["run", "--listen", port, "--every", 86400, "--devices", "nobody=127.0.0.1:1"])
    child = subprocess.Popen(words, stdout=subprocess.DEVNULL, stderr=subprocess.DEVNULL, cwd=office.folder)
    try:
        is_listening(port)
        for name, kind in TYPES.items():
            body = (HERE.parent / "web" / name).read_bytes()
            with socket.create_connection(("127.0.0.1", port), 30) as stream:
                stream.sendall(f"GET /{name.replace('page.html', '')} HTTP/1.1\r\n\r\n".encode())
                reply = b"".join(iter(lambda: stream.recv(65536), b""))
            head = (f"HTTP/1.1 200 OK\r\nX-Content-Type-Options: nosniff\r\nCross-Origin-Resource-Policy: same-origin\r\nContent-Type: {kind}\r\n"
                    f"Content-Length: {len(body)}\r\nConnection: close\r\n"
                    "Content-Security-Policy: default-src 'self'; frame-ancestors 'none'\r\nCache-Control: no-cache\r\n\r\n")
            same(f"the head of {name}", reply[: -len(body)].decode(), head)
            same(f"the body of {name}", reply[-len(body) :] == body, True)
    finally:
        child.terminate()
        child.wait()


def main():
    with tempfile.TemporaryDirectory(prefix="commands-") as room:
        for play in (play_entries, play_looks, play_reports, play_rounds, play_serving, play_waiting_poll, play_page):
            play(pathlib.Path(room))
    print(f"{counts['passed']} passed, {counts['failed']} failed")
    return 1 if counts["failed"] else 0


if __name__ == "__main__":
    sys.exit(main())
