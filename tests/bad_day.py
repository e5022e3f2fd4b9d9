"""bad_day.py PROGRAM ROOM [--short]: see bad_day.sh."""
import contextlib
import fcntl
import glob
import json
import os
import random
import shutil
import signal
import socket
import sqlite3
import struct
import subprocess
import sys
import termios
import threading
import time

PROGRAM, ROOM = sys.argv[1], sys.argv[2]
SLOW = int(os.environ.get("SLOW", "1"))
CHILDREN = []
passed = failed = 0


def holds(what, is_so, got=""):
    """Counts whether a condition holds."""
    global passed, failed
    if is_so:
        passed += 1
    else:
        failed += 1
        print(f"{what}: {got!r}", flush=True)


def same(what, got, wanted):
    holds(what, got == wanted, (got, wanted))


def free_port(host="127.0.0.1", family=socket.AF_INET):
    with socket.create_server((host, 0), family=family) as listener:
        return listener.getsockname()[1]


class Process:
    """A process of the program, whose lines are kept."""

    def __init__(self, *words, **surroundings):
        self.lines, self.said = [], []
        self.child = subprocess.Popen(
            [PROGRAM, *words], stdin=subprocess.DEVNULL, stdout=subprocess.PIPE, stderr=subprocess.PIPE, text=True,
            env={**os.environ, **surroundings},
        )
        CHILDREN.append(self.child)
        for stream, lines in ((self.child.stdout, self.lines), (self.child.stderr, self.said)):
            threading.Thread(target=self.keep, args=(stream, lines), daemon=True).start()

    def keep(self, stream, lines):
        for line in stream:
            lines.append(line.rstrip("\n"))

    def wait_for(self, words, seconds=20):
        """Returns whether a line with these words has come in time."""
        until = time.monotonic() + seconds * SLOW
        while time.monotonic() < until:
            if any(words in line for line in self.lines):
                return True
            time.sleep(0.05)
        return False

    def end(self):
        self.child.kill()
        self.child.wait()


def wait_until(is_so, seconds):
    """Waits until a condition holds, and returns whether it held in time."""
    until = time.monotonic() + seconds * SLOW
    while not is_so():
        if time.monotonic() > until:
            return False
        time.sleep(0.05)
    return True


def exchange(port, request, pieces=None, seconds=20):
    """Sends the bytes of a request, in pieces of so many bytes, and returns the bytes of the
    response."""
    with socket.create_connection(("127.0.0.1", port), timeout=seconds * SLOW) as stream:
        stream.setsockopt(socket.IPPROTO_TCP, socket.TCP_NODELAY, 1)
        size = pieces or len(request)
        for at in range(0, len(request), size):
            stream.sendall(request[at : at + size])
            if pieces:
                time.sleep(0.002)
        reply = b""
        try:
            while more := stream.recv(65536):
                reply += more
        except (ConnectionResetError, TimeoutError):
            pass
    return reply.decode(errors="replace")


def head(method, path, hosts, body=None, number=1):
    """Returns a request that names these hosts."""
    lines = [f"{method} {path} HTTP/1.1", *(f"Host: {host}" for host in hosts)]
    if body is not None:
        lines += [f"Content-Length: {len(body)}", "Office-Caller: desk", f"Office-Request: {number}", "Origin: http://evil.example"]
    return ("\r\n".join(lines) + "\r\n\r\n" + (body or "")).encode()


def status_of(reply):
    return reply.split(" ")[1] if reply.startswith("HTTP/1.1 ") else reply


def post(port, number, path, body):
    text = body if isinstance(body, str) else json.dumps(body)
    return status_of(exchange(port, head("POST", path, [f"127.0.0.1:{port}"], text, number)))


def waits(port, seconds=20):
    """Waits until a process listens at a port."""
    until = time.monotonic() + seconds * SLOW
    while time.monotonic() < until:
        try:
            socket.create_connection(("127.0.0.1", port)).close()
            return
        except OSError:
            time.sleep(0.05)


def stand_in(raw, host="127.0.0.1", family=socket.AF_INET):
    """Starts the program's own simulator, whose meter shows `raw`, and returns its port."""
    port = free_port(host, family)
    child = subprocess.Popen(
        [PROGRAM, "stand-in", "--host", host, "--port", str(port), "--connections", "1000"], stdin=subprocess.PIPE,
        stdout=subprocess.DEVNULL, stderr=subprocess.DEVNULL,
    )
    CHILDREN.append(child)
    child.stdin.write(f"area holding 40000 100\nset holding 40095 {raw}\n".encode())
    child.stdin.close()
    return port


def office(name, timeout=1, **surroundings):
    """Makes an office with the device inv and its meter, and returns its file.

    The device's polls time out after so many seconds."""
    db = f"{ROOM}/{name}.db"
    same(f"{name}: create", subprocess.run([PROGRAM, "create", "--db", db, "--zone", "UTC0"]).returncode, 0)
    port = free_port()
    serve = Process("serve", "--db", db, "--port", str(port), "--connections", "5", **surroundings)
    waits(port)
    same(f"{name}: a device", post(port, 1, "/devices", {"name": "inv", "unit": 1, "timeout": timeout, "window": 1}), "200")
    rows = "name,function,area,address,type,scale\nwh,3,0,40094,acc32,\n"
    same(f"{name}: its list", post(port, 4, "/devices/inv/list", rows), "200")
    register = {"name": "main", "device": "inv", "function": 3, "address": 40094, "fixed": 0}
    same(f"{name}: a register", post(port, 2, "/registers", register), "200")
    meter = {"meter": "m1", "raw": 5000, "sf": 0, "ceiling": 1000000000}
    same(f"{name}: a meter", post(port, 3, "/registers/main/install", meter), "200")
    serve.end()
    return db


def said_safely():
    """A file is readable by its owner only, and the output escapes names for a terminal."""
    db = f"{ROOM}/private.db"
    subprocess.run([PROGRAM, "create", "--db", db, "--zone", "UTC0"])
    modes = {os.path.basename(it): oct(os.stat(it).st_mode & 0o777) for it in glob.glob(db + "*")}
    same("files are private", set(modes.values()), {"0o600"})
    names = [("report", "--db", "\x1b[31mx", "--register", "y"), ("create", "--db", "x", "--zone", "\x1b]0;z\x07"), ("run", "--db", "x", "--listen", "1", "--every", "1", "--devices", "\x1b[31m")]
    for words in names:
        said = subprocess.run([PROGRAM, *words], capture_output=True, cwd=ROOM).stderr
        holds(f"{words[0]} spells a control byte", b"\\x1b" in said and not any(byte < 32 and byte != 10 for byte in said), said)


# Hosts and their responses, for a program that is given the name Office.example.
HOSTS = [
    (["127.0.0.1"], "200"), (["127.0.0.1:{port}"], "200"), (["127.0.0.1:1"], "200"), (["LOCALHOST:{port}"], "200"), (["[::1]"], "200"),
    (["office.example:443"], "200"), ([], "200"), (["evil.example:{port}"], "421"), (["127.0.0.1.evil.example"], "421"), ([""], "421"),
    (["localhost", "localhost"], "421"), (["localhost:x"], "421"),
]


def ask_by_hosts(what, port, path):
    for hosts, wanted in HOSTS:
        hosts = [host.format(port=port) for host in hosts]
        reply = exchange(port, head("GET", path, hosts))
        same(f"{what}: {hosts}", status_of(reply), wanted)
        if wanted == "421":
            same(f"{what}: {hosts}: the body", reply.split("\r\n\r\n", 1)[-1], '{"fault":421}')
    for method, target in (("POST", "/registers/main/manual"), ("PUT", "/nothing"), ("GET", "/metrics")):
        reply = exchange(port, head(method, target, ["evil.example"], '{"raw":5999,"rolls":0}', 77))
        same(f"{what}: {method} {target} of another page", status_of(reply), "421")


def foreign_pages():
    db, port = office("pages"), free_port()
    count = len(HOSTS) + 4
    serve = Process("serve", "--db", db, "--port", str(port), "--connections", str(count), "--host-name", "x.example", "--host-name=Office.example")
    waits(port)
    ask_by_hosts("serve", port, "/meters/m1")
    serve.end()
    port, device = free_port(), stand_in(5100)
    words = ("--db", db, "--listen", str(port), "--every", "3600", "--devices", f"inv=127.0.0.1:{device}")
    run = Process("run", *words, "--host-name", "Office.example")
    holds("run listens", run.wait_for(f"listening {port}"), run.said)
    ask_by_hosts("run", port, "/status")
    ask_by_hosts("run", port, "/meters/m1")
    holds("a false entry isn't booked", '"last":5000' in exchange(port, head("GET", "/meters/m1", [])))
    run.end()


def methods(db):
    """HEAD and POST on a run's status routes, and a request in a thousand pieces."""
    port, device = free_port(), stand_in(5100)
    run = Process("run", "--db", db, "--listen", str(port), "--every", "3600", "--devices", f"inv=127.0.0.1:{device}")
    holds("run listens", run.wait_for(f"listening {port}"), run.said)
    for path in ("/status", "/metrics"):
        for method in ("HEAD", "POST", "PUT"):
            same(f"{method} {path}", status_of(exchange(port, head(method, path, ["localhost"]))), "405")
        same(f"GET {path}", status_of(exchange(port, head("GET", path, ["localhost"]))), "200")
    body = json.dumps({"raw": 5001, "rolls": 0}) + " " * 1000
    reply = exchange(port, head("POST", "/registers/main/manual", [], body, 50), pieces=1)
    same("a body in a thousand pieces", status_of(reply), "200")
    body = "x" * 65536
    reply = exchange(port, head("POST", "/devices/inv/list", [], body, 51) + b"and more than that")
    same("the longest body, and more behind it", status_of(reply), "422")
    run.end()


def by_ipv6(db):
    if not socket.has_ipv6:
        return
    device, port = stand_in(5200, "::1", socket.AF_INET6), free_port()
    run = Process("run", "--db", db, "--listen", str(port), "--every", "1", "--for", "5", "--devices", f"inv=[::1]:{device}")
    holds("a device in brackets answers", run.wait_for("inv answers"), run.lines + run.said)
    run.child.wait(20)


def library_of_faketime():
    found = glob.glob("/usr/lib/*/faketime/libfaketime.so.1") + glob.glob("/usr/lib/faketime/libfaketime.so.1")
    return found[0] if found else None


def set_clock(text):
    with open(f"{ROOM}/clock.new", "w") as file:
        file.write(text)
    os.rename(f"{ROOM}/clock.new", f"{ROOM}/clock")


def clock_of(library):
    """Returns the environment of a process whose clock `set_clock` sets."""
    set_clock("+0")
    names = ("FAKETIME_NO_CACHE", "FAKETIME_DONT_FAKE_MONOTONIC", "DONT_FAKE_MONOTONIC")
    return {"LD_PRELOAD": library, "FAKETIME_TIMESTAMP_FILE": f"{ROOM}/clock", **{name: "1" for name in names}}


def clock_ahead(db):
    """A clock that jumps ahead is reported with both timestamps. The office refuses to open before
    the last of them, and that is explained."""
    library = library_of_faketime()
    if library is None:
        return
    clock = clock_of(library)
    port, device = free_port(), stand_in(5400)
    words = ("--db", db, "--listen", str(port), "--every", "2", "--devices", f"inv=127.0.0.1:{device}")
    run = Process("run", *words, **clock)
    holds("run listens", run.wait_for(f"listening {port}"), run.said)
    before = int(time.time())
    rounds = sum("round answered" in line for line in run.lines)
    set_clock("+600")
    time.sleep(5)
    said = [line.split() for line in run.said if "the clock jumped from" in line]
    same("it is said once", len(said), 1)
    moments = [int(word.strip(";")) for word in said[0] if word.strip(";").isdigit()] if said else [0, 0]
    holds("with both moments", abs(moments[0] - before) <= 2 and 595 <= moments[1] - moments[0] <= 605, (said, before))
    holds("and rounds go on", sum("round answered" in line for line in run.lines) > rounds, run.lines)
    run.end()
    set_clock("+0")
    run = Process("run", *words, **clock)
    same("it isn't opened before", run.child.wait(20), 1)
    time.sleep(0.5)
    said = [line for line in run.said if "the last record has the time" in line]
    holds("and that is explained", len(said) == 1 and str(moments[1])[:7] in said[0], run.said)
    same("as before on standard output", run.lines, ["refused 3"])
    report = Process("report", "--db", db, "--register", "main", **clock)
    same("a report needs no clock", report.child.wait(20), 0)
    time.sleep(0.5)
    holds("and prints all days", report.lines[-1:] in (["end 1"], ["end 2"]), report.lines)
    set_clock("+700")
    holds("once the clock has passed it, it is", Process("run", *words, "--for", "2", **clock).wait_for("listening"))
    time.sleep(3)


def clock_set_back(db):
    library = library_of_faketime()
    if library is None:
        print("bad_day: no faketime here: a clock that is set back isn't tried", flush=True)
        return
    clock = clock_of(library)
    port, device = free_port(), stand_in(5300)
    words = ("--db", db, "--listen", str(port), "--every", "2", "--devices", f"inv=127.0.0.1:{device}")
    run = Process("run", *words, **clock)
    holds("run listens", run.wait_for(f"listening {port}"), run.said)
    holds("a round before", run.wait_for("round answered"), run.lines)
    silent = [socket.create_connection(("127.0.0.1", port)) for _ in range(70)]
    set_clock("-3600")
    holds("that is told", run.wait_for("clock set back 3"), run.lines)
    before = sum("round answered" in line for line in run.lines)
    holds("rounds go on", wait_until(lambda: sum("round answered" in line for line in run.lines) - before >= 6, 40), run.lines)
    same("the device answered in each", [line for line in run.lines if "silent 1" in line or "failed 1" in line], [])
    begun = time.monotonic()
    same("peers that keep silent go", status_of(exchange(port, head("GET", "/status", []))), "200")
    holds("and nobody waits for them", time.monotonic() - begun < 5)
    same("it is said once", len([line for line in run.said if "behind the last record" in line]), 1)
    for stream in silent:
        stream.close()
    run.end()
    set_clock("+0")
    port = free_port()
    serve = Process("serve", "--db", db, "--port", str(port), "--connections", "3", **clock)
    waits(port)
    with socket.create_connection(("127.0.0.1", port)):
        time.sleep(1)
        set_clock("-3600")
        begun = time.monotonic()
        reply = exchange(port, head("GET", "/meters/m1", []), seconds=30)
        holds("a silent peer doesn't hold serve", status_of(reply) == "200" and time.monotonic() - begun < 15, (reply, time.monotonic() - begun))
    serve.end()


def taken(stream, seconds=5):
    """Returns the time when all sent bytes were acknowledged by the system at the other end, or
    None.

    Then they wait for its program, whatever the program does."""
    until = time.monotonic() + seconds
    while time.monotonic() < until:
        if struct.unpack("i", fcntl.ioctl(stream, termios.TIOCOUTQ, bytes(4))) == (0,):
            return time.time()
        time.sleep(0.001)
    return None


class Asked:
    """A request that a device got: its connection, its transaction, and the time when its response
    was there."""

    def __init__(self, link, frame):
        self.link, self.tid, self.there = link, int.from_bytes(frame[:2], "big"), None


class Meter:
    """A device in a thread of this process, which responds after a while.

    It counts its responses, and records the times of its connections and its requests."""

    def __init__(self, after=0.0):
        self.after, self.answered, self.raw = after, 0, 5000
        self.joined, self.asked = [], []
        self.listener = socket.create_server(("127.0.0.1", 0))
        self.port = self.listener.getsockname()[1]
        threading.Thread(target=self.serve, daemon=True).start()

    def serve(self):
        while True:
            stream, _ = self.listener.accept()
            self.joined.append(time.time())
            threading.Thread(target=self.talk, args=(stream, len(self.joined)), daemon=True).start()

    def talk(self, stream, link):
        # (the round may close the connection before all bytes are sent)
        with stream, contextlib.suppress(ConnectionError):
            while True:
                frame = b""
                while len(frame) < 12:
                    more = stream.recv(12 - len(frame))
                    if not more:
                        return
                    frame += more
                asked = Asked(link, frame)
                self.asked.append(asked)
                time.sleep(self.after)
                self.raw += 1
                data = self.raw.to_bytes(4, "big")[: 2 * frame[11]]
                self.answered += 1
                stream.sendall(frame[:4] + bytes([0, 3 + len(data)]) + frame[6:8] + bytes([len(data)]) + data)
                asked.there = taken(stream)


ANSWERED, LOST = 1, 5  # numbers of docs/SCHEMA.md


def polls_of(db):
    """Returns the polls of inv in order: the office's time at the start, the transaction, and the
    outcome."""
    copy = f"{ROOM}/copy"
    shutil.rmtree(copy, ignore_errors=True)
    os.mkdir(copy)
    for name in glob.glob(db + "*"):
        shutil.copy(name, copy)
    books = sqlite3.connect(f"{copy}/{os.path.basename(db)}")
    question = "SELECT started, tid, outcome FROM polls LEFT JOIN outcomes USING (poll) WHERE device = 'inv' ORDER BY poll"
    rows = books.execute(question).fetchall()
    books.close()
    return rows


def hold_deadlines(what, device, polls, timeout):
    """Checks that each poll whose response was there before its deadline was answered.

    It compares the office's records, the device's records, and the clock of both. So it holds on
    any machine, and for each delay of the process or of this one. It returns the number of polls
    that were not answered, all of which were late by these records."""
    until = time.monotonic() + 10
    while time.monotonic() < until and len(device.asked) < len(polls):
        time.sleep(0.05)
    asked = sorted(device.asked, key=lambda one: one.link)
    same(f"{what}: each request came", [one.tid for one in asked], [tid for _, tid, _ in polls])
    if polls and polls[-1][2] == LOST:
        # (the time of the run was up while the poll waited)
        polls = polls[:-1]
    unanswered = [(started, outcome, one.there) for (started, _, outcome), one in zip(polls, asked) if outcome != ANSWERED]
    in_time = [poll for poll in unanswered if poll[2] is not None and poll[2] < poll[0] + timeout]
    same(f"{what}: no answer that was there in time was taken for silence", in_time, [])
    return len(unanswered)


def slowed(child, seconds):
    """Stops a process for most of each second, at any point of its loop.

    Its turns then take as long as on an overloaded machine."""
    chance = random.Random(1)
    until = time.monotonic() + seconds
    while time.monotonic() < until and child.poll() is None:
        os.kill(child.pid, signal.SIGSTOP)
        time.sleep(1.2)
        os.kill(child.pid, signal.SIGCONT)
        time.sleep(chance.uniform(0.001, 0.3))


def bytes_before_a_deadline(db):
    """A device responds in 0.4 s at a timeout of 1 s, while the process is delayed for longer than
    that.

    The delay may also come between a poll's timestamp and its request: the response is then late. A
    response that is there before the deadline must count as an answer."""
    before = len(polls_of(db))
    device, port = Meter(after=0.4), free_port()
    run = Process("run", "--db", db, "--listen", str(port), "--every", "2", "--devices", f"inv=127.0.0.1:{device.port}", "--for", "30")
    holds("run listens", run.wait_for(f"listening {port}"), run.said)
    slowed(run.child, 25)
    run.child.wait(60)
    polls = polls_of(db)[before:]
    holds("rounds go on while it is held up", len(polls) >= 4, run.lines)
    late = hold_deadlines("held up", device, polls, 1)
    print(f"bad_day: of {len(polls)} polls of a process that was held up, {late} had a late answer", flush=True)
    run.end()


def large_meter():
    """Makes an office whose meter has two years of quarter hours, and returns its file.

    The clock of its first records was set back by two years."""
    library = library_of_faketime()
    if library is None:
        print("bad_day: no faketime here: large questions aren't tried", flush=True)
        return None
    clock = clock_of(library)
    set_clock("-63072000")
    db = office("large", timeout=2, **clock)
    set_clock("+0")
    port, now = free_port(), int(time.time())
    serve = Process("serve", "--db", db, "--port", str(port), "--connections", "40")
    waits(port)
    for k in range(1, 25):
        entry = {"raw": 5000 + 1000000 * k, "rolls": 0, "at": now - 63072000 + k * 2620000}
        same(f"an entry by hand {k}", post(port, 100 + k, "/registers/main/manual", entry), "200")
    # (so near that the device's counter gives a reading, which is accepted)
    entry |= {"at": now - 1}
    same("an entry by hand a moment ago", post(port, 125, "/registers/main/manual", entry), "200")
    serve.end()
    return db


ALL_ROWS = head("GET", "/meters/m1/intervals", [])


def readers(port, peers, seconds):
    """Starts a process of so many clients that request all rows again and again, and read them."""
    script = os.path.join(os.path.dirname(os.path.realpath(__file__)), "bad_day_readers.py")
    child = subprocess.Popen([sys.executable, script, str(port), str(peers), str(seconds)], stdin=subprocess.DEVNULL, stdout=subprocess.PIPE, text=True)
    CHILDREN.append(child)
    return child


def asks_and_reads_nothing(port, request=ALL_ROWS):
    """Starts a client that requests and reads nothing, with a very small receive buffer."""
    stream = socket.socket()
    stream.setsockopt(socket.SOL_SOCKET, socket.SO_RCVBUF, 4096)
    stream.settimeout(60)
    stream.connect(("127.0.0.1", port))
    stream.sendall(request)
    return stream


def late_rounds(joined, every, until):
    """Returns how many seconds late each of a device's due rounds began.

    A round is due at each multiple of `every` seconds."""
    if not joined:
        return [float("inf")]
    # (the run's seconds may begin a little before the clock's, because both are in milliseconds)
    first = int(joined[0] + 0.05) // every * every
    return [min((at - due for at in joined if at > due - 0.05), default=until - due) for due in range(first, int(until), every)]


def memory_of(child):
    """Returns the memory of a process, in MB."""
    with open(f"/proc/{child.pid}/status") as file:
        return next(int(line.split()[1]) for line in file if line.startswith("VmRSS:")) / 1024


def most_memory(child, until):
    """Returns the most memory that a process has until a time, in MB, looked at ten times a
    second."""
    most = memory_of(child)
    while time.monotonic() < until:
        time.sleep(0.1)
        most = max(most, memory_of(child))
    return most


def body_of(reply):
    return reply.split("\r\n\r\n", 1)[1]


def large_questions():
    """Devices are polled in time while many clients request two years of quarter hours.

    The device responds in 0.4 s at a timeout of 2 s, so within a second at least. Up to 64 clients
    read all rows again and again, and 80 request them and read nothing. A turn streams such
    responses for 20 ms, and two turns pass before a due device is polled. So a round that begins a
    second late fails the test, or a round that does not begin. The test prints how many began
    50 ms late: few do, unless the machine is overloaded. The run holds one chunk of each response,
    of 1,000 rows. So memory grows by less than 64 KiB for each of 64 slots. One client requests all
    rows first, so the memory for one response and for the file's pages is there before."""
    db = large_meter()
    if db is None:
        return
    device, port = Meter(after=0.4), free_port()
    device.raw = 5000 + 1000000 * 24
    run = Process("run", "--db", db, "--listen", str(port), "--every", "2", "--devices", f"inv=127.0.0.1:{device.port}", "--for", "80")
    holds("run listens", run.wait_for(f"listening {port}"), run.said)
    begun = time.monotonic()
    exchange(port, ALL_ROWS)
    # (responses are made one after the other, and a connection has 10 seconds: a slow machine has
    # fewer readers at once)
    count = max(4, min(64, int(5 / (time.monotonic() - begun))))
    time.sleep(5)
    before, until = memory_of(run.child), time.monotonic() + 30
    reading = readers(port, count, 30)
    silent = [asks_and_reads_nothing(port) for _ in range(80)]
    grown = (most_memory(run.child, until) - before) * 1024 / 64
    late = late_rounds(device.joined, 2, time.time() - 2)
    for stream in silent:
        stream.close()
    told = json.loads(reading.communicate(timeout=90)[0])
    sizes, ends = told["sizes"], told["ends"]
    pieces_of_one_moment(port)
    run.child.wait(90)
    print(
        f"bad_day: {count} readers read {len(sizes)} replies of up to {max(sizes, default=0)} bytes; of {len(late)} rounds the latest began {max(late):.3f} s late, and "
        f"{sum(it > 0.05 for it in late)} more than 50 ms; the process, which had {before:.1f} MB, grew by {grown:.1f} KiB a peer at most", flush=True,
    )
    polls = polls_of(db)
    holds("many rows were read", sizes and max(sizes) > 1000000, sizes[:5])
    same("each reply has its end", [end for end in ends if not end.startswith("end 7")], [])
    holds("rounds begin in time", max(late) < 1, late)
    hold_deadlines("large questions", device, polls, 2)
    same("no poll was silent", [poll for poll in polls[:-1] if poll[2] != ANSWERED], [])
    holds("memory grows by 64 KiB a peer at most", grown < 64, grown)
    run.end()


def pieces_of_one_moment(port):
    """A response is of one point in time, for each way of requesting it and for all events
    meanwhile.

    A void ends it early, or comes after it."""
    time.sleep(11)
    all_rows = body_of(exchange(port, ALL_ROWS)).splitlines()
    ranged = exchange(port, head("GET", "/meters/m1/intervals/0/9999999999", []))
    size = int(ranged.split("Content-Length: ")[1].split("\r\n")[0])
    same("a range tells its size", len(body_of(ranged)), size)
    same("and all rows", body_of(ranged).splitlines()[:70000], all_rows[:70000])
    same("as many as it says", all_rows[-1], f"end {len(all_rows) - 1}")
    stream = asks_and_reads_nothing(port, head("GET", "/meters/m1/intervals/0/9999999999", []))
    reply = stream.recv(4096)
    reading = next(line.split()[0] for line in body_of(exchange(port, head("GET", "/meters/m1/entries/1", []))).splitlines() if " reading " in line)
    same("a reading is voided", post(port, 900, "/meters/m1/void", {"place": int(reading)}), "200")
    with contextlib.suppress(OSError):
        while more := stream.recv(65536):
            reply += more
    stream.close()
    told = body_of(reply.decode())
    size = int(reply.split(b"Content-Length: ")[1].split(b"\r\n")[0])
    rows = told.splitlines() if len(told) == size else told.splitlines()[:-1]
    holds("a reply is whole, or is cut", len(told) <= size, (len(told), size))
    same("and never has other rows", rows[:70000], all_rows[: min(len(rows), 70000)])


def stuffed_pipes(db):
    """Nobody reads the output of run: it still polls and responds, and later prints how many lines
    it dropped."""
    device, port = Meter(), free_port()
    reader, writer = os.pipe()
    fcntl.fcntl(writer, 1031, 4096)  # F_SETPIPE_SZ
    child = subprocess.Popen(
        [PROGRAM, "run", "--db", db, "--listen", str(port), "--every", "1", "--verbose", "--devices",
         ",".join(f"{name}=127.0.0.1:{device.port}" for name in ("inv", *(f"long-name-of-{k:03}" for k in range(60))))],
        stdin=subprocess.DEVNULL, stdout=writer, stderr=writer,
    )
    CHILDREN.append(child)
    os.close(writer)
    waits(port, 60)
    # (fifty rounds print more than the pipe and the queue of the run hold)
    holds("it polls while nobody reads", wait_until(lambda: device.answered >= 54, 180), device.answered)
    same("and answers", status_of(exchange(port, head("GET", "/status", []), seconds=5)), "200")
    text = b""
    until = time.monotonic() + 60
    while time.monotonic() < until and b" - dropped " not in text:
        text += os.read(reader, 65536)
    dropped = [line for line in text.decode(errors="replace").split("\n") if " - dropped " in line]
    holds("it tells how many lines were dropped", dropped and dropped[0].split()[2:3] == ["dropped"], text[-300:])
    child.kill()
    child.wait()
    os.close(reader)


def what_is_lacking():
    """What a device lacks is reported at once, and again by /status; a refusal is explained
    once."""
    db = office("lacking")
    port = free_port()
    serve = Process("serve", "--db", db, "--port", str(port), "--connections", "4")
    waits(port)
    same("a device without a list", post(port, 11, "/devices", {"name": "bare", "unit": 1, "timeout": 1, "window": 1}), "200")
    far = {"name": "import", "device": "inv", "function": 3, "address": 40117, "scale_at": 40125}
    same("a register that no read has", post(port, 12, "/registers", far), "200")
    serve.end()
    device, port = Meter(), free_port()
    words = [f"{name}=127.0.0.1:{device.port}" for name in ("inv", "bare", "none")]
    run = Process("run", "--db", db, "--listen", str(port), "--every", "1", "--for", "6", "--devices", ",".join(words))
    holds("run listens", run.wait_for(f"listening {port}"), run.said)
    lacks = json.loads(exchange(port, head("GET", "/status", [])).split("\r\n\r\n", 1)[1]).get("lacks")
    run.child.wait(20)
    wanted = [
        "sunreg: register import: missing from the point list of inv; add function 3, registers 40117 to 40125 to it",
        "sunreg: register import: no open meter; install one with POST /registers/import/install",
        "sunreg: bare: no point list; create one with sunreg scan --list, then POST /devices/bare/list",
        "sunreg: bare: no register, so its energy is not recorded; add one with POST /registers",
        "sunreg: none: the office has no device with this name; add it with POST /devices",
    ]
    same("what lacks is said once", run.said, wanted)
    same("and told by /status", lacks, [
        {"device": "inv", "lack": "not_in_list", "register": "import"},
        {"device": "inv", "lack": "no_meter", "register": "import"},
        {"device": "bare", "lack": "no_list"},
        {"device": "bare", "lack": "no_register"},
        {"device": "none", "lack": "no_device"},
    ])
    holds("each round is printed as before", sum("bare refused 1" in line for line in run.lines) >= 3, run.lines)
    run.end()


def held_once():
    """A reading that is rejected again and again is explained once."""
    db = office("held")
    device, port = Meter(), free_port()
    device.raw = 4000
    run = Process("run", "--db", db, "--listen", str(port), "--every", "1", "--for", "6", "--devices", f"inv=127.0.0.1:{device.port}")
    holds("a reading is held", run.wait_for(" held m1 "), run.lines + run.said)
    run.child.wait(20)
    held = [line for line in run.lines if " held m1 " in line]
    holds("each is printed", len(held) >= 3, run.lines)
    same("and explained once", len([line for line in run.said if line.startswith("sunreg: m1: reading rejected: ")]), 1)
    run.end()


def kept_requests():
    """After --most-kept commands, the next one gets 503, which is logged once.

    Queries still get responses, and a start counts the kept requests."""
    db, port = office("kept"), free_port()
    words = ["run", "--db", db, "--listen", str(port), "--every", "60", "--devices", "inv=127.0.0.1:1"]

    def device(number):
        """Returns the status of a command whose body has 60,000 bytes."""
        return post(port, number, "/devices", json.dumps({"name": f"d{number}", "unit": 1, "timeout": 1, "window": 1}).ljust(60_000))

    def begin(megabytes):
        run = Process(*words, "--most-kept", megabytes)
        holds(f"run keeps {megabytes} MB", run.wait_for(f"listening {port}"), run.said)
        return run

    run = begin("1")
    # (16 of them and the set-up requests are less than a megabyte with their heads, and 17 are
    # more)
    same("commands for which there is no room", [device(number) for number in range(20, 40)], ["200"] * 16 + ["503"] * 4)
    same("one for which there is", post(port, 40, "/devices", {"name": "small", "unit": 1, "timeout": 1, "window": 1}), "200")
    reply = exchange(port, head("POST", "/devices", ["localhost"], " " * 60_000, 41))
    same("its reply", reply.split("\r\n\r\n")[-1], '{"fault":503}')
    same("who may not ask is told so first", status_of(exchange(port, head("POST", "/devices", ["evil.example"], " " * 60_000, 42))), "421")
    same("a question", status_of(exchange(port, head("GET", "/registers/main/days", []))), "200")
    same("it is said once", len([line for line in run.said if "--most-kept" in line]), 1)
    run.end()
    run = begin("1")
    same("what is kept is counted at a start", device(43), "503")
    run.end()
    run = begin("2")
    same("there is room again", device(44), "200")
    run.end()


def short_day():
    """The parts that the gate runs: hosts, a pipe that nobody reads, and a clock that is set
    back."""
    said_safely()
    foreign_pages()
    db = office("day")
    stuffed_pipes(db)
    clock_set_back(db)


def long_day():
    said_safely()
    what_is_lacking()
    held_once()
    kept_requests()
    foreign_pages()
    db = office("day")
    methods(db)
    by_ipv6(db)
    bytes_before_a_deadline(db)
    large_questions()
    stuffed_pipes(db)
    clock_set_back(db)
    clock_ahead(db)


try:
    short_day() if "--short" in sys.argv else long_day()
finally:
    for child in CHILDREN:
        child.kill()
print(f"{passed} passed, {failed} failed")
sys.exit(failed > 0)
