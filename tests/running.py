"""running.py PROGRAM PORT [--short] NAME=PATH..: see running.sh.

PATH is libmodbus's server, or the Python that has pymodbus or Prometheus's parser."""
import atexit
import json
import os
import re
import shutil
import signal
import socket
import sqlite3
import struct
import subprocess
import sys
import tempfile
import threading
import time
import urllib.error
import urllib.request

PROGRAM, PORT = sys.argv[1], int(sys.argv[2])
IS_SHORT = "--short" in sys.argv
PEERS = {name: path for name, _, path in (word.partition("=") for word in sys.argv[3:]) if path}
SLOW = int(os.environ.get("SLOW", "1"))
HERE = os.path.dirname(os.path.abspath(__file__))
EVERY = 2
ROOM = tempfile.mkdtemp()
CHILDREN = []
passed = failed = 0


def end():
    for child in CHILDREN:
        child.kill()
    shutil.rmtree(ROOM, ignore_errors=True)


atexit.register(end)


def holds(what, is_so, got=""):
    """Counts whether a condition holds."""
    global passed, failed
    if is_so:
        passed += 1
    else:
        failed += 1
        print(f"{what}: {got!r}", flush=True)


def same(what, got, wanted):
    holds(what, got == wanted, (got, wanted))


class Device:
    """A device in a thread of this process: it answers, times out, or garbles."""

    def __init__(self, how):
        self.how, self.times, self.shown, self.asked = how, [], [], 0
        self.raw = 5000
        self.listener = socket.create_server(("127.0.0.1", 0))
        self.port = self.listener.getsockname()[1]
        threading.Thread(target=self.serve, daemon=True).start()

    def serve(self):
        while True:
            stream, _ = self.listener.accept()
            self.times.append(time.time())
            threading.Thread(target=self.talk, args=(stream,), daemon=True).start()

    def reply_to(self, frame):
        if self.how == "garbles":
            return b"\xff" * 40
        count = frame[11]
        self.raw += 7
        self.shown.append(self.raw)
        data = struct.pack(">I", self.raw)[: 2 * count]
        return frame[:4] + struct.pack(">HBBB", 3 + len(data), frame[6], frame[7], len(data)) + data

    def talk(self, stream):
        with stream:
            while True:
                frame = b""
                while len(frame) < 12:
                    try:
                        more = stream.recv(12 - len(frame))
                    except OSError:
                        return
                    if not more:
                        return
                    frame += more
                self.asked += 1
                if self.how == "silent":
                    continue
                try:
                    stream.sendall(self.reply_to(frame))
                except OSError:
                    return


def free_port():
    with socket.create_server(("127.0.0.1", 0)) as listener:
        return listener.getsockname()[1]


def stand_in(raw):
    """Starts the program's own simulator, whose meter shows `raw`, and returns its port."""
    port = free_port()
    child = subprocess.Popen(
        [PROGRAM, "stand-in", "--port", str(port), "--connections", "1000"], stdin=subprocess.PIPE, stdout=subprocess.DEVNULL
    )
    CHILDREN.append(child)
    child.stdin.write(f"area holding 40000 100\nset holding 40095 {raw}\n".encode())
    child.stdin.close()
    return port


def server_of(name, raw):
    """Starts another program's server, whose meter shows `raw`, or a simulator if it isn't here.
    Returns its port."""
    if name not in PEERS:
        return stand_in(raw)
    port, bank = free_port(), f"{ROOM}/{name}.txt"
    with open(bank, "w") as file:
        file.write(f"holding 40094 0 {raw}\n")
    words = [PEERS[name], "-B", f"{HERE}/peers/pymodbus_peer.py", "serve"] if name == "pymodbus" else [PEERS[name]]
    CHILDREN.append(subprocess.Popen([*words, str(port), bank], stdout=subprocess.DEVNULL, stderr=subprocess.DEVNULL))
    until = time.time() + 30
    while time.time() < until:
        try:
            socket.create_connection(("127.0.0.1", port)).close()
            return port
        except ConnectionRefusedError:
            time.sleep(0.05)
    raise SystemExit(f"{name}'s server doesn't listen")


class Run:
    """A process that polls and serves, whose lines are kept."""

    def __init__(self, *words):
        self.lines = []
        self.child = subprocess.Popen(
            [PROGRAM, "run", "--db", f"{ROOM}/office.db", "--listen", str(PORT), *words],
            stdout=subprocess.PIPE, stderr=subprocess.PIPE, text=True,
        )
        CHILDREN.append(self.child)
        threading.Thread(target=self.keep, daemon=True).start()

    def keep(self):
        for line in self.child.stdout:
            self.lines.append(line.rstrip("\n"))

    def wait_for(self, pattern, seconds=60):
        """Returns the first line that matches."""
        until = time.time() + seconds * SLOW
        while time.time() < until:
            for line in list(self.lines):
                if re.fullmatch(pattern, line):
                    return line
            if self.child.poll() is not None and not self.child.stdout.closed:
                time.sleep(0.2)
            time.sleep(0.02)
        return None


def wait_until(is_so, seconds, step=0.05):
    """Waits until a condition holds, and returns whether it held in time."""
    until = time.monotonic() + seconds * SLOW
    while not is_so():
        if time.monotonic() > until:
            return False
        time.sleep(step)
    return True


def ask(path, number=None, body=None, seconds=30):
    """Returns the status and the text of a response."""
    headers = {} if number is None else {"Office-Caller": "desk", "Office-Request": str(number)}
    data = None if body is None else body.encode()
    request = urllib.request.Request(f"http://127.0.0.1:{PORT}{path}", data=data, headers=headers)
    try:
        with urllib.request.urlopen(request, timeout=seconds) as reply:
            return reply.status, reply.read().decode()
    except urllib.error.HTTPError as error:
        return error.code, error.read().decode()


def ask_in_pieces(path, size=16):
    """Returns the time of a response to a request in pieces, and its first line."""
    begun = time.time()
    with socket.create_connection(("127.0.0.1", PORT), timeout=30) as stream:
        text = f"GET {path} HTTP/1.1\r\nHost: 127.0.0.1\r\n\r\n".encode()
        for k in range(0, len(text), size):
            stream.sendall(text[k : k + size])
            time.sleep(0.001)
        reply = b""
        while more := stream.recv(4096):
            reply += more
    return time.time() - begun, reply.split(b"\r\n")[0].decode()


def lateness_of(device, since, until):
    return [t % EVERY for t in device.times if since <= t < until]


METRIC = re.compile(r'[a-z_][a-z0-9_]*(\{[a-z_]+="[^"\\\n]*"(,[a-z_]+="[^"\\\n]*")*\})? [0-9]+(\.[0-9]{3})?')


def metrics_in(text):
    """Returns the values of a text in Prometheus's format.

    Each line must be a comment or a value of a family that was named before."""
    values, families = {}, set()
    for line in text.splitlines():
        if line.startswith("# TYPE "):
            families.add(line.split()[2])
        elif not line.startswith("# HELP "):
            holds("a line of the metrics", METRIC.fullmatch(line) and re.split("[{ ]", line)[0] in families, line)
            name, value = line.rsplit(" ", 1)
            values[name] = float(value)
    return values


READ_SAMPLES = """
import json, sys
from prometheus_client.parser import text_string_to_metric_families as families
print(json.dumps([[it.name, it.labels, it.value] for family in families(sys.stdin.read()) for it in family.samples]))
"""


def samples_in(text):
    """Returns the same values by the parser of Prometheus's own library."""
    read = subprocess.run([PEERS["prometheus"], "-B", "-c", READ_SAMPLES], input=text, capture_output=True, text=True)
    holds("Prometheus's parser reads the metrics", read.returncode == 0, read.stderr[-300:])
    samples = json.loads(read.stdout) if read.returncode == 0 else []
    labels_of = lambda labels: "{" + ",".join(f'{name}="{value}"' for name, value in labels.items()) + "}" if labels else ""
    return {name + labels_of(labels): value for name, labels, value in samples}


def books():
    """Returns a connection to a copy of the file and of its log."""
    copy = f"{ROOM}/copy"
    shutil.rmtree(copy, ignore_errors=True)
    os.mkdir(copy)
    for name in os.listdir(ROOM):
        if name.startswith("office.db"):
            shutil.copy(f"{ROOM}/{name}", copy)
    return sqlite3.connect(f"{copy}/office.db")


def hold_books(when, shown_by):
    """Each recorded reading was shown, in that order and once. The energy is the last one less the
    first."""
    file = books()
    same(f"{when}: the file is whole", file.execute("PRAGMA integrity_check").fetchall(), [("ok",)])
    for name, shown in shown_by.items():
        raws = [raw for (raw,) in file.execute("SELECT raw FROM entries WHERE meter = ? ORDER BY place", (f"m{name}",))]
        holds(f"{when}: {name} has readings", len(raws) > 1, raws)
        same(f"{when}: {name} opens with", raws[0], 5000)
        left = iter(shown)
        holds(f"{when}: {name}'s readings are what it showed", all(raw in left for raw in raws[1:]), (raws, shown))
        total = 1000 * (raws[-1] - raws[0])
        rows = file.execute("SELECT sum(mwh) FROM intervals WHERE meter = ?", (f"m{name}",)).fetchone()[0]
        kept = file.execute("SELECT last_raw, total FROM installations WHERE meter = ?", (f"m{name}",)).fetchone()
        same(f"{when}: {name}'s energy", (rows, kept), (total, (raws[-1], total)))
    answered = file.execute("SELECT count(*) FROM outcomes WHERE outcome = 1").fetchone()[0]
    file.close()
    return answered


def energy_of(meter):
    """Returns the energy of a meter, by its rows, in Wh."""
    rows = [line.split() for line in ask(f"/meters/{meter}/intervals")[1].splitlines()]
    return sum(int(row[1]) for row in rows if row[0] != "end") / 1000


def add_device(number, name):
    same(f"{name}: a device", ask("/devices", number, json.dumps({"name": name, "unit": 1, "timeout": 1, "window": 1}))[0], 200)
    rows = "name,function,area,address,type,scale\nwh,3,0,40094,acc32,\n"
    same(f"{name}: its list", ask(f"/devices/{name}/list", number + 1, rows)[0], 200)
    register = {"name": f"r{name}", "device": name, "function": 3, "address": 40094, "fixed": 0}
    same(f"{name}: a register", ask("/registers", number + 2, json.dumps(register))[0], 200)
    meter = {"meter": f"m{name}", "raw": 5000, "sf": 0, "ceiling": 1000000000}
    same(f"{name}: a meter", ask(f"/registers/r{name}/install", number + 3, json.dumps(meter))[0], 200)


def ask_beside_a_crowd():
    """Opens 100 HTTP connections while all devices are polled: one is idle, and the others send
    pieces.

    Then idle clients fill the table of slots."""
    since = time.time()
    mute_peer = socket.create_connection(("127.0.0.1", PORT))
    took, threads = [], []

    def one_peer(k):
        took.append(ask_in_pieces(["/status", "/meters/mg0", "/metrics", "/meters/none"][k % 4]))

    for k in range(99):
        thread = threading.Thread(target=one_peer, args=(k,))
        thread.start()
        threads.append(thread)
        time.sleep(0.05)
    for thread in threads:
        thread.join()
    mute_peer.settimeout(30)
    holds("a silent peer is dropped", mute_peer.recv(1) == b"")
    silence = time.time() - since
    holds("at its limit", 9 <= silence <= 12.5, silence)
    until = time.time()
    answers = [line for _, line in took]
    same("each other is answered", (answers.count("HTTP/1.1 200 OK"), len(answers)), (75, 99))
    times = sorted(seconds for seconds, _ in took)
    print(f"replies: median {times[49] * 1000:.1f} ms, 99 % {times[97] * 1000:.1f} ms, most {times[98] * 1000:.1f} ms")
    holds("within a second", times[98] < 1, times[98])
    # (a round may begin a millisecond early, since a run's time is a whole number of milliseconds)
    late = [0 if it > EVERY - 0.005 else it for device in good.values() for it in lateness_of(device, since, until)]
    print(f"lateness: median {sorted(late)[len(late) // 2] * 1000:.1f} ms, most {max(late) * 1000:.1f} ms, of {len(late)} rounds")
    holds("good devices are polled each time", len(late) >= 3 * int((until - since) / EVERY - 1), len(late))
    holds("and on time", max(late) < 0.5, max(late))
    pauses = [b - a for a, b in zip(silent.times, silent.times[1:])]
    holds("a silent device is tried again at each time", max(pauses[-3:]) < 2 * EVERY + 0.5, pauses)

    # Idle clients fill the table, and more connect: the oldest one is dropped.
    crowd = [socket.create_connection(("127.0.0.1", PORT)) for _ in range(80)]
    begun = time.time()
    same("behind 80 silent peers", ask("/meters/none")[0], 404)
    wait = time.time() - begun
    print(f"a reply behind 80 silent peers: {wait * 1000:.0f} ms")
    holds("a request waits a second or two", wait < 2.5, wait)
    for stream in crowd:
        stream.close()

    # As many clients that have requested months, read nothing and stay: a client with a response is
    # dropped.
    crowd = [socket.create_connection(("127.0.0.1", PORT)) for _ in range(300)]
    for stream in crowd:
        stream.sendall(b"GET /registers/rg0/months HTTP/1.1\r\n\r\n")
    begun = time.time()
    same("behind 300 peers that read nothing", ask("/meters/none")[0], 404)
    wait = time.time() - begun
    print(f"a reply behind 300 peers that read nothing: {wait * 1000:.0f} ms")
    holds("a request waits less than a second", wait < 1, wait)
    # (the first of them got a response, which is complete)
    crowd[0].settimeout(30)
    reply = b""
    while more := crowd[0].recv(65536):
        reply += more
    holds("the reply of who made room is whole", re.search(rb"\nend \d+\n$", reply), reply)
    for stream in crowd:
        stream.close()


# An empty office.
made = subprocess.run([PROGRAM, "create", "--db", f"{ROOM}/office.db", "--zone", "UTC0"], capture_output=True)
same("an office is made", made.returncode, 0)

good = {f"g{k}": Device("answers") for k in range(3)}
silent, garbling = Device("silent"), Device("garbles")
ports = {name: device.port for name, device in good.items()}
ports |= {"lib": server_of("libmodbus", 5007), "py": server_of("pymodbus", 6000), "mute": silent.port, "noise": garbling.port, "dead": free_port()}
devices = ",".join(f"{name}=127.0.0.1:{port}" for name, port in ports.items())
words = ["--every", str(EVERY), "--devices", devices]

# Devices that the office does not know yet are refused, and polled once it knows them.
run = Run(*words)
holds("it says that it listens", run.wait_for(f"listening {PORT}"), run.lines)
same("and before that up to when the books go", run.lines[:2], ["books to 0 lost 0", f"listening {PORT}"])
holds("a device that is unknown", run.wait_for(r"\d+ g0 refused 1", 10), run.lines)
for k, name in enumerate(ports):
    add_device(10 * k + 1, name)
holds("a device answers", run.wait_for(r"\d+ g0 answers", 10), run.lines)
holds("a round has its sum", run.wait_for(r"\d+ g0 round answered 1 silent 0 failed 0", 10), run.lines)
for name in ["lib", "py"]:
    holds("a server of others answers", run.wait_for(rf"\d+ {name} answers", 20), run.lines)
holds("a device that is silent", run.wait_for(r"\d+ mute silent", 10), run.lines)
holds("a device that garbles", run.wait_for(r"\d+ noise round answered 0 silent 0 failed 1", 10), run.lines)
holds("a device that is not there", run.wait_for(r"\d+ dead unreachable", 10), run.lines)
rounds = len(good["g0"].shown)
holds("rounds go on", wait_until(lambda: len(good["g0"].shown) >= rounds + 3, 30), run.lines)
same("it is said once that a device is not there", sum(line.endswith(" dead unreachable") for line in run.lines), 1)
holds("no line a poll", not any(" poll " in line for line in run.lines), run.lines)

if not IS_SHORT:
    ask_beside_a_crowd()

# A client that closes its side after its request, one that disconnects, and one that sends no HTTP.
with socket.create_connection(("127.0.0.1", PORT), timeout=10 * SLOW) as stream:
    stream.sendall(b"GET /status HTTP/1.0\r\n\r\n")
    stream.shutdown(socket.SHUT_WR)
    holds("a peer that closes its side", stream.recv(100).startswith(b"HTTP/1.1 200 OK\r\n"))
with socket.create_connection(("127.0.0.1", PORT), timeout=10 * SLOW) as stream:
    stream.sendall(b"GET /st")
with socket.create_connection(("127.0.0.1", PORT), timeout=10 * SLOW) as stream:
    stream.sendall(b"\x00\x01\x02\r\n\r\n")
    holds("bytes that are no HTTP", stream.recv(100).startswith(b"HTTP/1.1 400 "))
with socket.create_connection(("127.0.0.1", PORT), timeout=10 * SLOW) as stream:
    stream.sendall(b"GET /status HTTP/1.1\r\n" + b"a: " + b"b" * 20000)
    line = stream.recv(100)
    holds("a head that is too long", line.startswith(b"HTTP/1.1 431 "), line)
with socket.create_connection(("127.0.0.1", PORT), timeout=10 * SLOW) as stream:
    stream.sendall(b"GET /status HTTP/1.1\r\n")
    stream.settimeout(1)
    try:
        line = stream.recv(100)
    except TimeoutError:
        line = None
    same("a head that is not whole has no reply yet", line, None)
    stream.settimeout(10 * SLOW)
    stream.sendall(b"Host: 127.0.0.1\r\n\r\n")
    holds("and one once it is", stream.recv(100).startswith(b"HTTP/1.1 200 OK\r\n"))
with socket.create_connection(("127.0.0.1", PORT), timeout=10 * SLOW) as stream:
    stream.setsockopt(socket.SOL_SOCKET, socket.SO_LINGER, struct.pack("ii", 1, 0))
    stream.sendall(b"GET /status HTTP/1.1\r\n")

# The run's report about itself.
told = {}


def are_counted():
    """Returns whether the run counts so many polls of each kind."""
    told.update(json.loads(ask("/status")[1]))
    return told["polls"]["answered"] > 20 and told["polls"]["silent"] > 3 and told["polls"]["lost"] > 3


holds("polls are counted", wait_until(are_counted, 60), told)
by_name = {device["name"]: device for device in told["devices"]}
same("each device has its status", sorted(by_name), sorted(ports))
holds("a reading of a device that answers", abs(by_name["g0"]["last_reading"] - time.time()) < 3 * EVERY, by_name)
same("no reading of one that is not there", by_name["dead"]["last_reading"], None)
text = ask("/metrics")[1]
values = metrics_in(text)
if "prometheus" in PEERS:
    same("its parser finds the same", samples_in(text), values)
holds("and so in the metrics", values['sunreg_polls_total{outcome="answered"}'] >= told["polls"]["answered"], values)
holds("with the reading's moment", 'sunreg_last_reading_timestamp_seconds{device="g0"}' in values, values)

# The list of registers and meters, with one register without a meter.
spare = {"name": "spare", "device": "g0", "function": 3, "address": 40094, "fixed": 0}
same("a register without a meter", ask("/registers", 901, json.dumps(spare))[0], 200)
status, text = ask("/site")
site = json.loads(text)
same("the site", (status, list(site), text[-1]), (200, ["at", "registers"], "\n"))
holds("its moment is that of the request", abs(site["at"] - time.time()) < 5, site["at"])
metered = [(name, f"r{name}", f"m{name}") for name in ports]
same(
    "each register has its meter, as they were added",
    [(row["device"], row["register"], row["meter"]) for row in site["registers"]],
    [metered[0], ("g0", "spare", None), *metered[1:]],
)
meters = {row["meter"]: row for row in site["registers"]}
same("a register without one has no more", list(meters[None]), ["device", "register", "meter"])
asked = json.loads(ask("/meters/mdead")[1])
same("a meter is told as it is alone", meters["mdead"], {"device": "dead"} | {name: asked[name] for name in asked if name != "range"})
same("what the servers of others show", [(meters[it]["last"], meters[it]["total"]) for it in ["mlib", "mpy"]], [(5007, "7000"), (6000, "1000000")])
same("and by no other method", ask("/site", 902, "{}")[0], 405)

# Energy in the metrics, in Wh. A reading may have come since.
text = ask("/metrics")[1]
of = '{meter="mlib",register="rlib",device="lib"}'
holds("energy in the metrics", f"\nsunreg_energy_watthours_total{of} 7.000\n" in text, text)
holds("the moment of the last entry", metrics_in(text)["sunreg_last_entry_timestamp_seconds" + of] >= meters["mlib"]["at"], text)
same("each meter has its energy", text.count("\nsunreg_energy_watthours_total{"), len(ports))

# Quarter hours of a span: the first of a meter whose energy all came with its first reading.
rows = ask("/meters/mlib/intervals")[1].splitlines(keepends=True)
start = int(rows[0].split()[0])
same("a quarter hour", ask(f"/meters/mlib/intervals/{start}/{start + 1}"), (200, rows[0] + "end 1\n"))
same("none before it", ask(f"/meters/mlib/intervals/0/{start}"), (200, "end 0\n"))
same("what is no span", ask("/meters/mlib/intervals/0/now"), (400, '{"fault":400}'))
same("what is no meter", ask("/meters/none/intervals/0/1"), (404, '{"refused":1}'))
same("a span by another method", ask("/meters/mlib/intervals/0/1", 904, "{}")[0], 405)

# Entries from a place on.
status, text = ask("/meters/mlib/entries/1")
lines = text.splitlines()
holds("its opening and a reading", status == 200 and re.fullmatch(r"1 opening \d+ 5000 0 0 0 stands\n2 reading \d+ 5007 0 0 0 stands", "\n".join(lines[:2])), text)
same("as many as it tells", lines[-1], f"end {len(lines) - 1}")
same("the second is the first from its place on", ask("/meters/mlib/entries/2")[1].splitlines()[0], lines[1])
same("none behind the last", ask("/meters/mlib/entries/1000000"), (200, "end 0\n"))
same("what is no place", ask("/meters/mlib/entries/all"), (400, '{"fault":400}'))
same("entries of what is no meter", ask("/meters/none/entries/1"), (404, '{"refused":1}'))
same("entries by another method", ask("/meters/mlib/entries/1", 905, "{}")[0], 405)

# The energy of a register by days of a range and by months, as a report prints it. A quarter hour
# may end between two requests.
for _ in range(3):
    days = ask("/registers/rlib/days")[1]
    ranged = ask("/registers/rlib/days/0000-01-01/9999-12-31")
    status, text = ask("/registers/rlib/months")
    if ask("/registers/rlib/days")[1] == days:
        break
lines = [line.split() for line in days.splitlines()[:-1]]
rows = [line.split() for line in text.splitlines()[:-1]]
first = lines[0][0]
same("all days", ranged, (200, days))
same("no day before the first", ask(f"/registers/rlib/days/0000-01-01/{first}"), (200, "end 0\n"))
same("nor in a range from it till itself", ask(f"/registers/rlib/days/{first}/{first}"), (200, "end 0\n"))
same("its months", (status, [row[0] for row in rows]), (200, sorted({line[0][:7] for line in lines})))
same("have the energy of its days", sum(int(row[2]) for row in rows), sum(int(line[2]) for line in lines))
same("as many as it tells", text.splitlines()[-1], f"end {len(rows)}")
same("a range the wrong way round", ask("/registers/rlib/days/2026-12-01/2026-11-01"), (400, '{"fault":400}'))
same("what is no day", ask("/registers/rlib/days/2026-02-29/2026-03-01"), (400, '{"fault":400}'))
same("months of what is no register", ask("/registers/none/months"), (404, '{"refused":1}'))
same("months by another method", ask("/registers/rlib/months", 906, "{}")[0], 405)

# Months that are requested again include what was recorded since: energy only rises, and the office
# gives a meter's counter each time.
def months_energy(register):
    return sum(int(line.split()[2]) for line in ask(f"/registers/{register}/months")[1].splitlines()[:-1])


def total_of(meter):
    return int(json.loads(ask(f"/meters/{meter}")[1])["total"])


told_energy, behind = [], []
while len(told_energy) < 400 and len(set(told_energy)) < 4:
    between = [months_energy("rg0"), total_of("mg0"), months_energy("rg0")]
    told_energy.append(between[0])
    behind += [between] * (between != sorted(between))
    time.sleep(0.02)
holds("readings come while months are asked for", len(set(told_energy)) == 4, told_energy)
same("and each is in the next months", behind, [])
same("months of a meter without readings", [months_energy("rmute") for _ in range(2)], [0, 0])
same("a reading by hand", ask("/registers/rmute/manual", 908, json.dumps({"raw": 5003, "rolls": 0}))[0], 200)
same("is in the next months", [months_energy("rmute") for _ in range(2)], [3000, 3000])

# The meters at a register. A reading may come between two requests.
status, text = ask("/registers/rlib/meters")
line = re.fullmatch(r"mlib (\d+) (\d+) 5007 0 7000 open\nend 1\n", text)
holds("the meter at a register", status == 200 and line and int(line[2]) >= meters["mlib"]["at"], text)
same("it was opened by its first entry", line and line[1], ask("/meters/mlib/entries/1")[1].split()[2])
same("a register at which none was installed", ask("/registers/spare/meters"), (200, "end 0\n"))
same("the meters at what is no register", ask("/registers/none/meters"), (404, '{"refused":1}'))
same("meters by another method", ask("/registers/rlib/meters", 907, "{}")[0], 405)

# The page consists of its files, with their content types.
for path, kind, name in [
    ("/", "text/html; charset=utf-8", "page.html"),
    ("/page.css", "text/css; charset=utf-8", "page.css"),
    ("/page.js", "text/javascript; charset=utf-8", "page.js"),
    ("/icon.svg", "image/svg+xml", "icon.svg"),
]:
    with open(f"{HERE}/../web/{name}", "rb") as file, urllib.request.urlopen(f"http://127.0.0.1:{PORT}{path}", timeout=30) as reply:
        holds(f"{path}: its bytes", reply.read() == file.read())
        headers = ["Content-Type", "Content-Security-Policy", "X-Content-Type-Options", "Cross-Origin-Resource-Policy"]
        same(f"{path}: its headers", [reply.headers[it] for it in headers], [kind, "default-src 'self'; frame-ancestors 'none'", "nosniff", "same-origin"])
        same(f"{path}: how long it is kept", reply.headers.get_all("Cache-Control"), ["no-cache"])
same("no page by another method", ask("/", 903, "{}")[0], 405)

# A reading of a meter that goes back is rejected and reported.
good["g2"].raw = 4000
holds("a reading that is held", run.wait_for(r"\d+ g2 held mg2 4\d\d\d cause \d", 10), run.lines)

# The run is killed while it polls. The next start reports the lost polls, and the records equal
# what the devices showed.
asked = silent.asked
holds("a poll waits for its answer", wait_until(lambda: silent.asked > asked, 30, 0.001), asked)
run.child.send_signal(signal.SIGKILL)
run.child.wait()
killed = time.time()
answered = hold_books("when it was killed", {name: good[name].shown for name in ["g0", "g1"]} | {"lib": [5007] * 1000, "py": [6000] * 1000})
holds("no answered poll that it told of is lost", answered >= told["polls"]["answered"], (answered, told))
begun = time.time()
run = Run(*words, "--for", "7", "--verbose")
line = run.wait_for(r"books to \d+ lost [1-9]")
holds("polls were lost by that", line, run.lines)
holds("and the books go so far", line and killed - 5 <= int(line.split()[2]) <= killed + 1, (line, killed))
holds("a poll has a line where that is wanted", run.wait_for(r"\d+ g0 poll \d+ answered", 10), run.lines)
holds("and a reading", run.wait_for(r"\d+ g0 reading mg0 \d+ rolls 0 step \d+", 10), run.lines)
for name in ["g0", "g1"]:
    device = good[name]
    for _ in range(20):
        before = len(device.shown)
        energy = energy_of(f"m{name}")
        if before == len(device.shown):
            break
    holds(f"{name}: the energy is what it showed", energy in [shown - 5000 for shown in device.shown[-2:]], (energy, device.shown[-3:]))
same("the energy that servers of others showed", (energy_of("mlib"), energy_of("mpy")), (7, 1000))
same("it ends when its time is up", run.child.wait(20), 0)
holds("soon", 6 < time.time() - begun < 12 * SLOW, time.time() - begun)
hold_books("at its end", {name: good[name].shown for name in ["g0", "g1"]} | {"lib": [5007] * 1000, "py": [6000] * 1000})
file = books()
booked = {(meter, str(raw)) for meter, raw in file.execute("SELECT meter, raw FROM entries")}
printed = {(words[3], words[4]) for words in map(str.split, run.lines) if words[2:3] == ["reading"]}
holds("each reading that it told of is booked", printed and printed <= booked, printed - booked)

# Faults at the start.
other = socket.create_server(("127.0.0.1", PORT))
run = Run(*words)
same("a port that is taken", (run.child.wait(20), run.child.stderr.read().split("\n")[0]), (3, "failed"))
other.close()
run = subprocess.run([PROGRAM, "run", "--db", f"{ROOM}/none.db", "--listen", "1", *words], capture_output=True, text=True)
same("no such file", (run.returncode, run.stdout, run.stderr.split("\n")[0]), (3, "", "failed"))
run = subprocess.run(
    [PROGRAM, "run", "--db", f"{ROOM}/office.db", "--listen", str(PORT), "--every", "2", "--devices", "a=no.such.invalid:502"],
    capture_output=True, text=True,
)
same("a host that is not found", (run.returncode, run.stdout, run.stderr.split("\n")[0]), (3, "", "failed"))
if os.path.exists("/dev/full"):
    with open("/dev/full", "w") as full:
        run = subprocess.run(
            [PROGRAM, "run", "--db", f"{ROOM}/office.db", "--listen", str(PORT), *words],
            stdout=full, stderr=subprocess.PIPE, text=True, timeout=20,
        )
    # (the run reports first what the devices lack)
    same("a printing that fails", (run.returncode, "failed" in run.stderr.split("\n")), (3, True))

print(f"{passed} passed, {failed} failed")
sys.exit(failed != 0)
