#!/usr/bin/env python3
"""mqtt.py [PROGRAM]: tests deploy/mqtt with a simulated device, an office and a real broker.

PROGRAM is out/sunreg by default, which `./sunreg-build` makes. The test needs mosquitto with its
clients, openssl, and a Python with paho: tests/install-tools.sh installs them. It compares what the
broker has with the office's entries and with `sunreg report`. It kills and restarts the bridge, the
broker and the office. It uses free ports, and waits for conditions, with limits that SLOW
multiplies. It ends with 'N passed, M failed'."""
import atexit
import contextlib
import datetime
import decimal
import http.client
import http.server
import importlib.machinery
import importlib.util
import io
import json
import os
import re
import shutil
import signal
import socket
import subprocess
import sys
import tempfile
import threading
import time

HERE = os.path.dirname(os.path.realpath(__file__))
BRIDGE = f"{HERE}/../deploy/mqtt"
PROGRAM = os.path.realpath(sys.argv[1] if sys.argv[1:] else os.environ.get("SUNREG", f"{HERE}/../out/sunreg"))
SLOW = int(os.environ.get("SLOW", "1"))
PREFIX = "test/home.1"
NODE = "homeassistant/sensor/test_2fhome_2e1"
ENERGY_KEYS = {"name", "unique_id", "object_id", "device_class", "state_class", "unit_of_measurement", "state_topic", "value_template", "availability", "device"}
POINTS = "name,function,area,address,type,scale\nwh,3,0,40094,acc32,wh_sf\nwh_sf,3,0,40096,sunssf,\nva,3,0,40097,acc32,wh_sf\n"
SETUP = """1 device inv 1 5 1
2 list inv @inv.csv
3 register main inv 3 40094 @40096
4 install main m1 5000 0 100000
5 register a-0_1 inv 3 40097 @40096
6 install a-0_1 m2 100 0 100000
7 register spare inv 3 40099 0
"""
ROOM = tempfile.mkdtemp()
CHILDREN = []
passed = failed = 0


def end():
    for child in CHILDREN:
        child.kill()
        child.wait()
    shutil.rmtree(ROOM, ignore_errors=True)


atexit.register(end)
signal.signal(signal.SIGTERM, lambda *_: sys.exit(143))


def holds(what, is_so, got=""):
    """Counts whether a condition holds, and returns it."""
    global passed, failed
    if is_so:
        passed += 1
    else:
        failed += 1
        print(f"{what}: {str(got)[:2000]!r}", flush=True)
    return is_so


def same(what, got, wanted):
    return holds(what, got == wanted, f"{got!r}, and not {wanted!r}")


def wait_until(condition, seconds):
    """Waits until a condition holds, for so long at most, and returns whether it does."""
    until = time.monotonic() + seconds * SLOW
    while not condition():
        if time.monotonic() > until:
            return False
        time.sleep(0.05)
    return True


def free_port():
    with socket.create_server(("127.0.0.1", 0)) as listener:
        return listener.getsockname()[1]


def listens(port):
    with contextlib.suppress(OSError), socket.create_connection(("127.0.0.1", port), 1):
        return True
    return False


def python_of_paho():
    """Returns the Python that has paho: apt's is that of /usr/bin."""
    for it in (sys.executable, "/usr/bin/python3"):
        if os.path.exists(it) and subprocess.run([it, "-c", "import paho.mqtt.client"], capture_output=True).returncode == 0:
            return it
    sys.exit("mqtt.py: no Python has paho: run tests/install-tools.sh")


def start(words, log=None, **more):
    """Starts a process, whose output goes to a file of the room."""
    with open(f"{ROOM}/{log}", "a") if log else open(os.devnull, "w") as out:
        child = subprocess.Popen(words, stdout=out, stderr=out, cwd=ROOM, **more)
    CHILDREN.append(child)
    return child


def kill(child, number=signal.SIGKILL):
    child.send_signal(number)
    return child.wait(30 * SLOW)


def write(name, text, mode=0o600):
    path = f"{ROOM}/{name}"
    with open(path, "w", encoding="utf-8") as file:
        file.write(text)
    os.chmod(path, mode)
    return path


# ---- the parts: device, office, a front of the office, broker, listener, bridge


class Device:
    """The program's own simulator at one port, whose counters a restart changes."""

    def __init__(self):
        self.port, self.child = free_port(), None

    def show(self, main, other):
        words = [PROGRAM, "stand-in", "--port", str(self.port), "--connections", "1000"]
        self.child = start(words, "device", stdin=subprocess.PIPE)
        self.child.stdin.write(f"area holding 40000 200\nset holding 40095 {main}\nset holding 40098 {other}\n".encode())
        self.child.stdin.close()
        if not wait_until(lambda: listens(self.port), 60):
            sys.exit("mqtt.py: the simulator doesn't listen")


class Office:
    """A `sunreg run`. It records nothing by itself while its device is stopped."""

    def __init__(self, device):
        self.port, self.device, self.child, self.asked = free_port(), device, None, 100

    def start(self):
        words = ["run", "--db", "office.db", "--listen", str(self.port), "--every", "2", "--devices", f"inv=127.0.0.1:{self.device.port}"]
        self.child = start([PROGRAM, *words], "office")

    def get(self, path):
        caller = http.client.HTTPConnection("127.0.0.1", self.port, timeout=10 * SLOW)
        with contextlib.closing(caller):
            caller.request("GET", path)
            reply = caller.getresponse()
            return reply.status, reply.read()

    def post(self, path, value):
        self.asked += 1
        caller = http.client.HTTPConnection("127.0.0.1", self.port, timeout=10 * SLOW)
        with contextlib.closing(caller):
            caller.request("POST", path, json.dumps(value), {"Office-Caller": "test", "Office-Request": str(self.asked)})
            reply = caller.getresponse()
            return reply.status, json.loads(reply.read())

    def has_read(self, main, other):
        """Returns whether the run has read both counters since its start."""
        with contextlib.suppress(OSError, ValueError, http.client.HTTPException):
            if json.loads(self.get("/status")[1])["devices"][0]["last_reading"] is not None:
                return [self.entries(it)[-1][1] for it in ("m1", "m2")] == [main, other]
        return False

    def read_device(self, main, other):
        """Waits for readings, and stops the device then. Returns whether it was read."""
        if not wait_until(lambda: self.has_read(main, other), 120):
            return False
        begin = os.path.getsize(f"{ROOM}/office")
        kill(self.device.child)

        def is_without():
            with open(f"{ROOM}/office", encoding="utf-8") as file:
                return "inv unreachable" in file.read()[begin:]

        return wait_until(is_without, 60)

    def entries(self, meter):
        """Returns the valid entries of a meter: time and counter."""
        lines = self.get(f"/meters/{meter}/entries/1")[1].decode().splitlines()[:-1]
        return [(int(it[2]), int(it[3])) for it in map(str.split, lines) if it[7] == "stands"]


class Front(http.server.BaseHTTPRequestHandler):
    """Passes requests on to the office, and counts them; or responds with a fault."""

    office, fault, count = None, None, 0

    def do_GET(self):
        Front.count += self.path == "/status"
        fault = Front.fault
        if fault is None:
            with contextlib.suppress(OSError, http.client.HTTPException):
                status, body = Front.office.get(self.path)
                self.respond(status, {"Content-Length": len(body)}, body)
            return
        with contextlib.suppress(OSError):
            self.respond(*fault)

    def respond(self, status, headers, body):
        self.send_response(status)
        for name, value in headers.items():
            self.send_header(name, str(value))
        self.end_headers()
        self.wfile.write(body)

    def log_message(self, *_):
        pass


class Broker:
    """A mosquitto, which keeps nothing over a restart."""

    def __init__(self, name, lines=()):
        self.port, self.name, self.child = free_port(), name, None
        write(f"{name}.conf", "\n".join([f"listener {self.port} 127.0.0.1", "persistence false", *(["user root"] * (os.getuid() == 0)), *lines]) + "\n")

    def start(self):
        self.child = start([shutil.which("mosquitto") or "/usr/sbin/mosquitto", "-c", f"{self.name}.conf"], self.name)
        if not wait_until(lambda: listens(self.port), 20):
            sys.exit("mqtt.py: mosquitto doesn't listen")

    def publish(self, topic, text, *words):
        words = ["mosquitto_pub", "-h", "127.0.0.1", "-p", str(self.port), "-q", "1", "-t", topic, "-m", text, *words]
        subprocess.run(words, check=True, timeout=30 * SLOW, capture_output=True)

    def listen(self):
        return Listener(self)

    def retained(self):
        """Returns the retained messages: topic and text."""
        listener = self.listen()
        kill(listener.child)
        return {topic: text for is_kept, topic, text in listener.messages if is_kept}


class Listener:
    """A mosquitto_sub of all topics, whose messages are kept: retained or not, topic and text."""

    def __init__(self, broker):
        self.broker, self.messages, self.number = broker, [], 0
        words = ["mosquitto_sub", "-h", "127.0.0.1", "-p", str(broker.port), "-q", "1", "-t", "#", "-F", "%r %t %p"]
        self.child = subprocess.Popen(words, stdout=subprocess.PIPE, text=True)
        CHILDREN.append(self.child)
        threading.Thread(target=self.read, daemon=True).start()
        self.sync()

    def read(self):
        for line in self.child.stdout:
            kept, topic, text = line.rstrip("\n").split(" ", 2)
            self.messages.append((kept == "1", topic, text))

    def sync(self):
        """Waits until all messages that the broker has now are here."""
        self.number += 1
        mark = f"{id(self)}-{self.number}"

        def is_here():
            self.broker.publish("mark", mark)
            return wait_until(lambda: (False, "mark", mark) in self.messages, 1)

        if not wait_until(is_here, 30):
            sys.exit("mqtt.py: mosquitto_sub receives nothing")

    def of(self, topic, begin=0):
        """Returns the texts of a topic."""
        return [text for _, it, text in self.messages[begin:] if it == topic]

    def of_bridge(self, begin):
        """Returns what the bridge published since a place, without its marker."""
        return [(topic, text) for _, topic, text in self.messages[begin:] if topic not in ("mark", f"{PREFIX}/bridge")]

    def waits(self, topic, text, begin, seconds=20):
        return wait_until(lambda: text in self.of(topic, begin), seconds)


def bridge_words(office, broker, *words):
    return [PYTHON, "-B", BRIDGE, "--office", f"http://127.0.0.1:{office}", "--broker", f"127.0.0.1:{broker}", "--prefix", PREFIX, *words]


def run_bridge(*words):
    """Returns the status and the faults of a bridge that ends."""
    done = subprocess.run(list(words), capture_output=True, text=True, timeout=60 * SLOW)
    return done.returncode, done.stderr


# ---- the checks


def module_of_bridge():
    """Returns deploy/mqtt as a module."""
    loader = importlib.machinery.SourceFileLoader("bridge", BRIDGE)
    sys.dont_write_bytecode = True
    module = importlib.util.module_from_spec(importlib.util.spec_from_loader("bridge", loader))
    loader.exec_module(module)
    return module


def computes(it):
    """The texts and the means, without an office or a broker."""
    for total, wanted in ((0, "0.000000"), (1, "0.000001"), (999999, "0.999999"), (10**6, "1.000000"), (2**64 - 1, "18446744073709.551615")):
        same(f"{total} mWh in kWh", it.decimal(total, 6), wanted)
    same("a time", (it.time_text(1796058314), it.seconds_of("2026-11-30T17:05:14Z")), ("2026-11-30T17:05:14Z", 1796058314))
    same("the last time", it.time_text(it.LAST_TIME), "9999-12-31T23:59:59Z")
    names = ["a_b", "a-b", "a.b", "a__b", "a_2eb", "A_B", "ab", "a_", "a", "_a", "a.", "a_energy", "a_power"]
    topics = it.Topics("p", "d")
    levels = {topics.config(name, kind) for name in names for kind in ("energy", "power")}
    same("different names have different topics", len(levels), 2 * len(names))
    holds("which Home Assistant accepts", all(re.fullmatch(r"d/sensor/p/[A-Za-z0-9_-]+/config", level) for level in levels), levels)

    def row(at, total, meter="m", ended=False, earlier=0):
        return it.Register("r", "d", meter, at, total, earlier, ended)

    books = it.Books()
    for what, reading, wanted in (
        ("no mean after one reading", row(100, 0), None),
        ("none after the same reading", row(100, 0), None),
        ("the mean between two", row(110, 1000), (360000, 100, 110)),
        ("it stays", row(110, 1000), (360000, 100, 110)),
        ("the next is rounded", row(117, 1001), (514, 110, 117)),
        ("none without energy", row(120, 1001), (0, 117, 120)),
        ("less energy begins again", row(130, 900), None),
        ("then a mean", row(140, 1000), (36000, 130, 140)),
        ("a time set back begins again", row(135, 1000), None),
        ("energy without time begins again", row(135, 1100), None),
        ("then a mean again", row(136, 1100), (0, 135, 136)),
        ("another meter begins again", row(140, 1200, "n"), None),
        ("a mean of it", row(141, 1201, "n"), (3600, 140, 141)),
        ("none of a closed meter", row(142, 1202, "n", True), None),
    ):
        mean = books.note(reading)
        same(what, mean and tuple(mean), wanted)
    mean = it.Mean(360000, 100, 110)
    text = it.state_text(row(110, 1000), mean, True)
    same("a text is read again", it.kept_state(text), (row(110, 1000), mean))
    over = row(110, 5000100, earlier=5000000)
    same("with earlier files", (it.kept_state(it.state_text(over, None, True)), json.loads(it.state_text(over, None, True))["file_kwh"]), ((over, None), "0.000100"))
    same("and without a mean", it.kept_state(it.state_text(row(110, 1000), None, True)), (row(110, 1000), None))
    for bad in ("", "[]", "{}", "null", text[:-1], text.replace("1000", "-1000"), text.replace('"360.000"', "360"), text + " ", "[" * 100000):
        same(f"another text is ignored: {bad[:30]}", it.kept_state(bad), None)


def refuses_options(module, office, broker):
    """Wrong options, and files that can't be read."""
    words = [PYTHON, "-B", BRIDGE]

    def refused(line):
        said = io.StringIO()
        with contextlib.redirect_stderr(said):
            try:
                return module.main(line), said.getvalue()
            except SystemExit as it:
                return it.code, said.getvalue()

    readable = write("readable", "secret\n", 0o644)
    empty = write("empty", "\n")
    for some in (
        [], ["--prefix", ""], ["--prefix", "a//b"], ["--prefix", "/a"], ["--prefix", "a/#"], ["--prefix", "a/+/b"], ["--prefix", "a b"],
        ["--prefix", "a" * 65], ["--every", "0"], ["--every", "3601"], ["--every", "x"], ["--silent", "0"], ["--silent", "604801"],
        ["--office", "https://127.0.0.1"], ["--office", "127.0.0.1:8080"], ["--office", "http://127.0.0.1:0"], ["--office", "http://a/?b"],
        ["--broker", ""], ["--broker", "a:b"], ["--broker", "a:65536"], ["--broker", "a..b"], ["--broker", "mqtt://a"],
        ["--discovery", "a/"], ["--user", ""], ["--password-file", empty], ["--ca", empty], ["--none"], ["more"],
        ["--user", "u", "--password-file", readable], ["--user", "u", "--password-file", empty],
    ):
        line = some if not some or "--prefix" in some else ["--prefix", "p", *some]
        status, said = refused(line)
        holds(f"a wrong option: {some}", status == 2 and "sunreg-mqtt: " in said and "secret" not in said, (status, said))
    status, said = run_bridge(*words, "--prefix", "a/#")
    holds("a wrong option of the command", status == 2 and said.startswith("sunreg-mqtt: --prefix is not"), (status, said))
    for some in (["--user", "u", "--password-file", f"{ROOM}/none"], ["--tls", "--ca", f"{ROOM}/none"], ["--tls", "--ca", empty]):
        status, said = run_bridge(*words, "--prefix", "p", *some)
        holds(f"a file that can't be read: {some}", status == 3 and "can't read" in said and "Traceback" not in said, (status, said))
    status, said = run_bridge(*bridge_words(free_port(), broker.port, "--once"))
    holds("no office", status == 3 and "sunreg-mqtt: office: /site: " in said, (status, said))
    status, said = run_bridge(*bridge_words(office.port, free_port(), "--once"))
    holds("no broker", status == 3 and "sunreg-mqtt: broker: " in said, (status, said))


def refuses_responses(module, front, broker):
    """Responses that are none of an office."""
    register = {"device": "inv", "register": "main", "meter": "m1", "at": 1, "last": 1, "sf": 0, "total": "1", "ended": False}
    site = {"at": 1, "registers": [register], "devices": []}
    faults = [
        ("a redirect", (302, {"Location": f"http://127.0.0.1:{Front.office.port}/site", "Content-Length": 0}, b""), "status 302"),
        ("a status", (503, {}, b'{"refused":13}'), "status 503"),
        ("a response that is too long", (200, {}, b" " * (1 << 20)), "more than 524288 bytes"),
        ("a response that was cut", (200, {"Content-Length": 9}, b"{}"), "it ended after 2 of 9 bytes"),
        ("headers that are too long", (200, {f"X-{place}": "x" * 1000 for place in range(50)}, b"{}"), "headers of more than"),
        ("what is no JSON", (200, {}, b"<html>"), "no JSON"),
        ("what is too deep", (200, {}, b"[" * 200000), "no JSON"),
    ]
    for value in (
        [], {}, {"at": 1}, site | {"at": "1"}, site | {"at": -1}, site | {"registers": [1]}, site | {"registers": [register, register]},
        site | {"devices": [{"name": "a/b", "last_reading": 1}]}, site | {"devices": [{"name": "a", "last_reading": 0.5}]},
    ):
        faults.append((f"a response of another form {json.dumps(value)[:40]}", (200, {}, json.dumps(value).encode()), ""))
    for some in ({"register": "a/b"}, {"register": "#"}, {"device": 1}, {"meter": "+"}, {"total": 1}, {"total": "-1"}, {"total": "9" * 30}, {"earlier": 1}, {"earlier": "2"}, {"at": True}, {"at": 1 << 60}, {"ended": 0}):
        value = site | {"registers": [register | some]}
        faults.append((f"a register with {some}", (200, {}, json.dumps(value).encode()), ""))
    for what, fault, wanted in faults:
        Front.fault = fault
        try:
            said = module.read_site(f"http://127.0.0.1:{front}")
        except module.OfficeFault as it:
            said = str(it)
        holds(what, isinstance(said, str) and wanted in said, said)
    status, said = run_bridge(*bridge_words(front, broker.port, "--once"))
    holds("the last of them, to the command", status == 3 and "sunreg-mqtt: office: " in said, (status, said))
    Front.fault = None
    same("none of them was published", broker.retained(), {})


def text_of(seconds):
    return datetime.datetime.fromtimestamp(seconds, datetime.timezone.utc).strftime("%Y-%m-%dT%H:%M:%SZ")


def watts(before, now):
    """Returns the mean power between two entries, of a counter in Wh."""
    power = decimal.Decimal(now[1] - before[1]) * 3600 / (now[0] - before[0])
    return str(power.quantize(decimal.Decimal("0.001"), decimal.ROUND_HALF_UP))


def state_of(broker, register):
    return json.loads(broker.retained()[f"{PREFIX}/registers/{register}"])


def publishes(office, broker, log):
    """What a new bridge publishes."""
    kept = broker.retained()
    wanted = {f"{PREFIX}/availability", f"{PREFIX}/devices/inv/availability"}
    wanted |= {f"{PREFIX}/registers/{it}" for it in ("main", "a-0_1")}
    wanted |= {f"{NODE}/{it}_{kind}/config" for it in ("main", "a-0__1") for kind in ("energy", "power")}
    same("the retained topics, without those of a register that is gone", set(kept), wanted)
    same("the office answers", kept.get(f"{PREFIX}/availability"), "online")
    same("the device answers", kept.get(f"{PREFIX}/devices/inv/availability"), "online")
    last = [topic for topic, _ in log.of_bridge(0) if topic.startswith(PREFIX)]
    same("the availability comes last", last[-1:], [f"{PREFIX}/availability"])
    for name, meter, begin in (("main", "m1", 5000), ("a-0_1", "m2", 100)):
        state, (at, raw) = json.loads(kept[f"{PREFIX}/registers/{name}"]), office.entries(meter)[-1]
        milliwatt_hours = 1000 * (raw - begin)
        same(f"the state of {name}", state, {
            "register": name, "device": "inv", "meter": meter, "energy_kwh": f"{decimal.Decimal(milliwatt_hours) / 1000000:.6f}",
            "energy_mwh": str(milliwatt_hours), "file_kwh": f"{decimal.Decimal(milliwatt_hours) / 1000000:.6f}", "time": text_of(at), "time_seconds": at, "answers": True, "ended": False, "mean_power": None,
        })
        for kind, of_kind in (
            ("energy", ("energy", "total_increasing", "kWh", "{{ value_json.file_kwh }}")),
            ("power", ("power", "measurement", "W", "{{ value_json.mean_power.watts if value_json.mean_power else None }}")),
        ):
            config = json.loads(kept[f"{NODE}/{name.replace('_', '__')}_{kind}/config"])
            holds(f"{name} {kind}: all keys", ENERGY_KEYS <= config.keys(), config)
            same(f"{name} {kind}: its kind", tuple(config[it] for it in ("device_class", "state_class", "unit_of_measurement", "value_template")), of_kind)
            same(f"{name} {kind}: its topic", config["state_topic"], f"{PREFIX}/registers/{name}")
            same(f"{name} {kind}: its identity", (config["unique_id"], config["object_id"]), (f"{PREFIX}/registers/{name}/{kind}", f"home_1_{name}_{kind}"))
            same(f"{name} {kind}: its availability", [it["topic"] for it in config["availability"]], [f"{PREFIX}/availability", f"{PREFIX}/devices/inv/availability"])
            same(f"{name} {kind}: of both", config["availability_mode"], "all")
            same(f"{name} {kind}: its device", (config["device"]["identifiers"], config["device"]["name"]), ([f"{PREFIX}/devices/inv"], "home.1 inv"))


def is_quiet(what, log):
    """Nothing is published while the office responds with the same."""
    log.sync()
    begin, count = len(log.messages), Front.count
    holds(f"{what}: the office is read", wait_until(lambda: Front.count >= count + 4, 30), Front.count - count)
    log.sync()
    same(f"{what}: nothing is published without a change", log.of_bridge(begin), [])


def follows_readings(office, broker, log):
    """A reading by hand changes one topic, and gives a mean."""
    before, begin = office.entries("m1")[-1], len(log.messages)
    # (an entry needs a later second)
    wait_until(lambda: time.time() >= before[0] + 1, 5)
    same("a reading by hand", office.post("/registers/main/manual", {"raw": 5031, "rolls": 0}), (200, {"done": "manual"}))
    now = office.entries("m1")[-1]
    topic = f"{PREFIX}/registers/main"
    holds("it is published", wait_until(lambda: log.of(topic, begin), 20), log.messages)
    log.sync()
    same("once, and nothing else", [it for it, _ in log.of_bridge(begin)], [topic])
    state = state_of(broker, "main")
    same("its energy", (state["energy_kwh"], state["energy_mwh"], state["time_seconds"]), ("0.031000", "31000", now[0]))
    same("its mean power", state["mean_power"], {"watts": watts(before, now), "from": text_of(before[0]), "till": text_of(now[0]), "seconds": now[0] - before[0]})


def survives_bridge(start_bridge, bridge, broker, log):
    """The bridge is killed, started again, and stopped."""
    topic, before = f"{PREFIX}/availability", broker.retained()
    begin = len(log.messages)
    kill(bridge)
    holds("killed: its last will", log.waits(topic, "offline", begin), log.of_bridge(begin))
    same("killed: which is retained", broker.retained(), before | {topic: "offline"})
    begin = len(log.messages)
    bridge = start_bridge()
    holds("started again: online", log.waits(topic, "online", begin), log.of_bridge(begin))
    log.sync()
    same("started again: nothing else is published", log.of_bridge(begin), [(topic, "online")])
    same("started again: the same is retained, also the mean", broker.retained(), before)
    begin = len(log.messages)
    broker.publish(topic, "offline", "-r")
    holds("another program's offline is corrected", log.waits(topic, "online", begin), log.of_bridge(begin))
    begin = len(log.messages)
    same("stopped: its status", kill(bridge, signal.SIGTERM), 0)
    log.sync()
    same("stopped: it says so", log.of_bridge(begin), [(topic, "offline")])
    begin = len(log.messages)
    bridge = start_bridge()
    holds("started once more", log.waits(topic, "online", begin), log.of_bridge(begin))
    return bridge


def survives_broker(broker):
    """The broker is killed, and has lost all retained messages when it starts again."""
    before = broker.retained()
    kill(broker.child)
    broker.start()
    holds("the broker again: everything is published and retained", wait_until(lambda: broker.retained() == before, 60), broker.retained())


def survives_office(office, device, log):
    """The office stops, is reported on, and starts again with another reading."""
    topic, begin, stopped = f"{PREFIX}/availability", len(log.messages), time.monotonic()
    office.child.send_signal(signal.SIGSTOP)
    holds("suspended: offline", log.waits(topic, "offline", begin, 10), log.of_bridge(begin))
    holds("suspended: after some two intervals and before four", 1.5 < time.monotonic() - stopped < 3 + 6 * SLOW, time.monotonic() - stopped)
    begin = len(log.messages)
    office.child.send_signal(signal.SIGCONT)
    holds("continued: online", log.waits(topic, "online", begin, 30), log.of_bridge(begin))
    log.sync()
    same("continued: nothing else is published", log.of_bridge(begin), [(topic, "online")])
    begin, stopped = len(log.messages), time.monotonic()
    kill(office.child)
    holds("killed: offline", log.waits(topic, "offline", begin, 10), log.of_bridge(begin))
    holds("killed: within three intervals", time.monotonic() - stopped < 3 + 6 * SLOW, time.monotonic() - stopped)
    for name in ("main", "a-0_1"):
        reported(name, log)
    device.show(5100, 142)
    begin = len(log.messages)
    office.start()
    holds("started again: online", log.waits(topic, "online", begin, 120), log.of_bridge(begin))


def reported(name, log):
    """The energy of a register is that of `sunreg report`."""
    state = json.loads(log.of(f"{PREFIX}/registers/{name}")[-1])
    words = [PROGRAM, "report", "--db", "office.db", "--register", name, "--unit", "kwh"]
    done = subprocess.run(words, cwd=ROOM, capture_output=True, text=True, timeout=120 * SLOW)
    total = sum((decimal.Decimal(line.split()[2]) for line in done.stdout.splitlines()[:-1]), decimal.Decimal(0))
    same(f"{name}: what sunreg report adds up to", (str(total), done.returncode), (state["energy_kwh"], 0))
    same(f"{name}: and in mWh", state["energy_mwh"], str(int(total * 1000000)))


def follows_a_void(office, broker, log):
    """A reading after the restart, which is voided then: the energy falls."""
    topic = f"{PREFIX}/registers/main"
    holds("the device is read again", office.read_device(5100, 142), office.get("/status"))
    holds("a reading", wait_until(lambda: json.loads(log.of(topic)[-1])["energy_mwh"] == "100000", 20), log.of(topic)[-1:])
    first, entries = next(it for it in map(json.loads, log.of(topic)) if it["energy_mwh"] == "100000"), office.entries("m1")
    before = next(it for it in reversed(entries) if it[1] == 5031)
    now = first["time_seconds"], 5100
    holds("one of the office's", now in entries, (now, entries))
    same("its mean is since the reading before", (first["mean_power"]["from"], first["mean_power"]["watts"]), (text_of(before[0]), watts(before, now)))
    # (the device was perhaps read more than once)
    places = range(len(entries), len(entries) - sum(it[1] == 5100 for it in entries), -1)
    same("it is voided", [office.post("/meters/m1/void", {"place": it}) for it in places], [(200, {"done": "void"})] * len(places))
    holds("less energy is published", wait_until(lambda: json.loads(log.of(topic)[-1])["energy_mwh"] == "31000", 20), log.of(topic)[-1:])
    state = state_of(broker, "main")
    same("it is that of the reading before", (state["energy_mwh"], state["time_seconds"], state["mean_power"]), ("31000", before[0], None))


def other_options(office, broker):
    """A device that is silent, and no discovery."""
    holds("time for --silent", wait_until(lambda: json.loads(office.get("/site")[1])["at"] > json.loads(office.get("/status")[1])["devices"][0]["last_reading"] + 1, 10))
    words = bridge_words(office.port, broker.port, "--once", "--silent", "1", "--discovery", "")
    words[words.index("--prefix") + 1] = "other"
    same("a silent device, without discovery", run_bridge(*words)[0], 0)
    kept = {topic: text for topic, text in broker.retained().items() if "other" in topic}
    same("its topics", set(kept), {"other/availability", "other/devices/inv/availability", "other/registers/main", "other/registers/a-0_1"})
    same("the device is offline", kept["other/devices/inv/availability"], "offline")
    same("and doesn't answer", json.loads(kept["other/registers/main"])["answers"], False)
    same("once: it ends offline", kept["other/availability"], "offline")


def uses_tls(office):
    """A broker with TLS and a password."""
    words = "openssl req -x509 -newkey rsa:2048 -nodes -keyout key.pem -out ca.pem -days 2 -subj /CN=localhost -addext subjectAltName=DNS:localhost"
    subprocess.run(words.split(), cwd=ROOM, check=True, capture_output=True)
    subprocess.run(["mosquitto_passwd", "-b", "-c", "users", "bridge", "Xk29 ybQ"], cwd=ROOM, check=True, capture_output=True)
    broker = Broker("tls", ["allow_anonymous false", "password_file users", "certfile ca.pem", "keyfile key.pem"])
    broker.start()
    right, wrong = write("right", "Xk29 ybQ\n"), write("wrong", "Xk29 yb\n")

    def once(host, *words):
        line = bridge_words(office.port, broker.port, "--once", *words)
        line[line.index("--broker") + 1] = f"{host}:{broker.port}"
        status, said = run_bridge(*line)
        holds("no password is printed", "Xk29" not in said, said)
        return status

    tls = ["--tls", "--ca", f"{ROOM}/ca.pem"]
    user = ["--user", "bridge", "--password-file", right]
    same("TLS with a password", once("localhost", *tls, *user), 0)
    same("a wrong password", once("localhost", *tls, "--user", "bridge", "--password-file", wrong), 3)
    same("no password", once("localhost", *tls), 3)
    same("a certificate that nobody knows", once("localhost", "--tls", *user), 3)
    same("a certificate of another host", once("127.0.0.1", *tls, *user), 3)
    same("no TLS", once("localhost", *user), 3)


def main():
    global PYTHON
    if not os.access(PROGRAM, os.X_OK):
        sys.exit(f"mqtt.py: {PROGRAM} is not built: run ./sunreg-build")
    PYTHON = python_of_paho()
    module = module_of_bridge()
    computes(module)
    write("inv.csv", POINTS)
    device = Device()
    office = Office(device)
    subprocess.run([PROGRAM, "create", "--db", "office.db", "--zone", "UTC0"], cwd=ROOM, check=True, timeout=120 * SLOW)
    done = subprocess.run([PROGRAM, "enter", "--db", "office.db", "--caller", "site"], input=SETUP, cwd=ROOM, capture_output=True, text=True, timeout=120 * SLOW)
    same("the office is set up", done.stdout.split(), ["ok"] * 7)
    device.show(5007, 142)
    office.start()
    broker = Broker("broker", ["allow_anonymous true"])
    broker.start()
    Front.office = office
    server = http.server.ThreadingHTTPServer(("127.0.0.1", 0), Front)
    threading.Thread(target=server.serve_forever, daemon=True).start()
    front = server.server_port
    if not holds("the device is read", office.read_device(5007, 142), office.child.poll()):
        sys.exit(1)
    refuses_options(module, office, broker)
    refuses_responses(module, front, broker)
    for topic in (f"{PREFIX}/registers/gone", f"{PREFIX}/devices/gone/availability", f"{NODE}/gone_energy/config", f"{NODE}/gone_power/config"):
        broker.publish(topic, "{}", "-r")

    def start_bridge():
        return start(bridge_words(front, broker.port, "--every", "1", "--silent", "100000"), "bridge")

    log = broker.listen()
    begin = len(log.messages)
    bridge = start_bridge()
    holds("online", log.waits(f"{PREFIX}/availability", "online", begin), log.of_bridge(begin))
    log.sync()
    publishes(office, broker, log)
    is_quiet("at first", log)
    follows_readings(office, broker, log)
    is_quiet("after a reading", log)
    bridge = survives_bridge(start_bridge, bridge, broker, log)
    survives_broker(broker)
    kill(log.child)
    log = broker.listen()
    is_quiet("after the broker's restart", log)
    survives_office(office, device, log)
    follows_a_void(office, broker, log)
    is_quiet("after a void", log)
    other_options(office, broker)
    uses_tls(office)
    same("the bridge still runs", bridge.poll(), None)
    same("and stops", kill(bridge, signal.SIGTERM), 0)
    with open(f"{ROOM}/bridge", encoding="utf-8") as file:
        said = file.read()
    holds("it printed no fault of its own", "Traceback" not in said and "thread failed" not in said, said)
    print(f"{passed} passed, {failed} failed")
    return failed != 0


if __name__ == "__main__":
    sys.exit(main())
