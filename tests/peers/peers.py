"""peers.py PROGRAM [PEER..]: tests the built program with other programs.

tests/peers.sh runs it. PEER is the path of a compiled libmodbus_client or libmodbus_server, or
`mbpoll` or `pymodbus`. A plain client and server of Python's standard library, curl and sqlite3 are
always tested.
"""
import json
import os
import re
import socket
import sys
import time

import modbus
from room import CHILDREN, HERE, ROOM, free_port, run, sql, start, stop

PROGRAM = os.path.abspath(sys.argv[1])
GIVEN = {os.path.basename(it): it for it in sys.argv[2:]}
PYTHON = sys.executable
UNIT = 7
LIST = """name,function,area,address,type,scale
WH,3,0,40094,acc32,WH_SF
WH_SF,3,0,40096,sunssf,
FAR,3,0,40300,acc32,
LOW,4,0,30000,acc32,
"""
tally = {True: 0, False: 0}


def same(what, got, wanted):
    tally[got == wanted] += 1
    if got != wanted:
        print(f"{what}: {got!r}, and not {wanted!r}", flush=True)


def clients():
    """Returns the installed clients.

    Each has the kinds of requests that it can't send, and whether each request has its own
    connection."""
    plain = [PYTHON, str(HERE / "modbus.py"), "client"]
    found = [("the plain client", plain, (), False)]
    if "libmodbus_client" in GIVEN:
        found.append(("libmodbus", [GIVEN["libmodbus_client"]], ("raw",), False))
    if "pymodbus" in GIVEN:
        found.append(("pymodbus", [PYTHON, str(HERE / "pymodbus_peer.py"), "client"], ("raw",), False))
    if "mbpoll" in GIVEN:
        found.append(("mbpoll", [PYTHON, str(HERE / "mbpoll_client.py")], ("raw", "mask"), True))
    return found


def servers():
    found = [("the plain server", [PYTHON, str(HERE / "modbus.py"), "serve"])]
    if "libmodbus_server" in GIVEN:
        found.append(("libmodbus's server", [GIVEN["libmodbus_server"]]))
    if "pymodbus" in GIVEN:
        found.append(("pymodbus's server", [PYTHON, str(HERE / "pymodbus_peer.py"), "serve"]))
    return found


def requests():
    lines = (HERE / "requests.txt").read_text().splitlines()
    return [line.split(" -> ") for line in lines if " -> " in line]


def stand_in(connections, text=None):
    port = free_port()
    words = [PROGRAM, "stand-in", "--port", str(port), "--connections", str(connections)]
    bank = (HERE / "bank.txt").read_text() if text is None else text
    return port, start(words, port, bank, stdout=open(ROOM / "said", "w"), stderr=open(ROOM / "said", "a"))


def said_in(text):
    """Returns the messages without that about a missing log: sqlite3 removes the log of a file that
    it closes."""
    return "".join(line for line in text.splitlines(keepends=True) if "it had no log" not in line)


def has_ended(what, child):
    """A child ended by itself with status 0 and without messages."""
    try:
        status = child.wait(20)
    except Exception:
        stop(child)
        status = "not ended"
    same(f"{what}: the end", (status, said_in((ROOM / "said").read_text())), (0, ""))


def try_client(name, words, unsent, each_alone):
    asked = [(ask, wanted) for ask, wanted in requests() if ask.split()[0] not in unsent]
    port, child = stand_in(len(asked) if each_alone else 1)
    done = run(*words, str(port), str(UNIT), text="".join(f"{ask}\n" for ask, _ in asked), limit=300)
    answers = done.stdout.splitlines()
    for at, (ask, wanted) in enumerate(asked):
        same(f"{name}: {ask}", answers[at] if at < len(answers) else done.stderr[-300:], wanted)
    has_ended(name, child)


def received(stream):
    """Returns all bytes up to the end of a stream, or until nothing comes for two seconds."""
    stream.settimeout(2)
    got = b""
    try:
        while more := stream.recv(4096):
            got += more
    except TimeoutError:
        got += b" and silence"
    except ConnectionResetError:
        pass
    return got


def try_frames():
    """Frames in pieces, many at once, of another protocol and garbled; each case has its own
    connection."""
    read = modbus.frame(1, 17, bytes.fromhex("03006b0003"))
    reply = bytes.fromhex("000100000009110306022b00000064")
    foreign = bytes.fromhex("00010001000611 03006b0003")
    most_words = modbus.frame(2, 0, bytes.fromhex("030000007d"))
    all_words = [0] * 125
    all_words[107], all_words[109], all_words[110] = 555, 100, 65535
    told_words = modbus.frame(2, 0, b"\x03\xfa" + b"".join(it.to_bytes(2, "big") for it in all_words))
    most_bits = modbus.frame(3, 255, bytes.fromhex("01000007d0"))
    cases = [
        ("a frame byte by byte", [bytes([it]) for it in read], reply),
        ("forty frames at once", [read * 40], reply * 40),
        ("a frame and a half, and the rest", [read + read[:7], read[7:]], reply * 2),
        ("a frame of another protocol is skipped", [foreign + read], reply),
        ("the most registers", [most_words], told_words),
        ("the most coils", [most_bits], modbus.frame(3, 255, b"\x01\xfa" + bytes(250))),
        ("a length of 1 ends the connection", [read + bytes.fromhex("000100000001") + read], reply),
        ("a length of 255 ends the connection", [bytes.fromhex("0001000000ff") + read], b""),
        ("half a frame", [read[:9]], b""),
        ("nothing", [], b""),
        ("and then a frame again", [read], reply),
    ]
    bank = "area coil 0 2000\narea holding 0 200\nset holding 107 555\nset holding 109 100\nset holding 110 65535\n"
    port, child = stand_in(len(cases), bank)
    for what, pieces, wanted in cases:
        with socket.create_connection(("127.0.0.1", port), timeout=20) as stream:
            stream.setsockopt(socket.IPPROTO_TCP, socket.TCP_NODELAY, 1)
            for piece in pieces:
                stream.sendall(piece)
                time.sleep(0.005)
            stream.shutdown(socket.SHUT_WR)
            same(f"frames: {what}", received(stream), wanted)
    has_ended("frames", child)


class Desk:
    """A serving office, to which curl sends requests."""

    def __init__(self, db, connections):
        self.port = free_port()
        words = [PROGRAM, "serve", "--db", db, "--port", str(self.port), "--connections", str(connections)]
        self.child = start(words, self.port, stdout=open(ROOM / "said", "w"), stderr=open(ROOM / "said", "a"))

    def ask(self, path, *words):
        """Returns the status and the body of a response."""
        (ROOM / "body").write_text("")
        done = run("curl", "-s", "-o", "body", "-w", "%{http_code}", "--max-time", "30", *words, f"http://127.0.0.1:{self.port}{path}")
        return f"{done.stdout} {(ROOM / 'body').read_text()}"

    def put(self, path, number, body, *words):
        """Sends a command of the caller desk."""
        text = body if isinstance(body, str) else json.dumps(body)
        (ROOM / "asked").write_text(text)
        return self.ask(path, "-H", "Office-Caller: desk", "-H", f"Office-Request: {number}", "--data-binary", "@asked", *words)


def set_up():
    """Returns the commands that set up the plant: a device with a list, and three registers with a
    meter each."""
    return [
        ("/devices", {"name": "inv", "unit": UNIT, "timeout": 5, "window": 2}, "device"),
        ("/devices/inv/list", LIST, "list"),
        ("/registers", {"name": "main", "device": "inv", "function": 3, "address": 40094, "scale_at": 40096}, "register"),
        ("/registers", {"name": "far", "device": "inv", "function": 3, "address": 40300, "fixed": 0}, "register"),
        ("/registers", {"name": "low", "device": "inv", "function": 4, "address": 30000, "fixed": -1}, "register"),
        ("/registers/main/install", {"meter": "m1", "raw": 5000, "sf": 0, "ceiling": 1000000000}, "install"),
        ("/registers/far/install", {"meter": "f1", "raw": 65500, "range": 65536, "sf": 0, "ceiling": 100000}, "install"),
        ("/registers/low/install", {"meter": "l1", "raw": 10, "sf": -1, "ceiling": 10000000}, "install"),
    ]


def corrections():
    """Sends one command after the other over a separate register, each a second after the last."""
    return [
        ("/registers", {"name": "spare", "device": "inv", "function": 3, "address": 40500, "fixed": 0}, "register"),
        ("/registers/spare/install", {"meter": "s1", "raw": 100, "sf": 0, "ceiling": 1000}, "install"),
        ("/registers/spare/manual", {"raw": 110, "rolls": 0}, "manual"),
        ("/registers/spare/manual", {"raw": 115, "rolls": 0}, "manual"),
        ("/registers/spare/reset", {"before": 120, "after": 0}, "reset"),
        ("/registers/spare/rescale", {"before": 10, "after": 1, "sf": 1}, "rescale"),
        ("/registers/spare/exchange", {"last": 2, "rolls": 0, "meter": "s2", "raw": 7, "sf": 1, "ceiling": 1000}, "exchange"),
        ("/registers/spare/close", {"raw": 9, "rolls": 0}, "close"),
    ]


ONE = {"name": "one", "unit": 1, "timeout": 1, "window": 1}
HEADERS = ["-H", "Office-Caller: desk", "-H", "Office-Request: 900"]
BARE = ["-X", "POST", *HEADERS]


def faults():
    """Returns requests that are faults: a name, the path, curl's arguments, and the response.

    None of them changes anything."""
    body = json.dumps(ONE)
    sent = ["--data-binary", body]
    return [
        ("a head past its limits", "/devices", ["-H", "X: " + "x" * 9000], '431 {"fault":431}'),
        ("65 headers", "/meters/m1", [it for n in range(65) for it in ("-H", f"X-{n}: 1")], '431 {"fault":431}'),
        ("no route", "/nothing", [], '404 {"fault":404}'),
        ("a target with ?", "/meters/m1?x", [], '404 {"fault":404}'),
        ("another method", "/devices", [], '405 {"fault":405}'),
        ("a question is no command", "/meters/m1", [*HEADERS, *sent], '405 {"fault":405}'),
        ("chunks", "/devices", [*HEADERS, "-H", "Transfer-Encoding: chunked", *sent], '400 {"fault":400}'),
        ("a double header", "/devices", [*HEADERS, "-H", "Office-Caller: desk", *sent], '400 {"fault":400}'),
        ("no length", "/devices", BARE, '411 {"fault":411}'),
        ("a length that is no number", "/devices", [*BARE, "-H", "Content-Length: x"], '400 {"fault":400}'),
        ("a body past its limit", "/devices", [*HEADERS, "--data-binary", "@big"], '413 {"fault":413}'),
        ("no caller", "/devices", ["-H", "Office-Request: 900", *sent], '400 {"fault":400}'),
        ("no number", "/devices", ["-H", "Office-Caller: desk", *sent], '400 {"fault":400}'),
        ("a caller that is no name", "/devices", ["-H", "Office-Caller: 9", *HEADERS[2:], *sent], '400 {"fault":400}'),
        ("no object", "/devices", [*HEADERS, "--data-binary", "[]"], '400 {"fault":400}'),
        ("a member that lacks", "/devices", [*HEADERS, "--data-binary", '{"name":"one"}'], '400 {"fault":400}'),
        ("a list with faults", "/devices/inv/list", [*HEADERS, "--data-binary", "name\n"], '422 {"faults":[[1,2]]}'),
        ("an unknown device", "/devices/none/list", [*HEADERS, "--data-binary", LIST], '404 {"refused":1}'),
        ("a name that is taken", "/devices", [*HEADERS, "--data-binary", json.dumps({**ONE, "name": "inv"})], '409 {"refused":2}'),
        ("a unit out of range", "/devices", [*HEADERS, "--data-binary", json.dumps({**ONE, "unit": 256})], '422 {"refused":12}'),
        ("an unknown meter", "/meters/none", [], '404 {"refused":1}'),
        ("an unknown poll", "/polls/1", [], '404 {"refused":1}'),
        ("an unknown register", "/registers/none/days", [], '404 {"refused":1}'),
        ("no intervals of an unknown meter", "/meters/none/intervals", [], '404 {"refused":1}'),
        ("no days yet", "/registers/main/days", [], "200 end 0\n"),
        ("no intervals yet", "/meters/m1/intervals", [], "200 end 0\n"),
    ]


def meter_told(name, register, last, sf, total, ended):
    about = {"at": "T", "ended": ended, "last": last, "meter": name, "range": 2**32}
    wanted = {**about, "register": register, "sf": sf, "total": str(total)}
    return "200 " + json.dumps(wanted, separators=(",", ":")).replace('"T"', "T")


def without_moments(text):
    return re.sub(r'"(at|moment|started)":\d+', r'"\1":T', text)


def try_routes(db):
    """Every route, by curl; the routes set up the plant."""
    (ROOM / "big").write_text("x" * 65537)
    setting, correcting, wrong = set_up(), corrections(), faults()
    desk = Desk(db, len(setting) + len(correcting) + len(wrong) + 5)
    for number, (path, body, done) in enumerate(setting, 1):
        same(f"POST {path}", desk.put(path, number, body), f'200 {{"done":"{done}"}}')
    for what, path, words, reply in wrong:
        same(f"{what}: {path}", desk.ask(path, *words), reply)
    path, body, done = setting[-1]
    same(f"again POST {path}", desk.put(path, len(setting), body), f'200 {{"done":"{done}"}}')
    same(f"another under its number: POST {path}", desk.put(path, len(setting), {**body, "meter": "l2"}), '409 {"refused":11}')
    for number, (path, body, done) in enumerate(correcting, 101):
        time.sleep(1.1)
        same(f"POST {path}", desk.put(path, number, body), f'200 {{"done":"{done}"}}')
    same("what was read by hand can't be voided", desk.put("/meters/s1/void", 150, {"place": 2}), '409 {"refused":16}')
    same("GET /meters/s1", without_moments(desk.ask("/meters/s1")), meter_told("s1", "spare", 2, 1, 40000, True))
    same("GET /meters/s2", without_moments(desk.ask("/meters/s2")), meter_told("s2", "spare", 9, 1, 20000, True))
    has_ended("serve", desk.child)


def try_answers(db, rounds):
    """The responses to queries after the rounds, and the void of a meter's last reading."""
    polls = rounds - 1
    desk = Desk(db, 7)
    wanted = meter_told("m1", "main", 5200 + 100 * polls, 0, 200000 + 100000 * polls, False)
    same("GET /meters/m1", without_moments(desk.ask("/meters/m1")), wanted)
    told = '200 {"code":0,"device":"inv","moment":T,"outcome":1,"poll":1,"started":T}'
    same("GET /polls/1", without_moments(desk.ask("/polls/1")), told)
    for path, rows in (("/meters/m1/intervals", 2), ("/registers/main/days", 3), ("/registers/far/days", 3)):
        lines = desk.ask(path)[4:].splitlines()
        energy = sum(int(line.split()[rows - 1]) for line in lines[:-1])
        wanted = {"/registers/far/days": 136000 + 10000 * polls}.get(path, 200000 + 100000 * polls)
        same(f"GET {path}", (lines[-1:], energy), ([f"end {len(lines) - 1}"], wanted))
    same("POST /meters/l1/void", desk.put("/meters/l1/void", 201, {"place": rounds + 1}), '200 {"done":"void"}')
    last, total = (990 + 10 * polls, 98000 + 1000 * polls) if polls else (10, 0)
    told = without_moments(desk.ask("/meters/l1"))
    same("GET /meters/l1 behind the void", told, meter_told("l1", "low", last, -1, total, False))
    has_ended("serve behind the rounds", desk.child)
    same("sqlite3: voids", sql(db, "SELECT meter, place FROM voids"), [f"l1|{rounds + 1}"])
    energy_adds_up(db, "behind a void")


def plant(turn):
    """Returns the registers of the plant's device in a round, from 0 on.

    Each register of main has 100 Wh more, and each of the others 10 Wh."""
    main, far, low = 5200 + 100 * turn, (65636 + 10 * turn) % 65536, 1000 + 10 * turn
    path = ROOM / f"plant{turn}"
    path.write_text(f"holding 40094 0 {main} 0\nholding 40300 0 {far}\ninput 30000 0 {low}\n")
    return str(path), main, far, low


def device(words, path, *more):
    port = free_port()
    return port, start([*words, str(port), path, *more], port, stderr=open(ROOM / "device", "w"))


def poll_device(db, port):
    return run(PROGRAM, "round", "--db", db, "--device", "inv", "--port", str(port))


def frames_of(reads, first):
    return b"".join(modbus.frame(first + at, UNIT, bytes.fromhex(pdu)) for at, pdu in enumerate(reads)).hex()


def try_round(db, name, words, turn):
    path, main, far, low = plant(turn)
    port, child = device(words, path)
    done = poll_device(db, port)
    stop(child)
    first = 3 * turn + 1
    steps = (200000, 136000, 99000) if turn == 0 else (100000, 10000, 1000)
    wanted = [
        f"started {first} 2 3 " + frames_of(["039c9e0003", "039d6c0002"], 0),
        f"poll {first} answered",
        f"reading m1 {main} rolls 0 step {steps[0]}",
        f"poll {first + 1} answered",
        f"reading f1 {far} rolls {int(turn == 0)} step {steps[1]}",
        f"started {first + 2} 1 3 " + frames_of(["0475300002"], 2),
        f"poll {first + 2} answered",
        f"reading l1 {low} rolls 0 step {steps[2]}",
    ]
    printed = [line for line in done.stdout.splitlines() if line != "ok"]
    said = "sunreg: register spare: missing from the point list of inv; add function 3, registers 40500 to 40501 to it\nsunreg: register spare: no open meter; install one with POST /registers/spare/install\n"
    same(f"a round over {name}", (done.returncode, sorted(printed), done.stderr), (0, sorted(wanted), said))


KNOWN = {1: 66, 101: 50, 103: 50, 203: 105}


def shown_by(base, models, end=0xFFFF):
    """Returns the registers of a chain of models, each with its length.

    Each register of a model has its offset as value, except its scales. Long models have none."""
    words, address = {base: 0x5375, base + 1: 0x6E53}, base + 2
    for model, length in models:
        if model in KNOWN or length < 1000:
            words.update({address + offset: offset if model != 1 else 0x3030 + 256 * (offset // 10) + offset % 10 for offset in range(2, length + 2)})
        words.update({address: model, address + 1: length})
        words.update({address + 26: 0} if model in (101, 103) else {address + 54: 1} if model == 203 else {})
        address += 2 + length
    return {**words, address: end} if address < 65536 else words


def headlines(base, models):
    """Returns the output about the chain itself, without the points of its models."""
    lines, address = [f"base {base}"], base + 2
    for model, length in models:
        lines.append(f"model {address} {model} {length}")
        address += 2 + length
    return [*lines, f"end {address}"]


def scan_device(words, bank, *more):
    """Returns the output of a scan of a server of these registers.

    None means a server that does not know function 3."""
    path = ROOM / "chain"
    path.write_text("without holding\n" if bank is None else "".join(f"holding {address} {word}\n" for address, word in sorted(bank.items())))
    port, child = device(words, str(path))
    done = run(PROGRAM, "scan", "--port", str(port), "--unit", str(UNIT), *more)
    stop(child)
    return done.returncode, done.stdout, done.stderr


def chain_of(bank):
    """Returns the output of `chain` for these registers."""
    done = run(PROGRAM, "chain", text="".join(f"{address} {word:04x}\n" for address, word in sorted(bank.items())))
    return done.returncode, done.stdout


def try_scan(name, words):
    """A scan prints known, unknown and long models as `chain` prints them for the same
    registers."""
    plant = [(1, 66), (103, 50), (203, 105)]
    chains = [
        ("models 1, 103 and 203", 40000, plant),
        ("the same at 50000", 50000, plant),
        ("the same at 0", 0, plant),
        ("unknown models first, between and last", 40000, [(9, 3), (1, 66), (64001, 200), (103, 50), (203, 105), (65534, 1)]),
        ("a model without registers", 40000, [(9, 0), (101, 50)]),
        ("a chain that ends at 65535", 50000, [(1, 66), (64001, 15463 - 52), (103, 50)]),
        ("no model", 40000, []),
    ]
    for what, base, models in chains:
        bank = shown_by(base, models)
        status, printed, said = scan_device(words, bank)
        told = [line for line in printed.splitlines() if not line.startswith("point ")]
        same(f"{name}: {what}", (status, told, said), (0, headlines(base, models), ""))
        same(f"{name}: {what}, as chain prints it", (status, printed), chain_of(bank))
    same(f"{name}: 50000 is looked at before 0", scan_device(words, {**shown_by(0, plant), **shown_by(50000, plant[:1])})[1].split()[1], "50000")
    faults = [
        ("no mark", {40000: 0x5375, 40001: 0x6E54}, "fault 1"),
        ("a chain past 65535", shown_by(50000, [(1, 66), (64001, 65535)]), "fault 3"),
        ("a chain whose end has no room", shown_by(50000, [(1, 66), (64001, 15464)], 0), "fault 3"),
        ("65 models", shown_by(40000, [(9, 1)] * 65), "fault 4"),
        ("no function 3", None, "fault 1"),
    ]
    for what, bank, fault in faults:
        same(f"{name}: {what}", scan_device(words, bank), (1, f"{fault}\n", ""))


def try_setup(name, words):
    """The first hour of a site over a server.

    The output of a scan is entered, also a second time, and a round records with it."""
    db = str(ROOM / f"site{len(CHILDREN)}.db")
    bank = shown_by(40000, [(1, 66), (64001, 7), (103, 50), (203, 105)])
    status, printed, said = scan_device(words, bank, "--setup", "inv")
    lines = re.sub(r"(?m)^# (\d+ install inv-(?:wh|exp|imp)\d .*) CEILING$", r"\1 100000", printed)
    asked = sum(line[:1].isdigit() for line in lines.splitlines())
    same(f"{name}: a setup", (status, asked, said), (0, 8, ""))
    same(f"{name}: an office", run(PROGRAM, "create", "--db", db, "--zone", "UTC0").returncode, 0)
    for what in ("entered", "entered again"):
        done = run(PROGRAM, "enter", "--db", db, "--caller", "desk", text=lines)
        same(f"{name}: a setup {what}", (done.returncode, done.stdout, done.stderr), (0, "ok\n" * asked, ""))
    time.sleep(1.1)
    bank[40079 + 25] += 7
    (ROOM / "chain").write_text("".join(f"holding {address} {word}\n" for address, word in sorted(bank.items())))
    port, child = device(words, str(ROOM / "chain"))
    done = poll_device(db, port)
    stop(child)
    read = sorted(line.split()[1:] for line in done.stdout.splitlines() if line.startswith("reading"))
    steps = [[meter, how[-1]] for meter, *how in read]
    same(f"{name}: a round by it", (done.returncode, steps, done.stderr), (0, [["inv-exp4", "0"], ["inv-imp4", "0"], ["inv-wh3", "7000"]], ""))


def try_rows(db, rounds):
    """Each table, as sqlite3 reads it."""
    polls, last = 3 * rounds, rounds - 1
    same("sqlite3: integrity_check", sql(db, "PRAGMA integrity_check; PRAGMA foreign_key_check"), ["ok"])
    asked = {
        "SELECT id, version, zone FROM meta": ["1|3|UTC0"],
        'SELECT place, name, unit, timeout, "window" FROM devices': [f"1|inv|{UNIT}|5|2"],
        "SELECT * FROM points": [
            "inv|1|WH|3|0|40094|acc32|WH_SF",
            "inv|2|WH_SF|3|0|40096|sunssf|",
            "inv|3|FAR|3|0|40300|acc32|",
            "inv|4|LOW|4|0|30000|acc32|",
        ],
        "SELECT * FROM registers": [
            "1|main|inv|3|40094|1|40096",
            "2|far|inv|3|40300|0|0",
            "3|low|inv|4|30000|0|-1",
            "4|spare|inv|3|40500|0|0",
        ],
        "SELECT place, meter, register, ceiling, ended, last_raw, last_sf, total FROM installations": [
            f"1|m1|main|1000000000|0|{5200 + 100 * last}|0|{200000 + 100000 * last}",
            f"2|f1|far|100000|0|{100 + 10 * last}|0|{136000 + 10000 * last}",
            f"3|l1|low|10000000|0|{1000 + 10 * last}|-1|{99000 + 1000 * last}",
            "4|s1|spare|1000|1|2|1|40000",
            "5|s2|spare|1000|1|9|1|20000",
        ],
        'SELECT meter, "range" FROM ranges ORDER BY meter': [
            "f1|65536",
            *(f"{meter}|4294967296" for meter in ("l1", "m1", "s1", "s2")),
        ],
        'SELECT place, kind, raw, rolls, "after", sf FROM entries WHERE meter = \'s1\'': [
            "1|1|100|0|0|0",
            "2|3|110|0|0|0",
            "3|3|115|0|0|0",
            "4|5|120|0|0|0",
            "5|6|10|0|1|1",
            "6|4|2|0|0|1",
        ],
        "SELECT meter, place FROM voids": [],
        "SELECT count(*) FROM holds": ["0"],
        "SELECT poll, device, unit, tid, function, address, count FROM polls": [
            f"{3 * turn + 1 + at}|inv|{UNIT}|{at}|{read}"
            for turn in range(rounds)
            for at, read in enumerate(("3|40094|3", "3|40300|2", "4|30000|2"))
        ],
        "SELECT poll, outcome, code FROM outcomes": [f"{poll}|1|0" for poll in range(1, polls + 1)],
        "SELECT caller, number, kind FROM replies ORDER BY number": [
            *(f"desk|{number}|{done}" for number, (_, _, done) in enumerate(set_up(), 1)),
            *(f"desk|{number}|{done}" for number, (_, _, done) in enumerate(corrections(), 101)),
        ],
        "SELECT count(*) FROM entries WHERE kind = 2": [str(polls)],
    }
    for query, wanted in asked.items():
        same(f"sqlite3: {query}", sql(db, query), wanted)
    energy_adds_up(db, "behind the rounds")


def energy_adds_up(db, when):
    off = """SELECT meter FROM installations i
             WHERE total != (SELECT coalesce(sum(mwh), 0) FROM intervals v WHERE v.meter = i.meter)"""
    same(f"sqlite3: each meter's intervals add up to its total, {when}", sql(db, off), [])


def try_kills(db, rounds):
    """Rounds over a slow device, each killed at another time; then the file is sound, and the
    office opens."""
    server = servers()[0][1]
    for kill in range(8):
        time.sleep(1.1)
        path = plant(rounds + kill)[0]
        port, child = device(server, path, "0.1")
        words = [PROGRAM, "round", "--db", db, "--device", "inv", "--port", str(port)]
        round_ = start(words, stdout=open(ROOM / "killed", "w"), stderr=open(ROOM / "killed", "a"))
        wanted = ["started", "answered", "reading"][kill % 3]
        until = time.monotonic() + 60
        while wanted not in (ROOM / "killed").read_text() and round_.poll() is None and time.monotonic() < until:
            time.sleep(0.002)
        time.sleep(0.01 * (kill // 3))
        round_.kill()
        round_.wait()
        stop(child)
        same(f"kill {kill}: integrity_check", sql(db, "PRAGMA integrity_check; PRAGMA foreign_key_check"), ["ok"])
        pending = "SELECT count(*) FROM polls WHERE poll NOT IN (SELECT poll FROM outcomes)"
        same(f"kill {kill}: some poll waits", 1 <= int(sql(db, pending)[0]) <= 2, True)
        printed = [line for line in (ROOM / "killed").read_text().splitlines() if line.startswith("reading")]
        booked = {line for line in sql(db, "SELECT meter || ' ' || raw FROM entries WHERE kind = 2")}
        same(f"kill {kill}: what was printed is booked", [it for it in printed if " ".join(it.split()[1:3]) not in booked], [])
        energy_adds_up(db, f"behind kill {kill}")
        done = run(PROGRAM, "report", "--db", db, "--register", "main")
        same(f"kill {kill}: the office opens again", (done.returncode, said_in(done.stderr)), (0, ""))
        same(f"kill {kill}: no poll waits then", sql(db, pending), ["0"])
    outcomes = sql(db, "SELECT DISTINCT outcome, code FROM outcomes ORDER BY outcome")
    same("behind the kills polls are answered, or lost by an opening", outcomes, ["1|0", "5|4"])
    time.sleep(1.1)
    path = plant(rounds + 8)[0]
    port, child = device(server, path)
    done = poll_device(db, port)
    stop(child)
    same("a round behind the kills", (done.returncode, done.stdout.count("answered"), done.stdout.count("reading")), (0, 3, 3))
    main = 200000 + 100000 * (rounds + 8)
    done = run(PROGRAM, "report", "--db", db, "--register", "main")
    energy = sum(int(line.split()[2]) for line in done.stdout.splitlines()[:-1])
    same("no energy was lost or invented", energy, main)


def carried_out(trial, *words):
    """Runs a trial; a trial that breaks off has failed."""
    try:
        trial(*words)
    except Exception as why:
        same(f"{trial.__name__}{words[:1]}", f"broken off: {why!r}", "")
    for child in CHILDREN:
        stop(child)


def main():
    for client in clients():
        carried_out(try_client, *client)
    carried_out(try_frames)
    for name, words in servers():
        carried_out(try_scan, name, words)
        carried_out(try_setup, name, words)
    db = str(ROOM / "office.db")
    done = run(PROGRAM, "create", "--db", db, "--zone", "UTC0")
    same("create", (done.returncode, done.stdout, done.stderr), (0, "", ""))
    if done.returncode == 0:
        carried_out(try_routes, db)
        for turn, (name, words) in enumerate(servers()):
            carried_out(try_round, db, name, words, turn)
            time.sleep(1.1)
        rounds = len(servers())
        carried_out(try_rows, db, rounds)
        carried_out(try_answers, db, rounds)
        carried_out(try_kills, db, rounds)
    print(f"{tally[True]} passed, {tally[False]} failed")
    return 1 if tally[False] else 0


if __name__ == "__main__":
    sys.exit(main())
