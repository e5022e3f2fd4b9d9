"""bad_day_files.py PROGRAM ROOM [NAME..]: runs all checks of bad_day_files.sh, or these."""
import json
import os
import resource
import shutil
import socket
import sqlite3
import subprocess
import sys
import time

PROGRAM, ROOM, NAMES = sys.argv[1], sys.argv[2], sys.argv[3:]
# The factor by which a build without optimization is slower.
SLOW = int(os.environ.get("SLOW", "1"))
CHILDREN = []
passed = failed = 0


def check(what, is_so, got=""):
    global passed, failed
    if is_so:
        passed += 1
    else:
        failed += 1
        print(f"{what}: {got!r}", flush=True)


def equal(what, got, wanted):
    check(what, got == wanted, (got, wanted))


def free_port():
    with socket.create_server(("127.0.0.1", 0)) as listener:
        return listener.getsockname()[1]


def begin(*words, limit=None, output=None, **ways):
    """Starts the program, which may open so many descriptors; its output and errors go into
    files."""
    name = f"{ROOM}/{len(CHILDREN)}"

    def set_limit():
        if limit:
            resource.setrlimit(resource.RLIMIT_NOFILE, (limit, limit))

    with open(f"{name}.out", "w") as out, open(f"{name}.err", "w") as errors:
        child = subprocess.Popen(
            [PROGRAM, *words], stdout=out if output is None else output, stderr=errors, preexec_fn=set_limit, **{"stdin": subprocess.DEVNULL, **ways}
        )
    child.name = name
    CHILDREN.append(child)
    return child


def printed(child, stream="out"):
    with open(f"{child.name}.{stream}") as file:
        return file.read().splitlines()


def wait_until(is_so, seconds=20):
    until = time.monotonic() + seconds * SLOW
    while time.monotonic() < until:
        if is_so():
            return True
        time.sleep(0.05)
    return False


def is_open(port):
    try:
        socket.create_connection(("127.0.0.1", port)).close()
        return True
    except OSError:
        return False


def post(port, number, path, body):
    """Returns the status of the response to a command, and its body."""
    text = body if isinstance(body, str) else json.dumps(body)
    head = f"POST {path} HTTP/1.1\r\nContent-Length: {len(text)}\r\nOffice-Caller: desk\r\nOffice-Request: {number}\r\n\r\n"
    reply = b""
    with socket.create_connection(("127.0.0.1", port), timeout=20 * SLOW) as stream:
        stream.sendall((head + text).encode())
        try:
            while more := stream.recv(4096):
                reply += more
        except ConnectionResetError:
            pass
    words = reply.decode().split("\r\n\r\n")
    return words[0].split(" ")[1] if words[0] else "", words[-1]


def device(number):
    return {"name": f"d{number}", "unit": 1, "timeout": 1, "window": 1}


def stand_in():
    """Starts the program's own simulator of a device, and returns its port."""
    port = free_port()
    child = begin("stand-in", "--port", str(port), "--connections", "1000", stdin=subprocess.PIPE)
    child.stdin.write(b"area holding 40000 100\nset holding 40095 5000\n")
    child.stdin.close()
    return port


def make_office(name):
    """Makes an office with the device inv and its meter, and returns its file."""
    db, port = f"{ROOM}/{name}.db", free_port()
    equal(f"{name}: create", subprocess.run([PROGRAM, "create", "--db", db, "--zone", "UTC0"]).returncode, 0)
    serve = begin("serve", "--db", db, "--port", str(port), "--connections", "9")
    wait_until(lambda: is_open(port))
    rows = "name,function,area,address,type,scale\nwh,3,0,40094,acc32,\n"
    register = {"name": "main", "device": "inv", "function": 3, "address": 40094, "fixed": 0}
    meter = {"meter": "m1", "raw": 5000, "sf": 0, "ceiling": 1000000000}
    equal(f"{name}: a device", post(port, 1, "/devices", {**device(0), "name": "inv"})[0], "200")
    equal(f"{name}: its list", post(port, 4, "/devices/inv/list", rows)[0], "200")
    equal(f"{name}: a register", post(port, 2, "/registers", register)[0], "200")
    equal(f"{name}: a meter", post(port, 3, "/registers/main/install", meter)[0], "200")
    serve.kill()
    serve.wait()
    return db


def begin_run(db, *words, **ways):
    """Starts a run that polls the device inv each second, and waits until it listens.

    Returns the run and its port."""
    port = free_port()
    run = begin("run", "--db", db, "--listen", str(port), "--every", "1", "--devices", f"inv=127.0.0.1:{stand_in()}", *words, **ways)
    check("run listens", wait_until(lambda: is_open(port)), printed(run, "err"))
    return run, port


def replace_file(path):
    shutil.copy(path, f"{path}.copy")
    os.rename(f"{path}.copy", path)


def cut_file(path):
    os.truncate(path, 100)


def rename_file(path):
    os.rename(path, f"{path}.away")


CHANGES = {"removed": os.remove, "renamed": rename_file, "replaced": replace_file, "cut": cut_file}
WORDS = {"removed": "removed or renamed", "renamed": "removed or renamed", "replaced": "another file replaced it", "cut": "cut short"}


def hold_ending(what, run, path, words):
    """The run exits with 3 in some seconds, and one line names the file and the loss."""
    check(f"{what}: it ends", wait_until(lambda: run.poll() is not None, 15))
    equal(f"{what}: with 3", run.poll(), 3)
    lines = [line for line in printed(run, "err") if f"sunreg: {path}: " in line]
    check(f"{what}: one line says so", len(lines) == 1 and words in lines[0], printed(run, "err"))


def lost_files():
    """A command over a removed file gets 503, and the run ends."""
    source = make_office("lost")
    for how, change in CHANGES.items():
        for ending in ("", "-wal"):
            what, db = f"a file{ending} that was {how}", f"{ROOM}/lost-{how}{ending}.db"
            shutil.copy(source, db)
            shutil.copy(f"{source}-wal", f"{db}-wal")
            run, port = begin_run(db)
            equal(f"{what}: a command before", post(port, 20, "/devices", device(20)), ("200", '{"done":"device"}'))
            change(f"{db}{ending}")
            equal(f"{what}: a command after", post(port, 21, "/devices", device(21)), ("503", '{"fault":503}'))
            hold_ending(what, run, f"{db}{ending}", WORDS[how])


def lost_unasked():
    """A run whose file is removed also ends without requests. A run whose file gets a second name
    continues."""
    db = make_office("unasked")
    run, _ = begin_run(db)
    os.link(db, f"{db}.second")
    time.sleep(3)
    equal("a second name ends nothing", run.poll(), None)
    os.remove(f"{db}.second")
    os.remove(db)
    hold_ending("a file that was removed", run, db, "removed or renamed")


def polls_in(db):
    """Returns how many polls of the device were answered, by the file of an office that has
    ended."""
    with sqlite3.connect(db) as rows:
        return rows.execute("SELECT count(*) FROM outcomes WHERE outcome = 1").fetchone()[0]


def reader_goes():
    """A run continues to its end when the reader of its lines exits."""
    db = make_office("reader")
    reads, writes = os.pipe()
    run, _ = begin_run(db, "--for", "6", output=writes)
    os.close(writes)
    os.read(reads, 10)
    os.close(reads)
    equal("a run whose reader goes ends as ever", run.wait(30 * SLOW), 0)
    equal("and says nothing of it", printed(run, "err"), [])
    check("and polls", polls_in(db) >= max(1, 3 // SLOW), polls_in(db))


def few_descriptors():
    """With few descriptors the run polls the device beside idle clients, and reports what it
    lacks."""
    for limit in (16, 24, 40):
        db = make_office(f"few{limit}")
        run, port = begin_run(db, "--for", "12", limit=limit)
        silent = []
        for _ in range(30):
            try:
                silent.append(socket.create_connection(("127.0.0.1", port), timeout=1))
            except OSError:
                break
        equal(f"limit {limit}: it ends as ever", run.wait(60 * SLOW), 0)
        for stream in silent:
            stream.close()
        check(f"limit {limit}: the device is polled", polls_in(db) >= max(1, 6 // SLOW), (polls_in(db), printed(run)))
        said = [line for line in printed(run, "err") if "few file descriptors" in line]
        check(f"limit {limit}: it says so", len(said) == 1 and said[0].endswith("ulimit -n 144"), printed(run, "err"))
    db = make_office("enough")
    run, port = begin_run(db, "--for", "2", limit=144)
    run.wait(30 * SLOW)
    equal("by enough descriptors it says nothing", printed(run, "err"), [])


def clock_ahead():
    """If the last record is later than the clock, each command prints both timestamps, and nothing
    but the refusal."""
    db = make_office("ahead")
    with sqlite3.connect(db) as rows:
        rows.execute("UPDATE replies SET moment = moment + 100000 WHERE number = 4")
        latest = rows.execute("SELECT max(moment) FROM replies").fetchone()[0]
    rows.close()
    port = stand_in()
    for words in (
        ("serve", "--db", db, "--port", str(free_port()), "--connections", "1"),
        ("enter", "--db", db, "--caller", "hand"),
        ("round", "--db", db, "--device", "inv", "--port", str(port)),
        ("run", "--db", db, "--listen", str(free_port()), "--every", "1", "--devices", f"inv=127.0.0.1:{port}"),
    ):
        command = begin(*words)
        equal(f"{words[0]}: it is refused", command.wait(20 * SLOW), 1)
        equal(f"{words[0]}: as before on standard output", printed(command), ["refused 3"])
        said = [line for line in printed(command, "err") if "had no log" not in line]
        times = [int(word.strip(",;")) for word in " ".join(said).split() if word.strip(",;").isdigit()]
        check(f"{words[0]}: both timestamps", times[:1] == [latest] and len(times) == 2 and abs(times[1] - time.time()) < 60, said)
        equal(f"{words[0]}: and nothing else", len(said), 1)


CHECKS = (lost_files, lost_unasked, reader_goes, few_descriptors, clock_ahead)
try:
    for one in CHECKS:
        if not NAMES or one.__name__ in NAMES:
            one()
finally:
    for child in CHILDREN:
        child.kill()
print(f"{passed} passed, {failed} failed")
sys.exit(failed > 0)
