"""hostile.py ROOM: copies hostile sites with central/collect. It needs no ClickHouse.

A mock of ClickHouse counts the rows that it gets. Hostile sites redirect, never end, send too much
or too slowly, or echo the password. Each is named with its fault, and an honest site beside them is
copied completely. The peak memory of `collect` is at most MOST above its size without sites."""
import contextlib
import http.server
import importlib.machinery
import importlib.util
import itertools
import json
import os
import pathlib
import socket
import subprocess
import sys
import threading
import time
import urllib.parse

import offices as mock

ROOM = sys.argv[1]
COLLECT = pathlib.Path(__file__).resolve().parent.parent.parent / "central/collect"
NOVEMBER, PASSWORD = 1793491200, "Secret77"
MOST = 64 << 20  # bytes above the size of the process without sites
BIG = 49 << 20  # bytes of a text that is too long
MANY = 600_000  # rows, which are more than a site's share
OK = b"HTTP/1.1 200 OK\r\nConnection: close\r\n\r\n"
ROWS = "/meters/main-1/intervals"
passed = failed = 0


def holds(what, is_so, got=""):
    """Counts whether a condition holds."""
    global passed, failed
    if is_so:
        passed += 1
    else:
        failed += 1
        print(f"{what}: {str(got)[:2000]}", flush=True)


def same(what, got, wanted):
    holds(what, got == wanted, f"{got!r}\nand not {wanted!r}")


class Engine(http.server.BaseHTTPRequestHandler):
    """A mock of ClickHouse whose tables are empty at each query. It keeps the inserted lines of
    the site `good`, and counts those of the others."""

    def do_POST(self):
        query = urllib.parse.parse_qs(urllib.parse.urlsplit(self.path).query).get("query", [""])[0]
        left, rest = int(self.headers["Content-Length"]), b""
        while left:
            piece = self.rfile.read(min(left, 1 << 16))
            left -= len(piece)
            *lines, rest = (rest + piece).split(b"\n")
            for line in lines if query.startswith("INSERT") else []:
                table, site = query.split()[2], line.split(b"\t")[0].decode()
                self.server.counts[table, site] = self.server.counts.get((table, site), 0) + 1
                if site == "good":
                    self.server.lines.append((table, line))
                if table == "energy.sites":
                    self.server.told.append(line.decode())
        text = b"0\n" if b"max(run)" in rest else b""
        with contextlib.suppress(OSError):
            self.wfile.write(OK + text)

    def log_message(self, *_):
        pass


class Server:
    """Sites at one port: each has the targets that it answers itself. An office answers others."""

    def __init__(self, sites):
        self.sites, self.asked, self.office = sites, [], mock.Office()
        meter = self.office.add("main-1", "main", NOVEMBER)
        for k in range(300):
            meter.read(NOVEMBER + 900 * k, k * 7919 % 250_000)
        self.listener = socket.create_server(("127.0.0.1", 0), backlog=64)
        self.port = self.listener.getsockname()[1]
        threading.Thread(target=self.serve, daemon=True).start()

    def serve(self):
        while True:
            sock, _ = self.listener.accept()
            threading.Thread(target=self.talk, args=(sock,), daemon=True).start()

    def talk(self, sock):
        with contextlib.suppress(OSError), sock:
            head = b""
            while b"\r\n\r\n" not in head:
                piece = sock.recv(4096)
                if not piece:
                    return
                head += piece
            name, _, target = head.split()[1][1:].decode().partition("/")
            self.asked.append((name, "/" + target, b"Authorization: Basic" in head))
            answers = self.sites.get(name, {})
            if "/" + target in answers:
                return answers["/" + target](sock)
            status, text = self.office.reply("/" + target)
            sock.sendall(f"HTTP/1.1 {status} \r\nConnection: close\r\n\r\n{text}".encode())


def sent(*pieces):
    """Returns an answer that sends these pieces, and then closes."""
    def answer(sock):
        for piece in itertools.chain(*((it,) if isinstance(it, bytes) else it() for it in pieces)):
            sock.sendall(piece)
    return answer


def slowly(first, piece):
    """Returns an answer that sends a piece again and again, never waiting a second."""
    def answer(sock):
        sock.sendall(first)
        while True:
            sock.sendall(piece)
            time.sleep(0.1)
    return answer


def rising(form, count):
    """Returns an answer of so many lines with numbers that rise, which a file has."""
    path = pathlib.Path(ROOM, f"rising{len(form)}-{count}")
    if not path.exists():
        with open(path, "wb") as file:
            file.writelines(form % k for k in range(count))

    def answer(sock):
        sock.sendall(OK)
        with open(path, "rb") as file:
            sock.sendfile(file)
    return answer


def endless():
    """Returns an answer of rows without an end."""
    some = rising(b"%d 1\n", MANY)

    def answer(sock):
        some(sock)
        for k in itertools.count(MANY):
            sock.sendall(b"%d 1\n" % k)
    return answer


def filled(piece, most=None):
    """Yields a piece again and again."""
    return lambda: itertools.repeat(piece * (65536 // len(piece)), *([] if most is None else [most // 65536]))


def collect(sites, *words):
    """Returns the status, the output, the faults, the peak memory and the seconds of a copy."""
    with open(f"{ROOM}/sites", "w") as file:
        file.write("".join(f"{name} {url}\n" for name, url in sites.items()))
    ENGINE.lines, ENGINE.told, ENGINE.counts = [], [], {}
    begun = time.monotonic()
    with open(f"{ROOM}/out", "w") as out, open(f"{ROOM}/faults", "w") as faults:
        words = [str(COLLECT), "--engine", f"http://127.0.0.1:{ENGINE.server_port}", f"{ROOM}/sites", *words]
        child = subprocess.Popen(words, stdout=out, stderr=faults)
        killer = threading.Timer(240, child.kill)
        killer.start()
        _, status, usage = os.wait4(child.pid, 0)
        killer.cancel()
    text = [open(f"{ROOM}/{name}").read().splitlines() for name in ("out", "faults")]
    return os.waitstatus_to_exitcode(status), *text, usage.ru_maxrss * 1024, time.monotonic() - begun


EARLIER = b'{"register":"main","meter":"main-1","at":1,"last":1,"sf":0,"total":"1","ended":false,"earlier":"1"}'
PAST = "it answers 302 to GET /site, and redirects to {}: write the URL of the site itself into LIST"
SHARE = " needs more than its share of the memory: copy this site with --at-once 1"
LONG = " has a line of more than 4096 bytes"
CUT = " was cut, or is no text of an office"
HEADS = "no answer to GET /site: headers of more than 32768 bytes"


def cases(other):
    """Returns the hostile sites: the target, the answer, and the fault that names it."""
    to = lambda place: b"HTTP/1.1 302 Found\r\nLocation: " + place + b"\r\nConnection: close\r\n\r\n"
    length = lambda count: b"HTTP/1.1 200 OK\r\nConnection: close\r\nContent-Length: %d\r\n\r\n" % count
    return {
        "redirect": ("/site", sent(to(b"http://127.0.0.1:%d/site" % other)), PAST.format("127.0.0.1")),
        "relative": ("/site", sent(to(b"/other/site")), PAST.format("itself")),
        "echo-host": ("/site", sent(to(b"http://me:x@%s/" % PASSWORD.encode())), PAST.format("***")),
        "echo-line": ("/site", sent(PASSWORD.encode() + b" 200 OK\r\n\r\n"), "no answer to GET /site: BadStatusLine"),
        "rows": (ROWS, rising(b"%d 18446744073709551615\n", BIG // 28), ROWS + SHARE),
        "endless": (ROWS, endless(), ROWS + SHARE),
        "one-line": (ROWS, sent(OK, filled(b"1", BIG)), ROWS + LONG),
        "line-later": (ROWS, sent(OK, b"1 2\n", filled(b"3", BIG)), ROWS + LONG),
        "no-digits": (ROWS, sent(OK, filled(b"\n", BIG)), ROWS + " has a line that is no row"),
        "days": ("/registers/main/days", sent(OK, filled(b"2026-11-01   1   5\n", BIG)), "/registers/main/days isn't in the order of days"),
        "meters": ("/registers/main/meters", rising(b"m%d 1 1 1 0 9999999999999999999 open\n", 99_000), "/registers/main/meters has more than 4096 meters"),
        "earlier": ("/site", sent(OK, b'{"registers":[' + EARLIER + b"]}"), ROWS + CUT),
        "big-site": ("/site", sent(OK, filled(b"[", BIG)), "its reply to GET /site has more than 524288 bytes"),
        "objects": ("/site", sent(OK, b'{"registers":[', filled(b'{"":0},', 7 * 65536), b"{}]}"), "its reply to GET /site is none of an office"),
        "slow-byte": (ROWS, slowly(OK, b"1"), f"no answer to GET {ROWS}: timed out"),
        "slow-rows": (ROWS, slowly(OK + b"1 1\n", b""), f"no answer to GET {ROWS}: timed out"),
        "slow-head": ("/site", slowly(b"HTTP/1.1 200 OK\r\n", b"X"), "no answer to GET /site: timed out"),
        "slow-more": ("/site", slowly(b"", b"HTTP/1.1 100 Continue\r\n\r\n"), "no answer to GET /site: timed out"),
        "headers": ("/site", sent(b"HTTP/1.1 200 OK\r\n", filled(b"X: " + b"x" * 8000 + b"\r\n")), HEADS),
        "header": ("/site", sent(b"HTTP/1.1 200 OK\r\nX: ", filled(b"x")), HEADS),
        "continue": ("/site", sent(filled(b"HTTP/1.1 100 Continue\r\n\r\n")), HEADS),
        "many-heads": ("/site", sent(b"HTTP/1.1 200 OK\r\n", filled(b"X: x\r\n")), "no answer to GET /site: HTTPException"),
        "more-length": (ROWS, sent(length(100), b"1 2\nend 1\n"), f"no answer to GET {ROWS}: it ended after 10 of 100 bytes"),
        "less-length": (ROWS, sent(length(8), b"1 2\nend 1\n"), ROWS + CUT),
        "chunk": (ROWS, sent(b"HTTP/1.1 200 OK\r\nTransfer-Encoding: chunked\r\n\r\n", filled(b"1")), f"no answer to GET {ROWS}: LineTooLong"),
        "after-end": (ROWS, sent(OK, b"1 2\nend 1\n", filled(b"1 2\n", BIG)), ROWS + " has a line that is no row"),
        "gzip": (ROWS, sent(b"HTTP/1.1 200 OK\r\nContent-Encoding: gzip\r\n\r\n", filled(b"\x1f\x8b\0\0", BIG)), f"its reply to GET {ROWS} is compressed, which was not requested"),
    }


def is_copied(server):
    """Asserts that the honest site was copied completely."""
    rows = {f"good\tmain\tmain-1\t{start}\t{mwh}\t1".encode() for start, mwh in server.office.meters["main-1"].rows.items()}
    got = [line.rpartition(b"\t")[0] for table, line in ENGINE.lines if table == "energy.intervals"]
    same("the honest site is copied", (len(got), set(got)), (len(rows), rows))
    same("its meter too", [table for table, _ in ENGINE.lines].count("energy.meters"), 1)


def names_each(netrc):
    """Each hostile site is named with its fault, and nothing of it is copied."""
    other = Server({})
    hostile = cases(other.port)
    server = Server({name: {target: answer} for name, (target, answer, _) in hostile.items()})
    # (a meter that claims earlier files is requested by itself, and claims the same)
    server.sites["earlier"].update({"/meters/main-1": sent(OK, EARLIER), ROWS: sent(OK, b"1 2")})
    silent = socket.create_server(("127.0.0.1", 0))
    text = ""
    for is_slow, timeout in ((True, "3"), (False, "100")):
        names = [name for name in hostile if name.startswith("slow") == is_slow]
        sites = {name: f"http://localhost:{server.port}/{name}" for name in [*names, "good"]}
        if is_slow:
            sites["tls"] = f"https://localhost:{silent.getsockname()[1]}"
        status, out, faults, _, seconds = collect(sites, "--timeout", timeout, "--netrc", netrc)
        got = dict(line.split(": ", 2)[1:] for line in faults)
        for name in names:
            same(f"the site {name}", got.get(name), hostile[name][2])
        if is_slow:
            holds("a site that shakes no hands", "timed out" in got.get("tls", ""), got.get("tls"))
            holds("slow sites end at their deadlines", seconds < 200, seconds)
        same("the copy", (status, out[-1]), (1, f"{len(sites)} sites {len(sites) - 1} failed 1 meters 300 rows 4 days"))
        same("nothing of hostile sites is copied", {site for table, site in ENGINE.counts if table == "energy.intervals"}, {"good"})
        is_copied(server)
        text += "\n".join([*out, *faults, *ENGINE.told])
    same("a redirect is not followed", other.asked, [])
    holds("the site got the password", all(is_in for *_, is_in in server.asked), server.asked)
    holds("the faults are in the table of sites", "redirects to ***" in "".join(ENGINE.told), ENGINE.told)
    holds("no text has the password", PASSWORD.lower() not in text.lower(), text)


def bounds_memory():
    """Eight hostile sites at once take at most MOST bytes."""
    _, _, _, base, _ = collect({})
    peaks = {}

    def check(what, answers, wanted, sites=8):
        server = Server({f"s{place}": answers[place % len(answers)] for place in range(sites)})
        status, out, faults, peak, _ = collect({name: f"http://127.0.0.1:{server.port}/{name}" for name in server.sites}, "--timeout", "100")
        same(f"sites of {what}", sorted(faults), sorted(f"collect: s{place}: {wanted[place % len(wanted)]}" for place in range(sites) if wanted))
        holds(f"memory of {what}", peak - base < MOST, f"{(peak - base) >> 10} kB above {base >> 10} kB")
        peaks[what] = (peak - base) >> 20

    hostile = cases(1)
    for kinds in ("rows", "endless", "one-line", "objects", "big-site", "headers header", "meters days", "rows objects gzip meters"):
        chosen = [hostile[kind] for kind in kinds.split()]
        check(kinds, [{target: answer} for target, answer, _ in chosen], [fault for *_, fault in chosen])
    count = 200_000
    meter = {"register": "main", "meter": "main-1", "at": NOVEMBER, "last": 1, "sf": 0, "total": str(count), "ended": False}
    told = json.dumps({"registers": [meter]})[:-1].encode() + b',"":['
    site = sent(OK, told, filled(b'{"":0},', 7 * 65536), b"0]}")
    check("objects, then rows", [{"/site": site, ROWS: hostile["rows"][1]}], [ROWS + SHARE], 20)
    meters = b"".join(b"m%d 1 %d 1 0 9999999999999999999 open\n" % (k, NOVEMBER + k) for k in range(4095))
    meters = sent(OK, b"main-1 1 %d 1 0 %d open\n" % (NOVEMBER, count), meters, b"end 4096\n")
    check("meters, then rows", [{"/site": site, "/registers/main/meters": meters, ROWS: hostile["rows"][1]}], [ROWS + SHARE])
    some = rising(b"%d 1\n", count)

    def full(sock):
        some(sock)
        sock.sendall(b"end %d\n" % count)

    days = sent(OK, b"2026-11-01   1   %d\nend 1\n" % count)
    check("sites with many rows", [{"/site": site, ROWS: full, "/registers/main/days": days}], [])
    same("all rows of sites with many", sum(it for (table, _), it in ENGINE.counts.items() if table == "energy.intervals"), 8 * count)
    print(f"peak memory in MB above {base >> 20} MB without sites: {peaks}", flush=True)


def looks_up_in_time():
    """A resolver that doesn't answer ends at the deadline, too."""
    loader = importlib.machinery.SourceFileLoader("collect", str(COLLECT))
    module = importlib.util.module_from_spec(importlib.util.spec_from_loader("collect", loader))
    loader.exec_module(module)
    done, real = threading.Event(), socket.getaddrinfo
    socket.getaddrinfo = lambda *_, **__: done.wait(60) or []
    begun, fault = time.monotonic(), None
    try:
        with module.response_of("http://north.example/site", 0.2):
            pass
    except OSError as it:
        fault = it
    socket.getaddrinfo = real
    done.set()
    same("a slow resolver", (type(fault), time.monotonic() - begun < 30), (TimeoutError, True))


def main():
    global ENGINE
    ENGINE = http.server.ThreadingHTTPServer(("127.0.0.1", 0), Engine)
    ENGINE.daemon_threads = True
    threading.Thread(target=ENGINE.serve_forever, daemon=True).start()
    netrc = f"{ROOM}/netrc"
    with open(netrc, "w") as file:
        file.write(f"machine localhost login central password {PASSWORD}\n")
    os.chmod(netrc, 0o600)
    names_each(netrc)
    looks_up_in_time()
    bounds_memory()
    print(f"{passed} passed, {failed} failed")
    sys.exit(failed != 0)


if __name__ == "__main__":
    main()
