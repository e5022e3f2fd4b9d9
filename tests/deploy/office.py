"""office.py create --db FILE --zone ZONE | run --db FILE --listen PORT .. | help run: a mock.

It replaces a program that is not built, to test its deployment. It polls nothing and records
nothing. It makes a file with the office's tables, and responds by HTTP as docs/HTTP.md says, always
with the same responses: its metrics and status are those of the proved tests. It writes its
requests to the file that OFFICE_CAME names, a line of JSON each.
"""
import http.server
import json
import os
import pathlib
import re
import sqlite3
import sys

ROOT = pathlib.Path(__file__).resolve().parents[2]
HOSTS = re.compile(r"(127\.0\.0\.1|localhost|\[::1\])(:[0-9]+)?", re.IGNORECASE)


def told(name):
    """Returns a text that the proved tests of the status and the metrics expect."""
    source = (ROOT / "crates/office_tests/src/status.rt").read_text()
    text = re.search(rf'const {name}: &str =\s+"((?:[^"\\]|\\.)*)"', source)[1]
    return text.replace("\\n", "\n").replace('\\"', '"')


def kind_of(target):
    """Returns the kind in the response to a command."""
    return {"/devices": "device", "/registers": "register"}.get(target, target.rsplit("/", 1)[-1])


class Handler(http.server.BaseHTTPRequestHandler):
    protocol_version = "HTTP/1.1"

    def log_message(self, *_):
        pass

    def answer(self, status, kind, text, has_length=True):
        self.send_response_only(status)
        self.send_header("Content-Type", kind)
        if has_length:
            self.send_header("Content-Length", str(len(text)))
        self.send_header("Connection", "close")
        self.end_headers()
        self.wfile.write(text.encode())
        self.close_connection = True

    def json(self, status, value):
        self.answer(status, "application/json", json.dumps(value, separators=(",", ":")))

    def do_any(self):
        length = self.headers["Content-Length"] or "0"
        body = self.rfile.read(int(length)).decode("latin-1")
        if "OFFICE_CAME" in os.environ:
            came = {"method": self.command, "target": self.path, "headers": [[name.lower(), it] for name, it in self.headers.items()], "body": body}
            with open(os.environ["OFFICE_CAME"], "a") as file:
                file.write(json.dumps(came) + "\n")
        if not HOSTS.fullmatch(self.headers["Host"] or "localhost"):
            self.json(421, {"fault": 421})
        elif self.command == "POST":
            self.json(200, {"done": kind_of(self.path)})
        elif self.command != "GET":
            self.json(405, {"fault": 405})
        elif self.path == "/":
            self.answer(200, "text/html", "<!DOCTYPE html><title>office</title>")
        elif self.path == "/status":
            self.answer(200, "application/json", told("STATUS"))
        elif self.path == "/metrics":
            self.answer(200, "text/plain; version=0.0.4", told("METRICS"))
        elif self.path.endswith(("/days", "/intervals")):
            self.answer(200, "text/plain", "1900 200000\nend 1\n", has_length=False)
        elif "/intervals/" in self.path:
            self.answer(200, "text/plain", "900 177777\nend 1\n")
        elif "/days/" in self.path:
            self.answer(200, "text/plain", "1970-01-01   2                   200000\nend 1\n")
        elif self.path.endswith("/months"):
            self.answer(200, "text/plain", "1970-01    2                   200000\nend 1\n")
        elif self.path.endswith("/meters"):
            self.answer(200, "text/plain", "m1 1000 1900 5200 0 200000 open\nend 1\n")
        elif "/entries/" in self.path:
            self.answer(200, "text/plain", "1 opening 1000 5000 0 0 0 stands\nend 1\n")
        elif self.path.startswith("/polls/"):
            self.json(200, {"code": 0, "device": "inv", "moment": 1900, "outcome": 1, "poll": 1, "started": 1898})
        else:
            self.json(200, {"at": 1900, "ended": False, "last": 5200, "meter": "m1", "range": 4294967296, "register": "main", "sf": 0, "total": "200000"})

    do_GET = do_POST = do_HEAD = do_PUT = do_DELETE = do_OPTIONS = do_any


def create(db, zone, **_):
    """Makes the tables of docs/SCHEMA.md, which stay in the log for now, as the program leaves
    them."""
    if os.path.exists(db):
        sys.exit(3)
    file = sqlite3.connect(db, isolation_level=None)
    file.execute("PRAGMA journal_mode = wal")
    for statement in re.search(r"```sql\n(.*?)```", (ROOT / "docs/SCHEMA.md").read_text(), re.DOTALL)[1].splitlines():
        file.execute(statement)
    file.execute("INSERT INTO meta (id, version, zone) VALUES (1, 3, ?)", (zone,))
    # (the connection is not closed, which would move the log into the file)
    os.remove(f"{db}-shm")
    os._exit(0)


def run(db, listen, every, devices, **_):
    if not os.access(db, os.W_OK):
        print(f"failed\nsunreg: {db}: it isn't there", file=sys.stderr)
        sys.exit(3)
    open(f"{db}-wal", "a").close()
    server = http.server.ThreadingHTTPServer(("127.0.0.1", int(listen)), Handler)
    print(f"books to 0 lost 0\nlistening {listen}", flush=True)
    server.serve_forever()


if __name__ == "__main__":
    command, words = sys.argv[1], sys.argv[2:]
    if command == "completions":
        print("# a mock has none")
    elif command == "help":
        print("Polls devices on a schedule and serves HTTP until stopped")
    else:
        {"create": create, "run": run}[command](**{name.lstrip("-"): value for name, value in zip(words[::2], words[1::2])})
