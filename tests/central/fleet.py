#!/usr/bin/env python3
"""fleet.py: tests the list of sites, the jobs for Prometheus and the metrics of central/collect.

It needs no ClickHouse: a mock of its tables answers. 1,000 mock sites, each with its own user and
password, come from one file. It takes some seconds, and ends with 'N passed, M failed'. CHECKS is
the number of all checks: change it where you add one."""
import base64
import contextlib
import http.server
import importlib.machinery
import importlib.util
import json
import os
import pathlib
import re
import stat
import subprocess
import sys
import tempfile
import threading
import time
import urllib.parse

import offices as mock

CHECKS = 82
COLLECT = pathlib.Path(__file__).resolve().parent.parent.parent / "central/collect"
OK = b"HTTP/1.1 200 OK\r\nConnection: close\r\n\r\n"
NOVEMBER = 1793491200
passed = failed = 0


def same(what, got, wanted):
    """Compares a result with the expected one, and counts it."""
    global passed, failed
    if got == wanted:
        passed += 1
    else:
        failed += 1
        print(f"{what}: {str(got)[:2000]!r}\nand not {str(wanted)[:2000]!r}", flush=True)


class Tables(http.server.BaseHTTPRequestHandler):
    """A mock of ClickHouse. It keeps the sites of each run, and has the differences that a test
    sets. Its other tables are empty."""

    def do_POST(self):
        server = self.server
        body = self.rfile.read(int(self.headers["Content-Length"])).decode()
        query = urllib.parse.parse_qs(urllib.parse.urlsplit(self.path).query).get("query", [""])[0] or body
        if server.refused and server.refused in query:
            self.wfile.write(b"HTTP/1.1 500 Failed\r\nConnection: close\r\n\r\nno memory\n")
            return
        text = ""
        if query.startswith("INSERT INTO energy.sites "):
            server.sites.update((line.split("\t")[0], line.split("\t")) for line in body.splitlines())
        elif "max(run)" in query:
            text = "0\n"
        elif query.startswith("SELECT site, answered "):
            text = "".join(f"{row[0]}\t{row[3]}\n" for row in server.sites.values())
        elif query.startswith("SELECT * FROM energy.differences"):
            text = "".join(f"{site}\tmain\t\tdays\t5\t6\n" for site in server.differences)
        with contextlib.suppress(OSError):
            self.wfile.write(OK + text.encode())

    def log_message(self, *_):
        pass


class Sites(mock.Handler):
    """Mock sites that may need a user and a password of their own."""

    def do_GET(self):
        name = self.path[1:].partition("/")[0]
        self.server.came.append((name, self.headers["Authorization"]))
        wanted = self.server.users.get(name)
        if wanted and self.headers["Authorization"] != "Basic " + base64.b64encode(wanted.encode()).decode():
            self.wfile.write(b"HTTP/1.1 401 No\r\nConnection: close\r\n\r\n")
            return
        if name in self.server.moved:
            self.wfile.write(f"HTTP/1.1 302 Moved\r\nLocation: http://{self.server.moved[name]}/\r\nConnection: close\r\n\r\n".encode())
            return
        super().do_GET()


def began(handler):
    """Returns a server of HTTP at a free port, which runs."""
    server = mock.Server(0, {})
    server.RequestHandlerClass = handler
    server.refused, server.sites, server.differences, server.users, server.came, server.moved = "", {}, [], {}, [], {}
    threading.Thread(target=server.serve_forever, daemon=True).start()
    return server


def module_of_collect():
    """Returns central/collect as a module."""
    loader = importlib.machinery.SourceFileLoader("collect", str(COLLECT))
    module = importlib.util.module_from_spec(importlib.util.spec_from_loader("collect", loader))
    loader.exec_module(module)
    return module


def write(path, text, mode=0o600):
    """Writes a file with a mode, and returns its path."""
    with open(path, "w", encoding="utf-8") as file:
        file.write(text)
    os.chmod(path, mode)
    return path


class Collector:
    """Runs central/collect over a list and a mock of ClickHouse."""

    def __init__(self, room):
        self.room, self.tables = room, began(Tables)

    def run(self, list_file, *words, **around):
        """Returns the status, the output and the faults of a run."""
        words = [str(COLLECT), "--engine", f"http://127.0.0.1:{self.tables.server_port}", list_file, *words]
        done = subprocess.run(words, capture_output=True, text=True, timeout=300, env=os.environ | around)
        return done.returncode, done.stdout.splitlines(), done.stderr.splitlines()


def reads_lists(collect):
    """Lists of both forms, and each fault of a line."""
    def faults_of(text):
        try:
            collect.sites_of(text)
        except collect.ListFault as fault:
            return fault.args[0]
        return []

    old = "# sites\n\nnorth  http://192.0.2.7:8080\n south\thttps://south.example/office  m1 m2\n"
    same("a list without users", collect.sites_of(old), {
        "north": ("http://192.0.2.7:8080", [], None),
        "south": ("https://south.example/office", ["m1", "m2"], None),
    })
    users = "a https://a.example user=central password=x:=#'\"\nb https://b.example m1 password=%41 m2 user=it=me\nc http://127.0.0.1:8 user=u password=p\nd http://[::1]:8 user=u password=p\n"
    same("a list with users", collect.sites_of(users), {
        "a": ("https://a.example", [], ("central", "", "x:=#'\"")),
        "b": ("https://b.example", ["m1", "m2"], ("it=me", "", "%41")),
        "c": ("http://127.0.0.1:8", [], ("u", "", "p")),
        "d": ("http://[::1]:8", [], ("u", "", "p")),
    })
    name = "the name is not 1 to 64 letters, digits, _, . and -, with a letter or a digit first"
    url = "the URL is not http://HOST or https://HOST, with or without :PORT and /PATH"
    meter = "word {} is no name of a meter, and neither user=NAME nor password=WORD"
    at = "n https://h "
    for text, wanted in (
        ("n\n", "there is no URL after the name"),
        ("nor'th http://h\n", name),
        (f"{'n' * 65} http://h\n", name),
        ("-n http://h\n", name),
        ("-n http://h\n-n http://h\n", name),
        ("n ftp://h\n", url),
        ("n http://h:0\n", url),
        ("n http://h:65536\n", url),
        ("n http://[::1\n", url),
        ("n http://h/?q\n", url),
        ("n https://me:Secret77@h\n", "the URL has a user: write user=NAME password=WORD after the URL"),
        (at + "m1 1m\n", meter.format(4)),
        (at + "m1234567890123456\n", meter.format(3)),
        (at + "Secret77! user=a password=b\n", meter.format(3)),
        (at + "pass=Secret77 user=a password=b\n", meter.format(3)),
        (at + "user=a\n", "there is no password= beside user="),
        (at + "password=Secret77\n", "there is no user= beside password="),
        (at + "user=a user=b password=c\n", "word 4 is a second user="),
        (at + "user=a password=Secret77 password=Secret78\n", "word 5 is a second password="),
        (at + "user=a:b password=c\n", "word 3: user= needs 1 to 255 characters of ASCII, and no colon"),
        (at + "user= password=c\n", "word 3: user= needs 1 to 255 characters of ASCII, and no colon"),
        (at + "user=a password=\n", "word 4: password= needs 1 to 255 characters of ASCII"),
        (at + "user=a password=Secret77ü\n", "word 4: password= needs 1 to 255 characters of ASCII"),
        (at + f"user=a password={'Secret77' * 32}\n", "word 4: password= needs 1 to 255 characters of ASCII"),
        ("n http://h user=a password=Secret77\n", "a password needs TLS: write https:// in the URL"),
    ):
        same(f"a fault of {text[:60]!r}", faults_of(text), [f"line {place}: {wanted}" for place in range(1, text.count("\n") + 1)])
    same("the longest words", faults_of(f"{'n' * 64} https://h user={'u' * 255} password={'p' * 255} m123456789012345\nn http://h:65535\n"), [])
    same("all faults at once", faults_of("# 1\nn\nn http://h\n\nn http://h 1m\nn ftp://h user=a\n"), [
        "line 2: there is no URL after the name",
        "line 3: the name n is that of line 2",
        "line 5: word 3 is no name of a meter, and neither user=NAME nor password=WORD",
        "line 5: the name n is that of line 2",
        "line 6: the URL is not http://HOST or https://HOST, with or without :PORT and /PATH",
        "line 6: there is no password= beside user=",
        "line 6: the name n is that of line 2",
    ])


def says_faults(collector):
    """The program prints each fault with its file, and no password, and does nothing else."""
    room = collector.room
    bad = write(f"{room}/bad", "n https://h user=a password=Secret77 Secret77!\nm\n")
    wanted = [
        f"collect: {bad}: line 1: word 5 is no name of a meter, and neither user=NAME nor password=WORD",
        f"collect: {bad}: line 2: there is no URL after the name",
    ]
    same("faults of a list", collector.run(bad), (2, [], wanted))
    same("faults of a list, for Prometheus", collector.run(bad, "--targets", f"{room}/jobs"), (2, [], wanted))
    same("no file is written then", os.path.exists(f"{room}/jobs"), False)
    text = "n https://h user=a password=Secret77\n"
    for mode, is_open in ((0o640, False), (0o600, False), (0o644, True), (0o642, True)):
        path = write(f"{room}/open", text, mode)
        wanted = [f"collect: {path}: it has passwords, and all users may read it: type chmod o= {path}"] if is_open else []
        same(f"a list of mode {mode:o}", collector.run(path, "--targets", f"{room}/open.jobs"), (2 if is_open else 0, [], wanted))
    path = write(f"{room}/without", "n https://h\n", 0o644)
    same("a list without passwords is for all users", collector.run(path, "--targets", f"{room}/without.jobs"), (0, [], []))
    same("sites that the list does not have", collector.run(path, "x", "y"), (2, [], [f"collect: {path}: it has no site {it}" for it in "xy"]))


def writes_jobs(collector):
    """The jobs for Prometheus."""
    room = collector.room
    path = write(f"{room}/sites", "north http://192.0.2.7:8080\nsouth https://south.example/office/ m1 user=me password=a\"b\\c\nsix http://[2001:db8::1]\nold https://old.example:8443\n")
    netrc = write(f"{room}/netrc", "machine old.example login prometheus password of-netrc\nmachine south.example login no password no\n")
    jobs = f"{room}/sites.yml"
    same("jobs are written", collector.run(path, "--targets", jobs, "--netrc", netrc, SSL_CERT_FILE="/etc/ssl/certs/sunreg.pem"), (0, [], []))
    text = pathlib.Path(jobs).read_text()
    same("only their owner can read them", stat.S_IMODE(os.stat(jobs).st_mode), 0o600)
    same("each is an item of YAML", [it[:4] for it in text.splitlines()], ["  - "] * 4)
    job = lambda name, scheme, path, target, **more: {"job_name": f"sunreg/{name}", "scheme": scheme, "metrics_path": path, **more, "static_configs": [{"targets": [target], "labels": {"job": "sunreg", "instance": name}}]}
    tls = {"ca_file": "/etc/ssl/certs/sunreg.pem"}
    wanted = [
        job("north", "http", "/metrics", "192.0.2.7:8080"),
        job("south", "https", "/office/metrics", "south.example:443", basic_auth={"username": "me", "password": 'a"b\\c'}, tls_config=tls),
        job("six", "http", "/metrics", "[2001:db8::1]:80"),
        job("old", "https", "/metrics", "old.example:8443", basic_auth={"username": "prometheus", "password": "of-netrc"}, tls_config=tls),
    ]
    same("the jobs", [json.loads(it[4:]) for it in text.splitlines()], wanted)
    same("jobs of chosen sites", (collector.run(path, "six", "--targets", jobs), [json.loads(it[4:]) for it in pathlib.Path(jobs).read_text().splitlines()]), ((0, [], []), wanted[2:3]))
    same("a part of them is left nowhere", sorted(it for it in os.listdir(room) if it.endswith(".new")), [])
    # (only files of this room are named: a wrong collect would replace a device of the machine)
    os.mkdir(f"{room}/folder")
    os.symlink(jobs, f"{room}/link")
    os.mkfifo(f"{room}/pipe")
    for name, why in (("folder", "it is no regular file"), ("link", "it is no regular file"), ("pipe", "it is no regular file"), ("no/jobs", "No such file or directory")):
        same(f"jobs to {name}", collector.run(path, "--targets", f"{room}/{name}"), (3, [], [f"collect: can't write {room}/{name}: {why}"]))
    same("they stay as they were", [stat.S_IFMT(os.lstat(f"{room}/{name}").st_mode) for name in ("folder", "link", "pipe")], [stat.S_IFDIR, stat.S_IFLNK, stat.S_IFIFO])
    same("nothing of it asks ClickHouse", collector.tables.sites, {})


def values_of(path):
    """Returns the values of a file of metrics, by their names and labels, without those of time."""
    lines = [it.rpartition(" ") for it in pathlib.Path(path).read_text().splitlines() if not it.startswith("#")]
    return {name: int(value) for name, _, value in lines}


def writes_metrics(collector):
    """The metrics of runs: sites that respond and fail, runs of one site, and failures of
    ClickHouse."""
    room, tables, server = collector.room, collector.tables, began(Sites)
    for name in ("north", "south"):
        server.offices[name] = mock.Office()
    meter = server.offices["north"].add("main-1", "main", NOVEMBER)
    for k in range(3):
        meter.read(NOVEMBER + 900 * k, 7)
    server.users = {"north": "central:Secret77", "south": "other:Secret78"}
    base = f"http://127.0.0.1:{server.server_port}"
    lines = f"north {base}/north user=central password=Secret77\nsouth {base}/south user=other password=Secret79\n"
    path, prom = write(f"{room}/two", lines), f"{room}/collect.prom"
    run = lambda *words: collector.run(path, "--metrics", prom, *words)
    since, site = int(time.time()), 'sunreg_collect_site_{}{{site="{}"}}'.format
    has_failed = 'sunreg_collect_site_failed{{site="{}",fault="{}"}}'.format
    refused = "it answers 401 to GET /site"
    same("a run with a fault", run(), (1, ["north 1 meters 3 rows 1 days", "2 sites 1 failed 1 meters 3 rows 1 days"], [f"collect: south: {refused}"]))
    first = values_of(prom)
    when, success = first.pop("sunreg_collect_run_timestamp_seconds"), first.pop(site("success_timestamp_seconds", "north"))
    same("its times", since <= success <= when <= time.time(), True)
    same("its metrics", first, {
        site("success_timestamp_seconds", "south"): 0, has_failed("north", ""): 0, has_failed("south", refused): 1,
        site("rows", "north"): 3, site("rows", "south"): 0,
    })
    text = pathlib.Path(prom).read_text()
    same("each metric has its help and its type", re.findall(r"^# (HELP|TYPE) (\S+) (.*)$", text, re.M), [it for name, text in module_of_collect().METRICS.items() for it in (("HELP", name, text), ("TYPE", name, "gauge"))])
    same("node_exporter can read it", stat.S_IMODE(os.stat(prom).st_mode), 0o644)
    same("each site got its own password alone", sorted(set(server.came)), sorted((name, "Basic " + base64.b64encode(of.encode()).decode()) for name, of in (("north", "central:Secret77"), ("south", "other:Secret79"))))
    same("no password is in it, and none in the table", [it for it in ("Secret", base64.b64encode(b"other:Secret79").decode()) if it in text + str(tables.sites)], [])
    # a run with --whole counts differences; a run without it keeps them
    write(path, lines.replace("Secret79", "Secret78"))
    tables.differences = ["south", "gone", "south"]
    same("a run with --whole", run("--whole")[::2], (0, []))
    second = values_of(prom)
    same("it counts differences", [second[site("differences", it)] for it in ("north", "south")], [0, 2])
    same("and has its time", second["sunreg_collect_whole_timestamp_seconds"], second["sunreg_collect_run_timestamp_seconds"])
    same("a site that responds again", (second[has_failed("south", "")], has_failed("south", refused) in second, second[site("success_timestamp_seconds", "south")] >= when), (0, False, True))
    same("sites without a line in the list are left out", "gone" in str(second), False)
    tables.differences = []
    write(prom, pathlib.Path(prom).read_text().replace("whole_timestamp_seconds ", "whole_timestamp_seconds 1"))
    whole = values_of(prom)["sunreg_collect_whole_timestamp_seconds"]
    same("a run without --whole", (run()[0], values_of(prom)[site("differences", "south")], values_of(prom)["sunreg_collect_whole_timestamp_seconds"]), (0, 2, whole))
    # a run of one site has no time of a run, and keeps the others
    write(prom, re.sub(r'(run_timestamp_seconds|success_timestamp_seconds\{site="south"\}) [0-9]+', r"\1 1234", pathlib.Path(prom).read_text()))
    same("a run of one site", run("north", "--whole")[::2], (0, []))
    third = values_of(prom)
    same("it is no run of all", [third[f"sunreg_collect_{it}_timestamp_seconds"] for it in ("run", "whole")], [1234, whole])
    same("other sites keep their lines", (third[site("success_timestamp_seconds", "south")], third[has_failed("south", "")], third[site("differences", "south")]), (1234, 0, 2))
    same("and its own are new", (third[site("success_timestamp_seconds", "north")] >= since, third[site("differences", "north")]), (True, 0))
    # a site that echoes its password
    server.moved["south"] = "Secret78"
    moved = "it answers 302 to GET /site, and redirects to ***: write the URL of the site itself into LIST"
    same("a site that echoes its password", (run()[2], values_of(prom).get(has_failed("south", moved)), tables.sites["south"][4]), ([f"collect: south: {moved}"], 1, moved))
    # a fault with each special character is a label
    collect = module_of_collect()
    label = collect.metrics_text({}, {"n": {"sunreg_collect_site_failed": 'a "b" \\ c'}}, ["n"], {}).splitlines()
    same("special characters", [it for it in label if not it.startswith("#")], ['sunreg_collect_site_failed{site="n",fault="a \\"b\\" \\\\ c"} 1'])
    same("they are read again", collect.metrics_text(collect.metrics_before(write(f"{room}/special", "\n".join(label) + "\n")), {}, ["n"], {}).splitlines(), label)
    # ClickHouse fails: before a visit, at a visit, and at the differences
    for refused, words, status in (("max(run)", [], 3), ("energy.meters FINAL", [], 3), ("energy.differences", ["--whole"], 3)):
        write(prom, re.sub(r"run_timestamp_seconds [0-9]+", "run_timestamp_seconds 1234", pathlib.Path(prom).read_text()))
        tables.refused = refused
        same(f"ClickHouse refuses {refused}", (run(*words)[0], values_of(prom)["sunreg_collect_run_timestamp_seconds"]), (status, 1234))
    tables.refused = ""
    # files that are none
    write(prom, "\x00 not of collect\n" + 'sunreg_collect_site_rows{site="north"} x\n')
    same("a file that is none of its own is replaced", (run()[0], values_of(prom)[site("rows", "north")]), (1, 3))
    with open(prom, "wb") as file:
        file.write(b"\xff\n")
    same("a file of other bytes, too", (run()[0], values_of(prom)[site("rows", "north")]), (1, 3))
    status, out, faults = collector.run(path, "--metrics", f"{room}/no/collect.prom")
    same("a folder that is not there", (status, out[-1], faults[-1]), (3, "2 sites 1 failed 1 meters 3 rows 1 days", f"collect: can't write {room}/no/collect.prom: No such file or directory"))


def copies_a_thousand(collector):
    """1,000 sites, each with its own user and password, from one file."""
    room, server = collector.room, began(Sites)
    names = [f"site-{k:04}" for k in range(1000)]
    server.offices = {name: mock.Office() for name in names}
    server.users = {name: f"user-{name}:word-of-{name}" for name in names}
    path = write(f"{room}/thousand", "".join(f"{name} http://127.0.0.1:{server.server_port}/{name} user=user-{name} password=word-of-{name}\n" for name in names))
    same("1,000 sites", collector.run(path, "--metrics", f"{room}/thousand.prom"), (0, ["1000 sites 0 failed 0 meters 0 rows 0 days"], []))
    same("each is asked once, with its own password", sorted(server.came), [(name, "Basic " + base64.b64encode(server.users[name].encode()).decode()) for name in names])
    got = values_of(f"{room}/thousand.prom")
    same("each has its metrics", (len(got), sum(it for name, it in got.items() if "failed" in name)), (1 + 3 * 1000, 0))
    same("the same file is for Prometheus", collector.run(path, "--targets", f"{room}/thousand.yml"), (0, [], []))
    jobs = [json.loads(it[4:]) for it in pathlib.Path(f"{room}/thousand.yml").read_text().splitlines()]
    same("a job for each", [(it["job_name"], it["metrics_path"], it["basic_auth"]) for it in jobs], [(f"sunreg/{name}", f"/{name}/metrics", {"username": f"user-{name}", "password": f"word-of-{name}"}) for name in names])


def main():
    with tempfile.TemporaryDirectory(prefix="fleet-") as room:
        collector = Collector(room)
        reads_lists(module_of_collect())
        says_faults(collector)
        writes_jobs(collector)
        writes_metrics(collector)
        copies_a_thousand(collector)
    same("the number of checks", passed + failed, CHECKS - 1)
    print(f"{passed} passed, {failed} failed")
    sys.exit(failed != 0)


if __name__ == "__main__":
    main()
