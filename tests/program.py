#!/usr/bin/env python3
"""program.py [--list] [--long] [--only NAME..] [--slow N] [--jobs N] [PROGRAM]: runs the checks.

PROGRAM is a built sunreg, out/sunreg by default. Each check runs in a temporary folder. As root
each check runs in a separate network namespace, so no two checks use the same port. As many run at
once as there are processors, four at most, the longest first. A check fails if its exit status is
not 0, if it counts fewer passed things than its least count, or if it exceeds its limit. The limit
ends its whole process group. The log of a failed check is printed. A check whose tool is missing is
reported as skipped, and so is a check whose last line counts skipped things: tests/install-tools.sh
installs the tools.

--list prints the table of checks. --only runs the checks of these names. --long runs the long
checks instead, one at a time. --slow multiplies every limit, for a slow build or machine. The last
line is 'N passed, M failed', which counts checks, and names how many were skipped. The status is 1
if a check failed.
"""
import collections
import concurrent.futures
import contextlib
import ctypes
import fcntl
import os
import re
import signal
import socket
import struct
import subprocess
import sys
import tempfile
import threading
import time

TESTS = os.path.dirname(os.path.realpath(__file__))
TOP = os.path.dirname(TESTS)
# A check: its command, the least number of things that it must count as passed, its limit in
# seconds, and its tools. The command is a file of tests/, after its environment and before its
# arguments.
Check = collections.namedtuple("Check", "name command least limit tools")
CHECKS = [
    Check("readme", "readme.sh", 14, 120, ""),
    Check("cases", "cases.sh", 459, 120, ""),
    Check("statuses", "statuses.sh", 52, 120, ""),
    Check("zones", "zones.py PROGRAM", 650, 120, "tzdata"),
    Check("arguments", "arguments.py", 150, 120, ""),
    Check("words", "words.sh", 298, 120, ""),
    Check("manual", "words.sh --man", 19, 60, "man groff"),
    Check("build_identity", "build_identity.py PROGRAM", 36, 60, ""),
    Check("scan", "scan.sh", 17, 120, ""),
    Check("stand_in", "stand_in.py", 52, 120, ""),
    Check("enter", "enter.sh", 54, 120, "sqlite3"),
    Check("files", "files.sh", 57, 120, "curl sqlite3 setpriv"),
    Check("files_as_one", "files_as_one.sh --short", 150, 240, "sqlite3 tzdata"),
    Check("earlier_files", "earlier_files.sh", 85, 120, "sqlite3 tzdata"),
    Check("report", "report.sh", 423, 480, "sqlite3 tzdata"),
    Check("commands", "commands.py PROGRAM", 92, 240, "faketime sqlite3"),
    Check("audit", "SEED=1 CHANGES=200 JOINS=40 audit.sh", 465, 240, "sqlite3"),
    Check("later_voids", "later_voids.py PROGRAM", 21, 60, "sqlite3"),
    Check("backup", "backup.sh", 80, 240, "curl sqlite3"),
    Check("carry", "carry.sh", 71, 600, "curl sqlite3"),
    Check("sqlite3", "sqlite3.sh", 41, 120, "curl sqlite3"),
    Check("http_cases", "http_cases.sh PROGRAM", 48, 180, "faketime"),
    Check("replay_stores", "replay_stores.sh PROGRAM", 309, 600, ""),
    Check("stores", "stores.sh PROGRAM", 296, 180, "sqlite3"),
    Check("bad_day_files", "bad_day_files.sh PROGRAM", 127, 300, "faketime"),
    Check("damage", "damage.sh PROGRAM", 170, 120, ""),
    Check("damaged_rows", "damaged_rows.py", 467, 180, "sqlite3"),
    Check("running", "running.sh --short", 240, 180, ""),
    Check("bad_day", "bad_day.sh --short", 88, 360, "faketime"),
    Check("run_carry", "run_carry.sh --short", 50, 300, "faketime"),
    Check("home_assistant", "home_assistant.py PROGRAM", 405, 600, "jinja2"),
    Check("texts", "texts.py", 42, 360, "rt"),
    Check("rooms", "rooms.py", 68, 60, ""),
    Check("links", "links.py", 1100, 60, ""),
    Check("prose", "prose.py", 3700, 60, ""),
    Check("mistakes", "mistakes.py PROGRAM", 209, 600, "faketime curl sqlite3 setpriv"),
    Check("mqtt", "mqtt.py PROGRAM", 200, 300, "paho mosquitto mosquitto_sub openssl"),
    Check("fleet", "central/fleet.py", 82, 120, ""),
    Check("page", "page.sh PROGRAM", 71, 180, "chromium"),
]
LONG = [
    Check("soak", "soak.sh", 10, 1800, "sqlite3"),
    Check("torn_writes", "torn_writes.sh PROGRAM", 300, 1800, "sqlite3"),
    Check("central", "central.sh", 100, 3600, "clickhouse-server clickhouse-client"),
    Check("deploy", "deploy.sh", 216, 900, ""),
    Check("install", "install.sh", 15, 900, "root"),
    Check("package", "package.sh PROGRAM", 149, 600, "dpkg-deb"),
    Check("unbuilt", "unbuilt.sh", 120, 1800, "rt"),
    Check("built", "built.sh", 50, 3600, "rt"),
    Check("files_as_one", "files_as_one.sh", 900, 1800, "sqlite3 tzdata"),
    Check("peers", "peers.sh", 15, 600, "curl sqlite3"),
    Check("running", "running.sh", 140, 600, ""),
    Check("bad_day", "bad_day.sh", 150, 900, "faketime"),
    Check("run_carry", "run_carry.sh", 200, 1800, "faketime"),
    Check("refused_allocations", "refused_allocations.sh PROGRAM", 10, 1800, "cc"),
]
MOST_AT_ONCE = 4
COUNTS = re.compile(r"^(\d+) passed(?:, (\d+) failed)?(?:, (\d+) skipped)?\b", re.M)
LINES_OF_LOG = 200


class Stopped(Exception):
    """A signal asked this program to end."""


class Runner:
    """Runs checks of a program, and counts their results."""

    def __init__(self, program, slow):
        self.program, self.slow = program, slow
        self.lock, self.running, self.is_stopped = threading.Lock(), set(), False
        # (of each finished check: its result, the things that it counted as passed, and its
        # seconds)
        self.ends = {}

    def print_lines(self, *lines):
        with self.lock:
            print(*lines, sep="\n", flush=True)

    def run(self, check, lacking):
        """Runs one check, or skips it if one of its tools is missing, and prints the result."""
        missing = [it for it in check.tools.split() if it in lacking]
        if missing:
            self.ends[check.name] = "skipped", 0, 0
            self.print_lines(f"{check.name}: skipped: needs {' '.join(missing)}")
            return
        began = time.monotonic()
        with tempfile.TemporaryDirectory(prefix=f"check-{check.name}-", ignore_cleanup_errors=True) as room:
            # (some checks run the program as nobody)
            os.chmod(room, 0o755)
            why = self.run_command(check, room)
            with open(f"{room}/log", encoding="utf-8", errors="replace") as it:
                log = it.read()
        if self.is_stopped:
            return
        passed, failed, skipped = count_things(log)
        if not why and failed:
            why = f"{failed} failed"
        if not why and passed + skipped < check.least:
            why = f"it must count {check.least}"
        seconds = time.monotonic() - began
        took = f"{passed} passed, {seconds:.0f} s"
        self.ends[check.name] = "failed" if why else "skipped" if skipped else "passed", passed, seconds
        if why:
            lines = log.splitlines()
            cut = [f"  (the last {LINES_OF_LOG} of {len(lines)} lines)"] if len(lines) > LINES_OF_LOG else []
            self.print_lines(f"{check.name}: its log:", *cut, *(f"  {it}" for it in lines[-LINES_OF_LOG:]),
                             f"{check.name}: FAILED: {why} ({took})")
        elif skipped:
            self.print_lines(f"{check.name}: skipped: {skipped} of its things ({took})", *re.findall(r"^.*: skipped .*$", log, re.M))
        else:
            self.print_lines(f"{check.name}: {took}")

    def run_command(self, check, room):
        """Runs a check's command, which writes to the file log in the room, and returns why it
        failed, if it did."""
        os.mkdir(f"{room}/work")
        os.chmod(f"{room}/work", 0o1777)
        words = check.command.replace("PROGRAM", self.program).split()
        set_for_it = [it for it in words if re.match("[A-Z]+=", it)]
        script, *words = words[len(set_for_it) :]
        around = {"SUNREG": self.program, "TMPDIR": f"{room}/work", "PEERS_INSTALL": "no", "SLOW": str(self.slow), "PYTHONDONTWRITEBYTECODE": "1"}
        around |= dict(it.split("=") for it in set_for_it)
        limit = check.limit * self.slow
        with open(f"{room}/log", "w", encoding="utf-8") as log:
            child = subprocess.Popen(
                [sys.executable, "-B", __file__, "--within", f"{TESTS}/{script}", *words], cwd=f"{room}/work", stdin=subprocess.DEVNULL,
                stdout=log, stderr=subprocess.STDOUT, start_new_session=True, env=os.environ | around,
            )
            with self.lock:
                self.running.add(child)
            try:
                if self.is_stopped:
                    return "stopped"
                status = child.wait(limit)
            except subprocess.TimeoutExpired:
                return f"not done after {limit} s"
            finally:
                end_group(child)
                with self.lock:
                    self.running.discard(child)
        return f"status {status}" if status else None

    def stop(self):
        """Ends all running checks."""
        self.is_stopped = True
        for child in list(self.running):
            end_group(child)


def end_group(child):
    """Ends a child and all processes of its group."""
    with contextlib.suppress(ProcessLookupError):
        os.killpg(child.pid, signal.SIGKILL)
    child.wait()


def count_things(log):
    """Returns how many things a log counts as passed, failed and skipped, by the last line that
    counts."""
    found = COUNTS.findall(log)
    return [int(it or 0) for it in found[-1]] if found else [0, 0, 0]


def leave_network():
    """Gives this process a separate network namespace with a loopback, if the system allows it."""
    of_network, up = 0x40000000, 1
    if ctypes.CDLL(None, use_errno=True).unshare(of_network) != 0:
        return
    with socket.socket() as it:
        request = struct.pack("16sh22x", b"lo", 0)
        flags = struct.unpack("16xh22x", fcntl.ioctl(it, 0x8913, request))[0]
        fcntl.ioctl(it, 0x8914, struct.pack("16sh22x", b"lo", flags | up))


def find_lacking(checks):
    """Returns the missing tools of checks."""
    tools = sorted({tool for check in checks for tool in check.tools.split()})
    told = subprocess.run([f"{TESTS}/install-tools.sh", "--lacking", *tools], check=True, capture_output=True, text=True)
    return told.stdout.split()


def stop_with(word):
    print(f"program.py: {word}", file=sys.stderr)
    sys.exit(2)


def read_number(words, option):
    """Removes an option and its number from the words, and returns the number, or None."""
    if option not in words:
        return None
    at = words.index(option)
    if not words[at + 1 :] or not re.fullmatch("[1-9][0-9]{0,3}", words[at + 1]):
        stop_with(f"{option} takes a number")
    number = int(words[at + 1])
    del words[at : at + 2]
    return number


def read_words(words):
    """Returns the program, the checks, and the numbers of --slow and --jobs."""
    slow, jobs = read_number(words, "--slow"), read_number(words, "--jobs")
    is_long, has_names = "--long" in words, "--only" in words
    checks = LONG if is_long else CHECKS
    known = {it.name for it in checks}
    words = [it for it in words if it not in ("--long", "--only")]
    names = [it for it in words if has_names and it in known]
    rest = [it for it in words if it not in names]
    if len(rest) > 1 or any(it.startswith("-") for it in rest):
        stop_with(f"{rest[-1]} is neither an option nor a check; usage: {__doc__.split(': ')[0]}")
    program = os.path.realpath(rest[0] if rest else os.environ.get("SUNREG", f"{TOP}/out/sunreg"))
    checks = [it for it in checks if not has_names or it.name in names]
    return program, checks, slow or 1, jobs or (1 if is_long else min(MOST_AT_ONCE, len(os.sched_getaffinity(0))))


def run_checks(runner, checks, jobs):
    """Runs checks, so many at once, and ends all of them if this program is asked to end."""
    def stop(number, _):
        runner.stop()
        raise Stopped(number)

    for it in (signal.SIGHUP, signal.SIGINT, signal.SIGTERM):
        signal.signal(it, stop)
    lacking = find_lacking(checks)
    with concurrent.futures.ThreadPoolExecutor(jobs) as pool:
        tried = [pool.submit(runner.run, it, lacking) for it in sorted(checks, key=lambda it: -it.limit)]
        try:
            for it in tried:
                it.result()
        except Stopped:
            for it in tried:
                it.cancel()
            raise


def main(words):
    if words[:1] == ["--within"]:
        leave_network()
        os.execv(words[1], words[1:])
    if "--help" in words or "-h" in words:
        print(__doc__)
        return 0
    if "--list" in words:
        for is_long, checks in (("", CHECKS), (" --long", LONG)):
            for it in checks:
                print(f"{it.name}{is_long}: {it.command}, at least {it.least}, {it.limit} s{', needs ' * bool(it.tools)}{it.tools}")
        return 0
    program, checks, slow, jobs = read_words(words)
    if not os.access(program, os.X_OK):
        stop_with(f"{program} is not built: run ./sunreg-build")
    if not checks:
        stop_with("--only takes names of checks: --list prints them")
    began, runner = time.monotonic(), Runner(program, slow)
    try:
        run_checks(runner, checks, jobs)
    except Stopped as why:
        return 128 + why.args[0]
    print(f"program.py: {time.monotonic() - began:.0f} s, {jobs} checks at once")
    for name, (end, passed, seconds) in sorted(runner.ends.items()):
        print(f"{name:20} {end:8} {passed:6} {seconds:6.0f} s")
    counts = collections.Counter(end for end, _, _ in runner.ends.values())
    skipped = f", {counts['skipped']} skipped" if counts["skipped"] else ""
    print(f"{counts['passed']} passed, {counts['failed']} failed{skipped}")
    return 1 if counts["failed"] else 0


if __name__ == "__main__":
    sys.exit(main(sys.argv[1:]))
