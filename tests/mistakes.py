#!/usr/bin/env python3
"""mistakes.py [--write] [PROGRAM]: types the commands of docs/MISTAKES.md and docs/MISTAKES_SETUP.md.

PROGRAM is out/sunreg by default. Each section of the pages is an example in a separate folder, with
a separate database. Each command has a set clock, 15 minutes after the command before. The check
compares the output with the page, and the exit status and standard error with EXAMPLES below. It
also checks the energy before and after the commands, the next reading of the device, and an audit.
--write writes the outputs to the pages instead. The last line is 'N passed, M failed', which counts
comparisons.

ONLY is a regular expression for the titles of sections. QUICK=1 omits the next readings and the
audits. MISTAKES_CLOCK is a library to set the clock instead of libfaketime, which does not work
with a program that has AddressSanitizer.
"""
import concurrent.futures
import contextlib
import dataclasses
import glob
import os
import pathlib
import re
import shutil
import socket
import sqlite3
import subprocess
import sys
import tempfile
import threading
import time

HERE = pathlib.Path(__file__).resolve().parent
PAGES = [HERE.parent / "docs" / it for it in ("MISTAKES.md", "MISTAKES_SETUP.md")]
WORDS = [it for it in sys.argv[1:] if it != "--write"]
PROGRAM = os.path.realpath(WORDS[0] if WORDS else os.environ.get("SUNREG", HERE.parent / "out/sunreg"))
QUICK = os.environ.get("QUICK")
SLOW = int(os.environ.get("SLOW", "1"))
IS_ROOT = os.geteuid() == 0
counts = {"passed": 0, "failed": 0, "skipped": 0}
lock = threading.Lock()
# (of each set-up and its readings: a lock while its files are made)
prepared = {}

LIST = "name,function,area,address,type,scale\nwh,3,0,40094,acc32,wh_sf\nwh_sf,3,0,40096,sunssf,\n"
NOON = 1795694400
STEP = 900
# Commands of the page that a test types in another way: nobody is the user sunreg.
PRELUDE = """
runuser() { shift 3; setpriv --reuid=65534 --regid=65534 --clear-groups "$@"; }
chown() { shift; command chown 65534:65534 "$@"; }
"""
SET_UP = "device inv 1 5 1\nregister main inv 3 40094 @40096\ninstall main m1 5000 0 100000\n"


@dataclasses.dataclass
class Example:
    """What a section needs, and what its commands must cause. Energies are in mWh."""
    # (the readings before the commands: minutes after noon, and the counter)
    readings: list = dataclasses.field(default_factory=lambda: [(15, 5200)])
    # (the answers to these readings that are not 'reading ..')
    held: list = dataclasses.field(default_factory=list)
    # (lines of a set-up other than the example's; '' for a file without any)
    set_up: str | None = None
    # (the statuses of the commands that do not exit with 0)
    statuses: dict = dataclasses.field(default_factory=dict)
    # (words on the standard error of commands; that of all other commands is empty)
    causes: dict = dataclasses.field(default_factory=dict)
    before: dict = dataclasses.field(default_factory=lambda: {"main": 200000})
    after: dict = dataclasses.field(default_factory=lambda: {"main": 200000})
    # (the file with the energy after the commands)
    file: str = "office.db"
    # (the device, address and counter of the next reading, and the answer to it)
    next: tuple | None = ("inv", 40094, 5400, "reading m1 5400 rolls 0 step 200000")
    # (the days after noon at which the commands begin)
    days: int = 0
    # (what is in use meanwhile: 'port' or 'file')
    used: str = ""
    needs_root: bool = False


EXAMPLES = {
    "The head": Example(readings=[], set_up=None, before={}, after=None, next=None),
    "The example": Example(readings=[], set_up=None, before={}, after={"main": 0}, next=None),
    "A wrong name of a meter": Example(next=("inv", 40094, 5400, "reading roof 5400 rolls 0 step 200000")),
    "A wrong register or device": Example(
        after={"main": 200000, "roof-wh": 0}, next=("roof", 40094, 5400, "reading m2 5400 rolls 0 step 200000")),
    "A wrong address or port of a device": Example(statuses={0: 3}, causes={0: "port 1502 of 127.0.0.1"}),
    "The same name or file twice": Example(statuses={1: 1}, causes={1: "line 1: 1 device inv 1 5 1: refused 2: the name is already in use"}),
    "A refused line in a file": Example(
        readings=[], set_up="", statuses={0: 1}, causes={0: "line 3: 3 register main inv 3 70000 @40096: refused 12: "}, before={},
        after={"main": 0}, next=("inv", 40094, 5400, "reading m1 5400 rolls 0 step 400000")),
    "A wrong zone": Example(statuses={2: 1}, causes={2: "right.db: its time zone differs from that of office.db"}, after={"main": 0}, file="right.db"),
    "A wrong ceiling": Example(
        readings=[(15, 5200), (25, 5300)], held=["held m1 5200 cause 6", "held m1 5300 cause 6"], set_up=SET_UP.replace(" 100000", " 100"),
        statuses={0: 1}, causes={0: "line 1: 5 exchange main 5300 0 m2 5300 0 100000: doubted 300000: "}, before={"main": 0},
        after={"main": 300000}, next=("inv", 40094, 5400, "reading m2 5400 rolls 0 step 100000")),
    "A wrong scale of a meter": Example(
        held=["held m1 5200 cause 2"], set_up=SET_UP.replace(" 0 100000", " 1 100000"), before={"main": 0}, after={"main": 0},
        next=("inv", 40094, 5400, "reading m1 5400 rolls 0 step 400000")),
    "A wrong address or scale of a register": Example(
        readings=[(15, 5200), (25, 5300)], before={"main": 300000}, after={"main": 0, "roof": 0},
        next=("inv", 40190, 760, "reading m2 760 rolls 0 step 60000")),
    "A wrong reading by hand": Example(
        statuses={0: 1}, causes={0: "line 2: 6 void m1 3: refused 16: "}, after={"main": 47000000}, next=("inv", 40094, 5400, "reading m1 5400 rolls 0 step 100000")),
    "A void of the wrong entry": Example(
        readings=[(15, 5200), (25, 9200)], statuses={3: 1}, causes={3: "line 1: 6 void m1 2: refused 16: "}, before={"main": 4200000},
        after={"main": 0},
        next=("inv", 40094, 5400, "reading m1 5400 rolls 0 step 400000")),
    "An exchange that nobody entered": Example(
        readings=[(15, 5200), (25, 20)], held=["held m1 20 cause 6"], after={"main": 250000},
        next=("inv", 40094, 60, "reading m2 60 rolls 0 step 50000")),
    "A device that was off": Example(
        days=40, after={"main": 2200000}, next=("inv", 40094, 9200, "reading m1 9200 rolls 0 step 2000000")),
    "A port that is in use": Example(statuses={0: 3}, causes={0: "can't listen on port 8080"}, used="port"),
    "A file that another program has": Example(
        statuses={0: 3}, causes={0: "office.db: in use by another process"}, used="file", after={"main": 210000}, next=("inv", 40094, 5400, "reading m1 5400 rolls 0 step 190000")),
    "A wrong owner": Example(
        readings=[], set_up="", statuses={0: 3}, causes={0: "office.db: can't open, read or write it: check its permissions"}, before={}, after={"main": 0},
        needs_root=True,
        next=("inv", 40094, 5400, "reading m1 5400 rolls 0 step 400000")),
    "A carry with a wrong time": Example(
        readings=[(15, 5200), (25, 5300)], statuses={2: 1}, causes={2: "new.db: meter m1 begins at time"}, before={"main": 300000},
        after={"main": 0}, file="new.db",
        next=("inv", 40094, 5500, "reading m1 5500 rolls 0 step 200000")),
}


def same(what, got, wanted):
    with lock:
        counts["passed" if got == wanted else "failed"] += 1
        if got != wanted:
            print(f"{what}: found\n{got}\nwanted\n{wanted}", flush=True)


def library():
    found = glob.glob("/usr/lib/*/faketime/libfaketime.so.1") + glob.glob("/usr/lib/faketime/libfaketime.so.1")
    if not found:
        sys.exit("mistakes.py: faketime is not installed: run tests/install-tools.sh")
    return found[0]


LIBRARY = os.environ.get("MISTAKES_CLOCK") or library()


def at(moment, room, folder):
    """The environment of a process whose clock shows a time. The name of a temporary copy of a database
    is that time, so sections that run at once need separate folders for temporary files."""
    moment = time.strftime("%Y-%m-%d %H:%M:%S", time.gmtime(moment))
    names = ("DONT_FAKE_MONOTONIC", "FAKETIME_DONT_FAKE_MONOTONIC", "NO_FAKE_STAT")
    return {**os.environ, "TZ": "UTC", "LD_PRELOAD": LIBRARY, "FAKETIME": moment, "PATH": f"{room}/bin:{os.environ['PATH']}", "TMPDIR": f"{folder}/tmp",
            **{name: "1" for name in names}}


def parse_page(lines):
    """Returns {title: commands} of the sections of a page. A command is [text, first line of its output, line after it]."""
    sections, title, commands, in_block = {}, "The head", None, False
    for number, line in enumerate(lines):
        if line.startswith("## "):
            title = line[3:]
        elif line == "```console":
            in_block, commands = True, sections.setdefault(title, [])
        elif line == "```":
            in_block = False
        elif in_block and line[:2] in ("$ ", "# "):
            commands.append([line[2:], number + 1, number + 1])
        elif in_block and commands[-1][0].endswith("\\") and commands[-1][1] == number:
            commands[-1] = [f"{commands[-1][0]}\n{line}", number + 1, number + 1]
        elif in_block:
            commands[-1][2] = number + 1
    return sections


def reading_lines(moment, number, device, address, value):
    """The lines of a script that poll a counter with the scale factor 0."""
    scale = "0000" if address == 40094 else ""
    head = f"{number:04x}0000{7 + len(scale) // 2:04x}{7 if device == 'roof' else 1:02x}03{4 + len(scale) // 2:02x}"
    return f"{moment - 1} start {device} 3 {address} {2 + len(scale) // 4}\n{moment} bytes {device} {head}{value:08x}{scale}\n"


def energy(file):
    """The energy of each register of a database with its log, in mWh."""
    with tempfile.TemporaryDirectory(prefix="mistakes-") as room:
        for ending in ("", "-wal"):
            shutil.copyfile(f"{file}{ending}", f"{room}/copy.db{ending}")
        with contextlib.closing(sqlite3.connect(f"{room}/copy.db")) as it:
            rows = it.execute("SELECT register, coalesce(sum(mwh), 0) FROM installations LEFT JOIN intervals USING (meter) GROUP BY register")
            return dict(rows.fetchall())


def listens(port):
    """Whether a process listens at a port, without a connection to it."""
    rows = "".join(pathlib.Path(it).read_text(encoding="ascii") for it in ("/proc/net/tcp", "/proc/net/tcp6") if os.path.exists(it))
    return bool(re.search(rf":{port:04X} [0-9A-F]*:0000 0A ", rows))


def free_port():
    with socket.create_server(("127.0.0.1", 0)) as it:
        return it.getsockname()[1]


class Section:
    """The commands of one section, in a folder."""

    def __init__(self, room, lines, title, commands):
        self.room, self.lines, self.title, self.commands = room, lines, title, commands
        self.example = EXAMPLES[title]
        self.folder = room / re.sub("[^a-z]", "-", title.lower())
        self.ports = {"8080": str(free_port()), "1502": str(free_port())}
        self.outputs = []

    def run_program(self, moment, words, text=""):
        done = subprocess.run([PROGRAM, *words], input=text.encode(), stdout=subprocess.PIPE, stderr=subprocess.STDOUT, check=False,
                              env=at(moment, self.room, self.folder), cwd=self.folder, timeout=120 * SLOW)
        return done.returncode, done.stdout.decode()

    def replay(self, moment, file, text):
        """The answers to the lines of a script, without those that say nothing of energy."""
        status, printed = self.run_program(moment, ["replay", "--db", file], text)
        return status, [it for it in printed.splitlines() if it != "ok" and not re.match("(started|poll) ", it)]

    def prepare(self):
        """Makes the files that the section begins with. Sections with the same set-up and readings share them."""
        (self.folder / "tmp").mkdir(parents=True)
        example = self.example
        if self.title in ("The head", "The example"):
            (self.folder / "inv.csv").write_text(LIST)
            return
        name = re.sub("[^a-z0-9]", "-", f"{example.set_up} {example.readings}".lower())
        with prepared.setdefault(name, threading.Lock()):
            made = self.room / f"made{name}"
            if not made.exists():
                made.mkdir()
                self.make_files(made)
            for it in made.iterdir():
                shutil.copy(it, self.folder / it.name)
        same(f"{self.title}: energy before", energy(self.folder / "office.db"), example.before)
        if example.needs_root:
            os.chown(self.folder, 65534, 65534)

    def make_files(self, folder):
        """Makes a database with the set-up and the readings, in a folder."""
        example = self.example
        for name in ("site.txt", "inv.csv") + (("office.db", "office.db-wal") if example.set_up is None else ()):
            shutil.copy(self.room / "the-example" / name, folder / name)
        if example.set_up is not None:
            done = self.run_program(NOON, ["create", "--db", f"{folder}/office.db", "--zone", "UTC0"])
            same(f"{self.title}: create", done, (0, ""))
        script = "".join(f"{NOON} {it}\n" for it in (example.set_up or "").splitlines())
        script += f"{NOON} connect inv\n" if example.readings else ""
        for number, (minute, value) in enumerate(example.readings):
            script += reading_lines(NOON + 60 * minute, number, "inv", 40094, value)
        if script:
            status, printed = self.replay(NOON, f"{folder}/office.db", script)
            same(f"{self.title}: readings before", (status, [it for it in printed if not it.startswith("reading ")]), (0, example.held))

    @contextlib.contextmanager
    def in_use(self, moment):
        """Holds what is in use while the commands run."""
        port = int(self.ports["8080"])
        if self.example.used == "port":
            with socket.create_server(("127.0.0.1", port)):
                yield
        elif self.example.used == "file":
            child = subprocess.Popen([PROGRAM, "serve", "--db", "office.db", "--port", str(port), "--connections", "1"], cwd=self.folder,
                                     env=at(moment, self.room, self.folder), stdout=subprocess.DEVNULL, stderr=subprocess.DEVNULL)
            try:
                until = time.monotonic() + 120 * SLOW
                while not listens(port) and time.monotonic() < until:
                    time.sleep(0.05)
                yield
                same(f"{self.title}: the other program ends", child.wait(120 * SLOW), 0)
            finally:
                child.kill()
                child.wait()
        else:
            yield

    def type_command(self, moment, command, wanted):
        """Runs a command of the page. Returns its status, its output and its standard error, with the page's ports."""
        name = command[4:]
        if re.fullmatch(r"cat [a-z.]+", command) and not (self.folder / name).exists():
            (self.folder / name).write_text(wanted)
        for of_page, port in self.ports.items():
            command = re.sub(rf"\b{of_page}\b", port, command)
        # (timeout ends the whole process group of a command that does not end)
        done = subprocess.run(["timeout", "-k", "5", str(60 * SLOW), "bash", "-c", PRELUDE + command], stdin=subprocess.DEVNULL,
                              capture_output=True, env=at(moment, self.room, self.folder), cwd=self.folder, check=False)
        printed, causes = done.stdout.decode(), done.stderr.decode()
        printed += "\n" * (printed != "" and not printed.endswith("\n"))
        for of_page, port in self.ports.items():
            printed, causes = (re.sub(rf"\b{port}\b", of_page, it) for it in (printed, causes))
        return done.returncode, printed, causes

    def play(self):
        if self.example.needs_root and not IS_ROOT:
            with lock:
                counts["skipped"] += 1
                print(f"{self.title}: skipped, needs root")
            return
        self.prepare()
        example = self.example
        first = NOON - 2 * STEP if self.title == "The example" else NOON + 2 * STEP + 86400 * example.days
        with self.in_use(first):
            for number, (command, begin, end) in enumerate(self.commands):
                wanted = "".join(f"{it}\n" for it in self.lines[begin:end])
                status, printed, causes = self.type_command(first + number * STEP, command, wanted)
                self.outputs.append((begin, end, printed + causes))
                same(f"{self.title}: {command}", printed + causes, wanted)
                cause = example.causes.get(number, "")
                same(f"{self.title}: {command}: standard error", cause if cause and cause in causes else causes, cause)
                same(f"{self.title}: {command}: status", status, example.statuses.get(number, 0))
        if example.after is not None:
            same(f"{self.title}: energy after", energy(self.folder / example.file), example.after)
        end = first + len(self.commands) * STEP
        if example.next and not QUICK:
            device, address, value, answer = example.next
            script = f"{end} connect {device}\n" + reading_lines(end + STEP, 0, device, address, value)
            same(f"{self.title}: the next reading", self.replay(end, example.file, script), (0, [answer]))
        if example.next and not QUICK:
            status, printed = self.run_program(end, ["audit", "--db", example.file])
            same(f"{self.title}: audit", (status, printed[:6]), (0, "fine: "))


def main():
    texts = [it.read_text(encoding="utf-8").splitlines() for it in PAGES]
    only = os.environ.get("ONLY", "")
    with tempfile.TemporaryDirectory(prefix="mistakes-") as folder:
        room = pathlib.Path(folder)
        room.chmod(0o755)
        (room / "bin").mkdir()
        (room / "bin/sunreg").symlink_to(PROGRAM)
        sections = [Section(room, lines, title, commands) for lines in texts for title, commands in parse_page(lines).items()]
        same("the sections with commands", sorted(it.title for it in sections), sorted(EXAMPLES))
        first, *others = sorted(sections, key=lambda it: it.title != "The example")
        try:
            first.play()
            with concurrent.futures.ThreadPoolExecutor(4) as pool:
                for it in [pool.submit(it.play) for it in others if re.search(only, it.title)]:
                    it.result()
        finally:
            if "--write" in sys.argv:
                write_outputs(sections, texts)
    skipped = f", {counts['skipped']} skipped" * bool(counts["skipped"])
    print(f"{counts['passed']} passed, {counts['failed']} failed{skipped}")
    return 1 if counts["failed"] else 0


def write_outputs(sections, texts):
    """Replaces the outputs in the pages by those of the commands that were typed."""
    for path, lines in zip(PAGES, texts):
        outputs = [output for it in sections if it.lines is lines for output in it.outputs]
        for begin, end, printed in sorted(outputs, reverse=True):
            lines[begin:end] = printed.splitlines()
        path.write_text("\n".join(lines) + "\n", encoding="utf-8")


if __name__ == "__main__":
    sys.exit(main())
