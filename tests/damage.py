#!/usr/bin/env python3
"""damage.sh [PROGRAM]: damages files, and gives commands names and files that they must refuse.

A young office has all its records in its log. The script changes one byte of the log's header or of
its first frame: every command refuses the file, `recover` makes a new office of the rest, and no
byte of either file changes. Then it tests names that belong to other files, the remains of a killed
carry, and a `create` without space. It also tests pipes, devices and files that are far too long.
It ends with 'N passed, M failed'.
"""
import os
import pathlib
import shutil
import subprocess
import sys
import tempfile
import threading
import time

import wal_model

HERE = pathlib.Path(__file__).resolve().parent
tally = {"passed": 0, "failed": 0}
SETUP = "1 device inv 1 5 1\n2 register main inv 3 40094 0\n3 install main m1 5000 0 1000000\n"
READING = "4 manual main 5100 0\n"


def check(what, holds, why=""):
    tally["passed" if holds else "failed"] += 1
    if not holds:
        print(f"{what}: {why}", flush=True)


class Office:
    def __init__(self, program, room):
        self.program, self.room = program, pathlib.Path(room)

    def run(self, *words, text=b"", limit=60, **how):
        return subprocess.run([self.program, *map(str, words)], input=text, capture_output=True, timeout=limit, cwd=self.room, **how)

    def path(self, name):
        return self.room / name

    def fresh(self, name="office.db"):
        """Makes an office with one meter and one reading by hand."""
        for it in self.room.glob(f"{name}*"):
            it.unlink()
        made = self.run("create", "--db", name, "--zone", "UTC0")
        assert made.returncode == 0, made.stderr
        entered = self.run("enter", "--db", name, "--caller", "desk", text=SETUP.encode())
        assert entered.stdout == b"ok\n" * 3, (entered.stdout, entered.stderr)
        # (a reading in the second of the installation would have no time for its energy)
        limit = time.monotonic() + 10
        while self.run("enter", "--db", name, "--caller", "desk", text=READING.encode()).stdout != b"ok\n":
            assert time.monotonic() < limit
            time.sleep(0.1)

    def bytes_of(self, name="office.db"):
        return self.path(name).read_bytes(), self.path(f"{name}-wal").read_bytes()

    def change(self, at, name="office.db-wal"):
        data = bytearray(self.path(name).read_bytes())
        data[at] ^= 0x5A
        self.path(name).write_bytes(data)


def refused(ran, *parts):
    """Returns whether a command exited with 3, printed nothing, and its message has each of these
    parts."""
    said = ran.stderr.decode()
    return ran.returncode == 3 and ran.stdout == b"" and said.startswith("failed\nsunreg: ") and said.count("\n") == 2 and all(it in said for it in parts)


def commands(name):
    """Returns commands that open an office, with their input."""
    return {
        "report": (["report", "--db", name, "--register", "main"], b""),
        "audit": (["audit", "--db", name], b""),
        "enter": (["enter", "--db", name, "--caller", "desk"], b"9 manual main 5200 0\n"),
        "backup": (["backup", "--db", name, "--to", "copy.db"], b""),
        "carry": (["carry", "--from", name, "--to", "next.db"], b""),
        "serve": (["serve", "--db", name, "--port", "1", "--connections", "1"], b""),
        "run": (["run", "--db", name, "--listen", "1", "--every", "60", "--devices", "inv=127.0.0.1:1", "--for", "1"], b""),
    }


def damaged_logs(office):
    """Changes one byte of the header, and of the first frame."""
    for at, said in ((0, "has a damaged header"), (4, "has a damaged header"), (20, "has a damaged header"), (60, "is damaged at byte 32"), (100, "is damaged at byte 32")):
        office.fresh()
        whole = office.bytes_of()
        if len(whole[1]) <= at + 8:
            check(f"byte {at}: the log is that long", False, len(whole[1]))
            continue
        office.change(at)
        before = office.bytes_of()
        for name, (words, text) in commands("office.db").items():
            ran = office.run(*words, text=text)
            check(f"byte {at}: {name} refuses", refused(ran, "office.db: its log office.db-wal " + said, "sunreg recover --db office.db --to NEW"), ran)
            check(f"byte {at}: {name} changes nothing", office.bytes_of() == before)
        ran = office.run("recover", "--db", "office.db", "--to", "new.db")
        check(f"byte {at}: recover changes nothing", office.bytes_of() == before)
        if at < wal_model.HEADER:
            check(f"byte {at}: recover has all", (ran.returncode, ran.stdout.splitlines()[0]) == (0, b"fine: 1 meter, 2 entries, 1 interval, 0 polls"), ran)
            report = office.run("report", "--db", "new.db", "--register", "main")
            check(f"byte {at}: it has the energy", report.stdout.split()[2] == b"100000" and report.stderr == b"", report)
        else:
            check(f"byte {at}: recover reports what it has", ran.returncode == 0 and ran.stdout.startswith(b"fine: 0 meters, 0 entries"), ran)
        for it in office.room.glob("new.db*"):
            it.unlink()
    office.fresh()
    ran = office.run("recover", "--db", "office.db", "--to", "new.db")
    check("recover refuses a sound file", refused(ran, "office.db: its log isn't damaged") and not office.path("new.db").exists(), ran)
    ran = office.run("recover", "--db", "none.db", "--to", "new.db")
    check("recover refuses a file that isn't there", refused(ran, "none.db: ") and not office.path("new.db").exists(), ran)


def names(office):
    """Commands refuse names that belong to other files."""
    office.fresh()
    for end in ("-wal", "-journal", "-shm", ".part"):
        for words in (["create", "--zone", "UTC0", "--db"], ["backup", "--db", "office.db", "--to"], ["carry", "--from", "office.db", "--to"]):
            name = f"other.db{end}"
            ran = office.run(*words, name)
            check(f"{words[0]} at {name}", refused(ran, f"{name}: names that end in") and not list(office.room.glob(f"{name}*")), ran)
    office.path("line\nfeed.db").write_bytes(b"no database")
    ran = office.run("report", "--db", "line\nfeed.db", "--register", "main")
    check("a line feed in a name is escaped", refused(ran, "line\\x0afeed.db: "), ran)
    ran = office.run("serve", "--db", "office.db", "--port", "1", "--connections", "1", "--host-name", "")
    check("an empty host name", (ran.returncode, b"not a host name" in ran.stderr) == (2, True), ran)
    ran = office.run("serve", "--db", "office.db", "--port", "1", "--connections", "1", "--host-name", "a b")
    check("a host name with a space", ran.returncode == 2, ran)


def without_room(office):
    """A `create` on a disk without space, on a file system of so many bytes, leaves nothing."""
    folder = office.path("small")
    folder.mkdir()
    if subprocess.run(["mount", "-t", "tmpfs", "-o", "size=204800", "tmpfs", str(folder)], capture_output=True).returncode:
        print("damage: nothing can be mounted here, so a disk without room isn't tried", flush=True)
        return
    try:
        for room in range(0, 200_001, 8192):
            filler = folder / "filler"
            filler.write_bytes(b"x" * (204_800 - room if room < 204_800 else 0))
            ran = office.run("create", "--db", "small/n.db", "--zone", "UTC0")
            left = sorted(it.name for it in folder.iterdir() if it.name != "filler")
            made = ran.returncode == 0 and left == ["n.db", "n.db-wal"]
            check(f"create with {room} bytes of room", made or (refused(ran, "small/n.db: ") and left == []), (ran, left))
            for name in left:
                (folder / name).unlink()
            filler.unlink()
        ran = office.run("create", "--db", "small/n.db", "--zone", "UTC0")
        check("create with room for it", ran.returncode in (0, 3), ran)
    finally:
        subprocess.run(["umount", str(folder)])


def killed_makers(office):
    """The remains of a killed `create` do no harm, and two at once make one office."""
    for turn in range(30):
        child = subprocess.Popen([office.program, "create", "--db", "young.db", "--zone", "UTC0"], cwd=office.room, stdout=subprocess.DEVNULL, stderr=subprocess.DEVNULL)
        time.sleep(0.002 * turn)
        child.kill()
        child.wait()
        ran = office.run("create", "--db", "young.db", "--zone", "UTC0")
        made = office.run("audit", "--db", "young.db")
        check(f"create after a killed one, turn {turn}", made.stdout == b"fine: 0 meters, 0 entries, 0 intervals, 0 polls\n" and ran.returncode in (0, 3), (ran, made))
        for it in office.room.glob("young.db*"):
            it.unlink()
    ends = []
    threads = [threading.Thread(target=lambda: ends.append(office.run("create", "--db", "both.db", "--zone", "UTC0").returncode)) for _ in range(4)]
    for it in threads:
        it.start()
    for it in threads:
        it.join()
    check("of four at once at most one makes it", ends.count(0) <= 1 and set(ends) <= {0, 3}, ends)
    ran = office.run("create", "--db", "both.db", "--zone", "UTC0")
    check("and then there is one", office.run("audit", "--db", "both.db").returncode == 0, ran)


def bounds(office):
    """Commands refuse files that are no regular files, or far too long."""
    office.fresh()
    os.mkfifo(office.path("pipe"))
    os.symlink("/dev/zero", office.path("zero"))
    for name in ("pipe", "zero"):
        for command, (words, text) in commands(name).items():
            ran = office.run(*words, text=text, limit=20)
            check(f"{command} of {name}", refused(ran, f"{name}: not a regular file"), ran)
        ran = office.run("enter", "--db", "office.db", "--caller", "desk", text=f"9 list inv @{name}\n".encode(), limit=20)
        check(f"enter of a list in {name}", ran.returncode == 1 and b"not a regular file" in ran.stderr, ran)
        ran = office.run("audit", "--db", "office.db", "--against", name, limit=20)
        check(f"a seal in {name}", ran.returncode == 3 and ran.stdout == b"", ran)
    with open(office.path("long.seal"), "wb") as it:
        it.write(b"seal 3\n")
        it.truncate(3 << 30)
    ran = office.run("audit", "--db", "office.db", "--against", "long.seal")
    check("a seal of 3 GB is none", (ran.returncode, b"not a seal" in ran.stderr) == (2, True), ran)


def main():
    program = pathlib.Path(sys.argv[1] if len(sys.argv) > 1 else HERE.parent / "out" / "sunreg").resolve()
    if not program.is_file():
        sys.exit(f"damage.sh: {program} is not built: run ./sunreg-build")
    with tempfile.TemporaryDirectory(prefix="damage-") as room:
        for part in (damaged_logs, names, without_room, killed_makers, bounds):
            folder = pathlib.Path(room, part.__name__)
            folder.mkdir()
            part(Office(str(program), folder))
            shutil.rmtree(folder, ignore_errors=True)
    print(f"{tally['passed']} passed, {tally['failed']} failed")
    return 1 if tally["failed"] else 0


if __name__ == "__main__":
    sys.exit(main())
