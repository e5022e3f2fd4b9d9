#!/usr/bin/env python3
"""torn_writes.py PROGRAM: damages the logs of killed offices, and opens each damaged copy.

An office polls a device in rounds and is killed during one. Its file and its log are copied. Then
the log is cut (at a frame's start, within its header, within its page, anywhere), or one bit of it
is flipped. The first office's log is also changed in each byte of its header, in 300 random bytes
of its frames, and cut at each frame.

The expected result comes from `wal_model.py`, which reads the log by its format. A log that a crash
can leave opens. Then the copy is complete, and its entries and polls are the first ones of the
untorn copy. Each meter's energy is exactly its last reading less its first, and a poll has at most
one outcome. If the damage is after the last commit, nothing is missing.

`report`, `audit` and `backup` refuse a log that has lost a commit, with status 3, and no byte of
either file changes. `recover` then makes an office of the commits before the damage, and `audit`
accepts it.
"""
import collections
import os
import random
import shutil
import sqlite3
import subprocess
import sys
import tempfile
import time

import soak
import wal_model
from wal_model import frames_of

COPIES = int(os.environ.get("TORN_COPIES", "300"))
SEED = int(os.environ.get("TORN_SEED", time.time_ns() % 1_000_000_007))
HEADER, FRAME = wal_model.HEADER, wal_model.FRAME
OFFICES = 3
LEAST, ROUNDS = 24, 100  # the commits that a damaged log must have, and the most rounds to make them
FLIPS = int(os.environ.get("TORN_FLIPS", "300"))


def rows_of(file):
    """Returns the rows of a copy's tables."""
    books = sqlite3.connect(file)
    ask = lambda text: books.execute(text).fetchall()
    told = {
        "whole": ask("PRAGMA integrity_check") == [("ok",)] and not ask("PRAGMA foreign_key_check"),
        "tables": ask("SELECT count(*) FROM sqlite_schema WHERE type = 'table'")[0][0],
    }
    if told["tables"]:
        told["polls"] = ask("SELECT * FROM polls ORDER BY poll")
        told["outcomes"] = ask("SELECT * FROM outcomes ORDER BY poll, moment")
        told["entries"] = ask("SELECT rowid, * FROM entries ORDER BY rowid")
        told["holds"] = ask("SELECT * FROM holds ORDER BY place")
        told["meters"] = ask("SELECT meter, last_raw, total FROM installations ORDER BY place")
        told["spread"] = dict(ask("SELECT meter, sum(mwh) FROM intervals GROUP BY meter"))
        told["others"] = [ask(f"SELECT * FROM {name}") for name in ("meta", "devices", "points", "registers")]
    books.close()
    return told


def energy_is_exact(rows):
    """Returns whether each meter's energy is its last reading less its first, with the rollovers
    between."""
    raws = collections.defaultdict(list)
    for _, meter, _, _, _, raw, *_ in rows["entries"]:
        raws[meter].append(raw)
    for meter, last, total in rows["meters"]:
        its = raws[meter]
        turns = sum(later < earlier for earlier, later in zip(its, its[1:]))
        wanted = 1000 * (its[-1] - its[0] + soak.TURN * turns)
        if (last, total, rows["spread"].get(meter, 0)) != (its[-1], wanted, wanted):
            return False
    return len(raws) == len(rows["meters"])


class Torn:
    def __init__(self, program, room, chance):
        self.program = program
        self.chance = chance
        self.copy = f"{room}/torn"
        self.kinds = collections.Counter()
        self.lost = 0
        self.cuts = {}

    def office(self, room):
        """Returns an office that was killed in a round: its file, its log, and its output."""
        os.mkdir(room)
        it = soak.Soak(self.program, room)
        it.office.set_up()
        polls = 0
        for turn in range(ROUNDS):
            at = int(time.time())
            it.next_stop = time.monotonic() + self.chance.uniform(0.1, 0.3) * (1 + turn / 10)
            it.usual = 0.01
            was_stopped = it.round(polls + 1)
            polls = it.office.polls()
            while int(time.time()) == at:
                time.sleep(0.02)
            if was_stopped and len(frames_of(open(f"{it.office.file}-wal", "rb").read()).commits) >= LEAST:
                break
        return open(it.office.file, "rb").read(), open(f"{it.office.file}-wal", "rb").read(), it.told

    def write(self, name, file, log):
        """Puts a file and its log into a separate folder."""
        folder = f"{self.copy}/{name}"
        shutil.rmtree(folder, ignore_errors=True)
        os.makedirs(folder)
        for name, data in (("office.db", file), ("office.db-wal", log)):
            with open(f"{folder}/{name}", "wb") as it:
                it.write(data)

    def opened(self, file, log):
        """Returns what SQLite and then the program read in a file with a log; the program has a
        separate copy."""
        for name in ("sqlite", "program"):
            self.write(name, file, log)
        rows = rows_of(f"{self.copy}/sqlite/office.db")
        words = [self.program, "report", "--db", f"{self.copy}/program/office.db", "--register", "r3"]
        ran = subprocess.run(words, stdin=subprocess.DEVNULL, capture_output=True, timeout=60)
        return rows, ran, rows_of(f"{self.copy}/program/office.db")

    def run_over(self, *words):
        """Runs the program over the copy, whose files it must not change; None if it changed
        one."""
        folder = f"{self.copy}/program"
        before = {name: open(f"{folder}/{name}", "rb").read() for name in os.listdir(folder)}
        ran = subprocess.run([self.program, *words], stdin=subprocess.DEVNULL, capture_output=True, timeout=60)
        after = {name: open(f"{folder}/{name}", "rb").read() for name in os.listdir(folder)}
        return ran if before == after else None

    def refused(self, what, file, log, verdict):
        """Opens a copy whose log has lost a commit: each command refuses it, and `recover` makes an
        office of the rest."""
        self.write("program", file, log)
        office, new = f"{self.copy}/program/office.db", f"{self.copy}/new.db"
        for ending in ("", "-wal"):
            if os.path.exists(new + ending):
                os.remove(new + ending)
        for words in (["report", "--db", office, "--register", "r3"], ["audit", "--db", office], ["backup", "--db", office, "--to", new]):
            ran = self.run_over(*words)
            told = ran is not None and ran.stderr.decode()
            place = f"at byte {verdict.end}" if verdict.is_commit else "has a damaged header"
            soak.holds(f"{what}: {words[0]} refuses it and changes nothing", ran is not None and ran.returncode == 3 and place in told, f"{told!r:.300}")
        soak.holds(f"{what}: a refused backup leaves no file", not os.path.exists(new))
        ran = self.run_over("recover", "--db", office, "--to", new)
        soak.holds(f"{what}: recover changes nothing", ran is not None)
        if ran is None or ran.returncode != 0:
            return ran
        soak.holds(f"{what}: what was recovered is fine", b"fine: " in ran.stdout and self.run_over("audit", "--db", new).returncode == 0)
        return ran

    def judge_refused(self, file, log, kind, at, commits, verdict):
        what = f"{kind} {at}, {len(log)} bytes"
        self.kinds[f"{kind}, refused"] += 1
        ran = self.refused(what, file, log, verdict)
        whole = self.cut_behind(file, verdict.log, verdict.end)
        if not whole["tables"]:
            soak.holds(f"{what}: no office is recovered of no tables", ran is not None and ran.returncode == 3)
            return
        soak.holds(f"{what}: recover ends well", ran is not None and ran.returncode == 0, f"{ran and ran.stderr.decode()!r:.200}")
        rows = rows_of(f"{self.copy}/new.db")
        soak.holds(f"{what}: what was recovered is what the commits before the damage hold", rows == whole)

    def cut_behind(self, file, log, end):
        """Returns what SQLite reads in a file whose log ends with a commit."""
        if (end, log[:HEADER]) not in self.cuts:
            self.write("cut", file, log[:end])
            self.cuts[end, log[:HEADER]] = rows_of(f"{self.copy}/cut/office.db")
        return self.cuts[end, log[:HEADER]]

    def tear(self, log, frames):
        """Returns a kind of damage, the first byte that it removes or flips, and the torn log."""
        size, last = frames.size, frames.commits[-1]
        at = HEADER + size * self.chance.randrange((frames.end - HEADER) // size)
        kind = self.chance.choice(("begin", "header", "page", "random", "behind", "flip behind", "flip last", "flip any"))
        cut = {
            "begin": at,
            "header": at + self.chance.randrange(1, FRAME),
            "page": at + self.chance.randrange(FRAME, size),
            "random": self.chance.randrange(len(log)),
            "behind": self.chance.randint(last, len(log)),
        }
        if kind in cut:
            return kind, cut[kind], log[: cut[kind]]
        flipped = bytearray(log + bytes(size))  # (the bytes after the last frame do not belong to it)
        span = {"flip behind": (last, len(flipped)), "flip last": (last - size, last), "flip any": (HEADER, len(log))}[kind]
        at = self.chance.randrange(*span)
        flipped[at] ^= 1 << self.chance.randrange(8)
        return kind, at, bytes(flipped)

    def judge(self, file, log, kind, at, whole, all_commits, told):
        """Opens a damaged copy, and compares it with the undamaged one."""
        verdict = wal_model.verdict(file, log)
        if not verdict.is_sound:
            self.judge_refused(file, log, kind, at, all_commits, verdict)
            return
        commits = [end for end in all_commits if end <= at]
        rows, ran, after = self.opened(file, log)
        what = f"{kind}, {len(log)} bytes, {len(commits)} of {len(all_commits)} commits"
        said = ran.stderr.decode()[:80]
        soak.holds(f"{what}: SQLite finds it whole", rows["whole"] and after["whole"])
        self.kinds[kind] += 1
        if not rows.get("meters") or len(rows["meters"]) < soak.METERS:
            is_early = len(commits) < len(all_commits) and rows["tables"] in (0, whole["tables"])
            soak.holds(f"{what}: an office without its meters lacks commits", is_early and ran.returncode in (0, 1, 3), f"{ran.returncode} {said}")
            self.lost += 1
            return
        soak.holds(f"{what}: the program opens it", ran.returncode == 0, f"{ran.returncode} {said}")
        for name in ("polls", "entries", "holds"):
            soak.holds(f"{what}: its {name} are the first ones", rows[name] == whole[name][: len(rows[name])])
        soak.holds(f"{what}: its outcomes are the untorn copy's", set(rows["outcomes"]) <= set(whole["outcomes"]))
        soak.holds(f"{what}: it is what a cut behind its last commit leaves", rows == self.cut_behind(file, log, commits[-1] if commits else HEADER))
        for it in (rows, after):
            soak.holds(f"{what}: its energy is exact", energy_is_exact(it))
            ended = [poll for poll, *_ in it["outcomes"]]
            soak.holds(f"{what}: a poll has one outcome at most", len(set(ended)) == len(ended))
            soak.holds(f"{what}: only known polls end", set(ended) <= {poll for poll, *_ in it["polls"]})
        same = all(after[name] == rows[name] for name in ("polls", "holds", "entries", "meters", "spread", "others"))
        soak.holds(f"{what}: an opening keeps what it finds, and books nothing", same and set(rows["outcomes"]) <= set(after["outcomes"]))
        added = set(after["outcomes"]) - set(rows["outcomes"])
        is_ended = len(after["outcomes"]) == len(after["polls"]) and {row[2:] for row in added} <= {(5, 4)}
        soak.holds(f"{what}: an opening ends the polls that were pending as lost", is_ended)
        days = sum(int(row.split()[-1]) for row in ran.stdout.decode().splitlines()[:-1])
        soak.holds(f"{what}: the report tells the total", days == dict((m, t) for m, _, t in rows["meters"])["m3"], f"{days}")
        if commits == all_commits:
            soak.holds(f"{what}: nothing is lost", rows == whole)
            raws = collections.defaultdict(set)
            for _, meter, _, _, _, raw, *_ in rows["entries"]:
                raws[meter].add(raw)
            soak.holds(f"{what}: what was told is there", all(its <= raws[f"m{meter}"] for meter, its in told.items()))
        else:
            self.lost += 1

    def try_each(self, file, log, frames, whole, told):
        """Changes each byte of the header, and many of the frames, and cuts the log at each
        frame."""
        for at in range(HEADER):
            changed = bytearray(log)
            changed[at] ^= self.chance.randrange(1, 256)
            self.judge(file, bytes(changed), "header byte", at, whole, frames.commits, told)
        for _ in range(FLIPS):
            at = self.chance.randrange(HEADER, frames.end)
            changed = bytearray(log)
            changed[at] ^= self.chance.randrange(1, 256)
            self.judge(file, bytes(changed), "frame byte", at, whole, frames.commits, told)
        for at in range(HEADER, frames.end + 1, frames.size):
            self.judge(file, log[:at], "each cut", at, whole, frames.commits, told)

    def run(self, room):
        for turn in range(OFFICES):
            file, log, told = self.office(f"{room}/office{turn}")
            frames, self.cuts = frames_of(log), {}
            whole = self.opened(file, log)[0]
            print(f"office {turn}: {(frames.end - HEADER) // frames.size} frames, {len(frames.commits)} commits, {len(whole['entries'])} entries", flush=True)
            self.judge(file, log, "untorn", len(log), whole, frames.commits, told)
            for _ in range(COPIES // OFFICES):
                kind, at, torn = self.tear(log, frames)
                self.judge(file, torn, kind, at, whole, frames.commits, told)
            if turn == 0:
                self.try_each(file, log, frames, whole, told)
        print(f"torn: {' '.join(f'{kind}:{count}' for kind, count in sorted(self.kinds.items()))}; {self.lost} lack commits")
        soak.holds("some copies lack commits, and some lack none", 0 < self.lost < sum(self.kinds.values()))


def main(program):
    print(f"seed {SEED}", flush=True)
    soak.SEED = SEED
    with tempfile.TemporaryDirectory(prefix="torn-") as room:
        Torn(program, room, random.Random(SEED)).run(room)
    print(f"{soak.tally['passed']} passed, {soak.tally['failed']} failed")
    return 1 if soak.tally["failed"] else 0


if __name__ == "__main__":
    if len(sys.argv) != 2:
        sys.exit(__doc__)
    sys.exit(main(sys.argv[1]))
