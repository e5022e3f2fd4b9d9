#!/usr/bin/env python3
"""soak.py PROGRAM: polls a misbehaving device, and kills the office every few seconds.

Each round has a new simulator, whose counters have counted on. In some rounds it lacks
registers, and it plays tricks on some of its responses. Between the office and the simulator is a
relay, which keeps every forwarded byte of the simulator. In some rounds it closes both connections
after some byte. After each stop the script opens the office again, and checks its records:
- The response of an answered poll is among the relay's frames, under its number. The same holds for
  a poll that ended with an exception, with that code.
- The reading of an answered poll is recorded or rejected, once, and there are no other readings.
- Each meter's energy is exactly its last reading less its first, in its total, its quarter hours
  and its days.
- The records have every line that the office printed before it was stopped.
- In a round without faults each poll of a missing register ends with an exception, and each other
  poll is answered.
"""
import collections
import contextlib
import http.client
import json
import os
import random
import re
import shutil
import socket
import sqlite3
import subprocess
import sys
import tempfile
import threading
import time

METERS = 32  # as many as a device may have
TIMEOUT = 1  # of the device, in seconds
APART = 125  # the registers from one counter to the next: each counter needs its own read
TURN = 1 << 32
OPENINGS = [TURN - 60, *(100_000_000 * number for number in range(2, METERS + 1))]  # (the first one rolls over)
HOST = "127.0.0.1"
KINDS = ("drop", "twice", "later", "id", "unit", "garble", "cut")
POLLS = int(os.environ.get("SOAK_POLLS", "10000"))
SECONDS = int(os.environ.get("SOAK_SECONDS", "1800"))
SEED = int(os.environ.get("SOAK_SEED", time.time_ns() % 1_000_000_007))

Ended = collections.namedtuple("Ended", "status printed said was_stopped")
Frame = collections.namedtuple("Frame", "tid unit pdu")
Round = collections.namedtuple("Round", "first given lacking went_well only_dropped")
tally = collections.Counter()
tally_of_rounds = collections.Counter()


def holds(what, is_so, more=""):
    """Counts a comparison."""
    tally["passed" if is_so else "failed"] += 1
    if not is_so:
        print(f"{what}{more and ': '}{more}", flush=True)


def frames_in(stream):
    """Returns the Modbus frames of a stream, up to its end or to a garbled byte."""
    found, at = [], 0
    while at + 7 <= len(stream):
        length = int.from_bytes(stream[at + 4 : at + 6], "big")
        if not 2 <= length <= 254 or at + 6 + length > len(stream):
            break
        found.append(Frame(int.from_bytes(stream[at : at + 2], "big"), stream[at + 6], bytes(stream[at + 7 : at + 6 + length])))
        at += 6 + length
    return found


class Relay:
    """Forwards the bytes of each connection to a port, and keeps the bytes that come back."""

    def __init__(self):
        self.listener = socket.create_server((HOST, 0))
        self.port = self.listener.getsockname()[1]
        self.to = 0
        self.given = bytearray()
        self.ends_behind = None  # the bytes of the simulator after which the link drops
        threading.Thread(target=self.run, daemon=True).start()

    def run(self):
        while True:
            office, _ = self.listener.accept()
            threading.Thread(target=self.relay, args=(office, self.to, self.given, self.ends_behind), daemon=True).start()

    def relay(self, office, port, given, ends_behind):
        try:
            device = connected(port)
        except OSError:  # (the simulator ended with a stopped round)
            office.close()
            return
        threading.Thread(target=hand_on, args=(office, device, bytearray()), daemon=True).start()
        hand_on(device, office, given, ends_behind)


def connected(port):
    """Returns a connection to a port of this machine, for which it waits a minute."""
    for _ in range(3000):
        with contextlib.suppress(ConnectionRefusedError):
            return socket.create_connection((HOST, port))
        time.sleep(0.02)
    raise OSError(f"port {port} isn't answered")


def hand_on(source, target, kept, ends_behind=None):
    """Keeps each piece, then forwards it; closes both connections after so many bytes."""
    try:
        while piece := source.recv(4096):
            piece = piece if ends_behind is None else piece[: ends_behind - len(kept)]
            kept += piece
            target.sendall(piece)
            if len(kept) == ends_behind:
                for it in (source, target):
                    it.shutdown(socket.SHUT_RDWR)
                return
        target.shutdown(socket.SHUT_WR)
    except OSError:
        for it in (source, target):
            it.close()


def free_port():
    with socket.create_server((HOST, 0)) as it:
        return it.getsockname()[1]


class Office:
    """The program over one file."""

    def __init__(self, program, room):
        self.program = program
        self.room = room
        self.file = f"{room}/office.db"

    def run(self, word, *words, stop_at=None):
        """Runs a command to its end, or kills it at a given time."""
        command = [self.program, word, "--db", self.file, *words]
        ran = subprocess.Popen(command, stdin=subprocess.DEVNULL, stdout=subprocess.PIPE, stderr=subprocess.PIPE)
        was_stopped = False
        try:
            printed, said = ran.communicate(timeout=300 if stop_at is None else max(0.0, stop_at - time.monotonic()))
        except subprocess.TimeoutExpired:
            was_stopped = stop_at is not None
            ran.kill()
            printed, said = ran.communicate()
        return Ended(ran.returncode, printed.decode(), said.decode(), was_stopped)

    def set_up(self):
        """Makes the file, with a device, its list and its meters."""
        holds("create", self.run("create", "--zone", "UTC0").status == 0)
        rows = "".join(f"p{at},3,0,{APART * at},acc32,\n" for at in range(METERS))
        asked = [("/devices", json.dumps({"name": "inv", "unit": 1, "timeout": TIMEOUT, "window": 16}))]
        asked += [("/devices/inv/list", f"name,function,area,address,type,scale\n{rows}")]
        for at, raw in enumerate(OPENINGS):
            register = {"name": f"r{at}", "device": "inv", "function": 3, "address": APART * at, "fixed": 0}
            meter = {"meter": f"m{at}", "raw": raw, "sf": 0, "ceiling": 1_000_000_000}
            asked += [("/registers", json.dumps(register)), (f"/registers/r{at}/install", json.dumps(meter))]
        port = free_port()
        words = [self.program, "serve", "--db", self.file, "--port", str(port), "--connections", str(len(asked) + 1)]
        serving = subprocess.Popen(words, stdin=subprocess.DEVNULL)
        connected(port).close()
        for number, (path, body) in enumerate(asked, 1):
            link = http.client.HTTPConnection(HOST, port, timeout=60)
            link.request("POST", path, body, {"Office-Caller": "soak", "Office-Request": str(number)})
            answer = link.getresponse()
            holds(f"POST {path}", answer.status == 200, f"{answer.status} {answer.read()[:80]}")
            link.close()
        holds("serve", serving.wait(60) == 0)

    def books(self):
        """Returns rows of the tables, from a copy of the file and of its log."""
        copy = f"{self.room}/copy"
        shutil.rmtree(copy, ignore_errors=True)
        os.mkdir(copy)
        for name in os.listdir(self.room):
            if name.startswith("office.db"):
                shutil.copy(f"{self.room}/{name}", copy)
        return sqlite3.connect(f"{copy}/office.db")

    def polls(self):
        """Returns how many polls were started."""
        books = self.books()
        count = books.execute("SELECT count(*) FROM polls").fetchone()[0]
        books.close()
        return count


class Soak:
    def __init__(self, program, room):
        self.office = Office(program, room)
        self.relay = Relay()
        self.chance = random.Random(SEED)
        self.counts = list(OPENINGS)
        self.rounds = []  # of each: the first poll, the given frames, the missing meters, and whether all went well
        self.lacking = set()
        self.brought = {}  # of each answered poll: the frame that was its response
        self.told = collections.defaultdict(set)  # of each meter: the readings that the office printed
        self.stops = 0
        self.drops = 0
        self.judged = 0  # the rounds that were compared with the missing registers, and those that went well
        self.judged_well = 0
        self.next_stop = 0.0
        self.usual = 0.4  # the seconds of a round

    def bank(self):
        """Returns the lines of the next simulator: its counters count on, and some responses
        are wrong."""
        self.lacking = set(self.chance.sample(range(METERS), self.chance.choice((0, 0, 0, 1, 2, 5))))
        lines = [f"area holding {APART * at} {APART}" for at in range(METERS) if at not in self.lacking]
        for at in sorted(set(range(METERS)) - self.lacking):
            self.counts[at] += self.chance.randint(1, 5)
            self.counts[at] += self.counts[at] % TURN == 0  # (a counter that shows 0 counts nothing)
            shown = self.counts[at] % TURN
            lines += [f"set holding {APART * at} {shown >> 16}", f"set holding {APART * at + 1} {shown & 0xFFFF}"]
        for frame in self.chance.sample(range(1, METERS + 1), self.chance.choice((0, 0, 1, 1, 2, 3, 6))):
            kind = self.chance.choice(KINDS)
            lines.append(f"trick {frame} {kind}{f' {self.chance.randint(0, 20)}' * (kind == 'cut')}")
        return "".join(f"{line}\n" for line in lines)

    def round(self, first):
        """Polls the whole plan once, with a new simulator; kills the office if its time has
        come."""
        self.relay.to, self.relay.given = free_port(), bytearray()
        self.relay.ends_behind = self.chance.randint(1, 13 * METERS) if self.chance.random() < 0.2 else None
        words = [self.office.program, "stand-in", "--port", str(self.relay.to), "--connections", "1"]
        device = subprocess.Popen(words, stdin=subprocess.PIPE, stdout=subprocess.DEVNULL)
        bank = self.bank()
        device.stdin.write(bank.encode())
        device.stdin.close()
        connected_to = ("--device", "inv", "--port", str(self.relay.port))
        begun = time.monotonic()
        stop_at = max(self.next_stop, begun + self.chance.uniform(0.0, self.usual))
        ended = self.office.run("round", *connected_to, stop_at=stop_at)
        device.kill()
        device.wait()
        lines = ended.printed[: ended.printed.rfind("\n") + 1]
        for meter, raw in re.findall(r"^reading m(\d+) (\d+) rolls \d+ step \d+$", lines, re.M):
            self.told[int(meter)].add(int(raw))
        if ended.was_stopped:
            self.stops += 1
            self.next_stop = time.monotonic() + self.chance.uniform(1.0, 3.0)
        else:
            self.usual = min(0.4, time.monotonic() - begun)
            ends = {0: "ok\n", 1: "\nrefused 10\n", 3: ""}  # (1: the rest could not be polled after a loss; 3: the link failed)
            is_told = ended.printed.endswith(ends.get(ended.status, "none")) and (ended.status == 3) == ended.said.startswith("failed\n")
            tally_of_rounds[ended.status] += 1
            more = f"{ended.status} {ended.printed[-200:]} {ended.said} {bank[-200:]}"
            holds("a round's status", is_told and (ended.status == 0 or "trick" in bank or self.relay.ends_behind), more)
        self.drops += self.relay.ends_behind == len(self.relay.given)
        # (a round that took as long as the device's timeout may have had late responses, on a busy
        # machine)
        is_in_time = time.monotonic() - begun < TIMEOUT
        went_well = is_in_time and not (ended.was_stopped or "trick" in bank or self.relay.ends_behind)
        only_dropped = is_in_time and bool(self.relay.ends_behind) and not (ended.was_stopped or "trick" in bank)
        self.rounds.append(Round(first, frames_in(bytes(self.relay.given)), self.lacking, went_well, only_dropped))
        return ended.was_stopped

    def judge(self):
        """Opens the office again, and compares its records with the simulators' responses."""
        asked = self.chance.randrange(METERS)
        days = self.office.run("report", "--register", f"r{asked}")
        audit = self.office.run("audit")
        holds("an audit finds the file fine", (audit.status, audit.printed[:5]) == (0, "fine:"), f"{audit.status} {audit.printed[:200]} {audit.said[:200]}")
        books = self.office.books()
        same = books.execute("PRAGMA integrity_check").fetchall() == [("ok",)]
        holds("the file is whole", same and not books.execute("PRAGMA foreign_key_check").fetchall())
        ends = books.execute("SELECT p.poll, p.tid, p.address, o.outcome, o.code FROM polls p LEFT JOIN outcomes o USING (poll) ORDER BY p.poll").fetchall()
        holds("each poll has its outcome", all(outcome is not None for *_, outcome, _ in ends))
        holds("polls are numbered from 1", [poll for poll, *_ in ends] == list(range(1, len(ends) + 1)))
        replies = collections.defaultdict(dict)
        wrong = []
        for poll, tid, address, outcome, code in ends:
            if outcome == 1:
                replies[address][poll] = self.values(poll, tid)
            elif outcome == 2 and bytes((0x83, code)) not in self.given(poll, tid):
                wrong.append((poll, code))
        holds("each exception was given, with its code", not wrong, f"{wrong[:3]}")
        self.judge_lacking(ends)
        strays = books.execute("SELECT count(*) FROM holds h LEFT JOIN outcomes o USING (poll) WHERE o.outcome IS NOT 1").fetchone()[0]
        holds("only an answered poll has a reading", strays == 0, f"{strays}")
        held = dict(books.execute("SELECT poll, raw FROM holds"))
        for meter in range(METERS):
            self.judge_meter(books, meter, replies[APART * meter], held)
        told = sum(int(row.split()[-1]) for row in days.printed.splitlines()[:-1])
        total = books.execute("SELECT total FROM installations WHERE meter = ?", [f"m{asked}"]).fetchone()[0]
        holds(f"the days of r{asked}", (days.status, told) == (0, total), f"status {days.status}, {told} mWh and not {total}")
        books.close()
        return len(ends)

    def values(self, poll, tid):
        """Returns the registers in the response to a poll."""
        if poll not in self.brought:
            self.brought[poll] = {int.from_bytes(pdu[2:], "big") for pdu in self.given(poll, tid) if pdu[:2] == b"\x03\x04"}
        return self.brought[poll]

    def given(self, poll, tid):
        """Returns the frames with a poll's number in its round."""
        given = next((it.given for it in reversed(self.rounds) if it.first <= poll), [])
        return [frame.pdu for frame in given if (frame.tid, frame.unit) == (tid, 1)]

    def judge_lacking(self, ends):
        """Compares the polls of rounds that went well with the missing registers, each round
        once."""
        for at in range(self.judged, len(self.rounds)):
            it = self.rounds[at]
            behind = self.rounds[at + 1].first if at + 1 < len(self.rounds) else len(ends) + 1
            if it.only_dropped:
                outcomes = [outcome for *_, outcome, _ in ends[it.first - 1 : behind - 1]]
                holds("a poll whose link dropped is lost, unless its reply was given", set(outcomes) <= {1, 2, 5}, f"{outcomes}")
            if it.went_well:
                told = [(address // APART, outcome, code) for _, _, address, outcome, code in ends[it.first - 1 : behind - 1]]
                wanted = [(meter, 2, 2) if meter in it.lacking else (meter, 1, 0) for meter in range(METERS)]
                holds("a round that went well ends by what the stand-in has", told == wanted, f"{told}, lacking {it.lacking}")
                self.judged_well += 1
        self.judged = len(self.rounds)

    def judge_meter(self, books, meter, replies, held):
        """Compares a meter's entries, total and quarter hours with the responses to its polls."""
        name, last, energy, wrong = f"m{meter}", OPENINGS[meter], 0, ""
        rows = books.execute("SELECT kind, raw FROM entries WHERE meter = ? ORDER BY place", [name]).fetchall()
        booked = collections.deque(raw for kind, raw in rows[1:] if kind == 2)
        if rows[0] != (1, last) or len(booked) != len(rows) - 1:
            wrong = f"its entries are {rows[:3]}"
        for poll, given in sorted(replies.items()):
            raw = held[poll] if poll in held else booked.popleft() if booked else None
            if raw not in given:
                wrong = wrong or f"poll {poll} brought {raw}, and was given {sorted(given)}"
            elif poll not in held:
                energy += (raw - last) % TURN
                last = raw
        holds(f"the readings of {name} are those that were given, each once", not (wrong or booked), wrong or f"nobody gave {list(booked)[:3]}")
        total, raw = books.execute("SELECT total, last_raw FROM installations WHERE meter = ?", [name]).fetchone()
        spread = books.execute("SELECT coalesce(sum(mwh), 0) FROM intervals WHERE meter = ?", [name]).fetchone()[0]
        turned = TURN * sum(later < earlier for (_, earlier), (_, later) in zip(rows, rows[1:]))
        wanted = 1000 * (last + turned - OPENINGS[meter])
        figures = (total, spread, 1000 * energy, raw)
        holds(f"the energy of {name} is its last reading less its first", figures == (wanted, wanted, wanted, last), f"{figures}, {wanted}")
        holds(f"what was told of {name} is booked", self.told[meter] <= {raw for _, raw in rows})

    def run(self):
        self.office.set_up()
        if tally["failed"]:
            return
        time.sleep(1.0)
        begun, polls = time.monotonic(), 0
        self.next_stop = begun + 1.0
        while polls < POLLS and time.monotonic() - begun < SECONDS:
            at = int(time.time())
            was_stopped = self.round(polls + 1)
            polls = self.judge() if was_stopped else self.office.polls()
            while int(time.time()) == at:  # (a reading of the same second is rejected)
                time.sleep(0.02)
        polls = self.judge()
        books = self.office.books()
        ends = " ".join(f"{outcome}:{count}" for outcome, count in books.execute("SELECT outcome, count(*) FROM outcomes GROUP BY 1 ORDER BY 1"))
        kept = books.execute("SELECT (SELECT count(*) FROM entries WHERE kind = 2), (SELECT count(*) FROM holds)").fetchone()
        left = books.execute("SELECT count(*) FROM outcomes WHERE outcome = 5 AND code = 4").fetchone()[0]
        causes = " ".join(f"{cause}:{count}" for cause, count in books.execute("SELECT cause, count(*) FROM holds GROUP BY 1 ORDER BY 1"))
        print(f"{polls} polls in {len(self.rounds)} rounds, the office stopped {self.stops} times, in {time.monotonic() - begun:.0f} seconds")
        print(f"rounds by status {' '.join(f'{status}:{count}' for status, count in sorted(tally_of_rounds.items()))}")
        print(f"outcomes {ends} (1 answered, 2 exception, 3 silent, 4 malformed, 5 lost), {left} lost by a stop")
        print(f"the link dropped in {self.drops} rounds, and {self.judged_well} rounds went well")
        print(f"{kept[0]} readings booked, {kept[1]} held ({causes})")
        holds("so many polls in the time", polls >= POLLS, f"{polls}")
        holds("the office was stopped, and some readings were booked", self.stops > 0 and kept[0] > 0)
        holds("the link dropped, and some polls ended with an exception", self.drops > 0 and " 2:" in f" {ends}")


def main(program):
    print(f"seed {SEED}", flush=True)
    with tempfile.TemporaryDirectory(prefix="soak-") as room:
        Soak(program, room).run()
    print(f"{tally['passed']} passed, {tally['failed']} failed")
    return 1 if tally["failed"] else 0


if __name__ == "__main__":
    if len(sys.argv) != 2:
        sys.exit(__doc__)
    sys.exit(main(sys.argv[1]))
