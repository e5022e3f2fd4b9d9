"""plain_office.py DB DEVICE PORT: runs a round as a plain Python program does it, without proof.

It uses the same tables. bench/round.sh times the program beside it. It gives the same guarantees: a
poll is recorded before it is sent, and its outcome and readings are recorded in one transaction
before the next one starts. The log is synced each time (synchronous FULL). It handles registers of
a fixed scale, and lists of counters that are too far apart for one read of two.
"""
import socket
import sqlite3
import struct
import sys
import time

QUARTER = 900
MOST_QUARTERS = 3000
MOST_TOTAL = 4 * 10**18


def shares(start, till, energy):
    """Returns the quarter hours of a step and their energy, which add up to the step's."""
    first = start // QUARTER * QUARTER
    told = 0
    for at in range(first, till, QUARTER):
        upto = energy * (min(at + QUARTER, till) - start) // (till - start)
        yield at, upto - told
        told = upto


def cause_of(meter, turn, moment, raw):
    """Returns the cause for which a reading is rejected, or 0."""
    _, ceiling, last_at, last, sf, total = meter
    unit, gone = 10 ** (sf + 3), (raw - last) % turn
    if raw == 0:
        return 1
    if moment <= last_at:
        return 3
    if (moment - 1) // QUARTER - last_at // QUARTER + 1 > MOST_QUARTERS:
        return 4
    if (turn - 1) * unit * 18 <= ceiling * (moment - last_at) * 5:
        return 5
    if gone > 0 and (gone - 1) * unit * 18 > ceiling * (moment - last_at) * 5:
        return 6
    return 7 if total + gone * unit > MOST_TOTAL else 0


class Office:
    def __init__(self, path, device):
        self.db = sqlite3.connect(path, isolation_level=None)
        self.db.execute("PRAGMA journal_mode = WAL")
        self.db.execute("PRAGMA synchronous = FULL")
        self.db.execute("PRAGMA foreign_keys = ON")
        self.device = device
        self.unit, self.timeout, self.window = self.one('SELECT unit, timeout, "window" FROM devices WHERE name = ?', device)
        reads = "SELECT function, address FROM points WHERE device = ? ORDER BY function, area, address"
        self.plan = self.db.execute(reads, (device,)).fetchall()
        meters = """SELECT function, address, meter FROM registers JOIN installations ON register = name
            WHERE device = ? AND ended = 0 ORDER BY registers.place"""
        self.meters = {}
        for function, address, meter in self.db.execute(meters, (device,)):
            self.meters.setdefault((function, address), []).append(meter)
        self.next_poll = self.one("SELECT coalesce(max(poll), 0) + 1 FROM polls")[0]
        self.next_hold = self.one("SELECT coalesce(max(place), 0) + 1 FROM holds")[0]
        self.pending = {}
        waiting = self.db.execute("SELECT poll FROM polls WHERE poll NOT IN (SELECT poll FROM outcomes)").fetchall()
        if waiting:
            self.db.execute("BEGIN")
            self.db.executemany("INSERT INTO outcomes VALUES (?, ?, 5, 4)", [(poll, int(time.time())) for poll, in waiting])
            self.db.execute("COMMIT")

    def one(self, query, *values):
        return self.db.execute(query, values).fetchone()

    def start(self, reads, first):
        """Records polls of reads, and returns their frames."""
        frames, now = b"", int(time.time())
        self.db.execute("BEGIN")
        for tid, (function, address) in enumerate(reads, first):
            row = (self.next_poll, self.device, self.unit, now, tid % 65536, function, address, 2)
            self.db.execute("INSERT INTO polls VALUES (?, ?, ?, ?, ?, ?, ?, ?)", row)
            self.pending[tid % 65536] = (self.next_poll, function, address)
            frames += struct.pack(">HHHBBHH", tid % 65536, 0, 6, self.unit, function, address, 2)
            self.next_poll += 1
        self.db.execute("COMMIT")
        print(f"started {self.next_poll - len(reads)} {len(reads)} {len(self.plan)} {frames.hex()}")
        return frames

    def settle(self, frames):
        """Records the outcomes of polls, and their readings."""
        now, told = int(time.time()), []
        self.db.execute("BEGIN")
        for tid, unit, pdu in frames:
            if tid not in self.pending:
                continue
            poll, function, address = self.pending.pop(tid)
            outcome, code = (1, 0)
            if unit != self.unit:
                outcome, code = 4, 5
            elif len(pdu) == 2 and pdu[0] == function | 0x80:
                outcome, code = 2, pdu[1]
            elif pdu[0] != function or len(pdu) != 6 or pdu[1] != 4:
                outcome, code = 4, 2
            self.db.execute("INSERT INTO outcomes VALUES (?, ?, ?, ?)", (poll, now, outcome, code))
            told.append(f"poll {poll} answered" if outcome == 1 else f"poll {poll} {outcome} {code}")
            if outcome == 1:
                raw = int.from_bytes(pdu[2:6], "big")
                told += [self.book(poll, name, now, raw) for name in self.meters.get((function, address), ())]
        self.db.execute("COMMIT")
        print("\n".join([*told, "ok"]))

    def book(self, poll, name, now, raw):
        columns = "meter, ceiling, last_moment, last_raw, last_sf, total"
        meter = self.one(f"SELECT {columns} FROM installations WHERE meter = ?", name)
        _, _, last_at, last, sf, total = meter
        turn = self.one('SELECT "range" FROM ranges WHERE meter = ?', name)[0]
        cause = cause_of(meter, turn, now, raw)
        if cause:
            self.db.execute("INSERT INTO holds VALUES (?, ?, ?, ?, ?, ?, ?)", (self.next_hold, name, poll, now, raw, sf, cause))
            self.next_hold += 1
            return f"held {name} {raw} cause {cause}"
        step, place = (raw - last) % turn * 10 ** (sf + 3), self.one("SELECT max(place) + 1 FROM entries WHERE meter = ?", name)[0]
        self.db.execute("INSERT INTO entries VALUES (?, ?, 2, ?, ?, ?, 0, ?)", (name, place, now, raw, int(raw < last), sf))
        self.db.execute("UPDATE installations SET last_moment = ?, last_raw = ?, total = ? WHERE meter = ?", (now, raw, total + step, name))
        adding = "INSERT INTO intervals VALUES (?, ?, ?) ON CONFLICT DO UPDATE SET mwh = mwh + excluded.mwh"
        self.db.executemany(adding, [(name, at, energy) for at, energy in shares(last_at, now, step)])
        return f"reading {name} {raw} rolls {int(raw < last)} step {step}"


def whole_frames(stream):
    """Returns the complete frames, and the rest."""
    frames = []
    while len(stream) >= 6 and len(stream) >= 6 + (length := int.from_bytes(stream[4:6], "big")):
        frames.append((int.from_bytes(stream[:2], "big"), stream[6], stream[7:6 + length]))
        stream = stream[6 + length:]
    return frames, stream


def main():
    office = Office(sys.argv[1], sys.argv[2])
    link = socket.create_connection(("127.0.0.1", int(sys.argv[3])), timeout=office.timeout)
    link.setsockopt(socket.IPPROTO_TCP, socket.TCP_NODELAY, 1)
    print("ok")
    at, held = 0, b""
    while at < len(office.plan) or office.pending:
        reads = office.plan[at:at + office.window - len(office.pending)]
        if reads:
            link.sendall(office.start(reads, at))
            at += len(reads)
        got = link.recv(260)
        if not got:
            sys.exit("plain_office.py: the device has gone")
        frames, held = whole_frames(held + got)
        if frames:
            office.settle(frames)
    link.close()
    print("ok")


if __name__ == "__main__":
    main()
