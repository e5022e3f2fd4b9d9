#!/usr/bin/env python3
"""office.py: executes the script on standard input as a plain Python program does, without proof.

bench/replay.sh times the program against it. It knows the lines of the timed scripts (device, list,
register, install, connect, start, round, bytes, tick, meter and intervals) and their outputs. It
handles counters of a fixed scale, and lists of counters that are too far apart for one read of two.
"""
import re
import struct
import sys
from dataclasses import dataclass, field

NAME = re.compile(r"[A-Za-z][A-Za-z0-9_-]{0,15}\Z")
QUARTER = 900
MOST_QUARTERS = 3000
MOST_TOTAL = 4 * 10**18
TURN = 2**32


class Refused(Exception):
    """A refused line, which changes nothing; its argument is the number to print."""


@dataclass
class Poll:
    number: int
    of: int
    device: "Device"
    function: int
    address: int
    count: int
    due: int


@dataclass
class Device:
    unit: int
    timeout: int
    window: int
    registers: list = field(default_factory=list)
    reads: list = field(default_factory=list)
    is_connected: bool = False
    next_id: int = 0
    polls: dict = field(default_factory=dict)
    stream: bytes = b""


@dataclass
class Meter:
    raw: int
    sf: int
    ceiling: int
    turn: int
    last_at: int
    total: int = 0
    entries: list = field(default_factory=list)
    quarters: dict = field(default_factory=dict)


@dataclass
class Register:
    function: int
    address: int
    sf: int
    meter: str = ""


def number(word):
    if not word.isascii() or not word.isdigit() or not 1 <= len(word) <= 19:
        raise ValueError(word)
    found = int(word)
    if found >= 2**63:
        raise ValueError(word)
    return found


def known(name, among, why):
    if name not in among:
        raise Refused(why)
    return among[name]


def check(holds, why):
    if not holds:
        raise Refused(why)


class Office:
    def __init__(self):
        self.devices, self.registers, self.meters = {}, {}, {}
        self.latest, self.polls, self.pending, self.started = 0, {}, {}, 0

    def reach(self, at):
        """Times out the polls whose deadline has passed at this time."""
        check(at >= self.latest, 3)
        over = [poll for poll in self.pending.values() if poll.due <= at]
        return [self.settle(poll, "silent") for poll in over]

    def settle(self, poll, outcome):
        del poll.device.polls[poll.of], self.pending[poll.number]
        self.polls[poll.number] = outcome
        return f"poll {poll.number} {outcome}"

    def device(self, name, unit, timeout, window):
        check(NAME.match(name) and unit <= 247 and 1 <= timeout <= 60 and 1 <= window <= 16, 12)
        check(name not in self.devices, 2)
        self.devices[name] = Device(unit, timeout, window)

    def put_list(self, name, text):
        rows = [row.split(",") for row in text.decode("ascii").split("\n")[1:] if row]
        reads = sorted((number(function), number(address)) for _, function, _, address, _, _ in rows)
        known(name, self.devices, 1).reads = reads

    def register(self, name, device, function, address, sf):
        check(NAME.match(name) and function in (3, 4) and address < 65535, 12)
        owner = known(device, self.devices, 1)
        check(name not in self.registers, 2)
        self.registers[name] = Register(function, address, sf)
        owner.registers.append(self.registers[name])

    def install(self, at, register, meter, raw, sf, ceiling, turn=TURN):
        check(NAME.match(meter) and raw < turn and 65536 <= turn <= TURN, 12)
        check(-3 <= sf <= 3, 4)
        counter = known(register, self.registers, 1)
        check(meter not in self.meters and not counter.meter, 2)
        self.meters[meter] = Meter(raw, sf, ceiling, turn, at, entries=[(at, raw, 0, 0)])
        counter.meter = meter

    def connect(self, name):
        device = known(name, self.devices, 1)
        check(not device.is_connected, 10)
        device.is_connected, device.next_id, device.stream = True, 0, b""

    def start(self, at, name, function, address, count):
        check(function in (3, 4) and 1 <= count <= 125 and address + count <= 65536, 12)
        device = known(name, self.devices, 1)
        check(device.is_connected and len(device.polls) < device.window, 10)
        return f"started {self.started + 1} 1 1 {self.ask(at, device, function, address, count).hex()}"

    def round(self, at, name, first):
        device = known(name, self.devices, 1)
        check(device.reads, 1)
        check(device.is_connected and len(device.polls) < device.window, 10)
        check(first < len(device.reads), 12)
        reads = device.reads[first : first + device.window - len(device.polls)]
        begin = self.started + 1
        frames = b"".join(self.ask(at, device, function, address, 2) for function, address in reads)
        return f"started {begin} {len(reads)} {len(device.reads)} {frames.hex()}"

    def ask(self, at, device, function, address, count):
        """Returns the frame of one more poll."""
        of, device.next_id = device.next_id, (device.next_id + 1) % 65536
        self.started += 1
        poll = Poll(self.started, of, device, function, address, count, at + device.timeout)
        device.polls[of] = self.pending[self.started] = poll
        self.polls[self.started] = "pending"
        return struct.pack(">HHHBBHH", of, 0, 6, device.unit, function, address, count)

    def take(self, at, name, more):
        device = known(name, self.devices, 1)
        check(device.is_connected, 10)
        notes, stream = [], device.stream + more
        while len(stream) >= 6:
            end = 6 + int.from_bytes(stream[4:6], "big")
            if len(stream) < end:
                break
            frame, stream = stream[:end], stream[end:]
            notes += self.answer(at, device, frame)
        device.stream = stream
        return notes

    def answer(self, at, device, frame):
        of = int.from_bytes(frame[:2], "big")
        poll = device.polls.get(of)
        if poll is None or frame[6] != device.unit:
            return []
        if frame[7] == poll.function | 128:
            return [self.settle(poll, f"exception {frame[8]}")]
        if frame[7] != poll.function or frame[8] != 2 * poll.count or len(frame) != 9 + frame[8]:
            return [self.settle(poll, "malformed 1")]
        notes = [self.settle(poll, "answered")]
        for counter in device.registers:
            first = 9 + 2 * (counter.address - poll.address)
            is_read = counter.function == poll.function and 9 <= first and first + 4 <= len(frame)
            if is_read and counter.meter:
                raw = int.from_bytes(frame[first : first + 4], "big")
                notes.append(self.read(at, counter.meter, raw, counter.sf))
        return notes

    def read(self, at, name, raw, sf):
        """Records a reading of the counter, or rejects it."""
        meter = self.meters[name]
        rolls = 1 if raw < meter.raw else 0
        step = (raw + rolls * meter.turn - meter.raw) * 10 ** (sf + 3)
        seconds = at - meter.last_at
        causes = [
            (raw == 0, 1),
            (sf != meter.sf, 2),
            (seconds <= 0, 3),
            ((at - 1) // QUARTER - meter.last_at // QUARTER >= MOST_QUARTERS, 4),
            (meter.ceiling * seconds * 1000 >= meter.turn * 10 ** (sf + 3) * 3600, 5),
            (step * 3600 > meter.ceiling * seconds * 1000, 6),
            (meter.total + step > MOST_TOTAL, 7),
            (raw >= meter.turn, 8),
        ]
        for is_so, cause in causes:
            if is_so:
                return f"held {name} {raw} cause {cause}"
        self.spread(meter, at, step)
        meter.entries.append((at, raw, rolls, step))
        meter.raw, meter.last_at, meter.total = raw, at, meter.total + step
        return f"reading {name} {raw} rolls {rolls} step {step}"

    def spread(self, meter, at, step):
        """Adds the step's energy to its quarter hours.

        Each quarter hour gets the energy since the step began, rounded down, less what was
        already added."""
        begin, given = meter.last_at, 0
        for start in range(begin - begin % QUARTER, at, QUARTER):
            so_far = step * (min(start + QUARTER, at) - begin) // (at - begin)
            meter.quarters[start] = meter.quarters.get(start, 0) + so_far - given
            given = so_far

    def tell(self, name):
        meter = known(name, self.meters, 1)
        last = f"last {meter.raw} sf {meter.sf} at {meter.last_at}"
        return f"meter {name} {last} total {meter.total} open"

    def intervals(self, name):
        quarters = known(name, self.meters, 1).quarters
        rows = [f"{start} {quarters[start]}" for start in sorted(quarters)]
        return rows + [f"end {len(rows)}"]

    def feed(self, at, words):
        notes, last = self.reach(at), "ok"
        match words:
            case ["device", name, unit, timeout, window]:
                self.device(name, number(unit), number(timeout), number(window))
            case ["list", name, text]:
                self.put_list(name, bytes.fromhex(text))
            case ["register", name, device, function, address, sf]:
                self.register(name, device, number(function), number(address), int(sf))
            case ["install", register, meter, raw, sf, *rest]:
                self.install(at, register, meter, number(raw), int(sf), *map(number, rest))
            case ["connect", name]:
                self.connect(name)
            case ["start", name, function, address, count]:
                last = self.start(at, name, number(function), number(address), number(count))
            case ["round", name, first]:
                last = self.round(at, name, number(first))
            case ["bytes", name, more]:
                notes += self.take(at, name, bytes.fromhex(more))
            case ["tick"]:
                pass
            case _:
                raise ValueError(words)
        self.latest = at
        return notes + [last]

    def carry_out(self, line):
        match line.split(" "):
            case ["meter", name]:
                return [self.tell(name)]
            case ["intervals", name]:
                return self.intervals(name)
            case [at, *words]:
                return self.feed(number(at), words)


def main():
    office = Office()
    for place, line in enumerate(sys.stdin.read().split("\n"), 1):
        if not line or line.startswith("#"):
            continue
        try:
            told = office.carry_out(line)
        except Refused as why:
            told = [f"refused {why}"]
        except (ValueError, TypeError):
            sys.stdout.write(f"bad line {place}\n")
            sys.exit(1)
        sys.stdout.write("\n".join(told) + "\n")


main()
