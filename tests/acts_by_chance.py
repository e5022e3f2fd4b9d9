#!/usr/bin/env python3
"""acts_by_chance.py: writes the golden tests of tests/scripts/chance again.

Each test is a script of 100 random acts at the meters of two registers: readings of the device,
readings by hand, resets, rescales, replacements, closings, installations and voids. After each act
the script queries every meter and its quarter hours. This script computes the responses from the
rules in docs/SCRIPT.md alone: which acts are accepted, and the rows of a meter from its valid
entries.
"""
import pathlib

DATA = pathlib.Path(__file__).resolve().parent / "scripts" / "chance"
CASES = [
    ("first_hundred_acts", 128, "# A hundred acts by chance: after each, every meter has the rows of its entries"),
    ("second_hundred_acts", 46, "# Another hundred acts by chance: after each, every meter has the rows of its entries"),
]
RANGE, CEILING, MOST_ROWS = 65536, 100000, 3000
SETUP = ["0 device inv 1 60 16", "0 register r0 inv 3 0 @2", "0 register r1 inv 3 10 @12", "0 connect inv"]
ACTS = ["read"] * 6 + ["manual"] * 2 + ["reset", "rescale", "exchange", "close"] + ["install"] * 2 + ["void"] * 2


class Chances:
    """Random numbers, the same in each run."""

    def __init__(self, seed):
        self.state = seed

    def below(self, limit):
        self.state = (self.state * 6364136223846793005 + 1442695040888963407) % 2**64
        return (self.state >> 33) % limit


def unit_of(sf):
    """Returns the milliwatt-hours of a count."""
    return 10000 if sf else 1000


class Meter:
    def __init__(self, name):
        self.name, self.entries, self.closed = name, [], False

    def enter(self, kind, at, raw, rolls=0, after=0, sf=0):
        self.entries.append({"kind": kind, "at": at, "raw": raw, "rolls": rolls, "after": after, "sf": sf, "stands": True})

    def fold(self, count=None):
        """Returns the time, counter and scale of the last valid entry, the energy, and the energy
        by quarter hour."""
        at = raw = sf = total = 0
        rows = {}
        for entry in self.entries[:count]:
            if not entry["stands"]:
                continue
            if entry["kind"] != "opening":
                rolls = int(entry["raw"] < raw) if entry["kind"] == "reading" else entry["rolls"]
                energy = (entry["raw"] + rolls * RANGE - raw) * unit_of(sf)
                total += energy
                before = 0
                for start in range(at // 900 * 900, entry["at"], 900):
                    reached = energy * (min(entry["at"], start + 900) - at) // (entry["at"] - at)
                    rows[start] = rows.get(start, 0) + reached - before
                    before = reached
            at, raw = entry["at"], entry["raw"]
            if entry["kind"] in ("opening", "change"):
                raw, sf = entry["after"], entry["sf"]
        return at, raw, sf, total, rows


def is_long(since, at):
    return (at + 899) // 900 - since // 900 > MOST_ROWS


def can_count(unit, seconds, counts):
    """Returns whether so many counts are possible in so many seconds.

    5 mWh are 18 Ws; the first count may have been due already."""
    return max(counts - 1, 0) * unit * 18 <= CEILING * seconds * 5


def cause_of(last, at, raw, sf):
    """Returns the cause for which a reading is rejected, or 0."""
    since, before, scale = last[:3]
    unit = unit_of(scale)
    causes = [
        (1, raw == 0),
        (2, sf != scale),
        (8, raw >= RANGE),
        (3, at <= since),
        (4, is_long(since, at)),
        (5, can_count(unit, at - since, RANGE)),
        (6, not can_count(unit, at - since, (raw - before) % RANGE)),
    ]
    return next((cause for cause, applies in causes if applies), 0)


class Office:
    def __init__(self):
        self.meters, self.latest, self.polls = [], {0: None, 1: None}, 0

    def install(self, register, at, after, sf):
        meter = Meter(f"m{len(self.meters)}")
        meter.enter("opening", at, 0, after=after, sf=sf)
        self.meters.append(meter)
        self.latest[register] = meter

    def refusal(self, register, at, raw, rolls):
        """Returns the number with which an entry by hand is refused, or 0."""
        meter = self.latest[register]
        if meter is None:
            return 1
        if meter.closed:
            return 9
        since, before = meter.fold()[:2]
        reasons = [(5, raw + rolls * RANGE < before), (6, at <= since), (7, is_long(since, at))]
        return next((number for number, applies in reasons if applies), 0)

    def void(self, meter, place):
        if meter is None or place > len(meter.entries):
            return 1
        entry = meter.entries[place - 1]
        later = [it for it in meter.entries[place:] if it["stands"]]
        if entry["kind"] != "reading" or not entry["stands"] or later and later[0]["kind"] != "reading":
            return 16
        before = meter.fold(place - 1)
        if later and cause_of(before, later[0]["at"], later[0]["raw"], before[2]):
            return 17
        entry["stands"] = False
        return 0

    def read(self, register, at, raw, sf):
        """Returns the lines of a poll and its response, and their output."""
        self.polls += 1
        transaction = f"{self.polls - 1:04x}"
        lines = [f"{at} start inv 3 {register}0 3", f"{at} bytes inv {transaction}00000009010306{raw:08x}{sf:04x}"]
        answers = [f"started {self.polls} 1 1 {transaction}000000060103{register * 10:04x}0003", f"poll {self.polls} answered"]
        meter = self.latest[register]
        if meter and not meter.closed:
            last = meter.fold()
            cause = cause_of(last, at, raw, sf)
            if cause:
                answers.append(f"held {meter.name} {raw} cause {cause}")
            else:
                step = (raw - last[1]) % RANGE * unit_of(last[2])
                answers.append(f"reading {meter.name} {raw} rolls {int(raw < last[1])} step {step}")
                meter.enter("reading", at, raw)
        return lines, answers + ["ok"]

    def act(self, act, register, at, place, raw, rolls, after, sf):
        """Returns the lines of an act, and their output."""
        if act == "read":
            return self.read(register, at, raw, sf)
        meter, new = self.latest[register], f"m{len(self.meters)}"
        installed = f"{new} {after} {sf} {CEILING} {RANGE}"
        if act == "void":
            meter = meter or next(iter(self.meters), None)
            line, why = f"void {meter.name if meter else 'm0'} {place}", self.void(meter, place)
        elif act == "install":
            line, why = f"install r{register} {installed}", 2 if meter and not meter.closed else 0
        elif act == "exchange":
            line, why = f"exchange r{register} {raw} {rolls} {installed}", self.refusal(register, at, raw, rolls)
        elif act in ("reset", "rescale"):
            line, why = f"{act} r{register} {raw} {after}" + f" {sf}" * (act == "rescale"), self.refusal(register, at, raw, 0)
        else:
            line, why = f"{act} r{register} {raw} {rolls}", self.refusal(register, at, raw, rolls)
        if not why:
            self.enter(act, meter, register, at, raw, rolls, after, sf)
        return [f"{at} {line}"], [f"refused {why}" if why else "ok"]

    def enter(self, act, meter, register, at, raw, rolls, after, sf):
        if act in ("reset", "rescale"):
            meter.enter("change", at, raw, after=after, sf=meter.fold()[2] if act == "reset" else sf)
        elif act == "manual":
            meter.enter("manual", at, raw, rolls)
        elif act in ("close", "exchange"):
            meter.enter("closing", at, raw, rolls)
            meter.closed = True
        if act in ("install", "exchange"):
            self.install(register, at, after, sf)

    def questions(self):
        lines, answers = [], []
        for meter in self.meters:
            at, raw, sf, total, rows = meter.fold()
            lines += [f"meter {meter.name}", f"intervals {meter.name}"]
            answers.append(f"meter {meter.name} last {raw} sf {sf} at {at} total {total} {'ended' if meter.closed else 'open'}")
            answers += [f"{start} {energy}" for start, energy in rows.items()] + [f"end {len(rows)}"]
        return lines, answers


def play(seed):
    """Returns the lines of a script, and its output."""
    chances, office, at = Chances(seed), Office(), 0
    lines, answers = list(SETUP), ["ok"] * len(SETUP)
    for _ in range(100):
        register = chances.below(2)
        meter = office.latest[register] or next(iter(office.meters), None)
        before, scale = meter.fold()[1:3] if meter else (0, 0)
        act = ACTS[chances.below(16)]
        raw = chances.below(RANGE) if chances.below(8) == 0 else (before + chances.below(900)) % RANGE
        place, after, sf = chances.below(6) + 1, RANGE - 1 - chances.below(2000), scale
        if act in ("rescale", "exchange", "install"):
            sf = chances.below(2)
        elif act == "read":
            sf ^= int(chances.below(16) == 0)
        at += chances.below(1200)
        for more, told in (office.act(act, register, at, place, raw, int(raw < before), after, sf), office.questions()):
            lines += more
            answers += told
    return lines, answers


def main():
    for name, seed, shows in CASES:
        lines, answers = play(seed)
        (DATA / f"{name}.script").write_text("\n".join([shows, *lines]) + "\n")
        (DATA / f"{name}.out").write_text("\n".join(answers) + "\n")


if __name__ == "__main__":
    main()
