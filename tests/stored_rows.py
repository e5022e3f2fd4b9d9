"""The scripts, rows and responses of tests/stores.py.

All numbers are written by hand: energies by the definitions of docs/SCRIPT.md."""
ZONE = "CET-1CEST,M3.5.0,M10.5.0/3"
TABLES = "meta devices points registers installations entries polls holds outcomes intervals replies ranges voids".split()
LIST = "name,function,area,address,type,scale\nWh,3,0,40094,acc32,Wh_SF\nWh_SF,3,0,40096,sunssf,\nMn,4,1,40004,string16,\n"
SHORTER_LIST = "name,function,area,address,type,scale\nW,3,0,40083,int16,-1\n"


def read(tid, at, raw, sf=0):
    """Returns the lines of a poll, whose response has the counter and the scale factor."""
    return f"{at - 1} start inv 3 40094 3\n{at} bytes inv {tid:04x}00000009010306{raw:08x}{sf & 0xffff:04x}\n"


def begun(meter, at, raw, register="main", ceiling=100000, counter_range=100000):
    """Returns the lines of a connected device, its register and a meter there."""
    return f"""{at} device inv 1 5 2
{at} register {register} inv 3 40094 @40096
{at} install {register} {meter} {raw} 0 {ceiling} {counter_range}
{at} connect inv
"""


def at(shift, script):
    """Returns the same lines, so many seconds later."""
    parted = (it.split(" ", 1) for it in script.splitlines())
    return "".join(f"{int(moment) + shift} {rest}\n" for moment, rest in parted)


# The meter m1 reads 5200 Wh at 1900; then 5100 at another scale, which is rejected.
ONE_READING = f"""1000 device inv 1 5 2
1000 list inv {LIST.encode().hex()}
1000 register main inv 3 40094 @40096
1000 install main m1 5000 0 100000 100000
1000 connect inv
1898 start inv 3 40094 3
1898 start inv 3 40094 3
1900 bytes inv 000000000009010306000014500000
1901 bytes inv 000100000009010306000013ec0001
"""
CLOSED = ONE_READING + "2000 close main 5200 0\n"
# The counter rolls over from 99,990 to 10. It is set from 20 to 500 at the scale 1, and counts on
# to 502: 20, 10 and 20 Wh.
TURNED = begun("m1", 900, 99990) + read(0, 1800, 10) + "2700 rescale main 20 500 1\n" + read(1, 3600, 502, 1)
# Two registers of a device, whose counters show 0 in one response.
HELD_TWICE = begun("m1", 1000, 5000) + """1000 register roof inv 3 40094 @40096
1000 install roof m2 5000 0 100000
1898 start inv 3 40094 3
1900 bytes inv 000000000009010306000000000000
"""
EMPTY_LIST = LIST.splitlines()[0].encode().hex() + "0a"
M1, ENTRIES = "installations WHERE meter = 'm1'", "entries WHERE meter = 'm1'"
FIRST_HOUR = [("intervals WHERE meter = 'm1' AND start = 900 AND mwh = 177777", 1), ("intervals WHERE meter = 'm1' AND start = 1800 AND mwh = 22223", 1)]
# A reading of 5300 at 2800. After a void of 5200 its 300 Wh are of 1800 seconds, so 133333, 150000
# and 16667 mWh by quarter hours.
LATER_READING = read(2, 2800, 5300)

BOOKED = [
    ("one reading", ONE_READING, [
        ("devices WHERE place = 1 AND name = 'inv' AND unit = 1 AND timeout = 5 AND \"window\" = 2", 1),
        ("points WHERE device = 'inv' AND place = 1 AND name = 'Wh' AND function = 3 AND area = 0 AND address = 40094 AND kind = 'acc32' AND scale = 'Wh_SF'", 1),
        ("points WHERE device = 'inv' AND place = 2 AND name = 'Wh_SF' AND address = 40096 AND kind = 'sunssf' AND scale = ''", 1),
        ("points WHERE device = 'inv' AND place = 3 AND name = 'Mn' AND function = 4 AND area = 1 AND address = 40004 AND kind = 'string16' AND scale = ''", 1),
        ("registers WHERE place = 1 AND name = 'main' AND device = 'inv' AND function = 3 AND address = 40094 AND scale_kind = 1 AND scale = 40096", 1),
        (f"{M1} AND place = 1 AND register = 'main' AND ceiling = 100000 AND ended = 0 AND last_moment = 1900 AND last_raw = 5200 AND last_sf = 0 AND total = 200000", 1),
        ("ranges WHERE meter = 'm1' AND \"range\" = 100000", 1),
        (f"{ENTRIES} AND place = 1 AND kind = 1 AND moment = 1000 AND raw = 5000 AND rolls = 0 AND \"after\" = 0 AND sf = 0", 1),
        (f"{ENTRIES} AND place = 2 AND kind = 2 AND moment = 1900 AND raw = 5200 AND rolls = 0 AND \"after\" = 0 AND sf = 0", 1),
        *FIRST_HOUR,
        ("polls WHERE poll = 2 AND device = 'inv' AND unit = 1 AND started = 1898 AND tid = 1 AND function = 3 AND address = 40094 AND count = 3", 1),
        ("outcomes WHERE poll = 1 AND moment = 1900 AND outcome = 1 AND code = 0", 1),
        ("holds WHERE place = 1 AND meter = 'm1' AND poll = 2 AND moment = 1901 AND raw = 5100 AND sf = 1 AND cause = 2", 1),
        ("meta WHERE version = 3 AND zone = 'UTC0'", 1),
        ("points", 3), ("entries", 2), ("intervals", 2), ("polls", 2), ("outcomes", 2), ("holds", 1), ("voids", 0),
    ]),
    ("an exchange and a shorter list", f"{ONE_READING}2800 exchange main 5300 0 m2 0 0 100000 100000\n2800 list inv {SHORTER_LIST.encode().hex()}\n", [
        ("intervals WHERE meter = 'm1' AND start = 1800 AND mwh = 111111", 1),
        ("intervals WHERE meter = 'm1' AND start = 2700 AND mwh = 11112", 1),
        (f"{M1} AND ended = 1 AND last_moment = 2800 AND last_raw = 5300 AND total = 300000", 1),
        ("installations WHERE place = 2 AND meter = 'm2' AND ended = 0 AND last_moment = 2800 AND last_raw = 0 AND total = 0", 1),
        (f"{ENTRIES} AND place = 3 AND kind = 4 AND moment = 2800 AND raw = 5300", 1),
        ("points WHERE device = 'inv' AND place = 1 AND name = 'W' AND kind = 'int16' AND scale = '-1'", 1),
        ("points", 1),
    ]),
    ("two devices with a list each", f"{ONE_READING}2800 device pv 3 60 16\n2800 register roof pv 4 65534 -3\n2800 list pv {SHORTER_LIST.encode().hex()}\n2800 list inv {EMPTY_LIST}\n", [
        ("devices WHERE place = 2 AND name = 'pv' AND unit = 3 AND timeout = 60 AND \"window\" = 16", 1),
        ("registers WHERE place = 2 AND name = 'roof' AND device = 'pv' AND function = 4 AND address = 65534 AND scale_kind = 0 AND scale = -3", 1),
        ("registers WHERE device = 'inv'", 1), ("points WHERE device = 'pv'", 1), ("points WHERE device = 'inv'", 0),
    ]),
    ("two readings of a response are held", HELD_TWICE, [
        ("holds WHERE place = 1 AND meter = 'm1' AND poll = 1 AND moment = 1900 AND raw = 0 AND sf = 0 AND cause = 1", 1),
        ("holds WHERE place = 2 AND meter = 'm2' AND poll = 1 AND moment = 1900 AND raw = 0 AND sf = 0 AND cause = 1", 1), ("holds", 2),
    ]),
    ("a counter turns over and is set", TURNED, [
        (f"{ENTRIES} AND place = 2 AND kind = 2 AND raw = 10 AND rolls = 1 AND sf = 0", 1),
        (f"{ENTRIES} AND place = 3 AND kind = 6 AND raw = 20 AND rolls = 0 AND \"after\" = 500 AND sf = 1", 1),
        (f"{ENTRIES} AND place = 4 AND kind = 2 AND raw = 502 AND rolls = 0 AND sf = 1", 1),
        (f"{M1} AND last_moment = 3600 AND last_raw = 502 AND last_sf = 1 AND total = 50000", 1),
        ("intervals WHERE meter = 'm1' AND start = 900 AND mwh = 20000", 1),
    ]),
    ("a void between readings", f"{ONE_READING}{LATER_READING}4000 void m1 2\n", [
        ("voids WHERE meter = 'm1' AND place = 2 AND moment = 4000", 1),
        (f"{ENTRIES} AND place = 2 AND kind = 2 AND moment = 1900 AND raw = 5200 AND rolls = 0", 1),
        (f"{ENTRIES} AND place = 3 AND kind = 2 AND moment = 2800 AND raw = 5300 AND rolls = 0", 1),
        (f"{M1} AND ended = 0 AND last_moment = 2800 AND last_raw = 5300 AND total = 300000", 1),
        ("intervals WHERE meter = 'm1' AND start = 900 AND mwh = 133333", 1),
        ("intervals WHERE meter = 'm1' AND start = 1800 AND mwh = 150000", 1),
        ("intervals WHERE meter = 'm1' AND start = 2700 AND mwh = 16667", 1),
        ("intervals", 3), ("entries", 3),
    ]),
    ("voids of two readings in a row, the later one first", f"{ONE_READING}{LATER_READING}{read(3, 3700, 5400)}4000 void m1 3\n4000 void m1 2\n", [
        (f"{ENTRIES} AND place = 4 AND kind = 2 AND moment = 3700 AND raw = 5400 AND rolls = 0", 1),
        (f"{M1} AND ended = 0 AND last_moment = 3700 AND last_raw = 5400 AND total = 400000", 1),
        ("voids WHERE meter = 'm1' AND place = 2 AND moment = 4000", 1),
        ("voids WHERE meter = 'm1' AND place = 3 AND moment = 4000", 1),
        ("intervals WHERE meter = 'm1' AND start = 900 AND mwh = 118518", 1),
        ("intervals WHERE meter = 'm1' AND start = 1800 AND mwh = 133333", 1),
        ("intervals WHERE meter = 'm1' AND start = 2700 AND mwh = 133334", 1),
        ("intervals WHERE meter = 'm1' AND start = 3600 AND mwh = 14815", 1),
        ("intervals", 4),
    ]),
    ("voids of the last two readings, the earlier one first", f"{ONE_READING}{LATER_READING}{read(3, 3700, 5400)}4000 void m1 3\n4000 void m1 4\n", [
        (f"{M1} AND ended = 0 AND last_moment = 1900 AND last_raw = 5200 AND total = 200000", 1), *FIRST_HOUR, ("intervals", 2),
    ]),
    ("a void of the only reading", f"{ONE_READING}2000 void m1 2\n", [
        (f"{M1} AND last_moment = 1000 AND last_raw = 5000 AND total = 0", 1), ("intervals", 0), ("entries", 2),
    ]),
    ("a reading after a void of the only one", f"{ONE_READING}2000 void m1 2\n{LATER_READING}", [
        (f"{M1} AND ended = 0 AND last_moment = 2800 AND last_raw = 5300 AND total = 300000", 1),
    ]),
    ("a void after which the next reading turns over", begun("m1", 900, 99990) + read(0, 1800, 10) + read(1, 2700, 20) + "4000 void m1 2\n", [
        (f"{ENTRIES} AND place = 2 AND raw = 10 AND rolls = 1", 1),
        (f"{ENTRIES} AND place = 3 AND raw = 20 AND rolls = 1", 1),
        (f"{M1} AND last_moment = 2700 AND last_raw = 20 AND total = 30000", 1),
        ("intervals WHERE meter = 'm1' AND start = 1800 AND mwh = 15000", 1),
    ]),
]

# Two devices with a register each. One has points, out of order. One poll was answered with an
# exception, and one is pending.
DEVICES = """INSERT INTO devices VALUES (1, 'inv', 3, 5, 1), (2, 'pv', 0, 60, 16);
INSERT INTO registers VALUES (1, 'main', 'inv', 3, 40094, 1, 40096), (2, 'roof', 'pv', 4, 8, 0, -3);
INSERT INTO points VALUES ('inv', 4, 'impsf', 3, 0, 40176, 'sunssf', ''), ('inv', 2, 'whsf', 3, 0, 40096, 'sunssf', '');
INSERT INTO points VALUES ('inv', 3, 'imp', 3, 0, 40168, 'acc32', 'impsf'), ('inv', 1, 'wh', 3, 0, 40094, 'acc32', 'whsf');
INSERT INTO polls VALUES (1, 'inv', 3, 1898, 1, 3, 40094, 3), (2, 'pv', 0, 1900, 7, 4, 8, 125);
INSERT INTO outcomes VALUES (1, 1900, 2, 11);
INSERT INTO replies VALUES ('desk', 7, x'6162', 'exchange', 1800);"""
# The meter m1 has a reading, a voided one, and a closing, 200 and 100 Wh. Then the meter m0 has a
# reading, 45 Wh. Another register has the meter m3, with a reading, 200 Wh.
METERS = """INSERT INTO devices VALUES (1, 'inv', 1, 5, 1);
INSERT INTO registers VALUES (1, 'main', 'inv', 3, 40094, 1, 40096), (2, 'roof', 'inv', 3, 40194, 1, 40096), (3, 'spare', 'inv', 3, 40294, 0, 0);
INSERT INTO installations VALUES (1, 'm1', 'main', 100000, 1, 2800, 5300, 0, 300000), (2, 'm0', 'main', 20000, 0, 3700, 45, 0, 45000);
INSERT INTO installations VALUES (3, 'm3', 'roof', 20000, 0, 1900, 200, 0, 200000);
INSERT INTO ranges VALUES ('m1', 4294967296), ('m0', 65536), ('m3', 65536);
INSERT INTO entries VALUES ('m3', 1, 1, 1000, 0, 0, 0, 0), ('m3', 2, 2, 1900, 200, 0, 0, 0);
INSERT INTO intervals VALUES ('m3', 900, 177777), ('m3', 1800, 22223);
INSERT INTO entries VALUES ('m1', 1, 1, 1000, 5000, 0, 0, 0), ('m1', 2, 2, 1900, 5200, 0, 0, 0), ('m1', 3, 2, 2000, 5250, 0, 0, 0);
INSERT INTO entries VALUES ('m1', 4, 4, 2800, 5300, 0, 0, 0), ('m0', 1, 1, 2800, 0, 0, 0, 0), ('m0', 2, 2, 3700, 45, 0, 0, 0);
INSERT INTO voids VALUES ('m1', 3, 2700);
INSERT INTO intervals VALUES ('m1', 900, 177777), ('m1', 1800, 111111), ('m1', 2700, 11112), ('m0', 2700, 40000), ('m0', 3600, 5000);"""
# The last event of a meter is in one of six tables; the latest timestamp is then that of the table.
LATEST = [
    ("installations VALUES (1, 'm1', 'main', 20000, 0, 2000, 5000, 0, 0); INSERT INTO entries VALUES ('m1', 1, 1, 2000, 5000, 0, 0, 0)", 2000),
    ("outcomes VALUES (2, 2001, 5, 4)", 2001),
    ("polls VALUES (3, 'pv', 0, 2002, 7, 4, 8, 125); INSERT INTO outcomes VALUES (3, 2002, 5, 4)", 2002),
    ("replies VALUES ('desk', 8, x'6162', 'exchange', 2003)", 2003),
    ("installations VALUES (1, 'm1', 'main', 20000, 0, 1000, 5000, 0, 0); INSERT INTO holds VALUES (1, 'm1', 1, 2004, 0, 0, 1)", 2004),
    (
        "installations VALUES (1, 'm1', 'main', 20000, 0, 1000, 5000, 0, 0); INSERT INTO voids VALUES ('m1', 2, 2005); "
        "INSERT INTO entries VALUES ('m1', 1, 1, 1000, 5000, 0, 0, 0), ('m1', 2, 2, 1900, 5200, 0, 0, 0)", 2005,
    ),
]
# Spans of the two devices, and whether a response has a reading of the register: its function, its
# counter and its scale.
SPANS = [
    ("inv", 3, 40094, 3, True), ("inv", 3, 40093, 4, True), ("inv", 3, 40094, 2, False), ("inv", 3, 40095, 3, False), ("inv", 4, 40094, 3, False),
    ("pv", 4, 8, 2, True), ("pv", 4, 8, 1, False), ("pv", 4, 9, 2, False), ("pv", 3, 8, 2, False),
]


def span_lines():
    """Returns polls of the spans, one after the other, whose responses are all zeros.

    A reading of 0 is rejected since it is not accumulated."""
    asked, unit_of, tids, meter_of = [], {"inv": 3, "pv": 0}, {"inv": 0, "pv": 0}, {"inv": "m1", "pv": "m2"}
    for poll, (device, function, address, count, is_read) in enumerate(SPANS, 3):
        begin, tid = 3000 + 10 * poll, tids[device]
        unit, held = f"{unit_of[device]:02x}", f"held {meter_of[device]} 0 cause 1\n"
        tids[device] += 1
        asked.append((f"{begin} start {device} {function} {address} {count}", f"started {poll} 1 1 {tid:04x}00000006{unit}{function:02x}{address:04x}{count:04x}"))
        answer = f"{tid:04x}0000{3 + 2 * count:04x}{unit}{function:02x}{2 * count:02x}{'0000' * count}"
        asked.append((f"{begin + 1} bytes {device} {answer}", f"poll {poll} answered\n{held if is_read else ''}ok"))
    return asked


ASKED = [
    ("devices and polls", DEVICES, [
        ("poll 1", "poll 1 exception 11"), ("poll 2", "poll 2 lost 4"), ("poll 3", "refused 1"),
        ("2000 connect inv", "ok"),
        ("2000 start inv 3 40094 3", "started 3 1 1 00000000000603039c9e0003"), ("2000 start inv 3 40094 3", "refused 10"),
        ("poll 3", "poll 3 pending"), ("2004 tick", "ok"), ("2005 tick", "poll 3 silent\nok"),
        ("2010 connect pv", "ok"), ("2010 start pv 4 8 125", "started 4 1 1 0000000000060004000800" + "7d"),
        ("2069 tick", "ok"), ("2070 tick", "poll 4 silent\nok"),
        ("2080 device inv 1 5 1", "refused 2"), ("2080 register roof inv 3 1 0", "refused 2"), ("days roof", "end 0"), ("days pv", "refused 1"),
    ]),
    ("sixteen polls of a window", DEVICES, [
        ("2000 connect pv", "ok"), *((f"2000 start pv 4 8 {count}", f"started {count + 2} 1 1 {count - 1:04x}00000006000400080{count:03x}") for count in range(1, 17)),
        ("2000 start pv 4 8 1", "refused 10"),
    ]),
    ("readings of spans", DEVICES, [
        ("3000 install main m1 0 0 100000", "ok"), ("3000 install roof m2 0 -3 100000", "ok"),
        ("3000 connect inv", "ok"), ("3000 connect pv", "ok"), *span_lines(),
    ]),
    ("the reads of a list", DEVICES, [
        ("2000 connect inv", "ok"), ("2000 round inv 0", "started 3 1 1 00000000000603039c9e0053"), ("2000 connect pv", "ok"), ("2000 round pv 0", "refused 1"),
    ]),
    ("no list: a counter for a scale", DEVICES + "UPDATE points SET scale = 'wh' WHERE place = 1;", [("2000 connect inv", "ok"), ("2000 round inv 0", "refused 13")]),
    ("no list: no such type", DEVICES + "UPDATE points SET kind = 'int17' WHERE place = 1;", [("2000 connect inv", "ok"), ("2000 round inv 0", "refused 13")]),
    ("two meters", METERS, [
        ("meter m1", "meter m1 last 5300 sf 0 at 2800 total 300000 ended"), ("meter m0", "meter m0 last 45 sf 0 at 3700 total 45000 open"), ("meter m2", "refused 1"),
        ("intervals m1", "900 177777\n1800 111111\n2700 11112\nend 3"), ("intervals m0", "2700 40000\n3600 5000\nend 2"), ("intervals m2", "refused 1"),
        ("days main", "1970-01-01   4                   345000\nend 1"), ("days roof", "1970-01-01   2                   200000\nend 1"), ("days spare", "end 0"),
        ("3800 void m1 1", "refused 16"), ("3800 void m1 2", "refused 16"), ("3800 void m1 3", "refused 16"), ("3800 void m1 4", "refused 16"), ("3800 void m1 5", "refused 1"),
        ("3800 manual spare 1 0", "refused 1"), ("3800 install roof m1 0 0 1", "refused 2"), ("3800 install main m3 0 0 1", "refused 2"), ("3800 manual main 44 0", "refused 5"),
        ("3800 manual main 46 0", "ok"), ("3800 void m0 2", "refused 16"), ("meter m0", "meter m0 last 46 sf 0 at 3800 total 46000 open"),
    ]),
    ("a void of the last reading", METERS, [
        ("3800 void m0 2", "ok"), ("meter m0", "meter m0 last 0 sf 0 at 2800 total 0 open"), ("intervals m0", "end 0"), ("days main", "1970-01-01   3                   300000\nend 1"),
    ]),
    ("a counter past its range", METERS + "UPDATE ranges SET \"range\" = 5299 WHERE meter = 'm1';", [("meter m1", "refused 13"), ("meter m0", "meter m0 last 45 sf 0 at 3700 total 45000 open")]),
    ("a row of an energy below zero", METERS + "UPDATE intervals SET mwh = -1 WHERE start = 1800;", [("intervals m1", "900 177777\nrefused 13"), ("intervals m0", "2700 40000\n3600 5000\nend 2")]),
    ("a scale factor of 4", METERS + "UPDATE installations SET last_sf = 4 WHERE meter = 'm1';", [("meter m1", "refused 13"), ("meter m3", "meter m3 last 200 sf 0 at 1900 total 200000 open")]),
    ("a range that none has", METERS + "UPDATE ranges SET \"range\" = 65535 WHERE meter = 'm3';", [("meter m3", "refused 13"), ("meter m0", "meter m0 last 45 sf 0 at 3700 total 45000 open")]),
    ("a fixed scale of 4", DEVICES + "UPDATE registers SET scale = 4 WHERE name = 'roof';", [("days roof", "refused 13"), ("days main", "end 0")]),
    ("a scale that one read doesn't reach with its counter", DEVICES + "UPDATE registers SET scale = 40219 WHERE name = 'main';", [("days main", "refused 13"), ("days roof", "end 0")]),
    ("the last one that it reaches", DEVICES + "UPDATE registers SET scale = 40218 WHERE name = 'main';", [("days main", "end 0")]),
    ("a window of 17", DEVICES + "UPDATE devices SET \"window\" = 17 WHERE name = 'pv';", [("2000 connect pv", "refused 13")]),
    ("a function that reads nothing", DEVICES + "UPDATE points SET function = 5;", [("2000 connect inv", "ok"), ("2000 round inv 0", "refused 13")]),
    ("a poll of 126 registers", DEVICES + "UPDATE polls SET count = 126 WHERE poll = 1;", [("poll 1", "refused 13"), ("poll 2", "poll 2 lost 4")]),
    ("a loss that there isn't", DEVICES + "INSERT INTO outcomes VALUES (2, 1903, 5, 5);", [("poll 2", "refused 13"), ("poll 1", "poll 1 exception 11")]),
    *((f"the latest moment is {moment}", f"{DEVICES}INSERT INTO {row};", [(f"{moment - 1} tick", "refused 3"), (f"{moment} tick", "ok")]) for row, moment in LATEST),
    ("a moment past the last", DEVICES + "UPDATE replies SET moment = 4102444801;", [("status", "refused 13")]),
    ("no moment yet", "", [("0 tick", "ok")]),
]

SERVED = [
    ("two devices", DEVICES, [
        ("/polls/1", (200, '{"code":11,"device":"inv","moment":1900,"outcome":2,"poll":1,"started":1898}')), ("/polls/9223372036854775807", (404, '{"refused":1}')),
        ("/polls/3", (404, '{"refused":1}')),
    ]),
    ("two meters", METERS, [
        ("/registers/main/meters", (200, "m1 1000 2800 5300 0 300000 ended\nm0 2800 3700 45 0 45000 open\nend 2\n")), ("/registers/roof/meters", (200, "m3 1000 1900 200 0 200000 open\nend 1\n")), ("/registers/spare/meters", (200, "end 0\n")),
        ("/meters/m1", (200, '{"at":2800,"ended":true,"last":5300,"meter":"m1","range":4294967296,"register":"main","sf":0,"total":"300000"}')),
        ("/meters/m1/entries/0", (200, "1 opening 1000 5000 0 0 0 stands\n2 reading 1900 5200 0 0 0 stands\n3 reading 2000 5250 0 0 0 void\n4 closing 2800 5300 0 0 0 stands\nend 4\n")),
        ("/meters/m1/entries/2", (200, "2 reading 1900 5200 0 0 0 stands\n3 reading 2000 5250 0 0 0 void\n4 closing 2800 5300 0 0 0 stands\nend 3\n")),
        ("/meters/m1/entries/4", (200, "4 closing 2800 5300 0 0 0 stands\nend 1\n")), ("/meters/m1/entries/5", (200, "end 0\n")),
        ("/meters/m1/voids", (200, "3 reading 2000\nend 1\n")),
        ("/meters/m1/intervals/0/9223372036854775807", (200, "900 177777\n1800 111111\n2700 11112\nend 3\n")),
        ("/meters/m1/intervals/1800/2700", (200, "1800 111111\nend 1\n")), ("/meters/m1/intervals/1801/2701", (200, "2700 11112\nend 1\n")),
        ("/meters/m1/intervals/3600/9223372036854775807", (200, "end 0\n")), ("/meters/m1/intervals/9223372036854775807/900", (200, "end 0\n")),
    ]),
]

SERVED.append(("an entry below zero", METERS + "UPDATE entries SET raw = -1 WHERE meter = 'm1' AND place = 2;", [
    ("/meters/m1/entries/1", (503, '{"refused":13}')), ("/meters/m0/entries/1", (200, "1 opening 2800 0 0 0 0 stands\n2 reading 3700 45 0 0 0 stands\nend 2\n")),
]))

# Changes of a new file, and the file's fault: 1 it is not an office's, 2 its zone is invalid.
OPENED = [
    ("UPDATE meta SET version = 3", None), ("UPDATE meta SET version = 0", 1), ("UPDATE meta SET version = 1", 1), ("UPDATE meta SET version = 2", 1),
    ("UPDATE meta SET version = 9", 1), ("UPDATE meta SET version = -3", 1), ("UPDATE meta SET zone = 'x'", 2), ("UPDATE meta SET version = 9, zone = 'x'", 1),
    ("DELETE FROM meta", 1), ("INSERT INTO meta VALUES (2, 3, 'UTC0')", 1), ("DROP TABLE voids", 1), ("DROP TABLE intervals", 1), ("CREATE TABLE notes (x)", 1),
]
VERSION_1 = """DROP TABLE voids; DROP TABLE ranges; UPDATE meta SET version = 1, zone = 'CET-1';
INSERT INTO devices VALUES (1, 'inv', 1, 5, 1); INSERT INTO registers VALUES (1, 'main', 'inv', 3, 40094, 1, 40096);
INSERT INTO installations VALUES (1, 'm1', 'main', 100000, 1, 2800, 5300, 0, 300000), (2, 'm2', 'main', 100000, 0, 2800, 0, 0, 0);
INSERT INTO entries VALUES ('m1', 1, 1, 1000, 5000, 0, 0, 0); INSERT INTO intervals VALUES ('m1', 900, 177777);"""
VERSION_2 = VERSION_1 + """CREATE TABLE ranges (meter TEXT NOT NULL PRIMARY KEY, "range" INTEGER NOT NULL, FOREIGN KEY (meter) REFERENCES installations (meter)) STRICT;
INSERT INTO ranges VALUES ('m1', 1000000); UPDATE meta SET version = 2;"""
VERSIONS = [("version 1", VERSION_1, [("m1", 4294967296), ("m2", 4294967296)]), ("version 2", VERSION_2, [("m1", 1000000)])]
VERSION_DAYS = "1970-01-01   1                   177777\nend 1\n"
BROUGHT = [
    ("SELECT count(*) FROM meta WHERE version = 3 AND zone = 'CET-1'", 1), ("SELECT count(*) FROM meta", 1), ("SELECT count(*) FROM voids", 0),
    ("SELECT count(*) FROM installations", 2), ("SELECT mwh FROM intervals WHERE meter = 'm1' AND start = 900", 177777),
    ("SELECT raw FROM entries WHERE meter = 'm1' AND place = 1", 5000), ("SELECT count(*) FROM sqlite_schema WHERE type = 'table'", 13),
]

# A meter with 4,999 readings by hand, of 1 Wh each.
MANY = """INSERT INTO devices VALUES (1, 'inv', 1, 5, 1); INSERT INTO registers VALUES (1, 'main', 'inv', 3, 40094, 0, 0);
INSERT INTO installations VALUES (1, 'm1', 'main', 1000000, 0, 5999, 5000, 0, 4999000); INSERT INTO ranges VALUES ('m1', 4294967296);
INSERT INTO entries VALUES ('m1', 1, 1, 1000, 1, 0, 0, 0);
WITH RECURSIVE it (n) AS (SELECT 2 UNION ALL SELECT n + 1 FROM it WHERE n < 5000) INSERT INTO entries SELECT 'm1', n, 3, n + 999, n, 0, 0, 0 FROM it;"""

# The start of the next file after ONE_READING, and the report about both.
ONE = "1 difference between files"
JOINED = [
    ("a meter that goes on", begun("m1", 1900, 5200), ["joined: fine"]),
    ("one that begins elsewhere", begun("m1", 1901, 5201), ["meter m1 begins in new.db at 1901 (1970-01-01 00:31:41 UTC) 5201 0, stands in old.db at 1900 (1970-01-01 00:31:40 UTC) 5200 0", ONE]),
    ("one that is missing", begun("m2", 1899, 0), [
        "meter m2 begins in new.db at 1899 (1970-01-01 00:31:39 UTC) 0 0, meter m1 stands at its register in old.db at 1900 (1970-01-01 00:31:40 UTC) 5200 0",
        "meter m1 is not in new.db, and is open in old.db", "2 differences between files"]),
    ("another register", begun("m1", 1900, 5200, register="far"), ["meter m1 register is far in new.db, and main in old.db", ONE]),
    ("another range", begun("m1", 1900, 5200, counter_range=65536), ["meter m1 range is 65536 in new.db, and 100000 in old.db", ONE]),
    ("another ceiling", begun("m1", 1900, 5200, ceiling=5), ["meter m1 ceiling is 5 in new.db, and 100000 in old.db", ONE]),
]

# One meter whose only reading was voided, and two polls, of which one is pending.
SEALED = """INSERT INTO devices VALUES (1, 'inv', 1, 5, 2); INSERT INTO registers VALUES (1, 'main', 'inv', 3, 40094, 1, 40096);
INSERT INTO installations VALUES (1, 'm1', 'main', 100000, 0, 1000, 5000, 0, 0); INSERT INTO ranges VALUES ('m1', 100000);
INSERT INTO entries VALUES ('m1', 1, 1, 1000, 5000, 0, 0, 0), ('m1', 2, 2, 1900, 5200, 0, 0, 0); INSERT INTO voids VALUES ('m1', 2, 4000);
INSERT INTO polls VALUES (1, 'inv', 1, 1898, 7, 3, 40094, 3), (2, 'inv', 1, 1898, 7, 3, 40094, 3); INSERT INTO outcomes VALUES (1, 1900, 1, 0);
INSERT INTO holds VALUES (1, 'm1', 1, 1901, 5100, 1, 2);"""
SEAL = """seal 3
zone UTC0
device inv unit 1
register main at inv function 3 address 40094 scale-address 40096
meter m1 number 1 at main range 100000 ceiling 100000 entries 2 sha256 af5a77563671b51a22879dc2764012afada14ff7f7190cf809fa2e62d8652429
void m1 2 at 4000
polls 2 sha256 7cbd60983a66a336f8e20c702600fc7b157672c4b1117b45c13434283f521467
pending 2
sha256 85ba83f9939c7ecda57f5236fd0d6869c14127c8c906ce2245b94fa3d915bac8
"""

# A meter reads 5200 at 1900. It is replaced by another, which is read by hand: 300 and 45 Wh in
# four quarter hours.
DAY = """1000 device inv 1 5 1
1000 register main inv 3 40094 @40096
1000 install main m1 5000 0 100000
1898 connect inv
1898 start inv 3 40094 3
1900 bytes inv 000000000009010306000014500000
2800 exchange main 5300 0 m2 0 0 100000
3700 manual main 45 0
"""
# The same on the last day of 2099, which is after today.
FUTURE = at(4102358400, DAY)
FUTURE_DAYS = (0, "2099-12-31   4                   345000\nend 1\n", "")
DAYS, NO_DAYS, UNKNOWN = (0, "1970-01-01   4                   345000\nend 1\n", ""), (0, "end 0\n", ""), (1, "refused 1\n", "")
STATED_ALONE = "m1 1000 5000000 2800 5300000 300000 0 0 0 0 0 1 1\nm2 2800 0 3700 45000 45000 1 0 0 0 0 1 0\nend 2\n"
MAIN = ["--register", "main"]
REPORTS = [
    (MAIN, DAYS), (["--register", "none"], UNKNOWN), (["--register", "m1"], UNKNOWN),
    ([*MAIN, "--by", "month", "--unit", "kwh"], (0, "1970-01    4                 0.345000\nend 1\n", "")),
    ([*MAIN, "--statement"], (0, STATED_ALONE, "")),
    ([*MAIN, "--from", "1970-01-01", "--till", "1970-01-02"], DAYS), ([*MAIN, "--from", "0000-01-01", "--till", "9999-12-31"], DAYS),
    ([*MAIN, "--from", "1970-01-02", "--till", "1970-01-03"], NO_DAYS), ([*MAIN, "--from", "1969-12-31", "--till", "1970-01-01"], NO_DAYS),
    ([*MAIN, "--till", "1970-01-02"], DAYS), ([*MAIN, "--till", "1970-01-01"], NO_DAYS), ([*MAIN, "--from", "1970-01-01"], DAYS),
    ([*MAIN, "--from", "1970-01-02"], NO_DAYS), (["--register", "roof", "--from", "1970-01-01", "--till", "1970-01-02"], UNKNOWN),
]
# A file compared with itself as the one before.
TWICE = (1, ["meter m1 is in new.db, and was closed in old.db", "meter m2 begins in new.db at 2800 (1970-01-01 00:46:40 UTC) 0 0, stands in old.db at 3700 (1970-01-01 01:01:40 UTC) 45 0", "2 differences between files"], "")
# The lines for the file into which m2 was carried at 3700, where it showed 45 Wh.
LATER = ["4600 manual main 60 0", "5500 exchange main 70 0 m3 0 0 100000"]
BY_BOTH = "m1 1000 5000000 2800 5300000 300000 0 0 0 0 0 1 1\nm2 2800 0 5500 70000 70000 2 0 0 0 0 1 1\nm3 5500 0 5500 0 0 0 0 0 0 0 1 0\nend 3\n"
BOTH = ["day.db", "next.db"]
STATED = [
    (BOTH, [], BY_BOTH), (BOTH, ["--from", "1970-01-01", "--till", "1970-01-02"], BY_BOTH), (BOTH, ["--till", "1970-01-01"], "end 0\n"),
    (BOTH, ["--from", "1970-01-02"], "m3 - - - - 0 0 0 0 0 0 0 0\nend 1\n"), (["day.db"], [], STATED_ALONE),
    (BOTH, ["--from", "1970-01-02", "--till", "1970-01-02"], "end 0\n"), (["day.db"], ["--from", "1970-01-02", "--till", "1970-01-02"], "end 0\n"),
    (["next.db"], [], "m2 3700 45000 5500 70000 25000 1 0 0 0 0 1 1\nm3 5500 0 5500 0 0 0 0 0 0 0 1 0\nend 2\n"),
]
AUDITED = [
    ("UPDATE meta SET zone = 'UTC1'", 0, "fine: 2 meters, 5 entries, 5 intervals, 1 poll\n"),
    ("UPDATE intervals SET mwh = 177778 WHERE meter = 'm1' AND start = 900", 1, "meter m1 interval 900 (1970-01-01 00:15:00 UTC) has 177778 mWh (0.177778 kWh), entries give 177777 mWh (0.177777 kWh)\n1 difference\n"),
    ("UPDATE installations SET total = 44999 WHERE meter = 'm2'", 1,
     "meter m1 interval 900 (1970-01-01 00:15:00 UTC) has 177778 mWh (0.177778 kWh), entries give 177777 mWh (0.177777 kWh)\nmeter m2 total has 44999 mWh (0.044999 kWh), entries give 45000 mWh (0.045000 kWh)\n2 differences\n"),
]
# A file that continues from the day, with one more register. m2 has 45 Wh more in two quarter
# hours, of which one is the last of the day.
NEXT = begun("m2", 3700, 45, counter_range=4294967296) + "3700 register spare inv 3 40194 @40196\n4600 manual main 90 0\n"
NEXT_DAYS = "1970-01-01   5                   390000\nend 1\n"
NEXT_MONTHS = "1970-01    5                   390000\nend 1\n"
NEXT_STATED = "m1 1000 5000000 2800 5300000 300000 0 0 0 0 0 1 1\nm2 2800 0 4600 90000 90000 2 0 0 0 0 1 0\nend 2\n"
NEXT_SITE = [
    {"device": "inv", "register": "main", "meter": "m2", "at": 4600, "last": 90, "sf": 0, "total": "90000", "earlier": "45000", "ended": False},
    {"device": "inv", "register": "spare", "meter": None},
]
# A device without a point list, and a register without a meter.
UNMETERED = "1000 device inv 1 5 1\n1000 register main inv 3 40094 @40096\n"
LACKS = [
    ("none", ["sunreg: none: the office has no device with this name; add it with POST /devices"]),
    ("inv", [
        "sunreg: inv: no point list; create one with sunreg scan --list, then POST /devices/inv/list",
        "sunreg: register main: no open meter; install one with POST /registers/main/install",
    ]),
]
