"""page.py [PROGRAM]: compares the page with the data, which are computed here in whole numbers.

See page.sh."""
import atexit
import base64
import datetime
import json
import os
import re
import shutil
import socket
import subprocess
import sys
import tempfile
import time
import urllib.error
import urllib.request
import zoneinfo

sys.dont_write_bytecode = True
import browser
import page_office
from page_office import LONG, NOW, ZONE

HERE = os.path.dirname(os.path.abspath(__file__))
PICTURES = os.environ.get("PAGE_PICTURES", "")
ROOM = tempfile.mkdtemp()
# One minute becomes one second, so that the test does not wait for it.
SHORT = "{const wait = window.setTimeout; window.setTimeout = (f, ms) => wait(f, ms >= 10000 ? ms / 60 : ms);}"
TROUBLE = "document.getElementById('trouble')"
passed = failed = 0
# The number of all checks: over a mock office, and over a program. Change it where you add a check.
CHECKS_OF_MOCK, CHECKS_OF_PROGRAM = 296, 75
ENDS = [lambda: shutil.rmtree(ROOM, ignore_errors=True)]
atexit.register(lambda: [end() for end in reversed(ENDS)])


def holds(what, is_so, got=""):
    """Counts whether a condition holds."""
    global passed, failed
    if is_so:
        passed += 1
    else:
        failed += 1
        print(f"{what}: {got!r}"[:1500], flush=True)


def same(what, got, wanted):
    holds(what, got == wanted, (got, wanted))


def kwh(mwh, least=6):
    """Returns exact kWh, with at least so many decimals."""
    part = f"{mwh % 10**6:06}"
    while len(part) > least and part.endswith("0"):
        part = part[:-1]
    return f"{mwh // 10**6:,}.{part}"


def plain_kwh(mwh):
    """Exact kWh without commas, as files have it."""
    return kwh(mwh).replace(",", "")


def title(period):
    """Returns a day as the page names it."""
    day = datetime.date.fromisoformat(period)
    return f"{day:%a} {day.day} {day:%b %Y}"


def date_time(then):
    """A time as the page shows it."""
    return f"{then.day} {then:%b %Y, %H:%M}"


def text_of(tab, selector):
    return tab.run(f"(document.querySelector({json.dumps(selector)}) || {{innerText: ''}}).innerText")


def table_of(tab):
    """Returns the rows of the table, as texts."""
    return tab.run("[...document.querySelectorAll('#rows tbody tr')].map(it => [...it.cells].map(it => it.textContent))")


def bars_of(tab):
    """Returns the drawn heights of the bars, in order, without the bars that have no row."""
    return tab.run("[...document.querySelectorAll('.curve .bar')].map(it => Number(it.getAttribute('height')))")


def holds_curve(what, tab, values):
    """The bars have the number and the heights of their values, by the greatest."""
    heights, most = bars_of(tab), max(values)
    same(f"{what}: how many bars", len(heights), len(values))
    scale = max(heights) / most
    holds(f"{what}: how high they are", all(abs(high - mwh * scale) < 0.01 for high, mwh in zip(heights, values)), heights)


def show(tab, place, heading):
    """Goes to a place, and waits until it is shown completely."""
    tab.run(f"location.hash = {json.dumps(place)}")
    holds(f"{place} is shown", tab.wait(f"heading.innerText.startsWith({json.dumps(heading)}) && document.getElementById('sum')"), text_of(tab, "#detail"))


def errors_of(tab):
    """Returns the messages on the console, and violations of the page's policy."""
    told = [it["entry"].get("text") for it in tab.told("Log.entryAdded")]
    told += [it["exceptionDetails"] for it in tab.told("Runtime.exceptionThrown")]
    return told + [it for it in tab.told("Runtime.consoleAPICalled") if it["type"] in ("error", "warning", "assert")]


def holds_quiet(what, tab, origin):
    """No error is on the console, and no request left the origin."""
    same(f"{what}: the console", errors_of(tab), [])
    urls = [it["request"]["url"] for it in tab.told("Network.requestWillBeSent")]
    same(f"{what}: requests elsewhere", [it for it in urls if not it.startswith((f"{origin}/", f"blob:{origin}/"))], [])
    tab.forget()


def rows_of(meters, day, zone):
    """Returns the quarter hours of a day of a zone: the energy of each by all meters, and the
    meters with a part of it."""
    found = {}
    for meter in meters:
        for start, mwh in meter.rows:
            if datetime.datetime.fromtimestamp(start, zone).date().isoformat() == day:
                sum_, names = found.get(start, (0, []))
                found[start] = (sum_ + mwh, [*names, meter.name])
    return sorted(found.items())


def clock(start, zone):
    return f"{datetime.datetime.fromtimestamp(start, zone):%H:%M}"


def downloaded(name):
    """Returns the bytes of a file that the browser downloaded."""
    until = time.time() + 20
    while time.time() < until and not os.path.exists(f"{ROOM}/{name}"):
        time.sleep(0.05)
    time.sleep(0.1)
    path = f"{ROOM}/{name}"
    return open(path, "rb").read() if os.path.exists(path) else None


# ---- the words

def words_of_tables(name):
    """Returns the sentences of a table of crates/printed_numbers, by number."""
    with open(f"{HERE}/../crates/printed_numbers/src/tables/{name}.rt", encoding="utf-8") as file:
        text = file.read()
    form = r'number: (\d+),\s+means: "(.*)",\s+cause: "(.*)",\s+remedy: "(.*)",'
    return {int(number): words for number, *words in re.findall(form, text)}


def see_words():
    """The page's words are those of `sunreg explain`, and its files are those in the program."""
    with open(f"{HERE}/../web/page.js", encoding="utf-8") as file:
        script = re.sub(r'" \+\s+"', "", file.read())
    for number, (means, cause, remedy) in words_of_tables("held").items():
        found = re.search(rf'\[{number},\s+"(.*)",\s+"(.*)",\s+"(.*)"\]', script)
        same(f"the words of held {number}", found and list(found.groups()), [means, cause, remedy])
    for number in (1, 13, 14, 15):
        means, _, remedy = words_of_tables("refused")[number]
        found = re.search(rf'^  {number}: \["(.*)",\s+"(.*)"\]', script, re.M)
        same(f"the words of refused {number}", found and list(found.groups()), [means, remedy])
    with open(f"{HERE}/../docs/HTTP.md", encoding="utf-8") as file:
        lacks = dict(re.findall(r"^\| `(no_\w+|not_in_list)` \| (.*) \|$", file.read(), re.M))
    told = dict(re.findall(r'^  (no_\w+|not_in_list): \["([^"]*)"', script, re.M))
    same("what lacks", sorted(lacks), sorted(told))
    for name, means in told.items():
        holds(f"the words of {name}", lacks[name].startswith(means) or means.startswith(lacks[name]), means)
    embed = subprocess.run([f"{HERE}/../web/embed", "--check"], capture_output=True, text=True)
    same("the files are those in the program", (embed.returncode, embed.stdout), (0, ""))
    names = ["page.html", "page.css", "page.js", "icon.svg"]
    holds("all is below 41 KB", sum(os.path.getsize(f"{HERE}/../web/{it}") for it in names) < 41_000)
    for rule in ("innerHTML", "outerHTML", "insertAdjacent", "document.write", "eval(", "new Function", "style="):
        same(f"no {rule}", rule in script, False)


# ---- the site

def card_of(tab, register):
    """Returns the texts of a register's card: the text about its meter, and its three figures."""
    card = f"document.getElementById('open-{register}').closest('.card')"
    return tab.run(f"[...{card}.querySelectorAll('p, dd')].map(it => it.innerText)")


def this_year(register):
    """Returns the target of the days from which the page computes the figures of a register."""
    return f"/registers/{register}/days/2026-01-01/2027-01-01"


def quarters(meter, day, zone=ZONE):
    """Returns the target of the quarter hours of a day of a zone."""
    first = datetime.date.fromisoformat(day)
    both = [datetime.datetime.combine(it, datetime.time(), zone) for it in (first, first + datetime.timedelta(1))]
    return "/".join([f"/meters/{meter}/intervals", *(f"{it.timestamp():.0f}" for it in both)])


def rows_asked(office):
    """Returns the rows that were requested since the last call, each once, and clears the log.

    It leaves out the rows of this year, which are beside each card."""
    found = sorted({it for it in office.log if it.startswith(("/meters/", "/registers/")) and not it.endswith("/2026-01-01/2027-01-01")})
    office.log.clear()
    return found


def figures(office, register, day):
    """Returns the energy of a register on a day, in its month and in its year, by its rows."""
    days = office.days(register)
    return [sum(mwh for it, (_, mwh) in days.items() if it.startswith(period)) for period in (day, day[:7], day[:4])]


def see_site(tab, office, origin):
    """The first view: its requests, and each device and register."""
    tab.ask("Page.navigate", url=f"{origin}/")
    holds("all registers have figures", tab.wait("document.querySelectorAll('dl').length === 4"), text_of(tab, "body"))
    wanted = ["/", "/icon.svg", "/page.css", "/page.js", "/site", "/status"]
    wanted += [this_year(it) for it in ("import", "main", "old", LONG)]
    same("what the first view asks, each once", sorted(office.log), sorted(wanted))
    same("of which the files are four", len([it for it in office.log if it not in page_office.PARTS]), 6)
    holds("the office's moment", text_of(tab, "#moment") == "As of 26 Nov 2026, 14:05. Refreshes every minute.", text_of(tab, "#moment"))
    same("the browser's zone", text_of(tab, "#zone"), "Europe/Berlin")
    same("no trouble", tab.run("document.getElementById('trouble').hidden"), True)
    states = tab.run("[...document.querySelectorAll('#devices > h2')].map(it => [it.innerText, it.nextElementSibling.innerText])")
    same("the devices", dict(states), {
        "barn": "Last reading 13:53 (12 minutes ago)",
        "attic": "No reading since sunreg started",
        "grid": "No reading since 09:14",
        "inv": "Online. Last reading 14:04. Reading now...",
        "roof-2": "No reading since sunreg started",
    })
    for register in ("main", "import", "old", LONG):
        it = next(row for row in office.site()["registers"] if row["register"] == register)
        about, *told = card_of(tab, register)
        then = datetime.datetime.fromtimestamp(it["at"], ZONE)
        closed = " (closed)" if it["ended"] else ""
        when = f"{then:%H:%M}" if then.date().isoformat() == "2026-11-26" else date_time(then)
        shows = f"Meter {it['meter']}{closed}: counter {kwh(it['last'] * 1000 * 10 ** it['sf'], 3)} kWh ({when}); "
        same(f"{register}: its meter", about, f"{shows}{kwh(int(it['total']), 3)} kWh since installation.")
        same(f"{register}: its energy", told, [f"{kwh(mwh, 3)} kWh" for mwh in figures(office, register, "2026-11-26")])
    lines = tab.run("[...document.querySelectorAll('dd b')].map(it => it.getClientRects().length)")
    same("figures are on one line", lines, [1] * 12)
    names = tab.run("[...document.querySelectorAll('dl')][0].innerText.split('\\n').filter(it => !it.includes('kWh'))")
    same("what they are of", names, ["Today", "Thu 26 Nov 2026", "This month", "Nov 2026", "This year", "2026"])
    holds("a register without a meter", "No meter installed, so no energy is recorded." in text_of(tab, "#devices"), text_of(tab, "#devices"))
    see_notes(tab)
    holds_quiet("the first view", tab, origin)


def see_notes(tab):
    """The rejected readings, refusals and lacks, with words."""
    notes = text_of(tab, "#notes")
    held = words_of_tables("held")
    for number, count in ((6, "3 readings"), (8, "1 reading")):
        means, cause, remedy = held[number]
        sentence = f"{count} rejected (held {number}): {means}. Usual cause: {cause}. What to do: {remedy}."
        holds(f"held for {number}", sentence in notes, notes)
    same("no other cause", notes.count("rejected (held"), 2)
    holds("refusals", "2 device events refused. " in notes, notes)
    holds("a register that lacks a meter", "roof-2, register export: the register has no open meter. What to do: install one with POST /registers/export/install." in notes, notes)
    holds("a device that the books don't have", "attic: the office has no device with this name." in notes, notes)
    holds("polls", "40,211 polls answered\n290 polls timed out\n2 polls answered with an invalid response" in notes and " lost: " not in notes, notes)


# ---- one register

def holds_day(tab, meters, day, zone=ZONE):
    """A day's quarter hours: the heading, the table, and the bars."""
    found, table = rows_of(meters, day, zone), table_of(tab)
    rows = [(start, mwh) for start, (mwh, _) in found]
    same(f"{day}: its meters", text_of(tab, "#heading small").split(", ")[1:], [f"meter {it.name}" for it in meters])
    named = [[", ".join(names)] for _, (_, names) in found] if len(meters) > 1 else [[]] * len(rows)
    same(f"{day}: the meters of each", [it[2:] for it in table], named)
    spans = [f"{clock(start, zone)} to {clock(start + 900, zone)}" for start, _ in rows]
    same(f"{day}: the quarter hours", [it[0][:14] for it in table], spans)
    same(f"{day}: their energy", [it[1] for it in table], [kwh(mwh) for _, mwh in rows])
    holds_curve(day, tab, [mwh for _, mwh in rows])
    return rows


def meters_of(tab):
    """Returns the text about each meter of a register."""
    return tab.run("[...document.querySelectorAll('#detail li')].map(it => it.innerText)")


def meters_told(office, register):
    """Returns the expected text: from when till when, the last counter, and the energy."""
    told = []
    for line in office.meter_lines(register):
        name, opened, at, raw, scale, total, state = line.split()
        begun, last = (datetime.datetime.fromtimestamp(int(it), ZONE) for it in (opened, at))
        until = "closed" if state == "ended" else "last reading"
        shows = f"counter {kwh(int(raw) * 1000 * 10 ** int(scale), 3)} kWh; total {kwh(int(total), 3)} kWh."
        told.append(f"{name}: installed {date_time(begun)}; {until} {date_time(last)}; {shows}")
    return told


def see_day(tab, office, origin):
    """A click on a register: its day, the days before and after, as a file and as a picture."""
    main, second = office.of_register("main")
    rows_asked(office)
    tab.run("document.getElementById('open-main').click()")
    holds("a click shows the day", tab.wait("document.getElementById('sum')"), text_of(tab, "#detail"))
    holds("which is today", text_of(tab, "#heading").startswith("Thu 26 Nov 2026 main, meter m2"), text_of(tab, "#heading"))
    rows = holds_day(tab, [second], "2026-11-26")
    whole = f"Total {kwh(sum(mwh for _, mwh in rows), 3)} kWh, matching the recorded day."
    same("its sum", text_of(tab, "#sum"), whole)
    holds("the zone is said", "15-minute values, Europe/Berlin time. 57 of 96 available." in text_of(tab, "#detail"), text_of(tab, "#detail"))
    same("there is no day after", tab.run("document.getElementById('after')"), None)
    tab.run("document.getElementById('before').click()")
    holds("the day before", tab.wait("heading.innerText.startsWith('Wed 25 Nov 2026') && document.getElementById('sum')"), text_of(tab, "#heading"))
    rows = holds_day(tab, [second], "2026-11-25")
    same("it is whole", len(rows), 96)
    asked = [*(quarters("m2", it) for it in ("2026-11-25", "2026-11-26")), "/registers/main/meters", "/registers/main/months"]
    same("what days ask", rows_asked(office), asked)
    same("its meters", meters_of(tab), meters_told(office, "main"))
    tab.run("document.getElementById('file').click()")
    lines = [f"{datetime.datetime.fromtimestamp(start, ZONE).isoformat()},{plain_kwh(mwh)}\r\n" for start, mwh in rows]
    same("its file", downloaded("main-2026-11-25.csv"), ("start,energy_kwh\r\n" + "".join(lines)).encode())
    tab.run("document.getElementById('after').click()")
    holds("the day after", tab.wait("heading.innerText.startsWith('Thu 26 Nov 2026')"), text_of(tab, "#heading"))
    tab.run("history.back()")
    holds("and back by the browser", tab.wait("heading.innerText.startsWith('Wed 25 Nov 2026')"), text_of(tab, "#heading"))
    holds_quiet("a day", tab, origin)


def see_changes(tab, office, origin):
    """Days of a clock change, of a replaced meter, before it, and without a row."""
    main, second = office.of_register("main")
    rows_asked(office)
    show(tab, "#main/2026-10-25", "Sun 25 Oct 2026")
    rows = holds_day(tab, [second], "2026-10-25")
    same("a day of 25 hours", len(rows), 100)
    same("its hour that comes twice", [it[0] for it in table_of(tab)][8:13:4], ["02:00 to 02:15 (from +02:00)", "02:00 to 02:15 (from +01:00)"])
    holds("is the office's day", "matching the recorded day" in text_of(tab, "#sum"), text_of(tab, "#sum"))
    long = office.of_register(LONG)[0]
    show(tab, f"#{LONG}/2026-03-29", "Sun 29 Mar 2026")
    same("a day of 23 hours", len(holds_day(tab, [long], "2026-03-29")), 92)
    holds("is the office's day", "matching the recorded day" in text_of(tab, "#sum"), text_of(tab, "#sum"))
    see_exchange(tab, office)
    asked = [quarters("m-old", "2026-02-03"), *(quarters("m1", it) for it in ("2026-06-09", "2026-06-10"))]
    asked += [quarters("m2", it) for it in ("2026-06-10", "2026-06-11", "2026-10-25")] + [quarters(long.name, "2026-03-29")]
    asked += [f"/registers/{register}/{it}" for register in (LONG, "old") for it in ("meters", "months")]
    same("what such days ask", rows_asked(office), sorted(asked))
    holds_quiet("changes", tab, origin)


def see_exchange(tab, office):
    """The day of a replaced meter, the days around it, and those of a register whose meter was
    closed.

    Each has the office's figure."""
    main, second = office.of_register("main")
    for day, meters in (("2026-06-10", [main, second]), ("2026-06-09", [main]), ("2026-06-11", [second])):
        show(tab, f"#main/{day}", title(day))
        rows = holds_day(tab, meters, day)
        same(f"{day} is whole", len(rows), 96)
        office_mwh = office.days("main")[day][1]
        same(f"{day}: the office's figure", sum(mwh for _, mwh in rows), office_mwh)
        same(f"{day}: its sum", text_of(tab, "#sum"), f"Total {kwh(office_mwh, 3)} kWh, matching the recorded day.")
        same(f"{day}: all meters", meters_of(tab), meters_told(office, "main"))
        tab.run("document.getElementById('file').click()")
        lines = [f"{datetime.datetime.fromtimestamp(start, ZONE).isoformat()},{plain_kwh(mwh)}\r\n" for start, mwh in rows]
        same(f"{day}: its file", downloaded(f"main-{day}.csv"), ("start,energy_kwh\r\n" + "".join(lines)).encode())
    both = {it[0]: it[2] for it in rows_shown(tab, "#main/2026-06-10", "Wed 10 Jun 2026")}
    named = [both[it] for it in ("11:15 to 11:30", "11:30 to 11:45", "11:45 to 12:00")]
    same("a quarter hour of both meters", named, ["m1", "m1, m2", "m2"])
    show(tab, "#old/2026-02-03", "Tue 3 Feb 2026")
    same("the last day of a register", len(holds_day(tab, office.of_register("old"), "2026-02-03")), 42)
    holds("is the office's day", "matching the recorded day" in text_of(tab, "#sum"), text_of(tab, "#sum"))
    show(tab, "#old/2026-02-04", "Wed 4 Feb 2026")
    same("the day after it", text_of(tab, "#heading"), "Wed 4 Feb 2026 old")
    holds("has nothing", "No energy recorded in this period." in text_of(tab, "#detail"), text_of(tab, "#detail"))
    same("by the office too", text_of(tab, "#sum"), "Total 0.000 kWh, matching the recorded day.")
    same("its meter was closed", meters_of(tab), meters_told(office, "old"))


def rows_shown(tab, place, heading):
    """Returns the rows of a place."""
    show(tab, place, heading)
    return table_of(tab)


def see_sums(tab, office, origin):
    """A month's days and a year's months."""
    days = office.days("main")
    rows_asked(office)
    show(tab, "#main/2026-10", "Oct 2026")
    rows = {day: it for day, it in days.items() if day.startswith("2026-10")}
    same("the days of a month", table_of(tab), [[title(day), kwh(mwh), str(count)] for day, (count, mwh) in rows.items()])
    same("of which one has 100 quarter hours", rows["2026-10-25"][0], 100)
    holds_curve("a month", tab, [mwh for _, mwh in rows.values()])
    same("its sum", text_of(tab, "#sum"), f"Total {kwh(sum(mwh for _, mwh in rows.values()), 3)} kWh")
    tab.run("document.getElementById('file').click()")
    lines = [f"{day},{plain_kwh(mwh)}\r\n" for day, (_, mwh) in rows.items()]
    same("its file", downloaded("main-2026-10.csv"), ("day,energy_kwh\r\n" + "".join(lines)).encode())
    for link, wanted in (("after", "Nov 2026"), ("before", "Oct 2026"), ("before", "Sep 2026")):
        tab.run(f"document.getElementById('{link}').click()")
        holds(f"the month {link}", tab.wait(f"heading.innerText.startsWith('{wanted}')"), text_of(tab, "#heading"))
    same("what a month of this year asks", rows_asked(office), [])
    show(tab, "#main/2025-12", "Dec 2025")
    same("what a month of another year asks", rows_asked(office), ["/registers/main/days/2025-12-01/2026-01-01"])
    rows = {day: it for day, it in days.items() if day.startswith("2025-12")}
    same("its days", table_of(tab), [[title(day), kwh(mwh), str(count)] for day, (count, mwh) in rows.items()])
    tab.run("document.getElementById('after').click()")
    holds("the month after a year's last", tab.wait("heading.innerText.startsWith('Jan 2026')"), text_of(tab, "#heading"))
    tab.run("document.getElementById('by-Year').click()")
    holds("a year", tab.wait("heading.innerText.startsWith('2026')"), text_of(tab, "#heading"))
    months = sorted({day[:7] for day in days if day.startswith("2026")})
    sums = [sum(mwh for day, (_, mwh) in days.items() if day.startswith(month)) for month in months]
    same("the months of a year", [it[1] for it in table_of(tab)], [kwh(mwh) for mwh in sums])
    holds_curve("a year", tab, sums)
    tab.run("document.getElementById('before').click()")
    holds("the year before", tab.wait("heading.innerText.startsWith('2025')"), text_of(tab, "#heading"))
    holds("which is asked", tab.wait("document.getElementById('sum')"), text_of(tab, "#detail"))
    same("which began in November", [it[0] for it in table_of(tab)], ["Nov 2025", "Dec 2025"])
    same("what another year asks", rows_asked(office), ["/registers/main/days/2025-01-01/2026-01-01"])
    same("before which there is none", tab.run("document.getElementById('before')"), None)
    tab.run("document.querySelector('.curve a').dispatchEvent(new MouseEvent('click', {bubbles: true, cancelable: true}))")
    holds("a click on a bar leads on", tab.wait("heading.innerText.startsWith('Nov 2025') && document.getElementById('sum')"), text_of(tab, "#heading"))
    same("the month in which it began", [it[0] for it in table_of(tab)][0], "Thu 20 Nov 2025")
    same("is the first", tab.run("document.getElementById('before')"), None)
    show(tab, "#main/2025-11-21", "Fri 21 Nov 2025")
    tab.run("document.getElementById('before').click()")
    holds("its first day", tab.wait("heading.innerText.startsWith('Thu 20 Nov 2025') && document.getElementById('sum')"), text_of(tab, "#heading"))
    same("before which there is none too", tab.run("document.getElementById('before')"), None)
    asked = [quarters("m1", "2025-11-20"), quarters("m1", "2025-11-21"), "/registers/main/days/2025-11-01/2025-12-01"]
    same("what they ask", rows_asked(office), asked)
    holds_quiet("sums", tab, origin)


def see_zone(tab, office, origin):
    """In another zone than the office's, the days don't add up to the office's, and the page says
    so."""
    tab.ask("Emulation.setTimezoneOverride", timezoneId="America/New_York")
    tab.ask("Page.navigate", url="about:blank")
    tab.ask("Page.navigate", url=f"{origin}/#import/2026-11-24")
    holds("a place that is opened by its link", tab.wait("document.getElementById('sum')"), text_of(tab, "body"))
    zone = zoneinfo.ZoneInfo("America/New_York")
    rows = holds_day(tab, office.of_register("import"), "2026-11-24", zone)
    said = text_of(tab, "#sum")
    office_kwh, bars_kwh = kwh(office.days("import")["2026-11-24"][1], 3), kwh(sum(mwh for _, mwh in rows), 3)
    holds("a day of another zone", office_kwh != bars_kwh and f"add up to {bars_kwh} kWh, but {office_kwh} kWh are recorded for this day" in said, said)
    same("the zone is said", text_of(tab, "#zone"), "America/New_York")
    holds_quiet("another zone", tab, origin)
    see_today(tab, office)
    tab.ask("Emulation.setTimezoneOverride", timezoneId="")


def see_today(tab, office):
    """Today is the office's day while readings come, even if the browser's zone has another day."""
    meter, rows, at = office.of_register("main")[-1], list(office.of_register("main")[-1].rows), dict(office.at)
    past, eve = page_office.moment(2026, 11, 27, 0, 20), page_office.moment(2027, 1, 1, 0, 20)
    for zone, now, wanted in (
        ("America/New_York", past, "Fri 27 Nov 2026"), ("Europe/Berlin", past, "Fri 27 Nov 2026"), ("Asia/Tokyo", NOW + 21_600, "Thu 26 Nov 2026"),
        ("America/New_York", eve, "Fri 1 Jan 2027"), ("Asia/Tokyo", eve - 7200, "Thu 31 Dec 2026"),
    ):
        meter.rows = rows + [(start, 1000) for start in range(rows[-1][0] + 900, now, 900)]
        office.now, office.at["main"] = now, now - 60
        tab.ask("Emulation.setTimezoneOverride", timezoneId=zone)
        tab.run("document.getElementById('again').click()")
        # (while other years are requested the card has no figures)
        first = "(document.getElementById('open-main').closest('.card').querySelector('dl') || {innerText: ''}).innerText"
        told = [kwh(mwh, 3) for mwh in figures(office, "main", datetime.datetime.fromtimestamp(now, ZONE).date().isoformat())]
        holds(f"today in {zone}", tab.wait(f"{first}.startsWith('Today\\n{wanted}\\n{told[0]} kWh')"), tab.run(first))
        same(f"its month and year in {zone}", card_of(tab, "main")[2:], [f"{it} kWh" for it in told[1:]])
    meter.rows, office.at, office.now = rows, at, NOW
    tab.forget()


# ---- what goes wrong

def see_cut(tab, office, origin):
    """The page reports a text without its end and a refused request, and does not show them."""
    house = quarters("m-house", "2026-11-26")
    office.cut |= {this_year("main"), house}
    office.short.add(this_year("old"))
    office.failing[this_year("import")] = 503
    tab.ask("Page.navigate", url="about:blank")
    tab.ask("Page.navigate", url=f"{origin}/")
    holds("all have come", tab.wait("document.querySelectorAll('dl, .card .warn').length === 4"), text_of(tab, "#devices"))
    same("days that were cut", card_of(tab, "main")[1:], [f"The response to {this_year('main')} was incomplete or invalid, so it is not shown."])
    same("days of which one lacks", card_of(tab, "old")[1:], [f"The response to {this_year('old')} was incomplete or invalid, so it is not shown."])
    means, _, remedy = words_of_tables("refused")[13]
    same("days that were refused", card_of(tab, "import")[1:], [f"The request for {this_year('import')} failed: refused 13: {means}. What to do: {remedy}."])
    holds("and others stand", len(card_of(tab, LONG)) == 4, card_of(tab, LONG))
    del office.failing[this_year("import")]
    tab.run("location.hash = '#import/2026-11-26'")
    cut = f"The response to {house} was incomplete or invalid, so it is not shown."
    holds("quarter hours that were cut", tab.wait(f"detail.innerText.includes({json.dumps(cut)})"), text_of(tab, "#detail"))
    same("no bar of it is drawn", tab.run("document.querySelectorAll('.curve').length"), 0)
    office.short.clear()
    office.failing["/registers/old/months"] = 503
    tab.run("location.hash = '#old/2026-02-03'")
    told = f"The request for /registers/old/months failed: refused 13: {means}. What to do: {remedy}."
    holds("months that were refused", tab.wait(f"detail.innerText.includes({json.dumps(told)})"), text_of(tab, "#detail"))
    del office.failing["/registers/old/months"]
    meters = f"/registers/{LONG}/meters"
    office.cut.add(meters)
    tab.run(f"location.hash = '#{LONG}/2026-10'")
    cut = f"The response to {meters} was incomplete or invalid, so it is not shown."
    holds("meters that were cut", tab.wait(f"detail.innerText.includes({json.dumps(cut)})"), text_of(tab, "#detail"))
    december = "/registers/main/days/2025-12-01/2026-01-01"
    office.cut.discard(this_year("main"))
    office.cut.add(december)
    tab.run("location.hash = '#main/2025-12'")
    told = f"The response to {december} was incomplete or invalid, so it is not shown."
    holds("days of a month that were cut", tab.wait(f"detail.innerText.includes({json.dumps(told)})"), text_of(tab, "#detail"))
    office.cut.clear()
    office.short.clear()
    holds("whole again", tab.wait("document.querySelectorAll('dl').length === 4 && document.getElementById('sum')"), text_of(tab, "body"))
    tab.run("location.hash = ''")
    # (the console reports a 503 by itself)
    told = [it for it in errors_of(tab) if "503" not in it]
    same("the console", told, [])
    tab.forget()


def see_names(tab, office, origin):
    """An invalid name is shown as text, whatever characters it has; an invalid response is
    reported."""
    office.great = {"last": 4294967295, "sf": 3, "total": "3999999999999999999"}
    tab.run("document.getElementById('again').click()")
    whole = "counter 4,294,967,295.000 kWh (3 Feb 2026, 10:29); 3,999,999,999,999.999999 kWh since installation."
    holds("the greatest numbers are exact", tab.wait(f"document.getElementById('devices').innerText.includes('{whole}')"), card_of(tab, "old"))
    office.great = {}
    office.strange = "<img src=/x onerror=alert(1)>'\"&<b>"
    tab.run("document.getElementById('again').click()")
    shown = "[...document.querySelectorAll('h2, .card a')].filter(it => it.textContent === %s).length" % json.dumps(office.strange)
    holds("it is text", tab.wait(f"{shown} === 2"), text_of(tab, "#devices"))
    same("and nothing else", tab.run("document.querySelectorAll('main img, main b b, main [onerror]').length"), 0)
    office.strange = None
    tab.run("document.getElementById('again').click()")
    holds("it is gone", tab.wait(f"{shown} === 0"), text_of(tab, "#devices"))
    tab.run("location.hash = '#none/2026-11-26'")
    none = "There is no counter none with a meter."
    holds("a register that isn't there", tab.wait(f"detail.innerText.includes({json.dumps(none)})"), text_of(tab, "#detail"))
    tab.run("location.hash = '#<b>/2026'")
    holds("a place that is none", tab.wait("detail.hidden"), text_of(tab, "#detail"))
    # (the mock has no days of the strange register, which the console reports)
    same("the console", [it for it in errors_of(tab) if "404" not in it], [])
    tab.forget()


def see_refresh(tab, office, server, origin):
    """The page requests again by itself, keeps its place, reports a missing response, and
    recovers."""
    show(tab, "#main/2026-11-26", "Thu 26 Nov 2026")
    tab.run("document.getElementById('rows').scrollTop = 120; document.getElementById('by-Day').focus()")
    meter = office.of_register("main")[-1]
    meter.rows[-1] = (meter.rows[-1][0], meter.rows[-1][1] + 1_234_567)
    office.at["main"] = NOW + 50
    office.now = NOW + 60
    wanted = [f"{kwh(mwh, 3)} kWh" for mwh in figures(office, "main", "2026-11-26")]
    card = "[...document.getElementById('open-main').closest('.card').querySelectorAll('dd')].map(it => it.innerText)"
    holds("a reading comes by itself", tab.wait(f"JSON.stringify({card}) === {json.dumps(json.dumps(wanted, separators=(',', ':')))}"), card_of(tab, "main"))
    last = kwh(meter.rows[-1][1])
    holds("in the day too", tab.wait(f"[...document.querySelectorAll('#rows tr')].pop().innerText.includes('{last}')"), table_of(tab)[-1:])
    holds("and it adds up", "matching the recorded day" in text_of(tab, "#sum"), text_of(tab, "#sum"))
    same("the focus stays", tab.run("document.activeElement.id"), "by-Day")
    same("and what was scrolled", tab.run("document.getElementById('rows').scrollTop"), 120)
    holds_quiet("a refresh", tab, origin)

    server.stop()
    holds("it says that none answers", tab.wait(f"!{TROUBLE}.hidden"), text_of(tab, "body"))
    holds("in words", text_of(tab, "#trouble").startswith("No response. Is sunreg still running? Showing data as of "), text_of(tab, "#trouble"))
    same("in the title", tab.run("document.title"), "sunreg: not up to date")
    same("what it knew stays", card_of(tab, "main")[1:], wanted)
    holds("and looks old", tab.run("document.body.classList.contains('stale')"))
    server.start()
    holds("it comes back by itself", tab.wait(f"{TROUBLE}.hidden"), text_of(tab, "#trouble"))
    same("with its place", text_of(tab, "#heading")[:15], "Thu 26 Nov 2026")
    tab.forget()
    office.failing["/site"] = 503
    holds("it says that the office can't", tab.wait(f"{TROUBLE}.innerText.startsWith(\"The request for /site failed: refused 13\")"), text_of(tab, "#trouble"))
    office.failing.clear()
    office.cut.add("/status")
    holds("that a reply was cut", tab.wait(f"{TROUBLE}.innerText.startsWith('The response to /status was incomplete or invalid.')"), text_of(tab, "#trouble"))
    office.cut.clear()
    holds("until it can", tab.wait(f"{TROUBLE}.hidden"), text_of(tab, "#trouble"))
    tab.forget()


def see_hidden(tab, office):
    """The page requests nothing while it is hidden, and requests at once when it is shown."""
    tab.run("Object.defineProperty(document, 'hidden', {get: () => window.isAway, configurable: true}); window.isAway = true")
    time.sleep(1.5)
    office.log.clear()
    time.sleep(2.5)
    same("while it is hidden", office.log, [])
    tab.run("window.isAway = false; document.dispatchEvent(new Event('visibilitychange'))")
    until = time.time() + 5
    while time.time() < until and len(office.log) < 2:
        time.sleep(0.02)
    same("when it is seen again", sorted(office.log[:2]), ["/site", "/status"])
    tab.forget()


# ---- by keys, on a telephone, in the dark

def see_keys(tab, origin):
    """Keys reach every control."""
    tab.ask("Page.navigate", url="about:blank")
    tab.ask("Page.navigate", url=f"{origin}/")
    tab.wait("document.querySelectorAll('dl').length === 4")
    seen = []
    for _ in range(12):
        tab.press("Tab")
        seen.append(tab.run("document.activeElement.id"))
        if seen[-1] == "open-main":
            break
    same("registers are reached by Tab", seen, ["again", "open-import", "open-old", "open-main"])
    tab.press("Enter")
    holds("Enter opens one", tab.wait("document.getElementById('sum') && heading.innerText.startsWith('Thu 26 Nov 2026')"), text_of(tab, "#detail"))
    same("and its heading has the focus", tab.run("document.activeElement.id"), "heading")
    tab.press("ArrowLeft")
    holds("the arrow to the left", tab.wait("heading.innerText.startsWith('Wed 25 Nov 2026')"), text_of(tab, "#heading"))
    tab.press("ArrowRight")
    holds("and to the right", tab.wait("heading.innerText.startsWith('Thu 26 Nov 2026')"), text_of(tab, "#heading"))
    seen = []
    for _ in range(6):
        tab.press("Tab")
        seen.append(tab.run("document.activeElement.id"))
    same("what Tab reaches", seen, ["by-Day", "by-Month", "by-Year", "close", "before", "rows"])
    outlined = tab.run("getComputedStyle(document.activeElement).outlineStyle")
    same("the focus is seen", outlined, "solid")
    tab.press("Escape")
    holds("Escape closes it", tab.wait("detail.hidden"))
    same("and its card has the focus", tab.run("document.activeElement.id"), "open-main")
    holds_quiet("by keys", tab, origin)


def see_narrow(tab, origin):
    """Nothing is wider than a telephone, and each control is large enough to tap."""
    tab.size(360, 740, 2, True)
    for place in ("", "#main/2026-11-25", "#main/2026-06-10", "#main/2026-10", f"#{LONG}/2026"):
        tab.run(f"location.hash = {json.dumps(place)}")
        tab.wait("document.getElementById('sum')" if place else "detail.hidden")
        time.sleep(0.2)
        high = tab.run("Math.max(0, ...[...document.querySelectorAll('td, dd b')].map(it => it.getBoundingClientRect().height))")
        holds(f"narrow{place}: numbers are on one line", high < 40, high)
        widths = tab.run("[document.documentElement, ...document.querySelectorAll('.rows')].map(it => it.scrollWidth - it.clientWidth)")
        same(f"narrow{place}: nothing is wider", set(widths), {0})
        small = tab.run("[...document.querySelectorAll('.button, button')].map(it => it.getBoundingClientRect().height).filter(it => it < 32)")
        same(f"narrow{place}: buttons", small, [])
    tab.run("location.hash = ''")
    tab.size(1000, 800)
    holds_quiet("narrow", tab, origin)


LIGHTNESS = """(color) => {
  const [r, g, b] = color.match(/[0-9.]+/g).map((it) => it / 255).map((it) => it <= 0.03928 ? it / 12.92 : ((it + 0.055) / 1.055) ** 2.4);
  return 0.2126 * r + 0.7152 * g + 0.0722 * b;
}"""


def contrast(tab, selector, behind):
    """Returns the contrast of a text with its background, as WCAG 2 counts it."""
    color = lambda what, part: f"light(getComputedStyle(document.querySelector('{what}')).{part})"
    return tab.run(f"(() => {{ const light = {LIGHTNESS}; const both = [{color(selector, 'color')}, {color(behind, 'backgroundColor')}].sort((a, b) => a - b);"
                   " return (both[1] + 0.05) / (both[0] + 0.05); })()")


def see_dark(tab, origin):
    """The page is dark if the browser is, and is readable in both."""
    grounds = {}
    show(tab, "#main/2026-11-25", "Wed 25 Nov 2026")
    for scheme in ("dark", "light"):
        tab.ask("Emulation.setEmulatedMedia", features=[{"name": "prefers-color-scheme", "value": scheme}])
        grounds[scheme] = tab.run("getComputedStyle(document.body).backgroundColor")
        pairs = [("#heading", "#detail"), (".card p", ".card"), (".card a", ".card"), ("footer p", "body"), (".state.answers", "body"),
                 (".state.silent", "body"), ("#by-Day", "#by-Day"), ("#by-Year", "#by-Year")]
        for pair in pairs:
            got = contrast(tab, *pair)
            holds(f"{scheme}: {pair[0]} can be read", got >= 4.5, got)
    same("its ground", grounds, {"dark": "rgb(20, 24, 28)", "light": "rgb(246, 247, 249)"})
    tab.run("location.hash = ''")
    holds_quiet("dark", tab, origin)


def picture(tab, name, width, height):
    """Keeps a picture of the view, if pictures are requested."""
    if not PICTURES:
        return
    if width:
        tab.size(width, height)
        time.sleep(0.3)
    data = tab.ask("Page.captureScreenshot", format="png")["data"]
    with open(os.path.join(PICTURES, name), "wb") as file:
        file.write(base64.b64decode(data))


def see_mock(program):
    """All checks over the mock."""
    office = page_office.Office()
    server = page_office.Server(office)
    origin = f"http://127.0.0.1:{server.port}"
    held = browser.Browser(program, "Europe/Berlin")
    ENDS.append(held.close)
    held.ask("Browser.setDownloadBehavior", behavior="allow", downloadPath=ROOM)
    # (the first view is within one minute, so that it requests once)
    tab = browser.Tab(held)
    tab.size(1000, 800)
    see_site(tab, office, origin)
    picture(tab, "page-site.png", 1000, 900)
    tab.close()
    tab = browser.Tab(held, SHORT)
    tab.size(1000, 800)
    tab.ask("Page.navigate", url=f"{origin}/")
    holds("a second view", tab.wait("document.querySelectorAll('dl').length === 4"), text_of(tab, "body"))
    see_day(tab, office, origin)
    picture(tab, "page-day.png", 1000, 900)
    see_changes(tab, office, origin)
    see_sums(tab, office, origin)
    see_zone(tab, office, origin)
    see_cut(tab, office, origin)
    see_names(tab, office, origin)
    see_refresh(tab, office, server, origin)
    see_hidden(tab, office)
    see_keys(tab, origin)
    see_narrow(tab, origin)
    see_dark(tab, origin)


# ---- the built program

def free_port():
    with socket.create_server(("127.0.0.1", 0)) as listener:
        return listener.getsockname()[1]


def until_it_listens(port, seconds=30):
    until = time.time() + seconds
    while time.time() < until:
        try:
            return socket.create_connection(("127.0.0.1", port)).close()
        except ConnectionRefusedError:
            time.sleep(0.05)
    raise SystemExit(f"page.sh: nothing listens at port {port}")


def fetched(url):
    """Returns the status, the headers and the bytes of a response."""
    try:
        with urllib.request.urlopen(url, timeout=30) as reply:
            return reply.status, reply.headers, reply.read()
    except urllib.error.HTTPError as error:
        return error.code, error.headers, error.read()


SITE = """1 device inv 1 5 1
2 list inv @inv.csv
3 register main inv 3 40094 0
4 register export inv 3 40096 0
5 install main m1 5000 0 1000000000
"""
LIST = "name,function,area,address,type,scale\nwh,3,0,40094,acc32,\nexp,3,0,40096,acc32,\n"


def started(sunreg, *words, text=None):
    """Starts a process of the program, which gets a text to read."""
    child = subprocess.Popen([sunreg, *words], cwd=ROOM, stdin=subprocess.PIPE, stdout=subprocess.DEVNULL, stderr=subprocess.DEVNULL)
    ENDS.append(child.kill)
    child.stdin.write((text or "").encode())
    child.stdin.close()
    return child


def see_parts(origin):
    """The program serves the files of web/, byte for byte, and lets nothing else in."""
    for path, (name, kind) in page_office.PARTS.items():
        code, headers, body = fetched(origin + path)
        with open(f"{HERE}/../web/{name}", "rb") as file:
            same(f"{path}: as in web/", (code, body == file.read()), (200, True))
        same(f"{path}: its type", headers["Content-Type"], kind)
        same(f"{path}: its policy", headers["Content-Security-Policy"], "default-src 'self'; frame-ancestors 'none'")
        same(f"{path}: for no other site", headers["Cross-Origin-Resource-Policy"], "same-origin")
        same(f"{path}: no other type", headers["X-Content-Type-Options"], "nosniff")
        same(f"{path}: asked anew", headers["Cache-Control"], "no-cache")
    same("no other file", fetched(f"{origin}/page.html")[0], 404)


def see_program(sunreg, program):
    """A small site of the built program: a register whose meter counted 7 Wh more, and one without
    a meter."""
    with open(f"{ROOM}/inv.csv", "w", encoding="utf-8") as file:
        file.write(LIST)
    subprocess.run([sunreg, "create", "--db", "office.db", "--zone", "UTC0"], cwd=ROOM, check=True, stdout=subprocess.DEVNULL)
    entered = subprocess.run([sunreg, "enter", "--db", "office.db", "--caller", "desk"], cwd=ROOM, input=SITE, capture_output=True, text=True)
    same("a site is entered", (entered.returncode, entered.stdout), (0, "ok\n" * 5))
    device, port = free_port(), free_port()
    started(sunreg, "stand-in", "--port", str(device), "--connections", "1000", text="area holding 40000 100\nset holding 40095 5007\n")
    until_it_listens(device)
    run = started(sunreg, "run", "--db", "office.db", "--listen", str(port), "--every", "2", "--devices", f"inv=127.0.0.1:{device}")
    until_it_listens(port)
    origin = f"http://127.0.0.1:{port}"
    see_parts(origin)
    until = time.time() + 30
    while time.time() < until and b'"total":"7000"' not in fetched(f"{origin}/site")[2]:
        time.sleep(0.2)
    text = fetched(f"{origin}/site")[2].decode()
    site = json.loads(text)
    same("the site's form", text, json.dumps(site, separators=(",", ":")) + "\n")
    moments = [it.pop("at") for it in [site, *site["registers"]] if "at" in it]
    holds("its moments", len(moments) == 2 and all(abs(time.time() - it) < 60 for it in moments), moments)
    main = {"device": "inv", "register": "main", "meter": "m1", "last": 5007, "sf": 0, "total": "7000", "ended": False}
    export = {"device": "inv", "register": "export", "meter": None}
    same("its registers", sorted(site["registers"], key=str), sorted([main, export], key=str))
    held = browser.Browser(program, "UTC")
    ENDS.append(held.close)
    tab = browser.Tab(held, SHORT)
    tab.ask("Page.navigate", url=f"{origin}/")
    holds("the register has figures", tab.wait("document.querySelectorAll('dl').length === 1"), text_of(tab, "body"))
    about, *told = card_of(tab, "main")
    holds("its meter", about.startswith("Meter m1: counter 5.007 kWh (") and about.endswith("; 0.007 kWh since installation."), about)
    same("its energy", told, ["0.007 kWh"] * 3)
    holds("the device answers", "Online. Last reading " in text_of(tab, "#devices"), text_of(tab, "#devices"))
    holds("the other has no meter", "export: the register has no open meter." in text_of(tab, "#notes"), text_of(tab, "#notes"))
    tab.run("document.getElementById('open-main').click()")
    holds("its day", tab.wait("document.getElementById('sum')"), text_of(tab, "#detail"))
    same("adds up", text_of(tab, "#sum"), "Total 0.007 kWh, matching the recorded day.")
    holds_quiet("the program", tab, origin)
    exchanged(tab, origin)
    run.kill()
    run.wait()
    holds("it says that none answers", tab.wait(f"!{TROUBLE}.hidden"), text_of(tab, "body"))
    words = ["report", "--db", "office.db", "--register", "main", "--unit", "kwh"]
    told = subprocess.run([sunreg, *words], cwd=ROOM, capture_output=True, text=True).stdout.split()
    same("the report has the same", told[2:], ["0.014000", "end", "1"])


def posted(origin, target, number, body):
    """Returns the status of a command."""
    headers = {"Office-Caller": "page", "Office-Request": str(number)}
    request = urllib.request.Request(origin + target, data=json.dumps(body).encode(), headers=headers)
    try:
        with urllib.request.urlopen(request, timeout=30) as reply:
            return reply.status
    except urllib.error.HTTPError as error:
        return error.code


def exchanged(tab, origin):
    """The register's meter is replaced by another, which counts 7 Wh more too.

    The day has both, and their sum is the office's figure."""
    body = {"last": 5007, "rolls": 0, "meter": "m2", "raw": 5000, "sf": 0, "ceiling": 1_000_000_000}
    # (a meter can't be replaced in a second that had a reading)
    done = any(posted(origin, "/registers/main/exchange", number, body) < 300 or time.sleep(0.3) for number in range(1, 30))
    same("an exchange", done, True)
    until = time.time() + 30
    while time.time() < until and not re.search(rb'"meter":"m2",[^{}]*"total":"7000"', fetched(f"{origin}/site")[2]):
        time.sleep(0.2)
    lines = [line.split() for line in fetched(f"{origin}/registers/main/meters")[2].decode().splitlines()]
    same("the meters of the register", [[it[0], *it[3:]] for it in lines], [["m1", "5007", "0", "7000", "ended"], ["m2", "5007", "0", "7000", "open"], ["end"]])
    both = "document.getElementById('sum') && document.getElementById('sum').innerText.startsWith('Total 0.014 kWh, matching')"
    holds("its day has both meters", tab.wait(both), text_of(tab, "#detail"))
    holds("which its heading names", text_of(tab, "#heading").endswith("main, meter m1, meter m2"), text_of(tab, "#heading"))
    same("and the list", [it.split(": ")[0] for it in meters_of(tab)], ["m1", "m2"])
    # (within one quarter hour, or two if one ended just now)
    names = {name for it in table_of(tab) for name in it[2].split(", ")}
    same("and the table", names, {"m1", "m2"})
    holds_quiet("an exchange", tab, origin)


see_words()
program = browser.found()
checks = CHECKS_OF_PROGRAM if sys.argv[1:] else CHECKS_OF_MOCK
skipped = ""
if program is None:
    count = checks - passed - failed
    print(f"page.sh: skipped {count} checks, which need chromium")
    skipped = f", {count} skipped"
elif sys.argv[1:]:
    see_program(os.path.abspath(sys.argv[1]), program)
else:
    see_mock(program)
if program is not None and passed + failed != checks:
    print(f"the number of checks: {passed + failed}, and not {checks}")
    failed += 1
print(f"{passed} passed, {failed} failed{skipped}")
sys.exit(1 if failed else 0)
