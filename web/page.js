"use strict";
// Renders the web page of `sunreg run`.
// Requests go only to the server of the page, and responses are inserted as text, never as HTML.
// Energies are milliwatt-hours (mWh), of type BigInt.

const MINUTE = 60000;
const RETRY = 10000; // Delay in milliseconds between a failed refresh and the next one.
const PATIENCE = 30000; // Timeout of a request, in milliseconds.
const KEPT = 10 * MINUTE; // Maximum age of a cached response, in milliseconds.
// Age of a device's last reading, in seconds: online up to the first, offline above the second.
const LATELY = 300;
const LONG_AGO = 1200;
const QUARTER = 900; // Seconds.
const HALF_DAY = 43200;

// Reasons for rejected readings, in the words of `sunreg explain`.
const HELD = {
  not_accumulated: [1, "the device reports 0: not accumulated",
    "a device that doesn't count this energy, or that has just started",
    "nothing if it passes; otherwise book another counter, since the device doesn't have this " +
    "one"],
  scale_changed: [2, "the scale changed",
    "changed settings or firmware of the device, or a wrong scale at installation",
    "check the device, and enter a rescale if its scale has changed for good"],
  not_later: [3, "the time is not later than the last entry",
    "two responses in one second, or a clock that was set back",
    "nothing for a single reading; otherwise correct the clock"],
  span_too_long: [4, "the step since the last entry would span more than 3,000 quarter hours",
    "a device that wasn't reached for more than 31 days",
    "enter manual readings for times in between, at most 31 days apart"],
  gap_too_long: [5, "the counter may have rolled over unnoticed since the last entry",
    "a gap in which the maximum power could count through the whole range",
    "enter a manual reading, and give the rollovers during the gap as ROLLS"],
  too_fast: [6, "more energy than the ceiling allows",
    "a ceiling that is too low, a counter that was reset or exchanged, or a wrong reading",
    "compare the reading with the meter: enter a reset or an exchange if the counter was " +
    "changed, or a manual reading if it is right"],
  total_full: [7, "the meter's total would exceed 4 * 10^18 mWh",
    "a wrong reading, or a wrong scale", "compare the reading and the scale with the meter"],
  not_below_range: [8, "the counter is at or above its range",
    "a RANGE at installation that is below the counter's, or a wrong reading",
    "exchange the meter for itself under a new name, with the right RANGE"],
};
const REFUSED = {
  1: ["no device, register, meter, list, entry or poll has that name or number, or the register " +
    "never had a meter", "check the name; give a device its point list before its first round"],
  13: ["the database failed",
    "check the free disk space and the file's permissions, then restart: everything " +
    "acknowledged is kept"],
  14: ["out of memory", "give the program more memory, and retry"],
  15: ["the office stopped after 13 or 14 while it settled polls, and must be reopened",
    "check the disk and the memory, then restart the program: everything acknowledged is kept"],
};
const LACKS = {
  no_device: ["the office has no device with this name", "add it with POST /devices"],
  no_list: ["the device has no point list",
    "create one with sunreg scan --list, then POST /devices/NAME/list"],
  no_register: ["the device has no register, so its energy is not recorded",
    "add one with POST /registers"],
  not_in_list: ["the device's point list lacks the counter of this register or its scale",
    "add both to the list"],
  no_meter: ["the register has no open meter", "install one with POST /registers/NAME/install"],
};
const POLLS = {
  answered: "answered",
  exception: "answered with an exception",
  silent: "timed out",
  malformed: "answered with an invalid response",
  lost: "lost: the connection failed before a response",
};
const WEEKDAYS = ["Sun", "Mon", "Tue", "Wed", "Thu", "Fri", "Sat"];
const MONTHS = ["Jan", "Feb", "Mar", "Apr", "May", "Jun", "Jul", "Aug", "Sep", "Oct", "Nov", "Dec"];

// The last responses to `/site` and `/status`, or null before the first responses.
let site = null;
let status = null;
const answers = new Map(); // Cached responses by request path: parsed rows or an error message.
const used = new Set(); // Request paths of the rows that the latest refresh needed.
let trouble = "";
let answeredAt = 0;
// The selected register and its day, month or year, or null.
let place = null;

// ---- Requests to the server.

// An error with a message that the page shows to the user.
class Fault extends Error {}
class NoAnswer extends Fault {}

function meaningOf(code, text) {
  const refused = /"refused":(\d+)/.exec(text);
  if (!refused) return `HTTP status ${code}`;
  const words = REFUSED[refused[1]];
  const told = `refused ${refused[1]}`;
  return words ? `${told}: ${words[0]}. What to do: ${words[1]}` : told;
}

async function ask(path) {
  let reply;
  let text;
  try {
    reply = await fetch(path, { cache: "no-store", signal: AbortSignal.timeout(PATIENCE) });
    text = await reply.text();
  } catch {
    throw new NoAnswer("No response. Is sunreg still running?");
  }
  if (reply.ok) return text;
  throw new Fault(`The request for ${path} failed: ${meaningOf(reply.status, text)}.`);
}

async function askJson(path, member) {
  const text = await ask(path);
  try {
    const value = JSON.parse(text);
    if (Array.isArray(value[member])) return value;
  } catch {
  }
  throw new Fault(`The response to ${path} was incomplete or invalid.`);
}

// Fetches a text response and returns the match of each row with the regular expression `form`.
// Throws an error if a row doesn't match, or if the last line is not `end N` after N rows.
async function askRows(path, form) {
  const lines = (await ask(path)).split("\n");
  const end = lines.length > 1 && lines.pop() === "" && /^end (\d+)$/.exec(lines.pop());
  const rows = lines.map((line) => form.exec(line));
  if (!end || Number(end[1]) !== rows.length || rows.includes(null)) {
    throw new Fault(`The response to ${path} was incomplete or invalid, so it is not shown.`);
  }
  return rows;
}

async function askSums(path) {
  const rows = await askRows(path, /^(\d{4}-\d\d(?:-\d\d)?) +(\d+) +(\d+)$/);
  return rows.map((row) => ({ name: row[1], count: Number(row[2]), mwh: BigInt(row[3]) }));
}

async function askQuarters(path) {
  const rows = await askRows(path, /^(\d+) (\d+)$/);
  return rows.map((row) => ({ start: Number(row[1]), mwh: BigInt(row[2]) }));
}

async function askMeters(path) {
  const rows = await askRows(path, /^([\w-]+) (\d+) (\d+) (\d+) (-?\d+) (\d+) (open|ended)$/);
  return rows.map(([, name, opened, at, last, sf, total, state]) => ({
    name, opened: Number(opened), at: Number(at), last, sf, total, ended: state === "ended",
  }));
}

const pathOf = (...words) => words.map((word) => `/${encodeURIComponent(word)}`).join("");
const daysPath = (name, first, end) => pathOf("registers", name, "days", first, end);

// Returns the first day of the current year and the first day of the next year.
function boundsOfNow() {
  const now = dayAt(dateOf(site.at));
  const [first, last] = [later(now, -2), later(now, 2)].map((day) => day.slice(0, YEAR));
  return [firstOf(first), firstOf(later(last, 1))];
}

const yearPath = (name) => daysPath(name, ...boundsOfNow());
const monthsPath = (name) => pathOf("registers", name, "months");

const metersPath = (name) => pathOf("registers", name, "meters");

// Returns the request path of the daily energy in the selected year or month.
// All periods in the current year use one path, so that they share a cached response.
function spanPath({ register, period }) {
  const span = period.slice(0, period.length === YEAR ? YEAR : MONTH);
  const first = firstOf(later(span, 0));
  if (first >= boundsOfNow()[0]) return yearPath(register);
  return daysPath(register, first, firstOf(later(span, 1)));
}

// Returns start and end of a day in the browser's time zone, in seconds since 1970-01-01 UTC.
const boundsOf = (day) => [0, 1].map((count) => Math.max(0, startOf(day, count)));
const quartersPath = (meter, day) => pathOf("meters", meter, "intervals", ...boundsOf(day));

// Returns the meters that were read on the selected day, or before and after it.
function metersOf({ register, period }) {
  const [from, till] = boundsOf(period);
  return rowsOf(metersPath(register)).filter((it) => it.opened < till && it.at > from);
}

// Fetches rows with the function `asking`, unless the cache has them.
// A cached response is valid for 10 minutes, if the register is unchanged or `mayStay` is true.
async function keep(path, register, asking, mayStay = false) {
  if (used.has(path)) return;
  used.add(path);
  const known = answers.get(path);
  const isSame = known && (mayStay || JSON.stringify(known.register) === JSON.stringify(register));
  if (isSame && !known.fault && Date.now() - known.at < KEPT) return;
  const next = { register, at: Date.now(), rows: null, fault: "" };
  try {
    next.rows = await asking(path);
  } catch (fault) {
    if (fault instanceof NoAnswer || !(fault instanceof Fault)) throw fault;
    next.fault = fault.message;
  }
  answers.set(path, next);
  drawSoon();
}

const rowsOf = (path) => (answers.get(path) || {}).rows || [];
const registerOf = (name) => site && site.registers.find((it) => it.register === name);

async function askAll() {
  const both = [askJson("/site", "registers"), askJson("/status", "devices")];
  [site, status] = await Promise.all(both);
  trouble = "";
  answeredAt = Date.now();
  drawSoon();
  used.clear();
  // One request at a time, so that the server can poll devices in between.
  for (const it of site.registers) {
    if (it.meter !== null) await keep(yearPath(it.register), it, askSums);
  }
  const open = place && registerOf(place.register);
  if (open && open.meter !== null) await askOpen(place, open);
  for (const [path, kept] of answers) {
    if (!used.has(path) && Date.now() - kept.at >= KEPT) answers.delete(path);
  }
}

// Fetches the rows that the page needs for the selected register and period.
// New readings invalidate neither the cached months nor the cached quarter hours of past days.
async function askOpen(open, register) {
  await keep(monthsPath(open.register), register, askSums, true);
  await keep(metersPath(open.register), register, askMeters);
  await keep(spanPath(open), register, askSums);
  if (open.period.length !== DAY) return;
  for (const meter of metersOf(open)) {
    const path = quartersPath(meter.name, open.period);
    const known = answers.get(path);
    const isOver = known && open.period < dayAt(dateOf(known.register.at));
    await keep(path, register, askQuarters, isOver);
  }
}

let timer = 0;
let isAsking = false;
let isDue = false;
let isWaiting = false; // True if a refresh is postponed until the page becomes visible.

async function refresh() {
  isDue = true;
  isWaiting = document.hidden;
  if (isAsking || isWaiting) return;
  isAsking = true;
  clearTimeout(timer);
  try {
    while (isDue) {
      isDue = false;
      await askAll();
    }
  } catch (fault) {
    trouble = fault instanceof Fault ? fault.message : `Error in this page: ${fault}`;
    isDue = false;
  }
  isAsking = false;
  timer = setTimeout(refresh, trouble ? RETRY : MINUTE);
  drawSoon();
}

// ---- Numbers and dates.

// Formats mWh as exact kWh with `least` to six decimals.
function plainKwh(mwh, least = 6) {
  const digits = mwh.toString().padStart(7, "0");
  let part = digits.slice(-6);
  while (part.length > least && part.endsWith("0")) part = part.slice(0, -1);
  return `${digits.slice(0, -6)}.${part}`;
}

const grouped = (text) => text.replace(/\B(?=(\d{3})+(?!\d))/g, ",");
function kwh(mwh, least) {
  const [whole, part] = plainKwh(mwh, least).split(".");
  return part ? `${grouped(whole)}.${part}` : grouped(whole);
}

const shortKwh = (mwh) => `${kwh(mwh, 3)} kWh`;
const counterOf = ({ last, sf }) => BigInt(last) * 10n ** BigInt(Number(sf) + 3);
const sumOf = (rows) => rows.reduce((sum, row) => sum + row.mwh, 0n);
const two = (number) => String(number).padStart(2, "0");
const clockOf = (date) => `${two(date.getHours())}:${two(date.getMinutes())}`;
const dateOf = (seconds) => new Date(seconds * 1000);
const dayAt = (date) => {
  const year = String(date.getFullYear()).padStart(4, "0");
  return `${year}-${two(date.getMonth() + 1)}-${two(date.getDate())}`;
};
const partsOf = (period) => period.split("-").map(Number);
// Lengths of `2026-11-26`, `2026-11` and `2026`.
const DAY = 10;
const MONTH = 7;
const YEAR = 4;

// Returns midnight UTC of a calendar day, which no time zone moves.
function civil(year, month, day) {
  const date = new Date(0);
  date.setUTCFullYear(year, month - 1, day);
  return date;
}

// Adds `count` days to a day, `count` months to a month, or `count` years to a year.
function later(period, count) {
  const [year, month = 1, day = 1] = partsOf(period);
  const size = period.length;
  const more = (of) => (size === of ? count : 0);
  const date = civil(year + more(YEAR), month + more(MONTH), day + more(DAY));
  return date.toISOString().slice(0, size);
}

const firstOf = (period) => `${period}-01-01`.slice(0, DAY);

function titleOf(period) {
  const [year, month, day] = partsOf(period);
  const words = [MONTHS[month - 1], year];
  if (day) words.unshift(WEEKDAYS[civil(year, month, day).getUTCDay()], day);
  return month ? words.join(" ") : `${year}`;
}

// Returns when a day, `count` days after `day`, begins in the browser's time zone.
function startOf(day, count) {
  const [year, month, date] = partsOf(day);
  return new Date(year, month - 1, date + count).getTime() / 1000;
}

function offsetOf(date) {
  const minutes = -date.getTimezoneOffset();
  const [hour, rest] = [Math.floor(Math.abs(minutes) / 60), Math.abs(minutes) % 60];
  return `${minutes < 0 ? "-" : "+"}${two(hour)}:${two(rest)}`;
}

function dateTime(seconds) {
  const date = dateOf(seconds);
  return `${date.getDate()} ${titleOf(dayAt(date).slice(0, MONTH))}, ${clockOf(date)}`;
}

// Formats a timestamp, and omits its date if that is the date of the last refresh.
function shortTime(seconds) {
  const isToday = dayAt(dateOf(seconds)) === dayAt(dateOf(site.at));
  return isToday ? clockOf(dateOf(seconds)) : dateTime(seconds);
}

// Returns the site's current day: the day of the last daily row if that row shows that the site's
// time zone differs from the browser's, and otherwise the browser's day.
function today(register) {
  const now = dayAt(dateOf(site.at));
  const days = rowsOf(yearPath(register.register));
  if (!days.length) return now;
  const last = days[days.length - 1].name;
  const isOther = last !== dayAt(dateOf(register.at)) && site.at - register.at < HALF_DAY;
  return last > now || isOther ? last : now;
}

// ---- Elements of the page.

function filled(node, attributes, content) {
  for (const [name, value] of Object.entries(attributes)) node.setAttribute(name, value);
  node.append(...content);
  return node;
}

const make = (kind, attributes, ...content) =>
  filled(document.createElement(kind), attributes, content);
const shape = (kind, attributes, ...content) =>
  filled(document.createElementNS("http://www.w3.org/2000/svg", kind), attributes, content);

const shown = new Map();

// Redraws an element if `value` has changed, and restores focus and scrolling.
function fill(id, value, parts) {
  const key = JSON.stringify(value, (_, it) => (typeof it === "bigint" ? `${it}` : it));
  if (shown.get(id) === key) return;
  shown.set(id, key);
  const node = document.getElementById(id);
  const focused = node.contains(document.activeElement) ? document.activeElement.id : "";
  const rows = node.querySelector(".rows");
  const scrolled = rows ? rows.scrollTop : 0;
  node.replaceChildren(...parts());
  const anew = node.querySelector(".rows");
  if (anew) anew.scrollTop = scrolled;
  if (!focused) return;
  const found = document.getElementById(focused) || document.getElementById("heading");
  if (found) found.focus({ preventScroll: true });
}

const linkTo = (register, period) => `#${encodeURIComponent(register)}/${period}`;

function placeOf(hash) {
  const found = /^#([A-Za-z0-9_-]{1,16})\/(\d{4}(?:-\d\d){0,2})$/.exec(hash);
  return found && { register: found[1], period: found[2] };
}

// ---- Devices and their registers.

function stateOf(device) {
  if (!device) return ["faint", "Not being polled"];
  const last = device.last_reading;
  if (last === null) return ["silent", "No reading since sunreg started"];
  const old = site.at - last;
  if (old > LONG_AGO) return ["silent", `No reading since ${shortTime(last)}`];
  if (old <= LATELY) return ["answers", `Online. Last reading ${shortTime(last)}`];
  return ["faint", `Last reading ${shortTime(last)} (${Math.floor(old / 60)} minutes ago)`];
}

function figure(title, period, mwh) {
  return [
    make("dt", {}, `${title} `, make("small", {}, titleOf(period))),
    make("dd", {}, make("b", {}, kwh(mwh, 3)), " kWh"),
  ];
}

function figures(register) {
  const kept = answers.get(yearPath(register.register));
  if (!kept) return [make("p", {}, "Loading days...")];
  if (kept.fault) return [make("p", { class: "warn" }, kept.fault)];
  const of = (title, period) =>
    figure(title, period, sumOf(kept.rows.filter((row) => row.name.startsWith(period))));
  const day = today(register);
  return [make("dl", {},
    ...of("Today", day),
    ...of("This month", day.slice(0, MONTH)),
    ...of("This year", day.slice(0, YEAR)))];
}

function card(register) {
  const name = register.register;
  if (register.meter === null) {
    return make("article", { class: "card" }, make("h3", {}, name),
      make("p", {}, "No meter installed, so no energy is recorded."));
  }
  const href = linkTo(name, today(register));
  return make("article", { class: "card" },
    make("h3", {}, make("a", { href, id: `open-${name}` }, name)),
    make("p", {}, `Meter ${register.meter}${register.ended ? " (closed)" : ""}: ` +
      `counter ${shortKwh(counterOf(register))} (${shortTime(register.at)}); ` +
      `${shortKwh(BigInt(register.total))} since installation.`),
    ...figures(register));
}

function deviceParts() {
  const names = status.devices.map((it) => it.name);
  for (const it of site.registers) if (!names.includes(it.device)) names.push(it.device);
  if (!names.length) return [make("p", {}, "No devices set up yet.")];
  return names.flatMap((name) => {
    const device = status.devices.find((it) => it.name === name);
    const [kind, text] = stateOf(device);
    const registers = site.registers.filter((it) => it.device === name);
    const going = device && device.connected ? ". Reading now..." : "";
    return [
      make("h2", {}, name || "Device with an invalid name"),
      make("p", {}, make("span", { class: `state ${kind}` }, text), going),
      registers.length
        ? make("div", { class: "cards" }, ...registers.map(card))
        : make("p", {}, "No counter set up."),
    ];
  });
}

// ---- A day, month or year of the selected register.

// Returns a bar for each month of the selected year, or each day of the selected month.
// `mwh` is the energy of a bar in mWh, or null if nothing is recorded for its month or day.
// `name` is the CSV file's text for the period, and `href` the link that a click opens.
function monthsOrDays(register, days) {
  const { period } = place;
  const isYear = period.length === YEAR;
  const found = new Map();
  for (const row of days) {
    if (!row.name.startsWith(period)) continue;
    const name = row.name.slice(0, isYear ? MONTH : DAY);
    const sum = found.get(name) || { mwh: 0n, count: 0 };
    found.set(name, { mwh: sum.mwh + row.mwh, count: sum.count + row.count });
  }
  const [year, month] = partsOf(period);
  const room = isYear ? 12 : civil(year, month + 1, 0).getUTCDate();
  const now = today(register);
  const dayLabel = (index) => (index % 5 === 4 || index === 0 ? `${index + 1}` : "");
  const bars = [...Array(room).keys()].map((index) => {
    const name = `${period}-${two(index + 1)}`;
    const sum = found.get(name);
    return {
      index,
      name,
      title: titleOf(name),
      mwh: sum ? sum.mwh : null,
      count: sum ? sum.count : 0,
      label: isYear ? MONTHS[index] : dayLabel(index),
      href: sum ? linkTo(register.register, name) : "",
      isAhead: name > now,
    };
  });
  return { room, bars };
}

// The bar of a quarter hour in which a meter was replaced adds both meters.
function quarters(meters) {
  const [start, end] = [startOf(place.period, 0), startOf(place.period, 1)];
  const room = Math.round((end - start) / QUARTER);
  const found = new Map();
  for (const { name } of meters) {
    for (const row of rowsOf(quartersPath(name, place.period))) {
      const sum = found.get(row.start) || { mwh: 0n, names: [] };
      found.set(row.start, { mwh: sum.mwh + row.mwh, names: [...sum.names, name] });
    }
  }
  const isEven = offsetOf(dateOf(start)) === offsetOf(dateOf(end));
  const bars = [...Array(room).keys()].map((index) => {
    const at = start + index * QUARTER;
    const [from, to] = [dateOf(at), dateOf(at + QUARTER)];
    const clock = `${clockOf(from)} to ${clockOf(to)}`;
    const sum = found.get(at);
    return {
      index,
      name: `${dayAt(from)}T${clockOf(from)}:00${offsetOf(from)}`,
      title: isEven ? clock : `${clock} (from ${offsetOf(from)})`,
      mwh: sum ? sum.mwh : null,
      meters: sum && meters.length > 1 ? sum.names.join(", ") : "",
      label: from.getMinutes() === 0 && from.getHours() % 3 === 0 ? clockOf(from) : "",
      href: "",
      isAhead: at > site.at,
    };
  });
  return { room, bars };
}

// Returns the spacing of a chart's grid lines in mWh: 1, 2 or 5 times a power of ten.
function gridOf(most) {
  for (let unit = 1n; ; unit *= 10n) {
    for (const grid of [unit, 2n * unit, 5n * unit]) if (4n * grid >= most) return grid;
  }
}

// Positions in the chart: left, right, top and base of the bars, bottom.
const [LEFT, RIGHT, TOP, FOOT, UNDER] = [110, 960, 25, 275, 320];

function barShape(bar, x, wide, high) {
  const told = bar.mwh === null ? "no data" : `${kwh(bar.mwh)} kWh`;
  const kind = bar.mwh === null ? "none" : "bar";
  const parts = [
    shape("title", {}, `${bar.title}: ${told}`),
    shape("rect", { class: "room", x, width: wide, y: TOP, height: FOOT - TOP }),
  ];
  if (!bar.isAhead) {
    const [from, width] = [x + wide * 0.1, wide * 0.8];
    parts.push(shape("rect", { class: kind, x: from, width, y: FOOT - high, height: high }));
  }
  return bar.href
    ? shape("a", { href: bar.href, tabindex: -1 }, ...parts)
    : shape("g", {}, ...parts);
}

// Draws a bar chart. Only heights of bars come from rounded energies.
function curve({ room, bars }) {
  const some = bars.map((bar) => bar.mwh || 0n);
  const most = some.reduce((most, mwh) => (mwh > most ? mwh : most), 1n);
  const grid = gridOf(most);
  const marks = (most + grid - 1n) / grid;
  const heightOf = (mwh) => (FOOT - TOP) * (Number(mwh) / Number(marks * grid));
  const wide = (RIGHT - LEFT) / room;
  const isDay = place.period.length === DAY;
  const svg = shape("svg", {
    class: "curve",
    viewBox: `0 0 ${RIGHT} ${UNDER}`,
    role: "img",
    "aria-label": `Bar chart of ${titleOf(place.period)}, in kWh; the table below has the values`,
  });
  svg.append(shape("text", { x: 0, y: UNDER - 10 }, "kWh"));
  for (let mark = 0n; mark <= marks; mark += 1n) {
    const y = FOOT - heightOf(mark * grid);
    const text = kwh(mark * grid, 0);
    svg.append(shape("line", { x1: LEFT, x2: RIGHT, y1: y, y2: y }),
      shape("text", { x: LEFT - 8, y: y + 5, "text-anchor": "end" }, text));
  }
  for (const bar of bars) {
    const x = LEFT + bar.index * wide;
    svg.append(barShape(bar, x, wide, bar.mwh === null ? 5 : heightOf(bar.mwh)));
    const at = isDay ? { x } : { x: x + wide / 2, "text-anchor": "middle" };
    if (bar.label) svg.append(shape("text", { ...at, y: UNDER - 10 }, bar.label));
  }
  return svg;
}

function table(bars) {
  const isDay = place.period.length === DAY;
  const first = { [DAY]: "Time", [MONTH]: "Day", [YEAR]: "Month" }[place.period.length];
  const number = { class: "number" };
  const row = (bar) => make("tr", {},
    make("td", {}, bar.href
      ? make("a", { href: bar.href, id: `row-${bar.name}` }, bar.title)
      : bar.title),
    make("td", number, kwh(bar.mwh)),
    ...(isDay ? [] : [make("td", number, `${bar.count}`)]),
    ...(bar.meters ? [make("td", { class: "wide" }, bar.meters)] : []));
  const head = make("tr", {},
    make("th", { scope: "col" }, first),
    make("th", { scope: "col", ...number }, "kWh"),
    ...(isDay ? [] : [make("th", { scope: "col", ...number }, "15-minute values")]),
    ...(bars.some((bar) => bar.meters) ? [make("th", { scope: "col" }, "Meter")] : []));
  const rows = bars.filter((bar) => bar.mwh !== null).map(row);
  const named = { role: "region", "aria-label": "Values" };
  return make("div", { class: "rows", id: "rows", tabindex: 0, ...named },
    make("table", {}, make("thead", {}, head), make("tbody", {}, ...rows)));
}

let fileUrl = "";

// Returns a link to a CSV file in the format of `sunreg report --format csv --unit kwh`.
function fileLink(bars) {
  const first = { [DAY]: "start", [MONTH]: "day", [YEAR]: "month" }[place.period.length];
  const lines = [`${first},energy_kwh\r\n`];
  for (const bar of bars) if (bar.mwh !== null) lines.push(`${bar.name},${plainKwh(bar.mwh)}\r\n`);
  URL.revokeObjectURL(fileUrl);
  fileUrl = URL.createObjectURL(new Blob(lines, { type: "text/csv" }));
  const download = `${place.register}-${place.period}.csv`;
  return make("p", {},
    make("a", { id: "file", href: fileUrl, download }, "Download CSV"));
}

// Reports whether the quarter hours of the selected day add up to the day's recorded energy.
function comparison(sum, days, register) {
  const isNow = place.period === today(register);
  const row = days.find((it) => it.name === place.period);
  const office = row ? row.mwh : 0n;
  if (sum === office) {
    const told = `Total ${shortKwh(sum)}, matching the recorded day.`;
    return make("p", { id: "sum" }, told);
  }
  return make("p", { id: "sum", class: "warn" },
    `These 15-minute values add up to ${shortKwh(sum)}, but ${shortKwh(office)} are recorded for ` +
    "this day. They differ if this browser is in another time zone than the site, " +
    `${isNow ? "if a reading has just arrived, " : ""}or if the day is in an earlier file.`);
}

function around(register, days) {
  const { period } = place;
  const size = period.length;
  const last = today(register);
  const months = rowsOf(monthsPath(register.register));
  const begun = months.length ? months[0].name : last;
  // The first recorded day, or the first day of its month if `days` lacks it.
  const rows = days.filter((row) => row.name.startsWith(begun));
  const first = rows.length ? rows[0].name : firstOf(begun);
  const word = { [DAY]: "day", [MONTH]: "month", [YEAR]: "year" }[size];
  const link = (id, text, to, isThere) => (isThere
    ? make("a", { class: "button", id, href: linkTo(register.register, to) }, text)
    : make("span", { class: "button off" }, text));
  const within = days.filter((row) => row.name.startsWith(period));
  const day = within.length ? within[within.length - 1].name : `${period}-01-01`.slice(0, DAY);
  const kind = (title, of) => make("a", {
    class: "button",
    id: `by-${title}`,
    href: linkTo(register.register, day.slice(0, of)),
    ...(of === size ? { "aria-current": "page" } : {}),
  }, title);
  const [before, after] = [later(period, -1), later(period, 1)];
  return [
    make("nav", { "aria-label": "Period" },
      kind("Day", DAY), kind("Month", MONTH), kind("Year", YEAR),
      make("a", { class: "button apart", id: "close", href: "#" }, "Close")),
    make("nav", { "aria-label": "Previous and next" },
      link("before", `\u2190 Previous ${word}`, before, before >= first.slice(0, size)),
      link("after", `Next ${word} \u2192`, after, after <= last.slice(0, size))),
  ];
}

function pathsOf() {
  const name = place.register;
  const paths = [yearPath(name), monthsPath(name), metersPath(name), spanPath(place)];
  if (place.period.length !== DAY) return paths;
  return [...paths, ...metersOf(place).map((it) => quartersPath(it.name, place.period))];
}

function meterItem(it) {
  const last = `${it.ended ? "closed" : "last reading"} ${dateTime(it.at)}`;
  return [make("b", {}, it.name), `: installed ${dateTime(it.opened)}; ${last}; ` +
    `counter ${shortKwh(counterOf(it))}; total ${shortKwh(BigInt(it.total))}.`];
}

function periodParts(register) {
  const isDay = place.period.length === DAY;
  const there = isDay ? metersOf(place) : [];
  const names = there.map((it) => `, meter ${it.name}`);
  const whose = isDay ? names.join("") : ", all meters";
  const heading = make("h2", { id: "heading", tabindex: -1 },
    `${titleOf(place.period)} `, make("small", {}, place.register, whose));
  const [year, months, meters, days, ...rows] = pathsOf().map((path) => answers.get(path));
  const asked = [make("p", {}, "Loading days...")];
  const failed = (it) => [make("p", { class: "warn" }, it.fault)];
  for (const it of [year, months, meters]) {
    if (!it) return [heading, ...asked];
    if (it.fault) return [heading, ...failed(it)];
  }
  const parts = [heading, ...around(register, (days && days.rows) || [])];
  if (!days) return [...parts, ...asked];
  if (days.fault) return [...parts, ...failed(days)];
  for (const it of rows) {
    if (!it) return [...parts, make("p", {}, "Loading 15-minute values...")];
    if (it.fault) return [...parts, ...failed(it)];
  }
  const drawn = isDay ? quarters(there) : monthsOrDays(register, days.rows);
  const some = drawn.bars.filter((bar) => bar.mwh !== null);
  const sum = sumOf(some);
  if (isDay) {
    parts.push(make("p", { class: "faint" },
      `15-minute values, ${zone()} time. ${some.length} of ${drawn.room} available.`));
  }
  const told = isDay
    ? comparison(sum, days.rows, register)
    : make("p", { id: "sum" }, `Total ${shortKwh(sum)}`);
  if (!some.length) return [...parts, make("p", {}, "No energy recorded in this period."), told];
  return [...parts, curve(drawn), told, table(drawn.bars), fileLink(drawn.bars)];
}

function detailParts(register) {
  const meters = answers.get(metersPath(place.register));
  if (!meters || meters.fault) return periodParts(register);
  const items = list(meters.rows.map(meterItem));
  return [...periodParts(register), make("h3", {}, "Meters"), items];
}

function drawDetail() {
  const register = place && registerOf(place.register);
  document.getElementById("detail").hidden = !place;
  if (!place) {
    fill("detail", null, () => []);
  } else if (!register || register.meter === null) {
    fill("detail", place, () => [
      make("p", { id: "heading", tabindex: -1 },
        `There is no counter ${place.register} with a meter.`),
      make("p", {}, make("a", { class: "button", id: "close", href: "#" }, "Close")),
    ]);
  } else {
    const kept = pathsOf().map((path) => [path, answers.get(path)]);
    const told = kept.map(([path, it]) => it && [path, it.at, it.fault]);
    const state = [place, register, told, Math.floor(site.at / QUARTER)];
    fill("detail", state, () => detailParts(register));
  }
}

// ---- Rejected readings, incomplete set-up and polls.

const list = (items) => make("ul", {}, ...items.map((it) => make("li", {}, ...it)));
const count = (number, noun) => `${grouped(`${number}`)} ${noun}${number === 1 ? "" : "s"}`;

function heldItem(name) {
  const [number, means, cause, remedy] = HELD[name];
  const readings = count(status.held[name], "reading");
  return [make("b", {}, `${readings} rejected (held ${number}): ${means}.`),
    ` Usual cause: ${cause}. What to do: ${remedy}.`];
}

function lackItem(lack) {
  const [means, remedy] = LACKS[lack.lack] || [lack.lack, "see docs/HTTP.md"];
  const whose = [lack.device || "-"];
  if (lack.register) whose.push(`register ${lack.register}`);
  const named = remedy.replace("NAME", () => lack.register || lack.device);
  return [make("b", {}, `${whose.join(", ")}: ${means}.`), ` What to do: ${named}.`];
}

function refusalText() {
  if (!status.refusals) return "No device events refused.";
  return `${count(status.refusals, "device event")} refused. The log of sunreg run has each as ` +
    "refused N; sunreg explain refused N says what to do.";
}

function noteParts() {
  const title = (text, more) => make("h2", {}, `${text} `, make("small", {}, more));
  const held = Object.keys(HELD).filter((name) => status.held[name] > 0);
  const polls = Object.keys(POLLS).filter((name) => name === "answered" || status.polls[name] > 0);
  const parts = [
    title("Needs attention", "since sunreg started"),
    held.length ? list(held.map(heldItem)) : make("p", {}, "No readings rejected."),
    make("p", {}, refusalText()),
  ];
  if (status.lacks.length) {
    parts.push(title("Incomplete set-up", "when sunreg started"),
      list(status.lacks.map(lackItem)));
  }
  parts.push(title("Polls", "since sunreg started"),
    list(polls.map((name) => [`${count(status.polls[name], "poll")} ${POLLS[name]}`])));
  return parts;
}

// ---- The complete page and its events.

const zone = () => Intl.DateTimeFormat().resolvedOptions().timeZone;

function draw() {
  const box = document.getElementById("trouble");
  const of = answeredAt && trouble ? ` Showing data as of ${dateTime(answeredAt / 1000)}.` : "";
  box.hidden = !trouble;
  if (box.textContent !== trouble + of) box.textContent = trouble + of;
  document.body.classList.toggle("stale", Boolean(trouble));
  const title = place ? `${place.register} ${place.period}, sunreg` : "sunreg";
  document.title = trouble ? "sunreg: not up to date" : title;
  document.getElementById("zone").textContent = zone();
  if (!site || !status) return;
  document.getElementById("moment").textContent =
    `As of ${dateTime(site.at)}. Refreshes every minute.`;
  const years = site.registers.map((it) => answers.get(yearPath(it.register)));
  fill("devices", [site, status.devices, years], deviceParts);
  drawDetail();
  fill("notes", status, noteParts);
}

let isDrawing = false;

// Redraws the page once for all responses within 20 ms.
function drawSoon() {
  if (isDrawing) return;
  isDrawing = true;
  setTimeout(() => {
    isDrawing = false;
    draw();
  }, 20);
}

function go() {
  const before = place;
  place = placeOf(location.hash);
  if (site) draw();
  const heading = document.getElementById("heading");
  if (place && heading && !(before && before.register === place.register)) heading.focus();
  const opener = !place && before && document.getElementById(`open-${before.register}`);
  if (opener) opener.focus();
  const register = place && registerOf(place.register);
  const isHere = register && place.period.length !== DAY &&
    pathsOf().every((path) => answers.has(path));
  if (place && !isHere) refresh();
}

function press(event) {
  if (!place || event.altKey || event.ctrlKey || event.metaKey || event.shiftKey) return;
  const id = { ArrowLeft: "before", ArrowRight: "after", Escape: "close" }[event.key];
  const link = id && document.getElementById(id);
  if (link) {
    event.preventDefault();
    link.click();
  }
}

window.addEventListener("hashchange", go);
document.addEventListener("keydown", press);
document.getElementById("again").addEventListener("click", () => {
  for (const kept of answers.values()) kept.at = 0;
  refresh();
});
document.addEventListener("visibilitychange", () => {
  if (isWaiting) refresh();
});
place = placeOf(location.hash);
refresh();
