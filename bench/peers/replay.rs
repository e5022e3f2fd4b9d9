//! Executes the script on standard input as a plain Rust program does, by maps and lists, without
//! proof.
//!
//! bench/replay.sh times sunreg beside it. It knows the lines of the timed scripts (device, list,
//! register, install, connect, start, round, bytes, tick, meter and intervals) and their outputs.
//! It handles counters of a fixed scale, and lists of counters that are too far apart for one read
//! of two.
use std::collections::{BTreeMap, HashMap};
use std::fmt::Write as _;
use std::io::{self, Read, Write};
use std::process::ExitCode;

const QUARTER: u64 = 900;
const MOST_QUARTERS: u64 = 3000;
const MOST_TOTAL: u64 = 4_000_000_000_000_000_000;
const FULL_RANGE: u64 = 1 << 32;

/// Why a line changes nothing: it has no valid form, or it is refused with a number.
enum Fault {
    Bad,
    Refused(u8),
}

type Done<T = ()> = Result<T, Fault>;

enum Outcome {
    Pending,
    Answered,
    Exception(u8),
    Silent,
    Malformed,
}

struct Poll {
    device: usize,
    id: u16,
    function: u8,
    address: u16,
    count: u16,
    due: u64,
}

struct Device {
    unit: u8,
    timeout: u64,
    window: usize,
    registers: Vec<usize>,
    reads: Vec<(u8, u16)>,
    is_connected: bool,
    next_id: u16,
    /// The pending polls by their identifiers.
    waiting: HashMap<u16, u64>,
    stream: Vec<u8>,
}

struct Register {
    function: u8,
    address: u16,
    sf: i32,
    meter: Option<usize>,
}

struct Entry {
    at: u64,
    raw: u64,
    rolls: u64,
    step: u64,
}

struct Meter {
    name: String,
    sf: i32,
    ceiling: u64,
    range: u64,
    total: u64,
    /// The last entry.
    last: Entry,
    /// The entries before the last.
    entries: Vec<Entry>,
    quarters: BTreeMap<u64, u64>,
}

#[derive(Default)]
struct Office {
    devices: Vec<Device>,
    registers: Vec<Register>,
    meters: Vec<Meter>,
    device_names: HashMap<String, usize>,
    register_names: HashMap<String, usize>,
    meter_names: HashMap<String, usize>,
    latest: u64,
    outcomes: Vec<Outcome>,
    pending: BTreeMap<u64, Poll>,
}

// ---- Words ----

fn number(word: &str) -> Done<u64> {
    if word.is_empty() || word.len() > 19 || !word.bytes().all(|it| it.is_ascii_digit()) {
        return Err(Fault::Bad);
    }
    word.parse().ok().filter(|it| *it < 1 << 63).ok_or(Fault::Bad)
}

fn signed(word: &str) -> Done<i32> {
    word.parse().map_err(|_| Fault::Bad)
}

fn bytes_of(word: &str) -> Done<Vec<u8>> {
    let digit = |it: u8| (it as char).to_digit(16).map(|it| it as u8).ok_or(Fault::Bad);
    if word.len() % 2 == 1 {
        return Err(Fault::Bad);
    }
    word.as_bytes().chunks(2).map(|it| Ok(digit(it[0])? << 4 | digit(it[1])?)).collect()
}

fn put_hex(text: &mut String, bytes: &[u8]) {
    for it in bytes {
        for digit in [it >> 4, it & 15] {
            text.push(b"0123456789abcdef"[digit as usize] as char);
        }
    }
}

fn is_name(word: &str) -> bool {
    word.len() <= 16
        && word.starts_with(|it: char| it.is_ascii_alphabetic())
        && word.bytes().all(|it| it.is_ascii_alphanumeric() || it == b'_' || it == b'-')
}

fn check(holds: bool, why: u8) -> Done {
    if holds { Ok(()) } else { Err(Fault::Refused(why)) }
}

fn find(names: &HashMap<String, usize>, name: &str) -> Done<usize> {
    names.get(name).copied().ok_or(Fault::Refused(1))
}

fn enter(names: &mut HashMap<String, usize>, name: &str) -> Done<usize> {
    check(!names.contains_key(name), 2)?;
    let place = names.len();
    names.insert(name.to_string(), place);
    Ok(place)
}

// ---- Meters ----

/// Returns the milliwatt-hours of a count at a scale factor.
fn unit(sf: i32) -> u64 {
    10u64.pow((sf + 3) as u32)
}

impl Meter {
    /// Returns the cause for which a reading is rejected, if there is one.
    fn cause(&self, at: u64, raw: u64, sf: i32) -> Option<u8> {
        let (last, gone) = (self.last.at, (raw + self.range - self.last.raw) % self.range);
        let could = self.ceiling as u128 * at.saturating_sub(last) as u128 * 5;
        let takes = |count: u64| count as u128 * unit(self.sf) as u128 * 18;
        let causes = [
            (raw == 0, 1),
            (sf != self.sf, 2),
            (raw >= self.range, 8),
            (at <= last, 3),
            (at > last && (at - 1) / QUARTER - last / QUARTER >= MOST_QUARTERS, 4),
            (takes(self.range - 1) <= could, 5),
            (takes(gone.saturating_sub(1)) > could, 6),
            (self.total as u128 + gone as u128 * unit(self.sf) as u128 > MOST_TOTAL as u128, 7),
        ];
        causes.into_iter().find(|it| it.0).map(|it| it.1)
    }

    /// Records a reading of the counter, or rejects it.
    fn read(&mut self, at: u64, raw: u64, sf: i32, told: &mut String) {
        if let Some(cause) = self.cause(at, raw, sf) {
            let _ = writeln!(told, "held {} {raw} cause {cause}", self.name);
            return;
        }
        let rolls = u64::from(raw < self.last.raw);
        let step = (raw + self.range - self.last.raw) % self.range * unit(sf);
        self.spread(at, step);
        self.total += step;
        self.entries.push(std::mem::replace(&mut self.last, Entry { at, raw, rolls, step }));
        let Entry { raw, rolls, step, .. } = self.last;
        let _ = writeln!(told, "reading {} {raw} rolls {rolls} step {step}", self.name);
    }

    /// Gives each quarter hour the energy since the step began, rounded down, less what was
    /// already given.
    fn spread(&mut self, till: u64, step: u64) {
        let (begin, mut given) = (self.last.at, 0);
        for start in (begin / QUARTER * QUARTER..till).step_by(QUARTER as usize) {
            let gone = till.min(start + QUARTER) - begin;
            let so_far = (step as u128 * gone as u128 / (till - begin) as u128) as u64;
            *self.quarters.entry(start).or_insert(0) += so_far - given;
            given = so_far;
        }
    }
}

// ---- The office ----

impl Office {
    /// Times out the polls whose deadline has passed at this time.
    fn reach(&mut self, at: u64, told: &mut String) -> Done {
        check(at >= self.latest, 3)?;
        let over: Vec<u64> = self.pending.iter().filter(|it| it.1.due <= at).map(|it| *it.0).collect();
        for number in over {
            self.settle(number, Outcome::Silent, told);
        }
        Ok(())
    }

    fn settle(&mut self, number: u64, outcome: Outcome, told: &mut String) {
        if let Some(poll) = self.pending.remove(&number) {
            self.devices[poll.device].waiting.remove(&poll.id);
        }
        let _ = match outcome {
            Outcome::Pending => writeln!(told, "poll {number} pending"),
            Outcome::Answered => writeln!(told, "poll {number} answered"),
            Outcome::Exception(code) => writeln!(told, "poll {number} exception {code}"),
            Outcome::Silent => writeln!(told, "poll {number} silent"),
            Outcome::Malformed => writeln!(told, "poll {number} malformed 1"),
        };
        self.outcomes[number as usize - 1] = outcome;
    }

    fn add_device(&mut self, name: &str, unit: u64, timeout: u64, window: u64) -> Done {
        check(is_name(name) && unit <= 255 && (1..=60).contains(&timeout) && (1..=16).contains(&window), 12)?;
        enter(&mut self.device_names, name)?;
        self.devices.push(Device {
            unit: unit as u8,
            timeout,
            window: window as usize,
            registers: Vec::new(),
            reads: Vec::new(),
            is_connected: false,
            next_id: 0,
            waiting: HashMap::new(),
            stream: Vec::new(),
        });
        Ok(())
    }

    fn put_list(&mut self, name: &str, text: &[u8]) -> Done {
        let text = std::str::from_utf8(text).map_err(|_| Fault::Bad)?;
        let mut reads = Vec::new();
        for row in text.lines().skip(1) {
            let cells: Vec<&str> = row.split(',').collect();
            let [_, function, _, address, _, _] = cells[..] else {
                return Err(Fault::Bad);
            };
            reads.push((number(function)? as u8, number(address)? as u16));
        }
        reads.sort();
        let device = find(&self.device_names, name)?;
        self.devices[device].reads = reads;
        Ok(())
    }

    fn add_register(&mut self, name: &str, device: &str, function: u64, address: u64, sf: i32) -> Done {
        check(is_name(name) && (3..=4).contains(&function) && address < 65535, 12)?;
        let device = find(&self.device_names, device)?;
        let place = enter(&mut self.register_names, name)?;
        self.registers.push(Register { function: function as u8, address: address as u16, sf, meter: None });
        self.devices[device].registers.push(place);
        Ok(())
    }

    fn install(&mut self, at: u64, register: &str, name: &str, raw: u64, sf: i32, ceiling: u64, range: u64) -> Done {
        check(is_name(name) && raw < range && (65536..=FULL_RANGE).contains(&range), 12)?;
        check((-3..=3).contains(&sf), 4)?;
        let register = find(&self.register_names, register)?;
        check(self.registers[register].meter.is_none(), 2)?;
        let place = enter(&mut self.meter_names, name)?;
        let (name, last) = (name.to_string(), Entry { at, raw, rolls: 0, step: 0 });
        self.meters.push(Meter { name, sf, ceiling, range, total: 0, last, entries: Vec::new(), quarters: BTreeMap::new() });
        self.registers[register].meter = Some(place);
        Ok(())
    }

    fn connect(&mut self, name: &str) -> Done {
        let place = find(&self.device_names, name)?;
        let device = &mut self.devices[place];
        check(!device.is_connected, 10)?;
        (device.is_connected, device.next_id) = (true, 0);
        device.stream.clear();
        Ok(())
    }

    /// Returns a device that can start a poll now.
    fn ready(&self, name: &str) -> Done<usize> {
        let place = find(&self.device_names, name)?;
        let device = &self.devices[place];
        check(device.is_connected && device.waiting.len() < device.window, 10)?;
        Ok(place)
    }

    fn start(&mut self, at: u64, name: &str, function: u64, address: u64, count: u64, told: &mut String) -> Done {
        check((3..=4).contains(&function) && (1..=125).contains(&count) && address + count <= 65536, 12)?;
        let device = self.ready(name)?;
        let _ = write!(told, "started {} 1 1 ", self.outcomes.len() + 1);
        self.ask(at, device, function as u8, address as u16, count as u16, told);
        told.push('\n');
        Ok(())
    }

    fn round(&mut self, at: u64, name: &str, first: u64, told: &mut String) -> Done {
        check(!self.devices[find(&self.device_names, name)?].reads.is_empty(), 1)?;
        let place = self.ready(name)?;
        let device = &self.devices[place];
        let of = device.reads.len();
        check(first < of as u64, 12)?;
        let count = (of - first as usize).min(device.window - device.waiting.len());
        let _ = write!(told, "started {} {count} {of} ", self.outcomes.len() + 1);
        for read in first as usize..first as usize + count {
            let (function, address) = self.devices[place].reads[read];
            self.ask(at, place, function, address, 2, told);
        }
        told.push('\n');
        Ok(())
    }

    /// Starts one more poll, and prints its frame.
    fn ask(&mut self, at: u64, place: usize, function: u8, address: u16, count: u16, told: &mut String) {
        let device = &mut self.devices[place];
        let id = device.next_id;
        device.next_id = id.wrapping_add(1);
        self.outcomes.push(Outcome::Pending);
        let number = self.outcomes.len() as u64;
        device.waiting.insert(id, number);
        self.pending.insert(number, Poll { device: place, id, function, address, count, due: at + device.timeout });
        let [id, address, count] = [id, address, count].map(u16::to_be_bytes);
        put_hex(told, &[id[0], id[1], 0, 0, 0, 6, device.unit, function, address[0], address[1], count[0], count[1]]);
    }

    fn take(&mut self, at: u64, name: &str, more: &[u8], told: &mut String) -> Done {
        let place = find(&self.device_names, name)?;
        check(self.devices[place].is_connected, 10)?;
        let mut stream = std::mem::take(&mut self.devices[place].stream);
        stream.extend_from_slice(more);
        let mut begin = 0;
        while let Some(head) = stream.get(begin..begin + 6) {
            let end = begin + 6 + u16::from_be_bytes([head[4], head[5]]) as usize;
            let Some(frame) = stream.get(begin..end) else {
                break;
            };
            self.answer(at, place, frame, told);
            begin = end;
        }
        stream.drain(..begin);
        self.devices[place].stream = stream;
        Ok(())
    }

    fn answer(&mut self, at: u64, place: usize, frame: &[u8], told: &mut String) {
        let device = &self.devices[place];
        let Some(&number) = device.waiting.get(&u16::from_be_bytes([frame[0], frame[1]])) else {
            return;
        };
        let Poll { function, address, count, .. } = self.pending[&number];
        match *frame {
            [_, _, _, _, _, _, unit, code, fault] if unit == device.unit && code == function | 128 => {
                self.settle(number, Outcome::Exception(fault), told)
            }
            [_, _, _, _, _, _, unit, code, length, ref words @ ..]
                if unit == device.unit && code == function && length as u16 == 2 * count && words.len() == length as usize =>
            {
                self.settle(number, Outcome::Answered, told);
                for &it in &self.devices[place].registers {
                    let Register { function: of, address: from, sf, meter } = self.registers[it];
                    let (Some(first), Some(meter)) = (from.checked_sub(address), meter) else {
                        continue;
                    };
                    let first = 2 * first as usize;
                    if let (true, Some(&[a, b, c, d])) = (of == function, words.get(first..first + 4)) {
                        self.meters[meter].read(at, u32::from_be_bytes([a, b, c, d]).into(), sf, told);
                    }
                }
            }
            _ => self.settle(number, Outcome::Malformed, told),
        }
    }

    fn tell(&self, name: &str, told: &mut String) -> Done {
        let meter = &self.meters[find(&self.meter_names, name)?];
        let Meter { sf, total, last: Entry { raw, at, .. }, .. } = meter;
        let _ = writeln!(told, "meter {name} last {raw} sf {sf} at {at} total {total} open");
        Ok(())
    }

    fn intervals(&self, name: &str, told: &mut String) -> Done {
        let quarters = &self.meters[find(&self.meter_names, name)?].quarters;
        for (start, energy) in quarters {
            let _ = writeln!(told, "{start} {energy}");
        }
        let _ = writeln!(told, "end {}", quarters.len());
        Ok(())
    }

    fn feed(&mut self, at: u64, words: &[&str], told: &mut String) -> Done {
        self.reach(at, told)?;
        let (mut has_told, mut started) = (false, String::new());
        match *words {
            ["device", name, unit, timeout, window] => self.add_device(name, number(unit)?, number(timeout)?, number(window)?)?,
            ["list", name, text] => self.put_list(name, &bytes_of(text)?)?,
            ["register", name, device, function, address, sf] => {
                self.add_register(name, device, number(function)?, number(address)?, signed(sf)?)?
            }
            ["install", register, meter, raw, sf, ceiling] => {
                self.install(at, register, meter, number(raw)?, signed(sf)?, number(ceiling)?, FULL_RANGE)?
            }
            ["install", register, meter, raw, sf, ceiling, range] => {
                self.install(at, register, meter, number(raw)?, signed(sf)?, number(ceiling)?, number(range)?)?
            }
            ["connect", name] => self.connect(name)?,
            ["start", name, function, address, count] => {
                has_told = true;
                self.start(at, name, number(function)?, number(address)?, number(count)?, &mut started)?
            }
            ["round", name, first] => {
                has_told = true;
                self.round(at, name, number(first)?, &mut started)?
            }
            ["bytes", name, more] => self.take(at, name, &bytes_of(more)?, told)?,
            ["tick"] => {}
            _ => return Err(Fault::Bad),
        }
        self.latest = at;
        told.push_str(if has_told { &started } else { "ok\n" });
        Ok(())
    }

    fn carry_out(&mut self, line: &str, told: &mut String) -> Done {
        let words: Vec<&str> = line.split(' ').collect();
        match words[..] {
            ["meter", name] => self.tell(name, told),
            ["intervals", name] => self.intervals(name, told),
            [at, ref words @ ..] => self.feed(number(at)?, words, told),
            [] => Err(Fault::Bad),
        }
    }
}

fn main() -> ExitCode {
    let (mut script, mut office) = (String::new(), Office::default());
    let mut output = io::BufWriter::new(io::stdout().lock());
    if io::stdin().read_to_string(&mut script).is_err() {
        return ExitCode::from(3);
    }
    let mut told = String::new();
    for (place, line) in script.split('\n').enumerate() {
        if line.is_empty() || line.starts_with('#') {
            continue;
        }
        told.clear();
        let is_bad = match office.carry_out(line, &mut told) {
            Ok(()) => false,
            Err(Fault::Refused(why)) => {
                told = format!("refused {why}\n");
                false
            }
            Err(Fault::Bad) => {
                told = format!("bad line {}\n", place + 1);
                true
            }
        };
        if output.write_all(told.as_bytes()).is_err() {
            return ExitCode::from(3);
        }
        if is_bad {
            return ExitCode::from(1);
        }
    }
    match output.flush() {
        Ok(()) => ExitCode::SUCCESS,
        Err(_) => ExitCode::from(3),
    }
}
