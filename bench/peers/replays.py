"""replays.py PROGRAM [N [TURNS]]: times scripts of polls beside plain programs in Rust and Python.

bench/replay.sh runs it. All programs execute the same lines, and must print the same.
"""
import os
import sys

from sites import HERE, compiled, load, machine, measured, memory, places
from rounds import ratio

# The program's own limit, in bytes.
MOST = 4194304
OFFICE = HERE.parent / "office.py"


def script(polls, devices, registers, window):
    """Returns a script of polls and their responses.

    It sets the devices up, the registers of each with a list, and a meter at each register. Then
    come rounds over the devices in turn, each of as many polls as may wait, with their responses in
    one line. Each counter rises by 1 Wh from reading to reading, and readings come every 900
    seconds. Where one poll may wait, a line starts it without a list. Two queries end the
    script."""
    text = "name,function,area,address,type,scale\n" + "".join(f"c{r},3,0,{200 * r},acc32,\n" for r in range(registers))
    out = []
    for d in range(devices):
        out += [f"0 device d{d} 1 5 {window}", f"0 connect d{d}"] + [f"0 list d{d} {text.encode().hex()}"] * (window > 1)
        for r in range(registers):
            m = d * registers + r
            out += [f"0 register r{m} d{d} 3 {200 * r} 0", f"0 install r{m} m{m} 1 0 100000"]
    for group in range(polls // window):
        turn, k = divmod(group, devices * registers // window)
        d, first = divmod(k * window, registers)
        at = 900 * (turn + 1)
        of = [(turn * registers + first + r) % 65536 for r in range(window)]
        replies = "".join(f"{number:04x}00000007010304{turn + 2:08x}" for number in of)
        out += [f"{at} round d{d} {first}" if window > 1 else f"{at} start d{d} 3 {200 * first} 2", f"{at} bytes d{d} {replies}"]
    return "\n".join([*out, "meter m0", "intervals m0"]) + "\n"


def compare(room, program, row, turns):
    """Returns one row of the table: the least of some runs."""
    polls, devices, registers, window = row
    lines = script(*row)
    if len(lines) > MOST:
        sys.exit(f"replays.py: {polls} polls are {len(lines)} bytes, and the program takes {MOST} at most: give fewer")
    (room / "script").write_text(lines)
    words = {"sunreg": [program], "Rust": [compiled("replay")], "Python": [sys.executable, OFFICE]}
    printed = {name: room / f"{name}.printed" for name in words}
    runs = {name: [] for name in words}
    for _ in range(turns):
        for name, of in words.items():
            runs[name].append(measured(of, printed[name], room / "script"))
    ours = printed["sunreg"].read_bytes()
    for name, it in printed.items():
        if it.read_bytes() != ours:
            sys.exit(f"replays.py: sunreg and {name} did not print the same")
    least = {name: [min(it) for it in zip(*of)] for name, of in runs.items()}
    took, cost, _ = least["sunreg"]
    held = [memory(of, room / "script") for of in words.values()]
    how = "set up alone" if polls == 0 else f"{polls:,} polls" + f" by rounds of {window}" * (window > 1)
    cells = [f"{devices * registers:,}, {how}", f"{lines.count(chr(10)):,}", f"{1000 * cost:.0f} ms"]
    for name in ("Rust", "Python"):
        cells += [ratio(least[name][1], cost), ratio(least[name][0], took)]
    cells += [f"{it:.1f} MiB" for it in held]
    print("|", " | ".join(cells), "|", flush=True)
    return cost, held[0]


def main():
    program, polls, turns = os.path.abspath(sys.argv[1]), *(int(sys.argv[at]) if len(sys.argv) > at else it for at, it in ((2, 100_000), (3, 3)))
    room = places()["tmpfs"]
    machine(program)
    heads = ["Meters, polls", "Lines", "sunreg, processor time", "Rust: ratio of processor time", "by the clock"]
    heads += ["Python: ratio of processor time", "by the clock", "Memory: sunreg", "Rust", "Python"]
    print("|", " | ".join(heads), "|\n|" + "---|" * len(heads), flush=True)
    sets = [[(n, 1, 1, 1) for n in (polls // 4, polls // 2)], [(n, 64, 32, 1) for n in (0, polls // 25, polls * 2 // 25)]]
    sets.append([(n, 64, 32, 16) for n in (0, polls // 2, polls)])
    grown = []
    for rows in sets:
        *_, half, whole = [compare(room, program, it, turns) for it in rows]
        grown.append(f"{whole[0] / half[0]:.1f} times the time, {whole[1] / half[1]:.1f} times the memory")
    print("Twice the polls take", "; ".join(grown))
    print(f"load {load()} at the end", flush=True)


if __name__ == "__main__":
    main()
