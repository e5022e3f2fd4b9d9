#!/usr/bin/env python3
"""words.py [--man | --manual] [PROGRAM]: compares the program's texts about itself with the pages.

It compares, with the built program:
- the tables of numbers in docs/SCRIPT.md, the output of `explain`, and the statuses of faults in
  docs/HTTP.md: each of their numbers is explained, and no other
- the help texts, docs/sunreg.1, and the words that bash completes
- each command's example, which the program must accept unchanged
- the version, and the logic of the kit, if the kit is there
- the message to a person at a terminal who gives no argument, which no other user gets

It ends with 'N passed, M failed'. --man compares docs/sunreg.1 with man's output; --manual prints
that page again.
"""
import os
import pathlib
import pty
import re
import shutil
import subprocess
import sys
import tempfile

sys.dont_write_bytecode = True
HERE = pathlib.Path(__file__).resolve().parent
sys.path.insert(0, str(HERE))
import manual

SCRIPT = (HERE.parent / "docs/SCRIPT.md").read_text()
HTTP = (HERE.parent / "docs/HTTP.md").read_text()
HEADS = {"refused": "Refused", "held": "Held for", "lost": "Lost for", "malformed": "Malformed for", "row": "Row fault", "chain": "It prints | Since", "status": "Status | When"}
PLACES = {"row": "fault {} of a point list row", "chain": "fault {} of a model chain"}
# The greatest number of each kind that is printed, from 1 on.
GREATEST = {"refused": 17, "held": 8, "lost": 4, "malformed": 5, "row": 12, "chain": 4}
COUNTS = {"passed": 0, "failed": 0}


def holds(what, found, wanted):
    if found == wanted:
        COUNTS["passed"] += 1
    else:
        COUNTS["failed"] += 1
        print(f"{what}: found\n{str(found)[:1500]}\nwanted\n{str(wanted)[:1500]}")


def run(program, *words, **more):
    return subprocess.run([program, *words], capture_output=True, text=True, timeout=60, **({"stdin": subprocess.DEVNULL} | more))


def table(head):
    """Returns the rows of a table of docs/SCRIPT.md by their numbers, without the marks of code."""
    _, rows = SCRIPT.split(f"\n| {head}", 1)
    rows = [it.strip("|").split("|", 1) for it in rows.split("\n\n")[0].splitlines()[2:]]
    numbers = {int(re.search(r"\d+", number)[0]): text.strip().replace("`", "") for number, text in rows}
    assert len(numbers) == len(rows), head
    return numbers


def check_numbers(program):
    told = {word: {it[0]: it[1] for it in manual.meanings(program, word)} for word in manual.KINDS}
    for kind, head in HEADS.items():
        place, word = PLACES.get(kind, f"{kind} {{}}"), kind if kind in told else "fault"
        wanted = {place.format(number): text for number, text in table(head).items()}
        pattern = re.compile(place.format(r"\d+") + "$")
        holds(f"the table {head}", {it: text for it, text in told[word].items() if pattern.match(it)}, wanted)
    sentence = re.search(r"`exception N` has the device's own code: (.*?)\.", SCRIPT, re.S)[1]
    for number, name in re.findall(r"(\d+) ([a-z ]+),", sentence):
        holds(f"exception {number}", told["exception"].get(f"exception {number}", "").split(":")[0], name)
    _, tests = HTTP.split("\n| Test | Status where it fails |", 1)
    statuses = re.findall(r"\| (\d{3}) \|$", tests.split("\n\n")[0], re.M)
    faults = sorted(it.split()[1] for it in told["fault"] if it.endswith("of an HTTP request"))
    holds("the statuses of faults in HTTP.md", faults, sorted(set(statuses) - {"422"}))
    for word in told:
        numbers = manual.numbers(program, word)
        beside = {it for number in numbers for it in (number - 1, number + 1)} - {*numbers, -1}
        holds(f"numbers beside those of {word}", [it for it in beside if manual.said(program, "explain", word, str(it))], [])
        for heading, *sentences in manual.meanings(program, word):
            holds(heading, [bool(it.strip(".")) and not it.startswith(" ") for it in sentences], [True] * 3)
            # (the program adds the full stop of the last two)
            means, cause, remedy = sentences
            bare = [means, cause.removesuffix("."), remedy.removesuffix(".")]
            holds(f"{heading}: no sentence ends with a full stop or a space of its own", [it[-1:] for it in bare if it[-1:] in (".", " ", "")], [])
    for kind, greatest in GREATEST.items():
        place = PLACES.get(kind, f"{kind} {{}}")
        word = kind if kind in told else "fault"
        holds(f"each number of {kind} has a meaning", [it for it in range(1, greatest + 1) if place.format(it) not in told[word]], [])
    holds("how many numbers have a meaning", sum(len(it) for it in told.values()), 72)
    holds("the first fault is that of a row", next(iter(told["fault"])), PLACES["row"].format(1))


def check_wrong(program):
    for words, said in {
        ("refuse", "12"): "error: invalid value 'refuse' for '<WHAT>': expected refused, held, lost, malformed, exception, fault or status",
        ("cause", "1"): "error: invalid value 'cause' for '<WHAT>': expected refused, held, lost, malformed, exception, fault or status",
        ("lost", "0"): "error: invalid value '0' for '<NUMBER>': lost has the numbers 1 2 3 4",
        ("lost", "five"): "error: invalid value 'five' for '<NUMBER>': lost has the numbers 1 2 3 4",
        ("status", "4294967296"): "error: invalid value '4294967296' for '<NUMBER>': status has the numbers 0 1 2 3",
        ("exception", "7"): "error: invalid value '7' for '<NUMBER>': exception has the numbers 1 2 3 4 5 6 8 10 11; a device may have others: see its manual",
    }.items():
        it = run(program, "explain", *words)
        holds(f"explain {words}", (it.returncode, it.stdout, it.stderr.splitlines()[0]), (2, "", said))


def check_run(program):
    begun = ["run", "--db", "a.db", "--listen", "1", "--every", "1", "--devices", "d=127.0.0.1:1"]
    for words, said in {
        ("--carry", "month", "--earlier", "3", "--db", "b.db"): "error: the argument '--earlier' cannot be used with more than one '--db'",
        ("--earlier", "3"): "error: the argument '--earlier' cannot be used without '--carry'",
        ("--carry", "month", "--earlier", "0"): "error: invalid value '0' for '--earlier <COUNT>': not a number from 1 to 1200",
        ("--carry", "month", "--earlier", "1201"): "error: invalid value '1201' for '--earlier <COUNT>': not a number from 1 to 1200",
        ("--carry", "day", "--earlier", "3"): "error: invalid value 'day' for '--carry <PERIOD>': expected one of month, year",
    }.items():
        it = run(program, *begun, *words)
        holds(f"run {words}", (it.returncode, it.stdout, it.stderr.splitlines()[0]), (2, "", said))


def check_manual(program):
    page = HERE.parent / "docs/sunreg.1"
    holds("docs/sunreg.1 (tests/words.sh --manual makes it anew)", page.read_text(), manual.page(program))


def check_man(program):
    """Opens the manual page in man, which must report no warning and show each command."""
    page = HERE.parent / "docs/sunreg.1"
    it = subprocess.run(["man", "--warnings", "-E", "UTF-8", "-l", "-Tutf8", "-Z", page], capture_output=True, text=True, env=os.environ | {"MANROFFSEQ": "", "LC_ALL": "C.UTF-8"})
    holds("man --warnings", (it.returncode, it.stderr), (0, ""))
    it = subprocess.run(["man", "-l", page], capture_output=True, text=True, env=os.environ | {"MANWIDTH": "100", "LC_ALL": "C.UTF-8"})
    for name, _ in manual.commands(program):
        holds(f"man shows {name}", f"\n   {name}\n" in it.stdout, True)


COMPLETED = r"""
source "$1"
COMP_WORDS=("${@:2}")
COMP_CWORD=$((${#COMP_WORDS[@]} - 1))
compopt() { echo "compopt $*"; }
_sunreg
((${#COMPREPLY[@]} == 0)) || printf '%s\n' "${COMPREPLY[@]}"
"""


def completed(script, *words):
    it = subprocess.run(["bash", "-uc", COMPLETED, "bash", script, "sunreg", *words], capture_output=True, text=True, timeout=60)
    return sorted(it.stdout.split()) if it.returncode == 0 and not it.stderr else it.stderr


def check_completions(program, room):
    script = room / "sunreg.bash"
    script.write_text(run(program, "completions", "bash").stdout)
    names = [name for name, _ in manual.commands(program)]
    holds("bash takes the completions", subprocess.run(["bash", "-uec", f"source {script}; complete -p sunreg"], capture_output=True, text=True).stdout, "complete -F _sunreg sunreg\n")
    holds("commands", completed(script, ""), sorted([*names, "help", "--help", "--version"]))
    holds("a command's beginning", completed(script, "re"), ["recover", "replay", "report"])
    holds("commands behind help", completed(script, "help", ""), sorted([*names, "help"]))
    for name in names:
        text = manual.parts(manual.said(program, "help", name))
        words = [word for option, _ in text["options"] for word in re.findall(r"(?<!\S)--?[a-z-]+", option)]
        holds(f"options of {name}", [it for it in completed(script, name, "-") if it != "-h"], sorted(it for it in words if it != "-h"))
        for option, about in text["options"]:
            if found := re.search(r"(--[a-z-]+) <([A-Z]+)>", option):
                wanted = ["-o", "compopt", "default"] if found[2] in ("FILE", "COPY", "SEAL") else []
                if found[2] in ("PERIOD", "UNIT", "FORMAT"):
                    wanted = sorted(set(re.findall("[a-z]+", about.split(": ")[1].split(";")[0])) - {"or"})
                holds(f"the value of {name} {found[1]}", completed(script, name, found[1], ""), wanted)
    holds("words of explain", completed(script, "explain", "re"), ["refused"])
    holds("shells", completed(script, "completions", "b"), ["bash"])
    it = run(program, "completions", "zsh")
    holds("another shell", (it.returncode, it.stderr.splitlines()[0]), (2, "error: invalid value 'zsh' for '<SHELL>': only bash has completions"))


def check_examples(program, room):
    """Types each example in a folder with the files that it reads; a command that continues is
    ended after a second."""
    (room / "bin").mkdir()
    (room / "bin/sunreg").symlink_to(program)
    for name, text in {"script.txt": "1 tick\n", "points.csv": "name,function,area,address,type,scale\n", "image.txt": "40000 53756e53ffff\n", "bank.txt": "area holding 0 1\n", "site.txt": "1 device inv 1 5 1\n"}.items():
        (room / name).write_text(text)
    for name, _ in manual.commands(program):
        example = " ".join(manual.parts(manual.said(program, "help", name))["after"]).removeprefix("Example:").strip()
        it = subprocess.run(["timeout", "-k", "1", "2", "bash", "-c", example], cwd=room, capture_output=True, text=True, env=os.environ | {"PATH": f"{room}/bin:{os.environ['PATH']}"})
        holds(f"the example of {name}: {example}", (it.returncode == 2, "error:" in it.stderr), (False, False))
        holds(f"the example of {name} names it", example.startswith(f"sunreg {name}"), True)


def check_version(program):
    first, second = run(program, "--version").stdout.splitlines()
    holds("the version", bool(re.fullmatch(r"sunreg \d+(\.\d+)+", first)), True)
    holds("its short form", run(program, "-V").stdout, f"{first}\n{second}\n")
    is_proved = r"proved by the Rattle kit, logic ([0-9a-f]{16}), sources [0-9a-f]{32}"
    holds("its build", bool(re.fullmatch(f"not proved: compiled without ./sunreg-build, .*|{is_proved}", second)), True)


def check_terminal(program):
    over, under = pty.openpty()
    os.write(over, b"\x04")
    it = run(program, stdin=under)
    holds("no word at a terminal", (it.returncode, it.stdout, it.stderr), (0, "", "sunreg: reading a script from this terminal; end it with Ctrl-D, or see sunreg --help\n"))
    os.write(over, b"\x04")
    it = run(program, "replay", stdin=under)
    holds("replay at a terminal", (it.returncode, it.stdout, it.stderr), (0, "", ""))
    it = run(program)
    holds("no word, and no terminal", (it.returncode, it.stdout, it.stderr), (0, "", ""))


def main(words):
    program = next((it for it in words if not it.startswith("-")), os.environ.get("SUNREG", str(HERE.parent / "out/sunreg")))
    if not os.access(program, os.X_OK):
        sys.exit(f"words.py: {program} is not built: run ./sunreg-build")
    program = str(pathlib.Path(program).resolve())
    if "--manual" in words:
        sys.stdout.write(manual.page(program))
        return 0
    if "--man" in words:
        check_man(program)
        print(f"{COUNTS['passed']} passed, {COUNTS['failed']} failed")
        return COUNTS["failed"] > 0
    with tempfile.TemporaryDirectory() as room:
        check_numbers(program)
        check_wrong(program)
        check_run(program)
        check_manual(program)
        check_completions(program, pathlib.Path(room))
        check_examples(program, pathlib.Path(room))
        check_version(program)
        check_terminal(program)
    print(f"{COUNTS['passed']} passed, {COUNTS['failed']} failed")
    return COUNTS["failed"] > 0


if __name__ == "__main__":
    sys.exit(main(sys.argv[1:]))
