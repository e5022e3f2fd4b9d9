#!/usr/bin/env python3
"""cases.sh [PROGRAM]: plays every golden test with the built program.

Golden tests of texts are in tests/scripts. The ending of a file's name says which command reads it,
and whether each line after the first is a separate text. The commands keep their records in memory.
Golden tests of arguments are in tests/cases:
- NAME.words: what the test shows, and then an argument a line. ROOM in an argument is a temporary
  folder.
- NAME.in: standard input
- NAME.out: the output
- NAME.err: the first line on standard error
- NAME.status: the status
A missing file means an empty text, or status 0. The script ends with 'N passed, M failed'.
"""
import os
import pathlib
import re
import subprocess
import sys
import tempfile

HERE = pathlib.Path(__file__).resolve().parent
COMMANDS = {"script": "replay", "scripts": "replay", "loop": "loop", "loops": "loop", "chain": "chain", "chains": "chain", "plan": "plan"}
BY_LINES = ("scripts", "loops", "chains")
REFUSED = re.compile(rb"(bad line |too long|fault |row )[^\n]*\n?\Z")


def run(program, words, text):
    return subprocess.run([program, *words], input=text, capture_output=True, timeout=60)


def texts_of(kind, text):
    """Returns the texts that a test gives to its command."""
    behind = text.partition(b"\n")[2]
    if kind in BY_LINES:
        return [it for it in re.split(rb"(?<=\n)", behind) if it]
    return [behind if kind == "plan" else text]


def zone_words(text):
    found = re.match(rb"[^\n]*\n# zone ([^\n]*)", text)
    return ["--zone", found[1].decode()] if found else []


def play_texts(program, path):
    """Returns the difference of a test of texts from what it expects, or nothing."""
    kind, text = path.suffix[1:], path.read_bytes()
    words, printed = [COMMANDS[kind], *zone_words(text)], b""
    for it in texts_of(kind, text):
        ran = run(program, words, it)
        printed += ran.stdout
        if ran.returncode != bool(REFUSED.search(ran.stdout)):
            return f"the status is {ran.returncode} where {ran.stdout[-60:]!r} was printed"
    wanted = path.with_suffix(".out").read_bytes()
    for number, (got, want) in enumerate(zip(printed.split(b"\n"), wanted.split(b"\n")), 1):
        if got != want:
            return f"line {number} is {got!r}, and not {want!r}"
    return None if printed == wanted else f"{len(printed)} bytes were printed, and not {len(wanted)}"


def part(path, ending):
    file = path.with_suffix(ending)
    return file.read_bytes() if file.exists() else b""


def play_words(program, path, room):
    """Returns the difference of a test of arguments from what it expects, or nothing."""
    words = [it.replace("ROOM", room) for it in path.read_text().splitlines()[1:]]
    ran = run(program, words, part(path, ".in"))
    status, said = int(part(path, ".status") or b"0"), ran.stderr.partition(b"\n")[0]
    wanted = part(path, ".out"), part(path, ".err").rstrip(b"\n"), status
    return None if (ran.stdout, said, ran.returncode) == wanted else f"{(ran.stdout, said, ran.returncode)}, and not {wanted}"


def main():
    program = pathlib.Path(sys.argv[1] if len(sys.argv) > 1 else os.environ.get("SUNREG", HERE.parent / "out" / "sunreg")).resolve()
    if not program.is_file():
        sys.exit(f"cases.sh: {program} is not built: run ./sunreg-build")
    data = HERE / "scripts"
    texts = sorted(it for it in data.glob("*/*") if it.suffix[1:] in COMMANDS)
    words = sorted((HERE / "cases").glob("*.words"))
    failed = 0
    with tempfile.TemporaryDirectory() as room:
        for path, why in [(it, play_texts(program, it)) for it in texts] + [(it, play_words(program, it, room)) for it in words]:
            if why:
                failed += 1
                print(f"{path.relative_to(HERE.parent)}: {why}")
    print(f"{len(texts) + len(words) - failed} passed, {failed} failed")
    return 1 if failed else 0


if __name__ == "__main__":
    sys.exit(main())
