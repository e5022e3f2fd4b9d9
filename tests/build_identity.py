#!/usr/bin/env python3
"""build_identity.py [PROGRAM]: tests what a program says of its build, and bench/identity.py.

PROGRAM is a built sunreg, out/sunreg by default. The script marks a copy of it as ./sunreg-build
does, runs the copy, and compares the copy with this tree and with changed trees. It ends with 'N
passed, M failed'.
"""
import os
import pathlib
import shutil
import subprocess
import sys
import tempfile

sys.dont_write_bytecode = True
TOP = pathlib.Path(__file__).resolve().parent.parent
sys.path.insert(0, str(TOP / "bench"))
import identity

LOGIC, SOURCES, OTHER = "0123456789abcdef", "00112233445566778899aabbccddeeff", "f" * 32
MARK = f"proved by the Rattle kit, logic {LOGIC}, sources {SOURCES}"
counts = {True: 0, False: 0}


def same(what, got, wanted):
    counts[got == wanted] += 1
    if got != wanted:
        print(f"{what}: {got!r}, and not {wanted!r}")


def version(program):
    it = subprocess.run([program, "--version"], capture_output=True, text=True, stdin=subprocess.DEVNULL)
    return it.returncode, it.stdout.splitlines(), it.stderr


def refused(call, *words):
    """Returns whether a call refuses its arguments."""
    try:
        call(*words)
    except ValueError:
        return True
    return False


def unmarked(program, to):
    """Copies a program, with the text of an unproved one."""
    content = pathlib.Path(program).read_bytes()
    to.write_bytes(identity.PROVED.sub(identity.UNPROVED, content))
    to.chmod(0o755)


def check_program(program, room):
    plain, marked = room / "plain", room / "marked"
    unmarked(program, plain)
    same("the size of an unmarked copy", plain.stat().st_size, os.stat(program).st_size)
    status, lines, said = version(plain)
    same("an unproved program", (status, lines[1:], said), (0, [identity.UNPROVED.decode()], ""))
    same("an unproved program is compared", identity.compare(plain, SOURCES), (1, f"{plain} was not proved"))
    shutil.copy2(plain, marked)
    identity.mark(marked, LOGIC, SOURCES)
    same("a marked program", version(marked), (0, [lines[0], MARK], ""))
    same("its size", marked.stat().st_size, plain.stat().st_size)
    same("its rights", marked.stat().st_mode & 0o777, 0o755)
    same("its sources", identity.compare(marked, SOURCES)[0], 0)
    same("other sources", identity.compare(marked, OTHER)[0], 1)
    same("a marked program is not marked again", refused(identity.mark, marked, LOGIC, SOURCES), True)


def check_files(room):
    for name, content, status in (
        ("empty", b"", 2),
        ("other", b"\x7fELF", 2),
        ("two_marks", MARK.encode() + MARK.replace(SOURCES, OTHER).encode(), 2),
        ("marked_and_unmarked", MARK.encode() + identity.UNPROVED, 2),
    ):
        (room / name).write_bytes(content)
        same(f"{name} is compared", identity.compare(room / name, SOURCES)[0], status)
        same(f"{name} is not marked", refused(identity.mark, room / name, LOGIC, SOURCES), content.count(identity.UNPROVED) != 1)
    (room / "twice").write_bytes(identity.UNPROVED * 2)
    same("a program with two texts", refused(identity.mark, room / "twice", LOGIC, SOURCES), True)
    same("no logic", refused(identity.mark, room / "twice", "", SOURCES), True)
    same("no file", identity.compare(room / "missing", SOURCES)[0], 2)


def check_sources(room):
    tree = room / "tree"
    files = {
        "HANDLES": "Handles allowed: Net.\n",
        "crates.txt": "# crates\nlow: byteorder\nsunreg: low\nbeside: low\n",
        "crates/sunreg/src/main.rt": "fn main() { low() }\n",
        "crates/low/src/lib.rt": "fn low() {}\n",
        "crates/low/specs/Low.antt": "low\n",
        "crates/low/proofs/Low.antt": "low\n",
        "crates/low/README.md": "low\n",
        "crates/beside/src/lib.rt": "fn beside() { low() }\n",
    }
    for name, text in files.items():
        (tree / name).parent.mkdir(parents=True, exist_ok=True)
        (tree / name).write_text(text)
    first = identity.checksum(tree)
    same("the length of a checksum", len(first), 32)
    same("the same tree", identity.checksum(tree), first)
    for name in files:
        (tree / name).write_text(files[name].replace("low", "slow", 1) if name != "HANDLES" else "Handles allowed: None.\n")
        same(f"{name} counts", identity.checksum(tree) != first, name not in ("crates/low/README.md", "crates/beside/src/lib.rt"))
        (tree / name).write_text(files[name])
    (tree / "crates/low/src/lib.rt").rename(tree / "crates/low/src/other.rt")
    same("names count", identity.checksum(tree) != first, True)


def check_command(program, room):
    command = [sys.executable, str(TOP / "sunreg-build"), "--check"]
    for words, status in (([program], None), ([str(room / "missing")], 2), ([], 2), ([program, program], 2)):
        it = subprocess.run([*command, *words], capture_output=True, text=True)
        wanted = identity.compare(program, identity.checksum()) if status is None else (status, None)
        same(f"sunreg-build --check {' '.join(words)}", it.returncode, wanted[0])
        if status is None:
            same("its sentence", it.stdout, f"{wanted[1]}\n")


def main():
    program = os.path.realpath(sys.argv[1] if len(sys.argv) > 1 else TOP / "out/sunreg")
    if not os.access(program, os.X_OK):
        sys.exit(f"build_identity.py: {program} is not built: run ./sunreg-build")
    with tempfile.TemporaryDirectory() as room:
        room = pathlib.Path(room)
        check_program(program, room)
        check_files(room)
        check_sources(room)
        check_command(program, room)
    print(f"{counts[True]} passed, {counts[False]} failed")
    sys.exit(counts[False] > 0)


main()
