#!/usr/bin/env python3
"""replay_stores.py [PROGRAM]: compares the two stores of an office, in memory and in a file.

It plays each script in tests/scripts with `replay`, and with `replay --db` over the file that
`create` makes for the same zone. Both must print the same bytes and exit with the same status.
`audit` must find no differences in the file. The script ends with 'N passed, M failed'. JOBS is how
many scripts are played at a time, 2 by default.
"""
import concurrent.futures
import os
import pathlib
import subprocess
import sys
import tempfile

sys.dont_write_bytecode = True
import cases

DATA = cases.HERE / "scripts"


def run(program, *words, text=b""):
    return subprocess.run([program, *words], input=text, capture_output=True, timeout=600)


def play_both(program, zone, text, room):
    """Returns why the two stores disagree on a script, or None."""
    db = os.path.join(room, "office.db")
    made = run(program, "create", "--db", db, "--zone", zone)
    if made.returncode:
        return f"create ends with {made.returncode}: {made.stderr!r}"
    memory = run(program, "replay", "--zone", zone, text=text)
    stored = run(program, "replay", "--db", db, text=text)
    if (memory.stdout, memory.returncode) != (stored.stdout, stored.returncode):
        ours = zip(memory.stdout.split(b"\n"), stored.stdout.split(b"\n"))
        first = next(((number, *both) for number, both in enumerate(ours, 1) if both[0] != both[1]), "its end")
        return f"memory ends with {memory.returncode}, the file with {stored.returncode} {stored.stderr!r}; they differ at {first}"
    audited = run(program, "audit", "--db", db)
    return None if audited.returncode == 0 else f"audit: {audited.stdout!r} {audited.stderr!r}"


def play_case(program, path):
    """Returns why the stores disagree on a test, or None."""
    text = path.read_bytes()
    zone = (cases.zone_words(text) or ["--zone", "UTC0"])[1]
    for it in cases.texts_of(path.suffix[1:], text):
        with tempfile.TemporaryDirectory() as room:
            why = play_both(program, zone, it, room)
        if why:
            return why
    return None


def main():
    program = pathlib.Path(sys.argv[1] if len(sys.argv) > 1 else cases.HERE.parent / "out" / "sunreg").resolve()
    if not program.is_file():
        sys.exit(f"replay_stores.sh: {program} is not built: run ./sunreg-build")
    paths = sorted(it for it in DATA.glob("*/*") if it.suffix in (".script", ".scripts"))
    failed = 0
    with concurrent.futures.ThreadPoolExecutor(int(os.environ.get("JOBS", "2"))) as pool:
        for path, why in zip(paths, pool.map(lambda it: play_case(program, it), paths)):
            if why:
                failed += 1
                print(f"{path.relative_to(DATA)}: {why}")
    print(f"{len(paths) - failed} passed, {failed} failed")
    return 1 if failed else 0


if __name__ == "__main__":
    sys.exit(main())
