#!/usr/bin/env python3
"""planted.py [--slow N] [--only NAME..] [PROGRAM]: shows that the checks refuse a broken program.

The checks are those of tests/program.py. The script wraps the built program, out/sunreg by default,
in a script that breaks one thing: a status, a route, the page's script, an option, a command of
README.md, an audit, a backup, a carry, a help text, or a digit of a report. For each break it runs
the check that must fail. For each of these checks it also runs the program in a wrapper that breaks
nothing, which must pass. It ends with 'N passed, M failed'; the status is 1 if M > 0.
"""
import collections
import os
import pathlib
import subprocess
import sys
import tempfile

TESTS = pathlib.Path(__file__).resolve().parent
# A break: its name, the check that must fail, and a wrapper in sh. TRUE is the program. For a
# command that it does not break, a wrapper replaces itself by the program, so that a check can kill
# it.
Break = collections.namedtuple("Break", "name check text")
CONTROL = 'exec "$TRUE" "$@"\n'


def breaking(commands, text):
    """Returns a wrapper that runs a text if the first word is one of these commands, and else the
    program."""
    return f'case "${{1-}}" in {commands}) ;; *) exec "$TRUE" "$@" ;; esac\n{text}'


def printing(change):
    """Returns a text that runs the program, and changes its output with sed."""
    return f'printed=$(mktemp)\n"$TRUE" "$@" > "$printed"\nstatus=$?\nsed "{change}" "$printed"\nrm -f "$printed"\nexit $status\n'


BACKUP = """"$TRUE" "$@" || exit
while [ "$1" != --to ]; do shift; done
truncate -s $(($(stat -c %s "$2") / 2)) "$2"
"""
CARRY = """"$TRUE" "$@" || exit
while [ "$1" != --to ]; do shift; done
meter=$(sqlite3 "$2" "SELECT max(meter) FROM installations")
for table in intervals entries ranges installations; do sqlite3 "$2" "DELETE FROM $table WHERE meter = '$meter'"; done
"""
OPTION = """for word in "$@"; do
  shift
  if [ "$word" = --unit ]; then skip=1; elif [ -n "${skip-}" ]; then skip=; else set -- "$@" "$word"; fi
done
exec "$TRUE" "$@"
"""
BREAKS = [
    Break("status", "statuses", '"$TRUE" "$@"\nstatus=$?\n[ $status != 2 ] || status=1\nexit $status\n'),
    Break("route", "running", breaking("run", 'exec "$BESIDE" "GET /site " "GET /sitf " "$TRUE" "$@"\n')),
    Break("page_script", "page", breaking("run", 'exec "$BESIDE" "const " "c0nst " "$TRUE" "$@"\n')),
    Break("option", "report", breaking("report", OPTION)),
    Break("readme_command", "readme", breaking("scan", printing("s/install/instal/"))),
    Break("audit", "audit", breaking("audit", '"$TRUE" "$@" > /dev/null\necho "fine: 1 meter, 2 entries, 1 interval, 1 poll"\n')),
    Break("backup", "backup", breaking("backup", BACKUP)),
    Break("carry", "carry", breaking("carry", CARRY)),
    Break("help_text", "words", breaking("help", printing("s/device; it only reads/device; it reads/"))),
    Break("report_digit", "report", breaking("report", printing("s/^\\([12][0-9-]*  *[0-9]*  *\\)[1-8]/\\19/"))),
]


def make_wrapper(room, name, text, program):
    path = pathlib.Path(room, name)
    beside = f"{TESTS}/planted_proxy.py"
    path.write_text(f"#!/bin/sh\nTRUE='{program}'\nBESIDE='{beside}'\n{text}")
    path.chmod(0o755)
    return path


def run_check(check, wrapper, slow):
    """Returns whether a check passes over a wrapper, and its output."""
    words = [f"{TESTS}/program.py", "--slow", slow, "--only", check, wrapper]
    ran = subprocess.run(list(map(str, words)), capture_output=True, text=True)
    lines = ran.stdout.splitlines()
    is_tried = not any("skipped" in it for it in lines[-1:])
    return ran.returncode == 0, is_tried, lines


def main(words):
    slow = words[words.index("--slow") + 1] if "--slow" in words else "1"
    rest = [it for at, it in enumerate(words) if it not in ("--slow", "--only") and words[at - 1 : at] != ["--slow"]]
    known = {it.name for it in BREAKS}
    names = [it for it in rest if it in known] if "--only" in words else known
    others = [it for it in rest if it not in known]
    program = os.path.realpath(others[0] if others else os.environ.get("SUNREG", TESTS.parent / "out/sunreg"))
    if len(others) > 1 or not os.access(program, os.X_OK):
        sys.exit(f"planted.py: {program} is not built: run ./sunreg-build")
    breaks = [it for it in BREAKS if it.name in names]
    passed = failed = 0
    with tempfile.TemporaryDirectory() as room:
        os.chmod(room, 0o755)
        tries = [(f"nothing, {check}", check, CONTROL, True) for check in sorted({it.check for it in breaks})]
        tries += [(it.name, it.check, it.text, False) for it in breaks]
        for at, (name, check, text, is_wanted) in enumerate(tries):
            is_fine, is_tried, lines = run_check(check, make_wrapper(room, f"sunreg{at}", text, program), slow)
            is_so = is_tried and is_fine == is_wanted
            passed, failed = passed + is_so, failed + (not is_so)
            print(f"{name}: {check} {'passes' if is_fine else 'fails'}{'' if is_so else ', NOT CAUGHT' if is_fine else ', and must pass'}", flush=True)
            if is_fine != is_wanted:
                print(*(f"  {it}" for it in lines[-40:]), sep="\n", flush=True)
    print(f"{passed} passed, {failed} failed")
    return 1 if failed else 0


if __name__ == "__main__":
    sys.exit(main(sys.argv[1:]))
