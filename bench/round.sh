#!/bin/sh
# round.sh [PROGRAM [ROUNDS]]: measures how many accepted polls a second `sunreg round` has over a
# file. PROGRAM is out/sunreg by default, which `./sunreg-build` makes. The comparisons are an
# office in C over libsqlite3 (bench/peers/office.c), and two in Python with Python's sqlite3 over
# the same tables: tests/peers/plain_office.py by sockets, and pymodbus_office.py by pymodbus. All
# have a write-ahead log and synchronous FULL, and poll a plain device in C. Times are the median of
# five rounds, and include start and opening. Then `sunreg run` and the office in C poll 64 devices
# of 32 meters each second. All must print the same and record the same. Ratios are the other
# program's time by that of sunreg: above 1 sunreg is faster. The script needs a C compiler,
# libsqlite3 with its header, python3 and sqlite3, and pymodbus for the fourth office. The files are
# in /dev/shm, and then in TMPDIR: name a folder on a real disk.
set -eu
here=$(dirname "$(readlink -f "$0")")
program=${1:-$here/../out/sunreg}
[ -x "$program" ] || { echo "round.sh: $program is not built: run ./sunreg-build" >&2; exit 2; }
for it in cc python3 sqlite3; do
    command -v $it > /dev/null || { echo "round.sh: $it is not installed" >&2; exit 2; }
done
PYTHONDONTWRITEBYTECODE=1 exec python3 "$here/peers/rounds.py" "$program" ${2:+"$2"}
