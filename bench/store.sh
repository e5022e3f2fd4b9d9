#!/bin/sh
# store.sh [PROGRAM [ROUNDS]]: measures how many readings a second `sunreg round` records over files
# of 1, 10,000 and 350,000 quarter hours (ten meter-years). The rate should not fall as the file
# grows. PROGRAM is out/sunreg by default, which `./sunreg-build` makes. The comparisons are plain
# offices in C (bench/peers/office.c) and in Python (tests/peers/plain_office.py). All have a
# write-ahead log and synchronous FULL, and poll a plain device in C: one of 512 meters, 16 at once
# or one after the other (two commits a reading), one of 32 meters, and one of 64 such devices. The
# table has the opening of the file separately, and the size of the files. All must print the same
# and record the same. Ratios are the other program's time by that of sunreg: above 1 sunreg is
# faster. The script needs a C compiler, libsqlite3 with its header, python3 and sqlite3. The files
# are in /dev/shm, and in TMPDIR: name a folder on a real disk, on which only the last size is
# measured.
set -eu
here=$(dirname "$(readlink -f "$0")")
program=${1:-$here/../out/sunreg}
[ -x "$program" ] || { echo "store.sh: $program is not built: run ./sunreg-build" >&2; exit 2; }
for it in cc python3 sqlite3; do
    command -v $it > /dev/null || { echo "store.sh: $it is not installed" >&2; exit 2; }
done
PYTHONDONTWRITEBYTECODE=1 exec python3 "$here/peers/store.py" "$program" ${2:+"$2"}
