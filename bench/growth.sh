#!/bin/sh
# growth.sh [PROGRAM [MOST_ROWS]]: measures how long a file takes to open as it grows. The sites
# have 1 to 64 devices of a meter each, polled each minute or each quarter hour, over a month up to
# ten years. The comparison is the time in which sqlite3 checks the same file. PROGRAM is out/sunreg
# by default, which `./sunreg-build` makes. The script skips sites of more than MOST_ROWS
# (10,000,000) rows. It needs python3 and sqlite3, and in /dev/shm twice the size of the largest
# file (500 MB). docs/GROWTH.md has the table. growth.sh --chain [PROGRAM [MONTHS]]: measures a file
# a month instead, in some two minutes. It has 64 meters polled each quarter hour, in the first, the
# middle and the last month of ten years. Then a report and a run read 120 files of one meter, each
# carried from the file before it.
set -eu
kind=growth
[ "${1:-}" != --chain ] || { kind=chain; shift; }
here=$(dirname "$(readlink -f "$0")")
program=${1:-$here/../out/sunreg}
[ -x "$program" ] || { echo "growth.sh: $program is not built: run ./sunreg-build" >&2; exit 2; }
for it in python3 sqlite3; do
    command -v $it > /dev/null || { echo "growth.sh: $it is not installed" >&2; exit 2; }
done
PYTHONDONTWRITEBYTECODE=1 exec python3 "$here/peers/$kind.py" "$program" ${2:+"$2"}
