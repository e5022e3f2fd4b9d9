#!/bin/sh
# voids.sh [PROGRAM]: measures what a void costs a running office, of a meter that was read each
# quarter hour for a month, a year and ten years. PROGRAM is out/sunreg by default, which
# `./sunreg-build` makes. The script needs python3 and sqlite3. The file is in /dev/shm.
set -eu
here=$(dirname "$(readlink -f "$0")")
program=${1:-$here/../out/sunreg}
[ -x "$program" ] || { echo "voids.sh: $program is not built: run ./sunreg-build" >&2; exit 2; }
for it in python3 sqlite3; do
    command -v $it > /dev/null || { echo "voids.sh: $it is not installed" >&2; exit 2; }
done
PYTHONDONTWRITEBYTECODE=1 exec python3 "$here/peers/voids.py" "$program"
