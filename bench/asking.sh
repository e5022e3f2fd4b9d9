#!/bin/sh
# asking.sh [PROGRAM]: measures how long a client of `sunreg run` waits for a response. The run
# polls 64 devices of 32 meters each second. The comparison is a commit in the same folder. PROGRAM
# is out/sunreg by default, which `./sunreg-build` makes. The script needs python3, cc and sqlite3.
# TMPDIR is the folder of its files.
set -eu
here=$(dirname "$(readlink -f "$0")")
program=${1:-$here/../out/sunreg}
[ -x "$program" ] || { echo "asking.sh: $program is not built: run ./sunreg-build" >&2; exit 2; }
for it in python3 cc sqlite3; do
    command -v $it > /dev/null || { echo "asking.sh: $it is not installed" >&2; exit 2; }
done
PYTHONDONTWRITEBYTECODE=1 exec python3 "$here/peers/asking.py" "$program"
