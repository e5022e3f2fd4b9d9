#!/bin/sh
# crowd.sh [PROGRAM [SECONDS]]: measures how late the rounds of `sunreg run` are, and how long a
# quiet client waits, while 500 clients request months and read nothing. PROGRAM is out/sunreg by
# default, which `./sunreg-build` makes. The script needs python3 and sqlite3.
set -eu
here=$(dirname "$(readlink -f "$0")")
program=${1:-$here/../out/sunreg}
[ -x "$program" ] || { echo "crowd.sh: $program is not built: run ./sunreg-build" >&2; exit 2; }
for it in python3 sqlite3; do
    command -v $it > /dev/null || { echo "crowd.sh: $it is not installed" >&2; exit 2; }
done
PYTHONDONTWRITEBYTECODE=1 exec python3 "$here/peers/crowd.py" "$program" ${2:+"$2"}
