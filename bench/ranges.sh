#!/bin/sh
# ranges.sh [PROGRAM]: times the responses of a running office about one day of a meter, out of one
# year and out of ten. PROGRAM is out/sunreg by default, which `./sunreg-build` makes. The script
# needs python3 and sqlite3.
set -eu
here=$(dirname "$(readlink -f "$0")")
program=${1:-$here/../out/sunreg}
[ -x "$program" ] || { echo "ranges.sh: $program is not built: run ./sunreg-build" >&2; exit 2; }
for it in python3 sqlite3; do
    command -v $it > /dev/null || { echo "ranges.sh: $it is not installed (apt-get install $it)" >&2; exit 2; }
done
PYTHONDONTWRITEBYTECODE=1 python3 "$here/../tests/peers/ranges.py" "$program"
