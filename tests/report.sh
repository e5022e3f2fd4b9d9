#!/bin/sh
# report.sh [PROGRAM]: compares reports on ranges of days, by periods, with Python's, in both units
# and three formats. PROGRAM is out/sunreg by default, which `./sunreg-build` makes. The script
# needs python3 with the zones of the system, and sqlite3. It ends with 'N passed, M failed'.
set -eu
here=$(dirname "$(readlink -f "$0")")
program=${1:-${SUNREG:-$here/../out/sunreg}}
[ -x "$program" ] || { echo "report.sh: $program is not built: run ./sunreg-build" >&2; exit 2; }
for it in python3 sqlite3; do
    command -v $it > /dev/null || { echo "report.sh: $it is not installed: run tests/install-tools.sh" >&2; exit 2; }
done
PYTHONDONTWRITEBYTECODE=1 exec python3 "$here/report.py" "$(readlink -f "$program")"
