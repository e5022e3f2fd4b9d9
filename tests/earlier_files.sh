#!/bin/sh
# earlier_files.sh [PROGRAM]: compares a run that also reports energy of earlier files with one file
# that was never carried. PROGRAM is out/sunreg by default, which `./sunreg-build` makes. The script
# needs python3 and sqlite3, and ends with 'N passed, M failed'.
set -eu
here=$(dirname "$(readlink -f "$0")")
program=${1:-${SUNREG:-$here/../out/sunreg}}
[ -x "$program" ] || { echo "earlier_files.sh: $program is not built: run ./sunreg-build" >&2; exit 2; }
for it in python3 sqlite3; do
    command -v $it > /dev/null || { echo "earlier_files.sh: $it is not installed: run tests/install-tools.sh" >&2; exit 2; }
done
PYTHONDONTWRITEBYTECODE=1 exec python3 "$here/earlier_files.py" "$(readlink -f "$program")"
