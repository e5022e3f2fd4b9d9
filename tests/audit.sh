#!/usr/bin/env bash
# audit.sh [PROGRAM]: compares `sunreg audit` with sqlite3 over sound files and over single changes
# in them. PROGRAM is out/sunreg by default, which `./sunreg-build` makes. tests/audit.py says more.
# CHANGES is the number of random changes, 1000 by default. JOINS is their number in three files
# that continue each other, 200 by default. SEED chooses them. The script needs python3 and sqlite3.
# It takes some 30 s, and the time of the audits, which it prints: a minute and a half at 40 ms each
# (computed, not measured). It ends with 'N passed, M failed'.
set -u
here=$(dirname "$(readlink -f "$0")")
program=${1:-${SUNREG:-$here/../out/sunreg}}
[ -x "$program" ] || { echo "audit.sh: $program is not built: run ./sunreg-build" >&2; exit 2; }
for it in python3 sqlite3; do
    command -v $it > /dev/null || { echo "audit.sh: $it is not installed: run tests/install-tools.sh" >&2; exit 2; }
done
PYTHONDONTWRITEBYTECODE=1 exec python3 "$here/audit.py" "$(readlink -f "$program")"
