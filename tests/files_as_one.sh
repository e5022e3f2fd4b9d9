#!/bin/sh
# files_as_one.sh [--short] [PROGRAM]: carries an office into a second file and a third, and
# continues in each. It compares reports and statements over the three with one file that was never
# carried. PROGRAM is out/sunreg by default, which `./sunreg-build` makes. The script needs python3
# and sqlite3. --short, as in the gate, requests fewer ranges in each form. The script ends with
# 'N passed, M failed'.
set -eu
here=$(dirname "$(readlink -f "$0")")
short=
[ "${1-}" != --short ] || { short=--short && shift; }
program=${1:-${SUNREG:-$here/../out/sunreg}}
[ -x "$program" ] || { echo "files_as_one.sh: $program is not built: run ./sunreg-build" >&2; exit 2; }
for it in python3 sqlite3; do
    command -v $it > /dev/null || { echo "files_as_one.sh: $it is not installed: run tests/install-tools.sh" >&2; exit 2; }
done
PYTHONDONTWRITEBYTECODE=1 exec python3 "$here/files_as_one.py" "$(readlink -f "$program")" $short
