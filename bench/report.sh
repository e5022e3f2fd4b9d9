#!/bin/sh
# report.sh [PROGRAM [YEARS]]: times `sunreg report` over a register's year of quarter hours, and
# their rows by HTTP, beside the program sqlite3 over the same file. PROGRAM is out/sunreg by
# default, which `./sunreg-build` makes. The script needs python3 and sqlite3.
set -eu
here=$(dirname "$(readlink -f "$0")")
program=${1:-$here/../out/sunreg}
[ -x "$program" ] || { echo "report.sh: $program is not built: run ./sunreg-build" >&2; exit 2; }
for it in python3 sqlite3; do
    command -v $it > /dev/null || { echo "report.sh: $it is not installed (apt-get install $it)" >&2; exit 2; }
done
PYTHONDONTWRITEBYTECODE=1 python3 "$here/../tests/peers/report.py" "$program" ${2:+"$2"}
