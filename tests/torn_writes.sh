#!/bin/sh
# torn_writes.sh [PROGRAM]: tears the write-ahead log of a killed office, at many lengths and by
# single bytes, and opens each torn copy with the program and with SQLite. PROGRAM is out/sunreg by
# default, which `./sunreg-build` makes. The script needs only python3, and ends with
# 'N passed, M failed'. It prints the seed of its choices, which TORN_SEED sets; TORN_COPIES (300)
# is the number of torn copies.
set -eu
here=$(dirname "$(readlink -f "$0")")
program=${1:-$here/../out/sunreg}
[ -x "$program" ] || { echo "torn_writes.sh: $program is not built: run ./sunreg-build" >&2; exit 2; }
exec python3 -B "$here/torn_writes.py" "$(readlink -f "$program")"
