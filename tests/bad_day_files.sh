#!/bin/sh
# bad_day_files.sh [PROGRAM]: tests a run whose files, readers, descriptors and clock fail. PROGRAM
# is out/sunreg by default. Its file or its log is removed, renamed, replaced or cut short. The
# reader of its lines exits. It may open few descriptors while clients are idle. The last record is
# later than the clock. The script takes two minutes, and ends with 'N passed, M failed'.
set -u
here=$(dirname "$(readlink -f "$0")")
program=$(readlink -f "${1:-$here/../out/sunreg}")
[ -x "$program" ] || { echo "bad_day_files.sh: $program is not built: run ./sunreg-build" >&2; exit 2; }
room=$(mktemp -d) || exit 2
trap 'rm -rf "$room"' EXIT
PYTHONDONTWRITEBYTECODE=1 python3 "$here/bad_day_files.py" "$program" "$room"
