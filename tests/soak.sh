#!/bin/sh
# soak.sh [PROGRAM]: polls a misbehaving device round after round, and kills the office every few
# seconds. It compares the records with the device's responses. PROGRAM is out/sunreg by default,
# which `./sunreg-build` makes. The script needs only python3, and ends with 'N passed, M failed'.
# It prints the seed of its choices. SOAK_SEED sets it; SOAK_POLLS (10000) and SOAK_SECONDS (1800)
# are the bounds.
set -eu
here=$(dirname "$(readlink -f "$0")")
program=${1:-${SUNREG:-$here/../out/sunreg}}
[ -x "$program" ] || { echo "soak.sh: $program is not built: run ./sunreg-build" >&2; exit 2; }
exec python3 "$here/soak.py" "$(readlink -f "$program")"
