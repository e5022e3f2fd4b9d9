#!/bin/sh
# run_carry.sh [--short] [PROGRAM]: tests that a run begins a new file each month, and each year.
# PROGRAM is out/sunreg by default, which `./sunreg-build` makes. A device counts on, and `faketime`
# sets the clock:
# - at the end of a month in summer, in winter and at new year
# - under KILLS (30) kills around the change, and beside a second run
# - with a clock that was set back, in folders that can't be written, with a pipe that nobody reads
#
# As root the script installs `faketime` by apt (not with PEERS_INSTALL=no). It takes some eight
# minutes and ends with 'N passed, M failed'. --short tests the end of one month and five kills, in
# a minute and a half.
set -u
here=$(dirname "$(readlink -f "$0")")
short=
[ "${1-}" != --short ] || { short=--short; shift; }
program=$(readlink -f "${1:-${SUNREG:-$here/../out/sunreg}}")
[ -x "$program" ] || { echo "run_carry.sh: $program is not built: run ./sunreg-build" >&2; exit 2; }
room=$(mktemp -d) || exit 2
chmod 755 "$room"
trap 'umount "$room/full" 2> /dev/null; rm -rf "$room"' EXIT
. "$here/peers/install.sh"

install python3 faketime
PYTHONDONTWRITEBYTECODE=1 python3 "$here/run_carry.py" "$program" "$room" $short
