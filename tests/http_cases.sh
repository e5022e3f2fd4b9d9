#!/bin/sh
# http_cases.sh [PROGRAM]: plays the golden tests of crates/http_cases with the built program,
# out/sunreg by default. tests/http_cases.py says more. `faketime` sets the clock; as root the
# script installs it by apt (not with PEERS_INSTALL=no).
set -u
here=$(dirname "$(readlink -f "$0")")
program=$(readlink -f "${1:-$here/../out/sunreg}")
[ -x "$program" ] || { echo "http_cases.sh: $program is not built: run ./sunreg-build" >&2; exit 2; }
room=$(mktemp -d) || exit 2
trap 'rm -rf "$room"' EXIT
. "$here/peers/install.sh"

install python3 faketime
PYTHONDONTWRITEBYTECODE=1 python3 "$here/http_cases.py" "$program" "$room"
