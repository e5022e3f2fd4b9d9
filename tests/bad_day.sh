#!/bin/sh
# bad_day.sh [--short] [PROGRAM]: runs the built program under bad conditions. PROGRAM is out/sunreg
# by default, which `./sunreg-build` makes. The conditions are:
# - requests from foreign pages, requests in many pieces, a device at an IPv6 address
# - devices that lack something, and a delayed or busy process while a device takes its time
# - pipes that nobody reads
# - a clock that is set back while clients are idle, and a clock that is set ahead
#
# `faketime` sets the clock. As root the script installs it by apt (not with PEERS_INSTALL=no), and
# it says so if that fails. The script takes four minutes, and ends with 'N passed, M failed'.
# --short tests hosts, a pipe that nobody reads and a clock that is set back, in a minute and a
# half.
set -u
here=$(dirname "$(readlink -f "$0")")
short=
[ "${1-}" != --short ] || { short=--short; shift; }
program=$(readlink -f "${1:-${SUNREG:-$here/../out/sunreg}}")
[ -x "$program" ] || { echo "bad_day.sh: $program is not built: run ./sunreg-build" >&2; exit 2; }
room=$(mktemp -d) || exit 2
trap 'rm -rf "$room"' EXIT
. "$here/peers/install.sh"

install python3 faketime
PYTHONDONTWRITEBYTECODE=1 python3 "$here/bad_day.py" "$program" "$room" $short
