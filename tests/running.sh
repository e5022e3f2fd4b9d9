#!/bin/sh
# running.sh [--short] [PROGRAM]: runs `sunreg run` of the built program against eight devices and
# 100 HTTP connections. PROGRAM is out/sunreg by default, which `./sunreg-build` makes. One device
# is served by libmodbus and one by pymodbus; one garbles, one times out and one isn't there. One
# connection is idle. Then the script kills the run, compares its records with what the devices
# showed, and starts it again. As root it installs missing tools by apt (not with PEERS_INSTALL=no).
# It names servers that it can't install, and a simulator replaces them. It takes a minute, prints
# how late polls were and how long responses took, and ends with 'N passed, M failed'. --short
# leaves out the 100 connections and the servers of other programs, and takes 20 seconds.
set -u
here=$(dirname "$(readlink -f "$0")")
short=
[ "${1-}" != --short ] || { short=--short; shift; }
program=$(readlink -f "${1:-${SUNREG:-$here/../out/sunreg}}")
[ -x "$program" ] || { echo "running.sh: $program is not built: run ./sunreg-build" >&2; exit 2; }
room=$(mktemp -d) || exit 2
trap 'rm -rf "$room"' EXIT
. "$here/peers/install.sh"

if [ -n "$short" ]; then
    install python3
    PYTHONDONTWRITEBYTECODE=1 python3 "$here/running.py" "$program" "${RUNNING_PORT:-18570}" $short
    exit
fi
install python3 cc libmodbus pymodbus prometheus
PYTHONDONTWRITEBYTECODE=1 python3 "$here/running.py" "$program" "${RUNNING_PORT:-18570}" \
    libmodbus="$(compiled libmodbus_server)" pymodbus="$(python_of_pymodbus)" prometheus="$(python_of_prometheus)"
