#!/bin/sh
# peers.sh [PROGRAM]: tests the built program with other programs. PROGRAM is out/sunreg by default,
# which `./sunreg-build` makes.
# - mbpoll, libmodbus and pymodbus read its simulator.
# - Its scans and rounds read servers of libmodbus and pymodbus. The output of a scan sets a site
#   up.
# - curl sends requests to its HTTP.
# - sqlite3 reads its file, also after a killed round.
# - A plain Modbus client and server in Python run beside them.
#
# As root the script installs missing tools by apt (not with PEERS_INSTALL=no). It names tools that
# it can't install, and skips their tests. It ends with 'N passed, M failed'.
set -u
here=$(dirname "$(readlink -f "$0")")
program=${1:-${SUNREG:-$here/../out/sunreg}}
[ -x "$program" ] || { echo "peers.sh: $program is not built: run ./sunreg-build" >&2; exit 2; }
program=$(readlink -f "$program")
room=$(mktemp -d) || exit 2
trap 'rm -rf "$room"' EXIT
. "$here/peers/install.sh"

install python3 curl sqlite3 cc libmodbus pymodbus mbpoll
peers="$(compiled libmodbus_client) $(compiled libmodbus_server)"
for it in mbpoll pymodbus; do
    has $it && peers="$peers $it"
done
python=$(python_of_pymodbus)
PYTHONDONTWRITEBYTECODE=1 "${python:-python3}" "$here/peers/peers.py" "$program" $peers
