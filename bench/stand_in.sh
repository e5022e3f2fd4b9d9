#!/bin/sh
# stand_in.sh [PROGRAM [READS]]: measures how many reads a second of one client the simulator
# answers, beside libmodbus's own server, with libmodbus as the client. Without libmodbus both are
# plain programs in C over sockets. PROGRAM is out/sunreg by default, which `./sunreg-build` makes.
# The script needs a C compiler and python3; apt's libmodbus-dev and pkg-config have libmodbus.
set -eu
here=$(dirname "$(readlink -f "$0")")
peers=$here/../tests/peers
program=${1:-$here/../out/sunreg}
[ -x "$program" ] || { echo "stand_in.sh: $program is not built: run ./sunreg-build" >&2; exit 2; }
room=$(mktemp -d)
trap 'rm -rf "$room"' EXIT
flags=$(pkg-config --cflags --libs libmodbus 2> "$room/said" || echo -I/usr/include/modbus -lmodbus)
# shellcheck disable=SC2086 # (the flags are several words)
if cc -O2 -DLIBMODBUS -o "$room/reads" "$peers/reads.c" $flags 2> "$room/said" \
    && cc -O2 -o "$room/libmodbus_server" "$peers/libmodbus_server.c" $flags 2> "$room/said"; then
    server=libmodbus_server
else
    echo "stand_in.sh: libmodbus is not installed: beside a plain server in C"
    server=plain_server
    cc -O2 -o "$room/reads" "$peers/reads.c"
    cc -O2 -o "$room/plain_server" "$peers/plain_server.c"
fi
PYTHONDONTWRITEBYTECODE=1 python3 "$peers/stand_in.py" "$program" "$room/reads" "$room/$server" ${2:+"$2"}
