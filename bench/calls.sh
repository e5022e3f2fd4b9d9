#!/bin/sh
# calls.sh [PROGRAM [AFTER]]: counts what `sunreg round` calls for each settled poll, beside offices
# in C (bench/peers/office.c) and Python (tests/peers/plain_office.py) that record the same.
# It counts statements that read tables and that write rows, fdatasyncs, bytes written to the log,
# writes to standard output and more. The rounds have 512 and 32 polls, one or 16 at once, 32 of
# them of a meter. The opening does not count.
# PROGRAM is out/sunreg by default, which `./sunreg-build` makes. With a second program the table
# has both. The script needs strace, gdb, a C compiler, libsqlite3 with its header, python3 and
# sqlite3. The files are in /dev/shm: counts are the same on a disk.
set -eu
here=$(dirname "$(readlink -f "$0")")
[ "$#" -gt 0 ] || set -- "$here/../out/sunreg"
for it in "$@"; do
    [ -x "$it" ] || { echo "calls.sh: $it is not built: run ./sunreg-build" >&2; exit 2; }
done
for it in strace gdb cc python3 sqlite3; do
    command -v $it > /dev/null || { echo "calls.sh: $it is not installed" >&2; exit 2; }
done
PYTHONDONTWRITEBYTECODE=1 exec python3 "$here/peers/calls.py" "$@"
