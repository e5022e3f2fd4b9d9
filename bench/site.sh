#!/bin/sh
# site.sh [PROGRAM]: measures what `GET /site` of a running office costs over 2,048 meters at 64
# devices, of which `run` polls all or one. Then it measures `GET /registers/NAME/meters` of each
# register. PROGRAM is out/sunreg by default, which `./sunreg-build` makes. The script needs python3
# and sqlite3. The file is in /dev/shm.
set -eu
here=$(dirname "$(readlink -f "$0")")
program=${1:-$here/../out/sunreg}
[ -x "$program" ] || { echo "site.sh: $program is not built: run ./sunreg-build" >&2; exit 2; }
for it in python3 sqlite3; do
    command -v $it > /dev/null || { echo "site.sh: $it is not installed" >&2; exit 2; }
done
PYTHONDONTWRITEBYTECODE=1 exec python3 "$here/peers/site_replies.py" "$program"
