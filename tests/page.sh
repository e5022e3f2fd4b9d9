#!/bin/sh
# page.sh [PROGRAM]: opens the page of web/ in chromium, and compares it with the data. Without
# PROGRAM the page is over a mock office, whose data are made up but exact. With PROGRAM the built
# program serves it, over a small site. As root the script installs a missing chromium by apt (not
# with PEERS_INSTALL=no); without chromium it tests only the page's words. PAGE_PICTURES=FOLDER
# keeps pictures there. The script takes half a minute, and ends with 'N passed, M failed', and with
# ', K skipped' if checks were skipped.
set -u
here=$(dirname "$(readlink -f "$0")")
room=$(mktemp -d) || exit 2
trap 'rm -rf "$room"' EXIT
if [ $# -gt 0 ]; then
    [ -x "$1" ] || { echo "page.sh: $1 is not built: run ./sunreg-build" >&2; exit 2; }
    set -- "$(readlink -f "$1")"
fi
. "$here/peers/install.sh"

install python3 chromium
PYTHONDONTWRITEBYTECODE=1 python3 "$here/page.py" "$@"
