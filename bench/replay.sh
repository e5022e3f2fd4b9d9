#!/bin/sh
# replay.sh [PROGRAM [N]]: times the program on scripts of polls of one counter each and their
# responses, beside plain programs in Rust (bench/peers/replay.rs) and Python (bench/office.py) that
# execute the same lines. PROGRAM is out/sunreg by default, which `./sunreg-build` makes, and N is
# 100,000.
# - N/4 and N/2 polls of one meter, with one line for each start and one for each response
# - N/25 and 2N/25 such polls of 2,048 meters at 64 devices of 32 registers
# - N/2 and N polls of these meters by rounds of 16 polls, whose responses are in one line
# - scripts that only set the meters up
#
# All must print the same. Twice the polls should take at most 2.2 times as long, and as much
# memory. Times are the least of three runs. Ratios are the other program's time by that of sunreg:
# above 1 sunreg is faster. The script needs rustc and python3.
set -eu
here=$(dirname "$(readlink -f "$0")")
program=${1:-$here/../out/sunreg}
[ -x "$program" ] || { echo "replay.sh: $program is not built: run ./sunreg-build" >&2; exit 2; }
for it in rustc python3; do
    command -v $it > /dev/null || { echo "replay.sh: $it is not installed" >&2; exit 2; }
done
PYTHONDONTWRITEBYTECODE=1 exec python3 "$here/peers/replays.py" "$program" ${2:+"$2"}
