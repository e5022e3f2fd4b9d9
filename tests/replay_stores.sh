#!/bin/sh
# replay_stores.sh [PROGRAM]: plays every script of tests/scripts over a store in memory and over an
# office's file, and compares their output. PROGRAM is out/sunreg by default.
# tests/replay_stores.py says more.
exec python3 "$(dirname "$(readlink -f "$0")")/replay_stores.py" "$@"
