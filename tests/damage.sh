#!/bin/sh
# damage.sh [PROGRAM]: damages files, and gives commands names and files that they must refuse.
# tests/damage.py says more.
exec python3 "$(dirname "$(readlink -f "$0")")/damage.py" "$@"
