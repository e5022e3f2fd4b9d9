#!/bin/sh
# cases.sh [PROGRAM]: plays every golden test with the built program, out/sunreg by default.
# tests/cases.py says more.
exec python3 "$(dirname "$(readlink -f "$0")")/cases.py" "$@"
