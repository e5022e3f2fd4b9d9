#!/usr/bin/env bash
# functions.sh [NAME]: times the functions of a crate's check over built libraries, and prints the
# most expensive first. Without a name it times the steps of all checks that run meanwhile.
# bench/functions.py says more.
exec python3 "$(dirname "$(readlink -f "$0")")/functions.py" "$@"
