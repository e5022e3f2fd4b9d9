#!/usr/bin/env bash
# edits.sh [--jobs N] [--verbose] [NAME..]: tries the mutants that the prover must refuse, many of
# them in one check. It works on the repository of the current folder; tests/edits.py says more.
exec python3 "$(dirname "$(readlink -f "$0")")/edits.py" "$@"
