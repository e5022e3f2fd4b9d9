#!/usr/bin/env bash
# gate.sh [--page] [--log FILE [--in FOLDER] | NAME..]: prints what the parts of the gate cost,
# crate by crate, as a Markdown table. bench/gate.py says more.
exec python3 "$(dirname "$(readlink -f "$0")")/gate.py" "$@"
