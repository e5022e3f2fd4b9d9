#!/bin/sh
# stores.sh [PROGRAM]: compares the rows of an office's file with its input, and the program's
# responses with rows that sqlite wrote. PROGRAM is out/sunreg by default, which `./sunreg-build`
# makes. tests/stores.py says more. The script needs python3, and ends with 'N passed, M failed'.
exec python3 "$(dirname "$(readlink -f "$0")")/stores.py" "$@"
