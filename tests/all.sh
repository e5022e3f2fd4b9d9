#!/bin/sh
# all.sh [PROGRAM]: runs the long checks of the built program, one after the other, and prints a
# table of them. PROGRAM is out/sunreg by default, which `./sunreg-build` makes. The checks are
# those of `tests/program.py --long`, and take some hours. As root the script first installs missing
# tools. It ends with 'N passed, M failed'.
here=$(dirname "$(readlink -f "$0")")
"$here/install-tools.sh" --long
exec "$here/program.py" --long "$@"
