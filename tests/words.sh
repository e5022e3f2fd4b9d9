#!/bin/sh
# words.sh [--man | --manual] [PROGRAM]: compares help, the manual page, completions, `explain`, the
# version and the pages' tables of numbers, with the built program, out/sunreg by default. --manual
# prints the manual page again; --man opens that page in man. tests/words.py says more.
exec python3 "$(dirname "$(readlink -f "$0")")/words.py" "$@"
