# Functions for the scripts that run the program beside other programs. `here` is the folder tests/,
# and `room` a temporary folder.
. "$here/install-tools.sh"

# compiled NAME: compiles a program over libmodbus, and prints its path; prints nothing if that
# fails
compiled() {
    has cc && has libmodbus || return 0
    if cc -O2 $(flags --cflags) -o "$room/$1" "$here/peers/$1.c" $(flags --libs) 2> "$room/said"; then
        echo "$room/$1"
    else
        echo "$0: $1.c does not compile: $(head -n 1 "$room/said")" >&2
    fi
}
