#!/bin/sh
# statuses.sh [PROGRAM]: runs the built program for each of its exit statuses. PROGRAM is out/sunreg
# by default, which `./sunreg-build` makes. The script compares status, standard output and standard
# error, and ends with 'N passed, M failed'.
set -u
here=$(dirname "$(readlink -f "$0")")
program=${1:-${SUNREG:-$here/../out/sunreg}}
[ -x "$program" ] || { echo "statuses.sh: $program is not built: run ./sunreg-build" >&2; exit 2; }
room=$(mktemp -d) || exit 2
trap 'rm -rf "$room"' EXIT
passed=0
failed=0

# is WHAT STATUS OUT ERR: compares the last run with what is expected; of standard error its first
# line
is() {
    if [ "$status" = "$2" ] && [ "$(cat "$room/out")" = "$3" ] && [ "$(head -n 1 "$room/err")" = "$4" ]; then
        passed=$((passed + 1))
    else
        failed=$((failed + 1))
        echo "$1: status $status, printed '$(head -c 200 "$room/out")', said '$(head -c 200 "$room/err")'"
    fi
}

# run TEXT WORDS..: runs the program on a text, and keeps its output
run() {
    text=$1
    shift
    printf "$text" | "$program" "$@" > "$room/out" 2> "$room/err"
    status=$?
}

for words in '' replay plan chain loop; do
    if [ "$words" = plan ]; then
        limit="$(printf 'row 1 fault 2')"
        ends=1
    elif [ "$words" = chain ]; then
        limit='fault 1'
        ends=1
    else
        limit=''
        ends=0
    fi
    head -c 4194304 /dev/zero | tr '\0' '#' | "$program" $words > "$room/out" 2> "$room/err"
    status=$?
    is "$words: an input at its limit" "$ends" "$limit" ''
    head -c 4194305 /dev/zero | tr '\0' '#' | "$program" $words > "$room/out" 2> "$room/err"
    status=$?
    is "$words: an input past its limit" 1 'too long' ''
    "$program" $words < "$room" > "$room/out" 2> "$room/err"
    status=$?
    is "$words: a read that fails" 3 '' 'failed'
done

for words in help --help -h 'help replay' 'plan --help' 'stand-in -h' 'help help' 'help explain' 'completions bash'; do
    run '' $words
    [ -s "$room/out" ] || status=none
    : > "$room/out"
    is "$words" 0 '' ''
done

run '' --versions
is 'no such option' 2 '' "error: unexpected argument '--versions' found"
# (the sources have the version; build_identity.py tests the line about the build)
version=$(sed -n 's/^ *version: "\(.*\)",$/\1/p' "$here/../crates/command_words/src/table.rt")
run '' --version
sed -i '2s/^\(not \)\{0,1\}proved[: ].*/(its build)/' "$room/out"
is 'version' 0 "$(printf 'sunreg %s\n(its build)' "${version:-none}")" ''
run '' explain held 1
is 'explain' 0 "$(printf '%s\n' 'held 1: the device reports 0: not accumulated' \
    "Usual cause: a device that doesn't count this energy, or that has just started." \
    "What to do: nothing if it passes; otherwise book another counter, since the device doesn't have this one.")" ''
run '' explain held 9
is 'explain: no such number' 2 '' "error: invalid value '9' for '<NUMBER>': held has the numbers 1 2 3 4 5 6 7 8"
run '' explain hold 1
is 'explain: no such word' 2 '' \
    "error: invalid value 'hold' for '<WHAT>': expected refused, held, lost, malformed, exception, fault or status"
run '' completions zsh
is 'completions: another shell' 2 '' "error: invalid value 'zsh' for '<SHELL>': only bash has completions"
"$program" "$(printf '\377')" > "$room/out" 2> "$room/err"
status=$?
is 'a word that is not in UTF-8' 2 '' 'error: the arguments are not valid UTF-8'

office=$room/office.db
run '' create --db "$office" --zone nowhere
is 'create: a text that is no zone' 2 '' \
    "error: invalid value 'nowhere' for '--zone <TEXT>': not a POSIX time zone; Berlin is CET-1CEST,M3.5.0,M10.5.0/3"
run '' report --db "$office" --register r
is 'report: no such file' 3 '' 'failed'
run '' create --db "$office" --zone UTC0
is 'create' 0 '' ''
run '' create --db "$office" --zone UTC0
is 'create: a file with tables' 3 '' 'failed'
run '' report --db "$office" --register r
is 'report: no such register' 1 'refused 1' ''
run '' serve --db "$office" --port 65536 --connections 1
is 'serve: a port out of range' 2 '' "error: invalid value '65536' for '--port <N>': not a number from 1 to 65535"
run '' round --db "$office" --device d --port 1
is 'round: no device listens' 3 '' 'failed'
# says WHAT TEXT: compares the second line on standard error of the last run with what is expected
says() {
    if [ "$(sed -n 2p "$room/err")" = "sunreg: $2" ]; then
        passed=$((passed + 1))
    else
        failed=$((failed + 1))
        echo "$1: said '$(head -c 200 "$room/err")'"
    fi
}

# Runs that end at once, each with its own message: so none is taken for another.
run '' run --db "$room/none.db" --listen 1 --every 1 --devices d=127.0.0.1:1 --for 1
is 'run: no such file' 3 '' 'failed'
says 'run: no such file' "$room/none.db: file not found; make it with sunreg create"
run '' run --db "$office" --listen 1 --every 1 --devices d=no.such.invalid:1 --for 1
is 'run: a host that has no address' 3 '' 'failed'
says 'run: a host that has no address' \
    "can't resolve no.such.invalid: check the host name and this machine's DNS"
run '' run --db "$room" --listen 1 --every 1 --devices d=127.0.0.1:1 --for 1
is 'run: a folder' 3 '' 'failed'
run '' run --db "$office" --listen 65536 --every 1 --devices d=127.0.0.1:1
is 'run: a port out of range' 2 '' "error: invalid value '65536' for '--listen <PORT>': not a number from 1 to 65535"
port=${STATUSES_PORT:-18691}
run '' run --db "$office" --listen "$port" --every 86400 --devices d=127.0.0.1:1 --for 1
is 'run: for a second' 0 "$(printf 'books to 0 lost 0\nlistening %s' "$port")" 'sunreg: d: the office has no device with this name; add it with POST /devices'

other=$room/other.db
run '' create --db "$other" --zone CET-1
run '' run --db "$other" --db "$office" --listen "$port" --every 86400 --devices d=127.0.0.1:1 --for 1
is 'run: an earlier file of another zone' 1 '' "sunreg: $office: its time zone differs from that of $other: name the files oldest first, each carried from the one before, and void what the older one booked after the carry"
run '' run --db "$room/none.db" --db "$office" --listen "$port" --every 86400 --devices d=127.0.0.1:1 --for 1
is 'run: no such earlier file' 3 '' 'failed'
says 'run: no such earlier file' "$room/none.db: file not found; make it with sunreg create"
head -c 8192 /dev/zero | tr '\0' 'x' > "$room/damaged.db"
run '' run --db "$room/damaged.db" --db "$office" --listen "$port" --every 86400 --devices d=127.0.0.1:1 --for 1
is 'run: an earlier file that is none' 3 '' 'failed'
run '' run --db "$office" --listen "$port" --every 86400 --devices d=127.0.0.1:1 --earlier 1
is 'run: earlier files of no periods' 2 '' "error: the argument '--earlier' cannot be used without '--carry'"

if [ -w /dev/full ]; then
    printf '1000 tick\n' | "$program" > /dev/full 2> "$room/err"
    status=$?
    : > "$room/out"
    is 'a write that fails' 3 '' 'failed'
    "$program" help > /dev/full 2> "$room/err"
    status=$?
    is 'help that can not be written' 3 '' 'failed'
else
    failed=$((failed + 1))
    echo 'no /dev/full here: writes that fail are not tried'
fi

echo "$passed passed, $failed failed"
[ "$failed" = 0 ]
