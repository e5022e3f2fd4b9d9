#!/bin/sh
# files.sh [PROGRAM]: runs the built program's commands over an office in a file, with curl, sqlite3
# and its own simulator. PROGRAM is out/sunreg by default, which `./sunreg-build` makes. The script
# ends with 'N passed, M failed'.
set -u
here=$(dirname "$(readlink -f "$0")")
program=${1:-${SUNREG:-$here/../out/sunreg}}
[ -x "$program" ] || { echo "files.sh: $program is not built: run ./sunreg-build" >&2; exit 2; }
program=$(readlink -f "$program")
for tool in curl sqlite3; do
    command -v $tool > /dev/null || { echo "files.sh: $tool is not installed: run tests/install-tools.sh" >&2; exit 2; }
done
. "$here/waiting.sh"
room=$(mktemp -d) || exit 2
children=''
trap 'for it in $children; do kill -9 "$it" 2> /dev/null; done; rm -rf "$room"' EXIT
cd "$room" || exit 2
passed=0
failed=0
port=${FILES_PORT:-18471}
device=$((port + 1))

# same WHAT GOT WANTED: compares a result with the expected one, and counts it
same() {
    if [ "$2" = "$3" ]; then
        passed=$((passed + 1))
    else
        failed=$((failed + 1))
        echo "$1: '$2', and not '$3'"
    fi
}

# is WHAT STATUS OUT ERR: compares the last run with what is expected; of standard error its first
# line
is() {
    same "$1" "$status $(cat out) / $(head -n 1 err)" "$2 $3 / $4"
    if [ "$2" = 3 ]; then
        same "$1: lines on standard error" "$(wc -l < err)" 2
    fi
}

# run WORDS..: runs the program, and keeps its output
run() {
    "$program" "$@" > out 2> err < /dev/null
    status=$?
}

# ask PATH [WORDS..]: sends a request to the serving program, once it listens. Prints the response's
# status and body, or the program's message if it can't serve
ask() {
    path=$1
    shift
    rm -f body
    for turn in $(seq 100); do
        code=$(curl -s -w '%{http_code}' -o body --max-time 30 "$@" "http://127.0.0.1:$port$path")
        [ $? = 7 ] && [ ! -s served ] || break
        sleep 0.5
    done
    echo "$code $(cat body served)"
}

# put PATH NUMBER BODY: sends a command
put() {
    ask "$1" -H 'Office-Caller: desk' -H "Office-Request: $2" --data-binary "$3"
}

# stand_in COUNT RAW: starts a device for so many connections, whose meter shows RAW
stand_in() {
    printf 'area holding 40000 100\nset holding 40095 %s\n' "$2" \
        | "$program" stand-in --port "$device" --connections "$1" > stand_in 2>&1 &
    child=$!
    children="$children $child"
    wait_for 30 listens "$device"
}

run create --db office.db --zone nowhere
is 'a text that is no zone' 2 '' "error: invalid value 'nowhere' for '--zone <TEXT>': not a POSIX time zone; Berlin is CET-1CEST,M3.5.0,M10.5.0/3"
same 'no zone makes no file' "$(ls office.db 2> /dev/null)" ''
for words in 'report --register main' "serve --port $port --connections 1" "round --device inv --port $device"; do
    run ${words%% *} --db none.db ${words#* }
    is "${words%% *}: a file that is missing" 3 '' 'failed'
done
same 'no file is made' "$(ls none.db 2> /dev/null)" ''
echo 'no database' > text.db
run report --db text.db --register main
is 'a text is no database' 3 '' 'failed'
run create --db "$room" --zone UTC0
is 'a folder is no file' 3 '' 'failed'
sqlite3 other.db 'CREATE TABLE other (n INTEGER)'
run report --db other.db --register main
is 'the tables of another' 3 '' 'failed'
run create --db other.db --zone UTC0
is 'a file that has tables' 3 '' 'failed'

run create --db office.db --zone CET-1CEST,M3.5.0,M10.5.0/3
is 'create' 0 '' ''
run create --db office.db --zone UTC0
is 'create again' 3 '' 'failed'
run report --db office.db --register main
is 'no register yet' 1 'refused 1' ''
run report --db office.db --register 'no name'
is 'no name' 1 'refused 1' ''
run round --db office.db --device inv --port "$device"
is 'no device listens' 3 '' 'failed'

"$program" serve --db office.db --port "$port" --connections 8 > served 2>&1 < /dev/null &
child=$!
children="$children $child"
same 'a device' "$(put /devices 1 '{"name":"inv","unit":1,"timeout":60,"window":1}')" '200 {"done":"device"}'
list='name,function,area,address,type,scale
wh,3,0,40094,acc32,
'
same 'its list' "$(put /devices/inv/list 2 "$list")" '200 {"done":"list"}'
same 'a register' "$(put /registers 3 '{"name":"main","device":"inv","function":3,"address":40094,"fixed":0}')" '200 {"done":"register"}'
same 'a meter' "$(put /registers/main/install 4 '{"meter":"m1","raw":5000,"sf":0,"ceiling":1000000000}')" '200 {"done":"install"}'
same 'a repeat' "$(put /registers/main/install 4 '{"meter":"m1","raw":5000,"sf":0,"ceiling":1000000000}')" '200 {"done":"install"}'
same 'another request under its number' "$(put /registers/main/install 4 '{"meter":"m2","raw":5000,"sf":0,"ceiling":1}')" '409 {"refused":11}'
run report --db office.db --register main
is 'a file that another has open' 3 '' 'failed'
same 'no days yet' "$(ask /registers/main/days)" '200 end 0'
same 'an unknown meter' "$(ask /meters/none)" '404 {"refused":1}'
wait "$child"
same 'serving ends behind its connections' "$? $(cat served)" '0 '
"$program" stand-in --port "$port" --connections 1 > /dev/null 2>&1 < /dev/null &
child=$!
children="$children $child"
wait_for 30 listens "$port"
run serve --db office.db --port "$port" --connections 1
is 'a port that is taken' 3 '' 'failed'
kill -9 "$child"

# (a reading comes seconds after the opening)
sleep 2
stand_in 1 5200
run round --db office.db --device inv --port "$device"
is 'a round' 0 'ok
started 1 1 1 00000000000601039c9e0002
poll 1 answered
reading m1 5200 rolls 0 step 200000
ok
ok' ''
run report --db office.db --register main
same 'the energy of the days' "$status $(awk '/^end/ { days = $2 } !/^end/ { sum += $3; lines += 1 } END { print sum, days == lines }' out)" '0 200000 1'
stand_in 1 5200
run round --db office.db --device other --port "$device"
is 'an unknown device' 1 'refused 1' 'sunreg: other: the office has no device with this name; add it with POST /devices'

stand_in 2 5300
kill -STOP "$child"
"$program" round --db office.db --device inv --port "$device" > out 2> err < /dev/null &
round=$!
wait_for 60 grep -q started out
kill -9 "$round"
wait "$round" 2> /dev/null
kill -CONT "$child"
# (sqlite3 moves the log, and removes it)
same 'a poll waits behind the stop' "$(sqlite3 office.db 'SELECT (SELECT count(*) FROM polls) - (SELECT count(*) FROM outcomes)')" 1
# (a reading of the same second as the one before would be rejected)
sleep 1.1
run round --db office.db --device inv --port "$device"
is 'a round behind the stop' 0 'ok
started 3 1 1 00000000000601039c9e0002
poll 3 answered
reading m1 5300 rolls 0 step 100000
ok
ok' 'sunreg: office.db: it had no log office.db-wal: a backup needs none, but a file copied without its log lacks the latest entries'
same 'the poll that waited is lost' "$(sqlite3 office.db 'SELECT outcome, code FROM outcomes WHERE poll = 2')" '5|4'
run report --db office.db --register main
same 'the energy behind the stop' "$status $(awk '!/^end/ { sum += $3 } END { print sum }' out)" '0 300000'
same 'the file is whole' "$(sqlite3 office.db 'PRAGMA integrity_check; PRAGMA foreign_key_check')" ok
bash "$here/schema.sh" wanted.db
same 'its tables are those of docs/SCHEMA.md' "$(sqlite3 office.db 'SELECT name, sql FROM sqlite_schema' | md5sum)" "$(sqlite3 wanted.db 'SELECT name, sql FROM sqlite_schema' | md5sum)"
same 'its version and zone' "$(sqlite3 office.db 'SELECT version, zone FROM meta')" '3|CET-1CEST,M3.5.0,M10.5.0/3'
run report --db office.db --register main
same 'the file opens behind sqlite3' "$status" 0
if [ -w /dev/full ]; then
    "$program" report --db office.db --register main > /dev/full 2> err < /dev/null
    same 'a write that fails' "$? $(head -n 1 err)" '3 failed'
else
    same 'a write that fails' 'no /dev/full here' ''
fi

# A file and a folder in which nobody may write. Root may, so root runs it as nobody, with a copy of
# the program that nobody can reach.
run report --db office.db --register main
cp out wanted
mkdir closed passing
cp office.db* closed
cp "$program" sunreg
chmod 0444 closed/*
chmod 0555 closed
chmod 1777 passing
chmod 0755 "$room" sunreg
seen() { ls -ln closed && md5sum closed/*; }
before=$(seen)
unprivileged=''
[ "$(id -u)" != 0 ] || unprivileged='setpriv --reuid=65534 --regid=65534 --clear-groups'
TMPDIR=$room/passing $unprivileged ./sunreg report --db closed/office.db --register main > out 2> err < /dev/null
same 'a report where nobody may write' "$? $(cat out err)" "0 $(cat wanted)"
TMPDIR=$room/passing $unprivileged ./sunreg audit --db closed/office.db > out 2> err < /dev/null
same 'an audit where nobody may write' "$? $(cut -d ' ' -f 1-3 out) $(cat err)" '0 fine: 1 meter, '
TMPDIR=$room/passing $unprivileged ./sunreg enter --db closed/office.db --caller desk > out 2> err < /dev/null
same 'what writes is refused there' "$? $(cat out; head -n 1 err)" '3 failed'
same 'file and folder are as they were' "$(seen)" "$before"
same 'no copy is left' "$(ls passing)" ''

# An audit does not disturb a process that has the file open.
"$program" serve --db office.db --port "$port" --connections 1 > served 2>&1 < /dev/null &
child=$!
children="$children $child"
wait_for 30 listens "$port"
run report --db office.db --register main
same 'a report beside one that serves' "$status" 3
run audit --db office.db
same 'an audit beside one that serves' "$status $(cut -d ' ' -f 1-3 out)" '0 fine: 1 meter,'
same 'it serves on' "$(ask /meters/none)" '404 {"refused":1}'
wait "$child"

echo "$passed passed, $failed failed"
[ "$failed" = 0 ]
