#!/usr/bin/env bash
# sqlite3.sh [PROGRAM]: reads the built program's files with the `sqlite3` program, and files of
# `sqlite3` with the program. PROGRAM is out/sunreg by default, which `./sunreg-build` makes. The
# script needs curl and sqlite3, and ends with 'N passed, M failed'.
set -uo pipefail
here=$(dirname "$(readlink -f "$0")")
program=${1:-${SUNREG:-$here/../out/sunreg}}
[ -x "$program" ] || { echo "sqlite3.sh: $program is not built: run ./sunreg-build" >&2; exit 2; }
program=$(readlink -f "$program")
for tool in curl sqlite3; do
    command -v $tool > /dev/null || { echo "sqlite3.sh: $tool is not installed: run tests/install-tools.sh" >&2; exit 2; }
done
. "$here/waiting.sh"
room=$(mktemp -d) || exit 2
children=''
trap 'for it in $children; do kill -9 "$it" 2> /dev/null; done; rm -rf "$room"' EXIT
cd "$room" || exit 2
passed=0
failed=0
port=${SQLITE3_PORT:-18571}
device=$((port + 1))

# same WHAT GOT WANTED: compares a result with the expected one, and counts it
same() {
    if [ "$2" = "$3" ]; then
        passed=$((passed + 1))
    else
        failed=$((failed + 1))
        printf '%s:\n%s\nand not:\n%s\n' "$1" "$2" "$3"
    fi
}

# serve FILE N: serves N connections of an office
serve() {
    "$program" serve --db "$1" --port "$port" --connections "$2" > served 2>&1 < /dev/null &
    child=$!
    children="$children $child"
}

# ask PATH [WORDS..]: sends a request to the serving program, once it listens, and prints the
# response's body; none if it can't serve
ask() {
    for turn in $(seq 200); do
        curl -s --max-time 120 "${@:2}" "http://127.0.0.1:$port$1"
        [ $? = 7 ] && kill -0 "$child" 2> /dev/null || return
        sleep 0.5
    done
}

# put PATH NUMBER BODY: sends a command
put() {
    ask "$1" -H 'Office-Caller: desk' -H "Office-Request: $2" --data-binary "$3"
}

# round FILE RAW: runs a round over the device, whose counter shows RAW
round() {
    printf 'area holding 40000 100\nset holding 40095 %s\n' "$2" > bank
    "$program" stand-in --port "$device" --connections 1 < bank > stand_in 2>&1 &
    child=$!
    children="$children $child"
    # (a reading comes seconds after the one before)
    sleep "${SQLITE3_PAUSE:-2}"
    wait_for 30 listens "$device"
    "$program" round --db "$1" --device inv --port "$device" < /dev/null
    wait "$child"
}

# column NAME: prints a timestamp, as `now` if it is within this run, so that rows can be compared
column() {
    echo "CASE WHEN $1 BETWEEN $begun AND $(date +%s) THEN 'now' ELSE $1 END"
}

# rows FILE: prints all rows of a file, without the bytes of the requests
rows() {
    sqlite3 "$1" "SELECT 'meta', * FROM meta; SELECT 'device', * FROM devices; SELECT 'point', * FROM points;
SELECT 'register', * FROM registers;
SELECT 'installation', place, meter, register, ceiling, ended, $(column last_moment), last_raw, last_sf, total FROM installations;
SELECT 'entry', meter, place, kind, $(column moment), raw, rolls, after, sf FROM entries ORDER BY 2, 3;
SELECT 'poll', poll, device, unit, $(column started), tid, function, address, count FROM polls;
SELECT 'hold', place, meter, poll, $(column moment), raw, sf, cause FROM holds;
SELECT 'outcome', poll, $(column moment), outcome, code FROM outcomes;
SELECT 'reply', caller, number, typeof(request), length(request) > 0, kind, $(column moment) FROM replies ORDER BY 2, 3;
SELECT 'range', * FROM ranges ORDER BY 2; SELECT 'void', meter, place, $(column moment) FROM voids;
SELECT 'energy', meter, sum(mwh), sum(start % 900), min(start) > $begun - 900, max(start) <= $(date +%s) FROM intervals GROUP BY meter"
}

# whole WHAT FILE: sqlite3 finds no fault in the file, and its tables are those of docs/SCHEMA.md
whole() {
    same "$1: it is whole" "$(sqlite3 "$2" 'PRAGMA integrity_check; PRAGMA foreign_key_check')" ok
    same "$1: its tables" "$(sqlite3 "$2" 'SELECT type, name, tbl_name, sql FROM sqlite_schema')" "$schema"
}

bash "$here/schema.sh" made.db CET-1CEST,M3.5.0,M10.5.0/3 || exit 2
schema=$(sqlite3 made.db 'SELECT type, name, tbl_name, sql FROM sqlite_schema')

# ---- a file of ours, read by sqlite3

begun=$(date +%s)
"$program" create --db ours.db --zone UTC0 < /dev/null
same 'create' "$?" 0
whole 'a new file' ours.db
same 'a new file: its rows' "$(rows ours.db)" 'meta|1|3|UTC0'
serve ours.db 4
same 'a device' "$(put /devices 1 '{"name":"inv","unit":1,"timeout":60,"window":1}')" '{"done":"device"}'
list='name,function,area,address,type,scale
wh,3,0,40094,acc32,
'
same 'a list' "$(put /devices/inv/list 2 "$list")" '{"done":"list"}'
same 'a register' "$(put /registers 3 '{"name":"main","device":"inv","function":3,"address":40094,"fixed":0}')" '{"done":"register"}'
same 'a meter' "$(put /registers/main/install 4 '{"meter":"m1","raw":5000,"sf":0,"ceiling":1000000000}')" '{"done":"install"}'
wait "$child"
round ours.db 5150 > told
same 'a false reading' "$(grep -c '^reading m1 5150 rolls 0 step 150000$' told)" 1
round ours.db 5200 > told
same 'a reading' "$(grep -c '^reading m1 5200 rolls 0 step 50000$' told)" 1
serve ours.db 7
same 'a void' "$(put /meters/m1/void 5 '{"place":2}')" '{"done":"void"}'
sleep 2
same 'a reading by hand' "$(put /registers/main/manual 6 '{"raw":5250,"rolls":0}')" '{"done":"manual"}'
for place in 1 3 4; do
    same "a void of place $place" "$(put /meters/m1/void 7 "{\"place\":$place}")" '{"refused":16}'
done
sleep 2
same 'an exchange' "$(put /registers/main/exchange 8 '{"last":5300,"rolls":0,"meter":"m2","raw":99990,"sf":0,"ceiling":1000000,"range":100000}')" \
    '{"done":"exchange"}'
printed=$(ask /meters/m1/intervals)
wait "$child"
same 'the quarter hours' "$printed" "$(sqlite3 -separator ' ' ours.db "SELECT start, mwh FROM intervals WHERE meter = 'm1' ORDER BY start")
end $(sqlite3 ours.db "SELECT count(*) FROM intervals WHERE meter = 'm1'")"
round ours.db 0 > told
same 'a reading that is held' "$(grep -c '^held m2 0 cause 1$' told)" 1
round ours.db 1 > told
same 'a counter that turned over' "$(grep -c '^reading m2 1 rolls 1 step 11000$' told)" 1
whole 'a file of ours' ours.db
same 'a file of ours: its rows' "$(rows ours.db | grep -v '^energy|m2')" 'meta|1|3|UTC0
device|1|inv|1|60|1
point|inv|1|wh|3|0|40094|acc32|
register|1|main|inv|3|40094|0|0
installation|1|m1|main|1000000000|1|now|5300|0|300000
installation|2|m2|main|1000000|0|now|1|0|11000
entry|m1|1|1|now|5000|0|0|0
entry|m1|2|2|now|5150|0|0|0
entry|m1|3|2|now|5200|0|0|0
entry|m1|4|3|now|5250|0|0|0
entry|m1|5|4|now|5300|0|0|0
entry|m2|1|1|now|99990|0|0|0
entry|m2|2|2|now|1|1|0|0
poll|1|inv|1|now|0|3|40094|2
poll|2|inv|1|now|0|3|40094|2
poll|3|inv|1|now|0|3|40094|2
poll|4|inv|1|now|0|3|40094|2
hold|1|m2|3|now|0|0|1
outcome|1|now|1|0
outcome|2|now|1|0
outcome|3|now|1|0
outcome|4|now|1|0
reply|desk|1|blob|1|device|now
reply|desk|2|blob|1|list|now
reply|desk|3|blob|1|register|now
reply|desk|4|blob|1|install|now
reply|desk|5|blob|1|void|now
reply|desk|6|blob|1|manual|now
reply|desk|8|blob|1|exchange|now
range|m1|4294967296
range|m2|100000
void|m1|2|now
energy|m1|300000|0|1|1'
same 'the energy of the second meter' "$(rows ours.db | grep '^energy|m2')" 'energy|m2|11000|0|1|1'

# ---- a file of sqlite3, opened by us

sqlite3 made.db "INSERT INTO devices VALUES (1, 'inv', 1, 60, 1);
INSERT INTO points VALUES ('inv', 1, 'wh', 3, 0, 40094, 'acc32', '');
INSERT INTO registers VALUES (1, 'main', 'inv', 3, 40094, 0, 0);
INSERT INTO installations VALUES (1, 'm1', 'main', 1000000000, 0, 1900, 5200, 0, 200000);
INSERT INTO entries VALUES ('m1', 1, 1, 1000, 5000, 0, 0, 0), ('m1', 2, 2, 1900, 5200, 0, 0, 0);
INSERT INTO polls VALUES (1, 'inv', 1, 1898, 0, 3, 40094, 2), (2, 'inv', 1, 1950, 1, 3, 40094, 2);
INSERT INTO outcomes VALUES (1, 1900, 1, 0);
INSERT INTO intervals VALUES ('m1', 900, 177777), ('m1', 1800, 22223);
INSERT INTO ranges VALUES ('m1', 4294967296);"
days=$(printf '1970-01-01 %3d %24d\nend 1' 2 200000)
same 'the days of a file of sqlite3' "$("$program" report --db made.db --register main < /dev/null)" "$days"
serve made.db 4
same 'its meter' "$(ask /meters/m1)" \
    '{"at":1900,"ended":false,"last":5200,"meter":"m1","range":4294967296,"register":"main","sf":0,"total":"200000"}'
same 'its quarter hours' "$(ask /meters/m1/intervals)" '900 177777
1800 22223
end 2'
same 'a poll' "$(ask /polls/1)" '{"code":0,"device":"inv","moment":1900,"outcome":1,"poll":1,"started":1898}'
same 'a poll that waited' "$(ask /polls/2 | sed 's/"moment":[0-9]*/"moment":now/')" \
    '{"code":4,"device":"inv","moment":now,"outcome":5,"poll":2,"started":1950}'
wait "$child"
round made.db 5300 > told
same 'a reading too late' "$(grep -c '^held m1 5300 cause 4$' told)" 1
whole 'a file of both' made.db
same 'a file of both: its rows' "$(rows made.db)" 'meta|1|3|CET-1CEST,M3.5.0,M10.5.0/3
device|1|inv|1|60|1
point|inv|1|wh|3|0|40094|acc32|
register|1|main|inv|3|40094|0|0
installation|1|m1|main|1000000000|0|1900|5200|0|200000
entry|m1|1|1|1000|5000|0|0|0
entry|m1|2|2|1900|5200|0|0|0
poll|1|inv|1|1898|0|3|40094|2
poll|2|inv|1|1950|1|3|40094|2
poll|3|inv|1|now|0|3|40094|2
hold|1|m1|3|now|5300|0|4
outcome|1|1900|1|0
outcome|2|now|5|4
outcome|3|now|1|0
range|m1|4294967296
energy|m1|200000|0|0|1'

for version in 1 2; do
    cp made.db "version$version.db"
    sqlite3 "version$version.db" "DROP TABLE voids; UPDATE meta SET version = $version"
done
sqlite3 version1.db 'DROP TABLE ranges'
for version in 1 2; do
    same "version $version: its days" "$("$program" report --db "version$version.db" --register main < /dev/null)" "$days"
    whole "version $version" "version$version.db"
    same "version $version: its rows" "$(rows "version$version.db")" "$(rows made.db)"
done

sqlite3 made.db "UPDATE intervals SET mwh = -1 WHERE start = 900"
"$program" report --db made.db --register main < /dev/null > told 2> said
same 'a value that none may have' "$? $(cat told)" '1 refused 13'

echo "$passed passed, $failed failed"
[ "$failed" = 0 ]
