#!/bin/bash
# carry.sh [PROGRAM]: carries an office into a new file with the built program, also beside a
# running office, and continues in both files, with curl and sqlite3. PROGRAM is out/sunreg by
# default, which `./sunreg-build` makes. KILLS is the number of killed carries, 60 by default.
# CARRY_PORT is the first port on which it listens. The script ends with 'N passed, M failed'.
set -u
here=$(dirname "$(readlink -f "$0")")
program=${1:-${SUNREG:-$here/../out/sunreg}}
[ -x "$program" ] || { echo "carry.sh: $program is not built: run ./sunreg-build" >&2; exit 2; }
program=$(readlink -f "$program")
for tool in curl sqlite3; do
    command -v $tool > /dev/null || { echo "carry.sh: $tool is not installed: run tests/install-tools.sh" >&2; exit 2; }
done
. "$here/waiting.sh"
room=$(mktemp -d) || exit 2
children=''
trap 'for it in $children; do kill -9 "$it" 2> /dev/null; done; rm -rf "$room"' EXIT
cd "$room" || exit 2
# (a killed carry may leave its copy of the old file among the temporary files)
mkdir passing
export TMPDIR="$room/passing"
passed=0
failed=0
port=${CARRY_PORT:-18631}

# same WHAT GOT WANTED: compares a result with the expected one, and counts it
same() {
    if [ "$2" = "$3" ]; then
        passed=$((passed + 1))
    else
        failed=$((failed + 1))
        echo "$1: '$2', and not '$3'"
    fi
}

# run WORDS..: runs the program, and keeps its output without the message about a missing log
run() {
    "$program" "$@" > out 2> said < /dev/null
    status=$?
    grep -v 'it had no log' said > err
}

# refused WHAT TEXT: the last run had status 3, a sentence, and nothing on standard output
refused() {
    same "$1" "$status $(cat out)$(cat err)" "3 failed
sunreg: $2"
}

# sums NAME..: prints the checksums of the files of these names
sums() {
    sha256sum "$@" 2> /dev/null
}

# ask_rows FILE SQL: prints what sqlite3 reads in a copy of a file and its log, and leaves both
# unchanged
ask_rows() {
    rm -rf asked
    mkdir asked
    cp "$1" asked/it
    [ ! -e "$1-wal" ] || cp "$1-wal" asked/it-wal
    sqlite3 asked/it "$2"
}

# enter FILE LINES: enters lines; status and standard output (its lines joined by ;) are in came
enter() {
    printf "$2" | "$program" enter --db "$1" --caller desk > out 2> err
    came="$? $(paste -sd ';' out)"
}

# polled FILE LINES: polls inv at a simulator that these lines set up; status and the lines of its
# meters (joined by ;) are in came
polled() {
    port=$((port + 1))
    printf "$2" | "$program" stand-in --port "$port" --connections 1 > peer 2>&1 &
    peer=$!
    children="$children $peer"
    wait_for 30 listens "$port"
    "$program" round --db "$1" --device inv --port "$port" > out 2> err < /dev/null
    status=$?
    kill "$peer" 2> /dev/null
    wait "$peer" 2> /dev/null
    came="$status $(grep -E '^(reading|held) ' out | sort | paste -sd ';')"
}

# bank MAIN SIDE: prints the simulator's lines for the counters of both registers
bank() {
    printf 'area holding 40094 6\\nset holding 40095 %s\\nset holding 40098 %s\\n' "$1" "$2"
}

# ask PATH: sends a request to the serving program, once it listens
ask() {
    for _try in $(seq 100); do
        curl -s --max-time 30 "http://127.0.0.1:$port$1"
        [ $? = 7 ] || break
        sleep 0.2
    done
}

# serve FILE COUNT: serves so many connections in the background
serve() {
    port=$((port + 1))
    "$program" serve --db "$1" --port "$port" --connections "$2" > served 2>&1 < /dev/null &
    child=$!
    children="$children $child"
}

# meters FILE NAME..: prints the HTTP response about each meter, without its energy
meters() {
    file=$1
    shift
    serve "$file" $#
    for it in "$@"; do
        ask "/meters/$it" | sed -E 's/,"total":"[0-9]+"//'
        echo
    done
    wait "$child"
}

# shown NAME FIELD: prints a field of a meter in the last response
shown() {
    grep "\"meter\":\"$1\"" asked-meters | sed -E "s/.*\"$2\":([^,}]*).*/\1/"
}

# energy FILE REGISTER: prints the energy of a report of all days
energy() {
    "$program" report --db "$1" --register "$2" 2> /dev/null < /dev/null | awk '$1 != "end" { sum += $3 } END { printf "%d\n", sum }'
}

# An office with a replaced meter, a voided reading, and a reset.
run create --db old.db --zone CET-1CEST,M3.5.0,M10.5.0/3
same 'create' "$status $(cat out err)" '0 '
printf 'name,function,area,address,type,scale\nwh,3,0,40094,acc32,wh_sf\nwh_sf,3,0,40096,sunssf,\nside,3,0,40097,acc32,side_sf\nside_sf,3,0,40099,sunssf,\n' > inv.csv
site="1 device inv 1 5 1\n2 list inv @inv.csv\n3 register main inv 3 40094 @40096\n4 register side inv 3 40097 @40099\n5 device two 2 10 3\n6 register far two 4 100 0\n7 register spare two 4 200 -1\n8 install main m1 5000 0 100000\n9 install side m2 7000 0 100000 16777216\n10 install far m4 6000 0 90000 65536\n"
enter old.db "$site"
same 'a site' "$came" '0 ok;ok;ok;ok;ok;ok;ok;ok;ok;ok'
sleep 1.1
polled old.db "$(bank 5010 7005)"
same 'first readings' "$came" '0 reading m1 5010 rolls 0 step 10000;reading m2 7005 rolls 0 step 5000'
sleep 1.1
enter old.db '11 exchange side 7012 0 m3 100 0 80000 1000000\n'
same 'an exchange' "$came" '0 ok'
meters old.db m1 m3 m4 > asked-meters
cp asked-meters asked-then
until_exchange=$(shown m3 at)
sleep 1.1
polled old.db "$(bank 5020 110)"
same 'second readings' "$came" '0 reading m1 5020 rolls 0 step 10000;reading m3 110 rolls 0 step 10000'
sleep 1.1
polled old.db "$(bank 5033 120)"
same 'third readings' "$came" '0 reading m1 5033 rolls 0 step 13000;reading m3 120 rolls 0 step 10000'
enter old.db '12 void m1 4\n'
same 'one is voided' "$came" '0 ok'
sleep 1.1
enter old.db '13 reset far 6005 10\n'
same 'a reset' "$came" '0 ok'
meters old.db m1 m3 m4 > asked-meters
same 'what stands' "$(shown m1 last) $(shown m3 last) $(shown m4 last)" '5020 120 10'

# The carry.
before=$(sums old.db old.db-wal)
run carry --from old.db --to new.db
same 'carry' "$status $(cat out err)" '0 carried 3 meters'
same 'its log is empty, and no other file is left' "$(ls new.db*; cat new.db-wal)" 'new.db
new.db-wal'
same 'nor a copy' "$(ls passing)" ''
same 'it is its owner'\''s alone' "$(stat -c %a new.db)" 600
same 'the old one stays as it is' "$(sums old.db old.db-wal)" "$before"
carried=$(ask_rows new.db .dump)
same 'its zone' "$(ask_rows new.db 'SELECT version, zone FROM meta')" '3|CET-1CEST,M3.5.0,M10.5.0/3'
for table in devices points registers; do
    same "its $table" "$(ask_rows new.db "SELECT * FROM $table ORDER BY 1, 2")" "$(ask_rows old.db "SELECT * FROM $table ORDER BY 1, 2")"
done
open="SELECT meter, register, ceiling, ended, last_moment, last_raw, last_sf, \"range\" FROM installations NATURAL JOIN ranges WHERE ended = 0 ORDER BY meter"
same 'its meters' "$(ask_rows new.db "$open")" "$(ask_rows old.db "$open")"
same 'no meter that was closed' "$(ask_rows new.db 'SELECT count(*), sum(total) FROM installations')" '3|0'
same 'an entry each' "$(ask_rows new.db 'SELECT count(*) FROM entries')" 3
same 'in order of their moments' "$(ask_rows new.db 'SELECT meter FROM installations ORDER BY place')" "$(ask_rows old.db 'SELECT meter FROM installations WHERE ended = 0 ORDER BY last_moment, place')"
run audit --db new.db
same 'its audit' "$status $(head -c 5 out)$(cat err)" '0 fine:'
meters new.db m1 m3 m4 > asked-new
same 'by HTTP' "$(cat asked-new)" "$(cat asked-meters)"

# A new file that can't be made, and an old one that can't be read.
sum=$(sums new.db)
run carry --from old.db --to new.db
refused 'a file that is there' 'new.db: this file, or its log (-wal), already exists: choose another name'
run carry --from old.db --to old.db
refused 'into itself' 'old.db: this file, or its log (-wal), already exists: choose another name'
: > beside.db-wal
run carry --from old.db --to beside.db
refused 'beside a log' 'beside.db: this file, or its log (-wal), already exists: choose another name'
: > cut.db.part
run carry --from old.db --to cut.db
same 'where one was cut off' "$status $(sed -n 1p out)$(sed -n 1p err) $(ls cut.db*)" '3 failed cut.db.part'
run carry --from none.db --to next.db
refused 'no file' 'none.db: file not found; make it with sunreg create'
echo text > text.db
run carry --from text.db --to next.db
refused 'a text' "text.db: not an SQLite database, or damaged: use the office file or a backup"
sqlite3 other.db 'CREATE TABLE other (n INTEGER)'
run carry --from other.db --to next.db
refused 'the tables of another' 'other.db: not an office file, or made by a later version of sunreg; sunreg create makes a new one'
mkdir folder
run carry --from folder --to next.db
same 'a folder' "$status $(head -n 1 err)" '3 failed'
run carry --from old.db --to none/next.db
refused 'into no folder' "none/next.db: can't write it: check its folder's permissions and the free disk space"
run carry --from old.db --to next.db --until $((until_exchange - 1))
same 'a meter that was installed later' "$status $(cat out)$(cat err)" '1 sunreg: old.db: meter m3 was installed after the time of --until: give a later time'
same 'nothing is left of those' "$(ls next.db* none passing 2> /dev/null | grep -v -e '^passing:$' -e '^$')" ''
same 'what was there stays' "$(sums new.db)" "$sum"
same 'the old one too' "$(sums old.db old.db-wal)" "$before"

# Up to a time.
run carry --from old.db --to past.db --until "$until_exchange"
same 'carry up to a moment' "$status $(cat out err)" '0 carried 3 meters'
meters past.db m1 m3 m4 > asked-past
same 'as they stood then' "$(cat asked-past)" "$(cat asked-then)"
same 'at these counters' "$(sed -E 's/.*"last":([0-9]*).*/\1/' asked-past | paste -sd ' ')" '5010 100 6000'
run audit --db past.db
same 'its audit' "$status $(head -c 5 out)" '0 fine:'
run carry --from old.db --to late.db --until 4294967295
same 'up to the latest moment' "$status $(cat out err)" '0 carried 3 meters'
same 'is all of it' "$(ask_rows late.db .dump)" "$carried"
run carry --from old.db --to stood.db --until "$(ask_rows old.db "SELECT moment FROM entries WHERE meter = 'm1' AND place = 4")"
same 'what was voided does not stand' "$status $(ask_rows stood.db "SELECT last_raw FROM installations WHERE meter = 'm1'")" '0 5020'

# Beside a running office.
port=$((port + 1))
"$program" run --db old.db --listen "$port" --every 86400 --devices inv=127.0.0.1:1 > ran 2>&1 < /dev/null &
child=$!
children="$children $child"
same 'it runs' "$(ask /meters/m1 | sed -E 's/.*"last":([0-9]*).*/\1/')" 5020
beside=$(sums old.db old.db-wal)
run carry --from old.db --to running.db
same 'carry beside it' "$status $(cat out err)" '0 carried 3 meters'
same 'its rows' "$(ask_rows running.db .dump)" "$carried"
same 'the running one stays as it is' "$(sums old.db old.db-wal)" "$beside"
same 'and runs' "$(ask /meters/m4 | sed -E 's/.*"last":([0-9]*).*/\1/')" 10
kill -9 "$child"
wait "$child" 2> /dev/null

# Energy continues: the old file and the new one have together the energy of one file that took all
# readings.
run backup --db old.db --to all.db
same 'a file that takes all' "$status" 0
sleep 1.1
for file in new.db all.db; do
    polled "$file" "$(bank 5041 131)"
    same "$file: fourth readings" "$came" '0 reading m1 5041 rolls 0 step 21000;reading m3 131 rolls 0 step 11000'
    enter "$file" '30 manual far 25 0\n'
    same "$file: by hand" "$came" '0 ok'
done
sleep 1.1
for file in new.db all.db; do
    polled "$file" "$(bank 5050 140)"
    same "$file: fifth readings" "$came" '0 reading m1 5050 rolls 0 step 9000;reading m3 140 rolls 0 step 9000'
done
for register in main side far; do
    before=$(energy old.db $register)
    after=$(energy new.db $register)
    same "$register: together" "$((before + after))" "$(energy all.db $register)"
    same "$register: each has some" "$((before > 0)) $((after > 0))" '1 1'
done
run audit --db new.db
same 'the audit of a file that went on' "$status $(head -c 5 out)" '0 fine:'
run report --db new.db --register spare
same 'a register without a meter' "$status $(cat out)" '0 end 0'
run carry --from new.db --to third.db
same 'it is carried too' "$status $(cat out err)" '0 carried 3 meters'
run audit --db old.db --db new.db --db third.db
same 'the three go on from each other' "$status $(tail -n 1 out)$(cat err)" '0 joined: fine'
run audit --db old.db --db past.db
same 'one of a moment before does not' "$status $(tail -n 1 out)$(cat err)" '1 3 differences between files'

# An office without meters, and one without devices.
run create --db bare.db --zone UTC0
run carry --from bare.db --to bare2.db
same 'no device' "$status $(cat out err) $(ask_rows bare2.db 'SELECT count(*) FROM devices')" '0 carried 0 meters 0'
enter bare.db '1 device inv 1 5 1\n2 register main inv 3 40094 0\n'
run carry --from bare.db --to bare3.db
same 'no meter' "$status $(cat out err) $(ask_rows bare3.db 'SELECT count(*) FROM registers')" '0 carried 0 meters 1'

# A killed carry leaves the new file complete, or no new file.
started=$(date +%s%N)
run carry --from old.db --to timed.db
most=$((($(date +%s%N) - started) * 12 / 10 / 1000000 + 5))
many=${KILLS:-60}
whole=0
none=0
for turn in $(seq "$many"); do
    "$program" carry --from old.db --to killed.db > /dev/null 2>&1 < /dev/null &
    child=$!
    sleep "$(printf '%d.%03d' $((most * turn / many / 1000)) $((most * turn / many % 1000)))"
    kill -9 "$child" 2> /dev/null
    wait "$child" 2> /dev/null
    if [ ! -e killed.db ]; then
        none=$((none + 1))
    elif [ "$(ask_rows killed.db .dump)" = "$carried" ] && [ ! -s killed.db-wal ]; then
        whole=$((whole + 1))
    else
        echo "carry $turn left $(ls -l killed.db*)"
    fi
    rm -f killed.db killed.db-wal killed.db.part killed.db.part-wal passing/*
done
same 'whole, or not there' "$((whole + none))" "$many"
echo "of $many carries that were killed in $most ms $whole had made the new file"
run carry --from old.db --to after.db
same 'the old one can still be carried' "$status $(ask_rows after.db .dump | sha256sum)" "0 $(echo "$carried" | sha256sum)"

echo "$passed passed, $failed failed"
[ "$failed" = 0 ]
