#!/bin/bash
# backup.sh [PROGRAM]: loses, mixes up and backs up the files of offices, also beside an office that
# writes, with curl and sqlite3. It also runs the nightly copy, deploy/backup. PROGRAM is out/sunreg
# by default, which `./sunreg-build` makes. BACKUPS is the number of backups beside the writing
# office, 40 by default. The script ends with 'N passed, M failed'.
set -u
here=$(dirname "$(readlink -f "$0")")
program=${1:-${SUNREG:-$here/../out/sunreg}}
[ -x "$program" ] || { echo "backup.sh: $program is not built: run ./sunreg-build" >&2; exit 2; }
program=$(readlink -f "$program")
for tool in curl sqlite3; do
    command -v $tool > /dev/null || { echo "backup.sh: $tool is not installed: run tests/install-tools.sh" >&2; exit 2; }
done
. "$here/waiting.sh"
room=$(mktemp -d) || exit 2
children=''
trap 'for it in $children; do kill -9 "$it" 2> /dev/null; done; rm -rf "$room"' EXIT
cd "$room" || exit 2
passed=0
failed=0
port=${BACKUP_PORT:-18531}

# same WHAT GOT WANTED: compares a result with the expected one, and counts it
same() {
    if [ "$2" = "$3" ]; then
        passed=$((passed + 1))
    else
        failed=$((failed + 1))
        echo "$1: '$2', and not '$3'"
    fi
}

# run WORDS..: runs the program, and keeps its output
run() {
    "$program" "$@" > out 2> err < /dev/null
    status=$?
}

# refused WHAT TEXT: the last run had status 3, a sentence, and nothing on standard output
refused() {
    same "$1" "$status $(cat out)$(cat err)" "3 failed
sunreg: $2"
}

# sums NAME..: prints the checksums of the files of these names
sums() {
    sha256sum "$@" 2> /dev/null
}

# dump FILE: prints all rows of a file and its log, and leaves both unchanged
dump() {
    rm -rf dumped
    mkdir dumped
    cp "$1" dumped/it
    [ ! -e "$1-wal" ] || cp "$1-wal" dumped/it-wal
    sqlite3 dumped/it .dump
}

# ask PATH [WORDS..]: sends a request to the serving program, once it listens, and prints the status
ask() {
    path=$1
    shift
    for turn in $(seq 100); do
        code=$(curl -s -w '%{http_code}' -o body --max-time 30 "$@" "http://127.0.0.1:$port$path")
        [ $? = 7 ] || break
        sleep 0.2
    done
    echo "$code"
}

# put PATH NUMBER BODY: sends a command
put() {
    ask "$1" -H 'Office-Caller: desk' -H "Office-Request: $2" --data-binary "$3"
}

# serve FILE COUNT: serves so many connections in the background
serve() {
    "$program" serve --db "$1" --port "$port" --connections "$2" > served 2>&1 < /dev/null &
    child=$!
    children="$children $child"
}

no_log() {
    echo "sunreg: $1: it had no log $1-wal: a backup needs none, but a file copied without its log lacks the latest entries"
}

run create --db office.db --zone UTC0
same 'create' "$status $(cat out err)" '0 '
cp office.db alone.db
run report --db alone.db --register main
same 'a new file without its log' "$status $(cat out)$(cat err)" "1 refused 1$(no_log alone.db)"
serve office.db 2
same 'a device' "$(put /devices 1 '{"name":"inv","unit":1,"timeout":60,"window":1}')" 200
list='name,function,area,address,type,scale
wh,3,0,40094,acc32,
'
same 'its list' "$(put /devices/inv/list 2 "$list")" 200
wait "$child"

# Files without tables, and logs without their file.
sqlite3 bare.db 'CREATE TABLE t (n); DROP TABLE t'
before=$(sums bare.db bare.db-wal)
run create --db bare.db --zone UTC0
refused 'create over a file that is not empty' "bare.db: not empty, but it has no tables; they may be in its log: choose a new file"
run report --db bare.db --register main
refused 'a file without tables' "bare.db: it has no tables; they may be in its log, bare.db-wal: use both files, or a backup"
run create --db alone.db --zone UTC0
refused 'create over a file copied alone' 'alone.db: already has tables: skip create, or choose another file'
serve office.db 9
same 'one more' "$(put /devices 3 '{"name":"two","unit":1,"timeout":60,"window":1}')" 200
kill -9 "$child"
wait "$child" 2> /dev/null
same 'what a kill leaves in the log' "$(dump office.db | grep -c "'two'")" 1
cp office.db-wal lost.db-wal
before=$(sums lost.db-wal)
for words in 'create --zone UTC0' 'report --register main' "serve --port $port --connections 1"; do
    run ${words%% *} --db lost.db ${words#* }
    refused "${words%% *}: a log alone" 'lost.db: missing or empty, but its log lost.db-wal is not: restore the file of this log, or remove the log'
    same "${words%% *}: a log alone stays" "$(sums lost.db lost.db-wal)" "$before"
done
: > lost.db
run create --db lost.db --zone UTC0
refused 'create in an empty file beside a log' 'lost.db: missing or empty, but its log lost.db-wal is not: restore the file of this log, or remove the log'
same 'the log stays' "$(sums lost.db-wal)" "$before"
: > empty.db
run report --db empty.db --register main
refused 'an empty file' "empty.db: it has no tables; they may be in its log, empty.db-wal: use both files, or a backup"
same 'it stays empty' "$(ls -s empty.db empty.db-wal 2> /dev/null)" '0 empty.db'
run create --db empty.db --zone UTC0
same 'create in an empty file' "$status $(cat out err)" '0 '
ln -s office.db link.db
run report --db link.db --register main
same 'the log of a link is where it leads' "$status $(cat out err)" '1 refused 1'

# A backup, and refused arguments.
before=$(sums office.db office.db-wal)
rows=$(dump office.db)
run backup --db office.db --to copy.db
same 'backup' "$status $(cat out err)" '0 '
same 'no other file is left' "$(ls copy.db*)" 'copy.db'
same 'it is its owner'\''s alone' "$(stat -c %a copy.db)" 600
same 'its rows' "$(dump copy.db)" "$rows"
same 'what is backed up stays as it is' "$(sums office.db office.db-wal)" "$before"
run backup --db link.db --to of-link.db
same 'backup by a link' "$status $(dump of-link.db)" "0 $rows"
before=$(sums copy.db)
run backup --db office.db --to copy.db
refused 'backup over a file' 'copy.db: this file, or its log (-wal), already exists: choose another name'
run backup --db office.db --to office.db
refused 'backup over itself' 'office.db: this file, or its log (-wal), already exists: choose another name'
: > beside.db-wal
run backup --db office.db --to beside.db
refused 'backup beside a log' 'beside.db: this file, or its log (-wal), already exists: choose another name'
: > cut.db.part
run backup --db office.db --to cut.db
refused 'backup where one was cut off' 'cut.db: a backup to it is running, or was interrupted: then remove its .part file'
run backup --db none.db --to new.db
refused 'backup of no file' 'none.db: file not found; make it with sunreg create'
echo text > text.db
run backup --db text.db --to new.db
refused 'backup of a text' 'text.db: not an SQLite database, or damaged; no backup was made'
sqlite3 other.db 'CREATE TABLE other (n INTEGER)'
run backup --db other.db --to new.db
refused 'backup of the tables of another' 'other.db: not an office file, or made by a later version of sunreg'
run backup --db bare.db --to new.db
refused 'backup of no tables' 'bare.db: not an office file, or made by a later version of sunreg'
mkdir folder
run backup --db folder --to new.db
same 'backup of a folder' "$status $(head -n 1 err)" '3 failed'
run backup --db office.db --to none/new.db
refused 'backup into no folder' "none/new.db: can't write it: check its folder's permissions and the free disk space"
head -c 20000 copy.db > torn.db
run backup --db torn.db --to new.db
refused 'backup of a torn file' 'torn.db: not an SQLite database, or damaged; no backup was made'
same 'nothing is left of those' "$(ls new.db* none 2> /dev/null)" ''
same 'what was there stays' "$(sums copy.db)" "$before"

# The backup is restored.
mkdir restored
cp copy.db restored/office.db
run report --db restored/office.db --register main
same 'a backup that is restored' "$status $(cat out err)" "1 refused 1
$(no_log restored/office.db)"
same 'with its rows' "$(dump restored/office.db)" "$rows"

# Backups beside a writing office. Each list that it takes is one commit of some 300 rows, so the
# log is moved into the file about each fourth time. A backup has the list of its last request. It
# lacks no request that was acknowledged before.
list_of() {
    echo 'name,function,area,address,type,scale'
    echo "n$1,3,0,0,uint16,"
    for row in $(seq 300); do
        echo "x$row,3,0,$row,uint16,"
    done
}
many=${BACKUPS:-40}
serve office.db 100000
same 'it serves' "$(ask /devices)" 405
(
    for turn in $(seq 4 100000); do
        [ ! -e stop ] || break
        list_of "$turn" > list
        echo "$turn" > asked.new && mv asked.new asked
        until [ "$(put /devices/inv/list "$turn" @list)" = 200 ]; do
            [ ! -e stop ] || exit 1
            sleep 0.1
        done
        echo "$turn" > booked.new && mv booked.new booked
    done
) &
writer=$!
same 'it books' "$(wait_for 60 test -e booked; echo $?)" 0
made=0
right=0
busy=0
for turn in $(seq "$many"); do
    before=$(cat booked)
    run backup --db office.db --to "beside$turn.db"
    after=$(cat asked)
    if grep -q 'its log was checkpointed' err; then
        busy=$((busy + 1))
        continue
    fi
    [ "$status" = 0 ] && made=$((made + 1))
    found=$(sqlite3 "beside$turn.db" 'PRAGMA integrity_check; SELECT max(number), count(*) FROM replies; SELECT name FROM points WHERE place = (SELECT min(place) FROM points); SELECT count(*) FROM points')
    last=$(echo "$found" | sed -n 2p | cut -d '|' -f 1)
    if [ "$found" = "ok
$last|$last
n$last
301" ] && [ "$last" -ge "$before" ] && [ "$last" -le "$after" ]; then
        right=$((right + 1))
    else
        echo "backup $turn, between $before and $after: $found"
    fi
    rm -f "beside$turn.db"
done
: > stop
wait "$writer"
same 'backups beside an office that books' "$made $right" "$((many - busy)) $((many - busy))"
same 'most are made' "$((busy * 4 <= many))" 1
echo "of $many backups $busy were refused since the log was moved; $(cat booked) requests were booked"
kill -9 "$child"
wait "$child" 2> /dev/null
run backup --db office.db --to killed.db
same 'the backup of an office that was killed' "$status $(dump killed.db | sha256sum)" "0 $(dump office.db | sha256sum)"

# The nightly copies of deploy/backup, at fake dates.
mkdir bin night
printf '#!/bin/sh\ncat "%s/today"\n' "$room" > bin/date
printf '#!/bin/sh\nexec "%s" "$@"\n' "$program" > sunreg
cp sunreg bin/sunreg
chmod 755 bin/date bin/sunreg

# nightly DAY [NAME=VALUE..]: runs the script on a day of 2026, and keeps its output
nightly() {
    echo "2026-$1T021500Z" > today
    shift
    env PATH="$room/bin:$PATH" DB=meters.db MORE= BACKUPS="$room/night" KEEP_DAYS=3 KEEP_MONTHS=2 "$@" sh "$here/../deploy/backup" > out 2> err < /dev/null
    status=$?
}

# copies: prints the names of the copies, and of what else is in their folder
copies() {
    ls night | grep -v '^lock$' | sed 's/T021500Z\.db$//' | paste -s -d ' '
}

# fails_at_night WHAT TEXT [NAME=VALUE..]: the script has status 1 and a sentence that begins so,
# and leaves all copies, although these options would remove one
fails_at_night() {
    local what=$1 text="sunreg-backup: $2" before
    shift 2
    before=$(sums night/*.db)
    nightly 02-01 KEEP_DAYS=1 KEEP_MONTHS=0 "$@"
    same "$what" "$status $(cat out)$(head -c ${#text} err)" "1 $text"
    same "$what: all copies stay, and no other" "$(copies) $(sums night/*.db)" "2026-01-30 2026-01-31 $before"
}

run create --db meters.db --zone UTC0
printf '1 device inv 1 5 1\n2 register main inv 3 40094 @40096\n3 install main m1 5000 0 100000\n' | "$program" enter --db meters.db --caller desk > out
same 'a meter' "$(paste -s -d ' ' out)" 'ok ok ok'
nightly 01-30
same 'a nightly copy' "$status $(cat out err)" "0 sunreg-backup: meters.db is copied to $room/night/2026-01-30T021500Z.db, audit fine: 1 meter, 1 entry, 0 intervals, 0 polls"
same 'it is its owner'\''s alone, and no other file is left' "$(stat -c %a night/2026*) $(copies)" '600 2026-01-30'
same 'its rows' "$(dump night/2026-01-30T021500Z.db)" "$(dump meters.db)"
mkdir night/new
: > night/new/copy.db.part
nightly 01-31
same 'a copy after one that was killed' "$status $(copies)" '0 2026-01-30 2026-01-31'

fails_at_night 'a missing source' "can't copy none.db, so no old copy was removed: sunreg: none.db: file not found" DB=none.db
fails_at_night 'a torn source' "can't copy torn.db, so no old copy was removed: sunreg: torn.db: not an SQLite database, or damaged" DB=torn.db
run backup --db meters.db --to changed.db
sqlite3 changed.db 'UPDATE installations SET total = total + 1'
fails_at_night 'a copy with a difference' "the copy of changed.db failed its audit, so no old copy was removed: " DB=changed.db
same 'the difference is printed' "$(grep -c 'meter m1 total has 1 mWh (0.000001 kWh), entries give 0 mWh (0.000000 kWh)' err)" 1
# (a limit on the size of files, as a full disk)
printf '#!/bin/bash\ntrap "" XFSZ\nulimit -f 64\nexec "%s" "$@"\n' "$program" > bin/sunreg
fails_at_night 'a full disk' "can't copy meters.db, so no old copy was removed: sunreg: $room/night/new/copy.db: can't write it"
cp sunreg bin/sunreg
fails_at_night 'a missing folder' "can't write in none: type install -d" BACKUPS=none
fails_at_night 'a folder that is not set' 'BACKUPS is not set' BACKUPS=
fails_at_night 'no days' 'KEEP_DAYS is 0: set a number' KEEP_DAYS=0
fails_at_night 'months that are no number' 'KEEP_MONTHS is -1: set a number' KEEP_MONTHS=-1
exec 8> night/lock
flock 8
fails_at_night 'a second script' "another backup to $room/night is running"
exec 8>&-

# Monthly files: the last one is copied each night, and an earlier one when it has changed.
run backup --db meters.db --to meters-2026-01.db
run backup --db meters.db --to meters-2026-02.db
run backup --db meters.db --to meters-2026-01-25.db
: > meters-2026-03.db
month='--earlier 12 --carry month'
nightly 02-01
same 'without --carry' "$status $(cut -d ' ' -f 2 out)" '0 meters.db'
nightly 02-02 MORE="$month"
same 'with --carry' "$status $(cut -d ' ' -f 2 out | paste -s -d ' ')" '0 meters-2026-02.db meters.db meters-2026-01.db'
nightly 02-03 MORE="$month"
same 'with --carry, again' "$status $(cut -d ' ' -f 2 out)" '0 meters-2026-02.db'
touch -d 'now + 1 minute' meters-2026-01.db
nightly 02-03 MORE="$month"
same 'an earlier file that has changed' "$status $(cut -d ' ' -f 2 out | paste -s -d ' ')" '0 meters-2026-02.db meters-2026-01.db'
same 'the copies of earlier files stay' "$(copies)" '2026-01-31 2026-02-01 2026-02-02 2026-02-03 meters-2026-01.db meters.db'

# The rotation. For speed a script copies, and accepts each copy.
printf '#!/bin/sh\n[ "$1" = audit ] || cp "$3" "$5"\n' > bin/sunreg
rm -r night/*
echo mine > night/2026-01-01.db
for day in 01-30 01-31 $(seq -f 02-%02g 28) $(seq -f 03-%02g 5); do
    nightly "$day"
    [ "$status" = 0 ] || echo "$day: $(cat err)"
done
same 'the newest of three days and of two months' "$(copies)" '2026-01-01.db 2026-02-28 2026-03-03 2026-03-04 2026-03-05'
nightly 06-10
same 'nights without a copy do not count' "$(copies)" '2026-01-01.db 2026-03-04 2026-03-05 2026-06-10'
: > night/2036-01-01T021500Z.db
nightly 06-11 KEEP_DAYS=1 KEEP_MONTHS=0
same 'the new copy stays, also under a clock that was ahead' "$(copies)" '2026-01-01.db 2026-06-11 2036-01-01'
: > night/2026-06-12T011500Z.db
nightly 06-12
same 'of a day the newest copy stays' "$(ls night | grep -c 2026-06-12) $(copies)" '1 2026-01-01.db 2026-06-11 2026-06-12 2036-01-01'

echo "$passed passed, $failed failed"
[ "$failed" = 0 ]
