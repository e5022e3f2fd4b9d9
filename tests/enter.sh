#!/usr/bin/env bash
# enter.sh [PROGRAM]: enters files into an office in a file with the built program. PROGRAM is
# out/sunreg by default, which `./sunreg-build` makes. The script needs sqlite3, and ends with
# 'N passed, M failed'.
set -u
here=$(dirname "$(readlink -f "$0")")
program=${1:-${SUNREG:-$here/../out/sunreg}}
[ -x "$program" ] || { echo "enter.sh: $program is not built: run ./sunreg-build" >&2; exit 2; }
program=$(readlink -f "$program")
command -v sqlite3 > /dev/null || { echo 'enter.sh: sqlite3 is not installed: run tests/install-tools.sh' >&2; exit 2; }
. "$here/waiting.sh"
room=$(mktemp -d) || exit 2
trap 'rm -rf "$room"' EXIT
cd "$room" || exit 2
passed=0
failed=0

# is WHAT FOUND WANTED: compares a result with the expected one, and counts it
is() {
    if [ "$2" = "$3" ]; then
        passed=$((passed + 1))
    else
        failed=$((failed + 1))
        printf '%s: found\n%s\nwanted\n%s\n' "$1" "$(printf '%s' "$2" | head -c 600)" "$3"
    fi
}

# enter LINES [WORDS..]: enters lines; status, standard output (its lines joined by ;) and the first
# line on standard error are in came.
# (sqlite3, which `facts` uses, removes the log of a file that it closes, and the next command
# reports that there is none)
enter() {
    lines=$1
    shift
    status=0
    printf "$lines" | "$program" enter --db office.db --caller desk "$@" > out 2> err || status=$?
    came="$status $(paste -sd ';' out) / $(grep -v 'it had no log' err | head -n 1 | without_meaning)"
}

# without_meaning: prints the explanation of an answer as far as the answer, without what it means
without_meaning() {
    sed -E 's/^(sunreg: line [0-9]+: .*: (refused|doubted|bad line) [0-9]+): .*/\1/'
}

# facts: prints the records of the office
facts() {
    sqlite3 office.db "SELECT name FROM sqlite_master WHERE type = 'table' ORDER BY name" | while read -r table; do
        echo "$table"
        sqlite3 office.db "SELECT * FROM $table"
    done
}

list() {
    printf 'name,function,area,address,type,scale\nwh,3,0,40094,acc32,wh_sf\nwh_sf,3,0,40096,sunssf,\n'
}

"$program" create --db office.db --zone UTC0
list > inv.csv
site='# a site\n\n1 device inv 1 5 1\n2 list inv @inv.csv\n3 register main inv 3 40094 @40096\n4 install main m1 5000 0 100000\n'
enter "$site" -n
is 'nothing is kept yet' "$came" '0 ok;ok;ok;ok / '
enter "$site"
is 'a site' "$came" '0 ok;ok;ok;ok / '
before=$(facts)
enter "$site"
is 'a site again' "$came" '0 ok;ok;ok;ok / '
is 'it acts no second time' "$(facts)" "$before"
enter "$site" -n
is 'all is kept' "$came" '0 ok;ok;ok;ok / '
is 'nothing is recorded by a look' "$(facts)" "$before"
enter "${site}5 register more inv 3 40190 0\n"
is 'a line more' "$came" '0 ok;ok;ok;ok;ok / '
enter '1 device inv 2 5 1\n6 device other 2 5 1\n'
is 'a line that was changed' "$came" '1 refused 11;ok / sunreg: line 1: 1 device inv 2 5 1: refused 11'
enter '1 device inv 2 5 1\n7 device third 2 5 1\n' -n
is 'a line that was changed, looked at' "$came" '1 refused 11;ok / sunreg: line 1: 1 device inv 2 5 1: refused 11'
list | sed 's/40094/40092/' > inv.csv
enter '2 list inv @inv.csv\n'
is 'a file that was changed' "$came" '1 refused 11 / sunreg: line 1: 2 list inv @inv.csv: refused 11'
list > inv.csv
enter '2 list inv @inv.csv\n'
is 'a file that was changed back' "$came" '0 ok / '
enter '8 device inv 1 5 1\n9 device fourth 3 5 1\n'
is 'a refusal goes on' "$came" '1 refused 2;ok / sunreg: line 1: 8 device inv 1 5 1: refused 2'
enter '\n10 device fifth 4 5 1\n11 tick\n12 device sixth 5 5 1\n'
is 'a bad line ends it' "$came" '1 ok;bad line 3 / sunreg: line 3: 11 tick: bad line 3'
enter '12 device sixth 5 5 1\n11 tick\n10 device fifth 4 5 1\n' -n
is 'the rest was not carried out' "$came" '1 ok;bad line 2 / sunreg: line 2: 11 tick: bad line 2'
for line in 'device inv 1 5 1' '20 connect inv' '20 round inv 0' '20 start inv 3 0 1' '20 bytes inv 00' '20 list inv @' '20 list inv @inv.csv more' '20 list  @inv.csv' 'meter m1'; do
    enter "$line\n"
    is "a bad line: $line" "${came% /*}" '1 bad line 1'
done
enter '20 list inv @none.csv\n'
is 'a file that is not there' "$came" '1 bad line 1 / sunreg: none.csv: file not found'
head -c 70000 /dev/zero > long.csv
enter '20 list inv @long.csv\n'
is 'a file that is too long' "$came" '1 bad line 1 / sunreg: long.csv: larger than 65536 bytes'
printf 'name,function,area,address,type,scale\nwh,5,0,40094,acc32,\n' > faulty.csv
enter '20 list inv @faulty.csv\n21 device seventh 6 5 1\n'
is 'a list with faults' "$came" '1 row 2 fault 5;refused 12;ok / sunreg: line 1: 20 list inv @faulty.csv: refused 12'
enter "22 list inv $(list | od -An -tx1 | tr -d ' \n')\n"
is 'a list as bytes' "$came" '0 ok / '
printf '23 device eighth 7 5 1\n' | "$program" enter --db office.db --caller 'no-name-that-is-so-long' > out 2> err
is 'a caller that is no name' "$? $(paste -sd ';' out)" '1 refused 12'
printf '1 device ninth 8 5 1\n' | "$program" enter --db office.db --caller other > out 2> err
is 'the numbers of another caller' "$? $(paste -sd ';' out)" '0 ok'
sleep 1
enter '24 manual main 1005000 0\n25 manual main 5001 0\n'
is 'an entry past the ceiling' "$came" '1 doubted 1000000000;ok / sunreg: line 1: 24 manual main 1005000 0: doubted 1000000000'
sleep 1
enter '24 manual main 1005000 0 !\n26 void m1 2\n'
is 'one that is meant, and can not be voided' "$came" '1 ok;refused 16 / sunreg: line 2: 26 void m1 2: refused 16'
enter '24 manual main 1005000 0 !\n'
is 'the same again' "$came" '0 ok / '
enter '24 manual main 1005000 0\n'
is 'the same without its mark' "$came" '1 refused 11 / sunreg: line 1: 24 manual main 1005000 0: refused 11'
sleep 1
enter '27 close main 1009000 0 !\n28 register main inv 3 40094 0 !\n' -n
is 'marks, looked at' "$came" '1 ok;bad line 2 / sunreg: line 2: 28 register main inv 3 40094 0 !: bad line 2'

# The messages of a round to people, after its output for scripts.
# polled DEVICE LINES: polls a device at a simulator that these lines set up; status, standard
# output and error (their lines joined by ;) are in came
port=${ENTER_PORT:-15320}
polled() {
    port=$((port + 1))
    printf "$2" | "$program" stand-in --port "$port" --connections 1 > peer 2>&1 &
    peer=$!
    wait_for 30 listens "$port"
    status=0
    "$program" round --db office.db --device "$1" --port "$port" > out 2> err || status=$?
    kill "$peer" 2> /dev/null
    wait "$peer" 2> /dev/null
    came="$status $(paste -sd ';' out) / $(grep -v 'it had no log' err | paste -sd ';')"
}

# means KIND NUMBER: prints the meaning of a number, and what to do
means() {
    "$program" explain "$1" "$2" | sed -n -E 's/^[a-z]+ [0-9]+: //p; s/^What to do: (.*)\.$/\1/p' | paste -sd '|' | sed 's/|/; /'
}

polled none 'area holding 0 1\n'
is 'an unknown device' "$came" '1 refused 1 / sunreg: none: the office has no device with this name; add it with POST /devices'
polled other 'area holding 0 1\n'
is 'a device without a list' "$came" '1 ok;ok;refused 1 / sunreg: other: no point list; create one with sunreg scan --list, then POST /devices/other/list;sunreg: other: no register, so its energy is not recorded; add one with POST /registers'
sleep 1
polled inv 'area holding 40094 3\nset holding 40095 60000\n'
is 'a reading that is held' "$came" "0 ok;started 1 1 1 0000000000060103$(printf '%04x%04x' 40094 3);poll 1 answered;held m1 60000 cause 6;ok;ok / sunreg: register more: missing from the point list of inv; add function 3, registers 40190 to 40191 to it;sunreg: register more: no open meter; install one with POST /registers/more/install;sunreg: m1: reading rejected: $(means held 6)"
"$program" round --db office.db --device none --port "$port" > out 2> err
is 'a round that fails says that alone' "$? $(cat out) $(grep -v 'it had no log' err | head -n 1) $(grep -c -v 'it had no log' err)" '3  failed 2'

# Counters that are read in the order of the lines.
# beside BANK LINES: enters lines while the device live is a simulator that these lines set up
beside() {
    port=$((port + 1))
    printf "$1" | "$program" stand-in --port "$port" --connections 1 > peer 2>&1 &
    peer=$!
    wait_for 30 listens "$port"
    enter "$2" --devices "other=127.0.0.1:1,live=127.0.0.1:$port"
    kill "$peer" 2> /dev/null
    wait "$peer" 2> /dev/null
}

# bank LOW [TRICK..]: prints the simulator's lines for a counter with these low 16 bits, 45 * 65536
# above them, and the scale 0
bank() {
    printf 'area holding 40094 3\\nset holding 40094 45\\nset holding 40095 %s\\n' "$1"
    shift
    for trick in "$@"; do printf 'trick %s\\n' "$trick"; done
}

live='30 device live 1 1 1\n31 list live @inv.csv\n32 register live-wh live 3 40094 @40096\n33 install live-wh m5 @read 100000\n'
untold="didn't return this counter (no response, an exception, or a scale outside -3 to 3): sunreg scan lists what it has"
enter "$live"
is 'a device of which no place is told' "$came" '1 ok;ok;ok;unread / sunreg: live-wh: the address of live is not given: add --devices live=HOST:PORT'
enter "$live" --devices "live=127.0.0.1:$port"
is 'a device that is not there' "$came" "1 ok;ok;ok;unread / sunreg: live-wh: nothing answers at port $port of 127.0.0.1: is the device on, and is this its address?"
enter "$live" --devices 'live=no host:502'
is 'a host without an address' "$came" "1 ok;ok;ok;unread / sunreg: live-wh: can't resolve no host: check the host name and this machine's DNS"
enter "$live" --devices live
is 'a place that is none' "${came%% *} $(head -n 1 err | grep -c "'live'")" '2 1'
beside "$(bank 50880 '1 cut 5')" "$live"
is 'a connection that is cut' "$came" "1 ok;ok;ok;unread / sunreg: live-wh: can't read port $port of 127.0.0.1: the device closed the connection"
beside "$(bank 50880 '1 garble')" "$live"
is 'a stream that is garbled' "$came" "1 ok;ok;ok;unread / sunreg: live-wh: can't read port $port of 127.0.0.1: the device sent bytes that are not Modbus"
beside "$(bank 50880 '1 drop' '2 drop')" "$live"
is 'a device that is silent' "$came" "1 ok;ok;ok;unread / sunreg: live-wh: port $port of 127.0.0.1 $untold"
enter "$live" -n --devices "live=127.0.0.1:$port"
is 'a look reads the counter too' "$came" "1 ok;ok;ok;unread / sunreg: live-wh: nothing answers at port $port of 127.0.0.1: is the device on, and is this its address?"
beside "$(bank 50880 '1 drop')" "$live"
is 'a counter that is read at the second try' "$came" '0 ok;ok;ok;ok / '
enter "$live"
is 'what acted before reads nothing' "$came" '0 ok;ok;ok;ok / '
enter '34 register typed live 3 40094 @40096\n35 install typed m6 2999000 0 100000\n'
is 'a number that was typed' "$came" '0 ok;ok / '
sleep 1
polled live "$(bank 50890)"
is 'the first reading behind each' "$(grep -E '^(reading|held) ' out | sort | paste -sd ';')" 'held m6 3000010 cause 6;reading m5 3000010 rolls 0 step 10000'
sleep 1
beside "$(bank 50900)" '36 exchange live-wh 3000015 0 m7 @read 100000\n37 register far live 3 50000 0\n'
is 'a meter that is exchanged' "$came" '0 ok;ok / '
beside "$(bank 50900)" '38 install far m8 @read 100000\n39 device tenth 9 5 1\n'
is 'a register that the device does not have' "$came" "1 unread;ok / sunreg: far: port $port of 127.0.0.1 $untold"
sleep 1
polled live "$(bank 50910)"
is 'the first reading behind the exchange' "$(grep -E '^reading m7' out)" 'reading m7 3000030 rolls 0 step 10000'
printf '1 device a 1 5 1\n' | "$program" enter --db none.db --caller desk > out 2> err
is 'a file that is missing' "$? $(cat out)" '3 '
head -c 4194305 /dev/zero | "$program" enter --db office.db --caller desk > out 2> err
is 'an input that is too long' "$? $(cat out)" '1 too long'
echo "$passed passed, $failed failed"
[ "$failed" = 0 ]
