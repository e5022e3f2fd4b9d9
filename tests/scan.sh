#!/usr/bin/env bash
# scan.sh [PROGRAM]: scans simulators with the built program, and compares its output with that of
# `chain` for the same registers. PROGRAM is out/sunreg by default, which `./sunreg-build` makes.
# The script ends with 'N passed, M failed'.
set -u
here=$(dirname "$(readlink -f "$0")")
program=${1:-${SUNREG:-$here/../out/sunreg}}
[ -x "$program" ] || { echo "scan.sh: $program is not built: run ./sunreg-build" >&2; exit 2; }
. "$here/waiting.sh"
room=$(mktemp -d) || exit 2
trap 'rm -rf "$room"' EXIT
passed=0
failed=0
port=${SCAN_PORT:-15020}

# is WHAT FOUND WANTED: compares a result with the expected one, and counts it
is() {
    if [ "$2" = "$3" ]; then
        passed=$((passed + 1))
    else
        failed=$((failed + 1))
        printf '%s: found\n%s\nwanted\n%s\n' "$1" "$(printf '%s' "$2" | head -c 600)" "$(printf '%s' "$3" | head -c 600)"
    fi
}

# words: prints the registers of a device: the mark, the complete models 1, 103 and 203, and the
# end's ID, which is its last register. Each register of a model has its offset as value, except the
# scale of the counters.
words() {
    python3 - <<'P'
words = {40000: 0x5375, 40001: 0x6E53, 40229: 0xFFFF}
for address, model, length in ((40002, 1, 66), (40070, 103, 50), (40122, 203, 105)):
    words[address], words[address + 1] = model, length
    for offset in range(2, length + 2):
        words[address + offset] = offset if model != 1 else 0x3030 + 256 * (offset // 10) + offset % 10
words[40070 + 26] = 0
words[40122 + 54] = 1
for address in sorted(words):
    print(address, words[address])
P
}

# bank TRICK..: prints the simulator's lines for these registers
bank() {
    echo 'area holding 40000 230'
    words | while read -r address value; do echo "set holding $address $value"; done
    for trick in "$@"; do echo "trick $trick"; done
}

# image: prints the same registers as `chain` reads them
image() {
    words | while read -r address value; do printf '%d %04x\n' "$address" "$value"; done
}

# scan BANK WORDS..: scans a simulator with this register map; its output is in out, its status in
# status
scan() {
    lines=$1
    shift
    port=$((port + 1))
    printf '%s\n' "$lines" | "$program" stand-in --port "$port" --connections 1 > "$room/peer" 2>&1 &
    peer=$!
    wait_for 30 listens "$port"
    "$program" scan --port "$port" "$@" > "$room/out" 2> "$room/err"
    status=$?
    out=$(cat "$room/out")
    kill "$peer" 2> /dev/null
    wait "$peer" 2> /dev/null
}

chain=$(image | "$program" chain)
scan "$(bank)"
is 'the chain' "$status $out" "0 $chain"
for trick in '2 drop' '2 twice' '2 later' '2 id' '2 unit'; do
    scan "$(bank "$trick")" --timeout 1
    is "the chain under trick $trick" "$status $out" "0 $chain"
done
scan "$(bank '2 cut 5')" --timeout 1
is 'a connection that is cut' "$status $out $(tail -n 1 "$room/err")" "3  sunreg: can't scan port $port of 127.0.0.1: the device closed the connection"
scan "$(bank '2 garble')" --timeout 1
is 'a stream that is garbled' "$status $out $(tail -n 1 "$room/err")" "3  sunreg: can't scan port $port of 127.0.0.1: the device sent bytes that are not Modbus"
scan 'area holding 0 1'
is 'a device without a mark' "$status $out" '1 fault 1'

# `plan` takes the printed list unchanged, and `replay` takes the printed lines, which set a device
# up.
scan "$(bank)" --list
is 'the list' "$status $(printf '%s\n' "$out" | head -n 2 | tr '\n' ' ')" '0 name,function,area,address,type,scale m1.Mn,3,0,40004,string16, '
is 'the plan of the list' "$(printf '%s\n' "$out" | "$program" plan | grep -c '^read')" 2
list=$(printf '%s\n' "$out" | od -An -v -tx1 | tr -d ' \n')
scan "$(bank)" --setup inv
is 'the lines of setup' "$status $out" "0 1 device inv 1 5 1
2 list inv $list
# Install lines: remove the # and replace CEILING by the maximum power in watts.
3 register inv-wh2 inv 3 40094 @40096
# 4 install inv-wh2 inv-wh2 1572889 0 CEILING
5 register inv-exp3 inv 3 40160 @40176
# 6 install inv-exp3 inv-exp3 2490407 1 CEILING
# 7 register inv-expA3 inv 3 40162 @40176
# 8 install inv-expA3 inv-expA3 2621481 1 CEILING
# 9 register inv-expB3 inv 3 40164 @40176
# 10 install inv-expB3 inv-expB3 2752555 1 CEILING
# 11 register inv-expC3 inv 3 40166 @40176
# 12 install inv-expC3 inv-expC3 2883629 1 CEILING
13 register inv-imp3 inv 3 40168 @40176
# 14 install inv-imp3 inv-imp3 3014703 1 CEILING
# 15 register inv-impA3 inv 3 40170 @40176
# 16 install inv-impA3 inv-impA3 3145777 1 CEILING
# 17 register inv-impB3 inv 3 40172 @40176
# 18 install inv-impB3 inv-impB3 3276851 1 CEILING
# 19 register inv-impC3 inv 3 40174 @40176
# 20 install inv-impC3 inv-impC3 3407925 1 CEILING"
is 'a script of them' "$(printf '%s\n' "$out" | "$program" | tr '\n' ' ')" 'ok ok ok ok ok '
is 'the same with a meter' "$(printf '%s\n' "$out" | sed 's/^# \(4 install .*\) CEILING/\1 10000/' | "$program" | tr '\n' ' ')" 'ok ok ok ok ok ok '

"$program" scan --port "$port" > "$room/out" 2> "$room/err"
is 'a port that nobody listens on' "$? $(head -n 1 "$room/err")" '3 failed'
"$program" scan --host 'no host' --port 502 > "$room/out" 2> "$room/err"
is 'a host without an address' "$? $(head -n 1 "$room/err")" '3 failed'
"$program" scan --port 502 --setup 1inv > "$room/out" 2> "$room/err"
is 'a name that is none' "$? $(head -n 1 "$room/err")" "2 error: invalid value '1inv' for '--setup <DEVICE>': not 1 to 9 letters, digits, _ or -, starting with a letter"

echo "$passed passed, $failed failed"
[ "$failed" = 0 ]
