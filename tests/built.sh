#!/bin/sh
# built.sh [--whole]: tests ./sunreg-build on four small crates, with a kit that has nothing kept.
# It proves and builds them, and continues where it was interrupted or a proof failed. It leaves no
# compiler running, and proves only the changes and the crates above them. If the kit keeps results,
# it takes what `rt ci` proved. That takes some ten minutes. --whole also times it in a clone of the
# committed tree, where nothing is built and nothing kept is taken, and then once more over the
# result. Then the built program runs the README's example (an hour). The script needs the kit and
# git, and ends with 'N passed, M failed'.
set -u
here=$(dirname "$(readlink -f "$0")")
case "${1-}:$#" in :0 | --whole:1) ;; *) echo "usage: tests/built.sh [--whole]" >&2; exit 2 ;; esac
room=$(mktemp -d) || exit 2
trap 'rm -rf "$room"' EXIT
passed=0
failed=0

# same WHAT GOT WANTED: compares a result with the expected one, and counts it
same() {
    if [ "$2" = "$3" ]; then
        passed=$((passed + 1))
    else
        failed=$((failed + 1))
        echo "$1: '$2', and not '$3'"
    fi
}

# run WORDS..: runs a command, and keeps its output, its status and its seconds
run() {
    since=$(date +%s)
    "$@" < /dev/null > "$room/out" 2> "$room/err"
    status=$?
    took=$(($(date +%s) - since))
}

# proves WHAT PROVED OF: the last run succeeded, proved so many crates, and named the program
proves() {
    same "$1: status" "$status $(cat "$room/err")" '0 '
    same "$1: proves" "$(sed -n 's/^sunreg-build: proves \([0-9]*\) of \([0-9]*\) .*/\1 \2/p' "$room/out")" "$([ "$2" = 0 ] || echo "$2 $3")"
    same "$1: lines" "$(grep -c "^[0-9]* of $3  [a-z_]* [0-9]* s" "$room/out")" "$2"
    size=$(LC_ALL=C stat -c %s "$checkout/out/sunreg" | sed ':a; s/\([0-9]\)\([0-9]\{3\}\)\($\|,\)/\1,\2\3/; ta')
    said="sunreg-build: out/sunreg has $size bytes and the SHA-256 $(sha256sum < "$checkout/out/sunreg" | cut -d ' ' -f 1)"
    same "$1: the program" "$(tail -n 2 "$room/out" | head -n 1)" "$said"
    same "$1: the kit" "$(tail -n 1 "$room/out" | sed 's/, in [0-9]* [a-z]*$//')" "sunreg-build: sunreg is proved by $(rt version)"
    echo "$1: $took s"
}

# none_runs WHAT: no process works in the checkout
none_runs() {
    same "$1: what still runs" "$(ls -l /proc/[0-9]*/cwd 2> /dev/null | grep -c -F "$checkout/")" 0
}

# cuts SIGNAL STATUS: sends a signal while a crate is being proved, which must end the run
cuts() {
    : > "$room/out"
    env --default-signal="$1" "$checkout/sunreg-build" < /dev/null > "$room/out" 2> "$room/err" &
    running=$!
    for turn in $(seq 600); do
        ! ls -l /proc/[0-9]*/cwd 2> /dev/null | grep -q -F "$checkout/crates/" || break
        sleep 0.2
    done
    kill -s "$1" "$running"
    wait "$running"
    same "$1: status" $? "$2"
    same "$1: says" "$(cat "$room/err")" 'sunreg-build: cut off; what is proved stays, and the next run goes on from there'
    none_runs "$1"
}

# library NAME CODE: writes a library
library() {
    mkdir -p "$checkout/crates/$1/src"
    printf '//! A library to try.\n#![tactic(auto)]\n\n%s\n' "$2" > "$checkout/crates/$1/src/lib.rt"
}

# A repository of four crates, and a kit of links to the real one.
checkout="$room/a path with spaces"
mkdir -p "$checkout/bench" "$checkout/crates/sunreg/src"
git -C "$checkout" init -q
cp "$here/../sunreg-build" "$checkout/"
cp "$here/../bench/identity.py" "$here/../bench/kit.py" "$here/../bench/lanes.py" "$here/../bench/GATE.md" "$checkout/bench/"
echo 'out/' > "$checkout/.gitignore"
printf 'low:\nleft: low\nright: low\nsunreg: left right\n' > "$checkout/crates.txt"
library low 'pub fn sum(a: u8, b: u8) -> u16 {
    u16::from(a) + u16::from(b)
}'
library left 'pub fn twice(a: u8) -> u16 {
    low::sum(a, a)
}'
right='pub fn more(a: u8) -> u16 {
    low::sum(a, 1)
}'
library right "$right"
cat > "$checkout/crates/sunreg/src/main.rt" <<'END'
//! A program to try.
#![tactic(auto)]

use std::process::ExitCode;

static BUILD: &str =
    "not proved: compiled without ./sunreg-build, which proves the sources and marks the result";

fn main(rt: HostRuntime) -> ExitCode {
    let _said = eprintln!(rt; "{BUILD}");
    if left::twice(3) == right::more(5) {
        ExitCode::SUCCESS
    } else {
        ExitCode::from(1)
    }
}
END
ln -s "$checkout/sunreg-build" "$room/link"
python3 -B -c 'import sys; sys.path.insert(0, sys.argv[1]); import kit; kit.of_links(sys.argv[2])' "$here/../bench" "$room" || exit 2
path=$PATH
PATH="$room/kit/bin:$PATH"
cd /

run "$room/link" sunreg none
same 'two names' "$status $(cat "$room/err")" '2 sunreg-build: usage: sunreg-build [--anew] [NAME], or sunreg-build --check PROGRAM'
run "$room/link" none
same 'an unknown crate' "$status $(cat "$room/err")" '2 sunreg-build: no crate is named none'
mkdir "$room/without"
ln -s "$(python3 -c 'import sys; print(sys.executable)')" "$room/without/python3"
run env PATH="$room/without" "$checkout/sunreg-build"
same 'no kit' "$status $(cat "$room/err")" '1 sunreg-build: the Rattle kit is not here: no command rt'

run "$room/link" low
same 'a library alone: status' "$status $(cat "$room/err")" '0 '
same 'a library alone: says last' "$(tail -n 1 "$room/out" | sed 's/, in [0-9]* [a-z]*$//')" "sunreg-build: low is proved by $(rt version)"
cuts INT 130
cuts TERM 143
cuts HUP 129
run "$room/link"
proves 'after it was cut off' 3 4
run "$room/link"
proves 'once more' 0 4
same 'once more: within 20 s' "$([ "$took" -le 20 ] || echo "$took s")" ''
"$checkout/out/sunreg" 2> "$room/err"
same 'the program: status' $? 0
logic=$(rt version | sed 's/.* //')
same 'the program: its build' "$(sed 's/sources [0-9a-f]\{32\}$/sources ../' "$room/err")" "proved by the Rattle kit, logic $logic, sources .."
run "$checkout/sunreg-build" --check "$checkout/out/sunreg"
same 'the program: its sources' "$status $(cat "$room/err")" '0 '
first=$(sha256sum < "$checkout/out/sunreg")

# A proof that fails, beside a longer proof. The program that was built stays.
library right "$(echo "$right" | sed 's/sum(a, 1)/sum(a + 1, 1)/')"
echo '// another text' >> "$checkout/crates/left/src/lib.rt"
run "$checkout/sunreg-build"
same 'a failed proof: status' "$status" 1
same 'a failed proof: says last' "$(tail -n 1 "$room/err")" "sunreg-build: right was not proved (status 1): $checkout/out/logs/right has all that the checker said"
same 'a failed proof: what the checker said' "$(grep -c 'fn right::more: ' "$room/err")" 1
same 'a failed proof: its log' "$(grep -c '^logic=not-proved' "$checkout/out/logs/right")" 1
none_runs 'a failed proof'
same 'a failed proof: the program stays' "$(sha256sum < "$checkout/out/sunreg")" "$first"
run "$checkout/sunreg-build" --check "$checkout/out/sunreg"
same 'a failed proof: the program is of other sources' "$status $(sed 's/.* was proved from other sources:.*/other/' "$room/out")" '1 other'
library right "$right"
run "$checkout/sunreg-build"
same 'mended: status' "$status $(cat "$room/err")" '0 '
same 'mended: other sources, another program' "$([ "$(sha256sum < "$checkout/out/sunreg")" = "$first" ] && echo the same)" ''
run "$checkout/sunreg-build" --check "$checkout/out/sunreg"
same 'mended: its sources' "$status $(cat "$room/err")" '0 '
first=$(sha256sum < "$checkout/out/sunreg")

# sunreg-build takes what rt ci proved, with a kit that keeps it, except with `--anew`.
if python3 -B -c 'import sys; sys.path.insert(0, sys.argv[1]); import kit; sys.exit(not hasattr(kit.load_rt(), "Kept"))' "$here/../bench"; then
    (cd "$checkout" && rt ci > "$room/ci" 2>&1)
    same 'rt ci' "$(tail -n 1 "$room/ci")" '4 passed, 0 failed'
    rm -rf "$checkout"/crates/*/out "$checkout/out"
    run "$checkout/sunreg-build"
    same 'as rt ci proved them' "$(head -n 1 "$room/out")" 'sunreg-build: 4 crates are taken as `rt ci` proved them'
    proves 'as rt ci proved them' 0 4
    same 'as rt ci proved them: the same program' "$(sha256sum < "$checkout/out/sunreg")" "$first"
else
    echo 'not tried: that it takes what `rt ci` proved, of which this kit keeps nothing'
fi
run "$checkout/sunreg-build" --anew
proves 'anew' 4 4
same 'anew: the same program' "$(sha256sum < "$checkout/out/sunreg")" "$first"

if [ "${1-}" = --whole ]; then
    PATH=$path
    checkout="$room/whole"
    git clone -q "$here/.." "$checkout" || exit 2
    number=$(cd "$checkout" && python3 -B -c 'import sys; sys.path.insert(0, "bench"); import kit
rt = kit.load_rt()
print(1 + len(next(it for it in rt.rtlib.crates_below(sys.argv[1]) if it.name == "sunreg").below()))' "$checkout")
    run "$checkout/sunreg-build" --anew
    proves 'the whole, anew' "$number" "$number"
    run "$checkout/sunreg-build"
    proves 'the whole, once more' 0 "$number"
    "$checkout/sunreg" < "$checkout/crates/sunreg/stdin" > "$room/out" 2> "$room/err"
    same 'the example' "$? $(cat "$room/err")" '0 '
    same 'the example: output' "$(cat "$room/out"; echo .)" "$(cat "$checkout/crates/sunreg/stdout"; echo .)"
fi
echo "$passed passed, $failed failed"
[ "$failed" = 0 ]
