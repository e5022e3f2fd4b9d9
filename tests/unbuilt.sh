#!/bin/sh
# unbuilt.sh: runs ./sunreg where nothing is built, in a clone of the committed tree.
# - It replays the README's example, by a symbolic link into a path with spaces.
# - It replays a script whose last line is bad, by sh.
# - It replays the example from a checkout that it may not write.
# - It replays the example in a zone, which compiles a program, and then again by the kept program.
#
# The first three must end within UNBUILT_SECONDS (90; 50 to 61 were measured) on a machine without
# other work, and leave nothing. The compilation may take six times as long. Its other parts are
# tested without a command rt, and with three others: one only prints how it was called, one is
# stopped, and one compiles a shell. The script needs the kit and git, takes some eight minutes, and
# ends with 'N passed, M failed'.
set -u
here=$(dirname "$(readlink -f "$0")")
seconds=${UNBUILT_SECONDS:-90}
room=$(mktemp -d) || exit 2
trap 'chmod -R u+w "$room"; rm -rf "$room"' EXIT
chmod a+rx "$room"
checkout="$room/a path with spaces"
git clone -q "$here/.." "$checkout" || exit 2
chmod -R a+rX "$checkout"
ln -s "$checkout/sunreg" "$room/link"
TMPDIR="$room/temporary files"
export TMPDIR
mkdir "$TMPDIR"
chmod a+rwx "$TMPDIR"
cd /
passed=0
failed=0

# same WHAT GOT WANTED: compares a result with the expected one, and counts it
same() {
    if [ "$2" = "$3" ]; then
        passed=$((passed + 1))
    else
        failed=$((failed + 1))
        echo "$1: '$2', and not '$3'"
    fi
}

# run INPUT WORDS..: runs a command with a file as standard input, and keeps its output and its time
run() {
    input=$1
    shift
    since=$(date +%s)
    "$@" < "$input" > "$room/out" 2> "$room/err"
    status=$?
    took=$(($(date +%s) - since))
}

# says WHAT: prints the expected message
says() {
    echo "sunreg: not built yet; $1. ./sunreg-build proves and builds sunreg"
}
minute=$(says 'running the unproved sources takes about a minute to start')
compiling=$(says 'compiling an unproved program takes some four minutes, once')
by_kept=$(says 'running the unproved program')

# each_time WHY: prints the expected message where no program can be kept
each_time() {
    says "running the unproved sources takes some four minutes to start, each time: $1"
}

# leaves WHAT FILES: the temporary folder is empty, and the checkout has only these new files
leaves() {
    same "$1: left in the temporary folder" "$(ls -A "$TMPDIR")" ''
    same "$1: left in the checkout" "$(git -C "$checkout" status --porcelain --ignored)" "$2"
}

# replays WHAT STATUS OUT SAYS SECONDS: the last run had this status, output and first message, and
# ended in time
replays() {
    same "$1: status" "$status" "$2"
    same "$1: output" "$(cat "$room/out"; echo .)" "$(cat "$3"; echo .)"
    same "$1: says first" "$(head -n 1 "$room/err")" "$4"
    same "$1: within $5 s" "$([ "$took" -le "$5" ] || echo "$took s")" ''
    echo "$1: $took s"
}

# comes WORDS..: waits until a command succeeds, for at most 30 seconds
comes() {
    for turn in $(seq 300); do
        ! "$@" || return 0
        sleep 0.1
    done
}

# Its replay is that of the program if no zone is given.
zone=$(sed -n 's/^pub const ZONE: &str = "\(.*\)";$/\1/p' "$checkout/crates/command_words/src/table.rt")
same 'the zone' "$(grep -c -F "Zone::read(\"${zone:-none}\")" "$checkout/sunreg")" 1
said=$(sed -n 's/^const FAILED: .* b"failed\\nsunreg: \(.*\)\\n";$/\1/p' "$checkout/sunreg")
same 'what it says where a stream fails' "$(cat "$checkout/crates/stored_files/src/ends/failure.rt" | grep -c -F "\"${said:-none}\"")" 1

# A command rt that prints where and how it was called, and exits with the status that it reads.
mkdir "$room/telling" "$room/waiting" "$room/making" "$room/without"
cat > "$room/telling/rt" <<'EOF'
#!/bin/sh
[ "$1" != version ] || exit 0
read -r status
echo "${PWD##*/crates/} $*"
exit "$status"
EOF
# A command rt that prints its process number, and then waits.
cat > "$room/waiting/rt" <<'EOF'
#!/bin/sh
[ "$1" != version ] || exit 0
echo $$
exec sleep 300
EOF
# A command rt whose compiled program is the shell MAKES. For a second, only the first part of it is
# written, and mapped as a linker maps it. With MAKES=refused it fails, and with MAKES=unfinished it
# runs no program. Beside this script, the file `kit` is its identity, the file `calls` lists its
# calls, and the file `hold` makes it wait.
cat > "$room/making/rt" <<'EOF'
#!/bin/sh
here=$(dirname "$0")
[ "$1" != version ] || exec cat "$here/kit"
echo "${PWD##*/crates/} $*" >> "$here/calls"
[ "$3" = replay ] || exit 7
while [ -e "$here/hold" ]; do
    sleep 0.1
done
case $MAKES in
    refused) echo 'error: refused' >&2; exit 1 ;;
    unfinished) shell=$(command -v bash) ;;
    *) shell=$(command -v "$MAKES") ;;
esac
mkdir "$TMPDIR/new folder"
head -c 100000 "$shell" > "$TMPDIR/new folder/program"
chmod 700 "$TMPDIR/new folder/program"
python3 -c 'import mmap, sys, time
file = open(sys.argv[1], "r+b")
mapped = mmap.mmap(file.fileno(), 0)
time.sleep(1)' "$TMPDIR/new folder/program"
[ "$MAKES" != unfinished ] || exit 0
cat "$shell" > "$TMPDIR/new folder/program"
exec "$TMPDIR/new folder/program" -c 'while sleep 0.1; do :; done'
EOF
chmod +x "$room/telling/rt" "$room/waiting/rt" "$room/making/rt"

# asks WHAT SAYS WANTED WORDS..: runs it with the printing rt, with each status
asks() {
    what=$1
    says=$2
    wanted=$3
    shift 3
    for ends in 0 1 2 3; do
        echo "$ends" > "$room/in"
        run "$room/in" env PATH="$room/telling:$PATH" "$room/link" "$@"
        same "$what, status $ends" "$status $(cat "$room/out" "$room/err")" "$ends $wanted
$says"
    done
}

asks 'no word' "$minute" 'scripts try'
asks 'replay' "$minute" 'scripts try' replay
leaves 'the replay' ''
# It can't make the folder of a kept program.
: > "$checkout/out"
why=$(each_time "can't write $checkout/out/unproved")
asks 'replay in a zone' "$why" 'sunreg try -- replay --zone UTC0' replay --zone UTC0
asks 'another word' "$why" 'sunreg try -- plan' plan
asks 'an empty word' "$why" 'sunreg try -- ' ''
leaves 'without a folder' '?? out'
rm "$checkout/out"

for way in HUP:129 INT:130 TERM:143; do
    : > "$room/out"
    env --default-signal="${way%:*}" PATH="$room/waiting:$PATH" "$room/link" < /dev/null > "$room/out" 2> "$room/err" &
    running=$!
    comes test -s "$room/out"
    kill -s "${way%:*}" "$running"
    wait "$running"
    same "${way%:*} while it runs" $? "${way#*:}"
    same "${way%:*}: says" "$(cat "$room/err")" "$minute"
    same "${way%:*}: numbers on its output" "$(grep -c '^[0-9][0-9]*$' "$room/out")" 1
    same "${way%:*}: what it ran" "$(kill -0 "$(cat "$room/out")" 2> /dev/null || echo ended)" ended
    leaves "${way%:*}" ''
done

folder=$checkout/out/unproved
echo 'one kit' > "$room/making/kit"
echo 'a line' > "$room/in"
# (the shell takes these words as a script)
script='read -r it && echo "$it in $PWD"; exit 3'

# make SHELL WORDS..: runs the script with these words, and with the rt that makes a program
make() {
    made=$1
    shift
    run "$room/in" env MAKES="$made" PATH="$room/making:$PATH" "$room/link" "$@"
}

# keeps WHAT SAYS COMPILATIONS [CHANGES]: runs the script with the rt that makes a program. It has
# compiled so many programs by then, and keeps only the last.
keeps() {
    make bash -c "$script"
    same "$1: result" "$status $(cat "$room/out" "$room/err")" "3 a line in /
$2"
    same "$1: calls" "$(sort "$room/making/calls" | uniq -c | tr -s ' ')" " $3 sunreg try -- replay"
    same "$1: kept" "$(ls -A "$folder" | sed 's/[0-9a-f]\{64\}$/SUM/')" sunreg-SUM
    same "$1: the kept program" "$(cmp "$folder"/* "$(command -v bash)" 2>&1)" ''
    leaves "$1" "${4-}!! out/"
}

keeps 'the first command' "$compiling" 1
keeps 'the second command' "$by_kept" 1
make bash replay
same 'a replay by the kept program' "$status $(head -n 1 "$room/err")" "127 $by_kept"
echo >> "$checkout/crates/mb_wire/src/lib.rt"
keeps 'a changed source' "$compiling" 2 ' M crates/mb_wire/src/lib.rt
'
git -C "$checkout" checkout -q .
echo 'another kit' > "$room/making/kit"
: > "$folder/sunreg-1.2"
keeps 'another kit' "$compiling" 3
keeps 'another kit, again' "$by_kept" 3

rm -r "$checkout/out"
make refused -c "$script"
same 'refused sources' "$status $(cat "$room/out" "$room/err")" "1 $compiling
error: refused"
leaves 'refused sources' ''
# (dash has no --version)
for it in unfinished dash; do
    make $it -c "$script"
    same "nothing to keep: $it" "$status $(cat "$room/out" "$room/err")" "7 $compiling
$(each_time "can't keep the program in $folder")"
    leaves "nothing to keep: $it" ''
done

# begin NAME: runs the script in the background, with the rt that makes a program
begin() {
    : > "$room/err $1"
    env --default-signal=TERM MAKES=bash PATH="$room/making:$PATH" "$room/link" -c "$script" \
        < "$room/in" > "$room/out $1" 2> "$room/err $1" &
}

: > "$room/making/hold"
: > "$room/making/calls"
begin interrupted
comes test -s "$room/making/calls"
kill "$!"
wait "$!"
same 'an interrupted compilation' "$? $(cat "$room/out interrupted" "$room/err interrupted")" "143 $compiling"
leaves 'an interrupted compilation' ''
: > "$room/making/calls"
begin 1
one=$!
comes test -s "$room/making/calls"
begin 2
two=$!
comes test -s "$room/err 2"
rm "$room/making/hold"
for it in 1 2; do
    wait "$one"
    same "two commands at once: $it" "$? $(cat "$room/out $it" "$room/err $it")" "3 a line in /
$compiling"
    one=$two
done
keeps 'a third command' "$by_kept" 1
rm -r "$checkout/out"

for tool in dirname readlink; do
    ln -s "$(command -v $tool)" "$room/without/$tool"
done
for words in '' replay plan; do
    run /dev/null env PATH="$room/without" "$checkout/sunreg" $words
    same "no kit: '$words'" "$status $(cat "$room/out" "$room/err")" \
        '3 sunreg: not built yet, and the Rattle kit that builds it is missing (no command rt)'
done
run /dev/null env TMPDIR="$room/none" "$checkout/sunreg"
same 'no temporary folder' "$status $(cat "$room/out") $(tail -n 1 "$room/err")" \
    "3  sunreg: can't copy the sources: check the permissions and the free space of $room/none"

run "$checkout/crates/sunreg/stdin" "$room/link"
replays 'the example, by a link' 0 "$checkout/crates/sunreg/stdout" "$minute" "$seconds"
leaves 'the example' ''
printf '1000 tick\n\nx\n' > "$room/in"
printf 'ok\nbad line 3\n' > "$room/wanted"
run "$room/in" sh "$checkout/sunreg" replay
replays 'a bad line, by sh' 1 "$room/wanted" "$minute" "$seconds"
leaves 'a bad line' ''
chmod -R a-w "$checkout"
as=
[ "$(id -u)" != 0 ] || as='setpriv --reuid=65534 --regid=65534 --clear-groups --no-new-privs'
same 'it may not write the checkout' "$($as touch "$checkout/crates/new" 2> /dev/null || echo no)" no
run "$checkout/crates/sunreg/stdin" $as "$checkout/sunreg"
replays 'the example, from a checkout that it may not write' 0 "$checkout/crates/sunreg/stdout" "$minute" "$seconds"
leaves 'a checkout that it may not write' ''
chmod -R u+w "$checkout"
run "$checkout/crates/sunreg/stdin" "$room/link" replay --zone "$zone"
replays 'the example in a zone, compiled' 0 "$checkout/crates/sunreg/stdout" "$compiling" $((6 * seconds))
run "$checkout/crates/sunreg/stdin" "$room/link" replay --zone "$zone"
replays 'the example in a zone, kept' 0 "$checkout/crates/sunreg/stdout" "$by_kept" 10
leaves 'the example in a zone' '!! out/'

echo "$passed passed, $failed failed"
[ "$failed" = 0 ]
