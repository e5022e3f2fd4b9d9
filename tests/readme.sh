#!/bin/sh
# readme.sh [PROGRAM]: types the commands of README.md under "A site in five commands" with the
# built program. It compares their output with the page, except for days, times and what depends on
# the end of a quarter hour. PROGRAM is out/sunreg by default, which `./sunreg-build` makes. The
# script takes half a minute, and ends with 'N passed, M failed'.
set -eu
top=$(dirname "$(dirname "$(readlink -f "$0")")")
program=$(readlink -f "${1:-${SUNREG:-$top/out/sunreg}}")
[ -x "$program" ] || { echo "readme.sh: $program is not built: run ./sunreg-build" >&2; exit 2; }
room=$(mktemp -d "${TMPDIR:-/tmp}/readme.XXXXXX")
clear_up() {
  [ -z "${stand_in-}" ] || kill "$stand_in" 2>/dev/null || :
  rm -rf "$room"
}
trap clear_up EXIT

# block KIND: prints the first block of a kind below the heading
block() {
  awk -v kind="\`\`\`$1" '/^## /{ below = $0 == "## A site in five commands" } below && $0 == kind { inside = 1; next } inside && /^```$/ { exit } inside' "$top/README.md"
}

# settled: replaces what depends on the time. A day is DAY, a time is AT, counts of quarter hours
# are N, and equal rounds are one
settled() {
  sed -E 's/[0-9]{4}-[0-9]{2}-[0-9]{2} +[0-9]+/DAY N/; s/(^| )[0-9]{10} /\1AT /g; /^fine: /s/[0-9]+ entr(y|ies)/N entries/g; /^fine: /s/[0-9]+ (interval|poll)s?/N \1s/g' | uniq
}

passed=0
failed=0
same() {
  if [ "$2" = "$3" ]; then
    passed=$((passed + 1))
  else
    failed=$((failed + 1))
    printf '%s:\n--- printed\n%s\n--- the page\n%s\n' "$1" "$2" "$3"
  fi
}

block sh > "$room/commands"
same 'five commands' "$(grep -c . "$room/commands")" 5
mkdir "$room/docs"
cp "$top/docs/inverter.txt" "$room/docs"
ln -s "$program" "$room/sunreg"
# (the simulator listens before its first second ends, and ends with the shell that began it)
(cd "$room" && {
  echo ". $top/tests/waiting.sh"
  echo 'sleep() { command sleep "$1"; wait_for 60 listens 1502; }'
  cat commands
  echo 'kill $!'
} | sh > out 2> err) || same 'status' "$?" 0
same 'what is printed' "$(settled < "$room/out")" "$(block text | settled)"
# (three of these lines are at the head of the page)
awk '/^## /{ exit } $0 == "```text" { inside = 1; next } inside && /^```$/ { exit } inside' "$top/README.md" | settled > "$room/head"
same 'lines at the head' "$(grep -c . "$room/head")" 3
settled < "$room/out" > "$room/settled"
same 'lines at the head that are not printed' "$(grep -vxFf "$room/settled" "$room/head" || :)" ''
same 'what is said' "$(grep -v '^sunreg: ' "$room/err" || :)" ''
# each script of the page's table prints the output beside it
sed -n 's/^| .* | `\.\/sunreg \(.*< tests\/scripts\/.*\.script\)` |$/\1/p' "$top/README.md" > "$room/scripts"
same 'scripts of the table' "$(grep -c . "$room/scripts")" 8
while read -r words; do
  script=${words##*< }
  # (the words before the file are as a shell reads them)
  set -- ${words%<*}
  same "$script" "$("$program" "$@" < "$top/$script" 2>&1)" "$(cat "$top/${script%.script}.out")"
done < "$room/scripts"
echo "$passed passed, $failed failed"
[ "$failed" = 0 ]
