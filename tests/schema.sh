#!/usr/bin/env bash
# schema.sh FILE [ZONE]: makes an empty file of version 3 with the `sqlite3` program, from the text
# in docs/SCHEMA.md. It exits with 1 if the file exists, if sqlite3 is not installed, or if sqlite3
# finds a fault in the file.
set -eu
here=$(cd "$(dirname "$0")/.." && pwd)
file=$1
zone=${2:-UTC0}
command -v sqlite3 > /dev/null || { echo "sqlite3 is not installed: run tests/install-tools.sh" >&2; exit 1; }
if [ -e "$file" ]; then
    echo "$file is there already" >&2
    exit 1
fi
case $zone in *\'*) echo "no zone: $zone" >&2; exit 1 ;; esac
{
    echo 'BEGIN;'
    sed -n '/^```sql$/,/^```$/p' "$here/docs/SCHEMA.md" | grep -v '^```'
    echo "INSERT INTO meta (id, version, zone) VALUES (1, 3, '$zone');"
    echo 'COMMIT;'
} | sqlite3 -bail "$file"
found=$(sqlite3 "$file" 'PRAGMA integrity_check; PRAGMA foreign_key_check; SELECT count(*) FROM sqlite_schema WHERE type = '"'table'"';')
if [ "$found" != $'ok\n13' ]; then
    echo "$found" >&2
    exit 1
fi
