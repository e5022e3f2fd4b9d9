#!/bin/sh
# central.sh [PROGRAM]: copies the energy of many offices into ClickHouse with central/collect.
# PROGRAM is out/sunreg by default. Two servers of ClickHouse are the shards, on ports of 127.0.0.1.
# CENTRAL_PARTS chooses the parts, all by default:
# - `fleet`: the list of sites, the jobs for Prometheus and the metrics of collect. This part needs
#   no ClickHouse
# - `hostile`: sites that redirect, never end, or send too much, and the memory of collect. This
#   part needs no ClickHouse
# - `copies`: the copies after events at mock offices, reported faults, and the same rows in
#   PostgreSQL
# - `failures`: each request to ClickHouse fails in turn
# - `kills`: collect and servers are killed at random, CENTRAL_ROUNDS times, 30 by default. First 20
#   mock offices run meanwhile, and then 20 of the program, if it is built, of fifty meters each
# - `measures`: times copies of CENTRAL_SITES mock offices, 300 by default, into one shard and into
#   two. Each office has 30 meters with a month each
#
# As root the script installs missing tools by apt (not with PEERS_INSTALL=no). It names tools that
# it can't install, and skips their parts. It takes some 18 minutes (12 were seen beside proofs,
# before the program's offices had fifty meters and without `hostile`, which took 3) and 1 GB. It
# ends with 'N passed, M failed'.
set -u
here=$(dirname "$(readlink -f "$0")")
program=$(readlink -f "${1:-${SUNREG:-$here/../out/sunreg}}")
[ -x "$program" ] || { echo "central.sh: $program is not built: tried with a mock alone"; program=; }
room=$(mktemp -d) || exit 2
trap 'rm -rf "$room"' EXIT
. "$here/peers/install.sh"

install python3 curl sqlite3 openssl clickhouse-server clickhouse-client postgresql
export PYTHONDONTWRITEBYTECODE=1 CENTRAL_PARTS="${CENTRAL_PARTS:-fleet hostile copies failures kills measures}"
status=0
case " $CENTRAL_PARTS " in
    *" fleet "*) python3 "$here/central/fleet.py" || status=1 ;;
esac
case " $CENTRAL_PARTS " in
    *" hostile "*) python3 "$here/central/hostile.py" "$room" || status=1 ;;
esac
case " $CENTRAL_PARTS " in
    *" copies "* | *" failures "* | *" kills "* | *" measures "*) ;;
    *) exit $status ;;
esac
[ -z "$(lacking clickhouse-server clickhouse-client)" ] || exit 2
python3 "$here/central/central.py" "$room" "$program" "$(postgres_folder)" || status=1
exit $status
