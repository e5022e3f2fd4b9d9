#!/usr/bin/env bash
# refused_allocations.sh [PROGRAM]: refuses each allocation of the program, and of the small
# programs in tests/programs/, alone and with all later ones. With PROGRAM, which is built, it
# leaves the small ones out. Else it first proves and builds the programs, and needs a C compiler.
# The program runs tests/sessions.script (devices, registers, meters and polls; no lists, rounds,
# corrections, voids, intervals or days), and then its commands over a file.
# tests/refused_allocations.py and tests/refused_in_file.py say what each run may print. A command
# over a file allocates thousands of times. Of these the script refuses REFUSED_MOST (100; 0 is
# each, which takes hours), chosen at random by REFUSED_SEED, with REFUSED_JOBS processes (1). It
# prints how many of how many. REFUSED_ONLY names some of these commands (create, serve, round,
# exchange, report), of which alone it refuses. It ends with 'N passed, M failed', and is no part of
# the gate. (The small programs are named .rattle, since the gate refuses a .rt file outside the
# crates.)
set -euo pipefail
program=${1:+$(readlink -f "$1")}
cd "$(dirname "$(readlink -f "$0")")"
. ./scratch.sh

cc -O1 -shared -fPIC -o "$scratch/refuse.so" refuse_allocation.c
if [ -n "$program" ]; then
    python3 -B refused_allocations.py "$scratch/refuse.so" sessions.script "$program"
    exit
fi
sunreg="$PWD/../crates/sunreg"
scratch_rt sunreg "$sunreg" run > /dev/null

programs=()
for part in "chains mb_wire point_list read_plan sun_chain sun_points" "days interval_core" "banks mb_device"; do
    read -r name needs <<< "$part"
    scratch "refused_$name" "$needs" "programs/$name.rattle" > "$scratch/printed"
    programs+=("$program")
done
python3 -B refused_allocations.py "$scratch/refuse.so" sessions.script "$sunreg/out/sunreg" "${programs[@]}"
