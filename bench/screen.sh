#!/usr/bin/env bash
# Times `screen` beside `field` of the same network: the least of some runs of each, in turn, and their ratio.
#
#     bench/screen.sh PROGRAM
#
# PROGRAM is the built program. The machine should have nothing else to do. Nothing is promised of these times.
set -eu
program=$(readlink -f "$1")
top=$(cd "$(dirname "$0")/.." && pwd)
scratch=$(mktemp -d)
trap 'rm -rf "$scratch"' EXIT
python3 "$top/generators/made_case.py" >"$scratch/made"
python3 "$top/generators/limit_case.py" >"$scratch/limit"
cd "$scratch"

# Microseconds of one run.
microseconds() {
    local begin=${EPOCHREALTIME/./}
    "$program" "$@" >out || exit
    echo $((${EPOCHREALTIME/./} - begin))
}

for name in made limit; do
    field= screen=
    for _ in {1..15}; do
        now=$(microseconds field --case=$name --north=8000)
        [ -n "$field" ] && [ "$now" -ge "$field" ] || field=$now
        now=$(microseconds screen --case=$name)
        [ -n "$screen" ] && [ "$now" -ge "$screen" ] || screen=$now
    done
    printf '%s: field %d us, screen %d us, screen / field %d.%02d\n' $name "$field" "$screen" \
        $((screen / field)) $((screen % field * 100 / field))
done
