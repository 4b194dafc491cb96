#!/usr/bin/env bash
# Times `recheck` of a certificate beside `field` of the same network: the least of some runs of each, in turn, and their
# ratio. Both read the case and make its network, so these are timed alone, as `recheck` of an empty certificate, which is
# refused right behind them; and the ratio is told once more of what both take beyond the network.
#
#     bench/recheck.sh PROGRAM
#
# PROGRAM is the built program. The machine should have nothing else to do. Nothing is promised of these times.
set -eu
program=$(readlink -f "$1")
top=$(cd "$(dirname "$0")/.." && pwd)
scratch=$(mktemp -d)
trap 'rm -rf "$scratch"' EXIT
python3 "$top/generators/solver_cases.py" "$top/crates/gic_examples/data/realistic.txt" "$scratch"
cd "$scratch"
: >empty

# Microseconds of one run, which has to end with the status that stands first.
microseconds() {
    local wanted=$1 begin=${EPOCHREALTIME/./} status=0
    shift
    "$program" "$@" >out 2>/dev/null || status=$?
    echo $((${EPOCHREALTIME/./} - begin))
    [ "$status" = "$wanted" ] || {
        echo "status $status: $*" >&2
        return 1
    }
}

# A ratio with two places, `-` where a part is nothing but noise.
ratio() {
    if [ "$1" -gt 0 ] && [ "$2" -gt 0 ]; then
        local hundredths=$(((200 * $1 + $2) / (2 * $2)))
        printf '%d.%02d' $((hundredths / 100)) $((hundredths % 100))
    else
        printf -- -
    fi
}

for name in made-2000 chain limit far-small; do
    "$program" certify --case=$name.toml --north=8000 >cert
    field= recheck= network=
    for _ in {1..15}; do
        now=$(microseconds 0 field --case=$name.toml --north=8000)
        [ -n "$field" ] && [ "$now" -ge "$field" ] || field=$now
        now=$(microseconds 0 recheck --case=$name.toml --cert=cert)
        [ -n "$recheck" ] && [ "$now" -ge "$recheck" ] || recheck=$now
        now=$(microseconds 13 recheck --case=$name.toml --cert=empty)
        [ -n "$network" ] && [ "$now" -ge "$network" ] || network=$now
    done
    printf '%s: field %d us, recheck %d us, up to the network %d us, recheck / field %s, beyond the network %s\n' \
        $name "$field" "$recheck" "$network" "$(ratio "$recheck" "$field")" \
        "$(ratio $((recheck - network)) $((field - network)))"
done
