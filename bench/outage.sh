#!/usr/bin/env bash
# Times `outage` beside `screen` of the same network: the least of some runs of each, in turn, and their ratio, which
# should be at most 400 for the made network of 2000 nodes. Then one run of `outage` of the network at every limit, which
# should take less than 15 minutes. Of both networks the peak of memory is told, and how many outages have which end.
#
#     bench/outage.sh PROGRAM [made]
#
# PROGRAM is the built program. With `made` behind it the network at every limit is left out. The machine should have
# nothing else to do; the program runs on one processor. Nothing is promised of these times. It needs Python 3.
set -eu
program=$(readlink -f "$1")
top=$(cd "$(dirname "$0")/.." && pwd)
scratch=$(mktemp -d)
trap 'rm -rf "$scratch"' EXIT
python3 "$top/generators/made_case.py" >"$scratch/made"
python3 "$top/generators/limit_case.py" >"$scratch/limit"
cd "$scratch"

# Microseconds of one run.
microseconds() {
    local begin=${EPOCHREALTIME/./}
    "$program" "$@" >out || exit
    echo $((${EPOCHREALTIME/./} - begin))
}

# One run: its seconds, and its peak of memory in MiB.
measured() {
    python3 - "$program" "$@" <<'END'
import resource
import subprocess
import sys
import time

begin = time.perf_counter()
with open("out", "wb") as out:
    subprocess.run(sys.argv[1:], stdout=out, check=True)
seconds = time.perf_counter() - begin
print(f"{seconds:.0f} s, {resource.getrusage(resource.RUSAGE_CHILDREN).ru_maxrss // 1024} MiB")
END
}

# How many outages the last report has by their ends.
ends() {
    awk '$1 == "outage" && $3 { count[$3 == "below" ? "solved" : $3]++ }
         END { printf "%d solved, %d idle, ", count["solved"], count["idle"]
               printf "%d unearthed, %d unresolved", count["unearthed"], count["unresolved"] }' out
}

screen= outage=
for _ in {1..3}; do
    now=$(microseconds screen --case=made)
    [ -n "$screen" ] && [ "$now" -ge "$screen" ] || screen=$now
    now=$(microseconds outage --case=made)
    [ -n "$outage" ] && [ "$now" -ge "$outage" ] || outage=$now
done
printf 'made: screen %d us, outage %d us, outage / screen %d.%02d (at most 400 is the aim)\n' \
    "$screen" "$outage" $((outage / screen)) $((outage % screen * 100 / screen))
told=$(measured outage --case=made)
printf 'made: outage %s; %s\n' "$told" "$(ends)"

[ "${2:-}" != made ] || exit 0
told=$(measured outage --case=limit)
printf 'limit: outage %s (less than 900 s is the aim); %s\n' "$told" "$(ends)"
