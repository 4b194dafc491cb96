#!/usr/bin/env bash
# From a fresh clone of what is committed here, in the folder given or in a scratch folder: the time of the first report,
# which is of the program compiled without proof; then that of a first build, with when the proof of each crate began and
# ended, its processor time, and the longest chain through them; and that of a report behind it.
set -euo pipefail
top=$(cd "$(dirname "$(readlink -f "$0")")/.." && pwd)
folder=${1:-$(mktemp -d)}
[ $# -gt 0 ] || trap 'rm -rf "$folder"' EXIT
git clone -q "$top" "$folder/clone"
clone=$folder/clone

# Runs the words, whose report goes to the file named first, and prints behind a text the seconds from the call to its end.
timed() {
    local text=$1 report=$2 began=${EPOCHREALTIME/[.,]/} took
    shift 2
    "$@" >"$report"
    took=$((${EPOCHREALTIME/[.,]/} - began))
    printf '%s: %d min %d.%02d s\n' "$text" $((took / 60000000)) $((took / 1000000 % 60)) $((took / 10000 % 100))
}

screen=(screen --case="$clone/examples/valley.toml")
timed "the first report, without proof" "$folder/first" "$clone/gicstudy" "${screen[@]}"
timed "the second, without proof" "$folder/second" "$clone/gicstudy" "${screen[@]}"
timed "proved and built" /dev/null "$clone/gicstudy" --prove
timed "a report of the proved program" "$folder/proved" "$clone/gicstudy" --proved "${screen[@]}"
cmp "$folder/first" "$folder/proved"
cmp "$folder/second" "$folder/proved"
rm -f "$folder/first" "$folder/second" "$folder/proved"
echo
python3 -B "$top/build/times.py" "$clone"
