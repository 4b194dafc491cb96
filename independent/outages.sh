#!/usr/bin/env bash
# Makes the folder of certificates by which judge.py judges a report of `outage`: two for each outage with counts, of the
# event's field to the north and to the east.
#
#     independent/outages.sh --case=C [--switch=S] --report=R --certs=FOLDER [--program=P] [ITEM ..]
#
# With ITEMs only those are made. C and S are the files of the report R. P is the program; where it is not given it is
# ../gicstudy. The certificates of an item are FOLDER/ITEM.north.cert and FOLDER/ITEM.east.cert. The status is 0, 2 where
# the words have a fault, 3 where R can't be read, 14 where it is no report of outage, and else that of the program.
set -eu
here=$(CDPATH='' cd -- "$(dirname -- "$0")" && pwd)

usage() {
    sed -n 's/^#     //p' "$here/outages.sh" >&2
    exit 2
}

program=${here%/*}/gicstudy
case='' switch='' report='' folder='' items=()
for word in "$@"; do
    case $word in
    --case=*) case=${word#*=} ;;
    --switch=*) switch=${word#*=} ;;
    --report=*) report=${word#*=} ;;
    --certs=*) folder=${word#*=} ;;
    --program=*) program=${word#*=} ;;
    '' | *[!A-Za-z0-9_.-]*) usage ;; # no name
    *) items+=("$word") ;;
    esac
done
if [ -z "$case" ] || [ -z "$report" ] || [ -z "$folder" ]; then
    usage
fi
lines=$(cat <"$report") || exit 3
if [ "${lines%%$'\n'*}" != outage ]; then
    echo "outages.sh: no report of outage: $report" >&2
    exit 14
fi
if [ ${#items[@]} = 0 ]; then
    while read -r item; do
        items+=("$item")
    done < <(awk '$1 == "outage" && $3 == "below" { print $2 }' <<<"$lines")
fi
field=$(awk 'NR == 2 { print $6 }' <<<"$lines")
mkdir -p -- "$folder"
rows=$(mktemp)
trap 'rm -f -- "$rows" "$folder"/.cert.$$' EXIT
for item in ${items[@]+"${items[@]}"}; do
    # The item is opened behind all rows of the switchings, at the last second that there is.
    { if [ -n "$switch" ]; then cat <"$switch"; else echo time,item,action; fi; printf '\n4294967295,%s,open\n' "$item"; } >"$rows"
    for side in north east; do
        # A certificate has its name when it is whole.
        "$program" certify --case="$case" --switch="$rows" "--$side=$field" >"$folder/.cert.$$"
        mv -- "$folder/.cert.$$" "$folder/$item.$side.cert"
    done
done
